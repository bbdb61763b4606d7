//! Writes rows of values with the JSON that `serde_json` prints for them; each type has its default derive, and its definition in
//! `crates/test_values/data/formats.tsv`.
use serde::Serialize;
use std::collections::{BTreeMap, BTreeSet, HashMap, HashSet};
use std::net::{IpAddr, Ipv4Addr};
use std::num::NonZeroU8;
use std::ops::Range;

#[derive(Serialize)]
struct Unit;

#[derive(Serialize)]
struct NoNames();

#[derive(Serialize)]
struct NoFields {}

#[derive(Serialize, PartialEq, Eq, PartialOrd, Ord)]
struct New(u8);

#[derive(Serialize)]
struct Newer(New);

#[derive(Serialize)]
struct Pair(u8, bool);

#[derive(Serialize)]
struct Half(u8, ());

#[derive(Serialize)]
struct A {
    x: u64,
    y: String,
}

#[derive(Serialize)]
struct Nested {
    list: Vec<A>,
    new: Option<Newer>,
    by_name: BTreeMap<String, [Set; 2]>,
    end: (),
}

#[derive(Serialize)]
enum Set {
    Empty,
    Set(u8),
    Two(u8, bool),
    Named { x: u64, y: String },
    None(Option<u8>),
    Void(()),
}

fn text(text: &str) -> String {
    text.to_string()
}

/// A row of a value whose JSON is what `serde_json` prints.
fn same(name: &str, bytes: &str, value: impl Serialize) {
    println!("value\t{name}\t{bytes}\t{}", serde_json::to_string(&value).unwrap());
}

/// Rows of a value with JSON of its own, and of what is read of the text that `serde_json` prints for it.
fn other(name: &str, bytes: &str, json: &str, read: &str, value: impl Serialize) {
    let printed = serde_json::to_string(&value).unwrap();
    assert_ne!(json, printed, "{name}");
    println!("value\t{name}\t{bytes}\t{json}\ntext\t{name}\t{read}\t{printed}");
}

fn main() {
    println!("# as serde_json prints it\n# from: conformance/replay/serde_json, which asks serde_json");
    same("bool", "01", true);
    same("u8", "ff", u8::MAX);
    same("u64", "ff*8", u64::MAX);
    same("i64", "00*7+80", i64::MIN);
    same("NonZeroU8", "07", NonZeroU8::new(7));
    same("f32", "0000c03f", 1.5f32);
    same("f32", "00000080", -0.0f32);
    same("String", "0b000000+225c2f0a081b7fc3a94100", "\"\\/\n\u{8}\u{1b}\u{7f}éA\0");
    same("()", "-", ());
    same("Unit", "-", Unit);
    same("New", "07", New(7));
    same("Newer", "07", Newer(New(7)));
    same("Pair", "0501", Pair(5, true));
    same("Half", "07", Half(7, ()));
    same("A", "0c00000000000000+0100000061", A { x: 12, y: text("a") });
    same("(u8,)", "07", (7u8,));
    same("(u8, String)", "07+00000000", (7u8, ""));
    same("Range<u8>", "0307", Range { start: 3u8, end: 7 });
    same("Option<u8>", "00", None::<u8>);
    same("Option<u8>", "0107", Some(7u8));
    same("Option<String>", "0100000000", Some(""));
    same("Option<Newer>", "0107", Some(Newer(New(7))));
    same("Vec<u16>", "02000000+0100+0200", vec![1u16, 2]);
    same("[u16; 2]", "0100+0200", [1u16, 2]);
    same("BTreeSet<String>", "02000000+020000006161+0100000062", BTreeSet::from(["b", "aa"]));
    same("BTreeSet<i16>", "02000000+ffff+0100", BTreeSet::from([1i16, -1]));
    same("BTreeSet<Option<u8>>", "02000000+00+0101", BTreeSet::from([Some(1u8), None]));
    same("HashSet<u16>", "01000000+0700", HashSet::from([7u16]));
    same("BTreeMap<String, u64>", "00000000", BTreeMap::<String, u64>::new());
    same(
        "BTreeMap<String, u64>",
        "02000000+020000006161+0100000000000000+0100000062+0200000000000000",
        BTreeMap::from([("b", 2u64), ("aa", 1)]),
    );
    same("HashMap<u16, ()>", "01000000+ff00", HashMap::from([(255u16, ())]));
    same("BTreeMap<i8, u8>", "02000000+ff01+0102", BTreeMap::from([(1i8, 2u8), (-1, 1)]));
    same("BTreeMap<u128, bool>", "01000000+ff*16+01", BTreeMap::from([(u128::MAX, true)]));
    same("Set", "00", Set::Empty);
    same("Set", "0107", Set::Set(7));
    same("Set", "020501", Set::Two(5, true));
    same("Set", "03+0c00000000000000+0100000061", Set::Named { x: 12, y: text("a") });
    same("Set", "0400", Set::None(None));
    same("Result<u8, String>", "0107", Ok::<u8, String>(7));
    same("Result<u8, String>", "00+0100000061", Err::<u8, &str>("a"));
    same(
        "Nested",
        "01000000+0c00000000000000+0100000061+0107+01000000+0100000062+00+0107",
        Nested {
            list: vec![A { x: 12, y: text("a") }],
            new: Some(Newer(New(7))),
            by_name: BTreeMap::from([(text("b"), [Set::Empty, Set::Set(7)])]),
            end: (),
        },
    );
    println!("# otherwise than serde_json prints it");
    println!("# from: docs/TOOL.md; the text below each is what serde_json prints, by conformance/replay/serde_json");
    other("NoNames", "-", "null", "! NoNames: expected null", NoNames());
    other("NoFields", "-", "null", "! NoFields: expected null", NoFields {});
    let no_value = "! Set: expected the variant's name alone, since it has no value";
    other("Set", "05", "\"Void\"", no_value, Set::Void(()));
    other("Vec<u8>", "0200000001ff", "\"0x01ff\"", "0200000001ff", vec![1u8, 255]);
    other("[u8; 3]", "010203", "\"0x010203\"", "010203", [1u8, 2, 3]);
    other("BTreeSet<u8>", "020000000102", "\"0x0102\"", "020000000102", BTreeSet::from([2u8, 1]));
    let decimal = "! u128: expected a decimal string of 128 bits, unsigned";
    other("u128", "07+00*15", "\"7\"", decimal, 7u128);
    let number = "! f32: expected a number, \"inf\" or \"-inf\"";
    other("f32", "0000807f", "\"inf\"", number, f32::INFINITY);
    let variant = "! Option<Option<u8>>: expected a variant: \"Name\" or {\"Name\": value}";
    other("Option<Option<u8>>", "0100", "{\"Some\":null}", variant, Some(None::<u8>));
    other("Option<Option<u8>>", "00", "\"None\"", variant, None::<Option<u8>>);
    let variant = "! Option<()>: expected a variant: \"Name\" or {\"Name\": value}";
    other("Option<()>", "01", "\"Some\"", variant, Some(()));
    let array = "! BTreeMap<New, u8>: expected an array";
    other("BTreeMap<New, u8>", "01000000+0201", "[[2,1]]", array, BTreeMap::from([(New(2), 1u8)]));
    let ip = IpAddr::V4(Ipv4Addr::new(127, 0, 0, 1));
    let variant = "! IpAddr: `127.0.0.1` isn't in the schema";
    other("IpAddr", "007f000001", "{\"V4\":{\"octets\":\"0x7f000001\"}}", variant, ip);
}
