//! Types of one's own, both ways: the rows of `crates/test_rows`, most of them the original's answers, and values with the bytes that the
//! format gives them. With `--cfg original` (bindings/rust/original) the original encodes and decodes each value too.

#![cfg(feature = "serde")]
#![allow(unexpected_cfgs)]

mod types;

use borsh_proved::{ErrorKind, Schema};
use serde::de::DeserializeOwned;
use serde::Serialize;
use std::borrow::Cow;
use std::collections::{BTreeMap, BTreeSet, HashMap, HashSet, LinkedList, VecDeque};
use std::fmt::Debug;
use std::marker::PhantomData;
use std::net::{IpAddr, Ipv4Addr, Ipv6Addr};
use std::num::*;
use std::rc::Rc;
use std::sync::Arc;
use types::*;

const ROWS: [&str; 11] = [
    include_str!("../../../crates/test_rows/data/replay.tsv"),
    include_str!("../../../crates/test_rows/data/schemas.tsv"),
    include_str!("../../../crates/test_rows/data/generated.tsv"),
    include_str!("../../../crates/test_rows/data/types.tsv"),
    include_str!("../../../crates/test_rows/data/numbers.tsv"),
    include_str!("../../../crates/test_rows/data/lists.tsv"),
    include_str!("../../../crates/test_rows/data/keys.tsv"),
    include_str!("../../../crates/test_rows/data/sums.tsv"),
    include_str!("../../../crates/test_rows/data/addresses.tsv"),
    include_str!("../../../crates/test_rows/data/announced.tsv"),
    include_str!("../../../crates/test_rows/data/refusals.tsv"),
];

/// The bytes of digits, of which `64*100` is a hundred times `64`, and `+` joins parts.
fn bytes(digits: &str) -> Vec<u8> {
    let mut bytes = Vec::new();
    for part in digits.trim_matches('-').split('+') {
        let (digits, count) = part.split_once('*').unwrap_or((part, "1"));
        let byte = |at| u8::from_str_radix(&digits[at..at + 2], 16).unwrap();
        let once: Vec<u8> = (0..digits.len()).step_by(2).map(byte).collect();
        bytes.extend(once.repeat(count.parse().unwrap()));
    }
    bytes
}

/// The rows of this kind about a type: their columns behind its name.
fn rows(kind: &str, name: &str) -> Vec<(&'static str, &'static str)> {
    let row = |line: &'static str| {
        let columns: Vec<&str> = line.split('\t').collect();
        let is_asked = columns[0] == kind && columns.get(1) == Some(&name);
        is_asked.then(|| (columns[2], columns.get(3).copied().unwrap_or("")))
    };
    ROWS.iter()
        .flat_map(|it| it.lines())
        .filter_map(row)
        .collect()
}

fn schema_of(name: &str) -> Schema {
    let (row, _) = rows("schema", name)[0];
    Schema::new(bytes(row.split_once(' ').unwrap().1)).unwrap()
}

#[cfg(not(original))]
mod model {
    use super::*;

    pub trait Model: Serialize + DeserializeOwned {}

    impl<T: Serialize + DeserializeOwned> Model for T {}

    pub fn check<T: Model>(_: &T, _: &[u8]) {}
}

#[cfg(original)]
mod model {
    use super::*;
    use borsh::schema::BorshSchemaContainer;
    use borsh::{BorshDeserialize, BorshSchema, BorshSerialize};

    pub trait Model:
        Serialize + DeserializeOwned + BorshSerialize + BorshDeserialize + BorshSchema
    {
    }

    impl<T> Model for T where
        T: Serialize + DeserializeOwned + BorshSerialize + BorshDeserialize + BorshSchema
    {
    }

    /// The original's schema, and its bytes of the value, say the same.
    pub fn check<T: Model>(value: &T, encoding: &[u8]) {
        let container = BorshSchemaContainer::for_type::<T>();
        let schema = Schema::new(borsh::to_vec(&container).unwrap()).unwrap();
        assert_eq!(borsh::to_vec(value).unwrap(), encoding);
        assert_eq!(schema.encode(value).unwrap(), encoding);
        let again: T = borsh::from_slice(encoding).unwrap();
        assert_eq!(borsh::to_vec(&again).unwrap(), encoding);
        let again: T = schema.decode(encoding).unwrap();
        assert_eq!(borsh::to_vec(&again).unwrap(), encoding);
    }
}

use model::Model;

/// That the type reads and writes as its rows say; how many there are.
fn check_rows<T: Model>(name: &str) -> usize {
    let schema = schema_of(name);
    let rows = rows("read", name);
    for (input, answer) in &rows {
        let decoded = schema.decode::<T>(&bytes(input));
        match answer.strip_prefix("ok ") {
            Some(encoding) => {
                let encoding = bytes(encoding.split('\t').next().unwrap());
                let value = decoded.unwrap_or_else(|error| panic!("{name} {input}: {error}"));
                assert_eq!(schema.encode(&value).unwrap(), encoding, "{name} {input}");
                model::check(&value, &encoding);
            }
            None => assert!(decoded.is_err(), "{name} {input}: {answer}"),
        }
    }
    rows.len()
}

macro_rules! check_types {
    ($($name:literal $type:ty,)*) => {{
        let counts = [$(check_rows::<$type>($name)),*];
        let none = [$($name),*].iter().zip(&counts).find(|it| *it.1 == 0);
        assert_eq!(none, None);
        (counts.len(), counts.iter().sum::<usize>())
    }};
}

#[test]
fn types_read_and_write_as_the_rows_say() {
    let (types, rows) = check_types! {
        "A" A,
        "MyEnum" MyEnum,
        "Marker" Marker,
        "Code" Code,
        "Session" Session,
        "Block" Block,
        "Place" Place,
        "Visits" Visits,
        "Message" Message,
        "Level" Level,
        "XY" XY,
        "Markers<u8, u16>" Markers<u8, u16>,
        "Held<u16, u8>" Held<u16, u8>,
        "Hashed<u8, String>" Hashed<u8, String>,
        "Stock" Stock,
        "Request" Request,
        "Pair<Stock, Request>" Pair<Stock, Request>,
        "Pair<u8, Option<bool>>" Pair<u8, Option<bool>>,
        "BorshSchemaContainer" BorshSchemaContainer,
        "()" (),
        "bool" bool,
        "u8" u8,
        "u32" u32,
        "u64" u64,
        "u128" u128,
        "usize" usize,
        "i16" i16,
        "isize" isize,
        "f32" f32,
        "f64" f64,
        "NonZeroI16" NonZeroI16,
        "String" String,
        "Box<str>" Box<str>,
        "Rc<str>" Rc<str>,
        "Arc<str>" Arc<str>,
        "Cow<str>" Cow<'static, str>,
        "Option<u8>" Option<u8>,
        "Option<Option<u8>>" Option<Option<u8>>,
        "Result<u8, u8>" Result<u8, u8>,
        "(bool,)" (bool,),
        "(u8, bool, u16)" (u8, bool, u16),
        "(u8, u16, u32, u64, i8, i16, i32, i64)" (u8, u16, u32, u64, i8, i16, i32, i64),
        "(NonZeroU8, NonZeroU16, NonZeroU32, NonZeroU64, NonZeroU128, NonZeroUsize, NonZeroI8, NonZeroI16, NonZeroI32, NonZeroI64, NonZeroI128)"
            (NonZeroU8, NonZeroU16, NonZeroU32, NonZeroU64, NonZeroU128, NonZeroUsize, NonZeroI8, NonZeroI16, NonZeroI32, NonZeroI64, NonZeroI128),
        "[Option<u8>; 10]" [Option<u8>; 10],
        "Vec<u8>" Vec<u8>,
        "Box<[u8]>" Box<[u8]>,
        "Rc<[u8]>" Rc<[u8]>,
        "Cow<[u8]>" Cow<'static, [u8]>,
        "VecDeque<u8>" VecDeque<u8>,
        "LinkedList<u8>" LinkedList<u8>,
        "Vec<f32>" Vec<f32>,
        "Vec<String>" Vec<String>,
        "Vec<Vec<u8>>" Vec<Vec<u8>>,
        "Vec<Option<u8>>" Vec<Option<u8>>,
        "Vec<()>" Vec<()>,
        "(Vec<u16>, Vec<bool>, VecDeque<u16>, Box<[u16]>, Rc<[u16]>)"
            (Vec<u16>, Vec<bool>, VecDeque<u16>, Box<[u16]>, Rc<[u16]>),
        "(Box<u8>, Box<u16>, Box<String>, Rc<String>, Rc<Option<u8>>)"
            (Box<u8>, Box<u16>, Box<String>, Rc<String>, Rc<Option<u8>>),
        "(Arc<u8>, Arc<[i32]>)" (Arc<u8>, Arc<[i32]>),
        "(BTreeSet<Arc<str>>, HashMap<Cow<u16>, f32>)"
            (BTreeSet<Arc<str>>, HashMap<Cow<'static, u16>, f32>),
        "BTreeSet<u8>" BTreeSet<u8>,
        "BTreeSet<String>" BTreeSet<String>,
        "HashSet<u8>" HashSet<u8>,
        "HashSet<String>" HashSet<String>,
        "BTreeMap<u8, u8>" BTreeMap<u8, u8>,
        "BTreeMap<u8, BTreeSet<u8>>" BTreeMap<u8, BTreeSet<u8>>,
        "BTreeMap<(), u8>" BTreeMap<(), u8>,
        "BTreeMap<String, String>" BTreeMap<String, String>,
        "HashMap<u8, u8>" HashMap<u8, u8>,
        "HashMap<String, String>" HashMap<String, String>,
        "IpAddr" IpAddr,
        "Ipv4Addr" Ipv4Addr,
        "Ipv6Addr" Ipv6Addr,
    };
    assert!(types >= 40 && rows > 1000, "{types} types, {rows} rows");
}

/// That this is the value of these bytes, and these its bytes.
fn check_value<T: Model + PartialEq + Debug>(name: &str, value: T, digits: &str) {
    let (schema, encoding) = (schema_of(name), bytes(digits));
    assert_eq!(schema.encode(&value).unwrap(), encoding, "{value:?}");
    assert_eq!(schema.decode::<T>(&encoding).unwrap(), value);
    model::check(&value, &encoding);
}

fn text(text: &str) -> String {
    text.to_owned()
}

#[test]
fn values_have_these_bytes() {
    check_value(
        "A",
        A {
            x: 12,
            y: text("hé"),
        },
        "0c00000000000000+03000000+68c3a9",
    );
    check_value("MyEnum", MyEnum::Zero, "00");
    check_value("MyEnum", MyEnum::One(7), "01+07");
    check_value("MyEnum", MyEnum::Many(vec![1, 255]), "02+02000000+01ff");
    check_value("Marker", Marker, "-");
    let session = |user, token| Session {
        user,
        hits: 0,
        token,
    };
    check_value("Session", session(258, [1, 2, 3, 4]), "02010000+01020304");
    check_value("Message", Message::Ping, "00");
    check_value("Message", Message::Text(text("hi")), "01+02000000+6869");
    check_value(
        "Message",
        Message::Move { x: i32::MIN, y: -1 },
        "02+00000080+ffffffff",
    );
    check_value(
        "Message",
        Message::Open(8, session(1, [9; 4])),
        "03+08+01000000+09*4",
    );
    check_value("Message", Message::Tagged([1, 2, 3, 4]), "04+01020304");
    check_value(
        "Message",
        Message::Run {
            id: 520,
            attempts: 0,
        },
        "05+0802",
    );
    check_value("Message", Message::Wait(7, None), "06+07");
    check_value("Message", Message::Stop { reason: 0 }, "07");
    check_value("Level", Level::Low, "14");
    check_value("Level", Level::High, "09");
    check_value("Level", Level::Top, "0a");
    check_value("XY", XY::C, "15");
    check_value("XY", XY::D(12, 14), "16+0c000000+0e000000");
    check_value("XY", XY::F(u64::MAX), "0b+ff*8");
    check_value(
        "Markers<u8, u16>",
        Markers::<u8, u16>::Both(PhantomData, PhantomData),
        "00",
    );
    check_value(
        "Request",
        Request::Cancel { number: 7 },
        "02+0700000000000000",
    );
    let pair = |second| Pair { first: 5u8, second };
    check_value("Pair<u8, Option<bool>>", pair(None), "05+00");
    check_value("Pair<u8, Option<bool>>", pair(Some(true)), "05+0101");
    let some = [(text("b"), 2), (text("aa"), 1)];
    let stock = Stock {
        pieces: some.into(),
        note: Some(text("")),
    };
    check_value(
        "Stock",
        stock,
        "02000000+02000000+6161+01000000+01000000+62+02000000+01+00000000",
    );
    let place = |zone, street| Place {
        zone,
        street: text(street),
    };
    let visits = Visits {
        counts: [(place(2, "a"), 1), (place(1, "b"), u32::MAX)].into(),
        closed: [place(1, "")].into(),
        book: A {
            x: u64::MAX,
            y: text("\"\\\n\u{0}"),
        },
    };
    let places = "02000000+01+01000000+62+ff*4+02+01000000+61+01000000+01000000+01+00000000";
    check_value(
        "Visits",
        visits,
        &format!("{places}+ff*8+04000000+225c0a00"),
    );
    let held = Held::<u16, u8> {
        rows: [vec![1], vec![]],
        map: [(256, None), (3, Some(4))].into(),
        way: Err([5, 6].into()),
        pair: ([7].into(), Rc::new(8)),
        mark: PhantomData,
    };
    let front = "01000000+0100+00000000+02000000+03000000+01+0400+00010000+00";
    check_value(
        "Held<u16, u8>",
        held,
        &format!("{front}+00+02000000+0500+0600+01000000+0700+0800"),
    );
    let both = |none| if none { None } else { Some(7u8) };
    check_value("Option<Option<u8>>", None::<Option<u8>>, "00");
    check_value("Option<Option<u8>>", Some(both(true)), "0100");
    check_value("Option<Option<u8>>", Some(both(false)), "010107");
    check_value("IpAddr", IpAddr::from([192, 168, 0, 1]), "00+c0a80001");
    check_value(
        "IpAddr",
        IpAddr::from([1u16, 2, 3, 4, 5, 6, 7, 8]),
        "01+00010002000300040005000600070008",
    );
    check_value("Result<u8, u8>", Ok::<u8, u8>(1), "01+01");
    check_value("Result<u8, u8>", Err::<u8, u8>(1), "00+01");
}

#[test]
fn numbers_are_exact() {
    for bits in [
        0,
        1 << 63,
        1,
        0x3ff8 << 48,
        0x7ff0 << 48,
        0xfff0 << 48,
        0x7fef_ffff_ffff_ffff,
    ] {
        let number = f64::from_bits(bits);
        let encoding = schema_of("f64").encode(&number).unwrap();
        assert_eq!(encoding, bits.to_le_bytes());
        let again: f64 = schema_of("f64").decode(&encoding).unwrap();
        assert_eq!(again.to_bits(), bits);
    }
    for bits in [
        0,
        1 << 31,
        1,
        0x3fc0 << 16,
        0x7f80 << 16,
        0xff80 << 16,
        0x7f7f_ffff,
    ] {
        let encoding = schema_of("f32").encode(&f32::from_bits(bits)).unwrap();
        assert_eq!(encoding, bits.to_le_bytes());
        let again: f32 = schema_of("f32").decode(&encoding).unwrap();
        assert_eq!(again.to_bits(), bits);
    }
    for number in [u64::MAX, u64::MAX - 1, (1 << 53) + 1, 0] {
        assert_eq!(
            schema_of("u64").encode(&number).unwrap(),
            number.to_le_bytes()
        );
        assert_eq!(
            schema_of("u64").decode::<u64>(&number.to_le_bytes()),
            Ok(number)
        );
    }
    for number in [u128::MAX, 1 << 64, 0] {
        assert_eq!(
            schema_of("u128").encode(&number).unwrap(),
            number.to_le_bytes()
        );
        assert_eq!(
            schema_of("u128").decode::<u128>(&number.to_le_bytes()),
            Ok(number)
        );
    }
    for number in [i64::MIN, -1, i64::MAX] {
        assert_eq!(
            schema_of("isize").encode(&number).unwrap(),
            number.to_le_bytes()
        );
        assert_eq!(
            schema_of("isize").decode::<i64>(&number.to_le_bytes()),
            Ok(number)
        );
    }
}

fn names(names: &[&str]) -> Vec<String> {
    names.iter().map(|&it| text(it)).collect()
}

fn list_of(element: &str) -> Definition {
    Definition::Sequence {
        length_width: 4,
        length_range: 0..=u64::from(u32::MAX),
        elements: text(element),
    }
}

fn fields(fields: &[(&str, &str)]) -> Definition {
    let fields = fields.iter().map(|it| (text(it.0), text(it.1))).collect();
    Definition::Struct {
        fields: Fields::NamedFields(fields),
    }
}

/// The schema with these definitions, beside those of bytes, texts, numbers and places.
fn container(root: &str, own: &[(&str, Definition)]) -> Schema {
    let own = own.iter().map(|it| (text(it.0), it.1.clone()));
    let known = [
        (text("u8"), Definition::Primitive(1)),
        (text("u32"), Definition::Primitive(4)),
        (text("u64"), Definition::Primitive(8)),
        (text("f32"), Definition::Primitive(4)),
        (text("f64"), Definition::Primitive(8)),
        (text("()"), Definition::Tuple { elements: vec![] }),
        (text("String"), list_of("u8")),
        (
            text("Place"),
            fields(&[("zone", "u8"), ("street", "String")]),
        ),
    ];
    let container = BorshSchemaContainer {
        declaration: text(root),
        definitions: own.chain(known).collect(),
    };
    let encoding = schema_of("BorshSchemaContainer")
        .encode(&container)
        .unwrap();
    let schema = Schema::new(encoding).unwrap();
    schema.validate().unwrap();
    schema
}

fn pair(parts: &[&str]) -> Definition {
    Definition::Tuple {
        elements: names(parts),
    }
}

/// That a hashed set has the bytes of an ordered one, of which the library checks the order.
fn check_sorted<T: Model + Ord + std::hash::Hash + Debug>(
    element: &str,
    own: &[(&str, Definition)],
    elements: impl Iterator<Item = T>,
) {
    let (hashed, sorted) = (
        format!("HashSet<{element}>"),
        format!("BTreeSet<{element}>"),
    );
    let list = list_of(element);
    let own = [own, &[(&hashed, list.clone()), (&sorted, list)]].concat();
    let set: HashSet<T> = elements.collect();
    let encoding = container(&hashed, &own).encode(&set).unwrap();
    let again: BTreeSet<T> = container(&sorted, &own).decode(&encoding).unwrap();
    assert_eq!(again.len(), set.len());
    assert_eq!(container(&sorted, &own).encode(&again).unwrap(), encoding);
    assert_eq!(
        container(&hashed, &own)
            .decode::<HashSet<T>>(&encoding)
            .unwrap(),
        set
    );
}

#[test]
fn what_a_type_gives_in_any_order_is_sorted() {
    let numbers = || (0..300u64).map(|it| it.wrapping_mul(0x9e37_79b9_7f4a_7c15));
    check_sorted("u64", &[], numbers());
    check_sorted("u8", &[], numbers().map(|it| it as u8));
    check_sorted(
        "i128",
        &[("i128", Definition::Primitive(16))],
        numbers().map(|it| i128::from(it as i64)),
    );
    check_sorted(
        "String",
        &[],
        numbers().map(|it| format!("{it:x}")[..it as usize % 9 + 1].to_owned()),
    );
    let list = [("Vec<u8>", list_of("u8"))];
    check_sorted(
        "Vec<u8>",
        &list,
        numbers().map(|it| it.to_le_bytes()[..it as usize % 9].to_vec()),
    );
    let list = [("Vec<u64>", list_of("u64"))];
    check_sorted(
        "Vec<u64>",
        &list,
        numbers().map(|it| vec![it % 3; it as usize % 4]),
    );
    let row = [("(u8, String)", pair(&["u8", "String"]))];
    check_sorted(
        "(u8, String)",
        &row,
        numbers().map(|it| (it as u8 % 4, it.to_string())),
    );
    let map = [
        ("BTreeMap<u64, u8>", list_of("(u64, u8)")),
        ("(u64, u8)", pair(&["u64", "u8"])),
    ];
    check_sorted(
        "BTreeMap<u64, u8>",
        &map,
        numbers().map(|it| BTreeMap::from([(it % 20, 1u8), (it % 7, 2)])),
    );
    let some = |none: &str, of: &str| Definition::Enum {
        tag_width: 1,
        variants: vec![(0, text("None"), text(none)), (1, text("Some"), text(of))],
    };
    let options = [
        ("Option<u8>", some("()", "u8")),
        ("Option<Option<u8>>", some("()", "Option<u8>")),
    ];
    let both = |it: u64| (it % 5 > 0).then(|| (it % 3 > 0).then_some(it as u8));
    check_sorted("Option<Option<u8>>", &options, numbers().map(both));

    // Keys that an object can't have, and one whose order the schema doesn't say.
    let map = [
        ("HashMap<(u8, String), u8>", list_of("((u8, String), u8)")),
        ("((u8, String), u8)", pair(&["(u8, String)", "u8"])),
        row[0].clone(),
    ];
    let entries = || numbers().map(|it| ((it as u8 % 9, it.to_string()), it as u8));
    let encoding = container(map[0].0, &map)
        .encode(&entries().collect::<HashMap<_, _>>())
        .unwrap();
    let mut sorted: Vec<_> = entries().collect();
    sorted.sort();
    let as_list = [
        ("Vec<((u8, String), u8)>", list_of("((u8, String), u8)")),
        map[1].clone(),
        map[2].clone(),
    ];
    assert_eq!(
        container(as_list[0].0, &as_list).encode(&sorted).unwrap(),
        encoding
    );
    let places = container("HashSet<Place>", &[("HashSet<Place>", list_of("Place"))]);
    let place = |zone| Place {
        zone,
        street: text(""),
    };
    assert!(places.encode(&HashSet::from([place(1)])).is_ok());
    let error = places
        .encode(&HashSet::from([place(1), place(2)]))
        .unwrap_err();
    let wanted = "\"HashSet<Place>\": they come in any order, and the schema doesn't say how values of `Place` are ordered: use an ordered set or map";
    assert_eq!(error.to_string(), wanted);
}

/// What is said of a value of another type.
fn refused<T: Serialize>(name: &str, value: &T) -> String {
    let error = schema_of(name).encode(value).unwrap_err();
    assert_eq!(error.kind(), ErrorKind::No);
    assert!(
        error.to_string().starts_with(error.path().unwrap()),
        "{error}"
    );
    error.to_string()
}

fn unread<T: Serialize + DeserializeOwned>(name: &str, digits: &str) -> String {
    match schema_of(name).decode::<T>(&bytes(digits)) {
        Ok(value) => panic!("{:?}", serde_json::to_string(&value)),
        Err(error) => {
            assert_eq!(error.kind(), ErrorKind::No);
            error.to_string()
        }
    }
}

#[test]
fn types_that_do_not_fit_are_refused_with_the_path() {
    #[derive(Serialize, serde::Deserialize)]
    struct Other<X, Y> {
        x: X,
        y: Y,
    }
    #[derive(Serialize, serde::Deserialize)]
    #[serde(deny_unknown_fields)]
    struct Half {
        x: u64,
    }
    let session = Session {
        user: 1,
        hits: 2,
        token: [0; 4],
    };
    let said = [
        refused("A", &Other { x: 1u64, y: 1.5f64 }),
        refused(
            "A",
            &Other {
                x: text("7"),
                y: text(""),
            },
        ),
        refused("A", &BTreeMap::from([("x", 1)])),
        refused("A", &session),
        refused("A", &Half { x: 1 }),
        refused("u8", &256u32),
        refused("u8", &-1i8),
        refused("f32", &1.5f64),
        refused("f64", &1u8),
        refused("f64", &f64::NAN),
        refused("Vec<u8>", &"0x00"),
        refused("Vec<u8>", &1.5f32),
        refused("Vec<u8>", &[1u16, 256]),
        refused("String", &1.5f32),
        refused("MyEnum", &Message::Ping),
        refused("Message", &Half { x: 1 }),
        refused("(u8, bool, u16)", &(1u8, true, 2u16, 3u8)),
        refused("(u8, bool, u16)", &(1u8, true)),
        refused("BTreeSet<String>", &["b", "a"]),
    ];
    let wanted = [
        "A.y: an `f64`, where the schema has `String`",
        "A.x: a text, where the schema has `u64`",
        "A: a map, where the schema has `A`",
        "A.user: the schema has no such field",
        "A.y: missing",
        "u8: expected a whole number of 8 bits, unsigned",
        "u8: expected a whole number of 8 bits, unsigned",
        "f32: an `f64`, where the schema has `f32`",
        "f64: a whole number, where the schema has `f64`",
        "f64: expected a number, \"inf\" or \"-inf\"",
        "\"Vec<u8>\": a text, where the schema has `Vec<u8>`",
        "\"Vec<u8>\": an `f32`, where the schema has `Vec<u8>`",
        "\"Vec<u8>\"[1]: expected a whole number of 8 bits, unsigned",
        "String: an `f32`, where the schema has `String`",
        "MyEnum: a variant `Ping`, where the schema has `MyEnum`",
        "Message: a struct, where the schema has `Message`",
        "\"(u8, bool, u16)\": it has more parts than in the schema",
        "\"(u8, bool, u16)\": expected an array of 3",
        "\"BTreeSet<String>\"[1]: not above the one before it",
    ];
    assert_eq!(said, wanted);
    let zeros = "0c00000000000000+00000000";
    let said = [
        unread::<Other<String, String>>("A", zeros),
        unread::<Other<f64, String>>("A", zeros),
        unread::<Other<u8, String>>("A", "0001000000000000+00000000"),
        unread::<A>("A", "0c00000000000000+01000000"),
        unread::<f32>("f64", "000000000000f03f"),
        unread::<f64>("f32", "0000c03f"),
        unread::<(u8, bool)>("(u8, bool, u16)", "01010000"),
        unread::<(u8, bool, u16, u8)>("(u8, bool, u16)", "01010000"),
        unread::<MyEnum>("Message", "00"),
        unread::<Vec<u8>>("Vec<Option<u8>>", "02000000+0107+00"),
        unread::<Half>("A", zeros),
    ];
    let wanted = [
        "A.x: invalid type: integer `12`, expected a string",
        "A.x: `u64` in the schema, where the type has an `f64`",
        "A.x: invalid value: integer `256`, expected u8",
        "A.y (`String` at byte 8): too few bytes are left",
        "f64: `f64` in the schema, where the type has an `f32`",
        "f32: `f32` in the schema, where the type has an `f64`",
        "\"(u8, bool, u16)\": it has more parts in the schema",
        "\"(u8, bool, u16)\": invalid length 3, expected a tuple of size 4",
        "Message: unknown variant `Ping`, expected one of `Zero`, `One`, `Many`",
        "\"Vec<Option<u8>>\"[0]::Some: invalid type: Option value, expected u8",
        "A: unknown field `y`, expected `x`",
    ];
    assert_eq!(said, wanted);
}

#[test]
fn values_that_nest_deep_are_refused() {
    #[derive(Debug, PartialEq, Serialize, serde::Deserialize)]
    struct Tree {
        below: Vec<Tree>,
    }
    let own = [
        ("Tree", fields(&[("below", "Vec<Tree>")])),
        ("Vec<Tree>", list_of("Tree")),
    ];
    let schema = container("Tree", &own);
    let tree = |depth| (0..depth).fold(Tree { below: vec![] }, |it, _| Tree { below: vec![it] });
    let encoding = schema.encode(&tree(60)).unwrap();
    assert_eq!(
        encoding,
        [1u32.to_le_bytes().repeat(60), vec![0; 4]].concat()
    );
    assert_eq!(schema.decode::<Tree>(&encoding).unwrap(), tree(60));
    for depth in [64, 79, 80, 1000] {
        let error = schema.encode(&tree(depth)).unwrap_err().to_string();
        assert!(error.ends_with(": nests more than 128 deep"), "{error}");
    }
}

#[test]
fn values_without_a_type_of_their_own_and_bytes() {
    let json = |name, digits| {
        schema_of(name)
            .decode::<serde_json::Value>(&bytes(digits))
            .unwrap()
    };
    let visits = "00000000+00000000+0c00000000000000+00000000";
    let wanted = serde_json::json!({"counts": {}, "closed": [], "book": {"x": 12, "y": ""}});
    assert_eq!(json("Visits", visits), wanted);
    assert_eq!(json("f64", "000000000000f83f"), 1.5);
    assert_eq!(json("Message", "00"), "Ping");
    assert_eq!(
        json("Message", "02+01000000+ffffffff"),
        serde_json::json!({"Move": {"x": 1, "y": -1}})
    );
    assert_eq!(json("Option<u8>", "00"), serde_json::Value::Null);
    assert_eq!(json("Vec<u8>", "02000000+0102"), serde_json::json!([1, 2]));

    /// Bytes as serde_bytes has them.
    #[derive(Debug, PartialEq)]
    struct Bytes(Vec<u8>);

    impl Serialize for Bytes {
        fn serialize<S: serde::Serializer>(&self, serializer: S) -> Result<S::Ok, S::Error> {
            serializer.serialize_bytes(&self.0)
        }
    }

    struct Taker;

    impl serde::de::Visitor<'_> for Taker {
        type Value = Bytes;

        fn expecting(&self, f: &mut std::fmt::Formatter<'_>) -> std::fmt::Result {
            f.write_str("bytes")
        }

        fn visit_byte_buf<E>(self, bytes: Vec<u8>) -> Result<Bytes, E> {
            Ok(Bytes(bytes))
        }
    }

    impl<'de> serde::Deserialize<'de> for Bytes {
        fn deserialize<D: serde::Deserializer<'de>>(deserializer: D) -> Result<Bytes, D::Error> {
            deserializer.deserialize_byte_buf(Taker)
        }
    }

    let value = Bytes(vec![0, 171, 255]);
    let encoding = schema_of("Vec<u8>").encode(&value).unwrap();
    assert_eq!(encoding, bytes("03000000+00abff"));
    assert_eq!(schema_of("Vec<u8>").decode::<Bytes>(&encoding), Ok(value));
}
