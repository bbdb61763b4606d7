//! Times this library and the original on the same values, in turn, in one program. Prints one line for each kind of
//! value and action: the kind, the action, microseconds of ours and of the original.
use borsh::schema::{BorshSchemaContainer, Definition, Fields};
use borsh::{BorshDeserialize, BorshSchema, BorshSerialize, from_slice, object_length, to_vec};
use indexmap::IndexMap;
use std::collections::{BTreeMap, BTreeSet, HashMap, VecDeque};
use std::hint::black_box;
use std::io::{self, Read, Write};
use std::net::{IpAddr, Ipv4Addr, Ipv6Addr};
use std::time::Instant;
use uuid::Uuid;

unsafe extern "C" {
    fn ours(kind: u32, action: u32, bytes: *const u8, len: usize, rounds: usize) -> usize;
    fn ours_of_container(sizes: bool, bytes: *const u8, len: usize, rounds: usize) -> usize;
    fn ours_by_container(
        gives_nodes: bool,
        schema: *const u8,
        schema_len: usize,
        bytes: *const u8,
        len: usize,
        rounds: usize,
    ) -> usize;
    fn ours_refuses(bytes: *const u8, len: usize, rounds: usize) -> usize;
    fn ours_of_lines(lines: *const u8, len: usize, rounds: usize) -> usize;
}

const TURNS: usize = 6;
const ACTIONS: [&str; 4] = ["write", "read", "length", "write and read"];
const BOTH: usize = 3;

/// The least time of a round in microseconds, of each of the two, run in turn. A turn has `rounds` rounds; the least time
/// of a turn without rounds, which decodes the value alone, is taken off.
fn compare(rounds: usize, mine: impl Fn(usize) -> usize, other: impl Fn(usize) -> usize) -> [f64; 2] {
    let works: [&dyn Fn(usize) -> usize; 2] = [&mine, &other];
    let mut whole = [f64::MAX; 2];
    let mut empty = [f64::MAX; 2];
    let wanted = other(rounds);
    for _ in 0..TURNS {
        for (n, work) in works.iter().enumerate() {
            let start = Instant::now();
            work(0);
            empty[n] = empty[n].min(start.elapsed().as_secs_f64());
            let start = Instant::now();
            assert_eq!(work(rounds), wanted);
            whole[n] = whole[n].min(start.elapsed().as_secs_f64());
        }
    }
    [0, 1].map(|n| (whole[n] - empty[n]).max(0.0) * 1e6 / rounds as f64)
}

/// What is decoded goes into a list, as ours does.
fn theirs<T: BorshSerialize + BorshDeserialize>(action: usize, bytes: &[u8], rounds: usize) -> usize {
    let mut kept = Vec::new();
    if action == 1 {
        for _ in 0..rounds {
            kept.push(from_slice::<T>(black_box(bytes)).unwrap());
            black_box(&kept);
            kept.clear();
        }
        return bytes.len() * rounds;
    }
    let value: T = from_slice(bytes).unwrap();
    let mut sum = 0;
    for _ in 0..rounds {
        sum += match action {
            0 => black_box(to_vec(black_box(&value)).unwrap()).len(),
            BOTH => {
                let bytes = black_box(to_vec(black_box(&value)).unwrap());
                kept.push(from_slice::<T>(black_box(&bytes)).unwrap());
                black_box(&kept);
                kept.clear();
                bytes.len()
            }
            _ => black_box(object_length(black_box(&value)).unwrap()),
        };
    }
    sum
}

/// A struct whose fields are encoded in order, as the original's derive writes it; so that it isn't needed.
macro_rules! record {
    ($name:ident { $($field:ident: $type:ty,)* }) => {
        #[derive(Clone)]
        struct $name {
            $($field: $type,)*
        }

        impl BorshSerialize for $name {
            fn serialize<W: Write>(&self, writer: &mut W) -> io::Result<()> {
                $(BorshSerialize::serialize(&self.$field, writer)?;)*
                Ok(())
            }
        }

        impl BorshDeserialize for $name {
            fn deserialize_reader<R: Read>(reader: &mut R) -> io::Result<Self> {
                Ok(Self { $($field: BorshDeserialize::deserialize_reader(reader)?,)* })
            }
        }
    };
}

record!(Order {
    number: u64,
    buyer: String,
    seller: [u8; 32],
    amount: u128,
    change: i64,
    is_open: bool,
    note: Option<String>,
    tags: Vec<String>,
    parts: Vec<u32>,
    share: f64,
    place: (u8, u16),
    address: IpAddr,
});

record!(Transfer {
    from: [u8; 32],
    to: [u8; 32],
    amount: u64,
    nonce: u32,
});

fn order(n: u64) -> Order {
    Order {
        number: n,
        buyer: format!("buyer {n}"),
        seller: [n as u8; 32],
        amount: u128::from(n) << 70,
        change: 500 - n as i64,
        is_open: n % 2 == 0,
        note: Some(format!("left at door {n}")).filter(|_| n % 3 == 0),
        tags: (0..n % 4).map(|tag| format!("tag {tag}")).collect(),
        parts: (0..n as u32 % 8).collect(),
        share: n as f64 / 3.0,
        place: (n as u8, n as u16),
        address: IpAddr::V4(Ipv4Addr::from(n as u32)),
    }
}

fn print(kind: &str, action: &str, [mine, other]: [f64; 2]) {
    println!("{kind}\t{action}\t{mine:.4}\t{other:.4}");
}

/// Whether this kind is asked for: every one, or those whose names have the program's argument in them.
fn is_wanted(name: &str) -> bool {
    std::env::args().nth(1).is_none_or(|part| name.contains(&part))
}

fn row<T: BorshSerialize + BorshDeserialize>(kind: u32, name: &str, value: T) {
    if !is_wanted(name) {
        return;
    }
    let bytes = to_vec(&value).unwrap();
    // Some megabytes a turn.
    let rounds = (1 << 22) / bytes.len().max(64) + 4;
    let actions = if bytes.len() < 100 { 4 } else { 3 };
    for (action, word) in ACTIONS.iter().enumerate().take(actions) {
        // Counting takes little time beside the decoding that is taken off.
        let rounds = if *word == "length" { 16 * rounds } else { rounds };
        let times = compare(
            rounds,
            |n| unsafe { ours(kind, action as u32, bytes.as_ptr(), bytes.len(), n) },
            |n| theirs::<T>(action, &bytes, n),
        );
        print(name, word, times);
    }
}

fn container(name: &str, value: &BorshSchemaContainer, rounds: usize, with_original: bool) {
    if !is_wanted(name) {
        return;
    }
    let bytes = to_vec(value).unwrap();
    for (sizes, word) in [(false, "validate"), (true, "size")] {
        let mine = |n| unsafe { ours_of_container(sizes, bytes.as_ptr(), bytes.len(), n) };
        let times = if with_original {
            compare(rounds, mine, |n| {
                (0..n)
                    .filter(|_| match black_box(sizes) {
                        true => black_box(value.max_serialized_size()).is_ok(),
                        false => black_box(value.validate()).is_ok(),
                    })
                    .count()
            })
        } else {
            [compare(rounds, mine, mine)[0], f64::NAN]
        };
        print(name, word, times);
    }
}

/// By the type's container alone, against decoding the type with the original.
fn by_container<T: BorshSerialize + BorshDeserialize + BorshSchema>(name: &str, value: T) {
    let bytes = to_vec(&value).unwrap();
    let schema = to_vec(&BorshSchemaContainer::for_type::<T>()).unwrap();
    values(name, &schema, &bytes, |n| theirs::<T>(1, &bytes, n));
}

fn values(name: &str, schema: &[u8], bytes: &[u8], other: impl Fn(usize) -> usize) {
    if !is_wanted(name) {
        return;
    }
    for (gives_nodes, word) in [(false, "is_member"), (true, "Preorder")] {
        let mine = |n| unsafe {
            ours_by_container(gives_nodes, schema.as_ptr(), schema.len(), bytes.as_ptr(), bytes.len(), n)
        };
        print(name, word, compare(5, mine, &other));
    }
}

/// The same where the original has nothing to compare with.
fn values_alone(name: &str, schema: &BorshSchemaContainer, bytes: &[u8]) {
    if !is_wanted(name) {
        return;
    }
    let schema = to_vec(schema).unwrap();
    for (gives_nodes, word) in [(false, "is_member"), (true, "Preorder")] {
        let mine = |n| unsafe {
            ours_by_container(gives_nodes, schema.as_ptr(), schema.len(), bytes.as_ptr(), bytes.len(), n)
        };
        print(name, word, [compare(2, mine, mine)[0], f64::NAN]);
    }
}

/// A container of `count` structs, of which each refers to those that `parts` names, and the last ones to `u64`.
fn structs(count: usize, parts: impl Fn(usize) -> Vec<usize>) -> BorshSchemaContainer {
    let name = |n: usize| if n < count { format!("S{n}") } else { "u64".to_string() };
    let mut definitions = BTreeMap::new();
    definitions.insert("u64".to_string(), Definition::Primitive(8));
    for n in 0..count {
        let fields = Fields::UnnamedFields(parts(n).into_iter().map(name).collect());
        definitions.insert(name(n), Definition::Struct { fields });
    }
    BorshSchemaContainer::new(name(0), definitions)
}

fn refusals() {
    let name = "Vec<u8> that announces 16 MiB and has a byte";
    if !is_wanted(name) {
        return;
    }
    let bytes = [0xff, 0xff, 0xff, 0, 7];
    let rounds = 200;
    let times = compare(
        rounds,
        |n| unsafe { ours_refuses(bytes.as_ptr(), bytes.len(), n) },
        |n| (0..n).filter(|_| black_box(from_slice::<Vec<u8>>(black_box(&bytes))).is_err()).count(),
    );
    print(name, "read", times);
}

/// The program's lines, `read WORD HEX`, against a plain program over the original that answers the same lines.
fn lines() {
    let name = "10000 lines of the program";
    if !is_wanted(name) {
        return;
    }
    let mut lines = String::new();
    for n in 0..10_000u64 {
        let (word, bytes) = match n % 4 {
            0 => ("u64", to_vec(&n).unwrap()),
            1 => ("string", to_vec(&format!("text {n}")).unwrap()),
            2 => ("list-u8", to_vec(&vec![n as u8; 24]).unwrap()),
            // Refused: there is a byte too few.
            _ => ("string", to_vec(&format!("text {n}")).unwrap()[..8].to_vec()),
        };
        lines += &format!("read {word} {}\n", to_hex(&bytes));
    }
    let times = compare(
        20,
        |n| unsafe { ours_of_lines(lines.as_ptr(), lines.len(), n) },
        |n| (0..n).map(|_| answers(black_box(&lines)).len()).sum(),
    );
    print(name, "answer", times);
}

fn answers(lines: &str) -> String {
    let mut answers = String::new();
    for line in lines.lines() {
        let mut words = line.splitn(3, ' ');
        let answer = match (words.next(), words.next(), words.next().and_then(from_hex)) {
            (Some("read"), Some("u64"), Some(bytes)) => encoded_again::<u64>(&bytes),
            (Some("read"), Some("string"), Some(bytes)) => encoded_again::<String>(&bytes),
            (Some("read"), Some("list-u8"), Some(bytes)) => encoded_again::<Vec<u8>>(&bytes),
            _ => "error line".to_string(),
        };
        answers += &answer;
        answers.push('\n');
    }
    answers
}

fn encoded_again<T: BorshSerialize + BorshDeserialize>(bytes: &[u8]) -> String {
    match from_slice::<T>(bytes).and_then(|value| to_vec(&value)) {
        Ok(bytes) => format!("ok {}", to_hex(&bytes)),
        Err(error) => format!("error {error}"),
    }
}

fn to_hex(bytes: &[u8]) -> String {
    let digits = b"0123456789abcdef";
    let mut text = String::with_capacity(2 * bytes.len());
    for byte in bytes {
        text.push(digits[usize::from(byte >> 4)] as char);
        text.push(digits[usize::from(byte & 15)] as char);
    }
    text
}

fn from_hex(text: &str) -> Option<Vec<u8>> {
    let digit = |digit: u8| (digit as char).to_digit(16).map(|digit| digit as u8);
    if text.len() % 2 > 0 {
        return None;
    }
    let pairs = text.as_bytes().chunks_exact(2);
    pairs.map(|pair| Some(digit(pair[0])? << 4 | digit(pair[1])?)).collect()
}

fn main() {
    let many = 65536u64;
    let fewer = 16384u64;
    row(0, "Vec<u8>, 1 MiB", (0..1 << 20).map(|n| n as u8).collect::<Vec<u8>>());
    row(1, "Vec<u64>", (0..many).collect::<Vec<u64>>());
    row(2, "Vec<u32>", (0..many as u32).collect::<Vec<u32>>());
    row(3, "Vec<u128>", (0..many).map(|n| u128::from(n) << 60).collect::<Vec<_>>());
    row(4, "Vec<bool>", (0..many).map(|n| n % 3 == 0).collect::<Vec<_>>());
    row(5, "Vec<Option<u64>>", (0..many).map(|n| Some(n).filter(|n| n % 3 > 0)).collect::<Vec<_>>());
    row(6, "Vec<(u32, (bool, u16))>", (0..many).map(|n| (n as u32, (n % 2 == 0, n as u16))).collect::<Vec<_>>());
    row(7, "Vec<(u64, u64, u64)>", (0..many).map(|n| (n, n + 1, n + 2)).collect::<Vec<_>>());
    row(8, "Vec<String>, short", (0..many).map(|n| format!("text {n}")).collect::<Vec<_>>());
    row(9, "String, 1 MiB", "text".repeat(1 << 18));
    row(10, "Vec<Vec<u8>> of 32", (0..many).map(|n| vec![n as u8; 32]).collect::<Vec<_>>());
    row(11, "Vec<Vec<u64>>, 8192 of 16", (0..8192).map(|n| vec![n; 16]).collect::<Vec<Vec<u64>>>());
    row(12, "BTreeMap<u64, u64>", (0..many).map(|n| (n, n)).collect::<BTreeMap<_, _>>());
    row(
        13,
        "BTreeMap<String, Vec<u8>>, 16384",
        (0..fewer).map(|n| (format!("key {n:06}"), vec![n as u8; 16])).collect::<BTreeMap<_, _>>(),
    );
    row(14, "HashMap<u64, u64>", (0..many).map(|n| (n, n)).collect::<HashMap<_, _>>());
    row(
        15,
        "BTreeSet<[u8; 32]>, 16384",
        (0..fewer).map(|n| std::array::from_fn(|i| (n >> (8 * (i % 3))) as u8)).collect::<BTreeSet<[u8; 32]>>(),
    );
    row(16, "Vec<[u8; 32]>", (0..many).map(|n| [n as u8; 32]).collect::<Vec<_>>());
    row(17, "Vec<[u64; 4]>, 16384", (0..fewer).map(|n| [n; 4]).collect::<Vec<_>>());
    row(18, "[u8; 65536]", [7u8; 65536]);
    row(
        19,
        "Vec<IpAddr>",
        (0..many as u32)
            .map(|n| match n % 2 {
                0 => IpAddr::V4(Ipv4Addr::from(n)),
                _ => IpAddr::V6(Ipv6Addr::from(u128::from(n))),
            })
            .collect::<Vec<_>>(),
    );
    row(20, "VecDeque<u32>", (0..many as u32).collect::<VecDeque<_>>());
    row(21, "(u32, u64, bool, u8), one value", (7u32, 8u64, true, 9u8));
    row(23, "IndexMap<u64, u64>", (0..many).map(|n| (n, n)).collect::<IndexMap<_, _>>());
    row(24, "Vec<Uuid>", (0..many).map(|n| Uuid::from_u128(u128::from(n))).collect::<Vec<_>>());
    row(25, "Vec<f32>", (0..many).map(|n| n as f32 / 3.0).collect::<Vec<_>>());
    row(26, "Vec<f64>", (0..many).map(|n| n as f64 / 3.0).collect::<Vec<_>>());
    row(8, "Vec<String> of 4", ["ann", "bob", "a longer text of some words", ""].map(String::from).to_vec());
    row(27, "struct of 12 fields", order(7));
    row(28, "10000 structs of 12 fields", (0..10_000).map(order).collect::<Vec<_>>());
    let orders = |n: u64| (format!("customer {n}"), (8 * n..8 * n + 8).map(order).collect());
    row(29, "HashMap<String, Vec<struct>>, 1250 of 8", (0..1250).map(orders).collect::<HashMap<String, Vec<Order>>>());
    row(30, "struct of 4 fields", Transfer { from: [1; 32], to: [2; 32], amount: 3, nonce: 4 });
    refusals();
    lines();

    let chain = |count| structs(count, |n| vec![n + 1]);
    let tree = structs(2000, |n| vec![2 * n + 1, 2 * n + 2]);
    row(22, "container of 2000, a tree", tree.clone());
    row(22, "container of 2000, a chain", chain(2000));
    // Each definition twice in the one before: the original visits 65536.
    let doubled = structs(16, |n| vec![n + 1, n + 1]);
    container("container of 16, each twice", &doubled, 20, true);
    container("container of 2000, a tree", &tree, 20, true);
    container("container of 2000, a chain", &chain(2000), 20, true);
    // The original recurses as deep as the chain is long, so it isn't asked here.
    container("container of 100000, a chain", &chain(100_000), 2, false);

    by_container("records (u32, String, bool), by container", (0..many).map(|n| (n as u32, format!("text {n}"), n % 2 == 0)).collect::<Vec<_>>());
    by_container("Vec<(u64, u64, u64)>, by container", (0..many).map(|n| (n, n + 1, n + 2)).collect::<Vec<_>>());
    by_container("Vec<Option<u64>>, by container", (0..many).map(|n| Some(n).filter(|n| n % 3 > 0)).collect::<Vec<_>>());
    by_container("Vec<u64>, by container", (0..many).collect::<Vec<u64>>());
    values_alone("chain of 100000 definitions, by container", &chain(100_000), &7u64.to_le_bytes());
    values_alone("Vec<()> of 4294967295, by container", &BorshSchemaContainer::for_type::<Vec<()>>(), &[0xff; 4]);
}
