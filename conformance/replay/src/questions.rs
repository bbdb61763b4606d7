//! Questions of the suite, from a seed.

use crate::containers::random_container;
use crate::random::Random;
use crate::requests::digits_of;
use crate::types::{WORDS, Word};

/// Questions of the stored file whatever the seed: lines that are no command, and the smallest input of each reason.
const FIXED: [&str; 66] = [
    "line\t",
    "line\t ",
    "line\tread",
    "line\tread u8",
    "line\tread u8 ",
    "line\tread u8 7",
    "line\tread  u8 07",
    "line\tread U8 07",
    "line\tread u8 07 ",
    "line\t read u8 07",
    "line\tread u8 0g",
    "line\tread u8 07 08",
    "line\tread u8 0x07",
    "line\tread u8 --",
    "line\tread u16 0700",
    "line\tREAD u8 00",
    "line\tcanon",
    "line\tcanon u8",
    "line\tcanon u9 00",
    "line\tcheck",
    "line\tcheck 0",
    "line\tcheck  00",
    "line\tsize zz",
    "line\tcounts",
    "line\tcounts -0",
    "line\tschema",
    "line\tschema u8 ",
    "line\tschema uuid x",
    "line\tschema u16",
    "read\tu8\t-",
    "size\t-",
    "check\t-",
    "counts\t-",
    "read\tu64\t0c00000000000000",
    "read\tu64\t0C00000000000000",
    "read\tbool\t02",
    "read\tOption<u8>\t0207",
    "read\tResult<u8, u8>\t0207",
    "read\tString\t01000000417a",
    "read\tString\t04000000f09f92a9",
    "read\tVec<u8>\tffffffff010203",
    "read\t()\t-",
    "read\t()\t00",
    "read\tVec<()>\t00000000",
    "read\tVec<([u8; 0], [u8; 0])>\t00000000",
    "read\tBTreeMap<(), u8>\t00000000",
    "read\tVec<Box<()>>\t00000000",
    "read\tVec<One>\t0100000000",
    "read\tVec<One>\t0100000001",
    "read\tBTreeSet<u8>\t020000000101",
    "canon\tBTreeSet<u8>\t020000000101",
    "read\tBTreeMap<u8, u8>\t03000000020701090208",
    "canon\tBTreeMap<u8, u8>\t03000000020701090208",
    "read\tIndexMap<u8, u8>\t0200000005010502",
    "read\tSocketAddr\t02",
    "read\tIpAddr\t02",
    "read\tOneOrZero\t02",
    "read\tBorshSchemaContainer\t010000004102000000010000004200000100000041", /* the definitions in descending order */
    "check\t010000004100000000",
    "size\t010000004100000000",
    "counts\t010000004100000000",
    "size\t010000004102000000010000004101000a000000000000000a0000000000000001000000420100000042030100000000",
    "check\t01000000410300000001000000410104000000000000000001000000000000000100000042010000004202020000000100000043010000004301000000430100000000000000000000000000000000000100000042",
    "check\t010000004102000000010000004101000000000000000000ffffffffffffffff010000004201000000420001",
    "size\t010000004102000000010000004101000000000000000000ffffffffffffffff010000004201000000420001",
    "check\t0100000041010000000100000041020200000001000000420100000043",
];

/// How many questions of each kind the stored file has for a type.
const READS: usize = 30;
const CANONS: usize = 8;
/// How many containers each question of the stored file is asked about.
const CONTAINERS: usize = 150;
const COUNTED: usize = 80;
/// How many changed commands the stored file has.
const CHANGED: usize = 30;

/// The questions of the stored file.
pub fn stored_questions(random: &mut Random) -> Vec<String> {
    let mut questions: Vec<String> = FIXED.iter().map(|question| question.to_string()).collect();
    for word in &WORDS {
        questions.push(schema_question(word));
        questions.extend((0..READS).map(|_| value_question("read", word, random)));
        questions.extend((0..CANONS).map(|_| value_question("canon", word, random)));
    }
    for (kind, count) in [
        ("check", CONTAINERS),
        ("size", CONTAINERS),
        ("counts", COUNTED),
    ] {
        questions.extend((0..count).map(|_| container_question(kind, random)));
    }
    questions.extend((0..CHANGED).map(|_| changed_line(random)));
    questions
}

/// A question of any kind and type.
pub fn random_question(random: &mut Random) -> String {
    match random.below(100) {
        0..50 => value_question("read", random.pick(&WORDS), random),
        50..68 => value_question("canon", random.pick(&WORDS), random),
        68..79 => container_question("check", random),
        79..90 => container_question("size", random),
        90..95 => container_question("counts", random),
        95..96 => schema_question(random.pick(&WORDS)),
        _ => changed_line(random),
    }
}

/// Of a type without a schema the program is asked.
fn schema_question(word: &Word) -> String {
    match word.of.schema {
        Some(_) => format!("schema\t{}", word.of.name()),
        None => format!("line\tschema {}", word.name),
    }
}

fn value_question(kind: &str, word: &Word, random: &mut Random) -> String {
    format!("{kind}\t{}\t{}", word.of.name(), value_digits(word, random))
}

fn value_digits(word: &Word, random: &mut Random) -> String {
    let mut bytes = Vec::new();
    (word.sample)(random, &mut bytes);
    let bytes = some_bytes(bytes, random);
    some_digits(&bytes, random)
}

fn container_question(kind: &str, random: &mut Random) -> String {
    format!("{kind}\t{}", container_digits(random))
}

fn container_digits(random: &mut Random) -> String {
    let mut bytes = random_container(random);
    if random.one_in(8) {
        bytes = some_bytes(bytes, random);
    }
    some_digits(&bytes, random)
}

/// The encoding itself, cut short, with a byte changed, with bytes behind it, or other bytes.
fn some_bytes(mut encoding: Vec<u8>, random: &mut Random) -> Vec<u8> {
    match random.below(20) {
        0..9 => {}
        9..12 => encoding.truncate(random.below(encoding.len() + 1)),
        12..16 => {
            if !encoding.is_empty() {
                let at = random.below(encoding.len());
                encoding[at] = match random.below(3) {
                    0 => random.byte(),
                    1 => encoding[at].wrapping_add(1),
                    _ => encoding[at] ^ (1 << random.below(8)),
                };
            }
        }
        16..18 => {
            let count = 1 + random.below(3);
            encoding.extend(random.bytes(count));
        }
        _ => {
            let count = random.below(24);
            encoding = random.bytes(count);
        }
    }
    encoding
}

fn some_digits(bytes: &[u8], random: &mut Random) -> String {
    let digits = digits_of(bytes);
    if random.one_in(10) {
        digits.to_uppercase()
    } else {
        digits
    }
}

/// A line with one character taken away, put in, or changed: mostly no command.
fn changed_line(random: &mut Random) -> String {
    const CHARACTERS: [char; 12] = [
        ' ',
        '-',
        'a',
        'F',
        'g',
        '0',
        '\0',
        '\t',
        'ß',
        '\u{1f4a9}',
        'U',
        '8',
    ];
    let command = *random.pick(&["read", "canon", "schema", "check", "size", "counts"]);
    let word = random.pick(&WORDS);
    let line = match command {
        "read" | "canon" => format!("{command} {} {}", word.name, value_digits(word, random)),
        "schema" => format!("schema {}", word.name),
        _ => format!("{command} {}", container_digits(random)),
    };
    let mut characters: Vec<char> = line.chars().collect();
    let at = random.below(characters.len().min(20));
    let new = *random.pick(&CHARACTERS);
    match random.below(3) {
        0 => {
            characters.remove(at);
        }
        1 => characters.insert(at, new),
        _ => characters[at] = new,
    }
    // A tab separates columns.
    characters.retain(|character| *character != '\t');
    format!("line\t{}", characters.into_iter().collect::<String>())
}
