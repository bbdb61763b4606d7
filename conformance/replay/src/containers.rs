//! Random containers, as bytes: valid ones, ones that break rules, ones whose definitions aren't in
//! order.

use crate::random::Random;
use crate::types::WORDS;
use borsh::schema::{Definition, Fields};

type Definitions = Vec<(String, Definition)>;

/// The encoding of a container.
pub fn random_container(random: &mut Random) -> Vec<u8> {
    if random.one_in(12) {
        return container_of_a_type(random);
    }
    let (root, mut definitions) = match random.below(12) {
        0 => chain(random),
        1 => diamonds(random),
        2 => around_enum(random),
        3 => around_empty(random),
        _ => any_definitions(random),
    };
    if random.one_in(12) {
        let at = random.below(definitions.len());
        definitions.rotate_left(at);
    } else {
        definitions.sort_by(|one, other| one.0.cmp(&other.0));
        definitions.dedup_by(|one, other| one.0 == other.0);
    }
    encoded(&root, &definitions)
}

/// A container is written as its root's name and the map of its definitions, which is written as
/// their list.
fn encoded(root: &str, definitions: &Definitions) -> Vec<u8> {
    borsh::to_vec(&(root, definitions)).expect("a list of definitions has an encoding")
}

fn container_of_a_type(random: &mut Random) -> Vec<u8> {
    let schemas: Vec<_> = WORDS.iter().filter_map(|word| word.of.schema).collect();
    let container = random.pick(&schemas)();
    borsh::to_vec(&container).expect("the container of a type has an encoding")
}

const NAMES: [&str; 7] = ["A", "B", "C", "D", "E", "F", "u8"];

/// A few definitions that mention one another, and now and then a name that has none.
fn any_definitions(random: &mut Random) -> (String, Definitions) {
    let count = 1 + random.below(NAMES.len());
    let names = &NAMES[..count];
    let mentioned = if random.one_in(5) { count + 1 } else { count }.min(NAMES.len());
    let downwards = random.one_in(2);
    let mut definitions = Vec::new();
    for (at, name) in names.iter().enumerate() {
        // Names behind a name alone: no name leads back to itself.
        let from = if downwards && at + 1 < mentioned {
            at + 1
        } else {
            0
        };
        definitions.push((
            name.to_string(),
            any_definition(random, &NAMES[from..mentioned]),
        ));
    }
    let root = if random.one_in(10) {
        *random.pick(&NAMES)
    } else {
        names[0]
    };
    (root.to_string(), definitions)
}

fn any_definition(random: &mut Random, names: &[&str]) -> Definition {
    match random.below(8) {
        0 | 1 => Definition::Primitive(*random.pick(&[0, 0, 1, 1, 2, 4, 8, 16, 255])),
        2 | 3 => any_sequence(random, names),
        4 => Definition::Tuple {
            elements: any_names(random, names),
        },
        5 | 6 => any_enum(random, names),
        _ => any_struct(random, names),
    }
}

fn any_name(random: &mut Random, names: &[&str]) -> String {
    random.pick(names).to_string()
}

fn any_names(random: &mut Random, names: &[&str]) -> Vec<String> {
    let count = random.below(4);
    (0..count).map(|_| any_name(random, names)).collect()
}

fn any_sequence(random: &mut Random, names: &[&str]) -> Definition {
    const LENGTHS: [u64; 14] = [
        0,
        0,
        1,
        2,
        3,
        10,
        255,
        256,
        65535,
        65536,
        u32::MAX as u64,
        1 << 32,
        1 << 63,
        u64::MAX,
    ];
    let end = *random.pick(&LENGTHS);
    let start = match random.below(4) {
        0 | 1 => 0,
        2 => end,
        _ => *random.pick(&LENGTHS),
    };
    Definition::Sequence {
        length_width: *random.pick(&[0, 0, 0, 1, 2, 4, 4, 4, 8, 3, 5, 6, 7, 9, 255]),
        length_range: start..=end,
        elements: any_name(random, names),
    }
}

fn any_enum(random: &mut Random, names: &[&str]) -> Definition {
    let parts = any_names(random, names);
    let variants = parts.into_iter().enumerate();
    Definition::Enum {
        tag_width: *random.pick(&[0, 0, 1, 1, 1, 2, 4, 8, 9, 255]),
        variants: variants
            .map(|(at, part)| (at as i64 - 1, format!("V{at}"), part))
            .collect(),
    }
}

fn any_struct(random: &mut Random, names: &[&str]) -> Definition {
    let parts = any_names(random, names);
    let fields = match random.below(3) {
        0 => Fields::Empty,
        1 => Fields::UnnamedFields(parts),
        _ => Fields::NamedFields(
            parts
                .into_iter()
                .map(|part| ("f".to_string(), part))
                .collect(),
        ),
    };
    Definition::Struct { fields }
}

fn sequence(width: u8, count: u64, elements: &str) -> Definition {
    Definition::Sequence {
        length_width: width,
        length_range: if width == 0 { count..=count } else { 0..=count },
        elements: elements.to_string(),
    }
}

fn tuple(elements: &[&str]) -> Definition {
    Definition::Tuple {
        elements: elements.iter().map(|name| name.to_string()).collect(),
    }
}

/// Each name leads to the next one.
fn chain(random: &mut Random) -> (String, Definitions) {
    let count = 1 + random.below(30);
    let name = |at: usize| format!("n{at}");
    let mut definitions = Vec::new();
    for at in 0..count {
        let next = name(at + 1);
        let definition = match random.below(6) {
            0 => sequence(0, 2, &next),
            1 => sequence(4, 1, &next),
            _ => tuple(&[next.as_str()]),
        };
        definitions.push((name(at), definition));
    }
    match random.below(4) {
        0 => {}
        1 => definitions.push((name(count), tuple(&["n0"]))),
        _ => definitions.push((name(count), Definition::Primitive(random.below(3) as u8))),
    }
    (name(0), definitions)
}

/// Each name leads twice to the next one.
fn diamonds(random: &mut Random) -> (String, Definitions) {
    let count = 1 + random.below(8);
    let name = |at: usize| format!("n{at}");
    let mut definitions = Vec::new();
    for at in 0..count {
        let next = name(at + 1);
        definitions.push((name(at), tuple(&[next.as_str(), next.as_str()])));
    }
    definitions.push((name(count), Definition::Primitive(random.below(3) as u8)));
    definitions.push(("root".to_string(), sequence(4, 3, "n0")));
    let root = random.pick(&["n0", "root"]).to_string();
    (root, definitions)
}

/// A sequence of an enum.
fn around_enum(random: &mut Random) -> (String, Definitions) {
    let count = *random.pick(&[0, 1, 2, 10, 255, u32::MAX as u64, 1 << 60]);
    let width = *random.pick(&[0, 1, 4, 8]);
    let definitions = vec![
        ("A".to_string(), sequence(width, count, "B")),
        ("B".to_string(), any_enum(random, &["C", "D"])),
        (
            "C".to_string(),
            Definition::Primitive(random.below(9) as u8),
        ),
        ("D".to_string(), tuple(&["C", "C"])),
    ];
    ("A".to_string(), definitions)
}

/// A sequence of something that may have no bytes.
fn around_empty(random: &mut Random) -> (String, Definitions) {
    let (start, end) = *random.pick(&[(0, 0), (0, 3), (1, 1), (0, u64::MAX), (3, 2)]);
    let empty = Definition::Sequence {
        length_width: 0,
        length_range: start..=end,
        elements: random.pick(&["C", "D"]).to_string(),
    };
    let end = *random.pick(&[1, 10, u32::MAX as u64]);
    let definitions = vec![
        ("A".to_string(), sequence(4, end, "B")),
        ("B".to_string(), tuple(&["E", "E"])),
        (
            "C".to_string(),
            Definition::Primitive(random.below(2) as u8),
        ),
        ("D".to_string(), tuple(&["C", "C"])),
        ("E".to_string(), empty),
    ];
    ("A".to_string(), definitions)
}
