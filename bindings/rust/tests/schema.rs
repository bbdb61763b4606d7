//! What the doc comments promise, and what `bindings/run` doesn't compare with C: kinds of errors, empty inputs, long answers, threads.

use borsh_proved::{Error, ErrorKind, Schema, Style};

const A: &[u8] = include_bytes!("../../../crates/borsh_tool/data/readme.borsh");
const VALUE: &[u8] = include_bytes!("../../../crates/borsh_tool/data/value.borsh");

/// The encoding of a schema, by its root and its definitions in order.
fn encoding(root: &str, definitions: &[(&str, &[u8])]) -> Vec<u8> {
    let mut bytes = text(root);
    bytes.extend((definitions.len() as u32).to_le_bytes());
    for (name, definition) in definitions {
        bytes.extend(text(name));
        bytes.extend(*definition);
    }
    bytes
}

fn text(text: &str) -> Vec<u8> {
    [&(text.len() as u32).to_le_bytes(), text.as_bytes()].concat()
}

const BOOL: (&str, &[u8]) = ("bool", &[0, 1]);

fn list_of_bool() -> Schema {
    let list = [
        &[1, 4][..],
        &0u64.to_le_bytes(),
        &u64::from(u32::MAX).to_le_bytes(),
        &text("bool"),
    ]
    .concat();
    Schema::new(encoding("Vec<bool>", &[("Vec<bool>", &list), BOOL])).unwrap()
}

fn kind_of<T>(answer: Result<T, Error>) -> Option<ErrorKind> {
    answer.err().map(|error| error.kind())
}

#[test]
fn bytes_that_are_no_schema_are_refused_when_it_is_made() {
    for bytes in [&[][..], &[0], VALUE, &A[..A.len() - 1]] {
        let error = Schema::new(bytes).unwrap_err();
        assert_eq!(error.kind(), ErrorKind::Malformed);
        assert_eq!(error.code(), 2);
        assert!(
            error.to_string().starts_with("not a schema container: "),
            "{error}"
        );
    }
}

#[test]
fn a_schema_that_breaks_a_rule_is_made_and_found_invalid() {
    let schema = Schema::new(encoding("A", &[])).unwrap();
    let error = schema.validate().unwrap_err();
    assert_eq!(
        (error.kind(), error.to_string().as_str()),
        (ErrorKind::No, "invalid MissingDefinition A")
    );
    assert_eq!(schema.max_size().unwrap_err().to_string(), "missing A");
}

#[test]
fn values_come_back_from_their_json() {
    let schema = Schema::new(A).unwrap();
    schema.check(VALUE).unwrap();
    for style in [
        Style::default(),
        Style::COMPACT,
        Style {
            is_compact: false,
            has_quoted_numbers: true,
        },
    ] {
        let json = schema.to_json(VALUE, style).unwrap();
        assert_eq!(json.lines().count() == 1, style.is_compact);
        assert_eq!(json.contains("\"12\""), style.has_quoted_numbers);
        assert_eq!(schema.from_json(&json).unwrap(), VALUE);
    }
}

#[test]
fn no_bytes_and_no_json_are_refused() {
    let schema = Schema::new(A).unwrap();
    assert_eq!(kind_of(schema.check(&[])), Some(ErrorKind::No));
    assert_eq!(
        kind_of(schema.to_json(&[], Style::COMPACT)),
        Some(ErrorKind::No)
    );
    assert_eq!(kind_of(schema.from_json("")), Some(ErrorKind::No));
}

#[test]
fn two_variants_with_one_tag_have_no_answer() {
    let variants = [
        &[3, 1][..],
        &2u32.to_le_bytes(),
        &0i64.to_le_bytes(),
        &text("V"),
        &text("bool"),
        &256i64.to_le_bytes(),
        &text("W"),
        &text("bool"),
    ];
    let schema = Schema::new(encoding("E", &[("E", &variants.concat()), BOOL])).unwrap();
    let error = schema.check(&[0, 1]).unwrap_err();
    assert_eq!(
        (error.kind(), error.to_string().as_str()),
        (ErrorKind::Undecided, "`E` is ambiguous")
    );
}

#[test]
fn long_answers_are_whole_and_threads_share_a_schema() {
    let schema = list_of_bool();
    let value = [&100_000u32.to_le_bytes()[..], &vec![0; 100_000]].concat();
    std::thread::scope(|scope| {
        for _ in 0..4 {
            scope.spawn(|| {
                let json = schema.to_json(&value, Style::COMPACT).unwrap();
                assert_eq!(json.len(), 600_001);
                assert_eq!(schema.from_json(&json).unwrap(), value);
            });
        }
    });
}
