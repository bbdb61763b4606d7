//! Types by their text, and schemas compared: the rows of `crates`, whose answers aren't this library's.

use borsh_proved::{compare, Answer, ErrorKind, Schema};
use std::collections::BTreeMap;
use std::fs;
use std::path::Path;

fn file(path: &str) -> String {
    let top = Path::new(env!("CARGO_MANIFEST_DIR")).join("../..");
    let bytes = fs::read(top.join(path)).unwrap();
    String::from_utf8_lossy(&bytes).into_owned()
}

fn bytes_of(digits: &str) -> Vec<u8> {
    let starts = (0..digits.len()).step_by(2);
    starts
        .map(|at| u8::from_str_radix(&digits[at..at + 2], 16).unwrap())
        .collect()
}

/// The types of `schema` rows, and their containers.
fn types() -> BTreeMap<String, String> {
    let mut types = BTreeMap::new();
    for name in ["generated", "lines", "replay", "schemas"] {
        for line in file(&format!("crates/test_rows/data/{name}.tsv")).lines() {
            let columns: Vec<&str> = line.split('\t').collect();
            if let ["schema", written, said, ..] = columns[..] {
                if let Some((_, container)) = said.split_once(' ') {
                    types.insert(written.to_owned(), container.to_owned());
                }
            }
        }
    }
    types
}

#[test]
fn types_have_the_containers_that_they_state_or_break_a_rule() {
    let items = file("crates/borsh_tool/tests/types.rs");
    let types = types();
    assert!(types.len() > 50);
    for (written, container) in types {
        let container = Schema::new(bytes_of(&container)).unwrap();
        let found = Schema::parse(&items, &*written);
        match container.validate() {
            Ok(()) => assert_eq!(found, Ok(container), "{written}"),
            Err(broken) => {
                let error = found.unwrap_err();
                let rule = broken.to_string().split(' ').nth(1).unwrap().to_owned();
                let says = error.to_string();
                assert!(
                    says.ends_with(&format!(" breaks the rule {rule}")),
                    "{says}"
                );
                assert_eq!((error.kind(), error.path()), (ErrorKind::No, Some("type")));
            }
        }
    }
}

/// Texts, each with a type, which of the two is wrong, why, and at which byte.
const REFUSED: &str = r#"
struct A {\n  x u8,\n}|A|text: line 2, column 5: met `u8`, expected `:`|15
/* é */ struct B(u8)|B|text: line 1, column 21: the text ends, expected `;`|21
struct Vault;|Vec<Valt>|type: column 5: `Valt` is no type that has a schema; `Vault` is|4
|Vec<()>|type: column 1: `Vec<()>` breaks the rule ZSTSequence|0
{"types": }|A|text: line 1, column 11: met `}`, expected a value of JSON|10
||type: line 1, column 1: the text ends, expected a type|0"#;

#[test]
fn texts_without_a_schema_say_what_is_wrong_and_where() {
    for row in REFUSED.lines().skip(1) {
        let columns: Vec<&str> = row.split('|').collect();
        let error = Schema::parse(&columns[0].replace("\\n", "\n"), columns[1]).unwrap_err();
        assert_eq!(error.kind(), ErrorKind::No);
        assert_eq!(error.to_string(), columns[2]);
        assert_eq!(error.path(), columns[2].split(": ").next());
        assert_eq!(error.offset(), columns[3].parse().ok(), "{row}");
    }
}

#[test]
fn an_account_begins_with_its_discriminator_and_a_schema_object_needs_no_name() {
    let idl = r#"{"instructions": [], "accounts": [{"name": "A", "type": {"kind": "struct", "fields": [{"name": "x", "type": "u8"}]}}]}"#;
    let account = Schema::parse(idl, "A").unwrap();
    account.check(&[0, 1, 2, 3, 4, 5, 6, 7, 8]).unwrap();
    let object =
        Schema::parse(r#" {"struct": {"x": "u8", "y": {"option": "bool"}}}"#, None).unwrap();
    assert_eq!(
        object.from_json(r#"{"x": 7, "y": true}"#),
        Ok(vec![7, 1, 1])
    );
    assert_eq!(Schema::parse("", "Vec<u8>"), Schema::parse("Vec<u8>", None));
}

/// A definition of a row, as JSON has it.
fn definition_of(kind: &str, columns: &[&str]) -> Option<String> {
    let (head, rest) = columns.split_first().unwrap_or((&"", &[]));
    Some(match kind {
        "primitive" => format!(r#"{{"Primitive": {head}}}"#),
        "sequence" => {
            let (start, end) = rest[0].split_once("..")?;
            let elements = text(rest[1]);
            format!(
                r#"{{"Sequence": {{"length_width": {head}, "length_range": {{"start": {start}, "end": {end}}}, "elements": {elements}}}}}"#
            )
        }
        "tuple" => format!(r#"{{"Tuple": {{"elements": {}}}}}"#, texts(columns)),
        "unit" => r#"{"Struct": {"fields": "Empty"}}"#.to_owned(),
        "unnamed" => format!(
            r#"{{"Struct": {{"fields": {{"UnnamedFields": {}}}}}}}"#,
            texts(columns)
        ),
        "struct" => {
            let fields = list(columns.chunks(2).map(texts));
            format!(r#"{{"Struct": {{"fields": {{"NamedFields": {fields}}}}}}}"#)
        }
        "enum" => {
            let variant = |it: &[&str]| format!("[{}, {}, {}]", it[0], text(it[1]), text(it[2]));
            let variants = list(rest.chunks(3).map(variant));
            format!(r#"{{"Enum": {{"tag_width": {head}, "variants": {variants}}}}}"#)
        }
        _ => return None,
    })
}

fn list(items: impl Iterator<Item = String>) -> String {
    format!("[{}]", items.collect::<Vec<_>>().join(", "))
}

fn texts(names: &[&str]) -> String {
    list(names.iter().map(|it| text(it)))
}

fn text(name: &str) -> String {
    format!("\"{}\"", name.replace('\\', "\\\\"))
}

#[test]
fn schemas_compared_have_the_answers_of_the_rows() {
    let schemas = Schema::parse(
        &file("crates/borsh_tool/tests/types.rs"),
        "BorshSchemaContainer",
    )
    .unwrap();
    let rows = file("crates/test_values/data/compared.tsv");
    let (mut definitions, mut count) = (Vec::new(), 0);
    for line in rows.lines() {
        let columns: Vec<&str> = line.split('\t').collect();
        let [kind, name, rest @ ..] = &columns[..] else {
            continue;
        };
        if let Some(definition) = definition_of(kind, rest) {
            definitions.push(format!("{}: {definition}", text(name)));
        } else if *kind == "compare" {
            let definitions = definitions.join(", ");
            let schema_of = |root| {
                let json = format!(
                    r#"{{"declaration": {}, "definitions": {{{definitions}}}}}"#,
                    text(root)
                );
                Schema::new(schemas.from_json(&json).unwrap()).unwrap()
            };
            assert_eq!(
                said(&schema_of(name), &schema_of(rest[0])),
                rest[1],
                "{line}"
            );
            count += 1;
        }
    }
    assert!(count >= 60, "{count} rows");
}

/// What is said of two schemas, as a row says it.
fn said(old: &Schema, new: &Schema) -> String {
    let compared = compare(old, new).unwrap();
    let is_compatible = compared.is_compatible();
    let (answer, evidence) = match (compared.answer(), compared.evidence()) {
        (Answer::Same, None) if is_compatible => ("same", String::new()),
        (Answer::Compatible, None) if is_compatible => ("compatible", String::new()),
        (Answer::Incompatible, Some(it)) if !is_compatible => {
            let (digits, why) = it
                .split_once(" is a value of the old schema and no value of the new one: ")
                .unwrap();
            old.check(&bytes_of(digits)).unwrap();
            assert!(new.check(&bytes_of(digits)).is_err());
            ("incompatible", format!(" {digits} {why}"))
        }
        (Answer::NotKnown, None) if !is_compatible => ("not known", String::new()),
        other => panic!("{other:?}"),
    };
    let json = if compared.has_same_json() {
        ", same JSON"
    } else {
        ""
    };
    let changes = compared.changes().into_iter().map(|it| format!("; {it}"));
    format!("{answer}{evidence}{json}{}", changes.collect::<String>())
}
