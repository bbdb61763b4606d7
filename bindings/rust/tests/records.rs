//! Values one after another: however the bytes come, faults, ends, limits, readers that fail.

use borsh_proved::{ErrorKind, Record, RecordError, Schema};
use std::io::{self, Read};

const A: &[u8] = include_bytes!("../../../crates/borsh_tool/data/readme.borsh");

/// The schema of `Option<bool>`.
const OPTION: &[u8] = b"\x0c\0\0\0Option<bool>\x03\0\0\0\x02\0\0\0()\0\0\x0c\0\0\0Option<bool>\x03\x01\x02\0\0\0\
    \0\0\0\0\0\0\0\0\x04\0\0\0None\x02\0\0\0()\x01\0\0\0\0\0\0\0\x04\0\0\0Some\x04\0\0\0bool\x04\0\0\0bool\0\x01";

/// Gives at most so many bytes at a time, and before the rest an interruption, and fails at its end if it is to.
struct Pieces<'a> {
    bytes: &'a [u8],
    size: usize,
    fails: bool,
    is_interrupted: bool,
}

impl<'a> Pieces<'a> {
    fn new(bytes: &'a [u8], size: usize) -> Self {
        Pieces {
            bytes,
            size,
            fails: false,
            is_interrupted: false,
        }
    }
}

impl Read for Pieces<'_> {
    fn read(&mut self, room: &mut [u8]) -> io::Result<usize> {
        self.is_interrupted = !self.is_interrupted;
        if self.is_interrupted {
            return Err(io::ErrorKind::Interrupted.into());
        }
        if self.bytes.is_empty() && self.fails {
            return Err(io::ErrorKind::BrokenPipe.into());
        }
        let size = self.size.min(room.len());
        self.bytes.read(&mut room[..size])
    }
}

/// Values of `A { x: u64, y: String }`, and where they end.
fn values() -> (Vec<u8>, Vec<usize>) {
    let schema = Schema::new(A).unwrap();
    let (mut bytes, mut ends) = (Vec::new(), vec![0]);
    for x in 0..4 {
        let json = format!(r#"{{"x":{x},"y":"{}"}}"#, "é".repeat(x));
        bytes.extend(schema.from_json(&json).unwrap());
        ends.push(bytes.len());
    }
    (bytes, ends)
}

/// What comes before an error, and the error's text, place, and kind.
fn given<T>(
    records: impl Iterator<Item = Result<T, RecordError>>,
) -> (Vec<T>, Option<(String, Option<u64>)>) {
    let (mut found, mut refused) = (Vec::new(), None);
    for record in records {
        assert!(refused.is_none());
        match record {
            Ok(record) => found.push(record),
            Err(RecordError::Value(error)) => {
                assert_eq!(error.kind(), ErrorKind::No);
                refused = Some((error.to_string(), error.record()));
            }
            Err(error) => refused = Some((error.to_string(), None)),
        }
    }
    (found, refused)
}

#[test]
fn values_are_given_however_the_bytes_come() {
    let (bytes, ends) = values();
    let schema = Schema::new(A).unwrap();
    let wanted: Vec<Record> = ends
        .windows(2)
        .map(|it| Record {
            offset: it[0] as u64,
            bytes: bytes[it[0]..it[1]].to_vec(),
        })
        .collect();
    for size in 1..=bytes.len() {
        let found = given(schema.records(Pieces::new(&bytes, size)));
        assert_eq!(found, (wanted.clone(), None));
        let (lines, refused) = given(schema.json_records(Pieces::new(&bytes, size), true));
        assert_eq!((lines.len(), refused), (4, None));
        assert_eq!(lines[2], r#"{"x":"2","y":"éé"}"#);
    }
    assert_eq!(given(schema.records(io::empty())), (vec![], None));
}

#[test]
fn what_is_cut_short_tells_where_the_last_value_begins() {
    let (bytes, ends) = values();
    let schema = Schema::new(A).unwrap();
    for length in 0..bytes.len() {
        let whole = ends.iter().filter(|&&end| end <= length).count() - 1;
        let (found, refused) = given(schema.records(Pieces::new(&bytes[..length], 7)));
        assert_eq!(found.len(), whole);
        match refused {
            None => assert!(ends.contains(&length)),
            Some((text, record)) => {
                assert_eq!(record, Some(ends[whole] as u64));
                assert!(text.starts_with(&format!("value at byte {}: cut short: A", ends[whole])));
                assert!(text.ends_with(": too few bytes are left"));
            }
        }
    }
}

#[test]
fn a_fault_of_the_bytes_or_of_a_name_comes_behind_the_values_before_it() {
    let schema = Schema::new(OPTION).unwrap();
    let text =
        r#"value at byte 3: "Option<bool>" (`Option<bool>` at byte 0): no variant has this tag"#;
    for size in 1..6 {
        let (found, refused) =
            given(schema.json_records(Pieces::new(&[0, 1, 1, 2, 0], size), false));
        assert_eq!(found, ["null", "true"]);
        assert_eq!(refused, Some((text.to_owned(), Some(3))));
        let (found, refused) =
            given(schema.json_records(Pieces::new(&[0, 1, 1, 1, 2, 0], size), false));
        assert_eq!(found, ["null", "true"]);
        let text = r#"value at byte 3: "Option<bool>"::Some: neither 0 nor 1"#;
        assert_eq!(refused, Some((text.to_owned(), Some(3))));
    }
}

#[test]
fn longer_values_empty_values_and_readers_that_fail_are_refused() {
    let (bytes, ends) = values();
    let schema = Schema::new(A).unwrap();
    for size in [1, 5, 1000] {
        let records = schema.records(Pieces::new(&bytes, size)).max_length(14);
        let (found, refused) = given(records);
        assert_eq!(found.len(), 2);
        let text = format!("value at byte {}: longer than the limit", ends[2]);
        assert_eq!(refused, Some((text, Some(ends[2] as u64))));
    }
    let mut reader = Pieces::new(&bytes, 9);
    reader.fails = true;
    let (found, refused) = given(schema.records(reader));
    assert_eq!(found.len(), 4);
    assert_eq!(refused, Some(("broken pipe".to_owned(), None)));

    let empty = Schema::new(b"\x02\0\0\0()\x01\0\0\0\x02\0\0\0()\x02\0\0\0\0".as_slice()).unwrap();
    let (found, refused) = given(empty.records(&[0u8][..]));
    assert!(found.is_empty());
    let text = "the type has a value without bytes, so that any bytes are any number of values";
    assert_eq!(refused, Some((text.to_owned(), None)));
}

#[test]
fn many_and_long_values() {
    let list = [
        &b"\x07\0\0\0Vec<u8>\x02\0\0\0\x07\0\0\0Vec<u8>\x01\x04"[..],
        &0u64.to_le_bytes(),
        &u64::from(u32::MAX).to_le_bytes(),
        b"\x02\0\0\0u8\x02\0\0\0u8\0\x01",
    ]
    .concat();
    let schema = Schema::new(list).unwrap();
    let mut lengths = vec![0usize; 9000];
    lengths.extend([300_000, 1, 2, 3_000_000]);
    let mut bytes = Vec::new();
    for &length in &lengths {
        bytes.extend((length as u32).to_le_bytes());
        bytes.resize(bytes.len() + length, 7);
    }
    for size in [1 << 14, usize::MAX] {
        let (found, refused) = given(schema.records(Pieces::new(&bytes, size)));
        assert!(refused.is_none());
        let found: Vec<usize> = found.iter().map(|it| it.bytes.len() - 4).collect();
        assert_eq!(found, lengths);
    }
    let (lines, _) = given(schema.json_records(&bytes[..bytes.len() - 3_000_004], false));
    let found: Vec<usize> = lines.iter().map(|it| it.len() / 2 - 2).collect();
    assert_eq!(found, lengths[..lengths.len() - 1]);
}
