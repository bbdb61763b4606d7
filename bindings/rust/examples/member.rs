//! What the library says of a schema, and of bytes by it: `member SCHEMA VALUE`, two files. The exit status is 0 if the bytes are
//! a value, 1 if not, 2 if a file can't be read.

use borsh_proved::{Error, Schema, Style};
use std::process::ExitCode;

fn print(call: &str, answer: Result<String, Error>) -> bool {
    match &answer {
        Ok(text) if text.is_empty() => println!("{call}: 0"),
        Ok(text) => println!("{call}: 0 {text}"),
        Err(error) => {
            println!("{call}: {} {error}", error.code());
            match (error.path(), error.offset()) {
                (Some(path), Some(offset)) => println!("place: {path} at byte {offset}"),
                (Some(path), None) => println!("place: {path}"),
                _ => {}
            }
        }
    }
    answer.is_ok()
}

fn digits(bytes: Vec<u8>) -> String {
    bytes.iter().map(|byte| format!("{byte:02x}")).collect()
}

fn answer(schema: &Schema, value: &[u8]) -> bool {
    print("valid", schema.validate().map(|()| String::new()));
    let size = schema.max_size();
    let most = size.as_ref().ok().copied();
    print("size", size.map(|_| String::new()));
    if let Some(most) = most {
        println!("{most} bytes at most");
    }
    let is_member = print("member", schema.check(value).map(|()| String::new()));
    let json = schema.to_json(value, Style::COMPACT);
    let again = json.as_ref().ok().map(|json| schema.from_json(json));
    print("to_json", json);
    if let Some(again) = again {
        print("from_json", again.map(digits));
    }
    is_member
}

fn main() -> ExitCode {
    let words: Vec<String> = std::env::args().skip(1).collect();
    let [schema, value] = words.as_slice() else {
        eprintln!("member SCHEMA VALUE");
        return ExitCode::from(2);
    };
    let (schema, value) = match (std::fs::read(schema), std::fs::read(value)) {
        (Ok(schema), Ok(value)) => (schema, value),
        (Err(error), _) | (_, Err(error)) => {
            eprintln!("{error}");
            return ExitCode::from(2);
        }
    };
    match Schema::new(schema) {
        Ok(schema) => ExitCode::from(u8::from(!answer(&schema, &value))),
        Err(error) => {
            for call in ["valid", "size", "member", "to_json"] {
                print(call, Err(error.clone()));
            }
            ExitCode::from(1)
        }
    }
}
