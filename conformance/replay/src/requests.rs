//! What a question asks for.

use crate::types::{Type, type_named, word_named};

/// What is asked about a container.
#[derive(Clone, Copy, PartialEq, Eq)]
pub enum Inquiry {
    Check,
    Size,
    Counts,
}

pub enum Request {
    /// `read`, or `canon` where keys may come in any order.
    Value {
        of: &'static Type,
        bytes: Vec<u8>,
    },
    Schema {
        of: &'static Type,
        /// Whether the greatest size is asked for too.
        sized: bool,
    },
    About {
        inquiry: Inquiry,
        bytes: Vec<u8>,
    },
    /// A type that isn't known, or a line that is no command.
    Unknown,
}

/// The line of the program borsh_check, if that is what is asked.
pub fn line_of(question: &str) -> Option<&str> {
    question.strip_prefix("line\t")
}

/// Whether the question asks for keys in any order.
pub fn is_canon(question: &str) -> bool {
    question.starts_with("canon\t") || question.starts_with("line\tcanon ")
}

impl Request {
    /// What a question of the suite asks for: its columns have tabs between them, and types are written in Rust's notation.
    pub fn from_question(question: &str) -> Request {
        let request = match line_of(question) {
            Some(line) => Request::command(line, ' ', true, |name| Some(&word_named(name)?.of)),
            None => Request::command(question, '\t', false, type_named),
        };
        request.unwrap_or(Request::Unknown)
    }

    fn command(
        text: &str,
        between: char,
        is_line: bool,
        named: fn(&str) -> Option<&'static Type>,
    ) -> Option<Request> {
        let (kind, rest) = text.split_once(between)?;
        match kind {
            "read" | "canon" => {
                let (name, digits) = rest.split_once(between)?;
                Some(Request::Value {
                    of: named(name)?,
                    bytes: bytes_from(digits)?,
                })
            }
            "schema" => Some(Request::Schema {
                of: named(rest)?,
                sized: !is_line,
            }),
            "check" => Request::about(Inquiry::Check, rest),
            "size" => Request::about(Inquiry::Size, rest),
            "counts" => Request::about(Inquiry::Counts, rest),
            _ => None,
        }
    }

    fn about(inquiry: Inquiry, digits: &str) -> Option<Request> {
        let bytes = bytes_from(digits)?;
        Some(Request::About { inquiry, bytes })
    }
}

/// The bytes that the digits are: an even number of digits, at least two, or `-` for no bytes.
fn bytes_from(digits: &str) -> Option<Vec<u8>> {
    if digits == "-" {
        return Some(Vec::new());
    }
    if digits.is_empty() || !digits.len().is_multiple_of(2) {
        return None;
    }
    let digits: Option<Vec<u8>> = digits
        .chars()
        .map(|digit| Some(digit.to_digit(16)? as u8))
        .collect();
    Some(
        digits?
            .chunks(2)
            .map(|pair| pair[0] * 16 + pair[1])
            .collect(),
    )
}

/// Bytes as digits; `-` for no bytes.
pub fn digits_of(bytes: &[u8]) -> String {
    if bytes.is_empty() {
        return "-".to_string();
    }
    bytes.iter().map(|byte| format!("{byte:02x}")).collect()
}
