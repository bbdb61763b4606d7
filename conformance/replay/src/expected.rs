//! The answers that a question may have, and where they come from.

use crate::original::{NOT_ASKED, PANICS, schema_answer, written};
use crate::requests::{Inquiry, Request, line_of};
use crate::rules::{Faults, Rules};
use crate::types::{Type, read_list_of_wide_ones};
use borsh::schema::BorshSchemaContainer;

/// The source of answers that the original gives. Every other source is a reason for which it isn't
/// asked or is wrong; conformance/replay/README.md says what each means.
pub const ORIGINAL: &str = "original";

const EMPTY_ELEMENTS: &str = "error Collections of zero-sized types are not allowed due to deny-of-service concerns on deserialization.";

pub struct Expected {
    /// `ORIGINAL`, or the reason for another source; `None` where the original answers otherwise
    /// for no known reason, or there is no such type.
    pub source: Option<&'static str>,
    /// Any of them will do. `A..B` is any number from A to B.
    pub answers: Vec<String>,
}

impl Expected {
    fn by_rule(reason: &'static str, answer: &str) -> Expected {
        Expected {
            source: Some(reason),
            answers: vec![answer.to_string()],
        }
    }

    /// What is expected for a question that the original answers so.
    pub fn for_question(question: &str, original: &str) -> Expected {
        match Request::from_question(question) {
            Request::Unknown if line_of(question).is_some() => {
                Expected::by_rule("no-command", "error line")
            }
            Request::Unknown => Expected {
                source: None,
                answers: vec![original.to_string()],
            },
            Request::Value { of, bytes } => match of.name().as_str() {
                "Vec<Box<()>>" => Expected::by_rule("empty-elements", EMPTY_ELEMENTS),
                "Vec<One>" => {
                    Expected::by_rule("empty-elements", &written(read_list_of_wide_ones(&bytes)))
                }
                _ => Expected::by_rule(ORIGINAL, original),
            },
            Request::Schema { of, sized } => Expected::schema(of, sized, original),
            Request::About { inquiry, bytes } => match borsh::from_slice(&bytes) {
                Ok(container) => Expected::about(inquiry, &container, original),
                Err(error) => Expected::by_rule(ORIGINAL, &format!("error {error}")),
            },
        }
    }

    fn schema(of: &Type, sized: bool, original: &str) -> Expected {
        let Some(schema) = of.schema else {
            return Expected::by_rule("no-schema", "error no schema");
        };
        let container = schema();
        let answer_by = |faults| {
            let size = Rules::new(&container, faults).size().remove(0);
            schema_answer(&container, sized.then_some(size))
        };
        let answer = answer_by(Faults::default());
        let single_enums = Faults {
            single_enums: true,
            ..Faults::default()
        };
        let source = match of.name().as_str() {
            "IpAddr" | "BorshSchemaContainer" | "MyEnum" if answer == original => {
                Some("variant-names")
            }
            _ if answer == original => Some(ORIGINAL),
            _ => (answer_by(single_enums) == original).then_some("enum-count"),
        };
        Expected {
            source,
            answers: vec![answer],
        }
    }

    fn about(inquiry: Inquiry, container: &BorshSchemaContainer, original: &str) -> Expected {
        let rules = Rules::new(container, Faults::default());
        let answers = match inquiry {
            Inquiry::Check => rules.check(),
            Inquiry::Size => rules.size(),
            Inquiry::Counts => return Expected::by_rule("counts", &rules.counts()),
        };
        let is_among = answers.iter().any(|answer| answer == original);
        let source = match inquiry {
            _ if is_among && answers.len() == 1 => Some(ORIGINAL),
            _ if is_among => Some("several-faults"),
            Inquiry::Check if original == PANICS && rules.counts_too_far() => Some("all-counts"),
            Inquiry::Check => {
                let faults = Faults {
                    met_sequences: true,
                    ..Faults::default()
                };
                let wrong = Rules::new(container, faults).check();
                wrong
                    .iter()
                    .any(|answer| answer == original)
                    .then_some("empty-siblings")
            }
            _ => {
                let faults = Faults {
                    single_enums: true,
                    ..Faults::default()
                };
                let wrong = Rules::new(container, faults).size();
                wrong
                    .iter()
                    .any(|answer| answer == original)
                    .then_some("enum-count")
            }
        };
        Expected { source, answers }
    }

    /// Whether an answer is one of those.
    pub fn allows(&self, answer: &str) -> bool {
        self.answers
            .iter()
            .any(|known| is_of_pattern(known, answer))
    }

    /// Whether the original was asked and its answer isn't one of those.
    pub fn differs(&self, original: &str) -> bool {
        original != NOT_ASKED && !self.allows(original)
    }
}

/// Whether an answer has the words of a known one, in which `A..B` is a number from A to B.
fn is_of_pattern(known: &str, answer: &str) -> bool {
    if !known.contains("..") {
        return known == answer;
    }
    let words: Vec<&str> = answer.split(' ').collect();
    let patterns: Vec<&str> = known.split(' ').collect();
    words.len() == patterns.len()
        && words
            .iter()
            .zip(patterns)
            .all(|(word, pattern)| is_in_range(pattern, word))
}

fn is_in_range(pattern: &str, word: &str) -> bool {
    let Some((from, to)) = pattern.split_once("..") else {
        return pattern == word;
    };
    let number = |text: &str| text.parse::<u64>().ok();
    match (number(from), number(word), number(to)) {
        (Some(from), Some(value), Some(to)) => from <= value && value <= to,
        _ => false,
    }
}
