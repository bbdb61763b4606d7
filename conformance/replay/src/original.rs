//! What the original answers.

use crate::requests::{Inquiry, Request, digits_of};
use crate::rules::{Faults, Rules};
use crate::types::Type;
use borsh::schema::{
    BorshSchemaContainer, SchemaContainerValidateError, SchemaMaxSerializedSizeError,
};
use std::panic::catch_unwind;

/// The answer if the original can't be asked: no such call, no such type, or no such line.
pub const NOT_ASKED: &str = "?";
/// The answer if the original panics.
pub const PANICS: &str = "(panics)";

/// Longer lists of boxed units aren't asked for: the original would fill the memory.
const MOST_BOXED_UNITS: u32 = 65536;

/// Containers with more mentions aren't asked about: the original looks at each of them.
const MOST_MENTIONS: u64 = 1 << 20;

/// The answer of the original, which reads keys in ascending order alone if it was built with `de_strict_order`, and in any
/// order otherwise.
pub fn answer(question: &str) -> String {
    match Request::from_question(question) {
        Request::Value { of, bytes } => value(of, &bytes),
        Request::Schema { of, sized } => match of.schema {
            Some(schema) => schema_answer(&schema(), sized.then(|| size(&schema()))),
            None => NOT_ASKED.to_string(),
        },
        Request::About { inquiry, bytes } => about(inquiry, &bytes),
        Request::Unknown => NOT_ASKED.to_string(),
    }
}

fn value(of: &Type, bytes: &[u8]) -> String {
    let announced = bytes
        .first_chunk()
        .map_or(0, |bytes| u32::from_le_bytes(*bytes));
    if of.name() == "Vec<Box<()>>" && announced > MOST_BOXED_UNITS {
        return NOT_ASKED.to_string();
    }
    written((of.read)(bytes))
}

/// The greatest size, if it is asked for and `-` if there is none, and the container.
pub fn schema_answer(container: &BorshSchemaContainer, size: Option<String>) -> String {
    let digits = match borsh::to_vec(container) {
        Ok(bytes) => digits_of(&bytes),
        Err(error) => return format!("error {error}"),
    };
    match size {
        Some(size) if size.parse::<u64>().is_ok() => format!("{size} {digits}"),
        Some(_) => format!("- {digits}"),
        None => digits,
    }
}

/// The answer to a question that reads.
pub fn written(bytes: borsh::io::Result<Vec<u8>>) -> String {
    match bytes {
        Ok(bytes) => format!("ok {}", digits_of(&bytes)),
        Err(error) => format!("error {error}"),
    }
}

fn about(inquiry: Inquiry, bytes: &[u8]) -> String {
    let container: BorshSchemaContainer = match borsh::from_slice(bytes) {
        Ok(container) => container,
        Err(error) => return format!("error {error}"),
    };
    if Rules::new(&container, Faults::default()).count_mentions() > MOST_MENTIONS {
        return NOT_ASKED.to_string();
    }
    let answer = match inquiry {
        Inquiry::Check => catch_unwind(|| rules(&container)),
        Inquiry::Size => catch_unwind(|| size(&container)),
        Inquiry::Counts => return NOT_ASKED.to_string(),
    };
    answer.unwrap_or(PANICS.to_string())
}

fn rules(container: &BorshSchemaContainer) -> String {
    use SchemaContainerValidateError::*;
    let (rule, name) = match container.validate() {
        Ok(()) => return "valid".to_string(),
        Err(ZSTSequence(name)) => ("ZSTSequence", name),
        Err(TagTooWide(name)) => ("TagTooWide", name),
        Err(TagTooNarrow(name)) => ("TagTooNarrow", name),
        Err(TagNotPowerOfTwo(name)) => ("TagNotPowerOfTwo", name),
        Err(MissingDefinition(name)) => ("MissingDefinition", name),
        Err(EmptyLengthRange(name)) => ("EmptyLengthRange", name),
    };
    format!("invalid {rule} {}", digits_of(name.as_bytes()))
}

fn size(container: &BorshSchemaContainer) -> String {
    use SchemaMaxSerializedSizeError::*;
    match container.max_serialized_size() {
        Ok(size) => size.to_string(),
        Err(Overflow) => "overflow".to_string(),
        Err(Recursive) => "recursive".to_string(),
        Err(MissingDefinition(name)) => format!("missing {}", digits_of(name.as_bytes())),
    }
}
