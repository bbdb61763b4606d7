//! Two schemas compared.

use crate::{error_of, sys, text_of, Error, Schema};
use std::fmt;

/// Whether the values of an old schema are values of a new one.
#[derive(Clone, Copy, Debug, PartialEq, Eq, Hash)]
pub enum Answer {
    /// The two have the same values.
    Same,
    /// Every value of the old schema is one of the new.
    Compatible,
    /// Some value of the old schema is none of the new: [`Comparison::evidence`].
    Incompatible,
    /// Neither was found.
    NotKnown,
}

/// What [`compare`] says. It is displayed in lines, in the words of the tool's `borsh compare`. Names that aren't identifiers are in
/// quotation marks, and a line end in one is `\x0a`; else they are as in the schemas: escape them before they go to a terminal.
#[derive(Clone, Debug, PartialEq, Eq)]
pub struct Comparison {
    answer: Answer,
    text: String,
}

impl Comparison {
    /// The answer.
    pub fn answer(&self) -> Answer {
        self.answer
    }

    /// Whether old data is still read.
    pub fn is_compatible(&self) -> bool {
        matches!(self.answer, Answer::Same | Answer::Compatible)
    }

    /// Whether JSON that says a value by the old schema says it by the new one too; of [`Answer::Same`] also the other way round.
    pub fn has_same_json(&self) -> bool {
        let first = self.text.split('\n').next().unwrap_or_default();
        self.is_compatible() && first.ends_with(", with the same JSON")
    }

    /// What changed, as `A.kind: variant Frozen is new`: all, or where the schemas aren't compatible what that was found by.
    pub fn changes(&self) -> Vec<&str> {
        let mut changes = Vec::new();
        if !self.is_compatible() {
            let first = self
                .text
                .split('\n')
                .next()
                .and_then(|it| it.split_once(": "));
            changes.extend(first.map(|(_, change)| change));
        }
        let behind = usize::from(self.evidence().is_some());
        changes.extend(self.lines_behind().skip(behind));
        changes
    }

    /// Of incompatible schemas the digits of bytes, of many the first, that are a value of the old one and none of the new, and why.
    pub fn evidence(&self) -> Option<&str> {
        let is_there = self.answer == Answer::Incompatible;
        self.lines_behind().next().filter(|_| is_there)
    }

    /// The lines behind the first, which are indented by two spaces.
    fn lines_behind(&self) -> impl Iterator<Item = &str> {
        self.text
            .split_terminator('\n')
            .filter_map(|it| it.strip_prefix("  "))
    }
}

impl fmt::Display for Comparison {
    fn fmt(&self, f: &mut fmt::Formatter<'_>) -> fmt::Result {
        f.write_str(&self.text)
    }
}

/// Whether data of the old schema is still read by the new one: whether every value of it is one of the new. Only the definitions
/// count, and not what a type refuses beyond them, nor what values mean.
///
/// ```
/// use borsh_proved::{compare, Answer, Schema};
///
/// let old = Schema::parse("struct A { count: u32, kind: Kind } enum Kind { Open }", "A")?;
/// let new = Schema::parse("struct A { count: u32, kind: Kind } enum Kind { Open, Frozen }", "A")?;
/// let compared = compare(&old, &new)?;
/// assert_eq!(compared.answer(), Answer::Compatible);
/// assert_eq!(compared.changes(), ["A.kind: variant Frozen is new"]);
/// assert!(!compare(&new, &old)?.is_compatible());
/// # Ok::<(), borsh_proved::Error>(())
/// ```
///
/// # Errors
///
/// [`ErrorKind::OutOfMemory`](crate::ErrorKind::OutOfMemory).
pub fn compare(old: &Schema, new: &Schema) -> Result<Comparison, Error> {
    let answer = sys::compare(&old.encoding, &new.encoding);
    let found = match answer.code {
        0 if answer.bytes.starts_with(b"the same") => Answer::Same,
        0 => Answer::Compatible,
        1 => Answer::Incompatible,
        5 => Answer::NotKnown,
        _ => return Err(error_of(answer)),
    };
    Ok(Comparison {
        answer: found,
        text: text_of(answer.bytes),
    })
}
