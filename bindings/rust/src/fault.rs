//! Why a type's value has no place in a schema, or a schema's value none in a type.

use crate::Error;
use std::fmt;

/// A name as it stands in a path: an identifier as it is, any other in quotation marks.
pub(crate) struct Name<'a>(pub &'a str);

impl fmt::Display for Name<'_> {
    fn fmt(&self, f: &mut fmt::Formatter<'_>) -> fmt::Result {
        let is_word = |it: u8| it.is_ascii_alphanumeric() || it == b'_';
        let starts_well = self.0.starts_with(|it: char| !it.is_ascii_digit());
        if starts_well && self.0.bytes().all(is_word) {
            return f.write_str(self.0);
        }
        write!(
            f,
            "\"{}\"",
            self.0.replace('\\', "\\\\").replace('"', "\\\"")
        )
    }
}

/// What is wrong with a part of a value, and the path to it from where it is so far.
#[derive(Debug)]
pub(crate) struct Fault {
    path: String,
    reason: String,
}

impl Fault {
    pub fn new(reason: impl Into<String>) -> Fault {
        Fault {
            path: String::new(),
            reason: reason.into(),
        }
    }

    /// The same, of a part of what this is a part of: a piece of the path comes before.
    pub fn within(self, piece: impl fmt::Display) -> Fault {
        Fault {
            path: format!("{piece}{}", self.path),
            ..self
        }
    }

    /// The error of a call.
    pub fn into_error(self, root: &str) -> Error {
        let path = format!("{}{}", Name(root), self.path);
        Error {
            path: Some(path.clone()),
            ..Error::new(1, format!("{path}: {}", self.reason))
        }
    }
}

impl fmt::Display for Fault {
    fn fmt(&self, f: &mut fmt::Formatter<'_>) -> fmt::Result {
        f.write_str(&self.reason)
    }
}

impl std::error::Error for Fault {}

impl serde::ser::Error for Fault {
    fn custom<T: fmt::Display>(reason: T) -> Fault {
        Fault::new(reason.to_string())
    }
}

impl serde::de::Error for Fault {
    fn custom<T: fmt::Display>(reason: T) -> Fault {
        Fault::new(reason.to_string())
    }
}
