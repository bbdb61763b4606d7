//! What a Borsh schema says, and what bytes mean by it, without the type: whether bytes are a value, the value as JSON, the bytes
//! of JSON, how long a value can be. A safe layer over the library for C, whose code is proved; this layer isn't.
//!
//! A schema is given by the text of a type ([`Schema::parse`]), or by its encoding ([`Schema::new`]).
//!
//! ```
//! use borsh_proved::{Schema, Style};
//!
//! let schema = Schema::parse("struct A { x: u64, y: String }", "A")?;
//! schema.validate()?;
//! assert_eq!(schema.max_size()?, 4294967307);
//!
//! let value = [12, 0, 0, 0, 0, 0, 0, 0, 3, 0, 0, 0, b'h', 0xc3, 0xa9];
//! assert_eq!(schema.to_json(&value, Style::COMPACT)?, r#"{"x":12,"y":"hé"}"#);
//! assert_eq!(schema.from_json(r#"{"y": "hé", "x": 13}"#)?[0], 13);
//!
//! let error = schema.check(&value[..14]).unwrap_err();
//! assert_eq!(error.to_string(), "no member: A.y (`String` at byte 8): too few bytes are left");
//! assert_eq!((error.path(), error.offset()), (Some("A.y"), Some(8)));
//! # Ok::<(), borsh_proved::Error>(())
//! ```
//!
//! Calls share nothing, so any thread may make them. None ends the process, whatever it is given. Each call decodes the schema, but for
//! what types by serde need of it, which is read once.
#![deny(missing_docs)]

mod comparison;
#[cfg(feature = "serde")]
mod decode;
#[cfg(feature = "serde")]
mod definitions;
#[cfg(feature = "serde")]
mod encode;
#[cfg(feature = "serde")]
mod fault;
#[cfg(feature = "serde")]
mod order;
mod records;
// Only types by serde ask what names are.
#[cfg_attr(not(feature = "serde"), allow(dead_code))]
mod sys;

pub use comparison::{compare, Answer, Comparison};
pub use records::{Record, RecordError, Records};

// The programs of the README are run as tests.
#[cfg(all(doctest, feature = "serde"))]
#[doc = include_str!("../README.md")]
mod readme {}

use std::fmt;
use std::io::Read;

/// What kind of error it is.
#[derive(Clone, Copy, Debug, PartialEq, Eq, Hash)]
#[non_exhaustive]
pub enum ErrorKind {
    /// The answer is no: the text is no type, the schema breaks a rule or has no size, the bytes are no value, or the JSON says none.
    No,
    /// The bytes of the schema aren't the encoding of a schema.
    Malformed,
    /// An allocation failed.
    OutOfMemory,
    /// The schema allows two values for the same bytes, or breaks a rule of widths, so there is no answer.
    Undecided,
    /// A code that `borsh.h` doesn't list for these calls: the library is another one.
    Unknown,
}

/// Why there is no answer, or why it is no. Its text names the place: `A.y (`String` at byte 8): too few bytes are left`. Of names
/// only `"` and `\` are escaped: escape other characters before they go to a terminal.
#[derive(Clone, Debug, PartialEq, Eq)]
pub struct Error {
    code: u32,
    text: String,
    path: Option<String>,
    offset: Option<usize>,
    record: Option<u64>,
}

impl Error {
    fn new(code: u32, text: String) -> Error {
        Error {
            code,
            text,
            path: None,
            offset: None,
            record: None,
        }
    }

    /// The same in a value that begins at this byte of a reader. What names no part of it is about the schema.
    fn of_record(self, start: u64) -> Error {
        match self.path {
            Some(_) => self.at_record(start),
            None => self,
        }
    }

    /// The same of the value that begins at this byte of a reader.
    fn at_record(self, start: u64) -> Error {
        let how = if self.code == sys::SHORT {
            "cut short: "
        } else {
            ""
        };
        Error {
            text: format!("value at byte {start}: {how}{}", self.text),
            record: Some(start),
            ..self
        }
    }

    /// What kind of error it is.
    pub fn kind(&self) -> ErrorKind {
        match self.code {
            1 | sys::SHORT => ErrorKind::No,
            2 => ErrorKind::Malformed,
            3 => ErrorKind::OutOfMemory,
            5 => ErrorKind::Undecided,
            _ => ErrorKind::Unknown,
        }
    }

    /// The path of the part that the error is about, as `A.y[3]`, of an error about a part of a value; `text` or `type`, of one of
    /// [`Schema::parse`].
    pub fn path(&self) -> Option<&str> {
        self.path.as_deref()
    }

    /// The byte at which the value has no such part, or near which the text stops being JSON or types.
    pub fn offset(&self) -> Option<usize> {
        self.offset
    }

    /// The byte of the reader at which the value begins, of an error of [`Schema::records`] about a value; the offset is within it.
    pub fn record(&self) -> Option<u64> {
        self.record
    }

    /// The code of `borsh.h`.
    pub fn code(&self) -> u32 {
        self.code
    }
}

impl fmt::Display for Error {
    fn fmt(&self, f: &mut fmt::Formatter<'_>) -> fmt::Result {
        f.write_str(&self.text)
    }
}

impl std::error::Error for Error {}

/// How JSON is written. By default it has lines and indents, and all numbers of up to 64 bits are JSON numbers.
#[derive(Clone, Copy, Debug, Default, PartialEq, Eq)]
pub struct Style {
    /// Whether it stands on one line, without white space.
    pub is_compact: bool,
    /// Whether numbers of 64 bits are strings, since JavaScript rounds numbers above 2^53.
    pub has_quoted_numbers: bool,
}

impl Style {
    /// On one line, with numbers as numbers.
    pub const COMPACT: Style = Style {
        is_compact: true,
        has_quoted_numbers: false,
    };
}

/// A schema: the name of a type, and the definitions that it refers to.
#[derive(Clone)]
pub struct Schema {
    encoding: Vec<u8>,
    // Read once, when a type's value first needs them.
    #[cfg(feature = "serde")]
    definitions: std::sync::Arc<std::sync::OnceLock<definitions::Definitions>>,
}

impl std::fmt::Debug for Schema {
    fn fmt(&self, formatter: &mut std::fmt::Formatter<'_>) -> std::fmt::Result {
        let mut schema = formatter.debug_struct("Schema");
        schema.field("encoding", &self.encoding).finish()
    }
}

impl PartialEq for Schema {
    fn eq(&self, other: &Schema) -> bool {
        self.encoding == other.encoding
    }
}

impl Eq for Schema {}

impl Schema {
    /// The schema of a type by its text. The text has items that the type may name: Rust source; an Anchor IDL, whose accounts begin
    /// with their eight bytes of discriminator; or a schema object of borsh-js as JSON, whose own type is `Schema`. The type is any in
    /// Rust's words. Without one the text is itself a type, or a schema object.
    ///
    /// ```
    /// # use borsh_proved::{Schema, Style};
    /// let source = "pub enum State { Empty, Open(u64) } pub struct Vault { owner: [u8; 4], state: State }";
    /// let vault = Schema::parse(source, "Vault")?;
    /// assert_eq!(vault.to_json(&[1, 2, 3, 4, 0], Style::COMPACT)?, r#"{"owner":"0x01020304","state":"Empty"}"#);
    /// assert_eq!(Schema::parse("HashMap<u32, u64>", None)?.max_size()?, 51539607544);
    ///
    /// let error = Schema::parse("struct A { x u8 }", "A").unwrap_err();
    /// assert_eq!(error.to_string(), "text: line 1, column 14: met `u8`, expected `:`");
    /// assert_eq!((error.path(), error.offset()), (Some("text"), Some(13)));
    /// # Ok::<(), borsh_proved::Error>(())
    /// ```
    ///
    /// # Errors
    ///
    /// [`ErrorKind::No`] with line and column, if the text can't be read, or the type has no schema;
    /// [`ErrorKind::OutOfMemory`].
    pub fn parse<'a>(text: &str, type_name: impl Into<Option<&'a str>>) -> Result<Schema, Error> {
        let (items, name) = match type_name.into() {
            Some(name) => (text, name),
            None if text.trim_start().starts_with('{') => (text, "Schema"),
            None => ("", text),
        };
        let encoding = outcome(sys::compile(items.as_bytes(), name.as_bytes()))?;
        Ok(Schema::of(encoding))
    }

    /// The schema with this encoding, which may break rules ([`Schema::validate`]): what
    /// `borsh::to_vec(&BorshSchemaContainer::for_type::<T>())` makes in Rust (of the crate `borsh`, with its feature
    /// `unstable__schema`), and `to_vec` of a `BorshSchemaContainer` in Rattle.
    ///
    /// # Errors
    ///
    /// [`ErrorKind::Malformed`] if the bytes aren't the encoding of a schema; [`ErrorKind::OutOfMemory`].
    pub fn new(encoding: impl Into<Vec<u8>>) -> Result<Schema, Error> {
        let schema = Schema::of(encoding.into());
        match schema.validate() {
            Err(error) if error.kind() != ErrorKind::No => Err(error),
            _ => Ok(schema),
        }
    }

    fn of(encoding: Vec<u8>) -> Schema {
        Schema {
            encoding,
            #[cfg(feature = "serde")]
            definitions: Default::default(),
        }
    }

    /// The encoding.
    pub fn as_bytes(&self) -> &[u8] {
        &self.encoding
    }

    /// That the schema keeps the rules of schemas.
    ///
    /// # Errors
    ///
    /// [`ErrorKind::No`] with a rule and a name that breaks it, as `invalid MissingDefinition A`; [`ErrorKind::OutOfMemory`].
    pub fn validate(&self) -> Result<(), Error> {
        outcome(sys::valid(&self.encoding)).map(drop)
    }

    /// The greatest size of a value in bytes: none is longer.
    ///
    /// # Errors
    ///
    /// [`ErrorKind::No`] if there is none: `overflow` (2^64 or more), `recursive`, or `missing` and a name without a definition;
    /// [`ErrorKind::OutOfMemory`].
    pub fn max_size(&self) -> Result<usize, Error> {
        let (size, answer) = sys::size(&self.encoding);
        outcome(answer).map(|_| size)
    }

    /// That all of the bytes are a value. A schema doesn't say that keys ascend, that a `bool` is 0 or 1, or that a text is UTF-8,
    /// and so the type may refuse them all the same.
    ///
    /// # Errors
    ///
    /// [`ErrorKind::No`] with the place where the bytes stop being a value; [`ErrorKind::Undecided`]; [`ErrorKind::OutOfMemory`].
    pub fn check(&self, value: &[u8]) -> Result<(), Error> {
        outcome(sys::member(&self.encoding, value)).map(drop)
    }

    /// The value that all of the bytes are, as JSON.
    ///
    /// # Errors
    ///
    /// [`ErrorKind::No`] with the place, if the bytes are no value or the type refuses it as far as names tell;
    /// [`ErrorKind::Undecided`]; [`ErrorKind::OutOfMemory`].
    pub fn to_json(&self, value: &[u8], style: Style) -> Result<String, Error> {
        outcome(sys::to_json(
            &self.encoding,
            value,
            style.is_compact,
            style.has_quoted_numbers,
        ))
        .map(text_of)
    }

    /// The bytes of the value that the JSON says. Fields and entries may come in any order, and numbers of 64 bits may be strings.
    ///
    /// # Errors
    ///
    /// [`ErrorKind::No`] with the place, if the text isn't JSON or says no value; [`ErrorKind::Undecided`];
    /// [`ErrorKind::OutOfMemory`].
    pub fn from_json(&self, json: &str) -> Result<Vec<u8>, Error> {
        outcome(sys::from_json(&self.encoding, json.as_bytes()))
    }

    #[cfg(feature = "serde")]
    fn definitions(&self) -> Result<&definitions::Definitions, Error> {
        if let Some(definitions) = self.definitions.get() {
            return Ok(definitions);
        }
        let error = || Error::new(2, "not a schema container".to_owned());
        let words = outcome(sys::names(&self.encoding))?;
        let read = definitions::Definitions::new(&self.encoding, &words).ok_or_else(error)?;
        Ok(self.definitions.get_or_init(|| read))
    }

    /// The bytes of a value of any type that implements `serde::Serialize` (feature `serde`). Its parts go to those of the schema: fields
    /// and variants by the names that serde has, numbers exactly, and elements of hashed sets and maps in the order of their keys.
    ///
    /// ```
    /// # use borsh_proved::Schema;
    /// #[derive(Debug, PartialEq, serde::Serialize, serde::Deserialize)]
    /// struct A {
    ///     x: u64,
    ///     y: String,
    /// }
    /// # let schema = Schema::new(include_bytes!("../../../crates/borsh_tool/data/readme.borsh").as_slice())?;
    /// let value = A { x: u64::MAX, y: "h".to_owned() };
    /// let bytes = schema.encode(&value)?;
    /// assert_eq!(bytes, [255, 255, 255, 255, 255, 255, 255, 255, 1, 0, 0, 0, b'h']);
    /// assert_eq!(schema.decode::<A>(&bytes)?, value);
    /// assert_eq!(schema.encode(&(1, 2)).unwrap_err().to_string(), "A: a tuple, where the schema has `A`");
    /// # Ok::<(), borsh_proved::Error>(())
    /// ```
    ///
    /// # Errors
    ///
    /// [`ErrorKind::No`] with the path, if the value hasn't the parts that the schema has, or the type refuses it as far as names tell;
    /// also if a hashed set or map has keys whose order the schema doesn't say, as those of a struct. [`ErrorKind::Undecided`];
    /// [`ErrorKind::OutOfMemory`].
    #[cfg(feature = "serde")]
    pub fn encode<T: serde::Serialize + ?Sized>(&self, value: &T) -> Result<Vec<u8>, Error> {
        let definitions = self.definitions()?;
        match encode::json_of(definitions, value) {
            Ok(json) => outcome(sys::from_json(&self.encoding, &json)),
            Err(fault) => Err(fault.into_error(definitions.root())),
        }
    }

    /// The value that all of the bytes are, of any type that implements `serde::Deserialize` (feature `serde`). As everywhere in serde, a
    /// type may leave out fields that it doesn't have; `#[serde(deny_unknown_fields)]` refuses them.
    ///
    /// # Errors
    ///
    /// As of [`Schema::to_json`], and [`ErrorKind::No`] with the path, if the type hasn't the parts that the schema has.
    #[cfg(feature = "serde")]
    pub fn decode<T: serde::de::DeserializeOwned>(&self, value: &[u8]) -> Result<T, Error> {
        let definitions = self.definitions()?;
        let json = outcome(sys::to_json(&self.encoding, value, true, false))?;
        decode::value_of(definitions, &json).map_err(|it| it.into_error(definitions.root()))
    }

    /// The bytes of each of the values that follow one another to the end of a reader, in bounded memory. They are checked as by
    /// [`Schema::check`]. The reader is read ahead of the values, by pieces of 256 KiB, so it needs no buffer.
    ///
    /// ```
    /// # use borsh_proved::Schema;
    /// # let schema = Schema::new(include_bytes!("../../../crates/borsh_tool/data/readme.borsh").as_slice())?;
    /// let file: &[u8] = b"\x0c\0\0\0\0\0\0\0\x01\0\0\0a\x0d\0\0\0\0\0\0\0\0\0\0\0";
    /// for record in schema.records(file) {
    ///     let record = record?;
    ///     println!("{}: {} bytes", record.offset, record.bytes.len()); // 0: 13 bytes, and 13: 12 bytes
    /// }
    /// # Ok::<(), Box<dyn std::error::Error>>(())
    /// ```
    ///
    /// # Errors
    ///
    /// [`RecordError::Read`] if the reader fails. [`RecordError::Value`] with the place [`Error::record`], behind the values before
    /// it: [`ErrorKind::No`] if bytes are no value, the end is within one, or one is longer than [`Records::max_length`]; and without a
    /// place, if the schema has a value without bytes, of which there may be any number; [`ErrorKind::Undecided`];
    /// [`ErrorKind::OutOfMemory`].
    pub fn records<R: Read>(&self, reader: R) -> Records<'_, R, Record> {
        Records::new(self, reader, records::bytes_of)
    }

    /// The JSON of each of the values, on one line, and with numbers of 64 bits as strings if that is asked for.
    ///
    /// ```
    /// # use borsh_proved::Schema;
    /// # let schema = Schema::new(include_bytes!("../../../crates/borsh_tool/data/readme.borsh").as_slice())?;
    /// let file: &[u8] = b"\x0c\0\0\0\0\0\0\0\x01\0\0\0a\x0d\0\0\0\0\0\0\0\0\0\0\0";
    /// let lines = schema.json_records(file, false).collect::<Result<Vec<String>, _>>()?;
    /// assert_eq!(lines, [r#"{"x":12,"y":"a"}"#, r#"{"x":13,"y":""}"#]);
    /// # Ok::<(), borsh_proved::RecordError>(())
    /// ```
    ///
    /// # Errors
    ///
    /// As of [`Schema::records`], and [`ErrorKind::No`] where the type refuses a value as far as names tell.
    pub fn json_records<R: Read>(
        &self,
        reader: R,
        has_quoted_numbers: bool,
    ) -> Records<'_, R, String> {
        let make = if has_quoted_numbers {
            records::json_of::<true>
        } else {
            records::json_of::<false>
        };
        Records::new(self, reader, make)
    }
}

/// The library gives UTF-8.
fn text_of(bytes: Vec<u8>) -> String {
    String::from_utf8(bytes)
        .unwrap_or_else(|error| String::from_utf8_lossy(error.as_bytes()).into_owned())
}

/// What a call gave, or its error.
fn outcome(answer: sys::Answer) -> Result<Vec<u8>, Error> {
    if answer.code == 0 {
        return Ok(answer.bytes);
    }
    Err(error_of(answer))
}

fn error_of(answer: sys::Answer) -> Error {
    Error {
        path: answer.path.map(text_of),
        offset: answer.offset,
        ..Error::new(answer.code, text_of(answer.bytes))
    }
}
