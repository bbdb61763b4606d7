//! Values one after another in a reader.

use crate::{outcome, sys, text_of, Error, Schema};
use std::collections::VecDeque;
use std::fmt;
use std::io::{self, Read};

/// So many bytes are read at once, and so many values asked for.
const PIECE: usize = 1 << 18;
const MOST_VALUES: usize = 1 << 12;

/// A value that is longer is tried again once an eighth more has come, so that it isn't gone through again for each piece of it.
const LONG: usize = 1 << 20;

/// How long a value may be, unless it is said.
const MAX_LENGTH: usize = 1 << 26;

/// A value, and the byte of the reader at which it begins.
#[derive(Clone, Debug, PartialEq, Eq)]
pub struct Record {
    /// How many bytes come before it.
    pub offset: u64,
    /// Its bytes.
    pub bytes: Vec<u8>,
}

/// Why there are no more values.
#[derive(Debug)]
#[non_exhaustive]
pub enum RecordError {
    /// The reader failed.
    Read(io::Error),
    /// The bytes at the place [`Error::record`] are no value, or the end is within one, or one is too long.
    Value(Error),
}

impl fmt::Display for RecordError {
    fn fmt(&self, f: &mut fmt::Formatter<'_>) -> fmt::Result {
        match self {
            RecordError::Read(error) => error.fmt(f),
            RecordError::Value(error) => error.fmt(f),
        }
    }
}

impl std::error::Error for RecordError {
    fn source(&self) -> Option<&(dyn std::error::Error + 'static)> {
        match self {
            RecordError::Read(error) => Some(error),
            RecordError::Value(error) => Some(error),
        }
    }
}

impl From<Error> for RecordError {
    fn from(error: Error) -> RecordError {
        RecordError::Value(error)
    }
}

/// Values of which the first begins at a byte of the reader: all their bytes, and the length of each.
pub(crate) struct Batch<'a> {
    start: u64,
    bytes: &'a [u8],
    lengths: &'a [usize],
}

/// What is made of each of the values, up to one of which nothing is made.
pub(crate) type Make<T> = fn(&Schema, Batch<'_>) -> (Vec<T>, Option<Error>);

/// The values of a reader: see [`Schema::records`] and [`Schema::json_records`]. After an error there are no more.
pub struct Records<'a, R, T> {
    schema: &'a Schema,
    reader: R,
    make: Make<T>,
    max_length: usize,
    /// The bytes that were read and aren't taken, and where they begin in the reader.
    held: Vec<u8>,
    start: u64,
    is_all: bool,
    lengths: Vec<usize>,
    ready: VecDeque<T>,
    /// What comes behind `ready`: an error, or the end.
    last: Option<Option<RecordError>>,
}

impl<'a, R: Read, T> Records<'a, R, T> {
    pub(crate) fn new(schema: &'a Schema, reader: R, make: Make<T>) -> Self {
        Records {
            schema,
            reader,
            make,
            max_length: MAX_LENGTH,
            held: Vec::new(),
            start: 0,
            is_all: false,
            lengths: vec![0; MOST_VALUES],
            ready: VecDeque::new(),
            last: None,
        }
    }

    /// Has values of more bytes be refused: by default of more than 64 MiB.
    pub fn max_length(mut self, bytes: usize) -> Self {
        self.max_length = bytes;
        self
    }

    /// Holds so many bytes, if there are as many.
    fn hold(&mut self, wanted: usize) -> io::Result<()> {
        while self.held.len() < wanted && !self.is_all {
            let before = self.held.len();
            self.held.resize(wanted.max(before + PIECE), 0);
            let read = self.reader.read(&mut self.held[before..]);
            self.held.truncate(before + *read.as_ref().unwrap_or(&0));
            match read {
                Ok(count) => self.is_all = count == 0,
                Err(error) if error.kind() == io::ErrorKind::Interrupted => {}
                Err(error) => return Err(error),
            }
        }
        Ok(())
    }

    /// How many values were found whole, whose lengths are in `lengths`: none at the end alone.
    fn measure(&mut self) -> Result<usize, RecordError> {
        let mut wanted = 1;
        loop {
            self.hold(wanted).map_err(RecordError::Read)?;
            if self.held.is_empty() {
                return Ok(0);
            }
            let (count, answer) =
                sys::records(&self.schema.encoding, &self.held, &mut self.lengths);
            if answer.code != sys::SHORT {
                return match outcome(answer) {
                    Ok(_) => Ok(count),
                    Err(error) => Err(error.of_record(self.start).into()),
                };
            }
            if self.held.len() >= self.max_length {
                return Err(Self::longer(self.start));
            }
            if self.is_all {
                let error = outcome(answer).err().map(|it| it.of_record(self.start));
                return error.map_or(Ok(0), |error| Err(error.into()));
            }
            let held = self.held.len();
            wanted = held + if held < LONG { 1 } else { held / 8 };
        }
    }

    fn longer(start: u64) -> RecordError {
        Error::new(1, "longer than the limit".to_owned())
            .at_record(start)
            .into()
    }

    /// Makes the next values ready. The error comes behind them.
    fn next_batch(&mut self) -> Result<(), RecordError> {
        let count = self.measure()?;
        let found = &self.lengths[..count];
        let longer = found.iter().position(|&length| length > self.max_length);
        let lengths = &found[..longer.unwrap_or(count)];
        let size = lengths.iter().sum();
        let batch = Batch {
            start: self.start,
            bytes: &self.held[..size],
            lengths,
        };
        let (made, error) = (self.make)(self.schema, batch);
        self.ready.extend(made);
        self.held.drain(..size);
        self.start += size as u64;
        match (error, longer) {
            (Some(error), _) => Err(error.into()),
            (None, Some(_)) => Err(Self::longer(self.start)),
            (None, None) => Ok(()),
        }
    }
}

impl<R: Read, T> Iterator for Records<'_, R, T> {
    type Item = Result<T, RecordError>;

    fn next(&mut self) -> Option<Self::Item> {
        if self.ready.is_empty() && self.last.is_none() {
            match self.next_batch() {
                Err(error) => self.last = Some(Some(error)),
                Ok(()) if self.ready.is_empty() => self.last = Some(None),
                Ok(()) => {}
            }
        }
        match self.ready.pop_front() {
            Some(made) => Some(Ok(made)),
            None => self.last.as_mut()?.take().map(Err),
        }
    }
}

impl<R: Read, T> std::iter::FusedIterator for Records<'_, R, T> {}

/// The bytes of each.
pub(crate) fn bytes_of(_: &Schema, batch: Batch<'_>) -> (Vec<Record>, Option<Error>) {
    let mut at = 0;
    let record = |&length: &usize| {
        at += length;
        Record {
            offset: batch.start + (at - length) as u64,
            bytes: batch.bytes[at - length..at].to_vec(),
        }
    };
    (batch.lengths.iter().map(record).collect(), None)
}

/// The JSON of each.
pub(crate) fn json_of<const QUOTED: bool>(
    schema: &Schema,
    batch: Batch<'_>,
) -> (Vec<String>, Option<Error>) {
    let (mut made, mut at) = (Vec::with_capacity(batch.lengths.len()), 0);
    while made.len() < batch.lengths.len() {
        let lengths = &batch.lengths[made.len()..];
        let (count, answer) =
            sys::json_lines(&schema.encoding, &batch.bytes[at..], lengths, QUOTED);
        match outcome(answer) {
            Ok(lines) => made.extend(text_of(lines).lines().map(str::to_owned)),
            Err(error) => return (made, Some(error.of_record(batch.start + at as u64))),
        }
        at += lengths[..count].iter().sum::<usize>();
    }
    (made, None)
}
