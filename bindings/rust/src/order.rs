//! The order of the elements of a hashed set, and of the keys of a hashed map, which a type gives in any order.

use crate::definitions::{Definition, Definitions, Form};
use crate::fault::Fault;
use serde_json::Value;

/// An element of a set, or an entry of a map: its key and all of it, as JSON.
pub(crate) struct Entry {
    pub key: Vec<u8>,
    pub json: Vec<u8>,
}

/// A key as it is compared: values of one name are of one case.
#[derive(PartialEq, Eq, PartialOrd, Ord)]
enum Key {
    /// Whether it isn't negative, and its bits.
    Number(bool, u128),
    Text(String),
    List(Vec<Key>),
}

/// Sorts entries by their keys, whose name is at a place, if their order is told. Where it isn't there is one at most.
pub(crate) fn sort(
    definitions: &Definitions,
    at: usize,
    is_known: bool,
    entries: Vec<Entry>,
) -> Result<Vec<Entry>, Fault> {
    if entries.len() < 2 {
        return Ok(entries);
    }
    let unknown = || {
        let name = &definitions.get(at).name;
        Fault::new(format!(
            "they come in any order, and the schema doesn't say how values of `{name}` are ordered: use an ordered set or map"
        ))
    };
    if !is_known {
        return Err(unknown());
    }
    let mut sorted = Vec::with_capacity(entries.len());
    for entry in entries {
        let value = serde_json::from_slice(&entry.key);
        let key = value.ok().and_then(|it| key_of(definitions, at, &it));
        sorted.push((key.ok_or_else(unknown)?, entry));
    }
    sorted.sort_by(|left, right| left.0.cmp(&right.0));
    Ok(sorted.into_iter().map(|it| it.1).collect())
}

fn number(text: &str) -> Option<Key> {
    match text.parse::<u128>() {
        Ok(number) => Some(Key::Number(true, number)),
        Err(_) => Some(Key::Number(false, text.parse::<i128>().ok()? as u128)),
    }
}

fn list(keys: impl Iterator<Item = Option<Key>>) -> Option<Key> {
    Some(Key::List(keys.collect::<Option<_>>()?))
}

/// Whether a name tells how its values are ordered, if those of its parts are told.
fn is_told(definition: &Definition) -> bool {
    let begins = |front: &str| definition.name.starts_with(front);
    match definition.form {
        Form::Bool | Form::Number { .. } | Form::Text => true,
        Form::Bytes(_) | Form::List(_) => ["Vec<", "VecDeque<", "LinkedList<", "BTreeSet<", "["]
            .into_iter()
            .any(begins),
        Form::Map { .. } => begins("BTreeMap<"),
        Form::Tuple(_) => begins("("),
        Form::Option(_) | Form::Enum(_) => begins("Option<"),
        _ => false,
    }
}

fn key_of(definitions: &Definitions, at: usize, value: &Value) -> Option<Key> {
    let of = |at: usize, value: &Value| key_of(definitions, at, value);
    let pair = |parts: [usize; 2], key: &Value, value: &Value| {
        list([of(parts[0], key), of(parts[1], value)].into_iter())
    };
    let definition = definitions.get(at);
    match (&definition.form, value) {
        _ if definition.is_empty => list(std::iter::empty()),
        _ if !is_told(definition) => None,
        (Form::Bool, Value::Bool(value)) => Some(Key::Number(true, u128::from(*value))),
        (Form::Number { .. }, Value::Number(value)) => number(&value.to_string()),
        (Form::Number { .. }, Value::String(text)) => number(text),
        // Digits of bytes are ordered as the bytes.
        (Form::Text | Form::Bytes(_), Value::String(text)) => Some(Key::Text(text.clone())),
        (Form::List(element), Value::Array(values)) => {
            list(values.iter().map(|it| of(*element, it)))
        }
        (Form::Tuple(parts), Value::Array(values)) => {
            list(parts.iter().zip(values).map(|(at, it)| of(*at, it)))
        }
        (Form::Map { key, value, .. }, Value::Object(entries)) => {
            let pairs = entries.iter();
            let pairs = pairs.map(|it| pair([*key, *value], &Value::from(it.0.as_str()), it.1));
            let mut keys = pairs.collect::<Option<Vec<Key>>>()?;
            keys.sort();
            Some(Key::List(keys))
        }
        (Form::Map { key, value, .. }, Value::Array(pairs)) => list(
            pairs
                .iter()
                .map(|it| pair([*key, *value], it.get(0)?, it.get(1)?)),
        ),
        (Form::Option(_), Value::Null) => list(std::iter::empty()),
        (Form::Option(part), value) => list(std::iter::once(of(*part, value))),
        // An `Option` whose value may be `null`.
        (Form::Enum(variants), Value::String(name)) => {
            let some = variants.iter().find(|it| it.0 == *name && name == "Some");
            list(some.map(|it| of(it.1, &Value::Null)).into_iter())
        }
        (Form::Enum(variants), Value::Object(some)) => {
            list(std::iter::once(of(variants.get(1)?.1, some.get("Some")?)))
        }
        _ => None,
    }
}
