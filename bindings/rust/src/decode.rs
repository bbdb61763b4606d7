//! A value of any type that serde makes of parts, of the JSON that the library gives of its bytes, by their schema.

use crate::definitions::{Definition, Definitions, Form};
use crate::fault::{Fault, Name};
use serde::de::value::{SeqDeserializer, StrDeserializer};
use serde::de::{
    DeserializeOwned, DeserializeSeed, Deserializer, EnumAccess, Error, IntoDeserializer,
    MapAccess, SeqAccess, VariantAccess, Visitor,
};
use serde::{forward_to_deserialize_any, Deserialize};
use serde_json::Value;

type Outcome<T> = Result<T, Fault>;

/// The value of the root that the JSON says.
pub(crate) fn value_of<T: DeserializeOwned>(definitions: &Definitions, json: &[u8]) -> Outcome<T> {
    let mut reader = serde_json::Deserializer::from_slice(json);
    // The library gives none that nests more than 128 deep.
    reader.disable_recursion_limit();
    let json = Value::deserialize(&mut reader).map_err(Fault::custom)?;
    T::deserialize(Part {
        definitions,
        at: definitions.root,
        json,
    })
}

/// A part of a value: the place of its name, and its JSON.
struct Part<'a> {
    definitions: &'a Definitions,
    at: usize,
    json: Value,
}

/// The bytes that digits say, of which the first two are `0x`.
fn bytes_of(digits: &str) -> Option<Vec<u8>> {
    let digits = digits.strip_prefix("0x")?.as_bytes();
    let value = |it: u8| char::from(it).to_digit(16);
    digits
        .chunks(2)
        .map(|it| Some((value(it[0])? * 16 + value(*it.get(1)?)?) as u8))
        .collect()
}

impl<'a> Part<'a> {
    fn definition(&self) -> &'a Definition {
        self.definitions.written(self.at)
    }

    /// The JSON isn't that of the definition, which the library doesn't give.
    fn unknown<T>(&self) -> Outcome<T> {
        let name = &self.definitions.get(self.at).name;
        Err(Fault::new(format!("its JSON isn't one of `{name}`")))
    }

    fn bytes(&self) -> Outcome<Vec<u8>> {
        match self.json.as_str().and_then(bytes_of) {
            Some(bytes) => Ok(bytes),
            None => self.unknown(),
        }
    }

    fn mismatch<T>(&self, wanted: &str) -> Outcome<T> {
        let name = &self.definitions.get(self.at).name;
        Err(Fault::new(format!(
            "`{name}` in the schema, where the type has {wanted}"
        )))
    }

    fn give_number<'de, V: Visitor<'de>>(&self, text: &str, visitor: V) -> Outcome<V::Value> {
        if let Ok(number) = text.parse() {
            visitor.visit_u64(number)
        } else if let Ok(number) = text.parse() {
            visitor.visit_i64(number)
        } else if let Ok(number) = text.parse() {
            visitor.visit_u128(number)
        } else if let Ok(number) = text.parse() {
            visitor.visit_i128(number)
        } else {
            self.unknown()
        }
    }

    fn give_float<'de, V: Visitor<'de>>(self, visitor: V) -> Outcome<V::Value> {
        let text = match &self.json {
            Value::Number(number) => number.to_string(),
            Value::String(word) => word.clone(),
            _ => return self.unknown(),
        };
        // The text has the digits of the JSON, so that an `f32` is rounded once.
        match (&self.definition().form, text.parse(), text.parse()) {
            (Form::Float(4), Ok(value), _) => visitor.visit_f32(value),
            (_, _, Ok(value)) => visitor.visit_f64(value),
            _ => self.unknown(),
        }
    }

    /// Gives the elements of a list, an array or a tuple: of so many, where they have no bytes.
    fn give_elements<'de, V: Visitor<'de>>(self, count: usize, visitor: V) -> Outcome<V::Value> {
        let definition = self.definition();
        let json = match self.json {
            Value::Null if definition.is_empty => Value::Array(vec![Value::Null; count]),
            json => json,
        };
        let (places, values) = match (&definition.form, json) {
            (Form::Bytes(_), Value::String(digits)) => return give_bytes(&digits, visitor),
            (Form::Bytes(element) | Form::List(element), Value::Array(values)) => {
                (Places::Elements(*element), values)
            }
            (Form::Tuple(places), Value::Array(values)) => (Places::Row(places), values),
            (_, json) => return Part { json, ..self }.unknown(),
        };
        give_row(self.definitions, places, values, visitor)
    }

    /// Gives the fields of a struct, or the entries of a map.
    fn give_entries<'de, V: Visitor<'de>>(self, visitor: V) -> Outcome<V::Value> {
        let Part {
            definitions, json, ..
        } = self;
        let definition = definitions.written(self.at);
        let entries: Vec<(Key<'a>, usize, Value)> = match (&definition.form, json) {
            // Parts of a struct without bytes are `null` as it is.
            (Form::Struct(fields), mut json) => {
                let mut part = |name: &str| json.get_mut(name).map(Value::take).unwrap_or_default();
                let fields = fields.iter();
                fields
                    .map(|(name, at)| (Key::Field(name), *at, part(name)))
                    .collect()
            }
            (Form::Tuple(_), Value::Null) => Vec::new(),
            (Form::Map { key, value, .. }, Value::Object(values)) => values
                .into_iter()
                .map(|(name, it)| (Key::Part(*key, Value::String(name)), *value, it))
                .collect(),
            (Form::Map { key, value, .. }, Value::Array(pairs)) => {
                let entry = |pair| match pair {
                    Value::Array(mut pair) => {
                        let it = pair.pop()?;
                        Some((Key::Part(*key, pair.pop()?), *value, it))
                    }
                    _ => None,
                };
                pairs.into_iter().filter_map(entry).collect()
            }
            (_, json) => {
                return Part {
                    definitions,
                    json,
                    at: self.at,
                }
                .unknown()
            }
        };
        visitor.visit_map(Entries {
            definitions,
            entries: entries.into_iter(),
            value: None,
            count: 0,
        })
    }

    /// The variant that the value is of, and what it has; none if it isn't of an enum.
    fn variant(self) -> Outcome<Variant<'a>> {
        let Part {
            definitions,
            at,
            json,
        } = self;
        let (name, json) = match json {
            Value::String(name) => (name, Value::Null),
            Value::Object(values) if values.len() == 1 => {
                values.into_iter().next().unwrap_or_default()
            }
            json => {
                return Part {
                    definitions,
                    at,
                    json,
                }
                .unknown()
            }
        };
        let found = match &definitions.written(at).form {
            Form::Enum(variants) => variants.iter().find(|it| it.0 == name),
            _ => None,
        };
        match found {
            Some((name, at)) => Ok(Variant {
                name,
                payload: Part {
                    definitions,
                    at: *at,
                    json,
                },
            }),
            None => Part {
                definitions,
                at,
                json,
            }
            .unknown(),
        }
    }
}

fn give_row<'de, V: Visitor<'de>>(
    definitions: &Definitions,
    places: Places<'_>,
    values: Vec<Value>,
    visitor: V,
) -> Outcome<V::Value> {
    let mut elements = Elements {
        definitions,
        places,
        values: values.into_iter(),
        count: 0,
    };
    let value = visitor.visit_seq(&mut elements)?;
    match elements.values.next() {
        None => Ok(value),
        Some(_) => Err(Fault::new("it has more parts in the schema")),
    }
}

fn give_bytes<'de, V: Visitor<'de>>(digits: &str, visitor: V) -> Outcome<V::Value> {
    let bytes = bytes_of(digits).unwrap_or_default();
    let mut elements = SeqDeserializer::<_, Fault>::new(bytes.into_iter());
    let value = visitor.visit_seq(&mut elements)?;
    elements.end()?;
    Ok(value)
}

impl<'de> Deserializer<'de> for Part<'_> {
    type Error = Fault;

    fn is_human_readable(&self) -> bool {
        false
    }

    fn deserialize_any<V: Visitor<'de>>(self, visitor: V) -> Outcome<V::Value> {
        let definition = self.definition();
        if definition.is_empty {
            return visitor.visit_unit();
        }
        match (&definition.form, &self.json) {
            (Form::Bool, Value::Bool(value)) => visitor.visit_bool(*value),
            (Form::Number { .. }, Value::Number(number)) => match number.as_u64() {
                Some(number) => visitor.visit_u64(number),
                None => self.give_number(&number.to_string(), visitor),
            },
            (Form::Number { .. }, Value::String(text)) => self.give_number(text, visitor),
            (Form::Float(_), _) => self.give_float(visitor),
            (Form::Digits, _) => visitor.visit_byte_buf(self.bytes()?),
            (Form::Text, Value::String(text)) => visitor.visit_str(text),
            (Form::Bytes(_) | Form::List(_) | Form::Tuple(_), _) => self.give_elements(0, visitor),
            (Form::Struct(_) | Form::Map { .. }, _) => self.give_entries(visitor),
            (Form::Option(_), Value::Null) => visitor.visit_none(),
            (Form::Option(at), _) => {
                let some = visitor.visit_some(Part { at: *at, ..self });
                some.map_err(|it| it.within("::Some"))
            }
            (Form::Enum(_), Value::String(name)) => visitor.visit_str(name),
            (Form::Enum(_), _) => {
                let Variant { name, payload } = self.variant()?;
                visitor.visit_map(Entries {
                    definitions: payload.definitions,
                    entries: vec![(Key::Field(name), payload.at, payload.json)].into_iter(),
                    value: None,
                    count: 0,
                })
            }
            _ => self.unknown(),
        }
    }

    fn deserialize_f32<V: Visitor<'de>>(self, visitor: V) -> Outcome<V::Value> {
        match self.definition().form {
            Form::Float(4) => self.give_float(visitor),
            _ => self.mismatch("an `f32`"),
        }
    }

    fn deserialize_f64<V: Visitor<'de>>(self, visitor: V) -> Outcome<V::Value> {
        match self.definition().form {
            Form::Float(8) => self.give_float(visitor),
            _ => self.mismatch("an `f64`"),
        }
    }

    fn deserialize_bytes<V: Visitor<'de>>(self, visitor: V) -> Outcome<V::Value> {
        self.deserialize_byte_buf(visitor)
    }

    fn deserialize_byte_buf<V: Visitor<'de>>(self, visitor: V) -> Outcome<V::Value> {
        match self.definition().form {
            Form::Bytes(_) => visitor.visit_byte_buf(self.bytes()?),
            _ => self.deserialize_any(visitor),
        }
    }

    fn deserialize_option<V: Visitor<'de>>(self, visitor: V) -> Outcome<V::Value> {
        let Form::Enum(_) = self.definition().form else {
            return self.deserialize_any(visitor);
        };
        let Variant { name, payload } = self.variant()?;
        match name {
            "None" => visitor.visit_none(),
            "Some" => visitor
                .visit_some(payload)
                .map_err(|it| it.within("::Some")),
            _ => visitor.visit_str(name),
        }
    }

    fn deserialize_newtype_struct<V: Visitor<'de>>(
        self,
        _name: &'static str,
        visitor: V,
    ) -> Outcome<V::Value> {
        let (at, piece) = self.definitions.field(self.at);
        let field = visitor.visit_newtype_struct(Part { at, ..self });
        field.map_err(|it| it.within(piece))
    }

    fn deserialize_seq<V: Visitor<'de>>(self, visitor: V) -> Outcome<V::Value> {
        match self.definition().form {
            Form::Tuple(_) | Form::List(_) | Form::Bytes(_) => self.give_elements(0, visitor),
            _ => self.deserialize_any(visitor),
        }
    }

    fn deserialize_tuple<V: Visitor<'de>>(self, count: usize, visitor: V) -> Outcome<V::Value> {
        match &self.definition().form {
            Form::Tuple(_) | Form::List(_) | Form::Bytes(_) => self.give_elements(count, visitor),
            // serde has an IP address as a tuple.
            Form::Struct(fields) if self.definitions.octets(fields).is_some() => {
                match self.json.get("octets").and_then(Value::as_str) {
                    Some(digits) => give_bytes(digits, visitor),
                    None => self.unknown(),
                }
            }
            _ => self.deserialize_any(visitor),
        }
    }

    fn deserialize_tuple_struct<V: Visitor<'de>>(
        self,
        _name: &'static str,
        count: usize,
        visitor: V,
    ) -> Outcome<V::Value> {
        let is_row = |it: &[usize]| it.len() == count && count != 1;
        match (&self.definitions.get(self.at).form, &self.definition().form) {
            // The newtype is transparent, and holds a struct.
            (_, Form::Tuple(parts)) if is_row(parts) => self.deserialize_tuple(count, visitor),
            // All fields but one are left out.
            (Form::Newtype(part), _) => {
                let places = Places::Row(std::slice::from_ref(part));
                give_row(self.definitions, places, vec![self.json], visitor)
            }
            _ => self.deserialize_tuple(count, visitor),
        }
    }

    fn deserialize_struct<V: Visitor<'de>>(
        self,
        _name: &'static str,
        _fields: &'static [&'static str],
        visitor: V,
    ) -> Outcome<V::Value> {
        match &self.definition().form {
            Form::Struct(_) => self.give_entries(visitor),
            Form::Tuple(places) if places.is_empty() => self.give_entries(visitor),
            _ => self.deserialize_any(visitor),
        }
    }

    fn deserialize_enum<V: Visitor<'de>>(
        self,
        _name: &'static str,
        _variants: &'static [&'static str],
        visitor: V,
    ) -> Outcome<V::Value> {
        match self.definition().form {
            Form::Enum(_) => visitor.visit_enum(self.variant()?),
            _ => self.deserialize_any(visitor),
        }
    }

    fn deserialize_ignored_any<V: Visitor<'de>>(self, visitor: V) -> Outcome<V::Value> {
        visitor.visit_unit()
    }

    forward_to_deserialize_any! {
        bool i8 i16 i32 i64 i128 u8 u16 u32 u64 u128 char str string unit unit_struct map identifier
    }
}

/// Where the names of elements are.
enum Places<'a> {
    Elements(usize),
    Row(&'a [usize]),
}

/// The elements that are left of a list, an array or a tuple.
struct Elements<'a> {
    definitions: &'a Definitions,
    places: Places<'a>,
    values: std::vec::IntoIter<Value>,
    count: usize,
}

impl<'de> SeqAccess<'de> for &mut Elements<'_> {
    type Error = Fault;

    fn next_element_seed<T: DeserializeSeed<'de>>(&mut self, seed: T) -> Outcome<Option<T::Value>> {
        let Some(json) = self.values.next() else {
            return Ok(None);
        };
        let index = self.count;
        self.count += 1;
        let at = match self.places {
            Places::Elements(at) => Some(at),
            Places::Row(places) => places.get(index).copied(),
        };
        let Some(at) = at else {
            return Err(Fault::new("it has fewer parts in the schema"));
        };
        let part = Part {
            definitions: self.definitions,
            at,
            json,
        };
        let element = seed.deserialize(part);
        element.map(Some).map_err(|it| match self.places {
            Places::Elements(_) => it.within(format_args!("[{index}]")),
            Places::Row(_) => it.within(format_args!(".{index}")),
        })
    }

    fn size_hint(&self) -> Option<usize> {
        Some(self.values.len())
    }
}

/// What names an entry.
enum Key<'a> {
    Field(&'a str),
    Part(usize, Value),
}

/// The fields or entries that are left of a struct or a map.
struct Entries<'a> {
    definitions: &'a Definitions,
    entries: std::vec::IntoIter<(Key<'a>, usize, Value)>,
    /// The value of the key that was given last, and the piece of the path to it.
    value: Option<(String, usize, Value)>,
    count: usize,
}

impl<'de> MapAccess<'de> for Entries<'_> {
    type Error = Fault;

    fn next_key_seed<K: DeserializeSeed<'de>>(&mut self, seed: K) -> Outcome<Option<K::Value>> {
        let Some((key, at, json)) = self.entries.next() else {
            return Ok(None);
        };
        let index = self.count;
        self.count += 1;
        match key {
            Key::Field(name) => {
                self.value = Some((format!(".{}", Name(name)), at, json));
                let name: StrDeserializer<'_, Fault> = name.into_deserializer();
                seed.deserialize(name).map(Some)
            }
            Key::Part(place, key) => {
                self.value = Some((format!("[{index}].1"), at, json));
                let key = seed.deserialize(Part {
                    definitions: self.definitions,
                    at: place,
                    json: key,
                });
                key.map(Some)
                    .map_err(|it| it.within(format_args!("[{index}].0")))
            }
        }
    }

    fn next_value_seed<T: DeserializeSeed<'de>>(&mut self, seed: T) -> Outcome<T::Value> {
        let Some((piece, at, json)) = self.value.take() else {
            return Err(Fault::new("a value is asked for before its key"));
        };
        let value = seed.deserialize(Part {
            definitions: self.definitions,
            at,
            json,
        });
        value.map_err(|it| it.within(&piece))
    }

    fn size_hint(&self) -> Option<usize> {
        Some(self.entries.len())
    }
}

/// A variant, and what it has.
struct Variant<'a> {
    name: &'a str,
    payload: Part<'a>,
}

impl<'a, 'de> EnumAccess<'de> for Variant<'a> {
    type Error = Fault;
    type Variant = Variant<'a>;

    fn variant_seed<V: DeserializeSeed<'de>>(self, seed: V) -> Outcome<(V::Value, Variant<'a>)> {
        let name: StrDeserializer<'_, Fault> = self.name.into_deserializer();
        Ok((seed.deserialize(name)?, self))
    }
}

impl Variant<'_> {
    fn within<T>(name: &str, given: Outcome<T>) -> Outcome<T> {
        given.map_err(|it| it.within(format_args!("::{}", Name(name))))
    }
}

impl<'de> VariantAccess<'de> for Variant<'_> {
    type Error = Fault;

    fn unit_variant(self) -> Outcome<()> {
        if self.payload.definition().is_empty {
            return Ok(());
        }
        Variant::within(self.name, Err(Fault::new("it has a value in the schema")))
    }

    fn newtype_variant_seed<T: DeserializeSeed<'de>>(self, seed: T) -> Outcome<T::Value> {
        let (at, piece) = self.payload.definitions.field(self.payload.at);
        let given = seed.deserialize(Part { at, ..self.payload });
        Variant::within(self.name, given.map_err(|it| it.within(piece)))
    }

    fn tuple_variant<V: Visitor<'de>>(self, count: usize, visitor: V) -> Outcome<V::Value> {
        let given = self.payload.deserialize_tuple_struct("", count, visitor);
        Variant::within(self.name, given)
    }

    fn struct_variant<V: Visitor<'de>>(
        self,
        fields: &'static [&'static str],
        visitor: V,
    ) -> Outcome<V::Value> {
        let given = self.payload.deserialize_struct("", fields, visitor);
        Variant::within(self.name, given)
    }
}
