//! The JSON of a value of any type that serde gives the parts of, by a schema: the library then says whether it is a value.

use crate::definitions::{Definition, Definitions, Form};
use crate::fault::{Fault, Name};
use crate::order::{sort, Entry};
use serde::ser::{self, Error, Serialize, Serializer};
use std::fmt::Arguments;

type Outcome<T = ()> = Result<T, Fault>;

/// The JSON of a value of the root.
pub(crate) fn json_of<T: Serialize + ?Sized>(
    definitions: &Definitions,
    value: &T,
) -> Outcome<Vec<u8>> {
    let mut json = Vec::new();
    value.serialize(Part {
        definitions,
        at: definitions.root,
        depth: 0,
        json: &mut json,
    })?;
    Ok(json)
}

/// The library refuses what nests more than 128 deep. It isn't reached by values that would fill the stack before.
const MOST_DEPTH: usize = 160;

/// A part of a value, whose name is at a place, and whose JSON comes next.
struct Part<'a> {
    definitions: &'a Definitions,
    at: usize,
    depth: usize,
    json: &'a mut Vec<u8>,
}

impl Part<'_> {
    /// Adds the JSON of a part of this part, whose path goes on with this piece.
    fn put<T: Serialize + ?Sized>(&mut self, at: usize, value: &T, piece: Arguments) -> Outcome {
        if self.depth == MOST_DEPTH {
            return Err(Fault::new("nests more than 128 deep"));
        }
        let part = Part {
            definitions: self.definitions,
            at,
            depth: self.depth + 1,
            json: &mut *self.json,
        };
        value.serialize(part).map_err(|it| it.within(piece))
    }
}

fn push<T: Serialize + ?Sized>(json: &mut Vec<u8>, value: &T) -> Outcome {
    serde_json::to_writer(json, value).map_err(Fault::custom)
}

fn push_digits(json: &mut Vec<u8>, bytes: &[u8]) {
    let digit = |it: u8| b"0123456789abcdef"[usize::from(it)];
    json.extend(bytes.iter().flat_map(|it| [digit(it >> 4), digit(it & 15)]));
}

impl<'a> Part<'a> {
    fn definition(&self) -> &'a Definition {
        self.definitions.written(self.at)
    }

    fn form(&self) -> &'a Form {
        &self.definition().form
    }

    fn mismatch<T>(&self, given: &str) -> Outcome<T> {
        let name = &self.definitions.get(self.at).name;
        Err(Fault::new(format!(
            "{given}, where the schema has `{name}`"
        )))
    }

    fn whole_number(self, number: impl Serialize) -> Outcome {
        match self.form() {
            Form::Number { is_quoted: false } => push(self.json, &number),
            Form::Number { is_quoted: true } => {
                self.json.push(b'"');
                push(self.json, &number)?;
                self.json.push(b'"');
                Ok(())
            }
            _ => self.mismatch("a whole number"),
        }
    }

    fn digits(self, bytes: &[u8]) -> Outcome {
        self.json.extend(b"\"0x");
        push_digits(self.json, bytes);
        self.json.push(b'"');
        Ok(())
    }

    /// What a variant of this name has.
    fn payload(&self, variant: &str) -> Outcome<usize> {
        let Form::Enum(variants) = self.form() else {
            return self.mismatch(&format!("a variant `{variant}`"));
        };
        let found = variants.iter().find(|it| it.0 == variant);
        match found {
            Some((_, at)) => Ok(*at),
            None => self.mismatch(&format!("a variant `{variant}`")),
        }
    }

    /// The parts of a tuple or an array.
    fn row(self, variant: Option<&'static str>) -> Outcome<Parts<'a>> {
        match self.form() {
            Form::Tuple(places) => self.parts(variant, "[", "]", Places::Row(places)),
            Form::Struct(fields) => match self.definitions.octets(fields) {
                // serde has an IP address as a tuple.
                Some(byte) => self.parts(variant, "{\"octets\":\"0x", "\"}", Places::Bytes(byte)),
                None => self.mismatch("a tuple"),
            },
            _ if variant.is_some() => self.mismatch("a tuple"),
            _ => self.serialize_seq(None),
        }
    }

    /// The fields of a struct without names, of which all but one may be left out.
    fn unnamed(self, variant: Option<&'static str>, length: usize) -> Outcome<Parts<'a>> {
        match &self.definitions.get(self.at).form {
            Form::Newtype(part) if length == 1 => {
                self.parts(variant, "", "", Places::Row(std::slice::from_ref(part)))
            }
            _ => self.row(variant),
        }
    }

    fn fields(self, variant: Option<&'static str>) -> Outcome<Parts<'a>> {
        match self.form() {
            Form::Struct(fields) => self.parts(variant, "{", "}", Places::Fields(fields)),
            Form::Tuple(parts) if parts.is_empty() => {
                self.parts(variant, "{", "}", Places::Fields(&[]))
            }
            _ => self.mismatch("a struct"),
        }
    }

    /// Begins a value with parts, perhaps that of a variant.
    fn parts(
        mut self,
        variant: Option<&'static str>,
        begin: &str,
        end: &'static str,
        places: Places<'a>,
    ) -> Outcome<Parts<'a>> {
        let definition = self.definition();
        let start = self.json.len();
        if let Some(variant) = variant {
            self.begin_variant(variant)?;
        }
        self.json.extend(begin.as_bytes());
        Ok(Parts {
            part: self,
            definition,
            start,
            variant,
            end,
            places,
            count: 0,
            hashed: definition.is_hashed.then(Vec::new),
        })
    }

    fn begin_variant(&mut self, variant: &str) -> Outcome {
        self.json.push(b'{');
        push(self.json, variant)?;
        self.json.push(b':');
        Ok(())
    }
}

impl<'a> Serializer for Part<'a> {
    type Ok = ();
    type Error = Fault;
    type SerializeSeq = Parts<'a>;
    type SerializeTuple = Parts<'a>;
    type SerializeTupleStruct = Parts<'a>;
    type SerializeTupleVariant = Parts<'a>;
    type SerializeMap = Parts<'a>;
    type SerializeStruct = Parts<'a>;
    type SerializeStructVariant = Parts<'a>;

    fn is_human_readable(&self) -> bool {
        false
    }

    fn serialize_bool(self, value: bool) -> Outcome {
        match self.form() {
            Form::Bool => push(self.json, &value),
            _ => self.mismatch("a bool"),
        }
    }

    fn serialize_i8(self, value: i8) -> Outcome {
        self.whole_number(value)
    }

    fn serialize_i16(self, value: i16) -> Outcome {
        self.whole_number(value)
    }

    fn serialize_i32(self, value: i32) -> Outcome {
        self.whole_number(value)
    }

    fn serialize_i64(self, value: i64) -> Outcome {
        self.whole_number(value)
    }

    fn serialize_i128(self, value: i128) -> Outcome {
        self.whole_number(value)
    }

    fn serialize_u8(self, value: u8) -> Outcome {
        self.whole_number(value)
    }

    fn serialize_u16(self, value: u16) -> Outcome {
        self.whole_number(value)
    }

    fn serialize_u32(self, value: u32) -> Outcome {
        self.whole_number(value)
    }

    fn serialize_u64(self, value: u64) -> Outcome {
        self.whole_number(value)
    }

    fn serialize_u128(self, value: u128) -> Outcome {
        self.whole_number(value)
    }

    fn serialize_f32(self, value: f32) -> Outcome {
        match self.form() {
            Form::Float(4) if value.is_finite() => push(self.json, &value),
            Form::Float(4) => push(self.json, &value.to_string()),
            _ => self.mismatch("an `f32`"),
        }
    }

    fn serialize_f64(self, value: f64) -> Outcome {
        match self.form() {
            Form::Float(8) if value.is_finite() => push(self.json, &value),
            Form::Float(8) => push(self.json, &value.to_string()),
            _ => self.mismatch("an `f64`"),
        }
    }

    fn serialize_char(self, value: char) -> Outcome {
        self.serialize_str(value.encode_utf8(&mut [0; 4]))
    }

    fn serialize_str(self, value: &str) -> Outcome {
        match self.form() {
            Form::Text => push(self.json, value),
            _ => self.mismatch("a text"),
        }
    }

    fn serialize_bytes(self, value: &[u8]) -> Outcome {
        match self.form() {
            Form::Bytes(_) | Form::Digits => self.digits(value),
            _ => self.mismatch("bytes"),
        }
    }

    fn serialize_none(self) -> Outcome {
        match self.form() {
            Form::Option(_) => push(self.json, &()),
            Form::Enum(_) => push(self.json, "None"),
            _ => self.mismatch("an option"),
        }
    }

    fn serialize_some<T: Serialize + ?Sized>(mut self, value: &T) -> Outcome {
        match self.form() {
            Form::Option(at) => self.put(*at, value, format_args!("::Some")),
            Form::Enum(_) => self.serialize_newtype_variant("Option", 1, "Some", value),
            _ => self.mismatch("an option"),
        }
    }

    fn serialize_unit(self) -> Outcome {
        if self.definition().is_empty {
            push(self.json, &())
        } else {
            self.mismatch("nothing")
        }
    }

    fn serialize_unit_struct(self, _name: &'static str) -> Outcome {
        self.serialize_unit()
    }

    fn serialize_unit_variant(self, _: &'static str, _: u32, variant: &'static str) -> Outcome {
        self.payload(variant)?;
        push(self.json, variant)
    }

    fn serialize_newtype_struct<T: Serialize + ?Sized>(
        mut self,
        _name: &'static str,
        value: &T,
    ) -> Outcome {
        let (at, piece) = self.definitions.field(self.at);
        self.put(at, value, format_args!("{piece}"))
    }

    fn serialize_newtype_variant<T: Serialize + ?Sized>(
        mut self,
        _name: &'static str,
        _index: u32,
        variant: &'static str,
        value: &T,
    ) -> Outcome {
        let (payload, start) = (self.payload(variant)?, self.json.len());
        let (at, piece) = self.definitions.field(payload);
        self.begin_variant(variant)?;
        self.put(at, value, format_args!("::{}{piece}", Name(variant)))?;
        if self.definitions.get(at).is_empty {
            self.json.truncate(start);
            push(self.json, variant)
        } else {
            self.json.push(b'}');
            Ok(())
        }
    }

    fn serialize_seq(self, _length: Option<usize>) -> Outcome<Parts<'a>> {
        match self.form() {
            Form::Bytes(element) => self.parts(None, "\"0x", "\"", Places::Bytes(*element)),
            Form::List(element) => self.parts(None, "[", "]", Places::Elements(*element)),
            _ => self.mismatch("a list"),
        }
    }

    fn serialize_tuple(self, _length: usize) -> Outcome<Parts<'a>> {
        self.row(None)
    }

    fn serialize_tuple_struct(self, _: &'static str, length: usize) -> Outcome<Parts<'a>> {
        self.unnamed(None, length)
    }

    fn serialize_tuple_variant(
        self,
        _name: &'static str,
        _index: u32,
        variant: &'static str,
        length: usize,
    ) -> Outcome<Parts<'a>> {
        let at = self.payload(variant)?;
        Part { at, ..self }.unnamed(Some(variant), length)
    }

    fn serialize_map(self, _length: Option<usize>) -> Outcome<Parts<'a>> {
        match *self.form() {
            Form::Map {
                key,
                value,
                is_object,
            } => {
                let (begin, end) = if is_object { ("{", "}") } else { ("[", "]") };
                let places = Places::Entries {
                    key,
                    value,
                    is_object,
                };
                self.parts(None, begin, end, places)
            }
            _ => self.mismatch("a map"),
        }
    }

    fn serialize_struct(self, _: &'static str, _: usize) -> Outcome<Parts<'a>> {
        self.fields(None)
    }

    fn serialize_struct_variant(
        self,
        _name: &'static str,
        _index: u32,
        variant: &'static str,
        _length: usize,
    ) -> Outcome<Parts<'a>> {
        let at = self.payload(variant)?;
        Part { at, ..self }.fields(Some(variant))
    }
}

/// Where the names of the parts of a value are.
enum Places<'a> {
    Bytes(usize),
    Elements(usize),
    Row(&'a [usize]),
    Fields(&'a [(String, usize)]),
    Entries {
        key: usize,
        value: usize,
        is_object: bool,
    },
}

/// The parts of a value, which come one after another.
struct Parts<'a> {
    part: Part<'a>,
    definition: &'a Definition,
    /// Where its JSON begins.
    start: usize,
    /// Of which variant it is what it has.
    variant: Option<&'static str>,
    end: &'static str,
    places: Places<'a>,
    count: usize,
    /// Those of a set or a map that may come in any order, which are sorted in the end.
    hashed: Option<Vec<Entry>>,
}

impl Parts<'_> {
    fn put<T: Serialize + ?Sized>(&mut self, at: usize, value: &T, piece: Arguments) -> Outcome {
        match self.variant {
            Some(variant) => self
                .part
                .put(at, value, format_args!("::{}{piece}", Name(variant))),
            None => self.part.put(at, value, piece),
        }
    }

    fn put_comma(&mut self) {
        if self.count > 0 && self.hashed.is_none() {
            self.part.json.push(b',');
        }
    }

    fn put_byte<T: Serialize + ?Sized>(&mut self, at: usize, value: &T) -> Outcome {
        let start = self.part.json.len();
        let index = self.count;
        self.put(at, value, format_args!("[{index}]"))?;
        let Ok(byte) = serde_json::from_slice(&self.part.json[start..]) else {
            let wanted = "expected a whole number of 8 bits, unsigned";
            return Err(Fault::new(wanted).within(format_args!("[{index}]")));
        };
        self.part.json.truncate(start);
        push_digits(self.part.json, &[byte]);
        Ok(())
    }

    fn put_element<T: Serialize + ?Sized>(&mut self, value: &T) -> Outcome {
        let (start, index) = (self.part.json.len(), self.count);
        match self.places {
            Places::Bytes(at) => self.put_byte(at, value)?,
            Places::Elements(at) => {
                self.put_comma();
                self.put(at, value, format_args!("[{index}]"))?;
            }
            Places::Row(places) => {
                let Some(at) = places.get(index) else {
                    return Err(Fault::new("it has more parts than in the schema"));
                };
                self.put_comma();
                self.put(*at, value, format_args!(".{index}"))?;
            }
            _ => return Err(Fault::new("it has no elements in the schema")),
        }
        if let Some(hashed) = &mut self.hashed {
            let json = self.part.json.split_off(start);
            hashed.push(Entry {
                key: json.clone(),
                json,
            });
        }
        self.count += 1;
        Ok(())
    }

    fn put_field<T: Serialize + ?Sized>(&mut self, name: &str, value: &T) -> Outcome {
        let Places::Fields(fields) = self.places else {
            return Err(Fault::new("it has no fields in the schema"));
        };
        let Some((_, at)) = fields.iter().find(|it| it.0 == name) else {
            return Err(
                Fault::new("the schema has no such field").within(format_args!(".{}", Name(name)))
            );
        };
        self.put_comma();
        push(self.part.json, name)?;
        self.part.json.push(b':');
        self.put(*at, value, format_args!(".{}", Name(name)))?;
        self.count += 1;
        Ok(())
    }

    fn put_key<T: Serialize + ?Sized>(&mut self, value: &T) -> Outcome {
        let Places::Entries { key, is_object, .. } = self.places else {
            return Err(Fault::new("it has no keys in the schema"));
        };
        self.put_comma();
        if !is_object {
            self.part.json.push(b'[');
        }
        let start = self.part.json.len();
        let index = self.count;
        self.put(key, value, format_args!("[{index}].0"))?;
        if is_object && self.part.json.get(start) != Some(&b'"') {
            self.part.json.insert(start, b'"');
            self.part.json.push(b'"');
        }
        if let Some(hashed) = &mut self.hashed {
            let key = self.part.json[start..].to_vec();
            let json = self.part.json.split_off(start - usize::from(!is_object));
            hashed.push(Entry { key, json });
        }
        Ok(())
    }

    fn put_value<T: Serialize + ?Sized>(&mut self, of_entry: &T) -> Outcome {
        let Places::Entries {
            value, is_object, ..
        } = self.places
        else {
            return Err(Fault::new("it has no values in the schema"));
        };
        let start = self.part.json.len();
        self.part.json.push(if is_object { b':' } else { b',' });
        let index = self.count;
        self.put(value, of_entry, format_args!("[{index}].1"))?;
        if !is_object {
            self.part.json.push(b']');
        }
        if let Some(last) = self.hashed.as_mut().and_then(|it| it.last_mut()) {
            last.json.extend(self.part.json.drain(start..));
        }
        self.count += 1;
        Ok(())
    }

    fn finish(mut self) -> Outcome {
        if self.definition.is_empty {
            self.part.json.truncate(self.start);
            return push(self.part.json, &self.variant);
        }
        if let Some(mut hashed) = self.hashed.take() {
            let mut between: &[u8] = b",";
            match self.places {
                Places::Entries { key: at, .. } | Places::Elements(at) => {
                    hashed = sort(self.part.definitions, at, self.definition.is_sorted, hashed)?;
                }
                // Digits of bytes are ordered as the bytes.
                _ => {
                    hashed.sort_by(|left, right| left.key.cmp(&right.key));
                    between = b"";
                }
            }
            let texts: Vec<&[u8]> = hashed.iter().map(|it| &it.json[..]).collect();
            self.part.json.extend(texts.join(between));
        }
        self.part.json.extend(self.end.as_bytes());
        if self.variant.is_some() {
            self.part.json.push(b'}');
        }
        Ok(())
    }
}

/// Parts that come one by one, as serde names them: of elements, each by its value, and of fields, each by its name too.
macro_rules! one_by_one {
    ($($kind:ident $method:ident($($name:ident: $type:ty)?) $put:ident),*) => {
        $(impl ser::$kind for Parts<'_> {
            type Ok = ();
            type Error = Fault;

            fn $method<T: Serialize + ?Sized>(&mut self, $($name: $type,)? value: &T) -> Outcome {
                self.$put($($name,)? value)
            }

            fn end(self) -> Outcome {
                self.finish()
            }
        })*
    };
}

one_by_one!(
    SerializeSeq serialize_element() put_element,
    SerializeTuple serialize_element() put_element,
    SerializeTupleStruct serialize_field() put_element,
    SerializeTupleVariant serialize_field() put_element,
    SerializeStruct serialize_field(name: &'static str) put_field,
    SerializeStructVariant serialize_field(name: &'static str) put_field
);

impl ser::SerializeMap for Parts<'_> {
    type Ok = ();
    type Error = Fault;

    fn serialize_key<T: Serialize + ?Sized>(&mut self, key: &T) -> Outcome {
        self.put_key(key)
    }

    fn serialize_value<T: Serialize + ?Sized>(&mut self, value: &T) -> Outcome {
        self.put_value(value)
    }

    fn end(self) -> Outcome {
        self.finish()
    }
}
