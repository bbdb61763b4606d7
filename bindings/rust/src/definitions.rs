//! The definitions of a schema, and how the values of each name are written as JSON, as the library says it. What is mistaken here is
//! refused by the library, or the type, and changes no value.

use std::collections::HashMap;

/// How the values of a name are written. Parts are the places of their names.
#[derive(Clone, Debug)]
pub(crate) enum Form {
    /// No definition has the name.
    Undefined,
    Bool,
    /// A whole number, in quotation marks if it has 128 bits.
    Number {
        is_quoted: bool,
    },
    /// A float of so many bytes.
    Float(u8),
    /// Another primitive.
    Digits,
    Text,
    /// A list or array of `u8`, whose place this is.
    Bytes(usize),
    List(usize),
    /// A map with these keys and values, and whether it is an object.
    Map {
        key: usize,
        value: usize,
        is_object: bool,
    },
    Tuple(Vec<usize>),
    /// A struct with one field without a name, which is written as the field.
    Newtype(usize),
    Struct(Vec<(String, usize)>),
    /// An `Option` whose value is never `null`.
    Option(usize),
    Enum(Vec<(String, usize)>),
}

#[derive(Debug)]
pub(crate) struct Definition {
    pub name: String,
    pub form: Form,
    /// Whether values have no bytes, and are `null`.
    pub is_empty: bool,
    /// Whether it is a set, or a map that isn't an object, which a type may give in any order.
    pub is_hashed: bool,
    /// Whether it is one whose keys have an order that is told, but for their parts.
    pub is_sorted: bool,
}

/// The definitions of a schema.
#[derive(Debug)]
pub(crate) struct Definitions {
    all: Vec<Definition>,
    /// The place of the root.
    pub root: usize,
}

/// As many newtypes are gone through to find what they are of.
const MOST_NEWTYPES: usize = 128;

impl Definitions {
    /// Those of a schema with this encoding, of whose names the library says these words; none if it isn't one.
    pub fn new(encoding: &[u8], words: &[u8]) -> Option<Definitions> {
        let words: HashMap<String, String> = serde_json::from_slice(words).ok()?;
        let mut names = Names::default();
        let mut reader = Reader(encoding);
        let root = names.place(reader.text()?);
        let count = reader.count()?;
        let mut shapes = Vec::new();
        for _ in 0..count {
            let at = names.place(reader.text()?);
            shapes.push((at, reader.shape(&mut names)?));
        }
        let mut found = vec![Shape::Undefined; names.all.len()];
        for (at, shape) in shapes {
            found[at] = shape;
        }
        let composer = Composer {
            names: names.all,
            shapes: found,
            words,
        };
        Some(composer.compose(root))
    }

    /// The name of the root.
    pub fn root(&self) -> &str {
        &self.all[self.root].name
    }

    pub fn get(&self, at: usize) -> &Definition {
        &self.all[at]
    }

    /// The definition by which values of the name at a place are written: that of the field of a newtype.
    pub fn written(&self, mut at: usize) -> &Definition {
        for _ in 0..MOST_NEWTYPES {
            match self.all[at].form {
                Form::Newtype(part) => at = part,
                _ => break,
            }
        }
        &self.all[at]
    }

    /// The place of the field of a newtype, and the piece of the path to it; of another name its own.
    pub fn field(&self, at: usize) -> (usize, &'static str) {
        match self.get(at).form {
            Form::Newtype(part) => (part, ".0"),
            _ => (at, ""),
        }
    }

    /// The place of `u8`, if these are the fields of an `Ipv4Addr` or `Ipv6Addr`.
    pub fn octets(&self, fields: &[(String, usize)]) -> Option<usize> {
        match fields {
            [(name, at)] if name == "octets" => match self.get(*at).form {
                Form::Bytes(byte) => Some(byte),
                _ => None,
            },
            _ => None,
        }
    }
}

/// The names of a schema, each at a place.
#[derive(Default)]
struct Names<'b> {
    all: Vec<&'b str>,
    places: HashMap<&'b str, usize>,
}

impl<'b> Names<'b> {
    fn place(&mut self, name: &'b str) -> usize {
        *self.places.entry(name).or_insert_with(|| {
            self.all.push(name);
            self.all.len() - 1
        })
    }
}

/// A definition as the schema has it.
#[derive(Clone)]
enum Shape<'b> {
    Undefined,
    Primitive(u8),
    Sequence {
        width: u8,
        least: u64,
        most: u64,
        element: usize,
    },
    Tuple(Vec<usize>),
    Enum(Vec<(&'b str, usize)>),
    Named(Vec<(&'b str, usize)>),
    Unnamed(Vec<usize>),
}

/// What is left of an encoding.
struct Reader<'b>(&'b [u8]);

impl<'b> Reader<'b> {
    fn take<const N: usize>(&mut self) -> Option<[u8; N]> {
        let (taken, rest) = self.0.split_first_chunk()?;
        self.0 = rest;
        Some(*taken)
    }

    fn byte(&mut self) -> Option<u8> {
        self.take().map(|[byte]| byte)
    }

    fn count(&mut self) -> Option<u32> {
        self.take().map(u32::from_le_bytes)
    }

    fn text(&mut self) -> Option<&'b str> {
        let length = usize::try_from(self.count()?).ok()?;
        let (text, rest) = self.0.split_at_checked(length)?;
        self.0 = rest;
        std::str::from_utf8(text).ok()
    }

    fn name(&mut self, names: &mut Names<'b>) -> Option<usize> {
        Some(names.place(self.text()?))
    }

    fn list<T>(&mut self, mut read: impl FnMut(&mut Self) -> Option<T>) -> Option<Vec<T>> {
        (0..self.count()?).map(|_| read(self)).collect()
    }

    fn shape(&mut self, names: &mut Names<'b>) -> Option<Shape<'b>> {
        Some(match self.byte()? {
            0 => Shape::Primitive(self.byte()?),
            1 => Shape::Sequence {
                width: self.byte()?,
                least: self.take().map(u64::from_le_bytes)?,
                most: self.take().map(u64::from_le_bytes)?,
                element: self.name(names)?,
            },
            2 => Shape::Tuple(self.list(|it| it.name(names))?),
            3 => {
                self.byte()?;
                Shape::Enum(self.list(|it| {
                    it.take::<8>()?;
                    Some((it.text()?, it.name(names)?))
                })?)
            }
            4 => match self.byte()? {
                0 => Shape::Named(self.list(|it| Some((it.text()?, it.name(names)?)))?),
                1 => Shape::Unnamed(self.list(|it| it.name(names))?),
                2 => Shape::Unnamed(Vec::new()),
                _ => return None,
            },
            _ => return None,
        })
    }
}

/// What finds the forms of names.
struct Composer<'b> {
    names: Vec<&'b str>,
    shapes: Vec<Shape<'b>>,
    words: HashMap<String, String>,
}

impl Composer<'_> {
    /// What the library says of the name at a place, if the root leads to it.
    fn word(&self, at: usize) -> &str {
        self.words.get(self.names[at]).map_or("", |it| it)
    }

    /// Whether the name at a place is a list of any length, behind a length of four bytes.
    fn is_list(&self, at: usize) -> bool {
        matches!(
            self.shapes[at],
            Shape::Sequence {
                width: 4,
                least: 0,
                most: 4294967295,
                ..
            }
        )
    }

    /// The key and the value of the map at a place.
    fn entry(&self, at: usize) -> Option<(usize, usize)> {
        let Shape::Sequence { element, .. } = self.shapes[at] else {
            return None;
        };
        let Shape::Tuple(parts) = &self.shapes[element] else {
            return None;
        };
        let [key, value] = parts[..] else {
            return None;
        };
        let inner = format!("Map<{}, {}>", self.names[key], self.names[value]);
        let kind = self.names[at].strip_suffix(&inner)?;
        (self.is_list(at) && matches!(kind, "BTree" | "Hash")).then_some((key, value))
    }

    fn form(&self, at: usize) -> Form {
        let named = |it: &(&str, usize)| (it.0.to_owned(), it.1);
        match (&self.shapes[at], self.word(at)) {
            (Shape::Undefined, _) => Form::Undefined,
            (Shape::Primitive(_), "bool") => Form::Bool,
            (Shape::Primitive(size), "float") => Form::Float(*size),
            (Shape::Primitive(size), "number" | "signed number") => Form::Number {
                is_quoted: *size > 8,
            },
            (Shape::Primitive(_), _) => Form::Digits,
            (Shape::Sequence { .. }, "text") => Form::Text,
            (Shape::Sequence { element, .. }, "byte list" | "sorted byte list") => {
                Form::Bytes(*element)
            }
            (Shape::Sequence { element, .. }, word) => match self.entry(at) {
                Some((key, value)) => Form::Map {
                    key,
                    value,
                    is_object: word == "map",
                },
                None => Form::List(*element),
            },
            (Shape::Unnamed(parts), _) if parts.len() == 1 => Form::Newtype(parts[0]),
            (Shape::Tuple(parts) | Shape::Unnamed(parts), _) => Form::Tuple(parts.clone()),
            (Shape::Named(fields), _) => Form::Struct(fields.iter().map(named).collect()),
            (Shape::Enum(variants), "option") => Form::Option(variants[1].1),
            (Shape::Enum(variants), _) => Form::Enum(variants.iter().map(named).collect()),
        }
    }

    fn is_hashed(&self, at: usize) -> bool {
        let name = self.names[at];
        match self.form(at) {
            // The library sorts the entries of objects.
            Form::Map { is_object, .. } => !is_object && name.starts_with("HashMap<"),
            Form::List(part) | Form::Bytes(part) => {
                self.is_list(at) && name == format!("HashSet<{}>", self.names[part])
            }
            _ => false,
        }
    }

    fn compose(self, root: usize) -> Definitions {
        let definition = |at: usize| Definition {
            name: self.names[at].to_owned(),
            form: self.form(at),
            is_empty: self.word(at) == "empty",
            is_hashed: self.is_hashed(at),
            is_sorted: self.word(at).starts_with("sorted"),
        };
        Definitions {
            all: (0..self.names.len()).map(definition).collect(),
            root,
        }
    }
}
