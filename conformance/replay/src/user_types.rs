//! The program's user types, written on the original's traits as its derive macros would write
//! them.

use borsh::de::EnumExt;
use borsh::io::{Error, ErrorKind, Read, Result, Write};
use borsh::schema::{BorshSchema, Declaration, Definition, Fields, add_definition};
use borsh::{BorshDeserialize, BorshSerialize};
use std::collections::BTreeMap;

fn unexpected_tag<T>(tag: u8) -> Result<T> {
    let text = format!("Unexpected variant tag: {tag}");
    Err(Error::new(ErrorKind::InvalidData, text))
}

pub struct A {
    x: u64,
    y: String,
}

impl BorshSerialize for A {
    fn serialize<W: Write>(&self, writer: &mut W) -> Result<()> {
        self.x.serialize(writer)?;
        self.y.serialize(writer)
    }
}

impl BorshDeserialize for A {
    fn deserialize_reader<R: Read>(reader: &mut R) -> Result<A> {
        let x = u64::deserialize_reader(reader)?;
        let y = String::deserialize_reader(reader)?;
        Ok(A { x, y })
    }
}

impl BorshSchema for A {
    fn declaration() -> Declaration {
        "A".to_string()
    }

    fn add_definitions_recursively(definitions: &mut BTreeMap<Declaration, Definition>) {
        let fields = Fields::NamedFields(vec![
            ("x".to_string(), u64::declaration()),
            ("y".to_string(), String::declaration()),
        ]);
        add_definition(A::declaration(), Definition::Struct { fields }, definitions);
        u64::add_definitions_recursively(definitions);
        String::add_definitions_recursively(definitions);
    }
}

pub struct MyStruct {
    a: u64,
    b: Vec<u8>,
}

impl BorshSerialize for MyStruct {
    fn serialize<W: Write>(&self, writer: &mut W) -> Result<()> {
        self.a.serialize(writer)?;
        self.b.serialize(writer)
    }
}

impl BorshDeserialize for MyStruct {
    fn deserialize_reader<R: Read>(reader: &mut R) -> Result<MyStruct> {
        let a = u64::deserialize_reader(reader)?;
        let b = Vec::deserialize_reader(reader)?;
        Ok(MyStruct { a, b })
    }
}

pub enum MyEnum {
    Zero,
    One(u8),
    Many(Vec<u8>),
}

impl BorshSerialize for MyEnum {
    fn serialize<W: Write>(&self, writer: &mut W) -> Result<()> {
        match self {
            MyEnum::Zero => 0u8.serialize(writer),
            MyEnum::One(part) => (1u8, part).serialize(writer),
            MyEnum::Many(part) => (2u8, part).serialize(writer),
        }
    }
}

impl BorshDeserialize for MyEnum {
    fn deserialize_reader<R: Read>(reader: &mut R) -> Result<MyEnum> {
        let tag = u8::deserialize_reader(reader)?;
        MyEnum::deserialize_variant(reader, tag)
    }
}

impl EnumExt for MyEnum {
    fn deserialize_variant<R: Read>(reader: &mut R, tag: u8) -> Result<MyEnum> {
        match tag {
            0 => Ok(MyEnum::Zero),
            1 => Ok(MyEnum::One(u8::deserialize_reader(reader)?)),
            2 => Ok(MyEnum::Many(Vec::deserialize_reader(reader)?)),
            tag => unexpected_tag(tag),
        }
    }
}

impl BorshSchema for MyEnum {
    fn declaration() -> Declaration {
        "MyEnum".to_string()
    }

    fn add_definitions_recursively(definitions: &mut BTreeMap<Declaration, Definition>) {
        let parts = [
            ("Zero", Fields::Empty),
            ("One", Fields::UnnamedFields(vec![u8::declaration()])),
            (
                "Many",
                Fields::UnnamedFields(vec![<Vec<u8>>::declaration()]),
            ),
        ];
        let mut variants = Vec::new();
        for (tag, (name, fields)) in parts.into_iter().enumerate() {
            let declaration = format!("MyEnum__{name}");
            variants.push((tag as i64, name.to_string(), declaration.clone()));
            add_definition(declaration, Definition::Struct { fields }, definitions);
        }
        let definition = Definition::Enum {
            tag_width: 1,
            variants,
        };
        add_definition(MyEnum::declaration(), definition, definitions);
        <Vec<u8>>::add_definitions_recursively(definitions);
    }
}

pub struct OneOrZero(MyEnum);

fn many_not_allowed() -> Error {
    Error::new(ErrorKind::InvalidData, "MyEnum::Many not allowed here")
}

impl BorshSerialize for OneOrZero {
    fn serialize<W: Write>(&self, writer: &mut W) -> Result<()> {
        match self.0 {
            MyEnum::Many(_) => Err(many_not_allowed()),
            _ => self.0.serialize(writer),
        }
    }
}

impl BorshDeserialize for OneOrZero {
    fn deserialize_reader<R: Read>(reader: &mut R) -> Result<OneOrZero> {
        match u8::deserialize_reader(reader)? {
            2 => Err(many_not_allowed()),
            tag => MyEnum::deserialize_variant(reader, tag).map(OneOrZero),
        }
    }
}

/// One byte when it is written, and none in memory.
pub enum One {
    Only,
}

impl BorshSerialize for One {
    fn serialize<W: Write>(&self, writer: &mut W) -> Result<()> {
        match self {
            One::Only => 0u8.serialize(writer),
        }
    }
}

impl BorshDeserialize for One {
    fn deserialize_reader<R: Read>(reader: &mut R) -> Result<One> {
        match u8::deserialize_reader(reader)? {
            0 => Ok(One::Only),
            tag => unexpected_tag(tag),
        }
    }
}

/// A `One` that takes a byte in memory too, so that the original reads lists of it.
pub struct WideOne {
    tag: u8,
}

impl BorshSerialize for WideOne {
    fn serialize<W: Write>(&self, writer: &mut W) -> Result<()> {
        self.tag.serialize(writer)
    }
}

impl BorshDeserialize for WideOne {
    fn deserialize_reader<R: Read>(reader: &mut R) -> Result<WideOne> {
        One::deserialize_reader(reader)?;
        Ok(WideOne { tag: 0 })
    }
}

/// Types that are written as their one number, the first two of which are both named `A`.
macro_rules! numbers {
    ($($name:ident: $number:ty, $declared:literal, $width:literal);* $(;)?) => {$(
        pub struct $name($number);

        impl BorshSerialize for $name {
            fn serialize<W: Write>(&self, writer: &mut W) -> Result<()> {
                self.0.serialize(writer)
            }
        }

        impl BorshDeserialize for $name {
            fn deserialize_reader<R: Read>(reader: &mut R) -> Result<$name> {
                <$number>::deserialize_reader(reader).map($name)
            }
        }

        impl BorshSchema for $name {
            fn declaration() -> Declaration {
                $declared.to_string()
            }

            fn add_definitions_recursively(definitions: &mut BTreeMap<Declaration, Definition>) {
                let definition = Definition::Primitive($width);
                add_definition($name::declaration(), definition, definitions);
            }
        }
    )*};
}

numbers! {
    ShortA: u8, "A", 1;
    LongA: u16, "A", 2;
}
