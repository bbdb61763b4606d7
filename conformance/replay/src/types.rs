//! The types that questions name in Rust's notation, and the words of borsh_check for some of them.

use crate::random::Random;
use crate::samples::Sample;
use crate::user_types::{A, LongA, MyEnum, MyStruct, One, OneOrZero, ShortA, WideOne};
use borsh::schema::{BorshSchemaContainer, Definition, Fields};
use borsh::{BorshDeserialize, BorshSerialize};
use bytes::{Bytes, BytesMut};
use indexmap::{IndexMap, IndexSet};
use std::borrow::Cow;
use std::collections::{BTreeMap, BTreeSet, HashMap, HashSet, LinkedList, VecDeque};
use std::marker::PhantomData;
use std::net::{IpAddr, Ipv4Addr, Ipv6Addr, SocketAddr, SocketAddrV4, SocketAddrV6};
use std::num::{
    NonZeroI8, NonZeroI16, NonZeroI32, NonZeroI64, NonZeroI128, NonZeroU8, NonZeroU16, NonZeroU32,
    NonZeroU64, NonZeroU128, NonZeroUsize,
};
use std::ops::{Range, RangeFrom, RangeFull, RangeInclusive, RangeTo, RangeToInclusive};
use std::rc::Rc;
use std::sync::Arc;
use uuid::Uuid;

/// The bounds of a length, here a type of its own.
type LengthRange = RangeInclusive<u64>;

pub struct Type {
    /// How it is written in Rust, perhaps on several lines.
    text: &'static str,
    /// The value that the bytes are, written again by the original.
    pub read: fn(&[u8]) -> borsh::io::Result<Vec<u8>>,
    /// The container that the original makes for the type, if it can.
    pub schema: Option<fn() -> BorshSchemaContainer>,
}

impl Type {
    /// How it is written in Rust.
    pub fn name(&self) -> String {
        let words: Vec<&str> = self.text.split_whitespace().collect();
        words.join(" ")
    }
}

/// A word of borsh_check for a type.
pub struct Word {
    pub name: &'static str,
    pub of: Type,
    /// Puts a random encoding behind what there is.
    pub sample: fn(&mut Random, &mut Vec<u8>),
}

/// A type with a schema.
macro_rules! described {
    ($type:ty) => {
        Type {
            text: stringify!($type),
            read: read_again::<$type>,
            schema: Some(BorshSchemaContainer::for_type::<$type>),
        }
    };
}

/// A type without a schema.
macro_rules! plain {
    ($type:ty) => {
        Type {
            text: stringify!($type),
            read: read_again::<$type>,
            schema: None,
        }
    };
}

macro_rules! words {
    ($($name:literal: $kind:ident $type:ty),* $(,)?) => {
        [$(Word { name: $name, of: $kind!($type), sample: <$type>::put }),*]
    };
}

macro_rules! types {
    ($($kind:ident $type:ty),* $(,)?) => { [$($kind!($type)),*] };
}

pub static WORDS: [Word; 42] = words! {
    "u8": described u8,
    "u32": described u32,
    "u64": described u64,
    "bool": described bool,
    "opt-u8": described Option<u8>,
    "string": described String,
    "list-u8": described Vec<u8>,
    "u128": described u128,
    "isize": described isize,
    "nz-i16": described NonZeroI16,
    "unit": described (),
    "res-u8": described Result<u8, u8>,
    "arr-opt": described [Option<u8>; 10],
    "ranges": described (Range<i32>, RangeInclusive<i32>, RangeFrom<i32>, RangeTo<i32>, RangeToInclusive<i32>, RangeFull),
    "list-string": described Vec<String>,
    "list-opt": described Vec<Option<u8>>,
    "list-unit": described Vec<()>,
    "list-boxunit": described Vec<Box<()>>,
    "list-zero": described Vec<([u8; 0], [u8; 0])>,
    "deque-u8": described VecDeque<u8>,
    "linked-u8": described LinkedList<u8>,
    "set-u8": described BTreeSet<u8>,
    "hset-u8": described HashSet<u8>,
    "map-u8": described BTreeMap<u8, u8>,
    "hmap-u8": described HashMap<u8, u8>,
    "map-set": described BTreeMap<u8, BTreeSet<u8>>,
    "map-unit": described BTreeMap<(), u8>,
    "ip": described IpAddr,
    "box-u8": described Box<[u8]>,
    "rc-string": described Rc<str>,
    "container": described BorshSchemaContainer,
    "readme": described A,
    "myenum": described MyEnum,
    "imap-u8": plain IndexMap<u8, u8>,
    "iset-u8": plain IndexSet<u8>,
    "bytes": plain Bytes,
    "uuid": plain Uuid,
    "sock": plain SocketAddr,
    "sock6": plain SocketAddrV6,
    "mystruct": plain MyStruct,
    "oneorzero": plain OneOrZero,
    "list-one": plain Vec<One>,
};

/// Further types of the rows.
static TYPES: [Type; 88] = types! {
    described u16,
    described usize,
    described i8,
    described i16,
    described i32,
    described i64,
    described i128,
    described (NonZeroU8, NonZeroU16, NonZeroU32, NonZeroU64, NonZeroU128, NonZeroUsize, NonZeroI8, NonZeroI16, NonZeroI32, NonZeroI64, NonZeroI128),
    described (RangeFull, PhantomData<u64>, Range<()>),
    described Option<Option<u8>>,
    described Result<u8, u16>,
    described (bool,),
    described (u8, u16),
    described (String, u64),
    described (u8, bool, u16),
    described (i32, String, u64),
    described ((u8, u8, u8, u8), (u8, u8, u8, u8, u8), (u8, u8, u8, u8, u8, u8), (u8, u8, u8, u8, u8, u8, u8), (u8, u8, u8, u8, u8, u8, u8, u8), (u8, u8, u8, u8, u8, u8, u8, u8, u8), (u8, u8, u8, u8, u8, u8, u8, u8, u8, u8), (u8, u8, u8, u8, u8, u8, u8, u8, u8, u8, u8), (u8, u8, u8, u8, u8, u8, u8, u8, u8, u8, u8, u8)),
    described (u8, String, i8, bool, u16, u32, u64, i16, i32, i64, u128, usize),
    described (Range<i16>, RangeInclusive<u8>, RangeFrom<u8>, RangeTo<u8>, RangeToInclusive<u8>),
    described Box<str>,
    described Cow<str>,
    described Vec<i8>,
    described Vec<u32>,
    described Vec<Vec<u8>>,
    described Vec<Vec<u32>>,
    described Vec<Vec<()>>,
    described (Vec<u16>, Vec<bool>, VecDeque<u16>, Box<[u16]>, Rc<[u16]>),
    described Rc<[u8]>,
    described Cow<[u8]>,
    described (Rc<u8>, Rc<[i32]>),
    described (Box<u8>, Box<u16>, Box<String>, Rc<String>, Rc<Option<u8>>),
    described Vec<Range<()>>,
    described Result<Result<VecDeque<()>, LinkedList<()>>, Box<[()]>>,
    described Result<Result<BTreeSet<()>, HashSet<()>>, Result<BTreeMap<(), u64>, HashMap<(), u64>>>,
    plain Result<IndexMap<(), u8>, IndexSet<()>>,
    plain BytesMut,
    described Ipv4Addr,
    described Ipv6Addr,
    plain SocketAddrV4,
    described Vec<IpAddr>,
    described BTreeMap<BTreeSet<u8>, u8>,
    described BTreeSet<String>,
    described BTreeMap<String, String>,
    described HashSet<String>,
    described HashMap<String, String>,
    described (BTreeSet<u16>, BTreeSet<IpAddr>, BTreeMap<Ipv4Addr, u8>),
    plain (HashSet<SocketAddrV4>, IndexMap<Uuid, ()>, BTreeSet<Bytes>),
    plain IndexMap<i32, i32>,
    plain IndexSet<i32>,
    described HashMap<String, Vec<String>>,
    plain IndexMap<String, u8>,
    described Result<Result<BTreeSet<bool>, HashSet<bool>>, Result<BTreeMap<u8, bool>, HashMap<u8, bool>>>,
    described Result<BTreeMap<String, u8>, HashMap<String, u8>>,
    described Result<HashMap<u8, HashSet<u8>>, Vec<HashSet<u8>>>,
    plain IndexMap<u8, BTreeSet<u8>>,
    described (Option<BTreeSet<u8>>, u8),
    described ([u8; 0], [i8; 0], [u32; 0], [u64; 0], [u128; 0], [[u8; 32]; 0], [(); 0]),
    described ([u8; 1], [i8; 1], [u32; 1], [u64; 1], [u128; 1], [[u8; 32]; 1], [(); 1]),
    described ([u8; 3], [i8; 3], [u32; 3], [u64; 3], [u128; 3], [[u8; 32]; 3], [(); 3]),
    described ([u8; 65], [i8; 65], [u32; 65], [u64; 65], [u128; 65], [[u8; 32]; 65], [(); 65]),
    described ([u8; 2], [i8; 2], [u32; 2], [u64; 2], [u128; 2], [[u8; 32]; 2], [(); 2]),
    described ([u8; 4], [i8; 4], [u32; 4], [u64; 4], [u128; 4], [[u8; 32]; 4], [(); 4]),
    described ([u8; 8], [i8; 8], [u32; 8], [u64; 8], [u128; 8], [[u8; 32]; 8], [(); 8]),
    described ([u8; 16], [i8; 16], [u32; 16], [u64; 16], [u128; 16], [[u8; 32]; 16], [(); 16]),
    described ([u8; 32], [i8; 32], [u32; 32], [u64; 32], [u128; 32], [[u8; 32]; 32], [(); 32]),
    described ([u8; 64], [i8; 64], [u32; 64], [u64; 64], [u128; 64], [[u8; 32]; 64], [(); 64]),
    described ([u8; 2], [bool; 2]),
    described ([u8; 8], [u16; 3], [Option<u8>; 3], [[u8; 2]; 2], [u128; 2], [String; 2]),
    described [String; 3],
    plain ([One; 2], [ShortA; 3]),
    plain (One, ShortA, LongA, ShortA),
    described Vec<LongA>,
    plain Vec<ShortA>,
    described LengthRange,
    described Fields,
    described Definition,
    described (BorshSchemaContainer, u8),
    described f32,
    described f64,
    described Vec<f32>,
    described (i32, String, f64),
    described ([f32; 0], [f32; 1], [f32; 2], [f32; 3], [f32; 4], [f32; 8], [f32; 16], [f32; 32], [f32; 64], [f32; 65]),
    described Arc<str>,
    described (Arc<u8>, Arc<[i32]>),
    described (BTreeSet<Arc<str>>, HashMap<Cow<u16>, f32>),
    described Vec<[u64; 100]>,
    described ([[[u64; 9]; 10]; 32], (u64, (u8, bool), String), NonZeroU16, Box<Rc<Vec<u8>>>, Rc<i32>, PhantomData<Vec<u8>>),
    described (Vec<Vec<()>>, Vec<Range<()>>, Vec<RangeFull>, [(); 300]),
};

/// The type that is written so.
pub fn type_named(name: &str) -> Option<&'static Type> {
    WORDS
        .iter()
        .map(|word| &word.of)
        .chain(&TYPES)
        .find(|it| it.name() == name)
}

/// The word that is written so.
pub fn word_named(name: &str) -> Option<&'static Word> {
    WORDS.iter().find(|word| word.name == name)
}

fn read_again<T: BorshSerialize + BorshDeserialize>(bytes: &[u8]) -> borsh::io::Result<Vec<u8>> {
    let value: T = borsh::from_slice(bytes)?;
    borsh::to_vec(&value)
}

/// What the original answers for a list of `One`, if a `One` takes memory.
pub fn read_list_of_wide_ones(bytes: &[u8]) -> borsh::io::Result<Vec<u8>> {
    read_again::<Vec<WideOne>>(bytes)
}
