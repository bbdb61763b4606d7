//! The types of the rows of schemas, as Rust: those of `borsh_samples` and `example_generated`, and the container.

#![allow(dead_code)] /* what is no type /* also in here */ is passed over */
use borsh::{BorshDeserialize, BorshSchema, BorshSerialize};
use std::collections::{BTreeMap, BTreeSet, HashMap, HashSet, LinkedList, VecDeque};

extern crate borsh;

macro_rules! nothing {
    ($($word:ident)<*) => {};
}

nothing! { struct Hidden(dyn); }

pub const WIDTH: usize = 0x_10 * 2;
const SIGNERS: u32 = (WIDTH as u32 >> 3) % 3_u32 << 1 | 1;
pub const TEXT: &str = "const WIDTH: usize = 3; }}";
static TABLE: [u8; 2] = [b'{', '\'' as u8];

#[derive(BorshSerialize, BorshSchema)]
pub struct A {
    pub x: u64,
    pub y: String,
}

pub enum MyEnum {
    Zero,
    One(u8),
    Many(Vec<u8>),
}

pub(crate) struct MyStruct {
    a: u64,
    pub(in crate::samples) b: Vec<u8>,
}

impl<'a, T> From<&'a [T; 2]> for MyStruct
where
    T: Fn(u8) -> Vec<u8>,
{
    fn from(_: &'a [T; 2]) -> MyStruct {
        struct Inner;
        MyStruct { a: '"' as u64, b: vec![b'"', r#""}"# .len() as u8] }
    }
}

pub mod records {
    /// No fields.
    pub struct Marker;

    pub struct Code(pub u8);

    pub struct Session {
        pub user: u32,
        #[borsh(skip)]
        pub hits: u64,
        pub token: [u8; 4],
    }

    pub mod inner {
        pub struct Block {
            pub hash: [u8; super::super::WIDTH],
            pub rows: [[u16; 3]; 2],
            pub signers: std::vec::Vec<Code>,
            pub origin: Option<(Code, crate::records::Marker)>,
        }
    }

    #[rustfmt::skip]
    pub struct Panel(
        pub u8, pub u16, pub u32, pub u64, pub i8, pub i16, pub i32, pub i64, pub bool, pub u8, pub String, pub u16,
        pub Option<u8>, pub Vec<u8>, pub i64, pub i32, pub i16, pub i8, pub u64, pub u32, pub u16, pub u8, pub bool,
    );
}

pub enum Message {
    Ping,
    Text(String),
    Move { x: i32, y: i32 },
    Open(u8, Session),
    Tagged([u8; 4]),
    Run {
        id: u16,
        #[borsh(skip)]
        attempts: u32,
    },
    Wait(u8, #[borsh(skip)] Option<u64>),
    Stop {
        #[borsh(skip)]
        reason: u8,
    },
}

#[derive(BorshSerialize)]
#[borsh(use_discriminant = true)]
pub enum Level {
    Low = 20,
    High = 3 * 3,
    Top,
}

#[borsh(use_discriminant = true, crate = "borsh")]
pub enum XY {
    A,
    B = 20,
    C,
    D(u32, u32),
    E = 0b1100 - 2,
    F(u64),
}

pub enum Markers<T, U> {
    Both(PhantomData<T>, PhantomData<U>),
}

pub enum Either<A, B> {
    Neither,
    Left(A),
    Right { of: B, with: Option<A> },
}

pub struct Place {
    pub zone: u8,
    pub street: String,
}

pub struct Visits {
    pub counts: BTreeMap<Place, u32>,
    pub closed: BTreeSet<Place>,
    pub book: A,
}

pub struct Library<'a> {
    pub ints: (i8, i16, u128, i128, isize),
    pub some: (NonZeroU8, NonZeroI64, NonZeroU128, NonZeroUsize),
    pub at: (Ipv4Addr, Ipv6Addr, IpAddr),
    pub all: (VecDeque<u16>, LinkedList<u8>, BTreeSet<String>, HashSet<u32>),
    pub heap: (Box<[u16]>, Box<u64>, &'a str, Rc<u32>, std::rc::Rc<str>, &'a mut [u16]),
    pub ends: (Range<u8>, RangeInclusive<u8>, RangeFrom<u16>, RangeTo<u8>, RangeToInclusive<u8>),
    pub full: ::std::ops::RangeFull,
    pub one: (u8,),
}

pub struct Stock {
    pub pieces: BTreeMap<String, u32>,
    pub note: Note,
}

type Note = Option<(String)>;

pub enum Request {
    List,
    Buy { name: String, pieces: u32, price: u32 },
    Cancel { number: u64 },
}

pub struct Pair<A, B = u8> {
    pub first: A,
    pub second: B,
}

pub struct Held<T, M>
where
    T: Clone,
{
    pub rows: [Vec<T>; 2],
    pub map: BTreeMap<u32, Option<T>>,
    pub way: Result<Box<T>, VecDeque<T>>,
    pub pair: (LinkedList<T>, Rc<T>),
    pub mark: PhantomData<M>,
}

pub struct Hashed<K: BorshKey + Ord + Hash + Eq, V> {
    pub map: HashMap<K, V>,
    pub keys: HashSet<K>,
    pub set: BTreeSet<K>,
}

pub struct BorshSchemaContainer {
    declaration: Declaration,
    definitions: BTreeMap<Declaration, Definition>,
}

type Declaration = String;

pub enum Definition {
    Primitive(u8),
    Sequence {
        length_width: u8,
        length_range: core::ops::RangeInclusive<u64>,
        elements: Declaration,
    },
    Tuple { elements: Vec<Declaration> },
    Enum { tag_width: u8, variants: Vec<(i64, String, Declaration)> },
    Struct { fields: Fields },
}

pub enum Fields {
    NamedFields(Vec<(String, Declaration)>),
    UnnamedFields(Vec<Declaration>),
    Empty,
}

pub struct Grid<const N: usize> {
    pub cells: [u8; N],
    pub turned: bool,
}

/// A type that contains itself.
pub struct Tree {
    value: u8,
    children: Vec<Tree>,
}

/// No type that has a schema, which matters only where it is asked for.
pub struct Callback<'a>(&'a dyn Fn(u8) -> u8, fn(u8) -> Vec<u8>, *const u8);
