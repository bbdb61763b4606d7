//! Types for the tests of the feature `serde`, which `crates/example_generated` and `crates/borsh_samples` have for Rattle. With
//! `--cfg original` (bindings/rust/original) they have the original's derive beside serde's.

#[cfg(original)]
use borsh::{BorshDeserialize, BorshSchema, BorshSerialize};
use serde::{Deserialize, Serialize};
use std::collections::{BTreeMap, BTreeSet, HashMap, HashSet, LinkedList, VecDeque};
use std::hash::Hash;
use std::marker::PhantomData;
use std::ops::RangeInclusive;
use std::rc::Rc;

macro_rules! types {
    ($($item:item)*) => {$(
        #[derive(Clone, Debug, PartialEq, Serialize, Deserialize)]
        #[cfg_attr(original, derive(BorshSerialize, BorshDeserialize, BorshSchema))]
        $item
    )*};
}

types! {
    pub struct A {
        pub x: u64,
        pub y: String,
    }

    pub enum MyEnum {
        Zero,
        One(u8),
        Many(Vec<u8>),
    }

    pub struct Marker;

    pub struct Code(pub u8);

    pub struct Session {
        pub user: u32,
        #[serde(skip)]
        #[cfg_attr(original, borsh(skip))]
        pub hits: u64,
        pub token: [u8; 4],
    }

    pub struct Block {
        pub hash: [u8; 32],
        pub rows: [[u16; 3]; 2],
        pub signers: Vec<Code>,
        pub origin: Option<(Code, Marker)>,
    }

    #[derive(Eq, PartialOrd, Ord, Hash)]
    pub struct Place {
        pub zone: u8,
        pub street: String,
    }

    pub struct Visits {
        pub counts: BTreeMap<Place, u32>,
        pub closed: BTreeSet<Place>,
        pub book: A,
    }

    pub enum Message {
        Ping,
        Text(String),
        Move {
            x: i32,
            y: i32,
        },
        Open(u8, Session),
        Tagged([u8; 4]),
        Run {
            id: u16,
            #[serde(skip)]
            #[cfg_attr(original, borsh(skip))]
            attempts: u32,
        },
        Wait(
            u8,
            #[serde(skip)]
            #[cfg_attr(original, borsh(skip))]
            Option<u64>,
        ),
        Stop {
            #[serde(skip)]
            #[cfg_attr(original, borsh(skip))]
            reason: u8,
        },
    }

    #[cfg_attr(original, borsh(use_discriminant = true))]
    pub enum Level {
        Low = 20,
        High = 9,
        Top,
    }

    #[cfg_attr(original, borsh(use_discriminant = true))]
    #[repr(u8)]
    pub enum XY {
        A,
        B = 20,
        C,
        D(u32, u32),
        E = 10,
        F(u64),
    }

    pub enum Markers<T, U> {
        Both(PhantomData<T>, PhantomData<U>),
    }

    pub struct Held<T: Clone, M> {
        pub rows: [Vec<T>; 2],
        pub map: BTreeMap<u32, Option<T>>,
        pub way: Result<Box<T>, VecDeque<T>>,
        pub pair: (LinkedList<T>, Rc<T>),
        pub mark: PhantomData<M>,
    }

    #[serde(bound(deserialize = "K: Deserialize<'de> + Ord + Hash, V: Deserialize<'de>"))]
    pub struct Hashed<K: Ord + Hash, V> {
        pub map: HashMap<K, V>,
        pub keys: HashSet<K>,
        pub set: BTreeSet<K>,
    }

    pub struct Stock {
        pub pieces: BTreeMap<String, u32>,
        pub note: Option<String>,
    }

    pub enum Request {
        List,
        Buy {
            name: String,
            pieces: u32,
            price: u32,
        },
        Cancel {
            number: u64,
        },
    }

    pub struct Pair<A, B> {
        pub first: A,
        pub second: B,
    }

    pub struct BorshSchemaContainer {
        pub declaration: String,
        pub definitions: BTreeMap<String, Definition>,
    }

    pub enum Definition {
        Primitive(u8),
        Sequence {
            length_width: u8,
            length_range: RangeInclusive<u64>,
            elements: String,
        },
        Tuple {
            elements: Vec<String>,
        },
        Enum {
            tag_width: u8,
            variants: Vec<(i64, String, String)>,
        },
        Struct {
            fields: Fields,
        },
    }

    pub enum Fields {
        NamedFields(Vec<(String, String)>),
        UnnamedFields(Vec<String>),
        Empty,
    }
}
