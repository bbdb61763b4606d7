//! Random encodings of each type. Maps and sets come in ascending order or in any order.

use crate::containers::random_container;
use crate::random::Random;
use crate::user_types::{A, MyEnum, MyStruct, One, OneOrZero};
use borsh::schema::BorshSchemaContainer;
use bytes::Bytes;
use indexmap::{IndexMap, IndexSet};
use std::collections::{BTreeMap, BTreeSet, HashMap, HashSet, LinkedList, VecDeque};
use std::net::{IpAddr, SocketAddr, SocketAddrV6};
use std::num::NonZeroI16;
use std::ops::{Range, RangeFrom, RangeFull, RangeInclusive, RangeTo, RangeToInclusive};
use std::rc::Rc;
use uuid::Uuid;

pub trait Sample {
    /// Puts an encoding behind `out`.
    fn put(random: &mut Random, out: &mut Vec<u8>);
}

/// How many elements a list has: mostly few.
fn count(random: &mut Random) -> usize {
    match random.below(20) {
        0..9 => random.below(4),
        9..18 => random.below(10),
        _ => random.below(70),
    }
}

fn put_count(count: usize, out: &mut Vec<u8>) {
    out.extend((count as u32).to_le_bytes());
}

/// A number of so many bytes, some of them extreme.
fn put_number(width: usize, random: &mut Random, out: &mut Vec<u8>) {
    match random.below(6) {
        0 => out.extend(vec![0; width]),
        1 => out.extend(vec![255; width]),
        2 => out.extend((0..width).map(|at| if at == 0 { 1 } else { 0 })),
        3 => out.extend((0..width).map(|at| if at + 1 == width { 128 } else { 0 })),
        _ => out.extend(random.bytes(width)),
    }
}

fn put_list<T: Sample>(random: &mut Random, out: &mut Vec<u8>) {
    let count = count(random);
    put_count(count, out);
    for _ in 0..count {
        T::put(random, out);
    }
}

fn put_text(random: &mut Random, out: &mut Vec<u8>) {
    const PARTS: [&str; 9] = [
        "a",
        "Z",
        " ",
        "\0",
        "ß",
        "€",
        "\u{1f4a9}",
        "\u{7ff}",
        "line\n",
    ];
    let count = count(random);
    let text: String = (0..count).map(|_| *random.pick(&PARTS)).collect();
    put_count(text.len(), out);
    out.extend(text.bytes());
}

/// Keys of one byte: ascending and each once, or in any order and repeated.
fn random_keys(random: &mut Random) -> Vec<u8> {
    let count = count(random);
    let range = *random.pick(&[6, 256]);
    let mut keys: Vec<u8> = (0..count).map(|_| random.below(range) as u8).collect();
    if !random.one_in(3) {
        keys.sort();
    }
    if !random.one_in(4) {
        keys.dedup();
    }
    keys
}

fn put_map<V: Sample>(random: &mut Random, out: &mut Vec<u8>) {
    let keys = random_keys(random);
    put_count(keys.len(), out);
    for key in keys {
        out.push(key);
        V::put(random, out);
    }
}

macro_rules! numbers {
    ($($type:ty),*) => {$(
        impl Sample for $type {
            fn put(random: &mut Random, out: &mut Vec<u8>) {
                put_number(size_of::<$type>(), random, out);
            }
        }
    )*};
}

numbers!(u8, u32, i32, u64, u128, isize, NonZeroI16, Uuid);

macro_rules! lists {
    ($($type:ident),*) => {$(
        impl<T: Sample> Sample for $type<T> {
            fn put(random: &mut Random, out: &mut Vec<u8>) {
                put_list::<T>(random, out);
            }
        }
    )*};
}

lists!(Vec, VecDeque, LinkedList);

macro_rules! maps {
    ($($type:ty: $value:ty),* $(,)?) => {$(
        impl Sample for $type {
            fn put(random: &mut Random, out: &mut Vec<u8>) {
                put_map::<$value>(random, out);
            }
        }
    )*};
}

maps! {
    BTreeSet<u8>: (),
    HashSet<u8>: (),
    IndexSet<u8>: (),
    BTreeMap<u8, u8>: u8,
    HashMap<u8, u8>: u8,
    IndexMap<u8, u8>: u8,
    BTreeMap<u8, BTreeSet<u8>>: BTreeSet<u8>,
}

/// Types that are written as another one.
macro_rules! as_another {
    ($($type:ty: $other:ty),* $(,)?) => {$(
        impl Sample for $type {
            fn put(random: &mut Random, out: &mut Vec<u8>) {
                <$other>::put(random, out);
            }
        }
    )*};
}

as_another! {
    RangeFull: (),
    Range<i32>: [i32; 2],
    RangeInclusive<i32>: [i32; 2],
    RangeFrom<i32>: i32,
    RangeTo<i32>: i32,
    RangeToInclusive<i32>: i32,
    BTreeMap<(), u8>: Vec<u8>,
    Box<()>: (),
    Box<[u8]>: Vec<u8>,
    Bytes: Vec<u8>,
    Rc<str>: String,
    A: (u64, String),
    MyStruct: (u64, Vec<u8>),
}

impl Sample for () {
    fn put(_: &mut Random, _: &mut Vec<u8>) {}
}

impl Sample for bool {
    fn put(random: &mut Random, out: &mut Vec<u8>) {
        out.push(random.below(2) as u8);
    }
}

impl Sample for String {
    fn put(random: &mut Random, out: &mut Vec<u8>) {
        put_text(random, out);
    }
}

impl<T: Sample> Sample for Option<T> {
    fn put(random: &mut Random, out: &mut Vec<u8>) {
        let some = !random.one_in(3);
        out.push(some as u8);
        if some {
            T::put(random, out);
        }
    }
}

impl<T: Sample, E: Sample> Sample for Result<T, E> {
    fn put(random: &mut Random, out: &mut Vec<u8>) {
        let ok = random.one_in(2);
        out.push(ok as u8);
        if ok {
            T::put(random, out);
        } else {
            E::put(random, out);
        }
    }
}

impl<T: Sample, const N: usize> Sample for [T; N] {
    fn put(random: &mut Random, out: &mut Vec<u8>) {
        for _ in 0..N {
            T::put(random, out);
        }
    }
}

macro_rules! tuples {
    ($(($($part:ident),*))*) => {$(
        impl<$($part: Sample),*> Sample for ($($part,)*) {
            fn put(random: &mut Random, out: &mut Vec<u8>) {
                $($part::put(random, out);)*
            }
        }
    )*};
}

tuples! {
    (A0, A1)
    (A0, A1, A2, A3, A4, A5)
}

/// An address of 4 or 16 bytes, and then so many bytes.
fn put_address(behind: usize, random: &mut Random, out: &mut Vec<u8>) {
    let tag = random.below(2);
    out.push(tag as u8);
    out.extend(random.bytes([4, 16][tag] + behind));
}

impl Sample for IpAddr {
    fn put(random: &mut Random, out: &mut Vec<u8>) {
        put_address(0, random, out);
    }
}

impl Sample for SocketAddr {
    fn put(random: &mut Random, out: &mut Vec<u8>) {
        put_address(2, random, out);
    }
}

impl Sample for SocketAddrV6 {
    fn put(random: &mut Random, out: &mut Vec<u8>) {
        out.extend(random.bytes(18));
    }
}

impl Sample for MyEnum {
    fn put(random: &mut Random, out: &mut Vec<u8>) {
        let tag = random.below(3);
        out.push(tag as u8);
        match tag {
            0 => {}
            1 => u8::put(random, out),
            _ => <Vec<u8>>::put(random, out),
        }
    }
}

impl Sample for OneOrZero {
    fn put(random: &mut Random, out: &mut Vec<u8>) {
        MyEnum::put(random, out);
    }
}

impl Sample for One {
    fn put(_: &mut Random, out: &mut Vec<u8>) {
        out.push(0);
    }
}

impl Sample for BorshSchemaContainer {
    fn put(random: &mut Random, out: &mut Vec<u8>) {
        out.extend(random_container(random));
    }
}
