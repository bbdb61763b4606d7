//! What the benchmark calls of this library: values are encoded, decoded or counted, so many times.
#![tactic(auto)]

mod records;

use borsh::schema::BorshSchemaContainer;
use borsh::{BorshDeserialize, BorshSerialize, from_slice, object_length, to_vec};
use borsh_check_lines::run;
use borsh_values::{Membership, Plan, Preorder, is_member, is_member_of};
use borsh_walks::Definition;
use indexmap::IndexMap;
use records::{Order, Transfer};
use std::alloc::Global;
use std::collections::{BTreeMap, BTreeSet, HashMap, VecDeque};
use std::net::IpAddr;
use uuid::Uuid;

/// What is done with a value.
const WRITE: u32 = 0;
const READ: u32 = 1;
const LENGTH: u32 = 2;
const BOTH: u32 = 3;

/// Encodes the value so many times; the sum of the lengths.
fn write<T: BorshSerialize>(alloc: Global, value: &T, rounds: usize) -> usize {
    let mut sum = 0usize;
    for _ in 0..rounds {
        if let Ok(bytes) = to_vec(alloc, value) {
            sum = sum.wrapping_add(bytes.len());
        }
    }
    sum
}

/// Decodes the bytes so many times; the sum of their lengths. Each value is put into memory, so that nothing of it is left out.
fn read<T: BorshDeserialize>(
    alloc: Global,
    bytes: &[u8],
    kept: &mut Vec<T>,
    rounds: usize,
) -> usize {
    let mut sum = 0usize;
    for _ in 0..rounds {
        if let Ok(value) = from_slice(alloc, bytes) {
            if kept.push(value).is_ok() {
                sum = sum.wrapping_add(bytes.len());
            }
            kept.clear();
        }
    }
    sum
}

/// Counts the bytes of the value's encoding so many times; the sum.
fn length<T: BorshSerialize>(alloc: Global, value: &T, rounds: usize) -> usize {
    let mut sum = 0usize;
    for _ in 0..rounds {
        if let Ok(n) = object_length(alloc, value) {
            sum = sum.wrapping_add(n);
        }
    }
    sum
}

/// Encodes the value and decodes the bytes so many times; the sum of their lengths.
fn write_and_read<T: BorshSerialize + BorshDeserialize>(
    alloc: Global,
    value: &T,
    rounds: usize,
) -> usize {
    let mut sum = 0usize;
    let mut kept: Vec<T> = Vec::new(alloc);
    for _ in 0..rounds {
        if let Ok(bytes) = to_vec(alloc, value) {
            sum = sum.wrapping_add(read(alloc, bytes.as_slice(), &mut kept, 1));
        }
    }
    sum
}

fn work<T: BorshSerialize + BorshDeserialize>(
    alloc: Global,
    action: u32,
    bytes: &[u8],
    rounds: usize,
) -> usize {
    if action == READ {
        return read::<T>(alloc, bytes, &mut Vec::new(alloc), rounds);
    }
    let Ok(value) = from_slice::<T>(alloc, bytes) else {
        return 0;
    };
    match action {
        LENGTH => length(alloc, &value, rounds),
        BOTH => write_and_read(alloc, &value, rounds),
        _ => write(alloc, &value, rounds),
    }
}

/// Works on values of the type with this number; the driver has the same types in the same order.
#[unsafe(no_mangle)]
pub extern "C" fn ours(
    alloc: Global,
    kind: u32,
    action: u32,
    bytes: &[u8],
    rounds: usize,
) -> usize {
    match kind {
        0 => work::<Vec<u8>>(alloc, action, bytes, rounds),
        1 => work::<Vec<u64>>(alloc, action, bytes, rounds),
        2 => work::<Vec<u32>>(alloc, action, bytes, rounds),
        3 => work::<Vec<u128>>(alloc, action, bytes, rounds),
        4 => work::<Vec<bool>>(alloc, action, bytes, rounds),
        5 => work::<Vec<Option<u64>>>(alloc, action, bytes, rounds),
        6 => work::<Vec<(u32, (bool, u16))>>(alloc, action, bytes, rounds),
        7 => work::<Vec<(u64, u64, u64)>>(alloc, action, bytes, rounds),
        8 => work::<Vec<String>>(alloc, action, bytes, rounds),
        9 => work::<String>(alloc, action, bytes, rounds),
        10 => work::<Vec<Vec<u8>>>(alloc, action, bytes, rounds),
        11 => work::<Vec<Vec<u64>>>(alloc, action, bytes, rounds),
        12 => work::<BTreeMap<u64, u64>>(alloc, action, bytes, rounds),
        13 => work::<BTreeMap<String, Vec<u8>>>(alloc, action, bytes, rounds),
        14 => work::<HashMap<u64, u64>>(alloc, action, bytes, rounds),
        15 => work::<BTreeSet<[u8; 32]>>(alloc, action, bytes, rounds),
        16 => work::<Vec<[u8; 32]>>(alloc, action, bytes, rounds),
        17 => work::<Vec<[u64; 4]>>(alloc, action, bytes, rounds),
        18 => work::<[u8; 65536]>(alloc, action, bytes, rounds),
        19 => work::<Vec<IpAddr>>(alloc, action, bytes, rounds),
        20 => work::<VecDeque<u32>>(alloc, action, bytes, rounds),
        21 => work::<(u32, u64, bool, u8)>(alloc, action, bytes, rounds),
        22 => work::<BorshSchemaContainer>(alloc, action, bytes, rounds),
        23 => work::<IndexMap<u64, u64>>(alloc, action, bytes, rounds),
        24 => work::<Vec<Uuid>>(alloc, action, bytes, rounds),
        25 => work::<Vec<f32>>(alloc, action, bytes, rounds),
        26 => work::<Vec<f64>>(alloc, action, bytes, rounds),
        27 => work::<Order>(alloc, action, bytes, rounds),
        28 => work::<Vec<Order>>(alloc, action, bytes, rounds),
        29 => work::<HashMap<String, Vec<Order>>>(alloc, action, bytes, rounds),
        30 => work::<Transfer>(alloc, action, bytes, rounds),
        _ => 0,
    }
}

/// Validates the container so many times, or takes its greatest size; how many times there was an answer.
#[unsafe(no_mangle)]
pub extern "C" fn ours_of_container(
    alloc: Global,
    sizes: bool,
    bytes: &[u8],
    rounds: usize,
) -> usize {
    let Ok(container) = from_slice::<BorshSchemaContainer>(alloc, bytes) else {
        return 0;
    };
    let mut sum = 0usize;
    for _ in 0..rounds {
        let answered = if sizes {
            container.max_serialized_size(alloc).is_ok()
        } else {
            container.validate(alloc).is_ok()
        };
        if answered {
            sum = sum.wrapping_add(1);
        }
    }
    sum
}

/// Goes over the nodes of a value; whether the bytes are one.
fn has_nodes(
    alloc: Global,
    root: &str,
    map: &BTreeMap<String, Definition>,
    bytes: &[u8],
) -> bool {
    let Ok(plan) = Plan::new(alloc, root, map) else {
        return false;
    };
    let Ok(Membership::Member) = is_member_of(alloc, &plan, bytes) else {
        return false;
    };
    let Ok(mut nodes) = Preorder::new(alloc, &plan, bytes) else {
        return false;
    };
    for _ in 0..u64::MAX {
        match nodes.next() {
            Ok(Some(_)) => {}
            Ok(None) => return true,
            Err(_) => return false,
        }
    }
    false
}

/// Asks so many times whether the bytes are a value of the container's root, or goes over its nodes too; the sum of their lengths.
#[unsafe(no_mangle)]
pub extern "C" fn ours_by_container(
    alloc: Global,
    gives_nodes: bool,
    schema: &[u8],
    bytes: &[u8],
    rounds: usize,
) -> usize {
    let Ok((root, map)) = from_slice::<(String, BTreeMap<String, Definition>)>(alloc, schema) else {
        return 0;
    };
    let mut sum = 0usize;
    for _ in 0..rounds {
        let answered = if gives_nodes {
            has_nodes(alloc, root.as_str(), &map, bytes)
        } else {
            matches!(is_member(alloc, root.as_str(), &map, bytes), Ok(Membership::Member))
        };
        if answered {
            sum = sum.wrapping_add(bytes.len());
        }
    }
    sum
}

/// Decodes bytes that announce more elements than they have, so many times; how many were refused.
#[unsafe(no_mangle)]
pub extern "C" fn ours_refuses(alloc: Global, bytes: &[u8], rounds: usize) -> usize {
    let mut sum = 0usize;
    for _ in 0..rounds {
        if from_slice::<Vec<u8>>(alloc, bytes).is_err() {
            sum = sum.wrapping_add(1);
        }
    }
    sum
}

/// Answers the program's lines so many times; the sum of the lengths of what was answered.
#[unsafe(no_mangle)]
pub extern "C" fn ours_of_lines(alloc: Global, lines: &[u8], rounds: usize) -> usize {
    let mut sum = 0usize;
    for _ in 0..rounds {
        let mut input = lines;
        let mut answers = Vec::new(alloc);
        if run(alloc, &mut input, &mut answers).is_ok() {
            sum = sum.wrapping_add(answers.len());
        }
    }
    sum
}
