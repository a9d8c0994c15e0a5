//! The calls of the library that `bench` measures and the C API lacks. A `Family` is passed as its number, as in the C
//! API. No proof covers this crate: `bench/unproved.py` builds it next to a copy of the repository.
#![tactic(auto)]

mod folding;
#[cfg(test)]
mod tests;

use crate::folding::folded_list;
use link_base::views::viewing::view_list;
use link_base::{Attribute, ListError, check_list, read_list};
use netlink_packet_route::{Family, by_family};
use std::alloc::Global;

/// The result for a malformed list, as in the C API.
const FAULT: isize = -1;

/// The result if an allocation fails, as in the C API.
const NO_MEMORY: isize = -3;

/// The result for a number that no `Family` has, as in the C API.
const NO_FAMILY: isize = -5;

/// Reads the list in `bytes`, drops the values, and returns their number.
#[unsafe(no_mangle)]
pub extern "C" fn bench_read(alloc: Global, family: u32, bytes: &[u8]) -> isize {
    match Family::from_number(family) {
        Some(family) => by_family!(family, read(alloc, bytes)),
        None => NO_FAMILY,
    }
}

/// Checks the list in `bytes`, and returns the number of attributes.
#[unsafe(no_mangle)]
pub extern "C" fn bench_check(family: u32, bytes: &[u8]) -> isize {
    match Family::from_number(family) {
        Some(family) => by_family!(family, check(bytes)),
        None => NO_FAMILY,
    }
}

/// Checks the list in `bytes`, and returns a number that depends on the content of each attribute.
#[unsafe(no_mangle)]
pub extern "C" fn bench_check_and_walk(family: u32, bytes: &[u8]) -> isize {
    match Family::from_number(family) {
        Some(family) => by_family!(family, walk(bytes)),
        None => NO_FAMILY,
    }
}

#[inline(always)]
fn read<F: Attribute>(alloc: Global, bytes: &[u8]) -> isize {
    match read_list::<F>(alloc, bytes) {
        Ok(values) => values.len() as isize,
        Err(ListError::Fault { .. }) => FAULT,
        Err(ListError::Memory(_)) => NO_MEMORY,
    }
}

#[inline(always)]
fn check<F: Attribute>(bytes: &[u8]) -> isize {
    match check_list::<F>(bytes) {
        Ok(count) => count as isize,
        Err(_) => FAULT,
    }
}

#[inline(always)]
fn walk<F: Attribute>(bytes: &[u8]) -> isize {
    match view_list::<F>(bytes) {
        Ok(view) => (folded_list(view) & 0x7FFF_FFFF) as isize,
        Err(_) => FAULT,
    }
}
