//! Compares views of a list with the values that `read_list` returns, for libFuzzer. No proof covers this crate:
//! `bench/unproved.py` builds it next to a copy of the repository.
#![tactic(auto)]

mod items;
mod lists;
mod nested;
#[cfg(test)]
mod tests;

use crate::lists::compared;
use netlink_packet_route::{Family, by_family};
use std::alloc::Global;

// The results of `fuzz_views` for a failed allocation and for a number that no `Family` has are those of the C API. The
// others say what differs.
const NO_MEMORY: isize = -3;
const NO_FAMILY: isize = -5;
const CHECK: isize = 1; // the result of `check_list` or `check`: the first error, or the number of attributes
const ERROR: isize = 2; // the error of `view_list`, of an attribute set or of a `Family`
const COUNT: isize = 3; // the number of attributes
const VALUE: isize = 4; // the value that `parse` returns for an attribute of the view, or the result of `check`
const LABEL: isize = 5; // the label
const FORM: isize = 6; // the form of the content, which the label has too
const NUMBER: isize = 7; // the result of `as_u8`, `as_u16`, `as_u32` or `as_u64`
const FOUND: isize = 8; // the attributes that `first` and `find` return
const ELEMENTS: isize = 9; // the views of a nested list, or whether there is one
const ITEM: isize = 10; // an offset or an item of `view_all`
const FIRST: isize = 11; // the first error of `view_all`
const CANONICAL: isize = 12; // the result of `first_not_canonical` or `list_is_canonical`

/// Compares the views of the list in `bytes` with its values. Returns 0 if they agree, and otherwise the number of what
/// differs.
#[unsafe(no_mangle)]
pub extern "C" fn fuzz_views(alloc: Global, family: u32, bytes: &[u8]) -> isize {
    let result = match Family::from_number(family) {
        Some(family) => by_family!(family, compared(alloc, family, bytes)),
        None => Err(NO_FAMILY),
    };
    result.err().unwrap_or(0)
}

/// Returns `number` as an error unless something holds.
fn expect(is_so: bool, number: isize) -> Result<(), isize> {
    if is_so { Ok(()) } else { Err(number) }
}
