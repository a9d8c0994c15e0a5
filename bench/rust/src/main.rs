//! Makes one call N times on a bridge's list: `speed CALL FILE.hex N`. speed_rust.py counts its instructions.
//!
//! The calls are those of the crate nlroute, and for comparison those of the C library that do the same: `c_find`,
//! `c_read`, `c_change`. `loop` makes no call.

use nlroute::{find, Bridge, List, IFLA_BR_FORWARD_DELAY};
use std::hint::black_box;
use std::mem::MaybeUninit;
use std::{env, fs, process};

/// `struct nlroute_value`.
#[repr(C)]
#[derive(Clone, Copy)]
struct Value {
    kind: u16,
    rest: [u16; 7],
    number: u64,
    offset: u64,
    octets: [u8; 16],
}

extern "C" {
    fn nlroute_find(
        family: u32,
        bytes: *const u8,
        len: usize,
        kind: u16,
        value: *mut Value,
    ) -> isize;
    fn nlroute_values(
        family: u32,
        bytes: *const u8,
        len: usize,
        values: *mut Value,
        places: usize,
    ) -> isize;
    fn nlroute_write(
        family: u32,
        values: *const Value,
        count: usize,
        octets: *const u8,
        len: usize,
        out: *mut u8,
        room: usize,
    ) -> isize;
}

const BRIDGE: u32 = 3;
const FORWARD_DELAY: u16 = 1;
const PLACES: usize = 64;

fn c_find(bytes: &[u8]) {
    let mut value = MaybeUninit::uninit();
    // SAFETY: the input is a slice, the output a local variable.
    black_box(unsafe {
        nlroute_find(
            BRIDGE,
            bytes.as_ptr(),
            bytes.len(),
            FORWARD_DELAY,
            value.as_mut_ptr(),
        )
    });
}

/// Reads the values into an array, and returns how many there are.
fn c_values(bytes: &[u8], values: &mut [MaybeUninit<Value>; PLACES]) -> usize {
    // SAFETY: the input is a slice; the output has PLACES values.
    let count = unsafe {
        nlroute_values(
            BRIDGE,
            bytes.as_ptr(),
            bytes.len(),
            values.as_mut_ptr().cast(),
            PLACES,
        )
    };
    usize::try_from(count).expect("the list is well-formed")
}

fn c_read(bytes: &[u8]) {
    let mut values = [MaybeUninit::uninit(); PLACES];
    black_box(c_values(bytes, &mut values));
    black_box(&values);
}

fn c_change(bytes: &[u8]) {
    let mut values = [MaybeUninit::<Value>::uninit(); PLACES];
    let count = c_values(bytes, &mut values);
    // SAFETY: the library has stored this many values.
    let values =
        unsafe { std::slice::from_raw_parts_mut(values.as_mut_ptr().cast::<Value>(), count) };
    for value in values
        .iter_mut()
        .filter(|value| value.kind == FORWARD_DELAY)
    {
        value.number = 700;
    }
    let mut out = [MaybeUninit::<u8>::uninit(); 1024];
    let (room, to) = (out.len(), out.as_mut_ptr().cast());
    // SAFETY: the inputs are slices; the output has `room` bytes.
    black_box(unsafe {
        nlroute_write(
            BRIDGE,
            values.as_ptr(),
            count,
            bytes.as_ptr(),
            bytes.len(),
            to,
            room,
        )
    });
    black_box(&out);
}

fn read(bytes: &[u8]) {
    black_box(List::<Bridge>::read(bytes)).expect("the list is well-formed");
}

fn walk(bytes: &[u8]) {
    let list = List::<Bridge>::read(bytes).expect("the list is well-formed");
    for value in &list {
        black_box(value.content());
    }
}

fn change(bytes: &[u8]) {
    let mut list = List::<Bridge>::read(bytes).expect("the list is well-formed");
    list.set(IFLA_BR_FORWARD_DELAY, 700);
    black_box(list.to_bytes()).expect("all values fit");
}

fn call_of(name: &str) -> Option<fn(&[u8])> {
    Some(match name {
        "loop" => |_| {},
        "find" => |bytes| {
            black_box(find(bytes, IFLA_BR_FORWARD_DELAY)).expect("the list is well-formed");
        },
        "read" => read,
        "walk" => walk,
        "change" => change,
        "c_find" => c_find,
        "c_read" => c_read,
        "c_change" => c_change,
        _ => return None,
    })
}

fn main() {
    let arguments: Vec<String> = env::args().skip(1).collect();
    let (call, file, count) = match arguments.as_slice() {
        [call, file, count] => (call_of(call), file, count.parse::<u32>()),
        _ => process::exit(2),
    };
    let (Some(call), Ok(count), Ok(hex)) = (call, count, fs::read_to_string(file)) else {
        process::exit(2)
    };
    let digits: Vec<u8> = hex
        .trim()
        .bytes()
        .map(|it| char::from(it).to_digit(16).expect("hex") as u8)
        .collect();
    let bytes: Vec<u8> = digits
        .chunks_exact(2)
        .map(|it| it[0] << 4 | it[1])
        .collect();
    for _ in 0..count {
        black_box(call)(black_box(&bytes));
    }
}
