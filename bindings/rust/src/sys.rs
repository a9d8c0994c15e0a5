//! The C functions, and a safe function over each. This is the only file with `unsafe`.
//!
//! What the header requires of callers holds in each call for these reasons, to which the comments refer:
//!
//! - *Inputs.* A slice or a reference is aligned, initialized, not null even if it is empty, and at most `isize::MAX`
//!   bytes long. The borrow keeps other threads from writing to it during the call.
//! - *Outputs.* An output is a local variable or the spare capacity of a new `Vec`, so nothing else refers to it.
//! - *Values.* The fields of [`Raw`], [`RawHead`], [`RawField`], [`RawFault`], [`RawMessage`], [`RawRange`] and [`RawRow`] are
//!   integers, so any bytes are a value. The library checks form, offset and length of each value that it is passed.
//! - *Lifetimes.* The library keeps no pointer.

use crate::kinds::refusal;
use crate::{CanBitTiming, CanBitTimingConst};
use std::ffi::CStr;
use std::fmt;
use std::mem::{align_of, size_of};
use std::os::raw::c_char;

/// `struct nlroute_value`.
#[repr(C)]
#[derive(Clone, Copy, Debug, Default, PartialEq, Eq)]
pub struct Raw {
    pub kind: u16,
    pub inner: u16,
    pub flags: u16,
    pub form: u8,
    pub depth: u8,
    pub second: u32,
    pub length: u32,
    pub number: u64,
    pub offset: u64,
    pub octets: [u8; 16],
}

/// `struct nlroute_head`.
#[repr(C)]
#[derive(Clone, Copy, Debug, Default, PartialEq, Eq)]
pub struct RawHead {
    pub kind: u16,
    pub flags: u16,
    pub sequence: u32,
    pub port: u32,
    pub address_family: u8,
    pub unused: u8,
    pub link_type: u16,
    pub index: i32,
    pub link_flags: u32,
    pub change: u32,
}

/// `struct nlroute_fault`.
#[repr(C)]
#[derive(Clone, Copy, Debug, Default, PartialEq, Eq, Hash)]
pub struct RawFault {
    pub at: u64,
    pub first: u64,
    pub second: u64,
    pub place: u32,
    pub kind: u32,
    pub inner: u32,
    pub cause: u32,
}

/// `struct nlroute_message`.
#[repr(C)]
#[derive(Clone, Copy, Debug, Default)]
pub struct RawMessage {
    pub list: u64,
    pub length: u64,
    pub next: u64,
    pub len: u32,
    pub sequence: u32,
    pub port: u32,
    pub kind: u16,
    pub flags: u16,
    pub index: i32,
    pub link_flags: u32,
    pub change: u32,
    pub link_type: u16,
    pub address_family: u8,
    pub is_link: u8,
}

/// `struct nlroute_range`.
#[repr(C)]
#[derive(Clone, Copy, Debug, Default)]
pub struct RawRange {
    pub offset: u64,
    pub length: u64,
}

/// `struct nlroute_field`.
#[repr(C)]
#[derive(Clone, Copy, Debug, Default)]
pub struct RawField {
    pub name: [u8; 32],
    pub number: u64,
    pub offset: u64,
    pub length: u32,
    pub form: u32,
    pub octets: [u8; 16],
}

/// `struct nlroute_row`.
#[repr(C)]
#[derive(Clone, Copy, Debug, Default)]
pub struct RawRow {
    pub width: u32,
    pub flags: u16,
    pub form: u8,
    pub is_list: u8,
    pub unit: u32,
}

// The structs have no padding. Those of linux/can/netlink.h have u32 and char fields only.
const _: () = assert!(size_of::<Raw>() == 48 && align_of::<Raw>() == align_of::<u64>());
const _: () = assert!(size_of::<RawHead>() == 28 && align_of::<RawHead>() == align_of::<u32>());
const _: () = assert!(size_of::<RawFault>() == 40 && align_of::<RawFault>() == align_of::<u64>());
const _: () = assert!(size_of::<RawMessage>() == 56 && align_of::<RawMessage>() == align_of::<u64>());
const _: () = assert!(size_of::<RawRange>() == 16 && align_of::<RawRange>() == align_of::<u64>());
const _: () = assert!(size_of::<RawField>() == 72 && align_of::<RawField>() == align_of::<u64>());
const _: () = assert!(size_of::<RawRow>() == 12 && align_of::<RawRow>() == align_of::<u32>());
const _: () = assert!(size_of::<CanBitTiming>() == 32 && size_of::<CanBitTimingConst>() == 48);

extern "C" {
    fn nlroute_version() -> u32;
    fn nlroute_build() -> *const c_char;
    fn nlroute_values(family: u32, bytes: *const u8, len: usize, values: *mut Raw, places: usize) -> isize;
    fn nlroute_find(family: u32, bytes: *const u8, len: usize, kind: u16, value: *mut Raw) -> isize;
    fn nlroute_find_in(family: u32, bytes: *const u8, len: usize, kind: u16, inner: u16, value: *mut Raw) -> isize;
    fn nlroute_first_fault(family: u32, bytes: *const u8, len: usize, fault: *mut RawFault) -> isize;
    fn nlroute_fault_text(family: u32, fault: *const RawFault, text: *mut c_char, room: usize) -> isize;
    fn nlroute_can_bittiming(value: *const Raw, bytes: *const u8, len: usize, timing: *mut CanBitTiming) -> isize;
    fn nlroute_can_bittiming_const(
        value: *const Raw,
        bytes: *const u8,
        len: usize,
        limits: *mut CanBitTimingConst,
    ) -> isize;
    fn nlroute_read_field(
        family: u32,
        value: *const Raw,
        index: usize,
        octets: *const u8,
        len: usize,
        field: *mut RawField,
    ) -> isize;
    fn nlroute_read_row(family: u32, kind: u16, inner: u16, depth: u8, row: *mut RawRow) -> isize;
    fn nlroute_read_message(bytes: *const u8, len: usize, at: usize, message: *mut RawMessage) -> isize;
    fn nlroute_message_fault(bytes: *const u8, len: usize, at: usize, fault: *mut RawFault) -> isize;
    fn nlroute_held(list: *const u8, len: usize, address_family: u8, family: u32, held: *mut RawRange) -> isize;
    fn nlroute_opens(family: u32, address_family: u8, value: *const Raw, list: *const u8, len: usize) -> isize;
    fn nlroute_from_info_kind(kind: *const c_char, len: usize) -> isize;
    fn nlroute_from_port_kind(kind: *const c_char, len: usize) -> isize;
    fn nlroute_kind_name(family: u32, value: *const Raw, text: *mut c_char, room: usize) -> isize;
    fn nlroute_text(
        family: u32,
        value: *const Raw,
        octets: *const u8,
        len: usize,
        text: *mut c_char,
        room: usize,
    ) -> isize;
    fn nlroute_write(
        family: u32,
        values: *const Raw,
        count: usize,
        octets: *const u8,
        len: usize,
        out: *mut u8,
        room: usize,
    ) -> isize;
    fn nlroute_measure(
        family: u32,
        values: *const Raw,
        count: usize,
        octets: *const u8,
        len: usize,
        at: *mut usize,
    ) -> isize;
    fn nlroute_request(
        head: *const RawHead,
        values: *const Raw,
        count: usize,
        octets: *const u8,
        len: usize,
        out: *mut u8,
        room: usize,
        at: *mut usize,
    ) -> isize;
}

/// Returns the version of the library.
pub fn version() -> u32 {
    // SAFETY: the function takes nothing and returns a constant.
    unsafe { nlroute_version() }
}

/// Returns the mark of the library.
pub fn build() -> &'static str {
    // SAFETY: the function takes nothing and returns a constant string that ends with a NUL.
    let mark = unsafe { CStr::from_ptr(nlroute_build()) };
    mark.to_str().unwrap_or_default()
}

/// Returns the values of a list.
pub fn values(family: u32, bytes: &[u8]) -> Result<Vec<Raw>, RawFault> {
    // Few values are shorter than 8 bytes, and none is shorter than 2.
    for places in [bytes.len() / 8 + 1, bytes.len() / 2] {
        let mut values: Vec<Raw> = Vec::with_capacity(places);
        // SAFETY: the input is a slice; the output is spare capacity for `places` values.
        let count = unsafe { nlroute_values(family, bytes.as_ptr(), bytes.len(), values.as_mut_ptr(), places) };
        if let Ok(count) = usize::try_from(count) {
            // SAFETY: the library has stored the first `count` values, which are at most `places`.
            unsafe { values.set_len(count) };
            return Ok(values);
        }
        if count != refusal::NO_ROOM {
            break;
        }
    }
    Err(first_fault(family, bytes))
}

/// Returns the last attribute of a type, or `None` if the list has none.
pub fn find(family: u32, bytes: &[u8], kind: u16) -> Result<Option<Raw>, RawFault> {
    let mut value = Raw::default();
    // SAFETY: the input is a slice; the output is a local variable.
    let code = unsafe { nlroute_find(family, bytes.as_ptr(), bytes.len(), kind, &mut value) };
    found(code, value, family, bytes)
}

/// Returns the last element of a type in the last list of a type, or `None` if there is none.
pub fn find_in(family: u32, bytes: &[u8], kind: u16, inner: u16) -> Result<Option<Raw>, RawFault> {
    let mut value = Raw::default();
    // SAFETY: the input is a slice; the output is a local variable.
    let code = unsafe { nlroute_find_in(family, bytes.as_ptr(), bytes.len(), kind, inner, &mut value) };
    found(code, value, family, bytes)
}

fn found(code: isize, value: Raw, family: u32, bytes: &[u8]) -> Result<Option<Raw>, RawFault> {
    match code {
        0 => Ok(Some(value)),
        refusal::ABSENT => Ok(None),
        _ => Err(first_fault(family, bytes)),
    }
}

/// Returns the first error of a list that is malformed.
#[cold]
fn first_fault(family: u32, bytes: &[u8]) -> RawFault {
    let mut fault = RawFault::default();
    // SAFETY: the input is a slice; the output is a local variable.
    let code = unsafe { nlroute_first_fault(family, bytes.as_ptr(), bytes.len(), &mut fault) };
    debug_assert_eq!(code, 0, "the list has no error");
    fault
}

/// Returns the message at an offset of a buffer, or `None` at its end.
pub fn message(bytes: &[u8], at: usize) -> Result<Option<RawMessage>, RawFault> {
    let mut message = RawMessage::default();
    // SAFETY: the input is a slice; the output is a local variable.
    match unsafe { nlroute_read_message(bytes.as_ptr(), bytes.len(), at, &mut message) } {
        0 => Ok(Some(message)),
        refusal::ABSENT => Ok(None),
        _ => Err(message_fault(bytes, at)),
    }
}

/// Returns the error of a message that is malformed.
#[cold]
fn message_fault(bytes: &[u8], at: usize) -> RawFault {
    let mut fault = RawFault::default();
    // SAFETY: the input is a slice; the output is a local variable.
    let code = unsafe { nlroute_message_fault(bytes.as_ptr(), bytes.len(), at, &mut fault) };
    debug_assert_eq!(code, 0, "the message has no error");
    fault
}

/// Returns the offset and the length of the last list of a set in the attributes of a message, or `None`.
pub fn held(list: &[u8], address_family: u8, family: u32) -> Option<(usize, usize)> {
    let mut held = RawRange::default();
    // SAFETY: the input is a slice; the output is a local variable.
    let code = unsafe { nlroute_held(list.as_ptr(), list.len(), address_family, family, &mut held) };
    (code == 0).then_some((held.offset as usize, held.length as usize))
}

/// Returns the number of the attribute set that reads the list in a value, or `None`.
pub fn opens(family: u32, address_family: u8, value: &Raw, list: &[u8]) -> Option<u32> {
    // SAFETY: the inputs are a reference and a slice.
    u32::try_from(unsafe { nlroute_opens(family, address_family, value, list.as_ptr(), list.len()) }).ok()
}

/// Returns the struct that a value refers to.
pub fn can_bittiming(value: &Raw, bytes: &[u8]) -> Option<CanBitTiming> {
    let mut timing = CanBitTiming::default();
    // SAFETY: the inputs are a reference and a slice; the output is a local variable of the kernel's layout.
    let code = unsafe { nlroute_can_bittiming(value, bytes.as_ptr(), bytes.len(), &mut timing) };
    (code == 0).then_some(timing)
}

/// Returns the struct that a value refers to.
pub fn can_bittiming_const(value: &Raw, bytes: &[u8]) -> Option<CanBitTimingConst> {
    let mut limits = CanBitTimingConst::default();
    // SAFETY: the inputs are a reference and a slice; the output is a local variable of the kernel's layout.
    let code = unsafe { nlroute_can_bittiming_const(value, bytes.as_ptr(), bytes.len(), &mut limits) };
    (code == 0).then_some(limits)
}

/// Returns a field of the struct that a value holds, or `None` if it has no such field.
pub fn field(family: u32, value: &Raw, index: usize, octets: &[u8]) -> Option<RawField> {
    let mut field = RawField::default();
    // SAFETY: the inputs are a reference and a slice; the output is a local variable.
    let code = unsafe { nlroute_read_field(family, value, index, octets.as_ptr(), octets.len(), &mut field) };
    (code == 0).then_some(field)
}

/// Returns the number of `enum nlroute_unit` for the attribute type of a value; 0 if it has none.
pub fn unit(family: u32, value: &Raw) -> u32 {
    let mut row = RawRow::default();
    // SAFETY: the output is a local variable, which is unchanged on an error.
    let code = unsafe { nlroute_read_row(family, value.kind, value.inner, value.depth, &mut row) };
    debug_assert_eq!(code, 0, "the value has a type");
    row.unit
}

/// Returns the number of the attribute set of devices of a kind.
pub fn from_info_kind(kind: &[u8]) -> Option<u32> {
    // SAFETY: the pointer and the length are those of `kind`.
    u32::try_from(unsafe { nlroute_from_info_kind(kind.as_ptr().cast(), kind.len()) }).ok()
}

/// Returns the number of the attribute set of ports of a kind.
pub fn from_port_kind(kind: &[u8]) -> Option<u32> {
    // SAFETY: the pointer and the length are those of `kind`.
    u32::try_from(unsafe { nlroute_from_port_kind(kind.as_ptr().cast(), kind.len()) }).ok()
}

/// Returns the bytes of a list, or the index of the value that cannot be written, and the error code.
pub fn write(family: u32, values: &[Raw], octets: &[u8]) -> Result<Vec<u8>, (usize, isize)> {
    let mut out: Vec<u8> = Vec::new();
    out.try_reserve_exact(bound(values)).map_err(|_| (0, refusal::NO_MEMORY))?;
    let room = out.capacity().min(isize::MAX as usize);
    // SAFETY: the inputs are slices; the output is spare capacity for `room` bytes.
    let code = unsafe {
        let (values, count) = (values.as_ptr(), values.len());
        nlroute_write(family, values, count, octets.as_ptr(), octets.len(), out.as_mut_ptr(), room)
    };
    match usize::try_from(code) {
        Ok(length) => {
            // SAFETY: the library has written the first `length` bytes, which are at most `room`.
            unsafe { out.set_len(length) };
            Ok(out)
        }
        Err(_) => Err((first_refused(family, values, octets), code)),
    }
}

/// Returns at least the length of the list of these values.
fn bound(values: &[Raw]) -> usize {
    // Each is a header and either at most 16 bytes, or `length` and padding.
    values.iter().fold(0, |sum: usize, value| sum.saturating_add(value.length as usize + 24))
}

/// Returns the index of the first value that cannot be written.
#[cold]
fn first_refused(family: u32, values: &[Raw], octets: &[u8]) -> usize {
    let mut at = 0;
    // SAFETY: the inputs are slices; the output is a local variable.
    let _ = unsafe {
        let (values, count) = (values.as_ptr(), values.len());
        nlroute_measure(family, values, count, octets.as_ptr(), octets.len(), &mut at)
    };
    at
}

/// Returns the bytes of a request, or the index of the value that cannot be written, and the error code.
pub fn request(head: &RawHead, values: &[Raw], octets: &[u8]) -> Result<Vec<u8>, (usize, isize)> {
    let mut out: Vec<u8> = Vec::new();
    out.try_reserve_exact(bound(values).saturating_add(32)).map_err(|_| (values.len(), refusal::NO_MEMORY))?;
    let (room, mut at) = (out.capacity().min(isize::MAX as usize), 0);
    // SAFETY: the inputs are a reference and slices; the outputs are spare capacity for `room` bytes and a local variable.
    let code = unsafe {
        let (values, count) = (values.as_ptr(), values.len());
        nlroute_request(head, values, count, octets.as_ptr(), octets.len(), out.as_mut_ptr(), room, &mut at)
    };
    match usize::try_from(code) {
        Ok(length) => {
            // SAFETY: the library has written the first `length` bytes, which are at most `room`.
            unsafe { out.set_len(length) };
            Ok(out)
        }
        Err(_) => Err((at, code)),
    }
}

/// Returns the text of an error.
pub fn fault_text(family: u32, fault: &RawFault) -> Text {
    Text::of(|text| {
        // SAFETY: the input is a reference; the output is a slice that is borrowed mutably.
        unsafe { nlroute_fault_text(family, fault, text.as_mut_ptr().cast(), text.len()) }
    })
}

/// Returns the name of an attribute type.
pub fn kind_name(family: u32, value: &Raw) -> Text {
    Text::of(|text| {
        // SAFETY: the input is a reference; the output is a slice that is borrowed mutably.
        unsafe { nlroute_kind_name(family, value, text.as_mut_ptr().cast(), text.len()) }
    })
}

/// Returns the text of a value.
pub fn value_text(family: u32, value: &Raw, octets: &[u8]) -> Text {
    Text::of(|text| {
        let (room, text) = (text.len(), text.as_mut_ptr().cast());
        // SAFETY: the inputs are a reference and a slice; the output is a slice that is borrowed mutably.
        unsafe { nlroute_text(family, value, octets.as_ptr(), octets.len(), text, room) }
    })
}

/// The space for a text that needs no allocation.
const SHORT: usize = 256;

/// A text of the library. It is empty if the library returns an error.
pub struct Text {
    short: [u8; SHORT],
    long: Vec<u8>,
    length: usize,
}

impl Text {
    /// Calls a function that stores a text in a buffer and returns its length, as `snprintf()`. Calls it again if the
    /// text is long.
    fn of(call: impl Fn(&mut [u8]) -> isize) -> Text {
        let mut text = Text { short: [0; SHORT], long: Vec::new(), length: 0 };
        text.length = usize::try_from(call(&mut text.short)).unwrap_or(0);
        if text.length >= SHORT {
            text.long = vec![0; text.length + 1];
            call(&mut text.long);
        }
        text
    }

    pub fn is_empty(&self) -> bool {
        self.length == 0
    }
}

impl fmt::Display for Text {
    fn fmt(&self, f: &mut fmt::Formatter<'_>) -> fmt::Result {
        let stored = if self.length < SHORT { &self.short[..] } else { &self.long[..] };
        f.write_str(&String::from_utf8_lossy(&stored[..self.length]))
    }
}
