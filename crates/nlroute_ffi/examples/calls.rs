//! Calls the functions of nlroute.h from Rust, through safe functions over slices. Prints a line `ok ..` for each check
//! that succeeds, and `FAILED ..` for each that fails.

/// The attribute sets of this program, with their numbers in `nlroute.h`.
#[derive(Clone, Copy, Debug, PartialEq, Eq)]
#[repr(u32)]
pub enum Family {
    Bond = 1,
    Dsa = 7,
}

/// Why a function returns no length and no count.
#[derive(Clone, Copy, Debug, PartialEq, Eq)]
pub enum Refusal {
    HasFault,
    TooLong,
    NoMemory,
    NoRoom,
    Absent,
}

/// The first decode error of a list: `struct nlroute_fault`.
#[derive(Clone, Copy, Debug, Default, PartialEq, Eq)]
#[repr(C)]
pub struct Fault {
    /// The offset of the attribute in the list, in bytes.
    pub at: u64,
    /// The numbers of the cause.
    pub first: u64,
    pub second: u64,
    /// An `enum nlroute_place`.
    pub place: u32,
    /// The type of the attribute, and that of the element of its list.
    pub kind: u32,
    pub inner: u32,
    /// An `enum nlroute_cause`.
    pub cause: u32,
}

mod sys {
    extern "C" {
        pub fn nlroute_rewrite(
            family: u32,
            bytes: *const u8,
            len: usize,
            out: *mut u8,
            room: usize,
        ) -> isize;
        pub fn nlroute_rewrite_streaming(
            family: u32,
            bytes: *const u8,
            len: usize,
            out: *mut u8,
            room: usize,
        ) -> isize;
        pub fn nlroute_count(family: u32, bytes: *const u8, len: usize) -> isize;
        pub fn nlroute_is_canonical(family: u32, bytes: *const u8, len: usize) -> bool;
        pub fn nlroute_first_fault(
            family: u32,
            bytes: *const u8,
            len: usize,
            fault: *mut super::Fault,
        ) -> isize;
        pub fn nlroute_report(
            family: u32,
            text: *const u8,
            len: usize,
            out: *mut u8,
            room: usize,
            status: *mut u8,
        ) -> isize;
    }
}

fn answer(code: isize) -> Result<usize, Refusal> {
    match code {
        0.. => Ok(code as usize),
        -1 => Err(Refusal::HasFault),
        -2 => Err(Refusal::TooLong),
        -3 => Err(Refusal::NoMemory),
        -4 => Err(Refusal::NoRoom),
        -6 => Err(Refusal::Absent),
        _ => unreachable!("a `Family` has a number"),
    }
}

// A slice is never null and has initialized elements, and a mutable slice overlaps nothing: this satisfies the
// requirements of the header.

/// Re-encodes a list into `out`. Returns the number of bytes written.
pub fn rewrite(family: Family, bytes: &[u8], out: &mut [u8]) -> Result<usize, Refusal> {
    let (at, room) = (out.as_mut_ptr(), out.len());
    answer(unsafe { sys::nlroute_rewrite(family as u32, bytes.as_ptr(), bytes.len(), at, room) })
}

/// Re-encodes a list into `out`, one attribute at a time. `out` must be at least as long as `bytes`, rounded up to a
/// multiple of four. On error, `out` may have changed.
pub fn rewrite_streaming(family: Family, bytes: &[u8], out: &mut [u8]) -> Result<usize, Refusal> {
    let (at, room) = (out.as_mut_ptr(), out.len());
    answer(unsafe {
        sys::nlroute_rewrite_streaming(family as u32, bytes.as_ptr(), bytes.len(), at, room)
    })
}

/// Returns the number of values of a list, or `HasFault`. It does not allocate.
pub fn count(family: Family, bytes: &[u8]) -> Result<usize, Refusal> {
    answer(unsafe { sys::nlroute_count(family as u32, bytes.as_ptr(), bytes.len()) })
}

/// Checks whether a list is canonical.
pub fn is_canonical(family: Family, bytes: &[u8]) -> bool {
    unsafe { sys::nlroute_is_canonical(family as u32, bytes.as_ptr(), bytes.len()) }
}

/// Returns the first decode error of a list, or `Absent`. It does not allocate.
pub fn first_fault(family: Family, bytes: &[u8]) -> Result<Fault, Refusal> {
    let mut fault = Fault::default();
    answer(unsafe {
        sys::nlroute_first_fault(family as u32, bytes.as_ptr(), bytes.len(), &mut fault)
    })?;
    Ok(fault)
}

/// Writes the report for an input to the start of `out`. Returns its length and the exit status.
pub fn report(family: Family, text: &str, out: &mut [u8]) -> Result<(usize, u8), Refusal> {
    let (at, room, mut status) = (out.as_mut_ptr(), out.len(), 0);
    let code = unsafe {
        sys::nlroute_report(
            family as u32,
            text.as_ptr(),
            text.len(),
            at,
            room,
            &mut status,
        )
    };
    Ok((answer(code)?, status))
}

fn check(holds: bool, what: &str) -> bool {
    println!("{} {what}", if holds { "ok" } else { "FAILED" });
    holds
}

fn main() {
    // `ip link add bond0 type bond mode 802.3ad miimon 100`, with the nested flag in the second attribute's type
    let request = [5, 0, 1, 0, 4, 0, 0, 0, 8, 0, 3, 0x80, 100, 0, 0, 0];
    let mut wanted = request;
    wanted[11] = 0;
    let mut out = [0xFF; 24];
    let mut holds = check(
        rewrite(Family::Bond, &request, &mut out[..15]) == Err(Refusal::NoRoom),
        "no room",
    );
    holds &= check(out == [0xFF; 24], "and nothing written");
    holds &= check(
        rewrite(Family::Bond, &request, &mut out) == Ok(16),
        "a request is rewritten",
    );
    holds &= check(
        out[..16] == wanted && out[16..] == [0xFF; 8],
        "without its flag",
    );
    let mut lent = [0xFF; 24];
    holds &= check(
        rewrite_streaming(Family::Bond, &request, &mut lent) == Ok(16) && lent == out,
        "value by value likewise",
    );
    holds &= check(
        !is_canonical(Family::Bond, &request) && is_canonical(Family::Bond, &wanted),
        "what is written is canonical",
    );
    holds &= check(count(Family::Bond, &request) == Ok(2), "it has two values");
    holds &= check(count(Family::Bond, &[]) == Ok(0), "an empty slice has none");
    holds &= check(
        count(Family::Dsa, &request) == Err(Refusal::HasFault),
        "it is none of DSA",
    );
    holds &= check(
        first_fault(Family::Bond, &request) == Err(Refusal::Absent),
        "it has no fault",
    );
    let fault = Fault {
        at: 0,
        first: 4,
        second: 1,
        place: 1,
        kind: 1,
        inner: 0,
        cause: 4,
    };
    holds &= check(
        first_fault(Family::Dsa, &request) == Ok(fault),
        "of DSA it has one, at 0: kind 1: wrong length 4 1",
    );
    let mut text = [0; 64];
    let reported = report(Family::Dsa, "05000100 04000000", &mut text);
    holds &= check(reported == Ok((37, 1)), "which is reported with status 1");
    holds &= check(
        text.starts_with(b"fault at 0: kind 1: wrong length 4 1\n"),
        "in these words",
    );
    std::process::exit(!holds as i32);
}
