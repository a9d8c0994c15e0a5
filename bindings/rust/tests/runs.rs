//! Compares what lists print, their errors, and what is written, with the runs of nlshow and with `nlroute_rewrite()`.

mod common;

use common::{cases, hex, in_repository, Case};
use nlroute::{Any, Cause, Content, Family, List, Value};

extern "C" {
    fn nlroute_rewrite(family: u32, bytes: *const u8, len: usize, out: *mut u8, room: usize) -> isize;
}

/// Returns a list as the C library rewrites it, or its error code.
fn rewritten(family: Family, bytes: &[u8]) -> Result<Vec<u8>, isize> {
    let mut out = vec![0; (bytes.len() + 3) / 4 * 4];
    // SAFETY: the input is a slice, the output another one.
    let length = unsafe { nlroute_rewrite(family as u32, bytes.as_ptr(), bytes.len(), out.as_mut_ptr(), out.len()) };
    out.truncate(usize::try_from(length).map_err(|_| length)?);
    Ok(out)
}

/// Returns the lines that have to be printed, or the first error: nlshow also prints what follows it.
fn expected(case: &Case) -> Result<&[String], &str> {
    match case.lines.iter().find(|line| line.starts_with("error at ")) {
        Some(error) => Err(error),
        None => Ok(&case.lines),
    }
}

/// Returns whether nlshow prints the attributes of a list that a value or one of its elements holds: of another set.
fn is_opened(value: &Value<'_>, case: &Case) -> bool {
    let name = value.name();
    let mut lines = case.lines.iter().filter(|line| line.split_whitespace().next() == Some(name.as_str()));
    let is_held = matches!(value.content(), Content::Held(_) | Content::Peer(_));
    is_held && lines.any(|line| !line.ends_with(" not decoded)")) || value.elements().any(|it| is_opened(&it, case))
}

fn lines(list: &List<'_, Any>) -> Vec<String> {
    list.to_string().lines().map(str::to_string).collect()
}

#[test]
fn lists_print_as_nlshow_prints_them() {
    let cases = cases();
    assert!(cases.len() > 500, "there are {}", cases.len());
    for case in &cases {
        let read = List::read_any(case.family, &case.bytes);
        if matches!(&read, Ok(list) if list.iter().any(|value| is_opened(&value, case))) {
            continue;
        }
        match (read, expected(case)) {
            (Ok(list), Ok(expected)) => assert_eq!(lines(&list), expected, "{}", case.place),
            (Err(fault), Err(expected)) => {
                assert_eq!(fault.to_string(), expected, "{}", case.place);
                assert!(expected.starts_with(&format!("error at {}:", fault.at())), "{}", case.place);
            }
            (actual, _) => panic!("{}: {actual:?}", case.place),
        }
    }
}

#[test]
fn lists_are_written_as_nlroute_rewrite_writes_them() {
    for case in cases() {
        if let Ok(list) = List::read_any(case.family, &case.bytes) {
            let written = list.to_bytes().expect("all values that were read fit");
            assert_eq!(Ok(&written), rewritten(case.family, &case.bytes).as_ref(), "{}", case.place);
            let again = List::read_any(case.family, &written).expect("what is written is well-formed");
            assert_eq!(again.to_bytes().expect("all values fit").len(), written.len(), "{}", case.place);
            assert_eq!(list.clone(), list, "{}", case.place);
            assert_eq!(list.clone().into_owned(), list, "{}", case.place);
            assert!(!format!("{list:?}").is_empty());
        }
    }
}

#[test]
fn lists_of_the_benchmarks_are_written_unchanged() {
    // the first line has titles; each other one has the names of a list and of its set
    let table = std::fs::read_to_string(in_repository("bench/original.tsv")).expect("it is there");
    let rows = table.lines().skip(1).map(|line| line.split('\t').collect::<Vec<_>>());
    let mut count = 0;
    for row in rows {
        let (name, family) = (row[0], Family::from_name(row[1]).expect("it is a set"));
        let digits = match std::fs::read_to_string(in_repository(&format!("bench/lists/{name}.hex"))) {
            Ok(digits) => digits,
            Err(_) => continue, // make_lists.py makes this one
        };
        count += 1;
        let bytes = hex(&digits).expect("it has hex digits");
        let list = List::read_any(family, &bytes).expect("it is well-formed");
        assert_eq!(Ok(list.to_bytes().expect("all values fit")), rewritten(family, &bytes), "{name}");
    }
    assert_eq!(count, 9);
}

/// Calls what takes bytes from elsewhere, and compares it with the C library.
fn compare(family: Family, bytes: &[u8]) {
    match List::read_any(family, bytes) {
        Ok(list) => {
            assert_eq!(list.to_bytes().map_err(|_| -2), rewritten(family, bytes), "{family:?} {bytes:?}");
            assert!(list.iter().all(|value| !value.name().is_empty() && !format!("{value:?}").is_empty()));
        }
        Err(fault) => {
            assert_eq!(rewritten(family, bytes), Err(-1), "{family:?} {bytes:?}");
            assert!(fault.at() < bytes.len() && !fault.to_string().is_empty());
            assert!(!matches!(fault.cause(), Cause::Other(_)));
        }
    }
}

#[test]
fn lists_that_are_cut_off_or_changed() {
    let mut random = 1u32; // of a linear congruential generator
    for case in cases().iter().filter(|case| case.bytes.len() < 200) {
        for end in 0..case.bytes.len() {
            compare(case.family, &case.bytes[..end]);
            let mut changed = case.bytes.clone();
            random = random.wrapping_mul(1_664_525).wrapping_add(1_013_904_223);
            changed[end] = (random >> 24) as u8;
            compare(case.family, &changed);
            compare(Family::ALL[random as usize % Family::ALL.len()], &case.bytes);
        }
    }
}
