//! Hex digits, and the lists of runs/plain with what nlshow has to print for them.

use nlroute::Family;
use std::fs;
use std::path::{Path, PathBuf};

/// Returns a file of the repository.
pub fn in_repository(path: &str) -> PathBuf {
    Path::new(env!("CARGO_MANIFEST_DIR")).join("../..").join(path)
}

/// Returns the bytes of hex digits; blanks are skipped.
pub fn hex(text: &str) -> Option<Vec<u8>> {
    let digits: Option<Vec<u8>> =
        text.chars().filter(|it| !it.is_whitespace()).map(|it| it.to_digit(16).map(|it| it as u8)).collect();
    digits.filter(|it| it.len() % 2 == 0).map(|it| it.chunks(2).map(|pair| pair[0] << 4 | pair[1]).collect())
}

/// A list of a run, with the lines that are expected for it, without their indentation.
#[derive(Debug)]
pub struct Case {
    pub place: String,
    pub family: Family,
    pub bytes: Vec<u8>,
    pub lines: Vec<String>,
}

/// Returns the lists of all runs of the plain form. They were worked out from the kernel's headers.
pub fn cases() -> Vec<Case> {
    let folder = in_repository("runs/plain");
    let mut found = Vec::new();
    for entry in fs::read_dir(folder).expect("runs/plain is in this repository") {
        let path = entry.expect("it can be read").path();
        let text = fs::read(&path).expect("a run is a file");
        cases_of(&path.display().to_string(), &String::from_utf8_lossy(&text), &mut found);
    }
    found
}

/// Adds the lists of a run. `> FAMILY HEX` is a line of input; lines with two blanks are its output.
fn cases_of(path: &str, text: &str, found: &mut Vec<Case>) {
    let mut is_list = false;
    for (number, line) in text.lines().enumerate() {
        if let Some((family, digits)) = line.strip_prefix("> ").and_then(|it| it.split_once(' ')) {
            let list = Family::from_name(family).zip(hex(digits));
            is_list = list.is_some();
            found.extend(list.map(|(family, bytes)| Case {
                place: format!("{path}:{}", number + 1),
                family,
                bytes,
                lines: Vec::new(),
            }));
        } else if let (true, Some(output), Some(case)) = (is_list, line.strip_prefix("  "), found.last_mut()) {
            case.lines.push(output.to_string());
        } else {
            is_list = false;
        }
    }
}
