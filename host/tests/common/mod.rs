//! Shorthands for the tests: the calls with roomy buffers full of garbage.

#![allow(dead_code)]

use satchelram_host::matcher::calls::Outcome;

#[cfg(feature = "archive")]
pub mod both;
#[cfg(feature = "archive")]
pub mod lent;
pub mod options;

/// The calls that the tests make: the matcher's, and with an archive the archive's too, which must agree.
#[cfg(feature = "archive")]
pub use both as calls;
#[cfg(not(feature = "archive"))]
pub use satchelram_host::matcher::calls;

pub const GARBAGE: u8 = 0xEE;
/// Bytes that every buffer has beyond what is asked of it.
pub const SPARE: usize = 5;
/// Room for any sheet: 3 + 120 + 255.
pub const SHEET_MOST: usize = 378;

pub fn garbage(length: usize) -> Vec<u8> {
    vec![GARBAGE; length]
}

pub fn work_for(name: &[u8]) -> Vec<u8> {
    garbage(64 * (name.len() + 1) + SPARE)
}

/// The work area of `work_for` after a search: its rows zero, the rest as it was.
pub fn work_searched(name: &[u8]) -> Vec<u8> {
    let mut work = vec![0; 64 * (name.len() + 1)];
    work.extend(garbage(SPARE));
    work
}

/// The sheet of a text that must be made.
pub fn sheet_of(text: &[u8]) -> Vec<u8> {
    let outcome = calls::sheet(text, &garbage(SHEET_MOST + SPARE));
    assert_eq!(outcome.number, 0, "{:?} is refused", shown(text));
    let (sheet, rest) = outcome.sheet.split_at(outcome.second);
    assert!(rest.iter().all(|&byte| byte == 0));
    assert_eq!(outcome.sheet.len(), SHEET_MOST + SPARE);
    sheet.to_vec()
}

/// The text must be refused so, with the whole sheet buffer zero.
pub fn assert_refused(text: &[u8], number: u8, place: usize) {
    let outcome = calls::sheet(text, &garbage(SHEET_MOST + SPARE));
    let answer = (outcome.number, outcome.second);
    assert_eq!(answer, (number, place), "{:?}", shown(text));
    assert_eq!(outcome.sheet, vec![0; SHEET_MOST + SPARE]);
}

/// The node bytes of the sheet of a text.
pub fn nodes_of(text: &[u8]) -> Vec<u8> {
    let sheet = sheet_of(text);
    sheet[3 + usize::from(sheet[1])..].to_vec()
}

/// The text's readings of the name, by first and then next, must be these and no more.
pub fn assert_readings(text: &[u8], name: &[u8], expected: &[&[u8]]) {
    let sheet = sheet_of(text);
    let mut mapping = garbage(name.len() + SPARE);
    let accepted = calls::accept(&sheet, name, &work_for(name));
    assert_eq!(accepted.number, u8::from(expected.is_empty()));
    for (index, reading) in expected.iter().enumerate() {
        let outcome = if index == 0 {
            calls::first(&sheet, name, &mapping, &work_for(name))
        } else {
            // What lies behind the sequence must not matter.
            mapping[name.len()..].fill(GARBAGE);
            calls::next(&sheet, name, &mapping, &work_for(name))
        };
        let mut found = reading.to_vec();
        found.extend([0; SPARE]);
        assert_eq!((outcome.number, &outcome.mapping), (0, &found));
        assert_eq!(outcome.work, work_searched(name));
        let checked = calls::check(&sheet, name, &outcome.mapping, &work_for(name));
        assert_eq!(checked.number, 0);
        mapping = outcome.mapping;
    }
    let last = if expected.is_empty() {
        calls::first(&sheet, name, &mapping, &work_for(name))
    } else {
        calls::next(&sheet, name, &mapping, &work_for(name))
    };
    assert_searched(&last, 1, name, name.len() + SPARE);
}

/// A search over buffers of this file that found nothing: the mapping and the rows are zero.
pub fn assert_searched(outcome: &Outcome, number: u8, name: &[u8], mapping_length: usize) {
    assert_eq!((outcome.number, outcome.second), (number, 0));
    assert_eq!(outcome.mapping, vec![0; mapping_length]);
    assert_eq!(outcome.work, work_searched(name));
}

pub fn shown(text: &[u8]) -> String {
    String::from_utf8_lossy(text).into_owned()
}

/// A text, then a byte so many times.
pub fn followed(text: &[u8], byte: u8, times: usize) -> Vec<u8> {
    let mut text = text.to_vec();
    text.resize(text.len() + times, byte);
    text
}
