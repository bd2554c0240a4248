//! Each of the five calls by every number that it can answer, on buffers exact, one short, longer and empty, full of
//! whatever was there before. The numbers are typed from document 01; the final bytes are the matcher's.

mod common;

use common::{both, followed};
use satchelram_host::matcher::calls::Outcome;
use satchelram_host::matcher::sheet::write;
use std::collections::BTreeSet;

/// What a buffer may be full of before a call.
const FILLS: [u8; 4] = [0x00, 0x01, 0xEE, 0xFF];

/// Room for what is needed and beyond.
fn enough(needed: usize) -> Vec<usize> {
    vec![needed, needed + 1, needed + 70]
}

/// Less than what is needed, which is at least 1.
fn short(needed: usize) -> Vec<usize> {
    vec![needed - 1, needed / 2, 0]
}

// The sheet call.

/// A text for each number but 18, with the second number.
fn texts() -> Vec<(u8, usize, Vec<u8>)> {
    vec![
        (0, 5, b"a".to_vec()),
        (0, 12, b"(a|(ba))*".to_vec()),
        (0, 378, followed(&[b'a'; 120], b'*', 16)),
        (10, 512, followed(b"", b'a', 513)),
        (10, 512, followed(b"", 0xFF, 5000)),
        (11, 1, b"a\x01".to_vec()),
        (11, 2, b"a|\\".to_vec()),
        (12, 0, b"".to_vec()),
        (12, 2, b"a|*".to_vec()),
        (13, 0, b")".to_vec()),
        (14, 3, b"(a|".to_vec()),
        (15, 32, followed(b"", b'(', 33)),
        (16, 8, b"a{99,99}b{22,22}".to_vec()),
        (17, 7, b"a{0,65}".to_vec()),
        (17, 256, followed(b"a", b'*', 255)),
        (19, 2, b"a*{1,2}".to_vec()),
        (19, 1, b"a{2,1}".to_vec()),
    ]
}

#[test]
fn sheet_call() {
    let mut met = BTreeSet::new();
    for (number, second, text) in texts() {
        let needed = if number == 0 { second } else { 378 };
        for room in enough(needed).into_iter().chain(short(needed)) {
            let number = if number == 0 && room < needed {
                18
            } else {
                number
            };
            for fill in FILLS {
                let outcome = both::sheet(&text, &vec![fill; room]);
                assert_eq!(
                    (outcome.number, outcome.second),
                    (number, second),
                    "{:?}",
                    text
                );
            }
            met.insert(number);
        }
    }
    assert_eq!(
        met,
        BTreeSet::from([0, 10, 11, 12, 13, 14, 15, 16, 17, 18, 19])
    );
}

// The name calls.

/// What is lent, and the numbers of accept, first, next and check.
struct Case {
    sheet: Vec<u8>,
    name: Vec<u8>,
    /// The front of the mapping.
    given: Vec<u8>,
    mappings: Vec<usize>,
    works: Vec<usize>,
    numbers: [u8; 4],
}

fn case(sheet: &[u8], name: &[u8], given: &[u8], numbers: [u8; 4]) -> Case {
    Case {
        sheet: sheet.to_vec(),
        name: name.to_vec(),
        given: given.to_vec(),
        mappings: enough(name.len()),
        works: enough(64 * (name.len() + 1)),
        numbers,
    }
}

/// The sheet of `(a|a)*`.
const TWO: [u8; 9] = [1, 2, b'a', b'a', 4, 0, 0, 3, 4];

fn searches() -> Vec<Case> {
    vec![
        case(&TWO, b"aa", &[1, 2], [0, 0, 0, 0]),
        case(&TWO, b"aa", &[2, 2], [0, 0, 1, 0]),
        case(&TWO, b"aa", &[0, 1], [0, 0, 33, 1]),
        case(&TWO, b"aa", &[1, 3], [0, 0, 33, 1]),
        case(&TWO, b"ab", &[1, 2], [1, 1, 33, 1]),
        case(&TWO, b"", &[], [0, 0, 1, 0]),
        case(&[1, 1, b'a', 1, 0], b"", &[], [1, 1, 33, 1]),
        case(&TWO, &[b'a'; 255], &[2; 255], [0, 0, 1, 0]),
    ]
}

fn refused_sheets() -> Vec<Case> {
    let sheets = [
        (20, vec![]),
        (20, vec![2, 1, b'a', 1, 0]),
        (21, vec![1, 1, b'a']),
        (21, followed(&TWO, 0, 1)),
        (22, write(&[b'a'; 121], &[])),
        (23, write(b"\x7F", &[0])),
        (23, write(b"a", &[0, 5])),
        (24, write(b"a", &[0, 2])),
        (25, write(b"aa", &[0, 0])),
        (27, write(b"a", &[1])),
    ];
    let refused = |(number, sheet): &(u8, Vec<u8>)| case(sheet, b"aa", &[1, 1], [*number; 4]);
    sheets.iter().map(refused).collect()
}

fn refused_buffers() -> Vec<Case> {
    let mut long = case(&TWO, &[b'a'; 256], &[1; 256], [30; 4]);
    long.mappings.extend(short(256));
    long.works.extend(short(64 * 257));
    let mut mapping = case(&TWO, b"aa", &[1, 1], [0, 31, 31, 31]);
    mapping.mappings = short(2);
    let mut work = case(&TWO, b"aa", &[0, 0], [32; 4]);
    work.works = short(64 * 3);
    let mut neither = case(&TWO, b"aa", &[1, 1], [32, 31, 31, 31]);
    neither.mappings = short(2);
    neither.works = short(64 * 3);
    let mut no_name = case(&TWO, b"", &[], [32; 4]);
    no_name.works = short(64);
    vec![long, mapping, work, neither, no_name]
}

/// All four calls on one size of the buffers, with each fill.
fn answered(case: &Case, mapping_length: usize, work_length: usize) {
    for fill in FILLS {
        let mut mapping = case.given.clone();
        mapping.resize(mapping_length.max(mapping.len()), fill);
        mapping.truncate(mapping_length);
        let work = vec![fill; work_length];
        let (sheet, name) = (&case.sheet, &case.name);
        let outcomes: [Outcome; 4] = [
            both::accept(sheet, name, &work),
            both::first(sheet, name, &mapping, &work),
            both::next(sheet, name, &mapping, &work),
            both::check(sheet, name, &mapping, &work),
        ];
        let numbers = outcomes.map(|outcome| {
            assert_eq!(outcome.second, 0);
            outcome.number
        });
        assert_eq!(
            numbers, case.numbers,
            "{:?} {:?} {:?}",
            sheet, name, mapping
        );
    }
}

#[test]
fn name_calls() {
    let mut met: [BTreeSet<u8>; 4] = Default::default();
    let cases = [searches(), refused_sheets(), refused_buffers()];
    for case in cases.iter().flatten() {
        for &mapping in &case.mappings {
            for &work in &case.works {
                answered(case, mapping, work);
            }
        }
        for (met, number) in met.iter_mut().zip(case.numbers) {
            met.insert(number);
        }
    }
    let accept = BTreeSet::from([0, 1, 20, 21, 22, 23, 24, 25, 27, 30, 32]);
    let mut first = accept.clone();
    first.insert(31);
    let mut next = first.clone();
    next.insert(33);
    assert_eq!(met, [accept, first.clone(), next, first]);
}
