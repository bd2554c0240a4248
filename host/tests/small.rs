//! Every small input: all that the archive answers, against the matcher.

mod common;

use common::{both, garbage, lent, options, work_for, work_searched, SHEET_MOST, SPARE};
use satchelram_host::generate::every;
use satchelram_host::matcher::calls::Outcome;
use satchelram_host::matcher::limits::{DONE, NO, NO_READING};
use satchelram_host::matcher::sheet::{read, Tree};
use satchelram_host::matcher::{member, readings};

fn tree_of(sheet: &[u8]) -> Tree {
    read(sheet).expect("a valid sheet")
}

/// The outcome of a search over `work_for` that leaves this mapping.
fn searched(number: u8, name: &[u8], mapping: Vec<u8>) -> Outcome {
    Outcome {
        number,
        mapping,
        work: work_searched(name),
        ..Outcome::default()
    }
}

fn found(name: &[u8], reading: &[u8], spare: usize) -> Outcome {
    let mut mapping = reading.to_vec();
    mapping.resize(reading.len() + spare, 0);
    searched(DONE, name, mapping)
}

/// All readings in order by first and next, each checked; then "no more", and what is said after that.
fn assert_walked(sheet: &[u8], tree: &Tree, name: &[u8], spare: usize) {
    let work = work_for(name);
    let expected = readings::all(tree, name);
    let accepted = u8::from(expected.is_empty());
    let outcome = lent::accept(sheet, name, &work);
    assert_eq!(outcome, searched(accepted, name, Vec::new()));
    assert_eq!(member::accepts(tree, name), !expected.is_empty());

    let mut outcome = lent::first(sheet, name, &garbage(name.len() + spare), &work);
    for reading in &expected {
        assert_eq!(
            outcome,
            found(name, reading, spare),
            "{:?} {:?}",
            sheet,
            name
        );
        let checked = lent::check(sheet, name, &outcome.mapping, &work);
        assert_eq!(checked, outcome);
        outcome = lent::next(sheet, name, &outcome.mapping, &work);
    }
    let nothing = vec![0; name.len() + spare];
    assert_eq!(
        outcome,
        searched(NO, name, nothing.clone()),
        "{:?} {:?}",
        sheet,
        name
    );

    let again = lent::next(sheet, name, &outcome.mapping, &work);
    let still = name.is_empty() && !expected.is_empty();
    let number = if still { NO } else { NO_READING };
    assert_eq!(again, searched(number, name, nothing));
}

#[test]
fn every_small_sheet_reads_every_short_name() {
    let (nodes, length) = if options::long() { (8, 6) } else { (7, 5) };
    let names: Vec<Vec<u8>> = every::words(b"ab", length).collect();
    for sheet in every::sheets(b"ab", nodes) {
        let tree = tree_of(&sheet);
        for name in &names {
            assert_walked(&sheet, &tree, name, 1);
        }
    }
}

/// Bytes that no leaf has, and mappings of the very length.
#[test]
fn every_smaller_sheet_reads_names_of_strange_bytes() {
    let names: Vec<Vec<u8>> = every::words(b"ab\x00\xFF", 4).collect();
    for sheet in every::sheets(b"ab", 5) {
        let tree = tree_of(&sheet);
        for name in &names {
            assert_walked(&sheet, &tree, name, 0);
        }
    }
}

/// Every sequence, of positions or not, given to next and check.
#[test]
fn every_sequence_is_a_reading_or_not() {
    let nodes = if options::long() { 6 } else { 5 };
    for sheet in every::sheets(b"ab", nodes) {
        let entries: Vec<u8> = (0..=tree_of(&sheet).leaves() as u8 + 1).collect();
        for name in every::words(b"ab", 3) {
            let work = work_for(&name);
            for given in every::words_of(&entries, name.len()) {
                both::next(&sheet, &name, &given, &work);
                both::check(&sheet, &name, &given, &work);
            }
        }
    }
}

#[test]
fn every_short_text_is_made_or_refused() {
    let most = if options::long() { 6 } else { 5 };
    let room = garbage(SHEET_MOST + SPARE);
    for text in every::words(b"ab|*()\\{},01", most) {
        let outcome = both::sheet(&text, &room);
        if outcome.number == DONE {
            both::sheet(&text, &room[..outcome.second]);
            both::sheet(&text, &room[..outcome.second - 1]);
        }
    }
}

/// Every short run of bytes taken for a sheet.
#[test]
fn every_short_sheet_is_tested() {
    let work = work_for(b"a");
    for sheet in every::words(&[0, 1, 2, 3, 4, 5, b'a'], 6) {
        both::accept(&sheet, b"a", &work);
        both::first(&sheet, b"a", &[7, 7], &work);
        both::next(&sheet, b"a", &[1, 7], &work);
        both::check(&sheet, b"a", &[1, 7], &work);
    }
}
