//! Random and damaged inputs: all that the archive answers, against the matcher. A failure tells its seed.

mod common;

use common::{both, options};
use satchelram_host::generate::random::Random;
use satchelram_host::generate::{names, sheets, texts};
use satchelram_host::matcher::limits::{DONE, NAME_MOST, NODES_MOST, NO_READING, TEXT_MOST};
use satchelram_host::matcher::readings;
use satchelram_host::matcher::sheet::{read, Tree};

/// One letter makes the most readings, many letters the fewest.
fn letters(random: &mut Random) -> &'static [u8] {
    match random.below(4) {
        0 => b"a",
        1 | 2 => b"ab",
        _ => b"ab 01~|*()\\{}",
    }
}

/// A length near what is needed, on either side, or any.
fn near(random: &mut Random, needed: usize) -> usize {
    match random.below(6) {
        0 => needed,
        1 => needed.saturating_sub(1),
        2 => needed + 1,
        3 => random.below(needed + 1),
        _ => needed + random.below(100),
    }
}

fn tree_of(sheet: &[u8]) -> Tree {
    read(sheet).expect("a valid sheet")
}

#[test]
fn texts_are_made_or_refused() {
    options::rounds(100_000, |random| {
        let letters = letters(random);
        let most = if random.one_in(4) { TEXT_MOST } else { 40 };
        let text = if random.one_in(2) {
            texts::text(random, letters, most)
        } else {
            texts::damaged_text(random, letters, most)
        };
        let outcome = both::sheet(&text, &random.bytes(400));
        let needed = if outcome.number == DONE {
            outcome.second
        } else {
            40
        };
        let length = near(random, needed);
        both::sheet(&text, &random.bytes(length));
    });
}

#[test]
fn texts_of_any_bytes_are_refused_alike() {
    options::rounds(20_000, |random| {
        let length = random.below(TEXT_MOST + 3);
        let text = random.bytes(length);
        both::sheet(&text, &random.bytes(30));
    });
}

/// All four name calls on a sheet and a name, with buffers of lengths around what they need.
fn called(random: &mut Random, sheet: &[u8], tree: &Tree, name: &[u8]) {
    let length = near(random, name.len());
    let mapping = names::mapping(random, tree, name, length);
    let length = near(random, 64 * (name.len() + 1));
    let work = random.bytes(length);
    both::accept(sheet, name, &work);
    both::first(sheet, name, &mapping, &work);
    both::next(sheet, name, &mapping, &work);
    both::check(sheet, name, &mapping, &work);
}

#[test]
fn names_are_answered() {
    options::rounds(100_000, |random| {
        let letters = letters(random);
        let valid = sheets::sheet(random, letters, 20);
        let tree = tree_of(&valid);
        let most = if random.one_in(100) { 300 } else { 8 };
        let name = names::name(random, &tree, letters, most);
        if random.one_in(3) {
            let damaged = sheets::damaged_sheet(random, letters, 20);
            called(random, &damaged, &tree, &name);
        } else {
            called(random, &valid, &tree, &name);
        }
    });
}

/// The first `most` readings by first and next, against those that the matcher lists at once.
fn walked(random: &mut Random, sheet: &[u8], tree: &Tree, name: &[u8], most: usize) {
    let work = random.bytes(64 * (name.len() + 1) + 3);
    let mut outcome = common::lent::first(sheet, name, &random.bytes(name.len() + 3), &work);
    let expected = readings::few(tree, name, most + 1);
    for reading in expected.iter().take(most) {
        assert_eq!(outcome.number, DONE, "{:?} {:?}", sheet, name);
        let (front, rest) = outcome.mapping.split_at(name.len());
        assert_eq!(
            (front, rest),
            (&reading[..], &[0; 3][..]),
            "{:?} {:?}",
            sheet,
            name
        );
        outcome = common::lent::next(sheet, name, &outcome.mapping, &work);
    }
    if expected.len() <= most {
        assert_eq!(outcome.number, 1, "{:?} {:?}", sheet, name);
        assert!(outcome.mapping.iter().all(|&entry| entry == 0));
        let again = common::lent::next(sheet, name, &outcome.mapping, &work);
        assert!(name.is_empty() || again.number == NO_READING);
    }
}

#[test]
fn readings_follow_one_another() {
    options::rounds(5_000, |random| {
        let letters = letters(random);
        let sheet = sheets::sheet(random, letters, 30);
        let tree = tree_of(&sheet);
        let name = names::name(random, &tree, letters, 12);
        walked(random, &sheet, &tree, &name, 200);
    });
}

#[test]
fn sheets_and_names_of_full_size() {
    options::rounds(150, |random| {
        let letters = letters(random);
        let sheet = sheets::sheet(random, letters, NODES_MOST);
        let tree = tree_of(&sheet);
        let name = names::name(random, &tree, letters, NAME_MOST);
        called(random, &sheet, &tree, &name);
        walked(random, &sheet, &tree, &name, 10);
    });
}

/// From a text through its sheet to the readings of a name.
#[test]
fn texts_are_read() {
    options::rounds(5_000, |random| {
        let letters = letters(random);
        let text = texts::text(random, letters, 60);
        let outcome = both::sheet(&text, &random.bytes(400));
        if outcome.number == DONE {
            let sheet = &outcome.sheet[..outcome.second];
            let tree = tree_of(sheet);
            let name = names::name(random, &tree, letters, 12);
            walked(random, sheet, &tree, &name, 50);
        }
    });
}
