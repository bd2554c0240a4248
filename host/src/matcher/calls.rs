//! What each of the five calls owes for every input: its numbers and the final bytes of all it was lent.

use super::limits::*;
use super::member;
use super::readings;
use super::sheet::{self, Tree};
use super::text;

/// What a call answers and leaves behind. A buffer that the call does not take is empty here.
#[derive(Clone, Debug, Default, PartialEq, Eq)]
pub struct Outcome {
    pub number: u8,
    pub second: usize,
    pub sheet: Vec<u8>,
    pub mapping: Vec<u8>,
    pub work: Vec<u8>,
}

impl Outcome {
    /// The one number that the exported form returns. Its third part is 0 for these five calls.
    pub fn packed(&self) -> u64 {
        u64::from(self.number) + ((self.second as u64) << SECOND_SHIFT)
    }
}

/// Bytes of the work area that a name of this length asks for.
pub fn work_needed(name_length: usize) -> usize {
    name_length.saturating_add(1).saturating_mul(ROW)
}

pub fn sheet(text: &[u8], sheet: &[u8]) -> Outcome {
    let (number, second, made) = match text::sheet_of(text) {
        Err(refusal) => (refusal.number, refusal.place, Vec::new()),
        Ok(made) if made.len() > sheet.len() => (SHEET_SHORT, made.len(), Vec::new()),
        Ok(made) => (DONE, made.len(), made),
    };
    Outcome {
        number,
        second,
        sheet: padded(made, sheet.len()),
        ..Outcome::default()
    }
}

pub fn accept(sheet: &[u8], name: &[u8], work: &[u8]) -> Outcome {
    let searched = admitted(sheet, name, None, work).map(|tree| {
        if member::accepts(&tree, name) {
            DONE
        } else {
            NO
        }
    });
    settled(searched, Vec::new(), name, work)
}

pub fn first(sheet: &[u8], name: &[u8], mapping: &[u8], work: &[u8]) -> Outcome {
    match admitted(sheet, name, Some(mapping), work) {
        Err(refused) => settled(Err(refused), wiped(mapping), name, work),
        Ok(tree) => found_or_no(readings::first(&tree, name), mapping, name, work),
    }
}

pub fn next(sheet: &[u8], name: &[u8], mapping: &[u8], work: &[u8]) -> Outcome {
    let tree = match admitted(sheet, name, Some(mapping), work) {
        Err(refused) => return settled(Err(refused), wiped(mapping), name, work),
        Ok(tree) => tree,
    };
    let given = sequence(mapping, name);
    if member::is_reading(&tree, name, given) {
        let later = readings::after(&tree, name, given);
        found_or_no(later, mapping, name, work)
    } else {
        settled(Ok(NO_READING), wiped(mapping), name, work)
    }
}

pub fn check(sheet: &[u8], name: &[u8], mapping: &[u8], work: &[u8]) -> Outcome {
    let searched = admitted(sheet, name, Some(mapping), work).map(|tree| {
        if member::is_reading(&tree, name, sequence(mapping, name)) {
            DONE
        } else {
            NO
        }
    });
    settled(searched, mapping.to_vec(), name, work)
}

/// The tree, if none of 20 to 32 stands in the way of the search.
fn admitted(sheet: &[u8], name: &[u8], mapping: Option<&[u8]>, work: &[u8]) -> Result<Tree, u8> {
    let tree = sheet::read(sheet)?;
    if name.len() > NAME_MOST {
        return Err(NAME_LONG);
    }
    if mapping.map_or(false, |mapping| mapping.len() < name.len()) {
        return Err(MAPPING_SHORT);
    }
    if work.len() < work_needed(name.len()) {
        return Err(WORK_SHORT);
    }
    Ok(tree)
}

fn found_or_no(found: Option<Vec<u8>>, mapping: &[u8], name: &[u8], work: &[u8]) -> Outcome {
    match found {
        Some(reading) => settled(Ok(DONE), padded(reading, mapping.len()), name, work),
        None => settled(Ok(NO), wiped(mapping), name, work),
    }
}

/// A search, whatever it answered, zeroes the rows; a refusal before it leaves them.
fn settled(searched: Result<u8, u8>, mapping: Vec<u8>, name: &[u8], work: &[u8]) -> Outcome {
    let mut work = work.to_vec();
    if searched.is_ok() {
        let rows = work.iter_mut().take(work_needed(name.len()));
        rows.for_each(|byte| *byte = 0);
    }
    Outcome {
        number: searched.unwrap_or_else(|refused| refused),
        mapping,
        work,
        ..Outcome::default()
    }
}

fn sequence<'a>(mapping: &'a [u8], name: &[u8]) -> &'a [u8] {
    mapping.get(..name.len()).unwrap_or(mapping)
}

fn wiped(buffer: &[u8]) -> Vec<u8> {
    vec![0; buffer.len()]
}

fn padded(mut bytes: Vec<u8>, length: usize) -> Vec<u8> {
    bytes.resize(length, 0);
    bytes
}
