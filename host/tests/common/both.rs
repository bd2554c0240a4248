//! The five calls made of the archive and of the matcher: the outcomes must be the same in every number and byte.

use super::lent;
use satchelram_host::matcher::calls::{self, Outcome};

fn agreed(archive: Outcome, matcher: Outcome, call: &str, lent: &[&[u8]]) -> Outcome {
    assert_eq!(
        archive, matcher,
        "left is the archive's, for {} {:?}",
        call, lent
    );
    archive
}

pub fn sheet(text: &[u8], sheet: &[u8]) -> Outcome {
    let archive = lent::sheet(text, sheet);
    agreed(archive, calls::sheet(text, sheet), "sheet", &[text, sheet])
}

pub fn accept(sheet: &[u8], name: &[u8], work: &[u8]) -> Outcome {
    let archive = lent::accept(sheet, name, work);
    let matcher = calls::accept(sheet, name, work);
    agreed(archive, matcher, "accept", &[sheet, name, work])
}

pub fn first(sheet: &[u8], name: &[u8], mapping: &[u8], work: &[u8]) -> Outcome {
    let archive = lent::first(sheet, name, mapping, work);
    let matcher = calls::first(sheet, name, mapping, work);
    agreed(archive, matcher, "first", &[sheet, name, mapping, work])
}

pub fn next(sheet: &[u8], name: &[u8], mapping: &[u8], work: &[u8]) -> Outcome {
    let archive = lent::next(sheet, name, mapping, work);
    let matcher = calls::next(sheet, name, mapping, work);
    agreed(archive, matcher, "next", &[sheet, name, mapping, work])
}

pub fn check(sheet: &[u8], name: &[u8], mapping: &[u8], work: &[u8]) -> Outcome {
    let archive = lent::check(sheet, name, mapping, work);
    let matcher = calls::check(sheet, name, mapping, work);
    agreed(archive, matcher, "check", &[sheet, name, mapping, work])
}
