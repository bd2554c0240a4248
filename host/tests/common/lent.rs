//! The archive's calls, each on buffers that stand between canaries, with what they answer and leave as the matcher's
//! outcomes. What is lent to be read must come back as it was.

use satchelram_host::archive::{self, Answer};
use satchelram_host::matcher::calls::Outcome;

/// Bytes on each side of a buffer. An odd number, so that buffers stand at odd addresses.
const CANARIES: usize = 33;

struct Lent {
    whole: Vec<u8>,
}

fn canary(index: usize) -> u8 {
    (index as u8).wrapping_mul(57) ^ 0xC5
}

impl Lent {
    fn new(bytes: &[u8]) -> Lent {
        let mut whole: Vec<u8> = (0..bytes.len() + 2 * CANARIES).map(canary).collect();
        whole[CANARIES..][..bytes.len()].copy_from_slice(bytes);
        Lent { whole }
    }

    fn bytes(&mut self) -> &mut [u8] {
        let end = self.whole.len() - CANARIES;
        &mut self.whole[CANARIES..end]
    }

    /// The bytes as they are after a call that may write them.
    fn after(mut self) -> Vec<u8> {
        let end = self.whole.len() - CANARIES;
        let same = |index: usize| self.whole[index] == canary(index);
        assert!((0..CANARIES).all(same), "written before a buffer");
        assert!(
            (end..self.whole.len()).all(same),
            "written behind a buffer of {}",
            end - CANARIES
        );
        self.bytes().to_vec()
    }

    /// After a call that only reads them.
    fn unchanged(self, bytes: &[u8]) {
        assert_eq!(self.after(), bytes, "what is lent to be read has changed");
    }
}

fn outcome(answer: Answer) -> Outcome {
    assert_eq!(answer.third, 0);
    Outcome {
        number: answer.number,
        second: answer.second as usize,
        ..Outcome::default()
    }
}

pub fn sheet(text: &[u8], sheet: &[u8]) -> Outcome {
    let (mut lent_text, mut lent_sheet) = (Lent::new(text), Lent::new(sheet));
    let answer = archive::sheet(lent_text.bytes(), lent_sheet.bytes());
    lent_text.unchanged(text);
    Outcome {
        sheet: lent_sheet.after(),
        ..outcome(answer)
    }
}

pub fn accept(sheet: &[u8], name: &[u8], work: &[u8]) -> Outcome {
    let (mut lent_sheet, mut lent_name) = (Lent::new(sheet), Lent::new(name));
    let mut lent_work = Lent::new(work);
    let answer = archive::accept(lent_sheet.bytes(), lent_name.bytes(), lent_work.bytes());
    lent_sheet.unchanged(sheet);
    lent_name.unchanged(name);
    Outcome {
        work: lent_work.after(),
        ..outcome(answer)
    }
}

pub fn first(sheet: &[u8], name: &[u8], mapping: &[u8], work: &[u8]) -> Outcome {
    mapped(archive::first, sheet, name, mapping, work)
}

pub fn next(sheet: &[u8], name: &[u8], mapping: &[u8], work: &[u8]) -> Outcome {
    mapped(archive::next, sheet, name, mapping, work)
}

pub fn check(sheet: &[u8], name: &[u8], mapping: &[u8], work: &[u8]) -> Outcome {
    let call = |sheet: &[u8], name: &[u8], mapping: &mut [u8], work: &mut [u8]| {
        archive::check(sheet, name, mapping, work)
    };
    let outcome = mapped(call, sheet, name, mapping, work);
    assert_eq!(outcome.mapping, mapping, "check has changed its mapping");
    outcome
}

/// A call with a mapping.
fn mapped(
    call: impl Fn(&[u8], &[u8], &mut [u8], &mut [u8]) -> Answer,
    sheet: &[u8],
    name: &[u8],
    mapping: &[u8],
    work: &[u8],
) -> Outcome {
    let (mut lent_sheet, mut lent_name) = (Lent::new(sheet), Lent::new(name));
    let (mut lent_mapping, mut lent_work) = (Lent::new(mapping), Lent::new(work));
    let answer = call(
        lent_sheet.bytes(),
        lent_name.bytes(),
        lent_mapping.bytes(),
        lent_work.bytes(),
    );
    lent_sheet.unchanged(sheet);
    lent_name.unchanged(name);
    Outcome {
        mapping: lent_mapping.after(),
        work: lent_work.after(),
        ..outcome(answer)
    }
}
