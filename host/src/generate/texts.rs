//! Random texts: well formed ones, some near a bound, and damaged ones.

use super::damage::damaged;
use super::random::Random;
use crate::matcher::limits::*;

/// A text that obeys the grammar, so that only the bounds on parentheses, leaves
/// and nodes may refuse it. It is at most `most` bytes long, if `most` is 2 or more.
pub fn text(random: &mut Random, letters: &[u8], most: usize) -> Vec<u8> {
    for _ in 0..8 {
        let mut maker = Maker {
            random: &mut *random,
            letters,
            most,
            text: Vec::new(),
        };
        maker.alternation(0);
        let text = maker.text;
        if text.len() <= most {
            return text;
        }
    }
    letter(random, letters, false)
}

/// A text with a few random edits, so that most are refused.
pub fn damaged_text(random: &mut Random, letters: &[u8], most: usize) -> Vec<u8> {
    let whole = text(random, letters, most);
    let mut likely = MARKS.to_vec();
    likely.extend(b"0,19");
    likely.extend(letters);
    damaged(random, &whole, &likely)
}

/// One literal as text; `marks` allows an escaped mark.
fn letter(random: &mut Random, letters: &[u8], marks: bool) -> Vec<u8> {
    let byte = if marks && random.one_in(8) {
        random.pick(&MARKS)
    } else {
        random.pick(letters)
    };
    if MARKS.contains(&byte) {
        vec![b'\\', byte]
    } else if LITERAL_BYTES.contains(&byte) {
        vec![byte]
    } else {
        vec![*LITERAL_BYTES.start()]
    }
}

struct Maker<'a> {
    random: &'a mut Random,
    letters: &'a [u8],
    most: usize,
    text: Vec<u8>,
}

impl Maker<'_> {
    /// No further choice is taken up once the text is long enough.
    fn wants(&mut self, chances: usize) -> bool {
        self.text.len() < self.most && self.random.one_in(chances)
    }

    fn alternation(&mut self, depth: usize) {
        self.sequence(depth);
        while self.wants(3) {
            self.text.push(b'|');
            self.sequence(depth);
        }
    }

    fn sequence(&mut self, depth: usize) {
        self.unit(depth);
        while !self.random.one_in(3) && self.text.len() < self.most {
            self.unit(depth);
        }
    }

    fn unit(&mut self, depth: usize) {
        match self.random.below(8) {
            0 => self.text.extend(b"()"),
            1..=2 if depth < OPEN_MOST => {
                self.text.push(b'(');
                self.alternation(depth + 1);
                self.text.push(b')');
            }
            3 if self.wants(12) => self.nest(),
            _ => self.literal(),
        }
        while self.wants(4) {
            self.text.push(b'*');
        }
        if self.wants(100) {
            let stars = self.random.below(NODES_MOST + 2);
            self.text.resize(self.text.len() + stars, b'*');
        }
    }

    /// Parentheses about as deep as the bound, around one literal or nothing.
    fn nest(&mut self) {
        let depth = OPEN_MOST - 2 + self.random.below(4);
        self.text.resize(self.text.len() + depth, b'(');
        if self.random.one_in(2) {
            self.literal();
        }
        self.text.resize(self.text.len() + depth, b')');
    }

    fn literal(&mut self) {
        let letter = letter(self.random, self.letters, true);
        self.text.extend(letter);
        if !self.wants(6) {
            return;
        }
        let bound = if self.random.one_in(8) { 100 } else { 4 };
        let most = self.random.below(bound);
        let least = self.random.below(most + 1);
        let repeat = if self.random.one_in(4) {
            format!("{{{:02},{:02}}}", least, most)
        } else {
            format!("{{{},{}}}", least, most)
        };
        self.text.extend(repeat.bytes());
    }
}

#[cfg(test)]
mod tests {
    use super::*;
    use crate::matcher::text::sheet_of;
    use std::collections::BTreeSet;

    #[test]
    fn same_seed_same_texts() {
        let made = |seed| {
            let mut random = Random::new(seed);
            let whole = text(&mut random, b"ab", 40);
            (whole, damaged_text(&mut random, b"ab", 40))
        };
        assert_eq!(made(5), made(5));
        assert!((0..20).any(|seed| made(seed) != made(seed + 1)));
    }

    #[test]
    fn well_formed_texts_meet_only_bounds() {
        let mut random = Random::new(1);
        let mut met = BTreeSet::new();
        for round in 0..20_000 {
            let most = if round % 2 == 0 { 30 } else { 512 };
            let text = text(&mut random, b"ab", most);
            assert!(text.len() <= most);
            met.insert(sheet_of(&text).map_or_else(|refusal| refusal.number, |_| 0));
        }
        assert_eq!(met.into_iter().collect::<Vec<u8>>(), [0, 15, 16, 17]);
    }

    #[test]
    fn damaged_texts_meet_every_text_refusal() {
        let mut random = Random::new(1);
        let mut met = BTreeSet::new();
        for _ in 0..20_000 {
            let text = damaged_text(&mut random, b"ab", 512);
            met.insert(sheet_of(&text).map_or_else(|refusal| refusal.number, |_| 0));
        }
        let all = [0, 10, 11, 12, 13, 14, 15, 16, 17, 19];
        assert_eq!(met.into_iter().collect::<Vec<u8>>(), all);
    }

    #[test]
    fn odd_letters_and_sizes_do_no_harm() {
        let mut random = Random::new(1);
        for most in 0..4 {
            for letters in [&b""[..], &[0, 255], b"*"] {
                assert!(text(&mut random, letters, most).len() <= most.max(2));
                damaged_text(&mut random, letters, most);
            }
        }
    }
}
