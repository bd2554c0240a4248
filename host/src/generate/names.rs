//! Random names and mappings for a tree.

use super::random::Random;
use crate::matcher::readings;
use crate::matcher::sheet::{Node, Tree};

/// A name of at most `most` bytes. Half of them are made to match; that fails
/// where the tree has no word so short, or the walk does not find one.
pub fn name(random: &mut Random, tree: &Tree, letters: &[u8], most: usize) -> Vec<u8> {
    let walked = if random.one_in(2) {
        (0..4).find_map(|_| walk(random, tree, most))
    } else {
        None
    };
    match walked {
        Some((name, _)) => name,
        None => loose_name(random, letters, most),
    }
}

/// A name made of letters and, rarely, of any byte.
pub fn loose_name(random: &mut Random, letters: &[u8], most: usize) -> Vec<u8> {
    let length = random.below(most.saturating_add(1));
    let byte = |random: &mut Random| {
        if random.one_in(16) {
            random.byte()
        } else {
            random.pick(letters)
        }
    };
    (0..length).map(|_| byte(random)).collect()
}

/// A name of at most `most` bytes with one of its readings, by random choices down the tree.
pub fn walk(random: &mut Random, tree: &Tree, most: usize) -> Option<(Vec<u8>, Vec<u8>)> {
    let mut walk = Walk {
        random,
        tree,
        most,
        rounds: most.saturating_add(tree.nodes().len()),
        name: Vec::new(),
        reading: Vec::new(),
    };
    walk.node(tree.root());
    (walk.name.len() <= most).then_some((walk.name, walk.reading))
}

struct Walk<'a> {
    random: &'a mut Random,
    tree: &'a Tree,
    most: usize,
    /// Rounds that stars may still make in all: stars around stars would otherwise grow past any time.
    rounds: usize,
    name: Vec<u8>,
    reading: Vec<u8>,
}

impl Walk<'_> {
    fn node(&mut self, index: usize) {
        match self.tree.nodes().get(index) {
            Some(&Node::Leaf { position, byte }) => {
                self.name.push(byte);
                self.reading.push(position);
            }
            Some(&Node::Cat(left, right)) => {
                self.node(left);
                self.node(right);
            }
            Some(&Node::Union(left, right)) => {
                let side = if self.random.one_in(2) { left } else { right };
                self.node(side);
            }
            Some(&Node::Star(inner)) => {
                while self.goes_round() {
                    self.node(inner);
                }
            }
            Some(Node::Empty) | None => {}
        }
    }

    fn goes_round(&mut self) -> bool {
        let goes = self.rounds > 0 && self.name.len() < self.most && !self.random.one_in(3);
        self.rounds -= usize::from(goes);
        goes
    }
}

/// A mapping buffer of the given length for a name: in its front a reading, a
/// reading with one entry changed, positions, or any bytes; behind it any bytes.
pub fn mapping(random: &mut Random, tree: &Tree, name: &[u8], length: usize) -> Vec<u8> {
    let mut mapping = random.bytes(length);
    let front: Vec<u8> = match random.below(4) {
        0 => a_reading(random, tree, name),
        1 => {
            let mut changed = a_reading(random, tree, name);
            let place = random.below(changed.len());
            if let Some(entry) = changed.get_mut(place) {
                *entry = random.below(tree.leaves() + 2) as u8;
            }
            changed
        }
        2 => (0..name.len())
            .map(|_| random.below(tree.leaves() + 2) as u8)
            .collect(),
        _ => Vec::new(),
    };
    mapping
        .iter_mut()
        .zip(front)
        .for_each(|(to, from)| *to = from);
    mapping
}

/// One of the first few readings; nothing where there is none.
fn a_reading(random: &mut Random, tree: &Tree, name: &[u8]) -> Vec<u8> {
    let mut few = readings::few(tree, name, 8);
    let index = random.below(few.len());
    if index < few.len() {
        few.swap_remove(index)
    } else {
        Vec::new()
    }
}

#[cfg(test)]
mod tests {
    use super::*;
    use crate::generate::sheets::sheet;
    use crate::matcher::member::{accepts, is_reading};
    use crate::matcher::sheet::read;

    fn trees(seed: u64, count: usize) -> impl Iterator<Item = (Random, Tree)> {
        let mut random = Random::new(seed);
        (0..count).filter_map(move |_| {
            let tree = read(&sheet(&mut random, b"ab", 20)).ok()?;
            Some((Random::new(random.number()), tree))
        })
    }

    #[test]
    fn same_seed_same_names() {
        let made = |seed| {
            trees(seed, 20)
                .map(|(mut random, tree)| {
                    let name = name(&mut random, &tree, b"ab", 9);
                    let mapping = mapping(&mut random, &tree, &name, 12);
                    (name, mapping)
                })
                .collect::<Vec<_>>()
        };
        assert_eq!(made(5), made(5));
        assert_ne!(made(5), made(6));
    }

    #[test]
    fn walks_give_names_with_their_readings() {
        let mut walked = 0;
        for (mut random, tree) in trees(1, 5000) {
            if let Some((name, reading)) = walk(&mut random, &tree, 12) {
                assert!(name.len() <= 12);
                assert!(is_reading(&tree, &name, &reading));
                walked += 1;
            }
        }
        assert!(walked > 4500);
    }

    #[test]
    fn about_half_the_names_match_at_least() {
        let matching = trees(1, 5000)
            .filter_map(|(mut random, tree)| {
                let name = name(&mut random, &tree, b"ab", 12);
                assert!(name.len() <= 12);
                accepts(&tree, &name).then_some(())
            })
            .count();
        assert!(matching > 2300, "{}", matching);
        assert!(matching < 4500, "{}", matching);
    }

    #[test]
    fn mappings_are_of_both_kinds() {
        let (mut yes, mut no) = (0, 0);
        for (mut random, tree) in trees(1, 5000) {
            let name = name(&mut random, &tree, b"ab", 6);
            let mapping = mapping(&mut random, &tree, &name, name.len() + 2);
            assert_eq!(mapping.len(), name.len() + 2);
            match is_reading(&tree, &name, &mapping[..name.len()]) {
                true => yes += 1,
                false => no += 1,
            }
        }
        assert!(yes > 500 && no > 500, "{} {}", yes, no);
    }

    #[test]
    fn stars_around_stars_end() {
        let text = b"()"
            .iter()
            .chain(&[b'*'; 254])
            .copied()
            .collect::<Vec<u8>>();
        let sheet = crate::matcher::text::sheet_of(&text).unwrap();
        let tree = read(&sheet).unwrap();
        let walked = walk(&mut Random::new(1), &tree, 255);
        assert_eq!(walked, Some((Vec::new(), Vec::new())));
    }
}
