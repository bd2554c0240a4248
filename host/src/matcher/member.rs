//! Membership by splitting: which stretches of places each subtree can read.

use super::sheet::{Node, Tree};

/// Is the name in the language?
pub fn accepts(tree: &Tree, name: &[u8]) -> bool {
    reads_all(tree, name.len(), |_, byte, place| {
        name.get(place) == Some(&byte)
    })
}

/// Is the sequence a reading of the name?
pub fn is_reading(tree: &Tree, name: &[u8], sequence: &[u8]) -> bool {
    sequence.len() == name.len()
        && reads_all(tree, name.len(), |position, byte, place| {
            name.get(place) == Some(&byte) && sequence.get(place) == Some(&position)
        })
}

/// Does the whole tree read all places, where `fits` says if a leaf, by its
/// position and byte, may stand at a place?
fn reads_all(tree: &Tree, places: usize, fits: impl Fn(u8, u8, usize) -> bool) -> bool {
    let mut all: Vec<Stretches> = Vec::with_capacity(tree.nodes().len());
    for node in tree.nodes() {
        let mut own = Stretches::new(places);
        match *node {
            Node::Leaf { position, byte } => (0..places)
                .filter(|&start| fits(position, byte, start))
                .for_each(|start| own.set(start, start + 1)),
            Node::Empty => (0..=places).for_each(|start| own.set(start, start)),
            Node::Cat(left, right) => own.cat(&all[left], &all[right]),
            Node::Union(left, right) => own.union(&all[left], &all[right]),
            Node::Star(inner) => own.star(&all[inner]),
        }
        all.push(own);
    }
    all.last().map_or(false, |root| root.has(0, places))
}

/// A set of stretches from a start to an end, one row of end bits for each start.
struct Stretches {
    places: usize,
    width: usize,
    bits: Vec<u64>,
}

const WORD: usize = u64::BITS as usize;

impl Stretches {
    fn new(places: usize) -> Self {
        let width = places / WORD + 1;
        Stretches {
            places,
            width,
            bits: vec![0; width * (places + 1)],
        }
    }

    fn set(&mut self, start: usize, end: usize) {
        self.bits[start * self.width + end / WORD] |= 1 << (end % WORD);
    }

    fn has(&self, start: usize, end: usize) -> bool {
        self.bits[start * self.width + end / WORD] >> (end % WORD) & 1 == 1
    }

    /// The ends that are later than their start: the pieces that are not empty.
    fn later_ends(&self, start: usize) -> impl Iterator<Item = usize> + '_ {
        (start + 1..=self.places).filter(move |&end| self.has(start, end))
    }

    fn add_row(&mut self, start: usize, other: &Stretches, from: usize) {
        let to = &mut self.bits[start * self.width..][..self.width];
        let row = &other.bits[from * self.width..][..self.width];
        to.iter_mut().zip(row).for_each(|(to, row)| *to |= row);
    }

    fn union(&mut self, left: &Stretches, right: &Stretches) {
        for start in 0..=self.places {
            self.add_row(start, left, start);
            self.add_row(start, right, start);
        }
    }

    fn cat(&mut self, left: &Stretches, right: &Stretches) {
        for start in 0..=self.places {
            if left.has(start, start) {
                self.add_row(start, right, start);
            }
            for middle in left.later_ends(start) {
                self.add_row(start, right, middle);
            }
        }
    }

    /// Pieces that are not empty are peeled off the front. Later starts are done
    /// first, so the rest after a piece is already known.
    fn star(&mut self, inner: &Stretches) {
        for start in (0..=self.places).rev() {
            self.set(start, start);
            for middle in inner.later_ends(start) {
                let (to, from) = self.bits.split_at_mut(middle * self.width);
                let to = &mut to[start * self.width..][..self.width];
                to.iter_mut()
                    .zip(from.iter())
                    .for_each(|(to, row)| *to |= row);
            }
        }
    }
}
