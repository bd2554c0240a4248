//! The readings of a name in rising dictionary order.
//!
//! A place is taken with the set of sequences that read the name from there to
//! its end. For each node, `some` is that set where the node itself reads a
//! piece that is not empty and the rest of the tree what is left, and `after`
//! that set once the node is done. Both come straight from the denotation of
//! the tree, from the last place back to the first:
//!
//! - leaf p: some = p put before after at the next place, if the byte fits;
//! - concatenation: some = some of the left side, and some of the right side
//!   where the left may be empty; after of the left = what the right can still
//!   read from here, after of the right = after of the node;
//! - union: some = some of both sides, after of both = after of the node;
//! - star: some = some of the inside, since empty pieces change no sequence;
//!   after of the inside = what the star can still read from here.

use std::cmp::Ordering;
use std::rc::Rc;

use super::sheet::{Node, Tree};

/// The first `most` readings.
pub fn few(tree: &Tree, name: &[u8], most: usize) -> Vec<Vec<u8>> {
    let found = gather(tree, name, &Few { most });
    found.iter().map(|sequence| sequence.to_vec()).collect()
}

/// All readings. There may be more than any memory holds; see `few`.
pub fn all(tree: &Tree, name: &[u8]) -> Vec<Vec<u8>> {
    few(tree, name, usize::MAX)
}

pub fn first(tree: &Tree, name: &[u8]) -> Option<Vec<u8>> {
    few(tree, name, 1).pop()
}

/// The first reading that comes after the given sequence, be that a reading or not.
pub fn after(tree: &Tree, name: &[u8], given: &[u8]) -> Option<Vec<u8>> {
    if given.len() != name.len() {
        return None;
    }
    let found = gather(tree, name, &Later { given });
    found.later.map(|sequence| sequence.to_vec())
}

/// What is kept of a set of sequences that read the same places.
trait Keep {
    type Set: Clone;
    fn none(&self) -> Self::Set;
    /// The set of the empty sequence alone.
    fn end(&self) -> Self::Set;
    /// The position, at this place, before every sequence of the rest.
    fn put(&self, position: u8, place: usize, rest: &Self::Set) -> Self::Set;
    fn join(&self, one: &Self::Set, other: &Self::Set) -> Self::Set;
}

type Sequence = Rc<[u8]>;

fn empty() -> Sequence {
    Rc::from(Vec::new())
}

fn put_before(position: u8, rest: &Sequence) -> Sequence {
    std::iter::once(position)
        .chain(rest.iter().copied())
        .collect()
}

/// Keeps the least `most` sequences, rising, each once. That loses nothing of the
/// final answer: a sequence among the least of a whole has its rest among the
/// least of the rests.
struct Few {
    most: usize,
}

impl Keep for Few {
    type Set = Rc<Vec<Sequence>>;

    fn none(&self) -> Self::Set {
        Rc::new(Vec::new())
    }

    fn end(&self) -> Self::Set {
        Rc::new(std::iter::once(empty()).take(self.most).collect())
    }

    fn put(&self, position: u8, _: usize, rest: &Self::Set) -> Self::Set {
        Rc::new(rest.iter().map(|rest| put_before(position, rest)).collect())
    }

    fn join(&self, one: &Self::Set, other: &Self::Set) -> Self::Set {
        if other.is_empty() || Rc::ptr_eq(one, other) {
            return one.clone();
        }
        if one.is_empty() {
            return other.clone();
        }
        Rc::new(merged(one, other, self.most))
    }
}

fn merged(one: &[Sequence], other: &[Sequence], most: usize) -> Vec<Sequence> {
    let (mut one, mut other) = (one.iter().peekable(), other.iter().peekable());
    let next = || {
        let order = match (one.peek(), other.peek()) {
            (Some(a), Some(b)) => a.cmp(b),
            (Some(_), None) => Ordering::Less,
            _ => Ordering::Greater,
        };
        match order {
            Ordering::Less => one.next(),
            Ordering::Greater => other.next(),
            Ordering::Equal => one.next().and(other.next()),
        }
    };
    std::iter::from_fn(next).take(most).cloned().collect()
}

/// Keeps the least sequence, and the least of those after the given one.
struct Later<'a> {
    given: &'a [u8],
}

#[derive(Clone)]
struct Least {
    least: Option<Sequence>,
    later: Option<Sequence>,
}

impl Keep for Later<'_> {
    type Set = Least;

    fn none(&self) -> Least {
        Least {
            least: None,
            later: None,
        }
    }

    fn end(&self) -> Least {
        Least {
            least: Some(empty()),
            later: None,
        }
    }

    fn put(&self, position: u8, place: usize, rest: &Least) -> Least {
        let put = |rest: &Option<Sequence>| rest.as_ref().map(|rest| put_before(position, rest));
        let least = put(&rest.least);
        let later = match self.given.get(place).map(|given| position.cmp(given)) {
            Some(Ordering::Greater) => least.clone(),
            Some(Ordering::Equal) => put(&rest.later),
            _ => None,
        };
        Least { least, later }
    }

    fn join(&self, one: &Least, other: &Least) -> Least {
        Least {
            least: lesser(&one.least, &other.least),
            later: lesser(&one.later, &other.later),
        }
    }
}

fn lesser(one: &Option<Sequence>, other: &Option<Sequence>) -> Option<Sequence> {
    one.iter().chain(other).min().cloned()
}

/// Where the rest of the tree goes on when a node is done.
#[derive(Clone, Copy)]
enum Context {
    Root,
    /// As when that node is done.
    DoneWith(usize),
    /// Through that node, which may read nothing if it may be empty.
    Through(usize),
}

fn contexts(tree: &Tree) -> Vec<Context> {
    let mut contexts = vec![Context::Root; tree.nodes().len()];
    for (index, node) in tree.nodes().iter().enumerate() {
        match *node {
            Node::Cat(left, right) => {
                contexts[left] = Context::Through(right);
                contexts[right] = Context::DoneWith(index);
            }
            Node::Union(left, right) => {
                contexts[left] = Context::DoneWith(index);
                contexts[right] = Context::DoneWith(index);
            }
            Node::Star(inner) => contexts[inner] = Context::Through(index),
            Node::Leaf { .. } | Node::Empty => {}
        }
    }
    contexts
}

fn may_be_empty(tree: &Tree) -> Vec<bool> {
    let mut empty: Vec<bool> = Vec::with_capacity(tree.nodes().len());
    for node in tree.nodes() {
        empty.push(match *node {
            Node::Leaf { .. } => false,
            Node::Empty | Node::Star(_) => true,
            Node::Cat(left, right) => empty[left] && empty[right],
            Node::Union(left, right) => empty[left] || empty[right],
        });
    }
    empty
}

struct Gatherer<'a, K: Keep> {
    tree: &'a Tree,
    name: &'a [u8],
    keep: &'a K,
    contexts: Vec<Context>,
    empty: Vec<bool>,
}

fn gather<K: Keep>(tree: &Tree, name: &[u8], keep: &K) -> K::Set {
    let gatherer = Gatherer {
        tree,
        name,
        keep,
        contexts: contexts(tree),
        empty: may_be_empty(tree),
    };
    let mut after = vec![keep.none(); tree.nodes().len()];
    let mut whole = keep.none();
    for place in (0..=name.len()).rev() {
        let some = gatherer.some(place, &after);
        after = gatherer.after(place, &some);
        whole = gatherer.through(tree.root(), &some, &after);
    }
    whole
}

impl<K: Keep> Gatherer<'_, K> {
    /// The sets `some` at a place, children first; only leaves look at the next place.
    fn some(&self, place: usize, after_next: &[K::Set]) -> Vec<K::Set> {
        let byte_here = self.name.get(place);
        let mut some: Vec<K::Set> = Vec::with_capacity(after_next.len());
        for (index, node) in self.tree.nodes().iter().enumerate() {
            some.push(match *node {
                Node::Leaf { position, byte } if byte_here == Some(&byte) => {
                    self.keep.put(position, place, &after_next[index])
                }
                Node::Leaf { .. } | Node::Empty => self.keep.none(),
                Node::Cat(left, right) if self.empty[left] => {
                    self.keep.join(&some[left], &some[right])
                }
                Node::Cat(left, _) => some[left].clone(),
                Node::Union(left, right) => self.keep.join(&some[left], &some[right]),
                Node::Star(inner) => some[inner].clone(),
            });
        }
        some
    }

    /// The sets `after` at a place, parents and right sides first: each context
    /// names a node of higher index.
    fn after(&self, place: usize, some: &[K::Set]) -> Vec<K::Set> {
        let mut after = vec![self.keep.none(); some.len()];
        for (index, context) in self.contexts.iter().enumerate().rev() {
            after[index] = match *context {
                Context::Root if place == self.name.len() => self.keep.end(),
                Context::Root => self.keep.none(),
                Context::DoneWith(node) => after[node].clone(),
                Context::Through(node) => self.through(node, some, &after),
            };
        }
        after
    }

    fn through(&self, node: usize, some: &[K::Set], after: &[K::Set]) -> K::Set {
        match (some.get(node), after.get(node)) {
            (Some(some), Some(after)) if self.empty[node] => self.keep.join(some, after),
            (Some(some), _) => some.clone(),
            _ => self.keep.none(),
        }
    }
}
