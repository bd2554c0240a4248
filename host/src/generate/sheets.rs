//! Random sheets: valid ones, and damaged ones that reach each refusal.

use super::damage::damaged;
use super::every::waiting_after;
use super::random::Random;
use crate::matcher::limits::*;
use crate::matcher::sheet;

/// A valid sheet of 1 to `most_nodes` nodes, within the bounds on nodes and leaves.
pub fn sheet(random: &mut Random, letters: &[u8], most_nodes: usize) -> Vec<u8> {
    let count = 1 + random.below(most_nodes.clamp(1, NODES_MOST));
    let nodes = nodes(random, count);
    let leaves = nodes.iter().filter(|&&node| node == NODE_LEAF).count();
    let leaves: Vec<u8> = (0..leaves)
        .map(|_| random.pick(letters))
        .map(|byte| byte.clamp(*LITERAL_BYTES.start(), *LITERAL_BYTES.end()))
        .collect();
    sheet::write(&leaves, &nodes)
}

fn nodes(random: &mut Random, count: usize) -> Vec<u8> {
    // Leaves and pairs are made likelier than empty words and stars.
    const LIKELY: [u8; 8] = [
        NODE_LEAF, NODE_LEAF, NODE_LEAF, NODE_EMPTY, NODE_CAT, NODE_CAT, NODE_UNION, NODE_STAR,
    ];
    let mut nodes = Vec::with_capacity(count);
    let (mut waiting, mut leaves) = (0, 0);
    while nodes.len() < count {
        let mut node = random.pick(&LIKELY);
        if node == NODE_LEAF && leaves == LEAVES_MOST {
            node = NODE_EMPTY;
        }
        if let Some(after) = waiting_after(node, waiting, count - nodes.len() - 1) {
            waiting = after;
            leaves += usize::from(node == NODE_LEAF);
            nodes.push(node);
        }
    }
    nodes
}

/// A sheet with a few random edits. Half of them are made inside the sections
/// and counted anew, so that the later refusals are reached too.
pub fn damaged_sheet(random: &mut Random, letters: &[u8], most_nodes: usize) -> Vec<u8> {
    let whole = sheet(random, letters, most_nodes);
    let likely: Vec<u8> = (NODE_LEAF..=NODE_STAR + 1).collect();
    match sheet::sections(&whole) {
        Some((leaves, nodes)) if random.one_in(2) => match random.below(4) {
            0 => sheet::write(&damaged(random, leaves, letters), nodes),
            1 => sheet::write(&lengthened(random, leaves), nodes),
            _ => sheet::write(leaves, &damaged(random, nodes, &likely)),
        },
        _ => damaged(random, &whole, &likely),
    }
}

/// About as many leaves as are allowed, on either side of the bound.
fn lengthened(random: &mut Random, leaves: &[u8]) -> Vec<u8> {
    let mut leaves = leaves.to_vec();
    let length = LEAVES_MOST - 2 + random.below(5);
    leaves.resize(length, *LITERAL_BYTES.start());
    leaves
}

#[cfg(test)]
mod tests {
    use super::*;
    use std::collections::BTreeSet;

    #[test]
    fn same_seed_same_sheets() {
        let made = |seed| {
            let mut random = Random::new(seed);
            let whole = sheet(&mut random, b"ab", 40);
            (whole, damaged_sheet(&mut random, b"ab", 40))
        };
        assert_eq!(made(5), made(5));
        assert!((0..20).any(|seed| made(seed) != made(seed + 1)));
    }

    #[test]
    fn sheets_are_valid_at_every_size() {
        let mut random = Random::new(1);
        let mut largest = 0;
        for round in 0..5000 {
            let sheet = sheet(&mut random, b"ab", round % 300);
            let nodes = sheet::read(&sheet).map_or(0, |tree| tree.nodes().len());
            assert!(nodes >= 1);
            largest = largest.max(nodes);
        }
        assert_eq!(largest, 255);
    }

    #[test]
    fn damaged_sheets_meet_every_sheet_refusal_that_can_be() {
        let mut random = Random::new(1);
        let mut met = BTreeSet::new();
        for _ in 0..20_000 {
            let sheet = damaged_sheet(&mut random, b"ab", 20);
            met.insert(sheet::read(&sheet).map_or_else(|number| number, |_| 0));
        }
        let all = [0, 20, 21, 22, 23, 24, 25, 27];
        assert_eq!(met.into_iter().collect::<Vec<u8>>(), all);
    }
}
