//! All inputs up to a size: node lists, sheets, names and texts.

use crate::matcher::limits::*;
use crate::matcher::sheet;

/// Every word over the alphabet up to a length, shorter ones first.
pub fn words(alphabet: &[u8], most: usize) -> impl Iterator<Item = Vec<u8>> + '_ {
    (0..=most).flat_map(move |length| words_of(alphabet, length))
}

/// Every word of exactly this length, in the alphabet's dictionary order.
pub fn words_of(alphabet: &[u8], length: usize) -> impl Iterator<Item = Vec<u8>> + '_ {
    let size = alphabet.len() as u64;
    let power = u32::try_from(length).ok().and_then(|n| size.checked_pow(n));
    // A count past u64 is never walked to its end.
    (0..power.unwrap_or(u64::MAX)).map(move |index| word(alphabet, length, index))
}

fn word(alphabet: &[u8], length: usize, mut index: u64) -> Vec<u8> {
    let size = alphabet.len().max(1) as u64;
    let mut word = vec![0; length];
    for byte in word.iter_mut().rev() {
        *byte = alphabet[(index % size) as usize];
        index /= size;
    }
    word
}

/// Every node list up to a length that leaves exactly one subtree waiting.
pub fn node_lists(most: usize) -> Vec<Vec<u8>> {
    let mut found = Vec::new();
    for length in 1..=most {
        extend(&mut Vec::with_capacity(length), 0, length, &mut found);
    }
    found
}

/// All ways on from a list with `waiting` subtrees and `left` nodes still to come.
fn extend(list: &mut Vec<u8>, waiting: usize, left: usize, found: &mut Vec<Vec<u8>>) {
    if left == 0 {
        if waiting == 1 {
            found.push(list.clone());
        }
        return;
    }
    for node in NODE_LEAF..=NODE_STAR {
        if let Some(waiting) = waiting_after(node, waiting, left - 1) {
            list.push(node);
            extend(list, waiting, left - 1, found);
            list.pop();
        }
    }
}

/// Subtrees waiting after one more node, if it finds enough of them and the
/// nodes left after it can still join all into one.
pub fn waiting_after(node: u8, waiting: usize, left: usize) -> Option<usize> {
    let after = match node {
        NODE_LEAF | NODE_EMPTY => waiting + 1,
        NODE_STAR if waiting >= 1 => waiting,
        NODE_CAT | NODE_UNION if waiting >= 2 => waiting - 1,
        _ => return None,
    };
    (after - 1 <= left).then_some(after)
}

/// Every sheet up to a number of nodes, with every choice of letters for its leaves.
pub fn sheets(letters: &[u8], most_nodes: usize) -> Vec<Vec<u8>> {
    let mut found = Vec::new();
    for nodes in node_lists(most_nodes) {
        let leaves = nodes.iter().filter(|&&node| node == NODE_LEAF).count();
        found.extend(words_of(letters, leaves).map(|leaves| sheet::write(&leaves, &nodes)));
    }
    found
}

#[cfg(test)]
mod tests {
    use super::*;
    use std::collections::BTreeSet;

    #[test]
    fn words_are_counted_and_ordered() {
        let all: Vec<Vec<u8>> = words(b"ab", 2).collect();
        let typed: [&[u8]; 7] = [b"", b"a", b"b", b"aa", b"ab", b"ba", b"bb"];
        assert_eq!(all, typed);
        assert_eq!(words(b"ab", 5).count(), 63);
        // 1 + 12 + 144 + 1728
        assert_eq!(words(b"abcdefghijkl", 3).count(), 1885);
        assert_eq!(words(b"", 3).count(), 1);
        assert_eq!(words_of(b"a", 1000).count(), 1);
    }

    /// By hand: t(1) = 2 and t(n) = t(n-1) + 2 x sum of t(i) t(n-1-i), for a star or a pair on top.
    #[test]
    fn node_lists_are_counted() {
        let counts: Vec<usize> = (0..=5).map(|most| node_lists(most).len()).collect();
        assert_eq!(counts, [0, 2, 4, 14, 40, 154]);
    }

    /// The same with t(1) = 3: letter, letter, empty word; 3, 3, 21, 57, 327, 1263, 6753.
    #[test]
    fn sheets_are_counted() {
        let counts: Vec<usize> = (1..=7).map(|most| sheets(b"ab", most).len()).collect();
        assert_eq!(counts, [3, 6, 27, 84, 411, 1674, 8427]);
    }

    #[test]
    fn sheets_are_all_that_pass_and_each_once() {
        let made = sheets(b"ab", 4);
        let set: BTreeSet<&Vec<u8>> = made.iter().collect();
        assert_eq!(set.len(), made.len());
        let mut passing = 0;
        for nodes in words(&[0, 1, 2, 3, 4], 4) {
            let leaves = nodes.iter().filter(|&&node| node == 0).count();
            for leaves in words_of(b"ab", leaves) {
                let sheet = sheet::write(&leaves, &nodes);
                assert_eq!(sheet::read(&sheet).is_ok(), set.contains(&sheet));
                passing += usize::from(set.contains(&sheet));
            }
        }
        assert_eq!(passing, made.len());
    }
}
