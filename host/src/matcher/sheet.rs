//! A stored sheet: its test (20 to 27), its tree, and how one is written.

use super::limits::*;

#[derive(Clone, Copy, Debug, PartialEq, Eq)]
pub enum Node {
    Leaf { position: u8, byte: u8 },
    Empty,
    Cat(usize, usize),
    Union(usize, usize),
    Star(usize),
}

/// The nodes of a tested sheet in postorder. Every child's index is below its
/// parent's, and the last node is the root.
#[derive(Clone, Debug, PartialEq, Eq)]
pub struct Tree {
    nodes: Vec<Node>,
    leaves: usize,
}

impl Tree {
    pub fn nodes(&self) -> &[Node] {
        &self.nodes
    }

    pub fn root(&self) -> usize {
        self.nodes.len().saturating_sub(1)
    }

    pub fn leaves(&self) -> usize {
        self.leaves
    }
}

/// The sheet of these sections. Counts that no byte holds make a sheet that the test refuses.
pub fn write(leaves: &[u8], nodes: &[u8]) -> Vec<u8> {
    let mut sheet = vec![FORM, leaves.len() as u8];
    sheet.extend(leaves);
    sheet.push(nodes.len() as u8);
    sheet.extend(nodes);
    sheet
}

/// The tree of a sheet, or the first refusal. Each condition looks at the whole
/// sheet, so a later one counts only where no earlier one holds anywhere.
pub fn read(sheet: &[u8]) -> Result<Tree, u8> {
    if sheet.first() != Some(&FORM) {
        return Err(SHEET_FORM);
    }
    let (leaves, nodes) = sections(sheet).ok_or(SHEET_LENGTH)?;
    if leaves.len() > LEAVES_MOST {
        return Err(SHEET_LEAVES);
    }
    let leaves_fit = leaves.iter().all(|byte| LITERAL_BYTES.contains(byte));
    if !leaves_fit || nodes.iter().any(|&node| node > NODE_STAR) {
        return Err(SHEET_BYTE);
    }
    let waiting = waiting(nodes).ok_or(WAITING_FEW)?;
    if waiting.last() != Some(&1) {
        return Err(WAITING_END);
    }
    if waiting.iter().any(|&count| count > WAITING_MOST) {
        return Err(WAITING_MANY);
    }
    let leaf_nodes = nodes.iter().filter(|&&node| node == NODE_LEAF);
    if leaf_nodes.count() != leaves.len() {
        return Err(LEAVES_UNEQUAL);
    }
    tree(leaves, nodes).ok_or(WAITING_FEW)
}

/// The literal bytes and the node bytes, if both counts stand and the length is exact.
pub fn sections(sheet: &[u8]) -> Option<(&[u8], &[u8])> {
    let leaf_count = usize::from(*sheet.get(1)?);
    let node_count = usize::from(*sheet.get(2 + leaf_count)?);
    if sheet.len() != SHEET_FIXED + leaf_count + node_count {
        return None;
    }
    let leaves = sheet.get(2..2 + leaf_count)?;
    let nodes = sheet.get(SHEET_FIXED + leaf_count..)?;
    Some((leaves, nodes))
}

/// How many subtrees wait after each node; none if a node finds too few.
fn waiting(nodes: &[u8]) -> Option<Vec<usize>> {
    let mut count: usize = 0;
    let step = |&node: &u8| {
        let taken = match node {
            NODE_CAT | NODE_UNION => 2,
            NODE_STAR => 1,
            _ => 0,
        };
        count = count.checked_sub(taken)? + 1;
        Some(count)
    };
    nodes.iter().map(step).collect()
}

fn tree(leaves: &[u8], nodes: &[u8]) -> Option<Tree> {
    let mut made = Vec::with_capacity(nodes.len());
    let mut waiting = Vec::new();
    let mut literals = (1..=u8::MAX).zip(leaves);
    for &node in nodes {
        let node = match node {
            NODE_LEAF => {
                let (position, &byte) = literals.next()?;
                Node::Leaf { position, byte }
            }
            NODE_EMPTY => Node::Empty,
            NODE_STAR => Node::Star(waiting.pop()?),
            _ => {
                let right = waiting.pop()?;
                let left = waiting.pop()?;
                if node == NODE_CAT {
                    Node::Cat(left, right)
                } else {
                    Node::Union(left, right)
                }
            }
        };
        waiting.push(made.len());
        made.push(node);
    }
    Some(Tree {
        nodes: made,
        leaves: leaves.len(),
    })
}
