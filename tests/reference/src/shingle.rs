//! The shingles of a tree: which node stands to the left of which, and how often.

use crate::tree::Node;

/// "A shingle (001, Table I, which writes count before level) is previous id, own id, level,
/// count."
///
/// The fields stand in the order that lists are sorted by: "The list is sorted by level, previous
/// id, own id, unsigned". A list of a tree has no two that only the count tells apart; where a
/// forged one has, the count decides last.
#[derive(Clone, Copy, Debug, PartialEq, Eq, PartialOrd, Ord)]
pub struct Shingle {
    pub level: u64,
    pub previous: u64,
    pub own: u64,
    pub count: u64,
}

/// "the pair (id of its left sibling, own id) at its level": level, previous id, own id.
pub type Pair = (u64, u64, u64);

impl Shingle {
    /// The pair that the count is of.
    pub fn pair(&self) -> Pair {
        (self.level, self.previous, self.own)
    }

    /// "tail = level × 65,536 + count"
    ///
    /// Modulo 2^64, like the sums that it goes into. A level of 2^32 / 65,536 or more, which only
    /// a forged entry has, makes a tail that is not below 2^32.
    pub fn tail(&self) -> u64 {
        self.level.wrapping_mul(65_536).wrapping_add(self.count)
    }
}

/// The children of node k of a tree's list, from the left.
///
/// "Nodes are listed each before its children, and a child with all its descendants before its
/// next sibling, from the left." So what descends from node k is listed after it and before the
/// next node that is not deeper; of those, the children are the ones one level down.
pub fn children(nodes: &[Node], k: usize) -> Vec<Node> {
    let parent = nodes[k];
    let mut children = Vec::new();
    for node in &nodes[k + 1..] {
        if node.level <= parent.level {
            break;
        }
        if node.level - parent.level == 1 {
            children.push(*node);
        }
    }
    children
}

/// The id that node k of a tree's list has for its left sibling.
///
/// "a first child and the root have 0 for the sibling"
///
/// Of the nodes listed before it, those deeper than node k descend from its left sibling. The
/// nearest one that is not deeper is that sibling, if it is of the same level; if it is one level
/// up, it is the parent, and node k its first child. Before the root nothing is listed.
fn left_sibling_id(nodes: &[Node], k: usize) -> u64 {
    let level = nodes[k].level;
    let nearest = nodes[..k].iter().rev().find(|node| node.level <= level);
    match nearest {
        Some(node) if node.level == level => node.id,
        _ => 0,
    }
}

/// "Each node gives the pair (id of its left sibling, own id) at its level; a first child and the
/// root have 0 for the sibling."
///
/// In the order of the nodes, one pair for each.
pub fn pairs(nodes: &[Node]) -> Vec<Pair> {
    let pair = |k: usize| (nodes[k].level, left_sibling_id(nodes, k), nodes[k].id);
    (0..nodes.len()).map(pair).collect()
}

/// "Count is how many nodes of the level give that pair. The list is sorted by level, previous
/// id, own id, unsigned, and indexed from 0."
///
/// Of the whole level, not of one parent's children.
pub fn shingles(nodes: &[Node]) -> Vec<Shingle> {
    let given = pairs(nodes);
    let mut different = given.clone();
    different.sort();
    different.dedup();
    let shingle = |&pair: &Pair| Shingle {
        level: pair.0,
        previous: pair.1,
        own: pair.2,
        count: given.iter().filter(|&&other| other == pair).count() as u64,
    };
    different.iter().map(shingle).collect()
}
