//! A string's tree of blocks, as the list of its nodes.

use crate::fnv::block_id;
use crate::partition::{blocks, Block};
use crate::settings::Settings;

/// A node: its level, its place in the whole string, the id of its bytes, "its parent's place in the
/// table, and its place among its siblings from 0".
#[derive(Clone, Copy, Debug, PartialEq, Eq)]
pub struct Node {
    pub level: u64,
    pub start: usize,
    pub length: usize,
    pub id: u64,
    pub parent: usize,
    pub place: usize,
}

/// The parent that a node is listed under, and its place there.
struct Under {
    parent: usize,
    place: usize,
}

/// "The whole string is the node of level 0." "the root names itself, at place 0": it is listed
/// first. For allowed settings only.
pub fn tree(settings: &Settings, string: &[u8]) -> Vec<Node> {
    let mut nodes = Vec::new();
    let whole = Block {
        start: 0,
        length: string.len(),
    };
    let itself = Under {
        parent: 0,
        place: 0,
    };
    list(settings, string, 0, whole, itself, &mut nodes);
    nodes
}

/// "A node's blocks are its children, and they are cut in turn by the next level's rule, down to
/// level L. Nodes are listed each before its children, and a child with all its descendants
/// before its next sibling, from the left."
///
/// A child is cut as a string of its own; its start is counted from the start of the whole string.
fn list(
    settings: &Settings,
    string: &[u8],
    level: u64,
    node: Block,
    under: Under,
    nodes: &mut Vec<Node>,
) {
    let bytes = &string[node.start..node.start + node.length];
    let parent = nodes.len();
    nodes.push(Node {
        level,
        start: node.start,
        length: node.length,
        id: block_id(bytes),
        parent: under.parent,
        place: under.place,
    });
    if level == settings.levels {
        return;
    }
    let blocks = blocks(bytes, &settings.rule(level + 1));
    for (place, block) in blocks.into_iter().enumerate() {
        let child = Block {
            start: node.start + block.start,
            length: block.length,
        };
        let under = Under { parent, place };
        list(settings, string, level + 1, child, under, nodes);
    }
}
