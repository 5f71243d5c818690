//! The nodes that a byte range crosses, and their table.
//!
//! An entry of the table is two rows of 64 bits, most significant byte first: the node's place in the
//! node table, and its parent's.

use crate::tree::Node;
use std::ops::Range;

/// The bytes of one entry.
pub const ENTRY_BYTES: usize = 16;

/// A node that is crossed, by its place in the node table, and the parent that its entry names.
#[derive(Clone, Copy, Debug, PartialEq, Eq)]
pub struct Crossed {
    pub node: usize,
    pub parent: usize,
}

/// "exactly the nodes that share a byte with that range, in tree order, with each node's parent"
///
/// Byte by byte, over a string of so many bytes: the bytes of the range are marked, and a node is
/// crossed if one of its own has the mark. So "A range that is empty crosses no node", and a node
/// without bytes is crossed by none.
///
/// "A node entry that points outside the lent string is passed over; other entries are read as given."
pub fn crossed(string: usize, nodes: &[Node], range: Range<usize>) -> Vec<Crossed> {
    let mut marked = vec![false; string];
    marked[range].fill(true);
    let mut crossed = Vec::new();
    for (place, node) in nodes.iter().enumerate() {
        let bytes = marked.get(node.start..node.start + node.length);
        if bytes.is_some_and(|bytes| bytes.contains(&true)) {
            crossed.push(Crossed {
                node: place,
                parent: node.parent,
            });
        }
    }
    crossed
}

/// Writes the entries at the front of the table, which has room for them. "what lies past an answer is
/// untouched"
pub fn write(crossed: &[Crossed], table: &mut [u8]) {
    for (entry, bytes) in crossed.iter().zip(table.chunks_exact_mut(ENTRY_BYTES)) {
        bytes[..8].copy_from_slice(&(entry.node as u64).to_be_bytes());
        bytes[8..].copy_from_slice(&(entry.parent as u64).to_be_bytes());
    }
}
