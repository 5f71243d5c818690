//! The node table: a tree's nodes in lent bytes.
//!
//! An entry is two rows of 64 bits, most significant byte first. Row 0 is the id, row 1 is
//! level + 8 × (length + 2^17 × (start + 2^17 × (parent + 2^12 × place))).

use crate::row::number;
use crate::tree::Node;

/// The bytes of one entry.
pub const ENTRY_BYTES: usize = 16;

/// A node as the bytes of its entry.
pub fn entry(node: &Node) -> [u8; ENTRY_BYTES] {
    let family = node.parent as u64 + (1 << 12) * node.place as u64;
    let bytes_from = node.start as u64 + (1 << 17) * family;
    let row = node.level + 8 * (node.length as u64 + (1 << 17) * bytes_from);
    let mut bytes = [0; ENTRY_BYTES];
    bytes[..8].copy_from_slice(&node.id.to_be_bytes());
    bytes[8..].copy_from_slice(&row.to_be_bytes());
    bytes
}

/// The node that an entry's bytes stand for, whatever they are.
pub fn node(entry: &[u8; ENTRY_BYTES]) -> Node {
    let row = number(&entry[8..]);
    Node {
        level: row % 8,
        length: (row / 8 % (1 << 17)) as usize,
        start: (row / 8 / (1 << 17) % (1 << 17)) as usize,
        id: number(&entry[..8]),
        parent: (row / 8 / (1 << 34) % (1 << 12)) as usize,
        place: (row / 8 / (1 << 46) % (1 << 5)) as usize,
    }
}

/// Writes the nodes at the front of the table. "After a yes, entries past the last used are
/// zero", and so is every lent byte after them.
pub fn write(nodes: &[Node], table: &mut [u8]) {
    table.fill(0);
    for (node, bytes) in nodes.iter().zip(table.chunks_exact_mut(ENTRY_BYTES)) {
        bytes.copy_from_slice(&entry(node));
    }
}

/// The nodes of a table: "A node table is read up to its first id 0", or to its end.
pub fn read(table: &[u8]) -> Vec<Node> {
    let entries = table.chunks_exact(ENTRY_BYTES);
    let nodes = entries.map(|bytes| node(bytes.try_into().expect("an entry has 16 bytes")));
    nodes.take_while(|node| node.id != 0).collect()
}
