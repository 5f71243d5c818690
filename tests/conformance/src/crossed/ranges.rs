//! Ranges: start and length, inside the string or not.

use crate::random::Random;
use reference::tree::Node;

/// Start and length.
pub type Range = [u64; 2];

/// The range from one place to another, whichever comes first.
fn between(one: u64, other: u64) -> Range {
    [one.min(other), one.abs_diff(other)]
}

/// Any range of a string of so many bytes.
pub fn any(string: u64, random: &mut Random) -> Range {
    between(random.between(0, string), random.between(0, string))
}

/// Where a node starts or ends, or one byte before or after that, inside the string.
fn end_of_a_node(nodes: &[Node], string: u64, random: &mut Random) -> u64 {
    if nodes.is_empty() {
        return random.between(0, string);
    }
    let node = random.one_of(nodes);
    let end = random.one_of(&[node.start, node.start + node.length]) as u64;
    let near = [end, end, end + 1, end.saturating_sub(1)];
    random.one_of(&near).min(string)
}

/// From one end of a node to another, of the same node or of two.
pub fn at_nodes(nodes: &[Node], string: u64, random: &mut Random) -> Range {
    let one = end_of_a_node(nodes, string, random);
    between(one, end_of_a_node(nodes, string, random))
}

/// One byte at an end of a node. Of a string without bytes, one past its end.
pub fn one_byte(nodes: &[Node], string: u64, random: &mut Random) -> Range {
    [end_of_a_node(nodes, string.saturating_sub(1), random), 1]
}

/// No byte: anywhere in the string, at an end of a node, or past the string's end.
pub fn no_byte(nodes: &[Node], string: u64, place: usize, random: &mut Random) -> Range {
    let start = match place % 6 {
        0 => string,
        1 => string + 1,
        2 => random.one_of(&[string + 2, 1 << 32, u64::MAX]),
        3 => random.between(0, string),
        _ => end_of_a_node(nodes, string, random),
    };
    [start, 0]
}

/// How many kinds `large` has.
pub const LARGE: usize = 14;

/// Ranges around the string's end, and large numbers that would be allowed if the sum were taken modulo
/// 2^64, or if only their low bits were looked at.
pub fn large(string: u64, place: usize, random: &mut Random) -> Range {
    let [start, length] = any(string, random);
    let few = random.between(1, 20);
    match place % LARGE {
        0 => [start, string - start],
        1 => [start, string - start + 1],
        2 => [start, string - start + few],
        3 => [string, 1],
        4 => [string, few],
        5 => [string + few, length],
        6 => [u64::MAX - few + 1, few + length],
        7 => [start + few, u64::MAX - few + 1],
        8 => [1 << 63, (1 << 63) + length],
        9 => [(few << 32) + start, length],
        10 => [start, (few << 32) + length],
        11 => [random.one_of(&[1 << 16, 1 << 17]) + start, length],
        12 => [u64::MAX, random.one_of(&[1, 2, u64::MAX])],
        _ => [random.by_size(0, u64::MAX), random.by_size(0, u64::MAX)],
    }
}
