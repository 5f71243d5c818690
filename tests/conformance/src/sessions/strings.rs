//! Two strings, the sender's and the receiver's own, and settings that cut them.

use crate::content::{self, Content, KINDS};
use crate::random::Random;
use reference::settings::Settings;
use reference::shingle::children;
use reference::trail::is_only_trail;
use reference::tree::{tree, Node};

/// How the two strings differ.
#[derive(Clone, Copy, Debug, PartialEq, Eq, PartialOrd, Ord)]
pub enum Pair {
    Equal,
    OneEdit,
    ManyEdits,
    OneEmpty,
    BothEmpty,
    Unrelated,
    /// One is a block of the other's tree.
    BlockOfOther,
    /// Both made of the same few blocks, in other orders.
    SameBlocks,
}

/// The kinds of pairs, as often as they come.
const PAIRS: [Pair; 14] = [
    Pair::Equal,
    Pair::OneEdit,
    Pair::OneEdit,
    Pair::OneEdit,
    Pair::OneEdit,
    Pair::ManyEdits,
    Pair::ManyEdits,
    Pair::OneEmpty,
    Pair::BothEmpty,
    Pair::Unrelated,
    Pair::Unrelated,
    Pair::BlockOfOther,
    Pair::SameBlocks,
    Pair::SameBlocks,
];

/// M for strings of about this length: near it, so that they are cut; or the least; or any.
pub fn nominal(fan_out: u64, levels: u64, length: usize, random: &mut Random) -> u64 {
    let least = fan_out.pow(levels as u32);
    let near = (length as u64).clamp(least, 65_536);
    match random.between(0, 3) {
        0 => random.by_size(least, 65_536),
        1 => random.by_size(least, near),
        2 => random.between((near / 4).max(least), near),
        _ => least,
    }
}

/// Any settings that are allowed, for strings of about this length.
pub fn settings(length: usize, random: &mut Random) -> Settings {
    let (window, fan_out) = (random.between(2, 12), random.between(2, 8));
    let levels = random.one_of(&[1, 1, 2, 3, 4]);
    Settings {
        window,
        fan_out,
        levels,
        nominal: nominal(fan_out, levels, length, random),
    }
}

/// q: large enough for most differences more often than not.
pub fn width(random: &mut Random) -> u64 {
    match random.between(0, 4) {
        0 => random.by_size(1, 64),
        1 => 64,
        _ => random.between(20, 64),
    }
}

/// Settings with which strings of few symbols have short blocks, few of them different: then many
/// orders have the same pairs, and trail numbers are high.
pub fn many_trails(random: &mut Random) -> Settings {
    let (fan_out, levels) = (random.between(2, 4), random.between(1, 2));
    let least = fan_out.pow(levels as u32);
    Settings {
        window: 2,
        fan_out,
        levels,
        nominal: random.between(least, 2 * least),
    }
}

/// How often a string is drawn again until it has a node with several trails.
const DRAWS: usize = 20;

/// A string of this content and length that has such a node, if one comes in so many draws.
pub fn with_several_trails(
    settings: &Settings,
    content: Content,
    length: usize,
    random: &mut Random,
) -> Vec<u8> {
    let mut string = content::string(content, length, random);
    for _ in 0..DRAWS {
        if has_several_trails(&tree(settings, &string)) {
            break;
        }
        string = content::string(content, length, random);
    }
    string
}

/// Whether the children of some node of a tree have another order.
fn has_several_trails(nodes: &[Node]) -> bool {
    let several = |k: usize| {
        let ids: Vec<u64> = children(nodes, k).iter().map(|child| child.id).collect();
        !ids.is_empty() && !is_only_trail(&ids)
    };
    (0..nodes.len()).any(several)
}

/// Two strings of about this length, the sender's first, each within 65,536 bytes.
pub fn pair(
    settings: &Settings,
    content: Content,
    length: usize,
    random: &mut Random,
) -> (Pair, Vec<u8>, Vec<u8>) {
    let pair = random.one_of(&PAIRS);
    let length = match content {
        // The eight bytes once.
        Content::HashesToZero if random.percent(50) => 8,
        _ => length,
    };
    let base = match pair {
        Pair::BothEmpty => Vec::new(),
        _ => content::string(content, length, random),
    };
    let (base, other) = match pair {
        Pair::SameBlocks => same_blocks(&base, random),
        _ => {
            let other = other(pair, settings, &base, random);
            (base, other)
        }
    };
    let (mut sender, mut own) = match random.percent(50) {
        true => (base, other),
        false => (other, base),
    };
    sender.truncate(65_536);
    own.truncate(65_536);
    (pair, sender, own)
}

/// The other string of a pair whose one is the base.
fn other(pair: Pair, settings: &Settings, base: &[u8], random: &mut Random) -> Vec<u8> {
    let mut other = base.to_vec();
    match pair {
        Pair::OneEdit => edit(&mut other, random),
        Pair::ManyEdits => (0..random.between(2, 12)).for_each(|_| edit(&mut other, random)),
        Pair::OneEmpty => other.clear(),
        Pair::Unrelated => other = content::string(random.one_of(&KINDS), base.len(), random),
        Pair::BlockOfOther => {
            let node = random.one_of(&tree(settings, base));
            other = base[node.start..node.start + node.length].to_vec();
        }
        Pair::Equal | Pair::BothEmpty | Pair::SameBlocks => {}
    }
    other
}

/// Two strings of two to four stretches of the base, in any order.
fn same_blocks(base: &[u8], random: &mut Random) -> (Vec<u8>, Vec<u8>) {
    let most = (base.len() as u64 / 8).max(2);
    let count = random.between(2, 4);
    let stretch = |random: &mut Random| {
        let start = random.between(0, base.len() as u64) as usize;
        let end = (start + random.by_size(1, most) as usize).min(base.len());
        base[start..end].to_vec()
    };
    let mut blocks: Vec<Vec<u8>> = (0..count).map(|_| stretch(random)).collect();
    blocks.push(vec![random.number() as u8]);
    let mut of_blocks = || {
        let mut bytes = Vec::new();
        while bytes.len() < base.len() {
            bytes.extend(&blocks[random.between(0, count) as usize]);
        }
        bytes
    };
    (of_blocks(), of_blocks())
}

/// A byte replaced, a stretch put in, taken out or moved.
pub fn edit(string: &mut Vec<u8>, random: &mut Random) {
    let start = random.between(0, string.len() as u64) as usize;
    let count = random.by_size(1, 40) as usize;
    let end = (start + count).min(string.len());
    match random.between(0, 3) {
        0 if start < string.len() => string[start] = string[start].wrapping_add(1),
        1 => drop(string.drain(start..end)),
        2 => {
            let moved: Vec<u8> = string.drain(start..end).collect();
            let place = random.between(0, string.len() as u64) as usize;
            string.splice(place..place, moved);
        }
        _ => {
            let added = random.bytes(count);
            string.splice(start..start, added);
        }
    }
}
