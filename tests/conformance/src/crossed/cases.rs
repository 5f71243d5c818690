//! The cases: a string, a node table, a range and a table for the answer, each made from the seed and the
//! case's number alone.

use super::altered;
use super::ranges::{self, Range, LARGE};
use crate::content::{self, Content, KINDS};
use crate::random::{family_of, together, Random};
use crate::settings::{any_allowed, any_length, many_nodes, with_nominal};
use reference::crossed::ENTRY_BYTES;
use reference::node_table;
use reference::questions::nodes_allowed;
use reference::rcds::{rcds_crossed, ACCEPTED};
use reference::settings::Settings;
use reference::tree::{tree, Node};
use reference::vectors::{FULL_RULER, RULED};
use std::fmt;

/// One call.
pub struct Case {
    pub seed: u64,
    pub number: usize,
    pub family: Family,
    pub content: Content,
    pub string: Vec<u8>,
    pub nodes: Vec<u8>,
    pub start: u64,
    pub length: u64,
    /// The bytes of the table for the answer.
    pub room: usize,
    /// How far the lent pieces are moved in memory, so that most of them are not aligned.
    pub shifts: [usize; 3],
}

impl fmt::Display for Case {
    fn fmt(&self, f: &mut fmt::Formatter) -> fmt::Result {
        write!(
            f,
            "{:?}, {:?} string of {} bytes, node table of {} bytes with {} nodes, range of {} bytes from {}, table of {} bytes",
            self.family,
            self.content,
            self.string.len(),
            self.nodes.len(),
            node_table::read(&self.nodes).len(),
            self.length,
            self.start,
            self.room,
        )
    }
}

/// What a case is.
#[derive(Clone, Copy, Debug, PartialEq, Eq, PartialOrd, Ord)]
pub enum Family {
    /// Any range, every w, p and L that is allowed.
    AnyRange,
    /// Ranges that begin and end at the ends of nodes, or one byte beside them.
    AtNodes,
    /// One byte at the end of a node.
    OneByte,
    /// Ranges without bytes.
    NoByte,
    /// All bytes of the string, or one more.
    Whole,
    /// Ranges around the string's end, and numbers that are too large.
    LargeNumbers,
    /// Tables for the answer that are exactly long enough, one byte short, empty, longer, or of any size.
    Room,
    /// Another string lent than the tree is of: shorter, longer, much longer, empty.
    OtherString,
    /// Node tables with entries changed, exchanged, put in or taken out.
    AlteredNodes,
    /// Node tables with bits changed.
    AlteredBits,
    /// Node tables of any bytes.
    AnyBytes,
    /// Node tables with an id 0 before the last node.
    Ended,
    /// Node tables cut off, most of them inside an entry.
    CutOff,
    /// Node tables of more than 4,096 entries.
    LongTable,
    /// The node table lent as the string too, in one memory.
    OneMemory,
    /// Strings without bytes.
    EmptyString,
    /// Rulers and random strings that have thousands of nodes.
    ManyNodes,
    /// Strings of up to 5,000 bytes.
    Middle,
    /// Strings of up to 65,536 bytes, every third of exactly that many.
    Long,
}

/// The families, and how many cases each has.
pub const FAMILIES: [(Family, usize); 19] = [
    (Family::AnyRange, 11 * 7 * 4 * 10),
    (Family::AtNodes, 4_000),
    (Family::OneByte, 2_000),
    (Family::NoByte, 1_200),
    (Family::Whole, 600),
    (Family::LargeNumbers, LARGE * 150),
    (Family::Room, 2_400),
    (Family::OtherString, 2_000),
    (Family::AlteredNodes, 3_000),
    (Family::AlteredBits, 1_500),
    (Family::AnyBytes, 600),
    (Family::Ended, 800),
    (Family::CutOff, 1_200),
    (Family::LongTable, 300),
    (Family::OneMemory, 300),
    (Family::EmptyString, 200),
    (Family::ManyNodes, 120),
    (Family::Middle, 1_000),
    (Family::Long, 90),
];

/// How many cases a run has.
pub fn count() -> usize {
    together(FAMILIES)
}

/// The case of this number.
pub fn case(seed: u64, number: usize) -> Case {
    let (family, place) = family_of(FAMILIES, number);
    let mut random = Random::of_case(seed, number);
    family_case(family, place, seed, number, &mut random)
}

fn family_case(
    family: Family,
    place: usize,
    seed: u64,
    number: usize,
    random: &mut Random,
) -> Case {
    let settings = settings(family, place, random);
    let content = random.one_of(contents(family, place));
    let length = length(family, place, &settings, random);
    let string = content::string(content, length, random);
    let (string, tree) = cut(&settings, string);
    let nodes = nodes(family, place, tree, string.len(), random);
    let string = lent_string(family, place, string, &nodes, random);
    let read = node_table::read(&nodes);
    let [start, length] = range(family, place, &read, string.len() as u64, random);
    let room = room(family, place, (&string, &nodes), [start, length], random);
    Case {
        seed,
        number,
        family,
        content,
        string,
        nodes,
        start,
        length,
        room,
        shifts: [0; 3].map(|_: usize| random.between(0, 15) as usize),
    }
}

fn settings(family: Family, place: usize, random: &mut Random) -> Settings {
    match family {
        Family::AnyRange => {
            let (w, p, levels) = (place % 11, place / 11 % 7, place / 77 % 4);
            with_nominal(2 + w as u64, 2 + p as u64, 1 + levels as u64, random)
        }
        Family::ManyNodes if place % 3 == 0 => RULED,
        Family::ManyNodes => many_nodes(random),
        _ => any_allowed(random),
    }
}

fn contents(family: Family, place: usize) -> &'static [Content] {
    match family {
        Family::ManyNodes if place % 3 == 0 => &[Content::Ruler],
        Family::ManyNodes => &[Content::Random, Content::Ruler],
        _ => &KINDS,
    }
}

fn length(family: Family, place: usize, settings: &Settings, random: &mut Random) -> usize {
    match family {
        Family::EmptyString => 0,
        Family::ManyNodes if place % 3 == 0 => FULL_RULER,
        Family::ManyNodes => random.by_size(2_000, 12_000) as usize,
        Family::Middle => any_length(settings, 600, 5_000, random),
        Family::Long if place % 3 == 0 => 65_536,
        Family::Long => any_length(settings, 5_000, 65_536, random),
        _ if place % 40 == 0 => place / 40 % 4,
        _ => any_length(settings, 0, 1_200, random),
    }
}

/// The string and its tree, if question 8 allows it; else its first 4,000 bytes, with settings that allow it.
fn cut(settings: &Settings, mut string: Vec<u8>) -> (Vec<u8>, Vec<Node>) {
    let nodes = tree(settings, &string);
    if nodes_allowed(&nodes) {
        return (string, nodes);
    }
    string.truncate(4_000);
    let nodes = tree(&RULED, &string);
    assert!(nodes_allowed(&nodes), "a tree that is allowed");
    (string, nodes)
}

/// The node table that is lent.
fn nodes(
    family: Family,
    place: usize,
    mut tree: Vec<Node>,
    string: usize,
    random: &mut Random,
) -> Vec<u8> {
    if family == Family::AlteredNodes {
        altered::entries(&mut tree, string, random);
    }
    let mut table = altered::table(&tree);
    match family {
        Family::AlteredBits => altered::bits(&mut table, random),
        Family::Ended => altered::ended(&mut table, random),
        Family::CutOff => altered::cut_off(&mut table, random),
        Family::LongTable => table = altered::long(&tree, string, place, random),
        Family::AnyBytes => {
            let length = random.one_of(&[100, 1_000, 16_003, 65_536, 70_000]);
            table = random.bytes(length);
        }
        _ => {}
    }
    if !matches!(family, Family::CutOff | Family::LongTable) {
        altered::lengthen(&mut table, random);
    }
    table
}

/// The string that is lent: the one that was cut, or another.
fn lent_string(
    family: Family,
    place: usize,
    mut string: Vec<u8>,
    nodes: &[u8],
    random: &mut Random,
) -> Vec<u8> {
    let length = string.len();
    let any = random.between(0, length as u64) as usize;
    // The entries have 17 bits each for start and length.
    let long = [65_536, 65_537, 131_071, 131_072, 200_000, 262_142, 270_000];
    match family {
        Family::OneMemory => return nodes.to_vec(),
        Family::AnyBytes if place % 2 == 0 => string.resize(random.one_of(&long), 1),
        Family::AnyBytes => string.resize(random.between(0, 300_000) as usize, 1),
        Family::OtherString => match place % 7 {
            0 => string.clear(),
            1 => string.truncate(length.saturating_sub(1)),
            2 | 3 => string.truncate(any),
            4 => string.push(1),
            5 => string.resize(length + 100, 1),
            _ => string.resize(random.one_of(&long), 1),
        },
        _ => {}
    }
    string
}

fn range(family: Family, place: usize, nodes: &[Node], string: u64, random: &mut Random) -> Range {
    match family {
        Family::AnyRange => ranges::any(string, random),
        Family::AtNodes => ranges::at_nodes(nodes, string, random),
        Family::OneByte => ranges::one_byte(nodes, string, random),
        Family::NoByte => ranges::no_byte(nodes, string, place, random),
        Family::Whole => [0, string + u64::from(place % 5 == 0)],
        Family::LargeNumbers => ranges::large(string, place, random),
        Family::EmptyString => match place % 2 {
            0 => [0, 0],
            _ => ranges::large(string, place / 2, random),
        },
        _ => match random.between(0, 9) {
            0 => ranges::any(string, random),
            1 => ranges::one_byte(nodes, string, random),
            2 => ranges::no_byte(nodes, string, random.number() as usize, random),
            3 => ranges::large(string, random.number() as usize, random),
            4 | 5 => [0, string],
            _ => ranges::at_nodes(nodes, string, random),
        },
    }
}

/// How many bytes the answer has, if the range is allowed.
fn answer_bytes((string, nodes): (&[u8], &[u8]), [start, length]: Range) -> Option<usize> {
    let mut enough = vec![0; nodes.len()];
    let answer = rcds_crossed(string, nodes, start, length, &mut enough);
    let count = answer.checked_sub(ACCEPTED)?;
    Some(ENTRY_BYTES * count as usize)
}

/// The bytes of the table for the answer.
fn room(
    family: Family,
    place: usize,
    lent: (&[u8], &[u8]),
    range: Range,
    random: &mut Random,
) -> usize {
    let Some(exact) = answer_bytes(lent, range) else {
        // Of a range that is not allowed, too: where it is cut off, there is an answer that does not fit.
        return random.one_of(&[0, 1, 15, 16, 100, 3_000]);
    };
    let longer = exact + random.by_size(1, 3_000) as usize;
    let any = random.between(0, exact as u64) as usize;
    let short = exact.saturating_sub(1);
    match family {
        Family::Room => match place % 10 {
            0 => exact,
            1 => short,
            2 => 0,
            3 => longer,
            4 => exact.saturating_sub(16),
            5 => exact + 1,
            6 => exact + 15,
            7 => exact.saturating_sub(15),
            8 => exact.saturating_sub(8),
            _ => any,
        },
        _ => random.one_of(&[exact, exact, exact, longer, longer, longer, longer, short]),
    }
}
