//! The cases: a sender that is set up, what is lent of it, a message and a buffer, each made from the
//! seed and the case's number alone.

use super::altered::{self, other_string, OTHER_STRINGS};
use super::queries::{self, ABSENT};
use super::setup::{held, Sender};
use crate::content::{self, Content, KINDS};
use crate::failure::first_bytes;
use crate::random::{family_of, together, Random};
use crate::settings::{
    any_allowed, any_length, edge_settings, many_nodes, shortest_blocks, with_nominal, NOMINALS,
};
use reference::lent::Lent;
use reference::sender;
use reference::settings::Settings;
use reference::vectors::{FULL_RULER, RULED};
use std::fmt;

/// One call.
pub struct Case {
    pub seed: u64,
    pub number: usize,
    pub family: Family,
    pub content: Content,
    pub state: Vec<u8>,
    pub lent: Lent,
    pub message: Vec<u8>,
    /// The bytes of the buffer for the reply.
    pub room: usize,
    /// How far the lent pieces are moved in memory, so that most of them are not aligned.
    pub shifts: [usize; 7],
}

impl Case {
    /// Whether the node table or the shingle table is as no setup leaves it.
    pub fn altered(&self) -> bool {
        matches!(
            self.family,
            Family::AlteredNodes
                | Family::AlteredShingles
                | Family::AlteredBoth
                | Family::LateShingles
        )
    }
}

impl fmt::Display for Case {
    fn fmt(&self, f: &mut fmt::Formatter) -> fmt::Result {
        let (settings, width) = held(&self.state);
        writeln!(
            f,
            "{:?}, {:?} string of {} bytes, state of {} bytes, tables of {}, {} and {}, buffer of {}",
            self.family,
            self.content,
            self.lent.string.len(),
            self.state.len(),
            self.lent.nodes.len(),
            self.lent.shingles.len(),
            self.lent.cells.len(),
            self.room,
        )?;
        writeln!(
            f,
            "w={} p={} levels={} nominal={} width={}",
            settings.window, settings.fan_out, settings.levels, settings.nominal, width,
        )?;
        writeln!(f, "the string:{}", first_bytes(&self.lent.string, 32))?;
        write!(f, "the message:{}", first_bytes(&self.message, 32))
    }
}

/// What a case is.
#[derive(Clone, Copy, Debug, PartialEq, Eq, PartialOrd, Ord)]
pub enum Family {
    /// Opening queries, every w, p and L that is allowed.
    Opening,
    /// Queries for nodes of each level, every w, p and L that is allowed.
    Node,
    /// Queries for the whole string.
    Root,
    /// Queries for nodes of level L.
    LastLevel,
    /// Queries for nodes that the table has several times.
    Repeated,
    /// Short blocks of few symbols: many of the orders have a number above 255, or above 4,095.
    HighNumber,
    /// Few short blocks, some of them again: queries for nodes whose trail is the only one, or the first or
    /// another of several.
    SeveralTrails,
    /// Every node of some trees.
    EveryNode,
    /// Queries for nodes that are not there.
    Absent,
    /// Queries with damage.
    Damaged,
    /// Messages of types 3 to 6.
    OtherType,
    /// Compositions whose references rise: the sender's own, or any.
    Rising,
    /// The same with references that do not rise, and right otherwise.
    NotRising,
    /// The same with a number word where none may stand, and right otherwise.
    Misplaced,
    /// Buffers that are exactly long enough, one byte short, empty, longer, or of any size.
    Room,
    /// Another string lent than at setup.
    OtherString,
    /// A shorter string, which ends inside the entry that ends the children of the node asked for.
    EndOutside,
    /// One table of a size around its limit, or much shorter or longer.
    OneSize,
    /// String, tables, message and buffer, several of which are refused.
    Several,
    /// States of 0 to 48 bytes.
    ShortState,
    /// States with settings at or past the ends of what 1 to 5 allow.
    OddState,
    /// States with settings that are allowed, but other than at setup.
    OtherState,
    /// Cell tables of any content.
    AlteredCells,
    /// Node tables as no setup leaves them.
    AlteredNodes,
    /// Shingle tables as no setup leaves them.
    AlteredShingles,
    /// Longer shingle tables, the list behind about 4,096 other entries.
    LateShingles,
    /// Both.
    AlteredBoth,
    /// Rulers and random strings that have thousands of nodes.
    ManyNodes,
    /// Strings of up to 5,000 bytes.
    Middle,
    /// Strings of up to 65,536 bytes, every third of exactly that many.
    Long,
}

/// Of how many trees every node is asked for, and how many nodes a tree has at most of which that holds.
const TREES: usize = 40;
const NODES: usize = 96;

/// How often a string is drawn again until it has a node with such trails.
const DRAWS: usize = 20;

/// The families, and how many cases each has.
pub const FAMILIES: [(Family, usize); 30] = [
    (Family::Opening, 11 * 7 * 4 * 4),
    (Family::Node, 11 * 7 * 4 * 20),
    (Family::Root, 600),
    (Family::LastLevel, 800),
    (Family::Repeated, 1_200),
    (Family::HighNumber, 1_000),
    (Family::SeveralTrails, 1_500),
    (Family::EveryNode, TREES * NODES),
    (Family::Absent, ABSENT * 150),
    (Family::Damaged, 1_800),
    (Family::OtherType, 900),
    (Family::Rising, 300),
    (Family::NotRising, 600),
    (Family::Misplaced, 400),
    (Family::Room, 2_400),
    (Family::OtherString, OTHER_STRINGS * 250),
    (Family::EndOutside, 300),
    (Family::OneSize, 1_200),
    (Family::Several, 600),
    (Family::ShortState, 49 * 12),
    (Family::OddState, 8 * 8 * 8 * NOMINALS / 4),
    (Family::OtherState, 800),
    (Family::AlteredCells, 500),
    (Family::AlteredNodes, 1_200),
    (Family::AlteredShingles, 800),
    (Family::LateShingles, 120),
    (Family::AlteredBoth, 300),
    (Family::ManyNodes, 60),
    (Family::Middle, 1_000),
    (Family::Long, 120),
];

/// How many cases a run has.
pub fn count() -> usize {
    together(FAMILIES)
}

/// The case of this number.
pub fn case(seed: u64, number: usize) -> Case {
    let (family, place) = family_of(FAMILIES, number);
    family_case(family, place, seed, number)
}

fn family_case(family: Family, place: usize, seed: u64, number: usize) -> Case {
    let mut random = Random::of_case(seed, number);
    let (content, mut sender) = match family {
        // The cases of one tree draw the same string and the same settings.
        Family::EveryNode => {
            let tree = place / NODES;
            let mut of_tree = Random::of_case(seed, count() + tree);
            with_such_a_node(family, tree, &mut of_tree)
        }
        Family::SeveralTrails => with_such_a_node(family, place, &mut random),
        _ => content_and_sender(family, place, &mut random),
    };
    let random = &mut random;
    let mut message = message(family, place, &sender, random);
    let mut state = sender.state();
    match family {
        Family::EndOutside => {
            if let Some((query, length)) = queries::with_end_outside(&sender, random) {
                message = query;
                sender.lent.string.truncate(length);
            }
        }
        Family::OtherString => {
            sender.lent.string = other_string(&sender.lent.string, place, random);
        }
        Family::OneSize => one_size(&mut sender, place, random),
        Family::Several => several(&mut sender, &mut state, random),
        Family::ShortState => state.resize(place % 49, random.one_of(&[0, 0, 0xff])),
        Family::OddState => state = odd_state(place, random),
        Family::OtherState => other_state(&mut state, random),
        Family::AlteredCells => altered::cells(&mut sender.lent.cells, random),
        Family::AlteredNodes => altered::nodes(&mut sender, random),
        Family::AlteredShingles => altered::shingles(&mut sender, random),
        Family::LateShingles => altered::late_shingles(&mut sender, random),
        Family::AlteredBoth => {
            altered::nodes(&mut sender, random);
            altered::shingles(&mut sender, random);
        }
        _ => {}
    }
    if random.between(0, 3) == 0 && state.len() == sender::STATE_BYTES {
        let more = random.one_of(&[1, 7, 8, 40]);
        state.extend(random.bytes(more));
    }
    let room = room(family, place, sender.reply_length(&message), random);
    Case {
        seed,
        number,
        family,
        content,
        state,
        lent: sender.lent,
        message,
        room,
        shifts: [0; 7].map(|_: usize| random.between(0, 15) as usize),
    }
}

/// A sender that is set up, and what its string holds.
fn content_and_sender(family: Family, place: usize, random: &mut Random) -> (Content, Sender) {
    let settings = settings(family, place, random);
    let content = content(family, place, random);
    let length = length(family, place, &settings, random);
    let string = content::string(content, length, random);
    let width = random.between(1, 64);
    (content, Sender::new(settings, width, string, random))
}

/// The same, drawn again while it has no node with trails of the kind whose turn it is, but not for ever.
fn with_such_a_node(family: Family, place: usize, random: &mut Random) -> (Content, Sender) {
    let mut drawn = content_and_sender(family, place, random);
    for _ in 0..DRAWS {
        if !queries::with_trails(&drawn.1, place).is_empty() {
            break;
        }
        drawn = content_and_sender(family, place, random);
    }
    drawn
}

fn settings(family: Family, place: usize, random: &mut Random) -> Settings {
    match family {
        Family::Opening | Family::Node => {
            let (w, p, levels) = (place % 11, place / 11 % 7, place / 77 % 4);
            with_nominal(2 + w as u64, 2 + p as u64, 1 + levels as u64, random)
        }
        Family::HighNumber => short_blocks(random),
        Family::SeveralTrails | Family::EveryNode => shortest_blocks(random),
        Family::Long if place % 6 == 0 => longest_block(),
        Family::EndOutside => {
            let (w, p, levels) = (
                random.between(2, 5),
                random.between(2, 8),
                random.between(2, 4),
            );
            with_nominal(w, p, levels, random)
        }
        Family::ManyNodes if place % 3 == 0 => RULED,
        Family::ManyNodes => many_nodes(random),
        Family::Repeated if place % 2 == 0 => many_nodes(random),
        _ => any_allowed(random),
    }
}

/// Settings with which strings of few symbols have short blocks, few of them different.
fn short_blocks(random: &mut Random) -> Settings {
    let (fan_out, levels) = (random.between(2, 4), random.between(1, 2));
    let least = fan_out.pow(levels as u32);
    Settings {
        window: 2,
        fan_out,
        levels,
        nominal: random.between(least, 2 * least),
    }
}

/// The settings with which a string of 65,536 equal bytes is one block.
fn longest_block() -> Settings {
    Settings {
        window: 12,
        fan_out: 2,
        levels: 1,
        nominal: 65_536,
    }
}

fn content(family: Family, place: usize, random: &mut Random) -> Content {
    match family {
        Family::HighNumber => Content::FewSymbols,
        Family::SeveralTrails | Family::EveryNode => random.one_of(&[
            Content::FewSymbols,
            Content::FewSymbols,
            Content::FewSymbols,
            Content::Repeats,
            Content::Edited,
            Content::Random,
        ]),
        Family::ManyNodes if place % 3 == 0 => Content::Ruler,
        Family::ManyNodes => [Content::Random, Content::Ruler][place % 2],
        Family::Long if place % 6 == 0 => [Content::Zeros, Content::Random][place / 6 % 2],
        Family::Repeated => random.one_of(&[
            Content::Zeros,
            Content::AllEqual,
            Content::Ruler,
            Content::Repeats,
            Content::Edited,
            Content::HashesToZero,
        ]),
        _ => random.one_of(&KINDS),
    }
}

fn length(family: Family, place: usize, settings: &Settings, random: &mut Random) -> usize {
    match family {
        Family::HighNumber => random.between(60, 200) as usize,
        Family::SeveralTrails | Family::EveryNode => random.between(11, 60) as usize,
        Family::ManyNodes if place % 3 == 0 => FULL_RULER,
        Family::ManyNodes => random.by_size(2_000, 12_000) as usize,
        Family::EndOutside => any_length(settings, 20, 2_000, random),
        Family::Middle => any_length(settings, 600, 5_000, random),
        Family::Long if place % 3 == 0 => 65_536,
        Family::Long => any_length(settings, 5_000, 65_536, random),
        _ if place % 20 == 0 => place / 20 % 4,
        _ => any_length(settings, 0, 1_200, random),
    }
}

fn message(family: Family, place: usize, sender: &Sender, random: &mut Random) -> Vec<u8> {
    match family {
        Family::Opening | Family::AlteredCells => queries::opening_query(random),
        Family::Node => queries::of_any_level(sender, place / 308, random),
        Family::Root => queries::of_the_root(sender, random),
        Family::Long if place % 12 == 0 => queries::of_the_last_level(sender, random),
        Family::LastLevel => queries::of_the_last_level(sender, random),
        Family::Repeated => queries::of_a_repeated_node(sender, random),
        Family::HighNumber => queries::of_a_high_number(sender, place, random),
        Family::SeveralTrails => queries::of_several_trails(sender, place, random),
        Family::EveryNode => {
            assert!(sender.nodes().len() <= NODES, "a node is not asked for");
            queries::of_each(sender, place % NODES, random)
        }
        Family::Absent => queries::absent(sender, place, random),
        Family::Damaged => queries::damaged_query(sender, place, random),
        Family::OtherType => queries::other_type(sender, place, random),
        Family::Rising => queries::composition(sender, random),
        Family::NotRising => queries::not_rising(sender, place, random),
        Family::Misplaced => queries::misplaced_number(sender, place, random),
        Family::OtherString => match place / OTHER_STRINGS % 4 {
            0 => queries::of_the_last_level(sender, random),
            1 => queries::of_a_repeated_node(sender, random),
            _ => queries::any(sender, place / OTHER_STRINGS / 4, random),
        },
        Family::Several => match random.between(0, 3) {
            0 => queries::damaged_query(sender, place, random),
            1 => queries::other_type(sender, place, random),
            _ => queries::any(sender, place, random),
        },
        Family::AlteredNodes | Family::AlteredShingles | Family::AlteredBoth => {
            match random.between(0, 4) {
                0 => queries::absent(sender, place, random),
                _ => queries::any(sender, place, random),
            }
        }
        _ => queries::any(sender, place, random),
    }
}

/// The buffer of a reply of so many bytes.
fn room(family: Family, place: usize, reply: usize, random: &mut Random) -> usize {
    let longer = reply + random.by_size(1, 3_000) as usize;
    let any = random.between(0, reply as u64) as usize;
    let short = reply.saturating_sub(1);
    match family {
        Family::Room => match place % 8 {
            0 => reply,
            1 => short,
            2 => 0,
            3 => longer,
            4 => reply.saturating_sub(4),
            5 => reply + 1,
            6 => reply.saturating_sub(random.between(0, 8) as usize),
            _ => any,
        },
        // So that every node is replied to.
        Family::EveryNode => random.one_of(&[reply, longer]),
        Family::OtherType
        | Family::Rising
        | Family::NotRising
        | Family::Misplaced
        | Family::Damaged
        | Family::Several => random.one_of(&[0, 8, 100, 3_000, longer]),
        Family::OtherString
        | Family::EndOutside
        | Family::AlteredNodes
        | Family::AlteredShingles => random.one_of(&[reply, short, longer, longer, 90_000]),
        _ => random.one_of(&[reply, reply, longer, longer, longer, longer, longer, short]),
    }
}

/// Any size of one table, the tables in turn.
fn one_size(sender: &mut Sender, place: usize, random: &mut Random) {
    let cells = 120 * sender.width as usize;
    match place % 3 {
        0 => resize(&mut sender.lent.nodes, 65_536, 16, random),
        1 => resize(&mut sender.lent.shingles, 98_304, 24, random),
        _ => resize(&mut sender.lent.cells, cells, 40, random),
    }
}

/// A size around the limit, or any.
fn resize(bytes: &mut Vec<u8>, limit: usize, entry: usize, random: &mut Random) {
    let short = random.between(0, limit as u64 - 1) as usize;
    let sizes = [
        0,
        1,
        short,
        limit - entry,
        limit - 1,
        limit,
        limit + 1,
        limit + entry,
        2 * limit,
    ];
    bytes.resize(random.one_of(&sizes), 0);
}

/// Some of string, tables and state as a question refuses them.
fn several(sender: &mut Sender, state: &mut Vec<u8>, random: &mut Random) {
    for place in 0..3 {
        if random.between(0, 3) == 0 {
            one_size(sender, place, random);
        }
    }
    if random.between(0, 2) == 0 {
        sender.lent.string = vec![3; 65_537];
    }
    match random.between(0, 3) {
        0 => state.truncate(random.between(0, 39) as usize),
        1 => {
            let row = random.between(0, 4) as usize;
            state[8 * row + 7] = random.one_of(&[0, 1, 200]);
        }
        _ => {}
    }
}

/// q at and past the ends of what question 5 allows; also numbers that would be allowed if only their
/// low 8 or 32 bits were looked at, and one whose 3q cells have no bytes modulo 2^64.
const WIDTHS: [u64; 10] = [
    0,
    1,
    64,
    65,
    128,
    256 + 1,
    1 << 16,
    (1 << 32) + 1,
    1 << 61,
    u64::MAX,
];

/// A state of settings at or past the ends of what is allowed.
fn odd_state(place: usize, random: &mut Random) -> Vec<u8> {
    let any = random.between(1, 64);
    let (settings, width) = match random.between(0, 2) {
        0 => (any_allowed(random), WIDTHS[place % WIDTHS.len()]),
        1 => (
            edge_settings(4 * place + random.between(0, 3) as usize),
            any,
        ),
        _ => {
            let edge = edge_settings(4 * place + random.between(0, 3) as usize);
            (edge, WIDTHS[place % WIDTHS.len()])
        }
    };
    let mut state = vec![0; sender::STATE_BYTES];
    sender::write(&settings, width, &mut state);
    state
}

/// One of the settings replaced by another that is allowed, or all.
fn other_state(state: &mut [u8], random: &mut Random) {
    let other = any_allowed(random);
    let (mut settings, mut width) = held(state);
    match random.between(0, 4) {
        0 => settings.window = other.window,
        1 => settings.levels = other.levels,
        2 => settings.nominal = other.nominal,
        3 => width = random.between(1, 64),
        _ => settings = other,
    }
    sender::write(&settings, width, state);
}
