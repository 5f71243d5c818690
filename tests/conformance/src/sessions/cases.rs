//! The cases: two ends, what they are lent, and how their session goes, each made from the seed and the
//! case's number alone.

use super::strings::{self, Pair};
use crate::content::{self, Content, KINDS};
use crate::failure::first_bytes;
use crate::random::{family_of, together, Random};
use crate::settings::{edge_settings, many_nodes, shortest_blocks, NOMINALS};
use reference::lent::Lent as Memory;
use reference::message::{encode, Body, Message};
use reference::rcds::ACCEPTED;
use reference::receiver::{Receiver, Stage, SESSIONS};
use reference::receiver_state::{self, STATE_BYTES};
use reference::reply::reply;
use reference::sender;
use reference::settings::Settings;
use reference::vectors::{ruler, FULL_RULER, RULED};
use std::fmt;

/// One session.
pub struct Case {
    pub seed: u64,
    pub number: usize,
    pub family: Family,
    pub pair: Pair,
    pub settings: Settings,
    pub width: u64,
    /// The number that the receiver's setup is called with.
    pub session: u64,
    /// What each end is lent, before its setup: string and tables, and the state.
    pub sender: (Memory, Vec<u8>),
    pub receiver: (Memory, Vec<u8>),
    /// The output buffer before the first call.
    pub output: Vec<u8>,
    pub course: Course,
}

/// How a session goes.
#[derive(Clone, Copy, Debug, Default)]
pub struct Course {
    /// Of a hundred messages on the link: lost, and repeated.
    pub loss: u64,
    pub repeat: u64,
    /// Of a hundred messages taken: forged.
    pub forged: u64,
    /// Of a hundred messages taken: over altered memory, over an altered state, over a piece that is
    /// too short.
    pub memory: u64,
    pub state: u64,
    pub short: u64,
    /// Of a hundred replies: over another string, other cells, another state or a piece too short.
    pub sender: u64,
    /// What happens before the session is finished query by query, and how many queries that takes at
    /// most.
    pub turns: u64,
    pub rounds: u64,
}

impl fmt::Display for Case {
    fn fmt(&self, f: &mut fmt::Formatter) -> fmt::Result {
        let Settings {
            window,
            fan_out,
            levels,
            nominal,
        } = self.settings;
        let (sender, own) = (&self.sender.0.string, &self.receiver.0.string);
        writeln!(
            f,
            "{:?}, {:?}: {} bytes at the sender, {} at the receiver, output of {}",
            self.family,
            self.pair,
            sender.len(),
            own.len(),
            self.output.len(),
        )?;
        writeln!(
            f,
            "w={window} p={fan_out} levels={levels} nominal={nominal} width={} session={}",
            self.width, self.session,
        )?;
        writeln!(f, "{:?}", self.course)?;
        writeln!(f, "the sender's string:{}", first_bytes(sender, 32))?;
        write!(f, "the receiver's string:{}", first_bytes(own, 32))
    }
}

/// What a session is.
#[derive(Clone, Copy, Debug, PartialEq, Eq, PartialOrd, Ord)]
pub enum Family {
    /// Every query answered at once, every w, p and L that is allowed.
    Plain,
    /// Genuine messages over a link that loses, repeats, reorders and delays, and strays.
    Link,
    /// The same with forged and damaged messages.
    Forged,
    /// Before each composition the same with references that do not rise, at every call that reads it.
    NotRising,
    /// Before each composition the same with another number, without its number or with number words elsewhere.
    OtherForms,
    /// The same of strings that have a node with several trails.
    SeveralTrails,
    /// Forged messages, over altered strings, tables and outputs.
    AlteredMemory,
    /// Forged messages, over altered states.
    AlteredState,
    /// All of it.
    Everything,
    /// Pieces that are too short, at the setups and later.
    Short,
    /// Settings at or past the ends of what 1 to 5 allow, and calls after a refused setup.
    OddSettings,
    /// Orders with high numbers, so that nodes above the last level have literals.
    ManyTrails,
    /// Rulers and repeats: queries in the same words, one after the other.
    SameWords,
    /// States with full piles.
    Piles,
    /// Strings of up to 5,000 bytes.
    Middle,
    /// Rulers and random strings that have thousands of nodes, or too many.
    ManyNodes,
    /// Strings of up to 65,536 bytes, every third of exactly that many.
    Long,
    /// 4,096 nodes of which the receiver has none: 4,097 replies.
    MostReplies,
    /// A forged sender that never comes to an end.
    Endless,
    /// Pieces for reading that hold the same bytes: a string that is the end's state or the message.
    OneMemory,
    /// States that announce more than 65,536 bytes, and outputs that hold them.
    Announced,
    /// Compositions whose counts add up to 33, and all else is right.
    Sum,
}

/// The families, and how many cases each has.
pub const FAMILIES: [(Family, usize); 22] = [
    (Family::Plain, 11 * 7 * 4 * 12),
    (Family::Link, 4_000),
    (Family::Forged, 7_000),
    (Family::NotRising, 600),
    (Family::OtherForms, 390),
    (Family::SeveralTrails, 600),
    (Family::AlteredMemory, 4_000),
    (Family::AlteredState, 5_000),
    (Family::Everything, 2_500),
    (Family::Short, 1_200),
    (Family::OddSettings, 8 * 8 * 8 * NOMINALS / 4),
    (Family::ManyTrails, 500),
    (Family::SameWords, 400),
    (Family::Piles, 600),
    (Family::Middle, 400),
    (Family::ManyNodes, 40),
    (Family::Long, 90),
    (Family::MostReplies, 4),
    (Family::Endless, 4),
    (Family::OneMemory, 132),
    (Family::Announced, 60),
    (Family::Sum, 60),
];

/// The longest strings of many nodes. From about 8,000 bytes of a ruler and 10,500 of any bytes on there are too many.
const LONGEST_OF_MANY: u64 = 12_000;

/// How many cases a run has.
pub fn count() -> usize {
    together(FAMILIES)
}

/// The case of this number.
pub fn case(seed: u64, number: usize) -> Case {
    let (family, place) = family_of(FAMILIES, number);
    let mut random = Random::of_case(seed, number);
    let random = &mut random;
    let content = content(family, place, random);
    let length = length(family, place, random);
    let settings = settings(family, place, length, random);
    let (pair, sender, own) = two_strings(family, &settings, content, length, random);
    let (width, setup_width) = widths(family, place, random);
    let output = output(family, sender.len(), random);
    let mut case = Case {
        seed,
        number,
        family,
        pair,
        settings,
        width: setup_width,
        session: random.number() >> random.between(0, 63),
        sender: lent(family, sender, width, sender::STATE_BYTES, random),
        receiver: lent(family, own, width, STATE_BYTES, random),
        output,
        course: course(family, random),
    };
    if family == Family::OneMemory {
        one_memory(&mut case, place);
    }
    case
}

/// One end's string becomes what another piece holds that is lent for reading with it: the sender's state or
/// the query it gets, the receiver's state or the opening.
fn one_memory(case: &mut Case, place: usize) {
    let session = (case.session % SESSIONS) as u32;
    let opening_query = encode(&Message {
        session,
        body: Body::OpeningQuery,
    });
    let state = Receiver {
        settings: case.settings,
        width: case.width,
        session: u64::from(session),
        stage: Stage::BeforeOpening,
        length: 0,
        root: 0,
        built: 0,
        replies: 0,
        pile: Vec::new(),
    };
    case.sender.1.truncate(sender::STATE_BYTES);
    case.receiver.1.truncate(STATE_BYTES);
    match place % 4 {
        0 => case.sender.0.string = opening_query,
        1 => {
            let mut bytes = vec![0; STATE_BYTES];
            receiver_state::write(&state, &mut bytes);
            // Both states begin with the five settings.
            case.sender.0.string = bytes[..sender::STATE_BYTES].to_vec();
        }
        2 => {
            let mut bytes = vec![0; STATE_BYTES];
            receiver_state::write(&state, &mut bytes);
            case.receiver.0.string = bytes;
        }
        _ => {
            let mut memory = case.sender.0.clone();
            memory.set_up(&case.settings, case.width);
            let mut opening = vec![0; 14_000];
            let answer = reply(
                &case.settings,
                case.width,
                &memory,
                &opening_query,
                &mut opening,
            );
            opening.truncate(answer.saturating_sub(ACCEPTED) as usize);
            case.receiver.0.string = opening;
        }
    }
}

fn content(family: Family, place: usize, random: &mut Random) -> Content {
    match family {
        Family::ManyTrails | Family::SeveralTrails => Content::FewSymbols,
        Family::ManyNodes => [Content::Ruler, Content::Random][place % 2],
        Family::MostReplies | Family::Endless => Content::Ruler,
        Family::Long => [Content::Random, Content::Samples][place % 2],
        Family::SameWords => random.one_of(&[
            Content::Ruler,
            Content::Repeats,
            Content::Repeats,
            Content::HashesToZero,
        ]),
        _ => random.one_of(&KINDS),
    }
}

fn length(family: Family, place: usize, random: &mut Random) -> usize {
    match family {
        Family::ManyTrails => random.between(60, 200) as usize,
        Family::SeveralTrails => random.between(11, 60) as usize,
        Family::ManyNodes => random.between(4_000, LONGEST_OF_MANY) as usize,
        Family::MostReplies | Family::Endless => FULL_RULER,
        Family::Middle => random.by_size(400, 5_000) as usize,
        Family::Long if place % 3 == 0 => 65_536,
        Family::Long => random.by_size(8_000, 65_536) as usize,
        _ if place % 20 == 0 => place / 20 % 4,
        _ => random.by_size(0, 400) as usize,
    }
}

fn settings(family: Family, place: usize, length: usize, random: &mut Random) -> Settings {
    match family {
        Family::Plain => {
            let (w, p, levels) = (place % 11, place / 11 % 7, place / 77 % 4);
            let (fan_out, levels) = (2 + p as u64, 1 + levels as u64);
            Settings {
                window: 2 + w as u64,
                fan_out,
                levels,
                nominal: strings::nominal(fan_out, levels, length, random),
            }
        }
        Family::OddSettings if place % 3 > 0 => {
            edge_settings(4 * place + random.between(0, 3) as usize)
        }
        Family::ManyTrails => strings::many_trails(random),
        Family::SeveralTrails => shortest_blocks(random),
        Family::ManyNodes if place % 3 == 0 => RULED,
        Family::ManyNodes => many_nodes(random),
        Family::MostReplies | Family::Endless => RULED,
        // Blocks of some hundred bytes at the last level.
        Family::Long => Settings {
            window: random.between(2, 12),
            fan_out: random.between(4, 8),
            levels: random.between(3, 4),
            nominal: random.between(16_384, 65_536),
        },
        _ => strings::settings(length, random),
    }
}

fn two_strings(
    family: Family,
    settings: &Settings,
    content: Content,
    length: usize,
    random: &mut Random,
) -> (Pair, Vec<u8>, Vec<u8>) {
    match family {
        Family::MostReplies | Family::Endless => (Pair::Unrelated, ruler(length), vec![1, 2, 3]),
        Family::Long | Family::ManyTrails | Family::ManyNodes => {
            let sender = content::string(content, length, random);
            let mut own = sender.clone();
            strings::edit(&mut own, random);
            own.truncate(65_536);
            (Pair::OneEdit, sender, own)
        }
        Family::SeveralTrails => {
            let sender = strings::with_several_trails(settings, content, length, random);
            let mut own = sender.clone();
            strings::edit(&mut own, random);
            (Pair::OneEdit, sender, own)
        }
        // A block of the other's tree needs settings that cut.
        Family::OddSettings => {
            let cutting = strings::settings(length, random);
            strings::pair(&cutting, content, length, random)
        }
        _ => strings::pair(settings, content, length, random),
    }
}

/// q at and past the ends of what question 5 allows; also numbers that would be allowed if only their
/// low 8 or 32 bits were looked at, and one whose 3q cells have no bytes modulo 2^64.
const ODD_WIDTHS: [u64; 8] = [0, 1, 64, 65, 256 + 1, (1 << 32) + 1, 1 << 61, u64::MAX];

/// The width that the cell tables are long enough for, and that of the setups.
fn widths(family: Family, place: usize, random: &mut Random) -> (u64, u64) {
    let width = match family {
        Family::Long | Family::MostReplies | Family::Endless => 64,
        _ => strings::width(random),
    };
    match family {
        Family::OddSettings if place % 3 != 1 => (64, ODD_WIDTHS[place % ODD_WIDTHS.len()]),
        _ => (width, width),
    }
}

/// An output buffer that is long enough more often than not.
fn output(family: Family, needed: usize, random: &mut Random) -> Vec<u8> {
    let shorter = needed.saturating_sub(random.by_size(1, 40) as usize);
    let longer = needed + random.by_size(1, 300) as usize;
    let length = match (family, random.between(0, 19)) {
        (Family::Plain | Family::Long | Family::MostReplies | Family::Endless, 0..=9) => needed,
        (Family::Plain | Family::Long | Family::MostReplies | Family::Endless, _) => longer,
        (Family::Announced, _) => 65_537 + random.by_size(0, 300) as usize,
        (Family::OneMemory, _) => needed.max(40),
        (_, 0) => shorter,
        (_, 1) => 65_536 + random.one_of(&[0, 1, 100]),
        (_, 2..=9) => needed,
        _ => longer,
    };
    random.bytes(length)
}

/// String, tables and state of an end before its setup, with any content; a little longer than they
/// have to be, or, where the family is about that, shorter; and then some strings too long.
fn lent(
    family: Family,
    string: Vec<u8>,
    width: u64,
    state: usize,
    random: &mut Random,
) -> (Memory, Vec<u8>) {
    let content = random.number() as u8;
    let short = match (family, random.between(0, 11)) {
        (Family::Short, which @ 0..=4) => Some(which),
        _ => None,
    };
    let mut length = |piece: u64, limit: usize, entry: usize| match short == Some(piece) {
        true => {
            let any = random.by_size(1, limit as u64) as usize;
            limit - random.one_of(&[1, any, limit])
        }
        false => limit + random.one_of(&[0, 0, 0, 1, entry, 3 * entry + 1]),
    };
    let mut memory = Memory {
        string,
        nodes: vec![content; length(0, 65_536, 16)],
        shingles: vec![content; length(1, 98_304, 24)],
        cells: vec![content; length(2, 120 * width as usize, 40)],
    };
    let bytes = length(3, state, 8);
    if short == Some(4) {
        memory.string.resize(65_537, content);
    }
    (memory, random.bytes(bytes))
}

fn course(family: Family, random: &mut Random) -> Course {
    let link = Course {
        loss: random.one_of(&[0, 10, 30, 60]),
        repeat: random.one_of(&[0, 10, 30]),
        turns: random.by_size(0, 80),
        rounds: random.one_of(&[0, 60, 60, 60]),
        ..Course::default()
    };
    let chance = random.one_of(&[3, 10, 30, 60]);
    match family {
        Family::Plain | Family::ManyTrails | Family::Middle | Family::OneMemory => Course {
            rounds: 120,
            ..Course::default()
        },
        Family::Link | Family::NotRising => link,
        Family::OtherForms | Family::SeveralTrails => Course {
            turns: random.by_size(0, 20),
            rounds: 120,
            ..link
        },
        Family::Forged => Course {
            forged: chance,
            ..link
        },
        Family::AlteredMemory => Course {
            forged: 20,
            memory: chance,
            sender: chance / 2,
            ..link
        },
        Family::AlteredState => Course {
            forged: 35,
            state: chance,
            ..link
        },
        Family::Everything => Course {
            forged: chance,
            memory: chance / 2,
            state: chance / 2,
            sender: chance / 2,
            short: chance / 2,
            ..link
        },
        Family::Short => Course {
            short: chance,
            sender: chance / 2,
            ..link
        },
        Family::SameWords => Course {
            repeat: 30,
            forged: random.one_of(&[0, 10]),
            turns: 150,
            ..link
        },
        Family::OddSettings => Course {
            turns: 12,
            state: 30,
            ..link
        },
        Family::Piles => Course {
            state: 40,
            turns: 0,
            rounds: 40,
            ..link
        },
        Family::ManyNodes => Course {
            rounds: 100,
            ..Course::default()
        },
        Family::Long => Course {
            loss: 20,
            repeat: 20,
            turns: 60,
            rounds: 4_097,
            ..Course::default()
        },
        Family::Announced => Course {
            rounds: 2,
            ..Course::default()
        },
        Family::MostReplies | Family::Endless | Family::Sum => Course {
            rounds: 4_200,
            ..Course::default()
        },
    }
}
