//! The comparison tested: one function that is right, and many that are wrong in one place each.
//! Every wrong one must be found, and the right one must pass a quarter of the cases. Messages are
//! read and written by the reference: their faults are tested with `rcds_message_type`.

use super::cases::count;
use super::compare::Reply;
use super::report::run;
use super::setup::held;
use crate::lent::{part, part_mut};
use crate::messages::{numbers, order};
use crate::openings::lists::cells_there;
use reference::fnv::fnv1a;
use reference::lent::Lent;
use reference::message::{encode, parse, Body, Message, Opening};
use reference::node_table;
use reference::settings::Settings;
use reference::shingle::{children, Shingle};
use reference::sketch::sketch;
use reference::trail::{multiset, number_of_order, pairs, trail};
use reference::tree::Node;
use reference::word::Reference;

const NONE: u8 = 0;
const STATE_LOW_BYTE_FIRST: u8 = 1;
const STATE_READ_IN_PARTS: u8 = 2;
const SHORT_STATE_BY_7: u8 = 3;
const WIDTH_LOW_32_BITS: u8 = 4;
const NOMINAL_NOT_ASKED: u8 = 5;
const WIDTH_NOT_ASKED: u8 = 6;
const STRING_NOT_ASKED: u8 = 7;
const STRING_65536_REFUSED: u8 = 8;
const NODES_NOT_ASKED: u8 = 9;
const SHINGLES_NOT_ASKED: u8 = 10;
const CELLS_NOT_ASKED: u8 = 11;
const CELLS_FOR_WIDTH_64: u8 = 12;
const MESSAGE_FIRST: u8 = 13;
const OTHER_TYPES_BY_10: u8 = 14;
const NOT_RISING_BY_11: u8 = 15;
const ROOM_BEFORE_TYPE: u8 = 16;
const ONLY_HEAD_READ: u8 = 17;
const NONE_IS_REFUSED: u8 = 18;
const LEVEL_NOT_ASKED: u8 = 19;
const LEVEL_3_BITS: u8 = 20;
const LEVEL_8_BITS: u8 = 21;
const ID_LOW_32_BITS: u8 = 22;
const ID_0_FOUND: u8 = 23;
const LAST_NODE: u8 = 24;
const OUTSIDE_FOUND: u8 = 25;
const END_OF_STRING_OUTSIDE: u8 = 26;
const LEVEL_ABOVE_L_REFUSED: u8 = 27;
const HIGH_NUMBER_SENT: u8 = 28;
const NUMBERS_TO_255: u8 = 29;
const COMPOSITION_AT_LAST_LEVEL: u8 = 30;
const LEVEL_4_IS_LAST: u8 = 31;
const ALWAYS_LITERAL: u8 = 32;
const COUNTS_OF_THE_LIST: u8 = 33;
const COUNTS_ALWAYS_1: u8 = 34;
const INDEX_FROM_1: u8 = 35;
const PAIR_AT_ANY_LEVEL: u8 = 36;
const REFERENCES_FALLING: u8 = 37;
const REFERENCES_AS_THE_CHILDREN_COME: u8 = 38;
const REFERENCE_FOR_EACH_CHILD: u8 = 39;
const NUMBER_ALWAYS_0: u8 = 40;
const GRANDCHILDREN_TOO: u8 = 41;
const LAST_CHILD_LEFT_OUT: u8 = 42;
const LENGTH_AT_SETUP: u8 = 43;
const ROOT_OF_THE_STRING: u8 = 44;
const CELLS_OF_THE_LIST: u8 = 45;
const CELL_VALUES_REORDERED: u8 = 46;
const RULE_0: u8 = 47;
const SESSION_16_BITS: u8 = 48;
const SESSION_0: u8 = 49;
const EXACT_ROOM_REFUSED: u8 = 50;
const WRITTEN_AT_20: u8 = 51;
const REST_CLEARED: u8 = 52;
const CLEARED_WHEN_REFUSED: u8 = 53;
const COUNTS_WORDS: u8 = 54;
const STATE_CHANGED: u8 = 55;
const STRING_CHANGED: u8 = 56;
const NODES_CHANGED: u8 = 57;
const SHINGLES_CHANGED: u8 = 58;
const CELLS_CHANGED: u8 = 59;
const MESSAGE_CHANGED: u8 = 60;
const PAST_THE_BUFFER: u8 = 61;
const BEFORE_THE_BUFFER: u8 = 62;
const NUMBER_ALWAYS_WRITTEN: u8 = 63;
const NUMBER_NEVER_WRITTEN: u8 = 64;
const NUMBER_0_OMITTED: u8 = 65;
const OMITTED_OF_ONE_CHILD_ALONE: u8 = 66;
const OMITTED_OF_DIFFERENT_CHILDREN_ALONE: u8 = 67;
const LAST_NUMBER_OMITTED: u8 = 68;
const OMITTED_OF_TWO_TRAILS: u8 = 69;
const OMITTED_WHERE_OTHERS_ARE: u8 = 70;
const NUMBER_AFTER_THE_REFERENCES: u8 = 71;
const OMITTED_BUT_COUNTED: u8 = 72;
const MISPLACED_BY_11: u8 = 73;
const RULE_1: u8 = 74;
const RULE_2: u8 = 75;
const RULE_OF_THE_WINDOW: u8 = 76;
const RULE_4: u8 = 77;

// Where the reply is free: the highest numbers.
const FREE_REPLY_NO_MESSAGE: u8 = 100;
const FREE_ANSWER_14: u8 = 101;
const FREE_REPLY_OTHER_SESSION: u8 = 102;

/// The settings that a state holds, and the width.
fn settings(fault: u8, state: &[u8]) -> (Settings, u64) {
    let mut bytes = state.to_vec();
    if fault == STATE_READ_IN_PARTS {
        bytes.resize(bytes.len().max(40), 0);
    }
    if fault == STATE_LOW_BYTE_FIRST {
        bytes.chunks_exact_mut(8).for_each(|row| row.reverse());
    }
    let (settings, mut width) = held(&bytes);
    if fault == WIDTH_LOW_32_BITS {
        width &= 0xffff_ffff;
    }
    (settings, width)
}

/// The first of 1 to 7 that has a no.
fn refused(fault: u8, settings: &Settings, width: u64, state: &[u8], lent: &Lent) -> Option<u64> {
    let mut asked = lent.clone();
    let mut with = *settings;
    let mut of_width = width;
    match fault {
        SHORT_STATE_BY_7 if state.len() < 40 => return Some(7),
        NOMINAL_NOT_ASKED => with.nominal = 65_536,
        WIDTH_NOT_ASKED if width > 64 => of_width = 64,
        STRING_NOT_ASKED => asked.string.clear(),
        STRING_65536_REFUSED if lent.string.len() == 65_536 => asked.string.push(0),
        NODES_NOT_ASKED => asked.nodes.resize(65_536, 0),
        SHINGLES_NOT_ASKED => asked.shingles.resize(98_304, 0),
        CELLS_NOT_ASKED => asked.cells.resize(7_680, 0),
        CELLS_FOR_WIDTH_64 if lent.cells.len() < 7_680 && (1..=64).contains(&width) => {
            asked.cells.clear();
        }
        _ => {}
    }
    asked.refused(&with, of_width)
}

/// What a message asks: the reference's reading, or one that looks at the head alone, or does not ask in which
/// order references stand, or where a number does.
fn read(fault: u8, message: &[u8]) -> Option<Message> {
    if fault == ONLY_HEAD_READ && message.len() >= 4 {
        let session = u32::from_be_bytes([0, message[1], message[2], message[3]]);
        if message[0] == 0x11 {
            return Some(Message {
                session,
                body: Body::OpeningQuery,
            });
        }
    }
    match fault {
        NOT_RISING_BY_11 => parse(&order::put_in_order(message)),
        MISPLACED_BY_11 => parse(&numbers::put_in_place(message)),
        _ => parse(message),
    }
}

fn opening(fault: u8, settings: &Settings, width: u64, lent: &Lent) -> Body {
    let mut cells = match fault {
        CELLS_OF_THE_LIST => {
            let list = lent.shingle_list().into_iter();
            let with_cells: Vec<Shingle> = list.filter(|s| s.tail() < 1 << 32).collect();
            sketch(&with_cells, width)
        }
        _ => cells_there(&lent.cells, width),
    };
    if fault == CELL_VALUES_REORDERED {
        cells.iter_mut().for_each(|cell| cell.swap(1, 2));
    }
    let first: [u8; 16] = match lent.nodes.get(..16) {
        Some(bytes) => bytes.try_into().expect("an entry has 16 bytes"),
        None => [0; 16],
    };
    let first = node_table::node(&first);
    let length = match fault {
        LENGTH_AT_SETUP => first.length,
        _ => lent.string.len(),
    };
    Body::Opening(Opening {
        rule: match fault {
            RULE_0 => 0,
            RULE_1 => 1,
            RULE_2 => 2,
            RULE_4 => 4,
            RULE_OF_THE_WINDOW => settings.window as u32,
            _ => 3,
        },
        window: settings.window as u32,
        fan_out: settings.fan_out as u32,
        levels: settings.levels as u32,
        nominal: settings.nominal as u32 & 0xfff_ffff,
        width: width as u32,
        length: length as u32 & 0xfff_ffff,
        root: match fault {
            ROOT_OF_THE_STRING => fnv1a(&lent.string).max(1),
            _ => first.id,
        },
        cells,
    })
}

/// The place of the node that is asked for.
fn find(fault: u8, lent: &Lent, nodes: &[Node], level: u32, id: u64) -> Option<usize> {
    let inside = |node: &Node| match fault {
        OUTSIDE_FOUND => true,
        END_OF_STRING_OUTSIDE => node.start + node.length < lent.string.len(),
        _ => lent.holds(node),
    };
    let level = match fault {
        LEVEL_3_BITS => level % 8,
        LEVEL_8_BITS => level % 256,
        _ => level,
    };
    let same = |node: &Node| {
        let same_id = match fault {
            ID_LOW_32_BITS => node.id as u32 == id as u32,
            _ => node.id == id,
        };
        same_id && (node.level == u64::from(level) || fault == LEVEL_NOT_ASKED)
    };
    let asked = |node: &Node| same(node) && inside(node);
    match fault {
        LAST_NODE => nodes.iter().rposition(asked),
        _ => nodes.iter().position(asked),
    }
}

fn composition(
    fault: u8,
    lent: &Lent,
    settings: &Settings,
    nodes: &[Node],
    k: usize,
) -> Option<(Option<u32>, Vec<Reference>)> {
    let level = nodes[k].level;
    let last = match fault {
        LEVEL_4_IS_LAST => 4,
        _ => settings.levels,
    };
    if level >= last {
        return (fault == COMPOSITION_AT_LAST_LEVEL).then(|| (None, Vec::new()));
    }
    let mut ids: Vec<u64> = children(nodes, k).iter().map(|child| child.id).collect();
    if fault == GRANDCHILDREN_TOO {
        let below = nodes[k + 1..].iter().take_while(|node| node.level > level);
        ids = below.map(|node| node.id).take(32).collect();
    }
    if fault == LAST_CHILD_LEFT_OUT && ids.len() > 1 {
        ids.pop();
    }
    let most = match fault {
        HIGH_NUMBER_SENT => 4_096,
        NUMBERS_TO_255 => 255,
        _ => 4_095,
    };
    let number = number_of_order(&ids).filter(|&number| number <= most)?;
    let list = lent.shingle_list();
    let mut references = Vec::new();
    for ((previous, own), count) in multiset(&pairs(&ids)) {
        let same = |shingle: &Shingle| {
            let same_level = shingle.level == level + 1 || fault == PAIR_AT_ANY_LEVEL;
            same_level && (shingle.previous, shingle.own) == (previous, own)
        };
        let index = list.iter().take(4_096).position(same)?;
        let one = Reference {
            index: (index as u32 + u32::from(fault == INDEX_FROM_1)) % 4_096,
            count: match fault {
                COUNTS_OF_THE_LIST => list[index].count.min(32) as u32,
                COUNTS_ALWAYS_1 | REFERENCE_FOR_EACH_CHILD => 1,
                _ => count as u32,
            },
        };
        let times = match fault {
            REFERENCE_FOR_EACH_CHILD => count as usize,
            _ => 1,
        };
        references.extend(vec![one; times]);
    }
    put_in_order(fault, &mut references, &list, &ids);
    let written = match fault {
        NUMBER_ALWAYS_0 => 0,
        _ => number as u32,
    };
    Some((carries(fault, &ids, number).then_some(written), references))
}

/// Whether the number of an order is written: where a second trail exists over its pairs.
fn carries(fault: u8, ids: &[u64], number: u64) -> bool {
    let over = multiset(&pairs(ids));
    let exists = |number: u64| trail(&over, u128::from(number)).is_some();
    let different = |ids: &[u64]| (1..ids.len()).all(|k| !ids[..k].contains(&ids[k]));
    match fault {
        NUMBER_ALWAYS_WRITTEN => true,
        NUMBER_NEVER_WRITTEN => false,
        NUMBER_0_OMITTED => number > 0,
        OMITTED_OF_ONE_CHILD_ALONE => ids.len() > 1,
        OMITTED_OF_DIFFERENT_CHILDREN_ALONE => !different(ids),
        LAST_NUMBER_OMITTED => exists(number + 1),
        OMITTED_OF_TWO_TRAILS => exists(2),
        OMITTED_WHERE_OTHERS_ARE => !exists(1),
        _ => exists(1),
    }
}

/// The bytes of a reply; of a composition with its number after the references, or with the number that it
/// omits among the words that its end counts.
fn encoded(fault: u8, message: &Message) -> Vec<u8> {
    let mut bytes = encode(message);
    let end = bytes.len() - 4;
    match (fault, &message.body) {
        (
            NUMBER_AFTER_THE_REFERENCES,
            Body::Composition {
                number: Some(_), ..
            },
        ) => {
            bytes[20..end].rotate_left(4);
        }
        (OMITTED_BUT_COUNTED, Body::Composition { number: None, .. }) => bytes[end + 3] += 1,
        _ => {}
    }
    bytes
}

/// References rising by index; or falling, or as these children first name them.
fn put_in_order(fault: u8, references: &mut [Reference], list: &[Shingle], ids: &[u64]) {
    references.sort_by_key(|reference| reference.index);
    match fault {
        REFERENCES_FALLING => references.reverse(),
        REFERENCES_AS_THE_CHILDREN_COME => {
            let children = pairs(ids);
            references.sort_by_key(|reference| {
                let named = list[reference.index as usize];
                let named = (named.previous, named.own);
                children.iter().position(|pair| *pair == named)
            });
        }
        _ => {}
    }
}

/// What answers a node query, or the question that refuses it.
fn node_reply(
    fault: u8,
    settings: &Settings,
    lent: &Lent,
    level: u32,
    id: u64,
) -> Result<Body, u64> {
    let nodes = lent.node_list();
    if fault == ID_0_FOUND && id == 0 {
        let bytes = Vec::new();
        return Ok(Body::Literal { level, id, bytes });
    }
    if fault == LEVEL_ABOVE_L_REFUSED && u64::from(level) > settings.levels {
        return Err(11);
    }
    let Some(k) = find(fault, lent, &nodes, level, id) else {
        return match fault {
            NONE_IS_REFUSED => Err(11),
            _ => Ok(Body::None { level, id }),
        };
    };
    let composition = match fault {
        ALWAYS_LITERAL => None,
        _ => composition(fault, lent, settings, &nodes, k),
    };
    let size = lent.string.len();
    let (start, end) = (nodes[k].start, nodes[k].start + nodes[k].length);
    Ok(match composition {
        Some((number, references)) => Body::Composition {
            level,
            id,
            number,
            references,
        },
        None => Body::Literal {
            level,
            id,
            bytes: lent.string[start.min(size)..end.min(size)].to_vec(),
        },
    })
}

/// `rcds_reply` with one fault.
fn answer(fault: u8, state: &[u8], lent: &Lent, message: &[u8], out: &mut [u8]) -> u64 {
    let given = reply(fault, state, lent, message, out);
    if given < 1 << 32 && fault == CLEARED_WHEN_REFUSED {
        out.fill(0);
    }
    given
}

fn reply(fault: u8, state: &[u8], lent: &Lent, message: &[u8], out: &mut [u8]) -> u64 {
    let (settings, width) = settings(fault, state);
    let query = read(fault, message);
    if fault == MESSAGE_FIRST && query.is_none() {
        return 10;
    }
    if let Some(question) = refused(fault, &settings, width, state, lent) {
        return question;
    }
    let width = width.min(64);
    let Some(query) = query else {
        return 10;
    };
    let body = match query.body {
        Body::OpeningQuery => Ok(opening(fault, &settings, width, lent)),
        Body::NodeQuery { level, id } => node_reply(fault, &settings, lent, level, id),
        _ if fault == OTHER_TYPES_BY_10 => Err(10),
        _ if fault == ROOM_BEFORE_TYPE && out.len() < 8 => Err(20),
        _ => Err(11),
    };
    let body = match body {
        Ok(body) => body,
        Err(question) => return question,
    };
    let session = match fault {
        SESSION_16_BITS => query.session & 0xffff,
        SESSION_0 => 0,
        _ => query.session,
    };
    write(fault, &encoded(fault, &Message { session, body }), out)
}

fn write(fault: u8, bytes: &[u8], out: &mut [u8]) -> u64 {
    let more = usize::from(fault == EXACT_ROOM_REFUSED);
    if bytes.len() + more > out.len() {
        if fault == WRITTEN_AT_20 {
            let fits = out.len() / 4 * 4;
            out[..fits].copy_from_slice(&bytes[..fits]);
        }
        return 20;
    }
    out[..bytes.len()].copy_from_slice(bytes);
    if fault == REST_CLEARED {
        out[bytes.len()..].fill(0);
    }
    match fault {
        COUNTS_WORDS => (1 << 32) + bytes.len() as u64 / 4,
        _ => (1 << 32) + bytes.len() as u64,
    }
}

/// A fault where the reply is free: over a node table in which an entry starts before the one that
/// it is listed after, which no setup leaves.
fn free_fault(fault: u8, lent: &Lent, given: u64, out: &mut [u8]) -> u64 {
    let nodes = lent.node_list();
    let ordered = nodes.windows(2).all(|two| two[1].start >= two[0].start);
    if given < 1 << 32 || nodes.is_empty() || ordered {
        return given;
    }
    match fault {
        FREE_REPLY_NO_MESSAGE => out[0] = 0xff,
        FREE_REPLY_OTHER_SESSION => out[3] ^= 1,
        FREE_ANSWER_14 => return 14,
        _ => {}
    }
    given
}

/// The function with one fault, as C would call it.
unsafe extern "C" fn faulty<const FAULT: u8>(
    state: *const u8,
    state_len: usize,
    string: *const u8,
    string_len: usize,
    nodes: *const u8,
    nodes_len: usize,
    shingles: *const u8,
    shingles_len: usize,
    cells: *const u8,
    cells_len: usize,
    message: *const u8,
    message_len: usize,
    out: *mut u8,
    out_len: usize,
) -> u64 {
    let lent = Lent {
        string: part(string, string_len).to_vec(),
        nodes: part(nodes, nodes_len).to_vec(),
        shingles: part(shingles, shingles_len).to_vec(),
        cells: part(cells, cells_len).to_vec(),
    };
    let state_bytes = part(state, state_len);
    let message_bytes = part(message, message_len);
    let buffer = part_mut(out, out_len);
    let mut given = answer(FAULT, state_bytes, &lent, message_bytes, buffer);
    if FAULT >= FREE_REPLY_NO_MESSAGE {
        given = free_fault(FAULT, &lent, given, buffer);
    }
    // The guard bytes and all pieces come from vectors, so these writes stay in their memory.
    match FAULT {
        STATE_CHANGED if state_len > 0 => *state.cast_mut() ^= 1,
        STRING_CHANGED if string_len > 0 => *string.cast_mut() ^= 1,
        NODES_CHANGED if nodes_len > 0 => *nodes.cast_mut() ^= 1,
        SHINGLES_CHANGED if shingles_len > 0 => *shingles.cast_mut() ^= 1,
        CELLS_CHANGED if cells_len > 0 => *cells.cast_mut() ^= 1,
        MESSAGE_CHANGED if message_len > 0 => *message.cast_mut() ^= 1,
        PAST_THE_BUFFER if out_len > 0 => *out.add(out_len) ^= 1,
        BEFORE_THE_BUFFER if out_len > 0 => *out.sub(1) ^= 1,
        _ => {}
    }
    given
}

macro_rules! functions {
    ($($fault:ident)*) => { [$((stringify!($fault), faulty::<$fault> as Reply)),*] };
}

const SEED: u64 = 1;

#[test]
fn the_right_function_passes() {
    match run(SEED, count() / 4, faulty::<NONE>) {
        Ok(report) => report.assert_complete(),
        Err(failure) => panic!("{failure}"),
    }
}

#[test]
fn every_fault_is_found() {
    let functions = functions! {
        STATE_LOW_BYTE_FIRST STATE_READ_IN_PARTS SHORT_STATE_BY_7 WIDTH_LOW_32_BITS NOMINAL_NOT_ASKED
        WIDTH_NOT_ASKED STRING_NOT_ASKED STRING_65536_REFUSED NODES_NOT_ASKED SHINGLES_NOT_ASKED
        CELLS_NOT_ASKED CELLS_FOR_WIDTH_64 MESSAGE_FIRST OTHER_TYPES_BY_10 NOT_RISING_BY_11
        ROOM_BEFORE_TYPE ONLY_HEAD_READ NONE_IS_REFUSED LEVEL_NOT_ASKED LEVEL_3_BITS LEVEL_8_BITS
        ID_LOW_32_BITS ID_0_FOUND LAST_NODE OUTSIDE_FOUND END_OF_STRING_OUTSIDE LEVEL_ABOVE_L_REFUSED
        HIGH_NUMBER_SENT NUMBERS_TO_255 COMPOSITION_AT_LAST_LEVEL LEVEL_4_IS_LAST ALWAYS_LITERAL
        COUNTS_OF_THE_LIST COUNTS_ALWAYS_1 INDEX_FROM_1 PAIR_AT_ANY_LEVEL REFERENCES_FALLING
        REFERENCES_AS_THE_CHILDREN_COME REFERENCE_FOR_EACH_CHILD NUMBER_ALWAYS_0 GRANDCHILDREN_TOO
        LAST_CHILD_LEFT_OUT LENGTH_AT_SETUP ROOT_OF_THE_STRING CELLS_OF_THE_LIST CELL_VALUES_REORDERED
        RULE_0 RULE_1 RULE_2 RULE_4 RULE_OF_THE_WINDOW SESSION_16_BITS SESSION_0 EXACT_ROOM_REFUSED
        WRITTEN_AT_20 REST_CLEARED CLEARED_WHEN_REFUSED COUNTS_WORDS STATE_CHANGED STRING_CHANGED
        NODES_CHANGED SHINGLES_CHANGED CELLS_CHANGED MESSAGE_CHANGED PAST_THE_BUFFER BEFORE_THE_BUFFER
        NUMBER_ALWAYS_WRITTEN NUMBER_NEVER_WRITTEN NUMBER_0_OMITTED OMITTED_OF_ONE_CHILD_ALONE
        OMITTED_OF_DIFFERENT_CHILDREN_ALONE LAST_NUMBER_OMITTED OMITTED_OF_TWO_TRAILS
        OMITTED_WHERE_OTHERS_ARE NUMBER_AFTER_THE_REFERENCES OMITTED_BUT_COUNTED MISPLACED_BY_11
        FREE_REPLY_NO_MESSAGE FREE_ANSWER_14 FREE_REPLY_OTHER_SESSION
    };
    let mut passed = Vec::new();
    for (name, function) in functions {
        match run(SEED, count(), function) {
            Ok(_) => passed.push(name),
            Err(failure) => println!("{name}: {failure}"),
        }
    }
    assert!(passed.is_empty(), "passed: {passed:?}");
}
