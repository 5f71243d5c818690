//! The receiver: its state, taking a message, writing its query.

use crate::fnv::block_id;
use crate::lent::Lent;
use crate::message::{encode, parse, Body, Message, Opening};
use crate::opening::open;
use crate::questions::MOST_BYTES;
use crate::rcds::ACCEPTED;
use crate::reply::RULE;
use crate::settings::Settings;
use crate::shingle::Shingle;
use crate::shingle_table;
use crate::trail::{has_only_one, multiset_of_entries, order_of_number};
use crate::tree::Node;
use crate::word::Reference;

/// "The receiver holds a pile of pending nodes, 128 places"
pub const MOST_PENDING: usize = 128;

/// "15 fewer than 4,096 node replies taken before?"
pub const MOST_NODE_REPLIES: u64 = 4_096;

/// "A receiver is set up with a session number, taken modulo 2^24."
pub const SESSIONS: u64 = 1 << 24;

/// A node of the sender's tree whose bytes are still to come.
#[derive(Clone, Copy, Debug, PartialEq, Eq)]
pub struct Pending {
    pub level: u64,
    pub id: u64,
}

/// How far a session is.
#[derive(Clone, Copy, Debug, PartialEq, Eq)]
pub enum Stage {
    BeforeOpening,
    AfterOpening,
    Ended,
}

/// The receiver's state. Any numbers may stand in it; `running` says which states are a session's.
#[derive(Clone, Debug, PartialEq, Eq)]
pub struct Receiver {
    pub settings: Settings,
    pub width: u64,
    pub session: u64,
    pub stage: Stage,
    /// The string length and the root id that the opening announced.
    pub length: u64,
    pub root: u64,
    /// The bytes of the output that are built.
    pub built: u64,
    /// The node replies taken.
    pub replies: u64,
    /// The top is the last.
    pub pile: Vec<Pending>,
}

/// What taking a message answers.
#[derive(Clone, Copy, Debug, PartialEq, Eq)]
pub enum Answer {
    /// The number of the first question that has a no.
    Refused(u64),
    /// Accepted; there is another query.
    Waiting,
    /// Accepted, and handed over: so many first bytes of the output.
    Handed(u64),
}

/// 1 to 8, and the tables as the sender's setup leaves them.
pub fn set_up(
    settings: &Settings,
    width: u64,
    session: u64,
    lent: &mut Lent,
) -> Result<Receiver, u64> {
    let answer = lent.set_up(settings, width);
    if answer < ACCEPTED {
        return Err(answer);
    }
    Ok(Receiver {
        settings: *settings,
        width,
        session: session % SESSIONS,
        stage: Stage::BeforeOpening,
        length: 0,
        root: 0,
        built: 0,
        replies: 0,
        pile: Vec::new(),
    })
}

/// "9 session still running? A state with over 128 pending nodes, one of a level above L, or none
/// after its opening, is not."
pub fn running(state: &Receiver) -> bool {
    let over = state.pile.len() > MOST_PENDING;
    let above = |node: &Pending| node.level > state.settings.levels;
    let none = state.stage == Stage::AfterOpening && state.pile.is_empty();
    state.stage != Stage::Ended && !over && !state.pile.iter().any(above) && !none
}

/// "it has one outstanding query: the opening's while none is taken, then the top node's"; "an ended
/// session has none".
pub fn outstanding(state: &Receiver) -> Option<Message> {
    if !running(state) {
        return None;
    }
    let body = match (state.stage, state.pile.last()) {
        (Stage::AfterOpening, Some(top)) => Body::NodeQuery {
            level: top.level as u32,
            id: top.id,
        },
        _ => Body::OpeningQuery,
    };
    let session = (state.session % SESSIONS) as u32;
    Some(Message { session, body })
}

/// "Another call writes its outstanding query." "Writing the receiver's query asks 9, then 20. A no
/// at any of these changes neither state nor buffer." Before them, as every later call, 1 to 7.
/// Answers 2^32 and the bytes written, or the question that has a no.
pub fn write_query(state: &Receiver, lent: &Lent, buffer: &mut [u8]) -> u64 {
    if let Some(question) = lent.refused(&state.settings, state.width) {
        return question;
    }
    let Some(query) = outstanding(state) else {
        return 9;
    };
    let bytes = encode(&query);
    if bytes.len() > buffer.len() {
        return 20;
    }
    buffer[..bytes.len()].copy_from_slice(&bytes);
    ACCEPTED + bytes.len() as u64
}

/// Takes a message: 1 to 7, 9 to 11; then, of an opening, 12, 13, 14, 18, 19, and of a node reply 13,
/// 15 to 19.
///
/// "A no at 9 to 11 changes no state and no buffer." "A no at 12 to 19 ends the session and zeroes
/// the whole output buffer."
pub fn take(state: &mut Receiver, lent: &mut Lent, message: &[u8], output: &mut [u8]) -> Answer {
    let body = match matching(state, lent, message) {
        Ok(body) => body,
        Err(question) => return Answer::Refused(question),
    };
    let taken = match &body {
        Body::Opening(opening) => take_opening(state, lent, opening, output),
        _ => take_node_reply(state, lent, &body, output),
    };
    match taken {
        Ok(taken) => leave(taken, state, lent, output),
        Err(question) => {
            state.stage = Stage::Ended;
            output.fill(0);
            Answer::Refused(question)
        }
    }
}

/// 1 to 7, 9, 10 and "11 type 3 to 6, of this session, matching the outstanding query's kind, level
/// and id?"
fn matching(state: &Receiver, lent: &Lent, message: &[u8]) -> Result<Body, u64> {
    if let Some(question) = lent.refused(&state.settings, state.width) {
        return Err(question);
    }
    let query = outstanding(state).ok_or(9_u64)?;
    let message = parse(message).ok_or(10_u64)?;
    let asked = match &message.body {
        Body::Opening(_) => Body::OpeningQuery,
        &Body::Composition { level, id, .. }
        | &Body::Literal { level, id, .. }
        | &Body::None { level, id } => Body::NodeQuery { level, id },
        Body::OpeningQuery | Body::NodeQuery { .. } => return Err(11),
    };
    // A state that no setup left may hold a number of more than 24 bits, which no message has.
    let this_session = u64::from(message.session) == state.session;
    match this_session && asked == query.body {
        true => Ok(message.body),
        false => Err(11),
    }
}

/// What an accepted message leads to.
struct Taken {
    state: Receiver,
    /// Where the new bytes of the output start, and what they are.
    from: usize,
    added: Vec<u8>,
    /// The new list, of an opening.
    list: Option<Vec<Shingle>>,
}

/// Bytes that are not built now stay as they are: "Bytes after a reply, or after the output, are
/// untouched." "An accepted opening leaves the new list in the shingle table, zero past its end. No
/// other later call changes a table." "The accepted message that leaves the pile empty hands the
/// string over".
fn leave(taken: Taken, state: &mut Receiver, lent: &mut Lent, output: &mut [u8]) -> Answer {
    let Taken { from, added, .. } = taken;
    output[from..from + added.len()].copy_from_slice(&added);
    if let Some(list) = taken.list {
        shingle_table::write(&list, &mut lent.shingles);
    }
    *state = taken.state;
    match state.pile.is_empty() {
        true => Answer::Handed(state.length),
        false => Answer::Waiting,
    }
}

fn take_opening(
    state: &Receiver,
    lent: &Lent,
    opening: &Opening,
    output: &[u8],
) -> Result<Taken, u64> {
    if !equal_settings(state, opening) {
        return Err(12);
    }
    if !length_allowed(u64::from(opening.length), output) {
        return Err(13);
    }
    let own = lent.cell_list(state.width);
    let list = lent.shingle_list();
    let levels = state.settings.levels;
    let opened = open(levels, state.width, &opening.cells, &own, &list);
    let new_list = opened.map_err(|_| 14_u64)?;
    // "a pile of pending nodes, 128 places, the root first"
    let next = Receiver {
        stage: Stage::AfterOpening,
        length: u64::from(opening.length),
        root: opening.root,
        built: 0,
        replies: 0,
        pile: vec![Pending {
            level: 0,
            id: opening.root,
        }],
        ..state.clone()
    };
    let taken = copied(next, Vec::new(), lent, output)?;
    Ok(Taken {
        list: Some(new_list),
        ..taken
    })
}

/// "12 opening's rule and settings equal the own?"
fn equal_settings(state: &Receiver, opening: &Opening) -> bool {
    let theirs = Settings {
        window: u64::from(opening.window),
        fan_out: u64::from(opening.fan_out),
        levels: u64::from(opening.levels),
        nominal: u64::from(opening.nominal),
    };
    let width = u64::from(opening.width);
    opening.rule == RULE && (theirs, width) == (state.settings, state.width)
}

/// "13 announced length at most 65,536 and at most the buffer lent now?"
fn length_allowed(length: u64, output: &[u8]) -> bool {
    length <= MOST_BYTES as u64 && length <= output.len() as u64
}

/// A reply to the query of the top node.
fn take_node_reply(
    state: &Receiver,
    lent: &Lent,
    body: &Body,
    output: &[u8],
) -> Result<Taken, u64> {
    if !length_allowed(state.length, output) {
        return Err(13);
    }
    if state.replies >= MOST_NODE_REPLIES {
        return Err(15);
    }
    let mut next = state.clone();
    next.replies += 1;
    let node = next.pile.pop().expect("the query is the top's");
    let added = match body {
        // "A literal is appended"
        Body::Literal { bytes, .. } => bytes.clone(),
        // "a composition's trail replaces the node by its children, one level down"
        Body::Composition {
            number, references, ..
        } => {
            let ids = trail(state, lent, &node, *number, references).ok_or(17_u64)?;
            let level = node.level + 1;
            let children = ids.iter().rev().map(|&id| Pending { level, id });
            next.pile.extend(children);
            if next.pile.len() > MOST_PENDING {
                return Err(17);
            }
            Vec::new()
        }
        _ => return Err(16),
    };
    copied(next, added, lent, output)
}

/// "17 for a composition: node's level below L, references in the list at that level plus 1, counts
/// within the list's, their sum k from 1 to 32, number at most 4,095, that trail exists"; "A composition
/// that omits the number where two trails exist, or carries one where only one does, fails question 17."
/// (document 02, request 5)
fn trail(
    state: &Receiver,
    lent: &Lent,
    node: &Pending,
    number: Option<u32>,
    references: &[Reference],
) -> Option<Vec<u64>> {
    if node.level >= state.settings.levels {
        return None;
    }
    let list = lent.shingle_list();
    let mut pairs = Vec::new();
    for reference in references {
        let shingle = list.get(reference.index as usize)?;
        let count = u64::from(reference.count);
        if shingle.level != node.level + 1 || count > shingle.count {
            return None;
        }
        pairs.push(((shingle.previous, shingle.own), count));
    }
    let only = has_only_one(&multiset_of_entries(&pairs)?);
    match number {
        None if only => order_of_number(&pairs, 0),
        Some(number) if !only => order_of_number(&pairs, u64::from(number)),
        _ => None,
    }
}

/// "While the top has an id of an own node at any level, the first such node's bytes are copied to
/// the end of the output." Then 18 and 19.
fn copied(
    mut state: Receiver,
    mut added: Vec<u8>,
    lent: &Lent,
    output: &[u8],
) -> Result<Taken, u64> {
    let nodes = lent.node_list();
    let own = |id: u64| {
        let first = |node: &&Node| node.id == id && lent.holds(node);
        nodes.iter().find(first)
    };
    while let Some(node) = state.pile.last().and_then(|top| own(top.id)) {
        added.extend(lent.bytes(node));
        state.pile.pop();
    }
    // "18 output within the announced length?"
    let built = state.built.saturating_add(added.len() as u64);
    if built > state.length {
        return Err(18);
    }
    let from = state.built as usize;
    if state.pile.is_empty() && !whole(&state, from, &added, output) {
        return Err(19);
    }
    state.built = built;
    Ok(Taken {
        state,
        from,
        added,
        list: None,
    })
}

/// "19 if the pile is now empty: length right, and id of the buffer's first bytes, worked out afresh,
/// right?"
fn whole(state: &Receiver, from: usize, added: &[u8], output: &[u8]) -> bool {
    let mut string = output[..from].to_vec();
    string.extend(added);
    string.len() as u64 == state.length && block_id(&string) == state.root
}
