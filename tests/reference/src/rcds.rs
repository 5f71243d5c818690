//! What C calls, as functions on numbers and lent slices.
//!
//! A call answers the number of the first question that had a no; or, accepted, 2^32 and a count
//! or another small number.

use crate::crossed::{self, crossed};
use crate::lent::Lent;
use crate::message::parse;
use crate::opening::open;
use crate::questions;
use crate::receiver::{self, Answer};
use crate::receiver_state::{self, ended};
use crate::row::number;
use crate::settings::Settings;
use crate::shingle::shingles;
use crate::sketch::sketch;
use crate::trail::{is_only_trail, number_of_order, order_of_number, Pair, MOST_IDS};
use crate::tree::tree;
use crate::{cell_table, most_blocks, node_table, sender, shingle_table, strata};

/// From this number on an answer says "accepted".
pub const ACCEPTED: u64 = 1 << 32;

/// What both calls about trails add to an accepted answer where "its trail is the only one" (document 02,
/// request 5).
pub const ONLY_TRAIL: u64 = 1 << 33;

/// What `RCDS_COUNT` has of an accepted answer: its low 32 bits.
pub fn count(answer: u64) -> u64 {
    answer % ACCEPTED
}

/// What `RCDS_ONLY_TRAIL` has of it.
pub fn says_only(answer: u64) -> bool {
    answer / ONLY_TRAIL % 2 == 1
}

/// `rcds_tree`: the tree of `string` into the node table. Asks 1 to 4, 6, 7 and 8, in this order.
///
/// "A no at 1 to 7 leaves tables unchanged; at 8 they are all zero."
pub fn rcds_tree(settings: &Settings, string: &[u8], table: &mut [u8]) -> u64 {
    if !questions::window_allowed(settings) {
        return 1;
    }
    if !questions::fan_out_allowed(settings) {
        return 2;
    }
    if !questions::levels_allowed(settings.levels) {
        return 3;
    }
    if !questions::nominal_allowed(settings) {
        return 4;
    }
    if !questions::string_allowed(string) {
        return 6;
    }
    if !questions::node_table_allowed(table) {
        return 7;
    }
    let nodes = tree(settings, string);
    if !questions::nodes_allowed(&nodes) {
        table.fill(0);
        return 8;
    }
    node_table::write(&nodes, table);
    ACCEPTED + nodes.len() as u64
}

/// `rcds_crossed`: the nodes that share a byte with a range of the string, each with its parent, into
/// the table. Asks 21 and 22, in this order.
///
/// "Checks: 21 ..., first thing in this call; 22, ..., after it, table unchanged by either; no other
/// is asked."
pub fn rcds_crossed(string: &[u8], nodes: &[u8], start: u64, length: u64, table: &mut [u8]) -> u64 {
    if !questions::range_allowed(string, start, length) {
        return 21;
    }
    // After 21 both are numbers of bytes of the string.
    let range = start as usize..(start + length) as usize;
    let answer = crossed(string.len(), &node_table::read(nodes), range);
    if !questions::answer_allowed(&answer, table) {
        return 22;
    }
    crossed::write(&answer, table);
    ACCEPTED + answer.len() as u64
}

/// `rcds_most_blocks`: how many blocks one cutting of n bytes can give at most. Asks 24.
///
/// "so the call returns the bound, borrows no buffer, and 23 never occurs again" (document 02, request 7)
pub fn rcds_most_blocks(n: u64, w: u64, h: u64) -> u64 {
    if !questions::cutting_allowed(n, w, h) {
        return 24;
    }
    ACCEPTED + most_blocks::bound(n, w, h)
}

/// The bytes of an id.
pub const ID_BYTES: usize = 8;

/// The bytes of a pair with its count: previous id, own id, count.
pub const PAIR_BYTES: usize = 24;

/// Bytes as rows of 64 bits, most significant byte first, if they are whole rows.
fn rows(bytes: &[u8]) -> Option<Vec<u64>> {
    (bytes.len() % 8 == 0).then(|| bytes.chunks(8).map(number).collect())
}

/// An accepted answer about the trail of these ids: the number or the count, and whether it is the only
/// one over its pairs.
fn of_trail(ids: &[u64], small: u64) -> u64 {
    match is_only_trail(ids) {
        true => ACCEPTED + ONLY_TRAIL + small,
        false => ACCEPTED + small,
    }
}

/// `rcds_trail_number`: the trail number of an order of ids, and whether its trail is the only one. Asks
/// 17.
pub fn rcds_trail_number(ids: &[u8]) -> u64 {
    let Some(ids) = rows(ids) else {
        return 17;
    };
    match number_of_order(&ids) {
        Some(number) => of_trail(&ids, number),
        None => 17,
    }
}

/// `rcds_trail_order`: the ids of the trail of this number over pairs with counts, and whether it is the
/// only one. Asks 17, then 20. Ids that are not written, and all of them after a no, are untouched.
pub fn rcds_trail_order(pairs: &[u8], number: u64, ids: &mut [u8]) -> u64 {
    let order = entries(pairs).and_then(|entries| order_of_number(&entries, number));
    let Some(order) = order else {
        return 17;
    };
    if ids.len() < order.len() * ID_BYTES {
        return 20;
    }
    for (bytes, id) in ids.chunks_exact_mut(ID_BYTES).zip(&order) {
        bytes.copy_from_slice(&id.to_be_bytes());
    }
    of_trail(&order, order.len() as u64)
}

/// Whole entries, at most 32 of them.
fn entries(pairs: &[u8]) -> Option<Vec<(Pair, u64)>> {
    if pairs.len() % PAIR_BYTES != 0 || pairs.len() > MOST_IDS * PAIR_BYTES {
        return None;
    }
    let entry = |rows: &[u64]| ((rows[0], rows[1]), rows[2]);
    Some(rows(pairs)?.chunks(3).map(entry).collect())
}

/// `rcds_message_type`: the type of a well-formed message. Asks 10.
pub fn rcds_message_type(message: &[u8]) -> u64 {
    match parse(message) {
        Some(message) => ACCEPTED + u64::from(message.body.message_type()),
        None => 10,
    }
}

/// `rcds_sender_setup`: the tree of `string` and its shingles and cells into the three tables, and
/// the settings into the state. Asks 1 to 8, in this order.
///
/// "A no at 1 to 7 leaves tables unchanged; at 8 they are all zero. No state is made. After a yes,
/// entries past the last used are zero."
pub fn rcds_sender_setup(
    settings: &Settings,
    width: u64,
    string: &[u8],
    nodes: &mut [u8],
    shingle_list: &mut [u8],
    cells: &mut [u8],
    state: &mut [u8],
) -> u64 {
    if !questions::window_allowed(settings) {
        return 1;
    }
    if !questions::fan_out_allowed(settings) {
        return 2;
    }
    if !questions::levels_allowed(settings.levels) {
        return 3;
    }
    if !questions::nominal_allowed(settings) {
        return 4;
    }
    if !questions::width_allowed(width) {
        return 5;
    }
    if !questions::string_allowed(string) {
        return 6;
    }
    if !(questions::node_table_allowed(nodes)
        && questions::shingle_table_allowed(shingle_list)
        && questions::cell_table_allowed(cells, width)
        && questions::state_allowed(state))
    {
        return 7;
    }
    let tree = tree(settings, string);
    if !questions::nodes_allowed(&tree) {
        nodes.fill(0);
        shingle_list.fill(0);
        cells.fill(0);
        return 8;
    }
    let list = shingles(&tree);
    node_table::write(&tree, nodes);
    shingle_table::write(&list, shingle_list);
    cell_table::write(&sketch(&list, width), cells);
    sender::write(settings, width, state);
    ACCEPTED + tree.len() as u64
}

/// `rcds_sketch_open`: the sender's cells against the own ones, and the new list into the shingle
/// table. Asks 3, 5, 7 and 14, in this order. A no changes nothing.
///
/// "An accepted opening leaves the new list in the shingle table, zero past its end."
pub fn rcds_sketch_open(
    levels: u64,
    width: u64,
    theirs: &[u8],
    own: &[u8],
    shingle_list: &mut [u8],
) -> u64 {
    if !questions::levels_allowed(levels) {
        return 3;
    }
    if !questions::width_allowed(width) {
        return 5;
    }
    if !(questions::cell_table_allowed(theirs, width)
        && questions::cell_table_allowed(own, width)
        && questions::shingle_table_allowed(shingle_list))
    {
        return 7;
    }
    let (theirs, own) = (
        cell_table::read(theirs, width),
        cell_table::read(own, width),
    );
    let opened = open(
        levels,
        width,
        &theirs,
        &own,
        &shingle_table::read(shingle_list),
    );
    match opened {
        Ok(list) => {
            shingle_table::write(&list, shingle_list);
            ACCEPTED + list.len() as u64
        }
        Err(_) => 14,
    }
}

/// `rcds_strata_build`: the strata of the shingle table's list to the front of the table. Asks 1 to 7, in
/// this order, 7 also of the table. Answers 0. The state may be of either end.
///
/// "Every later call of either end first asks 1 to 7 again, of the settings it holds and of what is
/// lent; a no changes nothing."
pub fn rcds_strata_build(state: &[u8], lent: &Lent, table: &mut [u8]) -> u64 {
    let (settings, width) = sender::held(state);
    if let Some(question) = lent.refused(&settings, width) {
        return question;
    }
    if !questions::strata_allowed(table) {
        return 7;
    }
    strata::write(&strata::build(&lent.shingle_list()), table);
    0
}

/// `rcds_strata_estimate`: about how many shingles differ, from the other end's strata, the own ones and
/// the shingle table's list. Asks 1 to 7, in this order, 7 also of both tables of strata. "only building
/// writes them"
pub fn rcds_strata_estimate(state: &[u8], lent: &Lent, theirs: &[u8], own: &[u8]) -> u64 {
    let (settings, width) = sender::held(state);
    if let Some(question) = lent.refused(&settings, width) {
        return question;
    }
    if !(questions::strata_allowed(theirs) && questions::strata_allowed(own)) {
        return 7;
    }
    let (theirs, own) = (strata::read(theirs), strata::read(own));
    ACCEPTED + strata::estimate(settings.levels, &theirs, &own, &lent.shingle_list())
}

/// `rcds_receiver_setup`: the tables as the sender's setup leaves them, and the state of a session
/// that has not begun. Asks 1 to 8, in this order; 7 of the state too.
///
/// "A no at 1 to 7 leaves tables unchanged; at 8 they are all zero. No state is made."
pub fn rcds_receiver_setup(
    settings: &Settings,
    width: u64,
    session: u64,
    lent: &mut Lent,
    state: &mut [u8],
) -> u64 {
    if state.len() < receiver_state::STATE_BYTES {
        return lent.refused(settings, width).unwrap_or(7);
    }
    match receiver::set_up(settings, width, session, lent) {
        Ok(receiver) => {
            receiver_state::write(&receiver, state);
            ACCEPTED + lent.node_list().len() as u64
        }
        Err(question) => question,
    }
}

/// `rcds_query`: the outstanding query to the front of the buffer. Asks 1 to 7, 9, 20.
pub fn rcds_query(state: &[u8], lent: &Lent, buffer: &mut [u8]) -> u64 {
    receiver::write_query(&receiver_state::read(state), lent, buffer)
}

/// `rcds_take`: takes a message. Asks 1 to 7, then 9 to 19. Answers 0 while the session goes on, and
/// 2^32 and the announced length when the string is handed over. A no at 1 to 11 leaves the state as
/// it is; an ended session's holds settings and number alone.
pub fn rcds_take(state: &mut [u8], lent: &mut Lent, message: &[u8], output: &mut [u8]) -> u64 {
    let mut receiver = receiver_state::read(state);
    let answer = receiver::take(&mut receiver, lent, message, output);
    match answer {
        Answer::Waiting => {
            receiver_state::write(&receiver, state);
            0
        }
        Answer::Handed(length) => {
            receiver_state::write(&ended(&receiver), state);
            ACCEPTED + length
        }
        Answer::Refused(question) => {
            if question >= 12 {
                receiver_state::write(&ended(&receiver), state);
            }
            question
        }
    }
}
