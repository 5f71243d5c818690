//! What the receiver does with a message, written a second time, with a fault.

use super::receiver::{
    asked, matches, refused, rows, running, write_rows, ACCEPTED, BUILT, LEVELS, PHASE, PLACES,
    ROOT, ROWS, SIZE, TAKEN, WAITING, WIDTH,
};
use super::*;
use crate::messages::numbers::put_in_place;
use crate::messages::order::{each_once, put_in_order};
use crate::openings::lists::cells_there;
use reference::fnv::fnv1a;
use reference::lent::Lent;
use reference::message::{parse, Body, Message, Opening};
use reference::opening::{closed, difference, new_list, takings};
use reference::shingle::Shingle;
use reference::shingle_table;
use reference::trail::order_of_number;
use reference::tree::Node;
use reference::word::Reference;
use std::cell::RefCell;

thread_local! {
    /// What was built, for a function that trusts it, and the last message that was accepted.
    static TRUSTED: RefCell<Vec<u8>> = const { RefCell::new(Vec::new()) };
    static LAST: RefCell<Vec<u8>> = const { RefCell::new(Vec::new()) };
}

/// What a message leads to.
struct Next {
    rows: Vec<u64>,
    added: Vec<u8>,
    list: Option<Vec<Shingle>>,
}

pub fn take(
    fault: u8,
    state: &mut [u8],
    lent: &mut Lent,
    message: &[u8],
    output: &mut [u8],
) -> u64 {
    let before = rows(fault, state);
    if fault == TEN_FIRST && parse(message).is_none() {
        return 10;
    }
    if let Some(question) = refused(fault, state, &before, lent) {
        return question;
    }
    if !running(fault, &before) {
        return 9;
    }
    let head_session = message
        .get(1..4)
        .map(|b| u32::from_be_bytes([0, b[0], b[1], b[2]]));
    if fault == ELEVEN_FIRST && head_session.is_some_and(|s| s != asked(fault, &before).session) {
        return 11;
    }
    let bytes = message;
    let Some(message) = read(fault, message) else {
        return badly_formed(fault, bytes, before, state, output);
    };
    let again = fault == LAST_AGAIN && before[PHASE] == 1 && LAST.take() == bytes;
    let matches = matches(fault, &before, &message);
    if !matches && !again {
        return other_message(fault, &before, state, output);
    }
    if fault == FALLING_AFTER_11 && falls(bytes) {
        return 10;
    }
    let next = match &message.body {
        Body::Opening(opening) => open(fault, &before, lent, opening, output),
        body => node_reply(fault, &before, lent, body, output),
    };
    LAST.set(bytes.to_vec());
    match next {
        Ok(next) => leave(fault, next, state, lent, output),
        Err(question) => refuse(fault, question, &before, state, lent, &message.body, output),
    }
}

/// The message, if it is well formed: the reference's reading, or one of references that do not rise, or of
/// numbers that stand twice or elsewhere.
fn read(fault: u8, bytes: &[u8]) -> Option<Message> {
    match fault {
        FALLING_TAKEN | FALLING_AFTER_11 => parse(&put_in_order(bytes)),
        DOUBLED_TAKEN => parse(&each_once(bytes)),
        MISPLACED_TAKEN => parse(&put_in_place(bytes)),
        _ => parse(bytes),
    }
}

/// Whether a message is a composition but for the order of its references.
pub fn falls(bytes: &[u8]) -> bool {
    parse(bytes).is_none() && parse(&put_in_order(bytes)).is_some()
}

/// Whether a message is a composition but for where its number words stand.
pub fn is_misplaced(bytes: &[u8]) -> bool {
    parse(bytes).is_none() && parse(&put_in_place(bytes)).is_some()
}

/// A no at 10.
fn badly_formed(
    fault: u8,
    bytes: &[u8],
    mut rows: Vec<u64>,
    state: &mut [u8],
    output: &mut [u8],
) -> u64 {
    if is_misplaced(bytes) {
        return misplaced(fault, &rows, state, output);
    }
    if !falls(bytes) {
        return 10;
    }
    match fault {
        FALLING_BY_17 | FALLING_ZEROED_AT_10 => output.fill(0),
        FALLING_COUNTED => rows[TAKEN] = rows[TAKEN].wrapping_add(1),
        _ => {}
    }
    match fault {
        FALLING_BY_17 | FALLING_ENDED_AT_10 => write_rows(&ended(fault, &rows), state),
        FALLING_COUNTED => write_rows(&rows, state),
        _ => {}
    }
    match fault {
        FALLING_BY_17 => 17,
        _ => 10,
    }
}

/// A no at 10 of numbers that stand twice or elsewhere.
fn misplaced(fault: u8, rows: &[u64], state: &mut [u8], output: &mut [u8]) -> u64 {
    if matches!(fault, MISPLACED_BY_17 | MISPLACED_ENDED_AT_10) {
        write_rows(&ended(fault, rows), state);
    }
    match fault {
        MISPLACED_BY_17 => {
            output.fill(0);
            17
        }
        _ => 10,
    }
}

/// A no at 11.
fn other_message(fault: u8, before: &[u64], state: &mut [u8], output: &mut [u8]) -> u64 {
    match fault {
        ZEROED_AT_11 => output.fill(0),
        ENDED_AT_11 => write_rows(&ended(fault, before), state),
        _ => {}
    }
    11
}

/// An ended session's rows.
fn ended(fault: u8, before: &[u64]) -> Vec<u64> {
    let mut rows = vec![0; ROWS];
    rows[..PHASE].copy_from_slice(&before[..PHASE]);
    rows[PHASE] = match fault {
        ENDS_AS_3 => 3,
        _ => 2,
    };
    if fault == ENDED_KEEPS_ITS_PLACES {
        rows[PLACES..].copy_from_slice(&before[PLACES..]);
    }
    if fault == ENDED_KEEPS_ITS_COUNTS {
        rows[TAKEN] = before[TAKEN];
    }
    rows
}

/// A no at 12 to 19.
fn refuse(
    fault: u8,
    question: u64,
    before: &[u64],
    state: &mut [u8],
    lent: &mut Lent,
    body: &Body,
    output: &mut [u8],
) -> u64 {
    if question == 17 {
        if let Some(answer) = other_form(fault, before, state, lent, body) {
            return answer;
        }
    }
    if let Some(answer) = other_rule(fault, body) {
        return answer;
    }
    let size = (before[SIZE] as usize).min(output.len());
    match fault {
        NEVER_ZEROES => {}
        OTHER_RULE_NOT_ZEROED if question == 12 => {}
        RULE_2_NOT_ZEROED if is_of_rule_2(body) => {}
        ZEROES_WHAT_IS_ANNOUNCED => output[..size].fill(0),
        ZEROES_WHAT_IS_BUILT => output[..size.min(before[BUILT] as usize)].fill(0),
        NONE_ONLY_REFUSED if question == 16 => return 16,
        _ => output.fill(0),
    }
    let early = fault == LIST_LEFT_AT_18 && question == 18;
    let late = fault == LIST_LEFT_AT_19 && question == 19;
    if let (true, Body::Opening(opening)) = (early || late, body) {
        if let Some(list) = opened(NONE, before, lent, opening) {
            shingle_table::write(&list, &mut lent.shingles);
        }
    }
    if fault != NEVER_ENDS {
        write_rows(&ended(fault, before), state);
    }
    question
}

/// Whether it is an opening of the rule before.
fn is_of_rule_2(body: &Body) -> bool {
    matches!(body, Body::Opening(opening) if opening.rule == 2)
}

/// What an opening of another rule is answered that changes nothing; nothing where the answer is that of every other
/// no at 12.
fn other_rule(fault: u8, body: &Body) -> Option<u64> {
    match (fault, body) {
        (_, Body::Opening(opening)) if opening.rule == 3 => None,
        (OTHER_RULE_BY_10, Body::Opening(_)) => Some(10),
        (OTHER_RULE_BY_11, Body::Opening(_)) => Some(11),
        (OTHER_RULE_NOT_ENDED, Body::Opening(_)) => Some(12),
        (RULE_2_NOT_ENDED, Body::Opening(opening)) if opening.rule == 2 => Some(12),
        _ => None,
    }
}

/// What a composition is answered that has a number where it may not, or none where it must; nothing where the
/// answer is that of every other no at 17.
fn other_form(
    fault: u8,
    before: &[u64],
    state: &mut [u8],
    lent: &Lent,
    body: &Body,
) -> Option<u64> {
    let Body::Composition {
        number, references, ..
    } = body
    else {
        return None;
    };
    let in_form = |number| children(NONE, before, lent, number, references).is_some();
    if fault == NO_TRAIL_OMITTED_BY_10 && number.is_none() && !in_form(Some(0)) {
        return Some(10);
    }
    let is_other = match number {
        Some(_) => in_form(None),
        None => in_form(Some(0)),
    };
    if !is_other {
        return None;
    }
    let mut rows = before.to_vec();
    match fault {
        OTHER_FORM_BY_10 => return Some(10),
        OTHER_FORM_NOT_ENDED => return Some(17),
        OTHER_FORM_BY_16 => return Some(16),
        OTHER_FORM_NOT_ZEROED => rows = ended(fault, before),
        OTHER_FORM_COUNTED => rows[TAKEN] = rows[TAKEN].wrapping_add(1),
        _ => return None,
    }
    write_rows(&rows, state);
    Some(17)
}

/// What an accepted message leaves.
fn leave(fault: u8, next: Next, state: &mut [u8], lent: &mut Lent, output: &mut [u8]) -> u64 {
    let Next {
        mut rows,
        added,
        list,
    } = next;
    if fault != POPPED_PLACES_KEPT {
        let above = PLACES + 2 * rows[WAITING] as usize;
        rows[above.min(ROWS)..].fill(0);
    }
    let (size, built) = (rows[SIZE], rows[BUILT] as usize);
    let from = (built - added.len()).min(output.len());
    let fits = added.len().min(output.len() - from);
    TRUSTED.with_borrow_mut(|trusted| {
        trusted.resize(from, 0);
        trusted.extend(&added);
    });
    output[from..from + fits].copy_from_slice(&added[..fits]);
    if fault == OUTPUT_REST_CLEARED {
        output[from + fits..].fill(0);
    }
    match (fault, list) {
        (LIST_NOT_LEFT, _) | (_, None) => {}
        (LIST_NOT_CLEARED, Some(list)) => {
            let bytes: Vec<u8> = list.iter().flat_map(shingle_table::entry).collect();
            lent.shingles[..bytes.len()].copy_from_slice(&bytes);
        }
        (_, Some(list)) => shingle_table::write(&list, &mut lent.shingles),
    }
    let done = rows[WAITING] == 0;
    match done && fault != HANDED_GOES_ON {
        true => write_rows(&ended(fault, &rows), state),
        false => write_rows(&rows, state),
    }
    match (done, fault) {
        (false, GOES_ON_BY_ITS_LENGTH) => ACCEPTED + built as u64,
        (false, _) => 0,
        (true, HANDS_THE_BUFFER) => ACCEPTED + output.len() as u64,
        (true, _) => ACCEPTED + size,
    }
}

/// 14: the new list, if the sketch opens.
fn opened(fault: u8, rows: &[u64], lent: &Lent, opening: &Opening) -> Option<Vec<Shingle>> {
    let (levels, width) = (rows[LEVELS], rows[WIDTH]);
    let own = lent.shingle_list();
    // A function that has not asked for the cells' length, or 12, reads what is there.
    let own_cells = cells_there(&lent.cells, width);
    let mut theirs = opening.cells.clone();
    theirs.resize(3 * width as usize, [0; 5]);
    let takings = takings(&difference(&theirs, &own_cells), levels, width);
    let closed = closed(&takings, &own);
    let too_many = fault == FOURTEEN_EARLY && takings.taken.len() > width as usize;
    match closed.is_empty() && !too_many {
        true => Some(new_list(&own, &takings.taken)),
        false => None,
    }
}

/// Whether an opening of this rule is taken.
fn is_taken(fault: u8, rule: u32) -> bool {
    match fault {
        RULE_NOT_ASKED => true,
        RULE_0_TAKEN => [0, 3].contains(&rule),
        RULE_1_TAKEN => [1, 3].contains(&rule),
        RULE_1_WANTED => rule == 1,
        RULE_2_TAKEN => [2, 3].contains(&rule),
        RULE_2_WANTED => rule == 2,
        RULE_4_TAKEN => [3, 4].contains(&rule),
        RULE_4_WANTED => rule == 4,
        RULES_TO_3_TAKEN => rule <= 3,
        RULES_FROM_3_ON_TAKEN => rule >= 3,
        RULE_LOW_BYTE => rule % 256 == 3,
        _ => rule == 3,
    }
}

fn open(
    fault: u8,
    before: &[u64],
    lent: &Lent,
    opening: &Opening,
    output: &[u8],
) -> Result<Next, u64> {
    if fault == FOURTEEN_FIRST && opened(fault, before, lent, opening).is_none() {
        return Err(14);
    }
    let theirs = [
        opening.window,
        opening.fan_out,
        opening.levels,
        opening.nominal,
        opening.width,
    ];
    let same = |k: usize| match (fault, k) {
        (NOMINAL_NOT_ASKED, 3) => true,
        (WINDOW_LOW_BYTE, 0) => theirs[0] % 256 == before[0] as u32,
        (WIDTH_NOT_ASKED, 4) => true,
        _ => u64::from(theirs[k]) == before[k],
    };
    if !(is_taken(fault, opening.rule) && (0..5).all(same)) {
        return Err(12);
    }
    let length = u64::from(opening.length);
    let room = output.len() as u64;
    let allowed = match fault {
        ONLY_THE_BUFFER_ASKED => length <= room,
        ONLY_THE_LIMIT_ASKED => length <= 65_536,
        EXACT_OUTPUT_REFUSED => length <= 65_536 && length < room,
        _ => length <= 65_536 && length <= room,
    };
    if !allowed && fault != THIRTEEN_AFTER_FOURTEEN {
        return Err(13);
    }
    let list = opened(fault, before, lent, opening).ok_or(14_u64)?;
    if !allowed {
        return Err(13);
    }
    let mut rows = vec![0; ROWS];
    rows[..PHASE].copy_from_slice(&before[..PHASE]);
    rows[PHASE] = 1;
    rows[SIZE] = length;
    rows[ROOT] = opening.root;
    rows[TAKEN] = u64::from(fault == OPENING_COUNTED);
    rows[BUILT] = match fault {
        BUILT_KEPT_AT_OPENING => before[BUILT].min(length),
        _ => 0,
    };
    rows[WAITING] = 1;
    rows[PLACES + 1] = opening.root;
    let copies = fault != NO_COPY_AT_OPENING;
    let next = settle(fault, rows, Vec::new(), lent, output, copies)?;
    Ok(Next {
        list: Some(list),
        ..next
    })
}

fn node_reply(
    fault: u8,
    before: &[u64],
    lent: &Lent,
    body: &Body,
    output: &[u8],
) -> Result<Next, u64> {
    let room = output.len() as u64;
    let size = before[SIZE];
    let allowed = match fault {
        NODES_ASK_NO_13 => true,
        NODES_ASK_THE_BUFFER_ALONE => size <= room,
        _ => size <= 65_536 && size <= room,
    };
    if !allowed {
        return Err(13);
    }
    let composed = match body {
        Body::Composition {
            number, references, ..
        } => Some(children(fault, before, lent, *number, references)),
        _ => None,
    };
    if fault == SEVENTEEN_FIRST && composed == Some(None) {
        return Err(17);
    }
    let most = match fault {
        MOST_4095 => 4_095,
        MOST_4097 => 4_097,
        _ => 4_096,
    };
    if fault == SIXTEEN_FIRST && matches!(body, Body::None { .. }) {
        return Err(16);
    }
    if before[TAKEN] >= most {
        return Err(15);
    }
    let mut rows = before.to_vec();
    let counted = match (fault, body) {
        (LITERALS_NOT_COUNTED, Body::Literal { .. }) => 0,
        (COUNTED_TWICE, _) => 2,
        _ => 1,
    };
    rows[TAKEN] = rows[TAKEN].wrapping_add(counted);
    rows[WAITING] -= 1;
    let added = match body {
        Body::Literal { bytes, .. } => bytes.clone(),
        Body::Composition { .. } => {
            let ids = composed.flatten().ok_or(17_u64)?;
            push(fault, &mut rows, &ids)?;
            Vec::new()
        }
        _ if fault == NONE_IS_EMPTY => Vec::new(),
        _ => return Err(16),
    };
    let copies = !(fault == NO_COPY_AFTER_LITERAL && matches!(body, Body::Literal { .. }));
    settle(fault, rows, added, lent, output, copies)
}

/// 17: the children of the top, but for the pile.
fn children(
    fault: u8,
    rows: &[u64],
    lent: &Lent,
    number: Option<u32>,
    references: &[Reference],
) -> Option<Vec<u64>> {
    let level = rows[PLACES + 2 * (rows[WAITING] as usize - 1)];
    if level >= rows[LEVELS] && fault != COMPOSED_AT_THE_LAST_LEVEL {
        return None;
    }
    let list = lent.shingle_list();
    let mut pairs = Vec::new();
    for reference in references {
        let index = reference.index as usize + usize::from(fault == INDEX_FROM_1);
        let shingle = list.get(index)?;
        let same_level = shingle.level == level.wrapping_add(1) || fault == LIST_LEVEL_NOT_ASKED;
        let counted = match fault {
            LIST_COUNT_NOT_ASKED => true,
            _ => u64::from(reference.count) <= shingle.count,
        };
        if !same_level || !counted {
            return None;
        }
        let count = match fault {
            COUNTS_OF_THE_LIST => shingle.count,
            _ => u64::from(reference.count),
        };
        pairs.push(((shingle.previous, shingle.own), count));
    }
    let k: u64 = pairs.iter().map(|(_, count)| count).sum();
    if fault == CHILDREN_TO_31 && k > 31 || fault == ONE_REFERENCE_ALONE && references.len() > 1 {
        return None;
    }
    // 33 ids of one equal to the others are one of them and 32.
    if fault == CHILDREN_TO_33 && k == 33 {
        let fewer = |&(pair, count): &((u64, u64), u64)| (pair, count - u64::from(count == 32));
        pairs = pairs.iter().map(fewer).collect();
        let ids = order(fault, &pairs, number)?;
        return Some([&ids[..1], &ids].concat());
    }
    order(fault, &pairs, number)
}

/// The order of the number that a composition carries where several exist, or of the only one.
fn order(fault: u8, pairs: &[((u64, u64), u64)], number: Option<u32>) -> Option<Vec<u64>> {
    let exists = |number: u64| order_of_number(pairs, number).is_some();
    let k: u64 = pairs.iter().map(|(_, count)| count).sum();
    let right = number.is_some() == exists(1);
    let taken = match (fault, number) {
        (OMITTED_TAKEN_AS_0 | OMITTED_TAKEN_AS_THE_LAST, None) => true,
        (OMITTED_REFUSED, None) => false,
        (NUMBER_0_OF_ONE_TAKEN, Some(0)) => true,
        (ANY_NUMBER_OF_ONE_TAKEN, Some(_)) => true,
        (EITHER_FORM_TAKEN, _) => true,
        (CARRIED_0_REFUSED, Some(0)) => false,
        (FORM_ASKED_OF_ONE_CHILD_ALONE, _) => right || k > 1,
        (FORM_ASKED_OF_SEVERAL_REFERENCES_ALONE, _) => right || pairs.len() == 1,
        _ => right,
    };
    let number = match (fault, number) {
        (NUMBER_IGNORED, _) => 0,
        (ANY_NUMBER_OF_ONE_TAKEN, Some(_)) if !exists(1) => 0,
        (OMITTED_TAKEN_AS_THE_LAST, None) => (1..4_096).take_while(|&n| exists(n)).count() as u64,
        (NUMBER_LOW_12_BITS, Some(number)) => u64::from(number % 4_096),
        _ => u64::from(number.unwrap_or(0)),
    };
    match taken {
        true => order_of_number(pairs, number),
        false => None,
    }
}

/// The children in place of the node, the first on the top.
fn push(fault: u8, rows: &mut [u64], ids: &[u64]) -> Result<(), u64> {
    let mut waiting = rows[WAITING] as usize;
    let level = rows[PLACES + 2 * waiting];
    let mut order: Vec<u64> = ids.iter().rev().copied().collect();
    match fault {
        CHILDREN_TURNED_ROUND => order.reverse(),
        CHILDREN_PUSHED_TWICE => order.extend(order.clone()),
        CHILDREN_FEIGNED => order = vec![rows[PLACES + 2 * waiting + 1]],
        _ => {}
    }
    let below = match fault {
        LEVEL_KEPT | CHILDREN_FEIGNED => level,
        _ => level.wrapping_add(1),
    };
    if fault == NODE_KEPT {
        waiting += 1;
    }
    let most = match fault {
        PILE_TO_127 => 127,
        PILE_TO_125 => 125,
        _ => 128,
    };
    if waiting + order.len() > most {
        return Err(17);
    }
    for id in order {
        rows[PLACES + 2 * waiting] = below;
        rows[PLACES + 2 * waiting + 1] = id;
        waiting += 1;
    }
    rows[WAITING] = waiting as u64;
    Ok(())
}

/// Copies what the receiver has, then 18 and 19.
fn settle(
    fault: u8,
    mut rows: Vec<u64>,
    mut added: Vec<u8>,
    lent: &Lent,
    output: &[u8],
    copies: bool,
) -> Result<Next, u64> {
    let nodes = lent.node_list();
    let mut left = match (copies, fault) {
        (false, _) => 0,
        (true, COPIES_ONCE) => 1,
        _ => 129,
    };
    while rows[WAITING] > 0 && left > 0 {
        let top = rows[WAITING] as usize - 1;
        let (level, id) = (rows[PLACES + 2 * top], rows[PLACES + 2 * top + 1]);
        let Some(node) = find(fault, &nodes, lent, level, id) else {
            break;
        };
        let end = (node.start + node.length).min(lent.string.len());
        added.extend(&lent.string[node.start.min(end)..end]);
        rows[WAITING] -= 1;
        left -= 1;
    }
    let (size, from) = (rows[SIZE], rows[BUILT]);
    let built = from.saturating_add(added.len() as u64);
    let within = match fault {
        BUILT_TO_THE_BUFFER => built <= output.len() as u64,
        ALL_BUT_THE_LAST_BYTE => built < size || added.is_empty(),
        BUILT_ALREADY_NOT_ASKED if added.is_empty() => true,
        _ => built <= size,
    };
    if !within {
        return Err(18);
    }
    rows[BUILT] = built;
    if rows[WAITING] == 0 && !whole(fault, &rows, &added, output) {
        return Err(19);
    }
    Ok(Next {
        rows,
        added,
        list: None,
    })
}

fn find(fault: u8, nodes: &[Node], lent: &Lent, level: u64, id: u64) -> Option<Node> {
    let same = |node: &&Node| {
        let same_id = match fault {
            COPIES_LOW_32_BITS => node.id as u32 == id as u32,
            _ => node.id == id,
        };
        let same_level = fault != COPIES_OF_THE_LEVEL || node.level == level;
        let leaf = fault != COPIES_BLOCKS_ALONE || node.level > 0;
        same_id && same_level && leaf && (lent.holds(node) || fault == COPIES_FROM_OUTSIDE)
    };
    match fault {
        COPIES_LAST => nodes.iter().rev().find(same).copied(),
        _ => nodes.iter().find(same).copied(),
    }
}

/// 19.
fn whole(fault: u8, rows: &[u64], added: &[u8], output: &[u8]) -> bool {
    let from = (rows[BUILT] as usize - added.len()).min(output.len());
    let trusted = TRUSTED.with_borrow(Vec::clone);
    let before = match fault {
        RUNNING_VALUE_TRUSTED if trusted.len() == from => &trusted[..],
        _ => &output[..from],
    };
    let string = [before, added].concat();
    let length = string.len() as u64 == rows[SIZE] || fault == LENGTH_NOT_ASKED;
    let hash = fnv1a(&string);
    let id = match fault {
        HASH_NOT_ASKED => true,
        HASH_OF_ADDED_ALONE => from > 0 || hash.max(1) == rows[ROOT],
        HASH_0_IS_0 => hash == rows[ROOT],
        HASH_LOW_32_BITS => hash.max(1) as u32 == rows[ROOT] as u32,
        _ => hash.max(1) == rows[ROOT],
    };
    length && id
}
