//! The comparison tested: ends that are right, written a second time, and many that are wrong in one
//! place each. Every wrong one must be found, and the right ones must pass a third of the sessions. What
//! the sender's calls do wrong is tested in their own groups.

mod receiver;
mod taking;

use super::calls::{Calls, MessageType, Query, ReceiverSetup, Reply, SenderSetup, Take};
use super::cases::count;
use super::report::run;
use crate::lent::{part, part_mut};
use crate::replies::setup::held;
use reference::lent::Lent;
use reference::rcds;
use reference::settings::Settings;

/// Numbers the faults from 1 on, and lists the calls with each of them.
macro_rules! faults {
    ($($fault:ident)*) => {
        #[allow(non_camel_case_types, clippy::upper_case_acronyms)]
        #[repr(u8)]
        enum Number { NONE, $($fault),* }
        const NONE: u8 = Number::NONE as u8;
        $(const $fault: u8 = Number::$fault as u8;)*
        const FAULTS: &[(&str, Calls)] = &[$((stringify!($fault), calls::<$fault>())),*];
    };
}

faults! {
    // What is lent, and the receiver's setup.
    SHORT_STATE_READ SHORT_STATE_BY_7 STRING_NOT_ASKED NODES_NOT_ASKED SHINGLES_NOT_ASKED
    CELLS_NOT_ASKED STATE_ONE_SHORTER STATE_AFTER_8 STATE_ZEROED_AT_8 STATE_MADE_AT_8 SESSION_WHOLE
    SESSION_16_BITS HEADER_ALONE STATE_REST_CLEARED
    // 9, and writing the query.
    PILE_LOW_BYTE PHASE_LOW_BYTE PILE_OF_127 PHASE_2_ENDS_ALONE LEVELS_OF_ALL_PLACES
    LEVEL_OF_THE_TOP LEVELS_NOT_ASKED LEVEL_4_ALLOWED PILE_BEFORE_NOT_ASKED FIRST_PLACE_ASKED
    QUERY_ASKS_NOTHING_LENT ROOM_FIRST QUERY_OF_ENDED EXACT_ROOM_REFUSED WRITTEN_AT_20
    QUERY_REST_CLEARED QUERY_COUNTS_WORDS
    // 10 and 11.
    TEN_FIRST ELEVEN_FIRST SESSION_NOT_ASKED SESSION_LOW_16_BITS SESSION_LOW_24_BITS LEVEL_NOT_ASKED
    ID_NOT_ASKED ID_LOW_32_BITS OPENING_AGAIN QUERY_TAKEN LAST_AGAIN ZEROED_AT_11 ENDED_AT_11
    // 10, where references do not rise.
    FALLING_TAKEN DOUBLED_TAKEN FALLING_AFTER_11 FALLING_BY_17 FALLING_ENDED_AT_10 FALLING_ZEROED_AT_10
    FALLING_COUNTED FALLING_REPLIED_BY_11 FALLING_OF_TYPE_4
    // 10, where a number stands twice or elsewhere.
    MISPLACED_TAKEN MISPLACED_BY_17 MISPLACED_ENDED_AT_10 MISPLACED_REPLIED_BY_11 MISPLACED_OF_TYPE_4
    // An opening: 12 to 14, and the list that it leaves.
    FOURTEEN_FIRST FOURTEEN_EARLY THIRTEEN_AFTER_FOURTEEN NOMINAL_NOT_ASKED WINDOW_LOW_BYTE
    WIDTH_NOT_ASKED RULE_NOT_ASKED RULE_0_TAKEN RULE_1_TAKEN RULE_1_WANTED RULE_2_TAKEN RULE_2_WANTED
    RULE_4_TAKEN RULE_4_WANTED RULES_TO_3_TAKEN RULES_FROM_3_ON_TAKEN RULE_LOW_BYTE RULE_2_NOT_ENDED
    RULE_2_NOT_ZEROED OTHER_RULE_BY_10 OTHER_RULE_BY_11 OTHER_RULE_NOT_ENDED OTHER_RULE_NOT_ZEROED
    ONLY_THE_BUFFER_ASKED ONLY_THE_LIMIT_ASKED EXACT_OUTPUT_REFUSED
    OPENING_COUNTED BUILT_KEPT_AT_OPENING NO_COPY_AT_OPENING LIST_LEFT_AT_18 LIST_LEFT_AT_19
    LIST_NOT_LEFT LIST_NOT_CLEARED
    // A node reply: 13, 15 to 17.
    NODES_ASK_NO_13 NODES_ASK_THE_BUFFER_ALONE SEVENTEEN_FIRST SIXTEEN_FIRST MOST_4095 MOST_4097 LITERALS_NOT_COUNTED
    COUNTED_TWICE NONE_IS_EMPTY NONE_ONLY_REFUSED COMPOSED_AT_THE_LAST_LEVEL INDEX_FROM_1
    LIST_LEVEL_NOT_ASKED LIST_COUNT_NOT_ASKED COUNTS_OF_THE_LIST NUMBER_IGNORED NUMBER_LOW_12_BITS
    CHILDREN_TO_31 CHILDREN_TO_33 ONE_REFERENCE_ALONE
    // 17, where a composition omits its number, or carries one.
    OMITTED_TAKEN_AS_0 OMITTED_TAKEN_AS_THE_LAST OMITTED_REFUSED NUMBER_0_OF_ONE_TAKEN
    ANY_NUMBER_OF_ONE_TAKEN EITHER_FORM_TAKEN CARRIED_0_REFUSED FORM_ASKED_OF_ONE_CHILD_ALONE
    FORM_ASKED_OF_SEVERAL_REFERENCES_ALONE OTHER_FORM_BY_10 OTHER_FORM_BY_16 OTHER_FORM_NOT_ENDED
    OTHER_FORM_NOT_ZEROED OTHER_FORM_COUNTED NO_TRAIL_OMITTED_BY_10
    // Children and copies.
    CHILDREN_TURNED_ROUND CHILDREN_PUSHED_TWICE CHILDREN_FEIGNED LEVEL_KEPT NODE_KEPT PILE_TO_127
    PILE_TO_125 NO_COPY_AFTER_LITERAL COPIES_ONCE COPIES_LOW_32_BITS COPIES_OF_THE_LEVEL
    COPIES_BLOCKS_ALONE COPIES_FROM_OUTSIDE COPIES_LAST
    // 18, 19, and what an end leaves.
    BUILT_TO_THE_BUFFER ALL_BUT_THE_LAST_BYTE BUILT_ALREADY_NOT_ASKED LENGTH_NOT_ASKED
    HASH_NOT_ASKED HASH_OF_ADDED_ALONE HASH_0_IS_0 HASH_LOW_32_BITS RUNNING_VALUE_TRUSTED
    NEVER_ZEROES ZEROES_WHAT_IS_ANNOUNCED ZEROES_WHAT_IS_BUILT NEVER_ENDS ENDS_AS_3
    POPPED_PLACES_KEPT ENDED_KEEPS_ITS_PLACES ENDED_KEEPS_ITS_COUNTS OUTPUT_REST_CLEARED HANDED_GOES_ON
    GOES_ON_BY_ITS_LENGTH HANDS_THE_BUFFER
    // Bytes that no call may change, and the sender.
    RECEIVER_STRING_CHANGED RECEIVER_NODES_CHANGED SHINGLES_CHANGED CELLS_CHANGED MESSAGE_CHANGED
    PAST_THE_OUTPUT BEFORE_THE_OUTPUT PAST_THE_STATE BEFORE_THE_SHINGLES STATE_CHANGED_BY_QUERY
    PAST_THE_QUERY SENDER_STATE_CHANGED REPLY_OF_SESSION_0 OPENING_OF_RULE_1 OPENING_OF_RULE_2
    SENDER_SETUP_WITHOUT_CELLS
}

unsafe fn lent(pieces: [(*const u8, usize); 4]) -> Lent {
    let [string, nodes, shingles, cells] = pieces.map(|(at, length)| part(at, length).to_vec());
    Lent {
        string,
        nodes,
        shingles,
        cells,
    }
}

unsafe extern "C" fn sender_setup<const FAULT: u8>(
    window: u64,
    fan_out: u64,
    levels: u64,
    nominal: u64,
    width: u64,
    string: *const u8,
    string_len: usize,
    nodes: *mut u8,
    nodes_len: usize,
    shingles: *mut u8,
    shingles_len: usize,
    cells: *mut u8,
    cells_len: usize,
    state: *mut u8,
    state_len: usize,
) -> u64 {
    let settings = Settings {
        window,
        fan_out,
        levels,
        nominal,
    };
    let cells = part_mut(cells, cells_len);
    let answer = rcds::rcds_sender_setup(
        &settings,
        width,
        part(string, string_len),
        part_mut(nodes, nodes_len),
        part_mut(shingles, shingles_len),
        cells,
        part_mut(state, state_len),
    );
    if FAULT == SENDER_SETUP_WITHOUT_CELLS && answer > 8 {
        cells.fill(0);
    }
    answer
}

unsafe extern "C" fn reply<const FAULT: u8>(
    state: *const u8,
    state_len: usize,
    string: *const u8,
    string_len: usize,
    nodes: *const u8,
    nodes_len: usize,
    shingles: *const u8,
    shingles_len: usize,
    cells: *const u8,
    cells_len: usize,
    message: *const u8,
    message_len: usize,
    out: *mut u8,
    out_len: usize,
) -> u64 {
    let lent = lent([
        (string, string_len),
        (nodes, nodes_len),
        (shingles, shingles_len),
        (cells, cells_len),
    ]);
    let (settings, width) = held(part(state, state_len));
    let message = part(message, message_len);
    let out = part_mut(out, out_len);
    let answer = reference::reply::reply(&settings, width, &lent, message, out);
    match FAULT {
        REPLY_OF_SESSION_0 if answer > 20 => out[1..4].fill(0),
        // The rule is the word after the head of an opening.
        OPENING_OF_RULE_1 if answer > 20 && out[0] == 0x13 => out[7] = 1,
        OPENING_OF_RULE_2 if answer > 20 && out[0] == 0x13 => out[7] = 2,
        SENDER_STATE_CHANGED if state_len > 0 => *state.cast_mut() ^= 1,
        FALLING_REPLIED_BY_11 if answer == 10 && taking::falls(message) => return 11,
        MISPLACED_REPLIED_BY_11 if answer == 10 && taking::is_misplaced(message) => return 11,
        _ => {}
    }
    answer
}

unsafe extern "C" fn receiver_setup<const FAULT: u8>(
    window: u64,
    fan_out: u64,
    levels: u64,
    nominal: u64,
    width: u64,
    session: u64,
    string: *const u8,
    string_len: usize,
    nodes: *mut u8,
    nodes_len: usize,
    shingles: *mut u8,
    shingles_len: usize,
    cells: *mut u8,
    cells_len: usize,
    state: *mut u8,
    state_len: usize,
) -> u64 {
    let settings = Settings {
        window,
        fan_out,
        levels,
        nominal,
    };
    let mut lent = lent([
        (string, string_len),
        (nodes, nodes_len),
        (shingles, shingles_len),
        (cells, cells_len),
    ]);
    let state = part_mut(state, state_len);
    let answer = receiver::set_up(FAULT, &settings, width, session, &mut lent, state);
    part_mut(nodes, nodes_len).copy_from_slice(&lent.nodes);
    part_mut(shingles, shingles_len).copy_from_slice(&lent.shingles);
    part_mut(cells, cells_len).copy_from_slice(&lent.cells);
    answer
}

unsafe extern "C" fn query<const FAULT: u8>(
    state: *const u8,
    state_len: usize,
    string: *const u8,
    string_len: usize,
    nodes: *const u8,
    nodes_len: usize,
    shingles: *const u8,
    shingles_len: usize,
    cells: *const u8,
    cells_len: usize,
    out: *mut u8,
    out_len: usize,
) -> u64 {
    let lent = lent([
        (string, string_len),
        (nodes, nodes_len),
        (shingles, shingles_len),
        (cells, cells_len),
    ]);
    let bytes = part(state, state_len);
    let answer = receiver::query(FAULT, bytes, &lent, part_mut(out, out_len));
    // The guard bytes and all pieces come from vectors, so these writes stay in their memory.
    match FAULT {
        STATE_CHANGED_BY_QUERY if state_len > 0 => *state.cast_mut() ^= 1,
        PAST_THE_QUERY if out_len > 0 => *out.add(out_len) ^= 1,
        _ => {}
    }
    answer
}

unsafe extern "C" fn take<const FAULT: u8>(
    state: *mut u8,
    state_len: usize,
    string: *const u8,
    string_len: usize,
    nodes: *const u8,
    nodes_len: usize,
    shingles: *mut u8,
    shingles_len: usize,
    cells: *const u8,
    cells_len: usize,
    message: *const u8,
    message_len: usize,
    output: *mut u8,
    output_len: usize,
) -> u64 {
    let mut lent = lent([
        (string, string_len),
        (nodes, nodes_len),
        (shingles, shingles_len),
        (cells, cells_len),
    ]);
    let answer = taking::take(
        FAULT,
        part_mut(state, state_len),
        &mut lent,
        part(message, message_len),
        part_mut(output, output_len),
    );
    part_mut(shingles, shingles_len).copy_from_slice(&lent.shingles);
    // As above.
    match FAULT {
        RECEIVER_STRING_CHANGED if string_len > 0 => *string.cast_mut() ^= 1,
        RECEIVER_NODES_CHANGED if nodes_len > 0 => *nodes.cast_mut() ^= 1,
        SHINGLES_CHANGED if shingles_len > 0 => *shingles.add(shingles_len - 1) ^= 1,
        CELLS_CHANGED if cells_len > 0 => *cells.cast_mut() ^= 1,
        MESSAGE_CHANGED if message_len > 0 => *message.cast_mut() ^= 1,
        PAST_THE_OUTPUT if output_len > 0 => *output.add(output_len) ^= 1,
        BEFORE_THE_OUTPUT if output_len > 0 => *output.sub(1) ^= 1,
        PAST_THE_STATE if state_len > 0 => *state.add(state_len) ^= 1,
        BEFORE_THE_SHINGLES if shingles_len > 0 => *shingles.sub(1) ^= 1,
        _ => {}
    }
    answer
}

unsafe extern "C" fn message_type<const FAULT: u8>(message: *const u8, message_len: usize) -> u64 {
    let message = part(message, message_len);
    let taken = FAULT == FALLING_OF_TYPE_4 && taking::falls(message)
        || FAULT == MISPLACED_OF_TYPE_4 && taking::is_misplaced(message);
    match taken {
        true => receiver::ACCEPTED + 4,
        false => rcds::rcds_message_type(message),
    }
}

/// The calls with one fault.
const fn calls<const FAULT: u8>() -> Calls {
    Calls {
        sender_setup: sender_setup::<FAULT> as SenderSetup,
        reply: reply::<FAULT> as Reply,
        receiver_setup: receiver_setup::<FAULT> as ReceiverSetup,
        query: query::<FAULT> as Query,
        take: take::<FAULT> as Take,
        message_type: message_type::<FAULT> as MessageType,
    }
}

const SEED: u64 = 1;

#[test]
fn the_right_calls_pass() {
    match run(SEED, count() / 3, &calls::<NONE>()) {
        Ok(report) => report.assert_complete(),
        Err(failure) => panic!("{failure}"),
    }
}

#[test]
fn every_fault_is_found() {
    let mut passed = Vec::new();
    for (name, calls) in FAULTS {
        match run(SEED, count(), calls) {
            Ok(_) => passed.push(name),
            Err(failure) => println!("{name}: {failure}"),
        }
    }
    assert!(passed.is_empty(), "passed: {passed:?}");
}
