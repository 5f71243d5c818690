//! The comparison tested: two functions that are right, and many that are wrong in one place each.
//! Every wrong one must be found, and the right ones must pass a quarter of the cases.
//!
//! The right ones walk the trails one after the other, and turn back as soon as an unused pair can
//! no longer be reached.

use super::cases::count;
use super::compare::{Calls, TrailNumber, TrailOrder};
use super::report::run;
use crate::lent::{part, part_mut};
use std::cmp::Ordering;

const NONE: u8 = 0;

// Of both calls.
const SIGNED: u8 = 1;
const FALLING: u8 = 2;
const LOW_BYTE_FIRST: u8 = 3;
const HIGH_HALVES_ONLY: u8 = 4;
const PAIR_LEFT_UNUSED: u8 = 5;
const REACHED_IN_ONE_PASS: u8 = 6;
const EQUAL_PAIRS_TOLD_APART: u8 = 7;
const REFUSES_32_IDS: u8 = 8;
const TAKES_33_IDS: u8 = 9;
const PART_OF_A_ROW_DROPPED: u8 = 10;
const READ_PIECE_CHANGED: u8 = 11;
const PAST_THE_READ_PIECE: u8 = 12;

// Of `rcds_trail_number`.
const COUNTS_ITSELF: u8 = 20;
const CAP_4095: u8 = 21;
const CAP_4097: u8 = 22;
const TAKES_NO_IDS: u8 = 23;
const TAKES_ID_0: u8 = 24;
const LAST_ID_MAY_BE_0: u8 = 25;
const ALWAYS_0: u8 = 26;

// Of `rcds_trail_order`.
const NEXT_NUMBER: u8 = 40;
const NUMBER_4096: u8 = 41;
const NUMBER_4095_REFUSED: u8 = 42;
const NUMBER_LOW_32_BITS: u8 = 43;
const LAST_TRAIL_FOR_LARGER: u8 = 44;
const ENTRIES_NOT_SORTED: u8 = 45;
const COUNT_0_ENDS: u8 = 46;
const COUNT_0_IS_1: u8 = 47;
const COUNTS_WRAP: u8 = 48;
const COUNTS_32_BITS: u8 = 49;
const COUNTS_8_BITS: u8 = 50;
const LAST_ENTRY_OF_EQUAL_PAIRS: u8 = 51;
const REFUSES_ID_0: u8 = 52;
const ENDS_AT_ID_0: u8 = 53;
const REFUSES_32_ENTRIES: u8 = 54;
const TAKES_33_ENTRIES: u8 = 55;
const ROOM_BEFORE_TRAIL: u8 = 56;
const ROOM_FOR_32: u8 = 57;
const ROOM_ONE_BYTE_MORE: u8 = 58;
const ROOM_NOT_ASKED: u8 = 59;
const WRITES_AT_20: u8 = 60;
const WRITES_AT_17: u8 = 61;
const REST_CLEARED: u8 = 62;
const PAST_THE_IDS: u8 = 63;
const BEFORE_THE_IDS: u8 = 64;
const ANSWERS_BYTES: u8 = 65;
const REFUSED_BY_10: u8 = 66;

// Of both calls: whether the trail is the only one.
const ONLY_NEVER_SAID: u8 = 80;
const ONLY_ALWAYS_SAID: u8 = 81;
const ONLY_AT_NUMBER_0: u8 = 82;
const ONLY_AT_THE_LAST_NUMBER: u8 = 83;
const ONLY_OF_DIFFERENT_IDS: u8 = 84;
const ONLY_OF_DIFFERENT_PAIRS: u8 = 85;
const ONLY_WITHOUT_A_CHOICE: u8 = 86;
const ONLY_BY_THE_FIRST_CHOICE: u8 = 87;
const ONLY_OF_PAIRS_TOLD_APART: u8 = 88;
const ONLY_OF_ONE_ID_NOT_SAID: u8 = 89;
const ONLY_OF_32_IDS_NOT_SAID: u8 = 90;
const ONLY_OF_TWO_TRAILS: u8 = 91;
const ONLY_TURNED_ROUND: u8 = 92;
const ONLY_IN_BIT_34: u8 = 93;
const ONLY_IN_BIT_31: u8 = 94;
const ONLY_FOR_ACCEPTED: u8 = 95;
const ONLY_AT_17: u8 = 96;
const ONLY_AT_20: u8 = 97;
const ONLY_AT_4096: u8 = 98;

/// A pair in a search: its ids, their places in the list of all ids, how many are unused.
struct Pair {
    previous: u64,
    own: u64,
    previous_place: u32,
    own_place: u32,
    unused: u64,
}

/// A search over unused pairs.
struct Search {
    fault: u8,
    /// In the order in which they are tried.
    pairs: Vec<Pair>,
    /// How many trails are still to be skipped.
    skip: u64,
    ids: Vec<u64>,
}

/// Which of two ids comes first.
fn order(fault: u8, a: u64, b: u64) -> Ordering {
    match fault {
        SIGNED => (a as i64).cmp(&(b as i64)),
        FALLING => b.cmp(&a),
        HIGH_HALVES_ONLY => (a >> 32).cmp(&(b >> 32)),
        _ => a.cmp(&b),
    }
}

impl Search {
    fn new(fault: u8, entries: &[[u64; 3]], skip: u64) -> Search {
        let mut all: Vec<u64> = entries
            .iter()
            .flat_map(|entry| [entry[0], entry[1]])
            .collect();
        all.sort();
        all.dedup();
        let place = |id: u64| all.binary_search(&id).expect("an id of an entry") as u32;
        let mut pairs: Vec<Pair> = Vec::new();
        for &[previous, own, count] in entries {
            let equal = |pair: &&mut Pair| pair.previous == previous && pair.own == own;
            let known = pairs.iter_mut().find(equal);
            match known.filter(|_| fault != EQUAL_PAIRS_TOLD_APART) {
                Some(pair) if fault == LAST_ENTRY_OF_EQUAL_PAIRS => pair.unused = count,
                Some(pair) => pair.unused += count,
                None => pairs.push(Pair {
                    previous,
                    own,
                    previous_place: place(previous),
                    own_place: place(own),
                    unused: count,
                }),
            }
        }
        if fault != ENTRIES_NOT_SORTED {
            pairs.sort_by(|a, b| order(fault, a.own, b.own));
        }
        Search {
            fault,
            pairs,
            skip,
            ids: Vec::new(),
        }
    }

    /// Whether every unused pair can be reached from this id.
    fn reaches_all(&self, from: u64) -> bool {
        let mut places = self.pairs.iter();
        let Some(start) = places.find(|pair| pair.previous == from && pair.unused > 0) else {
            return false;
        };
        let mut reached: u64 = 1 << start.previous_place;
        let mut before = 0;
        while reached != before {
            before = reached;
            for pair in &self.pairs {
                if pair.unused > 0 && reached >> pair.previous_place & 1 == 1 {
                    reached |= 1 << pair.own_place;
                }
            }
            if self.fault == REACHED_IN_ONE_PASS {
                break;
            }
        }
        let mut unused = self.pairs.iter().filter(|pair| pair.unused > 0);
        unused.all(|pair| reached >> pair.previous_place & 1 == 1)
    }

    /// Walks the trails from this id on, until the numbered one is found.
    fn walk(&mut self, from: u64, unused: u64) -> bool {
        let may_be_left = u64::from(self.fault == PAIR_LEFT_UNUSED && !self.ids.is_empty());
        if unused <= may_be_left {
            if self.skip == 0 {
                return true;
            }
            self.skip -= 1;
            return false;
        }
        let ended = self.fault == ENDS_AT_ID_0 && from == 0 && !self.ids.is_empty();
        if ended || !self.reaches_all(from) {
            return false;
        }
        for k in 0..self.pairs.len() {
            let Pair {
                previous,
                own,
                unused: count,
                ..
            } = self.pairs[k];
            if previous != from || count == 0 {
                continue;
            }
            self.pairs[k].unused -= 1;
            self.ids.push(own);
            if self.walk(own, unused - 1) {
                return true;
            }
            self.ids.pop();
            self.pairs[k].unused += 1;
        }
        false
    }
}

/// Whether each id is entered as often as it is left, but for the start and one end: else there
/// is no trail, and no search for one.
fn is_balanced(entries: &[[u64; 3]]) -> bool {
    let entered = |id: u64| {
        let own = entries.iter().filter(|entry| entry[1] == id);
        own.map(|entry| entry[2]).sum::<u64>() + u64::from(id == 0)
    };
    let left = |id: u64| {
        let previous = entries.iter().filter(|entry| entry[0] == id);
        previous.map(|entry| entry[2]).sum::<u64>()
    };
    entries
        .iter()
        .all(|entry| left(entry[0]) <= entered(entry[0]))
}

/// Whether a trail of this number exists, whatever else is wrong.
fn exists(entries: &[[u64; 3]], number: u64) -> bool {
    let k = entries.iter().map(|entry| entry[2]).sum();
    is_balanced(entries) && Search::new(NONE, entries, number).walk(0, k)
}

/// Whether at the first id after which several may come one alone leads to a trail. What comes later is not
/// looked at.
fn one_at_the_first_choice(entries: &[[u64; 3]]) -> bool {
    let mut search = Search::new(NONE, entries, 0);
    let mut from = 0;
    loop {
        let next = |pair: &Pair| pair.previous == from && pair.unused > 0;
        let places: Vec<usize> = (0..search.pairs.len())
            .filter(|&k| next(&search.pairs[k]))
            .collect();
        match places.as_slice() {
            [] => return true,
            [one] => {
                search.pairs[*one].unused -= 1;
                from = search.pairs[*one].own;
            }
            _ => return places.iter().filter(|&&k| leads_on(&search, k)).count() == 1,
        }
    }
}

/// Whether a trail goes on over this pair.
fn leads_on(search: &Search, place: usize) -> bool {
    let own = search.pairs[place].own;
    let left = |k: usize, pair: &Pair| pair.unused - u64::from(k == place);
    let rest = search.pairs.iter().enumerate();
    let rest: Vec<[u64; 3]> = rest
        .map(|(k, pair)| [pair.previous, pair.own, left(k, pair)])
        .filter(|entry| entry[2] > 0)
        .collect();
    let k = rest.iter().map(|entry| entry[2]).sum();
    Search::new(NONE, &rest, 0).walk(own, k)
}

/// Whether the trail of this number is said to be the only one over entries whose counts are not 0.
fn only(fault: u8, entries: &[[u64; 3]], number: u64) -> bool {
    let second = || exists(entries, 1);
    let k: u64 = entries.iter().map(|entry| entry[2]).sum();
    let twice = |ids: Vec<[u64; 2]>| {
        ids.iter()
            .any(|a| ids.iter().filter(|b| *b == a).count() > 1)
    };
    let each = || {
        entries
            .iter()
            .flat_map(|e| vec![[e[0], e[1]]; e[2] as usize])
    };
    match fault {
        ONLY_NEVER_SAID => false,
        ONLY_ALWAYS_SAID => true,
        ONLY_AT_NUMBER_0 => number == 0,
        ONLY_AT_THE_LAST_NUMBER => !exists(entries, number + 1),
        ONLY_OF_DIFFERENT_IDS => !twice(each().map(|[_, own]| [own, 0]).collect()),
        ONLY_OF_DIFFERENT_PAIRS => !second() && !twice(each().collect()),
        ONLY_WITHOUT_A_CHOICE => {
            let mut pairs: Vec<[u64; 2]> = each().collect();
            pairs.sort();
            pairs.dedup();
            !twice(pairs.iter().map(|&[previous, _]| [previous, 0]).collect())
        }
        ONLY_BY_THE_FIRST_CHOICE => one_at_the_first_choice(entries),
        ONLY_OF_PAIRS_TOLD_APART => {
            let apart: Vec<[u64; 3]> = each().map(|[previous, own]| [previous, own, 1]).collect();
            !Search::new(EQUAL_PAIRS_TOLD_APART, &apart, 1).walk(0, k)
        }
        ONLY_OF_ONE_ID_NOT_SAID => k > 1 && !second(),
        ONLY_OF_32_IDS_NOT_SAID => k < 32 && !second(),
        ONLY_OF_TWO_TRAILS => !exists(entries, 2),
        ONLY_TURNED_ROUND => second(),
        _ => !second(),
    }
}

/// The answer with what is said of being the only trail; a refused one stays as it is.
fn with_only(fault: u8, answer: u64, only: bool) -> u64 {
    let bit = match fault {
        ONLY_IN_BIT_34 => 34,
        ONLY_IN_BIT_31 => 31,
        _ => 33,
    };
    match (fault, answer) {
        (ONLY_AT_17, 17) | (ONLY_AT_20, 20) => answer + (1 << bit),
        (_, ..=20) => answer,
        (ONLY_FOR_ACCEPTED, _) if only => answer - (1 << 32) + (1 << bit),
        _ if only => answer + (1 << bit),
        _ => answer,
    }
}

fn rows(fault: u8, bytes: &[u8]) -> Vec<u64> {
    let row = |bytes: &[u8]| {
        let bytes = bytes.try_into().expect("a row has 8 bytes");
        match fault {
            LOW_BYTE_FIRST => u64::from_le_bytes(bytes),
            _ => u64::from_be_bytes(bytes),
        }
    };
    bytes.chunks_exact(8).map(row).collect()
}

/// Whether so many ids are taken.
fn ids_allowed(fault: u8, count: u64) -> bool {
    match fault {
        REFUSES_32_IDS => (1..=31).contains(&count),
        TAKES_33_IDS => (1..=33).contains(&count),
        TAKES_NO_IDS => (0..=32).contains(&count),
        _ => (1..=32).contains(&count),
    }
}

/// `rcds_trail_number` with one fault.
fn answer_number(fault: u8, ids: &[u8]) -> u64 {
    if ids.len() % 8 != 0 && fault != PART_OF_A_ROW_DROPPED {
        return 17;
    }
    let ids = rows(fault, ids);
    let looked_at = match fault {
        TAKES_ID_0 => 0,
        LAST_ID_MAY_BE_0 => ids.len().saturating_sub(1),
        _ => ids.len(),
    };
    if !ids_allowed(fault, ids.len() as u64) || ids[..looked_at].contains(&0) {
        return 17;
    }
    let previous: Vec<u64> = [0].iter().chain(&ids).copied().collect();
    let pair = |k: usize| [previous[k], ids[k], 1];
    let pairs: Vec<[u64; 3]> = (0..ids.len()).map(pair).collect();
    let cap = match fault {
        CAP_4095 => 4_095,
        CAP_4097 => 4_097,
        _ => 4_096,
    };
    let mut number = u64::from(fault == COUNTS_ITSELF);
    for d in 0..ids.len() {
        let mut search = Search::new(fault, &pairs[d..], 0);
        for k in 0..search.pairs.len() {
            let (from, own) = (search.pairs[k].previous, search.pairs[k].own);
            let smaller = order(fault, own, ids[d]) == Ordering::Less && number < cap;
            if from == previous[d] && smaller && fault != ALWAYS_0 {
                search.skip = cap - number;
                search.pairs[k].unused -= 1;
                search.ids = vec![own];
                search.walk(own, (ids.len() - d - 1) as u64);
                search = Search::new(fault, &pairs[d..], search.skip);
                number = cap - search.skip;
            }
        }
    }
    let only = match (fault, number) {
        (ONLY_AT_4096, 4_096) => true,
        _ => only(fault, &pairs, number),
    };
    with_only(fault, (1 << 32) + number, only)
}

/// `rcds_trail_order` with one fault: the answer, and the ids that are written.
fn answer_order(fault: u8, pairs: &[u8], number: u64, room: usize) -> (u64, Vec<u64>) {
    let most_entries = match fault {
        REFUSES_32_ENTRIES => 31,
        TAKES_33_ENTRIES => 33,
        _ => 32,
    };
    let whole = pairs.len() % 24 == 0 || fault == PART_OF_A_ROW_DROPPED;
    if !whole || pairs.len() / 24 > most_entries {
        return (17, vec![]);
    }
    let rows = rows(fault, pairs);
    let mut entries: Vec<[u64; 3]> = rows
        .chunks_exact(3)
        .map(|row| [row[0], row[1], row[2]])
        .collect();
    if fault == COUNT_0_ENDS {
        let end = entries.iter().position(|entry| entry[2] == 0);
        entries.truncate(end.unwrap_or(entries.len()));
    }
    for entry in &mut entries {
        entry[2] = match fault {
            COUNT_0_IS_1 => entry[2].max(1),
            COUNTS_32_BITS => entry[2] % (1 << 32),
            COUNTS_8_BITS => entry[2] % (1 << 8),
            _ => entry[2],
        };
    }
    let add = |sum: u64, entry: &[u64; 3]| match fault {
        COUNTS_WRAP => sum.wrapping_add(entry[2]),
        _ => sum.saturating_add(entry[2]),
    };
    let k = entries.iter().fold(0, add);
    let number = match fault {
        NUMBER_LOW_32_BITS => number % (1 << 32),
        NEXT_NUMBER => number.saturating_add(1),
        _ => number,
    };
    let most_number = match fault {
        NUMBER_4096 => 4_096,
        NUMBER_4095_REFUSED => 4_094,
        _ => 4_095,
    };
    if !ids_allowed(fault, k) || number > most_number {
        return (17, vec![]);
    }
    let has_id_0 = entries.iter().any(|entry| entry[1] == 0 && entry[2] > 0);
    if has_id_0 && fault == REFUSES_ID_0 {
        return (17, vec![]);
    }
    let needed = 8 * k as usize;
    let fits = match fault {
        ROOM_FOR_32 => room >= 256,
        ROOM_ONE_BYTE_MORE => room > needed,
        ROOM_NOT_ASKED => true,
        _ => room >= needed,
    };
    if fault == ROOM_BEFORE_TRAIL && !fits {
        return (20, vec![]);
    }
    entries.retain(|entry| entry[2] > 0);
    // With counts that wrap, one of them may be too large to be walked.
    if entries.iter().any(|entry| entry[2] > 32) {
        return ((1 << 32) + k, vec![]);
    }
    let mut search = Search::new(fault, &entries, number);
    let mut found = is_balanced(&entries) && search.walk(0, k);
    if !found && fault == LAST_TRAIL_FOR_LARGER && number > search.skip {
        let last = number - search.skip - 1;
        search = Search::new(fault, &entries, last);
        found = search.walk(0, k);
    }
    match (found, fits) {
        (false, _) => (17, vec![]),
        (true, false) => (20, search.ids),
        (true, true) => {
            let count = match fault {
                ANSWERS_BYTES => 8 * k,
                _ => k,
            };
            let only = only(fault, &entries, number);
            (with_only(fault, (1 << 32) + count, only), search.ids)
        }
    }
}

/// The function with one fault, as C would call it.
unsafe extern "C" fn faulty_number<const FAULT: u8>(ids: *const u8, ids_len: usize) -> u64 {
    let answer = answer_number(FAULT, part(ids, ids_len));
    changed::<FAULT>(ids, ids_len);
    match answer {
        17 => with_only(FAULT, 17, false),
        answer => answer,
    }
}

/// Changes a byte of the piece that was lent for reading, or one past it. Both stand in a vector
/// with guard bytes, so these writes stay in its memory; a piece without bytes is null.
unsafe fn changed<const FAULT: u8>(piece: *const u8, length: usize) {
    match FAULT {
        READ_PIECE_CHANGED if length > 0 => *piece.cast_mut() ^= 1,
        PAST_THE_READ_PIECE if length > 0 => *piece.cast_mut().add(length) ^= 1,
        _ => {}
    }
}

/// The function with one fault, as C would call it.
unsafe extern "C" fn faulty_order<const FAULT: u8>(
    pairs: *const u8,
    pairs_len: usize,
    number: u64,
    ids: *mut u8,
    ids_len: usize,
) -> u64 {
    let lent = part(pairs, pairs_len);
    let written = part_mut(ids, ids_len);
    let (answer, order) = answer_order(FAULT, lent, number, ids_len);
    if answer > 20 || FAULT == WRITES_AT_20 {
        for (bytes, id) in written.chunks_exact_mut(8).zip(&order) {
            bytes.copy_from_slice(&match FAULT {
                LOW_BYTE_FIRST => id.to_le_bytes(),
                _ => id.to_be_bytes(),
            });
        }
    }
    match FAULT {
        REST_CLEARED if answer > 20 => written[8 * order.len()..].fill(0),
        WRITES_AT_17 if answer == 17 => written.fill(0),
        PAST_THE_IDS if ids_len > 0 => *ids.add(ids_len) ^= 1,
        BEFORE_THE_IDS if ids_len > 0 => *ids.sub(1) ^= 1,
        _ => {}
    }
    changed::<FAULT>(pairs, pairs_len);
    match answer {
        17 if FAULT == REFUSED_BY_10 => 10,
        17 | 20 => with_only(FAULT, answer, false),
        answer => answer,
    }
}

macro_rules! functions {
    ($function:ident $kind:ident $($fault:ident)*) => {
        [$((stringify!($fault), $function::<$fault> as $kind)),*]
    };
}

const SEED: u64 = 1;

#[test]
fn the_right_functions_pass() {
    let calls = Calls {
        number: faulty_number::<NONE>,
        order: faulty_order::<NONE>,
    };
    match run(SEED, count() / 4, calls) {
        Ok(report) => report.assert_complete(),
        Err(failure) => panic!("{failure}"),
    }
}

fn assert_found(name: &str, call: &str, calls: Calls) {
    match run(SEED, count(), calls) {
        Ok(_) => panic!("{name} passed"),
        Err(failure) => {
            println!("{name}: {failure}");
            assert_eq!(failure.call, call);
        }
    }
}

#[test]
fn every_fault_of_numbering_is_found() {
    let functions = functions! {
        faulty_number TrailNumber
        SIGNED FALLING LOW_BYTE_FIRST HIGH_HALVES_ONLY PAIR_LEFT_UNUSED REACHED_IN_ONE_PASS
        EQUAL_PAIRS_TOLD_APART REFUSES_32_IDS TAKES_33_IDS PART_OF_A_ROW_DROPPED READ_PIECE_CHANGED
        PAST_THE_READ_PIECE COUNTS_ITSELF CAP_4095 CAP_4097 TAKES_NO_IDS TAKES_ID_0 LAST_ID_MAY_BE_0
        ALWAYS_0 ONLY_NEVER_SAID ONLY_ALWAYS_SAID ONLY_AT_NUMBER_0 ONLY_AT_THE_LAST_NUMBER
        ONLY_OF_DIFFERENT_IDS ONLY_OF_DIFFERENT_PAIRS ONLY_WITHOUT_A_CHOICE ONLY_BY_THE_FIRST_CHOICE
        ONLY_OF_PAIRS_TOLD_APART ONLY_OF_ONE_ID_NOT_SAID ONLY_OF_32_IDS_NOT_SAID ONLY_OF_TWO_TRAILS
        ONLY_TURNED_ROUND ONLY_IN_BIT_34 ONLY_IN_BIT_31 ONLY_FOR_ACCEPTED ONLY_AT_17 ONLY_AT_4096
    };
    for (name, number) in functions {
        let order = faulty_order::<NONE>;
        assert_found(name, "rcds_trail_number", Calls { number, order });
    }
}

#[test]
fn every_fault_of_ordering_is_found() {
    let functions = functions! {
        faulty_order TrailOrder
        SIGNED FALLING LOW_BYTE_FIRST HIGH_HALVES_ONLY PAIR_LEFT_UNUSED REACHED_IN_ONE_PASS
        EQUAL_PAIRS_TOLD_APART REFUSES_32_IDS TAKES_33_IDS PART_OF_A_ROW_DROPPED READ_PIECE_CHANGED
        PAST_THE_READ_PIECE NEXT_NUMBER NUMBER_4096 NUMBER_4095_REFUSED NUMBER_LOW_32_BITS
        LAST_TRAIL_FOR_LARGER ENTRIES_NOT_SORTED COUNT_0_ENDS COUNT_0_IS_1 COUNTS_WRAP
        COUNTS_32_BITS COUNTS_8_BITS LAST_ENTRY_OF_EQUAL_PAIRS REFUSES_ID_0 ENDS_AT_ID_0
        REFUSES_32_ENTRIES TAKES_33_ENTRIES ROOM_BEFORE_TRAIL ROOM_FOR_32 ROOM_ONE_BYTE_MORE
        ROOM_NOT_ASKED WRITES_AT_20 WRITES_AT_17 REST_CLEARED PAST_THE_IDS BEFORE_THE_IDS
        ANSWERS_BYTES REFUSED_BY_10 ONLY_NEVER_SAID ONLY_ALWAYS_SAID ONLY_AT_NUMBER_0
        ONLY_AT_THE_LAST_NUMBER ONLY_OF_DIFFERENT_IDS ONLY_OF_DIFFERENT_PAIRS ONLY_WITHOUT_A_CHOICE
        ONLY_BY_THE_FIRST_CHOICE ONLY_OF_PAIRS_TOLD_APART ONLY_OF_ONE_ID_NOT_SAID
        ONLY_OF_32_IDS_NOT_SAID ONLY_OF_TWO_TRAILS ONLY_TURNED_ROUND ONLY_IN_BIT_34 ONLY_IN_BIT_31
        ONLY_FOR_ACCEPTED ONLY_AT_17 ONLY_AT_20
    };
    for (name, order) in functions {
        let number = faulty_number::<NONE>;
        assert_found(name, "rcds_trail_order", Calls { number, order });
    }
}
