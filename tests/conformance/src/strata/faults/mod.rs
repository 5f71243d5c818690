//! The comparison tested: two functions that are right, written a second time, and many that are wrong in one
//! place each. Every wrong one must be found, and the right ones must pass a quarter of the cases. F and the cells
//! of a shingle are the reference's: their faults are tested with `rcds_sender_setup`.
//!
//! Some changes of an estimate are none. A shingle's three cells are here one of four triples, and F(3) modulo 4 says
//! which. What is taken is taken from all three cells of a triple, so a stratum opens only if those of each triple are
//! equal, and empty or single: it does not matter in which order cells are taken, whether 4, 11 or 12 may be, or whether
//! a shingle may be taken twice. Nor does the place of a cell: shingles of one triple never add up to one of another,
//! F(3) included. Functions with these changes must pass.

mod building;
mod estimating;

use super::cases::count;
use super::compare::{Calls, StrataBuild, StrataEstimate};
use super::report::run;
use crate::lent::{part, part_mut};
use building::build;
use estimating::estimate;
use reference::settings::Settings;
use reference::shingle::{shingles, Shingle};
use reference::sketch::{f, part as part_of, places};
use reference::tree::tree;

/// Numbers the faults from 1 on, and lists the calls with each of those that they can have.
macro_rules! faults {
    (
        both { $($both:ident)* }
        building { $($building:ident)* }
        estimating { $($estimating:ident)* }
        none { $($none:ident)* }
    ) => {
        #[allow(non_camel_case_types, clippy::upper_case_acronyms)]
        #[repr(u8)]
        enum Number { NONE, $($both,)* $($building,)* $($estimating,)* $($none),* }
        const NONE: u8 = Number::NONE as u8;
        $(const $both: u8 = Number::$both as u8;)*
        $(const $building: u8 = Number::$building as u8;)*
        $(const $estimating: u8 = Number::$estimating as u8;)*
        $(const $none: u8 = Number::$none as u8;)*
        const BUILDING: &[(&str, StrataBuild)] = &[
            $((stringify!($both), faulty_build::<$both>),)*
            $((stringify!($building), faulty_build::<$building>)),*
        ];
        const ESTIMATING: &[(&str, StrataEstimate)] = &[
            $((stringify!($both), faulty_estimate::<$both>),)*
            $((stringify!($estimating), faulty_estimate::<$estimating>)),*
        ];
        const THE_SAME: &[(&str, StrataEstimate)] =
            &[$((stringify!($none), faulty_estimate::<$none>)),*];
    };
}

faults! {
    both {
        // The stratum of a shingle, and where its cells stand.
        CAP_16 CAP_14 CHECK_0_IN_STRATUM_0 ZEROS_MODULO_16 ZEROS_OF_THE_LOW_BYTE LEADING_ZEROS TRAILING_ONES STRATUM_BY_F_2
        STRATUM_BY_F_0 FALLING_ORDER CELL_BY_CELL
        // The list.
        LIST_ENDS_AT_TAIL_0 LIST_GOES_ON LIST_OF_4096 LIST_OF_THE_STRING
        // 1 to 7.
        STATE_LOW_BYTE_FIRST STATE_READ_IN_PARTS SHORT_STATE_BY_7 LONG_STATE_REFUSED RECEIVERS_STATE_IN_FULL SESSION_ASKED
        NOMINAL_NOT_ASKED WIDTH_NOT_ASKED STRING_NOT_ASKED STRING_65536_REFUSED NODES_NOT_ASKED SHINGLES_NOT_ASKED
        CELLS_NOT_ASKED CELLS_FOR_WIDTH_64 STRATA_NOT_ASKED STRATA_ONE_SHORTER STRATA_ONE_LONGER STRATA_OF_THE_WIDTH
        STRATA_FIRST TABLES_BEFORE_WIDTH TABLES_BEFORE_STRING WIDTH_BEFORE_NOMINAL
        // Bytes that no call may change.
        STATE_CHANGED STRING_CHANGED NODES_CHANGED SHINGLES_CHANGED CELLS_CHANGED
    }
    building {
        WIDTH_3 REST_CLEARED ADDED_TO_WHAT_IS_THERE EMPTY_CELLS_NOT_WRITTEN LEVELS_ABOVE_L_LEFT_OUT
        COUNTS_ABOVE_4096_LEFT_OUT REPEATED_ONES_ONCE BUILDING_ANSWERS_2_32 BUILDING_ANSWERS_A_COUNT WRITTEN_WHEN_REFUSED
        CLEARED_WHEN_REFUSED PAST_THE_STRATA BEFORE_THE_STRATA
    }
    estimating {
        // The sum, and what it is taken times.
        TIMES_2_I TIMES_2_I_PLUS_2 NO_FACTOR ALL_OPEN_DOUBLED POSITIVE_COUNTED_ONLY NEGATIVE_COUNTED_ONLY NEW_LISTS_COUNTED
        CLOSED_SKIPPED CLOSED_COUNTED FROM_0_UP FROM_14_DOWN ESTIMATE_WITHOUT_2_32
        // The difference, and the own list.
        OWN_LESS_THEIRS OWN_STRATA_OF_THE_LIST NEGATIVE_OF_ANY_STRATUM POSITIVE_OF_ANY_STRATUM NEGATIVE_NOT_ASKED
        POSITIVE_NOT_ASKED NEGATIVE_BY_PAIR POSITIVE_BY_PAIR OWN_LIST_TAKEN_AS_SORTED
        // Conditions that are not asked here.
        SIZE_OF_THE_STRATUM_ASKED SIZE_OF_THE_LIST_ASKED PAIRS_OF_THE_STRATUM_ASKED PAIRS_OF_THE_LIST_ASKED
        STRATUM_OF_THE_TAKEN_ASKED
        // Single cells, and what is left of them.
        TAKINGS_3 LEFT_NOT_ASKED NUMBERS_LEFT_ONLY CHECKS_LEFT_NOT_ASKED LAST_CELL_NOT_ASKED POSITIVE_SINGLES_ONLY
        CHECK_NOT_ASKED CHECK_LOW_32_BITS LEVEL_NOT_ASKED LEVEL_4_ALWAYS LEVEL_LAST_REFUSED COUNT_0 COUNT_4097
        COUNT_4096_REFUSED TAIL_LOW_32_BITS NUMBER_32_BITS
        // The tables of strata.
        OWN_NOT_ASKED THEIRS_CHANGED OWN_CHANGED
    }
    none {
        HIGHEST_CELL_FIRST TAKINGS_4 TAKINGS_11 TWICE_NOT_ASKED PLACE_NOT_ASKED
    }
}

/// The bytes of 192 cells.
const ENOUGH: usize = 7_680;

/// The bytes of a receiver's state, and the row that says how far its session is.
const RECEIVERS_STATE: usize = 2_144;
const PHASE: usize = 6;

/// State, string and the three tables, as they are lent.
type End<'a> = [&'a [u8]; 5];

fn rows(bytes: &[u8]) -> Vec<u64> {
    let row = |bytes: &[u8]| u64::from_be_bytes(bytes.try_into().expect("a row has 8 bytes"));
    bytes.chunks_exact(8).map(row).collect()
}

/// w, p, L, M and q.
fn settings(fault: u8, state: &[u8]) -> [u64; 5] {
    let mut bytes = state.to_vec();
    match fault {
        STATE_READ_IN_PARTS => bytes.resize(bytes.len().max(40), 0),
        STATE_LOW_BYTE_FIRST => bytes.chunks_exact_mut(8).for_each(|row| row.reverse()),
        RECEIVERS_STATE_IN_FULL if state.len() < RECEIVERS_STATE => bytes.clear(),
        _ => {}
    }
    let mut rows = rows(&bytes);
    rows.resize(rows.len().max(5), 0);
    rows[..5].try_into().expect("five rows")
}

/// Whether a table of a setup is too short, or one of strata.
fn short(fault: u8, end: &End, width: u64, strata: &[usize]) -> [bool; 2] {
    let [_, _, nodes, shingles, cells] = end.map(<[u8]>::len);
    let wanted_cells = match fault {
        CELLS_FOR_WIDTH_64 => 7_680,
        _ => 120 * width.clamp(1, 64) as usize,
    };
    let wanted = match fault {
        STRATA_ONE_SHORTER => ENOUGH - 1,
        STRATA_ONE_LONGER => ENOUGH + 1,
        STRATA_OF_THE_WIDTH => 16 * 120 * width.clamp(1, 64) as usize,
        _ => ENOUGH,
    };
    let too_short = |k: usize| match (fault, k) {
        (STRATA_NOT_ASKED, 0) | (OWN_NOT_ASKED, 1) => false,
        _ => strata[k] < wanted,
    };
    [
        nodes < 65_536 && fault != NODES_NOT_ASKED
            || shingles < 98_304 && fault != SHINGLES_NOT_ASKED
            || cells < wanted_cells && fault != CELLS_NOT_ASKED,
        (0..strata.len()).any(too_short),
    ]
}

/// The first question that has a no.
fn refused(fault: u8, end: &End, strata: &[usize]) -> Option<u64> {
    let [w, p, levels, nominal, width] = settings(fault, end[0]);
    let [tables, of_strata] = short(fault, end, width, strata);
    let string = end[1].len() + usize::from(fault == STRING_65536_REFUSED);
    let least = p.checked_pow(levels.min(64) as u32).unwrap_or(u64::MAX);
    let mut asked = vec![
        (1, !(2..=12).contains(&w)),
        (2, !(2..=8).contains(&p)),
        (3, !(1..=4).contains(&levels)),
        (
            4,
            !(least..=65_536).contains(&nominal) && fault != NOMINAL_NOT_ASKED,
        ),
        (5, !(1..=64).contains(&width) && fault != WIDTH_NOT_ASKED),
        (6, string > 65_536 && fault != STRING_NOT_ASKED),
        (7, tables || of_strata),
    ];
    let phase = rows(end[0]).get(PHASE).copied().unwrap_or(0);
    match fault {
        STRATA_FIRST => asked.insert(0, (7, of_strata)),
        TABLES_BEFORE_WIDTH => asked.swap(4, 6),
        TABLES_BEFORE_STRING => asked.swap(5, 6),
        WIDTH_BEFORE_NOMINAL => asked.swap(3, 4),
        SHORT_STATE_BY_7 => asked.insert(0, (7, end[0].len() < 40)),
        LONG_STATE_REFUSED => asked.push((7, end[0].len() > 40)),
        SESSION_ASKED => asked.push((9, end[0].len() >= RECEIVERS_STATE && phase > 1)),
        _ => {}
    }
    let no = asked.iter().find(|(_, no)| *no);
    no.map(|&(question, _)| question)
}

/// The own list.
fn list(fault: u8, end: &End) -> Vec<Shingle> {
    if fault == LIST_OF_THE_STRING {
        let [window, fan_out, levels, nominal, _] = settings(fault, end[0]);
        let settings = Settings {
            window,
            fan_out,
            levels,
            nominal,
        };
        return shingles(&tree(&settings, end[1]));
    }
    let mut list = Vec::new();
    for row in rows(end[3]).chunks_exact(3) {
        let (level, count) = (row[2] >> 16, row[2] & 0xffff);
        let ends = match fault {
            LIST_ENDS_AT_TAIL_0 => row[2] == 0,
            LIST_OF_4096 => count == 0 || list.len() == 4_096,
            _ => count == 0,
        };
        if ends && fault == LIST_GOES_ON {
            continue;
        }
        if ends {
            break;
        }
        list.push(Shingle {
            level,
            previous: row[0],
            own: row[1],
            count,
        });
    }
    list
}

/// The stratum of a shingle. The one past the last is no stratum's.
fn stratum(fault: u8, shingle: &Shingle) -> usize {
    let check = match fault {
        STRATUM_BY_F_2 => f(2, shingle),
        STRATUM_BY_F_0 => f(0, shingle),
        _ => f(3, shingle),
    };
    let zeros = match fault {
        CHECK_0_IN_STRATUM_0 if check == 0 => 0,
        ZEROS_MODULO_16 => check.trailing_zeros() % 16,
        ZEROS_OF_THE_LOW_BYTE => (check as u8).trailing_zeros(),
        LEADING_ZEROS => check.leading_zeros(),
        TRAILING_ONES => check.trailing_ones(),
        _ => check.trailing_zeros(),
    };
    let last = match fault {
        CAP_16 => 16,
        CAP_14 => 14,
        _ => 15,
    };
    zeros.min(last) as usize
}

/// Where cell k of stratum i stands in a table.
fn cell_of(fault: u8, i: usize, k: usize) -> usize {
    match fault {
        FALLING_ORDER if i < 16 => 12 * (15 - i) + k,
        CELL_BY_CELL if i < 16 => 16 * k + i,
        _ => 12 * i + k,
    }
}

/// The cells of a list, one stratum more than there are, and how often each was added to.
fn cells_of(fault: u8, levels: u64, list: &[Shingle]) -> (Vec<[u64; 5]>, Vec<usize>) {
    let width = if fault == WIDTH_3 { 3 } else { 4 };
    let (mut cells, mut added) = (vec![[0; 5]; 17 * 12], vec![0; 17 * 12]);
    for (k, shingle) in list.iter().enumerate() {
        let left_out = match fault {
            LEVELS_ABOVE_L_LEFT_OUT => shingle.level > levels,
            COUNTS_ABOVE_4096_LEFT_OUT => shingle.count > 4_096,
            REPEATED_ONES_ONCE => list[..k].contains(shingle),
            _ => false,
        };
        if left_out {
            continue;
        }
        for place in places(shingle, width) {
            let at = cell_of(fault, stratum(fault, shingle), place);
            for (sum, value) in cells[at].iter_mut().zip(part_of(shingle)) {
                *sum = u64::wrapping_add(*sum, value);
            }
            added[at] += 1;
        }
    }
    (cells, added)
}

/// Changes the last byte of the piece that a fault is named after, if it has one. The pieces come from vectors.
unsafe fn change(fault: u8, pieces: &[(*const u8, usize)]) {
    let named = [
        STATE_CHANGED,
        STRING_CHANGED,
        NODES_CHANGED,
        SHINGLES_CHANGED,
        CELLS_CHANGED,
        THEIRS_CHANGED,
        OWN_CHANGED,
    ];
    for (name, &(piece, length)) in named.iter().zip(pieces) {
        if *name == fault && length > 0 {
            *piece.cast_mut().add(length - 1) ^= 1;
        }
    }
}

/// The functions with one fault, as C would call them.
unsafe extern "C" fn faulty_build<const FAULT: u8>(
    state: *const u8,
    state_len: usize,
    string: *const u8,
    string_len: usize,
    nodes: *const u8,
    nodes_len: usize,
    shingles: *const u8,
    shingles_len: usize,
    cells: *const u8,
    cells_len: usize,
    strata: *mut u8,
    strata_len: usize,
) -> u64 {
    let end = [
        (state, state_len),
        (string, string_len),
        (nodes, nodes_len),
        (shingles, shingles_len),
        (cells, cells_len),
    ];
    let lent = end.map(|(piece, length)| part(piece, length));
    let answer = build(FAULT, &lent, part_mut(strata, strata_len));
    change(FAULT, &end);
    // The guard bytes come from vectors too, so these writes stay in their memory.
    match FAULT {
        PAST_THE_STRATA if strata_len > 0 => *strata.add(strata_len) ^= 1,
        BEFORE_THE_STRATA if strata_len > 0 => *strata.sub(1) ^= 1,
        _ => {}
    }
    answer
}

unsafe extern "C" fn faulty_estimate<const FAULT: u8>(
    state: *const u8,
    state_len: usize,
    string: *const u8,
    string_len: usize,
    nodes: *const u8,
    nodes_len: usize,
    shingles: *const u8,
    shingles_len: usize,
    cells: *const u8,
    cells_len: usize,
    theirs: *const u8,
    theirs_len: usize,
    own: *const u8,
    own_len: usize,
) -> u64 {
    let all = [
        (state, state_len),
        (string, string_len),
        (nodes, nodes_len),
        (shingles, shingles_len),
        (cells, cells_len),
        (theirs, theirs_len),
        (own, own_len),
    ];
    let [state, string, nodes, shingles, cells, of_theirs, of_own] =
        all.map(|(piece, length)| part(piece, length));
    let end = [state, string, nodes, shingles, cells];
    let answer = estimate(FAULT, &end, of_theirs, of_own);
    change(FAULT, &all);
    answer
}

const SEED: u64 = 1;

/// That a wrong call is found, and no other.
fn assert_found(name: &str, call: &str, calls: Calls) {
    match run(SEED, count(), calls) {
        Ok(_) => panic!("{name} passed"),
        Err(failure) => {
            println!("{name}: {failure}");
            assert_eq!(failure.call, call);
        }
    }
}

#[test]
fn the_right_functions_pass() {
    let calls = Calls {
        build: faulty_build::<NONE>,
        estimate: faulty_estimate::<NONE>,
    };
    match run(SEED, count() / 4, calls) {
        Ok(report) => report.assert_complete(),
        Err(failure) => panic!("{failure}"),
    }
}

#[test]
fn changes_that_are_none_pass() {
    for &(name, estimate) in THE_SAME {
        let build = faulty_build::<NONE>;
        if let Err(failure) = run(SEED, count() / 16, Calls { build, estimate }) {
            panic!("{name}: {failure}");
        }
    }
}

#[test]
fn every_fault_of_building_is_found() {
    for &(name, build) in BUILDING {
        let estimate = faulty_estimate::<NONE>;
        assert_found(name, "rcds_strata_build", Calls { build, estimate });
    }
}

#[test]
fn every_fault_of_estimating_is_found() {
    for &(name, estimate) in ESTIMATING {
        let build = faulty_build::<NONE>;
        assert_found(name, "rcds_strata_estimate", Calls { build, estimate });
    }
}
