//! The comparison tested: one function that is right, some that are right too, with windows that slide or with other
//! distances between cuts than h, which rejects no candidate, and many that are wrong in one place each. Every wrong one
//! must be found, each wrong entry of the table among them, and the right ones must pass an eighth of the cases.

use super::cases::{count, of_entries, Case};
use super::compare::{compare, Tree};
use super::report::run;
use super::sliding::*;
use super::spread::*;
use crate::lent::{part, part_mut};
use reference::fnv::{block_id, fnv1a};

const NONE: u8 = 0;
/// "not greater than any value at distance 1 to h on either side", of values by rule 3.
const RULE_1: u8 = 1;
const SMALLER_ON_BOTH_SIDES: u8 = 2;
const NEARER_NEIGHBOURS: u8 = 3;
const WINDOW_ENDS_EARLY: u8 = 4;
const ONE_CUT_MORE: u8 = 5;
const CUTS_2_FARTHER: u8 = 6;
const CHILDREN_FIRST: u8 = 7;
const LEVEL_FROM_1: u8 = 8;
const ID_0_LEFT: u8 = 9;
const NOT_CLEARED: u8 = 10;
const NOT_ZEROED_AT_8: u8 = 11;
const LEVELS_AFTER_NOMINAL: u8 = 12;
const DISTANCE_ROUNDED_UP: u8 = 13;
const NEXT_LEVELS_MODULUS: u8 = 14;
const LAST_BYTE_HIGHEST: u8 = 15;
const BASE_256: u8 = 16;
const NOT_MODULO_65521: u8 = 17;
const WINDOWS_PAST_THE_CHILD: u8 = 18;
const START_IN_THE_PARENT: u8 = 19;
const ONE_NODE_MORE: u8 = 20;
const ONE_NODE_FEWER: u8 = 21;
const TABLE_ONE_SHORTER: u8 = 22;
const STRING_ONE_LONGER: u8 = 23;
const STRING_ONE_SHORTER: u8 = 24;
const PAST_THE_TABLE: u8 = 25;
const BEFORE_THE_TABLE: u8 = 26;
const STRING_CHANGED: u8 = 27;
const WHOLE_ENTRIES_CLEARED: u8 = 28;
const ZEROED_AT_7: u8 = 29;
const LOW_BYTE_FIRST: u8 = 30;
const LOW_32_BITS: u8 = 31;
const NO_LONE_CHILD: u8 = 32;
const WINDOW_12_REFUSED: u8 = 33;
const LEAST_NOMINAL_REFUSED: u8 = 34;
const MOST_NOMINAL_REFUSED: u8 = 35;
const STRING_BEFORE_SETTINGS: u8 = 36;
const TABLE_BEFORE_STRING: u8 = 37;
const FULL_STRETCHES_ONLY: u8 = 38;
const ONE_IS_LEAST: u8 = 39;
const NOTHING_BEFORE_THE_START: u8 = 40;
const PARENT_FROM_1: u8 = 41;
const PARENT_LISTED_BEFORE: u8 = 42;
const PARENT_IN_ITS_LEVEL: u8 = 43;
const PLACE_FROM_1: u8 = 44;
const PLACE_FROM_THE_RIGHT: u8 = 45;
const PLACE_WITHOUT_ITS_HIGHEST_BIT: u8 = 46;
const PARENT_AND_PLACE_LEFT_OUT: u8 = 47;
const SIDES_EXCHANGED: u8 = 48;
const NOTHING_BEFORE: u8 = 49;
const NOTHING_AFTER: u8 = 50;
const EQUAL_H_BEFORE_TAKEN: u8 = 51;
const EQUAL_BESIDE_TAKEN: u8 = 52;
const EQUAL_BESIDE_ALONE_BARS: u8 = 53;
const EQUAL_H_AFTER_BARS: u8 = 54;
const NEARER_BEFORE: u8 = 55;
const FARTHER_BEFORE: u8 = 56;
const RULE_1_WITHOUT_SPACING: u8 = 57;
const RULE_1_AT_THE_TOP: u8 = 58;
const RULE_1_BELOW: u8 = 59;
const RULE_1_OF_ZEROS: u8 = 60;
const ONE_CUT_FEWER: u8 = 61;
const FIRST_CUT_ALONE_BY_REQUEST_7: u8 = 62;

// Right: cuts at least so far apart, which no candidate is too near for. Windows slide here too.
const NO_SPACING: u8 = 100;
const CUTS_NEARER: u8 = 101;
const CUTS_FARTHER: u8 = 102;
const EQUAL_WINDOWS_PASSED_OVER: u8 = 103;

// Runs of equal bytes passed over too far, from too early on, or by too few bytes.
const RUN_PASSED_ONE_TOO_FAR: u8 = 104;
const RUN_PASSED_FROM_ITS_FIRST: u8 = 105;
const EQUAL_BYTES_PASSED_OVER: u8 = 106;

/// The parent that a node is listed under: its place in the table and its start; and of the node its
/// place there.
#[derive(Clone, Copy)]
struct Under {
    parent: usize,
    start: usize,
    place: usize,
}

/// What the recursion carries.
struct Cutting<'a> {
    fault: u8,
    w: usize,
    p: u64,
    levels: u64,
    nominal: u64,
    string: &'a [u8],
    nodes: Vec<[u64; 2]>,
}

impl Cutting<'_> {
    fn has(&self, fault: u8) -> bool {
        self.fault == fault
    }

    /// The value of the window at i, of bytes as far as they go.
    fn value(&self, bytes: &[u8], i: usize, s: u64) -> u64 {
        let window = &bytes[i..(i + self.w).min(bytes.len())];
        let base = if self.has(BASE_256) { 256 } else { 257 };
        let digit = |number: u128, &byte: &u8| number * base + u128::from(entry(byte));
        let number = if self.has(LAST_BYTE_HIGHEST) {
            window.iter().rev().fold(0, digit)
        } else {
            window.iter().fold(0, digit)
        };
        if self.has(NOT_MODULO_65521) {
            return (number % u128::from(s)) as u64;
        }
        (number % 65_521) as u64 % s
    }

    /// The values of a block's windows at every place, of bytes as far as they go; of windows that slide, those
    /// that end within the block.
    fn values(&self, start: usize, length: usize, level: u64, s: u64) -> Vec<u64> {
        if self.fault >= SLIDING {
            let windows = Windows {
                fault: fault_of(self.fault, level, self.w),
                string: self.string,
                w: self.w,
                s,
            };
            return windows.values(start, length);
        }
        let bytes = if self.has(WINDOWS_PAST_THE_CHILD) {
            &self.string[start..]
        } else {
            &self.string[start..start + length]
        };
        (0..length).map(|i| self.value(bytes, i, s)).collect()
    }

    /// How many values before a place are looked at, and how many after it.
    fn near(&self, h: usize) -> [usize; 2] {
        match self.fault {
            NEARER_NEIGHBOURS => [h - 1; 2],
            NEARER_BEFORE => [h - 1, h],
            FARTHER_BEFORE => [h + 1, h],
            NOTHING_BEFORE => [0, h],
            NOTHING_AFTER => [h, 0],
            _ => [h; 2],
        }
    }

    /// Whether an equal value at this distance before a place bars a candidate, of a block at this level.
    fn equal_before_bars(&self, distance: usize, h: usize, level: u64, first: bool) -> bool {
        match self.fault {
            RULE_1 | RULE_1_WITHOUT_SPACING | SIDES_EXCHANGED => false,
            RULE_1_AT_THE_TOP => level > 1,
            RULE_1_BELOW => level == 1,
            RULE_1_OF_ZEROS => self.string.iter().any(|&byte| byte != 0),
            FIRST_CUT_ALONE_BY_REQUEST_7 => first,
            EQUAL_H_BEFORE_TAKEN => distance != h,
            EQUAL_BESIDE_TAKEN => distance != 1,
            EQUAL_BESIDE_ALONE_BARS => distance == 1,
            _ => true,
        }
    }

    /// The same of one after it.
    fn equal_after_bars(&self, distance: usize, h: usize) -> bool {
        match self.fault {
            SMALLER_ON_BOTH_SIDES | SIDES_EXCHANGED => true,
            EQUAL_H_AFTER_BARS => distance == h,
            _ => false,
        }
    }

    /// Whether the value at i is smaller than those before it and not greater than those after it, as far as there are
    /// values. Since the last cut, if there is one, the next may come from `start` on.
    fn is_candidate(
        &self,
        values: &[u64],
        i: usize,
        h: usize,
        level: u64,
        start: Option<usize>,
    ) -> bool {
        let own = values[i];
        if self.has(ONE_IS_LEAST) && own == 1 {
            return true;
        }
        let [before, after] = self.near(h);
        let least = match self.has(NOTHING_BEFORE_THE_START) {
            true => start.unwrap_or(h).max(i.saturating_sub(before)),
            false => i.saturating_sub(before),
        };
        let last = (i + after).min(values.len() - 1);
        let first = start.is_none();
        let bars_before = |k: usize| {
            let equal = values[k] == own && self.equal_before_bars(i - k, h, level, first);
            values[k] < own || equal
        };
        let bars_after = |k: usize| {
            let equal = values[k] == own && self.equal_after_bars(k - i, h);
            values[k] < own || equal
        };
        !(least..i).any(bars_before) && !(i + 1..=last).any(bars_after)
    }

    /// Whether a place of the string is passed over for the equal bytes around it. A window with the same bytes as the one
    /// just before has its value, so that no candidate is there; fewer equal bytes say nothing.
    fn passed_over(&self, i: usize) -> bool {
        let around = match self.fault {
            EQUAL_WINDOWS_PASSED_OVER => i - 1..i + self.w,
            RUN_PASSED_ONE_TOO_FAR => i - 1..i + self.w - 1,
            RUN_PASSED_FROM_ITS_FIRST => i..i + self.w,
            EQUAL_BYTES_PASSED_OVER => i - 1..i + 1,
            _ => return false,
        };
        let first = self.string[around.start];
        self.string[around].iter().all(|&byte| byte == first)
    }

    /// How far the next cut is from the last one at least.
    fn spacing(&self, h: usize) -> usize {
        match self.fault {
            RULE_1_WITHOUT_SPACING | NO_SPACING => 1,
            CUTS_NEARER => h - 1,
            CUTS_FARTHER => h + 1,
            CUTS_2_FARTHER => h + 2,
            _ => h,
        }
    }

    fn cuts(&self, start: usize, length: usize, level: u64) -> Vec<usize> {
        let mut h = (self.nominal / self.p.pow(level as u32)) as usize;
        if self.has(DISTANCE_ROUNDED_UP) {
            h = self.nominal.div_ceil(self.p.pow(level as u32)) as usize;
        }
        let mut s = self.w as u64 * self.p.pow((self.levels - level + 1) as u32);
        if self.has(NEXT_LEVELS_MODULUS) {
            s /= self.p;
        }
        let values = self.values(start, length, level, s);
        let open = self.has(WINDOW_ENDS_EARLY) || self.has(WINDOWS_PAST_THE_CHILD);
        let barred = if open { 0 } else { self.w - 1 };
        let values = &values[..length.saturating_sub(barred)];
        let mut end = values.len().saturating_sub(h);
        if self.has(FULL_STRETCHES_ONLY) {
            end = end / h * h;
        }
        let most = match self.fault {
            ONE_CUT_MORE => 32,
            ONE_CUT_FEWER => 30,
            _ => 31,
        };
        let mut cuts: Vec<usize> = Vec::new();
        for i in h..end {
            if cuts.len() == most {
                break;
            }
            let free = cuts.last().map(|last| last + self.spacing(h));
            if free.map_or(true, |free| i >= free)
                && self.is_candidate(values, i, h, level, free)
                && !self.passed_over(start + i)
            {
                cuts.push(i);
            }
        }
        cuts
    }

    /// The bits of parent and place, from 2^37 on. A place has 5 of them, whatever is counted.
    fn family(&self, under: Under) -> u64 {
        let Under { parent, place, .. } = under;
        let parent = match self.fault {
            PARENT_FROM_1 => parent + 1,
            // Of a first child it is the parent.
            PARENT_LISTED_BEFORE => self.nodes.len().saturating_sub(1),
            PARENT_IN_ITS_LEVEL => {
                let level = self.nodes.get(parent).map_or(0, |node| node[1] & 7);
                let before = self.nodes.iter().take(parent);
                before.filter(|node| node[1] & 7 == level).count()
            }
            PARENT_AND_PLACE_LEFT_OUT => 0,
            _ => parent,
        };
        let place = match self.fault {
            PLACE_FROM_1 => place + 1,
            PLACE_WITHOUT_ITS_HIGHEST_BIT => place % 16,
            PARENT_AND_PLACE_LEFT_OUT => 0,
            _ => place,
        };
        (parent as u64 % 4_096) + 4_096 * (place as u64 % 32)
    }

    /// The rows of a node.
    fn node(&self, start: usize, length: usize, level: u64, under: Under) -> [u64; 2] {
        let bytes = &self.string[start..start + length];
        let id = match self.fault {
            ID_0_LEFT => fnv1a(bytes),
            IDS_OF_ENTRIES => {
                let low = |&byte: &u8| entry(byte) as u8;
                block_id(&bytes.iter().map(low).collect::<Vec<u8>>())
            }
            _ => block_id(bytes),
        };
        let shown = level + u64::from(self.has(LEVEL_FROM_1));
        let place = if self.has(START_IN_THE_PARENT) {
            start - under.start
        } else {
            start
        };
        let row = place as u64 + 131_072 * self.family(under);
        [id, shown + 8 * (length as u64 + 131_072 * row)]
    }

    fn list(&mut self, start: usize, length: usize, level: u64, under: Under) {
        let node = self.node(start, length, level, under);
        let parent = self.nodes.len();
        if !self.has(CHILDREN_FIRST) {
            self.nodes.push(node);
        }
        if level < self.levels {
            let cuts = self.cuts(start, length, level + 1);
            let ends = cuts.iter().copied().chain([length]);
            let starts = [0].into_iter().chain(cuts.iter().copied());
            if !(self.has(NO_LONE_CHILD) && cuts.is_empty()) {
                for (k, (from, to)) in starts.zip(ends).enumerate() {
                    let place = match self.fault {
                        PLACE_FROM_THE_RIGHT => cuts.len() - k,
                        _ => k,
                    };
                    let under = Under {
                        parent,
                        start,
                        place,
                    };
                    self.list(start + from, to - from, level + 1, under);
                }
            }
        }
        if self.has(CHILDREN_FIRST) {
            self.nodes.push(node);
        }
    }
}

/// The first question of the settings that has a no.
fn refused(fault: u8, w: u64, p: u64, levels: u64, nominal: u64) -> Option<u64> {
    let most_w = if fault == WINDOW_12_REFUSED { 11 } else { 12 };
    if !(2..=most_w).contains(&w) {
        return Some(1);
    }
    if !(2..=8).contains(&p) {
        return Some(2);
    }
    let levels_wrong = !(1..=4).contains(&levels);
    if levels_wrong && fault != LEVELS_AFTER_NOMINAL {
        return Some(3);
    }
    let least = p.saturating_pow(levels.min(64) as u32);
    let most = 65_536 - u64::from(fault == MOST_NOMINAL_REFUSED);
    if nominal < least + u64::from(fault == LEAST_NOMINAL_REFUSED) || nominal > most {
        return Some(4);
    }
    levels_wrong.then_some(3)
}

/// `rcds_tree` with one fault.
fn answer(fault: u8, settings: [u64; 4], string: &[u8], table: &mut [u8]) -> u64 {
    let settings = match fault {
        LOW_32_BITS => settings.map(|number| number & 0xffff_ffff),
        _ => settings,
    };
    let [w, p, levels, nominal] = settings;
    if fault == STRING_BEFORE_SETTINGS && string.len() > 65_536 {
        return 6;
    }
    if let Some(question) = refused(fault, w, p, levels, nominal) {
        return question;
    }
    let longest = match fault {
        STRING_ONE_LONGER => 65_537,
        STRING_ONE_SHORTER => 65_535,
        _ => 65_536,
    };
    let table_wrong = table.len() < 65_536 - usize::from(fault == TABLE_ONE_SHORTER);
    if string.len() > longest && !(fault == TABLE_BEFORE_STRING && table_wrong) {
        return 6;
    }
    if table_wrong {
        if fault == ZEROED_AT_7 {
            table.fill(0);
        }
        return 7;
    }
    let mut cutting = Cutting {
        fault,
        w: w as usize,
        p,
        levels,
        nominal,
        string,
        nodes: Vec::new(),
    };
    let itself = Under {
        parent: 0,
        start: 0,
        place: 0,
    };
    cutting.list(0, string.len(), 0, itself);
    let most = match fault {
        ONE_NODE_MORE => 4_097,
        ONE_NODE_FEWER => 4_095,
        _ => 4_096,
    };
    if cutting.nodes.len() > most {
        if fault != NOT_ZEROED_AT_8 {
            table.fill(0);
        }
        return 8;
    }
    write(fault, &cutting.nodes, table);
    (1 << 32) + cutting.nodes.len() as u64
}

fn write(fault: u8, nodes: &[[u64; 2]], table: &mut [u8]) {
    let cleared = match fault {
        NOT_CLEARED => 0,
        WHOLE_ENTRIES_CLEARED => table.len() / 16 * 16,
        _ => table.len(),
    };
    table[..cleared].fill(0);
    for (entry, node) in table.chunks_exact_mut(16).zip(nodes) {
        for (bytes, row) in entry.chunks_exact_mut(8).zip(node) {
            bytes.copy_from_slice(&match fault {
                LOW_BYTE_FIRST => row.to_le_bytes(),
                _ => row.to_be_bytes(),
            });
        }
    }
}

/// The function with one fault, as C would call it.
unsafe extern "C" fn faulty<const FAULT: u8>(
    w: u64,
    p: u64,
    levels: u64,
    nominal: u64,
    string: *const u8,
    string_len: usize,
    nodes: *mut u8,
    nodes_len: usize,
) -> u64 {
    let lent = part(string, string_len);
    let table = part_mut(nodes, nodes_len);
    let answer = answer(FAULT, [w, p, levels, nominal], lent, table);
    // The guard bytes and the string come from vectors, so these writes stay in their memory.
    match FAULT {
        PAST_THE_TABLE if nodes_len > 0 => *nodes.add(nodes_len) ^= 1,
        BEFORE_THE_TABLE if nodes_len > 0 => *nodes.sub(1) ^= 1,
        STRING_CHANGED if string_len > 0 => *string.cast_mut() ^= 1,
        _ => {}
    }
    answer
}

macro_rules! functions {
    ($($fault:ident)*) => { [$((stringify!($fault), faulty::<$fault> as Tree)),*] };
}

const SEED: u64 = 1;

#[test]
fn the_right_function_passes() {
    match run(SEED, count() / 8, faulty::<NONE>) {
        Ok(report) => report.assert_complete(),
        Err(failure) => panic!("{failure}"),
    }
}

/// "The spacing test no longer rejects any candidate" (document 02, request 7), and equal windows have none.
#[test]
fn the_right_function_passes_with_any_spacing() {
    let functions =
        functions! { NO_SPACING CUTS_NEARER CUTS_FARTHER EQUAL_WINDOWS_PASSED_OVER };
    for (name, function) in functions {
        match run(SEED, count() / 8, function) {
            Ok(report) => report.assert_complete(),
            Err(failure) => panic!("{name}: {failure}"),
        }
    }
}

#[test]
fn the_right_function_passes_with_windows_that_slide() {
    match run(SEED, count() / 8, faulty::<SLIDING>) {
        Ok(report) => report.assert_complete(),
        Err(failure) => panic!("{failure}"),
    }
}

/// Each entry alone: wrong by one everywhere, where its byte leaves or where it does not, or exchanged with the next.
/// The cases of that entry find it.
#[test]
fn every_wrong_entry_is_found() {
    let functions = functions! {
        ENTRY_WRONG ENTRY_WRONG_WHERE_IT_LEAVES ENTRY_WRONG_WHERE_IT_ENTERS ENTRY_AND_THE_NEXT_EXCHANGED
    };
    let cases = of_entries(SEED);
    let passes = |(_, case): &(u8, Case)| compare(case, faulty::<SLIDING>).is_ok();
    assert!(cases.iter().all(passes), "the right function passes");
    for byte in 0..=u8::MAX {
        WRONG.set(byte);
        for (name, function) in functions {
            let differs =
                |(often, case): &(u8, Case)| *often == byte && compare(case, function).is_err();
            assert!(cases.iter().any(differs), "{name}, entry {byte}, passed");
        }
    }
}

#[test]
fn every_fault_is_found() {
    let functions = functions! {
        RULE_1 SMALLER_ON_BOTH_SIDES SIDES_EXCHANGED NOTHING_BEFORE NOTHING_AFTER EQUAL_H_BEFORE_TAKEN
        EQUAL_BESIDE_TAKEN EQUAL_BESIDE_ALONE_BARS EQUAL_H_AFTER_BARS NEARER_BEFORE FARTHER_BEFORE
        RULE_1_WITHOUT_SPACING RULE_1_AT_THE_TOP RULE_1_BELOW RULE_1_OF_ZEROS FIRST_CUT_ALONE_BY_REQUEST_7
        ONE_CUT_FEWER CUTS_2_FARTHER NEARER_NEIGHBOURS WINDOW_ENDS_EARLY ONE_CUT_MORE CHILDREN_FIRST LEVEL_FROM_1
        ID_0_LEFT NOT_CLEARED NOT_ZEROED_AT_8
        LEVELS_AFTER_NOMINAL DISTANCE_ROUNDED_UP NEXT_LEVELS_MODULUS LAST_BYTE_HIGHEST BASE_256
        NOT_MODULO_65521 WINDOWS_PAST_THE_CHILD START_IN_THE_PARENT ONE_NODE_MORE ONE_NODE_FEWER
        TABLE_ONE_SHORTER STRING_ONE_LONGER STRING_ONE_SHORTER PAST_THE_TABLE BEFORE_THE_TABLE
        STRING_CHANGED WHOLE_ENTRIES_CLEARED ZEROED_AT_7 LOW_BYTE_FIRST LOW_32_BITS NO_LONE_CHILD
        WINDOW_12_REFUSED LEAST_NOMINAL_REFUSED MOST_NOMINAL_REFUSED STRING_BEFORE_SETTINGS
        TABLE_BEFORE_STRING FULL_STRETCHES_ONLY ONE_IS_LEAST NOTHING_BEFORE_THE_START PARENT_FROM_1
        PARENT_LISTED_BEFORE PARENT_IN_ITS_LEVEL PLACE_FROM_1 PLACE_FROM_THE_RIGHT
        PLACE_WITHOUT_ITS_HIGHEST_BIT PARENT_AND_PLACE_LEFT_OUT LEAVES_ONE_POWER_LOWER NOTHING_LEAVES
        MODULO_S_RUNS_ON ENTERS_TOO_EARLY GOES_ON_FROM_THE_BLOCK_BEFORE TOO_MUCH_LEAVES_2
        TOO_MUCH_LEAVES_3 TOO_MUCH_LEAVES_4 TOO_MUCH_LEAVES_5 TOO_MUCH_LEAVES_6 TOO_MUCH_LEAVES_7
        TOO_MUCH_LEAVES_8 TOO_MUCH_LEAVES_9 TOO_MUCH_LEAVES_10 TOO_MUCH_LEAVES_11 TOO_MUCH_LEAVES_12
        RULE_2 RULE_2_AT_THE_TOP RULE_2_BELOW RULE_2_OF_WINDOWS_OF_12 FIRST_WINDOW_NOT_SPREAD
        LEAVES_NOT_SPREAD ENTERS_NOT_SPREAD LEAVES_SPREAD_TWICE SPREAD_TWICE FNV_1 FNV_OF_32_BITS
        NO_BASIS TABLE_OF_IDS MODULO_65519 MODULO_65536 MODULO_65537 DIGITS_OF_BASE_257 LOW_BYTES
        ENTRIES_SIGNED TABLE_FROM_1 TABLE_FROM_THE_LAST SEVEN_BITS_OF_A_BYTE ZERO_NOT_SPREAD
        ENTRIES_0_AND_255_EXCHANGED ENTRIES_127_AND_128_EXCHANGED IDS_OF_ENTRIES
        RUN_PASSED_ONE_TOO_FAR RUN_PASSED_FROM_ITS_FIRST EQUAL_BYTES_PASSED_OVER
    };
    for (name, function) in functions {
        match run(SEED, count(), function) {
            Ok(_) => panic!("{name} passed"),
            Err(failure) => println!("{name}: {failure}"),
        }
    }
}
