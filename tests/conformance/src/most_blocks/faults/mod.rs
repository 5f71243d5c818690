//! The comparison tested: two functions that are right, and many that are wrong in one place each. Every wrong one must
//! be found, and the right ones must pass all cases. The right one counts places for cuts, one after the other, where the
//! reference divides.

mod blocks;
mod cutting;

use super::cases::count;
use super::compare::{Calls, MostBlocks};
use super::report::run;
use crate::lent::{part, part_mut};
use crate::tree::Tree;
use blocks::answer;
use reference::settings::Settings;

/// Numbers the faults from 1 on, and lists the calls with each of them, beside the right one of the other call.
macro_rules! faults {
    (
        blocks { $($blocks:ident)* }
        cutting { $($cutting:ident)* }
    ) => {
        #[allow(non_camel_case_types, clippy::upper_case_acronyms)]
        #[repr(u8)]
        enum Number { NONE, $($blocks,)* $($cutting),* }
        const NONE: u8 = Number::NONE as u8;
        $(const $blocks: u8 = Number::$blocks as u8;)*
        $(const $cutting: u8 = Number::$cutting as u8;)*
        const FAULTS: &[(&str, Calls)] = &[
            $((stringify!($blocks), calls(faulty::<$blocks>, faulty_tree::<NONE>)),)*
            $((stringify!($cutting), calls(faulty::<NONE>, faulty_tree::<$cutting>)),)*
        ];
    };
}

faults! {
    blocks {
        // The bound.
        ANY_NUMBER_OF_BLOCKS AT_MOST_31 AT_MOST_33 AT_LEAST_0 AT_LEAST_2 ALWAYS_32 ROUNDED_UP ROUNDED_TO_THE_NEAREST
        WINDOW_IGNORED WINDOW_TWICE WINDOWS_COUNTED ONE_WINDOW_FEWER DISTANCE_AND_1 DISTANCE_LESS_BY_1 DISTANCE_TWICE
        DISTANCE_IN_15_BITS LENGTH_IN_16_BITS DIFFERENCE_WRAPS DIFFERENCE_WITHOUT_SIGN ONE_BLOCK_MORE CUTS_COUNTED
        // What a string has by rule 3 in place of the bound.
        ZERO_FILE_COUNTED ZERO_FILE_COUNTED_FROM_32 ROOM_BY_REQUEST_7 CUTS_BY_REQUEST_7 DISTANCES_OF_THE_STRING
        ENDS_LEFT_OUT WHOLE_BLOCKS_AND_A_REST STEPS_OF_H_AND_W
        // What is refused.
        N_IN_16_BITS N_IN_32_BITS N_SIGNED WINDOW_0_TAKEN WINDOW_1_TAKEN WINDOW_13_TAKEN WINDOW_2_REFUSED WINDOW_12_REFUSED
        WINDOW_IN_8_BITS WINDOW_IN_32_BITS WINDOW_SIGNED DISTANCE_0_TAKEN DISTANCE_32769_TAKEN DISTANCE_65536_TAKEN
        ANY_DISTANCE_TAKEN DISTANCE_1_REFUSED DISTANCE_32768_REFUSED DISTANCE_IN_16_BITS DISTANCE_IN_32_BITS
        DISTANCE_SIGNED N_65537_TAKEN ANY_N_TAKEN N_65536_REFUSED N_0_REFUSED N_BELOW_W_REFUSED H_ABOVE_N_REFUSED
        H_BELOW_W_REFUSED ONE_BLOCK_REFUSED MORE_THAN_32_REFUSED
        // By which number.
        BUFFER_STILL_WANTED LONG_BUFFER_STILL_WANTED BUFFER_OF_2_32_WANTED BY_23 BY_25 WINDOW_BY_23 DISTANCE_BY_23 WINDOW_BY_1
        DISTANCE_BY_4 LENGTH_BY_6
        // Answers.
        COUNT_ALONE COUNT_FROM_2_32 LENGTH_ANSWERED ANSWER_WITH_BIT_33 ANSWER_0 REFUSED_FROM_2_32 REFUSED_WITH_0
    }
    cutting {
        // Where cuts come.
        CUTS_32 FIRST_PLACE_ONE_LESS LAST_PLACE_ONE_MORE WINDOW_ENDS_EARLY RULE_1 RULE_1_WITHOUT_SPACING NOTHING_BEFORE
        EQUAL_H_BEFORE_TAKEN EQUAL_BESIDE_TAKEN ALL_EQUAL_TAKEN NEARER_NEIGHBOURS DISTANCE_OF_THE_NEXT_LEVEL DISTANCE_LESS_1
        // The same, but not of all strings.
        ZEROS_RULE_1 EQUAL_BYTES_RULE_1 LONG_STRINGS_RULE_1 OTHERS_CUTS_32 OTHERS_WINDOW_ENDS_EARLY
        OTHERS_FIRST_PLACE_ONE_LESS OTHERS_LAST_PLACE_ONE_MORE
        // The same, but not of the whole string.
        BELOW_RULE_1 BELOW_NOTHING_BEFORE BELOW_WINDOW_ENDS_EARLY BELOW_CUTS_32 BELOW_FIRST_PLACE_ONE_LESS
        BELOW_LAST_PLACE_ONE_MORE
        // The tree.
        LEAVES_NOT_COUNTED ONE_LEVEL_REFUSED NO_LONE_CHILD LAST_BLOCK_TWICE
    }
}

const fn calls(most_blocks: MostBlocks, tree: Tree) -> Calls {
    Calls { most_blocks, tree }
}

/// `rcds_most_blocks` with one fault, as C would call it.
unsafe extern "C" fn faulty<const FAULT: u8>(n: u64, w: u64, h: u64) -> u64 {
    answer(FAULT, [n, w, h])
}

/// `rcds_tree` with one fault, for settings, strings and tables that it accepts.
unsafe extern "C" fn faulty_tree<const FAULT: u8>(
    window: u64,
    fan_out: u64,
    levels: u64,
    nominal: u64,
    string: *const u8,
    string_len: usize,
    nodes: *mut u8,
    nodes_len: usize,
) -> u64 {
    let settings = Settings {
        window,
        fan_out,
        levels,
        nominal,
    };
    let (string, table) = (part(string, string_len), part_mut(nodes, nodes_len));
    cutting::answer(FAULT, settings, string, table)
}

const SEED: u64 = 1;

#[test]
fn the_right_functions_pass() {
    let right = calls(faulty::<NONE>, faulty_tree::<NONE>);
    match run(SEED, count(), right) {
        Ok(report) => report.assert_complete(),
        Err(failure) => panic!("{failure}"),
    }
}

#[test]
fn every_fault_is_found() {
    let mut passed = Vec::new();
    for (name, calls) in FAULTS {
        match run(SEED, count(), *calls) {
            Ok(_) => passed.push(name),
            Err(failure) => println!("{name}: {failure}"),
        }
    }
    assert!(passed.is_empty(), "passed: {passed:?}");
}
