//! How one string is cut into blocks by rule 3 (document 02, requests 7 and 12): window values, candidates, cuts.
//!
//! Windows count bytes. What is read in them is each byte's entry of the table in `spread`; cuts, blocks and ids are
//! those of the bytes.

use crate::settings::Rule;
use crate::spread::entry;

/// "After 31 cuts no more are made."
pub const MOST_CUTS: usize = 31;

/// "a base-257 number", "modulo 65,521": both signed, since a step of the window takes away.
const BASE: i128 = 257;
const PRIME: i128 = 65_521;

/// A part of a string: where it starts, and how many bytes it has.
#[derive(Clone, Copy, Debug, PartialEq, Eq)]
pub struct Block {
    pub start: usize,
    pub length: usize,
}

/// "read w bytes from i as a base-257 number, first byte highest; take it modulo 65,521", and "Before the base-257
/// reading, each byte b is replaced by entry b of a constant table" (document 02, request 12).
///
/// An entry may be more than any digit of base 257: it counts for what it is. Twelve of them, each below 2^16, stay
/// below 2^128, so the number is read whole.
pub fn window_remainder(string: &[u8], i: usize, window: usize) -> u64 {
    let mut number: u128 = 0;
    for &byte in &string[i..i + window] {
        number = number * 257 + u128::from(entry(byte));
    }
    (number % 65_521) as u64
}

/// "then modulo s"
pub fn window_value(string: &[u8], i: usize, rule: &Rule) -> u64 {
    window_remainder(string, i, rule.window) % rule.modulus
}

/// The values of all windows: "for 0 ≤ i ≤ n−w". None where the string is shorter than a window.
pub fn window_values(string: &[u8], rule: &Rule) -> Vec<u64> {
    let mut values = Vec::new();
    let mut i = 0;
    while i + rule.window <= string.len() {
        values.push(window_value(string, i, rule));
        i += 1;
    }
    values
}

/// The base-257 remainder one place further on: "a step sees only w, the value before, the byte that
/// leaves and the byte that enters" (document 02, request 4), each as its entry: "Request 4's running value now runs
/// over table entries." (request 12)
///
/// With one digit more, each digit counts 257 times as much as before. The entry that leaves has come
/// to count 257^w, and that is taken away. A window of 12 bytes stays far within 128 bits.
pub fn slide(window: usize, before: u64, leaves: u64, enters: u64) -> u64 {
    let leaving = i128::from(leaves) * BASE.pow(window as u32);
    let number = i128::from(before) * BASE + i128::from(enters) - leaving;
    number.rem_euclid(PRIME) as u64
}

/// The base-257 remainders of all windows, "for 0 ≤ i ≤ n−w", kept "as a running value" (document
/// 02, request 4): the first window is read, and each later one comes from the one before it. None
/// where the string is shorter than a window.
pub fn running_remainders(string: &[u8], window: usize) -> Vec<u64> {
    if string.len() < window {
        return Vec::new();
    }
    let mut value = window_remainder(string, 0, window);
    let mut remainders = vec![value];
    for i in 0..string.len() - window {
        value = slide(window, value, entry(string[i]), entry(string[i + window]));
        remainders.push(value);
    }
    remainders
}

/// The positions that a candidate may have: "when h ≤ i ≤ n−w−h", in signed numbers, so that a
/// short string has none.
pub fn candidate_range(string: &[u8], rule: &Rule) -> std::ops::RangeInclusive<i64> {
    let n = string.len() as i64;
    let w = rule.window as i64;
    let h = rule.distance as i64;
    h..=n - w - h
}

/// "a candidate's value must be smaller than each of the h values before it and not greater than the h
/// after it" (document 02, request 7)
pub fn is_candidate(values: &[u64], i: usize, rule: &Rule) -> bool {
    (1..=rule.distance).all(|d| values[i] < values[i - d] && values[i] <= values[i + d])
}

/// "From the left, a candidate becomes a cut if it is the first, or at least h after the last
/// cut. After 31 cuts no more are made."
pub fn cuts(string: &[u8], rule: &Rule) -> Vec<usize> {
    let values = window_values(string, rule);
    let mut cuts: Vec<usize> = Vec::new();
    for i in candidate_range(string, rule) {
        let i = i as usize;
        if cuts.len() == MOST_CUTS {
            break;
        }
        if !is_candidate(&values, i, rule) {
            continue;
        }
        match cuts.last() {
            None => cuts.push(i),
            Some(last) if i >= last + rule.distance => cuts.push(i),
            Some(_) => {}
        }
    }
    cuts
}

/// "A cut at i starts a block at byte i. A string with no cut is one block, itself."
pub fn blocks(string: &[u8], rule: &Rule) -> Vec<Block> {
    let mut starts = vec![0];
    starts.extend(cuts(string, rule));
    let mut ends = starts[1..].to_vec();
    ends.push(string.len());
    let block = |(&start, &end): (&usize, &usize)| Block {
        start,
        length: end - start,
    };
    starts.iter().zip(&ends).map(block).collect()
}
