//! Change request 4: "Show that each value equals document 01's." Windows that slide, compared with
//! windows that are read afresh. "Request 4's running value now runs over table entries." (request 12)

use reference::partition::{running_remainders, slide, window_remainder, window_values};
use reference::settings::Rule;
use reference::spread::entry;
use reference::vectors;
use std::ops::RangeInclusive;

/// "w 2 to 12" (question 1).
const WINDOWS: RangeInclusive<usize> = 2..=12;

/// "a base-257 number", "modulo 65,521".
const BASE: u128 = 257;
const PRIME: u128 = 65_521;

/// The kinds of `vectors::string` that have different bytes: random ones, four symbols, samples of a
/// wave, and a repeated block.
const MIXED_KINDS: [u64; 4] = [2, 3, 4, 5];

/// Lengths with thousands of steps.
const LONG: [usize; 3] = [2_048, 4_527, 5_003];

/// p and L−l+1 of some moduli "s = w × p^(L−l+1)", the smallest and the largest among them.
const MODULI: [[u64; 2]; 4] = [[2, 1], [3, 2], [5, 3], [8, 4]];

/// Zeros, and 255 at this place.
fn one_255(length: usize, place: usize) -> Vec<u8> {
    let mut string = vec![0; length];
    string[place] = 255;
    string
}

/// The two bytes by turns.
fn alternating(first: u8, second: u8, length: usize) -> Vec<u8> {
    [first, second].into_iter().cycle().take(length).collect()
}

/// Strings of this length: the smallest and the largest bytes, alone and mixed, and bytes of every
/// kind.
fn strings(length: usize) -> Vec<Vec<u8>> {
    let mut strings: Vec<Vec<u8>> = MIXED_KINDS
        .iter()
        .map(|&kind| vectors::string(kind, length))
        .collect();
    strings.extend([0, 255].map(|byte| vec![byte; length]));
    strings.extend([(0, 255), (255, 0)].map(|(one, other)| alternating(one, other, length)));
    strings.push(one_255(length, length / 2));
    strings
}

/// The remainders of all windows, "for 0 ≤ i ≤ n−w", each read by itself.
fn read_remainders(string: &[u8], window: usize) -> Vec<u64> {
    let places = (0..string.len()).take_while(|i| i + window <= string.len());
    places
        .map(|i| window_remainder(string, i, window))
        .collect()
}

/// That the remainders kept as a running value are those of document 01, and with them the values.
fn assert_equal(string: &[u8], window: usize) {
    let running = running_remainders(string, window);
    let about = format!("w={window}, {} bytes", string.len());
    assert_eq!(running, read_remainders(string, window), "{about}");
    for [fan_out, exponent] in MODULI {
        let rule = Rule {
            window,
            distance: 1,
            modulus: window as u64 * fan_out.pow(exponent as u32),
        };
        let values: Vec<u64> = running.iter().map(|value| value % rule.modulus).collect();
        assert_eq!(values, window_values(string, &rule), "{about}, {rule:?}");
    }
}

#[test]
fn each_value_of_short_strings() {
    for window in WINDOWS {
        for length in [window - 1, window, window + 1, 2 * window, 2 * window + 1] {
            for string in strings(length) {
                assert_equal(&string, window);
            }
            let windows = (length + 1).saturating_sub(window);
            let running = running_remainders(&vec![255; length], window);
            assert_eq!(running.len(), windows, "w={window}, {length} bytes");
        }
    }
}

#[test]
fn each_value_of_long_strings() {
    for window in WINDOWS {
        for string in LONG.into_iter().flat_map(strings) {
            assert_equal(&string, window);
        }
    }
}

/// 255 at every place among zeros: it stands in the first window already, or enters later, and leaves or stays. The
/// windows that it is not in have the value of zeros, which is no longer 0, and the others have not: 255 and 0 have
/// different entries, and no power of 257 is a multiple of 65,521.
#[test]
fn one_byte_that_enters_and_leaves() {
    for window in WINDOWS {
        let length = 3 * window + 1;
        for place in 0..length {
            let string = one_255(length, place);
            assert_equal(&string, window);
            let running = running_remainders(&string, window);
            let zeros = window_remainder(&vec![0; window], 0, window);
            let without = |value: &u64| *value == zeros;
            let has_255 = |i: usize| (i..i + window).contains(&place);
            let (with, others): (Vec<_>, Vec<_>) =
                running.iter().enumerate().partition(|(i, _)| has_255(*i));
            let about = format!("w={window}, 255 at {place}");
            assert!(others.iter().all(|(_, value)| without(value)), "{about}");
            assert!(!with.iter().any(|(_, value)| without(value)), "{about}");
            assert!(!with.is_empty() && !others.is_empty(), "{about}");
        }
    }
}

/// The entries: 48,544 for 00, 56,030 for 01, 33,572 for 02, 41,058 for 03, 3,998 for ff.
#[test]
fn steps_worked_out_by_hand() {
    // 01 02 is 56,030 × 257 + 33,572 = 14,433,282, which is 18,662 modulo 65,521, and 02 03 is 33,572 × 257 + 41,058 =
    // 8,669,062, which is 20,290. 18,662 × 257 + 41,058 = 4,837,192, less 56,030 × 66,049 = 3,700,725,470, is
    // −3,695,888,278 = 20,290 − 56,408 × 65,521.
    assert_eq!(running_remainders(&[1, 2, 3], 2), [18_662, 20_290]);
    assert_eq!(slide(2, 18_662, 56_030, 41_058), 20_290);
    // 00 ff is 48,544 × 257 + 3,998 = 12,479,806, which is 30,816. Then 30,816 × 257 + 3,998 = 7,923,710, less 48,544 ×
    // 66,049 = 3,206,282,656, is −3,198,358,946 = 48,669 − 48,815 × 65,521, which is 1 modulo 4: ff ff has value 1.
    assert_eq!(slide(2, 30_816, 48_544, 3_998), 48_669);
    // ff 00 is 3,998 × 257 + 48,544 = 1,076,030, which is 27,694.
    assert_eq!(slide(2, 48_669, 3_998, 48_544), 27_694);
    let turn = running_remainders(&[0, 255, 255, 0], 2);
    assert_eq!(turn, [30_816, 48_669, 27_694]);
    // 00 01 00 is 17,327 × 257 + 48,544 = 4,501,583, which is 46,155; 01 00 00 is 43,710; 00 00 00 is 9,841 × 257 +
    // 48,544 = 2,577,681, which is 22,362.
    let single = running_remainders(&[0, 1, 0, 0, 0], 3);
    assert_eq!(single, [46_155, 43_710, 22_362]);
}

/// A step takes entries, and so more than any byte: the step over the bytes themselves leads elsewhere.
#[test]
fn a_step_over_bytes_is_another() {
    for (window, leaves, enters) in [(2, 1, 3), (3, 255, 0), (12, 0, 7)] {
        let over_entries = slide(window, 18_662, entry(leaves), entry(enters));
        let over_bytes = slide(window, 18_662, u64::from(leaves), u64::from(enters));
        assert_ne!(over_entries, over_bytes, "w={window}, {leaves}, {enters}");
    }
}

/// The largest entry leaves, windows too short to be allowed included. With what was taken away, the
/// remainder is a multiple of 65,521.
#[test]
fn no_window_is_too_long_for_a_step() {
    let largest = (0..=u8::MAX).map(entry).max().expect("256 entries");
    for window in 0..=*WINDOWS.end() {
        let after = u128::from(slide(window, 0, largest, 0));
        assert!(after < PRIME, "w={window}");
        let leaving = u128::from(largest) * BASE.pow(window as u32);
        assert_eq!((after + leaving) % PRIME, 0, "w={window}");
    }
}
