//! Change request 12, "Spread the byte values": the table, the reading of windows over its entries, the tables that it
//! is not, and rule 2 beside rule 3.

use reference::fnv::{block_id, fnv1a, BASIS, PRIME as FNV_PRIME};
use reference::partition::{
    blocks, cuts, is_candidate, running_remainders, window_remainder, window_values,
};
use reference::settings::{Rule, Settings};
use reference::spread::{entry, table, ENTRIES, PRIME};
use reference::tree::tree;
use reference::vectors::string;
use std::ops::RangeInclusive;

/// "w 2 to 12" (question 1).
const WINDOWS: RangeInclusive<usize> = 2..=12;

/// "a base-257 number"
const BASE: u128 = 257;

/// "w=2, p=2, L=1, M=2 (h=1, s=4)"
const SMALLEST: Rule = Rule {
    window: 2,
    distance: 1,
    modulus: 4,
};

/// A number of 64 bits modulo 65,521 as it is done by hand: 2^16 is 15 more than 65,521, so that each 16 bits count 15
/// times those after them.
fn modulo_by_hand(number: u64) -> u64 {
    let words = [48, 32, 16, 0].map(|shift| number >> shift & 0xffff);
    words.into_iter().fold(0, |sum, word| sum * 15 + word) % 65_521
}

/// Published values of FNV-1a of one byte, and their entries. Of 00: 44,899 × 3,375 + 48,460 × 225 + 34,305 × 15 +
/// 47,071 = 162,999,271 = 2,487 × 65,521 + 48,544.
#[test]
fn entries_of_published_values() {
    for (byte, value, expected) in [
        (0x00, 0xaf63_bd4c_8601_b7df, 48_544),
        (b'a', 0xaf63_dc4c_8601_ec8c, 13_041),
        (b'b', 0xaf63_df4c_8601_f1a5, 56_104),
        (b'c', 0xaf63_de4c_8601_eff2, 63_590),
        (b'd', 0xaf63_d94c_8601_e773, 35_499),
        (b'e', 0xaf63_d84c_8601_e5c0, 42_985),
        (b'f', 0xaf63_db4c_8601_ead9, 20_527),
    ] {
        assert_eq!(modulo_by_hand(value), expected, "{byte:02x}");
        assert_eq!(entry(byte), expected, "{byte:02x}");
    }
}

/// FNV-1a of one byte in other words: the last byte of the basis is changed, and the prime is 2^40 + 435.
fn fnv1a_of_one(byte: u8) -> u64 {
    let [first @ .., last] = 14_695_981_039_346_656_037_u64.to_be_bytes();
    let mut bytes = [0; 8];
    bytes[..7].copy_from_slice(&first);
    bytes[7] = last ^ byte;
    let number = u128::from(u64::from_be_bytes(bytes));
    (((number << 40) + 435 * number) % (1 << 64)) as u64
}

/// "FNV-1a of the single byte b, modulo 65,521"
#[test]
fn every_entry() {
    let table = table();
    assert_eq!(table.len(), ENTRIES);
    for byte in 0..=u8::MAX {
        let expected = modulo_by_hand(fnv1a_of_one(byte));
        assert_eq!(entry(byte), expected, "entry {byte}");
        assert_eq!(table[usize::from(byte)], expected, "entry {byte}");
    }
}

/// The first and the last entries, and two sums that no two entries can be exchanged in.
#[test]
fn the_table_as_a_whole() {
    let table = table();
    let first = [
        48_544, 56_030, 33_572, 41_058, 12_967, 20_453, 63_516, 5_481,
    ];
    assert_eq!(table[..8], first);
    assert_eq!(table.iter().sum::<u64>(), 8_428_922);
    let last = [
        47_061, 54_547, 32_089, 39_575, 11_484, 18_970, 62_033, 3_998,
    ];
    assert_eq!(table[248..], last);
    let places = (1..).zip(table).map(|(place, entry)| place * entry);
    assert_eq!(places.sum::<u64>(), 1_066_578_064);
}

/// All below 65,521, none 0, and no two equal, so that no two bytes read alike.
#[test]
fn entries_are_different() {
    let mut sorted = table();
    sorted.sort();
    assert!(sorted.windows(2).all(|pair| pair[0] < pair[1]));
    assert_eq!((sorted[0], sorted[255]), (70, 65_517));
    assert_eq!(PRIME, 65_521);
    // Most are no digits of base 257, and are read for what they are.
    assert!(sorted.iter().filter(|&&entry| entry > 256).count() > 250);
}

/// Strings of all byte values, rising, falling and mixed, and of every kind.
fn strings() -> Vec<Vec<u8>> {
    let mut strings: Vec<Vec<u8>> = (0..=6).map(|kind| string(kind, 700)).collect();
    strings.push((0..=u8::MAX).collect());
    strings.push((0..=u8::MAX).rev().collect());
    strings.push((0..=u8::MAX).map(|byte| byte.wrapping_mul(77)).collect());
    strings
}

/// The numbers of a window's bytes as a base-257 number, each multiplied by its own power and added: slow, and whole.
fn reading(numbers: impl Fn(u8) -> u64, bytes: &[u8]) -> u128 {
    let power = |place: usize| BASE.pow((bytes.len() - 1 - place) as u32);
    let digit = |(place, &byte): (usize, &u8)| u128::from(numbers(byte)) * power(place);
    bytes.iter().enumerate().map(digit).sum()
}

/// The remainders of all windows, read over these numbers.
fn remainders(numbers: impl Fn(u8) -> u64, bytes: &[u8], w: usize) -> Vec<u64> {
    let windows = bytes.windows(w);
    let remainder = |window| (reading(&numbers, window) % u128::from(PRIME)) as u64;
    windows.map(remainder).collect()
}

/// "Before the base-257 reading, each byte b is replaced by entry b": windows still count bytes, and there is a value
/// for each place where one fits.
#[test]
fn windows_are_read_over_entries() {
    for (bytes, w) in strings().iter().flat_map(|s| WINDOWS.map(move |w| (s, w))) {
        let expected = remainders(entry, bytes, w);
        assert_eq!(expected.len(), bytes.len() + 1 - w);
        assert_eq!(running_remainders(bytes, w), expected, "w={w}");
        let read = (0..expected.len()).map(|i| window_remainder(bytes, i, w));
        assert_eq!(read.collect::<Vec<_>>(), expected, "w={w}");
    }
}

/// Only the reading of windows is spread: blocks are parts of the string itself, and ids those of its bytes.
#[test]
fn blocks_are_those_of_the_bytes() {
    let settings = Settings {
        window: 3,
        fan_out: 4,
        levels: 2,
        nominal: 64,
    };
    for bytes in strings() {
        for node in tree(&settings, &bytes) {
            let own = &bytes[node.start..node.start + node.length];
            assert_eq!(node.id, block_id(own));
        }
        let lengths = blocks(&bytes, &SMALLEST);
        let lengths = lengths.iter().map(|block| block.length);
        assert_eq!(lengths.sum::<usize>(), bytes.len());
    }
}

/// A number for each byte that could be taken for its entry.
type Numbers = (&'static str, fn(u8) -> u64);

/// FNV-1 multiplies first.
fn fnv1_of_one(byte: u8) -> u64 {
    BASIS.wrapping_mul(FNV_PRIME) ^ u64::from(byte)
}

/// FNV-1a with 32 bits: basis 2166136261, prime 16777619.
fn fnv1a_of_32_bits(byte: u8) -> u64 {
    let value = (2_166_136_261_u32 ^ u32::from(byte)).wrapping_mul(16_777_619);
    u64::from(value)
}

/// Tables that are not the one of request 12.
const OTHERS: [Numbers; 14] = [
    ("not spread, as by rule 2", u64::from),
    ("spread twice", |byte| entry(entry(byte) as u8)),
    ("digits below 256", |byte| entry(byte) % 256),
    ("digits below 257", |byte| entry(byte) % 257),
    ("modulo 65,519", |byte| fnv1a(&[byte]) % 65_519),
    ("modulo 65,536", |byte| fnv1a(&[byte]) % 65_536),
    ("modulo 65,537", |byte| fnv1a(&[byte]) % 65_537),
    ("FNV-1", |byte| fnv1_of_one(byte) % PRIME),
    ("FNV-1a with 32 bits", |byte| fnv1a_of_32_bits(byte) % PRIME),
    ("basis 0", |byte| {
        u64::from(byte).wrapping_mul(FNV_PRIME) % PRIME
    }),
    ("FNV-1a of the byte in decimal", |byte| {
        fnv1a(byte.to_string().as_bytes()) % PRIME
    }),
    ("FNV-1a of eight bytes", |byte| {
        fnv1a(&u64::from(byte).to_be_bytes()) % PRIME
    }),
    ("the next entry", |byte| entry(byte.wrapping_add(1))),
    ("from the last entry", |byte| entry(255 - byte)),
];

/// The values that are checked by hand: those of 01 02, of ff ff and of the six bytes modulo 4, and 01 00 00 before s.
fn checked_by_hand(numbers: fn(u8) -> u64) -> (Vec<u64>, Vec<u64>) {
    let strings: [&[u8]; 3] = [&[1, 2], &[255, 255], &[0, 3, 0, 0, 1, 0]];
    let values = strings.map(|bytes| remainders(numbers, bytes, 2));
    let modulo = values.concat().iter().map(|value| value % 4).collect();
    (modulo, remainders(numbers, &[1, 0, 0], 3))
}

/// Each other table gives another answer to what is checked by hand, and other values nearly everywhere.
#[test]
fn other_tables_give_other_values() {
    let ours = (vec![2, 1, 3, 1, 1, 3, 2], vec![43_710]);
    assert_eq!(checked_by_hand(entry), ours);
    for (name, numbers) in OTHERS {
        let differ = (0..=u8::MAX).filter(|&byte| numbers(byte) != entry(byte));
        assert!(differ.count() > 200, "{name}");
        assert_ne!(checked_by_hand(numbers), ours, "{name}");
        for bytes in [string(2, 700), string(4, 700)] {
            let [theirs, own] = [numbers, entry].map(|numbers| remainders(numbers, &bytes, 3));
            let equal = theirs.iter().zip(&own).filter(|(one, other)| one == other);
            assert!(equal.count() < 70, "{name}");
        }
    }
}

/// By each other table some strings are cut elsewhere.
#[test]
fn other_tables_cut_elsewhere() {
    let rule = Rule {
        window: 3,
        distance: 5,
        modulus: 48,
    };
    for (name, numbers) in OTHERS {
        let elsewhere = strings().into_iter().filter(|bytes| {
            let values = remainders(numbers, bytes, rule.window);
            let values: Vec<u64> = values.iter().map(|value| value % rule.modulus).collect();
            let last = values.len() - rule.distance;
            let found = (rule.distance..last).filter(|&i| is_candidate(&values, i, &rule));
            found.take(31).collect::<Vec<_>>() != cuts(bytes, &rule)
        });
        assert!(elsewhere.count() >= 6, "{name}");
    }
}

/// What could be mistaken and changes nothing: no single byte has FNV-1a 0, so that the id rule does not show; and an
/// entry that is not reduced has the same remainder, as long as the number is read whole.
#[test]
fn what_changes_nothing() {
    for byte in 0..=u8::MAX {
        assert_eq!(block_id(&[byte]), fnv1a(&[byte]));
        let window = [byte, 255 - byte];
        let whole = remainders(|byte| fnv1a(&[byte]), &window, 2);
        assert_eq!(whole, remainders(entry, &window, 2));
    }
}

/// One entry too many or too few by one shows in every window that the byte stands in: no power of 257 is a multiple of
/// 65,521.
#[test]
fn one_wrong_entry_shows() {
    for (byte, w) in (0..=u8::MAX).flat_map(|byte| WINDOWS.map(move |w| (byte, w))) {
        let wrong = |other: u8| entry(other) + u64::from(other == byte);
        for place in 0..w {
            let mut window = vec![byte.wrapping_add(1); w];
            window[place] = byte;
            assert_ne!(remainders(wrong, &window, w), remainders(entry, &window, w));
        }
    }
}

/// By rule 2 a run of zeros has the value 0, whatever the window. By rule 3 it has not; but a run of any byte has one
/// value, and by neither rule a cut.
#[test]
fn runs_by_both_rules() {
    for (byte, w) in (0..=u8::MAX).flat_map(|byte| WINDOWS.map(move |w| (byte, w))) {
        let run = vec![byte; w + 40];
        let [rule_2, rule_3] = [u64::from, entry].map(|numbers| remainders(numbers, &run, w));
        assert!(rule_2.iter().all(|value| *value == rule_2[0]));
        assert!(rule_3.iter().all(|value| *value == rule_3[0]));
        assert_eq!(rule_2[0] == 0, byte == 0, "w={w}, byte {byte}");
        assert_ne!(rule_3[0], 0, "w={w}, byte {byte}");
        let rule = Rule {
            window: w,
            ..SMALLEST
        };
        assert_eq!(cuts(&run, &rule), [], "w={w}, byte {byte}");
    }
}

/// The six bytes, and 01 00 00 before s, by rule 2, as they were worked out then, and by rule 3.
#[test]
fn strings_checked_by_hand_by_both_rules() {
    let six = [0, 3, 0, 0, 1, 0];
    let values = |numbers: fn(u8) -> u64| -> Vec<u64> {
        let all = remainders(numbers, &six, 2);
        all.iter().map(|value| value % 4).collect()
    };
    assert_eq!(values(u64::from), [3, 3, 0, 1, 1]);
    assert_eq!(values(entry), [3, 1, 1, 3, 2]);
    assert_eq!(window_values(&six, &SMALLEST), values(entry));
    assert_eq!(cuts(&six, &SMALLEST), [1]);
    assert_eq!(remainders(u64::from, &[1, 0, 0], 3), [528]);
    assert_eq!(remainders(entry, &[1, 0, 0], 3), [43_710]);
}

/// Samples of twelve bits, high byte first: a wave, slow and fast random walks, and noise around one level.
fn twelve_bit_samples() -> Vec<(&'static str, Vec<u8>)> {
    let steps = string(2, 2_000);
    let walk = |step: i32| -> Vec<u16> {
        let mut level = 2_048;
        let mut next = |byte: &u8| {
            let moved = level + i32::from(*byte) % (2 * step + 1) - step;
            level = moved.clamp(0, 4_095);
            level as u16
        };
        steps.iter().map(&mut next).collect()
    };
    let noise: Vec<u16> = steps.iter().map(|&byte| 2_100 + u16::from(byte)).collect();
    let bytes = |samples: Vec<u16>| samples.into_iter().flat_map(u16::to_be_bytes).collect();
    vec![
        ("a wave", string(4, 4_000)),
        ("a slow walk", bytes(walk(3))),
        ("a fast walk", bytes(walk(40))),
        ("noise", bytes(noise)),
    ]
}

/// The share, in hundredths, of the values that lie in the fullest of sixteen equal ranges up to 65,521. Values that do
/// not clump have about six in each.
fn fullest_sixteenth(values: &[u64]) -> usize {
    let mut ranges = [0; 16];
    for value in values {
        ranges[(value * 16 / PRIME) as usize] += 1;
    }
    100 * ranges.into_iter().max().unwrap_or(0) / values.len()
}

/// "Twelve-bit samples leave the high bytes nearly constant and the window values clump." Of windows of two bytes about
/// half, those that start with a high byte, lie in one sixteenth by rule 2. By rule 3 no sixteenth has more than an
/// eighth. How many different values there are is not what changes: by both rules different windows differ.
#[test]
fn values_of_twelve_bit_samples_clump_no_longer() {
    for (name, samples) in twelve_bit_samples() {
        let [rule_2, rule_3] =
            [u64::from, entry].map(|numbers| fullest_sixteenth(&remainders(numbers, &samples, 2)));
        assert!(rule_2 >= 48, "{name}: {rule_2} by rule 2");
        assert!(rule_3 <= 12, "{name}: {rule_3} by rule 3");
    }
}

/// How many candidates there are with w = 2, before any limit.
fn candidates(numbers: fn(u8) -> u64, samples: &[u8], distance: usize, modulus: u64) -> usize {
    let rule = Rule {
        window: 2,
        distance,
        modulus,
    };
    let values = remainders(numbers, samples, rule.window);
    let values: Vec<u64> = values.iter().map(|value| value % modulus).collect();
    let places = distance..values.len() - distance;
    places.filter(|&i| is_candidate(&values, i, &rule)).count()
}

/// With them the wave and the walks have more candidates, and the wave several times as many. Noise, whose low bytes
/// take every value, has about as many as before.
#[test]
fn twelve_bit_samples_have_more_candidates() {
    let moving = twelve_bit_samples().into_iter().take(3);
    for (name, samples) in moving {
        for (distance, modulus) in [(8, 512), (8, 8_192), (16, 512), (16, 8_192)] {
            let [rule_2, rule_3] =
                [u64::from, entry].map(|numbers| candidates(numbers, &samples, distance, modulus));
            assert!(rule_3 > rule_2, "{name}: {rule_2}, then {rule_3}");
        }
    }
    let wave = string(4, 4_000);
    let [rule_2, rule_3] = [u64::from, entry].map(|numbers| candidates(numbers, &wave, 8, 512));
    assert!(rule_3 > 4 * rule_2, "{rule_2}, then {rule_3}");
}
