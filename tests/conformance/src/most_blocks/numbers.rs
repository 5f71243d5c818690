//! n, w and h, allowed or not.

use crate::random::Random;

/// n, w and h.
#[derive(Clone, Copy, Debug, PartialEq, Eq)]
pub struct Numbers {
    pub n: u64,
    pub w: u64,
    pub h: u64,
}

/// The most bytes of a string, and the largest h.
pub const LONGEST: u64 = 65_536;
pub const MOST_DISTANCE: u64 = 32_768;

/// Every w of the grid is below this.
const WINDOWS: usize = 15;

const DISTANCES: [u64; 22] = [
    0,
    1,
    2,
    3,
    7,
    8,
    12,
    31,
    32,
    33,
    100,
    1_000,
    2_047,
    16_384,
    MOST_DISTANCE - 1,
    MOST_DISTANCE,
    MOST_DISTANCE + 1,
    LONGEST,
    1 << 32,
    (1 << 32) + 1,
    1 << 63,
    u64::MAX,
];

/// How many distances after a window the lengths of the grid stand around, those of 31, 32 and 33 blocks among
/// them, and how many lengths there are around each.
const STEPS: usize = 35;
const AROUND: usize = 3;

const EDGES: [u64; 13] = [
    0,
    LONGEST - 2,
    LONGEST - 1,
    LONGEST,
    LONGEST + 1,
    LONGEST + 2,
    70_000,
    (1 << 32) - 1,
    1 << 32,
    (1 << 32) + 1,
    1 << 63,
    u64::MAX - 1,
    u64::MAX,
];

/// How many numbers the grid has.
pub const GRID: usize = WINDOWS * DISTANCES.len() * (STEPS * AROUND + EDGES.len());

/// One less than so many distances after a window, as many, or one more; modulo 2^64.
fn around(w: u64, h: u64, distances: u64, which: u64) -> u64 {
    let last = h.wrapping_mul(distances).wrapping_add(w);
    last.wrapping_add(which).wrapping_sub(1)
}

/// The numbers of this place in the grid.
pub fn grid(place: usize) -> Numbers {
    let (w, rest) = ((place % WINDOWS) as u64, place / WINDOWS);
    let (h, rest) = (DISTANCES[rest % DISTANCES.len()], rest / DISTANCES.len());
    let n = match rest.checked_sub(STEPS * AROUND) {
        Some(edge) => EDGES[edge],
        None => around(w, h, (rest / AROUND) as u64, (rest % AROUND) as u64),
    };
    Numbers { n, w, h }
}

/// The small numbers: every w that is allowed, every h and every n up to these.
const SMALL_WINDOWS: usize = 11;
const SMALL_DISTANCES: usize = 40;
const SMALL_LENGTHS: usize = 121;

/// How many small numbers there are.
pub const SMALL: usize = SMALL_WINDOWS * SMALL_DISTANCES * SMALL_LENGTHS;

/// The small numbers of this place.
pub fn small(place: usize) -> Numbers {
    let (w, rest) = (place % SMALL_WINDOWS, place / SMALL_WINDOWS);
    let (h, n) = (rest % SMALL_DISTANCES, rest / SMALL_DISTANCES);
    Numbers {
        n: n as u64,
        w: 2 + w as u64,
        h: 1 + h as u64,
    }
}

/// Numbers that are allowed: any length; or one around so many distances after a window, one more or less, where
/// a string has room for them.
pub fn allowed(random: &mut Random) -> Numbers {
    let w = random.between(2, 12);
    let h = match random.between(0, 9) {
        0 => random.one_of(&[1, MOST_DISTANCE - 1, MOST_DISTANCE]),
        _ => random.by_size(1, MOST_DISTANCE),
    };
    Numbers {
        n: length(w, h, LONGEST, random),
        w,
        h,
    }
}

/// A length up to `most`. Cuts are more than h apart, so that a string has room for k of them from k × (h + 1) + h + w − 1
/// on, which is not far from k + 1 distances after a window while k is small.
pub fn length(w: u64, h: u64, most: u64, random: &mut Random) -> u64 {
    let distances = random.between(0, (most / h).min(34));
    let near = around(w, h, distances, random.between(0, 2));
    let room = around(w + h - 1, h + 1, distances, random.between(0, 2));
    match random.between(0, 6) {
        0 => random.by_size(0, most),
        1 => random.between(0, 2 * w).min(most),
        2 | 3 => room.min(most),
        _ => near.min(most),
    }
}

/// How many numbers are refused in a way of their own.
pub const REFUSED: usize = 5;

/// Numbers of which 24 refuses one: w too small or too large, h too small or too large, or n.
pub fn refused(place: usize, random: &mut Random) -> Numbers {
    with_a_no(allowed(random), place, random)
}

/// Numbers of which 24 refuses two.
pub fn twice_refused(place: usize, random: &mut Random) -> Numbers {
    let pairs = [
        (0, 2),
        (0, 3),
        (0, 4),
        (1, 2),
        (1, 3),
        (1, 4),
        (2, 4),
        (3, 4),
    ];
    let (one, other) = pairs[place % pairs.len()];
    with_a_no(refused(one, random), other, random)
}

/// The numbers with one in its place that 24 refuses.
fn with_a_no(mut numbers: Numbers, place: usize, random: &mut Random) -> Numbers {
    let too_long = [
        LONGEST + 1,
        LONGEST + 1,
        LONGEST + 2,
        70_000,
        131_072,
        1 << 63,
        u64::MAX,
    ];
    match place % REFUSED {
        0 => numbers.w = random.one_of(&[0, 1, 1]),
        1 => numbers.w = random.one_of(&[13, 13, 14, 99, 1 << 63, u64::MAX]),
        2 => numbers.h = 0,
        3 => numbers.h = random.one_of(&[MOST_DISTANCE + 1, LONGEST, 1 << 63, u64::MAX]),
        _ => numbers.n = random.one_of(&too_long),
    }
    numbers
}

/// Numbers of which one would be allowed if only its low 8, 16 or 32 bits were looked at.
pub fn low_bits(place: usize, random: &mut Random) -> Numbers {
    let mut numbers = allowed(random);
    let high = random.between(1, 200);
    match place % 7 {
        0 => numbers.w += high << 8,
        1 => numbers.w += high << 16,
        2 => numbers.w += high << 32,
        3 => numbers.h += high << 16,
        4 => numbers.h += high << 32,
        // 65,536 itself is allowed.
        5 => numbers.n = numbers.n.max(1) + (1 << 16),
        _ => numbers.n += high << 32,
    }
    numbers
}

/// Any numbers of 64 bits.
pub fn any(random: &mut Random) -> Numbers {
    let w = match random.between(0, 1) {
        0 => random.between(0, 14),
        _ => random.by_size(0, u64::MAX),
    };
    Numbers {
        n: random.by_size(0, u64::MAX),
        w,
        h: random.by_size(0, u64::MAX),
    }
}
