//! Windows of a block that slide: once right, and with one fault each. "keep the base-257 remainder as a running
//! value; a step sees only w, the value before, the byte that leaves and the byte that enters" (document 02,
//! request 4). "Request 4's running value now runs over table entries." (request 12)

use super::spread::{number, Part};

/// "a base-257 number", "modulo 65,521".
const BASE: u64 = 257;
const PRIME: u64 = 65_521;

/// No fault. This number and all above it stand for windows that slide; those of `faults` itself are below.
pub const SLIDING: u8 = 64;
/// The byte that leaves is taken away 257^(w−1) times, as it counted in the window before, and not 257^w times.
pub const LEAVES_ONE_POWER_LOWER: u8 = 65;
pub const NOTHING_LEAVES: u8 = 66;
/// What runs on is the value after "then modulo s".
pub const MODULO_S_RUNS_ON: u8 = 67;
/// The byte that enters is the last of the window before.
pub const ENTERS_TOO_EARLY: u8 = 68;
/// A block's first window is not read: its remainder is that of the window which ends where the block starts.
pub const GOES_ON_FROM_THE_BLOCK_BEFORE: u8 = 69;

/// With this and w together, the byte that leaves is taken away once too often by windows of w bytes, and of no
/// other length.
const TOO_MUCH_LEAVES: u8 = 80;
pub const TOO_MUCH_LEAVES_2: u8 = TOO_MUCH_LEAVES + 2;
pub const TOO_MUCH_LEAVES_3: u8 = TOO_MUCH_LEAVES + 3;
pub const TOO_MUCH_LEAVES_4: u8 = TOO_MUCH_LEAVES + 4;
pub const TOO_MUCH_LEAVES_5: u8 = TOO_MUCH_LEAVES + 5;
pub const TOO_MUCH_LEAVES_6: u8 = TOO_MUCH_LEAVES + 6;
pub const TOO_MUCH_LEAVES_7: u8 = TOO_MUCH_LEAVES + 7;
pub const TOO_MUCH_LEAVES_8: u8 = TOO_MUCH_LEAVES + 8;
pub const TOO_MUCH_LEAVES_9: u8 = TOO_MUCH_LEAVES + 9;
pub const TOO_MUCH_LEAVES_10: u8 = TOO_MUCH_LEAVES + 10;
pub const TOO_MUCH_LEAVES_11: u8 = TOO_MUCH_LEAVES + 11;
pub const TOO_MUCH_LEAVES_12: u8 = TOO_MUCH_LEAVES + 12;

/// The string that holds a block, and what its windows go by.
pub struct Windows<'a> {
    pub fault: u8,
    pub string: &'a [u8],
    pub w: usize,
    pub s: u64,
}

impl Windows<'_> {
    /// The values of all full windows of a block, none of a block that is shorter than one.
    pub fn values(&self, start: usize, length: usize) -> Vec<u64> {
        let bytes = &self.string[start..start + length];
        if length < self.w {
            return Vec::new();
        }
        let times = self.times();
        let mut running = self.kept(self.first(start));
        let mut values = vec![running % self.s];
        for (i, &leaves) in bytes[..length - self.w].iter().enumerate() {
            let enters = match self.fault {
                ENTERS_TOO_EARLY => bytes[i + self.w - 1],
                _ => bytes[i + self.w],
            };
            // Only entries that are not reduced wrap around.
            let left = number(self.fault, Part::Leaves, leaves).wrapping_mul(times) % PRIME;
            let entered = number(self.fault, Part::Enters, enters);
            running = self.kept((BASE * running + PRIME - left).wrapping_add(entered) % PRIME);
            values.push(running % self.s);
        }
        values
    }

    /// The remainder of a block's first window.
    fn first(&self, start: usize) -> u64 {
        let start = match self.fault {
            GOES_ON_FROM_THE_BLOCK_BEFORE if start >= self.w => start - self.w,
            _ => start,
        };
        let digit = |value: u64, &byte: &u8| {
            let first = number(self.fault, Part::First, byte);
            (BASE * value).wrapping_add(first) % PRIME
        };
        self.string[start..start + self.w].iter().fold(0, digit)
    }

    /// What runs on.
    fn kept(&self, remainder: u64) -> u64 {
        match self.fault {
            MODULO_S_RUNS_ON => remainder % self.s,
            _ => remainder,
        }
    }

    /// How many times the byte that leaves is taken away: 257^w times, which is counted modulo 65,521.
    fn times(&self) -> u64 {
        let power = |exponent: usize| (0..exponent).fold(1, |power, _| BASE * power % PRIME);
        let too_much = usize::from(TOO_MUCH_LEAVES) + self.w;
        match self.fault {
            LEAVES_ONE_POWER_LOWER => power(self.w - 1),
            NOTHING_LEAVES => 0,
            fault if usize::from(fault) == too_much => power(self.w) + 1,
            _ => power(self.w),
        }
    }
}
