//! Shingles whose F(3) ends in so many zero bits, and so shingles of a stratum.

use crate::openings::lists::shingle;
use crate::random::Random;
use reference::fnv::fnv1a;
use reference::shingle::Shingle;
use reference::sketch::{f, twenty_bytes};
use reference::strata::{CHECKS_0, CHECKS_2_63};

/// How many zero bits cases are made for: both sides of the first stratum and of the last, and the most that
/// there are.
pub const ZERO_BITS: [u32; 7] = [0, 1, 14, 15, 16, 63, 64];

/// A shingle whose F(3) ends in exactly so many zero bits: 63, 64, or few enough to be drawn.
///
/// The last step of FNV-1a is (H xor byte) × prime, and the prime is odd. So F(3) ends in as many zero bits as H xor
/// the count's low byte, and that byte gives up to eight of them. The others are drawn.
pub fn ending_in(zeros: u32, levels: u64, random: &mut Random) -> Shingle {
    match zeros {
        63 => return random.one_of(&CHECKS_2_63),
        64 => return random.one_of(&CHECKS_0),
        _ => {}
    }
    loop {
        let mut drawn = shingle(levels, random);
        let mut hashed = vec![3];
        hashed.extend(&twenty_bytes(&drawn)[..19]);
        // A byte that ends in so many zero bits; 0, if that is eight or more.
        let byte = (random.number() as u8 | 1).checked_shl(zeros).unwrap_or(0);
        drawn.count = drawn.count & !0xff | u64::from(fnv1a(&hashed) as u8 ^ byte);
        let allowed = (1..=4_096).contains(&drawn.count);
        if allowed && f(3, &drawn).trailing_zeros() == zeros {
            return drawn;
        }
    }
}

/// A shingle of stratum i.
pub fn of_stratum(i: usize, levels: u64, random: &mut Random) -> Shingle {
    let zeros = match i {
        15 => random.one_of(&[15, 15, 15, 16, 17, 63, 64]),
        _ => i as u32,
    };
    ending_in(zeros, levels, random)
}

#[cfg(test)]
mod tests {
    use super::{ending_in, of_stratum, ZERO_BITS};
    use crate::random::Random;
    use reference::sketch::f;
    use reference::strata::stratum;

    #[test]
    fn so_many_zero_bits() {
        let mut random = Random::of_case(1, 1);
        for zeros in ZERO_BITS.into_iter().chain(0..18) {
            let shingle = ending_in(zeros, 1, &mut random);
            assert_eq!(f(3, &shingle).trailing_zeros(), zeros);
            assert!(shingle.level <= 1 && (1..=4_096).contains(&shingle.count));
        }
        for i in 0..16 {
            assert_eq!(stratum(&of_stratum(i, 4, &mut random)), i);
        }
    }
}
