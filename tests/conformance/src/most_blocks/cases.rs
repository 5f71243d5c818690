//! The cases: n, w and h, and of some two strings that are cut with the same numbers; each made from the seed and the
//! case's number alone.

use super::cutting::{self, Cutting};
use super::numbers::{self, Numbers, GRID, REFUSED, SMALL};
use crate::random::{family_of, together, Random};
use std::fmt;

/// One call, and what is cut after it.
pub struct Case {
    pub seed: u64,
    pub number: usize,
    pub family: Family,
    pub numbers: Numbers,
    pub cutting: Option<Cutting>,
}

impl fmt::Display for Case {
    fn fmt(&self, f: &mut fmt::Formatter) -> fmt::Result {
        let Numbers { n, w, h } = self.numbers;
        write!(f, "{:?}, n={n} w={w} h={h}", self.family)?;
        if let Some(cutting) = &self.cutting {
            let (settings, byte, text) = (&cutting.settings, cutting.byte, cutting.text);
            write!(
                f,
                "; n bytes {byte} cut by w={} p={} levels={} nominal={}, and beside them {text:?}",
                settings.window, settings.fan_out, settings.levels, settings.nominal,
            )?;
        }
        Ok(())
    }
}

/// What a case is.
#[derive(Clone, Copy, Debug, PartialEq, Eq, PartialOrd, Ord)]
pub enum Family {
    /// Every w from 0 to 14, with h and n at, around and far past the ends of what is allowed, n also around as many
    /// distances as there may be blocks.
    Grid,
    /// Every w that is allowed with every small h and n.
    Small,
    /// Numbers that are allowed.
    Allowed,
    /// Numbers of which 24 refuses one.
    OneRefused,
    /// Numbers of which 24 refuses two.
    TwoRefused,
    /// Numbers of which one would be allowed if only its low bits were looked at.
    LowBits,
    /// Any numbers of 64 bits.
    AnyNumbers,
    /// Equal bytes and another string cut by one level.
    OneLevel,
    /// Equal bytes and another string cut by one to four levels.
    Levels,
}

/// The families, and how many cases each has.
pub const FAMILIES: [(Family, usize); 9] = [
    (Family::Grid, GRID),
    (Family::Small, SMALL),
    (Family::Allowed, 20_000),
    (Family::OneRefused, REFUSED * 1_000),
    (Family::TwoRefused, 5_000),
    (Family::LowBits, 7_000),
    (Family::AnyNumbers, 10_000),
    (Family::OneLevel, 5_000),
    (Family::Levels, 1_200),
];

impl Family {
    /// Whether cases of it are accepted, and whether cases of it are refused.
    pub fn answers(self) -> [bool; 2] {
        match self {
            Family::OneRefused | Family::TwoRefused | Family::LowBits => [false, true],
            Family::Small | Family::Allowed | Family::OneLevel | Family::Levels => [true, false],
            _ => [true, true],
        }
    }
}

/// How many cases a run has.
pub fn count() -> usize {
    together(FAMILIES)
}

/// The case of this number.
pub fn case(seed: u64, number: usize) -> Case {
    let (family, place) = family_of(FAMILIES, number);
    let mut random = Random::of_case(seed, number);
    let random = &mut random;
    let cutting = match family {
        Family::OneLevel => Some(cutting::one_level(place, random)),
        Family::Levels => Some(cutting::levels(place, random)),
        _ => None,
    };
    let numbers = match &cutting {
        Some(cutting) => cutting.numbers(),
        None => numbers_of(family, place, random),
    };
    Case {
        seed,
        number,
        family,
        numbers,
        cutting,
    }
}

fn numbers_of(family: Family, place: usize, random: &mut Random) -> Numbers {
    match family {
        Family::Grid => numbers::grid(place),
        Family::Small => numbers::small(place),
        Family::OneRefused => numbers::refused(place, random),
        Family::TwoRefused => numbers::twice_refused(place, random),
        Family::LowBits => numbers::low_bits(place, random),
        Family::AnyNumbers => numbers::any(random),
        Family::Allowed | Family::OneLevel | Family::Levels => numbers::allowed(random),
    }
}
