//! Cells and lists as nobody makes them who follows the rules.

use super::lists::{add_part, cells, list, shingle, some_of, Signed, MINUS};
use crate::random::Random;
use reference::opening::{closed, takings, Closed};
use reference::shingle::Shingle;
use reference::sketch::{f, part, places, Cell};

/// What is wrong with a shingle that is added to three cells.
#[derive(Clone, Copy, Debug, PartialEq, Eq, PartialOrd, Ord)]
pub enum Forgery {
    /// F(3) is another number.
    Check,
    /// One bit of F(3) is another.
    CheckBit,
    /// F(3) is that of the shingle with another j.
    CheckOfAnotherJ,
    /// It stands in three cells that are not its own.
    Places,
    /// It stands in one more cell, or twice in one of its own.
    OneCell,
    Count0,
    Count4097,
    CountLarge,
    /// One level more than there are, or several.
    Level,
    /// The tail is right modulo 2^32 only.
    Tail,
    /// Its number is 2, −2, 0 or any other, the rest is right.
    Number,
    /// One sum of one cell is another.
    Sum,
}

/// All of them.
pub const FORGERIES: [Forgery; 12] = [
    Forgery::Check,
    Forgery::CheckBit,
    Forgery::CheckOfAnotherJ,
    Forgery::Places,
    Forgery::OneCell,
    Forgery::Count0,
    Forgery::Count4097,
    Forgery::CountLarge,
    Forgery::Level,
    Forgery::Tail,
    Forgery::Number,
    Forgery::Sum,
];

/// A forged shingle, added with its sign. The shingle, as a list would have it.
pub fn forge(
    forgery: Forgery,
    levels: u64,
    width: u64,
    times: u64,
    to: &mut [Cell],
    random: &mut Random,
) -> Shingle {
    let mut forged = shingle(levels, random);
    match forgery {
        Forgery::Count0 => forged.count = 0,
        Forgery::Count4097 => forged.count = 4_097,
        Forgery::CountLarge => forged.count = random.by_size(4_097, 65_535),
        Forgery::Level => forged.level = levels + 1 + random.one_of(&[0, 0, 1, 250, 65_000]),
        _ => {}
    }
    let mut part = part(&forged);
    let mut at = places(&forged, width);
    match forgery {
        Forgery::Check => part[4] = random.number(),
        Forgery::CheckBit => part[4] ^= 1 << random.between(0, 63),
        Forgery::CheckOfAnotherJ => part[4] = f(random.one_of(&[0, 1, 2, 4]), &forged),
        Forgery::Places => {
            at = [0, 1, 2].map(|j| (j * width + random.between(0, width - 1)) as usize)
        }
        Forgery::Tail => part[3] += 1 << random.between(32, 63),
        Forgery::Number => {
            part[0] = random.one_of(&[0, 2, 2, MINUS, MINUS - 1, 1 << 32, (1 << 32) + 1, 1 << 63])
        }
        _ => {}
    }
    for place in at {
        add_part(&mut to[place], &part, times);
    }
    let any = random.between(0, to.len() as u64 - 1) as usize;
    match forgery {
        Forgery::OneCell => add_part(&mut to[any], &part, times),
        Forgery::Sum => {
            let sum = random.between(0, 4) as usize;
            to[any][sum] = to[any][sum].wrapping_add(random.one_of(&[1, MINUS, 1 << 32, 1 << 63]));
        }
        _ => {}
    }
    Shingle {
        level: part[3] / 65_536,
        count: part[3] % 65_536,
        ..forged
    }
}

/// Cells of any content; most of their numbers are small.
pub fn any_cells(width: u64, random: &mut Random) -> Vec<Cell> {
    let numbers = [0, 1, 1, MINUS, MINUS, 2, MINUS - 1];
    let mut cell = || {
        let mut cell = [0; 5].map(|_: u64| random.number());
        cell[0] = random.one_of(&numbers);
        if random.between(0, 1) == 0 {
            cell[3] = random.between(0, 4) * 65_536 + random.between(0, 9);
        }
        cell
    };
    (0..3 * width).map(|_| cell()).collect()
}

/// Shingles of one pair with counts of one byte: sums of them may look like another of them, F(3)
/// included, because the last step of FNV-1a is (H xor byte) × prime.
pub fn of_one_pair(levels: u64, random: &mut Random) -> Vec<Signed> {
    let one = shingle(levels, random);
    let base = 8 * random.between(0, 3);
    let times = [1, 1, MINUS, MINUS, 2, MINUS - 1];
    let signed = |random: &mut Random| {
        let count = base + random.between(1, 7);
        (Shingle { count, ..one }, random.one_of(&times))
    };
    (0..random.between(2, 6)).map(|_| signed(random)).collect()
}

/// A pair with two counts: one cell for j = 0, one for j = 1, two for j = 2. Nothing if the drawn one
/// lies otherwise.
fn two_counts(counts: [u64; 2], width: u64, random: &mut Random) -> Option<[Shingle; 2]> {
    let (level, previous, own) = (random.between(0, 1), random.number(), random.number());
    let both = counts.map(|count| Shingle {
        level,
        previous,
        own,
        count,
    });
    let [a, b] = both.map(|shingle| places(&shingle, width));
    (a[0] == b[0] && a[1] == b[1] && a[2] != b[2]).then_some(both)
}

/// A width, cells from which a negative shingle is taken twice before all of them are 0, and a list for
/// which that is the only thing amiss.
///
/// Pairs x and y have the counts c and d. The cells are those of −2x(c) + x(d) + y(c) − y(d), the list
/// has x(c) and y(d). For j = 0 neither the cell of x nor that of y is single, their numbers are −1 and 0. For
/// j = 1 all meet in one cell, which looks like −x(c): FNV-1a ends by turning bits and multiplying, so
/// that F(3) of x(c) less that of x(d) is often as much as of y(c) less y(d). For j = 2 one of them is
/// alone, and from there the rest is taken, x(c) a second time. With a width that is a power of two,
/// counts need two digits of base 256 for that.
pub fn taken_twice(random: &mut Random) -> (u64, Vec<Cell>, Vec<Shingle>) {
    loop {
        let width = random.one_of(&[3, 5, 6, 7, 9, 16, 32]);
        let counts = [0; 2].map(|_| 256 * random.between(0, 3) + random.between(1, 15));
        let Some([x, other_x]) = two_counts(counts, width, random) else {
            continue;
        };
        for _ in 0..100 * width {
            let Some([y, other_y]) = two_counts(counts, width, random) else {
                continue;
            };
            let signed = [(x, MINUS - 1), (other_x, 1), (y, 1), (other_y, MINUS)];
            let (cells, mut list) = (cells(&signed, width), vec![x, other_y]);
            list.sort();
            if closed(&takings(&cells, 1, width), &list) == [Closed::TakenTwice] {
                return (width, cells, list);
            }
        }
    }
}

/// What is odd about a list, which no setup leaves so.
#[derive(Clone, Copy, Debug, PartialEq, Eq, PartialOrd, Ord)]
pub enum Oddity {
    /// In any order.
    Unsorted,
    /// Some shingles twice.
    Repeated,
    /// Some pairs twice, with two counts.
    PairsTwice,
    /// Levels and counts of any size.
    LargeTails,
    /// Any bytes.
    Garbage,
}

/// All of them.
pub const ODDITIES: [Oddity; 5] = [
    Oddity::Unsorted,
    Oddity::Repeated,
    Oddity::PairsTwice,
    Oddity::LargeTails,
    Oddity::Garbage,
];

/// A list of about this length with this oddity, and what of it is odd.
pub fn odd_list(
    oddity: Oddity,
    length: usize,
    levels: u64,
    random: &mut Random,
) -> (Vec<Shingle>, Vec<Shingle>) {
    let mut all = list(length, levels, random);
    let few = random.between(1, 3) as usize;
    let mut odd = some_of(&all, few, random);
    match oddity {
        Oddity::Unsorted => {}
        Oddity::Repeated => all.extend(&odd),
        Oddity::PairsTwice => {
            for shingle in &mut odd {
                shingle.count = shingle.count % 4_096 + 1;
            }
            all.extend(&odd);
        }
        Oddity::LargeTails => {
            for shingle in &mut odd {
                shingle.level = random.by_size(levels + 1, (1 << 48) - 1);
                shingle.count = random.by_size(1, 65_535);
            }
            all.extend(&odd);
        }
        Oddity::Garbage => {
            all = (0..length)
                .map(|_| Shingle {
                    level: random.number() >> 16,
                    previous: random.number(),
                    own: random.number(),
                    count: random.between(1, 65_535),
                })
                .collect();
            odd = Vec::new();
        }
    }
    if random.between(0, 3) > 0 {
        for k in (1..all.len()).rev() {
            let other = random.between(0, k as u64) as usize;
            all.swap(k, other);
        }
    }
    (all, odd)
}
