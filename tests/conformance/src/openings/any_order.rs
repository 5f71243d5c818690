//! Two lists that keep document 01's limits, each of them in any order, which differ by few shingles; and what a
//! buyer comes to who opens from the highest cell down: document 02, request 13.

use super::cases::Case;
use super::lists::{list, shingle, shuffled};
use crate::random::Random;
use reference::any_order::{hashes_agree, highest, takings_by, truthful};
use reference::cell_table;
use reference::opening::{closed, difference, new_list, MOST_SHINGLES};
use reference::rcds::ACCEPTED;
use reference::shingle::Shingle;
use reference::shingle_table;

/// "5 q 1 to 64?"
const WIDTHS: usize = 64;

/// Every width with a positive and with a negative shingle.
const WIDTHS_AND_SIGNS: usize = 2 * WIDTHS;

/// "counts 1 to 4,096"
const MOST_COUNT: u64 = 4_096;

/// As many shingles as two lists differ by at most: all states of their cells are looked at.
const MOST_DIFFERING: u64 = 6;

/// Two lists.
pub struct TwoLists {
    pub levels: u64,
    pub width: u64,
    pub theirs: Vec<Shingle>,
    pub own: Vec<Shingle>,
}

/// How the one shingle is that two lists differ by.
#[derive(Clone, Copy)]
enum One {
    /// Its F(0), F(1) and F(2) agree modulo q, where q is odd.
    HashesAgree,
    /// It stands first, or last, in a list of 4,096.
    FirstOf4096,
    LastOf4096,
    /// There is no other.
    Only,
    /// Each of its fields is at an end.
    AtTheEnds,
    Any,
}

const ONES: [One; 8] = [
    One::HashesAgree,
    One::FirstOf4096,
    One::LastOf4096,
    One::Only,
    One::AtTheEnds,
    One::AtTheEnds,
    One::Any,
    One::Any,
];

/// The cases of one differing shingle: each kind of it with every width and sign.
pub const ONE_SHINGLE: usize = ONES.len() * WIDTHS_AND_SIGNS;

/// A shingle whose hashes agree modulo an odd q; any, where q is even.
fn of_agreeing_hashes(levels: u64, width: u64, random: &mut Random) -> Shingle {
    let mut one = shingle(levels, random);
    while width % 2 == 1 && !hashes_agree(&one, width) {
        one = shingle(levels, random);
    }
    one
}

fn at_the_ends(levels: u64, random: &mut Random) -> Shingle {
    Shingle {
        level: random.one_of(&[0, levels]),
        previous: random.one_of(&[0, u64::MAX]),
        own: random.one_of(&[0, u64::MAX]),
        count: random.one_of(&[1, MOST_COUNT]),
    }
}

/// So many other shingles, in any order: no pair twice, and none of this one's.
fn others(one: &Shingle, length: usize, levels: u64, random: &mut Random) -> Vec<Shingle> {
    let mut others = shuffled(&list(length + 1, levels, random), random);
    others.retain(|other| other.pair() != one.pair());
    others.truncate(length);
    others
}

/// "a difference of exactly one shingle": the case of this place in its family.
pub fn one_shingle(place: usize, random: &mut Random) -> TwoLists {
    let width = (place % WIDTHS) as u64 + 1;
    let negative = place / WIDTHS % 2 == 1;
    let kind = ONES[place / WIDTHS_AND_SIGNS];
    let levels = random.between(1, 4);
    let one = match kind {
        One::HashesAgree => of_agreeing_hashes(levels, width, random),
        One::AtTheEnds => at_the_ends(levels, random),
        _ => shingle(levels, random),
    };
    let length = match kind {
        One::FirstOf4096 | One::LastOf4096 => MOST_SHINGLES - 1,
        One::Only => 0,
        _ => random.between(0, 60) as usize,
    };
    let without = others(&one, length, levels, random);
    let at = match kind {
        One::FirstOf4096 => 0,
        One::LastOf4096 => length,
        _ => random.between(0, length as u64) as usize,
    };
    let mut with = shuffled(&without, random);
    with.insert(at, one);
    let (theirs, own) = match negative {
        false => (with, without),
        true => (without, with),
    };
    TwoLists {
        levels,
        width,
        theirs,
        own,
    }
}

/// Lists that differ by 2 to 6 shingles, mostly with few cells and small counts, so that cells are met that look like
/// what they do not hold: some pairs are in one list only, some in both with two counts.
pub fn few_differing(random: &mut Random) -> TwoLists {
    let levels = random.between(1, 4);
    let any_width = random.between(1, WIDTHS as u64);
    let width = random.one_of(&[3, 3, 3, any_width]);
    let most_count = random.one_of(&[3, 3, 3, MOST_COUNT]);
    let most = random.between(2, MOST_DIFFERING) as usize;
    let common = random.between(0, 20) as usize;
    let mut both = shuffled(&list(common + most, levels, random), random);
    let mut pairs = both.split_off(common);
    let (mut first, mut second) = (both.clone(), both);
    let mut differing = 0;
    while differing < most {
        let pair = pairs.pop().expect("as many pairs as may differ");
        let count = random.between(1, most_count);
        let other = (count - 1 + random.between(1, most_count - 1)) % most_count + 1;
        let two_counts = differing + 2 <= most && random.percent(75);
        first.push(Shingle { count, ..pair });
        second.extend(two_counts.then_some(Shingle {
            count: other,
            ..pair
        }));
        differing += 1 + usize::from(two_counts);
        if random.percent(50) {
            std::mem::swap(&mut first, &mut second);
        }
    }
    let [theirs, own] = [first, second].map(|list| shuffled(&list, random));
    TwoLists {
        levels,
        width,
        theirs,
        own,
    }
}

/// What a buyer comes to who opens from the highest cell down until no single cell is left: the answer that this would
/// be, and the shingle table then. After 3q takings the buyer gives up, as by 14.
pub struct FromTheHighest {
    /// "at every state reachable by taking single cells each single cell truly holds one shingle", so that it is what
    /// the call comes to.
    pub truthful: bool,
    pub answer: u64,
    pub shingles: Vec<u8>,
}

/// Of a case whose two lists are known.
pub fn from_the_highest(case: &Case) -> Option<FromTheHighest> {
    let theirs = case.sender.as_ref()?;
    let (levels, width) = (case.levels, case.width);
    let own = shingle_table::read(&case.shingles);
    let [from, less] = [&case.theirs, &case.own].map(|table| cell_table::read(table, width));
    let most = 3 * width as usize;
    let takings = takings_by(highest, &difference(&from, &less), levels, width, most);
    let opened = takings
        .ok()
        .filter(|takings| closed(takings, &own).is_empty());
    let mut shingles = case.shingles.clone();
    let answer = match opened {
        Some(takings) => {
            let list = new_list(&own, &takings.taken);
            shingle_table::write(&list, &mut shingles);
            ACCEPTED + list.len() as u64
        }
        None => 14,
    };
    Some(FromTheHighest {
        truthful: truthful(theirs, &own, levels, width),
        answer,
        shingles,
    })
}
