//! Costs of building strata, and of one estimate.

use super::ends::{build, estimate, set_up};
use super::lists::{settings, strata, Asked, List};
use crate::pass::{cost, Cost};
use crate::sessions::ends::{set_up_sender, End};
use reference::sender::held;
use reference::strata::{open, read, STRATA, TABLE_BYTES};
use reference::vectors::string;
use std::hint::black_box;

/// What building the strata of a string's list cost.
pub struct Built {
    pub list: String,
    pub shingles: usize,
    pub building: Cost,
    /// Setting an end up over the same string.
    pub setup: Cost,
}

/// What one estimate cost.
pub struct Estimated {
    pub name: String,
    /// Shingles of the own list, and how many differ.
    pub own: usize,
    pub differ: usize,
    /// Strata that opened, and shingles that they listed.
    pub opened: usize,
    pub listed: usize,
    pub answer: u64,
    pub call: Cost,
    /// Building the own strata.
    pub building: Cost,
}

fn of_building(end: &End) -> Cost {
    let mut table = vec![0; TABLE_BYTES];
    cost(|| {
        black_box(build(black_box(end), &mut table));
    })
}

/// Measures building over one list. The table is compared with the reference's.
pub fn built((numbers, content, length): &List) -> Built {
    let settings = settings(*numbers);
    let string = string(content.1, *length);
    let end = set_up(&settings, &string).expect("a string that is not refused");
    let mut expected = vec![0; TABLE_BYTES];
    let answer = reference::rcds::rcds_strata_build(&end.state, &end.lent, &mut expected);
    let equal = answer == 0 && strata(&end) == expected;
    assert!(equal, "wrong strata: {settings:?}");
    let building = of_building(&end);
    let mut again = end.clone();
    let setup = cost(|| {
        black_box(set_up_sender(&settings, black_box(&mut again)));
    });
    let [w, p, levels, nominal] = numbers;
    Built {
        list: format!("{w} {p} {levels} {nominal}, {}, {length} bytes", content.0),
        shingles: end.lent.shingle_list().len(),
        building,
        setup,
    }
}

/// How many shingles each stratum lists, from the highest down, as long as they open.
fn listings(asked: &Asked) -> Vec<usize> {
    let (theirs, own) = (read(&asked.theirs), read(&asked.own));
    let list = asked.end.lent.shingle_list();
    let levels = held(&asked.end.state).0.levels;
    let listing = |i: usize| open(i, levels, &theirs[i], &own[i], &list).ok();
    let listings = (0..STRATA).rev().map_while(listing);
    listings.map(|taken| taken.len()).collect()
}

/// Measures one estimate, which is compared with the reference's.
pub fn estimated(asked: &Asked) -> Estimated {
    let Asked {
        name,
        differ,
        end,
        theirs,
        own,
    } = asked;
    let answer = estimate(end, theirs, own);
    let expected = reference::rcds::rcds_strata_estimate(&end.state, &end.lent, theirs, own);
    assert_eq!(answer, expected, "a wrong estimate: {name}");
    let listings = listings(asked);
    let call = cost(|| {
        black_box(estimate(black_box(end), black_box(theirs), own));
    });
    Estimated {
        name: name.clone(),
        own: end.lent.shingle_list().len(),
        differ: *differ,
        opened: listings.len(),
        listed: listings.iter().sum(),
        answer,
        call,
        building: of_building(end),
    }
}
