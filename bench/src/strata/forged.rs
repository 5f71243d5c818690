//! What a hostile sender or a spoilt list may cost: every stratum opens and lists as many as it can, over a
//! list of 4,096 that is searched to its end.

use super::ends::set_up;
use super::lists::{settings, strata, Asked};
use conformance::random::Random;
use reference::shingle::Shingle;
use reference::shingle_table;
use reference::sketch::{minus, places, plus, sketch, Cell};
use reference::strata::{read, stratum, write, STRATA, TABLE_BYTES, WIDTH};

/// The shingles of the own list.
const OWN: usize = 4_096;

/// The level of the own list, and that of the shingles that are listed, so that they sort after it.
const OWN_LEVEL: u64 = 3;
const LISTED_LEVEL: u64 = 4;

/// So many random shingles of a level, sorted. All have the previous id that is given, or each its own.
fn random_list(number: usize, level: u64, id: Option<u64>, random: &mut Random) -> Vec<Shingle> {
    let shingle = |_| Shingle {
        level,
        previous: id.unwrap_or_else(|| random.number()),
        own: random.number(),
        count: 1,
    };
    let mut list: Vec<Shingle> = (0..number).map(shingle).collect();
    list.sort();
    list
}

/// What one stratum lists.
#[derive(Default)]
struct Listed {
    /// Shingles of the stratum, for which the own list is searched.
    searched: Vec<Shingle>,
    /// Shingles of other strata, for which it is not.
    others: Vec<Shingle>,
}

/// As many shingles as stratum i can list. With width 4 a shingle lies in one of four threes of cells, which
/// have none in common, and a stratum that opens lists one of each three. Those of the stratum itself lie in
/// two threes of stratum 0, and in one of each other.
fn listed(i: usize, id: Option<u64>, random: &mut Random) -> Listed {
    let of_stratum = if i == 0 { 2 } else { 1 };
    let three = |shingle: &Shingle| places(shingle, WIDTH)[0];
    let mut listed = Listed::default();
    let mut free = [true; WIDTH as usize];
    for k in 0..free.len() {
        let wanted = k < of_stratum;
        let mut tries = (0..).map(|_| random_list(1, LISTED_LEVEL, id, random)[0]);
        let fits = |one: &Shingle| free[three(one)] && (stratum(one) == i) == wanted;
        let one = tries.find(fits).expect("one that fits");
        free[three(&one)] = false;
        match wanted {
            true => listed.searched.push(one),
            false => listed.others.push(one),
        }
    }
    listed
}

/// Cells with those of a list added, or subtracted.
fn with(cells: &[Cell], list: &[Shingle], operation: fn(&Cell, &Cell) -> Cell) -> Vec<Cell> {
    let more = sketch(list, WIDTH);
    let both = cells.iter().zip(&more);
    both.map(|(a, b)| operation(a, b)).collect()
}

/// Where `gone` is true, those that are searched for stand at the end of the own list, and the sender has
/// them not; else only the sender has them. The others are the sender's.
fn forged(name: &str, id: Option<u64>, gone: bool) -> Asked {
    let mut random = Random::of_case(13, 13);
    let all: Vec<Listed> = (0..STRATA).map(|i| listed(i, id, &mut random)).collect();
    let searched = all.iter().flat_map(|listed| &listed.searched);
    let mut last: Vec<Shingle> = searched.filter(|_| gone).copied().collect();
    last.sort();
    let mut list = random_list(OWN - last.len(), OWN_LEVEL, id, &mut random);
    list.extend(last);
    let mut end = set_up(&settings([8, 8, 4, 8_192]), &[]).expect("an empty string");
    shingle_table::write(&list, &mut end.lent.shingles);
    let own = strata(&end);
    let theirs = read(&own).into_iter().zip(&all).map(|(cells, listed)| {
        let cells = with(&cells, &listed.others, plus);
        with(&cells, &listed.searched, if gone { minus } else { plus })
    });
    let mut table = vec![0; TABLE_BYTES];
    write(&theirs.collect::<Vec<_>>(), &mut table);
    Asked {
        name: format!("forged, {name}"),
        differ: all
            .iter()
            .map(|listed| listed.searched.len() + listed.others.len())
            .sum(),
        end,
        theirs: table,
        own,
    }
}

/// All of them.
pub fn all() -> [Asked; 3] {
    [
        forged("all new", None, false),
        forged("own ones gone from the list's end", None, true),
        forged("all new, one previous id", Some(7), false),
    ]
}
