//! Two shingle lists, their strata, and the estimate beside what is true.

use super::packed::{is_of_copies, STRATUM};
use crate::calls::{sketch_open, strata_build, strata_estimate, End, STRATA_BYTES};
use crate::settings::list;
use crate::widths::{cells, table};
use std::collections::HashSet;

/// Two lists with their strata.
pub struct Pair {
    levels: u64,
    pub theirs: Vec<[u64; 3]>,
    pub own: Vec<[u64; 3]>,
    /// The sender's table of strata, and the receiver's.
    pub strata: [Vec<u8>; 2],
    /// How many shingles one of the lists has and the other has not.
    pub differences: usize,
    /// How many the receiver estimates.
    pub estimate: usize,
}

/// The strata of an end. A table that holds anything but copies of 17 cells stops the program.
fn strata(end: &End) -> Vec<u8> {
    let mut table = vec![0; STRATA_BYTES];
    strata_build(end, &mut table).expect("strata of an end that is set up");
    assert!(is_of_copies(&table), "strata of other cells");
    table
}

impl Pair {
    /// Of two ends as their setups left them.
    pub fn new(levels: u64, sender: &End, receiver: &End) -> Pair {
        let [theirs, own] = [sender, receiver].map(|end| list(&end.shingles));
        let [a, b] = [&theirs, &own].map(|list| list.iter().collect::<HashSet<_>>());
        let differences = a.symmetric_difference(&b).count();
        let strata = [sender, receiver].map(strata);
        let estimate = strata_estimate(receiver, &strata[0], &strata[1]);
        Pair {
            levels,
            theirs,
            own,
            strata,
            differences,
            estimate: estimate.expect("an estimate of ends that are set up"),
        }
    }

    /// Whether the two tables of strata are equal.
    pub fn has_equal_tables(&self) -> bool {
        self.strata[0] == self.strata[1]
    }

    /// The estimate; where it is 0 and the tables differ, 2^(i+1) stands in for it, i being the highest
    /// stratum in which they do.
    pub fn with_stand_in(&self) -> usize {
        let [theirs, own] = &self.strata;
        let mut both = theirs.chunks(STRATUM).zip(own.chunks(STRATUM));
        match (self.estimate, both.rposition(|(a, b)| a != b)) {
            (0, Some(highest)) => 2 << highest,
            (estimate, _) => estimate,
        }
    }

    /// Whether a sketch of this width opens to the sender's list.
    pub fn opens(&self, width: u64) -> bool {
        let [a, b] = [&self.theirs, &self.own].map(|list| cells(width, list));
        let mut opened = table(&self.own);
        let answer = sketch_open(self.levels, width, &a, &b, &mut opened);
        answer.is_ok() && opened == table(&self.theirs)
    }
}
