//! One call and one comparison.

use super::cases::{Case, Tables};
use crate::clock::timed;
use crate::failure::{Difference, Failure};
use crate::lent::{for_reading, is_shared, Lent};
use crate::random::Random;
use reference::opening::{closed, difference, single, takings, Closed, NotSingle};
use reference::rcds::{rcds_strata_build, rcds_strata_estimate, ACCEPTED};
use reference::sender::held;
use reference::shingle::Shingle;
use reference::sketch::{f, Cell};
use reference::strata::{of_stratum, open, read, stratum, STRATA, TABLE_BYTES, WIDTH};
use std::collections::BTreeSet;

/// `rcds_strata_build` as C declares it.
pub type StrataBuild = unsafe extern "C" fn(
    *const u8,
    usize,
    *const u8,
    usize,
    *const u8,
    usize,
    *const u8,
    usize,
    *const u8,
    usize,
    *mut u8,
    usize,
) -> u64;

/// `rcds_strata_estimate` as C declares it.
pub type StrataEstimate = unsafe extern "C" fn(
    *const u8,
    usize,
    *const u8,
    usize,
    *const u8,
    usize,
    *const u8,
    usize,
    *const u8,
    usize,
    *const u8,
    usize,
    *const u8,
    usize,
) -> u64;

/// Both.
#[derive(Clone, Copy)]
pub struct Calls {
    pub build: StrataBuild,
    pub estimate: StrataEstimate,
}

/// What a case came to.
#[derive(Debug)]
pub struct Done {
    pub answer: u64,
    /// Whether two of the pieces lent for reading stand in one memory.
    pub shared: bool,
    pub outcome: Outcome,
}

/// What a call was about.
#[derive(Debug)]
pub enum Outcome {
    Refused(Refused),
    Built(Built),
    Estimated(Estimated),
}

/// Why a call was refused.
#[derive(Debug)]
pub struct Refused {
    /// Every question that has a no, the answer's first.
    pub noes: Vec<u64>,
    /// Which table of strata is too short, if nothing else is amiss: the only one or the other end's, or the own.
    pub strata_alone: Option<usize>,
}

/// The strata of a list.
#[derive(Debug)]
pub struct Built {
    pub shingles: usize,
    /// How many zero bits F(3) ends in, of each shingle.
    pub zeros: BTreeSet<u32>,
    /// The bytes of the table after its cells.
    pub past: usize,
}

/// What was found in the strata, down to the first that does not open.
#[derive(Debug, Default)]
pub struct Estimated {
    pub first_closed: Option<usize>,
    /// Why that one does not open.
    pub closed: Vec<Closed>,
    /// Of its cells that are left with number 1 or −1: why one is not single, where that is the only reason.
    pub not_single: BTreeSet<NotSingle>,
    /// Whether 12 were taken from it.
    pub all_takings: bool,
    /// Positive and negative shingles of those that open, and how many zero bits their F(3) ends in.
    pub positive: usize,
    pub negative: usize,
    pub zeros: BTreeSet<u32>,
    /// The most that one of them lists.
    pub most: usize,
    /// Whether one of them lists a shingle that is of another stratum, and one that is own there.
    pub foreign: bool,
    pub foreign_own: bool,
    /// Whether one of them opens though its new list has more than 4,096 shingles, or a pair twice at one level.
    pub too_many: bool,
    pub pair_twice: bool,
}

/// Runs a case through the call and through the reference. What it came to, if all is equal.
pub fn compare(case: &Case, calls: Calls) -> Result<Done, Failure> {
    let failure = |call: &'static str| {
        move |difference| Failure {
            call,
            seed: case.seed,
            number: case.number,
            case: case.to_string(),
            difference,
        }
    };
    let mut random = Random::of_case(case.seed ^ 1, case.number);
    let random = &mut random;
    match &case.tables {
        Tables::Build { strata } => {
            call_build(case, strata, calls.build, random).map_err(failure("rcds_strata_build"))
        }
        Tables::Estimate { theirs, own } => {
            call_estimate(case, theirs, own, calls.estimate, random)
                .map_err(failure("rcds_strata_estimate"))
        }
    }
}

/// The first pieces of a case, so many, all of them lent for reading.
fn lend<const N: usize>(case: &Case, random: &mut Random) -> [Lent; N] {
    let pieces = case.pieces();
    std::array::from_fn(|k| {
        let (name, bytes) = pieces[k];
        Lent::new(name, bytes, case.shifts[k], random)
    })
}

fn call_build(
    case: &Case,
    before: &[u8],
    function: StrataBuild,
    random: &mut Random,
) -> Result<Done, Difference> {
    let mut end: [Lent; 5] = lend(case, random);
    let mut strata = Lent::new("table of strata", before, case.shifts[5], random);
    let read = for_reading(end.each_mut());
    let length = end.each_ref().map(Lent::length);
    // All pieces are there in full, and the one for writing stands in memory of its own.
    let given = timed(|| unsafe {
        function(
            read[0],
            length[0],
            read[1],
            length[1],
            read[2],
            length[2],
            read[3],
            length[3],
            read[4],
            length[4],
            strata.pointer(),
            strata.length(),
        )
    });
    let mut expected_strata = before.to_vec();
    let expected = rcds_strata_build(&case.state, &case.lent, &mut expected_strata);
    if given != expected {
        return Err(Difference::Answer { expected, given });
    }
    strata.expect(&expected_strata)?;
    end.iter().try_for_each(Lent::expect_unchanged)?;
    Ok(done(case, given, is_shared(&read)))
}

fn call_estimate(
    case: &Case,
    theirs: &[u8],
    own: &[u8],
    function: StrataEstimate,
    random: &mut Random,
) -> Result<Done, Difference> {
    let mut all: [Lent; 7] = lend(case, random);
    let read = for_reading(all.each_mut());
    let length = all.each_ref().map(Lent::length);
    // All pieces are there in full.
    let given = timed(|| unsafe {
        function(
            read[0], length[0], read[1], length[1], read[2], length[2], read[3], length[3],
            read[4], length[4], read[5], length[5], read[6], length[6],
        )
    });
    let expected = rcds_strata_estimate(&case.state, &case.lent, theirs, own);
    if given != expected {
        return Err(Difference::Answer { expected, given });
    }
    all.iter().try_for_each(Lent::expect_unchanged)?;
    Ok(done(case, given, is_shared(&read)))
}

/// What the case came to, from the reference.
fn done(case: &Case, answer: u64, shared: bool) -> Done {
    let outcome = match &case.tables {
        _ if (1..ACCEPTED).contains(&answer) => Outcome::Refused(refused(case)),
        Tables::Build { strata } => Outcome::Built(built(case, strata)),
        Tables::Estimate { theirs, own } => Outcome::Estimated(estimated(case, theirs, own)),
    };
    Done {
        answer,
        shared,
        outcome,
    }
}

fn refused(case: &Case) -> Refused {
    let noes = case.noes();
    let short = case.tables.short();
    let one = short.iter().filter(|short| **short).count() == 1;
    let alone = one && !case.short().contains(&true) && noes == [7];
    let which = short.iter().position(|short| *short);
    Refused {
        noes,
        strata_alone: which.filter(|_| alone),
    }
}

fn built(case: &Case, table: &[u8]) -> Built {
    let list = case.lent.shingle_list();
    let zeros = list.iter().map(|shingle| f(3, shingle).trailing_zeros());
    Built {
        shingles: list.len(),
        zeros: zeros.collect(),
        past: table.len() - TABLE_BYTES,
    }
}

fn estimated(case: &Case, theirs: &[u8], own: &[u8]) -> Estimated {
    let levels = held(&case.state).0.levels;
    let list = case.lent.shingle_list();
    let (theirs, own) = (read(theirs), read(own));
    let mut found = Estimated::default();
    for i in (0..STRATA).rev() {
        let difference = difference(&theirs[i], &own[i]);
        match open(i, levels, &theirs[i], &own[i], &list) {
            Ok(_) => found.opened(i, levels, &difference, &list),
            Err(closed) => {
                found.first_closed = Some(i);
                found.closed = closed;
                found.left(levels, &difference);
                break;
            }
        }
    }
    found
}

impl Estimated {
    /// Adds what stratum i, which opens, lists.
    fn opened(&mut self, i: usize, levels: u64, difference: &[Cell], list: &[Shingle]) {
        let takings = takings(difference, levels, WIDTH);
        let dropped = closed(&takings, &of_stratum(list, i));
        self.too_many |= dropped.contains(&Closed::TooMany);
        self.pair_twice |= dropped.contains(&Closed::PairTwice);
        self.most = self.most.max(takings.taken.len());
        for taken in takings.taken {
            self.negative += usize::from(taken.negative);
            self.positive += usize::from(!taken.negative);
            self.zeros.insert(f(3, &taken.shingle).trailing_zeros());
            let foreign = stratum(&taken.shingle) != i;
            self.foreign |= foreign;
            self.foreign_own |= foreign && list.contains(&taken.shingle);
        }
    }

    /// What is left of a stratum that does not open.
    fn left(&mut self, levels: u64, difference: &[Cell]) {
        let takings = takings(difference, levels, WIDTH);
        self.all_takings = takings.taken.len() == difference.len();
        for (i, cell) in takings.left.iter().enumerate() {
            match single(cell, i, levels, WIDTH) {
                Err(amiss) if amiss.len() == 1 => drop(self.not_single.insert(amiss[0])),
                _ => {}
            }
        }
    }
}
