//! What two tables of strata and the own list estimate, a second time, with a fault.

use super::*;

/// The cells of a difference, and what has been taken from them: shingles, and whether they are negative.
struct Peeling {
    fault: u8,
    levels: u64,
    cells: Vec<[u64; 5]>,
    taken: Vec<(Shingle, bool)>,
}

impl Peeling {
    /// The shingle of a cell and whether it is negative, if the cell is single, and what the cell holds.
    fn single(&self, i: usize) -> Option<(Shingle, bool, [u64; 5])> {
        let fault = self.fault;
        let mut cell = self.cells[i];
        let negative = cell[0] == u64::MAX;
        if cell[0] != 1 && !negative || negative && fault == POSITIVE_SINGLES_ONLY {
            return None;
        }
        if negative {
            cell = cell.map(|sum| sum.wrapping_neg());
        }
        let tail = match fault {
            TAIL_LOW_32_BITS => cell[3] & 0xffff_ffff,
            _ => cell[3],
        };
        let shingle = Shingle {
            level: tail >> 16,
            previous: cell[1],
            own: cell[2],
            count: tail & 0xffff,
        };
        if tail >> 32 != 0 || !self.is_allowed(&shingle) {
            return None;
        }
        let fits = match fault {
            CHECK_NOT_ASKED => true,
            CHECK_LOW_32_BITS => f(3, &shingle) as u32 == cell[4] as u32,
            _ => f(3, &shingle) == cell[4],
        };
        let lies = places(&shingle, 4).contains(&i) || fault == PLACE_NOT_ASKED;
        (fits && lies).then_some((shingle, negative, cell))
    }

    /// Whether level and count are.
    fn is_allowed(&self, shingle: &Shingle) -> bool {
        let last = match self.fault {
            LEVEL_NOT_ASKED => 0xffff,
            LEVEL_4_ALWAYS => 4,
            LEVEL_LAST_REFUSED => self.levels - 1,
            _ => self.levels,
        };
        let counts = match self.fault {
            COUNT_0 => 0..=4_096,
            COUNT_4097 => 1..=4_097,
            COUNT_4096_REFUSED => 1..=4_095,
            _ => 1..=4_096,
        };
        shingle.level <= last && counts.contains(&shingle.count)
    }

    /// Takes single cells, as many as may be.
    fn take_all(&mut self) {
        let most = match self.fault {
            TAKINGS_3 => 3,
            TAKINGS_4 => 4,
            TAKINGS_11 => 11,
            _ => 12,
        };
        for _ in 0..most {
            let found = match self.fault {
                HIGHEST_CELL_FIRST => (0..12).rev().find_map(|i| self.single(i)),
                _ => (0..12).find_map(|i| self.single(i)),
            };
            let Some((shingle, negative, held)) = found else {
                return;
            };
            // A function that does not ask for a part of the cell takes what the cell holds.
            for place in places(&shingle, 4) {
                for (sum, value) in self.cells[place].iter_mut().zip(held) {
                    *sum = match negative {
                        false => sum.wrapping_sub(value),
                        true => sum.wrapping_add(value),
                    };
                }
            }
            self.taken.push((shingle, negative));
        }
    }

    /// Whether nothing is left.
    fn is_empty(&self) -> bool {
        let cells = match self.fault {
            LAST_CELL_NOT_ASKED => &self.cells[..11],
            _ => &self.cells[..],
        };
        cells.iter().all(|cell| match self.fault {
            LEFT_NOT_ASKED => true,
            NUMBERS_LEFT_ONLY => cell[0] == 0,
            CHECKS_LEFT_NOT_ASKED => cell[..4] == [0; 4],
            _ => *cell == [0; 5],
        })
    }

    /// Whether a shingle was taken twice, whatever the signs.
    fn has_one_twice(&self) -> bool {
        let again = |k: usize| self.taken[..k].iter().any(|one| one.0 == self.taken[k].0);
        self.fault != TWICE_NOT_ASKED && (0..self.taken.len()).any(again)
    }

    /// Positive or negative ones.
    fn of_sign(&self, negative: bool) -> impl Iterator<Item = &Shingle> {
        let of_sign = move |taken: &&(Shingle, bool)| taken.1 == negative;
        self.taken
            .iter()
            .filter(of_sign)
            .map(|(shingle, _)| shingle)
    }

    /// An own list with what was taken.
    fn renewed(&self, own: &[Shingle]) -> Vec<Shingle> {
        let mut list = own.to_vec();
        list.retain(|shingle| !self.of_sign(true).any(|gone| gone == shingle));
        list.extend(self.of_sign(false));
        list
    }
}

/// Whether a list has a shingle.
fn has(fault: u8, list: &[Shingle], shingle: &Shingle, by_pair: bool) -> bool {
    match (fault, by_pair) {
        (OWN_LIST_TAKEN_AS_SORTED, _) => list.binary_search(shingle).is_ok(),
        (_, true) => list.iter().any(|other| other.pair() == shingle.pair()),
        _ => list.contains(shingle),
    }
}

/// Whether what was taken goes with the own shingles: those of the stratum, and all.
fn fits(peeling: &Peeling, own: &[Shingle], all: &[Shingle]) -> bool {
    let fault = peeling.fault;
    let negative = peeling.of_sign(true).all(|shingle| match fault {
        NEGATIVE_NOT_ASKED => true,
        NEGATIVE_OF_ANY_STRATUM => all.contains(shingle),
        _ => has(fault, own, shingle, fault == NEGATIVE_BY_PAIR),
    });
    let positive = peeling.of_sign(false).all(|shingle| match fault {
        POSITIVE_NOT_ASKED => true,
        POSITIVE_OF_ANY_STRATUM => !all.contains(shingle),
        _ => !has(fault, own, shingle, fault == POSITIVE_BY_PAIR),
    });
    let has_pair_twice = |list: Vec<Shingle>| {
        let mut pairs: Vec<_> = list.iter().map(Shingle::pair).collect();
        pairs.sort();
        pairs.windows(2).any(|two| two[0] == two[1])
    };
    let asked_in_vain = match fault {
        SIZE_OF_THE_STRATUM_ASKED => peeling.renewed(own).len() > 4_096,
        SIZE_OF_THE_LIST_ASKED => peeling.renewed(all).len() > 4_096,
        PAIRS_OF_THE_STRATUM_ASKED => has_pair_twice(peeling.renewed(own)),
        PAIRS_OF_THE_LIST_ASKED => has_pair_twice(peeling.renewed(all)),
        _ => false,
    };
    negative && positive && !asked_in_vain
}

/// What a stratum adds to the sum, and whether it opens.
fn listed(peeling: &Peeling, i: usize, all: &[Shingle]) -> (u64, bool) {
    let fault = peeling.fault;
    let of_stratum = |shingle: &Shingle| stratum(fault, shingle) == i;
    let own: Vec<Shingle> = all.iter().filter(|one| of_stratum(one)).copied().collect();
    let of_others = peeling
        .taken
        .iter()
        .any(|(shingle, _)| !of_stratum(shingle));
    let opens = peeling.is_empty()
        && !peeling.has_one_twice()
        && fits(peeling, &own, all)
        && !(fault == STRATUM_OF_THE_TAKEN_ASKED && of_others);
    let count = match fault {
        POSITIVE_COUNTED_ONLY => peeling.of_sign(false).count(),
        NEGATIVE_COUNTED_ONLY => peeling.of_sign(true).count(),
        NEW_LISTS_COUNTED => peeling.renewed(&own).len(),
        _ => peeling.taken.len(),
    };
    (count as u64, opens)
}

/// Their cells less the own ones, a stratum's 12 after the other's.
fn difference(
    fault: u8,
    levels: u64,
    theirs: &[u8],
    own: &[u8],
    list: &[Shingle],
) -> Vec<[u64; 5]> {
    let [theirs, mut own] = [theirs, own].map(|table| {
        let mut rows = rows(table);
        // A function that does not ask how long a table is reads less than there should be.
        rows.resize(rows.len().max(5 * 16 * 12), 0);
        rows
    });
    if fault == OWN_STRATA_OF_THE_LIST {
        own = cells_of(fault, levels, list).0.concat();
    }
    let less = |k: usize| match fault {
        OWN_LESS_THEIRS => own[k].wrapping_sub(theirs[k]),
        _ => theirs[k].wrapping_sub(own[k]),
    };
    let mut cells = Vec::new();
    for cell in 0..16 * 12 {
        let at = 5 * cell_of(fault, cell / 12, cell % 12);
        let mut sums = [0, 1, 2, 3, 4].map(|sum| less(at + sum));
        if fault == NUMBER_32_BITS {
            sums[0] = sums[0] as i32 as u64;
        }
        cells.push(sums);
    }
    cells
}

/// `rcds_strata_estimate` with one fault.
pub fn estimate(fault: u8, end: &End, theirs: &[u8], own: &[u8]) -> u64 {
    if let Some(question) = refused(fault, end, &[theirs.len(), own.len()]) {
        return question;
    }
    let (levels, list) = (settings(fault, end[0])[2], list(fault, end));
    let cells = difference(fault, levels, theirs, own, &list);
    let accepted = match fault {
        ESTIMATE_WITHOUT_2_32 => 0,
        _ => 1 << 32,
    };
    let mut order: Vec<usize> = (0..16).rev().collect();
    match fault {
        FROM_0_UP => order.reverse(),
        FROM_14_DOWN => drop(order.remove(0)),
        _ => {}
    }
    let mut sum = 0;
    for i in order {
        let mut peeling = Peeling {
            fault,
            levels,
            cells: cells[12 * i..12 * (i + 1)].to_vec(),
            taken: Vec::new(),
        };
        peeling.take_all();
        let (count, opens) = listed(&peeling, i, &list);
        sum += match opens || fault == CLOSED_COUNTED {
            true => count,
            false => 0,
        };
        if !opens && fault != CLOSED_SKIPPED {
            return accepted + times(fault, sum, i);
        }
    }
    accepted + sum * if fault == ALL_OPEN_DOUBLED { 2 } else { 1 }
}

/// The estimate where stratum i does not open.
fn times(fault: u8, sum: u64, i: usize) -> u64 {
    match fault {
        TIMES_2_I => sum << i,
        TIMES_2_I_PLUS_2 => sum << (i + 2),
        NO_FACTOR => sum,
        _ => sum << (i + 1),
    }
}
