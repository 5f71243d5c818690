//! What is lent, before it is bytes: an own list, and what the other end's strata have more than the own ones.

use super::zeros::{ending_in, of_stratum, ZERO_BITS};
use crate::openings::forged::{
    any_cells, forge, odd_list, of_one_pair, Forgery, Oddity, FORGERIES,
};
use crate::openings::lists::{add_part, list, shingle, some_of, MINUS};
use crate::random::Random;
use reference::opening::takings;
use reference::shingle::Shingle;
use reference::sketch::{part, places, plus, Cell};
use reference::strata::{build, stratum, STRATA, WIDTH};

/// The cells of each stratum.
pub type Strata = Vec<Vec<Cell>>;

/// L, the own list, and the difference.
pub struct Plan {
    pub levels: u64,
    pub list: Vec<Shingle>,
    /// Modulo 2^64, cell by cell.
    pub more: Strata,
}

/// Mostly short, some up to 1,000.
pub fn list_length(random: &mut Random) -> usize {
    match random.between(0, 19) {
        0 => random.by_size(60, 1_000) as usize,
        _ => random.between(0, 60) as usize,
    }
}

/// A sign: 1 or −1.
fn sign(random: &mut Random) -> u64 {
    random.one_of(&[1, MINUS])
}

/// Any stratum.
fn any_stratum(random: &mut Random) -> usize {
    random.between(0, STRATA as u64 - 1) as usize
}

impl Plan {
    /// A list of this length, sorted, and no difference.
    pub fn equal(length: usize, random: &mut Random) -> Plan {
        let levels = random.between(1, 4);
        Plan {
            levels,
            list: list(length, levels, random),
            more: build(&[]),
        }
    }

    /// A list of any length, and no difference.
    fn any(random: &mut Random) -> Plan {
        let length = list_length(random);
        Plan::equal(length, random)
    }

    /// Adds a shingle to its three cells in stratum i, so often.
    fn put(&mut self, i: usize, shingle: &Shingle, times: u64) {
        for place in places(shingle, WIDTH) {
            add_part(&mut self.more[i][place], &part(shingle), times);
        }
    }

    /// Adds cells to those of stratum i.
    fn add(&mut self, i: usize, cells: &[Cell]) {
        for (cell, more) in self.more[i].iter_mut().zip(cells) {
            *cell = plus(cell, more);
        }
    }

    /// A shingle that only one end has: a positive one, or a negative one, which comes to the list.
    fn differ(&mut self, shingle: &Shingle, times: u64) {
        self.put(stratum(shingle), shingle, times);
        if times == MINUS {
            self.list.push(*shingle);
        }
    }

    /// So many shingles that only one end has.
    pub fn difference(number: u64, random: &mut Random) -> Plan {
        let mut plan = Plan::any(random);
        for _ in 0..number {
            let shingle = shingle(plan.levels, random);
            plan.differ(&shingle, sign(random));
        }
        plan
    }

    /// One shingle for each of some numbers of zero bits, this one among them, that only one end has.
    pub fn zero_bits(zeros: u32, random: &mut Random) -> Plan {
        let mut plan = Plan::any(random);
        let first = ending_in(zeros, plan.levels, random);
        plan.differ(&first, sign(random));
        for zeros in ZERO_BITS {
            if random.between(0, 3) == 0 {
                let other = ending_in(zeros, plan.levels, random);
                plan.differ(&other, sign(random));
            }
        }
        plan
    }

    /// Makes stratum i one that opens. It may hold a shingle for each of the four triples of cells that there
    /// are at this width; most of those triples are of other strata, so that no list has all four there.
    fn open(&mut self, i: usize, random: &mut Random) {
        let mut triples = Vec::new();
        for _ in 0..random.one_of(&[0, 0, 1, 1, 1, 2, 3, 20]) {
            let one = match triples.is_empty() {
                true => of_stratum(i, self.levels, random),
                false => shingle(self.levels, random),
            };
            let cells = places(&one, WIDTH);
            if triples.contains(&cells) {
                continue;
            }
            triples.push(cells);
            match stratum(&one) == i && sign(random) == MINUS {
                true => self.differ(&one, MINUS),
                false => self.put(i, &one, 1),
            }
        }
    }

    /// Makes stratum i one that does not open.
    fn close(&mut self, i: usize, random: &mut Random) {
        let one = of_stratum(i, self.levels, random);
        match random.between(0, 5) {
            // Two shingles in the same cells, on one side or on both.
            0 | 1 => {
                let (first, other) = (sign(random), sign(random));
                self.differ(&one, first);
                self.differ(&self.beside(&one, random), other);
            }
            // One on the wrong side.
            2 => {
                self.list.push(one);
                self.put(i, &one, 1);
            }
            3 => self.put(i, &one, MINUS),
            // A forged one, or any cells.
            4 => {
                let forgery = random.one_of(&FORGERIES);
                let times = sign(random);
                forge(
                    forgery,
                    self.levels,
                    WIDTH,
                    times,
                    &mut self.more[i],
                    random,
                );
            }
            _ => {
                let any = any_cells(WIDTH, random);
                self.add(i, &any);
            }
        }
    }

    /// Another shingle of the same stratum and the same cells.
    fn beside(&self, one: &Shingle, random: &mut Random) -> Shingle {
        loop {
            let other = of_stratum(stratum(one), self.levels, random);
            if places(&other, WIDTH) == places(one, WIDTH) && other != *one {
                return other;
            }
        }
    }

    /// Those above stratum `first` open, it does not, and those below it may or not; with none of them all open.
    pub fn first_closed(first: Option<usize>, random: &mut Random) -> Plan {
        let mut plan = Plan::any(random);
        for i in 0..STRATA {
            let is_below = first.is_some_and(|first| i < first);
            match first == Some(i) || is_below && random.between(0, 1) == 0 {
                true => plan.close(i, random),
                false => plan.open(i, random),
            }
        }
        plan
    }

    /// One forged shingle, in its own stratum or in any, and few that differ.
    pub fn forged(forgery: Forgery, random: &mut Random) -> Plan {
        let few = random.between(0, 2);
        let mut plan = Plan::difference(few, random);
        let (times, mut cells) = (sign(random), vec![[0; 5]; 3 * WIDTH as usize]);
        let forged = forge(forgery, plan.levels, WIDTH, times, &mut cells, random);
        let i = match random.between(0, 2) {
            0 => any_stratum(random),
            _ => stratum(&forged),
        };
        plan.add(i, &cells);
        if times == MINUS && forged.count != 0 {
            plan.list.push(forged);
        }
        plan
    }

    /// A positive shingle that is in the own list, or a negative one that is not.
    pub fn wrong_side(random: &mut Random) -> Plan {
        let few = random.between(0, 3);
        let mut plan = Plan::difference(few, random);
        let mut wrong = shingle(plan.levels, random);
        if let Some(&own) = some_of(&plan.list, 1, random).first() {
            wrong = random.one_of(&[wrong, own]);
        }
        match sign(random) {
            MINUS => {
                // The list has the pair with another count, or not at all.
                wrong.count = wrong.count % 4_096 + 1;
                plan.put(stratum(&wrong), &wrong, MINUS);
            }
            _ => {
                if !plan.list.contains(&wrong) {
                    plan.list.push(wrong);
                }
                plan.put(stratum(&wrong), &wrong, 1);
            }
        }
        plan
    }

    /// A shingle of the own list, in the cells of a stratum that is not its own.
    pub fn other_stratum(random: &mut Random) -> Plan {
        let few = random.between(0, 2);
        let mut plan = Plan::difference(few, random);
        let any = any_stratum(random);
        let own = of_stratum(any, plan.levels, random);
        plan.list.push(own);
        let other = (any + random.between(1, STRATA as u64 - 1) as usize) % STRATA;
        let times = sign(random);
        plan.put(other, &own, times);
        plan
    }

    /// Sums of shingles of one pair, which may look like another of them, in the cells of one stratum. In half of
    /// the cases the list has what will be taken as negative.
    pub fn false_singles(random: &mut Random) -> Plan {
        let mut plan = Plan::any(random);
        let signed = of_one_pair(plan.levels, random);
        let i = stratum(&signed[0].0);
        for (shingle, times) in &signed {
            plan.put(i, shingle, *times);
        }
        if random.between(0, 1) == 0 {
            let taken = takings(&plan.more[i], plan.levels, WIDTH).taken;
            let negative = taken.iter().filter(|taken| taken.negative);
            plan.list.extend(negative.map(|taken| taken.shingle));
        }
        plan
    }

    /// Pairs of the own list that the other end has with another count too.
    pub fn pair_twice(random: &mut Random) -> Plan {
        let length = 1 + list_length(random);
        let mut plan = Plan::equal(length, random);
        let few = random.between(1, 2) as usize;
        for own in some_of(&plan.list, few, random) {
            let count = match random.between(0, 1) {
                0 => own.count % 4_096 + 1,
                _ => random.between(1, 4_096),
            };
            let times = sign(random);
            plan.differ(&Shingle { count, ..own }, times);
        }
        plan
    }

    /// Shingles that only one end has, and an own one that the other end has twice: over a list that is cut off before
    /// some of them, negative ones are no longer own, and that positive one may not be.
    pub fn ended(random: &mut Random) -> Plan {
        let few = random.between(0, 2);
        let mut plan = Plan::difference(few, random);
        let own = shingle(plan.levels, random);
        plan.list.push(own);
        if random.between(0, 1) == 0 {
            plan.put(stratum(&own), &own, 1);
        }
        plan
    }

    /// Cells of any content: in all strata, or from one on down, above which all open.
    pub fn any_cells(random: &mut Random) -> Plan {
        let first = any_stratum(random);
        let mut plan = Plan::first_closed(Some(first), random);
        let from = random.one_of(&[first, STRATA - 1]);
        for cells in &mut plan.more[..=from] {
            *cells = any_cells(WIDTH, random);
        }
        plan
    }

    /// A list as no setup leaves it. Some of what is odd, and some of the rest, is gone, or something is new.
    pub fn odd(oddity: Oddity, random: &mut Random) -> Plan {
        let mut plan = Plan::equal(0, random);
        let length = 1 + list_length(random);
        let (list, odd) = odd_list(oddity, length, plan.levels, random);
        let rest = some_of(&list, 1, random);
        for gone in odd.iter().chain(&rest) {
            if random.between(0, 2) == 0 {
                plan.put(stratum(gone), gone, MINUS);
            }
        }
        if random.between(0, 2) == 0 {
            let new = shingle(plan.levels, random);
            plan.put(stratum(&new), &new, 1);
        }
        plan.list = list;
        plan
    }

    /// A list of so many shingles, in every other case all of one stratum, and few that differ.
    pub fn long(length: usize, random: &mut Random) -> Plan {
        let mut plan = Plan::equal(0, random);
        let levels = plan.levels;
        let zeros = random.between(0, 2) as u32;
        let one_stratum = random.between(0, 1) == 0;
        let draw = |random: &mut Random| match one_stratum {
            true => ending_in(zeros, levels, random),
            false => shingle(levels, random),
        };
        plan.list = (0..length).map(|_| draw(random)).collect();
        plan.list.sort();
        // Any is gone, or the last, which in a longer table comes after 4,096 others.
        let gone = [random.one_of(&plan.list), plan.list[length - 1]];
        let gone = random.one_of(&gone);
        if random.between(0, 1) == 0 {
            plan.put(stratum(&gone), &gone, MINUS);
        }
        for _ in 0..random.between(0, 2) {
            let new = draw(random);
            plan.put(stratum(&new), &new, 1);
        }
        plan
    }

    /// The own strata: those of the list, or any; only what the other's have more is looked at.
    pub fn own(&self, random: &mut Random) -> Strata {
        match random.between(0, 3) {
            0 => (0..STRATA).map(|_| any_cells(WIDTH, random)).collect(),
            _ => build(&self.list),
        }
    }

    /// The other end's, over these own ones.
    pub fn theirs(&self, own: &Strata) -> Strata {
        let stratum = |i: usize| {
            let cells = own[i].iter().zip(&self.more[i]);
            cells.map(|(own, more)| plus(own, more)).collect()
        };
        (0..STRATA).map(stratum).collect()
    }
}
