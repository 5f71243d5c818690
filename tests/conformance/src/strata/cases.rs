//! The cases: a state, what is lent of an end, and one or two tables of strata, each made from the seed and
//! the case's number alone.

use super::altered::{self, PIECES};
use super::plans::{list_length, Plan, Strata};
use super::states::{self, LENGTHS};
use super::zeros::ZERO_BITS;
use crate::content::{self, KINDS};
use crate::failure::first_bytes;
use crate::openings::forged::{Forgery, Oddity, FORGERIES, ODDITIES};
use crate::openings::lists::{edited, table};
use crate::random::{family_of, together, Random};
use crate::replies::setup::Sender;
use crate::settings::{any_length, with_nominal};
use reference::lent::Lent;
use reference::opening::MOST_SHINGLES;
use reference::questions;
use reference::sender::held;
use reference::shingle::shingles;
use reference::shingle_table;
use reference::strata::{build, write, STRATA, TABLE_BYTES};
use reference::tree::tree;
use reference::vectors::{ruler, FULL_RULER, RULED};
use std::fmt;

/// One call.
pub struct Case {
    pub seed: u64,
    pub number: usize,
    pub family: Family,
    pub state: Vec<u8>,
    pub lent: Lent,
    pub tables: Tables,
    /// How far the lent pieces are moved in memory, so that most of them are not aligned.
    pub shifts: [usize; 7],
}

/// The tables of strata, and so which call is made.
pub enum Tables {
    /// What the table holds before it.
    Build {
        strata: Vec<u8>,
    },
    Estimate {
        theirs: Vec<u8>,
        own: Vec<u8>,
    },
}

impl Tables {
    /// The lengths of the tables.
    fn lengths(&self) -> Vec<usize> {
        match self {
            Tables::Build { strata } => vec![strata.len()],
            Tables::Estimate { theirs, own } => vec![theirs.len(), own.len()],
        }
    }

    /// Which of them are too short for 192 cells.
    pub fn short(&self) -> Vec<bool> {
        let lengths = self.lengths().into_iter();
        lengths.map(|length| length < TABLE_BYTES).collect()
    }
}

impl Case {
    /// Every piece that is lent.
    pub fn pieces(&self) -> Vec<(&'static str, &[u8])> {
        let mut pieces: Vec<(&str, &[u8])> = vec![
            ("state", &self.state),
            ("string", &self.lent.string),
            ("node table", &self.lent.nodes),
            ("shingle table", &self.lent.shingles),
            ("cell table", &self.lent.cells),
        ];
        match &self.tables {
            Tables::Build { strata } => pieces.push(("table of strata", strata)),
            Tables::Estimate { theirs, own } => {
                pieces.extend([("other end's strata", &theirs[..]), ("own strata", own)]);
            }
        }
        pieces
    }

    /// Which of the tables that a setup leaves are too short: of nodes, of shingles, of cells. Cells are asked for
    /// after 5 had a yes.
    pub fn short(&self) -> [bool; 3] {
        let (_, width) = held(&self.state);
        let cells = questions::cell_table_allowed(&self.lent.cells, width.min(64));
        [
            !questions::node_table_allowed(&self.lent.nodes),
            !questions::shingle_table_allowed(&self.lent.shingles),
            !cells,
        ]
    }

    /// Every question from 1 to 7 that has a no, whatever is asked before it. 4 is asked for p^L where 2 and 3 have a
    /// yes, else for 65,536 alone.
    pub fn noes(&self) -> Vec<u64> {
        let (settings, width) = held(&self.state);
        let fan_out = questions::fan_out_allowed(&settings);
        let levels = questions::levels_allowed(settings.levels);
        let nominal = match fan_out && levels {
            true => questions::nominal_allowed(&settings),
            false => settings.nominal <= 65_536,
        };
        let short = [&self.short()[..], &self.tables.short()].concat();
        let asked = [
            questions::window_allowed(&settings),
            fan_out,
            levels,
            nominal,
            questions::width_allowed(width),
            questions::string_allowed(&self.lent.string),
            !short.contains(&true),
        ];
        (1..)
            .zip(asked)
            .filter(|(_, yes)| !yes)
            .map(|(k, _)| k)
            .collect()
    }
}

impl fmt::Display for Case {
    fn fmt(&self, f: &mut fmt::Formatter) -> fmt::Result {
        let (settings, width) = held(&self.state);
        writeln!(
            f,
            "{:?}, state of {} bytes, string of {}, tables of {}, {} and {}, of strata {:?}",
            self.family,
            self.state.len(),
            self.lent.string.len(),
            self.lent.nodes.len(),
            self.lent.shingles.len(),
            self.lent.cells.len(),
            self.tables.lengths(),
        )?;
        writeln!(
            f,
            "w={} p={} levels={} nominal={} width={}",
            settings.window, settings.fan_out, settings.levels, settings.nominal, width,
        )?;
        write!(f, "the shingles:{}", first_bytes(&self.lent.shingles, 72))
    }
}

/// What a case is.
#[derive(Clone, Copy, Debug, PartialEq, Eq, PartialOrd, Ord)]
pub enum Family {
    /// Setups of either end over a string, every w, p and L that is allowed, and the string with some bytes changed.
    Strings,
    /// Strings of thousands of nodes.
    ManyNodes,
    /// No difference.
    Equal,
    /// Up to four shingles that only one end has.
    FewDiffer,
    /// Up to 60.
    Difference,
    /// Each stratum in turn as the first that does not open, and none.
    FirstClosed,
    /// Shingles whose F(3) ends in 0, 1, 14, 15, 16, 63 or 64 zero bits.
    ZeroBits,
    /// One shingle that is forged.
    Forged(Forgery),
    /// A positive shingle that is in the own list, or a negative one that is not.
    WrongSide,
    /// A shingle of the own list in the cells of another stratum.
    OtherStratum,
    /// Sums of shingles that may look like another one.
    FalseSingles,
    /// Pairs that the two ends have with different counts, one of them with both.
    PairTwice,
    /// Cells of any content, from a stratum on down or in all.
    AnyCells,
    /// Tables of any bytes.
    AnyBytes,
    /// Tables of two lists with rows changed, or cells or strata exchanged.
    AlteredRows,
    /// A list that no setup leaves.
    Odd(Oddity),
    /// A list that is cut off by a count 0, with entries after it.
    Ended,
    /// About 4,096 shingles, and in a longer table more.
    Long,
    /// States with settings at or past the ends of what 1 to 5 allow.
    EdgeStates,
    /// States of 0 to 48 bytes, and of lengths around a receiver's.
    StateLengths,
    /// One piece of a size around its limit, or much shorter or longer.
    OneSize,
    /// State, string and tables, several of which are refused.
    Several,
}

/// The families, and how many cases each has; each forgery and each oddity has as many as it says.
const FAMILIES: [(Family, usize); 20] = [
    (Family::Strings, 2 * 11 * 7 * 4 * 3),
    (Family::ManyNodes, 40),
    (Family::Equal, 600),
    (Family::FewDiffer, 3_000),
    (Family::Difference, 1_500),
    (Family::FirstClosed, (STRATA + 1) * 160),
    (Family::ZeroBits, 2 * ZERO_BITS.len() * 80),
    (Family::WrongSide, 800),
    (Family::OtherStratum, 800),
    (Family::FalseSingles, 800),
    (Family::PairTwice, 600),
    (Family::AnyCells, 500),
    (Family::AnyBytes, 100),
    (Family::AlteredRows, 1_000),
    (Family::Ended, 600),
    (Family::Long, 120),
    (Family::EdgeStates, 2 * 1_000),
    (Family::StateLengths, 2 * LENGTHS * 8),
    (Family::OneSize, 2 * PIECES * 120),
    (Family::Several, 2 * 600),
];
const EACH_FORGERY: usize = 130;
const EACH_ODDITY: usize = 200;

/// All families, and how many cases each has.
pub fn families() -> impl Iterator<Item = (Family, usize)> + Clone {
    let forged = FORGERIES.map(|forgery| (Family::Forged(forgery), EACH_FORGERY));
    let odd = ODDITIES.map(|oddity| (Family::Odd(oddity), EACH_ODDITY));
    FAMILIES.into_iter().chain(forged).chain(odd)
}

/// Whether every other case of the family is one of building. All others are of estimating.
pub fn is_of_both(family: Family) -> bool {
    matches!(
        family,
        Family::Strings
            | Family::ManyNodes
            | Family::Equal
            | Family::ZeroBits
            | Family::Odd(_)
            | Family::Ended
            | Family::Long
            | Family::EdgeStates
            | Family::StateLengths
            | Family::OneSize
            | Family::Several
    )
}

/// How many cases a run has.
pub fn count() -> usize {
    together(families())
}

/// The case of this number.
pub fn case(seed: u64, number: usize) -> Case {
    let (family, place) = family_of(families(), number);
    let (builds, place) = match is_of_both(family) {
        true => (place % 2 == 0, place / 2),
        false => (false, place),
    };
    let mut random = Random::of_case(seed, number);
    let random = &mut random;
    let end = end(family, place, random);
    let width = held(&end.state).1;
    let tables = tables(family, builds, &end, random);
    let mut case = Case {
        seed,
        number,
        family,
        state: end.state,
        lent: end.lent,
        tables,
        shifts: [0; 7].map(|_: usize| random.between(0, 15) as usize),
    };
    match family {
        Family::EdgeStates => {
            let (settings, width) = states::edges(place, random);
            case.state = states::of_either_end(&settings, width, random);
        }
        Family::StateLengths => states::of_length(&mut case.state, place, random),
        Family::Ended => altered::cut_off(&mut case.lent, random),
        Family::OneSize => altered::one_size(&mut case, width, place, random),
        Family::Several => altered::several(&mut case, width, random),
        _ => {}
    }
    case
}

/// An end as it is set up, or forged, and the strata of both ends.
struct End {
    state: Vec<u8>,
    lent: Lent,
    theirs: Strata,
    own: Strata,
}

fn end(family: Family, place: usize, random: &mut Random) -> End {
    match family {
        Family::Strings => of_strings(place, random),
        Family::ManyNodes => of_many_nodes(place, random),
        _ => of_plan(family, place, random),
    }
}

/// An end that is set up over a string of up to 1,200 bytes.
fn of_strings(place: usize, random: &mut Random) -> End {
    let (w, p, levels) = (place % 11, place / 11 % 7, place / 77 % 4);
    let settings = with_nominal(2 + w as u64, 2 + p as u64, 1 + levels as u64, random);
    let length = match place % 40 {
        0 => place / 40 % 4,
        _ => any_length(&settings, 0, 1_200, random),
    };
    let kind = random.one_of(&KINDS);
    let string = content::string(kind, length, random);
    set_up(
        Sender::new(settings, random.between(1, 64), string, random),
        random,
    )
}

/// A ruler that has 4,096 nodes, few of them different, or any bytes that have about as many.
fn of_many_nodes(place: usize, random: &mut Random) -> End {
    let string = match place % 2 {
        0 => ruler(FULL_RULER),
        _ => random.bytes(10_200),
    };
    set_up(
        Sender::new(RULED, random.between(1, 64), string, random),
        random,
    )
}

/// The end, and another whose string has some bytes changed. In some cases the end has the other's list in place of
/// its own, as a receiver has that has taken an opening.
fn set_up(sender: Sender, random: &mut Random) -> End {
    let (settings, mut lent) = (&sender.settings, sender.lent);
    let own = lent.shingle_list();
    let other = shingles(&tree(settings, &edited(&lent.string, random)));
    if random.between(0, 7) == 0 && other.len() <= MOST_SHINGLES {
        shingle_table::write(&other, &mut lent.shingles);
    }
    End {
        state: states::of_either_end(settings, sender.width, random),
        theirs: build(&other),
        own: build(&own),
        lent,
    }
}

/// An end with a list of its own. String, nodes and cells are any bytes: only their lengths are asked.
fn of_plan(family: Family, place: usize, random: &mut Random) -> End {
    let mut plan = plan(family, place, random);
    if !matches!(family, Family::Odd(_)) {
        plan.list.sort();
    }
    let settings = states::with_levels(plan.levels, random);
    let width = random.between(1, 64);
    let own = plan.own(random);
    let [more_nodes, more_cells] = [0; 2].map(|_: u8| random.one_of(&[0, 0, 0, 1, 40]));
    let cells = random.bytes(120 * width as usize + more_cells);
    let string = random.by_size(0, 200) as usize;
    End {
        state: states::of_either_end(&settings, width, random),
        lent: Lent {
            string: match random.between(0, 9) {
                // Both in one memory.
                0 => cells.clone(),
                _ => random.bytes(string),
            },
            nodes: random.bytes(65_536 + more_nodes),
            shingles: table(&plan.list, plan.list.len() > 4_096, random),
            cells,
        },
        theirs: plan.theirs(&own),
        own,
    }
}

fn plan(family: Family, place: usize, random: &mut Random) -> Plan {
    match family {
        Family::FewDiffer | Family::AlteredRows => {
            let number = random.between(0, 4);
            Plan::difference(number, random)
        }
        Family::Difference => {
            let number = random.by_size(1, 60);
            Plan::difference(number, random)
        }
        Family::FirstClosed => {
            let first = place % (STRATA + 1);
            Plan::first_closed((first < STRATA).then_some(first), random)
        }
        Family::ZeroBits => Plan::zero_bits(ZERO_BITS[place % ZERO_BITS.len()], random),
        Family::Forged(forgery) => Plan::forged(forgery, random),
        Family::WrongSide => Plan::wrong_side(random),
        Family::OtherStratum => Plan::other_stratum(random),
        Family::FalseSingles => Plan::false_singles(random),
        Family::PairTwice => Plan::pair_twice(random),
        Family::AnyCells => Plan::any_cells(random),
        Family::Odd(oddity) => Plan::odd(oddity, random),
        Family::Ended => Plan::ended(random),
        Family::Long => {
            let lengths = [4_094, 4_095, 4_096, 4_096, 4_097, 4_150];
            Plan::long(lengths[place % lengths.len()], random)
        }
        Family::Equal => {
            let length = match place % 10 {
                0 => 0,
                _ => list_length(random),
            };
            Plan::equal(length, random)
        }
        _ => Plan::difference(2, random),
    }
}

/// The bytes of strata, and in some cases more after them.
fn bytes(strata: &Strata, random: &mut Random) -> Vec<u8> {
    let mut table = vec![0; TABLE_BYTES];
    write(strata, &mut table);
    altered::lengthen(&mut table, random);
    table
}

fn tables(family: Family, builds: bool, end: &End, random: &mut Random) -> Tables {
    if builds {
        let mut strata = random.bytes(TABLE_BYTES);
        altered::lengthen(&mut strata, random);
        return Tables::Build { strata };
    }
    let (mut theirs, mut own) = (bytes(&end.theirs, random), bytes(&end.own, random));
    match family {
        // Both in one memory; otherwise what lies past the cells may be different.
        Family::Equal if random.between(0, 1) == 0 => theirs = own.clone(),
        Family::AnyBytes => {
            theirs = random.bytes(theirs.len());
            own = random.bytes(own.len());
        }
        Family::AlteredRows => {
            let table = match random.between(0, 1) {
                0 => &mut theirs,
                _ => &mut own,
            };
            altered::rows(table, random);
        }
        _ => {}
    }
    Tables::Estimate { theirs, own }
}
