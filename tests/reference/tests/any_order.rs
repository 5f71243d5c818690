//! Document 02, request 13, "Any order of opening": where every single cell truly holds one shingle, all orders end alike;
//! what is lined up opens; one shingle always does. And what comes about where a single cell does not tell the truth.

use reference::any_order::{
    hashes_agree, highest, lined_up, lowest, parts, reachable, singles, takings_by, truthful, State,
};
use reference::opening::{
    closed, difference, new_list, open, takings, true_difference, Closed, Taken, Takings,
    MOST_SHINGLES,
};
use reference::random::Random;
use reference::shingle::Shingle;
use reference::shingle_table;
use reference::sketch::{f, part, places, sketch, Cell};
use std::collections::BTreeSet;
use std::ops::RangeInclusive;

/// "5 q 1 to 64?"
const WIDTHS: RangeInclusive<u64> = 1..=64;

/// "3 L 1 to 4?"
const LEVELS: RangeInclusive<u64> = 1..=4;

/// "counts 1 to 4,096"
const MOST_COUNT: u64 = 4_096;

/// An order that has taken so many is held to go on for ever.
const ENDLESS: usize = 1_000;

/// As many differing shingles as a drawn case has at most: all states are looked at.
const MOST_DIFFERING: usize = 6;

/// The widths that many cells meet in, and how many cases each of them and each of the others has.
const NARROW: RangeInclusive<u64> = 1..=8;
const NARROW_CASES: u64 = 400;
const OTHER_CASES: u64 = 60;

/// One drawn case in so many has lists of nearly 4,096 shingles.
const ONE_LONG_IN: u64 = 500;

/// Orders of each case in which any single cell is taken.
const RANDOM_ORDERS: usize = 4;

const SEED: u64 = 13;

/// The two lists, their sketches, and the settings that matter.
#[derive(Debug)]
struct Lists {
    levels: u64,
    width: u64,
    theirs: Vec<Shingle>,
    own: Vec<Shingle>,
    /// The sender's cells and the own ones.
    sketches: [Vec<Cell>; 2],
}

impl Lists {
    fn new(levels: u64, width: u64, theirs: Vec<Shingle>, own: Vec<Shingle>) -> Lists {
        let sketches = [&theirs, &own].map(|list| sketch(list, width));
        Lists {
            levels,
            width,
            theirs,
            own,
            sketches,
        }
    }

    fn cells(&self) -> Vec<Cell> {
        difference(&self.sketches[0], &self.sketches[1])
    }

    fn truth(&self) -> BTreeSet<Taken> {
        true_difference(&self.theirs, &self.own)
    }

    fn truthful(&self) -> bool {
        truthful(&self.theirs, &self.own, self.levels, self.width)
    }

    fn lined_up(&self) -> bool {
        let differing: Vec<Shingle> = self.truth().iter().map(|one| one.shingle).collect();
        lined_up(&differing, self.width)
    }

    fn taken_by(&self, choice: impl FnMut(&[usize]) -> usize) -> Result<Takings, Takings> {
        takings_by(choice, &self.cells(), self.levels, self.width, ENDLESS)
    }

    /// Document 01's own way.
    fn takings(&self) -> Takings {
        takings(&self.cells(), self.levels, self.width)
    }

    fn open(&self) -> Result<Vec<Shingle>, Vec<Closed>> {
        let [theirs, own] = &self.sketches;
        open(self.levels, self.width, theirs, own, &self.own)
    }

    /// All states, where they are no more than there are parts of the true difference.
    fn states(&self) -> BTreeSet<State> {
        let most = parts(self.truth().len());
        reachable(&self.cells(), self.levels, self.width, most).expect("not more than the parts")
    }

    /// The states that orders end in, "until no single cell is left".
    fn ends(&self) -> BTreeSet<State> {
        let mut ends = self.states();
        ends.retain(|state| singles(&state.left, self.levels, self.width).is_empty());
        ends
    }
}

fn sorted(list: &[Shingle]) -> Vec<Shingle> {
    let mut sorted = list.to_vec();
    sorted.sort();
    sorted
}

/// "the same set taken"
fn set(takings: &Takings) -> BTreeSet<Taken> {
    takings.taken.iter().copied().collect()
}

/// "levels 0 to L, counts 1 to 4,096, at most 4,096 shingles, no pair twice at one level"
fn keeps_limits(list: &[Shingle], levels: u64) -> bool {
    let within = |one: &Shingle| one.level <= levels && (1..=MOST_COUNT).contains(&one.count);
    let pairs: BTreeSet<_> = list.iter().map(Shingle::pair).collect();
    list.iter().all(within) && list.len() <= MOST_SHINGLES && pairs.len() == list.len()
}

/// An id: the least and the largest ones, few small ones, or any.
fn id(random: &mut Random) -> u64 {
    match random.between(0, 3) {
        0 => random.between(0, 3),
        1 => u64::MAX - random.between(0, 3),
        2 => random.between(1, 60),
        _ => random.number(),
    }
}

/// A count: the ends, where a byte ends, any, and mostly a small one.
fn count(random: &mut Random) -> u64 {
    match random.between(0, 4) {
        0 => random.one_of(&[1, 64, 65, 255, 256, 257, 4_095, MOST_COUNT]),
        1 => random.between(1, MOST_COUNT),
        _ => random.between(1, 4),
    }
}

/// So many shingles, no pair twice at one level, in any order.
fn drawn_list(length: usize, levels: u64, random: &mut Random) -> Vec<Shingle> {
    let mut pairs = BTreeSet::new();
    let mut list = Vec::new();
    while list.len() < length {
        let any_level = random.between(0, levels);
        let one = Shingle {
            level: random.one_of(&[0, levels, any_level]),
            previous: id(random),
            own: id(random),
            count: count(random),
        };
        if pairs.insert(one.pair()) {
            list.push(one);
        }
    }
    list
}

/// The list in any order.
fn shuffled(list: &[Shingle], random: &mut Random) -> Vec<Shingle> {
    let mut rest = list.to_vec();
    let mut shuffled = Vec::new();
    while !rest.is_empty() {
        shuffled.push(rest.swap_remove(random.place(rest.len())));
    }
    shuffled
}

/// The pair with another count: another small one, one that agrees modulo 64, or any.
fn counted_otherwise(one: &Shingle, random: &mut Random) -> Shingle {
    let any = count(random);
    let drawn = random.one_of(&[one.count % 4 + 1, (one.count + 63) % MOST_COUNT + 1, any]);
    let count = match drawn == one.count {
        true => one.count % MOST_COUNT + 1,
        false => drawn,
    };
    Shingle { count, ..*one }
}

/// Two lists of this width that differ by up to 6 shingles, each of them in any order: some pairs are at one end only,
/// some at both with two counts.
fn drawn(width: u64, random: &mut Random) -> Lists {
    let levels = random.between(1, 4);
    let most = random.between(1, MOST_DIFFERING as u64) as usize;
    let common = match random.between(1, ONE_LONG_IN) {
        1 => MOST_SHINGLES - MOST_DIFFERING,
        _ => random.between(0, 12) as usize,
    };
    let mut both = drawn_list(common + most, levels, random);
    let mut pairs = both.split_off(common);
    let (mut first, mut second) = (both.clone(), both);
    let mut differing = 0;
    while differing < most {
        let one = pairs.pop().expect("as many pairs as may differ");
        let two_counts = differing + 2 <= most && random.percent(50);
        second.extend(two_counts.then(|| counted_otherwise(&one, random)));
        first.push(one);
        differing += 1 + usize::from(two_counts);
        if random.percent(50) {
            std::mem::swap(&mut first, &mut second);
        }
    }
    let [theirs, own] = [first, second].map(|list| shuffled(&list, random));
    Lists::new(levels, width, theirs, own)
}

/// Pairs of own ids 1, 5 and 9, in each list with the count 1, with 2, or not at all: all these lists.
fn all_of_three_pairs() -> Vec<Vec<Shingle>> {
    let with_count = |own: u64, count: usize| Shingle {
        count: count as u64,
        ..by_hand(own, 1)
    };
    let list = |choice: usize| {
        let pairs = [1, 5, 9].into_iter();
        let counts = [choice % 3, choice / 3 % 3, choice / 9];
        let present = pairs.zip(counts).filter(|&(_, count)| count > 0);
        present.map(|(own, count)| with_count(own, count)).collect()
    };
    (0..27).map(list).collect()
}

/// Every two of those lists with narrow sketches, and drawn lists of every width.
fn cases() -> Vec<Lists> {
    let mut cases = Vec::new();
    let few = all_of_three_pairs();
    for (width, k) in NARROW.flat_map(|width| (0..27 * 27).map(move |k| (width, k))) {
        let [theirs, own] = [k / 27, k % 27].map(|list| few[list].clone());
        cases.push(Lists::new(1, width, theirs, own));
    }
    for width in WIDTHS {
        let number = match NARROW.contains(&width) {
            true => NARROW_CASES,
            false => OTHER_CASES,
        };
        let drawn = |case: u64| drawn(width, &mut Random::of_case(SEED + width, case));
        cases.extend((0..number).map(drawn));
    }
    cases
}

/// The cases keep document 01's limits, differ by few shingles, and have the edges and the disorder that the request
/// allows.
#[test]
fn cases_keep_the_limits() {
    let cases = cases();
    let (mut unsorted, mut longest, mut counts, mut levels) = (0, 0, BTreeSet::new(), [0; 5]);
    for case in &cases {
        let truth = case.truth();
        assert!(truth.len() <= MOST_DIFFERING, "{case:?}");
        for list in [&case.theirs, &case.own] {
            assert!(keeps_limits(list, case.levels), "{case:?}");
            unsorted += usize::from(sorted(list) != *list);
            longest = longest.max(list.len());
        }
        counts.extend(truth.iter().map(|one| one.shingle.count));
        truth
            .iter()
            .for_each(|one| levels[one.shingle.level as usize] += 1);
    }
    assert_eq!(cases.len(), 8 * 729 + 8 * 400 + 56 * 60);
    assert!(unsorted > 10_000, "{unsorted}");
    assert!(longest > MOST_SHINGLES - MOST_DIFFERING, "{longest}");
    assert!(counts.contains(&1) && counts.contains(&MOST_COUNT));
    assert!(levels.iter().all(|&number| number > 100), "{levels:?}");
}

/// The list as a table's bytes, with zeros past its end.
fn table(list: &[Shingle]) -> Vec<u8> {
    let mut table = vec![170; (list.len() + 1) * shingle_table::ENTRY_BYTES];
    shingle_table::write(list, &mut table);
    table
}

/// An order of a truthful case: "ends with the same cells and the same set taken". None is taken twice, so that it needed
/// no more takings than the sketch has cells. It opens where document 01's way does, to the same list byte for byte.
fn ends_alike(case: &Lists, takings: &Takings, end: &State) {
    assert_eq!(takings.left, end.left, "{case:?}");
    assert_eq!(set(takings), end.taken, "{case:?}");
    assert_eq!(takings.taken.len(), end.taken.len(), "{case:?}");
    assert!(takings.taken.len() as u64 <= 3 * case.width, "{case:?}");
    let list = new_list(&case.own, &takings.taken);
    let opened = match closed(takings, &case.own) {
        reasons if reasons.is_empty() => Ok(table(&list)),
        reasons => Err(reasons),
    };
    assert!(case.open().map(|list| table(&list)) == opened, "{case:?}");
}

/// All orders of a truthful case, since all its states are looked at: there is one end. And from the lowest cell up, from
/// the highest down, and by chance.
fn all_end_alike(case: &Lists, random: &mut Random) {
    let ends = case.ends();
    assert_eq!(ends.len(), 1, "{case:?}");
    let end = ends.first().expect("one end");
    assert!(end.taken.is_subset(&case.truth()), "{case:?}");
    let mut orders = vec![case.taken_by(lowest), case.taken_by(highest)];
    for _ in 0..RANDOM_ORDERS {
        orders.push(case.taken_by(|singles| random.one_of(singles)));
    }
    assert_eq!(
        orders[0],
        Ok(case.takings()),
        "document 01 takes the lowest"
    );
    for order in orders {
        ends_alike(case, &order.expect("an order that ends"), end);
    }
}

/// What an order came to, cells and set; none if it goes on for ever.
fn came_to(order: Result<Takings, Takings>) -> Option<(Vec<Cell>, BTreeSet<Taken>)> {
    order.ok().map(|end| (end.left.clone(), set(&end)))
}

/// "if at every state reachable by taking single cells each single cell truly holds one shingle, every order of taking
/// that goes on until no single cell is left ends with the same cells and the same set taken"
///
/// Where that is not so, orders do end differently.
#[test]
fn every_order_ends_alike() {
    let (mut alike, mut with_a_choice) = (0, 0);
    let (mut untrue, mut different) = (0, 0);
    for (k, case) in cases().iter().enumerate() {
        if case.truthful() {
            all_end_alike(case, &mut Random::of_case(SEED, k as u64));
            alike += 1;
            // One order alone has a state for each taking, and the first.
            with_a_choice += usize::from(case.states().len() > case.truth().len() + 1);
        } else {
            untrue += 1;
            let [up, down] = [case.taken_by(lowest), case.taken_by(highest)].map(came_to);
            different += usize::from(up != down);
        }
    }
    assert_eq!([alike, with_a_choice], [11_944, 7_103]);
    assert_eq!([untrue, different], [448, 205]);
}

/// "If moreover the true difference can be lined up so that each shingle is alone in some cell once those before it are
/// gone, the sketch opens to exactly that difference."
///
/// And only then: where it cannot, some of it is never taken. Mostly the sketch then does not open; but the cells of
/// what is left may all be 0 (`a_difference_of_zeros`).
#[test]
fn what_is_lined_up_opens() {
    let (mut opened, mut stuck, mut otherwise) = (0, 0, 0);
    for case in cases().iter().filter(|case| case.truthful()) {
        let (truth, taken) = (case.truth(), set(&case.takings()));
        if case.lined_up() {
            opened += usize::from(!truth.is_empty());
            assert_eq!(taken, truth, "{case:?}");
            assert_eq!(case.open(), Ok(sorted(&case.theirs)), "{case:?}");
            continue;
        }
        assert!(taken.is_subset(&truth) && taken != truth, "{case:?}");
        match case.open() {
            Err(reasons) => {
                assert!(reasons.contains(&Closed::CellsLeft), "{case:?}");
                stuck += 1;
            }
            Ok(list) => {
                assert_ne!(list, sorted(&case.theirs), "{case:?}");
                otherwise += 1;
            }
        }
    }
    assert_eq!([opened, stuck, otherwise], [8_863, 2_847, 18]);
}

/// That lists which differ by this shingle alone open to exactly that, in any order: each of its three cells is single
/// at once, names it, and needs no second taking.
fn opens_to_one(case: &Lists, one: Taken) {
    assert!([&case.theirs, &case.own].map(|list| keeps_limits(list, case.levels)) == [true; 2]);
    assert_eq!(case.truth(), BTreeSet::from([one]), "{case:?}");
    assert!(case.truthful() && case.lined_up(), "{case:?}");
    let named = places(&one.shingle, case.width).map(|place| (place, one));
    assert_eq!(singles(&case.cells(), case.levels, case.width), named);
    for takings in [case.taken_by(lowest), case.taken_by(highest)] {
        let takings = takings.expect("an order that ends");
        assert_eq!(takings.taken, [one], "{case:?}");
        assert_eq!(closed(&takings, &case.own), [], "{case:?}");
    }
    assert_eq!(case.open(), Ok(sorted(&case.theirs)), "{case:?}");
}

/// The lists that have all these, and one of them this shingle too, at any place.
fn with_one(case: [u64; 2], common: &[Shingle], one: Taken, random: &mut Random) -> Lists {
    let [levels, width] = case;
    let without: Vec<Shingle> = common
        .iter()
        .filter(|other| other.pair() != one.shingle.pair())
        .copied()
        .collect();
    let with = shuffled(&[&without[..], &[one.shingle]].concat(), random);
    let without = shuffled(&without, random);
    let (theirs, own) = match one.negative {
        false => (with, without),
        true => (without, with),
    };
    Lists::new(levels, width, theirs, own)
}

/// All shingles whose four fields are at an end of what they may be.
fn at_the_ends(levels: u64) -> Vec<Shingle> {
    let shingle = |k: u64| Shingle {
        level: [0, levels][(k & 1) as usize],
        previous: [0, u64::MAX][(k >> 1 & 1) as usize],
        own: [0, u64::MAX][(k >> 2 & 1) as usize],
        count: [1, MOST_COUNT][(k >> 3 & 1) as usize],
    };
    (0..16).map(shingle).collect()
}

/// A shingle whose F(0), F(1) and F(2) agree modulo q, which is odd.
fn of_agreeing_hashes(levels: u64, width: u64, random: &mut Random) -> Shingle {
    let mut one = drawn_list(1, levels, random)[0];
    while !hashes_agree(&one, width) {
        one = drawn_list(1, levels, random)[0];
    }
    one
}

/// "Show also that a difference of exactly one shingle always opens."
#[test]
fn one_shingle_always_opens() {
    let mut cases = 0;
    for (levels, width) in LEVELS.flat_map(|levels| WIDTHS.map(move |width| (levels, width))) {
        let random = &mut Random::of_case(SEED + levels, width);
        let mut ones = [at_the_ends(levels), drawn_list(4, levels, random)].concat();
        match width % 2 == 1 {
            true => ones.push(of_agreeing_hashes(levels, width, random)),
            false => assert!(!ones.iter().any(|one| hashes_agree(one, width))),
        }
        for (shingle, negative) in ones.iter().flat_map(|&one| [(one, false), (one, true)]) {
            let common = random.between(0, 12) as usize;
            let common = drawn_list(common, levels, random);
            let one = Taken { shingle, negative };
            let case = with_one([levels, width], &common, one, random);
            opens_to_one(&case, one);
            cases += 1;
        }
    }
    // At each end of four fields, four drawn ones, and where q is odd one of agreeing hashes; both signs.
    assert_eq!(cases, (4 * 64 * (16 + 4) + 4 * 32) * 2);
}

/// The same with lists of 4,096 and 4,095 shingles: the new list has just room for it.
#[test]
fn one_shingle_beside_4095_opens() {
    let random = &mut Random::of_case(SEED, 4_095);
    let all = drawn_list(MOST_SHINGLES, 4, random);
    for (width, negative) in WIDTHS.flat_map(|width| [(width, false), (width, true)]) {
        let shingle = random.one_of(&all);
        let one = Taken { shingle, negative };
        let case = with_one([4, width], &all, one, random);
        let lengths = [case.theirs.len(), case.own.len()];
        let expected = match negative {
            false => [MOST_SHINGLES, MOST_SHINGLES - 1],
            true => [MOST_SHINGLES - 1, MOST_SHINGLES],
        };
        assert_eq!(lengths, expected);
        opens_to_one(&case, one);
    }
}

/// The shingles that are worked out by hand: level 1, previous id 0.
const fn by_hand(own: u64, count: u64) -> Shingle {
    Shingle {
        level: 1,
        previous: 0,
        own,
        count,
    }
}

fn positive(shingle: Shingle) -> Taken {
    Taken {
        shingle,
        negative: false,
    }
}

fn negative(shingle: Shingle) -> Taken {
    Taken {
        shingle,
        negative: true,
    }
}

/// Own: a pair once. Theirs: the same pair twice, and another pair once.
fn counted_again(own_ids: [u64; 2], width: u64) -> Lists {
    let [x, y] = own_ids;
    let theirs = vec![by_hand(x, 2), by_hand(y, 1)];
    Lists::new(1, width, theirs, vec![by_hand(x, 1)])
}

/// The last step of FNV-1a is (value xor last byte) × prime, and the last byte of the 20 is the count's. So counts 1 and 2
/// make F(3) differ by 3 × prime of own id 1 and of own id 5 alike.
#[test]
fn two_pairs_that_change_alike() {
    const PRIME_3_TIMES: u64 = 0x300_0000_0519;
    for (own, once, twice) in [
        (1, 0x2634_2cb6_5d2a_5d9d, 0x2634_29b6_5d2a_5884),
        (5, 0xf378_a00c_67ec_b411, 0xf378_9d0c_67ec_aef8),
    ] {
        assert_eq!(f(3, &by_hand(own, 1)), once);
        assert_eq!(f(3, &by_hand(own, 2)), twice);
        assert_eq!(once.wrapping_sub(twice), PRIME_3_TIMES);
    }
}

/// Why the request speaks of what a cell truly holds. With one cell in each third, 1(2) − 1(1) + 5(1) have the sums of
/// 5(2): number 1, own ids 1 − 1 + 5, tails 2 − 1 + 1 at level 1, and F(3) as above. All three cells are single, three
/// shingles lie in each, and the sketch opens to a list that neither end has.
#[test]
fn a_false_single_opens_to_a_wrong_list() {
    let case = counted_again([1, 5], 1);
    let named = positive(by_hand(5, 2));
    assert_eq!(case.truth().len(), 3);
    assert_eq!(case.cells(), [part(&named.shingle); 3]);
    assert_eq!(
        singles(&case.cells(), 1, 1),
        [(0, named), (1, named), (2, named)]
    );
    assert!(!case.truthful() && !case.lined_up());
    for choice in [lowest, highest] {
        let takings = case.taken_by(choice).expect("one taking");
        assert_eq!(takings.taken, [named]);
        assert_eq!(closed(&takings, &case.own), []);
    }
    assert_eq!(case.open(), Ok(vec![by_hand(1, 1), by_hand(5, 2)]));
}

/// Document 01 opens the sketch, and whoever goes from the highest cell down does not. With q = 3, 3(2) lies in cells
/// 0, 3, 6, 3(1) in 1, 3, 6 and 7(1) in 1, 4, 6. They meet in cell 6, which names 7(2), of cells 0, 4, 6. Taken first,
/// it leaves no cell single.
#[test]
fn the_highest_first_may_not_open() {
    let case = counted_again([3, 7], 3);
    assert_eq!(places(&by_hand(3, 2), 3), [0, 3, 6]);
    assert_eq!(places(&by_hand(3, 1), 3), [1, 3, 6]);
    assert_eq!(places(&by_hand(7, 1), 3), [1, 4, 6]);
    assert_eq!(places(&by_hand(7, 2), 3), [0, 4, 6]);
    let expected = [
        (0, positive(by_hand(3, 2))),
        (4, positive(by_hand(7, 1))),
        (6, positive(by_hand(7, 2))),
    ];
    assert_eq!(singles(&case.cells(), 1, 3), expected);
    assert!(!case.truthful() && case.lined_up());
    let up = case.taken_by(lowest).expect("three takings");
    let expected = [
        positive(by_hand(3, 2)),
        negative(by_hand(3, 1)),
        positive(by_hand(7, 1)),
    ];
    assert_eq!(up.taken, expected);
    assert_eq!(case.open(), Ok(case.theirs.clone()));
    let down = case.taken_by(highest).expect("one taking");
    assert_eq!(down.taken, [positive(by_hand(7, 2))]);
    assert_eq!(closed(&down, &case.own), [Closed::CellsLeft]);
}

/// The other way round: from the highest cell down it opens to the true difference, and document 01's way takes one
/// shingle again and again, with either sign, until "at most 3q times" ends it. With q = 3, 1(2) lies in cells 1, 4, 8,
/// 1(1) in 1, 3, 6 and 5(1) in 1, 4, 6. They meet in cell 1, which names 5(2), of cells 1, 5, 8.
#[test]
fn the_lowest_first_may_never_end() {
    let case = counted_again([1, 5], 3);
    assert_eq!(places(&by_hand(1, 2), 3), [1, 4, 8]);
    assert_eq!(places(&by_hand(1, 1), 3), [1, 3, 6]);
    assert_eq!(places(&by_hand(5, 1), 3), [1, 4, 6]);
    assert_eq!(places(&by_hand(5, 2), 3), [1, 5, 8]);
    assert!(!case.truthful() && case.lined_up());
    let down = case.taken_by(highest).expect("three takings");
    let expected = [
        positive(by_hand(1, 2)),
        positive(by_hand(5, 1)),
        negative(by_hand(1, 1)),
    ];
    assert_eq!(down.taken, expected);
    assert_eq!(closed(&down, &case.own), []);
    assert_eq!(new_list(&case.own, &down.taken), case.theirs);
    let up = case.taken_by(lowest).expect_err("takings without end");
    assert_eq!(up.taken.len(), ENDLESS);
    assert_eq!(up.taken[0], positive(by_hand(5, 2)));
    let again = [negative(by_hand(1, 1)), positive(by_hand(1, 1))];
    assert!(up.taken[1..]
        .iter()
        .eq(again.iter().cycle().take(ENDLESS - 1)));
    assert_eq!(case.takings().taken[..], up.taken[..9]);
    assert!(case
        .open()
        .is_err_and(|reasons| reasons.contains(&Closed::TakenTwice)));
}

/// Not lined up, and open all the same: own 1(2) and 5(1), theirs 1(1) and 5(2) have equal sums in one cell of each
/// third. No cell is single, so that none says what is not so; nothing is taken; and the own list passes for the sender's.
#[test]
fn a_difference_of_zeros() {
    let theirs = vec![by_hand(1, 1), by_hand(5, 2)];
    let case = Lists::new(1, 1, theirs, vec![by_hand(1, 2), by_hand(5, 1)]);
    assert_eq!(case.truth().len(), 4);
    assert_eq!(case.cells(), [[0; 5]; 3]);
    assert!(case.truthful() && !case.lined_up());
    assert_eq!(case.open(), Ok(case.own.clone()));
}

/// By hand. With q = 2, 1(1) lies in cells 0, 3, 4 and 2(1) in 1, 2, 5: the states are the four parts of the two. With
/// q = 1 they share all cells: nothing can be taken, and no line begins.
#[test]
fn states_of_two_shingles() {
    let two = [by_hand(1, 1), by_hand(2, 1)];
    let [apart, together] = [2, 1].map(|width| Lists::new(1, width, two.to_vec(), vec![]));
    assert_eq!(two.map(|one| places(&one, 2)), [[0, 3, 4], [1, 2, 5]]);
    let states = apart.states().into_iter();
    let taken: Vec<Vec<Taken>> = states
        .map(|state| state.taken.into_iter().collect())
        .collect();
    let [first, second] = two.map(positive);
    assert_eq!(
        taken,
        [vec![], vec![first], vec![first, second], vec![second]]
    );
    assert_eq!(apart.ends().len(), 1);
    assert!(apart.truthful() && apart.lined_up());
    assert_eq!(together.states(), together.ends());
    assert!(together.truthful() && !together.lined_up());
}

/// With q = 3, 3(2) lies in cells 0, 3, 6, 3(1) in 1, 3, 6 and 7(1) in 1, 4, 6: lined up with either of the outer two
/// first, in whichever order they are given. 1(1) lies in 1, 3, 6 as 3(1) does, and these two never get apart.
#[test]
fn lines_by_hand() {
    let [a, b, c] = [by_hand(3, 2), by_hand(3, 1), by_hand(7, 1)];
    for given in [
        [a, b, c],
        [a, c, b],
        [b, a, c],
        [b, c, a],
        [c, a, b],
        [c, b, a],
    ] {
        assert!(lined_up(&given, 3));
    }
    let like_b = by_hand(1, 1);
    assert_eq!(places(&like_b, 3), places(&b, 3));
    assert!(!lined_up(&[a, b, c, like_b], 3));
    assert!(lined_up(&[a, c, like_b], 3));
    assert!(lined_up(&[], 3) && lined_up(&[b], 3));
}

/// One cell of three has a shingle, as no two lists leave it: taking it leaves it negative in the other two, and so on
/// for ever, whichever is taken.
#[test]
fn an_endless_order_is_given_up() {
    let one = by_hand(5, 1);
    let cells = [part(&one), [0; 5], [0; 5]];
    for (choice, most) in [
        (lowest as fn(&[usize]) -> usize, 7),
        (highest, 8),
        (lowest, 0),
    ] {
        let given_up = takings_by(choice, &cells, 1, 1, most).expect_err("no end");
        assert_eq!(given_up.taken.len(), most);
        assert!(given_up.taken.iter().all(|taken| taken.shingle == one));
        assert!(!singles(&given_up.left, 1, 1).is_empty());
    }
    assert_eq!(reachable(&cells, 1, 1, 1), None);
}
