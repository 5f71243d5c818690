//! Change request 3 checked by hand: strata, and what they estimate.

use reference::cell_table;
use reference::fnv::fnv1a;
use reference::lent::Lent;
use reference::opening::{closed, difference, takings, Closed};
use reference::rcds::{
    rcds_receiver_setup, rcds_strata_build, rcds_strata_estimate, rcds_take, ACCEPTED,
};
use reference::settings::Settings;
use reference::shingle::Shingle;
use reference::sketch::{f, minus, part, places, plus, sketch, Cell};
use reference::strata::{
    build, estimate, of_stratum, open, read, stratum, write, CHECKS_0, CHECKS_2_63, TABLE_BYTES,
};
use reference::{receiver_state, sender, shingle_table, vectors};

const SETTINGS: Settings = Settings {
    window: 2,
    fan_out: 2,
    levels: 2,
    nominal: 4,
};

const WIDTH: u64 = 17;

/// Shingles of this previous id whose F(3) ends in exactly so many zero bits, by own ids from 1 up.
fn ending_in(zeros: u32, previous: u64) -> impl Iterator<Item = Shingle> {
    let shingle = move |own: u64| Shingle {
        level: 1,
        previous,
        own,
        count: 1,
    };
    (1..)
        .map(shingle)
        .filter(move |shingle| f(3, shingle).trailing_zeros() == zeros)
}

/// The first of them.
fn first_ending_in(zeros: u32) -> Shingle {
    ending_in(zeros, 7)
        .next()
        .expect("own ids go on for long enough")
}

/// One shingle of each of these strata.
fn one_of_each(strata: std::ops::Range<u32>) -> Vec<Shingle> {
    strata.map(first_ending_in).collect()
}

/// So many shingles that have no pair in common.
fn some(count: u64) -> Vec<Shingle> {
    let id = |k: u64| fnv1a(&k.to_be_bytes());
    let shingle = |k: u64| Shingle {
        level: k % 3,
        previous: id(k),
        own: id(k + 1),
        count: 1,
    };
    (0..count).map(shingle).collect()
}

/// A sender's state, and tables as long as they have to be, with this list in the shingle table.
fn end(list: &[Shingle]) -> (Vec<u8>, Lent) {
    let mut state = vec![0; sender::STATE_BYTES];
    sender::write(&SETTINGS, WIDTH, &mut state);
    let mut shingles = vec![0; 98_304.max(24 * list.len())];
    shingle_table::write(list, &mut shingles);
    let lent = Lent {
        string: b"string".to_vec(),
        nodes: vec![170; 65_536],
        shingles,
        cells: vec![170; 120 * WIDTH as usize],
    };
    (state, lent)
}

/// The bytes of strata.
fn table(strata: &[Vec<Cell>]) -> Vec<u8> {
    let mut bytes = vec![0; TABLE_BYTES];
    write(strata, &mut bytes);
    bytes
}

/// What the call estimates of any strata over an own list.
fn estimated(theirs: &[Vec<Cell>], own: &[Vec<Cell>], list: &[Shingle]) -> u64 {
    let (state, lent) = end(list);
    let answer = rcds_strata_estimate(&state, &lent, &table(theirs), &table(own));
    answer.checked_sub(ACCEPTED).expect("nothing has a no here")
}

/// What it estimates of two lists.
fn estimated_of_lists(theirs: &[Shingle], own: &[Shingle]) -> u64 {
    estimated(&build(theirs), &build(own), own)
}

/// Adds a shingle to its three cells in any stratum, or takes it from them.
fn put(strata: &mut [Vec<Cell>], i: usize, shingle: &Shingle, negative: bool) {
    let add = if negative { minus } else { plus };
    for place in places(shingle, 4) {
        strata[i][place] = add(&strata[i][place], &part(shingle));
    }
}

#[test]
fn a_shingle_goes_to_the_stratum_of_its_zero_bits() {
    let zeros = [0, 1, 2, 14, 15, 16, 17];
    let strata = zeros.map(|zeros| stratum(&first_ending_in(zeros)));
    assert_eq!(strata, [0, 1, 2, 14, 15, 15, 15]);
}

/// They cannot be found by counting. FNV-1a is nearly linear: each byte adds a small number times a power of
/// the prime, so that ids with a given F(3) are a short vector of a lattice.
#[test]
fn shingles_with_63_and_64_zero_bits() {
    for shingle in CHECKS_2_63 {
        assert_eq!((f(3, &shingle), stratum(&shingle)), (1 << 63, 15));
    }
    for shingle in CHECKS_0 {
        assert_eq!((f(3, &shingle), stratum(&shingle)), (0, 15));
    }
    for shingle in [CHECKS_2_63, CHECKS_0].concat() {
        assert!(shingle.level <= 1 && (1..=4_096).contains(&shingle.count));
    }
}

#[test]
fn each_stratum_is_the_sketch_of_its_shingles() {
    let list = some(300);
    let strata = build(&list);
    assert_eq!(strata.len(), 16);
    for (i, cells) in strata.iter().enumerate() {
        let own = |shingle: &&Shingle| f(3, shingle).trailing_zeros().min(15) as usize == i;
        let own: Vec<Shingle> = list.iter().filter(own).copied().collect();
        assert_eq!(*cells, sketch(&own, 4), "stratum {i}");
    }
    // Together they are the sketch of the whole list.
    let mut sum = vec![[0; 5]; 12];
    for cells in &strata {
        sum = sum.iter().zip(cells).map(|(a, b)| plus(a, b)).collect();
    }
    assert_eq!(sum, sketch(&list, 4));
}

#[test]
fn a_table_has_stratum_after_stratum() {
    for zeros in [0, 1, 3, 15, 16] {
        let one = first_ending_in(zeros);
        let (state, lent) = end(&[one]);
        let mut table = vec![170; TABLE_BYTES];
        assert_eq!(rcds_strata_build(&state, &lent, &mut table), 0);
        let first = 12 * zeros.min(15) as usize;
        let cells = places(&one, 4).map(|place| first + place);
        for (cell, bytes) in table.chunks(40).enumerate() {
            let expected = match cells.contains(&cell) {
                true => cell_table::bytes(&part(&one)),
                false => vec![0; 40],
            };
            assert_eq!(bytes, expected, "{zeros} zero bits, cell {cell}");
        }
    }
}

#[test]
fn what_lies_past_the_cells_is_untouched() {
    let (state, lent) = end(&some(50));
    for more in [0, 1, 40, 500] {
        let mut table = vec![170; TABLE_BYTES + more];
        assert_eq!(rcds_strata_build(&state, &lent, &mut table), 0);
        assert_eq!(table[TABLE_BYTES..], vec![170; more]);
        assert_eq!(read(&table), build(&some(50)));
        // What is past the cells is not read either.
        let answer = rcds_strata_estimate(&state, &lent, &table, &table[..TABLE_BYTES]);
        assert_eq!(answer, ACCEPTED);
    }
}

#[test]
fn a_list_ends_at_its_first_count_0() {
    let all = some(9);
    let (state, mut lent) = end(&all);
    lent.shingles[24 * 5 + 16..24 * 6].fill(0);
    let mut table = vec![170; TABLE_BYTES];
    assert_eq!(rcds_strata_build(&state, &lent, &mut table), 0);
    assert_eq!(read(&table), build(&all[..5]));
    // No count 0: all whole entries, also past 4,096.
    let many = some(4_100);
    let (state, lent) = end(&many);
    assert_eq!(lent.shingles.len(), 24 * 4_100);
    assert_eq!(rcds_strata_build(&state, &lent, &mut table), 0);
    assert_eq!(read(&table), build(&many));
}

/// The answers of both calls, which leave a table for building as it is where they are refused.
fn both(state: &[u8], lent: &Lent, lengths: [usize; 3]) -> [u64; 2] {
    let [mut built, theirs, own] = lengths.map(|length| vec![170; length]);
    let building = rcds_strata_build(state, lent, &mut built);
    assert!(building == 0 || built.iter().all(|&byte| byte == 170));
    [building, rcds_strata_estimate(state, lent, &theirs, &own)]
}

#[test]
fn questions_in_their_order() {
    let (state, lent) = end(&some(5));
    let enough = [TABLE_BYTES; 3];
    assert_eq!(both(&state, &lent, enough), [0, ACCEPTED]);
    // 7, of each table of strata, and of the others.
    assert_eq!(both(&state, &lent, [7_679, 7_680, 7_680])[0], 7);
    assert_eq!(both(&state, &lent, [0, 7_679, 7_680])[1], 7);
    assert_eq!(both(&state, &lent, [0, 7_680, 7_679])[1], 7);
    assert_eq!(both(&state, &lent, [0; 3]), [7; 2]);
    for piece in 0..3 {
        let mut short = lent.clone();
        [&mut short.nodes, &mut short.shingles, &mut short.cells][piece].pop();
        assert_eq!(both(&state, &short, enough), [7; 2]);
    }
    // 6 before it, and then 5 to 1, each though all that comes after it has a no too.
    let mut long = lent.clone();
    long.string = vec![0; 65_537];
    long.nodes.clear();
    assert_eq!(both(&state, &long, [0; 3]), [6; 2]);
    let mut state = state;
    for (row, question) in [(4, 5), (3, 4), (2, 3), (1, 2), (0, 1)] {
        state[8 * row..8 * row + 8].fill(255);
        assert_eq!(both(&state, &long, [0; 3]), [question; 2]);
    }
}

#[test]
fn rows_that_a_state_lacks_are_0() {
    let (state, lent) = end(&some(5));
    for length in 0..40 {
        let answers = both(&state[..length], &lent, [TABLE_BYTES; 3]);
        assert_eq!(answers, [length as u64 / 8 + 1; 2], "{length} bytes");
    }
    // A row that is there in part too, whatever that part is.
    let mut large = state.clone();
    large[24..32].copy_from_slice(&65_536_u64.to_be_bytes());
    assert_eq!(both(&large[..31], &lent, [TABLE_BYTES; 3]), [4; 2]);
    assert_eq!(both(&large, &lent, [TABLE_BYTES; 3]), [0, ACCEPTED]);
    let longer = [state, vec![170; 9]].concat();
    assert_eq!(both(&longer, &lent, [TABLE_BYTES; 3]), [0, ACCEPTED]);
}

/// "Every later call of either end": a receiver's state too, whatever its session has come to.
#[test]
fn a_state_of_either_end() {
    let (_, mut lent) = end(&[]);
    lent.string = vectors::string(2, 20);
    let mut state = vec![0; receiver_state::STATE_BYTES];
    let answer = rcds_receiver_setup(&SETTINGS, WIDTH, 5, &mut lent, &mut state);
    assert!(answer > ACCEPTED);
    let mut table = vec![170; TABLE_BYTES];
    assert_eq!(rcds_strata_build(&state, &lent, &mut table), 0);
    let list = lent.shingle_list();
    assert!(list.len() > 3);
    assert_eq!(read(&table), build(&list));
    let mut other = state.clone();
    other[40..].fill(255);
    assert_eq!(rcds_take(&mut other, &mut lent, &[], &mut []), 9);
    assert_eq!(both(&other, &lent, [TABLE_BYTES; 3]), [0, ACCEPTED]);
    // Five rows are enough.
    assert_eq!(both(&state[..40], &lent, [TABLE_BYTES; 3]), [0, ACCEPTED]);
}

#[test]
fn nothing_differs() {
    let list = some(300);
    assert_eq!(estimated_of_lists(&list, &list), 0);
    assert_eq!(estimated_of_lists(&[], &[]), 0);
    // Any cells against themselves, whatever the list.
    let any: Vec<u8> = (0..TABLE_BYTES).map(|k| fnv1a(&[k as u8]) as u8).collect();
    assert_eq!(estimated(&read(&any), &read(&any), &list), 0);
}

#[test]
fn shingles_of_either_end_are_counted() {
    let all = one_of_each(0..16);
    let common = some(40);
    let with = |more: &[Shingle]| [&common[..], more].concat();
    assert_eq!(estimated_of_lists(&with(&all), &common), 16);
    assert_eq!(estimated_of_lists(&common, &with(&all)), 16);
    assert_eq!(estimated_of_lists(&with(&all[..5]), &with(&all[5..])), 16);
    for one in all {
        assert_eq!(estimated_of_lists(&with(&[one]), &common), 1);
        assert_eq!(estimated_of_lists(&common, &with(&[one])), 1);
    }
    for one in [CHECKS_0, CHECKS_2_63].concat() {
        assert_eq!(estimated_of_lists(&[one], &[]), 1);
        assert_eq!(estimated_of_lists(&[], &[one]), 1);
    }
}

/// Two shingles of stratum i close it: in stratum 0 two that share their cells.
fn two_of_stratum(i: u32) -> Vec<Shingle> {
    let first = ending_in(i, 3).next().expect("there is one");
    let same_cells = |other: &Shingle| places(other, 4) == places(&first, 4);
    let mut others = ending_in(i, 5).filter(same_cells);
    vec![first, others.next().expect("there is another")]
}

#[test]
fn the_first_stratum_that_does_not_open() {
    for i in 0..16 {
        let above = one_of_each(i + 1..16);
        let listed = 15 - u64::from(i);
        assert_eq!(above.len() as u64, listed);
        let two = two_of_stratum(i);
        let expected = listed * 2_u64.pow(i + 1);
        let theirs = [&above[..], &two].concat();
        assert_eq!(estimated_of_lists(&theirs, &[]), expected, "stratum {i}");
        assert_eq!(estimated_of_lists(&[], &theirs), expected, "stratum {i}");
    }
    assert_eq!(estimated_of_lists(&two_of_stratum(15), &[]), 0);
    let middle = [one_of_each(8..16), two_of_stratum(7), one_of_each(0..7)].concat();
    assert_eq!(estimated_of_lists(&middle, &[]), 8 * 256);
    let last = [one_of_each(1..16), two_of_stratum(0)].concat();
    assert_eq!(estimated_of_lists(&last, &[]), 15 * 2);
}

#[test]
fn what_is_below_the_first_that_does_not_open_is_not_looked_at() {
    for i in 1..16 {
        let upper = [one_of_each(i + 1..16), two_of_stratum(i)].concat();
        let expected = estimated_of_lists(&upper, &[]);
        let with_lower = [upper, one_of_each(0..i)].concat();
        assert_eq!(estimated_of_lists(&with_lower, &[]), expected);
        let mut strata = build(&with_lower);
        strata[i as usize - 1] = vec![[5; 5]; 12];
        assert_eq!(estimated(&strata, &build(&[]), &[]), expected);
    }
}

/// Why a stratum does not open, over any cells and list; of those conditions that are asked here.
fn why(i: usize, theirs: &[Vec<Cell>], own: &[Vec<Cell>], list: &[Shingle]) -> Vec<Closed> {
    open(i, SETTINGS.levels, &theirs[i], &own[i], list)
        .err()
        .unwrap_or_default()
}

#[test]
fn each_condition_decides() {
    for i in [0, 1, 9, 15] {
        let one = first_ending_in(i as u32);
        let none = build(&[]);
        let [mut positive, mut negative] = [none.clone(), none.clone()];
        put(&mut positive, i, &one, false);
        put(&mut negative, i, &one, true);
        // "negative ones are in the own list, positive ones are not"
        assert_eq!(why(i, &positive, &none, &[]), []);
        assert_eq!(why(i, &positive, &none, &[one]), [Closed::PositiveOwn]);
        assert_eq!(why(i, &negative, &none, &[one]), []);
        assert_eq!(why(i, &negative, &none, &[]), [Closed::NegativeNotOwn]);
        // The own strata are subtracted from the other's.
        assert_eq!(why(i, &none, &negative, &[]), []);
        assert_eq!(why(i, &none, &positive, &[one]), []);
        // All four fields count.
        let other = Shingle { count: 2, ..one };
        assert_eq!(why(i, &negative, &none, &[other]), [Closed::NegativeNotOwn]);
        // "all cells end at 0"
        let mut left = positive.clone();
        left[i][2] = plus(&left[i][2], &[0, 0, 0, 0, 1]);
        assert_eq!(why(i, &left, &none, &[]), [Closed::CellsLeft]);
        for strata in [&left, &negative] {
            assert_eq!(estimated(strata, &none, &[]), 0);
        }
        assert_eq!(estimated(&positive, &none, &[]), 1);
    }
}

/// "no shingle was taken twice" never decides: see `three_cells_that_are_always_equal`.
#[test]
fn a_shingle_taken_twice_leaves_cells() {
    let one = first_ending_in(4);
    let none = build(&[]);
    let mut strata = none.clone();
    strata[4][places(&one, 4)[1]] = part(&one);
    let expected = [Closed::CellsLeft, Closed::TakenTwice];
    assert_eq!(why(4, &strata, &none, &[one])[..2], expected);
    let difference = difference(&strata[4], &none[4]);
    let takings = takings(&difference, SETTINGS.levels, 4);
    assert_eq!(takings.taken.len(), 12, "at most 3q times");
}

#[test]
fn size_and_pairs_are_dropped() {
    // A list of 4,096 shingles of one stratum, and one more.
    let mut full: Vec<Shingle> = ending_in(0, 7).take(4_097).collect();
    let one = full.pop().expect("4,097 shingles");
    let theirs = build(&[&full[..], &[one]].concat());
    assert_eq!(why(0, &theirs, &build(&full), &full), []);
    assert_eq!(estimated(&theirs, &build(&full), &full), 1);
    // A pair that has another count at the other end, in the same stratum or in another.
    let old = first_ending_in(0);
    let mut met = [false; 2];
    for count in 2..30 {
        let new = Shingle { count, ..old };
        met[usize::from(stratum(&new) == 0)] = true;
        assert_eq!(estimated_of_lists(&[old, new], &[old]), 1);
    }
    assert_eq!(met, [true; 2]);
}

#[test]
fn the_own_list_is_that_of_the_stratum() {
    let [low, high] = [2, 6].map(first_ending_in);
    let none = build(&[]);
    let [mut positive, mut negative] = [none.clone(), none.clone()];
    put(&mut positive, 6, &low, false);
    put(&mut negative, 6, &low, true);
    let own = [low, high];
    // It is an own shingle, but none of stratum 6.
    assert_eq!(why(6, &positive, &none, &own), []);
    assert_eq!(estimated(&positive, &none, &own), 1);
    assert_eq!(why(6, &negative, &none, &own), [Closed::NegativeNotOwn]);
    assert_eq!(estimated(&negative, &none, &own), 0);
}

#[test]
fn levels_are_those_of_the_settings() {
    for level in 0..=4 {
        let of_level = |own: u64| Shingle {
            level,
            previous: 1,
            own,
            count: 1,
        };
        let mut all = (1..).map(of_level);
        let one = all.find(|one| stratum(one) == 1).expect("there is one");
        let (theirs, own) = (build(&[one]), build(&[]));
        for levels in 1..=4 {
            let expected = u64::from(level <= levels);
            assert_eq!(estimate(levels, &theirs, &own, &[]), expected);
        }
        // Stratum 1 does not open, and nothing was listed before it.
        let expected = u64::from(level <= SETTINGS.levels);
        assert_eq!(estimated(&theirs, &own, &[]), expected);
    }
}

/// The two lowest bits of F(1), F(2) and F(3) are those of F(0), some of them turned: the prime is 3 modulo 4, and
/// multiplying by 3 turns bit 1 where bit 0 is set. So at q = 4 the three cells are one of four triples, which have
/// no cell in common, and F(3) says which: two triples are of stratum 0, one of stratum 1, one of the rest.
#[test]
fn three_cells_of_four_triples() {
    for shingle in some(2_000) {
        let expected = match f(3, &shingle) % 4 {
            0 => [1, 6, 11],
            1 => [0, 7, 10],
            2 => [3, 4, 9],
            _ => [2, 5, 8],
        };
        assert_eq!(places(&shingle, 4), expected);
    }
}

/// What is taken from one cell of a triple is taken from all three. They end at 0 only if they were equal, and
/// then the first taking empties them: a stratum that opens lists at most one shingle of each triple, so at most
/// four, and none twice.
#[test]
fn three_cells_that_are_always_equal() {
    let pool = some(40);
    let mut opened = [0; 5];
    let mut twice = 0;
    for k in 0..20_000_u64 {
        let mut random = fnv1a(&k.to_be_bytes());
        let mut any = |below: u64| {
            random = fnv1a(&random.to_be_bytes());
            random % below
        };
        let mut strata = vec![vec![[0; 5]; 12]];
        for _ in 0..=any(5) {
            let shingle = &pool[any(40) as usize];
            match any(8) {
                0 => strata[0][any(12) as usize] = part(shingle),
                sign => put(&mut strata, 0, shingle, sign % 2 == 0),
            }
        }
        let takings = takings(&strata[0], SETTINGS.levels, 4);
        let failing = closed(&takings, &pool);
        twice += u64::from(failing.contains(&Closed::TakenTwice));
        if !failing.contains(&Closed::CellsLeft) {
            assert!(!failing.contains(&Closed::TakenTwice));
            opened[takings.taken.len()] += 1;
        }
    }
    assert!(opened.iter().all(|&count| count > 0), "{opened:?}");
    assert!(twice > 100, "{twice}");
}

#[test]
fn the_largest_estimate() {
    // Four shingles in stratum 15, one of each triple, as no list has them there; stratum 14 does not open.
    let none = build(&[]);
    let mut strata = none.clone();
    let mut triples = Vec::new();
    for shingle in some(40) {
        if !triples.contains(&places(&shingle, 4)) {
            triples.push(places(&shingle, 4));
            put(&mut strata, 15, &shingle, false);
        }
    }
    assert_eq!(triples.len(), 4);
    assert_eq!(estimated(&strata, &none, &[]), 4);
    strata[14][0] = [1; 5];
    assert_eq!(estimated(&strata, &none, &[]), 4 * 32_768);
}

/// Shingles and whether they are negative, sorted.
type Signed = Vec<(Shingle, bool)>;

/// "what the sender's shingle list has and the own lacks, as positive, and the reverse, as negative", of one
/// stratum.
fn true_difference(i: usize, theirs: &[Shingle], own: &[Shingle]) -> Signed {
    let mut signed = Vec::new();
    for (list, other, negative) in [(theirs, own, false), (own, theirs, true)] {
        let lacking = |shingle: &Shingle| !other.contains(shingle);
        let of_stratum = of_stratum(list, i).into_iter();
        signed.extend(of_stratum.filter(lacking).map(|one| (one, negative)));
    }
    signed.sort();
    signed
}

/// The shingles that a stratum of two lists' strata lists, if it opens.
fn listed(i: usize, theirs: &[Shingle], own: &[Shingle]) -> Option<Signed> {
    let (of_theirs, of_own) = (build(theirs), build(own));
    let taken = open(i, SETTINGS.levels, &of_theirs[i], &of_own[i], own).ok()?;
    let mut signed: Signed = taken
        .iter()
        .map(|one| (one.shingle, one.negative))
        .collect();
    signed.sort();
    Some(signed)
}

/// Where every stratum opens to its true difference, the estimate is the number of differing shingles.
#[test]
fn a_true_difference() {
    let all = some(1_500);
    let (mut opened, mut others) = (0, 0);
    for k in 0..300 {
        let (new, gone) = (k % 5, k % 4);
        let theirs = &all[4 * k..4 * k + 50];
        let own = &all[4 * k + new..4 * k + 50 + gone];
        let is_true = |i: usize| listed(i, theirs, own) == Some(true_difference(i, theirs, own));
        if !(0..16).all(is_true) {
            others += 1;
            continue;
        }
        assert_eq!(estimated_of_lists(theirs, own), (new + gone) as u64);
        opened += usize::from(new > 0 && gone > 0);
    }
    assert!(opened > 20 && others > 20, "{opened}, {others}");
}
