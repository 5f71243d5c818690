//! Shingles, sketches and openings, by hand.

use reference::cell_table;
use reference::fnv::fnv1a;
use reference::opening::{
    closed, difference, open, single, takings, Closed, NotSingle, Taken, Takings,
};
use reference::rcds::{rcds_sender_setup, rcds_sketch_open, ACCEPTED};
use reference::settings::Settings;
use reference::shingle::{children, pairs, shingles, Pair, Shingle};
use reference::shingle_table;
use reference::sketch::{f, minus, part, places, sketch, twenty_bytes};
use reference::tree::tree;
use reference::vectors::{ruler, FULL_RULER, LONG_RULER, RULED};

/// "With w=2, p=2, L=1, M=2"
const SMALLEST: Settings = Settings {
    window: 2,
    fan_out: 2,
    levels: 1,
    nominal: 2,
};

fn shingle(level: u64, previous: u64, own: u64, count: u64) -> Shingle {
    Shingle {
        level,
        previous,
        own,
        count,
    }
}

/// So many shingles that have no pair in common.
fn some(count: u64) -> Vec<Shingle> {
    let id = |k: u64| fnv1a(&k.to_be_bytes());
    let mut list: Vec<Shingle> = (0..count)
        .map(|k| shingle(k % 3, id(k), id(k + 1), 1))
        .collect();
    list.sort();
    list
}

#[test]
fn shingles_of_six_bytes() {
    let string = [0x00, 0x03, 0x00, 0x00, 0x01, 0x00];
    let (root, left, right) = (fnv1a(&string), fnv1a(&string[..1]), fnv1a(&string[1..]));
    let expected = [
        shingle(0, 0, root, 1),
        shingle(1, 0, left, 1),
        shingle(1, left, right, 1),
    ];
    assert_eq!(shingles(&tree(&SMALLEST, &string)), expected);
}

#[test]
fn a_pair_is_counted_over_its_level() {
    // 01 00 and 00 01 have the values 2 and 3, so that nine bytes are cut at 2, 4 and 6: the blocks are 01 00, 01 00,
    // 01 00 and 01 00 01.
    let string = [1, 0, 1, 0, 1, 0, 1, 0, 1];
    let (two, three) = (fnv1a(&[1, 0]), fnv1a(&[1, 0, 1]));
    let list = shingles(&tree(&SMALLEST, &string));
    let mut expected = vec![
        shingle(1, 0, two, 1),
        shingle(1, two, two, 2),
        shingle(1, two, three, 1),
    ];
    expected.sort();
    assert_eq!(list[0], shingle(0, 0, fnv1a(&string), 1));
    assert_eq!(list[1..], expected);
}

#[test]
fn empty_string_gives_one_shingle_for_each_level() {
    let list = shingles(&tree(&RULED, &[]));
    let expected = [0, 1, 2, 3, 4].map(|level| shingle(level, 0, fnv1a(&[]), 1));
    assert_eq!(list, expected);
}

#[test]
fn a_first_child_has_no_sibling_under_another_parent() {
    let nodes = tree(&RULED, &ruler(FULL_RULER));
    let list = shingles(&nodes);
    let sum: u64 = list.iter().map(|shingle| shingle.count).sum();
    assert_eq!(sum, 4_096);
    for level in 1..=4 {
        let of_level = |list: &&Shingle| list.level == level && list.previous == 0;
        let firsts: u64 = list.iter().filter(of_level).map(|s| s.count).sum();
        let parents = nodes.iter().filter(|node| node.level + 1 == level).count();
        assert_eq!(firsts, parents as u64, "level {level}");
    }
}

#[test]
fn twenty_bytes_and_what_is_hashed() {
    let one = shingle(4, 0x0102_0304_0506_0708, 0x1112_1314_1516_1718, 0x0abc);
    let bytes = [
        1, 2, 3, 4, 5, 6, 7, 8, 17, 18, 19, 20, 21, 22, 23, 24, 0, 4, 0x0a, 0xbc,
    ];
    assert_eq!(twenty_bytes(&one), bytes);
    let mut hashed = vec![2];
    hashed.extend(bytes);
    assert_eq!(f(2, &one), fnv1a(&hashed));
    let expected = [0, 1, 2].map(|j| j as usize * 64 + f(j, &one) as usize % 64);
    assert_eq!(places(&one, 64), expected);
    assert_eq!(places(&one, 1), [0, 1, 2]);
    assert_eq!(part(&one), [1, one.previous, one.own, 0x4_0abc, f(3, &one)]);
}

#[test]
fn sums_are_modulo_2_64() {
    let large = shingle(1, u64::MAX, u64::MAX, 2);
    let small = shingle(1, 1, 5, 3);
    let cells = sketch(&[small, large], 1);
    let check = f(3, &large).wrapping_add(f(3, &small));
    assert_eq!(cells, [[2, 0, 4, 2 * 65_536 + 5, check]; 3]);
}

#[test]
fn an_entry_is_three_rows_and_a_cell_is_five() {
    let one = shingle(4, 0x0102_0304_0506_0708, 0x1112_1314_1516_1718, 0x0abc);
    let bytes = [
        1, 2, 3, 4, 5, 6, 7, 8, 17, 18, 19, 20, 21, 22, 23, 24, 0, 0, 0, 0, 0, 4, 0x0a, 0xbc,
    ];
    assert_eq!(shingle_table::entry(&one), bytes);
    assert_eq!(shingle_table::shingle(&bytes), one);
    let mut table = [170; 100];
    shingle_table::write(&[one], &mut table);
    assert!(table[24..].iter().all(|&byte| byte == 0));
    assert_eq!(shingle_table::read(&table), [one]);
    let mut table = vec![170; 130];
    cell_table::write(&[[1, 2, 3, 4, 5]; 3], &mut table);
    assert_eq!(table[..9], [0, 0, 0, 0, 0, 0, 0, 1, 0]);
    assert!(table[120..].iter().all(|&byte| byte == 0));
    assert_eq!(cell_table::read(&table, 1), [[1, 2, 3, 4, 5]; 3]);
}

#[test]
fn a_setup_fills_what_it_is_lent() {
    let string = [0x00, 0x03, 0x00, 0x00, 0x01, 0x00];
    let (mut nodes, mut list) = (vec![170; 65_540], vec![170; 98_310]);
    let (mut cells, mut state) = (vec![170; 250], vec![170; 43]);
    let answer = rcds_sender_setup(
        &SMALLEST, 2, &string, &mut nodes, &mut list, &mut cells, &mut state,
    );
    assert_eq!(answer, ACCEPTED + 3);
    let expected = shingles(&tree(&SMALLEST, &string));
    assert_eq!(shingle_table::read(&list), expected);
    assert!(list[72..].iter().all(|&byte| byte == 0));
    assert_eq!(cell_table::read(&cells, 2), sketch(&expected, 2));
    assert!(cells[240..].iter().all(|&byte| byte == 0));
    let mut rows = vec![0; 40];
    rows[7] = 2;
    rows[15] = 2;
    rows[23] = 1;
    rows[31] = 2;
    rows[39] = 2;
    assert_eq!(state[..40], rows);
    assert_eq!(state[40..], [170; 3]);
}

#[test]
fn questions_of_a_setup_in_their_order() {
    let ask = |nominal, width, string: usize, lengths: [usize; 4]| {
        let [mut nodes, mut list, mut cells, mut state] = lengths.map(|n| vec![170; n]);
        let settings = Settings { nominal, ..RULED };
        let answer = rcds_sender_setup(
            &settings,
            width,
            &ruler(string),
            &mut nodes,
            &mut list,
            &mut cells,
            &mut state,
        );
        let tables = [nodes, list, cells].concat();
        let left = |byte: u8| tables.iter().all(|&other| other == byte);
        assert!(answer == 8 && left(0) || answer >= ACCEPTED || left(170));
        assert!(answer >= ACCEPTED || state.iter().all(|&byte| byte == 170));
        answer
    };
    let enough = [65_536, 98_304, 7_680, 40];
    assert_eq!(ask(1, 0, 65_537, [0; 4]), 4);
    for width in [0, 65, u64::MAX] {
        assert_eq!(ask(4_096, width, 65_537, [0; 4]), 5);
    }
    assert_eq!(ask(4_096, 64, 65_537, [0; 4]), 6);
    for piece in 0..4 {
        let mut lengths = enough;
        lengths[piece] -= 1;
        assert_eq!(ask(4_096, 64, 65_536, lengths), 7);
    }
    assert_eq!(ask(4_096, 63, 65_536, [65_536, 98_304, 7_559, 40]), 7);
    assert_eq!(ask(4_096, 64, 65_536, enough), 8);
    assert_eq!(ask(4_096, 64, LONG_RULER, enough), 8);
    assert_eq!(ask(4_096, 64, FULL_RULER, enough), ACCEPTED + 4_096);
}

#[test]
fn equal_lists_open_and_a_difference_is_found() {
    let all = some(40);
    for width in [17, 33, 61] {
        let own = sketch(&all[..35], width);
        assert_eq!(
            open(4, width, &own, &own, &all[..35]),
            Ok(all[..35].to_vec())
        );
        let theirs = sketch(&all[5..], width);
        assert_eq!(
            open(4, width, &theirs, &own, &all[..35]),
            Ok(all[5..].to_vec())
        );
    }
}

#[test]
fn an_opening_leaves_the_new_list_and_zeros() {
    let all = some(40);
    let cells = |list: &[Shingle]| {
        let mut table = vec![0; 33 * 120];
        cell_table::write(&sketch(list, 33), &mut table);
        table
    };
    let (theirs, own) = (cells(&all[5..]), cells(&all[..35]));
    let mut table = vec![0; 98_304];
    shingle_table::write(&all[..35], &mut table);
    table[90_000] = 170;
    assert_eq!(
        rcds_sketch_open(4, 33, &theirs, &own, &mut table),
        ACCEPTED + 35
    );
    assert_eq!(shingle_table::read(&table), &all[5..]);
    assert!(table[35 * 24..].iter().all(|&byte| byte == 0));
    let before = table.clone();
    assert_eq!(rcds_sketch_open(4, 33, &theirs, &own, &mut table), 14);
    assert_eq!(rcds_sketch_open(0, 0, &[], &[], &mut table), 3);
    assert_eq!(rcds_sketch_open(4, 65, &[], &[], &mut table), 5);
    assert_eq!(rcds_sketch_open(4, 33, &theirs[1..], &own, &mut table), 7);
    assert_eq!(rcds_sketch_open(4, 33, &theirs, &own[1..], &mut table), 7);
    assert_eq!(table, before);
    assert_eq!(rcds_sketch_open(4, 33, &theirs, &own, &mut table[1..]), 7);
}

#[test]
fn a_cell_is_single_by_all_conditions() {
    let cell_of = |one: &Shingle| (part(one), places(one, 64)[1]);
    let one = shingle(2, 5, 6, 4_096);
    let (cell, i) = cell_of(&one);
    let negative = cell.map(|sum: u64| sum.wrapping_neg());
    assert_eq!(
        single(&cell, i, 2, 64).map(|t| (t.shingle, t.negative)),
        Ok((one, false))
    );
    assert_eq!(
        single(&negative, i, 2, 64).map(|t| (t.shingle, t.negative)),
        Ok((one, true))
    );
    assert_eq!(single(&cell, i, 1, 64), Err(vec![NotSingle::Level]));
    assert_eq!(single(&cell, i + 1, 2, 64), Err(vec![NotSingle::Place]));
    let with = |m: usize, sum: u64| {
        let mut other = cell;
        other[m] = sum;
        single(&other, i, 2, 64)
    };
    assert_eq!(with(0, 2), Err(vec![NotSingle::Number]));
    assert_eq!(with(4, cell[4] ^ 1), Err(vec![NotSingle::Check]));
    assert_eq!(
        with(3, 1 << 32 | cell[3]),
        Err(vec![NotSingle::Tail, NotSingle::Level])
    );
    for count in [0, 4_097, 65_535] {
        let (cell, i) = cell_of(&shingle(2, 5, 6, count));
        assert_eq!(single(&cell, i, 2, 64), Err(vec![NotSingle::Count]));
    }
}

#[test]
fn every_condition_on_lists() {
    let all = some(6);
    let why = |own: &[Shingle], more: &[Shingle], fewer: &[Shingle]| {
        let cells = difference(&sketch(more, 61), &sketch(fewer, 61));
        closed(&takings(&cells, 4, 61), own)
    };
    assert_eq!(why(&all[..4], &all[4..], &all[..2]), []);
    assert_eq!(why(&all[..4], &[], &all[4..5]), [Closed::NegativeNotOwn]);
    let twice = [Closed::PositiveOwn, Closed::PairTwice];
    assert_eq!(why(&all[..4], &all[..1], &[]), twice);
    let other = Shingle { count: 2, ..all[0] };
    assert_eq!(why(&all[..4], &[other], &[]), [Closed::PairTwice]);
    assert_eq!(why(&all[..4], &[other], &all[..1]), []);
    assert_eq!(why(&[all[0], other], &[], &[other]), []);
    let full = some(4_097);
    assert_eq!(why(&full[..4_096], &full[4_096..], &full[..1]), []);
    assert_eq!(why(&full[..4_096], &full[4_096..], &[]), [Closed::TooMany]);
    assert_eq!(why(&all[..4], &[all[4], all[4]], &[]), [Closed::CellsLeft]);
}

#[test]
fn counts_that_agree_modulo_64_share_their_cells_at_64() {
    for k in 0..100 {
        let old = shingle(1, fnv1a(&[k]), 7, 1);
        let new = Shingle { count: 65, ..old };
        let (theirs, own) = (sketch(&[new], 64), sketch(&[old], 64));
        assert_eq!(
            open(4, 64, &theirs, &own, &[old]),
            Err(vec![Closed::CellsLeft])
        );
    }
}

#[test]
fn few_cells_may_open_to_another_list() {
    // Own: x once. Theirs: x twice, and y once. Their only cell may look like y twice.
    let mut wrong = 0;
    for k in 0..1_000_u64 {
        let x = shingle(1, 0, fnv1a(&k.to_be_bytes()), 1);
        let y = shingle(1, x.own, fnv1a(&x.own.to_be_bytes()), 1);
        let more = Shingle { count: 2, ..x };
        let (theirs, own) = (sketch(&[more, y], 1), sketch(&[x], 1));
        if let Ok(list) = open(4, 1, &theirs, &own, &[x]) {
            assert_eq!(list, [x, Shingle { count: 2, ..y }]);
            wrong += 1;
        }
    }
    assert!((200..300).contains(&wrong), "{wrong} of 1,000");
}

/// The pairs of a tree are the root's and, of each node, those of its children in a row.
#[test]
fn pairs_are_those_of_children() {
    let settings = Settings {
        nominal: 64,
        levels: 3,
        ..SMALLEST
    };
    for length in [0, 1, 50, 200, 500] {
        let byte = |k: u64| (fnv1a(&k.to_be_bytes()) % 3) as u8;
        let string: Vec<u8> = (0..length).map(byte).collect();
        let nodes = tree(&settings, &string);
        let mut expected: Vec<Pair> = vec![(0, 0, nodes[0].id)];
        for k in 0..nodes.len() {
            let mut previous = 0;
            for child in children(&nodes, k) {
                expected.push((child.level, previous, child.id));
                previous = child.id;
            }
        }
        let mut given = pairs(&nodes);
        assert_eq!(given.len(), nodes.len());
        expected.sort();
        given.sort();
        assert_eq!(given, expected);
    }
}

/// One cell of three has a shingle: taking it leaves it negative in the other two, taking that brings it
/// back to the first, and so on. "at most 3q times" ends it.
#[test]
fn three_takings_of_one_shingle() {
    let one = shingle(1, 4, 5, 1);
    let mirror = minus(&[0; 5], &part(&one));
    let takings = takings(&[part(&one), [0; 5], [0; 5]], 4, 1);
    let signs: Vec<bool> = takings.taken.iter().map(|taken| taken.negative).collect();
    assert_eq!(signs, [false, true, false]);
    assert!(takings.taken.iter().all(|taken| taken.shingle == one));
    assert_eq!(takings.left, [[0; 5], mirror, mirror]);
    let expected = [
        Closed::CellsLeft,
        Closed::TakenTwice,
        Closed::NegativeNotOwn,
        Closed::PairTwice,
    ];
    assert_eq!(closed(&takings, &[]), expected);
}

/// A positive one that is in the own list either stays there too, so that its pair is in the new list
/// twice, or was also taken as negative, so that it was taken twice. All own lists of up to two shingles
/// and all takings of up to three, from one pair with two counts and another pair.
#[test]
fn a_positive_one_that_is_own_is_never_all() {
    let pool = [
        shingle(1, 0, 5, 1),
        shingle(1, 0, 5, 2),
        shingle(1, 5, 5, 1),
    ];
    let mut met = 0;
    for own in (0..9).map(|k| [pool[k % 3], pool[k / 3]]) {
        for choice in 0..6_usize.pow(3) {
            let taken = [choice % 6, choice / 6 % 6, choice / 36].map(|k| Taken {
                shingle: pool[k % 3],
                negative: k >= 3,
            });
            for (owned, took) in (0..=2).flat_map(|a| (0..=3).map(move |b| (a, b))) {
                let takings = Takings {
                    taken: taken[..took].to_vec(),
                    left: vec![[0; 5]; 3],
                };
                let closed = closed(&takings, &own[..owned]);
                if closed.contains(&Closed::PositiveOwn) {
                    met += 1;
                    let others = [Closed::TakenTwice, Closed::PairTwice];
                    assert!(others.iter().any(|other| closed.contains(other)));
                }
            }
        }
    }
    assert!(met > 1_000, "{met}");
}
