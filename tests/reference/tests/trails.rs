//! Trails: document 01, "Checked by hand"; numbers and orders against all sequences; the calls.

use reference::eulerian::trails_from;
use reference::rcds::{
    count, rcds_trail_number, rcds_trail_order, says_only, ACCEPTED, ONLY_TRAIL,
};
use reference::trail::{
    all_trails, has_only_one, is_only_trail, multiset, number_of_order, order_of_number, pairs,
    trail, trails_before, Multiset, Pair,
};

/// a < b < c
const A: u64 = 7;
const B: u64 = 1 << 63;
const C: u64 = u64::MAX;

fn entries(pairs: &[Pair]) -> Vec<(Pair, u64)> {
    pairs.iter().map(|&pair| (pair, 1)).collect()
}

fn bytes(rows: &[u64]) -> Vec<u8> {
    rows.iter().flat_map(|row| row.to_be_bytes()).collect()
}

#[test]
fn pairs_start_from_0() {
    assert_eq!(pairs(&[A, A, B]), [(0, A), (A, A), (A, B)]);
    assert_eq!(pairs(&[]), []);
}

#[test]
fn two_trails() {
    let over = multiset(&[(0, A), (A, A), (A, B), (B, A)]);
    let both = [[A, A, B, A], [A, B, A, A]];
    assert_eq!(all_trails(&over), both);
    assert_eq!(trails_from(0, &over), 2);
    for (number, ids) in both.iter().enumerate() {
        assert_eq!(number_of_order(ids), Some(number as u64));
        let order = order_of_number(&entries(&pairs(ids)), number as u64);
        assert_eq!(order.as_deref(), Some(ids.as_slice()));
    }
    assert_eq!(order_of_number(&entries(&pairs(&both[0])), 2), None);
    assert!(!has_only_one(&over) && !both.iter().any(|ids| is_only_trail(ids)));
}

/// The starred case without one of its pairs, or with one of them again, where a trail is left.
#[test]
fn one_trail_beside_the_two() {
    let only: [(&[Pair], &[u64]); 6] = [
        (&[(0, A), (A, B), (B, A)], &[A, B, A]),
        (&[(0, A), (A, A), (A, B)], &[A, A, B]),
        (&[(0, A), (A, A)], &[A, A]),
        (&[(0, A), (A, B)], &[A, B]),
        (&[(0, A)], &[A]),
        (&[(0, A), (A, A), (A, A)], &[A, A, A]),
    ];
    for (over, ids) in only {
        assert_eq!(all_trails(&multiset(over)), [ids]);
        assert!(has_only_one(&multiset(over)) && is_only_trail(ids));
        assert_eq!(order_of_number(&entries(over), 0).as_deref(), Some(ids));
        assert_eq!(number_of_order(ids), Some(0));
    }
    // Two trails become three.
    let three = multiset(&[(0, A), (A, A), (A, A), (A, B), (B, A)]);
    assert_eq!(all_trails(&three).len(), 3);
    assert!(!has_only_one(&three));
}

/// Orders of every length whose trail is the only one, and some of which it is not.
#[test]
fn only_trails_of_every_length() {
    for length in 1..=32 {
        let equal = vec![A; length];
        let different: Vec<u64> = (0..length as u64).map(|k| A + k).collect();
        let ended = [vec![A; length - 1], vec![B]].concat();
        for ids in [equal, different, ended] {
            assert!(is_only_trail(&ids), "{ids:?}");
        }
        // The starred case, with more ids where b stands.
        if length >= 5 {
            let mut ids = vec![A, A];
            ids.extend((0..length as u64 - 3).map(|k| B + k));
            ids.push(A);
            assert!(!is_only_trail(&ids), "{ids:?}");
        }
    }
}

#[test]
fn no_trail() {
    let over = [(0, A), (B, C)];
    assert_eq!(all_trails(&multiset(&over)), Vec::<Vec<u64>>::new());
    assert_eq!(trails_from(0, &multiset(&over)), 0);
    assert_eq!(order_of_number(&entries(&over), 0), None);
    assert!(!has_only_one(&multiset(&over)));
}

/// Everything that is said of a multiset by counting, against all its sequences.
fn compare_with_all_sequences(over: &Multiset) -> usize {
    let all = all_trails(over);
    assert_eq!(trails_from(0, over), all.len() as u128, "{over:?}");
    for (number, ids) in all.iter().enumerate() {
        assert_eq!(trails_before(ids), number as u128, "{ids:?}");
        assert_eq!(trail(over, number as u128).as_ref(), Some(ids));
    }
    assert_eq!(trail(over, all.len() as u128), None, "{over:?}");
    assert_eq!(has_only_one(over), all.len() == 1, "{over:?}");
    compare_calls_with_all_sequences(over, &all);
    all.len()
}

/// What both calls answer about each trail of a multiset, and about the number after the last: "The trail
/// search now also says whether its trail is the only one." (document 02, request 5)
fn compare_calls_with_all_sequences(over: &Multiset, all: &[Vec<u64>]) {
    let rows = over.iter().flat_map(|(&(a, b), &count)| [a, b, count]);
    let table = bytes(&rows.collect::<Vec<_>>());
    let only = match all.len() {
        1 => ONLY_TRAIL,
        _ => 0,
    };
    for (number, ids) in all.iter().enumerate() {
        let mut written = vec![170; 8 * ids.len()];
        let answer = rcds_trail_order(&table, number as u64, &mut written);
        assert_eq!(answer, ACCEPTED + only + ids.len() as u64, "{over:?}");
        assert_eq!(written, bytes(ids));
        let expected = match ids.contains(&0) {
            true => 17,
            false => ACCEPTED + only + number as u64,
        };
        assert_eq!(rcds_trail_number(&bytes(ids)), expected, "{ids:?}");
    }
    let after = rcds_trail_order(&table, all.len() as u64, &mut [0; 64]);
    assert_eq!(after, 17, "{over:?}");
}

#[test]
fn every_small_multiset() {
    let ids = [0, A, B];
    let mut by_trails = [0; 3];
    for counts in 0..3_u64.pow(9) {
        let mut over = Multiset::new();
        for place in 0..9 {
            let count = counts / 3_u64.pow(place) % 3;
            if count > 0 {
                over.insert((ids[place as usize / 3], ids[place as usize % 3]), count);
            }
        }
        if (1..=6).contains(&over.values().sum::<u64>()) {
            by_trails[compare_with_all_sequences(&over).min(2)] += 1;
        }
    }
    let [none, one, several] = by_trails;
    assert!(none > 100, "{none} multisets had no trail");
    assert!(one > 100, "{one} multisets had one trail");
    assert!(several > 100, "{several} multisets had several trails");
}

/// All orders of the numbers below a count.
fn permutations(count: usize) -> Vec<Vec<usize>> {
    let Some(last) = count.checked_sub(1) else {
        return vec![vec![]];
    };
    let mut all = Vec::new();
    for order in permutations(last) {
        all.extend((0..count).map(|place| {
            let mut longer = order.clone();
            longer.insert(place, last);
            longer
        }));
    }
    all
}

/// Every order of up to 7 ids, each of three, against every permutation of it: its trail is the only one
/// when no other sequence of its ids has its pairs.
#[test]
fn every_short_order_against_its_permutations() {
    let ids = [A, B, C];
    let (mut only, mut others) = (0, 0);
    for length in 1..=7 {
        let permutations = permutations(length);
        for code in 0..3_usize.pow(length as u32) {
            let id = |k: usize| ids[code / 3_usize.pow(k as u32) % 3];
            let order: Vec<u64> = (0..length).map(id).collect();
            let over = multiset(&pairs(&order));
            let other = permutations.iter().any(|places| {
                let permuted: Vec<u64> = places.iter().map(|&place| order[place]).collect();
                permuted != order && multiset(&pairs(&permuted)) == over
            });
            assert_eq!(is_only_trail(&order), !other, "{order:?}");
            only += usize::from(!other);
            others += usize::from(other);
        }
    }
    assert!(only > 500 && others > 500, "{only} and {others}");
}

#[test]
fn orders_of_four_ids() {
    let mut most = 0;
    for seed in 0..300_u64 {
        let mut x = seed;
        let mut id = || {
            x = x
                .wrapping_mul(6_364_136_223_846_793_005)
                .wrapping_add(1_442_695_040_888_963_407);
            [A, A + 1, B, C][(x >> 33) as usize % 4]
        };
        let length = 1 + seed as usize % 8;
        let ids: Vec<u64> = (0..length).map(|_| id()).collect();
        most = most.max(compare_with_all_sequences(&multiset(&pairs(&ids))));
    }
    assert!(most > 15, "at most {most} trails");
}

#[test]
fn equal_pairs_are_not_told_apart() {
    assert_eq!(trails_from(0, &multiset(&pairs(&[A; 32]))), 1);
    let order = [A; 31].iter().copied().chain([B]).collect::<Vec<_>>();
    assert_eq!(number_of_order(&order), Some(0));
}

/// A star: from its middle A to each of some ids and back.
fn star(points: u64) -> Vec<u64> {
    let back = |point: u64| [A + 1 + point, A];
    [A].into_iter().chain((0..points).flat_map(back)).collect()
}

#[test]
fn a_star_has_as_many_trails_as_orders_of_its_points() {
    let factorial = |n: u128| (1..=n).product::<u128>();
    for points in 0..=15 {
        let over = multiset(&pairs(&star(points)));
        assert_eq!(trails_from(0, &over), factorial(u128::from(points)));
        let last = trail(&over, factorial(u128::from(points)) - 1).expect("the last trail");
        let back = |point: u64| [A + 1 + point, A];
        let falling = (0..points).rev().flat_map(back);
        assert_eq!(last, [A].into_iter().chain(falling).collect::<Vec<_>>());
    }
}

#[test]
fn numbers_up_to_4095() {
    let over = multiset(&pairs(&star(7)));
    let entries: Vec<(Pair, u64)> = over.iter().map(|(&pair, &count)| (pair, count)).collect();
    for number in [0, 1, 4_094, 4_095] {
        let order = order_of_number(&entries, number).expect("a star of 7 has 5,040 trails");
        assert_eq!(number_of_order(&order), Some(number));
    }
    for number in [4_096, 5_039, 5_040, u64::MAX] {
        assert_eq!(order_of_number(&entries, number), None);
    }
    for number in [4_096, 4_097, 5_039] {
        let order = trail(&over, number).expect("a star of 7 has 5,040 trails");
        assert_eq!(number_of_order(&order), Some(4_096));
        assert_eq!(rcds_trail_number(&bytes(&order)), ACCEPTED + 4_096);
    }
}

#[test]
fn one_to_32_nonzero_ids() {
    assert_eq!(number_of_order(&[]), None);
    assert_eq!(number_of_order(&[A]), Some(0));
    assert_eq!(number_of_order(&[A; 32]), Some(0));
    assert_eq!(number_of_order(&[A; 33]), None);
    assert_eq!(number_of_order(&[A, 0, B]), None);
}

#[test]
fn counts_add_up_to_1_to_32() {
    let ask = |entries: &[(Pair, u64)]| order_of_number(entries, 0).map(|ids| ids.len());
    assert_eq!(ask(&[]), None);
    assert_eq!(ask(&[((0, A), 0)]), None);
    assert_eq!(ask(&[((B, C), 0), ((0, A), 1), ((C, C), 0)]), Some(1));
    assert_eq!(ask(&[((A, A), 15), ((0, A), 1), ((A, A), 16)]), Some(32));
    assert_eq!(ask(&[((A, A), 16), ((0, A), 1), ((A, A), 16)]), None);
    assert_eq!(ask(&[((0, A), u64::MAX), ((0, A), 2)]), None);
}

#[test]
fn id_0_inside_a_trail() {
    // 0 A, A 0, 0 B: from 0 the walk may come back to 0.
    let over = [((0, A), 1), ((A, 0), 1), ((0, B), 1)];
    assert_eq!(order_of_number(&over, 0), Some(vec![A, 0, B]));
    assert_eq!(order_of_number(&over, 1), None);
    assert_eq!(order_of_number(&[((0, 0), 2)], 0), Some(vec![0, 0]));
    let table = bytes(&[0, A, 1, A, 0, 1, 0, B, 1]);
    let answer = rcds_trail_order(&table, 0, &mut [0; 24]);
    assert_eq!(answer, ACCEPTED + ONLY_TRAIL + 3);
}

/// What the header's macros have of an answer.
#[test]
fn parts_of_an_answer() {
    for small in [0, 1, 4_096, u64::from(u32::MAX)] {
        for (only, added) in [(false, 0), (true, ONLY_TRAIL)] {
            let answer = ACCEPTED + added + small;
            assert_eq!((count(answer), says_only(answer)), (small, only));
        }
    }
    assert!(![17, 20, ACCEPTED].into_iter().any(says_only));
}

#[test]
fn numbering_through_bytes() {
    let order = [A, B, A, A];
    assert_eq!(rcds_trail_number(&bytes(&order)), ACCEPTED + 1);
    assert_eq!(rcds_trail_number(&bytes(&order)[1..]), 17);
    assert_eq!(rcds_trail_number(&[]), 17);
    assert_eq!(rcds_trail_number(&[1; 257]), 17);
    assert_eq!(rcds_trail_number(&[1; 256]), ACCEPTED + ONLY_TRAIL);
    assert_eq!(rcds_trail_number(&[1; 264]), 17);
    assert_eq!(rcds_trail_number(&bytes(&[A])), ACCEPTED + ONLY_TRAIL);
    assert_eq!(rcds_trail_number(&bytes(&[A, B, A])), ACCEPTED + ONLY_TRAIL);
    assert_eq!(rcds_trail_number(&bytes(&[A, A, B, A])), ACCEPTED);
    assert_eq!(rcds_trail_number(&bytes(&[A, 0])), 17);
}

#[test]
fn ordering_through_bytes() {
    let over = bytes(&[A, B, 1, 0, A, 1, A, A, 1, B, A, 1]);
    let ask = |pairs: &[u8], number: u64, room: usize| {
        let mut ids = vec![170; room];
        let answer = rcds_trail_order(pairs, number, &mut ids);
        let written = if answer < ACCEPTED {
            0
        } else {
            8 * count(answer) as usize
        };
        assert!(ids[written..].iter().all(|&byte| byte == 170));
        (answer, ids[..written].to_vec())
    };
    assert_eq!(ask(&over, 0, 40), (ACCEPTED + 4, bytes(&[A, A, B, A])));
    assert_eq!(ask(&over, 1, 32), (ACCEPTED + 4, bytes(&[A, B, A, A])));
    assert_eq!(ask(&over, 1, 31).0, 20);
    assert_eq!(ask(&over, 2, 31).0, 17);
    assert_eq!(ask(&over, 4_096, 0).0, 17);
    assert_eq!(ask(&over[..95], 0, 256).0, 17);
    assert_eq!(ask(&over[24..], 0, 256).0, 17);
    let mut entries = over.clone();
    entries.resize(768, 0);
    assert_eq!(ask(&entries, 0, 256).0, ACCEPTED + 4);
    entries.resize(792, 0);
    assert_eq!(ask(&entries, 0, 256).0, 17);
    assert_eq!(ask(&[], 0, 256).0, 17);
    // Without the pair of A and A there is one.
    let one = bytes(&[A, B, 1, 0, A, 1, B, A, 1]);
    let answer = ACCEPTED + ONLY_TRAIL + 3;
    assert_eq!(ask(&one, 0, 24), (answer, bytes(&[A, B, A])));
    assert_eq!(ask(&one, 0, 23).0, 20);
    assert_eq!(ask(&one, 1, 24).0, 17);
}
