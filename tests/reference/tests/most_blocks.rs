//! Change request 6's bound, by hand, and strings that were searched for one that goes past it by rule 3: "Request 6's
//! bound still holds" (request 7). Blocks are counted by the reference's own cutting, which knows nothing of the bound.

use reference::most_blocks::{bound, most_nodes};
use reference::partition::blocks;
use reference::rcds::{rcds_most_blocks, ACCEPTED};
use reference::settings::{Rule, Settings};
use reference::tree::tree;
use reference::vectors::string;
use std::ops::Range;

/// n, w, h and the bound.
const BY_HAND: [[u64; 4]; 26] = [
    // Shorter than a window, as long as one, and up to the first cut: 2 × h more bytes than a window.
    [0, 2, 1, 1],
    [0, 12, 32_768, 1],
    [1, 2, 1, 1],
    [11, 12, 1, 1],
    [12, 12, 1, 1],
    [13, 12, 1, 1],
    [14, 12, 1, 2],
    [5, 2, 2, 1],
    [6, 2, 2, 2],
    [7, 2, 2, 2],
    [8, 2, 2, 3],
    // 97 / 7 is 13 and 6 over, 98 / 7 is 14.
    [100, 3, 7, 13],
    [101, 3, 7, 14],
    // 31, 32 and 33 distances.
    [33, 2, 1, 31],
    [34, 2, 1, 32],
    [35, 2, 1, 32],
    [65, 2, 2, 31],
    [66, 2, 2, 32],
    [67, 2, 2, 32],
    [68, 2, 2, 32],
    // The longest strings, by 1 and by about half of their bytes.
    [65_536, 2, 1, 32],
    [65_536, 12, 2_047, 32],
    [65_536, 12, 2_048, 31],
    [65_536, 2, 32_767, 2],
    [65_535, 2, 32_767, 1],
    [65_536, 2, 32_768, 1],
];

#[test]
fn bounds_by_hand() {
    for [n, w, h, blocks] in BY_HAND {
        assert_eq!(bound(n, w, h), blocks, "n={n}, w={w}, h={h}");
    }
}

/// n, w and h that "24, w 2 to 12, h 1 to 32,768 and n at most 65,536" refuses, each by one of them.
const REFUSED: [[u64; 3]; 21] = [
    [100, 0, 1],
    [100, 1, 1],
    [100, 13, 1],
    [100, 256 + 2, 1],
    [100, (1 << 32) + 2, 1],
    [100, u64::MAX, 1],
    [100, 2, 0],
    [100, 2, 32_769],
    [100, 2, (1 << 16) + 1],
    [100, 2, (1 << 32) + 1],
    [100, 2, u64::MAX],
    [65_537, 2, 1],
    [70_000, 2, 1],
    [(1 << 17) + 5, 2, 1],
    [(1 << 32) + 5, 2, 1],
    [1 << 63, 2, 1],
    [u64::MAX, 2, 1],
    [0, 1, 1],
    [0, 13, 1],
    [0, 2, 0],
    [0, 2, 32_769],
];

#[test]
fn window_distance_and_length() {
    for [n, w, h] in REFUSED {
        assert_eq!(rcds_most_blocks(n, w, h), 24, "n={n}, w={w}, h={h}");
    }
    // Two of them, and all.
    for [n, w, h] in [[100, 13, 0], [65_537, 1, 1], [65_537, 2, 0], [u64::MAX; 3]] {
        assert_eq!(rcds_most_blocks(n, w, h), 24, "n={n}, w={w}, h={h}");
    }
    // What lies just inside.
    for [n, w, h, blocks] in BY_HAND {
        assert_eq!(rcds_most_blocks(n, w, h), ACCEPTED + blocks);
    }
    for [n, w, h] in [
        [100, 2, 1],
        [100, 12, 1],
        [100, 2, 32_768],
        [65_536, 12, 32_768],
    ] {
        assert_eq!(rcds_most_blocks(n, w, h), ACCEPTED + bound(n, w, h));
    }
}

/// "23 never occurs again": whatever is asked, the answer is 24 or a bound of 1 to 32.
#[test]
fn no_answer_is_23() {
    let mut draw = Draw(23);
    let mut accepted = 0;
    for _ in 0..20_000 {
        let [n, w, h] = [(1 << 17, 1), (15, 0), (1 << 16, 0)].map(|(end, least)| {
            let small = draw.below(end) as u64;
            let shift = 64 - draw.below(64) as u32;
            match draw.below(8) {
                0 => u64::MAX.checked_shr(shift).unwrap_or(least),
                1 => 23,
                _ => small,
            }
        });
        let answer = rcds_most_blocks(n, w, h);
        let allowed = (2..=12).contains(&w) && (1..=32_768).contains(&h) && n <= 65_536;
        match allowed {
            true => assert!((ACCEPTED + 1..=ACCEPTED + 32).contains(&answer)),
            false => assert_eq!(answer, 24, "n={n}, w={w}, h={h}"),
        }
        accepted += usize::from(allowed);
    }
    assert!((2_000..18_000).contains(&accepted), "{accepted} accepted");
}

/// Moduli of cuttings by windows of w bytes: "s = w × p^(L−l+1)" from the smallest to the largest, and beyond
/// document 01 the one by which all values are equal, the one of the remainders, and the largest number.
fn moduli(w: usize) -> [u64; 8] {
    let of = |fan_out: u64, exponent: u32| w as u64 * fan_out.pow(exponent);
    [
        1,
        of(2, 1),
        of(2, 4),
        of(3, 2),
        of(5, 3),
        of(8, 4),
        65_521,
        u64::MAX,
    ]
}

/// How many blocks a cutting of the string gives.
fn count(string: &[u8], window: usize, distance: usize, modulus: u64) -> u64 {
    let rule = Rule {
        window,
        distance,
        modulus,
    };
    blocks(string, &rule).len() as u64
}

/// The bound of a string.
fn bound_of(string: &[u8], window: usize, distance: usize) -> u64 {
    bound(string.len() as u64, window as u64, distance as u64)
}

/// The most blocks that cuts leave room for by rule 3: they are "h ≤ i ≤ n−w−h", and more than h apart, since of two
/// positions within h the later one's value is smaller than the earlier one's, and the earlier one's not greater.
fn room(n: usize, w: usize, h: usize) -> u64 {
    let Some(last) = n.checked_sub(w + 2 * h) else {
        return 1;
    };
    (last / (h + 1) + 1).min(31) as u64 + 1
}

/// Lengths around so many distances after the first window.
fn lengths(w: usize, h: usize, distances: Range<usize>) -> impl Iterator<Item = usize> {
    let around = move |k: usize| [w + k * h - 1, w + k * h, w + k * h + 1];
    distances.flat_map(around)
}

/// The bound is not passed by as many cuts as there is room for, and they reach it where (n−w)/h is not too large: with
/// n−w = k × h + r they do so when k is at most r + 2.
#[test]
fn where_there_is_room_for_the_bound() {
    for (w, h) in (2..=12).flat_map(|w| (1..40).map(move |h| (w, h))) {
        for n in (0..w).chain(lengths(w, h, 0..35)) {
            let (k, r) = (n.saturating_sub(w) / h, n.saturating_sub(w) % h);
            let most = bound(n as u64, w as u64, h as u64);
            assert!(room(n, w, h) <= most, "n={n}, w={w}, h={h}");
            let reached = k <= r + 2 || room(n, w, h) == 32;
            assert_eq!(room(n, w, h) == most, reached, "n={n}, w={w}, h={h}");
        }
    }
}

/// All strings of so many bytes out of these.
fn all_strings(symbols: &[u8], length: usize) -> impl Iterator<Item = Vec<u8>> + '_ {
    let digit = |number: usize, place: usize| number / symbols.len().pow(place as u32);
    let string = move |number: usize| {
        let byte = |place: usize| symbols[digit(number, place) % symbols.len()];
        (0..length).map(byte).collect()
    };
    (0..symbols.len().pow(length as u32)).map(string)
}

/// The most blocks of all strings are as many as there is room for, and not more than the bound says.
fn assert_most_of_all(symbols: &[u8], n: usize, w: usize, h: usize) {
    for modulus in moduli(w) {
        let counts = all_strings(symbols, n).map(|string| count(&string, w, h, modulus));
        let most = counts.max().expect("a string of each length");
        let about = format!("n={n}, w={w}, h={h}, s={modulus}");
        assert!(most <= bound(n as u64, w as u64, h as u64), "{about}");
        let expected = if modulus == 1 { 1 } else { room(n, w, h) };
        assert_eq!(most, expected, "{about}");
    }
}

#[test]
fn of_all_short_strings_the_most_blocks() {
    for (w, h) in [(2, 1), (2, 2), (3, 1), (3, 2), (2, 3)] {
        (0..=11).for_each(|n| assert_most_of_all(&[0, 255], n, w, h));
        (0..=7).for_each(|n| assert_most_of_all(&[0, 3, 255], n, w, h));
    }
}

/// Numbers by the linear congruential generator of the strings of `vectors`.
struct Draw(u64);

impl Draw {
    fn below(&mut self, end: usize) -> usize {
        let step = self.0.wrapping_mul(6_364_136_223_846_793_005);
        self.0 = step.wrapping_add(1_442_695_040_888_963_407);
        (self.0 >> 33) as usize % end
    }

    fn bytes(&mut self, length: usize, symbols: usize) -> Vec<u8> {
        (0..length).map(|_| self.below(symbols) as u8).collect()
    }
}

/// The bytes over and over.
fn repeated(bytes: &[u8], length: usize) -> Vec<u8> {
    bytes.iter().copied().cycle().take(length).collect()
}

/// Strings of n bytes: of every kind, of few byte values, and of periods about as long as the distance, so that
/// their smallest values stand as close as cuts may come, or closer.
fn strings(n: usize, h: usize, draw: &mut Draw) -> Vec<Vec<u8>> {
    let mut strings: Vec<Vec<u8>> = (0..=6).map(|kind| string(kind, n)).collect();
    strings.extend([1, 2, 3, 5, 17, 256].map(|symbols| draw.bytes(n, symbols)));
    for period in [(h / 2).max(1), (h - 1).max(1), h, h + 1, 2 * h] {
        for symbols in [2, 256] {
            let block = draw.bytes(period, symbols);
            strings.push(repeated(&block, n));
        }
        let mut spikes = vec![255; period];
        spikes[0] = 0;
        strings.push(repeated(&spikes, n));
    }
    strings
}

/// That no cutting of the string gives more blocks than the bound says. By how many moduli it has as many as there is
/// room for.
fn times_filled(string: &[u8], w: usize, h: usize) -> usize {
    let most = bound_of(string, w, h);
    let fills = |&modulus: &u64| {
        let blocks = count(string, w, h, modulus);
        assert!(blocks <= most, "w={w}, h={h}, s={modulus}: {string:?}");
        blocks == room(string.len(), w, h)
    };
    moduli(w).iter().filter(|modulus| fills(modulus)).count()
}

#[test]
fn no_string_has_more_blocks() {
    let mut draw = Draw(6);
    let mut filled = [0; 33];
    let rules = [2, 5, 12].map(|w| [1, 2, 3, 7, 16].map(|h| (w, h)));
    for (w, h) in rules.into_iter().flatten() {
        for string in lengths(w, h, 1..70).flat_map(|n| strings(n, h, &mut draw)) {
            filled[room(string.len(), w, h) as usize] += times_filled(&string, w, h);
        }
    }
    assert!(filled[1..].iter().all(|&times| times > 0), "{filled:?}");
}

/// Changes byte by byte, none of which makes the blocks fewer, from a string with different bytes. The most
/// blocks that it comes to.
fn climb(n: usize, w: usize, h: usize, modulus: u64, draw: &mut Draw) -> u64 {
    let mut string = draw.bytes(n, 256);
    let mut most = count(&string, w, h, modulus);
    for _ in 0..600 {
        let mut changed = string.clone();
        let (place, other) = (draw.below(n), draw.below(n));
        changed[place] = match draw.below(4) {
            0 => draw.below(256) as u8,
            1 => 0,
            _ => changed[other],
        };
        let blocks = count(&changed, w, h, modulus);
        let bound = bound_of(&changed, w, h);
        assert!(blocks <= bound, "w={w}, h={h}, s={modulus}: {changed:?}");
        if blocks >= most {
            (string, most) = (changed, blocks);
        }
    }
    most
}

#[test]
fn no_search_finds_a_string_with_more_blocks() {
    let mut draw = Draw(7);
    let (mut climbs, mut filled) = (0, 0);
    for (w, h) in [(2, 1), (2, 2), (3, 4), (5, 3), (12, 2)] {
        for &modulus in &moduli(w)[1..] {
            for distances in [3, 6, 9] {
                let n = w + distances * h;
                let most = climb(n, w, h, modulus, &mut draw);
                climbs += 1;
                filled += usize::from(most == room(n, w, h));
            }
        }
    }
    assert!(2 * filled > climbs, "{filled} of {climbs} filled the room");
}

/// "one cutting" is one node's: every node of a tree, cut by the h of the level below it, has at most as many
/// children as its own length allows. Some have exactly as many, and more than one.
#[test]
fn every_node_of_a_tree_is_one_cutting() {
    let (mut cuttings, mut reached) = (0, 0);
    for [window, fan_out, levels, nominal] in [[2, 2, 4, 16], [3, 3, 3, 200], [12, 2, 4, 900]] {
        let settings = settings([window, fan_out, levels, nominal]);
        for (kind, n) in (0..=6).flat_map(|kind| [(kind, 0), (kind, 300), (kind, 1_000)]) {
            let nodes = tree(&settings, &string(kind, n));
            for (k, node) in nodes
                .iter()
                .enumerate()
                .filter(|(_, node)| node.level < levels)
            {
                let h = settings.rule(node.level + 1).distance as u64;
                let most = bound(node.length as u64, window, h);
                let of_node = nodes[1..].iter().filter(|child| child.parent == k);
                let children = of_node.count() as u64;
                assert!(children <= most, "kind {kind}, {n} bytes, node {k}");
                cuttings += usize::from(most > 1);
                reached += usize::from(most > 1 && children == most);
            }
        }
    }
    assert!(cuttings > 100, "{cuttings} nodes could be cut");
    assert!(reached > 20, "{reached} nodes have most children");
}

fn settings([window, fan_out, levels, nominal]: [u64; 4]) -> Settings {
    Settings {
        window,
        fan_out,
        levels,
        nominal,
    }
}

/// Distances of 128; 512 and 64; 4,681, 668 and 95; and of 2 and 1, where 32 for each node of the level above are fewer.
#[test]
fn most_nodes_by_hand() {
    for (numbers, n, most) in [
        ([2, 2, 1, 2], 0, 2),
        ([8, 8, 1, 1_024], 4_096, 1 + 32),
        ([4, 8, 2, 4_096], 16_384, 1 + 32 + 256),
        ([8, 7, 3, 32_768], 65_536, 1 + 14 + 98 + 689),
        ([2, 2, 2, 4], 65_536, 1 + 32 + 1_024),
    ] {
        assert_eq!(most_nodes(&settings(numbers), n), most, "{numbers:?}");
    }
}

#[test]
fn no_tree_has_more_nodes() {
    let mut reached = 0;
    for numbers in [
        [2, 2, 1, 2],
        [2, 2, 4, 16],
        [2, 8, 4, 4_096],
        [3, 3, 3, 200],
        [5, 6, 2, 36],
        [12, 2, 4, 900],
    ] {
        for (kind, n) in (0..=6).flat_map(|kind| [0, 1, 40, 300, 2_000].map(|n| (kind, n))) {
            let nodes = tree(&settings(numbers), &string(kind, n)).len() as u64;
            let most = most_nodes(&settings(numbers), n as u64);
            assert!(nodes <= most, "{numbers:?}, kind {kind}, {n} bytes");
            reached += usize::from(nodes == most && most > numbers[2] + 1);
        }
    }
    assert!(reached > 5, "{reached} trees with cuts have as many");
}

/// The most nodes of strings of at most M bytes, over every M.
fn most_of_nominal(fan_out: u64, levels: u64) -> u64 {
    let least = fan_out.pow(levels as u32);
    let of = |nominal: u64| most_nodes(&settings([2, fan_out, levels, nominal]), nominal);
    (least..=65_536).map(of).max().expect("p^L is an M")
}

/// What docs/GUIDE.md says of question 8: strings of at most M bytes pass it but for p = 7 and 8 with L = 4, and those of
/// p = 7 where M is a multiple of 7^4.
#[test]
fn where_strings_of_the_nominal_length_fit() {
    for (fan_out, levels) in (2..=8).flat_map(|p| (1..=4).map(move |l| (p, l))) {
        let fits = most_of_nominal(fan_out, levels) <= 4_096;
        assert_eq!(fits, levels < 4 || fan_out < 7, "p={fan_out}, L={levels}");
    }
    for nominal in (2_401..=65_536).step_by(2_401) {
        assert!(most_nodes(&settings([2, 7, 4, nominal]), nominal) <= 4_096);
    }
}
