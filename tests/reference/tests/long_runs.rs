//! Change request 7, "Long runs of zero", sentence by sentence, and the rules that it is not. Its comparison came with
//! rule 2 and stays in rule 3. All values here are read by rule 3, so that rules differ in their comparisons alone.

use reference::most_blocks::bound;
use reference::partition::{
    blocks, candidate_range, cuts, is_candidate, window_values, Block, MOST_CUTS,
};
use reference::settings::{Rule, Settings};
use reference::tree::tree;
use reference::vectors::{string, SETTINGS};
use std::ops::Range;

/// How a value compares with each of the h before it and with each of the h after it.
type Sides = [fn(u64, u64) -> bool; 2];

fn smaller(value: u64, other: u64) -> bool {
    value < other
}

fn not_greater(value: u64, other: u64) -> bool {
    value <= other
}

/// "smaller than each of the h values before it and not greater than the h after it"
const REQUEST_7: Sides = [smaller, not_greater];

/// "not greater than any value at distance 1 to h on either side" (document 01)
const DOCUMENT_01: Sides = [not_greater, not_greater];

/// Neither: smaller on both sides, and the two sides exchanged.
const BOTH_SMALLER: Sides = [smaller, smaller];
const EXCHANGED: Sides = [not_greater, smaller];

/// The candidates by any two comparisons.
fn candidates(string: &[u8], rule: &Rule, [before, after]: Sides) -> Vec<usize> {
    let values = window_values(string, rule);
    let is = |&i: &usize| {
        let value = values[i];
        (1..=rule.distance).all(|d| before(value, values[i - d]) && after(value, values[i + d]))
    };
    let range = candidate_range(string, rule).map(|i| i as usize);
    range.filter(is).collect()
}

/// "From the left, a candidate becomes a cut if it is the first, or at least h after the last cut. After 31 cuts no
/// more are made."
fn spaced(candidates: &[usize], h: usize) -> Vec<usize> {
    let mut cuts: Vec<usize> = Vec::new();
    for &i in candidates {
        if cuts.len() < MOST_CUTS && cuts.last().map_or(true, |last| i >= last + h) {
            cuts.push(i);
        }
    }
    cuts
}

fn cuts_by(string: &[u8], rule: &Rule, sides: Sides) -> Vec<usize> {
    spaced(&candidates(string, rule, sides), rule.distance)
}

fn rule(window: usize, distance: usize, modulus: u64) -> Rule {
    Rule {
        window,
        distance,
        modulus,
    }
}

/// "w=2, p=2, L=1, M=2 (h=1, s=4)"
fn smallest() -> Rule {
    rule(2, 1, 4)
}

/// All strings of up to so many bytes out of these, with rules that cut them.
fn short_strings(symbols: &[u8], longest: usize) -> Vec<(Vec<u8>, Rule)> {
    let mut strings = vec![Vec::new()];
    let mut all = strings.clone();
    for _ in 0..longest {
        let longer = |string: &Vec<u8>, symbol: &u8| [&string[..], &[*symbol]].concat();
        let each = |string: &Vec<u8>| -> Vec<_> {
            let more = symbols.iter().map(|symbol| longer(string, symbol));
            more.collect()
        };
        strings = strings.iter().flat_map(each).collect();
        all.extend(strings.iter().cloned());
    }
    let rules = [(2, 1, 4), (2, 2, 4), (3, 1, 9), (2, 3, 65_521)];
    let with = |string: &Vec<u8>| rules.map(|(w, h, s)| (string.clone(), rule(w, h, s)));
    all.iter().flat_map(with).collect()
}

/// Strings of every kind and of runs, with rules by which most have cuts, some of them 31.
fn long_strings() -> Vec<(Vec<u8>, Rule)> {
    let mut all = Vec::new();
    for (w, h) in [(2, 1), (2, 3), (3, 7), (5, 16), (12, 40)] {
        for (kind, n) in (0..=6).flat_map(|kind| [w, 50, 400, 1_501].map(|n| (kind, n))) {
            let base = string(kind, n);
            for place in [0, n / 3, n - w] {
                for run in [0, 1, h, h + 1, 3 * h + w] {
                    let mut with_run = base.clone();
                    with_run.splice(place..place, vec![0; run]);
                    let moduli = [2 * w as u64, 100, 65_521].map(|s| rule(w, h, s));
                    all.extend(moduli.map(|rule| (with_run.clone(), rule)));
                }
            }
        }
    }
    all
}

#[test]
fn the_sides_of_a_candidate() {
    let is = |values: &[u64], i: usize, h: usize| is_candidate(values, i, &rule(2, h, 8));
    // Equal after it: a candidate. Equal before it: none. Smaller on either side: none.
    assert!(is(&[5, 4, 5], 1, 1));
    assert!(is(&[5, 4, 4], 1, 1));
    assert!(!is(&[4, 4, 5], 1, 1));
    assert!(!is(&[4, 4, 4], 1, 1));
    assert!(!is(&[3, 4, 5], 1, 1));
    assert!(!is(&[5, 4, 3], 1, 1));
    // Each of the h values counts, the h-th too, and none further away.
    assert!(is(&[5, 5, 4, 4, 4], 2, 2));
    assert!(!is(&[4, 5, 4, 5, 5], 2, 2));
    assert!(!is(&[5, 4, 4, 5, 5], 2, 2));
    assert!(!is(&[5, 5, 4, 5, 3], 2, 2));
    assert!(is(&[4, 5, 5, 4, 5, 5, 3], 3, 2));
}

/// Values 1 3 0 0 2 1, of which 1 to 4 may be cuts: request 7 takes the first of two equal ones, and no other rule does
/// so alone. 00 00 is 9,841 modulo 65,521, 00 01 is 17,327, 01 00 is 33,634, and 01 01 is 56,030 × 258 = 14,455,740,
/// which is 41,120; modulo 4 they are 1, 3, 2 and 0.
#[test]
fn four_rules_by_hand() {
    let string = [0, 0, 1, 1, 1, 0, 0];
    assert_eq!(window_values(&string, &smallest()), [1, 3, 0, 0, 2, 1]);
    assert_eq!(cuts(&string, &smallest()), [2]);
    assert_eq!(cuts_by(&string, &smallest(), REQUEST_7), [2]);
    assert_eq!(cuts_by(&string, &smallest(), DOCUMENT_01), [2, 3]);
    assert_eq!(cuts_by(&string, &smallest(), BOTH_SMALLER), []);
    assert_eq!(cuts_by(&string, &smallest(), EXCHANGED), [3]);
}

/// The reference's cuts are those of request 7, and those of each other rule in some string are not.
#[test]
fn other_rules_cut_elsewhere() {
    let mut elsewhere = [0; 3];
    let all = [short_strings(&[0, 3, 255], 7), long_strings()].concat();
    for (string, rule) in &all {
        let cuts = cuts(string, rule);
        assert_eq!(
            cuts,
            cuts_by(string, rule, REQUEST_7),
            "{rule:?}: {string:?}"
        );
        for (k, other) in [DOCUMENT_01, BOTH_SMALLER, EXCHANGED]
            .into_iter()
            .enumerate()
        {
            elsewhere[k] += usize::from(cuts != cuts_by(string, rule, other));
        }
    }
    let some = |count: &usize| count * 20 > all.len() && count < &all.len();
    assert!(elsewhere.iter().all(some), "{elsewhere:?} of {}", all.len());
}

/// "The spacing test no longer rejects any candidate; show that." Candidates lie more than h apart, so that the cuts are
/// the first 31 of them. By rule 1 they do not.
#[test]
fn the_spacing_test_rejects_no_candidate() {
    let (mut closest, mut limited, mut rejected) = (0, 0, 0);
    let all = [short_strings(&[0, 1, 255], 8), long_strings()].concat();
    for (string, rule) in &all {
        let found = candidates(string, rule, REQUEST_7);
        let first: Vec<usize> = found.iter().copied().take(MOST_CUTS).collect();
        assert_eq!(cuts(string, rule), first, "{rule:?}: {string:?}");
        let apart = |pair: &[usize]| pair[1] - pair[0];
        assert!(found.windows(2).all(|pair| apart(pair) > rule.distance));
        closest += usize::from(
            found
                .windows(2)
                .any(|pair| apart(pair) == rule.distance + 1),
        );
        limited += usize::from(found.len() > MOST_CUTS);
        let before = candidates(string, rule, DOCUMENT_01);
        rejected += usize::from(spaced(&before, rule.distance).len() < before.len().min(MOST_CUTS));
    }
    assert!(
        closest > 100,
        "{closest} strings have candidates h + 1 apart"
    );
    assert!(
        limited > 100,
        "{limited} strings have more than 31 candidates"
    );
    assert!(
        rejected > 100,
        "{rejected} strings had one rejected by rule 1"
    );
}

/// "most of a fresh file is one run of equal bytes": it has no cut, whatever the byte. By rule 1 it had as many as the
/// bound of request 6 says; "above 1 its file no longer reaches it".
#[test]
fn a_run_of_equal_bytes_is_one_block() {
    let mut reached_before = 0;
    for (w, h) in [(2, 1), (2, 2), (3, 5), (12, 7), (7, 300)] {
        for n in [
            0,
            1,
            w - 1,
            w,
            w + h,
            w + 2 * h,
            w + 2 * h + 1,
            w + 9 * h,
            w + 40 * h,
        ] {
            let most = bound(n as u64, w as u64, h as u64);
            for byte in 0..=u8::MAX {
                let run = vec![byte; n];
                let rule = rule(w, h, 2 * w as u64);
                let whole = Block {
                    start: 0,
                    length: n,
                };
                assert_eq!(blocks(&run, &rule), [whole], "{n} bytes {byte}, {rule:?}");
                if byte == 0 {
                    let before = cuts_by(&run, &rule, DOCUMENT_01).len() as u64 + 1;
                    assert_eq!(before, most, "{n} zeros, {rule:?}");
                    reached_before += usize::from(most > 1);
                }
            }
        }
    }
    assert!(reached_before > 10, "{reached_before} bounds above 1");
}

/// So its tree has one node for each level, and never too many.
#[test]
fn trees_of_equal_bytes() {
    for [window, fan_out, levels, nominal] in SETTINGS {
        let settings = Settings {
            window,
            fan_out,
            levels,
            nominal,
        };
        for (byte, n) in [(0, 65_536), (7, 65_535), (170, 4_527), (255, 100)] {
            let nodes = tree(&settings, &vec![byte; n]);
            assert_eq!(nodes.len() as u64, levels + 1, "{n} bytes {byte}");
            assert!(nodes.iter().all(|node| node.length == n));
        }
    }
}

/// Another string than zeros may still reach the bound: nine bytes with w = 2 and h = 2, where 2 to 5 may be cuts. 00
/// 01, 01 00 and 00 00 have values 3, 2 and 1, as in the six bytes that are checked by hand.
#[test]
fn nine_bytes_reach_the_bound() {
    let rule = rule(2, 2, 4);
    let string = [0, 1, 0, 0, 1, 0, 0, 1, 0];
    assert_eq!(window_values(&string, &rule), [3, 2, 1, 3, 2, 1, 3, 2]);
    assert_eq!(cuts(&string, &rule), [2, 5]);
    assert_eq!(bound(9, 2, 2), 3);
    assert_eq!(blocks(&[0; 9], &rule).len(), 1);
}

/// The shortest strings that are cut at all, with w = 2: 4, 6 and 8 bytes for h of 1, 2 and 3, with room for one cut,
/// at h. 00 00, 00 01, 01 00 and 01 01 have values 1, 3, 2 and 0.
#[test]
fn shortest_strings_that_reach_the_bound() {
    let strings: [&[u8]; 3] = [
        &[0, 1, 0, 1],
        &[0, 0, 1, 1, 0, 0],
        &[0, 0, 0, 1, 1, 0, 0, 0],
    ];
    let values: [&[u64]; 3] = [&[3, 2, 3], &[1, 3, 0, 2, 1], &[1, 1, 3, 0, 2, 1, 1]];
    for (h, (string, values)) in (1..).zip(strings.into_iter().zip(values)) {
        let (rule, n) = (rule(2, h, 4), string.len());
        assert_eq!(window_values(string, &rule), values);
        assert_eq!(cuts(string, &rule), [h]);
        assert_eq!([n - 1, n].map(|n| bound(n as u64, 2, h as u64)), [1, 2]);
        assert_eq!(cuts(&string[..n - 1], &rule), []);
    }
}

/// A run of equal bytes between others, of every length from none to a few h: at most one of the windows inside it is a
/// cut, and that is the first. Where it is cut, the values before the run are greater.
#[test]
fn runs_between_other_bytes() {
    let mut with_a_cut = 0;
    for (w, h) in [(2, 1), (2, 4), (3, 2), (5, 9)] {
        let rule = rule(w, h, 65_521);
        for run in 0..=4 * (h + w) {
            let (before, after) = (string(2, 3 * h + w), string(3, 2 * h + w));
            let file = [&before[..], &vec![0; run], &after].concat();
            let inside = before.len()..(before.len() + run + 1).saturating_sub(w);
            let cuts = cuts(&file, &rule);
            let cut: Vec<usize> = cuts
                .iter()
                .copied()
                .filter(|i| inside.contains(i))
                .collect();
            let first = inside.start;
            assert!(
                cut.is_empty() || cut == [first],
                "{run} zeros, {rule:?}: {cut:?}"
            );
            with_a_cut += usize::from(!cut.is_empty());
        }
    }
    assert!(with_a_cut > 20, "{with_a_cut} runs have a cut");
}

/// A preallocated file: samples, a run of one byte, and what another recording left.
fn preallocated(byte: u8) -> (Vec<u8>, Range<usize>) {
    let (samples, equal, rest) = (string(4, 1_000), vec![byte; 3_000], string(2, 500));
    let run = samples.len()..samples.len() + equal.len();
    ([samples, equal, rest].concat(), run)
}

/// The cuts from a place on, so many bytes further on.
fn further(cuts: &[usize], from: usize, by: usize) -> Vec<usize> {
    let later = cuts.iter().filter(|&&cut| cut >= from);
    later.map(|cut| cut + by).collect()
}

/// "cuts fall at fixed steps, and one inserted byte shifts them all": by rule 1 no cut of the rest of the run is where it
/// was.
fn shifted_by_rule_1(file: &[u8], run: &Range<usize>, rule: &Rule) {
    let place = run.start + 700;
    let mut longer = file.to_vec();
    longer.insert(place, 1);
    let [before, after] = [file, &longer].map(|file| cuts_by(file, rule, DOCUMENT_01));
    let moved = further(&before, place + rule.distance, 1);
    let inside = run.start..run.end - rule.window;
    let of_run: Vec<usize> = moved
        .into_iter()
        .filter(|cut| inside.contains(cut))
        .collect();
    assert!(of_run.len() > 8, "the run had cuts: {of_run:?}");
    assert!(of_run.iter().all(|cut| !after.contains(cut)));
}

/// By request 7 every cut of the rest of the file moves with its bytes.
#[test]
fn one_byte_inserted_into_a_preallocated_file() {
    for (w, h) in [(2, 150), (3, 201), (12, 160)] {
        let rule = rule(w, h, 65_521);
        for byte in [0, 1, 7, 170, 255] {
            let (file, run) = preallocated(byte);
            let before = cuts(&file, &rule);
            let (first, last, later) = (run.start, run.end - 1, run.end + 40);
            for place in [0, 1, 400, first, first + 700, last, later] {
                let mut longer = file.clone();
                longer.insert(place, 1);
                let after = cuts(&longer, &rule);
                assert!(before.len() < MOST_CUTS && after.len() < MOST_CUTS);
                let rest = further(&after, place + h + 1, 0);
                assert_eq!(rest, further(&before, place + h, 1));
            }
            shifted_by_rule_1(&file, &run, &rule);
        }
    }
}

/// Of the windows inside the run only the first can be a cut. With entries in place of bytes it depends on the byte
/// whether it is one: zeros have no longer the least value of all.
#[test]
fn the_run_of_a_preallocated_file() {
    let mut with_a_cut = 0;
    for (w, h) in [(2, 20), (3, 30), (12, 25)] {
        let rule = rule(w, h, 65_521);
        for byte in 0..=u8::MAX {
            let (file, run) = preallocated(byte);
            let inside = run.start..run.end - w + 1;
            let mut of_run = cuts(&file, &rule);
            of_run.retain(|cut| inside.contains(cut));
            assert!(of_run.is_empty() || of_run == [run.start], "byte {byte}");
            with_a_cut += usize::from(!of_run.is_empty());
        }
    }
    assert!((10..700).contains(&with_a_cut), "{with_a_cut} runs");
}
