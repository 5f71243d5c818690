//! The cuts worked out a third time, by stretches of h + 1 positions, and compared with the reference.
//!
//! A cut may come from position a on. All positions of the stretch a to a+h lie within h of each other, so
//! a candidate among them is the first with the stretch's least value, and the only one. It is one exactly
//! when no value within h before the stretch is as small, and none within h after it is smaller. For that it
//! is enough to know the last one of the h positions before the stretch, and the first one of the h after it.

use reference::partition::{cuts, window_values, MOST_CUTS};
use reference::settings::Rule;

/// The candidate of the stretch `from` to `to`, if it has one.
fn only_candidate(values: &[u64], from: usize, to: usize, h: usize) -> Option<usize> {
    let i = (from..to)
        .min_by_key(|&i| values[i])
        .expect("a stretch is not empty");
    let before = (from - h..from).rev().find(|&t| values[t] <= values[i]);
    let after = (to..(to + h).min(values.len())).find(|&u| values[u] < values[i]);
    let far_before = before.map_or(true, |t| i > t + h);
    let far_after = after.map_or(true, |u| i + h < u);
    (far_before && far_after).then_some(i)
}

fn cuts_by_stretches(string: &[u8], rule: &Rule) -> Vec<usize> {
    let h = rule.distance;
    let values = window_values(string, rule);
    let mut cuts = Vec::new();
    let end = values.len().saturating_sub(h);
    let mut from = h;
    while from < end && cuts.len() < MOST_CUTS {
        let to = (from + h + 1).min(end);
        cuts.extend(only_candidate(&values, from, to, h));
        from = to;
    }
    cuts
}

/// Bytes of `symbols` different values.
fn bytes(seed: u64, length: usize, symbols: u64) -> Vec<u8> {
    let mut x = seed;
    let mut next = || {
        x = x
            .wrapping_mul(6_364_136_223_846_793_005)
            .wrapping_add(1_442_695_040_888_963_407);
        ((x >> 33) % symbols) as u8
    };
    (0..length).map(|_| next()).collect()
}

#[test]
fn the_same_cuts() {
    let mut with_cuts = 0;
    let mut with_all_cuts = 0;
    for seed in 0..6_000 {
        let symbols = [1, 2, 3, 5, 17, 256][seed as usize % 6];
        let length = (seed * 7_919 % 401) as usize;
        let string = bytes(seed, length, symbols);
        let rule = Rule {
            window: 2 + seed as usize % 11,
            distance: 1 + (seed * 31 % 60) as usize / (1 + seed as usize % 7),
            modulus: [4, 9, 24, 128, 49_152][seed as usize % 5],
        };
        let expected = cuts(&string, &rule);
        assert_eq!(
            cuts_by_stretches(&string, &rule),
            expected,
            "seed {seed}, {rule:?}"
        );
        with_cuts += usize::from(!expected.is_empty());
        with_all_cuts += usize::from(expected.len() == MOST_CUTS);
    }
    assert!(with_cuts > 1_000, "{with_cuts} strings had a cut");
    assert!(with_all_cuts > 100, "{with_all_cuts} strings had 31 cuts");
}
