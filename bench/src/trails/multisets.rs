//! The multisets that are measured by name.

use reference::eulerian::trails_from;
use reference::trail::{multiset, pairs, Multiset, Pair};

/// A multiset and the number that is asked of it.
pub struct Asked {
    pub name: String,
    /// Previous id, own id, count, in the order in which they are lent.
    pub entries: Vec<[u64; 3]>,
    pub number: u64,
}

/// How many trails there are over the entries. Equal pairs add up.
pub fn trails(entries: &[[u64; 3]]) -> u128 {
    let mut over = Multiset::new();
    for &[previous, own, count] in entries {
        *over.entry((previous, own)).or_default() += count;
    }
    trails_from(0, &over)
}

/// The last number up to 4,095 that a trail has; 0 if there is no trail.
pub fn last_number(entries: &[[u64; 3]]) -> u64 {
    trails(entries).clamp(1, 4_096) as u64 - 1
}

fn entries(pairs: &[Pair]) -> Vec<[u64; 3]> {
    let over = multiset(pairs);
    over.iter().map(|(&(a, b), &count)| [a, b, count]).collect()
}

/// The pairs of these entries with the last number up to 4,095.
fn asked(name: &str, entries: Vec<[u64; 3]>) -> Asked {
    Asked {
        name: name.to_string(),
        number: last_number(&entries),
        entries,
    }
}

/// From 100 to each point and back; the first point is 101.
fn star(points: u64) -> Vec<u64> {
    let back = |point: u64| [100 + point, 100];
    let points = (1..=points).flat_map(back);
    [100].into_iter().chain(points).collect()
}

/// A star, and then a path of ids that are all different.
fn star_and_path(points: u64, path: impl Iterator<Item = u64>) -> Vec<u64> {
    star(points).into_iter().chain(path).collect()
}

/// Every pair of two different ids from `first` on.
fn complete(first: u64, ids: u64) -> Vec<Pair> {
    let all = first..first + ids;
    let from = |a: u64| all.clone().map(move |b| (a, b));
    all.clone().flat_map(from).filter(|(a, b)| a != b).collect()
}

/// A walk into the complete digraph, as pairs, and the digraph's pairs.
fn entered(path: &[u64], digraph: Vec<Pair>) -> Vec<Pair> {
    [pairs(path), digraph].concat()
}

/// All multisets that have a name.
pub fn all() -> Vec<Asked> {
    let mut all = vec![
        asked("one id 32 times", entries(&pairs(&[100; 32]))),
        asked(
            "32 ids, each once",
            entries(&pairs(&(1..=32).collect::<Vec<_>>())),
        ),
        asked("star of 7 points", entries(&pairs(&star(7)))),
        asked("star of 15 points", entries(&pairs(&star(15)))),
        asked(
            "star of 7 points, then a rising path of 17",
            entries(&pairs(&star_and_path(7, 200..217))),
        ),
        asked(
            "star of 7 points, then a falling path of 17",
            entries(&pairs(&star_and_path(7, (200..217).rev()))),
        ),
        asked(
            "complete digraph of 6, entered at the lowest id",
            entries(&entered(&[1], complete(1, 6))),
        ),
        asked(
            "complete digraph of 6, entered at the highest id",
            entries(&entered(&[6], complete(1, 6))),
        ),
        asked(
            "complete digraph of 5, entered after a path of 11",
            entries(&entered(
                &[90, 91, 92, 93, 94, 95, 96, 97, 98, 99, 5, 5],
                complete(1, 5),
            )),
        ),
        asked(
            "two complete digraphs of 4, the second entered from the first",
            entries(&[entered(&[1], complete(1, 4)), vec![(1, 5)], complete(5, 4)].concat()),
        ),
    ];
    all.extend(last_entered());
    all.extend(without_trail());
    all
}

/// Entries that are lent in the order that suits a search least, and all trails walked in vain.
fn last_entered() -> Vec<Asked> {
    let mut reversed = entries(&entered(&[6], complete(1, 6)));
    reversed.reverse();
    let mut falling = entries(&pairs(&star_and_path(7, 200..217)));
    falling.reverse();
    let star_of_6 = entries(&pairs(&star_and_path(6, 200..219)));
    vec![
        asked("complete digraph of 6, its entry lent last", reversed),
        asked("star of 7 points and path, lent from the end", falling),
        Asked {
            name: "star of 6 points, then a path: a number too large".to_string(),
            number: trails(&star_of_6) as u64,
            entries: star_of_6,
        },
    ]
}

/// Multisets over which there is no trail.
fn without_trail() -> Vec<Asked> {
    let closed = |first: u64| {
        vec![
            (first, first + 1),
            (first + 1, first + 2),
            (first + 2, first),
        ]
    };
    let one_back_missing = pairs(&star(15))
        .into_iter()
        .filter(|&pair| pair != (115, 100));
    vec![
        asked(
            "star of 14 points and a closed walk apart",
            entries(&[pairs(&star(14)), closed(300)].concat()),
        ),
        asked(
            "two complete digraphs of 4 apart",
            entries(&[entered(&[1], complete(1, 4)), complete(5, 4)].concat()),
        ),
        asked(
            "complete digraph of 6 without an entry",
            entries(&complete(1, 6)),
        ),
        asked(
            "star of 15 points, two ways back missing",
            entries(
                &one_back_missing
                    .filter(|&pair| pair != (114, 100))
                    .collect::<Vec<_>>(),
            ),
        ),
        asked(
            "star of 14 points, two ways out doubled",
            entries(&[pairs(&star(14)), vec![(100, 101), (100, 102)]].concat()),
        ),
    ]
}
