//! Bytes over the link for each pair, beside rsync, rdiff and the whole string: a table.

use crate::others::{rdiff, rsync, version, Folder};
use crate::session::{run as session, Session};
use crate::settings::recommended;
use crate::strings::{pair, CHANGES, CONTENTS};

/// The lengths in KiB.
pub const SIZES: [usize; 3] = [4, 16, 64];

/// How many pairs stand behind a row. Odd, so that one of them is the middle one.
const PAIRS: u64 = 9;

/// The middle of an odd number of values, or nothing if one is missing.
fn middle(values: &[Option<usize>]) -> Option<usize> {
    let mut values: Vec<usize> = values.iter().copied().collect::<Option<_>>()?;
    values.sort_unstable();
    values.get(values.len() / 2).copied()
}

/// How many sessions handed over, and which questions refused the others.
pub fn outcome(sessions: &[Session]) -> String {
    let mut refused: Vec<u64> = sessions.iter().filter_map(|one| one.refused).collect();
    refused.sort_unstable();
    let handed = sessions.len() - refused.len();
    refused.dedup();
    let by: Vec<String> = refused.iter().map(u64::to_string).collect();
    match by.is_empty() {
        true => format!("{handed} of {}", sessions.len()),
        false => format!("{handed} of {}, else {}", sessions.len(), by.join(", ")),
    }
}

fn row(folder: &Folder, size: usize, content: &str, change: &str) {
    let settings = recommended(size);
    let pairs: Vec<(Vec<u8>, Vec<u8>)> = (0..PAIRS)
        .map(|seed| pair(content, change, size * 1_024, seed))
        .collect();
    let mut sessions: Vec<Session> = pairs
        .iter()
        .map(|(string, own)| session(&settings, string, own))
        .collect();
    let outcome = outcome(&sessions);
    sessions.sort_by_key(Session::bytes);
    let one = &sessions[sessions.len() / 2];
    let others: Vec<Option<usize>> = [rsync, rdiff]
        .map(|other| {
            let bytes: Vec<_> = pairs.iter().map(|(a, b)| other(folder, a, b)).collect();
            middle(&bytes)
        })
        .to_vec();
    let whole = middle(&pairs.iter().map(|(a, _)| Some(a.len())).collect::<Vec<_>>());
    let all = [
        ("rcds", Some(one.bytes())),
        ("rsync", others[0]),
        ("rdiff", others[1]),
        ("whole", whole),
    ];
    let least = all
        .iter()
        .filter_map(|(name, bytes)| bytes.map(|bytes| (bytes, *name)))
        .min()
        .map_or("", |(_, name)| name);
    let shown = |bytes: Option<usize>| bytes.map_or("-".to_string(), |bytes| bytes.to_string());
    println!(
        "| {size} | {content} | {change} | {} | {} | {} | {} | {} | {outcome} | {} | {} | {} | {least} |",
        one.asked,
        one.replied,
        one.fallback,
        one.bytes(),
        one.messages,
        shown(others[0]),
        shown(others[1]),
        shown(whole),
    );
}

/// Measures and prints.
pub fn run() {
    let folder = Folder::new();
    println!();
    for program in ["rsync", "rdiff"] {
        let version = version(program).unwrap_or_else(|| "not there".into());
        println!("{program}: {version}.");
    }
    for size in SIZES {
        println!("{size} KiB: w p L M q = {}.", recommended(size));
    }
    println!();
    println!("| KiB | content | change | queries | replies | fallback | rcds | messages | handed over | rsync | rdiff | whole | least |");
    println!("|---:|---|---|---:|---:|---:|---:|---:|---|---:|---:|---:|---|");
    for size in SIZES {
        for content in CONTENTS {
            for change in CHANGES {
                row(&folder, size, content, change);
            }
        }
    }
}
