//! What a running value saves: all windows of 64 KiB, each read afresh, each value from the one before, and as the library's search goes
//! over them.

use crate::cut::cut;
use crate::pass::call_and_pass;
use reference::partition::window_values;
use reference::rcds::ACCEPTED;
use reference::settings::Settings;
use reference::spread::{table, ENTRIES};
use std::hint::black_box;

const LENGTH: usize = 65_536;

/// One level of blocks, h half of M.
fn settings(window: usize, nominal: usize) -> Settings {
    Settings {
        window: window as u64,
        fan_out: 2,
        levels: 1,
        nominal: nominal as u64,
    }
}

/// The entries that stand for the bytes.
type Entries = [u32; ENTRIES];

/// The base in which a window is read, and the prime that the number is taken by.
const BASE: u32 = 257;
const PRIME: u32 = 65_521;

/// The entries of a window's bytes as a base-257 number modulo 65,521.
fn remainder(entries: &Entries, window: &[u8]) -> u32 {
    let digit = |number: u32, &byte: &u8| (number * BASE + entries[usize::from(byte)]) % PRIME;
    window.iter().fold(0, digit)
}

/// The least value of all windows, each window read afresh.
fn afresh(entries: &Entries, bytes: &[u8], window: usize, modulus: u32) -> u32 {
    let values = bytes
        .windows(window)
        .map(|bytes| remainder(entries, bytes) % modulus);
    values.min().expect("a window fits")
}

/// The least value of all windows, from a running value. The entry that leaves has come to count 257^w, and that is taken away; the
/// product is taken modulo 65,521 before it is added, so that 32 bits hold the sum.
fn running(entries: &Entries, bytes: &[u8], window: usize, modulus: u32) -> u32 {
    let away = PRIME - (0..window).fold(1, |place, _| place * BASE % PRIME);
    let entry = |byte: u8| entries[usize::from(byte)];
    let mut number = remainder(entries, &bytes[..window]);
    let mut least = number % modulus;
    for (&leaves, &enters) in bytes.iter().zip(&bytes[window..]) {
        let gone = entry(leaves) * away % PRIME;
        number = (number * BASE + entry(enters) + gone) % PRIME;
        least = least.min(number % modulus);
    }
    least
}

/// The passes that the work takes over the bytes.
fn passes(bytes: &[u8], work: impl FnMut()) -> f64 {
    let (call, pass) = call_and_pass(1, bytes, work);
    call / pass
}

/// Equal bytes but for one, the last of the window at the only position where a cut may lie: the value there is below all before it, not
/// above any after it, and not 0, so that the search passes over none of them.
fn string(settings: &Settings) -> Vec<u8> {
    let rule = settings.rule(1);
    let last = rule.window - 1;
    let lowest = |&[byte, other]: &[u8; 2]| {
        let mut around = vec![byte; 2 * rule.window];
        around[last] = other;
        let values = window_values(&around, &rule);
        let below = 0 < values[0] && values[0] < values[rule.window];
        below && values.iter().all(|value| values[0] <= *value)
    };
    let mut all = (0..=255).flat_map(|byte| (0..=255).map(move |other| [byte, other]));
    let [byte, other] = all.find(lowest).expect("two such bytes");
    let mut bytes = vec![byte; LENGTH];
    bytes[rule.distance + last] = other;
    bytes
}

/// The passes of a cutting's search. With M = n − w, and h half of it, a cut may lie at one position, whose neighbours are all other
/// windows: each is looked at once. With M = n it may lie nowhere, and the string is only hashed.
fn search(window: usize, bytes: &[u8]) -> f64 {
    let cutting = |nominal: usize| {
        let settings = settings(window, nominal);
        let mut nodes = vec![0; 65_536];
        let mut answer = 0;
        let time = passes(bytes, || {
            answer = black_box(cut(&settings, black_box(bytes), &mut nodes));
        });
        (answer, time)
    };
    let (searched, hashed) = (cutting(LENGTH - window), cutting(LENGTH));
    assert_eq!([searched.0, hashed.0], [ACCEPTED + 3, ACCEPTED + 2]);
    searched.1 - hashed.1
}

/// Measures windows of one width, and prints a row of the table.
fn print_row(window: usize) {
    let settings = settings(window, LENGTH - window);
    let rule = settings.rule(1);
    let bytes = string(&settings);
    let modulus = rule.modulus as u32;
    let entries = table().map(|entry| entry as u32);
    let least = window_values(&bytes, &rule).into_iter().min();
    let time = |work: fn(&Entries, &[u8], usize, u32) -> u32| {
        let value = work(&entries, &bytes, window, modulus);
        assert_eq!(Some(u64::from(value)), least);
        passes(&bytes, || {
            black_box(work(
                black_box(&entries),
                black_box(&bytes),
                black_box(window),
                black_box(modulus),
            ));
        })
    };
    let (afresh, running) = (time(afresh), time(running));
    let search = search(window, &bytes);
    println!(
        "| {window} | {afresh:.2} | {running:.2} | {:.1} | {search:.2} | {:.1} |",
        afresh / running,
        afresh / search
    );
}

/// Measures and prints.
pub fn run() {
    println!();
    println!("All windows of 64 KiB, in FNV-1a passes over the same bytes: by loops of this program the least value, each window read");
    println!("afresh and by a running value; and in `rcds_tree` the search for a cut that looks at each window once, hashing taken off.");
    println!();
    println!(
        "| w | afresh | running | afresh / running | `rcds_tree`'s search | afresh / search |"
    );
    println!("|---:|---:|---:|---:|---:|---:|");
    for window in [2, 4, 8, 12] {
        print_row(window);
    }
}
