//! Costs of ranges over one tree.

use crate::cut::cut;
use crate::pass::{cost, Cost};
use calls::rcds_crossed;
use reference::rcds::ACCEPTED;
use reference::settings::Settings;
use reference::vectors::{string, FULL_RULER};
use std::hint::black_box;

/// w, p, L, M, and the string: its content with its kind as `vectors` numbers it, and its length.
pub type Tree = ([u64; 4], (&'static str, u64), usize);

/// A full tree, and the two of most nodes among those of 64 KiB whose setups are measured.
pub const TREES: [Tree; 3] = [
    ([2, 8, 4, 4_096], ("ruler", 6), FULL_RULER),
    ([12, 7, 4, 22_000], ("random", 2), 65_536),
    ([12, 8, 4, 65_536], ("random", 2), 65_536),
];

/// What one range cost.
pub struct Row {
    pub tree: String,
    pub nodes: u64,
    pub range: String,
    pub crossed: u64,
    pub call: Cost,
    /// Cutting the same string.
    pub cutting: Cost,
}

/// The call that is measured, on slices.
fn cross(string: &[u8], nodes: &[u8], [start, length]: [u64; 2], table: &mut [u8]) -> u64 {
    // All slices are there in full, and the one for writing overlaps none.
    unsafe {
        rcds_crossed(
            string.as_ptr(),
            string.len(),
            nodes.as_ptr(),
            nodes.len(),
            start,
            length,
            table.as_mut_ptr(),
            table.len(),
        )
    }
}

/// No byte, the middle byte, 512 bytes from the middle on, and all.
fn ranges(string: &[u8]) -> [[u64; 2]; 4] {
    let (all, middle) = (string.len() as u64, string.len() as u64 / 2);
    [[middle, 0], [middle, 1], [middle, 512], [0, all]]
}

/// Measures the ranges over one tree. Each answer is compared with the reference's.
pub fn rows((settings, content, length): &Tree) -> Vec<Row> {
    let [window, fan_out, levels, nominal] = *settings;
    let settings = Settings {
        window,
        fan_out,
        levels,
        nominal,
    };
    let string = string(content.1, *length);
    let mut nodes = vec![0; 65_536];
    let answer = cut(&settings, &string, &mut nodes);
    assert!(answer >= ACCEPTED, "refused by {answer}: {settings:?}");
    let row = |range: [u64; 2]| {
        let crossed = checked(&string, &nodes, range);
        let mut table = vec![0; 65_536];
        let call = cost(|| {
            black_box(cross(&string, black_box(&nodes), range, &mut table));
        });
        let mut again = nodes.clone();
        let cutting = cost(|| {
            black_box(cut(&settings, black_box(&string), &mut again));
        });
        Row {
            tree: format!("{window} {fan_out} {levels} {nominal}, {}", content.0),
            nodes: answer - ACCEPTED,
            range: format!("{} of {length} bytes", range[1]),
            crossed,
            call,
            cutting,
        }
    };
    ranges(&string).map(row).into()
}

/// How many nodes the range crosses. A wrong answer stops the run.
fn checked(string: &[u8], nodes: &[u8], range: [u64; 2]) -> u64 {
    let (mut given, mut expected) = (vec![0; 65_536], vec![0; 65_536]);
    let answer = cross(string, nodes, range, &mut given);
    let [start, length] = range;
    let right = reference::rcds::rcds_crossed(string, nodes, start, length, &mut expected);
    let equal = answer == right && answer >= ACCEPTED && given == expected;
    assert!(equal, "wrong nodes of {length} bytes from {start}");
    answer - ACCEPTED
}
