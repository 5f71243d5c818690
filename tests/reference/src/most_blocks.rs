//! How many blocks one cutting of a string can give at most, and how many nodes a tree can have.

use crate::settings::Settings;

/// "h 1 to 32,768"
pub const MOST_DISTANCE: u64 = 32_768;

/// "and at most 32"
pub const MOST_BLOCKS: i128 = 32;

/// "For a length n, window w and distance h, one cutting gives at most the larger of 1 and (n−w)/h
/// rounded down, and at most 32."
///
/// In signed numbers: of a string that is shorter than its window n−w is negative, and 1 is the larger.
/// For any n and w, and h from 1 on.
pub fn bound(n: u64, w: u64, h: u64) -> u64 {
    let [n, w, h] = [n, w, h].map(i128::from);
    let larger = (n - w).div_euclid(h).max(1);
    larger.min(MOST_BLOCKS) as u64
}

/// The most nodes of a tree of n bytes, level by level: "A node's blocks are its children", at most 32 of each node.
/// And a level has not more than its h goes into the string, or one: cuts are h apart and as far from either end, so
/// that a block is at least h long, unless it is the whole string.
pub fn most_nodes(settings: &Settings, n: u64) -> u64 {
    let (mut of_level, mut all) = (1, 1);
    for level in 1..=settings.levels {
        let fitting = n / settings.rule(level).distance as u64;
        of_level = fitting.max(1).min(MOST_BLOCKS as u64 * of_level);
        all += of_level;
    }
    all
}
