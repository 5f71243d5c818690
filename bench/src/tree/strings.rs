//! The strings that are cut.

use reference::vectors::string;

/// The contents, in the order of the table's columns, and their kinds as `vectors` numbers them.
pub const CONTENTS: [(&str, u64); 4] = [("zeros", 0), ("random", 2), ("samples", 4), ("sevens", 1)];

/// The lengths in KiB, each four times the one before.
pub const SIZES: [usize; 3] = [4, 16, 64];

/// All strings, by content and then by size.
pub fn all() -> Vec<Vec<Vec<u8>>> {
    let sizes = |kind: u64| SIZES.map(|size| string(kind, size * 1_024)).to_vec();
    CONTENTS.iter().map(|&(_, kind)| sizes(kind)).collect()
}
