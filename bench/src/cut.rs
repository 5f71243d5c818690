//! `rcds_tree` on slices.

use calls::rcds_tree;
use reference::settings::Settings;

/// Cuts a string into its tree.
pub fn cut(settings: &Settings, string: &[u8], nodes: &mut [u8]) -> u64 {
    // Both slices are there in full, and they do not overlap.
    unsafe {
        rcds_tree(
            settings.window,
            settings.fan_out,
            settings.levels,
            settings.nominal,
            string.as_ptr(),
            string.len(),
            nodes.as_mut_ptr(),
            nodes.len(),
        )
    }
}
