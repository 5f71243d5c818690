//! What the archive's sessions cost on the link.
//!
//!     link [GROUP...]
//!
//! - `pairs`: bytes of whole sessions over pairs of strings, beside rsync and rdiff where they are
//!   installed.
//! - `settings`: how many shingles a change makes differ, and what other settings cost.
//! - `search`: which settings of a grid cost least; it takes some minutes.
//! - `contents`: what sessions cost in the mean, content by content; where a run of zeros is cut off.
//! - `blocks`: what settings make of a string.
//! - `widths`: which sketch widths open how many differences.
//! - `strata`: how rough the estimate of the strata is, which width to choose by it, and what a table of
//!   strata holds.
//! - `stack`: how deep each call's stack goes.
//!
//! No group stands for all. A wrong string that is handed over stops the run.

mod blocks;
mod calls;
mod contents;
mod others;
mod pairs;
mod search;
mod session;
mod settings;
mod stack;
mod strata;
mod strings;
mod widths;

const GROUPS: [(&str, fn()); 8] = [
    ("pairs", pairs::run),
    ("settings", settings::run),
    ("search", search::run),
    ("contents", contents::run),
    ("blocks", blocks::run),
    ("widths", widths::run),
    ("strata", strata::run),
    ("stack", stack::run),
];

fn main() {
    let names: Vec<String> = std::env::args().skip(1).collect();
    for name in &names {
        let known = GROUPS.iter().any(|(group, _)| group == name);
        assert!(known, "{name}: no such group");
    }
    for (group, run) in GROUPS {
        if names.is_empty() || names.iter().any(|name| name == group) {
            run();
        }
    }
}
