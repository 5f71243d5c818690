//! What the calls of the static library cost.
//!
//!     bench [GROUP...]
//!
//! The groups are `tree`, `growth`, `windows`, `samples`, `crossed`, `most_blocks`, `trails`, `setups`, `openings`, `strata`
//! and `sessions`; none stands for all that are built in. A group is built in by the feature of its name (`growth`,
//! `windows` and `samples` by `tree`), and all are, unless cargo is told otherwise.
//!
//! A cost is counted in plain FNV-1a passes, which are timed in turn with the calls. Nothing here
//! fails because of a time; a wrong answer stops the run.

mod clock;
#[cfg(feature = "crossed")]
mod crossed;
#[cfg(any(feature = "tree", feature = "crossed", feature = "most_blocks"))]
mod cut;
#[cfg(feature = "most_blocks")]
mod most_blocks;
#[cfg(feature = "openings")]
mod openings;
mod pass;
#[cfg(feature = "sessions")]
mod sessions;
#[cfg(feature = "setups")]
mod setups;
#[cfg(feature = "strata")]
mod strata;
#[cfg(feature = "trails")]
mod trails;
#[cfg(feature = "tree")]
mod tree;

const GROUPS: &[(&str, fn())] = &[
    #[cfg(feature = "tree")]
    ("tree", tree::run),
    #[cfg(feature = "tree")]
    ("growth", tree::run_growth),
    #[cfg(feature = "tree")]
    ("windows", tree::run_windows),
    #[cfg(feature = "tree")]
    ("samples", tree::run_samples),
    #[cfg(feature = "crossed")]
    ("crossed", crossed::run),
    #[cfg(feature = "most_blocks")]
    ("most_blocks", most_blocks::run),
    #[cfg(feature = "trails")]
    ("trails", trails::run),
    #[cfg(feature = "setups")]
    ("setups", setups::run),
    #[cfg(feature = "openings")]
    ("openings", openings::run),
    #[cfg(feature = "strata")]
    ("strata", strata::run),
    #[cfg(feature = "sessions")]
    ("sessions", sessions::run),
];

fn main() {
    let names: Vec<String> = std::env::args().skip(1).collect();
    for name in &names {
        let known = GROUPS.iter().any(|(group, _)| group == name);
        assert!(known, "{name}: no group of this name is built in");
    }
    for (group, run) in GROUPS {
        if names.is_empty() || names.iter().any(|name| name == group) {
            run();
        }
    }
}
