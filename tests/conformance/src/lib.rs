//! Compares functions of the C interface with the reference, on many cases: every answer, every
//! byte of each lent buffer, and guard bytes on both sides of it.
//!
//! The functions are arguments, so that the comparison itself is tested on functions that are
//! wrong on purpose. One module for each group of calls.

pub mod campaign;
pub mod clock;
pub mod content;
mod counts;
pub mod crossed;
pub mod failure;
pub mod lent;
pub mod messages;
pub mod most_blocks;
pub mod openings;
mod pages;
pub mod random;
pub mod replies;
pub mod sessions;
pub mod settings;
pub mod setups;
pub mod strata;
pub mod trails;
pub mod tree;
mod two_threads;
