//! An end that is set up, and the calls that are measured, on slices.

use crate::sessions::ends::{set_up_sender, End};
use calls::{rcds_strata_build, rcds_strata_estimate};
use reference::rcds::ACCEPTED;
use reference::settings::Settings;

/// A sender's end over a string, or the number of the question that refuses it. The strata do not depend on its q.
pub fn set_up(settings: &Settings, string: &[u8]) -> Result<End, u64> {
    let mut end = End::sender(string);
    match set_up_sender(settings, &mut end) {
        answer if answer < ACCEPTED => Err(answer),
        _ => Ok(end),
    }
}

pub fn build(end: &End, strata: &mut [u8]) -> u64 {
    let End { lent, state } = end;
    // All slices are there in full, and they do not overlap.
    unsafe {
        rcds_strata_build(
            state.as_ptr(),
            state.len(),
            lent.string.as_ptr(),
            lent.string.len(),
            lent.nodes.as_ptr(),
            lent.nodes.len(),
            lent.shingles.as_ptr(),
            lent.shingles.len(),
            lent.cells.as_ptr(),
            lent.cells.len(),
            strata.as_mut_ptr(),
            strata.len(),
        )
    }
}

pub fn estimate(end: &End, theirs: &[u8], own: &[u8]) -> u64 {
    let End { lent, state } = end;
    // As above, and nothing is written.
    unsafe {
        rcds_strata_estimate(
            state.as_ptr(),
            state.len(),
            lent.string.as_ptr(),
            lent.string.len(),
            lent.nodes.as_ptr(),
            lent.nodes.len(),
            lent.shingles.as_ptr(),
            lent.shingles.len(),
            lent.cells.as_ptr(),
            lent.cells.len(),
            theirs.as_ptr(),
            theirs.len(),
            own.as_ptr(),
            own.len(),
        )
    }
}
