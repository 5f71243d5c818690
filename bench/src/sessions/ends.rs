//! Both ends of a session, on slices.

use calls::{rcds_query, rcds_receiver_setup, rcds_reply, rcds_sender_setup, rcds_take};
use reference::lent::Lent;
use reference::receiver_state;
use reference::sender;
use reference::settings::Settings;

/// q of all sessions.
pub const WIDTH: u64 = 64;

/// The number of all sessions.
pub const SESSION: u64 = 1;

/// What an end is lent.
#[derive(Clone)]
pub struct End {
    pub lent: Lent,
    pub state: Vec<u8>,
}

impl End {
    fn new(string: &[u8], state: usize) -> End {
        End {
            lent: Lent {
                string: string.to_vec(),
                nodes: vec![0; 65_536],
                shingles: vec![0; 98_304],
                cells: vec![0; 120 * WIDTH as usize],
            },
            state: vec![0; state],
        }
    }

    pub fn sender(string: &[u8]) -> End {
        End::new(string, sender::STATE_BYTES)
    }

    pub fn receiver(string: &[u8]) -> End {
        End::new(string, receiver_state::STATE_BYTES)
    }
}

pub fn set_up_sender(settings: &Settings, end: &mut End) -> u64 {
    let End { lent, state } = end;
    // All slices are there in full, and they do not overlap.
    unsafe {
        rcds_sender_setup(
            settings.window,
            settings.fan_out,
            settings.levels,
            settings.nominal,
            WIDTH,
            lent.string.as_ptr(),
            lent.string.len(),
            lent.nodes.as_mut_ptr(),
            lent.nodes.len(),
            lent.shingles.as_mut_ptr(),
            lent.shingles.len(),
            lent.cells.as_mut_ptr(),
            lent.cells.len(),
            state.as_mut_ptr(),
            state.len(),
        )
    }
}

pub fn set_up_receiver(settings: &Settings, end: &mut End) -> u64 {
    let End { lent, state } = end;
    // As above.
    unsafe {
        rcds_receiver_setup(
            settings.window,
            settings.fan_out,
            settings.levels,
            settings.nominal,
            WIDTH,
            SESSION,
            lent.string.as_ptr(),
            lent.string.len(),
            lent.nodes.as_mut_ptr(),
            lent.nodes.len(),
            lent.shingles.as_mut_ptr(),
            lent.shingles.len(),
            lent.cells.as_mut_ptr(),
            lent.cells.len(),
            state.as_mut_ptr(),
            state.len(),
        )
    }
}

pub fn reply(end: &End, message: &[u8], out: &mut [u8]) -> u64 {
    let End { lent, state } = end;
    // As above.
    unsafe {
        rcds_reply(
            state.as_ptr(),
            state.len(),
            lent.string.as_ptr(),
            lent.string.len(),
            lent.nodes.as_ptr(),
            lent.nodes.len(),
            lent.shingles.as_ptr(),
            lent.shingles.len(),
            lent.cells.as_ptr(),
            lent.cells.len(),
            message.as_ptr(),
            message.len(),
            out.as_mut_ptr(),
            out.len(),
        )
    }
}

pub fn query(end: &End, out: &mut [u8]) -> u64 {
    let End { lent, state } = end;
    // As above.
    unsafe {
        rcds_query(
            state.as_ptr(),
            state.len(),
            lent.string.as_ptr(),
            lent.string.len(),
            lent.nodes.as_ptr(),
            lent.nodes.len(),
            lent.shingles.as_ptr(),
            lent.shingles.len(),
            lent.cells.as_ptr(),
            lent.cells.len(),
            out.as_mut_ptr(),
            out.len(),
        )
    }
}

pub fn take(end: &mut End, message: &[u8], output: &mut [u8]) -> u64 {
    let End { lent, state } = end;
    // As above.
    unsafe {
        rcds_take(
            state.as_mut_ptr(),
            state.len(),
            lent.string.as_ptr(),
            lent.string.len(),
            lent.nodes.as_ptr(),
            lent.nodes.len(),
            lent.shingles.as_mut_ptr(),
            lent.shingles.len(),
            lent.cells.as_ptr(),
            lent.cells.len(),
            message.as_ptr(),
            message.len(),
            output.as_mut_ptr(),
            output.len(),
        )
    }
}
