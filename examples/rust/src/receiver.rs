//! The end that queries and builds the sender's string.

use crate::calls::{
    rcds_query, rcds_receiver_setup, rcds_take, MAX_STRING, QUERY_BYTES, RECEIVER_STATE_BYTES,
};
use crate::{count, Held, Refusal, Settings};

pub struct Receiver {
    held: Held,
    output: Vec<u8>,
}

/// What an accepted reply came to.
#[derive(Debug, PartialEq, Eq)]
pub enum Taken<'a> {
    /// The session goes on with a new query.
    GoesOn,
    /// The session has ended with the sender's string.
    HandedOver(&'a [u8]),
}

impl Receiver {
    /// A receiver with `own` string. The lowest 24 bits of the session's number are used.
    pub fn new(settings: &Settings, session: u64, own: Vec<u8>) -> Result<Receiver, Refusal> {
        let mut held = Held::new(settings, own, RECEIVER_STATE_BYTES);
        // SAFETY: every piece is a vector of its own, lent with its length.
        let answer = unsafe {
            rcds_receiver_setup(
                settings.window,
                settings.fan_out,
                settings.levels,
                settings.nominal,
                settings.width,
                session,
                held.string.as_ptr(),
                held.string.len(),
                held.nodes.as_mut_ptr(),
                held.nodes.len(),
                held.shingles.as_mut_ptr(),
                held.shingles.len(),
                held.cells.as_mut_ptr(),
                held.cells.len(),
                held.state.as_mut_ptr(),
                held.state.len(),
            )
        };
        let output = vec![0; MAX_STRING];
        count(answer).map(|_| Receiver { held, output })
    }

    /// The outstanding query. It may be sent as often as it is wanted.
    pub fn query(&self) -> Result<Vec<u8>, Refusal> {
        let held = &self.held;
        let mut out = vec![0; QUERY_BYTES];
        // SAFETY: every piece is lent with its length; only `out`, which is new, is written to.
        let answer = unsafe {
            rcds_query(
                held.state.as_ptr(),
                held.state.len(),
                held.string.as_ptr(),
                held.string.len(),
                held.nodes.as_ptr(),
                held.nodes.len(),
                held.shingles.as_ptr(),
                held.shingles.len(),
                held.cells.as_ptr(),
                held.cells.len(),
                out.as_mut_ptr(),
                out.len(),
            )
        };
        out.truncate(count(answer)?);
        Ok(out)
    }

    /// Takes a message.
    pub fn take(&mut self, message: &[u8]) -> Result<Taken<'_>, Refusal> {
        let held = &mut self.held;
        // SAFETY: every piece is lent with its length. State, shingles and output, which are
        // written to, are vectors of their own, and `message` cannot be a part of them: they are
        // borrowed for writing here.
        let answer = unsafe {
            rcds_take(
                held.state.as_mut_ptr(),
                held.state.len(),
                held.string.as_ptr(),
                held.string.len(),
                held.nodes.as_ptr(),
                held.nodes.len(),
                held.shingles.as_mut_ptr(),
                held.shingles.len(),
                held.cells.as_ptr(),
                held.cells.len(),
                message.as_ptr(),
                message.len(),
                self.output.as_mut_ptr(),
                self.output.len(),
            )
        };
        let length = count(answer)?;
        Ok(match answer {
            0 => Taken::GoesOn,
            _ => Taken::HandedOver(&self.output[..length]),
        })
    }
}
