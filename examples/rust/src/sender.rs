//! The end that holds the string and replies.

use crate::calls::{rcds_reply, rcds_sender_setup, REPLY_BYTES, SENDER_STATE_BYTES};
use crate::{count, Held, Refusal, Settings};

pub struct Sender {
    held: Held,
}

impl Sender {
    /// A sender of `string`.
    pub fn new(settings: &Settings, string: Vec<u8>) -> Result<Sender, Refusal> {
        let mut held = Held::new(settings, string, SENDER_STATE_BYTES);
        // SAFETY: every piece is a vector of its own, lent with its length.
        let answer = unsafe {
            rcds_sender_setup(
                settings.window,
                settings.fan_out,
                settings.levels,
                settings.nominal,
                settings.width,
                held.string.as_ptr(),
                held.string.len(),
                held.nodes.as_mut_ptr(),
                held.nodes.len(),
                held.shingles.as_mut_ptr(),
                held.shingles.len(),
                held.cells.as_mut_ptr(),
                held.cells.len(),
                held.state.as_mut_ptr(),
                held.state.len(),
            )
        };
        count(answer).map(|_| Sender { held })
    }

    /// The reply to a message.
    pub fn reply(&self, message: &[u8]) -> Result<Vec<u8>, Refusal> {
        let held = &self.held;
        let mut out = vec![0; REPLY_BYTES];
        // SAFETY: every piece is lent with its length; only `out`, which is new, is written to.
        let answer = unsafe {
            rcds_reply(
                held.state.as_ptr(),
                held.state.len(),
                held.string.as_ptr(),
                held.string.len(),
                held.nodes.as_ptr(),
                held.nodes.len(),
                held.shingles.as_ptr(),
                held.shingles.len(),
                held.cells.as_ptr(),
                held.cells.len(),
                message.as_ptr(),
                message.len(),
                out.as_mut_ptr(),
                out.len(),
            )
        };
        out.truncate(count(answer)?);
        Ok(out)
    }
}
