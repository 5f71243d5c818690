//! The two ends of a session, over the C calls of `include/rcds.h`, which is the manual.
//!
//! A `Sender` and a `Receiver` own what they lend to the calls. The caller of a C call answers for
//! two things: each piece is there in full, and none lent for writing overlaps another. Here the
//! pieces are vectors of their own and borrowed slices, so the compiler answers for both.

mod calls;
mod receiver;
mod sender;

pub use receiver::{Receiver, Taken};
pub use sender::Sender;

/// The settings, which both ends must have alike.
#[derive(Clone, Copy, Debug, PartialEq, Eq)]
pub struct Settings {
    pub window: u64,
    pub fan_out: u64,
    pub levels: u64,
    pub nominal: u64,
    /// Sketch width.
    pub width: u64,
}

/// A call was refused, by the question of this number.
#[derive(Clone, Copy, Debug, PartialEq, Eq)]
pub struct Refusal {
    pub question: u64,
}

impl Refusal {
    /// Whether a receiver's session has ended by this; else nothing has changed.
    pub fn ends_session(self) -> bool {
        (12..=19).contains(&self.question)
    }
}

impl std::fmt::Display for Refusal {
    fn fmt(&self, f: &mut std::fmt::Formatter) -> std::fmt::Result {
        write!(f, "refused by question {}", self.question)
    }
}

impl std::error::Error for Refusal {}

/// The count of an accepted answer.
fn count(answer: u64) -> Result<usize, Refusal> {
    match answer {
        1..=0xffff_ffff => Err(Refusal { question: answer }),
        _ => Ok((answer & 0xffff_ffff) as usize),
    }
}

/// The string, tables and state of an end.
struct Held {
    string: Vec<u8>,
    nodes: Vec<u8>,
    shingles: Vec<u8>,
    cells: Vec<u8>,
    state: Vec<u8>,
}

impl Held {
    /// What a setup is lent. A width that is too large gets the cells of the largest: the setup
    /// refuses it before it asks for them.
    fn new(settings: &Settings, string: Vec<u8>, state_bytes: usize) -> Held {
        let width = settings.width.min(calls::MAX_WIDTH) as usize;
        Held {
            string,
            nodes: vec![0; calls::NODES_BYTES],
            shingles: vec![0; calls::SHINGLES_BYTES],
            cells: vec![0; calls::CELLS_BYTES_PER_WIDTH * width],
            state: vec![0; state_bytes],
        }
    }
}
