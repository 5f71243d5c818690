//! What is said of a case in which a function differs from the reference.

use std::fmt;

/// What a call did otherwise than the reference.
#[derive(Debug, PartialEq, Eq)]
pub enum Difference {
    Answer {
        expected: u64,
        given: u64,
    },
    /// A byte of a lent buffer, by its place there.
    Byte {
        buffer: &'static str,
        place: usize,
        expected: u8,
        given: u8,
    },
    /// A byte outside a lent buffer, by its distance from the buffer's start.
    Outside {
        buffer: &'static str,
        place: isize,
    },
    /// An answer that the call never gives, where the reference's is one of several.
    NotItsOwn {
        given: u64,
    },
    /// What was written is no message of type 3 to 6 with the query's session.
    NoReply,
    /// A node that is cut into more blocks than it can have, or has none.
    Blocks {
        node: usize,
        most: u64,
        given: u64,
    },
}

impl fmt::Display for Difference {
    fn fmt(&self, f: &mut fmt::Formatter) -> fmt::Result {
        match self {
            Difference::Answer { expected, given } => {
                write!(f, "answer {given}, expected {expected}")
            }
            Difference::Byte {
                buffer,
                place,
                expected,
                given,
            } => {
                write!(
                    f,
                    "{buffer}, first differing byte {place}: {given}, expected {expected}"
                )
            }
            Difference::Outside { buffer, place } => {
                write!(
                    f,
                    "a byte outside the {buffer} changed, at {place} from its start"
                )
            }
            Difference::NotItsOwn { given } => {
                write!(f, "answer {given}, which is none of the call's own")
            }
            Difference::NoReply => {
                write!(f, "what was written is no reply of the query's session")
            }
            Difference::Blocks { node, most, given } => {
                write!(f, "node {node} has {given} blocks, the most are {most}")
            }
        }
    }
}

/// A case in which a function differs.
pub struct Failure {
    pub call: &'static str,
    pub seed: u64,
    pub number: usize,
    /// What was lent.
    pub case: String,
    pub difference: Difference,
}

impl fmt::Display for Failure {
    fn fmt(&self, f: &mut fmt::Formatter) -> fmt::Result {
        let Failure {
            call,
            seed,
            number,
            case,
            difference,
        } = self;
        writeln!(
            f,
            "{call}: case {number} of seed {seed} differs: {difference}"
        )?;
        write!(f, "{case}")
    }
}

/// The first bytes of a buffer, as two digits each.
pub fn first_bytes(bytes: &[u8], most: usize) -> String {
    let shown = bytes.iter().take(most).map(|byte| format!(" {byte:02x}"));
    let more = if bytes.len() > most { " ..." } else { "" };
    shown.collect::<String>() + more
}
