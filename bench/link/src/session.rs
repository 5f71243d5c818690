//! A whole session between two ends, counted.

use crate::calls::{query, receiver, reply, sender, take, Settings};
use crate::calls::{MAX_STRING, QUERY_BYTES, REPLY_BYTES};

/// What went over the link.
#[derive(Clone, Default)]
pub struct Session {
    /// Bytes of the queries.
    pub asked: usize,
    /// Bytes of the replies.
    pub replied: usize,
    pub messages: usize,
    /// The question that refused, where the string was not handed over.
    pub refused: Option<u64>,
    /// Bytes of the whole string, sent where the session was refused.
    pub fallback: usize,
}

impl Session {
    /// All bytes, those of the whole string included where it had to be sent.
    pub fn bytes(&self) -> usize {
        self.asked + self.replied + self.fallback
    }
}

/// Queries and replies in turn, until the string is handed over or a call refuses.
fn talk(
    settings: &Settings,
    string: &[u8],
    own: &[u8],
    session: &mut Session,
) -> Result<Vec<u8>, u64> {
    let sender = sender(settings, string)?;
    let mut receiver = receiver(settings, 1, own)?;
    let mut output = vec![0; MAX_STRING];
    let (mut asking, mut replying) = (vec![0; QUERY_BYTES], vec![0; REPLY_BYTES]);
    loop {
        let asked = query(&receiver, &mut asking)?;
        let replied = reply(&sender, &asking[..asked], &mut replying)?;
        session.asked += asked;
        session.replied += replied;
        session.messages += 2;
        if let Some(length) = take(&mut receiver, &replying[..replied], &mut output)? {
            output.truncate(length);
            return Ok(output);
        }
    }
}

/// Runs a session. A string that is handed over and is not the sender's stops the program.
pub fn run(settings: &Settings, string: &[u8], own: &[u8]) -> Session {
    let mut session = Session::default();
    match talk(settings, string, own, &mut session) {
        Ok(output) => assert!(output == string, "another string is handed over"),
        Err(question) => {
            session.refused = Some(question);
            session.fallback = string.len();
        }
    }
    session
}
