//! "A sender of the old kind is met by number 10 when its order falls." (document 02, request 2) Such
//! compositions at every call that reads one, before the genuine one is taken.

use super::counts::{Call, Counts};
use super::lockstep::{Lockstep, Outcome};
use crate::messages::order::in_any_disorder;
use crate::random::Random;

/// The bytes of the buffer for a reply, which there is none of.
const ROOM: usize = 100;

/// How often each call that reads a message answered 10.
fn by_10(counts: &Counts) -> [usize; 3] {
    [Call::MessageType, Call::Reply, Call::Take].map(|call| counts.of(call, 10))
}

/// Lends a composition with its references in two kinds of disorder to the type, the sender and the receiver,
/// and to the receiver under another session number too. The messages that all of them met by 10.
pub fn lend(ends: &mut Lockstep, genuine: &[u8], random: &mut Random) -> Outcome<Vec<Vec<u8>>> {
    let mut met = Vec::new();
    for _ in 0..2 {
        let Some((disorder, changed)) = in_any_disorder(genuine, random) else {
            continue;
        };
        let before = (by_10(&ends.counts), left(ends));
        ends.message_type(&changed)?;
        ends.reply(&changed, ROOM)?;
        ends.take(&changed)?;
        if by_10(&ends.counts) != before.0.map(|count| count + 1) {
            continue;
        }
        // 10 comes before 11.
        let mut of_other = changed.clone();
        of_other[3] ^= 1;
        let answer = ends.take(&of_other)?;
        assert!(answer == 10 && left(ends) == before.1, "the reference");
        *ends.counts.not_rising.entry(disorder).or_default() += 1;
        met.push(changed);
    }
    if !met.is_empty() {
        ends.message_type(genuine)?;
    }
    Ok(met)
}

/// State, tables and output of the receiver, as the reference has them.
fn left(ends: &Lockstep) -> (Vec<u8>, reference::lent::Lent, Vec<u8>) {
    let end = &ends.receiver;
    let output = ends.output_bytes.clone();
    (end.state_bytes.clone(), end.memory.clone(), output)
}
