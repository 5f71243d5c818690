//! A session walked through once, each message and what the receiver had before it.

use super::ends::{query, reply, set_up_receiver, set_up_sender, take, End};
use reference::rcds::{rcds_take, ACCEPTED};
use reference::settings::Settings;

/// More bytes than any reply has.
pub const REPLY: usize = 90_000;

/// The bytes of the longest query.
pub const QUERY: usize = 24;

/// A query, the reply to it, and the receiver before it takes the reply.
pub struct Step {
    pub query: Vec<u8>,
    pub reply: Vec<u8>,
    pub before: End,
    pub answer: u64,
}

/// Both ends after their setups, and every step up to the hand-over.
pub struct Walk {
    pub sender: End,
    pub receiver: End,
    pub output: Vec<u8>,
    pub steps: Vec<Step>,
}

/// What was written to the front of a buffer.
fn written(answer: u64, buffer: &[u8]) -> Vec<u8> {
    let length = answer.checked_sub(ACCEPTED).expect("a call is accepted");
    buffer[..length as usize].to_vec()
}

/// Walks through the session of two strings; every message that is taken is compared with the
/// reference.
pub fn walk(settings: &Settings, sender: &[u8], own: &[u8]) -> Walk {
    let (mut sender, mut receiver) = (End::sender(sender), End::receiver(own));
    let setups = [
        set_up_sender(settings, &mut sender),
        set_up_receiver(settings, &mut receiver),
    ];
    assert!(setups.iter().all(|&answer| answer > ACCEPTED), "{setups:?}");
    let mut walked = Walk {
        output: vec![0; sender.lent.string.len()],
        receiver: receiver.clone(),
        sender,
        steps: Vec::new(),
    };
    let (mut for_query, mut for_reply) = (vec![0; QUERY], vec![0; REPLY]);
    let mut answer = 0;
    while answer == 0 {
        let query = written(query(&receiver, &mut for_query), &for_query);
        let reply = written(reply(&walked.sender, &query, &mut for_reply), &for_reply);
        let before = receiver.clone();
        let (mut expected, mut output) = (receiver.clone(), walked.output.clone());
        answer = take(&mut receiver, &reply, &mut walked.output);
        let End { lent, state } = &mut expected;
        let expected_answer = rcds_take(state, lent, &reply, &mut output);
        let equal = answer == expected_answer
            && receiver.lent == expected.lent
            && walked.output == output
            && receiver.state[..96] == expected.state[..96];
        assert!(equal, "a wrong step: {settings:?}");
        walked.steps.push(Step {
            query,
            reply,
            before,
            answer,
        });
    }
    assert_eq!(walked.output, walked.sender.lent.string, "{settings:?}");
    walked
}
