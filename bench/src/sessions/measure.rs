//! Costs of the calls of one session.

use super::ends::{query, reply, set_up_receiver, set_up_sender, take, End};
use super::walk::{walk, Step, Walk, QUERY, REPLY};
use crate::pass::{cost, Cost};
use reference::message::{encode, Body, Message};
use reference::receiver::{Pending, Receiver, Stage};
use reference::receiver_state;
use reference::settings::Settings;
use reference::vectors::{ruler, string, FULL_RULER, RULED};
use std::hint::black_box;

/// w, p, L, M, and the string: its content with its kind as `vectors` numbers it.
pub type Session = ([u64; 4], (&'static str, u64));

const RANDOM: (&str, u64) = ("random", 2);
const SAMPLES: (&str, u64) = ("samples", 4);

/// Settings whose cutting is dearest, and those that the guide recommends.
pub const SESSIONS: [Session; 4] = [
    ([12, 8, 4, 65_536], RANDOM),
    ([12, 8, 4, 65_536], SAMPLES),
    ([12, 8, 3, 32_768], RANDOM),
    ([12, 8, 3, 32_768], SAMPLES),
];

/// The bytes of both strings.
const LENGTH: usize = 65_536;

/// What the calls of a session cost, by name.
pub struct Row {
    pub settings: String,
    pub string: &'static str,
    pub steps: usize,
    pub calls: Vec<(String, Cost)>,
    pub total: Cost,
}

fn settings([window, fan_out, levels, nominal]: [u64; 4]) -> Settings {
    Settings {
        window,
        fan_out,
        levels,
        nominal,
    }
}

/// Measures the session of a string and the string with one byte replaced, in its middle.
pub fn row((numbers, content): &Session) -> Row {
    let settings = settings(*numbers);
    let own = string(content.1, LENGTH);
    let mut senders = own.clone();
    senders[LENGTH / 2] ^= 0x55;
    let walked = walk(&settings, &senders, &own);
    let mut calls = setups(&settings, &walked);
    calls.extend(messages(&walked));
    let total = cost(|| whole(&settings, &senders, &own, walked.steps.len()));
    let [window, fan_out, levels, nominal] = numbers;
    Row {
        settings: format!("{window} {fan_out} {levels} {nominal}"),
        string: content.0,
        steps: walked.steps.len(),
        calls,
        total,
    }
}

fn setups(settings: &Settings, walked: &Walk) -> Vec<(String, Cost)> {
    let (mut sender, mut receiver) = (walked.sender.clone(), walked.receiver.clone());
    let of_sender = cost(|| {
        black_box(set_up_sender(settings, black_box(&mut sender)));
    });
    let of_receiver = cost(|| {
        black_box(set_up_receiver(settings, black_box(&mut receiver)));
    });
    vec![
        ("sender's setup".to_string(), of_sender),
        ("receiver's setup".to_string(), of_receiver),
    ]
}

/// The opening's step, the first composition's and the last literal's.
fn messages(walked: &Walk) -> Vec<(String, Cost)> {
    let of_type = |step: &Step| step.reply[0] % 16;
    let mut calls = Vec::new();
    for (number, name) in [(3, "opening"), (4, "composition"), (5, "literal")] {
        let mut steps = walked.steps.iter().filter(|step| of_type(step) == number);
        let step = match number {
            5 => steps.last(),
            _ => steps.next(),
        };
        let Some(step) = step else {
            continue;
        };
        calls.push((format!("query before the {name}"), of_query(step)));
        calls.push((format!("reply: {name}"), of_reply(&walked.sender, step)));
        let handed = match step.answer {
            0 => "",
            _ => ", and the string is handed over",
        };
        calls.push((
            format!("take of the {name}{handed}"),
            of_take(step, &walked.output),
        ));
    }
    calls
}

fn of_query(step: &Step) -> Cost {
    let mut buffer = vec![0; QUERY];
    cost(|| {
        black_box(query(black_box(&step.before), &mut buffer));
    })
}

fn of_reply(sender: &End, step: &Step) -> Cost {
    let mut buffer = vec![0; REPLY];
    cost(|| {
        black_box(reply(sender, black_box(&step.query), &mut buffer));
    })
}

/// State, and for an opening the list, are copied back before each call; that counts.
fn of_take(step: &Step, output: &[u8]) -> Cost {
    let (mut receiver, mut output) = (step.before.clone(), output.to_vec());
    let opening = step.reply[0] % 16 == 3;
    cost(|| {
        receiver.state.copy_from_slice(&step.before.state);
        if opening {
            let list = &step.before.lent.shingles;
            receiver.lent.shingles.copy_from_slice(list);
        }
        let answer = take(&mut receiver, black_box(&step.reply), &mut output);
        assert_eq!(answer, step.answer, "the same call, the same answer");
    })
}

/// All calls of a session.
fn whole(settings: &Settings, senders: &[u8], own: &[u8], steps: usize) {
    let (mut sender, mut receiver) = (End::sender(senders), End::receiver(own));
    set_up_sender(settings, &mut sender);
    set_up_receiver(settings, &mut receiver);
    let mut output = vec![0; senders.len()];
    let (mut for_query, mut for_reply) = (vec![0; QUERY], vec![0; REPLY]);
    let mut answer = 0;
    for _ in 0..steps {
        let length = query(&receiver, &mut for_query) as u32 as usize;
        let length = reply(&sender, &for_query[..length], &mut for_reply) as u32 as usize;
        answer = take(&mut receiver, &for_reply[..length], &mut output);
    }
    assert_eq!(answer as u32 as usize, senders.len(), "a hand-over");
}

/// Taking an empty literal that leaves a node which the receiver has not, over a table of 4,096 nodes,
/// and over one of none: one look-up that misses, and what else the call does.
pub fn look_up() -> [Cost; 2] {
    let settings = RULED;
    let mut end = End::receiver(&ruler(FULL_RULER));
    let answer = set_up_receiver(&settings, &mut end);
    assert_eq!(answer, (1 << 32) + 4_096, "nodes");
    let pending = |id: u64| Pending { level: 1, id };
    let state = Receiver {
        settings,
        width: super::ends::WIDTH,
        session: super::ends::SESSION,
        stage: Stage::AfterOpening,
        length: 10,
        root: 1,
        built: 0,
        replies: 1,
        pile: vec![pending(2), pending(3)],
    };
    let mut before = end.state.clone();
    receiver_state::write(&state, &mut before);
    let literal = encode(&Message {
        session: 1,
        body: Body::Literal {
            level: 1,
            id: 3,
            bytes: Vec::new(),
        },
    });
    let mut output = [0; 10];
    let mut of = |end: &mut End| {
        cost(|| {
            end.state.copy_from_slice(&before);
            let answer = take(end, black_box(&literal), &mut output);
            assert_eq!(answer, 0, "the session goes on");
        })
    };
    let with_nodes = of(&mut end);
    end.lent.nodes.fill(0);
    [with_nodes, of(&mut end)]
}
