//! States of either end: the settings stand in the first five rows of both.

use crate::random::Random;
use crate::settings::{any_allowed, edge_settings, with_nominal};
use reference::receiver::{Pending, Receiver, Stage, SESSIONS};
use reference::receiver_state::{self, ended};
use reference::sender;
use reference::settings::Settings;

/// q at and past the ends of what question 5 allows; also numbers that would be allowed if only their low
/// 8 or 32 bits were looked at, and one whose 3q cells have no bytes modulo 2^64.
const WIDTHS: [u64; 10] = [
    0,
    1,
    64,
    65,
    128,
    256 + 1,
    1 << 16,
    (1 << 32) + 1,
    1 << 61,
    u64::MAX,
];

/// Any settings that are allowed, with so many levels.
pub fn with_levels(levels: u64, random: &mut Random) -> Settings {
    let (w, p) = (random.between(2, 12), random.between(2, 8));
    with_nominal(w, p, levels, random)
}

/// A sender's state.
pub fn senders(settings: &Settings, width: u64) -> Vec<u8> {
    let mut state = vec![0; sender::STATE_BYTES];
    sender::write(settings, width, &mut state);
    state
}

/// A receiver's state: as its setup leaves it, of a session that goes on, of one that has ended, or with any rows
/// after the settings.
pub fn receivers(settings: &Settings, width: u64, random: &mut Random) -> Vec<u8> {
    let new = Receiver {
        settings: *settings,
        width,
        session: random.between(0, SESSIONS - 1),
        stage: Stage::BeforeOpening,
        length: 0,
        root: 0,
        built: 0,
        replies: 0,
        pile: Vec::new(),
    };
    let pending = Pending {
        level: random.between(0, settings.levels),
        id: random.number(),
    };
    let receiver = match random.between(0, 4) {
        0 | 1 => new,
        2 => Receiver {
            stage: Stage::AfterOpening,
            length: random.between(0, 65_536),
            root: random.number(),
            replies: random.between(0, 4_096),
            pile: vec![pending; random.between(1, 128) as usize],
            ..new
        },
        _ => ended(&new),
    };
    let mut state = vec![0; receiver_state::STATE_BYTES];
    receiver_state::write(&receiver, &mut state);
    if random.between(0, 4) == 0 {
        let after = receiver_state::STATE_BYTES - sender::STATE_BYTES;
        state[sender::STATE_BYTES..].copy_from_slice(&random.bytes(after));
    }
    state
}

/// A state of one end or the other.
pub fn of_either_end(settings: &Settings, width: u64, random: &mut Random) -> Vec<u8> {
    match random.between(0, 1) {
        0 => senders(settings, width),
        _ => receivers(settings, width, random),
    }
}

/// How many lengths `of_length` has.
pub const LENGTHS: usize = 56;

/// The state cut off or lengthened: 0 to 48 bytes, and lengths around a receiver's.
pub fn of_length(state: &mut Vec<u8>, place: usize, random: &mut Random) {
    let receivers = receiver_state::STATE_BYTES;
    let longer = [
        96,
        1_000,
        receivers - 8,
        receivers - 1,
        receivers,
        receivers + 1,
        3_000,
    ];
    let length = match place % LENGTHS {
        short @ 0..=48 => short,
        long => longer[long - 49],
    };
    state.resize(length, random.one_of(&[0, 0, 0xff]));
}

/// Settings and a width at or past the ends of what 1 to 5 allow.
pub fn edges(place: usize, random: &mut Random) -> (Settings, u64) {
    let any = random.between(1, 64);
    let edge = edge_settings(4 * place + random.between(0, 3) as usize);
    let width = WIDTHS[place % WIDTHS.len()];
    match random.between(0, 2) {
        0 => (any_allowed(random), width),
        1 => (edge, any),
        _ => (edge, width),
    }
}
