//! The receiver's state in lent bytes: 268 rows of 64 bits, most significant byte first.
//!
//! The rows are w, p, L, M, q, the session, the phase (0 before the opening, 1 after it, any other
//! number for an end), the length and the root id that the opening announced, the bytes built, the
//! node replies taken, how many nodes are pending, and then level and id of each of the pile's 128
//! places, the pending nodes first, the last of them the top.

use crate::receiver::{Pending, Receiver, Stage, MOST_PENDING};
use crate::settings::Settings;

/// The rows before the places.
pub const HEADER_ROWS: usize = 12;

/// The bytes of a state.
pub const STATE_BYTES: usize = 8 * (HEADER_ROWS + 2 * MOST_PENDING);

/// The state that the bytes stand for, whatever they are. Fewer than a state has are read as zeros.
///
/// Of more pending nodes than there are places, the one over them stands for all: "A state with over
/// 128 pending nodes" is no session's, whatever they are.
pub fn read(bytes: &[u8]) -> Receiver {
    let row = |k: usize| match bytes.len() < STATE_BYTES {
        true => 0,
        false => u64::from_be_bytes(bytes[8 * k..8 * k + 8].try_into().expect("8 bytes")),
    };
    let place = |k: u64| match k < MOST_PENDING as u64 {
        true => Pending {
            level: row(HEADER_ROWS + 2 * k as usize),
            id: row(HEADER_ROWS + 2 * k as usize + 1),
        },
        false => Pending { level: 0, id: 0 },
    };
    Receiver {
        settings: Settings {
            window: row(0),
            fan_out: row(1),
            levels: row(2),
            nominal: row(3),
        },
        width: row(4),
        session: row(5),
        stage: match row(6) {
            0 => Stage::BeforeOpening,
            1 => Stage::AfterOpening,
            _ => Stage::Ended,
        },
        length: row(7),
        root: row(8),
        built: row(9),
        replies: row(10),
        pile: (0..row(11).min(MOST_PENDING as u64 + 1))
            .map(place)
            .collect(),
    }
}

/// Writes a state of at most 128 pending nodes to the front of bytes that are long enough; places that
/// no node has are zero. What is lent after them is untouched.
pub fn write(state: &Receiver, bytes: &mut [u8]) {
    let mut rows = vec![
        state.settings.window,
        state.settings.fan_out,
        state.settings.levels,
        state.settings.nominal,
        state.width,
        state.session,
        match state.stage {
            Stage::BeforeOpening => 0,
            Stage::AfterOpening => 1,
            Stage::Ended => 2,
        },
        state.length,
        state.root,
        state.built,
        state.replies,
        state.pile.len() as u64,
    ];
    rows.extend(state.pile.iter().flat_map(|node| [node.level, node.id]));
    rows.resize(STATE_BYTES / 8, 0);
    for (row, bytes) in rows.iter().zip(bytes[..STATE_BYTES].chunks_exact_mut(8)) {
        bytes.copy_from_slice(&row.to_be_bytes());
    }
}

/// An ended session: its settings and its number, and nothing else.
pub fn ended(state: &Receiver) -> Receiver {
    Receiver {
        stage: Stage::Ended,
        length: 0,
        root: 0,
        built: 0,
        replies: 0,
        pile: Vec::new(),
        ..state.clone()
    }
}
