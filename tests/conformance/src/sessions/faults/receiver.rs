//! A receiver on the rows of its state, written a second time, with a fault: its setup, its query, and
//! which messages it takes.

use super::*;
use reference::lent::Lent;
use reference::message::{encode, Body, Message};
use reference::settings::Settings;

pub const LEVELS: usize = 2;
pub const WIDTH: usize = 4;
pub const SESSION: usize = 5;
pub const PHASE: usize = 6;
pub const SIZE: usize = 7;
pub const ROOT: usize = 8;
pub const BUILT: usize = 9;
pub const TAKEN: usize = 10;
pub const WAITING: usize = 11;
pub const PLACES: usize = 12;
pub const ROWS: usize = PLACES + 2 * 128;

pub const ACCEPTED: u64 = 1 << 32;

/// The rows of a state; of a short one, zeros.
pub fn rows(fault: u8, state: &[u8]) -> Vec<u64> {
    let row = |bytes: &[u8]| u64::from_be_bytes(bytes.try_into().expect("8 bytes"));
    let mut rows: Vec<u64> = match state.len() < 8 * ROWS && fault != SHORT_STATE_READ {
        true => Vec::new(),
        false => state.chunks_exact(8).map(row).collect(),
    };
    rows.resize(ROWS, 0);
    match fault {
        PILE_LOW_BYTE => rows[WAITING] %= 256,
        PHASE_LOW_BYTE => rows[PHASE] %= 256,
        _ => {}
    }
    rows
}

pub fn write_rows(rows: &[u64], state: &mut [u8]) {
    for (row, bytes) in rows.iter().zip(state.chunks_exact_mut(8)) {
        bytes.copy_from_slice(&row.to_be_bytes());
    }
}

fn settings(rows: &[u64]) -> Settings {
    Settings {
        window: rows[0],
        fan_out: rows[1],
        levels: rows[2],
        nominal: rows[3],
    }
}

/// The first of 1 to 7 that has a no.
pub fn refused(fault: u8, state: &[u8], rows: &[u64], lent: &Lent) -> Option<u64> {
    let mut asked = lent.clone();
    match fault {
        SHORT_STATE_BY_7 if state.len() < 8 * ROWS => return Some(7),
        STRING_NOT_ASKED => asked.string.clear(),
        NODES_NOT_ASKED => asked.nodes.resize(65_536, 0),
        SHINGLES_NOT_ASKED => asked.shingles.resize(98_304, 0),
        CELLS_NOT_ASKED => asked.cells.resize(7_680, 0),
        _ => {}
    }
    asked.refused(&settings(rows), rows[WIDTH])
}

pub fn set_up(
    fault: u8,
    settings: &Settings,
    width: u64,
    session: u64,
    lent: &mut Lent,
    state: &mut [u8],
) -> u64 {
    let short = match fault {
        STATE_ONE_SHORTER => state.len() + 1 < 8 * ROWS,
        _ => state.len() < 8 * ROWS,
    };
    if short && fault != STATE_AFTER_8 {
        return lent.refused(settings, width).unwrap_or(7);
    }
    let answer = lent.set_up(settings, width);
    if answer == 8 && fault == STATE_ZEROED_AT_8 {
        state.fill(0);
    }
    if answer < ACCEPTED && !(answer == 8 && fault == STATE_MADE_AT_8) {
        return answer;
    }
    if short {
        return 7;
    }
    let mut rows = vec![0; ROWS];
    rows[..4].copy_from_slice(&[
        settings.window,
        settings.fan_out,
        settings.levels,
        settings.nominal,
    ]);
    rows[WIDTH] = width;
    rows[SESSION] = match fault {
        SESSION_WHOLE => session,
        SESSION_16_BITS => session % (1 << 16),
        _ => session % (1 << 24),
    };
    match fault {
        HEADER_ALONE => write_rows(&rows[..PLACES], state),
        _ => write_rows(&rows, state),
    }
    if fault == STATE_REST_CLEARED && answer > ACCEPTED {
        state[8 * ROWS..].fill(0);
    }
    answer
}

pub fn running(fault: u8, rows: &[u64]) -> bool {
    let waiting = rows[WAITING];
    let over = match fault {
        PILE_OF_127 => waiting > 127,
        _ => waiting > 128,
    };
    let ended = match fault {
        PHASE_2_ENDS_ALONE => rows[PHASE] == 2,
        _ => rows[PHASE] > 1,
    };
    if over || ended {
        return false;
    }
    let pending = waiting as usize;
    let asked = match fault {
        LEVELS_OF_ALL_PLACES => 0..128,
        LEVEL_OF_THE_TOP => pending.saturating_sub(1)..pending,
        LEVELS_NOT_ASKED => 0..0,
        _ => 0..pending,
    };
    let above = |k: usize| match fault {
        LEVEL_4_ALLOWED => rows[PLACES + 2 * k] > 4,
        _ => rows[PLACES + 2 * k] > rows[LEVELS],
    };
    let before = rows[PHASE] == 0;
    if asked.clone().any(above) && !(before && fault == PILE_BEFORE_NOT_ASKED) {
        return false;
    }
    waiting != 0 || before
}

/// The outstanding query.
pub fn asked(fault: u8, rows: &[u64]) -> Message {
    let session = (rows[SESSION] % (1 << 24)) as u32;
    let waiting = rows[WAITING] as usize;
    let place = match fault {
        FIRST_PLACE_ASKED => 0,
        _ => waiting.clamp(1, 128) - 1,
    };
    let body = match rows[PHASE] == 0 || waiting == 0 {
        true => Body::OpeningQuery,
        false => Body::NodeQuery {
            level: (rows[PLACES + 2 * place] % (1 << 28)) as u32,
            id: rows[PLACES + 2 * place + 1],
        },
    };
    Message { session, body }
}

pub fn query(fault: u8, state: &[u8], lent: &Lent, out: &mut [u8]) -> u64 {
    let rows = rows(fault, state);
    if fault != QUERY_ASKS_NOTHING_LENT {
        if let Some(question) = refused(fault, state, &rows, lent) {
            return question;
        }
    }
    if fault == ROOM_FIRST && out.len() < 8 {
        return 20;
    }
    if !running(fault, &rows) && fault != QUERY_OF_ENDED {
        return 9;
    }
    let bytes = encode(&asked(fault, &rows));
    let more = usize::from(fault == EXACT_ROOM_REFUSED);
    if bytes.len() + more > out.len() {
        if fault == WRITTEN_AT_20 {
            let fits = out.len() / 4 * 4;
            out[..fits].copy_from_slice(&bytes[..fits]);
        }
        return 20;
    }
    out[..bytes.len()].copy_from_slice(&bytes);
    if fault == QUERY_REST_CLEARED {
        out[bytes.len()..].fill(0);
    }
    match fault {
        QUERY_COUNTS_WORDS => ACCEPTED + bytes.len() as u64 / 4,
        _ => ACCEPTED + bytes.len() as u64,
    }
}

/// 11: whether a message answers the outstanding query.
pub fn matches(fault: u8, rows: &[u64], message: &Message) -> bool {
    let query = asked(fault, rows);
    let session = match fault {
        SESSION_NOT_ASKED => true,
        SESSION_LOW_16_BITS => message.session as u16 == query.session as u16,
        SESSION_LOW_24_BITS => message.session == query.session,
        _ => u64::from(message.session) == rows[SESSION],
    };
    let node = |level: u32, id: u64| match query.body {
        Body::NodeQuery { level: l, id: i } => {
            let same_level = level == l || fault == LEVEL_NOT_ASKED;
            let same_id = match fault {
                ID_NOT_ASKED => true,
                ID_LOW_32_BITS => id as u32 == i as u32,
                _ => id == i,
            };
            same_level && same_id
        }
        _ => false,
    };
    session
        && match message.body {
            Body::Opening(_) => query.body == Body::OpeningQuery || fault == OPENING_AGAIN,
            Body::Composition { level, id, .. }
            | Body::Literal { level, id, .. }
            | Body::None { level, id } => node(level, id),
            Body::NodeQuery { level, id } => fault == QUERY_TAKEN && node(level, id),
            Body::OpeningQuery => false,
        }
}
