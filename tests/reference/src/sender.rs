//! The state of a sender: the settings it holds.

use crate::row::number;
use crate::settings::Settings;

/// Five settings, 8 bytes each.
pub const STATE_BYTES: usize = 40;

/// "Settings: window w, fan-out p, levels L, nominal length M, sketch width q."
///
/// In this order to the front of the state, each a row of 64 bits, most significant byte first.
/// They are "the settings it holds", which every later call asks 1 to 7 of again. What is lent
/// after them is untouched. The state is at least 40 bytes.
pub fn write(settings: &Settings, width: u64, state: &mut [u8]) {
    assert!(state.len() >= STATE_BYTES);
    let held = [
        settings.window,
        settings.fan_out,
        settings.levels,
        settings.nominal,
        width,
    ];
    for (i, number) in held.iter().enumerate() {
        state[8 * i..8 * i + 8].copy_from_slice(&number.to_be_bytes());
    }
}

/// "the settings it holds", and the width: the first five rows of the state, which a receiver's begins
/// with too. A row that is not there in full reads as 0.
pub fn held(state: &[u8]) -> (Settings, u64) {
    let row = |k: usize| state.chunks_exact(8).nth(k).map_or(0, number);
    let settings = Settings {
        window: row(0),
        fan_out: row(1),
        levels: row(2),
        nominal: row(3),
    };
    (settings, row(4))
}
