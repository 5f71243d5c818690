//! Strings in which one byte value leaves and enters windows again and again, and of each value some: "each byte b is
//! replaced by entry b of a constant table of 256 numbers" (document 02, request 12). So no entry goes unread, wherever
//! it is read.

use crate::content::often;
use crate::random::Random;
use reference::settings::Settings;

/// The byte values, and the windows that each of them is read in.
pub const BYTES: usize = 256;
const WINDOWS: [u64; 6] = [2, 3, 4, 5, 8, 12];

/// How many cases there are.
pub const CASES: usize = BYTES * WINDOWS.len();

/// The byte value of this place.
pub fn byte(place: usize) -> u8 {
    (place % BYTES) as u8
}

/// Settings with which short strings have many blocks.
pub fn settings(place: usize, random: &mut Random) -> Settings {
    let (fan_out, levels) = (random.between(2, 4), random.between(2, 3));
    let least = fan_out.pow(levels as u32);
    Settings {
        window: WINDOWS[place / BYTES % WINDOWS.len()],
        fan_out,
        levels,
        nominal: random.between(least, 2 * least),
    }
}

/// A string with the place's byte at every few places.
pub fn string(place: usize, random: &mut Random) -> Vec<u8> {
    let length = random.between(200, 400) as usize;
    often(byte(place), length, random)
}
