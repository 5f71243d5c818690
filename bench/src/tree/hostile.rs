//! What the dearest strings that were found cost: a sentence.
//!
//! Their bytes differ, and the values of their windows go by turns over 1, 2 and 3, so that none is 0 and an equal one stands three places
//! before each: nowhere but at the shortest distances there is a cut, and the search can pass over little.

use super::growth::{name, worst, Figure};
use crate::cut::cut;
use crate::pass::cost;
use reference::partition::slide;
use reference::settings::Settings;
use reference::spread::entry;
use reference::vectors::string;
use std::hint::black_box;

const WINDOWS: [u64; 3] = [2, 8, 12];
const NOMINALS: [u64; 6] = [16, 32, 64, 128, 512, 2_048];
const LEVELS: u64 = 4;
const LENGTH: usize = 65_536;

/// A string whose windows have these values by turns, modulo s of a level. Each byte is the first that gives the value, from a random one
/// on; where no byte does, it is the random one.
fn by_turns(settings: &Settings, level: u64) -> Vec<u8> {
    let (w, modulus) = (settings.window as usize, settings.rule(level).modulus);
    let mut bytes = Vec::with_capacity(LENGTH);
    let mut value = 0;
    for (i, random) in string(2, LENGTH).into_iter().enumerate() {
        let leaves = i.checked_sub(w).map_or(0, |first| entry(bytes[first]));
        let entered = |byte: u8| slide(w, value, leaves, entry(byte));
        let wanted = (1 + i as u64 % 3) % modulus;
        let gives = |byte: &u8| entered(*byte) % modulus == wanted;
        let candidates = (0..=u8::MAX).map(|more| random.wrapping_add(more));
        let byte = candidates.into_iter().find(gives).unwrap_or(random);
        value = entered(byte);
        bytes.push(byte);
    }
    bytes
}

fn passes(settings: &Settings, level: u64) -> Figure {
    let (string, mut nodes) = (by_turns(settings, level), vec![0; 65_536]);
    let call = cost(|| {
        black_box(cut(settings, black_box(&string), &mut nodes));
    });
    (call.passes, format!("{}, level {level}", name(settings)))
}

/// Measures and prints.
pub fn run() {
    let with = |window, nominal| Settings {
        window,
        fan_out: 2,
        levels: LEVELS,
        nominal,
    };
    let all = WINDOWS
        .iter()
        .flat_map(|window| NOMINALS.map(|nominal| with(*window, nominal)));
    let figures = all.flat_map(|settings| (1..=LEVELS).map(move |level| passes(&settings, level)));
    let (most, place) = worst(figures);
    println!("Values by turns cost at most {most:.1} FNV-1a passes at 64 KiB ({place}).");
}
