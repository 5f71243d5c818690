//! Settings that are allowed and settings that are not, and lengths of strings that go with them.

use crate::random::Random;
use reference::settings::Settings;

/// w, p and L outside and at the ends of what questions 1 to 3 allow; also numbers that would be
/// allowed if only their low 8 or 32 bits were looked at.
const WINDOWS: [u64; 8] = [0, 1, 2, 12, 13, 256 + 4, (1 << 32) + 4, u64::MAX];
const FAN_OUTS: [u64; 8] = [0, 1, 2, 8, 9, 256 + 2, (1 << 32) + 2, u64::MAX];
const LEVELS: [u64; 8] = [0, 1, 4, 5, 64, 256 + 1, (1 << 32) + 1, u64::MAX];

/// How many nominal lengths `edge_nominal` has.
pub const NOMINALS: usize = 8;

/// Settings with which short strings of few symbols have blocks of a few bytes at the last level: then a node has
/// few trails, and the first of several is no rare one.
pub fn shortest_blocks(random: &mut Random) -> Settings {
    let (fan_out, levels) = (random.between(2, 8), random.one_of(&[1, 1, 1, 2]));
    Settings {
        window: 2,
        fan_out,
        levels,
        nominal: fan_out.pow(levels as u32),
    }
}

/// The combination of this number.
pub fn edge_settings(place: usize) -> Settings {
    let (fan_out, levels) = (FAN_OUTS[place / 8 % 8], LEVELS[place / 64 % 8]);
    Settings {
        window: WINDOWS[place % 8],
        fan_out,
        levels,
        nominal: edge_nominal(fan_out, levels, place / 512),
    }
}

/// Allowed w, p and L with the M of this number.
pub fn edge_nominals(place: usize, random: &mut Random) -> Settings {
    let (fan_out, levels) = (2 + place as u64 % 7, 1 + place as u64 / 7 % 4);
    Settings {
        window: random.between(2, 12),
        fan_out,
        levels,
        nominal: edge_nominal(fan_out, levels, place / 28 % NOMINALS),
    }
}

/// M at and past the ends of what question 4 allows, where p^L is a number of 64 bits.
fn edge_nominal(fan_out: u64, levels: u64, which: usize) -> u64 {
    let exponent = levels.min(64) as u32;
    let least = fan_out.checked_pow(exponent).unwrap_or(65_536);
    let nominals: [u64; NOMINALS] = [
        0,
        least.saturating_sub(1),
        least,
        65_536,
        65_537,
        (1 << 32) + least.min(65_536),
        (1 << 16) + least.min(65_536),
        u64::MAX,
    ];
    nominals[which]
}

/// Settings with an M that is allowed: either end, close to the lower end, or any.
pub fn with_nominal(window: u64, fan_out: u64, levels: u64, random: &mut Random) -> Settings {
    let least = fan_out.pow(levels as u32);
    let nominal = match random.between(0, 9) {
        0 => least,
        1 => 65_536,
        2 | 3 => random.between(least, 2 * least),
        _ => random.by_size(least, 65_536),
    };
    Settings {
        window,
        fan_out,
        levels,
        nominal,
    }
}

/// Any settings that are allowed.
pub fn any_allowed(random: &mut Random) -> Settings {
    let (w, p, levels) = (
        random.between(2, 12),
        random.between(2, 8),
        random.between(1, 4),
    );
    with_nominal(w, p, levels, random)
}

/// Settings with which long strings of different bytes have thousands of nodes.
pub fn many_nodes(random: &mut Random) -> Settings {
    let fan_out = random.between(5, 8);
    let least = fan_out.pow(4);
    Settings {
        window: random.between(2, 12),
        fan_out,
        levels: 4,
        nominal: random.between(least, 3 * least),
    }
}

/// A length from `least` to `most`: any; or one at which a level begins to have room for its first
/// cut, or for one cut more, or just misses it. There is room for k cuts from k × (h + 1) + h + w − 1 on.
pub fn any_length(settings: &Settings, least: usize, most: usize, random: &mut Random) -> usize {
    let rule = settings.rule(random.between(1, settings.levels));
    let most_cuts = random.one_of(&[1, 33]);
    let cuts = random.between(1, most_cuts) as usize;
    let edge = cuts * (rule.distance + 1) + rule.distance + rule.window - 1;
    let near_edge = edge - 2 + random.between(0, 4) as usize;
    let any = random.by_size(least as u64, most as u64) as usize;
    if random.between(0, 1) == 0 && (least..=most).contains(&near_edge) {
        near_edge
    } else {
        any
    }
}
