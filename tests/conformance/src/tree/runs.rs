//! Strings with runs of equal bytes: "most of a fresh file is one run of equal bytes" (document 02, request 7). Each
//! length of a run from none to a few h and w comes, with others before it, after it, on both sides or on none.

use crate::content::beside;
use crate::random::Random;
use reference::settings::Settings;

/// The largest h of level 1, and how many runs there are of each w and h.
pub const LONGEST_DISTANCE: usize = 9;
pub const RUNS: usize = 60;

/// Every w with every h of level 1 up to the largest, cut by one to three levels.
pub fn settings(place: usize, random: &mut Random) -> Settings {
    let (window, distance) = (2 + place % 11, 1 + place / 11 % LONGEST_DISTANCE);
    let levels = random.one_of(&[1, 1, 2, 3]);
    let fan_out = random.between(2, 8);
    let over = random.between(0, fan_out - 1);
    let least = fan_out.pow(levels as u32);
    Settings {
        window: window as u64,
        fan_out,
        levels,
        nominal: (fan_out * distance as u64 + over).max(least),
    }
}

/// Where a run stands.
#[derive(Clone, Copy)]
enum Stand {
    Start,
    Middle,
    End,
    Alone,
    /// Two of them, with others between.
    Twice,
}

/// A string with a run of a length that goes by the place. Beside it are as many bytes as bar a cut or leave room for
/// some.
pub fn string(settings: &Settings, place: usize, random: &mut Random) -> Vec<u8> {
    let rule = settings.rule(random.between(1, settings.levels));
    let (h, w) = (rule.distance, rule.window);
    let stand = [
        Stand::Start,
        Stand::Middle,
        Stand::End,
        Stand::Alone,
        Stand::Twice,
    ][place % 5];
    let run = place / (11 * LONGEST_DISTANCE) % RUNS * (3 * h + 2 * w) / RUNS;
    let run = run + random.between(0, 2) as usize;
    let any = random.number() as u8;
    let byte = random.one_of(&[0, 0, 7, any]);
    let mut others = || beside(random.between(0, 3 * (h + w) as u64) as usize, byte, random);
    let [before, after, between] = [others(), others(), others()];
    let run = vec![byte; run];
    match stand {
        Stand::Start => [run, after].concat(),
        Stand::Middle => [before, run, after].concat(),
        Stand::End => [before, run].concat(),
        Stand::Alone => run,
        Stand::Twice => [before, run.clone(), between, run, after].concat(),
    }
}
