//! Costs of one setup.

use crate::pass::{cost, Cost};
use calls::rcds_sender_setup;
use reference::rcds::ACCEPTED;
use reference::settings::Settings;
use reference::shingle_table;
use reference::vectors::{string, FULL_RULER};
use std::hint::black_box;

/// w, p, L, M, and the string: its content with its kind as `vectors` numbers it, and its length.
pub type Setup = ([u64; 4], (&'static str, u64), usize);

const ZEROS: (&str, u64) = ("zeros", 0);
const RULER: (&str, u64) = ("ruler", 6);
const SEVENS: (&str, u64) = ("sevens", 1);
const RANDOM: (&str, u64) = ("random", 2);
const SAMPLES: (&str, u64) = ("samples", 4);

/// Strings of 64 KiB with the settings whose cutting is dearest, strings that have about 4,096 nodes, and strings with settings that the
/// guide recommends.
pub const SETUPS: [Setup; 12] = [
    ([12, 8, 4, 65_536], ZEROS, 65_536),
    ([12, 8, 4, 65_536], RANDOM, 65_536),
    ([12, 8, 4, 65_536], SAMPLES, 65_536),
    ([12, 2, 4, 1_024], RANDOM, 65_536),
    ([12, 2, 4, 16], SEVENS, 65_536),
    ([12, 8, 3, 32_768], RANDOM, 65_536),
    ([12, 7, 4, 22_000], RANDOM, 65_536),
    ([8, 8, 4, 8_192], RANDOM, 20_200),
    ([2, 8, 4, 4_096], RULER, FULL_RULER),
    ([12, 8, 4, 4_096], RANDOM, 17_500),
    ([12, 8, 4, 4_096], ZEROS, 65_536),
    ([12, 7, 2, 5_120], SAMPLES, 16_384),
];

/// What one setup cost.
pub struct Row {
    pub settings: String,
    pub string: String,
    pub answer: u64,
    pub shingles: usize,
    pub cost: Cost,
}

/// What is lent for writing.
struct Tables {
    nodes: Vec<u8>,
    shingles: Vec<u8>,
    cells: Vec<u8>,
    state: Vec<u8>,
}

fn tables() -> Tables {
    Tables {
        nodes: vec![0; 65_536],
        shingles: vec![0; 98_304],
        cells: vec![0; 7_680],
        state: vec![0; 40],
    }
}

/// The call, on slices.
fn setup(settings: &Settings, string: &[u8], tables: &mut Tables) -> u64 {
    // All slices are there in full, and they do not overlap.
    unsafe {
        rcds_sender_setup(
            settings.window,
            settings.fan_out,
            settings.levels,
            settings.nominal,
            64,
            string.as_ptr(),
            string.len(),
            tables.nodes.as_mut_ptr(),
            tables.nodes.len(),
            tables.shingles.as_mut_ptr(),
            tables.shingles.len(),
            tables.cells.as_mut_ptr(),
            tables.cells.len(),
            tables.state.as_mut_ptr(),
            tables.state.len(),
        )
    }
}

/// Measures one setup, whose tables are compared with the reference's.
pub fn row((settings, content, length): &Setup) -> Row {
    let [window, fan_out, levels, nominal] = *settings;
    let settings = Settings {
        window,
        fan_out,
        levels,
        nominal,
    };
    let string = string(content.1, *length);
    let (mut given, mut expected) = (tables(), tables());
    let answer = setup(&settings, &string, &mut given);
    let expected_answer = reference::rcds::rcds_sender_setup(
        &settings,
        64,
        &string,
        &mut expected.nodes,
        &mut expected.shingles,
        &mut expected.cells,
        &mut expected.state,
    );
    let equal = answer == expected_answer
        && given.nodes == expected.nodes
        && given.shingles == expected.shingles
        && given.cells == expected.cells
        && given.state == expected.state;
    assert!(equal, "a wrong setup: {settings:?}");
    let cost = cost(|| {
        black_box(setup(&settings, black_box(&string), &mut given));
    });
    let shingles = match answer >= ACCEPTED {
        true => shingle_table::read(&given.shingles).len(),
        false => 0,
    };
    Row {
        settings: format!("{window} {fan_out} {levels} {nominal}"),
        string: format!("{}, {length} bytes", content.0),
        answer,
        shingles,
        cost,
    }
}
