//! The strings and settings that the program `vectors` runs through, and what it prints for them.
//! The head of `bin/reference-vectors.rs` says the format.

use crate::fnv::{block_id, fnv1a};
use crate::lent::Lent;
use crate::listing::line;
use crate::rcds::{
    rcds_crossed, rcds_most_blocks, rcds_sender_setup, rcds_sketch_open, rcds_strata_build,
    rcds_strata_estimate, rcds_tree, ACCEPTED,
};
use crate::row::number;
use crate::settings::Settings;
use crate::{node_table, sender, strata};

/// Published inputs of FNV-1a.
pub const PUBLISHED: [&str; 12] = [
    "", "a", "b", "c", "d", "e", "f", "fo", "foo", "foob", "fooba", "foobar",
];

/// Eight bytes whose FNV-1a is 0.
pub const HASHES_TO_ZERO: [u8; 8] = [0xd5, 0x6b, 0xb9, 0x53, 0x42, 0x87, 0x08, 0x36];

/// w, p, L, M of the settings that are run over every string.
pub const SETTINGS: [[u64; 4]; 8] = [
    [2, 2, 1, 2],
    [2, 2, 4, 16],
    [3, 4, 2, 64],
    [12, 8, 1, 8],
    [4, 2, 3, 65_536],
    [5, 3, 4, 1_000],
    [2, 8, 4, 4_096],
    [7, 5, 2, 300],
];

/// The lengths of every kind of string.
pub const LENGTHS: [usize; 8] = [0, 1, 5, 17, 100, 1_000, 4_527, 20_000];

/// Two more strings, as kind and length.
pub const LONGEST: [[usize; 2]; 2] = [[0, 65_536], [2, 65_536]];

/// w, p, L, M, kind, length of the cases that are refused before a string is cut.
pub const REFUSED: [[u64; 6]; 10] = [
    [1, 2, 1, 2, 2, 100],
    [13, 2, 1, 2, 2, 100],
    [2, 1, 1, 2, 2, 100],
    [2, 9, 1, 9, 2, 100],
    [2, 2, 0, 2, 2, 100],
    [2, 2, 5, 32, 2, 100],
    [2, 2, 1, 1, 2, 100],
    [2, 2, 4, 15, 2, 100],
    [2, 2, 1, 65_537, 2, 100],
    [2, 2, 1, 2, 0, 65_537],
];

/// The settings that rulers are made for: with them the marks of each kind stand a little further apart than the h of
/// one level, so that cuts are many.
pub const RULED: Settings = Settings {
    window: 2,
    fan_out: 8,
    levels: 4,
    nominal: 4_096,
};

/// The bytes of the shortest ruler with 4,096 nodes, which question 8 just allows, and those of one with too many.
pub const FULL_RULER: usize = 6_670;
pub const LONG_RULER: usize = 9_000;

/// w, p, L, M, kind, length of rulers that are cut. That of one byte more has 4,096 nodes too.
pub const RULERS: [[u64; 6]; 3] = [
    [2, 8, 4, 4_096, 6, FULL_RULER as u64],
    [2, 8, 4, 4_096, 6, FULL_RULER as u64 + 1],
    [2, 8, 4, 4_096, 6, LONG_RULER as u64],
];

/// w, p, L, M, q of the settings with which senders are set up.
pub const SETUPS: [[u64; 5]; 5] = [
    [2, 2, 1, 2, 64],
    [2, 2, 4, 16, 1],
    [4, 4, 3, 4_096, 17],
    [12, 8, 4, 16_384, 33],
    [2, 8, 4, 4_096, 63],
];

/// The lengths and the kinds of the strings that they are set up for.
pub const SETUP_LENGTHS: [usize; 5] = [0, 6, 100, 4_527, 20_000];
pub const SETUP_KINDS: [u64; 4] = [0, 2, 4, 5];

/// w, p, L, M, q, kind, length of the setups that are refused before a string is cut.
pub const REFUSED_SETUPS: [[u64; 7]; 5] = [
    [2, 2, 1, 2, 0, 2, 100],
    [2, 2, 1, 2, 65, 2, 100],
    [2, 2, 1, 1, 65, 2, 100],
    [2, 2, 1, 2, 64, 0, 65_537],
    [2, 2, 1, 2, 65, 0, 65_537],
];

/// w, p, L, M, q, kind, length of the setups for rulers, of 4,096 nodes and of too many.
pub const RULER_SETUPS: [[u64; 7]; 2] = [
    [2, 8, 4, 4_096, 63, 6, FULL_RULER as u64],
    [2, 8, 4, 4_096, 63, 6, LONG_RULER as u64],
];

/// w, p, L, M, q of the openings that are refused before the sketch is opened, of 100 bytes of kind 2.
pub const REFUSED_OPENINGS: [[u64; 5]; 3] = [[2, 2, 0, 2, 64], [2, 2, 5, 32, 64], [2, 2, 1, 2, 65]];

/// w, p, L, M, kind, length of the trees whose nodes are printed one by one, and crossed by ranges.
pub const CROSSED_TREES: [[u64; 6]; 3] = [
    [2, 2, 1, 2, 6, 8],
    [2, 2, 4, 16, 2, 27],
    [2, 2, 4, 16, 0, 0],
];

/// Start and length of the ranges, and for how many entries there is room.
pub const RANGES: [[u64; 3]; 11] = [
    [0, 0, 0],
    [0, 1, 64],
    [2, 2, 64],
    [3, 2, 64],
    [0, 8, 4],
    [0, 8, 3],
    [8, 0, 0],
    [26, 1, 5],
    [26, 2, 64],
    [0, 27, 64],
    [u64::MAX, 2, 64],
];

/// w, p, L, M, q of the settings with which the senders are set up whose strata are compared.
pub const STRATA_SETTINGS: [[u64; 5]; 3] =
    [[2, 2, 1, 2, 64], [4, 4, 3, 4_096, 17], [2, 8, 4, 4_096, 63]];

/// The lengths of their strings, and the kinds of the first's and of the second's.
pub const STRATA_LENGTHS: [usize; 3] = [100, 4_527, 20_000];
pub const STRATA_KINDS: [[u64; 2]; 5] = [[2, 2], [4, 4], [5, 5], [2, 3], [4, 2]];

/// w, p, L, M, q of the strata that are refused, of 100 bytes of kind 2.
pub const REFUSED_STRATA: [[u64; 5]; 2] = [[2, 2, 1, 2, 65], [2, 2, 5, 32, 64]];

/// How many bytes of a table of strata are lent past its 192 cells.
pub const PAST_THE_STRATA: usize = 8;

/// n, w and h of the most blocks.
pub const MOST: [[u64; 3]; 18] = [
    [0, 2, 1],
    [1, 12, 32_768],
    [5, 2, 2],
    [6, 2, 2],
    [9, 2, 2],
    [100, 3, 7],
    [66, 2, 2],
    [68, 2, 2],
    [65_536, 12, 32_768],
    [65_536, 2, 32_767],
    [65_536, 12, 2],
    [65_537, 2, 1],
    [7, 1, 1],
    [7, 13, 1],
    [7, 2, 0],
    [7, 2, 32_769],
    [7, 13, 0],
    [u64::MAX, 2, 1],
];

/// The bytes of the tables and of the state before each call.
pub const BEFORE: u8 = 170;

/// One step of the linear congruential generator modulo 2^64.
fn step(x: u64) -> u64 {
    x.wrapping_mul(6_364_136_223_846_793_005)
        .wrapping_add(1_442_695_040_888_963_407)
}

/// The first `length` bytes of the generator started at `seed`: a step, then its highest byte.
fn random_bytes(seed: u64, length: usize) -> Vec<u8> {
    let mut x = seed;
    let mut bytes = Vec::with_capacity(length);
    for _ in 0..length {
        x = step(x);
        bytes.push((x >> 56) as u8);
    }
    bytes
}

/// Sample k of a triangle wave of period 1,000 between 0 and 4,000.
pub fn triangle(k: usize) -> usize {
    let t = k % 1_000;
    if t < 500 {
        8 * t
    } else {
        8 * (1_000 - t)
    }
}

/// Byte i of a ruler: a mark at every 560th, 80th, 10th and 2nd byte, or what lies between marks.
fn ruler_byte(i: usize) -> u8 {
    let marks = [(560, 98), (80, 249), (10, 215), (2, 122)];
    let mark = marks.into_iter().find(|(step, _)| i % step == 0);
    mark.map_or(230, |(_, byte)| byte)
}

/// The ruler of a length: the string of kind 6.
pub fn ruler(length: usize) -> Vec<u8> {
    (0..length).map(ruler_byte).collect()
}

/// The string of a kind and a length.
pub fn string(kind: u64, length: usize) -> Vec<u8> {
    let random = random_bytes(8 * length as u64 + kind, length);
    let byte = |i: usize| match kind {
        0 => 0,
        1 => 7,
        2 => random[i],
        3 => random[i] / 64,
        4 if i % 2 == 0 => (triangle(i / 2) / 256) as u8,
        4 => (triangle(i / 2) % 256) as u8,
        5 => random[i % 37],
        6 => ruler_byte(i),
        _ => panic!("kinds are 0 to 6"),
    };
    (0..length).map(byte).collect()
}

/// The answer of `rcds_tree`, and the node table after it.
fn cut(settings: [u64; 4], string: &[u8]) -> (u64, Vec<u8>) {
    let [window, fan_out, levels, nominal] = settings;
    let settings = Settings {
        window,
        fan_out,
        levels,
        nominal,
    };
    let mut table = vec![BEFORE; 65_536];
    let answer = rcds_tree(&settings, string, &mut table);
    (answer, table)
}

/// The line of one tree case.
fn tree_line(settings: [u64; 4], kind: u64, length: usize) -> String {
    let [w, p, levels, nominal] = settings;
    let (answer, table) = cut(settings, &string(kind, length));
    let digest = fnv1a(&table);
    format!("{w} {p} {levels} {nominal} {kind} {length} {answer} {digest}")
}

/// The lines of FNV-1a and of the block id.
pub fn fnv_lines() -> Vec<String> {
    let mut inputs: Vec<Vec<u8>> = PUBLISHED
        .iter()
        .map(|text| text.as_bytes().to_vec())
        .collect();
    inputs.extend((0..=255).map(|byte| vec![byte]));
    inputs.push(HASHES_TO_ZERO.to_vec());
    let line = |input: &Vec<u8>| format!("fnv {} {}", input.len(), fnv1a(input));
    let mut lines: Vec<String> = inputs.iter().map(line).collect();
    lines.push(format!("id {}", block_id(&HASHES_TO_ZERO)));
    lines
}

/// The lines of all tree cases.
pub fn tree_lines() -> Vec<String> {
    let mut lines = Vec::new();
    for settings in SETTINGS {
        for kind in 0..=5 {
            for length in LENGTHS {
                lines.push(tree_line(settings, kind, length));
            }
        }
        for [kind, length] in LONGEST {
            lines.push(tree_line(settings, kind as u64, length));
        }
    }
    for [w, p, levels, nominal, kind, length] in REFUSED.into_iter().chain(RULERS) {
        lines.push(tree_line([w, p, levels, nominal], kind, length as usize));
    }
    lines
}

/// The line of one setup.
fn setup_line(settings: [u64; 5], kind: u64, length: usize) -> String {
    let [w, p, levels, nominal, width] = settings;
    let settings = Settings {
        window: w,
        fan_out: p,
        levels,
        nominal,
    };
    let [mut nodes, mut list, mut cells, mut state] =
        [65_536, 98_304, 7_680, 48].map(|length| vec![BEFORE; length]);
    let answer = rcds_sender_setup(
        &settings,
        width,
        &string(kind, length),
        &mut nodes,
        &mut list,
        &mut cells,
        &mut state,
    );
    let [nodes, list, cells, state] = [nodes, list, cells, state].map(|bytes| fnv1a(&bytes));
    format!(
        "setup {w} {p} {levels} {nominal} {width} {kind} {length} {answer} {nodes} {list} {cells} {state}"
    )
}

/// The lines of all setups.
pub fn setup_lines() -> Vec<String> {
    let mut lines = Vec::new();
    for settings in SETUPS {
        for length in SETUP_LENGTHS {
            for kind in SETUP_KINDS {
                lines.push(setup_line(settings, kind, length));
            }
        }
    }
    for case in REFUSED_SETUPS.into_iter().chain(RULER_SETUPS) {
        let [w, p, levels, nominal, width, kind, length] = case;
        lines.push(setup_line(
            [w, p, levels, nominal, width],
            kind,
            length as usize,
        ));
    }
    lines
}

/// A sender of a string, set up over tables and a state of zeros: its state, and what it lends.
fn sender_of(settings: &Settings, width: u64, string: &[u8]) -> (Vec<u8>, Lent) {
    let mut state = vec![0; sender::STATE_BYTES];
    let [nodes, shingles, cells] = [65_536, 98_304, 7_680].map(|length| vec![0; length]);
    let mut lent = Lent {
        string: string.to_vec(),
        nodes,
        shingles,
        cells,
    };
    rcds_sender_setup(
        settings,
        width,
        &lent.string,
        &mut lent.nodes,
        &mut lent.shingles,
        &mut lent.cells,
        &mut state,
    );
    (state, lent)
}

/// The shingle table and the cell table of a string, as a setup leaves tables of zeros.
fn described(settings: &Settings, width: u64, string: &[u8]) -> [Vec<u8>; 2] {
    let (_, lent) = sender_of(settings, width, string);
    [lent.shingles, lent.cells]
}

/// Adds one to the string's middle byte, 0 after 255. An empty string stays as it is.
fn change_the_middle(string: &mut [u8]) {
    if let Some(middle) = string.get_mut(string.len() / 2) {
        *middle = middle.wrapping_add(1);
    }
}

/// The line of one opening: the sketch of a string with its middle byte changed, over the string's own
/// list.
fn opening_line(settings: [u64; 5], kind: u64, length: usize) -> String {
    let [w, p, levels, nominal, width] = settings;
    let settings = Settings {
        window: w,
        fan_out: p,
        levels,
        nominal,
    };
    let mut string = string(kind, length);
    let [mut list, own] = described(&settings, width, &string);
    change_the_middle(&mut string);
    let [_, theirs] = described(&settings, width, &string);
    let answer = rcds_sketch_open(levels, width, &theirs, &own, &mut list);
    let digest = fnv1a(&list);
    format!("open {w} {p} {levels} {nominal} {width} {kind} {length} {answer} {digest}")
}

/// The lines of all openings.
pub fn opening_lines() -> Vec<String> {
    let mut lines = Vec::new();
    for settings in SETUPS {
        for length in SETUP_LENGTHS {
            for kind in SETUP_KINDS {
                lines.push(opening_line(settings, kind, length));
            }
        }
    }
    for settings in REFUSED_OPENINGS {
        lines.push(opening_line(settings, 2, 100));
    }
    lines
}

/// The lines of a node table: level, start, length, parent and place of each node.
fn node_lines(table: &[u8]) -> Vec<String> {
    let mut lines = Vec::new();
    for node in node_table::read(table) {
        let [start, length, parent, place] =
            [node.start, node.length, node.parent, node.place].map(|number| number as u64);
        lines.push(line("node", &[node.level, start, length, parent, place]));
    }
    lines
}

/// The line of one range: its start and length, the room, the answer, and the rows of the nodes crossed.
fn crossed_line(string: &[u8], nodes: &[u8], [start, length, room]: [u64; 3]) -> String {
    let mut table = vec![BEFORE; 16 * room as usize];
    let answer = rcds_crossed(string, nodes, start, length, &mut table);
    let mut numbers = vec![start, length, room, answer];
    let rows = 2 * answer.saturating_sub(ACCEPTED) as usize;
    numbers.extend(table.chunks(8).take(rows).map(number));
    line("crossed", &numbers)
}

/// The lines of the trees that are crossed: of each first its nodes, then the ranges.
pub fn crossed_lines() -> Vec<String> {
    let mut lines = Vec::new();
    for [w, p, levels, nominal, kind, length] in CROSSED_TREES {
        let string = string(kind, length as usize);
        let (_, nodes) = cut([w, p, levels, nominal], &string);
        lines.extend(node_lines(&nodes));
        lines.extend(RANGES.map(|range| crossed_line(&string, &nodes, range)));
    }
    lines
}

/// The line of two senders' strata: both tables, and the first's estimate.
fn strata_line(settings: [u64; 5], [kind, other]: [u64; 2], length: usize) -> String {
    let [w, p, levels, nominal, width] = settings;
    let settings = Settings {
        window: w,
        fan_out: p,
        levels,
        nominal,
    };
    let mut second = string(other, length);
    if other == kind {
        change_the_middle(&mut second);
    }
    let [first, second] = [string(kind, length), second].map(|string| {
        let (state, lent) = sender_of(&settings, width, &string);
        let mut table = vec![BEFORE; strata::TABLE_BYTES + PAST_THE_STRATA];
        rcds_strata_build(&state, &lent, &mut table);
        (state, lent, table)
    });
    let (state, lent, own) = first;
    let (_, _, theirs) = second;
    let answer = rcds_strata_estimate(&state, &lent, &theirs, &own);
    let digests = [own, theirs].map(|table| fnv1a(&table));
    let settings = [w, p, levels, nominal, width];
    let strings = [kind, other, length as u64];
    line(
        "strata",
        &[&settings[..], &strings, &digests, &[answer]].concat(),
    )
}

/// The lines of all strata.
pub fn strata_lines() -> Vec<String> {
    let mut lines = Vec::new();
    for settings in STRATA_SETTINGS {
        for length in STRATA_LENGTHS {
            lines.extend(STRATA_KINDS.map(|kinds| strata_line(settings, kinds, length)));
        }
    }
    lines.extend(REFUSED_STRATA.map(|settings| strata_line(settings, [2, 2], 100)));
    lines
}

/// The line of the most blocks: what is asked, and the answer.
fn most_line([n, w, h]: [u64; 3]) -> String {
    line("most", &[n, w, h, rcds_most_blocks(n, w, h)])
}

/// The lines of all most blocks.
pub fn most_lines() -> Vec<String> {
    MOST.map(most_line).to_vec()
}
