//! What `rcds_most_blocks` costs, and how many nodes trees have: a sentence, and a table in markdown.
//!
//! The most nodes of settings and a length are those of the law `nodes-bounded` of crate `most_blocks`.

use crate::cut::cut;
use crate::pass::cost;
use calls::rcds_most_blocks;
use reference::most_blocks::most_nodes;
use reference::rcds::ACCEPTED;
use reference::settings::Settings;
use reference::vectors::string;
use std::hint::black_box;

/// The contents of the table's columns, and their kinds as `vectors` numbers them.
const CONTENTS: [(&str, u64); 4] = [("zeros", 0), ("ruler", 6), ("samples", 4), ("random", 2)];

/// w, p, L, M, and the length in KiB: the guide's three settings, and settings of more nodes.
const TREES: [([u64; 4], usize); 10] = [
    ([12, 8, 1, 1_024], 4),
    ([12, 7, 2, 5_120], 16),
    ([12, 8, 3, 32_768], 64),
    ([2, 2, 4, 16], 64),
    ([2, 4, 4, 16_384], 64),
    ([2, 8, 3, 4_096], 64),
    ([2, 7, 4, 65_536], 64),
    ([2, 8, 4, 65_536], 64),
    ([2, 8, 4, 4_096], 6),
    ([2, 8, 4, 4_096], 16),
];

/// How many nodes the library's tree has, or the number of the question that refuses it, in words.
fn nodes(settings: &Settings, most: u64, string: &[u8]) -> String {
    let answer = cut(settings, string, &mut vec![0; 65_536]);
    if answer < ACCEPTED {
        return format!("refused by {answer}");
    }
    assert!(
        answer - ACCEPTED <= most,
        "more nodes than can be: {settings:?}"
    );
    (answer - ACCEPTED).to_string()
}

/// Prints what a call costs.
fn print_cost() {
    let call = cost(|| {
        // Nothing is lent.
        let answer = unsafe { rcds_most_blocks(black_box(65_536), 2, 512) };
        assert_eq!(black_box(answer), ACCEPTED + 32);
    });
    println!("A call takes {:.1} ns.", 1e3 * call.microseconds);
}

/// Measures and prints.
pub fn run() {
    println!();
    print_cost();
    println!();
    println!("How many nodes trees have at most, and how many they have.");
    println!();
    let names = CONTENTS.map(|(name, _)| name).join(" | ");
    println!("| KiB | w p L M | at most | {names} |");
    println!("|---:|---|---:|{}", "---:|".repeat(CONTENTS.len()));
    for ([window, fan_out, levels, nominal], size) in TREES {
        let settings = Settings {
            window,
            fan_out,
            levels,
            nominal,
        };
        let length = size * 1_024;
        let most = most_nodes(&settings, length as u64);
        let row = CONTENTS.map(|(_, kind)| nodes(&settings, most, &string(kind, length)));
        println!(
            "| {size} | {window} {fan_out} {levels} {nominal} | {most} | {} |",
            row.join(" | ")
        );
    }
}
