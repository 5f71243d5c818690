//! Prints what `examples/c/tree.c` prints for a string that is accepted, worked out by the
//! reference, and fails where the reference refuses.
//!
//!     reference-tree FILE [W P LEVELS NOMINAL [FIRST LENGTH]]

use reference::crossed::crossed;
use reference::rcds::{rcds_tree, ACCEPTED};
use reference::settings::Settings;
use reference::tree::Node;

/// The end of a line: level, start, length and id.
fn print_node(node: &Node) {
    println!(
        "{} {} {} {:016x}",
        node.level, node.start, node.length, node.id
    );
}

fn main() {
    let arguments: Vec<String> = std::env::args().skip(1).collect();
    let number = |k: usize, otherwise: u64| match arguments.get(k) {
        Some(text) => text.parse().expect("a setting is a whole number"),
        None => otherwise,
    };
    let settings = Settings {
        window: number(1, 4),
        fan_out: number(2, 4),
        levels: number(3, 3),
        nominal: number(4, 4_096),
    };
    let string = std::fs::read(&arguments[0]).expect("the file can be read");
    let mut table = vec![0; 65_536];
    let answer = rcds_tree(&settings, &string, &mut table);
    assert!(answer >= ACCEPTED, "refused by question {answer}");
    let nodes = reference::node_table::read(&table);
    if arguments.len() < 7 {
        println!("level start length id");
        nodes.iter().for_each(print_node);
        return;
    }
    let first = number(5, 0) as usize;
    println!("place parent level start length id");
    for entry in crossed(string.len(), &nodes, first..first + number(6, 0) as usize) {
        print!("{} {} ", entry.node, entry.parent);
        print_node(&nodes[entry.node]);
    }
}
