//! `rcds_tree` with one fault, of those that show in how many blocks a node has. Ids are all 1: nobody looks at them.

use super::*;
use reference::node_table;
use reference::spread::entry;
use reference::tree::Node;

/// What the recursion carries.
struct Cutting<'a> {
    fault: u8,
    settings: Settings,
    string: &'a [u8],
    nodes: Vec<Node>,
}

/// The rule of one cutting: h, s, and the fault that it has.
#[derive(Clone, Copy)]
struct Rule {
    h: usize,
    s: u64,
    fault: u8,
}

/// The fault of a cutting, by what the string holds, and of the whole string or of a node below it.
fn fault_of(fault: u8, string: &[u8], level: u64) -> u8 {
    let equal = string.windows(2).all(|pair| pair[0] == pair[1]);
    let zeros = equal && string.first() == Some(&0);
    match fault {
        ZEROS_RULE_1 if zeros => RULE_1,
        EQUAL_BYTES_RULE_1 if equal && !zeros => RULE_1,
        LONG_STRINGS_RULE_1 if string.len() > 1_000 => RULE_1,
        OTHERS_CUTS_32 if !equal => CUTS_32,
        OTHERS_WINDOW_ENDS_EARLY if !equal => WINDOW_ENDS_EARLY,
        OTHERS_FIRST_PLACE_ONE_LESS if !equal => FIRST_PLACE_ONE_LESS,
        OTHERS_LAST_PLACE_ONE_MORE if !equal => LAST_PLACE_ONE_MORE,
        BELOW_RULE_1 if level > 1 => RULE_1,
        BELOW_NOTHING_BEFORE if level > 1 => NOTHING_BEFORE,
        BELOW_WINDOW_ENDS_EARLY if level > 1 => WINDOW_ENDS_EARLY,
        BELOW_CUTS_32 if level > 1 => CUTS_32,
        BELOW_FIRST_PLACE_ONE_LESS if level > 1 => FIRST_PLACE_ONE_LESS,
        BELOW_LAST_PLACE_ONE_MORE if level > 1 => LAST_PLACE_ONE_MORE,
        _ => fault,
    }
}

impl Cutting<'_> {
    fn rule(&self, level: u64) -> Rule {
        let Settings {
            window,
            fan_out,
            levels,
            nominal,
        } = self.settings;
        let below = fan_out.pow(level as u32);
        let h = match self.fault {
            DISTANCE_OF_THE_NEXT_LEVEL => (nominal / below / fan_out).max(1),
            DISTANCE_LESS_1 => (nominal / below - 1).max(1),
            _ => nominal / below,
        };
        Rule {
            h: h as usize,
            s: window * fan_out.pow((levels - level + 1) as u32),
            fault: fault_of(self.fault, self.string, level),
        }
    }

    /// The values of the windows of a part, each of bytes as far as they go.
    fn values(&self, bytes: &[u8], s: u64) -> Vec<u64> {
        let window = self.settings.window as usize;
        let digit = |number: u64, &byte: &u8| (number * 257 + entry(byte)) % 65_521;
        let value = |i: usize| {
            let end = bytes.len().min(i + window);
            bytes[i..end].iter().fold(0, digit) % s
        };
        (0..bytes.len()).map(value).collect()
    }

    fn cuts(&self, bytes: &[u8], level: u64) -> Vec<usize> {
        let rule = self.rule(level);
        let (h, fault) = (rule.h, rule.fault);
        let mut values = self.values(bytes, rule.s);
        if fault != WINDOW_ENDS_EARLY {
            let windows = (bytes.len() + 1).saturating_sub(self.settings.window as usize);
            values.truncate(windows);
        }
        let end = values.len() as i64 - h as i64;
        let (first, end) = match fault {
            FIRST_PLACE_ONE_LESS => (h - 1, end),
            LAST_PLACE_ONE_MORE => (h, end + 1),
            _ => (h, end),
        };
        let spacing = match fault {
            RULE_1_WITHOUT_SPACING => 1,
            _ => h,
        };
        let most = match fault {
            CUTS_32 => 32,
            _ => 31,
        };
        let (mut cuts, mut next) = (Vec::new(), first);
        for i in first..end.max(0) as usize {
            if cuts.len() < most && i >= next && is_candidate(fault, &values, i, h) {
                cuts.push(i);
                next = i + spacing;
            }
        }
        cuts
    }

    fn list(&mut self, start: usize, length: usize, level: u64, parent: usize, place: usize) {
        let own = self.nodes.len();
        self.nodes.push(Node {
            level,
            start,
            length,
            id: 1,
            parent,
            place: place % 32,
        });
        if level == self.settings.levels {
            return;
        }
        let string = self.string;
        let cuts = self.cuts(&string[start..start + length], level + 1);
        if self.fault == NO_LONE_CHILD && cuts.is_empty() {
            return;
        }
        let starts = [0].into_iter().chain(cuts.iter().copied());
        let ends = cuts.iter().copied().chain([length]);
        for (place, (from, to)) in starts.zip(ends).enumerate() {
            self.list(start + from, to - from, level + 1, own, place);
        }
    }
}

/// Whether an equal value at this distance before it does not bar a candidate.
fn equal_taken(fault: u8, distance: usize, h: usize) -> bool {
    match fault {
        RULE_1 | RULE_1_WITHOUT_SPACING | NOTHING_BEFORE => true,
        EQUAL_H_BEFORE_TAKEN => distance == h,
        EQUAL_BESIDE_TAKEN => distance == 1,
        _ => false,
    }
}

/// Whether the value at i is smaller than those before it and not greater than those after it, as far as there are
/// values, the nearest first.
fn is_candidate(fault: u8, values: &[u64], i: usize, h: usize) -> bool {
    let own = values[i];
    let near = match fault {
        NEARER_NEIGHBOURS => h - 1,
        _ => h,
    };
    let least = (1..=near).all(|distance| {
        let before = i.checked_sub(distance).map(|k| values[k]);
        let after = values.get(i + distance).copied();
        let equal = equal_taken(fault, distance, h);
        let barred =
            before.is_some_and(|v| v < own && fault != NOTHING_BEFORE || v == own && !equal);
        !barred && !after.is_some_and(|v| v < own)
    });
    let around = &values[i.saturating_sub(h)..values.len().min(i + h + 1)];
    least || fault == ALL_EQUAL_TAKEN && around.iter().all(|&v| v == own)
}

/// What the call answers.
pub fn answer(fault: u8, settings: Settings, string: &[u8], table: &mut [u8]) -> u64 {
    let mut cutting = Cutting {
        fault,
        settings,
        string,
        nodes: Vec::new(),
    };
    cutting.list(0, string.len(), 0, 0, 0);
    let mut nodes = cutting.nodes;
    if fault == LAST_BLOCK_TWICE {
        // Its parent is the block itself, which nobody cuts any more.
        let parent = nodes.len() - 1;
        nodes.push(Node {
            parent,
            ..nodes[parent]
        });
    }
    let refused = fault == ONE_LEVEL_REFUSED && settings.levels == 1 && string.len() > 1_000;
    if nodes.len() > 4_096 || refused {
        table.fill(0);
        return 8;
    }
    node_table::write(&nodes, table);
    let leaves = nodes.iter().filter(|node| node.level == settings.levels);
    match fault {
        LEAVES_NOT_COUNTED => (1 << 32) + (nodes.len() - leaves.count()) as u64,
        _ => (1 << 32) + nodes.len() as u64,
    }
}
