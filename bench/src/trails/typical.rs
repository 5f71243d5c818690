//! What the children of a tree's nodes cost: the orders that both ends really exchange.

use super::measure::{bytes, number_cost, order_cost};
use crate::pass::Cost;
use reference::rcds::{count, says_only};
use reference::settings::Settings;
use reference::trail::{pairs, MOST_NUMBER};
use reference::tree::{tree, Node};
use reference::vectors::string;

/// The nodes of one tree.
pub struct Typical {
    pub name: String,
    pub orders: usize,
    /// The mean of their children.
    pub children: f64,
    /// How many are the only trail over their pairs and are sent without a number.
    pub only: usize,
    /// How many have a number above 4,095 and are sent as bytes.
    pub above: usize,
    pub numbers: Vec<Cost>,
    pub back: Vec<Cost>,
}

/// Contents and their kinds as `vectors` numbers them, over 16 KiB.
const CONTENTS: [(&str, u64); 4] = [("ruler", 6), ("random", 2), ("samples", 4), ("repeats", 5)];

/// w, p, L, M.
const SETTINGS: [[u64; 4]; 2] = [[12, 7, 2, 5_120], [2, 8, 4, 16_384]];

/// The orders of children of all nodes above the last level.
fn orders(nodes: &[Node], levels: u64) -> Vec<Vec<u64>> {
    let mut orders = Vec::new();
    for (k, node) in nodes
        .iter()
        .enumerate()
        .filter(|(_, node)| node.level < levels)
    {
        let below = nodes[k + 1..]
            .iter()
            .take_while(|other| other.level > node.level);
        let children = below.filter(|other| other.level == node.level + 1);
        orders.push(children.map(|child| child.id).collect());
    }
    orders
}

/// Measures at most 200 nodes of a tree, spread over all.
fn typical(content: (&str, u64), settings: [u64; 4]) -> Typical {
    let [window, fan_out, levels, nominal] = settings;
    let settings = Settings {
        window,
        fan_out,
        levels,
        nominal,
    };
    let nodes = tree(&settings, &string(content.1, 16_384));
    let all = orders(&nodes, levels);
    let step = all.len().div_ceil(200);
    let some: Vec<&Vec<u64>> = all.iter().step_by(step).collect();
    let mut typical = Typical {
        name: format!("{}, {window} {fan_out} {levels} {nominal}", content.0),
        orders: some.len(),
        children: some.iter().map(|ids| ids.len()).sum::<usize>() as f64 / some.len() as f64,
        only: 0,
        above: 0,
        numbers: Vec::new(),
        back: Vec::new(),
    };
    for ids in some {
        let (answer, cost) = number_cost(&bytes(ids));
        typical.numbers.push(cost);
        typical.only += usize::from(says_only(answer));
        if count(answer) > MOST_NUMBER {
            typical.above += 1;
            continue;
        }
        let entries: Vec<[u64; 3]> = pairs(ids).iter().map(|&(a, b)| [a, b, 1]).collect();
        let table = bytes(entries.iter().flatten());
        typical.back.push(order_cost(&table, count(answer)));
    }
    typical
}

/// All contents with all settings.
pub fn all() -> Vec<Typical> {
    let of = |settings: [u64; 4]| CONTENTS.map(|content| typical(content, settings));
    SETTINGS.into_iter().flat_map(of).collect()
}
