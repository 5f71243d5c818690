//! The conditions of demand 3's second half, and the queries that a session then has.

use crate::counts::Counts;
use crate::sender_end::SenderEnd;
use reference::lent::Lent;
use reference::message::{encode, parse, Body, Message};
use reference::opening::{closed, difference, takings, true_difference};
use reference::settings::Settings;
use reference::shingle::children;
use reference::tree::Node;
use std::collections::{BTreeSet, HashMap};

/// "no two different blocks of the two trees, roots included, share an id"
pub fn no_id_shared(ends: [&Lent; 2]) -> bool {
    let mut blocks: HashMap<u64, &[u8]> = HashMap::new();
    for lent in ends {
        for node in lent.node_list() {
            let bytes = lent.bytes(&node);
            let first = blocks.entry(node.id).or_insert(bytes);
            if *first != bytes {
                return false;
            }
        }
    }
    true
}

/// "the sketch opens to the true difference"
pub fn opens_truly(settings: &Settings, width: u64, sender: &Lent, own: &Lent) -> bool {
    let cells = difference(&sender.cell_list(width), &own.cell_list(width));
    let takings = takings(&cells, settings.levels, width);
    let (theirs, list) = (sender.shingle_list(), own.shingle_list());
    let opens = closed(&takings, &list).is_empty();
    opens && takings.taken.into_iter().collect::<BTreeSet<_>>() == true_difference(&theirs, &list)
}

/// All queries of a session, in their order: the opening's; then, in the order of the sender's tree,
/// each node's that is reached and whose id no own node has. What lies below a node is reached if its
/// reply is a composition.
pub fn queries(
    session: u32,
    sender: &mut SenderEnd,
    own: &Lent,
    counts: &mut Counts,
) -> Vec<Vec<u8>> {
    let body = Body::OpeningQuery;
    let mut queries = vec![encode(&Message { session, body })];
    let ids: BTreeSet<u64> = own.node_list().iter().map(|node| node.id).collect();
    let nodes = sender.lent.node_list();
    let mut reached = vec![0];
    while let Some(k) = reached.pop() {
        if ids.contains(&nodes[k].id) {
            continue;
        }
        let query = node_query(session, &nodes[k]);
        let reply = sender.reply(&query, counts);
        queries.push(query);
        let body = parse(&reply).map(|reply| reply.body);
        if let Some(Body::Composition { .. }) = body {
            reached.extend(places(&nodes, k).into_iter().rev());
        }
    }
    queries
}

/// The query of a node.
pub fn node_query(session: u32, node: &Node) -> Vec<u8> {
    let (level, id) = (node.level as u32, node.id);
    let body = Body::NodeQuery { level, id };
    encode(&Message { session, body })
}

/// Where the children of node k stand in the list.
fn places(nodes: &[Node], k: usize) -> Vec<usize> {
    let count = children(nodes, k).len();
    let below = (k + 1..nodes.len()).filter(|&i| nodes[i].level == nodes[k].level + 1);
    below.take(count).collect()
}
