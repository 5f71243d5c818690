//! The sender's reply to a message. "The sender only replies."

use crate::lent::Lent;
use crate::message::{encode, parse, Body, Message, Opening};
use crate::node_table;
use crate::opening::MOST_SHINGLES;
use crate::rcds::ACCEPTED;
use crate::settings::Settings;
use crate::shingle::children;
use crate::trail::{is_only_trail, multiset, number_of_order, pairs, MOST_NUMBER};
use crate::tree::Node;
use crate::word::Reference;

/// "The rule number becomes 3" (document 02, request 12).
pub const RULE: u32 = 3;

/// Writes the reply to the front of the buffer, and answers 2^32 and its bytes; or the number of the
/// first question that has a no: 1 to 7, then 10, 11, 20.
///
/// "A no at any of these changes neither state nor buffer. Bytes after a reply ... are untouched."
pub fn reply(
    settings: &Settings,
    width: u64,
    lent: &Lent,
    message: &[u8],
    buffer: &mut [u8],
) -> u64 {
    if let Some(question) = lent.refused(settings, width) {
        return question;
    }
    let Some(query) = parse(message) else {
        return 10;
    };
    let body = match query.body {
        Body::OpeningQuery => opening(settings, width, lent),
        Body::NodeQuery { level, id } => node_reply(settings, lent, level, id),
        _ => return 11,
    };
    // "Session is copied."
    let session = query.session;
    let bytes = encode(&Message { session, body });
    if bytes.len() > buffer.len() {
        return 20;
    }
    buffer[..bytes.len()].copy_from_slice(&bytes);
    ACCEPTED + bytes.len() as u64
}

/// "An opening announces the lent string's length and the id of the node table's first entry."
/// Settings that 1 to 5 allow have places in words.
fn opening(settings: &Settings, width: u64, lent: &Lent) -> Body {
    let first = lent.nodes[..node_table::ENTRY_BYTES].try_into();
    Body::Opening(Opening {
        rule: RULE,
        window: settings.window as u32,
        fan_out: settings.fan_out as u32,
        levels: settings.levels as u32,
        nominal: settings.nominal as u32,
        width: width as u32,
        length: lent.string.len() as u32,
        root: node_table::node(&first.expect("an entry has 16 bytes")).id,
        cells: lent.cell_list(width),
    })
}

/// "To type 2 it finds its first node of that level and id. None: type 6. At level L, or with a trail
/// number above 4,095: type 5. Else type 4, referring to its list."
fn node_reply(settings: &Settings, lent: &Lent, level: u32, id: u64) -> Body {
    let nodes = lent.node_list();
    let asked = |node: &Node| (node.level, node.id) == (u64::from(level), id) && lent.holds(node);
    let Some(k) = nodes.iter().position(asked) else {
        return Body::None { level, id };
    };
    let composition = match nodes[k].level < settings.levels {
        true => composition(lent, &nodes, k),
        false => None,
    };
    match composition {
        Some((number, references)) => Body::Composition {
            level,
            id,
            number,
            references,
        },
        None => Body::Literal {
            level,
            id,
            bytes: lent.bytes(&nodes[k]).to_vec(),
        },
    }
}

/// The trail number of node k's children, and a reference for each different pair of them: where it
/// stands in the list, and how often these children give it. "References now rise by index. Their
/// freedom goes, and a setup's node has at most one genuine composition a session." (document 02,
/// request 2)
///
/// No number where their trail is the only one: "A composition whose trail is the only one omits the
/// number word, and one with others carries it." (request 5)
///
/// Nothing where the number is above 4,095. Over tables that no setup left, also nothing where the
/// node has no number, or a pair has no index of 12 bits.
fn composition(lent: &Lent, nodes: &[Node], k: usize) -> Option<(Option<u32>, Vec<Reference>)> {
    let ids: Vec<u64> = children(nodes, k).iter().map(|child| child.id).collect();
    let number = number_of_order(&ids).filter(|number| *number <= MOST_NUMBER)?;
    let carried = (!is_only_trail(&ids)).then_some(number as u32);
    let list = lent.shingle_list();
    let mut references = Vec::new();
    for ((previous, own), count) in multiset(&pairs(&ids)) {
        let pair = (nodes[k].level + 1, previous, own);
        let mut indexes = 0..list.len().min(MOST_SHINGLES);
        references.push(Reference {
            index: indexes.find(|&index| list[index].pair() == pair)? as u32,
            count: count as u32,
        });
    }
    references.sort_by_key(|reference| reference.index);
    Some((carried, references))
}
