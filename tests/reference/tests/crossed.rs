//! Change request 1 checked by hand: parents and places, and the nodes that a byte range crosses.

use reference::node_table;
use reference::rcds::{rcds_crossed, ACCEPTED};
use reference::settings::Settings;
use reference::tree::{tree, Node};
use reference::vectors::{string, SETTINGS};

/// At level 1, h = 2 and s = 8; at level 2, h = 1 and s = 4.
const TWO_LEVELS: Settings = Settings {
    window: 2,
    fan_out: 2,
    levels: 2,
    nominal: 4,
};

/// 04 02 05 over and over, with the entries 12,967, 33,572 and 20,453: their pairs are 24,520, 65,206 and 27,708 modulo
/// 65,521. Values at level 1 are 0, 6 and 4 over and over, and a cut may be from 2 to 10: cuts 3, 6 and 9. At level 2
/// three bytes have no cut, and the last five have values 0, 2, 0, 0, so one at 2.
const FOURTEEN: [u8; 14] = [4, 2, 5, 4, 2, 5, 4, 2, 5, 4, 2, 5, 4, 2];

/// Level, start, length, parent and place of the tree of fourteen bytes.
const BY_HAND: [(u64, usize, usize, usize, usize); 10] = [
    (0, 0, 14, 0, 0),
    (1, 0, 3, 0, 0),
    (2, 0, 3, 1, 0),
    (1, 3, 3, 0, 1),
    (2, 3, 3, 3, 0),
    (1, 6, 3, 0, 2),
    (2, 6, 3, 5, 0),
    (1, 9, 5, 0, 3),
    (2, 9, 2, 7, 0),
    (2, 11, 3, 7, 1),
];

fn table(nodes: &[Node]) -> Vec<u8> {
    nodes.iter().flat_map(node_table::entry).collect()
}

fn fourteen() -> Vec<Node> {
    tree(&TWO_LEVELS, &FOURTEEN)
}

/// Node and parent of each entry of the answer, or the question that refuses the range. There is room for
/// 8,192 entries, and what is not written is untouched.
fn crossed(string: usize, nodes: &[u8], start: u64, length: u64) -> Result<Vec<(u64, u64)>, u64> {
    let mut table = vec![170; 16 * 8_192];
    let answer = rcds_crossed(&vec![0; string], nodes, start, length, &mut table);
    let written = answer.saturating_sub(ACCEPTED) as usize;
    assert!(table[16 * written..].iter().all(|&byte| byte == 170));
    if answer < ACCEPTED {
        return Err(answer);
    }
    let row = |bytes: &[u8]| u64::from_be_bytes(bytes.try_into().expect("a row has 8 bytes"));
    let entry = |entry: &[u8]| (row(&entry[..8]), row(&entry[8..]));
    Ok(table.chunks(16).take(written).map(entry).collect())
}

#[test]
fn parents_and_places_of_fourteen_bytes() {
    let all = |node: &Node| (node.level, node.start, node.length, node.parent, node.place);
    let nodes: Vec<_> = fourteen().iter().map(all).collect();
    assert_eq!(nodes, BY_HAND);
}

#[test]
fn parents_and_places_of_an_empty_string() {
    let nodes = tree(&TWO_LEVELS, &[]);
    let places: Vec<_> = nodes.iter().map(|node| (node.parent, node.place)).collect();
    assert_eq!(places, [(0, 0), (0, 0), (1, 0)]);
}

#[test]
fn ranges_of_fourteen_bytes() {
    let nodes = table(&fourteen());
    let ask = |start, length| crossed(14, &nodes, start, length);
    // A block exactly: those it touches on either side are not crossed.
    assert_eq!(ask(3, 3), Ok(vec![(0, 0), (3, 0), (4, 3)]));
    // One byte of each of two blocks.
    assert_eq!(ask(2, 2), Ok(vec![(0, 0), (1, 0), (2, 1), (3, 0), (4, 3)]));
    // One byte: the last of node 8, the first and the last of node 9.
    assert_eq!(ask(10, 1), Ok(vec![(0, 0), (7, 0), (8, 7)]));
    assert_eq!(ask(11, 1), Ok(vec![(0, 0), (7, 0), (9, 7)]));
    assert_eq!(ask(13, 1), Ok(vec![(0, 0), (7, 0), (9, 7)]));
    // All of them.
    let all = [0, 0, 1, 0, 3, 0, 5, 0, 7, 7];
    let all = all
        .iter()
        .enumerate()
        .map(|(k, &parent)| (k as u64, parent));
    assert_eq!(ask(0, 14), Ok(all.collect()));
}

#[test]
fn empty_ranges() {
    let nodes = table(&fourteen());
    for start in 0..=14 {
        assert_eq!(crossed(14, &nodes, start, 0), Ok(vec![]));
        let answer = rcds_crossed(&FOURTEEN, &nodes, start, 0, &mut []);
        assert_eq!(answer, ACCEPTED, "an empty answer fits an empty table");
    }
    assert_eq!(crossed(14, &nodes, 15, 0), Err(21));
    let empty = table(&tree(&TWO_LEVELS, &[]));
    assert_eq!(crossed(0, &empty, 0, 0), Ok(vec![]));
    assert_eq!(crossed(0, &empty, 0, 1), Err(21));
}

#[test]
fn sums_do_not_wrap() {
    let nodes = table(&fourteen());
    for (start, length) in [
        (0, 15),
        (14, 1),
        (13, 2),
        (u64::MAX, 1),
        (u64::MAX, 2),
        (u64::MAX, 15),
        (2, u64::MAX),
        (u64::MAX, u64::MAX),
        (1 << 63, 1 << 63),
        ((1 << 32) + 2, 1),
        (2, (1 << 32) + 1),
    ] {
        assert_eq!(crossed(14, &nodes, start, length), Err(21));
        let answer = rcds_crossed(&FOURTEEN, &nodes, start, length, &mut []);
        assert_eq!(answer, 21, "21 comes before 22");
    }
}

#[test]
fn room_for_the_answer() {
    let nodes = table(&fourteen());
    for room in 0..48 {
        let mut table = vec![170; room];
        assert_eq!(rcds_crossed(&FOURTEEN, &nodes, 3, 3, &mut table), 22);
        assert_eq!(table, vec![170; room]);
    }
    let mut table = vec![170; 49];
    assert_eq!(
        rcds_crossed(&FOURTEEN, &nodes, 3, 3, &mut table[..48]),
        ACCEPTED + 3
    );
    let last = [0, 0, 0, 0, 0, 0, 0, 4, 0, 0, 0, 0, 0, 0, 0, 3, 170];
    assert_eq!(table[32..], last);
}

#[test]
fn tables_that_no_setup_left() {
    // "read up to its first id 0"
    let mut nodes = fourteen();
    nodes[4].id = 0;
    let ended = Ok(vec![(0, 0), (1, 0), (2, 1), (3, 0)]);
    assert_eq!(crossed(14, &table(&nodes), 0, 14), ended);
    // Outside the string: of 13 bytes the root, and what ends with it, are passed over, and keep their places.
    let passed_over = Ok(vec![(5, 0), (6, 5), (8, 7)]);
    assert_eq!(crossed(13, &table(&fourteen()), 8, 4), passed_over);
    // Any level, parent and place is read as given.
    let mut nodes = fourteen();
    (nodes[4].level, nodes[4].parent, nodes[4].place) = (7, 4_095, 31);
    let given = Ok(vec![(0, 0), (3, 0), (4, 4_095)]);
    assert_eq!(crossed(14, &table(&nodes), 4, 1), given);
    // A node without bytes shares none, wherever it stands.
    let mut nodes = fourteen();
    (nodes[9].start, nodes[9].length) = (4, 0);
    assert_eq!(crossed(14, &table(&nodes), 11, 3), Ok(vec![(0, 0), (7, 0)]));
    assert_eq!(
        crossed(14, &table(&nodes), 0, 6).map(|answer| answer.len()),
        Ok(5)
    );
}

#[test]
fn tables_of_any_length() {
    let nodes = table(&fourteen());
    for length in 0..=nodes.len() {
        // Whole entries alone are read; the last node is not crossed.
        let entries = (length as u64 / 16).min(9);
        let first = crossed(14, &nodes[..length], 0, 11);
        let first = first.map(|answer| answer.iter().map(|(node, _)| *node).collect());
        let expected: Vec<u64> = (0..entries).collect();
        assert_eq!(first, Ok(expected), "{length} bytes");
    }
    // 4,097 entries are read to the end, of a string of more than 65,536 bytes.
    let mut many = vec![fourteen()[1]; 4_097];
    (many[4_096].start, many[4_096].length) = (66_000, 100);
    let last = Ok(vec![(4_096, 0)]);
    assert_eq!(crossed(66_100, &table(&many), 66_099, 1), last);
}

/// "In an accepted tree the nodes naming a parent, one level down, fill it end to end in order of place."
fn filled(nodes: &[Node], parent: usize) -> usize {
    let below = nodes[parent].level + 1;
    let names = |node: &&Node| node.parent == parent && node.level == below;
    let mut children: Vec<&Node> = nodes.iter().filter(names).collect();
    children.sort_by_key(|node| node.place);
    let mut end = nodes[parent].start;
    for (place, child) in children.iter().enumerate() {
        assert_eq!((child.place, child.start), (place, end));
        end += child.length;
    }
    assert_eq!(end, nodes[parent].start + nodes[parent].length);
    children.len()
}

#[test]
fn children_fill_their_parent() {
    let mut most = 0;
    for [window, fan_out, levels, nominal] in SETTINGS {
        let settings = Settings {
            window,
            fan_out,
            levels,
            nominal,
        };
        for (kind, length) in (0..=6).flat_map(|kind| [(kind, 0), (kind, 100), (kind, 1_000)]) {
            let nodes = tree(&settings, &string(kind, length));
            assert_eq!((nodes[0].parent, nodes[0].place), (0, 0));
            let parents = (0..nodes.len()).filter(|&k| nodes[k].level < levels);
            let counts: Vec<usize> = parents.map(|k| filled(&nodes, k)).collect();
            // Every node but the root is a child of one parent.
            assert_eq!(counts.iter().sum::<usize>() + 1, nodes.len());
            most = most.max(counts.into_iter().max().expect("the root has children"));
        }
    }
    assert_eq!(most, 32);
}
