//! Document 01, "Checked by hand", by rule 3: "the starred cases and printed tree are worked out again" (document 02,
//! request 12). The entries that are read: 48,544 for 00, 56,030 for 01, 33,572 for 02, 41,058 for 03, 3,998 for ff.
//! And the published values of FNV-1a.

use reference::fnv::{block_id, fnv1a, fnv1a_from, BASIS};
use reference::node_table;
use reference::partition::{blocks, cuts, window_remainder, window_value, window_values, Block};
use reference::rcds::{rcds_tree, ACCEPTED};
use reference::settings::{Rule, Settings};
use reference::tree::{tree, Node};
use reference::vectors::{ruler, FULL_RULER, HASHES_TO_ZERO, LONG_RULER, RULED};

/// "With w=2, p=2, L=1, M=2"
const SMALLEST: Settings = Settings {
    window: 2,
    fan_out: 2,
    levels: 1,
    nominal: 2,
};

fn places(nodes: &[Node]) -> Vec<(u64, usize, usize)> {
    nodes
        .iter()
        .map(|node| (node.level, node.start, node.length))
        .collect()
}

#[test]
fn distance_is_1_and_modulus_is_4() {
    let rule = Rule {
        window: 2,
        distance: 1,
        modulus: 4,
    };
    assert_eq!(SMALLEST.rule(1), rule);
}

#[test]
fn every_level_has_its_own_distance_and_modulus() {
    let rules: Vec<(usize, u64)> = (1..=4)
        .map(|level| RULED.rule(level))
        .map(|rule| (rule.distance, rule.modulus))
        .collect();
    assert_eq!(rules, [(512, 8_192), (64, 1_024), (8, 128), (1, 16)]);
}

/// 01 02: 56,030 × 257 + 33,572 = 14,433,282, which is 18,662 modulo 65,521 and so 2 modulo 4. ff ff: 3,998 × 257 +
/// 3,998 = 1,031,484, which is 48,669 and so 1. 01 00 00: 01 00 leaves 33,634 of 14,448,254, and 33,634 × 257 + 48,544
/// = 8,692,482 leaves 43,710.
#[test]
fn values_of_windows() {
    let rule = SMALLEST.rule(1);
    assert_eq!(window_value(&[0x01, 0x02], 0, &rule), 2);
    assert_eq!(window_value(&[0xff, 0xff], 0, &rule), 1);
    assert_eq!(window_remainder(&[0x01, 0x00, 0x00], 0, 3), 43_710);
}

/// 00 03 is 12,516,866, 03 00 is 10,600,450, 00 00 is 12,524,352, 00 01 is 12,531,838 and 01 00 is 14,448,254. Modulo
/// 65,521 these are 2,355, 51,569, 9,841, 17,327 and 33,634; modulo 4 they are 3, 1, 1, 3 and 2. Of the two equal
/// ones the first is the cut.
#[test]
fn six_bytes() {
    let string = [0x00, 0x03, 0x00, 0x00, 0x01, 0x00];
    let rule = SMALLEST.rule(1);
    assert_eq!(window_values(&string, &rule), [3, 1, 1, 3, 2]);
    assert_eq!(cuts(&string, &rule), [1]);
    let expected = [
        Block {
            start: 0,
            length: 1,
        },
        Block {
            start: 1,
            length: 5,
        },
    ];
    assert_eq!(blocks(&string, &rule), expected);
    let nodes = tree(&SMALLEST, &string);
    assert_eq!(places(&nodes), [(0, 0, 6), (1, 0, 1), (1, 1, 5)]);
    // An id is that of the bytes, and not of their entries.
    assert_eq!(nodes[2].id, fnv1a(&string[1..]));
}

/// "The starred four and five bytes 07 now have no cut." (document 02, request 7) "Three: none." "Empty: one
/// empty block per level."
#[test]
fn runs_of_07() {
    let rule = SMALLEST.rule(1);
    for length in [0, 3, 4, 5] {
        assert_eq!(cuts(&vec![7; length], &rule), [], "{length} bytes");
    }
}

/// 01 00 has value 2 and 00 01 has value 3, as in the six bytes. So cuts are 2, 4, 6 and so on, to three bytes before
/// the end.
#[test]
fn no_more_than_31_cuts() {
    let rule = SMALLEST.rule(1);
    let turns: Vec<u8> = [1, 0].into_iter().cycle().take(99).collect();
    assert_eq!(window_values(&turns[..9], &rule), [2, 3, 2, 3, 2, 3, 2, 3]);
    assert_eq!(cuts(&turns[..9], &rule), [2, 4, 6]);
    for (length, count) in [
        (8, 2),
        (9, 3),
        (64, 30),
        (65, 31),
        (66, 31),
        (67, 31),
        (99, 31),
    ] {
        let string = &turns[..length];
        assert_eq!(cuts(string, &rule).len(), count, "{length} bytes");
    }
}

#[test]
fn empty_string_is_one_empty_block_for_each_level() {
    for levels in 1..=4 {
        let settings = Settings {
            levels,
            nominal: 4_096,
            ..RULED
        };
        let nodes = tree(&settings, &[]);
        assert_eq!(nodes.len() as u64, levels + 1);
        for (level, node) in nodes.iter().enumerate() {
            assert_eq!((node.level, node.start, node.length), (level as u64, 0, 0));
            assert_eq!(node.id, 0xcbf2_9ce4_8422_2325);
        }
    }
}

#[test]
fn published_values() {
    assert_eq!(fnv1a(b""), 0xcbf2_9ce4_8422_2325);
    assert_eq!(fnv1a(b"a"), 0xaf63_dc4c_8601_ec8c);
    assert_eq!(fnv1a(b"b"), 0xaf63_df4c_8601_f1a5);
    assert_eq!(fnv1a(b"c"), 0xaf63_de4c_8601_eff2);
    assert_eq!(fnv1a(b"d"), 0xaf63_d94c_8601_e773);
    assert_eq!(fnv1a(b"e"), 0xaf63_d84c_8601_e5c0);
    assert_eq!(fnv1a(b"f"), 0xaf63_db4c_8601_ead9);
    assert_eq!(fnv1a(b"fo"), 0x0898_5907_b541_d342);
    assert_eq!(fnv1a(b"foo"), 0xdcb2_7518_fed9_d577);
    assert_eq!(fnv1a(b"foob"), 0xdd12_0e79_0c25_12af);
    assert_eq!(fnv1a(b"fooba"), 0xcac1_65af_a2fe_f40a);
    assert_eq!(fnv1a(b"foobar"), 0x8594_4171_f739_67e8);
}

#[test]
fn hashing_goes_on_from_a_value() {
    assert_eq!(fnv1a_from(BASIS, b"foobar"), fnv1a(b"foobar"));
    assert_eq!(fnv1a_from(fnv1a(b"foo"), b"bar"), fnv1a(b"foobar"));
}

#[test]
fn id_0_becomes_1() {
    assert_eq!(fnv1a(&HASHES_TO_ZERO), 0);
    assert_eq!(block_id(&HASHES_TO_ZERO), 1);
    assert_eq!(tree(&SMALLEST, &HASHES_TO_ZERO)[0].id, 1);
}

#[test]
fn an_entry_is_two_rows() {
    let node = Node {
        level: 4,
        start: 65_535,
        length: 65_536,
        id: 0x0102_0304_0506_0708,
        parent: 0xabc,
        place: 21,
    };
    // 4 + 8 × (65,536 + 131,072 × 65,535) = 0xf_fff8_0004
    // 2^37 × 0xabc = 0x1_5780_0000_0000, 2^49 × 21 = 0x2a_0000_0000_0000
    let row = [0, 0x2b, 0x57, 0x8f, 0xff, 0xf8, 0, 4];
    let mut expected = [1, 2, 3, 4, 5, 6, 7, 8, 0, 0, 0, 0, 0, 0, 0, 0];
    expected[8..].copy_from_slice(&row);
    assert_eq!(node_table::entry(&node), expected);
    assert_eq!(node_table::node(&expected), node);
    // From bit 54 on nothing is read.
    expected[8] = 0xff;
    expected[9] |= 0xc0;
    assert_eq!(node_table::node(&expected), node);
}

#[test]
fn the_table_is_zero_past_the_last_entry() {
    let mut table = vec![170; 65_536 + 5];
    let string = [0x00, 0x03, 0x00, 0x00, 0x01, 0x00];
    assert_eq!(rcds_tree(&SMALLEST, &string, &mut table), ACCEPTED + 3);
    assert_eq!(node_table::read(&table), tree(&SMALLEST, &string));
    assert!(table[48..].iter().all(|&byte| byte == 0));
}

/// One byte less than the shortest has three nodes less, and four bytes more two nodes more.
#[test]
fn rulers_with_4096_nodes_and_with_more() {
    let mut table = vec![170; 65_536];
    for (length, count) in [(FULL_RULER - 1, 4_093), (FULL_RULER, 4_096), (6_673, 4_096)] {
        assert_eq!(
            rcds_tree(&RULED, &ruler(length), &mut table),
            ACCEPTED + count
        );
        assert_eq!(node_table::read(&table).len() as u64, count);
    }
    for (length, count) in [(6_674, 4_098), (LONG_RULER, 5_528), (65_536, 12_402)] {
        let string = ruler(length);
        assert_eq!(tree(&RULED, &string).len(), count, "{length} bytes");
        table.fill(170);
        assert_eq!(rcds_tree(&RULED, &string, &mut table), 8);
        assert!(table.iter().all(|&byte| byte == 0));
    }
}

#[test]
fn questions_in_their_order() {
    let ask = |w, p, levels, nominal, string: usize, table: usize| {
        let settings = Settings {
            window: w,
            fan_out: p,
            levels,
            nominal,
        };
        let mut table = vec![170; table];
        let answer = rcds_tree(&settings, &vec![0; string], &mut table);
        assert!(answer >= ACCEPTED || table.iter().all(|&byte| byte == 170));
        answer
    };
    for w in [0, 1, 13, u64::MAX] {
        assert_eq!(ask(w, 0, 0, 0, 65_537, 0), 1);
    }
    for p in [0, 1, 9, u64::MAX] {
        assert_eq!(ask(2, p, 0, 0, 65_537, 0), 2);
    }
    for levels in [0, 5, u64::MAX] {
        assert_eq!(ask(12, 2, levels, 0, 65_537, 0), 3);
    }
    for nominal in [0, 4_095, 65_537, u64::MAX] {
        assert_eq!(ask(12, 8, 4, nominal, 65_537, 0), 4);
    }
    for nominal in [4_096, 65_536] {
        assert_eq!(ask(12, 8, 4, nominal, 65_537, 0), 6);
        assert_eq!(ask(12, 8, 4, nominal, 65_536, 65_535), 7);
        assert_eq!(ask(12, 8, 4, nominal, 0, 65_536), ACCEPTED + 5);
    }
}
