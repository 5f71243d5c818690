//! The strings and lines that the program `vectors` is compared with.

use reference::fnv::fnv1a;
use reference::vectors::{
    crossed_lines, fnv_lines, most_lines, setup_lines, strata_lines, string, tree_lines,
    STRATA_KINDS,
};

#[test]
fn strings_of_each_kind() {
    assert_eq!(string(0, 3), [0, 0, 0]);
    assert_eq!(string(1, 3), [7, 7, 7]);
    // x = 8 × 1 + 2, then x × 6364136223846793005 + 1442695040888963407 modulo 2^64.
    let x = (10 * 6_364_136_223_846_793_005_u128 + 1_442_695_040_888_963_407) % (1 << 64);
    assert_eq!(string(2, 1), [(x >> 56) as u8]);
    assert!(string(3, 1_000).iter().all(|&byte| byte < 4));
    assert_eq!(string(4, 7), [0, 0, 0, 8, 0, 16, 0]);
    assert_eq!(string(4, 1_002)[998..], [0x0f, 0x98, 0x0f, 0xa0]);
    let repeats = string(5, 100);
    assert_eq!(repeats[37..], repeats[..63]);
    let ruler = string(6, 1_200);
    assert_eq!(ruler[..6], [98, 230, 122, 230, 122, 230]);
    let marks = [0, 1, 2, 10, 80, 160, 559, 560, 640, 1_120].map(|i| ruler[i]);
    assert_eq!(marks, [98, 230, 122, 215, 249, 249, 230, 98, 249, 98]);
    assert_eq!(ruler[560..1_120], ruler[..560]);
}

#[test]
fn lines_as_the_format_counts_them() {
    assert_eq!(fnv_lines().len(), 270);
    assert_eq!(fnv_lines()[268..], ["fnv 8 0", "id 1"]);
    let lines = tree_lines();
    assert_eq!(lines.len(), 413);
    for question in [1, 2, 3, 4, 6, 8] {
        let refused = |line: &&String| line.split(' ').nth(6) == Some(&question.to_string());
        assert!(
            lines.iter().any(|line| refused(&line)),
            "{question} refuses no line"
        );
    }
}

#[test]
fn lines_of_setups() {
    let lines = setup_lines();
    assert_eq!(lines.len(), 107);
    let answers = |question: u64| {
        let of = |line: &&String| line.split(' ').nth(8) == Some(&question.to_string());
        lines.iter().filter(of).count()
    };
    assert_eq!((answers(4), answers(5), answers(6)), (1, 3, 1));
    assert!(answers(8) > 0, "8 refuses no line");
    assert_eq!(answers((1 << 32) + 4_096), 1);
}

#[test]
fn lines_of_trees_that_are_crossed() {
    let lines = crossed_lines();
    assert_eq!(lines.len(), 61);
    // 62 e6 7a e6 7a e6 7a e6 has values 2 3 2 3 2 3 2, cuts 2 and 4: the blocks 0 to 1, 2 to 3 and 4 to 7.
    let by_hand = [
        "node 0 0 8 0 0",
        "node 1 0 2 0 0",
        "node 1 2 2 0 1",
        "node 1 4 4 0 2",
        "crossed 0 0 0 4294967296",
        "crossed 0 1 64 4294967298 0 0 1 0",
        "crossed 2 2 64 4294967298 0 0 2 0",
        "crossed 3 2 64 4294967299 0 0 2 0 3 0",
        "crossed 0 8 4 4294967300 0 0 1 0 2 0 3 0",
        "crossed 0 8 3 22",
        "crossed 8 0 0 4294967296",
        "crossed 26 1 5 21",
    ];
    assert_eq!(lines[..by_hand.len()], by_hand);
    let exact = "crossed 26 1 5 4294967301 0 0 8 0 9 8 17 9 18 17";
    assert!(lines.iter().any(|line| line == exact));
}

#[test]
fn lines_of_strata() {
    let lines = strata_lines();
    assert_eq!(lines.len(), 47);
    let words: Vec<Vec<&str>> = lines.iter().map(|line| line.split(' ').collect()).collect();
    // OWN and THEIRS.
    let [own, theirs] = [9, 10];
    let answers = words.iter().map(|words| words[11]);
    let answers: Vec<u64> = answers
        .map(|word| word.parse().expect("a number"))
        .collect();
    // With the last settings the trees of 20,000 bytes of kinds 2, 3 and 4 have too many nodes, that of kind 5 has not.
    // Senders that are refused have no state, and build no strata.
    let untouched = fnv1a(&[170; 7_688]).to_string();
    let refused_ends = [[true; 2], [true; 2], [false; 2], [true; 2], [true; 2]];
    let refused_settings = [[true; 2]; 2];
    for (k, refused) in (40..).zip([&refused_ends[..], &refused_settings].concat()) {
        let tables = [words[k][own], words[k][theirs]];
        assert_eq!(tables.map(|table| table == untouched), refused, "line {k}");
        assert_eq!(answers[k] == 1, refused[0], "line {k}");
    }
    assert!(answers[..40].iter().all(|&answer| answer >> 32 == 1));
    // Some stratum after a few does not open, so that what the higher ones list counts many times.
    assert!(answers.iter().any(|&answer| answer > (1 << 32) + 90));
    // Of the same settings and length, the string of kind 2 is the first's of two lines and the second's of one.
    assert_eq!(
        [STRATA_KINDS[0][0], STRATA_KINDS[3][0], STRATA_KINDS[4][1]],
        [2; 3]
    );
    for five in words[..40].chunks(5) {
        assert_eq!(
            (five[3][own], five[4][theirs]),
            (five[0][own], five[0][own])
        );
        assert!(five.iter().all(|words| words[own] != words[theirs]));
    }
}

#[test]
fn lines_of_most_blocks() {
    let lines = most_lines();
    assert_eq!(lines[0], "most 0 2 1 4294967297");
    assert_eq!(lines[17], "most 18446744073709551615 2 1 24");
    let answer = |line: &String| line.split(' ').nth(4).map(str::to_string);
    let answers: Vec<String> = lines.iter().filter_map(answer).collect();
    let counts = [1, 1, 1, 2, 3, 13, 32, 32, 1, 2, 32].map(|count: u64| (1 << 32) + count);
    let expected = [&counts[..], &[24; 7]].concat();
    assert_eq!(
        answers,
        expected.iter().map(u64::to_string).collect::<Vec<_>>()
    );
}
