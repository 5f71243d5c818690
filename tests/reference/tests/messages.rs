//! Words and messages: document 01, "Checked by hand"; question 10, part by part.

use reference::message::{encode, parse, Body, Message, Opening};
use reference::rcds::{rcds_message_type, ACCEPTED};
use reference::reply::RULE;
use reference::word::{parts, read, value, write, Reference, Word};

const ID: u64 = 0x0102_0304_0506_0708;

fn bytes(words: &[u32]) -> Vec<u8> {
    words.iter().flat_map(|word| word.to_be_bytes()).collect()
}

fn words(message: &Message) -> Vec<u32> {
    let word = |bytes: &[u8]| u32::from_be_bytes(bytes.try_into().expect("a word has 4 bytes"));
    encode(message).chunks(4).map(word).collect()
}

fn with(body: Body) -> Message {
    Message { session: 5, body }
}

fn opening(width: u32) -> Message {
    with(Body::Opening(Opening {
        rule: RULE,
        window: 2,
        fan_out: 2,
        levels: 1,
        nominal: 2,
        width,
        length: 6,
        root: ID,
        cells: (0..3 * u64::from(width))
            .map(|k| [k, 1, 2, u64::MAX, 4])
            .collect(),
    }))
}

/// Both forms of a composition: "Writing and reading a message must still agree for both lengths."
/// (document 02, request 5)
const FORMS: [Option<u32>; 2] = [Some(4_095), None];

fn composition(indexes: &[u32]) -> Message {
    formed(FORMS[0], indexes)
}

/// A composition of these indexes that carries this number, or omits it.
fn formed(number: Option<u32>, indexes: &[u32]) -> Message {
    let pairs: Vec<(u32, u32)> = indexes.iter().map(|&index| (index, 1)).collect();
    counted(number, &pairs)
}

/// A composition of these indexes with their counts, in this order.
fn counted(number: Option<u32>, pairs: &[(u32, u32)]) -> Message {
    let reference = |&(index, count): &(u32, u32)| Reference { index, count };
    with(Body::Composition {
        level: 0,
        id: ID,
        number,
        references: pairs.iter().map(reference).collect(),
    })
}

fn literal(length: u8) -> Message {
    with(Body::Literal {
        level: 4,
        id: u64::MAX,
        bytes: (1..=length).collect(),
    })
}

/// One message of each type, and the shortest and longer ones of those that vary.
fn messages() -> Vec<Message> {
    let last = (1 << 28) - 1;
    vec![
        with(Body::OpeningQuery),
        with(Body::NodeQuery { level: 0, id: 0 }),
        opening(0),
        opening(1),
        opening(64),
        composition(&[]),
        composition(&[0, 3, 7, 4_095]),
        composition(&(0..4_096).collect::<Vec<_>>()),
        formed(None, &[]),
        formed(None, &[4_095]),
        formed(None, &[0, 3, 7, 4_095]),
        formed(None, &(0..4_096).collect::<Vec<_>>()),
        literal(0),
        literal(1),
        literal(2),
        literal(3),
        literal(100),
        Message {
            session: (1 << 24) - 1,
            body: Body::None {
                level: last,
                id: ID,
            },
        },
    ]
}

/// Changes one word; the answer must then be a no.
fn refused_with(message: &Message, place: usize, word: u32) {
    let mut words = words(message);
    assert_ne!(words[place], word);
    words[place] = word;
    assert_eq!(parse(&bytes(&words)), None, "{word:08x} at {place}");
}

/// Puts words in or takes them out before the end, and sets the end right.
fn between(message: &Message, change: impl FnOnce(&mut Vec<u32>)) -> Vec<u8> {
    let mut words = words(message);
    words.pop();
    change(&mut words);
    words.push(0x6000_0001 + words.len() as u32);
    bytes(&words)
}

#[test]
fn words_checked_by_hand() {
    assert_eq!(write(&Word::Bytes(vec![0x61, 0x62])), 0x5261_6200);
    let reference = Reference {
        index: 4_095,
        count: 32,
    };
    assert_eq!(write(&Word::Reference(reference)), 0x4003_ffe0);
    assert_eq!(read(0x5261_6200), Some(Word::Bytes(vec![0x61, 0x62])));
    assert_eq!(read(0x4003_ffe0), Some(Word::Reference(reference)));
    let query = with(Body::OpeningQuery);
    assert_eq!(words(&query), [0x1100_0005, 0x6000_0002]);
    assert_eq!(parse(&bytes(&[0x1100_0005, 0x6000_0002])), Some(query));
}

#[test]
fn values_in_three_parts() {
    assert_eq!(parts(ID), [0x01, 0x0203040, 0x5060708]);
    assert_eq!(parts(u64::MAX), [0xff, 0xfff_ffff, 0xfff_ffff]);
    assert_eq!(value([0x01, 0x0203040, 0x5060708]), Some(ID));
    assert_eq!(value([256, 0, 0]), None);
}

#[test]
fn a_word_is_read_as_it_was_written() {
    for place in 0..32 {
        for kind in 0..16 {
            for low in [0_u32, 1, 0x01ff_ffff, 0x03ff_ffff, 0x0fff_ffff, 0x0003_ffe0] {
                let bits = kind << 28 | (low ^ 1 << place) % (1 << 28);
                if let Some(word) = read(bits) {
                    assert_eq!(write(&word), bits);
                    assert!((1..=6).contains(&kind));
                }
            }
        }
    }
}

#[test]
fn a_message_is_read_as_it_was_written() {
    for message in messages() {
        let written = encode(&message);
        assert_eq!(parse(&written), Some(message.clone()));
        let answer = ACCEPTED + u64::from(message.body.message_type());
        assert_eq!(rcds_message_type(&written), answer);
    }
}

#[test]
fn what_is_read_is_written_the_same() {
    let mut read_again = 0;
    for message in messages() {
        let written = encode(&message);
        for bit in 0..(8 * written.len()).min(1_000) {
            let mut changed = written.clone();
            changed[bit / 8] ^= 128 >> (bit % 8);
            if let Some(other) = parse(&changed) {
                assert_eq!(encode(&other), changed);
                read_again += 1;
            }
        }
    }
    assert!(read_again > 1_000, "{read_again} changed messages are read");
}

#[test]
fn whole_words() {
    assert_eq!(parse(&[]), None);
    assert_eq!(rcds_message_type(&[]), 10);
    for message in messages() {
        let written = encode(&message);
        for cut in 1..written.len().min(60) {
            assert_eq!(parse(&written[..written.len() - cut]), None);
        }
        for more in 1..9 {
            let longer = [written.as_slice(), &[0; 8][..more]].concat();
            assert_eq!(parse(&longer), None);
        }
    }
}

#[test]
fn types_1_to_6() {
    for message_type in [0, 7, 8, 15] {
        let head = 0x1000_0005 | message_type << 24;
        assert_eq!(parse(&bytes(&[head, 0x6000_0002])), None);
        refused_with(&literal(0), 0, head);
    }
    // A node query's words under the head of a none are a none.
    let none = with(Body::None { level: 3, id: ID });
    let mut query = words(&with(Body::NodeQuery { level: 3, id: ID }));
    query[0] = 0x1600_0005;
    assert_eq!(parse(&bytes(&query)), Some(none));
}

#[test]
fn the_end_counts_all_words() {
    for message in messages() {
        let length = words(&message).len();
        for count in [0, length - 1, length + 1, length + (1 << 27)] {
            refused_with(&message, length - 1, 0x6000_0000 | count as u32);
        }
    }
}

#[test]
fn first_part_at_most_255() {
    let query = with(Body::NodeQuery { level: 0, id: ID });
    for first in [256, 511, 1 << 27] {
        refused_with(&query, 2, 0x3000_0000 | first);
        refused_with(&opening(1), 8, 0x3000_0000 | first);
        refused_with(&opening(1), 11, 0x3000_0000 | first);
        refused_with(&opening(1), 53, 0x3000_0000 | first);
    }
    // The second part has 28 bits.
    let mut words = words(&query);
    words[3] = 0x3fff_ffff;
    assert!(parse(&bytes(&words)).is_some());
}

/// Whether the word stands where a composition has its number or its first reference, and is one that may
/// stand there: the number with the kind of a reference, or the other way round.
fn may_be_either(message: &Message, place: usize, word: u32) -> bool {
    let composition = matches!(message.body, Body::Composition { .. });
    let first = matches!(read(word), Some(Word::Number(_) | Word::Reference(_)));
    composition && place == 5 && first
}

#[test]
fn kinds_in_their_order() {
    for message in messages() {
        let written = words(&message);
        for (place, &word) in written.iter().enumerate().take(70) {
            for kind in 0..16 {
                let other = kind << 28 | word % (1 << 28);
                if kind != word >> 28 && !may_be_either(&message, place, other) {
                    refused_with(&message, place, other);
                }
            }
        }
    }
}

#[test]
fn as_many_cells_as_3q() {
    for words in [1, 2, 3, 15, 30, 45] {
        let shorter = between(&opening(2), |all| all.truncate(all.len() - words));
        assert_eq!(parse(&shorter).is_some(), false, "{words} fewer");
        let longer = between(&opening(2), |all| all.extend(vec![0x3000_0000; words]));
        assert_eq!(parse(&longer).is_some(), false, "{words} more");
    }
    refused_with(&opening(2), 6, 0x2000_0001);
    refused_with(&opening(2), 6, 0x2000_0003);
    refused_with(&opening(0), 6, 0x2fff_ffff);
    let shorter = between(&opening(2), |all| {
        all.truncate(all.len() - 45);
        all[6] = 0x2000_0001;
    });
    assert!(parse(&shorter).is_some());
}

#[test]
fn numbers_are_any_28_bits() {
    for place in [1, 2, 3, 4, 5, 7] {
        let mut words = words(&opening(1));
        words[place] = 0x2fff_ffff;
        assert!(parse(&bytes(&words)).is_some());
    }
    let mut words = words(&composition(&[1]));
    words[5] = 0x2000_1000;
    assert!(parse(&bytes(&words)).is_some());
}

/// "omits the number word" (document 02, request 5): one word fewer, and the end says so.
#[test]
fn both_lengths_of_a_composition() {
    let node = [
        0x1400_0005,
        0x2000_0000,
        0x3000_0001,
        0x3020_3040,
        0x3506_0708,
    ];
    let references = [0x4000_0241, 0x4000_0281];
    let carries = [&node[..], &[0x2000_0fff], &references, &[0x6000_0009]].concat();
    let omits = [&node[..], &references, &[0x6000_0008]].concat();
    for (number, expected) in FORMS.into_iter().zip([carries, omits]) {
        let message = formed(number, &[9, 10]);
        assert_eq!(words(&message), expected);
        assert_eq!(parse(&bytes(&expected)), Some(message));
    }
    // Without references too, and whatever the number is.
    for number in [None, Some(0), Some(1), Some(4_096), Some((1 << 28) - 1)] {
        let message = formed(number, &[]);
        assert_eq!(words(&message).len(), 6 + usize::from(number.is_some()));
        assert_eq!(parse(&encode(&message)), Some(message));
    }
}

/// A composition with one more word at a place before its end.
fn with_word(message: &Message, place: usize, word: u32) -> Vec<u8> {
    between(message, |all| all.insert(place, word))
}

/// A number stands after the id, once, or nowhere: a second one is met by 10, and so is one anywhere else.
#[test]
fn one_number_after_the_id() {
    for indexes in [&[][..], &[9], &[9, 10, 11]] {
        let (carries, omits) = (formed(Some(7), indexes), formed(None, indexes));
        for number in [0x2000_0000, 0x2000_0007, 0x2000_1000] {
            for place in 5..=6 + indexes.len() {
                let twice = with_word(&carries, place, number);
                assert_eq!(rcds_message_type(&twice), 10, "{number:08x} at {place}");
            }
            for place in (0..5).chain(6..=5 + indexes.len()) {
                let elsewhere = with_word(&omits, place, number);
                assert_eq!(rcds_message_type(&elsewhere), 10, "{number:08x} at {place}");
            }
            let expected = formed(Some(number % (1 << 28)), indexes);
            assert_eq!(parse(&with_word(&omits, 5, number)), Some(expected));
        }
        assert_eq!(
            parse(&between(&carries, |all| {
                all.remove(5);
            })),
            Some(omits)
        );
    }
}

#[test]
fn references() {
    for (number, first) in FORMS.into_iter().zip([6, 5]) {
        for count in [0, 33, 63] {
            let word = 0x4000_0000 | 9 << 6 | count;
            refused_with(&formed(number, &[9]), first, word);
        }
        for bit in 18..28 {
            let word = 0x4000_0000 | 9 << 6 | 1 | 1 << bit;
            refused_with(&formed(number, &[9]), first, word);
        }
        let three = formed(number, &[9, 10, 11]);
        refused_with(&three, first + 2, 0x4000_0000 | 9 << 6 | 2);
        refused_with(&three, first + 1, 0x4000_0000 | 9 << 6 | 1);
    }
}

/// "References now rise by index" (document 02, request 2).
#[test]
fn references_rise_by_index() {
    let all: Vec<u32> = (0..4_096).collect();
    let rising: [&[u32]; 8] = [
        &[],
        &[0],
        &[4_095],
        &[0, 1],
        &[0, 4_095],
        &[255, 256, 2_047, 2_048],
        &[3, 7, 9, 4_094, 4_095],
        &all,
    ];
    for (indexes, number) in rising.iter().flat_map(|all| FORMS.map(|form| (all, form))) {
        let message = formed(number, indexes);
        assert_eq!(parse(&encode(&message)), Some(message));
    }
}

/// "A sender of the old kind is met by number 10 when its order falls." (document 02, request 2)
#[test]
fn references_that_fall_are_met_by_10() {
    let falling: [&[u32]; 10] = [
        &[1, 0],
        &[4_095, 0],
        &[2_048, 2_047],
        &[256, 255],
        // Two neighbours exchanged: the first ones, some between, the last ones.
        &[7, 3, 9, 4_095],
        &[3, 9, 7, 4_095],
        &[3, 7, 4_095, 9],
        // Two that are apart, and all.
        &[9, 7, 3, 4_095],
        &[4_095, 7, 9, 3],
        &[4_095, 9, 7, 3],
    ];
    for (indexes, number) in falling.iter().flat_map(|all| FORMS.map(|form| (all, form))) {
        let written = encode(&formed(number, indexes));
        assert_eq!(parse(&written), None, "{indexes:?}");
        assert_eq!(rcds_message_type(&written), 10, "{indexes:?}");
    }
    // Each of two neighbours among all of them.
    for place in 0..4_095 {
        let mut indexes: Vec<u32> = (0..4_096).collect();
        indexes.swap(place, place + 1);
        for number in FORMS {
            let written = encode(&formed(number, &indexes));
            assert_eq!(parse(&written), None, "{place}");
        }
    }
}

/// "each index once" (document 01) stays: an index that stands twice does not rise.
#[test]
fn an_index_that_stands_twice_is_met_by_10() {
    let twice: [&[(u32, u32)]; 8] = [
        &[(0, 1), (0, 1)],
        &[(9, 4), (9, 4)],
        // With another count: one that rises, and one that falls.
        &[(9, 4), (9, 5)],
        &[(9, 4), (9, 3)],
        &[(4_095, 31), (4_095, 32)],
        &[(3, 1), (9, 1), (3, 1)],
        &[(3, 1), (3, 2), (9, 1)],
        &[(3, 1), (9, 1), (9, 32)],
    ];
    for (pairs, number) in twice.iter().flat_map(|all| FORMS.map(|form| (all, form))) {
        let written = encode(&counted(number, pairs));
        assert_eq!(parse(&written), None, "{pairs:?}");
        assert_eq!(rcds_message_type(&written), 10, "{pairs:?}");
    }
}

/// The indexes rise; the counts need not.
#[test]
fn counts_in_any_order() {
    for pairs in [
        [(3, 32), (7, 16), (9, 1)],
        [(3, 1), (7, 32), (9, 1)],
        [(3, 5), (7, 5), (9, 5)],
    ] {
        for number in FORMS {
            let message = counted(number, &pairs);
            assert_eq!(parse(&encode(&message)), Some(message));
        }
    }
}

#[test]
fn bytes_words() {
    let three = literal(6);
    refused_with(&three, 5, 0x5201_0200);
    refused_with(&three, 6, 0x5004_0506);
    refused_with(&three, 6, 0x5204_0506);
    refused_with(&three, 6, 0x5104_0500);
    refused_with(&three, 6, 0x5104_0006);
    for bit in 26..28 {
        refused_with(&three, 6, 0x5304_0506 | 1 << bit);
    }
    let shorter = between(&three, |all| all[6] = 0x5104_0000);
    assert_eq!(parse(&shorter), Some(literal(4)));
    let zeros = between(&three, |all| all[6] = 0x5300_0000);
    assert!(parse(&zeros).is_some());
}

#[test]
fn nothing_between_the_words_of_a_type() {
    for message in messages() {
        let length = words(&message).len();
        for word in [0x1100_0005, 0x2000_0000, 0x3000_0000, 0x6000_0002] {
            let longer = between(&message, |all| all.push(word));
            // After the id alone a number is a composition's own.
            let own = message == formed(None, &[]) && word == 0x2000_0000;
            let expected = own.then(|| formed(Some(0), &[]));
            assert_eq!(parse(&longer), expected);
        }
        for place in 0..length.min(12) - 1 {
            let fewer = between(&message, |all| {
                all.remove(place);
            });
            let read = parse(&fewer);
            let varies = matches!(
                message.body,
                Body::Composition { .. } | Body::Literal { .. }
            );
            assert!(read.is_none() || varies);
        }
    }
}
