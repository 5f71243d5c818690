//! Messages: rows of words, in six types.

use crate::word::{self, Reference, Word};

/// A message: its session, and what stands between head and end.
#[derive(Clone, Debug, PartialEq, Eq)]
pub struct Message {
    pub session: u32,
    pub body: Body,
}

/// "Types, between head and end". Numbers have 28 bits, values 64.
#[derive(Clone, Debug, PartialEq, Eq)]
pub enum Body {
    /// "1 opening query, empty"
    OpeningQuery,
    /// "2 node query: level, id"
    NodeQuery { level: u32, id: u64 },
    /// "3 opening"
    Opening(Opening),
    /// "4 composition: level, id, trail number, references ..., each index once"; "References now
    /// rise by index" (document 02, request 2); "A composition whose trail is the only one omits the
    /// number word, and one with others carries it" (request 5). Which of them it may be is asked by 17,
    /// so both are well formed.
    Composition {
        level: u32,
        id: u64,
        number: Option<u32>,
        references: Vec<Reference>,
    },
    /// "5 literal: level, id, bytes"
    Literal { level: u32, id: u64, bytes: Vec<u8> },
    /// "6 none: level, id"
    None { level: u32, id: u64 },
}

/// "rule ..., w, p, L, M, q, string length, root id, cells in order with five values each". Question 12
/// asks the rule and the settings, so any numbers may stand here.
#[derive(Clone, Debug, PartialEq, Eq)]
pub struct Opening {
    pub rule: u32,
    pub window: u32,
    pub fan_out: u32,
    pub levels: u32,
    pub nominal: u32,
    pub width: u32,
    pub length: u32,
    pub root: u64,
    pub cells: Vec<[u64; 5]>,
}

impl Body {
    /// The number of the type.
    pub fn message_type(&self) -> u32 {
        match self {
            Body::OpeningQuery => 1,
            Body::NodeQuery { .. } => 2,
            Body::Opening(_) => 3,
            Body::Composition { .. } => 4,
            Body::Literal { .. } => 5,
            Body::None { .. } => 6,
        }
    }
}

/// "10 message well formed: whole words, kinds, order, fixed bits, ..., end right?" The message
/// that the bytes are, if they are one.
pub fn parse(bytes: &[u8]) -> Option<Message> {
    if bytes.len() % 4 != 0 {
        return None;
    }
    let bits = |word: &[u8]| u32::from_be_bytes(word.try_into().expect("a word has 4 bytes"));
    let words: Option<Vec<Word>> = bytes.chunks(4).map(|word| word::read(bits(word))).collect();
    let words = words?;
    let [head, between @ .., Word::End(count)] = words.as_slice() else {
        return None;
    };
    let Word::Head {
        message_type,
        session,
    } = head
    else {
        return None;
    };
    if *count as usize != words.len() {
        return None;
    }
    let body = parse_body(*message_type, between)?;
    Some(Message {
        session: *session,
        body,
    })
}

/// What stands between head and end. Numbers other than 1 to 6 are not types.
fn parse_body(message_type: u32, between: &[Word]) -> Option<Body> {
    match (message_type, between) {
        (1, []) => Some(Body::OpeningQuery),
        (2, [Word::Number(level), id @ ..]) => Some(Body::NodeQuery {
            level: *level,
            id: parse_value(id)?,
        }),
        (3, _) => parse_opening(between).map(Body::Opening),
        (4, [Word::Number(level), a, b, c, rest @ ..]) => {
            let (number, references) = parse_number(rest);
            Some(Body::Composition {
                level: *level,
                id: parse_value(&[a.clone(), b.clone(), c.clone()])?,
                number,
                references: parse_references(references)?,
            })
        }
        (5, [Word::Number(level), a, b, c, bytes @ ..]) => Some(Body::Literal {
            level: *level,
            id: parse_value(&[a.clone(), b.clone(), c.clone()])?,
            bytes: parse_bytes(bytes)?,
        }),
        (6, [Word::Number(level), id @ ..]) => Some(Body::None {
            level: *level,
            id: parse_value(id)?,
        }),
        _ => None,
    }
}

/// The trail number, if the first word is one, and the words after it: "Writing and reading a message must
/// still agree for both lengths." (document 02, request 5)
fn parse_number(words: &[Word]) -> (Option<u32>, &[Word]) {
    match words {
        [Word::Number(number), rest @ ..] => (Some(*number), rest),
        _ => (None, words),
    }
}

/// Three words as a 64-bit value.
fn parse_value(words: &[Word]) -> Option<u64> {
    match words {
        [Word::Part(top), Word::Part(middle), Word::Part(low)] => {
            word::value([*top, *middle, *low])
        }
        _ => None,
    }
}

/// "cells as many as its q": "The sketch has 3q cells".
fn parse_opening(words: &[Word]) -> Option<Opening> {
    let [Word::Number(rule), Word::Number(window), Word::Number(fan_out), Word::Number(levels), Word::Number(nominal), Word::Number(width), Word::Number(length), a, b, c, cells @ ..] =
        words
    else {
        return None;
    };
    let root = parse_value(&[a.clone(), b.clone(), c.clone()])?;
    let values: Option<Vec<u64>> = cells.chunks(3).map(parse_value).collect();
    let values = values?;
    if values.len() as u64 != 5 * 3 * u64::from(*width) {
        return None;
    }
    let cell = |values: &[u64]| values.try_into().expect("a cell has five values");
    Some(Opening {
        rule: *rule,
        window: *window,
        fan_out: *fan_out,
        levels: *levels,
        nominal: *nominal,
        width: *width,
        length: *length,
        root,
        cells: values.chunks(5).map(cell).collect(),
    })
}

/// "References now rise by index" (document 02, request 2), and "each index once" stays: each index
/// is above the one before it, whatever the counts are. "A sender of the old kind is met by number 10
/// when its order falls."
fn parse_references(words: &[Word]) -> Option<Vec<Reference>> {
    let mut references: Vec<Reference> = Vec::new();
    for word in words {
        let Word::Reference(reference) = word else {
            return None;
        };
        let before = references.last();
        if before.is_some_and(|before| reference.index <= before.index) {
            return None;
        }
        references.push(*reference);
    }
    Some(references)
}

/// "Only the last such word may carry fewer than 3."
fn parse_bytes(words: &[Word]) -> Option<Vec<u8>> {
    let mut all = Vec::new();
    for (k, word) in words.iter().enumerate() {
        let Word::Bytes(bytes) = word else {
            return None;
        };
        let last = k + 1 == words.len();
        if bytes.len() < 3 && !last {
            return None;
        }
        all.extend(bytes);
    }
    Some(all)
}

/// The bytes of a message whose numbers fit their places: words "on the link most significant byte
/// first". References are written in the order given, so that tests write also those that do not rise.
pub fn encode(message: &Message) -> Vec<u8> {
    let mut words = vec![Word::Head {
        message_type: message.body.message_type(),
        session: message.session,
    }];
    words.extend(body_words(&message.body));
    words.push(Word::End(words.len() as u32 + 1));
    words
        .iter()
        .flat_map(|word| word::write(word).to_be_bytes())
        .collect()
}

fn body_words(body: &Body) -> Vec<Word> {
    match body {
        Body::OpeningQuery => vec![],
        Body::NodeQuery { level, id } | Body::None { level, id } => node_words(*level, *id),
        Body::Opening(opening) => opening_words(opening),
        Body::Composition {
            level,
            id,
            number,
            references,
        } => {
            let mut words = node_words(*level, *id);
            words.extend(number.map(Word::Number));
            words.extend(
                references
                    .iter()
                    .map(|&reference| Word::Reference(reference)),
            );
            words
        }
        Body::Literal { level, id, bytes } => {
            let mut words = node_words(*level, *id);
            words.extend(bytes.chunks(3).map(|three| Word::Bytes(three.to_vec())));
            words
        }
    }
}

/// "level, id"
fn node_words(level: u32, id: u64) -> Vec<Word> {
    let mut words = vec![Word::Number(level)];
    words.extend(word::parts(id).map(Word::Part));
    words
}

fn opening_words(opening: &Opening) -> Vec<Word> {
    let numbers = [
        opening.rule,
        opening.window,
        opening.fan_out,
        opening.levels,
        opening.nominal,
        opening.width,
        opening.length,
    ];
    assert_eq!(opening.cells.len() as u64, 3 * u64::from(opening.width));
    let mut words: Vec<Word> = numbers.map(Word::Number).to_vec();
    for value in [opening.root].iter().chain(opening.cells.iter().flatten()) {
        words.extend(word::parts(*value).map(Word::Part));
    }
    words
}
