//! Prints what the program `messages` must print, worked out by the reference.
//!
//! Messages are written one after the other into buffers that hold 170 at first and are used again
//! with what the message before left. Two lines for each; every line ends in one line feed, words
//! are parted by one space, numbers are decimal.
//!
//! 1. `write ANSWER DIGEST`: 2^32 plus the bytes written, or 20 where the message does not fit, and
//!    FNV-1a of the whole buffer afterwards.
//! 2. If it fits, the line that the module `listing` says.
//!
//! Byte i of a literal or a cell table is 37 × i + 11 modulo 256, with i taken modulo 256 first.

use reference::fnv::fnv1a;
use reference::listing::{line, read_line};
use reference::message::{encode, Body, Message, Opening};
use reference::reply::RULE;
use reference::word::Reference;

const ID: u64 = 0x0123_4567_89ab_cdef;
const ROOT: u64 = 12638187200555641996;

fn pattern(length: usize) -> Vec<u8> {
    (0..length).map(|i| (i % 256 * 37 + 11) as u8).collect()
}

/// Writes the message to the front of the buffer, if it fits, and reads it again.
fn written(buffer: &mut [u8], session: u32, body: Body) {
    let bytes = encode(&Message { session, body });
    if buffer.len() < bytes.len() {
        println!("{}", line("write", &[20, fnv1a(buffer)]));
        return;
    }
    buffer[..bytes.len()].copy_from_slice(&bytes);
    let answer = (1 << 32) + bytes.len() as u64;
    println!("{}", line("write", &[answer, fnv1a(buffer)]));
    println!("{}", read_line(&bytes));
}

fn queries() {
    let mut buffer = [170u8; 32];
    for session in [5, 16_777_215, 16_777_221 % (1 << 24)] {
        written(&mut buffer, session, Body::OpeningQuery);
    }
    written(&mut buffer, 5, Body::NodeQuery { level: 3, id: ID });
    let (level, id) = ((1 << 28) - 1, u64::MAX);
    written(&mut buffer, 0, Body::NodeQuery { level, id });
    written(&mut buffer, 1, Body::None { level: 0, id: 0 });
    written(&mut [170u8; 7], 5, Body::OpeningQuery);
    let mut nearly = [170u8; 23];
    written(&mut nearly, 5, Body::NodeQuery { level: 3, id: 1 });
    written(&mut nearly, 5, Body::None { level: 3, id: 1 });
}

fn literals() {
    let mut buffer = [170u8; 160];
    for (level, length) in [(0, 0), (1, 1), (2, 2), (3, 3), (4, 100), (4, 103)] {
        let bytes = pattern(length);
        written(
            &mut buffer,
            9,
            Body::Literal {
                level,
                id: ID,
                bytes,
            },
        );
    }
}

fn compositions() {
    let mut buffer = [170u8; 64];
    let first = |count: u32| -> Vec<(u32, u32)> { (1..=count).map(|index| (index, 1)).collect() };
    let rising = vec![(0, 1), (1, 31), (7, 2), (12, 3), (4095, 32)];
    let falling = vec![(4095, 32), (0, 1), (7, 2), (12, 3), (1, 31)];
    let twice = vec![(3, 1), (3, 1)];
    // "References now rise by index" (document 02, request 2): the third's fall, and the fifth has an
    // index twice. The sixth has no room. The others omit the number (request 5), so that one more
    // reference has room: the twelfth fills the buffer, and the last is longer.
    let cases: [(Option<u32>, Vec<(u32, u32)>); 13] = [
        (Some(0), vec![(0, 1)]),
        (Some(4095), rising.clone()),
        (Some(4095), falling.clone()),
        (Some(4096), vec![]),
        (Some(1), twice.clone()),
        (Some(1), first(10)),
        (None, vec![(0, 1)]),
        (None, rising),
        (None, falling),
        (None, vec![]),
        (None, twice),
        (None, first(10)),
        (None, first(11)),
    ];
    for (number, pairs) in cases {
        let references = pairs
            .into_iter()
            .map(|(index, count)| Reference { index, count })
            .collect();
        let body = Body::Composition {
            level: 3,
            id: u64::MAX,
            number,
            references,
        };
        written(&mut buffer, 16_777_215, body);
    }
}

fn opening(width: u32) -> Body {
    let table = pattern(120 * width as usize);
    let rows: Vec<u64> = table
        .chunks(8)
        .map(|row| u64::from_be_bytes(row.try_into().expect("a row has 8 bytes")))
        .collect();
    let cells = rows
        .chunks(5)
        .map(|cell| cell.try_into().expect("a cell has 5 rows"));
    Body::Opening(Opening {
        rule: RULE,
        window: 12,
        fan_out: 8,
        levels: 4,
        nominal: 65_536,
        width,
        length: 65_536,
        root: ROOT,
        cells: cells.collect(),
    })
}

fn openings() {
    let mut buffer = [170u8; 16_384];
    written(&mut buffer, 7, opening(1));
    written(&mut buffer, 7, opening(64));
    written(&mut [170u8; 200], 7, opening(1));
}

fn main() {
    queries();
    literals();
    compositions();
    openings();
}
