//! What the program `messages` prints of a message that it reads.

use crate::fnv::fnv1a;
use crate::message::{parse, Body, Message};

/// The line of a message: the word `read`; 2^32 plus the type, or 10; and what the message says. Of a
/// query or a none: session, level, id (of an opening query the session alone). Of a literal then: how
/// many bytes it has, and FNV-1a of 128 bytes 170 with the literal, or what fits of it, at their
/// front. Of a composition then: 1 and the number that it carries, or 0 and 0 where it omits it; how many
/// references, index and count of each. Of an opening: session, rule, w, p, L, M, q, length, root id, and
/// the first 960 values of its cells in one number (from 0 on, twice the last and the next value, modulo
/// 2^64).
pub fn read_line(bytes: &[u8]) -> String {
    match parse(bytes) {
        None => line("read", &[10]),
        Some(message) => {
            let mut numbers = vec![(1 << 32) + message.body.message_type() as u64];
            numbers.extend(fields(&message));
            line("read", &numbers)
        }
    }
}

/// A word and numbers, parted by one space.
pub fn line(word: &str, numbers: &[u64]) -> String {
    let mut text = word.to_string();
    for number in numbers {
        text.push_str(&format!(" {number}"));
    }
    text
}

fn fields(message: &Message) -> Vec<u64> {
    let session = message.session as u64;
    match &message.body {
        Body::OpeningQuery => vec![session],
        Body::NodeQuery { level, id } | Body::None { level, id } => {
            vec![session, *level as u64, *id]
        }
        Body::Literal { level, id, bytes } => {
            let mut front = [170u8; 128];
            let copied = bytes.len().min(front.len());
            front[..copied].copy_from_slice(&bytes[..copied]);
            vec![
                session,
                *level as u64,
                *id,
                bytes.len() as u64,
                fnv1a(&front),
            ]
        }
        Body::Composition {
            level,
            id,
            number,
            references,
        } => {
            let mut all = vec![
                session,
                *level as u64,
                *id,
                number.is_some() as u64,
                number.unwrap_or(0) as u64,
                references.len() as u64,
            ];
            for reference in references {
                all.extend([reference.index as u64, reference.count as u64]);
            }
            all
        }
        Body::Opening(opening) => {
            let values = opening.cells.iter().flatten().take(960);
            let sum = values.fold(0u64, |sum, value| sum.wrapping_mul(2).wrapping_add(*value));
            let numbers = [
                opening.rule,
                opening.window,
                opening.fan_out,
                opening.levels,
                opening.nominal,
                opening.width,
                opening.length,
            ];
            let mut all = vec![session];
            all.extend(numbers.map(u64::from));
            all.extend([opening.root, sum]);
            all
        }
    }
}
