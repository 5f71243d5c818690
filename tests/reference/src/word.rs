//! The words of a message: 32 bits, "The top 4 bits are the kind, 28 bits remain."

/// "4 reference: ... 12 bits list index, 6 bits count (1 to 32)."
#[derive(Clone, Copy, Debug, PartialEq, Eq)]
pub struct Reference {
    pub index: u32,
    pub count: u32,
}

/// A word of one of the six kinds.
#[derive(Clone, Debug, PartialEq, Eq)]
pub enum Word {
    /// "1 head: 4 bits type, 24 bits session."
    Head { message_type: u32, session: u32 },
    /// "2 number."
    Number(u32),
    /// "3 part of a 64-bit value"
    Part(u32),
    /// "4 reference"
    Reference(Reference),
    /// "5 bytes": 1 to 3 of them.
    Bytes(Vec<u8>),
    /// "6 end: words in the message."
    End(u32),
}

/// The word that 32 bits are, if their kind and their fixed bits are right.
pub fn read(bits: u32) -> Option<Word> {
    let kind = bits >> 28;
    let rest = bits % (1 << 28);
    match kind {
        1 => Some(Word::Head {
            message_type: rest >> 24,
            session: rest % (1 << 24),
        }),
        2 => Some(Word::Number(rest)),
        3 => Some(Word::Part(rest)),
        4 => read_reference(rest).map(Word::Reference),
        5 => read_bytes(rest).map(Word::Bytes),
        6 => Some(Word::End(rest)),
        _ => None,
    }
}

/// "10 zero bits, 12 bits list index, 6 bits count (1 to 32)"
fn read_reference(rest: u32) -> Option<Reference> {
    let zero_bits = rest >> 18;
    let index = rest % (1 << 18) / (1 << 6);
    let count = rest % (1 << 6);
    let right = zero_bits == 0 && (1..=32).contains(&count);
    right.then_some(Reference { index, count })
}

/// "two zero bits, two bits how many (1 to 3), three bytes from the top, unused ones 0"
fn read_bytes(rest: u32) -> Option<Vec<u8>> {
    let zero_bits = rest >> 26;
    let how_many = (rest >> 24) as usize % 4;
    let [_, three @ ..] = rest.to_be_bytes();
    let (used, unused) = three.split_at(how_many);
    let right = zero_bits == 0 && how_many > 0 && unused.iter().all(|&byte| byte == 0);
    right.then_some(used.to_vec())
}

/// The 32 bits of a word whose numbers fit their places.
pub fn write(word: &Word) -> u32 {
    let (kind, rest) = match word {
        Word::Head {
            message_type,
            session,
        } => {
            assert!(*message_type < 1 << 4 && *session < 1 << 24);
            (1, message_type << 24 | session)
        }
        Word::Number(number) => (2, *number),
        Word::Part(part) => (3, *part),
        Word::Reference(Reference { index, count }) => {
            assert!(*index < 1 << 12 && (1..=32).contains(count));
            (4, index << 6 | count)
        }
        Word::Bytes(bytes) => {
            assert!((1..=3).contains(&bytes.len()));
            let mut three = [0; 3];
            three[..bytes.len()].copy_from_slice(bytes);
            let [first, second, third] = three;
            let how_many = bytes.len() as u8;
            (5, u32::from_be_bytes([how_many, first, second, third]))
        }
        Word::End(words) => (6, *words),
    };
    assert!(rest < 1 << 28);
    kind << 28 | rest
}

/// "three words with its top 8, middle 28, low 28 bits"
pub fn parts(value: u64) -> [u32; 3] {
    let low_28 = |value: u64| (value % (1 << 28)) as u32;
    [(value >> 56) as u32, low_28(value >> 28), low_28(value)]
}

/// The value of three parts: "first part of a 64-bit value at most 255".
pub fn value([top, middle, low]: [u32; 3]) -> Option<u64> {
    let right = top <= 255;
    right.then_some(u64::from(top) << 56 | u64::from(middle) << 28 | u64::from(low))
}
