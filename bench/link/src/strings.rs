//! The pairs of strings: contents and changes, made by a fixed generator.

/// A linear congruential generator modulo 2^64.
pub struct Random(u64);

impl Random {
    pub fn new(seed: u64) -> Random {
        let mut random = Random(seed);
        for _ in 0..4 {
            random.next();
        }
        random
    }

    /// The highest 32 bits of two steps.
    pub fn next(&mut self) -> u64 {
        let mut step = || {
            self.0 = self
                .0
                .wrapping_mul(6_364_136_223_846_793_005)
                .wrapping_add(1_442_695_040_888_963_407);
            self.0 >> 32
        };
        step() << 32 | step()
    }

    pub fn below(&mut self, bound: usize) -> usize {
        (self.next() % bound as u64) as usize
    }
}

pub const CONTENTS: [&str; 4] = ["samples", "preallocated", "random", "log"];

pub const CHANGES: [&str; 8] = [
    "equal",
    "one byte changed",
    "one byte inserted",
    "200 bytes inserted",
    "200 bytes deleted",
    "200 bytes moved",
    "ten bytes changed",
    "different",
];

/// Bytes of a stretch that is inserted, deleted or moved.
const STRETCH: usize = 200;

/// Samples of 12 bits in 16, each at most 3 from the one before.
fn samples(random: &mut Random, length: usize) -> Vec<u8> {
    let mut level = 2_048 + random.below(1_024) as i64;
    let mut bytes = Vec::with_capacity(length + 2);
    while bytes.len() < length {
        level = (level + random.below(7) as i64 - 3).clamp(0, 4_095);
        bytes.extend((level as u16).to_be_bytes());
    }
    bytes.truncate(length);
    bytes
}

/// A quarter of samples, then zeros.
fn preallocated(random: &mut Random, length: usize) -> Vec<u8> {
    let mut bytes = samples(random, length / 4);
    bytes.resize(length, 0);
    bytes
}

/// Lines of text with counters.
fn log(random: &mut Random, length: usize) -> Vec<u8> {
    let (mut second, mut blocks, mut retries) = (random.below(1_000_000), 0, 0);
    let mut bytes = Vec::with_capacity(length + 80);
    while bytes.len() < length {
        second += 1 + random.below(9);
        blocks += random.below(100);
        retries += usize::from(random.below(10) == 0);
        let channel = random.below(8);
        let line = format!("{second:08} channel {channel}: {blocks} blocks, {retries} retries\n");
        bytes.extend(line.bytes());
    }
    bytes.truncate(length);
    bytes
}

/// A string of a content.
pub fn content(name: &str, random: &mut Random, length: usize) -> Vec<u8> {
    match name {
        "samples" => samples(random, length),
        "preallocated" => preallocated(random, length),
        "random" => (0..length).map(|_| random.next() as u8).collect(),
        "log" => log(random, length),
        _ => panic!("no content {name}"),
    }
}

/// How many bytes at the front of a string a change may lie in: the filled ones.
pub fn filled(name: &str, length: usize) -> usize {
    match name {
        "preallocated" => length / 4,
        _ => length,
    }
}

/// Changes so many bytes, each to another value.
fn scatter(string: &mut [u8], name: &str, random: &mut Random, bytes: usize) {
    for _ in 0..bytes {
        let at = random.below(filled(name, string.len()));
        string[at] = string[at].wrapping_add(1 + random.below(255) as u8);
    }
}

/// Puts a stretch somewhere.
fn insert(string: &mut Vec<u8>, name: &str, random: &mut Random, stretch: &[u8]) {
    let at = random.below(filled(name, string.len()) + 1);
    string.splice(at..at, stretch.iter().copied());
}

/// Takes a stretch out.
fn delete(string: &mut Vec<u8>, name: &str, random: &mut Random) -> Vec<u8> {
    let at = random.below(filled(name, string.len()) - STRETCH + 1);
    string.drain(at..at + STRETCH).collect()
}

/// The sender's string and the receiver's, which the change makes the sender's. The longer one has
/// `length` bytes.
pub fn pair(name: &str, change: &str, length: usize, seed: u64) -> (Vec<u8>, Vec<u8>) {
    let mut random = Random::new(seed);
    let inserted = match change {
        "one byte inserted" => 1,
        "200 bytes inserted" => STRETCH,
        _ => 0,
    };
    let own = content(name, &mut random, length - inserted);
    let mut string = own.clone();
    match change {
        "equal" => {}
        "one byte changed" => scatter(&mut string, name, &mut random, 1),
        "one byte inserted" | "200 bytes inserted" => {
            // The last bytes of four times as many: text too is then not always a line's start.
            let kind = if name == "preallocated" {
                "samples"
            } else {
                name
            };
            let stretch = content(kind, &mut random, 4 * inserted);
            insert(&mut string, name, &mut random, &stretch[3 * inserted..]);
        }
        "200 bytes deleted" => drop(delete(&mut string, name, &mut random)),
        "200 bytes moved" => {
            let stretch = delete(&mut string, name, &mut random);
            insert(&mut string, name, &mut random, &stretch);
        }
        "ten bytes changed" => scatter(&mut string, name, &mut random, 10),
        "different" => string = content(name, &mut random, length),
        _ => panic!("no change {change}"),
    }
    (string, own)
}
