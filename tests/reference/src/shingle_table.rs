//! The shingle table: a list of shingles as bytes.

use crate::row::number;
use crate::shingle::Shingle;

/// Two ids and the tail, 8 bytes each.
pub const ENTRY_BYTES: usize = 24;

/// "A shingle ... is previous id, own id, level, count."
///
/// Three rows of 64 bits, most significant byte first: previous id, own id, and the tail, which is
/// "level × 65,536 + count".
pub fn entry(shingle: &Shingle) -> [u8; 24] {
    let mut bytes = [0; 24];
    bytes[..8].copy_from_slice(&shingle.previous.to_be_bytes());
    bytes[8..16].copy_from_slice(&shingle.own.to_be_bytes());
    bytes[16..].copy_from_slice(&shingle.tail().to_be_bytes());
    bytes
}

/// The shingle that 24 bytes are: "other entries are read as given".
///
/// Any 24 bytes are one. Its level is the third row / 65,536 rounded down, its count the third row
/// mod 65,536.
pub fn shingle(entry: &[u8]) -> Shingle {
    let tail = number(&entry[16..24]);
    Shingle {
        level: tail / 65_536,
        previous: number(&entry[..8]),
        own: number(&entry[8..16]),
        count: tail % 65_536,
    }
}

/// "An accepted opening leaves the new list in the shingle table, zero past its end." And of a
/// setup: "After a yes, entries past the last used are zero."
///
/// The entries in order from the first byte on, and zero in every byte lent after them. For a
/// table long enough for the list.
pub fn write(list: &[Shingle], table: &mut [u8]) {
    let mut content = Vec::new();
    for shingle in list {
        content.extend(entry(shingle));
    }
    assert!(content.len() <= table.len());
    content.resize(table.len(), 0);
    table.copy_from_slice(&content);
}

/// "A node table is read up to its first id 0, a shingle table up to its first count 0."
///
/// Where no count is 0, all whole entries that are lent.
pub fn read(table: &[u8]) -> Vec<Shingle> {
    let mut list = Vec::new();
    for entry in table.chunks_exact(ENTRY_BYTES) {
        let shingle = shingle(entry);
        if shingle.count == 0 {
            break;
        }
        list.push(shingle);
    }
    list
}
