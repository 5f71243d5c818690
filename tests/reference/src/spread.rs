//! The numbers that stand for bytes where a window is read: the constant table of rule 3 (document 02, request 12).

use crate::fnv::fnv1a;

/// "a constant table of 256 numbers": one for each byte.
pub const ENTRIES: usize = 256;

/// "modulo 65,521"
pub const PRIME: u64 = 65_521;

/// "each byte b is replaced by entry b of a constant table of 256 numbers: FNV-1a of the single byte b, modulo 65,521"
///
/// A block id is never 0, by a rule of its own that has no part here.
pub fn entry(byte: u8) -> u64 {
    fnv1a(&[byte]) % PRIME
}

/// The whole table, "from entry 0".
pub fn table() -> [u64; ENTRIES] {
    std::array::from_fn(|byte| entry(byte as u8))
}
