//! FNV-1a with 64 bits, and block ids.

/// "basis 14695981039346656037"
pub const BASIS: u64 = 14_695_981_039_346_656_037;

/// "prime 1099511628211"
pub const PRIME: u64 = 1_099_511_628_211;

/// FNV-1a of the bytes.
pub fn fnv1a(bytes: &[u8]) -> u64 {
    fnv1a_from(BASIS, bytes)
}

/// FNV-1a going on from a value that earlier bytes have led to.
///
/// "multiplication modulo 2^64"
pub fn fnv1a_from(value: u64, bytes: &[u8]) -> u64 {
    let mut value = value;
    for &byte in bytes {
        value ^= u64::from(byte);
        value = value.wrapping_mul(PRIME);
    }
    value
}

/// "Block id: 64-bit FNV-1a of its bytes ...; if that is 0, the id is 1."
pub fn block_id(bytes: &[u8]) -> u64 {
    match fnv1a(bytes) {
        0 => 1,
        value => value,
    }
}
