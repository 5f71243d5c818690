//! A row of a table: 64 bits, most significant byte first.

/// The number that the bytes of a row are.
pub fn number(bytes: &[u8]) -> u64 {
    let mut number = 0;
    for &byte in bytes {
        number = number << 8 | u64::from(byte);
    }
    number
}
