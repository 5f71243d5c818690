//! The numbers that stand for bytes in windows: once right, and with one fault each. "each byte b is replaced by entry
//! b of a constant table of 256 numbers: FNV-1a of the single byte b, modulo 65,521" (document 02, request 12).

use reference::fnv::{BASIS, PRIME as FNV_PRIME};
use std::cell::Cell;

/// "modulo 65,521"
const PRIME: u64 = 65_521;

/// FNV-1a with 32 bits.
const BASIS_OF_32_BITS: u32 = 2_166_136_261;
const PRIME_OF_32_BITS: u32 = 16_777_619;

/// What a byte does in a window that slides: it stands in the first one of a block, leaves, or enters.
#[derive(Clone, Copy, PartialEq, Eq)]
pub enum Part {
    First,
    Leaves,
    Enters,
}

// Windows slide with these faults too.
/// Bytes are read as they are.
pub const RULE_2: u8 = 110;
pub const RULE_2_AT_THE_TOP: u8 = 111;
pub const RULE_2_BELOW: u8 = 112;
pub const RULE_2_OF_WINDOWS_OF_12: u8 = 113;
pub const FIRST_WINDOW_NOT_SPREAD: u8 = 114;
pub const LEAVES_NOT_SPREAD: u8 = 115;
pub const ENTERS_NOT_SPREAD: u8 = 116;
pub const LEAVES_SPREAD_TWICE: u8 = 117;
pub const SPREAD_TWICE: u8 = 118;
/// The byte comes after the multiplication.
pub const FNV_1: u8 = 119;
pub const FNV_OF_32_BITS: u8 = 120;
pub const NO_BASIS: u8 = 121;
/// The entries are not reduced, and what is worked out of them wraps around.
pub const TABLE_OF_IDS: u8 = 122;
pub const MODULO_65519: u8 = 123;
pub const MODULO_65536: u8 = 124;
pub const MODULO_65537: u8 = 125;
/// Entries are made digits of base 257, or bytes.
pub const DIGITS_OF_BASE_257: u8 = 126;
pub const LOW_BYTES: u8 = 127;
/// Entries of more than 15 bits are taken for negative numbers.
pub const ENTRIES_SIGNED: u8 = 128;
pub const TABLE_FROM_1: u8 = 129;
pub const TABLE_FROM_THE_LAST: u8 = 130;
pub const SEVEN_BITS_OF_A_BYTE: u8 = 131;
pub const ZERO_NOT_SPREAD: u8 = 132;
pub const ENTRIES_0_AND_255_EXCHANGED: u8 = 133;
pub const ENTRIES_127_AND_128_EXCHANGED: u8 = 134;
/// A block's id is that of its entries.
pub const IDS_OF_ENTRIES: u8 = 135;
/// One entry is wrong, that of `WRONG`: everywhere, where its byte leaves, or where it does not.
pub const ENTRY_WRONG: u8 = 136;
pub const ENTRY_WRONG_WHERE_IT_LEAVES: u8 = 137;
pub const ENTRY_WRONG_WHERE_IT_ENTERS: u8 = 138;
/// It is exchanged with the next one.
pub const ENTRY_AND_THE_NEXT_EXCHANGED: u8 = 139;

thread_local! {
    /// The entry that is wrong, for the calls of this thread.
    pub static WRONG: Cell<u8> = const { Cell::new(0) };
}

/// 64-bit FNV-1a of the single byte.
fn fnv1a_of_one(byte: u8) -> u64 {
    (BASIS ^ u64::from(byte)).wrapping_mul(FNV_PRIME)
}

/// The entry of a byte.
pub fn entry(byte: u8) -> u64 {
    fnv1a_of_one(byte) % PRIME
}

/// The byte whose entry is taken for this one's where two entries are exchanged.
fn exchanged(byte: u8, [one, other]: [u8; 2]) -> u8 {
    match byte {
        _ if byte == one => other,
        _ if byte == other => one,
        _ => byte,
    }
}

/// What stands for a byte in its part of a window, where a fault is in that part or in one entry alone.
fn of_part(fault: u8, part: Part, byte: u8) -> Option<u64> {
    let wrong = WRONG.get();
    let leaves = part == Part::Leaves;
    match fault {
        FIRST_WINDOW_NOT_SPREAD if part == Part::First => Some(u64::from(byte)),
        LEAVES_NOT_SPREAD if leaves => Some(u64::from(byte)),
        ENTERS_NOT_SPREAD if part == Part::Enters => Some(u64::from(byte)),
        LEAVES_SPREAD_TWICE if leaves => Some(entry(entry(byte) as u8)),
        ENTRY_WRONG if byte == wrong => Some(entry(byte) + 1),
        ENTRY_WRONG_WHERE_IT_LEAVES if byte == wrong && leaves => Some(entry(byte) + 1),
        ENTRY_WRONG_WHERE_IT_ENTERS if byte == wrong && !leaves => Some(entry(byte) + 1),
        ENTRY_AND_THE_NEXT_EXCHANGED => {
            Some(entry(exchanged(byte, [wrong, wrong.wrapping_add(1)])))
        }
        _ => None,
    }
}

/// FNV-1a with 32 bits of the single byte.
fn fnv1a_of_32_bits(byte: u8) -> u64 {
    u64::from((BASIS_OF_32_BITS ^ u32::from(byte)).wrapping_mul(PRIME_OF_32_BITS))
}

/// What a table has for a byte.
fn of_table(fault: u8, byte: u8) -> u64 {
    match fault {
        RULE_2 => u64::from(byte),
        SPREAD_TWICE => entry(entry(byte) as u8),
        FNV_1 => (BASIS.wrapping_mul(FNV_PRIME) ^ u64::from(byte)) % PRIME,
        FNV_OF_32_BITS => fnv1a_of_32_bits(byte) % PRIME,
        NO_BASIS => u64::from(byte) * FNV_PRIME % PRIME,
        TABLE_OF_IDS => fnv1a_of_one(byte),
        MODULO_65519 => fnv1a_of_one(byte) % 65_519,
        MODULO_65536 => fnv1a_of_one(byte) % 65_536,
        MODULO_65537 => fnv1a_of_one(byte) % 65_537,
        DIGITS_OF_BASE_257 => entry(byte) % 257,
        LOW_BYTES => entry(byte) % 256,
        ENTRIES_SIGNED => i64::from(entry(byte) as i16).rem_euclid(PRIME as i64) as u64,
        TABLE_FROM_1 => entry(byte.wrapping_sub(1)),
        TABLE_FROM_THE_LAST => entry(255 - byte),
        SEVEN_BITS_OF_A_BYTE => entry(byte % 128),
        ZERO_NOT_SPREAD if byte == 0 => 0,
        ENTRIES_0_AND_255_EXCHANGED => entry(exchanged(byte, [0, 255])),
        ENTRIES_127_AND_128_EXCHANGED => entry(exchanged(byte, [127, 128])),
        _ => entry(byte),
    }
}

/// What stands for a byte in its part of a window.
pub fn number(fault: u8, part: Part, byte: u8) -> u64 {
    of_part(fault, part, byte).unwrap_or_else(|| of_table(fault, byte))
}

/// The fault of a cutting at this level, by windows of w bytes.
pub fn fault_of(fault: u8, level: u64, w: usize) -> u8 {
    match fault {
        RULE_2_AT_THE_TOP if level == 1 => RULE_2,
        RULE_2_BELOW if level > 1 => RULE_2,
        RULE_2_OF_WINDOWS_OF_12 if w == 12 => RULE_2,
        _ => fault,
    }
}
