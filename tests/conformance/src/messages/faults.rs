//! The comparison tested: one function that is right, and many that are wrong in one place each.
//! Every wrong one must be found, and the right one must pass a quarter of the cases.
//!
//! The right one goes over the words by their places.

use super::cases::count;
use super::compare::MessageType;
use super::report::run;
use crate::lent::part;
use std::ops::Range;

const NONE: u8 = 0;
const FIRST_PART_9_BITS: u8 = 1;
const FIRST_PART_ANY: u8 = 2;
const FIRST_PART_OF_IDS_ONLY: u8 = 3;
const END_NOT_COUNTED: u8 = 4;
const END_COUNTS_BYTES: u8 = 5;
const END_NOT_ASKED: u8 = 6;
const END_LOW_16_BITS: u8 = 7;
const SHORT_WORD_IN_THE_MIDDLE: u8 = 8;
const UNUSED_BYTES_NOT_0: u8 = 9;
const LAST_UNUSED_BYTE_NOT_0: u8 = 10;
const HOW_MANY_0: u8 = 11;
const BYTES_ZERO_BITS: u8 = 12;
const COUNT_33: u8 = 13;
const COUNT_0: u8 = 14;
const COUNT_32_REFUSED: u8 = 15;
const REFERENCE_ZERO_BITS: u8 = 16;
const ORDER_NOT_ASKED: u8 = 17;
const EQUAL_INDEX_TAKEN: u8 = 18;
const INDEX_TWICE_ALONE: u8 = 19;
const INDEX_TWICE_BESIDE_ITSELF: u8 = 20;
const COMPARED_WITH_THE_FIRST: u8 = 21;
const WHOLE_WORDS_COMPARED: u8 = 22;
const COUNTS_COMPARED: u8 = 23;
const INDEX_LOW_8_BITS: u8 = 24;
const INDEX_LOW_11_BITS: u8 = 25;
const NEXT_INDEX_12_BITS: u8 = 26;
const FIRST_TWO_COMPARED: u8 = 27;
const LAST_REFERENCE_NOT_COMPARED: u8 = 28;
const FALLING_ASKED: u8 = 29;
const RISING_BY_1: u8 = 30;
const FIRST_INDEX_0: u8 = 31;
const INDEX_0_REFUSED: u8 = 32;
const LAST_INDEX_REFUSED: u8 = 33;
const ONE_CELL_FEWER: u8 = 34;
const ONE_CELL_MORE: u8 = 35;
const WHOLE_CELLS_ANY_NUMBER: u8 = 36;
const WIDTH_16_BITS: u8 = 37;
const WIDTH_65: u8 = 38;
const WIDTH_0_REFUSED: u8 = 39;
const RULE_3_ONLY: u8 = 40;
const TRAILING_WORD: u8 = 41;
const TRAILING_BYTES: u8 = 42;
const TYPE_7: u8 = 43;
const TYPE_0: u8 = 44;
const TYPE_3_BITS: u8 = 45;
const SESSION_0_REFUSED: u8 = 46;
const NUMBER_4096_REFUSED: u8 = 47;
const LEVEL_5_REFUSED: u8 = 48;
const NO_REFERENCE_REFUSED: u8 = 49;
const NO_BYTES_REFUSED: u8 = 50;
const LONG_LITERAL_REFUSED: u8 = 51;
const NUMBER_FOR_A_PART: u8 = 52;
const NUMBER_KIND_NOT_ASKED: u8 = 53;
const KIND_3_BITS: u8 = 54;
const LOW_BYTE_FIRST: u8 = 55;
const EMPTY_ACCEPTED: u8 = 56;
const NONE_AS_A_QUERY: u8 = 57;
const MESSAGE_CHANGED: u8 = 58;
const PAST_THE_MESSAGE: u8 = 59;
const REFUSED_BY_11: u8 = 60;
const NUMBER_ALWAYS_WANTED: u8 = 61;
const NUMBER_NEVER_TAKEN: u8 = 62;
const NUMBER_0_NOT_TAKEN: u8 = 63;
const TWO_NUMBERS_TAKEN: u8 = 64;
const EQUAL_NUMBERS_TAKEN: u8 = 65;
const NUMBER_AFTER_REFERENCES_TAKEN: u8 = 66;
const NUMBERS_ANYWHERE_TAKEN: u8 = 67;
const OMITTED_WITHOUT_REFERENCES_REFUSED: u8 = 68;
const OMITTED_ONE_REFERENCE_REFUSED: u8 = 69;
const FIRST_WORD_TAKEN_FOR_A_NUMBER: u8 = 70;
const FIRST_TWO_NOT_COMPARED_WHEN_OMITTED: u8 = 71;
const FIRST_REFERENCE_NOT_LOOKED_AT_WHEN_OMITTED: u8 = 72;
const RULE_2_REFUSED: u8 = 73;

/// The words of a message, with the fault of the function that reads them.
struct Words {
    fault: u8,
    words: Vec<u32>,
}

impl Words {
    fn has(&self, fault: u8) -> bool {
        self.fault == fault
    }

    fn kind(&self, place: usize) -> u32 {
        match self.words.get(place) {
            Some(word) if self.has(KIND_3_BITS) => word >> 28 & 7,
            Some(word) => word >> 28,
            None => 0,
        }
    }

    fn rest(&self, place: usize) -> u32 {
        self.words[place] & 0xfff_ffff
    }

    fn is_number(&self, place: usize) -> bool {
        self.kind(place) == 2 || self.has(NUMBER_KIND_NOT_ASKED) && self.kind(place) == 3
    }

    /// Whether the three words from here on are a value.
    fn is_value(&self, place: usize) -> bool {
        let most = match self.fault {
            FIRST_PART_9_BITS => 511,
            FIRST_PART_ANY => u32::MAX,
            FIRST_PART_OF_IDS_ONLY if place > 8 => u32::MAX,
            _ => 255,
        };
        let part = |at| self.kind(at) == 3 || self.has(NUMBER_FOR_A_PART) && self.kind(at) == 2;
        (place..place + 3).all(part) && self.rest(place) <= most
    }

    fn is_node(&self) -> bool {
        let level = self.is_number(1) && !(self.has(LEVEL_5_REFUSED) && self.rest(1) >= 5);
        level && self.is_value(2)
    }

    fn is_opening(&self, end: usize) -> bool {
        if end < 11 || !(1..8).all(|place| self.is_number(place)) || !self.is_value(8) {
            return false;
        }
        let width = self.rest(6) as usize;
        let more = end - 11;
        let right = match self.fault {
            ONE_CELL_FEWER => more == 45 * width || more + 15 == 45 * width,
            ONE_CELL_MORE => more == 45 * width || more == 45 * width + 15,
            WHOLE_CELLS_ANY_NUMBER => more % 15 == 0,
            WIDTH_16_BITS => more == 45 * (width % 65_536),
            WIDTH_65 => more == 45 * width && width < 65,
            WIDTH_0_REFUSED => more == 45 * width && width > 0,
            RULE_3_ONLY => more == 45 * width && self.rest(1) == 3,
            RULE_2_REFUSED => more == 45 * width && self.rest(1) != 2,
            _ => more == 45 * width,
        };
        right
            && (11..end)
                .step_by(3)
                .all(|place| place + 3 <= end && self.is_value(place))
    }

    fn is_reference(&self, place: usize) -> bool {
        let rest = self.rest(place);
        let (least, most) = match self.fault {
            COUNT_33 => (1, 33),
            COUNT_0 => (0, 32),
            COUNT_32_REFUSED => (1, 31),
            _ => (1, 32),
        };
        let zero_bits = rest >> 18 == 0 || self.has(REFERENCE_ZERO_BITS);
        self.kind(place) == 4 && zero_bits && (least..=most).contains(&(rest & 63))
    }

    /// The places of a composition's references, if its number words are right.
    fn references(&self, end: usize) -> Option<Range<usize>> {
        if !self.is_node() || end < 5 {
            return None;
        }
        let number = |place: usize| place < end && self.is_number(place);
        let carries = number(5);
        let first = match self.fault {
            NUMBER_ALWAYS_WANTED if !carries => return None,
            NUMBER_NEVER_TAKEN => 5,
            NUMBER_0_NOT_TAKEN if carries && self.rest(5) == 0 => 5,
            TWO_NUMBERS_TAKEN if carries && number(6) => 7,
            EQUAL_NUMBERS_TAKEN if carries && number(6) && self.rest(5) == self.rest(6) => 7,
            FIRST_WORD_TAKEN_FOR_A_NUMBER if end > 5 => 6,
            _ => 5 + usize::from(carries),
        };
        let after = first < end && number(end - 1);
        let last = match self.fault {
            NUMBER_AFTER_REFERENCES_TAKEN if after => end - 1,
            _ => end,
        };
        let refused = match self.fault {
            NUMBER_4096_REFUSED => carries && self.rest(5) > 4_095,
            NO_REFERENCE_REFUSED => first == last,
            OMITTED_WITHOUT_REFERENCES_REFUSED => end == 5,
            OMITTED_ONE_REFERENCE_REFUSED => !carries && end == 6,
            _ => false,
        };
        (!refused).then_some(first..last)
    }

    fn is_composition(&self, end: usize) -> bool {
        let Some(Range { start, end }) = self.references(end) else {
            return false;
        };
        let ends_right = match self.fault {
            FIRST_INDEX_0 => end == start || self.index(start) == 0,
            INDEX_0_REFUSED => end == start || self.index(start) > 0,
            LAST_INDEX_REFUSED => end == start || self.index(end - 1) < 4_095,
            _ => true,
        };
        let looked_at = match self.fault {
            FIRST_REFERENCE_NOT_LOOKED_AT_WHEN_OMITTED => start.max(6),
            _ => start,
        };
        let compared = match self.fault {
            FIRST_TWO_NOT_COMPARED_WHEN_OMITTED => 7,
            _ => start + 1,
        };
        let passed_over = |place: usize| self.has(NUMBERS_ANYWHERE_TAKEN) && self.is_number(place);
        (looked_at..end).all(|place| self.is_reference(place) || passed_over(place))
            && (compared..end).all(|place| passed_over(place) || self.rises(place, start, end))
            && ends_right
    }

    fn index(&self, place: usize) -> u32 {
        self.rest(place) >> 6 & 4_095
    }

    /// Whether the reference of this place has an index above that of the one before it; the references
    /// stand from the start to the end.
    fn rises(&self, place: usize, start: usize, end: usize) -> bool {
        let (before, index) = (self.index(place - 1), self.index(place));
        let count = |place: usize| self.rest(place) & 63;
        match self.fault {
            ORDER_NOT_ASKED => true,
            EQUAL_INDEX_TAKEN => before <= index,
            INDEX_TWICE_ALONE => (start..place).all(|other| self.index(other) != index),
            INDEX_TWICE_BESIDE_ITSELF => before != index,
            COMPARED_WITH_THE_FIRST => self.index(start) < index,
            WHOLE_WORDS_COMPARED => self.rest(place - 1) < self.rest(place),
            COUNTS_COMPARED => count(place - 1) < count(place),
            INDEX_LOW_8_BITS => before % 256 < index % 256,
            INDEX_LOW_11_BITS => before % 2_048 < index % 2_048,
            // After 4,095 the next may be any.
            NEXT_INDEX_12_BITS => (before + 1) % 4_096 <= index,
            FIRST_TWO_COMPARED => before < index || place > start + 1,
            LAST_REFERENCE_NOT_COMPARED => before < index || place + 1 == end,
            FALLING_ASKED => before > index,
            RISING_BY_1 => before + 1 == index,
            _ => before < index,
        }
    }

    fn is_bytes(&self, place: usize, last: bool) -> bool {
        let rest = self.rest(place);
        let how_many = rest >> 24 & 3;
        let unused = rest & (0xff_ffff >> (8 * how_many));
        let unused_right = match self.fault {
            UNUSED_BYTES_NOT_0 => true,
            LAST_UNUSED_BYTE_NOT_0 => unused >> 8 == 0,
            _ => unused == 0,
        };
        let full = how_many == 3 || last || self.has(SHORT_WORD_IN_THE_MIDDLE);
        let zero_bits = rest >> 26 == 0 || self.has(BYTES_ZERO_BITS);
        let some = how_many > 0 || self.has(HOW_MANY_0);
        self.kind(place) == 5 && zero_bits && some && unused_right && full
    }

    fn is_literal(&self, end: usize) -> bool {
        let refused = self.has(NO_BYTES_REFUSED) && end == 5
            || self.has(LONG_LITERAL_REFUSED) && end > 5 + 65_536 / 3 + 1;
        let bytes = || (5..end).all(|place| self.is_bytes(place, place + 1 == end));
        end >= 5 && self.is_node() && !refused && bytes()
    }

    /// The type of the message whose words these are, or 0.
    fn message_type(&self) -> u32 {
        let count = self.words.len();
        if count < 2 || self.kind(0) != 1 {
            return 0;
        }
        let end = count - 1;
        let said = self.rest(end) as usize;
        let end_right = match self.fault {
            END_NOT_COUNTED => said + 1 == count,
            END_COUNTS_BYTES => said == 4 * count,
            END_NOT_ASKED => true,
            END_LOW_16_BITS => said % 65_536 == count % 65_536,
            _ => said == count,
        };
        let session_refused = self.has(SESSION_0_REFUSED) && self.rest(0) & 0xff_ffff == 0;
        if self.kind(end) != 6 || !end_right || session_refused {
            return 0;
        }
        let message_type = match self.rest(0) >> 24 {
            head if self.has(TYPE_3_BITS) => head & 7,
            7 if self.has(TYPE_7) => 6,
            0 if self.has(TYPE_0) => 1,
            head => head,
        };
        let right = match message_type {
            1 => end == 1,
            2 => end == 5 && self.is_node(),
            3 => self.is_opening(end),
            4 => self.is_composition(end),
            5 => self.is_literal(end),
            6 => end == 5 && self.is_node(),
            _ => false,
        };
        match message_type {
            6 if right && self.has(NONE_AS_A_QUERY) => 2,
            _ if right => message_type,
            _ => 0,
        }
    }
}

/// `rcds_message_type` with one fault.
fn answer(fault: u8, message: &[u8]) -> u64 {
    if message.is_empty() && fault == EMPTY_ACCEPTED {
        return 1 << 32;
    }
    if message.len() % 4 != 0 && fault != TRAILING_BYTES {
        return 10;
    }
    let word = |word: &[u8]| {
        let bytes = word.try_into().expect("a word has 4 bytes");
        match fault {
            LOW_BYTE_FIRST => u32::from_le_bytes(bytes),
            _ => u32::from_be_bytes(bytes),
        }
    };
    let mut words = Words {
        fault,
        words: message.chunks_exact(4).map(word).collect(),
    };
    if fault == TRAILING_WORD {
        let said = words.words.iter().position(|word| word >> 28 == 6);
        words.words.truncate(said.map_or(0, |end| end + 1));
    }
    match words.message_type() {
        0 if fault == REFUSED_BY_11 => 11,
        0 => 10,
        message_type => (1 << 32) + u64::from(message_type),
    }
}

/// The function with one fault, as C would call it.
unsafe extern "C" fn faulty<const FAULT: u8>(message: *const u8, message_len: usize) -> u64 {
    let answer = answer(FAULT, part(message, message_len));
    // The guard bytes and the message come from a vector, so these writes stay in its memory.
    match FAULT {
        MESSAGE_CHANGED if message_len > 0 => *message.cast_mut() ^= 1,
        PAST_THE_MESSAGE if message_len > 0 => *message.cast_mut().add(message_len) ^= 1,
        _ => {}
    }
    answer
}

macro_rules! functions {
    ($($fault:ident)*) => { [$((stringify!($fault), faulty::<$fault> as MessageType)),*] };
}

const SEED: u64 = 1;

#[test]
fn the_right_function_passes() {
    match run(SEED, count() / 4, faulty::<NONE>) {
        Ok(report) => report.assert_complete(),
        Err(failure) => panic!("{failure}"),
    }
}

#[test]
fn every_fault_is_found() {
    let functions = functions! {
        FIRST_PART_9_BITS FIRST_PART_ANY FIRST_PART_OF_IDS_ONLY END_NOT_COUNTED END_COUNTS_BYTES
        END_NOT_ASKED END_LOW_16_BITS SHORT_WORD_IN_THE_MIDDLE UNUSED_BYTES_NOT_0
        LAST_UNUSED_BYTE_NOT_0 HOW_MANY_0 BYTES_ZERO_BITS COUNT_33 COUNT_0 COUNT_32_REFUSED
        REFERENCE_ZERO_BITS ORDER_NOT_ASKED EQUAL_INDEX_TAKEN INDEX_TWICE_ALONE
        INDEX_TWICE_BESIDE_ITSELF COMPARED_WITH_THE_FIRST WHOLE_WORDS_COMPARED COUNTS_COMPARED
        INDEX_LOW_8_BITS INDEX_LOW_11_BITS NEXT_INDEX_12_BITS FIRST_TWO_COMPARED
        LAST_REFERENCE_NOT_COMPARED FALLING_ASKED RISING_BY_1 FIRST_INDEX_0 INDEX_0_REFUSED
        LAST_INDEX_REFUSED ONE_CELL_FEWER ONE_CELL_MORE WHOLE_CELLS_ANY_NUMBER WIDTH_16_BITS
        WIDTH_65 WIDTH_0_REFUSED RULE_3_ONLY RULE_2_REFUSED TRAILING_WORD TRAILING_BYTES TYPE_7 TYPE_0 TYPE_3_BITS
        SESSION_0_REFUSED NUMBER_4096_REFUSED LEVEL_5_REFUSED NO_REFERENCE_REFUSED NO_BYTES_REFUSED
        LONG_LITERAL_REFUSED NUMBER_FOR_A_PART NUMBER_KIND_NOT_ASKED KIND_3_BITS LOW_BYTE_FIRST
        EMPTY_ACCEPTED NONE_AS_A_QUERY MESSAGE_CHANGED PAST_THE_MESSAGE REFUSED_BY_11
        NUMBER_ALWAYS_WANTED NUMBER_NEVER_TAKEN NUMBER_0_NOT_TAKEN TWO_NUMBERS_TAKEN
        EQUAL_NUMBERS_TAKEN NUMBER_AFTER_REFERENCES_TAKEN NUMBERS_ANYWHERE_TAKEN
        OMITTED_WITHOUT_REFERENCES_REFUSED OMITTED_ONE_REFERENCE_REFUSED
        FIRST_WORD_TAKEN_FOR_A_NUMBER FIRST_TWO_NOT_COMPARED_WHEN_OMITTED
        FIRST_REFERENCE_NOT_LOOKED_AT_WHEN_OMITTED
    };
    for (name, function) in functions {
        match run(SEED, count(), function) {
            Ok(_) => panic!("{name} passed"),
            Err(failure) => println!("{name}: {failure}"),
        }
    }
}
