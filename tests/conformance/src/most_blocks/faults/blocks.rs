//! `rcds_most_blocks` with one fault.

use super::*;

/// Places for cuts h apart: the first h from the start, each next one h further on, as long as h and a window come after
/// it. 31 of them at most.
fn cuts(n: u64, w: u64, h: u64) -> u64 {
    let (mut cuts, mut place) = (0, h);
    while cuts < 31 && place + h + w <= n {
        cuts += 1;
        place += h;
    }
    cuts
}

/// The quotient of n−w and h, in which some faults are.
fn quotient(fault: u8, [n, w, h]: [i128; 3]) -> i128 {
    match fault {
        ROUNDED_UP => (n - w + h - 1).div_euclid(h),
        ROUNDED_TO_THE_NEAREST => (2 * (n - w) + h).div_euclid(2 * h),
        WINDOW_IGNORED => n / h,
        WINDOW_TWICE => (n - 2 * w).div_euclid(h),
        WINDOWS_COUNTED => (n - w + 1).div_euclid(h),
        ONE_WINDOW_FEWER => (n - w - 1).div_euclid(h),
        DISTANCE_AND_1 => (n - w).div_euclid(h + 1),
        DISTANCE_LESS_BY_1 => (n - w).div_euclid((h - 1).max(1)),
        DISTANCE_TWICE => (n - w).div_euclid(2 * h),
        DISTANCE_IN_15_BITS => (n - w).div_euclid((h % 32_768).max(1)),
        LENGTH_IN_16_BITS => (n % 65_536 - w).div_euclid(h),
        DIFFERENCE_WRAPS => (n - w).rem_euclid(1 << 64).div_euclid(h),
        DIFFERENCE_WITHOUT_SIGN => (n - w).abs().div_euclid(h),
        ROOM_BY_REQUEST_7 => (n - w + 2).div_euclid(h + 1),
        CUTS_BY_REQUEST_7 => (n - w + 2).div_euclid(h + 1) - 1,
        WHOLE_BLOCKS_AND_A_REST => (n + h - 1).div_euclid(h),
        STEPS_OF_H_AND_W => n.div_euclid(h + w),
        DISTANCES_OF_THE_STRING => (n - h).div_euclid(h),
        ENDS_LEFT_OUT => (n - w - 2 * h).div_euclid(h),
        ONE_BLOCK_MORE => (n - w).div_euclid(h) + 1,
        CUTS_COUNTED => (n - w).div_euclid(h) - 1,
        _ => (n - w).div_euclid(h),
    }
}

/// How many blocks there are at most. A function that takes an h of 0 divides by 1.
fn bound(fault: u8, [n, w, h]: [u64; 3]) -> u64 {
    let h = h.max(1);
    match fault {
        NONE => return 1 + cuts(n, w, h),
        ZERO_FILE_COUNTED => return 1,
        ZERO_FILE_COUNTED_FROM_32 if cuts(n, w, h) == 31 => return 1,
        ALWAYS_32 => return 32,
        _ => {}
    }
    let quotient = quotient(fault, [n, w, h].map(i128::from));
    let least = match fault {
        AT_LEAST_0 => 0,
        AT_LEAST_2 => 2,
        _ => 1,
    };
    let most = match fault {
        ANY_NUMBER_OF_BLOCKS => i128::MAX,
        AT_MOST_31 => 31,
        AT_MOST_33 => 33,
        _ => 32,
    };
    quotient.max(least).min(most) as u64
}

/// What a function that does not look at all bits makes of n, w and h.
fn looked_at(fault: u8, [n, w, h]: [u64; 3]) -> [u64; 3] {
    match fault {
        N_IN_16_BITS => [n & 0xffff, w, h],
        N_IN_32_BITS => [n & 0xffff_ffff, w, h],
        WINDOW_IN_8_BITS => [n, w & 0xff, h],
        WINDOW_IN_32_BITS => [n, w & 0xffff_ffff, h],
        DISTANCE_IN_16_BITS => [n, w, h & 0xffff],
        DISTANCE_IN_32_BITS => [n, w, h & 0xffff_ffff],
        _ => [n, w, h],
    }
}

/// Whether w, h or n is not allowed.
fn is_refused(fault: u8, [n, w, h]: [u64; 3]) -> bool {
    let windows = match fault {
        WINDOW_1_TAKEN => 1..=12,
        WINDOW_0_TAKEN if w == 0 => 0..=12,
        WINDOW_SIGNED if w >> 63 == 1 => 2..=u64::MAX,
        WINDOW_13_TAKEN => 2..=13,
        WINDOW_2_REFUSED => 3..=12,
        WINDOW_12_REFUSED => 2..=11,
        _ => 2..=12,
    };
    let distances = match fault {
        DISTANCE_0_TAKEN => 0..=32_768,
        ANY_DISTANCE_TAKEN => 1..=u64::MAX,
        DISTANCE_SIGNED if h >> 63 == 1 => 1..=u64::MAX,
        DISTANCE_65536_TAKEN => 1..=65_536,
        DISTANCE_32769_TAKEN => 1..=32_769,
        DISTANCE_1_REFUSED => 2..=32_768,
        DISTANCE_32768_REFUSED => 1..=32_767,
        _ => 1..=32_768,
    };
    let lengths = match fault {
        N_65537_TAKEN => 0..=65_537,
        ANY_N_TAKEN => 0..=u64::MAX,
        N_SIGNED if n >> 63 == 1 => 0..=u64::MAX,
        N_65536_REFUSED => 0..=65_535,
        N_0_REFUSED => 1..=65_536,
        N_BELOW_W_REFUSED => w..=65_536,
        H_ABOVE_N_REFUSED => h..=65_536,
        _ => 0..=65_536,
    };
    let other = match fault {
        H_BELOW_W_REFUSED => h < w,
        ONE_BLOCK_REFUSED => cuts(n, w, h.max(1)) == 0,
        MORE_THAN_32_REFUSED => n.saturating_sub(w) / h.max(1) > 32,
        _ => false,
    };
    other || !(windows.contains(&w) && distances.contains(&h) && lengths.contains(&n))
}

/// The question that has a no. One that wants a buffer finds none, whatever there is beside n.
fn refused(fault: u8, numbers: [u64; 3]) -> Option<u64> {
    let [n, w, h] = numbers;
    match fault {
        BUFFER_STILL_WANTED if n > 0 => return Some(23),
        LONG_BUFFER_STILL_WANTED if n > 65_536 => return Some(23),
        BUFFER_OF_2_32_WANTED if n >> 32 > 0 => return Some(23),
        _ => {}
    }
    let by = match fault {
        BY_23 => 23,
        WINDOW_BY_23 if !(2..=12).contains(&w) => 23,
        DISTANCE_BY_23 if !(1..=32_768).contains(&h) => 23,
        WINDOW_BY_1 if !(2..=12).contains(&w) => 1,
        DISTANCE_BY_4 if !(1..=32_768).contains(&h) => 4,
        LENGTH_BY_6 if n > 65_536 => 6,
        BY_25 => 25,
        _ => 24,
    };
    is_refused(fault, numbers).then_some(by)
}

/// What the call answers.
pub fn answer(fault: u8, numbers: [u64; 3]) -> u64 {
    let numbers = looked_at(fault, numbers);
    if let Some(question) = refused(fault, numbers) {
        return match fault {
            REFUSED_FROM_2_32 => (1 << 32) + question,
            REFUSED_WITH_0 => 0,
            _ => question,
        };
    }
    let blocks = bound(fault, numbers);
    match fault {
        COUNT_ALONE => blocks,
        COUNT_FROM_2_32 => blocks << 32,
        LENGTH_ANSWERED => (1 << 32) + numbers[0],
        ANSWER_WITH_BIT_33 => (3 << 32) + blocks,
        ANSWER_0 => 0,
        _ => (1 << 32) + blocks,
    }
}
