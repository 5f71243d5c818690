//! How long the search takes. That it looks at what is still within reach loses no trail, which is proved; that
//! it therefore ends soon is not. Over these multisets a search that does not look walks for minutes before it
//! finds the first trail, since the least id to go on to leaves pairs behind that are out of reach then.

use super::cases::{Case, Family, Lent};
use super::compare::{compare, Calls};
use crate::failure::Failure;
use std::sync::mpsc::channel;
use std::thread;
use std::time::{Duration, Instant};

/// More than a thousand times what the calls take.
const MOST: Duration = Duration::from_secs(10);

/// The numbers of the trails that are looked for: the first, and the last that can be sent.
const NUMBERS: [u64; 2] = [0, 4_095];

/// Every pair of these ids, those of equal ids too.
fn all_pairs(ids: &[u64]) -> Vec<(u64, u64)> {
    let pairs = |&previous: &u64| ids.iter().map(move |&own| (previous, own));
    ids.iter().flat_map(pairs).collect()
}

/// From the start one way leads on to the rest, and one, of a larger id, there and back.
fn left_at_the_start() -> Vec<(u64, u64)> {
    let start = [(0, 50), (50, 60), (60, 50), (50, 1)];
    let once_more = [(1, 2), (2, 3), (3, 1)];
    [&start[..], &all_pairs(&[1, 2, 3, 4, 5]), &once_more].concat()
}

/// Two parts, and one pair from the first, of larger ids, to the second, which has many ways through it: it may be
/// left for the second whenever its middle is reached.
fn left_half_way() -> Vec<(u64, u64)> {
    let first = [(10, 11), (11, 10), (11, 11), (10, 12), (12, 10)];
    let second = all_pairs(&[1, 2, 3, 4, 5]);
    [&[(0, 10), (10, 1)], &first[..], &second].concat()
}

/// The order of a number over pairs, of count 1 each or again.
fn case(pairs: &[(u64, u64)], number: u64) -> Case {
    assert_eq!(pairs.len(), 32);
    let rows = pairs.iter().flat_map(|&(previous, own)| [previous, own, 1]);
    Case {
        seed: 0,
        number: number as usize,
        family: Family::MultisetOfAnyNumber,
        lent: Lent::Multiset {
            pairs: rows.flat_map(u64::to_be_bytes).collect(),
            number,
            room: 256,
        },
    }
}

/// Orders and numbers of both multisets, each as the reference has it and within the time. What took longest.
fn within(most: Duration, calls: Calls) -> Result<Duration, Failure> {
    let mut longest = Duration::ZERO;
    for pairs in [left_at_the_start(), left_half_way()] {
        for number in NUMBERS {
            let (tell, told) = channel();
            let case = case(&pairs, number);
            let words = case.to_string();
            let start = Instant::now();
            thread::spawn(move || tell.send(compare(&case, calls).map(|_| ())));
            match told.recv_timeout(most) {
                Ok(compared) => compared?,
                Err(_) => panic!("no answer within {most:?}: {words}"),
            }
            longest = longest.max(start.elapsed());
        }
    }
    Ok(longest)
}

/// The same, and what is said of it.
pub fn run(calls: Calls) -> Result<String, Failure> {
    let longest = within(MOST, calls)?;
    Ok(format!(
        "rcds_trail_order and rcds_trail_number over multisets that strand a search: at most {:.1} ms",
        1_000.0 * longest.as_secs_f64()
    ))
}

#[cfg(test)]
mod tests {
    use super::{case, left_at_the_start, left_half_way, within, NUMBERS};
    use crate::trails::cases::Lent;
    use crate::trails::Calls;
    use reference::rcds::{rcds_trail_number, rcds_trail_order};
    use std::thread::sleep;
    use std::time::Duration;

    unsafe extern "C" fn number(ids: *const u8, length: usize) -> u64 {
        rcds_trail_number(crate::lent::part(ids, length))
    }

    unsafe extern "C" fn order(
        pairs: *const u8,
        length: usize,
        number: u64,
        ids: *mut u8,
        room: usize,
    ) -> u64 {
        let ids = crate::lent::part_mut(ids, room);
        rcds_trail_order(crate::lent::part(pairs, length), number, ids)
    }

    unsafe extern "C" fn late(
        pairs: *const u8,
        length: usize,
        number: u64,
        ids: *mut u8,
        room: usize,
    ) -> u64 {
        sleep(Duration::from_millis(400));
        order(pairs, length, number, ids, room)
    }

    #[test]
    fn both_multisets_have_trails_of_all_numbers() {
        for pairs in [left_at_the_start(), left_half_way()] {
            for number in NUMBERS {
                let Lent::Multiset { pairs, .. } = case(&pairs, number).lent else {
                    panic!("a multiset");
                };
                let answer = rcds_trail_order(&pairs, number, &mut [0; 256]);
                assert_eq!(answer, (1 << 32) + 32);
            }
        }
    }

    #[test]
    fn calls_in_time_pass() {
        assert!(within(Duration::from_secs(60), Calls { number, order }).is_ok());
    }

    #[test]
    #[should_panic(expected = "no answer within")]
    fn a_late_call_is_found() {
        let calls = Calls {
            number,
            order: late,
        };
        let _ = within(Duration::from_millis(100), calls);
    }
}
