//! The calls of one case and their comparison: first the call that the case is made for, then,
//! where it was accepted, the other one with what it answered.

use super::cases::{Case, Lent as LentCase};
use super::which::{which, Which};
use crate::clock::timed;
use crate::failure::{Difference, Failure};
use crate::lent::Lent;
use crate::random::Random;
use reference::rcds::{count, rcds_trail_number, rcds_trail_order, says_only, ACCEPTED};
use reference::trail::{pairs, MOST_NUMBER};

/// `rcds_trail_number` as C declares it.
pub type TrailNumber = unsafe extern "C" fn(*const u8, usize) -> u64;

/// `rcds_trail_order` as C declares it.
pub type TrailOrder = unsafe extern "C" fn(*const u8, usize, u64, *mut u8, usize) -> u64;

/// Both.
#[derive(Clone, Copy)]
pub struct Calls {
    pub number: TrailNumber,
    pub order: TrailOrder,
}

/// What a case came to: the answers of its calls, and which trail an accepted one is about. The second
/// answer is the way back.
#[derive(Debug)]
pub enum Done {
    Number {
        ids: usize,
        answer: u64,
        which: Option<Which>,
        back: Option<u64>,
    },
    Order {
        number: u64,
        has_id_0: bool,
        answer: u64,
        which: Option<Which>,
        back: Option<u64>,
    },
}

/// Runs a case through the calls and through the reference. The answers, if all is equal.
pub fn compare(case: &Case, calls: Calls) -> Result<Done, Failure> {
    let mut random = Random::of_case(case.seed ^ 1, case.number);
    let random = &mut random;
    let failure = |call: &'static str| {
        move |difference| Failure {
            call,
            seed: case.seed,
            number: case.number,
            case: case.to_string(),
            difference,
        }
    };
    let (in_number, in_order) = (failure("rcds_trail_number"), failure("rcds_trail_order"));
    match &case.lent {
        LentCase::Order { ids } => {
            let answer = call_number(ids, calls.number, random).map_err(in_number)?;
            let mut back = None;
            if answer >= ACCEPTED && count(answer) <= MOST_NUMBER {
                let table = table_of_order(ids);
                let (other, order) =
                    call_order(&table, count(answer), ids.len(), calls.order, random)
                        .map_err(in_order)?;
                assert!(order == *ids, "the reference's way back: {case}");
                assert!(says_only(answer) == says_only(other), "both ways: {case}");
                back = Some(other);
            }
            Ok(Done::Number {
                ids: ids.len() / 8,
                answer,
                which: (answer >= ACCEPTED).then(|| which(&rows(ids))),
                back,
            })
        }
        LentCase::Multiset {
            pairs,
            number,
            room,
        } => {
            let (answer, ids) =
                call_order(pairs, *number, *room, calls.order, random).map_err(in_order)?;
            let has_id_0 = ids.chunks(8).any(|id| id == [0; 8]);
            let mut back = None;
            if answer >= ACCEPTED && !has_id_0 {
                let other = call_number(&ids, calls.number, random).map_err(in_number)?;
                assert!(
                    other >= ACCEPTED && count(other) == *number,
                    "the reference's way back: {case}"
                );
                assert!(says_only(answer) == says_only(other), "both ways: {case}");
                back = Some(other);
            }
            Ok(Done::Order {
                number: *number,
                has_id_0,
                answer,
                which: (answer >= ACCEPTED).then(|| which(&rows(&ids))),
                back,
            })
        }
    }
}

/// The ids that bytes are.
fn rows(ids: &[u8]) -> Vec<u64> {
    let id = |bytes: &[u8]| u64::from_be_bytes(bytes.try_into().expect("an id has 8 bytes"));
    ids.chunks(8).map(id).collect()
}

/// The pairs of an order, one entry for each id.
fn table_of_order(ids: &[u8]) -> Vec<u8> {
    let entry = |(previous, own): (u64, u64)| [previous, own, 1];
    let rows = pairs(&rows(ids)).into_iter().flat_map(entry);
    rows.flat_map(|row| row.to_be_bytes()).collect()
}

/// How far a piece is moved in memory, so that most are not aligned.
fn shift(random: &mut Random) -> usize {
    random.between(0, 15) as usize
}

fn call_number(ids: &[u8], function: TrailNumber, random: &mut Random) -> Result<u64, Difference> {
    let mut lent = Lent::new("ids", ids, shift(random), random);
    // The ids are there in full, in memory of their own.
    let given = timed(|| unsafe { function(lent.pointer(), lent.length()) });
    let expected = rcds_trail_number(ids);
    if given != expected {
        return Err(Difference::Answer { expected, given });
    }
    lent.expect_unchanged()?;
    Ok(given)
}

/// The answer, and the ids that were written.
fn call_order(
    pairs: &[u8],
    number: u64,
    room: usize,
    function: TrailOrder,
    random: &mut Random,
) -> Result<(u64, Vec<u8>), Difference> {
    let before = random.bytes(room);
    let mut lent_pairs = Lent::new("pairs", pairs, shift(random), random);
    let mut lent_ids = Lent::new("ids", &before, shift(random), random);
    // Both pieces are there in full, and they do not overlap: each stands in memory of its own.
    let given = timed(|| unsafe {
        function(
            lent_pairs.pointer(),
            lent_pairs.length(),
            number,
            lent_ids.pointer(),
            lent_ids.length(),
        )
    });
    let mut ids = before;
    let expected = rcds_trail_order(pairs, number, &mut ids);
    if given != expected {
        return Err(Difference::Answer { expected, given });
    }
    lent_ids.expect(&ids)?;
    lent_pairs.expect_unchanged()?;
    let written = match expected < ACCEPTED {
        true => 0,
        false => count(expected) as usize,
    };
    ids.truncate(8 * written);
    Ok((given, ids))
}
