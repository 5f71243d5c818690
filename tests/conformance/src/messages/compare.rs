//! One call and one comparison.

use super::cases::Case;
use crate::clock::timed;
use crate::failure::{Difference, Failure};
use crate::lent::Lent;
use crate::random::Random;
use reference::message::{encode, parse};
use reference::rcds::rcds_message_type;

/// `rcds_message_type` as C declares it.
pub type MessageType = unsafe extern "C" fn(*const u8, usize) -> u64;

/// Runs a case through the function and through the reference. The answer, if all is equal.
pub fn compare(case: &Case, function: MessageType) -> Result<u64, Failure> {
    call(case, function).map_err(|difference| Failure {
        call: "rcds_message_type",
        seed: case.seed,
        number: case.number,
        case: case.to_string(),
        difference,
    })
}

fn call(case: &Case, function: MessageType) -> Result<u64, Difference> {
    let mut random = Random::of_case(case.seed ^ 1, case.number);
    let mut message = Lent::new("message", &case.message, case.shift, &mut random);
    // The message is there in full, in memory of its own.
    let given = timed(|| unsafe { function(message.pointer(), message.length()) });
    let expected = rcds_message_type(&case.message);
    if given != expected {
        return Err(Difference::Answer { expected, given });
    }
    message.expect_unchanged()?;
    // What is read and written again is the same bytes, so no two messages share their bytes.
    if let Some(read) = parse(&case.message) {
        assert!(encode(&read) == case.message, "the reference: {case}");
    }
    Ok(given)
}
