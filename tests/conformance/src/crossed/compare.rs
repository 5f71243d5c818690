//! One call and one comparison.

use super::cases::Case;
use crate::clock::timed;
use crate::failure::{Difference, Failure};
use crate::lent::{for_reading, is_shared, Lent};
use crate::random::Random;
use reference::crossed::ENTRY_BYTES;
use reference::rcds::{rcds_crossed, ACCEPTED};
use reference::row::number;

/// `rcds_crossed` as C declares it.
pub type Crossed =
    unsafe extern "C" fn(*const u8, usize, *const u8, usize, u64, u64, *mut u8, usize) -> u64;

/// What a case came to.
#[derive(Debug)]
pub struct Done {
    pub answer: u64,
    /// The largest places of a node and of a parent in the answer.
    pub node: u64,
    pub parent: u64,
    /// Whether string and node table stand in one memory.
    pub shared: bool,
}

/// Runs a case through the function and through the reference. What it came to, if all is equal.
pub fn compare(case: &Case, function: Crossed) -> Result<Done, Failure> {
    call(case, function).map_err(|difference| Failure {
        call: "rcds_crossed",
        seed: case.seed,
        number: case.number,
        case: case.to_string(),
        difference,
    })
}

fn call(case: &Case, function: Crossed) -> Result<Done, Difference> {
    let mut random = Random::of_case(case.seed ^ 1, case.number);
    let random = &mut random;
    let before = random.bytes(case.room);
    let [of_string, of_nodes, of_table] = case.shifts;
    let mut string = Lent::new("string", &case.string, of_string, random);
    let mut nodes = Lent::new("node table", &case.nodes, of_nodes, random);
    let mut table = Lent::new("table", &before, of_table, random);
    let read = for_reading([&mut string, &mut nodes]);
    // All pieces are there in full, and the one for writing stands in memory of its own.
    let given = timed(|| unsafe {
        function(
            read[0],
            string.length(),
            read[1],
            nodes.length(),
            case.start,
            case.length,
            table.pointer(),
            table.length(),
        )
    });
    let mut expected_table = before;
    let (start, length) = (case.start, case.length);
    let expected = rcds_crossed(
        &case.string,
        &case.nodes,
        start,
        length,
        &mut expected_table,
    );
    if given != expected {
        return Err(Difference::Answer { expected, given });
    }
    table.expect(&expected_table)?;
    string.expect_unchanged()?;
    nodes.expect_unchanged()?;
    Ok(done(given, &expected_table, is_shared(&read)))
}

fn done(answer: u64, table: &[u8], shared: bool) -> Done {
    let count = answer.saturating_sub(ACCEPTED) as usize;
    let entries = table.chunks_exact(ENTRY_BYTES).take(count);
    Done {
        answer,
        node: entries
            .clone()
            .map(|entry| number(&entry[..8]))
            .max()
            .unwrap_or(0),
        parent: entries.map(|entry| number(&entry[8..])).max().unwrap_or(0),
        shared,
    }
}
