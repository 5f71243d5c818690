//! One call and one comparison.

use super::cases::Case;
use crate::clock::timed;
use crate::failure::{Difference, Failure};
use crate::lent::Lent;
use crate::random::Random;
use reference::rcds::{rcds_sender_setup, ACCEPTED};
use reference::shingle_table;

/// `rcds_sender_setup` as C declares it.
pub type SenderSetup = unsafe extern "C" fn(
    u64,
    u64,
    u64,
    u64,
    u64,
    *const u8,
    usize,
    *mut u8,
    usize,
    *mut u8,
    usize,
    *mut u8,
    usize,
    *mut u8,
    usize,
) -> u64;

/// What a case came to.
#[derive(Debug)]
pub struct Done {
    pub answer: u64,
    /// How many shingles the tree has, and the largest of their counts.
    pub shingles: usize,
    pub largest_count: u64,
}

/// Runs a case through the function and through the reference. What it came to, if all is equal.
pub fn compare(case: &Case, function: SenderSetup) -> Result<Done, Failure> {
    call(case, function).map_err(|difference| Failure {
        call: "rcds_sender_setup",
        seed: case.seed,
        number: case.number,
        case: case.to_string(),
        difference,
    })
}

fn call(case: &Case, function: SenderSetup) -> Result<Done, Difference> {
    let mut random = Random::of_case(case.seed ^ 1, case.number);
    let random = &mut random;
    let (lengths, shifts) = (&case.lengths, &case.shifts);
    let mut expected_nodes = random.bytes(lengths.nodes);
    let mut expected_shingles = random.bytes(lengths.shingles);
    let mut expected_cells = random.bytes(lengths.cells);
    let mut expected_state = random.bytes(lengths.state);
    let mut string = Lent::new("string", &case.string, case.string_shift, random);
    let mut nodes = Lent::new("node table", &expected_nodes, shifts.nodes, random);
    let mut shingles = Lent::new("shingle table", &expected_shingles, shifts.shingles, random);
    let mut cells = Lent::new("cell table", &expected_cells, shifts.cells, random);
    let mut state = Lent::new("state", &expected_state, shifts.state, random);

    let settings = &case.settings;
    // All pieces are there in full, and they do not overlap: each stands in memory of its own.
    let given = timed(|| unsafe {
        function(
            settings.window,
            settings.fan_out,
            settings.levels,
            settings.nominal,
            case.width,
            string.pointer(),
            string.length(),
            nodes.pointer(),
            nodes.length(),
            shingles.pointer(),
            shingles.length(),
            cells.pointer(),
            cells.length(),
            state.pointer(),
            state.length(),
        )
    });

    let expected = rcds_sender_setup(
        settings,
        case.width,
        &case.string,
        &mut expected_nodes,
        &mut expected_shingles,
        &mut expected_cells,
        &mut expected_state,
    );
    if given != expected {
        return Err(Difference::Answer { expected, given });
    }
    nodes.expect(&expected_nodes)?;
    shingles.expect(&expected_shingles)?;
    cells.expect(&expected_cells)?;
    state.expect(&expected_state)?;
    string.expect_unchanged()?;
    let list = match given >= ACCEPTED {
        true => shingle_table::read(&expected_shingles),
        false => Vec::new(),
    };
    Ok(Done {
        answer: given,
        shingles: list.len(),
        largest_count: list.iter().map(|shingle| shingle.count).max().unwrap_or(0),
    })
}
