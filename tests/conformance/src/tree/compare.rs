//! One call and one comparison.

use super::cases::Case;
use crate::clock::timed;
use crate::failure::{Difference, Failure};
use crate::lent::Lent;
use crate::random::Random;

/// `rcds_tree` as C declares it.
pub type Tree = unsafe extern "C" fn(u64, u64, u64, u64, *const u8, usize, *mut u8, usize) -> u64;

/// Runs a case through the function and through the reference. The answer, if all is equal.
pub fn compare(case: &Case, function: Tree) -> Result<u64, Failure> {
    call(case, function).map_err(|difference| Failure {
        call: "rcds_tree",
        seed: case.seed,
        number: case.number,
        case: case.to_string(),
        difference,
    })
}

fn call(case: &Case, function: Tree) -> Result<u64, Difference> {
    let mut random = Random::of_case(case.seed ^ 1, case.number);
    let before = random.bytes(case.table_length);
    let mut string = Lent::new("string", &case.string, case.string_shift, &mut random);
    let mut table = Lent::new("node table", &before, case.table_shift, &mut random);

    let settings = &case.settings;
    // Both pieces are there in full, and they do not overlap: each stands in memory of its own.
    let given = timed(|| unsafe {
        function(
            settings.window,
            settings.fan_out,
            settings.levels,
            settings.nominal,
            string.pointer(),
            string.length(),
            table.pointer(),
            table.length(),
        )
    });

    let mut expected_table = before;
    let expected = reference::rcds::rcds_tree(settings, &case.string, &mut expected_table);
    if given != expected {
        return Err(Difference::Answer { expected, given });
    }
    table.expect(&expected_table)?;
    string.expect_unchanged()?;
    Ok(given)
}
