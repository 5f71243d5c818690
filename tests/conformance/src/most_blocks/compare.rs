//! One call and one comparison, and the strings that are cut after it.

use super::cases::Case;
use super::cutting::{cut, Cut};
use super::numbers::Numbers;
use crate::clock::timed;
use crate::failure::{Difference, Failure};
use crate::random::Random;
use crate::tree::Tree;
use reference::rcds::rcds_most_blocks;

/// `rcds_most_blocks` as C declares it.
pub type MostBlocks = unsafe extern "C" fn(u64, u64, u64) -> u64;

/// It, and the call that cuts.
#[derive(Clone, Copy)]
pub struct Calls {
    pub most_blocks: MostBlocks,
    pub tree: Tree,
}

/// What a case came to.
#[derive(Debug)]
pub struct Done {
    pub answer: u64,
    /// The cuttings of equal bytes, and those of the other string.
    pub cut: Option<[Cut; 2]>,
}

/// Runs a case through the function and through the reference, and cuts what there is to cut. What it came to, if
/// all is as it must be.
pub fn compare(case: &Case, calls: Calls) -> Result<Done, Failure> {
    let failure = |call: &'static str| {
        move |difference| Failure {
            call,
            seed: case.seed,
            number: case.number,
            case: case.to_string(),
            difference,
        }
    };
    let answer = call(case.numbers, calls.most_blocks).map_err(failure("rcds_most_blocks"))?;
    let mut random = Random::of_case(case.seed ^ 1, case.number);
    let cut = cut_both(case, calls.tree, &mut random).map_err(failure("rcds_tree"))?;
    Ok(Done { answer, cut })
}

fn call(numbers: Numbers, function: MostBlocks) -> Result<u64, Difference> {
    let Numbers { n, w, h } = numbers;
    // Nothing is lent.
    let given = timed(|| unsafe { function(n, w, h) });
    match rcds_most_blocks(n, w, h) {
        expected if expected == given => Ok(given),
        expected => Err(Difference::Answer { expected, given }),
    }
}

/// Cuts as many equal bytes as the other string has, and that string.
fn cut_both(
    case: &Case,
    function: Tree,
    random: &mut Random,
) -> Result<Option<[Cut; 2]>, Difference> {
    let Some(cutting) = &case.cutting else {
        return Ok(None);
    };
    let (settings, string) = (&cutting.settings, &cutting.string);
    let equal = vec![cutting.byte; string.len()];
    let of_equal = cut(settings, &equal, true, function, random)?;
    let of_string = cut(settings, string, false, function, random)?;
    Ok(Some([of_equal, of_string]))
}
