//! Cases run on two threads. What they came to is handed on in the order of the cases, so that a run
//! says the same as on one thread, and stops at the same case.

use crate::failure::Failure;
use std::ops::Range;
use std::sync::mpsc::sync_channel;
use std::thread;

/// Cases that a thread runs before it hands on what they came to, and how many such blocks may wait.
const BLOCK: usize = 16;
const WAITING: usize = 2;

/// Does the work of every number below `count`, and gives what it comes to to `add`, number by number,
/// up to the first failure.
pub fn in_order<D: Send>(
    count: usize,
    work: impl Fn(usize) -> Result<D, Failure> + Sync,
    mut add: impl FnMut(D),
) -> Result<(), Failure> {
    let block = |k: usize| BLOCK * k..count.min(BLOCK * (k + 1));
    let done = |numbers: Range<usize>| numbers.map(&work).collect::<Vec<Result<D, Failure>>>();
    let blocks = count.div_ceil(BLOCK);
    thread::scope(|scope| {
        let threads = [0, 1].map(|first| {
            let (hand_on, handed_on) = sync_channel(WAITING);
            scope.spawn(move || {
                let mut own = (first..blocks).step_by(2);
                // After a failure nobody waits for the rest.
                own.try_for_each(|k| hand_on.send(done(block(k))))
            });
            handed_on
        });
        for k in 0..blocks {
            let block = threads[k % 2].recv().expect("a case stopped its thread");
            for result in block {
                add(result?);
            }
        }
        Ok(())
    })
}

#[cfg(test)]
mod tests {
    use super::{in_order, BLOCK};
    use crate::failure::{Difference, Failure};

    fn failure(number: usize) -> Failure {
        Failure {
            call: "a call",
            seed: 0,
            number,
            case: String::new(),
            difference: Difference::NoReply,
        }
    }

    #[test]
    fn every_number_comes_once_and_in_order() {
        for count in [0, 1, BLOCK - 1, BLOCK, BLOCK + 1, 2 * BLOCK, 1_000] {
            let mut numbers = Vec::new();
            let done = in_order(count, Ok, |number: usize| numbers.push(number));
            assert!(done.is_ok());
            assert!(numbers.into_iter().eq(0..count), "{count}");
        }
    }

    #[test]
    fn the_first_failure_ends_it() {
        for first in [0, 1, BLOCK, 3 * BLOCK + 5] {
            let work = |number: usize| match number < first {
                true => Ok(number),
                false => Err(failure(number)),
            };
            let mut count = 0;
            let done = in_order(500, work, |_| count += 1);
            assert_eq!(done.map_err(|failure| failure.number), Err(first));
            assert_eq!(count, first);
        }
    }
}
