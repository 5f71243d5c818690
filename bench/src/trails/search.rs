//! A search for the multisets that take longest, by climbing: an order is changed a little again and
//! again, and a change that makes the call slower is kept. The changes are the same ones in every run;
//! which of them are kept depends on the clock, so the figures scatter a little.

use super::measure::{bytes, number_row, number_time, order_time, row, Row};
use super::multisets::{last_number, Asked};
use conformance::random::Random;
use conformance::trails::orders::{different_ids, of_few_ids, star, with_repeats};
use reference::trail::{multiset, pairs};

/// How many climbs there are for each of the two calls, and how many changes each one tries.
const CLIMBS: usize = 8;
const STEPS: usize = 300;

/// How many of the found multisets are measured as the others are, for each call.
const KEPT: usize = 3;

/// Ids in an order.
const IDS: usize = 32;

/// The order, and then different ids that are not in it, up to 32 in all.
fn with_path(mut order: Vec<u64>, random: &mut Random) -> Vec<u64> {
    let path = different_ids(2 * IDS, random);
    let path: Vec<u64> = path.into_iter().filter(|id| !order.contains(id)).collect();
    order.extend(path);
    order.truncate(IDS);
    order
}

/// Where the climb of this number starts: orders with many trails that part early.
fn start(number: usize, random: &mut Random) -> Vec<u64> {
    match number % 4 {
        0 => with_path(star(7, random), random),
        1 => of_few_ids(IDS, 5, random),
        2 => with_repeats(IDS, 14, random),
        _ => {
            let twice = |id: u64| [id, id];
            let path = with_path(star(7, random), random).split_off(15);
            let path = path.into_iter().flat_map(twice);
            let order = star(7, random).into_iter().chain(path);
            order.take(IDS).collect()
        }
    }
}

/// One to three small changes.
fn change(order: &mut Vec<u64>, random: &mut Random) {
    for _ in 0..random.between(1, 3) {
        let a = random.between(0, IDS as u64 - 1) as usize;
        let b = random.between(0, IDS as u64 - 1) as usize;
        match random.between(0, 4) {
            0 => order[a] = order[b],
            1 => order.swap(a, b),
            2 => order[a] = random.number() | 1,
            3 => {
                let id = order.remove(a);
                order.insert(b, id);
            }
            _ => order[a.min(b)..=a.max(b)].reverse(),
        }
    }
}

/// The pairs of an order with the last number up to 4,095 that a trail over them has.
fn asked(order: &[u64]) -> Asked {
    let over = multiset(&pairs(order));
    let entries: Vec<[u64; 3]> = over.iter().map(|(&(a, b), &count)| [a, b, count]).collect();
    Asked {
        name: "found by climbing: an order".to_string(),
        number: last_number(&entries),
        entries,
    }
}

/// The seconds of the order of a number.
fn time_of_order(order: &[u64]) -> f64 {
    let asked = asked(order);
    order_time(&bytes(asked.entries.iter().flatten()), asked.number)
}

/// The seconds of the number of an order.
fn time_of_number(order: &[u64]) -> f64 {
    number_time(&bytes(order))
}

/// The slowest order of one climb, with its seconds.
fn climb(number: usize, time: fn(&[u64]) -> f64) -> (f64, Vec<u64>) {
    let mut random = Random::of_case(1, number);
    let mut here = start(number, &mut random);
    let mut slowest = time(&here);
    for _ in 0..STEPS {
        let mut next = here.clone();
        change(&mut next, &mut random);
        // A slow call may have been disturbed: it is slow only if it is so again.
        let again = time(&next);
        let next_time = if again < slowest {
            again
        } else {
            again.min(time(&next))
        };
        if next_time >= slowest {
            slowest = next_time;
            here = next;
        }
    }
    (slowest, here)
}

/// The slowest orders of all climbs, the slowest first.
fn found(time: fn(&[u64]) -> f64) -> Vec<Vec<u64>> {
    let mut climbs: Vec<(f64, Vec<u64>)> = (0..CLIMBS).map(|number| climb(number, time)).collect();
    climbs.sort_by(|a, b| b.0.total_cmp(&a.0));
    climbs
        .into_iter()
        .take(KEPT)
        .map(|(_, order)| order)
        .collect()
}

/// The slowest ones of both calls.
pub fn slowest() -> Vec<Row> {
    let orders = found(time_of_order);
    let numbers = found(time_of_number);
    let orders = orders.iter().map(|order| row(&asked(order)));
    let numbers = numbers
        .iter()
        .map(|order| number_row("found by climbing: a number", order));
    orders.chain(numbers).collect()
}
