//! Costs of one multiset.

use super::multisets::{trails, Asked};
use crate::clock::seconds;
use crate::pass::{cost, Cost};
use calls::{rcds_trail_number, rcds_trail_order};
use reference::rcds::{count, ACCEPTED};
use reference::trail::{pairs, MOST_NUMBER};
use std::hint::black_box;

/// What one multiset cost.
pub struct Row {
    pub name: String,
    /// The sum of the counts.
    pub ids: u64,
    pub trails: u128,
    pub number: u64,
    pub answer: u64,
    /// Of the number's order, unless the number is above 4,095.
    pub order: Option<Cost>,
    /// Of the order's number, where there is one.
    pub back: Option<Cost>,
}

/// Rows as bytes.
pub fn bytes<'a>(rows: impl IntoIterator<Item = &'a u64>) -> Vec<u8> {
    rows.into_iter().flat_map(|row| row.to_be_bytes()).collect()
}

/// One call, and that its answer is the reference's: the answer and the ids.
fn order(pairs: &[u8], number: u64) -> (u64, Vec<u8>) {
    let mut ids = vec![0; 256];
    let answer = call_order(pairs, number, &mut ids);
    let mut expected = vec![0; 256];
    let expected_answer = reference::rcds::rcds_trail_order(pairs, number, &mut expected);
    assert!(
        answer == expected_answer && ids == expected,
        "a wrong order"
    );
    if answer >= ACCEPTED {
        ids.truncate(8 * count(answer) as usize);
    }
    (answer, ids)
}

/// The call on slices.
fn call_order(pairs: &[u8], number: u64, ids: &mut [u8]) -> u64 {
    // Both slices are there in full, and they do not overlap.
    unsafe {
        rcds_trail_order(
            pairs.as_ptr(),
            pairs.len(),
            number,
            ids.as_mut_ptr(),
            ids.len(),
        )
    }
}

/// The call on a slice.
fn call_number(ids: &[u8]) -> u64 {
    // The slice is there in full.
    unsafe { rcds_trail_number(ids.as_ptr(), ids.len()) }
}

/// The seconds of one order of a number.
pub fn order_time(pairs: &[u8], number: u64) -> f64 {
    let mut ids = vec![0; 256];
    seconds(1, || {
        black_box(call_order(black_box(pairs), number, &mut ids));
    })
}

/// The seconds of one number of an order.
pub fn number_time(ids: &[u8]) -> f64 {
    seconds(1, || {
        black_box(call_number(black_box(ids)));
    })
}

/// The cost of the order of a number.
pub fn order_cost(pairs: &[u8], number: u64) -> Cost {
    let mut ids = vec![0; 256];
    cost(|| {
        black_box(call_order(black_box(pairs), number, &mut ids));
    })
}

/// The cost of the number of an order, and that it is the reference's.
pub fn number_cost(ids: &[u8]) -> (u64, Cost) {
    let answer = call_number(ids);
    assert_eq!(answer, reference::rcds::rcds_trail_number(ids));
    let cost = cost(|| {
        black_box(call_number(black_box(ids)));
    });
    (answer, cost)
}

/// Measures one multiset, and the way back from its order.
pub fn row(asked: &Asked) -> Row {
    let pairs = bytes(asked.entries.iter().flatten());
    let (answer, ids) = order(&pairs, asked.number);
    Row {
        name: asked.name.clone(),
        ids: asked.entries.iter().map(|entry| entry[2]).sum(),
        trails: trails(&asked.entries),
        number: asked.number,
        answer,
        order: Some(order_cost(&pairs, asked.number)),
        back: (answer >= ACCEPTED).then(|| number_cost(&ids).1),
    }
}

/// Measures the number of an order, and the way back from it where there is one.
pub fn number_row(name: &str, order: &[u64]) -> Row {
    let (answer, cost) = number_cost(&bytes(order));
    let number = count(answer);
    let entries: Vec<[u64; 3]> = pairs(order).iter().map(|&(a, b)| [a, b, 1]).collect();
    let table = bytes(entries.iter().flatten());
    Row {
        name: name.to_string(),
        ids: order.len() as u64,
        trails: trails(&entries),
        number,
        answer: ACCEPTED + order.len() as u64,
        order: (number <= MOST_NUMBER).then(|| order_cost(&table, number)),
        back: Some(cost),
    }
}
