//! How many trails a multiset of pairs has, counted without walking them.
//!
//! A pair is an arrow from its first id to its second. A trail is a walk that uses every arrow, so
//! one more point, with an arrow from the walk's end to it and one from it to the walk's start,
//! makes the walks the circuits that use every arrow. Those are counted by the theorem of de
//! Bruijn, van Aardenne-Ehrenfest, Smith and Tutte: the trees of arrows that lead from every point
//! to one of them, times (d − 1)! for each point that d arrows leave; and the trees by Kirchhoff's
//! theorem, as a determinant. The circuits tell equal arrows apart, the trails do not: so they are
//! divided by c! for each pair of count c.

use crate::trail::Multiset;

/// How many sequences there are whose pairs, starting from `start`, are exactly these. At most 32
/// pairs, so that no number exceeds 32!, which is below 2^127.
pub fn trails_from(start: u64, pairs: &Multiset) -> u128 {
    assert!(pairs.values().sum::<u64>() <= 32);
    let mut ids: Vec<u64> = pairs.keys().flat_map(|&(from, to)| [from, to]).collect();
    ids.push(start);
    ids.sort();
    ids.dedup();
    let place = |id: u64| ids.binary_search(&id).expect("every id has a place");

    // How often each point is left and entered; the start is entered once from outside.
    let mut left = vec![0; ids.len()];
    let mut entered = vec![0; ids.len()];
    entered[place(start)] = 1;
    for (&(from, to), &count) in pairs {
        left[place(from)] += count;
        entered[place(to)] += count;
    }

    // The walk can only end where it comes in once more than it goes out, and all else must agree.
    let Some(end) = (0..ids.len()).find(|&i| entered[i] == left[i] + 1) else {
        return 0;
    };
    left[end] += 1;
    if left != entered {
        return 0;
    }

    let mut matrix = vec![vec![0; ids.len()]; ids.len()];
    for (&(from, to), &count) in pairs {
        matrix[place(from)][place(from)] += count as i64;
        matrix[place(from)][place(to)] -= count as i64;
    }
    matrix[end][end] += 1;
    let trees = u128::from(determinant(&matrix));
    let circuits: u128 = left.iter().map(|&count| factorial(count - 1)).product();
    let alike: u128 = pairs.values().map(|&count| factorial(count)).product();
    trees * circuits / alike
}

fn factorial(n: u64) -> u128 {
    (1..=u128::from(n)).product()
}

/// A prime. A tree takes one of the arrows that leave each point. These are at most 33 in all, so
/// there are at most 3^11 trees, which is below the prime: the remainder is the number.
const PRIME: u64 = (1 << 31) - 1;

/// The determinant modulo the prime, by elimination.
fn determinant(matrix: &[Vec<i64>]) -> u64 {
    let remainder = |&entry: &i64| entry.rem_euclid(PRIME as i64) as u64;
    let row = |row: &Vec<i64>| row.iter().map(remainder).collect();
    let mut rows: Vec<Vec<u64>> = matrix.iter().map(row).collect();
    let size = rows.len();
    let mut product = 1;
    for k in 0..size {
        let Some(pivot) = (k..size).find(|&i| rows[i][k] != 0) else {
            return 0;
        };
        if pivot != k {
            rows.swap(pivot, k);
            product = PRIME - product;
        }
        product = product * rows[k][k] % PRIME;
        let inverse = power(rows[k][k], PRIME - 2);
        for i in k + 1..size {
            if rows[i][k] != 0 {
                let factor = PRIME - rows[i][k] * inverse % PRIME;
                let subtracted: Vec<u64> = rows[k].iter().map(|entry| factor * entry).collect();
                for (entry, subtracted) in rows[i].iter_mut().zip(subtracted) {
                    *entry = (*entry + subtracted) % PRIME;
                }
            }
        }
    }
    product
}

/// A power modulo the prime.
fn power(base: u64, exponent: u64) -> u64 {
    match exponent {
        0 => 1,
        _ if exponent % 2 == 1 => base * power(base, exponent - 1) % PRIME,
        _ => power(base * base % PRIME, exponent / 2),
    }
}
