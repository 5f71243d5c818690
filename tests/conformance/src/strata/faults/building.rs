//! The strata of a list, built a second time, with a fault.

use super::*;

/// `rcds_strata_build` with one fault.
pub fn build(fault: u8, end: &End, table: &mut [u8]) -> u64 {
    let refused = refused(fault, end, &[table.len()]);
    if let Some(question) = refused {
        match fault {
            CLEARED_WHEN_REFUSED => table.fill(0),
            WRITTEN_WHEN_REFUSED => {}
            _ => return question,
        }
    }
    let list = list(fault, end);
    let (mut cells, added) = cells_of(fault, settings(fault, end[0])[2], &list);
    cells.truncate(16 * 12);
    if fault == REST_CLEARED {
        table.iter_mut().skip(ENOUGH).for_each(|byte| *byte = 0);
    }
    if refused.is_none() || fault == WRITTEN_WHEN_REFUSED {
        write(fault, &cells, &added, table);
    }
    match (refused, fault) {
        (Some(question), _) => question,
        (_, BUILDING_ANSWERS_2_32) => 1 << 32,
        (_, BUILDING_ANSWERS_A_COUNT) => (1 << 32) + list.len() as u64,
        _ => 0,
    }
}

/// Writes cells to the front of a table, as many as fit.
fn write(fault: u8, cells: &[[u64; 5]], added: &[usize], table: &mut [u8]) {
    let table = table.chunks_exact_mut(40);
    for ((cell, added), bytes) in cells.iter().zip(added).zip(table) {
        if fault == EMPTY_CELLS_NOT_WRITTEN && *added == 0 {
            continue;
        }
        let before = rows(bytes);
        for (k, row) in cell.iter().enumerate() {
            let row = match fault {
                ADDED_TO_WHAT_IS_THERE => row.wrapping_add(before[k]),
                _ => *row,
            };
            bytes[8 * k..8 * k + 8].copy_from_slice(&row.to_be_bytes());
        }
    }
}
