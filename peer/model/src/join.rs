//! The join: a running corridor moves to a table of longer cells.

use crate::corridor::{parts, parts_mut, shape};
use crate::pieces::{both_rows, both_rules, piece_rules};
use crate::Answer;

/// Makes each group of old cells one new cell with all their vehicles: numbers 1 to 5 and 14. The old cells are the pieces
/// of the new ones.
pub fn join(old_table: &[u32], old_state: &[u32], groups: &[u32], new_table: &[u32], new_state: &mut [u32]) -> Answer {
    let (old, new) = both_rows(old_table, old_state, new_table, new_state)?;
    shape(groups.len() == new.len())?;
    both_rules(old, old_state, new)?;
    piece_rules(14, new, groups, old)?;
    move_state(old.len(), old_state, groups, new_state);
    Ok(())
}

/// Writes the new state. No sum overflows: it is at most the new cell's jam count, as no old count is over its own. No
/// queue is lost: only the first of a group has an on-ramp. The last one's flow is the new cell's, and so is its mode.
fn move_state(old_cells: usize, old_state: &[u32], groups: &[u32], new_state: &mut [u32]) {
    let (entry, [counts, queues, modes]) = parts(old_cells, old_state);
    let (new_entry, [new_counts, new_queues, new_modes]) = parts_mut(groups.len(), new_state);
    *new_entry = entry;

    let mut first = 0;
    for (cell, &size) in groups.iter().enumerate() {
        let next = first + size as usize;
        new_counts[cell] = counts[first..next].iter().sum();
        new_queues[cell] = queues[first];
        new_modes[cell] = modes[next - 1];
        first = next;
    }
}
