//! The re-cut: a running corridor moves to a table of shorter cells.

use crate::corridor::{parts, parts_mut, shape, Cell, Rows};
use crate::pieces::{both_rows, both_rules, piece_rules, with_pieces};
use crate::Answer;

/// Cuts each old cell into its count of new cells and shares out its vehicles, queue and mode: numbers 1 to 5 and 8.
pub fn recut(old_table: &[u32], old_state: &[u32], pieces: &[u32], new_table: &[u32], new_state: &mut [u32]) -> Answer {
    let (old, new) = both_rows(old_table, old_state, new_table, new_state)?;
    shape(pieces.len() == old.len())?;
    both_rules(old, old_state, new)?;
    piece_rules(8, old, pieces, new)?;
    move_state(old, old_state, pieces, new, new_state);
    Ok(())
}

/// Writes the new state. A piece gets the vehicles up to and including it less those before it, each rounded down. The
/// queue goes to the first piece, where the on-ramp is, and the mode to the last one, whose flow is the cell's.
fn move_state(old: Rows, old_state: &[u32], pieces: &[u32], new: Rows, new_state: &mut [u32]) {
    let (entry, [counts, queues, modes]) = parts(old.len(), old_state);
    let (new_entry, [new_counts, new_queues, new_modes]) = parts_mut(new.len(), new_state);
    *new_entry = entry;
    new_queues.fill(0);
    new_modes.fill(0);

    let mut at = 0;
    let before = counts.iter().zip(queues).zip(modes);
    for ((cell, mine), ((&count, &queue), &mode)) in with_pieces(old, pieces, new).zip(before) {
        new_queues[at] = queue;
        new_modes[at + mine.len() - 1] = mode;
        let (mut jam, mut given) = (0, 0);
        for (row, new_count) in mine.iter().zip(&mut new_counts[at..]) {
            jam += u64::from(Cell::of(row).jam);
            let so_far = (u64::from(count) * jam / u64::from(cell.jam)) as u32;
            *new_count = so_far - given;
            given = so_far;
        }
        at += mine.len();
    }
}
