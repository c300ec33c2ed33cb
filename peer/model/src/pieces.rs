//! What the re-cut and the join share: two tables, of which one holds the pieces of the other's cells.

use crate::corridor::{ramps, ranges, rows, shape, shares, state_rules, Cell, Rows};
use crate::{state_length, Answer, Refusal};

/// The rows of the old table and of the new one, or number 1 when a table or its state has a wrong length.
pub(crate) fn both_rows<'a>(
    old_table: &'a [u32],
    old_state: &[u32],
    new_table: &'a [u32],
    new_state: &[u32],
) -> Answer<(Rows<'a>, Rows<'a>)> {
    let old = rows(old_table)?;
    shape(old_state.len() == state_length(old.len()))?;
    let new = rows(new_table)?;
    shape(new_state.len() == state_length(new.len()))?;
    Ok((old, new))
}

/// Numbers 2 to 5. Of each number the old table's check comes before the new one's.
pub(crate) fn both_rules(old: Rows, old_state: &[u32], new: Rows) -> Answer {
    for rule in [ranges, shares, ramps] {
        rule(old)?;
        rule(new)?;
    }
    state_rules(old, old_state)
}

/// The refusal `number`: at place 0 when the sizes don't add up to the pieces, else at the first cell, counted from 1, that
/// the pieces it gets by its size are not pieces of.
pub(crate) fn piece_rules(number: u32, cells: Rows, sizes: &[u32], pieces: Rows) -> Answer {
    let total: u64 = sizes.iter().map(|&size| u64::from(size)).sum();
    if total != pieces.len() as u64 {
        return Err(Refusal::new(number, 0));
    }
    match with_pieces(cells, sizes, pieces).position(|(cell, mine)| !are_pieces_of(cell, mine)) {
        None => Ok(()),
        Some(cell) => Err(Refusal::new(number, cell + 1)),
    }
}

/// Each cell with its pieces, as many rows as its size says. The sizes must have been seen to add up to the pieces.
pub(crate) fn with_pieces<'a>(
    cells: Rows<'a>,
    sizes: &'a [u32],
    pieces: Rows<'a>,
) -> impl Iterator<Item = (Cell, Rows<'a>)> {
    let mut rest = pieces;
    cells.iter().zip(sizes).map(move |(row, &size)| {
        let (mine, later) = rest.split_at(size as usize);
        rest = later;
        (Cell::of(row), mine)
    })
}

/// The rows are pieces of the cell: at least one, the jam counts sum, the ramps are at the ends and nowhere else.
fn are_pieces_of(cell: Cell, mine: Rows) -> bool {
    let Some(last) = mine.len().checked_sub(1) else {
        return false;
    };
    let jam: u64 = mine.iter().map(|row| u64::from(Cell::of(row).jam)).sum();
    jam == u64::from(cell.jam)
        && mine.iter().map(Cell::of).enumerate().all(|(i, piece)| {
            let on = if i == 0 { (cell.on, cell.c) } else { (0, 0) };
            let off = if i == last { (cell.off, cell.b) } else { (0, 0) };
            (piece.on, piece.c) == on && (piece.off, piece.b) == off
        })
}
