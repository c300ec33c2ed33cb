//! The run in C with the columns in arrays of their own, behind a safe call.

use model::{accept_state, demand_length, sheet_length, Refusal, RunAnswer, COLUMNS, MOST_PERIODS};

extern "C" {
    fn yardstick_run(
        table: *const u32,
        cells: usize,
        state: *mut u32,
        demand: *const u32,
        rows: usize,
        sheet: *mut u32,
    ) -> u64;
}

/// A run with the answers of [`model::run`]; table and state are accepted by the model, the rows by the C code.
pub fn run(table: &[u32], state: &mut [u32], demand: &[u32], sheet: &mut [u32]) -> RunAnswer {
    let cells = table.len() / COLUMNS;
    let row = demand_length(cells);
    let shape =
        demand.len().is_multiple_of(row) && demand.len() / row <= MOST_PERIODS && sheet.len() == sheet_length(cells);
    let answer = match accept_state(table, state) {
        Err(refusal) if !shape && refusal.number > 1 => Err(Refusal { number: 1, place: 0 }),
        Ok(()) if !shape => Err(Refusal { number: 1, place: 0 }),
        answer => answer,
    };
    if answer.is_err() {
        return RunAnswer { periods: 0, answer };
    }

    // SAFETY: the lists have the lengths that the C code goes by, N is at most 512, the mutable lists are not shared, and
    // the table and the state are in their ranges, so that no count or index leaves its list.
    let word = unsafe {
        yardstick_run(
            table.as_ptr(),
            cells,
            state.as_mut_ptr(),
            demand.as_ptr(),
            demand.len() / row,
            sheet.as_mut_ptr(),
        )
    };
    RunAnswer::from_word(word)
}
