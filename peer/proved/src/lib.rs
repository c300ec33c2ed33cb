//! A thin safe wrapper of the proved library.
//!
//! The archive is linked when the environment variable FIGWIMPLE_ARCHIVE names it as this crate is built; [`library`]
//! answers the proved functions if it was, and nothing if it was not.

use model::Face;

/// The proved functions, when the archive is linked.
pub fn library() -> Option<&'static dyn Face> {
    #[cfg(figwimple_archive)]
    return Some(&linked::Library);
    #[cfg(not(figwimple_archive))]
    return None;
}

#[cfg(figwimple_archive)]
mod linked {
    use model::{Face, Settings};

    // A slice is passed as its pointer and its length.
    #[rustfmt::skip]
    extern "C" {
        fn figwimple_accept_table(table: *const u32, table_length: usize) -> u64;
        fn figwimple_accept_state(
            table: *const u32, table_length: usize, state: *const u32, state_length: usize) -> u64;
        fn figwimple_accept_row(
            table: *const u32, table_length: usize, state: *const u32, state_length: usize,
            demand: *const u32, demand_length: usize) -> u64;
        fn figwimple_period(
            table: *const u32, table_length: usize, state: *mut u32, state_length: usize,
            demand: *const u32, demand_length: usize, sheet: *mut u32, sheet_length: usize) -> u64;
        fn figwimple_run(
            table: *const u32, table_length: usize, state: *mut u32, state_length: usize,
            demand: *const u32, demand_length: usize, sheet: *mut u32, sheet_length: usize) -> u64;
        fn figwimple_recut(
            old_table: *const u32, old_table_length: usize, old_state: *const u32, old_state_length: usize,
            pieces: *const u32, pieces_length: usize, new_table: *const u32, new_table_length: usize,
            new_state: *mut u32, new_state_length: usize) -> u64;
        fn figwimple_join(
            old_table: *const u32, old_table_length: usize, old_state: *const u32, old_state_length: usize,
            groups: *const u32, groups_length: usize, new_table: *const u32, new_table_length: usize,
            new_state: *mut u32, new_state_length: usize) -> u64;
        fn figwimple_calibrate(
            flow: *const f64, flow_length: usize, occupancy: *const f64, occupancy_length: usize,
            g: f64, lanes: u32, t: u32, l: f64, start: usize, end: usize,
            diagram: *mut f64, diagram_length: usize, row: *mut u32, row_length: usize) -> u64;
    }

    pub struct Library;

    // SAFETY, for each call below: every pointer and length come from one slice that is lent for the whole call, the
    // mutable ones to this call alone; the functions take every input, keep no pointer, and read and write within the
    // lengths they are given, which is what their proofs say.
    #[rustfmt::skip]
    impl Face for Library {
        fn accept_table(&self, table: &[u32]) -> u64 {
            unsafe { figwimple_accept_table(table.as_ptr(), table.len()) }
        }

        fn accept_state(&self, table: &[u32], state: &[u32]) -> u64 {
            unsafe { figwimple_accept_state(table.as_ptr(), table.len(), state.as_ptr(), state.len()) }
        }

        fn accept_row(&self, table: &[u32], state: &[u32], demand: &[u32]) -> u64 {
            unsafe {
                figwimple_accept_row(
                    table.as_ptr(), table.len(), state.as_ptr(), state.len(), demand.as_ptr(), demand.len())
            }
        }

        fn period(&self, table: &[u32], state: &mut [u32], demand: &[u32], sheet: &mut [u32]) -> u64 {
            unsafe {
                figwimple_period(
                    table.as_ptr(), table.len(), state.as_mut_ptr(), state.len(),
                    demand.as_ptr(), demand.len(), sheet.as_mut_ptr(), sheet.len())
            }
        }

        fn run(&self, table: &[u32], state: &mut [u32], demand: &[u32], sheet: &mut [u32]) -> u64 {
            unsafe {
                figwimple_run(
                    table.as_ptr(), table.len(), state.as_mut_ptr(), state.len(),
                    demand.as_ptr(), demand.len(), sheet.as_mut_ptr(), sheet.len())
            }
        }

        fn recut(
            &self, old_table: &[u32], old_state: &[u32], pieces: &[u32], new_table: &[u32], new_state: &mut [u32],
        ) -> u64 {
            unsafe {
                figwimple_recut(
                    old_table.as_ptr(), old_table.len(), old_state.as_ptr(), old_state.len(),
                    pieces.as_ptr(), pieces.len(), new_table.as_ptr(), new_table.len(),
                    new_state.as_mut_ptr(), new_state.len())
            }
        }

        fn join(
            &self, old_table: &[u32], old_state: &[u32], groups: &[u32], new_table: &[u32], new_state: &mut [u32],
        ) -> u64 {
            unsafe {
                figwimple_join(
                    old_table.as_ptr(), old_table.len(), old_state.as_ptr(), old_state.len(),
                    groups.as_ptr(), groups.len(), new_table.as_ptr(), new_table.len(),
                    new_state.as_mut_ptr(), new_state.len())
            }
        }

        fn calibrate(
            &self, flow: &[f64], occupancy: &[f64], settings: &Settings, diagram: &mut [f64], row: &mut [u32],
        ) -> u64 {
            let &Settings { g, lanes, period, length, start, end } = settings;
            unsafe {
                figwimple_calibrate(
                    flow.as_ptr(), flow.len(), occupancy.as_ptr(), occupancy.len(),
                    g, lanes, period, length, start, end,
                    diagram.as_mut_ptr(), diagram.len(), row.as_mut_ptr(), row.len())
            }
        }
    }
}
