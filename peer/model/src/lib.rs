//! The freeway cell model in plain Rust: acceptance, one period, a run, the re-cut, the join, calibration and the
//! run program.
//!
//! Written from the rules alone (docs/RULES.md), as an independent peer of the proved implementation. Vehicles are whole
//! thousandths, shares are whole numbers over [`ONE`], and every list is a slice of `u32` (calibration: of `f64`).
#![forbid(unsafe_code)]

mod calibration;
mod corridor;
mod face;
mod join;
mod period;
mod pieces;
mod program;
mod recut;
mod refusal;
mod text;

pub use calibration::{calibrate, fit, row_values, Cause, Diagram, RowValues, Sample, Settings};
pub use corridor::{accept_row, accept_state, accept_table};
pub use face::{Face, Model};
pub use join::join;
pub use period::{period, run, run_indexed, RunAnswer};
pub use program::{simulate, simulate_with, File};
pub use recut::recut;
pub use refusal::{Answer, Refusal};
pub use text::{decimal, read_whole, write_record, Next, Records, LONGEST_RECORD};

/// The whole that shares are counted over.
pub const ONE: u32 = 65_536;
/// Numbers in a table row.
pub const COLUMNS: usize = 10;
/// The most cells a table has.
pub const MOST_CELLS: usize = 512;
/// The most demand rows a run takes.
pub const MOST_PERIODS: usize = 4_096;
/// The most samples calibration takes.
pub const MOST_SAMPLES: usize = 65_536;
/// The largest queue.
pub const MOST_QUEUE: u32 = 1_000_000_000;
/// The largest capacity, on-ramp limit and demand for one period.
pub const MOST_FLOW: u32 = 1_000_000;
/// The largest jam count.
pub const MOST_JAM: u32 = 4_000_000;
/// The largest ramp number, and the largest x and b.
pub const MOST_RAMP: u32 = 65_535;

/// Numbers in the state of `cells` cells.
pub const fn state_length(cells: usize) -> usize {
    3 * cells + 1
}

/// Numbers in one demand row of `cells` cells.
pub const fn demand_length(cells: usize) -> usize {
    2 * cells + 1
}

/// Numbers in the flow sheet of `cells` cells.
pub const fn sheet_length(cells: usize) -> usize {
    4 * cells + 1
}
