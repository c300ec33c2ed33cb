//! The functions as the C interface has them: slices and numbers in, one word out.

use crate::{accept_row, accept_state, accept_table, calibrate, join, period, recut, run, Refusal, Settings};

/// An implementation of the model behind the C interface. Each function answers count·2^40 + number·2^32 + place,
/// with number 0 for accepted; the count is of the periods that a run completed, else 0. Further results go to lent lists,
/// and one of the wrong length is number 1.
pub trait Face {
    fn accept_table(&self, table: &[u32]) -> u64;

    fn accept_state(&self, table: &[u32], state: &[u32]) -> u64;

    fn accept_row(&self, table: &[u32], state: &[u32], demand: &[u32]) -> u64;

    fn period(&self, table: &[u32], state: &mut [u32], demand: &[u32], sheet: &mut [u32]) -> u64;

    /// The periods completed are counted whether the run is refused or not.
    fn run(&self, table: &[u32], state: &mut [u32], demand: &[u32], sheet: &mut [u32]) -> u64;

    fn recut(
        &self,
        old_table: &[u32],
        old_state: &[u32],
        pieces: &[u32],
        new_table: &[u32],
        new_state: &mut [u32],
    ) -> u64;

    fn join(
        &self,
        old_table: &[u32],
        old_state: &[u32],
        groups: &[u32],
        new_table: &[u32],
        new_state: &mut [u32],
    ) -> u64;

    /// `diagram`, of length 5, gets speed, capacity, critical, wave and jam; `row`, of length 4, gets v, w, F and J.
    fn calibrate(
        &self,
        flow: &[f64],
        occupancy: &[f64],
        settings: &Settings,
        diagram: &mut [f64],
        row: &mut [u32],
    ) -> u64;
}

/// This crate's own functions behind the interface.
#[derive(Clone, Copy, Debug, Default)]
pub struct Model;

impl Face for Model {
    fn accept_table(&self, table: &[u32]) -> u64 {
        Refusal::word(&accept_table(table))
    }

    fn accept_state(&self, table: &[u32], state: &[u32]) -> u64 {
        Refusal::word(&accept_state(table, state))
    }

    fn accept_row(&self, table: &[u32], state: &[u32], demand: &[u32]) -> u64 {
        Refusal::word(&accept_row(table, state, demand))
    }

    fn period(&self, table: &[u32], state: &mut [u32], demand: &[u32], sheet: &mut [u32]) -> u64 {
        Refusal::word(&period(table, state, demand, sheet))
    }

    fn run(&self, table: &[u32], state: &mut [u32], demand: &[u32], sheet: &mut [u32]) -> u64 {
        run(table, state, demand, sheet).to_word()
    }

    fn recut(
        &self,
        old_table: &[u32],
        old_state: &[u32],
        pieces: &[u32],
        new_table: &[u32],
        new_state: &mut [u32],
    ) -> u64 {
        Refusal::word(&recut(old_table, old_state, pieces, new_table, new_state))
    }

    fn join(
        &self,
        old_table: &[u32],
        old_state: &[u32],
        groups: &[u32],
        new_table: &[u32],
        new_state: &mut [u32],
    ) -> u64 {
        Refusal::word(&join(old_table, old_state, groups, new_table, new_state))
    }

    fn calibrate(
        &self,
        flow: &[f64],
        occupancy: &[f64],
        settings: &Settings,
        diagram: &mut [f64],
        row: &mut [u32],
    ) -> u64 {
        if diagram.len() != 5 || row.len() != 4 {
            return Refusal::SHAPE.to_word();
        }
        let answer = calibrate(flow, occupancy, settings);
        if let Ok((fitted, values)) = &answer {
            diagram.copy_from_slice(&fitted.to_array());
            row.copy_from_slice(&values.to_array());
        }
        Refusal::word(&answer)
    }
}
