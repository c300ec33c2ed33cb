//! One period of the model, and a run of periods.

use crate::corridor::{parts, parts_mut, row_rules, rows, shape, state_rules, table_rules, Cell, Rows};
use crate::{demand_length, sheet_length, state_length, Answer, Refusal, MOST_PERIODS, ONE};

/// `share` over ONE of `vehicles`, rounded down.
#[inline]
fn part(share: u32, vehicles: u32) -> u32 {
    (u64::from(share) * u64::from(vehicles) / u64::from(ONE)) as u32
}

/// Takes an accepted state through one period of an accepted demand row and writes the period's sheet.
///
/// Everything is worked out from the counts and modes at the period's start: the pass goes down the road, so the count of
/// the next cell is still the old one when its room is asked for, and the flow from upstream is carried along. A cell's old
/// mode says which capacity holds, and only then does the new one take its place.
pub(crate) fn step(rows: Rows, state: &mut [u32], demand: &[u32], sheet: &mut [u32]) {
    let cells = rows.len();
    let (entry_queue, [counts, queues, modes]) = parts_mut(cells, state);
    let (entry_demand, [on_demand, off_demand]) = parts(cells, demand);
    let (entry_flow, [flows, off_flows, on_flows, sheet_modes]) = parts_mut(cells, sheet);

    let room = |cell: &Cell, count: u32| part(cell.w, cell.jam - count);

    let mut cell = Cell::of(&rows[0]);
    let waiting = *entry_queue + entry_demand;
    let mut inflow = waiting.min(room(&cell, counts[0]));
    *entry_queue = waiting - inflow;
    *entry_flow = inflow;

    for i in 0..cells {
        let count = counts[i];
        let mut next = cell;
        let mut most = cell.capacity_after(modes[i]);
        if i + 1 < cells {
            next = Cell::of(&rows[i + 1]);
            most = most.min(room(&next, counts[i + 1]));
        }

        // `o` is 0 but for an off-ramp whose flow is given, and b is 0 but for one with a split.
        let ready = part(cell.v, count);
        let (wanted, flow, off_flow);
        if cell.b == 0 {
            off_flow = off_demand[i].min(ready);
            wanted = ready - off_flow;
            flow = wanted.min(most);
        } else {
            wanted = part(ONE - cell.b, ready);
            flow = wanted.min(most);
            off_flow = (u64::from(flow) * u64::from(cell.b) / u64::from(ONE - cell.b)) as u32;
        }

        // Without an on-ramp the queue, the demand, x and c are all 0.
        let waiting = queues[i] + on_demand[i];
        let on_flow = waiting.min(part(cell.x, cell.jam - count)).min(cell.c);

        counts[i] = count + inflow + on_flow - flow - off_flow;
        queues[i] = waiting - on_flow;
        flows[i] = flow;
        off_flows[i] = off_flow;
        on_flows[i] = on_flow;
        modes[i] = u32::from(wanted >= most);
        sheet_modes[i] = modes[i];

        inflow = flow;
        cell = next;
    }
}

/// The same as [`step`], each number by its index in its list: what this takes more is what testing the indexes costs.
pub(crate) fn step_indexed(rows: Rows, state: &mut [u32], demand: &[u32], sheet: &mut [u32]) {
    let n = rows.len();
    let room = |cell: &Cell, count: u32| part(cell.w, cell.jam - count);

    let waiting = state[0] + demand[0];
    sheet[0] = waiting.min(room(&Cell::of(&rows[0]), state[1]));
    state[0] = waiting - sheet[0];
    for i in 0..n {
        let cell = Cell::of(&rows[i]);
        let count = state[1 + i];
        let mut most = cell.capacity_after(state[1 + 2 * n + i]);
        if i + 1 < n {
            most = most.min(room(&Cell::of(&rows[i + 1]), state[2 + i]));
        }

        let ready = part(cell.v, count);
        let (wanted, off_flow);
        if cell.b == 0 {
            off_flow = demand[1 + n + i].min(ready);
            wanted = ready - off_flow;
        } else {
            wanted = part(ONE - cell.b, ready);
            let flow = u64::from(wanted.min(most));
            off_flow = (flow * u64::from(cell.b) / u64::from(ONE - cell.b)) as u32;
        }
        let flow = wanted.min(most);

        let waiting = state[1 + n + i] + demand[1 + i];
        let on_flow = waiting.min(part(cell.x, cell.jam - count)).min(cell.c);
        state[1 + i] = count + sheet[i] + on_flow - flow - off_flow;
        state[1 + n + i] = waiting - on_flow;
        sheet[1 + i] = flow;
        sheet[1 + n + i] = off_flow;
        sheet[1 + 2 * n + i] = on_flow;
        state[1 + 2 * n + i] = u32::from(wanted >= most);
        sheet[1 + 3 * n + i] = state[1 + 2 * n + i];
    }
}

/// One period: accepts table, state and row (numbers 1 to 7), then moves the state and writes the flow sheet.
pub fn period(table: &[u32], state: &mut [u32], demand: &[u32], sheet: &mut [u32]) -> Answer {
    let rows = rows(table)?;
    shape(state.len() == state_length(rows.len()))?;
    shape(demand.len() == demand_length(rows.len()))?;
    shape(sheet.len() == sheet_length(rows.len()))?;
    table_rules(rows)?;
    state_rules(rows, state)?;
    row_rules(rows, state, demand)?;
    step(rows, state, demand, sheet);
    Ok(())
}

/// What a run answers: the periods completed, and why it ended before the last row if it did.
#[derive(Clone, Copy, Debug, PartialEq, Eq)]
pub struct RunAnswer {
    pub periods: u32,
    pub answer: Answer,
}

impl RunAnswer {
    /// The periods times 2^40 plus the answer's word.
    pub fn to_word(self) -> u64 {
        u64::from(self.periods) << 40 | Refusal::word(&self.answer)
    }

    pub fn from_word(word: u64) -> RunAnswer {
        RunAnswer { periods: (word >> 40) as u32, answer: Refusal::from_word(word) }
    }
}

/// A run over demand rows laid end to end, 0 to 4,096 of them.
///
/// Refused at a later row, it leaves the state after the completed periods and the last completed period's sheet.
pub fn run(table: &[u32], state: &mut [u32], demand: &[u32], sheet: &mut [u32]) -> RunAnswer {
    run_by(step, table, state, demand, sheet)
}

/// The same run by [`step_indexed`].
pub fn run_indexed(table: &[u32], state: &mut [u32], demand: &[u32], sheet: &mut [u32]) -> RunAnswer {
    run_by(step_indexed, table, state, demand, sheet)
}

/// A run whose accepted rows are taken by `step`.
#[inline]
fn run_by(
    step: impl Fn(Rows, &mut [u32], &[u32], &mut [u32]),
    table: &[u32],
    state: &mut [u32],
    demand: &[u32],
    sheet: &mut [u32],
) -> RunAnswer {
    let mut periods = 0;
    let answer = run_counting(step, table, state, demand, sheet, &mut periods);
    RunAnswer { periods, answer }
}

#[inline]
fn run_counting(
    step: impl Fn(Rows, &mut [u32], &[u32], &mut [u32]),
    table: &[u32],
    state: &mut [u32],
    demand: &[u32],
    sheet: &mut [u32],
    periods: &mut u32,
) -> Answer {
    let rows = rows(table)?;
    let row_length = demand_length(rows.len());
    shape(state.len() == state_length(rows.len()))?;
    shape(demand.len().is_multiple_of(row_length) && demand.len() / row_length <= MOST_PERIODS)?;
    shape(sheet.len() == sheet_length(rows.len()))?;
    table_rules(rows)?;
    state_rules(rows, state)?;
    for row in demand.chunks_exact(row_length) {
        row_rules(rows, state, row)?;
        step(rows, state, row, sheet);
        *periods += 1;
    }
    Ok(())
}
