//! Cell tables, states and demand rows, and what makes each acceptable.

use std::array;
use std::mem;

use crate::{
    demand_length, state_length, Answer, Refusal, COLUMNS, MOST_CELLS, MOST_FLOW, MOST_JAM, MOST_QUEUE, MOST_RAMP, ONE,
};

/// One row of a cell table, its columns by name.
#[derive(Clone, Copy)]
pub(crate) struct Cell {
    pub v: u32,
    pub w: u32,
    pub capacity: u32,
    pub jam: u32,
    pub on: u32,
    pub x: u32,
    pub c: u32,
    pub off: u32,
    pub b: u32,
    pub dropped: u32,
}

impl Cell {
    #[inline]
    pub fn of(&[v, w, capacity, jam, on, x, c, off, b, dropped]: &[u32; COLUMNS]) -> Cell {
        Cell { v, w, capacity, jam, on, x, c, off, b, dropped }
    }

    /// The capacity that holds after a period in which the cell was in this mode.
    #[inline]
    pub fn capacity_after(&self, mode: u32) -> u32 {
        if mode == 0 {
            self.capacity
        } else {
            self.dropped
        }
    }

    /// Each number is in its range.
    #[inline]
    fn in_range(&self) -> bool {
        let within = |number: u32, least: u32, most: u32| (least..=most).contains(&number);
        let on_ramp = match self.on {
            0 => self.x == 0 && self.c == 0,
            on => on <= MOST_RAMP && within(self.x, 1, MOST_RAMP) && within(self.c, 1, MOST_FLOW),
        };
        let off_ramp = match self.off {
            0 => self.b == 0,
            off => off <= MOST_RAMP && self.b <= MOST_RAMP,
        };
        within(self.v, 1, ONE)
            && within(self.w, 1, ONE)
            && within(self.capacity, 1, MOST_FLOW)
            && within(self.dropped, 1, self.capacity)
            && within(self.jam, 1, MOST_JAM)
            && on_ramp
            && off_ramp
    }

    /// The most the on-ramp's demand can be.
    #[inline]
    fn most_on(&self) -> u32 {
        if self.on == 0 {
            0
        } else {
            MOST_FLOW
        }
    }

    /// The most the off-ramp's demand can be: only an off-ramp without a split has one.
    #[inline]
    fn most_off(&self) -> u32 {
        if self.off == 0 || self.b != 0 {
            0
        } else {
            MOST_FLOW
        }
    }
}

/// The rows of a table whose length is right.
pub(crate) type Rows<'a> = &'a [[u32; COLUMNS]];

/// The rows of a table, or number 1 when its length is no whole number of rows, 1 to 512.
pub(crate) fn rows(table: &[u32]) -> Answer<Rows<'_>> {
    match table.as_chunks() {
        (rows, []) if (1..=MOST_CELLS).contains(&rows.len()) => Ok(rows),
        _ => Err(Refusal::SHAPE),
    }
}

/// Number 1 unless `right`.
pub(crate) fn shape(right: bool) -> Answer {
    if right {
        Ok(())
    } else {
        Err(Refusal::SHAPE)
    }
}

/// The refusal `number` at the first cell, counted from 1, that `breaks` the rule.
fn first_cell(rows: Rows, number: u32, breaks: impl Fn(Cell) -> bool) -> Answer {
    match rows.iter().position(|row| breaks(Cell::of(row))) {
        None => Ok(()),
        Some(cell) => Err(Refusal::new(number, cell + 1)),
    }
}

/// Number 2: a table number outside its range.
pub(crate) fn ranges(rows: Rows) -> Answer {
    first_cell(rows, 2, |cell| !cell.in_range())
}

/// Number 3: w + x over ONE.
pub(crate) fn shares(rows: Rows) -> Answer {
    first_cell(rows, 3, |cell| cell.w + cell.x > ONE)
}

/// Number 4: a ramp number used again, at the later cell.
pub(crate) fn ramps(rows: Rows) -> Answer {
    let mut seen = [0u64; (MOST_RAMP as usize + 1) / 64];
    let mut again = |ramp: u32| {
        let word = &mut seen[ramp as usize / 64 % 1024];
        let bit = 1u64 << (ramp % 64);
        let used = ramp != 0 && *word & bit != 0;
        *word |= bit;
        used
    };
    for (cell, row) in rows.iter().enumerate() {
        let Cell { on, off, .. } = Cell::of(row);
        if again(on) || again(off) {
            return Err(Refusal::new(4, cell + 1));
        }
    }
    Ok(())
}

/// Numbers 2 to 4.
pub(crate) fn table_rules(rows: Rows) -> Answer {
    ranges(rows)?;
    shares(rows)?;
    ramps(rows)
}

/// Number 5: a state number outside its range.
pub(crate) fn state_rules(rows: Rows, state: &[u32]) -> Answer {
    let (entry, [counts, queues, modes]) = parts(rows.len(), state);
    if entry > MOST_QUEUE {
        return Err(Refusal::new(5, 0));
    }
    let breaks = |(((row, &count), &queue), &mode): (((&[u32; COLUMNS], &u32), &u32), &u32)| {
        let cell = Cell::of(row);
        let most_queue = if cell.on == 0 { 0 } else { MOST_QUEUE };
        count > cell.jam || queue > most_queue || mode > 1
    };
    match rows.iter().zip(counts).zip(queues).zip(modes).position(breaks) {
        None => Ok(()),
        Some(cell) => Err(Refusal::new(5, cell + 1)),
    }
}

/// Numbers 6 and 7: a demand outside its range, then a queue that its demand would take over the limit.
#[inline]
pub(crate) fn row_rules(rows: Rows, state: &[u32], demand: &[u32]) -> Answer {
    let (entry_queue, [_, queues, _]) = parts(rows.len(), state);
    let (entry, [on, off]) = parts(rows.len(), demand);

    let mut broken = entry > MOST_FLOW;
    let mut full = entry_queue > MOST_QUEUE - entry.min(MOST_FLOW);
    for (((row, &d), &o), &queue) in rows.iter().zip(on).zip(off).zip(queues) {
        let cell = Cell::of(row);
        broken |= d > cell.most_on() || o > cell.most_off();
        full |= queue > MOST_QUEUE - d.min(MOST_FLOW);
    }
    if broken || full {
        Err(row_refusal(rows, state, demand))
    } else {
        Ok(())
    }
}

/// The number and place for a demand row that breaks a rule.
#[cold]
fn row_refusal(rows: Rows, state: &[u32], demand: &[u32]) -> Refusal {
    let (entry_queue, [_, queues, _]) = parts(rows.len(), state);
    let (entry, [on, off]) = parts(rows.len(), demand);
    let place = |entry_breaks: bool, cell: Option<usize>| match entry_breaks {
        true => Some(0),
        false => cell.map(|cell| cell + 1),
    };

    let out_of_range = rows.iter().zip(on).zip(off).position(|((row, &d), &o)| {
        let cell = Cell::of(row);
        d > cell.most_on() || o > cell.most_off()
    });
    if let Some(place) = place(entry > MOST_FLOW, out_of_range) {
        return Refusal::new(6, place);
    }
    let too_long = queues.iter().zip(on).position(|(&queue, &d)| queue + d > MOST_QUEUE);
    let place = place(entry_queue + entry > MOST_QUEUE, too_long);
    Refusal::new(7, place.expect("a refused row breaks rule 6 or rule 7"))
}

/// A state, a demand row or a sheet as its first number and its columns, each with a number for every cell.
#[inline]
pub(crate) fn parts<const N: usize>(cells: usize, list: &[u32]) -> (u32, [&[u32]; N]) {
    (list[0], array::from_fn(|column| &list[1 + column * cells..][..cells]))
}

/// The same parts of a list that is to be written.
#[inline]
pub(crate) fn parts_mut<const N: usize>(cells: usize, list: &mut [u32]) -> (&mut u32, [&mut [u32]; N]) {
    let (first, mut rest) = list.split_first_mut().expect("a list has a first number");
    let columns = array::from_fn(|_| {
        let (column, later) = mem::take(&mut rest).split_at_mut(cells);
        rest = later;
        column
    });
    (first, columns)
}

/// Accepts a cell table: numbers 1 to 4.
pub fn accept_table(table: &[u32]) -> Answer {
    table_rules(rows(table)?)
}

/// Accepts a state for a table: numbers 1 to 5.
pub fn accept_state(table: &[u32], state: &[u32]) -> Answer {
    let rows = rows(table)?;
    shape(state.len() == state_length(rows.len()))?;
    table_rules(rows)?;
    state_rules(rows, state)
}

/// Accepts a demand row for a table and a state: numbers 1 to 7.
pub fn accept_row(table: &[u32], state: &[u32], demand: &[u32]) -> Answer {
    let rows = rows(table)?;
    shape(state.len() == state_length(rows.len()))?;
    shape(demand.len() == demand_length(rows.len()))?;
    table_rules(rows)?;
    state_rules(rows, state)?;
    row_rules(rows, state, demand)
}
