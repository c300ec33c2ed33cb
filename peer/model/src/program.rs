//! The run program: three texts in, a flow sheet out.

use std::io::{self, ErrorKind, Read, Write};

use crate::corridor::{parts, row_rules, rows, state_rules, table_rules};
use crate::period::step;
use crate::text::{decimal, write_record, Next, Records};
use crate::{demand_length, sheet_length, state_length, Refusal, COLUMNS, MOST_CELLS};

/// The three files, with the numbers they have in a refusal line.
#[derive(Clone, Copy, Debug, PartialEq, Eq)]
pub enum File {
    Cells = 1,
    State = 2,
    Demand = 3,
}

impl File {
    pub const ALL: [File; 3] = [File::Cells, File::State, File::Demand];

    pub fn name(self) -> &'static str {
        match self {
            File::Cells => "cells.csv",
            File::State => "state.csv",
            File::Demand => "demand.csv",
        }
    }
}

const HEADER: &[u8] = b"k,i,n,f,s,r,mode\r\n";
/// The output is passed on whenever it has grown to this many bytes.
const ENOUGH: usize = 1 << 16;

/// Why the program ends before the demand does.
enum Stop {
    Refused {
        period: u64,
        place: u64,
        number: u32,
        file: u32,
    },
    /// A file is missing or can't be read on.
    Lost {
        period: u64,
        file: File,
        error: io::Error,
    },
    /// The output can't be written.
    Failed(io::Error),
}

impl Stop {
    /// A record of a file is broken, missing or one too many.
    fn record(period: u64, place: u64, file: File) -> Stop {
        Stop::Refused { period, place, number: 12, file: file as u32 }
    }

    /// What a failed read comes to, while a period is tried.
    fn lost(period: u64, file: File) -> impl Fn(io::Error) -> Stop {
        move |error| Stop::Lost { period, file, error }
    }

    fn rule(period: u64, refusal: Refusal) -> Stop {
        let Refusal { number, place } = refusal;
        Stop::Refused { period, place: place.into(), number, file: 0 }
    }
}

/// The whole program from three optional texts to the output.
pub fn simulate(cells: Option<&[u8]>, state: Option<&[u8]>, demand: Option<&[u8]>) -> Vec<u8> {
    let open = |file| {
        match file {
            File::Cells => cells,
            File::State => state,
            File::Demand => demand,
        }
        .ok_or(ErrorKind::NotFound.into())
    };
    let mut out = Vec::new();
    simulate_with(open, |_, _| {}, &mut out).expect("a vector is written without failing");
    out
}

/// The program over the files that `open` gives. A file is opened when its turn comes and read through a buffer of fixed size. One
/// that can't be opened, or can't be read on, is told to `lost`, and is a refusal like any other: a part of the output. The
/// error is a failed write.
pub fn simulate_with<R: Read>(
    mut open: impl FnMut(File) -> io::Result<R>,
    mut lost: impl FnMut(File, io::Error),
    mut out: impl Write,
) -> io::Result<()> {
    let mut text = HEADER.to_vec();
    match periods(&mut open, &mut out, &mut text) {
        Ok(()) => {}
        Err(Stop::Refused { period, place, number, file }) => {
            write_record(&mut text, [period, place, number.into(), file.into(), 0, 0, 2]);
        }
        Err(Stop::Lost { period, file, error }) => {
            lost(file, error);
            write_record(&mut text, [period, 0, 12, file as u64, 0, 0, 2]);
        }
        Err(Stop::Failed(error)) => return Err(error),
    }
    out.write_all(&text)?;
    out.flush()
}

fn periods<R: Read>(
    open: &mut impl FnMut(File) -> io::Result<R>,
    out: &mut impl Write,
    text: &mut Vec<u8>,
) -> Result<(), Stop> {
    let mut open = |file| open(file).map(Records::new).map_err(Stop::lost(0, file));

    let table = read_cells(open(File::Cells)?)?;
    let rows = rows(&table).map_err(|refusal| Stop::rule(0, refusal))?;
    let mut state = read_state(open(File::State)?, rows.len())?;
    table_rules(rows).map_err(|refusal| Stop::rule(0, refusal))?;
    state_rules(rows, &state).map_err(|refusal| Stop::rule(0, refusal))?;

    let mut demand = open(File::Demand)?;
    let mut row = vec![0; demand_length(rows.len())];
    let mut sheet = vec![0; sheet_length(rows.len())];
    for period in 1.. {
        match demand.next(&mut row).map_err(Stop::lost(period, File::Demand))? {
            Next::End => break,
            Next::Broken => return Err(Stop::record(period, period, File::Demand)),
            Next::Record => {}
        }
        row_rules(rows, &state, &row).map_err(|refusal| Stop::rule(period, refusal))?;
        step(rows, &mut state, &row, &mut sheet);
        write_period(text, period, rows.len(), &state, &sheet);
        if text.len() >= ENOUGH {
            out.write_all(text).map_err(Stop::Failed)?;
            text.clear();
        }
    }
    Ok(())
}

/// The numbers of the cells, read to the file's end. Rows beyond the first that is too many are checked and not kept.
fn read_cells<R: Read>(mut records: Records<R>) -> Result<Vec<u32>, Stop> {
    let mut table = Vec::new();
    let mut row = [0; COLUMNS];
    for record in 1.. {
        match records.next(&mut row).map_err(Stop::lost(0, File::Cells))? {
            Next::End => break,
            Next::Broken => return Err(Stop::record(0, record, File::Cells)),
            Next::Record if table.len() <= MOST_CELLS * COLUMNS => table.extend_from_slice(&row),
            Next::Record => {}
        }
    }
    Ok(table)
}

/// The one record of the state.
fn read_state<R: Read>(mut records: Records<R>, cells: usize) -> Result<Vec<u32>, Stop> {
    let mut state = vec![0; state_length(cells)];
    let lost = Stop::lost(0, File::State);
    if records.next(&mut state).map_err(&lost)? != Next::Record {
        return Err(Stop::record(0, 1, File::State));
    }
    match records.next(&mut []).map_err(&lost)? {
        Next::End => Ok(state),
        _ => Err(Stop::record(0, 2, File::State)),
    }
}

/// Appends the lines of one period: the entry's, then one for each cell.
fn write_period(text: &mut Vec<u8>, period: u64, cells: usize, state: &[u32], sheet: &[u32]) {
    // A line is put together from its end, where the digits of a number come first.
    const END: usize = 2 + 5 * 11 + 4 + 20;
    let mut bytes = [b','; END];
    bytes[END - 2..].copy_from_slice(b"\r\n");
    let mut place = [0; 20];
    let period = {
        let at = decimal(period, &mut place, 20);
        &place[at..]
    };
    let mut line = |cell: usize, fields: [u32; 5]| {
        let mut at = END - 2;
        for field in fields.into_iter().rev() {
            at = decimal(field.into(), &mut bytes, at) - 1;
            bytes[at] = b',';
        }
        at = decimal(cell as u64, &mut bytes, at) - 1;
        bytes[at] = b',';
        at -= period.len();
        bytes[at..at + period.len()].copy_from_slice(period);
        text.extend_from_slice(&bytes[at..]);
    };

    let (entry_queue, [counts]) = parts(cells, state);
    let (entry_flow, [flows, off_flows, on_flows, modes]) = parts(cells, sheet);
    line(0, [entry_queue, entry_flow, 0, 0, 0]);
    for (cell, ((((&count, &f), &s), &r), &mode)) in
        counts.iter().zip(flows).zip(off_flows).zip(on_flows).zip(modes).enumerate()
    {
        line(cell + 1, [count, f, s, r, mode]);
    }
}
