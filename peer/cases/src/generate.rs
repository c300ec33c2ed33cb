//! The making of cases.

use std::collections::BTreeSet;

use model::{
    demand_length, sheet_length, state_length, Settings, COLUMNS, LONGEST_RECORD, MOST_CELLS, MOST_FLOW, MOST_JAM,
    MOST_QUEUE, MOST_RAMP, ONE,
};

use crate::pieces::{any_join, any_recut};
use crate::{Calibrate, Case, Corridor, Rng, Texts};

/// How a table's numbers are chosen.
#[derive(Clone, Copy, Debug, PartialEq, Eq)]
pub enum Kind {
    /// As on a real road with periods of some seconds.
    Road,
    /// Anywhere in the ranges, their ends made likely.
    Edge,
    /// Small numbers, where rounding shows.
    Small,
}

/// The case of a library function with this index.
pub fn generate(seed: u64, index: u64) -> Case {
    let rng = &mut Rng::of_case(seed, index);
    match rng.below(24) {
        0 | 1 => Case::Table(any_corridor(rng, 0)),
        2 | 3 => Case::State(any_corridor(rng, 1)),
        4..=6 => Case::Row(any_corridor(rng, 2)),
        7..=9 => Case::Period(any_corridor(rng, 3)),
        10..=12 => Case::Run(any_run(rng)),
        13..=15 => Case::Recut(any_recut(rng)),
        16..=19 => Case::Join(any_join(rng)),
        _ => Case::Calibrate(any_calibration(rng)),
    }
}

/// The case of the program with this index.
pub fn generate_program(seed: u64, index: u64) -> Case {
    Case::Program(any_texts(&mut Rng::of_case(!seed, index)))
}

/// A number of cells, mostly few.
pub(crate) fn any_cells(rng: &mut Rng) -> usize {
    match rng.below(200) {
        0..=29 => 1,
        30..=149 => 2 + rng.below(5),
        150..=189 => 7 + rng.below(34),
        190..=197 => 41 + rng.below(90),
        198 => MOST_CELLS - rng.below(3),
        _ => MOST_CELLS,
    }
}

pub(crate) fn any_kind(rng: &mut Rng) -> Kind {
    rng.pick(&[Kind::Road, Kind::Road, Kind::Edge, Kind::Edge, Kind::Small])
}

/// Ramp numbers, no number twice. The set is ordered, so that a case is made by the same instructions in every run.
#[derive(Default)]
struct Ramps(BTreeSet<u32>);

impl Ramps {
    fn take(&mut self, rng: &mut Rng) -> u32 {
        loop {
            let ramp = rng.edge(1, MOST_RAMP);
            if self.0.insert(ramp) {
                return ramp;
            }
        }
    }
}

/// v, w, F and J of a row.
pub(crate) fn any_speeds(rng: &mut Rng, kind: Kind) -> [u32; 4] {
    match kind {
        Kind::Road => {
            [rng.within(10_000, ONE), rng.within(2_000, 24_000), rng.within(2_000, 40_000), rng.within(8_000, 400_000)]
        }
        Kind::Edge => [rng.edge(1, ONE), rng.edge(1, ONE), rng.edge(1, MOST_FLOW), rng.edge(1, MOST_JAM)],
        Kind::Small => [rng.within(1, ONE), rng.within(1, ONE), rng.within(1, 40), rng.within(1, 60)],
    }
}

/// A dropped capacity beside this capacity, mostly some of it less, so that the modes matter.
pub(crate) fn any_dropped(rng: &mut Rng, capacity: u32) -> u32 {
    match rng.below(4) {
        0 => capacity,
        1 => rng.edge(1, capacity),
        _ => rng.within(capacity - capacity / 4, capacity),
    }
}

fn any_row(rng: &mut Rng, kind: Kind, ramps: &mut Ramps) -> [u32; COLUMNS] {
    let [v, mut w, capacity, jam] = any_speeds(rng, kind);
    let [mut on, mut x, mut c, mut off, mut b] = [0; 5];
    if rng.once_in(3) {
        w = w.min(ONE - 1);
        on = ramps.take(rng);
        x = any_share(rng, w);
        c = match kind {
            Kind::Road => rng.within(500, 8_000),
            Kind::Edge => rng.edge(1, MOST_FLOW),
            Kind::Small => rng.within(1, 30),
        };
    }
    if rng.once_in(3) {
        off = ramps.take(rng);
        b = match (rng.below(3), kind) {
            (0, _) => 0,
            (_, Kind::Road) => rng.within(500, 20_000),
            _ => rng.edge(1, MOST_RAMP),
        };
    }
    [v, w, capacity, jam, on, x, c, off, b, any_dropped(rng, capacity)]
}

/// An x that w leaves room for, often all of it.
pub(crate) fn any_share(rng: &mut Rng, w: u32) -> u32 {
    rng.edge(1, MOST_RAMP.min(ONE - w))
}

/// An accepted table.
pub fn table(rng: &mut Rng, kind: Kind, cells: usize) -> Vec<u32> {
    let mut ramps = Ramps::default();
    (0..cells).flat_map(|_| any_row(rng, kind, &mut ramps)).collect()
}

pub(crate) fn rows(table: &[u32]) -> impl Iterator<Item = &[u32; COLUMNS]> {
    table.as_chunks().0.iter()
}

fn any_queue(rng: &mut Rng) -> u32 {
    match rng.below(8) {
        0..=2 => 0,
        3 => rng.within(MOST_QUEUE - MOST_FLOW, MOST_QUEUE),
        4 => rng.edge(0, MOST_QUEUE),
        _ => rng.within(0, 20_000),
    }
}

/// An accepted state.
pub(crate) fn any_state(rng: &mut Rng, table: &[u32]) -> Vec<u32> {
    let fullness = rng.below(5);
    let mut state = vec![any_queue(rng)];
    for row in rows(table) {
        let jam = row[3];
        state.push(match fullness {
            0 => rng.edge(0, jam),
            1 => rng.within(0, jam / 4),
            2 => rng.within(jam / 2, jam),
            3 => rng.pick(&[0, jam, jam - 1]),
            _ => rng.within(0, jam),
        });
    }
    state.extend(rows(table).map(|row| if row[4] == 0 { 0 } else { any_queue(rng) }).collect::<Vec<_>>());
    let modes: &[u32] = rng.pick(&[&[0], &[1], &[0, 1], &[0, 0, 0, 1]]);
    state.extend(rows(table).map(|_| rng.pick(modes)).collect::<Vec<_>>());
    state
}

fn any_demand(rng: &mut Rng, kind: Kind) -> u32 {
    match (kind, rng.below(4)) {
        (_, 0) => 0,
        (Kind::Edge, _) => rng.edge(0, MOST_FLOW),
        (Kind::Road, _) => rng.within(0, 20_000),
        (Kind::Small, _) => rng.within(0, 50),
    }
}

/// A demand row in its ranges. Now and then each demand takes its queue to the limit or just over it.
fn any_demand_row(rng: &mut Rng, kind: Kind, table: &[u32], state: &[u32]) -> Vec<u32> {
    let cells = table.len() / COLUMNS;
    let to_the_limit = rng.once_in(8);
    let demand = |rng: &mut Rng, queue: u32| {
        let left = MOST_QUEUE.saturating_sub(queue);
        if to_the_limit && left < MOST_FLOW && rng.once_in(2) {
            left + rng.below(2) as u32
        } else if left < MOST_FLOW && rng.once_in(2) {
            rng.edge(0, left)
        } else {
            any_demand(rng, kind)
        }
    };
    let queue = |at: usize| state.get(at).copied().unwrap_or(0);
    let mut row = vec![demand(rng, queue(0))];
    for (i, cell) in rows(table).enumerate() {
        row.push(if cell[4] == 0 { 0 } else { demand(rng, queue(1 + cells + i)) });
    }
    row.extend(rows(table).map(|cell| if cell[7] == 0 || cell[8] != 0 { 0 } else { any_demand(rng, kind) }));
    row
}

/// Demand rows end to end, mild enough that no queue passes its limit when the state's queues are short.
pub fn demand_rows(rng: &mut Rng, table: &[u32], periods: usize) -> Vec<u32> {
    let state = vec![0; state_length(table.len() / COLUMNS)];
    (0..periods).flat_map(|_| any_demand_row(rng, Kind::Road, table, &state)).collect()
}

/// Some numbers that the function is to leave alone or write over.
pub(crate) fn any_contents(rng: &mut Rng, length: usize) -> Vec<u32> {
    (0..length).map(|_| rng.word() as u32).collect()
}

/// Makes a list a little too short or too long, or a whole column: a state as long as a demand row is, a demand row as long
/// as a state, a table with nine numbers in place of ten.
pub(crate) fn damage_length<T: Copy + Default>(rng: &mut Rng, list: &mut Vec<T>) {
    match rng.below(7) {
        0 => {
            list.pop();
        }
        1 => list.push(list.first().copied().unwrap_or_default()),
        2 => list.clear(),
        3 => list.truncate(list.len() - list.len() / 3),
        4 => list.resize(list.len() + list.len() / 2, T::default()),
        5 => list.truncate(list.len() - list.len() / COLUMNS),
        _ => {
            let more = 1 + rng.below(9);
            list.extend(vec![T::default(); more]);
        }
    }
}

/// Puts one number of a table out of its range, gives its cell too large shares, or uses a ramp number again.
pub(crate) fn damage_table(rng: &mut Rng, table: &mut [u32]) {
    const MOST: [u32; COLUMNS] =
        [ONE, ONE, MOST_FLOW, MOST_JAM, MOST_RAMP, MOST_RAMP, MOST_FLOW, MOST_RAMP, MOST_RAMP, MOST_FLOW];
    let cells = table.len() / COLUMNS;
    if cells == 0 {
        return;
    }
    let any_at = |rng: &mut Rng| {
        if rng.once_in(4) {
            rng.pick(&[0, cells - 1]) * COLUMNS
        } else {
            rng.below(cells) * COLUMNS
        }
    };
    let at = any_at(rng);
    match rng.below(7) {
        0 => {
            let column = rng.below(COLUMNS);
            table[at + column] = MOST[column] + 1;
        }
        1 => {
            let column = rng.below(COLUMNS);
            table[at + column] = rng.pick(&[0, 0, 1, u32::MAX, MOST[column] + 1, 1 << 31]);
        }
        2 => {
            let column = rng.pick(&[5, 6, 8]);
            table[at + column] = rng.pick(&[0, 1, 1, MOST[column]]);
        }
        3 => {
            // w + x just at or over ONE, in a cell with an on-ramp if there is one
            let at = rows(table).position(|row| row[4] != 0 && row[5] != 0).map_or(at, |cell| cell * COLUMNS);
            if table[at + 4] != 0 {
                table[at + 1] = (ONE - table[at + 5].min(MOST_RAMP) + rng.below(2) as u32).min(ONE);
                if rng.once_in(3) {
                    table[at + 1] = ONE;
                }
            }
        }
        4 => damage_dropped(rng, &mut table[at..at + COLUMNS]),
        _ => {
            // a ramp number used again
            let used: Vec<u32> = rows(table).flat_map(|row| [row[4], row[7]]).filter(|&ramp| ramp != 0).collect();
            let ramp = if used.is_empty() { 7 } else { rng.pick(&used) };
            for column in [4, 7] {
                let at = any_at(rng);
                if rng.once_in(3) && table[at + column] != 0 {
                    table[at + column] = ramp;
                } else if rng.once_in(3) {
                    table[at + column] = ramp;
                    if column == 4 && table[at + 5] == 0 {
                        table[at + 1] = table[at + 1].min(ONE - 1);
                        table[at + 5] = 1;
                        table[at + 6] = 1;
                    }
                }
            }
        }
    }
}

/// Takes the dropped capacity of a row to an end of its range or just out of it, by itself or by its F.
fn damage_dropped(rng: &mut Rng, row: &mut [u32]) {
    let (capacity, dropped) = (row[2], row[9]);
    if rng.once_in(4) {
        row[2] = rng.pick(&[dropped, dropped.saturating_sub(1)]);
    } else {
        row[9] = rng.pick(&[0, 1, capacity.saturating_sub(1), capacity, capacity.saturating_add(1)]);
    }
}

pub(crate) fn damage_state(rng: &mut Rng, table: &[u32], state: &mut [u32]) {
    let cells = table.len() / COLUMNS;
    if cells == 0 || state.len() != state_length(cells) {
        return;
    }
    let cell = rng.below(cells);
    match rng.below(5) {
        0 => state[0] = MOST_QUEUE + 1 + rng.edge(0, u32::MAX - MOST_QUEUE - 1),
        1 => state[1 + cell] = table[cell * COLUMNS + 3].saturating_add(rng.pick(&[1, 1, 1_000, u32::MAX])),
        2 => state[1 + cells + cell] = MOST_QUEUE + 1,
        3 => state[1 + 2 * cells + cell] = rng.pick(&[2, 2, 3, 256, 1 << 16, 1 << 31, u32::MAX]),
        _ => {
            // a queue without an on-ramp, if there is such a cell
            let cell = rows(table).position(|row| row[4] == 0).unwrap_or(cell);
            state[1 + cells + cell] = rng.pick(&[1, MOST_QUEUE, u32::MAX]);
        }
    }
}

fn damage_demand(rng: &mut Rng, cells: usize, demand: &mut [u32]) {
    if demand.len() != demand_length(cells) {
        return;
    }
    let at = if rng.once_in(5) { 0 } else { rng.below(demand.len()) };
    demand[at] = rng.pick(&[1, 1, MOST_FLOW, MOST_FLOW + 1, MOST_FLOW + 1, u32::MAX]);
}

/// The lists of one period. `depth` is how many of state, demand and sheet the function looks at.
fn any_corridor(rng: &mut Rng, depth: usize) -> Corridor {
    let kind = any_kind(rng);
    let cells = any_cells(rng);
    let mut table = table(rng, kind, cells);
    let mut state = any_state(rng, &table);
    let mut demand = any_demand_row(rng, kind, &table, &state);
    let mut sheet = any_contents(rng, sheet_length(cells));
    // Mostly no damage, often one, sometimes several at once.
    let damages = rng.pick(&[0, 0, 0, 1, 1, 1, 1, 2, 3]);
    for _ in 0..damages {
        match (rng.below(1 + depth), rng.once_in(12)) {
            (_, true) => match rng.below(1 + depth) {
                0 if rng.once_in(8) => table = table.iter().copied().cycle().take(513 * COLUMNS).collect(),
                0 => damage_length(rng, &mut table),
                1 => damage_length(rng, &mut state),
                2 => damage_length(rng, &mut demand),
                _ => damage_length(rng, &mut sheet),
            },
            (0, _) => damage_table(rng, &mut table),
            (1, _) => damage_state(rng, &table, &mut state),
            _ => damage_demand(rng, table.len() / COLUMNS, &mut demand),
        }
    }
    Corridor { table, state, demand, sheet }
}

/// A run; many are refused part way.
fn any_run(rng: &mut Rng) -> Corridor {
    let kind = any_kind(rng);
    let (cells, periods) = match rng.below(400) {
        0 => (1 + rng.below(2), rng.pick(&[4_095, 4_096, 4_097])),
        1..=4 => (1 + rng.below(8), 100 + rng.below(400)),
        _ => (any_cells(rng).min(64), rng.below(13)),
    };
    let mut table = table(rng, kind, cells);
    let mut state = any_state(rng, &table);
    // Rows that go by the queues as they will be keep a run near the limits without ending it at once.
    let (mut moving, mut scratch) = (state.clone(), vec![0; sheet_length(cells)]);
    let mut demand = Vec::new();
    for _ in 0..periods {
        let row = any_demand_row(rng, kind, &table, &moving);
        if periods < 100 {
            let _ = model::period(&table, &mut moving, &row, &mut scratch);
        }
        demand.extend(row);
    }
    let mut sheet = any_contents(rng, sheet_length(cells));
    if periods > 0 && rng.once_in(3) {
        let row = demand_length(cells);
        let at = rng.below(periods) * row;
        damage_demand(rng, cells, &mut demand[at..at + row]);
    }
    if rng.once_in(8) {
        match rng.below(6) {
            0 => damage_length(rng, &mut table),
            1 => damage_length(rng, &mut state),
            2 => damage_length(rng, &mut demand),
            3 => damage_length(rng, &mut sheet),
            4 => damage_table(rng, &mut table),
            _ => damage_state(rng, &table, &mut state),
        }
    }
    Corridor { table, state, demand, sheet }
}

/// Samples of a road with this free speed, critical density, wave speed and lanes: the free ones first.
pub fn samples(rng: &mut Rng, count: usize, free: usize, g: f64, lanes: u32) -> (Vec<f64>, Vec<f64>) {
    let speed = 50.0 + 20.0 * rng.unit();
    let wave = 10.0 + 8.0 * rng.unit();
    let critical = (30.0 + 10.0 * rng.unit()).min(0.3 / g) * f64::from(lanes);
    let mut pair = |i: usize| {
        let density = if i < free { critical * rng.unit() } else { 3.0 * critical * rng.unit() };
        let flow = if density <= critical { speed * density } else { speed * critical - wave * (density - critical) };
        let noisy = flow * (0.97 + 0.06 * rng.unit());
        (noisy.clamp(0.0, 20_000.0), (density * g / f64::from(lanes)).clamp(0.0, 1.0))
    };
    (0..count).map(&mut pair).unzip()
}

fn any_double(rng: &mut Rng) -> f64 {
    f64::from_bits(rng.word())
}

/// A double that a flow or an occupancy, up to `most`, may stumble over.
fn odd_double(rng: &mut Rng, most: f64) -> f64 {
    match rng.below(18) {
        0 => 0.0,
        1 => -0.0,
        2 => most,
        3 => most.next_up(),
        4 => most.next_down(),
        5 => f64::from_bits(1),
        6 => f64::from_bits(rng.word() >> 12),
        7 => f64::MIN_POSITIVE,
        8 => most * 2f64.powi(-(rng.below(1_070) as i32)),
        9 => most * rng.unit() * 2f64.powi(-(rng.below(600) as i32)),
        10..=13 => most * rng.unit(),
        14 => rng.pick(&[f64::NAN, -f64::NAN, f64::INFINITY, f64::NEG_INFINITY, f64::MAX]),
        15 => rng.pick(&[-f64::from_bits(1), -1.0, -most, f64::MIN]),
        16 => any_double(rng),
        _ => (most * rng.unit()).floor(),
    }
}

fn any_settings(rng: &mut Rng) -> Settings {
    let between = |rng: &mut Rng, least: f64, most: f64| match rng.below(5) {
        0 => least,
        1 => most,
        _ => least + (most - least) * rng.unit(),
    };
    Settings {
        g: if rng.once_in(2) { 0.004 } else { between(rng, 1.0 / 1_024.0, 1.0 / 16.0) },
        lanes: rng.edge(1, 12),
        period: if rng.once_in(2) { 10 } else { rng.edge(1, 60) },
        length: if rng.once_in(2) { 0.25 + rng.unit() / 2.0 } else { between(rng, 1.0 / 64.0, 8.0) },
        start: 0,
        end: 0,
    }
}

fn any_calibration(rng: &mut Rng) -> Calibrate {
    let mut settings = any_settings(rng);
    let count = match rng.below(400) {
        0 => rng.pick(&[65_535, 65_536, 65_537]),
        1..=9 => 100 + rng.below(900),
        10..=29 => rng.below(2),
        _ => 2 + rng.below(30),
    };
    let free = if rng.once_in(3) { rng.below(count + 1) } else { count / 2 };
    let (mut flow, mut occupancy) = samples(rng, count, free, settings.g, settings.lanes);
    (settings.start, settings.end) = match rng.below(24) {
        0 => (0, count),
        1 => (count, count),
        2 => (free, count),
        3 => (rng.below(count + 1), free),
        4 => (0, free + 1),
        5 => (rng.below(free + 1), free),
        6 if rng.once_in(4) => (rng.pick(&[1, usize::MAX]), rng.pick(&[0, count + 1, usize::MAX])),
        _ => (0, free),
    };

    match rng.below(20) {
        // all the values of one list equal; lists scaled down, some so far that squares round to zero
        0 if count > 0 => flow.fill(odd_double(rng, 20_000.0).abs().min(20_000.0)),
        1 if count > 0 => occupancy.fill(odd_double(rng, 1.0).abs().min(1.0)),
        2 | 3 => {
            let size = rng.pick(&[8, 24, 24, 600, 1_074]);
            let scale = 2f64.powi(-(rng.below(size) as i32));
            let which = rng.below(3);
            if which != 0 {
                occupancy.iter_mut().for_each(|occupancy| *occupancy *= scale);
            }
            if which != 1 {
                flow.iter_mut().for_each(|flow| *flow *= scale);
            }
        }
        4 => {
            // a few odd values, usable ones
            for _ in 0..1 + rng.below(4) {
                if count > 0 {
                    flow[rng.below(count)] = odd_double(rng, 20_000.0).abs().min(20_000.0);
                    occupancy[rng.below(count)] = odd_double(rng, 1.0).abs().min(1.0);
                }
            }
        }
        5 => {
            // odd values of any sort
            for _ in 0..1 + rng.below(3) {
                if count > 0 {
                    flow[rng.below(count)] = odd_double(rng, 20_000.0);
                    occupancy[rng.below(count)] = odd_double(rng, 1.0);
                }
            }
        }
        6 => {
            // whole values and powers of two, where sums are exact and ties are met
            for (flow, occupancy) in flow.iter_mut().zip(&mut occupancy) {
                *flow = 480.0 * rng.within(0, 8) as f64;
                *occupancy = f64::from(rng.within(0, 16)) / 16.0;
            }
            settings.g = rng.pick(&[1.0 / 256.0, 1.0 / 1_024.0, 1.0 / 64.0]);
        }
        7 => {
            // values near each other
            for (flow, occupancy) in flow.iter_mut().zip(&mut occupancy) {
                *flow = 1_000.0 + rng.unit() * 1e-9;
                *occupancy = 0.125 + rng.unit() * 1e-15;
            }
        }
        _ => {}
    }
    if rng.once_in(12) {
        match rng.below(5) {
            0 => settings.g = odd_setting(rng, 1.0 / 1_024.0, 1.0 / 16.0),
            1 => settings.length = odd_setting(rng, 1.0 / 64.0, 8.0),
            2 => settings.lanes = rng.pick(&[0, 13, u32::MAX]),
            3 => settings.period = rng.pick(&[0, 61, u32::MAX]),
            _ => damage_length(rng, &mut occupancy),
        }
    }
    let mut diagram: Vec<f64> = (0..5).map(|_| any_double(rng)).collect();
    let mut row = any_contents(rng, 4);
    if rng.once_in(100) {
        damage_length(rng, &mut diagram);
    } else if rng.once_in(100) {
        damage_length(rng, &mut row);
    }
    Calibrate { flow, occupancy, settings, diagram, row }
}

fn odd_setting(rng: &mut Rng, least: f64, most: f64) -> f64 {
    rng.pick(&[
        least,
        most,
        least.next_down(),
        least.next_up(),
        most.next_down(),
        most.next_up(),
        0.0,
        -0.0,
        -least,
        f64::NAN,
        f64::INFINITY,
        f64::NEG_INFINITY,
        f64::from_bits(1),
    ])
}

/// Lists of numbers as a text of records, each with its end.
fn text(numbers: &[u32], width: usize) -> Vec<u8> {
    let mut text = Vec::new();
    for record in numbers.chunks(width.max(1)) {
        model::write_record(&mut text, record.iter().map(|&number| u64::from(number)));
    }
    text
}

/// The three texts of the program, damaged more often than not.
fn any_texts(rng: &mut Rng) -> Texts {
    let kind = any_kind(rng);
    let (cells, periods) = match rng.below(300) {
        0 => (41, 1_500 + rng.below(500)),
        1..=5 => (1 + rng.below(6), 200 + rng.below(400)),
        6 | 7 => (MOST_CELLS, rng.below(3)),
        8 => (rng.pick(&[513, 514, 600]), rng.below(3)),
        _ => (any_cells(rng).min(64), rng.below(8)),
    };
    let mut table = table(rng, kind, cells);
    let mut state = any_state(rng, &table);
    let mut moving = state.clone();
    let mut scratch = vec![0; sheet_length(cells)];
    let mut demand = Vec::new();
    for _ in 0..periods {
        let row = any_demand_row(rng, kind, &table, &moving);
        let _ = model::period(&table, &mut moving, &row, &mut scratch);
        demand.extend(row);
    }
    // Half of the damage is to the numbers, half to the texts.
    for _ in 0..rng.pick(&[0, 0, 0, 1, 1, 2]) {
        match rng.below(6) {
            0 | 1 => damage_table(rng, &mut table),
            2 | 3 => damage_state(rng, &table, &mut state),
            _ if periods > 0 => {
                let row = demand_length(cells);
                let at = rng.below(periods) * row;
                damage_demand(rng, cells, &mut demand[at..at + row]);
            }
            _ => {}
        }
    }
    let mut texts = texts_of(rng, cells, &table, &mut state, &demand);
    for text in &mut texts {
        if rng.once_in(4) && text.ends_with(b"\r\n") {
            text.truncate(text.len() - 2);
        }
    }
    for _ in 0..rng.pick(&[0, 0, 1, 1, 1, 2]) {
        let file = rng.pick(&[0, 0, 1, 1, 2, 2, 2]);
        damage_text(rng, &mut texts[file]);
    }
    let mut texts = texts.map(Some);
    if rng.once_in(20) {
        texts[rng.below(3)] = None;
        if rng.once_in(4) {
            texts[rng.below(3)] = None;
        }
    }
    Texts(texts)
}

/// The lists as texts, now and then with a wrong number of fields in the cells or in the state. A state of the most cells is
/// often about as long as a record may be.
fn texts_of(rng: &mut Rng, cells: usize, table: &[u32], state: &mut Vec<u32>, demand: &[u32]) -> [Vec<u8>; 3] {
    let mut width = COLUMNS;
    match rng.below(40) {
        0 => width = rng.pick(&[COLUMNS - 1, COLUMNS + 1]),
        1 => damage_length(rng, state),
        2..=9 if cells == MOST_CELLS => lengthen(rng, state),
        _ => {}
    }
    let state_width = state.len();
    [text(table, width), text(state, state_width), text(demand, demand_length(cells))]
}

/// Gives a state of the most cells numbers with so many digits that its record is as long as one may be, or nearly. No such
/// state is accepted.
fn lengthen(rng: &mut Rng, state: &mut [u32]) {
    let length = LONGEST_RECORD + rng.below(5) - 2;
    let commas = state.len() - 1;
    let of_ten_digits = length - commas - 9 * state.len();
    state.fill(100_000_000);
    state[..of_ten_digits].fill(1_000_000_000);
}

/// Breaks a text in one of the ways that the rules name, or nearly does.
fn damage_text(rng: &mut Rng, text: &mut Vec<u8>) {
    const FIELDS: &[&str] = &[
        "",
        "00",
        "01",
        "007",
        "+1",
        "-1",
        "-0",
        "\"1\"",
        "\"",
        " 1",
        "1 ",
        "\t1",
        "1.0",
        "1e3",
        "0x1",
        "x",
        "4294967295",
        "4294967296",
        "4294967297",
        "9999999999",
        "10000000000",
        "00000000001",
        "0000000000",
        "18446744073709551616",
        "1,1",
        "1,",
        ",1",
        ",",
        "1\r",
        "1\n",
        "1\r\n",
        "\r",
        "\n",
        "\u{feff}1",
        "\u{660}",
        "1\0",
        ";",
        "/",
        ":",
        "1/",
        "1:",
    ];
    const ENDS: &[&str] =
        &["\n", "\r", "\n\r", "\r\r\n", "\r\n\r\n", "\r\n\n", "\r\n ", " \r\n", ",\r\n", "\r\n,", "", "\0", "\r\n\0"];
    let find = |rng: &mut Rng, text: &[u8], breaks: fn(&u8) -> bool| {
        let found: Vec<usize> = (0..text.len()).filter(|&at| breaks(&text[at])).collect();
        (!found.is_empty()).then(|| found[rng.below(found.len())])
    };
    match rng.below(14) {
        // a field, found by its first digit, gets another text
        0..=4 => {
            let starts =
                |at: usize, text: &[u8]| text[at].is_ascii_digit() && (at == 0 || !text[at - 1].is_ascii_digit());
            let found: Vec<usize> = (0..text.len()).filter(|&at| starts(at, text)).collect();
            if found.is_empty() {
                return;
            }
            let at = if rng.once_in(4) { found[found.len() - 1] } else { found[rng.below(found.len())] };
            let length = text[at..].iter().take_while(|byte| byte.is_ascii_digit()).count();
            text.splice(at..at + length, rng.pick(FIELDS).bytes());
        }
        // an end of record gets another text
        5 | 6 => {
            if let Some(at) = find(rng, text, |&byte| byte == b'\r') {
                let length = 2.min(text.len() - at);
                text.splice(at..at + length, rng.pick(ENDS).bytes());
            }
        }
        // one byte goes, comes or changes
        7 => {
            if !text.is_empty() {
                text.remove(rng.below(text.len()));
            }
        }
        8 => {
            let byte = rng.pick(&[b'0', b'9', b',', b'\r', b'\n', b' ', b'"', b'-', b'/', b':', 0, 0x80, 0xff]);
            text.insert(rng.below(text.len() + 1), byte);
        }
        9 => {
            if !text.is_empty() {
                let at = rng.below(text.len());
                text[at] = if rng.once_in(2) { rng.word() as u8 } else { text[at] ^ 1 << rng.below(8) };
            }
        }
        // the text ends early
        10 => text.truncate(rng.below(text.len() + 1)),
        // something after the last record, or before the first
        11 => {
            let more = rng.pick(&["\r\n", "\r\n\r\n", "\r", "\n", "1", "1,2,3", "x", " ", "\0", "\u{1a}", ","]);
            text.extend(more.bytes());
        }
        12 => {
            let header = rng.pick(&["\u{feff}", "v,w,F,J,on,x,c,off,b,dropped\r\n", "\r\n", "\"0\"\r\n", "#\r\n"]);
            text.splice(0..0, header.bytes());
        }
        // a record as long as one may be, or a byte longer, in small fields, in zeros or in one number
        _ => {
            let length = rng.pick(&[16_383, 16_384, 16_385, 16_386, 20_000, 300_000]);
            let filler = rng.pick(&["1,", "0", "1", "9", "12345678,", ","]);
            let long: Vec<u8> = filler.bytes().cycle().take(length).collect();
            match find(rng, text, |&byte| byte == b'\n') {
                Some(at) => {
                    text.splice(at + 1..at + 1, long);
                }
                None => text.extend(long),
            }
            if rng.once_in(2) {
                text.extend(b"\r\n");
            }
        }
    }
}
