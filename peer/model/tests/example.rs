//! The example corridor: it runs to its end, loses no vehicle, and its bottlenecks form and clear, with less capacity meanwhile.

use std::fs;
use std::path::Path;

use model::{demand_length, read_whole, simulate, state_length, COLUMNS, ONE};

const CELLS: usize = 41;
const PERIODS: usize = 2_520;
/// The cell at postmile 33.05.
const BOTTLENECK: usize = 19;
/// The cell at postmile 26.12.
const LAST_BOTTLENECK: usize = 39;

fn text(name: &str) -> Vec<u8> {
    let folder = Path::new(env!("CARGO_MANIFEST_DIR")).join("../../examples/i210w");
    fs::read(folder.join(name)).expect("the example is there")
}

/// The period at the end of which it is this time.
fn at(hour: usize, minute: usize) -> usize {
    ((hour - 5) * 60 + minute) * 6
}

#[test]
fn corridor() {
    let [cells, state, demand] = ["cells.csv", "state.csv", "demand.csv"].map(text);
    let sheet = simulate(Some(&cells), Some(&state), Some(&demand));
    let sheet = String::from_utf8(sheet).unwrap();
    let lines: Vec<Vec<u64>> =
        sheet.lines().skip(1).map(|line| line.split(',').map(|field| field.parse().unwrap()).collect()).collect();
    assert_eq!(lines.len(), PERIODS * (CELLS + 1));
    let line = |period: usize, cell: usize| &lines[(period - 1) * (CELLS + 1) + cell];
    assert_eq!(line(PERIODS, CELLS)[..2], [PERIODS as u64, CELLS as u64]);
    assert!(lines.iter().all(|line| line[6] < 2));

    let table = read_whole(&cells, COLUMNS).unwrap();
    let state = read_whole(&state, state_length(CELLS)).unwrap();
    let demand = read_whole(&demand, demand_length(CELLS)).unwrap();
    let rows: Vec<&[u32]> = table.chunks(COLUMNS).collect();
    let count_of = |wanted: fn(&[u32]) -> bool| rows.iter().filter(|row| wanted(row)).count();
    assert_eq!(count_of(|row| row[4] != 0), 21, "on-ramps");
    assert_eq!(count_of(|row| row[7] != 0), 18, "off-ramps");
    assert_eq!(count_of(|row| row[7] != 0 && row[8] == 0), 4, "off-ramps with given flows");

    // A cell is dense when it holds more than the triangle's critical count, w·J / (v + w).
    let dense = |period: usize, cell: usize| {
        let (v, w, jam) = (rows[cell - 1][0], rows[cell - 1][1], rows[cell - 1][3]);
        line(period, cell)[2] * u64::from(v + w) > u64::from(w) * u64::from(jam)
    };
    let dense_cells = |period: usize| (1..=CELLS).filter(|&cell| dense(period, cell)).count();
    assert_eq!(dense_cells(at(6, 0)), 0);
    assert!((1..BOTTLENECK).rev().take(4).all(|cell| dense(at(7, 0), cell)));
    assert!((10..=BOTTLENECK).all(|cell| dense(at(8, 0), cell)));
    assert!((BOTTLENECK + 1..BOTTLENECK + 5).all(|cell| !dense(at(8, 0), cell)));
    assert_eq!(dense_cells(at(11, 0)), 0);
    assert_eq!(line(at(11, 0), BOTTLENECK)[6], 0);
    assert_eq!(line(at(8, 0), BOTTLENECK)[6], 1);

    // Only the two bottlenecks drop. Each comes to its capacity in its first congested period alone, and no other cell ever does.
    for (cell, row) in (1..).zip(&rows) {
        let (capacity, dropped) = (u64::from(row[2]), u64::from(row[9]));
        let congested: Vec<usize> = (1..=PERIODS).filter(|&period| line(period, cell)[6] == 1).collect();
        let most = (1..=PERIODS).map(|period| line(period, cell)[3]).max();
        if [BOTTLENECK, LAST_BOTTLENECK].contains(&cell) {
            assert!(dropped.abs_diff(capacity * 95 / 100) <= 1, "cell {cell}");
            assert_eq!(line(congested[0], cell)[3], capacity, "cell {cell}");
            assert!(congested[1..].iter().all(|&period| line(period, cell)[3] <= dropped), "cell {cell}");
        } else {
            assert_eq!(dropped, capacity, "cell {cell}");
            assert!(most < Some(capacity), "cell {cell}");
        }
    }

    // What was there and what came is what is there and what left, the on-ramps' queues too.
    let sum = |list: &[u32]| list.iter().map(|&number| u64::from(number)).sum::<u64>();
    let came: u64 = demand.chunks(demand_length(CELLS)).map(|row| sum(&row[..=CELLS])).sum();
    let entered: u64 = lines.iter().map(|line| line[5]).sum();
    let wanted: u64 = demand.chunks(demand_length(CELLS)).map(|row| sum(&row[1..=CELLS])).sum();
    let left: u64 = lines.iter().map(|line| line[4] + if line[1] == CELLS as u64 { line[3] } else { 0 }).sum();
    let there: u64 = (0..=CELLS).map(|cell| line(PERIODS, cell)[2]).sum();
    assert_eq!(sum(&state[..=2 * CELLS]) + came, there + (wanted - entered) + left);
    assert!(rows.iter().all(|row| row[0] <= ONE));
}
