//! The drop of the capacity behind a queue: worked periods, its range, and what it leaves as it was.

mod common;

use common::{refused, row, table, three_pieces, Row, CLOSED};
use model::*;

/// F 2,000 and 5 % less behind a queue.
fn dropping() -> Row {
    row(&[(2, 2_000), (9, 1_900)])
}

/// The sheets of periods without demand, one after the other, and the state after the last.
fn periods(table: &[u32], mut state: Vec<u32>, count: usize) -> (Vec<Vec<u32>>, Vec<u32>) {
    let cells = table.len() / COLUMNS;
    let mut sheet = vec![0; sheet_length(cells)];
    let mut sheets = Vec::new();
    for _ in 0..count {
        assert_eq!(period(table, &mut state, &vec![0; demand_length(cells)], &mut sheet), Ok(()));
        sheets.push(sheet.clone());
    }
    (sheets, state)
}

#[test]
fn in_the_flow_and_in_the_mode() {
    // M is 1,950: below F, and not below the dropped capacity
    let go = |mode| periods(&dropping(), vec![0, 3_900, 0, mode], 1);
    assert_eq!(go(0), (vec![vec![0, 1_950, 0, 0, 0]], vec![0, 1_950, 0, 0]));
    assert_eq!(go(1), (vec![vec![0, 1_900, 0, 0, 1]], vec![0, 2_000, 0, 1]));
}

#[test]
fn by_the_mode_of_the_period_before() {
    // M is 4,000, 3,000, 2,050, 1,100: in the first period F holds although it is congested in it, and in the fourth the
    // dropped capacity still does although it is free in it.
    let (sheets, state) = periods(&dropping(), vec![0, 8_000, 0, 0], 4);
    let flows_and_modes: Vec<[u32; 2]> = sheets.iter().map(|sheet| [sheet[1], sheet[4]]).collect();
    assert_eq!(flows_and_modes, [[2_000, 1], [1_900, 1], [1_900, 1], [1_100, 0]]);
    assert_eq!(state, [0, 1_100, 0, 0]);
}

#[test]
fn a_tie_with_the_dropped_capacity() {
    let mode = |mode, count| periods(&dropping(), vec![0, count, 0, mode], 1).0[0][4];
    assert_eq!([mode(1, 3_799), mode(1, 3_800)], [0, 1]);
    assert_eq!([mode(0, 3_999), mode(0, 4_000)], [0, 1]);
}

#[test]
fn ended_and_begun_again() {
    // Free with an M of 1,899; the next M of 1,950 is below F, and F holds again.
    let (mut state, mut sheet) = ([0, 3_799, 0, 1], [0; 5]);
    assert_eq!(period(&dropping(), &mut state, &[2_000, 0, 0], &mut sheet), Ok(()));
    assert_eq!((state, sheet), ([450, 3_450, 0, 0], [1_550, 1_899, 0, 0, 0]));
    state[1] = 3_900;
    assert_eq!(period(&dropping(), &mut state, &[0; 3], &mut sheet), Ok(()));
    assert_eq!((state, sheet), ([0, 2_400, 0, 0], [450, 1_950, 0, 0, 0]));
}

#[test]
fn of_each_cell_by_its_own_mode() {
    // Every M is 4,000, and what is let on is not the next cell's capacity but the cell's own; R is 500.
    let rows = [row(&[(2, 400), (9, 300)]), row(&[(2, 200), (9, 100)]), dropping()];
    let go = |modes: [u32; 3]| {
        let (sheets, state) = periods(&table(&rows), [&[0, 8_000, 8_000, 8_000, 0, 0, 0][..], &modes].concat(), 1);
        assert_eq!(state[7..], [1; 3]);
        sheets[0][1..4].to_vec()
    };
    assert_eq!(go([0, 0, 0]), [400, 200, 2_000]);
    assert_eq!(go([1, 0, 0]), [300, 200, 2_000]);
    assert_eq!(go([0, 1, 0]), [400, 100, 2_000]);
    assert_eq!(go([0, 0, 1]), [400, 200, 1_900]);
    assert_eq!(go([1, 1, 1]), [300, 100, 1_900]);
}

#[test]
fn the_room_of_the_next_cell_drops_the_capacity_too() {
    // The second cell is full: the first is held by its room, and in the next period by its own dropped capacity.
    let first = row(&[(2, 450), (9, 400)]);
    let (sheets, _) = periods(&table(&[first, CLOSED]), vec![0, 4_000, 10_000, 0, 0, 0, 0], 2);
    assert_eq!([sheets[0][1], sheets[1][1]], [0, 400]);
    assert_eq!([sheets[0][7], sheets[1][7]], [1, 1]);
}

#[test]
fn of_the_split() {
    // The off-ramp takes its part of what the dropped capacity lets on.
    let split = row(&[(2, 100), (7, 7), (8, 16_384), (9, 90)]);
    assert_eq!(periods(&split, vec![0, 1_000, 0, 0], 1).0, [[0, 100, 33, 0, 1]]);
    assert_eq!(periods(&split, vec![0, 1_000, 0, 1], 1).0, [[0, 90, 30, 0, 1]]);
}

#[test]
fn its_range() {
    let accept = |capacity, dropped| accept_table(&table(&[CLOSED, row(&[(2, capacity), (9, dropped)])]));
    for capacity in [1, 2, 2_000, 1_000_000] {
        for dropped in [1, capacity - 1, capacity] {
            let answer = if dropped == 0 { refused(2, 2) } else { Ok(()) };
            assert_eq!(accept(capacity, dropped), answer, "{dropped} of {capacity}");
        }
        for dropped in [0, capacity + 1, u32::MAX] {
            assert_eq!(accept(capacity, dropped), refused(2, 2), "{dropped} of {capacity}");
        }
    }
    // 2 comes before 3, 4 and 5
    let bad = table(&[[1, 65_536, 1, 1, 5, 1, 1, 5, 0, 1], row(&[(9, 0)])]);
    assert_eq!(accept_state(&bad, &[u32::MAX; 7]), refused(2, 2));
}

#[test]
fn none_where_it_is_the_capacity() {
    let (mut ramps, _) = three_pieces();
    ramps[9] = ramps[2];
    let rows = [CLOSED, row(&[(2, 500)]), ramps];
    let sheets = |modes: [u32; 3]| {
        let state = [&[0, 9_000, 7_000, 7, 0, 0, 3][..], &modes].concat();
        periods(&table(&rows), state, 8)
    };
    let free = sheets([0; 3]);
    for modes in [[1, 0, 0], [0, 1, 0], [0, 0, 1], [1, 1, 1]] {
        assert_eq!(sheets(modes), free);
    }
    // With a drop they do change something.
    let dropped = |mode| periods(&dropping(), vec![0, 9_000, 0, mode], 1);
    assert_ne!(dropped(0), dropped(1));
}

#[test]
fn a_run_goes_on_from_its_modes() {
    let table = table(&[CLOSED, dropping(), CLOSED]);
    let start = [0, 9_000, 9_000, 100, 0, 0, 0, 0, 1, 0];
    let demand = [700, 0, 0, 0, 0, 0, 0].repeat(20);
    let whole = {
        let (mut state, mut sheet) = (start, [0; 13]);
        assert_eq!(run(&table, &mut state, &demand, &mut sheet).periods, 20);
        (state, sheet)
    };
    // Stopped after any period and gone on with, it comes to the same; by indexes too.
    for stop in 0..=20 {
        let (mut state, mut sheet) = (start, [0; 13]);
        assert_eq!(run(&table, &mut state, &demand[..7 * stop], &mut sheet).periods, stop as u32);
        assert_eq!(run_indexed(&table, &mut state, &demand[7 * stop..], &mut sheet).periods, 20 - stop as u32);
        assert_eq!((state, sheet), whole);
    }
}

#[test]
fn a_refused_run_keeps_the_modes_of_its_last_period() {
    let (mut state, mut sheet) = ([0, 8_000, 0, 0], [7; 5]);
    // no period completed
    let answer = run(&dropping(), &mut state, &[0, 1, 0], &mut sheet);
    assert_eq!((answer.periods, answer.answer), (0, refused(6, 1)));
    assert_eq!((state, sheet), ([0, 8_000, 0, 0], [7; 5]));
    // one completed
    let answer = run(&dropping(), &mut state, &[0, 0, 0, 0, 1, 0], &mut sheet);
    assert_eq!((answer.periods, answer.answer), (1, refused(6, 1)));
    assert_eq!((state, sheet), ([0, 6_000, 0, 1], [0, 2_000, 0, 0, 1]));
}
