//! Acceptance, the period, the run and the re-cut: the worked figures and the edges of each rule.

mod common;

use common::{order_of_tables, refused, row, table, three_pieces, Row, CLOSED};
use model::*;

#[test]
fn printed_period() {
    let table = table(&[CLOSED, CLOSED]);
    let mut state = [500, 8_000, 4_000, 0, 0, 0, 0];
    let mut sheet = [9; 9];
    assert_eq!(period(&table, &mut state, &[300, 0, 0, 0, 0], &mut sheet), Ok(()));
    assert_eq!(state, [300, 7_000, 3_500, 0, 0, 1, 1]);
    assert_eq!(sheet, [500, 1_500, 2_000, 0, 0, 0, 0, 1, 1]);
    assert_eq!(state[..5].iter().sum::<u32>(), 12_500 + 300 - 2_000);
}

/// One cell and one period after one in mode 0: the queues and the count after it, and its sheet.
fn one_cell(row: Row, state: [u32; 3], demand: [u32; 3]) -> ([u32; 3], [u32; 5]) {
    one_cell_after(0, row, state, demand)
}

/// The same after a period in this mode. The mode in the state is then the sheet's.
fn one_cell_after(mode: u32, row: Row, [entry, count, queue]: [u32; 3], demand: [u32; 3]) -> ([u32; 3], [u32; 5]) {
    let (mut state, mut sheet) = ([entry, count, queue, mode], [0; 5]);
    assert_eq!(period(&row, &mut state, &demand, &mut sheet), Ok(()));
    let [entry, count, queue, mode] = state;
    assert_eq!(mode, sheet[4]);
    ([entry, count, queue], sheet)
}

#[test]
fn off_ramps() {
    let split = row(&[(2, 1_000_000), (7, 7), (8, 16_384)]);
    assert_eq!(one_cell(split, [0, 1_000, 0], [0; 3]), ([0, 500, 0], [0, 375, 125, 0, 0]));
    let narrow = row(&[(2, 100), (7, 7), (8, 16_384)]);
    assert_eq!(one_cell(narrow, [0, 1_000, 0], [0; 3]), ([0, 867, 0], [0, 100, 33, 0, 1]));
    let given = row(&[(2, 1_000_000), (7, 7)]);
    assert_eq!(one_cell(given, [0, 1_000, 0], [0, 0, 700]), ([0, 500, 0], [0, 0, 500, 0, 0]));
}

#[test]
fn what_leaves_was_there() {
    // D is 4, M is 4·1/65,536 rounded down to 0, so f is 0 and s is 0.
    let mostly_off = row(&[(0, 65_536), (2, 1_000_000), (7, 7), (8, 65_535)]);
    assert_eq!(one_cell(mostly_off, [0, 4, 0], [0; 3]), ([0, 4, 0], [0, 0, 0, 0, 0]));
    // M is 1, so f is 1 and the split is 65,535, which with f is n exactly.
    assert_eq!(
        one_cell(row(&[(0, 65_536), (2, 1_000_000), (3, 4_000_000), (7, 7), (8, 65_535)]), [0, 65_536, 0], [0; 3]),
        ([0, 0, 0], [0, 1, 65_535, 0, 0])
    );
    // With v at ONE f and s together are at most n, as f is at most n·(ONE − b)/ONE.
    let half = row(&[(0, 65_536), (2, 1_000_000), (7, 7), (8, 32_768)]);
    assert_eq!(one_cell(half, [0, 3, 0], [0; 3]), ([0, 1, 0], [0, 1, 1, 0, 0]));
}

#[test]
fn full_cell() {
    let cell = [1, 49_152, 1, 10_000, 3, 16_384, 1_000_000, 0, 0, 1];
    let (state, sheet) = one_cell(cell, [0, 9_000, 2_000], [5_000, 0, 0]);
    assert_eq!(state, [4_250, 10_000, 1_750]);
    assert_eq!(sheet, [750, 0, 0, 250, 0]);
}

#[test]
fn small_count_stays() {
    let (state, sheet) = one_cell(row(&[(0, 65_535)]), [0, 1, 0], [0; 3]);
    assert_eq!(state, [0, 1, 0]);
    assert_eq!(sheet, [0; 5]);
}

#[test]
fn on_ramp_limits() {
    let ramp = |c| row(&[(4, 1), (5, 16_384), (6, c)]);
    // Queue and demand, then the share of the room, then the limit.
    assert_eq!(one_cell(ramp(1_000), [0, 6_000, 100], [0, 50, 0]).1[3], 150);
    assert_eq!(one_cell(ramp(1_000_000), [0, 6_000, 5_000], [0, 50, 0]).1[3], 1_000);
    assert_eq!(one_cell(ramp(7), [0, 6_000, 5_000], [0, 50, 0]), ([0, 4_007, 5_043], [0, 2_000, 0, 7, 1]));
}

#[test]
fn mode_is_one_at_a_tie() {
    // M is n/2: 1,999 under F, 2,000 equal to it.
    assert_eq!(one_cell(CLOSED, [0, 3_999, 0], [0; 3]).1[4], 0);
    assert_eq!(one_cell(CLOSED, [0, 4_000, 0], [0; 3]).1[4], 1);
    // R of the next cell: a quarter of 10,000 − 6,000 is 1,000.
    let table = table(&[CLOSED, CLOSED]);
    for (count, mode) in [(1_998, 0), (2_000, 1)] {
        let mut state = [0, count, 6_000, 0, 0, 0, 0];
        let mut sheet = [0; 9];
        assert_eq!(period(&table, &mut state, &[0; 5], &mut sheet), Ok(()));
        assert_eq!(sheet[7], mode);
    }
}

#[test]
fn every_flow_is_from_the_old_state() {
    // The second cell is full: the first sends nothing although the second empties in the same period.
    let table = table(&[CLOSED, CLOSED]);
    let mut state = [0, 8_000, 10_000, 0, 0, 0, 0];
    let mut sheet = [0; 9];
    assert_eq!(period(&table, &mut state, &[0; 5], &mut sheet), Ok(()));
    assert_eq!(state, [0, 8_000, 8_000, 0, 0, 1, 1]);
}

#[test]
fn table_lengths() {
    assert_eq!(accept_table(&[]), refused(1, 0));
    assert_eq!(accept_table(&CLOSED[..9]), refused(1, 0));
    assert_eq!(accept_table(&CLOSED), Ok(()));
    assert_eq!(accept_table(&CLOSED.repeat(512)), Ok(()));
    assert_eq!(accept_table(&CLOSED.repeat(513)), refused(1, 0));
    let mut long = CLOSED.repeat(2);
    long.push(1);
    assert_eq!(accept_table(&long), refused(1, 0));
}

#[test]
fn table_ranges() {
    let good = [1, 1, 1, 1, 0, 0, 0, 0, 0, 1];
    let ramps = [1, 1, 1_000_000, 1, 5, 1, 1, 6, 0, 1];
    assert_eq!(accept_table(&good), Ok(()));
    assert_eq!(accept_table(&ramps), Ok(()));
    // column, largest, whether 0 is in range, of a row with both ramps
    let most = [65_536, 65_536, 1_000_000, 4_000_000, 65_535, 65_535, 1_000_000, 65_535, 65_535, 1_000_000];
    for column in 0..COLUMNS {
        let with = |number| {
            let mut row = ramps;
            row[column] = number;
            if column == 1 {
                row[4..7].fill(0);
            }
            accept_table(&row)
        };
        let accepted = Ok(());
        assert_eq!(with(most[column]), accepted, "column {column}");
        assert_eq!(with(most[column] + 1), refused(2, 1), "column {column}");
        assert_eq!(with(u32::MAX), refused(2, 1), "column {column}");
        let zero = match column {
            7 | 8 => Ok(()),
            _ => refused(2, 1),
        };
        assert_eq!(with(0), zero, "column {column}");
    }
    // without a ramp only 0 will do
    for column in [5, 6, 8] {
        assert_eq!(accept_table(&row(&[(column, 1)])), refused(2, 1));
    }
}

#[test]
fn shares_of_room() {
    let cell = |w, x| [1, w, 1, 1, 9, x, 1, 0, 0, 1];
    assert_eq!(accept_table(&cell(65_535, 1)), Ok(()));
    assert_eq!(accept_table(&cell(65_536, 1)), refused(3, 1));
    assert_eq!(accept_table(&cell(1, 65_535)), Ok(()));
    assert_eq!(accept_table(&cell(2, 65_535)), refused(3, 1));
    // 2 comes before 3 wherever they are
    let bad = table(&[cell(65_536, 1), row(&[(0, 0)])]);
    assert_eq!(accept_table(&bad), refused(2, 2));
}

#[test]
fn ramps_used_again() {
    let on = |ramp| row(&[(4, ramp), (5, 1), (6, 1)]);
    let off = |ramp| row(&[(7, ramp)]);
    assert_eq!(accept_table(&table(&[on(5), CLOSED, on(5)])), refused(4, 3));
    assert_eq!(accept_table(&table(&[on(5), off(5)])), refused(4, 2));
    assert_eq!(accept_table(&table(&[off(65_535), on(65_535)])), refused(4, 2));
    assert_eq!(accept_table(&table(&[off(1), on(2), off(3), on(65_535)])), Ok(()));
    let both = row(&[(4, 5), (5, 1), (6, 1), (7, 5)]);
    assert_eq!(accept_table(&both), refused(4, 1));
    // 64 and 64 + 64 share no place
    assert_eq!(accept_table(&table(&[on(64), off(128)])), Ok(()));
}

#[test]
fn states() {
    let table = table(&[row(&[(4, 5), (5, 1), (6, 1)]), CLOSED]);
    let accept = |state: &[u32]| accept_state(&table, state);
    assert_eq!(accept(&[1_000_000_000, 10_000, 10_000, 1_000_000_000, 0, 1, 1]), Ok(()));
    assert_eq!(accept(&[1_000_000_001, 10_001, 0, 0, 0, 0, 0]), refused(5, 0));
    assert_eq!(accept(&[0, 10_001, 0, 0, 0, 0, 0]), refused(5, 1));
    assert_eq!(accept(&[0, 0, 10_001, 0, 0, 0, 0]), refused(5, 2));
    assert_eq!(accept(&[0, 0, 10_001, 1_000_000_001, 0, 0, 0]), refused(5, 1));
    assert_eq!(accept(&[0, 0, 0, 0, 1, 0, 0]), refused(5, 2));
    // a mode is 0 or 1, and 5 is given at the smallest cell whatever its number
    assert_eq!(accept(&[0, 0, 0, 0, 0, 2, 0]), refused(5, 1));
    assert_eq!(accept(&[0, 0, 0, 0, 0, 1, 2]), refused(5, 2));
    assert_eq!(accept(&[0, 0, 0, 0, 0, 0, u32::MAX]), refused(5, 2));
    assert_eq!(accept(&[0, 0, 10_001, 0, 0, 2, 0]), refused(5, 1));
    for length in [0, 1, 5, 6, 8] {
        assert_eq!(accept(&vec![0; length]), refused(1, 0), "length {length}");
    }
}

#[test]
fn demand_rows() {
    let rows = [row(&[(4, 5), (5, 1), (6, 1)]), row(&[(7, 6)]), row(&[(7, 7), (8, 1)])];
    let table = table(&rows);
    let accept = |row: &[u32]| accept_row(&table, &[0; 10], row);
    assert_eq!(accept(&[1_000_000, 1_000_000, 0, 0, 0, 1_000_000, 0]), Ok(()));
    assert_eq!(accept(&[1_000_001, 0, 0, 0, 0, 0, 0]), refused(6, 0));
    assert_eq!(accept(&[0, 1_000_001, 0, 0, 0, 0, 0]), refused(6, 1));
    assert_eq!(accept(&[0, 0, 1, 0, 0, 0, 0]), refused(6, 2));
    assert_eq!(accept(&[0, 0, 0, 0, 1, 0, 0]), refused(6, 1));
    assert_eq!(accept(&[0, 0, 0, 0, 0, 1_000_001, 0]), refused(6, 2));
    assert_eq!(accept(&[0, 0, 0, 0, 0, 0, 1]), refused(6, 3));
    assert_eq!(accept(&[u32::MAX; 7]), refused(6, 0));
    assert_eq!(accept(&[0; 6]), refused(1, 0));
    // as long as the state
    assert_eq!(accept(&[0; 10]), refused(1, 0));
}

#[test]
fn queues_with_their_demands() {
    let table = table(&[CLOSED, row(&[(4, 5), (5, 1), (6, 1)])]);
    let accept = |entry, queue, row: [u32; 5]| accept_row(&table, &[entry, 0, 0, 0, queue, 0, 0], &row);
    assert_eq!(accept(999_999_999, 999_999_998, [1, 0, 2, 0, 0]), Ok(()));
    assert_eq!(accept(1_000_000_000, 1_000_000_000, [0; 5]), Ok(()));
    assert_eq!(accept(999_999_999, 1_000_000_000, [2, 0, 1, 0, 0]), refused(7, 0));
    assert_eq!(accept(999_999_999, 1_000_000_000, [1, 0, 1, 0, 0]), refused(7, 2));
    // 6 comes before 7
    assert_eq!(accept(999_999_999, 0, [2, 0, 0, 1, 0]), refused(6, 1));
}

#[test]
fn a_refused_period_changes_nothing() {
    let mut sheet = [1, 2, 3, 4, 5];
    let mut state = [5, 6, 7, 1];
    assert_eq!(period(&CLOSED, &mut state, &[0; 3], &mut sheet), refused(5, 1));
    assert_eq!(period(&CLOSED, &mut state, &[0; 3], &mut sheet[..4]), refused(1, 0));
    assert_eq!((state, sheet), ([5, 6, 7, 1], [1, 2, 3, 4, 5]));
    // The cell would be free in this period, and congested in one from a count of 4,000: the mode stays as it came.
    for state in [[5, 6, 0, 1], [5, 4_000, 0, 0]] {
        let mut moving = state;
        assert_eq!(period(&CLOSED, &mut moving, &[1_000_001, 0, 0], &mut sheet), refused(6, 0));
        assert_eq!(period(&CLOSED, &mut moving, &[0, 1, 0], &mut sheet), refused(6, 1));
        assert_eq!((moving, sheet), (state, [1, 2, 3, 4, 5]));
    }
}

#[test]
fn runs() {
    let rows = [CLOSED, row(&[(4, 5), (5, 100), (6, 50)]), row(&[(7, 6), (8, 9_000)])];
    let table = table(&rows);
    let start = [40, 900, 800, 700, 0, 60, 0, 1, 0, 1];
    let rows: Vec<[u32; 7]> = (0..30).map(|k| [k * 10, 0, k, 0, 0, 0, 0]).collect();

    let (mut state, mut sheet) = (start, [0; 13]);
    for row in &rows {
        assert_eq!(period(&table, &mut state, row, &mut sheet), Ok(()));
    }
    let (mut run_state, mut run_sheet) = (start, [0; 13]);
    let answer = run(&table, &mut run_state, &rows.concat(), &mut run_sheet);
    assert_eq!(answer, RunAnswer { periods: 30, answer: Ok(()) });
    assert_eq!(answer.to_word(), 30 << 40);
    assert_eq!((run_state, run_sheet), (state, sheet));

    // Refused at a row: the state and the sheet are those of the rows before it.
    let mut damaged = rows.concat();
    damaged.extend([0, 1, 0, 0, 0, 0, 0]);
    damaged.extend([0; 7]);
    let (mut run_state, mut run_sheet) = (start, [0; 13]);
    let answer = run(&table, &mut run_state, &damaged, &mut run_sheet);
    assert_eq!(answer, RunAnswer { periods: 30, answer: refused(6, 1) });
    assert_eq!(answer.to_word(), (30 << 40) + (6 << 32) + 1);
    assert_eq!(RunAnswer::from_word(answer.to_word()), answer);
    assert_eq!((run_state, run_sheet), (state, sheet));
}

#[test]
fn run_shapes() {
    let mut sheet = [8; 5];
    let mut state = [1, 2, 0, 1];
    let mut go = |demand: &[u32]| run(&CLOSED, &mut state, demand, &mut sheet);
    assert_eq!(go(&[]), RunAnswer { periods: 0, answer: Ok(()) });
    assert_eq!(go(&[0; 2]), RunAnswer { periods: 0, answer: refused(1, 0) });
    assert_eq!(go(&[0; 3 * 4_097]), RunAnswer { periods: 0, answer: refused(1, 0) });
    assert_eq!(go(&[0, 1, 0]), RunAnswer { periods: 0, answer: refused(6, 1) });
    // as long as the state
    assert_eq!(go(&[0; 4]), RunAnswer { periods: 0, answer: refused(1, 0) });
    assert_eq!((state, sheet), ([1, 2, 0, 1], [8; 5]));
    assert_eq!(run(&CLOSED, &mut state, &[0; 3 * 4_096], &mut sheet).periods, 4_096);
    assert_eq!(run(&CLOSED, &mut state, &[], &mut sheet[..4]).answer, refused(1, 0));
}

#[test]
fn a_run_refused_when_its_queue_grows() {
    // Nothing enters, so each row of 400,000 stays in the queue.
    let full = [1, 1, 1, 1, 0, 0, 0, 0, 0, 1];
    let mut state = [999_000_000, 1, 0, 0];
    let mut sheet = [0; 5];
    let answer = run(&full, &mut state, &[400_000, 0, 0].repeat(5), &mut sheet);
    assert_eq!(answer, RunAnswer { periods: 2, answer: refused(7, 0) });
    assert_eq!(state, [999_800_000, 1, 0, 0]);
}

#[test]
fn shared_out() {
    let (old, pieces) = three_pieces();
    for (count, counts) in [(7, [2, 2, 3]), (1, [0, 0, 1]), (10, [3, 3, 4]), (0, [0, 0, 0])] {
        for mode in [0, 1] {
            let mut new = [99; 10];
            assert_eq!(recut(&old, &[8, count, 9, mode], &[3], &table(&pieces), &mut new), Ok(()));
            // the queue at the first piece, the mode at the last
            assert_eq!(new, [8, counts[0], counts[1], counts[2], 9, 0, 0, 0, 0, mode]);
        }
    }
}

#[test]
fn modes_of_several_cells_cut() {
    let (old, pieces) = three_pieces();
    let olds = table(&[CLOSED, old, CLOSED]);
    let halves = row(&[(3, 5_000)]);
    let news = table(&[CLOSED, pieces[0], pieces[1], pieces[2], halves, halves]);
    for modes in [[0, 0, 0], [1, 0, 0], [0, 1, 0], [0, 0, 1], [1, 1, 1]] {
        let state = [&[0; 7][..], &modes].concat();
        let mut new = [99; 19];
        assert_eq!(recut(&olds, &state, &[1, 3, 2], &news, &mut new), Ok(()));
        assert_eq!(new[13..], [modes[0], 0, 0, modes[1], 0, modes[2]]);
    }
}

#[test]
fn cut_rules() {
    let (old, pieces) = three_pieces();
    let olds = table(&[CLOSED, old, row(&[(7, 8)])]);
    let state = [1, 2, 3, 4, 0, 6, 0, 1, 1, 0];
    let news = table(&[CLOSED, pieces[0], pieces[1], pieces[2], row(&[(7, 8)])]);
    let go = |counts: &[u32], news: &[u32]| {
        let mut new = [77; 16];
        let answer = recut(&olds, &state, counts, news, &mut new);
        assert!(answer == Ok(()) || new == [77; 16]);
        answer
    };
    let damaged = |at: usize, column: usize, number: u32| {
        let mut news = news.clone();
        news[at * COLUMNS + column] = number;
        go(&[1, 3, 1], &news)
    };
    assert_eq!(go(&[1, 3, 1], &news), Ok(()));
    assert_eq!(go(&[1, 3, 2], &news), refused(8, 0));
    assert_eq!(go(&[1, 3, 0], &news), refused(8, 0));
    assert_eq!(go(&[u32::MAX, 5, 1], &news), refused(8, 0));
    assert_eq!(go(&[1, 4, 0], &news), refused(8, 2));
    assert_eq!(go(&[0, 4, 1], &news), refused(8, 1));
    assert_eq!(go(&[2, 2, 1], &news), refused(8, 1));
    assert_eq!(go(&[1, 3], &news), refused(1, 0));
    assert_eq!(damaged(0, 3, 9_999), refused(8, 1));
    assert_eq!(damaged(2, 3, 4), refused(8, 2));
    assert_eq!(damaged(1, 4, 1_000), refused(8, 2));
    assert_eq!(damaged(1, 6, 61), refused(8, 2));
    assert_eq!(damaged(1, 5, 52), Ok(()));
    assert_eq!(damaged(3, 7, 1_000), refused(8, 2));
    assert_eq!(damaged(3, 8, 71), refused(8, 2));
    assert_eq!(damaged(2, 7, 1_000), refused(8, 2));
    assert_eq!(damaged(4, 7, 1_000), refused(8, 3));
    assert_eq!(damaged(4, 8, 1), refused(8, 3));
    assert_eq!(damaged(0, 7, 1_000), refused(8, 1));
    assert_eq!(damaged(0, 0, 0), refused(2, 1));
    // the dropped capacity is free within its own range: this piece has F 31
    assert_eq!(damaged(1, 9, 31), Ok(()));
    assert_eq!(damaged(1, 9, 32), refused(2, 2));
    assert_eq!(damaged(1, 9, 0), refused(2, 2));
}

#[test]
fn cut_order() {
    order_of_tables(|old, state, new| recut(old, state, &[1, 1], new, &mut [0; 4]));
}
