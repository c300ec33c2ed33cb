//! What the tests of more than one file use; none of them uses all of it.
#![allow(dead_code)]

use model::{Answer, Refusal, COLUMNS};

pub type Row = [u32; COLUMNS];

pub const CLOSED: Row = [32_768, 16_384, 2_000, 10_000, 0, 0, 0, 0, 0, 2_000];

pub fn refused<T>(number: u32, place: u32) -> Answer<T> {
    Err(Refusal { number, place })
}

pub fn table(rows: &[Row]) -> Vec<u32> {
    rows.concat()
}

/// The closed cell with some columns replaced. The dropped capacity goes with F, unless it is replaced after it.
pub fn row(changes: &[(usize, u32)]) -> Row {
    let mut row = CLOSED;
    for &(column, number) in changes {
        row[column] = number;
        if column == 2 {
            row[9] = number;
        }
    }
    row
}

/// A cell with both ramps, and the three pieces of the re-cut figures.
pub fn three_pieces() -> (Row, [Row; 3]) {
    let cell = [10, 20, 30, 10, 4, 50, 60, 5, 70, 29];
    let pieces = [[11, 21, 31, 3, 4, 51, 60, 0, 0, 1], [1, 1, 1, 3, 0, 0, 0, 0, 0, 1], [1, 1, 1, 4, 0, 0, 0, 5, 70, 1]];
    (cell, pieces)
}

/// What a re-cut or a join of two old cells into one new one answers with a state out of its range and sizes that don't add
/// up: the tables' refusals come before these, number by number, the old table's first.
pub fn order_of_tables(answer: impl Fn(&[u32], &[u32], &[u32]) -> Answer) {
    let bad = |column: usize, number: u32| {
        let mut row = row(&[(4, 1), (5, 1), (6, 1), (7, 2)]);
        row[column] = number;
        row
    };
    let good = bad(0, 1);
    let (range, share, ramp) = (bad(0, 0), bad(1, 65_536), bad(7, 1));
    let go = |old: Row, new: Row| answer(&table(&[CLOSED, old]), &[0, 99_999, 0, 0, 0, 0, 0], &new);
    assert_eq!(go(range, range), refused(2, 2));
    assert_eq!(go(share, range), refused(2, 1));
    assert_eq!(go(share, share), refused(3, 2));
    assert_eq!(go(ramp, share), refused(3, 1));
    assert_eq!(go(ramp, ramp), refused(4, 2));
    assert_eq!(go(good, ramp), refused(4, 1));
    assert_eq!(go(good, good), refused(5, 1));
}
