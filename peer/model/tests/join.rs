//! The join: worked ones, the edges of each rule, and that it undoes a re-cut.

mod common;

use common::{order_of_tables, refused, row, table, three_pieces, Row, CLOSED};
use model::*;

/// The closed cell, the three pieces and a cell with an off-ramp, in a state, and what they are joined into.
struct Road {
    olds: Vec<u32>,
    state: [u32; 16],
    news: Vec<u32>,
}

/// What new-state lists hold before a join.
const BEFORE: [u32; 10] = [77; 10];

fn road() -> Road {
    let (cell, pieces) = three_pieces();
    let off = row(&[(7, 8)]);
    Road {
        olds: table(&[CLOSED, pieces[0], pieces[1], pieces[2], off]),
        state: [6, 100, 3, 1, 2, 400, 0, 9, 0, 0, 0, 1, 1, 1, 0, 1],
        news: table(&[CLOSED, cell, off]),
    }
}

impl Road {
    /// The answer, once a refused join is seen to leave the list as it came and an accepted one to write it.
    fn join(&self, groups: &[u32]) -> Answer {
        let mut new = BEFORE;
        let answer = join(&self.olds, &self.state, groups, &self.news, &mut new);
        assert_eq!(new == BEFORE, answer.is_err());
        answer
    }

    /// The answer with a number of an old row replaced.
    fn with_old(mut self, cell: usize, column: usize, number: u32) -> Answer {
        self.olds[cell * COLUMNS + column] = number;
        self.join(&[1, 3, 1])
    }

    /// The answer with a number of a new row replaced.
    fn with_new(mut self, cell: usize, column: usize, number: u32) -> Answer {
        self.news[cell * COLUMNS + column] = number;
        self.join(&[1, 3, 1])
    }
}

#[test]
fn counts_add_up() {
    let (cell, pieces) = three_pieces();
    for counts in [[2, 2, 3], [0, 0, 1], [3, 3, 4], [0, 0, 0], [3, 0, 4]] {
        let mut new = [99; 4];
        let state = [8, counts[0], counts[1], counts[2], 9, 0, 0, 0, 0, 0];
        assert_eq!(join(&table(&pieces), &state, &[3], &cell, &mut new), Ok(()));
        assert_eq!(new, [8, counts.iter().sum(), 9, 0]);
    }
}

#[test]
fn the_mode_of_the_last() {
    let (cell, pieces) = three_pieces();
    for modes in 0..8 {
        let [first, second, last] = [modes & 1, modes >> 1 & 1, modes >> 2];
        let mut new = [99; 4];
        let state = [8, 2, 2, 3, 9, 0, 0, first, second, last];
        assert_eq!(join(&table(&pieces), &state, &[3], &cell, &mut new), Ok(()));
        assert_eq!(new, [8, 7, 9, last]);
    }
}

#[test]
fn groups_of_several_sizes() {
    let Road { olds, state, news } = road();
    let mut new = BEFORE;
    assert_eq!(join(&olds, &state, &[1, 3, 1], &news, &mut new), Ok(()));
    assert_eq!(new, [6, 100, 6, 400, 0, 9, 0, 1, 0, 1]);
}

#[test]
fn most_cells() {
    let counts: Vec<u32> = (0..512).collect();
    let modes: Vec<u32> = (0..512).map(|cell| cell % 2).collect();
    let state = [&[5][..], &counts, &[0; 512], &modes].concat();
    let olds = row(&[(3, 600)]).repeat(512);

    let mut new = [0; 4];
    let whole = row(&[(3, 600 * 512)]);
    assert_eq!(join(&olds, &state, &[512], &whole, &mut new), Ok(()));
    assert_eq!(new, [5, 511 * 256, 0, 1]);

    let mut new = [9; 1_537];
    assert_eq!(join(&olds, &state, &[1; 512], &olds, &mut new), Ok(()));
    assert_eq!(new, state[..]);
}

#[test]
fn group_sizes() {
    let go = |groups: [u32; 3]| road().join(&groups);
    assert_eq!(go([1, 3, 1]), Ok(()));
    // one too many and one too few
    assert_eq!(go([1, 3, 2]), refused(14, 0));
    assert_eq!(go([1, 3, 0]), refused(14, 0));
    assert_eq!(go([0, 0, 0]), refused(14, 0));
    // sums that are right in 32 bits only
    assert_eq!(go([u32::MAX, 5, 1]), refused(14, 0));
    assert_eq!(go([1, u32::MAX, 5]), refused(14, 0));
    assert_eq!(go([1 << 31, 1 << 31, 5]), refused(14, 0));
    assert_eq!(go([u32::MAX; 3]), refused(14, 0));
    // an empty group where the sum is right, and the right sizes of other groups
    assert_eq!(go([0, 4, 1]), refused(14, 1));
    assert_eq!(go([1, 4, 0]), refused(14, 2));
    assert_eq!(go([1, 0, 4]), refused(14, 2));
    assert_eq!(go([2, 2, 1]), refused(14, 1));
    assert_eq!(go([3, 1, 1]), refused(14, 1));
}

#[test]
fn an_empty_last_group() {
    let mut new = [7; 7];
    let news = table(&[row(&[(3, 20_000)]), CLOSED]);
    assert_eq!(join(&CLOSED.repeat(2), &[0; 7], &[2, 0], &news, &mut new), refused(14, 2));
    assert_eq!(new, [7; 7]);
}

#[test]
fn jam_counts() {
    assert_eq!(road().with_new(1, 3, 9), refused(14, 2));
    assert_eq!(road().with_new(1, 3, 11), refused(14, 2));
    assert_eq!(road().with_old(3, 3, 5), refused(14, 2));
    // the first's alone, and the last's alone
    assert_eq!(road().with_new(1, 3, 3), refused(14, 2));
    assert_eq!(road().with_new(1, 3, 4), refused(14, 2));
    assert_eq!(road().with_new(0, 3, 10_001), refused(14, 1));
    // a sum that no row can have
    let full = row(&[(3, 4_000_000)]);
    assert_eq!(join(&full.repeat(2), &[0; 7], &[2], &full, &mut [0; 4]), refused(14, 1));
}

#[test]
fn ramps_at_the_ends() {
    // another number, c or b than the ends have
    assert_eq!(road().with_new(1, 4, 1_000), refused(14, 2));
    assert_eq!(road().with_new(1, 6, 61), refused(14, 2));
    assert_eq!(road().with_new(1, 7, 1_000), refused(14, 2));
    assert_eq!(road().with_new(1, 8, 71), refused(14, 2));
    assert_eq!(road().with_old(3, 8, 0), refused(14, 2));
    // an off-ramp that only one side has
    assert_eq!(road().with_new(0, 7, 1_000), refused(14, 1));
    assert_eq!(road().with_old(0, 7, 1_000), refused(14, 1));
    assert_eq!(road().with_new(2, 7, 0), refused(14, 3));
    // an off-ramp before the last
    assert_eq!(road().with_old(1, 7, 1_000), refused(14, 2));
    assert_eq!(road().with_old(2, 7, 1_000), refused(14, 2));
}

#[test]
fn on_ramp_after_the_first() {
    for cell in [2, 3] {
        let mut road = road();
        road.olds[cell * COLUMNS + 4..cell * COLUMNS + 7].copy_from_slice(&[1_000, 1, 1]);
        assert_eq!(road.join(&[1, 3, 1]), refused(14, 2));
    }
    // it may not be the group's only one either
    let ramp = row(&[(4, 3), (5, 1), (6, 1)]);
    let whole = row(&[(3, 20_000), (4, 3), (5, 1), (6, 1)]);
    let go = |olds: [Row; 2]| join(&table(&olds), &[0; 7], &[2], &whole, &mut [0; 4]);
    assert_eq!(go([CLOSED, ramp]), refused(14, 1));
    assert_eq!(go([ramp, CLOSED]), Ok(()));
}

#[test]
fn what_is_free() {
    for (column, number) in [(0, 65_536), (1, 65_000), (2, 1_000_000), (5, 65_000), (9, 1), (9, 30)] {
        assert_eq!(road().with_new(1, column, number), Ok(()), "column {column}");
    }
    // within its own range: the new cell has F 30
    assert_eq!(road().with_new(1, 9, 31), refused(2, 2));
    assert_eq!(road().with_new(1, 9, 0), refused(2, 2));
}

#[test]
fn lengths() {
    let Road { olds, state, news } = road();
    let go = |olds: &[u32], state: &[u32], groups: &[u32], news: &[u32], length: usize| {
        join(olds, state, groups, news, &mut vec![0; length])
    };
    assert_eq!(go(&olds, &state, &[1, 3, 1], &news, 10), Ok(()));
    assert_eq!(go(&olds[1..], &state, &[1, 3, 1], &news, 10), refused(1, 0));
    assert_eq!(go(&olds, &state[1..], &[1, 3, 1], &news, 10), refused(1, 0));
    assert_eq!(go(&olds, &state[..11], &[1, 3, 1], &news, 10), refused(1, 0));
    assert_eq!(go(&olds, &state, &[1, 3, 1], &news[1..], 10), refused(1, 0));
    assert_eq!(go(&olds, &state, &[1, 3, 1], &news, 11), refused(1, 0));
    assert_eq!(go(&olds, &state, &[1, 3, 1], &news, 7), refused(1, 0));
    // one size for each new cell, not for each old one
    assert_eq!(go(&olds, &state, &[1, 4], &news, 10), refused(1, 0));
    assert_eq!(go(&olds, &state, &[1; 5], &news, 10), refused(1, 0));
    // no cell, and one too many
    assert_eq!(go(&[], &[0], &[0], &CLOSED, 4), refused(1, 0));
    assert_eq!(go(&CLOSED, &[0; 4], &[], &[], 1), refused(1, 0));
    assert_eq!(go(&CLOSED.repeat(513), &[0; 1_540], &[513], &CLOSED, 4), refused(1, 0));
    assert_eq!(go(&CLOSED, &[0; 4], &[1; 513], &CLOSED.repeat(513), 1_540), refused(1, 0));
}

#[test]
fn order() {
    // with sizes that don't add up
    order_of_tables(|old, state, new| join(old, state, &[1], new, &mut [0; 4]));
    // 1 before 2, 5 before 14, and 14 at 0 before 14 at a cell
    let mut broken = CLOSED;
    broken[0] = 0;
    assert_eq!(join(&broken, &[0; 4], &[], &broken, &mut [0; 4]), refused(1, 0));
    assert_eq!(join(&CLOSED, &[0, 0, 1, 0], &[0], &CLOSED, &mut [0; 4]), refused(5, 1));
    assert_eq!(join(&CLOSED, &[0, 0, 0, 2], &[0], &CLOSED, &mut [0; 4]), refused(5, 1));
    assert_eq!(join(&CLOSED, &[0; 4], &[0, 2], &CLOSED.repeat(2), &mut [0; 7]), refused(14, 0));
    assert_eq!(join(&CLOSED, &[0; 4], &[0, 1], &CLOSED.repeat(2), &mut [0; 7]), refused(14, 1));
}

#[test]
fn cut_and_joined_again() {
    let Road { olds: cut_table, news: whole_table, .. } = road();
    for count in 0..=10 {
        // every combination of modes is among them
        let [first, second, last] = [count & 1, count >> 1 & 1, count >> 2 & 1];
        let state = [3, 9_999, count, 1, 0, 44, 0, first, second, last];
        let (mut cut_state, mut again) = ([99; 16], BEFORE);
        assert_eq!(recut(&whole_table, &state, &[1, 3, 1], &cut_table, &mut cut_state), Ok(()));
        assert_eq!(join(&cut_table, &cut_state, &[1, 3, 1], &whole_table, &mut again), Ok(()));
        assert_eq!(again, state);
    }
}
