//! The making of re-cuts and joins: cells with their pieces, and what can be wrong with them.

use model::{state_length, COLUMNS, MOST_CELLS, MOST_JAM, MOST_RAMP, ONE};

use crate::generate::{
    any_cells, any_contents, any_dropped, any_kind, any_share, any_speeds, any_state, damage_length, damage_state,
    damage_table, rows, table, Kind,
};
use crate::{Pieces, Rng, TwoTables};

type Row = [u32; COLUMNS];

/// A re-cut with the new table made from the old one, then damaged more often than not.
pub(crate) fn any_recut(rng: &mut Rng) -> TwoTables {
    let mut case = good_recut(rng);
    damage(rng, &mut case, Pieces::New);
    case
}

/// A join with one table made from the other, then damaged more often than not.
pub(crate) fn any_join(rng: &mut Rng) -> TwoTables {
    let mut case = if rng.once_in(2) { joined_pieces(rng) } else { joined_road(rng) };
    damage(rng, &mut case, Pieces::Old);
    case
}

fn good_recut(rng: &mut Rng) -> TwoTables {
    let kind = any_kind(rng);
    let sizes = any_sizes(rng);
    let mut cut = recut_into(rng, kind, sizes);
    cut.new_state = any_contents(rng, cut.new_state.len());
    cut
}

/// An accepted re-cut with these counts of pieces.
fn recut_into(rng: &mut Rng, kind: Kind, sizes: Vec<u32>) -> TwoTables {
    let mut old_table = table(rng, kind, sizes.len());
    for (row, &size) in old_table.as_chunks_mut::<COLUMNS>().0.iter_mut().zip(&sizes) {
        // a piece has at least 1
        row[3] = row[3].max(size);
    }
    let old_state = any_state(rng, &old_table);
    let pieces = rows(&old_table).zip(&sizes).flat_map(|(row, &size)| cut_row(rng, kind, row, size));
    let new_table: Vec<u32> = pieces.flatten().collect();
    let new_state = vec![0; state_length(new_table.len() / COLUMNS)];
    TwoTables { old_table, old_state, sizes, new_table, new_state }
}

/// How many pieces each of some cells has, all together at most as many as a table has cells.
fn any_sizes(rng: &mut Rng) -> Vec<u32> {
    let cells = match rng.below(120) {
        0 => return vec![MOST_CELLS as u32],
        1 => return vec![1; MOST_CELLS],
        2 | 3 => 128,
        _ => any_cells(rng).min(64),
    };
    let most = (MOST_CELLS / cells).min(if rng.once_in(10) { MOST_CELLS } else { 6 });
    (0..cells).map(|_| 1 + rng.below(most) as u32).collect()
}

/// The join that undoes a re-cut: of the state that the re-cut left, or of any other.
fn joined_pieces(rng: &mut Rng) -> TwoTables {
    let cut = good_recut(rng);
    let TwoTables { old_table, old_state, sizes, new_table, new_state } = &cut;
    let mut state = new_state.clone();
    if rng.once_in(2) {
        model::recut(old_table, old_state, sizes, new_table, &mut state).expect("the re-cut is accepted");
    } else {
        state = any_state(rng, new_table);
    }
    let mut join = cut.joined_again(&state);
    join.new_state = any_contents(rng, join.new_state.len());
    join
}

/// A road with its cells joined. Now and then the groups are such that they can't be.
fn joined_road(rng: &mut Rng) -> TwoTables {
    let kind = any_kind(rng);
    let cells = any_cells(rng);
    let old_table = table(rng, kind, cells);
    let old_state = any_state(rng, &old_table);
    let can_be_joined = !rng.once_in(8);
    let sizes = any_groups(rng, &old_table, can_be_joined);
    let mut rest = old_table.as_chunks().0;
    let mut new_table = Vec::new();
    for &size in &sizes {
        let (group, later) = rest.split_at(size as usize);
        rest = later;
        new_table.extend(joined_row(rng, kind, group));
    }
    let new_state = any_contents(rng, state_length(sizes.len()));
    TwoTables { old_table, old_state, sizes, new_table, new_state }
}

/// The sizes of groups of all the cells. Only those that can be joined break off at a ramp, and before the jam counts come to more
/// than a cell's.
fn any_groups(rng: &mut Rng, table: &[u32], can_be_joined: bool) -> Vec<u32> {
    let breaks = rng.pick(&[2, 6, 1_000]);
    let mut groups: Vec<u32> = Vec::new();
    let (mut jam, mut off) = (0, 0);
    for row in rows(table) {
        let fits = row[4] == 0 && off == 0 && jam + row[3] <= MOST_JAM;
        match groups.last_mut() {
            Some(size) if (fits || !can_be_joined) && !rng.once_in(breaks) => {
                *size += 1;
                jam += row[3];
            }
            _ => {
                groups.push(1);
                jam = row[3];
            }
        }
        off = row[7];
    }
    groups
}

/// An accepted re-cut in which each of `cells` cells of a road becomes `pieces` pieces.
pub fn even_recut(rng: &mut Rng, cells: usize, pieces: u32) -> TwoTables {
    recut_into(rng, Kind::Road, vec![pieces; cells])
}

/// An accepted join in which `cells` cells of a road become one for each `size` of them.
pub fn even_join(rng: &mut Rng, cells: usize, size: u32) -> TwoTables {
    let cut = even_recut(rng, cells / size as usize, size);
    let state = any_state(rng, &cut.new_table);
    cut.joined_again(&state)
}

/// The rows that a cell is cut into, as the rules ask; `count` is at most its jam count.
fn cut_row(rng: &mut Rng, kind: Kind, row: &Row, count: u32) -> Vec<Row> {
    let mut jams = vec![1; count as usize];
    let mut left = row[3] - count;
    for jam in &mut jams[1..] {
        let more = rng.edge(0, left.min(2 * row[3] / count));
        *jam += more;
        left -= more;
    }
    jams[0] += left;
    let last = jams.len() - 1;
    let mut rows = Vec::new();
    for (i, jam) in jams.into_iter().enumerate() {
        let on = if i == 0 { [row[4], row[6]] } else { [0; 2] };
        let off = if i == last { [row[7], row[8]] } else { [0; 2] };
        rows.push(free_row(rng, kind, jam, on, off));
    }
    rows
}

/// The row that a group is joined into, as the rules ask where they let it be.
fn joined_row(rng: &mut Rng, kind: Kind, group: &[Row]) -> Row {
    let (first, last) = (group[0], group[group.len() - 1]);
    let jam: u32 = group.iter().map(|row| row[3]).sum();
    free_row(rng, kind, jam.min(MOST_JAM), [first[4], first[6]], [last[7], last[8]])
}

/// A row with this jam count, this on-ramp with its limit and this off-ramp with its split. The rest is free.
fn free_row(rng: &mut Rng, kind: Kind, jam: u32, [on, c]: [u32; 2], [off, b]: [u32; 2]) -> Row {
    let [v, mut w, capacity, _] = any_speeds(rng, kind);
    let mut x = 0;
    if on != 0 {
        w = w.min(ONE - 1);
        x = any_share(rng, w);
    }
    [v, w, capacity, jam, on, x, c, off, b, any_dropped(rng, capacity)]
}

/// Breaks something more often than not, now and then two things.
fn damage(rng: &mut Rng, case: &mut TwoTables, pieces: Pieces) {
    for _ in 0..rng.pick(&[0, 0, 0, 1, 1, 1, 1, 1, 2]) {
        match rng.below(18) {
            0 if rng.once_in(8) => outgrow(rng, case),
            0 => {
                let list = rng.below(TwoTables::LISTS);
                damage_length(rng, case.list(list));
            }
            1 => damage_table(rng, &mut case.old_table),
            2 => {
                damage_table(rng, &mut case.new_table);
                if rng.once_in(3) {
                    // which of the two is refused first
                    damage_table(rng, &mut case.old_table);
                }
            }
            3 => damage_state(rng, &case.old_table, &mut case.old_state),
            4..=7 => damage_sizes(rng, &mut case.sizes),
            _ => damage_pieces(rng, case, pieces),
        }
    }
}

/// Breaks what the pieces have to do with their cells.
fn damage_pieces(rng: &mut Rng, case: &mut TwoTables, pieces: Pieces) {
    let (cells, pieces) = match pieces {
        Pieces::New => (&mut case.old_table, &mut case.new_table),
        Pieces::Old => (&mut case.new_table, &mut case.old_table),
    };
    match rng.below(10) {
        0..=2 => damage_ends(rng, cells, &case.sizes, pieces),
        3 | 4 => damage_cells(rng, cells),
        _ => damage_cells(rng, pieces),
    }
    // Else 5 would hide most of what a change of the old table comes to.
    if !rng.once_in(4) {
        fit_state(&case.old_table, &mut case.old_state);
    }
}

/// Gives a table one cell more than any has, and the lists that go with it their length.
fn outgrow(rng: &mut Rng, case: &mut TwoTables) {
    let (table, state) = match rng.below(2) {
        0 => (&mut case.old_table, &mut case.old_state),
        _ => (&mut case.new_table, &mut case.new_state),
    };
    *table = table.iter().copied().cycle().take((MOST_CELLS + 1) * COLUMNS).collect();
    state.resize(state_length(MOST_CELLS + 1), 0);
    if rng.once_in(2) {
        case.sizes.resize(MOST_CELLS + 1, 1);
    }
}

/// Makes the sizes add up to another number, or to the same in a wrong way.
fn damage_sizes(rng: &mut Rng, sizes: &mut [u32]) {
    if sizes.is_empty() {
        return;
    }
    let at = rng.below(sizes.len());
    let other = (at + rng.pick(&[1, sizes.len() - 1])) % sizes.len();
    let size = sizes[at];
    match rng.below(5) {
        0 => sizes[at] = rng.pick(&[0, size.wrapping_add(1), size.wrapping_sub(1), u32::MAX]),
        1 => {
            // a sum that is right only when it wraps
            let more = rng.pick(&[1, 2, 1 << 16, 1 << 31]);
            sizes[at] = size.wrapping_sub(more);
            sizes[other] = sizes[other].wrapping_add(more);
        }
        2 => sizes.swap(at, other),
        _ => {
            // a piece moves to the cell before or after, perhaps the last one
            let moved = rng.pick(&[1, size]).min(size);
            sizes[at] -= moved;
            sizes[other] = sizes[other].saturating_add(moved);
        }
    }
}

/// Changes the jam counts or the ramps of a table, mostly within their ranges.
fn damage_cells(rng: &mut Rng, table: &mut [u32]) {
    let rows = table.as_chunks_mut::<COLUMNS>().0;
    if rows.is_empty() {
        return;
    }
    let at = rng.below(rows.len());
    let next = (at + 1) % rows.len();
    match rng.below(7) {
        0 | 1 => {
            // the jam counts sum to one more or less, or move between cells
            damage_jam(rng, &mut rows[at]);
            if rng.once_in(2) {
                damage_jam(rng, &mut rows[next]);
            }
        }
        2 | 3 => {
            // another ramp number or limit or split
            let column = rng.pick(&[4, 6, 7, 8]);
            if rows[at][if column < 7 { 4 } else { 7 }] != 0 {
                rows[at][column] = rng.edge(1, MOST_RAMP);
            }
        }
        4 | 5 => damage_ramp(rng, &mut rows[at]),
        _ => {
            let columns = if rng.once_in(2) { 4..7 } else { 7..9 };
            swap_ramps(rows, at, next, columns);
        }
    }
}

fn damage_jam(rng: &mut Rng, row: &mut Row) {
    row[3] = if rng.once_in(2) { row[3].saturating_add(1) } else { row[3].saturating_sub(1) };
}

/// A ramp where there is none, or none where there is one.
fn damage_ramp(rng: &mut Rng, row: &mut Row) {
    if rng.once_in(2) {
        row[7] = if row[7] == 0 { rng.within(1, MOST_RAMP) } else { 0 };
        row[8] = 0;
    } else if row[4] == 0 && row[1] < ONE {
        row[4..7].copy_from_slice(&[rng.within(1, MOST_RAMP), 1, 1]);
    } else {
        row[4..7].fill(0);
    }
}

/// Swaps the ramps in these columns of two rows. Where an on-ramp comes to, w leaves its share.
fn swap_ramps(rows: &mut [Row], one: usize, other: usize, columns: std::ops::Range<usize>) {
    for column in columns {
        let number = rows[one][column];
        rows[one][column] = rows[other][column];
        rows[other][column] = number;
    }
    for at in [one, other] {
        let row = &mut rows[at];
        row[1] = row[1].min(ONE - row[5].min(MOST_RAMP));
    }
}

/// Mistakes the ends of a cell's pieces: the cell has its jam count or a ramp of the wrong one, or a ramp is on it.
fn damage_ends(rng: &mut Rng, cells: &mut [u32], sizes: &[u32], pieces: &mut [u32]) {
    let several: Vec<usize> = (0..sizes.len()).filter(|&cell| sizes[cell] > 1).collect();
    if several.is_empty() {
        return;
    }
    let cell = rng.pick(&several);
    let first: u64 = sizes[..cell].iter().map(|&size| u64::from(size)).sum();
    let range = first as usize..first as usize + sizes[cell] as usize;
    let (cells, pieces) = (cells.as_chunks_mut::<COLUMNS>().0, pieces.as_chunks_mut::<COLUMNS>().0);
    let (Some(row), Some(group)) = (cells.get_mut(cell), pieces.get_mut(range)) else {
        // the sizes or a table are damaged already
        return;
    };
    let last = group.len() - 1;
    let (not_first, not_last) = (1 + rng.below(last), rng.below(last));
    match rng.below(5) {
        0 => row[3] = group[rng.pick(&[0, last])][3],
        1 => row[4..7].copy_from_slice(&group[not_first][4..7]),
        2 => row[7..9].copy_from_slice(&group[not_last][7..9]),
        3 => swap_ramps(group, 0, not_first, 4..7),
        _ => swap_ramps(group, last, not_last, 7..9),
    }
}

/// Brings the counts and queues of a state within what its table allows, where the lengths are right.
fn fit_state(table: &[u32], state: &mut [u32]) {
    let cells = table.len() / COLUMNS;
    if state.len() != state_length(cells) {
        return;
    }
    let (counts, rest) = state[1..].split_at_mut(cells);
    for ((row, count), queue) in rows(table).zip(counts).zip(&mut rest[..cells]) {
        *count = (*count).min(row[3]);
        if row[4] == 0 {
            *queue = 0;
        }
    }
}
