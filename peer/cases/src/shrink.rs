//! The search for a small case that still differs.

use model::{demand_length, read_whole, state_length, write_record, Settings, COLUMNS};

use crate::{Calibrate, Case, Corridor, Pieces, Texts, TwoTables};

/// Goes from a case that `differs` to smaller ones that do, as long as one is found and `tries` last.
pub fn shrink(case: Case, mut differs: impl FnMut(&Case) -> bool, mut tries: usize) -> Case {
    let mut smallest = case;
    loop {
        let mut found = None;
        for smaller in smaller(&smallest) {
            if tries == 0 {
                return smallest;
            }
            if smaller == smallest {
                continue;
            }
            tries -= 1;
            if differs(&smaller) {
                found = Some(smaller);
                break;
            }
        }
        match found {
            Some(smaller) => smallest = smaller,
            None => return smallest,
        }
    }
}

type Smaller = Box<dyn Iterator<Item = Case>>;

fn smaller(case: &Case) -> Smaller {
    fn corridor(case: &Corridor, wrap: fn(Corridor) -> Case) -> Smaller {
        Box::new(smaller_corridor(case.clone()).map(wrap))
    }
    match case {
        Case::Table(case) => corridor(case, Case::Table),
        Case::State(case) => corridor(case, Case::State),
        Case::Row(case) => corridor(case, Case::Row),
        Case::Period(case) => corridor(case, Case::Period),
        Case::Run(case) => corridor(case, Case::Run),
        Case::Recut(case) => Box::new(smaller_tables(case.clone(), Pieces::New).map(Case::Recut)),
        Case::Join(case) => Box::new(smaller_tables(case.clone(), Pieces::Old).map(Case::Join)),
        Case::Calibrate(case) => Box::new(smaller_calibration(case.clone()).map(Case::Calibrate)),
        Case::Program(case) => Box::new(smaller_texts(case.clone()).map(Case::Program)),
    }
}

/// Ranges of 0 to `length`, the long ones first: halves, quarters and so on down to single ones.
fn ranges(length: usize) -> impl Iterator<Item = std::ops::Range<usize>> {
    let sizes = std::iter::successors(Some(length), |size| Some(size / 2)).take_while(|&size| size > 0);
    sizes.flat_map(move |size| (0..length).step_by(size).map(move |at| at..(at + size).min(length)))
}

/// Smaller numbers to put in a number's place.
fn numbers(number: u32) -> impl Iterator<Item = u32> {
    [0, 1, number / 2, number.saturating_sub(1)].into_iter().filter(move |&smaller| smaller < number)
}

/// A list without the cells of the range, when it holds a number before `columns` numbers for each cell.
fn without_cells(list: &[u32], cells: usize, columns: usize, range: &std::ops::Range<usize>) -> Vec<u32> {
    if list.len() != 1 + columns * cells {
        return list.to_vec();
    }
    let kept = |&(at, _): &(usize, &u32)| at == 0 || !range.contains(&((at - 1) % cells));
    list.iter().enumerate().filter(kept).map(|(_, &number)| number).collect()
}

fn without_rows(table: &[u32], range: &std::ops::Range<usize>) -> Vec<u32> {
    let (from, to) = (range.start * COLUMNS, range.end * COLUMNS);
    [&table[..from], &table[to..]].concat()
}

/// The case with one number of one of its lists made smaller, the last of a list first: a row's F can't come down far before
/// its dropped capacity has.
fn smaller_numbers<C: Clone>(
    whole: C,
    lists: usize,
    list_of: fn(&mut C, usize) -> &mut Vec<u32>,
) -> impl Iterator<Item = C> {
    (0..lists).flat_map(move |list| {
        let whole = whole.clone();
        let length = list_of(&mut whole.clone(), list).len();
        (0..length).rev().flat_map(move |at| {
            let whole = whole.clone();
            numbers(list_of(&mut whole.clone(), list)[at]).map(move |number| {
                let mut case = whole.clone();
                list_of(&mut case, list)[at] = number;
                case
            })
        })
    })
}

fn smaller_corridor(case: Corridor) -> impl Iterator<Item = Corridor> {
    let cells = case.table.len() / COLUMNS;
    let row = demand_length(cells);
    let whole = case.clone();
    let fewer_rows = ranges(case.demand.len() / row).map(move |range| {
        let demand = [&whole.demand[..range.start * row], &whole.demand[range.end * row..]].concat();
        Corridor { demand, ..whole.clone() }
    });
    let whole = case.clone();
    let fewer_cells = ranges(cells).filter(move |range| range.len() < cells).map(move |range| Corridor {
        table: without_rows(&whole.table, &range),
        state: without_cells(&whole.state, cells, 3, &range),
        demand: match whole.demand.len() % row {
            0 => whole.demand.chunks(row).flat_map(|demand| without_cells(demand, cells, 2, &range)).collect(),
            _ => whole.demand.clone(),
        },
        sheet: without_cells(&whole.sheet, cells, 4, &range),
    });
    fewer_rows.chain(fewer_cells).chain(smaller_numbers(case, 4, corridor_list))
}

fn corridor_list(case: &mut Corridor, list: usize) -> &mut Vec<u32> {
    match list {
        0 => &mut case.table,
        1 => &mut case.state,
        2 => &mut case.demand,
        _ => &mut case.sheet,
    }
}

fn smaller_tables(case: TwoTables, pieces: Pieces) -> impl Iterator<Item = TwoTables> {
    let (cells, all_pieces) = match pieces {
        Pieces::New => (case.old_table.len() / COLUMNS, case.new_table.len() / COLUMNS),
        Pieces::Old => (case.new_table.len() / COLUMNS, case.old_table.len() / COLUMNS),
    };
    // Cells with the pieces that their sizes give them.
    let whole = case.clone();
    let counted = whole.sizes.len() == cells;
    let fewer_cells = ranges(cells).filter(move |range| counted && range.len() < cells).map(move |range| {
        let start = |cell: usize| {
            let sum: u64 = whole.sizes[..cell].iter().map(|&size| u64::from(size)).sum();
            sum.min(all_pieces as u64) as usize
        };
        let mine = start(range.start)..start(range.end);
        without_pieces(&whole, pieces, &range, &mine)
    });
    let whole = case.clone();
    let fewer_pieces = ranges(all_pieces)
        .filter(move |range| range.len() < all_pieces)
        .map(move |range| without_pieces(&whole, pieces, &(0..0), &range));
    fewer_cells.chain(fewer_pieces).chain(smaller_numbers(case, TwoTables::LISTS, TwoTables::list))
}

/// The case without the cells of a range and their sizes, and without the pieces of another range.
fn without_pieces(
    case: &TwoTables,
    pieces: Pieces,
    cells: &std::ops::Range<usize>,
    mine: &std::ops::Range<usize>,
) -> TwoTables {
    let (old, new) = match pieces {
        Pieces::New => (cells, mine),
        Pieces::Old => (mine, cells),
    };
    TwoTables {
        old_table: without_rows(&case.old_table, old),
        old_state: without_cells(&case.old_state, case.old_table.len() / COLUMNS, 3, old),
        sizes: [&case.sizes[..cells.start], &case.sizes[cells.end..]].concat(),
        new_table: without_rows(&case.new_table, new),
        new_state: without_cells(&case.new_state, case.new_table.len() / COLUMNS, 3, new),
    }
}

fn smaller_calibration(case: Calibrate) -> impl Iterator<Item = Calibrate> {
    let count = case.flow.len().min(case.occupancy.len());
    let whole = case.clone();
    let fewer = ranges(count).map(move |range| {
        let mut case = whole.clone();
        case.flow.drain(range.clone());
        case.occupancy.drain(range.clone());
        for end in [&mut case.settings.start, &mut case.settings.end] {
            *end -= range.end.min(*end) - range.start.min(*end);
        }
        case
    });
    let whole = case.clone();
    let plain = Settings { g: 1.0 / 256.0, lanes: 1, period: 10, length: 0.5, start: 0, end: 0 };
    let plainer = (0..6).map(move |which| {
        let mut case = whole.clone();
        let settings = &mut case.settings;
        match which {
            0 => settings.g = plain.g,
            1 => settings.lanes = plain.lanes,
            2 => settings.period = plain.period,
            3 => settings.length = plain.length,
            4 => settings.start = 0,
            _ => settings.end = settings.end.min(settings.start + 1),
        }
        case
    });
    let whole = case;
    let simpler = (0..2 * count).flat_map(move |at| {
        let whole = whole.clone();
        let double = *calibration_double(&mut whole.clone(), at);
        let simple = [0.0, 1.0, 1_000.0, 0.5, double.floor(), (double * 64.0).floor() / 64.0];
        // Only values that come earlier in the list are simpler, so that the search ends.
        let rank = simple[..4].iter().position(|&simple| simple == double).unwrap_or(6);
        simple.into_iter().take(rank).filter(move |simple| simple.is_finite() && *simple != double).map(move |simple| {
            let mut case = whole.clone();
            *calibration_double(&mut case, at) = simple;
            case
        })
    });
    fewer.chain(plainer).chain(simpler)
}

fn calibration_double(case: &mut Calibrate, at: usize) -> &mut f64 {
    if at.is_multiple_of(2) {
        &mut case.flow[at / 2]
    } else {
        &mut case.occupancy[at / 2]
    }
}

fn smaller_texts(case: Texts) -> impl Iterator<Item = Texts> {
    // Where all three texts read as numbers, what makes a run smaller makes them smaller.
    let numbers = texts_as_run(&case).into_iter().flat_map(smaller_corridor).map(|case| run_as_texts(&case));
    let whole = case.clone();
    let fewer_bytes = (0..3).flat_map(move |file| {
        let whole = whole.clone();
        let length = whole.0[file].as_ref().map_or(0, Vec::len);
        ranges(length).map(move |range| {
            let mut case = whole.clone();
            case.0[file].as_mut().expect("a text with bytes is there").drain(range);
            case
        })
    });
    let whole = case;
    let smaller_digits = (0..3).flat_map(move |file| {
        let whole = whole.clone();
        let text = whole.0[file].clone().unwrap_or_default();
        (0..text.len()).filter(move |&at| matches!(text[at], b'2'..=b'9')).map(move |at| {
            let mut case = whole.clone();
            case.0[file].as_mut().expect("a text with digits is there")[at] = b'1';
            case
        })
    });
    numbers.chain(fewer_bytes).chain(smaller_digits)
}

fn texts_as_run(case: &Texts) -> Option<Corridor> {
    let [Some(cells), Some(state), Some(demand)] = &case.0 else {
        return None;
    };
    let table = read_whole(cells, COLUMNS).ok()?;
    let cells = table.len() / COLUMNS;
    let state = read_whole(state, state_length(cells)).ok()?;
    let demand = read_whole(demand, demand_length(cells)).ok()?;
    Some(Corridor { table, state, demand, ..Corridor::default() })
}

fn run_as_texts(case: &Corridor) -> Texts {
    let cells = case.table.len() / COLUMNS;
    let text = |numbers: &[u32], width: usize| {
        let mut text = Vec::new();
        for record in numbers.chunks(width) {
            write_record(&mut text, record.iter().map(|&number| u64::from(number)));
        }
        Some(text)
    };
    Texts([
        text(&case.table, COLUMNS),
        text(&case.state, state_length(cells)),
        text(&case.demand, demand_length(cells)),
    ])
}
