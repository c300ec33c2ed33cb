//! The cases themselves: they can be made, they are the same every time, and the search makes them small.

use std::collections::BTreeSet;

use cases::{even_join, generate, generate_program, shrink, Case, Corridor, Outcome, Rng, TwoTables};
use model::{COLUMNS, LONGEST_RECORD};

#[test]
fn cases_can_be_made_again() {
    for seed in 0..4 {
        for index in 0..20_000 {
            let case = generate(seed, index);
            if index % 100 == 0 {
                assert_eq!(format!("{case:?}"), format!("{:?}", generate(seed, index)));
            }
        }
        for index in 0..1_000 {
            assert!(matches!(generate_program(seed, index), Case::Program(_)));
        }
    }
}

#[test]
fn a_search_ends_at_a_small_case() {
    // Differs wherever some cell has a split: one cell is enough, and the split's number is made small.
    let differs = |case: &Case| match case {
        Case::Run(Corridor { table, .. }) => table.chunks_exact(COLUMNS).any(|row| row[8] >= 100),
        _ => false,
    };
    let case = (0..).map(|index| generate(1, index)).find(differs).unwrap();
    let Case::Run(smallest) = shrink(case, differs, 1_000_000) else { unreachable!("the search keeps the function") };
    assert_eq!(smallest.table, [0, 0, 0, 0, 0, 0, 0, 0, 100, 0]);
    assert!(smallest.demand.is_empty());
}

#[test]
fn a_search_among_joins() {
    // Differs wherever two new cells or more are accepted, of which one has a group of three: cells go with their groups.
    let differs = |case: &Case| match case {
        Case::Join(join) => join.sizes.len() > 1 && join.sizes.contains(&3) && case.model_outcome().number() == 0,
        _ => false,
    };
    let case = (0..).map(|index| generate(1, index)).find(differs).unwrap();
    let Case::Join(smallest) = shrink(case, differs, 1_000_000) else { unreachable!("the search keeps the function") };
    assert_eq!(smallest.sizes.iter().sum::<u32>(), 4);
    assert_eq!((smallest.old_state, smallest.new_state), (vec![0; 13], vec![0; 7]));
}

/// What is at an edge in a join, with its answer.
fn edges(join: &TwoTables, number: u32, place: u32) -> Vec<&'static str> {
    let (old_cells, new_cells) = (join.old_table.len() / COLUMNS, join.new_table.len() / COLUMNS);
    let sum: u64 = join.sizes.iter().map(|&size| u64::from(size)).sum();
    let accepted = number == 0;
    let broken = number == 14 && place > 0;
    // The first group that breaks a rule, its cells and the new one.
    let group = broken.then(|| {
        let at = place as usize - 1;
        let first = join.sizes[..at].iter().sum::<u32>() as usize;
        let rows: Vec<&[u32]> = join.old_table.chunks(COLUMNS).skip(first).take(join.sizes[at] as usize).collect();
        (rows, &join.new_table[at * COLUMNS..][..COLUMNS])
    });
    let of_group = |rule: fn(&[&[u32]], &[u32]) -> bool| group.as_ref().is_some_and(|(rows, new)| rule(rows, new));
    let found = [
        ("the most into one", accepted && (old_cells, new_cells) == (512, 1)),
        ("one into one", accepted && (old_cells, new_cells) == (1, 1)),
        ("the most into the most", accepted && (old_cells, new_cells) == (512, 512)),
        ("the largest jam count", accepted && join.new_table.chunks(COLUMNS).any(|row| row[3] == 4_000_000)),
        ("a sum that wraps", number == 14 && sum != old_cells as u64 && sum as u32 == old_cells as u32),
        ("an empty group", of_group(|rows, _| rows.is_empty())),
        ("an on-ramp after the first", of_group(|rows, _| rows.iter().skip(1).any(|row| row[4] != 0))),
        ("an off-ramp before the last", of_group(|rows, _| rows.iter().rev().skip(1).any(|row| row[7] != 0))),
        ("the first's jam count", of_group(|rows, new| rows.len() > 1 && rows[0][3] == new[3])),
        ("another c", of_group(|rows, new| rows.len() == 1 && rows[0][4] == new[4] && rows[0][6] != new[6])),
        ("another b", of_group(|rows, new| rows.len() == 1 && rows[0][7] == new[7] && rows[0][8] != new[8])),
    ];
    found.into_iter().filter(|(_, met)| *met).map(|(name, _)| name).collect()
}

#[test]
fn joins_meet_their_edges() {
    let mut met = BTreeSet::new();
    for index in 0..40_000 {
        let case = generate(1, index);
        let outcome = case.model_outcome();
        if let Case::Join(join) = &case {
            met.extend(edges(join, outcome.number(), outcome.place()));
        }
    }
    assert_eq!(met.len(), 11, "only {met:?}");
}

/// What a case of a period or a run has to do with the drop of the capacity, with its answer.
fn drops(case: &Case) -> Vec<&'static str> {
    let (Case::Period(corridor) | Case::Run(corridor)) = case else {
        return Vec::new();
    };
    let outcome = case.model_outcome();
    let refused_at = |number: u32, wrong: &dyn Fn(usize) -> bool| {
        outcome.number() == number && (outcome.place() as usize).checked_sub(1).is_some_and(wrong)
    };
    let Corridor { table, state, .. } = corridor;
    let cells = table.len() / COLUMNS;
    let capacities = |cell: usize| (table[cell * COLUMNS + 2], table[cell * COLUMNS + 9]);
    let any = |wanted: fn(u32, u32) -> bool| {
        outcome.number() == 0 && (0..cells).map(capacities).any(|(capacity, dropped)| wanted(capacity, dropped))
    };
    let found = [
        ("all of it", any(|capacity, dropped| dropped == capacity)),
        ("one less", any(|capacity, dropped| dropped + 1 == capacity)),
        ("1 of more", any(|capacity, dropped| dropped == 1 && capacity > 2)),
        ("0", refused_at(2, &|cell| capacities(cell).1 == 0 && capacities(cell).0 > 0)),
        ("one more", refused_at(2, &|cell| capacities(cell).0.checked_add(1) == Some(capacities(cell).1))),
        ("a mode of 2", refused_at(5, &|cell| state[1 + 2 * cells + cell] == 2)),
        ("a large mode", refused_at(5, &|cell| state[1 + 2 * cells + cell] > 1 << 30)),
        ("by the modes at the start", outcome.number() == 0 && outcome != after_free(case)),
        ("by the modes in between", outcome.count() > 2 && after_free(case) != undropped(case)),
    ];
    found.into_iter().filter(|(_, met)| *met).map(|(name, _)| name).collect()
}

/// What comes of the case after a period in which every cell was free.
fn after_free(case: &Case) -> Outcome {
    changed(case, clear_modes)
}

/// What comes of it when, besides, no capacity drops.
fn undropped(case: &Case) -> Outcome {
    changed(case, |corridor| {
        clear_modes(corridor);
        corridor.table.chunks_mut(COLUMNS).for_each(|row| row[9] = row[2]);
    })
}

fn clear_modes(corridor: &mut Corridor) {
    let cells = corridor.table.len() / COLUMNS;
    corridor.state[1 + 2 * cells..].fill(0);
}

fn changed(case: &Case, change: impl Fn(&mut Corridor)) -> Outcome {
    let mut case = case.clone();
    if let Case::Period(corridor) | Case::Run(corridor) = &mut case {
        change(corridor);
    }
    case.model_outcome()
}

#[test]
fn drops_meet_their_edges() {
    let met: BTreeSet<_> = (0..20_000).flat_map(|index| drops(&generate(1, index))).collect();
    assert_eq!(met.len(), 9, "only {met:?}");
}

/// A state whose record is just as long as one may be, and one a byte longer, in cases of the program.
#[test]
fn states_as_long_as_a_record() {
    let found: BTreeSet<_> = (0..20_000)
        .filter_map(|index| match generate_program(1, index) {
            Case::Program(texts) => {
                texts.0[1].as_ref().map(|state| state.split(|&byte| byte == b'\r').next().unwrap().len())
            }
            _ => None,
        })
        .filter(|length| length.abs_diff(LONGEST_RECORD) < 2)
        .collect();
    assert!(found.contains(&LONGEST_RECORD) && found.contains(&(LONGEST_RECORD + 1)), "only {found:?}");
}

#[test]
fn a_join_to_be_timed_is_accepted() {
    let join = even_join(&mut Rng::of_case(1, 1), 512, 4);
    assert_eq!((join.old_table.len(), join.new_table.len()), (512 * COLUMNS, 128 * COLUMNS));
    assert_eq!(Case::Join(join).model_outcome().number(), 0);
}

#[test]
fn a_search_among_texts() {
    let differs = |case: &Case| match case {
        Case::Program(texts) => texts.0[2].as_ref().is_some_and(|demand| demand.contains(&b'7')),
        _ => false,
    };
    let case = (0..).map(|index| generate_program(1, index)).find(differs).unwrap();
    let Case::Program(smallest) = shrink(case, differs, 1_000_000) else {
        unreachable!("the search keeps the program")
    };
    assert_eq!(smallest.0[2].as_deref(), Some(&b"7"[..]));
}
