//! The library's functions: the proved ones, the model's, and for a run the two yardsticks: in C by columns, and in Rust by indexes.

use std::hint::black_box;
use std::time::Duration;

use cases::{demand_rows, even_join, even_recut, samples, table, Calibrate, Case, Corridor, Kind, Rng, TwoTables};
use model::{
    demand_length, read_whole, sheet_length, state_length, Face, Model, RunAnswer, Settings, COLUMNS, MOST_SAMPLES,
};

use crate::programs::EXAMPLE;
use crate::timing::{best, print_table, ratio, time, Work};

/// A run as the model and the yardsticks have it.
type Run = fn(&[u32], &mut [u32], &[u32], &mut [u32]) -> RunAnswer;

/// A re-cut or a join through a face.
type Change = fn(&dyn Face, &[u32], &[u32], &[u32], &[u32], &mut [u32]) -> u64;

/// The times of the model, the proved library, the run in C and the run by indexes.
type Times = Vec<Option<Duration>>;

/// The work that each of the four does.
type Works = [Option<Work<'static>>; 4];

/// Their names for `--repeat`.
const SIDES: [&str; 4] = ["rust", "proved", "c", "indexed"];

/// A piece of work with its set-up: what is timed, and what is counted.
#[derive(Clone, Copy)]
pub enum Job {
    /// A run of so many periods over the example corridor, its morning over and over.
    ExampleRun(usize),
    /// A run over a road of so many cells and periods.
    Run(usize, usize),
    /// The periods of such a run through the function for one period.
    ExamplePeriods(usize),
    Periods(usize, usize),
    /// A re-cut of 128 cells into 512.
    Recut,
    /// A join of 512 cells into 128.
    Join,
    /// A calibration from the most samples.
    Calibration,
}

impl Job {
    /// The job of a name as `run,512,4096`, `run,example,4096`, `periods,512,4096`, `recut`, `join` or `calibration`.
    pub fn named(name: &str) -> Option<Job> {
        let number = |text: &str| text.parse().ok().filter(|number| *number > 0);
        Some(match name.split(',').collect::<Vec<_>>()[..] {
            ["run", "example", periods] => Job::ExampleRun(number(periods)?),
            ["run", cells, periods] => Job::Run(number(cells)?, number(periods)?),
            ["periods", "example", periods] => Job::ExamplePeriods(number(periods)?),
            ["periods", cells, periods] => Job::Periods(number(cells)?, number(periods)?),
            ["recut"] => Job::Recut,
            ["join"] => Job::Join,
            ["calibration"] => Job::Calibration,
            _ => return None,
        })
    }

    /// What each side does, once they are seen to leave the same behind. Each job has random numbers of its own.
    fn works(self) -> Works {
        let rng = &mut Rng::of_case(210, 41);
        match self {
            Job::ExampleRun(periods) => run_works(&example(periods)),
            Job::Run(cells, periods) => run_works(&corridor(rng, cells, periods)),
            Job::ExamplePeriods(periods) => period_works(&example(periods)),
            Job::Periods(cells, periods) => period_works(&corridor(rng, cells, periods)),
            Job::Recut => change_works(&even_recut(rng, 128, 4), Case::Recut, |face, old, state, sizes, new, list| {
                face.recut(old, state, sizes, new, list)
            }),
            Job::Join => change_works(&even_join(rng, 512, 4), Case::Join, |face, old, state, sizes, new, list| {
                face.join(old, state, sizes, new, list)
            }),
            Job::Calibration => calibration_works(&calibration(rng)),
        }
    }
}

/// Does a job so many times on one of the sides. Nothing is timed: what is run between the first call and the last is for
/// another program to count.
pub fn repeat(job: &str, side: &str, calls: usize) -> Result<(), String> {
    let at = SIDES.iter().position(|name| *name == side).ok_or(format!("{side} is not one of {}", SIDES.join(", ")))?;
    let job = Job::named(job).ok_or(format!("{job} is no job"))?;
    let mut work = job.works()[at].take().ok_or(format!("{side} does not do this, or is not linked"))?;
    (0..calls).for_each(|_| work());
    Ok(())
}

pub fn measure(rounds: usize) {
    if proved::library().is_none() {
        println!("No archive is linked (FIGWIMPLE_ARCHIVE): the Rust and C sides alone.");
    }
    let times = |job: Job| -> Times { best(&mut job.works(), rounds) };

    let mut rows = Vec::new();
    let mut add = |name: &str, job: Job| {
        let times = times(job);
        rows.push(vec![
            name.to_string(),
            time(times[0]),
            time(times[1]),
            time(times[2]),
            time(times[3]),
            ratio(times[1], times[0]),
            ratio(times[1], times[2]),
            ratio(times[1], times[3]),
        ]);
    };
    add("run, 41 cells, 4,096 periods", Job::ExampleRun(4_096));
    add("run, 512 cells, 4,096 periods", Job::Run(512, 4_096));
    add("4,096 calls of period, 41 cells", Job::ExamplePeriods(4_096));
    add("4,096 calls of period, 512 cells", Job::Periods(512, 4_096));
    add("re-cut, 128 cells into 512", Job::Recut);
    add("join, 512 cells into 128", Job::Join);
    add("calibration, 65,536 samples", Job::Calibration);
    let heads = ["one call", "Rust", "proved", "C", "by indexes", "proved / Rust", "proved / C", "proved / by indexes"];
    print_table("Best of the rounds, the sides in turn", &heads, &rows);

    let heads = ["run", "Rust", "proved", "C", "Rust per cell and period", "proved", "C"];
    let mut rows = Vec::new();
    let mut add = |cells: usize, periods: usize| {
        let times = times(Job::Run(cells, periods));
        let each = |at: usize| {
            times[at].map_or("-".into(), |time| format!("{:.2} ns", time.as_nanos() as f64 / (cells * periods) as f64))
        };
        let name = format!("{cells} cells, {periods} periods");
        rows.push(vec![name, time(times[0]), time(times[1]), time(times[2]), each(0), each(1), each(2)]);
    };
    [64, 128, 256, 512].into_iter().for_each(|cells| add(cells, 512));
    [256, 512, 1_024, 2_048, 4_096].into_iter().for_each(|periods| add(128, periods));
    print_table("Growth with cells and periods", &heads, &rows);
}

/// A run over the example corridor, its morning over and over.
fn example(periods: usize) -> Corridor {
    let [cells, state, demand] = EXAMPLE;
    let table = read_whole(cells, COLUMNS).expect("the example's cells are read");
    let cells = table.len() / COLUMNS;
    let width = demand_length(cells);
    let sheet = vec![0; sheet_length(cells)];
    let state = read_whole(state, state_length(cells)).expect("the example's state is read");
    let morning = read_whole(demand, width).expect("the example's demand is read");
    let demand = morning.into_iter().cycle().take(periods * width).collect();
    Corridor { table, state, demand, sheet }
}

/// A run over a road of any size that is accepted to its end. Each tenth cell passes 5 % less behind a queue.
fn corridor(rng: &mut Rng, cells: usize, periods: usize) -> Corridor {
    let mut table = table(rng, Kind::Road, cells);
    for (cell, row) in table.chunks_mut(COLUMNS).enumerate() {
        row[9] = if cell % 10 == 9 { row[2] - row[2] / 20 } else { row[2] };
    }
    let demand = demand_rows(rng, &table, periods);
    let mut state = vec![0; state_length(cells)];
    for (count, row) in state[1..=cells].iter_mut().zip(table.chunks(COLUMNS)) {
        *count = rng.within(0, row[3]);
    }
    Corridor { table, state, demand, sheet: vec![0; sheet_length(cells)] }
}

fn calibration(rng: &mut Rng) -> Calibrate {
    let settings = Settings { g: 0.004, lanes: 4, period: 10, length: 0.5, start: 0, end: MOST_SAMPLES / 4 };
    let (flow, occupancy) = samples(rng, MOST_SAMPLES, settings.end, settings.g, settings.lanes);
    Calibrate { flow, occupancy, settings, diagram: vec![0.0; 5], row: vec![0; 4] }
}

/// The same case is accepted by the model and by the proved library with the same contents left behind.
fn same(case: Case) {
    let outcome = case.model_outcome();
    assert_eq!(outcome.number(), 0, "the case to be timed is accepted");
    if let Some(library) = proved::library() {
        assert!(outcome == case.outcome(library), "the proved library does what the model does");
    }
}

/// The work through the model's face and through the proved library's.
fn through(work: impl Fn(&'static dyn Face) -> Work<'static>) -> [Option<Work<'static>>; 2] {
    [Some(work(&Model)), proved::library().map(work)]
}

fn run_works(case: &Corridor) -> Works {
    same(Case::Run(case.clone()));
    let ends = |run: Run| {
        let (mut state, mut sheet) = (case.state.clone(), case.sheet.clone());
        let answer = run(&case.table, &mut state, &case.demand, &mut sheet);
        (answer, state, sheet)
    };
    let with_model = ends(model::run);
    assert!(with_model == ends(yardstick::run), "the run in C does what the model does");
    assert!(with_model == ends(model::run_indexed), "the run by indexes does what the model does");

    let [rust, proved] = through(|face| {
        let Corridor { table, state, demand, mut sheet } = case.clone();
        let mut moving = state.clone();
        Box::new(move || {
            moving.copy_from_slice(&state);
            black_box(face.run(black_box(&table), &mut moving, black_box(&demand), &mut sheet));
        })
    });
    let by = |run: Run| -> Work {
        let Corridor { table, state, demand, mut sheet } = case.clone();
        let mut moving = state.clone();
        Box::new(move || {
            moving.copy_from_slice(&state);
            let _ = black_box(run(black_box(&table), &mut moving, black_box(&demand), &mut sheet));
        })
    };
    [rust, proved, Some(by(yardstick::run)), Some(by(model::run_indexed))]
}

fn period_works(case: &Corridor) -> Works {
    let width = demand_length(case.table.len() / COLUMNS);
    same(Case::Period(Corridor { demand: case.demand[..width].to_vec(), ..case.clone() }));
    let [rust, proved] = through(|face| {
        let Corridor { table, state, demand, mut sheet } = case.clone();
        let mut moving = state.clone();
        Box::new(move || {
            moving.copy_from_slice(&state);
            for row in demand.chunks_exact(width) {
                black_box(face.period(black_box(&table), &mut moving, black_box(row), &mut sheet));
            }
        })
    });
    [rust, proved, None, None]
}

fn change_works(case: &TwoTables, function: fn(TwoTables) -> Case, change: Change) -> Works {
    same(function(case.clone()));
    let [rust, proved] = through(|face| {
        let TwoTables { old_table, old_state, sizes, new_table, mut new_state } = case.clone();
        Box::new(move || {
            black_box(change(
                face,
                black_box(&old_table),
                black_box(&old_state),
                black_box(&sizes),
                black_box(&new_table),
                &mut new_state,
            ));
        })
    });
    [rust, proved, None, None]
}

fn calibration_works(case: &Calibrate) -> Works {
    same(Case::Calibrate(case.clone()));
    let [rust, proved] = through(|face| {
        let Calibrate { flow, occupancy, settings, mut diagram, mut row } = case.clone();
        Box::new(move || {
            black_box(face.calibrate(black_box(&flow), black_box(&occupancy), &settings, &mut diagram, &mut row));
        })
    });
    [rust, proved, None, None]
}
