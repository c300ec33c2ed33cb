//! Differential tests: the model against the proved archive, the C yardstick and a `simulate` program.
//!
//! Every case is made from a seed and an index. A difference is printed as the smallest case that a simple search finds,
//! with the command that makes the first one again, and ends the program with status 1.
#![forbid(unsafe_code)]

mod options;
mod program;

use std::process::ExitCode;
use std::time::{Duration, Instant};

use cases::{generate, generate_program, shrink, Case, Corridor, Outcome, TwoTables};
use model::{Face, Refusal, COLUMNS};
use options::Options;
use program::Program;

const NAMES: [&str; 9] =
    ["accept_table", "accept_state", "accept_row", "period", "run", "recut", "join", "calibrate", "simulate"];
/// The refusal numbers.
const NUMBERS: [usize; 13] = [1, 2, 3, 4, 5, 6, 7, 8, 9, 10, 11, 12, 14];
const TIME_TO_SHRINK: Duration = Duration::from_secs(30);

fn main() -> ExitCode {
    match Options::read(std::env::args().skip(1)).and_then(|options| compare(&options)) {
        Ok(()) => ExitCode::SUCCESS,
        Err(message) => {
            eprintln!("differ: {message}");
            ExitCode::FAILURE
        }
    }
}

fn compare(options: &Options) -> Result<(), String> {
    let library = proved::library().filter(|_| !options.archive_less);
    if library.is_none() && !options.archive_less {
        return Err("no archive is linked: build with FIGWIMPLE_ARCHIVE set to its path, or give --archive-less".into());
    }
    let program = options.program.as_deref().map(Program::new).transpose()?;
    let &Options { seed, first, cases, programs, .. } = options;
    let begun = Instant::now();
    println!("seed {seed}, cases {cases} from {first}, cases of the program {programs}");

    let mut counts = Counts::default();
    for index in first..first + cases {
        let case = generate(seed, index);
        let outcome = case.model_outcome();
        counts.add(&case, &outcome);
        check_balance(&case, &outcome).map_err(|message| format!("case {index}: {message}\n{case}\n{outcome}"))?;
        if let Some(library) = library {
            let other = |case: &Case| Some(case.outcome(library));
            same(case.clone(), &outcome, "proved", other, seed, index)?;
        }
        same(case, &outcome, "C yardstick", yardstick_outcome, seed, index)?;
    }
    for index in first..first + programs {
        let case = generate_program(seed, index);
        let outcome = case.model_outcome();
        counts.add(&case, &outcome);
        if let Some(program) = &program {
            let other = |case: &Case| match case {
                Case::Program(texts) => Some(program.outcome(texts)),
                _ => None,
            };
            same(case, &outcome, "program", other, seed, index)?;
        }
    }

    counts.print();
    counts.all_hit(options.archive_less)?;
    // Each side with what it saw: without a program to compare, its cases went through the model alone.
    let against: Vec<String> = [
        library.map(|_| format!("{cases} cases against the proved archive")),
        program.map(|_| format!("{programs} against the program")),
        Some("the runs against the C yardstick".into()),
    ]
    .into_iter()
    .flatten()
    .collect();
    println!("no difference: {}; seed {seed}, {:.1} s", against.join(", "), begun.elapsed().as_secs_f64());
    Ok(())
}

/// Fails with the smallest case found when the other side does not do what the model did.
fn same(
    case: Case,
    outcome: &Outcome,
    name: &str,
    other: impl Fn(&Case) -> Option<Outcome>,
    seed: u64,
    index: u64,
) -> Result<(), String> {
    if other(&case).is_none_or(|found| found == *outcome) {
        return Ok(());
    }
    let until = Instant::now() + TIME_TO_SHRINK;
    let differs =
        |case: &Case| Instant::now() < until && other(case).is_some_and(|found| found != case.model_outcome());
    let function = NAMES[kind(&case)];
    let smallest = shrink(case, differs, usize::MAX);
    let found = other(&smallest).expect("the other side answers a case of the same function");
    Err(format!(
        "the {name} and the model differ in {function}, seed {seed}, case {index}\n\
         (again with --seed {seed} --first {index} --cases 1 --programs 1)\n\
         the smallest case found: {smallest}model:\n{}{name}:\n{found}",
        smallest.model_outcome()
    ))
}

/// What the C yardstick does with a run.
fn yardstick_outcome(case: &Case) -> Option<Outcome> {
    let Case::Run(Corridor { table, state, demand, sheet }) = case else {
        return None;
    };
    let (mut state, mut sheet) = (state.clone(), sheet.clone());
    let word = yardstick::run(table, &mut state, demand, &mut sheet).to_word();
    Some(Outcome::Lists { word, lists: vec![state, sheet], doubles: Vec::new() })
}

/// No vehicle comes from nowhere or goes there, in an accepted period, re-cut or join; what is left behind is an accepted
/// state, after a period with the modes of its sheet; and a re-cut is undone by a join.
fn check_balance(case: &Case, outcome: &Outcome) -> Result<(), String> {
    let Outcome::Lists { word: 0, lists, .. } = outcome else {
        return Ok(());
    };
    let (before, after, table, state) = match case {
        Case::Period(Corridor { table, state, demand, .. }) => {
            let cells = table.len() / COLUMNS;
            let [after, sheet] = &lists[..] else { unreachable!("a period writes two lists") };
            if after[1 + 2 * cells..] != sheet[1 + 3 * cells..] {
                return Err("the state and the sheet have other modes".into());
            }
            let gone = u64::from(sheet[cells]) + sum(&sheet[1 + cells..1 + 2 * cells]);
            (vehicles(table, state) + sum(&demand[..=cells]), vehicles(table, after) + gone, table, after)
        }
        Case::Recut(TwoTables { old_table, old_state, new_table, .. })
        | Case::Join(TwoTables { old_table, old_state, new_table, .. }) => {
            (vehicles(old_table, old_state), vehicles(new_table, &lists[0]), new_table, &lists[0])
        }
        _ => return Ok(()),
    };
    if before != after {
        return Err(format!("{before} thousandths before, {after} after"));
    }
    let left = Refusal::from_word(model::Model.accept_state(table, state));
    left.map_err(|refusal| format!("the state left behind is {refusal}"))?;
    match case {
        Case::Recut(case) => check_undone(case, state),
        _ => Ok(()),
    }
}

fn sum(list: &[u32]) -> u64 {
    list.iter().map(|&number| u64::from(number)).sum()
}

/// The vehicles of a state: those at the entry, in the cells and at the on-ramps. Its modes are no vehicles.
fn vehicles(table: &[u32], state: &[u32]) -> u64 {
    sum(&state[..=2 * (table.len() / COLUMNS)])
}

/// The join of what a re-cut left gives back the whole state before it, its modes too.
fn check_undone(recut: &TwoTables, left: &[u32]) -> Result<(), String> {
    match Case::Join(recut.joined_again(left)).model_outcome() {
        Outcome::Lists { word: 0, lists, .. } if lists[0] == recut.old_state => Ok(()),
        other => Err(format!("joined again it is not what it was\n{other}")),
    }
}

fn kind(case: &Case) -> usize {
    match case {
        Case::Table(_) => 0,
        Case::State(_) => 1,
        Case::Row(_) => 2,
        Case::Period(_) => 3,
        Case::Run(_) => 4,
        Case::Recut(_) => 5,
        Case::Join(_) => 6,
        Case::Calibrate(_) => 7,
        Case::Program(_) => 8,
    }
}

/// How many cases of each function met each refusal number, and 0 for accepted.
#[derive(Default)]
struct Counts {
    numbers: [[u64; NUMBERS[NUMBERS.len() - 1] + 1]; NAMES.len()],
    /// Runs, and runs of the program, that were refused after at least one period.
    part_way: [u64; 2],
    /// Refusals 11 by place.
    row_values: [u64; 5],
    /// Refusals 8, and refusals 14, at place 0.
    wrong_sums: [u64; 2],
}

impl Counts {
    fn add(&mut self, case: &Case, outcome: &Outcome) {
        let number = outcome.number() as usize;
        self.numbers[kind(case)][number] += 1;
        match (case, outcome) {
            (Case::Run(_), _) if number > 0 => self.part_way[0] += u64::from(outcome.count() > 0),
            (Case::Program(_), Outcome::Output(text)) if number > 0 => {
                let lines = text.iter().filter(|&&byte| byte == b'\n').count();
                self.part_way[1] += u64::from(lines > 2);
            }
            (Case::Recut(_), _) if number == 8 => self.wrong_sums[0] += u64::from(outcome.place() == 0),
            (Case::Join(_), _) if number == 14 => self.wrong_sums[1] += u64::from(outcome.place() == 0),
            (Case::Calibrate(_), _) if number == 11 => self.row_values[outcome.place() as usize] += 1,
            _ => {}
        }
    }

    fn print(&self) {
        print!("{:13}", "");
        print!("{:>9}", "accepted");
        NUMBERS.iter().for_each(|number| print!("{number:>7}"));
        println!();
        for (name, numbers) in NAMES.iter().zip(&self.numbers) {
            print!("{name:13}{:>9}", numbers[0]);
            NUMBERS.iter().for_each(|&number| print!("{:>7}", numbers[number]));
            println!();
        }
        println!(
            "refused part way: {} runs, {} programs; 8 and 14 at place 0: {}, {}; 11 at v, w, F, J: {:?}",
            self.part_way[0],
            self.part_way[1],
            self.wrong_sums[0],
            self.wrong_sums[1],
            &self.row_values[1..]
        );
    }

    /// Fails when a function with a thousand cases never gave a number that it can give, or, where `all` is asked for, when
    /// some number was never given.
    fn all_hit(&self, all: bool) -> Result<(), String> {
        let mut missed = Vec::new();
        for (name, counts) in NAMES.iter().zip(&self.numbers) {
            let given: &[usize] = match *name {
                "accept_table" => &[0, 1, 2, 3, 4],
                "accept_state" => &[0, 1, 2, 3, 4, 5],
                "accept_row" | "period" | "run" => &[0, 1, 2, 3, 4, 5, 6, 7],
                "recut" => &[0, 1, 2, 3, 4, 5, 8],
                "join" => &[0, 1, 2, 3, 4, 5, 14],
                "calibrate" => &[0, 1, 9, 10, 11],
                _ => &[0, 1, 2, 3, 4, 5, 6, 7, 12],
            };
            if counts.iter().sum::<u64>() >= 1_000 {
                let none = given.iter().filter(|&&number| counts[number] == 0);
                missed.extend(none.map(|number| format!("{number} of {name}")));
            }
        }
        if all {
            let none = NUMBERS.into_iter().filter(|&number| self.numbers.iter().all(|counts| counts[number] == 0));
            missed.extend(none.map(|number| number.to_string()));
        }
        if missed.is_empty() {
            Ok(())
        } else {
            Err(format!("never met: {}", missed.join(", ")))
        }
    }
}
