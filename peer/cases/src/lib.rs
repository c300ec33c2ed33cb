//! Cases for differential tests: random and boundary inputs of every function, each made from a seed and an index, and the
//! smaller cases to look through when two implementations differ.
#![forbid(unsafe_code)]

mod generate;
mod pieces;
mod rng;
mod shrink;

use std::fmt;

use model::{Face, Settings};

pub use generate::{demand_rows, generate, generate_program, samples, table, Kind};
pub use pieces::{even_join, even_recut};
pub use rng::Rng;
pub use shrink::shrink;

/// One input of one function. Lists that the function writes come with contents of their own.
#[derive(Clone, Debug, PartialEq)]
pub enum Case {
    Table(Corridor),
    State(Corridor),
    Row(Corridor),
    Period(Corridor),
    Run(Corridor),
    Recut(TwoTables),
    Join(TwoTables),
    Calibrate(Calibrate),
    Program(Texts),
}

/// The lists of acceptance, period and run; each function takes the first few of them.
#[derive(Clone, Debug, PartialEq, Default)]
pub struct Corridor {
    pub table: Vec<u32>,
    pub state: Vec<u32>,
    pub demand: Vec<u32>,
    pub sheet: Vec<u32>,
}

/// The lists of a re-cut and of a join. The sizes are the piece counts of the old cells, or the group sizes of the new ones.
#[derive(Clone, Debug, PartialEq)]
pub struct TwoTables {
    pub old_table: Vec<u32>,
    pub old_state: Vec<u32>,
    pub sizes: Vec<u32>,
    pub new_table: Vec<u32>,
    pub new_state: Vec<u32>,
}

/// Which of the two tables holds the pieces: the new one in a re-cut, the old one in a join.
#[derive(Clone, Copy)]
enum Pieces {
    New,
    Old,
}

#[derive(Clone, Debug, PartialEq)]
pub struct Calibrate {
    pub flow: Vec<f64>,
    pub occupancy: Vec<f64>,
    pub settings: Settings,
    pub diagram: Vec<f64>,
    pub row: Vec<u32>,
}

/// The texts of cells, state and demand; a missing one is a missing file.
#[derive(Clone, Debug, PartialEq)]
pub struct Texts(pub [Option<Vec<u8>>; 3]);

/// What a function did: its word and the later contents of the lists it may write, doubles as their bits; or the program's
/// output.
#[derive(Clone, PartialEq, Eq)]
pub enum Outcome {
    Lists { word: u64, lists: Vec<Vec<u32>>, doubles: Vec<u64> },
    Output(Vec<u8>),
}

impl Outcome {
    /// The refusal number, 0 for accepted.
    pub fn number(&self) -> u32 {
        match self {
            Outcome::Lists { word, .. } => (word >> 32) as u32 % 256,
            Outcome::Output(text) => refusal_line(text).map_or(0, |line| line[2]),
        }
    }

    /// What a word counts, the periods that a run completed; 0 for the program.
    pub fn count(&self) -> u32 {
        match self {
            Outcome::Lists { word, .. } => (word >> 40) as u32,
            Outcome::Output(_) => 0,
        }
    }

    /// The place that a refusal names.
    pub fn place(&self) -> u32 {
        match self {
            Outcome::Lists { word, .. } => *word as u32,
            Outcome::Output(text) => refusal_line(text).map_or(0, |line| line[1]),
        }
    }
}

/// The seven numbers of the last line when it is a refusal.
fn refusal_line(text: &[u8]) -> Option<Vec<u32>> {
    let text = std::str::from_utf8(text).ok()?.strip_suffix("\r\n")?;
    let line = text.rsplit("\r\n").next()?;
    let fields: Vec<u32> = line.split(',').map_while(|field| field.parse().ok()).collect();
    (fields.len() == 7 && fields[6] == 2).then_some(fields)
}

impl Case {
    /// Runs a case of the library's functions. The program's cases are run by [`Case::model_outcome`] or as a program.
    pub fn outcome(&self, face: &dyn Face) -> Outcome {
        let lists = |word, lists: &[&[u32]]| Outcome::Lists {
            word,
            lists: lists.iter().map(|list| list.to_vec()).collect(),
            doubles: Vec::new(),
        };
        match self {
            Case::Table(Corridor { table, .. }) => lists(face.accept_table(table), &[]),
            Case::State(Corridor { table, state, .. }) => lists(face.accept_state(table, state), &[]),
            Case::Row(Corridor { table, state, demand, .. }) => lists(face.accept_row(table, state, demand), &[]),
            Case::Period(Corridor { table, state, demand, sheet }) => {
                let (mut state, mut sheet) = (state.clone(), sheet.clone());
                let word = face.period(table, &mut state, demand, &mut sheet);
                lists(word, &[&state, &sheet])
            }
            Case::Run(Corridor { table, state, demand, sheet }) => {
                let (mut state, mut sheet) = (state.clone(), sheet.clone());
                let word = face.run(table, &mut state, demand, &mut sheet);
                lists(word, &[&state, &sheet])
            }
            Case::Recut(case) => case.outcome(|old, state, sizes, new, list| face.recut(old, state, sizes, new, list)),
            Case::Join(case) => case.outcome(|old, state, sizes, new, list| face.join(old, state, sizes, new, list)),
            Case::Calibrate(Calibrate { flow, occupancy, settings, diagram, row }) => {
                let (mut diagram, mut row) = (diagram.clone(), row.clone());
                let word = face.calibrate(flow, occupancy, settings, &mut diagram, &mut row);
                let doubles = diagram.iter().map(|double| double.to_bits()).collect();
                Outcome::Lists { word, lists: vec![row], doubles }
            }
            Case::Program(texts) => texts.model_outcome(),
        }
    }

    /// What the model does.
    pub fn model_outcome(&self) -> Outcome {
        self.outcome(&model::Model)
    }
}

impl TwoTables {
    /// How many lists there are.
    const LISTS: usize = 5;

    fn list(&mut self, at: usize) -> &mut Vec<u32> {
        match at {
            0 => &mut self.old_table,
            1 => &mut self.old_state,
            2 => &mut self.sizes,
            3 => &mut self.new_table,
            _ => &mut self.new_state,
        }
    }

    /// The join of the new cells of a re-cut, in this state, back into the old ones.
    pub fn joined_again(&self, state: &[u32]) -> TwoTables {
        TwoTables {
            old_table: self.new_table.clone(),
            old_state: state.to_vec(),
            sizes: self.sizes.clone(),
            new_table: self.old_table.clone(),
            new_state: vec![0; self.old_state.len()],
        }
    }

    fn outcome(&self, function: impl Fn(&[u32], &[u32], &[u32], &[u32], &mut [u32]) -> u64) -> Outcome {
        let TwoTables { old_table, old_state, sizes, new_table, new_state } = self;
        let mut new_state = new_state.clone();
        let word = function(old_table, old_state, sizes, new_table, &mut new_state);
        Outcome::Lists { word, lists: vec![new_state], doubles: Vec::new() }
    }

    fn write(&self, out: &mut fmt::Formatter<'_>, name: &str, sizes: &str) -> fmt::Result {
        writeln!(out, "{name}")?;
        write_list(out, "old_table", &self.old_table)?;
        write_list(out, "old_state", &self.old_state)?;
        write_list(out, sizes, &self.sizes)?;
        write_list(out, "new_table", &self.new_table)?;
        write_list(out, "new_state", &self.new_state)
    }
}

impl Texts {
    pub fn model_outcome(&self) -> Outcome {
        let [cells, state, demand] = &self.0;
        Outcome::Output(model::simulate(cells.as_deref(), state.as_deref(), demand.as_deref()))
    }
}

impl fmt::Display for Case {
    fn fmt(&self, out: &mut fmt::Formatter<'_>) -> fmt::Result {
        let corridor = |out: &mut fmt::Formatter<'_>, name: &str, lists: usize, case: &Corridor| {
            writeln!(out, "{name}")?;
            let Corridor { table, state, demand, sheet } = case;
            let named = [("table", table), ("state", state), ("demand", demand), ("sheet", sheet)];
            named.into_iter().take(lists).try_for_each(|(name, list)| write_list(out, name, list))
        };
        match self {
            Case::Table(case) => corridor(out, "accept_table", 1, case),
            Case::State(case) => corridor(out, "accept_state", 2, case),
            Case::Row(case) => corridor(out, "accept_row", 3, case),
            Case::Period(case) => corridor(out, "period", 4, case),
            Case::Run(case) => corridor(out, "run", 4, case),
            Case::Recut(case) => case.write(out, "recut", "pieces"),
            Case::Join(case) => case.write(out, "join", "groups"),
            Case::Calibrate(case) => {
                writeln!(out, "calibrate")?;
                write_list(out, "flow", &case.flow)?;
                write_list(out, "occupancy", &case.occupancy)?;
                writeln!(out, "  {:?}", case.settings)?;
                write_list(out, "diagram", &case.diagram)?;
                write_list(out, "row", &case.row)
            }
            Case::Program(Texts(texts)) => {
                writeln!(out, "simulate")?;
                for (name, text) in ["cells.csv", "state.csv", "demand.csv"].iter().zip(texts) {
                    match text {
                        None => writeln!(out, "  {name}: missing")?,
                        Some(text) => writeln!(out, "  {name}: \"{}\"", text.escape_ascii())?,
                    }
                }
                Ok(())
            }
        }
    }
}

impl fmt::Display for Outcome {
    fn fmt(&self, out: &mut fmt::Formatter<'_>) -> fmt::Result {
        match self {
            Outcome::Lists { lists, doubles, .. } => {
                match self.number() {
                    0 => write!(out, "  accepted")?,
                    number => write!(out, "  refused {number} at {}", self.place())?,
                }
                writeln!(out, ", count {}", self.count())?;
                lists.iter().try_for_each(|list| write_list(out, "after", list))?;
                if !doubles.is_empty() {
                    let doubles: Vec<f64> = doubles.iter().map(|&bits| f64::from_bits(bits)).collect();
                    write_list(out, "after", &doubles)?;
                }
                Ok(())
            }
            Outcome::Output(text) => {
                for line in text.split_inclusive(|&byte| byte == b'\n') {
                    writeln!(out, "  \"{}\"", line.escape_ascii())?;
                }
                Ok(())
            }
        }
    }
}

/// A list in full, or its ends when it is long.
fn write_list<T: fmt::Debug>(out: &mut fmt::Formatter<'_>, name: &str, list: &[T]) -> fmt::Result {
    const SHOWN: usize = 4_096;
    match list.len() {
        0..=SHOWN => writeln!(out, "  {name}: {list:?}"),
        length => {
            writeln!(out, "  {name}: {length} numbers, from {:?} to {:?}", &list[..8], &list[length - 8..])
        }
    }
}
