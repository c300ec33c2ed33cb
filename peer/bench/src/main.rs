//! Times the proved library, the Rust model and the C yardstick side by side, and the two `simulate` programs.
//!
//! The sides take turns within one run and the best of several rounds counts, so that a busy machine disturbs them alike.
//! Before anything is timed the sides are seen to do the same.
#![forbid(unsafe_code)]

mod programs;
mod sides;
mod timing;

use std::path::PathBuf;
use std::process::ExitCode;

const USAGE: &str = "usage: bench [--rounds R] [--peer PATH] [--program PATH] [--megabytes M] [--library | --programs]
       bench --repeat JOB SIDE CALLS
  --rounds R       rounds of which the best counts (75, and 25 for the programs)
  --peer PATH      the Rust `simulate` (the one beside this program)
  --program PATH   the proved `simulate`
  --megabytes M    size of the large demand file (100)
  --library        only the library's functions
  --programs       only the programs
  --repeat         does a job so often on one side (rust, proved, c, indexed), for another program to count; a job is run,CELLS,PERIODS
                   or periods,CELLS,PERIODS, with `example` or a number for CELLS, or recut, join or calibration";

pub struct Options {
    rounds: Option<usize>,
    peer: PathBuf,
    program: Option<PathBuf>,
    megabytes: usize,
    library: bool,
    programs: bool,
}

fn options() -> Result<Options, String> {
    let here = std::env::current_exe().map_err(|error| error.to_string())?;
    let mut options = Options {
        rounds: None,
        peer: here.with_file_name("simulate"),
        program: None,
        megabytes: 100,
        library: true,
        programs: true,
    };
    let mut arguments = std::env::args().skip(1);
    while let Some(flag) = arguments.next() {
        let mut value = || arguments.next().ok_or(format!("{flag} needs a value\n{USAGE}"));
        let number = |text: String| text.parse::<usize>().map_err(|error| format!("{text}: {error}"));
        match flag.as_str() {
            "--rounds" => options.rounds = Some(number(value()?)?.max(1)),
            "--peer" => options.peer = value()?.into(),
            "--program" => options.program = Some(value()?.into()),
            "--megabytes" => options.megabytes = number(value()?)?,
            "--library" => options.programs = false,
            "--programs" => options.library = false,
            _ => return Err(format!("{flag} is not known\n{USAGE}")),
        }
    }
    Ok(options)
}

fn main() -> ExitCode {
    let arguments: Vec<String> = std::env::args().skip(1).collect();
    let done = match &arguments[..] {
        [flag, job, side, calls] if flag == "--repeat" => {
            calls.parse().map_err(|error| format!("{calls}: {error}")).and_then(|calls| sides::repeat(job, side, calls))
        }
        _ => timed(),
    };
    match done {
        Ok(()) => ExitCode::SUCCESS,
        Err(message) => {
            eprintln!("bench: {message}");
            ExitCode::FAILURE
        }
    }
}

fn timed() -> Result<(), String> {
    options().and_then(|options| {
        if options.library {
            sides::measure(options.rounds.unwrap_or(75));
        }
        if options.programs {
            programs::measure(&options, options.rounds.unwrap_or(25)).map_err(|error| error.to_string())?;
        }
        Ok(())
    })
}
