//! Reads `cells.csv`, `state.csv` and `demand.csv` in the current folder and writes the flow sheet to standard output.
//!
//! A refusal is the last line of the sheet, and the status is 0; standard error names a file that is missing or can't be read.
//! When a write fails, the failure goes to standard error and the status is 1.
#![forbid(unsafe_code)]

use std::fs::File;
use std::io;
use std::os::fd::AsFd;
use std::process::ExitCode;

fn main() -> ExitCode {
    match simulate() {
        Ok(()) => ExitCode::SUCCESS,
        Err(error) => {
            eprintln!("simulate: {error}");
            ExitCode::FAILURE
        }
    }
}

fn simulate() -> io::Result<()> {
    // The sheet is passed on in large pieces, so standard output's own buffer by lines is left aside.
    let out = File::from(io::stdout().as_fd().try_clone_to_owned()?);
    model::simulate_with(|file| File::open(file.name()), |file, error| eprintln!("{}: {error}", file.name()), out)
}
