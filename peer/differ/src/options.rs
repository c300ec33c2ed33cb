use std::path::PathBuf;
use std::time::{SystemTime, UNIX_EPOCH};

const USAGE: &str = "usage: differ [--cases N] [--seed S] [--first I] [--program PATH] [--programs M] [--archive-less]
  --cases N        cases of the library's functions (100000)
  --seed S         the seed (from the clock)
  --first I        the index of the first case (0)
  --program PATH   a `simulate` program to compare as well
  --programs M     cases of the program (a 50th of the cases)
  --archive-less   leave the archive aside and check that the cases meet every refusal number";

pub struct Options {
    pub cases: u64,
    pub seed: u64,
    pub first: u64,
    pub program: Option<PathBuf>,
    pub programs: u64,
    pub archive_less: bool,
}

impl Options {
    pub fn read(mut arguments: impl Iterator<Item = String>) -> Result<Options, String> {
        let clock =
            SystemTime::now().duration_since(UNIX_EPOCH).map_or(1, |time| time.as_nanos() as u64 % 1_000_000_007);
        let mut options =
            Options { cases: 100_000, seed: clock, first: 0, program: None, programs: 0, archive_less: false };
        let mut programs = None;
        while let Some(flag) = arguments.next() {
            let mut value = || arguments.next().ok_or(format!("{flag} needs a value\n{USAGE}"));
            let number = |text: String| text.parse::<u64>().map_err(|error| format!("{text}: {error}"));
            match flag.as_str() {
                "--cases" => options.cases = number(value()?)?,
                "--seed" => options.seed = number(value()?)?,
                "--first" => options.first = number(value()?)?,
                "--program" => options.program = Some(value()?.into()),
                "--programs" => programs = Some(number(value()?)?),
                "--archive-less" => options.archive_less = true,
                _ => return Err(format!("{flag} is not known\n{USAGE}")),
            }
        }
        options.programs = programs.unwrap_or(options.cases.div_ceil(50));
        Ok(options)
    }
}
