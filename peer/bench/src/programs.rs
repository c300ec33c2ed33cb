//! The `simulate` programs on files: time and peak memory.

use std::fs::{self, File};
use std::io::{self, BufWriter, Read, Write};
use std::path::{Path, PathBuf};
use std::process::{Command, Stdio};
use std::time::{Duration, Instant};

use crate::timing::{middle_ratio, print_table, ratio, time};
use crate::Options;

/// The texts of the example corridor.
pub const EXAMPLE: [&[u8]; 3] = [
    include_bytes!("../../../examples/i210w/cells.csv"),
    include_bytes!("../../../examples/i210w/state.csv"),
    include_bytes!("../../../examples/i210w/demand.csv"),
];

/// A folder that goes when it is let go.
struct Folder(PathBuf);

impl Folder {
    /// The example corridor with its morning over and over until the demand has at least so many bytes.
    fn new(name: &str, bytes: usize) -> io::Result<Folder> {
        let path = std::env::temp_dir().join(format!("figwimple-bench-{}-{name}", std::process::id()));
        fs::create_dir_all(&path)?;
        let folder = Folder(path);
        let [cells, state, demand] = EXAMPLE;
        fs::write(folder.0.join("cells.csv"), cells)?;
        fs::write(folder.0.join("state.csv"), state)?;
        let mut out = BufWriter::new(File::create(folder.0.join("demand.csv"))?);
        for _ in 0..bytes.div_ceil(demand.len()).max(1) {
            out.write_all(demand)?;
        }
        out.flush()?;
        Ok(folder)
    }

    fn demand_bytes(&self) -> io::Result<u64> {
        Ok(fs::metadata(self.0.join("demand.csv"))?.len())
    }
}

impl Drop for Folder {
    fn drop(&mut self) {
        let _ = fs::remove_dir_all(&self.0);
    }
}

/// A program by its name in the tables.
type Program = (&'static str, PathBuf);

pub fn measure(options: &Options, rounds: usize) -> io::Result<()> {
    let mut programs = vec![("Rust", fs::canonicalize(&options.peer)?)];
    if let Some(program) = &options.program {
        programs.push(("proved", fs::canonicalize(program)?));
    }
    let small = Folder::new("small", 0)?;
    let large = Folder::new("large", options.megabytes * 1_000_000)?;
    let memory = peaks(&programs, &small, &large)?;
    let times = turns(&programs, &large, rounds)?;

    let bytes = large.demand_bytes()?;
    let rows: Vec<Vec<String>> = programs
        .iter()
        .zip(&times)
        .map(|((name, _), own)| {
            let best = own.iter().min().copied();
            let rate = best.map_or(0.0, |best| bytes as f64 / 1e6 / best.as_secs_f64());
            let over = ratio(best, times[0].iter().min().copied());
            vec![name.to_string(), time(best), format!("{rate:.0} MB/s"), over, middle_ratio(own, &times[0])]
        })
        .collect();
    let megabytes = bytes / 1_000_000;
    let title =
        format!("`simulate`, 41 cells, a demand file of {megabytes} MB, the sheet thrown away, {rounds} rounds");
    print_table(&title, &["program", "best", "demand read", "over Rust", "over Rust, middle round"], &rows);

    let heads = ["program", &format!("{} KB", small.demand_bytes()? / 1_000), &format!("{megabytes} MB")];
    print_table("Peak resident memory of `simulate` by the size of the demand file", &heads, &memory);
    Ok(())
}

/// The times of each program's rounds: in each round every program runs once, in turn.
fn turns(programs: &[Program], folder: &Folder, rounds: usize) -> io::Result<Vec<Vec<Duration>>> {
    let mut times = vec![Vec::new(); programs.len()];
    for _ in 0..rounds {
        for ((_, program), own) in programs.iter().zip(&mut times) {
            let begun = Instant::now();
            let status =
                Command::new(program).current_dir(&folder.0).stdin(Stdio::null()).stdout(Stdio::null()).status()?;
            own.push(begun.elapsed());
            if !status.success() {
                return Err(io::Error::other(format!("{}: {status}", program.display())));
            }
        }
    }
    Ok(times)
}

/// The rows of the table of memory. The programs are seen to write the same sheets.
fn peaks(programs: &[Program], small: &Folder, large: &Folder) -> io::Result<Vec<Vec<String>>> {
    let mut rows = Vec::new();
    let mut first = None;
    for (name, program) in programs {
        let (small_peak, small_sum) = peak(program, &small.0)?;
        let (large_peak, large_sum) = peak(program, &large.0)?;
        rows.push(vec![name.to_string(), kilobytes(small_peak), kilobytes(large_peak)]);
        if *first.get_or_insert((small_sum, large_sum)) != (small_sum, large_sum) {
            return Err(io::Error::other("the programs write different sheets"));
        }
    }
    Ok(rows)
}

fn kilobytes(peak: u64) -> String {
    format!("{peak} KiB")
}

/// The peak resident memory of the program in KiB, asked for after each piece of its output while it still has more to
/// write, and a sum over the output.
fn peak(program: &Path, folder: &Path) -> io::Result<(u64, u64)> {
    let mut child = Command::new(program).current_dir(folder).stdin(Stdio::null()).stdout(Stdio::piped()).spawn()?;
    let mut out = child.stdout.take().expect("standard output is a pipe");
    let mut piece = vec![0; 1 << 18];
    let (mut peak, mut sum) = (0, 0xcbf2_9ce4_8422_2325);
    loop {
        let read = out.read(&mut piece)?;
        if read == 0 {
            break;
        }
        peak = peak.max(high_water(child.id()));
        for &byte in &piece[..read] {
            sum = (sum ^ u64::from(byte)).wrapping_mul(0x0000_0100_0000_01b3);
        }
    }
    child.wait()?;
    Ok((peak, sum))
}

/// The line VmHWM of a process, or 0 when it has ended.
fn high_water(process: u32) -> u64 {
    let status = fs::read_to_string(format!("/proc/{process}/status")).unwrap_or_default();
    let line = status.lines().find_map(|line| line.strip_prefix("VmHWM:"));
    line.and_then(|line| line.trim().strip_suffix(" kB")?.trim().parse().ok()).unwrap_or(0)
}
