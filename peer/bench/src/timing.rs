//! Taking turns, and the table.

use std::time::{Duration, Instant};

/// A piece of work that one side does over and over.
pub type Work<'a> = Box<dyn FnMut() + 'a>;

/// The best time of one call for each side that has the work: in each round every side does a batch of calls in turn.
pub fn best(works: &mut [Option<Work>], rounds: usize) -> Vec<Option<Duration>> {
    const BATCH: Duration = Duration::from_millis(4);
    let batches: Vec<u32> = works
        .iter_mut()
        .map(|work| {
            let Some(work) = work else { return 1 };
            work();
            let begun = Instant::now();
            work();
            (BATCH.as_nanos() / begun.elapsed().as_nanos().max(1)).clamp(1, 1_000_000) as u32
        })
        .collect();
    let mut best: Vec<Option<Duration>> = vec![None; works.len()];
    for _ in 0..rounds {
        for ((work, &batch), best) in works.iter_mut().zip(&batches).zip(&mut best) {
            let Some(work) = work else { continue };
            let begun = Instant::now();
            (0..batch).for_each(|_| work());
            let time = begun.elapsed() / batch;
            *best = Some(best.map_or(time, |best| best.min(time)));
        }
    }
    best
}

/// A time with three figures and its unit.
pub fn time(time: Option<Duration>) -> String {
    let Some(time) = time else { return "-".into() };
    let nanos = time.as_nanos() as f64;
    let (value, unit) = match nanos {
        ..1e3 => (nanos, "ns"),
        ..1e6 => (nanos / 1e3, "us"),
        ..1e9 => (nanos / 1e6, "ms"),
        _ => (nanos / 1e9, "s"),
    };
    let figures = if value < 10.0 {
        2
    } else if value < 100.0 {
        1
    } else {
        0
    };
    format!("{value:.figures$} {unit}")
}

/// How long the first is as a part of the second.
pub fn ratio(time: Option<Duration>, over: Option<Duration>) -> String {
    match (time, over) {
        (Some(time), Some(over)) => format!("{:.2}", time.as_secs_f64() / over.as_secs_f64()),
        _ => "-".into(),
    }
}

/// The ratio that half of the rounds stay below, each side's time over the other's in the same round.
pub fn middle_ratio(times: &[Duration], over: &[Duration]) -> String {
    let mut ratios: Vec<f64> =
        times.iter().zip(over).map(|(time, over)| time.as_secs_f64() / over.as_secs_f64()).collect();
    ratios.sort_by(f64::total_cmp);
    ratios.get(ratios.len() / 2).map_or("-".into(), |middle| format!("{middle:.2}"))
}

/// A table in Markdown.
pub fn print_table(title: &str, heads: &[&str], rows: &[Vec<String>]) {
    let width = |column: usize| {
        let cells = rows.iter().map(|row| row[column].chars().count());
        cells.chain([heads[column].chars().count()]).max().unwrap_or(0)
    };
    let widths: Vec<usize> = (0..heads.len()).map(width).collect();
    let line = |cells: Vec<&str>| {
        let cells: Vec<String> = cells
            .iter()
            .zip(&widths)
            .enumerate()
            .map(|(i, (cell, &width))| if i == 0 { format!("{cell:<width$}") } else { format!("{cell:>width$}") })
            .collect();
        println!("| {} |", cells.join(" | "));
    };
    println!("\n{title}\n");
    line(heads.to_vec());
    let rules: Vec<String> = widths
        .iter()
        .enumerate()
        .map(|(i, &width)| if i == 0 { "-".repeat(width) } else { "-".repeat(width - 1) + ":" })
        .collect();
    line(rules.iter().map(String::as_str).collect());
    rows.iter().for_each(|row| line(row.iter().map(String::as_str).collect()));
}
