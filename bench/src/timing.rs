//! Medians of many repetitions, both sides in turn.

use crate::work::{Side, Work};
use std::time::{Duration, Instant};

pub const HEADING: &str =
    "| work | calls a pass | library | plain Rust | ratio | every length | times as fast | passes |\n\
     |---|---:|---:|---:|---:|---:|---:|---:|";

/// A pass is repeated until it takes this long, and passes until all do.
const PASS: Duration = Duration::from_millis(2);
const ALL: Duration = Duration::from_millis(1_500);
const LEAST_PASSES: usize = 9;

fn timed(work: &Work, side: Side, times: u32) -> Duration {
    let begun = Instant::now();
    for _ in 0..times {
        work.pass(side);
    }
    begun.elapsed()
}

/// Nanoseconds, with the unit that reads best.
fn readable(nanoseconds: f64) -> String {
    match nanoseconds {
        n if n < 10_000.0 => format!("{n:.0} ns"),
        n if n < 10_000_000.0 => format!("{:.0} µs", n / 1e3),
        n => format!("{:.0} ms", n / 1e6),
    }
}

fn median(mut values: Vec<f64>) -> f64 {
    values.sort_by(f64::total_cmp);
    values[values.len() / 2]
}

/// How often a side is called in a pass, so that the pass is long enough.
fn times(work: &Work, side: Side) -> u32 {
    let once = timed(work, side, 1);
    (PASS.as_nanos() / once.as_nanos().max(1)) as u32 + 1
}

/// One row of the table: the median time of a call of the library and of the
/// plain Rust that does the same, the median of the ratios of neighbouring
/// passes, and for a sheet the median time of the search of every length and
/// how many times it is that of the library.
pub fn measured(work: &Work) -> String {
    let often = times(work, Side::Plain);
    let calls = f64::from(often) * work.count() as f64;
    let (mut library, mut plain, mut ratios) = (Vec::new(), Vec::new(), Vec::new());
    let begun = Instant::now();
    while library.len() < LEAST_PASSES || begun.elapsed() < ALL {
        let ours = timed(work, Side::Library, often).as_nanos() as f64;
        let theirs = timed(work, Side::Plain, often).as_nanos() as f64;
        library.push(ours / calls);
        plain.push(theirs / calls);
        ratios.push(ours / theirs);
    }
    let passes = library.len();
    let library = median(library);
    format!(
        "| {} | {calls} | {} a {} | {} | {:.2} | {} | {passes} |",
        work.name,
        readable(library),
        work.unit,
        readable(median(plain)),
        median(ratios),
        every_length(work, library)
    )
}

/// The columns of the search of every length, empty where nothing is searched.
fn every_length(work: &Work, library: f64) -> String {
    if !work.searches() {
        return "| ".into();
    }
    let often = times(work, Side::EveryLength);
    let calls = f64::from(often) * work.count() as f64;
    let mut passes = Vec::new();
    let begun = Instant::now();
    while passes.len() < LEAST_PASSES || begun.elapsed() < ALL {
        passes.push(timed(work, Side::EveryLength, often).as_nanos() as f64 / calls);
    }
    let every = median(passes);
    format!("{} | {:.1}", readable(every), every / library)
}
