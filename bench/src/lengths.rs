//! How many lengths a sheet takes, and what that number grows with.

use crate::plain::every_length::EveryLength;
use crate::plain::jumps::Jumps;
use crate::plain::sheet::lengths;
use sim::generate::blocking::timers;
use sim::generate::tables::{any_shape, table};
use sim::random::Random;
use sim::sheet::{analyse, arrivals};
use sim::table::{encode, Table};

const DRAWS: usize = 60_000;

/// What one sheet took.
struct Taken {
    window: u64,
    callbacks: u64,
    /// Timers of edition 1.
    timers: u64,
    /// Activations of all callbacks that a window may hold.
    activations: u64,
    jumps: u64,
    every: u64,
}

fn taken(table: &Table) -> Option<Taken> {
    let bytes = encode(table);
    let window = analyse(&bytes, &mut [0; 16]).ok()?;
    let activations = |index| arrivals(table.callback(table.head_of(index)), window);
    Some(Taken {
        window,
        callbacks: table.count() as u64,
        timers: timers(table).len() as u64,
        activations: (1..=table.count()).map(activations).sum(),
        jumps: lengths::<Jumps>(&bytes),
        every: lengths::<EveryLength>(&bytes),
    })
}

/// A row: the sheets of which this number lies in a range, named with it.
fn row(name: &str, sheets: &[Taken], number: fn(&Taken) -> u64, (low, high): (u64, u64)) {
    let name = name.replace('#', &format!("{low} to {high}"));
    let found: Vec<&Taken> = sheets
        .iter()
        .filter(|taken| (low..=high).contains(&number(taken)))
        .collect();
    let Some(largest) = found.iter().map(|taken| taken.jumps).max() else {
        return;
    };
    let mean = |of: fn(&Taken) -> u64| {
        found.iter().map(|taken| of(taken)).sum::<u64>() as f64 / found.len() as f64
    };
    println!(
        "| {name} | {} | {:.0} | {:.1} | {:.0} | {:.0} | {largest} | {:.0} |",
        found.len(),
        mean(|taken| taken.window),
        mean(|taken| taken.callbacks),
        mean(|taken| taken.activations),
        mean(|taken| taken.jumps),
        mean(|taken| taken.every)
    );
}

/// Drawn tables with a sheet, by window, by callbacks and by activations.
pub fn grown() {
    let mut random = Random::new(17);
    let drawn = (0..DRAWS).map(|_| {
        let shape = any_shape(&mut random);
        table(&mut random, shape)
    });
    let sheets: Vec<Taken> = drawn.filter_map(|table| taken(&table)).collect();
    println!("| sheets with | tables | window | callbacks | activations | lengths | most lengths | every length |");
    println!("|---|---:|---:|---:|---:|---:|---:|---:|");
    for range in [(1, 99), (100, 999), (1_000, 9_999), (10_000, 60_000)] {
        row("a window of #", &sheets, |taken| taken.window, range);
    }
    for range in [(1, 1), (2, 4), (5, 8), (9, 16)] {
        row("# callbacks", &sheets, |taken| taken.callbacks, range);
    }
    for range in [(1, 9), (10, 99), (100, 999), (1_000, 4_080)] {
        row("# activations", &sheets, |taken| taken.activations, range);
    }
    let share = |taken: &Taken| taken.jumps as f64 / most(taken) as f64;
    let largest = sheets.iter().map(share).fold(0.0, f64::max);
    println!("\nof what activations and callbacks permit, at most {largest:.2}");
}

/// No sheet takes more: each length but the first of a search lies behind an
/// activation that the one before it did not hold, or ends the search of one.
/// The level of a timer has its own window, and one bound.
fn most(taken: &Taken) -> u64 {
    let all = (taken.callbacks + 2) * taken.activations + 1;
    let levels = taken.timers * (2 * taken.activations + 1) + taken.activations;
    all + if taken.timers == 0 { 0 } else { levels }
}
