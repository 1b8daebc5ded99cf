//! The proved library compared with the simulator; README.md describes it.

mod cases;
mod compare;
mod fence;
mod layout;
mod old;

use compare::{Comparison, Function, Outcome, Totals};
use sim::generate::values::REFUSALS;
use std::io::Write;
use std::time::{SystemTime, UNIX_EPOCH};

const USAGE: &str = "usage:
  differential gate          fixed seeds
  differential seed SEED     one seed
  differential soak [SEED]   seeds from SEED on, or from a random one, until stopped
";

/// The gate's seeds.
const GATE: std::ops::Range<u64> = 1..211;
/// What a gate run must have compared.
const LEAST_TABLES: u64 = 30_000;
const LEAST_TICKS: u64 = 1_000_000;
const LEAST_SECOND: u64 = 200_000;
const LEAST_DELAYED: u64 = 3_000;
const LEAST_STARVED: u64 = 100;
const LEAST_WRITTEN: u64 = 80_000;
const LEAST_HELD_UP: u64 = 200;
const LEAST_MET: u64 = 100;
const LEAST_FOLDED: u64 = 50_000;
const LEAST_FOLDED_FULL: u64 = 1_000;
const LEAST_OLD: u64 = 8_000;
const LEAST_OLD_SHEETS: u64 = 5_000;
const LEAST_SMALLER: u64 = 2_000;
const LEAST_OLD_HISTORIES: u64 = 700;
const LEAST_OLD_STATES: u64 = 4_000;

fn main() {
    let words: Vec<String> = std::env::args().skip(1).collect();
    let words: Vec<&str> = words.iter().map(String::as_str).collect();
    let outcome = match words[..] {
        ["gate"] => gate(),
        ["seed", seed] => number(seed).and_then(one),
        ["soak"] => soak(random_seed()),
        ["soak", seed] => number(seed).and_then(soak),
        _ => {
            eprint!("{USAGE}");
            std::process::exit(2);
        }
    };
    if let Err(what) = outcome {
        eprintln!("difference: {what}");
        std::process::exit(1);
    }
}

fn number(word: &str) -> Outcome<u64> {
    word.parse().map_err(|_| format!("not a number: {word}"))
}

fn random_seed() -> u64 {
    let now = SystemTime::now().duration_since(UNIX_EPOCH);
    now.map_or(1, |time| time.as_nanos() as u64)
}

/// A comparison, once the state's length is found to be the documented one.
fn begun() -> Outcome<Comparison> {
    fence::tell_faults();
    // SAFETY: takes nothing.
    match unsafe { library::cuorfelt_state_length() } {
        layout::LENGTH => Ok(Comparison::new()),
        other => Err(format!("the state's length is {other}")),
    }
}

fn gate() -> Outcome {
    let mut comparison = begun()?;
    cases::edges(&mut comparison)?;
    for seed in GATE {
        cases::run(&mut comparison, seed)?;
    }
    complete(&comparison.totals)?;
    println!("{}: no difference", summary(&comparison.totals));
    Ok(())
}

/// Whether a gate run was large enough and met every refusal.
fn complete(totals: &Totals) -> Outcome {
    let many = totals.tables >= LEAST_TABLES && totals.ticks >= LEAST_TICKS;
    let late = totals.delayed >= LEAST_DELAYED && totals.starved >= LEAST_STARVED;
    let written = totals.written >= LEAST_WRITTEN;
    let timers = totals.held_up >= LEAST_HELD_UP && totals.met >= LEAST_MET;
    let folded = totals.folded.iter().all(|&ticks| ticks >= LEAST_FOLDED)
        && totals.folded_full >= LEAST_FOLDED_FULL;
    let second = totals.second >= LEAST_SECOND;
    let all = [
        many,
        late,
        written,
        timers,
        folded,
        second,
        old_enough(totals),
    ];
    if all.contains(&false) {
        return Err(format!("too few compared: {}", summary(totals)));
    }
    let before: Vec<usize> = (0..=14).chain([22]).collect();
    let read = [&before[..], &[24]].concat();
    let values: Vec<usize> = [0].into_iter().chain(REFUSALS.map(usize::from)).collect();
    let numbers = [
        (Function::Write, values),
        (Function::Analyse, [&read[..], &[15, 16, 17]].concat()),
        (Function::Start, [&read[..], &[29]].concat()),
        (Function::Read, read),
        (Function::Normalise, before),
        (
            Function::Tick,
            [0].into_iter().chain(18..=21).chain([29]).collect(),
        ),
    ];
    for (function, numbers) in numbers {
        let met = totals.refused[function as usize];
        if let Some(number) = numbers.into_iter().find(|&number| met[number] == 0) {
            return Err(format!("refusal {number} was never met"));
        }
    }
    Ok(())
}

/// Whether enough had to do with tables of before U7.
fn old_enough(totals: &Totals) -> bool {
    let sheets = totals.old_sheets >= LEAST_OLD_SHEETS && totals.smaller >= LEAST_SMALLER;
    let machines =
        totals.old_histories >= LEAST_OLD_HISTORIES && totals.old_states >= LEAST_OLD_STATES;
    totals.old >= LEAST_OLD && sheets && machines
}

fn summary(totals: &Totals) -> String {
    format!(
        "{} tables ({} with a sheet, {} of these with a delay), {} ticks ({} on a cache of edition 2; {} of edition 1 and {} of edition 2 fold a beat, {} of these one of a full timer), {} histories ({} starved as long as a delay permits; {} with a timer held up, which meets its bound in {} and that of before U5 in {}), {} damaged states, {} wrong lengths, {} writings ({} of them refused), {} normalisings ({} tables right but for fault 24; {} of these had a sheet, {} have a smaller one; {} histories within their curves, {} states with one)",
        totals.tables,
        totals.accepted,
        totals.delayed,
        totals.ticks,
        totals.second,
        totals.folded[0],
        totals.folded[1],
        totals.folded_full,
        totals.histories,
        totals.starved,
        totals.held_up,
        totals.met,
        totals.met_before,
        totals.damaged,
        totals.lengths,
        totals.writings,
        totals.writings - totals.written,
        totals.normalisings,
        totals.old,
        totals.old_sheets,
        totals.smaller,
        totals.old_histories,
        totals.old_states
    )
}

fn one(seed: u64) -> Outcome {
    let mut comparison = begun()?;
    cases::run(&mut comparison, seed)?;
    println!("{}: no difference", summary(&comparison.totals));
    Ok(())
}

fn soak(first: u64) -> Outcome {
    let mut comparison = begun()?;
    let mut seed = first;
    loop {
        print!("\rseed {seed}: {}", summary(&comparison.totals));
        std::io::stdout()
            .flush()
            .map_err(|error| error.to_string())?;
        cases::run(&mut comparison, seed)?;
        seed = seed.wrapping_add(1);
    }
}
