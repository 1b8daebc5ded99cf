//! Small tables for the tests, and the program.
#![allow(dead_code)]

use sim::generate::tables::{table, table_before_24, Shape};
use sim::machine::Tick;
use sim::random::Random;
use sim::sheet::analyse;
use sim::table::{encode, exceeds_two, Callback, Kind, Refusal, Table};
use std::io::Write;
use std::process::{Command, Output, Stdio};

/// A lone callback.
pub fn lone(kind: Kind, period: u64, jitter: u64, distance: u64, entries: &[u64]) -> Callback {
    Callback {
        kind,
        next: 0,
        entries: entries.to_vec(),
        period,
        jitter,
        distance,
    }
}

/// A subscription with T = d.
pub fn subscription(period: u64, entries: &[u64]) -> Callback {
    lone(Kind::Subscription, period, 0, period, entries)
}

pub fn timer(period: u64, entries: &[u64]) -> Callback {
    lone(Kind::Timer, period, 0, period, entries)
}

pub fn follower(kind: Kind, entries: &[u64]) -> Callback {
    lone(kind, 0, 0, 0, entries)
}

pub fn supplied(budget: u64, period: u64, callbacks: Vec<Callback>) -> Table {
    Table {
        edition: 1,
        budget,
        period,
        horizon: 0,
        delay: 0,
        callbacks,
    }
}

/// A table with full supply, Q and P being 1 (document 01, 'Reckoned by hand').
pub fn full(callbacks: Vec<Callback>) -> Table {
    supplied(1, 1, callbacks)
}

/// The same table in this edition.
pub fn in_edition(edition: u8, table: &Table) -> Table {
    Table {
        edition,
        ..table.clone()
    }
}

/// The same table with this start delay.
pub fn delayed(delay: u64, table: &Table) -> Table {
    Table {
        delay,
        ..table.clone()
    }
}

/// Timer 1 activates subscription 2, which activates client 3.
pub fn chain() -> Table {
    let mut callbacks = vec![
        timer(20, &[1]),
        follower(Kind::Subscription, &[2]),
        follower(Kind::Client, &[3]),
    ];
    callbacks[0].next = 2;
    callbacks[1].next = 3;
    full(callbacks)
}

/// Window and bounds 1 to n; the places beyond n are seen to be kept.
pub fn sheet(table: &Table) -> Result<(u64, Vec<u64>), Refusal> {
    let mut row = [7_777; 20];
    let result = analyse(&encode(table), &mut row);
    let kept = if result.is_ok() { table.count() } else { 0 };
    assert!(row[kept..].iter().all(|&place| place == 7_777));
    Ok((
        result?,
        row[..kept].iter().map(|&bound| bound.into()).collect(),
    ))
}

pub fn refusal(number: u8, index: u8) -> Refusal {
    Refusal { number, index }
}

/// A supplied tick.
pub fn tick(mask: u16, cost: u64) -> Tick {
    Tick {
        mask,
        supplied: true,
        cost,
    }
}

pub fn unsupplied(mask: u16, cost: u64) -> Tick {
    Tick {
        mask,
        supplied: false,
        cost,
    }
}

/// How the program ended.
#[derive(Debug)]
pub struct Ended {
    pub status: Option<i32>,
    pub output: String,
    pub error: String,
}

impl From<Output> for Ended {
    fn from(output: Output) -> Ended {
        Ended {
            status: output.status.code(),
            output: String::from_utf8(output.stdout).unwrap(),
            error: String::from_utf8(output.stderr).unwrap(),
        }
    }
}

/// The program on these words and this input.
pub fn run(words: &[&str], input: &[u8]) -> Ended {
    let mut child = Command::new(env!("CARGO_BIN_EXE_sim"))
        .args(words)
        .stdin(Stdio::piped())
        .stdout(Stdio::piped())
        .stderr(Stdio::piped())
        .spawn()
        .unwrap();
    // A command that does not read its input may have ended by now.
    let _ = child.stdin.take().unwrap().write_all(input);
    child.wait_with_output().unwrap().into()
}

/// What the program prints on these words and input.
pub fn program(words: &[&str], input: &[u8]) -> String {
    run(words, input).output
}

/// Whether no table has a delay that this seed draws for a history, up to the first that the analyser
/// takes. Such a seed gives what it gave before there were delays.
pub fn without_delays(seed: u64) -> bool {
    let mut random = Random::new(seed);
    loop {
        let drawn = table(&mut random, Shape::Small);
        if drawn.delay > 0 || sheet(&drawn).is_ok() {
            return drawn.delay == 0;
        }
    }
}

/// Whether some record has fault 24 of U7.
pub fn has_fault_24(table: &Table) -> bool {
    let mut callbacks = table.callbacks.iter();
    callbacks.any(|callback| exceeds_two(&callback.entries))
}

/// Whether no table had fault 24 that this seed drew for a history before U7, up to the first that
/// the analyser takes. Such a seed gives what it gave before U7.
pub fn without_faults_24(seed: u64) -> bool {
    let mut random = Random::new(seed);
    loop {
        let drawn = table_before_24(&mut random, Shape::Small);
        if has_fault_24(&drawn) || sheet(&drawn).is_ok() {
            return !has_fault_24(&drawn);
        }
    }
}

/// The timers of edition 1, as a number; 0 for a table of edition 2.
pub fn timers_first(table: &Table) -> u64 {
    let timers = table.callbacks.iter().filter(|c| c.kind == Kind::Timer);
    match table.edition {
        1 => timers.count() as u64,
        _ => 0,
    }
}

/// Whether U5 gives the table other bounds and histories.
pub fn with_timers_first(table: &Table) -> bool {
    timers_first(table) > 0
}

/// The table that `sim check` draws for this seed.
pub fn checked_table(seed: u64) -> Table {
    let mut random = Random::new(seed);
    let shape = checked_shape(&mut random);
    table(&mut random, shape)
}

/// Whether the table that it drew before U7 had no fault 24, so that the check is what it was.
pub fn checked_without_faults_24(seed: u64) -> bool {
    let mut random = Random::new(seed);
    let shape = checked_shape(&mut random);
    !has_fault_24(&table_before_24(&mut random, shape))
}

fn checked_shape(random: &mut Random) -> Shape {
    if random.chance(95) {
        Shape::Small
    } else {
        Shape::Long
    }
}

/// A number that stands for a text (FNV-1a), to compare it with one of before.
pub fn digest(texts: impl IntoIterator<Item = String>) -> u64 {
    let mut digest = 0xcbf2_9ce4_8422_2325;
    for byte in texts.into_iter().flat_map(String::into_bytes) {
        digest = (digest ^ u64::from(byte)).wrapping_mul(0x0000_0100_0000_01b3);
    }
    digest
}
