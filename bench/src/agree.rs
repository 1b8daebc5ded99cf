//! Whether the library and plain Rust give the same results and leave the
//! same bytes.

use crate::plain::every_length::EveryLength;
use crate::plain::jumps::Jumps;
use crate::plain::{machine, normaliser, sheet, writer};
use library::{
    cuorfelt_analyse, cuorfelt_normalise, cuorfelt_tick, cuorfelt_write, Refusal, Reply, Sheet,
    Written,
};
use sim::generate::curves::any_old_table;
use sim::generate::damage::damaged;
use sim::generate::states::{sound, spoil};
use sim::generate::tables::{any_shape, table, Shape};
use sim::generate::values::{rooms, values};
use sim::machine::State;
use sim::random::Random;
use sim::table::encode;
use sim::write::Values;

pub const PLACES: usize = 16;
pub const LENGTH: usize = 640;

/// What a tick is offered: mask, supplied, cost.
pub type Offer = (u16, u8, u32);

pub fn library_sheet(bytes: &[u8], row: &mut [u16]) -> Sheet {
    // SAFETY: lends the slices as they are.
    unsafe { cuorfelt_analyse(bytes.as_ptr(), bytes.len(), row.as_mut_ptr(), row.len()) }
}

pub fn library_tick(state: &mut [u8], (mask, supplied, cost): Offer) -> Reply {
    // SAFETY: lends the slice as it is.
    unsafe { cuorfelt_tick(state.as_mut_ptr(), state.len(), mask, supplied, cost) }
}

pub fn plain_sheet(bytes: &[u8], row: &mut [u16]) -> Sheet {
    sheet::analyse::<Jumps>(bytes, row)
}

pub fn every_length_sheet(bytes: &[u8], row: &mut [u16]) -> Sheet {
    sheet::analyse::<EveryLength>(bytes, row)
}

type Analyse = fn(&[u8], &mut [u16]) -> Sheet;

const PLAIN: [(&str, Analyse); 2] = [("plain", plain_sheet), ("every length", every_length_sheet)];

pub fn plain_tick(state: &mut [u8], (mask, supplied, cost): Offer) -> Reply {
    machine::tick(state, mask, supplied, cost)
}

/// The sheet that all three give.
pub fn sheets(bytes: &[u8]) -> Result<Sheet, String> {
    let mut ours = [7; PLACES];
    let library = library_sheet(bytes, &mut ours);
    for (name, analyse) in PLAIN {
        let mut theirs = [7; PLACES];
        let plain = analyse(bytes, &mut theirs);
        if library != plain || ours != theirs {
            return Err(format!("{library:?} {ours:?}, {name} {plain:?} {theirs:?}"));
        }
    }
    Ok(library)
}

/// What a writer takes: the header's numbers, and the records' numbers.
pub struct Described {
    header: writer::Header,
    records: Vec<u16>,
}

impl Described {
    pub fn new(values: &Values) -> Described {
        Described {
            header: [
                values.edition,
                values.count,
                values.budget,
                values.period,
                values.horizon,
                values.delay,
            ],
            records: values.records.clone(),
        }
    }
}

pub fn library_write(of: &Described, buffer: &mut [u8]) -> Written {
    let [edition, count, budget, period, horizon, delay] = of.header;
    let (numbers, length) = (of.records.len(), buffer.len());
    // SAFETY: lends the slices as they are.
    unsafe {
        cuorfelt_write(
            edition,
            count,
            budget,
            period,
            horizon,
            delay,
            of.records.as_ptr(),
            numbers,
            buffer.as_mut_ptr(),
            length,
        )
    }
}

pub fn plain_write(of: &Described, buffer: &mut [u8]) -> Written {
    writer::write(&of.header, &of.records, buffer)
}

/// Whether both write the same into a buffer of that length.
pub fn writings(of: &Described, room: usize) -> Result<(), String> {
    let (mut ours, mut theirs) = (vec![7; room], vec![7; room]);
    let library = library_write(of, &mut ours);
    let plain = plain_write(of, &mut theirs);
    if library != plain || ours != theirs {
        return Err(format!("{library:?}, plain {plain:?}"));
    }
    Ok(())
}

pub fn library_normalise(bytes: &mut [u8]) -> Refusal {
    // SAFETY: lends the slice as it is.
    unsafe { cuorfelt_normalise(bytes.as_mut_ptr(), bytes.len()) }
}

pub fn plain_normalise(bytes: &mut [u8]) -> Refusal {
    normaliser::normalise(bytes)
}

/// Whether both leave the same table.
pub fn normalisings(bytes: &[u8]) -> Result<(), String> {
    let (mut ours, mut theirs) = (bytes.to_vec(), bytes.to_vec());
    let library = library_normalise(&mut ours);
    let plain = plain_normalise(&mut theirs);
    if library != plain || ours != theirs {
        return Err(format!(
            "{library:?} {ours:?}, plain {plain:?} {theirs:?} of {bytes:?}"
        ));
    }
    Ok(())
}

/// The state after a tick that both take to it.
pub fn ticks(state: &[u8], offer: Offer) -> Result<Vec<u8>, String> {
    let (mut ours, mut theirs) = (state.to_vec(), state.to_vec());
    let library = library_tick(&mut ours, offer);
    let plain = plain_tick(&mut theirs, offer);
    if library != plain || ours != theirs {
        return Err(format!("{offer:?}: {library:?}, plain {plain:?}"));
    }
    Ok(ours)
}

/// A state's bytes, as docs/STATE.md lays them out.
pub fn packed(state: &State) -> Vec<u8> {
    let mut bytes = state.table.clone();
    bytes.resize(528, 0);
    for waiting in state.waiting {
        bytes.extend((waiting as u16).to_le_bytes());
    }
    for finished in state.finished {
        bytes.extend((finished as u32).to_le_bytes());
    }
    bytes.extend((state.ticks as u32).to_le_bytes());
    bytes.extend(state.cache.to_le_bytes());
    bytes.extend((state.units as u16).to_le_bytes());
    bytes.push(state.running as u8);
    bytes.resize(LENGTH, 0);
    bytes
}

/// Drawn tables, states and values, damaged ones among them; gives how many calls.
pub fn drawn() -> Result<u64, String> {
    let mut random = Random::new(1);
    let mut calls = 0;
    for _ in 0..3_000 {
        let shape = any_shape(&mut random);
        let bytes = if random.chance(50) {
            damaged(&mut random)
        } else {
            encode(&table(&mut random, shape))
        };
        sheets(&bytes)?;
        normalisings(&bytes)?;
        let old = encode(&any_old_table(&mut random));
        sheets(&old)?;
        normalisings(&old)?;
        let small = table(&mut random, Shape::Small);
        let mut state = sound(&mut random, &small);
        if random.chance(30) {
            spoil(&mut random, &small, &mut state);
        }
        let mut lent = packed(&state);
        if random.chance(30) {
            let at = random.range(0, LENGTH as u64 - 1) as usize;
            lent[at] = random.bits() as u8;
        }
        for _ in 0..10 {
            let mask = random.bits() as u16 & random.bits() as u16 & random.bits() as u16;
            let cost = *random.pick(&[0, 1, 1, 1, 2, 60_000, 60_001]);
            lent = ticks(&lent, (mask, u8::from(random.chance(80)), cost))?;
        }
        calls += 14;
    }
    for _ in 0..3_000 {
        let values = values(&mut random);
        for room in rooms(&values) {
            writings(&Described::new(&values), room)?;
            calls += 1;
        }
    }
    Ok(calls)
}
