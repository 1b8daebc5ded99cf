//! The analyser, over either search.

use super::curves::{arrivals, Level};
use super::table::{all, read, refuse, Table, EDITION_ONE, LARGEST, PLACES};
use library::{Refusal, Sheet};

const MOST_WAITING: u32 = 255;

/// How window and bounds are searched for. `looks` counts the lengths that are
/// held against a demand.
pub trait Search {
    fn window(table: &Table, heads: &[u8; PLACES], level: &Level, looks: &mut u64) -> Option<u32>;

    /// For each callback the offsets, each search going on from the length
    /// that the offset before found.
    fn bound(
        table: &Table,
        heads: &[u8; PLACES],
        level: &Level,
        slot: usize,
        window: u32,
        looks: &mut u64,
    ) -> u32;
}

/// The slot of the head of each slot's chain.
fn heads_of(table: &Table) -> [u8; PLACES] {
    let mut heads = [0; PLACES];
    for head in (0..table.count).filter(|slot| table.heads & (1 << slot) != 0) {
        let mut at = head + 1;
        while at != 0 {
            heads[at - 1] = head as u8;
            at = usize::from(table.callbacks[at - 1].next);
        }
    }
    heads
}

fn horizon(table: &Table) -> u32 {
    match table.horizon {
        0 => LARGEST.into(),
        given => given.into(),
    }
}

/// All callbacks.
fn everyone(table: &Table) -> Level {
    Level {
        members: all(table.count),
        blocking: 0,
        horizon: horizon(table),
    }
}

/// A timer of edition 1 and those above it, blocked by the costliest of the rest;
/// none for other callbacks.
fn level(table: &Table, slot: usize, window: u32) -> Option<Level> {
    let timers = table.kinds[0];
    if table.edition != EDITION_ONE || timers & (1 << slot) == 0 {
        return None;
    }
    let members = timers & all(slot + 1);
    let lower = (0..table.count).filter(|slot| members & (1 << slot) == 0);
    let left = lower.map(|slot| u64::from(table.callbacks[slot].cost[0]) - 1);
    Some(Level {
        members,
        blocking: left.max().unwrap_or(0),
        horizon: window,
    })
}

fn sheet<S: Search>(bytes: &[u8], row: &mut [u16], looks: &mut u64) -> Result<u32, Refusal> {
    if row.len() < PLACES {
        return Err(refuse(17, 0));
    }
    let table = read(bytes)?;
    let heads = heads_of(&table);
    let everyone = everyone(&table);
    let window = S::window(&table, &heads, &everyone, looks).ok_or(refuse(15, 0))?;
    let crowded = |&slot: &usize| {
        table.heads & (1 << slot) != 0 && arrivals(&table.callbacks[slot], window) > MOST_WAITING
    };
    if let Some(slot) = (0..table.count).find(crowded) {
        return Err(refuse(16, slot as u8 + 1));
    }
    for (slot, place) in row[..table.count].iter_mut().enumerate() {
        let mut bound = S::bound(&table, &heads, &everyone, slot, window, looks);
        if let Some(level) = level(&table, slot, window) {
            let own = S::window(&table, &heads, &level, looks).expect("at most W");
            bound = bound.min(S::bound(&table, &heads, &level, slot, own, looks));
        }
        *place = bound as u16;
    }
    Ok(window)
}

#[inline(never)]
pub fn analyse<S: Search>(bytes: &[u8], row: &mut [u16]) -> Sheet {
    match sheet::<S>(bytes, row, &mut 0) {
        Ok(window) => Sheet {
            window: window as u16,
            number: 0,
            index: 0,
        },
        Err(Refusal { number, index }) => Sheet {
            window: 0,
            number,
            index,
        },
    }
}

/// How many lengths the sheet takes.
pub fn lengths<S: Search>(bytes: &[u8]) -> u64 {
    let mut looks = 0;
    let _ = sheet::<S>(bytes, &mut [0; PLACES], &mut looks);
    looks
}
