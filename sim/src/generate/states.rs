//! States written at will, sound or with one fault.

use super::curves::bend_some;
use super::damage::damaged;
use crate::machine::{bit, gathers, start, State, MOST_TICKS};
use crate::random::Random;
use crate::table::{encode, Kind, Table, LARGEST, MOST_CALLBACKS};
use crate::text::Change;

/// A state of this table that a tick does not refuse with 29. Timers have as many waiting as no
/// history gives them (U6), by draws of their own.
pub fn sound(random: &mut Random, table: &Table) -> State {
    let mut aside = random.aside();
    let mut state = start(&encode(table)).state;
    state.ticks = *random.pick(&[0, 1, 10, 300, MOST_TICKS - 1, MOST_TICKS]);
    let waits: Vec<usize> = (1..=table.count()).filter(|_| random.chance(50)).collect();
    for index in 1..=table.count() {
        let most = state.ticks;
        state.finished[index - 1] = *random.pick(&[0, most / 2, most]);
        if waits.contains(&index) {
            state.waiting[index - 1] = *random.pick(&[1, 2, 254, 255, 255]);
            if table.callback(index).kind == Kind::Timer {
                state.waiting[index - 1] = *aside.pick(&[1, 1, 2, 3, 254, 255]);
            }
        }
    }
    let gathered = |index: usize| gathers(table.edition, table.callback(index).kind);
    let caching = *random.pick(&[0, 50, 100]);
    for &index in &waits {
        if gathered(index) && random.chance(caching) {
            state.cache |= bit(index);
        }
    }
    let able = |&index: &usize| !gathered(index) || state.cached(index);
    let mut able: Vec<usize> = waits.iter().copied().filter(able).collect();
    if !able.is_empty() && random.chance(60) {
        state.running = *random.pick(&able);
        if table.edition == 2 && random.chance(50) {
            // What step 3 would choose, often a timer.
            able.sort_by_key(|&index| table.callback(index).kind);
            state.running = able[0];
        }
        state.units = *random.pick(&[1, 1, 2, LARGEST]);
    }
    state
}

/// Puts one fault into a state; now and then it is none.
pub fn spoil(random: &mut Random, table: &Table, state: &mut State) {
    let place = random.range(0, table.count() as u64 - 1) as usize;
    let beyond = random.range(table.count() as u64, MOST_CALLBACKS as u64) as usize;
    let last = beyond.min(MOST_CALLBACKS - 1);
    // For edition 1 without a delay every draw stays what it was before there was another.
    let second = table.edition == 2;
    match random.range(0, 11) {
        0 if table.delay > 0 && random.chance(40) => set_delay(random, state),
        0 if second && random.chance(50) => state.table[0] = 1,
        9 if second && random.chance(50) => run_uncached(random, table, state),
        0 if random.aside().chance(30) => bend_curves(random, table, state),
        0 => state.table = damaged(random),
        1 => state.running = beyond + 1,
        2 => state.cache |= 1 << last,
        3 => state.waiting[last] = 1,
        4 => state.finished[last] = 1,
        5 => state.waiting[place] = 256,
        6 => state.finished[place] = state.ticks + 1,
        7 => state.waiting[place] = 0,
        8 => state.cache ^= 1 << place,
        9 => state.running = place + 1,
        10 => state.running = 0,
        _ => state.units = *random.pick(&[0, 1, LARGEST + 1]),
    }
}

/// Writes another delay into the state's table: a fault above 60,000 alone.
fn set_delay(random: &mut Random, state: &mut State) {
    let delay: u16 = *random.pick(&[60_001, 60_001, 65_535, 60_000]);
    state.table[8..10].copy_from_slice(&delay.to_le_bytes());
}

/// Writes entries with fault 24 into the state's table.
fn bend_curves(random: &mut Random, table: &Table, state: &mut State) {
    let mut bent = table.clone();
    bend_some(random, &mut bent);
    state.table = encode(&bent);
}

/// Lets a timer, if there is one, run outside the cache: wrong in edition 2 alone, and else in order.
fn run_uncached(random: &mut Random, table: &Table, state: &mut State) {
    let timer = |&index: &usize| table.callback(index).kind == Kind::Timer;
    let timers: Vec<usize> = (1..=table.count()).filter(timer).collect();
    if !timers.is_empty() {
        let index = *random.pick(&timers);
        let waiting = &mut state.waiting[index - 1];
        *waiting = (*waiting).max(1);
        state.cache &= !bit(index);
        (state.running, state.units) = (index, 1);
    }
}

/// The writes that make any state into this one.
pub fn changes(state: &State) -> Vec<Change> {
    let mut changes = vec![
        Change::Table(state.table.clone()),
        Change::Cache(state.cache),
        Change::Running(state.running),
        Change::Units(state.units),
        Change::Ticks(state.ticks),
    ];
    for index in 1..=MOST_CALLBACKS {
        changes.push(Change::Waiting(index, state.waiting(index)));
        changes.push(Change::Finished(index, state.finished(index)));
    }
    changes
}
