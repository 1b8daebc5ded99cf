//! The state in lent bytes, as docs/STATE.md lays it out.

use sim::machine::State;
use sim::table::{HEADER_BYTES, MOST_CALLBACKS, RECORD_BYTES};

pub const LENGTH: usize = 640;
pub const WAITING: usize = 528;
const FINISHED: usize = 560;
const TICKS: usize = 624;
pub const CACHE: usize = 628;
const UNITS: usize = 630;
const RUNNING: usize = 632;
const SPARE: usize = 633;

fn get(bytes: &[u8], at: usize, width: usize) -> u64 {
    (0..width)
        .map(|k| u64::from(bytes[at + k]) << (8 * k))
        .sum()
}

fn put(bytes: &mut [u8], at: usize, width: usize, value: u64) {
    bytes[at..at + width].copy_from_slice(&value.to_le_bytes()[..width]);
}

/// The bytes of a state; of a table too long for its place, the first part.
pub fn pack(state: &State) -> [u8; LENGTH] {
    let mut bytes = [0; LENGTH];
    let held = state.table.len().min(WAITING);
    bytes[..held].copy_from_slice(&state.table[..held]);
    for place in 0..MOST_CALLBACKS {
        put(&mut bytes, WAITING + 2 * place, 2, state.waiting[place]);
        put(&mut bytes, FINISHED + 4 * place, 4, state.finished[place]);
    }
    put(&mut bytes, TICKS, 4, state.ticks);
    put(&mut bytes, CACHE, 2, state.cache.into());
    put(&mut bytes, UNITS, 2, state.units);
    put(&mut bytes, RUNNING, 1, state.running as u64);
    bytes
}

/// The state that the bytes spell, faulty or not; none where they are not
/// laid out as one.
pub fn unpack(bytes: &[u8]) -> Option<State> {
    if bytes.len() != LENGTH {
        return None;
    }
    let end = HEADER_BYTES + RECORD_BYTES * usize::from(bytes[1]);
    let zero = |part: &[u8]| part.iter().all(|&byte| byte == 0);
    if end > WAITING || !zero(&bytes[end..WAITING]) || !zero(&bytes[SPARE..]) {
        return None;
    }
    let each = |at, width| std::array::from_fn(|place| get(bytes, at + width * place, width));
    Some(State {
        table: bytes[..end].to_vec(),
        waiting: each(WAITING, 2),
        finished: each(FINISHED, 4),
        cache: get(bytes, CACHE, 2) as u16,
        running: usize::from(bytes[RUNNING]),
        units: get(bytes, UNITS, 2),
        ticks: get(bytes, TICKS, 4),
    })
}
