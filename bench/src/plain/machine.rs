//! The tick on lent bytes.

use super::table::{
    all, read, refuse, word, zero, Table, EDITION_TWO, HEADER, LARGEST, PLACES, RECORD, TIMER,
};
use library::{Refusal, Reply};

const LENGTH: usize = 640;
const WAITING: usize = 528;
const FINISHED: usize = 560;
const TICKS: usize = 624;
const CACHE: usize = 628;
const UNITS: usize = 630;
const RUNNING: usize = 632;
const SPARE: usize = 633;

const MOST_WAITING: u16 = 255;
const MOST_TICKS: u32 = 1_000_000_000;

struct Machine {
    table: Table,
    waiting: [u16; PLACES],
    finished: [u32; PLACES],
    ticks: u32,
    cache: u16,
    units: u16,
    running: u8,
}

fn long(bytes: &[u8], at: usize) -> u32 {
    u32::from_le_bytes([bytes[at], bytes[at + 1], bytes[at + 2], bytes[at + 3]])
}

/// The machine in lent bytes that hold a state.
fn unpack(bytes: &[u8]) -> Option<Machine> {
    if bytes.len() != LENGTH {
        return None;
    }
    let end = HEADER + RECORD * usize::from(bytes[1]);
    if end > WAITING || !zero(&bytes[end..WAITING]) || !zero(&bytes[SPARE..]) {
        return None;
    }
    let machine = Machine {
        table: read(&bytes[..end]).ok()?,
        waiting: std::array::from_fn(|slot| word(bytes, WAITING + 2 * slot)),
        finished: std::array::from_fn(|slot| long(bytes, FINISHED + 4 * slot)),
        ticks: long(bytes, TICKS),
        cache: word(bytes, CACHE),
        units: word(bytes, UNITS),
        running: bytes[RUNNING],
    };
    (!faulty(&machine)).then_some(machine)
}

/// The slots with an instance waiting.
fn waits(machine: &Machine) -> u16 {
    let mut mask = 0;
    for (slot, &waiting) in machine.waiting.iter().enumerate() {
        mask |= u16::from(waiting != 0) << slot;
    }
    mask
}

/// The slots that no polling point gathers.
fn unpolled(table: &Table) -> u16 {
    if table.edition == EDITION_TWO {
        return 0;
    }
    table.kinds[usize::from(TIMER) - 1]
}

fn faulty(machine: &Machine) -> bool {
    let count = machine.table.count;
    if usize::from(machine.running) > count {
        return true;
    }
    let waits = waits(machine);
    let beyond = !all(count);
    if (machine.cache | waits) & beyond != 0 {
        return true;
    }
    let over = |&waiting: &u16| waiting > MOST_WAITING;
    let ahead = |&finished: &u32| finished > machine.ticks;
    if machine.waiting.iter().any(over) || machine.finished.iter().any(ahead) {
        return true;
    }
    if machine.finished[count..]
        .iter()
        .any(|&finished| finished != 0)
    {
        return true;
    }
    if machine.cache & !waits != 0 || machine.cache & unpolled(&machine.table) != 0 {
        return true;
    }
    if machine.running == 0 {
        return machine.units != 0;
    }
    let running = 1 << (machine.running - 1);
    let able = (unpolled(&machine.table) & waits) | machine.cache;
    able & running == 0 || machine.units == 0 || machine.units > LARGEST
}

/// The first slot of a mask in priority; the mask is not empty.
fn first(table: &Table, mask: u16) -> usize {
    let kinds = table.kinds.iter().map(|kind| kind & mask);
    let first = kinds.into_iter().find(|&mask| mask != 0).unwrap_or(mask);
    first.trailing_zeros() as usize
}

/// The refusals before the effect.
fn refused(machine: &Machine, mask: u16, cost: u32) -> Option<Refusal> {
    if machine.ticks >= MOST_TICKS {
        return Some(refuse(18, 0));
    }
    if cost == 0 || cost > LARGEST.into() {
        return Some(refuse(19, 0));
    }
    let stray = mask & !machine.table.heads;
    if stray != 0 {
        return Some(refuse(20, stray.trailing_zeros() as u8 + 1));
    }
    None
}

/// The timers of a mask of which an instance waits that has not started.
fn folded(machine: &Machine, mask: u16) -> u16 {
    let mut folded = 0;
    let mut left = mask & machine.table.kinds[usize::from(TIMER) - 1];
    while left != 0 {
        let slot = left.trailing_zeros() as usize;
        let runs = u16::from(usize::from(machine.running) == slot + 1);
        folded |= u16::from(machine.waiting[slot] > runs) << slot;
        left &= left - 1;
    }
    folded
}

/// The slots, of those that a tick activates, that are full already.
fn full(machine: &Machine, activated: u16) -> u16 {
    let mut full = 0;
    let mut left = activated;
    while left != 0 {
        let slot = left.trailing_zeros() as usize;
        full |= u16::from(machine.waiting[slot] == MOST_WAITING) << slot;
        left &= left - 1;
    }
    full
}

/// Chooses what to run, where nothing does.
fn choose(machine: &mut Machine, arrived: u16, cost: u32, reply: &mut Reply) {
    let waits = waits(machine) | arrived;
    let first_of_all = waits & unpolled(&machine.table);
    let ready = if first_of_all != 0 {
        first_of_all
    } else {
        if machine.cache == 0 {
            machine.cache = waits;
            reply.polled = 1;
            reply.gathered = waits.count_ones() as u8;
        }
        machine.cache
    };
    if ready != 0 {
        machine.running = first(&machine.table, ready) as u8 + 1;
        machine.units = cost as u16;
        reply.started = 1;
    }
}

/// Runs what runs by one unit; gives what its finish activates.
fn run(machine: &mut Machine, reply: &mut Reply) -> u16 {
    if machine.running == 0 {
        reply.answer = 2;
        return 0;
    }
    let slot = usize::from(machine.running) - 1;
    reply.callback = machine.running;
    reply.instance = machine.finished[slot] + 1;
    machine.units -= 1;
    if machine.units > 0 {
        reply.answer = 3;
        return 0;
    }
    reply.answer = 4;
    match machine.table.callbacks[slot].next {
        0 => 0,
        next => 1 << (next - 1),
    }
}

/// The finish of the running instance, and the activations.
fn settle(machine: &mut Machine, activated: u16, finished: bool) {
    for (slot, waiting) in machine.waiting.iter_mut().enumerate() {
        *waiting += activated >> slot & 1;
    }
    if finished {
        let slot = usize::from(machine.running) - 1;
        machine.waiting[slot] -= 1;
        machine.finished[slot] += 1;
        machine.cache &= !(1 << slot);
        machine.running = 0;
    }
    machine.ticks += 1;
}

fn pack(machine: &Machine, bytes: &mut [u8]) {
    for slot in 0..PLACES {
        let at = WAITING + 2 * slot;
        bytes[at..at + 2].copy_from_slice(&machine.waiting[slot].to_le_bytes());
        let at = FINISHED + 4 * slot;
        bytes[at..at + 4].copy_from_slice(&machine.finished[slot].to_le_bytes());
    }
    bytes[TICKS..CACHE].copy_from_slice(&machine.ticks.to_le_bytes());
    bytes[CACHE..UNITS].copy_from_slice(&machine.cache.to_le_bytes());
    bytes[UNITS..RUNNING].copy_from_slice(&machine.units.to_le_bytes());
    bytes[RUNNING] = machine.running;
}

fn refusal(refusal: Refusal) -> Reply {
    Reply {
        number: refusal.number,
        index: refusal.index,
        ..Reply::default()
    }
}

#[inline(never)]
pub fn tick(bytes: &mut [u8], mask: u16, supplied: u8, cost: u32) -> Reply {
    let Some(mut machine) = unpack(bytes) else {
        return refusal(refuse(29, 0));
    };
    if let Some(first) = refused(&machine, mask, cost) {
        return refusal(first);
    }
    let mut reply = Reply {
        answer: 1,
        folded: folded(&machine, mask),
        ..Reply::default()
    };
    let kept = mask & !reply.folded;
    let mut activated = kept;
    if supplied != 0 {
        if machine.running == 0 {
            choose(&mut machine, kept, cost, &mut reply);
        }
        activated |= run(&mut machine, &mut reply);
    }
    let full = full(&machine, activated);
    if full != 0 {
        return refusal(refuse(21, full.trailing_zeros() as u8 + 1));
    }
    settle(&mut machine, activated, reply.answer == 4);
    pack(&machine, bytes);
    reply
}
