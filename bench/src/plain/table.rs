//! The reader.

use library::Refusal;

pub const PLACES: usize = 16;
pub const LARGEST: u16 = 60_000;
pub const HEADER: usize = 16;
pub const RECORD: usize = 32;
pub const ENTRIES: usize = 8;

pub const EDITION_ONE: u8 = 1;
pub const EDITION_TWO: u8 = 2;

pub const TIMER: u8 = 1;
pub const KINDS: usize = 4;

#[derive(Clone, Copy, Default)]
pub struct Callback {
    pub next: u8,
    pub entries: u8,
    pub period: u16,
    pub jitter: u16,
    pub distance: u16,
    pub cost: [u16; ENTRIES],
}

/// A table that the reader took, with what the links say.
pub struct Table {
    pub edition: u8,
    pub count: usize,
    pub budget: u16,
    pub period: u16,
    pub horizon: u16,
    pub delay: u16,
    pub callbacks: [Callback; PLACES],
    /// Heads, one bit for each.
    pub heads: u16,
    /// Callbacks of each kind, one bit for each.
    pub kinds: [u16; KINDS],
}

pub fn word(bytes: &[u8], at: usize) -> u16 {
    u16::from_le_bytes([bytes[at], bytes[at + 1]])
}

/// Whether all are zero; one sum of bits, so that the loop is vectorised.
pub fn zero(bytes: &[u8]) -> bool {
    bytes.iter().fold(0, |sum, byte| sum | byte) == 0
}

/// The slots below n.
pub fn all(count: usize) -> u16 {
    u16::MAX >> (PLACES - count)
}

fn lowest(mask: u16) -> u8 {
    mask.trailing_zeros() as u8 + 1
}

pub fn refuse(number: u8, index: u8) -> Refusal {
    Refusal { number, index }
}

pub fn read(bytes: &[u8]) -> Result<Table, Refusal> {
    read_as::<true>(bytes)
}

/// The same without 24, as the program of U7 reads.
pub fn read_before_24(bytes: &[u8]) -> Result<Table, Refusal> {
    read_as::<false>(bytes)
}

fn read_as<const SUMS: bool>(bytes: &[u8]) -> Result<Table, Refusal> {
    let mut table = header(bytes)?;
    for slot in 0..table.count {
        let start = HEADER + RECORD * slot;
        let record = &bytes[start..start + RECORD];
        table.callbacks[slot] = callback::<SUMS>(record, slot as u8 + 1, table.count)?;
        table.kinds[usize::from(record[0]) - 1] |= 1 << slot;
    }
    links(&mut table)?;
    arrivals(&table)?;
    Ok(table)
}

fn header(bytes: &[u8]) -> Result<Table, Refusal> {
    if bytes.len() < HEADER {
        return Err(refuse(1, 0));
    }
    if !(EDITION_ONE..=EDITION_TWO).contains(&bytes[0]) {
        return Err(refuse(2, 0));
    }
    let count = usize::from(bytes[1]);
    if count == 0 || count > PLACES {
        return Err(refuse(3, 0));
    }
    if bytes.len() != HEADER + RECORD * count {
        return Err(refuse(4, 0));
    }
    if !zero(&bytes[10..HEADER]) {
        return Err(refuse(5, 0));
    }
    let (budget, period) = (word(bytes, 2), word(bytes, 4));
    let (horizon, delay) = (word(bytes, 6), word(bytes, 8));
    judged_ticks(bytes[0], count, [budget, period, horizon, delay])
}

/// Q, P, H and Z, behind edition and count.
#[inline(always)]
pub fn judged_ticks(
    edition: u8,
    count: usize,
    [budget, period, horizon, delay]: [u16; 4],
) -> Result<Table, Refusal> {
    if budget == 0 || budget > period || period > LARGEST {
        return Err(refuse(6, 0));
    }
    if delay > LARGEST {
        return Err(refuse(22, 0));
    }
    if horizon > LARGEST {
        return Err(refuse(7, 0));
    }
    Ok(Table {
        edition,
        count,
        budget,
        period,
        horizon,
        delay,
        callbacks: [Callback::default(); PLACES],
        heads: 0,
        kinds: [0; KINDS],
    })
}

/// Whether m and the used entries are by the rules.
#[inline(always)]
pub fn rising(cost: &[u16; ENTRIES], used: usize) -> bool {
    (1..=ENTRIES).contains(&used)
        && cost[0] != 0
        && cost[..used].windows(2).all(|pair| pair[0] < pair[1])
        && cost[used - 1] <= LARGEST
}

/// Whether one of the used entries is above the sum of two whose positions add
/// up to its own.
#[inline(always)]
pub fn above_sum(cost: &[u16; ENTRIES], used: usize) -> bool {
    let sum = |one: usize, other: usize| u32::from(cost[one]) + u32::from(cost[other]);
    (1..used).any(|at| (0..at.div_ceil(2)).any(|one| u32::from(cost[at]) > sum(one, at - 1 - one)))
}

fn callback<const SUMS: bool>(record: &[u8], index: u8, count: usize) -> Result<Callback, Refusal> {
    let (kind, next, entries) = (record[0], record[1], record[2]);
    if kind == 0 || usize::from(kind) > KINDS {
        return Err(refuse(8, index));
    }
    if usize::from(next) > count {
        return Err(refuse(9, index));
    }
    let used = usize::from(entries);
    let mut cost = [0; ENTRIES];
    for (place, entry) in cost.iter_mut().enumerate() {
        *entry = word(record, 12 + 2 * place);
    }
    if !rising(&cost, used) {
        return Err(refuse(10, index));
    }
    if SUMS && above_sum(&cost, used) {
        return Err(refuse(24, index));
    }
    let unused = cost[used..].iter().any(|&entry| entry != 0);
    if unused || record[3] != 0 || !zero(&record[10..12]) || !zero(&record[28..32]) {
        return Err(refuse(5, index));
    }
    Ok(Callback {
        next,
        entries,
        period: word(record, 4),
        jitter: word(record, 6),
        distance: word(record, 8),
        cost,
    })
}

pub fn links(table: &mut Table) -> Result<(), Refusal> {
    let (mut once, mut twice) = (0u16, 0u16);
    for callback in &table.callbacks[..table.count] {
        if callback.next != 0 {
            let named = 1 << (callback.next - 1);
            twice |= once & named;
            once |= named;
        }
    }
    if twice != 0 {
        return Err(refuse(11, lowest(twice)));
    }
    let timers = once & table.kinds[usize::from(TIMER) - 1];
    if timers != 0 {
        return Err(refuse(12, lowest(timers)));
    }
    table.heads = all(table.count) & !once;
    let loops = all(table.count) & !reached(table);
    if loops != 0 {
        return Err(refuse(13, lowest(loops)));
    }
    Ok(())
}

/// The slots on chains from the heads; with none named twice all others are
/// on loops.
fn reached(table: &Table) -> u16 {
    let mut reached = table.heads;
    let mut heads = table.heads;
    while heads != 0 {
        let mut at = table.callbacks[heads.trailing_zeros() as usize].next;
        while at != 0 {
            reached |= 1 << (at - 1);
            at = table.callbacks[usize::from(at) - 1].next;
        }
        heads &= heads - 1;
    }
    reached
}

pub fn arrivals(table: &Table) -> Result<(), Refusal> {
    for (slot, callback) in table.callbacks[..table.count].iter().enumerate() {
        let (period, jitter, distance) = (callback.period, callback.jitter, callback.distance);
        let fault = if table.heads & (1 << slot) != 0 {
            period == 0
                || period > LARGEST
                || jitter > LARGEST
                || distance == 0
                || distance > period
        } else {
            period | jitter | distance != 0
        };
        if fault {
            return Err(refuse(14, slot as u8 + 1));
        }
    }
    Ok(())
}
