//! Curves of a table, and the work that a window may hold.

use super::table::{Callback, Table, PLACES};

pub fn arrivals(head: &Callback, length: u32) -> u32 {
    let by_period = (length + u32::from(head.jitter)).div_ceil(head.period.into());
    let by_distance = length.div_ceil(head.distance.into());
    by_period.min(by_distance)
}

pub fn cost(callback: &Callback, count: u32) -> u64 {
    let entries = u32::from(callback.entries);
    let (whole, rest) = (count / entries, count % entries);
    let last = u64::from(callback.cost[callback.entries as usize - 1]);
    let part = if rest == 0 {
        0
    } else {
        callback.cost[rest as usize - 1]
    };
    u64::from(whole) * last + u64::from(part)
}

pub fn supply(table: &Table, length: u32) -> u32 {
    let (budget, period) = (u32::from(table.budget), u32::from(table.period));
    let (gap, delay) = (period - budget, u32::from(table.delay));
    if length < delay + gap {
        return 0;
    }
    let length = length - delay;
    let whole = (length - gap) / period;
    whole * budget + length.saturating_sub(2 * gap + whole * period)
}

/// The least length whose supply is `supplied` ticks; these are at most 60,000.
pub fn reach(table: &Table, supplied: u32) -> u32 {
    if supplied == 0 {
        return 0;
    }
    let (budget, period) = (u32::from(table.budget), u32::from(table.period));
    let (gap, delay) = (period - budget, u32::from(table.delay));
    let whole = (supplied - 1) / budget;
    delay + whole * period + 2 * gap + (supplied - whole * budget)
}

/// E of a slot at the arrivals of its head in a window.
pub fn work(table: &Table, heads: &[u8; PLACES], slot: usize, length: u32) -> u64 {
    let head = &table.callbacks[usize::from(heads[slot])];
    cost(&table.callbacks[slot], arrivals(head, length))
}

/// Some callbacks of a table, one bit for each, what others may take from them,
/// and how long lengths are searched.
pub struct Level {
    pub members: u16,
    pub blocking: u64,
    pub horizon: u32,
}

impl Level {
    /// The level without a slot.
    pub fn but(&self, slot: usize) -> Level {
        Level {
            members: self.members & !(1 << slot),
            ..*self
        }
    }
}

pub fn demand(table: &Table, heads: &[u8; PLACES], level: &Level, length: u32) -> u64 {
    let mut sum = level.blocking;
    let mut left = level.members;
    while left != 0 {
        sum += work(table, heads, left.trailing_zeros() as usize, length);
        left &= left - 1;
    }
    sum
}
