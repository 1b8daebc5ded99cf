//! The search by jumps: from a length that is not covered to the least whose
//! supply is its demand, since no length between them has a smaller demand.

use super::curves::{arrivals, cost, demand, reach, Level};
use super::sheet::Search;
use super::table::{Table, PLACES};

pub struct Jumps;

impl Search for Jumps {
    fn window(table: &Table, heads: &[u8; PLACES], level: &Level, looks: &mut u64) -> Option<u32> {
        let mut length = 1;
        while length <= level.horizon {
            *looks += 1;
            let needed = demand(table, heads, level, length);
            if needed > level.horizon.into() {
                return None;
            }
            let next = reach(table, needed as u32);
            if next <= length {
                return Some(length);
            }
            length = next;
        }
        None
    }

    fn bound(
        table: &Table,
        heads: &[u8; PLACES],
        level: &Level,
        slot: usize,
        window: u32,
        looks: &mut u64,
    ) -> u32 {
        let head = &table.callbacks[usize::from(heads[slot])];
        let mut worst = 0;
        let mut length = 1;
        let rest = level.but(slot);
        let mut others = demand(table, heads, &rest, length);
        let mut charged = 0;
        for offset in 0..window {
            let count = arrivals(head, offset + 1);
            if count == charged {
                continue;
            }
            charged = count;
            let own = cost(&table.callbacks[slot], count);
            loop {
                *looks += 1;
                // Up to the window no demand is above 60,000.
                let next = reach(table, (own + others) as u32);
                if next <= length {
                    break;
                }
                length = next;
                others = demand(table, heads, &rest, length);
            }
            worst = worst.max(length.saturating_sub(offset));
        }
        worst
    }
}
