//! The search that tries every length, one after the other: what the jumps save.

use super::curves::{demand, supply, work, Level};
use super::sheet::Search;
use super::table::{Table, PLACES};

pub struct EveryLength;

impl Search for EveryLength {
    fn window(table: &Table, heads: &[u8; PLACES], level: &Level, looks: &mut u64) -> Option<u32> {
        (1..=level.horizon).find(|&length| {
            *looks += 1;
            demand(table, heads, level, length) <= supply(table, length).into()
        })
    }

    fn bound(
        table: &Table,
        heads: &[u8; PLACES],
        level: &Level,
        slot: usize,
        window: u32,
        looks: &mut u64,
    ) -> u32 {
        let mut worst = 0;
        let mut length = 1;
        let rest = level.but(slot);
        let mut others = demand(table, heads, &rest, length);
        let mut supplied = supply(table, length);
        for offset in 0..window {
            let own = work(table, heads, slot, offset + 1);
            *looks += 1;
            while u64::from(supplied) < own + others {
                *looks += 1;
                length += 1;
                others = demand(table, heads, &rest, length);
                supplied = supply(table, length);
            }
            worst = worst.max(length.saturating_sub(offset));
        }
        worst
    }
}
