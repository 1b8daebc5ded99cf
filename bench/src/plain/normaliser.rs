//! The program of U7.

use super::table::{read_before_24, refuse, Callback, ENTRIES, HEADER, RECORD};
use library::Refusal;

pub fn normalise(bytes: &mut [u8]) -> Refusal {
    match read_before_24(bytes) {
        Err(refused) => refused,
        Ok(table) => {
            let records = bytes[HEADER..].chunks_exact_mut(RECORD);
            for (record, callback) in records.zip(&table.callbacks) {
                put(&mut record[12..], callback);
            }
            refuse(0, 0)
        }
    }
}

fn put(places: &mut [u8], callback: &Callback) {
    let used = usize::from(callback.entries);
    let least = least_sums(callback.cost, used);
    for (place, entry) in places.chunks_exact_mut(2).zip(&least[..used]) {
        place.copy_from_slice(&entry.to_le_bytes());
    }
}

/// The least sums of the used entries: of two before, which are least sums already,
/// or the entry itself.
#[inline(always)]
fn least_sums(mut cost: [u16; ENTRIES], used: usize) -> [u16; ENTRIES] {
    for at in 1..used {
        let mut least = u32::from(cost[at]);
        for one in 0..at.div_ceil(2) {
            least = least.min(u32::from(cost[one]) + u32::from(cost[at - 1 - one]));
        }
        cost[at] = least as u16;
    }
    cost
}
