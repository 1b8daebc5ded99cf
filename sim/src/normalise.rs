//! The program of U7 of document 02: tables of before it, with the cost entries that could not be
//! lowered to what they come to.

use crate::table::{read_before_24, Callback, Refusal, Table, HEADER_BYTES, RECORD_BYTES};

/// Where the entries begin in a record, as document 01 has it.
const ENTRIES_AT: usize = 12;

/// U7, the program: the bytes of the table with each used entry of each record in its new value and
/// all other bytes as they were; or the refusal of the reader of before U7. Total.
pub fn normalise(bytes: &[u8]) -> Result<Vec<u8>, Refusal> {
    let table = read_before_24(bytes)?;
    let mut normal = bytes.to_vec();
    let records = normal[HEADER_BYTES..].chunks_mut(RECORD_BYTES);
    for (record, callback) in records.zip(&table.callbacks) {
        let places = record[ENTRIES_AT..].chunks_mut(2);
        for (place, entry) in places.zip(normal_entries(&callback.entries)) {
            // No new entry is above the old one, which had its place in two bytes.
            place.copy_from_slice(&(entry as u16).to_le_bytes());
        }
    }
    Ok(normal)
}

/// U7: the used entries in their new values, each from the old ones.
pub fn normal_entries(entries: &[u64]) -> Vec<u64> {
    let positions = 1..=entries.len();
    positions.map(|at| least_sum(entries, at)).collect()
}

/// U7: the least that the entries at the parts of this position add up to, over all its splits. (it
/// must be the position of an entry)
fn least_sum(entries: &[u64], position: usize) -> u64 {
    let sum = |parts: &Vec<usize>| parts.iter().map(|&part| entries[part - 1]).sum();
    let sums = splits(position).iter().map(sum).min();
    sums.expect("the position as a whole is a split of it")
}

/// Every way to split the position into parts of 1 or more in a row, the whole as its only part among
/// them: each of the gaps between its places is cut or not. Splits with the same parts in another
/// order have the same sum and do no harm. There are 128 of 8. (it must not be 0)
pub fn splits(position: usize) -> Vec<Vec<usize>> {
    let cuts = 0..1usize << (position - 1);
    cuts.map(|cuts| parts(position, cuts)).collect()
}

/// The parts between the cuts; the gap behind place i is cut where bit i - 1 is set.
fn parts(position: usize, cuts: usize) -> Vec<usize> {
    let mut parts = vec![1];
    for gap in 0..position - 1 {
        if cuts >> gap & 1 == 1 {
            parts.push(1);
        } else {
            let last = parts.len() - 1;
            parts[last] += 1;
        }
    }
    parts
}

/// The same over a table's values, for those who draw tables.
pub fn normal_table(table: &Table) -> Table {
    let normal = |callback: &Callback| Callback {
        entries: normal_entries(&callback.entries),
        ..callback.clone()
    };
    Table {
        callbacks: table.callbacks.iter().map(normal).collect(),
        ..table.clone()
    }
}
