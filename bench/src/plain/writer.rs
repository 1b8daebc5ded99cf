//! The writer.

use super::table::{
    above_sum, arrivals, judged_ticks, links, refuse, rising, Callback, Table, EDITION_TWO,
    ENTRIES, HEADER, KINDS, PLACES, RECORD,
};
use library::{Refusal, Written};

/// Edition, count, Q, P, H and Z.
pub type Header = [u16; 6];

/// Kind, next, m, T, J, d and the entries.
const NUMBERS: usize = 6 + ENTRIES;

pub fn write(header: &Header, records: &[u16], buffer: &mut [u8]) -> Written {
    match written(header, records, buffer) {
        Ok(length) => Written {
            length: length as u32,
            number: 0,
            index: 0,
        },
        Err(Refusal { number, index }) => Written {
            length: 0,
            number,
            index,
        },
    }
}

fn written(header: &Header, records: &[u16], buffer: &mut [u8]) -> Result<usize, Refusal> {
    let mut table = judged_header(header)?;
    let mut numbers = [[0; NUMBERS]; PLACES];
    for (slot, of) in numbers[..table.count].iter_mut().enumerate() {
        let given = records.get(NUMBERS * slot..).unwrap_or_default();
        let there = given.len().min(NUMBERS);
        of[..there].copy_from_slice(&given[..there]);
        table.callbacks[slot] = judged_record(of, slot as u8 + 1, table.count)?;
        table.kinds[usize::from(of[0]) - 1] |= 1 << slot;
    }
    links(&mut table)?;
    arrivals(&table)?;
    let length = HEADER + RECORD * table.count;
    let Some(bytes) = buffer.get_mut(..length) else {
        return Err(refuse(23, 0));
    };
    put(bytes, header, &numbers[..table.count]);
    Ok(length)
}

fn judged_header(
    &[edition, count, budget, period, horizon, delay]: &Header,
) -> Result<Table, Refusal> {
    if edition == 0 || edition > u16::from(EDITION_TWO) {
        return Err(refuse(2, 0));
    }
    if count == 0 || usize::from(count) > PLACES {
        return Err(refuse(3, 0));
    }
    judged_ticks(
        edition as u8,
        count.into(),
        [budget, period, horizon, delay],
    )
}

fn judged_record(numbers: &[u16; NUMBERS], index: u8, count: usize) -> Result<Callback, Refusal> {
    let &[kind, next, used, period, jitter, distance, ..] = numbers;
    let mut cost = [0; ENTRIES];
    cost.copy_from_slice(&numbers[6..]);
    if kind == 0 || usize::from(kind) > KINDS {
        return Err(refuse(8, index));
    }
    if usize::from(next) > count {
        return Err(refuse(9, index));
    }
    let m = usize::from(used);
    if !rising(&cost, m) {
        return Err(refuse(10, index));
    }
    if above_sum(&cost, m) {
        return Err(refuse(24, index));
    }
    if cost[m..].iter().any(|&entry| entry != 0) {
        return Err(refuse(5, index));
    }
    Ok(Callback {
        next: next as u8,
        entries: used as u8,
        period,
        jitter,
        distance,
        cost,
    })
}

fn put(bytes: &mut [u8], header: &Header, numbers: &[[u16; NUMBERS]]) {
    let (front, records) = bytes.split_at_mut(HEADER);
    front.fill(0);
    front[0] = header[0] as u8;
    front[1] = header[1] as u8;
    put_words(&mut front[2..], &header[2..]);
    for (record, of) in records.chunks_exact_mut(RECORD).zip(numbers) {
        record.fill(0);
        for (byte, &number) in record.iter_mut().zip(&of[..3]) {
            *byte = number as u8;
        }
        put_words(&mut record[4..], &of[3..6]);
        put_words(&mut record[12..], &of[6..]);
    }
}

fn put_words(bytes: &mut [u8], words: &[u16]) {
    for (pair, word) in bytes.chunks_exact_mut(2).zip(words) {
        pair.copy_from_slice(&word.to_le_bytes());
    }
}
