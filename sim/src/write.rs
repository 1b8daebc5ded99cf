//! The writer of U4 (refusals 2, 3, 5 to 14, 22, 23 and, since U7, 24): a table's bytes from its
//! numbers. They are judged as numbers, before any of them becomes a byte. Sections in quotes are
//! document 01's, U1, U2, U4 and U7 are requests of document 02.

use crate::table::{
    check_arrivals, check_links, entries_by_the_rules, exceeds_two, kind_of, refusal, refuse_if,
    Callback, Refusal, Table, HEADER_BYTES, LARGEST, MOST_CALLBACKS, MOST_ENTRIES, RECORD_BYTES,
};

/// Kind, next, m, T, J, d, then E(1) to E(8).
pub const NUMBERS_PER_RECORD: usize = 14;

/// The numbers of one record, in that order.
type Record = [u16; NUMBERS_PER_RECORD];

/// The first byte of a number in its header or record, and its size in bytes.
type Place = (usize, usize);

/// 'The callback table', header: edition, n, Q, P, H, and since U2 Z.
const HEADER_PLACES: [Place; 6] = [(0, 1), (1, 1), (2, 2), (4, 2), (6, 2), (8, 2)];

/// 'The callback table', record: its numbers, around which bytes 3, 10-11 and 28-31 are spare.
const RECORD_PLACES: [Place; NUMBERS_PER_RECORD] = [
    (0, 1),
    (1, 1),
    (2, 1),
    (4, 2),
    (6, 2),
    (8, 2),
    (12, 2),
    (14, 2),
    (16, 2),
    (18, 2),
    (20, 2),
    (22, 2),
    (24, 2),
    (26, 2),
];

/// U4, what is to be written: `count` is n, `budget` Q, `period` P, `horizon` H, `delay` Z. The
/// records' numbers stand one record behind the other, and may be fewer or more than n asks for.
#[derive(Clone, Debug, PartialEq, Eq)]
pub struct Values {
    pub edition: u16,
    pub count: u16,
    pub budget: u16,
    pub period: u16,
    pub horizon: u16,
    pub delay: u16,
    pub records: Vec<u16>,
}

impl Values {
    fn header(&self) -> [u16; HEADER_PLACES.len()] {
        [
            self.edition,
            self.count,
            self.budget,
            self.period,
            self.horizon,
            self.delay,
        ]
    }

    /// The record of callback `index`, counted from 1. A number that the list lacks reads as 0.
    fn record(&self, index: usize) -> Record {
        let first = NUMBERS_PER_RECORD * (index - 1);
        std::array::from_fn(|place| self.records.get(first + place).copied().unwrap_or(0))
    }
}

/// U4: the table's bytes at the beginning of the buffer, and their number. What follows them in the
/// buffer stays, and at a refusal all of it. Total.
pub fn write(values: &Values, buffer: &mut [u8]) -> Result<usize, Refusal> {
    let table = checked(values)?;
    let length = HEADER_BYTES + RECORD_BYTES * table.count();
    let bytes = buffer.get_mut(..length).ok_or(refusal(23, 0))?;
    bytes.fill(0);
    let (header, records) = bytes.split_at_mut(HEADER_BYTES);
    lay(header, &HEADER_PLACES, &values.header());
    for (record, index) in records.chunks_exact_mut(RECORD_BYTES).zip(1..) {
        lay(record, &RECORD_PLACES, &values.record(index));
    }
    Ok(length)
}

/// Puts each number into its place, low byte first. (the check left none that is wider than that)
fn lay(bytes: &mut [u8], places: &[Place], numbers: &[u16]) {
    for (&(at, size), number) in places.iter().zip(numbers) {
        bytes[at..at + size].copy_from_slice(&number.to_le_bytes()[..size]);
    }
}

/// U4, the reader's rows as far as numbers alone can meet them, in its order: header, each record in
/// turn, links, arrivals. Records past n are not looked at.
fn checked(values: &Values) -> Result<Table, Refusal> {
    check_header(values)?;
    let count = usize::from(values.count);
    let records = (1..=count).map(|index| check_record(&values.record(index), index, count));
    let table = Table {
        // The header's check lets 1 and 2 pass.
        edition: values.edition as u8,
        budget: values.budget.into(),
        period: values.period.into(),
        horizon: values.horizon.into(),
        delay: values.delay.into(),
        callbacks: records.collect::<Result<_, _>>()?,
    };
    check_links(&table)?;
    check_arrivals(&table)?;
    Ok(table)
}

/// Refusals 2, 3, 6, 22 and 7, all with index 0. Edition and n have a byte each in the table, but are
/// compared as they are given, so that 257 is no edition and 272 no n.
fn check_header(values: &Values) -> Result<(), Refusal> {
    let [edition, count, budget, period, horizon, delay] = values.header().map(u64::from);
    refuse_if(![1, 2].contains(&edition), 2, 0)?;
    refuse_if(!(1..=MOST_CALLBACKS as u64).contains(&count), 3, 0)?;
    refuse_if(budget == 0 || budget > period || period > LARGEST, 6, 0)?;
    refuse_if(delay > LARGEST, 22, 0)?;
    refuse_if(horizon > LARGEST, 7, 0)
}

/// Refusals 8, 9, 10, 24 and 5 of one record; 5 only for an entry beyond m, as values have no spare
/// bytes. Kind, next and m are compared as they are given, like edition and n.
fn check_record(record: &Record, index: usize, count: usize) -> Result<Callback, Refusal> {
    let [kind, next, used, period, jitter, distance, entries @ ..] = record.map(u64::from);
    let kind = u8::try_from(kind).ok().and_then(kind_of);
    let kind = kind.ok_or(refusal(8, index))?;
    refuse_if(next > count as u64, 9, index)?;
    refuse_if(!(1..=MOST_ENTRIES as u64).contains(&used), 10, index)?;
    let (entries, unused) = entries.split_at(used as usize);
    refuse_if(!entries_by_the_rules(entries), 10, index)?;
    refuse_if(exceeds_two(entries), 24, index)?;
    refuse_if(unused.iter().any(|&entry| entry != 0), 5, index)?;
    Ok(Callback {
        kind,
        next: next as usize,
        entries: entries.to_vec(),
        period,
        jitter,
        distance,
    })
}

/// The numbers that stand in bytes of the table's format, whether or not the reader would take them:
/// those of the header and of each record that begins behind it, with all eight entries. Spare bytes
/// are left out, and a byte that is not there reads as 0.
pub fn values_at(bytes: &[u8]) -> Values {
    let [edition, count, budget, period, horizon, delay] =
        HEADER_PLACES.map(|place| number_at(bytes, place));
    let records = bytes.get(HEADER_BYTES..).unwrap_or_default();
    let records = records.chunks(RECORD_BYTES);
    let numbers = records.flat_map(|record| RECORD_PLACES.map(|place| number_at(record, place)));
    Values {
        edition,
        count,
        budget,
        period,
        horizon,
        delay,
        records: numbers.collect(),
    }
}

/// The number in a place of one or two bytes.
fn number_at(bytes: &[u8], (at, size): Place) -> u16 {
    let byte = |at: usize| u16::from(bytes.get(at).copied().unwrap_or(0));
    match size {
        1 => byte(at),
        _ => byte(at) + 256 * byte(at + 1),
    }
}
