//! Values for the writer: those of drawn tables, and others that are wrong or too wide somewhere.

use super::curves::sound_or_bent;
use super::damage::{damaged, refused_with, NUMBERS};
use super::tables::{any_shape, table, Shape};
use crate::random::Random;
use crate::table::{encode, HEADER_BYTES, LARGEST, MOST_CALLBACKS, MOST_ENTRIES, RECORD_BYTES};
use crate::write::{values_at, Values, NUMBERS_PER_RECORD};
use std::collections::BTreeSet;

/// The numbers with which values can be refused; 23 goes by the buffer.
pub const REFUSALS: [u8; 15] = [2, 3, 5, 6, 7, 8, 9, 10, 11, 12, 13, 14, 22, 23, 24];

/// Places of the header's numbers among the values.
pub(super) mod header {
    pub const EDITION: usize = 0;
    pub const COUNT: usize = 1;
    pub const BUDGET: usize = 2;
    pub const PERIOD: usize = 3;
    pub const HORIZON: usize = 4;
    pub const DELAY: usize = 5;
    /// How many they are; behind them come the records' numbers.
    pub const NUMBERS: usize = 6;
}

/// Places of a record's numbers in it: kind, next, m, T, J, d and the first of the entries.
pub(super) mod record {
    pub const KIND: usize = 0;
    pub const NEXT: usize = 1;
    pub const USED: usize = 2;
    pub const PERIOD: usize = 3;
    pub const JITTER: usize = 4;
    pub const DISTANCE: usize = 5;
    pub const ENTRIES: usize = 6;
}

/// The number at a place of the values, the header's being first. (it must be there)
pub(super) fn number_at(values: &mut Values, place: usize) -> &mut u16 {
    match place {
        header::EDITION => &mut values.edition,
        header::COUNT => &mut values.count,
        header::BUDGET => &mut values.budget,
        header::PERIOD => &mut values.period,
        header::HORIZON => &mut values.horizon,
        header::DELAY => &mut values.delay,
        _ => &mut values.records[place - header::NUMBERS],
    }
}

/// The length of the table with as many callbacks as the values say, if there is such a table.
pub(super) fn table_length(values: &Values) -> Option<usize> {
    let count = usize::from(values.count);
    let right = (1..=MOST_CALLBACKS).contains(&count);
    right.then_some(HEADER_BYTES + RECORD_BYTES * count)
}

/// Values of a table, right or damaged, or free ones, most of them changed in a place or two. Now and
/// then a change does no harm.
pub fn values(random: &mut Random) -> Values {
    let mut values = match random.range(0, 15) {
        0 => at_random(random),
        1 | 2 => values_at(&damaged(random)),
        3 | 4 => {
            let number = *random.pick(&NUMBERS);
            values_at(&refused_with(random, number))
        }
        5..=7 => of_any_count(random),
        _ => {
            let shape = any_shape(random);
            values_at(&encode(&sound_or_bent(random, shape)))
        }
    };
    for _ in 0..*random.pick(&[0, 0, 1, 1, 1, 2]) {
        change(random, &mut values);
    }
    values
}

fn change(random: &mut Random, values: &mut Values) {
    let numbers = values.records.len() as u64;
    match random.range(0, 7) {
        0 => mistake(random, values),
        1 => widen(random, values),
        2 => values.records.truncate(random.range(0, numbers) as usize),
        3 => lengthen(random, values),
        4 => fill_unused(random, values),
        5 => values.horizon = *random.pick(&[0, 1, 59_999, 60_000, 60_001]),
        _ => relink(random, values),
    }
}

/// Another number at any place.
fn mistake(random: &mut Random, values: &mut Values) {
    let all: Vec<usize> = (0..header::NUMBERS + values.records.len()).collect();
    let number = number_at(values, any_place(random, &all));
    let (less, more) = (number.wrapping_sub(1), number.wrapping_add(1));
    let any = random.bits() as u16;
    *number = *random.pick(&[0, 1, less, more, 255, 256, 60_000, 60_001, 65_535, any]);
}

/// A number of more than eight bits in the place of one that has a byte in the table. Most have a low
/// byte that would be right.
fn widen(random: &mut Random, values: &mut Values) {
    let mut narrow = vec![header::EDITION, header::COUNT];
    let places = 0..values.records.len();
    let in_records = places.filter(|place| place % NUMBERS_PER_RECORD <= record::USED);
    narrow.extend(in_records.map(|place| header::NUMBERS + place));
    let number = number_at(values, any_place(random, &narrow));
    let low = *number & 255;
    *number = *random.pick(&[256 + low, 512 + low, 65_280 + low, 256, 257, 258, 65_535]);
}

/// One of these places, every third time one of the header.
fn any_place(random: &mut Random, places: &[usize]) -> usize {
    let (header, records): (Vec<usize>, Vec<usize>) =
        places.iter().partition(|&&place| place < header::NUMBERS);
    if records.is_empty() || random.range(0, 2) == 0 {
        *random.pick(&header)
    } else {
        *random.pick(&records)
    }
}

/// More numbers behind the last: a few, a record or many, those of the first records again or free
/// ones.
fn lengthen(random: &mut Random, values: &mut Values) {
    let whole = NUMBERS_PER_RECORD as u64;
    let (few, records) = (random.range(1, whole - 1), random.range(2, 17));
    let more = *random.pick(&[few, whole, whole * records]) as usize;
    let more: Vec<u16> = if random.chance(50) {
        values.records.iter().copied().cycle().take(more).collect()
    } else {
        (0..more).map(|_| random.bits() as u16).collect()
    };
    values.records.extend(more);
}

/// Any whole record in the list: its index, and its numbers.
fn any_record<'a>(random: &mut Random, values: &'a mut Values) -> Option<(usize, &'a mut [u16])> {
    let whole = values.records.len() / NUMBERS_PER_RECORD;
    let last = whole.checked_sub(1)? as u64;
    let place = random.range(0, last) as usize;
    let mut records = values.records.chunks_exact_mut(NUMBERS_PER_RECORD);
    records.nth(place).map(|numbers| (place + 1, numbers))
}

/// An entry beyond m that is not 0, if a record has room for one.
fn fill_unused(random: &mut Random, values: &mut Values) {
    let Some((_, numbers)) = any_record(random, values) else {
        return;
    };
    let used = usize::from(numbers[record::USED]);
    if used < MOST_ENTRIES {
        let entry = random.range(used as u64, MOST_ENTRIES as u64 - 1) as usize;
        numbers[record::ENTRIES + entry] = *random.pick(&[1, 256, 60_000, 65_535]);
    }
}

/// Another next, up to a step above n, or the callback itself.
fn relink(random: &mut Random, values: &mut Values) {
    let above = values.count.min(MOST_CALLBACKS as u16) + 1;
    if let Some((index, numbers)) = any_record(random, values) {
        let any = random.range(0, above.into()) as u16;
        numbers[record::NEXT] = *random.pick(&[any, any, index as u16]);
    }
}

/// Each n from 1 to 16 as often as any other: a small table, with lone callbacks behind it or with
/// its last records past n.
fn of_any_count(random: &mut Random) -> Values {
    let mut values = values_at(&encode(&table(random, Shape::Small)));
    values.count = random.range(1, MOST_CALLBACKS as u64) as u16;
    while values.records.len() < NUMBERS_PER_RECORD * usize::from(values.count) {
        values.records.extend(lone(random));
    }
    values
}

fn lone(random: &mut Random) -> [u16; NUMBERS_PER_RECORD] {
    let mut lone = [0; NUMBERS_PER_RECORD];
    let (period, entry) = (random.range(1, LARGEST), random.range(1, LARGEST));
    let (jitter, distance) = (random.range(0, LARGEST), random.range(1, period));
    let kind = random.range(1, 4);
    let numbers = [kind, 0, 1, period, jitter, distance, entry];
    for (place, number) in lone.iter_mut().zip(numbers) {
        *place = number as u16;
    }
    lone
}

/// Numbers drawn freely, mostly with an edition and an n that are right.
fn at_random(random: &mut Random) -> Values {
    let length = random.range(0, 17 * NUMBERS_PER_RECORD as u64);
    let mut values = Values {
        edition: free(random),
        count: free(random),
        budget: free(random),
        period: free(random),
        horizon: free(random),
        delay: free(random),
        records: (0..length).map(|_| free(random)).collect(),
    };
    if random.chance(80) {
        values.edition = random.range(1, 2) as u16;
        values.count = random.range(1, MOST_CALLBACKS as u64) as u16;
    }
    values
}

/// Any number of sixteen bits, small ones more often.
fn free(random: &mut Random) -> u16 {
    let bits = random.bits() as u16;
    *random.pick(&[bits % 5, bits % 18, bits % 256, bits])
}

/// Lengths of a buffer, each once and the smallest first: none or little more than a header, around
/// the table's length, a record less and more, the longest table's length and beyond.
pub fn rooms(values: &Values) -> Vec<usize> {
    let mut rooms = BTreeSet::from([0, 1, 15, 16, 17, 528, 640]);
    if let Some(length) = table_length(values) {
        rooms.extend(length - 3..=length + 3);
        rooms.extend([length - RECORD_BYTES, length + RECORD_BYTES]);
    }
    rooms.into_iter().collect()
}
