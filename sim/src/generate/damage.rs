//! Tables damaged in every field, and bytes that are no table.

use super::curves::{bend_some, sound_or_bent};
use super::tables::{any_shape, edition, table, Shape};
use crate::random::Random;
use crate::table::{encode, HEADER_BYTES, MOST_CALLBACKS, MOST_ENTRIES, RECORD_BYTES};

/// The numbers with which a table's bytes can be refused; 22 came with U2 of document 02, 24 with U7.
pub const NUMBERS: [u8; 18] = [
    1, 2, 3, 4, 5, 6, 7, 8, 9, 10, 11, 12, 13, 14, 15, 16, 22, 24,
];

/// Bytes damaged somewhere, some of a table that has fault 24 already; now and then the damage does
/// no harm.
pub fn damaged(random: &mut Random) -> Vec<u8> {
    let shape = any_shape(random);
    let mut bytes = encode(&sound_or_bent(random, shape));
    for _ in 0..random.range(1, 2) {
        match random.range(0, 5) {
            0 => change_byte(random, &mut bytes),
            1 => change_bit(random, &mut bytes),
            2 => bytes.truncate(random.range(0, bytes.len() as u64) as usize),
            3 => extend(random, &mut bytes),
            4 => bytes = random_bytes(random),
            _ => bytes = refused(random),
        }
    }
    bytes
}

fn change_byte(random: &mut Random, bytes: &mut [u8]) {
    if !bytes.is_empty() {
        let place = random.range(0, bytes.len() as u64 - 1) as usize;
        bytes[place] = random.bits() as u8;
    }
}

fn change_bit(random: &mut Random, bytes: &mut [u8]) {
    if !bytes.is_empty() {
        let place = random.range(0, bytes.len() as u64 - 1) as usize;
        bytes[place] ^= 1 << random.range(0, 7);
    }
}

fn extend(random: &mut Random, bytes: &mut Vec<u8>) {
    for _ in 0..*random.pick(&[1, RECORD_BYTES]) {
        bytes.push(if random.chance(50) {
            0
        } else {
            random.bits() as u8
        });
    }
}

/// Bytes drawn freely, often with a header's first bytes and a right length.
pub fn random_bytes(random: &mut Random) -> Vec<u8> {
    let count = random.range(0, 3) as usize;
    let length = match random.range(0, 2) {
        0 => random.range(0, 80) as usize,
        _ => HEADER_BYTES + RECORD_BYTES * count,
    };
    let zeros = random.range(0, 100);
    let mut bytes: Vec<u8> = (0..length)
        .map(|_| {
            if random.chance(zeros) {
                0
            } else {
                random.range(0, 255) as u8
            }
        })
        .collect();
    if length >= HEADER_BYTES && random.chance(80) {
        bytes[0] = edition(random);
        bytes[1] = count as u8;
    }
    bytes
}

fn refused(random: &mut Random) -> Vec<u8> {
    let number = *random.pick(&NUMBERS);
    refused_with(random, number)
}

/// Bytes that are refused with this number, one of `NUMBERS`.
pub fn refused_with(random: &mut Random, number: u8) -> Vec<u8> {
    let mut base = table(random, Shape::Small);
    while base.count() < 2 {
        base = table(random, Shape::Small);
    }
    let mut bytes = encode(&base);
    match number {
        1 => bytes.truncate(random.range(0, HEADER_BYTES as u64 - 1) as usize),
        2 => bytes[0] = *random.pick(&[0, 3, 255]),
        3 => bytes[1] = *random.pick(&[0, MOST_CALLBACKS as u8 + 1, 255]),
        4 => wrong_length(random, &mut bytes),
        5 => spare(random, &mut bytes),
        6 => reservation(random, &mut bytes),
        7 => put(&mut bytes, 6, above(random)),
        8..=10 => record_fault(random, &mut bytes, number),
        11 => named_twice(random, &mut bytes),
        12 => timer_named(random, &mut bytes),
        13 => looped(random, &mut bytes),
        14 => arrivals(random, &mut bytes),
        15 => no_window(random, &mut bytes),
        22 => put(&mut bytes, 8, above(random)),
        24 => {
            bend_some(random, &mut base);
            bytes = encode(&base);
        }
        _ => crowded(random, &mut bytes),
    }
    bytes
}

fn put(bytes: &mut [u8], at: usize, value: u64) {
    bytes[at..at + 2].copy_from_slice(&(value as u16).to_le_bytes());
}

fn get(bytes: &[u8], at: usize) -> u64 {
    u64::from(u16::from_le_bytes([bytes[at], bytes[at + 1]]))
}

/// A sixteen-bit number above 60,000.
fn above(random: &mut Random) -> u64 {
    let between = random.range(60_001, 65_535);
    *random.pick(&[60_001, between, 65_535])
}

fn count(bytes: &[u8]) -> usize {
    usize::from(bytes[1])
}

/// Where the record of callback `index` begins.
fn place(index: usize) -> usize {
    HEADER_BYTES + RECORD_BYTES * (index - 1)
}

fn any_callback(random: &mut Random, bytes: &[u8]) -> usize {
    random.range(1, count(bytes) as u64) as usize
}

fn wrong_length(random: &mut Random, bytes: &mut Vec<u8>) {
    match random.range(0, 2) {
        0 => bytes.push(0),
        1 => bytes.truncate(random.range(HEADER_BYTES as u64, bytes.len() as u64 - 1) as usize),
        _ => bytes.extend([0; RECORD_BYTES]),
    }
}

/// A header's or a record's spare byte, or an unused entry.
fn spare(random: &mut Random, bytes: &mut [u8]) {
    let value = *random.pick(&[1, 128, 255]);
    let record = place(any_callback(random, bytes));
    let used = usize::from(bytes[record + 2]);
    match random.range(0, 2) {
        0 => bytes[random.range(10, 15) as usize] = value,
        1 if used < MOST_ENTRIES => {
            let entry = random.range(used as u64, MOST_ENTRIES as u64 - 1) as usize;
            bytes[record + 12 + 2 * entry + random.range(0, 1) as usize] = value;
        }
        _ => bytes[record + *random.pick(&[3, 10, 11, 28, 29, 30, 31])] = value,
    }
}

fn reservation(random: &mut Random, bytes: &mut [u8]) {
    let period = get(bytes, 4);
    match random.range(0, 3) {
        0 => put(bytes, 2, 0),
        1 => put(bytes, 2, period + 1),
        2 => put(bytes, 4, 0),
        _ => put(bytes, 4, above(random)),
    }
}

/// Refusals 8, 9 and 10 of one record.
fn record_fault(random: &mut Random, bytes: &mut [u8], number: u8) {
    let record = place(any_callback(random, bytes));
    let used = u64::from(bytes[record + 2]);
    let entry = record + 12 + 2 * random.range(0, used - 1) as usize;
    match (number, random.range(0, 4)) {
        (8, _) => bytes[record] = *random.pick(&[0, 5, 255]),
        (9, _) => bytes[record + 1] = *random.pick(&[count(bytes) as u8 + 1, 17, 255]),
        (_, 0) => bytes[record + 2] = *random.pick(&[0, 9, 255]),
        (_, 1) => put(bytes, entry, 0),
        (_, 2) if used >= 2 => put(bytes, record + 14, get(bytes, record + 12)),
        (_, 3) if used < 8 => bytes[record + 2] += 1,
        _ => put(bytes, entry, above(random)),
    }
}

fn named_twice(random: &mut Random, bytes: &mut [u8]) {
    let target = any_callback(random, bytes);
    let mut all: Vec<usize> = (1..=count(bytes)).collect();
    random.shuffle(&mut all);
    for &index in &all[..2] {
        bytes[place(index) + 1] = target as u8;
    }
}

/// Takes `index` out of every record's next.
fn unname(bytes: &mut [u8], index: usize) {
    for other in 1..=count(bytes) {
        if usize::from(bytes[place(other) + 1]) == index {
            bytes[place(other) + 1] = 0;
        }
    }
}

fn timer_named(random: &mut Random, bytes: &mut [u8]) {
    let target = any_callback(random, bytes);
    unname(bytes, target);
    bytes[place(target)] = 1;
    bytes[place(any_callback(random, bytes)) + 1] = target as u8;
}

/// A loop of one or more non-timers.
fn looped(random: &mut Random, bytes: &mut [u8]) {
    let mut all: Vec<usize> = (1..=count(bytes)).collect();
    random.shuffle(&mut all);
    let size = random.range(1, all.len() as u64) as usize;
    for &index in &all[..size] {
        unname(bytes, index);
    }
    for step in 0..size {
        bytes[place(all[step])] = random.range(2, 4) as u8;
        bytes[place(all[step]) + 1] = all[(step + 1) % size] as u8;
    }
}

fn arrivals(random: &mut Random, bytes: &mut [u8]) {
    let index = any_callback(random, bytes);
    let named = (1..=count(bytes)).any(|i| usize::from(bytes[place(i) + 1]) == index);
    let record = place(index);
    if named {
        let value = *random.pick(&[1, 256, 65_535]);
        put(bytes, record + *random.pick(&[4, 6, 8]), value);
        return;
    }
    let period = get(bytes, record + 4);
    match random.range(0, 4) {
        0 => put(bytes, record + 4, 0),
        1 => put(bytes, record + 4, above(random)),
        2 => put(bytes, record + 6, above(random)),
        3 => put(bytes, record + 8, 0),
        _ => put(bytes, record + 8, period + 1),
    }
}

/// One head that alone asks for more than any supply, or a horizon too short.
fn no_window(random: &mut Random, bytes: &mut [u8]) {
    if random.chance(50) {
        put(bytes, 6, 1);
        return;
    }
    let head = any_head(random, bytes);
    for (at, value) in [(4, 1), (6, 0), (8, 1)] {
        put(bytes, place(head) + at, value);
    }
}

fn any_head(random: &mut Random, bytes: &[u8]) -> usize {
    let heads: Vec<usize> = (1..=count(bytes))
        .filter(|&index| (1..=count(bytes)).all(|i| usize::from(bytes[place(i) + 1]) != index))
        .collect();
    *random.pick(&heads)
}

/// A long burst of one callback, alone or beside a quiet one.
fn crowded(random: &mut Random, bytes: &mut Vec<u8>) {
    let mut base = table(random, Shape::Small);
    base.horizon = 0;
    (base.budget, base.period) = (1, 1);
    let mut burst = base.callbacks[0].clone();
    burst.next = 0;
    burst.entries = vec![2];
    burst.period = 200;
    burst.jitter = random.range(50_600, 60_000);
    burst.distance = 1;
    let mut quiet = burst.clone();
    quiet.entries = vec![1];
    (quiet.period, quiet.jitter, quiet.distance) = (60_000, 0, 60_000);
    base.callbacks = match random.range(0, 2) {
        0 => vec![burst],
        1 => vec![burst, quiet],
        _ => vec![quiet, burst],
    };
    *bytes = encode(&base);
}
