//! Tables with one field at the ends of its range and a step beyond them, cost
//! entries at the sums that U7 of document 02 allows and above them, and bytes
//! cut short or too long, in both editions.

use super::curves::at_least_pairs;
use crate::table::{
    encode, Callback, Kind, Table, HEADER_BYTES, MOST_CALLBACKS, MOST_ENTRIES, RECORD_BYTES,
};

/// The ends of 1 to 60,000 and of sixteen bits, with their neighbours.
const ENDS: [u16; 8] = [0, 1, 2, 59_999, 60_000, 60_001, 65_534, 65_535];

fn lone(kind: Kind, entries: &[u64]) -> Callback {
    Callback {
        kind,
        next: 0,
        entries: entries.to_vec(),
        period: 100,
        jitter: 20,
        distance: 50,
    }
}

fn full(callbacks: Vec<Callback>) -> Table {
    Table {
        edition: 1,
        budget: 1,
        period: 1,
        horizon: 0,
        delay: 0,
        callbacks,
    }
}

/// Timer 1 activates subscription 2; client 3 and service 4 stand alone. In this edition.
pub fn base(edition: u8) -> Table {
    let mut callbacks = vec![
        lone(Kind::Timer, &[2]),
        lone(Kind::Subscription, &[3]),
        lone(Kind::Client, &[4, 7]),
        lone(Kind::Service, &[1, 2, 3, 4, 5, 6, 7, 8]),
    ];
    callbacks[0].next = 2;
    let follower = &mut callbacks[1];
    (follower.period, follower.jitter, follower.distance) = (0, 0, 0);
    Table {
        edition,
        ..full(callbacks)
    }
}

/// The same four in edition 2, with 3 of 5 ticks after a delay of 7.
pub fn late() -> Table {
    Table {
        budget: 3,
        period: 5,
        delay: 7,
        ..base(2)
    }
}

/// Four timers, the first with a follower, and a service between them. In this edition.
pub fn beating(edition: u8) -> Table {
    let timer = lone(Kind::Timer, &[3, 5]);
    let mut callbacks = vec![timer; 6];
    callbacks[1] = base(edition).callbacks[1].clone();
    callbacks[3] = lone(Kind::Service, &[2]);
    callbacks[0].next = 2;
    Table {
        edition,
        ..full(callbacks)
    }
}

fn with_byte(bytes: &[u8], at: usize, value: u8) -> Vec<u8> {
    let mut other = bytes.to_vec();
    other[at] = value;
    other
}

fn with_word(bytes: &[u8], at: usize, value: u16) -> Vec<u8> {
    let mut other = bytes.to_vec();
    other[at..at + 2].copy_from_slice(&value.to_le_bytes());
    other
}

pub fn edges() -> Vec<Vec<u8>> {
    let base = base(1);
    let bytes = encode(&base);
    let mut tables = vec![bytes.clone()];
    header(&bytes, &mut tables);
    for index in 1..=base.count() {
        let record = HEADER_BYTES + RECORD_BYTES * (index - 1);
        fields(&bytes, record, &mut tables);
        if base.callback(index).entries.len() > 1 {
            entries(&bytes, record, &mut tables);
        }
    }
    curves(&mut tables);
    with_curve_faults(&mut tables);
    links(&mut tables);
    lengths(&bytes, &mut tables);
    // Each table of edition 1 stands in edition 2 too.
    let first = tables.iter().filter(|table| table.first() == Some(&1));
    let second: Vec<Vec<u8>> = first.map(|table| with_byte(table, 0, 2)).collect();
    tables.extend(second);
    // An edition that is none comes behind a header cut short, and before a wrong count.
    let neither = with_byte(&bytes, 0, 3);
    tables.push(neither[..HEADER_BYTES - 1].to_vec());
    tables.extend([0, 17].map(|count| with_byte(&neither, 1, count)));
    tables
}

fn header(bytes: &[u8], tables: &mut Vec<Vec<u8>>) {
    tables.extend([0, 3, 255].map(|edition| with_byte(bytes, 0, edition)));
    tables.extend([0, 1, 3, 5, 16, 17, 255].map(|count| with_byte(bytes, 1, count)));
    for value in ENDS {
        tables.push(with_word(bytes, 2, value));
        tables.push(with_word(bytes, 4, value));
        tables.push(with_word(&with_word(bytes, 4, value), 2, value));
        tables.push(with_word(&with_word(bytes, 4, 59_999), 2, value));
        tables.push(with_word(bytes, 6, value));
    }
    delays(bytes, tables);
    tables.extend((10..HEADER_BYTES).map(|spare| with_byte(bytes, spare, 1)));
}

/// U2: Z at its ends, with one byte of it alone, and 60,000 and 60,001 with their bytes exchanged;
/// then the largest Z and a step beyond with each choice among faults of 5, 6, 7 and 8.
fn delays(bytes: &[u8], tables: &mut Vec<Vec<u8>>) {
    let exchanged = [60_000, 60_001].map(u16::swap_bytes);
    let single = [0x00FF, 0xEA00, 0xEB00, 0xFF00];
    for value in ENDS.into_iter().chain(single).chain(exchanged) {
        tables.push(with_word(bytes, 8, value));
    }
    let mut faulty = [60_000, 60_001].map(|z| with_word(bytes, 8, z)).to_vec();
    for (at, value) in [(10, 1), (2, 0), (6, 60_001), (HEADER_BYTES, 0)] {
        let with_it: Vec<Vec<u8>> = faulty.iter().map(|b| with_word(b, at, value)).collect();
        faulty.extend(with_it);
    }
    tables.extend(faulty);
}

/// Kind, next, spare bytes, T, J and d of one record.
fn fields(bytes: &[u8], record: usize, tables: &mut Vec<Vec<u8>>) {
    tables.extend([0, 1, 2, 3, 4, 5, 255].map(|kind| with_byte(bytes, record, kind)));
    tables.extend([0, 1, 2, 3, 4, 5, 255].map(|next| with_byte(bytes, record + 1, next)));
    let spare = [3, 10, 11, 28, 29, 30, 31];
    tables.extend(spare.map(|at| with_byte(bytes, record + at, 128)));
    for value in ENDS {
        for at in [4, 6, 8] {
            tables.push(with_word(bytes, record + at, value));
        }
        tables.push(with_word(
            &with_word(bytes, record + 4, value),
            record + 8,
            value,
        ));
    }
    tables.extend([49, 99, 100, 101].map(|value| with_word(bytes, record + 8, value)));
}

/// The number of entries and each entry of one record.
fn entries(bytes: &[u8], record: usize, tables: &mut Vec<Vec<u8>>) {
    for used in [0, 1, 2, 3, 7, 8, 9, 255] {
        tables.push(with_byte(bytes, record + 2, used));
    }
    for entry in 0..MOST_ENTRIES {
        let at = record + 12 + 2 * entry;
        let before = u16::from_le_bytes([bytes[at - 2], bytes[at - 1]]);
        for value in [0, 1, before, before + 1, 60_000, 60_001, 65_535] {
            tables.push(with_word(bytes, at, value));
        }
    }
}

/// A lone service with these entries behind a timer that is right.
fn curve(entries: &[u64]) -> Table {
    full(vec![lone(Kind::Timer, &[2]), lone(Kind::Service, entries)])
}

/// U7: for each position and each two that make it up the entry at their sum and one above it; then
/// the largest entries that there can be, three in a row with two ways to be wrong, and a fault before
/// the last entry.
fn curves(tables: &mut Vec<Vec<u8>>) {
    for more in [0, 1] {
        let lists = at_least_pairs(more);
        tables.extend(lists.iter().map(|entries| encode(&curve(entries))));
    }
    let others: [&[u64]; 17] = [
        &[3, 9],
        &[60_000],
        &[30_000, 60_000],
        &[29_999, 59_998],
        &[29_999, 59_999],
        &[29_999, 60_000],
        &[59_999, 60_000],
        &[1, 60_000],
        &[20_000, 40_000, 60_000],
        &[20_000, 39_999, 60_000],
        &[1, 3, 4],
        &[1, 2, 4],
        &[4, 7, 11, 14, 18, 21, 25, 28],
        &[4, 7, 11, 15, 16, 17, 18, 19],
        &[
            7_500, 15_000, 22_500, 30_000, 37_500, 45_000, 52_500, 60_000,
        ],
        &[
            7_499, 14_998, 22_497, 29_996, 37_495, 44_994, 52_493, 60_000,
        ],
        &[
            59_993, 59_994, 59_995, 59_996, 59_997, 59_998, 59_999, 60_000,
        ],
    ];
    tables.extend(others.map(|entries| encode(&curve(entries))));
}

/// U7: fault 24 of callback 2 or 3 with other faults of the same table: of the header, of the same
/// record, of the one before and the one behind, and of links and arrivals.
fn with_curve_faults(tables: &mut Vec<Vec<u8>>) {
    let record = |index: usize| HEADER_BYTES + RECORD_BYTES * (index - 1);
    for index in [2, 3] {
        let mut bent = base(1);
        bent.callbacks[index - 1].entries = vec![3, 5, 9];
        let bytes = encode(&bent);
        tables.push(bytes.clone());
        for (at, value) in [(0, 3), (1, 0), (2, 0), (6, 60_001), (8, 60_001), (10, 1)] {
            tables.push(with_word(&bytes, at, value));
        }
        for near in index - 1..=index + 1 {
            let faults = [
                (0, 0),
                (1, 5),
                (2, 0),
                (2, 9),
                (3, 1),
                (10, 1),
                (26, 1),
                (31, 1),
            ];
            tables.extend(faults.map(|(at, value)| with_byte(&bytes, record(near) + at, value)));
            let entries = [
                (12, 0),
                (12, 60_001),
                (14, 3),
                (16, 5),
                (16, 60_001),
                (18, 1),
            ];
            tables.extend(entries.map(|(at, value)| with_word(&bytes, record(near) + at, value)));
        }
        // Other numbers of entries: without the one at fault, which then is unused, or with one
        // that is 0.
        tables.extend([1, 2, 4].map(|used| with_byte(&bytes, record(index) + 2, used)));
        // Named twice, a timer named, on a loop, arrivals.
        for (at, value) in [(record(4) + 1, 2), (record(3) + 1, 1), (record(4) + 1, 4)] {
            tables.push(with_byte(&bytes, at, value));
        }
        tables.push(with_word(&bytes, record(1) + 8, 0));
        // In two records the first is told.
        bent.callbacks[3].entries = vec![1, 3];
        tables.push(encode(&bent));
    }
}

/// Callbacks of one kind, each with this next.
pub(super) fn linked(kind: Kind, nexts: &[usize]) -> Vec<u8> {
    let mut callbacks = vec![lone(kind, &[1]); nexts.len()];
    for (callback, &next) in callbacks.iter_mut().zip(nexts) {
        callback.next = next;
    }
    for &named in nexts.iter().filter(|&&next| next != 0) {
        let follower = &mut callbacks[named - 1];
        (follower.period, follower.jitter, follower.distance) = (0, 0, 0);
    }
    encode(&full(callbacks))
}

/// Chains, loops and callbacks named twice.
fn links(tables: &mut Vec<Vec<u8>>) {
    let ring: Vec<usize> = (2..=MOST_CALLBACKS).chain([1]).collect();
    let chain: Vec<usize> = (2..=MOST_CALLBACKS).chain([0]).collect();
    let back: Vec<usize> = [0].into_iter().chain(1..MOST_CALLBACKS).collect();
    let nexts: [&[usize]; 11] = [
        &[0],
        &[1],
        &[2, 1],
        &[0, 3, 2],
        &[2, 3, 2],
        &[3, 3, 0],
        &[3, 3, 3],
        &[2, 3, 0, 4],
        &ring,
        &chain,
        &back,
    ];
    for next in nexts {
        for kind in [Kind::Timer, Kind::Subscription, Kind::Client] {
            tables.push(linked(kind, next));
        }
    }
    tables.push(linked(Kind::Service, &[0; MOST_CALLBACKS]));
}

fn lengths(bytes: &[u8], tables: &mut Vec<Vec<u8>>) {
    let largest = linked(Kind::Timer, &[0; MOST_CALLBACKS]);
    for whole in [bytes, &largest] {
        for length in [
            0,
            1,
            2,
            15,
            16,
            17,
            47,
            48,
            49,
            whole.len() - 32,
            whole.len() - 1,
        ] {
            tables.push(whole[..length].to_vec());
        }
        for more in [1, 15, 16, 31, 32, 33, 64] {
            let mut longer = whole.to_vec();
            longer.resize(whole.len() + more, 0);
            tables.push(longer);
        }
    }
}
