//! The reader's refusals, their order and both ends of the ranges.

mod common;
use common::*;
use sim::generate::curves::LEAST_PAIRS;
use sim::generate::damage::{damaged, refused_with, NUMBERS};
use sim::generate::tables::{any_shape, table};
use sim::random::Random;
use sim::sheet::analyse;
use sim::table::{encode, read, read_before_24, Kind, Refusal, Table};

/// The refusal of `chain()` with one byte written, if any.
fn written(at: usize, value: u8) -> Option<Refusal> {
    let mut bytes = encode(&chain());
    bytes[at] = value;
    read(&bytes).err()
}

fn written_word(at: usize, value: u16) -> Option<Refusal> {
    let mut bytes = encode(&chain());
    bytes[at..at + 2].copy_from_slice(&value.to_le_bytes());
    read(&bytes).err()
}

fn refused(number: u8, index: u8) -> Option<Refusal> {
    Some(refusal(number, index))
}

/// Where the record of a callback begins.
fn record(index: usize) -> usize {
    16 + 32 * (index - 1)
}

#[test]
fn reads_what_it_encodes() {
    let mut random = Random::new(1);
    for _ in 0..2_000 {
        let shape = any_shape(&mut random);
        let table = table(&mut random, shape);
        assert_eq!(read(&encode(&table)), Ok(table));
    }
}

#[test]
fn layout() {
    let mut table = supplied(
        2,
        772,
        vec![lone(Kind::Service, 1_286, 1_800, 770, &[513, 770])],
    );
    table.horizon = 1_541;
    let mut expected = vec![1, 1, 2, 0, 4, 3, 5, 6, 0, 0, 0, 0, 0, 0, 0, 0];
    expected.extend([3, 0, 2, 0, 6, 5, 8, 7, 2, 3, 0, 0, 1, 2, 2, 3]);
    expected.extend([0; 16]);
    assert_eq!(encode(&table), expected);
    expected[0] = 2;
    assert_eq!(encode(&in_edition(2, &table)), expected);
    assert_eq!(read(&expected), Ok(in_edition(2, &table)));
    // U2: Z with its low byte first, right behind H.
    expected[8..10].copy_from_slice(&[9, 8]);
    let late = delayed(2_057, &in_edition(2, &table));
    assert_eq!(encode(&late), expected);
    assert_eq!(read(&expected), Ok(late));
}

#[test]
fn refusals_1_to_4() {
    let bytes = encode(&chain());
    assert_eq!(read(&[]).err(), refused(1, 0));
    assert_eq!(read(&bytes[..15]).err(), refused(1, 0));
    assert_eq!(read(&[9; 15]).err(), refused(1, 0));
    assert_eq!(read(&bytes[..16]).err(), refused(4, 0));
    assert_eq!(read(&bytes[..111]).err(), refused(4, 0));
    assert_eq!(read(&[&bytes[..], &[0]].concat()).err(), refused(4, 0));
    for edition in [0, 3, 255] {
        assert_eq!(written(0, edition), refused(2, 0));
    }
    assert_eq!([1, 2].map(|edition| written(0, edition)), [None, None]);
    for count in [0, 17, 255] {
        assert_eq!(written(1, count), refused(3, 0));
    }
    for count in [1, 2, 4, 16] {
        assert_eq!(written(1, count), refused(4, 0));
    }
}

/// U1 moves nothing in the order: a header cut short, the edition, the count.
#[test]
fn edition_in_its_order() {
    for edition in [0, 1, 2, 3, 255] {
        let mut bytes = encode(&in_edition(edition, &chain()));
        let taken = edition == 1 || edition == 2;
        let outcome = |refusal| if taken { refusal } else { refused(2, 0) };
        assert_eq!(read(&bytes[..15]).err(), refused(1, 0));
        assert_eq!(read(&bytes[..16]).err(), outcome(refused(4, 0)));
        assert_eq!(read(&bytes).err(), outcome(None));
        bytes[1] = 0;
        assert_eq!(read(&bytes).err(), outcome(refused(3, 0)));
    }
}

#[test]
fn one_and_sixteen_callbacks() {
    for count in [1, 16] {
        assert!(read(&encode(&full(vec![timer(9, &[1]); count]))).is_ok());
    }
}

#[test]
fn refusals_5_to_7() {
    for at in 10..16 {
        for value in [1, 128, 255] {
            assert_eq!(written(at, value), refused(5, 0));
        }
    }
    let supply = |budget, period| read(&encode(&supplied(budget, period, chain().callbacks))).err();
    for (budget, period) in [
        (0, 1),
        (0, 0),
        (2, 1),
        (1, 60_001),
        (65_535, 65_535),
        (1, 0),
    ] {
        assert_eq!(supply(budget, period), refused(6, 0));
    }
    for (budget, period) in [(1, 1), (1, 60_000), (60_000, 60_000)] {
        assert_eq!(supply(budget, period), None);
    }
    for (horizon, outcome) in [
        (0, None),
        (1, None),
        (60_000, None),
        (60_001, refused(7, 0)),
        (65_535, refused(7, 0)),
    ] {
        assert_eq!(written_word(6, horizon), outcome);
    }
}

/// U2: 0 to 60,000 in bytes 8 and 9, the low byte first.
#[test]
fn refusal_22() {
    for (delay, outcome) in [
        (0, None),
        (1, None),
        (59_999, None),
        (60_000, None),
        (60_001, refused(22, 0)),
        (65_535, refused(22, 0)),
    ] {
        assert_eq!(written_word(8, delay), outcome);
    }
    // The high byte decides, and at 234 the low one too.
    for (low, high, outcome) in [
        (255, 0, None),
        (0, 234, None),
        (96, 234, None),
        (97, 234, refused(22, 0)),
        (234, 97, None),
        (0, 235, refused(22, 0)),
        (235, 0, None),
    ] {
        let mut bytes = encode(&chain());
        bytes[8..10].copy_from_slice(&[low, high]);
        let expected = delayed(u64::from(low) + 256 * u64::from(high), &chain());
        assert_eq!(read(&bytes), outcome.map_or(Ok(expected), Err));
    }
}

/// U2: 22 comes behind 5 and 6, and before 7 and all that a record can have.
#[test]
fn refusal_22_in_its_order() {
    let mut bytes = encode(&chain());
    let mut write = |at: usize, value: u8| {
        bytes[at] = value;
        read(&bytes).err()
    };
    assert_eq!(write(record(1), 0), refused(8, 1));
    assert_eq!(write(7, 255), refused(7, 0));
    assert_eq!(write(9, 255), refused(22, 0));
    assert_eq!(write(2, 0), refused(6, 0));
    assert_eq!(write(10, 1), refused(5, 0));
    // And back again.
    assert_eq!(write(10, 0), refused(6, 0));
    assert_eq!(write(2, 1), refused(22, 0));
    assert_eq!(write(9, 0), refused(7, 0));
}

#[test]
fn refusals_8_and_9() {
    for index in 1..=3 {
        for kind in [0, 5, 255] {
            assert_eq!(written(record(index), kind), refused(8, index as u8));
        }
        for next in [4, 255] {
            assert_eq!(written(record(index) + 1, next), refused(9, index as u8));
        }
    }
    assert_eq!(written(record(1) + 1, 3), refused(11, 3));
}

#[test]
fn refusal_10() {
    for used in [0, 2, 8, 9, 255] {
        assert_eq!(written(record(2) + 2, used), refused(10, 2));
    }
    for (entry, outcome) in [
        (0, refused(10, 2)),
        (1, None),
        (60_000, None),
        (60_001, refused(10, 2)),
    ] {
        assert_eq!(written_word(record(2) + 12, entry), outcome);
    }
    let entries = |entries: &[u64]| read(&encode(&full(vec![timer(9, entries)]))).err();
    let most: Vec<u64> = (1..=8).map(|position| 7_500 * position).collect();
    assert_eq!(entries(&most), None);
    assert_eq!(entries(&[&most[..7], &[60_001]].concat()), refused(10, 1));
    assert_eq!(entries(&[1, 2, 3, 4, 5, 6, 7, 7]), refused(10, 1));
    assert_eq!(entries(&[3, 2]), refused(10, 1));
    assert_eq!(entries(&[1, 60_001]), refused(10, 1));
    assert_eq!(entries(&[30_001, 60_001]), refused(10, 1));
}

/// U7: each two positions that make up another, at their sum and one above it, in any record.
#[test]
fn refusal_24() {
    for index in 1..=3u8 {
        let entries = |entries: &[u64]| {
            let mut table = chain();
            table.callbacks[usize::from(index) - 1].entries = entries.to_vec();
            read(&encode(&table)).err()
        };
        for (first, position, before) in LEAST_PAIRS {
            assert_eq!((before.len(), entries(before)), (position - 1, None));
            let sum = before[first - 1] + before[position - first - 1];
            let last = before[position - 2];
            for entry in [last + 1, sum - 1, sum] {
                if entry > last {
                    assert_eq!(entries(&[before, &[entry]].concat()), None);
                }
            }
            for entry in [sum + 1, sum + 2, 60_000] {
                let bent = [before, &[entry]].concat();
                assert_eq!(entries(&bent), refused(24, index), "{bent:?}");
            }
        }
        assert_eq!(entries(&[3, 9]), refused(24, index));
        assert_eq!(entries(&[1, 3, 4]), refused(24, index));
        assert_eq!(entries(&[30_000, 60_000]), None);
        assert_eq!(entries(&[29_999, 59_999]), refused(24, index));
    }
}

/// U7: 24 comes behind 10 of the same record and before its 5; other records go before or behind it
/// whole.
#[test]
fn refusal_24_in_its_order() {
    let mut table = chain();
    table.callbacks[1].entries = vec![3, 5, 9];
    let mut bytes = encode(&table);
    let mut write = |at: usize, value: u8| {
        bytes[at] = value;
        read(&bytes).err()
    };
    assert_eq!(write(record(1) + 8, 0), refused(24, 2));
    assert_eq!(write(record(3), 0), refused(24, 2));
    for (at, value) in [(28, 1), (18, 200), (3, 1)] {
        assert_eq!(write(record(2) + at, value), refused(24, 2));
    }
    assert_eq!(write(record(2) + 14, 3), refused(10, 2));
    assert_eq!(write(record(2) + 14, 5), refused(24, 2));
    for used in [0, 9] {
        assert_eq!(write(record(2) + 2, used), refused(10, 2));
    }
    // With two entries the third is unused.
    assert_eq!(write(record(2) + 2, 2), refused(5, 2));
    assert_eq!(write(record(2) + 2, 3), refused(24, 2));
    assert_eq!(write(record(2) + 1, 4), refused(9, 2));
    assert_eq!(write(record(2), 5), refused(8, 2));
    assert_eq!(write(record(1) + 28, 1), refused(5, 1));
    assert_eq!(write(record(1) + 28, 0), refused(8, 2));
    assert_eq!(write(9, 255), refused(22, 0));
}

/// The reader of before U7 says the same but for 24, and there what is behind it.
#[test]
fn reader_of_before_24() {
    let mut random = Random::new(3);
    let (mut hidden, mut taken) = (0, 0);
    for _ in 0..6_000 {
        let bytes = damaged(&mut random);
        let (now, before) = (read(&bytes), read_before_24(&bytes));
        if now.as_ref().err().map(|refusal| refusal.number) != Some(24) {
            assert_eq!(now, before);
        } else if let Err(refusal) = before {
            assert_ne!(refusal.number, 24);
            hidden += 1;
        } else {
            taken += 1;
        }
    }
    assert!(hidden > 100 && taken > 100, "{hidden} {taken}");
}

#[test]
fn refusal_5_of_a_record() {
    for index in 1..=3 {
        for at in [3, 10, 11, 14, 15, 26, 27, 28, 31] {
            assert_eq!(written(record(index) + at, 1), refused(5, index as u8));
        }
    }
}

#[test]
fn each_record_in_turn() {
    let mut bytes = encode(&chain());
    bytes[record(2)] = 0;
    bytes[record(1) + 28] = 1;
    assert_eq!(read(&bytes).err(), refused(5, 1));
    bytes[record(1) + 2] = 0;
    assert_eq!(read(&bytes).err(), refused(10, 1));
    bytes[record(1) + 1] = 9;
    assert_eq!(read(&bytes).err(), refused(9, 1));
    bytes[record(1)] = 9;
    assert_eq!(read(&bytes).err(), refused(8, 1));
}

/// Subscriptions linked as the list says, all with arrivals of a head.
fn linked(nexts: &[usize]) -> Table {
    let mut table = full(vec![subscription(9, &[1]); nexts.len()]);
    for (callback, &next) in table.callbacks.iter_mut().zip(nexts) {
        callback.next = next;
    }
    table
}

#[test]
fn refusals_11_to_13() {
    let links = |nexts: &[usize]| read(&encode(&linked(nexts))).err();
    assert_eq!(links(&[3, 3, 0]), refused(11, 3));
    assert_eq!(links(&[4, 3, 4, 3]), refused(11, 3));
    assert_eq!(links(&[1, 1]), refused(11, 1));
    assert_eq!(links(&[1]), refused(13, 1));
    assert_eq!(links(&[0, 3, 2]), refused(13, 2));
    assert_eq!(links(&[0, 3, 4, 2]), refused(13, 2));
    assert_eq!(links(&[1, 3, 2]), refused(13, 1));
    let mut table = linked(&[1, 3, 0, 4]);
    table.callbacks[2].kind = Kind::Timer;
    table.callbacks[3].kind = Kind::Timer;
    assert_eq!(read(&encode(&table)).err(), refused(12, 3));
    table.callbacks[0].next = 4;
    assert_eq!(read(&encode(&table)).err(), refused(11, 4));
}

#[test]
fn refusal_14() {
    let head = |period, jitter, distance| {
        let callbacks = vec![
            timer(9, &[1]),
            lone(Kind::Client, period, jitter, distance, &[1]),
        ];
        read(&encode(&full(callbacks))).err()
    };
    for (period, jitter, distance) in [
        (0, 0, 0),
        (0, 0, 1),
        (60_001, 0, 1),
        (9, 60_001, 9),
        (9, 0, 0),
        (9, 0, 10),
    ] {
        assert_eq!(head(period, jitter, distance), refused(14, 2));
    }
    for (period, jitter, distance) in [(1, 0, 1), (60_000, 60_000, 60_000), (60_000, 0, 1)] {
        assert_eq!(head(period, jitter, distance), None);
    }
    for at in [4, 6, 8] {
        assert_eq!(written(record(2) + at, 1), refused(14, 2));
    }
    assert_eq!(read(&encode(&linked(&[0, 1]))).err(), refused(14, 1));
}

#[test]
fn every_number_is_reached() {
    let mut random = Random::new(2);
    for number in NUMBERS {
        let mut editions = [0; 256];
        for _ in 0..300 {
            let bytes = refused_with(&mut random, number);
            let result = analyse(&bytes, &mut [0; 16]);
            assert_eq!(result.err().map(|refusal| refusal.number), Some(number));
            editions[usize::from(bytes.first().copied().unwrap_or(0))] += 1;
        }
        let met: &[usize] = if number == 2 { &[0, 3, 255] } else { &[1, 2] };
        assert!(
            met.iter().all(|&edition| editions[edition] > 60),
            "{number}"
        );
    }
}
