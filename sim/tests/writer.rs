//! The writer (request U4 of document 02): its bytes, its refusals and their order, what it leaves of
//! a buffer, and that it and the reader agree.

mod common;
use common::*;
use sim::frames::{cut_readings, framed, packed_writing, writings};
use sim::generate::curves::LEAST_PAIRS;
use sim::generate::damage::damaged;
use sim::generate::edges::{base, late};
use sim::generate::tables::{any_shape, table};
use sim::generate::values::{rooms, values, REFUSALS};
use sim::generate::write_edges::write_edges;
use sim::random::Random;
use sim::sheet::sheet as analysed;
use sim::table::{encode, read, Kind, Refusal, Table};
use sim::write::{values_at, write, Values, NUMBERS_PER_RECORD};
use std::collections::BTreeSet;
use std::process::Command;

/// Places of a record's numbers in it.
const KIND: usize = 0;
const NEXT: usize = 1;
const USED: usize = 2;
const DISTANCE: usize = 5;
const ENTRIES: usize = 6;

fn of(table: &Table) -> Values {
    values_at(&encode(table))
}

/// The same values with this number in the record of a callback.
fn with(values: &Values, index: usize, place: usize, number: u16) -> Values {
    let mut other = values.clone();
    other.records[NUMBERS_PER_RECORD * (index - 1) + place] = number;
    other
}

/// A buffer in which no two neighbours are the same, and no byte is 0.
fn filled(room: usize) -> Vec<u8> {
    (0..room)
        .map(|place| 1 + (place * 37 % 255) as u8)
        .collect()
}

/// What the writer makes of such a buffer. Beyond the table, and at a refusal throughout, it is seen
/// to be as it was.
fn written(values: &Values, room: usize) -> Result<Vec<u8>, Refusal> {
    let mut buffer = filled(room);
    let result = write(values, &mut buffer);
    let length = result.unwrap_or(0);
    assert!(length <= room && buffer[length..] == filled(room)[length..]);
    result.map(|length| buffer[..length].to_vec())
}

/// The refusal of values in a buffer that any table fits.
fn refused_for(values: &Values) -> Option<Refusal> {
    written(values, 528).err()
}

fn refused(number: u8, index: usize) -> Option<Refusal> {
    Some(refusal(number, index as u8))
}

/// The values in bytes, for the reader. Where a byte is too narrow for a number it holds 255, which is
/// as wrong there as any larger one. Numbers that are not there are 0, those past n are left out.
fn bytes_of(values: &Values) -> Vec<u8> {
    let narrow = |number: u16| number.min(255) as u8;
    let mut bytes = vec![narrow(values.edition), narrow(values.count)];
    for number in [values.budget, values.period, values.horizon, values.delay] {
        bytes.extend(number.to_le_bytes());
    }
    bytes.extend([0; 6]);
    for index in 0..usize::from(narrow(values.count)) {
        let number = |place| values.records.get(14 * index + place).copied().unwrap_or(0);
        bytes.extend([
            narrow(number(KIND)),
            narrow(number(NEXT)),
            narrow(number(USED)),
            0,
        ]);
        bytes.extend(
            [3, 4, DISTANCE]
                .map(|place| number(place).to_le_bytes())
                .concat(),
        );
        bytes.extend([0; 2]);
        bytes.extend((ENTRIES..14).flat_map(|place| number(place).to_le_bytes()));
        bytes.extend([0; 4]);
    }
    bytes
}

/// What the reader says of these bytes, and behind it the row of the buffer.
fn expected(bytes: &[u8], room: usize) -> Result<Vec<u8>, Refusal> {
    read(bytes)?;
    if room < bytes.len() {
        return Err(refusal(23, 0));
    }
    Ok(bytes.to_vec())
}

/// Whether each number fits the bytes that it has in the table, as far as n says.
fn fits(values: &Values) -> bool {
    let records = values.records.chunks(NUMBERS_PER_RECORD);
    let used = records.take(values.count.into());
    let narrow = |numbers: &[u16]| numbers.iter().all(|&number| number < 256);
    narrow(&[values.edition, values.count])
        && used
            .into_iter()
            .all(|record| narrow(&record[..record.len().min(3)]))
}

/// Whether the list has all numbers of n records.
fn whole(values: &Values) -> bool {
    values.records.len() >= NUMBERS_PER_RECORD * usize::from(values.count)
}

#[test]
fn layout() {
    let values = Values {
        edition: 2,
        count: 1,
        budget: 2,
        period: 772,
        horizon: 1_541,
        delay: 2_057,
        records: vec![3, 0, 2, 1_286, 1_800, 770, 513, 770, 0, 0, 0, 0, 0, 0],
    };
    let mut expected = vec![2, 1, 2, 0, 4, 3, 5, 6, 9, 8, 0, 0, 0, 0, 0, 0];
    expected.extend([3, 0, 2, 0, 6, 5, 8, 7, 2, 3, 0, 0, 1, 2, 2, 3]);
    expected.extend([0; 16]);
    assert_eq!(written(&values, 48), Ok(expected.clone()));
    assert_eq!(values_at(&expected), values);
    let entries = [258, 515, 772, 1_029, 1_286, 1_543, 1_800, 2_057];
    let mut full = with(&values, 1, USED, 8);
    full.records[ENTRIES..].copy_from_slice(&entries);
    expected[18] = 8;
    let laid = [2, 1, 3, 2, 4, 3, 5, 4, 6, 5, 7, 6, 8, 7, 9, 8];
    expected[28..44].copy_from_slice(&laid);
    assert_eq!(written(&full, 48), Ok(expected));
}

/// U4, "byte by byte": tables of all shapes, each in a buffer that just holds it and in a longer one.
#[test]
fn tables_are_written_back() {
    let mut random = Random::new(101);
    for _ in 0..3_000 {
        let shape = any_shape(&mut random);
        let table = table(&mut random, shape);
        let (values, bytes) = (of(&table), encode(&table));
        for room in [bytes.len(), bytes.len() + 33] {
            assert_eq!(written(&values, room), Ok(bytes.clone()));
        }
        assert_eq!(read(&written(&values, 528).unwrap()), Ok(table));
    }
}

/// U4, "reads back": whatever is written of drawn values has their numbers again, up to record n.
#[test]
fn written_values_read_back() {
    let mut random = Random::new(102);
    let mut accepted = 0;
    for _ in 0..7_000 {
        let mut values = values(&mut random);
        if let Ok(bytes) = written(&values, 528) {
            let read_back = values_at(&bytes);
            let numbers = NUMBERS_PER_RECORD * usize::from(values.count);
            values.records.resize(numbers, 0);
            assert_eq!(read_back, values);
            assert_eq!(encode(&read(&bytes).unwrap()), bytes);
            accepted += 1;
        }
    }
    assert!(accepted > 2_000, "{accepted}");
}

/// Damaged tables go to the reader as they are and to the writer as numbers. Where their length is
/// right and their spare bytes are 0 the two say the same.
#[test]
fn damaged_tables_agree_with_the_reader() {
    let mut random = Random::new(103);
    let (mut same, mut other) = (0, 0);
    for _ in 0..8_000 {
        let bytes = damaged(&mut random);
        let values = values_at(&bytes);
        let plain = bytes_of(&values);
        assert_eq!(written(&values, 528), expected(&plain, 528));
        if plain == bytes {
            assert_eq!(refused_for(&values), read(&bytes).err());
            same += 1;
        } else {
            other += 1;
        }
    }
    assert!(same > 2_000 && other > 3_000, "{same} {other}");
}

/// Drawn values in all their rooms, against the reader on their bytes.
#[test]
fn drawn_values_agree_with_the_reader() {
    let mut random = Random::new(104);
    // How many there are of each sort: cut short or whole, and too wide or fitting.
    let mut sorts = [[0; 2]; 2];
    for _ in 0..6_000 {
        let values = values(&mut random);
        let bytes = bytes_of(&values);
        for room in rooms(&values) {
            assert_eq!(written(&values, room), expected(&bytes, room), "{values:?}");
        }
        sorts[usize::from(whole(&values))][usize::from(fits(&values))] += 1;
    }
    assert!(sorts[1][1] > 3_000 && sorts[0][1] > 500, "{sorts:?}");
    assert!(sorts[1][0] > 500 && sorts[0][0] > 100, "{sorts:?}");
}

/// Values of which some are wrong, in a row from the last fault to the first: each new one is told.
#[test]
fn refusals_in_their_order() {
    let mut callbacks = chain().callbacks;
    callbacks.push(timer(20, &[1, 2]));
    let mut values = of(&full(callbacks));
    assert_eq!(written(&values, 143).err(), refused(23, 0));
    let mut refusal = |index: usize, place: usize, number: u16| {
        values = with(&values, index, place, number);
        written(&values, 143).err()
    };
    assert_eq!(refusal(1, DISTANCE, 0), refused(14, 1));
    assert_eq!(refusal(3, NEXT, 2), refused(11, 2));
    assert_eq!(refusal(1, NEXT, 0), refused(13, 2));
    assert_eq!(refusal(3, KIND, 1), refused(12, 3));
    assert_eq!(refusal(4, NEXT, 3), refused(11, 3));
    assert_eq!(refusal(4, ENTRIES + 2, 1), refused(5, 4));
    assert_eq!(refusal(4, ENTRIES + 1, 3), refused(24, 4));
    assert_eq!(refusal(4, ENTRIES + 1, 1), refused(10, 4));
    assert_eq!(refusal(4, NEXT, 5), refused(9, 4));
    assert_eq!(refusal(4, KIND, 5), refused(8, 4));
    assert_eq!(refusal(2, ENTRIES + 7, 1), refused(5, 2));
    assert_eq!(refusal(2, USED, 9), refused(10, 2));
    assert_eq!(refusal(2, NEXT, 256), refused(9, 2));
    assert_eq!(refusal(2, KIND, 257), refused(8, 2));
    assert_eq!(refusal(1, ENTRIES + 1, 1), refused(5, 1));
    values.horizon = 60_001;
    assert_eq!(written(&values, 143).err(), refused(7, 0));
    values.delay = 60_001;
    assert_eq!(written(&values, 143).err(), refused(22, 0));
    values.budget = 0;
    assert_eq!(written(&values, 143).err(), refused(6, 0));
    values.count = 17;
    assert_eq!(written(&values, 143).err(), refused(3, 0));
    values.edition = 3;
    assert_eq!(written(&values, 143).err(), refused(2, 0));
}

/// The ends of each of the header's numbers.
#[test]
fn header_at_its_ends() {
    let header = |change: fn(&mut Values, u16), number: u16| {
        let mut values = of(&chain());
        (values.budget, values.period) = (3, 5);
        change(&mut values, number);
        refused_for(&values)
    };
    type Row = (fn(&mut Values, u16), u8, &'static [u16], &'static [u16]);
    let rows: [Row; 6] = [
        (|v, e| v.edition = e, 2, &[1, 2], &[0, 3, 255, 256, 65_535]),
        (|v, n| v.count = n, 3, &[3], &[0, 17, 255, 256, 65_535]),
        (|v, q| v.budget = q, 6, &[1, 5], &[0, 6, 65_535]),
        (|v, p| v.period = p, 6, &[3, 60_000], &[0, 2, 60_001]),
        (|v, h| v.horizon = h, 7, &[0, 1, 60_000], &[60_001, 65_535]),
        (|v, z| v.delay = z, 22, &[0, 1, 60_000], &[60_001, 65_535]),
    ];
    for (change, row, right, wrong) in rows {
        for &number in right {
            assert_eq!(header(change, number), None, "{row} {number}");
        }
        for &number in wrong {
            assert_eq!(header(change, number), refused(row, 0), "{number}");
        }
    }
}

/// U4: H stands in the table as it was given.
#[test]
fn horizon_is_kept() {
    for horizon in [0, 1, 255, 256, 10_000, 59_999, 60_000] {
        let mut values = of(&chain());
        values.horizon = horizon;
        let bytes = written(&values, 112).unwrap();
        assert_eq!(bytes[6..8], horizon.to_le_bytes());
        assert_eq!(read(&bytes).unwrap().horizon, u64::from(horizon));
    }
}

/// Numbers whose low byte would be right, and others of more than a byte, at each place of one byte.
#[test]
fn wide_numbers() {
    for table in [chain(), base(1), late(), full(vec![timer(9, &[1]); 16])] {
        let right = of(&table);
        let wide = |number: u16| {
            let more = [1, 2, 3, 128, 255].map(|times| 256 * times + number);
            more.into_iter().chain([65_535, 256, 257, 258, 272])
        };
        for number in wide(right.edition) {
            let edition = Values {
                edition: number,
                ..right.clone()
            };
            assert_eq!(refused_for(&edition), refused(2, 0));
        }
        for number in wide(right.count) {
            let count = Values {
                count: number,
                ..right.clone()
            };
            assert_eq!(refused_for(&count), refused(3, 0));
        }
        for index in 1..=table.count() {
            for (place, row) in [(KIND, 8), (NEXT, 9), (USED, 10)] {
                let number = right.records[NUMBERS_PER_RECORD * (index - 1) + place];
                for number in wide(number) {
                    let outcome = refused_for(&with(&right, index, place, number));
                    assert_eq!(outcome, refused(row, index), "{number}");
                }
            }
        }
    }
}

/// Numbers of two bytes use both: no bit of theirs is dropped, and none is refused for its size.
#[test]
fn numbers_of_two_bytes() {
    let client = |entries: &[u64]| lone(Kind::Client, 60_000, 60_000, 60_000, entries);
    let callbacks = vec![client(&[255, 256, 511]), client(&[30_000, 60_000])];
    let mut table = delayed(60_000, &supplied(60_000, 60_000, callbacks));
    table.horizon = 60_000;
    let bytes = written(&of(&table), 80).unwrap();
    assert_eq!(read(&bytes), Ok(table));
}

/// An entry beyond m has to be 0; up to m it goes by the rules of 10, before 5.
#[test]
fn entries_beyond_the_used_ones() {
    let entries: Vec<u64> = (1..=8).map(|entry| 300 * entry).collect();
    for used in 1..=8 {
        let callbacks = vec![timer(9, &[1]), subscription(9, &entries[..used])];
        let right = of(&full(callbacks));
        assert_eq!(refused_for(&right), None);
        for entry in used..8 {
            for number in [1, 256, 2_700, 60_000, 60_001, 65_535] {
                let dirty = with(&right, 2, ENTRIES + entry, number);
                assert_eq!(refused_for(&dirty), refused(5, 2));
                let both = with(&dirty, 2, ENTRIES, 0);
                assert_eq!(refused_for(&both), refused(10, 2));
                let earlier = with(&dirty, 1, ENTRIES + 7, 1);
                assert_eq!(refused_for(&earlier), refused(5, 1));
            }
        }
        for entry in 0..used {
            for number in [0, 60_001, 65_535] {
                let wrong = with(&right, 2, ENTRIES + entry, number);
                assert_eq!(refused_for(&wrong), refused(10, 2));
            }
        }
        // With another m the same entries are too many or too few.
        for (other, row) in [(used - 1, 5), (used + 1, 10), (0, 10), (9, 10)] {
            let row = if other == 0 { 10 } else { row };
            let number = other as u16;
            assert_eq!(refused_for(&with(&right, 2, USED, number)), refused(row, 2));
        }
    }
}

/// U7, 24 by the reader's order: an entry above the sum of two, for each two positions, and just at it;
/// behind 10, before 5, and a record at a time. No buffer is touched for it.
#[test]
fn entries_above_the_sum_of_two() {
    for index in 1..=2 {
        let of_entries = |entries: &[u64]| {
            let mut callbacks = vec![timer(9, &[1]), subscription(9, &[1])];
            callbacks[index - 1].entries = entries.to_vec();
            of(&full(callbacks))
        };
        for (first, position, before) in LEAST_PAIRS {
            let sum = before[first - 1] + before[position - first - 1];
            let right = of_entries(&[before, &[sum]].concat());
            assert_eq!(refused_for(&right), None);
            let above = with(&right, index, ENTRIES + position - 1, sum as u16 + 1);
            assert_eq!(refused_for(&above), refused(24, index));
            let zero = with(&above, index, ENTRIES, 0);
            assert_eq!(refused_for(&zero), refused(10, index));
            if position < 8 {
                let dirty = with(&above, index, ENTRIES + 7, 1);
                assert_eq!(refused_for(&dirty), refused(24, index));
            }
            let used = with(&above, index, USED, position as u16 - 1);
            assert_eq!(refused_for(&used), refused(5, index));
            // The other record goes before or behind it whole.
            let both = with(&above, 3 - index, ENTRIES + 7, 1);
            let told = if index == 1 { 24 } else { 5 };
            assert_eq!(refused_for(&both), refused(told, 1));
        }
    }
}

/// U4, "ignored": whatever stands behind record n, few numbers or many.
#[test]
fn numbers_past_the_last_record() {
    let mut random = Random::new(105);
    for table in [full(vec![timer(9, &[1])]), chain(), base(2), late()] {
        let right = of(&table);
        for more in (0..40).chain([14 * 16, 60_000]) {
            let numbers: [Vec<u16>; 4] = [
                vec![0; more],
                vec![65_535; more],
                right.records.iter().copied().cycle().take(more).collect(),
                (0..more).map(|_| random.bits() as u16).collect(),
            ];
            for numbers in numbers {
                let mut longer = right.clone();
                longer.records.extend(numbers);
                assert_eq!(written(&longer, 528), Ok(encode(&table)));
            }
        }
    }
    // A record past n names nobody, and nobody may name it.
    let mut first = of(&full(vec![subscription(9, &[1]); 2]));
    first.count = 1;
    for next in [0, 1, 2] {
        assert_eq!(refused_for(&with(&first, 2, NEXT, next)), None);
    }
    assert_eq!(refused_for(&with(&first, 1, NEXT, 2)), refused(9, 1));
}

/// A number that the list lacks is 0: 8 for a record that lacks all, 10 for one without an m or a used
/// entry; nothing is amiss where all that it lacks has to be 0.
#[test]
fn missing_numbers() {
    let right = of(&base(1));
    let used = [1, 1, 2, 8];
    for length in 0..right.records.len() {
        let mut cut = right.clone();
        cut.records.truncate(length);
        let (place, numbers) = (length / NUMBERS_PER_RECORD, length % NUMBERS_PER_RECORD);
        let outcome = match numbers {
            0 => refused(8, place + 1),
            _ if numbers < ENTRIES + used[place] => refused(10, place + 1),
            _ if place == 3 => None,
            _ => refused(8, place + 2),
        };
        assert_eq!(refused_for(&cut), outcome, "{length}");
    }
    let mut cut = of(&full(vec![timer(9, &[7])]));
    cut.records.truncate(ENTRIES + 1);
    assert_eq!(written(&cut, 48), Ok(encode(&full(vec![timer(9, &[7])]))));
    cut.records.clear();
    cut.horizon = 60_001;
    assert_eq!(refused_for(&cut), refused(7, 0));
}

/// U4, 23 and what is untouched: buffers of each length up to a good deal above the table's.
#[test]
fn buffers_of_each_length() {
    for table in [full(vec![timer(9, &[3, 4])]), chain()] {
        let (values, bytes) = (of(&table), encode(&table));
        for room in 0..=bytes.len() + 40 {
            let mut buffer = filled(room);
            let result = write(&values, &mut buffer);
            if room < bytes.len() {
                assert_eq!(result, Err(refusal(23, 0)), "{room}");
                assert_eq!(buffer, filled(room));
            } else {
                assert_eq!(result, Ok(bytes.len()), "{room}");
                assert_eq!(buffer[..bytes.len()], bytes);
                assert_eq!(buffer[bytes.len()..], filled(room)[bytes.len()..]);
            }
            // Any other fault goes before the buffer's.
            let wrong = with(&values, 1, DISTANCE, 0);
            assert_eq!(written(&wrong, room).err(), refused(14, 1));
        }
    }
}

/// What the buffer held before makes no difference to the table.
#[test]
fn former_content_of_the_buffer() {
    let bytes = encode(&late());
    for filling in [0, 1, 128, 170, 255] {
        let mut buffer = [filling; 150];
        assert_eq!(write(&of(&late()), &mut buffer), Ok(144));
        assert_eq!(buffer[..144], bytes);
        assert_eq!(buffer[144..], [filling; 6]);
        // The same again, and a shorter table over it.
        assert_eq!(write(&of(&late()), &mut buffer), Ok(144));
        assert_eq!(buffer[..144], bytes);
        assert_eq!(write(&of(&chain()), &mut buffer), Ok(112));
        assert_eq!(buffer[..112], encode(&chain()));
        assert_eq!(buffer[112..144], bytes[112..]);
    }
}

/// The writer asks for no sheet: tables that the analyser refuses are written.
#[test]
fn tables_without_a_window_are_written() {
    let crowded = full(vec![lone(Kind::Subscription, 200, 50_600, 1, &[2])]);
    let overloaded = full(vec![subscription(1, &[2])]);
    for (table, number) in [(overloaded, 15), (crowded, 16)] {
        let refused = analysed(&encode(&table)).err();
        assert_eq!(refused.map(|refusal| refusal.number), Some(number));
        assert_eq!(written(&of(&table), 48), Ok(encode(&table)));
    }
}

/// `values_at`: bytes cut anywhere read as if zeros followed, up to the end of a record that began.
#[test]
fn values_of_bytes_cut_short() {
    let bytes = encode(&base(2));
    for length in 0..=bytes.len() {
        let mut longer = bytes[..length].to_vec();
        let begun = length.saturating_sub(16).div_ceil(32);
        longer.resize(16 + 32 * begun, 0);
        let values = values_at(&bytes[..length]);
        assert_eq!(values, values_at(&longer));
        assert_eq!(values.records.len(), NUMBERS_PER_RECORD * begun);
    }
    // Spare bytes say nothing, and every other byte does.
    let spare = |at: usize| match at.checked_sub(16) {
        None => at >= 10,
        Some(behind) => [3, 10, 11, 28, 29, 30, 31].contains(&(behind % 32)),
    };
    for at in 0..bytes.len() {
        let mut other = bytes.clone();
        other[at] ^= 128;
        assert_eq!(values_at(&other) == values_at(&bytes), spare(at), "{at}");
    }
}

/// Every number that values can be refused with is met by the generator, each with all its indexes,
/// and no other.
#[test]
fn every_number_is_met() {
    let mut random = Random::new(106);
    let mut met = [[0; 17]; 25];
    for _ in 0..30_000 {
        let values = values(&mut random);
        let rooms = rooms(&values);
        // One of its rooms, and one that holds any table.
        for room in [*random.pick(&rooms), 528] {
            if let Err(refusal) = written(&values, room) {
                met[usize::from(refusal.number)][usize::from(refusal.index)] += 1;
            }
        }
    }
    for (row, number) in met.iter().zip(0u8..) {
        let total: u32 = row.iter().sum();
        let indexes: Vec<usize> = (0..17).filter(|&index| row[index] > 0).collect();
        let all: Vec<usize> = match number {
            _ if !REFUSALS.contains(&number) => Vec::new(),
            2 | 3 | 6 | 7 | 22 | 23 => vec![0],
            _ => (1..=16).collect(),
        };
        assert_eq!(indexes, all, "{number}");
        assert!(total == 0 || total > 300, "{number} {total}");
    }
}

/// Among the drawn values that are accepted are each n and each edition, both ends of H, and lists that
/// are longer or shorter than n asks for.
#[test]
fn sorts_of_drawn_values() {
    let mut random = Random::new(107);
    let (mut counts, mut editions) = ([0; 17], [0; 3]);
    let (mut horizons, mut longer, mut shorter) = ([0; 2], 0, 0);
    for _ in 0..8_000 {
        let values = values(&mut random);
        let numbers = NUMBERS_PER_RECORD * usize::from(values.count);
        if refused_for(&values).is_some() {
            continue;
        }
        counts[usize::from(values.count)] += 1;
        editions[usize::from(values.edition)] += 1;
        horizons[0] += u64::from(values.horizon == 0);
        horizons[1] += u64::from(values.horizon == 60_000);
        longer += u64::from(values.records.len() > numbers);
        shorter += u64::from(values.records.len() < numbers);
    }
    assert!(counts[1..].iter().all(|&count| count > 30), "{counts:?}");
    assert!(editions[1] > 1_000 && editions[2] > 1_000);
    assert!(horizons.iter().all(|&count| count > 100), "{horizons:?}");
    assert!(longer > 300 && shorter > 10, "{longer} {shorter}");
}

/// At each place of one byte the generator has numbers whose low byte would be right, and they decide.
#[test]
fn wide_numbers_are_drawn() {
    let mut random = Random::new(108);
    let mut wide = [0; 5];
    for _ in 0..8_000 {
        let values = values(&mut random);
        let records = values.records.chunks_exact(NUMBERS_PER_RECORD);
        let mut records = records.take(values.count.min(16).into());
        let index = refused_for(&values).map_or(0, |refusal| usize::from(refusal.index));
        let record = index.checked_sub(1).and_then(|place| records.nth(place));
        let number = refused_for(&values).map_or(0, |refusal| refusal.number);
        wide[0] += u64::from(number == 2 && [257, 258, 513, 514].contains(&values.edition));
        wide[1] += u64::from(number == 3 && (257..=272).contains(&values.count));
        let Some(record) = record else { continue };
        wide[2] += u64::from(number == 8 && (257..=260).contains(&record[KIND]));
        wide[3] += u64::from(number == 9 && (256..=272).contains(&record[NEXT]));
        wide[4] += u64::from(number == 10 && (257..=264).contains(&record[USED]));
    }
    assert!(wide.iter().all(|&count| count > 40), "{wide:?}");
}

#[test]
fn rooms_of_values() {
    let mut values = of(&chain());
    let expected = [
        0, 1, 15, 16, 17, 80, 109, 110, 111, 112, 113, 114, 115, 144, 528, 640,
    ];
    assert_eq!(rooms(&values), expected);
    for count in [0, 17, 257, 65_535] {
        values.count = count;
        assert_eq!(rooms(&values), [0, 1, 15, 16, 17, 528, 640]);
    }
    for count in 1..=16 {
        values.count = count;
        let (rooms, length) = (rooms(&values), 16 + 32 * usize::from(count));
        let distinct: BTreeSet<&usize> = rooms.iter().collect();
        assert_eq!(distinct.len(), rooms.len());
        let around = (length - 3..=length + 3).chain([length - 32, length + 32]);
        for room in around.chain([0, 1, 15, 16, 17, 528, 640]) {
            assert!(distinct.contains(&room), "{count} {room}");
        }
    }
}

/// The lines of `sim writings`.
#[test]
fn lines_of_writings() {
    let table = full(vec![timer(300, &[2])]);
    let line = |room: u16, values: &Values| writings(&framed(&packed_writing(room, values)));
    let header = "1 1 1 0 1 0 0 0 0 0 0 0 0 0 0 0";
    let record = format!("1 0 1 0 44 1 0 0 44 1 0 0 2{}", " 0".repeat(19));
    let bytes = format!("48 0 0 {header} {record}");
    assert_eq!(line(48, &of(&table)), format!("{bytes}\n"));
    assert_eq!(line(50, &of(&table)), format!("{bytes} 170 170\n"));
    assert_eq!(line(47, &of(&table)), "0 23 0\n");
    assert_eq!(line(0, &of(&table)), "0 23 0\n");
    assert_eq!(line(48, &with(&of(&table), 1, KIND, 257)), "0 8 1\n");
    assert_eq!(line(65_535, &with(&of(&table), 1, NEXT, 2)), "0 9 1\n");
}

/// A frame may end anywhere: numbers that are not there are 0, half a number is none.
#[test]
fn writings_of_short_frames() {
    let whole = packed_writing(48, &of(&full(vec![timer(300, &[2])])));
    let accepted = writings(&framed(&whole));
    for length in 0..whole.len() {
        let expected = match length {
            0..=3 => "0 2 0\n",
            4..=5 => "0 3 0\n",
            6..=9 => "0 6 0\n",
            10..=15 => "0 8 1\n",
            16..=27 => "0 10 1\n",
            _ => &accepted,
        };
        assert_eq!(writings(&framed(&whole[..length])), expected, "{length}");
    }
    let odd = [&whole[..], &[255]].concat();
    assert_eq!(writings(&framed(&odd)), accepted);
    assert_eq!(cut_readings(&framed(&odd)), None);
}

/// `sim writings` ends as `sim readings` does.
#[test]
fn program_of_writings() {
    let table = full(vec![timer(300, &[2])]);
    let accepted = framed(&packed_writing(50, &of(&table)));
    let refused = framed(&packed_writing(20, &of(&table)));
    let line = writings(&accepted);
    let ends = |input: &[u8], status: i32, output: &str, error: &str| {
        let ended = run(&["writings"], input);
        let said = (ended.status, &ended.output[..], &ended.error[..]);
        assert_eq!(said, (Some(status), output, error));
    };
    ends(b"", 0, "", "");
    ends(&accepted, 0, &line, "");
    let both = [&accepted[..], &refused].concat();
    ends(&both, 1, &format!("{line}0 23 0\n"), "");
    ends(&[0, 0], 1, "0 2 0\n", "");
    let cut = &both[..both.len() - 1];
    ends(cut, 2, &line, "frame 2: cut short\n");
    ends(&[1], 2, "", "frame 1: cut short\n");
    let usage = program(&["help"], b"");
    for words in [&["writings", "x"][..], &["generate", "writings", "1"]] {
        let ended = run(words, b"");
        assert_eq!((ended.status, &ended.output[..]), (Some(2), ""));
        assert!(ended.error.ends_with(&usage));
    }
    for words in ["  sim writings ", "  sim generate writings\n"] {
        assert!(usage.contains(words));
    }
}

/// `sim generate writings` is not too long, has both editions, every refusal and the longest table,
/// and the reader agrees with all of its lines.
#[test]
fn generated_writings() {
    let mut command = Command::new(env!("CARGO_BIN_EXE_sim"));
    let drawn = command.args(["generate", "writings"]).output().unwrap();
    let contents = write_edges();
    let frames: Vec<u8> = contents.iter().flat_map(|bytes| framed(bytes)).collect();
    assert_eq!(
        (drawn.status.code(), drawn.stdout),
        (Some(0), frames.clone())
    );
    assert!(contents.len() <= 420 && contents.iter().all(|bytes| bytes.len() <= 1_000));
    let text = writings(&frames);
    assert!(text.len() < 100_000 && text.lines().count() == contents.len());
    let numbers = |line: &str, first: usize| -> Vec<u64> {
        let words = line.split(' ').skip(first);
        words.map(|word| word.parse().unwrap()).collect()
    };
    let (mut met, mut lengths) = (BTreeSet::new(), BTreeSet::new());
    for (line, bytes) in text.lines().zip(&contents) {
        let (room, values) = unpacked(bytes);
        assert!(room <= 700);
        let outcome = match expected(&bytes_of(&values), room) {
            Ok(bytes) => {
                let buffer = [&bytes, &vec![170; room - bytes.len()][..]].concat();
                let length = [bytes.len() as u64, 0, 0].into_iter();
                lengths.insert((bytes.len(), values.edition));
                length.chain(buffer.into_iter().map(u64::from)).collect()
            }
            Err(refusal) => {
                met.insert(refusal.number);
                vec![0, refusal.number.into(), refusal.index.into()]
            }
        };
        assert_eq!(numbers(line, 0), outcome, "{values:?}");
    }
    assert!(met.into_iter().eq(REFUSALS));
    for length in [(144, 1), (144, 2), (528, 2)] {
        assert!(lengths.contains(&length));
    }
}

/// The buffer's length and the values in a frame, read apart from the program.
fn unpacked(bytes: &[u8]) -> (usize, Values) {
    let mut numbers = bytes.chunks_exact(2);
    let mut next = || {
        numbers
            .next()
            .map_or(0, |b| u16::from(b[0]) + 256 * u16::from(b[1]))
    };
    let room = next().into();
    let mut values = Values {
        edition: next(),
        count: next(),
        budget: next(),
        period: next(),
        horizon: next(),
        delay: next(),
        records: Vec::new(),
    };
    values.records = (7..bytes.len() / 2).map(|_| next()).collect();
    (room, values)
}

/// What seeds give since U7, before which there was one number less to be refused with.
#[test]
fn seeds_give_what_they_give() {
    let drawn = (1..=30).flat_map(|seed| {
        let mut random = Random::new(seed);
        (0..20).map(move |_| format!("{:?}\n", values(&mut random)))
    });
    assert_eq!(digest(drawn), VALUES);
}

const VALUES: u64 = 0xc55d_76c7_774f_30b4;
