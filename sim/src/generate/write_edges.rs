//! Values with one number at the ends of its range and a step beyond, with two faults at once, with
//! numbers missing or too many, and buffers around the table's length.

use super::curves::at_least_pairs;
use super::edges::{base, late, linked};
use super::values::{header, number_at, record, table_length};
use crate::frames::packed_writing;
use crate::table::{encode, Kind, Table, MOST_CALLBACKS};
use crate::write::{values_at, Values, NUMBERS_PER_RECORD};

/// The buffer's length and the values.
type Case = (usize, Values);

/// Places in the values, and the numbers to be there.
type Changes = Vec<(usize, u16)>;

/// The place of a number of callback `index`.
fn at(index: usize, number: usize) -> usize {
    header::NUMBERS + NUMBERS_PER_RECORD * (index - 1) + number
}

fn with(values: &Values, changes: &[(usize, u16)]) -> Values {
    let mut other = values.clone();
    for &(place, number) in changes {
        *number_at(&mut other, place) = number;
    }
    other
}

/// A buffer two bytes longer than the table, and of 82 bytes where n is wrong.
fn roomy(values: Values) -> Case {
    (table_length(&values).unwrap_or(80) + 2, values)
}

/// These records behind a header that is right. Most of its numbers of two bytes need both.
fn of_records(edition: u16, records: &[[u16; NUMBERS_PER_RECORD]]) -> Values {
    Values {
        edition,
        count: records.len() as u16,
        budget: 300,
        period: 500,
        horizon: 4_000,
        delay: 700,
        records: records.concat(),
    }
}

/// A callback that stands alone, with 1 to 8 entries.
fn head(kind: u16, entries: &[u16]) -> [u16; NUMBERS_PER_RECORD] {
    let mut numbers = [0; NUMBERS_PER_RECORD];
    let used = entries.len();
    numbers[..record::ENTRIES].copy_from_slice(&[kind, 0, used as u16, 1_000, 600, 400]);
    numbers[record::ENTRIES..][..used].copy_from_slice(entries);
    numbers
}

/// Service 1 alone, with all eight entries.
fn single() -> Values {
    of_records(1, &[head(3, &[1, 2, 3, 4, 5, 6, 7, 8])])
}

/// Timer 1 and client 2, each alone.
fn pair() -> Values {
    of_records(2, &[head(1, &[513]), head(4, &[4, 7, 9])])
}

fn sixteen() -> Values {
    of_records(2, &[head(2, &[300, 301]); MOST_CALLBACKS])
}

fn of_table(table: &Table) -> Values {
    values_at(&encode(table))
}

/// The contents of the frames, for `sim writings`.
pub fn write_edges() -> Vec<Vec<u8>> {
    // The table of edition 1 is among the buffers.
    let tables = [base(2), late()];
    let mut cases: Vec<Case> = tables.map(|table| roomy(of_table(&table))).to_vec();
    cases.extend(header_ends().into_iter().map(roomy));
    cases.extend(record_ends().into_iter().map(roomy));
    cases.extend(entry_ends().into_iter().map(roomy));
    cases.extend(curves().into_iter().map(roomy));
    cases.extend(first_record().into_iter().map(roomy));
    cases.extend(links().into_iter().map(roomy));
    cases.extend(most_callbacks().into_iter().map(roomy));
    cases.extend(missing().into_iter().map(roomy));
    cases.extend(past_the_last().into_iter().map(roomy));
    cases.extend(buffers());
    cases.extend(orders());
    let packed = |(room, values): &Case| packed_writing(*room as u16, values);
    let mut contents: Vec<Vec<u8>> = cases.iter().map(packed).collect();
    contents.extend(cut_frames());
    contents
}

/// The values with each of these numbers in turn at its place.
fn each(values: &Values, places: &[(usize, &[u16])]) -> Vec<Values> {
    let one = |place: usize, &number: &u16| with(values, &[(place, number)]);
    places
        .iter()
        .flat_map(|&(place, numbers)| numbers.iter().map(move |number| one(place, number)))
        .collect()
}

/// Edition and n wider than a byte too, with a right low byte.
fn header_ends() -> Vec<Values> {
    let mut ends = each(
        &pair(),
        &[
            (header::EDITION, &[0, 1, 3, 255, 256, 257, 258, 513, 65_535]),
            (
                header::COUNT,
                &[0, 1, 3, 16, 17, 255, 256, 258, 514, 65_535],
            ),
            (header::BUDGET, &[0, 1, 499, 500, 501, 65_535]),
            (header::PERIOD, &[0, 299, 300, 60_000, 60_001, 65_535]),
            (header::HORIZON, &[0, 1, 60_000, 60_001, 65_535]),
            (header::DELAY, &[0, 1, 60_000, 60_001, 65_535]),
        ],
    );
    let supplies = [
        (0, 0),
        (1, 1),
        (256, 255),
        (60_000, 60_000),
        (60_001, 60_001),
    ];
    let supply = |(budget, period)| [(header::BUDGET, budget), (header::PERIOD, period)];
    ends.extend(supplies.map(|numbers| with(&pair(), &supply(numbers))));
    ends
}

/// Kind, next, m, T, J and d of callback 2, the first three wider than a byte too.
fn record_ends() -> Vec<Values> {
    let mut ends = each(
        &pair(),
        &[
            (
                at(2, record::KIND),
                &[0, 1, 2, 3, 5, 255, 256, 260, 516, 65_535],
            ),
            (at(2, record::NEXT), &[1, 2, 3, 255, 256, 258, 512, 65_535]),
            (
                at(2, record::USED),
                &[0, 1, 2, 4, 8, 9, 255, 256, 259, 515, 65_535],
            ),
            (at(2, record::PERIOD), &[0, 399, 400, 60_000, 60_001]),
            (at(2, record::JITTER), &[0, 60_000, 60_001, 65_535]),
            (at(2, record::DISTANCE), &[0, 1, 1_000, 1_001, 65_535]),
        ],
    );
    let same = |number| {
        [
            (at(2, record::PERIOD), number),
            (at(2, record::DISTANCE), number),
        ]
    };
    ends.extend([1, 60_000, 60_001].map(|number| with(&pair(), &same(number))));
    ends
}

/// The entries of callback 2, then those of a record that has all eight.
fn entry_ends() -> Vec<Values> {
    let entry = |index: usize, number: usize| at(index, record::ENTRIES + number - 1);
    let mut ends = each(
        &pair(),
        &[
            (entry(2, 1), &[0, 1, 6, 7, 60_001]),
            (entry(2, 2), &[0, 4, 5, 8, 9]),
            (entry(2, 3), &[7, 8, 60_000, 60_001, 65_535]),
            (entry(2, 4), &[1, 10]),
            (entry(2, 6), &[256]),
            (entry(2, 8), &[1, 65_535]),
        ],
    );
    ends.extend(each(
        &single(),
        &[
            (at(1, record::USED), &[1, 7, 9, 264]),
            (entry(1, 1), &[0]),
            (entry(1, 5), &[4, 6]),
            (entry(1, 8), &[7, 60_000, 60_001]),
        ],
    ));
    let largest: Changes = (1..=8).map(|i| (entry(1, i), 59_992 + i as u16)).collect();
    ends.push(with(&single(), &largest));
    ends
}

/// U7: client 2 with the entry at each position at the least sum of two, for each two positions, and
/// one above it; the largest entry at such a sum; and faults before the last entry.
fn curves() -> Vec<Values> {
    let mut lists = at_least_pairs(0);
    lists.extend(at_least_pairs(1));
    lists.extend([vec![3, 9], vec![30_000, 60_000], vec![29_999, 59_999]]);
    lists.extend([vec![1, 3, 4], vec![4, 7, 11, 15, 16, 17, 18, 19]]);
    let of_list = |list: &Vec<u64>| {
        let entries: Vec<u16> = list.iter().map(|&entry| entry as u16).collect();
        of_records(1, &[head(1, &[513]), head(4, &entries)])
    };
    lists.iter().map(of_list).collect()
}

/// Callback 1 with a second behind it that is right.
fn first_record() -> Vec<Values> {
    each(
        &pair(),
        &[
            (at(1, record::KIND), &[0, 257, 65_535]),
            (at(1, record::NEXT), &[1, 2, 3, 256]),
            (at(1, record::USED), &[0, 257]),
            (at(1, record::DISTANCE), &[0]),
            (at(1, record::ENTRIES + 1), &[1, 514]),
        ],
    )
}

/// T, J and d of callback `index` as a follower has them.
fn following(index: usize) -> Changes {
    let arrivals = [record::PERIOD, record::JITTER, record::DISTANCE];
    arrivals.map(|number| (at(index, number), 0)).to_vec()
}

/// A follower with and without arrivals of its own; chains, loops and callbacks named twice.
fn links() -> Vec<Values> {
    let chain = with(&with(&pair(), &following(2)), &[(at(1, record::NEXT), 2)]);
    let mut all = vec![chain.clone()];
    let arrivals = [record::PERIOD, record::JITTER, record::DISTANCE];
    all.extend(arrivals.map(|number| with(&chain, &[(at(2, number), 1)])));
    let nexts: [&[usize]; 7] = [
        &[1],
        &[2, 1],
        &[0, 3, 2],
        &[2, 3, 2],
        &[3, 3, 0],
        &[4, 3, 4, 3],
        &[0, 1, 2],
    ];
    for next in nexts {
        for kind in [Kind::Timer, Kind::Service] {
            all.push(values_at(&linked(kind, next)));
        }
    }
    all
}

/// Sixteen callbacks, right and with a fault in the last; one chain of them, and a ring.
fn most_callbacks() -> Vec<Values> {
    let last = MOST_CALLBACKS;
    let mut all = each(
        &sixteen(),
        &[
            (at(last, record::KIND), &[0, 258]),
            (at(last, record::NEXT), &[16, 17, 255, 272]),
            (at(last, record::ENTRIES + 7), &[1]),
            (at(last, record::DISTANCE), &[0]),
            (header::COUNT, &[272]),
        ],
    );
    let chain: Vec<usize> = (2..=last).chain([0]).collect();
    let ring: Vec<usize> = (2..=last).chain([1]).collect();
    all.extend([chain, ring].map(|next| values_at(&linked(Kind::Client, &next))));
    let mut beyond = sixteen();
    beyond.records.extend(head(2, &[300]));
    beyond.count = 17;
    all.push(beyond);
    all
}

/// Lists that end within a record or before it.
fn missing() -> Vec<Values> {
    let lengths = [0, 1, 2, 3, 7, 13, 14, 15, 17, 20, 22, 23, 24, 27];
    let cut = |values: Values, length| Values {
        records: values.records[..length].to_vec(),
        ..values
    };
    let mut all = lengths.map(|length| cut(pair(), length)).to_vec();
    all.push(cut(sixteen(), NUMBERS_PER_RECORD * (MOST_CALLBACKS - 1)));
    all
}

/// Numbers behind record n, right ones and others; none of them says anything.
fn past_the_last() -> Vec<Values> {
    let followed = |values: Values, numbers: &[u16]| Values {
        records: [&values.records, numbers].concat(),
        ..values
    };
    let naming = with(&pair(), &[(at(2, record::NEXT), 1)]);
    let wrong = with(&pair(), &[(at(2, record::KIND), 0)]);
    let before = with(&pair(), &[(at(1, record::NEXT), 2)]);
    let first = |values: Values| with(&values, &[(header::COUNT, 1)]);
    vec![
        followed(single(), &[65_535]),
        followed(single(), &head(3, &[1])),
        followed(single(), &[0; NUMBERS_PER_RECORD]),
        followed(single(), &[65_535; NUMBERS_PER_RECORD * 16]),
        followed(pair(), &[1, 2]),
        first(naming),
        first(wrong),
        first(before),
        followed(sixteen(), &[65_535; NUMBERS_PER_RECORD]),
    ]
}

/// Buffers of each length around the table's, and others that are far too short or long enough.
fn buffers() -> Vec<Case> {
    let mut cases = Vec::new();
    for (values, others) in [
        (single(), &[0, 15, 16, 17, 80][..]),
        (pair(), &[48, 112]),
        (of_table(&base(1)), &[112]),
        (sixteen(), &[700]),
    ] {
        let length = table_length(&values).expect("a right n");
        let rooms = (length - 3..=length + 3).chain(others.iter().copied());
        cases.extend(rooms.map(|room| (room, values.clone())));
    }
    cases
}

/// Three callbacks that stand alone, a chain from 6 by 5 to 4, and callback 7 alone.
fn seven() -> Values {
    let mut values = of_records(1, &[head(2, &[300, 301]); 7]);
    for (index, next) in [(5, 4), (6, 5)] {
        *number_at(&mut values, at(index, record::NEXT)) = next;
        values = with(&values, &following(usize::from(next)));
    }
    values
}

/// Faults 8, 9, 10, 24 and 5 of this record of the seven.
fn record_faults(index: usize) -> Vec<Changes> {
    vec![
        vec![(at(index, record::KIND), 0)],
        vec![(at(index, record::NEXT), 8)],
        vec![(at(index, record::ENTRIES), 60_001)],
        vec![(at(index, record::ENTRIES + 1), 601)],
        vec![(at(index, record::ENTRIES + 7), 1)],
    ]
}

/// A fault of each row of the seven but for the buffer's, in the order in which rows are tested.
/// Those of links and arrivals have their index in the other order.
fn faults() -> Vec<Changes> {
    let mut faults = vec![
        vec![(header::EDITION, 3)],
        vec![(header::COUNT, 17)],
        vec![(header::BUDGET, 501)],
        vec![(header::DELAY, 60_001)],
        vec![(header::HORIZON, 60_001)],
    ];
    faults.extend(record_faults(1));
    faults.push(vec![(at(7, record::NEXT), 5)]);
    faults.push(vec![(at(4, record::KIND), 1)]);
    let mut looped = following(3);
    looped.push((at(3, record::NEXT), 3));
    faults.push(looped);
    faults.push(vec![(at(1, record::DISTANCE), 0)]);
    faults
}

/// Any two faults at once, the buffer's among them; and any of record 1 with any of record 2.
fn orders() -> Vec<Case> {
    let (values, faults) = (seven(), faults());
    let room = table_length(&values).expect("a right n");
    let both = |first: &Changes, second: &Changes| (room, with(&with(&values, first), second));
    let mut cases = vec![(room, values.clone())];
    for (place, first) in faults.iter().enumerate() {
        let later = &faults[place + 1..];
        cases.extend(later.iter().map(|second| both(first, second)));
        cases.push((room - 1, with(&values, first)));
    }
    for first in record_faults(1) {
        let later = record_faults(2);
        cases.extend(later.iter().map(|second| both(&first, second)));
    }
    // Kind and next go before m, as before the entries, and m goes before the sums of two.
    let without_entries = vec![(at(1, record::USED), 0)];
    let others = &record_faults(1);
    let others = [&others[0], &others[1], &others[3]];
    cases.extend(others.map(|other| both(other, &without_entries)));
    // An entry beyond m is no entry: 5, and not 24.
    let one_entry = vec![(at(1, record::USED), 1)];
    cases.push(both(&one_entry, &record_faults(1)[3]));
    cases
}

/// Frames that end within the header, and frames with an odd last byte.
fn cut_frames() -> Vec<Vec<u8>> {
    let whole = packed_writing(82, &pair());
    let lengths = [0, 1, 2, 3, 4, 6, 8, 10, 12, 13, whole.len() - 1];
    let mut frames: Vec<Vec<u8>> = lengths
        .map(|length: usize| whole[..length].to_vec())
        .to_vec();
    frames.push([&whole[..], &[255]].concat());
    frames
}
