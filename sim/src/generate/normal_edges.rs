//! Tables for the program of U7 of document 02: cost entries that it lowers, in one way or another,
//! and such that it leaves; refusals, alone and beside fault 24, which is none of its own.

use super::curves::at_least_pairs;
use super::edges::{base, late};
use crate::table::{encode, Callback, Kind, Table, HEADER_BYTES, MOST_CALLBACKS, RECORD_BYTES};

/// Places in the bytes of a table, and the bytes to be there.
type Changes = Vec<(usize, u8)>;

fn with(bytes: &[u8], changes: &[(usize, u8)]) -> Vec<u8> {
    let mut other = bytes.to_vec();
    for &(at, byte) in changes {
        other[at] = byte;
    }
    other
}

/// The place of a byte of callback `index`.
fn at(index: usize, byte: usize) -> usize {
    HEADER_BYTES + RECORD_BYTES * (index - 1) + byte
}

/// A word in two bytes, the low one first.
fn word(at: usize, value: u16) -> Changes {
    let [low, high] = value.to_le_bytes();
    vec![(at, low), (at + 1, high)]
}

/// Callbacks that stand alone, in full supply, each with one of these lists of entries. Kinds and
/// arrivals differ from one to the next.
fn of_lists(lists: &[Vec<u64>]) -> Table {
    let kinds = [Kind::Service, Kind::Timer, Kind::Client, Kind::Subscription];
    let callback = |(place, entries): (usize, &Vec<u64>)| Callback {
        kind: kinds[place % 4],
        next: 0,
        entries: entries.clone(),
        period: 60_000 - place as u64,
        jitter: 258 * place as u64,
        distance: 513,
    };
    Table {
        callbacks: lists.iter().enumerate().map(callback).collect(),
        ..base(1)
    }
}

/// The contents of the frames, for `sim normalisings`.
pub fn normal_edges() -> Vec<Vec<u8>> {
    let mut contents = single();
    contents.extend(several());
    contents.extend(sixteen());
    contents.extend(unused());
    contents.extend(lengths());
    contents.extend(orders());
    contents
}

/// One callback with each of the lists.
fn single() -> Vec<Vec<u8>> {
    let lists = [at_least_pairs(0), at_least_pairs(1), at_least_pairs(40)].concat();
    let lists = lists.into_iter().chain(steep()).chain(chosen());
    lists.map(|entries| encode(&of_lists(&[entries]))).collect()
}

/// For m from 1 to 8 entries that become multiples of the first: squares, small and up to 57,600,
/// and powers of 2; and entries that are such multiples.
fn steep() -> Vec<Vec<u64>> {
    let mut lists = Vec::new();
    for used in 1..=8 {
        let positions = || 1..=used;
        lists.push(positions().map(|at| at * at).collect());
        lists.push(positions().map(|at| 900 * at * at).collect());
        lists.push(positions().map(|at| 1 << at).collect());
        lists.push(positions().map(|at| 7_500 * at).collect());
    }
    lists
}

/// Others, by how they come out.
fn chosen() -> Vec<Vec<u64>> {
    let lists: [&[u64]; 32] = [
        &[3, 9],
        // The largest, alone and at sums; then above them.
        &[60_000],
        &[59_999, 60_000],
        &[30_000, 60_000],
        &[29_999, 60_000],
        &[1, 60_000],
        &[20_000, 45_000, 60_000],
        &[20_000, 40_000, 60_000],
        &[15_000, 29_999, 45_000, 60_000],
        &[
            59_993, 59_994, 59_995, 59_996, 59_997, 59_998, 59_999, 60_000,
        ],
        &[
            7_499, 14_998, 22_497, 29_996, 37_495, 44_994, 52_493, 60_000,
        ],
        &[1, 2, 3, 4, 5, 6, 7, 60_000],
        &[1, 59_994, 59_995, 59_996, 59_997, 59_998, 59_999, 60_000],
        // An entry that is no more than any two, but becomes less since one of these does.
        &[1, 3, 4],
        &[2, 5, 6, 8],
        &[1, 3, 4, 6, 7, 8, 9, 10],
        // Only one entry changes: the second, a middle one, the last.
        &[5, 12, 13, 14],
        &[9, 10, 11, 25, 26],
        &[9, 10, 11, 12, 13, 14, 15, 26],
        // The whole is the least behind one that is lowered, or at all positions.
        &[10, 25, 26, 27, 28],
        &[10, 11, 12, 13, 14, 15, 16, 17],
        &[4, 7, 11, 14, 18, 21, 25, 28],
        &[8, 15, 21, 26, 30, 33, 35, 36],
        // Three parts: twice the second and the first, or thrice the second.
        &[2, 3, 20, 30, 40, 50],
        &[200, 300, 2_000, 3_000, 4_000, 5_000, 6_000, 7_000],
        // Three parts with the third: 3 + 3 + 1 or 3 + 2 + 2, and 3 + 3 + 2.
        &[5, 6, 7, 50, 60, 70, 80, 90],
        &[700, 1_300, 1_301, 20_000, 30_000, 40_000, 50_000, 60_000],
        // Four parts: twice each of the first two, or four times the second.
        &[10, 11, 100, 200, 300, 400, 500, 600],
        &[255, 256, 10_000, 10_001, 10_002, 10_003, 10_004, 10_005],
        // The fourth twice, or with the others.
        &[30, 40, 50, 55, 200, 300, 400, 500],
        &[30, 59, 80, 81, 500, 600, 700, 800],
        // Low and high bytes change on their own and together.
        &[128, 257, 512, 513],
    ];
    lists.map(<[u64]>::to_vec).to_vec()
}

/// Four callbacks, in both editions and with a delay: fault 24 in each choice of their records.
fn several() -> Vec<Vec<u8>> {
    let lists: [&[u64]; 4] = [
        &[3, 9],
        &[2, 3, 5, 9],
        &[4, 7, 60_000],
        &[1, 2, 3, 4, 5, 6, 7, 9],
    ];
    let mut contents = Vec::new();
    for table in [base(1), base(2), late()] {
        for choice in 0..16 {
            let mut bent = table.clone();
            for (place, list) in lists.iter().enumerate() {
                if choice >> place & 1 == 1 {
                    bent.callbacks[place].entries = list.to_vec();
                }
            }
            contents.push(encode(&bent));
        }
    }
    contents
}

/// As many callbacks as there can be, with fault 24 in none, one, some or all of them.
fn sixteen() -> Vec<Vec<u8>> {
    let right = |place: u64| (1..=1 + place % 8).map(|at| 100 * at + place).collect();
    let wrong = |place: u64| (1..=2 + place % 7).map(|at| 90 * at * at + place).collect();
    let all: Vec<u64> = (0..MOST_CALLBACKS as u64).collect();
    let choices: [&[u64]; 6] = [&[], &[0], &[7], &[15], &[1, 2, 8, 14], &all];
    let mut contents = Vec::new();
    for (choice, edition) in choices.into_iter().zip([1, 2].into_iter().cycle()) {
        let list = |&place: &u64| match choice.contains(&place) {
            true => wrong(place),
            false => right(place),
        };
        let lists: Vec<Vec<u64>> = all.iter().map(list).collect();
        contents.push(encode(&Table {
            edition,
            ..of_lists(&lists)
        }));
    }
    contents
}

/// For each m the entry behind the last, and the eighth, not 0, beside entries with and without fault
/// 24; then each spare byte of a record with it.
fn unused() -> Vec<Vec<u8>> {
    let mut contents = Vec::new();
    for used in 1..=7 {
        let lists = [
            (1..=used).map(|at| 5 * at * at).collect(),
            (1..=used).map(|at| 5 * at).collect::<Vec<u64>>(),
        ];
        for list in lists {
            let bytes = encode(&of_lists(&[vec![2], list]));
            let behind = at(2, 12 + 2 * used as usize);
            contents.push(with(&bytes, &word(behind, 400)));
            contents.push(with(&bytes, &word(at(2, 26), 256)));
        }
    }
    let bytes = encode(&of_lists(&[vec![3, 9], vec![3, 9]]));
    let spare = [3, 10, 11, 16, 28, 29, 30, 31];
    contents.extend(spare.map(|byte| with(&bytes, &[(at(2, byte), 1)])));
    contents
}

/// Bytes cut short or too long, right but for that or with fault 24.
fn lengths() -> Vec<Vec<u8>> {
    let mut contents = Vec::new();
    for list in [vec![3, 9], vec![3, 6]] {
        let mut longer = encode(&of_lists(&[list.clone(), list]));
        longer.extend([0; 33]);
        let lengths = [0, 1, 2, 15, 16, 17, 47, 48, 49, 79, 80, 81, 112, 113];
        contents.extend(lengths.map(|length: usize| longer[..length].to_vec()));
    }
    contents
}

/// Three callbacks that stand alone, a chain from 6 by 5 to 4, and callback 7 alone; 2 and 5 have
/// these entries.
fn seven(second: &[u64], fifth: &[u64]) -> Vec<u8> {
    let mut lists = vec![vec![300, 301]; 7];
    (lists[1], lists[4]) = (second.to_vec(), fifth.to_vec());
    let mut table = of_lists(&lists);
    for callback in &mut table.callbacks {
        callback.kind = Kind::Client;
    }
    for (index, next) in [(5, 4), (6, 5)] {
        table.callbacks[index - 1].next = next;
        let follower = &mut table.callbacks[next - 1];
        (follower.period, follower.jitter, follower.distance) = (0, 0, 0);
    }
    encode(&table)
}

/// A fault of each row of the seven but for the two of the length, in the order in which the reader
/// tests them, 24 among them. Those of links and arrivals have their index in the other order.
fn faults() -> Vec<Changes> {
    let mut looped = vec![(at(3, 1), 3)];
    looped.extend((4..10).map(|byte| (at(3, byte), 0)));
    vec![
        vec![(0, 3)],
        vec![(1, 17)],
        vec![(15, 1)],
        vec![(2, 0)],
        word(8, 60_001),
        word(6, 60_001),
        vec![(at(1, 0), 0)],
        vec![(at(1, 1), 8)],
        vec![(at(1, 2), 9)],
        word(at(1, 14), 601),
        vec![(at(1, 28), 1)],
        vec![(at(7, 1), 5)],
        vec![(at(4, 0), 1)],
        looped,
        word(at(1, 8), 0),
    ]
}

/// The seven as they are, right and with fault 24 in records 2 and 5; both with each fault; the latter
/// with any two at once, and with each of record 3, behind fault 24 of record 2 but before that of
/// record 5.
fn orders() -> Vec<Vec<u8>> {
    let faults = faults();
    let right = seven(&[3, 6], &[1, 2, 3]);
    let bytes = seven(&[3, 9], &[1, 3, 4]);
    let mut contents = vec![right.clone(), bytes.clone()];
    contents.extend(faults.iter().map(|fault| with(&right, fault)));
    for (place, first) in faults.iter().enumerate() {
        let one = with(&bytes, first);
        let later = &faults[place + 1..];
        contents.push(one.clone());
        contents.extend(later.iter().map(|second| with(&one, second)));
    }
    let of_third = [(0, 0), (1, 8), (2, 0), (3, 1), (13, 255), (18, 1), (31, 1)];
    contents.extend(of_third.map(|(byte, value)| with(&bytes, &[(at(3, byte), value)])));
    contents
}
