//! Tables that are right but for fault 24 in some records: such as could be stored before U7 of
//! document 02.

use super::tables::{any_shape, table, table_before_24, Shape};
use crate::random::Random;
use crate::table::{Callback, Table, LARGEST};

/// A table as it could be before U7, without fault 24 or with it, in one, some or all of its records.
pub fn old_table(random: &mut Random, shape: Shape) -> Table {
    let mut table = table_before_24(random, shape);
    if random.chance(50) {
        bend_some(random, &mut table);
    }
    table
}

/// The same of any sort.
pub fn any_old_table(random: &mut Random) -> Table {
    let shape = any_shape(random);
    old_table(random, shape)
}

/// What `table` gives, but with fault 24 in a quarter of the draws, which takes no number where it
/// does not.
pub fn sound_or_bent(random: &mut Random, shape: Shape) -> Table {
    let mut table = table(random, shape);
    if random.aside().chance(25) {
        bend_some(random, &mut table);
    }
    table
}

/// Puts fault 24 into one record, into each with a chance of a half, or into all; into one at least.
pub fn bend_some(random: &mut Random, table: &mut Table) {
    let certain = random.range(0, table.count() as u64 - 1) as usize;
    let others = *random.pick(&[0, 0, 50, 100]);
    for (place, callback) in table.callbacks.iter_mut().enumerate() {
        if place == certain || random.chance(others) {
            bend(random, callback);
        }
    }
}

/// For each position from 2 on, and each two positions that make it up: the entries before it, without
/// fault 24, of which just these two have the least sum. (the positions are told as the smaller of
/// the two and the position itself)
pub const LEAST_PAIRS: [(usize, usize, &[u64]); 16] = [
    (1, 2, &[1]),
    (1, 3, &[1, 2]),
    (1, 4, &[2, 4, 5]),
    (2, 4, &[2, 3, 5]),
    (1, 5, &[2, 4, 5, 6]),
    (2, 5, &[2, 3, 4, 6]),
    (1, 6, &[2, 4, 5, 6, 7]),
    (2, 6, &[2, 3, 5, 6, 8]),
    (3, 6, &[2, 3, 4, 6, 7]),
    (1, 7, &[2, 4, 5, 6, 7, 8]),
    (2, 7, &[2, 3, 5, 6, 7, 9]),
    (3, 7, &[2, 3, 4, 5, 7, 8]),
    (1, 8, &[2, 4, 5, 6, 7, 8, 9]),
    (2, 8, &[2, 3, 5, 6, 7, 8, 10]),
    (3, 8, &[3, 4, 5, 7, 8, 10, 11]),
    (4, 8, &[2, 3, 4, 5, 7, 8, 9]),
];

/// Each of these lists with the entry at the position itself: the least sum, which it may have, plus
/// `more`. Half of them are so large that entries need both their bytes.
pub fn at_least_pairs(more: u64) -> Vec<Vec<u64>> {
    let lists = LEAST_PAIRS.iter().enumerate();
    let list = |(place, &(first, position, before)): (usize, &(usize, usize, &[u64]))| {
        let times = if place % 2 == 0 { 1 } else { 300 };
        let sum = before[first - 1] + before[position - first - 1];
        let mut entries: Vec<u64> = before.iter().map(|entry| entry * times).collect();
        entries.push(sum * times + more);
        entries
    };
    lists.map(list).collect()
}

/// Entries near the ends of their range, each list with fault 24: by little or by much, at the last
/// position or before it.
const AT_THE_ENDS: [&[u64]; 6] = [
    &[1, 60_000],
    &[29_999, 59_999],
    &[1, 3, 59_999, 60_000],
    &[19_999, 39_998, 59_998],
    &[1, 2, 3, 4, 5, 6, 7, 60_000],
    &[
        7_499, 14_998, 22_497, 29_996, 37_495, 44_994, 52_493, 60_000,
    ],
];

/// Lifts an entry above the least sum of two, by 1 or by more, and with it all behind it, so that
/// they go on rising. A lone entry gets a second. Where that comes to more than 60,000, other
/// entries take their place.
fn bend(random: &mut Random, callback: &mut Callback) {
    let mut bent = callback.entries.clone();
    if bent.len() == 1 {
        bent.push(0);
    }
    let place = random.range(1, bent.len() as u64 - 1) as usize;
    let two = (0..place).map(|first| bent[first] + bent[place - 1 - first]);
    let least = two.min().expect("an entry before this one");
    let more = *random.pick(&[1, 1, bent[0], 3 * bent[0]]);
    let lift = (least + more).saturating_sub(bent[place]);
    bent[place..].iter_mut().for_each(|entry| *entry += lift);
    callback.entries = if bent[bent.len() - 1] <= LARGEST {
        bent
    } else {
        random.pick(&AT_THE_ENDS).to_vec()
    };
}
