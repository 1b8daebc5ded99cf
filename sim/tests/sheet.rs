//! The analyser: literal and faster searches, refusals 15 to 17. The bounds of U5 have tests of
//! their own; what is said of the first bound here is document 01's.

mod common;
use common::*;
use sim::generate::tables::{any_shape, table, Shape};
use sim::random::Random;
use sim::sheet::{
    analyse, arrivals, bounds, cost, delayed_supply, first_bound_literal, first_bounds, supply,
    window, window_literal,
};
use sim::table::{encode, Kind, Table};
use std::iter::repeat;

/// E(a(D)) of one callback.
fn demand(table: &Table, index: usize, length: u64) -> u64 {
    let head = table.callback(table.head_of(index));
    cost(&table.callback(index).entries, arrivals(head, length))
}

/// F(A) of document 01, 'The sheet', for A = `offset`, with no end to the search.
fn finish(table: &Table, index: usize, offset: u64) -> u64 {
    let needed = |length| -> u64 {
        let others = (1..=table.count()).filter(|&other| other != index);
        others.map(|other| demand(table, other, length)).sum()
    };
    let own = demand(table, index, offset + 1);
    let mut lengths = 1..;
    let covered = |&length: &u64| delayed_supply(table, length) >= own + needed(length);
    lengths.find(covered).expect("a length")
}

#[test]
fn faster_searches_agree_with_the_literal_ones() {
    let mut random = Random::new(3);
    let (mut compared, mut late) = (0, 0);
    while compared < 400 {
        let mut table = table(&mut random, Shape::Small);
        table.horizon = random.range(1, 120);
        table.delay = *random.pick(&[0, 1, 5, 20, 60]);
        assert_eq!(window(&table), window_literal(&table));
        if let Some(window) = window(&table) {
            let literal: Vec<u64> = (1..=table.count())
                .map(|index| first_bound_literal(&table, index, window))
                .collect();
            assert_eq!(first_bounds(&table, window), literal);
            compared += 1;
            late += u64::from(table.delay > 0);
        }
    }
    assert!(late > 100);
}

/// Document 01, 'The sheet': every F(A) is a length in 1 to W.
#[test]
fn finish_does_not_fall_and_stays_within_the_window() {
    let mut random = Random::new(4);
    for _ in 0..200 {
        let mut table = table(&mut random, Shape::Small);
        table.horizon = 100;
        table.delay = random.range(0, 20);
        let Some(window) = window(&table) else {
            continue;
        };
        for index in 1..=table.count() {
            let times: Vec<u64> = (0..window).map(|a| finish(&table, index, a)).collect();
            assert!(times.windows(2).all(|pair| pair[0] <= pair[1]));
            assert!(times.iter().all(|&time| 1 <= time && time <= window));
            let longest = (0..window).zip(&times).map(|(a, &time)| time - a).max();
            assert_eq!(longest, Some(first_bound_literal(&table, index, window)));
        }
    }
}

/// U1: the inequalities are one and the same, so window, first bounds and refusals are. With U5 the
/// row differs, but for timers alone.
#[test]
fn same_sheet_in_both_editions() {
    let mut random = Random::new(27);
    let mut accepted = 0;
    for _ in 0..600 {
        let shape = any_shape(&mut random);
        let mut table = table(&mut random, shape);
        table.horizon = random.range(1, 4_000);
        let [first, second] = [1, 2].map(|edition| sheet(&in_edition(edition, &table)));
        assert_eq!(first.as_ref().err(), second.as_ref().err());
        let (Ok((window, row)), Ok((other, present))) = (first, second) else {
            continue;
        };
        assert_eq!((window, &present), (other, &first_bounds(&table, window)));
        for (callback, (bound, present)) in table.callbacks.iter().zip(row.iter().zip(&present)) {
            assert!(bound == present || callback.kind == Kind::Timer && bound < present);
        }
        accepted += 1;
    }
    assert!(accepted > 200);
}

/// U2, supply: s at D - Z, 0 below Z; without a delay it is s.
#[test]
fn supply_is_late_by_the_delay() {
    let at = |delay, budget, period, length| {
        delayed_supply(&delayed(delay, &supplied(budget, period, vec![])), length)
    };
    for (budget, period) in [
        (1, 1),
        (5, 5),
        (1, 2),
        (2, 5),
        (4, 5),
        (1, 9),
        (59_000, 60_000),
    ] {
        for delay in [0, 1, 2, 7, 30, 59_999, 60_000] {
            for length in (0..60).chain([60_000, 119_999, 200_000]) {
                let present = supply(budget, period, length);
                assert_eq!(at(delay, budget, period, length + delay), present);
            }
            for length in [0, delay / 2, delay.max(1) - 1] {
                assert_eq!(at(delay, budget, period, length), 0);
            }
        }
    }
    // P1 with Z = 3.
    let late = [2, 3, 9, 10, 11, 14, 15, 20, 21].map(|length| at(3, 2, 5, length));
    assert_eq!(late, [0, 0, 0, 1, 2, 2, 3, 5, 6]);
    // Full supply: all but Z ticks, at once and for ever.
    assert_eq!(
        [3, 4, 5, 6, 1_000].map(|length| at(4, 1, 1, length)),
        [0, 0, 1, 2, 996]
    );
}

/// The ticks of a worst window, without the formula: Z lost ones, the rest of a period that gave
/// its Q ticks first, then periods that give theirs last. Counted, they are the delayed supply.
fn worst_ticks(table: &Table) -> impl Iterator<Item = bool> {
    let times = |supplied: bool, ticks: u64| repeat(supplied).take(ticks as usize);
    let gap = times(false, table.period - table.budget);
    let period = gap.clone().chain(times(true, table.budget));
    times(false, table.delay).chain(gap).chain(period.cycle())
}

/// U3: results worked out in too few bits would differ. At Q = 1, P = 60,000 the formula has
/// 2 × (P - Q) = 119,998, and 179,998 with k × P; at Q = P = 1 k, its products and the result
/// reach D. A delay above D that lost its upper bits would let supply through.
#[test]
fn supply_at_the_largest_numbers() {
    let pairs = [1, 2, 29_999, 30_000, 30_001, 59_999, 60_000].map(|budget| (budget, 60_000));
    let others = [
        (1, 1),
        (1, 2),
        (1, 59_999),
        // 2 × (P - Q) just fits 16 bits, and just does not.
        (1, 32_768),
        (1, 32_769),
        // P1's numbers.
        (2, 5),
    ];
    let delays = [0, 1, 59_999, 60_000, 65_536, 119_999, 120_000, 120_001];
    let beyond = [1 << 31, u32::MAX.into()];
    for (budget, period) in pairs.into_iter().chain(others) {
        for delay in delays.into_iter().chain(beyond) {
            let table = delayed(delay, &supplied(budget, period, vec![]));
            let mut counted = 0;
            for (length, given) in (0..=120_010).zip(worst_ticks(&table)) {
                let place = (budget, period, delay, length);
                assert_eq!(delayed_supply(&table, length), counted, "{place:?}");
                counted += u64::from(given);
            }
        }
    }
}

/// The paper's cases with a delay, reckoned by hand.
#[test]
fn cases_with_a_delay() {
    let late = |delay, table: &Table| sheet(&delayed(delay, table));
    let burst = |entries: &[u64]| full(vec![lone(Kind::Subscription, 10, 15, 2, entries)]);
    // P4: the window ends before a fourth arrival at 16, or runs over it and needs four more ticks.
    assert_eq!(late(3, &burst(&[4])), Ok((15, vec![10])));
    assert_eq!(late(4, &burst(&[4])), Ok((20, vec![11])));
    // P5: E(3) = 10.
    assert_eq!(late(5, &burst(&[4, 6])), Ok((15, vec![10])));
    assert_eq!(late(6, &burst(&[4, 6])), Ok((18, vec![11])));
    // P6: both once, until the timer's second beat is in the window.
    let pair = full(vec![timer(10, &[2]), subscription(20, &[3])]);
    let second = in_edition(2, &pair);
    assert_eq!(late(5, &second), Ok((10, vec![10, 10])));
    assert_eq!(late(6, &second), Ok((13, vec![11, 13])));
    // U5: the own window of the timer, for 2 + 2, still ends before its second beat.
    assert_eq!(late(5, &pair), Ok((10, vec![9, 10])));
    assert_eq!(late(6, &pair), Ok((13, vec![10, 13])));
    // P7: s(17) = 5, and s(13) = 4.
    let partial = supplied(2, 5, vec![timer(50, &[2]), subscription(100, &[3])]);
    assert_eq!(late(4, &in_edition(2, &partial)), Ok((21, vec![21, 21])));
    assert_eq!(late(4, &partial), Ok((21, vec![17, 21])));
    // P8: at exact load a delay is never made good.
    let exact = full(vec![subscription(2, &[2])]);
    assert_eq!(late(1, &exact), Err(refusal(15, 0)));
    // P9: the 256th arrival comes with a window above 600.
    let crowd = full(vec![lone(Kind::Subscription, 200, 50_400, 1, &[2])]);
    assert_eq!(late(90, &crowd).map(|(window, _)| window), Ok(600));
    assert_eq!(late(91, &crowd), Err(refusal(16, 1)));
}

/// A window must lie within the horizon, so the largest delays leave none.
#[test]
fn largest_delays() {
    let table = |delay, horizon| Table {
        horizon,
        ..delayed(delay, &full(vec![subscription(60_000, &[1])]))
    };
    assert_eq!(sheet(&table(59_999, 0)), Ok((60_000, vec![60_000])));
    assert_eq!(sheet(&table(60_000, 0)), Err(refusal(15, 0)));
    assert_eq!(sheet(&table(7, 8)), Ok((8, vec![8])));
    assert_eq!(sheet(&table(8, 8)), Err(refusal(15, 0)));
}

/// Where lengths D serve with the delay, lengths D - Z serve without: window and bounds grow by the
/// delay at least.
#[test]
fn delay_adds_itself_at_least() {
    let mut random = Random::new(40);
    let (mut same, mut more) = (0, 0);
    for _ in 0..600 {
        let mut table = table(&mut random, Shape::Small);
        (table.horizon, table.delay) = (random.range(20, 600), random.range(1, 60));
        let Some(late) = window(&table) else {
            continue;
        };
        let without = delayed(0, &table);
        let present = window(&without).expect("a window without the delay too");
        assert!(late >= present + table.delay);
        let pairs = bounds(&table, late)
            .into_iter()
            .zip(bounds(&without, present));
        assert!(pairs
            .clone()
            .all(|(late, bound)| late >= bound + table.delay));
        same += u64::from(late == present + table.delay);
        more += u64::from(late > present + table.delay);
    }
    assert!(same > 20 && more > 100, "{same} {more}");
}

#[test]
fn refusal_17_comes_first() {
    let bytes = encode(&chain());
    for length in [0, 3, 15] {
        assert_eq!(analyse(&[], &mut vec![0; length]), Err(refusal(17, 0)));
        assert_eq!(analyse(&bytes, &mut vec![0; length]), Err(refusal(17, 0)));
    }
    assert_eq!(analyse(&[], &mut [0; 16]), Err(refusal(1, 0)));
    assert_eq!(analyse(&bytes, &mut [0; 16]), Ok(6));
}

#[test]
fn horizon_is_included() {
    let mut table = full(vec![timer(10, &[2]), subscription(20, &[3])]);
    for (horizon, outcome) in [(4, Err(refusal(15, 0))), (5, Ok(5)), (6, Ok(5))] {
        table.horizon = horizon;
        assert_eq!(sheet(&table).map(|(window, _)| window), outcome);
    }
}

#[test]
fn horizon_0_means_60_000() {
    let mut table = full(vec![subscription(60_000, &[60_000])]);
    assert_eq!(sheet(&table), Ok((60_000, vec![60_000])));
    table.horizon = 59_999;
    assert_eq!(sheet(&table), Err(refusal(15, 0)));
    table.horizon = 0;
    table.callbacks.push(subscription(60_000, &[1]));
    assert_eq!(sheet(&table), Err(refusal(15, 0)));
}

#[test]
fn refusal_16_names_the_lowest_head() {
    let crowd = lone(Kind::Client, 200, 50_600, 1, &[1]);
    let table = full(vec![subscription(60_000, &[1]), crowd.clone(), crowd]);
    assert_eq!(sheet(&table), Err(refusal(16, 2)));
}

#[test]
fn sums_need_64_bits() {
    let dense = lone(Kind::Timer, 1, 60_000, 1, &[60_000]);
    let table = full(vec![dense; 16]);
    let all: u64 = (1..=16).map(|index| demand(&table, index, 60_000)).sum();
    assert_eq!(all, 57_600_000_000);
    assert_eq!(sheet(&table), Err(refusal(15, 0)));
    assert_eq!(supply(60_000, 60_000, 60_000), 60_000);
    assert_eq!(supply(1, 60_000, 119_998), 0);
    assert_eq!(supply(1, 60_000, 119_999), 1);
}

/// Document 01, 'The sheet': followers have the head's arrivals, and bounds from its activation. The
/// timer waits for 2 ticks of the client at most (U5).
#[test]
fn chain_is_measured_from_its_head() {
    assert_eq!(sheet(&in_edition(2, &chain())), Ok((6, vec![6, 6, 6])));
    assert_eq!(sheet(&chain()), Ok((6, vec![3, 6, 6])));
}

#[test]
fn window_of_60_000_in_partial_supply() {
    let table = supplied(40_000, 45_000, vec![subscription(60_000, &[45_000])]);
    assert_eq!(sheet(&table), Ok((60_000, vec![60_000])));
}
