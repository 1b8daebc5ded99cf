//! The cases reckoned by hand, P1 to P10, the timers of P6 and P7 as U5 has them.

mod common;
use common::*;
use sim::history::play;
use sim::machine::Answer::{Finished, Idle, Ran};
use sim::sheet::{arrivals, cost, supply};
use sim::table::{encode, Callback, Kind, Table};

fn p2(entries: &[u64]) -> Callback {
    lone(Kind::Subscription, 10, 15, 2, entries)
}

fn p6() -> Table {
    full(vec![timer(10, &[2]), subscription(20, &[3])])
}

#[test]
fn p1_supply() {
    let at = [6, 7, 8, 11, 12, 17, 18].map(|length| supply(2, 5, length));
    assert_eq!(at, [0, 1, 2, 2, 3, 5, 6]);
}

#[test]
fn p2_arrivals() {
    let at = [0, 1, 2, 3, 5, 6, 12].map(|length| arrivals(&p2(&[4]), length));
    assert_eq!(at, [0, 1, 1, 2, 2, 3, 3]);
}

#[test]
fn p3_cost() {
    assert_eq!(cost(&[4, 6], 3), 10);
}

#[test]
fn p4_burst() {
    assert_eq!(sheet(&full(vec![p2(&[4])])), Ok((12, vec![7])));
}

#[test]
fn p5_burst_of_falling_costs() {
    assert_eq!(sheet(&full(vec![p2(&[4, 6])])), Ok((10, vec![5])));
}

#[test]
fn p6_pair() {
    assert_eq!(sheet(&in_edition(2, &p6())), Ok((5, vec![5, 5])));
    assert_eq!(sheet(&p6()), Ok((5, vec![4, 5])));
}

#[test]
fn p7_pair_in_partial_supply() {
    let table = supplied(2, 5, vec![timer(50, &[2]), subscription(100, &[3])]);
    assert_eq!(sheet(&in_edition(2, &table)), Ok((17, vec![17, 17])));
    assert_eq!(sheet(&table), Ok((17, vec![13, 17])));
}

#[test]
fn p8_exact_load() {
    let callbacks = vec![subscription(2, &[2])];
    assert_eq!(sheet(&full(callbacks.clone())), Ok((2, vec![2])));
    assert_eq!(sheet(&supplied(1, 2, callbacks)), Err(refusal(15, 0)));
}

#[test]
fn p9_crowding() {
    let crowd = |jitter| full(vec![lone(Kind::Subscription, 200, jitter, 1, &[2])]);
    assert_eq!(sheet(&crowd(50_400)).map(|(window, _)| window), Ok(510));
    assert_eq!(arrivals(crowd(50_400).callback(1), 510), 255);
    assert_eq!(sheet(&crowd(50_600)), Err(refusal(16, 1)));
}

#[test]
fn p10_polling_points() {
    let table = full(vec![subscription(10, &[2]); 3]);
    let masks = [6, 1, 0, 0, 0, 0, 0];
    let history = play(&encode(&table), &masks.map(|mask| tick(mask, 2)));
    let outcomes: Vec<_> = history.replies.iter().map(|reply| reply.outcome).collect();
    let mut expected = Vec::new();
    for callback in [2, 3, 1] {
        expected.push(Ok(Ran {
            callback,
            instance: 1,
        }));
        expected.push(Ok(Finished {
            callback,
            instance: 1,
        }));
    }
    expected.push(Ok(Idle));
    assert_eq!(outcomes, expected);
    let polls: Vec<_> = (0..7)
        .filter(|&time| history.replies[time].polled)
        .map(|time| (time, history.replies[time].gathered))
        .collect();
    assert_eq!(polls, [(0, 2), (4, 1), (6, 0)]);
}

/// Document 01, 'Readings that tempt', offset 0 only: P4's bound would be 4, as with a window of 4,
/// where no later offset has a longer response.
#[test]
fn p4_at_offset_0_only() {
    let table = full(vec![p2(&[4])]);
    assert_eq!(sim::sheet::first_bound_literal(&table, 1, 4), 4);
    assert_eq!(sim::sheet::first_bound_literal(&table, 1, 12), 7);
}

/// Document 01, 'Readings that tempt', curves: J does not count in a window of no ticks, and costs
/// grow beyond the last entry.
#[test]
fn tempting_curves() {
    assert_eq!(arrivals(&p2(&[4]), 0), 0);
    assert_eq!([4, 5, 6, 7].map(|n| cost(&[4, 6], n)), [12, 16, 18, 22]);
    assert_eq!([0, 1, 2].map(|n| cost(&[4, 6], n)), [0, 4, 6]);
}
