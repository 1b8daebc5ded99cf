//! Activations, starts and completions, the conditions of the curves, and
//! demand 3.

mod common;
use common::*;
use sim::generate::beats::Beats;
use sim::generate::histories::{outside, within, within_beating, Style};
use sim::generate::tables::{table, Shape};
use sim::history::{
    conclusions, longest_response, play, within_curves, Departure, History, Violation,
};
use sim::machine::Tick;
use sim::random::Random;
use sim::table::{encode, Kind, Table};

fn played(table: &Table, ticks: &[Tick]) -> History {
    play(&encode(table), ticks)
}

#[test]
fn words_of_a_chain() {
    let ticks = [
        tick(1, 1),
        tick(0, 2),
        tick(0, 7),
        unsupplied(0, 1),
        tick(0, 1),
    ];
    let history = played(&chain(), &ticks);
    let activations = [1, 2, 3].map(|index| history.activations(&chain(), index));
    assert_eq!(activations, [[0], [1], [3]]);
    assert_eq!(history.starts(2), [(1, 1)]);
    assert_eq!([1, 2, 3].map(|index| history.costs(index)), [[1], [2], [1]]);
    assert_eq!(
        [1, 2, 3].map(|index| history.completions(index)),
        [[1], [3], [5]]
    );
    assert_eq!(longest_response(&chain(), 3, &history), 5);
}

/// Document 01, 'A history': a refused tick is counted in the times of all
/// later ones and leaves the state as it was.
#[test]
fn refused_tick_keeps_its_place() {
    let history = played(&chain(), &[tick(1, 0), tick(1, 1)]);
    assert_eq!(history.activations(&chain(), 1), [0, 1]);
    assert_eq!(history.completions(1), [2]);
    assert_eq!(
        within_curves(&chain(), &history),
        Err(Departure::CostRange { tick: 0 })
    );
    let violation = conclusions(&chain(), &[6, 6, 6], &history);
    assert_eq!(violation, Err(Violation::Refused { tick: 0 }));
}

#[test]
fn each_condition_of_the_curves() {
    let table = supplied(1, 2, vec![lone(Kind::Timer, 4, 0, 4, &[2, 3])]);
    let judged = |ticks: &[Tick]| within_curves(&table, &played(&table, ticks));
    let (on, off) = (tick(0, 1), unsupplied(0, 1));
    assert_eq!(judged(&[off, off, on, off, on]), Ok(()));
    assert_eq!(
        judged(&[on, off, off, off]),
        Err(Departure::Supply { from: 1, length: 3 })
    );
    let pair = [tick(1, 1), on, on, tick(1, 1)];
    assert_eq!(
        judged(&pair),
        Err(Departure::Arrivals {
            head: 1,
            from: 0,
            length: 4
        })
    );
    assert_eq!(judged(&[tick(1, 2), on, on, on, tick(1, 1)]), Ok(()));
    let dear = [tick(1, 2), on, on, on, tick(1, 2)];
    let departure = Departure::Cost {
        callback: 1,
        from: 0,
        instances: 2,
    };
    assert_eq!(judged(&dear), Err(departure));
    assert_eq!(judged(&[tick(2, 1)]), Err(Departure::Mask { tick: 0 }));
    assert_eq!(
        judged(&[on, tick(0, 60_001)]),
        Err(Departure::CostRange { tick: 1 })
    );
    assert_eq!(judged(&[on, tick(0, 60_000)]), Ok(()));
}

/// U2: with a delay of 1 the supply may fail one tick longer, once.
#[test]
fn supply_with_a_delay() {
    let table = delayed(1, &supplied(1, 2, vec![timer(4, &[2])]));
    let judged = |ticks: &[Tick]| within_curves(&table, &played(&table, ticks));
    let (on, off) = (tick(0, 1), unsupplied(0, 1));
    let short = |from, length| Err(Departure::Supply { from, length });
    assert_eq!(judged(&[on, off, off, off]), Ok(()));
    assert_eq!(judged(&[on, off, off, off, off]), short(1, 4));
    assert_eq!(judged(&[off, off, off, on, off, on, off]), Ok(()));
    assert_eq!(judged(&[off, off, off, on, off, off]), short(0, 6));
}

#[test]
fn generated_histories_are_within_the_curves_and_in_time() {
    let totals = sim::check::check(1_000, 120, 300);
    assert!(totals.accepted > 50 && totals.row.reached > 20);
    assert!(totals.second > 25 && totals.accepted - totals.second > 25);
    assert!(totals.delayed > 25 && totals.accepted - totals.delayed > 25);
    assert!(totals.timers.reached > 20 && totals.lowered > 20);
    assert!(totals.outside.is_empty(), "{:?}", totals.outside);
    assert!(totals.violations.is_empty(), "{:?}", totals.violations);
}

/// The greedy history reaches the bounds of P4, P5 and P7's subscription.
#[test]
fn greedy_history_reaches_bounds() {
    let burst = |entries| full(vec![lone(Kind::Subscription, 10, 15, 2, entries)]);
    let partial = supplied(2, 5, vec![timer(50, &[2]), subscription(100, &[3])]);
    for (table, callback) in [(burst(&[4]), 1), (burst(&[4, 6]), 1), (partial, 2)] {
        let (_, bounds) = sheet(&table).unwrap();
        let history = within(&mut Random::new(7), &table, &Style::greedy(&table), 60);
        assert_eq!(within_curves(&table, &history), Ok(()));
        assert_eq!(
            longest_response(&table, callback, &history),
            bounds[callback - 1]
        );
    }
}

/// A bound that is one too small is seen.
#[test]
fn late_completion_is_seen() {
    let table = full(vec![lone(Kind::Subscription, 10, 15, 2, &[4])]);
    let history = within(&mut Random::new(8), &table, &Style::greedy(&table), 60);
    assert_eq!(conclusions(&table, &[7], &history), Ok(()));
    let late = Violation::Late {
        callback: 1,
        k: 2,
        activation: 2,
        completion: Some(8),
    };
    assert_eq!(conclusions(&table, &[5], &history), Err(late));
    let cut = played(&table, &history.ticks[..7]);
    let open = Violation::Late {
        callback: 1,
        k: 2,
        activation: 2,
        completion: None,
    };
    assert_eq!(conclusions(&table, &[5], &cut), Err(open));
    let before = played(&table, &history.ticks[..6]);
    assert_eq!(conclusions(&table, &[5], &before), Ok(()));
}

#[test]
fn early_start_is_seen() {
    let mut history = played(&chain(), &[tick(1, 1), tick(0, 2), tick(0, 7)]);
    history.ticks[0].mask = 0;
    let early = Violation::EarlyStart {
        callback: 1,
        instance: 1,
        time: 0,
    };
    assert_eq!(conclusions(&chain(), &[6, 6, 6], &history), Err(early));
    // One tick late is late; at the time of the start is not.
    history.ticks[1].mask = 1;
    assert_eq!(conclusions(&chain(), &[6, 6, 6], &history), Err(early));
    history.ticks[0].mask = 1;
    assert_eq!(conclusions(&chain(), &[6, 6, 6], &history), Ok(()));
}

/// Histories outside the curves reach each of the refusals 19 to 21, in both editions. A follower
/// fills up in edition 1 alone, behind a timer that beats without end: a poll that takes its head
/// takes at most one instance, and the next poll takes the follower's.
#[test]
fn outside_histories_are_refused() {
    let mut random = Random::new(9);
    let mut seen = [[false; 30]; 3];
    let mut followers_full = [false; 3];
    for _ in 0..2_000 {
        let table = table(&mut random, Shape::Small);
        let ticks = outside(&mut random, &table, 400);
        for refusal in played(&table, &ticks)
            .replies
            .iter()
            .filter_map(|r| r.outcome.err())
        {
            let edition = usize::from(table.edition);
            seen[edition][usize::from(refusal.number)] = true;
            let index = usize::from(refusal.index);
            followers_full[edition] |= refusal.number == 21 && !table.is_head(index);
        }
    }
    for edition in [1, 2] {
        assert!([19, 20, 21].iter().all(|&number| seen[edition][number]));
    }
    assert_eq!(followers_full, [false, true, false]);
}

/// With one cost entry the bound of a lone callback is exact: the greedy
/// history from tick 0 reaches it. (U6: unless a timer's beat is folded; then
/// not all that the bound reckons with can wait at once)
#[test]
fn lone_bounds_are_exact() {
    let mut random = Random::new(10);
    let (mut reached, mut late, mut timers) = (0, 0, 0);
    while reached < 200 {
        let mut table = table(&mut random, Shape::Small);
        table.callbacks.truncate(1);
        table.callbacks[0].next = 0;
        table.callbacks[0].entries.truncate(1);
        let Ok((window, bounds)) = sheet(&table) else {
            continue;
        };
        if window > 500 {
            continue;
        }
        let style = Style::greedy(&table);
        let history = within_beating(&mut random, &table, &style, window, Beats::SCHEDULED);
        let longest = longest_response(&table, 1, &history);
        if !history.folded(1).is_empty() {
            assert!(longest <= bounds[0]);
            continue;
        }
        assert_eq!(longest, bounds[0]);
        reached += 1;
        late += u64::from(table.delay > 0);
        timers += u64::from(table.callbacks[0].kind == Kind::Timer);
    }
    assert!(late > 50 && timers > 20, "{late} {timers}");
}
