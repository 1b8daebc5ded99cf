//! The test of the curves in one pass against the look at every window: all short lists for small
//! numbers, then drawn ones at the limits of larger numbers and one step across them.

mod common;
use common::*;
use sim::generate::histories::{outside, within, Style};
use sim::generate::tables::{any_shape, table};
use sim::history::{play, within_curves, within_curves_literal, Departure, History};
use sim::machine::{bit, Answer, Reply, Tick};
use sim::random::Random;
use sim::sheet::{arrivals, cost, delayed_supply, window};
use sim::table::{encode, Callback, Kind, Table, LARGEST};
use sim::trackers::{ArrivalTracker, CostTracker, SupplyTracker};

/// How a history first leaves the curves, seen to be the same in both ways.
fn departure(table: &Table, history: &History) -> Option<Departure> {
    let first = within_curves(table, history);
    assert_eq!(
        first,
        within_curves_literal(table, history),
        "{table:?} {history:?}"
    );
    first.err()
}

/// How many lists were seen within the curves, and outside them.
#[derive(Default)]
struct Seen {
    within: u64,
    outside: u64,
}

impl Seen {
    fn note(&mut self, departure: Option<Departure>) {
        match departure {
            None => self.within += 1,
            Some(_) => self.outside += 1,
        }
    }
}

/// A list of ticks to which the machine said nothing, so that nothing started.
fn unplayed(ticks: Vec<Tick>) -> History {
    History {
        ticks,
        replies: Vec::new(),
    }
}

/// Ticks from a list, the lowest bit first: each is supplied, or has callback 1 arrive, or not.
fn supplies(list: u64, length: usize) -> History {
    let tick = |place| Tick {
        supplied: list >> place & 1 != 0,
        ..tick(0, 1)
    };
    unplayed((0..length).map(tick).collect())
}

fn arriving(list: u64, length: usize) -> History {
    let mask = |place| (list >> place & 1) as u16;
    unplayed((0..length).map(|place| tick(mask(place), 1)).collect())
}

/// Ticks in which an instance of callback 1 starts and finishes, with these costs.
fn costing(costs: &[u64]) -> History {
    let reply = |instance| Reply {
        outcome: Ok(Answer::Finished {
            callback: 1,
            instance,
        }),
        started: true,
        polled: false,
        gathered: 0,
        folded: 0,
    };
    History {
        ticks: costs.iter().map(|&cost| tick(0, cost)).collect(),
        replies: (1..).map(reply).take(costs.len()).collect(),
    }
}

/// A lone callback with these arrivals.
fn head(period: u64, jitter: u64, distance: u64) -> Callback {
    lone(Kind::Subscription, period, jitter, distance, &[1])
}

/// Compares both ways on lists 0 to `lists` - 1 of each table.
fn compare_all(tables: impl Iterator<Item = Table>, lists: u64, history: impl Fn(u64) -> History) {
    let mut seen = Seen::default();
    for table in tables {
        for list in 0..lists {
            seen.note(departure(&table, &history(list)));
        }
    }
    assert!(seen.within > 1_000 && seen.outside > 1_000);
}

#[test]
fn all_short_lists_of_supply() {
    let reservations = (1..=5).flat_map(|period| (1..=period).map(move |budget| (budget, period)));
    let tables = reservations
        .map(|(budget, period)| supplied(budget, period, vec![subscription(9, &[1])]))
        .flat_map(|table| [0, 1, 2, 3, 5].map(|delay| delayed(delay, &table)));
    compare_all(tables, 1 << 13, |list| supplies(list, 13));
}

/// U2 by hand: Q = 2, P = 5, Z = 3. A window may have no supply in 3 + 2 × 3 ticks, and 3 more with
/// each 2 supplied ones; that is so for windows in the middle and at the beginning.
#[test]
fn unsupplied_ticks_of_a_delayed_window() {
    let table = delayed(3, &supplied(2, 5, vec![subscription(9, &[1])]));
    let lines = |runs: &[(bool, usize)]| {
        let ticks = runs.iter().flat_map(|&(supplied, count)| {
            let tick = Tick {
                supplied,
                ..tick(0, 1)
            };
            vec![tick; count]
        });
        departure(&table, &unplayed(ticks.collect()))
    };
    let short = |from, length| Some(Departure::Supply { from, length });
    assert_eq!(lines(&[(false, 9)]), None);
    assert_eq!(lines(&[(false, 10)]), short(0, 10));
    assert_eq!(lines(&[(true, 5), (false, 9)]), None);
    // The one supplied tick before the gap does not make up for it, two do.
    assert_eq!(lines(&[(true, 5), (false, 10)]), short(4, 11));
    assert_eq!(lines(&[(false, 9), (true, 1), (false, 1)]), short(0, 11));
    assert_eq!(lines(&[(false, 9), (true, 2), (false, 3)]), None);
    assert_eq!(lines(&[(false, 9), (true, 2), (false, 4)]), short(0, 15));
    // All 9 are there again once three budgets have made good 3 × 3 of them, not before.
    let again = |supplied| lines(&[(false, 9), (true, supplied), (false, 9)]);
    assert_eq!(again(6), None);
    assert_eq!(again(5), short(0, 21));
}

#[test]
fn all_short_lists_of_arrivals() {
    let paces = (1..=4).flat_map(|period| (1..=period).map(move |distance| (period, distance)));
    let tables = paces.flat_map(|(period, distance)| {
        (0..=7).map(move |jitter| full(vec![head(period, jitter, distance)]))
    });
    compare_all(tables, 1 << 11, |list| arriving(list, 11));
}

#[test]
fn all_short_lists_of_costs() {
    // Each set of 1 to 3 entries of 1 to 5, as the bits of a number.
    let sets = (1..1u64 << 5).filter(|set| set.count_ones() <= 3);
    let tables = sets.map(|set| {
        let entries = (1..=5).filter(|entry| set >> (entry - 1) & 1 != 0);
        full(vec![subscription(9, &entries.collect::<Vec<u64>>())])
    });
    compare_all(tables, 3u64.pow(7), |list| {
        let costs = (0..7).map(|place| 1 + list / 3u64.pow(place) % 3);
        costing(&costs.collect::<Vec<u64>>())
    });
}

/// Lists without a tick, and of one: the window of one tick is the shortest.
#[test]
fn empty_and_single() {
    for (budget, period) in [(1, 1), (3, 3), (1, 2), (59_999, 60_000), (1, 60_000)] {
        let table = supplied(budget, period, vec![head(60_000, 60_000, 1)]);
        assert_eq!(departure(&table, &unplayed(Vec::new())), None);
        let short = Departure::Supply { from: 0, length: 1 };
        let expected = (budget == period).then_some(short);
        assert_eq!(departure(&table, &supplies(0, 1)), expected);
        assert_eq!(departure(&table, &supplies(1, 1)), None);
    }
    let table = full(vec![subscription(9, &[3, 4])]);
    assert_eq!(departure(&table, &arriving(1, 1)), None);
    assert_eq!(departure(&table, &costing(&[3])), None);
    assert!(departure(&table, &costing(&[4])).is_some());
}

/// Supply: full supply, Q of 1, gaps of 1, gaps longer than budgets, and P beyond the list.
const RESERVATIONS: [(u64, u64); 16] = [
    (1, 1),
    (7, 7),
    (60_000, 60_000),
    (1, 2),
    (1, 3),
    (1, 20),
    (2, 5),
    (5, 6),
    (6, 10),
    (3, 11),
    (19, 20),
    (30, 50),
    (50, 90),
    (59_999, 60_000),
    (59_970, 60_000),
    (1, 60_000),
];

#[test]
fn supply_at_the_limit_and_across() {
    let mut random = Random::new(20);
    let mut seen = [Seen::default(), Seen::default()];
    for (budget, period) in RESERVATIONS.repeat(60) {
        let delay = *random.pick(&[0, 0, 1, 2, 7, 40, 290, 60_000]);
        let table = delayed(
            delay,
            &supplied(budget, period, vec![subscription(9, &[1])]),
        );
        let length = *random.pick(&[2, 30, 100, 300]);
        let style = Style::of_turn(&mut random, &table, 1 + length / 3, budget % 5);
        let limit = within(&mut random, &table, &style, length).ticks;
        assert_eq!(departure(&table, &unplayed(limit.clone())), None);
        for _ in 0..6 {
            let mut ticks = limit.clone();
            let at = random.range(0, length - 1) as usize;
            match random.range(0, 3) {
                0 => ticks[at].supplied = !ticks[at].supplied,
                1 => drop(ticks.remove(at)),
                2 => ticks.insert(at, unsupplied(0, 1)),
                _ => ticks.swap(at, length as usize / 2),
            }
            seen[usize::from(delay > 0)].note(departure(&table, &unplayed(ticks)));
        }
    }
    assert!(seen.iter().all(|s| s.within > 300 && s.outside > 300));
}

/// Arrivals: T = d, d = 1, T = d = 1, no jitter, jitter beyond the list.
const HEADS: [(u64, u64, u64); 14] = [
    (1, 0, 1),
    (1, 60_000, 1),
    (2, 0, 1),
    (7, 0, 7),
    (7, 0, 1),
    (7, 6, 1),
    (7, 7, 3),
    (7, 8, 1),
    (10, 15, 2),
    (10, 95, 10),
    (10, 95, 9),
    (40, 300, 1),
    (60_000, 60_000, 1),
    (60_000, 0, 60_000),
];

#[test]
fn arrivals_at_the_limit_and_across() {
    let mut random = Random::new(21);
    let mut seen = Seen::default();
    for (period, jitter, distance) in HEADS.repeat(30) {
        let table = full(vec![head(period, jitter, distance)]);
        let length = *random.pick(&[2, 30, 100, 300]);
        let turn = random.range(0, 4);
        let style = Style::of_turn(&mut random, &table, 1 + length / 3, turn);
        let limit = within(&mut random, &table, &style, length).ticks;
        assert_eq!(departure(&table, &unplayed(limit.clone())), None);
        for _ in 0..6 {
            let mut ticks = limit.clone();
            let at = random.range(0, length - 1) as usize;
            match random.range(0, 3) {
                0 => ticks[at].mask ^= bit(1),
                1 => drop(ticks.remove(at)),
                2 => ticks.insert(at, tick(1, 1)),
                _ => ticks.swap(at, length as usize / 2),
            }
            seen.note(departure(&table, &unplayed(ticks)));
        }
    }
    assert!(seen.within > 300 && seen.outside > 300);
}

/// Costs as large as the tracker permits, or below, for callbacks with 1 to 8 entries.
fn permitted_costs(random: &mut Random, callback: &Callback, length: u64) -> Vec<u64> {
    let greedy = *random.pick(&[0, 50, 90, 100]);
    let mut tracker = CostTracker::new(callback);
    let mut costs = Vec::new();
    for _ in 0..length {
        let largest = tracker.largest();
        let cost = if random.chance(greedy) {
            largest
        } else {
            random.range(1, largest)
        };
        tracker.start(cost);
        costs.push(cost);
    }
    costs
}

#[test]
fn costs_at_the_limit_and_across() {
    let mut random = Random::new(22);
    let mut seen = Seen::default();
    for used in [1, 2, 3, 4, 5, 6, 7, 8].repeat(40) {
        let step = *random.pick(&[1, 3, 20]);
        let mut entries = vec![random.range(1, 20)];
        for _ in 1..used {
            entries.push(entries[entries.len() - 1] + random.range(1, step));
        }
        let table = full(vec![subscription(9, &entries)]);
        let length = *random.pick(&[1, 2, 9, 40, 100]);
        let limit = permitted_costs(&mut random, table.callback(1), length);
        assert_eq!(departure(&table, &costing(&limit)), None);
        for _ in 0..6 {
            let mut costs = limit.clone();
            let at = random.range(0, length - 1) as usize;
            match random.range(0, 2) {
                0 => costs[at] += 1,
                1 => costs[at] = (costs[at] - 1).max(1),
                _ => costs.swap(at, length as usize / 2),
            }
            seen.note(departure(&table, &costing(&costs)));
        }
    }
    assert!(seen.within > 300 && seen.outside > 300);
}

/// Changes one arrival, one supplied tick or one unit of cost, or moves ticks.
fn changed(random: &mut Random, table: &Table, ticks: &mut Vec<Tick>) {
    let last = ticks.len() as u64 - 1;
    let (at, other) = (
        random.range(0, last) as usize,
        random.range(0, last) as usize,
    );
    let heads: Vec<usize> = (1..=table.count()).filter(|&i| table.is_head(i)).collect();
    let tick = &mut ticks[at];
    match random.range(0, 5) {
        0 => tick.mask ^= bit(*random.pick(&heads)),
        1 => tick.supplied = !tick.supplied,
        2 => tick.supplied = false,
        3 => tick.cost = (tick.cost + 1).min(LARGEST),
        4 => drop(ticks.remove(at)),
        _ => ticks.swap(at, other),
    }
}

#[test]
fn played_histories() {
    let mut random = Random::new(23);
    let mut seen = [Seen::default(), Seen::default()];
    let mut late = Seen::default();
    for turn in 0..1_200 {
        let shape = any_shape(&mut random);
        let table = table(&mut random, shape);
        let span = window(&table).map_or(20, |window| window.min(100));
        let length = *random.pick(&[0, 1, 3, 20, 80, 200]);
        let style = Style::of_turn(&mut random, &table, span, turn % 9);
        let mut ticks = within(&mut random, &table, &style, length).ticks;
        let played = |ticks: &[Tick]| departure(&table, &play(&encode(&table), ticks));
        assert_eq!(played(&ticks), None);
        for _ in 0..5 {
            if !ticks.is_empty() {
                changed(&mut random, &table, &mut ticks);
            }
            seen[0].note(played(&ticks));
            if table.delay > 0 {
                late.note(played(&ticks));
            }
        }
        seen[1].note(played(&outside(&mut random, &table, length)));
    }
    assert!(seen[0].within > 500 && seen[0].outside > 500 && seen[1].outside > 500);
    assert!(late.within > 200 && late.outside > 200);
}

/// Head 1's windows come first, even where head 2's ends earlier; the supply comes after both.
#[test]
fn heads_come_in_turn() {
    let table = full(vec![subscription(3, &[1]), subscription(3, &[1])]);
    let masks = [(2, true), (2, false), (1, true), (0, true), (1, true)];
    let ticks = masks.map(|(mask, supplied)| Tick {
        supplied,
        ..tick(mask, 1)
    });
    let of_head = |head, from, length| Some(Departure::Arrivals { head, from, length });
    let history = unplayed(ticks.to_vec());
    assert_eq!(departure(&table, &history), of_head(1, 2, 3));
    let before = unplayed(ticks[..4].to_vec());
    assert_eq!(departure(&table, &before), of_head(2, 0, 2));
    let alone = unplayed(ticks[1..4].to_vec());
    let short = Departure::Supply { from: 0, length: 1 };
    assert_eq!(departure(&table, &alone), Some(short));
}

/// The window that ends first begins as early as it can: before its first activation, and behind
/// supplied ticks.
#[test]
fn first_beginning() {
    let table = full(vec![head(10, 0, 10)]);
    let begins = departure(&table, &arriving(0b1_0001_0000, 9));
    let expected = Departure::Arrivals {
        head: 1,
        from: 0,
        length: 9,
    };
    assert_eq!(begins, Some(expected));
    let table = supplied(2, 5, vec![head(10, 0, 10)]);
    let begins = departure(&table, &supplies(0b11, 9));
    let expected = Departure::Supply { from: 1, length: 8 };
    assert_eq!(begins, Some(expected));
    let table = full(vec![subscription(9, &[4, 6])]);
    let begins = departure(&table, &costing(&[1, 1, 4, 2, 3, 4]));
    let expected = Departure::Cost {
        callback: 1,
        from: 2,
        instances: 4,
    };
    assert_eq!(begins, Some(expected));
}

/// What each tracker permits is what the curves leave in all windows that end with the next step.
#[test]
fn trackers_by_their_curves() {
    let mut random = Random::new(24);
    for _ in 0..400 {
        let (period, budget) = (random.range(1, 9), random.range(1, 9));
        let table = supplied(budget.min(period), period, vec![head(period, budget, 1)]);
        let table = delayed(random.range(0, 12), &table);
        let (mut by_supply, mut by_arrivals) = (
            SupplyTracker::new(&table),
            ArrivalTracker::new(table.callback(1)),
        );
        let (mut list, mut times): (Vec<u64>, Vec<u64>) = (Vec::new(), Vec::new());
        for time in 0..40 {
            let starves = (0..=list.len()).all(|from| {
                let held: u64 = list[from..].iter().sum();
                held >= delayed_supply(&table, (list.len() + 1 - from) as u64)
            });
            assert_eq!(by_supply.may_starve(), starves);
            let arrives = (0..times.len()).all(|first| {
                let most = arrivals(table.callback(1), time - times[first] + 1);
                ((times.len() - first) as u64) < most
            });
            assert_eq!(by_arrivals.permits(time), arrives);
            let given = !starves || random.chance(40);
            by_supply.tick(given);
            list.push(given.into());
            if arrives && random.chance(70) {
                by_arrivals.activate(time);
                times.push(time);
            }
        }
    }
}

#[test]
fn largest_cost_by_its_curve() {
    let mut random = Random::new(25);
    for used in [1, 2, 3, 8].repeat(50) {
        let entries: Vec<u64> = (1..=used).map(|n| 5 * n + random.range(0, 4)).collect();
        let callback = subscription(9, &entries);
        let costs = permitted_costs(&mut random, &callback, 40);
        let mut tracker = CostTracker::new(&callback);
        for place in 0..costs.len() {
            let left = |first: usize| {
                let before: u64 = costs[first..place].iter().sum();
                cost(&entries, (place - first) as u64 + 1) - before
            };
            assert_eq!(Some(tracker.largest()), (0..=place).map(left).min());
            tracker.start(costs[place]);
        }
    }
}

/// Lists that the look at every window would take minutes for.
#[test]
fn long_histories_take_seconds() {
    let begun = std::time::Instant::now();
    let callbacks = vec![
        lone(Kind::Timer, 40, 2, 38, &[2]),
        lone(Kind::Client, 100, 90, 10, &[2, 3, 5]),
    ];
    for (budget, period, delay) in [
        (6, 10, 0),
        (6, 10, 700),
        (40_000, 60_000, 0),
        (40_000, 60_000, 60_000),
        (1, 1, 0),
    ] {
        let table = delayed(delay, &supplied(budget, period, callbacks.clone()));
        let style = Style::greedy(&table);
        let mut history = within(&mut Random::new(26), &table, &style, 200_000);
        assert_eq!(within_curves(&table, &history), Ok(()));
        history.ticks[199_990].mask |= 3;
        history.ticks[199_991].mask |= 3;
        assert!(within_curves(&table, &history).is_err());
    }
    assert!(begun.elapsed().as_secs() < 60);
}
