//! The second bound of timers (request U5 of document 02): its numbers, what it leaves, and that
//! histories come up to it.

mod common;
use common::*;
use sim::generate::beats::Beats;
use sim::generate::blocking::{costliest_below, timers};
use sim::generate::histories::{recovery, styles, turns, within, within_beating, Style};
use sim::generate::tables::{any_shape, table, Shape};
use sim::history::{conclusions, longest_response, within_curves, History};
use sim::machine::{bit, start, Answer, State, Tick};
use sim::random::Random;
use sim::sheet::{
    arrivals, blocking, blocking_literal, bound_literal, bounds, cost, delayed_supply,
    first_bounds, has_second_bound, own_window, own_window_literal, second_bound_literal,
    second_bounds, sheet as analysed, window, Sheet,
};
use sim::table::{encode, Callback, Kind, Table};
use sim::text::hex;
use sim::trackers::{longest_starvation, ArrivalTracker, CostTracker, SupplyTracker};

/// Window, the bounds of before U5, and those of the row.
fn numbers(table: &Table) -> (u64, Vec<u64>, Vec<u64>) {
    let (window, row) = sheet(table).expect("a sheet");
    (window, first_bounds(table, window), row)
}

/// B and the own window of a timer.
fn own(table: &Table, index: usize) -> (u64, u64) {
    let window = window(table).expect("a window");
    let own = own_window(table, index, window).expect("an own window");
    (blocking(table, index), own)
}

/// The numbers that U5 itself names, and those that it leaves in P6 and P7.
#[test]
fn p6_and_p7() {
    let callbacks = |t| vec![timer(t, &[2]), subscription(2 * t, &[3])];
    let p6 = full(callbacks(10));
    assert_eq!(numbers(&p6), (5, vec![5, 5], vec![4, 5]));
    assert_eq!(own(&p6, 1), (2, 4));
    let p7 = supplied(2, 5, callbacks(50));
    assert_eq!(numbers(&p7), (17, vec![17, 17], vec![13, 17]));
    assert_eq!(own(&p7, 1), (2, 13));
}

/// With none of lower priority B is 0, and no other callback is left out: the number stays.
#[test]
fn timer_alone() {
    let burst = |entries: &[u64]| full(vec![lone(Kind::Timer, 10, 15, 2, entries)]);
    // P4 and P5 with a timer for the subscription.
    assert_eq!(numbers(&burst(&[4])), (12, vec![7], vec![7]));
    assert_eq!(numbers(&burst(&[4, 6])), (10, vec![5], vec![5]));
    assert_eq!(own(&burst(&[4]), 1), (0, 12));
}

/// The upper timer waits for the rest of the lower one, which keeps its number.
#[test]
fn two_timers() {
    let table = full(vec![timer(10, &[2]), timer(20, &[5])]);
    assert_eq!(numbers(&table), (7, vec![7, 7], vec![6, 7]));
    assert_eq!(own(&table, 1), (4, 6));
    assert_eq!(own(&table, 2), (0, 7));
}

/// Priority goes by kind before index: non-timers with smaller indices are lower too, and no timers
/// above.
#[test]
fn timer_behind_others_in_the_table() {
    let table = full(vec![
        lone(Kind::Client, 40, 0, 40, &[6]),
        subscription(40, &[3]),
        timer(20, &[2]),
    ]);
    assert_eq!(numbers(&table), (11, vec![11; 3], vec![11, 11, 7]));
    assert_eq!(own(&table, 3), (5, 7));
}

/// Subscription 1, timer 2, service 3, timer 4 and client 5. Timer 2 has timer 4 among the lower
/// ones, timer 4 has timer 2 above.
#[test]
fn timers_among_others() {
    let mixed = |last: u64| {
        full(vec![
            subscription(100, &[3]),
            timer(50, &[2]),
            lone(Kind::Service, 100, 0, 100, &[5]),
            timer(50, &[last]),
            lone(Kind::Client, 100, 0, 100, &[1]),
        ])
    };
    // B is 4 for both, by the service.
    let present = |most| vec![most; 5];
    assert_eq!(
        numbers(&mixed(4)),
        (15, present(15), vec![15, 6, 15, 10, 15])
    );
    // For timer 2 it is 6, by timer 4.
    assert_eq!(
        numbers(&mixed(7)),
        (18, present(18), vec![18, 8, 18, 13, 18])
    );
}

/// A timer above, whose second beat falls into the response of the other.
#[test]
fn beats_of_the_timers_above() {
    let table = full(vec![
        timer(6, &[2]),
        timer(30, &[3]),
        subscription(90, &[4]),
    ]);
    // Timer 2: 3 + 3 + 2 = 8 is behind the second beat of timer 1, so 10.
    assert_eq!(numbers(&table), (11, vec![9, 11, 11], vec![5, 10, 11]));
    assert_eq!(own(&table, 2), (3, 10));
}

/// Bursts, in full supply. The offset of the largest response is not 0, and the own window ends
/// before W.
#[test]
fn jitter() {
    let burst = lone(Kind::Timer, 10, 15, 2, &[4]);
    let table = full(vec![burst, subscription(60, &[6])]);
    // B = 5. Own window: 5 + 12 = 17 has a fourth arrival, from 16 on, so 21. Arrivals at offsets
    // 0, 2, 5 and 15 are done at 9, 13, 17 and 21.
    assert_eq!(own(&table, 1), (5, 21));
    assert_eq!(numbers(&table), (22, vec![13, 22], vec![12, 22]));
}

/// Offsets end with the own window, here at 6 and far below W. Behind the last entry E(4) is 16, though
/// twice two instances cost at most 12, which U7 leaves as it is; it would give a 7 at offset 9.
#[test]
fn offsets_of_the_own_window_alone() {
    let mut callbacks = vec![subscription(100, &[1]); 9];
    callbacks[0] = lone(Kind::Timer, 50, 150, 3, &[5, 6, 11]);
    let table = full(callbacks);
    let (window, first, row) = numbers(&table);
    assert_eq!((window, first[0], row[0]), (24, 15, 5));
    assert_eq!(own(&table, 1), (0, 6));
    assert_eq!(bound_literal(&table, 1, window), 5);
}

/// Partial supply and a delay: s at 7, 8, 12, 13, 17, 18 is 1, 2, 3, 4, 5, 6 for Q = 2 and P = 5, and
/// the same 9 ticks later with Z = 9.
#[test]
fn partial_supply_and_delay() {
    let callbacks = vec![timer(50, &[2]), subscription(100, &[1]), timer(100, &[3])];
    let table = supplied(2, 5, callbacks);
    // Timer 1: B = 2, so 4 ticks. Timer 3: B = 0, 5 ticks. All: 6 ticks.
    assert_eq!(numbers(&table), (18, vec![18; 3], vec![13, 18, 17]));
    let late = delayed(9, &table);
    assert_eq!(numbers(&late), (27, vec![27; 3], vec![22, 27, 26]));
    assert_eq!(
        numbers(&in_edition(2, &late)),
        (27, vec![27; 3], vec![27; 3])
    );
}

/// Costs of 1 block nothing: who started in the tick before has finished.
#[test]
fn lower_callbacks_of_cost_1() {
    let ones = full(vec![
        timer(10, &[2]),
        subscription(10, &[1]),
        subscription(10, &[1]),
    ]);
    assert_eq!(numbers(&ones), (4, vec![4; 3], vec![2, 4, 4]));
    assert_eq!(own(&ones, 1), (0, 2));
    // Only the first entry counts.
    let more = full(vec![
        timer(50, &[2]),
        lone(Kind::Client, 50, 0, 50, &[1, 2]),
    ]);
    assert_eq!(numbers(&more), (3, vec![3; 2], vec![2, 3]));
}

/// A follower blocks as any other does, and keeps its own number; its timer is charged for none of
/// its instances but that rest.
#[test]
fn followers_are_no_timers() {
    assert_eq!(numbers(&chain()), (6, vec![6; 3], vec![3, 6, 6]));
}

/// Edition 2 keeps the present bound, and so do tables without timers.
#[test]
fn others_keep_their_number() {
    let mut random = Random::new(70);
    let (mut polled, mut timerless) = (0, 0);
    for _ in 0..600 {
        let drawn = table(&mut random, Shape::Small);
        let Some(window) = window(&drawn) else {
            continue;
        };
        let second = in_edition(2, &drawn);
        assert_eq!(bounds(&second, window), first_bounds(&drawn, window));
        assert_eq!(second_bounds(&second, window), vec![None; drawn.count()]);
        polled += u64::from(second.callbacks.iter().any(|c| c.kind == Kind::Timer));
        if !with_timers_first(&in_edition(1, &drawn)) {
            assert_eq!(bounds(&drawn, window), first_bounds(&drawn, window));
            timerless += 1;
        }
    }
    assert!(polled > 150 && timerless > 80, "{polled} {timerless}");
}

/// Edition 1, with a horizon that the literal searches can go through.
fn short(random: &mut Random) -> Table {
    let mut table = in_edition(1, &table(random, Shape::Small));
    table.horizon = random.range(1, 120);
    table.delay = *random.pick(&[0, 0, 1, 5, 20, 60]);
    table
}

#[test]
fn faster_searches_agree_with_the_literal_ones() {
    let mut random = Random::new(71);
    let (mut timers, mut late, mut partial) = (0, 0, 0);
    while timers < 600 {
        let table = short(&mut random);
        let Some(window) = window(&table) else {
            continue;
        };
        let callbacks = 1..=table.count();
        let literal = |bound: &dyn Fn(usize) -> Option<u64>| callbacks.clone().map(bound).collect();
        let row: Vec<Option<u64>> = literal(&|i| Some(bound_literal(&table, i, window)));
        let fast: Vec<Option<u64>> = bounds(&table, window).into_iter().map(Some).collect();
        assert_eq!(fast, row);
        let second: Vec<Option<u64>> = literal(&|i| second_bound_literal(&table, i, window));
        assert_eq!(second_bounds(&table, window), second);
        for timer in callbacks.filter(|&i| has_second_bound(&table, i)) {
            assert_eq!(blocking(&table, timer), blocking_literal(&table, timer));
            for most in [1, window / 2, window, 60_000] {
                let literal = own_window_literal(&table, timer, most);
                assert_eq!(own_window(&table, timer, most), literal);
            }
            timers += 1;
            late += u64::from(table.delay > 0);
            partial += u64::from(table.budget < table.period);
        }
    }
    assert!(late > 100 && partial > 100, "{late} {partial}");
}

/// The second bound once more, from the words of U5 by other ways: searches without an end, B and
/// the timers above from a list of all callbacks in priority.
fn second_bound(table: &Table, index: usize) -> (u64, u64) {
    let mut order: Vec<usize> = (1..=table.count()).collect();
    order.sort_by_key(|&i| (table.callback(i).kind as u8, i));
    let place = order.iter().position(|&i| i == index).expect("a place");
    let lower = order[place + 1..].iter().map(|&i| table.callback(i));
    let blocking = lower.map(|c| c.entries[0] - 1).max().unwrap_or(0);
    let demand = |c: &Callback, length| cost(&c.entries, arrivals(c, length));
    let above = |length| -> u64 {
        let upper = order[..place].iter().map(|&i| table.callback(i));
        blocking + upper.map(|c| demand(c, length)).sum::<u64>()
    };
    let own = |length| demand(table.callback(index), length);
    let least = |needed: &dyn Fn(u64) -> u64| -> u64 {
        let covered = |&length: &u64| delayed_supply(table, length) >= needed(length);
        (1..).find(covered).expect("a length")
    };
    let window = least(&|length| own(length) + above(length));
    let finish = |offset| least(&|length| own(offset + 1) + above(length));
    let responses = (0..window).map(|offset| finish(offset).saturating_sub(offset));
    (window, responses.max().expect("an offset"))
}

/// What follows from U5's words: the own window and each D stay within W; the second bound is
/// smaller than the first where a callback of lower priority is there, and equal where none is. So
/// the row always has the second one, and no number grows.
#[test]
fn own_window_and_second_bound_stay_below() {
    let mut random = Random::new(72);
    let (mut smaller, mut equal) = (0, 0);
    for _ in 0..4_000 {
        let table = short(&mut random);
        let Some(window) = window(&table) else {
            continue;
        };
        let (first, row) = (first_bounds(&table, window), bounds(&table, window));
        for index in 1..=table.count() {
            let (present, bound) = (first[index - 1], row[index - 1]);
            assert!(1 <= bound && bound <= present && present <= window);
            if !has_second_bound(&table, index) {
                assert_eq!(bound, present);
                continue;
            }
            let (own, second) = second_bound(&table, index);
            assert_eq!(own_window(&table, index, 60_000), Some(own));
            assert!(own <= window && second <= own && bound == second);
            let timer = |i: usize| table.callback(i).kind == Kind::Timer;
            let last = (1..=table.count()).all(|i| i <= index && timer(i));
            assert_eq!(second == present, last);
            smaller += u64::from(!last);
            equal += u64::from(last);
        }
    }
    assert!(smaller > 500 && equal > 50, "{smaller} {equal}");
}

/// The same over tables of every shape, by the faster searches alone.
#[test]
fn no_number_grows() {
    let mut random = Random::new(73);
    let (mut timers, mut long) = (0, 0);
    for _ in 0..1_500 {
        let shape = any_shape(&mut random);
        let table = in_edition(1, &table(&mut random, shape));
        let Ok((window, row)) = sheet(&table) else {
            continue;
        };
        for (index, (bound, present)) in (1..).zip(row.iter().zip(first_bounds(&table, window))) {
            if has_second_bound(&table, index) {
                let own = own_window(&table, index, 60_000).expect("an own window");
                assert!(*bound <= own && own <= window && *bound <= present);
                timers += 1;
                long += u64::from(window > 1_000);
            } else {
                assert_eq!(*bound, present);
            }
        }
    }
    assert!(timers > 300 && long > 30, "{timers} {long}");
}

/// The 255 rule reads W: more than 255 beats in W are refused though the own window has fewer.
#[test]
fn refusal_16_reads_the_window() {
    let crowd = |rest: u64| {
        full(vec![
            lone(Kind::Timer, 200, 50_400, 1, &[2]),
            subscription(60_000, &[1]),
            subscription(60_000, &[rest]),
        ])
    };
    // 255 beats, 510 ticks, and 90 of the others: W is 600, and the 256th beat comes with 601.
    let accepted = crowd(89);
    assert_eq!(sheet(&accepted).map(|(window, _)| window), Ok(600));
    assert_eq!(own(&accepted, 1), (88, 598));
    let refused = crowd(90);
    assert_eq!(own_window(&refused, 1, 60_000), Some(599));
    assert_eq!(arrivals(refused.callback(1), 599), 255);
    assert_eq!(sheet(&refused), Err(refusal(16, 1)));
    assert_eq!(sheet(&in_edition(2, &refused)), Err(refusal(16, 1)));
}

/// Refusal 15 stays: without a W there is no row, whatever the own window.
#[test]
fn refusal_15_stays() {
    let mut table = full(vec![timer(10, &[2]), subscription(20, &[3])]);
    table.horizon = 4;
    assert_eq!(own_window(&table, 1, 60_000), Some(4));
    assert_eq!(sheet(&table), Err(refusal(15, 0)));
}

/// The blocking style for P6 and P7, whose timers complete just at the bounds that U5 names.
#[test]
fn p6_and_p7_are_met() {
    let callbacks = |t| vec![timer(t, &[2]), subscription(2 * t, &[3])];
    for (table, bound) in [
        (full(callbacks(10)), 4),
        (supplied(2, 5, callbacks(50)), 13),
    ] {
        let mut random = Random::new(74);
        let style = Style::blocking(&mut random, &table, 20, 1);
        let history = within(&mut random, &table, &style, 100);
        assert_eq!(within_curves(&table, &history), Ok(()));
        assert_eq!(longest_response(&table, 1, &history), bound);
        assert_eq!(conclusions(&table, &[bound, 17], &history), Ok(()));
        assert!(conclusions(&table, &[bound - 1, 17], &history).is_err());
    }
}

/// The same by hand, as `sim within` has them: the subscription starts in tick 0, and the timer beats
/// in tick 1, from which on the supply of P7 fails.
#[test]
fn p6_and_p7_by_hand() {
    let callbacks = |t| vec![timer(t, &[2]), subscription(2 * t, &[3])];
    let judged = |table: &Table, ticks: &str| {
        let text = hex(&encode(table)) + "\n2 1 3\n" + ticks;
        program(&["within"], text.as_bytes())
    };
    let p6 = "1 1 1\n0 1 1\n0 1 2\n0 1 1\n";
    assert_eq!(judged(&full(callbacks(10)), p6), "within\n1 4 4\n2 5 3\n");
    let rests = [
        "1 0 1\n",
        &"0 0 1\n".repeat(5),
        &"0 1 2\n".repeat(2),
        &"0 0 1\n".repeat(3),
    ];
    let p7 = rests.concat() + "0 1 2\n0 1 1\n";
    let expected = "within\n1 13 13\n2 17 9\n";
    assert_eq!(judged(&supplied(2, 5, callbacks(50)), &p7), expected);
}

/// A sheet of a drawn small table of edition 1 with timers, and a window of at most `most`.
fn sheet_with_timers(random: &mut Random, most: u64) -> Sheet {
    let drawn = (0..1_000).map(|_| in_edition(1, &table(random, Shape::Small)));
    let mut sheets = drawn
        .filter(with_timers_first)
        .filter_map(|table| analysed(&encode(&table)).ok());
    let sheet = sheets.find(|sheet| sheet.window <= most);
    sheet.expect("timers and a short window in a thousand tables")
}

/// The first start of this callback: its time, and the cost that was offered.
fn first_start(history: &History, callback: usize) -> Option<(usize, u64)> {
    let &(time, _) = history.starts(callback).first()?;
    Some((time as usize, history.ticks[time as usize].cost))
}

/// How long the supply fails from this tick on.
fn failing(history: &History, from: usize) -> u64 {
    let ticks = history.ticks[from..].iter();
    ticks.take_while(|tick| !tick.supplied).count() as u64
}

/// The timer and those above it, without the head whose chain brings the blocker.
fn beating(table: &Table, timer: usize, blocker: usize) -> u16 {
    let upper = timers(table).into_iter().filter(|&i| i <= timer);
    let whole = upper.filter(|&i| i != table.head_of(blocker));
    whole.fold(0, |mask, i| mask | bit(i))
}

/// The blocking style: the costliest lower callback starts, at its largest cost, in a supplied tick;
/// in the next one the timers up to the blocked one all beat, and the supply fails for as long as it
/// can. Up to there nothing fails and no cost is spent.
#[test]
fn blocked_just_before_a_beat() {
    let mut random = Random::new(75);
    let (mut blocked, mut alone, mut followers, mut below) = (0, 0, 0, 0);
    for turn in 0..500 {
        let Sheet { table, window, .. } = sheet_with_timers(&mut random, 200);
        let timer = timers(&table)[turn % timers(&table).len()];
        let style = Style::blocking(&mut random, &table, window, timer);
        let history = within(&mut random, &table, &style, 6 * window + 40);
        assert_eq!(within_curves(&table, &history), Ok(()));
        let Some(blocker) = costliest_below(&table, timer) else {
            let lead = style.blocking.expect("a plan").lead as usize;
            let upper = beating(&table, timer, timer) | bit(timer);
            assert_eq!(history.ticks[lead].mask & upper, upper);
            assert_eq!(failing(&history, lead), longest_starvation(&table));
            alone += 1;
            continue;
        };
        let (time, cost) = first_start(&history, blocker).expect("a start");
        assert_eq!(cost, table.callback(blocker).entries[0]);
        assert_eq!(cost - 1, blocking(&table, timer));
        assert!(history.ticks[..=time].iter().all(|tick| tick.supplied));
        assert_eq!(failing(&history, time + 1), longest_starvation(&table));
        let upper = beating(&table, timer, blocker);
        assert_eq!(history.ticks[time + 1].mask & upper, upper);
        assert!(history.ticks[..=time]
            .iter()
            .all(|tick| tick.mask & upper == 0));
        blocked += 1;
        followers += u64::from(!table.is_head(blocker));
        below += u64::from(table.callback(blocker).kind == Kind::Timer);
    }
    assert!(blocked > 250 && alone > 30, "{blocked} {alone}");
    assert!(followers > 30 && below > 20, "{followers} {below}");
}

/// After a rest in which all is made good the timers are blocked again, in the same way but for what
/// costs of before still count.
#[test]
fn blocked_again_and_again() {
    let table = supplied(3, 5, vec![timer(40, &[2]), subscription(40, &[4])]);
    let mut random = Random::new(76);
    let mut again = 0;
    for _ in 0..20 {
        let style = Style::blocking(&mut random, &table, 12, 1);
        let history = within(&mut random, &table, &style, 400);
        let bound = sheet(&table).expect("a sheet").1[0];
        let pairs = history.activations(&table, 1).into_iter();
        let responses = pairs.zip(history.completions(1));
        let met = responses.filter(|(from, to)| to - from == bound).count();
        assert!(met > 0);
        let quiet = style.blocking.expect("a plan").quiet;
        assert!(met > 3 || quiet < recovery(&table));
        again += u64::from(met > 3);
    }
    assert!(again > 8, "{again}");
}

/// Whether a beat is folded (U6). Where none is, the machine does what it did before U6.
fn folds(history: &History) -> bool {
    history.replies.iter().any(|reply| reply.folded != 0)
}

/// With one entry the bound of the first timer is exact, unless the blocker's chain begins with that
/// timer or a beat is folded: nothing is above it, and the blocking style takes all that the bound
/// reckons with.
#[test]
fn first_timers_are_exact() {
    let mut random = Random::new(77);
    let (mut met, mut late, mut partial) = (0, 0, 0);
    while met < 200 {
        let mut table = in_edition(1, &table(&mut random, Shape::Small));
        let Some(&first) = timers(&table).first() else {
            continue;
        };
        table.callbacks[first - 1].entries.truncate(1);
        let blocker = costliest_below(&table, first);
        let Ok((window, bounds)) = sheet(&table) else {
            continue;
        };
        if window > 500 || blocker.is_some_and(|index| table.head_of(index) == first) {
            continue;
        }
        let style = Style::blocking(&mut random, &table, window, first);
        let length = 3 * window + 40;
        let history = within_beating(&mut random, &table, &style, length, Beats::SCHEDULED);
        let longest = longest_response(&table, first, &history);
        if folds(&history) {
            assert!(longest <= bounds[first - 1]);
            continue;
        }
        assert_eq!(longest, bounds[first - 1]);
        met += 1;
        late += u64::from(table.delay > 0);
        partial += u64::from(table.budget < table.period);
    }
    assert!(late > 50 && partial > 50, "{late} {partial}");
}

/// The largest response of a timer if a beat above that comes while its last instance runs delays
/// nothing: this instance starts in the first supplied tick up to which all before it is done, and
/// then runs to its end. (for timers with one entry each)
fn without_late_beats(table: &Table, timer: usize, own_window: u64) -> u64 {
    let callback = table.callback(timer);
    let upper: Vec<usize> = timers(table).into_iter().filter(|&i| i < timer).collect();
    let above = |length| -> u64 {
        let each = upper.iter().map(|&i| table.callback(i));
        each.map(|c| cost(&c.entries, arrivals(c, length))).sum()
    };
    let supply = |length| delayed_supply(table, length);
    let response = |offset: u64| {
        let earlier = blocking(table, timer) + cost(&callback.entries, arrivals(callback, offset));
        let starts = |&tick: &u64| {
            supply(tick + 1) > supply(tick) && supply(tick) >= earlier + above(tick + 1)
        };
        let start = (offset..).find(starts).expect("a start");
        let done = |&length: &u64| supply(length) >= supply(start) + callback.entries[0];
        (start..).find(done).expect("an end") - offset
    };
    let beats = (0..own_window).filter(|&a| arrivals(callback, a + 1) > arrivals(callback, a));
    beats.map(response).max().expect("a beat")
}

/// With one entry each, the blocking style takes all that there is for lower timers too. Their bound
/// is not met where a timer above beats while the last instance runs: its cost is in D. (histories
/// in which a beat is folded apart)
#[test]
fn lower_timers_are_exact_but_for_late_beats() {
    let mut random = Random::new(80);
    let (mut met, mut unmet) = (0, 0);
    while met + unmet < 120 {
        let mut table = in_edition(1, &table(&mut random, Shape::Small));
        for callback in &mut table.callbacks {
            callback.entries.truncate(1);
        }
        let Some(&timer) = timers(&table).get(1) else {
            continue;
        };
        let bait = costliest_below(&table, timer).map(|index| table.head_of(index));
        let Ok((window, bounds)) = sheet(&table) else {
            continue;
        };
        if window > 300 || bait.is_some_and(|head| timers(&table)[..2].contains(&head)) {
            continue;
        }
        let style = Style::blocking(&mut random, &table, window, timer);
        let length = 4 * window + 40;
        let history = within_beating(&mut random, &table, &style, length, Beats::SCHEDULED);
        let longest = longest_response(&table, timer, &history);
        if folds(&history) {
            assert!(longest <= bounds[timer - 1]);
            continue;
        }
        let (_, own_window) = own(&table, timer);
        assert_eq!(longest, without_late_beats(&table, timer, own_window));
        met += u64::from(longest == bounds[timer - 1]);
        unmet += u64::from(longest < bounds[timer - 1]);
    }
    assert!(met > 60 && unmet > 5, "{met} {unmet}");
}

/// The style has its turns for tables of edition 1 with timers, one timer after the other; others
/// have those of before.
#[test]
fn turns_of_the_style() {
    let mut random = Random::new(78);
    let mut seen = [0; 4];
    for _ in 0..400 {
        let table = table(&mut random, Shape::Small);
        let (known, others) = (timers(&table), 4 + u64::from(table.delay > 0));
        assert_eq!(known.len() as u64, timers_first(&table));
        assert_eq!(styles(&table), others + u64::from(!known.is_empty()));
        let mut blocker = |turn| {
            let style = Style::of_turn(&mut random, &table, 20, turn);
            style.blocking.map(|plan| plan.blocker)
        };
        let blockers: Vec<_> = turns(&table).into_iter().filter_map(&mut blocker).collect();
        let rounds = match known.len() {
            1 => 2,
            number => number,
        };
        let expected = known.iter().cycle().take(rounds);
        assert!(expected.map(|&i| costliest_below(&table, i)).eq(blockers));
        assert_eq!(turns(&table).len(), 1 + 2 * others as usize + rounds);
        seen[known.len().min(3)] += 1;
    }
    assert!(seen.iter().all(|&count| count > 10), "{seen:?}");
}

/// All histories of a table within its curves, by depth first: what is still permitted, when the
/// timers beat, and the longest responses so far.
#[derive(Clone)]
struct Branch<'a> {
    state: State,
    supply: SupplyTracker,
    arrivals: Vec<ArrivalTracker>,
    costs: Vec<CostTracker<'a>>,
    beats: Vec<Vec<u64>>,
}

/// A search ends after so many.
const MOST_HISTORIES: u64 = 60_000;

struct Search<'a> {
    table: &'a Table,
    length: u64,
    longest: Vec<u64>,
    histories: u64,
}

impl Search<'_> {
    /// The longest responses of all callbacks in all histories of so many ticks.
    fn over(table: &Table, length: u64) -> (Vec<u64>, u64) {
        let mut search = Search {
            table,
            length,
            longest: vec![0; table.count()],
            histories: 0,
        };
        let branch = Branch {
            state: start(&encode(table)).state,
            supply: SupplyTracker::new(table),
            arrivals: table.callbacks.iter().map(ArrivalTracker::new).collect(),
            costs: table.callbacks.iter().map(CostTracker::new).collect(),
            beats: vec![Vec::new(); table.count()],
        };
        search.go(&branch, 0);
        (search.longest, search.histories)
    }

    /// Every mask, with and without supply, and every cost where an instance starts. A folded beat (U6)
    /// changes nothing, so that a mask with one has no branch of its own.
    fn go(&mut self, branch: &Branch, time: u64) {
        if time == self.length || self.histories == MOST_HISTORIES {
            self.histories += u64::from(time == self.length);
            return;
        }
        for mask in 0..1 << self.table.count() {
            let set = |i: &usize| mask & bit(*i) != 0;
            let heads: Vec<usize> = (1..=self.table.count()).filter(set).collect();
            let permits = |i: &usize| branch.arrivals[i - 1].permits(time);
            let timer = |i: usize| self.table.callback(i).kind == Kind::Timer;
            let kept = |i: &usize| !timer(*i) || branch.state.unstarted(*i) == 0;
            let head = |i: &usize| self.table.is_head(*i) && permits(i) && kept(i);
            if !heads.iter().all(head) {
                continue;
            }
            let mut next = branch.clone();
            for &head in &heads {
                next.arrivals[head - 1].activate(time);
                next.beats[head - 1].push(time);
            }
            for supplied in [true, false] {
                if supplied || branch.supply.may_starve() {
                    self.costs(&next, time, mask, supplied);
                }
            }
        }
    }

    fn costs(&mut self, branch: &Branch, time: u64, mask: u16, supplied: bool) {
        let offer = |cost| Tick {
            mask,
            supplied,
            cost,
        };
        let probe = branch.state.clone().tick(offer(60_000)).reply;
        let started = match probe.outcome {
            Ok(Answer::Ran { callback, .. }) if probe.started => callback,
            _ => 0,
        };
        let most = match started {
            0 => 1,
            callback => branch.costs[callback - 1].largest(),
        };
        for cost in 1..=most {
            let mut next = branch.clone();
            let step = branch.state.clone().tick(offer(cost));
            next.state = step.state;
            next.supply.tick(supplied);
            if started != 0 {
                next.costs[started - 1].start(cost);
            }
            if let Ok(Answer::Finished { callback, instance }) = step.reply.outcome {
                let beats = &branch.beats[self.table.head_of(callback) - 1];
                let response = time + 1 - beats[instance as usize - 1];
                self.longest[callback - 1] = self.longest[callback - 1].max(response);
            }
            self.go(&next, time + 1);
        }
    }
}

/// Small tables with every history that is within their curves: no response exceeds the row, and
/// those of the timers come up to it. (the lower of two timers is not always met: a beat of the upper
/// one that comes while it runs does not delay it, but is in its D)
#[test]
fn every_history_of_small_tables() {
    let client = |entries: &[u64]| lone(Kind::Client, 20, 0, 20, entries);
    let burst = lone(Kind::Timer, 8, 6, 2, &[1]);
    let late = |callbacks| delayed(1, &full(callbacks));
    for (table, length, row) in [
        (
            full(vec![timer(20, &[2]), subscription(20, &[3])]),
            8,
            [4, 5].to_vec(),
        ),
        (full(vec![client(&[3]), burst]), 9, vec![5, 3]),
        (late(vec![timer(20, &[1]), client(&[3])]), 8, vec![4, 5]),
        (
            supplied(1, 2, vec![timer(30, &[1]), client(&[2])]),
            9,
            vec![5, 7],
        ),
        (
            full(vec![timer(20, &[1]), timer(20, &[2]), client(&[2])]),
            8,
            vec![2, 4, 5],
        ),
    ] {
        assert_eq!(sheet(&table).map(|(_, row)| row), Ok(row.clone()));
        let (longest, histories) = Search::over(&table, length);
        assert!((400..MOST_HISTORIES).contains(&histories), "{histories}");
        assert!(longest
            .iter()
            .zip(&row)
            .all(|(longest, bound)| longest <= bound));
        for timer in timers(&table) {
            assert_eq!(longest[timer - 1], row[timer - 1], "{table:?}");
        }
    }
}

/// Drawn tables of two or three callbacks, searched in the same way as far as it goes: no response
/// exceeds the row, and most of the timers' bounds that the whole search can show are met.
#[test]
fn every_history_of_tiny_tables() {
    let mut random = Random::new(79);
    let (mut searched, mut met, mut shown) = (0, 0, 0);
    while searched < 60 {
        let mut table = in_edition(1, &table(&mut random, Shape::Small));
        table.delay = random.range(0, 1);
        let costs = |c: &Callback| c.entries[0] <= 3;
        if !with_timers_first(&table) || table.count() > 3 || !table.callbacks.iter().all(costs) {
            continue;
        }
        let Ok((window, row)) = sheet(&table) else {
            continue;
        };
        if window > 8 {
            continue;
        }
        let (longest, histories) = Search::over(&table, 9);
        for (place, (&longest, &bound)) in longest.iter().zip(&row).enumerate() {
            assert!(longest <= bound, "{table:?} {}", place + 1);
            if has_second_bound(&table, place + 1) && histories < MOST_HISTORIES {
                shown += 1;
                met += u64::from(longest == bound);
            }
        }
        searched += 1;
    }
    assert!(shown > 30 && 3 * met > 2 * shown, "{shown} {met}");
}

/// The number behind these words in what a check prints.
fn told(text: &str, words: &str) -> u64 {
    let mut rests = text.lines().filter_map(|line| line.strip_prefix(words));
    let number = rests.find_map(|rest| rest.strip_prefix(' ')?.parse().ok());
    number.unwrap_or_else(|| panic!("{words}\n{text}"))
}

/// `sim check` counts the timers of edition 1, those that U5 gives a smaller bound, and how many of
/// each row were reached. The bounds of before are reached where they stayed, and nowhere else.
#[test]
fn check_tells_of_timers() {
    let sheets = (1..=80).filter_map(|seed| analysed(&encode(&checked_table(seed))).ok());
    let sheets: Vec<Sheet> = sheets.filter(|sheet| sheet.window <= 300).collect();
    let (mut known, mut lowered, mut all) = (0, 0, 0);
    for sheet in &sheets {
        let before = first_bounds(&sheet.table, sheet.window);
        known += timers_first(&sheet.table);
        lowered += sheet
            .bounds
            .iter()
            .zip(before)
            .filter(|(bound, before)| *bound < before)
            .count() as u64;
        all += sheet.bounds.len() as u64;
    }
    let text = program(&["check", "1", "80", "300"], b"");
    let said = |words: &str| told(&text, words);
    assert_eq!((said("bounds"), said("timers of U5")), (all, known));
    assert_eq!(said("timers of U5 with a smaller bound"), lowered);
    let reached = said("timers of U5 reached exactly");
    let before = said("timers of U5 before it reached exactly");
    assert!(before > 0 && before <= known - lowered && before + 10 < reached && reached <= known);
    let others = said("reached exactly") - reached;
    assert_eq!(said("before U5 reached exactly"), others + before);
    let means = [
        "timers of U5 mean thousandths",
        "timers of U5 before it mean thousandths",
    ];
    assert!(said(means[0]) > said(means[1]) && said(means[0]) <= 1_000);
    assert!(said("mean thousandths of the bound") > said("before U5 mean thousandths"));
}
