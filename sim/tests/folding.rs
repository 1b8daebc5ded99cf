//! Missed beats are folded (request U6 of document 02): when, what it leaves, that the curves and
//! demand 3 take no note of such beats, and that the generators reach all of this.

mod common;
use common::*;
use sim::frames::{packed_history, replies};
use sim::generate::beats::{timers, Beats};
use sim::generate::edges::{base, beating, late};
use sim::generate::histories::{
    covering, folding, outside, starved, within, within_beating, Style,
};
use sim::generate::states::{sound, spoil};
use sim::generate::tables::{table, Shape};
use sim::history::{
    conclusions, longest_response, play, within_curves, within_curves_literal, Departure, History,
    Violation,
};
use sim::machine::Answer::Finished;
use sim::machine::{bit, start, Reply, State, Tick};
use sim::picture::{svg, svg_part};
use sim::random::Random;
use sim::sheet::arrivals;
use sim::table::{encode, read, Kind, Table};
use sim::text::{hex, reply_text, script, Line, Script};

const EDITIONS: [u8; 2] = [1, 2];

fn fresh(table: &Table) -> State {
    start(&encode(table)).state
}

/// Timers 1 and 2 and subscription 3.
fn trio(edition: u8) -> Table {
    let callbacks = vec![timer(10, &[3]), timer(10, &[3]), subscription(10, &[3])];
    in_edition(edition, &full(callbacks))
}

fn timer_mask(table: &Table) -> u16 {
    timers(table).into_iter().fold(0, |mask, i| mask | bit(i))
}

fn folds(history: &History) -> u64 {
    let masks = history.replies.iter().map(|reply| reply.folded);
    masks.map(|mask| u64::from(mask.count_ones())).sum()
}

/// The folded masks of a history of the trio from the fresh state.
fn folded(edition: u8, ticks: &[Tick]) -> Vec<u16> {
    let replies = play(&encode(&trio(edition)), ticks).replies;
    assert!(replies.iter().all(|reply| reply.outcome.is_ok()));
    replies.iter().map(|reply| reply.folded).collect()
}

/// One timer: a beat that meets an unstarted instance is folded, whether the tick starts it, starts
/// and finishes it, finishes another or has no supply; a beat that meets none, or only one that
/// runs, is kept.
#[test]
fn one_timer_at_each_moment() {
    for edition in EDITIONS {
        let (on, off) = (|cost| tick(1, cost), unsupplied(1, 1));
        assert_eq!(folded(edition, &[off, off, off]), [0, 1, 1]);
        assert_eq!(folded(edition, &[off, on(3), on(1), on(1)]), [0, 1, 0, 1]);
        assert_eq!(folded(edition, &[off, on(1), on(1), on(1)]), [0, 1, 0, 0]);
        assert_eq!(folded(edition, &[on(2), off, off, on(1)]), [0, 0, 1, 1]);
        // It finishes with none behind it, and then with one behind it.
        assert_eq!(folded(edition, &[on(2), on(1), tick(0, 1)]), [0, 0, 0]);
        assert_eq!(folded(edition, &[on(3), on(1), on(1), on(1)]), [0, 0, 1, 1]);
        assert_eq!(folded(edition, &[on(60_000), on(1), on(1)]), [0, 0, 1]);
    }
}

/// Timers are folded each by itself, and in the same tick others are kept and the subscription
/// queues.
#[test]
fn timers_beside_each_other() {
    for edition in EDITIONS {
        let ticks = [unsupplied(5, 1), unsupplied(7, 1), tick(7, 3), tick(7, 1)];
        assert_eq!(folded(edition, &ticks), [0, 1, 3, 2]);
        let mut state = fresh(&trio(edition));
        for tick in ticks {
            state = state.tick(tick).state;
        }
        assert_eq!((&state.waiting[..3], state.running), (&[2, 1, 4][..], 1));
    }
}

/// A timer that waits for another callback, or for the poll, folds until it starts.
#[test]
fn timer_behind_others() {
    let ticks = [4, 1, 3, 3, 3, 3, 3, 3].map(|mask| tick(mask, 3));
    // 3 runs in ticks 0 to 2, timer 1 in ticks 3 to 5; then, in edition 1, timer 1 again.
    assert_eq!(folded(1, &ticks), [0, 0, 1, 3, 2, 3, 3, 2]);
    // In edition 2 timer 2 was taken by the same poll as timer 1, and runs from tick 6 on.
    assert_eq!(folded(2, &ticks), [0, 0, 1, 3, 2, 3, 3, 1]);
}

/// Waiting, running, units: a timer 1 of the trio as a host may write it.
fn written(edition: u8, waiting: u64, runs: bool) -> State {
    let mut state = fresh(&trio(edition));
    state.waiting[0] = waiting;
    if runs {
        (state.running, state.units) = (1, 2);
        state.cache = if edition == 2 { 1 } else { 0 };
    }
    state
}

/// Whatever number waits, running or not, supplied or not: a beat is folded where one of them has
/// not started, and changes nothing but the folded mask; else one more waits.
#[test]
fn any_number_waiting() {
    for edition in EDITIONS {
        for (waiting, runs) in (0..=255).flat_map(|w| [(w, false), (w, true)]) {
            if runs && waiting == 0 {
                continue;
            }
            let state = written(edition, waiting, runs);
            let unstarted = waiting - u64::from(runs);
            for tick in [tick(1, 2), unsupplied(1, 2), tick(1, 1)] {
                let step = state.clone().tick(tick);
                let bare = state.clone().tick(Tick { mask: 0, ..tick });
                assert!(step.reply.outcome.is_ok());
                assert_eq!(
                    step.reply.folded,
                    u16::from(unstarted > 0),
                    "{waiting} {runs}"
                );
                if unstarted > 0 {
                    let reply = Reply {
                        folded: 0,
                        ..step.reply
                    };
                    assert_eq!((&step.state, reply), (&bare.state, bare.reply));
                } else {
                    let gone = u64::from(matches!(step.reply.outcome, Ok(Finished { .. })));
                    assert_eq!(step.state.waiting[0] + gone, waiting + 1);
                }
            }
        }
    }
}

/// A full timer: from 255 waiting its beats are folded until one is left that runs.
#[test]
fn full_timer_runs_down() {
    for edition in EDITIONS {
        let mut state = written(edition, 255, false);
        for left in (0..255).rev() {
            let step = state.tick(tick(1, 1));
            assert_eq!((step.reply.folded, step.state.waiting[0]), (1, left));
            state = step.state;
        }
        let step = state.tick(tick(1, 2));
        assert_eq!((step.reply.folded, step.state.waiting[0]), (0, 1));
    }
}

/// A state of the trio in which a beat of timer 1 is folded, and each refusal of a tick with that beat.
#[test]
fn refused_ticks_fold_nothing() {
    let refused = |state: &State, tick: Tick, number| {
        let step = state.clone().tick(tick);
        let outcome = step.reply.outcome.expect_err("a refusal");
        assert_eq!((outcome.number, step.reply.folded), (number, 0));
        assert_eq!(&step.state, state);
    };
    for edition in EDITIONS {
        let state = written(edition, 3, false);
        assert_eq!(state.clone().tick(tick(1, 1)).reply.folded, 1);
        let faulty = State {
            units: 1,
            ..state.clone()
        };
        refused(&faulty, tick(1, 1), 29);
        let ended = State {
            ticks: 1_000_000_000,
            ..state.clone()
        };
        refused(&ended, tick(1, 1), 18);
        refused(&state, tick(1, 0), 19);
        refused(&state, unsupplied(1, 60_001), 19);
        refused(&state, tick(9, 1), 20);
        let mut crowded = state.clone();
        crowded.waiting[2] = 255;
        refused(&crowded, tick(5, 1), 21);
        refused(&crowded, unsupplied(7, 1), 21);
        refused(&start(&[]).state, tick(1, 1), 29);
    }
}

/// Refusal 21 of a follower that this tick would activate, in a tick with a folded beat.
#[test]
fn full_follower_beside_a_folded_beat() {
    for edition in EDITIONS {
        let mut state = fresh(&in_edition(edition, &chain()));
        state.waiting[..2].copy_from_slice(&[255, 255]);
        let step = state.clone().tick(tick(1, 1));
        assert_eq!(step.reply.outcome, Err(refusal(21, 2)));
        assert_eq!(step.reply.folded, 0);
        let step = state.tick(tick(1, 2));
        assert!(step.reply.outcome.is_ok() && step.reply.folded == 1);
    }
}

/// Only timers are folded: the same with every other kind queues up to 255.
#[test]
fn other_kinds_queue() {
    for kind in [Kind::Subscription, Kind::Service, Kind::Client] {
        let table = full(vec![lone(kind, 10, 0, 10, &[1])]);
        for edition in EDITIONS {
            let mut state = fresh(&in_edition(edition, &table));
            for waiting in 1..=255 {
                let step = state.tick(unsupplied(1, 1));
                assert_eq!((step.reply.folded, step.state.waiting[0]), (0, waiting));
                state = step.state;
            }
            let step = state.tick(unsupplied(1, 1));
            assert_eq!(step.reply.outcome, Err(refusal(21, 1)));
        }
    }
}

/// The folded masks of a history from the fresh state, by another way, from ticks and replies alone:
/// a timer has an unstarted instance where more of its beats were kept than instances started in the
/// ticks before.
fn folded_by_counting(table: &Table, history: &History) -> Vec<u16> {
    let mut open = [0i64; 17];
    let mut masks = Vec::new();
    for (tick, reply) in history.ticks.iter().zip(&history.replies) {
        let mut folded = 0;
        if reply.outcome.is_ok() {
            for timer in timers(table) {
                let beats = tick.mask & bit(timer) != 0;
                if beats && open[timer] > 0 {
                    folded |= bit(timer);
                }
                open[timer] += i64::from(beats && open[timer] == 0);
            }
        }
        if reply.started {
            let words = reply_text(0, reply);
            let callback: usize = words.split(' ').nth(2).unwrap().parse().unwrap();
            open[callback] -= 1;
        }
        masks.push(folded);
    }
    masks
}

/// Drawn tables of both editions and histories within the curves and outside them.
fn drawn_histories(seed: u64, count: usize) -> Vec<(Table, History)> {
    let mut random = Random::new(seed);
    let mut drawn = Vec::new();
    while drawn.len() < count {
        let table = table(&mut random, Shape::Small);
        let Ok((window, _)) = sheet(&table) else {
            continue;
        };
        let style = Style::any(&mut random, &table, window.min(40));
        drawn.push((table.clone(), within(&mut random, &table, &style, 150)));
        let ticks = outside(&mut random, &table, 150);
        let history = play(&encode(&table), &ticks);
        drawn.push((table, history));
    }
    drawn
}

/// The machine folds what the counting has folded, only timers that beat, and nothing in a refused
/// tick.
#[test]
fn counting_agrees_with_the_machine() {
    let (mut total, mut refused) = ([0; 3], 0);
    for (table, history) in drawn_histories(601, 3_000) {
        let folded: Vec<u16> = history.replies.iter().map(|r| r.folded).collect();
        assert_eq!(folded, folded_by_counting(&table, &history), "{table:?}");
        for (tick, reply) in history.ticks.iter().zip(&history.replies) {
            assert_eq!(reply.folded & !(tick.mask & timer_mask(&table)), 0);
            assert!(reply.outcome.is_ok() || reply.folded == 0);
            refused += u64::from(reply.outcome.is_err());
        }
        total[usize::from(table.edition)] += folds(&history);
    }
    assert!(total[1] > 5_000 && total[2] > 5_000 && refused > 1_000);
}

/// From the fresh state a timer never has more than one unstarted instance, nor more than two in all.
#[test]
fn one_unstarted_at_most() {
    let (mut ones, mut pairs) = ([0; 3], [0; 3]);
    for (table, history) in drawn_histories(602, 2_000) {
        let mut state = fresh(&table);
        for &tick in &history.ticks {
            state = state.tick(tick).state;
            for timer in timers(&table) {
                assert!(state.unstarted(timer) <= 1 && state.waiting(timer) <= 2);
                ones[usize::from(table.edition)] += u64::from(state.unstarted(timer) == 1);
                pairs[usize::from(table.edition)] += u64::from(state.waiting(timer) == 2);
            }
        }
    }
    assert!(ones[1].min(ones[2]) > 1_000 && pairs[1].min(pairs[2]) > 1_000);
}

/// A tick of any written state does what it does without its folded beats, and no timer is ever
/// refused with 21.
#[test]
fn folded_beats_change_nothing_in_written_states() {
    let mut random = Random::new(603);
    let (mut folding, mut full) = ([0; 3], [0; 3]);
    for _ in 0..40_000 {
        let table = table(&mut random, Shape::Small);
        let mut state = sound(&mut random, &table);
        if random.chance(20) {
            spoil(&mut random, &table, &mut state);
        }
        for tick in outside(&mut random, &table, 4) {
            let step = state.clone().tick(tick);
            let edition = usize::from(table.edition);
            match step.reply.outcome {
                Ok(_) => {
                    let mask = tick.mask & !step.reply.folded;
                    let kept = state.tick(Tick { mask, ..tick });
                    let folded = step.reply.folded;
                    assert_eq!(
                        Reply {
                            folded,
                            ..kept.reply
                        },
                        step.reply
                    );
                    assert_eq!((kept.state, kept.reply.folded), (step.state.clone(), 0));
                    folding[edition] += u64::from(folded != 0);
                }
                Err(refusal) if refusal.number == 21 => {
                    let index = usize::from(refusal.index);
                    assert!(read(&state.table).unwrap().callback(index).kind != Kind::Timer);
                    full[edition] += 1;
                }
                Err(_) => assert_eq!(step.reply.folded, 0),
            }
            state = step.state;
        }
    }
    assert!(folding[1].min(folding[2]) > 5_000 && full[1].min(full[2]) > 1_000);
}

/// Timer 1 with T 10 and cost 2, subscription 2 with T 20 and cost 3 (P6), and its bounds.
fn pair(edition: u8) -> (Table, Vec<u64>) {
    let table = full(vec![timer(10, &[2]), subscription(20, &[3])]);
    let table = in_edition(edition, &table);
    let (_, bounds) = sheet(&table).expect("a sheet");
    (table, bounds)
}

/// How a history leaves the curves, seen to be the same in both ways.
fn departure(table: &Table, history: &History) -> Option<Departure> {
    let first = within_curves(table, history);
    assert_eq!(first, within_curves_literal(table, history));
    first.err()
}

/// The subscription starts; while it runs and while the timer waits, the timer beats in every tick,
/// far more often than once in ten. One beat counts, and all is within and in time.
#[test]
fn surplus_beats_cost_nothing() {
    for edition in EDITIONS {
        let (table, bounds) = pair(edition);
        let masks = [2, 1, 1, 1, 0, 0, 0, 0, 0, 0, 0, 1];
        let costs = [3, 1, 1, 2, 1, 1, 1, 1, 1, 1, 1, 2];
        let mut ticks: Vec<Tick> = masks.iter().zip(costs).map(|(&m, c)| tick(m, c)).collect();
        let history = play(&encode(&table), &ticks);
        assert_eq!(history.activations(&table, 1), [1, 11]);
        assert_eq!(history.folded(1), [2, 3]);
        assert_eq!(departure(&table, &history), None);
        assert_eq!(conclusions(&table, &bounds, &history), Ok(()));
        assert_eq!(longest_response(&table, 1, &history), 4);
        // In tick 4 the timer runs: a beat is kept there, and it is too early.
        ticks[4].mask = 1;
        let history = play(&encode(&table), &ticks);
        assert_eq!(history.activations(&table, 1), [1, 4, 11]);
        let (head, from, length) = (1, 0, 5);
        let early = Departure::Arrivals { head, from, length };
        assert_eq!(departure(&table, &history), Some(early));
    }
}

/// An activation is what the reply leaves of the mask: a made-up reply that folds a beat takes the
/// activation away, from the start, the bound and the curves. A refused tick's beat stays one.
#[test]
fn folded_beats_are_no_activations() {
    let (table, bounds) = pair(1);
    let mut history = play(&encode(&table), &[tick(1, 2), tick(0, 1), tick(0, 1)]);
    history.replies[0].folded = 1;
    assert!(history.activations(&table, 1).is_empty());
    let early = Violation::EarlyStart {
        callback: 1,
        instance: 1,
        time: 0,
    };
    assert_eq!(conclusions(&table, &bounds, &history), Err(early));
    assert_eq!(longest_response(&table, 1, &history), 0);
    history.ticks[1].mask = 1;
    assert_eq!(history.activations(&table, 1), [1]);
    assert_eq!(departure(&table, &history), None);
    let ticks = [unsupplied(1, 1), unsupplied(1, 0), unsupplied(1, 1)];
    let history = play(&encode(&table), &ticks);
    assert_eq!(
        (history.activations(&table, 1), history.folded(1)),
        (vec![0, 1], vec![2])
    );
    // A bit that is no head's stays outside, whatever is folded.
    let mut history = play(&encode(&table), &[tick(4, 1)]);
    history.replies[0].folded = 4;
    assert_eq!(
        departure(&table, &history),
        Some(Departure::Mask { tick: 0 })
    );
}

/// How often the timers of a history beat, and how often their curves permit at most.
fn beats_and_permitted(table: &Table, history: &History) -> (u64, u64) {
    let length = history.ticks.len() as u64;
    let masks = history
        .ticks
        .iter()
        .map(|tick| tick.mask & timer_mask(table));
    let beats = masks.map(|mask| u64::from(mask.count_ones())).sum();
    let permitted = timers(table).into_iter();
    let permitted = permitted.map(|i| arrivals(table.callback(i), length)).sum();
    (beats, permitted)
}

/// Drawn histories within the curves have beats that are folded, many of them far more beats than the
/// curves permit activations; both ways have them within, and the conclusions hold.
#[test]
fn drawn_histories_have_surplus_beats() {
    let mut random = Random::new(604);
    let (mut all, mut folding, mut far) = ([0; 3], [0; 3], [0; 3]);
    while all[1].min(all[2]) < 300 {
        let table = table(&mut random, Shape::Small);
        let Ok((window, bounds)) = sheet(&table) else {
            continue;
        };
        if timers(&table).is_empty() {
            continue;
        }
        let style = Style::any(&mut random, &table, window.min(40));
        let history = within(&mut random, &table, &style, 160);
        assert_eq!(departure(&table, &history), None);
        assert_eq!(conclusions(&table, &bounds, &history), Ok(()));
        let edition = usize::from(table.edition);
        let (beats, permitted) = beats_and_permitted(&table, &history);
        all[edition] += 1;
        folding[edition] += u64::from(folds(&history) > 0);
        far[edition] += u64::from(beats > 2 * permitted);
    }
    for edition in [1, 2] {
        assert!(
            5 * folding[edition] > 2 * all[edition],
            "{folding:?} of {all:?}"
        );
        assert!(8 * far[edition] > all[edition], "{far:?} of {all:?}");
    }
}

/// A kept beat more than the curve permits is seen, wherever one can be put into a drawn history.
#[test]
fn surplus_beats_that_are_kept_leave_the_curves() {
    let mut random = Random::new(605);
    let (mut outside, mut free) = (0, 0);
    for (table, history) in drawn_histories(606, 2_000).into_iter().step_by(2) {
        let timers = timers(&table);
        if timers.is_empty() {
            continue;
        }
        let timer = *random.pick(&timers);
        let last = random.range(0, 149) as usize;
        // Only up to this tick, so that nothing that comes of it is in the history; and whatever
        // starts in it may cost 1.
        let mut ticks = history.ticks[..=last].to_vec();
        ticks[last].cost = 1;
        let before = play(&encode(&table), &ticks).activations(&table, timer);
        ticks[last].mask |= bit(timer);
        let after = play(&encode(&table), &ticks);
        let activations = after.activations(&table, timer);
        let curve = table.callback(timer);
        let since = |&from: &u64| activations.iter().filter(|&&time| time >= from).count() as u64;
        let most = |&from: &u64| arrivals(curve, last as u64 + 1 - from);
        let early = activations.iter().any(|from| since(from) > most(from));
        assert_eq!(departure(&table, &after).is_some(), early, "{table:?}");
        assert!(!early || activations.len() == before.len() + 1);
        outside += u64::from(early);
        free += u64::from(after.replies[last].folded & bit(timer) != 0);
    }
    assert!(outside > 100 && free > 20, "{outside} {free}");
}

/// Surplus beats have draws of their own and change nothing: the same history without them has the
/// same ticks but for folded bits, and the same replies but for these. A permitted beat that is folded
/// is the same for a clock that takes no note.
#[test]
fn surplus_beats_change_nothing_else() {
    let mut random = Random::new(607);
    let mut surplus = 0;
    for seed in 0..600 {
        let table = table(&mut random, Shape::Small);
        let style = Style::any(&mut random, &table, 20);
        let drawn = |beats| {
            let random = &mut Random::new(seed);
            (
                within_beating(random, &table, &style, 120, beats),
                random.bits(),
            )
        };
        let eager = seed % 2 == 0;
        let [few, many] = [0, 100].map(|surplus| drawn(Beats { eager, surplus }));
        assert_eq!(few.1, many.1);
        let stripped = |history: &History| -> Vec<(Tick, Reply)> {
            let ticks = history.ticks.iter().zip(&history.replies);
            let strip = |(tick, reply): (&Tick, &Reply)| {
                let mask = tick.mask & !reply.folded;
                (
                    Tick { mask, ..*tick },
                    Reply {
                        folded: 0,
                        ..*reply
                    },
                )
            };
            ticks.map(strip).collect()
        };
        assert_eq!(stripped(&few.0), stripped(&many.0));
        surplus += folds(&many.0) - folds(&few.0);
    }
    assert!(surplus > 3_000);
}

/// Histories outside the curves flood timers: in most of those of tables with timers beats are folded.
#[test]
fn outside_histories_flood_timers() {
    let mut random = Random::new(608);
    let (mut all, mut folding) = ([0; 3], [0; 3]);
    for _ in 0..600 {
        let table = table(&mut random, Shape::Small);
        if timers(&table).is_empty() {
            continue;
        }
        let history = play(&encode(&table), &outside(&mut random, &table, 100));
        all[usize::from(table.edition)] += 1;
        folding[usize::from(table.edition)] += u64::from(folds(&history) > 0);
    }
    assert!(all[1].min(all[2]) > 60);
    assert!(
        2 * folding[1] > all[1] && 2 * folding[2] > all[2],
        "{folding:?} {all:?}"
    );
}

/// What timers met in ticks right behind a written state: by edition the numbers that waited, with the
/// timer running or not, and whether a beat was kept.
struct Met {
    waiting: [[[bool; 2]; 256]; 3],
    kept: [[bool; 2]; 3],
}

impl Met {
    fn note(&mut self, state: &State, tick: Tick, reply: &Reply) {
        let (Ok(table), Ok(_)) = (read(&state.table), reply.outcome) else {
            return;
        };
        let edition = usize::from(table.edition);
        for timer in timers(&table) {
            if tick.mask & bit(timer) != 0 {
                let runs = usize::from(state.running == timer);
                self.waiting[edition][state.waiting(timer) as usize][runs] = true;
                self.kept[edition][runs] |= reply.folded & bit(timer) == 0;
            }
        }
    }

    /// Takes note of a history with written states.
    fn follow(&mut self, drawn: &Script) {
        let mut state = start(&drawn.table).state;
        let mut wrote = false;
        for line in &drawn.lines {
            match line {
                Line::Set(change) => change.apply(&mut state),
                Line::Tick(tick) => {
                    let step = state.clone().tick(*tick);
                    if wrote {
                        self.note(&state, *tick, &step.reply);
                    }
                    state = step.state;
                }
            }
            wrote = matches!(line, Line::Set(_));
        }
    }
}

/// Faulty histories have states with each of these numbers of a timer waiting, running and not, and
/// beats of it in the tick behind, folded and kept.
#[test]
fn faulty_histories_have_such_timers() {
    let mut met = Met {
        waiting: [[[false; 2]; 256]; 3],
        kept: [[false; 2]; 3],
    };
    for seed in 1..=300u64 {
        let words = ["generate", "history", &seed.to_string(), "faulty", "60"];
        met.follow(&script(&program(&words, b"")).unwrap());
    }
    for edition in [1, 2] {
        let mut counts = [1, 2, 3, 254, 255].into_iter();
        assert!(counts.all(|waiting| met.waiting[edition][waiting] == [true, true]));
        assert!(met.waiting[edition][0][0] && met.kept[edition] == [true, true]);
    }
}

/// Demand 3 on drawn tables, of which many histories fold.
#[test]
fn check_counts_folded_beats() {
    let totals = sim::check::check(7_000, 150, 300);
    assert!(
        totals.in_order(),
        "{:?} {:?}",
        totals.outside,
        totals.violations
    );
    assert!(totals.folding > 200 && totals.folded > 10 * totals.folding);
    let text = program(&["check", "7000", "150", "300"], b"");
    for line in [
        format!("folded beats {}\n", totals.folded),
        format!("histories with folded beats {}\n", totals.folding),
    ] {
        assert!(text.contains(&line));
    }
}

/// The lines of the packed history of six callbacks in this edition.
fn vector(edition: u8) -> Vec<String> {
    let text = replies(&packed_history(&encode(&beating(edition)), &folding()));
    text.lines().map(str::to_string).collect()
}

/// `sim generate histories` ends with the folding history in each edition.
#[test]
fn packed_histories_of_folded_beats() {
    let packed = std::process::Command::new(env!("CARGO_BIN_EXE_sim"))
        .args(["generate", "histories"])
        .output();
    let covered = EDITIONS.map(|e| packed_history(&encode(&base(e)), &covering(e)));
    let starving = packed_history(&encode(&late()), &starved());
    let beaten = EDITIONS.map(|e| packed_history(&encode(&beating(e)), &folding()));
    let expected = [covered.concat(), starving, beaten.concat()].concat();
    assert_eq!(packed.unwrap().stdout, expected);
    assert!(folding().len() < 80);
}

/// One timer in the packed history, reckoned by hand from U6: ticks 0 to 14, the same in both editions
/// but for the polls.
#[test]
fn one_timer_of_the_packed_history() {
    let first = [
        "0 1 0 0 0 0 0 0",
        "1 1 0 0 0 0 0 4",
        "2 refused 19 0",
        "3 refused 20 2",
        "4 1 0 0 0 0 0 0",
        "5 3 3 1 1 0 0 4",
        "6 3 3 1 0 0 0 0",
        "7 1 0 0 0 0 0 4",
        "8 4 3 1 0 0 0 4",
        "9 4 3 2 1 0 0 4",
        "10 3 3 3 1 0 0 0",
        "11 4 3 3 0 0 0 0",
        "12 1 0 0 0 0 0 0",
        "13 4 3 4 1 0 0 0",
        "14 2 0 0 0 1 0 0",
    ];
    assert_eq!(vector(1)[..15], first);
    let mut second = first;
    second[5] = "5 3 3 1 1 1 1 4";
    second[9] = "9 4 3 2 1 1 1 4";
    second[10] = "10 3 3 3 1 1 1 0";
    second[13] = "13 4 3 4 1 1 1 0";
    assert_eq!(vector(2)[..15], second);
}

/// All timers: in tick 16 timers 1, 3 and 5 are folded, 6 is kept and the service queues; in tick 18
/// timer 1 keeps one beside three that are folded. The last ones, behind the service.
#[test]
fn all_timers_of_the_packed_history() {
    let masks = |edition: u8, from: usize, to: usize| -> Vec<u16> {
        let lines = vector(edition);
        let last = |line: &String| line.split(' ').next_back().unwrap().parse().unwrap();
        lines[from..to].iter().map(last).collect()
    };
    assert_eq!(masks(1, 15, 21), [0, 21, 52, 52, 53, 53]);
    assert_eq!(masks(2, 15, 21), [0, 21, 52, 52, 53, 53]);
    // In edition 1 timer 1 starts in each tick, and keeps each beat; in edition 2 the cached 3, 5
    // and 6 start one after the other, then service 4, then timer 1 at the next poll.
    assert_eq!(masks(1, 21, 30), [52, 52, 52, 52, 52, 52, 52, 52, 53]);
    assert_eq!(masks(2, 21, 30), [49, 37, 21, 53, 52, 49, 37, 21, 53]);
    for edition in EDITIONS {
        assert_eq!(masks(edition, 49, 57), [0, 0, 16, 48, 48, 0, 32, 48]);
        let lines = vector(edition);
        assert!(lines[48].ends_with(" 2 0 0 0 1 0 0") && lines[61].ends_with(" 2 0 0 0 1 0 0"));
    }
}

/// The folded mask is the last number of a line, in decimal, with all sixteen bits.
#[test]
fn last_number_of_a_line() {
    let table = full(vec![timer(100, &[1]); 16]);
    let lines = "65535 0 1\n65535 0 1\n32769 1 1\n65535 1 1\n32768 1 0\n";
    let text = hex(&encode(&table)) + "\n" + lines;
    let expected = "start accepted\n0 nosupply 0 0 0 0 0 0\n1 nosupply 0 0 0 0 0 65535\n\
                    2 finished 1 1 1 0 0 32769\n3 finished 1 2 1 0 0 65534\n4 refused 19 0\n";
    assert_eq!(program(&["replay"], text.as_bytes()), expected);
    let states = program(&["replay", "states"], text.as_bytes());
    let replies = states.lines().filter(|line| !line.starts_with("state"));
    assert!(replies.eq(expected.lines()));
}

/// The elements with all of these words.
fn count(picture: &str, words: &[&str]) -> usize {
    let has = |line: &&str| words.iter().all(|word| line.contains(word));
    picture.lines().filter(has).count()
}

/// Kept beats are arrows with a stem, folded ones crosses without; words say so where a cross is
/// shown, and there alone.
#[test]
fn folded_beats_in_pictures() {
    for edition in EDITIONS {
        let table = trio(edition);
        let masks = [5, 7, 3, 1, 0, 0, 2, 0];
        let ticks: Vec<Tick> = masks.iter().map(|&mask| unsupplied(mask, 1)).collect();
        let history = play(&encode(&table), &ticks);
        assert_eq!([1, 2, 3].map(|i| history.folded(i).len()), [3, 2, 0]);
        let arrows = |picture: &str| count(picture, &["<polygon", "#222222"]);
        let crosses = |picture: &str| count(picture, &["<path"]);
        let told = |picture: &str| count(picture, &["folded: an instance waits unstarted"]);
        let whole = svg(&table, &history, &[]);
        assert_eq!(
            (arrows(&whole), crosses(&whole), told(&whole)),
            (4, 5 + 1, 1)
        );
        let part = |from, to| svg_part(&table, &history, &[], from..to);
        assert_eq!((crosses(&part(0, 1)), told(&part(0, 1))), (0, 0));
        assert_eq!((crosses(&part(1, 2)), told(&part(1, 2))), (1 + 1, 1));
        assert_eq!((crosses(&part(4, 6)), told(&part(4, 6))), (0, 0));
        assert_eq!((crosses(&part(5, 8)), arrows(&part(5, 8))), (1 + 1, 0));
    }
}
