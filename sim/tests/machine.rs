//! The machine: its steps, and refusals 18 to 21 and 29.

mod common;
use common::*;
use sim::generate::states::{changes, sound};
use sim::generate::tables::{table, Shape};
use sim::machine::Answer::{Finished, Idle, NoSupply, Ran};
use sim::machine::{start, Answer, State, Tick};
use sim::random::Random;
use sim::table::{encode, Kind, Refusal, Table};

fn fresh(table: &Table) -> State {
    start(&encode(table)).state
}

fn ran(callback: usize, instance: u64) -> Answer {
    Ran { callback, instance }
}

fn finished(callback: usize, instance: u64) -> Answer {
    Finished { callback, instance }
}

/// The refusal of a tick, which is seen to hand the state back.
fn refused(state: &State, tick: Tick) -> Option<Refusal> {
    let step = state.clone().tick(tick);
    let refusal = step.reply.outcome.err();
    if refusal.is_some() {
        assert_eq!(&step.state, state);
        assert!(!step.reply.started && !step.reply.polled && step.reply.gathered == 0);
        assert_eq!(step.reply.folded, 0);
    }
    refusal
}

/// Document 01, 'One tick of the machine', start: refused bytes leave a state
/// of zeros without a table, on which 29 comes before every other refusal of a
/// tick.
#[test]
fn refused_start() {
    let mut bytes = encode(&chain());
    bytes[0] = 3;
    let begun = start(&bytes);
    assert_eq!(begun.refusal, Some(refusal(2, 0)));
    assert!(begun.state.table.is_empty() && begun.state.ticks == 0);
    assert_eq!(refused(&begun.state, tick(0, 1)), Some(refusal(29, 0)));
    assert_eq!(
        refused(&begun.state, unsupplied(65_535, 0)),
        Some(refusal(29, 0))
    );
}

/// U2: a start gives 22 as the reader does, and a delay in range changes no step and no answer.
#[test]
fn starts_with_a_delay() {
    let begun = start(&encode(&delayed(60_001, &chain())));
    assert_eq!(begun.refusal, Some(refusal(22, 0)));
    assert_eq!(begun.state, start(&[]).state);
    assert_eq!(refused(&begun.state, tick(0, 1)), Some(refusal(29, 0)));
    let mut states = [0, 1, 60_000].map(|delay| fresh(&delayed(delay, &chain())));
    for (time, supplied) in (0..40).map(|time| (time, time % 3 != 0)) {
        let tick = Tick {
            supplied,
            ..tick(u16::from(time % 7 == 0), 2)
        };
        let steps = states.map(|state| state.tick(tick));
        assert!(steps.iter().all(|step| step.reply == steps[0].reply));
        states = steps.map(|step| step.state);
    }
    assert!(states[0].finished[2] > 1);
    for (state, delay) in states.iter().zip([0u16, 1, 60_000]) {
        assert_eq!(state.table[8..10], delay.to_le_bytes());
        assert_eq!(state.finished, states[0].finished);
    }
}

#[test]
fn unsupplied_tick_only_takes_arrivals() {
    let step = fresh(&chain()).tick(unsupplied(1, 5));
    assert_eq!(step.reply.outcome, Ok(NoSupply));
    assert_eq!(
        (step.state.waiting(1), step.state.running, step.state.ticks),
        (1, 0, 1)
    );
    let step = step.state.tick(tick(0, 2));
    assert_eq!(step.reply.outcome, Ok(ran(1, 1)));
    let held = step.state.clone().tick(unsupplied(0, 9));
    assert_eq!((held.state.units, held.state.running), (1, 1));
}

/// Document 01, step 4: a follower can start in the tick after the finish that
/// activates it.
#[test]
fn chain_runs_through() {
    let mut state = fresh(&chain());
    let mut seen = Vec::new();
    for (mask, cost) in [(1, 1), (0, 2), (0, 60_000), (0, 1), (0, 1)] {
        let step = state.tick(tick(mask, cost));
        state = step.state;
        seen.push((
            step.reply.outcome.unwrap(),
            step.reply.started,
            step.reply.polled,
        ));
    }
    let expected = [
        (finished(1, 1), true, false),
        (ran(2, 1), true, true),
        (finished(2, 1), false, false),
        (finished(3, 1), true, true),
        (Idle, false, true),
    ];
    assert_eq!(seen, expected);
    assert_eq!(state.finished[..4], [1, 1, 1, 0]);
    assert_eq!(
        (state.cache, state.running, state.units, state.ticks),
        (0, 0, 0, 5)
    );
}

/// Document 01, 'The callback table', priority: the kinds in the order of their
/// numbers, callbacks of one kind in the order of their indices. U1: in edition
/// 2 one poll takes all five, in edition 1 the timers go ahead of it.
#[test]
fn priority() {
    let kinds = [
        Kind::Client,
        Kind::Service,
        Kind::Timer,
        Kind::Service,
        Kind::Timer,
    ];
    let table = full(kinds.map(|kind| lone(kind, 9, 0, 9, &[1])).to_vec());
    for (edition, gathered) in [(1, [0, 0, 3, 0, 0]), (2, [5, 0, 0, 0, 0])] {
        let mut state = fresh(&in_edition(edition, &table));
        let mut order = Vec::new();
        let mut polls = Vec::new();
        for mask in [31, 0, 0, 0, 0] {
            let step = state.tick(tick(mask, 1));
            state = step.state;
            polls.push(step.reply.gathered);
            if let Ok(Finished { callback, .. }) = step.reply.outcome {
                order.push(callback);
            }
        }
        assert_eq!(order, [3, 5, 2, 4, 1]);
        assert_eq!(polls, gathered);
    }
}

/// A callback with more waiting leaves the cache and comes back at a poll;
/// timers go before the cache.
#[test]
fn cache_is_emptied_before_the_next_poll() {
    let table = full(vec![
        subscription(1, &[1]),
        subscription(1, &[1]),
        timer(1, &[1]),
    ]);
    let mut state = fresh(&table);
    let mut seen = Vec::new();
    for mask in [3, 5, 0, 0, 0] {
        let step = state.tick(tick(mask, 1));
        state = step.state;
        let Ok(Finished { callback, instance }) = step.reply.outcome else {
            break;
        };
        seen.push((callback, instance, step.reply.gathered));
    }
    assert_eq!(seen, [(1, 1, 2), (3, 1, 0), (2, 1, 0), (1, 2, 1)]);
    assert_eq!(state.cache, 0);
}

/// Runs a sound state with one writing.
fn faulted(write: impl Fn(&mut State)) -> Option<Refusal> {
    let mut state = fresh(&chain());
    state.ticks = 10;
    state.waiting[..3].copy_from_slice(&[1, 2, 255]);
    state.finished[0] = 10;
    state.cache = 6;
    state.running = 2;
    state.units = 60_000;
    assert_eq!(refused(&state, tick(0, 1)), None);
    write(&mut state);
    refused(&state, tick(0, 1))
}

#[test]
fn refusal_29() {
    let bad = Some(refusal(29, 0));
    assert_eq!(faulted(|state| state.table[0] = 0), bad);
    // U2: a delay above 60,000 in the state's table; up to there the machine does not look at it.
    let late =
        |delay: u16| faulted(|state| state.table[8..10].copy_from_slice(&delay.to_le_bytes()));
    assert_eq!([60_001, 65_535].map(late), [bad, bad]);
    assert_eq!([0, 1, 60_000].map(late), [None, None, None]);
    assert_eq!(faulted(|state| state.table[10] = 1), bad);
    assert_eq!(faulted(|state| state.running = 4), bad);
    assert_eq!(faulted(|state| state.running = 17), bad);
    assert_eq!(
        faulted(|state| (state.cache, state.waiting[3]) = (14, 1)),
        bad
    );
    assert_eq!(faulted(|state| state.waiting[15] = 1), bad);
    assert_eq!(faulted(|state| state.finished[3] = 1), bad);
    assert_eq!(faulted(|state| state.waiting[2] = 256), bad);
    assert_eq!(faulted(|state| state.finished[2] = 11), bad);
    assert_eq!(faulted(|state| state.waiting[2] = 0), bad);
    assert_eq!(faulted(|state| state.waiting[1] = 0), bad);
    assert_eq!(faulted(|state| state.cache = 7), bad);
    assert_eq!(faulted(|state| state.cache = 4), bad);
    assert_eq!(faulted(|state| state.units = 0), bad);
    assert_eq!(faulted(|state| state.units = 60_001), bad);
    assert_eq!(faulted(|state| state.running = 0), bad);
    assert_eq!(faulted(|state| (state.running, state.units) = (0, 0)), None);
    assert_eq!(faulted(|state| state.running = 1), None);
    assert_eq!(
        faulted(|state| (state.running, state.waiting[0]) = (1, 0)),
        bad
    );
    assert_eq!(faulted(|state| state.finished[1] = 10), None);
    assert_eq!(faulted(|state| state.units = 2), None);
}

/// Timers 1 and 2 and subscription 3, all waiting, with this cache and this one running.
fn timers_at(edition: u8, cache: u16, running: usize) -> State {
    let callbacks = vec![timer(9, &[1]), timer(9, &[1]), subscription(9, &[1])];
    let mut state = fresh(&in_edition(edition, &full(callbacks)));
    state.waiting[..3].copy_from_slice(&[2, 1, 1]);
    (state.cache, state.running) = (cache, running);
    state.units = if running == 0 { 0 } else { 2 };
    state
}

/// Refusal 29 as U1 leaves it: a cached timer is a fault in edition 1 alone, a running timer
/// outside the cache in edition 2 alone. A running subscription is cached in both.
#[test]
fn refusal_29_by_edition() {
    let (good, bad) = (None, Some(refusal(29, 0)));
    for (cache, running, first, second) in [
        (0, 0, good, good),
        (1, 0, bad, good),
        (2, 0, bad, good),
        (7, 0, bad, good),
        (0, 1, good, bad),
        (4, 1, good, bad),
        (1, 1, bad, good),
        (7, 2, bad, good),
        (2, 1, bad, bad),
        (5, 2, bad, bad),
        (4, 3, good, good),
        (5, 3, bad, good),
        (0, 3, bad, bad),
        (3, 3, bad, bad),
    ] {
        for (edition, outcome) in [(1, first), (2, second)] {
            let state = timers_at(edition, cache, running);
            for tick in [tick(0, 1), unsupplied(1, 1)] {
                let seen = refused(&state, tick);
                assert_eq!(seen, outcome, "edition {edition} {cache} {running}");
            }
        }
    }
    for (cache, running) in [(2, 0), (2, 2), (3, 1)] {
        let mut state = timers_at(2, cache, running);
        state.waiting[1] = 0;
        assert_eq!(refused(&state, tick(0, 1)), bad);
    }
}

/// U1: the state has its edition in its table. One that is right in both editions goes on as the
/// edition written there says.
#[test]
fn state_keeps_its_edition() {
    for (edition, chosen) in [(1, 1), (2, 3)] {
        let mut state = timers_at(3 - edition, 4, 0);
        state.table[0] = edition;
        let step = state.clone().tick(tick(0, 1));
        assert_eq!(step.reply.outcome, Ok(finished(chosen, 1)));
        assert_eq!(step.state.table, state.table);
    }
}

#[test]
fn refusals_18_to_20_in_order() {
    let mut state = fresh(&chain());
    state.ticks = 999_999_999;
    assert_eq!(refused(&state, tick(1, 1)), None);
    state.ticks = 1_000_000_000;
    assert_eq!(refused(&state, tick(2, 0)), Some(refusal(18, 0)));
    state.units = 1;
    assert_eq!(refused(&state, tick(2, 0)), Some(refusal(29, 0)));
    let state = fresh(&chain());
    for cost in [0, 60_001, 65_535] {
        assert_eq!(refused(&state, unsupplied(2, cost)), Some(refusal(19, 0)));
    }
    assert_eq!(refused(&state, tick(0, 60_000)), None);
    assert_eq!(refused(&state, tick(7, 1)), Some(refusal(20, 2)));
    assert_eq!(refused(&state, tick(32_769, 1)), Some(refusal(20, 16)));
    assert_eq!(refused(&state, tick(9, 1)), Some(refusal(20, 4)));
}

/// U6: a full timer is not refused, nor does it keep others from being refused.
#[test]
fn refusal_21_for_heads() {
    let table = full(vec![
        subscription(9, &[1]),
        timer(9, &[1]),
        lone(Kind::Service, 9, 0, 9, &[1]),
    ]);
    for (edition, cache) in [(1, 4), (2, 6)] {
        let mut state = fresh(&in_edition(edition, &table));
        state.waiting[..3].copy_from_slice(&[255, 254, 254]);
        assert_eq!(refused(&state, tick(6, 1)), None);
        assert_eq!(refused(&state, tick(7, 1)), Some(refusal(21, 1)));
        assert_eq!(refused(&state, unsupplied(1, 1)), Some(refusal(21, 1)));
        state.waiting[1..3].copy_from_slice(&[255, 255]);
        assert_eq!(refused(&state, tick(2, 1)), None);
        assert_eq!(refused(&state, tick(6, 1)), Some(refusal(21, 3)));
        for running in [2, 3] {
            (state.cache, state.running, state.units) = (cache, running, 1);
            assert_eq!(refused(&state, tick(2, 1)), None);
            assert_eq!(refused(&state, tick(4, 1)), Some(refusal(21, 3)));
            assert_eq!(refused(&state, tick(6, 1)), Some(refusal(21, 3)));
            assert_eq!(refused(&state, tick(0, 1)), None);
        }
    }
}

/// Refusal 21 of a follower with 255 waiting: only in a tick that would finish
/// the callback before it. A full timer beside it folds its beat (U6).
#[test]
fn refusal_21_for_followers() {
    let mut table = full(vec![
        follower(Kind::Client, &[1]),
        timer(9, &[1]),
        timer(9, &[1]),
    ]);
    table.callbacks[1].next = 1;
    for edition in [1, 2] {
        let mut state = fresh(&in_edition(edition, &table));
        state.waiting[0] = 255;
        assert_eq!(refused(&state, tick(2, 1)), Some(refusal(21, 1)));
        assert_eq!(refused(&state, tick(2, 2)), None);
        assert_eq!(refused(&state, unsupplied(2, 1)), None);
        state.waiting[2] = 255;
        assert_eq!(refused(&state, tick(6, 1)), Some(refusal(21, 1)));
        assert_eq!(refused(&state, tick(6, 2)), None);
        state.waiting[0] = 254;
        assert_eq!(refused(&state, tick(6, 1)), None);
        let step = state.tick(tick(6, 1));
        assert_eq!(step.state.waiting[..3], [255, 0, 255]);
        assert_eq!(step.reply.folded, 4);
    }
}

#[test]
fn sound_states_stay_sound() {
    let mut random = Random::new(5);
    for _ in 0..3_000 {
        let table = table(&mut random, Shape::Small);
        let mut state = sound(&mut random, &table);
        for _ in 0..5 {
            let cost = random.range(1, 3);
            let step = state.tick(tick(0, cost));
            let number = step.reply.outcome.err().map_or(0, |refusal| refusal.number);
            assert!(number == 0 || number == 18 || number == 21);
            state = step.state;
        }
    }
}

#[test]
fn changes_write_a_whole_state() {
    let mut random = Random::new(6);
    let state = sound(&mut random, &chain());
    let mut other = start(&[]).state;
    for change in changes(&state) {
        change.apply(&mut other);
    }
    assert_eq!(other, state);
}
