//! Edition 2 beside edition 1: what request U1 of document 02 changes, what it leaves, and that the
//! generators reach it.

mod common;
use common::*;
use sim::frames::{packed_history, replies};
use sim::generate::damage::{damaged, random_bytes};
use sim::generate::histories::{outside, within, Style};
use sim::generate::states::{sound, spoil};
use sim::generate::tables::{table, Shape};
use sim::history::{play, History};
use sim::machine::Answer::{Finished, Idle, Ran};
use sim::machine::{Answer, Reply, State, Tick};
use sim::random::Random;
use sim::table::{encode, read, Kind, Table};
use sim::text::script;
use std::collections::BTreeMap;
use std::process::Command;

/// A reply that is not refused: the answer, started, polled, gathered.
fn reply(answer: Answer, started: bool, polled: bool, gathered: u32) -> Reply {
    Reply {
        outcome: Ok(answer),
        started,
        polled,
        gathered,
        folded: 0,
    }
}

fn ran(callback: usize, instance: u64) -> Answer {
    Ran { callback, instance }
}

fn finished(callback: usize, instance: u64) -> Answer {
    Finished { callback, instance }
}

/// Timer 1 and subscriptions 2 and 3.
fn trio() -> Table {
    full(vec![
        timer(10, &[2]),
        subscription(10, &[2]),
        subscription(10, &[2]),
    ])
}

fn played(edition: u8, ticks: &[Tick]) -> Vec<Reply> {
    play(&encode(&in_edition(edition, &trio())), ticks).replies
}

/// The timer beats in tick 1, while 2 runs and 3 is cached. In edition 1 it goes before 3; in
/// edition 2 it waits until 3 is done and the cache empty, and starts at the next polling point.
#[test]
fn timer_overtakes_or_waits() {
    let ticks = [6, 1, 0, 0, 0, 0, 0].map(|mask| tick(mask, 2));
    let first = [
        reply(ran(2, 1), true, true, 2),
        reply(finished(2, 1), false, false, 0),
        reply(ran(1, 1), true, false, 0),
        reply(finished(1, 1), false, false, 0),
        reply(ran(3, 1), true, false, 0),
        reply(finished(3, 1), false, false, 0),
        reply(Idle, false, true, 0),
    ];
    let second = [
        reply(ran(2, 1), true, true, 2),
        reply(finished(2, 1), false, false, 0),
        reply(ran(3, 1), true, false, 0),
        reply(finished(3, 1), false, false, 0),
        reply(ran(1, 1), true, true, 1),
        reply(finished(1, 1), false, false, 0),
        reply(Idle, false, true, 0),
    ];
    assert_eq!(played(1, &ticks), first);
    assert_eq!(played(2, &ticks), second);
}

/// All three arrive together, and the timer beats again in the tick after that. In edition 2 the
/// poll takes and counts the timer, whose second instance waits for the next poll.
#[test]
fn poll_counts_timers() {
    let ticks = [7, 1, 0, 0, 0].map(|mask| tick(mask, 1));
    let first = [
        reply(finished(1, 1), true, false, 0),
        reply(finished(1, 2), true, false, 0),
        reply(finished(2, 1), true, true, 2),
        reply(finished(3, 1), true, false, 0),
        reply(Idle, false, true, 0),
    ];
    let second = [
        reply(finished(1, 1), true, true, 3),
        reply(finished(2, 1), true, false, 0),
        reply(finished(3, 1), true, false, 0),
        reply(finished(1, 2), true, true, 1),
        reply(Idle, false, true, 0),
    ];
    assert_eq!(played(1, &ticks), first);
    assert_eq!(played(2, &ticks), second);
}

/// What a tick leaves in the cache: all that a poll took but the finished one.
#[test]
fn cache_holds_timers() {
    let mut state = sim::machine::start(&encode(&in_edition(2, &trio()))).state;
    for (mask, cost, cache, running) in [(7, 2, 7, 1), (0, 1, 6, 0), (1, 1, 4, 0), (0, 2, 4, 3)] {
        state = state.tick(tick(mask, cost)).state;
        assert_eq!((state.cache, state.running), (cache, running));
    }
}

/// The table with services for timers.
fn without_timers(mut table: Table) -> Table {
    for callback in &mut table.callbacks {
        if callback.kind == Kind::Timer {
            callback.kind = Kind::Service;
        }
    }
    table
}

/// Plays both states over the ticks, each in its edition; whether all replies and states are the
/// same but for the edition.
fn alike(mut states: [State; 2], ticks: &[Tick]) -> bool {
    ticks.iter().all(|&tick| {
        let steps = states.clone().map(|state| state.tick(tick));
        let alike = steps[0].reply == steps[1].reply;
        states = steps.map(|step| step.state);
        let mut first = states[1].clone();
        first.table[0] = 1;
        alike && states[0] == first
    })
}

/// Without timers the editions are the same, from the fresh state and from any other; with timers
/// they are not.
#[test]
fn twins_without_timers() {
    let mut random = Random::new(31);
    let mut differ = 0;
    for _ in 0..600 {
        let any = in_edition(1, &table(&mut random, Shape::Small));
        let ticks = outside(&mut random, &any, 60);
        let fresh = |table: &Table| {
            [1, 2].map(|edition| sim::machine::start(&encode(&in_edition(edition, table))).state)
        };
        differ += u64::from(!alike(fresh(&any), &ticks));
        let plain = without_timers(any);
        assert!(alike(fresh(&plain), &ticks));
        let written = sound(&mut random, &plain);
        let mut twin = written.clone();
        twin.table[0] = 2;
        assert!(alike([written, twin], &ticks));
    }
    assert!(differ > 100);
}

/// About half.
fn half(part: usize, whole: usize) -> bool {
    (2 * whole / 5..=3 * whole / 5).contains(&part)
}

#[test]
fn tables_of_both_editions() {
    let mut random = Random::new(32);
    for shape in [Shape::Small, Shape::Long, Shape::Extreme] {
        let drawn: Vec<Table> = (0..4_000).map(|_| table(&mut random, shape)).collect();
        let second: Vec<&Table> = drawn.iter().filter(|table| table.edition == 2).collect();
        assert!(drawn.iter().all(|table| [1, 2].contains(&table.edition)));
        assert!(half(second.len(), drawn.len()), "{shape:?}");
        // The edition goes with nothing else that is drawn.
        let has_timers = |table: &&Table| table.callbacks.iter().any(|c| c.kind == Kind::Timer);
        let short = |table: &&Table| table.horizon == 1;
        for sort in [&has_timers as &dyn Fn(&&Table) -> bool, &short] {
            let such = drawn.iter().filter(sort).count();
            assert!(half(second.iter().filter(|t| sort(t)).count(), such));
        }
    }
}

/// Damaged tables and free bytes have the two editions in equal parts, and others too.
#[test]
fn bytes_of_both_editions() {
    let mut random = Random::new(33);
    for draw in [damaged as fn(&mut Random) -> Vec<u8>, random_bytes] {
        let mut editions = [0; 256];
        for _ in 0..4_000 {
            if let Some(&edition) = draw(&mut random).first() {
                editions[usize::from(edition)] += 1;
            }
        }
        assert!(half(editions[2], editions[1] + editions[2]));
        assert!(
            editions[1] > 1_000 && editions[0] > 0 && editions[3..].iter().sum::<usize>() > 100
        );
    }
}

/// The faults of refusal 29 by the words of document 01 and U1, apart from the machine. Of a
/// callback beyond n only that is told.
fn faults(state: &State) -> Vec<&'static str> {
    let Ok(table) = read(&state.table) else {
        return vec!["table"];
    };
    let on = state.running != 0;
    let timer = |i: usize| table.callback(i).kind == Kind::Timer;
    let any = |fault: &dyn Fn(usize) -> bool| (1..=table.count()).any(fault);
    let beyond = |fault: &dyn Fn(usize) -> bool| (table.count() + 1..=16).any(fault);
    let runs = |fault: &dyn Fn(usize) -> bool| any(&|i| i == state.running && fault(i));
    let kept = |i: usize| state.cached(i);
    let none = |i: usize| state.waiting(i) == 0;
    let edition = table.edition;
    let all = [
        ("beyond n runs", state.running > table.count()),
        ("beyond n cached", beyond(&kept)),
        ("beyond n waiting", beyond(&|i| !none(i))),
        ("beyond n finished", beyond(&|i| state.finished(i) != 0)),
        ("above 255", any(&|i| state.waiting(i) > 255)),
        (
            "finished too often",
            any(&|i| state.finished(i) > state.ticks),
        ),
        ("cached, none waiting", any(&|i| kept(i) && none(i))),
        ("running, none waiting", runs(&none)),
        (
            "timer cached",
            edition == 1 && any(&|i| kept(i) && timer(i)),
        ),
        (
            "timer uncached",
            edition == 2 && runs(&|i| timer(i) && !kept(i)),
        ),
        ("other uncached", runs(&|i| !timer(i) && !kept(i))),
        ("units, running", on && !(1..=60_000).contains(&state.units)),
        ("units, idle", !on && state.units != 0),
    ];
    let told = all.iter().filter(|(_, fault)| *fault);
    told.map(|(name, _)| *name).collect()
}

/// Whether the tick is refused with 29.
fn faulty(state: &State) -> bool {
    let outcome = state.clone().tick(unsupplied(0, 1)).reply.outcome;
    outcome.is_err_and(|refusal| refusal.number == 29)
}

/// Spoilt states have each fault that their edition knows, alone, and the machine sees just these.
/// (In edition 2 what runs is cached, so that with none waiting it has two faults.)
#[test]
fn spoilt_states_reach_each_fault() {
    let mut random = Random::new(34);
    let mut alone: BTreeMap<(u8, &str), u64> = BTreeMap::new();
    let mut twins = 0;
    for _ in 0..20_000 {
        let table = table(&mut random, Shape::Small);
        let mut state = sound(&mut random, &table);
        spoil(&mut random, &table, &mut state);
        let seen = faults(&state);
        assert_eq!(faulty(&state), !seen.is_empty(), "{state:?} {seen:?}");
        let edition = read(&state.table).map_or(table.edition, |table| table.edition);
        twins += u64::from(state.table == encode(&in_edition(3 - table.edition, &table)));
        if let [fault] = seen[..] {
            *alone.entry((edition, fault)).or_default() += 1;
        }
    }
    let of_both = [
        "table",
        "beyond n runs",
        "beyond n cached",
        "beyond n waiting",
        "beyond n finished",
        "above 255",
        "finished too often",
        "cached, none waiting",
        "other uncached",
        "units, running",
        "units, idle",
    ];
    let mut known: Vec<(u8, &str)> = of_both.iter().flat_map(|&f| [(1, f), (2, f)]).collect();
    let of_one = [(1, "timer cached"), (2, "timer uncached")];
    known.extend([of_one[0], of_one[1], (1, "running, none waiting")]);
    known.sort_unstable();
    assert!(alone.keys().eq(known.iter()), "{alone:?}");
    assert!(alone.values().all(|&times| times >= 30), "{alone:?}");
    assert!(of_one.iter().all(|fault| alone[fault] > 120) && twins > 100);
}

/// Sound states of edition 2 often have timers in the cache, running and not; in edition 1 timers
/// run outside it.
#[test]
fn sound_states_of_both_editions() {
    let mut random = Random::new(35);
    let mut seen = [[0; 3]; 3];
    for _ in 0..4_000 {
        let table = table(&mut random, Shape::Small);
        let state = sound(&mut random, &table);
        assert_eq!((faults(&state), faulty(&state)), (vec![], false));
        let timer = |&i: &usize| table.callback(i).kind == Kind::Timer;
        let timers: Vec<usize> = (1..=table.count()).filter(timer).collect();
        if !timers.is_empty() {
            let [with, cached, running] = &mut seen[usize::from(table.edition)];
            *with += 1;
            *cached += u64::from(timers.iter().any(|&i| state.cached(i)));
            *running += u64::from(timers.contains(&state.running));
        }
    }
    let [_, first, second] = seen;
    assert!(first[0] > 500 && first[1] == 0 && 5 * first[2] > first[0]);
    assert!(second[0] > 500 && 4 * second[1] > second[0] && 8 * second[2] > second[0]);
}

/// Whether a poll took a timer and started it.
fn polls_timer(table: &Table, history: &History) -> bool {
    history.replies.iter().any(|reply| {
        let named = match reply.outcome {
            Ok(Ran { callback, .. } | Finished { callback, .. }) => callback,
            _ => return false,
        };
        reply.polled && reply.started && table.callback(named).kind == Kind::Timer
    })
}

/// Histories within the curves: timers are polled in edition 2, and in edition 1 never.
#[test]
fn timers_are_polled_in_edition_2_alone() {
    let mut random = Random::new(36);
    let mut polled = [0; 3];
    for _ in 0..200 {
        let table = table(&mut random, Shape::Small);
        let style = Style::any(&mut random, &table, 20);
        let history = within(&mut random, &table, &style, 80);
        polled[usize::from(table.edition)] += u64::from(polls_timer(&table, &history));
    }
    assert!(polled[1] == 0 && polled[2] > 30);
}

/// Drawn histories of every sort have tables of both editions. The states that a faulty one writes
/// are its own table's, but for damaged ones and, now and then in edition 2, its twin.
#[test]
fn histories_of_both_editions() {
    for sort in ["within", "outside", "faulty", "worst"] {
        let mut editions = [0; 3];
        for seed in 1..=30u64 {
            let words = ["generate", "history", &seed.to_string(), sort, "60"];
            let drawn = script(&program(&words, b"")).unwrap();
            editions[usize::from(read(&drawn.table).unwrap().edition)] += 1;
        }
        assert!(editions[1] >= 8 && editions[2] >= 8, "{sort}");
    }
}

/// `sim generate histories` begins with the history of each edition, the first one's first.
#[test]
fn packed_histories_of_both_editions() {
    let mut command = Command::new(env!("CARGO_BIN_EXE_sim"));
    let packed = command.args(["generate", "histories"]).output().unwrap();
    let each = [1, 2].map(|edition| {
        let base = sim::generate::edges::base(edition);
        assert_eq!(base.edition, edition);
        packed_history(&encode(&base), &sim::generate::histories::covering(edition))
    });
    assert!(packed.stdout.starts_with(&each.concat()));
    let text = replies(&each[1]);
    assert!(!text.starts_with("refused") && text.contains("refused 21 3\n"));
    assert!(!text.contains("refused 21 1\n"));
}
