//! What is timed: tables to analyse and to write, and ticks in lent bytes.

use crate::agree::{self, packed, Described, Offer, PLACES};
use crate::plain::jumps::Jumps;
use crate::plain::sheet::lengths;
use sim::generate::histories::{within, Style};
use sim::generate::tables::{table, Shape};
use sim::machine::{start, Tick};
use sim::normalise::normal_table;
use sim::random::Random;
use sim::sheet::analyse;
use sim::table::{encode, Callback, Kind, Table, HEADER_BYTES, LARGEST, RECORD_BYTES};
use sim::text::{script, Line};
use sim::write::values_at;
use std::hint::black_box;

const LONGEST_TABLE: usize = HEADER_BYTES + RECORD_BYTES * PLACES;
const DESK: &[u8] = include_bytes!("../../examples/desk.table");

pub struct Work {
    pub name: String,
    pub unit: &'static str,
    calls: Calls,
}

enum Calls {
    Sheets(Vec<Vec<u8>>),
    /// A state, and ticks on it one after the other.
    Ticks(Vec<u8>, Vec<Offer>),
    /// A table from its values.
    Writing(Described),
    /// A table whose entries are lowered in place, in a copy for each call.
    Normalising(Vec<u8>),
}

/// Which of them is called.
#[derive(Clone, Copy)]
pub enum Side {
    Library,
    Plain,
    /// The plain analyser that tries every length; of a tick and of the writer
    /// there is none.
    EveryLength,
}

impl Work {
    fn sheets(name: &str, tables: Vec<Vec<u8>>) -> Work {
        Work {
            name: format!("analyser, {name}"),
            unit: "table",
            calls: Calls::Sheets(tables),
        }
    }

    fn ticks(name: &str, state: Vec<u8>, offers: Vec<Offer>) -> Work {
        Work {
            name: format!("tick, {name}"),
            unit: "tick",
            calls: Calls::Ticks(state, offers),
        }
    }

    fn writing(name: &str, table: &[u8]) -> Work {
        Work {
            name: format!("writer, {name}"),
            unit: "table",
            calls: Calls::Writing(Described::new(&values_at(table))),
        }
    }

    fn normalising(name: &str, table: &Table) -> Work {
        Work {
            name: format!("normaliser, {name}"),
            unit: "table",
            calls: Calls::Normalising(encode(table)),
        }
    }

    /// Whether lengths are searched.
    pub fn searches(&self) -> bool {
        matches!(self.calls, Calls::Sheets(_))
    }

    /// How many calls one pass makes.
    pub fn count(&self) -> usize {
        match &self.calls {
            Calls::Sheets(tables) => tables.len(),
            Calls::Ticks(_, offers) => offers.len(),
            Calls::Writing(_) | Calls::Normalising(_) => 1,
        }
    }

    pub fn pass(&self, side: Side) {
        match (&self.calls, side) {
            (Calls::Sheets(tables), Side::Library) => sheets(tables, agree::library_sheet),
            (Calls::Sheets(tables), Side::Plain) => sheets(tables, agree::plain_sheet),
            (Calls::Sheets(tables), Side::EveryLength) => sheets(tables, agree::every_length_sheet),
            (Calls::Ticks(state, offers), Side::Library) => {
                ticks(state, offers, agree::library_tick)
            }
            (Calls::Ticks(state, offers), _) => ticks(state, offers, agree::plain_tick),
            (Calls::Writing(of), Side::Library) => writing(of, agree::library_write),
            (Calls::Writing(of), _) => writing(of, agree::plain_write),
            (Calls::Normalising(table), Side::Library) => {
                normalising(table, agree::library_normalise)
            }
            (Calls::Normalising(table), _) => normalising(table, agree::plain_normalise),
        }
    }

    /// Whether both sides give the same; gives how many calls.
    pub fn agree(&self) -> Result<u64, String> {
        let told = |what| format!("{}: {what}", self.name);
        match &self.calls {
            Calls::Sheets(tables) => {
                for bytes in tables {
                    agree::sheets(bytes).map_err(told)?;
                }
            }
            Calls::Ticks(state, offers) => {
                let mut state = state.clone();
                for &offer in offers {
                    state = agree::ticks(&state, offer).map_err(told)?;
                }
            }
            Calls::Writing(of) => agree::writings(of, LONGEST_TABLE).map_err(told)?,
            Calls::Normalising(table) => agree::normalisings(table).map_err(told)?,
        }
        Ok(self.count() as u64)
    }
}

#[inline(always)]
fn sheets<R>(tables: &[Vec<u8>], analyse: impl Fn(&[u8], &mut [u16]) -> R) {
    let mut row = [0; PLACES];
    for bytes in tables {
        black_box(analyse(black_box(bytes), black_box(&mut row)));
    }
}

#[inline(always)]
fn ticks<R>(state: &[u8], offers: &[Offer], tick: impl Fn(&mut [u8], Offer) -> R) {
    let mut state = state.to_vec();
    for &offer in offers {
        black_box(tick(black_box(&mut state), black_box(offer)));
    }
}

#[inline(always)]
fn writing<R>(of: &Described, write: impl Fn(&Described, &mut [u8]) -> R) {
    let mut buffer = [0; LONGEST_TABLE];
    black_box(write(black_box(of), black_box(&mut buffer)));
}

#[inline(always)]
fn normalising<R>(table: &[u8], normalise: impl Fn(&mut [u8]) -> R) {
    let mut buffer = [0; LONGEST_TABLE];
    let lent = &mut buffer[..table.len()];
    lent.copy_from_slice(black_box(table));
    black_box(normalise(black_box(lent)));
}

/// All that is timed, from fixed seeds.
pub fn all() -> Vec<Work> {
    let mut random = Random::new(7);
    let mut works = analyses(&mut random);
    works.extend(histories(&mut random));
    works.extend(repeated());
    works.push(Work::writing("the desk of docs/GUIDE.md", DESK));
    works.push(Work::writing("16 callbacks", &encode(&longest())));
    works.push(Work::writing(
        "16 callbacks of 8 entries",
        &encode(&normal_table(&steep())),
    ));
    works.push(Work::normalising(
        "16 callbacks of 8 entries, 7 of them too large",
        &steep(),
    ));
    works.push(Work::normalising(
        "16 callbacks of 8 entries, none too large",
        &normal_table(&steep()),
    ));
    works
}

fn analyses(random: &mut Random) -> Vec<Work> {
    let short = |window, _: &Table| (1..=100).contains(&window);
    let long = |window, _: &Table| (2_000..=20_000).contains(&window);
    let unsettled = |window, table: &Table| window == 0 && table.count() >= 8 && table.horizon == 0;
    vec![
        Work::sheets("the desk of docs/GUIDE.md", vec![DESK.to_vec()]),
        Work::sheets("windows up to 100", drawn(random, 200, Shape::Small, short)),
        Work::sheets(
            "windows of 2,000 to 20,000",
            drawn(random, 12, Shape::Long, long),
        ),
        Work::sheets(
            "no window up to 60,000",
            drawn(random, 4, Shape::Small, unsettled),
        ),
        Work::sheets("16 callbacks, window 59,984", vec![encode(&longest())]),
        searched("callbacks", &in_turn()),
        searched("timers", &timers_in_turn()),
        searched("callbacks", &one_ahead()),
    ]
}

fn histories(random: &mut Random) -> Vec<Work> {
    let desk = include_str!("../../examples/desk.history");
    let second_desk = include_str!("../../examples/desk2.history");
    let busy = busy(random);
    let second = Table {
        edition: 2,
        ..busy.clone()
    };
    vec![
        desk_history("the desk of docs/GUIDE.md", desk),
        greedy_history("16 callbacks, greedy", random, &busy),
        chain_history(random),
        lone_history(random),
        desk_history("the desk in edition 2", second_desk),
        greedy_history("16 callbacks in edition 2, greedy", random, &second),
    ]
}

/// Tables whose window, 0 for none, is as wanted.
fn drawn(
    random: &mut Random,
    count: usize,
    shape: Shape,
    wanted: impl Fn(u64, &Table) -> bool,
) -> Vec<Vec<u8>> {
    let mut tables = Vec::new();
    while tables.len() < count {
        let table = table(random, shape);
        let bytes = encode(&table);
        let window = match analyse(&bytes, &mut [0; PLACES]) {
            Ok(window) => window,
            Err(refusal) if refusal.number == 15 => 0,
            Err(_) => continue,
        };
        if wanted(window, &table) {
            tables.push(bytes);
        }
    }
    tables
}

/// Sixteen lone callbacks that together need nearly the largest window.
fn longest() -> Table {
    let lone = Callback {
        kind: Kind::Subscription,
        next: 0,
        entries: vec![LARGEST / 16 - 1],
        period: LARGEST,
        jitter: 0,
        distance: LARGEST,
    };
    Table {
        edition: 1,
        budget: 1,
        period: 1,
        horizon: 0,
        delay: 0,
        callbacks: vec![lone; 16],
    }
}

/// Sixteen callbacks of eight entries, each but the first above every sum of two
/// that make up its position.
fn steep() -> Table {
    let callback = |slot: u64| Callback {
        entries: (1..=8).map(|at| (slot + 1) * at * at).collect(),
        ..longest().callbacks[0].clone()
    };
    Table {
        callbacks: (0..16).map(callback).collect(),
        ..longest()
    }
}

/// A table named by the lengths that its sheet takes.
fn searched(what: &str, table: &Table) -> Work {
    let bytes = encode(table);
    let lengths = lengths::<Jumps>(&bytes);
    let (thousands, rest) = (lengths / 1_000, lengths % 1_000);
    let name = format!("{} {what}, {thousands},{rest:03} lengths", table.count());
    Work::sheets(&name, vec![bytes])
}

/// Callbacks that ask for all ticks of the supply but one in each period, their
/// activations as far from each other as sixteen can be: each jump passes one of
/// them. Two more at the beginning stretch the window to nearly the largest.
fn in_turn() -> Table {
    const PERIOD: u64 = 239;
    let callback = |slot: u64| Callback {
        kind: Kind::Subscription,
        next: 0,
        entries: vec![(slot + 1) * (PERIOD - 1) / 16 - slot * (PERIOD - 1) / 16],
        period: PERIOD,
        jitter: (15 - slot) * PERIOD / 16 + if slot < 2 { PERIOD } else { 0 },
        distance: 1,
    };
    Table {
        callbacks: (0..16).map(callback).collect(),
        ..longest()
    }
}

/// The same, all of them timers: sixteen levels beside the search of all.
fn timers_in_turn() -> Table {
    let mut table = in_turn();
    for callback in &mut table.callbacks {
        callback.kind = Kind::Timer;
    }
    table
}

/// In each length the demand is one tick more than the supply, so that no jump
/// passes a length.
fn one_ahead() -> Table {
    let every_second = |jitter| Callback {
        entries: vec![1],
        period: 2,
        jitter,
        distance: 1,
        ..longest().callbacks[0].clone()
    };
    Table {
        callbacks: vec![every_second(0), every_second(1)],
        ..longest()
    }
}

fn offered(tick: &Tick) -> Offer {
    (tick.mask, tick.supplied.into(), tick.cost as u32)
}

/// A recorded history of the desk.
fn desk_history(name: &str, text: &str) -> Work {
    let script = script(text).expect("a history");
    let tick = |line: &Line| match line {
        Line::Tick(tick) => offered(tick),
        Line::Set(_) => unreachable!("a recorded history writes nothing"),
    };
    let state = packed(&start(&script.table).state);
    let offers = script.lines.iter().map(tick).collect();
    Work::ticks(name, state, offers)
}

/// Ticks that press as hard as the curves permit.
fn greedy_history(name: &str, random: &mut Random, table: &Table) -> Work {
    let history = within(random, table, &Style::greedy(table), 2_000);
    let offers = history.ticks.iter().map(offered).collect();
    Work::ticks(name, packed(&start(&encode(table)).state), offers)
}

/// Sixteen drawn callbacks, in edition 1.
fn busy(random: &mut Random) -> Table {
    loop {
        let table = table(random, Shape::Small);
        let taken = analyse(&encode(&table), &mut [0; PLACES]).is_ok();
        if taken && table.count() == 16 {
            return Table {
                edition: 1,
                ..table
            };
        }
    }
}

/// One chain of sixteen, whose head is the last callback: the longest walk along next.
fn chain() -> Table {
    let member = |next: usize| Callback {
        kind: Kind::Subscription,
        next,
        entries: vec![2],
        period: if next == 15 { 40 } else { 0 },
        jitter: 0,
        distance: if next == 15 { 40 } else { 0 },
    };
    Table {
        edition: 1,
        budget: 1,
        period: 1,
        horizon: 0,
        delay: 0,
        callbacks: (0..16).map(member).collect(),
    }
}

fn chain_history(random: &mut Random) -> Work {
    greedy_history("one chain of 16, greedy", random, &chain())
}

/// A single callback: what the tick costs whatever the table.
fn lone_history(random: &mut Random) -> Work {
    let mut table = longest();
    table.callbacks.truncate(1);
    table.callbacks[0].entries = vec![5];
    table.callbacks[0].period = 12;
    table.callbacks[0].distance = 12;
    greedy_history("one callback, greedy", random, &table)
}

/// The same sixteen in a loop: no head, and refused by the reader.
fn looped() -> Table {
    let mut table = chain();
    table.callbacks[0].next = 16;
    table
}

/// The same offer over and over: idle ticks, ticks whose beats are nearly all folded, and ticks that
/// are refused.
fn repeated() -> Vec<Work> {
    let state = packed(&start(&encode(&longest())).state);
    let mut damaged = state.clone();
    damaged[630] = 1;
    let mut full = start(&encode(&longest())).state;
    full.waiting = [255; PLACES];
    let full = packed(&full);
    let mut looped_state = packed(&start(&encode(&chain())).state);
    looped_state[..HEADER_BYTES + RECORD_BYTES * PLACES].copy_from_slice(&encode(&looped()));
    vec![
        Work::ticks("16 callbacks, idle", state.clone(), vec![(0, 1, 1); 1_000]),
        Work::ticks(
            "16 callbacks of 8 entries, idle",
            packed(&start(&encode(&normal_table(&steep()))).state),
            vec![(0, 1, 1); 1_000],
        ),
        Work::ticks(
            "16 timers, all beats in every tick",
            packed(&start(&encode(&timers_in_turn())).state),
            vec![(u16::MAX, 1, 3); 1_000],
        ),
        Work::ticks(
            "16 callbacks, refused with 19",
            state,
            vec![(0, 1, 0); 1_000],
        ),
        Work::ticks(
            "16 callbacks, refused with 21",
            full,
            vec![(u16::MAX, 1, 1); 1_000],
        ),
        Work::ticks(
            "16 callbacks, refused with 29",
            damaged,
            vec![(0, 1, 1); 1_000],
        ),
        Work::ticks(
            "one loop of 16, refused with 29",
            looped_state,
            vec![(0, 1, 1); 1_000],
        ),
    ]
}
