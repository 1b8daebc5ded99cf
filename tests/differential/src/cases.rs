//! What one seed draws: tables, histories, states and lengths.

use crate::compare::{Comparison, Offer, Outcome};
use crate::fence::SEED;
use crate::layout::{pack, LENGTH};
use crate::old;
use sim::generate::blocking::timers;
use sim::generate::damage::{damaged, refused_with, NUMBERS};
use sim::generate::histories::{outside, within, Style};
use sim::generate::states::{sound, spoil};
use sim::generate::tables::{any_shape, edition, table, Shape};
use sim::generate::values::{rooms, values};
use sim::history::{conclusions, longest_response, History};
use sim::machine::{bit, Tick};
use sim::random::Random;
use sim::sheet::{delayed_supply, first_bounds};
use sim::table::{encode, read, Callback, Kind, Table, LARGEST, MOST_CALLBACKS};
use sim::text::hex;
use sim::trackers::longest_starvation;
use sim::write::values_at;
use std::sync::atomic::Ordering;

const TABLES: u64 = 100;
const DISTURBED: u64 = 300;
const SCATTERED: u64 = 300;
const WRITINGS: u64 = 100;

/// In the range, at its ends and outside it, some in their low sixteen bits only.
const COSTS: [u32; 12] = [
    0,
    1,
    2,
    59_999,
    60_000,
    60_001,
    65_535,
    65_536,
    65_537,
    125_536,
    1 << 31,
    u32::MAX,
];
const SUPPLIES: [u8; 5] = [0, 1, 2, 128, 255];
const LENGTHS: [usize; 12] = [0, 1, 2, 16, 527, 528, 632, 639, 641, 656, 1_280, 2_000];

type Case = fn(&mut Comparison, &mut Random) -> Outcome;

const CASES: [(&str, Case); 12] = [
    ("tables", tables),
    ("longest window", longest_window),
    ("history within the curves", history_within),
    ("history outside the curves", history_outside),
    ("disturbed states", disturbed),
    ("damaged state", damaged_state),
    ("offers", offers),
    ("lengths", lengths),
    ("writings", writings),
    ("timers held up", timers_held_up),
    ("tables of before U7", old::tables),
    ("history of before U7", old::histories),
];

/// Everything that a seed draws.
pub fn run(comparison: &mut Comparison, seed: u64) -> Outcome {
    SEED.store(seed, Ordering::Relaxed);
    let mut random = Random::new(seed);
    for (name, case) in CASES {
        case(comparison, &mut random).map_err(|what| format!("seed {seed}, {name}: {what}"))?;
    }
    Ok(())
}

/// Tables with each field at the ends of its range and a step beyond, tables
/// whose supply or demand is at its widest, and cost curves around fault 24, all
/// short ones among them.
pub fn edges(comparison: &mut Comparison) -> Outcome {
    let mut random = Random::new(0);
    let tables = sim::generate::edges::edges().into_iter();
    let tables = tables.chain(widest_supplies()).chain([widest_demand()]);
    for bytes in tables.chain(old::edges()) {
        one_table(comparison, &mut random, &bytes).map_err(|what| format!("edges: {what}"))?;
    }
    Ok(())
}

fn noise(random: &mut Random, length: usize) -> Vec<u8> {
    (0..length).map(|_| random.bits() as u8).collect()
}

pub fn noisy_row(random: &mut Random, places: u64) -> Vec<u16> {
    (0..places).map(|_| random.bits() as u16).collect()
}

/// The values of a table's bytes, whatever they are, written into buffers that
/// are just long enough, longer, and too short by a byte; an accepted table is
/// written back byte by byte.
fn write_back(comparison: &mut Comparison, bytes: &[u8]) -> Outcome {
    let values = values_at(bytes);
    let accepted = read(bytes).is_ok();
    for room in [bytes.len(), bytes.len() + 3, bytes.len().saturating_sub(1)] {
        let got = comparison.write(&values, &vec![room as u8 ^ 0x5A; room])?;
        let fits = accepted && room >= bytes.len();
        if fits && (got.number != 0 || comparison.buffer()[..bytes.len()] != *bytes) {
            return Err(format!("not written back: {got:?}"));
        }
    }
    Ok(())
}

/// Reader, analyser (rows of fewer than sixteen places, and of more), start,
/// writer and the program of U7 on one table; window and row where the analyser
/// takes it.
pub fn one_table(
    comparison: &mut Comparison,
    random: &mut Random,
    bytes: &[u8],
) -> Outcome<Option<(u16, Vec<u16>)>> {
    let mut all = || {
        comparison.read(bytes)?;
        let short = random.range(0, MOST_CALLBACKS as u64 - 1);
        comparison.analyse(bytes, &noisy_row(random, short))?;
        let places = *random.pick(&[16, 16, 17, 24, 100]);
        let sheet = comparison.analyse(bytes, &noisy_row(random, places))?;
        comparison.start(bytes, &noise(random, LENGTH))?;
        write_back(comparison, bytes)?;
        old::normalised(comparison, random, bytes)?;
        comparison.totals.tables += 1;
        comparison.totals.accepted += u64::from(sheet.0 != 0);
        comparison.totals.delayed += u64::from(sheet.0 != 0 && bytes[8..10] != [0, 0]);
        Ok((sheet.0 != 0).then_some(sheet))
    };
    all().map_err(|what: String| format!("{what}\ntable {}", hex(bytes)))
}

fn tables(comparison: &mut Comparison, random: &mut Random) -> Outcome {
    for number in NUMBERS {
        let bytes = refused_with(random, number);
        one_table(comparison, random, &bytes)?;
    }
    for _ in NUMBERS.len() as u64..TABLES {
        let bytes = match random.range(0, 19) {
            0..=9 => encode(&table(random, Shape::Small)),
            10..=11 => encode(&table(random, Shape::Long)),
            12 => encode(&table(random, Shape::Extreme)),
            _ => damaged(random),
        };
        one_table(comparison, random, &bytes)?;
    }
    Ok(())
}

/// A subscription of one entry without followers, as often as `distance` lets it come.
pub fn lone(cost: u64, period: u64, distance: u64) -> Callback {
    Callback {
        kind: Kind::Subscription,
        next: 0,
        entries: vec![cost],
        period,
        jitter: 0,
        distance,
    }
}

/// One callback that the supply of all ticks up to the largest horizon covers,
/// or just does not: what the formula forms on the way there goes up to twice
/// that horizon, and past sixteen bits at a gap of 32,768.
fn widest_supplies() -> Vec<Vec<u8>> {
    let gaps = [0, 1, 29_999, 30_000, 32_767, 32_768, LARGEST - 1];
    let mut tables = Vec::new();
    for (gap, delay) in gaps
        .iter()
        .flat_map(|&gap| [0, 1, 30_000].map(|delay| (gap, delay)))
    {
        let mut table = Table {
            edition: 1,
            budget: LARGEST - gap,
            period: LARGEST,
            horizon: 0,
            delay,
            callbacks: Vec::new(),
        };
        let covered = delayed_supply(&table, LARGEST);
        for cost in covered.max(1)..=(covered + 1).min(LARGEST) {
            table.callbacks = vec![lone(cost, LARGEST, LARGEST)];
            tables.push(encode(&table));
        }
    }
    tables
}

/// A demand of 131,072 more in each tick: 32 bits would find none of it at 32,768.
fn widest_demand() -> Vec<u8> {
    encode(&Table {
        edition: 1,
        budget: 1,
        period: 1,
        horizon: 0,
        delay: 0,
        callbacks: [LARGEST, LARGEST, 11_072]
            .map(|cost| lone(cost, 1, 1))
            .into(),
    })
}

/// Lone callbacks whose costs, behind a delay, add up to nearly the largest window.
fn longest_window(comparison: &mut Comparison, random: &mut Random) -> Outcome {
    let count = *random.pick(&[1, 2, 16]);
    let delay = *random.pick(&[0, 1, LARGEST / 2, LARGEST - 2 - count]);
    let cost = (LARGEST - delay - random.range(0, 2)) / count;
    let lone = lone(cost, LARGEST, random.range(1, LARGEST));
    let bytes = encode(&Table {
        edition: edition(random),
        budget: 1,
        period: 1,
        horizon: 0,
        delay,
        callbacks: vec![lone; count as usize],
    });
    // The analyser's work grows with the square of the count.
    if random.chance(100 / count) {
        one_table(comparison, random, &bytes)?;
    }
    Ok(())
}

/// A table that the analyser takes, with its window and row.
fn accepted(
    comparison: &mut Comparison,
    random: &mut Random,
    shape: Shape,
) -> Outcome<(Table, u16, Vec<u16>)> {
    loop {
        let drawn = table(random, shape);
        if let Some((window, row)) = one_table(comparison, random, &encode(&drawn))? {
            return Ok((drawn, window, row));
        }
    }
}

/// A start, and then the ticks one after the other.
fn play(
    comparison: &mut Comparison,
    random: &mut Random,
    table: &Table,
    offers: impl Iterator<Item = Offer>,
) -> Outcome {
    let mut state = comparison.start(&encode(table), &noise(random, LENGTH))?;
    for offer in offers {
        state = comparison.tick(&state, offer)?;
        comparison.totals.ticks += 1;
    }
    comparison.totals.histories += 1;
    Ok(())
}

fn offered(tick: &Tick) -> Offer {
    Offer {
        mask: tick.mask,
        supplied: tick.supplied.into(),
        cost: tick.cost as u32,
    }
}

/// The most ticks in a row without supply.
fn longest_pause(ticks: &[Tick]) -> u64 {
    let pauses = ticks.split(|tick| tick.supplied);
    pauses.map(|pause| pause.len() as u64).max().unwrap_or(0)
}

/// A history within the curves: its replies, and the library's row, are held
/// to the conclusions of demand 3 too.
pub fn kept(
    comparison: &mut Comparison,
    random: &mut Random,
    table: &Table,
    row: &[u16],
    history: &History,
) -> Outcome {
    play(comparison, random, table, history.ticks.iter().map(offered))?;
    let bounds: Vec<u64> = row.iter().map(|&bound| bound.into()).collect();
    conclusions(table, &bounds, history)
        .map_err(|violation| format!("{violation:?}\ntable {}", hex(&encode(table))))
}

/// Histories within the curves, in all the ways that do not look for timers.
fn history_within(comparison: &mut Comparison, random: &mut Random) -> Outcome {
    for (shape, length) in [(Shape::Small, 600), (Shape::Small, 600), (Shape::Long, 800)] {
        let (table, window, row) = accepted(comparison, random, shape)?;
        let style = Style::any(random, &table, u64::from(window));
        let history = within(random, &table, &style, length);
        let worst = longest_starvation(&table);
        let starved = table.delay > 0 && longest_pause(&history.ticks) == worst;
        comparison.totals.starved += u64::from(starved);
        kept(comparison, random, &table, &row, &history)?;
    }
    Ok(())
}

/// Histories that start the costliest callback of lower priority just before a
/// timer's beat, for each timer of a table of edition 1; how often the timer's
/// number in the library's row is met, and how often that of before U5 was.
fn timers_held_up(comparison: &mut Comparison, random: &mut Random) -> Outcome {
    let (table, window, row) = loop {
        let drawn = accepted(comparison, random, Shape::Small)?;
        if !timers(&drawn.0).is_empty() {
            break drawn;
        }
    };
    let before = first_bounds(&table, window.into());
    for timer in timers(&table) {
        let style = Style::blocking(random, &table, window.into(), timer);
        let history = within(random, &table, &style, 600);
        kept(comparison, random, &table, &row, &history)?;
        let longest = longest_response(&table, timer, &history);
        comparison.totals.held_up += 1;
        comparison.totals.met += u64::from(longest == u64::from(row[timer - 1]));
        comparison.totals.met_before += u64::from(longest == before[timer - 1]);
    }
    Ok(())
}

/// Floods, stray bits, costs out of range, any byte for supplied.
fn history_outside(comparison: &mut Comparison, random: &mut Random) -> Outcome {
    for length in [300, 900, 1_800] {
        let shape = any_shape(random);
        let table = table(random, shape);
        let strange = *random.pick(&[0, 2, 30]);
        let mut offers = Vec::new();
        for tick in outside(random, &table, length) {
            let mut offer = offered(&tick);
            if random.chance(strange) {
                offer.cost = *random.pick(&COSTS);
            }
            if random.chance(strange) {
                offer.mask ^= 1 << random.range(0, 15);
            }
            if offer.supplied == 1 {
                offer.supplied = *random.pick(&SUPPLIES[1..]);
            }
            offers.push(offer);
        }
        play(comparison, random, &table, offers.into_iter())?;
    }
    Ok(())
}

fn heads(table: &Table) -> u16 {
    let heads = (1..=table.count()).filter(|&index| table.is_head(index));
    heads.map(bit).sum()
}

/// An offer that is mostly in range.
pub fn any_offer(random: &mut Random, table: &Table) -> Offer {
    let heads = heads(table);
    Offer {
        mask: random.bits() as u16 & if random.chance(90) { heads } else { u16::MAX },
        supplied: *random.pick(&[0, 1, 1, 1, 255]),
        cost: *random.pick(&[1, 1, 2, 60_000, 60_001]),
    }
}

/// States written at will, sound or with a fault, and a few ticks on each.
fn disturbed(comparison: &mut Comparison, random: &mut Random) -> Outcome {
    for _ in 0..DISTURBED {
        let shape = any_shape(random);
        let table = table(random, shape);
        let mut state = sound(random, &table);
        if random.chance(50) {
            spoil(random, &table, &mut state);
        }
        let mut lent = pack(&state).to_vec();
        for _ in 0..4 {
            let offer = any_offer(random, &table);
            lent = comparison.tick(&lent, offer)?;
            comparison.totals.ticks += 1;
        }
    }
    Ok(())
}

/// A state without faults: fresh, in the midst of a history, or drawn.
fn any_state(random: &mut Random) -> (Table, Vec<u8>) {
    let shape = any_shape(random);
    let table = table(random, shape);
    let mut state = sim::machine::start(&encode(&table)).state;
    match random.range(0, 5) {
        0 => {}
        1..=3 => {
            let length = random.range(1, 60);
            for tick in outside(random, &table, length) {
                state = state.tick(tick).state;
            }
        }
        _ => state = sound(random, &table),
    }
    (table, pack(&state).to_vec())
}

/// Every byte of a state changed by itself, then several at once.
fn damaged_state(comparison: &mut Comparison, random: &mut Random) -> Outcome {
    let (table, state) = any_state(random);
    let offer = any_offer(random, &table);
    for at in 0..LENGTH {
        let was = state[at];
        let others = [
            0,
            1,
            255,
            was ^ 0x80,
            was.wrapping_add(1),
            random.bits() as u8,
        ];
        for value in others.into_iter().filter(|&value| value != was) {
            let mut lent = state.clone();
            lent[at] = value;
            comparison.tick(&lent, offer)?;
            comparison.totals.damaged += 1;
        }
    }
    for _ in 0..SCATTERED {
        let mut lent = state.clone();
        let from = *random.pick(&[0, 16, 528, 560, 624]);
        for _ in 0..random.range(2, 4) {
            lent[random.range(from, LENGTH as u64 - 1) as usize] = *random.pick(&[0, 1, 2, 255]);
        }
        comparison.tick(&lent, offer)?;
        comparison.totals.damaged += 1;
    }
    Ok(())
}

/// Each bit of the mask with each cost and each byte for supplied, on one state.
fn offers(comparison: &mut Comparison, random: &mut Random) -> Outcome {
    let (table, state) = any_state(random);
    let single = (0..16).map(|place| 1 << place);
    for mask in single.chain([0, u16::MAX, heads(&table), !heads(&table)]) {
        for cost in COSTS {
            let supplied = *random.pick(&SUPPLIES);
            let offer = Offer {
                mask,
                supplied,
                cost,
            };
            comparison.tick(&state, offer)?;
            comparison.totals.ticks += 1;
        }
    }
    Ok(())
}

/// Wrong lengths of the state, at a start and at a tick, with tables that
/// the reader takes and others; and a table cut short or too long.
fn lengths(comparison: &mut Comparison, random: &mut Random) -> Outcome {
    let (table, state) = any_state(random);
    let bytes = encode(&table);
    let refused = damaged(random);
    let drawn = random.range(0, 1_300) as usize;
    for length in LENGTHS.into_iter().chain([drawn]) {
        let mut lent = state.clone();
        lent.resize(length, 0);
        comparison.start(&bytes, &lent)?;
        comparison.start(&refused, &lent)?;
        let offer = any_offer(random, &table);
        comparison.tick(&lent, offer)?;
        comparison.totals.lengths += 3;
    }
    for change in (-40..=40).filter(|&change| change != 0) {
        let mut other = bytes.clone();
        other.resize(bytes.len().saturating_add_signed(change), 0);
        comparison.read(&other)?;
        comparison.normalise(&other)?;
        comparison.start(&other, &noise(random, LENGTH))?;
        comparison.totals.lengths += 3;
    }
    Ok(())
}

/// Drawn values, some too wide for their bytes, too few or too many, in buffers
/// of every length around the table's.
fn writings(comparison: &mut Comparison, random: &mut Random) -> Outcome {
    for _ in 0..WRITINGS {
        let values = values(random);
        for room in rooms(&values) {
            comparison.write(&values, &noise(random, room))?;
        }
    }
    Ok(())
}
