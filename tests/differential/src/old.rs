//! Tables of before U7: the program that lowers their cost entries, and reader,
//! sheet and machine beside what they were.

use crate::cases::{any_offer, kept, lone, noisy_row, one_table};
use crate::compare::{Comparison, Outcome};
use crate::layout::pack;
use sim::generate::blocking::timers;
use sim::generate::curves::{any_old_table, old_table};
use sim::generate::histories::{within, Style};
use sim::generate::normal_edges::normal_edges;
use sim::generate::states::sound;
use sim::generate::tables::Shape;
use sim::history::within_curves;
use sim::random::Random;
use sim::sheet::{analyse_before_24, sheet_before_24};
use sim::table::{encode, read, Callback, Table, MOST_CALLBACKS, MOST_ENTRIES};
use sim::text::hex;

const TABLES: u64 = 40;

/// No entry of the curves that are tried one by one is above this.
const LARGEST_TRIED: u64 = 12;

/// The cases of `sim generate normalisings`, and a callback with each curve of
/// small entries.
pub fn edges() -> Vec<Vec<u8>> {
    let mut tables = normal_edges();
    tables.extend(curves().into_iter().map(with_curve));
    tables
}

/// Every strictly rising curve up to the largest entry: the numbers whose bits are
/// set, of each choice of one to eight.
fn curves() -> Vec<Vec<u64>> {
    let chosen = |bits: u64| (1..=LARGEST_TRIED).filter(move |entry| bits >> (entry - 1) & 1 == 1);
    let curves = (1..1 << LARGEST_TRIED).map(|bits| chosen(bits).collect::<Vec<u64>>());
    curves
        .filter(|entries| entries.len() <= MOST_ENTRIES)
        .collect()
}

/// A callback whose activations come in pairs, so that entries beyond the first count.
fn with_curve(entries: Vec<u64>) -> Vec<u8> {
    let callback = Callback {
        entries,
        jitter: 40,
        ..lone(1, 20, 2)
    };
    encode(&Table {
        edition: 1,
        budget: 9,
        period: 10,
        horizon: 400,
        delay: 0,
        callbacks: vec![callback],
    })
}

/// The program of U7 on any bytes. It changes a table just where the reader has
/// nothing against it but 24; then its sheet is held against that of before.
pub fn normalised(comparison: &mut Comparison, random: &mut Random, bytes: &[u8]) -> Outcome {
    let Some(normal) = comparison.normalise(bytes)? else {
        return Ok(());
    };
    let fault = comparison.read(bytes)?.number == 24;
    if fault != (normal != bytes) {
        return Err(format!("fault 24: {fault}, left as {}", hex(&normal)));
    }
    if fault {
        comparison.totals.old += 1;
        no_larger(comparison, random, bytes, &normal)?;
    }
    Ok(())
}

/// A table that had a sheet before U7 has one with the new entries, and no number
/// in it is larger.
fn no_larger(
    comparison: &mut Comparison,
    random: &mut Random,
    old: &[u8],
    normal: &[u8],
) -> Outcome {
    let (window, row) = comparison.analyse(normal, &noisy_row(random, MOST_CALLBACKS as u64))?;
    let mut bounds_before = [0; MOST_CALLBACKS];
    let Ok(window_before) = analyse_before_24(old, &mut bounds_before) else {
        return Ok(());
    };
    let mut pairs = vec![(window, window_before as u16)];
    pairs.extend(row.into_iter().zip(bounds_before).take(old[1].into()));
    if window == 0 || pairs.iter().any(|(now, before)| now > before) {
        return Err(format!("window and bounds, now and before: {pairs:?}"));
    }
    comparison.totals.old_sheets += 1;
    comparison.totals.smaller += u64::from(pairs.iter().any(|(now, before)| now < before));
    Ok(())
}

/// Tables that could be stored before U7, and machines that hold one.
pub fn tables(comparison: &mut Comparison, random: &mut Random) -> Outcome {
    for _ in 0..TABLES {
        let old = any_old_table(random);
        one_table(comparison, random, &encode(&old))?;
        held(comparison, random, &old)?;
    }
    Ok(())
}

/// The table that the program makes of this one, by the library.
fn normal(comparison: &mut Comparison, old: &Table) -> Outcome<Table> {
    let bytes = comparison.normalise(&encode(old))?;
    let table = bytes.and_then(|bytes| read(&bytes).ok());
    table.ok_or_else(|| format!("not normalised: {}", hex(&encode(old))))
}

/// A tick on a state of the new table, and on one that holds the old table in its
/// place: the machine refuses that one with 29 where the reader refuses it.
fn held(comparison: &mut Comparison, random: &mut Random, old: &Table) -> Outcome {
    let normal = normal(comparison, old)?;
    let offer = any_offer(random, &normal);
    let mut state = sound(random, &normal);
    comparison.tick(&pack(&state), offer)?;
    state.table = encode(old);
    comparison.tick(&pack(&state), offer)?;
    comparison.totals.ticks += 2;
    comparison.totals.old_states += u64::from(normal != *old);
    Ok(())
}

/// A table with fault 24 that had a sheet before U7, and the window that it had.
fn stored(comparison: &mut Comparison, random: &mut Random, shape: Shape) -> Outcome<(Table, u64)> {
    loop {
        let old = old_table(random, shape);
        let bytes = encode(&old);
        one_table(comparison, random, &bytes)?;
        match sheet_before_24(&bytes) {
            Ok(sheet) if read(&bytes).is_err() => return Ok((old, sheet.window)),
            _ => {}
        }
    }
}

/// Histories within the curves of a table with fault 24, on the machine of the new
/// table and held to the library's new row. Timers are held up one after the other too.
pub fn histories(comparison: &mut Comparison, random: &mut Random) -> Outcome {
    for (shape, length) in [(Shape::Small, 600), (Shape::Small, 600), (Shape::Long, 800)] {
        let (old, window) = stored(comparison, random, shape)?;
        let any = Style::any(random, &old, window);
        one_history(comparison, random, &old, &any, length)?;
        for timer in timers(&old) {
            let blocking = Style::blocking(random, &old, window, timer);
            one_history(comparison, random, &old, &blocking, length)?;
        }
    }
    Ok(())
}

fn one_history(
    comparison: &mut Comparison,
    random: &mut Random,
    old: &Table,
    style: &Style,
    length: u64,
) -> Outcome {
    let normal = normal(comparison, old)?;
    let row = noisy_row(random, MOST_CALLBACKS as u64);
    let (_, row) = comparison.analyse(&encode(&normal), &row)?;
    let history = within(random, old, style, length);
    // What the old curves permit the new ones do: that is why no bound is lost.
    for table in [old, &normal] {
        within_curves(table, &history)
            .map_err(|departure| format!("{departure:?}\ntable {}", hex(&encode(table))))?;
    }
    comparison.totals.old_histories += 1;
    kept(comparison, random, &normal, &row, &history)
}
