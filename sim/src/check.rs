//! Demand 3 tried on random tables and histories.

use crate::generate::histories::{recovery, turns, within, Style};
use crate::generate::tables::{table, Shape};
use crate::history::{conclusions, longest_response, within_curves, Departure, History, Violation};
use crate::random::Random;
use crate::sheet::{first_bounds, has_second_bound, sheet, Sheet};
use crate::table::{encode, Table};
use crate::text::{script_text, Line, Script};

/// What one history shows: how it first leaves the curves, which conclusion of demand 3 it breaks
/// first, and the longest response of each callback, by place.
#[derive(Clone, Debug, PartialEq, Eq)]
pub struct Judgement {
    pub departure: Option<Departure>,
    pub violation: Option<Violation>,
    pub longest: Vec<u64>,
}

impl Judgement {
    /// Whether the history is within the curves and breaks no conclusion.
    pub fn in_order(&self) -> bool {
        self.departure.is_none() && self.violation.is_none()
    }
}

pub fn judged(table: &Table, bounds: &[u64], history: &History) -> Judgement {
    let callbacks = 1..=table.count();
    Judgement {
        departure: within_curves(table, history).err(),
        violation: conclusions(table, bounds, history).err(),
        longest: callbacks
            .map(|index| longest_response(table, index, history))
            .collect(),
    }
}

/// How near the responses came to some bounds.
#[derive(Clone, Copy, Debug, Default, PartialEq, Eq)]
pub struct Nearness {
    pub bounds: u64,
    /// Those that some history reached exactly.
    pub reached: u64,
    /// Sum of response × 1000 / bound.
    pub thousandths: u64,
}

impl Nearness {
    fn add(&mut self, bound: u64, response: u64) {
        self.bounds += 1;
        self.reached += u64::from(response == bound);
        self.thousandths += response * 1_000 / bound;
    }

    fn mean(&self) -> u64 {
        self.thousandths / self.bounds.max(1)
    }
}

/// What a check has seen.
#[derive(Clone, Debug, Default)]
pub struct Totals {
    pub tables: u64,
    pub accepted: u64,
    /// The accepted tables of edition 2.
    pub second: u64,
    /// The accepted tables with a delay.
    pub delayed: u64,
    pub longest_window: u64,
    pub histories: u64,
    pub ticks: u64,
    /// Folded beats (U6), and the histories that have some.
    pub folded: u64,
    pub folding: u64,
    /// Bounds whose window fits the histories: those of the row, and for the same callbacks those of
    /// before U5, with which the same responses are compared.
    pub row: Nearness,
    pub before: Nearness,
    /// The same for the timers of edition 1 alone.
    pub timers: Nearness,
    pub timers_before: Nearness,
    /// The timers among them whose bound is smaller than it was.
    pub lowered: u64,
    /// Histories that the generator failed to keep within the curves.
    pub outside: Vec<String>,
    /// Violations of demand 3.
    pub violations: Vec<String>,
}

/// How long they are, if they may be: some windows, and for a table with a delay a rest in which
/// this comes back, so that it can be spent twice.
fn enough(table: &Table, window: u64) -> u64 {
    let rest = if table.delay == 0 { 0 } else { recovery(table) };
    8 * window + 20 + rest
}

/// Checks `count` tables; table i is drawn from `seed` + i, so that
/// `check(seed + i, 1, ..)` repeats it.
pub fn check(seed: u64, count: u64, most_ticks: u64) -> Totals {
    let mut totals = Totals::default();
    for seed in (0..count).map(|i| seed.wrapping_add(i)) {
        check_table(seed, most_ticks, &mut totals);
    }
    totals
}

fn check_table(seed: u64, most_ticks: u64, totals: &mut Totals) {
    let mut random = Random::new(seed);
    let shape = if random.chance(95) {
        Shape::Small
    } else {
        Shape::Long
    };
    totals.tables += 1;
    let Ok(sheet) = sheet(&encode(&table(&mut random, shape))) else {
        return;
    };
    totals.accepted += 1;
    totals.second += u64::from(sheet.table.edition == 2);
    totals.delayed += u64::from(sheet.table.delay > 0);
    totals.longest_window = totals.longest_window.max(sheet.window);
    let (table, window) = (&sheet.table, sheet.window);
    let mut responses = vec![0; table.count()];
    let length = most_ticks.min(enough(table, window));
    let styles: Vec<Style> = turns(table)
        .into_iter()
        .map(|turn| Style::of_turn(&mut random, table, window, turn))
        .collect();
    for style in styles {
        let history = within(&mut random, table, &style, length);
        let judgement = judged(table, &sheet.bounds, &history);
        note(seed, table, &history, &judgement, totals);
        for (response, longest) in responses.iter_mut().zip(judgement.longest) {
            *response = longest.max(*response);
        }
    }
    if window <= most_ticks {
        tally(&sheet, &responses, totals);
    }
}

/// Takes what a history shows into the totals.
fn note(seed: u64, table: &Table, history: &History, judgement: &Judgement, totals: &mut Totals) {
    totals.histories += 1;
    totals.ticks += history.ticks.len() as u64;
    let masks = history.replies.iter().map(|reply| reply.folded);
    let folded: u64 = masks.map(|mask| u64::from(mask.count_ones())).sum();
    totals.folded += folded;
    totals.folding += u64::from(folded > 0);
    if let Some(departure) = judgement.departure {
        totals.outside.push(format!("seed {seed}: {departure:?}"));
    }
    if let Some(violation) = judgement.violation {
        let lines = history.ticks.iter().map(|&tick| Line::Tick(tick)).collect();
        let script = Script {
            table: encode(table),
            lines,
        };
        totals.violations.push(format!(
            "seed {seed}: {violation:?}\n{}",
            script_text(&script)
        ));
    }
}

/// Compares the longest responses with the bounds, and with those of before U5.
fn tally(sheet: &Sheet, responses: &[u64], totals: &mut Totals) {
    let before = first_bounds(&sheet.table, sheet.window);
    for (place, &response) in responses.iter().enumerate() {
        let (bound, before) = (sheet.bounds[place], before[place]);
        totals.row.add(bound, response);
        totals.before.add(before, response);
        if has_second_bound(&sheet.table, place + 1) {
            totals.timers.add(bound, response);
            totals.timers_before.add(before, response);
            totals.lowered += u64::from(bound < before);
        }
    }
}

impl Totals {
    /// Whether every history was within the curves and broke no conclusion.
    pub fn in_order(&self) -> bool {
        self.outside.is_empty() && self.violations.is_empty()
    }
}

/// The totals as lines of text.
pub fn report(totals: &Totals) -> String {
    let mut lines = vec![
        format!("tables {}", totals.tables),
        format!("accepted {}", totals.accepted),
        format!("of these in edition 2 {}", totals.second),
        format!("of these with a delay {}", totals.delayed),
        format!("longest window {}", totals.longest_window),
        format!("histories {}", totals.histories),
        format!("ticks {}", totals.ticks),
        format!("folded beats {}", totals.folded),
        format!("histories with folded beats {}", totals.folding),
        format!("bounds {}", totals.row.bounds),
        format!("reached exactly {}", totals.row.reached),
        format!("mean thousandths of the bound {}", totals.row.mean()),
        format!("before U5 reached exactly {}", totals.before.reached),
        format!("before U5 mean thousandths {}", totals.before.mean()),
        format!("timers of U5 {}", totals.timers.bounds),
        format!("timers of U5 with a smaller bound {}", totals.lowered),
        format!("timers of U5 reached exactly {}", totals.timers.reached),
        format!("timers of U5 mean thousandths {}", totals.timers.mean()),
        format!(
            "timers of U5 before it reached exactly {}",
            totals.timers_before.reached
        ),
        format!(
            "timers of U5 before it mean thousandths {}",
            totals.timers_before.mean()
        ),
        format!("histories outside the curves {}", totals.outside.len()),
        format!("violations {}", totals.violations.len()),
    ];
    lines.extend(totals.outside.iter().cloned());
    lines.extend(totals.violations.iter().cloned());
    lines.join("\n") + "\n"
}
