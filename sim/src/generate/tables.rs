//! Random tables that the reader takes, and those that it took before U7 of document 02.

use crate::normalise::normal_table;
use crate::random::Random;
use crate::sheet::window;
use crate::table::{Callback, Kind, Table, LARGEST, MOST_CALLBACKS, MOST_ENTRIES};

/// What sort of table to draw.
#[derive(Clone, Copy, Debug, PartialEq, Eq)]
pub enum Shape {
    /// Short windows, any number of callbacks.
    Small,
    /// Large costs and periods, windows of thousands of ticks.
    Long,
    /// Fields at the ends of their ranges.
    Extreme,
}

/// A table of this sort. Edition and delay take no number from the generator, so that beside them a
/// seed draws what it drew when there was neither. Since U7 its entries are normal; a delay at the
/// brink goes by these.
pub fn table(random: &mut Random, shape: Shape) -> Table {
    let table = normal_table(&without_delay(random, shape));
    delayed(random.aside(), shape, table)
}

/// What `table` was before U7, with the same numbers taken from the generator. Its entries may have
/// fault 24; beside it the table is right.
pub fn table_before_24(random: &mut Random, shape: Shape) -> Table {
    let table = without_delay(random, shape);
    delayed(random.aside(), shape, table)
}

fn without_delay(random: &mut Random, shape: Shape) -> Table {
    match shape {
        Shape::Small => loaded(random, 6, 12),
        Shape::Long => loaded(random, 400, 2_000),
        Shape::Extreme => extreme(random),
    }
}

/// The table with a delay that suits its sort.
fn delayed(mut aside: Random, shape: Shape, mut table: Table) -> Table {
    table.delay = match shape {
        // Windows stay short: at the brink only where the horizon is short too.
        Shape::Small => delay(&mut aside, &table, 36, 100),
        Shape::Long => delay(&mut aside, &table, 6_000, LARGEST),
        Shape::Extreme => extreme_delay(&mut aside, &table),
    };
    table
}

/// Three small tables to one long and one extreme.
pub fn any_shape(random: &mut Random) -> Shape {
    *random.pick(&[
        Shape::Small,
        Shape::Small,
        Shape::Small,
        Shape::Long,
        Shape::Extreme,
    ])
}

const NONE: Callback = Callback {
    kind: Kind::Subscription,
    next: 0,
    entries: Vec::new(),
    period: 0,
    jitter: 0,
    distance: 0,
};

/// A table whose chains together ask for a drawn share of the supply.
fn loaded(random: &mut Random, largest_cost: u64, largest_period: u64) -> Table {
    let most = *random.pick(&[1, 2, 3, 4, 6, MOST_CALLBACKS as u64]);
    let count = random.range(1, most) as usize;
    let mut callbacks = vec![NONE; count];
    for callback in &mut callbacks {
        callback.kind = kind(random);
        callback.entries = entries(random, largest_cost);
    }
    link(random, &mut callbacks);
    let (budget, period) = reservation(random, largest_period);
    let mut table = Table {
        edition: edition(random),
        budget,
        period,
        horizon: horizon(random),
        delay: 0,
        callbacks,
    };
    load(random, &mut table);
    table
}

/// No delay in half of the draws, otherwise one of some ticks, up to a period or up to `most`. With
/// a horizon of at most `horizon` it is now and then at the brink.
fn delay(random: &mut Random, table: &Table, most: u64, horizon: u64) -> u64 {
    if random.chance(50) {
        return 0;
    }
    match random.range(0, 6) {
        0 | 1 if table.longest_window() <= horizon => brink(random, table),
        0 | 2 => random.range(1, 3),
        1 | 3 => random.range(1, table.period),
        _ => random.range(1, most),
    }
}

/// The largest delay with which the table has a window, or one near to it.
fn brink(random: &mut Random, table: &Table) -> u64 {
    let largest = largest_delay(table);
    let near = random.range(largest.saturating_sub(20), largest);
    *random.pick(&[near, largest.max(1) - 1, largest, largest + 1])
}

/// The largest delay with which the table has a window; 0 where it has none without. A delay only
/// takes from the supply, so that with each smaller one there is a window too.
pub fn largest_delay(table: &Table) -> u64 {
    let (mut served, mut unserved) = (0, LARGEST);
    while unserved - served > 1 {
        let delay = (served + unserved) / 2;
        let late = Table {
            delay,
            ..table.clone()
        };
        match window(&late) {
            Some(_) => served = delay,
            None => unserved = delay,
        }
    }
    served
}

/// A delay at one of the ends, between them, at the brink, or none.
fn extreme_delay(random: &mut Random, table: &Table) -> u64 {
    match random.range(0, 8) {
        0..=2 => 0,
        3 => 1,
        4 => random.range(1, LARGEST),
        5 => LARGEST - 1,
        6 => LARGEST,
        _ => brink(random, table),
    }
}

/// One of the two editions.
pub fn edition(random: &Random) -> u8 {
    if random.coin() {
        2
    } else {
        1
    }
}

fn kind(random: &mut Random) -> Kind {
    *random.pick(&[Kind::Timer, Kind::Subscription, Kind::Service, Kind::Client])
}

/// Strictly increasing entries, mostly in steps of at most the first. Some have fault 24, also with
/// such steps: the fourth may be above twice the second.
fn entries(random: &mut Random, largest: u64) -> Vec<u64> {
    let used = if random.chance(50) {
        1
    } else {
        random.range(1, MOST_ENTRIES as u64)
    };
    let first = random.range(1, largest);
    let step = if random.chance(80) { first } else { 2 * first };
    let mut entries = vec![first];
    for _ in 1..used {
        entries.push(entries[entries.len() - 1] + random.range(1, step));
    }
    entries
}

/// Links callbacks to chains: each non-timer may follow the end of a chain.
fn link(random: &mut Random, callbacks: &mut [Callback]) {
    let mut order: Vec<usize> = (1..=callbacks.len()).collect();
    random.shuffle(&mut order);
    let linking = *random.pick(&[0, 40, 90]);
    let mut ends: Vec<usize> = Vec::new();
    for index in order {
        let follows = callbacks[index - 1].kind != Kind::Timer && random.chance(linking);
        if follows && !ends.is_empty() {
            let place = random.range(0, ends.len() as u64 - 1) as usize;
            callbacks[ends[place] - 1].next = index;
            ends[place] = index;
        } else {
            ends.push(index);
        }
    }
}

/// Budget and period, full supply in two of five draws.
fn reservation(random: &mut Random, largest: u64) -> (u64, u64) {
    match random.range(0, 4) {
        0 => (1, 1),
        1 => {
            let period = random.range(1, largest);
            (period, period)
        }
        _ => {
            let period = random.range(2, largest);
            (random.range(1 + period / 3, period), period)
        }
    }
}

fn horizon(random: &mut Random) -> u64 {
    match random.range(0, 7) {
        0 => random.range(1, 100),
        1 => *random.pick(&[1, LARGEST - 1, LARGEST]),
        _ => 0,
    }
}

/// Gives each head its arrivals, so that all chains together ask for about
/// the drawn part, in thousandths, of the supply.
fn load(random: &mut Random, table: &mut Table) {
    let heads: Vec<usize> = (1..=table.count()).filter(|&i| table.is_head(i)).collect();
    let share = *random.pick(&[150, 400, 700, 900, 1_000, 1_050]);
    for &head in &heads {
        let mut per_instance = 0;
        let mut at = head;
        while at != 0 {
            let callback = table.callback(at);
            let used = callback.entries.len();
            per_instance += callback.entries[used - 1].div_ceil(used as u64);
            at = callback.next;
        }
        let weight = random.range(500, 1_500);
        let needed = per_instance * table.period * heads.len() as u64 * weight;
        let period = needed.div_ceil(table.budget * share).clamp(1, LARGEST);
        let jitter = jitter(random, period);
        let callback = &mut table.callbacks[head - 1];
        callback.period = period;
        callback.jitter = jitter;
        callback.distance = if random.chance(40) {
            period
        } else {
            random.range(1, period)
        };
    }
}

fn jitter(random: &mut Random, period: u64) -> u64 {
    let most = *random.pick(&[0, 0, period / 2, period, 3 * period, 10 * period]);
    random.range(0, most).min(LARGEST)
}

/// A table with many fields at the ends of their ranges.
fn extreme(random: &mut Random) -> Table {
    let count = *random.pick(&[1, 2, MOST_CALLBACKS]);
    let mut callbacks = vec![NONE; count];
    for callback in &mut callbacks {
        callback.kind = kind(random);
        callback.entries = extreme_entries(random);
    }
    link(random, &mut callbacks);
    let period = end(random);
    let budget = *random.pick(&[1, period.div_ceil(2), period.max(2) - 1, period]);
    let mut table = Table {
        edition: edition(random),
        budget,
        period,
        horizon: 0,
        delay: 0,
        callbacks,
    };
    table.horizon = *random.pick(&[0, 1, LARGEST - 1, LARGEST]);
    for head in (1..=count)
        .filter(|&i| table.is_head(i))
        .collect::<Vec<_>>()
    {
        let callback = &mut table.callbacks[head - 1];
        callback.period = end(random);
        callback.jitter = if random.chance(50) { 0 } else { end(random) };
        callback.distance = *random.pick(&[1, callback.period.div_ceil(2), callback.period]);
    }
    table
}

/// A number near one end of 1 to 60,000, or between.
fn end(random: &mut Random) -> u64 {
    let between = random.range(1, LARGEST);
    *random.pick(&[1, 2, between, LARGEST - 1, LARGEST, LARGEST])
}

fn extreme_entries(random: &mut Random) -> Vec<u64> {
    let used = *random.pick(&[1, 2, MOST_ENTRIES as u64]);
    if random.chance(30) {
        return (LARGEST + 1 - used..=LARGEST).collect();
    }
    (1..=used).collect()
}
