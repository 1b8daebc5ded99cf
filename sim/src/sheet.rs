//! The curves and the sheet: window, bounds and the analyser (refusals 15 to 17). Sections in
//! quotes are document 01's, U2, U5 and U7 are requests of document 02. The bound of before U5 is the
//! first bound here, as its own name for the other one is the second bound. U7 changes nothing but
//! which tables the reader takes.

use crate::table::{read, read_before_24, refusal, Callback, Kind, Refusal, Table, MOST_CALLBACKS};

/// 'Curves', arrivals: the most activations of a head in D = `length` ticks, which is 0 for no
/// ticks, whatever J is, and otherwise min(⌈(D + J) / T⌉, ⌈D / d⌉). (T and d must not be zero)
pub fn arrivals(head: &Callback, length: u64) -> u64 {
    if length == 0 {
        return 0;
    }
    let by_period = (length + head.jitter).div_ceil(head.period);
    let by_distance = length.div_ceil(head.distance);
    by_period.min(by_distance)
}

/// 'Curves', cost: the most that this many instances in a row cost together: 0 for none, an entry
/// for up to m, beyond that E(q × m + r) = q × E(m) + E(r), r < m. (there must be an entry)
pub fn cost(entries: &[u64], instances: u64) -> u64 {
    let most = entries.len() as u64;
    if instances == 0 {
        return 0;
    }
    if instances <= most {
        return entries[instances as usize - 1];
    }
    let (times, rest) = (instances / most, instances % most);
    times * entries[entries.len() - 1] + cost(entries, rest)
}

/// 'Curves', supply, as it is without a delay: s at D = `length`. With g = P - Q it is 0 where
/// D < g, otherwise k × Q + max(0, D - 2 × g - k × P), k = ⌊(D - g) / P⌋. Only `delayed_supply`
/// rests on it; all else rests on that one. (Q must be 1 to P)
pub fn supply(budget: u64, period: u64, length: u64) -> u64 {
    let gap = period - budget;
    if length < gap {
        return 0;
    }
    let whole = (length - gap) / period;
    whole * budget + length.saturating_sub(2 * gap + whole * period)
}

/// U2, supply: the fewest supplied ticks among D = `length` in a row. It is s at D - Z, and 0 for
/// a D below Z, so that Z ticks are lost once in every window. Like s it never falls, and grows by
/// at most 1 with a tick: up to Z it rests at 0, which is s(0) too. (Q must be 1 to P)
pub fn delayed_supply(table: &Table, length: u64) -> u64 {
    match length.checked_sub(table.delay) {
        Some(rest) => supply(table.budget, table.period, rest),
        None => 0,
    }
}

/// 'The sheet', E(a(D)): the callback's cost curve at the arrivals in D = `length` ticks. A
/// follower takes the arrivals curve of the head of its chain.
fn cost_in(table: &Table, index: usize, length: u64) -> u64 {
    let head = table.callback(table.head_of(index));
    cost(&table.callback(index).entries, arrivals(head, length))
}

/// 'The sheet', window: the costs E(a(D)) of callbacks 1 to n, added up.
fn cost_of_all(table: &Table, length: u64) -> u64 {
    let all = 1..=table.count();
    all.map(|i| cost_in(table, i, length)).sum()
}

/// 'The sheet', F(A): the costs E(a(D)) of all but this callback, added up; 0 where it is alone.
fn cost_of_others(table: &Table, index: usize, length: u64) -> u64 {
    let others = (1..=table.count()).filter(|&i| i != index);
    others.map(|i| cost_in(table, i, length)).sum()
}

/// 'The sheet', window: W, the first length from 1 to the horizon whose supply covers the costs of
/// all callbacks; none where no length does.
pub fn window_literal(table: &Table) -> Option<u64> {
    (1..=table.longest_window()).find(|&w| delayed_supply(table, w) >= cost_of_all(table, w))
}

/// 'The sheet', bound, "the present bound" of U5: the largest response F(A) - A over the offsets A
/// below `window`. F(A) is the first length, from 1 on, whose supply covers the callback's own
/// E(a(A + 1)) and the costs of the others in that length. Lengths end at `window`, since F(A) does
/// not exceed W.
pub fn first_bound_literal(table: &Table, index: usize, window: u64) -> u64 {
    let mut bound = 0;
    for offset in 0..window {
        let own = cost_in(table, index, offset + 1);
        for length in 1..=window {
            let needed = own + cost_of_others(table, index, length);
            if delayed_supply(table, length) >= needed {
                bound = bound.max(length.saturating_sub(offset));
                break;
            }
        }
    }
    bound
}

/// 'The callback table', priority: whether the one callback goes before the other, by kind number
/// first and by index among those of one kind. None goes before itself.
pub fn goes_before(table: &Table, one: usize, other: usize) -> bool {
    (table.callback(one).kind, one) < (table.callback(other).kind, other)
}

/// U5: whether the callback has a second bound, as timers have in a table of edition 1.
pub fn has_second_bound(table: &Table, index: usize) -> bool {
    table.edition == 1 && table.callback(index).kind == Kind::Timer
}

/// U5, B: one less than the largest E(1) of those that go behind the callback, 0 where nobody does.
/// It is what may be left of a lower instance that started in the tick before.
pub fn blocking_literal(table: &Table, index: usize) -> u64 {
    let lower = (1..=table.count()).filter(|&i| goes_before(table, index, i));
    let costliest = lower.map(|i| cost(&table.callback(i).entries, 1)).max();
    costliest.map_or(0, |most| most - 1)
}

/// U5, what the timers of higher priority may need in a length: their E(a(D)), added up.
fn cost_of_timers_above(table: &Table, index: usize, length: u64) -> u64 {
    let timers = (1..=table.count()).filter(|&i| table.callback(i).kind == Kind::Timer);
    let above = timers.filter(|&i| goes_before(table, i, index));
    above.map(|i| cost_in(table, i, length)).sum()
}

/// U5, the own window: the first length from 1 on whose supply covers B, the callback's E(a(D)) and
/// those of the timers above. Lengths end at `most`; for that W does, which no own window exceeds.
pub fn own_window_literal(table: &Table, index: usize, most: u64) -> Option<u64> {
    let blocking = blocking_literal(table, index);
    (1..=most).find(|&length| {
        let own = cost_in(table, index, length);
        let above = cost_of_timers_above(table, index, length);
        delayed_supply(table, length) >= blocking + own + above
    })
}

/// U5, the second bound: the largest D - A over the offsets A below the own window, D being the
/// first length from 1 on whose supply covers B, the callback's own E(a(A + 1)) and the E(a(D)) of
/// the timers above. No such D is above the own window: that covers a(A + 1) too. None where the
/// callback has no second bound, or no own window up to `most`.
pub fn second_bound_literal(table: &Table, index: usize, most: u64) -> Option<u64> {
    if !has_second_bound(table, index) {
        return None;
    }
    let own_window = own_window_literal(table, index, most)?;
    let blocking = blocking_literal(table, index);
    let mut bound = 0;
    for offset in 0..own_window {
        let own = cost_in(table, index, offset + 1);
        for length in 1..=own_window {
            let needed = blocking + own + cost_of_timers_above(table, index, length);
            if delayed_supply(table, length) >= needed {
                bound = bound.max(length.saturating_sub(offset));
                break;
            }
        }
    }
    Some(bound)
}

/// U5, the number in the row: the smaller of first and second bound for a timer of edition 1, the
/// first for callbacks of edition 2 and for all that are no timers.
pub fn bound_literal(table: &Table, index: usize, window: u64) -> u64 {
    let first = first_bound_literal(table, index, window);
    match second_bound_literal(table, index, window) {
        Some(second) => first.min(second),
        None => first,
    }
}

/// The number of `window_literal`, by jumps.
pub fn window(table: &Table) -> Option<u64> {
    let needed = |length| cost_of_all(table, length);
    first_covered(table, table.longest_window(), needed)
}

/// The number of `own_window_literal`, by jumps; for timers of edition 1.
pub fn own_window(table: &Table, index: usize, most: u64) -> Option<u64> {
    let blocking = blocking(table, index);
    let timers = timers_up_to(table, index);
    let needed = |length| {
        let demands = timers.iter().map(|&i| cost_in(table, i, length));
        blocking + demands.sum::<u64>()
    };
    first_covered(table, most, needed)
}

/// The first length up to `most` whose supply covers what is needed in it. Where the supply of a
/// length L falls short by x, no length below L + x serves: the supply grows by at most 1 a tick,
/// with a delay too, and the need must not fall with the length. So jumping to L + x skips none.
fn first_covered(table: &Table, most: u64, needed: impl Fn(u64) -> u64) -> Option<u64> {
    let mut length = 1;
    while length <= most {
        let (needed, supplied) = (needed(length), delayed_supply(table, length));
        if supplied >= needed {
            return Some(length);
        }
        length += needed - supplied;
    }
    None
}

/// The timer and those above it, which are the timers up to its index.
fn timers_up_to(table: &Table, index: usize) -> Vec<usize> {
    let timer = |&i: &usize| table.callback(i).kind == Kind::Timer;
    (1..=index).filter(timer).collect()
}

/// The number of `blocking_literal` for a timer. All but `timers_up_to` go behind it.
pub fn blocking(table: &Table, index: usize) -> u64 {
    let upper = timers_up_to(table, index);
    let lower = (1..=table.count()).filter(|i| !upper.contains(i));
    let left = lower.map(|i| table.callback(i).entries[0] - 1);
    left.max().unwrap_or(0)
}

/// Shortcut 1: each value of each curve at 0 to W is reckoned once and kept; these are the same
/// values.
struct Rows {
    supplied: Vec<u64>,
    /// By place of the callback: its E(a(D)).
    costs: Vec<Vec<u64>>,
}

impl Rows {
    fn new(table: &Table, window: u64) -> Rows {
        let callbacks = 1..=table.count();
        Rows {
            supplied: (0..=window).map(|d| delayed_supply(table, d)).collect(),
            costs: callbacks.map(|i| cost_row(table, i, window)).collect(),
        }
    }

    /// The costs of these callbacks, added up length by length.
    fn together(&self, indices: impl Iterator<Item = usize> + Clone) -> Vec<u64> {
        let lengths = 0..self.supplied.len();
        let sum = |d: usize| indices.clone().map(|i| self.costs[i - 1][d]).sum();
        lengths.map(sum).collect()
    }

    /// The numbers of `first_bound_literal` for callbacks 1 to n. Shortcut 2: the sum over the
    /// others is the sum over all less the callback's own. For shortcut 3 see `bound_by_rows`.
    fn first_bounds(&self) -> Vec<u64> {
        let all = self.together(1..=self.costs.len());
        let each = self.costs.iter();
        each.map(|own| bound_by_rows(&self.supplied, own, &all))
            .collect()
    }

    /// The number of `second_bound_literal`. The search is that of the first bound over a shorter
    /// window, with the timers up to this one and what blocks them in the place of all callbacks.
    fn second_bound(&self, table: &Table, index: usize) -> Option<u64> {
        if !has_second_bound(table, index) {
            return None;
        }
        let timers = timers_up_to(table, index);
        let mut needed = self.together(timers.iter().copied());
        let blocking = blocking(table, index);
        needed.iter_mut().for_each(|sum| *sum += blocking);
        let mut lengths = 1..self.supplied.len();
        let own_window = lengths.find(|&d| self.supplied[d] >= needed[d])?;
        let supplied = &self.supplied[..=own_window];
        Some(bound_by_rows(supplied, &self.costs[index - 1], &needed))
    }
}

/// The numbers of `bound_literal` for callbacks 1 to n, from rows of values.
pub fn bounds(table: &Table, window: u64) -> Vec<u64> {
    let rows = Rows::new(table, window);
    let first = rows.first_bounds().into_iter().zip(1..);
    first
        .map(|(first, index)| match rows.second_bound(table, index) {
            Some(second) => first.min(second),
            None => first,
        })
        .collect()
}

/// The numbers of `first_bound_literal` for callbacks 1 to n: the row as it was before U5.
pub fn first_bounds(table: &Table, window: u64) -> Vec<u64> {
    Rows::new(table, window).first_bounds()
}

/// The numbers of `second_bound_literal` for callbacks 1 to n.
pub fn second_bounds(table: &Table, window: u64) -> Vec<Option<u64>> {
    let rows = Rows::new(table, window);
    let callbacks = 1..=table.count();
    callbacks.map(|i| rows.second_bound(table, i)).collect()
}

/// The callback's E(a(D)) for D in 0 to `window`.
fn cost_row(table: &Table, index: usize, window: u64) -> Vec<u64> {
    let head = table.callback(table.head_of(index));
    let entries = &table.callback(index).entries;
    let lengths = 0..=window;
    lengths.map(|d| cost(entries, arrivals(head, d))).collect()
}

/// Shortcut 3: the callback's own cost, E(a(A + 1)), never falls as A grows, so a length that is
/// too short for one offset is too short for every later one. The search for F(A + 1) therefore
/// begins at F(A), and where an offset has no length up to W, no later one has. (of the supply
/// nothing is asked, so a delay changes nothing here) `supplied` says how long the window is; the
/// other rows may be longer.
fn bound_by_rows(supplied: &[u64], own: &[u64], all: &[u64]) -> u64 {
    let (mut bound, mut length) = (0, 1);
    for offset in 0..supplied.len() - 1 {
        let short = |d: usize| supplied[d] < own[offset + 1] + (all[d] - own[d]);
        while length < supplied.len() && short(length) {
            length += 1;
        }
        if length == supplied.len() {
            break;
        }
        bound = bound.max(length.saturating_sub(offset) as u64);
    }
    bound
}

/// 'The sheet', analyser: gives W, with the bound of callback i in the i-th place of `row` and the
/// places after n kept. A refusal keeps the whole row. Total.
pub fn analyse(bytes: &[u8], row: &mut [u16]) -> Result<u64, Refusal> {
    analyse_with(read, bytes, row)
}

/// The analyser as it was before U7, which takes tables that are refused with 24 since. Total.
pub fn analyse_before_24(bytes: &[u8], row: &mut [u16]) -> Result<u64, Refusal> {
    analyse_with(read_before_24, bytes, row)
}

/// A reader of tables, that of today or that of before U7.
type Reader = fn(&[u8]) -> Result<Table, Refusal>;

fn analyse_with(read: Reader, bytes: &[u8], row: &mut [u16]) -> Result<u64, Refusal> {
    if row.len() < MOST_CALLBACKS {
        return Err(refusal(17, 0));
    }
    let table = read(bytes)?;
    let window = window(&table).ok_or(refusal(15, 0))?;
    if let Some(head) = crowded_head(&table, window) {
        return Err(refusal(16, head));
    }
    for (place, bound) in row.iter_mut().zip(bounds(&table, window)) {
        // A bound is at most W, and W at most 60,000.
        *place = bound as u16;
    }
    Ok(window)
}

/// What the analyser says of the bytes that it takes.
#[derive(Clone, Debug, PartialEq, Eq)]
pub struct Sheet {
    pub table: Table,
    pub window: u64,
    /// The bounds of callbacks 1 to n.
    pub bounds: Vec<u64>,
}

/// The table, W and the bounds of these bytes, or the analyser's refusal.
pub fn sheet(bytes: &[u8]) -> Result<Sheet, Refusal> {
    sheet_with(read, bytes)
}

/// The same by the analyser of before U7.
pub fn sheet_before_24(bytes: &[u8]) -> Result<Sheet, Refusal> {
    sheet_with(read_before_24, bytes)
}

fn sheet_with(read: Reader, bytes: &[u8]) -> Result<Sheet, Refusal> {
    let mut row = [0; MOST_CALLBACKS];
    let window = analyse_with(read, bytes, &mut row)?;
    let table = read(bytes)?;
    let bounds = row[..table.count()].iter().map(|&b| b.into()).collect();
    Ok(Sheet {
        table,
        window,
        bounds,
    })
}

/// Refusal 16: the lowest head with more than 255 arrivals in the window, if there is one.
fn crowded_head(table: &Table, window: u64) -> Option<usize> {
    (1..=table.count()).find(|&i| table.is_head(i) && arrivals(table.callback(i), window) > 255)
}
