//! Activations, starts and completions in a history, the test that it is within the curves, and the
//! conclusions of demand 3. Sections in quotes are document 01's, U2 and U6 are requests of document
//! 02.

use crate::machine::{bit, start, Answer, Reply, Tick};
use crate::sheet::{arrivals, cost, delayed_supply};
use crate::table::{Table, LARGEST, MOST_CALLBACKS};
use crate::trackers::{ArrivalTracker, CostTracker, SupplyTracker};

/// 'A history': the ticks, and in the same places the replies to them.
#[derive(Clone, Debug, Default, PartialEq, Eq)]
pub struct History {
    pub ticks: Vec<Tick>,
    pub replies: Vec<Reply>,
}

/// 'A history': the ticks with their replies, taken in order from the fresh state of these bytes.
/// All replies are 29 where the start is refused.
pub fn play(bytes: &[u8], ticks: &[Tick]) -> History {
    let mut state = start(bytes).state;
    let mut replies = Vec::new();
    for &tick in ticks {
        let step = state.tick(tick);
        state = step.state;
        replies.push(step.reply);
    }
    History {
        ticks: ticks.to_vec(),
        replies,
    }
}

/// The callback and instance that an answer names.
pub(crate) fn named(reply: &Reply) -> Option<(usize, u64)> {
    match reply.outcome {
        Ok(Answer::Ran { callback, instance }) => Some((callback, instance)),
        Ok(Answer::Finished { callback, instance }) => Some((callback, instance)),
        _ => None,
    }
}

/// The callback that a tick answers it finished.
fn finished(reply: &Reply) -> Option<usize> {
    match reply.outcome {
        Ok(Answer::Finished { callback, .. }) => Some(callback),
        _ => None,
    }
}

impl History {
    /// U6: the mask of each tick without the beats that its reply calls folded. What is left of it
    /// activates heads, and only that. A refused tick folds nothing, nor does one without a reply.
    fn kept_masks(&self) -> impl Iterator<Item = u16> + '_ {
        let folded = self.replies.iter().map(|reply| reply.folded);
        let ticks = self.ticks.iter().zip(folded.chain(std::iter::repeat(0)));
        ticks.map(|(tick, folded)| tick.mask & !folded)
    }

    /// 'A history', activations: their times in ascending order, the k-th at place k - 1. A head
    /// has one at t for its bit in tick t, a refused tick too, but none for a folded beat; a
    /// follower has one at t + 1 where tick t finishes the callback before it in the chain. Empty
    /// for an index that is not 1 to n.
    pub fn activations(&self, table: &Table, index: usize) -> Vec<u64> {
        if index == 0 || index > table.count() {
            return Vec::new();
        }
        if table.is_head(index) {
            let masks = self.kept_masks().zip(0..);
            let set = masks.filter(|(mask, _)| mask & bit(index) != 0);
            return set.map(|(_, time)| time).collect();
        }
        let names_it =
            |i: usize| (1..=table.count()).contains(&i) && table.callback(i).next == index;
        let replies = self.replies.iter().zip(1..);
        let activating = replies.filter(|(reply, _)| finished(reply).is_some_and(names_it));
        activating.map(|(_, time)| time).collect()
    }

    /// U6: the times of the folded beats of a callback, in ascending order.
    pub fn folded(&self, index: usize) -> Vec<u64> {
        let replies = self.replies.iter().zip(0..);
        let folded = replies.filter(|(reply, _)| reply.folded & bit(index) != 0);
        folded.map(|(_, time)| time).collect()
    }

    /// 'A history', starts: the time and the instance number of each tick that names the callback
    /// and reports a start.
    pub fn starts(&self, index: usize) -> Vec<(u64, u64)> {
        let mut starts = Vec::new();
        for (reply, time) in self.replies.iter().zip(0..) {
            match named(reply) {
                Some((callback, instance)) if reply.started && callback == index => {
                    starts.push((time, instance));
                }
                _ => {}
            }
        }
        starts
    }

    /// 'A history', starts: what each started instance costs, as offered in the tick of its start.
    pub fn costs(&self, index: usize) -> Vec<u64> {
        let starts = self.starts(index).into_iter();
        let ticks = starts.filter_map(|(time, _)| self.ticks.get(time as usize));
        ticks.map(|tick| tick.cost).collect()
    }

    /// 'A history', completions: their times in ascending order, the k-th at place k - 1. A finish
    /// in tick t is one at t + 1.
    pub fn completions(&self, index: usize) -> Vec<u64> {
        let replies = self.replies.iter().zip(1..);
        let finishing = replies.filter(|(reply, _)| finished(reply) == Some(index));
        finishing.map(|(_, time)| time).collect()
    }
}

/// How a history leaves the curves. `from` is the first tick of the window, for `Cost` the place
/// from 0 of the first instance.
#[derive(Clone, Copy, Debug, PartialEq, Eq)]
pub enum Departure {
    Arrivals {
        head: usize,
        from: usize,
        length: usize,
    },
    Supply {
        from: usize,
        length: usize,
    },
    Cost {
        callback: usize,
        from: usize,
        instances: usize,
    },
    Mask {
        tick: usize,
    },
    CostRange {
        tick: usize,
    },
}

/// How the first wrong window of a curve is sought.
#[derive(Clone, Copy)]
enum Search {
    /// Among all windows, as the words of 'Curves' go.
    EveryWindow,
    /// By a tracker, which finds the end in one pass; the beginning is then sought for that end.
    OnePass,
}

/// 'Curves', histories within them: the first departure, if any, sought tick by tick in mask and
/// offered cost, then in the arrivals of each head, the supply, and the costs of each callback's
/// started instances. Takes a time in proportion to the history's length.
pub fn within_curves(table: &Table, history: &History) -> Result<(), Departure> {
    first_departure(table, history, Search::OnePass)
}

/// The same by a look at every window, in a time that grows with the square of the length.
pub fn within_curves_literal(table: &Table, history: &History) -> Result<(), Departure> {
    first_departure(table, history, Search::EveryWindow)
}

fn first_departure(table: &Table, history: &History, search: Search) -> Result<(), Departure> {
    check_ticks(table, history)?;
    for head in (1..=table.count()).filter(|&i| table.is_head(i)) {
        check_arrivals(table, history, head, search)?;
    }
    check_supply(table, history, search)?;
    for callback in 1..=table.count() {
        check_costs(table, history, callback, search)?;
    }
    Ok(())
}

/// 'Curves', histories within them: all bits of a mask, folded or not, are heads', and every cost,
/// used or not, is one of 1 to 60,000.
fn check_ticks(table: &Table, history: &History) -> Result<(), Departure> {
    let strangers = (1..=MOST_CALLBACKS).filter(|&i| !table.is_head(i));
    let strange = strangers.fold(0, |mask, i| mask | bit(i));
    for (place, tick) in history.ticks.iter().enumerate() {
        if tick.mask & strange != 0 {
            return Err(Departure::Mask { tick: place });
        }
        if !(1..=LARGEST).contains(&tick.cost) {
            return Err(Departure::CostRange { tick: place });
        }
    }
    Ok(())
}

/// 'A history', windows: consecutive values inside the list. Gives the window (from, length) that
/// ends first, and of those the one that begins first, whose values together are wrong; none where
/// all are right. `tracked` is asked for the place of the first end.
fn first_window(
    values: &[u64],
    search: Search,
    tracked: impl FnOnce() -> Option<usize>,
    wrong: impl Fn(usize, u64) -> bool,
) -> Option<(usize, usize)> {
    match search {
        Search::EveryWindow => {
            (0..values.len()).find_map(|last| window_ending(&values[..=last], &wrong))
        }
        Search::OnePass => {
            let last = tracked()?;
            let window = window_ending(&values[..=last], &wrong);
            Some(window.expect("a wrong window where the tracker ends one"))
        }
    }
}

/// The first wrong window (from, length) among those that end where the values do.
fn window_ending(values: &[u64], wrong: impl Fn(usize, u64) -> bool) -> Option<(usize, usize)> {
    let mut held: u64 = values.iter().sum();
    for (from, value) in values.iter().enumerate() {
        let length = values.len() - from;
        if wrong(length, held) {
            return Some((from, length));
        }
        held -= value;
    }
    None
}

/// 'Curves', arrivals: in a window of D ticks the head is activated a(D) times or less often. Beats
/// that were folded (U6) are free.
fn check_arrivals(
    table: &Table,
    history: &History,
    head: usize,
    search: Search,
) -> Result<(), Departure> {
    let masks = history.kept_masks();
    let values: Vec<u64> = masks.map(|mask| u64::from(mask & bit(head) != 0)).collect();
    let curve = table.callback(head);
    let tracked = || {
        let mut tracker = ArrivalTracker::new(curve);
        let mut times = (0..values.len()).filter(|&time| values[time] != 0);
        times.find(|&time| {
            let wrong = !tracker.permits(time as u64);
            tracker.activate(time as u64);
            wrong
        })
    };
    let wrong = |d: usize, held| held > arrivals(curve, d as u64);
    match first_window(&values, search, tracked, wrong) {
        Some((from, length)) => Err(Departure::Arrivals { head, from, length }),
        None => Ok(()),
    }
}

/// 'Curves', supply, and U2: a window of D ticks has as many supplied ticks as the delayed curve has
/// at D, or more. So no window of up to Z ticks is short.
fn check_supply(table: &Table, history: &History, search: Search) -> Result<(), Departure> {
    let ticks = history.ticks.iter();
    let values: Vec<u64> = ticks.map(|tick| u64::from(tick.supplied)).collect();
    let tracked = || {
        let mut tracker = SupplyTracker::new(table);
        values.iter().position(|&value| {
            let wrong = value == 0 && !tracker.may_starve();
            tracker.tick(value != 0);
            wrong
        })
    };
    let wrong = |d: usize, held| held < delayed_supply(table, d as u64);
    match first_window(&values, search, tracked, wrong) {
        Some((from, length)) => Err(Departure::Supply { from, length }),
        None => Ok(()),
    }
}

/// 'Curves', cost: the costs of n instances of the callback, started one after the other, add up to
/// E(n) or less.
fn check_costs(
    table: &Table,
    history: &History,
    callback: usize,
    search: Search,
) -> Result<(), Departure> {
    let values = history.costs(callback);
    let curve = table.callback(callback);
    let tracked = || {
        let mut tracker = CostTracker::new(curve);
        values.iter().position(|&value| {
            let wrong = value > tracker.largest();
            tracker.start(value);
            wrong
        })
    };
    let wrong = |n: usize, together| together > cost(&curve.entries, n as u64);
    match first_window(&values, search, tracked, wrong) {
        Some((from, instances)) => Err(Departure::Cost {
            callback,
            from,
            instances,
        }),
        None => Ok(()),
    }
}

/// How a history breaks the conclusions of demand 3; `k` counts from 1.
#[derive(Clone, Copy, Debug, PartialEq, Eq)]
pub enum Violation {
    Refused {
        tick: usize,
    },
    EarlyStart {
        callback: usize,
        instance: u64,
        time: u64,
    },
    Late {
        callback: usize,
        k: usize,
        activation: u64,
        completion: Option<u64>,
    },
}

/// Demand 3's conclusions: no tick is refused; then, callback by callback, no instance starts
/// before its activation, and every k-th completion is in time. (`bounds` has n places)
pub fn conclusions(table: &Table, bounds: &[u64], history: &History) -> Result<(), Violation> {
    let refused = history.replies.iter().position(|r| r.outcome.is_err());
    if let Some(tick) = refused {
        return Err(Violation::Refused { tick });
    }
    for callback in 1..=table.count() {
        check_starts(table, callback, history)?;
        check_completions(table, callback, bounds[callback - 1], history)?;
    }
    Ok(())
}

/// 'A history', starts: instance k starts at time t only with at least k activations of the
/// callback by then, one at t included.
fn check_starts(table: &Table, callback: usize, history: &History) -> Result<(), Violation> {
    let mut activations = history.activations(table, callback).into_iter().peekable();
    let mut so_far = 0;
    for (time, instance) in history.starts(callback) {
        // Starts come in the order of their times, so each activation is passed once.
        while activations
            .next_if(|&activation| activation <= time)
            .is_some()
        {
            so_far += 1;
        }
        if so_far < instance {
            return Err(Violation::EarlyStart {
                callback,
                instance,
                time,
            });
        }
    }
    Ok(())
}

/// 'A history', reported bound: the k-th completion comes within `bound` of the k-th activation of
/// the head. Nothing is asked where that time lies after N, the number of ticks.
fn check_completions(
    table: &Table,
    callback: usize,
    bound: u64,
    history: &History,
) -> Result<(), Violation> {
    let end = history.ticks.len() as u64;
    let completions = history.completions(callback);
    let activations = history.activations(table, table.head_of(callback));
    for (place, activation) in activations.into_iter().enumerate() {
        let due = activation.saturating_add(bound);
        let completion = completions.get(place).copied();
        if due <= end && completion.is_none_or(|time| time > due) {
            return Err(Violation::Late {
                callback,
                k: place + 1,
                activation,
                completion,
            });
        }
    }
    Ok(())
}

/// The longest time from a k-th activation of the chain's head to the k-th completion of the
/// callback, 0 where none completes.
pub fn longest_response(table: &Table, callback: usize, history: &History) -> u64 {
    let activations = history.activations(table, table.head_of(callback));
    let completions = history.completions(callback);
    let pairs = activations.into_iter().zip(completions);
    pairs
        .map(|(activation, completion)| completion.saturating_sub(activation))
        .max()
        .unwrap_or(0)
}
