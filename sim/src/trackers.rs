//! The curves kept step by step: what the windows that end with the next tick, and the runs that
//! end with the next instance, still permit. Each answer is the one that a look at every window
//! would give, for work that does not grow with the history or with P, Q, T, J and d. The test of a
//! history and the generator both ask here. 'Curves' is document 01's section, U2 a request of
//! document 02.

use crate::table::{Callback, Table};
use std::collections::VecDeque;

/// One of the two quotients of the arrivals curve, ⌈(D + slack) / step⌉.
///
/// A window holds no more activations than its part from the first to the last of them, and the
/// quotient does not fall with D; so only windows that begin and end with an activation count. With
/// activations at t_1 < t_2 < .. the one from t_i to t_j has D = t_j - t_i + 1 and holds j - i + 1.
/// A whole number exceeds a quotient rounded up just where the next smaller one is not below the
/// quotient itself: here where (j - i) × step ≥ D + slack, hence where
/// t_j + slack < t_i + (j - i) × step. `reached` is the largest right side over all i below j, j
/// being the next activation; 0, which forbids nothing, before the first.
#[derive(Clone, Debug)]
struct Pace {
    step: u64,
    slack: u64,
    reached: u64,
}

impl Pace {
    fn new(step: u64, slack: u64) -> Pace {
        Pace {
            step,
            slack,
            reached: 0,
        }
    }

    fn permits(&self, time: u64) -> bool {
        time + self.slack >= self.reached
    }

    /// From j to j + 1 each right side grows by a step, and that of t_j comes in beside them.
    fn activate(&mut self, time: u64) {
        self.reached = self.reached.max(time) + self.step;
    }
}

/// 'Curves', arrivals of one head: the smaller of two quotients limits a window just where each
/// does, that of T with J and that of d with nothing.
#[derive(Clone, Debug)]
pub struct ArrivalTracker {
    by_period: Pace,
    by_distance: Pace,
}

impl ArrivalTracker {
    pub fn new(head: &Callback) -> ArrivalTracker {
        ArrivalTracker {
            by_period: Pace::new(head.period, head.jitter),
            by_distance: Pace::new(head.distance, 0),
        }
    }

    /// Whether every window that ends with tick `time`, which is after the last activation, may
    /// hold one there.
    pub fn permits(&self, time: u64) -> bool {
        self.by_period.permits(time) && self.by_distance.permits(time)
    }

    /// Takes note of an activation at `time`, after all before it.
    pub fn activate(&mut self, time: u64) {
        self.by_period.activate(time);
        self.by_distance.activate(time);
    }
}

/// 'Curves', supply, with g = P - Q, late by the Z of U2.
///
/// s rests at k × Q for lengths from g + k × P to 2 × g + k × P and then climbs by 1 a tick until
/// it rests again. So with c = k × Q + r, r below Q, the first length at which s is more than c is
/// 2 × g + k × P + r + 1; the delayed curve is s moved Z lengths on, and has more than c first at
/// Z + 2 × g + k × P + r + 1. A window of c supplied and u unsupplied ticks has D = c + u. As the
/// curve never falls, the window is short just where D is at least that length, which comes to
/// u > Z + (2 + k) × g, k = ⌊c / Q⌋: the gaps are paid anew with each budget, the delay once.
///
/// A short window that ends with a supplied tick is short without that tick too, as the delayed
/// curve climbs by at most 1; so only ends at unsupplied ticks count. With b supplied and x
/// unsupplied ticks before the window and C supplied ticks before its end, c = C - b, and the list
/// may have at most x + Z + (2 + ⌊(C - b) / Q⌋) × g unsupplied ticks up to that end. Of the
/// beginnings that share ⌊(C - b) / Q⌋ the first has the smallest x and forbids the most: it is the
/// beginning of the list, or it stands right behind the b-th supplied tick where C - b is Q - 1
/// more than a multiple of Q. The latter are the b of one class modulo Q, that of C + 1.
#[derive(Clone, Debug)]
pub struct SupplyTracker {
    budget: u64,
    gap: u64,
    /// What a window with less than Q supplied ticks may have of the others.
    longest: u64,
    supplied: u64,
    unsupplied: u64,
    /// By class of b modulo Q: the unsupplied ticks that the list may have when that class is the
    /// one that counts, at present or else the next time. At first each class has the beginning of
    /// the list alone: class r counts first at C = r - 1 (class 0 at Q - 1), where ⌊C / Q⌋ is 0,
    /// and each time after Q more supplied ticks, where it has grown by 1.
    limits: Vec<u64>,
}

/// Z + 2 × g: the most ticks in a row that may be without supply.
pub fn longest_starvation(table: &Table) -> u64 {
    table.delay + 2 * (table.period - table.budget)
}

impl SupplyTracker {
    pub fn new(table: &Table) -> SupplyTracker {
        let gap = table.period - table.budget;
        let longest = longest_starvation(table);
        SupplyTracker {
            budget: table.budget,
            gap,
            longest,
            supplied: 0,
            unsupplied: 0,
            limits: vec![longest; table.budget as usize],
        }
    }

    /// The class that a number of supplied ticks belongs to.
    fn class(&self, supplied: u64) -> usize {
        (supplied % self.budget) as usize
    }

    /// Whether every window that ends with the next tick has its supply though this tick gives
    /// none.
    pub fn may_starve(&self) -> bool {
        self.unsupplied < self.limits[self.class(self.supplied + 1)]
    }

    /// Takes note of the next tick. With the b-th supplied one the class of b has just counted. It
    /// does again Q supplied ticks later: ⌊(C - b) / Q⌋ of its old members has grown by 1 then, and
    /// is 0 for the beginning behind this tick, which joins them.
    pub fn tick(&mut self, supplied: bool) {
        if !supplied {
            self.unsupplied += 1;
            return;
        }
        self.supplied += 1;
        let class = self.class(self.supplied);
        let joining = self.unsupplied + self.longest;
        self.limits[class] = joining.min(self.limits[class] + self.gap);
    }
}

/// 'Curves', cost of one callback.
///
/// A run of q × m + r instances falls into q runs of m and one of r, and its limit is the sum of
/// theirs; so it costs too much only where one of these does. Of the runs that end with an instance
/// only those of up to m therefore count, as long as no run before it cost too much.
#[derive(Clone, Debug)]
pub struct CostTracker<'a> {
    entries: &'a [u64],
    /// The costs of the latest instances, m - 1 at most, the last one first.
    latest: VecDeque<u64>,
}

impl CostTracker<'_> {
    pub fn new(callback: &Callback) -> CostTracker<'_> {
        CostTracker {
            entries: &callback.entries,
            latest: VecDeque::new(),
        }
    }

    /// The largest cost of the next instance with which no run that ends with it costs more than
    /// its E.
    pub fn largest(&self) -> u64 {
        let mut most = self.entries[0];
        let mut before = 0;
        for (entry, cost) in self.entries[1..].iter().zip(&self.latest) {
            before += cost;
            most = most.min(entry.saturating_sub(before));
        }
        most
    }

    /// Takes note of the next instance's cost.
    pub fn start(&mut self, cost: u64) {
        self.latest.push_front(cost);
        self.latest.truncate(self.entries.len() - 1);
    }
}
