//! Histories within the curves that press against them, and others.

use super::beats::{self, falls_behind, some_of, Beats};
use super::blocking::{timers, Blocking, Stage};
use crate::history::{named, History};
use crate::machine::{bit, start, State, Tick};
use crate::normalise::normal_table;
use crate::random::Random;
use crate::table::{encode, Table, LARGEST, MOST_CALLBACKS};
use crate::trackers::{longest_starvation, ArrivalTracker, CostTracker, SupplyTracker};

/// How hard a history presses. With everything at a hundred percent each
/// arrival, unsupplied tick and unit of cost is taken as soon as the curves
/// permit it.
#[derive(Clone, Debug)]
pub struct Style {
    /// By place of the callback: the tick before which it does not arrive.
    pub phases: Vec<u64>,
    /// Percent of the permitted arrivals that are taken.
    pub arrive: u64,
    /// The tick before which nothing arrives, and with which the first busy span begins.
    pub lead: u64,
    /// The tick before which every tick is supplied.
    pub starve_from: u64,
    /// Percent of the permitted unsupplied ticks that are taken.
    pub starve: u64,
    /// Percent of the instances that cost as much as permitted.
    pub costly: u64,
    /// Spans of ticks with and without arrivals, in turn.
    pub busy: u64,
    pub quiet: u64,
    /// Whether unsupplied ticks keep to such spans too, the first of them from `starve_from` on.
    pub fed: bool,
    /// Where timers are blocked: which, by whom and when.
    pub blocking: Option<Blocking>,
}

impl Style {
    /// Everything at once from tick 0.
    pub fn greedy(table: &Table) -> Style {
        Style {
            phases: vec![0; table.count()],
            arrive: 100,
            lead: 0,
            starve_from: 0,
            starve: 100,
            costly: 100,
            busy: 1,
            quiet: 0,
            fed: false,
            blocking: None,
        }
    }

    /// Greedy, each head and the supply with a phase of at most `most`.
    pub fn phased(random: &mut Random, table: &Table, most: u64) -> Style {
        let mut style = Style::greedy(table);
        for phase in &mut style.phases {
            *phase = random.range(0, most);
        }
        style.starve_from = random.range(0, most);
        style
    }

    /// Phased, with rests in which what is permitted gathers again.
    pub fn resting(random: &mut Random, table: &Table, window: u64) -> Style {
        let mut style = Style::phased(random, table, 3);
        style.busy = random.range(1, 2 * window);
        style.quiet = random.range(1, 3 * window);
        style
    }

    pub fn loose(random: &mut Random, table: &Table, window: u64) -> Style {
        let mut style = Style::phased(random, table, window);
        style.arrive = *random.pick(&[10, 50, 90, 100]);
        style.starve = *random.pick(&[10, 50, 90, 100]);
        style.costly = *random.pick(&[0, 50, 90, 100]);
        style
    }

    /// The longest starvation at the worst moment. First full supply without arrivals, so that
    /// nothing of the delay and of the bursts is spent; then all at once: the heads in one tick or
    /// in two, and the unsupplied ticks from the tick before them, from their tick or from the one
    /// behind. The same again after each rest, which often is so long that all is whole again.
    pub fn starving(random: &mut Random, table: &Table, span: u64) -> Style {
        let mut style = Style::greedy(table);
        style.lead = random.range(1, span);
        style.starve_from = style.lead + random.range(0, 2) - 1;
        let apart = random.range(0, 1);
        for phase in &mut style.phases {
            *phase = style.lead + random.range(0, apart);
        }
        style.busy = longest_starvation(table) + random.range(span, 2 * span);
        let some = random.range(1, 3 * span);
        style.quiet = *random.pick(&[some, recovery(table)]);
        style.fed = true;
        style
    }

    /// Greedy from the tick on in which a timer is blocked, in the stages of `Blocking`.
    pub fn blocking(random: &mut Random, table: &Table, span: u64, timer: usize) -> Style {
        Style {
            blocking: Some(Blocking::new(random, table, span, timer)),
            ..Style::greedy(table)
        }
    }

    /// One of the five that do not look for timers, with phases and rests of about `span`. A table
    /// without a delay has one of the four that there were before delays, so that seeds give what
    /// they gave.
    pub fn any(random: &mut Random, table: &Table, span: u64) -> Style {
        let last = if table.delay == 0 { 3 } else { 4 };
        match random.range(0, last) {
            0 => Style::greedy(table),
            1 => Style::phased(random, table, span),
            2 => Style::resting(random, table, span),
            3 => Style::loose(random, table, span),
            _ => Style::starving(random, table, span),
        }
    }

    /// Greedy at turn 0; then in turn phased within two ticks, phased within `span`, resting, for a
    /// table with a delay starving, for one of edition 1 with timers blocking, and loose. The timers
    /// are blocked one after the other, each at one such turn.
    pub fn of_turn(random: &mut Random, table: &Table, span: u64, turn: u64) -> Style {
        if turn == 0 {
            return Style::greedy(table);
        }
        let (round, place) = (turn / styles(table), turn % styles(table));
        match place {
            1 => Style::phased(random, table, 2),
            2 => Style::phased(random, table, span),
            3 => Style::resting(random, table, span),
            4 if table.delay > 0 => Style::starving(random, table, span),
            0 => Style::loose(random, table, span),
            _ => {
                let timers = timers(table);
                let timer = timers[round as usize % timers.len()];
                Style::blocking(random, table, span, timer)
            }
        }
    }

    /// Whether a tick that is so many behind the beginning of the first span is in a busy one.
    fn in_busy_span(&self, since: u64) -> bool {
        since % (self.busy + self.quiet) < self.busy
    }

    /// Whether heads may arrive at this time.
    fn arrives(&self, time: u64) -> bool {
        let since = time.checked_sub(self.lead);
        since.is_some_and(|since| self.in_busy_span(since))
    }

    /// Whether a tick may be without supply at this time.
    fn starves(&self, time: u64) -> bool {
        let since = time.checked_sub(self.starve_from);
        since.is_some_and(|since| !self.fed || self.in_busy_span(since))
    }
}

/// How many styles take turns behind the first history: four for every table, one more with a delay,
/// and one more where timers can be blocked.
pub fn styles(table: &Table) -> u64 {
    4 + u64::from(table.delay > 0) + u64::from(!timers(table).is_empty())
}

/// The turns that show every style twice, behind the first history, and each timer blocked at least
/// once.
pub fn turns(table: &Table) -> Vec<u64> {
    let styles = styles(table);
    let more = (2..timers(table).len() as u64).map(|round| round * styles + styles - 1);
    (0..=2 * styles).chain(more).collect()
}

/// A rest, without arrivals and in full supply, after which every burst is whole again, and with
/// g = P - Q above 0 the longest starvation too. A burst takes J + T ticks. A window of c supplied
/// ticks has at most Z + (2 + ⌊c / Q⌋) × g unsupplied ones; for Z + 2 × g more of them it needs as
/// many budgets as have gaps of that length together. (with g = 0 a spent delay never comes back)
pub fn recovery(table: &Table) -> u64 {
    let budgets = match table.period - table.budget {
        0 => 0,
        gap => table.delay.div_ceil(gap) + 2,
    };
    let bursts = table.callbacks.iter().map(|c| c.jitter + c.period);
    bursts.fold(table.budget * budgets, u64::max)
}

/// The span for phases and rests in a history of `length` ticks: a window, or less where the
/// history would be over before a phase or a rest of that size is.
pub fn span(window: u64, length: u64) -> u64 {
    window.min(length / 4).max(1)
}

/// A history in the making, with what the curves still permit.
struct Driver<'a> {
    heads: Vec<usize>,
    timers: Vec<usize>,
    beats: Beats,
    state: State,
    history: History,
    supply: SupplyTracker,
    /// By place of the callback.
    arrivals: Vec<ArrivalTracker>,
    costs: Vec<CostTracker<'a>>,
    /// Where timers are blocked; otherwise all press from the beginning.
    stage: Stage,
}

/// A history within the curves, of `length` ticks, with beats that are folded. A table of before U7
/// does too: its curves count, but the machine has its normal table, as it refuses the other. The
/// answers are the same, since no tick looks at an entry.
pub fn within(random: &mut Random, table: &Table, style: &Style, length: u64) -> History {
    let beats = Beats::any(&mut random.aside());
    within_beating(random, table, style, length, beats)
}

/// The same with timers that beat as said.
pub fn within_beating(
    random: &mut Random,
    table: &Table,
    style: &Style,
    length: u64,
    beats: Beats,
) -> History {
    // Surplus beats have draws of their own, as they change nothing else.
    let mut aside = random.aside();
    let mut driver = Driver {
        heads: (1..=table.count()).filter(|&i| table.is_head(i)).collect(),
        timers: beats::timers(table),
        beats,
        state: start(&encode(&normal_table(table))).state,
        history: History::default(),
        supply: SupplyTracker::new(table),
        arrivals: table.callbacks.iter().map(ArrivalTracker::new).collect(),
        costs: table.callbacks.iter().map(CostTracker::new).collect(),
        stage: style.blocking.map_or(Stage::FREE, Blocking::first_stage),
    };
    for time in 0..length {
        driver.advance(style, time);
        let mask = driver.mask(random, style, time) | driver.surplus(&mut aside);
        let starves = style.starves(time) && driver.stage.presses();
        let starved = starves && driver.supply.may_starve() && random.chance(style.starve);
        driver.take(random, style, mask, !starved);
    }
    driver.history
}

impl Driver<'_> {
    /// Whether nothing waits, nor runs.
    fn idle(&self) -> bool {
        self.state.waiting.iter().all(|&waiting| waiting == 0)
    }

    /// The stage of this tick, where timers are blocked.
    fn advance(&mut self, style: &Style, time: u64) {
        if let Some(blocking) = &style.blocking {
            let last = self.history.replies.last();
            let started = last.filter(|reply| reply.started).and_then(named);
            let started = started.map(|(callback, _)| callback);
            self.stage = blocking.stage(self.stage, time, self.idle(), started);
        }
    }

    /// Whether the stage lets this head arrive.
    fn lets(&self, style: &Style, head: usize) -> bool {
        let blocking = style.blocking.as_ref();
        blocking.is_none_or(|blocking| blocking.lets(self.stage, head, self.idle()))
    }

    /// Whether an arrival of this head in this tick is an activation that its curve has to permit.
    /// A clock that takes no note counts its folded beats too.
    fn counts(&self, head: usize) -> bool {
        let folded = self.timers.contains(&head) && falls_behind(&self.state, head);
        !(folded && self.beats.eager)
    }

    /// Beats of timers that fall behind, which no curve has to permit.
    fn surplus(&self, random: &mut Random) -> u16 {
        let behind = self.timers.iter().copied();
        let behind: Vec<usize> = behind.filter(|&i| falls_behind(&self.state, i)).collect();
        some_of(random, &behind, self.beats.surplus)
    }

    /// The arrivals of this tick that the curves permit.
    fn mask(&mut self, random: &mut Random, style: &Style, time: u64) -> u16 {
        let mut mask = 0;
        if !style.arrives(time) {
            return mask;
        }
        for &head in &self.heads {
            let due = time >= style.phases[head - 1] && self.lets(style, head);
            let counts = self.counts(head);
            let tracker = &mut self.arrivals[head - 1];
            if due && tracker.permits(time) && random.chance(style.arrive) {
                mask |= bit(head);
                if counts {
                    tracker.activate(time);
                }
            }
        }
        mask
    }

    /// Plays one tick; its cost is what the starting instance is given.
    fn take(&mut self, random: &mut Random, style: &Style, mask: u16, supplied: bool) {
        let probe = Tick {
            mask,
            supplied,
            cost: LARGEST,
        };
        let reply = self.state.clone().tick(probe).reply;
        let mut cost = *random.pick(&[1, LARGEST]);
        if let (true, Some((callback, _))) = (reply.started, named(&reply)) {
            let most = self.costs[callback - 1].largest();
            let blocking = style.blocking.as_ref();
            let spares = blocking.is_some_and(|blocking| blocking.spares(self.stage, callback));
            cost = if spares {
                1
            } else if random.chance(style.costly) {
                most
            } else {
                random.range(1, most)
            };
            self.costs[callback - 1].start(cost);
        }
        let tick = Tick {
            mask,
            supplied,
            cost,
        };
        let step = self.state.clone().tick(tick);
        self.state = step.state;
        self.history.ticks.push(tick);
        self.history.replies.push(step.reply);
        self.supply.tick(supplied);
    }
}

/// Ticks that heed no curve: floods, stray bits, costs out of range.
pub fn outside(random: &mut Random, table: &Table, length: u64) -> Vec<Tick> {
    let flood = *random.pick(&[30, 90, 100]);
    let starve = *random.pick(&[0, 10, 60]);
    let fault = *random.pick(&[0, 1, 20]);
    let dear = *random.pick(&[1, 2, 5, LARGEST]);
    let heads: Vec<usize> = (1..=table.count()).filter(|&i| table.is_head(i)).collect();
    let some: Vec<usize> = heads
        .iter()
        .copied()
        .filter(|_| random.chance(70))
        .collect();
    let flooded = if some.is_empty() { heads } else { some };
    // Timers, flooded or not, beat beside that in two histories of three, by draws of their own.
    let mut aside = random.aside();
    let (timers, beating) = (beats::timers(table), *aside.pick(&[0, 40, 100]));
    let mut ticks = Vec::new();
    for _ in 0..length {
        let mut tick = Tick {
            mask: 0,
            supplied: !random.chance(starve),
            cost: 1,
        };
        for &head in &flooded {
            tick.mask |= if random.chance(flood) { bit(head) } else { 0 };
        }
        tick.cost = random.range(1, dear);
        if random.chance(fault) {
            spoil(random, &mut tick);
        }
        tick.mask |= some_of(&mut aside, &timers, beating);
        ticks.push(tick);
    }
    ticks
}

fn spoil(random: &mut Random, tick: &mut Tick) {
    if random.chance(50) {
        tick.mask |= bit(random.range(1, MOST_CALLBACKS as u64) as usize);
    } else {
        tick.cost = *random.pick(&[0, LARGEST, LARGEST + 1, 65_535]);
    }
}

/// What the covering history offers in one tick; any byte but 0 for supplied.
fn offer(mask: u16, supplied: u8, cost: u64) -> (Tick, u8) {
    let tick = Tick {
        mask,
        supplied: supplied != 0,
        cost,
    };
    (tick, supplied)
}

/// A history of the table of four callbacks in `edges`, with every answer
/// and each refusal from 19 to 21: both ends of the cost, a follower's bit and
/// bits of no callback, then what its edition has.
pub fn covering(edition: u8) -> Vec<(Tick, u8)> {
    let mut offers = vec![offer(0, 1, 1), offer(0, 0, 60_000), offer(0, 255, 60_000)];
    for cost in [0, 60_001, 65_536, 65_537, 125_536, u64::from(u32::MAX)] {
        offers.push(offer(0, 1, cost));
        offers.push(offer(0, 0, cost));
    }
    for mask in [2, 3, 16, 0x8000, 0xFFFF, 0x8010] {
        offers.push(offer(mask, 1, 1));
        offers.push(offer(mask, 0, 1));
    }
    match edition {
        1 => timers_first(&mut offers),
        _ => timers_polled(&mut offers),
    }
    offers
}

/// A history of the late table in `edges`, within its curves. In it the executor gets nothing for
/// Z + 2 × (P - Q) ticks, and the follower completes just at its bound.
pub fn starved() -> Vec<(Tick, u8)> {
    // Nothing to do in full supply.
    let mut offers = vec![offer(0, 1, 1); 4];
    // All heads arrive with the first of 7 + 2 × 2 unsupplied ticks.
    offers.push(offer(13, 0, 60_000));
    offers.extend([offer(0, 0, 60_000); 10]);
    // Then the budgets of 3, each as late as can be. The poll takes timer 1, client 3 and service 4;
    // the client starts with the second budget, and follower 2 behind it in the third.
    for costs in [[2, 60_000, 1], [4, 1, 1], [1, 3, 60_000], [1, 1, 1]] {
        offers.extend(costs.map(|cost| offer(0, 1, cost)));
        offers.extend([offer(0, 0, 1); 2]);
    }
    offers
}

/// A history of the table of six callbacks in `edges`, in which beats are kept and folded (U6): one
/// timer alone, then all of them with service 4 beside them. It suits both editions.
pub fn folding() -> Vec<(Tick, u8)> {
    let mut offers = Vec::new();
    one_timer(&mut offers);
    all_timers(&mut offers);
    offers
}

/// Timer 3, bit 4, at each moment that a beat can meet.
fn one_timer(offers: &mut Vec<(Tick, u8)>) {
    // Without supply the first beat is kept, the next one folded.
    offers.extend([offer(4, 0, 1), offer(4, 0, 1)]);
    // Two refused ticks fold nothing, nor does one without a beat.
    offers.extend([offer(4, 0, 0), offer(6, 1, 1), offer(0, 0, 1)]);
    // The waiting instance starts in the tick of a beat: folded.
    offers.push(offer(4, 1, 3));
    // Only the running one is there: kept. Then one is behind it: folded, with and without supply.
    offers.extend([offer(4, 1, 1), offer(4, 0, 1)]);
    // The running one finishes, with one behind it: folded. That one starts and finishes at once:
    // folded again. Then none waits: kept, and started in the same tick.
    offers.extend([offer(4, 1, 1), offer(4, 1, 1), offer(4, 1, 2)]);
    // The running one finishes, with none behind it: kept.
    offers.extend([offer(4, 1, 1), offer(0, 0, 1)]);
    offers.extend([offer(0, 1, 1); 2]);
}

/// Timers 1, 3, 5 and 6, bits 1, 4, 16 and 32, and service 4, bit 8, which is never folded.
fn all_timers(offers: &mut Vec<(Tick, u8)>) {
    // Three timers wait. Then all beat: three are folded, 6 is kept and the service queues.
    offers.extend([offer(29, 0, 1), offer(61, 0, 1)]);
    // Timer 1 starts, and keeps a beat while it runs; in the tick in which it finishes all are folded.
    offers.extend([offer(52, 1, 3), offer(61, 1, 1), offer(53, 1, 1)]);
    // All beat on. In edition 1 timer 1 goes first again and again; in edition 2 all have a turn, and
    // each keeps the first beat behind its start.
    offers.extend([offer(53, 1, 1); 7]);
    offers.extend([offer(53, 1, 2), offer(53, 0, 1), offer(53, 1, 1)]);
    // Down to idleness.
    offers.extend([offer(0, 1, 1); 19]);
    // Behind a running service timer 5 keeps a beat and then 6 does; all others are folded, also when
    // the service finishes.
    offers.extend([offer(8, 1, 4), offer(16, 1, 1), offer(48, 0, 1)]);
    offers.extend([offer(56, 1, 1), offer(48, 1, 1)]);
    // Timer 5 starts, and 6 is folded beside what it keeps; then again 5, or the cached 6.
    offers.extend([offer(0, 1, 2), offer(48, 1, 1), offer(48, 1, 1)]);
    offers.extend([offer(0, 1, 1); 5]);
}

/// Edition 1: a timer that keeps all others waiting, a full head and a full follower.
fn timers_first(offers: &mut Vec<(Tick, u8)>) {
    // All heads at once, run to idleness.
    offers.push(offer(13, 1, 3));
    offers.extend([offer(0, 1, 3); 14]);
    // Client 3 fills up, and is full in an unsupplied and in a supplied tick.
    offers.extend([offer(4, 0, 1); 256]);
    offers.push(offer(12, 1, 1));
    // Timer 1 beats in every tick, so that its follower 2 fills up.
    offers.extend([offer(1, 1, 1); 256]);
    // With cost 2 nothing finishes, and nothing is activated; then the timer keeps one beat and folds
    // all others, so that it never fills up.
    offers.push(offer(1, 1, 2));
    offers.extend([offer(1, 0, 1); 256]);
    offers.push(offer(5, 1, 1));
    // Nothing arrives: first 21 for the follower, for ever.
    offers.extend([offer(0, 1, 1); 4]);
}

/// Edition 2: a timer that waits behind the cache, a poll of all four, a full head. (a follower does
/// not fill up: a poll takes its head and, from the next one on, the follower)
fn timers_polled(offers: &mut Vec<(Tick, u8)>) {
    // A poll of timer 1 alone, whose follower 2 is in the next poll, with all four.
    offers.extend([offer(1, 1, 1), offer(13, 1, 2), offer(0, 1, 1)]);
    // The timer beats, 2, 4 and 3 being cached: before 2 starts, while it runs, and in the tick in
    // which 3 is chosen.
    offers.extend([offer(1, 0, 1), offer(0, 1, 3), offer(1, 1, 1)]);
    offers.extend([offer(0, 1, 1), offer(0, 1, 1), offer(1, 1, 1)]);
    // The next polls, down to idleness.
    offers.extend([offer(0, 1, 1); 9]);
    // Client 3 fills up, and is full in an unsupplied and in a supplied tick.
    offers.extend([offer(4, 0, 1); 256]);
    offers.push(offer(12, 1, 1));
    // The timer beats: one is kept, two are folded, and two more are in ticks that the full client
    // has refused.
    offers.extend([offer(1, 0, 1); 3]);
    offers.extend([offer(5, 1, 1), offer(5, 0, 1), offer(1, 1, 1)]);
    // The timer runs once a poll, and keeps one beat after each start.
    offers.extend([offer(0, 1, 1), offer(1, 1, 1), offer(1, 1, 1)].repeat(4));
    offers.extend([offer(0, 1, 1); 9]);
}
