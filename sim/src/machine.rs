//! The machine: one tick at a time (refusals 18 to 21 and 29). Steps and sections in quotes are
//! document 01's, U1, U2 and U6 are requests of document 02. The start delay of U2 is no matter of
//! the machine: it lies in the table, and only the reader looks at it.

use crate::table::{read, refusal, Kind, Refusal, Table, LARGEST, MOST_CALLBACKS};

pub const MOST_TICKS: u64 = 1_000_000_000;
pub const MOST_WAITING: u64 = 255;

/// 'One tick of the machine': all that one tick passes on to the next. Anyone may write anything
/// here.
#[derive(Clone, Debug, PartialEq, Eq)]
pub struct State {
    /// The bytes of the table. The edition is among them and nowhere else.
    pub table: Vec<u8>,
    pub waiting: [u64; 16],
    pub finished: [u64; 16],
    pub cache: u16,
    /// The index of the running callback, 0 where nothing runs.
    pub running: usize,
    pub units: u64,
    pub ticks: u64,
}

/// 'One tick of the machine', input: the arrivals, callback i at bit i - 1; whether there is
/// supply; and a cost, which matters only where an instance starts.
#[derive(Clone, Copy, Debug, PartialEq, Eq)]
pub struct Tick {
    pub mask: u16,
    pub supplied: bool,
    pub cost: u64,
}

/// 'One tick of the machine', answers: `Idle` is a supplied tick in which nothing runs; `Ran` names
/// an instance with units left, `Finished` one without.
#[derive(Clone, Copy, Debug, PartialEq, Eq)]
pub enum Answer {
    NoSupply,
    Idle,
    Ran { callback: usize, instance: u64 },
    Finished { callback: usize, instance: u64 },
}

/// 'One tick of the machine', answers: the answer or the refusal; then whether an instance started,
/// whether this was a polling point, and the number of callbacks cached by the poll, 0 without a
/// poll. Last, for U6, the timers whose beats the tick folded, as a mask.
#[derive(Clone, Copy, Debug, PartialEq, Eq)]
pub struct Reply {
    pub outcome: Result<Answer, Refusal>,
    pub started: bool,
    pub polled: bool,
    pub gathered: u32,
    pub folded: u16,
}

/// What a tick hands back.
#[derive(Clone, Debug, PartialEq, Eq)]
pub struct Step {
    pub state: State,
    pub reply: Reply,
}

/// What a start hands back.
#[derive(Clone, Debug, PartialEq, Eq)]
pub struct Start {
    pub state: State,
    pub refusal: Option<Refusal>,
}

/// 'One tick of the machine', start: a state with these bytes, all else zero. Where the reader
/// refuses the bytes (1 to 14, since U2 also 22, since U7 24): its refusal, and the same state
/// without a table. Total.
pub fn start(bytes: &[u8]) -> Start {
    let refusal = read(bytes).err();
    let table = match refusal {
        None => bytes.to_vec(),
        Some(_) => Vec::new(),
    };
    let state = State {
        table,
        waiting: [0; 16],
        finished: [0; 16],
        cache: 0,
        running: 0,
        units: 0,
        ticks: 0,
    };
    Start { state, refusal }
}

/// The bit of a callback in a mask, the lowest being callback 1's (no bit for an index that is not
/// 1 to 16).
pub fn bit(index: usize) -> u16 {
    if (1..=MOST_CALLBACKS).contains(&index) {
        1 << (index - 1)
    } else {
        0
    }
}

/// U1: whether polling points gather the callbacks of this kind. In edition 1 they leave out the
/// timers, which are chosen ahead of the cache; in edition 2 they take all. The machine asks for
/// the edition here alone.
pub fn gathers(edition: u8, kind: Kind) -> bool {
    match edition {
        1 => kind != Kind::Timer,
        _ => true,
    }
}

/// The callbacks of one kind as a mask.
fn kind_mask(table: &Table, kind: Kind) -> u16 {
    let of_kind = (1..=table.count()).filter(|&i| table.callback(i).kind == kind);
    of_kind.fold(0, |mask, i| mask | bit(i))
}

/// 'The callback table', priority: of the callbacks in the mask the one with the lowest kind, among
/// equals the one with the lowest index. 0 where there is none.
fn first(table: &Table, mask: u16) -> usize {
    for kind in [Kind::Timer, Kind::Subscription, Kind::Service, Kind::Client] {
        let of_kind = mask & kind_mask(table, kind);
        if of_kind != 0 {
            return of_kind.trailing_zeros() as usize + 1;
        }
    }
    0
}

impl State {
    /// The instances of callback `index` that wait (0 for an index that is not 1 to 16).
    pub fn waiting(&self, index: usize) -> u64 {
        let place = index.wrapping_sub(1);
        self.waiting.get(place).copied().unwrap_or(0)
    }

    /// The instances of callback `index` that finished (0 for an index that is not 1 to 16).
    pub fn finished(&self, index: usize) -> u64 {
        let place = index.wrapping_sub(1);
        self.finished.get(place).copied().unwrap_or(0)
    }

    /// Whether callback `index` is in the cache.
    pub fn cached(&self, index: usize) -> bool {
        self.cache & bit(index) != 0
    }

    /// The instances of callback `index` that wait and have not started: an instance that runs is
    /// counted among the waiting ones until it finishes. (0 for an index that is not 1 to 16)
    pub fn unstarted(&self, index: usize) -> u64 {
        let started = u64::from(self.running == index);
        self.waiting(index).saturating_sub(started)
    }

    /// U6: the timers among the callbacks in the mask of which an instance waits unstarted when the
    /// tick begins. What the tick itself starts or finishes comes behind its arrivals, so it makes
    /// no difference.
    fn folded(&self, table: &Table, mask: u16) -> u16 {
        let beats = mask & kind_mask(table, Kind::Timer);
        let behind = (1..=table.count()).filter(|&i| self.unstarted(i) > 0);
        beats & behind.fold(0, |mask, i| mask | bit(i))
    }

    /// 'One tick of the machine': the next state and the reply. Where the tick is refused, the
    /// state is the one taken, nothing started, nothing was polled, and `gathered` and `folded` are
    /// 0. Total.
    pub fn tick(self, tick: Tick) -> Step {
        let stepped = self.checked(tick).and_then(|table| {
            let step = self.clone().advance(&table, tick);
            self.check_room(&table, tick, step.reply)?;
            Ok(step)
        });
        stepped.unwrap_or_else(|refusal| Step {
            state: self,
            reply: Reply {
                outcome: Err(refusal),
                started: false,
                polled: false,
                gathered: 0,
                folded: 0,
            },
        })
    }

    /// Refusals 29, 18, 19 and 20 in the order of the table of refusals; the table read, if none.
    fn checked(&self, tick: Tick) -> Result<Table, Refusal> {
        let table = read(&self.table).map_err(|_| refusal(29, 0))?;
        if self.has_fault(&table) {
            return Err(refusal(29, 0));
        }
        if self.ticks >= MOST_TICKS {
            return Err(refusal(18, 0));
        }
        if !(1..=LARGEST).contains(&tick.cost) {
            return Err(refusal(19, 0));
        }
        check_mask(&table, tick.mask)?;
        Ok(table)
    }

    /// Refusal 29: whether the state has any of its faults (the first, about the table, apart).
    fn has_fault(&self, table: &Table) -> bool {
        self.beyond_fault(table)
            || self.count_fault(table)
            || self.cache_fault(table)
            || self.running_fault(table)
    }

    /// Refusal 29: an index above n is running or cached, or has waiting or finished instances.
    fn beyond_fault(&self, table: &Table) -> bool {
        let beyond = table.count() + 1..=MOST_CALLBACKS;
        self.running > table.count()
            || beyond
                .into_iter()
                .any(|i| self.cached(i) || self.waiting(i) != 0 || self.finished(i) != 0)
    }

    /// Refusal 29: a callback has more than 255 waiting instances or, by itself, more finished ones
    /// than `ticks`.
    fn count_fault(&self, table: &Table) -> bool {
        (1..=table.count()).any(|i| self.waiting(i) > MOST_WAITING || self.finished(i) > self.ticks)
    }

    /// Refusal 29: the cache holds a callback that is not gathered, or of which no instance waits.
    fn cache_fault(&self, table: &Table) -> bool {
        let mut cached = (1..=table.count()).filter(|&i| self.cached(i));
        cached.any(|i| self.waiting(i) == 0 || !gathers(table.edition, table.callback(i).kind))
    }

    /// Refusal 29: no instance of the running callback waits, it is gathered but outside the cache,
    /// or the units are out of range: 1 to 60,000 with a running callback, only 0 without.
    fn running_fault(&self, table: &Table) -> bool {
        if self.running == 0 {
            return self.units != 0;
        }
        let gathered = gathers(table.edition, table.callback(self.running).kind);
        self.waiting(self.running) == 0
            || (gathered && !self.cached(self.running))
            || !(1..=LARGEST).contains(&self.units)
    }

    /// Refusal 21: the lowest callback that the tick activates, through the mask or as next of what
    /// finishes in `reply`, though 255 of its instances wait when the tick begins. A folded beat
    /// activates nothing and needs no room; of a full timer at most one instance runs, so that its
    /// beats are all folded, and it is never refused.
    fn check_room(&self, table: &Table, tick: Tick, reply: Reply) -> Result<(), Refusal> {
        let activated = match reply.outcome {
            Ok(Answer::Finished { callback, .. }) => bit(table.callback(callback).next),
            _ => 0,
        };
        for index in 1..=table.count() {
            let gains = (tick.mask & !reply.folded | activated) & bit(index) != 0;
            if gains && self.waiting(index) == MOST_WAITING {
                return Err(refusal(21, index));
            }
        }
        Ok(())
    }

    /// The tick itself, steps 1 to 4; the state is without fault and the tick in range.
    fn advance(mut self, table: &Table, tick: Tick) -> Step {
        self.ticks += 1;
        let mut reply = Reply {
            outcome: Ok(Answer::NoSupply),
            started: false,
            polled: false,
            gathered: 0,
            folded: self.folded(table, tick.mask),
        };
        self.arrive(tick.mask & !reply.folded);
        // Step 2: without supply nothing is chosen and no instance runs.
        if tick.supplied {
            if self.running == 0 {
                self.choose(table, tick.cost, &mut reply);
            }
            reply.outcome = Ok(self.work(table));
        }
        Step { state: self, reply }
    }

    /// Step 1: each callback in the mask has one more instance waiting. (folded beats are not in it)
    fn arrive(&mut self, mask: u16) {
        for index in 1..=MOST_CALLBACKS {
            if mask & bit(index) != 0 {
                self.waiting[index - 1] += 1;
            }
        }
    }

    /// Step 3, with nothing running: by priority a waiting callback that is not gathered, or else a
    /// cached one. With neither this is a polling point: the waiting callbacks that are gathered,
    /// possibly none, become the cache, and the choice is among them. The chosen instance starts,
    /// with the offered cost as its units.
    fn choose(&mut self, table: &Table, cost: u64, reply: &mut Reply) {
        let waits = (1..=table.count()).filter(|&i| self.waiting(i) > 0);
        let (gathered, others): (Vec<usize>, Vec<usize>) =
            waits.partition(|&i| gathers(table.edition, table.callback(i).kind));
        let mask = |of: &[usize]| of.iter().fold(0, |mask, &i| mask | bit(i));
        let mut chosen = first(table, mask(&others));
        if chosen == 0 && self.cache != 0 {
            chosen = first(table, self.cache);
        } else if chosen == 0 {
            self.cache = mask(&gathered);
            reply.polled = true;
            reply.gathered = self.cache.count_ones();
            chosen = first(table, self.cache);
        }
        if chosen != 0 {
            self.running = chosen;
            self.units = cost;
            reply.started = true;
        }
    }

    /// Step 4: the running instance uses one unit; idle where none runs. Without units left it
    /// finishes at the end of the tick: it no longer waits, its callback is out of the cache, and
    /// next has one more instance waiting from the following tick on.
    fn work(&mut self, table: &Table) -> Answer {
        let callback = self.running;
        if callback == 0 {
            return Answer::Idle;
        }
        // The first instance is 1, and all before this one have finished.
        let instance = self.finished(callback) + 1;
        self.units -= 1;
        if self.units > 0 {
            return Answer::Ran { callback, instance };
        }
        self.running = 0;
        self.finished[callback - 1] += 1;
        self.waiting[callback - 1] -= 1;
        self.cache &= !bit(callback);
        let next = table.callback(callback).next;
        if next != 0 {
            self.waiting[next - 1] += 1;
        }
        Answer::Finished { callback, instance }
    }
}

/// Refusal 20: the lowest index in the mask that is no head's; above n none is.
fn check_mask(table: &Table, mask: u16) -> Result<(), Refusal> {
    for index in 1..=MOST_CALLBACKS {
        if mask & bit(index) != 0 && !table.is_head(index) {
            return Err(refusal(20, index));
        }
    }
    Ok(())
}
