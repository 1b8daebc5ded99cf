//! Timers of edition 1 blocked for as long as U5 of document 02 reckons with: how such a history goes
//! on, stage by stage.

use super::histories::recovery;
use crate::machine::bit;
use crate::random::Random;
use crate::sheet::{goes_before, has_second_bound};
use crate::table::Table;

/// The timers of a table of edition 1; none for one of edition 2, where they wait for the poll.
pub fn timers(table: &Table) -> Vec<usize> {
    let callbacks = 1..=table.count();
    callbacks.filter(|&i| has_second_bound(table, i)).collect()
}

/// The costliest callback of lower priority, the first of equals; none where there is none.
pub fn costliest_below(table: &Table, timer: usize) -> Option<usize> {
    let lower = (1..=table.count()).filter(|&i| goes_before(table, timer, i));
    lower.rev().max_by_key(|&i| table.callback(i).entries[0])
}

/// Who blocks, who is blocked, and how long the stages are.
#[derive(Clone, Copy, Debug)]
pub struct Blocking {
    /// The costliest callback below the timer, and the head of its chain. Without one the press
    /// begins in an idle tick.
    pub blocker: Option<usize>,
    pub bait: Option<usize>,
    /// The heads that arrive in a press, as a mask.
    pub pressing: u16,
    /// The ticks before the first bait, those of each press, and those of each rest behind it.
    pub lead: u64,
    pub busy: u64,
    pub quiet: u64,
}

/// A history that blocks timers goes through these in turn.
#[derive(Clone, Copy, Debug, PartialEq, Eq)]
pub enum Stage {
    /// Nothing arrives and every tick is supplied, until this tick and until nothing waits.
    Calm { until: u64 },
    /// The head of the blocker's chain arrives, alone and once, in full supply.
    Bait,
    /// The blocker started in the tick before. From here on heads arrive, the supply fails and
    /// instances cost as the curves permit, up to this tick.
    Press { until: u64 },
}

impl Stage {
    /// The one stage of a history that blocks nobody.
    pub const FREE: Stage = Stage::Press { until: u64::MAX };

    /// Whether the supply may fail.
    pub fn presses(self) -> bool {
        matches!(self, Stage::Press { .. })
    }
}

impl Blocking {
    /// This timer and those above it arrive in the press, in half of the draws with all other heads.
    /// A press lasts for a `span` at least. The rest behind it often is so long that all is whole
    /// again.
    pub fn new(random: &mut Random, table: &Table, span: u64, timer: usize) -> Blocking {
        let blocker = costliest_below(table, timer);
        let crowd = random.chance(50);
        let pressing = |&i: &usize| table.is_head(i) && (crowd || !goes_before(table, timer, i));
        let pressing = (1..=table.count()).filter(pressing);
        let some = random.range(1, 3 * span);
        Blocking {
            blocker,
            bait: blocker.map(|index| table.head_of(index)),
            pressing: pressing.fold(0, |mask, i| mask | bit(i)),
            lead: random.range(0, span / 4),
            busy: random.range(span, 2 * span),
            quiet: *random.pick(&[some, recovery(table)]),
        }
    }

    pub fn first_stage(self) -> Stage {
        Stage::Calm { until: self.lead }
    }

    /// The stage of the tick at `time`, from that of the tick before. `idle` says that nothing waits
    /// now, `started` what started in the tick before.
    pub fn stage(&self, before: Stage, time: u64, idle: bool, started: Option<usize>) -> Stage {
        let press = Stage::Press {
            until: time + self.busy,
        };
        match before {
            Stage::Calm { until } if time >= until && idle => match self.blocker {
                Some(_) => Stage::Bait,
                None => press,
            },
            Stage::Bait if started == self.blocker => press,
            Stage::Press { until } if time >= until => Stage::Calm {
                until: time + self.quiet,
            },
            stage => stage,
        }
    }

    /// Whether this head may arrive. While the bait's chain is under way something waits, so that
    /// the bait comes once.
    pub fn lets(&self, stage: Stage, head: usize, idle: bool) -> bool {
        match stage {
            Stage::Calm { .. } => false,
            Stage::Bait => idle && self.bait == Some(head),
            Stage::Press { .. } => self.pressing & bit(head) != 0,
        }
    }

    /// Whether an instance of this callback costs 1, so that its curve has room for the press.
    pub fn spares(&self, stage: Stage, callback: usize) -> bool {
        match stage {
            Stage::Calm { .. } => true,
            Stage::Bait => self.blocker != Some(callback),
            Stage::Press { .. } => false,
        }
    }
}
