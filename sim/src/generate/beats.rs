//! Beats of timers that fall behind, which U6 of document 02 folds: how often a history has them.
//! All that is drawn here comes from a stream of its own, so that a history without such beats is
//! what its seed gave before.

use crate::machine::{bit, State};
use crate::random::Random;
use crate::table::{Kind, Table};

/// How the timers of a history beat beside, and behind, what their curves permit.
#[derive(Clone, Copy, Debug, PartialEq, Eq)]
pub struct Beats {
    /// What becomes of a beat that the curve permits and the machine folds. Either it was one of a
    /// clock that takes no note, and the next comes as if it had counted; or the timer beats on in
    /// every tick, and has its next instance as soon as one can be kept.
    pub eager: bool,
    /// Percent of the ticks in which a timer with an unstarted instance beats, permitted or not.
    pub surplus: u64,
}

impl Beats {
    /// As before U6: one beat for each that the curve permits.
    pub const SCHEDULED: Beats = Beats {
        eager: false,
        surplus: 0,
    };

    /// A third without surplus, a third with a beat in every tick, a third at random ticks.
    pub fn any(random: &mut Random) -> Beats {
        Beats {
            eager: random.chance(80),
            surplus: *random.pick(&[0, 0, 100, 100, 50, 10]),
        }
    }
}

/// The timers of a table, of either edition.
pub fn timers(table: &Table) -> Vec<usize> {
    let timer = |&index: &usize| table.callback(index).kind == Kind::Timer;
    (1..=table.count()).filter(timer).collect()
}

/// Whether a beat of this timer in the next tick would be folded.
pub fn falls_behind(state: &State, timer: usize) -> bool {
    state.unstarted(timer) > 0
}

/// Some of these callbacks as a mask, each with this chance in percent.
pub fn some_of(random: &mut Random, callbacks: &[usize], percent: u64) -> u16 {
    let drawn = callbacks.iter().filter(|_| random.chance(percent));
    drawn.fold(0, |mask, &index| mask | bit(index))
}
