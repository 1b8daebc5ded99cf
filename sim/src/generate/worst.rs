//! Of many histories within the curves the one that comes nearest to a bound.

use super::histories::{span, styles, within, Style};
use crate::history::{longest_response, History};
use crate::random::Random;
use crate::sheet::Sheet;
use crate::table::Table;

/// So many histories are tried, but only as many as have so many ticks together, and every style at
/// least once.
const MOST_TRIES: u64 = 200;
const TICKS_TOGETHER: u64 = 500_000;
const FEWEST_TRIES: u64 = 6;

/// How many histories of `length` ticks are tried.
pub fn tries(table: &Table, length: u64) -> u64 {
    let fewest = FEWEST_TRIES.max(1 + styles(table));
    (TICKS_TOGETHER / length.max(1)).clamp(fewest, MOST_TRIES)
}

/// A part of a bound: a longest response and the bound.
#[derive(Clone, Copy, Debug)]
struct Share {
    longest: u64,
    bound: u64,
}

impl Share {
    fn exceeds(self, other: Share) -> bool {
        self.longest * other.bound > other.longest * self.bound
    }
}

/// The largest share of its bound that a callback's longest response takes; the first of equals.
fn largest_share(sheet: &Sheet, history: &History) -> Share {
    let mut largest = Share {
        longest: 0,
        bound: 1,
    };
    for (&bound, index) in sheet.bounds.iter().zip(1..) {
        let longest = longest_response(&sheet.table, index, history);
        let share = Share { longest, bound };
        if share.exceeds(largest) {
            largest = share;
        }
    }
    largest
}

/// The history in which some callback's longest response takes the largest share of its bound; the
/// first of equals.
pub fn worst(random: &mut Random, sheet: &Sheet, length: u64) -> History {
    let span = span(sheet.window, length);
    let mut drawn = |turn| {
        let style = Style::of_turn(random, &sheet.table, span, turn);
        within(random, &sheet.table, &style, length)
    };
    let mut worst = drawn(0);
    let mut largest = largest_share(sheet, &worst);
    for turn in 1..tries(&sheet.table, length) {
        let history = drawn(turn);
        let share = largest_share(sheet, &history);
        if share.exceeds(largest) {
            (worst, largest) = (history, share);
        }
    }
    worst
}
