//! A picture of a history as SVG text.

use crate::history::{named, History};
use crate::machine::{Answer, Reply};
use crate::sheet::{bounds, window};
use crate::table::{Kind, Table};
use std::fmt::Write;
use std::ops::Range;

const LEFT: usize = 190;
const TOP: usize = 46;
const ROW: usize = 34;
const BAR: usize = 16;

/// A drawing in the making: the text so far, the width of a tick, the number of rows, and the ticks
/// that are shown.
struct Drawing {
    text: String,
    tick: usize,
    rows: usize,
    shown: Range<usize>,
}

/// Rows by callback, with their names where given: arrivals, folded beats,
/// runs, completions and bounds, over unsupplied ticks and polling points.
pub fn svg(table: &Table, history: &History, names: &[&str]) -> String {
    svg_part(table, history, names, 0..history.ticks.len())
}

/// The part of that picture with the ticks `shown`, which the history must have.
pub fn svg_part(table: &Table, history: &History, names: &[&str], shown: Range<usize>) -> String {
    let mut drawing = Drawing {
        text: String::new(),
        tick: (1_400 / shown.len().max(1)).clamp(6, 24),
        rows: table.count(),
        shown,
    };
    drawing.open();
    drawing.unsupplied(history);
    drawing.axis();
    drawing.edition(table);
    drawing.delay(table);
    drawing.pauses(history);
    for (time, reply) in drawing.replies(history) {
        drawing.reply(time, reply, table);
    }
    for index in 1..=table.count() {
        drawing.row(index, table, names.get(index - 1).copied());
        drawing.activations(index, table, history);
        drawing.folded(index, history);
        drawing.starts(index, history);
    }
    drawing.carried(history);
    if let Some(window) = window(table) {
        drawing.dues(table, history, &bounds(table, window));
    }
    drawing.legend();
    drawing.folded_legend(history);
    drawing.text + "</svg>\n"
}

fn kind_name(kind: Kind) -> &'static str {
    match kind {
        Kind::Timer => "timer",
        Kind::Subscription => "subscription",
        Kind::Service => "service",
        Kind::Client => "client",
    }
}

fn kind_fill(kind: Kind) -> &'static str {
    match kind {
        Kind::Timer => "#d98b3a",
        Kind::Subscription => "#4a86c5",
        Kind::Service => "#5aa469",
        Kind::Client => "#8d6cab",
    }
}

/// A name as SVG writes it.
fn escaped(name: &str) -> String {
    name.replace('&', "&amp;").replace('<', "&lt;")
}

impl Drawing {
    fn put(&mut self, element: std::fmt::Arguments) {
        self.text
            .write_fmt(element)
            .and_then(|()| self.text.write_char('\n'))
            .expect("text grows");
    }

    fn x(&self, time: usize) -> usize {
        LEFT + (time - self.shown.start) * self.tick
    }

    /// Where the last tick ends.
    fn right(&self) -> usize {
        self.x(self.shown.end)
    }

    /// Whether the moment is in the picture, where the last tick ends too.
    fn shows(&self, time: usize) -> bool {
        (self.shown.start..=self.shown.end).contains(&time)
    }

    /// The replies to the ticks that are shown, with their times.
    fn replies<'a>(
        &self,
        history: &'a History,
    ) -> impl Iterator<Item = (usize, &'a Reply)> + use<'a> {
        let replies = history.replies.iter().enumerate();
        replies.take(self.shown.end).skip(self.shown.start)
    }

    /// Where the row of a callback stands.
    fn base(&self, index: usize) -> usize {
        TOP + index * ROW
    }

    fn bottom(&self) -> usize {
        self.base(self.rows)
    }

    fn line(&mut self, from: (usize, usize), to: (usize, usize), style: &str) {
        let ((x1, y1), (x2, y2)) = (from, to);
        self.put(format_args!(
            r#"<line x1="{x1}" y1="{y1}" x2="{x2}" y2="{y2}" {style}/>"#
        ));
    }

    fn rectangle(&mut self, at: (usize, usize), size: (usize, usize), style: &str) {
        let ((x, y), (w, h)) = (at, size);
        self.put(format_args!(
            r#"<rect x="{x}" y="{y}" width="{w}" height="{h}" {style}/>"#
        ));
    }

    fn words(&mut self, at: (usize, usize), anchor: &str, words: &str) {
        let (x, y) = at;
        self.put(format_args!(
            r#"<text x="{x}" y="{y}" text-anchor="{anchor}">{words}</text>"#
        ));
    }

    fn open(&mut self) {
        let width = self.right().max(LEFT + 920) + 30;
        let height = self.bottom() + 76;
        self.put(format_args!(
            concat!(
                r#"<svg xmlns="http://www.w3.org/2000/svg" width="{0}" height="{1}" "#,
                r#"viewBox="0 0 {0} {1}" font-family="sans-serif" font-size="11">"#
            ),
            width, height
        ));
        self.rectangle((0, 0), (width, height), r##"fill="#ffffff""##);
    }

    fn unsupplied(&mut self, history: &History) {
        for time in self.shown.clone() {
            if !history.ticks[time].supplied {
                let size = (self.tick, self.bottom() - TOP);
                self.rectangle((self.x(time), TOP), size, r##"fill="#e4e4e4""##);
            }
        }
    }

    /// A thin bar through the unsupplied ticks of an instance that runs.
    fn pauses(&mut self, history: &History) {
        let mut running = 0;
        for (time, reply) in history.replies.iter().enumerate() {
            match reply.outcome {
                Ok(Answer::Ran { callback, .. }) => running = callback,
                Ok(Answer::NoSupply) if running != 0 && self.shown.contains(&time) => {
                    let at = (self.x(time), self.base(running) - BAR / 2 - 1);
                    self.rectangle(at, (self.tick, 2), r##"fill="#888888""##);
                }
                Ok(Answer::Finished { .. }) => running = 0,
                _ => {}
            }
        }
    }

    /// Marks of time below the rows, with numbers where they have room: one for each tick if they
    /// are short and the ticks are wide.
    fn axis(&mut self) {
        // The first number stands across the left edge, half of each digit to its left.
        let room = 3 * (self.shown.start.to_string().len() - 1);
        self.words((LEFT - 10 - room, self.bottom() + 16), "end", "tick");
        self.words((LEFT - 10, TOP - 14), "end", "taken by the poll");
        let every = if self.tick >= 20 && self.shown.end < 1_000 {
            1
        } else {
            (60 / self.tick).div_ceil(5) * 5
        };
        for time in self.shown.start..=self.shown.end {
            let (x, y) = (self.x(time), self.bottom());
            self.line((x, y), (x, y + 4), r##"stroke="#888888""##);
            if time % every == 0 {
                self.words((x, y + 16), "middle", &time.to_string());
            }
        }
    }

    /// Beside the numbers of the polls, where these count timers.
    fn edition(&mut self, table: &Table) {
        if table.edition == 2 {
            let at = (LEFT - 10, TOP - 30);
            self.words(at, "end", "edition 2: polls take timers");
        }
    }

    /// Below the word of the axis, where the supply is late.
    fn delay(&mut self, table: &Table) {
        let ticks = match table.delay {
            0 => return,
            1 => "1 tick".to_string(),
            delay => format!("{delay} ticks"),
        };
        let at = (LEFT - 10, self.bottom() + 32);
        self.words(at, "end", &format!("supply late by up to {ticks}"));
    }

    fn row(&mut self, index: usize, table: &Table, name: Option<&str>) {
        let callback = table.callback(index);
        let y = self.base(index);
        self.line((LEFT, y), (self.right(), y), r##"stroke="#888888""##);
        let next = if callback.next == 0 {
            String::new()
        } else {
            format!(" to {}", callback.next)
        };
        let kind = kind_name(callback.kind);
        let label = match name {
            Some(name) => format!("{index} {} ({kind}{next})", escaped(name)),
            None => format!("{index} {kind}{next}"),
        };
        self.words((LEFT - 10, y - 4), "end", &label);
    }

    /// The activations of a callback. A head's belongs to the tick that begins there, a follower's
    /// to the moment between two ticks.
    fn activations(&mut self, index: usize, table: &Table, history: &History) {
        let head = table.is_head(index);
        for time in history.activations(table, index) {
            let time = time as usize;
            if self.shown.contains(&time) || (!head && self.shows(time)) {
                self.activation(index, time, head);
            }
        }
    }

    /// Release of an instance: dark for a head's, light for a follower's.
    fn activation(&mut self, index: usize, time: usize, head: bool) {
        let colour = if head { "#222222" } else { "#c0392b" };
        let (x, y) = (self.x(time), self.base(index));
        let top = y - ROW + 6;
        self.line(
            (x, y),
            (x, top),
            &format!(r#"stroke="{colour}" stroke-width="1.5""#),
        );
        let points = format!("{},{} {x},{top} {},{}", x - 3, top + 6, x + 3, top + 6);
        self.put(format_args!(
            r#"<polygon points="{points}" fill="{colour}"/>"#
        ));
    }

    /// The folded beats of a timer. They release nothing: a cross where an arrival has its head, and
    /// no stem, so that the two differ without colour too.
    fn folded(&mut self, index: usize, history: &History) {
        for time in history.folded(index) {
            let time = time as usize;
            if self.shown.contains(&time) {
                self.folded_sign(self.x(time), self.base(index) - ROW + 6);
            }
        }
    }

    fn folded_sign(&mut self, x: usize, top: usize) {
        let (left, right, low) = (x - 3, x + 3, top + 6);
        self.put(format_args!(
            concat!(
                r#"<path d="M{0} {2}L{1} {3}M{0} {3}L{1} {2}" "#,
                r##"fill="none" stroke="#222222" stroke-width="1.5"/>"##
            ),
            left, right, top, low
        ));
    }

    /// At the end of each chain: when the sheet has each instance completed.
    fn dues(&mut self, table: &Table, history: &History, bounds: &[u64]) {
        for index in (1..=table.count()).filter(|&i| table.callback(i).next == 0) {
            let heads = history.activations(table, table.head_of(index));
            for (place, activation) in heads.into_iter().enumerate() {
                let due = (activation + bounds[index - 1]) as usize;
                if self.shows(due) {
                    let (x, y) = (self.x(due), self.base(index));
                    self.due_sign(x, y);
                    self.words((x + 4, y - BAR - 2), "start", &(place + 1).to_string());
                }
            }
        }
    }

    fn due_sign(&mut self, x: usize, y: usize) {
        let style = r##"stroke="#2e7d32" stroke-width="2""##;
        self.line((x, y), (x, y - BAR - 8), style);
        self.line((x - 5, y - BAR - 8), (x, y - BAR - 8), style);
    }

    fn reply(&mut self, time: usize, reply: &Reply, table: &Table) {
        if reply.polled {
            self.poll(self.x(time), reply.gathered);
        }
        match reply.outcome {
            Ok(Answer::Ran { callback, .. }) => self.run(time, callback, table),
            Ok(Answer::Finished { callback, .. }) => {
                self.run(time, callback, table);
                self.finish(self.x(time + 1), self.base(callback));
            }
            Err(refusal) => {
                let at = (self.x(time), TOP - 30);
                self.words(at, "start", &format!("refused {}", refusal.number));
            }
            _ => {}
        }
    }

    /// A polling point, through all rows where it took something.
    fn poll(&mut self, x: usize, gathered: u32) {
        let style = r##"stroke="#7f5fa0" stroke-dasharray="3 3""##;
        let end = if gathered == 0 { TOP } else { self.bottom() };
        self.line((x, TOP - 10), (x, end), style);
        self.words((x, TOP - 14), "middle", &gathered.to_string());
    }

    /// One tick of a run.
    fn run(&mut self, time: usize, callback: usize, table: &Table) {
        let fill = kind_fill(table.callback(callback).kind);
        let at = (self.x(time), self.base(callback) - BAR);
        self.rectangle(at, (self.tick, BAR), &format!(r#"fill="{fill}""#));
    }

    /// The starts of a callback: an edge at the left of the first tick, and the instance's number.
    fn starts(&mut self, index: usize, history: &History) {
        for (time, instance) in history.starts(index) {
            let time = time as usize;
            if self.shown.contains(&time) {
                let (x, y) = (self.x(time), self.base(index));
                let style = r##"stroke="#222222" stroke-width="2""##;
                self.line((x, y - BAR), (x, y), style);
                self.instance(time, index, instance);
            }
        }
    }

    /// The number of an instance in one of its ticks, where there is room; a long one goes on to
    /// the right.
    fn instance(&mut self, time: usize, callback: usize, instance: u64) {
        let (x, y) = (self.x(time), self.base(callback) - 4);
        let number = instance.to_string();
        if self.tick < 12 {
            return;
        }
        if number.len() <= 3 {
            self.words((x + self.tick / 2 + 1, y), "middle", &number);
        } else {
            self.words((x + 3, y), "start", &number);
        }
    }

    /// The number of an instance that started before the picture begins, where it first runs in it.
    fn carried(&mut self, history: &History) {
        let mut replies = self.replies(history);
        let first = replies.find_map(|(time, reply)| Some((time, reply, named(reply)?)));
        if let Some((time, reply, (callback, instance))) = first {
            if !reply.started {
                self.instance(time, callback, instance);
            }
        }
    }

    fn finish(&mut self, x: usize, y: usize) {
        self.put(format_args!(
            r##"<circle cx="{x}" cy="{}" r="3" fill="#ffffff" stroke="#222222"/>"##,
            y - BAR
        ));
    }

    fn legend(&mut self) {
        let y = self.bottom() + 48;
        self.activation_sign(LEFT, y, "#222222", "arrival of a head");
        self.activation_sign(LEFT + 130, y, "#c0392b", "activation of a follower");
        self.finish(LEFT + 300, y + BAR - 4);
        self.words((LEFT + 308, y), "start", "completion");
        self.rectangle((LEFT + 390, y - 10), (12, 12), r##"fill="#e4e4e4""##);
        self.words((LEFT + 408, y), "start", "unsupplied");
        let style = r##"stroke="#7f5fa0" stroke-dasharray="3 3""##;
        self.line((LEFT + 490, y - 12), (LEFT + 490, y + 4), style);
        self.words((LEFT + 498, y), "start", "polling point");
        self.rectangle((LEFT + 590, y - 5), (14, 2), r##"fill="#888888""##);
        self.words((LEFT + 610, y), "start", "runs, but unsupplied");
        self.due_sign(LEFT + 746, y + 5);
        self.words((LEFT + 754, y), "start", "bound, at the end of a chain");
    }

    /// Below the rest of the legend, where a folded beat is shown.
    fn folded_legend(&mut self, history: &History) {
        if self.replies(history).any(|(_, reply)| reply.folded != 0) {
            let y = self.bottom() + 66;
            self.folded_sign(LEFT, y - 7);
            let words = "beat of a timer, folded: an instance waits unstarted";
            self.words((LEFT + 8, y), "start", words);
        }
    }

    fn activation_sign(&mut self, x: usize, y: usize, colour: &str, words: &str) {
        self.line(
            (x, y + 4),
            (x, y - 12),
            &format!(r#"stroke="{colour}" stroke-width="1.5""#),
        );
        self.words((x + 8, y), "start", words);
    }
}
