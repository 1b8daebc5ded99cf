//! The commands: what each prints and how it ends.

use crate::streams::input;
use sim::check::{check, judged, report};
use sim::frames::{
    cut_readings, cut_replies, framed, normalisings, packed_history, readings, replies, writings,
};
use sim::generate::beats::{some_of, timers};
use sim::generate::curves::{any_old_table, sound_or_bent};
use sim::generate::damage::damaged;
use sim::generate::edges::{base, beating, edges, late};
use sim::generate::histories::{covering, folding, outside, span, starved, within, Style};
use sim::generate::normal_edges::normal_edges;
use sim::generate::states::{changes, sound, spoil};
use sim::generate::tables::{any_shape, table, Shape};
use sim::generate::worst::worst;
use sim::generate::write_edges::write_edges;
use sim::history::play;
use sim::machine::{start, Tick};
use sim::normalise::normalise;
use sim::picture::svg_part;
use sim::random::Random;
use sim::sheet::{sheet, Sheet};
use sim::table::{encode, read, Refusal, Table};
use sim::text::{
    hex, hex_row, hex_rows, judgement_text, numbered_script, plain_ticks, refusal_text, reply_text,
    script, script_text, start_text, state_text, text_of, Line, Script,
};
use std::ops::Range;

/// What a command prints on standard output and standard error, and its status.
pub struct Ending {
    pub output: Vec<u8>,
    pub error: String,
    pub status: u8,
}

impl Ending {
    /// An output, and whether all that it tells of is in order.
    pub fn new(output: impl Into<Vec<u8>>, in_order: bool) -> Ending {
        Ending {
            output: output.into(),
            error: String::new(),
            status: if in_order { 0 } else { 1 },
        }
    }

    /// Lines, in order where none has the words of `refusal_text`.
    fn of_lines(text: String) -> Ending {
        let in_order = !text.contains("refused ");
        Ending::new(text, in_order)
    }

    /// The same, with a fault of the input behind what is told of, if there is one.
    fn and(self, fault: Option<String>) -> Ending {
        let status = if fault.is_some() { 2 } else { self.status };
        Ending {
            error: fault.unwrap_or_default(),
            status,
            ..self
        }
    }
}

/// Why a command has nothing to print.
pub enum Failure {
    /// Words that no command has.
    Words(String),
    /// Input that cannot be read, or has not what is asked for.
    Input(String),
    /// A table that is refused where something is to be drawn from it.
    Refused(Refusal),
}

impl From<String> for Failure {
    fn from(fault: String) -> Failure {
        Failure::Input(fault)
    }
}

impl From<Refusal> for Failure {
    fn from(refusal: Refusal) -> Failure {
        Failure::Refused(refusal)
    }
}

pub fn run(words: &[&str]) -> Result<Ending, Failure> {
    match words {
        ["sheet"] => Ok(Ending::of_lines(sheet_text(&input()?))),
        ["sheets"] => Ok(Ending::of_lines(sheet_lines(&hex_rows(&text_input()?)?))),
        ["replay"] => Ok(Ending::of_lines(replay(&script(&text_input()?)?, false))),
        ["replay", "states"] => Ok(Ending::of_lines(replay(&script(&text_input()?)?, true))),
        ["svg", rest @ ..] => picture(rest),
        ["within"] => judgement(&text_input()?),
        ["bytes"] => Ok(Ending::new(hex_row(&text_input()?)?, true)),
        ["readings"] => Ok(read_frames(&input()?)),
        ["histories"] => Ok(played_histories(&input()?)),
        ["writings"] => Ok(written_frames(&input()?)),
        ["normalise"] => Ok(normal_bytes(&input()?)),
        ["normalisings"] => Ok(normal_frames(&input()?)),
        ["generate", ..] => Ok(Ending::new(generated(words)?, true)),
        ["check", seed, count, rest @ ..] => checked(seed, count, rest),
        [] => Err(Failure::Words("no command".to_string())),
        _ => Err(wrong(words)),
    }
}

fn wrong(words: &[&str]) -> Failure {
    Failure::Words(format!("wrong words: {}", words.join(" ")))
}

/// A number among the words.
fn number(word: &str) -> Result<u64, Failure> {
    sim::text::number(word).map_err(Failure::Words)
}

fn text_input() -> Result<String, String> {
    text_of(input()?)
}

/// The bytes of a file, or of standard input for `-`.
fn file_input(name: &str) -> Result<Vec<u8>, String> {
    match name {
        "-" => input(),
        _ => std::fs::read(name).map_err(|error| format!("{name}: {error}")),
    }
}

/// Document 01, P6: what `bounds` prints, first the window's line, then one
/// line for each callback; for a refusal its line alone.
fn sheet_text(bytes: &[u8]) -> String {
    match sheet(bytes) {
        Err(refusal) => refusal_text(&refusal) + "\n",
        Ok(Sheet { window, bounds, .. }) => {
            let lines = bounds.iter().zip(1..);
            let lines = lines.map(|(bound, index)| format!("{index} {bound}\n"));
            format!("window {window}\n") + &lines.collect::<String>()
        }
    }
}

/// The same for each table in one line: the window, then the bounds.
fn sheet_lines(tables: &[Vec<u8>]) -> String {
    let line = |bytes: &Vec<u8>| match sheet(bytes) {
        Err(refusal) => refusal_text(&refusal) + "\n",
        Ok(Sheet { window, bounds, .. }) => {
            let bounds = bounds.iter().map(|bound| format!(" {bound}"));
            format!("window {window}{}\n", bounds.collect::<String>())
        }
    };
    tables.iter().map(line).collect()
}

fn replay(script: &Script, states: bool) -> String {
    let begun = start(&script.table);
    let mut lines = vec![start_text(&begun)];
    let mut state = begun.state;
    let mut time = 0;
    for line in &script.lines {
        match line {
            Line::Set(change) => change.apply(&mut state),
            Line::Tick(tick) => {
                let step = state.tick(*tick);
                state = step.state;
                lines.push(reply_text(time, &step.reply));
                if states {
                    lines.push(state_text(&state));
                }
                time += 1;
            }
        }
    }
    lines.join("\n") + "\n"
}

/// A picture of the history, or of the ticks that are asked for.
fn picture(words: &[&str]) -> Result<Ending, Failure> {
    let (ends, names) = match words {
        ["--ticks", first, last, names @ ..] => (Some((number(first)?, number(last)?)), names),
        names => (None, names),
    };
    if names.iter().any(|name| name.starts_with("--")) {
        return Err(wrong(words));
    }
    let (bytes, lines) = numbered_script(&text_input()?)?;
    let table = read(&bytes)?;
    let ticks = plain_ticks(&lines)?;
    let shown = match ends {
        Some((first, last)) => shown(first, last, ticks.len())?,
        None => 0..ticks.len(),
    };
    let picture = svg_part(&table, &play(&bytes, &ticks), names, shown);
    Ok(Ending::new(picture, true))
}

/// The ticks from `first` to `last`, if the history has them.
fn shown(first: u64, last: u64, ticks: usize) -> Result<Range<usize>, String> {
    if first > last {
        return Err(format!(
            "ticks {first} to {last}: the first is above the last"
        ));
    }
    if last >= ticks as u64 {
        return Err(format!(
            "ticks {first} to {last}: the history has {ticks}, from 0 on"
        ));
    }
    Ok(first as usize..last as usize + 1)
}

/// Whether a history is within the curves and demand 3 holds of it.
fn judgement(text: &str) -> Result<Ending, Failure> {
    let (bytes, lines) = numbered_script(text)?;
    let sheet = match sheet(&bytes) {
        Ok(sheet) => sheet,
        Err(refusal) => return Ok(Ending::of_lines(refusal_text(&refusal) + "\n")),
    };
    let history = play(&bytes, &plain_ticks(&lines)?);
    let judgement = judged(&sheet.table, &sheet.bounds, &history);
    let text = judgement_text(&sheet.bounds, &judgement);
    Ok(Ending::new(text, judgement.in_order()))
}

fn read_frames(bytes: &[u8]) -> Ending {
    let text = readings(bytes);
    let in_order = text.lines().all(|line| line == "0 0");
    Ending::new(text, in_order).and(cut_readings(bytes))
}

fn written_frames(bytes: &[u8]) -> Ending {
    let text = writings(bytes);
    let in_order = text.lines().all(|line| line.split(' ').nth(1) == Some("0"));
    Ending::new(text, in_order).and(cut_readings(bytes))
}

/// The program of U7: the new table, or a line for the refusal.
fn normal_bytes(bytes: &[u8]) -> Ending {
    match normalise(bytes) {
        Ok(normal) => Ending::new(normal, true),
        Err(refusal) => Ending::new(refusal_text(&refusal) + "\n", false),
    }
}

fn normal_frames(bytes: &[u8]) -> Ending {
    let text = normalisings(bytes);
    let in_order = text.lines().all(|line| line.starts_with("0 "));
    Ending::new(text, in_order).and(cut_readings(bytes))
}

fn played_histories(bytes: &[u8]) -> Ending {
    Ending::of_lines(replies(bytes)).and(cut_replies(bytes))
}

fn generated(words: &[&str]) -> Result<Vec<u8>, Failure> {
    match words {
        ["generate", "readings"] => Ok(all_framed(&edges())),
        ["generate", "histories"] => Ok(vectors()),
        ["generate", "writings"] => Ok(all_framed(&write_edges())),
        ["generate", "normalisings"] => Ok(all_framed(&normal_edges())),
        ["generate", "tables", seed, count, rest @ ..] => Ok(tables(seed, count, rest)?.into()),
        ["generate", "history", seed, rest @ ..] => Ok(history(seed, rest)?.into()),
        _ => Err(wrong(words)),
    }
}

fn all_framed(contents: &[Vec<u8>]) -> Vec<u8> {
    contents.iter().flat_map(|bytes| framed(bytes)).collect()
}

/// The histories for `sim histories`.
fn vectors() -> Vec<u8> {
    [covered(1), covered(2), delayed(), beaten(1), beaten(2)].concat()
}

/// The history of this edition for `sim histories`.
fn covered(edition: u8) -> Vec<u8> {
    packed_history(&encode(&base(edition)), &covering(edition))
}

/// The history of a table with a delay for `sim histories`.
fn delayed() -> Vec<u8> {
    packed_history(&encode(&late()), &starved())
}

/// The history of this edition with folded beats for `sim histories`.
fn beaten(edition: u8) -> Vec<u8> {
    packed_history(&encode(&beating(edition)), &folding())
}

fn tables(seed: &str, count: &str, rest: &[&str]) -> Result<String, Failure> {
    let mut random = Random::new(number(seed)?);
    let mut text = String::new();
    for _ in 0..number(count)? {
        let bytes = match rest {
            ["small"] => encode(&table(&mut random, Shape::Small)),
            ["long"] => encode(&table(&mut random, Shape::Long)),
            ["extreme"] => encode(&table(&mut random, Shape::Extreme)),
            ["damaged"] => damaged(&mut random),
            ["before"] => encode(&any_old_table(&mut random)),
            [] if random.chance(50) => damaged(&mut random),
            [] => {
                let shape = any_shape(&mut random);
                encode(&sound_or_bent(&mut random, shape))
            }
            _ => return Err(wrong(rest)),
        };
        text += &(hex(&bytes) + "\n");
    }
    Ok(text)
}

/// A history for the table in a file, or for one that is drawn.
fn history(seed: &str, rest: &[&str]) -> Result<String, Failure> {
    let (sort, ticks, file) = match rest {
        [] => ("within", "100", None),
        [sort] => (*sort, "100", None),
        [sort, ticks] => (*sort, *ticks, None),
        [sort, ticks, file] => (*sort, *ticks, Some(*file)),
        _ => return Err(wrong(rest)),
    };
    let (mut random, length) = (Random::new(number(seed)?), number(ticks)?);
    let bytes = match file {
        Some(name) => file_input(name)?,
        None => accepted(&mut random),
    };
    let table = read(&bytes)?;
    let ticks = match sort {
        "within" => pressing(&mut random, &sheet(&bytes)?, length, file.is_some()),
        "worst" => worst(&mut random, &sheet(&bytes)?, length).ticks,
        "outside" | "faulty" => outside(&mut random, &table, length),
        _ => return Err(wrong(rest)),
    };
    let mut lines: Vec<Line> = ticks.into_iter().map(Line::Tick).collect();
    if sort == "faulty" {
        lines = disturbed(&mut random, &table, lines);
    }
    Ok(script_text(&Script {
        table: bytes,
        lines,
    }))
}

/// A small table that the analyser takes.
fn accepted(random: &mut Random) -> Vec<u8> {
    loop {
        let bytes = encode(&table(random, Shape::Small));
        if sheet(&bytes).is_ok() {
            return bytes;
        }
    }
}

/// A history within the curves. For a drawn table without a delay phases and rests go by the window
/// alone, however short the history is: what a seed gives there is relied on.
fn pressing(random: &mut Random, sheet: &Sheet, length: u64, given: bool) -> Vec<Tick> {
    let span = if given || sheet.table.delay > 0 {
        span(sheet.window, length)
    } else {
        sheet.window
    };
    let style = Style::any(random, &sheet.table, span);
    within(random, &sheet.table, &style, length).ticks
}

/// Writes a whole state before some ticks, every other one with a fault. Behind such a state half of
/// the timers beat, by draws of their own.
fn disturbed(random: &mut Random, table: &Table, lines: Vec<Line>) -> Vec<Line> {
    let mut aside = random.aside();
    let timers = timers(table);
    let mut text = Vec::new();
    for mut line in lines {
        if random.chance(20) {
            let mut state = sound(random, table);
            if random.chance(50) {
                spoil(random, table, &mut state);
            }
            text.extend(changes(&state).into_iter().map(Line::Set));
            if let Line::Tick(tick) = &mut line {
                tick.mask |= some_of(&mut aside, &timers, 50);
            }
        }
        text.push(line);
    }
    text
}

fn checked(seed: &str, count: &str, rest: &[&str]) -> Result<Ending, Failure> {
    let ticks = match rest {
        [] => 2_000,
        [ticks] => number(ticks)?,
        _ => return Err(wrong(rest)),
    };
    let totals = check(number(seed)?, number(count)?, ticks);
    Ok(Ending::new(report(&totals), totals.in_order()))
}
