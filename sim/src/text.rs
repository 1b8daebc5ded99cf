//! The text of tables, histories, replies and judgements. What cannot be read is told with its
//! line, counted from 1 in the text as given.

use crate::check::Judgement;
use crate::history::{Departure, Violation};
use crate::machine::{Answer, Reply, Start, State, Tick};
use crate::table::Refusal;

/// One line of a history: a tick, or a change of the state before the next.
#[derive(Clone, Debug, PartialEq, Eq)]
pub enum Line {
    Tick(Tick),
    Set(Change),
}

/// A write into one field of the state.
#[derive(Clone, Debug, PartialEq, Eq)]
pub enum Change {
    Table(Vec<u8>),
    Waiting(usize, u64),
    Finished(usize, u64),
    Cache(u16),
    Running(usize),
    Units(u64),
    Ticks(u64),
}

impl Change {
    pub fn apply(&self, state: &mut State) {
        match self {
            Change::Table(bytes) => state.table = bytes.clone(),
            Change::Waiting(index, value) => state.waiting[index - 1] = *value,
            Change::Finished(index, value) => state.finished[index - 1] = *value,
            Change::Cache(mask) => state.cache = *mask,
            Change::Running(index) => state.running = *index,
            Change::Units(value) => state.units = *value,
            Change::Ticks(value) => state.ticks = *value,
        }
    }
}

/// A history's text: the table's bytes in hex, then one line per tick.
#[derive(Clone, Debug, PartialEq, Eq)]
pub struct Script {
    pub table: Vec<u8>,
    pub lines: Vec<Line>,
}

pub fn hex(bytes: &[u8]) -> String {
    bytes.iter().map(|byte| format!("{byte:02x}")).collect()
}

pub fn from_hex(text: &str) -> Result<Vec<u8>, String> {
    let text = text.trim();
    if !text.is_ascii() || !text.len().is_multiple_of(2) {
        return Err(format!("not hex: {text}"));
    }
    (0..text.len() / 2)
        .map(|place| {
            let pair = &text[2 * place..2 * place + 2];
            // A number may have a sign, two digits may not.
            let digits = pair.bytes().all(|byte| byte.is_ascii_hexdigit());
            let byte = u8::from_str_radix(pair, 16).ok().filter(|_| digits);
            byte.ok_or_else(|| format!("not hex: {pair}"))
        })
        .collect()
}

pub fn number(word: &str) -> Result<u64, String> {
    word.parse().map_err(|_| format!("not a number: {word}"))
}

/// A callback's index, 1 to 16.
fn place(word: &str) -> Result<usize, String> {
    match number(word)? {
        index @ 1..=16 => Ok(index as usize),
        other => Err(format!("not 1 to 16: {other}")),
    }
}

fn mask(word: &str) -> Result<u16, String> {
    u16::try_from(number(word)?).map_err(|_| format!("not sixteen bits: {word}"))
}

fn supplied(word: &str) -> Result<bool, String> {
    match word {
        "0" => Ok(false),
        "1" => Ok(true),
        _ => Err(format!("not 0 or 1: {word}")),
    }
}

fn change(words: &[&str]) -> Result<Change, String> {
    Ok(match words {
        ["table", bytes] => Change::Table(from_hex(bytes)?),
        ["table"] => Change::Table(Vec::new()),
        ["waiting", index, value] => Change::Waiting(place(index)?, number(value)?),
        ["finished", index, value] => Change::Finished(place(index)?, number(value)?),
        ["cache", value] => Change::Cache(mask(value)?),
        ["running", value] => Change::Running(number(value)? as usize),
        ["units", value] => Change::Units(number(value)?),
        ["ticks", value] => Change::Ticks(number(value)?),
        _ => return Err(format!("no such change: {}", words.join(" "))),
    })
}

fn line(text: &str) -> Result<Line, String> {
    let words: Vec<&str> = text.split_whitespace().collect();
    match words[..] {
        ["set", ref rest @ ..] => Ok(Line::Set(change(rest)?)),
        [arrivals, supply, cost] => Ok(Line::Tick(Tick {
            mask: mask(arrivals)?,
            supplied: supplied(supply)?,
            cost: number(cost)?,
        })),
        _ => Err(format!("not a line of a history: {text}")),
    }
}

/// What a row says, or its fault with the row's number.
fn at_line<T>(number: usize, said: Result<T, String>) -> Result<T, String> {
    said.map_err(|fault| format!("line {number}: {fault}"))
}

/// Bytes as text.
pub fn text_of(bytes: Vec<u8>) -> Result<String, String> {
    String::from_utf8(bytes).map_err(|error| {
        let before = &error.as_bytes()[..error.utf8_error().valid_up_to()];
        let number = 1 + before.iter().filter(|&&byte| byte == b'\n').count();
        format!("line {number}: not text")
    })
}

/// The bytes in hex of every row.
pub fn hex_rows(text: &str) -> Result<Vec<Vec<u8>>, String> {
    let rows = text.lines().zip(1..);
    rows.map(|(row, number)| at_line(number, from_hex(row)))
        .collect()
}

/// The bytes in hex of the only row that is not empty; none where all are.
pub fn hex_row(text: &str) -> Result<Vec<u8>, String> {
    let rows = text.lines().zip(1..);
    let mut said = rows.filter(|(row, _)| !row.trim().is_empty());
    let bytes = match said.next() {
        Some((row, number)) => at_line(number, from_hex(row))?,
        None => Vec::new(),
    };
    match said.next() {
        Some((_, number)) => at_line(number, Err("more than one line of hex".to_string())),
        None => Ok(bytes),
    }
}

/// A line of a history with the number of its row.
pub type Numbered = (usize, Line);

/// A history's table and its lines. Empty rows after the first, and rows that begin with #, say
/// nothing.
pub fn numbered_script(text: &str) -> Result<(Vec<u8>, Vec<Numbered>), String> {
    let mut rows = text.lines().zip(1..);
    let table = at_line(1, from_hex(rows.next().map_or("", |(row, _)| row)))?;
    let said = rows.filter(|(row, _)| !row.trim().is_empty() && !row.starts_with('#'));
    let lines = said.map(|(row, number)| Ok((number, at_line(number, line(row))?)));
    Ok((table, lines.collect::<Result<_, String>>()?))
}

/// The ticks of a history that writes nothing into the state.
pub fn plain_ticks(lines: &[Numbered]) -> Result<Vec<Tick>, String> {
    let tick = |(number, line): &Numbered| match line {
        Line::Tick(tick) => Ok(*tick),
        Line::Set(_) => at_line(*number, Err("set lines are for replay only".to_string())),
    };
    lines.iter().map(tick).collect()
}

/// A history's text as `numbered_script` reads it, without the numbers.
pub fn script(text: &str) -> Result<Script, String> {
    let (table, lines) = numbered_script(text)?;
    Ok(Script {
        table,
        lines: lines.into_iter().map(|(_, line)| line).collect(),
    })
}

pub fn line_text(line: &Line) -> String {
    match line {
        Line::Tick(tick) => format!("{} {} {}", tick.mask, u8::from(tick.supplied), tick.cost),
        Line::Set(Change::Table(bytes)) => format!("set table {}", hex(bytes)),
        Line::Set(Change::Waiting(index, value)) => format!("set waiting {index} {value}"),
        Line::Set(Change::Finished(index, value)) => format!("set finished {index} {value}"),
        Line::Set(Change::Cache(mask)) => format!("set cache {mask}"),
        Line::Set(Change::Running(index)) => format!("set running {index}"),
        Line::Set(Change::Units(value)) => format!("set units {value}"),
        Line::Set(Change::Ticks(value)) => format!("set ticks {value}"),
    }
}

pub fn script_text(script: &Script) -> String {
    let rows = script.lines.iter().map(|line| line_text(line) + "\n");
    hex(&script.table) + "\n" + &rows.collect::<String>()
}

/// Document 01, P6: the line of a refusal, its three parts one space apart.
pub fn refusal_text(refusal: &Refusal) -> String {
    format!("refused {} {}", refusal.number, refusal.index)
}

/// How a history leaves the curves, its ticks counted from 0.
pub fn departure_text(departure: &Departure) -> String {
    match departure {
        Departure::Arrivals { head, from, length } => {
            format!("outside arrivals {head} from {from} ticks {length}")
        }
        Departure::Supply { from, length } => format!("outside supply from {from} ticks {length}"),
        Departure::Cost {
            callback,
            from,
            instances,
        } => format!(
            "outside cost {callback} from {} instances {instances}",
            from + 1
        ),
        Departure::Mask { tick } => format!("outside mask {tick}"),
        Departure::CostRange { tick } => format!("outside range {tick}"),
    }
}

/// Which of demand 3's conclusions a history breaks.
pub fn violation_text(violation: &Violation) -> String {
    match violation {
        Violation::Refused { tick } => format!("broken refusal tick {tick}"),
        Violation::EarlyStart {
            callback,
            instance,
            time,
        } => format!("broken start {callback} instance {instance} at {time}"),
        Violation::Late {
            callback,
            k,
            activation,
            completion,
        } => {
            let completed = completion.map_or("never".to_string(), |time| time.to_string());
            format!("broken bound {callback} activation {k} at {activation} completed {completed}")
        }
    }
}

/// Whether a history is within the curves, then index, bound and longest response of each callback.
/// Demand 3 asks something only of a history within them; what fails of that comes last.
pub fn judgement_text(bounds: &[u64], judgement: &Judgement) -> String {
    let mut lines = vec![match &judgement.departure {
        Some(departure) => departure_text(departure),
        None => "within".to_string(),
    }];
    for (place, (bound, longest)) in bounds.iter().zip(&judgement.longest).enumerate() {
        lines.push(format!("{} {bound} {longest}", place + 1));
    }
    if let (None, Some(violation)) = (&judgement.departure, &judgement.violation) {
        lines.push(violation_text(violation));
    }
    lines.join("\n") + "\n"
}

pub fn start_text(start: &Start) -> String {
    match &start.refusal {
        Some(refusal) => format!("start {}", refusal_text(refusal)),
        None => "start accepted".to_string(),
    }
}

pub fn reply_text(time: usize, reply: &Reply) -> String {
    let (word, callback, instance) = match reply.outcome {
        Err(refusal) => return format!("{time} {}", refusal_text(&refusal)),
        Ok(Answer::NoSupply) => ("nosupply", 0, 0),
        Ok(Answer::Idle) => ("idle", 0, 0),
        Ok(Answer::Ran { callback, instance }) => ("ran", callback, instance),
        Ok(Answer::Finished { callback, instance }) => ("finished", callback, instance),
    };
    let started = u8::from(reply.started);
    let polled = u8::from(reply.polled);
    let Reply {
        gathered, folded, ..
    } = reply;
    format!("{time} {word} {callback} {instance} {started} {polled} {gathered} {folded}")
}

fn joined(values: &[u64]) -> String {
    values
        .iter()
        .map(u64::to_string)
        .collect::<Vec<_>>()
        .join(" ")
}

pub fn state_text(state: &State) -> String {
    format!(
        "state {} {} {} {} {} {}",
        state.ticks,
        state.running,
        state.units,
        state.cache,
        joined(&state.waiting),
        joined(&state.finished)
    )
}
