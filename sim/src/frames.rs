//! Tables, histories and values for the writer in binary: the input of the
//! programs `readings`, `histories`, `writings` and `normalisings`.

use crate::machine::{start, Tick};
use crate::normalise::normalise;
use crate::table::read;
use crate::text::{refusal_text, reply_text};
use crate::write::{write, Values};

/// Mask, supplied, cost.
const TICK_BYTES: usize = 7;

/// A frame: the length in two bytes, then the bytes.
pub fn framed(bytes: &[u8]) -> Vec<u8> {
    let length = u16::try_from(bytes.len()).expect("a short frame");
    [&length.to_le_bytes(), bytes].concat()
}

/// The first frame of the input and what follows it; none where it is cut
/// short.
fn frame(input: &[u8]) -> Option<(&[u8], &[u8])> {
    let (length, rest) = input.split_first_chunk::<2>()?;
    rest.split_at_checked(u16::from_le_bytes(*length).into())
}

/// The bytes of the whole frames.
fn frames(mut input: &[u8]) -> impl Iterator<Item = &[u8]> {
    std::iter::from_fn(move || {
        let (bytes, rest) = frame(input)?;
        input = rest;
        Some(bytes)
    })
}

/// `NUMBER INDEX` for each frame, 0 and 0 where the reader takes it.
pub fn readings(input: &[u8]) -> String {
    let line = |bytes| match read(bytes) {
        Ok(_) => "0 0\n".to_string(),
        Err(refusal) => format!("{} {}\n", refusal.number, refusal.index),
    };
    frames(input).map(line).collect()
}

/// `NUMBER INDEX` for each frame, 0 and 0 where the program of U7 takes it; then all its bytes
/// afterwards where one of them is another than before.
pub fn normalisings(input: &[u8]) -> String {
    frames(input).map(normalised).collect()
}

fn normalised(bytes: &[u8]) -> String {
    let (mut line, normal) = match normalise(bytes) {
        Ok(normal) => ("0 0".to_string(), normal),
        Err(refusal) => (
            format!("{} {}", refusal.number, refusal.index),
            bytes.to_vec(),
        ),
    };
    if normal != bytes {
        line.extend(normal.iter().map(|byte| format!(" {byte}")));
    }
    line + "\n"
}

/// The frame of `readings`, `writings` or `normalisings` that is cut short, if one is.
pub fn cut_readings(input: &[u8]) -> Option<String> {
    let lengths: Vec<usize> = frames(input).map(|bytes| 2 + bytes.len()).collect();
    let whole: usize = lengths.iter().sum();
    (whole < input.len()).then(|| format!("frame {}: cut short", lengths.len() + 1))
}

/// Every byte of a buffer before it is lent to the writer.
const FILLING: u8 = 170;

/// What stands in a frame of `writings`: the buffer's length, the header's numbers, then the records'
/// numbers, two bytes each.
pub fn packed_writing(room: u16, values: &Values) -> Vec<u8> {
    let header = [
        room,
        values.edition,
        values.count,
        values.budget,
        values.period,
        values.horizon,
        values.delay,
    ];
    let numbers = header.iter().chain(&values.records);
    numbers.flat_map(|number| number.to_le_bytes()).collect()
}

/// The buffer's length and the values in such a frame. A number that is not there reads as 0, and an
/// odd last byte is none.
fn unpacked_writing(bytes: &[u8]) -> (usize, Values) {
    let pairs = bytes.chunks_exact(2);
    let numbers: Vec<u16> = pairs
        .map(|pair| u16::from_le_bytes([pair[0], pair[1]]))
        .collect();
    let number = |place: usize| numbers.get(place).copied().unwrap_or(0);
    let values = Values {
        edition: number(1),
        count: number(2),
        budget: number(3),
        period: number(4),
        horizon: number(5),
        delay: number(6),
        records: numbers.get(7..).unwrap_or_default().to_vec(),
    };
    (number(0).into(), values)
}

/// `LENGTH NUMBER INDEX` for each frame, number and index 0 where the table is written, the length 0
/// where it is not; then the whole buffer where the writer changed a byte of it.
pub fn writings(input: &[u8]) -> String {
    frames(input).map(written).collect()
}

fn written(bytes: &[u8]) -> String {
    let (room, values) = unpacked_writing(bytes);
    let mut buffer = vec![FILLING; room];
    let mut line = match write(&values, &mut buffer) {
        Ok(length) => format!("{length} 0 0"),
        Err(refusal) => format!("0 {} {}", refusal.number, refusal.index),
    };
    if buffer.iter().any(|&byte| byte != FILLING) {
        line.extend(buffer.iter().map(|byte| format!(" {byte}")));
    }
    line + "\n"
}

/// A history: a frame with the table, the number of ticks in four bytes, then the ticks.
pub fn packed_history(table: &[u8], ticks: &[(Tick, u8)]) -> Vec<u8> {
    let count = u32::try_from(ticks.len()).expect("a short history");
    let mut bytes = framed(table);
    bytes.extend(count.to_le_bytes());
    for (tick, supplied) in ticks {
        bytes.extend(tick.mask.to_le_bytes());
        bytes.push(*supplied);
        bytes.extend((tick.cost as u32).to_le_bytes());
    }
    bytes
}

/// A history in the input: its table, and its ticks as far as they are there.
struct Packed<'a> {
    table: &'a [u8],
    ticks: &'a [u8],
    whole: bool,
}

/// The histories of the input, one behind the other; the last may lack ticks.
fn histories(mut input: &[u8]) -> impl Iterator<Item = Packed<'_>> {
    std::iter::from_fn(move || {
        let (table, rest) = frame(input)?;
        let (count, rest) = rest.split_first_chunk::<4>()?;
        let length = u32::from_le_bytes(*count) as usize * TICK_BYTES;
        let whole = length <= rest.len();
        let (ticks, rest) = rest.split_at(length.min(rest.len()));
        input = rest;
        Some(Packed {
            table,
            ticks,
            whole,
        })
    })
}

/// The history or the tick of `replies` that is cut short, if one is. Histories count from 1, ticks
/// from 0.
pub fn cut_replies(input: &[u8]) -> Option<String> {
    let (mut count, mut read) = (0, 0);
    for history in histories(input) {
        count += 1;
        read += 2 + history.table.len() + 4 + history.ticks.len();
        if !history.whole {
            let tick = history.ticks.len() / TICK_BYTES;
            return Some(format!("history {count}, tick {tick}: cut short"));
        }
    }
    (read < input.len()).then(|| format!("history {}: cut short", count + 1))
}

/// The answers in the order of their numbers, 1 to 4.
const ANSWERS: [&str; 4] = ["nosupply", "idle", "ran", "finished"];

/// A line of `replay` with the answer's number for its word.
fn numbered(line: &str) -> String {
    let field = |word: &str| match ANSWERS.iter().position(|&answer| answer == word) {
        Some(place) => (place + 1).to_string(),
        None => word.to_string(),
    };
    line.split(' ').map(field).collect::<Vec<_>>().join(" ")
}

/// For each such history the refusal of its start, if any, then a line for each tick, the answer by
/// its number.
pub fn replies(input: &[u8]) -> String {
    histories(input).map(|history| replied(&history)).collect()
}

fn replied(history: &Packed) -> String {
    let started = start(history.table);
    let refusal = started.refusal.as_ref();
    let mut text = refusal.map_or(String::new(), |refusal| refusal_text(refusal) + "\n");
    let mut state = started.state;
    for (time, bytes) in history.ticks.chunks_exact(TICK_BYTES).enumerate() {
        let step = state.tick(Tick {
            mask: u16::from_le_bytes([bytes[0], bytes[1]]),
            supplied: bytes[2] != 0,
            cost: u32::from_le_bytes([bytes[3], bytes[4], bytes[5], bytes[6]]).into(),
        });
        state = step.state;
        text += &(numbered(&reply_text(time, &step.reply)) + "\n");
    }
    text
}
