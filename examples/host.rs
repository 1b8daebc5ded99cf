//! A host in Rust: prints the sheet of a table and the replies to a recorded history, as desk.c does without its words.
//!
//!     rustc --edition 2021 -O host.rs -L PREFIX/lib
//!     host TABLE HISTORY
//!
//! Ends with 0, with 1 where something was refused, with 2 where a file cannot be read or the output not be written. (Rust itself takes a
//! closed output for one that is thrown away.)

use std::io::Write;

const PLACES: usize = 16;
const STATE_LENGTH: usize = 640;

#[repr(C)]
struct Refusal {
    number: u8,
    index: u8,
}

#[repr(C)]
struct Sheet {
    window: u16,
    number: u8,
    index: u8,
}

#[repr(C)]
struct Reply {
    instance: u32,
    number: u8,
    index: u8,
    answer: u8,
    callback: u8,
    started: u8,
    polled: u8,
    gathered: u8,
    folded: u16,
}

#[link(name = "cuorfelt")]
extern "C" {
    fn cuorfelt_analyse(table: *const u8, length: usize, row: *mut u16, places: usize) -> Sheet;
    fn cuorfelt_start(table: *const u8, length: usize, state: *mut u8, state_length: usize) -> Refusal;
    fn cuorfelt_tick(state: *mut u8, state_length: usize, mask: u16, supplied: u8, cost: u32) -> Reply;
}

/// One tick of a history.
struct Offer {
    mask: u16,
    supplied: bool,
    cost: u32,
}

fn offer(line: &str) -> Option<Offer> {
    let words: Vec<&str> = line.split_whitespace().collect();
    let [mask, supplied @ ("0" | "1"), cost] = words[..] else {
        return None;
    };
    Some(Offer {
        mask: mask.parse().ok()?,
        supplied: supplied == "1",
        cost: cost.parse().ok()?,
    })
}

/// The ticks of a history, whose first line is the table in hex.
fn offers(table: &[u8], history: &str) -> Result<Vec<Offer>, String> {
    let hex: String = table.iter().map(|byte| format!("{byte:02x}")).collect();
    let mut lines = history.lines().zip(1..);
    if lines.next().map_or("", |(line, _)| line) != hex {
        return Err("line 1: recorded for another table".to_string());
    }
    let said = lines.filter(|(line, _)| !line.is_empty() && !line.starts_with('#'));
    said.map(|(line, number)| offer(line).ok_or(format!("line {number}: not a tick")))
        .collect()
}

/// The sheet as text, and whether the table is accepted.
fn sheet(table: &[u8]) -> (String, bool) {
    let mut row = [0; PLACES];
    let found = unsafe { cuorfelt_analyse(table.as_ptr(), table.len(), row.as_mut_ptr(), row.len()) };
    if found.number != 0 {
        return (format!("refused {} {}\n", found.number, found.index), false);
    }
    let bounds = row.iter().take(table[1].into()).zip(1..);
    let lines = bounds.map(|(bound, index)| format!("{index} {bound}\n"));
    (format!("window {}\n", found.window) + &lines.collect::<String>(), true)
}

fn reply_text(tick: usize, reply: &Reply) -> String {
    if reply.number != 0 {
        return format!("{tick} refused {} {}\n", reply.number, reply.index);
    }
    let answer = ["refused", "nosupply", "idle", "ran", "finished"][usize::from(reply.answer)];
    format!(
        "{tick} {answer} {} {} {} {} {} {}\n",
        reply.callback, reply.instance, reply.started, reply.polled, reply.gathered, reply.folded
    )
}

/// The replies as text, and whether nothing was refused.
fn replies(table: &[u8], offers: &[Offer]) -> (String, bool) {
    let mut state = [0; STATE_LENGTH];
    let why = unsafe { cuorfelt_start(table.as_ptr(), table.len(), state.as_mut_ptr(), state.len()) };
    if why.number != 0 {
        return (format!("start refused {} {}\n", why.number, why.index), false);
    }
    let (mut text, mut taken) = ("start accepted\n".to_string(), true);
    for (tick, offer) in offers.iter().enumerate() {
        let supplied = offer.supplied.into();
        let reply = unsafe { cuorfelt_tick(state.as_mut_ptr(), state.len(), offer.mask, supplied, offer.cost) };
        text += &reply_text(tick, &reply);
        taken &= reply.number == 0;
    }
    (text, taken)
}

/// Whether nothing was refused.
fn run(table: &str, history: &str) -> Result<bool, String> {
    let unread = |name: &str, error| format!("{name}: {error}");
    let bytes = std::fs::read(table).map_err(|error| unread(table, error))?;
    let text = std::fs::read_to_string(history).map_err(|error| unread(history, error))?;
    let offers = offers(&bytes, &text)?;
    let (sheet, accepted) = sheet(&bytes);
    let (replies, taken) = replies(&bytes, &offers);
    let written = std::io::stdout().write_all((sheet + &replies).as_bytes());
    written.map_err(|error| unread("standard output", error))?;
    Ok(accepted && taken)
}

fn main() {
    let words: Vec<String> = std::env::args().skip(1).collect();
    let ran = match &words[..] {
        [table, history] => run(table, history),
        _ => Err("usage: host TABLE HISTORY".to_string()),
    };
    let status = match ran {
        Ok(unrefused) => i32::from(!unrefused),
        Err(fault) => {
            eprintln!("host: {fault}");
            2
        }
    };
    std::process::exit(status);
}
