//! The callback table: its values, its bytes and its reader (refusals 1 to 14, 22 and 24). Sections
//! in quotes are document 01's, U1, U2 and U7 are requests of document 02.

pub const MOST_CALLBACKS: usize = 16;
pub const LARGEST: u64 = 60_000;
pub const HEADER_BYTES: usize = 16;
pub const RECORD_BYTES: usize = 32;
pub const MOST_ENTRIES: usize = 8;

/// 'Where each refusal is tested': the number of a row, and the callback that it gives as index, 0
/// for a row that gives none.
#[derive(Clone, Copy, Debug, PartialEq, Eq, PartialOrd, Ord)]
pub struct Refusal {
    pub number: u8,
    pub index: u8,
}

/// 'The callback table', record: the kinds, each with its number in byte 0.
#[derive(Clone, Copy, Debug, PartialEq, Eq, PartialOrd, Ord)]
pub enum Kind {
    Timer = 1,
    Subscription = 2,
    Service = 3,
    Client = 4,
}

/// One record; `entries` are the m used ones, `period` is T, `jitter` J, `distance` d.
#[derive(Clone, Debug, PartialEq, Eq)]
pub struct Callback {
    pub kind: Kind,
    pub next: usize,
    pub entries: Vec<u64>,
    pub period: u64,
    pub jitter: u64,
    pub distance: u64,
}

/// Header and records; `budget` is Q, `period` P, `horizon` H as written, `delay` the Z of U2.
#[derive(Clone, Debug, PartialEq, Eq)]
pub struct Table {
    pub edition: u8,
    pub budget: u64,
    pub period: u64,
    pub horizon: u64,
    pub delay: u64,
    pub callbacks: Vec<Callback>,
}

impl Table {
    /// The n of the header; 1 to 16 in a table that the reader takes.
    pub fn count(&self) -> usize {
        self.callbacks.len()
    }

    /// The record of callback `index`, counted from 1. (the index must be 1 to n)
    pub fn callback(&self, index: usize) -> &Callback {
        &self.callbacks[index - 1]
    }

    /// 'The callback table', header: the longest length that can be the window. It is H as written,
    /// or 60,000, the largest H, for a written 0.
    pub fn longest_window(&self) -> u64 {
        match self.horizon {
            0 => LARGEST,
            written => written,
        }
    }

    /// 'The callback table': whether the index is in no next field, so that only a mask activates
    /// the callback. False for an index that is not 1 to n.
    pub fn is_head(&self, index: usize) -> bool {
        (1..=self.count()).contains(&index) && self.names_of(index) == 0
    }

    /// 'A history', head of a chain: the callback that begins the chain of `index`; a head gives
    /// itself. (n steps back are enough, and end the walk on a loop too)
    pub fn head_of(&self, index: usize) -> usize {
        let mut here = index;
        for _ in 0..self.count() {
            match self.namer(here) {
                Some(before) => here = before,
                None => break,
            }
        }
        here
    }

    /// The first callback that names `index` as next.
    fn namer(&self, index: usize) -> Option<usize> {
        (1..=self.count()).find(|&i| index != 0 && self.callback(i).next == index)
    }

    /// How many records name `index` as next.
    fn names_of(&self, index: usize) -> usize {
        self.callbacks.iter().filter(|c| c.next == index).count()
    }

    /// Refusal 13: whether next, followed from the callback, comes back to it.
    fn on_loop(&self, index: usize) -> bool {
        let mut here = index;
        for _ in 0..self.count() {
            here = self.callback(here).next;
            if here == 0 {
                return false;
            }
            if here == index {
                return true;
            }
        }
        false
    }
}

/// A refusal from its number and index.
pub(crate) fn refusal(number: u8, index: usize) -> Refusal {
    Refusal {
        number,
        index: index as u8,
    }
}

/// 'The callback table': a field of two bytes without sign, low byte first.
fn word(bytes: &[u8], at: usize) -> u64 {
    u64::from(bytes[at]) + 256 * u64::from(bytes[at + 1])
}

/// Refuses with the number and index if the condition holds.
pub(crate) fn refuse_if(condition: bool, number: u8, index: usize) -> Result<(), Refusal> {
    if condition {
        Err(refusal(number, index))
    } else {
        Ok(())
    }
}

/// Refusals 1 to 14, 22 and 24: the table, or the first refusal met in header, records, links and
/// arrivals, where a record goes through all its rows before the next record. Total.
pub fn read(bytes: &[u8]) -> Result<Table, Refusal> {
    read_as(bytes, Step::SinceU7)
}

/// The same as it was before U7, which lacks 24 and is otherwise what `read` is. U7's program reads
/// so, and so can windows and bounds of before be asked for. Total.
pub fn read_before_24(bytes: &[u8]) -> Result<Table, Refusal> {
    read_as(bytes, Step::BeforeU7)
}

/// Which of the two readers is meant.
#[derive(Clone, Copy, PartialEq, Eq)]
enum Step {
    BeforeU7,
    SinceU7,
}

fn read_as(bytes: &[u8], step: Step) -> Result<Table, Refusal> {
    check_header(bytes)?;
    let count = usize::from(bytes[1]);
    let mut callbacks = Vec::new();
    let records = bytes[HEADER_BYTES..].chunks(RECORD_BYTES);
    for (record, index) in records.zip(1..) {
        callbacks.push(read_record(record, index, count, step)?);
    }
    let table = Table {
        edition: bytes[0],
        budget: word(bytes, 2),
        period: word(bytes, 4),
        horizon: word(bytes, 6),
        delay: word(bytes, 8),
        callbacks,
    };
    check_links(&table)?;
    check_arrivals(&table)?;
    Ok(table)
}

/// Refusals 1 to 7 and, between 6 and 7, the 22 of U2; all with index 0. 'The callback table',
/// header: edition (1, since U1 or 2) at byte 0, n (1 to 16) at 1, Q at 2, P at 4, H (0 is in
/// range) at 6, since U2 Z (0 too) at 8, spare bytes from 10 to 15.
fn check_header(bytes: &[u8]) -> Result<(), Refusal> {
    refuse_if(bytes.len() < HEADER_BYTES, 1, 0)?;
    refuse_if(![1, 2].contains(&bytes[0]), 2, 0)?;
    let count = usize::from(bytes[1]);
    refuse_if(!(1..=MOST_CALLBACKS).contains(&count), 3, 0)?;
    refuse_if(bytes.len() != HEADER_BYTES + RECORD_BYTES * count, 4, 0)?;
    refuse_if(bytes[10..16].iter().any(|&b| b != 0), 5, 0)?;
    let (budget, period) = (word(bytes, 2), word(bytes, 4));
    let (horizon, delay) = (word(bytes, 6), word(bytes, 8));
    refuse_if(budget == 0 || budget > period || period > LARGEST, 6, 0)?;
    refuse_if(delay > LARGEST, 22, 0)?;
    refuse_if(horizon > LARGEST, 7, 0)
}

/// Refusals 8, 9, 10, since U7 24, and 5 of one record. 'The callback table', record: kind at byte
/// 0, next at 1, m (1 to 8) at 2, T at 4, J at 6, d at 8, and from 12 on room for eight cost entries.
/// What lies beyond entry m, and each spare byte, has to be 0.
fn read_record(record: &[u8], index: usize, count: usize, step: Step) -> Result<Callback, Refusal> {
    let kind = kind_of(record[0]).ok_or(refusal(8, index))?;
    let next = usize::from(record[1]);
    refuse_if(next > count, 9, index)?;
    let used = usize::from(record[2]);
    refuse_if(!(1..=MOST_ENTRIES).contains(&used), 10, index)?;
    let all: Vec<u64> = (0..MOST_ENTRIES)
        .map(|i| word(record, 12 + 2 * i))
        .collect();
    let (entries, unused) = all.split_at(used);
    refuse_if(!entries_by_the_rules(entries), 10, index)?;
    let impossible = step == Step::SinceU7 && exceeds_two(entries);
    refuse_if(impossible, 24, index)?;
    let spare = [3, 10, 11, 28, 29, 30, 31];
    let dirty = unused.iter().any(|&e| e != 0) || spare.iter().any(|&at| record[at] != 0);
    refuse_if(dirty, 5, index)?;
    Ok(Callback {
        kind,
        next,
        entries: entries.to_vec(),
        period: word(record, 4),
        jitter: word(record, 6),
        distance: word(record, 8),
    })
}

/// The kind with this number; none for a number that is not 1 to 4 (refusal 8).
pub(crate) fn kind_of(byte: u8) -> Option<Kind> {
    match byte {
        1 => Some(Kind::Timer),
        2 => Some(Kind::Subscription),
        3 => Some(Kind::Service),
        4 => Some(Kind::Client),
        _ => None,
    }
}

/// 'Curves', cost: whether the used entries are strictly increasing and in range, 1 to 60,000.
pub(crate) fn entries_by_the_rules(entries: &[u64]) -> bool {
    entries.iter().all(|e| (1..=LARGEST).contains(e)) && entries.windows(2).all(|p| p[0] < p[1])
}

/// U7, refusal 24: whether an entry is more than two entries together whose positions make up its
/// own. One entry may stand for both: the second is compared with twice the first.
pub fn exceeds_two(entries: &[u64]) -> bool {
    let entry = |position: usize| entries[position - 1];
    (1..=entries.len()).any(|position| {
        let mut firsts = 1..position;
        firsts.any(|first| entry(position) > entry(first) + entry(position - first))
    })
}

/// Refusals 11, 12 and 13, each over all callbacks before the next one: the lowest callback in more
/// than one next field, the lowest timer in any, the lowest callback on a loop.
pub(crate) fn check_links(table: &Table) -> Result<(), Refusal> {
    for index in 1..=table.count() {
        refuse_if(table.names_of(index) >= 2, 11, index)?;
    }
    for index in 1..=table.count() {
        let timer = table.callback(index).kind == Kind::Timer;
        refuse_if(timer && table.names_of(index) > 0, 12, index)?;
    }
    for index in 1..=table.count() {
        refuse_if(table.on_loop(index), 13, index)?;
    }
    Ok(())
}

/// Refusal 14, with the lowest callback at fault: a head needs T in 1 to 60,000, J up to 60,000 and
/// d in 1 to T; a follower has no arrivals of its own, and needs 0 in all three.
pub(crate) fn check_arrivals(table: &Table) -> Result<(), Refusal> {
    for index in 1..=table.count() {
        let c = table.callback(index);
        let wrong = if table.is_head(index) {
            c.period > LARGEST
                || c.jitter > LARGEST
                || c.period == 0
                || !(1..=c.period).contains(&c.distance)
        } else {
            c.period != 0 || c.jitter != 0 || c.distance != 0
        };
        refuse_if(wrong, 14, index)?;
    }
    Ok(())
}

/// The bytes of a table's values, whether or not the reader would take them. A value too large for
/// its field keeps its low bits; entries beyond the eighth have no place.
pub fn encode(table: &Table) -> Vec<u8> {
    let mut bytes = vec![table.edition, table.count() as u8];
    for value in [table.budget, table.period, table.horizon, table.delay] {
        bytes.extend((value as u16).to_le_bytes());
    }
    bytes.resize(HEADER_BYTES, 0);
    for callback in &table.callbacks {
        bytes.extend(encode_record(callback));
    }
    bytes
}

/// 'The callback table', record: the 32 bytes of one callback, 0 where it has no value.
fn encode_record(callback: &Callback) -> Vec<u8> {
    let kind = callback.kind as u8;
    let mut record = vec![kind, callback.next as u8, callback.entries.len() as u8, 0];
    for value in [callback.period, callback.jitter, callback.distance, 0] {
        record.extend((value as u16).to_le_bytes());
    }
    for &entry in callback.entries.iter().take(MOST_ENTRIES) {
        record.extend((entry as u16).to_le_bytes());
    }
    record.resize(RECORD_BYTES, 0);
    record
}
