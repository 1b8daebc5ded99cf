//! One call of the library beside the simulator's: results, lent bytes and
//! guards compared, and what was compared counted.

use crate::fence::Fence;
use crate::layout::{pack, unpack, CACHE, LENGTH, WAITING};
use library::{
    cuorfelt_analyse, cuorfelt_normalise, cuorfelt_read, cuorfelt_start, cuorfelt_tick,
    cuorfelt_write, Refusal, Reply, Sheet, Written,
};
use sim::machine::{start, Answer, Tick};
use sim::normalise::normalise;
use sim::sheet::analyse;
use sim::table::read;
use sim::text::hex;
use sim::write::{values_at, write, Values, NUMBERS_PER_RECORD};

/// A difference, in words.
pub type Outcome<T = ()> = Result<T, String>;

/// The library's functions that refuse.
#[derive(Clone, Copy)]
pub enum Function {
    Read,
    Analyse,
    Start,
    Tick,
    Write,
    Normalise,
}

#[derive(Default)]
pub struct Totals {
    pub tables: u64,
    pub accepted: u64,
    /// Tables with a sheet and a delay.
    pub delayed: u64,
    pub histories: u64,
    /// Histories with as many ticks without supply in a row as a delay permits.
    pub starved: u64,
    /// Histories that hold a timer of edition 1 up, those in which it meets its
    /// number in the row to the tick, and those in which it meets that of before U5.
    pub held_up: u64,
    pub met: u64,
    pub met_before: u64,
    pub ticks: u64,
    /// Ticks, of all that were taken, on a state of edition 2 with something cached.
    pub second: u64,
    /// Ticks that folded a beat, by edition, and those that folded one of a timer
    /// with 255 instances waiting.
    pub folded: [u64; 2],
    pub folded_full: u64,
    pub damaged: u64,
    pub lengths: u64,
    /// Calls of the writer, and the tables that it wrote.
    pub writings: u64,
    pub written: u64,
    /// Calls of the program of U7.
    pub normalisings: u64,
    /// Tables right but for fault 24, those of them that had a sheet before U7, and
    /// those of these whose sheet has a smaller number now.
    pub old: u64,
    pub old_sheets: u64,
    pub smaller: u64,
    /// Histories within the curves of such a table, and states that hold one.
    pub old_histories: u64,
    pub old_states: u64,
    /// By function, then by number: how often it was refused so.
    pub refused: [[u64; 30]; 6],
}

/// What is offered to a tick, in the library's widths.
#[derive(Clone, Copy, Debug)]
pub struct Offer {
    pub mask: u16,
    pub supplied: u8,
    pub cost: u32,
}

pub struct Comparison {
    pub totals: Totals,
    table: Fence,
    row: Fence,
    state: Fence,
    records: Fence,
    buffer: Fence,
}

fn same<T: PartialEq + std::fmt::Debug>(what: &str, library: T, simulator: T) -> Outcome {
    if library == simulator {
        return Ok(());
    }
    Err(format!(
        "{what}: library {library:?}, simulator {simulator:?}"
    ))
}

/// Slices of one length, compared place by place, counted from 0.
fn same_all<T: PartialEq + std::fmt::Debug>(what: &str, library: &[T], simulator: &[T]) -> Outcome {
    match library.iter().zip(simulator).position(|(a, b)| a != b) {
        None => same(what, library.len(), simulator.len()),
        Some(at) => same(&format!("{what} at {at}"), &library[at], &simulator[at]),
    }
}

fn kept(what: &str, fence: &Fence) -> Outcome {
    if fence.guarded() {
        Ok(())
    } else {
        Err(format!("{what}: a byte beside the lent ones was written"))
    }
}

fn words(bytes: &[u8]) -> Vec<u16> {
    let pairs = bytes.chunks_exact(2);
    pairs.map(|p| u16::from_le_bytes([p[0], p[1]])).collect()
}

fn refusal(simulator: Option<sim::table::Refusal>) -> Refusal {
    match simulator {
        None => Refusal {
            number: 0,
            index: 0,
        },
        Some(sim::table::Refusal { number, index }) => Refusal { number, index },
    }
}

/// Numbers of two bytes as they lie in memory.
fn flat(numbers: &[u16]) -> Vec<u8> {
    numbers.iter().flat_map(|n| n.to_le_bytes()).collect()
}

/// The values with just the records of callbacks 1 to n, a number that is not
/// there being 0.
fn to_count(values: &Values) -> Values {
    let mut records = values.records.clone();
    records.resize(NUMBERS_PER_RECORD * usize::from(values.count), 0);
    Values {
        records,
        ..values.clone()
    }
}

/// The reply that the simulator gives to a tick on lent bytes, and the bytes
/// after it.
fn expected_tick(lent: &[u8], offer: Offer) -> (Reply, Vec<u8>) {
    let refused = |number, index| Reply {
        number,
        index,
        ..Reply::default()
    };
    let Some(state) = unpack(lent) else {
        return (refused(29, 0), lent.to_vec());
    };
    let step = state.tick(Tick {
        mask: offer.mask,
        supplied: offer.supplied != 0,
        cost: offer.cost.into(),
    });
    let (answer, callback, instance) = match step.reply.outcome {
        Err(r) => return (refused(r.number, r.index), lent.to_vec()),
        Ok(Answer::NoSupply) => (1, 0, 0),
        Ok(Answer::Idle) => (2, 0, 0),
        Ok(Answer::Ran { callback, instance }) => (3, callback, instance),
        Ok(Answer::Finished { callback, instance }) => (4, callback, instance),
    };
    let reply = Reply {
        instance: instance as u32,
        number: 0,
        index: 0,
        answer,
        callback: callback as u8,
        started: step.reply.started.into(),
        polled: step.reply.polled.into(),
        gathered: step.reply.gathered as u8,
        folded: step.reply.folded,
    };
    (reply, pack(&step.state).to_vec())
}

impl Comparison {
    pub fn new() -> Comparison {
        Comparison {
            totals: Totals::default(),
            table: Fence::new(),
            row: Fence::new(),
            state: Fence::new(),
            records: Fence::new(),
            buffer: Fence::new(),
        }
    }

    fn count(&mut self, function: Function, number: u8) {
        self.totals.refused[function as usize][usize::from(number)] += 1;
    }

    /// Beats that a tick on these bytes folded.
    fn count_folded(&mut self, lent: &[u8], folded: u16) {
        if folded == 0 {
            return;
        }
        self.totals.folded[usize::from(lent[0] == 2)] += 1;
        let full = |slot: usize| lent[WAITING + 2 * slot] == 255;
        let beats = (0..16).filter(|slot| folded >> slot & 1 != 0);
        self.totals.folded_full += u64::from(beats.into_iter().any(full));
    }

    /// Whether the lent table is as it was.
    fn table_kept(&self, bytes: &[u8]) -> Outcome {
        same_all("table", self.table.bytes(), bytes)?;
        kept("table", &self.table)
    }

    pub fn read(&mut self, bytes: &[u8]) -> Outcome<Refusal> {
        self.table.lend(bytes, 1);
        // SAFETY: the fence lends this many bytes.
        let got = unsafe { cuorfelt_read(self.table.pointer(), bytes.len()) };
        self.count(Function::Read, got.number);
        same("reading", got, refusal(read(bytes).err()))?;
        self.table_kept(bytes)?;
        Ok(got)
    }

    /// The program of U7; gives the table that it leaves where it takes these
    /// bytes: one that the reader takes and a second run leaves alone.
    pub fn normalise(&mut self, bytes: &[u8]) -> Outcome<Option<Vec<u8>>> {
        let normal = match normalise(bytes) {
            Err(refused) => {
                self.normalise_once(bytes, refusal(Some(refused)), bytes)?;
                return Ok(None);
            }
            Ok(normal) => normal,
        };
        self.normalise_once(bytes, refusal(None), &normal)?;
        self.normalise_once(&normal, refusal(None), &normal)?;
        same("reading what is left", self.read(&normal)?, refusal(None))?;
        Ok(Some(normal))
    }

    /// One call of it on bytes that are to become `after`.
    fn normalise_once(&mut self, bytes: &[u8], wanted: Refusal, after: &[u8]) -> Outcome {
        self.table.lend(bytes, 1);
        // SAFETY: the fence lends this many bytes.
        let got = unsafe { cuorfelt_normalise(self.table.pointer(), bytes.len()) };
        self.count(Function::Normalise, got.number);
        self.totals.normalisings += 1;
        same("normalising", got, wanted)?;
        self.table_kept(after)
    }

    /// The writer in a buffer that holds `lent` before. What is written is read
    /// by the library, and holds the values.
    pub fn write(&mut self, values: &Values, lent: &[u8]) -> Outcome<Written> {
        let mut wanted = lent.to_vec();
        let result = match write(values, &mut wanted) {
            Ok(length) => Written {
                length: length as u32,
                number: 0,
                index: 0,
            },
            Err(sim::table::Refusal { number, index }) => Written {
                length: 0,
                number,
                index,
            },
        };
        self.records.lend(&flat(&values.records), 2);
        self.buffer.lend(lent, 1);
        // SAFETY: the fences lend this many numbers, at an even address, and bytes.
        let got = unsafe {
            cuorfelt_write(
                values.edition,
                values.count,
                values.budget,
                values.period,
                values.horizon,
                values.delay,
                self.records.pointer().cast(),
                values.records.len(),
                self.buffer.pointer(),
                lent.len(),
            )
        };
        self.count(Function::Write, got.number);
        self.totals.writings += 1;
        self.written(values, lent.len(), got, result, &wanted)
            .map_err(|difference| format!("{difference}\n{values:?}\nbuffer of {}", lent.len()))?;
        Ok(got)
    }

    /// What the buffer holds that was lent to the writer last.
    pub fn buffer(&self) -> &[u8] {
        self.buffer.bytes()
    }

    /// What a call of the writer left, compared.
    fn written(
        &mut self,
        values: &Values,
        room: usize,
        got: Written,
        result: Written,
        wanted: &[u8],
    ) -> Outcome {
        same("writing", got, result)?;
        let after = self.buffer.bytes().to_vec();
        same_all("buffer", &after, wanted)?;
        kept("buffer", &self.buffer)?;
        same_all("records", self.records.bytes(), &flat(&values.records))?;
        kept("records", &self.records)?;
        if got.number == 0 {
            self.totals.written += 1;
            let table = &after[..room.min(got.length as usize)];
            self.read(table)?;
            same("read back", values_at(table), to_count(values))?;
        }
        Ok(())
    }

    /// The sheet in a row that holds `row` before; gives the window and the
    /// row after.
    pub fn analyse(&mut self, bytes: &[u8], row: &[u16]) -> Outcome<(u16, Vec<u16>)> {
        let mut wanted = row.to_vec();
        let sheet = match analyse(bytes, &mut wanted) {
            Ok(window) => Sheet {
                window: window as u16,
                number: 0,
                index: 0,
            },
            Err(sim::table::Refusal { number, index }) => Sheet {
                window: 0,
                number,
                index,
            },
        };
        self.table.lend(bytes, 1);
        self.row.lend(&flat(row), 2);
        let lent = self.row.pointer().cast();
        // SAFETY: the fences lend this many bytes and places, the row at an even address.
        let got = unsafe { cuorfelt_analyse(self.table.pointer(), bytes.len(), lent, row.len()) };
        self.count(Function::Analyse, got.number);
        same("sheet", got, sheet)?;
        let after = words(self.row.bytes());
        same_all("row", &after, &wanted)?;
        kept("row", &self.row)?;
        self.table_kept(bytes)?;
        Ok((got.window, after))
    }

    /// A start into bytes that hold `lent` before; gives the bytes after.
    pub fn start(&mut self, bytes: &[u8], lent: &[u8]) -> Outcome<Vec<u8>> {
        let begun = start(bytes);
        let fits = lent.len() == LENGTH;
        let (wanted, after) = match begun.refusal {
            _ if !fits => (
                Refusal {
                    number: 29,
                    index: 0,
                },
                lent.to_vec(),
            ),
            None => (refusal(None), pack(&begun.state).to_vec()),
            refused => (refusal(refused), lent.to_vec()),
        };
        self.table.lend(bytes, 1);
        self.state.lend(lent, 1);
        let state = self.state.pointer();
        // SAFETY: the fences lend this many bytes.
        let got = unsafe { cuorfelt_start(self.table.pointer(), bytes.len(), state, lent.len()) };
        self.count(Function::Start, got.number);
        same("start", got, wanted)?;
        same_all("state", self.state.bytes(), &after)?;
        kept("state", &self.state)?;
        self.table_kept(bytes)?;
        Ok(after)
    }

    /// A tick on bytes that hold `lent` before; gives the bytes after.
    pub fn tick(&mut self, lent: &[u8], offer: Offer) -> Outcome<Vec<u8>> {
        let (wanted, after) = expected_tick(lent, offer);
        self.state.lend(lent, 1);
        let state = self.state.pointer();
        // SAFETY: the fence lends this many bytes.
        let got =
            unsafe { cuorfelt_tick(state, lent.len(), offer.mask, offer.supplied, offer.cost) };
        self.count(Function::Tick, got.number);
        let cached = |bytes: &[u8]| bytes[CACHE] | bytes[CACHE + 1] != 0;
        self.totals.second += u64::from(got.number == 0 && lent[0] == 2 && cached(lent));
        self.count_folded(lent, got.folded);
        same("reply", got, wanted)
            .and_then(|()| same_all("state", self.state.bytes(), &after))
            .and_then(|()| kept("state", &self.state))
            .map_err(|difference| format!("{difference}\n{offer:?}\nstate {}", hex(lent)))?;
        Ok(after)
    }
}
