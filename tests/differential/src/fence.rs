//! Memory to lend: guard bytes beside it that must stay, and pages without
//! access beyond them, so that a read or a write outside what is lent shows.

use std::ffi::c_void;
use std::sync::atomic::{AtomicU64, Ordering};

extern "C" {
    fn mmap(
        at: *mut c_void,
        length: usize,
        access: i32,
        flags: i32,
        file: i32,
        from: i64,
    ) -> *mut c_void;
    fn mprotect(at: *mut c_void, length: usize, access: i32) -> i32;
    fn signal(number: i32, handler: extern "C" fn(i32)) -> usize;
    fn _exit(code: i32) -> !;
}

// Linux on x86-64, where the library links.
const NO_ACCESS: i32 = 0;
const READ_WRITE: i32 = 3;
const PRIVATE_ANONYMOUS: i32 = 0x22;
const SEGMENT_FAULT: i32 = 11;
const BUS_FAULT: i32 = 7;
const PAGE: usize = 4_096;

const GUARD: u8 = 0xA5;
const GUARDS: usize = 64;

/// The seed that is being compared.
pub static SEED: AtomicU64 = AtomicU64::new(0);

/// Ends the program where a page without access is touched.
extern "C" fn fault(_: i32) {
    let seed = SEED.load(Ordering::Relaxed);
    eprintln!("difference: seed {seed}: memory outside what is lent was touched");
    // SAFETY: ends the process.
    unsafe { _exit(1) }
}

/// Lets such a touch be told with its seed.
pub fn tell_faults() {
    // SAFETY: the handler stays.
    unsafe {
        signal(SEGMENT_FAULT, fault);
        signal(BUS_FAULT, fault);
    }
}

/// One page to lend from, with a page without access on either side.
pub struct Fence {
    room: *mut u8,
    from: usize,
    length: usize,
    turn: usize,
}

impl Fence {
    pub fn new() -> Fence {
        // SAFETY: a fresh mapping of three pages, of which the middle one is opened.
        unsafe {
            let base = mmap(
                std::ptr::null_mut(),
                3 * PAGE,
                NO_ACCESS,
                PRIVATE_ANONYMOUS,
                -1,
                0,
            );
            assert!(base as isize != -1, "no memory");
            let room = base.cast::<u8>().add(PAGE);
            assert_eq!(mprotect(room.cast(), PAGE, READ_WRITE), 0);
            Fence {
                room,
                from: 0,
                length: 0,
                turn: 0,
            }
        }
    }

    /// Lays the bytes out to be lent: in turn at the page's beginning, at its
    /// end, and between (at an odd address where `step` is 1).
    pub fn lend(&mut self, bytes: &[u8], step: usize) {
        assert!(
            bytes.len() + 2 * GUARDS + 3 * step <= PAGE,
            "too long to lend"
        );
        self.turn = (self.turn + 1) % 3;
        self.length = bytes.len();
        self.from = match self.turn {
            0 => 0,
            1 => PAGE - self.length,
            _ => GUARDS + 3 * step,
        };
        let (before, after) = self.guards();
        let from = self.from;
        let page = self.page_mut();
        page[before].fill(GUARD);
        page[after].fill(GUARD);
        page[from..from + bytes.len()].copy_from_slice(bytes);
    }

    pub fn pointer(&self) -> *mut u8 {
        // SAFETY: `from` lies in the page, or at its end for no bytes.
        unsafe { self.room.add(self.from) }
    }

    /// What the lent bytes hold now.
    pub fn bytes(&self) -> &[u8] {
        &self.page()[self.from..self.from + self.length]
    }

    /// Whether the guard bytes are as they were.
    pub fn guarded(&self) -> bool {
        let (before, after) = self.guards();
        let page = self.page();
        page[before]
            .iter()
            .chain(&page[after])
            .all(|&byte| byte == GUARD)
    }

    fn guards(&self) -> (std::ops::Range<usize>, std::ops::Range<usize>) {
        let end = self.from + self.length;
        (
            self.from.saturating_sub(GUARDS)..self.from,
            end..(end + GUARDS).min(PAGE),
        )
    }

    fn page(&self) -> &[u8] {
        // SAFETY: the page is mapped for the fence's whole life.
        unsafe { std::slice::from_raw_parts(self.room, PAGE) }
    }

    fn page_mut(&mut self) -> &mut [u8] {
        // SAFETY: as in `page`, and borrowed alone.
        unsafe { std::slice::from_raw_parts_mut(self.room, PAGE) }
    }
}
