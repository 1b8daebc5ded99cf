//! The seven functions of include/cuorfelt.h.

/// Number 0: accepted.
#[repr(C)]
#[derive(Clone, Copy, Debug, PartialEq, Eq)]
pub struct Refusal {
    pub number: u8,
    pub index: u8,
}

/// Window 0 where refused.
#[repr(C)]
#[derive(Clone, Copy, Debug, PartialEq, Eq)]
pub struct Sheet {
    pub window: u16,
    pub number: u8,
    pub index: u8,
}

/// Length 0 where refused.
#[repr(C)]
#[derive(Clone, Copy, Debug, PartialEq, Eq)]
pub struct Written {
    pub length: u32,
    pub number: u8,
    pub index: u8,
}

/// Answer: 0 refused, 1 no supply, 2 idle, 3 ran, 4 finished.
#[repr(C)]
#[derive(Clone, Copy, Debug, Default, PartialEq, Eq)]
pub struct Reply {
    pub instance: u32,
    pub number: u8,
    pub index: u8,
    pub answer: u8,
    pub callback: u8,
    pub started: u8,
    pub polled: u8,
    pub gathered: u8,
    pub folded: u16,
}

extern "C" {
    pub fn cuorfelt_state_length() -> usize;
    pub fn cuorfelt_read(table: *const u8, length: usize) -> Refusal;
    pub fn cuorfelt_normalise(table: *mut u8, length: usize) -> Refusal;
    pub fn cuorfelt_write(
        edition: u16,
        count: u16,
        budget: u16,
        period: u16,
        horizon: u16,
        delay: u16,
        records: *const u16,
        numbers: usize,
        buffer: *mut u8,
        length: usize,
    ) -> Written;
    pub fn cuorfelt_analyse(table: *const u8, length: usize, row: *mut u16, places: usize)
        -> Sheet;
    pub fn cuorfelt_start(
        table: *const u8,
        length: usize,
        state: *mut u8,
        state_length: usize,
    ) -> Refusal;
    pub fn cuorfelt_tick(
        state: *mut u8,
        state_length: usize,
        mask: u16,
        supplied: u8,
        cost: u32,
    ) -> Reply;
}
