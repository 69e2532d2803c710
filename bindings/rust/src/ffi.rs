//! The calls of pinpool.h.
#![allow(missing_docs)]

use std::os::raw::{c_char, c_void};

#[repr(C)]
pub struct Handle {
    pub at: *mut c_void,
}

#[repr(C)]
#[derive(Clone, Copy, Default)]
pub struct Ask {
    pub step: u32,
    pub slot: u32,
    pub region: u32,
    pub first: u32,
    pub count: u32,
    pub page: u32,
    pub why: u32,
    pub unused: u32,
}

#[repr(C)]
#[derive(Clone, Copy)]
pub struct Told {
    pub running: u32,
    pub next: u32,
    pub all: u32,
    pub flusher: u32,
}

impl Told {
    pub const NOBODY: Told = Told {
        running: 0,
        next: NOBODY,
        all: 0,
        flusher: 0,
    };
}

#[repr(C)]
pub struct Policy {
    pub queue: u32,
    pub bypass: u32,
    pub flush_from: u32,
    pub flush_to: u32,
}

#[repr(C)]
#[derive(Clone, Copy, Default)]
pub struct Fault {
    pub number: u32,
    pub place: u32,
}

#[repr(C)]
#[derive(Clone, Copy, Default)]
pub struct Plan {
    pub plan: u32,
    pub unused: u32,
    pub peak: u64,
    pub cost: u64,
}

#[repr(C)]
#[derive(Clone, Copy, Default)]
pub struct Sizes {
    pub workers: u32,
    pub bells: u32,
    pub frames: u32,
    pub page_bytes: u32,
    pub pages: u32,
    pub unused: u32,
}

#[repr(C)]
#[derive(Clone, Copy, Default)]
pub struct Stats {
    pub hits: u64,
    pub misses: u64,
    pub write_backs: u64,
    pub flushes: u64,
    pub failed_flushes: u64,
    pub done: u64,
    pub gone: u64,
    pub running_peaks: u64,
    pub dirty: u32,
    pub waiting: u32,
    pub chairs: u32,
    pub is_stopped: u32,
}

#[repr(C)]
#[derive(Clone, Copy, Default)]
pub struct Dirty {
    pub mark: u64,
    pub page: u32,
    pub unused: u32,
}

#[repr(C)]
pub struct Lent {
    pub bytes: *mut u8,
    pub length: usize,
}

pub const NOBODY: u32 = u32::MAX;

/// What calls answer (`pinpool_answer`).
pub mod answer {
    pub const DONE: u32 = 0;
    pub const NOT_NOW: u32 = 1;
    pub const FLUSHES_SPENT: u32 = 3;
    pub const REFUSED: u32 = 4;
    pub const OUT_OF_MEMORY: u32 = 5;
    pub const WRONG_ARGUMENT: u32 = 6;
    pub const IN_USE: u32 = 10;
    pub const QUEUE_FULL: u32 = 11;
    pub const STOPPED: u32 = 12;
    pub const STILL_DIRTY: u32 = 13;
    pub const OTHER_SETTINGS: u32 = 14;
    pub const TOO_MANY_PLANS: u32 = 15;
    pub const NOT_AT_ONCE: u32 = 17;
}

/// Steps of a ticket (`pinpool_step`).
pub mod step {
    pub const FIX: u32 = 2;
    pub const GATHER: u32 = 3;
    pub const LATCH_S: u32 = 6;
    pub const LATCH_X: u32 = 7;
    pub const UNLATCH: u32 = 8;
    pub const CHOOSE: u32 = 9;
    pub const READ: u32 = 11;
    pub const WRITE: u32 = 12;
    pub const OVER: u32 = 14;
    pub const GONE: u32 = 15;
}

/// The bell of a ticket's thread (`pinpool_bell`).
pub fn bell_of(ticket: u64) -> usize {
    (ticket & 65_535) as usize
}

extern "C" {
    pub fn pinpool_version() -> *const c_char;
    pub fn pinpool_open(
        pool: *mut Handle,
        settings: *const u8,
        length: usize,
        policy: *const Policy,
        fault: *mut Fault,
    ) -> u32;
    pub fn pinpool_sizes_of(pool: *mut Handle, sizes: *mut Sizes) -> u32;
    pub fn pinpool_prepare(
        pool: *mut Handle,
        plan: *const u8,
        plan_length: usize,
        certificate: *const u8,
        certificate_length: usize,
        prepared: *mut Plan,
        fault: *mut Fault,
        told: *mut Told,
    ) -> u32;
    pub fn pinpool_prepare_alone(
        pool: *mut Handle,
        plan: *const u8,
        length: usize,
        prepared: *mut Plan,
        fault: *mut Fault,
        told: *mut Told,
    ) -> u32;
    pub fn pinpool_enter(pool: *mut Handle, plan: u32, ticket: *mut u64) -> u32;
    pub fn pinpool_start(
        pool: *mut Handle,
        ticket: *mut u64,
        ask: *mut Ask,
        told: *mut Told,
    ) -> u32;
    pub fn pinpool_go(
        pool: *mut Handle,
        ticket: u64,
        argument: u32,
        ask: *mut Ask,
        told: *mut Told,
    ) -> u32;
    pub fn pinpool_get(
        pool: *mut Handle,
        ticket: u64,
        page: u32,
        from: u32,
        bytes: *mut u8,
        length: usize,
        ask: *mut Ask,
        told: *mut Told,
    ) -> u32;
    pub fn pinpool_put(pool: *mut Handle, ticket: u64, ask: *mut Ask, told: *mut Told) -> u32;
    pub fn pinpool_image(pool: *mut Handle, ticket: u64, bytes: *mut u8, length: usize) -> u32;
    pub fn pinpool_came(pool: *mut Handle, ticket: u64, bytes: *const u8, length: usize) -> u32;
    pub fn pinpool_lend(pool: *mut Handle, ticket: u64, slot: u32, lent: *mut Lent) -> u32;
    pub fn pinpool_leave(pool: *mut Handle, ticket: u64, told: *mut Told) -> u32;
    pub fn pinpool_flusher(pool: *mut Handle, ticket: *mut u64, ask: *mut Ask) -> u32;
    pub fn pinpool_flush_wanted(pool: *mut Handle, ticket: u64, is_on: u32) -> u32;
    pub fn pinpool_stop(pool: *mut Handle, told: *mut Told) -> u32;
    pub fn pinpool_stats_of(pool: *mut Handle, stats: *mut Stats) -> u32;
    pub fn pinpool_dirty_pages(
        pool: *mut Handle,
        pages: *mut Dirty,
        places: usize,
        count: *mut usize,
    ) -> u32;
    pub fn pinpool_close(pool: *mut Handle) -> u32;
    pub fn pinpool_abandon(pool: *mut Handle, lost: *mut u32) -> u32;
}
