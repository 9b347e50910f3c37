//! The exported functions, as `include/mezdaulk.h` declares them. A pointer is valid for the count beside it, and what a call
//! writes overlaps nothing else that it is lent.

use crate::Kind;

/// A choice of a schedule: a kind and a thread.
///
/// The kind is a number, so that a list from elsewhere can be put as it is; one that is no [`Kind`] is refused
/// ([`Reason::Kind`](crate::Reason::Kind)).
#[repr(C)]
#[derive(Clone, Copy, Debug, PartialEq, Eq, Hash)]
pub struct Choice {
    /// The number of a [`Kind`].
    pub kind: u32,
    /// The thread, counted from 0.
    pub thread: u32,
}

impl Choice {
    /// A choice of a kind that there is.
    pub const fn new(kind: Kind, thread: u32) -> Self {
        Choice {
            kind: kind as u32,
            thread,
        }
    }

    /// A step of a thread.
    pub const fn step(thread: u32) -> Self {
        Choice::new(Kind::Step, thread)
    }

    /// A promotion of a thread's oldest unpromoted call.
    pub const fn promote(thread: u32) -> Self {
        Choice::new(Kind::Promote, thread)
    }
}

extern "C" {
    /// Does the table read?
    pub fn mezdaulk_read(table: *const u8, bytes: usize) -> u64;

    /// Is the table well formed?
    pub fn mezdaulk_check(table: *const u8, bytes: usize) -> u64;

    /// How many frames can a chain of calls need?
    pub fn mezdaulk_depth(table: *const u8, bytes: usize) -> u64;

    /// Writes the tidy table.
    pub fn mezdaulk_tidy(table: *const u8, bytes: usize, out: *mut u8, room: usize) -> u64;

    /// Completes a table of version 2.
    pub fn mezdaulk_complete(
        table: *const u8,
        bytes: usize,
        out: *mut u8,
        room: usize,
        scratch: *mut u32,
        words: usize,
    ) -> u64;

    /// Makes the words a fresh pool.
    pub fn mezdaulk_start(table: *const u8, bytes: usize, pool: *mut i32, words: usize) -> u64;

    /// One choice.
    pub fn mezdaulk_choose(
        table: *const u8,
        bytes: usize,
        pool: *mut i32,
        words: usize,
        kind: u32,
        thread: u32,
    ) -> u64;

    /// Which thread can step? The lowest-numbered.
    pub fn mezdaulk_which(table: *const u8, bytes: usize, pool: *const i32, words: usize) -> u64;

    /// Main's values, of which there is room for four.
    pub fn mezdaulk_values(
        table: *const u8,
        bytes: usize,
        pool: *const i32,
        words: usize,
        values: *mut i32,
    ) -> u64;

    /// A list of choices, up to the first refusal.
    pub fn mezdaulk_schedule(
        table: *const u8,
        bytes: usize,
        pool: *mut i32,
        words: usize,
        choices: *const Choice,
        count: usize,
        made: *mut u64,
    ) -> u64;

    /// One beat.
    pub fn mezdaulk_beat(
        table: *const u8,
        bytes: usize,
        pool: *mut i32,
        words: usize,
        thread: u32,
        n: u32,
        c: u32,
    ) -> u64;

    /// A beat of each thread of a list, up to the first refusal; there is room for two numbers made.
    pub fn mezdaulk_run(
        table: *const u8,
        bytes: usize,
        pool: *mut i32,
        words: usize,
        n: u32,
        c: u32,
        threads: *const u32,
        count: usize,
        made: *mut u64,
    ) -> u64;

    /// Where the threads stand, as text.
    pub fn mezdaulk_operator(
        table: *const u8,
        bytes: usize,
        pool: *const i32,
        words: usize,
        out: *mut u8,
        room: usize,
    ) -> u64;

    /// Where the threads stand, with their values, as text.
    pub fn mezdaulk_customer(
        table: *const u8,
        bytes: usize,
        pool: *const i32,
        words: usize,
        out: *mut u8,
        room: usize,
    ) -> u64;
}
