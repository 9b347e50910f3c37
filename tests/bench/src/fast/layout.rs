//! Where a pool's words stand.

/// A pool's length in words, and a pool: the number of threads, and eight
/// threads.
pub const POOL_WORDS: usize = 1689;
pub type Pool = [i32; POOL_WORDS];

/// Words of a thread: the number of its frames, its work, its tokens, and eight
/// frames, oldest first.
pub const THREAD: usize = 211;
pub const WORK: usize = 1;
pub const TOKENS: usize = 2;
pub const FRAMES: usize = 3;
pub const FRAME: usize = 26;

/// The most that the two words of a thread hold.
pub const WORK_MAX: i32 = 65_534;
pub const TOKENS_MAX: i32 = 2_000_000_000;

/// Where a thread begins.
#[inline(always)]
pub fn start_of(thread: usize) -> usize {
    1 + THREAD * thread
}
