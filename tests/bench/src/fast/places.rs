//! Where each function, spawn call and block of a table begins.

const ABSENT: u16 = u16::MAX;
const SPAWNS: usize = 16;
const BLOCKS: usize = 144;
const LEN: usize = 656;

/// Function f at f, spawn call k of it at 16 + 8 f + k, block b of it at
/// 144 + 32 f + b.
pub struct Places {
    at: [u16; LEN],
}

impl Places {
    pub fn new() -> Self {
        Places { at: [ABSENT; LEN] }
    }

    pub fn set_function(&mut self, f: usize, at: usize) {
        self.at[f] = at as u16;
    }

    pub fn set_spawn(&mut self, f: usize, k: usize, at: usize) {
        self.at[SPAWNS + 8 * f + k] = at as u16;
    }

    pub fn set_block(&mut self, f: usize, b: usize, at: usize) {
        self.at[BLOCKS + 32 * f + b] = at as u16;
    }

    #[inline]
    pub fn function(&self, f: usize) -> Option<usize> {
        if f < 16 {
            there(self.at[f])
        } else {
            None
        }
    }

    #[inline]
    pub fn spawn(&self, f: usize, k: usize) -> Option<usize> {
        if f < 16 && k < 8 {
            there(self.at[SPAWNS + 8 * f + k])
        } else {
            None
        }
    }

    /// Where a block of a table of some length ends: at the next block or
    /// function, or with the table.
    #[inline]
    pub fn end_of_block(&self, f: usize, b: usize, length: usize) -> usize {
        self.block(f, b + 1)
            .or_else(|| self.function(f + 1))
            .unwrap_or(length)
    }

    #[inline]
    pub fn block(&self, f: usize, b: usize) -> Option<usize> {
        if f < 16 && b < 32 {
            there(self.at[BLOCKS + 32 * f + b])
        } else {
            None
        }
    }
}

#[inline]
fn there(at: u16) -> Option<usize> {
    (at != ABSENT).then_some(at as usize)
}
