//! The tokens that steps earn.

use super::layout::{Pool, TOKENS, TOKENS_MAX, WORK};
use super::{Pace, Refusal};

/// What steps earn: a pace within its limits.
#[derive(Clone, Copy)]
pub struct Earning {
    n: i32,
    c: i32,
}

impl Earning {
    pub fn of(Pace { n, c }: Pace) -> Result<Self, Refusal> {
        if !(1..=65_535).contains(&n) || !(1..=255).contains(&c) {
            return Err(Refusal::Plain(27));
        }
        Ok(Earning {
            n: n as i32,
            c: c as i32,
        })
    }

    /// One step more of the thread that begins at a word, to which so many
    /// tokens are handed: the tokens that it has then.
    #[inline(always)]
    pub fn after_step(self, pool: &mut Pool, at: usize, handed: i32) -> i32 {
        let tokens = arrive(pool[at + TOKENS], handed);
        pool[at + WORK] += 1;
        if pool[at + WORK] < self.n {
            return tokens;
        }
        pool[at + WORK] = 0;
        arrive(tokens, self.c)
    }
}

/// Tokens that come to others, less what is too many.
#[inline(always)]
fn arrive(tokens: i32, more: i32) -> i32 {
    tokens.saturating_add(more).min(TOKENS_MAX)
}
