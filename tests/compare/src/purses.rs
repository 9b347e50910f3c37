//! Work and tokens by the words of a pool: what plain choices and beats leave of
//! them, and the account of a run.

use mezdaulk::Pace;
use oracle::pool::{thread_start, MAX_THREADS, TOKENS, WORK};
use oracle::Rule;

const MOST: i64 = 2_000_000_000;

/// The work and the tokens of a thread.
#[derive(Clone, Copy, Debug, Default, PartialEq)]
pub struct Purse {
    pub work: i64,
    pub tokens: i64,
}

/// The purses of all threads that words have.
pub fn purses(words: &[i32]) -> Vec<Purse> {
    let threads = words.first().map_or(0, |&count| count.clamp(0, 8));
    (0..threads as usize)
        .map(|thread| Purse {
            work: words[thread_start(thread) + WORK].into(),
            tokens: words[thread_start(thread) + TOKENS].into(),
        })
        .collect()
}

/// The words without work and tokens.
pub fn masked(words: &[i32]) -> Vec<i32> {
    let mut words = words.to_vec();
    for thread in 0..MAX_THREADS {
        for place in [WORK, TOKENS] {
            words[thread_start(thread) + place] = 0;
        }
    }
    words
}

/// The purses that a plain choice leaves.
pub fn after_choice(words: &[i32], thread: usize, rule: u32) -> Vec<Purse> {
    let mut purses = purses(words);
    let is = |other: Rule| rule == u32::from(other.number());
    if is(Rule::Promote) {
        purses.insert((thread + 1).min(purses.len()), Purse::default());
    } else if is(Rule::Prom) && thread + 1 < purses.len() {
        purses.remove(thread + 1);
    }
    purses
}

/// What a beat does with tokens and work.
#[derive(Debug, PartialEq)]
pub struct Dealt {
    pub purses: Vec<Purse>,
    /// Tokens above what a purse holds.
    pub dropped: i64,
    /// The work of a joined child.
    pub lost: i64,
}

/// What a beat leaves that made this rule and so many promotions, if a token
/// was there for each.
pub fn after_beat(
    words: &[i32],
    thread: usize,
    pace: Pace,
    rule: u32,
    promotions: u32,
) -> Option<Dealt> {
    let mut purses = purses(words);
    let mut own = *purses.get(thread)?;
    let (mut dropped, mut lost) = (0, 0);
    let mut arrive = |own: &mut Purse, tokens: i64| {
        own.tokens += tokens;
        dropped += (own.tokens - MOST).max(0);
        own.tokens = own.tokens.min(MOST);
    };
    if rule == u32::from(Rule::Prom.number()) {
        purses.get(thread + 1)?;
        let child = purses.remove(thread + 1);
        arrive(&mut own, child.tokens);
        lost = child.work;
    }
    own.work += 1;
    if own.work >= i64::from(pace.n) {
        own.work = 0;
        arrive(&mut own, pace.c.into());
    }
    for _ in 0..promotions {
        if own.tokens < 1 {
            return None;
        }
        let half = (own.tokens - 1) / 2;
        own.tokens -= 1 + half;
        let child = Purse {
            work: 0,
            tokens: half,
        };
        purses.insert(thread + 1, child);
    }
    purses[thread] = own;
    Some(Dealt {
        purses,
        dropped,
        lost,
    })
}

/// What the beats of a run from a fresh pool came to.
#[derive(Clone, Copy, Debug, Default, PartialEq)]
pub struct Account {
    pub steps: i64,
    pub promotions: i64,
    pub dropped: i64,
    pub lost: i64,
}

impl Account {
    /// A beat made a step and so many promotions.
    pub fn enter(&mut self, promotions: i64, dealt: &Dealt) {
        self.steps += 1;
        self.promotions += promotions;
        self.dropped += dealt.dropped;
        self.lost += dealt.lost;
    }

    /// Promotions times N are at most C times steps.
    pub fn bounded(&self, pace: Pace) -> bool {
        self.promotions * i64::from(pace.n) <= i64::from(pace.c) * self.steps
    }

    /// C times steps are N times the tokens that paid promotions, are held by the
    /// words or were dropped, and C times the work that is held or was lost.
    pub fn balances(&self, pace: Pace, words: &[i32]) -> bool {
        let purses = purses(words);
        let tokens: i64 = purses.iter().map(|purse| purse.tokens).sum();
        let work: i64 = purses.iter().map(|purse| purse.work).sum();
        let (n, c) = (i64::from(pace.n), i64::from(pace.c));
        c * self.steps == n * (self.promotions + tokens + self.dropped) + c * (work + self.lost)
    }
}
