//! What beats are made with, and what they give.

use crate::Rule;

/// What steps earn: `c` tokens for every `n` steps of a thread.
#[derive(Clone, Copy, Debug, PartialEq, Eq, Hash)]
pub struct Pace {
    /// How many steps bring tokens, 1 to 65,535.
    pub n: u32,
    /// How many tokens they bring, 1 to 255.
    pub c: u32,
}

/// What a beat made.
#[derive(Clone, Copy, Debug, PartialEq, Eq, Hash)]
pub struct Beat {
    /// The rule of its step, one of 1 to 9.
    pub rule: Rule,
    /// How many promotions came behind the step, 0 to 7.
    pub promotions: u32,
}

/// What a run made.
#[derive(Clone, Copy, Debug, PartialEq, Eq, Hash)]
pub struct Ran {
    /// How many beats were made, each with one step.
    pub steps: u64,
    /// How many promotions these made.
    pub promotions: u64,
}
