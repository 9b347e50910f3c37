//! Choices and schedules, blind or guided by the pool they are put to.

use crate::overflow::overflows;
use crate::pool::Pool;
use crate::rng::Rng;
use crate::rules::{steppable, PROMOTE, STEP};
use crate::table::Program;

/// A kind and a thread.
pub type Choice = (u64, u64);

/// A number that fits no kind and no thread, up to 64 bits wide.
pub fn odd_number(rng: &mut Rng) -> u64 {
    let any = rng.bits();
    rng.one_of([
        8,
        9,
        255,
        256,
        1 << 31,
        u64::from(u32::MAX),
        1 << 32,
        (1 << 32) + 1,
        u64::MAX,
        any | 8,
    ])
}

/// A choice made without looking at a pool.
pub fn blind_choice(rng: &mut Rng) -> Choice {
    let kind = match rng.below(40) {
        0 => rng.one_of([2, 3]),
        1 => odd_number(rng),
        2..=13 => PROMOTE,
        _ => STEP,
    };
    let thread = match rng.below(20) {
        0 => odd_number(rng),
        1..=9 => 0,
        _ => rng.below(8) as u64,
    };
    (kind, thread)
}

/// A schedule made without looking at a pool.
pub fn blind_schedule(rng: &mut Rng) -> Vec<Choice> {
    let length = rng.one_of([0, 1, 2, 5, 20, 100]);
    (0..length).map(|_| blind_choice(rng)).collect()
}

/// How a guided run chooses; shares are in percent.
#[derive(Clone, Copy, Debug)]
pub struct Policy {
    /// Share of blind choices.
    pub blind: usize,
    /// Share of promotions.
    pub promote: usize,
    /// Which thread is preferred.
    pub order: Order,
}

/// The thread a guided run prefers.
#[derive(Clone, Copy, Debug, PartialEq, Eq)]
pub enum Order {
    First,
    Last,
    Any,
}

impl Policy {
    pub fn random(rng: &mut Rng) -> Self {
        Policy {
            blind: rng.one_of([0, 2, 10]),
            promote: rng.one_of([0, 10, 30, 60]),
            order: rng.one_of([Order::First, Order::Last, Order::Any]),
        }
    }
}

/// A choice that a pool mostly makes.
pub fn guided_choice(rng: &mut Rng, program: &Program, pool: &Pool, policy: Policy) -> Choice {
    if rng.chance(policy.blind) {
        return blind_choice(rng);
    }
    if rng.chance(policy.promote) {
        let open = with_unpromoted(pool);
        if let Some(thread) = preferred(rng, &open, policy.order) {
            return (PROMOTE, thread as u64);
        }
    }
    match preferred(rng, &steppable(program, pool), policy.order) {
        Some(thread) => (STEP, thread as u64),
        None => blind_choice(rng),
    }
}

/// The threads with something unpromoted.
fn with_unpromoted(pool: &Pool) -> Vec<usize> {
    pool.threads()
        .iter()
        .enumerate()
        .filter(|(_, thread)| thread.frames.iter().any(|frame| frame.has_unpromoted()))
        .map(|(number, _)| number)
        .collect()
}

/// A thread whose next expression overflows, if there is one.
pub fn overflowing(rng: &mut Rng, program: &Program, pool: &Pool) -> Option<u64> {
    let threads = pool.threads().into_iter().enumerate();
    let found: Vec<u64> = threads
        .filter(|(_, thread)| overflows(program, thread))
        .map(|(number, _)| number as u64)
        .collect();
    rng.pick(&found)
}

fn preferred(rng: &mut Rng, threads: &[usize], order: Order) -> Option<usize> {
    match order {
        Order::First if rng.chance(80) => threads.first().copied(),
        Order::Last if rng.chance(80) => threads.last().copied(),
        _ => rng.pick(threads),
    }
}

/// The choices of a guided run from a pool, most of them made; the refused
/// ones are left out, but for the last if `refused`, often a step that overflows.
pub fn guided_schedule(
    rng: &mut Rng,
    program: &Program,
    start: &Pool,
    length: usize,
    refused: bool,
) -> Vec<Choice> {
    let policy = Policy::random(rng);
    let mut pool = start.clone();
    let mut choices = Vec::new();
    for _ in 0..length {
        let choice = guided_choice(rng, program, &pool, policy);
        if crate::rules::choose(program, &mut pool, choice.0, choice.1).is_ok() {
            choices.push(choice);
        }
    }
    if refused {
        let over = overflowing(rng, program, &pool).filter(|_| rng.chance(60));
        choices.push(over.map_or_else(|| blind_choice(rng), |thread| (STEP, thread)));
    }
    choices
}
