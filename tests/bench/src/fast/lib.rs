//! An implementation written for speed: over the table's bytes and the pool's
//! words in place, with one array of places and no allocation.

mod check;
mod complete;
mod depth;
mod judge;
mod layout;
mod listing;
mod machine;
mod places;
mod read;
mod rules;
mod tidy;
mod tokens;

pub use check::check;
pub use complete::complete;
pub use depth::depth;
pub use layout::POOL_WORDS;
pub use listing::{customer, operator};
pub use machine::Fast;
pub use tidy::tidy;

use judge::is_pool;
use layout::Pool;
use places::Places;
use read::read_into;
use rules::Code;
use tokens::Earning;

/// A choice of a schedule: a kind and a thread.
#[derive(Clone, Copy, Debug, PartialEq, Eq)]
pub struct Choice {
    pub kind: u32,
    pub thread: u32,
}

/// What steps earn: `c` tokens for every `n` steps of a thread.
#[derive(Clone, Copy, Debug, PartialEq, Eq)]
pub struct Pace {
    pub n: u32,
    pub c: u32,
}

/// How many steps and promotions a run made.
#[derive(Clone, Copy, Debug, PartialEq, Eq)]
pub struct Ran {
    pub steps: u64,
    pub promotions: u64,
}

/// A refusal: its number, and its place where it has one.
#[derive(Clone, Copy, Debug, PartialEq, Eq)]
pub enum Refusal {
    Plain(u8),
    Byte(usize),
    Fault(u8, u8, u8),
}

/// Does the table read?
#[inline(never)]
pub fn read(table: &[u8]) -> Result<(), Refusal> {
    read_into(table, &mut Places::new())
}

/// Makes the words a fresh pool of the table.
#[inline(never)]
pub fn start(table: &[u8], pool: &mut [i32]) -> Result<(), Refusal> {
    read_into(table, &mut Places::new())?;
    if pool.len() != POOL_WORDS {
        return Err(Refusal::Plain(12));
    }
    pool.fill(0);
    pool[0] = 1;
    pool[1] = 1;
    Ok(())
}

/// One choice: the rule, or the refusal with the words as they were.
#[inline(never)]
pub fn choose(table: &[u8], pool: &mut [i32], kind: u32, thread: u32) -> Result<u8, Refusal> {
    let mut places = Places::new();
    read_into(table, &mut places)?;
    let pool = valid_mut(table, &places, pool)?;
    Code::new(table, &places)
        .choose(pool, kind, thread)
        .map_err(Refusal::Plain)
}

/// The first thread whose step makes a rule.
#[inline(never)]
pub fn which(table: &[u8], pool: &[i32]) -> Result<Option<usize>, Refusal> {
    let mut places = Places::new();
    read_into(table, &mut places)?;
    let pool = valid(table, &places, pool)?;
    Ok(Code::new(table, &places).stepper(pool))
}

/// How many values main has, with that many of `room` written, or none while
/// they are open.
#[inline(never)]
pub fn values(table: &[u8], pool: &[i32], room: &mut [i32; 4]) -> Result<Option<usize>, Refusal> {
    let mut places = Places::new();
    read_into(table, &mut places)?;
    let pool = valid(table, &places, pool)?;
    Ok(Code::new(table, &places).ended(pool, 0).map(|values| {
        let values = values.given();
        room[..values.len()].copy_from_slice(values);
        values.len()
    }))
}

/// Choices up to the first refusal: how many were made, and that refusal.
#[inline(never)]
pub fn schedule(table: &[u8], pool: &mut [i32], choices: &[Choice]) -> (u64, Result<(), Refusal>) {
    let mut places = Places::new();
    if let Err(refusal) = read_into(table, &mut places) {
        return (0, Err(refusal));
    }
    let pool = match valid_mut(table, &places, pool) {
        Ok(pool) => pool,
        Err(refusal) => return (0, Err(refusal)),
    };
    let code = Code::new(table, &places);
    for (made, choice) in choices.iter().enumerate() {
        if let Err(number) = code.choose(pool, choice.kind, choice.thread) {
            return (made as u64, Err(Refusal::Plain(number)));
        }
    }
    (choices.len() as u64, Ok(()))
}

/// One beat: the rule of its step and the number of promotions, or the refusal
/// with the words as they were.
#[inline(never)]
pub fn beat(table: &[u8], pool: &mut [i32], pace: Pace, thread: u32) -> Result<(u8, u32), Refusal> {
    let mut places = Places::new();
    read_into(table, &mut places)?;
    let pool = valid_mut(table, &places, pool)?;
    let earning = Earning::of(pace)?;
    Code::new(table, &places)
        .beat(pool, earning, thread)
        .map_err(Refusal::Plain)
}

/// A beat of each thread of a list, up to the first refusal: what was made, and
/// that refusal.
#[inline(never)]
pub fn run(
    table: &[u8],
    pool: &mut [i32],
    pace: Pace,
    threads: &[u32],
) -> (Ran, Result<(), Refusal>) {
    let mut made = Ran {
        steps: 0,
        promotions: 0,
    };
    let answer = beats(table, pool, pace, threads, &mut made);
    (made, answer)
}

fn beats(
    table: &[u8],
    pool: &mut [i32],
    pace: Pace,
    threads: &[u32],
    made: &mut Ran,
) -> Result<(), Refusal> {
    let mut places = Places::new();
    read_into(table, &mut places)?;
    let pool = valid_mut(table, &places, pool)?;
    let earning = Earning::of(pace)?;
    let code = Code::new(table, &places);
    for &thread in threads {
        let (_, promotions) = code.beat(pool, earning, thread).map_err(Refusal::Plain)?;
        made.steps += 1;
        made.promotions += u64::from(promotions);
    }
    Ok(())
}

/// The words, if they are a pool of the table.
#[inline(always)]
fn valid<'a>(table: &[u8], places: &Places, pool: &'a [i32]) -> Result<&'a Pool, Refusal> {
    let pool = pool.try_into().map_err(|_| Refusal::Plain(12))?;
    if is_pool(table, places, pool) {
        Ok(pool)
    } else {
        Err(Refusal::Plain(13))
    }
}

fn valid_mut<'a>(
    table: &[u8],
    places: &Places,
    pool: &'a mut [i32],
) -> Result<&'a mut Pool, Refusal> {
    valid(table, places, pool)?;
    pool.try_into().map_err(|_| Refusal::Plain(12))
}
