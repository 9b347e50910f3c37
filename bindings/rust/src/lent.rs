//! The calls on memory that the caller has: a table is any bytes and a pool any words, of any number. [`Pool`](crate::Pool) has
//! the same calls on words of its own.

use crate::raw::{self, Choice};
use crate::refusal::answered;
use crate::{Beat, Pace, Ran, Refusal, Rule};

/// The value of `mezdaulk_which` where no thread can step, and of `mezdaulk_values` while main's values are open.
const NO_THREAD: u32 = 8;
const OPEN: u32 = 255;

/// Does the table read? Refused: 1 to 3.
///
/// ```
/// use mezdaulk::{read, Place, Reason};
/// let refusal = read(&[0, 0, 0, 6, 1, 0]).unwrap_err();
/// assert_eq!((refusal.reason(), refusal.place()), (Reason::Form, Some(Place::Byte(5))));
/// ```
pub fn read(table: &[u8]) -> Result<(), Refusal> {
    // Safety: the slice is valid for its length, and the library reads nothing else.
    answered(unsafe { raw::mezdaulk_read(table.as_ptr(), table.len()) }).map(|_| ())
}

/// Is the table well formed? Refused: the first of 1 to 11 in document 01's order.
///
/// ```
/// use mezdaulk::{check, Reason};
/// assert_eq!(check(&[]).unwrap_err().reason(), Reason::Size);
/// ```
pub fn check(table: &[u8]) -> Result<(), Refusal> {
    // Safety: as in `read`.
    answered(unsafe { raw::mezdaulk_check(table.as_ptr(), table.len()) }).map(|_| ())
}

/// How many frames a chain of calls can need, 1 to 16: the most over every function as the first and the calls of all blocks,
/// reached or not. Where it is at most 8, no choice on a pool started from the table gets 18
/// ([`Reason::Frames`](crate::Reason::Frames)), and main has returned, or some thread can step, or a step of some thread gets 29. Refused:
/// 1 to 11 as by [`check`]; 22 where some function reaches itself by calls.
///
/// ```
/// use mezdaulk::{check, depth, Reason};
///
/// // Main calls function 1, and both return nothing.
/// let mut table = [
///     0, 0, 0, 37, 1, 2, 0, 0, 2, 0, 0, 0, 0, 0, 0, 2, 1, 0, 1, 0, 0, 0, 0, 0, 3, 0, 0, 0, 1, 0, 0, 0, 0, 0, 0, 3, 0,
/// ];
/// assert_eq!(depth(&table), Ok(2));
///
/// // Main calls itself.
/// table[16] = 0;
/// assert_eq!(check(&table), Ok(()));
/// assert_eq!(depth(&table).unwrap_err().reason(), Reason::Cycle);
/// ```
pub fn depth(table: &[u8]) -> Result<u8, Refusal> {
    // Safety: as in `read`.
    answered(unsafe { raw::mezdaulk_depth(table.as_ptr(), table.len()) }).map(|frames| frames as u8)
}

/// Writes the tidy table of a table that [`check`] accepts at the start of `out`, and gives its length, which is never more than the
/// table's; `out` behind it stays. [`tidy`](crate::tidy()) gives it in bytes of its own. Refused, and nothing is written: 1 to 11 as by
/// [`check`]; 23 where `out` is shorter than the tidy table.
///
/// ```
/// use mezdaulk::{lent, Reason};
///
/// // One block that returns.
/// let table = [0, 0, 0, 17, 1, 1, 0, 0, 1, 0, 0, 0, 0, 0, 0, 3, 0];
/// let mut out = [9; 18];
/// assert_eq!(lent::tidy(&table, &mut out[..16]).unwrap_err().reason(), Reason::Room);
/// assert_eq!(lent::tidy(&table, &mut out), Ok(17));
/// assert_eq!((&out[..17], out[17]), (&table[..], 9));
/// ```
pub fn tidy(table: &[u8], out: &mut [u8]) -> Result<usize, Refusal> {
    // Safety: both slices are valid for their lengths, and the output, which overlaps no other, is lent for writing alone.
    answered(unsafe {
        raw::mezdaulk_tidy(table.as_ptr(), table.len(), out.as_mut_ptr(), out.len())
    })
    .map(|length| length as usize)
}

/// Completes a table of version 2, which has neither the scope nor the nesting of any block: writes it as a table of version 1 with the
/// smallest scopes, and 0 behind it, and gives its length. `out` has [`OUTPUT_BYTES`](crate::OUTPUT_BYTES) bytes and `scratch` at least
/// [`SCRATCH_WORDS`](crate::SCRATCH_WORDS) words, whatever they hold. [`complete`](crate::complete()) gives it in bytes of its own.
/// Refused, and nothing is written: 1 to 3, 24. Refused: 25 for the lowest block that transfers from its function's entry do not reach;
/// 26 for the lowest function that no scopes and nestings make well formed. Given or after 25 and 26 the first 1,024 words of `scratch` are
/// 0, and further ones as they were; `out` is written only where it is given.
///
/// ```
/// use mezdaulk::{lent, Reason, OUTPUT_BYTES, SCRATCH_WORDS};
///
/// // Main goes to a block that returns.
/// let table = [0, 0, 0, 19, 2, 1, 0, 0, 2, 0, 0, 0, 0, 1, 0, 0, 0, 3, 0];
/// let (mut out, mut scratch) = (vec![9; OUTPUT_BYTES], vec![9; SCRATCH_WORDS + 1]);
/// let refusal = lent::complete(&table, &mut out, &mut scratch[..SCRATCH_WORDS - 1]).unwrap_err();
/// assert_eq!(refusal.reason(), Reason::Lent);
/// assert_eq!(lent::complete(&table, &mut out, &mut scratch), Ok(25));
/// assert_eq!(out[..25], [0, 0, 0, 25, 1, 1, 0, 0, 2, 0, 0, 0, 0, 0, 0, 0, 1, 0, 0, 0, 0, 0, 0, 3, 0]);
/// assert!(out[25..].iter().all(|&byte| byte == 0));
/// assert_eq!((scratch[0], scratch[SCRATCH_WORDS]), (0, 9));
/// ```
pub fn complete(table: &[u8], out: &mut [u8], scratch: &mut [u32]) -> Result<usize, Refusal> {
    // Safety: all three slices are valid for their lengths, and those that are lent for writing overlap no other.
    answered(unsafe {
        raw::mezdaulk_complete(
            table.as_ptr(),
            table.len(),
            out.as_mut_ptr(),
            out.len(),
            scratch.as_mut_ptr(),
            scratch.len(),
        )
    })
    .map(|length| length as usize)
}

/// Makes the words a fresh pool of the table. Refused: 1 to 3, 12.
pub fn start(table: &[u8], pool: &mut [i32]) -> Result<(), Refusal> {
    // Safety: both slices are valid for their lengths, and the pool is lent for writing alone.
    answered(unsafe {
        raw::mezdaulk_start(table.as_ptr(), table.len(), pool.as_mut_ptr(), pool.len())
    })
    .map(|_| ())
}

/// One choice. Refused: 1 to 3, 12 to 21; a step also 29, where the sum or the negation that it works out does not fit in 32 bits.
///
/// ```
/// use mezdaulk::{lent, Choice, Pool, Reason};
///
/// // One statement, 2147483647 + 1, and a return.
/// let table = [
///     0, 0, 0, 30, 1, 1, 0, 1, 1, 0, 0, 0, 0, 0, 1, 0, 2, 0, 127, 255, 255, 255, 0, 0, 0, 0, 1, 3, 1, 0,
/// ];
/// let mut words = [0; Pool::WORDS];
/// lent::start(&table, &mut words)?;
/// let refusal = lent::choose(&table, &mut words, Choice::step(0)).unwrap_err();
/// assert_eq!(refusal.reason(), Reason::Overflow);
/// assert_eq!(lent::which(&table, &words)?, None);
/// # Ok::<(), mezdaulk::Refusal>(())
/// ```
pub fn choose(table: &[u8], pool: &mut [i32], choice: Choice) -> Result<Rule, Refusal> {
    // Safety: as in `start`.
    answered(unsafe {
        raw::mezdaulk_choose(
            table.as_ptr(),
            table.len(),
            pool.as_mut_ptr(),
            pool.len(),
            choice.kind,
            choice.thread,
        )
    })
    .map(|number| rule(number as u8))
}

fn rule(number: u8) -> Rule {
    Rule::try_from(number).expect("the library makes one of rules 1 to 10")
}

/// Choices up to the first refusal: how many were made, and that refusal, 1 to 3, 12 to 21 or 29.
pub fn schedule(
    table: &[u8],
    pool: &mut [i32],
    choices: &[Choice],
) -> (usize, Result<(), Refusal>) {
    // The library writes the number either way; no list has so many.
    let mut made = u64::MAX;
    // Safety: as in `start`; the choices are valid for their number, and one count is lent for writing.
    let answer = unsafe {
        raw::mezdaulk_schedule(
            table.as_ptr(),
            table.len(),
            pool.as_mut_ptr(),
            pool.len(),
            choices.as_ptr(),
            choices.len(),
            &mut made,
        )
    };
    (made as usize, answered(answer).map(|_| ()))
}

/// One beat: a step of a thread with the tokens that it earns, then promotions for them. Refused: 1 to 3, 12, 13, 27, and 15 to
/// 19 or 29 as a step is. [`Pool::beat`](crate::Pool::beat) says what it does.
///
/// ```
/// use mezdaulk::{lent, Beat, Pace, Pool, Reason, Rule};
///
/// // One statement, 2 + 3, and a return.
/// let table = [
///     0, 0, 0, 30, 1, 1, 0, 1, 1, 0, 0, 0, 0, 0, 1, 0, 2, 0, 0, 0, 0, 2, 0, 0, 0, 0, 3, 3, 1, 0,
/// ];
/// let mut words = [0; Pool::WORDS];
/// lent::start(&table, &mut words)?;
/// let refusal = lent::beat(&table, &mut words, Pace { n: 1, c: 256 }, 0).unwrap_err();
/// assert_eq!(refusal.reason(), Reason::Pace);
/// let made = lent::beat(&table, &mut words, Pace { n: 1, c: 255 }, 0)?;
/// assert_eq!(made, Beat { rule: Rule::Stmt, promotions: 0 });
/// // One step is enough for 255 tokens, and there is nothing to promote.
/// assert_eq!(words[1..4], [1, 0, 255]);
/// # Ok::<(), mezdaulk::Refusal>(())
/// ```
pub fn beat(table: &[u8], pool: &mut [i32], pace: Pace, thread: u32) -> Result<Beat, Refusal> {
    // Safety: as in `start`.
    answered(unsafe {
        raw::mezdaulk_beat(
            table.as_ptr(),
            table.len(),
            pool.as_mut_ptr(),
            pool.len(),
            thread,
            pace.n,
            pace.c,
        )
    })
    .map(|value| Beat {
        rule: rule(value as u8),
        promotions: value >> 8,
    })
}

/// A beat of each thread of a list, up to the first refusal: the steps and promotions made, and that refusal, 1 to 3, 12, 13, 27, 15
/// to 19 or 29.
pub fn run(
    table: &[u8],
    pool: &mut [i32],
    pace: Pace,
    threads: &[u32],
) -> (Ran, Result<(), Refusal>) {
    // The library writes both numbers either way; no list has so many.
    let mut made = [u64::MAX; 2];
    // Safety: as in `start`; the threads are valid for their number, and two counts are lent for writing.
    let answer = unsafe {
        raw::mezdaulk_run(
            table.as_ptr(),
            table.len(),
            pool.as_mut_ptr(),
            pool.len(),
            pace.n,
            pace.c,
            threads.as_ptr(),
            threads.len(),
            made.as_mut_ptr(),
        )
    };
    let [steps, promotions] = made;
    (Ran { steps, promotions }, answered(answer).map(|_| ()))
}

/// The lowest-numbered thread whose step makes a rule, or none exactly if there is none. Refused: 1 to 3, 12, 13. Where it is none of a
/// pool started from a table that [`check`] accepts, main has returned or a step of some thread gets 18 or 29.
pub fn which(table: &[u8], pool: &[i32]) -> Result<Option<u32>, Refusal> {
    // Safety: both slices are valid for their lengths, and nothing is written.
    answered(unsafe { raw::mezdaulk_which(table.as_ptr(), table.len(), pool.as_ptr(), pool.len()) })
        .map(|thread| (thread != NO_THREAD).then_some(thread))
}

/// How many values main has, 0 to 4, with that many of `room` written; or none while main has not returned. Refused: 1 to 3,
/// 12, 13.
pub fn values(table: &[u8], pool: &[i32], room: &mut [i32; 4]) -> Result<Option<usize>, Refusal> {
    // Safety: as in `which`; four values are lent for writing.
    answered(unsafe {
        raw::mezdaulk_values(
            table.as_ptr(),
            table.len(),
            pool.as_ptr(),
            pool.len(),
            room.as_mut_ptr(),
        )
    })
    .map(|count| (count != OPEN).then_some(count as usize))
}

/// Writes the operator's listing of the pool at the start of `out`, and gives its length; `out` behind it stays.
/// [`Pool::operator`](crate::Pool::operator) says what it has, and gives it as a text of its own. An `out` of
/// [`LISTING_BYTES`](crate::LISTING_BYTES) has room for every listing. Refused, and nothing is written: 1 to 3, 12, 13; 28 where `out` is
/// shorter than the listing.
///
/// ```
/// use mezdaulk::{lent, Pool, Reason};
///
/// // One statement, 2 + 3, and a return.
/// let table = [
///     0, 0, 0, 30, 1, 1, 0, 1, 1, 0, 0, 0, 0, 0, 1, 0, 2, 0, 0, 0, 0, 2, 0, 0, 0, 0, 3, 3, 1, 0,
/// ];
/// let mut words = [0; Pool::WORDS];
/// lent::start(&table, &mut words)?;
/// let mut out = *b"................";
/// assert_eq!(lent::operator(&table, &words, &mut out[..13]).unwrap_err().reason(), Reason::Listing);
/// assert_eq!(lent::operator(&table, &words, &mut out)?, 14);
/// assert_eq!(out, *b"0 1 0 0 0 0 0\n..");
/// # Ok::<(), mezdaulk::Refusal>(())
/// ```
pub fn operator(table: &[u8], pool: &[i32], out: &mut [u8]) -> Result<usize, Refusal> {
    // Safety: all three slices are valid for their lengths, and the output, which overlaps no other, is lent for writing alone.
    answered(unsafe {
        raw::mezdaulk_operator(
            table.as_ptr(),
            table.len(),
            pool.as_ptr(),
            pool.len(),
            out.as_mut_ptr(),
            out.len(),
        )
    })
    .map(|length| length as usize)
}

/// Writes the customer's listing of the pool in the same way; 28 goes by the length of this listing.
/// [`Pool::customer`](crate::Pool::customer) says what it has.
pub fn customer(table: &[u8], pool: &[i32], out: &mut [u8]) -> Result<usize, Refusal> {
    // Safety: as in `operator`.
    answered(unsafe {
        raw::mezdaulk_customer(
            table.as_ptr(),
            table.len(),
            pool.as_ptr(),
            pool.len(),
            out.as_mut_ptr(),
            out.len(),
        )
    })
    .map(|length| length as usize)
}
