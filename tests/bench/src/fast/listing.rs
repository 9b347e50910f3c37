//! The listings: one pass over the words, straight into the output where that has
//! room for any listing, else by a buffer.

use super::layout::{start_of, Pool, FRAME, FRAMES};
use super::places::Places;
use super::read::read_into;
use super::{valid, Refusal};

/// Room for every listing.
const BYTES: usize = 2048;

/// The operator's listing, at the start of `out`: its length.
#[inline(never)]
pub fn operator(table: &[u8], pool: &[i32], out: &mut [u8]) -> Result<usize, Refusal> {
    list::<false>(table, pool, out)
}

/// The customer's, which has the values too.
#[inline(never)]
pub fn customer(table: &[u8], pool: &[i32], out: &mut [u8]) -> Result<usize, Refusal> {
    list::<true>(table, pool, out)
}

#[inline(always)]
fn list<const VALUES: bool>(table: &[u8], pool: &[i32], out: &mut [u8]) -> Result<usize, Refusal> {
    let mut places = Places::new();
    read_into(table, &mut places)?;
    let pool = valid(table, &places, pool)?;
    if let Some(out) = out.first_chunk_mut() {
        return Ok(lines::<VALUES>(pool, out));
    }
    let mut buffer = [0; BYTES];
    let length = lines::<VALUES>(pool, &mut buffer);
    let out = out.get_mut(..length).ok_or(Refusal::Plain(28))?;
    out.copy_from_slice(&buffer[..length]);
    Ok(length)
}

/// The lines of all threads of a pool, and their length.
#[inline(always)]
fn lines<const VALUES: bool>(pool: &Pool, bytes: &mut [u8; BYTES]) -> usize {
    let mut text = Text { bytes, at: 0 };
    let mut way = Way::default();
    for thread in 0..pool[0] as usize {
        let at = start_of(thread);
        let count = pool[at] as usize;
        let frames = &pool[at + FRAMES..][..FRAME * count];
        for _ in 0..way.depth {
            text.byte(b' ');
        }
        text.byte(b'0' + thread as u8);
        text.number(count as u32);
        text.frame::<VALUES>(&frames[FRAME * (count - 1)..]);
        way.go_on(frames.chunks_exact(FRAME).map(|frame| frame[5]).sum());
    }
    text.at
}

/// The way from the root to a thread: how many children of each thread on it are
/// still to come, and how many threads are above.
#[derive(Default)]
struct Way {
    due: [i32; 8],
    depth: usize,
}

impl Way {
    /// The way to the next thread, behind one with so many children.
    #[inline(always)]
    fn go_on(&mut self, children: i32) {
        if children > 0 {
            self.due[self.depth % 8] = children;
            self.depth += 1;
            return;
        }
        while self.depth > 0 {
            let due = &mut self.due[(self.depth - 1) % 8];
            *due -= 1;
            if *due > 0 {
                return;
            }
            self.depth -= 1;
        }
    }
}

/// Bytes, and where the next one goes.
struct Text<'a> {
    bytes: &'a mut [u8; BYTES],
    at: usize,
}

impl Text<'_> {
    #[inline(always)]
    fn byte(&mut self, byte: u8) {
        self.bytes[self.at % BYTES] = byte;
        self.at += 1;
    }

    /// The rest of the line of a thread with this newest frame.
    #[inline(always)]
    fn frame<const VALUES: bool>(&mut self, frame: &[i32]) {
        for at in [0, 1, 2, 4, 5] {
            self.number(frame[at] as u32);
        }
        if VALUES {
            let mut bound = frame[3] as u32;
            while bound != 0 {
                let temporary = bound.trailing_zeros();
                self.number(temporary);
                self.value(frame[10 + (temporary as usize & 15)]);
                bound &= bound - 1;
            }
        }
        self.byte(b'\n');
    }

    /// A space, and a number below 100.
    #[inline(always)]
    fn number(&mut self, number: u32) {
        self.byte(b' ');
        if number >= 10 {
            self.byte(b'0' + (number / 10) as u8);
        }
        self.byte(b'0' + (number % 10) as u8);
    }

    /// A space, and a value.
    #[inline(always)]
    fn value(&mut self, value: i32) {
        self.byte(b' ');
        if value < 0 {
            self.byte(b'-');
        }
        let mut rest = value.unsigned_abs();
        let digits = (rest | 1).ilog10() as usize + 1;
        let mut end = self.at + digits;
        self.at = end;
        while rest >= 10 {
            end -= 1;
            self.bytes[end % BYTES] = b'0' + (rest % 10) as u8;
            rest /= 10;
        }
        self.bytes[(end - 1) % BYTES] = b'0' + rest as u8;
    }
}
