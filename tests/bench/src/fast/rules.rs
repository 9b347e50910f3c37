//! The rules on a valid pool, in place: what a step does is found first, then
//! written.

use super::layout::{start_of, Pool, FRAME, FRAMES, THREAD, TOKENS};
use super::places::Places;
use super::tokens::Earning;

/// Words of a frame.
const FUNCTION: usize = 0;
const BLOCK: usize = 1;
const DONE: usize = 2;
const BOUND: usize = 3;
const OPEN: usize = 4;
const PROMOTED: usize = 5;
const CALLS: usize = 6;
const VALUES: usize = 10;

const STUCK: u8 = 19;
const OVERFLOW: u8 = 29;
/// The rule of a join.
const PROM: u8 = 9;

type Frame = [i32; FRAME];

/// Up to eight values.
#[derive(Clone, Copy)]
pub struct Values {
    count: usize,
    at: [i32; 8],
}

impl Values {
    pub fn given(&self) -> &[i32] {
        &self.at[..self.count]
    }
}

/// What a step does, with the numbers of the blocks it goes to and the offsets
/// of the parameters that it binds.
enum Act {
    Statement(u8, i32),
    Goto(u8, usize, Values),
    Branch(u8, u8),
    Call(u8, u8, Values),
    Return(usize, Values),
    Spork(u8, u8),
    Unpromoted(u8),
    Promoted(u8, usize, Values),
}

/// A table that was read, and its places.
#[derive(Clone, Copy)]
pub struct Code<'a> {
    t: &'a [u8],
    places: &'a Places,
}

/// Where a thread's newest frame begins.
#[inline(always)]
fn newest(pool: &Pool, thread: usize) -> usize {
    let at = start_of(thread);
    at + FRAMES + FRAME * (pool[at] as usize - 1)
}

#[inline(always)]
fn frame(pool: &Pool, at: usize) -> &Frame {
    pool[at..at + FRAME].try_into().expect("26 words")
}

#[inline(always)]
fn frame_mut(pool: &mut Pool, at: usize) -> &mut Frame {
    (&mut pool[at..at + FRAME]).try_into().expect("26 words")
}

#[inline(always)]
fn set(frame: &mut Frame, temporary: u8, value: i32) {
    let t = usize::from(temporary & 15);
    frame[BOUND] |= 1 << t;
    frame[VALUES + t] = value;
}

#[inline(always)]
fn jump(frame: &mut Frame, block: u8) {
    frame[BLOCK] = block.into();
    frame[DONE] = 0;
}

impl<'a> Code<'a> {
    pub fn new(t: &'a [u8], places: &'a Places) -> Self {
        Code { t, places }
    }

    /// One choice.
    #[inline]
    pub fn choose(self, pool: &mut Pool, kind: u32, thread: u32) -> Result<u8, u8> {
        if kind > 1 {
            return Err(14);
        }
        if thread >= pool[0] as u32 {
            return Err(15);
        }
        if kind == 0 {
            self.step(pool, thread as usize)
        } else {
            self.promote(pool, thread as usize)
        }
    }

    /// One beat: the rule of its step, and how many promotions it made.
    #[inline(always)]
    pub fn beat(self, pool: &mut Pool, earning: Earning, thread: u32) -> Result<(u8, u32), u8> {
        if thread >= pool[0] as u32 {
            return Err(15);
        }
        let thread = thread as usize;
        let (own, next) = (start_of(thread), start_of(thread + 1));
        let behind = pool.get(next + TOKENS).copied().unwrap_or(0);
        let rule = self.step(pool, thread)?;
        let handed = if rule == PROM { behind } else { 0 };
        let mut tokens = earning.after_step(pool, own, handed);
        let mut promotions = 0;
        while tokens > 0 && pool[0] < 8 && self.promote(pool, thread).is_ok() {
            tokens -= 1;
            let share = tokens / 2;
            pool[next + TOKENS] = share;
            tokens -= share;
            promotions += 1;
        }
        pool[own + TOKENS] = tokens;
        Ok((rule, promotions))
    }

    /// The first thread that can step.
    pub fn stepper(self, pool: &Pool) -> Option<usize> {
        (0..pool[0] as usize).find(|&thread| self.act(pool, thread).is_ok())
    }

    /// The values of an ended thread.
    pub fn ended(self, pool: &Pool, thread: usize) -> Option<Values> {
        if pool[start_of(thread)] != 1 {
            return None;
        }
        let frame = frame(pool, start_of(thread) + FRAMES);
        let (at, left) = self.next(frame);
        if left || self.t[at] != 3 || frame[OPEN] != 0 {
            return None;
        }
        self.gather(frame, at + 1)
    }

    /// The offset of the transfer of the block that begins at an offset.
    #[inline(always)]
    pub fn transfer(self, head: usize) -> usize {
        let nesting = head + usize::from(self.t[head]) + 3;
        let code = nesting + usize::from(self.t[nesting]) + 1;
        (0..self.t[code]).fold(code + 1, |at, _| self.expression_end(at + 1))
    }

    /// The offset of what a frame does next, and whether that is a statement.
    #[inline(always)]
    fn next(self, frame: &Frame) -> (usize, bool) {
        let (f, b) = (frame[FUNCTION] as usize, frame[BLOCK] as usize);
        let t = self.t;
        let head = self.places.block(f, b).unwrap_or(0);
        let nesting = head + usize::from(t[head]) + 3;
        let code = nesting + usize::from(t[nesting]) + 1;
        let mut at = code + 1;
        for _ in 0..frame[DONE] {
            at = self.expression_end(at + 1);
        }
        (at, frame[DONE] < i32::from(t[code]))
    }

    #[inline(always)]
    fn atom_end(self, at: usize) -> usize {
        if self.t[at] == 0 {
            at + 5
        } else {
            at + 2
        }
    }

    #[inline(always)]
    pub fn expression_end(self, at: usize) -> usize {
        let end = self.atom_end(at + 1);
        if self.t[at] < 2 {
            end
        } else {
            self.atom_end(end)
        }
    }

    #[inline(always)]
    fn look(self, frame: &Frame, temporary: u8) -> Option<i32> {
        let t = usize::from(temporary & 15);
        (frame[BOUND] >> t & 1 == 1).then_some(frame[VALUES + t])
    }

    #[inline(always)]
    fn atom(self, frame: &Frame, at: usize) -> Option<(i32, usize)> {
        let t = self.t;
        if t[at] == 0 {
            let bytes = t[at + 1..at + 5].try_into().expect("four bytes");
            Some((i32::from_be_bytes(bytes), at + 5))
        } else {
            Some((self.look(frame, t[at + 1])?, at + 2))
        }
    }

    /// An expression's value, and where it ends; or the number of its refusal.
    #[inline(always)]
    fn eval(self, frame: &Frame, at: usize) -> Result<(i32, usize), u8> {
        let (m, end) = self.atom(frame, at + 1).ok_or(STUCK)?;
        match self.t[at] {
            0 => Ok((m, end)),
            1 => Ok((m.checked_neg().ok_or(OVERFLOW)?, end)),
            kind => {
                let (n, end) = self.atom(frame, end).ok_or(STUCK)?;
                let value = if kind == 2 {
                    m.checked_add(n).ok_or(OVERFLOW)?
                } else {
                    i32::from(m < n)
                };
                Ok((value, end))
            }
        }
    }

    /// The values of an argument list, if all are bound.
    #[inline(always)]
    fn gather(self, frame: &Frame, at: usize) -> Option<Values> {
        let count = usize::from(self.t[at]);
        let mut values = Values { count, at: [0; 8] };
        let list = &self.t[at + 1..at + 1 + count];
        for (slot, &temporary) in values.at.iter_mut().zip(list) {
            *slot = self.look(frame, temporary)?;
        }
        Some(values)
    }

    /// Binds the parameters of a list.
    #[inline(always)]
    fn bind(self, frame: &mut Frame, at: usize, values: &Values) {
        let list = &self.t[at + 1..at + 1 + usize::from(self.t[at])];
        for (&temporary, &value) in list.iter().zip(&values.at) {
            set(frame, temporary, value);
        }
    }

    /// The offset of a block's parameters, if it takes `count`.
    #[inline(always)]
    fn taking(self, f: usize, block: u8, count: usize) -> Result<usize, u8> {
        let at = self.places.block(f, block.into()).ok_or(STUCK)?;
        if usize::from(self.t[at]) == count {
            Ok(at)
        } else {
            Err(STUCK)
        }
    }

    /// Whether a function takes `count` arguments.
    #[inline(always)]
    fn calling(self, function: u8, count: usize) -> Result<(), u8> {
        let at = self.places.function(function.into()).ok_or(STUCK)?;
        if usize::from(self.t[at]) == count {
            Ok(())
        } else {
            Err(STUCK)
        }
    }

    /// What a step of a thread does.
    #[inline(always)]
    fn act(self, pool: &Pool, thread: usize) -> Result<Act, u8> {
        let t = self.t;
        let start = newest(pool, thread);
        let own = frame(pool, start);
        let f = own[FUNCTION] as usize;
        let (at, left) = self.next(own);
        if left {
            let (value, _) = self.eval(own, at + 1)?;
            return Ok(Act::Statement(t[at], value));
        }
        let first = at + 1;
        match t[at] {
            0 => {
                let values = self.gather(own, first + 1).ok_or(STUCK)?;
                let parameters = self.taking(f, t[first], values.count)?;
                Ok(Act::Goto(t[first], parameters, values))
            }
            1 => {
                let (value, end) = self.eval(own, first)?;
                let (rule, block) = if value != 0 {
                    (3, t[end])
                } else {
                    (4, t[end + 1])
                };
                self.taking(f, block, 0)?;
                Ok(Act::Branch(rule, block))
            }
            2 => {
                let values = self.gather(own, first + 1).ok_or(STUCK)?;
                self.calling(t[first], values.count)?;
                let back = t[first + 2 + values.count];
                self.places.block(f, back.into()).ok_or(STUCK)?;
                if pool[start_of(thread)] == 8 {
                    return Err(18);
                }
                Ok(Act::Call(t[first], back, values))
            }
            3 => {
                let values = self.gather(own, first).ok_or(STUCK)?;
                if own[OPEN] != 0 {
                    return Err(STUCK);
                }
                if pool[start_of(thread)] == 1 {
                    return Err(16);
                }
                let caller = frame(pool, start - FRAME);
                let block = caller[BLOCK] as u8;
                let parameters = self.taking(caller[FUNCTION] as usize, block, values.count)?;
                Ok(Act::Return(parameters, values))
            }
            4 => {
                self.places.spawn(f, t[first + 1].into()).ok_or(STUCK)?;
                self.taking(f, t[first], 0)?;
                if own[OPEN] > 3 {
                    return Err(STUCK);
                }
                Ok(Act::Spork(t[first], t[first + 1]))
            }
            _ if own[OPEN] == 0 => Err(STUCK),
            _ if own[PROMOTED] < own[OPEN] => {
                self.taking(f, t[first], 0)?;
                Ok(Act::Unpromoted(t[first]))
            }
            _ => {
                let values = self.ended(pool, thread + 1).ok_or(17)?;
                let parameters = self.taking(f, t[first + 1], values.count)?;
                Ok(Act::Promoted(t[first + 1], parameters, values))
            }
        }
    }

    #[inline(always)]
    fn step(self, pool: &mut Pool, thread: usize) -> Result<u8, u8> {
        let act = self.act(pool, thread)?;
        let start = newest(pool, thread);
        let own = frame_mut(pool, start);
        Ok(match act {
            Act::Statement(target, value) => {
                set(own, target, value);
                own[DONE] += 1;
                1
            }
            Act::Goto(block, parameters, values) => {
                jump(own, block);
                self.bind(own, parameters, &values);
                2
            }
            Act::Branch(rule, block) => {
                jump(own, block);
                rule
            }
            Act::Call(function, back, values) => {
                jump(own, back);
                pool[start_of(thread)] += 1;
                begin(frame_mut(pool, start + FRAME), function, &values);
                5
            }
            Act::Return(parameters, values) => {
                own.fill(0);
                pool[start_of(thread)] -= 1;
                self.bind(frame_mut(pool, start - FRAME), parameters, &values);
                6
            }
            Act::Spork(block, spawn) => {
                jump(own, block);
                own[CALLS + (own[OPEN] & 3) as usize] = spawn.into();
                own[OPEN] += 1;
                7
            }
            Act::Unpromoted(block) => {
                jump(own, block);
                close(own);
                8
            }
            Act::Promoted(block, parameters, values) => {
                jump(own, block);
                close(own);
                own[PROMOTED] -= 1;
                self.bind(own, parameters, &values);
                remove(pool, thread + 1);
                PROM
            }
        })
    }

    /// The oldest unpromoted call of a thread becomes a thread behind it.
    #[inline]
    fn promote(self, pool: &mut Pool, thread: usize) -> Result<u8, u8> {
        let own = start_of(thread);
        let holder = (0..pool[own] as usize)
            .map(|j| own + FRAMES + FRAME * j)
            .find(|&at| pool[at + PROMOTED] < pool[at + OPEN])
            .ok_or(20)?;
        if pool[0] == 8 {
            return Err(21);
        }
        let own = frame(pool, holder);
        let call = own[CALLS + (own[PROMOTED] & 3) as usize] as usize;
        let spawn = self
            .places
            .spawn(own[FUNCTION] as usize, call)
            .ok_or(STUCK)?;
        let function = self.t[spawn];
        let values = self.gather(own, spawn + 1).ok_or(STUCK)?;
        self.calling(function, values.count)?;
        pool[holder + PROMOTED] += 1;
        insert(pool, thread + 1);
        let child = start_of(thread + 1);
        pool[child] = 1;
        begin(frame_mut(pool, child + FRAMES), function, &values);
        Ok(10)
    }
}

/// A cleared frame at the entry of a function.
#[inline(always)]
fn begin(frame: &mut Frame, function: u8, values: &Values) {
    frame[FUNCTION] = function.into();
    frame[BOUND] = (1 << values.count) - 1;
    frame[VALUES..VALUES + 8].copy_from_slice(&values.at);
}

/// The newest open call is closed.
#[inline(always)]
fn close(frame: &mut Frame) {
    frame[OPEN] -= 1;
    frame[CALLS + (frame[OPEN] & 3) as usize] = 0;
}

/// The threads from a number on move up, and its words are cleared.
fn insert(pool: &mut Pool, thread: usize) {
    let at = start_of(thread);
    let end = start_of(pool[0] as usize);
    pool.copy_within(at..end, at + THREAD);
    pool[at..at + THREAD].fill(0);
    pool[0] += 1;
}

/// The threads behind a number move down over it.
fn remove(pool: &mut Pool, thread: usize) {
    let at = start_of(thread);
    let end = start_of(pool[0] as usize);
    pool.copy_within(at + THREAD..end, at);
    pool[end - THREAD..end].fill(0);
    pool[0] -= 1;
}
