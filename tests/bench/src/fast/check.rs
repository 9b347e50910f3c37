//! The check over the places: the first fault in order.

use super::places::Places;
use super::read::read_into;
use super::Refusal;

type Verdict = Result<(), u8>;

/// The block number for a fault in no block.
const NO_BLOCK: u8 = 255;

/// Is the table well formed?
#[inline(never)]
pub fn check(table: &[u8]) -> Result<(), Refusal> {
    check_into(table, &mut Places::new())
}

/// Reads a table into places that are all absent, and judges it.
#[inline]
pub fn check_into(table: &[u8], places: &mut Places) -> Result<(), Refusal> {
    read_into(table, places)?;
    let judge = Judge { t: table, places };
    judge.program()
}

/// A block's head: the offset of its parameters and of its nesting with their
/// numbers, its scope, and the offset behind.
#[derive(Clone, Copy)]
struct Head<'a> {
    parameters: &'a [u8],
    scope: u16,
    nesting: &'a [u8],
    behind: usize,
}

struct Judge<'a> {
    t: &'a [u8],
    places: &'a Places,
}

#[inline]
fn demand(holds: bool, number: u8) -> Verdict {
    if holds {
        Ok(())
    } else {
        Err(number)
    }
}

#[inline]
fn has(set: u16, temporary: u8) -> bool {
    set >> (temporary & 15) & 1 == 1
}

/// Are two nestings the same?
#[inline]
fn same(a: &[u8], b: &[u8]) -> bool {
    a.len() == b.len() && a.iter().zip(b).all(|(x, y)| x == y)
}

impl<'a> Judge<'a> {
    fn program(&self) -> Result<(), Refusal> {
        let t = self.t;
        if t[6] != 0 {
            return Err(Refusal::Fault(4, 0, NO_BLOCK));
        }
        for f in 0..usize::from(t[5]) {
            self.spawns(f)
                .map_err(|n| Refusal::Fault(n, f as u8, NO_BLOCK))?;
            for b in 0..32 {
                let Some(at) = self.places.block(f, b) else {
                    break;
                };
                self.block(f, b, at)
                    .map_err(|n| Refusal::Fault(n, f as u8, b as u8))?;
            }
        }
        Ok(())
    }

    fn spawns(&self, f: usize) -> Verdict {
        for k in 0..8 {
            let Some(at) = self.places.spawn(f, k) else {
                break;
            };
            let (parameters, _) = self.signature(self.t[at])?;
            demand(self.t[at + 1] == parameters, 9)?;
        }
        Ok(())
    }

    /// A function's numbers of parameters and returned values; 6 without it.
    #[inline]
    fn signature(&self, name: u8) -> Result<(u8, u8), u8> {
        let at = self.places.function(name.into()).ok_or(6)?;
        Ok((self.t[at], self.t[at + 1]))
    }

    #[inline]
    fn head(&self, at: usize) -> Head<'a> {
        let count = usize::from(self.t[at]);
        let (parameters, rest) = self.t[at + 1..].split_at(count);
        let depth = usize::from(rest[2]);
        Head {
            parameters,
            scope: u16::from_be_bytes([rest[0], rest[1]]),
            nesting: &rest[3..3 + depth],
            behind: at + 1 + count + 3 + depth,
        }
    }

    /// The head of a named block; 6 without it.
    #[inline]
    fn target(&self, f: usize, name: u8) -> Result<Head<'a>, u8> {
        Ok(self.head(self.places.block(f, name.into()).ok_or(6)?))
    }

    /// The argument list at an offset, all of it bound; 8 if not.
    #[inline]
    fn bound_list(&self, at: usize, bound: u16) -> Result<&'a [u8], u8> {
        let list = &self.t[at + 1..][..usize::from(self.t[at])];
        demand(list.iter().all(|&x| has(bound, x)), 8)?;
        Ok(list)
    }

    /// An expression that uses bound temporaries: where it ends, or 8.
    #[inline]
    fn expression(&self, at: usize, bound: u16) -> Result<usize, u8> {
        let end = self.atom(at + 1, bound)?;
        if self.t[at] < 2 {
            Ok(end)
        } else {
            self.atom(end, bound)
        }
    }

    #[inline]
    fn atom(&self, at: usize, bound: u16) -> Result<usize, u8> {
        if self.t[at] == 0 {
            return Ok(at + 5);
        }
        demand(has(bound, self.t[at + 1]), 8)?;
        Ok(at + 2)
    }

    fn block(&self, f: usize, b: usize, at: usize) -> Verdict {
        let head = self.head(at);
        if b == 0 {
            let (parameters, _) = self.signature(f as u8)?;
            let fits = head.parameters.is_empty()
                && head.nesting.is_empty()
                && head.scope == (1 << parameters) - 1;
            demand(fits, 5)?;
        }
        let mut bound = head.scope;
        for &x in head.parameters {
            demand(!has(bound, x), 7)?;
            bound |= 1 << (x & 15);
        }
        for &name in head.nesting {
            let at = self.places.spawn(f, name.into()).ok_or(6)?;
            self.bound_list(at + 1, head.scope).map_err(|_| 10)?;
        }
        let mut at = head.behind + 1;
        for _ in 0..self.t[head.behind] {
            let target = self.t[at];
            at = self.expression(at + 1, bound)?;
            demand(!has(bound, target), 7)?;
            bound |= 1 << (target & 15);
        }
        self.transfer(f, head.nesting, bound, at)
    }

    fn transfer(&self, f: usize, nesting: &[u8], bound: u16, at: usize) -> Verdict {
        let t = self.t;
        let first = at + 1;
        match t[at] {
            0 => {
                let list = self.bound_list(first + 1, bound)?;
                let block = self.target(f, t[first])?;
                self.one(&block, list.len(), nesting, bound)
            }
            1 => {
                let end = self.expression(first, bound)?;
                let then = self.target(f, t[end])?;
                let other = self.target(f, t[end + 1])?;
                self.two(&then, &other, 0, nesting, bound)
            }
            2 => {
                let list = self.bound_list(first + 1, bound)?;
                let (parameters, returns) = self.signature(t[first])?;
                let block = self.target(f, t[first + 2 + list.len()])?;
                demand(list.len() == usize::from(parameters), 9)?;
                self.one(&block, returns.into(), nesting, bound)
            }
            3 => {
                let list = self.bound_list(first, bound)?;
                let (_, returns) = self.signature(f as u8)?;
                demand(list.len() == usize::from(returns), 9)?;
                demand(nesting.is_empty(), 11)
            }
            4 => {
                let body = self.target(f, t[first])?;
                let spawn = t[first + 1];
                self.places.spawn(f, spawn.into()).ok_or(6)?;
                demand(body.parameters.is_empty(), 9)?;
                let grown = match body.nesting.split_last() {
                    Some((&last, outer)) => last == spawn && same(outer, nesting),
                    None => false,
                };
                demand(grown, 11)?;
                demand(body.scope & !bound == 0, 10)
            }
            _ => {
                let unpromoted = self.target(f, t[first])?;
                let promoted = self.target(f, t[first + 1])?;
                let (&last, outer) = nesting.split_last().ok_or(11)?;
                let spawn = self.places.spawn(f, last.into()).ok_or(6)?;
                let (_, returns) = self.signature(t[spawn])?;
                self.two(&unpromoted, &promoted, returns.into(), outer, bound)
            }
        }
    }

    /// One target: its count, its nesting, its scope.
    #[inline]
    fn one(&self, target: &Head, count: usize, nesting: &[u8], bound: u16) -> Verdict {
        demand(target.parameters.len() == count, 9)?;
        demand(same(target.nesting, nesting), 11)?;
        demand(target.scope & !bound == 0, 10)
    }

    /// Two targets, the first without parameters.
    #[inline]
    fn two(&self, a: &Head, b: &Head, count: usize, nesting: &[u8], bound: u16) -> Verdict {
        demand(a.parameters.is_empty() && b.parameters.len() == count, 9)?;
        demand(same(a.nesting, nesting) && same(b.nesting, nesting), 11)?;
        demand((a.scope | b.scope) & !bound == 0, 10)
    }
}
