//! The well-formedness check: faults 4 to 11 in their order.

use crate::refusal::{Refusal, NO_BLOCK};
use crate::table::{read, Block, Function, Name, Program, Temporary, Transfer};
use std::collections::BTreeSet;

/// A set of temporaries.
type Temporaries = BTreeSet<Temporary>;
/// The number of a fault, or nothing wrong.
type Verdict = Result<(), u8>;

const MAIN: u8 = 4;
const ENTRY: u8 = 5;
const NAME: u8 = 6;
const TWICE: u8 = 7;
const UNBOUND: u8 = 8;
const COUNT: u8 = 9;
const SCOPE: u8 = 10;
const NESTING: u8 = 11;

/// Reads a table and judges it; refusals 1 to 11.
pub fn check(table: &[u8]) -> Result<(), Refusal> {
    check_program(&read(table)?)
}

/// Judges a program that was read.
pub fn check_program(program: &Program) -> Result<(), Refusal> {
    if program.functions[0].parameters != 0 {
        return Err(Refusal::fault(MAIN, 0, NO_BLOCK));
    }
    for (f, function) in program.functions.iter().enumerate() {
        check_function(program, function).map_err(|(n, b)| Refusal::fault(n, f, b))?;
    }
    Ok(())
}

/// Judges a function among those of a program, of which only parameters and
/// returned values are looked at; gives the first fault with its block.
pub fn check_function(program: &Program, function: &Function) -> Result<(), (u8, usize)> {
    check_spawns(program, function).map_err(|n| (n, NO_BLOCK))?;
    for (b, block) in function.blocks.iter().enumerate() {
        let judge = Judge {
            program,
            function,
            block,
        };
        judge.verdict(b == 0).map_err(|n| (n, b))?;
    }
    Ok(())
}

/// Spawn calls one by one, the name before the count.
fn check_spawns(program: &Program, function: &Function) -> Verdict {
    for spawn in &function.spawns {
        let callee = program.function(spawn.function).ok_or(NAME)?;
        demand(
            spawn.arguments.len() == usize::from(callee.parameters),
            COUNT,
        )?;
    }
    Ok(())
}

fn demand(holds: bool, number: u8) -> Verdict {
    if holds {
        Ok(())
    } else {
        Err(number)
    }
}

/// What a transfer requires of one target block.
struct Target<'a> {
    block: &'a Block,
    /// The number of values brought.
    brought: usize,
    /// The nesting required.
    nesting: Vec<Name>,
}

/// One block being judged, with its function and program.
struct Judge<'a> {
    program: &'a Program,
    function: &'a Function,
    block: &'a Block,
}

impl<'a> Judge<'a> {
    fn verdict(&self, entry: bool) -> Verdict {
        if entry {
            self.entry()?;
        }
        self.parameters()?;
        self.nesting()?;
        let bound = self.statements()?;
        self.transfer(&bound)
    }

    /// An entry: no parameters, the function's parameters in scope, no nesting.
    fn entry(&self) -> Verdict {
        let own: Temporaries = (0..self.function.parameters).collect();
        let fits = self.block.parameters.is_empty()
            && self.block.scope == own
            && self.block.nesting.is_empty();
        demand(fits, ENTRY)
    }

    /// Parameters are distinct and outside the scope.
    fn parameters(&self) -> Verdict {
        let mut seen = self.block.scope.clone();
        for &parameter in &self.block.parameters {
            demand(seen.insert(parameter), TWICE)?;
        }
        Ok(())
    }

    /// Nesting entries one by one, the name before the scope.
    fn nesting(&self) -> Verdict {
        for &number in &self.block.nesting {
            let spawn = self.function.spawn(number).ok_or(NAME)?;
            let inside = spawn.arguments.iter().all(|t| self.block.scope.contains(t));
            demand(inside, SCOPE)?;
        }
        Ok(())
    }

    /// Statements, operands before target; gives what is bound at the transfer.
    fn statements(&self) -> Result<Temporaries, u8> {
        let mut bound = self.block.scope.clone();
        bound.extend(&self.block.parameters);
        for statement in &self.block.statements {
            all_bound(&statement.expression.temporaries(), &bound)?;
            demand(bound.insert(statement.target), TWICE)?;
        }
        Ok(bound)
    }

    /// The transfer: temporaries, names, counts, nesting, scope.
    fn transfer(&self, bound: &Temporaries) -> Verdict {
        all_bound(&self.block.transfer.temporaries(), bound)?;
        let targets = self.targets()?;
        self.own_count()?;
        for target in &targets {
            demand(target.block.parameters.len() == target.brought, COUNT)?;
        }
        if let Transfer::Return { .. } = self.block.transfer {
            demand(self.block.nesting.is_empty(), NESTING)?;
        }
        for target in &targets {
            demand(target.block.nesting == target.nesting, NESTING)?;
        }
        for target in &targets {
            demand(target.block.scope.is_subset(bound), SCOPE)?;
        }
        Ok(())
    }

    /// Resolves all names of the transfer, then a spoin's own nesting, and
    /// gives the target blocks from left to right with what they must take.
    fn targets(&self) -> Result<Vec<Target<'a>>, u8> {
        let same = || self.block.nesting.clone();
        match &self.block.transfer {
            Transfer::Goto { block, arguments } => Ok(vec![Target {
                block: self.named_block(*block)?,
                brought: arguments.len(),
                nesting: same(),
            }]),
            Transfer::If {
                then, otherwise, ..
            } => [then, otherwise]
                .into_iter()
                .map(|&name| {
                    Ok(Target {
                        block: self.named_block(name)?,
                        brought: 0,
                        nesting: same(),
                    })
                })
                .collect(),
            Transfer::Call {
                function,
                return_block,
                ..
            } => {
                let callee = self.program.function(*function).ok_or(NAME)?;
                Ok(vec![Target {
                    block: self.named_block(*return_block)?,
                    brought: usize::from(callee.returns),
                    nesting: same(),
                }])
            }
            Transfer::Return { .. } => Ok(Vec::new()),
            Transfer::Spork { body, spawn } => {
                let block = self.named_block(*body)?;
                self.function.spawn(*spawn).ok_or(NAME)?;
                let mut nesting = same();
                nesting.push(*spawn);
                Ok(vec![Target {
                    block,
                    brought: 0,
                    nesting,
                }])
            }
            Transfer::Spoin {
                unpromoted,
                promoted,
            } => {
                let unpromoted = self.named_block(*unpromoted)?;
                let promoted = self.named_block(*promoted)?;
                let (&last, outer) = self.block.nesting.split_last().ok_or(NESTING)?;
                Ok(vec![
                    Target {
                        block: unpromoted,
                        brought: 0,
                        nesting: outer.to_vec(),
                    },
                    Target {
                        block: promoted,
                        brought: self.spawned_returns(last)?,
                        nesting: outer.to_vec(),
                    },
                ])
            }
        }
    }

    fn named_block(&self, name: Name) -> Result<&'a Block, u8> {
        self.function.block(name).ok_or(NAME)
    }

    /// How many values the function of a spawn call returns.
    fn spawned_returns(&self, spawn: Name) -> Result<usize, u8> {
        let spawn = self.function.spawn(spawn).ok_or(NAME)?;
        let callee = self.program.function(spawn.function).ok_or(NAME)?;
        Ok(usize::from(callee.returns))
    }

    /// The count a call or a return must bring by itself.
    fn own_count(&self) -> Verdict {
        match &self.block.transfer {
            Transfer::Call {
                function,
                arguments,
                ..
            } => {
                let callee = self.program.function(*function).ok_or(NAME)?;
                demand(arguments.len() == usize::from(callee.parameters), COUNT)
            }
            Transfer::Return { arguments } => {
                demand(arguments.len() == usize::from(self.function.returns), COUNT)
            }
            _ => Ok(()),
        }
    }
}

fn all_bound(read: &[Temporary], bound: &Temporaries) -> Verdict {
    demand(read.iter().all(|t| bound.contains(t)), UNBOUND)
}
