//! The same job once more: a program under other numbers of functions, blocks
//! and spawn calls and with other dead code, so that its tidy table is the
//! same. Main and every entry keep their numbers.

use crate::encode::encode;
use crate::gen::programs::{arguments, expression, nesting_temporaries, targets_mut, Temporaries};
use crate::rng::Rng;
use crate::table::{
    Block, Function, Name, Program, SpawnCall, Statement, Temporary, Transfer, MAX_BLOCKS,
    MAX_FUNCTIONS, MAX_NESTING, MAX_SPAWNS, MAX_TEMPORARY, TABLE_MAX,
};
use crate::tidy::tidied;

/// Another program of the same job as a well-formed one, well formed itself.
pub fn twin(rng: &mut Rng, program: &Program) -> Program {
    let mut other = match rng.below(2) {
        0 => tidied(program),
        _ => program.clone(),
    };
    let before = other.clone();
    for _ in 0..rng.one_of([0, 1, 4, 12]) {
        bury(rng, &mut other);
    }
    if encode(&other).len() > TABLE_MAX {
        other = before;
    }
    renumber(rng, &mut other);
    other
}

/// Adds something dead, where there is room.
fn bury(rng: &mut Rng, program: &mut Program) {
    let f = rng.below(program.functions.len());
    let room = |length: usize, most: u8| length < usize::from(most);
    match rng.below(4) {
        0 if room(program.functions.len(), MAX_FUNCTIONS) => {
            let function = program.functions[f].clone();
            program.functions.push(function);
        }
        1 if room(program.functions[f].spawns.len(), MAX_SPAWNS) => {
            let spawn = dead_spawn(rng, program);
            program.functions[f].spawns.push(spawn);
        }
        _ => dead_blocks(rng, program, f),
    }
}

/// A spawn call with arguments from anywhere.
fn dead_spawn(rng: &mut Rng, program: &Program) -> SpawnCall {
    let function = rng.below(program.functions.len());
    let count = program.functions[function].parameters;
    SpawnCall {
        function: function as Name,
        arguments: (0..count).map(|_| rng.byte(0, MAX_TEMPORARY)).collect(),
    }
}

/// Some blocks that nothing else names; they may name each other, and all else
/// that there is.
fn dead_blocks(rng: &mut Rng, program: &mut Program, f: usize) {
    let first = program.functions[f].blocks.len();
    let last = (first + rng.between(1, 3)).min(MAX_BLOCKS.into());
    for own in first..last {
        let block = dead_block(rng, &program.functions[f], own as Name);
        program.functions[f].blocks.push(block);
    }
    for own in first..last {
        let block = &program.functions[f].blocks[own];
        let bound = bound(block);
        let dead = Dead {
            program,
            function: &program.functions[f],
            nesting: &block.nesting,
            bound: &bound,
        };
        if let Some(transfer) = (0..4).find_map(|_| dead.transfer(rng)) {
            program.functions[f].blocks[own].transfer = transfer;
        }
    }
}

/// A block that goes to itself.
fn dead_block(rng: &mut Rng, function: &Function, own: Name) -> Block {
    let mut nesting = Vec::new();
    if !function.spawns.is_empty() && rng.chance(50) {
        for _ in 0..rng.between(1, MAX_NESTING.into()) {
            nesting.push(rng.below(function.spawns.len()) as Name);
        }
    }
    let mut scope = nesting_temporaries(&function.spawns, &nesting);
    scope.extend((0..=MAX_TEMPORARY).filter(|_| rng.chance(25)));
    let mut free: Vec<Temporary> = (0..=MAX_TEMPORARY).filter(|t| !scope.contains(t)).collect();
    rng.shuffle(&mut free);
    let taken = rng.below(4).min(free.len());
    let parameters = free[..taken].to_vec();
    let mut bound: Temporaries = scope.iter().chain(&parameters).copied().collect();
    let mut statements = Vec::new();
    for &target in free[taken..].iter().take(rng.below(3)) {
        statements.push(Statement {
            target,
            expression: expression(rng, &bound),
        });
        bound.insert(target);
    }
    Block {
        transfer: Transfer::Goto {
            block: own,
            arguments: parameters.clone(),
        },
        parameters,
        scope,
        nesting,
        statements,
    }
}

/// What is bound at a block's transfer.
fn bound(block: &Block) -> Temporaries {
    let targets = block.statements.iter().map(|statement| &statement.target);
    let head = block.scope.iter().chain(&block.parameters);
    head.chain(targets).copied().collect()
}

/// Where a dead block stands.
struct Dead<'a> {
    program: &'a Program,
    function: &'a Function,
    nesting: &'a [Name],
    bound: &'a Temporaries,
}

impl Dead<'_> {
    /// Tries one transfer.
    fn transfer(&self, rng: &mut Rng) -> Option<Transfer> {
        match rng.below(6) {
            0 => {
                let count = rng.below(4);
                Some(Transfer::Goto {
                    block: self.target(rng, self.nesting, count)?,
                    arguments: arguments(rng, count, self.bound)?,
                })
            }
            1 => Some(Transfer::If {
                condition: expression(rng, self.bound),
                then: self.target(rng, self.nesting, 0)?,
                otherwise: self.target(rng, self.nesting, 0)?,
            }),
            2 => {
                let function = rng.below(self.program.functions.len());
                let callee = &self.program.functions[function];
                Some(Transfer::Call {
                    function: function as Name,
                    arguments: arguments(rng, callee.parameters.into(), self.bound)?,
                    return_block: self.target(rng, self.nesting, callee.returns.into())?,
                })
            }
            3 => {
                let spawn = rng.below(self.function.spawns.len().max(1)) as Name;
                self.function.spawn(spawn)?;
                let inner = [self.nesting, &[spawn]].concat();
                Some(Transfer::Spork {
                    body: self.target(rng, &inner, 0)?,
                    spawn,
                })
            }
            _ => self.close(rng),
        }
    }

    /// A return or a spoin.
    fn close(&self, rng: &mut Rng) -> Option<Transfer> {
        let Some((&last, outer)) = self.nesting.split_last() else {
            let count = self.function.returns.into();
            let arguments = arguments(rng, count, self.bound)?;
            return Some(Transfer::Return { arguments });
        };
        let spawned = self.program.function(self.function.spawn(last)?.function)?;
        Some(Transfer::Spoin {
            unpromoted: self.target(rng, outer, 0)?,
            promoted: self.target(rng, outer, spawned.returns.into())?,
        })
    }

    /// Any block that takes so many values under a nesting.
    fn target(&self, rng: &mut Rng, nesting: &[Name], count: usize) -> Option<Name> {
        let fits = |block: &Block| {
            block.nesting == nesting
                && block.parameters.len() == count
                && block.scope.is_subset(self.bound)
        };
        let blocks = &self.function.blocks;
        let fitting: Vec<usize> = (0..blocks.len()).filter(|&b| fits(&blocks[b])).collect();
        rng.pick(&fitting).map(|b| b as Name)
    }
}

/// Puts functions, blocks and spawn calls into a random order, but for main and
/// the entries.
fn renumber(rng: &mut Rng, program: &mut Program) {
    let functions = order(rng, program.functions.len(), 1);
    for function in &mut program.functions {
        let blocks = order(rng, function.blocks.len(), 1);
        let spawns = order(rng, function.spawns.len(), 0);
        for spawn in &mut function.spawns {
            renamed(&functions, &mut spawn.function);
        }
        for block in &mut function.blocks {
            for name in &mut block.nesting {
                renamed(&spawns, name);
            }
            for name in targets_mut(&mut block.transfer) {
                renamed(&blocks, name);
            }
            match &mut block.transfer {
                Transfer::Call { function, .. } => renamed(&functions, function),
                Transfer::Spork { spawn, .. } => renamed(&spawns, spawn),
                _ => {}
            }
        }
        function.blocks = moved(&blocks, &function.blocks);
        function.spawns = moved(&spawns, &function.spawns);
    }
    program.functions = moved(&functions, &program.functions);
}

/// The new number of each of some things, of which the first few stay.
fn order(rng: &mut Rng, count: usize, first: usize) -> Vec<usize> {
    let mut order: Vec<usize> = (0..count).collect();
    rng.shuffle(&mut order[first..]);
    order
}

fn renamed(order: &[usize], name: &mut Name) {
    *name = order[usize::from(*name)] as Name;
}

/// The things at their new places.
fn moved<T: Clone>(order: &[usize], things: &[T]) -> Vec<T> {
    let mut moved = things.to_vec();
    for (thing, &place) in things.iter().zip(order) {
        moved[place] = thing.clone();
    }
    moved
}
