//! Faults planted into well-formed programs, each with its refusal and its
//! place in the fault order.

use crate::gen::programs::{arguments, nesting_temporaries, targets_mut, Temporaries};
use crate::refusal::{Refusal, NO_BLOCK};
use crate::rng::Rng;
use crate::table::{
    Atom, Block, Expression, Function, Name, Program, Temporary, Transfer, MAX_BLOCKS, MAX_NESTING,
    MAX_PARAMETERS, MAX_RETURNS, MAX_TEMPORARY,
};

/// A fault's place in the fault order: function from 1 on (0 for main's
/// fault), spawn calls or blocks, which of them, phase, part of the phase.
pub type Key = [usize; 5];

/// A planted fault: where it stands in the order and what the check gives if
/// it is the first.
#[derive(Clone, Copy, Debug, PartialEq, Eq)]
pub struct Planted {
    pub kind: Kind,
    pub key: Key,
    pub refusal: Refusal,
}

/// The kinds of faults in the fault order.
#[derive(Clone, Copy, Debug, PartialEq, Eq)]
pub enum Kind {
    MainParameters,
    SpawnName,
    SpawnCount,
    EntryParameters,
    EntryScope,
    EntryNesting,
    ParameterRepeated,
    ParameterInScope,
    NestingName,
    NestingScope,
    Operand,
    Target,
    TransferTemporary,
    TransferName,
    SpoinOutside,
    ArgumentCount,
    TargetCount,
    TargetNesting,
    ReturnNested,
    TargetScope,
}

impl Kind {
    /// All kinds of faults.
    pub const ALL: [Kind; 20] = [
        Kind::MainParameters,
        Kind::SpawnName,
        Kind::SpawnCount,
        Kind::EntryParameters,
        Kind::EntryScope,
        Kind::EntryNesting,
        Kind::ParameterRepeated,
        Kind::ParameterInScope,
        Kind::NestingName,
        Kind::NestingScope,
        Kind::Operand,
        Kind::Target,
        Kind::TransferTemporary,
        Kind::TransferName,
        Kind::SpoinOutside,
        Kind::ArgumentCount,
        Kind::TargetCount,
        Kind::TargetNesting,
        Kind::ReturnNested,
        Kind::TargetScope,
    ];
}

const ENTRY: usize = 0;
const PARAMETERS: usize = 1;
const NESTING: usize = 2;
const STATEMENTS: usize = 3;
const TEMPORARIES: usize = 4;
const NAMES: usize = 5;
const SPOIN: usize = 6;
const COUNTS: usize = 7;
const NESTINGS: usize = 8;
const SCOPES: usize = 9;

impl Planted {
    /// Whether the fault lies in a block's transfer.
    pub fn in_transfer(&self) -> bool {
        self.key[1] == 1 && self.key[3] >= TEMPORARIES
    }

    /// Whether two faults lie in the same function and block.
    pub fn same_block(&self, other: &Planted) -> bool {
        self.refusal.place == other.refusal.place && self.key[2] == other.key[2]
    }
}

/// Plants a fault of a kind somewhere in a program, if it has such a place.
pub fn plant(rng: &mut Rng, program: &mut Program, kind: Kind) -> Option<Planted> {
    (0..60).find_map(|_| {
        let f = rng.below(program.functions.len());
        let b = rng.below(program.functions[f].blocks.len());
        plant_at(rng, program, (f, b), kind)
    })
}

/// Plants a fault of a kind in a block, its function's spawn calls or main.
fn plant_at(
    rng: &mut Rng,
    program: &mut Program,
    (f, b): (usize, usize),
    kind: Kind,
) -> Option<Planted> {
    Site { program, f, b }.plant(rng, kind)
}

/// Plants two faults of different kinds around one block of a copy.
pub fn plant_pair(rng: &mut Rng, program: &Program) -> Option<(Program, Planted, Planted)> {
    (0..60).find_map(|_| {
        let f = rng.below(program.functions.len());
        let b = rng.below(program.functions[f].blocks.len());
        let (one, two) = (rng.one_of(Kind::ALL), rng.one_of(Kind::ALL));
        if one == two {
            return None;
        }
        let mut copy = program.clone();
        let one = plant_at(rng, &mut copy, (f, b), one)?;
        let two = plant_at(rng, &mut copy, (f, b), two)?;
        Some((copy, one, two))
    })
}

/// Plants a fault of any kind the program has a place for.
pub fn plant_any(rng: &mut Rng, program: &mut Program) -> Planted {
    loop {
        let kind = rng.one_of(Kind::ALL);
        if let Some(planted) = plant(rng, program, kind) {
            return planted;
        }
    }
}

/// What is bound in a block before a statement, or at the transfer.
pub fn bound_before(block: &Block, statement: usize) -> Temporaries {
    let mut bound = block.scope.clone();
    bound.extend(&block.parameters);
    bound.extend(block.statements[..statement].iter().map(|s| s.target));
    bound
}

/// A temporary outside a set.
fn outside(rng: &mut Rng, bound: &Temporaries) -> Option<Temporary> {
    let free: Vec<Temporary> = (0..=MAX_TEMPORARY).filter(|t| !bound.contains(t)).collect();
    rng.pick(&free)
}

/// A temporary inside a set.
fn inside(rng: &mut Rng, bound: &Temporaries) -> Option<Temporary> {
    rng.pick(&bound.iter().copied().collect::<Vec<_>>())
}

/// A number that names none of `count` things.
fn missing(rng: &mut Rng, count: usize) -> Name {
    let first = count as Name;
    let any = rng.byte(first, u8::MAX);
    rng.one_of([first, u8::MAX, any])
}

/// A block of a program that a fault is to be planted in.
struct Site<'a> {
    program: &'a mut Program,
    f: usize,
    b: usize,
}

impl Site<'_> {
    fn function(&mut self) -> &mut Function {
        &mut self.program.functions[self.f]
    }

    fn block(&mut self) -> &mut Block {
        let b = self.b;
        &mut self.function().blocks[b]
    }

    /// What is bound at the block's transfer.
    fn bound(&mut self) -> Temporaries {
        let block = self.block();
        bound_before(block, block.statements.len())
    }

    /// The fault of a number at this block.
    fn here(&self, kind: Kind, number: u8, phase: usize, part: usize) -> Option<Planted> {
        Some(Planted {
            kind,
            key: [self.f + 1, 1, self.b, phase, part],
            refusal: Refusal::fault(number, self.f, self.b),
        })
    }

    fn plant(&mut self, rng: &mut Rng, kind: Kind) -> Option<Planted> {
        match kind {
            Kind::MainParameters => self.main_parameters(rng),
            Kind::SpawnName | Kind::SpawnCount => self.spawn(rng, kind),
            Kind::EntryParameters | Kind::EntryScope | Kind::EntryNesting => self.entry(rng, kind),
            Kind::ParameterRepeated | Kind::ParameterInScope => self.parameter(rng, kind),
            Kind::NestingName => self.nesting_name(rng),
            Kind::NestingScope => self.nesting_scope(rng),
            Kind::Operand => self.operand(rng),
            Kind::Target => self.target(rng),
            Kind::TransferTemporary => self.transfer_temporary(rng),
            Kind::TransferName => self.transfer_name(rng),
            Kind::SpoinOutside => self.spoin_outside(rng),
            Kind::ArgumentCount => self.argument_count(rng),
            Kind::TargetCount | Kind::TargetNesting | Kind::TargetScope => self.retarget(rng, kind),
            Kind::ReturnNested => self.return_nested(rng),
        }
    }

    fn main_parameters(&mut self, rng: &mut Rng) -> Option<Planted> {
        self.program.functions[0].parameters = rng.byte(1, MAX_PARAMETERS);
        Some(Planted {
            kind: Kind::MainParameters,
            key: [0; 5],
            refusal: Refusal::fault(4, 0, NO_BLOCK),
        })
    }

    fn spawn(&mut self, rng: &mut Rng, kind: Kind) -> Option<Planted> {
        let functions = self.program.functions.len();
        let count = self.function().spawns.len();
        let number = rng.pick(&(0..count).collect::<Vec<_>>())?;
        let spawn = &mut self.function().spawns[number];
        let (refusal, part) = if kind == Kind::SpawnName {
            spawn.function = missing(rng, functions);
            (6, 0)
        } else {
            change_count(rng, &mut spawn.arguments, MAX_PARAMETERS.into(), 0);
            (9, 1)
        };
        Some(Planted {
            kind,
            key: [self.f + 1, 0, number, part, 0],
            refusal: Refusal::fault(refusal, self.f, NO_BLOCK),
        })
    }

    fn entry(&mut self, rng: &mut Rng, kind: Kind) -> Option<Planted> {
        self.b = 0;
        let spawns = self.function().spawns.len();
        let block = self.block();
        let temporary = rng.byte(0, MAX_TEMPORARY);
        match kind {
            Kind::EntryParameters => block.parameters = vec![temporary],
            Kind::EntryScope if !block.scope.remove(&temporary) => {
                block.scope.insert(temporary);
            }
            Kind::EntryScope => {}
            _ => block.nesting = vec![rng.below(spawns + 1) as Name],
        }
        self.here(kind, 5, ENTRY, 0)
    }

    /// A parameter becomes a second one of another or of the scope; the count
    /// stays.
    fn parameter(&mut self, rng: &mut Rng, kind: Kind) -> Option<Planted> {
        if self.b == 0 {
            return None;
        }
        let block = self.block();
        let last = block.parameters.len().checked_sub(1)?;
        let twin = if kind == Kind::ParameterRepeated {
            rng.pick(&block.parameters[..last])?
        } else {
            inside(rng, &block.scope)?
        };
        block.parameters[last] = twin;
        self.here(kind, 7, PARAMETERS, 0)
    }

    /// A missing spawn call in the nesting of a block that no earlier block
    /// goes to.
    fn nesting_name(&mut self, rng: &mut Rng) -> Option<Planted> {
        let b = self.b;
        let spawns = self.function().spawns.len();
        let earlier = self.function().blocks[..b].iter().any(|block| {
            targets_mut(&mut block.transfer.clone())
                .iter()
                .any(|name| usize::from(**name) == b)
        });
        let depth = self.block().nesting.len();
        if earlier || depth == 0 {
            return None;
        }
        let entry = rng.below(depth);
        self.block().nesting[entry] = missing(rng, spawns);
        self.here(Kind::NestingName, 6, NESTING, 2 * entry)
    }

    /// An argument of a nesting's spawn call leaves the scope, sometimes to
    /// become a parameter. A fault of the parameters stays.
    fn nesting_scope(&mut self, rng: &mut Rng) -> Option<Planted> {
        let spawns = self.function().spawns.clone();
        let block = self.block();
        let needed = nesting_temporaries(&spawns, &block.nesting);
        let temporary = inside(rng, &needed)?;
        if block.parameters.contains(&temporary) {
            return None;
        }
        let distinct = bound_before(block, 0).len() == block.scope.len() + block.parameters.len();
        block.scope.remove(&temporary);
        if distinct && rng.chance(50) {
            if let Some(last) = block.parameters.last_mut() {
                *last = temporary;
            }
        }
        let entry = block
            .nesting
            .iter()
            .position(|&name| nesting_temporaries(&spawns, &[name]).contains(&temporary))?;
        self.here(Kind::NestingScope, 10, NESTING, 2 * entry + 1)
    }

    fn operand(&mut self, rng: &mut Rng) -> Option<Planted> {
        let block = self.block();
        let number = rng.pick(&(0..block.statements.len()).collect::<Vec<_>>())?;
        let unbound = outside(rng, &bound_before(block, number))?;
        spoil(rng, &mut block.statements[number].expression, unbound);
        self.here(Kind::Operand, 8, STATEMENTS, 2 * number)
    }

    fn target(&mut self, rng: &mut Rng) -> Option<Planted> {
        let block = self.block();
        let number = rng.pick(&(0..block.statements.len()).collect::<Vec<_>>())?;
        block.statements[number].target = inside(rng, &bound_before(block, number))?;
        self.here(Kind::Target, 7, STATEMENTS, 2 * number + 1)
    }

    fn transfer_temporary(&mut self, rng: &mut Rng) -> Option<Planted> {
        let unbound = outside(rng, &self.bound())?;
        match &mut self.block().transfer {
            Transfer::Goto { arguments, .. }
            | Transfer::Call { arguments, .. }
            | Transfer::Return { arguments } => {
                let place = rng.pick(&(0..arguments.len()).collect::<Vec<_>>())?;
                arguments[place] = unbound;
            }
            Transfer::If { condition, .. } => spoil(rng, condition, unbound),
            Transfer::Spork { .. } | Transfer::Spoin { .. } => return None,
        }
        self.here(Kind::TransferTemporary, 8, TEMPORARIES, 0)
    }

    fn transfer_name(&mut self, rng: &mut Rng) -> Option<Planted> {
        let functions = self.program.functions.len();
        let blocks = self.function().blocks.len();
        let spawns = self.function().spawns.len();
        let transfer = &mut self.block().transfer;
        match transfer {
            Transfer::Call { function, .. } if rng.chance(50) => {
                *function = missing(rng, functions)
            }
            Transfer::Spork { spawn, .. } if rng.chance(50) => *spawn = missing(rng, spawns),
            _ => {
                let mut names = targets_mut(transfer);
                if names.is_empty() {
                    return None;
                }
                let which = rng.below(names.len());
                *names[which] = missing(rng, blocks);
            }
        }
        self.here(Kind::TransferName, 6, NAMES, 0)
    }

    fn spoin_outside(&mut self, rng: &mut Rng) -> Option<Planted> {
        if !self.block().nesting.is_empty() {
            return None;
        }
        let blocks = self.function().blocks.len();
        self.block().transfer = Transfer::Spoin {
            unpromoted: rng.below(blocks) as Name,
            promoted: rng.below(blocks) as Name,
        };
        self.here(Kind::SpoinOutside, 11, SPOIN, 0)
    }

    fn argument_count(&mut self, rng: &mut Rng) -> Option<Planted> {
        let bound = inside(rng, &self.bound());
        match &mut self.block().transfer {
            Transfer::Goto { arguments, .. } | Transfer::Call { arguments, .. } => {
                if arguments.is_empty() && bound.is_none() {
                    return None;
                }
                change_count(rng, arguments, MAX_PARAMETERS.into(), bound.unwrap_or(0));
            }
            Transfer::Return { arguments } => {
                if arguments.is_empty() && bound.is_none() {
                    return None;
                }
                change_count(rng, arguments, MAX_RETURNS.into(), bound.unwrap_or(0));
            }
            _ => return None,
        }
        self.here(Kind::ArgumentCount, 9, COUNTS, 0)
    }

    /// A jump goes to a new block that fits but for its count, its nesting or
    /// its scope.
    fn retarget(&mut self, rng: &mut Rng, kind: Kind) -> Option<Planted> {
        let bound = self.bound();
        let mut names = targets_mut(&mut self.block().transfer).len();
        names = names.checked_sub(1)?;
        let which = rng.between(0, names);
        let old = *targets_mut(&mut self.block().transfer)[which];
        let spawns = self.function().spawns.clone();
        let old = self.function().block(old)?.clone();
        let mut arity = old.parameters.len();
        let mut nesting = old.nesting;
        match kind {
            Kind::TargetCount => arity = changed_arity(rng, arity),
            Kind::TargetNesting => change_nesting(rng, &mut nesting, spawns.len())?,
            _ => {}
        }
        let mut scope = nesting_temporaries(&spawns, &nesting);
        if kind == Kind::TargetScope {
            let beyond: Temporaries = bound.union(&scope).copied().collect();
            scope.insert(outside(rng, &beyond)?);
        }
        let name = self.add_block(arity, nesting, scope)?;
        *targets_mut(&mut self.block().transfer)[which] = name;
        match kind {
            Kind::TargetCount => self.here(kind, 9, COUNTS, 0),
            Kind::TargetNesting => self.here(kind, 11, NESTINGS, 0),
            _ => self.here(kind, 10, SCOPES, 0),
        }
    }

    /// A new last block of the function that goes to itself.
    fn add_block(&mut self, arity: usize, nesting: Vec<Name>, scope: Temporaries) -> Option<Name> {
        let function = self.function();
        let name = function.blocks.len();
        if name >= usize::from(MAX_BLOCKS) {
            return None;
        }
        let parameters: Vec<Temporary> = (0..=MAX_TEMPORARY)
            .filter(|t| !scope.contains(t))
            .take(arity)
            .collect();
        if parameters.len() < arity {
            return None;
        }
        function.blocks.push(Block {
            parameters: parameters.clone(),
            scope,
            nesting,
            statements: Vec::new(),
            transfer: Transfer::Goto {
                block: name as Name,
                arguments: parameters,
            },
        });
        Some(name as Name)
    }

    fn return_nested(&mut self, rng: &mut Rng) -> Option<Planted> {
        if self.block().nesting.is_empty() {
            return None;
        }
        let bound = self.bound();
        let returns = self.function().returns;
        let arguments = arguments(rng, returns.into(), &bound)?;
        self.block().transfer = Transfer::Return { arguments };
        self.here(Kind::ReturnNested, 11, NESTINGS, 0)
    }
}

/// Adds `extra` to a list or takes its last off.
fn change_count(rng: &mut Rng, list: &mut Vec<Temporary>, most: usize, extra: Temporary) {
    if list.is_empty() || (list.len() < most && rng.chance(50)) {
        list.push(extra);
    } else {
        list.pop();
    }
}

fn changed_arity(rng: &mut Rng, arity: usize) -> usize {
    if arity == 0 || (arity < usize::from(MAX_PARAMETERS) && rng.chance(50)) {
        arity + 1
    } else {
        arity - 1
    }
}

/// Takes the last entry off a nesting, changes it or adds one.
fn change_nesting(rng: &mut Rng, nesting: &mut Vec<Name>, spawns: usize) -> Option<()> {
    let before = nesting.clone();
    if rng.chance(60) {
        nesting.pop();
    }
    if spawns > 0 && nesting.len() < usize::from(MAX_NESTING) && rng.chance(60) {
        nesting.push(rng.below(spawns) as Name);
    }
    (*nesting != before).then_some(())
}

/// Puts an unbound temporary into an expression.
fn spoil(rng: &mut Rng, expression: &mut Expression, unbound: Temporary) {
    let bad = Atom::Temporary(unbound);
    *expression = match (*expression, rng.chance(50)) {
        (Expression::Plain(_), _) => Expression::Plain(bad),
        (Expression::Negated(_), _) => Expression::Negated(bad),
        (Expression::Sum(m, _), true) => Expression::Sum(m, bad),
        (Expression::Sum(_, n), false) => Expression::Sum(bad, n),
        (Expression::Less(m, _), true) => Expression::Less(m, bad),
        (Expression::Less(_, n), false) => Expression::Less(bad, n),
    };
}
