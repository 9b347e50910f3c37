//! Programs: well formed by construction, padded to a size, and loose ones
//! that only read.

use crate::encode::encode;
use crate::rng::Rng;
use crate::table::{
    Atom, Block, Expression, Function, Name, Program, SpawnCall, Statement, Temporary, Transfer,
    MAX_BLOCKS, MAX_FUNCTIONS, MAX_NESTING, MAX_PARAMETERS, MAX_SPAWNS, MAX_TEMPORARY, TABLE_MAX,
};
use std::collections::BTreeSet;

/// A set of temporaries.
pub type Temporaries = BTreeSet<Temporary>;

/// What the programs of a generator look like; shares are in percent.
#[derive(Clone, Debug)]
pub struct Shape {
    /// Number of functions.
    pub functions: usize,
    /// Most blocks of a function.
    pub blocks: usize,
    /// Most statements of a usual block.
    pub statements: usize,
    /// Share of sporks among the transfers that are free to be one.
    pub spork: usize,
    /// Share of calls.
    pub call: usize,
    /// Share of jumps that may go back.
    pub back: usize,
    /// Share of calls and spawn calls that may go to any function.
    pub recursion: usize,
    /// Share of functions with dead blocks and dead spawn calls.
    pub dead: usize,
}

impl Shape {
    /// One function of a few blocks.
    pub fn tiny(rng: &mut Rng) -> Self {
        Shape {
            functions: 1,
            blocks: rng.between(1, 4),
            statements: rng.between(0, 3),
            ..Shape::any(rng)
        }
    }

    /// A program of any usual size.
    pub fn any(rng: &mut Rng) -> Self {
        Shape {
            functions: rng.one_of([1, 2, 2, 3, 3, 4, 6, 9, 16]),
            blocks: rng.one_of([2, 4, 8, 12, 12, 16, 24, 32]),
            statements: rng.one_of([0, 1, 2, 3, 6, 16]),
            spork: rng.one_of([10, 30, 50, 80]),
            call: rng.one_of([0, 10, 20, 50]),
            back: rng.one_of([0, 5, 20]),
            recursion: rng.one_of([0, 0, 10, 50, 100]),
            dead: rng.one_of([0, 30, 80]),
        }
    }

    /// Many open calls in every function, so that runs fill the pool.
    pub fn parallel(rng: &mut Rng) -> Self {
        Shape {
            functions: rng.between(2, 6),
            blocks: rng.between(12, 32),
            statements: rng.between(0, 2),
            spork: 80,
            call: 20,
            back: 0,
            recursion: rng.one_of([0, 20]),
            dead: 10,
        }
    }
}

/// A well-formed program of a random shape.
pub fn well_formed(rng: &mut Rng) -> Program {
    let mut shape = match rng.below(10) {
        0 | 1 => Shape::tiny(rng),
        2..=5 => Shape::parallel(rng),
        _ => Shape::any(rng),
    };
    loop {
        let program = program(rng, &shape);
        if encode(&program).len() <= TABLE_MAX {
            return program;
        }
        shape.blocks = (shape.blocks / 2).max(1);
        shape.statements /= 2;
    }
}

/// A well-formed program, sometimes of an exact size up to the largest.
pub fn accepted(rng: &mut Rng) -> Program {
    let size = match rng.below(100) {
        0 | 1 => TABLE_MAX,
        2 => TABLE_MAX - 1,
        3 => rng.between(3_000, TABLE_MAX),
        _ => return well_formed(rng),
    };
    well_formed_of_size(rng, size)
}

/// A well-formed program whose table has exactly `size` bytes, 64 or more.
pub fn well_formed_of_size(rng: &mut Rng, size: usize) -> Program {
    loop {
        let mut program = well_formed(rng);
        if pad(rng, &mut program, size) {
            return program;
        }
    }
}

/// A well-formed program of a shape; its table may be too large.
pub fn program(rng: &mut Rng, shape: &Shape) -> Program {
    let mut signatures: Vec<Signature> = (0..shape.functions).map(|_| signature(rng)).collect();
    signatures[0].parameters = 0;
    let functions = (0..shape.functions)
        .map(|own| Builder::new(rng, shape, &signatures, own).build())
        .collect();
    Program { functions }
}

/// A function's parameters and returned values.
#[derive(Clone, Copy)]
struct Signature {
    parameters: u8,
    returns: u8,
}

fn signature(rng: &mut Rng) -> Signature {
    let most = rng.one_of([0, 2, 3, 8]);
    Signature {
        parameters: rng.byte(0, most),
        returns: rng.byte(0, 4),
    }
}

/// What a block requires of a jump to it.
#[derive(Clone)]
struct Head {
    parameters: Vec<Temporary>,
    scope: Temporaries,
    nesting: Vec<Name>,
}

/// A function under construction: heads are made as jumps need them, bodies
/// are filled in the heads' order.
struct Builder<'a> {
    rng: &'a mut Rng,
    shape: &'a Shape,
    signatures: &'a [Signature],
    own: usize,
    spawns: Vec<SpawnCall>,
    heads: Vec<Head>,
    bodies: Vec<(Vec<Statement>, Transfer)>,
}

impl<'a> Builder<'a> {
    fn new(
        rng: &'a mut Rng,
        shape: &'a Shape,
        signatures: &'a [Signature],
        own: usize,
    ) -> Builder<'a> {
        let entry = Head {
            parameters: Vec::new(),
            scope: (0..signatures[own].parameters).collect(),
            nesting: Vec::new(),
        };
        Builder {
            rng,
            shape,
            signatures,
            own,
            spawns: Vec::new(),
            heads: vec![entry],
            bodies: Vec::new(),
        }
    }

    fn build(mut self) -> Function {
        let dead = self.rng.chance(self.shape.dead);
        if dead {
            self.dead_spawns();
        }
        self.fill();
        if dead {
            while self.heads.len() < self.shape.blocks && self.rng.chance(70) {
                self.dead_head();
                self.fill();
            }
        }
        self.finish()
    }

    /// Fills every head that has no body.
    fn fill(&mut self) {
        while self.bodies.len() < self.heads.len() {
            let body = self.body(self.bodies.len());
            self.bodies.push(body);
        }
    }

    /// The function with its blocks in a random order, the entry first.
    fn finish(self) -> Function {
        let mut order: Vec<usize> = (1..self.heads.len()).collect();
        self.rng.shuffle(&mut order);
        order.insert(0, 0);
        let mut place = vec![0; order.len()];
        for (new, &old) in order.iter().enumerate() {
            place[old] = new as Name;
        }
        let blocks = order
            .iter()
            .map(|&old| {
                let head = self.heads[old].clone();
                let (statements, mut transfer) = self.bodies[old].clone();
                for name in targets_mut(&mut transfer) {
                    *name = place[usize::from(*name)];
                }
                Block {
                    parameters: head.parameters,
                    scope: head.scope,
                    nesting: head.nesting,
                    statements,
                    transfer,
                }
            })
            .collect();
        Function {
            parameters: self.signatures[self.own].parameters,
            returns: self.signatures[self.own].returns,
            spawns: self.spawns,
            blocks,
        }
    }

    /// Spawn calls with arguments from anywhere.
    fn dead_spawns(&mut self) {
        for _ in 0..self.rng.below(4) {
            let function = self.rng.below(self.signatures.len());
            let arguments = (0..self.signatures[function].parameters)
                .map(|_| self.rng.byte(0, MAX_TEMPORARY))
                .collect();
            self.spawns.push(SpawnCall {
                function: function as Name,
                arguments,
            });
        }
    }

    /// A head that no jump needed.
    fn dead_head(&mut self) {
        let mut nesting = Vec::new();
        if !self.spawns.is_empty() {
            for _ in 0..self.rng.below(usize::from(MAX_NESTING) + 1) {
                nesting.push(self.rng.below(self.spawns.len()) as Name);
            }
        }
        let bound: Temporaries = (0..=MAX_TEMPORARY)
            .filter(|_| self.rng.chance(40))
            .collect();
        let arity = self.rng.below(usize::from(MAX_PARAMETERS) + 1);
        if let Some(head) = self.head(&nesting, arity, &bound) {
            self.heads.push(head);
        }
    }

    /// A block's statements and transfer.
    fn body(&mut self, own: usize) -> (Vec<Statement>, Transfer) {
        let head = self.heads[own].clone();
        let mut bound = head.scope.clone();
        bound.extend(&head.parameters);
        let mut statements = Vec::new();
        for _ in 0..self.rng.between(0, self.shape.statements) {
            statements.extend(self.statement(&mut bound));
        }
        if bound.is_empty() && self.rng.chance(90) {
            statements.extend(self.statement(&mut bound));
        }
        let transfer = (0..12)
            .find_map(|_| self.transfer(own, &head.nesting, &bound))
            .or_else(|| self.close(own, &head.nesting, &bound))
            .unwrap_or(Transfer::Goto {
                block: own as Name,
                arguments: head.parameters,
            });
        (statements, transfer)
    }

    /// A statement, unless everything is bound.
    fn statement(&mut self, bound: &mut Temporaries) -> Option<Statement> {
        let free: Vec<Temporary> = (0..=MAX_TEMPORARY).filter(|t| !bound.contains(t)).collect();
        let target = self.rng.pick(&free)?;
        let expression = expression(self.rng, bound);
        bound.insert(target);
        Some(Statement { target, expression })
    }

    /// Tries one transfer.
    fn transfer(&mut self, own: usize, nesting: &[Name], bound: &Temporaries) -> Option<Transfer> {
        let pending = self.heads.len() - self.bodies.len();
        let room = self.heads.len() + pending + 3 <= self.shape.blocks;
        if !room && self.rng.chance(90) {
            return self.close(own, nesting, bound);
        }
        let shy = own == 0 && room && self.rng.chance(80);
        if self.rng.chance(self.shape.spork) {
            return self.spork(own, nesting, bound);
        }
        if self.rng.chance(self.shape.call) {
            return self.call(own, nesting, bound);
        }
        match self.rng.below(8) {
            0 | 1 => self.goto(own, nesting, bound),
            2 | 3 => self.branch(own, nesting, bound),
            _ if shy => None,
            _ => self.close(own, nesting, bound),
        }
    }

    /// A transfer that closes: a return or a spoin.
    fn close(&mut self, own: usize, nesting: &[Name], bound: &Temporaries) -> Option<Transfer> {
        let Some((&last, outer)) = nesting.split_last() else {
            let count = self.signatures[self.own].returns;
            let arguments = arguments(self.rng, count.into(), bound)?;
            return Some(Transfer::Return { arguments });
        };
        let spawned = self.spawns[usize::from(last)].function;
        let returns = self.signatures[usize::from(spawned)].returns;
        Some(Transfer::Spoin {
            unpromoted: self.target(own, outer, 0, bound)?,
            promoted: self.target(own, outer, returns.into(), bound)?,
        })
    }

    fn goto(&mut self, own: usize, nesting: &[Name], bound: &Temporaries) -> Option<Transfer> {
        let most = if bound.is_empty() { 0 } else { 8 };
        let arity = self.rng.one_of([0, 1, 2, 3, most]).min(most);
        Some(Transfer::Goto {
            block: self.target(own, nesting, arity, bound)?,
            arguments: arguments(self.rng, arity, bound)?,
        })
    }

    fn branch(&mut self, own: usize, nesting: &[Name], bound: &Temporaries) -> Option<Transfer> {
        Some(Transfer::If {
            condition: expression(self.rng, bound),
            then: self.target(own, nesting, 0, bound)?,
            otherwise: self.target(own, nesting, 0, bound)?,
        })
    }

    fn call(&mut self, own: usize, nesting: &[Name], bound: &Temporaries) -> Option<Transfer> {
        let function = self.callee()?;
        let signature = self.signatures[function];
        Some(Transfer::Call {
            function: function as Name,
            arguments: arguments(self.rng, signature.parameters.into(), bound)?,
            return_block: self.target(own, nesting, signature.returns.into(), bound)?,
        })
    }

    fn spork(&mut self, own: usize, nesting: &[Name], bound: &Temporaries) -> Option<Transfer> {
        if nesting.len() == usize::from(MAX_NESTING) {
            return None;
        }
        let spawn = self.spawn(bound)?;
        let inner = [nesting, &[spawn]].concat();
        let body = self.target(own, &inner, 0, bound)?;
        self.provide_sides(nesting, spawn);
        Some(Transfer::Spork { body, spawn })
    }

    /// Provides blocks that any spoin of a spawn call can go to.
    fn provide_sides(&mut self, nesting: &[Name], spawn: Name) {
        let spawned = self.spawns[usize::from(spawn)].function;
        let returns = self.signatures[usize::from(spawned)].returns;
        let needed = nesting_temporaries(&self.spawns, nesting);
        for arity in [0, usize::from(returns)] {
            let provided = !self.fitting(0, nesting, arity, &needed).is_empty();
            if !provided && self.heads.len() < self.shape.blocks {
                let head = self.head(nesting, arity, &needed);
                self.heads.extend(head);
            }
        }
    }

    /// A spawn call whose arguments are bound, a new one or one there is.
    fn spawn(&mut self, bound: &Temporaries) -> Option<Name> {
        if self.spawns.len() < usize::from(MAX_SPAWNS) && self.rng.chance(60) {
            let function = self.callee()?;
            let count = self.signatures[function].parameters;
            let arguments = arguments(self.rng, count.into(), bound)?;
            self.spawns.push(SpawnCall {
                function: function as Name,
                arguments,
            });
            return Some((self.spawns.len() - 1) as Name);
        }
        let fitting: Vec<Name> = (0..self.spawns.len() as Name)
            .filter(|&s| {
                let spawn = &self.spawns[usize::from(s)];
                spawn.arguments.iter().all(|t| bound.contains(t))
            })
            .collect();
        self.rng.pick(&fitting)
    }

    /// A function to call: a later one, or any where recursion is allowed.
    fn callee(&mut self) -> Option<usize> {
        if self.rng.chance(self.shape.recursion) {
            return Some(self.rng.below(self.signatures.len()));
        }
        let later: Vec<usize> = (self.own + 1..self.signatures.len()).collect();
        self.rng.pick(&later)
    }

    /// A block that a jump may go to, one there is or a new one.
    fn target(
        &mut self,
        own: usize,
        nesting: &[Name],
        arity: usize,
        bound: &Temporaries,
    ) -> Option<Name> {
        let back = self.rng.chance(self.shape.back);
        let ahead = self.fitting(if back { 0 } else { own + 1 }, nesting, arity, bound);
        let reuse = if back { 70 } else { 30 };
        if !ahead.is_empty() && self.rng.chance(reuse) {
            return self.rng.pick(&ahead);
        }
        if self.heads.len() >= self.shape.blocks.min(MAX_BLOCKS.into()) {
            let any = self.fitting(0, nesting, arity, bound);
            return self.rng.pick(&ahead).or_else(|| self.rng.pick(&any));
        }
        let head = self.head(nesting, arity, bound)?;
        self.heads.push(head);
        Some((self.heads.len() - 1) as Name)
    }

    /// The blocks from `first` on that a jump may go to.
    fn fitting(
        &self,
        first: usize,
        nesting: &[Name],
        arity: usize,
        bound: &Temporaries,
    ) -> Vec<Name> {
        (first..self.heads.len())
            .filter(|&b| {
                let head = &self.heads[b];
                head.nesting == nesting
                    && head.parameters.len() == arity
                    && head.scope.is_subset(bound)
            })
            .map(|b| b as Name)
            .collect()
    }

    /// A new head for a jump with what is bound.
    fn head(&mut self, nesting: &[Name], arity: usize, bound: &Temporaries) -> Option<Head> {
        let needed = nesting_temporaries(&self.spawns, nesting);
        let mut free: Vec<Temporary> = (0..=MAX_TEMPORARY)
            .filter(|t| !needed.contains(t))
            .collect();
        if free.len() < arity {
            return None;
        }
        self.rng.shuffle(&mut free);
        let parameters: Vec<Temporary> = free[..arity].to_vec();
        let dense = self.rng.one_of([0, 20, 50, 90]);
        let mut scope = needed;
        for &t in bound {
            if !parameters.contains(&t) && self.rng.chance(dense) {
                scope.insert(t);
            }
        }
        Some(Head {
            parameters,
            scope,
            nesting: nesting.to_vec(),
        })
    }
}

/// The temporaries that the calls of a nesting read.
pub fn nesting_temporaries(spawns: &[SpawnCall], nesting: &[Name]) -> Temporaries {
    nesting
        .iter()
        .filter_map(|&name| spawns.get(usize::from(name)))
        .flat_map(|spawn| spawn.arguments.iter().copied())
        .collect()
}

/// Arguments of a count from what is bound.
pub fn arguments(rng: &mut Rng, count: usize, bound: &Temporaries) -> Option<Vec<Temporary>> {
    let bound: Vec<Temporary> = bound.iter().copied().collect();
    (0..count).map(|_| rng.pick(&bound)).collect()
}

/// An expression over what is bound; a few are at an end of 32 bits or one
/// beyond.
pub fn expression(rng: &mut Rng, bound: &Temporaries) -> Expression {
    if rng.chance(4) {
        return at_limit(rng);
    }
    let m = atom(rng, bound);
    let n = atom(rng, bound);
    match rng.below(4) {
        0 => Expression::Plain(m),
        1 => Expression::Negated(m),
        2 => Expression::Sum(smaller(rng, m), smaller(rng, n)),
        _ => Expression::Less(m, n),
    }
}

/// A value made small, most of the time, so that most sums have room.
fn smaller(rng: &mut Rng, atom: Atom) -> Atom {
    match atom {
        Atom::Value(value) if rng.chance(80) => Atom::Value(value % 100),
        other => other,
    }
}

/// A sum or a negation of values which is an end of 32 bits, or one beyond.
pub fn at_limit(rng: &mut Rng) -> Expression {
    if rng.chance(20) {
        let fits = rng.one_of([i32::MIN + 1, i32::MIN + 1, i32::MAX]);
        let of = if rng.chance(10) { i32::MIN } else { fits };
        return Expression::Negated(Atom::Value(of));
    }
    let beyond = rng.chance(10);
    let [m, n] = limit_operands(rng, beyond);
    Expression::Sum(Atom::Value(m), Atom::Value(n))
}

/// Two values whose sum is the greatest or the least value, or one beyond it.
pub fn limit_operands(rng: &mut Rng, beyond: bool) -> [i32; 2] {
    let any = rng.bits() as i32 & i32::MAX;
    let more = i32::from(beyond);
    let part = rng.one_of([0, 1, 2, any, any]).max(more);
    let mut operands = [part, i32::MAX - part + more];
    if rng.chance(50) {
        operands = [-part, i32::MIN + part - more];
    }
    rng.shuffle(&mut operands);
    operands
}

fn atom(rng: &mut Rng, bound: &Temporaries) -> Atom {
    let bound: Vec<Temporary> = bound.iter().copied().collect();
    match rng.pick(&bound) {
        Some(temporary) if rng.chance(60) => Atom::Temporary(temporary),
        _ => Atom::Value(rng.value()),
    }
}

/// The block names of a transfer, from left to right.
pub fn targets_mut(transfer: &mut Transfer) -> Vec<&mut Name> {
    match transfer {
        Transfer::Goto { block, .. } => vec![block],
        Transfer::If {
            then, otherwise, ..
        } => vec![then, otherwise],
        Transfer::Call { return_block, .. } => vec![return_block],
        Transfer::Return { .. } => Vec::new(),
        Transfer::Spork { body, .. } => vec![body],
        Transfer::Spoin {
            unpromoted,
            promoted,
        } => vec![unpromoted, promoted],
    }
}

/// Smallest and largest piece that padding adds.
const PIECE_MIN: usize = 19;
const PIECE_MAX: usize = 160;

/// Adds dead blocks up to a size; false if that cannot be met.
pub fn pad(rng: &mut Rng, program: &mut Program, size: usize) -> bool {
    let mut length = encode(program).len();
    while length < size {
        let missing = size - length;
        let piece = match missing {
            0..PIECE_MIN => return false,
            PIECE_MIN..=PIECE_MAX => missing,
            _ => rng.between(100, 150),
        };
        match roomy_function(rng, program) {
            Some(f) => {
                let name = program.functions[f].blocks.len() as Name;
                program.functions[f].blocks.push(filler(rng, name, piece));
                length += piece;
            }
            None if program.functions.len() < usize::from(MAX_FUNCTIONS) && missing > 60 => {
                program.functions.push(Function {
                    parameters: 0,
                    returns: rng.byte(0, 4),
                    spawns: Vec::new(),
                    blocks: vec![filler(rng, 0, 30)],
                });
                length += 4 + 30;
            }
            None => return false,
        }
    }
    length == size
}

/// A function with room for a block.
fn roomy_function(rng: &mut Rng, program: &Program) -> Option<usize> {
    let roomy: Vec<usize> = (0..program.functions.len())
        .filter(|&f| program.functions[f].blocks.len() < usize::from(MAX_BLOCKS))
        .collect();
    rng.pick(&roomy)
}

/// A block of a number of bytes that goes to itself.
pub fn filler(rng: &mut Rng, name: Name, size: usize) -> Block {
    let mut statements = Vec::new();
    let mut left = size - 8;
    let mut bound = Temporaries::new();
    while left > 0 {
        let mut sizes = vec![12, 7];
        if !bound.is_empty() {
            sizes.extend([4, 6, 9]);
        }
        sizes.retain(|&s| s <= left && fillable(left - s));
        if left > 20 {
            sizes.retain(|&s| s == 12);
        }
        let size = rng.pick(&sizes).expect("a piece can be filled");
        let target = bound.len() as Temporary;
        statements.push(Statement {
            target,
            expression: sized_expression(rng, size, &bound),
        });
        bound.insert(target);
        left -= size;
    }
    Block {
        parameters: Vec::new(),
        scope: Temporaries::new(),
        nesting: Vec::new(),
        statements,
        transfer: Transfer::Goto {
            block: name,
            arguments: Vec::new(),
        },
    }
}

/// Whether statements of 4, 6, 7, 9 and 12 bytes can fill the rest.
fn fillable(left: usize) -> bool {
    !matches!(left, 1 | 2 | 3 | 5)
}

/// An expression whose statement has a number of bytes.
fn sized_expression(rng: &mut Rng, size: usize, bound: &Temporaries) -> Expression {
    let value = Atom::Value(rng.value());
    let temporary = |rng: &mut Rng| Atom::Temporary(rng.byte(0, bound.len() as u8 - 1));
    let (m, n) = match size {
        4 | 6 => (temporary(rng), temporary(rng)),
        9 => (temporary(rng), value),
        _ => (value, Atom::Value(rng.value())),
    };
    match (size, rng.chance(50)) {
        (4 | 7, true) => Expression::Plain(m),
        (4 | 7, false) => Expression::Negated(m),
        (_, true) => Expression::Sum(m, n),
        (_, false) => Expression::Less(n, m),
    }
}

/// A small program that reads, with names and counts that may not fit.
pub fn loose(rng: &mut Rng) -> Program {
    let functions = rng.between(1, 4);
    let mut program = Program {
        functions: (0..functions)
            .map(|_| loose_function(rng, functions))
            .collect(),
    };
    fit_counts(rng, &mut program);
    program
}

/// Makes most arguments of a loose program as many as their targets take.
fn fit_counts(rng: &mut Rng, program: &mut Program) {
    let whole = program.clone();
    for (f, function) in program.functions.iter_mut().enumerate() {
        for spawn in &mut function.spawns {
            let count = whole.function(spawn.function).map(|f| f.parameters.into());
            fit(rng, &mut spawn.arguments, count);
        }
        for block in &mut function.blocks {
            match &mut block.transfer {
                Transfer::Goto { block, arguments } => {
                    let target = whole.functions[f].block(*block);
                    fit(rng, arguments, target.map(|b| b.parameters.len()));
                }
                Transfer::Call {
                    function,
                    arguments,
                    ..
                } => {
                    let callee = whole.function(*function);
                    fit(rng, arguments, callee.map(|f| f.parameters.into()));
                }
                _ => {}
            }
        }
    }
}

fn fit(rng: &mut Rng, arguments: &mut Vec<Temporary>, count: Option<usize>) {
    if let (Some(count), true) = (count, rng.chance(70)) {
        arguments.resize_with(count, || rng.byte(0, MAX_TEMPORARY));
    }
}

fn loose_function(rng: &mut Rng, functions: usize) -> Function {
    let blocks = rng.between(1, 6);
    let spawns = rng.one_of([0, 1, 2, 4, 8]);
    Function {
        parameters: rng.one_of([0, 0, 0, 1, 2, 8]),
        returns: rng.byte(0, 4),
        spawns: (0..spawns)
            .map(|_| SpawnCall {
                function: loose_name(rng, functions),
                arguments: loose_arguments(rng, 8),
            })
            .collect(),
        blocks: (0..blocks)
            .map(|_| loose_block(rng, functions, blocks, spawns))
            .collect(),
    }
}

/// Mostly a name there is, sometimes one there is not.
fn loose_name(rng: &mut Rng, count: usize) -> Name {
    match rng.below(12) {
        0 => count as Name,
        1 if rng.chance(50) => rng.byte(0, u8::MAX),
        _ => rng.below(count.max(1)) as Name,
    }
}

fn loose_arguments(rng: &mut Rng, most: usize) -> Vec<Temporary> {
    let count = rng.one_of([0, 0, 0, 0, 1, 1, 2, 3, most]).min(most);
    let last = rng.one_of([2, MAX_TEMPORARY]);
    (0..count).map(|_| rng.byte(0, last)).collect()
}

fn loose_block(rng: &mut Rng, functions: usize, blocks: usize, spawns: usize) -> Block {
    let all: Temporaries = (0..=MAX_TEMPORARY).collect();
    let nesting = rng.one_of([0, 0, 0, 1, 4]);
    Block {
        parameters: loose_arguments(rng, 8),
        scope: all.iter().copied().filter(|_| rng.chance(20)).collect(),
        nesting: (0..nesting).map(|_| loose_name(rng, spawns)).collect(),
        statements: (0..rng.one_of([0, 0, 0, 1, 2, 32]))
            .map(|_| Statement {
                target: rng.byte(0, MAX_TEMPORARY),
                expression: expression(rng, &all),
            })
            .collect(),
        transfer: loose_transfer(rng, functions, blocks, spawns),
    }
}

fn loose_transfer(rng: &mut Rng, functions: usize, blocks: usize, spawns: usize) -> Transfer {
    let all: Temporaries = (0..=MAX_TEMPORARY).collect();
    match rng.below(9) {
        0 => Transfer::Goto {
            block: loose_name(rng, blocks),
            arguments: loose_arguments(rng, 8),
        },
        1 | 8 => {
            // Blocks that are there, most of them, or two that are not.
            let missing = rng.chance(15).then_some(blocks as Name);
            Transfer::If {
                condition: expression(rng, &all),
                then: missing.unwrap_or_else(|| loose_name(rng, blocks)),
                otherwise: missing.unwrap_or_else(|| loose_name(rng, blocks)),
            }
        }
        2 => Transfer::Call {
            function: loose_name(rng, functions),
            arguments: loose_arguments(rng, 8),
            return_block: loose_name(rng, blocks),
        },
        3 | 4 => Transfer::Return {
            arguments: loose_arguments(rng, 4),
        },
        5 => Transfer::Spork {
            body: loose_name(rng, blocks),
            spawn: loose_name(rng, spawns),
        },
        _ => Transfer::Spoin {
            unpromoted: loose_name(rng, blocks),
            promoted: loose_name(rng, blocks),
        },
    }
}
