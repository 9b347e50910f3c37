//! Programs rich in calls, well formed, each with the depth that it has by the
//! way it is made: a chain of functions, in which every one calls the next.

use crate::depth::CYCLE;
use crate::encode::encode;
use crate::gen::programs::{self, expression, Shape, Temporaries};
use crate::rng::Rng;
use crate::table::{
    Block, Function, Name, Program, SpawnCall, Statement, Temporary, Transfer, MAX_BLOCKS,
    MAX_FUNCTIONS, MAX_TEMPORARY, TABLE_MAX,
};

/// What a program's chain is like.
#[derive(Clone, Copy, Debug, PartialEq, Eq)]
pub enum Kind {
    /// From main on, every function, and no other calls.
    Straight,
    /// Every block of a function calls a later one of the chain.
    Dense,
    /// Calls of later functions, of those outside it, and blocks that nothing
    /// reaches and that call.
    Dead,
    /// Functions that spawn themselves and any other, and call meanwhile.
    Spawning,
    /// It begins at a function that nothing mentions.
    Unmentioned,
    /// It begins at a function that main spawns.
    Spawned,
    /// A function calls itself or one before it.
    Cycle,
    /// The same, in a block that nothing reaches.
    DeadCycle,
    /// None by the making: calls among sporks and jumps.
    Mixed,
}

impl Kind {
    /// All kinds.
    pub const ALL: [Kind; 9] = [
        Kind::Straight,
        Kind::Dense,
        Kind::Dead,
        Kind::Spawning,
        Kind::Unmentioned,
        Kind::Spawned,
        Kind::Cycle,
        Kind::DeadCycle,
        Kind::Mixed,
    ];

    /// The name of a kind's event.
    pub fn event(self) -> String {
        format!("calls {self:?}")
    }
}

/// A program rich in calls.
pub struct Calling {
    pub kind: Kind,
    pub program: Program,
    /// Its depth or 22, where that is known by the making.
    pub known: Option<Result<u8, u8>>,
}

/// A program of any kind.
pub fn calling(rng: &mut Rng) -> Calling {
    let kind = rng.one_of(Kind::ALL);
    calling_of(rng, kind)
}

/// A program of a kind.
pub fn calling_of(rng: &mut Rng, kind: Kind) -> Calling {
    loop {
        let (program, known) = match kind {
            Kind::Mixed => (mixed(rng), None),
            Kind::Dense => {
                let functions = rng.between(1, MAX_FUNCTIONS.into());
                let blocks = rng.one_of([1, 2, 5, MAX_BLOCKS.into()]);
                let program = dense(rng, functions, blocks);
                (renumbered(rng, &program), Some(Ok(functions as u8)))
            }
            _ => chained(rng, kind),
        };
        if encode(&program).len() <= TABLE_MAX {
            return Calling {
                kind,
                program,
                known,
            };
        }
    }
}

/// A line: every function but the last calls the next, and nothing else.
pub fn line(functions: usize) -> Program {
    let plan = |f: usize| Plan {
        works: (f + 1..functions).take(1).map(Work::Call).collect(),
        dead: Vec::new(),
    };
    let plans: Vec<Plan> = (0..functions).map(plan).collect();
    program_of(&mut Rng::new(0), &plans, &vec![(0, 0); functions])
}

/// Functions without values, whose blocks all call later functions, only one
/// of them the next, if there are others, and then go on to the next block;
/// those of the last return.
pub fn dense(rng: &mut Rng, functions: usize, blocks: usize) -> Program {
    let functions = (0..functions)
        .map(|f| dense_function(rng, f + 1, functions, blocks))
        .collect();
    Program { functions }
}

fn dense_function(rng: &mut Rng, next: usize, functions: usize, blocks: usize) -> Function {
    let any = rng.below(blocks);
    let chained = rng.one_of([0, any, blocks - 1]);
    let mut transfer = |b: usize| {
        let callee = match functions - next {
            0 => return Transfer::Return { arguments: vec![] },
            left if left > 1 && b != chained => rng.between(next + 1, functions - 1),
            _ => next,
        };
        Transfer::Call {
            function: callee as Name,
            arguments: vec![],
            return_block: ((b + 1) % blocks) as Name,
        }
    };
    Function {
        parameters: 0,
        returns: 0,
        spawns: vec![],
        blocks: (0..blocks)
            .map(|b| Body::new(0, &Temporaries::new()).ends(transfer(b)))
            .collect(),
    }
}

/// The functions of a program without spawn calls, in another order.
fn renumbered(rng: &mut Rng, program: &Program) -> Program {
    let mut order: Vec<usize> = (0..program.functions.len()).collect();
    rng.shuffle(&mut order);
    let mut functions = program.functions.clone();
    for (function, &number) in program.functions.iter().zip(&order) {
        functions[number] = function.clone();
    }
    for block in functions.iter_mut().flat_map(|f| &mut f.blocks) {
        if let Transfer::Call { function, .. } = &mut block.transfer {
            *function = order[usize::from(*function)] as Name;
        }
    }
    Program { functions }
}

/// Calls among sporks and jumps, of any function now and then.
fn mixed(rng: &mut Rng) -> Program {
    let shape = Shape {
        functions: rng.between(2, MAX_FUNCTIONS.into()),
        blocks: rng.one_of([4, 8, 12]),
        statements: rng.between(0, 2),
        spork: rng.one_of([0, 20, 40]),
        call: rng.one_of([40, 80]),
        back: rng.one_of([0, 10]),
        recursion: rng.one_of([0, 0, 0, 5]),
        dead: rng.one_of([0, 50]),
    };
    programs::program(rng, &shape)
}

/// What a function does on its way.
#[derive(Clone, Copy)]
enum Work {
    Call(usize),
    Spork(usize),
    /// A spork, and a call in its body.
    SporkAndCall(usize, usize),
}

/// What a function does, one after another, and what blocks call that nothing
/// reaches.
#[derive(Clone, Default)]
struct Plan {
    works: Vec<Work>,
    dead: Vec<usize>,
}

/// A program with a chain, and what its depth must be.
fn chained(rng: &mut Rng, kind: Kind) -> (Program, Option<Result<u8, u8>>) {
    let apart = matches!(kind, Kind::Unmentioned | Kind::Spawned);
    let count = rng.between(if apart { 2 } else { 1 }, MAX_FUNCTIONS.into());
    let mut order: Vec<usize> = (1..count).collect();
    rng.shuffle(&mut order);
    if !apart {
        order.insert(0, 0);
        if kind != Kind::Straight && rng.chance(30) {
            rng.shuffle(&mut order);
        }
    }
    let length = match kind {
        Kind::Straight => order.len(),
        _ => rng.between(1, order.len()),
    };
    let (chain, rest) = order.split_at(length);
    let mut plans = vec![Plan::default(); count];
    forward(rng, kind, chain, &mut plans);
    match kind {
        Kind::Straight => {}
        Kind::Unmentioned => mention(rng, &order[1..], &mut plans),
        Kind::Spawned => {
            plans[0].works.push(Work::Spork(chain[0]));
            mention(rng, &order, &mut plans);
        }
        Kind::Spawning => spawn(rng, chain, &mut plans),
        _ => more_calls(rng, chain, rest, &mut plans),
    }
    let mut known = Ok(length as u8);
    if matches!(kind, Kind::Cycle | Kind::DeadCycle) {
        back(rng, kind, chain, &mut plans);
        known = Err(CYCLE);
    }
    (program(rng, &plans), Some(known))
}

/// Every function of the chain calls the next, by a block that is reached or
/// not.
fn forward(rng: &mut Rng, kind: Kind, chain: &[usize], plans: &mut [Plan]) {
    let dead = match kind {
        Kind::Dead | Kind::DeadCycle => rng.one_of([10, 50, 100]),
        _ => 0,
    };
    for pair in chain.windows(2) {
        if rng.chance(dead) {
            plans[pair[0]].dead.push(pair[1]);
        } else {
            plans[pair[0]].works.push(Work::Call(pair[1]));
        }
    }
}

/// Some functions spawn some of these.
fn mention(rng: &mut Rng, these: &[usize], plans: &mut [Plan]) {
    for _ in 0..rng.below(4) {
        let who = rng.below(plans.len());
        if let Some(spawned) = rng.pick(these) {
            plans[who].works.push(Work::Spork(spawned));
        }
    }
}

/// Functions of the chain spawn themselves or any other; some call the next
/// one while that is open, or then alone.
fn spawn(rng: &mut Rng, chain: &[usize], plans: &mut [Plan]) {
    for (at, &who) in chain.iter().enumerate() {
        let spawned = match rng.below(3) {
            0 => continue,
            1 => who,
            _ => rng.below(plans.len()),
        };
        let works = &mut plans[who].works;
        match chain.get(at + 1) {
            Some(&next) if rng.chance(60) => {
                if rng.chance(50) {
                    works.clear();
                }
                works.push(Work::SporkAndCall(spawned, next));
            }
            _ => works.push(Work::Spork(spawned)),
        }
        rng.shuffle(works);
    }
}

/// Functions of the chain, but for the last, call later ones of it and those
/// outside, which call nothing.
fn more_calls(rng: &mut Rng, chain: &[usize], rest: &[usize], plans: &mut [Plan]) {
    for at in 0..chain.len().saturating_sub(1) {
        for _ in 0..rng.below(4) {
            let later = [&chain[at + 1..], rest].concat();
            let callee = later[rng.below(later.len())];
            let plan = &mut plans[chain[at]];
            if rng.chance(40) {
                plan.dead.push(callee);
            } else {
                plan.works.push(Work::Call(callee));
            }
        }
        if rng.chance(30) {
            rng.shuffle(&mut plans[chain[at]].works);
        }
    }
}

/// A function of the chain calls itself or one before it.
fn back(rng: &mut Rng, kind: Kind, chain: &[usize], plans: &mut [Plan]) {
    let from = rng.below(chain.len());
    let to = chain[rng.between(0, from)];
    let plan = &mut plans[chain[from]];
    match kind {
        Kind::DeadCycle => plan.dead.push(to),
        _ => plan.works.push(Work::Call(to)),
    }
}

/// A function's parameters and returned values.
type Signature = (u8, u8);

/// The program of some plans, with any signatures.
fn program(rng: &mut Rng, plans: &[Plan]) -> Program {
    let most = rng.one_of([0, 1, 3]);
    let mut signatures: Vec<Signature> = plans
        .iter()
        .map(|_| (rng.byte(0, most), rng.byte(0, most)))
        .collect();
    signatures[0].0 = 0;
    program_of(rng, plans, &signatures)
}

fn program_of(rng: &mut Rng, plans: &[Plan], signatures: &[Signature]) -> Program {
    let functions = plans
        .iter()
        .enumerate()
        .map(|(own, plan)| function(rng, signatures, own, plan))
        .collect();
    Program { functions }
}

/// The function of a plan. A block takes what the work before it brings.
fn function(rng: &mut Rng, signatures: &[Signature], own: usize, plan: &Plan) -> Function {
    let (parameters, returns) = signatures[own];
    let mut spawns = Vec::new();
    let mut blocks: Vec<Block> = Vec::new();
    let mut body = Body::new(0, &(0..parameters).collect());
    for &work in &plan.works {
        let at = blocks.len();
        let brought = match work {
            Work::Call(callee) => {
                blocks.push(body.calls(rng, signatures, callee, at + 1));
                signatures[callee].1
            }
            Work::Spork(spawned) | Work::SporkAndCall(spawned, _) => {
                let arguments = body.bind(rng, signatures[spawned].0);
                let scope: Temporaries = arguments.iter().copied().collect();
                let spawn = spawns.len() as Name;
                spawns.push(SpawnCall {
                    function: spawned as Name,
                    arguments,
                });
                blocks.push(body.ends(Transfer::Spork {
                    body: (at + 1) as Name,
                    spawn,
                }));
                let mut inside = Body::new(0, &scope).within(spawn);
                if let Work::SporkAndCall(_, callee) = work {
                    blocks.push(inside.calls(rng, signatures, callee, at + 2));
                    inside = Body::new(signatures[callee].1, &scope).within(spawn);
                }
                let unpromoted = blocks.len() + 1;
                blocks.push(inside.ends(Transfer::Spoin {
                    unpromoted: unpromoted as Name,
                    promoted: (unpromoted + 1) as Name,
                }));
                let mut alone = Body::new(0, &Temporaries::new());
                let arguments = alone.bind(rng, signatures[spawned].1);
                blocks.push(alone.ends(Transfer::Goto {
                    block: (unpromoted + 1) as Name,
                    arguments,
                }));
                signatures[spawned].1
            }
        };
        body = Body::new(brought, &Temporaries::new());
    }
    let arguments = body.bind(rng, returns);
    blocks.push(body.ends(Transfer::Return { arguments }));
    for &callee in &plan.dead {
        let at = blocks.len();
        let body = Body::new(signatures[callee].1, &Temporaries::new());
        blocks.push(body.calls(rng, signatures, callee, at));
    }
    Function {
        parameters,
        returns,
        spawns,
        blocks,
    }
}

/// A block under construction, and what is bound in it so far.
struct Body {
    block: Block,
    bound: Temporaries,
}

impl Body {
    /// A block that takes some values, beside its scope.
    fn new(taken: u8, scope: &Temporaries) -> Self {
        let parameters: Vec<Temporary> = (0..=MAX_TEMPORARY)
            .filter(|t| !scope.contains(t))
            .take(taken.into())
            .collect();
        let bound = scope.iter().chain(&parameters).copied().collect();
        let block = Block {
            parameters,
            scope: scope.clone(),
            nesting: Vec::new(),
            statements: Vec::new(),
            transfer: Transfer::Return { arguments: vec![] },
        };
        Body { block, bound }
    }

    /// The same block while a spawn call is open.
    fn within(mut self, spawn: Name) -> Self {
        self.block.nesting.push(spawn);
        self
    }

    /// Temporaries with a value, some of them new.
    fn bind(&mut self, rng: &mut Rng, count: u8) -> Vec<Temporary> {
        let mut temporaries = Vec::new();
        for _ in 0..count {
            let free: Vec<Temporary> = (0..=MAX_TEMPORARY)
                .filter(|t| !self.bound.contains(t))
                .collect();
            let bound: Vec<Temporary> = self.bound.iter().copied().collect();
            let old = rng.pick(&bound).filter(|_| rng.chance(50));
            let temporary = match old.or_else(|| rng.pick(&free)) {
                Some(temporary) => temporary,
                None => bound[0],
            };
            if self.bound.insert(temporary) {
                let before: Temporaries = bound.into_iter().collect();
                self.block.statements.push(Statement {
                    target: temporary,
                    expression: expression(rng, &before),
                });
            }
            temporaries.push(temporary);
        }
        temporaries
    }

    /// The block, with a call that comes back to a block.
    fn calls(mut self, rng: &mut Rng, signatures: &[Signature], callee: usize, to: usize) -> Block {
        let arguments = self.bind(rng, signatures[callee].0);
        self.ends(Transfer::Call {
            function: callee as Name,
            arguments,
            return_block: to as Name,
        })
    }

    /// The block with its transfer.
    fn ends(mut self, transfer: Transfer) -> Block {
        self.block.transfer = transfer;
        self.block
    }
}
