//! Tables of version 2: well-formed programs without their scopes and
//! nestings, as they are, with blocks that nothing reaches, with faults and
//! with jumps that lead elsewhere; loops, deep nestings, joins that disagree,
//! small functions, sizes around the largest, and spoiled bytes.

use crate::complete::{IMPOSSIBLE, UNREACHED};
use crate::encode::encode_brief;
use crate::gen::bytes;
use crate::gen::faults;
use crate::gen::programs::{self, filler, targets_mut, Temporaries};
use crate::gen::small::small;
use crate::graph::live;
use crate::refusal::{Refusal, NO_BLOCK};
use crate::rng::Rng;
use crate::table::{
    Atom, Block, Expression, Function, Name, Program, SpawnCall, Statement, Temporary, Transfer,
    Version, BRIEF_MAX, MAX_BLOCKS, MAX_FUNCTIONS, MAX_NESTING, MAX_RETURNS, MAX_SPAWNS,
    MAX_TEMPORARY,
};

/// Where a table comes from.
#[derive(Clone, Copy, Debug, PartialEq, Eq)]
pub enum Kind {
    /// A well-formed program, every block reached.
    Stripped,
    /// The same of a size around the largest.
    Sized,
    /// Long loops, in which temporaries are needed far from where they are
    /// bound.
    Looped,
    /// Sporks one in another, four or fewer.
    Deep,
    /// The same, too many of them, or closed too often or too seldom.
    TooDeep,
    /// Two ways to a block with different calls open.
    Disagreeing,
    /// Well formed but for blocks that nothing reaches.
    Dead,
    /// With planted faults.
    Faulty,
    /// With jumps that lead elsewhere and other temporaries.
    Tangled,
    /// Names and counts at random.
    Loose,
    /// Few blocks, temporaries and spawn calls.
    Small,
    /// Bytes cut, stretched or mutated.
    Spoiled,
}

impl Kind {
    /// All kinds.
    pub const ALL: [Kind; 12] = [
        Kind::Stripped,
        Kind::Sized,
        Kind::Looped,
        Kind::Deep,
        Kind::TooDeep,
        Kind::Disagreeing,
        Kind::Dead,
        Kind::Faulty,
        Kind::Tangled,
        Kind::Loose,
        Kind::Small,
        Kind::Spoiled,
    ];

    /// The name of a kind's event.
    pub fn event(self) -> String {
        format!("version 2 {self:?}")
    }
}

/// A table of version 2, and what is known of its completion.
pub struct Brief {
    pub kind: Kind,
    pub table: Vec<u8>,
    /// What it is refused with, or a program with scopes and nestings that
    /// pass.
    pub known: Option<Result<Program, Refusal>>,
    /// Whether these scopes are the smallest.
    pub smallest: bool,
}

/// A table of any kind.
pub fn brief(rng: &mut Rng) -> Brief {
    let kind = rng.one_of(Kind::ALL);
    brief_of(rng, kind)
}

/// A table of a kind.
pub fn brief_of(rng: &mut Rng, kind: Kind) -> Brief {
    if kind == Kind::Spoiled {
        let program = all_reached(rng);
        let (table, known) = bytes::spoiled_as(rng, &program, Version::Brief);
        return Brief {
            kind,
            table,
            known: known.map(Err),
            smallest: false,
        };
    }
    loop {
        let (program, known) = program_of(rng, kind);
        let table = encode_brief(&program);
        let known = if table.len() > BRIEF_MAX {
            Some(Err(Refusal::plain(1)))
        } else {
            known
        };
        if table.len() <= BRIEF_MAX || kind == Kind::Sized {
            return Brief {
                kind,
                table,
                known,
                smallest: matches!(kind, Kind::Looped | Kind::Deep),
            };
        }
    }
}

/// A program of a kind, and what is known of its completion, if it is not too
/// large.
fn program_of(rng: &mut Rng, kind: Kind) -> (Program, Option<Result<Program, Refusal>>) {
    let given = |program: Program| (program.clone(), Some(Ok(program)));
    match kind {
        Kind::Stripped => given(all_reached(rng)),
        Kind::Sized => {
            let size = rng.one_of([BRIEF_MAX - 1, BRIEF_MAX, BRIEF_MAX, BRIEF_MAX + 1]);
            given(sized(rng, size))
        }
        Kind::Looped => given(beside(rng, |rng, _| looped(rng))),
        Kind::Deep => {
            let depth = rng.between(0, MAX_NESTING.into());
            given(beside(rng, |rng, _| deep(rng, depth, 0)))
        }
        Kind::TooDeep => impossible(rng, |rng| {
            let (depth, more) =
                rng.one_of([(5, 0), (6, 0), (0, 1), (2, 1), (4, 1), (1, -1), (4, -2)]);
            deep(rng, depth, more)
        }),
        Kind::Disagreeing => impossible(rng, disagreeing),
        Kind::Dead => dead(rng),
        Kind::Faulty => {
            let mut program = all_reached(rng);
            faults::plant_any(rng, &mut program);
            (program, None)
        }
        Kind::Tangled => {
            let mut program = all_reached(rng);
            for _ in 0..rng.between(1, 3) {
                tangle(rng, &mut program);
            }
            (program, None)
        }
        Kind::Loose => (programs::loose(rng), None),
        Kind::Small => (small(rng), None),
        Kind::Spoiled => unreachable!("spoiled bytes are of no program"),
    }
}

/// A program without what version 2 leaves out.
pub fn bare(program: &Program) -> Program {
    let mut bare = program.clone();
    for block in bare.functions.iter_mut().flat_map(|f| &mut f.blocks) {
        block.scope.clear();
        block.nesting.clear();
    }
    bare
}

/// A well-formed program whose blocks are all reached; its scopes are often
/// larger than they must be.
pub fn all_reached(rng: &mut Rng) -> Program {
    loop {
        let mut program = programs::well_formed(rng);
        program.functions.iter_mut().for_each(drop_dead);
        if encode_brief(&program).len() <= BRIEF_MAX {
            return program;
        }
    }
}

/// Takes out the blocks that nothing reaches.
pub fn drop_dead(function: &mut Function) {
    let live = live(function);
    let place = |b: Name| live[..usize::from(b)].iter().filter(|&&live| live).count() as Name;
    for block in &mut function.blocks {
        for name in targets_mut(&mut block.transfer) {
            *name = place(*name);
        }
    }
    let mut number = 0;
    function.blocks.retain(|_| {
        number += 1;
        live[number - 1]
    });
}

/// The same of exactly a size, by functions that nothing calls.
pub fn sized(rng: &mut Rng, size: usize) -> Program {
    loop {
        let mut program = all_reached(rng);
        if fill_up(rng, &mut program, size) {
            return program;
        }
    }
}

/// Bytes of a block of version 2 that is added, and those that version 1 has
/// besides.
const PIECE_MIN: usize = 16;
const PIECE_MAX: usize = 157;
const HEAD: usize = 3;

/// Adds functions of blocks that are all reached up to a size of version 2;
/// false if that cannot be met.
pub fn fill_up(rng: &mut Rng, program: &mut Program, size: usize) -> bool {
    let mut length = encode_brief(program).len();
    let mut own = None;
    while length < size {
        let (f, counts) = match own {
            Some(f) => (f, 0),
            None if program.functions.len() < usize::from(MAX_FUNCTIONS) => {
                program.functions.push(Function {
                    parameters: 0,
                    returns: rng.byte(0, MAX_RETURNS),
                    spawns: Vec::new(),
                    blocks: Vec::new(),
                });
                (program.functions.len() - 1, 4)
            }
            None => return false,
        };
        length += counts;
        let piece = match size.checked_sub(length) {
            Some(left @ PIECE_MIN..=PIECE_MAX) => left,
            Some(left) if left > PIECE_MAX => rng.between(100, 140),
            _ => return false,
        };
        let blocks = &mut program.functions[f].blocks;
        let name = blocks.len() as Name;
        if let Some(before) = blocks.last_mut() {
            before.transfer = goto(name);
        }
        blocks.push(filler(rng, name, piece + HEAD));
        own = (blocks.len() < usize::from(MAX_BLOCKS)).then_some(f);
        length += piece;
    }
    length == size
}

/// A goto without arguments.
pub fn goto(block: Name) -> Transfer {
    Transfer::Goto {
        block,
        arguments: Vec::new(),
    }
}

/// A block with an empty scope and nesting.
pub fn block(statements: Vec<Statement>, transfer: Transfer) -> Block {
    Block {
        parameters: Vec::new(),
        scope: Temporaries::new(),
        nesting: Vec::new(),
        statements,
        transfer,
    }
}

/// A statement that binds a temporary to a value.
fn binding(rng: &mut Rng, target: Temporary) -> Statement {
    Statement {
        target,
        expression: Expression::Plain(Atom::Value(rng.value())),
    }
}

/// Some functions without parameters, each made by itself; their spawn calls
/// are of functions that return nothing.
fn beside(rng: &mut Rng, mut made: impl FnMut(&mut Rng, usize) -> Function) -> Program {
    let count = rng.one_of([1, 1, 2, 3, 16]);
    let mut program = Program {
        functions: (0..count).map(|f| made(rng, f)).collect(),
    };
    let silent: Vec<Name> = (0..count as Name)
        .filter(|&f| program.functions[usize::from(f)].returns == 0)
        .collect();
    for spawn in program.functions.iter_mut().flat_map(|f| &mut f.spawns) {
        spawn.function = rng.pick(&silent).unwrap_or(0);
    }
    program
}

/// Well-formed functions with impossible ones among them; the first of these
/// is known.
fn impossible(
    rng: &mut Rng,
    mut made: impl FnMut(&mut Rng) -> Function,
) -> (Program, Option<Result<Program, Refusal>>) {
    let mut lowest = None;
    let program = beside(rng, |rng, f| {
        if rng.chance(40) || f == 15 {
            lowest.get_or_insert(f);
            made(rng)
        } else {
            let depth = rng.between(0, 4);
            deep(rng, depth, 0)
        }
    });
    match lowest {
        Some(f) => (program, Some(Err(Refusal::fault(IMPOSSIBLE, f, NO_BLOCK)))),
        None => (program.clone(), Some(Ok(program))),
    }
}

/// A ring of blocks behind the entry and a way out of it, in any order. What a
/// block of the ring or the way out uses is bound in the entry, and in the
/// scope of every block of the ring.
fn looped(rng: &mut Rng) -> Function {
    let ring = rng.one_of([1, 2, 5, 12, 30]);
    let mut bound: Vec<Temporary> = (0..=MAX_TEMPORARY).collect();
    rng.shuffle(&mut bound);
    bound.truncate(rng.between(1, 8));
    let mut order: Vec<usize> = (1..ring + 2).collect();
    rng.shuffle(&mut order);
    order.insert(0, 0);
    let name = |k: usize| order[k] as Name;
    let exit = ring + 1;
    let leaves = rng.between(1, ring);
    let returned: Vec<Temporary> = (0..rng.below(5)).filter_map(|_| rng.pick(&bound)).collect();
    let mut needed: Temporaries = returned.iter().copied().collect();
    let entry = block(
        bound.iter().map(|&target| binding(rng, target)).collect(),
        goto(name(1)),
    );
    let mut blocks = vec![entry];
    for k in 1..=ring {
        let used = rng.pick(&bound).filter(|_| rng.chance(20));
        needed.extend(used);
        let condition = Expression::Plain(used.map_or(Atom::Value(0), Atom::Temporary));
        let next = name(k % ring + 1);
        let transfer = match used {
            None if k != leaves => goto(next),
            _ => Transfer::If {
                condition,
                then: next,
                otherwise: if k == leaves { name(exit) } else { next },
            },
        };
        blocks.push(block(Vec::new(), transfer));
    }
    for ring in &mut blocks[1..] {
        ring.scope = needed.clone();
    }
    let mut last = block(
        Vec::new(),
        Transfer::Return {
            arguments: returned.clone(),
        },
    );
    last.scope = returned.iter().copied().collect();
    blocks.push(last);
    in_order(&order, blocks, returned.len() as u8)
}

/// Blocks at the places that an order gives them.
fn in_order(order: &[usize], blocks: Vec<Block>, returns: u8) -> Function {
    let mut placed = blocks.clone();
    for (block, &place) in blocks.into_iter().zip(order) {
        placed[place] = block;
    }
    Function {
        parameters: 0,
        returns,
        spawns: Vec::new(),
        blocks: placed,
    }
}

/// So many sporks one in another, and as many spoins or some more or fewer; the
/// spawned functions are without parameters and values.
fn deep(rng: &mut Rng, depth: usize, more: i32) -> Function {
    let spawns = rng.between(1, MAX_SPAWNS.into());
    let spoins = (depth as i32 + more) as usize;
    let count = depth + spoins + 1;
    let mut order: Vec<usize> = (1..count).collect();
    rng.shuffle(&mut order);
    order.insert(0, 0);
    let mut nesting = Vec::new();
    let mut blocks = Vec::new();
    for k in 0..count {
        let next = order.get(k + 1).map_or(0, |&place| place as Name);
        let open = nesting.clone();
        let transfer = if k < depth {
            let spawn = rng.below(spawns) as Name;
            nesting.push(spawn);
            Transfer::Spork { body: next, spawn }
        } else if k < depth + spoins {
            nesting.pop();
            Transfer::Spoin {
                unpromoted: next,
                promoted: next,
            }
        } else {
            Transfer::Return {
                arguments: Vec::new(),
            }
        };
        let mut made = block(Vec::new(), transfer);
        made.nesting = open;
        blocks.push(made);
    }
    Function {
        spawns: vec![silent_spawn(); spawns],
        ..in_order(&order, blocks, 0)
    }
}

/// Two ways from the entry to block 1, which goes to itself, with other sporks
/// on the way or in another order: that they disagree is its only fault.
fn disagreeing(rng: &mut Rng) -> Function {
    let ways: [&[Name]; 2] = rng.one_of([
        [&[0], &[1]],
        [&[], &[0]],
        [&[0, 1], &[1, 0]],
        [&[0, 0], &[0]],
        [&[0, 1, 0, 1], &[0, 1, 1, 1]],
    ]);
    let [one, other] = match rng.chance(50) {
        true => ways,
        false => [ways[1], ways[0]],
    };
    let (first, second) = (2, 2 + one.len());
    let begin = |way: &[Name], begin: usize| if way.is_empty() { 1 } else { begin as Name };
    let fork = Transfer::If {
        condition: Expression::Plain(Atom::Value(1)),
        then: begin(one, first),
        otherwise: begin(other, second),
    };
    let mut blocks = vec![block(Vec::new(), fork), block(Vec::new(), goto(1))];
    for (begin, way) in [(first, one), (second, other)] {
        for (k, &spawn) in way.iter().enumerate() {
            let last = k + 1 == way.len();
            let body = if last { 1 } else { (begin + k + 1) as Name };
            blocks.push(block(Vec::new(), Transfer::Spork { body, spawn }));
        }
    }
    Function {
        parameters: 0,
        returns: 0,
        spawns: vec![silent_spawn(); 2],
        blocks,
    }
}

/// A spawn call without arguments; its function is chosen later.
fn silent_spawn() -> SpawnCall {
    SpawnCall {
        function: 0,
        arguments: Vec::new(),
    }
}

/// A well-formed program with blocks that nothing reaches behind those of some
/// functions; sometimes with faults too, that come after 25.
fn dead(rng: &mut Rng) -> (Program, Option<Result<Program, Refusal>>) {
    let mut program = all_reached(rng);
    let mut first = None;
    for (f, function) in program.functions.iter_mut().enumerate() {
        let blocks = function.blocks.len();
        if !rng.chance(30) || blocks == usize::from(MAX_BLOCKS) {
            continue;
        }
        first.get_or_insert(Refusal::fault(UNREACHED, f, blocks));
        let last = rng.between(blocks + 1, (blocks + 3).min(MAX_BLOCKS.into()));
        for b in blocks..last {
            let any = rng.between(0, last) as Name;
            let transfer = goto(rng.one_of([b as Name, any, 0, u8::MAX]));
            function.blocks.push(block(Vec::new(), transfer));
        }
    }
    if first.is_some() && rng.chance(30) {
        program.functions[0].parameters = rng.byte(0, 2);
        let f = rng.below(program.functions.len());
        if let Some(spawn) = program.functions[f].spawns.first_mut() {
            spawn.function = u8::MAX;
        }
    }
    let known = match first {
        Some(refusal) => Err(refusal),
        None => Ok(program.clone()),
    };
    (program, Some(known))
}

/// Changes a jump, a spork, a temporary or a count somewhere.
pub fn tangle(rng: &mut Rng, program: &mut Program) {
    let f = rng.below(program.functions.len());
    let function = &mut program.functions[f];
    let (blocks, spawns) = (function.blocks.len(), function.spawns.len());
    let b = rng.below(blocks);
    let any = rng.byte(0, MAX_TEMPORARY);
    let block = &mut function.blocks[b];
    match rng.below(8) {
        0 | 1 => {
            let mut targets = targets_mut(&mut block.transfer);
            if !targets.is_empty() {
                let side = rng.below(targets.len());
                *targets[side] = rng.below(blocks) as Name;
            }
        }
        2 => {
            if let Transfer::Spork { spawn, .. } = &mut block.transfer {
                *spawn = rng.below(spawns.max(1)) as Name;
            }
        }
        3 => {
            if let Some(k) =
                (!block.statements.is_empty()).then(|| rng.below(block.statements.len()))
            {
                block.statements[k].target = any;
            }
        }
        4 => {
            if let Some(k) =
                (!block.statements.is_empty()).then(|| rng.below(block.statements.len()))
            {
                block.statements[k].expression = Expression::Negated(Atom::Temporary(any));
            }
        }
        5 => {
            if let Some(k) =
                (!block.parameters.is_empty()).then(|| rng.below(block.parameters.len()))
            {
                block.parameters[k] = any;
            }
        }
        6 => {
            let spawn = rng.below(spawns.max(1));
            if let Some(spawn) = function.spawns.get_mut(spawn) {
                if let Some(argument) = spawn.arguments.first_mut() {
                    *argument = any;
                }
            }
        }
        _ => {
            if let Transfer::Goto { arguments, .. }
            | Transfer::Call { arguments, .. }
            | Transfer::Return { arguments } = &mut block.transfer
            {
                if let Some(argument) = arguments.first_mut() {
                    *argument = any;
                }
            }
        }
    }
}
