//! Well-formed tables of a size, made from a fixed seed. A set of tables has
//! as many bytes at each size, so that none is learnt by heart.

use oracle::encode::{encode, encode_brief};
use oracle::gen::brief::{block, drop_dead, fill_up, goto};
use oracle::gen::calls;
use oracle::gen::programs::{pad, program, Shape};
use oracle::rng::Rng;
use oracle::table::{
    Atom, Block, Expression, Function, Name, Program, SpawnCall, Statement, Transfer,
};

const SEED: u64 = 1;
/// How many bytes a set has, or a few more.
const SET: usize = 8 * 16_384;

/// Whether functions may reach themselves by calls, or call later ones alone.
#[derive(Clone, Copy, PartialEq, Eq)]
pub enum Calls {
    Any,
    Later,
}

impl Calls {
    fn shape(self, mut shape: Shape) -> Shape {
        if self == Calls::Later {
            shape.recursion = 0;
        }
        shape
    }
}

/// Tables of 30 to 60 bytes.
pub fn small(calls: Calls) -> Vec<Vec<u8>> {
    let mut rng = Rng::new(SEED);
    set(|| {
        let shape = calls.shape(Shape::tiny(&mut rng));
        let table = encode(&program(&mut rng, &shape));
        (30..=60).contains(&table.len()).then_some(table)
    })
}

/// Tables of exactly `size` bytes, little of it padding.
pub fn sized(size: usize, calls: Calls) -> Vec<Vec<u8>> {
    let mut rng = Rng::new(SEED);
    set(|| {
        let shape = calls.shape(shape(&mut rng, size));
        let mut program = program(&mut rng, &shape);
        let length = encode(&program).len();
        let near = length <= size && length >= size - size / 5;
        (near && pad(&mut rng, &mut program, size)).then(|| encode(&program))
    })
}

/// Tables of 16 functions of 32 blocks, all of which call later functions.
pub fn dense() -> Vec<Vec<u8>> {
    let mut rng = Rng::new(SEED);
    set(|| Some(encode(&calls::dense(&mut rng, 16, 32))))
}

/// Tables of version 2 of 30 to 60 bytes, whose blocks are all reached.
pub fn small_brief() -> Vec<Vec<u8>> {
    let mut rng = Rng::new(SEED);
    set(|| {
        let shape = Shape::tiny(&mut rng);
        let table = encode_brief(&live(program(&mut rng, &shape)));
        (30..=60).contains(&table.len()).then_some(table)
    })
}

/// The same of exactly `size` bytes, little of it added.
pub fn sized_brief(size: usize) -> Vec<Vec<u8>> {
    let mut rng = Rng::new(SEED);
    set(|| {
        let shape = Shape {
            functions: if size < 4_000 { 3 } else { 13 },
            blocks: 32,
            statements: rng.between(4, 10),
            spork: 50,
            dead: 0,
            ..shape(&mut rng, size)
        };
        let mut program = live(program(&mut rng, &shape));
        let length = encode_brief(&program).len();
        let near = length <= size && length >= size - size / 3;
        (near && fill_up(&mut rng, &mut program, size)).then(|| encode_brief(&program))
    })
}

fn live(mut program: Program) -> Program {
    program.functions.iter_mut().for_each(drop_dead);
    program
}

/// Tables of 16 functions of 32 blocks in a chain from the entry to the last
/// block and down to block 1, which uses what the entry binds: where nestings go
/// along it in sweeps upward, and scopes back along it in sweeps downward, each
/// sweep comes one block further. With the sweep that changes nothing it takes
/// 31 for the nestings, since the first comes to two blocks, and 32 for the
/// scopes. Where calls are open, most blocks are under four with eight arguments
/// each.
pub fn chain(open: bool) -> Vec<Vec<u8>> {
    set(|| Some(encode_brief(&chained(open))))
}

/// What is bound in the first block of the chain and used in its last.
const CARRIED: u8 = 12;
/// How many parameters every function but main has where calls are open.
const PARAMETERS: u8 = 8;

fn chained(open: bool) -> Program {
    let spawn = SpawnCall {
        function: 1,
        arguments: (0..PARAMETERS).collect(),
    };
    let function = |f: usize| Function {
        parameters: if open && f > 0 { PARAMETERS } else { 0 },
        returns: 0,
        spawns: if open { vec![spawn.clone(); 4] } else { vec![] },
        blocks: (0..32)
            .map(|b| chained_block(f, (32 - b) % 32, b, open))
            .collect(),
    };
    Program {
        functions: (0..16).map(function).collect(),
    }
}

/// Block b, which comes after `before` others in the chain.
fn chained_block(f: usize, before: usize, b: usize, open: bool) -> Block {
    let value = |target| Statement {
        target,
        expression: Expression::Plain(Atom::Value(target.into())),
    };
    let negated = |target, of| Statement {
        target,
        expression: Expression::Negated(Atom::Temporary(of)),
    };
    let statements = match b {
        0 if open && f == 0 => (0..PARAMETERS).chain([CARRIED]).map(value).collect(),
        0 => vec![value(CARRIED)],
        1 => vec![negated(CARRIED + 1, CARRIED)],
        _ => vec![value(8), negated(9, 8), negated(10, 9)],
    };
    let next = if b == 0 { 31 } else { b as Name - 1 };
    let transfer = match before {
        31 => Transfer::Return { arguments: vec![] },
        0..4 if open => Transfer::Spork {
            body: next,
            spawn: before as Name,
        },
        27..31 if open => Transfer::Spoin {
            unpromoted: next,
            promoted: next,
        },
        _ => goto(next),
    };
    block(statements, transfer)
}

/// A set of the tables that some tries make.
fn set(mut tried: impl FnMut() -> Option<Vec<u8>>) -> Vec<Vec<u8>> {
    let mut tables = Vec::new();
    let mut bytes = 0;
    while bytes < SET {
        if let Some(table) = tried() {
            bytes += table.len();
            tables.push(table);
        }
    }
    tables
}

/// A shape whose programs are often of about that size.
fn shape(rng: &mut Rng, size: usize) -> Shape {
    let (functions, blocks) = if size < 4_000 { (4, 20) } else { (16, 32) };
    Shape {
        functions,
        blocks,
        statements: rng.between(2, 6),
        spork: 30,
        call: 20,
        back: 10,
        recursion: 20,
        dead: 80,
    }
}
