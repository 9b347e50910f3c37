//! Programs that never end, and choices on them that are all made.

use fast::Pace;
use mezdaulk::Choice;
use oracle::encode::encode;
use oracle::gen::pools::loose;
use oracle::gen::programs::pad;
use oracle::pool::Pool;
use oracle::rng::Rng;
use oracle::rules::{choose, PROMOTE, STEP};
use oracle::table::{Atom, Block, Expression, Function, Program, SpawnCall, Statement, Transfer};

const SEED: u64 = 1;
/// How many pools along a run are asked about.
const POOLS: usize = 64;

/// The paces of the runs: a token now and then, and more than can be spent.
const PACES: [Pace; 2] = [Pace { n: 100, c: 1 }, Pace { n: 1, c: 255 }];

/// A program that never ends, its table, and choices and beats from its start.
#[derive(Clone)]
pub struct Looping {
    title: &'static str,
    program: Program,
    pub table: Vec<u8>,
    pub choices: Vec<Choice>,
    pub beats: [Beats; 2],
}

/// Beats that are all made, and the steps and promotions that they make.
#[derive(Clone)]
pub struct Beats {
    pub pace: Pace,
    pub threads: Vec<u32>,
    pub choices: Vec<Choice>,
}

impl Looping {
    fn new(title: &'static str, program: Program, count: usize) -> Self {
        let table = encode(&program);
        assert_eq!(oracle::check(&table), Ok(()));
        Looping {
            choices: choices(&program, count),
            beats: PACES.map(|pace| Beats::new(&table, pace, count)),
            title,
            program,
            table,
        }
    }

    /// The same run, in a table of `size` bytes: the rest are dead blocks.
    pub fn padded(&self, size: usize) -> Looping {
        let mut rng = Rng::new(SEED);
        loop {
            let mut program = self.program.clone();
            if pad(&mut rng, &mut program, size) {
                let table = encode(&program);
                assert_eq!(oracle::check(&table), Ok(()));
                return Looping {
                    title: self.title,
                    program,
                    table,
                    choices: self.choices.clone(),
                    beats: self.beats.clone(),
                };
            }
        }
    }

    pub fn name(&self) -> String {
        format!("{}, {} bytes", self.title, self.table.len())
    }

    /// The words of the start.
    pub fn start(&self) -> Vec<i32> {
        Pool::start().to_words()
    }

    /// Pools along the run.
    pub fn pools(&self) -> Vec<Vec<i32>> {
        let mut pool = Pool::start();
        let mut pools = Vec::new();
        for choice in &self.choices[..10 * POOLS] {
            let made = choose(
                &self.program,
                &mut pool,
                choice.kind.into(),
                choice.thread.into(),
            );
            assert!(made.is_ok());
            pools.push(pool.to_words());
        }
        pools.into_iter().step_by(10).collect()
    }

    /// Any pools of so many threads.
    pub fn pools_of(&self, threads: usize) -> Vec<Vec<i32>> {
        let mut rng = Rng::new(SEED);
        let pools = std::iter::repeat_with(|| loose(&mut rng, &self.program));
        let fitting = pools.filter(|pool| pool.size() == threads);
        fitting.take(POOLS).map(|pool| pool.to_words()).collect()
    }

    pub fn fast_choices(&self) -> Vec<fast::Choice> {
        let each = |choice: &Choice| fast::Choice {
            kind: choice.kind,
            thread: choice.thread,
        };
        self.choices.iter().map(each).collect()
    }
}

impl Beats {
    /// Of any thread that can step.
    fn new(table: &[u8], pace: Pace, count: usize) -> Self {
        let mut rng = Rng::new(SEED);
        let mut words = Pool::start().to_words();
        let (mut threads, mut choices) = (Vec::with_capacity(count), Vec::new());
        while threads.len() < count {
            let thread = rng.below(words[0] as usize) as u32;
            if let Ok((_, promotions)) = fast::beat(table, &mut words, pace, thread) {
                threads.push(thread);
                choices.push(Choice::step(thread));
                choices.extend((0..promotions).map(|_| Choice::promote(thread)));
            }
        }
        Beats {
            pace,
            threads,
            choices,
        }
    }

    pub fn name(&self) -> String {
        format!("N = {}, C = {}", self.pace.n, self.pace.c)
    }

    /// The pace, for the library.
    pub fn lent(&self) -> mezdaulk::Pace {
        let Pace { n, c } = self.pace;
        mezdaulk::Pace { n, c }
    }

    /// How many promotions the beats make.
    pub fn promotions(&self) -> usize {
        self.choices.len() - self.threads.len()
    }
}

/// Choices that are made, of any thread, every sixth a promotion if it can be.
fn choices(program: &Program, count: usize) -> Vec<Choice> {
    let mut rng = Rng::new(SEED);
    let mut pool = Pool::start();
    let mut choices = Vec::with_capacity(count);
    while choices.len() < count {
        let kind = if rng.below(6) == 0 { PROMOTE } else { STEP };
        let thread = rng.below(pool.size()) as u64;
        if choose(program, &mut pool, kind, thread).is_ok() {
            choices.push(Choice {
                kind: kind as u32,
                thread: thread as u32,
            });
        }
    }
    choices
}

/// A statement, a spork, a call in its body, a spoin, and again.
pub fn small(count: usize) -> Looping {
    let program = Program {
        functions: vec![
            Function {
                parameters: 0,
                returns: 0,
                spawns: vec![spawn(1, &[])],
                blocks: vec![
                    block(&[], &[], &[], &[set(0, plain(value(1)))], spork(1, 0)),
                    block(&[], &[], &[0], &[], call(1, &[], 2)),
                    block(&[], &[], &[0], &[], spoin(0, 0)),
                ],
            },
            Function {
                parameters: 0,
                returns: 0,
                spawns: vec![],
                blocks: vec![block(&[], &[], &[], &[], give(&[]))],
            },
        ],
    };
    Looping::new("small loop", program, count)
}

/// Two sporks in each other around a call, joins of two values, and all ten
/// rules. The values that go round are few, so that no sum overflows: (0, 5),
/// (5, 3), (-3, 5) and (5, 0), one after another or the same again.
pub fn rich(count: usize) -> Looping {
    let main = Function {
        parameters: 0,
        returns: 1,
        spawns: vec![spawn(1, &[0, 1]), spawn(1, &[1, 0])],
        blocks: vec![
            block(
                &[],
                &[],
                &[],
                &[set(0, plain(value(0))), set(1, plain(value(5)))],
                goto(1, &[0, 1]),
            ),
            block(
                &[0, 1],
                &[],
                &[],
                &[
                    set(2, sum(name(0), value(1))),
                    set(3, less(name(1), name(2))),
                ],
                spork(2, 0),
            ),
            block(&[], &[0, 1], &[0], &[], spork(3, 1)),
            block(
                &[],
                &[0, 1],
                &[0, 1],
                &[set(4, sum(name(0), name(1)))],
                call(2, &[4, 0], 4),
            ),
            block(
                &[5],
                &[0, 1],
                &[0, 1],
                &[set(6, sum(name(5), name(1)))],
                spoin(5, 6),
            ),
            block(&[], &[0, 1], &[0], &[set(7, negated(name(0)))], spoin(7, 8)),
            block(
                &[8, 9],
                &[0, 1],
                &[0],
                &[set(10, sum(name(8), name(9)))],
                spoin(7, 8),
            ),
            block(
                &[],
                &[0, 1],
                &[],
                &[],
                branch(less(name(0), name(1)), 9, 10),
            ),
            block(
                &[11, 12],
                &[0, 1],
                &[],
                &[set(13, sum(name(11), name(12)))],
                goto(1, &[0, 1]),
            ),
            block(
                &[],
                &[0, 1],
                &[],
                &[set(2, sum(name(0), value(3)))],
                goto(1, &[1, 2]),
            ),
            block(
                &[],
                &[0, 1],
                &[],
                &[set(2, negated(name(1)))],
                goto(1, &[2, 0]),
            ),
        ],
    };
    let spawned = Function {
        parameters: 2,
        returns: 2,
        spawns: vec![],
        blocks: vec![
            block(
                &[],
                &[0, 1],
                &[],
                &[
                    set(2, sum(name(0), name(1))),
                    set(3, less(name(2), value(7))),
                    set(4, negated(name(3))),
                ],
                call(2, &[2, 4], 1),
            ),
            block(&[5], &[2], &[], &[], give(&[2, 5])),
        ],
    };
    let called = Function {
        parameters: 2,
        returns: 1,
        spawns: vec![],
        blocks: vec![
            block(
                &[],
                &[0, 1],
                &[],
                &[
                    set(2, sum(name(0), name(1))),
                    set(3, less(name(2), value(100))),
                ],
                branch(plain(name(3)), 1, 2),
            ),
            block(&[], &[3], &[], &[], give(&[3])),
            block(&[], &[0], &[], &[], give(&[0])),
        ],
    };
    let program = Program {
        functions: vec![main, spawned, called],
    };
    Looping::new("rich loop", program, count)
}

fn spawn(function: u8, arguments: &[u8]) -> SpawnCall {
    SpawnCall {
        function,
        arguments: arguments.to_vec(),
    }
}

fn block(
    parameters: &[u8],
    scope: &[u8],
    nesting: &[u8],
    statements: &[Statement],
    transfer: Transfer,
) -> Block {
    Block {
        parameters: parameters.to_vec(),
        scope: scope.iter().copied().collect(),
        nesting: nesting.to_vec(),
        statements: statements.to_vec(),
        transfer,
    }
}

fn set(target: u8, expression: Expression) -> Statement {
    Statement { target, expression }
}

fn value(value: i32) -> Atom {
    Atom::Value(value)
}

fn name(temporary: u8) -> Atom {
    Atom::Temporary(temporary)
}

fn plain(m: Atom) -> Expression {
    Expression::Plain(m)
}

fn negated(m: Atom) -> Expression {
    Expression::Negated(m)
}

fn sum(m: Atom, n: Atom) -> Expression {
    Expression::Sum(m, n)
}

fn less(m: Atom, n: Atom) -> Expression {
    Expression::Less(m, n)
}

fn goto(block: u8, arguments: &[u8]) -> Transfer {
    Transfer::Goto {
        block,
        arguments: arguments.to_vec(),
    }
}

fn branch(condition: Expression, then: u8, otherwise: u8) -> Transfer {
    Transfer::If {
        condition,
        then,
        otherwise,
    }
}

fn call(function: u8, arguments: &[u8], return_block: u8) -> Transfer {
    Transfer::Call {
        function,
        arguments: arguments.to_vec(),
        return_block,
    }
}

fn give(arguments: &[u8]) -> Transfer {
    Transfer::Return {
        arguments: arguments.to_vec(),
    }
}

fn spork(body: u8, spawn: u8) -> Transfer {
    Transfer::Spork { body, spawn }
}

fn spoin(unpromoted: u8, promoted: u8) -> Transfer {
    Transfer::Spoin {
        unpromoted,
        promoted,
    }
}
