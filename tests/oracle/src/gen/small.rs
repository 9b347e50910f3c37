//! Small programs in version 2: of a few blocks, temporaries and spawn calls,
//! so that all scopes and nestings of their functions can be tried.

use crate::every;
use crate::gen::brief::{block, drop_dead, goto, tangle};
use crate::gen::programs::{self, Shape};
use crate::rng::Rng;
use crate::table::{
    Atom, Expression, Function, Name, Program, SpawnCall, Statement, Temporary, Transfer,
};

/// A program of which all scopes and nestings can be tried.
pub fn small(rng: &mut Rng) -> Program {
    loop {
        let mut program = match rng.below(3) {
            0 => random_small(rng),
            _ => well_formed_small(rng),
        };
        if rng.chance(30) {
            tangle(rng, &mut program);
        }
        program.functions.iter_mut().for_each(squeeze);
        let few = |function| every::count(function).is_some_and(|count| count <= every::MOST);
        if program.functions.iter().all(few) {
            return program;
        }
    }
}

/// A well-formed program of a few blocks, and of several in main.
fn well_formed_small(rng: &mut Rng) -> Program {
    loop {
        let shape = Shape {
            functions: rng.one_of([1, 1, 2]),
            blocks: rng.between(2, 5),
            statements: rng.between(0, 2),
            spork: rng.one_of([0, 0, 50]),
            call: 20,
            back: 30,
            recursion: 50,
            dead: 0,
        };
        let mut program = programs::program(rng, &shape);
        program.functions.iter_mut().for_each(drop_dead);
        if program.functions[0].blocks.len() > 1 {
            return program;
        }
    }
}

/// Renames a function's temporaries to the lowest; parameters keep theirs.
fn squeeze(function: &mut Function) {
    let old: Vec<Temporary> = every::occurring(function).into_iter().collect();
    let place = |t: Temporary| old.iter().position(|&o| o == t).unwrap_or(0) as Temporary;
    for spawn in &mut function.spawns {
        renamed(&mut spawn.arguments, place);
    }
    for block in &mut function.blocks {
        renamed(&mut block.parameters, place);
        for statement in &mut block.statements {
            statement.target = place(statement.target);
            statement.expression = renamed_expression(statement.expression, place);
        }
        match &mut block.transfer {
            Transfer::Goto { arguments, .. }
            | Transfer::Call { arguments, .. }
            | Transfer::Return { arguments } => renamed(arguments, place),
            Transfer::If { condition, .. } => *condition = renamed_expression(*condition, place),
            Transfer::Spork { .. } | Transfer::Spoin { .. } => {}
        }
    }
}

fn renamed(temporaries: &mut [Temporary], place: impl Fn(Temporary) -> Temporary) {
    for temporary in temporaries {
        *temporary = place(*temporary);
    }
}

fn renamed_expression(
    expression: Expression,
    place: impl Fn(Temporary) -> Temporary,
) -> Expression {
    let atom = |atom: Atom| match atom {
        Atom::Temporary(t) => Atom::Temporary(place(t)),
        value => value,
    };
    match expression {
        Expression::Plain(m) => Expression::Plain(atom(m)),
        Expression::Negated(m) => Expression::Negated(atom(m)),
        Expression::Sum(m, n) => Expression::Sum(atom(m), atom(n)),
        Expression::Less(m, n) => Expression::Less(atom(m), atom(n)),
    }
}

/// A program of jumps and sporks at random, in which counts mostly fit.
fn random_small(rng: &mut Rng) -> Program {
    let functions = rng.one_of([1, 1, 2]);
    Program {
        functions: (0..functions)
            .map(|f| random_function(rng, f, functions))
            .collect(),
    }
}

fn random_function(rng: &mut Rng, f: usize, functions: usize) -> Function {
    let (blocks, spawns, most) = (rng.between(2, 4), rng.below(3), rng.byte(1, 2));
    let parameters = if f == 0 { 0 } else { rng.byte(0, 1) };
    let statement = |rng: &mut Rng| Statement {
        target: rng.byte(0, most),
        expression: some_expression(rng, most),
    };
    let made = |rng: &mut Rng, b: usize| {
        let statements = (0..rng.one_of([0, 0, 1, 2]))
            .map(|_| statement(rng))
            .collect();
        let onward = if rng.chance(70) {
            b + 1
        } else {
            rng.below(blocks)
        };
        let (next, any) = ((onward % blocks) as Name, rng.below(blocks) as Name);
        let transfer = match rng.below(8) {
            0 | 1 => goto(next),
            2 | 3 => Transfer::If {
                condition: some_expression(rng, most),
                then: next,
                otherwise: any,
            },
            4 => Transfer::Spork {
                body: next,
                spawn: rng.below(spawns.max(1)) as Name,
            },
            5 => Transfer::Spoin {
                unpromoted: next,
                promoted: rng.one_of([next, any]),
            },
            _ => Transfer::Return {
                arguments: Vec::new(),
            },
        };
        block(statements, transfer)
    };
    Function {
        parameters,
        returns: 0,
        spawns: (0..spawns)
            .map(|_| {
                let function = rng.below(functions);
                let count = rng.below(2).min(function);
                SpawnCall {
                    function: function as Name,
                    arguments: (0..count).map(|_| rng.byte(0, most)).collect(),
                }
            })
            .collect(),
        blocks: (0..blocks).map(|b| made(rng, b)).collect(),
    }
}

fn some_expression(rng: &mut Rng, most: Temporary) -> Expression {
    match rng.below(3) {
        0 => Expression::Plain(Atom::Value(1)),
        _ => Expression::Negated(Atom::Temporary(rng.byte(0, most))),
    }
}
