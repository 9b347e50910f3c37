//! A full pool: eight threads of eight frames each, which choices make from a
//! fresh one. Where each frame begins is seen in its words.

use crate::gen::schedules::Choice;
use crate::pool::{
    BLOCK, BOUND, FRAME_WORDS, FUNCTION, MAX_FRAMES, MAX_THREADS, OPEN, POOL_WORDS, PROMOTED,
    THREAD_HEAD, VALUES,
};
use crate::rules::{PROMOTE, STEP};
use crate::table::{
    Atom, Block, Expression, Function, Name, Program, SpawnCall, Statement, Temporary, Transfer,
};
use std::iter::repeat_n;

/// Functions 0 to 7 set temporary 0 to their own number, open a spawn call with
/// it as argument, and call the next; functions 8 to 15 call the next with
/// their parameter. A spawn call starts function 8.
pub fn program() -> Program {
    let callers = (0..MAX_FRAMES).map(caller);
    let children = (0..MAX_FRAMES).map(child);
    Program {
        functions: callers.chain(children).collect(),
    }
}

/// What fills the pool: thread 0 calls as deep as it can, all its open calls
/// but the newest are promoted, and every child calls as deep as it can.
pub fn choices() -> Vec<Choice> {
    let calls = MAX_FRAMES - 1;
    let mut choices: Vec<Choice> = repeat_n((STEP, 0), 3 * calls + 2).collect();
    choices.extend(repeat_n((PROMOTE, 0), MAX_THREADS - 1));
    for thread in 1..MAX_THREADS {
        choices.extend(repeat_n((STEP, thread as u64), calls));
    }
    choices
}

/// The full pool's words, with its frames at these starts: thread by thread,
/// oldest frame first.
pub fn words(starts: &[usize]) -> Vec<i32> {
    let mut words = vec![0; POOL_WORDS];
    words[0] = MAX_THREADS as i32;
    for (thread, starts) in starts.chunks(MAX_FRAMES).enumerate() {
        words[starts[0] - THREAD_HEAD] = MAX_FRAMES as i32;
        for (frame, &start) in starts.iter().enumerate() {
            let newest = frame == MAX_FRAMES - 1;
            let at = &mut words[start..start + FRAME_WORDS];
            at[BOUND] = 1;
            if thread == 0 {
                at[FUNCTION] = frame as i32;
                at[BLOCK] = if newest { 1 } else { 2 };
                at[OPEN] = 1;
                at[PROMOTED] = if newest { 0 } else { 1 };
                at[VALUES] = frame as i32;
            } else {
                // the child that was promoted last stands first
                at[FUNCTION] = (MAX_FRAMES + frame) as i32;
                at[BLOCK] = if newest { 0 } else { 1 };
                at[VALUES] = (MAX_THREADS - 1 - thread) as i32;
            }
        }
    }
    words
}

fn caller(number: usize) -> Function {
    let meanwhile = match number + 1 {
        MAX_FRAMES => Transfer::Goto {
            block: 2,
            arguments: vec![],
        },
        next => calls(next, &[], 2),
    };
    let spork = Transfer::Spork { body: 1, spawn: 0 };
    let spoin = Transfer::Spoin {
        unpromoted: 3,
        promoted: 3,
    };
    let mut entry = block(&[], &[], spork);
    entry.statements.push(Statement {
        target: 0,
        expression: Expression::Plain(Atom::Value(number as i32)),
    });
    Function {
        parameters: 0,
        returns: 0,
        spawns: vec![SpawnCall {
            function: MAX_FRAMES as Name,
            arguments: vec![0],
        }],
        blocks: vec![
            entry,
            block(&[0], &[0], meanwhile),
            block(&[0], &[0], spoin),
            block(&[], &[], returns()),
        ],
    }
}

fn child(number: usize) -> Function {
    let transfer = match number + 1 {
        MAX_FRAMES => returns(),
        next => calls(MAX_FRAMES + next, &[0], 1),
    };
    Function {
        parameters: 1,
        returns: 0,
        spawns: vec![],
        blocks: vec![block(&[0], &[], transfer), block(&[], &[], returns())],
    }
}

fn block(scope: &[Temporary], nesting: &[Name], transfer: Transfer) -> Block {
    Block {
        parameters: vec![],
        scope: scope.iter().copied().collect(),
        nesting: nesting.to_vec(),
        statements: vec![],
        transfer,
    }
}

fn calls(function: usize, arguments: &[Temporary], return_block: Name) -> Transfer {
    Transfer::Call {
        function: function as Name,
        arguments: arguments.to_vec(),
        return_block,
    }
}

fn returns() -> Transfer {
    Transfer::Return { arguments: vec![] }
}
