//! A pool with the longest listings: eight threads, each the child of the one
//! before it, and every number in their lines as long as it can be.

use crate::pool::{Frame, OpenCall, Pool, Thread, MAX_THREADS, TEMPORARIES};
use crate::table::{
    Atom, Block, Expression, Function, Program, SpawnCall, Statement, Transfer, MAX_BLOCKS,
    MAX_FUNCTIONS, MAX_TEMPORARY,
};

/// The lengths of the operator's listing and of the customer's.
pub const OPERATOR: usize = 164;
pub const CUSTOMER: usize = 2_004;

const FUNCTION: usize = MAX_FUNCTIONS as usize - 1;
const BLOCK: usize = MAX_BLOCKS as usize - 1;

/// The last block of the last function binds every temporary.
pub fn program() -> Program {
    let returning = |statements| Block {
        parameters: vec![],
        scope: [].into(),
        nesting: vec![],
        statements,
        transfer: Transfer::Return { arguments: vec![] },
    };
    let function = |spawns, blocks| Function {
        parameters: 0,
        returns: 0,
        spawns,
        blocks,
    };
    let least = |target| Statement {
        target,
        expression: Expression::Plain(Atom::Value(i32::MIN)),
    };
    let mut functions = vec![function(vec![], vec![returning(vec![])]); FUNCTION];
    let mut blocks = vec![returning(vec![]); BLOCK];
    blocks.push(returning((0..=MAX_TEMPORARY).map(least).collect()));
    let spawn = SpawnCall {
        function: 0,
        arguments: vec![],
    };
    functions.push(function(vec![spawn], blocks));
    Program { functions }
}

/// Every thread stands at the end of that block, with one promoted call or, the
/// last, none.
pub fn pool() -> Pool {
    let thread = |promoted| {
        let mut frame = Frame::entering(FUNCTION, &[i32::MIN; TEMPORARIES]);
        frame.block = BLOCK;
        frame.done = TEMPORARIES;
        frame.calls = vec![OpenCall::plain(0); promoted];
        frame.promoted = promoted;
        let mut thread = Thread::entering(0, &[]);
        thread.frames = vec![frame];
        thread
    };
    let above = |child: Thread, _| {
        let mut parent = thread(1);
        parent.children.push(child);
        parent
    };
    Pool {
        root: (1..MAX_THREADS).fold(thread(0), above),
    }
}
