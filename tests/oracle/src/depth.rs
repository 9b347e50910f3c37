//! The depth of a table: the most frames that a chain of calls can need. A
//! chain begins at any function, also one that nothing mentions, and goes on
//! by the calls of all blocks, reached or not; a spawn call is no part of it.

use crate::check::check_program;
use crate::graph::{cyclic, Graph};
use crate::refusal::Refusal;
use crate::table::{read, Function, Program, Transfer, MAX_FUNCTIONS};
use std::collections::BTreeSet;

/// The number where some function reaches itself by calls.
pub const CYCLE: u8 = 22;

/// How many paths are walked at most.
const MOST_PATHS: usize = 5_000;

/// Reads and judges a table, and gives its depth; refusals 1 to 11 and 22.
pub fn depth(table: &[u8]) -> Result<u8, Refusal> {
    let program = read(table)?;
    check_program(&program)?;
    depth_of(&program).ok_or(Refusal::plain(CYCLE))
}

/// The depth of a well-formed program, or none where some function reaches
/// itself. All paths are walked where they are few; the rounds must say the
/// same.
pub fn depth_of(program: &Program) -> Option<u8> {
    let calls = calls(program);
    let rounds = by_rounds(&calls);
    assert_eq!(rounds.is_none(), cyclic(&calls), "rounds and reach differ");
    let rounds = rounds?;
    let depth = by_paths(&calls).unwrap_or(rounds);
    assert_eq!(depth, rounds, "paths and rounds differ");
    Some(depth)
}

/// The functions that each function calls, in any of its blocks.
pub fn calls(program: &Program) -> Graph {
    let called = |function: &Function| {
        let names: BTreeSet<usize> = function
            .blocks
            .iter()
            .filter_map(|block| match block.transfer {
                Transfer::Call { function, .. } => Some(function.into()),
                _ => None,
            })
            .collect();
        names.into_iter().collect()
    };
    program.functions.iter().map(called).collect()
}

/// The functions on the longest path of calls, every path walked from every
/// function, none of them with a function twice; none where they are many.
pub fn by_paths(calls: &Graph) -> Option<u8> {
    let mut ahead: Vec<Vec<usize>> = (0..calls.len()).map(|f| vec![f]).collect();
    let mut longest = 0;
    let mut walked = 0;
    while let Some(path) = ahead.pop() {
        walked += 1;
        if walked > MOST_PATHS {
            return None;
        }
        longest = longest.max(path.len());
        let last = path[path.len() - 1];
        for &next in &calls[last] {
            if !path.contains(&next) {
                ahead.push([path.as_slice(), &[next]].concat());
            }
        }
    }
    Some(longest as u8)
}

/// The most frames that a function needs: one more than its deepest callee,
/// worked out for all functions at once, in one round more than there can be
/// functions. None where that has not come to rest: a function reaches itself.
pub fn by_rounds(calls: &Graph) -> Option<u8> {
    let mut needed = vec![0; calls.len()];
    for _ in 0..=MAX_FUNCTIONS {
        needed = calls
            .iter()
            .map(|callees| 1 + callees.iter().map(|&g| needed[g]).max().unwrap_or(0))
            .collect();
    }
    let most = needed.into_iter().max().unwrap_or(0);
    (most <= MAX_FUNCTIONS).then_some(most)
}
