//! The completion of a table of version 2: the scopes and nestings that it
//! leaves out, the smallest that pass the rules, written as version 1.
//!
//! Nestings go from the entry along the transfers, in depth; a scope's
//! temporaries go back along them, each temporary by itself from where it is
//! needed to where it is bound. The check then judges each function as it
//! judges any: what fails with these fails with all others.

use crate::check::check_function;
use crate::encode::encode;
use crate::graph::{jumps, live, reversed, Graph};
use crate::refusal::{Refusal, NO_BLOCK};
use crate::table::{
    read_brief, Block, Function, Name, Program, Temporary, Transfer, MAX_NESTING, MAX_TEMPORARY,
    TABLE_MAX,
};
use std::collections::BTreeSet;

/// The numbers: too few words or an output of another length, a block that is
/// not reached, a function that nothing passes.
pub const LENT: u8 = 24;
pub const UNREACHED: u8 = 25;
pub const IMPOSSIBLE: u8 = 26;

/// How many bytes the output has, and how many words the scratch at least.
pub const OUTPUT: usize = TABLE_MAX;
pub const SCRATCH: usize = 1_024;

/// Writes the completed table with 0 behind it and gives its length; refusals
/// 1 to 3 and 24 to 26. But for 1 to 3 and 24 the first 1,024 words of the
/// scratch are 0 afterwards.
pub fn complete(table: &[u8], out: &mut [u8], scratch: &mut [u32]) -> Result<usize, Refusal> {
    let program = read_brief(table)?;
    if scratch.len() < SCRATCH || out.len() != OUTPUT {
        return Err(Refusal::plain(LENT));
    }
    scratch[..SCRATCH].fill(0);
    let table = encode(&completed(&program)?);
    out[..table.len()].copy_from_slice(&table);
    out[table.len()..].fill(0);
    Ok(table.len())
}

/// The completed program of one without scopes and nestings; 25 and 26.
pub fn completed(program: &Program) -> Result<Program, Refusal> {
    for (f, function) in program.functions.iter().enumerate() {
        if let Some(b) = live(function).iter().position(|live| !live) {
            return Err(Refusal::fault(UNREACHED, f, b));
        }
    }
    let functions = (0..program.functions.len())
        .map(|f| completed_function(program, f).ok_or(Refusal::fault(IMPOSSIBLE, f, NO_BLOCK)))
        .collect::<Result<_, _>>()?;
    Ok(Program { functions })
}

/// A function with what is inferred, if that passes.
fn completed_function(program: &Program, f: usize) -> Option<Function> {
    let mut function = program.functions[f].clone();
    let nestings = nestings(&function)?;
    let scopes = scopes(&function, &nestings);
    for (block, (scope, nesting)) in function
        .blocks
        .iter_mut()
        .zip(scopes.into_iter().zip(nestings))
    {
        block.scope = scope;
        block.nesting = nesting;
    }
    passes(program, f, &function).then_some(function)
}

/// Whether a function passes the rules as function f of a program. That main
/// has no parameters is a rule of function 0.
pub fn passes(program: &Program, f: usize, function: &Function) -> bool {
    (f != 0 || function.parameters == 0) && check_function(program, function).is_ok()
}

/// The nesting of each block of a function whose blocks are all reached; none
/// where there is no such nesting: a name that no block has, a spoin under no
/// nesting, a spork under four, or two ways that disagree.
pub fn nestings(function: &Function) -> Option<Vec<Vec<Name>>> {
    let mut found: Vec<Option<Vec<Name>>> = vec![None; function.blocks.len()];
    let mut ahead = vec![(0, Vec::new())];
    while let Some((b, nesting)) = ahead.pop() {
        match found.get_mut(usize::from(b))? {
            Some(before) if *before == nesting => {}
            Some(_) => return None,
            here => {
                let transfer = &function.blocks[usize::from(b)].transfer;
                let next = behind(&nesting, transfer)?;
                ahead.extend(transfer.targets().into_iter().map(|b| (b, next.clone())));
                *here = Some(nesting);
            }
        }
    }
    found.into_iter().collect()
}

/// The nesting that a transfer's targets have.
fn behind(nesting: &[Name], transfer: &Transfer) -> Option<Vec<Name>> {
    match *transfer {
        Transfer::Spork { spawn, .. } => {
            let room = nesting.len() < usize::from(MAX_NESTING);
            room.then(|| [nesting, &[spawn]].concat())
        }
        Transfer::Spoin { .. } => {
            let (_, outer) = nesting.split_last()?;
            Some(outer.to_vec())
        }
        _ => Some(nesting.to_vec()),
    }
}

/// The smallest scope of each block.
fn scopes(function: &Function, nestings: &[Vec<Name>]) -> Vec<BTreeSet<Temporary>> {
    let mut scopes = vec![BTreeSet::new(); function.blocks.len()];
    let from = reversed(&jumps(function));
    for temporary in 0..=MAX_TEMPORARY {
        for b in in_scope(function, nestings, &from, temporary) {
            scopes[b].insert(temporary);
        }
    }
    scopes
}

/// The blocks that need a temporary in their scope: those that need it
/// themselves, and those that lead to one of these without binding it.
fn in_scope(
    function: &Function,
    nestings: &[Vec<Name>],
    from: &Graph,
    temporary: Temporary,
) -> BTreeSet<usize> {
    let blocks = &function.blocks;
    let needs = |b: &usize| {
        let given = *b == 0 && temporary < function.parameters;
        given || uses(&blocks[*b], temporary) || hands_on(function, &nestings[*b], temporary)
    };
    let mut ahead: Vec<usize> = (0..blocks.len()).filter(needs).collect();
    let mut found = BTreeSet::new();
    while let Some(b) = ahead.pop() {
        if found.insert(b) {
            let from = from[b].iter().copied();
            ahead.extend(from.filter(|&from| !binds(&blocks[from], temporary)));
        }
    }
    found
}

/// Whether a block reads a temporary before it binds it.
fn uses(block: &Block, temporary: Temporary) -> bool {
    if block.parameters.contains(&temporary) {
        return false;
    }
    for statement in &block.statements {
        if statement.expression.temporaries().contains(&temporary) {
            return true;
        }
        if statement.target == temporary {
            return false;
        }
    }
    block.transfer.temporaries().contains(&temporary)
}

/// Whether a block binds a temporary.
fn binds(block: &Block, temporary: Temporary) -> bool {
    let statements = &block.statements;
    let by_statement = statements.iter().any(|s| s.target == temporary);
    by_statement || block.parameters.contains(&temporary)
}

/// Whether a spawn call of a nesting has a temporary as an argument.
fn hands_on(function: &Function, nesting: &[Name], temporary: Temporary) -> bool {
    nesting
        .iter()
        .filter_map(|&name| function.spawn(name))
        .any(|spawn| spawn.arguments.contains(&temporary))
}
