//! Every scope and nesting of a small function, tried one by one.

use crate::complete::passes;
use crate::table::{Block, Function, Name, Program, Temporary, MAX_NESTING};
use std::collections::BTreeSet;

/// A block's scope and nesting.
type Head = (BTreeSet<Temporary>, Vec<Name>);

/// How many scopes and nestings of a function are tried at most.
pub const MOST: u64 = 5_000;

/// All scopes and nestings with which function f of a program passes, put into
/// it: over the temporaries that occur in it and its own spawn calls, for all
/// blocks but the entry, of which any other than the one given fails with 5.
/// None where there are too many to try.
pub fn passing(program: &Program, f: usize) -> Option<Vec<Function>> {
    let function = &program.functions[f];
    let count = count(function).filter(|&count| count <= MOST)?;
    let heads = match function.blocks.len() {
        1 => Vec::new(),
        _ => heads(function),
    };
    let tried = (0..count).map(|number| with_heads(function, &heads, number as usize));
    Some(tried.filter(|tried| passes(program, f, tried)).collect())
}

/// How many there are to try, if that is a number of 64 bits.
pub fn count(function: &Function) -> Option<u64> {
    let nestings = nestings(function).len() as u64;
    let heads = nestings << occurring(function).len();
    heads.checked_pow(function.blocks.len() as u32 - 1)
}

/// The function with the heads that a number stands for, digit by digit.
fn with_heads(function: &Function, heads: &[Head], mut number: usize) -> Function {
    let mut tried = function.clone();
    let (entry, others) = tried.blocks.split_first_mut().expect("an entry");
    entry.scope = (0..function.parameters).collect();
    entry.nesting = Vec::new();
    for block in others {
        (block.scope, block.nesting) = heads[number % heads.len()].clone();
        number /= heads.len();
    }
    tried
}

/// All heads that a block may have.
fn heads(function: &Function) -> Vec<Head> {
    let temporaries: Vec<Temporary> = occurring(function).into_iter().collect();
    let set = |bits: usize| -> BTreeSet<Temporary> {
        let chosen = temporaries.iter().enumerate();
        chosen
            .filter(|(k, _)| bits >> k & 1 == 1)
            .map(|(_, &temporary)| temporary)
            .collect()
    };
    let nestings = nestings(function);
    (0..1 << temporaries.len())
        .flat_map(|bits| nestings.iter().map(move |nesting| (bits, nesting.clone())))
        .map(|(bits, nesting)| (set(bits), nesting))
        .collect()
}

/// All lists of up to four of a function's spawn calls.
fn nestings(function: &Function) -> Vec<Vec<Name>> {
    let spawns = function.spawns.len() as Name;
    let mut all = vec![Vec::new()];
    let mut longest = all.clone();
    for _ in 0..MAX_NESTING {
        longest = longest
            .iter()
            .flat_map(|outer| (0..spawns).map(move |spawn| [&outer[..], &[spawn]].concat()))
            .collect();
        all.extend(longest.clone());
    }
    all
}

/// The temporaries that occur in a function, its parameters among them.
pub fn occurring(function: &Function) -> BTreeSet<Temporary> {
    let parameters = 0..function.parameters;
    let arguments = function.spawns.iter().flat_map(|s| s.arguments.clone());
    let blocks = function.blocks.iter().flat_map(occurring_in);
    parameters.chain(arguments).chain(blocks).collect()
}

fn occurring_in(block: &Block) -> Vec<Temporary> {
    let mut found = block.parameters.clone();
    for statement in &block.statements {
        found.push(statement.target);
        found.extend(statement.expression.temporaries());
    }
    found.extend(block.transfer.temporaries());
    found
}
