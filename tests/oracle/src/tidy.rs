//! The tidy table: an accepted table written afresh. Main and every entry keep
//! their numbers; functions, blocks and spawn calls are numbered as they are
//! first mentioned, and what is never mentioned goes.
//!
//! One walk meets the mentions of all three sorts in their order, with a queue
//! of what is still to be gone through. What can be reached, and a look at the
//! result from front to back, must say the same.

use crate::check::check_program;
use crate::encode::encode;
use crate::graph::{behind, Graph};
use crate::pool::{Frame, Pool, Thread};
use crate::refusal::Refusal;
use crate::table::{read, Block, Function, Name, Program, SpawnCall, Transfer};
use std::collections::{BTreeMap, BTreeSet, VecDeque};

/// The number where the output is shorter than the tidy table.
pub const ROOM: u8 = 23;

/// Writes the tidy table of a table and gives its length; refusals 1 to 11 and
/// 23.
pub fn tidy(table: &[u8], out: &mut [u8]) -> Result<usize, Refusal> {
    let program = read(table)?;
    check_program(&program)?;
    let tidy = encode(&tidied(&program));
    let Some(front) = out.get_mut(..tidy.len()) else {
        return Err(Refusal::plain(ROOM));
    };
    front.copy_from_slice(&tidy);
    Ok(tidy.len())
}

/// The tidy program of a well-formed one.
pub fn tidied(program: &Program) -> Program {
    let numbering = Numbering::of(program);
    assert_eq!(numbering.kept(), reached(program), "walk and reach differ");
    let tidy = numbering.program(program);
    assert!(is_tidy(&tidy), "the mentions are not in order");
    tidy
}

/// What a block mentions.
#[derive(Clone, Copy)]
enum Mention {
    Function(Name),
    Block(Name),
    Spawn(Name),
}

/// The mentions of a block: the nesting, then the transfer from left to right.
fn mentions(block: &Block) -> Vec<Mention> {
    let mut found: Vec<Mention> = block.nesting.iter().copied().map(Mention::Spawn).collect();
    match block.transfer {
        Transfer::Goto { block, .. } => found.push(Mention::Block(block)),
        Transfer::If {
            then, otherwise, ..
        } => found.extend([Mention::Block(then), Mention::Block(otherwise)]),
        Transfer::Call {
            function,
            return_block,
            ..
        } => found.extend([Mention::Function(function), Mention::Block(return_block)]),
        Transfer::Return { .. } => {}
        Transfer::Spork { body, spawn } => {
            found.extend([Mention::Block(body), Mention::Spawn(spawn)]);
        }
        Transfer::Spoin {
            unpromoted,
            promoted,
        } => found.extend([Mention::Block(unpromoted), Mention::Block(promoted)]),
    }
    found
}

/// The function of a spawn call.
fn spawned(function: &Function, spawn: Name) -> Name {
    function.spawns[usize::from(spawn)].function
}

/// Things of one sort: the new number of each that was mentioned, by its old
/// number, and which of them are still to be gone through.
#[derive(Clone, Debug, Default)]
struct Numbers {
    new: BTreeMap<Name, Name>,
    ahead: VecDeque<Name>,
}

impl Numbers {
    /// Main, or an entry, comes first.
    fn with_first() -> Self {
        let mut numbers = Numbers::default();
        numbers.mention(0);
        numbers
    }

    fn mention(&mut self, old: Name) {
        let next = self.new.len() as Name;
        self.new.entry(old).or_insert_with(|| {
            self.ahead.push_back(old);
            next
        });
    }

    fn renamed(&self, name: &mut Name) {
        *name = self.new[name];
    }

    /// The same of a number in a pool.
    fn renumbered(&self, number: &mut usize) {
        *number = self.new[&(*number as Name)].into();
    }

    /// The old numbers, in the order of the new ones.
    fn in_order(&self) -> Vec<Name> {
        let mut order: Vec<(Name, Name)> = self.new.iter().map(|(&old, &new)| (new, old)).collect();
        order.sort_unstable();
        order.into_iter().map(|(_, old)| old).collect()
    }
}

/// The blocks and spawn calls of a kept function.
#[derive(Clone, Debug)]
struct Part {
    blocks: Numbers,
    spawns: Numbers,
}

impl Part {
    /// Goes through the blocks of a function in their new order.
    fn of(function: &Function, functions: &mut Numbers) -> Self {
        let mut blocks = Numbers::with_first();
        let mut spawns = Numbers::default();
        while let Some(b) = blocks.ahead.pop_front() {
            for mention in mentions(&function.blocks[usize::from(b)]) {
                match mention {
                    Mention::Function(f) => functions.mention(f),
                    Mention::Block(b) => blocks.mention(b),
                    Mention::Spawn(s) => {
                        spawns.mention(s);
                        functions.mention(spawned(function, s));
                    }
                }
            }
        }
        Part { blocks, spawns }
    }

    fn function(&self, old: &Function, functions: &Numbers) -> Function {
        let spawn = |s: Name| {
            let mut spawn: SpawnCall = old.spawns[usize::from(s)].clone();
            functions.renamed(&mut spawn.function);
            spawn
        };
        let block = |b: Name| self.block(&old.blocks[usize::from(b)], functions);
        Function {
            parameters: old.parameters,
            returns: old.returns,
            spawns: self.spawns.in_order().into_iter().map(spawn).collect(),
            blocks: self.blocks.in_order().into_iter().map(block).collect(),
        }
    }

    fn block(&self, old: &Block, functions: &Numbers) -> Block {
        let mut block = old.clone();
        for name in &mut block.nesting {
            self.spawns.renamed(name);
        }
        match &mut block.transfer {
            Transfer::Goto { block, .. } => self.blocks.renamed(block),
            Transfer::If {
                then, otherwise, ..
            } => {
                self.blocks.renamed(then);
                self.blocks.renamed(otherwise);
            }
            Transfer::Call {
                function,
                return_block,
                ..
            } => {
                functions.renamed(function);
                self.blocks.renamed(return_block);
            }
            Transfer::Return { .. } => {}
            Transfer::Spork { body, spawn } => {
                self.blocks.renamed(body);
                self.spawns.renamed(spawn);
            }
            Transfer::Spoin {
                unpromoted,
                promoted,
            } => {
                self.blocks.renamed(unpromoted);
                self.blocks.renamed(promoted);
            }
        }
        block
    }
}

/// The old numbers of a function's things that stay: blocks and spawn calls.
type Kept = (BTreeSet<Name>, BTreeSet<Name>);

/// The new numbers of a well-formed program.
#[derive(Clone, Debug)]
pub struct Numbering {
    functions: Numbers,
    /// Of each kept function, by its old number.
    parts: BTreeMap<Name, Part>,
}

impl Numbering {
    /// Goes through the kept functions in their new order.
    pub fn of(program: &Program) -> Self {
        let mut functions = Numbers::with_first();
        let mut parts = BTreeMap::new();
        while let Some(f) = functions.ahead.pop_front() {
            let part = Part::of(&program.functions[usize::from(f)], &mut functions);
            parts.insert(f, part);
        }
        Numbering { functions, parts }
    }

    /// The program under the new numbers.
    pub fn program(&self, old: &Program) -> Program {
        let function =
            |f: Name| self.parts[&f].function(&old.functions[usize::from(f)], &self.functions);
        Program {
            functions: self
                .functions
                .in_order()
                .into_iter()
                .map(function)
                .collect(),
        }
    }

    /// A pool of the program as a pool under the new numbers.
    pub fn pool(&self, old: &Pool) -> Pool {
        Pool {
            root: self.thread(&old.root),
        }
    }

    fn thread(&self, old: &Thread) -> Thread {
        Thread {
            purse: old.purse,
            frames: old.frames.iter().map(|frame| self.frame(frame)).collect(),
            children: old
                .children
                .iter()
                .map(|child| self.thread(child))
                .collect(),
            opened: old.opened.clone(),
        }
    }

    fn frame(&self, old: &Frame) -> Frame {
        let part = &self.parts[&(old.function as Name)];
        let mut frame = old.clone();
        self.functions.renumbered(&mut frame.function);
        part.blocks.renumbered(&mut frame.block);
        for call in &mut frame.calls {
            part.spawns.renumbered(&mut call.spawn);
        }
        frame
    }

    /// The old numbers of the functions that stay, in their new order.
    pub fn functions(&self) -> Vec<Name> {
        self.functions.in_order()
    }

    /// Those of the blocks of a function that stays, by its old number.
    pub fn blocks(&self, function: Name) -> Vec<Name> {
        self.parts[&function].blocks.in_order()
    }

    /// Those of its spawn calls.
    pub fn spawns(&self, function: Name) -> Vec<Name> {
        self.parts[&function].spawns.in_order()
    }

    /// What stays, by old numbers.
    fn kept(&self) -> BTreeMap<Name, Kept> {
        let names = |numbers: &Numbers| numbers.new.keys().copied().collect();
        let of_part = |part: &Part| (names(&part.blocks), names(&part.spawns));
        self.parts
            .iter()
            .map(|(&f, part)| (f, of_part(part)))
            .collect()
    }
}

/// What can be reached: blocks from their function's entry, and functions from
/// main by what such blocks mention.
fn reached(program: &Program) -> BTreeMap<Name, Kept> {
    let kept: Vec<(Kept, BTreeSet<Name>)> = program.functions.iter().map(reached_in).collect();
    let graph: Graph = kept
        .iter()
        .map(|(_, functions)| functions.iter().map(|&f| usize::from(f)).collect())
        .collect();
    with_first(&graph)
        .into_iter()
        .map(|f| (f, kept[usize::from(f)].0.clone()))
        .collect()
}

/// What can be reached in a function, and the functions mentioned there.
fn reached_in(function: &Function) -> (Kept, BTreeSet<Name>) {
    let targets = |block: &Block| {
        mentions(block)
            .into_iter()
            .filter_map(|mention| match mention {
                Mention::Block(b) => Some(usize::from(b)),
                _ => None,
            })
            .collect()
    };
    let blocks = with_first(&function.blocks.iter().map(targets).collect());
    let mut spawns = BTreeSet::new();
    let mut functions = BTreeSet::new();
    for &b in &blocks {
        for mention in mentions(&function.blocks[usize::from(b)]) {
            match mention {
                Mention::Function(f) => _ = functions.insert(f),
                Mention::Block(_) => {}
                Mention::Spawn(s) => {
                    spawns.insert(s);
                    functions.insert(spawned(function, s));
                }
            }
        }
    }
    ((blocks, spawns), functions)
}

/// The first thing and what can be reached from it.
fn with_first(graph: &Graph) -> BTreeSet<Name> {
    let mut seen = behind(graph, 0);
    seen[0] = true;
    (0..seen.len())
        .filter(|&n| seen[n])
        .map(|n| n as Name)
        .collect()
}

/// Whether a well-formed program is tidy, by a look from front to back: a
/// number that is met for the first time is the next one of its sort, all are
/// met, and functions and blocks before they are gone through.
pub fn is_tidy(program: &Program) -> bool {
    let mut functions = 1;
    let tidy = |(f, function)| {
        f < functions && function_is_tidy(function, |name| met(&mut functions, name))
    };
    let in_order = program.functions.iter().enumerate().all(tidy);
    in_order && functions == program.functions.len()
}

fn function_is_tidy(function: &Function, mut function_met: impl FnMut(Name) -> bool) -> bool {
    let (mut blocks, mut spawns) = (1, 0);
    let in_order = function.blocks.iter().enumerate().all(|(b, block)| {
        b < blocks
            && mentions(block).into_iter().all(|mention| match mention {
                Mention::Function(name) => function_met(name),
                Mention::Block(name) => met(&mut blocks, name),
                Mention::Spawn(name) => {
                    met(&mut spawns, name) && function_met(spawned(function, name))
                }
            })
    });
    in_order && blocks == function.blocks.len() && spawns == function.spawns.len()
}

/// Meets a name where some are known; false if it skips one.
fn met(known: &mut usize, name: Name) -> bool {
    let name = usize::from(name);
    if name == *known {
        *known += 1;
    }
    name < *known
}
