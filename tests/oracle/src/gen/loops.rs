//! Programs rich in sporks and loops, well formed by construction: loops that
//! open one spawn call again and again with other arguments, calls and loops
//! while spawn calls are open, one spawn call open twice, and children that
//! spork in their turn.

use crate::gen::programs::{expression, Temporaries};
use crate::rng::Rng;
use crate::table::{
    Atom, Block, Expression, Function, Name, Program, SpawnCall, Statement, Temporary, Transfer,
    MAX_BLOCKS, MAX_NESTING, MAX_PARAMETERS, MAX_SPAWNS, MAX_TEMPORARY,
};

/// How much may be held where a loop, a call or a spork begins, and where a
/// value is bound to a new temporary.
const MOST_HELD: usize = 9;

/// A function's parameters and returned values.
type Signature = (u8, u8);

/// A program of some functions. Calls go to later functions, most of them, and
/// spawn calls to any.
pub fn looping(rng: &mut Rng) -> Program {
    let count = rng.between(2, 5);
    let mut signatures: Vec<Signature> = (0..count).map(|_| signature(rng)).collect();
    signatures[0].0 = 0;
    let functions = (0..count)
        .map(|own| Builder::new(rng, &signatures, own).build())
        .collect();
    Program { functions }
}

fn signature(rng: &mut Rng) -> Signature {
    let most = rng.one_of([1, 2, 3, MAX_PARAMETERS]);
    (rng.byte(0, most), rng.byte(0, 2))
}

/// A function under construction. Its blocks come one after another; the last
/// is the one that is being written.
struct Builder<'a> {
    rng: &'a mut Rng,
    signatures: &'a [Signature],
    own: usize,
    spawns: Vec<SpawnCall>,
    blocks: Vec<Block>,
    /// Blocks that may still be added.
    left: usize,
    /// What may be used from here on, and is not bound again.
    held: Temporaries,
    /// The spawn calls that are open here, outermost first.
    nesting: Vec<Name>,
}

impl<'a> Builder<'a> {
    fn new(rng: &'a mut Rng, signatures: &'a [Signature], own: usize) -> Self {
        let mut builder = Builder {
            left: rng.one_of([8, 16, usize::from(MAX_BLOCKS)]),
            rng,
            signatures,
            own,
            spawns: Vec::new(),
            blocks: Vec::new(),
            held: (0..signatures[own].0).collect(),
            nesting: Vec::new(),
        };
        builder.block(&[]);
        builder
    }

    fn build(mut self) -> Function {
        let (parameters, returns) = self.signatures[self.own];
        if !self.round() {
            self.spork();
        }
        self.works();
        let arguments = self.values(returns).expect("temporaries enough");
        self.ends(Transfer::Return { arguments });
        Function {
            parameters,
            returns,
            spawns: self.spawns,
            blocks: self.blocks,
        }
    }

    /// Begins a block that takes these parameters; gives its name.
    fn block(&mut self, parameters: &[Temporary]) -> Name {
        self.left -= 1;
        self.blocks.push(Block {
            parameters: parameters.to_vec(),
            scope: self.held.clone(),
            nesting: self.nesting.clone(),
            statements: Vec::new(),
            transfer: Transfer::Return { arguments: vec![] },
        });
        self.held.extend(parameters);
        (self.blocks.len() - 1) as Name
    }

    /// The block that is being written.
    fn current(&mut self) -> &mut Block {
        self.blocks.last_mut().expect("a function has a block")
    }

    fn ends(&mut self, transfer: Transfer) {
        self.current().transfer = transfer;
    }

    /// The name of the next block.
    fn next(&self) -> Name {
        self.blocks.len() as Name
    }

    /// Temporaries that are not held, if there are so many.
    fn free(&mut self, count: u8) -> Option<Vec<Temporary>> {
        let mut free: Vec<Temporary> = (0..=MAX_TEMPORARY)
            .filter(|t| !self.held.contains(t))
            .collect();
        self.rng.shuffle(&mut free);
        free.truncate(count.into());
        (free.len() == usize::from(count)).then_some(free)
    }

    /// Binds a new temporary.
    fn bind(&mut self, expression: Expression) -> Option<Temporary> {
        let target = self.free(1)?[0];
        let statement = Statement { target, expression };
        self.current().statements.push(statement);
        self.held.insert(target);
        Some(target)
    }

    /// Temporaries with values, some of them new, if there are so many.
    fn values(&mut self, count: u8) -> Option<Vec<Temporary>> {
        (0..count)
            .map(|_| {
                let held: Vec<Temporary> = self.held.iter().copied().collect();
                let old = self.rng.pick(&held).filter(|_| self.rng.chance(40));
                let full = held.len() > MOST_HELD;
                match old.or_else(|| self.rng.pick(&held).filter(|_| full)) {
                    Some(temporary) => Some(temporary),
                    None => {
                        let expression = expression(self.rng, &self.held);
                        self.bind(expression)
                    }
                }
            })
            .collect()
    }

    /// Some works, one after another.
    fn works(&mut self) {
        for _ in 0..self.rng.between(1, 3) {
            match self.rng.below(10) {
                0..=3 => _ = self.spork(),
                4..=5 => _ = self.round(),
                6..=7 => _ = self.call(),
                _ => _ = self.values(1),
            }
        }
    }

    /// A loop of a few rounds; what is bound in it is not held behind it.
    fn round(&mut self) -> bool {
        let rounds = self.rng.between(1, 4) as i32;
        if self.left < 4 || self.held.len() > MOST_HELD {
            return false;
        }
        let held = self.held.clone();
        let first = self.bind(Expression::Plain(Atom::Value(rounds)));
        let first = first.expect("a temporary is free");
        let head = self.next();
        self.ends(Transfer::Goto {
            block: head,
            arguments: vec![first],
        });
        self.held.clone_from(&held);
        let counter = self.free(1).expect("a temporary is free");
        self.block(&counter);
        let branch = self.blocks.len() - 1;
        let then = self.block(&[]);
        self.left -= 1; // the block behind the loop
        if !self.spork() {
            self.works();
        }
        if self.rng.chance(50) {
            self.works();
        }
        let one = Atom::Value(-1);
        let count = Expression::Sum(Atom::Temporary(counter[0]), one);
        let next = self.bind(count);
        let arguments = vec![next.expect("a temporary is free")];
        self.ends(Transfer::Goto {
            block: head,
            arguments,
        });
        self.held = held;
        self.left += 1;
        let otherwise = self.block(&[]);
        self.blocks[branch].transfer = Transfer::If {
            condition: Expression::Plain(Atom::Temporary(counter[0])),
            then,
            otherwise,
        };
        true
    }

    /// A call of a function, whose values are held behind it.
    fn call(&mut self) -> bool {
        let later = self.own + 1..self.signatures.len();
        let callee = match self.rng.pick(&later.collect::<Vec<_>>()) {
            Some(callee) if !self.rng.chance(5) => callee,
            _ => self.rng.below(self.signatures.len()),
        };
        let (parameters, returns) = self.signatures[callee];
        if self.left < 2 || self.held.len() > MOST_HELD {
            return false;
        }
        let held = self.held.clone();
        let arguments = self.values(parameters).expect("temporaries enough");
        let return_block = self.next();
        self.ends(Transfer::Call {
            function: callee as Name,
            arguments,
            return_block,
        });
        self.held = held;
        let taken = self.free(returns).expect("temporaries enough");
        self.block(&taken);
        true
    }

    /// A spork, works in its body, and both ways on from its spoin, which meet;
    /// what is bound in it is not held behind it.
    fn spork(&mut self) -> bool {
        if self.left < 4
            || self.held.len() > MOST_HELD
            || self.nesting.len() == usize::from(MAX_NESTING)
        {
            return false;
        }
        let held = self.held.clone();
        let Some(spawn) = self.spawn() else {
            return false;
        };
        let SpawnCall {
            function,
            arguments,
        } = self.spawns[usize::from(spawn)].clone();
        let body = self.next();
        self.ends(Transfer::Spork { body, spawn });
        self.held = held.iter().copied().chain(arguments).collect();
        self.nesting.push(spawn);
        self.left -= 2; // the two blocks behind the spoin
        self.block(&[]);
        self.works();
        self.left += 2;
        self.nesting.pop();
        self.held = held;
        let unpromoted = self.next();
        let promoted = unpromoted + 1;
        self.ends(Transfer::Spoin {
            unpromoted,
            promoted,
        });
        let returns = self.signatures[usize::from(function)].1;
        let held = self.held.clone();
        self.block(&[]);
        let arguments = self.values(returns).expect("temporaries enough");
        self.ends(Transfer::Goto {
            block: promoted,
            arguments,
        });
        self.held = held;
        let taken = self.free(returns).expect("temporaries enough");
        self.block(&taken);
        true
    }

    /// A spawn call whose arguments are held: one there is, an open one too, or
    /// a new one.
    fn spawn(&mut self) -> Option<Name> {
        let names = 0..self.spawns.len() as Name;
        let fitting: Vec<Name> = names
            .filter(|&name| {
                let arguments = &self.spawns[usize::from(name)].arguments;
                arguments.iter().all(|t| self.held.contains(t))
            })
            .collect();
        let full = self.spawns.len() == usize::from(MAX_SPAWNS);
        if full || (!fitting.is_empty() && self.rng.chance(30)) {
            return self.rng.pick(&fitting);
        }
        let function = self.rng.below(self.signatures.len());
        let arguments = self.values(self.signatures[function].0)?;
        self.spawns.push(SpawnCall {
            function: function as Name,
            arguments,
        });
        Some((self.spawns.len() - 1) as Name)
    }
}
