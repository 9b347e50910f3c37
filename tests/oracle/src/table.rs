//! The table as a tree of owned values, and its reader.

use crate::refusal::Refusal;
use std::collections::BTreeSet;

/// Smallest and largest number of bytes of a table.
pub const TABLE_MIN: usize = 6;
pub const TABLE_MAX: usize = 16_384;
/// Largest number of bytes of a table of version 2.
pub const BRIEF_MAX: usize = 12_800;

/// The versions of a table. The second has no scopes and no nestings.
#[derive(Clone, Copy, Debug, PartialEq, Eq)]
pub enum Version {
    Full,
    Brief,
}

impl Version {
    /// The byte that names the version.
    pub fn number(self) -> u8 {
        match self {
            Version::Full => 1,
            Version::Brief => 2,
        }
    }

    /// The largest number of bytes.
    pub fn most(self) -> usize {
        match self {
            Version::Full => TABLE_MAX,
            Version::Brief => BRIEF_MAX,
        }
    }
}

/// Limits of the counts in a table.
pub const MAX_FUNCTIONS: u8 = 16;
pub const MAX_PARAMETERS: u8 = 8;
pub const MAX_RETURNS: u8 = 4;
pub const MAX_BLOCKS: u8 = 32;
pub const MAX_SPAWNS: u8 = 8;
pub const MAX_NESTING: u8 = 4;
pub const MAX_STATEMENTS: u8 = 32;
pub const MAX_TEMPORARY: u8 = 15;

/// A temporary, 0 to 15.
pub type Temporary = u8;
/// A function, block or spawn call number as a table uses it: any byte.
pub type Name = u8;

#[derive(Clone, Debug, PartialEq, Eq)]
pub struct Program {
    pub functions: Vec<Function>,
}

#[derive(Clone, Debug, PartialEq, Eq)]
pub struct Function {
    pub parameters: u8,
    pub returns: u8,
    pub spawns: Vec<SpawnCall>,
    pub blocks: Vec<Block>,
}

#[derive(Clone, Debug, PartialEq, Eq)]
pub struct SpawnCall {
    pub function: Name,
    pub arguments: Vec<Temporary>,
}

#[derive(Clone, Debug, PartialEq, Eq)]
pub struct Block {
    pub parameters: Vec<Temporary>,
    pub scope: BTreeSet<Temporary>,
    pub nesting: Vec<Name>,
    pub statements: Vec<Statement>,
    pub transfer: Transfer,
}

#[derive(Clone, Debug, PartialEq, Eq)]
pub struct Statement {
    pub target: Temporary,
    pub expression: Expression,
}

#[derive(Clone, Copy, Debug, PartialEq, Eq)]
pub enum Atom {
    Value(i32),
    Temporary(Temporary),
}

#[derive(Clone, Copy, Debug, PartialEq, Eq)]
pub enum Expression {
    Plain(Atom),
    Negated(Atom),
    Sum(Atom, Atom),
    Less(Atom, Atom),
}

#[derive(Clone, Debug, PartialEq, Eq)]
pub enum Transfer {
    Goto {
        block: Name,
        arguments: Vec<Temporary>,
    },
    If {
        condition: Expression,
        then: Name,
        otherwise: Name,
    },
    Call {
        function: Name,
        arguments: Vec<Temporary>,
        return_block: Name,
    },
    Return {
        arguments: Vec<Temporary>,
    },
    Spork {
        body: Name,
        spawn: Name,
    },
    Spoin {
        unpromoted: Name,
        promoted: Name,
    },
}

impl Program {
    /// The function of a number, if there is one.
    pub fn function(&self, name: Name) -> Option<&Function> {
        self.functions.get(usize::from(name))
    }
}

impl Function {
    /// The block of a number, if there is one.
    pub fn block(&self, name: Name) -> Option<&Block> {
        self.blocks.get(usize::from(name))
    }

    /// The spawn call of a number, if there is one.
    pub fn spawn(&self, name: Name) -> Option<&SpawnCall> {
        self.spawns.get(usize::from(name))
    }
}

impl Expression {
    /// The expression's atoms, from left to right.
    pub fn atoms(&self) -> Vec<Atom> {
        match *self {
            Expression::Plain(m) | Expression::Negated(m) => vec![m],
            Expression::Sum(m, n) | Expression::Less(m, n) => vec![m, n],
        }
    }

    /// The temporaries the expression reads.
    pub fn temporaries(&self) -> Vec<Temporary> {
        self.atoms()
            .into_iter()
            .filter_map(|atom| match atom {
                Atom::Temporary(t) => Some(t),
                Atom::Value(_) => None,
            })
            .collect()
    }
}

impl Transfer {
    /// The blocks that the transfer names, from left to right.
    pub fn targets(&self) -> Vec<Name> {
        match *self {
            Transfer::Goto { block, .. } => vec![block],
            Transfer::If {
                then, otherwise, ..
            } => vec![then, otherwise],
            Transfer::Call { return_block, .. } => vec![return_block],
            Transfer::Return { .. } => Vec::new(),
            Transfer::Spork { body, .. } => vec![body],
            Transfer::Spoin {
                unpromoted,
                promoted,
            } => vec![unpromoted, promoted],
        }
    }

    /// The temporaries the transfer reads; a spork and a spoin read none.
    pub fn temporaries(&self) -> Vec<Temporary> {
        match self {
            Transfer::Goto { arguments, .. }
            | Transfer::Call { arguments, .. }
            | Transfer::Return { arguments } => arguments.clone(),
            Transfer::If { condition, .. } => condition.temporaries(),
            Transfer::Spork { .. } | Transfer::Spoin { .. } => Vec::new(),
        }
    }
}

/// Reads a table, refusing with 1, 2 or 3.
pub fn read(table: &[u8]) -> Result<Program, Refusal> {
    read_as(table, Version::Full)
}

/// The same of a table of version 2: every scope and nesting is empty.
pub fn read_brief(table: &[u8]) -> Result<Program, Refusal> {
    read_as(table, Version::Brief)
}

fn read_as(table: &[u8], version: Version) -> Result<Program, Refusal> {
    if table.len() < TABLE_MIN || table.len() > version.most() {
        return Err(Refusal::plain(1));
    }
    let field = u32::from_be_bytes([table[0], table[1], table[2], table[3]]);
    if field as usize != table.len() {
        return Err(Refusal::plain(1));
    }
    if table[4] != version.number() {
        return Err(Refusal::plain(2));
    }
    let mut reader = Reader {
        rest: &table[5..],
        end: table.len(),
        version,
    };
    let program = reader.program()?;
    reader.finish()?;
    Ok(program)
}

/// The bytes not yet read, the length of the whole table, and its version.
struct Reader<'a> {
    rest: &'a [u8],
    end: usize,
    version: Version,
}

impl Reader<'_> {
    /// The offset of the next byte.
    fn offset(&self) -> usize {
        self.end - self.rest.len()
    }

    /// The next byte, refused outside `min..=max` or past the end.
    fn ranged(&mut self, min: u8, max: u8) -> Result<u8, Refusal> {
        match self.rest.split_first() {
            Some((&byte, rest)) if (min..=max).contains(&byte) => {
                self.rest = rest;
                Ok(byte)
            }
            _ => Err(Refusal::byte(self.offset())),
        }
    }

    /// A count or number from 0 to `max`.
    fn up_to(&mut self, max: u8) -> Result<u8, Refusal> {
        self.ranged(0, max)
    }

    /// Any byte.
    fn any(&mut self) -> Result<u8, Refusal> {
        self.up_to(u8::MAX)
    }

    /// Refuses the first byte left over.
    fn finish(&self) -> Result<(), Refusal> {
        if self.rest.is_empty() {
            Ok(())
        } else {
            Err(Refusal::byte(self.offset()))
        }
    }

    fn program(&mut self) -> Result<Program, Refusal> {
        let count = self.ranged(1, MAX_FUNCTIONS)?;
        let functions = (0..count)
            .map(|_| self.function())
            .collect::<Result<_, _>>()?;
        Ok(Program { functions })
    }

    fn function(&mut self) -> Result<Function, Refusal> {
        let parameters = self.up_to(MAX_PARAMETERS)?;
        let returns = self.up_to(MAX_RETURNS)?;
        let blocks = self.ranged(1, MAX_BLOCKS)?;
        let spawns = self.up_to(MAX_SPAWNS)?;
        let spawns = (0..spawns)
            .map(|_| self.spawn_call())
            .collect::<Result<_, _>>()?;
        let blocks = (0..blocks)
            .map(|_| self.block())
            .collect::<Result<_, _>>()?;
        Ok(Function {
            parameters,
            returns,
            spawns,
            blocks,
        })
    }

    fn spawn_call(&mut self) -> Result<SpawnCall, Refusal> {
        Ok(SpawnCall {
            function: self.any()?,
            arguments: self.arguments(MAX_PARAMETERS)?,
        })
    }

    /// A count up to `most`, then that many temporaries.
    fn arguments(&mut self, most: u8) -> Result<Vec<Temporary>, Refusal> {
        let count = self.up_to(most)?;
        (0..count).map(|_| self.temporary()).collect()
    }

    fn temporary(&mut self) -> Result<Temporary, Refusal> {
        self.up_to(MAX_TEMPORARY)
    }

    fn block(&mut self) -> Result<Block, Refusal> {
        let parameters = self.arguments(MAX_PARAMETERS)?;
        let (scope, nesting) = match self.version {
            Version::Full => (self.scope()?, self.nesting()?),
            Version::Brief => (BTreeSet::new(), Vec::new()),
        };
        let count = self.up_to(MAX_STATEMENTS)?;
        let statements = (0..count)
            .map(|_| self.statement())
            .collect::<Result<_, _>>()?;
        let transfer = self.transfer()?;
        Ok(Block {
            parameters,
            scope,
            nesting,
            statements,
            transfer,
        })
    }

    fn scope(&mut self) -> Result<BTreeSet<Temporary>, Refusal> {
        let bits = u16::from_be_bytes([self.any()?, self.any()?]);
        Ok((0..=MAX_TEMPORARY)
            .filter(|&t| (bits >> t) & 1 == 1)
            .collect())
    }

    fn nesting(&mut self) -> Result<Vec<Name>, Refusal> {
        let depth = self.up_to(MAX_NESTING)?;
        (0..depth).map(|_| self.any()).collect()
    }

    fn statement(&mut self) -> Result<Statement, Refusal> {
        Ok(Statement {
            target: self.temporary()?,
            expression: self.expression()?,
        })
    }

    fn expression(&mut self) -> Result<Expression, Refusal> {
        Ok(match self.up_to(3)? {
            0 => Expression::Plain(self.atom()?),
            1 => Expression::Negated(self.atom()?),
            2 => Expression::Sum(self.atom()?, self.atom()?),
            _ => Expression::Less(self.atom()?, self.atom()?),
        })
    }

    fn atom(&mut self) -> Result<Atom, Refusal> {
        Ok(match self.up_to(1)? {
            0 => Atom::Value(i32::from_be_bytes([
                self.any()?,
                self.any()?,
                self.any()?,
                self.any()?,
            ])),
            _ => Atom::Temporary(self.temporary()?),
        })
    }

    fn transfer(&mut self) -> Result<Transfer, Refusal> {
        Ok(match self.up_to(5)? {
            0 => Transfer::Goto {
                block: self.any()?,
                arguments: self.arguments(MAX_PARAMETERS)?,
            },
            1 => Transfer::If {
                condition: self.expression()?,
                then: self.any()?,
                otherwise: self.any()?,
            },
            2 => Transfer::Call {
                function: self.any()?,
                arguments: self.arguments(MAX_PARAMETERS)?,
                return_block: self.any()?,
            },
            3 => Transfer::Return {
                arguments: self.arguments(MAX_RETURNS)?,
            },
            4 => Transfer::Spork {
                body: self.any()?,
                spawn: self.any()?,
            },
            _ => Transfer::Spoin {
                unpromoted: self.any()?,
                promoted: self.any()?,
            },
        })
    }
}
