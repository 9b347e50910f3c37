//! A program's bytes, each with the range its place allows.

use crate::table::{
    Atom, Block, Expression, Function, Program, SpawnCall, Statement, Temporary, Transfer, Version,
    MAX_BLOCKS, MAX_FUNCTIONS, MAX_NESTING, MAX_PARAMETERS, MAX_RETURNS, MAX_SPAWNS,
    MAX_STATEMENTS, MAX_TEMPORARY,
};

/// A byte of a table and the smallest and largest byte allowed in its place.
#[derive(Clone, Copy, Debug, PartialEq, Eq)]
pub struct Ranged {
    pub byte: u8,
    pub min: u8,
    pub max: u8,
}

/// The table of a program.
pub fn encode(program: &Program) -> Vec<u8> {
    encode_as(program, Version::Full)
}

/// Its table of version 2, without its scopes and nestings.
pub fn encode_brief(program: &Program) -> Vec<u8> {
    encode_as(program, Version::Brief)
}

/// Its table of a version.
pub fn encode_as(program: &Program, version: Version) -> Vec<u8> {
    let ranged = encode_ranged(program, version);
    ranged.iter().map(|r| r.byte).collect()
}

/// The same with the range of each byte.
pub fn encode_ranged(program: &Program, version: Version) -> Vec<Ranged> {
    let mut writer = Writer {
        bytes: Vec::new(),
        version,
    };
    writer.any(&[0; 4]);
    writer.any(&[version.number()]);
    writer.count(program.functions.len(), 1, MAX_FUNCTIONS);
    for function in &program.functions {
        writer.function(function);
    }
    let mut bytes = writer.bytes;
    let field = (bytes.len() as u32).to_be_bytes();
    for (place, byte) in bytes.iter_mut().zip(field) {
        place.byte = byte;
    }
    bytes
}

/// Sets a table's length field to its length.
pub fn fix_length(table: &mut [u8]) {
    let field = (table.len() as u32).to_be_bytes();
    for (place, byte) in table.iter_mut().zip(field) {
        *place = byte;
    }
}

struct Writer {
    bytes: Vec<Ranged>,
    version: Version,
}

impl Writer {
    fn ranged(&mut self, byte: u8, min: u8, max: u8) {
        self.bytes.push(Ranged { byte, min, max });
    }

    fn count(&mut self, count: usize, min: u8, max: u8) {
        let byte = u8::try_from(count).expect("a count is a byte");
        self.ranged(byte, min, max);
    }

    fn any(&mut self, bytes: &[u8]) {
        for &byte in bytes {
            self.ranged(byte, 0, u8::MAX);
        }
    }

    fn function(&mut self, function: &Function) {
        self.ranged(function.parameters, 0, MAX_PARAMETERS);
        self.ranged(function.returns, 0, MAX_RETURNS);
        self.count(function.blocks.len(), 1, MAX_BLOCKS);
        self.count(function.spawns.len(), 0, MAX_SPAWNS);
        for spawn in &function.spawns {
            self.spawn(spawn);
        }
        for block in &function.blocks {
            self.block(block);
        }
    }

    fn spawn(&mut self, spawn: &SpawnCall) {
        self.any(&[spawn.function]);
        self.arguments(&spawn.arguments, MAX_PARAMETERS);
    }

    fn arguments(&mut self, arguments: &[Temporary], most: u8) {
        self.count(arguments.len(), 0, most);
        for &argument in arguments {
            self.temporary(argument);
        }
    }

    fn temporary(&mut self, temporary: Temporary) {
        self.ranged(temporary, 0, MAX_TEMPORARY);
    }

    fn block(&mut self, block: &Block) {
        self.arguments(&block.parameters, MAX_PARAMETERS);
        if self.version == Version::Full {
            let scope = block.scope.iter().fold(0u16, |bits, t| bits | 1 << t);
            self.any(&scope.to_be_bytes());
            self.count(block.nesting.len(), 0, MAX_NESTING);
            self.any(&block.nesting);
        }
        self.count(block.statements.len(), 0, MAX_STATEMENTS);
        for statement in &block.statements {
            self.statement(statement);
        }
        self.transfer(&block.transfer);
    }

    fn statement(&mut self, statement: &Statement) {
        self.temporary(statement.target);
        self.expression(&statement.expression);
    }

    fn expression(&mut self, expression: &Expression) {
        let kind = match expression {
            Expression::Plain(_) => 0,
            Expression::Negated(_) => 1,
            Expression::Sum(..) => 2,
            Expression::Less(..) => 3,
        };
        self.ranged(kind, 0, 3);
        for atom in expression.atoms() {
            self.atom(atom);
        }
    }

    fn atom(&mut self, atom: Atom) {
        match atom {
            Atom::Value(value) => {
                self.ranged(0, 0, 1);
                self.any(&value.to_be_bytes());
            }
            Atom::Temporary(temporary) => {
                self.ranged(1, 0, 1);
                self.temporary(temporary);
            }
        }
    }

    fn transfer(&mut self, transfer: &Transfer) {
        let kind = match transfer {
            Transfer::Goto { .. } => 0,
            Transfer::If { .. } => 1,
            Transfer::Call { .. } => 2,
            Transfer::Return { .. } => 3,
            Transfer::Spork { .. } => 4,
            Transfer::Spoin { .. } => 5,
        };
        self.ranged(kind, 0, 5);
        match transfer {
            Transfer::Goto { block, arguments } => {
                self.any(&[*block]);
                self.arguments(arguments, MAX_PARAMETERS);
            }
            Transfer::If {
                condition,
                then,
                otherwise,
            } => {
                self.expression(condition);
                self.any(&[*then, *otherwise]);
            }
            Transfer::Call {
                function,
                arguments,
                return_block,
            } => {
                self.any(&[*function]);
                self.arguments(arguments, MAX_PARAMETERS);
                self.any(&[*return_block]);
            }
            Transfer::Return { arguments } => self.arguments(arguments, MAX_RETURNS),
            Transfer::Spork { body, spawn } => self.any(&[*body, *spawn]),
            Transfer::Spoin {
                unpromoted,
                promoted,
            } => self.any(&[*unpromoted, *promoted]),
        }
    }
}
