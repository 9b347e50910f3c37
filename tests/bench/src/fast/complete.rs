//! The completion of a table of version 2: one walk reads the table and keeps
//! of each block what the rules look at; a search in depth finds what is
//! reached, the nestings and an order in which scopes come to rest in one turn
//! where there is no loop; what is left to judge is judged on that, and each
//! block is copied with its scope and nesting between.

use super::Refusal;

const BLOCKS: usize = 32;
const FUNCTIONS: usize = 16;
const OUTPUT: usize = 16_384;
const SCRATCH: usize = 1_024;

/// The block number of a fault in no block.
const NO_BLOCK: u8 = 255;
/// A target that a transfer does not have.
const NONE: u16 = 256;

/// Writes the completed table with 0 behind it, and gives its length.
#[inline(never)]
pub fn complete(table: &[u8], out: &mut [u8], scratch: &mut [u32]) -> Result<usize, Refusal> {
    let mut program = Program {
        t: table,
        functions: [Function::EMPTY; FUNCTIONS],
        blocks: [[Block::EMPTY; BLOCKS]; FUNCTIONS],
        count: 0,
    };
    program.read()?;
    let (Ok(out), Some(words)) = (out.try_into(), scratch.get_mut(..SCRATCH)) else {
        return Err(Refusal::Plain(24));
    };
    words.fill(0);
    for f in 0..program.count {
        program
            .reach(f)
            .map_err(|b| Refusal::Fault(25, f as u8, b))?;
    }
    for f in 0..program.count {
        if !program.passes(f) {
            return Err(Refusal::Fault(26, f as u8, NO_BLOCK));
        }
    }
    Ok(program.write(out))
}

/// A spawn call: its function, how many arguments it has, and which.
#[derive(Clone, Copy)]
struct Spawn {
    function: u8,
    count: u8,
    arguments: u16,
}

#[derive(Clone, Copy)]
struct Function {
    at: u16,
    parameters: u8,
    returns: u8,
    blocks: u8,
    spawns: u8,
    spawn: [Spawn; 8],
    /// The blocks, each behind those that it was the first to lead to.
    order: [u8; BLOCKS],
    /// Whether a block leads to one from which it was reached.
    cyclic: bool,
    /// Whether the nestings agree and all targets are there.
    agrees: bool,
}

impl Function {
    const EMPTY: Function = Function {
        at: 0,
        parameters: 0,
        returns: 0,
        blocks: 0,
        spawns: 0,
        spawn: [Spawn {
            function: 0,
            count: 0,
            arguments: 0,
        }; 8],
        order: [0; BLOCKS],
        cyclic: false,
        agrees: true,
    };
}

/// A block: where it, what stands behind its parameters, and the next one
/// begin; what it binds, its parameters with the rest, what it needs besides,
/// and how many parameters it has; its transfer; and what is inferred of it.
#[derive(Clone, Copy)]
struct Block {
    at: u16,
    code: u16,
    end: u16,
    bound: u16,
    needs: u16,
    taken: u8,
    /// Whether it binds a temporary twice by itself.
    twice: bool,
    kind: u8,
    /// The number of arguments, and a call's function or a spork's spawn call.
    count: u8,
    name: u8,
    targets: [u16; 2],
    scope: u16,
    nesting: Nesting,
}

impl Block {
    const EMPTY: Block = Block {
        at: 0,
        code: 0,
        end: 0,
        bound: 0,
        needs: 0,
        taken: 0,
        twice: false,
        kind: 0,
        count: 0,
        name: 0,
        targets: [NONE; 2],
        scope: 0,
        nesting: Nesting { depth: 0, names: 0 },
    };
}

/// Up to four names, the outermost in the lowest byte.
#[derive(Clone, Copy, PartialEq, Eq)]
struct Nesting {
    depth: u8,
    names: u32,
}

impl Nesting {
    #[inline]
    fn opened(self, name: u8) -> Option<Nesting> {
        (self.depth < 4).then(|| Nesting {
            depth: self.depth + 1,
            names: self.names | u32::from(name) << (8 * self.depth),
        })
    }

    #[inline]
    fn closed(self) -> Option<Nesting> {
        (self.depth > 0).then(|| Nesting {
            depth: self.depth - 1,
            names: self.names & !(0xFF << (8 * (self.depth - 1))),
        })
    }

    #[inline]
    fn bytes(&self) -> [u8; 4] {
        self.names.to_le_bytes()
    }
}

struct Program<'a> {
    t: &'a [u8],
    functions: [Function; FUNCTIONS],
    blocks: [[Block; BLOCKS]; FUNCTIONS],
    count: usize,
}

/// What was read with the offset behind it, or that of the first bad byte.
type Passed<T> = Result<(T, usize), usize>;

/// A byte from `low` to `high`.
#[inline(always)]
fn byte(t: &[u8], at: usize, low: u8, high: u8) -> Result<u8, usize> {
    match t.get(at) {
        Some(&byte) if low <= byte && byte <= high => Ok(byte),
        _ => Err(at),
    }
}

/// Any byte.
#[inline(always)]
fn any(t: &[u8], at: usize) -> Result<u8, usize> {
    t.get(at).copied().ok_or(t.len())
}

/// A set of one temporary, 0 to 15.
#[inline(always)]
fn temporary(t: &[u8], at: usize) -> Result<u16, usize> {
    Ok(1 << byte(t, at, 0, 15)?)
}

/// A list's number of temporaries and their set.
#[inline(always)]
fn list(t: &[u8], at: usize, most: u8) -> Passed<(u8, u16)> {
    let count = byte(t, at, 0, most)?;
    let mut set = 0;
    let end = at + 1 + usize::from(count);
    for at in at + 1..end {
        set |= temporary(t, at)?;
    }
    Ok(((count, set), end))
}

/// The temporaries of an expression.
#[inline(always)]
fn expression(t: &[u8], at: usize) -> Passed<u16> {
    let kind = byte(t, at, 0, 3)?;
    let (first, end) = atom(t, at + 1)?;
    if kind < 2 {
        return Ok((first, end));
    }
    let (second, end) = atom(t, end)?;
    Ok((first | second, end))
}

#[inline(always)]
fn atom(t: &[u8], at: usize) -> Passed<u16> {
    if byte(t, at, 0, 1)? == 0 {
        let end = at + 5;
        return if end <= t.len() {
            Ok((0, end))
        } else {
            Err(t.len())
        };
    }
    Ok((temporary(t, at + 1)?, at + 2))
}

fn block(t: &[u8], at: usize) -> Result<Block, usize> {
    let ((taken, parameters), code) = list(t, at, 8)?;
    let mut block = Block {
        at: at as u16,
        code: code as u16,
        taken,
        bound: parameters,
        twice: parameters.count_ones() != taken.into(),
        ..Block::EMPTY
    };
    let statements = byte(t, code, 0, 32)?;
    let mut at = code + 1;
    for _ in 0..statements {
        let target = temporary(t, at)?;
        let (used, end) = expression(t, at + 1)?;
        block.needs |= used & !block.bound;
        block.twice |= block.bound & target != 0;
        block.bound |= target;
        at = end;
    }
    transfer(t, at, &mut block)?;
    Ok(block)
}

#[inline(always)]
fn transfer(t: &[u8], at: usize, block: &mut Block) -> Result<(), usize> {
    block.kind = byte(t, at, 0, 5)?;
    let at = at + 1;
    let (used, end) = match block.kind {
        0 => {
            block.targets[0] = any(t, at)?.into();
            let ((count, set), end) = list(t, at + 1, 8)?;
            block.count = count;
            (set, end)
        }
        1 => {
            let (set, at) = expression(t, at)?;
            block.targets = [any(t, at)?.into(), any(t, at + 1)?.into()];
            (set, at + 2)
        }
        2 => {
            block.name = any(t, at)?;
            let ((count, set), at) = list(t, at + 1, 8)?;
            block.count = count;
            block.targets[0] = any(t, at)?.into();
            (set, at + 1)
        }
        3 => {
            let ((count, set), end) = list(t, at, 4)?;
            block.count = count;
            (set, end)
        }
        4 => {
            block.targets[0] = any(t, at)?.into();
            block.name = any(t, at + 1)?;
            (0, at + 2)
        }
        _ => {
            block.targets = [any(t, at)?.into(), any(t, at + 1)?.into()];
            (0, at + 2)
        }
    };
    block.needs |= used & !block.bound;
    block.end = end as u16;
    Ok(())
}

impl Program<'_> {
    fn read(&mut self) -> Result<(), Refusal> {
        let t = self.t;
        if !(6..=12_800).contains(&t.len()) {
            return Err(Refusal::Plain(1));
        }
        let field = u32::from_be_bytes([t[0], t[1], t[2], t[3]]);
        if field as usize != t.len() {
            return Err(Refusal::Plain(1));
        }
        if t[4] != 2 {
            return Err(Refusal::Plain(2));
        }
        match self.read_functions() {
            Ok(end) if end == t.len() => Ok(()),
            Ok(at) | Err(at) => Err(Refusal::Byte(at)),
        }
    }

    fn read_functions(&mut self) -> Result<usize, usize> {
        let t = self.t;
        self.count = byte(t, 5, 1, FUNCTIONS as u8)?.into();
        let mut at = 6;
        for (function, blocks) in self.functions[..self.count]
            .iter_mut()
            .zip(&mut self.blocks)
        {
            function.at = at as u16;
            function.parameters = byte(t, at, 0, 8)?;
            function.returns = byte(t, at + 1, 0, 4)?;
            function.blocks = byte(t, at + 2, 1, BLOCKS as u8)?;
            function.spawns = byte(t, at + 3, 0, 8)?;
            at += 4;
            for spawn in &mut function.spawn[..usize::from(function.spawns)] {
                let callee = any(t, at)?;
                let ((count, arguments), end) = list(t, at + 1, 8)?;
                *spawn = Spawn {
                    function: callee,
                    count,
                    arguments,
                };
                at = end;
            }
            for here in &mut blocks[..usize::from(function.blocks)] {
                *here = block(t, at)?;
                at = here.end.into();
            }
        }
        Ok(at)
    }

    /// Goes through a function in depth, with the nesting of each block; the
    /// lowest block that is not reached.
    fn reach(&mut self, f: usize) -> Result<(), u8> {
        let (function, blocks) = (&mut self.functions[f], &mut self.blocks[f]);
        let blocks = &mut blocks[..usize::from(function.blocks)];
        let mut seen = 1u32;
        let mut ended = 0u32;
        let mut finished = 0;
        // The way from the entry, and which target of each block is next.
        let mut way = [(0u8, 0u8); BLOCKS];
        let mut length = 1;
        while length > 0 {
            let (b, side) = way[length - 1];
            let here = &blocks[usize::from(b)];
            let target = match here.targets.get(usize::from(side)) {
                Some(&target) if target != NONE => usize::from(target),
                _ => {
                    ended |= 1 << b;
                    function.order[finished] = b;
                    finished += 1;
                    length -= 1;
                    continue;
                }
            };
            way[length - 1].1 += 1;
            let nesting = match here.kind {
                4 => here.nesting.opened(here.name),
                5 => here.nesting.closed(),
                _ => Some(here.nesting),
            };
            function.agrees &= nesting.is_some() && target < blocks.len();
            let Some(to) = blocks.get_mut(target) else {
                continue;
            };
            let nesting = nesting.unwrap_or(Nesting { depth: 0, names: 0 });
            if seen >> target & 1 == 1 {
                function.agrees &= to.nesting == nesting;
                function.cyclic |= ended >> target & 1 == 0;
            } else {
                seen |= 1 << target;
                to.nesting = nesting;
                way[length] = (target as u8, 0);
                length += 1;
            }
        }
        let missing = (!seen).trailing_zeros();
        if missing < blocks.len() as u32 {
            Err(missing as u8)
        } else {
            Ok(())
        }
    }

    /// Infers the scopes of a function, and judges it.
    fn passes(&mut self, f: usize) -> bool {
        if !self.functions[f].agrees
            || !self.spawns_fit(f)
            || f == 0 && self.functions[0].parameters != 0
        {
            return false;
        }
        self.settle(f);
        let (function, blocks) = (&self.functions[f], &self.blocks[f]);
        let blocks = &blocks[..usize::from(function.blocks)];
        let given = parameters(function.parameters);
        let entry = &blocks[0];
        entry.taken == 0
            && entry.scope == given
            && entry.nesting.depth == 0
            && blocks.iter().all(|block| {
                !block.twice
                    && block.scope & block.bound == 0
                    && self.transfer_fits(function, blocks, block)
            })
    }

    /// Whether spawn calls name functions that take their arguments.
    fn spawns_fit(&self, f: usize) -> bool {
        let function = &self.functions[f];
        function.spawn[..usize::from(function.spawns)]
            .iter()
            .all(|spawn| {
                let callee = self.callee(spawn.function);
                callee.is_some_and(|callee| callee.parameters == spawn.count)
            })
    }

    #[inline]
    fn callee(&self, name: u8) -> Option<&Function> {
        self.functions[..self.count].get(usize::from(name))
    }

    /// The smallest scopes: each block's from those that it leads to, until
    /// they rest.
    fn settle(&mut self, f: usize) {
        let (function, blocks) = (&self.functions[f], &mut self.blocks[f]);
        let count = usize::from(function.blocks);
        for block in &mut blocks[..count] {
            block.scope = block.needs;
            for &name in &block.nesting.bytes()[..usize::from(block.nesting.depth)] {
                // A name that there is not is judged where it is opened.
                if let Some(spawn) = function.spawn.get(usize::from(name)) {
                    block.scope |= spawn.arguments;
                }
            }
        }
        blocks[0].scope |= parameters(function.parameters);
        loop {
            let mut changed = false;
            for &b in &function.order[..count] {
                let block = &blocks[usize::from(b)];
                let asked = block
                    .targets
                    .iter()
                    .filter_map(|&target| blocks.get(usize::from(target)))
                    .fold(0, |asked, to| asked | to.scope);
                let scope = block.scope | asked & !block.bound;
                changed |= scope != block.scope;
                blocks[usize::from(b)].scope = scope;
            }
            if !(changed && function.cyclic) {
                break;
            }
        }
    }

    /// Names and counts of a transfer; what it needs is in scope by now, and
    /// its targets are there with their nestings.
    #[inline]
    fn transfer_fits(&self, function: &Function, blocks: &[Block], block: &Block) -> bool {
        let taken = |side: usize| blocks[usize::from(block.targets[side])].taken;
        match block.kind {
            0 => taken(0) == block.count,
            1 => taken(0) == 0 && taken(1) == 0,
            2 => self.callee(block.name).is_some_and(|callee| {
                callee.parameters == block.count && callee.returns == taken(0)
            }),
            3 => block.count == function.returns && block.nesting.depth == 0,
            4 => block.name < function.spawns && taken(0) == 0,
            _ => {
                let last = block.nesting.bytes()[usize::from(block.nesting.depth) - 1];
                let spawn = &function.spawn[..usize::from(function.spawns)];
                let callee = spawn
                    .get(usize::from(last))
                    .and_then(|spawn| self.callee(spawn.function));
                taken(0) == 0 && callee.is_some_and(|callee| callee.returns == taken(1))
            }
        }
    }

    /// Writes the table of version 1, with 0 behind it.
    fn write(&self, out: &mut [u8; OUTPUT]) -> usize {
        let mut at = 6;
        for (function, blocks) in self.functions[..self.count].iter().zip(&self.blocks) {
            let blocks = &blocks[..usize::from(function.blocks)];
            at = copied(out, at, &self.t[function.at.into()..blocks[0].at.into()]);
            for block in blocks {
                at = copied(out, at, &self.t[block.at.into()..block.code.into()]);
                let depth = usize::from(block.nesting.depth);
                let [high, low] = block.scope.to_be_bytes();
                let [a, b, c, d] = block.nesting.bytes();
                let head = [high, low, depth as u8, a, b, c, d];
                at = copied(out, at, &head[..3 + depth]);
                at = copied(out, at, &self.t[block.code.into()..block.end.into()]);
            }
        }
        out[..4].copy_from_slice(&(at as u32).to_be_bytes());
        out[4] = 1;
        out[5] = self.count as u8;
        out[at..].fill(0);
        at
    }
}

/// The set of a function's parameters.
#[inline(always)]
fn parameters(count: u8) -> u16 {
    (1 << count) - 1
}

/// Copies bytes to an offset, and gives the one behind them.
#[inline(always)]
fn copied(out: &mut [u8; OUTPUT], at: usize, bytes: &[u8]) -> usize {
    out[at..at + bytes.len()].copy_from_slice(bytes);
    at + bytes.len()
}
