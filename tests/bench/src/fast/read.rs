//! One walk over a table that refuses the first bad byte and keeps the places.

use super::places::Places;
use super::Refusal;

/// The offset behind what was passed over, or that of the first bad byte.
type Passed = Result<usize, usize>;

/// Reads a table into places that are all absent.
pub fn read_into(table: &[u8], places: &mut Places) -> Result<(), Refusal> {
    let length = table.len();
    if !(6..=16_384).contains(&length) {
        return Err(Refusal::Plain(1));
    }
    let field = u32::from_be_bytes([table[0], table[1], table[2], table[3]]);
    if field as usize != length {
        return Err(Refusal::Plain(1));
    }
    if table[4] != 1 {
        return Err(Refusal::Plain(2));
    }
    match program(table, places) {
        Ok(end) if end == length => Ok(()),
        Ok(at) | Err(at) => Err(Refusal::Byte(at)),
    }
}

/// A byte from `low` to `high`.
#[inline(always)]
fn byte(t: &[u8], at: usize, low: u8, high: u8) -> Result<u8, usize> {
    match t.get(at) {
        Some(&byte) if low <= byte && byte <= high => Ok(byte),
        _ => Err(at),
    }
}

/// `n` bytes of any value.
#[inline(always)]
fn any(t: &[u8], at: usize, n: usize) -> Passed {
    if t.len() - at < n {
        Err(t.len())
    } else {
        Ok(at + n)
    }
}

fn program(t: &[u8], places: &mut Places) -> Passed {
    let functions = byte(t, 5, 1, 16)?;
    let mut at = 6;
    for f in 0..usize::from(functions) {
        places.set_function(f, at);
        at = function(t, at, f, places)?;
    }
    Ok(at)
}

fn function(t: &[u8], at: usize, f: usize, places: &mut Places) -> Passed {
    byte(t, at, 0, 8)?;
    byte(t, at + 1, 0, 4)?;
    let blocks = byte(t, at + 2, 1, 32)?;
    let spawns = byte(t, at + 3, 0, 8)?;
    let mut at = at + 4;
    for k in 0..usize::from(spawns) {
        places.set_spawn(f, k, at);
        at = named_list(t, at)?;
    }
    for b in 0..usize::from(blocks) {
        places.set_block(f, b, at);
        at = block(t, at)?;
    }
    Ok(at)
}

/// A name and an argument list.
fn named_list(t: &[u8], at: usize) -> Passed {
    list(t, any(t, at, 1)?, 8)
}

/// A count up to `most` and that many temporaries.
fn list(t: &[u8], at: usize, most: u8) -> Passed {
    let count = byte(t, at, 0, most)?;
    let first = at + 1;
    let end = first + usize::from(count);
    let there = &t[first..end.min(t.len())];
    match there.iter().position(|&temporary| temporary > 15) {
        Some(i) => Err(first + i),
        None if end <= t.len() => Ok(end),
        None => Err(t.len()),
    }
}

fn block(t: &[u8], at: usize) -> Passed {
    let scope = list(t, at, 8)?;
    let nesting = any(t, scope, 2)?;
    let depth = byte(t, nesting, 0, 4)?;
    let code = any(t, nesting + 1, depth.into())?;
    let statements = byte(t, code, 0, 32)?;
    let mut at = code + 1;
    for _ in 0..statements {
        byte(t, at, 0, 15)?;
        at = expression(t, at + 1)?;
    }
    transfer(t, at)
}

#[inline]
fn expression(t: &[u8], at: usize) -> Passed {
    let kind = byte(t, at, 0, 3)?;
    let end = atom(t, at + 1)?;
    if kind < 2 {
        Ok(end)
    } else {
        atom(t, end)
    }
}

#[inline]
fn atom(t: &[u8], at: usize) -> Passed {
    if byte(t, at, 0, 1)? == 0 {
        any(t, at + 1, 4)
    } else {
        byte(t, at + 1, 0, 15)?;
        Ok(at + 2)
    }
}

fn transfer(t: &[u8], at: usize) -> Passed {
    let kind = byte(t, at, 0, 5)?;
    let at = at + 1;
    match kind {
        0 => named_list(t, at),
        1 => any(t, expression(t, at)?, 2),
        2 => any(t, named_list(t, at)?, 1),
        3 => list(t, at, 4),
        _ => any(t, at, 2),
    }
}
