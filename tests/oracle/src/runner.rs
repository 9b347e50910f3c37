//! The runner: a table and then choices from one stream to lines of text.

use crate::check::check_program;
use crate::pool::Pool;
use crate::refusal::{Place, Refusal};
use crate::rules::{choose, ended, PROMOTE, STEP};
use crate::table::{read, Program, TABLE_MAX, TABLE_MIN};
use std::io::{self, ErrorKind, Read, Write};

/// Runs the whole input and writes every line.
pub fn run(mut input: impl Read, mut output: impl Write) -> io::Result<()> {
    match accepted(&mut input)? {
        Err(refusal) => writeln!(output, "refused {}", refused(&refusal))?,
        Ok(program) => {
            writeln!(output, "accepted")?;
            run_choices(&program, &mut input, &mut output)?;
        }
    }
    output.flush()
}

/// Takes the table from the input and checks it.
fn accepted(input: &mut impl Read) -> io::Result<Result<Program, Refusal>> {
    let Some(table) = take_table(input)? else {
        return Ok(Err(Refusal::plain(1)));
    };
    Ok(read(&table).and_then(|program| {
        check_program(&program)?;
        Ok(program)
    }))
}

/// The table's bytes, as many as its length field says.
fn take_table(input: &mut impl Read) -> io::Result<Option<Vec<u8>>> {
    let mut field = [0; 4];
    if !fill(input, &mut field)? {
        return Ok(None);
    }
    let length = u32::from_be_bytes(field) as usize;
    if !(TABLE_MIN..=TABLE_MAX).contains(&length) {
        return Ok(None);
    }
    let mut table = vec![0; length];
    let (front, rest) = table.split_at_mut(field.len());
    front.copy_from_slice(&field);
    Ok(fill(input, rest)?.then_some(table))
}

/// Fills the bytes from the input, false if that ends before.
fn fill(input: &mut impl Read, bytes: &mut [u8]) -> io::Result<bool> {
    match input.read_exact(bytes) {
        Ok(()) => Ok(true),
        Err(error) if error.kind() == ErrorKind::UnexpectedEof => Ok(false),
        Err(error) => Err(error),
    }
}

/// Makes choices up to and with the first refusal, then gives the result.
fn run_choices(
    program: &Program,
    input: &mut impl Read,
    output: &mut impl Write,
) -> io::Result<()> {
    let mut pool = Pool::start();
    let mut index: u64 = 0;
    let mut pair = [0; 2];
    while fill(input, &mut pair)? {
        let [kind, thread] = pair.map(u64::from);
        let made = choose(program, &mut pool, kind, thread);
        let answer = match made {
            Ok(rule) => rule.name().to_string(),
            Err(number) => format!("refused {number}"),
        };
        writeln!(output, "{index} {} {thread} {answer}", kind_name(kind))?;
        if made.is_err() {
            break;
        }
        index += 1;
    }
    writeln!(output, "{}", result(program, &pool))
}

fn kind_name(kind: u64) -> String {
    match kind {
        STEP => "step".to_string(),
        PROMOTE => "promote".to_string(),
        other => other.to_string(),
    }
}

/// A refusal's number and place.
fn refused(refusal: &Refusal) -> String {
    let number = refusal.number;
    match refusal.place {
        Place::Nowhere => number.to_string(),
        Place::Offset(offset) => format!("{number} {offset}"),
        Place::Block(function, block) => format!("{number} {function} {block}"),
    }
}

/// The last line: main's values or `open`.
fn result(program: &Program, pool: &Pool) -> String {
    match ended(program, &pool.root) {
        None => "result open".to_string(),
        Some(values) => values.iter().fold("result".to_string(), |line, value| {
            format!("{line} {value}")
        }),
    }
}
