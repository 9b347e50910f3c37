//! Tables of version 2: what the library completes, beside what is known of
//! them, and runs of a completed table beside those of another that passes.

use crate::library::Library;
use oracle::complete::{OUTPUT, SCRATCH};
use oracle::encode::encode;
use oracle::gen::brief::{bare, Brief};
use oracle::gen::schedules::guided_schedule;
use oracle::machine::{hostile, tables_differ, Machine};
use oracle::pool::Pool;
use oracle::rng::Rng;
use oracle::stored::brief_rows;
use oracle::table::Program;
use oracle::tally::Tally;
use oracle::watch;
use oracle::{Refusal, POOL_WORDS};

/// What must occur, by name.
pub const EVENTS: [&str; 3] = [STORED, KNOWN, ALIKE];

const STORED: &str = "stored completion";
const KNOWN: &str = "completion that is refused as is known";
const ALIKE: &str = "run of a completed table as of another that passes";

/// The stored completions.
pub fn check_stored(tally: &mut Tally, library: &Library) {
    for row in brief_rows() {
        let given = completed(library, &row.table);
        tally.expect(given == row.completed, || {
            format!("{}: {given:02x?}, {:02x?} is due", row.name, row.completed)
        });
        check_table(tally, library, &row.table);
        tally.event(STORED);
    }
}

/// The completed table, with hostile contents of what is lent.
fn completed(machine: &dyn Machine, table: &[u8]) -> Result<Vec<u8>, Refusal> {
    let (mut out, mut scratch) = hostile(table, OUTPUT, SCRATCH);
    let length = machine.complete(table, &mut out, &mut scratch)?;
    out.truncate(length);
    Ok(out)
}

/// Every call on a table, and that all but one give version 2 its 2.
fn check_table(tally: &mut Tally, library: &Library, table: &[u8]) {
    let found = tables_differ(library, table);
    tally.expect(found.is_empty(), || format!("{found:?}: {table:02x?}"));
    library.version_2(tally, table, &completed(library, table));
}

/// A table of version 2: every call, what is known of its completion, and a
/// run of the completed table.
pub fn check_brief(tally: &mut Tally, library: &Library, rng: &mut Rng, input: &Brief) {
    let table = &input.table;
    tally.event(&input.kind.event());
    check_table(tally, library, table);
    let given = completed(library, table);
    match &input.known {
        Some(Ok(known)) => {
            let full = given.clone().unwrap_or_default();
            let read = oracle::read(&full);
            tally.expect(read.is_ok(), || format!("{given:02x?} of {table:02x?}"));
            let Ok(program) = read else {
                return;
            };
            check_smallest(tally, &program, known, input.smallest);
            for event in watch::completed(&program, known, table.len()) {
                tally.event(event);
            }
            check_run(tally, library, rng, known, &full);
        }
        Some(Err(known)) => {
            tally.expect(given.as_ref().err() == Some(known), || {
                format!("{known:?} is due, {given:02x?} given: {table:02x?}")
            });
            tally.event(KNOWN);
        }
        None => {}
    }
}

/// A completed program is another that passes but for its scopes, which are
/// contained in the other's, or the same where those are the smallest.
fn check_smallest(tally: &mut Tally, program: &Program, known: &Program, smallest: bool) {
    let blocks = |program: &Program| {
        let functions = program.functions.clone().into_iter();
        functions.flat_map(|f| f.blocks).collect::<Vec<_>>()
    };
    let same = bare(program) == bare(known);
    let (given, other) = (blocks(program), blocks(known));
    let contained = given.iter().zip(&other).all(|(block, other)| {
        let scopes = block.scope.is_subset(&other.scope);
        scopes && block.nesting == other.nesting
    });
    tally.expect(same && contained, || {
        format!("{program:?} does not lie in {known:?}")
    });
    tally.expect(!smallest || program == known, || {
        format!("{known:?} has the smallest scopes, {program:?} given")
    });
}

/// Scopes have no part in a run: the same choices have the same answers and
/// leave the same words by both tables.
fn check_run(
    tally: &mut Tally,
    library: &Library,
    rng: &mut Rng,
    known: &Program,
    completed: &[u8],
) {
    let table = encode(known);
    if oracle::check(&table).is_err() {
        return;
    }
    let choices = guided_schedule(rng, known, &Pool::start(), 20, true);
    let widest = library.widest();
    let choices: Vec<_> = choices
        .iter()
        .map(|&(kind, thread)| (kind.min(widest), thread.min(widest)))
        .collect();
    let run = |table: &[u8]| {
        let (mut words, mut made) = (vec![-1; POOL_WORDS], 0);
        let started = library.start(table, &mut words);
        let answer = library.schedule(table, &mut words, &choices, &mut made);
        (started, answer, made, words)
    };
    let (one, other) = (run(&table), run(completed));
    tally.expect(one == other, || {
        format!("{:?} of one table, {:?} once completed", one.1, other.1)
    });
    tally.event(ALIKE);
}
