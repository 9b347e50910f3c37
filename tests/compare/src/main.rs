//! Puts random tables, pools and choices to every call of the library and of
//! the second implementation and compares the answers, refusals with their
//! places, and what is written; asserts the laws of every number answered and
//! of the memory lent; and asserts demand 3 of the library, what depths say,
//! that a child's arguments are those of its spork, and that tidy tables answer
//! as their tables, on random runs of accepted tables. Of any table steps by the
//! first are made, pools with other values listed, and every step is held to the
//! integer that it works out. Tables of version 2 are completed, whose completions
//! are known where their making tells them. Stored tables are tidied and completed
//! too, and a pool is filled to see where each frame begins.
//!
//! `compare SEED COUNT`; the last line is `compare: N passed, M failed`.

mod brief;
mod first;
mod laws;
mod lent;
mod library;
mod lines;
mod listings;
mod overflow;
mod purses;
mod runs;
mod sporks;
mod starts;
mod tokens;
mod twins;

use library::Library;
use oracle::beats::beat;
use oracle::encode::encode;
use oracle::gen::brief::{brief, Kind as BriefKind};
use oracle::gen::calls::{self, Calling};
use oracle::gen::faults::{self, Kind};
use oracle::gen::loops::looping;
use oracle::gen::{notes, programs, scenario, Scenario, Source};
use oracle::machine::{differences, every_beat, tables_differ, Machine};
use oracle::pool::Pool;
use oracle::rng::Rng;
use oracle::table::{Program, TABLE_MAX};
use oracle::tally::Tally;
use oracle::watch::{self, join_event};
use oracle::POOL_WORDS;
use std::process::ExitCode;

const FULL_SIZE: &str = "table of 16384 bytes";
const PAIR: &str = "two faults around a block";
const LONG: &str = "schedule of 500 choices";

fn main() -> ExitCode {
    let mut words = std::env::args().skip(1);
    let mut number = |other| words.next().map_or(other, |w| w.parse().expect("a number"));
    let (seed, count): (u64, u64) = (number(1), number(3000));
    let library = Library::default();
    let mut tally = Tally::new("compare", events());
    twins::check_stored(&mut tally, &library);
    brief::check_stored(&mut tally, &library);
    starts::check_full(&mut tally, &library);
    tokens::check_rich(&mut tally, &library);
    listings::check_longest(&mut tally, &library);
    for round in 0..count {
        tally.round = round;
        let mut rng = Rng::of_round(seed, round);
        let lent = compare_scenario(&mut tally, &library, &mut rng);
        let program = programs::accepted(&mut rng);
        compare_faults(&mut tally, &library, &mut rng, &program);
        runs::check_run(&mut tally, &library, &mut rng, &program);
        tokens::check_tokens(&mut tally, &library, &mut rng, &program);
        note_program(&mut tally, &program);
        let calling = compare_calls(&mut tally, &library, &mut rng);
        let looped = looping(&mut rng);
        runs::check_run(&mut tally, &library, &mut rng, &looped);
        tokens::check_tokens(&mut tally, &library, &mut rng, &looped);
        tokens::check_crowded(&mut tally, &library, &mut rng, &looped);
        let one = [&program, &calling][round as usize % 2];
        twins::check_twins(&mut tally, &library, &mut rng, one);
        let input = brief(&mut rng);
        brief::check_brief(&mut tally, &library, &mut rng, &input);
        first::check_lent(&mut tally, &library, &mut rng, &lent);
        let one = [&program, &calling, &looped][round as usize % 3];
        first::check_started(&mut tally, &library, &mut rng, one);
        listings::check_lent(&mut tally, &library, &mut rng, &lent);
        overflow::check_lent(&mut tally, &library, &mut rng, &lent);
        for program in [one, &programs::loose(&mut rng)] {
            overflow::check_limits(&mut tally, &library, &mut rng, program);
        }
        library.count(&mut tally);
    }
    tally.finish()
}

/// What must occur besides every rule and refusal.
fn events() -> Vec<String> {
    let mut events: Vec<String> = (0..=4).map(join_event).collect();
    events.extend(Kind::ALL.map(|kind| format!("fault {kind:?}")));
    events.extend(calls::Kind::ALL.map(calls::Kind::event));
    events.extend(watch::SHAPES.map(String::from));
    events.extend(watch::EVENTS.map(String::from));
    events.extend(watch::TIDIED.map(String::from));
    events.extend(twins::EVENTS.map(String::from));
    events.extend(brief::EVENTS.map(String::from));
    events.extend(BriefKind::ALL.map(BriefKind::event));
    events.extend(watch::COMPLETED.map(String::from));
    events.extend(Source::ALL.map(|source| format!("scenario {source:?}")));
    events.extend(notes().into_iter().map(String::from));
    events.extend(watch::BEATS.map(String::from));
    events.extend(tokens::EVENTS.map(String::from));
    events.extend(watch::FIRSTS.map(String::from));
    events.extend(watch::BY_FIRST.map(String::from));
    events.extend(first::EVENTS.map(String::from));
    events.extend(watch::LISTED.map(String::from));
    events.extend(listings::EVENTS.map(String::from));
    events.extend(watch::LIMITS.map(String::from));
    events.extend(overflow::EVENTS.map(String::from));
    let others = [FULL_SIZE, PAIR, LONG, starts::EVENT];
    events.extend(laws::events());
    events.extend(sporks::events());
    events.extend(others.into_iter().chain(runs::EVENTS).map(String::from));
    events
}

/// Every call on one scenario, which is given.
fn compare_scenario(tally: &mut Tally, library: &Library, rng: &mut Rng) -> Scenario {
    let input = scenario(rng);
    let found = differences(library, &input);
    tally.expect(found.is_empty(), || {
        format!("{found:?}: {:02x?}", input.table)
    });
    tally.event(&format!("scenario {:?}", input.source));
    for note in &input.notes {
        tally.event(note);
    }
    note_beats(tally, &input);
    if input.table.len() == TABLE_MAX {
        tally.event(FULL_SIZE);
    }
    if input.choices.len() >= 500 && input.words.len() == POOL_WORDS {
        tally.event(LONG);
    }
    input
}

/// A table rich in calls, as it is and with faults, and a run of it.
fn compare_calls(tally: &mut Tally, library: &Library, rng: &mut Rng) -> Program {
    let Calling {
        kind,
        program,
        known,
    } = calls::calling(rng);
    tally.event(&kind.event());
    let table = encode(&program);
    compare_table(tally, library, &table);
    let depth = library.depth(&table).map_err(|refusal| refusal.number);
    tally.expect(known.is_none() || known == Some(depth), || {
        format!("{known:?} is the depth, {depth:?} given: {table:02x?}")
    });
    compare_faults(tally, library, rng, &program);
    runs::check_run(tally, library, rng, &program);
    program
}

/// The calls on a table with one fault of each kind in turn, and with two.
fn compare_faults(tally: &mut Tally, library: &Library, rng: &mut Rng, program: &Program) {
    let kind = Kind::ALL[tally.round as usize % Kind::ALL.len()];
    let mut one = program.clone();
    if faults::plant(rng, &mut one, kind).is_some() {
        compare_table(tally, library, &encode(&one));
        tally.event(&format!("fault {kind:?}"));
    }
    if let Some((two, ..)) = faults::plant_pair(rng, program) {
        compare_table(tally, library, &encode(&two));
        tally.event(PAIR);
    }
}

fn compare_table(tally: &mut Tally, library: &Library, table: &[u8]) {
    let found = tables_differ(library, table);
    tally.expect(found.is_empty(), || format!("{found:?}: {table:02x?}"));
}

/// What the beats of a scenario are like.
fn note_beats(tally: &mut Tally, input: &Scenario) {
    let Ok(program) = oracle::read(&input.table) else {
        return;
    };
    let Ok(pool) = Pool::from_words(&program, &input.words) else {
        return;
    };
    for (pace, thread) in every_beat(input) {
        if let Ok(beat) = beat(&program, &mut pool.clone(), pace, thread) {
            for event in watch::beat(&beat, pace) {
                tally.event(event);
            }
        }
    }
}

fn note_program(tally: &mut Tally, program: &Program) {
    for shape in watch::shapes(program) {
        tally.event(shape);
    }
}
