//! Whole inputs: a table, the words of a pool, a schedule, beats and a run.

use crate::beats::Pace;
use crate::encode::encode;
use crate::gen::schedules::{blind_schedule, guided_schedule, Choice};
use crate::gen::{beats, bytes, faults, pools, programs};
use crate::pool::{Pool, POOL_WORDS};
use crate::rng::Rng;
use crate::table::{Program, TABLE_MAX};

/// Where a scenario's table comes from.
#[derive(Clone, Copy, Debug, PartialEq, Eq)]
pub enum Source {
    /// Well formed.
    Accepted,
    /// Well formed but for one or two planted faults.
    Faulty,
    /// Names and counts at random.
    Loose,
    /// Bytes cut, stretched or mutated.
    Spoiled,
}

impl Source {
    /// All sources.
    pub const ALL: [Source; 4] = [
        Source::Accepted,
        Source::Faulty,
        Source::Loose,
        Source::Spoiled,
    ];
}

/// Where a scenario's words and choices come from, by name.
pub fn notes() -> Vec<&'static str> {
    [
        &SOURCES[..],
        &pools::EDGES,
        &pools::NO_PURSES,
        &beats::PACES,
    ]
    .concat()
}

const SOURCES: [&str; 16] = [
    CROWDED, JOINING, LIMITED, START, REACHED, ANY_POOL, PURSES, BROKEN, CHANGED, FILLED,
    ARBITRARY, RESIZED, GUIDED, BLIND, RUN, EMPTY,
];

const START: &str = "pool at the start";
const REACHED: &str = "pool reached by a run";
const ANY_POOL: &str = "pool of any kind";
const CROWDED: &str = "pool with many calls to promote";
const JOINING: &str = "pool with a child to join";
const LIMITED: &str = "pool with a sum or a negation at the limit";
const PURSES: &str = "pool with any purses";
const BROKEN: &str = "pool with a condition broken";
const CHANGED: &str = "pool with one word changed";
const FILLED: &str = "pool with an unused word set";
const ARBITRARY: &str = "arbitrary words";
const RESIZED: &str = "words of another length";
const GUIDED: &str = "guided schedule";
const BLIND: &str = "blind schedule";
const RUN: &str = "run of some threads";
const EMPTY: &str = "run of no thread";

/// An input for every call.
#[derive(Clone, Debug)]
pub struct Scenario {
    pub source: Source,
    /// Some of `notes()`.
    pub notes: Vec<&'static str>,
    pub table: Vec<u8>,
    /// More tables, faulty or spoiled, to be read and checked only.
    pub more_tables: Vec<Vec<u8>>,
    pub words: Vec<i32>,
    pub choices: Vec<Choice>,
    /// Paces and threads, each to be put to the words.
    pub beats: Vec<(Pace, u64)>,
    /// A pace and the threads of a run.
    pub run: (Pace, Vec<u64>),
}

/// A scenario of any kind; tables may get any of 1 to 11, words 12 and 13.
pub fn scenario(rng: &mut Rng) -> Scenario {
    let source = rng.one_of([
        Source::Accepted,
        Source::Accepted,
        Source::Faulty,
        Source::Loose,
        Source::Loose,
        Source::Spoiled,
    ]);
    let program = match source {
        Source::Accepted | Source::Spoiled => programs::accepted(rng),
        Source::Faulty => faulty(rng),
        Source::Loose => programs::loose(rng),
    };
    let mut notes = Vec::new();
    let (pool, choices) = pool_and_choices(rng, &program, &mut notes);
    let beats = some_beats(rng, &mut notes);
    let run = some_run(rng, &program, &pool, &mut notes);
    let more_tables = faulty_tables(rng, &program);
    let table = match source {
        Source::Spoiled => bytes::spoiled(rng, &program).0,
        _ => encode(&program),
    };
    let words = spoil_some(rng, &program, pool, &mut notes);
    Scenario {
        source,
        notes,
        table,
        more_tables,
        words,
        choices,
        beats,
        run,
    }
}

/// A program with one or two faults.
pub fn faulty(rng: &mut Rng) -> Program {
    loop {
        let mut program = programs::well_formed(rng);
        faults::plant_any(rng, &mut program);
        if rng.chance(50) {
            faults::plant_any(rng, &mut program);
        }
        if encode(&program).len() <= TABLE_MAX {
            return program;
        }
    }
}

/// Tables of a program with faults: one, two in a block, some, or spoiled.
pub fn faulty_tables(rng: &mut Rng, program: &Program) -> Vec<Vec<u8>> {
    let mut tables = Vec::new();
    for _ in 0..4 {
        let mut one = program.clone();
        faults::plant_any(rng, &mut one);
        tables.push(encode(&one));
        faults::plant_any(rng, &mut one);
        tables.push(encode(&one));
        if let Some((pair, ..)) = faults::plant_pair(rng, program) {
            tables.push(encode(&pair));
        }
        tables.push(bytes::spoiled(rng, program).0);
    }
    tables
}

/// A pool at the start, reached or loose, and a schedule for it.
fn pool_and_choices(
    rng: &mut Rng,
    program: &Program,
    notes: &mut Vec<&'static str>,
) -> (Pool, Vec<Choice>) {
    let length = rng.below(60);
    let (note, mut pool) = match rng.below(14) {
        0..=2 => (START, Pool::start()),
        3..=5 => (REACHED, pools::reached(rng, program, length)),
        6 | 7 => match pools::crowded(rng, program) {
            Some(pool) => (CROWDED, pool),
            None => (ANY_POOL, pools::loose(rng, program)),
        },
        8 => match pools::joining(rng, program) {
            Some(pool) => (JOINING, pool),
            None => (ANY_POOL, pools::loose(rng, program)),
        },
        9 | 10 => match pools::limited(rng, program) {
            Some(pool) => (LIMITED, pool),
            None => (ANY_POOL, pools::loose(rng, program)),
        },
        _ => (ANY_POOL, pools::loose(rng, program)),
    };
    notes.push(note);
    if rng.chance(70) {
        pools::fill_purses(rng, &mut pool);
        notes.push(PURSES);
    }
    if !rng.chance(60) {
        notes.push(BLIND);
        return (pool, blind_schedule(rng));
    }
    let length = match rng.below(100) {
        0 => 2_000,
        _ => rng.one_of([0, 1, 4, 30, 120]),
    };
    let refused = rng.chance(70);
    let choices = guided_schedule(rng, program, &pool, length, refused);
    notes.push(GUIDED);
    (pool, choices)
}

/// Beats of any pace and thread, a few out of range.
fn some_beats(rng: &mut Rng, notes: &mut Vec<&'static str>) -> Vec<(Pace, u64)> {
    let beats: Vec<(Pace, u64)> = (0..5)
        .map(|number| {
            let pace = match number {
                0 => beats::no_pace(rng),
                _ => beats::pace(rng),
            };
            (pace, beats::blind_thread(rng))
        })
        .collect();
    notes.extend(beats.iter().flat_map(|&(pace, _)| beats::paces(pace)));
    beats
}

/// A run of any pace, for a pool or blind.
fn some_run(
    rng: &mut Rng,
    program: &Program,
    pool: &Pool,
    notes: &mut Vec<&'static str>,
) -> (Pace, Vec<u64>) {
    let pace = match rng.below(10) {
        0 => beats::no_pace(rng),
        1..=3 => beats::pace(rng),
        _ => beats::quick_pace(rng),
    };
    notes.extend(beats::paces(pace));
    let length = rng.one_of([0, 1, 4, 30, 120]);
    let threads = if rng.chance(70) && pace.fits() {
        let refused = rng.chance(50);
        beats::guided_run(rng, program, pool, pace, length, refused)
    } else {
        (0..length).map(|_| beats::blind_thread(rng)).collect()
    };
    notes.push(if threads.is_empty() { EMPTY } else { RUN });
    (pace, threads)
}

/// Words kept, changed in some places, of another length or arbitrary.
fn spoil_some(
    rng: &mut Rng,
    program: &Program,
    mut pool: Pool,
    notes: &mut Vec<&'static str>,
) -> Vec<i32> {
    let what = rng.below(22);
    if what < 4 {
        pools::spoil(rng, program, &mut pool);
    }
    let mut words = pool.to_words();
    let note = match what {
        0..=2 => BROKEN,
        3..=6 => {
            pools::change_word(rng, &mut words);
            CHANGED
        }
        7 => {
            pools::fill_unused(rng, &pool, &mut words);
            FILLED
        }
        8 => {
            words = pools::arbitrary(rng);
            ARBITRARY
        }
        9 => {
            words.resize(rng.one_of([0, 1, POOL_WORDS - 1, POOL_WORDS + 1]), 0);
            RESIZED
        }
        10..=12 => match pools::break_purse(rng, &pool, &mut words) {
            Some(way) => way,
            None => return words,
        },
        _ => {
            notes.extend(pools::edges(&pool));
            return words;
        }
    };
    notes.push(note);
    words
}
