//! Another implementation put to the same inputs as this one.

use crate::beats::Pace;
use crate::complete::{completed, LENT, OUTPUT, SCRATCH};
use crate::encode::encode;
use crate::gen::schedules::Choice;
use crate::gen::Scenario;
use crate::listing::{listing, Reader, LISTING, LISTING_BYTES};
use crate::pool::Pool;
use crate::refusal::Refusal;
use crate::rng::Rng;
use crate::rules::{PROMOTE, STEP};
use crate::table::{Version, TABLE_MIN};
use crate::tidy;

/// The calls of an implementation. Rules are their numbers.
pub trait Machine {
    fn read(&self, table: &[u8]) -> Result<(), Refusal>;
    fn check(&self, table: &[u8]) -> Result<(), Refusal>;
    fn depth(&self, table: &[u8]) -> Result<u8, Refusal>;
    /// The length of the tidy table, which is written at the start of `out`.
    fn tidy(&self, table: &[u8], out: &mut [u8]) -> Result<usize, Refusal>;
    /// The length of the completed table, which is written to `out` with 0
    /// behind it.
    fn complete(&self, table: &[u8], out: &mut [u8], scratch: &mut [u32])
        -> Result<usize, Refusal>;
    fn start(&self, table: &[u8], pool: &mut [i32]) -> Result<(), Refusal>;
    fn choose(&self, table: &[u8], pool: &mut [i32], kind: u64, thread: u64)
        -> Result<u8, Refusal>;
    /// The first thread that can step: the lowest numbered whose step makes a
    /// rule.
    fn can_step(&self, table: &[u8], pool: &[i32]) -> Result<Option<usize>, Refusal>;
    /// How many values main has, that many of `room` written; or open.
    fn values(
        &self,
        table: &[u8],
        pool: &[i32],
        room: &mut [i32; 4],
    ) -> Result<Option<usize>, Refusal>;
    /// The length of the listing for a reader, which is written at the start of
    /// `out`.
    fn list(
        &self,
        reader: Reader,
        table: &[u8],
        pool: &[i32],
        out: &mut [u8],
    ) -> Result<usize, Refusal>;
    /// How many choices were made is written either way.
    fn schedule(
        &self,
        table: &[u8],
        pool: &mut [i32],
        choices: &[Choice],
        made: &mut u64,
    ) -> Result<(), Refusal>;

    /// The step's rule, and how many promotions were made.
    fn beat(
        &self,
        table: &[u8],
        pool: &mut [i32],
        pace: Pace,
        thread: u64,
    ) -> Result<(u8, u64), Refusal>;
    /// How many steps and promotions were made is written either way.
    fn run(
        &self,
        table: &[u8],
        pool: &mut [i32],
        pace: Pace,
        threads: &[u64],
        made: &mut [u64; 2],
    ) -> Result<(), Refusal>;

    /// The largest kind, thread, N or C the implementation takes.
    fn widest(&self) -> u64 {
        u64::MAX
    }
}

/// This implementation.
pub struct Oracle;

impl Machine for Oracle {
    fn read(&self, table: &[u8]) -> Result<(), Refusal> {
        crate::read(table).map(|_| ())
    }

    fn check(&self, table: &[u8]) -> Result<(), Refusal> {
        crate::check(table)
    }

    fn depth(&self, table: &[u8]) -> Result<u8, Refusal> {
        crate::depth(table)
    }

    fn tidy(&self, table: &[u8], out: &mut [u8]) -> Result<usize, Refusal> {
        crate::tidy(table, out)
    }

    fn complete(
        &self,
        table: &[u8],
        out: &mut [u8],
        scratch: &mut [u32],
    ) -> Result<usize, Refusal> {
        crate::complete(table, out, scratch)
    }

    fn start(&self, table: &[u8], pool: &mut [i32]) -> Result<(), Refusal> {
        crate::start(table, pool)
    }

    fn choose(
        &self,
        table: &[u8],
        pool: &mut [i32],
        kind: u64,
        thread: u64,
    ) -> Result<u8, Refusal> {
        crate::choose(table, pool, kind, thread).map(|rule| rule.number())
    }

    fn can_step(&self, table: &[u8], pool: &[i32]) -> Result<Option<usize>, Refusal> {
        crate::which(table, pool)
    }

    fn values(
        &self,
        table: &[u8],
        pool: &[i32],
        room: &mut [i32; 4],
    ) -> Result<Option<usize>, Refusal> {
        let values = crate::values(table, pool)?;
        Ok(values.map(|values| {
            room[..values.len()].copy_from_slice(&values);
            values.len()
        }))
    }

    fn list(
        &self,
        reader: Reader,
        table: &[u8],
        pool: &[i32],
        out: &mut [u8],
    ) -> Result<usize, Refusal> {
        match reader {
            Reader::Operator => crate::operator(table, pool, out),
            Reader::Customer => crate::customer(table, pool, out),
        }
    }

    fn schedule(
        &self,
        table: &[u8],
        pool: &mut [i32],
        choices: &[Choice],
        made: &mut u64,
    ) -> Result<(), Refusal> {
        let (count, refusal) = crate::schedule(table, pool, choices);
        *made = count as u64;
        refusal.map_or(Ok(()), Err)
    }

    fn beat(
        &self,
        table: &[u8],
        pool: &mut [i32],
        pace: Pace,
        thread: u64,
    ) -> Result<(u8, u64), Refusal> {
        let (rule, promotions) = crate::beat(table, pool, pace, thread)?;
        Ok((rule.number(), promotions))
    }

    fn run(
        &self,
        table: &[u8],
        pool: &mut [i32],
        pace: Pace,
        threads: &[u64],
        made: &mut [u64; 2],
    ) -> Result<(), Refusal> {
        let (counts, refusal) = crate::run(table, pool, pace, threads);
        *made = counts;
        refusal.map_or(Ok(()), Err)
    }
}

/// Puts a scenario to every call of a machine and of the oracle; gives each
/// difference of the answers, refusals with their places, and of what is
/// written.
pub fn differences(machine: &dyn Machine, input: &Scenario) -> Vec<String> {
    let mut found = tables_differ(machine, &input.table);
    for table in &input.more_tables {
        found.extend(tables_differ(machine, table));
    }
    found.extend(start_differs(machine, input));
    found.extend(questions_differ(machine, &input.table, &input.words));
    found.extend(listings_differ(machine, &input.table, &input.words));
    let choices = within(machine, &input.choices);
    for &choice in choices.iter().take(6).chain(&small_choices()) {
        found.extend(choice_differs(machine, input, choice));
    }
    found.extend(schedule_differs(machine, input, &choices));
    for &(pace, thread) in &every_beat(input) {
        found.extend(beat_differs(machine, input, pace, thread));
    }
    found.extend(run_differs(machine, input));
    found
}

/// Reading, checking, the depth, the tidy table and the completion.
pub fn tables_differ(machine: &dyn Machine, table: &[u8]) -> Vec<String> {
    let checked = Oracle.check(table);
    [
        differs("read", machine.read(table), Oracle.read(table)),
        differs("check", machine.check(table), checked),
        differs("depth", machine.depth(table), Oracle.depth(table)),
        tidy_differs(machine, table, checked),
        complete_differs(machine, table),
    ]
    .into_iter()
    .flatten()
    .collect()
}

/// What stands in an output before it is lent.
pub fn unwritten(room: usize) -> Vec<u8> {
    (0..room).map(|at| (at % 251) as u8 ^ 0x5A).collect()
}

/// The tidy table in outputs of no byte, one less than it has, as many, and one
/// more; where the check refuses, in an output as long as the table.
fn tidy_differs(
    machine: &dyn Machine,
    table: &[u8],
    checked: Result<(), Refusal>,
) -> Option<String> {
    let mut right = unwritten(table.len());
    let due = checked.and_then(|()| Oracle.tidy(table, &mut right));
    let rooms = match due {
        Ok(length) => vec![0, length - 1, length, length + 1],
        Err(_) => vec![table.len()],
    };
    rooms.into_iter().find_map(|room| {
        let (due, right) = match due {
            Ok(length) if length <= room => {
                let rest = &unwritten(room)[length..];
                (due, [&right[..length], rest].concat())
            }
            Ok(_) => (Err(Refusal::plain(tidy::ROOM)), unwritten(room)),
            refused => (refused, unwritten(room)),
        };
        let what = format!("tidy into {room} bytes");
        let mut given = unwritten(room);
        let answer = machine.tidy(table, &mut given);
        differs(&what, answer, due).or_else(|| differs(&what, given, right))
    })
}

/// The numbers of bytes and words that are lent to a completion: of a table that
/// reads the right ones, as few and as many more as can be, and none; of others
/// the right ones where they are of version 2, and any.
fn lendings(table: &[u8], reads: bool) -> Vec<(usize, usize)> {
    let any = (table.len() % 7, table.len() % 5);
    if reads {
        vec![
            (OUTPUT, SCRATCH),
            (OUTPUT, SCRATCH + 1),
            (OUTPUT, SCRATCH + 1 + any.1),
            (OUTPUT, SCRATCH - 1),
            (OUTPUT, 0),
            (OUTPUT - 1, SCRATCH),
            (OUTPUT + 1, SCRATCH),
            (0, SCRATCH),
        ]
    } else if table.get(4) == Some(&Version::Brief.number()) && table.len() >= TABLE_MIN {
        vec![(OUTPUT, SCRATCH + 1), any]
    } else {
        vec![any]
    }
}

/// Any bytes and words, the same ones for a table each time.
pub fn hostile(table: &[u8], room: usize, words: usize) -> (Vec<u8>, Vec<u32>) {
    let sum = |sum: u64, &byte: &u8| sum.wrapping_mul(31).wrapping_add(byte.into());
    let mut rng = Rng::new(table.iter().fold(1, sum));
    let words = (0..words).map(|_| rng.bits() as u32).collect();
    let mut out = Vec::with_capacity(room + 7);
    while out.len() < room {
        out.extend(rng.bits().to_ne_bytes());
    }
    out.truncate(room);
    (out, words)
}

/// The completion, with what it leaves in the output and in the scratch.
pub fn complete_differs(machine: &dyn Machine, table: &[u8]) -> Option<String> {
    let read = crate::read_brief(table);
    let right = |program| completed(program).map(|program| encode(&program));
    let right = read.as_ref().map(right);
    lendings(table, right.is_ok())
        .into_iter()
        .find_map(|(room, words)| {
            let (out, scratch) = hostile(table, room, words);
            let (mut left, mut kept) = (out.clone(), scratch.clone());
            let answer = machine.complete(table, &mut left, &mut kept);
            let fits = room == OUTPUT && words >= SCRATCH;
            let cleared = || [&[0; SCRATCH], &scratch[SCRATCH..]].concat();
            let (due, out, scratch) = match &right {
                Err(refusal) => (Err(**refusal), out, scratch),
                Ok(_) if !fits => (Err(Refusal::plain(LENT)), out, scratch),
                Ok(Err(refusal)) => (Err(*refusal), out, cleared()),
                Ok(Ok(table)) => {
                    let rest = vec![0; OUTPUT - table.len()];
                    (Ok(table.len()), [&table[..], &rest].concat(), cleared())
                }
            };
            let what = format!("complete with {room} bytes and {words} words");
            differs(&what, answer, due)
                .or_else(|| items_differ(&what, &left, &out))
                .or_else(|| items_differ(&what, &kept, &scratch))
        })
}

/// Says what was given and what is right, where they differ.
fn differs<T: PartialEq + std::fmt::Debug>(what: &str, given: T, right: T) -> Option<String> {
    (given != right).then(|| format!("{what}: {given:?} given, {right:?} right"))
}

fn start_differs(machine: &dyn Machine, input: &Scenario) -> Option<String> {
    let mut given = input.words.clone();
    let mut right = input.words.clone();
    let answer = machine.start(&input.table, &mut given);
    let due = Oracle.start(&input.table, &mut right);
    differs("start", answer, due).or_else(|| items_differ("start", &given, &right))
}

/// The first byte or word that differs.
fn items_differ<T: PartialEq + std::fmt::Debug>(
    what: &str,
    given: &[T],
    right: &[T],
) -> Option<String> {
    let at = given.iter().zip(right).position(|(a, b)| a != b)?;
    Some(format!(
        "{what}: at {at} stands {:?}, {:?} is right",
        given[at], right[at]
    ))
}

/// What stands in the room for main's values before it is lent.
const ROOM: [i32; 4] = [-11, 12, -13, 14];
/// What stands in the place of a number made before it is lent.
const UNWRITTEN: u64 = u64::MAX - 1;

/// Main's values, and the first thread that can step.
fn questions_differ(machine: &dyn Machine, table: &[u8], words: &[i32]) -> Vec<String> {
    let (mut given_room, mut right_room) = (ROOM, ROOM);
    let values = differs(
        "values",
        machine.values(table, words, &mut given_room),
        Oracle.values(table, words, &mut right_room),
    )
    .or_else(|| differs("room for values", given_room, right_room));
    let first = differs(
        "first that can step",
        machine.can_step(table, words),
        Oracle.can_step(table, words),
    );
    values.into_iter().chain(first).collect()
}

/// Both listings, in outputs that hold anything: of no byte, one less than the
/// listing has, as many, one more, and enough for any; where the table or the
/// words are refused, of no byte and of enough.
pub fn listings_differ(machine: &dyn Machine, table: &[u8], words: &[i32]) -> Vec<String> {
    let pool = crate::read(table).and_then(|program| Pool::from_words(&program, words));
    let differ = |reader| {
        let right = pool.as_ref().map(|pool| listing(pool, reader));
        let rooms = match &right {
            Ok(listing) => {
                let length = listing.len();
                vec![0, length - 1, length, length + 1, LISTING_BYTES]
            }
            Err(_) => vec![0, LISTING_BYTES],
        };
        rooms.into_iter().find_map(|room| {
            let what = format!("{reader:?}'s listing into {room} bytes");
            let (mut out, _) = hostile(table, room, 0);
            let mut given = out.clone();
            let answer = machine.list(reader, table, words, &mut given);
            let due = match &right {
                Err(refusal) => Err(**refusal),
                Ok(listing) if room < listing.len() => Err(Refusal::plain(LISTING)),
                Ok(listing) => {
                    out[..listing.len()].copy_from_slice(listing.as_bytes());
                    Ok(listing.len())
                }
            };
            differs(&what, answer, due).or_else(|| items_differ(&what, &given, &out))
        })
    };
    Reader::ALL.into_iter().filter_map(differ).collect()
}

/// Both kinds for every thread there may be, and what is no choice.
fn small_choices() -> Vec<Choice> {
    (0..=8)
        .flat_map(|thread| [(STEP, thread), (PROMOTE, thread)])
        .chain([(2, 0), (255, 255)])
        .collect()
}

/// Choices cut to what the machine takes.
fn within(machine: &dyn Machine, choices: &[Choice]) -> Vec<Choice> {
    let widest = machine.widest();
    choices
        .iter()
        .map(|&(kind, thread)| (kind.min(widest), thread.min(widest)))
        .collect()
}

/// The beats of a scenario, and one of every thread there may be, by the pace
/// of its run.
pub fn every_beat(input: &Scenario) -> Vec<(Pace, u64)> {
    let each = (0..=8).map(|thread| (input.run.0, thread));
    input.beats.iter().copied().chain(each).collect()
}

/// A pace cut to what the machine takes.
pub fn pace_within(machine: &dyn Machine, pace: Pace) -> Pace {
    let widest = machine.widest();
    Pace {
        n: pace.n.min(widest),
        c: pace.c.min(widest),
    }
}

fn beat_differs(
    machine: &dyn Machine,
    input: &Scenario,
    pace: Pace,
    thread: u64,
) -> Option<String> {
    let (pace, thread) = (pace_within(machine, pace), thread.min(machine.widest()));
    let what = format!("beat {pace:?} {thread}");
    let mut given = input.words.clone();
    let mut right = input.words.clone();
    let answer = machine.beat(&input.table, &mut given, pace, thread);
    let due = Oracle.beat(&input.table, &mut right, pace, thread);
    differs(&what, answer, due).or_else(|| items_differ(&what, &given, &right))
}

fn run_differs(machine: &dyn Machine, input: &Scenario) -> Option<String> {
    let pace = pace_within(machine, input.run.0);
    let widest = machine.widest();
    let threads: Vec<u64> = input.run.1.iter().map(|&t| t.min(widest)).collect();
    let what = format!("run {pace:?}");
    let mut given = input.words.clone();
    let mut right = input.words.clone();
    let (mut given_made, mut right_made) = ([UNWRITTEN; 2], [UNWRITTEN; 2]);
    let answer = machine.run(&input.table, &mut given, pace, &threads, &mut given_made);
    let due = Oracle.run(&input.table, &mut right, pace, &threads, &mut right_made);
    differs(&what, answer, due)
        .or_else(|| differs(&what, given_made, right_made))
        .or_else(|| items_differ(&what, &given, &right))
}

fn choice_differs(
    machine: &dyn Machine,
    input: &Scenario,
    (kind, thread): Choice,
) -> Option<String> {
    let what = format!("choice {kind} {thread}");
    let mut given = input.words.clone();
    let mut right = input.words.clone();
    let answer = machine.choose(&input.table, &mut given, kind, thread);
    let due = Oracle.choose(&input.table, &mut right, kind, thread);
    differs(&what, answer, due).or_else(|| items_differ(&what, &given, &right))
}

fn schedule_differs(machine: &dyn Machine, input: &Scenario, choices: &[Choice]) -> Option<String> {
    let mut given = input.words.clone();
    let mut right = input.words.clone();
    let (mut given_made, mut right_made) = (UNWRITTEN, UNWRITTEN);
    let answer = machine.schedule(&input.table, &mut given, choices, &mut given_made);
    let due = Oracle.schedule(&input.table, &mut right, choices, &mut right_made);
    differs("schedule", answer, due)
        .or_else(|| differs("number made", given_made, right_made))
        .or_else(|| items_differ("schedule", &given, &right))
}
