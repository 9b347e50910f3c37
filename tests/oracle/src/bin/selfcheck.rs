//! Puts the generators' inputs to the implementation and asserts what must
//! hold of it: `selfcheck SEED COUNT`.

use oracle::beats::{self, beat_as, Account, Beat, Entry, Pace, PACE};
use oracle::complete::completed;
use oracle::depth::{self, depth_of, CYCLE};
use oracle::encode::{encode, encode_brief};
use oracle::every;
use oracle::first;
use oracle::gen::beats::{guided_thread, paces, quick_pace, PACES};
use oracle::gen::brief::{self, bare, Brief};
use oracle::gen::calls::{self, Calling};
use oracle::gen::faults::{self, Kind, Planted};
use oracle::gen::loops::looping;
use oracle::gen::schedules::{guided_choice, Choice, Policy};
use oracle::gen::small::small;
use oracle::gen::twins::twin;
use oracle::gen::{bytes, pools, programs, scenario, Scenario};
use oracle::graph::live;
use oracle::listing::{listing, Reader, LISTING, LISTING_BYTES};
use oracle::machine::{complete_differs, differences, unwritten, Machine, Oracle};
use oracle::openers::Openers;
use oracle::overflow::{self, overflows};
use oracle::pool::{Frame, Pool, Purse, Temporaries, Thread, MAX_FRAMES, MAX_THREADS, MAX_TOKENS};
use oracle::rng::Rng;
use oracle::rules::{self, ended, gather, Rule, OVERFLOW, PROMOTE, STEP};
use oracle::table::{Atom, Expression, Function, Program, MAX_FUNCTIONS, TABLE_MAX};
use oracle::tally::Tally;
use oracle::tidy::{is_tidy, tidied, Numbering, ROOM};
use oracle::watch::{self, join, join_event};
use oracle::{Refusal, POOL_WORDS};
use std::env;
use std::process::ExitCode;

fn main() -> ExitCode {
    let numbers: Vec<u64> = env::args()
        .skip(1)
        .filter_map(|text| text.parse().ok())
        .collect();
    let &[seed, count] = numbers.as_slice() else {
        eprintln!("usage: selfcheck SEED COUNT");
        return ExitCode::FAILURE;
    };
    let mut tally = Tally::new("selfcheck", events());
    for round in 0..count {
        tally.round = round;
        check_round(&mut tally, &mut Rng::of_round(seed, round));
    }
    tally.finish()
}

/// One round: an accepted table, its tidy table and its runs, planted faults,
/// spoiled bytes, scenarios, pools at the limits of sums and negations, a table
/// rich in calls, one rich in sporks and loops, tables of version 2, and a small
/// program of which all scopes and nestings are tried; all from the seed and the
/// round's number.
fn check_round(tally: &mut Tally, rng: &mut Rng) {
    let program = programs::accepted(rng);
    check_accepted(tally, &program, None);
    check_tidy(tally, rng, &program);
    check_run(tally, rng, &program);
    check_tokens(tally, rng, &program);
    check_along(tally, rng, &program);
    for _ in 0..4 {
        check_one_fault(tally, rng, &program);
        check_two_faults(tally, rng, &program);
        check_bytes(tally, rng, &program);
    }
    for _ in 0..3 {
        let input = scenario(rng);
        check_scenario(tally, &input);
        check_lent(tally, rng, &input);
        check_lent_listings(tally, rng, &input);
        if tally.round.is_multiple_of(10) {
            let found = differences(&Oracle, &input);
            tally.expect(found.is_empty(), || format!("{found:?}"));
        }
    }
    check_limits(tally, rng, &program);
    let loose = programs::loose(rng);
    check_limits(tally, rng, &loose);
    check_calls(tally, rng);
    let program = looping(rng);
    check_accepted(tally, &program, None);
    check_run(tally, rng, &program);
    check_tokens(tally, rng, &program);
    check_along(tally, rng, &program);
    for _ in 0..3 {
        check_brief(tally, &brief::brief(rng));
    }
    check_every(tally, &small(rng));
}

/// A table rich in calls: its depth, its tidy table, a run, and faults that
/// come before 22.
fn check_calls(tally: &mut Tally, rng: &mut Rng) {
    let Calling {
        kind,
        program,
        known,
    } = calls::calling(rng);
    tally.event(&kind.event());
    check_accepted(tally, &program, known);
    check_tidy(tally, rng, &program);
    check_run(tally, rng, &program);
    check_along(tally, rng, &program);
    check_one_fault(tally, rng, &program);
    check_bytes(tally, rng, &program);
}

/// Pools of a program of which a next expression is at the limit: a step and a
/// beat of every thread, and the first thread that can step.
fn check_limits(tally: &mut Tally, rng: &mut Rng, program: &Program) {
    for _ in 0..4 {
        let Some(mut pool) = pools::limited(rng, program) else {
            return;
        };
        pools::fill_purses(rng, &mut pool);
        for thread in 0..pool.size() as u64 {
            let mut after = pool.clone();
            let choice = (STEP, thread);
            let answer = rules::choose(program, &mut after, STEP, thread);
            tally.answer(answer.map(Rule::number));
            check_answer(tally, program, &pool, &after, choice, &answer);
            let (mut after, pace) = (pool.clone(), quick_pace(rng));
            let answer = beats::beat(program, &mut after, pace, thread);
            check_beat(tally, program, &pool, &after, pace, thread, &answer);
        }
        check_first(tally, program, &pool);
    }
}

/// What must occur besides every rule and refusal.
fn events() -> Vec<String> {
    let mut events: Vec<String> = (0..=4).map(join_event).collect();
    events.extend(Kind::ALL.map(|kind| format!("fault {kind:?}")));
    events.extend(calls::Kind::ALL.map(calls::Kind::event));
    events.extend((1..=MAX_FUNCTIONS).map(depth_event));
    events.extend(watch::EVENTS.map(String::from));
    events.extend(watch::TIDIED.map(String::from));
    events.extend(brief::Kind::ALL.map(brief::Kind::event));
    events.extend(watch::COMPLETED.map(String::from));
    events.extend(pools::EDGES.map(String::from));
    events.extend(pools::NO_PURSES.map(String::from));
    events.extend(PACES.map(String::from));
    events.extend(watch::BEATS.map(String::from));
    events.extend((0..MAX_THREADS as u64).map(watch::promotions_event));
    events.extend(watch::FIRSTS.map(String::from));
    events.extend(watch::BY_FIRST.map(String::from));
    events.extend(watch::LISTED.map(String::from));
    events.extend(watch::LIMITS.map(String::from));
    events.extend(STANDINGS.map(String::from));
    events.extend(
        [
            "run that returned",
            "table of 16384 bytes",
            "schedule of 50 made",
            "two faults in a transfer",
            BY_PATHS,
            BY_ROUNDS,
            AT_DEPTH,
            OUT_OF_FRAMES,
            ONE_PASSES,
            SOME_PASS,
            NONE_PASSES,
            LATER_PASSES,
            HANDED,
            KEPT,
            BEAT,
            RAN,
            STOPPED,
            SHOWN,
            HIDDEN,
            BEAT_OVERFLOWS,
            RUN_OVERFLOWS,
            SCHEDULE_OVERFLOWS,
            WAITS,
            EXACT,
        ]
        .map(String::from),
    );
    events
}

const HANDED: &str = "child with the values of its spork";
const KEPT: &str = "choice that keeps purses";
const BEAT: &str = "beat within a run of choices, with promotions";
const RAN: &str = "run from a fresh pool with 20 promotions";
const STOPPED: &str = "run that a refused beat ends, after others";

const SHOWN: &str = "other values, which the customer sees";
const HIDDEN: &str = "other values in older frames alone, which nobody sees";

/// What no progress but by the end, a full stack or an overflow is like.
const STANDINGS: [&str; 5] = [
    "standing by main's return",
    "standing by a full stack alone",
    "standing by an overflow alone",
    "standing by an overflow alone, at a depth of at most 8",
    "overflow beside a thread that can step",
];
const BEAT_OVERFLOWS: &str = "beat that gets 29 where promotions could be made";
const RUN_OVERFLOWS: &str = "run that 29 ends, after others";
const SCHEDULE_OVERFLOWS: &str = "schedule that 29 ends, after others";
const WAITS: &str = "17 where nothing but an overflow keeps the thread that is waited for";
const EXACT: &str = "value bound that is the integer itself";

const BY_PATHS: &str = "depth by all paths";
const BY_ROUNDS: &str = "depth by rounds alone";
const AT_DEPTH: &str = "thread of as many frames as the depth, above 1";
const OUT_OF_FRAMES: &str = "18 at a depth above 8";

const ONE_PASSES: &str = "all tried: one passes for some blocks";
const SOME_PASS: &str = "all tried: several pass for some blocks";
const NONE_PASSES: &str = "all tried: none passes";
const LATER_PASSES: &str = "all tried: none passes for a function, and some for one before it";

fn depth_event(depth: u8) -> String {
    format!("depth {depth}")
}

/// The table of a well-formed program reads back and is accepted; its depth is
/// the one that is known.
fn check_accepted(tally: &mut Tally, program: &Program, known: Option<Result<u8, u8>>) {
    let table = encode(program);
    if table.len() == TABLE_MAX {
        tally.event("table of 16384 bytes");
    }
    let read = oracle::read(&table);
    tally.expect(read.as_ref() == Ok(program), || {
        format!("a table of {} bytes does not read back", table.len())
    });
    let checked = oracle::check(&table);
    tally.expect(checked.is_ok(), || format!("not accepted: {checked:?}"));
    check_depth(tally, &table);
    let depth = depth_of(program);
    let found = depth.ok_or(CYCLE);
    tally.expect(known.is_none() || known == Some(found), || {
        format!("{known:?} is the depth, {found:?} given")
    });
    if let Some(depth) = depth {
        tally.event(&depth_event(depth));
        let paths = depth::by_paths(&depth::calls(program));
        tally.event(paths.map_or(BY_ROUNDS, |_| BY_PATHS));
    }
}

/// The depth of any bytes: the check's refusal, or 1 to as many frames as there
/// are functions, or 22.
fn check_depth(tally: &mut Tally, table: &[u8]) {
    let depth = oracle::depth(table);
    let fits = match (oracle::check(table), depth) {
        (Ok(()), Ok(depth)) => (1..=table[5]).contains(&depth),
        (Ok(()), Err(refusal)) => refusal == Refusal::plain(CYCLE),
        (checked, depth) => checked.err() == depth.err(),
    };
    tally.expect(fits, || format!("the depth is {depth:?}"));
    if let Err(refusal) = depth {
        tally.refusal(refusal.number);
    }
}

/// The tidy table of a well-formed program: it is accepted, no longer than the
/// table, in order and its own tidy table; and two more programs of the same
/// job have it too.
fn check_tidy(tally: &mut Tally, rng: &mut Rng, program: &Program) {
    let table = encode(program);
    let tidy = tidied(program);
    let right = encode(&tidy);
    check_rooms(tally, &table, &right);
    check_rooms(tally, &right, &right);
    let checked = oracle::check(&right);
    tally.expect(checked.is_ok(), || format!("tidy, and {checked:?}"));
    tally.expect(right.len() <= table.len(), || {
        format!("{} bytes tidied to {}", table.len(), right.len())
    });
    let (deep, less) = (depth_of(program), depth_of(&tidy));
    tally.expect(deep.is_none() || less.is_some() && less <= deep, || {
        format!("the depth {deep:?} is {less:?} once tidied")
    });
    let in_order = is_tidy(&tidy) && is_tidy(program) == (*program == tidy);
    tally.expect(in_order, || "a tidy program out of order".to_string());
    for event in watch::tidied(program, &Numbering::of(program)) {
        tally.event(event);
    }
    for _ in 0..2 {
        let twin = twin(rng, program);
        let checked = oracle::check(&encode(&twin));
        tally.expect(checked.is_ok(), || format!("a twin, and {checked:?}"));
        let other = tidied(&twin);
        tally.expect(other == tidy, || {
            format!("{program:?} and {twin:?} are tidied apart")
        });
    }
}

/// What an output of any length gets: 23 and nothing written, or the tidy table
/// and the bytes behind it as they were.
fn check_rooms(tally: &mut Tally, table: &[u8], tidy: &[u8]) {
    let length = tidy.len();
    for room in [0, length - 1, length, length + 1, table.len()] {
        let mut out = unwritten(room);
        let answer = oracle::tidy(table, &mut out);
        let (due, left) = if room < length {
            (Err(Refusal::plain(ROOM)), unwritten(room))
        } else {
            (Ok(length), [tidy, &unwritten(room)[length..]].concat())
        };
        tally.expect(answer == due && out == left, || {
            format!("tidied into {room} bytes: {answer:?}, {due:?} is due")
        });
        if let Err(refusal) = answer {
            tally.refusal(refusal.number);
        }
    }
}

/// The tidy table of any bytes: a length or 23 where the check accepts, else
/// the check's own refusal and nothing written.
fn check_untidy(tally: &mut Tally, table: &[u8]) {
    let mut out = unwritten(table.len());
    let answer = oracle::tidy(table, &mut out);
    let fits = match oracle::check(table) {
        Ok(()) => answer.is_ok(),
        refused => answer.err() == refused.err() && out == unwritten(table.len()),
    };
    tally.expect(fits, || format!("tidied: {answer:?}"));
}

/// A table of version 2: what its completion leaves is right in every lending,
/// and its answer is the one that is known.
fn check_brief(tally: &mut Tally, input: &Brief) {
    let table = &input.table;
    tally.event(&input.kind.event());
    let found = complete_differs(&Oracle, table);
    tally.expect(found.is_none(), || format!("{found:?}: {table:02x?}"));
    check_other_calls(tally, table);
    let answer = oracle::read_brief(table).and_then(|program| completed(&program));
    if let Err(refusal) = oracle::complete(table, &mut [], &mut []) {
        tally.refusal(refusal.number);
    }
    if let Err(refusal) = answer {
        tally.refusal(refusal.number);
    }
    if let Ok(program) = &answer {
        check_completed(tally, program, table);
    }
    match (&answer, &input.known) {
        (Ok(program), Some(Ok(known))) => {
            check_smallest(tally, program, known);
            tally.expect(!input.smallest || program == known, || {
                format!("{known:?} has the smallest scopes, {program:?} given")
            });
            for event in watch::completed(program, known, table.len()) {
                tally.event(event);
            }
        }
        (answer, Some(known)) => {
            let (given, due) = (answer.as_ref().err(), known.as_ref().err());
            tally.expect(given == due, || format!("{due:?} due, {given:?} given"));
        }
        (_, None) => {}
    }
}

/// Every other call gives a table of version 2 its 2, where it does not give 1.
fn check_other_calls(tally: &mut Tally, table: &[u8]) {
    let read = oracle::read(table).map(|_| ());
    let brief = (5..=TABLE_MAX).contains(&table.len()) && table[4] == 2;
    let refused = |read: Result<(), Refusal>| read.err().map_or(0, |refusal| refusal.number);
    tally.expect(!brief || matches!(refused(read), 1 | 2), || {
        format!("version 2 is read: {read:?}")
    });
    let given = [
        oracle::check(table),
        oracle::depth(table).map(|_| ()),
        oracle::tidy(table, &mut []).map(|_| ()),
        oracle::start(table, &mut []),
    ];
    tally.expect(read.is_ok() || given == [read; 4], || {
        format!("{read:?} due, {given:?} given")
    });
}

/// A completed program is the one that was read but for scopes and nestings,
/// its table is accepted, and its own completion.
fn check_completed(tally: &mut Tally, program: &Program, brief: &[u8]) {
    let table = encode(program);
    let checked = oracle::check(&table);
    tally.expect(checked.is_ok() && table.len() <= TABLE_MAX, || {
        format!("completed, and {checked:?}: {program:?}")
    });
    tally.expect(encode_brief(program) == brief, || {
        format!("another program is completed: {program:?}")
    });
    let again = completed(&bare(program));
    tally.expect(again.as_ref() == Ok(program), || {
        format!("{program:?} is completed to {again:?}")
    });
}

/// The scopes of a completed program lie in those of another that passes; all
/// else is the same, nestings too.
fn check_smallest(tally: &mut Tally, program: &Program, other: &Program) {
    tally.expect(lies_in(&program.functions, &other.functions), || {
        format!("{program:?} is no smaller than {other:?}")
    });
}

fn lies_in(functions: &[Function], others: &[Function]) -> bool {
    let mut widened = functions.to_vec();
    for (function, other) in widened.iter_mut().zip(others) {
        for (block, other) in function.blocks.iter_mut().zip(&other.blocks) {
            if block.scope.is_subset(&other.scope) {
                block.scope.clone_from(&other.scope);
            }
        }
    }
    widened == others
}

/// All scopes and nestings of a small program's functions: one is completed
/// exactly if some pass, and its scopes lie in all of these; and the program is
/// refused for the first function of which none passes.
fn check_every(tally: &mut Tally, program: &Program) {
    let program = bare(program);
    let functions = &program.functions;
    let answer = completed(&program);
    if functions.iter().any(|f| live(f).contains(&false)) {
        let refused = answer.as_ref().err().map(|refusal| refusal.number);
        tally.expect(refused == Some(25), || format!("25 due, {answer:?} given"));
        return;
    }
    for (f, function) in functions.iter().enumerate() {
        let passing = every::passing(&program, f).expect("few are to be tried");
        if passing.is_empty() {
            let due = Refusal::fault(26, f, 255);
            tally.expect(answer == Err(due), || {
                format!("{due:?} due, {answer:?} given: {program:?}")
            });
            tally.event(if f > 0 { LATER_PASSES } else { NONE_PASSES });
            return;
        }
        match passing.len() {
            _ if function.blocks.len() == 1 => {}
            1 => tally.event(ONE_PASSES),
            _ => tally.event(SOME_PASS),
        }
        if let Ok(answer) = &answer {
            let given = std::slice::from_ref(&answer.functions[f]);
            tally.expect(passing.contains(&given[0]), || {
                format!("{given:?} does not pass, of {function:?}")
            });
            for other in passing {
                let other = [other];
                tally.expect(lies_in(given, &other), || {
                    format!("{given:?} is no smaller than {other:?}")
                });
            }
        }
    }
    tally.expect(answer.is_ok(), || {
        format!("some pass, and {answer:?}: {program:?}")
    });
}

/// The most frames that a thread has.
fn most_frames(pool: &Pool) -> usize {
    let threads = pool.threads();
    threads.iter().map(|t| t.frames.len()).max().unwrap_or(0)
}

/// Whether a depth leaves room: no thread ever runs out of frames.
fn roomy(depth: Option<u8>) -> bool {
    depth.is_some_and(|depth| usize::from(depth) <= MAX_FRAMES)
}

/// What a depth says of an answer and of the pool left: at most 8, and no
/// choice gets 18; no thread has more frames than it.
fn check_room(tally: &mut Tally, depth: Option<u8>, answer: &Result<Rule, u8>, pool: &Pool) {
    let full = *answer == Err(18);
    tally.expect(!(full && roomy(depth)), || {
        format!("18 at the depth {depth:?}")
    });
    let Some(depth) = depth.map(usize::from) else {
        return;
    };
    let most = most_frames(pool);
    tally.expect(most <= depth, || {
        format!("a thread has {most} frames at the depth {depth}")
    });
    if full {
        tally.event(OUT_OF_FRAMES);
    }
    if most == depth && depth > 1 {
        tally.event(AT_DEPTH);
    }
}

/// The run that the tidy program makes of the same choices: the pool that it
/// has, and the numbers that lead there.
struct Beside {
    tidy: Program,
    numbering: Numbering,
    pool: Pool,
}

impl Beside {
    fn new(program: &Program) -> Self {
        Beside {
            tidy: tidied(program),
            numbering: Numbering::of(program),
            pool: Pool::start(),
        }
    }

    /// The same choice has the same answer, and leaves the same pool under the
    /// new numbers, with the same values of main.
    fn check(
        &mut self,
        tally: &mut Tally,
        program: &Program,
        pool: &Pool,
        choice: Choice,
        due: &Result<Rule, u8>,
    ) {
        let answer = rules::choose(&self.tidy, &mut self.pool, choice.0, choice.1);
        let values = ended(&self.tidy, &self.pool.root);
        let same = answer == *due && values == ended(program, &pool.root);
        tally.expect(same && self.numbering.pool(pool) == self.pool, || {
            format!("{choice:?}: {answer:?} once tidied, not {due:?}")
        });
    }

    /// The same of a beat.
    fn check_beat(
        &mut self,
        tally: &mut Tally,
        program: &Program,
        pool: &Pool,
        (pace, thread): (Pace, u64),
        due: &Result<Beat, u8>,
    ) {
        let answer = beats::beat(&self.tidy, &mut self.pool, pace, thread);
        let values = ended(&self.tidy, &self.pool.root);
        let same = answer == *due && values == ended(program, &pool.root);
        tally.expect(same && self.numbering.pool(pool) == self.pool, || {
            format!("a beat of {thread}: {answer:?} once tidied, not {due:?}")
        });
    }
}

/// A random run of an accepted table, made and refused choices and beats: the
/// words of demand 3 hold before and after each, and what the depth says; the
/// tidy program answers the same; and a child has its spork's arguments.
fn check_run(tally: &mut Tally, rng: &mut Rng, program: &Program) {
    let table = encode(program);
    let depth = depth_of(program);
    let mut words = vec![-1; POOL_WORDS];
    let started = oracle::start(&table, &mut words);
    tally.expect(started.is_ok(), || format!("no start: {started:?}"));
    let mut pool = Pool::start();
    let mut beside = Beside::new(program);
    let mut openers = Openers::default();
    let policy = Policy::random(rng);
    let beating = rng.one_of([0, 5, 25]);
    check_progress(tally, program, depth, &pool);
    let mut left = rng.one_of([20, 100, 400]);
    while left > 0 {
        left -= 1;
        if rng.chance(beating) {
            let pace = quick_pace(rng);
            let thread = guided_thread(rng, program, &pool, 10);
            let answer = check_run_beat(tally, program, &mut pool, &mut openers, pace, thread);
            beside.check_beat(tally, program, &pool, (pace, thread), &answer);
            check_room(tally, depth, &answer.map(|beat| beat.rule), &pool);
            check_progress(tally, program, depth, &pool);
            words = pool.to_words();
        }
        let choice = guided_choice(rng, program, &pool, policy);
        check_join(tally, program, &mut pool, choice);
        let before = pool.clone();
        let number = Some(openers.next);
        let answer = rules::choose_as(program, &mut pool, choice.0, choice.1, number);
        tally.answer(answer.map(Rule::number));
        check_answer(tally, program, &before, &pool, choice, &answer);
        openers.follow(choice.1, answer.map(Rule::number));
        check_opened(tally, program, &openers, &pool, choice, &answer);
        beside.check(tally, program, &pool, choice, &answer);
        tally.expect(answer != Err(19), || format!("{choice:?} is stuck"));
        check_room(tally, depth, &answer, &pool);
        check_progress(tally, program, depth, &pool);
        if table.len() < 600 || rng.chance(5) {
            let by_words = oracle::choose(&table, &mut words, choice.0, choice.1);
            let same = by_words.map_err(|refusal| refusal.number) == answer;
            tally.expect(same, || format!("{choice:?}: {by_words:?}, not {answer:?}"));
        }
        tally.expect(table.len() >= 600 || words == pool.to_words(), || {
            format!("words differ after {choice:?}")
        });
        words = pool.to_words();
        for event in watch::reached(&pool) {
            tally.event(event);
        }
        if rng.chance(10) {
            check_listings(tally, rng, program, &pool);
        }
        if ended(program, &pool.root).is_some() {
            left = left.min(3);
        } else if rules::steppable(program, &pool).is_empty() {
            left = left.min(80);
        }
    }
    if ended(program, &pool.root).is_some() {
        tally.event("run that returned");
    }
}

/// A beat of a run counts as its step and then its promotions; nothing is ever
/// stuck.
fn check_run_beat(
    tally: &mut Tally,
    program: &Program,
    pool: &mut Pool,
    openers: &mut Openers,
    pace: Pace,
    thread: u64,
) -> Result<Beat, u8> {
    check_join(tally, program, pool, (STEP, thread));
    let before = pool.clone();
    let answer = beat_as(program, pool, pace, thread, Some(openers.next));
    check_beat(tally, program, &before, pool, pace, thread, &answer);
    tally.expect(answer != Err(19), || format!("a beat of {thread} is stuck"));
    let step = answer.as_ref().map(|beat| beat.rule.number());
    openers.follow(thread, step);
    let promotions = answer.as_ref().map_or(0, |beat| beat.ledger.paid());
    for _ in 0..promotions {
        openers.follow::<()>(thread, Ok(Rule::Promote.number()));
    }
    let last = match &answer {
        Ok(_) if promotions > 0 => Ok(Rule::Promote),
        Ok(beat) => Ok(beat.rule),
        Err(number) => Err(*number),
    };
    check_opened(tally, program, openers, pool, (PROMOTE, thread), &last);
    if promotions > 0 {
        tally.event(BEAT);
    }
    answer
}

/// What every answer to a beat must be. Its step and promotions are plain
/// choices, and the next promotion would be refused or no token is left. The
/// purses are those that the words of the request make, token by token, and the
/// ledger has all tokens there are.
fn check_beat(
    tally: &mut Tally,
    program: &Program,
    before: &Pool,
    after: &Pool,
    pace: Pace,
    thread: u64,
    answer: &Result<Beat, u8>,
) {
    let mut plain = before.clone();
    let step = rules::choose(program, &mut plain, STEP, thread);
    let beat = match answer {
        Ok(beat) => beat,
        Err(number) => {
            let due = if pace.fits() { step } else { Err(PACE) };
            tally.expect(Err(*number) == due && before == after, || {
                format!("{pace:?} {thread} gets {answer:?}, {due:?} due")
            });
            let mut promotes = || rules::choose(program, &mut plain, PROMOTE, thread).is_ok();
            if *number == OVERFLOW && purses(before)[thread as usize].tokens > 0 && promotes() {
                tally.event(BEAT_OVERFLOWS);
            }
            return;
        }
    };
    let promotions = beat.ledger.paid();
    let promote = |pool: &mut Pool| rules::choose(program, pool, PROMOTE, thread);
    let made = (0..promotions).all(|_| promote(&mut plain).is_ok());
    let next = promote(&mut plain.clone());
    let own = thread as usize;
    let left = purses(after)[own].tokens;
    let over = left == 0 || next.is_err();
    tally.expect(step == Ok(beat.rule) && made && pace.fits(), || {
        format!("{beat:?}, and {step:?} of a plain step")
    });
    let stopped = next.err().filter(|_| left > 0);
    tally.expect(over && stopped == beat.stopped, || {
        format!("{beat:?} leaves {left} tokens, and {next:?} is next")
    });
    tally.expect(penniless(&plain) == penniless(after), || {
        format!("{beat:?} leaves another pool than its choices: {after:?}")
    });
    let (given, due) = (
        purses(after),
        purses_due(before, beat.rule, pace, own, promotions),
    );
    tally.expect(given == due, || {
        format!("{pace:?}: {beat:?} leaves the purses {given:?}, {due:?} due")
    });
    check_ledger(tally, before, after, pace, beat);
    let decoded = Pool::from_words(program, &after.to_words());
    tally.expect(decoded.as_ref() == Ok(after), || {
        format!("{beat:?} leaves no valid pool: {after:?}")
    });
    for event in watch::beat(beat, pace) {
        tally.event(event);
    }
    tally.event(&watch::promotions_event(promotions));
}

/// The purses that a beat leaves, by its rule and the number of its promotions.
fn purses_due(before: &Pool, rule: Rule, pace: Pace, own: usize, promotions: u64) -> Vec<Purse> {
    let most = u64::from(MAX_TOKENS);
    let mut purses = purses(before);
    let Purse { work, tokens } = purses[own];
    let (mut work, mut tokens) = (u64::from(work), u64::from(tokens));
    if rule == Rule::Prom {
        tokens = most.min(tokens + u64::from(purses.remove(own + 1).tokens));
    }
    work += 1;
    if work >= pace.n {
        work = 0;
        tokens = most.min(tokens + pace.c);
    }
    for _ in 0..promotions {
        tokens -= 1;
        let half = tokens / 2;
        tokens -= half;
        let child = Purse {
            work: 0,
            tokens: half as u32,
        };
        purses.insert(own + 1, child);
    }
    purses[own] = Purse {
        work: work as u32,
        tokens: tokens as u32,
    };
    purses
}

/// All tokens of the pool before, and those that came, are in the pool, or paid
/// or dropped.
fn check_ledger(tally: &mut Tally, before: &Pool, after: &Pool, pace: Pace, beat: &Beat) {
    let all = |pool: &Pool| -> u64 { purses(pool).iter().map(|p| u64::from(p.tokens)).sum() };
    let earned = beat.ledger.entries.contains(&Entry::Came(pace.c));
    let came = if earned { pace.c } else { 0 };
    let gone = beat.ledger.paid() + beat.ledger.dropped();
    tally.expect(all(before) + came == all(after) + gone, || {
        format!("{pace:?}: {beat:?} loses tokens: {before:?}, {after:?}")
    });
}

/// A run of beats from a fresh pool, refused ones among them: after each beat
/// promotions times N are at most C times steps, and the equation of all tokens
/// and work holds. By the words, a run of them is its beats.
fn check_tokens(tally: &mut Tally, rng: &mut Rng, program: &Program) {
    let pace = quick_pace(rng);
    let (mut pool, mut account) = (Pool::start(), Account::default());
    let blind = rng.one_of([0, 3]);
    let (mut threads, mut first) = (Vec::new(), None);
    let mut length = rng.one_of([20, 80, 250]);
    while length > 0 {
        length -= 1;
        let thread = guided_thread(rng, program, &pool, blind);
        let before = pool.clone();
        let answer = beats::beat(program, &mut pool, pace, thread);
        check_beat(tally, program, &before, &pool, pace, thread, &answer);
        match answer {
            Ok(beat) => {
                account.enter(&beat);
                threads.push(thread);
            }
            Err(number) if first.is_none() => {
                first = Some((threads.len(), thread, number, before, account.clone()));
            }
            Err(_) => {}
        }
        let holds = account.bounded(pace) && account.balances(pace, &purses(&pool));
        tally.expect(holds, || format!("{pace:?}: {account:?}, and {pool:?}"));
        if ended(program, &pool.root).is_some() {
            length = length.min(2);
        }
    }
    let table = encode(program);
    let all = run_of(tally, &table, pace, &threads);
    let due = ([account.steps, account.promotions], None, pool.to_words());
    tally.expect(all == due, || {
        format!("{all:?} of a run, {due:?} of its beats")
    });
    if let Some((made, thread, number, pool, account)) = first {
        threads.insert(made, thread);
        let all = run_of(tally, &table, pace, &threads);
        let counts = [account.steps, account.promotions];
        let due = (counts, Some(Refusal::plain(number)), pool.to_words());
        tally.expect(all == due, || {
            format!("{all:?} of a run, {due:?} of its beats")
        });
        if made > 0 {
            tally.event(STOPPED);
        }
        if made > 0 && number == OVERFLOW {
            tally.event(RUN_OVERFLOWS);
        }
    }
    if account.promotions >= 20 {
        tally.event(RAN);
    }
}

/// What a run from a fresh pool gives and leaves.
fn run_of(
    tally: &mut Tally,
    table: &[u8],
    pace: Pace,
    threads: &[u64],
) -> ([u64; 2], Option<Refusal>, Vec<i32>) {
    let mut words = vec![-1; POOL_WORDS];
    let started = oracle::start(table, &mut words);
    tally.expect(started.is_ok(), || format!("no start: {started:?}"));
    let (made, refusal) = oracle::run(table, &mut words, pace, threads);
    (made, refusal, words)
}

/// The first thread that can step: a step of it makes a rule, and of every lower
/// one is refused; where there is none, of every thread.
fn check_first(tally: &mut Tally, program: &Program, pool: &Pool) -> Option<usize> {
    let first = first::first(program, pool);
    let step = |t: usize| rules::choose(program, &mut pool.clone(), STEP, t as u64);
    let lower = first.unwrap_or(MAX_THREADS);
    let refused = (0..lower).all(|t| step(t).is_err());
    tally.expect(refused && first.is_none_or(|t| step(t).is_ok()), || {
        format!("{first:?} is no first of {pool:?}")
    });
    for event in watch::firsts(program, pool) {
        tally.event(event);
    }
    first
}

/// Steps by the first of an accepted program, from a pool that a run from the
/// start reached, with promotions: where they end main has returned, or some
/// thread has no frame left or overflows.
fn check_along(tally: &mut Tally, rng: &mut Rng, program: &Program) {
    let length = rng.one_of([0, 10, 60]);
    let pool = pools::reached(rng, program, length);
    let left = check_by_first(tally, rng, program, &pool);
    check_progress(tally, program, depth_of(program), &left);
}

/// Steps by the first of any table that reads, from any words that are a pool
/// of it.
fn check_lent(tally: &mut Tally, rng: &mut Rng, input: &Scenario) {
    if let Ok((program, pool)) = decode(input) {
        check_by_first(tally, rng, &program, &pool);
    }
}

/// Steps by the first from a pool, which is left: each is a plain step of the
/// first thread that can step, they stop where there is none or at their number,
/// and as a schedule all are made and leave the same words. Fewer begin the
/// same, and the rest behind them is the rest.
fn check_by_first(tally: &mut Tally, rng: &mut Rng, program: &Program, start: &Pool) -> Pool {
    let table = encode(program);
    let most = rng.one_of([0, 6, 30, 100]);
    let mut left = start.clone();
    let run = first::run(program, &mut left, most);
    let mut pool = start.clone();
    for &(thread, rule) in &run.steps {
        let first = check_first(tally, program, &pool);
        let made = rules::choose(program, &mut pool, STEP, thread as u64);
        tally.expect(first == Some(thread) && made == Ok(rule), || {
            format!("{thread} {rule:?}, and {first:?} is the first: {made:?}")
        });
    }
    let none = check_first(tally, program, &left).is_none();
    let whole = run.steps.len() == most || none;
    tally.expect(pool == left && run.ended == none && whole, || {
        format!("{run:?} of {most} leave {left:?}")
    });
    let choices: Vec<Choice> = run.steps.iter().map(|&(t, _)| (STEP, t as u64)).collect();
    let mut words = start.to_words();
    let given = oracle::schedule(&table, &mut words, &choices);
    let same = given == (choices.len(), None) && words == left.to_words();
    tally.expect(same, || format!("{given:?} of the schedule {choices:?}"));
    let less = rng.below(most + 1);
    let mut pool = start.clone();
    let fewer = first::run(program, &mut pool, less);
    let rest = first::run(program, &mut pool, most - less);
    let in_two = [fewer.steps.clone(), rest.steps].concat();
    let begins = fewer.steps.len() == less.min(run.steps.len());
    tally.expect(begins && in_two == run.steps && pool == left, || {
        format!("{fewer:?} of {less}, {run:?} of {most}")
    });
    tally.expect(!fewer.ended || fewer == run, || {
        format!("{fewer:?} ended, and {run:?}")
    });
    for event in watch::by_first(&run, oracle::check(&table).is_ok()) {
        tally.event(event);
    }
    left
}

/// The listings of words that are a pool of any table that reads, and what
/// outputs of any length get.
fn check_lent_listings(tally: &mut Tally, rng: &mut Rng, input: &Scenario) {
    if let Ok((program, pool)) = decode(input) {
        check_listings(tally, rng, &program, &pool);
        for reader in Reader::ALL {
            let length = listing(&pool, reader).len();
            let less = rng.below(length);
            for room in [less, length - 1, length, length + 1, LISTING_BYTES] {
                check_listing_room(tally, input, &pool, reader, room);
            }
        }
    }
}

/// What an output of a length gets: 28 and nothing written, or the listing and
/// the bytes behind it as they were.
fn check_listing_room(
    tally: &mut Tally,
    input: &Scenario,
    pool: &Pool,
    reader: Reader,
    room: usize,
) {
    let listing = listing(pool, reader);
    let length = listing.len();
    let mut out = unwritten(room);
    let answer = Oracle.list(reader, &input.table, &input.words, &mut out);
    let (due, left) = if room < length {
        (Err(Refusal::plain(LISTING)), unwritten(room))
    } else {
        let rest = &unwritten(room)[length..];
        (Ok(length), [listing.as_bytes(), rest].concat())
    };
    tally.expect(answer == due && out == left, || {
        format!("{reader:?}, {room} bytes: {answer:?}, {due:?} is due")
    });
    if let Err(refusal) = answer {
        tally.refusal(refusal.number);
    }
}

/// Both listings of a pool. Every thread has its line, in the order of their
/// numbers, one space deeper than its parent's; the operator's line is the
/// customer's without what follows its seventh number. With other values the
/// operator's listing is the same, and the customer's exactly if the newest
/// frames have the same.
fn check_listings(tally: &mut Tally, rng: &mut Rng, program: &Program, pool: &Pool) {
    let [operator, customer] = Reader::ALL.map(|reader| listing(pool, reader));
    let erased: String = customer.lines().map(erased).collect();
    tally.expect(erased == operator, || {
        format!("{customer:?} without values is {erased:?}, not {operator:?}")
    });
    let mut depths = Vec::new();
    note_depths(&pool.root, 0, &mut depths);
    let due = depths.into_iter().enumerate();
    tally.expect(operator.lines().map(heading).eq(due.map(Some)), || {
        format!("{operator:?} lists {pool:?}")
    });
    tally.expect(customer.len() <= LISTING_BYTES, || {
        format!("a listing of {} bytes", customer.len())
    });
    let other = pools::other_values(rng, pool);
    let decoded = Pool::from_words(program, &other.to_words());
    tally.expect(decoded.as_ref() == Ok(&other), || {
        format!("no pool with other values: {other:?}")
    });
    let hidden = newest_values(pool) == newest_values(&other);
    let same = Reader::ALL.map(|reader| listing(&other, reader) == listing(pool, reader));
    tally.expect(same == [true, hidden], || {
        format!("{other:?}, {pool:?}: {same:?} of the listings")
    });
    if other != *pool {
        tally.event(if hidden { HIDDEN } else { SHOWN });
    }
    for event in watch::listed(pool) {
        tally.event(event);
    }
}

/// A line without what follows its seventh number.
fn erased(line: &str) -> String {
    let numbers = line.trim_start();
    let front: Vec<&str> = numbers.split(' ').take(7).collect();
    let deep = &line[..line.len() - numbers.len()];
    format!("{deep}{}\n", front.join(" "))
}

/// A line's number and how deep it stands.
fn heading(line: &str) -> Option<(usize, usize)> {
    let numbers = line.trim_start();
    let number = numbers.split(' ').next()?.parse().ok()?;
    Some((number, line.len() - numbers.len()))
}

/// The depth of every thread of a tree, in their order.
fn note_depths(thread: &Thread, depth: usize, depths: &mut Vec<usize>) {
    depths.push(depth);
    for child in thread.children.iter().rev() {
        note_depths(child, depth + 1, depths);
    }
}

/// What the newest frame of each thread has bound.
fn newest_values(pool: &Pool) -> Vec<Temporaries> {
    let threads = pool.threads();
    threads.iter().map(|t| t.current().temporaries).collect()
}

/// The lists by the answers are the tree's own, and every open call has for its
/// arguments the values of its spork; a child just promoted begins with them.
fn check_opened(
    tally: &mut Tally,
    program: &Program,
    openers: &Openers,
    pool: &Pool,
    choice: Choice,
    answer: &Result<Rule, u8>,
) {
    tally.expect(openers.agree(pool), || {
        format!("{openers:?} after {choice:?}, and {pool:?}")
    });
    let threads = pool.threads();
    let kept = threads.iter().flat_map(|t| &t.frames).all(|frame| {
        let spawns = &program.functions[frame.function].spawns;
        frame.calls.iter().all(|call| {
            let now = gather(&frame.temporaries, &spawns[call.spawn].arguments);
            let then = call.opened.as_ref().and_then(|o| o.arguments.as_ref());
            now.is_some() && now.as_ref() == then
        })
    });
    tally.expect(kept, || format!("other arguments than then: {pool:?}"));
    if *answer == Ok(Rule::Promote) {
        let child = threads[choice.1 as usize + 1];
        let arguments = child.opened.as_ref().and_then(|o| o.arguments.as_ref());
        let begins = arguments.is_some_and(|values| {
            child.frames == [Frame::entering(child.current().function, values)]
        });
        tally.expect(begins, || format!("a child with other values: {child:?}"));
        tally.event(HANDED);
    }
}

/// Some thread can step, or is at a call with all frames in use, or overflows, or
/// main has returned as many values as declared; at a depth of at most 8 no thread
/// is at such a call.
fn check_progress(tally: &mut Tally, program: &Program, depth: Option<u8>, pool: &Pool) {
    let values = ended(program, &pool.root);
    let declared = usize::from(program.functions[0].returns);
    let returned = values.as_ref().is_some_and(|v| v.len() == declared);
    let step = |t| rules::choose(program, &mut pool.clone(), STEP, t as u64);
    let answers: Vec<Result<Rule, u8>> = (0..pool.size()).map(step).collect();
    let steps = answers.iter().any(Result::is_ok);
    let full = answers.contains(&Err(18));
    let over = answers.contains(&Err(OVERFLOW));
    let stands = returned || steps || over || full && !roomy(depth);
    tally.expect(stands, || format!("no progress: {pool:?}"));
    tally.expect(values.is_none() || returned, || {
        format!("main gives {values:?}, not {declared} values")
    });
    let waits = answers.contains(&Err(17));
    tally.expect(!waits || steps || full || over, || {
        format!("a thread waits for nothing: {pool:?}")
    });
    let alone = over && !steps && !full;
    if waits && alone {
        tally.event(WAITS);
    }
    let holds = [
        returned,
        full && !steps && !over,
        alone,
        alone && roomy(depth),
        over && steps,
    ];
    for (event, held) in STANDINGS.into_iter().zip(holds) {
        if held {
            tally.event(event);
        }
    }
}

/// A step gets 29 exactly if the thread's next expression overflows, as its
/// operands tell; a promotion never does. Where a statement is made, the value
/// bound is the integer that the expression comes to.
fn check_exact(
    tally: &mut Tally,
    program: &Program,
    (before, after): (&Pool, &Pool),
    (kind, thread): Choice,
    answer: &Result<Rule, u8>,
) {
    let number = usize::try_from(thread).unwrap_or(MAX_THREADS);
    let threads = before.threads();
    let Some(own) = threads.get(number).filter(|_| kind == STEP) else {
        tally.expect(*answer != Err(OVERFLOW), || {
            format!("({kind}, {thread}) gets {answer:?}")
        });
        return;
    };
    let over = overflows(program, own);
    tally.expect(over == (*answer == Err(OVERFLOW)), || {
        format!("a step of {thread} gets {answer:?}: {own:?}")
    });
    for event in watch::limits(program, number, own) {
        tally.event(event);
    }
    let frame = own.current();
    if *answer == Ok(Rule::Stmt) {
        let code = &program.functions[frame.function].blocks[frame.block];
        let statement = &code.statements[frame.done];
        let left = &after.threads()[number].current().temporaries;
        let bound = left[usize::from(statement.target)].map(i128::from);
        let due = integer(&frame.temporaries, statement.expression);
        tally.expect(bound.is_some() && bound == due, || {
            format!("{bound:?} is bound, {due:?} due: {statement:?}")
        });
        tally.event(EXACT);
    }
    let stands = overflow::next(program, own).is_some();
    tally.expect(stands || *answer != Err(OVERFLOW), || {
        format!("29, and neither at a statement nor at an if: {own:?}")
    });
}

/// An expression's integer, without an end.
fn integer(temporaries: &Temporaries, expression: Expression) -> Option<i128> {
    let value = |m: Atom| match m {
        Atom::Value(value) => Some(i128::from(value)),
        Atom::Temporary(t) => temporaries[usize::from(t)].map(i128::from),
    };
    match expression {
        Expression::Plain(m) => value(m),
        Expression::Negated(m) => Some(0 - value(m)?),
        Expression::Sum(m, n) => Some(value(m)? + value(n)?),
        Expression::Less(m, n) => Some(i128::from(value(m)? - value(n)? < 0)),
    }
}

/// A join brings as many values as the block behind it takes.
fn check_join(tally: &mut Tally, program: &Program, pool: &mut Pool, (kind, thread): Choice) {
    let thread = usize::try_from(thread).ok().filter(|_| kind == STEP);
    let Some(parent) = thread.and_then(|number| pool.thread_mut(number)) else {
        return;
    };
    if let Some((brought, taken)) = join(program, parent) {
        tally.expect(taken == Some(brought), || {
            format!("a join brings {brought} values to a block of {taken:?}")
        });
        tally.event(&join_event(brought));
    }
}

/// What every answer to a choice must be: a refusal changes nothing, a rule
/// leaves a valid pool of the right size, and each thread that stays its purse.
fn check_answer(
    tally: &mut Tally,
    program: &Program,
    before: &Pool,
    after: &Pool,
    (kind, thread): Choice,
    answer: &Result<Rule, u8>,
) {
    let absent = thread >= before.size() as u64;
    let fits = match (kind, answer) {
        (STEP, Ok(rule)) => *rule != Rule::Promote,
        (PROMOTE, Ok(rule)) => *rule == Rule::Promote,
        (STEP | PROMOTE, Err(number)) if absent => *number == 15,
        (STEP, Err(number)) => matches!(number, 16..=19 | &OVERFLOW),
        (PROMOTE, Err(number)) => (19..=21).contains(number),
        (_, answer) => *answer == Err(14),
    };
    tally.expect(fits, || format!("({kind}, {thread}) gets {answer:?}"));
    check_exact(tally, program, (before, after), (kind, thread), answer);
    let Ok(rule) = answer else {
        tally.expect(before == after, || "a refusal changed the pool".to_string());
        return;
    };
    let decoded = Pool::from_words(program, &after.to_words());
    tally.expect(decoded.as_ref() == Ok(after), || {
        format!("{rule:?} leaves no valid pool: {after:?}")
    });
    let (threads, frames) = match rule {
        Rule::Promote => (1, 1),
        Rule::Prom => (-1, -1),
        Rule::Call => (0, 1),
        Rule::Return => (0, -1),
        _ => (0, 0),
    };
    let grown = (
        after.size() as i32 - before.size() as i32,
        frame_count(after) - frame_count(before),
    );
    tally.expect(grown == (threads, frames), || {
        format!("{rule:?} grows threads and frames by {grown:?}")
    });
    let (mut due, left) = (purses(before), purses(after));
    let behind = thread as usize + 1;
    match rule {
        Rule::Promote => due.insert(behind, Purse::default()),
        Rule::Prom => _ = due.remove(behind),
        _ => {}
    }
    tally.expect(left == due, || {
        format!("{rule:?} leaves the purses {left:?}")
    });
    if due.iter().any(|purse| *purse != Purse::default()) {
        tally.event(KEPT);
    }
}

/// The purses of a pool, thread by thread.
fn purses(pool: &Pool) -> Vec<Purse> {
    let threads = pool.threads();
    threads.iter().map(|thread| thread.purse).collect()
}

/// A pool with every purse empty.
fn penniless(pool: &Pool) -> Pool {
    let mut pool = pool.clone();
    for number in 0..pool.size() {
        let thread = pool.thread_mut(number).expect("a thread below the size");
        thread.purse = Purse::default();
    }
    pool
}

fn frame_count(pool: &Pool) -> i32 {
    pool.threads().iter().map(|t| t.frames.len() as i32).sum()
}

/// One planted fault is found at its place.
fn check_one_fault(tally: &mut Tally, rng: &mut Rng, program: &Program) {
    let mut program = program.clone();
    let kind = rng.one_of(Kind::ALL);
    if let Some(planted) = faults::plant(rng, &mut program, kind) {
        expect_fault(tally, &program, &[planted]);
        tally.event(&format!("fault {kind:?}"));
    }
}

/// Of two planted faults the first in the order is found.
fn check_two_faults(tally: &mut Tally, rng: &mut Rng, program: &Program) {
    let (program, one, two) = if rng.chance(60) {
        match faults::plant_pair(rng, program) {
            Some(planted) => planted,
            None => return,
        }
    } else {
        let mut program = program.clone();
        let one = faults::plant_any(rng, &mut program);
        let two = faults::plant_any(rng, &mut program);
        (program, one, two)
    };
    if undone(&one, &two) {
        return;
    }
    if one.same_block(&two) && one.in_transfer() && two.in_transfer() {
        expect_fault(tally, &program, &[one, two]);
        tally.event("two faults in a transfer");
    } else if one.key < two.key {
        expect_fault(tally, &program, &[one]);
    } else {
        expect_fault(tally, &program, &[two]);
    }
}

/// Whether the second fault may have undone the first: they are the same, or
/// both in one phase of a transfer, or the second adds a block that the first
/// names as missing.
fn undone(one: &Planted, two: &Planted) -> bool {
    let adds = matches!(
        two.kind,
        Kind::TargetCount | Kind::TargetNesting | Kind::TargetScope
    );
    one.key == two.key
        || (one.in_transfer() && one.key[..4] == two.key[..4])
        || (one.kind == Kind::TransferName && adds && one.key[0] == two.key[0])
}

/// The check gives one of these faults.
fn expect_fault(tally: &mut Tally, program: &Program, planted: &[Planted]) {
    let table = encode(program);
    if table.len() > TABLE_MAX {
        return;
    }
    let refusal = oracle::check(&table).err();
    if let Some(refusal) = &refusal {
        tally.refusal(refusal.number);
    }
    let found = planted.iter().any(|fault| Some(fault.refusal) == refusal);
    tally.expect(found, || format!("{planted:?} planted, {refusal:?} given"));
    check_depth(tally, &table);
    check_untidy(tally, &table);
}

/// Spoiled bytes get the refusal known beforehand.
fn check_bytes(tally: &mut Tally, rng: &mut Rng, program: &Program) {
    let (table, known) = bytes::spoiled(rng, program);
    let refusal = oracle::read(&table).err();
    if let Some(refusal) = &refusal {
        tally.refusal(refusal.number);
    }
    tally.expect(known.is_none() || known == refusal, || {
        format!("{known:?} due, {refusal:?} given")
    });
    let checked = oracle::check(&table).err();
    tally.expect(refusal.is_none() || checked == refusal, || {
        format!("read gives {refusal:?}, check {checked:?}")
    });
    check_depth(tally, &table);
    check_untidy(tally, &table);
}

/// All calls on one scenario agree with each other and keep their promises.
fn check_scenario(tally: &mut Tally, input: &Scenario) {
    check_depth(tally, &input.table);
    check_untidy(tally, &input.table);
    check_start(tally, input);
    check_purses(tally, input);
    match decode(input) {
        Err(refusal) => check_undecoded(tally, input, refusal),
        Ok((program, pool)) => {
            check_questions(tally, input, &program, &pool);
            check_choices(tally, input, &program, &pool);
            check_schedule(tally, input);
            check_beats(tally, input, &program, &pool);
        }
    }
}

/// The beats of a scenario, one of every thread, and its run, which is its
/// beats one after another up to the first refused.
fn check_beats(tally: &mut Tally, input: &Scenario, program: &Program, pool: &Pool) {
    let (pace, threads) = &input.run;
    let each = (0..=pool.size() as u64).map(|thread| (*pace, thread));
    for (pace, thread) in input.beats.iter().copied().chain(each) {
        let mut after = pool.clone();
        let answer = beats::beat(program, &mut after, pace, thread);
        check_beat(tally, program, pool, &after, pace, thread, &answer);
        let mut words = input.words.clone();
        let given = oracle::beat(&input.table, &mut words, pace, thread);
        let due = answer
            .as_ref()
            .map(|beat| (beat.rule, beat.ledger.paid()))
            .map_err(|number| Refusal::plain(*number));
        tally.expect(given == due && words == after.to_words(), || {
            format!("{pace:?} {thread}: {given:?} given, {due:?} due")
        });
        if let Err(number) = answer {
            tally.refusal(number);
        }
        for event in paces(pace) {
            tally.event(event);
        }
    }
    let (mut one_by_one, mut due) = (input.words.clone(), ([0, 0], None));
    if !pace.fits() {
        due.1 = Some(Refusal::plain(PACE));
    }
    for &thread in threads {
        if due.1.is_some() {
            break;
        }
        match oracle::beat(&input.table, &mut one_by_one, *pace, thread) {
            Ok((_, promotions)) => {
                due.0[0] += 1;
                due.0[1] += promotions;
            }
            Err(refusal) => due.1 = Some(refusal),
        }
    }
    let mut words = input.words.clone();
    let given = oracle::run(&input.table, &mut words, *pace, threads);
    tally.expect(given == due && words == one_by_one, || {
        format!("{pace:?}, {threads:?}: {given:?} given, {due:?} due")
    });
}

/// A word of a purse that is none gets 13, where the table reads.
fn check_purses(tally: &mut Tally, input: &Scenario) {
    if oracle::read(&input.table).is_err() {
        return;
    }
    for note in &input.notes {
        if pools::NO_PURSES.contains(note) {
            let refused = decode(input).map(|_| ());
            tally.expect(refused == Err(Refusal::plain(13)), || {
                format!("{note}: {refused:?} given")
            });
            tally.event(note);
        }
        if pools::EDGES.contains(note) && decode(input).is_ok() {
            tally.event(note);
        }
    }
}

fn decode(input: &Scenario) -> Result<(Program, Pool), Refusal> {
    let program = oracle::read(&input.table)?;
    let pool = Pool::from_words(&program, &input.words)?;
    Ok((program, pool))
}

fn check_start(tally: &mut Tally, input: &Scenario) {
    let mut words = input.words.clone();
    let started = oracle::start(&input.table, &mut words);
    let due = match oracle::read(&input.table) {
        Err(refusal) => Err(refusal),
        Ok(_) if input.words.len() != POOL_WORDS => Err(Refusal::plain(12)),
        Ok(_) => Ok(()),
    };
    tally.expect(started == due, || format!("start gives {started:?}"));
    let fits = match started {
        Err(_) => words == input.words,
        Ok(()) => words[..2] == [1, 1] && words[2..].iter().all(|&word| word == 0),
    };
    tally.expect(fits, || "start leaves other words".to_string());
}

const NO_PACE: Pace = Pace { n: 0, c: 256 };

/// Every call on a table or words that are none gets the same refusal.
fn check_undecoded(tally: &mut Tally, input: &Scenario, refusal: Refusal) {
    tally.refusal(refusal.number);
    let mut words = input.words.clone();
    let mut out = unwritten(LISTING_BYTES);
    let given = [
        oracle::choose(&input.table, &mut words, 0, 0).err(),
        oracle::choose(&input.table, &mut words, 2, 9).err(),
        oracle::which(&input.table, &words).err(),
        oracle::values(&input.table, &words).err(),
        oracle::operator(&input.table, &words, &mut []).err(),
        oracle::operator(&input.table, &words, &mut out).err(),
        oracle::customer(&input.table, &words, &mut []).err(),
        oracle::customer(&input.table, &words, &mut out).err(),
        oracle::schedule(&input.table, &mut words, &[]).1,
        oracle::schedule(&input.table, &mut words, &input.choices).1,
        oracle::beat(&input.table, &mut words, NO_PACE, 9).err(),
        oracle::beat(&input.table, &mut words, input.run.0, 0).err(),
        oracle::run(&input.table, &mut words, NO_PACE, &[]).1,
        oracle::run(&input.table, &mut words, input.run.0, &input.run.1).1,
    ];
    let same = given.iter().all(|other| *other == Some(refusal));
    tally.expect(same, || format!("{refusal:?} due, {given:?} given"));
    let kept = words == input.words && out == unwritten(LISTING_BYTES);
    tally.expect(kept, || {
        "a refusal changed the words or the output".to_string()
    });
}

/// The two questions agree with the steps themselves.
fn check_questions(tally: &mut Tally, input: &Scenario, program: &Program, pool: &Pool) {
    tally.expect(pool.to_words() == input.words, || {
        "words do not come back".to_string()
    });
    let step = |t: usize| rules::choose(program, &mut pool.clone(), STEP, t as u64);
    let stepping: Vec<usize> = (0..pool.size()).filter(|&t| step(t).is_ok()).collect();
    let given = rules::steppable(program, pool);
    tally.expect(given == stepping, || {
        format!("{stepping:?} can step, {given:?} given")
    });
    let first = oracle::which(&input.table, &input.words);
    tally.expect(first == Ok(stepping.first().copied()), || {
        format!("{stepping:?} can step, {first:?} is the first")
    });
    let values = oracle::values(&input.table, &input.words);
    let is_given = matches!(values, Ok(Some(_)));
    tally.expect(is_given == (step(0) == Err(16)), || {
        format!("values {values:?} beside {:?}", step(0))
    });
    tally.expect(!is_given || pool.size() == 1, || {
        "ended main is not alone".to_string()
    });
}

/// Every choice of a small kind and thread, and those of the schedule.
fn check_choices(tally: &mut Tally, input: &Scenario, program: &Program, pool: &Pool) {
    let mut choices: Vec<Choice> = input.choices.iter().copied().take(6).collect();
    for thread in 0..=pool.size() as u64 {
        choices.extend([(STEP, thread), (PROMOTE, thread)]);
    }
    choices.extend([(2, 0), (1 << 32, 0), (2, 8), (STEP, 1 << 32)]);
    for choice in choices {
        let mut words = input.words.clone();
        let answer = oracle::choose(&input.table, &mut words, choice.0, choice.1)
            .map_err(|refusal| refusal.number);
        tally.answer(answer.map(Rule::number));
        let after = match Pool::from_words(program, &words) {
            Ok(after) => after,
            Err(refusal) => {
                tally.expect(false, || format!("{choice:?} leaves {refusal:?}"));
                continue;
            }
        };
        tally.expect(answer.is_ok() || words == input.words, || {
            format!("{choice:?}: a refusal changed the words")
        });
        check_answer(tally, program, pool, &after, choice, &answer);
        let mut poor = penniless(pool);
        let other = rules::choose(program, &mut poor, choice.0, choice.1);
        tally.expect(other == answer && poor == penniless(&after), || {
            format!("{choice:?}: {answer:?}, and {other:?} with empty purses")
        });
    }
}

/// A schedule is its choices one after another up to the first refusal.
fn check_schedule(tally: &mut Tally, input: &Scenario) {
    let mut one_by_one = input.words.clone();
    let mut due = (0, None);
    for &(kind, thread) in &input.choices {
        match oracle::choose(&input.table, &mut one_by_one, kind, thread) {
            Ok(_) => due.0 += 1,
            Err(refusal) => {
                due.1 = Some(refusal);
                break;
            }
        }
    }
    let mut words = input.words.clone();
    let given = oracle::schedule(&input.table, &mut words, &input.choices);
    tally.expect(given == due, || format!("{due:?} due, {given:?} given"));
    tally.expect(words == one_by_one, || {
        "a schedule leaves other words than its choices".to_string()
    });
    if given.0 >= 50 {
        tally.event("schedule of 50 made");
    }
    if given.0 > 0 && given.1 == Some(Refusal::plain(OVERFLOW)) {
        tally.event(SCHEDULE_OVERFLOWS);
    }
}
