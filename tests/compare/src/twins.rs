//! A table, its tidy table, and other tables of the same job: what the library
//! writes of each, and runs of a table beside its tidy table.

use oracle::beats::beat;
use oracle::encode::encode;
use oracle::first::first;
use oracle::gen::beats::{guided_thread, quick_pace};
use oracle::gen::schedules::{guided_choice, guided_schedule, Choice, Policy};
use oracle::gen::twins::twin;
use oracle::machine::{unwritten, Machine};
use oracle::pool::Pool;
use oracle::rng::Rng;
use oracle::rules::{self, STEP};
use oracle::stored::{case_tables, tidy_rows};
use oracle::table::Program;
use oracle::tally::Tally;
use oracle::tidy::Numbering;
use oracle::watch;
use oracle::{Refusal, POOL_WORDS};

/// What must occur, by name.
pub const EVENTS: [&str; 7] = [STORED, CASE, TWIN, OTHER_TWIN, BESIDE, REFUSED, BEATEN];

const STORED: &str = "stored tidy table";
const CASE: &str = "table of a stored case, tidied";
const TWIN: &str = "two tables of one job, tidied to one";
const OTHER_TWIN: &str = "two tables of one job of different lengths";
const BESIDE: &str = "run beside the tidy table's that returned";
const REFUSED: &str = "run beside the tidy table's with a refused choice";
const BEATEN: &str = "run beside the tidy table's with promotions by beats";

/// The stored tidy tables, and the tables of the stored cases, accepted and
/// refused.
pub fn check_stored(tally: &mut Tally, machine: &dyn Machine) {
    for row in tidy_rows() {
        let tidy = written(machine, &row.table);
        tally.expect(tidy == Ok(row.tidy.clone()), || {
            format!("{}: {}, {:02x?} is due", row.name, shown(&tidy), row.tidy)
        });
        tally.event(STORED);
    }
    for table in case_tables() {
        let tidy = written(machine, &table);
        let due = written(&oracle::machine::Oracle, &table);
        tally.expect(tidy == due, || {
            format!("{}, {} is due", shown(&tidy), shown(&due))
        });
        if let Ok(tidy) = tidy {
            check_tidy(tally, machine, &table, &tidy);
            tally.event(CASE);
        }
    }
}

/// What a machine writes of a table, with as much room as the table has bytes.
fn written(machine: &dyn Machine, table: &[u8]) -> Result<Vec<u8>, Refusal> {
    let mut out = unwritten(table.len());
    let length = machine.tidy(table, &mut out)?;
    out.truncate(length);
    Ok(out)
}

/// A tidy table in hexadecimal, or the refusal.
fn shown(tidy: &Result<Vec<u8>, Refusal>) -> String {
    match tidy {
        Ok(bytes) => format!("{bytes:02x?}"),
        Err(refusal) => format!("{refusal:?}"),
    }
}

/// A tidy table is accepted, no longer than its table, and its own tidy table.
fn check_tidy(tally: &mut Tally, machine: &dyn Machine, table: &[u8], tidy: &[u8]) {
    let accepted = machine.check(tidy).is_ok();
    tally.expect(accepted && tidy.len() <= table.len(), || {
        format!("tidy, and not accepted or longer: {tidy:02x?}")
    });
    let again = written(machine, tidy);
    tally.expect(again.as_deref() == Ok(tidy), || {
        format!("{tidy:02x?} is tidied to {}", shown(&again))
    });
}

/// The tidy table of an accepted program's table; two other tables of the same
/// job have it too; and a run.
pub fn check_twins(tally: &mut Tally, machine: &dyn Machine, rng: &mut Rng, program: &Program) {
    let numbering = Numbering::of(program);
    for event in watch::tidied(program, &numbering) {
        tally.event(event);
    }
    let table = encode(program);
    let due = encode(&numbering.program(program));
    let tidy = written(machine, &table);
    tally.expect(tidy.as_ref() == Ok(&due), || {
        format!("{table:02x?}: {}, {due:02x?} is due", shown(&tidy))
    });
    let Ok(tidy) = tidy else {
        return;
    };
    check_tidy(tally, machine, &table, &tidy);
    let twins = [(); 2].map(|()| encode(&twin(rng, program)));
    for twin in &twins {
        let other = written(machine, twin);
        tally.expect(other.as_ref() == Ok(&tidy), || {
            format!("{table:02x?} and {twin:02x?} are tidied apart")
        });
        tally.event(TWIN);
    }
    if twins[0].len() != twins[1].len() {
        tally.event(OTHER_TWIN);
    }
    let mut beside = Beside {
        machine,
        program,
        numbering,
        tables: [table, tidy],
        words: [(); 2].map(|()| (0..POOL_WORDS).map(|_| rng.bits() as i32).collect()),
        pool: Pool::start(),
    };
    beside.run(tally, rng);
}

/// A table and its tidy table, with a pool of each.
struct Beside<'a> {
    machine: &'a dyn Machine,
    program: &'a Program,
    numbering: Numbering,
    tables: [Vec<u8>; 2],
    words: [Vec<i32>; 2],
    /// The second implementation's pool of the table.
    pool: Pool,
}

impl Beside<'_> {
    /// A call on both, which must answer the same.
    fn both<T: PartialEq + std::fmt::Debug>(
        &mut self,
        tally: &mut Tally,
        call: impl Fn(&dyn Machine, &[u8], &mut Vec<i32>) -> T,
    ) -> T {
        let [one, other] =
            [0, 1].map(|side| call(self.machine, &self.tables[side], &mut self.words[side]));
        tally.expect(one == other, || {
            format!("{one:?}, and {other:?} once tidied")
        });
        one
    }

    /// Choices from fresh pools, one by one, beats, and then a schedule.
    fn run(&mut self, tally: &mut Tally, rng: &mut Rng) {
        let started = self.both(tally, |machine, table, words| machine.start(table, words));
        tally.expect(started.is_ok(), || format!("no start: {started:?}"));
        self.compare(tally);
        let policy = Policy::random(rng);
        for _ in 0..rng.one_of([1, 6, 16]) {
            let (kind, thread) = self.within(guided_choice(rng, self.program, &self.pool, policy));
            let answer = self.both(tally, |machine, table, words| {
                machine.choose(table, words, kind, thread)
            });
            if answer.is_err() {
                tally.event(REFUSED);
            }
            _ = rules::choose(self.program, &mut self.pool, kind, thread);
        }
        self.compare(tally);
        for _ in 0..rng.one_of([0, 1, 4]) {
            let pace = quick_pace(rng);
            let thread = guided_thread(rng, self.program, &self.pool, 10);
            let (_, thread) = self.within((STEP, thread));
            let answer = self.both(tally, |machine, table, words| {
                machine.beat(table, words, pace, thread)
            });
            if matches!(answer, Ok((_, 1..))) {
                tally.event(BEATEN);
            }
            _ = beat(self.program, &mut self.pool, pace, thread);
        }
        self.compare(tally);
        let refused = rng.chance(50);
        let choices: Vec<Choice> = guided_schedule(rng, self.program, &self.pool, 30, refused)
            .into_iter()
            .map(|choice| self.within(choice))
            .collect();
        _ = self.both(tally, |machine, table, words| {
            let mut made = u64::MAX;
            let answer = machine.schedule(table, words, &choices, &mut made);
            (made, answer)
        });
        for &(kind, thread) in &choices {
            if rules::choose(self.program, &mut self.pool, kind, thread).is_err() {
                break;
            }
        }
        self.compare(tally);
    }

    fn within(&self, (kind, thread): Choice) -> Choice {
        let widest = self.machine.widest();
        (kind.min(widest), thread.min(widest))
    }

    /// Main's values are the same; the first thread that can step is, the second
    /// implementation's; and the words are those of the second implementation's
    /// pool, with the new numbers.
    fn compare(&mut self, tally: &mut Tally) {
        let values = self.both(tally, |machine, table, words| {
            let mut room = [0; 4];
            (machine.values(table, words, &mut room), room)
        });
        if matches!(values, (Ok(Some(_)), _)) {
            tally.event(BESIDE);
        }
        let which = self.both(tally, |machine, table, words| {
            machine.can_step(table, words)
        });
        let due = first(self.program, &self.pool);
        tally.expect(which == Ok(due), || {
            format!("{which:?} is named by both, {due:?} is the first that can step")
        });
        if let Ok(Some(thread)) = which {
            let step = self.both(tally, |machine, table, words| {
                machine.choose(table, &mut words.clone(), STEP, thread as u64)
            });
            tally.expect(step.is_ok(), || format!("{thread} can step, and {step:?}"));
        }
        let due = [self.pool.clone(), self.numbering.pool(&self.pool)].map(|pool| pool.to_words());
        tally.expect(self.words == due, || {
            format!("{:?} are the words, {due:?} is right", self.words)
        });
    }
}
