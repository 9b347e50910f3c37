//! Steps by the first, by a machine's own functions: `which` names a thread, a
//! step of it is put, and so on until there is none. Threads, rules and words are
//! the second implementation's.

use oracle::encode::encode;
use oracle::first::{self, Run};
use oracle::gen::schedules::{guided_choice, Choice, Order, Policy};
use oracle::gen::Scenario;
use oracle::machine::Machine;
use oracle::pool::Pool;
use oracle::rng::Rng;
use oracle::rules::{choose, Rule, STEP};
use oracle::table::Program;
use oracle::tally::Tally;
use oracle::{watch, Refusal, POOL_WORDS};

/// What must occur, by name.
pub const EVENTS: [&str; 4] = [RETURNED, FULL, OVER, FEWER];

const RETURNED: &str = "steps by the first from a fresh pool on, to main's return";
const FULL: &str = "steps by the first from a fresh pool on, to full stacks";
const OVER: &str = "steps by the first from a fresh pool on, to an overflow";
const FEWER: &str = "steps by the first, of two numbers";

/// A pool from which steps by the first are made.
struct Outset<'a> {
    machine: &'a dyn Machine,
    program: &'a Program,
    table: &'a [u8],
    words: Vec<i32>,
    /// The second implementation's pool, which the words hold.
    pool: Pool,
}

/// Steps by the first from the words of a scenario, where these are a pool of its
/// table, accepted or not.
pub fn check_lent(tally: &mut Tally, machine: &dyn Machine, rng: &mut Rng, input: &Scenario) {
    let Ok(program) = oracle::read(&input.table) else {
        return;
    };
    let Ok(pool) = Pool::from_words(&program, &input.words) else {
        return;
    };
    let outset = Outset {
        machine,
        program: &program,
        table: &input.table,
        words: input.words.clone(),
        pool,
    };
    let most = rng.one_of([1, 5, 25]);
    let (run, _) = outset.check(tally, rng, most);
    for event in watch::by_first(&run, oracle::check(&input.table).is_ok()) {
        tally.event(event);
    }
}

/// Steps by the first of an accepted table, from a fresh pool to which a list of
/// choices, promotions among them, was put. Where they end main has returned, or
/// some thread is at a call with all frames in use or overflows.
pub fn check_started(tally: &mut Tally, machine: &dyn Machine, rng: &mut Rng, program: &Program) {
    let table = encode(program);
    let mut pool = Pool::start();
    let choices = promoting(rng, program, &mut pool);
    let (mut words, mut made) = (vec![-1; POOL_WORDS], u64::MAX);
    let started = machine.start(&table, &mut words);
    let put = machine.schedule(&table, &mut words, &choices, &mut made);
    tally.expect(started.is_ok() && put.is_ok(), || {
        format!("{started:?}, and {put:?} of {choices:?}")
    });
    let outset = Outset {
        machine,
        program,
        table: &table,
        words,
        pool,
    };
    let most = rng.one_of([10, 40, 120]);
    let (run, left) = outset.check(tally, rng, most);
    if run.ended {
        let returned = matches!(machine.values(&table, &left, &mut [0; 4]), Ok(Some(_)));
        let gets = |number: u8| {
            let refusal = Err(Refusal::plain(number));
            (0..8).any(|thread| outset.step(&left, thread) == refusal)
        };
        let (full, over) = (gets(18), gets(29));
        let stands = returned || full || over;
        tally.expect(stands, || format!("no progress: {left:?}"));
        tally.event(match (returned, full) {
            (true, _) => RETURNED,
            (_, true) => FULL,
            _ => OVER,
        });
    }
    for event in watch::by_first(&run, true) {
        tally.event(event);
    }
}

/// Choices that a fresh pool makes, many of them promotions, and the pool that
/// they leave.
fn promoting(rng: &mut Rng, program: &Program, pool: &mut Pool) -> Vec<Choice> {
    let policy = Policy {
        blind: 0,
        promote: rng.one_of([0, 50, 90]),
        order: rng.one_of([Order::First, Order::Last, Order::Any]),
    };
    let mut choices = Vec::new();
    for _ in 0..rng.one_of([0, 8, 30]) {
        let choice = guided_choice(rng, program, pool, policy);
        if choose(program, pool, choice.0, choice.1).is_ok() {
            choices.push(choice);
        }
    }
    choices
}

/// Steps by the first that a machine made.
#[derive(Clone, Debug, PartialEq)]
struct Steps {
    /// The thread and the rule's number of each.
    steps: Vec<(usize, u8)>,
    /// Whether no thread is named after them.
    ended: bool,
    /// The words that they leave.
    words: Vec<i32>,
}

impl Outset<'_> {
    /// At most so many steps by the first: the second implementation makes the
    /// same and leaves the same words, and so does the machine again with another
    /// number of steps, as far as they go. As one schedule all are made and leave
    /// the same words. Where they ended every step is refused.
    fn check(&self, tally: &mut Tally, rng: &mut Rng, most: usize) -> (Run, Vec<i32>) {
        let given = self.run(tally, most);
        let mut pool = self.pool.clone();
        let due = first::run(self.program, &mut pool, most);
        let right = Steps {
            steps: due
                .steps
                .iter()
                .map(|&(t, rule)| (t, rule.number()))
                .collect(),
            ended: due.ended,
            words: pool.to_words(),
        };
        tally.expect(given == right, || {
            format!("{given:?} by the first, {right:?} is right")
        });
        self.replay(tally, &given);
        if rng.chance(40) {
            let other = self.run(tally, rng.below(most + 4));
            check_begins(tally, &given, &other);
            check_begins(tally, &other, &given);
        }
        if given.ended {
            let refused = (0..8).all(|thread| self.step(&given.words, thread).is_err());
            tally.expect(refused, || format!("none is the first of {pool:?}"));
        }
        (due, given.words)
    }

    /// The machine's own steps by the first, each beside the second
    /// implementation's. A step of the thread that is named is made.
    fn run(&self, tally: &mut Tally, most: usize) -> Steps {
        let (mut words, mut pool) = (self.words.clone(), self.pool.clone());
        let mut steps = Vec::new();
        let mut named = self.first(tally, &words, &pool);
        while let Some(thread) = named.filter(|_| steps.len() < most) {
            let answer = self
                .machine
                .choose(self.table, &mut words, STEP, thread as u64);
            let due = choose(self.program, &mut pool, STEP, thread as u64);
            let right = due.map(Rule::number).map_err(Refusal::plain);
            let made = answer.is_ok() && answer == right;
            tally.expect(made && words == pool.to_words(), || {
                format!("{thread} is the first: {answer:?}, {right:?} is right")
            });
            let Ok(rule) = answer else {
                break;
            };
            steps.push((thread, rule));
            named = self.first(tally, &words, &pool);
        }
        let ended = named.is_none();
        Steps {
            steps,
            ended,
            words,
        }
    }

    /// The thread that the machine names: the second implementation's; every
    /// lower one is refused.
    fn first(&self, tally: &mut Tally, words: &[i32], pool: &Pool) -> Option<usize> {
        let named = self.machine.can_step(self.table, words);
        let due = first::first(self.program, pool);
        tally.expect(named == Ok(due), || {
            format!("{named:?} is named, {due:?} is the first")
        });
        let thread = named.ok()?;
        let mut lower = 0..thread.unwrap_or(0) as u64;
        let refused = lower.all(|lower| self.step(words, lower).is_err());
        tally.expect(refused, || format!("{thread:?} is named, and a lower can"));
        for event in watch::firsts(self.program, pool) {
            tally.event(event);
        }
        thread
    }

    /// A step on a copy of some words.
    fn step(&self, words: &[i32], thread: u64) -> Result<u8, Refusal> {
        self.machine
            .choose(self.table, &mut words.to_vec(), STEP, thread)
    }

    /// Steps that were made are all made as one schedule, and leave the same.
    fn replay(&self, tally: &mut Tally, run: &Steps) {
        let steps = run.steps.iter();
        let choices: Vec<Choice> = steps.map(|&(t, _)| (STEP, t as u64)).collect();
        let (mut words, mut made) = (self.words.clone(), u64::MAX);
        let answer = self
            .machine
            .schedule(self.table, &mut words, &choices, &mut made);
        let all = answer.is_ok() && made == choices.len() as u64;
        tally.expect(all && words == run.words, || {
            format!("{made} made of {choices:?}, {answer:?} given")
        });
    }
}

/// Of two numbers of steps the fewer are the beginning of the more, and leave
/// the same where they are as many; where one has ended the other has no more.
fn check_begins(tally: &mut Tally, one: &Steps, other: &Steps) {
    if one.steps.len() > other.steps.len() {
        tally.expect(!other.ended, || format!("{other:?} ended, and {one:?}"));
        tally.event(FEWER);
        return;
    }
    let same = one.steps.len() < other.steps.len() || one == other;
    tally.expect(same && other.steps.starts_with(&one.steps), || {
        format!("{one:?}, and {other:?} of another number")
    });
}
