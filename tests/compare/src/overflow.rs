//! Overflow, by a machine's own answers and words: a step gets 29 exactly where
//! the expression that it works out is an integer outside 32 bits, and leaves the
//! words; a statement binds the integer itself, and an if goes by it.

use oracle::encode::encode;
use oracle::gen::beats::quick_pace;
use oracle::gen::pools::{fill_purses, limited};
use oracle::gen::schedules::Choice;
use oracle::gen::Scenario;
use oracle::machine::Machine;
use oracle::overflow::next;
use oracle::pool::{frame_start, Pool, Temporaries, Thread, MAX_THREADS};
use oracle::rng::Rng;
use oracle::rules::STEP;
use oracle::table::{Atom, Expression, Program, Temporary};
use oracle::tally::Tally;
use oracle::{watch, Refusal};

/// What must occur, by name.
pub const EVENTS: [&str; 7] = [
    OVERFLOWS, BOUND, DECIDED, UNBOUND, BEATEN, NOT_NAMED, NO_BLOCK,
];

const OVERFLOWS: &str = "step that gets 29, and its integer is outside 32 bits";
const BOUND: &str = "statement that binds its integer";
const DECIDED: &str = "if that goes by its integer";
const UNBOUND: &str = "step that gets 19 for an unbound operand";
const BEATEN: &str = "beat that gets 29 as its step does";
const NOT_NAMED: &str = "thread that overflows, and is not the first that can step";
const NO_BLOCK: &str = "if that gets 19 for a missing block, and does not overflow";

/// The words of a frame: how many statements are done, the set of what is bound,
/// and the first value.
const DONE: usize = 2;
const SET: usize = 3;
const VALUES: usize = 10;

/// A step that works out an expression.
pub struct Worked {
    /// What it comes to, if its operands are bound.
    integer: Option<i128>,
    /// What a statement binds; an if binds nothing.
    target: Option<Temporary>,
    /// Where the newest frame begins.
    newest: usize,
    events: Vec<&'static str>,
}

impl Worked {
    /// The step that a choice is, if the thread stands at a statement or an if.
    pub fn of(program: &Program, pool: &Pool, (kind, thread): Choice) -> Option<Self> {
        let number = usize::try_from(thread).ok().filter(|_| kind == STEP)?;
        let threads = pool.threads();
        let own: &Thread = threads.get(number)?;
        let frame = own.current();
        let next = next(program, own)?;
        let block = &program.functions[frame.function].blocks[frame.block];
        Some(Worked {
            integer: integer(&frame.temporaries, next.expression),
            target: block.statements.get(frame.done).map(|s| s.target),
            newest: frame_start(number, own.frames.len() - 1),
            events: watch::limits(program, number, own),
        })
    }

    /// Whether the integer is outside 32 bits.
    fn overflows(&self) -> bool {
        self.integer
            .is_some_and(|integer| !(-(1 << 31)..1 << 31).contains(&integer))
    }

    /// What the step answered and left.
    fn check(&self, tally: &mut Tally, answer: Result<u8, u8>, before: &[i32], after: &[i32]) {
        let Worked {
            integer,
            target,
            newest,
            ..
        } = *self;
        let over = self.overflows();
        tally.expect(over == (answer == Err(29)), || {
            format!("{integer:?} is worked out, {answer:?} given")
        });
        let right = match (answer, integer, target) {
            (Err(_), _, _) => before == after,
            (Ok(1), Some(integer), Some(target)) => {
                let bit = 1 << target;
                let value = after[newest + VALUES + usize::from(target)];
                let done = after[newest + DONE] == before[newest + DONE] + 1;
                let set = after[newest + SET] == before[newest + SET] | bit;
                i128::from(value) == integer && done && set
            }
            (Ok(3), Some(integer), None) => integer != 0,
            (Ok(4), Some(integer), None) => integer == 0,
            _ => false,
        };
        tally.expect(right, || {
            format!("{integer:?} is worked out, {answer:?} given, other words left")
        });
        tally.expect(integer.is_some() || answer == Err(19), || {
            format!("an operand is unbound, {answer:?} given")
        });
        match answer {
            Ok(1) => tally.event(BOUND),
            Ok(_) => tally.event(DECIDED),
            Err(29) => tally.event(OVERFLOWS),
            Err(_) if integer.is_none() => tally.event(UNBOUND),
            Err(_) => tally.event(NO_BLOCK),
        }
        for event in &self.events {
            tally.event(event);
        }
    }
}

/// What a choice answered and left; 29 comes to no other choice.
pub fn check_choice(
    tally: &mut Tally,
    worked: Option<&Worked>,
    answer: Result<u8, Refusal>,
    before: &[i32],
    after: &[i32],
) {
    let answer = answer.map_err(|refusal| refusal.number);
    match worked {
        Some(worked) => worked.check(tally, answer, before, after),
        None => tally.expect(answer != Err(29), || {
            "29, and no expression is worked out".to_string()
        }),
    }
}

/// An expression's integer, which has no end.
fn integer(temporaries: &Temporaries, expression: &Expression) -> Option<i128> {
    let value = |m: Atom| match m {
        Atom::Value(value) => Some(i128::from(value)),
        Atom::Temporary(t) => temporaries[usize::from(t)].map(i128::from),
    };
    match *expression {
        Expression::Plain(m) => value(m),
        Expression::Negated(m) => Some(0 - value(m)?),
        Expression::Sum(m, n) => Some(value(m)? + value(n)?),
        Expression::Less(m, n) => Some(i128::from(value(m)? < value(n)?)),
    }
}

/// Every step of the words of a scenario, where these are a pool of its table.
pub fn check_lent(tally: &mut Tally, machine: &dyn Machine, rng: &mut Rng, input: &Scenario) {
    if let Ok(program) = oracle::read(&input.table) {
        check_words(tally, machine, rng, &program, &input.table, &input.words);
    }
}

/// Every step of pools of a program in which a sum or a negation is at the limit.
pub fn check_limits(tally: &mut Tally, machine: &dyn Machine, rng: &mut Rng, program: &Program) {
    let table = encode(program);
    for _ in 0..2 {
        let Some(mut pool) = limited(rng, program) else {
            return;
        };
        fill_purses(rng, &mut pool);
        check_words(tally, machine, rng, program, &table, &pool.to_words());
    }
}

/// Every step of words, if they are a pool; a beat of each thread is refused as
/// its step is; and the thread that is named does not overflow.
fn check_words(
    tally: &mut Tally,
    machine: &dyn Machine,
    rng: &mut Rng,
    program: &Program,
    table: &[u8],
    words: &[i32],
) {
    let Ok(pool) = Pool::from_words(program, words) else {
        return;
    };
    let named = machine.can_step(table, words).ok().flatten();
    for thread in 0..MAX_THREADS as u64 + 1 {
        let worked = Worked::of(program, &pool, (STEP, thread));
        let mut left = words.to_vec();
        let answer = machine.choose(table, &mut left, STEP, thread);
        check_choice(tally, worked.as_ref(), answer, words, &left);
        if !worked.is_some_and(|worked| worked.overflows()) {
            continue;
        }
        let mut left = words.to_vec();
        let beaten = machine.beat(table, &mut left, quick_pace(rng), thread);
        let over = beaten == Err(Refusal::plain(29));
        tally.expect(over && left == words, || {
            format!("{answer:?} of a step, {beaten:?} of a beat")
        });
        tally.event(BEATEN);
        tally.expect(named != Some(thread as usize), || {
            format!("{thread} overflows, and is named")
        });
        tally.event(NOT_NAMED);
    }
}
