//! Runs of beats from fresh pools, by one pace: promotions times N are at most C
//! times steps, all tokens and work are accounted for, and a run is its beats.

use crate::purses::{after_beat, purses, Account, Dealt};
use oracle::beats::{self, Pace};
use oracle::encode::encode;
use oracle::gen::beats::{guided_run, pace, quick_pace};
use oracle::gen::pools::crowded;
use oracle::machine::{Machine, Oracle};
use oracle::pool::{Pool, MAX_THREADS, MAX_TOKENS};
use oracle::rng::Rng;
use oracle::table::{Block, Function, Program, Transfer};
use oracle::tally::Tally;
use oracle::{Refusal, Rule, POOL_WORDS};

/// What must occur, by name.
pub const EVENTS: [&str; 9] = [MANY, TIGHT, HELD, LOST, RICH, FULL, REFUSED, BACK, OVER];

const MANY: &str = "run from a fresh pool with 20 promotions";
const TIGHT: &str = "run from a fresh pool with every token paid";
const HELD: &str = "run from a fresh pool with tokens held by several threads";
const LOST: &str = "run from a fresh pool with the work of joined children lost";
const REFUSED: &str = "run from a fresh pool that a refused beat ends, after promotions";
const RICH: &str = "run from a fresh pool with tokens dropped";
const FULL: &str = "run from a fresh pool with eight threads and tokens held";
const OVER: &str = "run from a fresh pool that 29 ends, after steps";
const BACK: &str = "run from a fresh pool with tokens handed back";

/// A run from a fresh pool, on a machine.
struct Run<'a> {
    machine: &'a dyn Machine,
    program: &'a Program,
    table: Vec<u8>,
    pace: Pace,
    words: Vec<i32>,
    /// The second implementation's pool, which the words must hold.
    pool: Pool,
    /// What the beats so far came to, by the words before each.
    account: Account,
}

/// Starts a run of a program, and goes on with it by some lists of threads.
pub fn check_tokens(tally: &mut Tally, machine: &dyn Machine, rng: &mut Rng, program: &Program) {
    let mut run = Run {
        machine,
        program,
        table: encode(program),
        pace: quick_pace(rng),
        words: (0..POOL_WORDS).map(|_| rng.bits() as i32).collect(),
        pool: Pool::start(),
        account: Account::default(),
    };
    let started = machine.start(&run.table, &mut run.words);
    tally.expect(started.is_ok(), || format!("no start: {started:?}"));
    for _ in 0..rng.between(1, 2) {
        let length = rng.one_of([0, 1, 30, 120]);
        let refused = rng.chance(40);
        let pace = run.pace;
        let mut threads = guided_run(rng, program, &run.pool, pace, length, refused);
        for thread in &mut threads {
            *thread = machine.widest().min(*thread);
        }
        run.go_on(tally, &threads);
    }
}

impl Run<'_> {
    /// A list of threads, as one run, and beat by beat on a copy.
    fn go_on(&mut self, tally: &mut Tally, threads: &[u64]) {
        let before = self.account;
        let mut copy = self.words.clone();
        let mut due = Ok(());
        for &thread in threads {
            due = self.beat(tally, &mut copy, thread);
            if due.is_err() {
                break;
            }
        }
        let mut made = [u64::MAX; 2];
        let (table, pace) = (&self.table, self.pace);
        let answer = self
            .machine
            .run(table, &mut self.words, pace, threads, &mut made);
        let counts = [
            self.account.steps - before.steps,
            self.account.promotions - before.promotions,
        ];
        let same = answer == due && made.map(|count| count as i64) == counts;
        tally.expect(same && self.words == copy, || {
            format!("{made:?} made, {answer:?} given; {counts:?}, {due:?} by its beats")
        });
        let (account, refusal) = beats::run(self.program, &mut self.pool, pace, threads);
        let right = ([account.steps, account.promotions], refusal);
        let given = (made, answer.map_err(|refusal| refusal.number).err());
        tally.expect(given == right, || format!("{given:?}, {right:?} is right"));
        self.holds(tally);
        if answer.is_err() && made[1] > 0 {
            tally.event(REFUSED);
        }
        if answer == Err(Refusal::plain(29)) && made[0] > 0 {
            tally.event(OVER);
        }
    }

    /// A beat, entered into the account.
    fn beat(&mut self, tally: &mut Tally, words: &mut [i32], thread: u64) -> Result<(), Refusal> {
        let before = words.to_vec();
        let answer = self.machine.beat(&self.table, words, self.pace, thread);
        let (rule, promotions) = answer?;
        let dealt = dealt(&before, thread, self.pace, rule, promotions);
        tally.expect(dealt.is_some(), || {
            format!("{promotions} promotions without a token for each")
        });
        if let Some(dealt) = &dealt {
            self.account.enter(promotions as i64, dealt);
        }
        let child = purses(&before).get(thread as usize + 1).copied();
        if rule == Rule::Prom.number() && child.is_some_and(|child| child.tokens > 0) {
            tally.event(BACK);
        }
        Ok(())
    }

    /// The words are those of the second implementation's pool; the bound and
    /// the equation hold.
    fn holds(&self, tally: &mut Tally) {
        let Account {
            promotions,
            dropped,
            lost,
            ..
        } = self.account;
        tally.expect(self.words == self.pool.to_words(), || {
            format!("a run leaves {:?}, {:?} is right", self.words, self.pool)
        });
        let pace = narrow(self.pace);
        tally.expect(self.account.bounded(pace), || {
            format!("{pace:?}: too many promotions, {:?}", self.account)
        });
        tally.expect(self.account.balances(pace, &self.words), || {
            format!(
                "{pace:?}: tokens or work too few or many, {:?}",
                self.account
            )
        });
        let held = purses(&self.words);
        let holders = held.iter().filter(|purse| purse.tokens > 0).count();
        let holds = [
            promotions >= 20,
            promotions > 0 && holders == 0,
            holders > 1,
            lost > 0,
            dropped > 0,
            held.len() == MAX_THREADS && holders > 0,
        ];
        for (event, held) in EVENTS.into_iter().zip(holds) {
            if held {
                tally.event(event);
            }
        }
    }
}

/// Beats of a lent thread with many calls to promote, at a statement or a
/// transfer of any kind, and with as many tokens as some promotions cost.
pub fn check_crowded(tally: &mut Tally, machine: &dyn Machine, rng: &mut Rng, program: &Program) {
    let table = encode(program);
    for _ in 0..4 {
        let Some(mut pool) = crowded(rng, program) else {
            continue;
        };
        pool.root.purse.tokens = rng.between(1, 200) as u32;
        let pace = pace(rng);
        let mut words = pool.to_words();
        let mut right = words.clone();
        let answer = machine.beat(&table, &mut words, pace, 0);
        let due = Oracle.beat(&table, &mut right, pace, 0);
        tally.expect(answer == due && words == right, || {
            format!("{pace:?}: {answer:?} given, {due:?} is right")
        });
    }
}

fn dealt(words: &[i32], thread: u64, pace: Pace, rule: u8, promotions: u64) -> Option<Dealt> {
    let rule = u32::from(rule);
    after_beat(
        words,
        thread as usize,
        narrow(pace),
        rule,
        promotions as u32,
    )
}

/// A pace within range.
fn narrow(pace: Pace) -> mezdaulk::Pace {
    mezdaulk::Pace {
        n: pace.n as u32,
        c: pace.c as u32,
    }
}

/// A thread that goes round and earns at every step comes to have as many tokens
/// as a purse holds; what it earns behind that is dropped.
pub fn check_rich(tally: &mut Tally, machine: &dyn Machine) {
    let round = Block {
        parameters: vec![],
        scope: [].into(),
        nesting: vec![],
        statements: vec![],
        transfer: Transfer::Goto {
            block: 0,
            arguments: vec![],
        },
    };
    let program = Program {
        functions: vec![Function {
            parameters: 0,
            returns: 0,
            spawns: vec![],
            blocks: vec![round],
        }],
    };
    let mut run = Run {
        machine,
        program: &program,
        table: encode(&program),
        pace: Pace { n: 1, c: 255 },
        words: vec![-1; POOL_WORDS],
        pool: Pool::start(),
        account: Account::default(),
    };
    let started = machine.start(&run.table, &mut run.words);
    tally.expect(started.is_ok(), || format!("no start: {started:?}"));
    let most = u64::from(MAX_TOKENS);
    let steps = most / run.pace.c;
    let (mut made, threads) = ([u64::MAX; 2], vec![0; steps as usize]);
    let answer = machine.run(&run.table, &mut run.words, run.pace, &threads, &mut made);
    tally.expect(answer.is_ok() && made == [steps, 0], || {
        format!("{made:?} made, {answer:?} given")
    });
    run.account.steps = steps as i64;
    run.pool.root.purse.tokens = (steps * run.pace.c) as u32;
    run.holds(tally);
    run.go_on(tally, &[0]);
    run.go_on(tally, &[0, 0]);
    let (dropped, due) = (run.account.dropped, (steps + 3) * run.pace.c - most);
    tally.expect(dropped == due as i64, || {
        format!("{dropped} are dropped, {due} is right")
    });
}
