//! Demand 3 of a machine's own functions, as `crates/host/specs/Sessions.antt`
//! states it, what the depth of a table says beside it, and that a child's
//! arguments are those of its spork, on random runs of accepted tables. The
//! second implementation chooses and makes the same run, and every answer is
//! compared with its own. A beat counts as its step and then its promotions.

use crate::listings::Listed;
use crate::overflow::{check_choice, Worked};
use crate::purses::{masked, purses};
use crate::sporks::{Part, Put, Sporks};
use oracle::beats::{beat_as, Pace};
use oracle::encode::encode;
use oracle::first::first;
use oracle::gen::beats::{guided_run, guided_thread, no_pace, quick_pace};
use oracle::gen::schedules::{guided_choice, guided_schedule, Choice, Order, Policy};
use oracle::machine::{pace_within, Machine};
use oracle::pool::{thread_start, Pool, MAX_FRAMES, MAX_THREADS};
use oracle::rng::Rng;
use oracle::rules::{self, ended, Rule, PROMOTE, STEP};
use oracle::table::Program;
use oracle::tally::Tally;
use oracle::watch::{self, join, join_event};
use oracle::{Refusal, POOL_WORDS};

/// What must occur, by name.
pub const EVENTS: [&str; 21] = [
    RETURNED,
    LONG,
    FULL,
    REFUSED,
    WAITS,
    WAITS_FULL,
    ROOMY,
    AT_DEPTH,
    DEEP,
    CYCLIC,
    BEAT,
    BEAT_REFUSED,
    BEAT_FULL,
    NO_PACE,
    JOINED,
    SEVERAL,
    OVER,
    OVER_ROOMY,
    WAITS_OVER,
    BEAT_OVER,
    SCHEDULE_OVER,
];

const RETURNED: &str = "run that returned";
const LONG: &str = "run of 1000 choices that goes on";
const FULL: &str = "run with nothing left but full stacks, or overflows too";
const REFUSED: &str = "run that goes on after a refusal";
const WAITS: &str = "run with a thread that waits, and one that can step";
const WAITS_FULL: &str = "run with a thread that waits, and none but full stacks";

const ROOMY: &str = "run at a depth of at most 8";
const AT_DEPTH: &str = "run with as many frames as the depth, 2 to 8";
const DEEP: &str = "run that gets 18 at a depth above 8";
const CYCLIC: &str = "run that gets 18 where the depth is 22";

const BEAT: &str = "run with a beat";
const BEAT_REFUSED: &str = "run with a refused beat";
const BEAT_FULL: &str = "run with a beat that gets 18";
const NO_PACE: &str = "run with a beat that gets 27";
const JOINED: &str = "run with a beat that joins";
const SEVERAL: &str = "run with a beat of several promotions";

const OVER: &str = "run with nothing left but an overflow";
const OVER_ROOMY: &str = "run with nothing left but an overflow, at a depth of at most 8";
const WAITS_OVER: &str = "run with a thread that waits, and none but an overflow";
const BEAT_OVER: &str = "run with a beat that gets 29";
const SCHEDULE_OVER: &str = "run with a schedule that 29 ends, after others";

/// A run of an accepted table on a machine.
struct Run<'a> {
    machine: &'a dyn Machine,
    program: &'a Program,
    table: Vec<u8>,
    words: Vec<i32>,
    /// The second implementation's pool, which the words must hold.
    pool: Pool,
    /// The table's depth, where it has one.
    depth: Option<u8>,
    /// Which sporks opened the open calls.
    sporks: Sporks,
}

/// Starts a run and puts some lists of choices to it, refused ones among
/// them. The empty list is one.
pub fn check_run(tally: &mut Tally, machine: &dyn Machine, rng: &mut Rng, program: &Program) {
    let table = encode(program);
    let mut run = Run {
        machine,
        program,
        sporks: Sporks::new(&table),
        table,
        words: (0..POOL_WORDS).map(|_| rng.bits() as i32).collect(),
        pool: Pool::start(),
        depth: None,
    };
    tally.expect(oracle::check(&run.table).is_ok(), || {
        format!("a faulty table: {:02x?}", run.table)
    });
    let checked = machine.check(&run.table);
    tally.expect(checked.is_ok(), || format!("not accepted: {checked:?}"));
    let depth = machine.depth(&run.table);
    let due = oracle::depth(&run.table);
    tally.expect(depth == due, || {
        format!("the depth is {due:?}, {depth:?} given")
    });
    run.depth = depth.ok();
    if run.roomy() {
        tally.event(ROOMY);
    }
    let started = machine.start(&run.table, &mut run.words);
    tally.expect(started.is_ok(), || format!("no start: {started:?}"));
    run.stands(tally);
    for _ in 0..rng.between(1, 3) {
        let length = match rng.below(60) {
            0 => 2_000,
            _ => rng.one_of([1, 10, 60, 300]),
        };
        match rng.below(20) {
            0..=3 => run.schedule(tally, rng, length),
            4..=6 => run.run(tally, rng, length.min(100)),
            _ => run.one_by_one(tally, rng, length),
        }
        run.stands(tally);
        run.listed(tally, rng);
    }
}

/// How a run chooses: promotions often, refused choices too.
fn policy(rng: &mut Rng) -> Policy {
    Policy {
        blind: rng.one_of([2, 10, 30]),
        promote: rng.one_of([2, 10, 30, 60, 90]),
        order: rng.one_of([Order::First, Order::Last, Order::Any]),
    }
}

impl Run<'_> {
    /// Whether no thread ever runs out of frames, by the depth.
    fn roomy(&self) -> bool {
        self.depth
            .is_some_and(|depth| usize::from(depth) <= MAX_FRAMES)
    }

    /// No thread has more frames than the depth, by the words: the number of
    /// its frames is the first of a thread.
    fn few_frames(&self, tally: &mut Tally) {
        let Some(depth) = self.depth.map(i32::from) else {
            return;
        };
        let frames = |thread: usize| self.words[thread_start(thread)];
        let most = (0..MAX_THREADS).map(frames).max().unwrap_or(0);
        tally.expect(most <= depth, || {
            format!("a thread has {most} frames at the depth {depth}")
        });
        if most == depth && depth > 1 {
            tally.event(AT_DEPTH);
        }
    }

    /// Whether the words hold the second implementation's pool.
    fn agrees(&self, tally: &mut Tally) -> bool {
        self.few_frames(tally);
        let held = Pool::from_words(self.program, &self.words);
        let same = held.as_ref() == Ok(&self.pool);
        tally.expect(same, || {
            format!("a run leaves {held:?}, {:?} is right", self.pool)
        });
        same
    }

    /// Choices one after another.
    fn one_by_one(&mut self, tally: &mut Tally, rng: &mut Rng, length: usize) {
        let policy = policy(rng);
        let beating = rng.one_of([0, 0, 5, 15]);
        let mut refused = false;
        let mut left = length;
        while left > 0 {
            if !self.agrees(tally) {
                return;
            }
            if ended(self.program, &self.pool.root).is_some() {
                left = left.min(3);
            }
            left -= 1;
            if rng.chance(beating) {
                self.single_beat(tally, rng);
                continue;
            }
            let choice = guided_choice(rng, self.program, &self.pool, policy);
            let choice = self.within(choice);
            let mut words = self.words.clone();
            let answer = self.put(tally, choice, &mut words, Part::Single);
            self.words = words;
            self.check_answer(tally, choice, answer);
            if answer.is_ok() && refused {
                tally.event(REFUSED);
            }
            refused = answer.is_err();
            if rng.chance(4) {
                self.stands(tally);
            }
            if rng.chance(1) {
                self.listed(tally, rng);
            }
            if left == 0 && length >= 1_000 && answer.is_ok() {
                tally.event(LONG);
            }
        }
    }

    /// Choices as one schedule, up to and with the first refused; and one by
    /// one on a copy, which must end in the same words.
    fn schedule(&mut self, tally: &mut Tally, rng: &mut Rng, length: usize) {
        let refused = rng.chance(50);
        let choices: Vec<Choice> = guided_schedule(rng, self.program, &self.pool, length, refused)
            .into_iter()
            .map(|choice| self.within(choice))
            .collect();
        let mut words = self.words.clone();
        let mut made = u64::MAX;
        let answer = self
            .machine
            .schedule(&self.table, &mut self.words, &choices, &mut made);
        let mut due_made = 0;
        let mut due = Ok(());
        for &choice in &choices {
            let part = Part::Schedule;
            due = self.put(tally, choice, &mut words, part).map(|_| ());
            if due.is_err() {
                break;
            }
            due_made += 1;
        }
        tally.expect(words == self.words, || {
            format!("a schedule leaves other words than {choices:?}")
        });
        tally.expect((made, answer) == (due_made, due), || {
            format!("{made} made, {answer:?} given; {due_made}, {due:?} is right")
        });
        match (answer, choices.get(made as usize)) {
            (Ok(()), None) => {}
            (Err(refusal), Some(&choice)) => self.check_answer(tally, choice, Err(refusal)),
            _ => tally.expect(false, || format!("{made} made, {answer:?} given")),
        }
        if made > 0 && answer == Err(Refusal::plain(29)) {
            tally.event(SCHEDULE_OVER);
        }
    }

    /// A beat of any thread, some by a pace out of range.
    fn single_beat(&mut self, tally: &mut Tally, rng: &mut Rng) {
        let pace = if rng.chance(4) {
            pace_within(self.machine, no_pace(rng))
        } else {
            quick_pace(rng)
        };
        let (_, thread) = self.within((STEP, guided_thread(rng, self.program, &self.pool, 10)));
        let mut words = self.words.clone();
        let answer = self.beat(tally, pace, thread, &mut words, Part::Beat);
        self.words = words;
        self.check_beat(tally, pace, thread, answer);
    }

    /// Beats as one run, up to and with the first refused; and one by one on a
    /// copy, which must end in the same words.
    fn run(&mut self, tally: &mut Tally, rng: &mut Rng, length: usize) {
        let (pace, refused) = (quick_pace(rng), rng.chance(50));
        let threads: Vec<u64> = guided_run(rng, self.program, &self.pool, pace, length, refused)
            .into_iter()
            .map(|thread| self.within((STEP, thread)).1)
            .collect();
        let mut words = self.words.clone();
        let mut made = [u64::MAX; 2];
        let answer = self
            .machine
            .run(&self.table, &mut self.words, pace, &threads, &mut made);
        let mut due_made = [0, 0];
        let mut due = Ok(());
        for &thread in &threads {
            match self.beat(tally, pace, thread, &mut words, Part::Run) {
                Ok((_, promotions)) => due_made = [due_made[0] + 1, due_made[1] + promotions],
                Err(refusal) => {
                    due = Err(refusal);
                    break;
                }
            }
        }
        tally.expect(words == self.words, || {
            format!("a run leaves other words than {pace:?}, {threads:?}")
        });
        tally.expect((made, answer) == (due_made, due), || {
            format!("{made:?} made, {answer:?} given; {due_made:?}, {due:?} is right")
        });
        match (answer, threads.get(made[0] as usize)) {
            (Ok(()), None) => {}
            (Err(refusal), Some(&thread)) => {
                self.check_beat(tally, pace, thread, Err(refusal));
            }
            _ => tally.expect(false, || format!("{made:?} made, {answer:?} given")),
        }
    }

    /// Puts a beat of the run to words and to the second implementation's pool.
    /// Its step and its promotions are put one by one to copies too, and
    /// followed; but for work and tokens they leave the same.
    fn beat(
        &mut self,
        tally: &mut Tally,
        pace: Pace,
        thread: u64,
        words: &mut [i32],
        part: Part,
    ) -> Result<(u8, u64), Refusal> {
        let mut chosen = words.to_vec();
        let mut pool = self.pool.clone();
        let number = Some(self.sporks.next());
        let beat = beat_as(self.program, &mut pool, pace, thread, number);
        let due = beat
            .as_ref()
            .map(|beat| (beat.rule.number(), beat.ledger.paid()))
            .map_err(|number| Refusal::plain(*number));
        let answer = self.machine.beat(&self.table, words, pace, thread);
        tally.expect(answer == due, || {
            format!("{pace:?} {thread} gets {answer:?}, {due:?} is right")
        });
        if !pace.fits() {
            return answer;
        }
        let step = self.put(tally, (STEP, thread), &mut chosen, part);
        tally.expect(step == answer.map(|(rule, _)| rule), || {
            format!("{answer:?} of a beat, {step:?} of its step")
        });
        for _ in 0..answer.map_or(0, |(_, promotions)| promotions) {
            let promotion = self.put(tally, (PROMOTE, thread), &mut chosen, part);
            tally.expect(promotion.is_ok(), || {
                format!("{answer:?} of a beat, {promotion:?} of a promotion")
            });
        }
        tally.expect(masked(&chosen) == masked(words), || {
            format!("a beat leaves {words:?}, its choices {chosen:?}")
        });
        if answer.is_ok() {
            self.ends(tally, thread, words);
        }
        self.pool = pool;
        if let Ok(beat) = &beat {
            for event in watch::beat(beat, pace) {
                tally.event(event);
            }
        }
        answer
    }

    /// No token is left behind a beat, or the next promotion is refused: by 20
    /// or 21.
    fn ends(&self, tally: &mut Tally, thread: u64, words: &[i32]) {
        let left = purses(words)[thread as usize].tokens;
        let mut copy = words.to_vec();
        let next = self.machine.choose(&self.table, &mut copy, PROMOTE, thread);
        let over = matches!(next, Err(refusal) if matches!(refusal.number, 20 | 21));
        tally.expect(left == 0 || over, || {
            format!("{left} tokens are left, and {next:?}")
        });
    }

    /// A beat of a run makes a rule of a step, or is refused as a step may be;
    /// 27 comes exactly by a pace out of range.
    fn check_beat(
        &self,
        tally: &mut Tally,
        pace: Pace,
        thread: u64,
        answer: Result<(u8, u64), Refusal>,
    ) {
        let refused = answer.map_err(|refusal| refusal.number).err();
        if !pace.fits() {
            tally.expect(refused == Some(27), || format!("{pace:?} gets {answer:?}"));
            tally.event(NO_PACE);
            return;
        }
        self.check_answer(tally, (STEP, thread), answer.map(|(rule, _)| rule));
        tally.event(match answer {
            Ok((9, _)) => JOINED,
            Ok((_, 2..)) => SEVERAL,
            Ok(_) => BEAT,
            Err(_) if refused == Some(18) => BEAT_FULL,
            Err(_) if refused == Some(29) => BEAT_OVER,
            Err(_) => BEAT_REFUSED,
        });
    }

    /// A choice cut to what the machine takes.
    fn within(&self, (kind, thread): Choice) -> Choice {
        let widest = self.machine.widest();
        (kind.min(widest), thread.min(widest))
    }

    /// Puts a choice of the run to words and to the second implementation's
    /// pool, and follows it.
    fn put(
        &mut self,
        tally: &mut Tally,
        choice: Choice,
        words: &mut [i32],
        part: Part,
    ) -> Result<u8, Refusal> {
        check_join(tally, self.program, &mut self.pool, choice);
        let number = Some(self.sporks.next());
        let worked = Worked::of(self.program, &self.pool, choice);
        let due = choose(self.program, &mut self.pool, choice, number);
        let before = words.to_vec();
        let answer = self.machine.choose(&self.table, words, choice.0, choice.1);
        check_same(tally, choice, answer, due);
        check_choice(tally, worked.as_ref(), answer, &before, words);
        let put = Put {
            choice,
            answer,
            before: &before,
            after: words,
            part,
        };
        self.sporks.follow(tally, &put, &self.pool);
        answer
    }

    /// A choice of a run makes a rule of its kind, or gets one of 14 to 18, 20, 21
    /// and 29: nothing is ever stuck. Where it gets 17, some thread can step or
    /// gets 18 or 29. None gets 18 at a depth of at most 8.
    fn check_answer(&self, tally: &mut Tally, choice: Choice, answer: Result<u8, Refusal>) {
        let fits = match (choice.0, answer.map_err(|refusal| refusal.number)) {
            (STEP, Err(18)) => !self.roomy(),
            (STEP, answer) => matches!(answer, Ok(1..=9) | Err(15..=17 | 29)),
            (PROMOTE, answer) => matches!(answer, Ok(10) | Err(15 | 20 | 21)),
            (_, answer) => answer == Err(14),
        };
        tally.expect(fits, || format!("{choice:?} gets {answer:?}"));
        if answer == Err(Refusal::plain(18)) {
            tally.event(self.depth.map_or(CYCLIC, |_| DEEP));
        }
        if answer == Err(Refusal::plain(17)) {
            let steps = (0..8).any(|thread| matches!(self.step(tally, thread), Ok(1..=9)));
            let full = !steps && self.out_of_frames(tally);
            let over = !steps && !full && self.overflows(tally);
            tally.expect(steps || full || over, || {
                format!("{choice:?} waits for nothing: {:?}", self.words)
            });
            tally.event(match (steps, full) {
                (true, _) => WAITS,
                (_, true) => WAITS_FULL,
                _ => WAITS_OVER,
            });
        }
    }

    /// Main has returned as many values as declared, or a thread can step, or
    /// some thread is at a call with all frames in use, not at a depth of at most
    /// 8, or overflows. The thread that is named is the first that can.
    fn stands(&self, tally: &mut Tally) {
        self.agrees(tally);
        let returned = self.returned(tally);
        let which = self.machine.can_step(&self.table, &self.words);
        let due = first(self.program, &self.pool);
        tally.expect(which == Ok(due), || {
            format!("{which:?} is named, {due:?} is the first that can step")
        });
        match which {
            Ok(Some(thread)) => {
                let answer = self.step(tally, thread as u64);
                tally.expect(matches!(answer, Ok(1..=9)), || {
                    format!("thread {thread} can step, and gets {answer:?}")
                });
            }
            Ok(None) => {
                let full = self.out_of_frames(tally);
                let over = self.overflows(tally);
                let stands = returned || full || over;
                tally.expect(stands, || format!("no progress: {:?}", self.words));
                if !returned {
                    tally.event(if full { FULL } else { OVER });
                }
                if !returned && over && self.roomy() {
                    tally.event(OVER_ROOMY);
                }
            }
            Err(refusal) => tally.expect(false, || format!("can step: {refusal:?}")),
        }
        if !returned {
            for event in watch::reached(&self.pool) {
                tally.event(event);
            }
        }
    }

    /// Both listings of the words.
    fn listed(&self, tally: &mut Tally, rng: &mut Rng) {
        let listed = Listed {
            machine: self.machine,
            table: &self.table,
            words: &self.words,
            pool: &self.pool,
        };
        let returned = ended(self.program, &self.pool.root).is_some();
        listed.check(tally, rng, returned);
    }

    /// Whether main has returned, with the second implementation's values and
    /// as many as byte 7 of the table declares.
    fn returned(&self, tally: &mut Tally) -> bool {
        let mut room = [0; 4];
        let answer = self.machine.values(&self.table, &self.words, &mut room);
        let due = ended(self.program, &self.pool.root);
        let given = answer.map(|count| count.map(|count| room[..count.min(4)].to_vec()));
        tally.expect(given.as_ref() == Ok(&due), || {
            format!("values: {given:?} given, {due:?} is right")
        });
        let Ok(Some(count)) = answer else {
            return false;
        };
        let declared = self.table[7];
        tally.expect(count <= 4 && count == usize::from(declared), || {
            format!("main gives {count} values, {declared} declared")
        });
        tally.event(RETURNED);
        true
    }

    /// Whether a step of some thread gets 18, as it may.
    fn out_of_frames(&self, tally: &mut Tally) -> bool {
        let full = (0..8).any(|thread| self.step(tally, thread) == Err(Refusal::plain(18)));
        full && !self.roomy()
    }

    /// Whether a step of some thread gets 29.
    fn overflows(&self, tally: &mut Tally) -> bool {
        (0..8).any(|thread| self.step(tally, thread) == Err(Refusal::plain(29)))
    }

    /// A step on copies of the words and the pool.
    fn step(&self, tally: &mut Tally, thread: u64) -> Result<u8, Refusal> {
        let answer = self
            .machine
            .choose(&self.table, &mut self.words.clone(), STEP, thread);
        let choice = (STEP, thread);
        let due = choose(self.program, &mut self.pool.clone(), choice, None);
        check_same(tally, choice, answer, due);
        answer
    }
}

/// A choice in the second implementation's pool, which may have a number.
fn choose(
    program: &Program,
    pool: &mut Pool,
    choice: Choice,
    number: Option<u64>,
) -> Result<u8, Refusal> {
    rules::choose_as(program, pool, choice.0, choice.1, number)
        .map(Rule::number)
        .map_err(Refusal::plain)
}

fn check_same(
    tally: &mut Tally,
    choice: Choice,
    answer: Result<u8, Refusal>,
    due: Result<u8, Refusal>,
) {
    tally.expect(answer == due, || {
        format!("{choice:?} gets {answer:?}, {due:?} is right")
    });
}

/// A join brings as many values as the block behind it takes.
fn check_join(tally: &mut Tally, program: &Program, pool: &mut Pool, (kind, thread): Choice) {
    if kind != STEP {
        return;
    }
    let Some(parent) = pool.thread_mut(thread as usize) else {
        return;
    };
    if let Some((brought, taken)) = join(program, parent) {
        tally.expect(taken == Some(brought), || {
            format!("a join brings {brought} values to a block of {taken:?}")
        });
        tally.event(&join_event(brought));
    }
}
