//! A child's arguments are those of its spork, as `crates/sporks/specs` states
//! it, of a machine's own answers and words. Which spork opened a call comes
//! from the answers alone, and its values from the words that it was put with.
//! The second implementation, whose open calls keep their sporks, must agree.

use oracle::gen::schedules::Choice;
use oracle::openers::{open_calls, Openers};
use oracle::pool::{
    frame_start, thread_start, Opened, Pool, BLOCK, BOUND, CALLS, DONE, FRAME_WORDS, FUNCTION,
    MAX_CALLS, MAX_FRAMES, OPEN, PROMOTED, THREAD_HEAD, THREAD_WORDS, VALUES,
};
use oracle::table::{Function, Program, Transfer, MAX_PARAMETERS};
use oracle::tally::Tally;
use oracle::{Refusal, Rule};
use std::collections::BTreeMap;

/// What must occur, by name.
pub fn events() -> Vec<String> {
    let mut events: Vec<String> = EVENTS.map(String::from).into();
    events.extend((0..=usize::from(MAX_PARAMETERS)).map(child_event));
    events
}

const EVENTS: [&str; 14] = [
    AGAIN, TWICE, FOUR, BENEATH, ABOVE, LATE, RETURNED, ORDER, CHILDS, JOINED, SINGLE, SCHEDULED,
    BEATEN, RUN,
];

const AGAIN: &str = "promotion of a call opened before in its frame, with other arguments";
const TWICE: &str = "promotion of a call that is open twice in its frame";
const FOUR: &str = "promotion with four calls open in the frame";
const BENEATH: &str = "promotion in a frame beneath one with open calls";
const ABOVE: &str = "promotion in a frame above one with open calls";
const LATE: &str = "promotion 100 choices after the spork";
const RETURNED: &str = "promotion after a call from the frame has returned since the spork";
const ORDER: &str = "promotion while another thread has an older call to promote";
const CHILDS: &str = "promotion of a child's call";
const JOINED: &str = "promotion in a frame that has joined a child";
const SINGLE: &str = "promotion by a single choice";
const SCHEDULED: &str = "promotion within a schedule";
const BEATEN: &str = "promotion by a beat";
const RUN: &str = "promotion by a beat within a run of them";

fn child_event(arguments: usize) -> String {
    format!("child of {arguments} arguments")
}

/// How many choices after its spork a promotion comes late.
const MUCH_LATER: u64 = 100;

/// A choice that was put, what it got, and the words before and after it.
pub struct Put<'a> {
    pub choice: Choice,
    pub answer: Result<u8, Refusal>,
    pub before: &'a [i32],
    pub after: &'a [i32],
    pub part: Part,
}

/// What a choice is part of.
#[derive(Clone, Copy, Debug, PartialEq)]
pub enum Part {
    Single,
    Schedule,
    Beat,
    Run,
}

/// A run from a fresh pool, followed choice by choice.
pub struct Sporks {
    /// The program that the table's bytes hold.
    program: Program,
    openers: Openers,
    /// The sporks made, by the numbers of their choices.
    made: BTreeMap<u64, Spork>,
    past: Past,
}

/// A spork: the thread, and the words that the step was put with.
struct Spork {
    thread: usize,
    words: Vec<i32>,
}

/// An open call as it stands in a frame, with the values of its arguments.
#[derive(Debug, PartialEq)]
struct Standing {
    function: usize,
    call: usize,
    arguments: Vec<i32>,
}

impl Sporks {
    pub fn new(table: &[u8]) -> Self {
        Sporks {
            program: oracle::read(table).expect("an accepted table"),
            openers: Openers::default(),
            made: BTreeMap::new(),
            past: Past::default(),
        }
    }

    /// The number of the next choice.
    pub fn next(&self) -> u64 {
        self.openers.next
    }

    /// A choice was put; the second implementation has left its pool.
    pub fn follow(&mut self, tally: &mut Tally, put: &Put, pool: &Pool) {
        let thread = put.choice.1 as usize;
        let is = |rule: Rule| put.answer == Ok(rule.number());
        if is(Rule::Spork) {
            let words = put.before.to_vec();
            self.made.insert(self.next(), Spork { thread, words });
        }
        if is(Rule::Promote) {
            let handed = self.handed(tally, put, pool);
            tally.expect(handed.is_some(), || format!("no spork: {:?}", self.openers));
        }
        let sporked = self.sporked(self.next());
        self.past.follow(put, self.openers.next, sporked);
        self.openers.follow(put.choice.1, put.answer);
        self.kept(tally, put.after, pool);
    }

    /// The call of a spork as it stood in the newest frame of its thread, which
    /// was at the spork.
    fn sporked(&self, number: u64) -> Option<Standing> {
        let Spork { thread, words } = self.made.get(&number)?;
        let frame = frames(words, *thread).pop()?;
        let block = self.function(frame)?.blocks.get(frame[BLOCK] as usize)?;
        match block.transfer {
            Transfer::Spork { spawn, .. } if frame[DONE] as usize == block.statements.len() => {
                self.standing(frame, spawn.into())
            }
            _ => None,
        }
    }

    /// An open call of a frame, if its arguments are bound.
    fn standing(&self, frame: &[i32], call: usize) -> Option<Standing> {
        let spawn = self.function(frame)?.spawns.get(call)?;
        let value = |&t: &u8| (frame[BOUND] >> t & 1 == 1).then(|| frame[VALUES + usize::from(t)]);
        Some(Standing {
            function: frame[FUNCTION] as usize,
            call,
            arguments: spawn.arguments.iter().map(value).collect::<Option<_>>()?,
        })
    }

    /// The function of a frame.
    fn function(&self, frame: &[i32]) -> Option<&Function> {
        self.program.functions.get(frame[FUNCTION] as usize)
    }

    /// The open calls of a thread, oldest first, as they stand.
    fn standings(&self, words: &[i32], thread: usize) -> Vec<Option<Standing>> {
        frames(words, thread)
            .into_iter()
            .flat_map(|frame| calls(frame).iter().map(move |&call| (frame, call as usize)))
            .map(|(frame, call)| self.standing(frame, call))
            .collect()
    }

    /// A promotion hands the child what the call's arguments had at its spork.
    /// The call is the entry of its thread's list behind those promoted.
    fn handed(&self, tally: &mut Tally, put: &Put, pool: &Pool) -> Option<()> {
        let parent = put.choice.1 as usize;
        let promoted = sum(put.before, parent, PROMOTED);
        let number = *self.openers.lists.get(parent)?.get(promoted)?;
        let spork = self.sporked(number)?;
        let call = self
            .standings(put.before, parent)
            .into_iter()
            .nth(promoted)?;
        tally.expect(call.as_ref() == Some(&spork), || {
            format!("{call:?} is promoted, {spork:?} was sporked")
        });
        let own = self.program.functions.get(spork.function)?;
        let spawned = own.spawns.get(spork.call)?.function;
        let takes = usize::from(self.program.function(spawned)?.parameters);
        let child = thread_words(put.after, parent + 1);
        let due = begun(spawned.into(), &spork.arguments);
        tally.expect(takes == spork.arguments.len() && child == due, || {
            let shown = child.get(..THREAD_HEAD + FRAME_WORDS);
            format!("the child is {shown:?}, its spork was {spork:?}")
        });
        let one_more = put.after[0] == put.before[0] + 1
            && sum(put.after, parent, PROMOTED) == promoted + 1
            && sum(put.after, parent, OPEN) == sum(put.before, parent, OPEN);
        tally.expect(one_more, || "a promotion of another call".to_string());
        let kept = pool.threads().get(parent + 1)?.opened.clone();
        let opened = Opened {
            choice: number,
            arguments: Some(spork.arguments.clone()),
        };
        tally.expect(kept.as_ref() == Some(&opened), || {
            format!("{opened:?} by the lists, {kept:?} by the tree")
        });
        self.note(tally, put, number, &spork);
        Some(())
    }

    /// The lists are of the words' threads and open calls, ascend, and have no
    /// number twice; every open call stands as at its spork; and the tree of
    /// the second implementation says the same.
    fn kept(&self, tally: &mut Tally, words: &[i32], pool: &Pool) {
        let lists = &self.openers.lists;
        let mut all: Vec<u64> = lists.concat();
        let ascend = lists.iter().all(|list| list.is_sorted());
        all.sort();
        let once = all.windows(2).all(|pair| pair[0] < pair[1]);
        let within = all.last().is_none_or(|&last| last < self.next());
        tally.expect(ascend && once && within, || format!("openers: {lists:?}"));
        tally.expect(words[0] as usize == lists.len(), || {
            format!("{} threads, and {lists:?}", words[0])
        });
        for (thread, list) in lists.iter().enumerate() {
            let now = self.standings(words, thread);
            tally.expect(now.len() == list.len(), || {
                format!("thread {thread} has {now:?} open, and {list:?}")
            });
            for (&number, now) in list.iter().zip(&now) {
                let then = self.sporked(number);
                tally.expect(now.is_some() && *now == then, || {
                    format!("{now:?} is open, {then:?} was sporked by {number}")
                });
            }
        }
        tally.expect(self.openers.agree(pool) && self.same_values(pool), || {
            format!("{lists:?}, and {pool:?}")
        });
    }

    /// Whether the tree's open calls keep the values of their sporks.
    fn same_values(&self, pool: &Pool) -> bool {
        pool.threads().into_iter().flat_map(open_calls).all(|call| {
            let Some(opened) = &call.opened else {
                return false;
            };
            let spork = self.sporked(opened.choice);
            opened.arguments.is_some() && opened.arguments == spork.map(|spork| spork.arguments)
        })
    }

    /// Counts what a promotion is like.
    fn note(&self, tally: &mut Tally, put: &Put, number: u64, spork: &Standing) {
        let parent = put.choice.1 as usize;
        let stack = frames(put.before, parent);
        let holds = |frame: &&[i32]| frame[PROMOTED] < frame[OPEN];
        let Some(own) = stack.iter().position(holds) else {
            return;
        };
        let frame = stack[own];
        let some_open = |frames: &[&[i32]]| frames.iter().any(|frame| frame[OPEN] > 0);
        let past = self.past.frame(parent, own);
        let before = past
            .sporks
            .iter()
            .any(|earlier| earlier.call == spork.call && earlier.arguments != spork.arguments);
        let same = calls(frame).iter().filter(|&&c| c as usize == spork.call);
        let older = |(thread, list): (usize, &Vec<u64>)| {
            let left = &list[sum(put.before, thread, PROMOTED).min(list.len())..];
            thread != parent && left.first().is_some_and(|&first| first < number)
        };
        let holds = [
            before,
            same.count() > 1,
            frame[OPEN] as usize == MAX_CALLS,
            some_open(&stack[own + 1..]),
            some_open(&stack[..own]),
            self.next() - number >= MUCH_LATER,
            past.returned.is_some_and(|returned| returned > number),
            self.openers.lists.iter().enumerate().any(older),
            parent > 0,
            past.joined,
            put.part == Part::Single,
            put.part == Part::Schedule,
            put.part == Part::Beat,
            put.part == Part::Run,
        ];
        for (event, held) in EVENTS.into_iter().zip(holds) {
            if held {
                tally.event(event);
            }
        }
        tally.event(&child_event(spork.arguments.len()));
    }
}

/// The frames of a thread, oldest first.
fn frames(words: &[i32], thread: usize) -> Vec<&[i32]> {
    let count = words.get(thread_start(thread)).copied().unwrap_or(0);
    (0..count.clamp(0, MAX_FRAMES as i32) as usize)
        .map(|frame| &words[frame_start(thread, frame)..][..FRAME_WORDS])
        .collect()
}

/// The numbers of a frame's open calls, oldest first.
fn calls(frame: &[i32]) -> &[i32] {
    &frame[CALLS..][..frame[OPEN].clamp(0, MAX_CALLS as i32) as usize]
}

/// The sum of a count over the frames of a thread.
fn sum(words: &[i32], thread: usize, count: usize) -> usize {
    let counts = frames(words, thread).into_iter().map(|frame| frame[count]);
    counts.sum::<i32>() as usize
}

/// All words of a thread.
fn thread_words(words: &[i32], thread: usize) -> &[i32] {
    words
        .get(thread_start(thread)..)
        .map_or(&[], |from| &from[..THREAD_WORDS])
}

/// The words of a thread at a function's entry: one frame with its parameters
/// bound, and nothing else.
fn begun(function: usize, arguments: &[i32]) -> Vec<i32> {
    let mut words = vec![0; THREAD_WORDS];
    words[0] = 1;
    let frame = &mut words[THREAD_HEAD..];
    frame[FUNCTION] = function as i32;
    frame[BOUND] = (1 << arguments.len()) - 1;
    frame[VALUES..][..arguments.len()].copy_from_slice(arguments);
    words
}

/// What the frames of a run have done, for the events alone.
struct Past {
    /// Of each thread its frames, oldest first, as places in `frames`.
    stacks: Vec<Vec<usize>>,
    /// Every frame that was begun.
    frames: Vec<Deeds>,
}

/// What a frame has done.
#[derive(Default)]
struct Deeds {
    sporks: Vec<Standing>,
    /// The last choice by which a call of it has returned.
    returned: Option<u64>,
    /// Whether it has joined a child.
    joined: bool,
}

impl Default for Past {
    /// A fresh pool's: one thread with one frame.
    fn default() -> Self {
        Past {
            stacks: vec![vec![0]],
            frames: vec![Deeds::default()],
        }
    }
}

impl Past {
    fn frame(&self, thread: usize, frame: usize) -> &Deeds {
        &self.frames[self.stacks[thread][frame]]
    }

    /// A choice was put, and where it was a spork, of this call.
    fn follow(&mut self, put: &Put, number: u64, sporked: Option<Standing>) {
        let thread = put.choice.1 as usize;
        let rule = |rule: &Rule| put.answer == Ok(rule.number());
        let Some(rule) = Rule::ALL.into_iter().find(rule) else {
            return;
        };
        let begun = self.frames.len();
        let stack = &mut self.stacks[thread];
        match rule {
            Rule::Call => stack.push(begun),
            Rule::Return => _ = stack.pop(),
            Rule::Prom => _ = self.stacks.remove(thread + 1),
            Rule::Promote => self.stacks.insert(thread + 1, vec![begun]),
            _ => {}
        }
        if matches!(rule, Rule::Call | Rule::Promote) {
            self.frames.push(Deeds::default());
        }
        let newest = self.stacks[thread].last().expect("a thread has a frame");
        let own = &mut self.frames[*newest];
        match rule {
            Rule::Return => own.returned = Some(number),
            Rule::Prom => own.joined = true,
            _ => own.sporks.extend(sporked),
        }
    }
}
