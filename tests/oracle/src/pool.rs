//! The pool as a tree of threads, and its form of 1,689 words.

use crate::refusal::Refusal;
use crate::table::{Function, Program};

/// Words of a pool, of a thread and of a frame.
pub const POOL_WORDS: usize = 1_689;
pub const THREAD_WORDS: usize = 211;
pub const FRAME_WORDS: usize = 26;
/// Words before a pool's threads, their number, and before a thread's frames:
/// their number and the purse.
pub const POOL_HEAD: usize = 1;
pub const THREAD_HEAD: usize = 3;
/// The words of a thread's purse, by their places within the thread.
pub const WORK: usize = 1;
pub const TOKENS: usize = 2;
/// Limits of a pool.
pub const MAX_THREADS: usize = 8;
pub const MAX_FRAMES: usize = 8;
pub const MAX_CALLS: usize = 4;
pub const TEMPORARIES: usize = 16;
/// The most that a purse holds.
pub const MAX_WORK: u32 = 65_534;
pub const MAX_TOKENS: u32 = 2_000_000_000;
/// The words of a frame, by their places within it.
pub const FUNCTION: usize = 0;
pub const BLOCK: usize = 1;
pub const DONE: usize = 2;
pub const BOUND: usize = 3;
pub const OPEN: usize = 4;
pub const PROMOTED: usize = 5;
pub const CALLS: usize = 6;
pub const VALUES: usize = 10;

/// Where a thread begins.
pub const fn thread_start(thread: usize) -> usize {
    POOL_HEAD + THREAD_WORDS * thread
}

/// Where a frame begins, the oldest of a thread first.
pub const fn frame_start(thread: usize, frame: usize) -> usize {
    thread_start(thread) + THREAD_HEAD + FRAME_WORDS * frame
}

/// The values of a frame's temporaries, `None` where unbound.
pub type Temporaries = [Option<i32>; TEMPORARIES];

/// The whole pool: the tree of the thread that runs main.
#[derive(Clone, Debug, PartialEq, Eq)]
pub struct Pool {
    pub root: Thread,
}

/// A thread and its children.
#[derive(Clone, Debug, Eq)]
pub struct Thread {
    pub purse: Purse,
    /// The call stack, oldest first, never empty.
    pub frames: Vec<Frame>,
    /// One child for each promoted call, oldest first.
    pub children: Vec<Thread>,
    /// Of a child: what opened its call, where that is known.
    pub opened: Option<Opened>,
}

/// Threads are the same whatever opened their calls.
impl PartialEq for Thread {
    fn eq(&self, other: &Self) -> bool {
        self.purse == other.purse && self.frames == other.frames && self.children == other.children
    }
}

/// What a thread has: the work done since it last earned, and tokens. No rule
/// looks at it.
#[derive(Clone, Copy, Debug, Default, PartialEq, Eq)]
pub struct Purse {
    pub work: u32,
    pub tokens: u32,
}

#[derive(Clone, Debug, PartialEq, Eq)]
pub struct Frame {
    pub function: usize,
    /// The current block; in an older frame the return block.
    pub block: usize,
    /// Statements done in the current block.
    pub done: usize,
    pub temporaries: Temporaries,
    /// The open spawn calls, oldest first.
    pub calls: Vec<OpenCall>,
    /// How many of the open calls are promoted; they are the oldest.
    pub promoted: usize,
}

/// An open spawn call of a frame.
#[derive(Clone, Debug, Eq)]
pub struct OpenCall {
    /// Its number in the frame's function.
    pub spawn: usize,
    /// What opened it, where that is known.
    pub opened: Option<Opened>,
}

/// A spork that opened a call.
#[derive(Clone, Debug, PartialEq, Eq)]
pub struct Opened {
    /// The number of the choice.
    pub choice: u64,
    /// The values that the call's arguments had, where all were bound.
    pub arguments: Option<Vec<i32>>,
}

impl OpenCall {
    /// An open call of which nothing else is known.
    pub fn plain(spawn: usize) -> Self {
        OpenCall {
            spawn,
            opened: None,
        }
    }
}

/// Open calls are the same whatever opened them.
impl PartialEq for OpenCall {
    fn eq(&self, other: &Self) -> bool {
        self.spawn == other.spawn
    }
}

impl Frame {
    /// A frame at the entry of a function, its parameters bound to `arguments`.
    pub fn entering(function: usize, arguments: &[i32]) -> Self {
        let mut temporaries = [None; TEMPORARIES];
        for (slot, &value) in temporaries.iter_mut().zip(arguments) {
            *slot = Some(value);
        }
        Frame {
            function,
            block: 0,
            done: 0,
            temporaries,
            calls: Vec::new(),
            promoted: 0,
        }
    }

    /// Whether some open call is not promoted.
    pub fn has_unpromoted(&self) -> bool {
        self.promoted < self.calls.len()
    }
}

impl Thread {
    /// A thread without children at the entry of a function, its purse empty.
    pub fn entering(function: usize, arguments: &[i32]) -> Self {
        Thread {
            purse: Purse::default(),
            frames: vec![Frame::entering(function, arguments)],
            children: Vec::new(),
            opened: None,
        }
    }

    /// The newest frame.
    pub fn current(&self) -> &Frame {
        self.frames.last().expect("a thread has a frame")
    }

    /// The newest frame, to be changed.
    pub fn current_mut(&mut self) -> &mut Frame {
        self.frames.last_mut().expect("a thread has a frame")
    }

    /// How many threads the tree has.
    fn size(&self) -> usize {
        1 + self.children.iter().map(Thread::size).sum::<usize>()
    }

    /// Lists the tree: the thread, then its children's trees, newest first.
    fn list<'a>(&'a self, listed: &mut Vec<&'a Thread>) {
        listed.push(self);
        for child in self.children.iter().rev() {
            child.list(listed);
        }
    }

    /// The thread `ahead` places further in the listing.
    fn find(&mut self, ahead: &mut usize) -> Option<&mut Thread> {
        if *ahead == 0 {
            return Some(self);
        }
        *ahead -= 1;
        self.children
            .iter_mut()
            .rev()
            .find_map(|child| child.find(ahead))
    }
}

impl Pool {
    /// The pool of a program's start: one thread at main's entry.
    pub fn start() -> Self {
        Pool {
            root: Thread::entering(0, &[]),
        }
    }

    /// How many threads there are.
    pub fn size(&self) -> usize {
        self.root.size()
    }

    /// All threads in the pool's order.
    pub fn threads(&self) -> Vec<&Thread> {
        let mut listed = Vec::new();
        self.root.list(&mut listed);
        listed
    }

    /// A thread by its number, to be changed.
    pub fn thread_mut(&mut self, number: usize) -> Option<&mut Thread> {
        let mut ahead = number;
        self.root.find(&mut ahead)
    }

    /// The pool that 1,689 words hold for a program; refusals 12 and 13.
    pub fn from_words(program: &Program, words: &[i32]) -> Result<Self, Refusal> {
        if words.len() != POOL_WORDS {
            return Err(Refusal::plain(12));
        }
        parse_pool(program, words).ok_or(Refusal::plain(13))
    }

    /// The pool's 1,689 words.
    pub fn to_words(&self) -> Vec<i32> {
        let threads = self.threads();
        let mut words = vec![word(threads.len())];
        for thread in threads {
            words.extend(padded(thread_words(thread), THREAD_WORDS));
        }
        padded(words, POOL_WORDS)
    }
}

/// A count or number as a word.
fn word(number: usize) -> i32 {
    i32::try_from(number).expect("a pool's numbers are words")
}

/// Words filled up with 0 to a length.
fn padded(mut words: Vec<i32>, length: usize) -> Vec<i32> {
    words.resize(length, 0);
    words
}

fn thread_words(thread: &Thread) -> Vec<i32> {
    let Purse { work, tokens } = thread.purse;
    let purse = [work, tokens].map(|amount| word(amount as usize));
    let mut words = vec![word(thread.frames.len())];
    words.extend(purse);
    words.extend(thread.frames.iter().flat_map(frame_words));
    words
}

fn frame_words(frame: &Frame) -> Vec<i32> {
    let bound: i32 = (0..TEMPORARIES)
        .filter(|&t| frame.temporaries[t].is_some())
        .map(|t| 1 << t)
        .sum();
    let mut words = vec![
        word(frame.function),
        word(frame.block),
        word(frame.done),
        bound,
        word(frame.calls.len()),
        word(frame.promoted),
    ];
    let calls = frame.calls.iter().map(|call| word(call.spawn)).collect();
    words.extend(padded(calls, MAX_CALLS));
    words.extend(frame.temporaries.iter().map(|value| value.unwrap_or(0)));
    words
}

/// A word as a number from 0 to `most`.
fn number(word: i32, most: usize) -> Option<usize> {
    usize::try_from(word).ok().filter(|&n| n <= most)
}

/// A word as a count from 1 to `most`.
fn count(word: i32, most: usize) -> Option<usize> {
    number(word, most).filter(|&n| n >= 1)
}

/// A word as a number below `end`.
fn below(word: i32, end: usize) -> Option<usize> {
    usize::try_from(word).ok().filter(|&n| n < end)
}

/// The first `used` parts of equal length, if all words after them are 0.
fn used_parts(words: &[i32], used: usize, length: usize) -> Option<Vec<&[i32]>> {
    let (front, unused) = words.split_at(used * length);
    unused
        .iter()
        .all(|&w| w == 0)
        .then(|| front.chunks(length).collect())
}

fn parse_pool(program: &Program, words: &[i32]) -> Option<Pool> {
    let (&first, rest) = words.split_first()?;
    let threads = used_parts(rest, count(first, MAX_THREADS)?, THREAD_WORDS)?;
    let listed: Vec<(Purse, Vec<Frame>)> = threads
        .into_iter()
        .map(|thread| Some((parse_purse(thread)?, parse_stack(program, thread)?)))
        .collect::<Option<_>>()?;
    let mut listed = listed.into_iter();
    let root = grow_tree(&mut listed)?;
    listed.next().is_none().then_some(Pool { root })
}

/// Takes one tree from the listed purses and call stacks.
fn grow_tree(listed: &mut impl Iterator<Item = (Purse, Vec<Frame>)>) -> Option<Thread> {
    let (purse, frames) = listed.next()?;
    let promoted: usize = frames.iter().map(|frame| frame.promoted).sum();
    let mut children = Vec::new();
    for _ in 0..promoted {
        children.push(grow_tree(listed)?);
    }
    children.reverse();
    Some(Thread {
        purse,
        frames,
        children,
        opened: None,
    })
}

fn parse_purse(thread: &[i32]) -> Option<Purse> {
    let amount = |at: usize, most: u32| u32::try_from(thread[at]).ok().filter(|&n| n <= most);
    Some(Purse {
        work: amount(WORK, MAX_WORK)?,
        tokens: amount(TOKENS, MAX_TOKENS)?,
    })
}

fn parse_stack(program: &Program, thread: &[i32]) -> Option<Vec<Frame>> {
    let (head, rest) = thread.split_at(THREAD_HEAD);
    let frames: Vec<Frame> = used_parts(rest, count(head[0], MAX_FRAMES)?, FRAME_WORDS)?
        .into_iter()
        .map(|frame| parse_frame(program, frame))
        .collect::<Option<_>>()?;
    let (_, older) = frames.split_last()?;
    let fits = older.iter().all(|frame| frame.done == 0) && promoted_oldest(&frames);
    fits.then_some(frames)
}

/// Whether no promoted call is newer than an unpromoted one.
fn promoted_oldest(frames: &[Frame]) -> bool {
    let marks: Vec<bool> = frames
        .iter()
        .flat_map(|frame| (0..frame.calls.len()).map(|call| call < frame.promoted))
        .collect();
    marks.windows(2).all(|pair| pair[0] || !pair[1])
}

fn parse_frame(program: &Program, words: &[i32]) -> Option<Frame> {
    let function = below(words[FUNCTION], program.functions.len())?;
    let code = &program.functions[function];
    let block = below(words[BLOCK], code.blocks.len())?;
    let done = number(words[DONE], code.blocks[block].statements.len())?;
    let open = number(words[OPEN], MAX_CALLS)?;
    Some(Frame {
        function,
        block,
        done,
        temporaries: parse_temporaries(words[BOUND], &words[VALUES..])?,
        calls: parse_calls(code, open, &words[CALLS..VALUES])?,
        promoted: number(words[PROMOTED], open)?,
    })
}

fn parse_calls(code: &Function, open: usize, words: &[i32]) -> Option<Vec<OpenCall>> {
    used_parts(words, open, 1)?
        .into_iter()
        .map(|call| below(call[0], code.spawns.len()).map(OpenCall::plain))
        .collect()
}

fn parse_temporaries(bound: i32, words: &[i32]) -> Option<Temporaries> {
    let bound = number(bound, 0xFFFF)?;
    let mut temporaries = [None; TEMPORARIES];
    for (t, &value) in words.iter().enumerate() {
        if (bound >> t) & 1 == 1 {
            temporaries[t] = Some(value);
        } else if value != 0 {
            return None;
        }
    }
    Some(temporaries)
}
