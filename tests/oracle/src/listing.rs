//! Listings of a pool: a line for each thread says where it has got to, and the
//! customer's line also what its newest frame has bound.
//!
//! In the tree a thread has a path: which child of which child of the root it is,
//! the newest as 0. Sorted, the paths come in the order of the threads' numbers,
//! and each is as long as its line is deep. In the words a thread's parent is
//! found by counting promoted calls, and its line is as deep as the way up to the
//! root is long. The ways must agree.

use crate::pool::{
    frame_start, thread_start, Pool, Thread, BLOCK, BOUND, DONE, FRAME_WORDS, FUNCTION, OPEN,
    PROMOTED, TEMPORARIES, VALUES,
};
use std::collections::{BTreeMap, VecDeque};
use std::iter::successors;

/// The number where the output is shorter than the listing.
pub const LISTING: u8 = 28;
/// An output of so many bytes has room for every listing: the longest has 2,004.
pub const LISTING_BYTES: usize = 4_096;

/// Who reads a listing; the operator sees no values.
#[derive(Clone, Copy, Debug, PartialEq, Eq)]
pub enum Reader {
    Operator,
    Customer,
}

impl Reader {
    /// Both.
    pub const ALL: [Reader; 2] = [Reader::Operator, Reader::Customer];
}

/// The listing of a pool for a reader.
pub fn listing(pool: &Pool, reader: Reader) -> String {
    let paths = by_paths(pool, reader);
    let parents = by_parents(&pool.to_words(), reader);
    assert_eq!(paths, parents, "paths and parents differ");
    paths
}

/// The listing by the tree: every thread with its path, and the paths sorted.
fn by_paths(pool: &Pool, reader: Reader) -> String {
    let mut ahead = VecDeque::from([(Vec::new(), &pool.root)]);
    let mut found = BTreeMap::new();
    while let Some((path, thread)) = ahead.pop_front() {
        for (age, child) in thread.children.iter().rev().enumerate() {
            ahead.push_back(([&path[..], &[age]].concat(), child));
        }
        found.insert(path, thread);
    }
    let threads = found.iter().enumerate();
    threads
        .map(|(number, (path, thread))| line(number, path.len(), thread, reader))
        .collect()
}

/// A thread's line.
fn line(number: usize, depth: usize, thread: &Thread, reader: Reader) -> String {
    let frame = thread.current();
    let place = format!(
        "{:depth$}{number} {} {} {} {} {} {}",
        "",
        thread.frames.len(),
        frame.function,
        frame.block,
        frame.done,
        frame.calls.len(),
        frame.promoted,
    );
    let temporaries = frame.temporaries.iter().enumerate();
    let bound = temporaries.filter_map(|(t, value)| value.map(|value| format!(" {t} {value}")));
    match reader {
        Reader::Operator => place + "\n",
        Reader::Customer => place + &bound.collect::<String>() + "\n",
    }
}

/// The listing by the words: the numbers of each thread, as deep as it has
/// parents above it.
fn by_parents(words: &[i32], reader: Reader) -> String {
    let parents = parents(words);
    let lines = (0..parents.len()).map(|thread| {
        let above = successors(parents[thread], |&parent| parents[parent]);
        let texts: Vec<String> = numbers(words, thread, reader)
            .iter()
            .map(i32::to_string)
            .collect();
        [" ".repeat(above.count()), texts.join(" "), "\n".to_string()].concat()
    });
    lines.collect()
}

/// The parent of each thread: of those before it the nearest that has had fewer
/// children so far than it has promoted calls.
fn parents(words: &[i32]) -> Vec<Option<usize>> {
    let threads = words[0] as usize;
    let mut due: Vec<i32> = (0..threads).map(|thread| promoted(words, thread)).collect();
    let parent = |thread: usize| {
        let parent = (0..thread).rev().find(|&before| due[before] > 0)?;
        due[parent] -= 1;
        Some(parent)
    };
    (0..threads).map(parent).collect()
}

/// How many promoted calls a thread's frames have.
fn promoted(words: &[i32], thread: usize) -> i32 {
    let frames = words[thread_start(thread)] as usize;
    (0..frames)
        .map(|frame| words[frame_start(thread, frame) + PROMOTED])
        .sum()
}

/// The numbers in a thread's line.
fn numbers(words: &[i32], thread: usize, reader: Reader) -> Vec<i32> {
    let frames = words[thread_start(thread)];
    let start = frame_start(thread, frames as usize - 1);
    let newest = &words[start..start + FRAME_WORDS];
    let mut numbers = vec![thread as i32, frames];
    numbers.extend([FUNCTION, BLOCK, DONE, OPEN, PROMOTED].map(|at| newest[at]));
    if reader == Reader::Customer {
        let bound = (0..TEMPORARIES).filter(|&t| newest[BOUND] & (1 << t) != 0);
        numbers.extend(bound.flat_map(|t| [t as i32, newest[VALUES + t]]));
    }
    numbers
}
