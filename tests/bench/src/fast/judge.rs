//! Which words are a pool of a table.

use super::layout::{Pool, FRAME, FRAMES, THREAD, TOKENS, TOKENS_MAX, WORK, WORK_MAX};
use super::places::Places;

/// Are the words a pool of the table?
pub fn is_pool(table: &[u8], places: &Places, pool: &Pool) -> bool {
    let threads = pool[0];
    if !(1..=8).contains(&threads) {
        return false;
    }
    let (used, unused) = pool[1..].split_at(THREAD * threads as usize);
    let mut due = 1;
    for thread in used.chunks_exact(THREAD) {
        if due == 0 {
            return false;
        }
        match children(table, places, thread) {
            Some(promoted) => due = due - 1 + promoted,
            None => return false,
        }
    }
    due == 0 && zeros(unused)
}

/// Are they all 0? No early end, so that many are looked at together.
fn zeros(words: &[i32]) -> bool {
    words.iter().fold(0, |all, &word| all | word) == 0
}

/// How many children a thread has, if its words are one.
fn children(table: &[u8], places: &Places, thread: &[i32]) -> Option<i32> {
    let count = thread[0];
    if !(1..=8).contains(&count) {
        return None;
    }
    if !(0..=WORK_MAX).contains(&thread[WORK]) || !(0..=TOKENS_MAX).contains(&thread[TOKENS]) {
        return None;
    }
    let (used, unused) = thread[FRAMES..].split_at(FRAME * count as usize);
    let mut promoted = 0;
    let mut unpromoted = 0;
    for (j, frame) in used.chunks_exact(FRAME).enumerate() {
        let newest = j + 1 == count as usize;
        if !is_frame(table, places, frame.try_into().ok()?) {
            return None;
        }
        if (!newest && frame[2] != 0) || (unpromoted > 0 && frame[5] > 0) {
            return None;
        }
        promoted += frame[5];
        unpromoted += frame[4] - frame[5];
    }
    zeros(unused).then_some(promoted)
}

fn is_frame(t: &[u8], places: &Places, frame: &[i32; FRAME]) -> bool {
    let [function, block, done, bound, open, promoted] = *frame.first_chunk().expect("26 words");
    if !(0..=4).contains(&open) || !(0..=open).contains(&promoted) {
        return false;
    }
    if !(0..=0xFFFF).contains(&bound) || done < 0 {
        return false;
    }
    let f = function as u32 as usize;
    let Some(at) = places.block(f, block as u32 as usize) else {
        return false;
    };
    if done > i32::from(statements(t, at)) {
        return false;
    }
    let (calls, rest) = frame[6..10].split_at(open as usize);
    calls
        .iter()
        .all(|&call| places.spawn(f, call as u32 as usize).is_some())
        && zeros(rest)
        && unbound_are_zero(bound, &frame[10..])
}

fn unbound_are_zero(bound: i32, values: &[i32]) -> bool {
    let set = values
        .iter()
        .enumerate()
        .fold(0, |all, (t, &value)| all | value & ((bound >> t & 1) - 1));
    set == 0
}

/// How many statements the block at an offset has.
fn statements(t: &[u8], at: usize) -> u8 {
    let nesting = at + usize::from(t[at]) + 3;
    t[nesting + usize::from(t[nesting]) + 1]
}
