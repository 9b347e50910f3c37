//! The lines of a listing beside the words of a pool: what they tell, how deep
//! they stand, and what is left of them without values.

use oracle::pool::{
    frame_start, thread_start, BLOCK, BOUND, DONE, FRAME_WORDS, FUNCTION, OPEN, PROMOTED,
    TEMPORARIES, VALUES,
};

/// How many numbers of a line are no values.
const PLACE: usize = 7;

/// The lines of a listing, each without its newline; none where the last byte is
/// no newline.
fn lines(listing: &[u8]) -> Option<Vec<&[u8]>> {
    let lines = listing.strip_suffix(b"\n")?;
    Some(lines.split(|&byte| byte == b'\n').collect())
}

/// How many spaces a line begins with.
fn deep(line: &[u8]) -> usize {
    line.iter().take_while(|&&byte| byte == b' ').count()
}

/// The numbers of a listing's lines, if these are numbers in decimal, one space
/// between two and nothing else.
pub fn numbers_in(listing: &[u8]) -> Option<Vec<Vec<i32>>> {
    let number = |part: &[u8]| {
        let text = std::str::from_utf8(part).ok()?;
        let number: i32 = text.parse().ok()?;
        (number.to_string() == text).then_some(number)
    };
    let numbers = |line: &[u8]| {
        let parts = line[deep(line)..].split(|&byte| byte == b' ');
        parts.map(number).collect()
    };
    lines(listing)?.into_iter().map(numbers).collect()
}

/// The numbers that the customer's lines have of a pool's words, if these can be
/// one.
pub fn told(words: &[i32]) -> Option<Vec<Vec<i32>>> {
    let line = |thread: i32| {
        let frames = *words.get(thread_start(thread as usize))?;
        let newest = usize::try_from(frames).ok()?.checked_sub(1)?;
        let start = frame_start(thread as usize, newest);
        let frame = words.get(start..start + FRAME_WORDS)?;
        let mut numbers = vec![thread, frames, frame[FUNCTION], frame[BLOCK]];
        numbers.extend([frame[DONE], frame[OPEN], frame[PROMOTED]]);
        for temporary in 0..TEMPORARIES {
            if frame[BOUND] >> temporary & 1 == 1 {
                numbers.extend([temporary as i32, frame[VALUES + temporary]]);
            }
        }
        Some(numbers)
    };
    (0..*words.first()?).map(line).collect()
}

/// How deep the lines of a listing stand.
pub fn depths_in(listing: &[u8]) -> Vec<usize> {
    let lines = lines(listing).unwrap_or_default();
    lines.into_iter().map(deep).collect()
}

/// How deep the threads of a pool's words are: one more than the thread before
/// them that a child is due to, the nearest one.
pub fn depths(words: &[i32]) -> Vec<usize> {
    let mut open: Vec<i32> = Vec::new();
    let mut depths = Vec::new();
    for thread in 0..words[0] as usize {
        while open.pop_if(|due| *due == 0).is_some() {}
        depths.push(open.len());
        if let Some(due) = open.last_mut() {
            *due -= 1;
        }
        let frames = words[thread_start(thread)] as usize;
        let promoted = |frame| words[frame_start(thread, frame) + PROMOTED];
        open.push((0..frames).map(promoted).sum());
    }
    depths
}

/// A listing without what follows the seventh number of each line.
pub fn erased(listing: &[u8]) -> Vec<u8> {
    let mut left = Vec::new();
    for line in listing.split_inclusive(|&byte| byte == b'\n') {
        let mut spaces = 0;
        let place = line.iter().skip(deep(line)).take_while(|&&byte| {
            spaces += usize::from(byte == b' ');
            spaces < PLACE && byte != b'\n'
        });
        left.extend(&line[..deep(line)]);
        left.extend(place);
        left.push(b'\n');
    }
    left
}
