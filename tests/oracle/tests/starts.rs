//! Where each frame begins.

use oracle::encode::encode;
use oracle::full;
use oracle::pool::{frame_start, MAX_FRAMES, MAX_THREADS};
use oracle::stored::frame_starts;
use oracle::{check, schedule, start, POOL_WORDS};

/// The stored starts are those of the layout, thread by thread, oldest frame
/// first.
#[test]
fn stored_starts() {
    let frames = |thread| (0..MAX_FRAMES).map(move |frame| frame_start(thread, frame));
    let starts: Vec<usize> = (0..MAX_THREADS).flat_map(frames).collect();
    assert_eq!(starts, frame_starts());
}

/// The frames of a full pool stand at the stored starts, and every word of it
/// is the one that is due.
#[test]
fn full_pool() {
    let starts = frame_starts();
    let table = encode(&full::program());
    assert_eq!(check(&table), Ok(()));
    let mut pool = vec![-1; POOL_WORDS];
    start(&table, &mut pool).unwrap();
    let choices = full::choices();
    assert_eq!(schedule(&table, &mut pool, &choices), (choices.len(), None));
    assert_eq!(pool, full::words(&starts));
}
