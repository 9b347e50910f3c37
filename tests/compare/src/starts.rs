//! Where each frame begins, by the words that a machine leaves of a full pool.

use oracle::encode::encode;
use oracle::full;
use oracle::machine::Machine;
use oracle::pool::FRAME_WORDS;
use oracle::stored::frame_starts;
use oracle::tally::Tally;
use oracle::POOL_WORDS;

/// What must occur, by name.
pub const EVENT: &str = "frame at its stored start";

/// A pool is filled by choices one by one, and by a schedule; every frame
/// stands at the stored start, and every word is the one that is due.
pub fn check_full(tally: &mut Tally, machine: &dyn Machine) {
    let table = encode(&full::program());
    let (starts, choices) = (frame_starts(), full::choices());
    let due = full::words(&starts);
    let mut words = fresh(tally, machine, &table);
    for &(kind, thread) in &choices {
        let answer = machine.choose(&table, &mut words, kind, thread);
        tally.expect(answer.is_ok(), || format!("not made: {answer:?}"));
    }
    let mut scheduled = fresh(tally, machine, &table);
    let mut made = 0;
    let answer = machine.schedule(&table, &mut scheduled, &choices, &mut made);
    tally.expect(answer.is_ok() && made == choices.len() as u64, || {
        format!("{made} made: {answer:?}")
    });
    tally.expect(words == due && scheduled == due, || {
        "another full pool than the stored starts make".to_string()
    });
    for start in starts {
        let frame = start..start + FRAME_WORDS;
        tally.expect(words[frame.clone()] == due[frame], || {
            format!("another frame at {start}")
        });
        tally.event(EVENT);
    }
}

/// A fresh pool, in words that held something else.
fn fresh(tally: &mut Tally, machine: &dyn Machine, table: &[u8]) -> Vec<i32> {
    let mut words = vec![-1; POOL_WORDS];
    let started = machine.start(table, &mut words);
    tally.expect(started.is_ok(), || format!("no start: {started:?}"));
    words
}
