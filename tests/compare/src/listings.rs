//! Listings by a machine's own functions: those of the second implementation, of
//! lent pools and along runs; and what both readers see of pools that differ in
//! their values alone.

use oracle::encode::encode;
use oracle::gen::pools::other_values;
use oracle::gen::Scenario;
use oracle::listing::{listing, LISTING, LISTING_BYTES};
use oracle::longest;
use oracle::machine::{hostile, listings_differ, Machine};
use oracle::pool::{Pool, Temporaries};
use oracle::rng::Rng;
use oracle::tally::Tally;
use oracle::{watch, Reader, Refusal};

/// What must occur, by name.
pub const EVENTS: [&str; 7] = [LONGEST, ALONG, RETURNED, SAME, SHOWN, HIDDEN, BETWEEN];

const LONGEST: &str = "listing of the greatest length";
const ALONG: &str = "listing along a run, of three threads or more";
const RETURNED: &str = "listing along a run, of a main that returned";
const SAME: &str = "other values, the operator refused alike";
const SHOWN: &str = "other values, which the customer sees";
const HIDDEN: &str = "other values in older frames alone, which nobody sees";
const BETWEEN: &str = "room for the operator's listing, and not for the customer's";

/// A table, and the words of a pool of it, which is the second implementation's.
pub struct Listed<'a> {
    pub machine: &'a dyn Machine,
    pub table: &'a [u8],
    pub words: &'a [i32],
    pub pool: &'a Pool,
}

/// The pool whose listings are the longest: they have the lengths that they can
/// have at most.
pub fn check_longest(tally: &mut Tally, machine: &dyn Machine) {
    let (table, pool) = (encode(&longest::program()), longest::pool());
    let words = pool.to_words();
    let found = listings_differ(machine, &table, &words);
    tally.expect(found.is_empty(), || format!("{found:?}"));
    let listed = Listed {
        machine,
        table: &table,
        words: &words,
        pool: &pool,
    };
    let lengths = [
        (Reader::Operator, longest::OPERATOR),
        (Reader::Customer, longest::CUSTOMER),
    ];
    for (reader, length) in lengths {
        let (answer, _) = listed.list(reader, &words, LISTING_BYTES);
        tally.expect(answer == Ok(length), || {
            format!("{answer:?} for {reader:?}, {length} is the greatest length")
        });
        tally.event(LONGEST);
    }
}

/// The words of a scenario with other values, where they are a pool of its table,
/// accepted or not: in outputs of any length.
pub fn check_lent(tally: &mut Tally, machine: &dyn Machine, rng: &mut Rng, input: &Scenario) {
    let Ok(program) = oracle::read(&input.table) else {
        return;
    };
    let Ok(pool) = Pool::from_words(&program, &input.words) else {
        return;
    };
    let listed = Listed {
        machine,
        table: &input.table,
        words: &input.words,
        pool: &pool,
    };
    let length = listing(&pool, Reader::Operator).len();
    let (less, more) = (rng.below(length), rng.between(length, LISTING_BYTES));
    listed.check_others(tally, rng, &[less, length - 1, length, more]);
    listed.check_between(tally);
    listed.note(tally);
}

impl Listed<'_> {
    /// Along a run: every thread has its line, and both listings are right, of
    /// these words and of words with other values.
    pub fn check(&self, tally: &mut Tally, rng: &mut Rng, returned: bool) {
        for reader in Reader::ALL {
            let due = listing(self.pool, reader);
            let (answer, left) = self.list(reader, self.words, LISTING_BYTES);
            let right = answer == Ok(due.len()) && left.starts_with(due.as_bytes());
            tally.expect(right, || {
                format!("{answer:?} for {reader:?} along a run, {due:?} is right")
            });
            let length = answer.unwrap_or(0).min(left.len());
            let ends = left[..length].iter().filter(|&&byte| byte == b'\n');
            let threads = self.words[0];
            tally.expect(ends.count() as i32 == threads, || {
                format!("not a line for each of {threads} threads")
            });
        }
        let length = listing(self.pool, Reader::Operator).len();
        self.check_others(tally, rng, &[length]);
        self.note(tally);
        if self.words[0] > 2 {
            tally.event(ALONG);
        }
        if returned {
            tally.event(RETURNED);
        }
    }

    /// What a call answers, and leaves in an output of a length that held
    /// anything.
    fn list(
        &self,
        reader: Reader,
        words: &[i32],
        room: usize,
    ) -> (Result<usize, Refusal>, Vec<u8>) {
        let (mut out, _) = hostile(self.table, room, 0);
        let answer = self.machine.list(reader, self.table, words, &mut out);
        (answer, out)
    }

    /// With other values, and outputs of these lengths, the operator is answered
    /// the same and has the same bytes; the customer exactly if the newest frames
    /// have the same values.
    fn check_others(&self, tally: &mut Tally, rng: &mut Rng, rooms: &[usize]) {
        let pool = other_values(rng, self.pool);
        let words = pool.to_words();
        for &room in rooms {
            let [one, other] =
                [self.words, &words].map(|words| self.list(Reader::Operator, words, room));
            tally.expect(one == other, || {
                format!("{one:?}, and {other:?} of other values: {words:?}")
            });
            if other.0 == Err(Refusal::plain(LISTING)) {
                tally.event(SAME);
            }
        }
        let hidden = newest(self.pool) == newest(&pool);
        let [one, other] =
            [self.words, &words].map(|words| self.list(Reader::Customer, words, LISTING_BYTES));
        tally.expect((one == other) == hidden, || {
            format!("{one:?}, and {other:?} for the customer of other values")
        });
        if words != self.words {
            tally.event(if hidden { HIDDEN } else { SHOWN });
        }
    }

    /// An output as long as the operator's listing, which is enough for the
    /// operator, and for the customer exactly if no value is to be shown.
    fn check_between(&self, tally: &mut Tally) {
        let room = listing(self.pool, Reader::Operator).len();
        let more = listing(self.pool, Reader::Customer).len() > room;
        let due = match more {
            true => Err(Refusal::plain(LISTING)),
            false => Ok(room),
        };
        let answers = Reader::ALL.map(|reader| self.list(reader, self.words, room).0);
        tally.expect(answers == [Ok(room), due], || {
            format!("{answers:?} of {room} bytes, {due:?} is the customer's")
        });
        if more {
            tally.event(BETWEEN);
        }
    }

    /// What the listings show.
    fn note(&self, tally: &mut Tally) {
        for event in watch::listed(self.pool) {
            tally.event(event);
        }
    }
}

/// What the newest frame of each thread has bound.
fn newest(pool: &Pool) -> Vec<Temporaries> {
    let threads = pool.threads();
    threads.iter().map(|t| t.current().temporaries).collect()
}
