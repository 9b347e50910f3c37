//! The library as a machine. Every call is made by the exported function, on
//! copies of the memory and with the laws asserted, and then by the wrapper: on
//! the memory lent, and where that is as long as a pool on a pool of its own.

use crate::laws::{
    answer_in, beat_in, run_stops, stops, Beaten, Call, Laws, Whole, CHECK, CUSTOMER, DEPTH,
    OPERATOR, READ, WHICH,
};
use crate::lent::Lent;
use mezdaulk::{lent, raw, Choice, Pace, Place, Pool, Refusal as Wrapped};
use oracle::gen::schedules::Choice as Pair;
use oracle::listing::LISTING_BYTES;
use oracle::machine::{unwritten, Machine};
use oracle::tally::Tally;
use oracle::{Pace as Wide, Reader, Refusal};
use std::cell::{RefCell, RefMut};

/// The library, and what was asserted of its answers since they were last
/// counted.
#[derive(Default)]
pub struct Library {
    laws: RefCell<Laws>,
}

/// What stands beside the memory lent; beside choices a step and beside threads
/// a thread, which would be made.
const BYTE: u8 = 0xA5;
const WORD: i32 = 0x5A5A_5A5A;
const SCRATCH: u32 = 0x5A5A_5A5A;
const COUNT: u64 = 0x5A5A_5A5A_5A5A_5A5A;
const STEP: Choice = Choice::step(0);
const THREAD: u32 = 0;

// In every call of an exported function below, the pointers are valid for the
// lengths beside them, and what is lent for writing overlaps nothing.
impl Library {
    /// Counts the answers given since this was last asked.
    pub fn count(&self, tally: &mut Tally) {
        self.laws().count(tally);
    }

    /// That every call but the completion gives a table of version 2 its 2;
    /// and the wrapper's completion in bytes of its own, which must be this.
    pub fn version_2(&self, tally: &mut Tally, table: &[u8], completed: &Result<Vec<u8>, Refusal>) {
        let own = mezdaulk::complete(table).map_err(refusal);
        tally.expect(own == *completed, || format!("{own:02x?} of its own"));
        if table.len() > 16_384 || table.len() < 6 || table[4] != 2 {
            return;
        }
        if self.read(table) == Err(Refusal::plain(1)) {
            return;
        }
        let number = |refusal: Refusal| refusal.number;
        let (mut pool, mut room, mut made) = (vec![0; Pool::WORDS], [0; 4], 0);
        let answers = [
            self.read(table).map_err(number).err(),
            self.check(table).map_err(number).err(),
            self.depth(table).map_err(number).err(),
            self.tidy(table, &mut []).map_err(number).err(),
            self.start(table, &mut pool).map_err(number).err(),
            self.choose(table, &mut pool, 0, 0).map_err(number).err(),
            self.can_step(table, &pool).map_err(number).err(),
            self.values(table, &pool, &mut room).map_err(number).err(),
            self.list(Reader::Operator, table, &pool, &mut [])
                .map_err(number)
                .err(),
            self.list(Reader::Customer, table, &pool, &mut [])
                .map_err(number)
                .err(),
            self.schedule(table, &mut pool, &[], &mut made)
                .map_err(number)
                .err(),
            self.beat(table, &mut pool, NO_PACE, 0)
                .map_err(number)
                .err(),
            self.run(table, &mut pool, NO_PACE, &[], &mut [0; 2])
                .map_err(number)
                .err(),
        ];
        self.laws().other_calls(&answers);
    }

    fn laws(&self) -> RefMut<'_, Laws> {
        self.laws.borrow_mut()
    }

    /// The answer in a number; the wrapper's must be the same, and the words
    /// that it leaves.
    fn answer(
        &self,
        number: u64,
        wrapped: Result<u32, Wrapped>,
        same_words: bool,
    ) -> Result<u32, Refusal> {
        let answer = answer_in(number);
        let same_answer = wrapped.map_err(refusal) == answer;
        self.laws().wrapped(number, same_answer && same_words);
        answer
    }

    /// The wrapper's call on a pool of its own, where there are words for one:
    /// it must answer the same, leave the same words, and give the same beside
    /// the answer.
    fn owned(
        &self,
        number: u64,
        words: &[i32],
        left: &[i32],
        call: impl FnOnce(&mut Pool) -> (Result<u32, Wrapped>, bool),
    ) {
        if let Ok(mut pool) = Pool::from_words(words) {
            let (wrapped, same_beside) = call(&mut pool);
            let same_answer = wrapped.map_err(refusal) == answer_in(number);
            let same_words = pool.words().as_slice() == left;
            self.laws()
                .owned(number, same_answer && same_words && same_beside);
        }
    }

    /// A call on a table alone: the number, and the answer in it.
    fn asked(
        &self,
        call: &'static Call,
        table: &[u8],
        exported: unsafe extern "C" fn(*const u8, usize) -> u64,
        wrapped: Result<u32, Wrapped>,
    ) -> (u64, Result<u32, Refusal>) {
        let mut bytes = Lent::new(table, BYTE);
        let number = unsafe { exported(bytes.pointer(), table.len()) };
        self.laws().answer(call, table, number);
        let only_read = bytes.left() == table;
        self.laws().memory(number, only_read, bytes.guarded());
        (number, self.answer(number, wrapped, true))
    }

    /// Whether a table is accepted, with the number.
    fn checked(&self, table: &[u8]) -> (u64, Result<u32, Refusal>) {
        let wrapped = mezdaulk::check(table).map(|()| 0);
        self.asked(&CHECK, table, raw::mezdaulk_check, wrapped)
    }

    /// The number that a choice gets.
    fn chosen(&self, table: &[u8], pool: &mut [i32], choice: Choice) -> u64 {
        let Choice { kind, thread } = choice;
        let (mut bytes, mut words) = (Lent::new(table, BYTE), Lent::new(pool, WORD));
        let (t, p) = (bytes.pointer(), words.pointer());
        let number = unsafe { raw::mezdaulk_choose(t, table.len(), p, pool.len(), kind, thread) };
        self.laws()
            .choose(table, pool, choice, number, words.left());
        let around = bytes.guarded() && words.guarded();
        self.laws().memory(number, bytes.left() == table, around);
        self.owned(number, pool, words.left(), |own| {
            (own.choose(table, choice).map(rule_number), true)
        });
        let wrapped = lent::choose(table, pool, choice).map(rule_number);
        _ = self.answer(number, wrapped, pool == words.left());
        number
    }

    /// The number that a beat gets.
    fn beaten(&self, table: &[u8], pool: &mut [i32], pace: Pace, thread: u32) -> u64 {
        let (mut bytes, mut words) = (Lent::new(table, BYTE), Lent::new(pool, WORD));
        let (t, p) = (bytes.pointer(), words.pointer());
        let number =
            unsafe { raw::mezdaulk_beat(t, table.len(), p, pool.len(), thread, pace.n, pace.c) };
        let beaten = plain_choices(table, (pool, words.left()), pace, thread, number);
        self.laws().beat(table, number, &beaten);
        let around = bytes.guarded() && words.guarded();
        self.laws().memory(number, bytes.left() == table, around);
        self.owned(number, pool, words.left(), |own| {
            (own.beat(table, pace, thread).map(beat_number), true)
        });
        let wrapped = lent::beat(table, pool, pace, thread).map(beat_number);
        _ = self.answer(number, wrapped, pool == words.left());
        number
    }
}

/// The plain choices that a beat is: a step, as many promotions as the beat's
/// number says, and one more on a copy.
fn plain_choices<'a>(
    table: &[u8],
    (words, left): (&'a [i32], &'a [i32]),
    pace: Pace,
    thread: u32,
    number: u64,
) -> Beaten<'a> {
    let put = |words: &mut [i32], choice: Choice| {
        let (pool, count) = (words.as_mut_ptr(), words.len());
        let Choice { kind, thread } = choice;
        unsafe { raw::mezdaulk_choose(table.as_ptr(), table.len(), pool, count, kind, thread) }
    };
    let mut chosen = words.to_vec();
    let step = put(&mut chosen, Choice::step(thread));
    let (_, promotions) = answer_in(number).map_or((0, 0), beat_in);
    let promoted = (0..promotions.min(8)).all(|_| {
        let promotion = put(&mut chosen, Choice::promote(thread));
        answer_in(promotion).is_ok()
    });
    let next = put(&mut chosen.clone(), Choice::promote(thread));
    Beaten {
        pace,
        thread,
        words,
        left,
        step,
        promoted,
        chosen,
        next,
    }
}

/// The exported function that lists for a reader.
fn exported(
    reader: Reader,
) -> unsafe extern "C" fn(*const u8, usize, *const i32, usize, *mut u8, usize) -> u64 {
    match reader {
        Reader::Operator => raw::mezdaulk_operator,
        Reader::Customer => raw::mezdaulk_customer,
    }
}

/// A listing in an output with room for every listing.
fn whole(reader: Reader, table: &[u8], words: &[i32]) -> Whole {
    let mut left = unwritten(LISTING_BYTES);
    let (t, w, l) = (table.as_ptr(), words.as_ptr(), left.as_mut_ptr());
    let number = unsafe { exported(reader)(t, table.len(), w, words.len(), l, left.len()) };
    Whole { number, left }
}

/// The wrapper's refusal as the second implementation writes it.
fn refusal(wrapped: Wrapped) -> Refusal {
    let number = wrapped.number();
    match wrapped.place() {
        None => Refusal::plain(number),
        Some(Place::Byte(at)) => Refusal::byte(at),
        Some(Place::Block { function, block }) => {
            Refusal::fault(number, function.into(), block.into())
        }
        Some(Place::Function(function)) => Refusal::fault(number, function.into(), 255),
    }
}

/// The wrapper's values as the numbers that the exported functions give.
fn rule_number(rule: mezdaulk::Rule) -> u32 {
    rule.number().into()
}

fn beat_number(beat: mezdaulk::Beat) -> u32 {
    rule_number(beat.rule) + 256 * beat.promotions
}

fn thread_number(thread: Option<u32>) -> u32 {
    thread.unwrap_or(8)
}

fn count_number(count: Option<usize>) -> u32 {
    count.map_or(255, |count| count as u32)
}

/// A choice, whose kind and thread are within 32 bits.
fn narrow((kind, thread): Pair) -> Choice {
    let number = |wide| u32::try_from(wide).expect("choices are cut to 32 bits");
    Choice {
        kind: number(kind),
        thread: number(thread),
    }
}

/// A pace out of range.
const NO_PACE: Wide = Wide { n: 0, c: 0 };

/// A pace and a thread, which are within 32 bits.
fn narrow_pace(pace: Wide) -> Pace {
    Pace {
        n: narrow_thread(pace.n),
        c: narrow_thread(pace.c),
    }
}

fn narrow_thread(thread: u64) -> u32 {
    u32::try_from(thread).expect("beats are cut to 32 bits")
}

impl Machine for Library {
    fn read(&self, table: &[u8]) -> Result<(), Refusal> {
        let wrapped = mezdaulk::read(table).map(|()| 0);
        let (_, answer) = self.asked(&READ, table, raw::mezdaulk_read, wrapped);
        answer.map(|_| ())
    }

    fn check(&self, table: &[u8]) -> Result<(), Refusal> {
        self.checked(table).1.map(|_| ())
    }

    fn depth(&self, table: &[u8]) -> Result<u8, Refusal> {
        let wrapped = mezdaulk::depth(table).map(u32::from);
        let (number, answer) = self.asked(&DEPTH, table, raw::mezdaulk_depth, wrapped);
        let (checked, _) = self.checked(table);
        self.laws().depth(table, number, checked);
        answer.map(|frames| frames as u8)
    }

    fn tidy(&self, table: &[u8], out: &mut [u8]) -> Result<usize, Refusal> {
        let (mut bytes, mut room) = (Lent::new(table, BYTE), Lent::new(out, BYTE));
        let (t, o) = (bytes.pointer(), room.pointer());
        let number = unsafe { raw::mezdaulk_tidy(t, table.len(), o, out.len()) };
        let checked = unsafe { raw::mezdaulk_check(t, table.len()) };
        self.laws().tidy(table, number, checked, out, room.left());
        let around = bytes.guarded() && room.guarded();
        self.laws().memory(number, bytes.left() == table, around);
        let wrapped = lent::tidy(table, out).map(|length| length as u32);
        let answer = self.answer(number, wrapped, out == room.left());
        answer.map(|length| length as usize)
    }

    fn complete(
        &self,
        table: &[u8],
        out: &mut [u8],
        scratch: &mut [u32],
    ) -> Result<usize, Refusal> {
        let (mut bytes, mut room) = (Lent::new(table, BYTE), Lent::new(out, BYTE));
        let mut words = Lent::new(scratch, SCRATCH);
        let (t, o, s) = (bytes.pointer(), room.pointer(), words.pointer());
        let number =
            unsafe { raw::mezdaulk_complete(t, table.len(), o, out.len(), s, scratch.len()) };
        let length = answer_in(number).ok();
        let written = length.and_then(|length| room.left().get(..length as usize));
        let checked = written.map(|w| unsafe { raw::mezdaulk_check(w.as_ptr(), w.len()) });
        self.laws().complete(
            table,
            number,
            (out, room.left()),
            (scratch, words.left()),
            checked,
        );
        let around = bytes.guarded() && room.guarded() && words.guarded();
        self.laws().memory(number, bytes.left() == table, around);
        let wrapped = lent::complete(table, out, scratch).map(|length| length as u32);
        let same = out == room.left() && scratch == words.left();
        let answer = self.answer(number, wrapped, same);
        answer.map(|length| length as usize)
    }

    fn start(&self, table: &[u8], pool: &mut [i32]) -> Result<(), Refusal> {
        let (mut bytes, mut words) = (Lent::new(table, BYTE), Lent::new(pool, WORD));
        let (t, p) = (bytes.pointer(), words.pointer());
        let number = unsafe { raw::mezdaulk_start(t, table.len(), p, pool.len()) };
        self.laws().start(table, pool, number, words.left());
        let around = bytes.guarded() && words.guarded();
        self.laws().memory(number, bytes.left() == table, around);
        self.owned(number, pool, words.left(), |own| {
            (own.restart(table).map(|()| 0), true)
        });
        let wrapped = lent::start(table, pool).map(|()| 0);
        let same_words = pool == words.left();
        self.answer(number, wrapped, same_words).map(|_| ())
    }

    fn choose(
        &self,
        table: &[u8],
        pool: &mut [i32],
        kind: u64,
        thread: u64,
    ) -> Result<u8, Refusal> {
        let number = self.chosen(table, pool, narrow((kind, thread)));
        answer_in(number).map(|rule| rule as u8)
    }

    fn can_step(&self, table: &[u8], pool: &[i32]) -> Result<Option<usize>, Refusal> {
        let (mut bytes, mut words) = (Lent::new(table, BYTE), Lent::new(pool, WORD));
        let (t, p) = (bytes.pointer(), words.pointer());
        let number = unsafe { raw::mezdaulk_which(t, table.len(), p, pool.len()) };
        self.laws().answer(&WHICH, table, number);
        let only_read = bytes.left() == table && words.left() == pool;
        let around = bytes.guarded() && words.guarded();
        self.laws().memory(number, only_read, around);
        self.owned(number, pool, pool, |own| {
            (own.which(table).map(thread_number), true)
        });
        let wrapped = lent::which(table, pool).map(thread_number);
        let answer = self.answer(number, wrapped, true);
        answer.map(|thread| (thread != 8).then_some(thread as usize))
    }

    fn values(
        &self,
        table: &[u8],
        pool: &[i32],
        room: &mut [i32; 4],
    ) -> Result<Option<usize>, Refusal> {
        let (mut bytes, mut words) = (Lent::new(table, BYTE), Lent::new(pool, WORD));
        let mut values = Lent::new(room, WORD);
        let (t, p, v) = (bytes.pointer(), words.pointer(), values.pointer());
        let number = unsafe { raw::mezdaulk_values(t, table.len(), p, pool.len(), v) };
        self.laws().values(table, room, number, values.left());
        let only_read = bytes.left() == table && words.left() == pool;
        let around = bytes.guarded() && words.guarded() && values.guarded();
        self.laws().memory(number, only_read, around);
        self.owned(number, pool, pool, |own| {
            let given = own.values(table);
            let same = !matches!(given, Ok(Some(given)) if !values.left().starts_with(&given));
            let count = given.map(|given| count_number(given.map(|given| given.len())));
            (count, same)
        });
        let wrapped = lent::values(table, pool, room).map(count_number);
        let answer = self.answer(number, wrapped, room == values.left());
        answer.map(|count| (count != 255).then_some(count as usize))
    }

    fn list(
        &self,
        reader: Reader,
        table: &[u8],
        pool: &[i32],
        out: &mut [u8],
    ) -> Result<usize, Refusal> {
        let (mut bytes, mut words) = (Lent::new(table, BYTE), Lent::new(pool, WORD));
        let mut room = Lent::new(out, BYTE);
        let (t, p, o) = (bytes.pointer(), words.pointer(), room.pointer());
        let number = unsafe { exported(reader)(t, table.len(), p, pool.len(), o, out.len()) };
        let [operator, customer] = Reader::ALL.map(|reader| whole(reader, table, pool));
        let (call, whole) = match reader {
            Reader::Operator => (&OPERATOR, &operator),
            Reader::Customer => (&CUSTOMER, &customer),
        };
        self.laws()
            .listing(call, table, number, (out, room.left()), whole);
        self.laws().listings(pool, &operator, &customer);
        let only_read = bytes.left() == table && words.left() == pool;
        let around = bytes.guarded() && words.guarded() && room.guarded();
        self.laws().memory(number, only_read, around);
        self.owned(whole.number, pool, pool, |own| {
            let given: Result<Vec<u8>, Wrapped> = match reader {
                Reader::Operator => own.operator(table).map(Into::into),
                Reader::Customer => own.customer(table).map(Into::into),
            };
            let same = given
                .as_ref()
                .map_or(true, |given| given == whole.listing());
            (given.map(|given| given.len() as u32), same)
        });
        let wrapped = match reader {
            Reader::Operator => lent::operator(table, pool, out),
            Reader::Customer => lent::customer(table, pool, out),
        };
        let wrapped = wrapped.map(|length| length as u32);
        let answer = self.answer(number, wrapped, out == room.left());
        answer.map(|length| length as usize)
    }

    fn schedule(
        &self,
        table: &[u8],
        pool: &mut [i32],
        choices: &[Pair],
        made: &mut u64,
    ) -> Result<(), Refusal> {
        let choices: Vec<Choice> = choices.iter().copied().map(narrow).collect();
        let (mut bytes, mut words) = (Lent::new(table, BYTE), Lent::new(pool, WORD));
        let (mut list, mut count) = (Lent::new(&choices, STEP), Lent::new(&[*made], COUNT));
        let (t, p) = (bytes.pointer(), words.pointer());
        let (l, c) = (list.pointer(), count.pointer());
        let number =
            unsafe { raw::mezdaulk_schedule(t, table.len(), p, pool.len(), l, choices.len(), c) };
        *made = count.left()[0];
        let stopped = choices.get(*made as usize).filter(|_| stops(number));
        let again = stopped.map(|&choice| self.chosen(table, &mut words.left().to_vec(), choice));
        let all = choices.len() as u64;
        self.laws()
            .schedule(table, pool, number, words.left(), (*made, all), again);
        let only_read = bytes.left() == table && list.left() == choices;
        let around = bytes.guarded() && words.guarded() && list.guarded() && count.guarded();
        self.laws().memory(number, only_read, around);
        self.owned(number, pool, words.left(), |own| {
            let (own_made, answer) = own.schedule(table, &choices);
            (answer.map(|()| 0), own_made as u64 == *made)
        });
        let (wrapped_made, wrapped) = lent::schedule(table, pool, &choices);
        let same_words = pool == words.left() && wrapped_made as u64 == *made;
        self.answer(number, wrapped.map(|()| 0), same_words)
            .map(|_| ())
    }

    fn beat(
        &self,
        table: &[u8],
        pool: &mut [i32],
        pace: Wide,
        thread: u64,
    ) -> Result<(u8, u64), Refusal> {
        let number = self.beaten(table, pool, narrow_pace(pace), narrow_thread(thread));
        let (rule, promotions) = beat_in(answer_in(number)?);
        Ok((rule as u8, promotions.into()))
    }

    fn run(
        &self,
        table: &[u8],
        pool: &mut [i32],
        pace: Wide,
        threads: &[u64],
        made: &mut [u64; 2],
    ) -> Result<(), Refusal> {
        let pace = narrow_pace(pace);
        let threads: Vec<u32> = threads.iter().copied().map(narrow_thread).collect();
        let (mut bytes, mut words) = (Lent::new(table, BYTE), Lent::new(pool, WORD));
        let (mut list, mut counts) = (Lent::new(&threads, THREAD), Lent::new(&made[..], COUNT));
        let (t, p) = (bytes.pointer(), words.pointer());
        let (l, c) = (list.pointer(), counts.pointer());
        let number = unsafe {
            raw::mezdaulk_run(
                t,
                table.len(),
                p,
                pool.len(),
                pace.n,
                pace.c,
                l,
                threads.len(),
                c,
            )
        };
        made.copy_from_slice(counts.left());
        let stopped = threads.get(made[0] as usize).filter(|_| run_stops(number));
        let again =
            stopped.map(|&thread| self.beaten(table, &mut words.left().to_vec(), pace, thread));
        let step = plain_choices(table, (pool, words.left()), pace, THREAD, number).step;
        let all = threads.len() as u64;
        self.laws().run(
            table,
            number,
            (pool, words.left()),
            (*made, all),
            again,
            (pace, step),
        );
        let only_read = bytes.left() == table && list.left() == threads;
        let around = bytes.guarded() && words.guarded() && list.guarded() && counts.guarded();
        self.laws().memory(number, only_read, around);
        let same_made = |ran: mezdaulk::Ran| [ran.steps, ran.promotions] == *made;
        self.owned(number, pool, words.left(), |own| {
            let (ran, answer) = own.run(table, pace, &threads);
            (answer.map(|()| 0), same_made(ran))
        });
        let (ran, wrapped) = lent::run(table, pool, pace, &threads);
        let same_words = pool == words.left() && same_made(ran);
        self.answer(number, wrapped.map(|()| 0), same_words)
            .map(|_| ())
    }

    fn widest(&self) -> u64 {
        u32::MAX.into()
    }
}
