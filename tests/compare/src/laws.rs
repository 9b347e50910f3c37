//! What `crates/host/specs/Laws.antt` states and `include/mezdaulk.h` says of
//! the number that a call answered and of the memory lent to it.

use crate::lines::{depths, depths_in, erased, numbers_in, told};
use crate::purses::{after_beat, after_choice, masked, purses};
use mezdaulk::{Choice, Pace};
use oracle::tally::Tally;
use oracle::Refusal;

/// The header's constants and, below, its macros of a number answered.
const POOL_WORDS: usize = 1689;
const OUTPUT_BYTES: usize = 16_384;
const SCRATCH_WORDS: usize = 1_024;
const PROMOTE: u32 = 1;
const OPEN: u32 = 255;
const CYCLE: u8 = 22;
const ROOM: u8 = 23;
const LENT: u8 = 24;
const UNREACHED: u8 = 25;
const IMPOSSIBLE: u8 = 26;
const PACE: u8 = 27;
const LISTING: u8 = 28;
const OVERFLOW: u8 = 29;

fn is_given(number: u64) -> bool {
    number >> 32 & 1 == 1
}

fn value(number: u64) -> u32 {
    (number & 0xFFFF_FFFF) as u32
}

fn refused(number: u64) -> u8 {
    (number & 0xFF) as u8
}

fn place(number: u64) -> usize {
    (number >> 8 & 0xFF_FFFF) as usize
}

fn block(number: u64) -> usize {
    (number >> 8 & 0xFF) as usize
}

fn function(number: u64) -> usize {
    (number >> 16 & 0xFF) as usize
}

/// The rule and the promotions of a beat's value.
pub fn beat_in(value: u32) -> (u32, u32) {
    (value & 0xFF, value >> 8)
}

/// Whether a run stopped at a beat: 15 to 19 or 29.
pub fn run_stops(number: u64) -> bool {
    stops(number) && refused(number) != PACE
}

/// Whether a list of choices stopped at one: 14 and more.
pub fn stops(number: u64) -> bool {
    !is_given(number) && refused(number) >= 14
}

/// What the macros read in a number.
pub fn answer_in(number: u64) -> Result<u32, Refusal> {
    if is_given(number) {
        return Ok(value(number));
    }
    Err(match refused(number) {
        3 => Refusal::byte(place(number)),
        fault @ (4..=11 | UNREACHED | IMPOSSIBLE) => {
            Refusal::fault(fault, function(number), block(number))
        }
        plain => Refusal::plain(plain),
    })
}

/// A call, the values that it can give and the numbers it can refuse with, as
/// ranges. Every value must occur, but of a range of more than 128 some one.
pub struct Call {
    name: &'static str,
    values: &'static [(u32, u32)],
    numbers: &'static [(u8, u8)],
}

pub const READ: Call = call("read", &[(0, 0)], &[(1, 3)]);
pub const CHECK: Call = call("check", &[(0, 0)], &[(1, 11)]);
pub const DEPTH: Call = call("depth", &[(1, 16)], &[(1, 11), (CYCLE, CYCLE)]);
const TIDY: Call = call("tidy", &[LENGTHS], &[(1, 11), (ROOM, ROOM)]);
const COMPLETE: Call = call("complete", &[LENGTHS], &[(1, 3), (LENT, IMPOSSIBLE)]);
const START: Call = call("start", &[(0, 0)], &[(1, 3), (12, 12)]);
const CHOOSE: Call = call("choose", &[(1, 10)], &CHOICE_NUMBERS);
pub const WHICH: Call = call("which", &[(0, 8)], &[(1, 3), (12, 13)]);
const VALUES: Call = call("values", &[(0, 4), (OPEN, OPEN)], &[(1, 3), (12, 13)]);
pub const OPERATOR: Call = call("operator", &[OPERATOR_LENGTHS], &LISTING_NUMBERS);
pub const CUSTOMER: Call = call("customer", &[CUSTOMER_LENGTHS], &LISTING_NUMBERS);
const SCHEDULE: Call = call("schedule", &[(0, 0)], &CHOICE_NUMBERS);
const BEAT: Call = call("beat", &BEATS, &BEAT_NUMBERS);
const RUN: Call = call("run", &[(0, 0)], &BEAT_NUMBERS);

/// Rules 1 to 9 and no promotion, and 1 to 8 with 1 to 7: behind a join nothing
/// is left to promote.
const BEATS: [(u32, u32); 8] = [
    (1, 9),
    (0x101, 0x108),
    (0x201, 0x208),
    (0x301, 0x308),
    (0x401, 0x408),
    (0x501, 0x508),
    (0x601, 0x608),
    (0x701, 0x708),
];
const CHOICE_NUMBERS: [(u8, u8); 3] = [(1, 3), (12, 21), (OVERFLOW, OVERFLOW)];
const BEAT_NUMBERS: [(u8, u8); 5] = [
    (1, 3),
    (12, 13),
    (15, 19),
    (PACE, PACE),
    (OVERFLOW, OVERFLOW),
];

/// The lengths of listings: the line of a fresh pool, up to eight lines of 24
/// bytes, or of 254 with all values.
const OPERATOR_LENGTHS: (u32, u32) = (14, 8 * 24);
const CUSTOMER_LENGTHS: (u32, u32) = (14, 8 * 254);
const LISTING_NUMBERS: [(u8, u8); 3] = [(1, 3), (12, 13), (LISTING, LISTING)];

/// The lengths of accepted tables: a function of one block that returns, up to
/// the largest.
const LENGTHS: (u32, u32) = (17, 16_384);

const fn call(
    name: &'static str,
    values: &'static [(u32, u32)],
    numbers: &'static [(u8, u8)],
) -> Call {
    Call {
        name,
        values,
        numbers,
    }
}

impl Call {
    fn can(&self, answer: Result<u32, u8>) -> bool {
        match answer {
            Ok(value) => within(self.values, value),
            Err(number) => within(self.numbers, number),
        }
    }

    /// The name of an answer's event.
    fn event(&self, answer: Result<u32, u8>) -> String {
        let wide = |&&(from, to): &&(u32, u32)| to - from > 127;
        match answer {
            Ok(value) => match self.values.iter().find(wide) {
                Some((from, to)) => format!("{} gives {from} to {to}", self.name),
                None => format!("{} gives {}", self.name, shown(value)),
            },
            Err(number) => format!("{} refuses {number}", self.name),
        }
    }

    /// The events of all answers that there can be.
    fn events(&self) -> impl Iterator<Item = String> + '_ {
        let given = self.values.iter().flat_map(|&(from, to)| from..=to).map(Ok);
        let refused = self.numbers.iter().flat_map(|&(from, to)| from..=to);
        given
            .chain(refused.map(Err))
            .map(|answer| self.event(answer))
    }
}

/// A value, a beat's in its parts.
fn shown(value: u32) -> String {
    match beat_in(value) {
        (value, 0) => value.to_string(),
        (rule, promotions) => format!("{rule} and {promotions} promotions"),
    }
}

fn within<T: PartialOrd>(ranges: &[(T, T)], number: T) -> bool {
    ranges
        .iter()
        .any(|(from, to)| *from <= number && number <= *to)
}

const UNUSED: &str = "law: unused bits are 0";
const PLACED: &str = "law: the place of a 3 is in the table or its length";
const AT_BLOCK: &str = "law: a fault at a block below 32";
const AT_SPAWN: &str = "law: a fault at a spawn call, with block 255";
const AT_MAIN: &str = "law: a fault of main, with block 255";
const FUNCTION: &str = "law: a fault's function is one of the table's";
const ACCEPTED: &str = "law: a depth or 22 exactly where the check accepts";
const REFUSED: &str = "law: a depth refused as the check is";
const FUNCTIONS: &str = "law: a depth of at most the table's functions";
const TIDIED: &str = "law: a tidy table or 23 exactly where the check accepts";
const UNTIDIED: &str = "law: a tidy table refused as the check is";
const FITS: &str = "law: a tidy table within the output, its length in its field";
const SHORTER: &str = "law: a tidy table no longer than the table";
const PAST: &str = "law: the output past the tidy table stays";
const NO_TIDY: &str = "law: a refused tidy table leaves the output";
const COMPLETED: &str = "law: a completed table accepted, its length in its field";
const LONGER: &str =
    "law: a completed table longer by 3 bytes at least, and 7 for 512 blocks at most";
const ZEROS: &str = "law: the output past the completed table is 0";
const NOT_COMPLETED: &str = "law: a refused completion leaves the output";
const CLEARED: &str = "law: a completion leaves 1,024 words of 0";
const UNUSED_WORDS: &str = "law: a completion refused with 1 to 3 or 24 leaves the words";
const KEPT_WORDS: &str = "law: a completion leaves the words past 1,024";
const LENT_WELL: &str = "law: 24 exactly where too few words or other bytes are lent";
const AT_UNREACHED: &str = "law: 25 at a block";
const AT_FUNCTION: &str = "law: 26 at a function, with block 255";
const OTHER_CALLS: &str = "law: every other call gives version 2 its 2";
const FRESH: &str = "law: a start leaves a fresh pool";
const NO_START: &str = "law: a refused start leaves the words";
const STEPS: &str = "law: a step makes one of rules 1 to 9";
const PROMOTES: &str = "law: a promotion makes rule 10";
const NO_CHOICE: &str = "law: a refused choice leaves the words";
const OVER: &str = "law: 29 is a step's alone";
const ALL_MADE: &str = "law: a given schedule made all choices";
const NONE_MADE: &str = "law: a schedule refused below 14 made and wrote nothing";
const STOPPED: &str = "law: the choice that stopped a schedule gets the same number";
const BEHIND: &str = "law: words behind main's values stay";
const NO_VALUES: &str = "law: open values write nothing";
const UNANSWERED: &str = "law: refused values write nothing";
const PURSES: &str = "law: a choice leaves work and tokens to every thread that stays";
const PACED: &str = "law: 27 exactly where N or C is out of range";
const BEATEN: &str = "law: a beat deals work and tokens as is due";
const AS_CHOICES: &str = "law: a beat is its step and promotions, but for work and tokens";
const NO_MORE: &str = "law: no token is left behind a beat, or nothing to promote";
const NO_BEAT: &str = "law: a beat is refused as its step, and leaves the words";
const ALL_RUN: &str = "law: a given run made a step of each thread";
const NONE_RUN: &str = "law: a run refused below 15 or with 27 made and wrote nothing";
const RUN_STOPPED: &str = "law: the beat that stopped a run gets the same number";
const FEW_MADE: &str = "law: a run made at most 7 promotions a step";
const LISTED: &str = "law: a listing within the output, its length the value";
const PAST_LISTING: &str = "law: the output past the listing stays";
const NO_LISTING: &str = "law: a refused listing leaves the output";
const SHORT: &str = "law: 28 exactly where the output is shorter than the listing";
const ROOMY: &str = "law: 4,096 bytes have room for every listing";
const UNLISTED: &str = "law: a listing refused below 28 in every output, by both calls";
const LINES: &str = "law: a line tells the words of its thread and of its newest frame";
const DEPTHS: &str = "law: a line one space deeper than its parent's";
const ERASED: &str = "law: the operator's lines are the customer's without the values";
const ONLY_READ: &str = "law: what is only read stays";
const AROUND: &str = "law: memory around what is lent stays";
const WRAPPED: &str = "law: the wrapper answers and writes the same";
const OWNED: &str = "law: the wrapper's own pool answers and writes the same";

const LAWS: [&str; 61] = [
    UNUSED,
    PLACED,
    AT_BLOCK,
    AT_SPAWN,
    AT_MAIN,
    FUNCTION,
    ACCEPTED,
    REFUSED,
    FUNCTIONS,
    TIDIED,
    UNTIDIED,
    FITS,
    SHORTER,
    PAST,
    NO_TIDY,
    COMPLETED,
    LONGER,
    ZEROS,
    NOT_COMPLETED,
    CLEARED,
    UNUSED_WORDS,
    KEPT_WORDS,
    LENT_WELL,
    AT_UNREACHED,
    AT_FUNCTION,
    OTHER_CALLS,
    FRESH,
    NO_START,
    STEPS,
    PROMOTES,
    NO_CHOICE,
    OVER,
    ALL_MADE,
    NONE_MADE,
    STOPPED,
    BEHIND,
    NO_VALUES,
    UNANSWERED,
    PURSES,
    PACED,
    BEATEN,
    AS_CHOICES,
    NO_MORE,
    NO_BEAT,
    ALL_RUN,
    NONE_RUN,
    RUN_STOPPED,
    FEW_MADE,
    LISTED,
    PAST_LISTING,
    NO_LISTING,
    SHORT,
    ROOMY,
    UNLISTED,
    LINES,
    DEPTHS,
    ERASED,
    ONLY_READ,
    AROUND,
    WRAPPED,
    OWNED,
];

/// What must occur: every law, and every answer of every call.
pub fn events() -> Vec<String> {
    let calls = [
        READ, CHECK, DEPTH, TIDY, COMPLETE, START, CHOOSE, WHICH, VALUES, OPERATOR, CUSTOMER,
        SCHEDULE, BEAT, RUN,
    ];
    LAWS.iter()
        .map(|law| law.to_string())
        .chain(calls.iter().flat_map(Call::events))
        .collect()
}

/// A beat that was put, and plain choices on a copy.
pub struct Beaten<'a> {
    pub pace: Pace,
    pub thread: u32,
    /// The words before and afterwards.
    pub words: &'a [i32],
    pub left: &'a [i32],
    /// What a plain step got, whether as many promotions behind it as the beat
    /// made were made too, the words of these, and what one more promotion got.
    pub step: u64,
    pub promoted: bool,
    pub chosen: Vec<i32>,
    pub next: u64,
}

/// What a call left that was lent room for every listing.
pub struct Whole {
    pub number: u64,
    pub left: Vec<u8>,
}

impl Whole {
    /// The bytes of the listing; none where it was refused.
    pub fn listing(&self) -> &[u8] {
        let length = if is_given(self.number) {
            value(self.number) as usize
        } else {
            0
        };
        &self.left[..length.min(self.left.len())]
    }
}

/// What was asserted since it was last counted.
#[derive(Default)]
pub struct Laws {
    answers: Vec<(&'static Call, u64)>,
    asserted: Vec<(&'static str, bool, u64)>,
}

impl Laws {
    /// Counts the answers and what was asserted of them.
    pub fn count(&mut self, tally: &mut Tally) {
        for (call, number) in self.answers.drain(..) {
            let answer = answer_in(number).map_err(|refusal| refusal.number);
            let can = call.can(answer);
            tally.expect(can, || format!("{} answers {number:#x}", call.name));
            if !can {
                continue;
            }
            tally.event(&call.event(answer));
            match answer {
                Ok(_) if call.name != CHOOSE.name => {}
                _ => tally.answer(answer.map(|rule| rule as u8)),
            }
        }
        for (law, holds, number) in self.asserted.drain(..) {
            tally.expect(holds, || format!("{law}: {number:#x} answered"));
            tally.event(law);
        }
    }

    fn assert(&mut self, law: &'static str, number: u64, holds: bool) {
        self.asserted.push((law, holds, number));
    }

    /// Of the number alone, and of the place that a refusal has in a table.
    pub fn answer(&mut self, call: &'static Call, table: &[u8], number: u64) {
        self.answers.push((call, number));
        let used = match refused(number) {
            _ if is_given(number) => 33,
            3 => 32,
            4..=11 | UNREACHED | IMPOSSIBLE => 24,
            _ => 8,
        };
        self.assert(UNUSED, number, number >> used == 0);
        match refused(number) {
            _ if is_given(number) => {}
            3 => {
                let bytes = table.len();
                let read = (6..=16_384).contains(&bytes);
                self.assert(PLACED, number, read && place(number) <= bytes);
            }
            4..=11 | UNREACHED | IMPOSSIBLE => self.fault(table, number),
            _ => {}
        }
    }

    fn fault(&mut self, table: &[u8], number: u64) {
        let functions = usize::from(*table.get(5).unwrap_or(&0));
        let there = function(number) < functions && functions <= 16;
        self.assert(FUNCTION, number, there);
        let fault = refused(number);
        match block(number) {
            255 if fault == IMPOSSIBLE => self.assert(AT_FUNCTION, number, true),
            block if fault == UNREACHED || fault == IMPOSSIBLE => {
                let entry = block == 0 || fault == IMPOSSIBLE;
                self.assert(AT_UNREACHED, number, !entry && block < 32);
            }
            255 if fault == 4 => self.assert(AT_MAIN, number, function(number) == 0),
            255 => self.assert(AT_SPAWN, number, matches!(fault, 6 | 9)),
            block => self.assert(AT_BLOCK, number, fault != 4 && block < 32),
        }
    }

    /// A depth's number beside the one that the check answered for the same
    /// table.
    pub fn depth(&mut self, table: &[u8], number: u64, checked: u64) {
        let depth = is_given(number) || refused(number) == CYCLE;
        self.assert(ACCEPTED, number, is_given(checked) == depth);
        if !depth {
            self.assert(REFUSED, number, number == checked);
        } else if is_given(number) {
            let functions = *table.get(5).unwrap_or(&0);
            self.assert(FUNCTIONS, number, value(number) <= functions.into());
        }
    }

    /// The number of a tidy table beside the one that the check answered, and
    /// the output before and afterwards.
    pub fn tidy(&mut self, table: &[u8], number: u64, checked: u64, out: &[u8], left: &[u8]) {
        self.answer(&TIDY, table, number);
        let tidied = is_given(number) || refused(number) == ROOM;
        self.assert(TIDIED, number, is_given(checked) == tidied);
        if !tidied {
            self.assert(UNTIDIED, number, number == checked);
        }
        if !is_given(number) {
            self.assert(NO_TIDY, number, left == out);
            return;
        }
        let length = value(number);
        let end = (length as usize).min(left.len());
        let field = left.starts_with(&length.to_be_bytes());
        self.assert(FITS, number, length as usize == end && field);
        self.assert(SHORTER, number, end <= table.len());
        self.assert(PAST, number, left[end..] == out[end..]);
    }

    /// The number of a completion, the output and the scratch before and
    /// afterwards, and what the check answers to the table written.
    pub fn complete(
        &mut self,
        table: &[u8],
        number: u64,
        (out, left): (&[u8], &[u8]),
        (words, words_left): (&[u32], &[u32]),
        checked: Option<u64>,
    ) {
        self.answer(&COMPLETE, table, number);
        let lent = out.len() == OUTPUT_BYTES && words.len() >= SCRATCH_WORDS;
        let read = is_given(number) || refused(number) >= LENT;
        if read {
            let well = is_given(number) || refused(number) != LENT;
            self.assert(LENT_WELL, number, lent == well);
        }
        if read && lent {
            let (used, kept) = words_left.split_at(SCRATCH_WORDS);
            self.assert(CLEARED, number, used.iter().all(|&word| word == 0));
            self.assert(KEPT_WORDS, number, *kept == words[SCRATCH_WORDS..]);
        } else {
            self.assert(UNUSED_WORDS, number, words_left == words);
        }
        if !is_given(number) {
            self.assert(NOT_COMPLETED, number, left == out);
            return;
        }
        let length = value(number);
        let end = (length as usize).min(left.len());
        let field = left.starts_with(&length.to_be_bytes());
        let accepted = checked.is_some_and(is_given);
        self.assert(COMPLETED, number, field && accepted);
        let more = end.wrapping_sub(table.len());
        self.assert(LONGER, number, (3..=7 * 512).contains(&more));
        self.assert(ZEROS, number, left[end..].iter().all(|&byte| byte == 0));
    }

    /// What every other call answers to a table of version 2 that 1 does not
    /// come to.
    pub fn other_calls(&mut self, answers: &[Option<u8>]) {
        for &answer in answers {
            let number = u64::from(answer.unwrap_or(0));
            self.assert(OTHER_CALLS, number, answer == Some(2));
        }
    }

    /// The words before and afterwards.
    pub fn start(&mut self, table: &[u8], words: &[i32], number: u64, left: &[i32]) {
        self.answer(&START, table, number);
        if is_given(number) {
            let begun = left.len() == POOL_WORDS && left.starts_with(&[1, 1]);
            let rest = left.iter().skip(2).all(|&word| word == 0);
            self.assert(FRESH, number, begun && rest);
        } else {
            self.assert(NO_START, number, left == words);
        }
    }

    pub fn choose(
        &mut self,
        table: &[u8],
        words: &[i32],
        choice: Choice,
        number: u64,
        left: &[i32],
    ) {
        self.answer(&CHOOSE, table, number);
        if !is_given(number) && refused(number) == OVERFLOW {
            self.assert(OVER, number, choice.kind == 0);
        }
        match choice.kind {
            _ if !is_given(number) => self.assert(NO_CHOICE, number, left == words),
            PROMOTE => self.assert(PROMOTES, number, value(number) == 10),
            kind => {
                let rule = (1..=9).contains(&value(number));
                self.assert(STEPS, number, kind == 0 && rule);
            }
        }
        if is_given(number) {
            let due = after_choice(words, choice.thread as usize, value(number));
            self.assert(PURSES, number, purses(left) == due);
        }
    }

    /// A beat beside plain choices.
    pub fn beat(&mut self, table: &[u8], number: u64, beaten: &Beaten) {
        self.answer(&BEAT, table, number);
        let Beaten {
            pace, words, left, ..
        } = *beaten;
        self.paced(number, pace, beaten.step);
        if !is_given(number) {
            let same = refused(number) == PACE || number == beaten.step;
            self.assert(NO_BEAT, number, same && left == words);
            return;
        }
        let (rule, promotions) = beat_in(value(number));
        let stepped = answer_in(beaten.step) == Ok(rule);
        let same = masked(left) == masked(&beaten.chosen);
        self.assert(AS_CHOICES, number, stepped && beaten.promoted && same);
        let thread = beaten.thread as usize;
        let left = purses(left);
        let due = after_beat(words, thread, pace, rule, promotions);
        self.assert(BEATEN, number, due.is_some_and(|due| due.purses == left));
        let none = left.get(thread).is_some_and(|own| own.tokens == 0);
        let over = matches!(refused(beaten.next), 19..=21) && !is_given(beaten.next);
        self.assert(NO_MORE, number, none || over);
    }

    /// A number that a beat or a run got, by its pace, and the number that a
    /// step of some thread gets.
    fn paced(&mut self, number: u64, pace: Pace, step: u64) {
        let fits = (1..=65_535).contains(&pace.n) && (1..=255).contains(&pace.c);
        let before = !is_given(step) && refused(step) < 14;
        let due = !fits && !before;
        let given = !is_given(number) && refused(number) == PACE;
        self.assert(PACED, number, due == given);
    }

    /// How many steps and promotions were made, of how many threads; the number
    /// that the beat gets that stopped it, put to the words left; and the number
    /// that a step of some thread gets.
    pub fn run(
        &mut self,
        table: &[u8],
        number: u64,
        (words, left): (&[i32], &[i32]),
        (made, all): ([u64; 2], u64),
        again: Option<u64>,
        (pace, step): (Pace, u64),
    ) {
        self.answer(&RUN, table, number);
        self.paced(number, pace, step);
        self.assert(FEW_MADE, number, made[1] <= made[0].saturating_mul(7));
        if is_given(number) {
            self.assert(ALL_RUN, number, made[0] == all);
        } else if run_stops(number) {
            self.assert(RUN_STOPPED, number, again == Some(number));
        } else {
            self.assert(NONE_RUN, number, made == [0, 0] && left == words);
        }
    }

    /// The words lent for main's values before and afterwards.
    pub fn values(&mut self, table: &[u8], room: &[i32], number: u64, left: &[i32]) {
        self.answer(&VALUES, table, number);
        if !is_given(number) {
            self.assert(UNANSWERED, number, left == room);
        } else if value(number) == OPEN {
            self.assert(NO_VALUES, number, left == room);
        } else {
            let count = (value(number) as usize).min(room.len());
            self.assert(BEHIND, number, left[count..] == room[count..]);
        }
    }

    /// The number of a listing, the output before and afterwards, and what the
    /// same call left in an output with room for every listing.
    pub fn listing(
        &mut self,
        call: &'static Call,
        table: &[u8],
        number: u64,
        (out, left): (&[u8], &[u8]),
        whole: &Whole,
    ) {
        self.answer(call, table, number);
        let short = is_given(whole.number) && out.len() < whole.listing().len();
        let told = !is_given(number) && refused(number) == LISTING;
        self.assert(SHORT, number, short == told);
        if !is_given(number) {
            self.assert(NO_LISTING, number, left == out);
            return;
        }
        let length = value(number) as usize;
        let end = length.min(left.len());
        let same = number == whole.number && left[..end] == *whole.listing();
        self.assert(LISTED, number, length == end && same);
        self.assert(PAST_LISTING, number, left[end..] == out[end..]);
    }

    /// Both listings of words, in outputs with room for every listing.
    pub fn listings(&mut self, words: &[i32], operator: &Whole, customer: &Whole) {
        for whole in [operator, customer] {
            let room = is_given(whole.number) || refused(whole.number) != LISTING;
            self.assert(ROOMY, whole.number, room);
        }
        if !is_given(operator.number) || !is_given(customer.number) {
            let same = operator.number == customer.number;
            self.assert(UNLISTED, operator.number, same);
            return;
        }
        let (bytes, number) = (customer.listing(), customer.number);
        let told = told(words);
        self.assert(LINES, number, told.is_some() && told == numbers_in(bytes));
        let deep = told.is_some() && depths(words) == depths_in(bytes);
        self.assert(DEPTHS, number, deep);
        let erased = erased(bytes);
        self.assert(ERASED, operator.number, erased == operator.listing());
    }

    /// How many choices were made, of how many; and the number that the
    /// choice gets that stopped it, put to the words left.
    pub fn schedule(
        &mut self,
        table: &[u8],
        words: &[i32],
        number: u64,
        left: &[i32],
        (made, all): (u64, u64),
        again: Option<u64>,
    ) {
        self.answer(&SCHEDULE, table, number);
        if is_given(number) {
            self.assert(ALL_MADE, number, made == all);
        } else if stops(number) {
            self.assert(STOPPED, number, again == Some(number));
        } else {
            self.assert(NONE_MADE, number, made == 0 && left == words);
        }
    }

    /// Whether what is only read stays, and the memory around what is lent.
    pub fn memory(&mut self, number: u64, only_read: bool, around: bool) {
        self.assert(ONLY_READ, number, only_read);
        self.assert(AROUND, number, around);
    }

    /// Whether the wrapper answers what the macros read, and writes the same.
    pub fn wrapped(&mut self, number: u64, holds: bool) {
        self.assert(WRAPPED, number, holds);
    }

    /// Whether the wrapper's call on a pool of its own does.
    pub fn owned(&mut self, number: u64, holds: bool) {
        self.assert(OWNED, number, holds);
    }
}
