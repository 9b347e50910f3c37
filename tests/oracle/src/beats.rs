//! Beats and runs: steps that earn tokens, and the promotions that these pay.
//!
//! A beat is worked out as a ledger of its thread's tokens. How many promotions
//! the pool has room for is tried on a copy, how many the tokens pay for is the
//! number of their binary digits, and what the ledger says is then done to the
//! tree.

use crate::pool::{Pool, Purse, Thread, MAX_TOKENS};
use crate::rules::{self, Rule, PROMOTE, STEP};
use crate::table::Program;

/// The number of a refusal: N or C out of range.
pub const PACE: u8 = 27;
/// The most that N and C are; both are at least 1.
pub const MAX_N: u64 = 65_535;
pub const MAX_C: u64 = 255;

/// How tokens come: C of them for N steps.
#[derive(Clone, Copy, Debug, PartialEq, Eq)]
pub struct Pace {
    pub n: u64,
    pub c: u64,
}

impl Pace {
    /// Whether N and C are in range.
    pub fn fits(self) -> bool {
        (1..=MAX_N).contains(&self.n) && (1..=MAX_C).contains(&self.c)
    }

    fn judged(self) -> Result<(), u8> {
        self.fits().then_some(()).ok_or(PACE)
    }
}

/// What happens to a thread's tokens.
#[derive(Clone, Copy, Debug, PartialEq, Eq)]
pub enum Entry {
    /// A joined child hands back what it has.
    HandedBack(u64),
    /// C tokens come.
    Came(u64),
    /// So many, which have just arrived, are more than a purse holds.
    Dropped(u64),
    /// One pays a promotion.
    Paid,
    /// So many move to the child just promoted.
    Moved(u64),
}

/// The tokens of a thread during a beat: what it had, and what happened in
/// order.
#[derive(Clone, Debug, PartialEq, Eq)]
pub struct Ledger {
    pub opening: u64,
    pub entries: Vec<Entry>,
}

impl Ledger {
    fn open(tokens: u32) -> Self {
        Ledger {
            opening: tokens.into(),
            entries: Vec::new(),
        }
    }

    /// The tokens that the thread has.
    pub fn balance(&self) -> u64 {
        let sum = |(arrived, gone): (u64, u64), entry: &Entry| match *entry {
            Entry::HandedBack(tokens) | Entry::Came(tokens) => (arrived + tokens, gone),
            Entry::Dropped(tokens) | Entry::Moved(tokens) => (arrived, gone + tokens),
            Entry::Paid => (arrived, gone + 1),
        };
        let (arrived, gone) = self.entries.iter().fold((self.opening, 0), sum);
        arrived - gone
    }

    /// Tokens arrive; what a purse does not hold is dropped.
    fn arrive(&mut self, arrival: Entry) {
        self.entries.push(arrival);
        let above = self.balance().saturating_sub(MAX_TOKENS.into());
        if above > 0 {
            self.entries.push(Entry::Dropped(above));
        }
    }

    /// Promotions, as many as there is room for and tokens pay. One pays, and
    /// half of the rest, rounded down, moves: of t tokens half, rounded down,
    /// stay. So t pay for as many as they have binary digits.
    fn promote(&mut self, room: u32) {
        let tokens = self.balance();
        let digits = u64::BITS - tokens.leading_zeros();
        for made in 0..digits.min(room) {
            let (before, stay) = (tokens >> made, tokens >> (made + 1));
            self.entries.push(Entry::Paid);
            self.entries.push(Entry::Moved(before - 1 - stay));
        }
    }

    /// What the children just promoted have, oldest first.
    fn moved(&self) -> impl Iterator<Item = u64> + '_ {
        self.entries.iter().filter_map(|entry| match entry {
            Entry::Moved(tokens) => Some(*tokens),
            _ => None,
        })
    }

    /// How many promotions were paid.
    pub fn paid(&self) -> u64 {
        let paid = |entry: &&Entry| **entry == Entry::Paid;
        self.entries.iter().filter(paid).count() as u64
    }

    /// How many tokens were dropped.
    pub fn dropped(&self) -> u64 {
        let dropped = |entry: &Entry| match entry {
            Entry::Dropped(tokens) => *tokens,
            _ => 0,
        };
        self.entries.iter().map(dropped).sum()
    }
}

/// A beat that was made.
#[derive(Clone, Debug, PartialEq, Eq)]
pub struct Beat {
    /// The step's rule.
    pub rule: Rule,
    pub ledger: Ledger,
    /// The work that the thread had done before.
    pub worked: u32,
    /// The work of a joined child, which is lost.
    pub lost: u32,
    /// What ended the promotions where a token was left.
    pub stopped: Option<u8>,
}

/// Makes one beat, or gives its refusal's number and changes nothing: 27, and
/// those of the step.
pub fn beat(program: &Program, pool: &mut Pool, pace: Pace, thread: u64) -> Result<Beat, u8> {
    beat_as(program, pool, pace, thread, None)
}

/// The same of a beat whose step has a number, as `rules::choose_as`.
pub fn beat_as(
    program: &Program,
    pool: &mut Pool,
    pace: Pace,
    thread: u64,
    number: Option<u64>,
) -> Result<Beat, u8> {
    pace.judged()?;
    let newest = named(pool, thread).and_then(|own| own.children.last().map(|child| child.purse));
    let rule = rules::choose_as(program, pool, STEP, thread, number)?;
    let joined = newest.filter(|_| rule == Rule::Prom);
    let own = named(pool, thread).expect("a thread that stepped");
    let Purse { work, tokens } = own.purse;
    let mut ledger = Ledger::open(tokens);
    if let Some(child) = joined {
        ledger.arrive(Entry::HandedBack(child.tokens.into()));
    }
    let earns = u64::from(work) + 1 >= pace.n;
    own.purse.work = if earns { 0 } else { work + 1 };
    if earns {
        ledger.arrive(Entry::Came(pace.c));
    }
    let stopped = pay(program, pool, thread, &mut ledger);
    Ok(Beat {
        rule,
        ledger,
        worked: work,
        lost: joined.map_or(0, |child| child.work),
        stopped,
    })
}

/// Makes the promotions that a ledger's tokens pay, enters them, and sets the
/// purses of the thread and of its new children; gives what ended them where a
/// token is left.
fn pay(program: &Program, pool: &mut Pool, thread: u64, ledger: &mut Ledger) -> Option<u8> {
    let (mut room, mut end) = (0, None);
    if ledger.balance() > 0 {
        (room, end) = promotable(program, pool, thread);
    }
    ledger.promote(room);
    for _ in 0..ledger.paid() {
        let promoted = rules::choose(program, pool, PROMOTE, thread);
        promoted.expect("a promotion that was tried");
    }
    let own = named(pool, thread).expect("a thread that stepped");
    let amount = |tokens: u64| u32::try_from(tokens).expect("a purse's tokens");
    own.purse.tokens = amount(ledger.balance());
    let newest = own.children.iter_mut().rev().take(ledger.paid() as usize);
    let moved: Vec<u64> = ledger.moved().collect();
    for (child, &tokens) in newest.zip(moved.iter().rev()) {
        child.purse.tokens = amount(tokens);
    }
    end.filter(|_| ledger.balance() > 0)
}

/// How many promotions of a thread would be made, one after another, and what
/// refuses the next.
fn promotable(program: &Program, pool: &Pool, thread: u64) -> (u32, Option<u8>) {
    let mut copy = pool.clone();
    let mut made = 0;
    loop {
        match rules::choose(program, &mut copy, PROMOTE, thread) {
            Ok(_) => made += 1,
            Err(number) => return (made, Some(number)),
        }
    }
}

/// A thread by any number.
fn named(pool: &mut Pool, thread: u64) -> Option<&mut Thread> {
    pool.thread_mut(usize::try_from(thread).ok()?)
}

/// What the beats of a run came to.
#[derive(Clone, Debug, Default, PartialEq, Eq)]
pub struct Account {
    pub steps: u64,
    pub promotions: u64,
    /// Tokens that no purse held.
    pub dropped: u64,
    /// The work of joined children.
    pub lost: u64,
}

impl Account {
    /// A beat was made.
    pub fn enter(&mut self, beat: &Beat) {
        self.steps += 1;
        self.promotions += beat.ledger.paid();
        self.dropped += beat.ledger.dropped();
        self.lost += u64::from(beat.lost);
    }

    /// Whether promotions times N are at most C times steps.
    pub fn bounded(&self, pace: Pace) -> bool {
        self.promotions * pace.n <= pace.c * self.steps
    }

    /// Whether C times steps are N times all tokens that came, wherever they
    /// are, and C times the work that has earned nothing; of a run from a fresh
    /// pool that left these purses.
    pub fn balances(&self, pace: Pace, purses: &[Purse]) -> bool {
        let held: u64 = purses.iter().map(|purse| u64::from(purse.tokens)).sum();
        let work: u64 = purses.iter().map(|purse| u64::from(purse.work)).sum();
        let tokens = self.promotions + held + self.dropped;
        pace.c * self.steps == pace.n * tokens + pace.c * (work + self.lost)
    }
}

/// Makes beats up to the first refused; gives what they came to, and that
/// refusal if any.
pub fn run(
    program: &Program,
    pool: &mut Pool,
    pace: Pace,
    threads: &[u64],
) -> (Account, Option<u8>) {
    let mut account = Account::default();
    let mut refusal = pace.judged().err();
    for &thread in threads {
        if refusal.is_some() {
            break;
        }
        match beat(program, pool, pace, thread) {
            Ok(beat) => account.enter(&beat),
            Err(number) => refusal = Some(number),
        }
    }
    (account, refusal)
}
