//! A pool that has its own words.

use crate::lent;
use crate::listing::listed;
use crate::raw::Choice;
use crate::{Beat, Pace, Ran, Reason, Refusal, Rule};
use std::fmt;
use std::ops::Deref;

/// The words of a pool, 6,756 bytes without a heap.
///
/// A pool belongs to the table that started it, and each call takes that table again. The calls judge the words, so a pool from
/// elsewhere is refused if it is none of the table ([`Reason::Pool`]); but the theorem on accepted tables speaks of a pool that
/// was started from the table and that only these calls have written.
#[derive(Clone, PartialEq, Eq)]
pub struct Pool {
    words: [i32; Pool::WORDS],
}

impl Pool {
    /// How many words a pool has.
    pub const WORDS: usize = 1689;

    /// A fresh pool of a table that reads. Refused: 1 to 3.
    pub fn start(table: &[u8]) -> Result<Pool, Refusal> {
        let mut pool = Pool {
            words: [0; Pool::WORDS],
        };
        pool.restart(table)?;
        Ok(pool)
    }

    /// Makes the pool a fresh one, of this table or another. Refused: 1 to 3, and the pool is then as it was.
    pub fn restart(&mut self, table: &[u8]) -> Result<(), Refusal> {
        lent::start(table, &mut self.words)
    }

    /// A pool whose words were stored; they are judged by the calls, not here. Refused: 12.
    ///
    /// ```
    /// use mezdaulk::{Pool, Reason};
    /// assert_eq!(Pool::from_words(&[1, 1]).unwrap_err().reason(), Reason::Words);
    /// ```
    pub fn from_words(words: &[i32]) -> Result<Pool, Refusal> {
        match words.try_into() {
            Ok(words) => Ok(Pool { words }),
            Err(_) => Err(Refusal::plain(Reason::Words)),
        }
    }

    /// The words, to be stored.
    pub fn words(&self) -> &[i32; Pool::WORDS] {
        &self.words
    }

    /// One choice. Refused: 1 to 3, 13 to 21 or 29, and the pool is then as it was.
    pub fn choose(&mut self, table: &[u8], choice: Choice) -> Result<Rule, Refusal> {
        lent::choose(table, &mut self.words, choice)
    }

    /// A step of a thread: one of rules 1 to 9. Refused: 1 to 3, 13, 15 to 19 or 29.
    pub fn step(&mut self, table: &[u8], thread: u32) -> Result<Rule, Refusal> {
        self.choose(table, Choice::step(thread))
    }

    /// A promotion of a thread's oldest unpromoted call: rule 10. The child is put directly after its parent, and the threads
    /// behind it move on by one. Refused: 1 to 3, 13, 15, 19 to 21.
    pub fn promote(&mut self, table: &[u8], thread: u32) -> Result<Rule, Refusal> {
        self.choose(table, Choice::promote(thread))
    }

    /// Choices up to the first refusal: how many were made, and that refusal, 1 to 3, 13 to 21 or 29. What they did stays.
    ///
    /// ```
    /// use mezdaulk::{Choice, Pool, Reason};
    /// # let table = [
    /// #     0, 0, 0, 30, 1, 1, 0, 1, 1, 0, 0, 0, 0, 0, 1, 0, 2, 0, 0, 0, 0, 2, 0, 0, 0, 0, 3, 3, 1, 0,
    /// # ];
    /// let mut pool = Pool::start(&table)?;
    /// let (made, answer) = pool.schedule(&table, &[Choice::step(0), Choice::promote(0)]);
    /// assert_eq!(made, 1);
    /// assert_eq!(answer.unwrap_err().reason(), Reason::Promoted);
    /// # Ok::<(), mezdaulk::Refusal>(())
    /// ```
    pub fn schedule(&mut self, table: &[u8], choices: &[Choice]) -> (usize, Result<(), Refusal>) {
        lent::schedule(table, &mut self.words, choices)
    }

    /// One beat: a step of a thread, and then promotions of it for its tokens. Where the step is made, the tokens of the child that it
    /// joined come to the thread; its work grows by 1, and at `n` or more returns to 0 and `c` tokens come; what would be above
    /// 2,000,000,000 is dropped. Then, as long as the thread has a token and a promotion of it would be made, that is made for one token,
    /// and half of those left, rounded down, go to the child. Refused: 1 to 3, 13, 27 for a [`Pace`] out of range, 15 to 19 or 29 as a
    /// step is, and the pool is then as it was.
    ///
    /// ```
    /// use mezdaulk::{Beat, Pace, Pool, Reason, Rule};
    ///
    /// // A spork: main returns 1 if it is not promoted, 7 if it is.
    /// let table = [
    ///     0, 0, 0, 72, 1, 2, 0, 1, 4, 1, 1, 0, 0, 0, 0, 0, 0, 4, 1, 0, 0, 0, 0, 1, 0, 0, 5, 2, 3, 0, 0, 0, 0, 1, 0, 0,
    ///     0, 0, 0, 0, 1, 3, 1, 0, 1, 0, 0, 0, 0, 0, 3, 1, 0, 0, 1, 1, 0, 0, 0, 0, 0, 1, 0, 0, 0, 0, 0, 0, 7, 3, 1, 0,
    /// ];
    /// let every_step = Pace { n: 1, c: 1 };
    /// let mut pool = Pool::start(&table)?;
    /// assert_eq!(pool.beat(&table, every_step, 0)?, Beat { rule: Rule::Spork, promotions: 1 });
    /// assert_eq!(pool.beat(&table, every_step, 0).unwrap_err().reason(), Reason::Waits);
    /// assert_eq!(pool.beat(&table, every_step, 1)?, Beat { rule: Rule::Stmt, promotions: 0 });
    /// assert_eq!(pool.beat(&table, every_step, 0)?, Beat { rule: Rule::Prom, promotions: 0 });
    /// assert_eq!(*pool.values(&table)?.expect("main has returned"), [7]);
    /// # Ok::<(), mezdaulk::Refusal>(())
    /// ```
    pub fn beat(&mut self, table: &[u8], pace: Pace, thread: u32) -> Result<Beat, Refusal> {
        lent::beat(table, &mut self.words, pace, thread)
    }

    /// A beat of each thread of a list, up to the first refusal: the steps and promotions made, and that refusal, 1 to 3, 13, 27, 15 to
    /// 19 or 29. What they did stays. In a run from a fresh pool the promotions times `n` are at most `c` times the steps.
    ///
    /// ```
    /// use mezdaulk::{Pace, Pool, Ran, Reason};
    /// # let table = [
    /// #     0, 0, 0, 72, 1, 2, 0, 1, 4, 1, 1, 0, 0, 0, 0, 0, 0, 4, 1, 0, 0, 0, 0, 1, 0, 0, 5, 2, 3, 0, 0, 0, 0, 1, 0, 0,
    /// #     0, 0, 0, 0, 1, 3, 1, 0, 1, 0, 0, 0, 0, 0, 3, 1, 0, 0, 1, 1, 0, 0, 0, 0, 0, 1, 0, 0, 0, 0, 0, 0, 7, 3, 1, 0,
    /// # ];
    /// let mut pool = Pool::start(&table)?;
    /// let (made, answer) = pool.run(&table, Pace { n: 1, c: 1 }, &[0, 1, 0, 0]);
    /// assert_eq!(made, Ran { steps: 3, promotions: 1 });
    /// assert_eq!(answer.unwrap_err().reason(), Reason::Ended);
    /// assert_eq!(*pool.values(&table)?.expect("main has returned"), [7]);
    /// # Ok::<(), mezdaulk::Refusal>(())
    /// ```
    pub fn run(&mut self, table: &[u8], pace: Pace, threads: &[u32]) -> (Ran, Result<(), Refusal>) {
        lent::run(table, &mut self.words, pace, threads)
    }

    /// The lowest-numbered thread whose step makes a rule, or none exactly if there is none. Two runs of plain steps, each of the thread
    /// that it names, with one table and from equal pools, make the same rules and pools, as far as both go. Refused: 1 to 3, 13. Where
    /// it is none of a pool started from a table that [`check`](crate::check) accepts, main has returned or a step of some thread gets 18
    /// or 29.
    pub fn which(&self, table: &[u8]) -> Result<Option<u32>, Refusal> {
        lent::which(table, &self.words)
    }

    /// Main's values, or none while main has not returned. Refused: 1 to 3, 13.
    pub fn values(&self, table: &[u8]) -> Result<Option<Values>, Refusal> {
        let mut room = [0; 4];
        let count = lent::values(table, &self.words, &mut room)?;
        Ok(count.map(|count| Values { room, count }))
    }

    /// The operator's listing: where each thread stands, and none of its values. A thread's lines are its own and then those of its
    /// children, newest first, each child one space deeper than its parent. A line has seven numbers: the thread, how many frames it has,
    /// and of its newest frame the function, the block, the statements done, the open spawn calls and how many of these are promoted. Two
    /// pools that agree in all words but the sixteen values of each frame, both of them pools of the table, have the same listing.
    /// Refused: 1 to 3, 13.
    ///
    /// ```
    /// use mezdaulk::Pool;
    /// # let table = [
    /// #     0, 0, 0, 72, 1, 2, 0, 1, 4, 1, 1, 0, 0, 0, 0, 0, 0, 4, 1, 0, 0, 0, 0, 1, 0, 0, 5, 2, 3, 0, 0, 0, 0, 1, 0, 0,
    /// #     0, 0, 0, 0, 1, 3, 1, 0, 1, 0, 0, 0, 0, 0, 3, 1, 0, 0, 1, 1, 0, 0, 0, 0, 0, 1, 0, 0, 0, 0, 0, 0, 7, 3, 1, 0,
    /// # ];
    /// let mut pool = Pool::start(&table)?;
    /// pool.step(&table, 0)?;
    /// pool.promote(&table, 0)?;
    /// // Main is in block 1, with one call open and promoted; its child is at the entry of function 1.
    /// assert_eq!(pool.operator(&table)?, "0 1 0 1 0 1 1\n 1 1 1 0 0 0 0\n");
    /// # Ok::<(), mezdaulk::Refusal>(())
    /// ```
    pub fn operator(&self, table: &[u8]) -> Result<String, Refusal> {
        listed(|out| lent::operator(table, &self.words, out))
    }

    /// The customer's listing: the operator's, with the newest frame's bound temporaries behind the seven numbers of each line, ascending,
    /// each with its value. Refused: 1 to 3, 13.
    ///
    /// ```
    /// use mezdaulk::Pool;
    /// # let table = [
    /// #     0, 0, 0, 30, 1, 1, 0, 1, 1, 0, 0, 0, 0, 0, 1, 0, 2, 0, 0, 0, 0, 2, 0, 0, 0, 0, 3, 3, 1, 0,
    /// # ];
    /// let mut pool = Pool::start(&table)?;
    /// pool.step(&table, 0)?;
    /// // Temporary 0 is 5.
    /// assert_eq!(pool.customer(&table)?, "0 1 0 0 1 0 0 0 5\n");
    /// assert_eq!(pool.operator(&table)?, "0 1 0 0 1 0 0\n");
    /// # Ok::<(), mezdaulk::Refusal>(())
    /// ```
    pub fn customer(&self, table: &[u8]) -> Result<String, Refusal> {
        listed(|out| lent::customer(table, &self.words, out))
    }
}

/// The words, to be written: the calls judge what they hold.
impl AsMut<[i32; Pool::WORDS]> for Pool {
    fn as_mut(&mut self) -> &mut [i32; Pool::WORDS] {
        &mut self.words
    }
}

/// The number of threads, and not all words.
impl fmt::Debug for Pool {
    fn fmt(&self, f: &mut fmt::Formatter<'_>) -> fmt::Result {
        f.debug_struct("Pool")
            .field("threads", &self.words[0])
            .finish_non_exhaustive()
    }
}

/// Main's values, up to four: a slice of them.
#[derive(Clone, Copy, PartialEq, Eq)]
pub struct Values {
    room: [i32; 4],
    count: usize,
}

impl Deref for Values {
    type Target = [i32];

    fn deref(&self) -> &[i32] {
        &self.room[..self.count]
    }
}

impl fmt::Debug for Values {
    fn fmt(&self, f: &mut fmt::Formatter<'_>) -> fmt::Result {
        (**self).fmt(f)
    }
}
