//! Spork IR tables checked, and the pool that runs them: a safe wrapper of the library.
//!
//! [`check`] says yes or no to a table, [`depth`] how many frames its calls can need, [`tidy`](tidy()) writes it afresh for the
//! archive, and [`complete`](complete()) makes one of a table without scopes and nestings; [`Pool::start`] makes a pool of it, and
//! [`Pool::choose`] or [`Pool::schedule`] runs it, and so do [`Pool::beat`] and [`Pool::run`], which promote by tokens.
//! [`Pool::operator`] and [`Pool::customer`] list where its threads stand, without their values and with them.
//! A call that is refused has changed nothing, except that a schedule keeps what the choices before the refused one made, and a run what
//! the beats before it made, and that a completion refused with 25 or 26 leaves its scratch as words of 0.
//!
//! ```
//! use mezdaulk::{check, Pool, Reason, Rule};
//!
//! // One statement, 2 + 3, and a return.
//! let table = [
//!     0, 0, 0, 30, 1, 1, 0, 1, 1, 0, 0, 0, 0, 0, 1, 0, 2, 0, 0, 0, 0, 2, 0, 0, 0, 0, 3, 3, 1, 0,
//! ];
//! check(&table)?;
//! let mut pool = Pool::start(&table)?;
//! while let Some(thread) = pool.which(&table)? {
//!     assert_eq!(pool.step(&table, thread)?, Rule::Stmt);
//! }
//! assert_eq!(*pool.values(&table)?.expect("main has returned"), [5]);
//!
//! let refusal = pool.step(&table, 0).unwrap_err();
//! assert_eq!(refusal.reason(), Reason::Ended);
//! assert_eq!(refusal.to_string(), "the thread has ended (refusal 16)");
//! # Ok::<(), mezdaulk::Refusal>(())
//! ```
//!
//! What the theorem says of a table that [`check`] accepts stands in `docs/USING.md` of the repository. Building this crate needs
//! the archive that `tools/build mezdaulk` writes there; `MEZDAULK_LIB_DIR` names another folder that has it.

#![deny(missing_docs)]

mod beats;
mod complete;
pub mod lent;
mod listing;
mod numbers;
mod pool;
pub mod raw;
mod refusal;
mod tidy;

pub use beats::{Beat, Pace, Ran};
pub use complete::{complete, OUTPUT_BYTES, SCRATCH_WORDS};
pub use lent::{check, depth, read};
pub use listing::LISTING_BYTES;
pub use numbers::{Kind, Reason, Rule, Unknown};
pub use pool::{Pool, Values};
pub use raw::Choice;
pub use refusal::{Place, Refusal};
pub use tidy::tidy;
