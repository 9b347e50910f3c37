//! A second implementation of Spork IR tables and the pool that runs them.
//!
//! The table is decoded to a tree of owned values and the pool to a tree of
//! threads; every call decodes, works on the trees and encodes again. A refusal
//! leaves the lent words as they were.

pub mod beats;
pub mod check;
pub mod complete;
pub mod depth;
pub mod encode;
pub mod every;
pub mod first;
pub mod full;
pub mod gen;
pub mod graph;
pub mod listing;
pub mod longest;
pub mod machine;
pub mod openers;
pub mod overflow;
pub mod pool;
pub mod refusal;
pub mod rng;
pub mod rules;
pub mod runner;
pub mod stored;
pub mod table;
pub mod tally;
pub mod tidy;
pub mod watch;

pub use beats::Pace;
pub use check::check;
pub use complete::complete;
pub use depth::depth;
pub use listing::Reader;
pub use pool::{Pool, POOL_WORDS};
pub use refusal::{Place, Refusal};
pub use rules::Rule;
pub use table::{read, read_brief, Program};
pub use tidy::tidy;

/// Writes the start of a table's main into 1,689 words; refusals 1 to 3 and 12.
pub fn start(table: &[u8], pool: &mut [i32]) -> Result<(), Refusal> {
    read(table)?;
    if pool.len() != POOL_WORDS {
        return Err(Refusal::plain(12));
    }
    pool.copy_from_slice(&Pool::start().to_words());
    Ok(())
}

/// Makes one choice.
pub fn choose(table: &[u8], pool: &mut [i32], kind: u64, thread: u64) -> Result<Rule, Refusal> {
    let (program, mut tree) = decode(table, pool)?;
    let rule = rules::choose(&program, &mut tree, kind, thread).map_err(Refusal::plain)?;
    pool.copy_from_slice(&tree.to_words());
    Ok(rule)
}

/// The first thread whose step makes a rule, if any; refusals 1 to 3, 12 and 13.
pub fn which(table: &[u8], pool: &[i32]) -> Result<Option<usize>, Refusal> {
    let (program, tree) = decode(table, pool)?;
    Ok(first::first(&program, &tree))
}

/// Main's values, if thread 0 is ended.
pub fn values(table: &[u8], pool: &[i32]) -> Result<Option<Vec<i32>>, Refusal> {
    let (program, tree) = decode(table, pool)?;
    Ok(rules::ended(&program, &tree.root))
}

/// Writes the operator's listing and gives its length; refusals 1 to 3, 12, 13
/// and 28.
pub fn operator(table: &[u8], pool: &[i32], out: &mut [u8]) -> Result<usize, Refusal> {
    list(table, pool, out, Reader::Operator)
}

/// Writes the customer's listing and gives its length; refusals 1 to 3, 12, 13
/// and 28.
pub fn customer(table: &[u8], pool: &[i32], out: &mut [u8]) -> Result<usize, Refusal> {
    list(table, pool, out, Reader::Customer)
}

fn list(table: &[u8], pool: &[i32], out: &mut [u8], reader: Reader) -> Result<usize, Refusal> {
    let (_, tree) = decode(table, pool)?;
    let listing = listing::listing(&tree, reader);
    let Some(front) = out.get_mut(..listing.len()) else {
        return Err(Refusal::plain(listing::LISTING));
    };
    front.copy_from_slice(listing.as_bytes());
    Ok(listing.len())
}

/// Makes choices up to the first refusal; gives how many were made and the
/// refusal, if any.
pub fn schedule(
    table: &[u8],
    pool: &mut [i32],
    choices: &[(u64, u64)],
) -> (usize, Option<Refusal>) {
    let (program, mut tree) = match decode(table, pool) {
        Ok(decoded) => decoded,
        Err(refusal) => return (0, Some(refusal)),
    };
    let mut made = 0;
    let mut refusal = None;
    for &(kind, thread) in choices {
        match rules::choose(&program, &mut tree, kind, thread) {
            Ok(_) => made += 1,
            Err(number) => {
                refusal = Some(Refusal::plain(number));
                break;
            }
        }
    }
    pool.copy_from_slice(&tree.to_words());
    (made, refusal)
}

/// Makes one beat: the step's rule, and how many promotions were made.
pub fn beat(
    table: &[u8],
    pool: &mut [i32],
    pace: Pace,
    thread: u64,
) -> Result<(Rule, u64), Refusal> {
    let (program, mut tree) = decode(table, pool)?;
    let beat = beats::beat(&program, &mut tree, pace, thread).map_err(Refusal::plain)?;
    pool.copy_from_slice(&tree.to_words());
    Ok((beat.rule, beat.ledger.paid()))
}

/// Makes beats of threads up to the first refused; gives how many steps and
/// promotions were made and the refusal, if any.
pub fn run(
    table: &[u8],
    pool: &mut [i32],
    pace: Pace,
    threads: &[u64],
) -> ([u64; 2], Option<Refusal>) {
    let (program, mut tree) = match decode(table, pool) {
        Ok(decoded) => decoded,
        Err(refusal) => return ([0, 0], Some(refusal)),
    };
    let (account, refusal) = beats::run(&program, &mut tree, pace, threads);
    pool.copy_from_slice(&tree.to_words());
    let made = [account.steps, account.promotions];
    (made, refusal.map(Refusal::plain))
}

/// The program and the pool that a table and words hold; 1 to 3, 12 and 13.
fn decode(table: &[u8], pool: &[i32]) -> Result<(Program, Pool), Refusal> {
    let program = read(table)?;
    let tree = Pool::from_words(&program, pool)?;
    Ok((program, tree))
}
