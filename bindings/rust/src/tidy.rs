//! A tidy table that has its own bytes.

use crate::{lent, Refusal};

/// The most bytes that a table has.
const TABLE_MAX: usize = 16_384;

/// The tidy table of a table that [`check`](crate::check) accepts: main and each entry first, the other functions, blocks and spawn calls
/// numbered by first mention, and without what is never mentioned. Two tables of one job, which differ in these numbers and in dead code
/// alone, have the same tidy table. It is accepted, no longer than the table, its own tidy table, and pools started from either answer
/// every list of choices alike. Refused: 1 to 11 as by [`check`](crate::check).
///
/// ```
/// use mezdaulk::tidy;
///
/// // Main goes to a block that returns.
/// let first = [0, 0, 0, 25, 1, 1, 0, 0, 2, 0, 0, 0, 0, 0, 0, 0, 1, 0, 0, 0, 0, 0, 0, 3, 0];
/// // The same with a dead block between.
/// let second = [
///     0, 0, 0, 33, 1, 1, 0, 0, 3, 0, 0, 0, 0, 0, 0, 0, 2, 0, 0, 0, 0, 0, 0, 0, 1, 0, 0, 0, 0, 0, 0, 3, 0,
/// ];
/// assert_eq!(tidy(&first)?, first);
/// assert_eq!(tidy(&second)?, first);
/// # Ok::<(), mezdaulk::Refusal>(())
/// ```
pub fn tidy(table: &[u8]) -> Result<Vec<u8>, Refusal> {
    let mut out = vec![0; table.len().min(TABLE_MAX)];
    let length = lent::tidy(table, &mut out)?;
    out.truncate(length);
    Ok(out)
}
