//! A completed table that has its own bytes.

use crate::{lent, Refusal};

/// How many bytes the output of a completion has.
pub const OUTPUT_BYTES: usize = 16_384;

/// How many words the scratch of a completion has, at least.
pub const SCRATCH_WORDS: usize = 1_024;

/// The completed table of a table of version 2, which has neither the scope nor the nesting of any block and at most 12,800 bytes: a
/// table of version 1 that [`check`](crate::check) accepts, with the smallest scopes that there are. Refused: 1 to 3; 25 for the lowest
/// function and block that transfers from the function's entry do not reach; 26 for the lowest function that no scopes and nestings make
/// well formed.
///
/// ```
/// use mezdaulk::{check, complete, Place, Reason};
///
/// // Main binds temporary 0 and goes to a block that returns it.
/// let mut table = [0, 0, 0, 27, 2, 1, 0, 1, 2, 0, 0, 1, 0, 0, 0, 0, 0, 0, 5, 0, 1, 0, 0, 0, 3, 1, 0];
/// let full = complete(&table)?;
/// // Temporary 0 is in the scope of block 1 alone.
/// assert_eq!(full[11..13], [0, 0]);
/// assert_eq!(full[26..28], [0, 1]);
/// assert_eq!(check(&full), Ok(()));
///
/// // The block returns temporary 1, which is bound nowhere.
/// table[26] = 1;
/// let refusal = complete(&table).unwrap_err();
/// assert_eq!((refusal.reason(), refusal.place()), (Reason::Impossible, Some(Place::Function(0))));
///
/// // Main goes to itself, and block 1 is not reached.
/// table[20] = 0;
/// let refusal = complete(&table).unwrap_err();
/// assert_eq!((refusal.reason(), refusal.place()), (Reason::Unreached, Some(Place::Block { function: 0, block: 1 })));
/// # Ok::<(), mezdaulk::Refusal>(())
/// ```
pub fn complete(table: &[u8]) -> Result<Vec<u8>, Refusal> {
    let mut out = vec![0; OUTPUT_BYTES];
    let length = lent::complete(table, &mut out, &mut [0; SCRATCH_WORDS])?;
    out.truncate(length);
    Ok(out)
}
