//! A listing that has its own bytes.

use crate::Refusal;

/// How many bytes have room for every listing of a pool, the operator's and the customer's.
pub const LISTING_BYTES: usize = 4_096;

/// The listing that a call writes into a buffer with room for every one.
pub(crate) fn listed(
    write: impl FnOnce(&mut [u8]) -> Result<usize, Refusal>,
) -> Result<String, Refusal> {
    let mut out = vec![0; LISTING_BYTES];
    let length = write(&mut out)?;
    out.truncate(length);
    Ok(String::from_utf8(out).expect("a listing is digits, spaces, minus signs and newlines"))
}
