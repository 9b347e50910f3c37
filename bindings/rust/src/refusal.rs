//! Refusals.

use crate::Reason;
use std::error::Error;
use std::fmt;

/// Where a table is at fault.
#[derive(Clone, Copy, Debug, PartialEq, Eq, Hash)]
pub enum Place {
    /// The offset of the first bad byte, or the table's length where a byte is missing.
    Byte(usize),
    /// A block of a function.
    Block {
        /// The function.
        function: u8,
        /// The block.
        block: u8,
    },
    /// A function, and no block of it: main's own fault, a spawn call's, or the whole function's.
    Function(u8),
}

impl fmt::Display for Place {
    fn fmt(&self, f: &mut fmt::Formatter<'_>) -> fmt::Result {
        match self {
            Place::Byte(offset) => write!(f, "byte {offset}"),
            Place::Block { function, block } => write!(f, "function {function}, block {block}"),
            Place::Function(function) => write!(f, "function {function}"),
        }
    }
}

/// A refusal: why, and where in the table if it is the table's fault.
#[derive(Clone, Copy, Debug, PartialEq, Eq, Hash)]
pub struct Refusal {
    reason: Reason,
    place: Option<Place>,
}

/// The block of a fault that lies in none.
const NOWHERE: u8 = 255;

impl Refusal {
    /// The reason, an enum of all of them.
    pub const fn reason(self) -> Reason {
        self.reason
    }

    /// The number, 1 to 29.
    pub const fn number(self) -> u8 {
        self.reason.number()
    }

    /// The place of 3 to 11, 25 and 26; the others have none.
    pub const fn place(self) -> Option<Place> {
        self.place
    }

    /// A refusal without a place.
    pub(crate) const fn plain(reason: Reason) -> Self {
        Refusal {
            reason,
            place: None,
        }
    }

    /// The refusal in a number that the library answered.
    fn of(answer: u64) -> Self {
        let reason =
            Reason::try_from(answer as u8).expect("the library refuses with one of 1 to 29");
        let place = match reason.number() {
            3 => Some(Place::Byte((answer >> 8 & 0xFF_FFFF) as usize)),
            4..=11 | 25 | 26 => Some(fault(answer)),
            _ => None,
        };
        Refusal { reason, place }
    }
}

/// The place of 4 to 11, 25 and 26.
fn fault(answer: u64) -> Place {
    let function = (answer >> 16) as u8;
    match (answer >> 8) as u8 {
        NOWHERE => Place::Function(function),
        block => Place::Block { function, block },
    }
}

/// What the library answered: the value that is given, or the refusal.
pub(crate) fn answered(answer: u64) -> Result<u32, Refusal> {
    if answer >> 32 & 1 == 1 {
        Ok(answer as u32)
    } else {
        Err(Refusal::of(answer))
    }
}

impl fmt::Display for Refusal {
    fn fmt(&self, f: &mut fmt::Formatter<'_>) -> fmt::Result {
        write!(f, "{} (refusal {}", self.reason, self.number())?;
        if let Some(place) = self.place {
            write!(f, ", {place}")?;
        }
        write!(f, ")")
    }
}

impl Error for Refusal {}
