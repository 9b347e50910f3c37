//! The refusal a call can give: its number and its place.

/// Where a refusal points to.
#[derive(Clone, Copy, Debug, PartialEq, Eq, Hash, PartialOrd, Ord)]
pub enum Place {
    /// No place (1, 2, 12 to 24 and 27 to 29).
    Nowhere,
    /// An offset in the table (3).
    Offset(usize),
    /// A function and a block, 255 standing for no block (4 to 11, 25, 26).
    Block(usize, usize),
}

/// The block number given for a fault that lies in no block.
pub const NO_BLOCK: usize = 255;

/// A refusal: its number (1 to 29) and its place.
#[derive(Clone, Copy, Debug, PartialEq, Eq, Hash)]
pub struct Refusal {
    pub number: u8,
    pub place: Place,
}

impl Refusal {
    /// A refusal without a place.
    pub fn plain(number: u8) -> Self {
        Refusal {
            number,
            place: Place::Nowhere,
        }
    }

    /// Refusal 3 at an offset of the table.
    pub fn byte(offset: usize) -> Self {
        Refusal {
            number: 3,
            place: Place::Offset(offset),
        }
    }

    /// A fault of the check or of a completion in a function and block.
    pub fn fault(number: u8, function: usize, block: usize) -> Self {
        Refusal {
            number,
            place: Place::Block(function, block),
        }
    }
}
