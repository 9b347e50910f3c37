//! The numbers of refusals, rules and kinds, by name.

use std::error::Error;
use std::fmt;

/// A number that names nothing.
#[derive(Clone, Copy, Debug, PartialEq, Eq)]
pub struct Unknown(pub u8);

impl fmt::Display for Unknown {
    fn fmt(&self, f: &mut fmt::Formatter<'_>) -> fmt::Result {
        write!(f, "the number {} names nothing", self.0)
    }
}

impl Error for Unknown {}

/// An enum of numbers, each with a text.
macro_rules! numbered {
    ($(#[$about:meta])* $name:ident { $($variant:ident = $number:literal, $text:literal;)* }) => {
        $(#[$about])*
        #[repr(u8)]
        #[derive(Clone, Copy, Debug, PartialEq, Eq, PartialOrd, Ord, Hash)]
        pub enum $name {
            $(#[doc = concat!($number, ": ", $text, ".")] $variant = $number,)*
        }

        impl $name {
            /// Each once, in the order of the numbers.
            pub const ALL: &'static [$name] = &[$($name::$variant),*];

            /// The number.
            pub const fn number(self) -> u8 {
                self as u8
            }

            /// What it says.
            pub const fn text(self) -> &'static str {
                match self {
                    $($name::$variant => $text,)*
                }
            }
        }

        impl fmt::Display for $name {
            fn fmt(&self, f: &mut fmt::Formatter<'_>) -> fmt::Result {
                f.pad(self.text())
            }
        }

        impl From<$name> for u8 {
            fn from(named: $name) -> u8 {
                named.number()
            }
        }

        impl TryFrom<u8> for $name {
            type Error = Unknown;

            fn try_from(number: u8) -> Result<$name, Unknown> {
                match number {
                    $($number => Ok($name::$variant),)*
                    other => Err(Unknown(other)),
                }
            }
        }
    };
}

numbered! {
    /// Why a call was refused: the numbers of documents 01 and 02.
    Reason {
        Size = 1, "the table has under 6 bytes or over 16,384 (12,800 to complete), or another length field";
        Version = 2, "the table's version is not 1 (2 to complete)";
        Form = 3, "a byte of the table is out of range, missing or left over";
        Main = 4, "main has parameters";
        Entry = 5, "an entry block has parameters, a nesting, or another scope than its function's parameters";
        Missing = 6, "a function, block or spawn call that is named does not exist";
        Twice = 7, "a temporary is bound twice";
        Unbound = 8, "a temporary is used that is not bound there";
        Count = 9, "a number of arguments or values is not the number taken";
        Scope = 10, "a scope or a nesting asks for a temporary that is not there";
        Nesting = 11, "a nesting is not the one required";
        Words = 12, "the pool has not 1,689 words";
        Pool = 13, "the words are no pool of this table";
        Kind = 14, "the kind is neither 0 nor 1";
        Thread = 15, "there is no such thread";
        Ended = 16, "the thread has ended";
        Waits = 17, "the thread waits for its newest child to end";
        Frames = 18, "the thread is at a call, and all eight frames are in use";
        Stuck = 19, "the thread is stuck: no rule applies";
        Promoted = 20, "the thread has nothing to promote";
        Threads = 21, "there is something to promote, but eight threads are there already";
        Cycle = 22, "some function reaches itself by calls";
        Room = 23, "the output is shorter than the tidy table";
        Lent = 24, "the scratch has fewer than 1,024 words, or the output has not 16,384 bytes";
        Unreached = 25, "no transfer from its function's entry reaches a block";
        Impossible = 26, "no scopes and nestings make a function well formed";
        Pace = 27, "N is not 1 to 65,535, or C not 1 to 255";
        Listing = 28, "the output is shorter than the listing";
        Overflow = 29, "the thread's next sum or negation does not fit in 32 bits";
    }
}

numbered! {
    /// The rule that a choice made: 1 to 9 by a step, 10 by a promotion.
    Rule {
        Stmt = 1, "a statement";
        Goto = 2, "a goto";
        Then = 3, "an if, to its first block";
        Else = 4, "an if, to its second block";
        Call = 5, "a call";
        Return = 6, "a return";
        Spork = 7, "a spork";
        Unpr = 8, "a spoin, unpromoted";
        Prom = 9, "a spoin, promoted: the join, which removes the ended child";
        Promote = 10, "a promotion, which puts the child directly after its parent";
    }
}

numbered! {
    /// The kind of a choice.
    Kind {
        Step = 0, "a step";
        Promote = 1, "a promotion";
    }
}
