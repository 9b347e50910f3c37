//! The depth over the places: the longest chain of calls from each function,
//! worked out once.

use super::check::check_into;
use super::places::Places;
use super::rules::Code;
use super::Refusal;

/// What is known of a function: nothing, that a chain is being followed from
/// it, or how many frames its longest chain needs.
const UNKNOWN: u8 = 0;
const FOLLOWED: u8 = 255;

/// How many frames can a chain of calls need?
#[inline(never)]
pub fn depth(table: &[u8]) -> Result<u8, Refusal> {
    let mut places = Places::new();
    check_into(table, &mut places)?;
    let mut chains = Chains {
        t: table,
        places: &places,
        known: [UNKNOWN; 16],
    };
    chains.deepest().ok_or(Refusal::Plain(22))
}

struct Chains<'a> {
    t: &'a [u8],
    places: &'a Places,
    known: [u8; 16],
}

impl Chains<'_> {
    fn deepest(&mut self) -> Option<u8> {
        (0..self.t[5]).try_fold(0, |most, f| Some(most.max(self.frames(f)?)))
    }

    /// The frames of the longest chain from a function; none where it comes
    /// back to one that is being followed.
    fn frames(&mut self, f: u8) -> Option<u8> {
        let own = usize::from(f & 15);
        match self.known[own] {
            UNKNOWN => {}
            FOLLOWED => return None,
            frames => return Some(frames),
        }
        self.known[own] = FOLLOWED;
        let code = Code::new(self.t, self.places);
        let mut most = 0;
        for b in 0..32 {
            let Some(head) = self.places.block(own, b) else {
                break;
            };
            let at = code.transfer(head);
            if self.t[at] == 2 {
                most = most.max(self.frames(self.t[at + 1])?);
            }
        }
        self.known[own] = most + 1;
        Some(most + 1)
    }
}
