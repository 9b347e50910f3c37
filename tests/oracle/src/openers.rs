//! Which choice sporked each open call of a pool, by the answers to the choices
//! and by nothing else.

use crate::pool::{OpenCall, Pool, Thread};
use crate::rules::Rule;

/// What was worked out from the choices put to a fresh pool so far.
#[derive(Clone, Debug)]
pub struct Openers {
    /// Of each thread its open calls, oldest first over all its frames, each as
    /// the number of the choice that sporked it.
    pub lists: Vec<Vec<u64>>,
    /// The number of the next choice, counted from 0; refused ones count.
    pub next: u64,
}

impl Default for Openers {
    /// A fresh pool: one thread with nothing open.
    fn default() -> Self {
        Openers {
            lists: vec![Vec::new()],
            next: 0,
        }
    }
}

impl Openers {
    /// A choice of a thread was put, and got a rule or a refusal.
    pub fn follow<E>(&mut self, thread: u64, answer: Result<u8, E>) {
        let number = self.next;
        self.next += 1;
        let (Ok(thread), Ok(rule)) = (usize::try_from(thread), answer) else {
            return;
        };
        let Some(own) = self.lists.get_mut(thread) else {
            return;
        };
        let is = |other: Rule| rule == other.number();
        if is(Rule::Spork) {
            own.push(number);
        } else if is(Rule::Unpr) || is(Rule::Prom) {
            own.pop();
        }
        let behind = thread + 1;
        if is(Rule::Promote) {
            self.lists.insert(behind, Vec::new());
        } else if is(Rule::Prom) && behind < self.lists.len() {
            self.lists.remove(behind);
        }
    }

    /// Whether a tree of threads has these open calls, by what each call keeps
    /// of its spork; and whether each child has what its call keeps.
    pub fn agree(&self, pool: &Pool) -> bool {
        let threads = pool.threads();
        let listed = threads.iter().map(|thread| sporks(thread));
        let handed = threads.iter().all(|thread| {
            let calls = open_calls(thread).zip(&thread.children);
            calls
                .into_iter()
                .all(|(call, child)| child.opened.is_some() && child.opened == call.opened)
        });
        handed && listed.eq(self.lists.iter().map(|list| Some(list.clone())))
    }
}

/// The open calls of a thread, oldest first.
pub fn open_calls(thread: &Thread) -> impl Iterator<Item = &OpenCall> {
    thread.frames.iter().flat_map(|frame| &frame.calls)
}

/// The choices that sporked a thread's open calls, if all are known.
fn sporks(thread: &Thread) -> Option<Vec<u64>> {
    open_calls(thread)
        .map(|call| call.opened.as_ref().map(|opened| opened.choice))
        .collect()
}
