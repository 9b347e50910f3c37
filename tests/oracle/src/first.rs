//! The first thread that can step, and steps by the first.
//!
//! Which thread it is comes from the tree: of every thread is told whether it can
//! step, and the least number is taken. A run steps the tree itself, the root or
//! else its children's trees, newest first. The ways must agree.

use crate::pool::{Pool, Thread};
use crate::rules::{step, Rule};
use crate::table::Program;

/// The least number of a thread whose step makes a rule.
pub fn first(program: &Program, pool: &Pool) -> Option<usize> {
    least(program, &pool.root).1
}

/// How many threads a tree has, and the least number, counted from its root, of
/// one that can step.
fn least(program: &Program, tree: &Thread) -> (usize, Option<usize>) {
    let mut size = 1;
    let mut numbers = Vec::new();
    if step(program, &mut tree.clone(), None).is_ok() {
        numbers.push(0);
    }
    for child in tree.children.iter().rev() {
        let (threads, number) = least(program, child);
        numbers.extend(number.map(|number| size + number));
        size += threads;
    }
    (size, numbers.into_iter().min())
}

/// Steps by the first that were made.
#[derive(Clone, Debug, PartialEq, Eq)]
pub struct Run {
    /// The thread and the rule of each.
    pub steps: Vec<(usize, Rule)>,
    /// Whether no thread can step after them.
    pub ended: bool,
}

/// Makes steps of the first thread that can step, again and again, until there
/// is none or so many are made.
pub fn run(program: &Program, pool: &mut Pool, most: usize) -> Run {
    let mut steps = Vec::new();
    while steps.len() < most {
        let Some(made) = step_tree(program, &mut pool.root, &mut 0) else {
            break;
        };
        steps.push(made);
    }
    Run {
        steps,
        ended: first(program, pool).is_none(),
    }
}

/// Steps the first thread of a tree that can, where one can: its number and the
/// rule. `number` is the root's, and counts on over the threads that cannot.
fn step_tree(program: &Program, tree: &mut Thread, number: &mut usize) -> Option<(usize, Rule)> {
    if let Ok(rule) = step(program, tree, None) {
        return Some((*number, rule));
    }
    *number += 1;
    tree.children
        .iter_mut()
        .rev()
        .find_map(|child| step_tree(program, child, number))
}
