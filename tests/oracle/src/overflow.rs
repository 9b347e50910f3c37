//! Overflows, told by the operands: what one leaves to the other up to an end of
//! 32 bits. The rules work out the integer itself; the ways must agree.

use crate::pool::{Temporaries, Thread};
use crate::rules::atom;
use crate::table::{Expression, Name, Program, Transfer};

/// The ends of 32 bits.
#[derive(Clone, Copy, Debug, PartialEq, Eq)]
pub enum End {
    Top,
    Bottom,
}

/// The expression that a thread's next step works out.
#[derive(Clone, Copy, Debug)]
pub struct Next<'a> {
    pub expression: &'a Expression,
    /// The two blocks of an if; a statement has none.
    pub blocks: Option<[Name; 2]>,
}

/// What a thread works out next, where it stands at a statement or an if.
pub fn next<'a>(program: &'a Program, thread: &Thread) -> Option<Next<'a>> {
    let frame = thread.current();
    let block = &program.functions[frame.function].blocks[frame.block];
    match (block.statements.get(frame.done), &block.transfer) {
        (Some(statement), _) => Some(Next {
            expression: &statement.expression,
            blocks: None,
        }),
        (
            None,
            Transfer::If {
                condition,
                then,
                otherwise,
            },
        ) => Some(Next {
            expression: condition,
            blocks: Some([*then, *otherwise]),
        }),
        _ => None,
    }
}

/// The end beyond which an expression lies. Where an operand is unbound, or the
/// expression is neither a sum nor a negation, there is none.
pub fn beyond(temporaries: &Temporaries, expression: &Expression) -> Option<End> {
    let value = |m| atom(temporaries, m);
    match *expression {
        Expression::Negated(m) => (value(m)? == i32::MIN).then_some(End::Top),
        Expression::Sum(m, n) => {
            let (m, n) = (value(m)?, value(n)?);
            if m > 0 && n > i32::MAX - m {
                Some(End::Top)
            } else if m < 0 && n < i32::MIN - m {
                Some(End::Bottom)
            } else {
                None
            }
        }
        Expression::Plain(_) | Expression::Less(..) => None,
    }
}

/// Whether a thread's next expression overflows.
pub fn overflows(program: &Program, thread: &Thread) -> bool {
    let temporaries = &thread.current().temporaries;
    next(program, thread).is_some_and(|next| beyond(temporaries, next.expression).is_some())
}
