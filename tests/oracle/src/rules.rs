//! The rules 1 to 10: steps and promotions of one thread.

use crate::pool::{
    Frame, OpenCall, Opened, Pool, Temporaries, Thread, MAX_CALLS, MAX_FRAMES, MAX_THREADS,
};
use crate::table::{Atom, Block, Expression, Function, Name, Program, Temporary, Transfer};

/// A rule that was made.
#[derive(Clone, Copy, Debug, PartialEq, Eq, Hash, PartialOrd, Ord)]
pub enum Rule {
    Stmt = 1,
    Goto,
    Then,
    Else,
    Call,
    Return,
    Spork,
    Unpr,
    Prom,
    Promote,
}

impl Rule {
    /// All rules in the order of their numbers.
    pub const ALL: [Rule; 10] = [
        Rule::Stmt,
        Rule::Goto,
        Rule::Then,
        Rule::Else,
        Rule::Call,
        Rule::Return,
        Rule::Spork,
        Rule::Unpr,
        Rule::Prom,
        Rule::Promote,
    ];

    /// The rule's number, 1 to 10.
    pub fn number(self) -> u8 {
        self as u8
    }

    /// The rule's name.
    pub fn name(self) -> &'static str {
        match self {
            Rule::Stmt => "stmt",
            Rule::Goto => "goto",
            Rule::Then => "then",
            Rule::Else => "else",
            Rule::Call => "call",
            Rule::Return => "return",
            Rule::Spork => "spork",
            Rule::Unpr => "unpr",
            Rule::Prom => "prom",
            Rule::Promote => "promote",
        }
    }
}

const KIND: u8 = 14;
const NO_THREAD: u8 = 15;
const ENDED: u8 = 16;
const WAITS: u8 = 17;
const FULL_STACK: u8 = 18;
const STUCK: u8 = 19;
const NOTHING: u8 = 20;
const FULL_POOL: u8 = 21;
/// The number of a refusal: a sum or a negation that no 32 bits hold.
pub const OVERFLOW: u8 = 29;

/// The kinds of a choice.
pub const STEP: u64 = 0;
pub const PROMOTE: u64 = 1;

/// Makes one choice, or gives its refusal's number and changes nothing.
pub fn choose(program: &Program, pool: &mut Pool, kind: u64, thread: u64) -> Result<Rule, u8> {
    choose_as(program, pool, kind, thread, None)
}

/// The same of a choice that has a number. An open call keeps the number and
/// the values of its spork wherever it goes, and hands them to its child.
pub fn choose_as(
    program: &Program,
    pool: &mut Pool,
    kind: u64,
    thread: u64,
    number: Option<u64>,
) -> Result<Rule, u8> {
    if kind > PROMOTE {
        return Err(KIND);
    }
    let size = pool.size();
    let thread = usize::try_from(thread)
        .ok()
        .and_then(|number| pool.thread_mut(number))
        .ok_or(NO_THREAD)?;
    if kind == STEP {
        step(program, thread, number)
    } else {
        promote(program, thread, size)
    }
}

/// The values a thread ends with: one frame, at a return, nothing open, all
/// its temporaries bound.
pub fn ended(program: &Program, thread: &Thread) -> Option<Vec<i32>> {
    match (thread.frames.as_slice(), transfer(program, thread)) {
        ([frame], Some(Transfer::Return { arguments })) if frame.calls.is_empty() => {
            gather(&frame.temporaries, arguments)
        }
        _ => None,
    }
}

/// Every thread whose step makes a rule.
pub fn steppable(program: &Program, pool: &Pool) -> Vec<usize> {
    pool.threads()
        .into_iter()
        .enumerate()
        .filter(|(_, thread)| step(program, &mut (*thread).clone(), None).is_ok())
        .map(|(number, _)| number)
        .collect()
}

/// The transfer a thread stands at, if its statements are done.
pub fn transfer<'a>(program: &'a Program, thread: &Thread) -> Option<&'a Transfer> {
    let frame = thread.current();
    let block = code(program, frame);
    (frame.done == block.statements.len()).then_some(&block.transfer)
}

/// The function a frame runs.
fn function<'a>(program: &'a Program, frame: &Frame) -> &'a Function {
    &program.functions[frame.function]
}

/// The block a frame is in.
fn code<'a>(program: &'a Program, frame: &Frame) -> &'a Block {
    &function(program, frame).blocks[frame.block]
}

/// The value of a temporary, if bound.
fn lookup(temporaries: &Temporaries, temporary: Temporary) -> Option<i32> {
    temporaries[usize::from(temporary)]
}

/// The values of all the temporaries named, if all are bound.
pub fn gather(temporaries: &Temporaries, names: &[Temporary]) -> Option<Vec<i32>> {
    names.iter().map(|&t| lookup(temporaries, t)).collect()
}

pub fn atom(temporaries: &Temporaries, atom: Atom) -> Option<i32> {
    match atom {
        Atom::Value(value) => Some(value),
        Atom::Temporary(t) => lookup(temporaries, t),
    }
}

/// What an expression comes to among all integers, if its operands are bound.
pub fn exact(temporaries: &Temporaries, expression: &Expression) -> Option<i64> {
    let integer = |m| atom(temporaries, m).map(i64::from);
    Some(match *expression {
        Expression::Plain(m) => integer(m)?,
        Expression::Negated(m) => -integer(m)?,
        Expression::Sum(m, n) => integer(m)? + integer(n)?,
        Expression::Less(m, n) => i64::from(integer(m)? < integer(n)?),
    })
}

/// An expression's value: the same integer in 32 bits. An unbound operand is
/// stuck, and an integer that 32 bits do not hold overflows.
fn evaluate(temporaries: &Temporaries, expression: &Expression) -> Result<i32, u8> {
    let integer = exact(temporaries, expression).ok_or(STUCK)?;
    i32::try_from(integer).map_err(|_| OVERFLOW)
}

/// A block of a function that takes a number of values.
fn taking(function: &Function, name: Name, count: usize) -> Option<&Block> {
    function
        .block(name)
        .filter(|block| block.parameters.len() == count)
}

/// Moves a frame to a block, binding its parameters to the values brought.
fn jump(frame: &mut Frame, name: Name, block: &Block, values: &[i32]) {
    frame.block = usize::from(name);
    frame.done = 0;
    bind(frame, &block.parameters, values);
}

/// Binds parameters from left to right; a repeated one keeps the last.
fn bind(frame: &mut Frame, parameters: &[Temporary], values: &[i32]) {
    for (&parameter, &value) in parameters.iter().zip(values) {
        frame.temporaries[usize::from(parameter)] = Some(value);
    }
}

/// Steps a thread, by a choice that may have a number; a refusal changes nothing.
pub fn step(program: &Program, thread: &mut Thread, number: Option<u64>) -> Result<Rule, u8> {
    match transfer(program, thread) {
        None => statement(program, thread.current_mut()),
        Some(Transfer::Goto { block, arguments }) => {
            goto(program, thread.current_mut(), *block, arguments).ok_or(STUCK)
        }
        Some(Transfer::If {
            condition,
            then,
            otherwise,
        }) => branch(program, thread.current_mut(), condition, *then, *otherwise),
        Some(Transfer::Call {
            function,
            arguments,
            return_block,
        }) => call(program, thread, *function, arguments, *return_block),
        Some(Transfer::Return { arguments }) => give_back(program, thread, arguments),
        Some(Transfer::Spork { body, spawn }) => {
            spork(program, thread.current_mut(), *body, *spawn, number).ok_or(STUCK)
        }
        Some(Transfer::Spoin {
            unpromoted,
            promoted,
        }) => spoin(program, thread, *unpromoted, *promoted),
    }
}

fn statement(program: &Program, frame: &mut Frame) -> Result<Rule, u8> {
    let statement = &code(program, frame).statements[frame.done];
    let value = evaluate(&frame.temporaries, &statement.expression)?;
    bind(frame, &[statement.target], &[value]);
    frame.done += 1;
    Ok(Rule::Stmt)
}

fn goto(program: &Program, frame: &mut Frame, name: Name, arguments: &[Temporary]) -> Option<Rule> {
    let values = gather(&frame.temporaries, arguments)?;
    let block = taking(function(program, frame), name, values.len())?;
    jump(frame, name, block, &values);
    Some(Rule::Goto)
}

/// An if looks only at the block it goes to, and at none where its condition
/// overflows.
fn branch(
    program: &Program,
    frame: &mut Frame,
    condition: &Expression,
    then: Name,
    otherwise: Name,
) -> Result<Rule, u8> {
    let (rule, name) = match evaluate(&frame.temporaries, condition)? {
        0 => (Rule::Else, otherwise),
        _ => (Rule::Then, then),
    };
    let block = taking(function(program, frame), name, 0).ok_or(STUCK)?;
    jump(frame, name, block, &[]);
    Ok(rule)
}

fn call(
    program: &Program,
    thread: &mut Thread,
    name: Name,
    arguments: &[Temporary],
    return_block: Name,
) -> Result<Rule, u8> {
    let frame = thread.current();
    let values = entering(program, frame, name, arguments).ok_or(STUCK)?;
    function(program, frame).block(return_block).ok_or(STUCK)?;
    if thread.frames.len() >= MAX_FRAMES {
        return Err(FULL_STACK);
    }
    let caller = thread.current_mut();
    caller.block = usize::from(return_block);
    caller.done = 0;
    thread
        .frames
        .push(Frame::entering(usize::from(name), &values));
    Ok(Rule::Call)
}

/// The values a frame brings to a function, if that takes so many.
fn entering(
    program: &Program,
    frame: &Frame,
    name: Name,
    arguments: &[Temporary],
) -> Option<Vec<i32>> {
    let callee = program.function(name)?;
    let values = gather(&frame.temporaries, arguments)?;
    (values.len() == usize::from(callee.parameters)).then_some(values)
}

fn give_back(program: &Program, thread: &mut Thread, arguments: &[Temporary]) -> Result<Rule, u8> {
    if ended(program, thread).is_some() {
        return Err(ENDED);
    }
    let (frame, older) = thread.frames.split_last_mut().ok_or(STUCK)?;
    let caller = older.last_mut().ok_or(STUCK)?;
    let values = gather(&frame.temporaries, arguments).ok_or(STUCK)?;
    let parameters = &code(program, caller).parameters;
    if !frame.calls.is_empty() || parameters.len() != values.len() {
        return Err(STUCK);
    }
    bind(caller, parameters, &values);
    thread.frames.pop();
    Ok(Rule::Return)
}

/// A spork needs no argument and looks at no callee.
fn spork(
    program: &Program,
    frame: &mut Frame,
    body: Name,
    spawn: Name,
    number: Option<u64>,
) -> Option<Rule> {
    let own = function(program, frame);
    let call = own.spawn(spawn)?;
    let block = taking(own, body, 0)?;
    if frame.calls.len() >= MAX_CALLS {
        return None;
    }
    let opened = number.map(|choice| Opened {
        choice,
        arguments: gather(&frame.temporaries, &call.arguments),
    });
    jump(frame, body, block, &[]);
    frame.calls.push(OpenCall {
        spawn: usize::from(spawn),
        opened,
    });
    Some(Rule::Spork)
}

/// A spoin closes the newest open call of the newest frame.
fn spoin(
    program: &Program,
    thread: &mut Thread,
    unpromoted: Name,
    promoted: Name,
) -> Result<Rule, u8> {
    let frame = thread.current_mut();
    if frame.calls.is_empty() {
        Err(STUCK)
    } else if frame.has_unpromoted() {
        spoin_unpromoted(program, frame, unpromoted).ok_or(STUCK)
    } else {
        spoin_promoted(program, thread, promoted)
    }
}

fn spoin_unpromoted(program: &Program, frame: &mut Frame, name: Name) -> Option<Rule> {
    let block = taking(function(program, frame), name, 0)?;
    jump(frame, name, block, &[]);
    frame.calls.pop();
    Some(Rule::Unpr)
}

/// Joins the newest child, which must be ended.
fn spoin_promoted(program: &Program, thread: &mut Thread, name: Name) -> Result<Rule, u8> {
    let child = thread.children.last().ok_or(STUCK)?;
    let values = ended(program, child).ok_or(WAITS)?;
    let own = function(program, thread.current());
    let block = taking(own, name, values.len()).ok_or(STUCK)?;
    thread.children.pop();
    let frame = thread.current_mut();
    frame.calls.pop();
    frame.promoted -= 1;
    jump(frame, name, block, &values);
    Ok(Rule::Prom)
}

/// Promotes a thread's oldest unpromoted call over all its frames.
fn promote(program: &Program, thread: &mut Thread, size: usize) -> Result<Rule, u8> {
    let frame = thread
        .frames
        .iter_mut()
        .find(|frame| frame.has_unpromoted())
        .ok_or(NOTHING)?;
    if size >= MAX_THREADS {
        return Err(FULL_POOL);
    }
    let call = &frame.calls[frame.promoted];
    let spawn = &function(program, frame).spawns[call.spawn];
    let values = entering(program, frame, spawn.function, &spawn.arguments).ok_or(STUCK)?;
    let mut child = Thread::entering(usize::from(spawn.function), &values);
    child.opened.clone_from(&call.opened);
    frame.promoted += 1;
    thread.children.push(child);
    Ok(Rule::Promote)
}
