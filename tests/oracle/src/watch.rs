//! What is worth counting: the shapes of programs, joins, what pools reach, what
//! beats are like, the first thread that can step, what listings show, and
//! expressions at the ends of 32 bits.

use crate::beats::{Beat, Entry, Pace};
use crate::depth;
use crate::first::Run;
use crate::graph::{cyclic, jumps, live, Graph};
use crate::overflow::{beyond, next, End};
use crate::pool::{Frame, Pool, Thread, MAX_CALLS, MAX_FRAMES, MAX_THREADS, TEMPORARIES};
use crate::rules::{atom, ended, exact, step, transfer, Rule};
use crate::table::{
    Atom, Expression, Function, Name, Program, Transfer, BRIEF_MAX, MAX_BLOCKS, MAX_FUNCTIONS,
    MAX_NESTING, MAX_SPAWNS,
};
use crate::tidy::Numbering;

/// The shapes of programs, by name.
pub const SHAPES: [&str; 5] = [FUNCTIONS, DEPTH, LOOP, RECURSION, DEAD];

const FUNCTIONS: &str = "table of several functions";
const DEPTH: &str = "table with a nesting of depth 4";
const LOOP: &str = "table with a loop";
const RECURSION: &str = "table with recursion";
const DEAD: &str = "table with a dead block";

/// The shapes that a program has.
pub fn shapes(program: &Program) -> Vec<&'static str> {
    let functions = &program.functions;
    let blocks: Vec<Graph> = functions.iter().map(jumps).collect();
    let mut found = Vec::new();
    let mut note = |holds: bool, shape| {
        if holds {
            found.push(shape);
        }
    };
    note(functions.len() > 1, FUNCTIONS);
    note(
        functions
            .iter()
            .flat_map(|function| &function.blocks)
            .any(|block| block.nesting.len() == usize::from(MAX_NESTING)),
        DEPTH,
    );
    note(blocks.iter().any(cyclic), LOOP);
    note(cyclic(&mentions(program)), RECURSION);
    note(
        functions
            .iter()
            .any(|function| live(function).contains(&false)),
        DEAD,
    );
    found
}

/// The functions that each function calls or spawns.
fn mentions(program: &Program) -> Graph {
    let mut graph = depth::calls(program);
    for (mentioned, function) in graph.iter_mut().zip(&program.functions) {
        mentioned.extend(function.spawns.iter().map(|s| usize::from(s.function)));
    }
    graph
}

/// What tidying does to a program, by name.
pub const TIDIED: [&str; 12] = [
    SAME,
    FUNCTION_GONE,
    BLOCK_GONE,
    SPAWN_GONE,
    FUNCTION_MOVED,
    BLOCK_MOVED,
    SPAWN_MOVED,
    ALIKE,
    UNCALLED,
    ALL_FUNCTIONS,
    ALL_BLOCKS,
    ALL_SPAWNS,
];

const SAME: &str = "tidy: nothing changes";
const FUNCTION_GONE: &str = "tidy: a function goes";
const BLOCK_GONE: &str = "tidy: a block of a kept function goes";
const SPAWN_GONE: &str = "tidy: a spawn call of a kept function goes";
const FUNCTION_MOVED: &str = "tidy: functions change places";
const BLOCK_MOVED: &str = "tidy: blocks change places";
const SPAWN_MOVED: &str = "tidy: spawn calls change places";
const ALIKE: &str = "tidy: two spawn calls that are alike stay";
const UNCALLED: &str = "tidy: a function stays by a spawn call alone";
const ALL_FUNCTIONS: &str = "tidy: 16 functions stay";
const ALL_BLOCKS: &str = "tidy: 32 blocks stay";
const ALL_SPAWNS: &str = "tidy: 8 spawn calls stay";

/// What the new numbers of a program do to it.
pub fn tidied(program: &Program, numbering: &Numbering) -> Vec<&'static str> {
    let tidy = numbering.program(program);
    let functions = numbering.functions();
    let olds: Vec<&Function> = functions
        .iter()
        .filter_map(|&f| program.function(f))
        .collect();
    let pairs = || olds.iter().zip(&tidy.functions);
    let moved = |order: &[Name]| !order.is_sorted();
    let any_moved = |order: fn(&Numbering, Name) -> Vec<Name>| {
        functions.iter().any(|&f| moved(&order(numbering, f)))
    };
    let called: Vec<usize> = depth::calls(&tidy).into_iter().flatten().collect();
    let all = |count: usize, most: u8| count == usize::from(most);
    let holds = [
        tidy == *program,
        tidy.functions.len() < program.functions.len(),
        pairs().any(|(old, new)| new.blocks.len() < old.blocks.len()),
        pairs().any(|(old, new)| new.spawns.len() < old.spawns.len()),
        moved(&functions),
        any_moved(Numbering::blocks),
        any_moved(Numbering::spawns),
        tidy.functions.iter().any(alike),
        (1..tidy.functions.len()).any(|f| !called.contains(&f)),
        all(tidy.functions.len(), MAX_FUNCTIONS),
        pairs().any(|(_, new)| all(new.blocks.len(), MAX_BLOCKS)),
        pairs().any(|(_, new)| all(new.spawns.len(), MAX_SPAWNS)),
    ];
    let found = TIDIED.into_iter().zip(holds);
    found
        .filter_map(|(event, held)| held.then_some(event))
        .collect()
}

/// What completed programs are like, by name.
pub const COMPLETED: [&str; 8] = [
    SMALLER,
    AS_LARGE,
    FOUR_DEEP,
    ROUND,
    TO_ENTRY,
    MOST_FUNCTIONS,
    MOST_BLOCKS,
    LARGEST,
];

const SMALLER: &str = "completed: a scope is smaller than one that passes";
const AS_LARGE: &str = "completed: all scopes are those known";
const FOUR_DEEP: &str = "completed: a nesting of four";
const ROUND: &str = "completed: a loop";
const TO_ENTRY: &str = "completed: a jump to an entry with parameters";
const MOST_FUNCTIONS: &str = "completed: 16 functions";
const MOST_BLOCKS: &str = "completed: 32 blocks of a function";
const LARGEST: &str = "completed: a table of 12800 bytes";

/// What a completed program is like, beside one that passes, and with the
/// number of bytes that were completed.
pub fn completed(program: &Program, known: &Program, bytes: usize) -> Vec<&'static str> {
    let functions = &program.functions;
    let blocks = || functions.iter().flat_map(|function| &function.blocks);
    let to_entry = |function: &Function| {
        function.parameters > 0 && jumps(function).iter().flatten().any(|&b| b == 0)
    };
    let holds = [
        program != known,
        program == known,
        blocks().any(|block| block.nesting.len() == usize::from(MAX_NESTING)),
        functions.iter().any(|function| cyclic(&jumps(function))),
        functions.iter().any(to_entry),
        functions.len() == usize::from(MAX_FUNCTIONS),
        functions
            .iter()
            .any(|function| function.blocks.len() == usize::from(MAX_BLOCKS)),
        bytes == BRIEF_MAX,
    ];
    let found = COMPLETED.into_iter().zip(holds);
    found
        .filter_map(|(event, held)| held.then_some(event))
        .collect()
}

/// Whether two spawn calls of a function are alike.
fn alike(function: &Function) -> bool {
    let spawns = &function.spawns;
    (1..spawns.len()).any(|k| spawns[..k].contains(&spawns[k]))
}

/// What pools reach, by name.
pub const EVENTS: [&str; 5] = [FULL_POOL, GRANDCHILD, OLDER, FOUR_OPEN, FULL_STACK];

const FULL_POOL: &str = "pool of 8 threads";
const GRANDCHILD: &str = "promotion in a promoted thread";
const OLDER: &str = "promotion in an older frame";
const FOUR_OPEN: &str = "four open calls in a frame";
const FULL_STACK: &str = "stack of 8 frames";

/// What a thread's join brings and what the promoted block takes, if the
/// thread is at a promoted spoin and its newest child is ended.
pub fn join(program: &Program, thread: &Thread) -> Option<(usize, Option<usize>)> {
    let frame = thread.current();
    let Some(Transfer::Spoin { promoted, .. }) = transfer(program, thread) else {
        return None;
    };
    if frame.calls.is_empty() || frame.has_unpromoted() {
        return None;
    }
    let child = thread.children.last()?;
    ended(program, child)?;
    let Some(Transfer::Return { arguments }) = transfer(program, child) else {
        return None;
    };
    let block = program.functions[frame.function].block(*promoted);
    Some((arguments.len(), block.map(|b| b.parameters.len())))
}

/// The name of a join's event.
pub fn join_event(brought: usize) -> String {
    format!("join of {brought} values")
}

/// What a pool reaches, once for each thread that does.
pub fn reached(pool: &Pool) -> Vec<&'static str> {
    let threads = pool.threads();
    let mut events = Vec::new();
    if threads.len() == MAX_THREADS {
        events.push(FULL_POOL);
    }
    if threads[1..]
        .iter()
        .any(|thread| !thread.children.is_empty())
    {
        events.push(GRANDCHILD);
    }
    for thread in &threads {
        let (_, older) = thread.frames.split_last().expect("a thread has a frame");
        if older.iter().any(|frame| frame.promoted > 0) {
            events.push(OLDER);
        }
        if thread
            .frames
            .iter()
            .any(|frame| frame.calls.len() == MAX_CALLS)
        {
            events.push(FOUR_OPEN);
        }
        if thread.frames.len() == MAX_FRAMES {
            events.push(FULL_STACK);
        }
    }
    events
}

/// What beats are like, by name; how many promotions they make is apart.
pub const BEATS: [&str; 19] = [
    "beat that earns nothing",
    "beat that earns as its work comes to N",
    "beat that earns with more work than N",
    "beat that earns by its first step, at N 1",
    "join that hands back tokens",
    "join that hands back no token",
    "join that loses work",
    "tokens cut as a joined child's arrive",
    "tokens cut as C arrive",
    "tokens cut as both arrive",
    "promotion of tokens that had come before",
    "promotions until no token is left",
    "promotions that 20 ends",
    "promotions that 21 ends",
    "promotions that 19 ends",
    "half of an even rest moves",
    "half of an odd rest moves",
    "promotion that moves no token",
    "tokens that stay for later",
];

/// What a beat was like.
pub fn beat(beat: &Beat, pace: Pace) -> Vec<&'static str> {
    let entries = &beat.ledger.entries;
    let earned = entries.contains(&Entry::Came(pace.c));
    let work = u64::from(beat.worked) + 1;
    let joined = beat.rule == Rule::Prom;
    let back = |tokens: &u64| entries.contains(&Entry::HandedBack(*tokens));
    let cut = |arrival: fn(&Entry) -> bool| {
        let dropped = |pair: &[Entry]| matches!(pair[1], Entry::Dropped(_));
        entries
            .windows(2)
            .any(|pair| arrival(&pair[0]) && dropped(pair))
    };
    let cut_back = cut(|entry| matches!(entry, Entry::HandedBack(_)));
    let cut_came = cut(|entry| matches!(entry, Entry::Came(_)));
    let (paid, left) = (beat.ledger.paid(), beat.ledger.balance());
    let rests = rests(beat);
    let holds = [
        !earned,
        earned && work == pace.n,
        earned && work > pace.n,
        earned && pace.n == 1 && work == 1,
        joined && !back(&0),
        joined && back(&0),
        beat.lost > 0,
        cut_back,
        cut_came,
        cut_back && cut_came,
        paid > 0 && !earned && !joined,
        paid > 0 && left == 0,
        beat.stopped == Some(20),
        beat.stopped == Some(21),
        beat.stopped == Some(19),
        rests.iter().any(|rest| rest % 2 == 0 && *rest > 0),
        rests.iter().any(|rest| rest % 2 == 1 && *rest > 1),
        entries.contains(&Entry::Moved(0)),
        left > 0,
    ];
    let held = BEATS.into_iter().zip(holds);
    held.filter_map(|(event, held)| held.then_some(event))
        .collect()
}

/// What was left after each token that paid.
fn rests(beat: &Beat) -> Vec<u64> {
    let mut ledger = beat.ledger.clone();
    let mut rests = Vec::new();
    while let Some(entry) = ledger.entries.pop() {
        if let Entry::Moved(_) = entry {
            rests.push(ledger.balance());
        }
    }
    rests
}

/// The name of the event of a beat's promotions.
pub fn promotions_event(promotions: u64) -> String {
    format!("beat of {promotions} promotions")
}

/// What the first thread that can step is like, by name.
pub const FIRSTS: [&str; 14] = [
    "first is thread 0, and no other can step",
    "first is thread 0, and another can step",
    "first is thread 1, and no other can step",
    "first is another, and thread 0 waits",
    "first is another, and a lower one is ended",
    "first is another, and a lower one is out of frames",
    "first is another, and a lower one is stuck",
    "first is another, and a lower one overflows",
    "first is another, and all lower ones wait, two or more",
    "first is another, and a higher one can step",
    "first is none, and main has returned",
    "first is none, and a thread is out of frames",
    "first is none, and a thread is stuck",
    "first is none, and a thread overflows",
];

/// What the first thread of a pool that can step is like, by what a step of each
/// thread gets.
pub fn firsts(program: &Program, pool: &Pool) -> Vec<&'static str> {
    let threads = pool.threads().into_iter();
    let answers: Vec<Result<Rule, u8>> = threads
        .map(|thread| step(program, &mut thread.clone(), None))
        .collect();
    let can = answers.iter().filter(|answer| answer.is_ok()).count();
    let lower = answers.iter().take_while(|answer| answer.is_err()).count();
    let some = can > 0;
    let behind = some && lower > 0;
    let gets = |number: u8| answers[..lower].contains(&Err(number));
    let waits = |answer: &Result<Rule, u8>| *answer == Err(17);
    let holds = [
        some && lower == 0 && can == 1,
        some && lower == 0 && can > 1,
        lower == 1 && can == 1,
        behind && waits(&answers[0]),
        behind && gets(16),
        behind && gets(18),
        behind && gets(19),
        behind && gets(29),
        behind && lower > 1 && answers[..lower].iter().all(waits),
        behind && can > 1,
        !some && answers[0] == Err(16),
        !some && gets(18),
        !some && gets(19),
        !some && gets(29),
    ];
    let found = FIRSTS.into_iter().zip(holds);
    found
        .filter_map(|(event, held)| held.then_some(event))
        .collect()
}

/// What steps by the first are like, by name.
pub const BY_FIRST: [&str; 7] = [
    "steps by the first that ended",
    "steps by the first that go on",
    "steps by the first, none made",
    "steps by the first of three threads or more",
    "steps by the first that join a child",
    "steps by the first of a table that is not accepted, that ended",
    "steps by the first of a table that is not accepted, that go on",
];

/// What steps by the first were like, of a table that is accepted or not.
pub fn by_first(run: &Run, accepted: bool) -> Vec<&'static str> {
    let has = |number: usize| run.steps.iter().any(|&(thread, _)| thread == number);
    let threads = (0..MAX_THREADS).filter(|&number| has(number)).count();
    let holds = [
        run.ended && !run.steps.is_empty(),
        !run.ended,
        run.ended && run.steps.is_empty(),
        threads > 2,
        run.steps.iter().any(|&(_, rule)| rule == Rule::Prom),
        !accepted && run.ended,
        !accepted && !run.ended,
    ];
    let found = BY_FIRST.into_iter().zip(holds);
    found
        .filter_map(|(event, held)| held.then_some(event))
        .collect()
}

/// What listings of a pool show, by name.
pub const LISTED: [&str; 25] = [
    "listing of one thread",
    "listing of eight threads",
    "listing with a line three deep",
    "listing with a line seven deep",
    "listing with two children of a thread",
    "listing with four children of a thread",
    "listing with a child's children before its older sibling",
    "listing of children by older frames alone",
    "listing of a thread with eight frames",
    "listing of a function of two digits",
    "listing of a block of two digits",
    "listing of two digits of statements done",
    "listing of open calls, none promoted",
    "listing of open calls, some promoted",
    "listing of open calls, all promoted",
    "listing of four open calls",
    "listing with nothing bound",
    "listing with 16 bound",
    "listing with temporaries of two digits alone",
    "listing of the value 0",
    "listing of a negative value",
    "listing of the least value",
    "listing of the greatest value",
    "listing without values that older frames have bound",
    "listing of a thread with work and tokens",
];

/// What the listings of a pool show.
pub fn listed(pool: &Pool) -> Vec<&'static str> {
    let threads = pool.threads();
    let depth = height(&pool.root);
    let some = |holds: &dyn Fn(&Thread) -> bool| threads.iter().any(|thread| holds(thread));
    let newest = |holds: &dyn Fn(&Frame) -> bool| some(&|thread| holds(thread.current()));
    let bound = |frame: &Frame| frame.temporaries.iter().flatten().count();
    let low = |frame: &Frame| frame.temporaries[..10].iter().flatten().count();
    let frames = threads.iter().map(|thread| thread.current());
    let values: Vec<i32> = frames
        .flat_map(|frame| frame.temporaries.into_iter().flatten())
        .collect();
    let younger = |thread: &Thread| match &thread.children[..] {
        [_, younger @ ..] => younger.iter().any(|child| !child.children.is_empty()),
        [] => false,
    };
    let hides = |thread: &Thread| {
        let older = thread.frames.iter().rev().skip(1);
        older.map(bound).any(|bound| bound > 0)
    };
    let holds = [
        threads.len() == 1,
        threads.len() == MAX_THREADS,
        depth >= 3,
        depth >= 7,
        some(&|thread| thread.children.len() == 2),
        some(&|thread| thread.children.len() >= 4),
        some(&younger),
        some(&|thread| !thread.children.is_empty() && thread.current().promoted == 0),
        some(&|thread| thread.frames.len() == MAX_FRAMES),
        newest(&|frame| frame.function >= 10),
        newest(&|frame| frame.block >= 10),
        newest(&|frame| frame.done >= 10),
        newest(&|frame| frame.promoted == 0 && !frame.calls.is_empty()),
        newest(&|frame| frame.promoted > 0 && frame.has_unpromoted()),
        newest(&|frame| frame.promoted > 0 && !frame.has_unpromoted()),
        newest(&|frame| frame.calls.len() == MAX_CALLS),
        newest(&|frame| bound(frame) == 0),
        newest(&|frame| bound(frame) == TEMPORARIES),
        newest(&|frame| bound(frame) > 0 && low(frame) == 0),
        values.contains(&0),
        values.iter().any(|&value| value < 0),
        values.contains(&i32::MIN),
        values.contains(&i32::MAX),
        some(&hides),
        some(&|thread| thread.purse.work > 0 && thread.purse.tokens > 0),
    ];
    let found = LISTED.into_iter().zip(holds);
    found
        .filter_map(|(event, held)| held.then_some(event))
        .collect()
}

/// How deep the children of a thread go.
fn height(thread: &Thread) -> usize {
    let below = thread.children.iter().map(|child| 1 + height(child));
    below.max().unwrap_or(0)
}

/// What expressions at the ends of 32 bits are like, by name.
pub const LIMITS: [&str; 24] = [
    "overflow of a sum at the top",
    "overflow of a sum at the bottom",
    "overflow of a negation",
    "overflow of a sum by one at the top",
    "overflow of a sum by one at the bottom",
    "overflow of a sum by half of all at the top",
    "overflow of a sum by half of all at the bottom",
    "overflow of values alone",
    "overflow of temporaries alone",
    "overflow of a temporary and a value",
    "overflow in a statement",
    "overflow in an if",
    "overflow of a negation in an if",
    "overflow in an if whose blocks are both missing",
    "overflow in an if one of whose blocks is missing",
    "overflow in thread 0",
    "overflow in a child",
    "overflow in a called function",
    "sum that is the greatest value",
    "sum that is the least value",
    "negation that is the greatest value",
    "if by a sum at the limit",
    "sum of an unbound operand and the greatest or least value",
    "if by a sum with an unbound operand",
];

/// What the expression is like that the next step of a thread works out, where it
/// does.
pub fn limits(program: &Program, number: usize, thread: &Thread) -> Vec<&'static str> {
    let frame = thread.current();
    let Some(next) = next(program, thread) else {
        return Vec::new();
    };
    let (operands, sum) = match *next.expression {
        Expression::Negated(m) => (vec![m], false),
        Expression::Sum(m, n) => (vec![m, n], true),
        Expression::Plain(_) | Expression::Less(..) => return Vec::new(),
    };
    let end = beyond(&frame.temporaries, next.expression);
    let integer = exact(&frame.temporaries, next.expression);
    let over = end.is_some();
    let is = |number: i64| integer == Some(number);
    let (least, most) = (i64::from(i32::MIN), i64::from(i32::MAX));
    let half = 1 << 30;
    let values: Vec<Option<i32>> = operands
        .iter()
        .map(|&m| atom(&frame.temporaries, m))
        .collect();
    let unbound = values.contains(&None);
    let great = |value: &Option<i32>| matches!(value, Some(i32::MIN | i32::MAX));
    let temporary = |m: &&Atom| matches!(m, Atom::Temporary(_));
    let temporaries = operands.iter().filter(temporary).count();
    let branch = next.blocks.is_some();
    let missing = next.blocks.map_or(0, |blocks| {
        let own = &program.functions[frame.function];
        let missing = |name: &&Name| own.block(**name).is_none();
        blocks.iter().filter(missing).count()
    });
    let holds = [
        sum && end == Some(End::Top),
        sum && end == Some(End::Bottom),
        over && !sum,
        sum && is(most + 1),
        sum && is(least - 1),
        sum && integer.is_some_and(|integer| integer > most + half),
        sum && integer.is_some_and(|integer| integer < least - half),
        over && temporaries == 0,
        over && temporaries == operands.len(),
        over && sum && temporaries == 1,
        over && !branch,
        over && branch,
        over && branch && !sum,
        over && missing == 2,
        over && missing == 1,
        over && number == 0,
        over && number > 0,
        over && thread.frames.len() > 1,
        sum && is(most),
        sum && is(least),
        !sum && is(most),
        branch && sum && (is(most) || is(least)),
        sum && unbound && values.iter().any(great),
        sum && unbound && branch,
    ];
    let found = LIMITS.into_iter().zip(holds);
    found
        .filter_map(|(event, held)| held.then_some(event))
        .collect()
}
