//! Pools: reached by runs, valid in any way, spoiled, and arbitrary words.

use crate::gen::programs::limit_operands;
use crate::gen::schedules::{guided_choice, Policy};
use crate::pool::{
    frame_start, thread_start, Frame, OpenCall, Pool, Purse, Thread, FRAME_WORDS, MAX_CALLS,
    MAX_FRAMES, MAX_THREADS, MAX_TOKENS, MAX_WORK, POOL_WORDS, TEMPORARIES, TOKENS, WORK,
};
use crate::rng::Rng;
use crate::rules::choose;
use crate::table::{Atom, Block, Expression, Program, Transfer};

/// A pool reached from the start by a guided run.
pub fn reached(rng: &mut Rng, program: &Program, length: usize) -> Pool {
    let policy = Policy::random(rng);
    let mut pool = Pool::start();
    for _ in 0..length {
        let (kind, thread) = guided_choice(rng, program, &pool, policy);
        let _ = choose(program, &mut pool, kind, thread);
    }
    pool
}

/// Any valid pool of a program, reachable or not.
pub fn loose(rng: &mut Rng, program: &Program) -> Pool {
    let spawning = program.functions.iter().any(|f| !f.spawns.is_empty());
    let size = if spawning {
        rng.between(1, MAX_THREADS)
    } else {
        1
    };
    Pool {
        root: loose_tree(rng, program, size),
    }
}

/// A valid pool of one thread with many calls to promote and everything bound,
/// if the program has what stands at its newest frame.
pub fn crowded(rng: &mut Rng, program: &Program) -> Option<Pool> {
    let (newest, brought) = any_standing(rng, program)?;
    let spawns = |f: usize| !program.functions[f].spawns.is_empty();
    let mut spawning = places(program, |_| true);
    spawning.retain(|&(f, _)| spawns(f));
    let mut taking = spawning.clone();
    taking.retain(|&(f, b)| program.functions[f].blocks[b].parameters.len() == brought);
    let older = rng.between(1, MAX_FRAMES - 2);
    let mut frames = Vec::new();
    for number in 1..=older {
        let fitting = if number == older { &taking } else { &spawning };
        let place = rng.pick(fitting)?;
        let mut frame = bound_at(rng, program, place);
        frame.done = 0;
        open_some(rng, program, &mut frame, 1);
        frames.push(frame);
    }
    frames.push(newest);
    let mut root = Thread::entering(0, &[]);
    root.frames = frames;
    Some(Pool { root })
}

/// A frame before a statement or at a transfer, any kind of them as often, if
/// the program has it; and how many values it brings where it returns.
fn any_standing(rng: &mut Rng, program: &Program) -> Option<(Frame, usize)> {
    let stands: [fn(&Block) -> bool; 7] = [
        |block| !block.statements.is_empty(),
        |block| matches!(block.transfer, Transfer::Goto { .. }),
        |block| matches!(block.transfer, Transfer::If { .. }),
        |block| matches!(block.transfer, Transfer::Call { .. }),
        |block| matches!(block.transfer, Transfer::Return { .. }),
        |block| matches!(block.transfer, Transfer::Spork { .. }),
        |block| matches!(block.transfer, Transfer::Spoin { .. }),
    ];
    let kind = rng.below(stands.len());
    let (f, b) = rng.pick(&places(program, stands[kind]))?;
    let block = &program.functions[f].blocks[b];
    let mut frame = bound_at(rng, program, (f, b));
    if kind == 0 {
        frame.done = rng.below(block.statements.len());
    }
    match &block.transfer {
        Transfer::Return { arguments } => return Some((frame, arguments.len())),
        Transfer::Spoin { .. } => open_some(rng, program, &mut frame, 1),
        _ => open_some(rng, program, &mut frame, 0),
    }
    Some((frame, 0))
}

/// Opens at least so many calls of a frame's function, none of them promoted,
/// if it has spawn calls.
fn open_some(rng: &mut Rng, program: &Program, frame: &mut Frame, least: usize) {
    let spawns = program.functions[frame.function].spawns.len();
    if spawns > 0 {
        frame.calls = (0..rng.between(least, MAX_CALLS))
            .map(|_| OpenCall::plain(rng.below(spawns)))
            .collect();
    }
}

/// A valid pool with a thread at a promoted spoin and an ended child, if the
/// program has such blocks.
pub fn joining(rng: &mut Rng, program: &Program) -> Option<Pool> {
    let spoins = places(program, |block| {
        matches!(block.transfer, Transfer::Spoin { .. })
    });
    let (f, b) = rng.pick(&spoins)?;
    let function = &program.functions[f];
    let Transfer::Spoin { promoted, .. } = function.blocks[b].transfer else {
        return None;
    };
    if function.spawns.is_empty() {
        return None;
    }
    let taken = function.block(promoted)?.parameters.len();
    let gives = |block: &Block| matches!(&block.transfer, Transfer::Return { arguments } if arguments.len() == taken);
    let ended = rng.pick(&places(program, gives))?;
    let open = rng.between(1, MAX_CALLS);
    let mut frame = bound_at(rng, program, (f, b));
    frame.promoted = open;
    frame.calls = (0..open)
        .map(|_| OpenCall::plain(rng.below(function.spawns.len())))
        .collect();
    let child = |frame: Frame| {
        let mut thread = Thread::entering(0, &[]);
        thread.frames = vec![frame];
        thread
    };
    let mut root = child(frame.clone());
    root.children = (0..open)
        .map(|_| child(bound_at(rng, program, ended)))
        .collect();
    if rng.chance(50) {
        let mut parent = child(frame);
        parent.frames[0].calls.truncate(1);
        parent.frames[0].promoted = 1;
        parent.children.push(root);
        root = parent;
    }
    Some(Pool { root })
}

/// A valid pool of which a thread's next step works out a sum or a negation of
/// temporaries: an end of 32 bits, one beyond, or with an operand unbound; if the
/// program has one.
pub fn limited(rng: &mut Rng, program: &Program) -> Option<Pool> {
    let (place, done, expression) = limited_place(rng, program)?;
    let mut newest = bound_at(rng, program, place);
    newest.done = done;
    match expression {
        Expression::Negated(m) => {
            let value = rng.one_of([i32::MIN, i32::MIN, i32::MIN + 1, i32::MAX]);
            rebind(&mut newest, m, Some(value));
        }
        Expression::Sum(m, n) => limit_sum(rng, &mut newest, m, n),
        Expression::Plain(_) | Expression::Less(..) => {}
    }
    let mut root = Thread::entering(0, &[]);
    root.frames = vec![newest];
    let older = rng.one_of([0, 0, 1, MAX_FRAMES - 1]);
    for _ in 0..older {
        let mut frame = loose_frame(rng, program, 0, 0);
        frame.done = 0;
        root.frames.insert(0, frame);
    }
    if rng.chance(30) {
        if let Some(parent) = parent_of(rng, program, root.clone()) {
            root = parent;
        }
    }
    Some(Pool { root })
}

/// Binds the operands of a sum, some of them temporaries, so that it is an end of
/// 32 bits or one beyond; or one to a great value, and the other is unbound.
fn limit_sum(rng: &mut Rng, frame: &mut Frame, m: Atom, n: Atom) {
    let beyond = rng.chance(60);
    let [one, other] = limit_operands(rng, beyond);
    let (one, other) = match (m, n) {
        (Atom::Value(value), _) => (one, rest(value, beyond)),
        (_, Atom::Value(value)) => (rest(value, beyond), other),
        _ => (one, other),
    };
    rebind(frame, m, Some(one));
    rebind(frame, n, Some(other));
    if rng.chance(20) {
        let (unbound, bound) = rng.one_of([(m, n), (n, m)]);
        let great = rng.one_of([i32::MIN, i32::MAX]);
        rebind(frame, bound, Some(great));
        rebind(frame, unbound, None);
    }
}

/// A thread with this one for its child, if some function has spawn calls.
fn parent_of(rng: &mut Rng, program: &Program, child: Thread) -> Option<Thread> {
    let mut spawning = places(program, |_| true);
    spawning.retain(|&(f, _)| !program.functions[f].spawns.is_empty());
    let place = rng.pick(&spawning)?;
    let mut frame = bound_at(rng, program, place);
    frame.calls = vec![OpenCall::plain(0)];
    frame.promoted = 1;
    let mut parent = Thread::entering(0, &[]);
    parent.frames = vec![frame];
    parent.children = vec![child];
    Some(parent)
}

/// What a value leaves up to the end on its side, or one more.
fn rest(value: i32, beyond: bool) -> i32 {
    match value.signum() {
        1 => i32::MAX - value + i32::from(beyond),
        -1 => i32::MIN - value - i32::from(beyond),
        _ => 0,
    }
}

/// Binds a temporary to a value, or unbinds it; a value stays.
fn rebind(frame: &mut Frame, atom: Atom, value: Option<i32>) {
    if let Atom::Temporary(t) = atom {
        frame.temporaries[usize::from(t)] = value;
    }
}

/// Where a sum or a negation of some temporary is worked out: a block, the
/// statements done before, and the expression. Ifs as often as statements, and of
/// them those with a missing block often.
fn limited_place(rng: &mut Rng, program: &Program) -> Option<((usize, usize), usize, Expression)> {
    let named = |expression: &Expression| {
        let temporary = |m: &Atom| matches!(m, Atom::Temporary(_));
        match expression {
            Expression::Negated(m) => temporary(m),
            Expression::Sum(m, n) => temporary(m) || temporary(n),
            Expression::Plain(_) | Expression::Less(..) => false,
        }
    };
    let (mut statements, mut branches, mut broken) = (Vec::new(), Vec::new(), Vec::new());
    for place in places(program, |_| true) {
        let own = &program.functions[place.0];
        let block = &own.blocks[place.1];
        for (done, statement) in block.statements.iter().enumerate() {
            if named(&statement.expression) {
                statements.push((place, done, statement.expression));
            }
        }
        if let Transfer::If {
            condition,
            then,
            otherwise,
        } = &block.transfer
        {
            if named(condition) {
                branches.push((place, block.statements.len(), *condition));
                if own.block(*then).is_none() || own.block(*otherwise).is_none() {
                    broken.push((place, block.statements.len(), *condition));
                }
            }
        }
    }
    let missing = rng.pick(&broken).filter(|_| rng.chance(50));
    let branch = missing.or_else(|| rng.pick(&branches).filter(|_| rng.chance(50)));
    branch.or_else(|| rng.pick(&statements))
}

/// The blocks of a program that are of a kind, each with its function.
fn places(program: &Program, kind: impl Fn(&Block) -> bool) -> Vec<(usize, usize)> {
    let functions = program.functions.iter().enumerate();
    functions
        .flat_map(|(f, function)| {
            let blocks = function.blocks.iter().enumerate();
            let found = blocks.filter(|(_, block)| kind(block));
            found.map(|(b, _)| (f, b)).collect::<Vec<_>>()
        })
        .collect()
}

/// A frame at the transfer of a block, with everything bound and nothing open.
fn bound_at(rng: &mut Rng, program: &Program, (function, block): (usize, usize)) -> Frame {
    let mut frame = Frame::entering(function, &[]);
    frame.block = block;
    frame.done = program.functions[function].blocks[block].statements.len();
    frame.temporaries = [(); TEMPORARIES].map(|()| Some(rng.value()));
    frame
}

/// A tree of a number of threads.
fn loose_tree(rng: &mut Rng, program: &Program, size: usize) -> Thread {
    let mut left = size - 1;
    let mut children = Vec::new();
    while left > 0 {
        let part = rng.between(1, left);
        children.push(loose_tree(rng, program, part));
        left -= part;
    }
    if children.is_empty() && rng.chance(40) {
        if let Some(frame) = ended_frame(rng, program) {
            return Thread {
                purse: Purse::default(),
                frames: vec![frame],
                children,
                opened: None,
            };
        }
    }
    Thread {
        purse: Purse::default(),
        frames: loose_stack(rng, program, children.len()),
        children,
        opened: None,
    }
}

/// A frame at a return with everything bound and nothing open.
fn ended_frame(rng: &mut Rng, program: &Program) -> Option<Frame> {
    let returns = places(program, |block| {
        matches!(block.transfer, Transfer::Return { .. })
    });
    let place = rng.pick(&returns)?;
    Some(bound_at(rng, program, place))
}

/// A call stack with a number of promoted calls, these the oldest.
fn loose_stack(rng: &mut Rng, program: &Program, promoted: usize) -> Vec<Frame> {
    let least = promoted.div_ceil(MAX_CALLS).max(1);
    let most = rng.one_of([least, MAX_FRAMES, MAX_FRAMES]);
    let count = rng.between(least, most);
    let count = if rng.chance(15) { MAX_FRAMES } else { count };
    let mut shares = vec![0; count];
    for _ in 0..promoted {
        let open: Vec<usize> = (0..count).filter(|&j| shares[j] < MAX_CALLS).collect();
        let frame = rng.pick(&open).expect("frames have room for all calls");
        shares[frame] += 1;
    }
    let last = shares.iter().rposition(|&share| share > 0).unwrap_or(0);
    (0..count)
        .map(|j| {
            let unpromoted = if j >= last && rng.chance(40) {
                rng.between(0, MAX_CALLS - shares[j])
            } else {
                0
            };
            let mut frame = loose_frame(rng, program, shares[j], unpromoted);
            if j + 1 < count {
                frame.done = 0;
            }
            frame
        })
        .collect()
}

fn loose_frame(rng: &mut Rng, program: &Program, promoted: usize, unpromoted: usize) -> Frame {
    let all: Vec<usize> = (0..program.functions.len()).collect();
    let spawning: Vec<usize> = all
        .iter()
        .copied()
        .filter(|&f| !program.functions[f].spawns.is_empty())
        .collect();
    let open = if spawning.is_empty() {
        0
    } else {
        promoted + unpromoted
    };
    let fitting = if open > 0 { &spawning } else { &all };
    let function = rng.pick(fitting).expect("a program has functions");
    let code = &program.functions[function];
    let block = rng.below(code.blocks.len());
    let statements = code.blocks[block].statements.len();
    let dense = rng.one_of([50, 80, 100, 100]);
    Frame {
        function,
        block,
        done: if rng.chance(80) {
            statements
        } else {
            rng.between(0, statements)
        },
        temporaries: [(); TEMPORARIES].map(|()| rng.chance(dense).then(|| rng.value())),
        calls: (0..open)
            .map(|_| OpenCall::plain(rng.below(code.spawns.len())))
            .collect(),
        promoted,
    }
}

/// Gives every thread of a pool any purse.
pub fn fill_purses(rng: &mut Rng, pool: &mut Pool) {
    for number in 0..pool.size() {
        let thread = pool.thread_mut(number).expect("a thread below the size");
        thread.purse = any_purse(rng);
    }
}

/// A purse that a pool may have: amounts at the edges, near them and between.
fn any_purse(rng: &mut Rng) -> Purse {
    let few = rng.below(600) as u32;
    let work = rng.below(MAX_WORK as usize + 1) as u32;
    let tokens = rng.below(MAX_TOKENS as usize + 1) as u32;
    Purse {
        work: rng.one_of([0, 1, few, MAX_WORK - 1, MAX_WORK, work]),
        tokens: rng.one_of([
            0,
            1,
            few % 16,
            few % 128,
            MAX_TOKENS - few,
            MAX_TOKENS,
            tokens,
        ]),
    }
}

/// The same pool with other values: some or all of those bound in any frame.
pub fn other_values(rng: &mut Rng, pool: &Pool) -> Pool {
    let mut pool = pool.clone();
    let share = rng.one_of([5, 50, 100]);
    for number in 0..pool.size() {
        let thread = pool.thread_mut(number).expect("a thread below the size");
        let frames = thread.frames.iter_mut();
        let bound = frames.flat_map(|frame| frame.temporaries.iter_mut().flatten());
        for value in bound {
            if rng.chance(share) {
                *value = rng.value();
            }
        }
    }
    pool
}

/// The edges of what purses of a lent pool hold, by name.
pub const EDGES: [&str; 5] = [
    "thread lent with work 0",
    "thread lent with work 65534",
    "thread lent with 0 tokens",
    "thread lent with 1 token",
    "thread lent with 2000000000 tokens",
];

/// The edges at which some purse of a pool is.
pub fn edges(pool: &Pool) -> Vec<&'static str> {
    let threads = pool.threads();
    let some = |holds: fn(&Purse) -> bool| threads.iter().any(|thread| holds(&thread.purse));
    let holds = [
        some(|purse| purse.work == 0),
        some(|purse| purse.work == MAX_WORK),
        some(|purse| purse.tokens == 0),
        some(|purse| purse.tokens == 1),
        some(|purse| purse.tokens == MAX_TOKENS),
    ];
    let held = EDGES.into_iter().zip(holds);
    held.filter_map(|(edge, held)| held.then_some(edge))
        .collect()
}

/// The ways in which a word of a purse is none, by name.
pub const NO_PURSES: [&str; 12] = [
    "work 65535",
    "work 2147483647",
    "work -1",
    "work -2147483648",
    "tokens 2000000001",
    "tokens 2147483647",
    "tokens -1",
    "tokens -2147483648",
    "work 1 of an unused thread",
    "tokens 1 of an unused thread",
    "work -1 of an unused thread",
    "tokens -1 of an unused thread",
];

/// Sets a word of a purse to what it never is, and gives the way by name; none
/// where the pool has no unused thread for it. All else stays.
pub fn break_purse(rng: &mut Rng, pool: &Pool, words: &mut [i32]) -> Option<&'static str> {
    let used = pool.size();
    let way = rng.below(NO_PURSES.len());
    let thread = match way {
        0..=7 => rng.below(used),
        _ if used == MAX_THREADS => return None,
        _ => rng.between(used, MAX_THREADS - 1),
    };
    let (place, word) = [
        (WORK, MAX_WORK as i32 + 1),
        (WORK, i32::MAX),
        (WORK, -1),
        (WORK, i32::MIN),
        (TOKENS, MAX_TOKENS as i32 + 1),
        (TOKENS, i32::MAX),
        (TOKENS, -1),
        (TOKENS, i32::MIN),
        (WORK, 1),
        (TOKENS, 1),
        (WORK, -1),
        (TOKENS, -1),
    ][way];
    words[thread_start(thread) + place] = word;
    Some(NO_PURSES[way])
}

/// Breaks one condition of a pool in one thread; the words may still hold a
/// pool where the condition does not apply.
pub fn spoil(rng: &mut Rng, program: &Program, pool: &mut Pool) {
    let size = pool.size();
    let number = rng.below(size);
    let thread = pool.thread_mut(number).expect("a thread below the size");
    let j = rng.below(thread.frames.len());
    let code = &program.functions[thread.frames[j].function];
    match rng.below(10) {
        0 if size < MAX_THREADS => thread.children.push(Thread::entering(0, &[])),
        0 | 1 => drop(thread.children.pop()),
        2 => thread.frames[j].promoted += 1,
        3 => thread.frames[j].promoted = thread.frames[j].promoted.saturating_sub(1),
        4 => shift_promotion(&mut thread.frames),
        5 => thread.frames[j].done += 1,
        6 => thread.current_mut().done = statements(program, thread.current()) + 1,
        7 => thread.frames[j].function = program.functions.len(),
        8 => thread.frames[j].block = code.blocks.len(),
        _ => {
            if let Some(call) = thread.frames[j].calls.first_mut() {
                call.spawn = code.spawns.len();
            }
        }
    }
}

/// How many statements a frame's block has.
fn statements(program: &Program, frame: &Frame) -> usize {
    program.functions[frame.function].blocks[frame.block]
        .statements
        .len()
}

/// Takes a promotion from a frame and gives it to a newer one, so that the
/// number of children stays.
fn shift_promotion(frames: &mut [Frame]) {
    let from = frames.iter().position(|frame| frame.promoted > 0);
    let to = frames.iter().rposition(Frame::has_unpromoted);
    if let (Some(from), Some(to)) = (from, to) {
        frames[from].promoted -= 1;
        frames[to].promoted += 1;
    }
}

/// Sets a word of an unused thread, frame or spawn call slot, or an unbound
/// value.
pub fn fill_unused(rng: &mut Rng, pool: &Pool, words: &mut [i32]) {
    let threads = pool.threads();
    let i = rng.below(threads.len());
    let j = rng.below(threads[i].frames.len());
    let frame = &threads[i].frames[j];
    let start = frame_start(i, j);
    let mut places: Vec<usize> = (frame.calls.len()..MAX_CALLS)
        .map(|c| start + 6 + c)
        .collect();
    let unbound = (0..TEMPORARIES).filter(|&t| frame.temporaries[t].is_none());
    places.extend(unbound.map(|t| start + 10 + t));
    let after_frames = frame_start(i, threads[i].frames.len());
    let after_threads = thread_start(threads.len());
    for (from, to) in [
        (after_frames, thread_start(i + 1)),
        (after_threads, POOL_WORDS),
    ] {
        if from < to {
            places.extend([from, to - 1, rng.between(from, to - 1)]);
        }
    }
    if let Some(place) = rng.pick(&places) {
        words[place] = rng.one_of([1, -1, 7]);
    }
}

/// A word that a count or a number may be mistaken for.
fn odd_word(rng: &mut Rng, word: i32) -> i32 {
    let any = rng.value();
    let small = rng.between(0, 40) as i32;
    rng.one_of([
        0,
        1,
        -1,
        8,
        9,
        4,
        5,
        0xFFFF,
        0x1_0000,
        i32::MIN,
        i32::MAX,
        word.wrapping_add(1),
        word.wrapping_sub(1),
        word ^ 1,
        any,
        small,
    ])
}

/// A word of a pool that is likely to matter.
fn telling_place(rng: &mut Rng, words: &[i32]) -> usize {
    let threads = words[0].clamp(1, MAX_THREADS as i32) as usize;
    let thread = rng.between(0, threads.min(MAX_THREADS - 1));
    let at = thread_start(thread);
    let frames = words[at].clamp(0, MAX_FRAMES as i32) as usize;
    let frame = rng.between(0, frames.min(MAX_FRAMES - 1));
    let start = frame_start(thread, frame);
    let within = start + rng.below(FRAME_WORDS);
    let early = start + rng.below(10);
    let any = rng.below(POOL_WORDS);
    let purse = at + rng.one_of([WORK, TOKENS]);
    rng.one_of([
        0, at, at, purse, within, within, early, early, early, early, any,
    ])
}

/// Changes one word of a pool.
pub fn change_word(rng: &mut Rng, words: &mut [i32]) {
    let place = telling_place(rng, words);
    words[place] = odd_word(rng, words[place]);
}

/// Words that hold anything, mostly of a pool's length.
pub fn arbitrary(rng: &mut Rng) -> Vec<i32> {
    let length = rng.one_of([
        POOL_WORDS,
        POOL_WORDS,
        POOL_WORDS,
        POOL_WORDS,
        0,
        1,
        POOL_WORDS - 1,
        POOL_WORDS + 1,
        2 * POOL_WORDS,
    ]);
    let all = rng.one_of([0, -1, 1, 8, i32::MAX, i32::MIN]);
    match rng.below(3) {
        0 => vec![all; length],
        1 => (0..length).map(|_| rng.value()).collect(),
        _ => (0..length).map(|_| rng.below(3) as i32).collect(),
    }
}
