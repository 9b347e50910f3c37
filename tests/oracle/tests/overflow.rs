//! Overflow, 29: every edge of sums and negations, in statements and in ifs, and
//! what comes before it.

use oracle::encode::encode;
use oracle::overflow::{beyond, End};
use oracle::pool::{frame_start, Temporaries};
use oracle::rng::Rng;
use oracle::rules::exact;
use oracle::runner;
use oracle::table::{
    Atom, Block, Expression, Function, Name, Program, SpawnCall, Statement, Temporary, Transfer,
};
use oracle::{beat, check, choose, depth, run, schedule, start, values, which};
use oracle::{Pace, Refusal, POOL_WORDS};

const MIN: i32 = i32::MIN;
const MAX: i32 = i32::MAX;
const STEP: u64 = 0;
const PROMOTE: u64 = 1;
/// A pace that earns at every step.
const EACH: Pace = Pace { n: 1, c: 1 };
/// The word of a frame that tells which temporaries are bound, and the first
/// value.
const BOUND: usize = 3;
const VALUES: usize = 10;

fn value(value: i32) -> Atom {
    Atom::Value(value)
}

fn name(temporary: Temporary) -> Atom {
    Atom::Temporary(temporary)
}

fn sum(m: i32, n: i32) -> Expression {
    Expression::Sum(value(m), value(n))
}

fn negated(m: i32) -> Expression {
    Expression::Negated(value(m))
}

fn set(target: Temporary, expression: Expression) -> Statement {
    Statement { target, expression }
}

fn gives(arguments: &[Temporary]) -> Transfer {
    Transfer::Return {
        arguments: arguments.to_vec(),
    }
}

fn branch(condition: Expression, then: Name, otherwise: Name) -> Transfer {
    Transfer::If {
        condition,
        then,
        otherwise,
    }
}

fn block(nesting: &[Name], statements: Vec<Statement>, transfer: Transfer) -> Block {
    Block {
        parameters: vec![],
        scope: [].into(),
        nesting: nesting.to_vec(),
        statements,
        transfer,
    }
}

fn function(returns: u8, spawns: Vec<SpawnCall>, blocks: Vec<Block>) -> Function {
    Function {
        parameters: 0,
        returns,
        spawns,
        blocks,
    }
}

fn table(functions: Vec<Function>) -> Vec<u8> {
    encode(&Program { functions })
}

/// Main sets 0 to an expression and returns it.
fn sets(expression: Expression) -> Vec<u8> {
    let only = block(&[], vec![set(0, expression)], gives(&[0]));
    table(vec![function(1, vec![], vec![only])])
}

/// Main returns nothing from block 1 or 2, as an expression decides.
fn decides(condition: Expression) -> Vec<u8> {
    let ends = || block(&[], vec![], gives(&[]));
    let blocks = vec![block(&[], vec![], branch(condition, 1, 2)), ends(), ends()];
    table(vec![function(0, vec![], blocks)])
}

/// The same to two blocks that are missing.
fn decides_nothing(condition: Expression) -> Vec<u8> {
    let blocks = vec![block(&[], vec![], branch(condition, 9, 31))];
    table(vec![function(0, vec![], blocks)])
}

fn started(table: &[u8]) -> Vec<i32> {
    let mut pool = vec![-1; POOL_WORDS];
    start(table, &mut pool).unwrap();
    pool
}

/// A choice's rule or number; a refused one leaves the words.
fn put(table: &[u8], pool: &mut [i32], kind: u64, thread: u64) -> Result<u8, u8> {
    let before = pool.to_vec();
    let answer = choose(table, pool, kind, thread);
    assert!(answer.is_ok() || pool == before, "a refusal left a mark");
    answer
        .map(|rule| rule.number())
        .map_err(|refusal| refusal.number)
}

/// The first step's rule or number.
fn first_step(table: &[u8]) -> Result<u8, u8> {
    put(table, &mut started(table), STEP, 0)
}

/// What main gives after one step, or that step's number.
fn result(expression: Expression) -> Result<i32, u8> {
    let table = sets(expression);
    assert_eq!(check(&table), Ok(()));
    let mut pool = started(&table);
    assert_eq!(put(&table, &mut pool, STEP, 0)?, 1);
    Ok(values(&table, &pool).unwrap().expect("main has ended")[0])
}

#[test]
fn sums_at_the_ends() {
    for (m, n, due) in [
        (MAX, 0, Ok(MAX)),
        (MAX, 1, Err(29)),
        (MAX, -1, Ok(MAX - 1)),
        (MAX - 1, 1, Ok(MAX)),
        (MAX - 1, 2, Err(29)),
        (MAX, MAX, Err(29)),
        (MAX, MIN, Ok(-1)),
        (MIN, 0, Ok(MIN)),
        (MIN, -1, Err(29)),
        (MIN, 1, Ok(MIN + 1)),
        (MIN + 1, -1, Ok(MIN)),
        (MIN + 1, -2, Err(29)),
        (MIN, MIN, Err(29)),
        (1 << 30, 1 << 30, Err(29)),
        (1 << 30, (1 << 30) - 1, Ok(MAX)),
        (-(1 << 30), -(1 << 30), Ok(MIN)),
        (-(1 << 30), -(1 << 30) - 1, Err(29)),
        (2, 3, Ok(5)),
    ] {
        assert_eq!(result(sum(m, n)), due, "{m} + {n}");
        assert_eq!(result(sum(n, m)), due, "{n} + {m}");
    }
}

#[test]
fn negations_at_the_ends() {
    for (m, due) in [
        (MIN, Err(29)),
        (MIN + 1, Ok(MAX)),
        (MAX, Ok(MIN + 1)),
        (MAX - 1, Ok(MIN + 2)),
        (0, Ok(0)),
        (1, Ok(-1)),
        (-1, Ok(1)),
        (1 << 30, Ok(-(1 << 30))),
    ] {
        assert_eq!(result(negated(m)), due, "-({m})");
    }
}

/// An atom by itself and a comparison never overflow.
#[test]
fn atoms_and_comparisons() {
    for m in [MIN, MIN + 1, -1, 0, 1, MAX - 1, MAX] {
        assert_eq!(result(Expression::Plain(value(m))), Ok(m));
        for n in [MIN, MIN + 1, -1, 0, 1, MAX - 1, MAX] {
            let less = Expression::Less(value(m), value(n));
            assert_eq!(result(less), Ok((m < n).into()), "{m} < {n}");
            assert!(matches!(first_step(&decides(less)), Ok(3 | 4)));
        }
    }
}

/// The edges with the operands in temporaries, in every place of a frame.
#[test]
fn temporaries_at_the_ends() {
    for m in 0..16 {
        let n = (m + 7) % 16;
        let target = (m + 1) % 16;
        let of = |expression| {
            let only = block(&[], vec![set(target, expression)], gives(&[]));
            table(vec![function(0, vec![], vec![only])])
        };
        let both = of(Expression::Sum(name(m), name(n)));
        let negation = of(Expression::Negated(name(m)));
        let at = frame_start(0, 0);
        let put = |table: &[u8], one: i32, other: i32| {
            let mut pool = started(table);
            pool[at + BOUND] = 1 << m | 1 << n;
            pool[at + VALUES + usize::from(m)] = one;
            pool[at + VALUES + usize::from(n)] = other;
            let answer = put(table, &mut pool, STEP, 0);
            answer.map(|rule| (rule, pool[at + VALUES + usize::from(target)]))
        };
        assert_eq!(put(&both, MAX, 0), Ok((1, MAX)));
        assert_eq!(put(&both, MAX, 1), Err(29));
        assert_eq!(put(&both, 1, MAX), Err(29));
        assert_eq!(put(&both, MIN, 0), Ok((1, MIN)));
        assert_eq!(put(&both, MIN, -1), Err(29));
        assert_eq!(put(&both, -1, MIN), Err(29));
        assert_eq!(put(&negation, MIN, 0), Err(29));
        assert_eq!(put(&negation, MIN + 1, 0), Ok((1, MAX)));
    }
}

/// An unbound operand is 19, whatever the other is.
#[test]
fn unbound_operands() {
    for great in [MIN, MAX, 0, 1, -1] {
        let left = Expression::Sum(name(3), value(great));
        let right = Expression::Sum(value(great), name(3));
        for expression in [left, right] {
            assert_eq!(first_step(&sets(expression)), Err(19));
            assert_eq!(first_step(&decides(expression)), Err(19));
            assert_eq!(first_step(&decides_nothing(expression)), Err(19));
        }
    }
    let twice = Expression::Sum(name(3), name(3));
    let negation = Expression::Negated(name(3));
    for expression in [twice, negation] {
        assert_eq!(first_step(&sets(expression)), Err(19));
        assert_eq!(first_step(&decides(expression)), Err(19));
    }
    // One bound to the greatest value, and the other not.
    let statements = vec![
        set(0, Expression::Plain(value(MAX))),
        set(1, Expression::Sum(name(0), name(2))),
    ];
    let table = table(vec![function(
        0,
        vec![],
        vec![block(&[], statements, gives(&[]))],
    )]);
    let mut pool = started(&table);
    assert_eq!(put(&table, &mut pool, STEP, 0), Ok(1));
    assert_eq!(put(&table, &mut pool, STEP, 0), Err(19));
}

#[test]
fn ifs() {
    for (condition, due) in [
        (sum(MAX, 0), Ok(3)),
        (sum(MAX, 1), Err(29)),
        (sum(MIN, 0), Ok(3)),
        (sum(MIN, -1), Err(29)),
        (sum(MIN, MIN), Err(29)),
        (sum(MAX, MIN + 1), Ok(4)),
        (negated(MIN), Err(29)),
        (negated(MIN + 1), Ok(3)),
        (negated(0), Ok(4)),
    ] {
        assert_eq!(first_step(&decides(condition)), due, "{condition:?}");
        // With both blocks missing: 19 where a block would be looked at.
        let missing = if due == Err(29) { 29 } else { 19 };
        let given = first_step(&decides_nothing(condition));
        assert_eq!(given, Err(missing), "{condition:?}");
    }
    // The block that an if goes to takes a value: 19, but behind the overflow.
    let mut takes = vec![block(&[], vec![], branch(sum(MAX, 1), 1, 1))];
    takes.push(Block {
        parameters: vec![0],
        ..block(&[], vec![], gives(&[]))
    });
    let over = table(vec![function(0, vec![], takes.clone())]);
    assert_eq!(first_step(&over), Err(29));
    takes[0].transfer = branch(sum(MAX, 0), 1, 1);
    let fits = table(vec![function(0, vec![], takes)]);
    assert_eq!(first_step(&fits), Err(19));
}

/// 14 and 15 come before, a promotion never overflows, and nothing is changed.
#[test]
fn order() {
    let table = sets(sum(MAX, 1));
    let fresh = started(&table);
    let mut pool = fresh.clone();
    assert_eq!(put(&table, &mut pool, 2, 0), Err(14));
    assert_eq!(put(&table, &mut pool, 2, 1), Err(14));
    assert_eq!(put(&table, &mut pool, STEP, 1), Err(15));
    assert_eq!(put(&table, &mut pool, PROMOTE, 1), Err(15));
    assert_eq!(put(&table, &mut pool, PROMOTE, 0), Err(20));
    assert_eq!(put(&table, &mut pool, STEP, 0), Err(29));
    assert_eq!(put(&table, &mut pool, STEP, 0), Err(29));
    assert_eq!(pool, fresh);
    assert_eq!(which(&table, &pool), Ok(None));
    assert_eq!(values(&table, &pool), Ok(None));
    assert_eq!(depth(&table), Ok(1));
    let mut none = vec![0; POOL_WORDS];
    assert_eq!(put(&table, &mut none, STEP, 0), Err(13));
    assert_eq!(put(&table, &mut [], STEP, 0), Err(12));
}

/// Main sporks function 1 and goes on in its body; both overflow at some point.
fn sporking(body: Vec<Statement>, child: Vec<Statement>) -> Vec<u8> {
    let spork = Transfer::Spork { body: 1, spawn: 0 };
    let spoin = Transfer::Spoin {
        unpromoted: 2,
        promoted: 2,
    };
    let spawn = SpawnCall {
        function: 1,
        arguments: vec![],
    };
    let blocks = vec![
        block(&[], vec![], spork),
        block(&[0], body, spoin),
        block(&[], vec![], gives(&[])),
    ];
    let ends = vec![block(&[], child, gives(&[]))];
    let table = table(vec![
        function(0, vec![spawn], blocks),
        function(0, vec![], ends),
    ]);
    assert_eq!(check(&table), Ok(()));
    table
}

/// A child that overflows: its parent waits, none can step, and no promotion and
/// no other thread is held up.
#[test]
fn children() {
    let table = sporking(vec![], vec![set(0, sum(MIN, -1))]);
    let mut pool = started(&table);
    assert_eq!(put(&table, &mut pool, STEP, 0), Ok(7));
    assert_eq!(put(&table, &mut pool, PROMOTE, 0), Ok(10));
    assert_eq!(put(&table, &mut pool, STEP, 0), Err(17));
    assert_eq!(put(&table, &mut pool, STEP, 1), Err(29));
    assert_eq!(which(&table, &pool), Ok(None));
    assert_eq!(values(&table, &pool), Ok(None));
    // Unpromoted, the same table ends.
    let mut pool = started(&table);
    let made = schedule(&table, &mut pool, &[(STEP, 0), (STEP, 0), (STEP, 0)]);
    assert_eq!(made, (2, Some(Refusal::plain(16))));
    assert_eq!(values(&table, &pool), Ok(Some(vec![])));
}

/// Main overflows in the body of its spork: its child is promoted all the same,
/// and is the first that can step.
#[test]
fn parents() {
    let table = sporking(
        vec![set(0, negated(MIN))],
        vec![set(0, sum(1, 1)), set(1, sum(MAX, 1))],
    );
    let mut pool = started(&table);
    assert_eq!(put(&table, &mut pool, STEP, 0), Ok(7));
    assert_eq!(put(&table, &mut pool, STEP, 0), Err(29));
    assert_eq!(which(&table, &pool), Ok(None));
    assert_eq!(put(&table, &mut pool, PROMOTE, 0), Ok(10));
    assert_eq!(which(&table, &pool), Ok(Some(1)));
    assert_eq!(put(&table, &mut pool, STEP, 1), Ok(1));
    assert_eq!(put(&table, &mut pool, STEP, 1), Err(29));
    assert_eq!(put(&table, &mut pool, STEP, 0), Err(29));
    assert_eq!(which(&table, &pool), Ok(None));
}

/// A called function that overflows, up to the eighth frame: 29 and not 18.
#[test]
fn called_functions() {
    for frames in 1..=8u8 {
        let calls = |next: Name| {
            let call = Transfer::Call {
                function: next,
                arguments: vec![],
                return_block: 1,
            };
            vec![block(&[], vec![], call), block(&[], vec![], gives(&[]))]
        };
        let mut functions: Vec<Function> = (1..frames)
            .map(|next| function(0, vec![], calls(next)))
            .collect();
        let last = block(&[], vec![set(0, sum(1, MAX))], gives(&[]));
        functions.push(function(0, vec![], vec![last]));
        let table = table(functions);
        assert_eq!(check(&table), Ok(()));
        assert_eq!(depth(&table), Ok(frames));
        let mut pool = started(&table);
        for _ in 1..frames {
            assert_eq!(put(&table, &mut pool, STEP, 0), Ok(5));
        }
        assert_eq!(put(&table, &mut pool, STEP, 0), Err(29));
        assert_eq!(which(&table, &pool), Ok(None));
    }
}

/// A schedule stops at the overflow with the number made; what was made stays.
#[test]
fn schedules() {
    let statements = vec![
        set(0, sum(MAX, -1)),
        set(1, Expression::Sum(name(0), value(1))),
        set(2, Expression::Sum(name(1), value(1))),
    ];
    let only = block(&[], statements, gives(&[]));
    let table = table(vec![function(0, vec![], vec![only])]);
    let mut pool = started(&table);
    let made = schedule(&table, &mut pool, &[(STEP, 0); 5]);
    assert_eq!(made, (2, Some(Refusal::plain(29))));
    let at = frame_start(0, 0);
    assert_eq!(pool[at + 2], 2);
    assert_eq!(pool[at + BOUND], 3);
    assert_eq!(pool[at + VALUES..at + VALUES + 3], [MAX - 1, MAX, 0]);
    let left = pool.clone();
    let made = schedule(&table, &mut pool, &[(STEP, 0), (STEP, 9)]);
    assert_eq!(made, (0, Some(Refusal::plain(29))));
    assert_eq!(pool, left);
    assert_eq!(schedule(&table, &mut pool, &[]), (0, None));
}

/// A beat whose step overflows is refused, earns nothing and promotes nothing,
/// though it has a token; a run stops there, and counts it in neither number.
#[test]
fn beats_and_runs() {
    let table = sporking(vec![set(0, sum(MAX, 1))], vec![]);
    let mut pool = started(&table);
    let slow = Pace { n: 9, c: 1 };
    assert!(beat(&table, &mut pool, slow, 0).is_ok());
    let tokens = 3;
    pool[tokens] = 5;
    let left = pool.clone();
    let answer = beat(&table, &mut pool, EACH, 0).map_err(|refusal| refusal.number);
    assert_eq!(answer, Err(29));
    assert_eq!(pool, left);
    let no_pace = Pace { n: 0, c: 1 };
    let answer = beat(&table, &mut pool, no_pace, 0).map_err(|refusal| refusal.number);
    assert_eq!(answer, Err(27));
    let answer = beat(&table, &mut pool, EACH, 1).map_err(|refusal| refusal.number);
    assert_eq!(answer, Err(15));
    // From the start: the spork earns a token, which promotes; then 29.
    let mut pool = started(&table);
    let ran = run(&table, &mut pool, EACH, &[0, 0, 0]);
    assert_eq!(ran, ([1, 1], Some(Refusal::plain(29))));
    assert_eq!(pool[0], 2);
    let left = pool.clone();
    let ran = run(&table, &mut pool, EACH, &[0]);
    assert_eq!(ran, ([0, 0], Some(Refusal::plain(29))));
    assert_eq!(pool, left);
}

/// The marked run, as the runner prints it.
#[test]
fn marked_run() {
    let mut input = sets(sum(MAX, 1));
    input.extend([0, 0]);
    let mut output = Vec::new();
    runner::run(&input[..], &mut output).unwrap();
    let lines = "accepted\n0 step 0 refused 29\nresult open\n";
    assert_eq!(String::from_utf8(output).unwrap(), lines);
    assert_eq!(input, include_bytes!("../../../examples/overflow.in"));
    assert_eq!(lines, include_str!("../../../examples/overflow.out"));
}

/// What the operands tell is what the integer is, of many pairs.
#[test]
fn two_ways() {
    let mut rng = Rng::new(1);
    let none: Temporaries = [None; 16];
    let mut edges = vec![MIN, MIN + 1, -2, -1, 0, 1, 2, MAX - 1, MAX];
    edges.extend([1 << 30, -(1 << 30), (1 << 30) - 1, -(1 << 30) - 1]);
    let mut pairs: Vec<(i32, i32)> = Vec::new();
    for &m in &edges {
        pairs.extend(edges.iter().map(|&n| (m, n)));
    }
    pairs.extend((0..10_000).map(|_| (rng.bits() as i32, rng.bits() as i32)));
    let mut seen = [0; 3];
    for (m, n) in pairs {
        for expression in [sum(m, n), negated(m)] {
            let integer = exact(&none, &expression).unwrap();
            let end = beyond(&none, &expression);
            let due = if integer > MAX.into() {
                Some(End::Top)
            } else if integer < MIN.into() {
                Some(End::Bottom)
            } else {
                None
            };
            assert_eq!(end, due, "{expression:?}");
            seen[end.map_or(0, |end| 1 + end as usize)] += 1;
            let table = sets(expression);
            let answer = put(&table, &mut started(&table), STEP, 0);
            assert_eq!(answer == Err(29), due.is_some(), "{expression:?}");
        }
    }
    assert!(seen.iter().all(|&count| count > 500), "{seen:?}");
}
