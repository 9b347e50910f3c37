//! The first thread that can step, and steps by the first: rows and marked runs.

use oracle::encode::{encode, fix_length};
use oracle::first::{run, Run};
use oracle::pool::Pool;
use oracle::rules::{PROMOTE, STEP};
use oracle::table::{Atom, Block, Expression, Function, Program, SpawnCall, Statement, Transfer};
use oracle::{check, choose, read, schedule, start, values, which, Refusal, Rule, POOL_WORDS};

/// Program A: sets 0 to 2 + 3 and returns it.
const A: [u8; 30] = [
    0, 0, 0, 0x1E, 1, 1, 0, 1, 1, 0, 0, 0, 0, 0, 1, 0, 2, 0, 0, 0, 0, 2, 0, 0, 0, 0, 3, 3, 1, 0,
];
/// 1 + 2 + 3, each sum by a call: a table and 22 steps.
const LOOP: &[u8] = include_bytes!("../../../examples/loop.in");
const LOOP_TABLE: usize = 109;

fn block(parameters: &[u8], nesting: &[u8], sets: Option<i32>, transfer: Transfer) -> Block {
    let statement = |value| Statement {
        target: 0,
        expression: Expression::Plain(Atom::Value(value)),
    };
    Block {
        parameters: parameters.to_vec(),
        scope: [].into(),
        nesting: nesting.to_vec(),
        statements: sets.map(statement).into_iter().collect(),
        transfer,
    }
}

fn function(returns: u8, spawns: Vec<SpawnCall>, blocks: Vec<Block>) -> Function {
    Function {
        parameters: 0,
        returns,
        spawns,
        blocks,
    }
}

fn gives(arguments: &[u8]) -> Transfer {
    Transfer::Return {
        arguments: arguments.to_vec(),
    }
}

fn calls(function: u8, return_block: u8) -> Transfer {
    Transfer::Call {
        function,
        arguments: vec![],
        return_block,
    }
}

/// The spawn call of a function without arguments.
fn spawn(function: u8) -> SpawnCall {
    SpawnCall {
        function,
        arguments: vec![],
    }
}

/// A function that sets 0 to 7 and returns it.
fn seven() -> Function {
    function(1, vec![], vec![block(&[], &[], Some(7), gives(&[0]))])
}

/// Program B: main sporks function 1, which returns 7; what the body sets, if
/// anything, it sets before its spoin.
fn b(sets: Option<i32>) -> Program {
    let spoin = Transfer::Spoin {
        unpromoted: 2,
        promoted: 3,
    };
    let blocks = vec![
        block(&[], &[], None, Transfer::Spork { body: 1, spawn: 0 }),
        block(&[], &[0], sets, spoin),
        block(&[], &[], Some(1), gives(&[0])),
        block(&[0], &[], None, gives(&[0])),
    ];
    Program {
        functions: vec![function(1, vec![spawn(1)], blocks), seven()],
    }
}

/// Main that calls itself.
fn endless() -> Program {
    let blocks = vec![block(&[], &[], None, calls(0, 0))];
    Program {
        functions: vec![function(0, vec![], blocks)],
    }
}

/// A with its last bytes, the return, replaced.
fn a_ending(end: &[u8]) -> Vec<u8> {
    let mut table = [&A[..27], end].concat();
    fix_length(&mut table);
    table
}

/// A table's words after choices from a fresh pool, all made.
fn after(table: &[u8], choices: &[(u64, u64)]) -> Vec<i32> {
    let mut pool = vec![-1; POOL_WORDS];
    start(table, &mut pool).unwrap();
    assert_eq!(schedule(table, &mut pool, choices), (choices.len(), None));
    pool
}

/// What a step of each thread gets, by number.
fn steps(table: &[u8], pool: &[i32]) -> Vec<Result<u8, u8>> {
    (0..8)
        .map(|thread| {
            choose(table, &mut pool.to_vec(), STEP, thread)
                .map(Rule::number)
                .map_err(|refusal| refusal.number)
        })
        .take_while(|answer| *answer != Err(15))
        .collect()
}

#[test]
fn refusals_of_which() {
    let fresh = after(&A, &[]);
    assert_eq!(which(&[], &fresh), Err(Refusal::plain(1)));
    assert_eq!(which(&[], &[]), Err(Refusal::plain(1)));
    let mut table = A;
    table[4] = 9;
    assert_eq!(which(&table, &[]), Err(Refusal::plain(2)));
    table[4] = 1;
    table[5] = 0;
    assert_eq!(which(&table, &[]), Err(Refusal::byte(5)));
    assert_eq!(which(&A, &fresh[1..]), Err(Refusal::plain(12)));
    assert_eq!(which(&A, &[]), Err(Refusal::plain(12)));
    assert_eq!(which(&A, &[0; POOL_WORDS]), Err(Refusal::plain(13)));
    assert_eq!(which(&A, &fresh), Ok(Some(0)));
}

/// B after its spork and the promotion: main waits, and its child is the first;
/// the child has ended, and main is; main has returned, and none is.
#[test]
fn firsts_of_b() {
    let table = encode(&b(None));
    assert_eq!(check(&table), Ok(()));
    assert_eq!(which(&table, &after(&table, &[])), Ok(Some(0)));
    let promoted = after(&table, &[(STEP, 0), (PROMOTE, 0)]);
    assert_eq!(steps(&table, &promoted), [Err(17), Ok(1)]);
    assert_eq!(which(&table, &promoted), Ok(Some(1)));
    let child = after(&table, &[(STEP, 0), (PROMOTE, 0), (STEP, 1)]);
    assert_eq!(steps(&table, &child), [Ok(9), Err(16)]);
    assert_eq!(which(&table, &child), Ok(Some(0)));
    let joined = after(&table, &[(STEP, 0), (PROMOTE, 0), (STEP, 1), (STEP, 0)]);
    assert_eq!(steps(&table, &joined), [Err(16)]);
    assert_eq!(which(&table, &joined), Ok(None));
}

/// Main has a statement to do, and so has its child: the first is main.
#[test]
fn both_can_step() {
    let table = encode(&b(Some(5)));
    assert_eq!(check(&table), Ok(()));
    let both = after(&table, &[(STEP, 0), (PROMOTE, 0)]);
    assert_eq!(steps(&table, &both), [Ok(1), Ok(1)]);
    assert_eq!(which(&table, &both), Ok(Some(0)));
}

/// Function 0 sporks itself: each thread waits for the one behind it.
#[test]
fn behind_threads_that_wait() {
    let mut program = b(None);
    program.functions[0].spawns[0].function = 0;
    let table = encode(&program);
    let mut choices = Vec::new();
    for thread in 0..7 {
        choices.extend([(STEP, thread), (PROMOTE, thread)]);
        let pool = after(&table, &choices);
        let mut due = vec![Err(17); thread as usize + 1];
        due.push(Ok(7));
        assert_eq!(steps(&table, &pool), due);
        assert_eq!(which(&table, &pool), Ok(Some(thread as usize + 1)));
    }
}

/// Main sporks function 1 and then function 3, and calls function 2, which calls
/// itself. Its children are thread 1, the newer, which goes to a block and sets 0
/// there, and thread 2, which sets 0 at once.
fn crowd() -> Program {
    let spoin = |to| Transfer::Spoin {
        unpromoted: to,
        promoted: to + 1,
    };
    let blocks = vec![
        block(&[], &[], None, Transfer::Spork { body: 1, spawn: 0 }),
        block(&[], &[0], None, Transfer::Spork { body: 2, spawn: 1 }),
        block(&[], &[0, 1], None, calls(2, 3)),
        block(&[], &[0, 1], None, spoin(4)),
        block(&[], &[0], None, spoin(6)),
        block(&[0], &[0], None, spoin(6)),
        block(&[], &[], Some(1), gives(&[0])),
        block(&[0], &[], None, gives(&[0])),
    ];
    let down = vec![block(&[], &[], None, calls(2, 0))];
    let goes = Transfer::Goto {
        block: 1,
        arguments: vec![],
    };
    let eight = vec![
        block(&[], &[], None, goes),
        block(&[], &[], Some(8), gives(&[0])),
    ];
    Program {
        functions: vec![
            function(1, vec![spawn(1), spawn(3)], blocks),
            seven(),
            function(0, vec![], down),
            function(1, vec![], eight),
        ],
    }
}

/// Main is out of frames and its newer child has ended: the first is thread 2;
/// where that has ended too, none is, and main has not returned.
#[test]
fn behind_threads_that_are_full_or_ended() {
    let table = encode(&crowd());
    assert_eq!(check(&table), Ok(()));
    let mut choices = vec![(STEP, 0), (STEP, 0), (PROMOTE, 0), (PROMOTE, 0)];
    choices.extend([(STEP, 0); 7]);
    let full = after(&table, &choices);
    assert_eq!(steps(&table, &full), [Err(18), Ok(2), Ok(1)]);
    assert_eq!(which(&table, &full), Ok(Some(1)));
    choices.extend([(STEP, 1); 2]);
    let ended = after(&table, &choices);
    assert_eq!(steps(&table, &ended), [Err(18), Err(16), Ok(1)]);
    assert_eq!(which(&table, &ended), Ok(Some(2)));
    choices.push((STEP, 2));
    let none = after(&table, &choices);
    assert_eq!(steps(&table, &none), [Err(18), Err(16), Err(16)]);
    assert_eq!(which(&table, &none), Ok(None));
    assert_eq!(values(&table, &none), Ok(None));
}

/// A run's threads and rules, by number, whether it ended, and main's values
/// after it; of at most so many steps, from the words after some choices.
type Made = (Vec<(usize, u8)>, bool, Option<Vec<i32>>);

fn by_first(table: &[u8], choices: &[(u64, u64)], most: usize) -> Made {
    let program = read(table).unwrap();
    let mut words = after(table, choices);
    let mut pool = Pool::from_words(&program, &words).unwrap();
    let Run { steps, ended } = run(&program, &mut pool, most);
    let again: Vec<(u64, u64)> = steps.iter().map(|&(t, _)| (STEP, t as u64)).collect();
    assert_eq!(schedule(table, &mut words, &again), (again.len(), None));
    assert_eq!(words, pool.to_words());
    assert_eq!(ended, which(table, &words) == Ok(None));
    let numbers = steps.iter().map(|&(t, rule)| (t, rule.number())).collect();
    (numbers, ended, values(table, &words).unwrap())
}

#[test]
fn steps_of_a_and_b() {
    assert_eq!(by_first(&A, &[], 9), (vec![(0, 1)], true, Some(vec![5])));
    assert_eq!(by_first(&A, &[], 1), (vec![(0, 1)], true, Some(vec![5])));
    assert_eq!(by_first(&A, &[], 0), (vec![], false, None));
    let table = encode(&b(None));
    let alone = vec![(0, 7), (0, 8), (0, 1)];
    assert_eq!(by_first(&table, &[], 9), (alone, true, Some(vec![1])));
    let promoted = [(STEP, 0), (PROMOTE, 0)];
    let joins = vec![(1, 1), (0, 9)];
    assert_eq!(by_first(&table, &promoted, 9), (joins, true, Some(vec![7])));
    assert_eq!(by_first(&table, &promoted, 1), (vec![(1, 1)], false, None));
    let table = encode(&b(Some(5)));
    let joins = vec![(0, 1), (1, 1), (0, 9)];
    assert_eq!(by_first(&table, &promoted, 9), (joins, true, Some(vec![7])));
}

/// Each rule is the one that the example's 22 steps make; fewer begin the same.
#[test]
fn steps_of_the_loop() {
    let table = &LOOP[..LOOP_TABLE];
    let once = [3, 1, 5, 1, 6, 2];
    let rules = [&[1, 1, 2], &once[..], &once, &once, &[4]].concat();
    let due: Vec<(usize, u8)> = rules.into_iter().map(|rule| (0, rule)).collect();
    assert_eq!(due.len(), 22);
    for most in [22, 23, 1_000] {
        let all = (due.clone(), true, Some(vec![6]));
        assert_eq!(by_first(table, &[], most), all);
    }
    for most in 0..22 {
        let fewer = (due[..most].to_vec(), false, None);
        assert_eq!(by_first(table, &[], most), fewer);
    }
}

/// Where main calls itself, seven calls and then none; where it goes round, as
/// many as one asks for.
#[test]
fn steps_that_end_without_values_and_not_at_all() {
    let table = encode(&endless());
    assert_eq!(by_first(&table, &[], 99), (vec![(0, 5); 7], true, None));
    let round = Transfer::Goto {
        block: 0,
        arguments: vec![],
    };
    let table = encode(&Program {
        functions: vec![function(0, vec![], vec![block(&[], &[], None, round)])],
    });
    assert_eq!(check(&table), Ok(()));
    assert_eq!(by_first(&table, &[], 99), (vec![(0, 2); 99], false, None));
}

/// Of a table that is not accepted: main is stuck at a return of what it has not
/// bound, so none is left.
#[test]
fn steps_of_a_refused_table() {
    let table = a_ending(&[3, 1, 1]);
    assert_eq!(check(&table), Err(Refusal::fault(8, 0, 0)));
    assert_eq!(by_first(&table, &[], 9), (vec![(0, 1)], true, None));
    assert_eq!(steps(&table, &after(&table, &[(STEP, 0)])), [Err(19)]);
}

/// Main until it is out of frames, then its newer child until it ends, then the
/// older one.
#[test]
fn steps_of_a_crowd() {
    let table = encode(&crowd());
    let choices = [(STEP, 0), (STEP, 0), (PROMOTE, 0), (PROMOTE, 0)];
    let mut due = vec![(0, 5); 7];
    due.extend([(1, 2), (1, 1), (2, 1)]);
    assert_eq!(by_first(&table, &choices, 50), (due, true, None));
}
