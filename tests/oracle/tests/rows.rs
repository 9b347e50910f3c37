//! The examples of the table of numbers and the marked runs.

use oracle::encode::{encode, fix_length};
use oracle::gen::calls::{dense, line};
use oracle::rng::Rng;
use oracle::table::{Atom, Block, Expression, Function, Program, SpawnCall, Statement, Transfer};
use oracle::{check, choose, depth, read, schedule, start, values, which};
use oracle::{Place, Refusal, Rule, POOL_WORDS};

/// Program A: sets 0 to 2 + 3 and returns it.
const A: [u8; 30] = [
    0, 0, 0, 0x1E, 1, 1, 0, 1, 1, 0, 0, 0, 0, 0, 1, 0, 2, 0, 0, 0, 0, 2, 0, 0, 0, 0, 3, 3, 1, 0,
];

fn block(parameters: &[u8], nesting: &[u8], sets: Option<i32>, transfer: Transfer) -> Block {
    Block {
        parameters: parameters.to_vec(),
        scope: [].into(),
        nesting: nesting.to_vec(),
        statements: sets
            .map(|value| Statement {
                target: 0,
                expression: Expression::Plain(Atom::Value(value)),
            })
            .into_iter()
            .collect(),
        transfer,
    }
}

fn function(returns: u8, spawns: Vec<SpawnCall>, blocks: Vec<Block>) -> Function {
    Function {
        parameters: 0,
        returns,
        spawns,
        blocks,
    }
}

fn gives(arguments: &[u8]) -> Transfer {
    Transfer::Return {
        arguments: arguments.to_vec(),
    }
}

/// Program B: main sporks function 1, which returns 7.
fn b() -> Program {
    let spork = Transfer::Spork { body: 1, spawn: 0 };
    let spoin = Transfer::Spoin {
        unpromoted: 2,
        promoted: 3,
    };
    let spawn = SpawnCall {
        function: 1,
        arguments: vec![],
    };
    let blocks = vec![
        block(&[], &[], None, spork),
        block(&[], &[0], None, spoin),
        block(&[], &[], Some(1), gives(&[0])),
        block(&[0], &[], None, gives(&[0])),
    ];
    let seven = function(1, vec![], vec![block(&[], &[], Some(7), gives(&[0]))]);
    Program {
        functions: vec![function(1, vec![spawn], blocks), seven],
    }
}

/// A call without arguments, which comes back to a block.
fn calls(function: u8, return_block: u8) -> Transfer {
    Transfer::Call {
        function,
        arguments: vec![],
        return_block,
    }
}

/// Main that calls itself.
fn endless() -> Vec<u8> {
    encode(&Program {
        functions: vec![function(
            0,
            vec![],
            vec![block(&[], &[], None, calls(0, 0))],
        )],
    })
}

/// A with some bytes changed.
fn a_with(changes: &[(usize, u8)]) -> Vec<u8> {
    let mut table = A.to_vec();
    for &(at, byte) in changes {
        table[at] = byte;
    }
    table
}

/// A with its last bytes, the return, replaced.
fn a_ending(end: &[u8]) -> Vec<u8> {
    let mut table = [&A[..27], end].concat();
    fix_length(&mut table);
    table
}

fn started(table: &[u8]) -> Vec<i32> {
    let mut pool = vec![-1; POOL_WORDS];
    start(table, &mut pool).unwrap();
    pool
}

/// The numbers of the answers to choices put one after another.
fn answers(table: &[u8], choices: &[(u64, u64)]) -> Vec<Result<u8, u8>> {
    let mut pool = started(table);
    choices
        .iter()
        .map(|&(kind, thread)| {
            choose(table, &mut pool, kind, thread)
                .map(Rule::number)
                .map_err(|refusal| refusal.number)
        })
        .collect()
}

fn fault(number: u8, function: usize, block: usize) -> Result<(), Refusal> {
    Err(Refusal::fault(number, function, block))
}

#[test]
fn rows_1_to_3() {
    assert_eq!(read(&[]), Err(Refusal::plain(1)));
    assert_eq!(read(&a_with(&[(3, 0x1D)])), Err(Refusal::plain(1)));
    assert_eq!(read(&a_with(&[(4, 9)])), Err(Refusal::plain(2)));
    assert_eq!(read(&a_with(&[(5, 0)])), Err(Refusal::byte(5)));
    assert_eq!(read(&a_ending(&[3, 1])), Err(Refusal::byte(29)));
    assert_eq!(read(&a_ending(&[3, 1, 0, 0])), Err(Refusal::byte(30)));
}

#[test]
fn rows_4_to_8() {
    assert_eq!(check(&A), Ok(()));
    assert_eq!(check(&a_with(&[(6, 1)])), fault(4, 0, 255));
    assert_eq!(check(&a_with(&[(12, 1)])), fault(5, 0, 0));
    assert_eq!(check(&a_ending(&[0, 4, 0])), fault(6, 0, 0));
    let mut twice = [&A[..27], &A[15..]].concat();
    twice[14] = 2;
    fix_length(&mut twice);
    assert_eq!(check(&twice), fault(7, 0, 0));
    assert_eq!(check(&a_ending(&[3, 1, 1])), fault(8, 0, 0));
}

#[test]
fn rows_9_to_11() {
    assert_eq!(check(&a_ending(&[3, 2, 0, 0])), fault(9, 0, 0));
    let mut scoped = a_ending(&[0, 1, 0, 0, 0, 2, 0, 0, 3, 1, 1]);
    scoped[8] = 2;
    assert_eq!(check(&scoped), fault(10, 0, 0));
    let mut nested = b();
    nested.functions[0].blocks[1] = block(&[], &[0], Some(1), gives(&[0]));
    assert_eq!(check(&encode(&nested)), fault(11, 0, 1));
    assert_eq!(check(&encode(&b())), Ok(()));
}

#[test]
fn rows_12_and_13() {
    assert_eq!(start(&A, &mut []), Err(Refusal::plain(12)));
    assert_eq!(values(&A, &[]), Err(Refusal::plain(12)));
    let mut zeros = [0; POOL_WORDS];
    assert_eq!(which(&A, &zeros), Err(Refusal::plain(13)));
    let answer = schedule(&A, &mut zeros, &[]);
    assert_eq!(answer, (0, Some(Refusal::plain(13))));
    assert_eq!(Refusal::plain(13).place, Place::Nowhere);
}

/// The two words behind a thread's frame count: within their ranges in a used
/// thread, 0 in an unused one.
#[test]
fn row_13_of_purses() {
    let (work, tokens, unused) = (2, 3, 1 + 211);
    let answer = |place: usize, word: i32| {
        let mut pool = started(&A);
        pool[place] = word;
        let left = pool.clone();
        let given = choose(&A, &mut pool, 0, 0).map_err(|refusal| refusal.number);
        let kept = if given.is_ok() {
            pool[place] == word
        } else {
            pool == left
        };
        assert!(kept, "{word} at {place}");
        given.map(Rule::number)
    };
    for word in [0, 1, 65_534] {
        assert_eq!(answer(work, word), Ok(1));
    }
    for word in [0, 1, 65_535, 2_000_000_000] {
        assert_eq!(answer(tokens, word), Ok(1));
    }
    for word in [65_535, -1, i32::MIN, i32::MAX] {
        assert_eq!(answer(work, word), Err(13));
    }
    for word in [2_000_000_001, -1, i32::MIN, i32::MAX] {
        assert_eq!(answer(tokens, word), Err(13));
    }
    for word in [1, -1, 65_534, i32::MIN] {
        assert_eq!(answer(unused + 1, word), Err(13));
        assert_eq!(answer(unused + 2, word), Err(13));
    }
}

/// A child has 0 and 0, purses move with their threads, and a join drops that of
/// the child.
#[test]
fn purses_of_plain_choices() {
    let table = encode(&b());
    let mut pool = started(&table);
    let purses = |pool: &[i32]| [2, 3, 213, 214].map(|at| pool[at]);
    assert_eq!(purses(&pool), [0; 4]);
    (pool[2], pool[3]) = (7, 8);
    assert_eq!(schedule(&table, &mut pool, &[(0, 0), (1, 0)]), (2, None));
    assert_eq!(purses(&pool), [7, 8, 0, 0]);
    (pool[213], pool[214]) = (5, 6);
    assert_eq!(schedule(&table, &mut pool, &[(0, 1), (0, 0)]), (2, None));
    assert_eq!(purses(&pool), [7, 8, 0, 0]);
    assert_eq!(values(&table, &pool), Ok(Some(vec![7])));
}

#[test]
fn rows_14_to_16() {
    assert_eq!(answers(&A, &[(2, 0), (2, 9)]), [Err(14), Err(14)]);
    assert_eq!(answers(&A, &[(0, 1)]), [Err(15)]);
    assert_eq!(answers(&A, &[(0, 0); 3]), [Ok(1), Err(16), Err(16)]);
}

#[test]
fn rows_17_to_20() {
    let table = encode(&b());
    let waits = answers(&table, &[(0, 0), (1, 0), (0, 0)]);
    assert_eq!(waits, [Ok(7), Ok(10), Err(17)]);
    let calls = answers(&endless(), &[(0, 0); 8]);
    assert_eq!(calls[..7], [Ok(5); 7]);
    assert_eq!(calls[7], Err(18));
    assert_eq!(answers(&a_ending(&[3, 1, 1]), &[(0, 0); 2])[1], Err(19));
    assert_eq!(answers(&A, &[(1, 0)]), [Err(20)]);
}

/// Function 0 sporks itself, so that each thread can be promoted once.
#[test]
fn row_21() {
    let mut program = b();
    program.functions[0].spawns[0].function = 0;
    let table = encode(&program);
    assert_eq!(check(&table), Ok(()));
    let mut choices = Vec::new();
    for thread in 0..8 {
        choices.extend([(0, thread), (1, thread)]);
    }
    let given = answers(&table, &choices);
    assert_eq!(
        given[..15].iter().filter(|answer| answer.is_ok()).count(),
        15
    );
    assert_eq!(given[15], Err(21));
}

#[test]
fn marked_runs_of_b() {
    let table = encode(&b());
    let mut pool = started(&table);
    assert_eq!(schedule(&table, &mut pool, &[(0, 0); 3]), (3, None));
    assert_eq!(values(&table, &pool), Ok(Some(vec![1])));
    let mut pool = started(&table);
    let promoted = [(0, 0), (1, 0), (0, 1), (0, 0)];
    assert_eq!(schedule(&table, &mut pool, &promoted), (4, None));
    assert_eq!(values(&table, &pool), Ok(Some(vec![7])));
}

/// The depth of a program, or the number of its refusal.
fn deep(program: &Program) -> Result<u8, u8> {
    depth(&encode(program)).map_err(|refusal| refusal.number)
}

#[test]
fn depth_of_lines() {
    assert_eq!(depth(&A), Ok(1));
    for functions in 1..=16 {
        assert_eq!(deep(&line(functions)), Ok(functions as u8));
    }
    // Of eight: seven calls and seven returns. Of nine: the eighth call finds no frame.
    let eight = answers(&encode(&line(8)), &[(0, 0); 15]);
    assert_eq!(eight[..7], [Ok(5); 7]);
    assert_eq!(eight[7..14], [Ok(6); 7]);
    assert_eq!(eight[14], Err(16));
    let nine = answers(&encode(&line(9)), &[(0, 0); 9]);
    assert_eq!(nine[..7], [Ok(5); 7]);
    assert_eq!(nine[7..], [Err(18); 2]);
}

#[test]
fn depth_of_other_calls() {
    for functions in 1..=16 {
        for blocks in [1, 2, 32] {
            let program = dense(&mut Rng::new(1), functions, blocks);
            assert_eq!(deep(&program), Ok(functions as u8));
        }
    }
    // A chain in dead blocks, and one that nothing mentions.
    let returns = || block(&[], &[], None, gives(&[]));
    let dead = |to: u8| vec![returns(), block(&[], &[], None, calls(to, 1))];
    let mut program = Program {
        functions: vec![
            function(0, vec![], vec![returns()]),
            function(0, vec![], dead(3)),
            function(0, vec![], vec![returns()]),
            function(0, vec![], dead(2)),
        ],
    };
    assert_eq!(deep(&program), Ok(3));
    program.functions[0].blocks = dead(1);
    assert_eq!(deep(&program), Ok(4));
    program.functions[2].blocks = dead(0);
    assert_eq!(deep(&program), Err(22));
}

/// A spawn call adds nothing and closes no cycle; what it starts counts by
/// itself.
#[test]
fn depth_of_spawn_calls() {
    assert_eq!(deep(&b()), Ok(1));
    let mut program = b();
    program.functions[0].spawns[0].function = 0;
    assert_eq!(deep(&program), Ok(1));
    // B, whose call begins a line of nine.
    let mut program = b();
    let seven = program.functions.pop().unwrap();
    for next in 2..=9 {
        let after = block(&[0], &[], None, gives(&[0]));
        let blocks = vec![block(&[], &[], None, calls(next, 1)), after];
        program.functions.push(function(1, vec![], blocks));
    }
    program.functions.push(seven);
    assert_eq!(deep(&program), Ok(9));
    let table = encode(&program);
    let mut choices = vec![(0, 0), (1, 0)];
    choices.extend([(0, 1); 8]);
    let given = answers(&table, &choices);
    assert_eq!(given[..2], [Ok(7), Ok(10)]);
    assert_eq!(given[2..9], [Ok(5); 7]);
    assert_eq!(given[9], Err(18));
}

/// 22 comes after the check's own refusals.
#[test]
fn row_22() {
    let mut table = endless();
    assert_eq!(check(&table), Ok(()));
    assert_eq!(depth(&table), Err(Refusal::plain(22)));
    table[6] = 1;
    assert_eq!(depth(&table), Err(Refusal::fault(4, 0, 255)));
    table[7] = 5;
    assert_eq!(depth(&table), Err(Refusal::byte(7)));
    table[4] = 2;
    assert_eq!(depth(&table), Err(Refusal::plain(2)));
    assert_eq!(depth(&table[..5]), Err(Refusal::plain(1)));
}
