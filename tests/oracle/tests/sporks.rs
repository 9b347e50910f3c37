//! A child's arguments are those of its spork: marked runs.

use oracle::openers::Openers;
use oracle::pool::{frame_start, Opened, Pool, BOUND, FUNCTION, VALUES};
use oracle::rules::{choose_as, PROMOTE, STEP};
use oracle::table::{
    Atom, Block, Expression, Function, Program, SpawnCall, Statement, Temporary, Transfer,
};
use oracle::{check, read, Refusal, Rule};

/// Main sporks function 1 in a loop with (1, 11), (2, 12) and (3, 13), and calls
/// it meanwhile; the third call is promoted while main is in the called one.
const CHILD: &[u8] = include_bytes!("../../../examples/child.in");
const CHILD_TABLE: usize = 139;

/// Puts choices from a fresh pool on, by their numbers; the lists and the tree
/// agree after each.
fn run(program: &Program, choices: &[(u64, u64)]) -> (Pool, Openers, Vec<Rule>) {
    let (mut pool, mut openers) = (Pool::start(), Openers::default());
    let mut rules = Vec::new();
    for &(kind, thread) in choices {
        let number = Some(openers.next);
        let rule = choose_as(program, &mut pool, kind, thread, number);
        openers.follow(thread, rule.map(Rule::number));
        assert!(openers.agree(&pool), "{openers:?}, {pool:?}");
        rules.extend(rule);
    }
    (pool, openers, rules)
}

fn opened(choice: u64, arguments: &[i32]) -> Option<Opened> {
    Some(Opened {
        choice,
        arguments: Some(arguments.to_vec()),
    })
}

/// The table of the example and its choices.
fn child() -> (Program, Vec<(u64, u64)>) {
    let (table, choices) = CHILD.split_at(CHILD_TABLE);
    assert_eq!(check(table), Ok(()));
    let pairs = choices.chunks(2);
    let choices = pairs.map(|pair| (pair[0].into(), pair[1].into()));
    (read(table).unwrap(), choices.collect())
}

#[test]
fn late_in_a_loop() {
    let (program, choices) = child();
    assert_eq!(choices[25], (PROMOTE, 0));
    let (pool, openers, _) = run(&program, &choices[..25]);
    assert_eq!(openers.lists, [[22]]);
    assert_eq!(pool.root.frames[0].calls[0].opened, opened(22, &[3, 13]));
    let (pool, openers, rules) = run(&program, &choices[..26]);
    assert_eq!(rules[25], Rule::Promote);
    assert_eq!(openers.lists, [vec![22], vec![]]);
    assert_eq!(pool.threads()[1].opened, opened(22, &[3, 13]));
    let words = pool.to_words();
    let frame = &words[frame_start(1, 0)..];
    assert_eq!((frame[FUNCTION], frame[BOUND]), (1, 3));
    assert_eq!(frame[VALUES..VALUES + 3], [3, 13, 0]);
    let (_, openers, rules) = run(&program, &choices);
    assert_eq!(rules[28], Rule::Prom);
    assert_eq!(openers.lists, [[]; 1]);
}

/// What the claim is about: the first two sporks opened the same spawn call.
#[test]
fn each_spork_of_the_loop() {
    let (program, choices) = child();
    for (spork, arguments) in [(4, [1, 11]), (13, [2, 12]), (22, [3, 13])] {
        let mut early = choices[..=spork].to_vec();
        early.push((PROMOTE, 0));
        let (pool, ..) = run(&program, &early);
        let child = pool.threads()[1];
        assert_eq!(child.opened, opened(spork as u64, &arguments));
        assert_eq!(child.frames[0].temporaries[..2], arguments.map(Some));
    }
}

/// A statement that binds an argument while its call is open is refused with 7;
/// run nonetheless, the table's child begins with another value.
#[test]
fn refused_where_it_would_fail() {
    let (mut program, choices) = child();
    program.functions[0].blocks[2].statements.push(Statement {
        target: 1,
        expression: Expression::Plain(Atom::Value(9)),
    });
    let table = oracle::encode::encode(&program);
    assert_eq!(check(&table), Err(Refusal::fault(7, 0, 2)));
    let late = [&choices[..5], &[(STEP, 0), (PROMOTE, 0)]].concat();
    let (pool, ..) = run(&program, &late);
    let child = pool.threads()[1];
    assert_eq!(child.opened, opened(4, &[1, 11]));
    assert_eq!(child.frames[0].temporaries[..2], [Some(9), Some(11)]);
}

fn block(parameters: &[Temporary], nesting: &[u8], transfer: Transfer) -> Block {
    Block {
        parameters: parameters.to_vec(),
        scope: [0].into(),
        nesting: nesting.to_vec(),
        statements: vec![],
        transfer,
    }
}

/// Main opens one spawn call twice and another between; all have the same
/// argument, and are told apart by their sporks. They are promoted oldest
/// first and joined newest first. A choice that was refused has a number too.
#[test]
fn one_spawn_call_open_twice() {
    let spork = |body, spawn| Transfer::Spork { body, spawn };
    let spoin = |to| Transfer::Spoin {
        unpromoted: to,
        promoted: to,
    };
    let spawn = || SpawnCall {
        function: 1,
        arguments: vec![0],
    };
    let gives = || Transfer::Return { arguments: vec![] };
    let mut entry = block(&[], &[], spork(1, 0));
    entry.scope.clear();
    entry.statements.push(Statement {
        target: 0,
        expression: Expression::Plain(Atom::Value(5)),
    });
    let main = Function {
        parameters: 0,
        returns: 0,
        spawns: vec![spawn(), spawn()],
        blocks: vec![
            entry,
            block(&[], &[0], spork(2, 1)),
            block(&[], &[0, 1], spork(3, 0)),
            block(&[], &[0, 1, 0], spoin(4)),
            block(&[], &[0, 1], spoin(5)),
            block(&[], &[0], spoin(6)),
            block(&[], &[], gives()),
        ],
    };
    let one = Function {
        parameters: 1,
        returns: 0,
        spawns: vec![],
        blocks: vec![block(&[], &[], gives())],
    };
    let program = Program {
        functions: vec![main, one],
    };
    assert_eq!(check(&oracle::encode::encode(&program)), Ok(()));
    let mut choices = vec![(STEP, 7)];
    choices.extend([(STEP, 0); 4]);
    choices.extend([(PROMOTE, 0); 3]);
    let (pool, openers, rules) = run(&program, &choices);
    assert_eq!(rules.len(), 7);
    assert_eq!(openers.lists, [vec![2, 3, 4], vec![], vec![], vec![]]);
    let threads = pool.threads();
    for (child, choice) in threads[1..].iter().zip([4, 3, 2]) {
        assert_eq!(child.opened, opened(choice, &[5]));
    }
    choices.extend([(STEP, 0); 2]);
    let (pool, openers, _) = run(&program, &choices);
    assert_eq!(openers.lists, [vec![2], vec![]]);
    assert_eq!(pool.threads()[1].opened, opened(2, &[5]));
}
