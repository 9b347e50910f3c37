//! Beats and runs: every refusal in its order, the tokens of small runs.

use oracle::beats::{self, Account, Entry};
use oracle::encode::{encode, fix_length};
use oracle::pool::{thread_start, Pool, Purse, MAX_TOKENS, TOKENS, WORK};
use oracle::table::{
    Atom, Block, Expression, Function, Name, Program, SpawnCall, Statement, Transfer,
};
use oracle::{beat, check, read, run, schedule, start, Pace, Refusal, Rule, POOL_WORDS};

/// Sets 0 to 2 + 3 and returns it.
const A: [u8; 30] = [
    0, 0, 0, 0x1E, 1, 1, 0, 1, 1, 0, 0, 0, 0, 0, 1, 0, 2, 0, 0, 0, 0, 2, 0, 0, 0, 0, 3, 3, 1, 0,
];
/// Paces that earn at every step, and not within a test.
const EACH: Pace = Pace { n: 1, c: 1 };
const NEVER: Pace = Pace { n: 65_535, c: 1 };
const NO_PACE: Pace = Pace { n: 0, c: 1 };

fn block(nesting: usize, sets: bool, transfer: Transfer) -> Block {
    let statement = Statement {
        target: 0,
        expression: Expression::Plain(Atom::Value(7)),
    };
    Block {
        parameters: vec![],
        scope: [].into(),
        nesting: vec![0; nesting],
        statements: if sets { vec![statement] } else { vec![] },
        transfer,
    }
}

fn returns() -> Transfer {
    Transfer::Return { arguments: vec![] }
}

fn function(spawns: Vec<SpawnCall>, blocks: Vec<Block>) -> Function {
    Function {
        parameters: 0,
        returns: 0,
        spawns,
        blocks,
    }
}

/// Main sporks function 1 as many times, one in another, and joins or drops each
/// call again; function 1 has one statement.
fn nested(calls: usize) -> Vec<u8> {
    let spork = |k: usize| {
        let body = k as Name + 1;
        block(k, false, Transfer::Spork { body, spawn: 0 })
    };
    let spoin = |k: usize| {
        let next = (calls + k) as Name + 1;
        let transfer = Transfer::Spoin {
            unpromoted: next,
            promoted: next,
        };
        block(calls - k, false, transfer)
    };
    let mut blocks: Vec<Block> = (0..calls).map(spork).collect();
    blocks.extend((0..calls).map(spoin));
    blocks.push(block(0, false, returns()));
    let spawn = SpawnCall {
        function: 1,
        arguments: vec![],
    };
    let table = encode(&Program {
        functions: vec![
            function(vec![spawn], blocks),
            function(vec![], vec![block(0, true, returns())]),
        ],
    });
    assert_eq!(check(&table), Ok(()));
    table
}

/// Main that sporks itself, or calls itself.
fn endless(calls: bool) -> Vec<u8> {
    let spawn = SpawnCall {
        function: 0,
        arguments: vec![],
    };
    let spork = Transfer::Spork { body: 1, spawn: 0 };
    let call = Transfer::Call {
        function: 0,
        arguments: vec![],
        return_block: 0,
    };
    let spoin = Transfer::Spoin {
        unpromoted: 2,
        promoted: 2,
    };
    let blocks = vec![
        block(0, false, if calls { call } else { spork }),
        block(1, false, spoin),
        block(0, false, returns()),
    ];
    encode(&Program {
        functions: vec![function(vec![spawn], blocks)],
    })
}

fn started(table: &[u8]) -> Vec<i32> {
    let mut pool = vec![-1; POOL_WORDS];
    start(table, &mut pool).unwrap();
    pool
}

/// The work and tokens of each thread.
fn purses(pool: &[i32]) -> Vec<(i32, i32)> {
    let purse = |thread| {
        let at = thread_start(thread);
        (pool[at + WORK], pool[at + TOKENS])
    };
    (0..pool[0] as usize).map(purse).collect()
}

fn lend(pool: &mut [i32], thread: usize, work: i32, tokens: i32) {
    let at = thread_start(thread);
    (pool[at + WORK], pool[at + TOKENS]) = (work, tokens);
}

/// A beat's rule and promotions by number, or the number of its refusal, which
/// leaves the pool.
fn beaten(table: &[u8], pool: &mut [i32], pace: Pace, thread: u64) -> Result<(u8, u64), u8> {
    let before = pool.to_vec();
    let answer = beat(table, pool, pace, thread);
    assert!(answer.is_ok() || pool == before);
    answer
        .map(|(rule, promotions)| (rule.number(), promotions))
        .map_err(|refusal| refusal.number)
}

/// 1 to 3, 12, 13, 27, then 15: each while all that come after it are due too.
#[test]
fn order_of_refusals() {
    let mut table = A.to_vec();
    let mut pool = vec![0; POOL_WORDS + 1];
    let both = |table: &[u8], pool: &mut [i32], due: Refusal, pace: Pace| {
        let before = pool.to_vec();
        assert_eq!(beat(table, pool, pace, 9), Err(due));
        for threads in [&[][..], &[9, 0]] {
            assert_eq!(run(table, pool, pace, threads), ([0, 0], Some(due)));
        }
        assert!(pool == before);
    };
    (table[4], table[5]) = (9, 0);
    both(&table[..5], &mut pool, Refusal::plain(1), NO_PACE);
    both(&table, &mut pool, Refusal::plain(2), NO_PACE);
    table[4] = 1;
    both(&table, &mut pool, Refusal::byte(5), NO_PACE);
    table[5] = 1;
    both(&table, &mut pool, Refusal::plain(12), NO_PACE);
    pool.pop();
    both(&table, &mut pool, Refusal::plain(13), NO_PACE);
    let mut pool = started(&table);
    both(&table, &mut pool, Refusal::plain(27), NO_PACE);
    assert_eq!(beaten(&table, &mut pool, EACH, 9), Err(15));
    let none = Some(Refusal::plain(15));
    assert_eq!(run(&table, &mut pool, EACH, &[9, 0]), ([0, 0], none));
    assert_eq!(run(&table, &mut pool, EACH, &[]), ([0, 0], None));
}

/// A refused step refuses the beat, with its number.
#[test]
fn refused_steps() {
    let mut pool = started(&A);
    assert_eq!(beaten(&A, &mut pool, NEVER, 0), Ok((1, 0)));
    assert_eq!(beaten(&A, &mut pool, NEVER, 0), Err(16));
    let table = nested(1);
    let mut pool = started(&table);
    assert_eq!(beaten(&table, &mut pool, EACH, 0), Ok((7, 1)));
    assert_eq!(beaten(&table, &mut pool, EACH, 0), Err(17));
    let table = endless(true);
    let mut pool = started(&table);
    let eight = run(&table, &mut pool, EACH, &[0; 8]);
    assert_eq!(eight, ([7, 0], Some(Refusal::plain(18))));
    assert_eq!(purses(&pool), [(0, 7)]);
    let mut table = [&A[..27], &[3, 1, 1]].concat();
    fix_length(&mut table);
    let mut pool = started(&table);
    let two = run(&table, &mut pool, EACH, &[0, 0]);
    assert_eq!(two, ([1, 0], Some(Refusal::plain(19))));
    assert_eq!(purses(&pool), [(0, 1)]);
}

#[test]
fn paces() {
    let wide = [65_536, 1 << 31, u32::MAX.into(), 1 << 32, (1 << 32) + 1];
    for n in wide.into_iter().chain([0, u64::MAX]) {
        let pace = Pace { n, c: 1 };
        assert_eq!(beaten(&A, &mut started(&A), pace, 0), Err(27));
    }
    for c in wide.into_iter().chain([0, 256, u64::MAX]) {
        let pace = Pace { n: 1, c };
        assert_eq!(beaten(&A, &mut started(&A), pace, 0), Err(27));
    }
    for (n, c, left) in [(1, 1, (0, 1)), (1, 255, (0, 255)), (65_535, 255, (1, 0))] {
        let mut pool = started(&A);
        assert_eq!(beaten(&A, &mut pool, Pace { n, c }, 0), Ok((1, 0)));
        assert_eq!(purses(&pool), [left]);
    }
}

/// At N or more the work is 0 again, and C tokens come once.
#[test]
fn work() {
    for (work, n, left) in [
        (0, 2, (1, 5)),
        (1, 2, (0, 8)),
        (2, 2, (0, 8)),
        (65_534, 1, (0, 8)),
        (65_534, 65_535, (0, 8)),
        (65_533, 65_535, (65_534, 5)),
    ] {
        let mut pool = started(&A);
        lend(&mut pool, 0, work, 5);
        assert_eq!(beaten(&A, &mut pool, Pace { n, c: 3 }, 0), Ok((1, 0)));
        assert_eq!(purses(&pool), [left], "work {work} at N {n}");
    }
}

/// One token pays, and half of the rest moves, rounded down.
#[test]
fn halves() {
    let table = nested(1);
    for (tokens, parent, child) in [
        (1, 0, 0),
        (2, 1, 0),
        (3, 1, 1),
        (4, 2, 1),
        (5, 2, 2),
        (2_000_000_000, 1_000_000_000, 999_999_999),
    ] {
        let mut pool = started(&table);
        lend(&mut pool, 0, 9, tokens);
        assert_eq!(beaten(&table, &mut pool, NEVER, 0), Ok((7, 1)));
        assert_eq!(purses(&pool), [(10, parent), (0, child)]);
    }
    let mut pool = started(&table);
    assert_eq!(beaten(&table, &mut pool, NEVER, 0), Ok((7, 0)));
    assert_eq!(purses(&pool), [(1, 0)]);
    let mut pool = started(&table);
    assert_eq!(beaten(&table, &mut pool, EACH, 0), Ok((7, 1)));
    assert_eq!(purses(&pool), [(0, 0), (0, 0)]);
}

/// Three calls are open, and the fourth is sporked by the beat: as many as the
/// tokens pay for are promoted, oldest first, each child directly behind.
#[test]
fn promotions_of_one_beat() {
    let table = nested(4);
    for (tokens, due) in [
        (1, vec![0, 0]),
        (2, vec![0, 0, 0]),
        (3, vec![0, 0, 1]),
        (6, vec![0, 0, 1, 2]),
        (7, vec![0, 0, 1, 3]),
        (8, vec![0, 0, 0, 1, 3]),
        (40, vec![2, 2, 4, 9, 19]),
    ] {
        let mut pool = started(&table);
        assert_eq!(schedule(&table, &mut pool, &[(0, 0); 3]), (3, None));
        lend(&mut pool, 0, 0, tokens);
        let promotions = due.len() as u64 - 1;
        assert_eq!(beaten(&table, &mut pool, NEVER, 0), Ok((7, promotions)));
        let left: Vec<i32> = purses(&pool).iter().map(|&(_, tokens)| tokens).collect();
        assert_eq!(left, due, "{tokens} tokens");
    }
}

/// Tokens that found nothing to promote pay later, at a beat that earns
/// nothing.
#[test]
fn banked() {
    let table = nested(2);
    let mut pool = started(&table);
    lend(&mut pool, 0, 0, 2);
    assert_eq!(beaten(&table, &mut pool, NEVER, 0), Ok((7, 1)));
    assert_eq!(purses(&pool), [(1, 1), (0, 0)]);
    assert_eq!(beaten(&table, &mut pool, NEVER, 0), Ok((7, 1)));
    assert_eq!(purses(&pool), [(2, 0), (0, 0), (0, 0)]);
}

/// The tokens of a joined child come to its parent, its work does not; a plain
/// join drops both.
#[test]
fn joins() {
    let table = nested(2);
    let joinable = || {
        let mut pool = started(&table);
        let choices = [(0, 0), (0, 0), (1, 0), (1, 0), (0, 1)];
        assert_eq!(schedule(&table, &mut pool, &choices), (5, None));
        assert_eq!(purses(&pool), [(0, 0); 3]);
        lend(&mut pool, 0, 10, 100);
        lend(&mut pool, 1, 20, 200);
        lend(&mut pool, 2, 30, 300);
        pool
    };
    let mut pool = joinable();
    assert_eq!(beaten(&table, &mut pool, NEVER, 0), Ok((9, 0)));
    assert_eq!(purses(&pool), [(11, 300), (30, 300)]);
    let mut pool = joinable();
    assert_eq!(
        beaten(&table, &mut pool, Pace { n: 11, c: 7 }, 0),
        Ok((9, 0))
    );
    assert_eq!(purses(&pool), [(0, 307), (30, 300)]);
    let mut pool = joinable();
    assert_eq!(schedule(&table, &mut pool, &[(0, 0)]), (1, None));
    assert_eq!(purses(&pool), [(10, 100), (30, 300)]);
    // The other child is behind the first.
    let mut pool = joinable();
    assert_eq!(beaten(&table, &mut pool, NEVER, 2), Ok((1, 0)));
    assert_eq!(purses(&pool), [(10, 100), (20, 200), (31, 300)]);
}

/// What a purse does not hold is dropped as it arrives.
#[test]
fn cut() {
    let most = MAX_TOKENS as i32;
    for (tokens, left) in [(most - 256, most - 1), (most - 255, most), (most, most)] {
        let mut pool = started(&A);
        lend(&mut pool, 0, 0, tokens);
        assert_eq!(beaten(&A, &mut pool, Pace { n: 1, c: 255 }, 0), Ok((1, 0)));
        assert_eq!(purses(&pool), [(0, left)]);
    }
    let table = nested(1);
    for (own, child, left, dropped) in [
        (1_500_000_000, 499_999_999, most - 1, vec![]),
        (1_500_000_000, 500_000_000, most, vec![]),
        (1_500_000_000, 500_000_001, most, vec![1]),
        (most, most, most, vec![2_000_000_000]),
    ] {
        for pace in [NEVER, EACH] {
            let mut pool = started(&table);
            let choices = [(0, 0), (1, 0), (0, 1)];
            assert_eq!(schedule(&table, &mut pool, &choices), (3, None));
            lend(&mut pool, 0, 0, own);
            lend(&mut pool, 1, 0, child);
            let program = read(&table).unwrap();
            let mut tree = Pool::from_words(&program, &pool).unwrap();
            assert_eq!(beaten(&table, &mut pool, pace, 0), Ok((9, 0)));
            let earned = pace == EACH;
            let (work, tokens) = if earned {
                (0, left.saturating_add(1).min(most))
            } else {
                (1, left)
            };
            assert_eq!(purses(&pool), [(work, tokens)]);
            let beat = beats::beat(&program, &mut tree, pace, 0).unwrap();
            assert_eq!(tree.to_words(), pool);
            let mut due = vec![Entry::HandedBack(child as u64)];
            due.extend(dropped.iter().map(|&tokens| Entry::Dropped(tokens)));
            if earned {
                due.push(Entry::Came(1));
                due.extend((left == most).then_some(Entry::Dropped(1)));
            }
            assert_eq!(beat.ledger.entries, due);
        }
    }
}

/// 20, 21 and 19 end the promotions, and the tokens stay.
#[test]
fn ends() {
    let all = Pace { n: 1, c: 255 };
    let mut pool = started(&A);
    assert_eq!(beaten(&A, &mut pool, all, 0), Ok((1, 0)));
    assert_eq!(purses(&pool), [(0, 255)]);
    // Every thread sporks, and the eighth finds no room.
    let table = endless(false);
    let mut pool = started(&table);
    let threads: Vec<u64> = (0..8).collect();
    assert_eq!(run(&table, &mut pool, all, &threads), ([8, 7], None));
    let tokens: Vec<i32> = purses(&pool).iter().map(|&(_, tokens)| tokens).collect();
    assert_eq!(tokens, [127, 191, 222, 238, 246, 250, 252, 507]);
    // A spawn call with an argument that is not bound.
    let mut program = read(&nested(1)).unwrap();
    program.functions[0].spawns[0].arguments = vec![3];
    let table = encode(&program);
    let mut pool = started(&table);
    assert_eq!(beaten(&table, &mut pool, all, 0), Ok((7, 0)));
    assert_eq!(purses(&pool), [(0, 255)]);
    assert_eq!(
        schedule(&table, &mut pool, &[(1, 0)]).1,
        Some(Refusal::plain(19))
    );
}

/// A run of two calls at N 2 and C 3, with the purses after each beat.
#[test]
fn a_run() {
    let table = nested(2);
    let pace = Pace { n: 2, c: 3 };
    type Row = (u64, Result<(Rule, u64), u8>, &'static [(i32, i32)]);
    let beats: [Row; 7] = [
        (0, Ok((Rule::Spork, 0)), &[(1, 0)]),
        (0, Ok((Rule::Spork, 2)), &[(0, 0), (0, 0), (0, 1)]),
        (1, Ok((Rule::Stmt, 0)), &[(0, 0), (1, 0), (0, 1)]),
        (2, Ok((Rule::Stmt, 0)), &[(0, 0), (1, 0), (1, 1)]),
        (0, Ok((Rule::Prom, 0)), &[(1, 0), (1, 1)]),
        (0, Ok((Rule::Prom, 0)), &[(0, 4)]),
        (0, Err(16), &[(0, 4)]),
    ];
    let mut pool = started(&table);
    let program = read(&table).unwrap();
    let (mut tree, mut account) = (Pool::start(), Account::default());
    for (thread, due, left) in beats {
        let given = beaten(&table, &mut pool, pace, thread);
        assert_eq!(given, due.map(|(rule, count)| (rule.number(), count)));
        assert_eq!(purses(&pool), left);
        if let Ok(beat) = beats::beat(&program, &mut tree, pace, thread) {
            account.enter(&beat);
        }
        let held: Vec<Purse> = tree.threads().iter().map(|thread| thread.purse).collect();
        assert!(account.bounded(pace) && account.balances(pace, &held));
    }
    let due = Account {
        steps: 6,
        promotions: 2,
        dropped: 0,
        lost: 2,
    };
    assert_eq!(account, due);
    let threads = beats.map(|(thread, ..)| thread);
    let mut all = started(&table);
    let ended = Some(Refusal::plain(16));
    assert_eq!(run(&table, &mut all, pace, &threads), ([6, 2], ended));
    assert_eq!(all, pool);
    let mut most = started(&table);
    assert_eq!(run(&table, &mut most, pace, &threads[..6]), ([6, 2], None));
    assert_eq!(most, pool);
}
