//! Runs of tables A and B of document 01, stored pools, and the numbers by name.

use mezdaulk::{
    check, complete, depth, lent, read, tidy, Beat, Choice, Kind, Pace, Place, Pool, Ran, Reason,
    Refusal, Rule, Unknown, LISTING_BYTES, OUTPUT_BYTES, SCRATCH_WORDS,
};

/// One statement, and the result 5.
const A: [u8; 30] = [
    0, 0, 0, 0x1E, 1, 1, 0, 1, 1, 0, 0, 0, 0, 0, 1, 0, 2, 0, 0, 0, 0, 2, 0, 0, 0, 0, 3, 3, 1, 0,
];

/// A spork: 1 if it is not promoted, 7 if it is.
const B: [u8; 72] = [
    0, 0, 0, 0x48, 1, 2, 0, 1, 4, 1, 1, 0, 0, 0, 0, 0, 0, 4, 1, 0, 0, 0, 0, 1, 0, 0, 5, 2, 3, 0, 0,
    0, 0, 1, 0, 0, 0, 0, 0, 0, 1, 3, 1, 0, 1, 0, 0, 0, 0, 0, 3, 1, 0, 0, 1, 1, 0, 0, 0, 0, 0, 1, 0,
    0, 0, 0, 0, 0, 7, 3, 1, 0,
];

fn reason<T: std::fmt::Debug>(answer: Result<T, Refusal>) -> Reason {
    answer.expect_err("a refusal").reason()
}

#[test]
fn a_run() {
    assert_eq!(check(&A), Ok(()));
    let mut pool = Pool::start(&A).unwrap();
    assert_eq!(pool.which(&A), Ok(Some(0)));
    assert_eq!(pool.values(&A), Ok(None));
    assert_eq!(pool.step(&A, 0), Ok(Rule::Stmt));
    assert_eq!(reason(pool.step(&A, 0)), Reason::Ended);
    assert_eq!(*pool.values(&A).unwrap().unwrap(), [5]);
    assert_eq!(pool.which(&A), Ok(None));
}

#[test]
fn a_promotion_and_its_join() {
    assert_eq!(check(&B), Ok(()));
    let mut pool = Pool::start(&B).unwrap();
    assert_eq!(pool.step(&B, 0), Ok(Rule::Spork));
    assert_eq!(pool.promote(&B, 0), Ok(Rule::Promote));
    assert_eq!(reason(pool.step(&B, 0)), Reason::Waits);
    assert_eq!(pool.which(&B), Ok(Some(1)));
    let (made, answer) = pool.schedule(&B, &[Choice::step(1), Choice::step(0), Choice::step(0)]);
    assert_eq!((made, reason(answer)), (2, Reason::Ended));
    assert_eq!(*pool.values(&B).unwrap().unwrap(), [7]);
}

/// B with a statement before its spoin: once its spork is promoted both threads can step.
fn busy_b() -> Vec<u8> {
    let mut table = B.to_vec();
    table.splice(25..26, [1, 0, 0, 0, 0, 0, 0, 0]);
    table[3] = table.len() as u8;
    table
}

/// A pool whose first spork is promoted.
fn promoted(table: &[u8]) -> Pool {
    let mut pool = Pool::start(table).unwrap();
    assert_eq!(pool.step(table, 0), Ok(Rule::Spork));
    assert_eq!(pool.promote(table, 0), Ok(Rule::Promote));
    pool
}

#[test]
fn the_first_thread_that_can_step() {
    let table = busy_b();
    assert_eq!(check(&table), Ok(()));
    let mut pool = promoted(&table);
    for thread in [0, 1] {
        assert_eq!(pool.clone().step(&table, thread), Ok(Rule::Stmt));
    }
    assert_eq!(pool.which(&table), Ok(Some(0)));
    // Main waits for its child, and then the child has ended.
    assert_eq!(pool.step(&table, 0), Ok(Rule::Stmt));
    assert_eq!(reason(pool.clone().step(&table, 0)), Reason::Waits);
    assert_eq!(pool.which(&table), Ok(Some(1)));
    assert_eq!(pool.step(&table, 1), Ok(Rule::Stmt));
    assert_eq!(reason(pool.clone().step(&table, 1)), Reason::Ended);
    assert_eq!(pool.which(&table), Ok(Some(0)));
    assert_eq!(pool.step(&table, 0), Ok(Rule::Prom));
    assert_eq!(pool.which(&table), Ok(None));
}

/// Steps of the first thread that can step, until there is none or so many are made: each thread with its rule.
fn by_first(table: &[u8], pool: &mut Pool, most: usize) -> Vec<(u32, Rule)> {
    let mut made = Vec::new();
    while made.len() < most {
        let Some(thread) = pool.which(table).unwrap() else {
            break;
        };
        made.push((thread, pool.step(table, thread).unwrap()));
    }
    made
}

#[test]
fn runs_by_the_first_are_the_same() {
    // Of B, where main waits for its child, and where both can step.
    let all = [(0, Rule::Stmt), (1, Rule::Stmt), (0, Rule::Prom)];
    for (table, due) in [(B.to_vec(), &all[1..]), (busy_b(), &all[..])] {
        let start = promoted(&table);
        let mut whole = start.clone();
        assert_eq!(by_first(&table, &mut whole, usize::MAX), due);
        assert_eq!(*whole.values(&table).unwrap().unwrap(), [7]);
        // One that stops is the beginning of it, and goes on to the same end.
        for most in 0..=due.len() {
            let mut parts = start.clone();
            assert_eq!(by_first(&table, &mut parts, most), due[..most]);
            assert_eq!(by_first(&table, &mut parts, usize::MAX), due[most..]);
            assert_eq!(parts, whole);
        }
        let steps: Vec<Choice> = due.iter().map(|step| Choice::step(step.0)).collect();
        let mut replayed = start;
        assert_eq!(replayed.schedule(&table, &steps), (due.len(), Ok(())));
        assert_eq!(replayed, whole);
    }
    // It ends at a call with eight frames too, and then main has not returned.
    let table = line(9);
    let mut pool = Pool::start(&table).unwrap();
    assert_eq!(by_first(&table, &mut pool, 9), [(0, Rule::Call); 7]);
    assert_eq!(reason(pool.step(&table, 0)), Reason::Frames);
    assert_eq!(pool.values(&table), Ok(None));
    // And at a sum that does not fit.
    let table = adding(i32::MAX, 1);
    let mut pool = Pool::start(&table).unwrap();
    assert_eq!(by_first(&table, &mut pool, 9), []);
    assert_eq!(reason(pool.step(&table, 0)), Reason::Overflow);
    assert_eq!(pool.values(&table), Ok(None));
}

/// A with another sum.
fn adding(m: i32, n: i32) -> Vec<u8> {
    let mut table = A.to_vec();
    table[18..22].copy_from_slice(&m.to_be_bytes());
    table[23..27].copy_from_slice(&n.to_be_bytes());
    table
}

/// Sums at both ends of 32 bits, and one beyond each.
#[test]
fn sums_that_overflow() {
    let pace = Pace { n: 1, c: 1 };
    for (m, n) in [
        (i32::MAX, 0),
        (i32::MIN, 0),
        (i32::MIN + 1, -1),
        (i32::MAX, i32::MIN),
    ] {
        let table = adding(m, n);
        let mut pool = Pool::start(&table).unwrap();
        assert_eq!(pool.step(&table, 0), Ok(Rule::Stmt));
        assert_eq!(*pool.values(&table).unwrap().unwrap(), [m + n]);
    }
    for (m, n) in [
        (i32::MAX, 1),
        (i32::MIN, -1),
        (1, i32::MAX),
        (i32::MIN, i32::MIN),
    ] {
        let table = adding(m, n);
        assert_eq!(check(&table), Ok(()));
        let mut pool = Pool::start(&table).unwrap();
        let fresh = pool.clone();
        let refused = pool.step(&table, 0).unwrap_err();
        assert_eq!((refused.reason(), refused.number()), (Reason::Overflow, 29));
        assert_eq!(refused.place(), None);
        assert_eq!(
            refused.to_string(),
            "the thread's next sum or negation does not fit in 32 bits (refusal 29)"
        );
        // 14 and 15 come before it, and a promotion never gets it.
        let no_kind = Choice { kind: 2, thread: 0 };
        assert_eq!(reason(pool.choose(&table, no_kind)), Reason::Kind);
        assert_eq!(reason(pool.step(&table, 1)), Reason::Thread);
        assert_eq!(reason(pool.promote(&table, 0)), Reason::Promoted);
        assert_eq!(pool.which(&table), Ok(None));
        let (made, answer) = pool.schedule(&table, &[Choice::step(0), Choice::step(0)]);
        assert_eq!((made, reason(answer)), (0, Reason::Overflow));
        assert_eq!(reason(pool.beat(&table, pace, 0)), Reason::Overflow);
        let (made, answer) = pool.run(&table, pace, &[0, 0]);
        assert_eq!(
            (made, reason(answer)),
            (
                Ran {
                    steps: 0,
                    promotions: 0
                },
                Reason::Overflow
            )
        );
        assert_eq!(pool, fresh);
        assert_eq!(pool.values(&table), Ok(None));
    }
}

#[test]
fn choices_that_are_refused() {
    let mut pool = Pool::start(&A).unwrap();
    let fresh = pool.clone();
    let no_kind = Choice { kind: 2, thread: 0 };
    assert_eq!(reason(pool.choose(&A, no_kind)), Reason::Kind);
    assert_eq!(reason(pool.step(&A, 1)), Reason::Thread);
    assert_eq!(reason(pool.promote(&A, 0)), Reason::Promoted);
    assert_eq!(pool, fresh);
    assert_eq!(pool.schedule(&A, &[]), (0, Ok(())));
}

#[test]
fn refusals_have_their_place_and_text() {
    let mut bad = A;
    bad[5] = 0;
    let byte = read(&bad).unwrap_err();
    assert_eq!(byte.place(), Some(Place::Byte(5)));
    bad = A;
    bad[12] = 1;
    let entry = check(&bad).unwrap_err();
    let block = Place::Block {
        function: 0,
        block: 0,
    };
    assert_eq!(
        (entry.reason(), entry.place()),
        (Reason::Entry, Some(block))
    );
    bad = A;
    bad[6] = 1;
    let main = check(&bad).unwrap_err();
    assert_eq!((main.number(), main.place()), (4, Some(Place::Function(0))));
    assert_eq!(check(&[]).unwrap_err().place(), None);
    let texts: [&dyn std::error::Error; 3] = [&byte, &entry, &main];
    assert_eq!(
        texts.map(|text| text.to_string()),
        [
            "a byte of the table is out of range, missing or left over (refusal 3, byte 5)",
            "an entry block has parameters, a nesting, or another scope than its function's parameters \
             (refusal 5, function 0, block 0)",
            "main has parameters (refusal 4, function 0)",
        ]
    );
}

#[test]
fn stored_pools() {
    let mut pool = Pool::start(&B).unwrap();
    pool.step(&B, 0).unwrap();
    let stored = pool.words().to_vec();
    assert_eq!(Pool::from_words(&stored), Ok(pool.clone()));
    assert_eq!(reason(Pool::from_words(&stored[1..])), Reason::Words);
    assert_eq!(reason(pool.step(&A, 0)), Reason::Pool);
    pool.as_mut()[0] = 0;
    assert_eq!(reason(pool.which(&B)), Reason::Pool);
    assert_eq!(pool.restart(&B), Ok(()));
    assert_eq!(Ok(pool), Pool::start(&B));
}

/// A line: every function but the last calls the next, and all return nothing.
fn line(functions: u8) -> Vec<u8> {
    let mut table = vec![0, 0, 0, 0, 1, functions];
    for f in 1..functions {
        table.extend([0, 0, 2, 0, 0, 0, 0, 0, 0, 2, f, 0, 1]);
        table.extend([0, 0, 0, 0, 0, 3, 0]);
    }
    table.extend([0, 0, 1, 0, 0, 0, 0, 0, 0, 3, 0]);
    let length = table.len() as u32;
    table[..4].copy_from_slice(&length.to_be_bytes());
    table
}

#[test]
fn depth_of_calls() {
    assert_eq!((depth(&A), depth(&B)), (Ok(1), Ok(1)));
    for functions in 1..=16 {
        assert_eq!(depth(&line(functions)), Ok(functions));
    }
    // Of eight functions no call is refused; of nine the eighth is.
    for (functions, calls, then) in [(8, 7, Ok(Rule::Return)), (9, 7, Err(Reason::Frames))] {
        let table = line(functions);
        let mut pool = Pool::start(&table).unwrap();
        for _ in 0..calls {
            assert_eq!(pool.step(&table, 0), Ok(Rule::Call));
        }
        assert_eq!(
            pool.step(&table, 0).map_err(|refusal| refusal.reason()),
            then
        );
    }
    // Main that calls itself: 22, and the check's own refusals before it.
    let mut table = line(2);
    table[16] = 0;
    assert_eq!(check(&table), Ok(()));
    let cycle = depth(&table).unwrap_err();
    assert_eq!((cycle.reason(), cycle.place()), (Reason::Cycle, None));
    assert_eq!(
        cycle.to_string(),
        "some function reaches itself by calls (refusal 22)"
    );
    table[6] = 1;
    assert_eq!(depth(&table).unwrap_err(), check(&table).unwrap_err());
    assert_eq!(reason(depth(&[])), Reason::Size);
}

/// B with a dead block between its blocks, and a dead function between its
/// functions.
fn untidy_b() -> Vec<u8> {
    let mut table = B[..53].to_vec();
    table[5] = 3;
    table[8] = 5;
    table[10] = 2;
    table[27..29].copy_from_slice(&[3, 4]);
    table.splice(29..29, [0, 0, 0, 0, 0, 0, 2, 0]);
    table.extend([0, 0, 1, 0, 0, 0, 0, 0, 0, 3, 0]);
    table.extend(&B[53..]);
    table[3] = table.len() as u8;
    table
}

#[test]
fn tidy_tables() {
    assert_eq!((tidy(&A), tidy(&B)), (Ok(A.to_vec()), Ok(B.to_vec())));
    let untidy = untidy_b();
    assert_eq!(check(&untidy), Ok(()));
    assert_eq!(tidy(&untidy), Ok(B.to_vec()));
    // The output behind the tidy table stays, and all of it where it is refused.
    let mut out = [9; 80];
    for room in [0, B.len() - 1] {
        assert_eq!(reason(lent::tidy(&untidy, &mut out[..room])), Reason::Room);
        assert_eq!(out, [9; 80]);
    }
    for room in [B.len(), B.len() + 1, out.len()] {
        out.fill(9);
        assert_eq!(lent::tidy(&untidy, &mut out[..room]), Ok(B.len()));
        assert_eq!(out[..B.len()], B);
        assert_eq!(out[B.len()..], [9; 80 - B.len()]);
    }
    let room = lent::tidy(&untidy, &mut []).unwrap_err();
    assert_eq!((room.number(), room.place()), (23, None));
    assert_eq!(
        room.to_string(),
        "the output is shorter than the tidy table (refusal 23)"
    );
    // The check's own refusals come before it.
    let mut bad = untidy;
    bad[6] = 1;
    assert_eq!(lent::tidy(&bad, &mut []), Err(check(&bad).unwrap_err()));
    assert_eq!(tidy(&bad), Err(check(&bad).unwrap_err()));
    assert_eq!(reason(tidy(&[0; 20_000])), Reason::Size);
}

/// The same choices get the same answers from pools of both tables.
#[test]
fn tidy_runs() {
    let untidy = untidy_b();
    let mut pools = [&untidy[..], &B].map(|table| (table, Pool::start(table).unwrap()));
    let choices = [
        Choice::step(0),
        Choice::promote(0),
        Choice::step(0),
        Choice::promote(0),
        Choice::step(1),
        Choice::step(0),
        Choice::step(0),
    ];
    for choice in choices {
        let answers = pools
            .each_mut()
            .map(|(table, pool)| (pool.choose(table, choice), pool.values(table)));
        assert_eq!(answers[0], answers[1]);
    }
    let [(table, pool), _] = pools;
    assert_eq!(*pool.values(table).unwrap().unwrap(), [7]);
}

/// B without its scopes and nestings.
const BRIEF_B: [u8; 56] = [
    0, 0, 0, 0x38, 2, 2, 0, 1, 4, 1, 1, 0, 0, 0, 4, 1, 0, 0, 0, 5, 2, 3, 0, 1, 0, 0, 0, 0, 0, 0, 1,
    3, 1, 0, 1, 0, 0, 3, 1, 0, 0, 1, 1, 0, 0, 1, 0, 0, 0, 0, 0, 0, 7, 3, 1, 0,
];

#[test]
fn completed_tables() {
    assert_eq!(complete(&BRIEF_B), Ok(B.to_vec()));
    assert_eq!(reason(read(&BRIEF_B)), Reason::Version);
    assert_eq!(reason(complete(&B)), Reason::Version);
    // The scratch is 0 afterwards but for what is more than 1,024 words; the output is 0 behind the table.
    let (mut out, mut scratch) = (vec![9; OUTPUT_BYTES + 1], vec![9; SCRATCH_WORDS + 1]);
    let lent = lent::complete(&BRIEF_B, &mut out[..OUTPUT_BYTES], &mut scratch);
    assert_eq!(lent, Ok(B.len()));
    assert_eq!((&out[..B.len()], out[OUTPUT_BYTES]), (&B[..], 9));
    assert!(out[B.len()..OUTPUT_BYTES].iter().all(|&byte| byte == 0));
    assert!(scratch[..SCRATCH_WORDS].iter().all(|&word| word == 0));
    assert_eq!(scratch[SCRATCH_WORDS], 9);
    assert_eq!(reason(complete(&[0; 20_000])), Reason::Size);
}

#[test]
fn tables_that_are_not_completed() {
    let (fresh, words) = (vec![9; OUTPUT_BYTES + 1], vec![9; SCRATCH_WORDS]);
    for (room, count) in [
        (OUTPUT_BYTES - 1, SCRATCH_WORDS),
        (OUTPUT_BYTES + 1, SCRATCH_WORDS),
        (OUTPUT_BYTES, SCRATCH_WORDS - 1),
        (0, 0),
    ] {
        let (mut out, mut scratch) = (fresh.clone(), words.clone());
        let refused = lent::complete(&BRIEF_B, &mut out[..room], &mut scratch[..count]);
        let lent = refused.unwrap_err();
        assert_eq!((lent.reason(), lent.place()), (Reason::Lent, None));
        assert_eq!((out, scratch), (fresh.clone(), words.clone()));
    }
    // Both sides of the spoin are block 2, and nothing reaches block 3; the spork opens a spawn call that there is not.
    let (mut unreached, mut impossible) = (BRIEF_B, BRIEF_B);
    unreached[21] = 2;
    impossible[16] = 1;
    for (table, due) in [
        (unreached, "no transfer from its function's entry reaches a block (refusal 25, function 0, block 3)"),
        (impossible, "no scopes and nestings make a function well formed (refusal 26, function 0)"),
    ] {
        let (mut out, mut scratch) = (fresh.clone(), words.clone());
        let refused = lent::complete(&table, &mut out[..OUTPUT_BYTES], &mut scratch);
        assert_eq!(refused.unwrap_err().to_string(), due);
        assert_eq!(out, fresh);
        assert!(scratch.iter().all(|&word| word == 0));
    }
}

/// The work and the tokens of a thread.
fn purse(pool: &Pool, thread: usize) -> [i32; 2] {
    let at = 2 + 211 * thread;
    [pool.words()[at], pool.words()[at + 1]]
}

fn beat(rule: Rule, promotions: u32) -> Result<Beat, Refusal> {
    Ok(Beat { rule, promotions })
}

#[test]
fn beats_earn_and_spend() {
    // Three tokens a step: one is paid, and one of the two left goes to the child.
    let pace = Pace { n: 1, c: 3 };
    let mut pool = Pool::start(&B).unwrap();
    assert_eq!(pool.beat(&B, pace, 0), beat(Rule::Spork, 1));
    assert_eq!((purse(&pool, 0), purse(&pool, 1)), ([0, 1], [0, 1]));
    assert_eq!(reason(pool.beat(&B, pace, 0)), Reason::Waits);
    // Two steps for a token: the child has worked for half of one.
    assert_eq!(pool.beat(&B, Pace { n: 2, c: 1 }, 1), beat(Rule::Stmt, 0));
    assert_eq!((purse(&pool, 0), purse(&pool, 1)), ([0, 1], [1, 1]));
    // The join brings the child's token, and its work is lost.
    assert_eq!(pool.beat(&B, Pace { n: 2, c: 1 }, 0), beat(Rule::Prom, 0));
    assert_eq!((purse(&pool, 0), purse(&pool, 1)), ([1, 2], [0, 0]));
    assert_eq!(reason(pool.beat(&B, pace, 0)), Reason::Ended);
    assert_eq!(*pool.values(&B).unwrap().unwrap(), [7]);
}

#[test]
fn plain_choices_leave_work_and_tokens() {
    let mut pool = Pool::start(&B).unwrap();
    pool.as_mut()[2..4].copy_from_slice(&[65_534, 2_000_000_000]);
    assert_eq!(pool.step(&B, 0), Ok(Rule::Spork));
    assert_eq!(pool.promote(&B, 0), Ok(Rule::Promote));
    let full = [65_534, 2_000_000_000];
    assert_eq!((purse(&pool, 0), purse(&pool, 1)), (full, [0, 0]));
    // Tokens that come to 2,000,000,000 others are dropped, and work beyond N brings tokens once.
    let mut beaten = pool.clone();
    beaten.as_mut()[214] = 5;
    assert_eq!(pool.step(&B, 1), Ok(Rule::Stmt));
    assert_eq!(pool.step(&B, 0), Ok(Rule::Prom));
    assert_eq!((purse(&pool, 0), purse(&pool, 1)), (full, [0, 0]));
    assert_eq!(beaten.step(&B, 1), Ok(Rule::Stmt));
    assert_eq!(
        beaten.beat(&B, Pace { n: 2, c: 255 }, 0),
        beat(Rule::Prom, 0)
    );
    assert_eq!(purse(&beaten, 0), [0, 2_000_000_000]);
}

#[test]
fn runs_up_to_the_first_refusal() {
    let pace = Pace { n: 1, c: 1 };
    let made = |steps, promotions| Ran { steps, promotions };
    let mut pool = Pool::start(&B).unwrap();
    let (ran, answer) = pool.run(&B, pace, &[0, 0, 1]);
    assert_eq!((ran, reason(answer)), (made(1, 1), Reason::Waits));
    assert_eq!(pool.run(&B, pace, &[1, 0]), (made(2, 0), Ok(())));
    assert_eq!(*pool.values(&B).unwrap().unwrap(), [7]);
    assert_eq!(pool.run(&B, pace, &[]), (made(0, 0), Ok(())));
    let (ran, answer) = pool.run(&B, pace, &[8, 0]);
    assert_eq!((ran, reason(answer)), (made(0, 0), Reason::Thread));
}

#[test]
fn a_pace_out_of_range() {
    let mut pool = Pool::start(&B).unwrap();
    let fresh = pool.clone();
    for (n, c) in [(0, 1), (1, 0), (65_536, 1), (1, 256), (u32::MAX, u32::MAX)] {
        let pace = Pace { n, c };
        // Before the thread, which is none.
        let refused = pool.beat(&B, pace, 8).unwrap_err();
        assert_eq!((refused.reason(), refused.place()), (Reason::Pace, None));
        assert_eq!(
            refused.to_string(),
            "N is not 1 to 65,535, or C not 1 to 255 (refusal 27)"
        );
        for threads in [&[][..], &[0]] {
            let (ran, answer) = pool.run(&B, pace, threads);
            assert_eq!((ran.steps, ran.promotions), (0, 0));
            assert_eq!(reason(answer), Reason::Pace);
        }
        // Behind the number of words.
        assert_eq!(reason(lent::beat(&B, &mut [], pace, 0)), Reason::Words);
    }
    assert_eq!(pool, fresh);
    for pace in [Pace { n: 65_535, c: 1 }, Pace { n: 1, c: 255 }] {
        assert!(fresh.clone().beat(&B, pace, 0).is_ok());
    }
}

#[test]
fn work_and_tokens_out_of_range() {
    let fresh = Pool::start(&A).unwrap();
    for (at, word) in [
        (2, -1),
        (2, 65_535),
        (3, -1),
        (3, 2_000_000_001),
        (213, 1),
        (214, 1),
    ] {
        let mut pool = fresh.clone();
        pool.as_mut()[at] = word;
        assert_eq!(reason(pool.which(&A)), Reason::Pool);
        // Before the pace.
        let none = Pace { n: 0, c: 0 };
        assert_eq!(reason(pool.beat(&A, none, 0)), Reason::Pool);
        let (ran, answer) = pool.run(&A, none, &[]);
        assert_eq!((ran.steps, ran.promotions), (0, 0));
        assert_eq!(reason(answer), Reason::Pool);
    }
}

/// Both listings of a pool.
fn listings(table: &[u8], pool: &Pool) -> [String; 2] {
    [pool.operator(table).unwrap(), pool.customer(table).unwrap()]
}

#[test]
fn listings_along_a_run() {
    let mut pool = Pool::start(&B).unwrap();
    assert_eq!(listings(&B, &pool), ["0 1 0 0 0 0 0\n"; 2]);
    let rows = [
        (Choice::step(0), ["0 1 0 1 0 1 0\n"; 2]),
        (Choice::promote(0), ["0 1 0 1 0 1 1\n 1 1 1 0 0 0 0\n"; 2]),
        (
            Choice::step(1),
            [
                "0 1 0 1 0 1 1\n 1 1 1 0 1 0 0\n",
                "0 1 0 1 0 1 1\n 1 1 1 0 1 0 0 0 7\n",
            ],
        ),
        (Choice::step(0), ["0 1 0 3 0 0 0\n", "0 1 0 3 0 0 0 0 7\n"]),
    ];
    for (choice, due) in rows {
        pool.choose(&B, choice).unwrap();
        let left = pool.clone();
        assert_eq!(listings(&B, &pool), due);
        assert_eq!(pool, left);
    }
    // Of eight frames the newest is shown.
    let table = line(8);
    let mut pool = Pool::start(&table).unwrap();
    assert_eq!(pool.schedule(&table, &[Choice::step(0); 7]).0, 7);
    assert_eq!(listings(&table, &pool), ["0 8 7 0 0 0 0\n"; 2]);
}

/// A main that opens two calls of itself, one in the other.
const TWICE: [u8; 55] = [
    0, 0, 0, 55, 1, 1, 0, 0, 5, 1, 0, 0, 0, 0, 0, 0, 0, 4, 1, 0, 0, 0, 0, 1, 0, 0, 4, 2, 0, 0, 0,
    0, 2, 0, 0, 0, 5, 3, 3, 0, 0, 0, 1, 0, 0, 5, 4, 4, 0, 0, 0, 0, 0, 3, 0,
];

/// A pool of it with six threads: main's newer child with two children, and its older one with one.
fn family() -> Pool {
    let [step, promote] = [Choice::step, Choice::promote];
    let choices = [
        step(0),
        step(0),
        promote(0),
        promote(0),
        step(1),
        step(1),
        promote(1),
        promote(1),
        step(3),
        step(4),
        promote(4),
        step(5),
        step(5),
    ];
    let mut pool = Pool::start(&TWICE).unwrap();
    assert_eq!(pool.schedule(&TWICE, &choices), (13, Ok(())));
    pool
}

/// Binds a temporary of a thread's first frame.
fn bind(pool: &mut Pool, thread: usize, temporary: usize, value: i32) {
    let frame = 4 + 211 * thread;
    pool.as_mut()[frame + 3] |= 1 << temporary;
    pool.as_mut()[frame + 10 + temporary] = value;
}

#[test]
fn listings_of_a_tree() {
    assert_eq!(check(&TWICE), Ok(()));
    let mut pool = family();
    let operator = "\
0 1 0 2 0 2 2
 1 1 0 2 0 2 2
  2 1 0 0 0 0 0
  3 1 0 1 0 1 0
 4 1 0 1 0 1 1
  5 1 0 2 0 2 0
";
    assert_eq!(listings(&TWICE, &pool), [operator; 2]);
    bind(&mut pool, 0, 0, -1);
    for (temporary, value) in [(9, i32::MAX), (10, i32::MIN), (15, 0)] {
        bind(&mut pool, 3, temporary, value);
    }
    let customer = "\
0 1 0 2 0 2 2 0 -1
 1 1 0 2 0 2 2
  2 1 0 0 0 0 0
  3 1 0 1 0 1 0 9 2147483647 10 -2147483648 15 0
 4 1 0 1 0 1 1
  5 1 0 2 0 2 0
";
    assert_eq!(listings(&TWICE, &pool), [operator, customer]);
    // Work and tokens are not listed.
    pool.as_mut()[2..4].copy_from_slice(&[65_534, 2_000_000_000]);
    assert_eq!(listings(&TWICE, &pool), [operator, customer]);
}

/// Pools that agree in all but values, and are pools of the table, are the same to the operator, whatever is lent.
#[test]
fn the_operator_sees_no_values() {
    let [mut one, mut other] = [family(), family()];
    for thread in 0..6 {
        for temporary in [thread, 15] {
            bind(&mut one, thread, temporary, 0);
            bind(&mut other, thread, temporary, i32::MIN);
        }
    }
    assert_ne!(one.customer(&TWICE), other.customer(&TWICE));
    for room in 0..LISTING_BYTES {
        let mut outs = [[9; LISTING_BYTES]; 2];
        let answers = [
            lent::operator(&TWICE, one.words(), &mut outs[0][..room]),
            lent::operator(&TWICE, other.words(), &mut outs[1][..room]),
        ];
        assert_eq!(answers[0], answers[1]);
        assert_eq!(outs[0], outs[1]);
    }
    // The value of a temporary that is not bound is 0, or it is no pool.
    other.as_mut()[4 + 10 + 14] = 1;
    assert_eq!(reason(other.operator(&TWICE)), Reason::Pool);
    assert_eq!(reason(other.customer(&TWICE)), Reason::Pool);
}

type Listing = fn(&[u8], &[i32], &mut [u8]) -> Result<usize, Refusal>;

#[test]
fn outputs_of_listings() {
    let mut pool = family();
    bind(&mut pool, 5, 3, -20);
    let own = listings(&TWICE, &pool);
    assert_eq!(own[1].len(), own[0].len() + " 3 -20".len());
    for (listing, due) in [lent::operator as Listing, lent::customer].iter().zip(&own) {
        let length = due.len();
        for room in [0, 1, length - 1, length, length + 1, LISTING_BYTES] {
            let mut out = [9; LISTING_BYTES];
            let answer = listing(&TWICE, pool.words(), &mut out[..room]);
            let written = if room < length {
                let refused = answer.unwrap_err();
                assert_eq!((refused.reason(), refused.place()), (Reason::Listing, None));
                assert_eq!(
                    refused.to_string(),
                    "the output is shorter than the listing (refusal 28)"
                );
                0
            } else {
                assert_eq!(answer, Ok(length));
                length
            };
            assert_eq!(out[..written], due.as_bytes()[..written]);
            assert!(out[written..].iter().all(|&byte| byte == 9));
        }
        // The table, the number of words and the pool come before it.
        let words = pool.words();
        assert_eq!(reason(listing(&[], words, &mut [])), Reason::Size);
        assert_eq!(reason(listing(&TWICE, &words[1..], &mut [])), Reason::Words);
        assert_eq!(reason(listing(&A, words, &mut [])), Reason::Pool);
        assert_eq!(reason(listing(&TWICE, words, &mut [])), Reason::Listing);
    }
}

#[test]
fn as_many_values_as_main_returns() {
    let two = [
        0, 0, 0, 33, 1, 1, 0, 2, 1, 0, 0, 0, 0, 0, 2, 0, 0, 0, 0, 0, 0, 3, 1, 0, 0, 0, 0, 0, 4, 3,
        2, 0, 1,
    ];
    let mut pool = Pool::start(&two).unwrap();
    let (made, _) = pool.schedule(&two, &[Choice::step(0); 3]);
    assert_eq!(made, 2);
    assert_eq!(*pool.values(&two).unwrap().unwrap(), [3, 4]);
    let none = [0, 0, 0, 17, 1, 1, 0, 0, 1, 0, 0, 0, 0, 0, 0, 3, 0];
    pool.restart(&none).unwrap();
    assert!(pool.values(&none).unwrap().unwrap().is_empty());
}

#[test]
fn words_of_another_number() {
    assert_eq!(reason(lent::start(&A, &mut [])), Reason::Words);
    assert_eq!(
        reason(lent::which(&A, &[0; Pool::WORDS + 1])),
        Reason::Words
    );
    assert_eq!(reason(lent::values(&A, &[], &mut [0; 4])), Reason::Words);
}

#[test]
fn numbers_by_name() {
    let reasons: Vec<u8> = Reason::ALL.iter().map(|r| r.number()).collect();
    assert_eq!(reasons, (1..=29).collect::<Vec<u8>>());
    let rules: Vec<u8> = Rule::ALL.iter().map(|&rule| rule.into()).collect();
    assert_eq!(rules, (1..=10).collect::<Vec<u8>>());
    for &reason in Reason::ALL {
        assert_eq!(Reason::try_from(reason.number()), Ok(reason));
    }
    for &rule in Rule::ALL {
        assert_eq!(Rule::try_from(rule.number()), Ok(rule));
    }
    assert_eq!(Reason::try_from(30), Err(Unknown(30)));
    assert_eq!(Rule::try_from(0), Err(Unknown(0)));
    assert_eq!(Kind::try_from(1), Ok(Kind::Promote));
    assert_eq!(Choice::new(Kind::Promote, 3), Choice { kind: 1, thread: 3 });
}
