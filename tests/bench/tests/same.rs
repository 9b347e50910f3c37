//! The fast implementation gives the second implementation's answers.

use fast::Fast;
use oracle::encode::encode;
use oracle::full;
use oracle::gen::beats::{guided_run, quick_pace};
use oracle::gen::{brief, calls, faults, loops, pools, programs, scenario, twins};
use oracle::longest;
use oracle::machine::{
    complete_differs, differences, listings_differ, tables_differ, Machine, Oracle,
};
use oracle::pool::Pool;
use oracle::rng::Rng;
use oracle::rules::{steppable, STEP};
use oracle::stored::{brief_rows, frame_starts, tidy_rows};
use oracle::{watch, which, POOL_WORDS};
use std::collections::BTreeSet;

#[test]
fn same_answers() {
    for round in 0..4_000 {
        let input = scenario(&mut Rng::of_round(7, round));
        let found = differences(&Fast, &input);
        assert!(found.is_empty(), "round {round}: {found:?}");
    }
}

/// Tables rich in calls, as they are and with a fault.
#[test]
fn same_depths() {
    for round in 0..4_000 {
        let rng = &mut Rng::of_round(8, round);
        let mut program = calls::calling(rng).program;
        let found = tables_differ(&Fast, &encode(&program));
        assert!(found.is_empty(), "round {round}: {found:?}");
        faults::plant_any(rng, &mut program);
        let found = tables_differ(&Fast, &encode(&program));
        assert!(found.is_empty(), "round {round}, with a fault: {found:?}");
    }
}

/// Tables with much dead code, and the stored ones with their tidy tables.
#[test]
fn same_tidy_tables() {
    for row in tidy_rows() {
        let found = tables_differ(&Fast, &row.table);
        assert!(found.is_empty(), "{}: {found:?}", row.name);
        let mut out = vec![0; row.tidy.len()];
        assert_eq!(fast::tidy(&row.table, &mut out), Ok(out.len()));
        assert_eq!(out, row.tidy, "{}", row.name);
    }
    for round in 0..4_000 {
        let rng = &mut Rng::of_round(9, round);
        let program = programs::accepted(rng);
        let found = tables_differ(&Fast, &encode(&twins::twin(rng, &program)));
        assert!(found.is_empty(), "round {round}: {found:?}");
    }
}

/// Tables of version 2 of every kind, and the stored ones with their answers.
#[test]
fn same_completions() {
    for row in brief_rows() {
        let found = tables_differ(&Fast, &row.table);
        assert!(found.is_empty(), "{}: {found:?}", row.name);
        let (mut out, mut scratch) = (vec![1; 16_384], vec![1; 1_024]);
        let given = Fast.complete(&row.table, &mut out, &mut scratch);
        let given = given.map(|length| out[..length].to_vec());
        assert_eq!(given, row.completed, "{}", row.name);
    }
    for round in 0..20_000 {
        let input = brief::brief(&mut Rng::of_round(10, round));
        let found = complete_differs(&Fast, &input.table);
        assert!(found.is_none(), "round {round}: {found:?}");
    }
}

/// Long runs from fresh pools, at once and beat by beat, of tables that loop.
#[test]
fn same_runs() {
    let mut promotions = 0;
    for round in 0..500 {
        let rng = &mut Rng::of_round(11, round);
        let (program, start) = (loops::looping(rng), Pool::start());
        let (table, fresh) = (encode(&program), start.to_words());
        let pace = quick_pace(rng);
        let mut threads = guided_run(rng, &program, &start, pace, 1_000, true);
        let widest = Fast.widest();
        threads
            .iter_mut()
            .for_each(|thread| *thread = (*thread).min(widest));
        let (mut left, mut right) = (fresh.clone(), fresh.clone());
        let (mut made, mut due) = ([9, 9], [9, 9]);
        let answer = Fast.run(&table, &mut left, pace, &threads, &mut made);
        let right_answer = Oracle.run(&table, &mut right, pace, &threads, &mut due);
        assert_eq!((answer, made), (right_answer, due), "round {round}");
        assert_eq!(left, right, "round {round}");
        let mut single = fresh;
        for &thread in &threads[..made[0] as usize] {
            assert!(Fast.beat(&table, &mut single, pace, thread).is_ok());
        }
        assert_eq!(single, right, "round {round}, beat by beat");
        promotions += made[1];
    }
    assert!(promotions > 5_000, "{promotions} promotions");
}

/// Of lent pools, and of pools along runs, the first thread that can step; and steps by the first.
#[test]
fn same_first_threads() {
    for round in 0..4_000 {
        let input = scenario(&mut Rng::of_round(12, round));
        let due = which(&input.table, &input.words);
        let given = Fast.can_step(&input.table, &input.words);
        assert_eq!(given, due, "round {round}");
    }
    let (mut named, mut several) = ([0; 8], 0);
    for round in 0..500 {
        let rng = &mut Rng::of_round(13, round);
        let (program, start) = (loops::looping(rng), Pool::start());
        let (table, mut words) = (encode(&program), start.to_words());
        let pace = quick_pace(rng);
        for thread in guided_run(rng, &program, &start, pace, 100, true) {
            let thread = thread.min(Fast.widest());
            let _ = Fast.beat(&table, &mut words, pace, thread);
            let first = Fast.can_step(&table, &words);
            assert_eq!(first, which(&table, &words), "round {round}");
            if let Ok(Some(thread)) = first {
                named[thread] += 1;
                let pool = Pool::from_words(&program, &words).expect("a pool");
                several += usize::from(steppable(&program, &pool).len() > 1);
            }
        }
        let mut other = words.clone();
        for _ in 0..100 {
            let Ok(Some(thread)) = Fast.can_step(&table, &words) else {
                break;
            };
            let rule = Fast.choose(&table, &mut words, STEP, thread as u64);
            let due = Oracle.choose(&table, &mut other, STEP, thread as u64);
            assert!(rule.is_ok(), "round {round}: {rule:?}");
            assert_eq!((rule, &words), (due, &other), "round {round}");
            let first = Fast.can_step(&table, &words);
            assert_eq!(first, which(&table, &other), "round {round}");
        }
    }
    assert!(
        named.iter().all(|&count| count > 100),
        "{named:?} are named"
    );
    assert!(
        several > 10_000,
        "{several} pools in which several can step"
    );
}

/// Of pools in which a sum or a negation is at the limit, every step, every beat
/// and the first thread that can step; and everything that can be at the limit
/// occurs.
#[test]
fn same_overflows() {
    let (mut seen, mut numbers) = (BTreeSet::new(), BTreeSet::new());
    for round in 0..8_000 {
        let rng = &mut Rng::of_round(15, round);
        let program = match round % 3 {
            0 => programs::accepted(rng),
            1 => loops::looping(rng),
            _ => programs::loose(rng),
        };
        let Some(pool) = pools::limited(rng, &program) else {
            continue;
        };
        let (table, words) = (encode(&program), pool.to_words());
        let first = Fast.can_step(&table, &words);
        assert_eq!(first, which(&table, &words), "round {round}");
        let pace = quick_pace(rng);
        for (number, thread) in pool.threads().into_iter().enumerate() {
            seen.extend(watch::limits(&program, number, thread));
            let number = number as u64;
            let (mut left, mut right) = (words.clone(), words.clone());
            let answer = Fast.choose(&table, &mut left, STEP, number);
            let due = Oracle.choose(&table, &mut right, STEP, number);
            assert_eq!((answer, &left), (due, &right), "round {round}");
            numbers.extend(answer.err().map(|refusal| refusal.number));
            let (mut left, mut right) = (words.clone(), words.clone());
            let answer = Fast.beat(&table, &mut left, pace, number);
            let due = Oracle.beat(&table, &mut right, pace, number);
            assert_eq!((answer, &left), (due, &right), "round {round}");
        }
    }
    assert_eq!(seen, watch::LIMITS.into());
    assert!(numbers.contains(&29) && numbers.contains(&19));
}

/// Of pools of every kind, and of the one with the longest listings, both
/// listings, in outputs around their lengths; and everything that they can show
/// occurs.
#[test]
fn same_listings() {
    let (table, words) = (encode(&longest::program()), longest::pool().to_words());
    let found = listings_differ(&Fast, &table, &words);
    assert!(found.is_empty(), "{found:?}");
    let mut seen: BTreeSet<&str> = watch::listed(&longest::pool()).into_iter().collect();
    for round in 0..4_000 {
        let rng = &mut Rng::of_round(14, round);
        let program = match round % 2 {
            0 => programs::accepted(rng),
            _ => programs::loose(rng),
        };
        let mut pool = match round % 3 {
            0 => pools::reached(rng, &program, 40),
            _ => pools::loose(rng, &program),
        };
        pools::fill_purses(rng, &mut pool);
        let found = listings_differ(&Fast, &encode(&program), &pool.to_words());
        assert!(found.is_empty(), "round {round}: {found:?}");
        seen.extend(watch::listed(&pool));
    }
    assert_eq!(seen, watch::LISTED.into());
}

/// A full pool, whose frames stand at the stored starts.
#[test]
fn same_frame_starts() {
    let (table, choices) = (encode(&full::program()), full::choices());
    let (mut words, mut made) = (vec![-1; POOL_WORDS], 0);
    assert_eq!(Fast.start(&table, &mut words), Ok(()));
    let answer = Fast.schedule(&table, &mut words, &choices, &mut made);
    assert_eq!((answer, made), (Ok(()), choices.len() as u64));
    assert_eq!(words, full::words(&frame_starts()));
}
