//! Paces, and lists of threads for beats.

use crate::beats::{beat, Pace, MAX_C, MAX_N};
use crate::gen::schedules::{odd_number, overflowing};
use crate::pool::Pool;
use crate::rng::Rng;
use crate::rules::steppable;
use crate::table::Program;

/// A pace within range, small ones often.
pub fn pace(rng: &mut Rng) -> Pace {
    let n = rng.between(1, MAX_N as usize) as u64;
    let c = rng.between(1, MAX_C as usize) as u64;
    Pace {
        n: rng.one_of([1, 1, 2, 2, 3, 5, 10, 20, 100, MAX_N - 1, MAX_N, n]),
        c: rng.one_of([1, 1, 1, 2, 2, 3, 5, 16, 64, MAX_C - 1, MAX_C, c]),
    }
}

/// A pace by which runs promote: N small, and C any.
pub fn quick_pace(rng: &mut Rng) -> Pace {
    Pace {
        n: rng.one_of([1, 1, 2, 3, 5, 8, 20, 60]),
        ..pace(rng)
    }
}

/// A pace with N, C or both out of range, up to 64 bits wide.
pub fn no_pace(rng: &mut Rng) -> Pace {
    let wide = |rng: &mut Rng| rng.one_of([1 << 31, u64::from(u32::MAX), 1 << 32, (1 << 32) + 1]);
    let (any_n, any_c) = (rng.bits() | (MAX_N + 1), rng.bits() | (MAX_C + 1));
    let (wide_n, wide_c) = (wide(rng), wide(rng));
    let n = rng.one_of([0, 0, MAX_N + 1, MAX_N + 1, wide_n, u64::MAX, any_n]);
    let c = rng.one_of([0, 0, MAX_C + 1, MAX_C + 1, wide_c, u64::MAX, any_c]);
    let right = pace(rng);
    match rng.below(5) {
        0 | 1 => Pace { n, ..right },
        2 | 3 => Pace { c, ..right },
        _ => Pace { n, c },
    }
}

/// What paces are like, by name.
pub const PACES: [&str; 14] = [
    "N 1",
    "N 2",
    "N 65534",
    "N 65535",
    "C 1",
    "C 2",
    "C 255",
    "N 0, and 27",
    "N 65536, and 27",
    "N of 32 bits, and 27",
    "C 0, and 27",
    "C 256, and 27",
    "C of 32 bits, and 27",
    "N and C out of range, and 27",
];

/// What a pace is like.
pub fn paces(pace: Pace) -> Vec<&'static str> {
    let Pace { n, c } = pace;
    let wide = |number: u64| number > u64::from(u32::MAX >> 1);
    let fits = pace.fits();
    let (few, many) = ((1..=MAX_N).contains(&n), (1..=MAX_C).contains(&c));
    let holds = [
        fits && n == 1,
        fits && n == 2,
        fits && n == MAX_N - 1,
        fits && n == MAX_N,
        fits && c == 1,
        fits && c == 2,
        fits && c == MAX_C,
        many && n == 0,
        many && n == MAX_N + 1,
        many && wide(n),
        few && c == 0,
        few && c == MAX_C + 1,
        few && wide(c),
        !few && !many,
    ];
    let held = PACES.into_iter().zip(holds);
    held.filter_map(|(event, held)| held.then_some(event))
        .collect()
}

/// A thread chosen without looking at a pool.
pub fn blind_thread(rng: &mut Rng) -> u64 {
    match rng.below(12) {
        0 => odd_number(rng),
        1..=5 => 0,
        _ => rng.below(8) as u64,
    }
}

/// A thread that can mostly step: one of the first, one of the last, or any.
pub fn guided_thread(rng: &mut Rng, program: &Program, pool: &Pool, blind: usize) -> u64 {
    let threads = steppable(program, pool);
    if threads.is_empty() || rng.chance(blind) {
        return blind_thread(rng);
    }
    let any = rng.below(threads.len());
    let last = threads.len() - 1;
    threads[rng.one_of([0, last, any, any])] as u64
}

/// The threads of a guided run from a pool, most of whose beats are made; the
/// refused ones are left out, but for the last if `refused`, often one that
/// overflows.
pub fn guided_run(
    rng: &mut Rng,
    program: &Program,
    start: &Pool,
    pace: Pace,
    length: usize,
    refused: bool,
) -> Vec<u64> {
    let mut pool = start.clone();
    let mut threads = Vec::new();
    for _ in 0..length {
        let thread = guided_thread(rng, program, &pool, 0);
        if beat(program, &mut pool, pace, thread).is_ok() {
            threads.push(thread);
        } else if steppable(program, &pool).is_empty() {
            break;
        }
    }
    if refused {
        let over = overflowing(rng, program, &pool).filter(|_| rng.chance(60));
        threads.push(over.unwrap_or_else(|| blind_thread(rng)));
    }
    threads
}
