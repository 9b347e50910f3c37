//! The library timed beside the fast implementation, in one run: each call at
//! small, middle and full-size tables, a schedule of 1,000,000 choices, and a
//! run of 1,000,000 beats. The output is Markdown.

mod clock;
mod looping;
mod runner;
mod tables;

use clock::{duel, show, Duel};
use fast::POOL_WORDS;
use looping::{Beats, Looping};
use mezdaulk::{lent, Ran, OUTPUT_BYTES, SCRATCH_WORDS};
use oracle::listing::LISTING_BYTES;
use oracle::table::{BRIEF_MAX, TABLE_MAX};
use std::hint::black_box;
use tables::Calls;

const MIDDLE: usize = 2_000;
const CHOICES: usize = 1_000_000;

fn main() {
    println!("| Call | Table | Library | Fast | Ratio of best | Median ratio | Aim |");
    println!("|---|---|---|---|---|---|---|");
    let any = sets(Calls::Any);
    let later = sets(Calls::Later);
    let dense = tables::dense();
    let dense_name = format!("dense, {} bytes", dense[0].len());
    let rows = |call, sets: &Sets, time: fn(&[Vec<u8>]) -> Duel| {
        sets.each_ref()
            .map(|(name, set)| row(call, name, Some(1.2), time(set), 1))
    };
    let reads = rows("read", &any, read);
    let checks = rows("check", &any, check);
    row("check", &dense_name, Some(1.2), check(&dense), 1);
    let depths = rows("depth", &later, depth);
    row("depth", &dense_name, Some(1.2), depth(&dense), 1);
    let tidies = any
        .each_ref()
        .map(|(name, set)| row("tidy", name, None, tidy(set), 1));
    row("tidy", &dense_name, None, tidy(&dense), 1);
    let brief: Sets = [
        ("30 to 60 bytes", tables::small_brief()),
        ("2,000 bytes", tables::sized_brief(MIDDLE)),
        ("12,800 bytes", tables::sized_brief(BRIEF_MAX)),
    ];
    for (name, set) in &brief {
        row("complete", name, None, complete(set), 1);
    }
    for (open, what) in [(false, "chains"), (true, "chains under four calls")] {
        let chain = tables::chain(open);
        let bytes = chain[0].len();
        let name = format!("{what} against the sweeps, 31 and 32 rounds, {bytes} bytes");
        row("complete", &name, None, complete(&chain), 1);
    }
    let small = looping::small(CHOICES);
    let rich = looping::rich(CHOICES);
    let runs: Vec<Looping> = [&small, &rich]
        .into_iter()
        .flat_map(|run| [run.clone(), run.padded(MIDDLE), run.padded(TABLE_MAX)])
        .collect();
    for run in &runs {
        row("single choice", &run.name(), Some(1.3), choose(run), 1);
    }
    each_beats(&runs, "single beat", beat, 1);
    for run in &runs {
        row("which", &run.name(), None, which(run), 1);
    }
    for run in &runs {
        row("values", &run.name(), None, values(run), 1);
    }
    for (call, lists) in [("operator", OPERATOR), ("customer", CUSTOMER)] {
        for (threads, what) in [(1, "1 thread"), (8, "8 threads")] {
            for run in &runs {
                let call = format!("{call}, {what}");
                row(&call, &run.name(), None, listing(run, threads, lists), 1);
            }
        }
    }
    let schedules: Vec<Duel> = runs
        .iter()
        .map(|run| {
            row(
                "schedule, each of 1,000,000",
                &run.name(),
                Some(1.3),
                schedule(run),
                CHOICES,
            )
        })
        .collect();
    each_beats(&runs, "run, each of 1,000,000", run_beats, CHOICES);
    growth([
        ("read", &any, &reads),
        ("check", &any, &checks),
        ("depth", &later, &depths),
        ("tidy", &any, &tidies),
    ]);
    same_program(&runs, &schedules);
    same_choices([&small, &rich]);
    runner::time(&small, CHOICES);
    runner::time(&rich, CHOICES);
}

/// A row for each pace of each run.
fn each_beats(runs: &[Looping], call: &str, time: fn(&Looping, &Beats) -> Duel, parts: usize) {
    for at in 0..runs[0].beats.len() {
        for run in runs {
            let beats = &run.beats[at];
            let call = format!("{call}, {}", beats.name());
            row(&call, &run.name(), None, time(run, beats), parts);
        }
    }
}

/// Tables of three sizes, by name.
type Sets = [(&'static str, Vec<Vec<u8>>); 3];

fn sets(calls: Calls) -> Sets {
    [
        ("30 to 60 bytes", tables::small(calls)),
        ("2,000 bytes", tables::sized(MIDDLE, calls)),
        ("16,384 bytes", tables::sized(TABLE_MAX, calls)),
    ]
}

/// Prints one line of the table; the times are of a `parts`th of a call.
fn row(call: &str, table: &str, aim: Option<f64>, duel: Duel, parts: usize) -> Duel {
    let duel = duel.divided(parts);
    let aim = aim.map_or(String::new(), |aim| {
        let met = if duel.ratio() <= aim { "met" } else { "missed" };
        format!("{aim}: {met}")
    });
    println!(
        "| {call} | {table} | {} | {} | {:.2} | {:.2} | {aim} |",
        show(duel.library),
        show(duel.fast),
        duel.ratio(),
        duel.median,
    );
    duel
}

/// Every table of a set, read by both.
fn read(tables: &[Vec<u8>]) -> Duel {
    each(
        tables,
        |table| mezdaulk::read(table).is_ok(),
        |table| fast::read(table).is_ok(),
    )
}

fn check(tables: &[Vec<u8>]) -> Duel {
    each(
        tables,
        |table| mezdaulk::check(table).is_ok(),
        |table| fast::check(table).is_ok(),
    )
}

fn depth(tables: &[Vec<u8>]) -> Duel {
    for table in tables {
        assert_eq!(mezdaulk::depth(table).ok(), fast::depth(table).ok());
    }
    each(
        tables,
        |table| mezdaulk::depth(table).is_ok(),
        |table| fast::depth(table).is_ok(),
    )
}

/// Into an output with room for any table, which both sides have of their own.
fn tidy(tables: &[Vec<u8>]) -> Duel {
    let (mut left, mut right) = ([0; TABLE_MAX], [0; TABLE_MAX]);
    for table in tables {
        let written = lent::tidy(table, &mut left).ok();
        assert_eq!(written, fast::tidy(table, &mut right).ok());
        assert_eq!(left, right);
    }
    each(
        tables,
        |table| lent::tidy(table, black_box(&mut left)).is_ok(),
        |table| fast::tidy(table, black_box(&mut right)).is_ok(),
    )
}

/// With an output and a scratch that both sides have of their own; the scratch
/// is 0 already.
fn complete(tables: &[Vec<u8>]) -> Duel {
    let (mut left, mut right) = ([0; OUTPUT_BYTES], [0; OUTPUT_BYTES]);
    let mut scratch = [[0; SCRATCH_WORDS]; 2];
    for table in tables {
        let [own, other] = &mut scratch;
        let written = lent::complete(table, &mut left, own).ok();
        assert_eq!(written, fast::complete(table, &mut right, other).ok());
        assert_eq!(left, right);
    }
    let [own, other] = &mut scratch;
    each(
        tables,
        |table| lent::complete(table, black_box(&mut left), black_box(own)).is_ok(),
        |table| fast::complete(table, black_box(&mut right), black_box(other)).is_ok(),
    )
}

/// A call on each table of a set, which must be given; the time is of one.
fn each(
    tables: &[Vec<u8>],
    mut library: impl FnMut(&[u8]) -> bool,
    mut fast: impl FnMut(&[u8]) -> bool,
) -> Duel {
    duel(
        || assert!(tables.iter().all(|table| library(black_box(table)))),
        || assert!(tables.iter().all(|table| fast(black_box(table)))),
    )
    .divided(tables.len())
}

/// How many choices of a run are put one by one.
const SINGLE: usize = 200;

/// The first choices of a run, put one by one.
fn choose(run: &Looping) -> Duel {
    let start = run.start();
    let (mut left, mut right) = (start.clone(), start.clone());
    let duel = duel(
        || {
            left.copy_from_slice(&start);
            for choice in &run.choices[..SINGLE] {
                let made = lent::choose(&run.table, &mut left, *choice);
                assert!(made.is_ok());
            }
        },
        || {
            right.copy_from_slice(&start);
            for choice in &run.choices[..SINGLE] {
                let made = fast::choose(&run.table, &mut right, choice.kind, choice.thread);
                assert!(made.is_ok());
            }
        },
    )
    .divided(SINGLE);
    assert_eq!(left, right);
    duel
}

/// The first beats of a run, put one by one.
fn beat(run: &Looping, beats: &Beats) -> Duel {
    let start = run.start();
    let (mut left, mut right) = (start.clone(), start.clone());
    let duel = duel(
        || {
            left.copy_from_slice(&start);
            for &thread in &beats.threads[..SINGLE] {
                let made = lent::beat(&run.table, &mut left, beats.lent(), thread);
                assert!(made.is_ok());
            }
        },
        || {
            right.copy_from_slice(&start);
            for &thread in &beats.threads[..SINGLE] {
                let made = fast::beat(&run.table, &mut right, beats.pace, thread);
                assert!(made.is_ok());
            }
        },
    )
    .divided(SINGLE);
    assert_eq!(left, right);
    duel
}

/// Asked of pools along a run, of which both sides name the same threads.
fn which(run: &Looping) -> Duel {
    let pools = run.pools();
    for pool in &pools {
        let first = lent::which(&run.table, pool).expect("a thread or none");
        let other = fast::which(&run.table, pool).expect("a thread or none");
        assert_eq!(first.map(|thread| thread as usize), other);
    }
    duel(
        || {
            for pool in &pools {
                assert!(lent::which(&run.table, black_box(pool)).is_ok());
            }
        },
        || {
            for pool in &pools {
                assert!(fast::which(&run.table, black_box(pool)).is_ok());
            }
        },
    )
    .divided(pools.len())
}

fn values(run: &Looping) -> Duel {
    let pools = run.pools();
    let mut room = [0; 4];
    let mut other = [0; 4];
    duel(
        || {
            for pool in &pools {
                let open = lent::values(&run.table, black_box(pool), &mut room);
                assert_eq!(open, Ok(None));
            }
        },
        || {
            for pool in &pools {
                let open = fast::values(&run.table, black_box(pool), &mut other);
                assert_eq!(open, Ok(None));
            }
        },
    )
    .divided(pools.len())
}

/// The calls that list a pool: the library's and the fast one's.
type Lists = (
    fn(&[u8], &[i32], &mut [u8]) -> Result<usize, mezdaulk::Refusal>,
    fn(&[u8], &[i32], &mut [u8]) -> Result<usize, fast::Refusal>,
);
const OPERATOR: Lists = (lent::operator, fast::operator);
const CUSTOMER: Lists = (lent::customer, fast::customer);

/// Any pools of so many threads, listed into an output with room for every
/// listing, which both sides have of their own.
fn listing(run: &Looping, threads: usize, (library, fast): Lists) -> Duel {
    let pools = run.pools_of(threads);
    let (mut left, mut right) = ([0; LISTING_BYTES], [0; LISTING_BYTES]);
    for pool in &pools {
        let written = library(&run.table, pool, &mut left).ok();
        assert_eq!(written, fast(&run.table, pool, &mut right).ok());
        assert_eq!(left, right);
    }
    duel(
        || {
            for pool in &pools {
                assert!(library(&run.table, black_box(pool), black_box(&mut left)).is_ok());
            }
        },
        || {
            for pool in &pools {
                assert!(fast(&run.table, black_box(pool), black_box(&mut right)).is_ok());
            }
        },
    )
    .divided(pools.len())
}

/// All choices of a run, as one schedule.
fn schedule(run: &Looping) -> Duel {
    let start = run.start();
    let count = run.choices.len();
    let fast_choices = run.fast_choices();
    let (mut left, mut right) = (start.clone(), start.clone());
    let duel = duel(
        || {
            left.copy_from_slice(&start);
            let made = lent::schedule(&run.table, &mut left, &run.choices);
            assert_eq!(made, (count, Ok(())));
        },
        || {
            right.copy_from_slice(&start);
            let made = fast::schedule(&run.table, &mut right, &fast_choices);
            assert_eq!(made, (count as u64, Ok(())));
        },
    );
    assert_eq!(left, right);
    assert_eq!(left.len(), POOL_WORDS);
    duel
}

/// All beats of a run, at once.
fn run_beats(run: &Looping, beats: &Beats) -> Duel {
    let start = run.start();
    let (steps, promotions) = (beats.threads.len() as u64, beats.promotions() as u64);
    let (mut left, mut right) = (start.clone(), start.clone());
    let duel = duel(
        || {
            left.copy_from_slice(&start);
            let made = lent::run(&run.table, &mut left, beats.lent(), &beats.threads);
            assert_eq!(made, (Ran { steps, promotions }, Ok(())));
        },
        || {
            right.copy_from_slice(&start);
            let made = fast::run(&run.table, &mut right, beats.pace, &beats.threads);
            assert_eq!(made, (fast::Ran { steps, promotions }, Ok(())));
        },
    );
    assert_eq!(left, right);
    duel
}

/// A run of the library beside its own schedule of the same steps and
/// promotions.
fn same_choices(runs: [&Looping; 2]) {
    println!("\n| Beats | Promotions | run, each beat | the same as a schedule | Ratio of best | Median ratio |");
    println!("|---|---|---|---|---|---|");
    for run in runs {
        let start = run.start();
        for beats in &run.beats {
            let (mut left, mut right) = (start.clone(), start.clone());
            let duel = duel(
                || {
                    left.copy_from_slice(&start);
                    let (_, made) = lent::run(&run.table, &mut left, beats.lent(), &beats.threads);
                    assert_eq!(made, Ok(()));
                },
                || {
                    right.copy_from_slice(&start);
                    let (_, made) = lent::schedule(&run.table, &mut right, &beats.choices);
                    assert_eq!(made, Ok(()));
                },
            );
            let each = duel.divided(beats.threads.len());
            println!(
                "| {}, {} | {} | {} | {} | {:.2} | {:.2} |",
                run.name(),
                beats.name(),
                beats.promotions(),
                show(each.library),
                show(each.fast),
                each.ratio(),
                each.median,
            );
        }
    }
}

/// How the library's times of the calls on a table alone grow with the table.
fn growth(calls: [(&str, &Sets, &[Duel; 3]); 4]) {
    let heads = calls.map(|(call, ..)| format!("{call}, each byte"));
    println!("\n| Table | {} |", heads.join(" | "));
    println!("|---|---|---|---|---|");
    for size in 0..3 {
        let each = calls.map(|(_, sets, duels)| {
            let (_, set) = &sets[size];
            let bytes: usize = set.iter().map(Vec::len).sum();
            show(duels[size].library * set.len() as f64 / bytes as f64)
        });
        println!("| {} | {} |", calls[0].1[size].0, each.join(" | "));
    }
}

/// That a choice of a schedule takes the same in a larger table.
fn same_program(runs: &[Looping], schedules: &[Duel]) {
    println!("\n| The same program in a table of | schedule, each of 1,000,000 |");
    println!("|---|---|");
    for (run, schedule) in runs.iter().zip(schedules) {
        println!("| {} | {} |", run.name(), show(schedule.library));
    }
}
