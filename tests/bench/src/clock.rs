//! Two sides timed in turn.

/// The best time of each side in nanoseconds, and the median of the ratios of
/// neighbouring runs.
#[derive(Clone, Copy)]
pub struct Duel {
    pub library: f64,
    pub fast: f64,
    pub median: f64,
}

impl Duel {
    /// The ratio of the best times.
    pub fn ratio(&self) -> f64 {
        self.library / self.fast
    }

    /// The times of a part.
    pub fn divided(self, parts: usize) -> Duel {
        Duel {
            library: self.library / parts as f64,
            fast: self.fast / parts as f64,
            median: self.median,
        }
    }
}

/// Nanoseconds that a batch takes at least, and that all batches take about.
const BATCH: f64 = 1e6;
const ALL: f64 = 1.5e9;
const LEAST: usize = 9;
const MOST: usize = 1001;

/// Times both sides in turn, many times; the side that begins changes.
pub fn duel(mut library: impl FnMut(), mut fast: impl FnMut()) -> Duel {
    let both = time(1, &mut library) + time(1, &mut fast);
    let batch = (BATCH / both).ceil();
    let repetitions = ((ALL / (batch * both)) as usize).clamp(LEAST, MOST);
    let batch = batch as usize;
    let mut best = (f64::MAX, f64::MAX);
    let mut ratios = Vec::new();
    for repetition in 0..repetitions {
        let (of_library, of_fast) = if repetition % 2 == 0 {
            let of_library = time(batch, &mut library);
            (of_library, time(batch, &mut fast))
        } else {
            let of_fast = time(batch, &mut fast);
            (time(batch, &mut library), of_fast)
        };
        best = (best.0.min(of_library), best.1.min(of_fast));
        ratios.push(of_library / of_fast);
    }
    ratios.sort_by(f64::total_cmp);
    Duel {
        library: best.0,
        fast: best.1,
        median: ratios[ratios.len() / 2],
    }
}

/// The nanoseconds of one of `batch` runs.
fn time(batch: usize, side: &mut impl FnMut()) -> f64 {
    let begin = own_time();
    for _ in 0..batch {
        side();
    }
    (own_time() - begin) as f64 / batch as f64
}

#[repr(C)]
struct Time {
    seconds: i64,
    nanoseconds: i64,
}

extern "C" {
    fn clock_gettime(clock: i32, time: *mut Time) -> i32;
}

/// The clock of a thread's own time on Linux: other work does not count.
const OWN: i32 = 3;

fn own_time() -> i64 {
    let mut time = Time {
        seconds: 0,
        nanoseconds: 0,
    };
    // Safety: one time is lent for writing.
    assert_eq!(unsafe { clock_gettime(OWN, &mut time) }, 0);
    1_000_000_000 * time.seconds + time.nanoseconds
}

/// A time with three digits or so.
pub fn show(nanoseconds: f64) -> String {
    match nanoseconds {
        n if n < 10.0 => format!("{n:.2} ns"),
        n if n < 100.0 => format!("{n:.1} ns"),
        n if n < 1_000.0 => format!("{n:.0} ns"),
        n if n < 10_000.0 => format!("{:.2} µs", n / 1e3),
        n if n < 1_000_000.0 => format!("{:.1} µs", n / 1e3),
        n => format!("{:.1} ms", n / 1e6),
    }
}
