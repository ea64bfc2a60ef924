//! Times of two things that are done in turn.

/// Seconds, one for each round.
pub struct Times(Vec<f64>);

impl Times {
    pub fn best(&self) -> f64 {
        self.sorted()[0]
    }

    pub fn worst(&self) -> f64 {
        self.sorted()[self.0.len() - 1]
    }

    pub fn median(&self) -> f64 {
        self.sorted()[self.0.len() / 2]
    }

    /// Round by round, how many times as long as the other.
    pub fn ratios(&self, other: &Times) -> Times {
        Times(self.0.iter().zip(&other.0).map(|(this, that)| this / that).collect())
    }

    fn sorted(&self) -> Vec<f64> {
        let mut sorted = self.0.clone();
        sorted.sort_by(f64::total_cmp);
        sorted
    }
}

/// Does both in each round, the first one first in every other round. Each
/// says whether its answer was right.
pub fn interleaved(
    rounds: usize,
    mut first: impl FnMut() -> bool,
    mut second: impl FnMut() -> bool,
) -> [Times; 2] {
    let mut times = [Vec::new(), Vec::new()];
    for round in 0..rounds {
        for turn in [round % 2, 1 - round % 2] {
            let start = now();
            let right = if turn == 0 { first() } else { second() };
            times[turn].push(now() - start);
            assert!(right, "another answer than before");
        }
    }
    times.map(Times)
}

/// As C has it on 64-bit Linux.
#[repr(C)]
#[derive(Default)]
struct Time {
    seconds: i64,
    nanoseconds: i64,
}

extern "C" {
    fn clock_gettime(clock: i32, time: *mut Time) -> i32;
}

/// The clock that goes only while this thread runs, so that other work on the
/// machine counts less.
const THREAD_CLOCK: i32 = 3;

fn now() -> f64 {
    let mut time = Time::default();
    // SAFETY: the pointer is that of a `Time`.
    let failed = unsafe { clock_gettime(THREAD_CLOCK, &mut time) };
    assert_eq!(failed, 0);
    time.seconds as f64 + time.nanoseconds as f64 * 1e-9
}
