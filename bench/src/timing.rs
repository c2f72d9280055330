//! Times works side by side: the best of several runs, one run of each in turn.

use std::cell::RefCell;
use std::hint::black_box;
use std::time::{Duration, Instant};

/// How many runs of each work.
pub const RUNS: usize = 25;

/// The shortest run; a shorter work is repeated.
pub const SHORTEST: Duration = Duration::from_millis(5);

/// A work done so many times.
pub type Work<'a> = Box<dyn FnMut(u64) + 'a>;

/// A work that reads. Its answer is used where the call put it: to move it would be timed too.
pub fn reading<'a, T>(mut once: impl FnMut() -> T + 'a) -> Work<'a> {
    Box::new(move |repeats| {
        for _ in 0..repeats {
            black_box(&once());
        }
    })
}

/// A work that writes into a buffer, which the works of one measurement share.
pub fn writing<'a, N, T>(
    buffer: &'a RefCell<Vec<N>>,
    mut once: impl FnMut(&mut [N]) -> T + 'a,
) -> Work<'a> {
    Box::new(move |repeats| {
        let mut buffer = buffer.borrow_mut();
        for _ in 0..repeats {
            black_box(&once(black_box(&mut buffer)));
        }
    })
}

/// The time of so many repeats.
fn run(work: &mut Work, repeats: u64) -> Duration {
    let start = Instant::now();
    work(repeats);
    start.elapsed()
}

/// How often a work is repeated so that a run is not too short.
fn repeats(work: &mut Work) -> u64 {
    let mut repeats = 1;
    while run(work, repeats) < SHORTEST {
        repeats *= 2;
    }
    repeats
}

/// Nanoseconds per item of each work, which handles so many items.
pub fn best<const N: usize>(items: usize, mut works: [Work; N]) -> [f64; N] {
    let repeats = works.each_mut().map(repeats);
    let mut best = [Duration::MAX; N];
    for index in 0..RUNS * N {
        // Each round starts with another work.
        let work = (index + index / N) % N;
        best[work] = best[work].min(run(&mut works[work], repeats[work]));
    }
    std::array::from_fn(|work| best[work].as_nanos() as f64 / (repeats[work] as f64 * items as f64))
}
