//! Times a mix on one side: as a whole on one pool, and by kind of call on several pools in step.

use crate::mixes::{Mix, Step, KINDS};
use crate::sides::Side;
use std::hint::black_box;
use std::time::Instant;

/// Bytes of memories that the pools in step may have together: less than a first-level cache.
const IN_STEP_BYTES: usize = 16 * 1024;

/// Nanoseconds of what ran.
pub fn nanoseconds(run: impl FnOnce()) -> f64 {
    let start = Instant::now();
    run();
    start.elapsed().as_nanos() as f64
}

/// What an empty timing takes: the least of many.
pub fn clock_cost() -> f64 {
    (0..10_000).map(|_| nanoseconds(|| ())).fold(f64::MAX, f64::min)
}

/// Nanoseconds per call of a mix, on one new pool.
#[inline(never)]
pub fn whole<S: Side>(mix: &Mix) -> f64 {
    let mut side = S::new(mix.capacity, mix.overflow);
    let time = nanoseconds(|| mix.steps.iter().for_each(|step| step.run(&mut side)));
    assert!(!side.refused(), "no call is refused");
    time / mix.steps.len() as f64
}

/// Nanoseconds per call of each kind: a step is done on all pools before the next one, and the clock
/// is read between steps.
#[inline(never)]
pub fn by_kind<S: Side>(mix: &Mix, clock_cost: f64) -> [f64; KINDS.len()] {
    let count = (IN_STEP_BYTES / (mix.capacity + mix.overflow)).clamp(4, 32);
    let mut sides: Vec<S> = (0..count).map(|_| S::new(mix.capacity, mix.overflow)).collect();
    let mut times = [0.0; KINDS.len()];
    let mut calls = [0; KINDS.len()];
    for step in &mix.steps {
        times[step.kind()] += nanoseconds(|| in_step(&mut sides, step)) - clock_cost;
        calls[step.kind()] += count;
    }
    assert!(sides.iter().all(|side| !side.refused()), "no call is refused");
    std::array::from_fn(|kind| times[kind] / calls[kind] as f64)
}

/// One step on all pools.
fn in_step<S: Side>(sides: &mut [S], step: &Step) {
    match *step {
        Step::Reserve(len) => sides.iter_mut().for_each(|side| side.reserve(len)),
        Step::Commit(n) => sides.iter_mut().for_each(|side| side.commit(n)),
        Step::Truncate(n) => sides.iter_mut().for_each(|side| side.truncate(n)),
        Step::Take(kept) => sides.iter_mut().for_each(|side| side.take(kept)),
        Step::Release(kept) => sides.iter_mut().for_each(|side| side.release(kept)),
    }
}

/// Nanoseconds per look at the frame, with so many slices held.
#[inline(never)]
pub fn frame<S: Side>(held: usize) -> f64 {
    const LOOKS: usize = 10_000;
    let mut side = S::new(1024, 1024);
    for kept in 0..held {
        side.reserve(32);
        side.commit(32);
        side.take(kept);
    }
    let time = nanoseconds(|| {
        for _ in 0..LOOKS {
            black_box(black_box(&mut side).frame());
        }
    });
    assert!(!side.refused(), "no call is refused");
    time / LOOKS as f64
}

/// Least and median.
pub fn summary(mut times: Vec<f64>) -> (f64, f64) {
    times.sort_by(f64::total_cmp);
    (times[0], times[times.len() / 2])
}
