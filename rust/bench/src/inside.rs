//! The same rounds of four calls on three sides: the Rust, the port across the C interface, and the
//! port driven from inside Rattle (crates/pool_bench), where no record crosses.

use crate::sides::{Port, Rust, Side};
use crate::timing::{nanoseconds, summary};

/// Rounds in one timing, and the bytes of a frame.
const ROUNDS: usize = 20_000;
const FRAME: usize = 16;

extern "C" {
    /// So many rounds on a new pool, by caller 0; gives how many serials it was given.
    fn pool_bench_rounds(
        pool: *mut u8,
        pool_len: usize,
        overflow: *mut u8,
        overflow_len: usize,
        destination: *mut u8,
        destination_len: usize,
        len: u64,
        rounds: u64,
    ) -> u32;
}

/// Nanoseconds per call: reserve and commit a frame, take it, release the slice.
#[inline(never)]
fn rounds<S: Side>(capacity: usize) -> f64 {
    let mut side = S::new(capacity, 64);
    let time = nanoseconds(|| {
        for _ in 0..ROUNDS {
            side.reserve(FRAME);
            side.commit(FRAME);
            side.take(0);
            side.release(0);
        }
    });
    assert!(!side.refused(), "no call is refused");
    time / (4 * ROUNDS) as f64
}

/// The same inside Rattle.
#[inline(never)]
fn rounds_inside(capacity: usize) -> f64 {
    let (mut pool, mut overflow, mut destination) = (vec![0; capacity], [0; 64], [0; 64]);
    let mut given = 0;
    let time = nanoseconds(|| {
        // SAFETY: three memories that lie apart, with their lengths.
        given = unsafe {
            pool_bench_rounds(
                pool.as_mut_ptr(),
                pool.len(),
                overflow.as_mut_ptr(),
                overflow.len(),
                destination.as_mut_ptr(),
                destination.len(),
                FRAME as u64,
                ROUNDS as u64,
            )
        };
    });
    assert_eq!(given as usize, ROUNDS, "every round took a slice");
    time / (4 * ROUNDS) as f64
}

/// The three sides in turn.
pub fn print(turns: usize) {
    println!("\n| rounds of reserve, commit, take, release | ns a call | ratio |");
    println!("|---|---|---|");
    let mut times = [Vec::new(), Vec::new(), Vec::new()];
    for _ in 0..turns {
        times[0].push(rounds::<Rust>(256));
        times[1].push(rounds_inside(256));
        times[2].push(rounds::<Port<8>>(256));
    }
    let [rust, inside, across] = times.map(|times| summary(times).0);
    println!("| the Rust | {rust:.1} | 1 |");
    println!("| the port inside Rattle | {inside:.1} | {:.2} |", inside / rust);
    println!("| the port across the C interface | {across:.1} | {:.2} |", across / rust);
}
