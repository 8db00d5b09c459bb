//! How much stack the calls of a mix take: the memory below a call is painted before it and read after it.

use crate::mixes::{Mix, KINDS};
use crate::sides::Side;
use std::hint::black_box;
use std::mem::size_of;
use std::ptr::{read_volatile, write_volatile};

/// The bytes below a frame that are painted, in words, and the paint.
const PAINTED: usize = 32 * 1024;
const WORD: usize = size_of::<usize>();
const PAINT: usize = 0xa5a5_a5a5;

/// What the frame that measures may itself use below its first variable.
const OWN: usize = 128;

/// The stack of the thread that measures.
const THREAD: usize = 16 * PAINTED;

/// The greatest stack that a call of each kind takes in the mixes, and a look at the frame.
pub fn greatest<S: Side>(mixes: &[Mix]) -> [usize; KINDS.len() + 1] {
    std::thread::scope(|scope| {
        let thread = std::thread::Builder::new().stack_size(THREAD);
        let measured = thread.spawn_scoped(scope, || greatest_here::<S>(mixes)).expect("a thread");
        measured.join().expect("every call is measured")
    })
}

/// The same, on this thread's stack.
fn greatest_here<S: Side>(mixes: &[Mix]) -> [usize; KINDS.len() + 1] {
    let mut most = [0; KINDS.len() + 1];
    for mix in mixes {
        let mut side = S::new(mix.capacity, mix.overflow);
        for step in &mix.steps {
            let depth = taken(|| step.run(&mut side));
            most[step.kind()] = depth.max(most[step.kind()]);
        }
        let depth = taken(|| _ = black_box(side.frame()));
        most[KINDS.len()] = depth.max(most[KINDS.len()]);
        assert!(!side.refused(), "no call is refused");
    }
    most
}

/// The stack that a call takes, from this frame down to the lowest word that it writes.
#[inline(never)]
fn taken(call: impl FnOnce()) -> usize {
    let here = 0usize;
    let first = black_box(&raw const here) as usize;
    let words = || (first - OWN - PAINTED..first - OWN).step_by(WORD);
    // SAFETY: the thread's stack is mapped that far down, and nothing uses it below this frame but the call:
    // in a release build the two loops have no frames of their own.
    unsafe {
        words().for_each(|at| write_volatile(at as *mut usize, PAINT));
        called(call);
        let lowest = words().find(|&at| read_volatile(at as *const usize) != PAINT);
        lowest.map_or(OWN, |at| first - at)
    }
}

/// Calls, as a frame of its own.
#[inline(never)]
fn called(call: impl FnOnce()) {
    call();
}
