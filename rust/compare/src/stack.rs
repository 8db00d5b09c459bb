//! A stack without zeros: where a call leaves out a byte of its result, what stood there shows.

use std::hint::black_box;
use std::mem::{size_of, MaybeUninit};

/// How far down the stack is filled, and with what.
const DEPTH: usize = 4096;
const LEFT_OVER: u8 = 0xa5;

/// Does a call on a filled stack, with its result in filled memory.
pub fn on_filled<T>(call: impl FnOnce() -> T) -> T {
    fill();
    into_filled(call)
}

#[inline(never)]
fn fill() {
    black_box(&mut [LEFT_OVER; DEPTH]);
}

#[inline(never)]
fn into_filled<T>(call: impl FnOnce() -> T) -> T {
    let mut given = MaybeUninit::<T>::uninit();
    // SAFETY: the bytes are those of `given`, which the call fills again before it is read.
    unsafe {
        given.as_mut_ptr().cast::<u8>().write_bytes(LEFT_OVER, size_of::<T>());
        black_box(&mut given).write(call());
        black_box(&mut given).assume_init_read()
    }
}
