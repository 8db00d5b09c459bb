//! The moves of the frame on this thread, fed by the lines that oracle/copies inserts.

use std::cell::RefCell;

/// A move of the frame: within the pool (`w`), in from the overflow (`i`), or out to it (`o`).
#[derive(Clone, Copy, Debug, PartialEq)]
pub struct Move {
    pub kind: char,
    pub from: usize,
    pub len: usize,
    pub to: usize,
}

impl Move {
    /// Is it a copy of the frame onto itself?
    pub fn is_self_copy(&self) -> bool {
        self.kind == 'w' && self.from == self.to
    }
}

thread_local! {
    static MOVES: RefCell<Vec<Move>> = const { RefCell::new(Vec::new()) };
}

/// Called by the copy of the Rust at the start of each function that moves the frame.
#[no_mangle]
extern "C" fn frame_moved(kind: u8, from: usize, len: usize, to: usize) {
    MOVES.with_borrow_mut(|moves| moves.push(Move { kind: char::from(kind), from, len, to }));
}

/// The moves since the last time this was asked, in their order.
pub fn take() -> Vec<Move> {
    MOVES.take()
}
