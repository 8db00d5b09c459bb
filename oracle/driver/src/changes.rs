//! The count of `change_mode` calls on this thread, fed by the line that oracle/copies inserts.

use std::cell::Cell;

thread_local! {
    static CHANGES: Cell<u32> = const { Cell::new(0) };
}

/// Called by the copy of the Rust at the start of each `change_mode`.
#[no_mangle]
extern "C" fn mode_changed() {
    CHANGES.set(CHANGES.get() + 1);
}

/// The calls since the last time this was asked.
pub fn take() -> u32 {
    CHANGES.replace(0)
}
