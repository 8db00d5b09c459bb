//! The port's side: a record, its two memories, and the calls of the archive on them.

use crate::memory::Memory;
use crate::stack::on_filled;
use buffer_pool::raw::{self, Created, Handle, Place, Placed, Record, Reserved, Taken};

/// All that a call reads and changes, but for a destination.
#[derive(Clone, Debug)]
pub struct State {
    pub record: Record,
    pub pool: Memory,
    pub overflow: Memory,
}

/// Every byte is the same, of the record as of the memories.
impl PartialEq for State {
    fn eq(&self, other: &State) -> bool {
        self.record.as_bytes() == other.record.as_bytes()
            && self.pool == other.pool
            && self.overflow == other.overflow
    }
}

impl State {
    /// A new pool of so many slots and of these memories, and what the call gives. Their bytes are as it
    /// left them.
    pub fn new(slots: usize, mut pool: Memory, overflow: Memory) -> (State, Created) {
        let (bytes, len) = (pool.bytes_mut().as_mut_ptr(), pool.len());
        let (other, other_len) = (overflow.bytes().as_ptr(), overflow.len());
        // SAFETY: both memories are borrowed here, with their lengths.
        let created =
            on_filled(|| unsafe { raw::buffer_pool_new(slots, bytes, len, other, other_len) });
        (State { record: created.record, pool, overflow }, created)
    }

    /// Becomes a copy of another state, in the room that is there.
    pub fn copy_from(&mut self, other: &State) {
        self.record = other.record;
        self.pool.copy_from(&other.pool);
        self.overflow.copy_from(&other.overflow);
    }

    /// Whether no gap was touched.
    pub fn intact(&self) -> bool {
        self.pool.intact() && self.overflow.intact()
    }

    /// The bytes at a place, if it lies inside its memory.
    pub fn part(&self, place: Place) -> Option<&[u8]> {
        let memory = match place.memory {
            raw::POOL_MEMORY => &self.pool,
            raw::OVERFLOW_MEMORY => &self.overflow,
            _ => return None,
        };
        memory.part(place.start, place.length)
    }

    /// Sets one byte of a place that lies inside its memory.
    pub fn write(&mut self, place: Place, index: u64, value: u8) {
        let memory =
            if place.memory == raw::POOL_MEMORY { &mut self.pool } else { &mut self.overflow };
        memory.bytes_mut()[(place.start + index) as usize] = value;
    }

    /// Both memories as pointers and lengths, to be read.
    fn lent(&self) -> (*const u8, usize, *const u8, usize) {
        let (pool, overflow) = (self.pool.bytes(), self.overflow.bytes());
        (pool.as_ptr(), pool.len(), overflow.as_ptr(), overflow.len())
    }

    /// Both memories as pointers and lengths, to be written.
    fn lent_mut(&mut self) -> (*mut u8, usize, *mut u8, usize) {
        let (pool, overflow) = (self.pool.bytes_mut(), self.overflow.bytes_mut());
        (pool.as_mut_ptr(), pool.len(), overflow.as_mut_ptr(), overflow.len())
    }

    // SAFETY, for each call below: `self` has record and memories, which lie apart, and the lengths
    // are the memories' own. The destination of a take is borrowed beside it.

    pub fn reserve(&mut self, len: u64) -> Reserved {
        let (pool, pool_len, overflow, overflow_len) = self.lent_mut();
        let record = &mut self.record;
        on_filled(|| unsafe {
            raw::buffer_pool_reserve(record, pool, pool_len, overflow, overflow_len, len)
        })
    }

    pub fn commit(&mut self, n: u64) -> Placed {
        let (pool, pool_len, overflow, overflow_len) = self.lent();
        let record = &mut self.record;
        on_filled(|| unsafe {
            raw::buffer_pool_commit(record, pool, pool_len, overflow, overflow_len, n)
        })
    }

    pub fn truncate(&mut self, n: u64) -> Placed {
        let (pool, pool_len, overflow, overflow_len) = self.lent();
        let record = &mut self.record;
        on_filled(|| unsafe {
            raw::buffer_pool_truncate(record, pool, pool_len, overflow, overflow_len, n)
        })
    }

    pub fn take(&mut self, caller: u64, destination: &mut Memory) -> Taken {
        let (pool, pool_len, overflow, overflow_len) = self.lent_mut();
        let destination = destination.bytes_mut();
        let (to, to_len) = (destination.as_mut_ptr(), destination.len());
        let record = &mut self.record;
        on_filled(|| unsafe {
            raw::buffer_pool_take(
                record,
                pool,
                pool_len,
                overflow,
                overflow_len,
                caller,
                to,
                to_len,
            )
        })
    }

    pub fn release(&mut self, handle: Handle) -> u8 {
        let (pool, pool_len, overflow, overflow_len) = self.lent();
        let record = &mut self.record;
        on_filled(|| unsafe {
            raw::buffer_pool_release(record, pool, pool_len, overflow, overflow_len, handle)
        })
    }

    pub fn frame(&self) -> Placed {
        let (pool, pool_len, overflow, overflow_len) = self.lent();
        on_filled(|| unsafe {
            raw::buffer_pool_frame(&self.record, pool, pool_len, overflow, overflow_len)
        })
    }

    pub fn reservation(&self) -> Placed {
        let (pool, pool_len, overflow, overflow_len) = self.lent();
        let record = &self.record;
        on_filled(|| unsafe {
            raw::buffer_pool_reservation(record, pool, pool_len, overflow, overflow_len)
        })
    }

    pub fn slice(&self, handle: Handle) -> Placed {
        let (pool, pool_len, overflow, overflow_len) = self.lent();
        let record = &self.record;
        on_filled(|| unsafe {
            raw::buffer_pool_slice(record, pool, pool_len, overflow, overflow_len, handle)
        })
    }
}
