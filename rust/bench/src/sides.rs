//! The sides that are timed, with the same calls.

use buffer_pool::raw::{self, Handle, Record, MOST_SLOTS};

/// Where a taken slice is kept until its release: one place a slot.
pub type Kept = usize;

/// The place of a take that gives no slice.
pub const NOT_KEPT: Kept = MOST_SLOTS;

/// A pool that is driven. No call that is timed is refused.
pub trait Side {
    /// How many slots it has.
    const SLOTS: usize;

    fn new(capacity: usize, overflow: usize) -> Self;
    /// Reserves, and writes the reservation's first byte.
    fn reserve(&mut self, len: usize);
    fn commit(&mut self, n: usize);
    fn truncate(&mut self, n: usize);
    fn take(&mut self, kept: Kept);
    fn release(&mut self, kept: Kept);
    /// Looks at the frame.
    fn frame(&mut self) -> usize;
    /// Whether a call was refused.
    fn refused(&self) -> bool;
}

/// The Rust of a package.
macro_rules! rust_side {
    ($(#[$words:meta])* $side:ident, $slots:literal, $rust:ident) => {
        $(#[$words])*
        pub struct $side {
            pool: $rust::BufferPool<$rust::BufferFromSystemMemory>,
            kept: [Option<$rust::Slice>; $slots],
        }

        impl Side for $side {
            const SLOTS: usize = $slots;

            fn new(capacity: usize, _: usize) -> $side {
                $side { pool: $rust::BufferPool::new(capacity), kept: Default::default() }
            }

            fn reserve(&mut self, len: usize) {
                if let Some(first) = $rust::Buffer::reserve(&mut self.pool, len).first_mut() {
                    *first = 1;
                }
            }

            fn commit(&mut self, n: usize) {
                $rust::Buffer::commit(&mut self.pool, n);
            }

            fn truncate(&mut self, n: usize) {
                $rust::Buffer::truncate(&mut self.pool, n);
            }

            fn take(&mut self, kept: Kept) {
                let slice = $rust::Buffer::get_data_owned(&mut self.pool);
                if kept != NOT_KEPT {
                    self.kept[kept] = Some(slice);
                }
            }

            fn release(&mut self, kept: Kept) {
                self.kept[kept] = None;
            }

            fn frame(&mut self) -> usize {
                $rust::Buffer::frame(&self.pool).len()
            }

            fn refused(&self) -> bool {
                false
            }
        }
    };
}

rust_side! {
    /// The Rust as published.
    Rust, 8, buffer_sv2
}

rust_side! {
    /// The Rust widened to 16 slots.
    Widened, 16, buffer_sv2_widened
}

/// The port with so many slots, across the C interface. Caller 0 takes.
pub struct Port<const SLOTS: usize> {
    record: Record,
    pool: Box<[u8]>,
    overflow: Box<[u8]>,
    destination: Box<[u8]>,
    kept: [Handle; SLOTS],
    /// All refusals, joined.
    refusals: u64,
}

// SAFETY, for each call below: record, memories and destination are the pool's own, lie apart, and
// the lengths are theirs.
impl<const SLOTS: usize> Side for Port<SLOTS> {
    const SLOTS: usize = SLOTS;

    fn new(capacity: usize, overflow: usize) -> Port<SLOTS> {
        let memory = |len: usize| vec![0; len].into_boxed_slice();
        let (mut pool, lent) = (memory(capacity), memory(overflow));
        let (bytes, other) = (pool.as_mut_ptr(), lent.as_ptr());
        let created = unsafe { raw::buffer_pool_new(SLOTS, bytes, capacity, other, overflow) };
        Port {
            record: created.record,
            pool,
            overflow: lent,
            destination: memory(overflow),
            kept: [Handle::default(); SLOTS],
            refusals: created.refusal,
        }
    }

    fn reserve(&mut self, len: usize) {
        let (pool, overflow) = (&mut self.pool, &mut self.overflow);
        let reserved = unsafe {
            raw::buffer_pool_reserve(
                &mut self.record,
                pool.as_mut_ptr(),
                pool.len(),
                overflow.as_mut_ptr(),
                overflow.len(),
                len as u64,
            )
        };
        self.refusals |= reserved.refusal;
        let memory = if reserved.place.memory == raw::POOL_MEMORY { pool } else { overflow };
        if reserved.place.length > 0 {
            memory[reserved.place.start as usize] = 1;
        }
    }

    fn commit(&mut self, n: usize) {
        let (pool, overflow) = (&self.pool, &self.overflow);
        let placed = unsafe {
            raw::buffer_pool_commit(
                &mut self.record,
                pool.as_ptr(),
                pool.len(),
                overflow.as_ptr(),
                overflow.len(),
                n as u64,
            )
        };
        self.refusals |= placed.refusal;
    }

    fn truncate(&mut self, n: usize) {
        let (pool, overflow) = (&self.pool, &self.overflow);
        let placed = unsafe {
            raw::buffer_pool_truncate(
                &mut self.record,
                pool.as_ptr(),
                pool.len(),
                overflow.as_ptr(),
                overflow.len(),
                n as u64,
            )
        };
        self.refusals |= placed.refusal;
    }

    fn take(&mut self, kept: Kept) {
        let (pool, overflow) = (&self.pool, &mut self.overflow);
        let taken = unsafe {
            raw::buffer_pool_take(
                &mut self.record,
                pool.as_ptr(),
                pool.len(),
                overflow.as_mut_ptr(),
                overflow.len(),
                0,
                self.destination.as_mut_ptr(),
                self.destination.len(),
            )
        };
        self.refusals |= taken.refusal;
        if kept != NOT_KEPT {
            self.kept[kept] = taken.handle;
        }
    }

    fn release(&mut self, kept: Kept) {
        let (pool, overflow) = (&self.pool, &self.overflow);
        let refusal = unsafe {
            raw::buffer_pool_release(
                &mut self.record,
                pool.as_ptr(),
                pool.len(),
                overflow.as_ptr(),
                overflow.len(),
                self.kept[kept],
            )
        };
        self.refusals |= u64::from(refusal);
    }

    fn frame(&mut self) -> usize {
        let (pool, overflow) = (&self.pool, &self.overflow);
        let placed = unsafe {
            raw::buffer_pool_frame(
                &self.record,
                pool.as_ptr(),
                pool.len(),
                overflow.as_ptr(),
                overflow.len(),
            )
        };
        self.refusals |= placed.refusal;
        placed.place.length as usize
    }

    fn refused(&self) -> bool {
        self.refusals != 0
    }
}
