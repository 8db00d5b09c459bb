//! The pools that are judged by: the Rust as published, which has 8 slots, and the same widened to 16.

use std::fmt::Debug;

/// The counts of slots that a pool may have, and the most of them.
pub const SLOT_COUNTS: [usize; 2] = [8, 16];
pub const MOST_SLOTS: usize = 16;

/// A pool of either count.
pub trait Pool: Debug {
    fn reserve(&mut self, len: usize) -> &mut [u8];
    fn commit(&mut self, len: usize);
    fn truncate(&mut self, len: usize);
    fn take(&mut self) -> Box<dyn Slice>;
    fn frame(&self) -> &[u8];
    fn frame_mut(&mut self) -> &mut [u8];
    fn frame_len(&self) -> usize;
    fn is_alloc_mode(&self) -> bool;
}

/// What a take gives, of either pool. It is released when it is dropped.
pub trait Slice: Debug + AsRef<[u8]> + AsMut<[u8]> {}

/// Pool and slice of a package.
macro_rules! judged_by {
    ($rust:ident) => {
        impl Pool for $rust::BufferPool<$rust::BufferFromSystemMemory> {
            fn reserve(&mut self, len: usize) -> &mut [u8] {
                $rust::Buffer::reserve(self, len)
            }

            fn commit(&mut self, len: usize) {
                $rust::Buffer::commit(self, len);
            }

            fn truncate(&mut self, len: usize) {
                $rust::Buffer::truncate(self, len);
            }

            fn take(&mut self) -> Box<dyn Slice> {
                Box::new($rust::Buffer::get_data_owned(self))
            }

            fn frame(&self) -> &[u8] {
                $rust::Buffer::frame(self)
            }

            fn frame_mut(&mut self) -> &mut [u8] {
                $rust::Buffer::frame_mut(self)
            }

            fn frame_len(&self) -> usize {
                $rust::Buffer::len(self)
            }

            fn is_alloc_mode(&self) -> bool {
                $rust::BufferPool::is_alloc_mode(self)
            }
        }

        impl Slice for $rust::Slice {}
    };
}

judged_by!(buffer_sv2);
judged_by!(buffer_sv2_widened);

/// A new pool of so many slots, which are one of the counts.
pub fn new_pool(slots: usize, capacity: usize) -> Box<dyn Pool> {
    match slots {
        8 => Box::new(buffer_sv2::BufferPool::new(capacity)),
        16 => Box::new(buffer_sv2_widened::BufferPool::new(capacity)),
        _ => panic!("the Rust has no pool of {slots} slots"),
    }
}
