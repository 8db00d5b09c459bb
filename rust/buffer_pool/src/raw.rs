//! The C interface as it is: c/buffer_pool.h has the words for each type and call.
//!
//! Every call answers for every record, handle and length. What makes it unsafe is what no callee can
//! test: each pointer must point to as many bytes as the length beside it says (a memory of length 0
//! still has a pointer that is not null), and record, memories and destination must lie apart.
//!
//! No struct has padding: `as_bytes` gives the bytes of one, to be stored or compared.

use core::mem::{offset_of, size_of};

/// The numbers of [`Record::mode`]. Any other number is refused with 1.
pub const BACK: u32 = 0;
pub const FRONT: u32 = 1;
pub const OVERFLOW: u32 = 2;

/// The numbers of [`Place::memory`].
pub const POOL_MEMORY: u64 = 0;
pub const OVERFLOW_MEMORY: u64 = 1;

/// The most slots that a pool may have. A record has room for so many.
pub const MOST_SLOTS: usize = 16;

/// How many callers can take: 0 to 3.
pub const CALLERS: usize = 4;

/// The most bytes that either memory may have.
pub const BYTE_LIMIT: usize = 1_048_576;

/// The pool's record. One of zeros alone is none: it has no slot count.
#[repr(C)]
#[derive(Clone, Copy, Debug, Default, PartialEq, Eq)]
pub struct Record {
    /// Lengths of the pool memory and of the overflow.
    pub capacity: u64,
    pub overflow: u64,
    /// How many slots the pool has, 8 or 16. Any other number is refused with 1.
    pub slots: usize,
    /// The slice that was last taken in each slot. Entries above the slot count are never read;
    /// a reserve may set their starts and lengths to 0.
    pub starts: [u32; MOST_SLOTS],
    pub lengths: [u32; MOST_SLOTS],
    pub serials: [u32; MOST_SLOTS],
    /// Serials given to each caller.
    pub given: [u32; CALLERS],
    /// The caller of the slice that was last taken in each slot.
    pub callers: [u8; MOST_SLOTS],
    /// Slot `p`, of 1 to `slots`, is live if the bit `1 << (slots - p)` is set: slot 1 has the highest of
    /// as many bits as there are slots. Any other bit is refused with 1.
    pub live: u32,
    pub mode: u32,
    /// The back: the slots before it, and its own.
    pub back_start: usize,
    pub back_len: usize,
    /// Slots used.
    pub used: usize,
    /// The frame in the pool.
    pub raw_offset: u64,
    pub raw_len: u64,
    /// The front's slots, bytes and used slots. Read only in mode [`FRONT`].
    pub front_back_start: usize,
    pub front_byte_capacity: u64,
    pub front_len: usize,
    /// Bytes kept in the overflow, and the length of the frame in it.
    pub kept: u64,
    pub cursor: u64,
    /// Length of the reservation.
    pub reserved: u64,
}

/// A range of one of the two memories.
#[repr(C)]
#[derive(Clone, Copy, Debug, Default, PartialEq, Eq)]
pub struct Place {
    pub start: u64,
    pub length: u64,
    pub memory: u64,
}

/// Names a slice. Two live slices may have one serial under two callers: handles are compared whole.
#[repr(C)]
#[derive(Clone, Copy, Debug, Default, PartialEq, Eq)]
pub struct Handle {
    pub start: u32,
    pub length: u32,
    /// 1, 2, 3, .. over the takes of its caller that gave a slice.
    pub serial: u32,
    /// 1 to the pool's slot count.
    pub slot: u16,
    pub caller: u16,
}

/// What [`buffer_pool_reserve`] gives.
#[repr(C)]
#[derive(Clone, Copy, Debug, Default, PartialEq, Eq)]
pub struct Reserved {
    pub place: Place,
    pub changes: u64,
    pub refusal: u64,
}

/// What commit, truncate and the views give.
#[repr(C)]
#[derive(Clone, Copy, Debug, Default, PartialEq, Eq)]
pub struct Placed {
    pub place: Place,
    pub refusal: u64,
}

/// What [`buffer_pool_take`] gives. Slot 0: `copied` bytes went to the destination.
#[repr(C)]
#[derive(Clone, Copy, Debug, Default, PartialEq, Eq)]
pub struct Taken {
    pub handle: Handle,
    pub copied: u64,
    pub refusal: u64,
}

/// What [`buffer_pool_new`] gives.
#[repr(C)]
#[derive(Clone, Copy, Debug, Default, PartialEq, Eq)]
pub struct Created {
    pub record: Record,
    pub refusal: u64,
}

extern "C" {
    pub fn buffer_pool_new(
        slots: usize,
        pool: *mut u8,
        pool_len: usize,
        overflow: *const u8,
        overflow_len: usize,
    ) -> Created;

    pub fn buffer_pool_reserve(
        record: *mut Record,
        pool: *mut u8,
        pool_len: usize,
        overflow: *mut u8,
        overflow_len: usize,
        len: u64,
    ) -> Reserved;

    pub fn buffer_pool_commit(
        record: *mut Record,
        pool: *const u8,
        pool_len: usize,
        overflow: *const u8,
        overflow_len: usize,
        n: u64,
    ) -> Placed;

    pub fn buffer_pool_truncate(
        record: *mut Record,
        pool: *const u8,
        pool_len: usize,
        overflow: *const u8,
        overflow_len: usize,
        n: u64,
    ) -> Placed;

    pub fn buffer_pool_take(
        record: *mut Record,
        pool: *const u8,
        pool_len: usize,
        overflow: *mut u8,
        overflow_len: usize,
        caller: u64,
        destination: *mut u8,
        destination_len: usize,
    ) -> Taken;

    pub fn buffer_pool_release(
        record: *mut Record,
        pool: *const u8,
        pool_len: usize,
        overflow: *const u8,
        overflow_len: usize,
        handle: Handle,
    ) -> u8;

    pub fn buffer_pool_frame(
        record: *const Record,
        pool: *const u8,
        pool_len: usize,
        overflow: *const u8,
        overflow_len: usize,
    ) -> Placed;

    pub fn buffer_pool_reservation(
        record: *const Record,
        pool: *const u8,
        pool_len: usize,
        overflow: *const u8,
        overflow_len: usize,
    ) -> Placed;

    pub fn buffer_pool_slice(
        record: *const Record,
        pool: *const u8,
        pool_len: usize,
        overflow: *const u8,
        overflow_len: usize,
        handle: Handle,
    ) -> Placed;
}

/// The bytes of a field.
const fn size_of_field<T, F>(_: fn(&T) -> &F) -> usize {
    size_of::<F>()
}

/// The layout that c/buffer_pool.h has on x86-64: the offset of each field of a struct, and its size,
/// which is the sum of the fields' sizes, so that there is no padding and the struct has bytes.
macro_rules! layout {
    ($type:ident, $size:literal: $($offset:literal $field:ident),+) => {
        const _: () = {
            $(assert!(offset_of!($type, $field) == $offset);)+
            assert!(size_of::<$type>() == $size);
            assert!(0 $(+ size_of_field(|all: &$type| &all.$field))+ == $size);
        };

        impl $type {
            /// Its bytes, each of which belongs to a field.
            pub fn as_bytes(&self) -> &[u8; $size] {
                // SAFETY: the size is the array's, and no byte is padding.
                unsafe { &*(self as *const $type).cast() }
            }
        }
    };
}

layout!(Record, 344:
    0 capacity, 8 overflow, 16 slots, 24 starts, 88 lengths, 152 serials, 216 given, 232 callers,
    248 live, 252 mode, 256 back_start, 264 back_len, 272 used, 280 raw_offset, 288 raw_len,
    296 front_back_start, 304 front_byte_capacity, 312 front_len, 320 kept, 328 cursor,
    336 reserved);
layout!(Place, 24: 0 start, 8 length, 16 memory);
layout!(Handle, 16: 0 start, 4 length, 8 serial, 12 slot, 14 caller);
layout!(Reserved, 40: 0 place, 24 changes, 32 refusal);
layout!(Placed, 32: 0 place, 24 refusal);
layout!(Taken, 32: 0 handle, 16 copied, 24 refusal);
layout!(Created, 352: 0 record, 344 refusal);
