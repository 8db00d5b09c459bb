//! The proved frame pool, with types that make its misuse hard.
//!
//! Frames of bytes are gathered in one lent memory, handed out as slices, and released in any
//! order; a second lent memory, the overflow, takes what does not fit. A pool has 8 or 16 slots, one for
//! each slice that is held. Four callers, 0 to 3, can share a pool, and each has serials of its own for
//! what it takes. The pool's code is proved to meet its contracts (docs/PROVED.md of the repository) and
//! is linked as an archive. What this crate adds to a call is the step from places to slices of bytes
//! and, where a [`Slice`] comes back, the comparison of one address.
//!
//! What the types rule out:
//!
//! - A [`Pool`] owns its record and keeps both memories for its life. Nobody else can change a byte
//!   of them, and their lengths are always the record's: refusals 1 and 2 do not occur.
//! - A place is only valid until the next call. Bytes are lent as slices that borrow the pool, so
//!   they end before the next call that could move them.
//! - A [`Slice`] cannot be copied, and a release consumes it: no slice is released twice, and none
//!   is read once it is released.
//! - A slice keeps the memories of its pool borrowed. No second pool can be made of them while one
//!   is held, so two pools with slices have different memories. A slice given to another pool than
//!   its own is refused with 7, by the address of the memory; the handle's own numbers could agree.
//!
//! What they do not: a slice that is dropped and not released keeps its slot as long as the pool
//! lives.
//!
//! ```
//! use buffer_pool::{Pool, Taken};
//!
//! # fn main() -> Result<(), buffer_pool::Refusal> {
//! let (mut memory, mut overflow) = ([0; 64], [0; 32]);
//! let mut log = Pool::new(8, &mut memory, &mut overflow)?;
//!
//! let entry = b"page 7";
//! log.reserve(entry.len())?.bytes.copy_from_slice(entry);
//! log.commit(entry.len())?;
//!
//! match log.take(0, &mut [0; 32])? {
//!     Taken::Slice(slice) => {
//!         assert_eq!(log.slice(&slice)?, entry);
//!         log.release(slice).map_err(|(_, refusal)| refusal)?;
//!     }
//!     Taken::Copied(_) => unreachable!("the pool has room"),
//! }
//! # Ok(())
//! # }
//! ```
//!
//! A slice of a pool that is gone keeps its memories borrowed:
//!
//! ```compile_fail,E0499
//! use buffer_pool::{Pool, Taken};
//!
//! let (mut memory, mut overflow) = ([0; 64], [0; 32]);
//! let mut first = Pool::new(8, &mut memory, &mut overflow).unwrap();
//! first.reserve(1).unwrap();
//! first.commit(1).unwrap();
//! let taken = first.take(0, &mut []).unwrap();
//! let mut second = Pool::new(8, &mut memory, &mut overflow).unwrap();
//! if let Taken::Slice(slice) = taken {
//!     let _ = second.release(slice);
//! }
//! ```

#![no_std]

#[cfg(test)]
extern crate std;

pub mod raw;
mod refusal;
#[cfg(test)]
mod tests;

use core::marker::PhantomData;
pub use raw::Place;
pub use refusal::Refusal;

/// Where a pool places its frame.
#[derive(Clone, Copy, Debug, PartialEq, Eq)]
pub enum Mode {
    /// After the slices of the back.
    Back,
    /// In the front, below the slices of the back.
    Front,
    /// In the overflow.
    Overflow,
}

/// A pool: its record and its two memories.
#[derive(Debug)]
pub struct Pool<'m> {
    record: raw::Record,
    memory: &'m mut [u8],
    overflow: &'m mut [u8],
}

/// A reservation, made by [`Pool::reserve`].
#[derive(Debug)]
pub struct Reserved<'p> {
    /// The reserved bytes, to be written. They show what earlier frames left there.
    pub bytes: &'p mut [u8],
    /// Where they lie.
    pub place: Place,
    /// How often the mode changed, at most twice.
    pub changes: u64,
}

/// What [`Pool::take`] gives.
#[derive(Debug)]
#[must_use = "a slice that is not released keeps its slot"]
pub enum Taken<'m> {
    /// The frame stays in the pool and is held by this slice.
    Slice(Slice<'m>),
    /// So many bytes went to the destination's start: the frame lay in the overflow, or was empty.
    Copied(usize),
}

/// A finished frame that lives in a pool, held until [`Pool::release`].
///
/// It is a live slice of its pool as long as it exists. [`Pool::slice`] and [`Pool::slice_mut`] show
/// its bytes.
#[derive(Debug)]
#[must_use = "a slice that is not released keeps its slot"]
pub struct Slice<'m> {
    handle: raw::Handle,
    /// Where its pool's memory starts.
    home: usize,
    memories: PhantomData<&'m [u8]>,
}

impl Slice<'_> {
    /// Start, length, serial, slot and caller, to be logged. Two entries of a log that have the same
    /// caller and serial are the same slice; a serial alone may be that of several callers.
    pub fn handle(&self) -> raw::Handle {
        self.handle
    }
}

impl<'m> Pool<'m> {
    /// A new pool of these memories, with 8 or 16 slots. The first memory is filled with zeros.
    ///
    /// Refuses with [`Refusal::WrongSlotCount`] and [`Refusal::MemoryTooLong`]; then both memories keep
    /// their bytes.
    pub fn new(
        slots: usize,
        memory: &'m mut [u8],
        overflow: &'m mut [u8],
    ) -> Result<Pool<'m>, Refusal> {
        // SAFETY: both pointers and lengths are those of slices that are borrowed here.
        let created = unsafe {
            raw::buffer_pool_new(
                slots,
                memory.as_mut_ptr(),
                memory.len(),
                overflow.as_ptr(),
                overflow.len(),
            )
        };
        Refusal::check(created.refusal)?;
        Ok(Pool { record: created.record, memory, overflow })
    }

    /// Makes room for `len` more bytes after the frame. This may move the frame.
    ///
    /// Refuses with [`Refusal::OverflowTooShort`]; then frame and reservation stay as they were.
    pub fn reserve(&mut self, len: usize) -> Result<Reserved<'_>, Refusal> {
        // SAFETY: the pointers are those of the record and of slices that are borrowed mutably and
        // apart from each other.
        let reserved = unsafe {
            raw::buffer_pool_reserve(
                &mut self.record,
                self.memory.as_mut_ptr(),
                self.memory.len(),
                self.overflow.as_mut_ptr(),
                self.overflow.len(),
                len as u64,
            )
        };
        Refusal::check(reserved.refusal)?;
        let (place, changes) = (reserved.place, reserved.changes);
        Ok(Reserved { bytes: self.part_mut(place), place, changes })
    }

    /// The first `n` bytes of the reservation join the frame, and the reservation is spent.
    ///
    /// Refuses with [`Refusal::CommitTooLong`]; then the reservation stays.
    pub fn commit(&mut self, n: usize) -> Result<Place, Refusal> {
        // SAFETY: as in `reserve`.
        let placed = unsafe {
            raw::buffer_pool_commit(
                &mut self.record,
                self.memory.as_ptr(),
                self.memory.len(),
                self.overflow.as_ptr(),
                self.overflow.len(),
                n as u64,
            )
        };
        Refusal::check(placed.refusal)?;
        Ok(placed.place)
    }

    /// The frame keeps at most its first `n` bytes, and the reservation is spent. Gives the frame's
    /// place.
    pub fn truncate(&mut self, n: usize) -> Result<Place, Refusal> {
        // SAFETY: as in `reserve`.
        let placed = unsafe {
            raw::buffer_pool_truncate(
                &mut self.record,
                self.memory.as_ptr(),
                self.memory.len(),
                self.overflow.as_ptr(),
                self.overflow.len(),
                n as u64,
            )
        };
        Refusal::check(placed.refusal)?;
        Ok(placed.place)
    }

    /// Finishes the frame for a caller, 0 to 3: gives the slice that holds it, with the caller's next
    /// serial, or copies it to the start of `destination` if it lies in the overflow. The reservation
    /// is spent.
    ///
    /// Refuses with [`Refusal::UnknownCaller`], [`Refusal::DestinationTooShort`] and
    /// [`Refusal::NoSerials`]; then frame, reservation and destination stay.
    pub fn take(&mut self, caller: u64, destination: &mut [u8]) -> Result<Taken<'m>, Refusal> {
        // SAFETY: as in `reserve`; the destination is borrowed mutably, so it is apart from both
        // memories.
        let taken = unsafe {
            raw::buffer_pool_take(
                &mut self.record,
                self.memory.as_ptr(),
                self.memory.len(),
                self.overflow.as_mut_ptr(),
                self.overflow.len(),
                caller,
                destination.as_mut_ptr(),
                destination.len(),
            )
        };
        Refusal::check(taken.refusal)?;
        Ok(match taken.handle.slot {
            0 => Taken::Copied(taken.copied as usize),
            _ => Taken::Slice(Slice {
                handle: taken.handle,
                home: self.home(),
                memories: PhantomData,
            }),
        })
    }

    /// Frees the slice's slot.
    ///
    /// Refuses a slice of another pool with [`Refusal::NotLive`] and gives it back.
    pub fn release(&mut self, slice: Slice<'m>) -> Result<(), (Slice<'m>, Refusal)> {
        if slice.home != self.home() {
            return Err((slice, Refusal::NotLive));
        }
        // SAFETY: as in `reserve`.
        let refusal = unsafe {
            raw::buffer_pool_release(
                &mut self.record,
                self.memory.as_ptr(),
                self.memory.len(),
                self.overflow.as_ptr(),
                self.overflow.len(),
                slice.handle,
            )
        };
        Refusal::check(refusal.into()).map_err(|refusal| (slice, refusal))
    }

    /// The bytes of the frame.
    pub fn frame(&self) -> &[u8] {
        self.part(self.frame_place())
    }

    /// The bytes of the frame, to be written.
    pub fn frame_mut(&mut self) -> &mut [u8] {
        self.part_mut(self.frame_place())
    }

    /// The bytes of the reservation: empty once it is spent.
    pub fn reservation(&self) -> &[u8] {
        self.part(self.reservation_place())
    }

    /// The bytes of the reservation, to be written.
    pub fn reservation_mut(&mut self) -> &mut [u8] {
        self.part_mut(self.reservation_place())
    }

    /// The bytes of a slice.
    ///
    /// Refuses a slice of another pool with [`Refusal::NotLive`].
    pub fn slice(&self, slice: &Slice<'m>) -> Result<&[u8], Refusal> {
        Ok(self.part(self.slice_place(slice)?))
    }

    /// The bytes of a slice, to be written.
    ///
    /// Refuses a slice of another pool with [`Refusal::NotLive`].
    pub fn slice_mut(&mut self, slice: &Slice<'m>) -> Result<&mut [u8], Refusal> {
        let place = self.slice_place(slice)?;
        Ok(self.part_mut(place))
    }

    /// Where the frame lies.
    pub fn frame_place(&self) -> Place {
        // SAFETY: as in `reserve`; nothing is written.
        let placed = unsafe {
            raw::buffer_pool_frame(
                &self.record,
                self.memory.as_ptr(),
                self.memory.len(),
                self.overflow.as_ptr(),
                self.overflow.len(),
            )
        };
        placed.place
    }

    /// Where the reservation lies: after the frame.
    pub fn reservation_place(&self) -> Place {
        // SAFETY: as in `reserve`; nothing is written.
        let placed = unsafe {
            raw::buffer_pool_reservation(
                &self.record,
                self.memory.as_ptr(),
                self.memory.len(),
                self.overflow.as_ptr(),
                self.overflow.len(),
            )
        };
        placed.place
    }

    /// Where a slice lies.
    pub fn slice_place(&self, slice: &Slice<'m>) -> Result<Place, Refusal> {
        if slice.home != self.home() {
            return Err(Refusal::NotLive);
        }
        // SAFETY: as in `reserve`; nothing is written.
        let placed = unsafe {
            raw::buffer_pool_slice(
                &self.record,
                self.memory.as_ptr(),
                self.memory.len(),
                self.overflow.as_ptr(),
                self.overflow.len(),
                slice.handle,
            )
        };
        Refusal::check(placed.refusal)?;
        Ok(placed.place)
    }

    /// Where the frame is gathered.
    pub fn mode(&self) -> Mode {
        match self.record.mode {
            raw::BACK => Mode::Back,
            raw::FRONT => Mode::Front,
            _ => Mode::Overflow,
        }
    }

    /// The record, to be read.
    pub fn record(&self) -> &raw::Record {
        &self.record
    }

    /// Where the memory starts: what tells pools apart.
    fn home(&self) -> usize {
        self.memory.as_ptr() as usize
    }

    /// The bytes at a place that a call gave.
    fn part(&self, place: Place) -> &[u8] {
        let start = place.start as usize;
        let memory =
            if place.memory == raw::OVERFLOW_MEMORY { &*self.overflow } else { &*self.memory };
        &memory[start..start + place.length as usize]
    }

    /// The bytes at a place that a call gave, to be written.
    fn part_mut(&mut self, place: Place) -> &mut [u8] {
        let start = place.start as usize;
        let memory = if place.memory == raw::OVERFLOW_MEMORY {
            &mut *self.overflow
        } else {
            &mut *self.memory
        };
        &mut memory[start..start + place.length as usize]
    }
}
