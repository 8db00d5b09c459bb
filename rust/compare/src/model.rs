//! What SPECIFICATION 7 says of one call on any record, written from the text and not from the
//! port: the refusal and, for every call but a reserve, the whole outcome. Of a reserve that is done
//! it says what must hold; where it places is compared with the Rust.

use crate::given::Given;
use crate::memory::Memory;
use crate::sound::{bit, is_count, live, sound};
use crate::state::State;
use buffer_pool::raw::{
    self, Created, Handle, Place, Placed, Record, Reserved, Taken, BYTE_LIMIT, CALLERS,
};

/// A call, or a view.
#[derive(Clone, Copy, Debug)]
pub enum Call {
    Reserve(u64),
    Commit(u64),
    Truncate(u64),
    /// By a caller who may be none, with the length of the destination.
    Take {
        caller: u64,
        destination: usize,
    },
    Release(Handle),
    Frame,
    Reservation,
    Slice(Handle),
}

impl Call {
    /// The call's index in `counts::KINDS`.
    pub fn kind(&self) -> usize {
        match self {
            Call::Reserve(_) => 0,
            Call::Commit(_) => 1,
            Call::Truncate(_) => 2,
            Call::Take { .. } => 3,
            Call::Release(_) => 4,
            Call::Frame => 5,
            Call::Reservation => 6,
            Call::Slice(_) => 7,
        }
    }

    /// What the call gives where it is refused: every number but the refusal is 0.
    pub fn refused(&self, refusal: u8) -> Given {
        let number = refusal.into();
        match self {
            Call::Reserve(_) => {
                Given::Reserved(Reserved { refusal: number, ..Reserved::default() })
            }
            Call::Take { .. } => Given::Taken(Taken { refusal: number, ..Taken::default() }),
            Call::Release(_) => Given::Released(refusal),
            _ => Given::Placed(Placed { refusal: number, ..Placed::default() }),
        }
    }
}

/// A place that is given.
fn placed(place: Place) -> Given {
    Given::Placed(Placed { place, refusal: 0 })
}

/// The record of a new pool with so many slots and memories of these lengths.
pub fn new_record(slots: usize, capacity: usize, overflow: usize) -> Record {
    Record { slots, capacity: capacity as u64, overflow: overflow as u64, ..Record::default() }
}

/// What new gives: 16 for a slot count that is none, then 3 for a memory that is too long. A refused new
/// gives the record of a new pool of 8 slots with lengths of 0.
pub fn created(slots: usize, capacity: usize, overflow: usize) -> Created {
    let refusal = match (is_count(slots), capacity.max(overflow) > BYTE_LIMIT) {
        (false, _) => 16,
        (true, true) => 3,
        _ => return Created { record: new_record(slots, capacity, overflow), refusal: 0 },
    };
    Created { record: new_record(8, 0, 0), refusal }
}

/// The frame's place.
fn frame(r: &Record) -> Place {
    match r.mode {
        raw::OVERFLOW => Place { start: 0, length: r.cursor, memory: raw::OVERFLOW_MEMORY },
        _ => Place { start: r.raw_offset, length: r.raw_len, memory: raw::POOL_MEMORY },
    }
}

/// The reservation's place: at the frame's end.
fn reservation(r: &Record) -> Place {
    let Place { start, length, memory } = frame(r);
    Place { start: start + length, length: r.reserved, memory }
}

/// Whether a handle names a live slice: its slot is one of 1 to the slot count and live, its caller one of
/// 0 to 3, and start, length, serial and caller are that slot's.
fn names_live(r: &Record, h: &Handle) -> bool {
    let slot = usize::from(h.slot);
    let at = slot.wrapping_sub(1);
    (1..=r.slots).contains(&slot)
        && usize::from(h.caller) < CALLERS
        && r.live & bit(r, slot) != 0
        && (r.starts[at], r.lengths[at], r.serials[at]) == (h.start, h.length, h.serial)
        && u16::from(r.callers[at]) == h.caller
}

/// The refusal of a take on a passing record with memories of its lengths: 12 for a number that is no
/// caller, whatever the frame is; then 6; then 8, by the caller's own serials.
fn take_refusal(r: &Record, caller: u64, destination: usize) -> u8 {
    let (length, in_overflow) = (frame(r).length, r.mode == raw::OVERFLOW);
    if caller >= CALLERS as u64 {
        return 12;
    }
    let all_given = r.given[caller as usize] == u32::MAX;
    match in_overflow {
        true if length > destination as u64 => 6,
        false if length > 0 && all_given => 8,
        _ => 0,
    }
}

/// The refusal that is due, with 0 for none: 1, then 2, then the call's own. 4 is left to `reserve`.
pub fn refusal(state: &State, call: &Call) -> u8 {
    let r = &state.record;
    if !sound(r) {
        return 1;
    }
    if state.pool.len() as u64 != r.capacity || state.overflow.len() as u64 != r.overflow {
        return 2;
    }
    match *call {
        Call::Commit(n) if n > r.reserved => 5,
        Call::Take { caller, destination } => take_refusal(r, caller, destination),
        Call::Release(h) | Call::Slice(h) if !names_live(r, &h) => 7,
        _ => 0,
    }
}

/// What a call gives that is not refused and no reserve; state and destination become what it leaves.
pub fn perform(state: &mut State, call: &Call, destination: &mut Memory) -> Given {
    let r = &mut state.record;
    match *call {
        Call::Commit(n) => resize(r, frame(r).length + n),
        Call::Truncate(n) => resize(r, frame(r).length.min(n)),
        Call::Take { caller, .. } => {
            return Given::Taken(take(state, caller as usize, destination));
        }
        Call::Release(h) => {
            r.live &= !bit(r, h.slot.into());
            return Given::Released(0);
        }
        Call::Reservation => return placed(reservation(r)),
        Call::Slice(h) => {
            let (start, length) = (h.start.into(), h.length.into());
            return placed(Place { start, length, memory: raw::POOL_MEMORY });
        }
        Call::Frame | Call::Reserve(_) => {}
    }
    placed(frame(r))
}

/// The frame has this length, and the reservation is spent.
fn resize(r: &mut Record, length: u64) {
    r.reserved = 0;
    match r.mode {
        raw::OVERFLOW => r.cursor = length,
        _ => r.raw_len = length,
    }
}

/// A take by one of the callers. From the overflow the frame is copied, and the bytes after it move
/// down to 0. A slice has the caller's next serial.
fn take(state: &mut State, caller: usize, destination: &mut Memory) -> Taken {
    let r = &mut state.record;
    let Place { start, length, memory } = frame(r);
    r.reserved = 0;
    if length == 0 {
        return Taken::default();
    }
    if memory == raw::OVERFLOW_MEMORY {
        let (n, kept) = (length as usize, r.kept as usize);
        destination.bytes_mut()[..n].copy_from_slice(&state.overflow.bytes()[..n]);
        state.overflow.bytes_mut().copy_within(n..kept, 0);
        (r.kept, r.cursor) = (r.kept - length, 0);
        return Taken { copied: length, ..Taken::default() };
    }
    let at = r.used;
    r.given[caller] += 1;
    let serial = r.given[caller];
    (r.starts[at], r.lengths[at], r.serials[at]) = (start as u32, length as u32, serial);
    r.callers[at] = caller as u8;
    r.used += 1;
    r.live |= bit(r, r.used);
    match r.mode {
        raw::BACK => r.back_len += 1,
        _ => r.front_len += 1,
    }
    (r.raw_offset, r.raw_len) = (start + length, 0);
    let (start, length) = (start as u32, length as u32);
    let (slot, caller) = (at as u16 + 1, caller as u16);
    Taken { handle: Handle { start, length, serial, slot, caller }, ..Taken::default() }
}

/// What must hold of a reserve on a passing record with memories of its lengths: refused with 4 only
/// if frame and reservation exceed the overflow, and then nothing changes; else a passing record with
/// the same slot count, live slices, handles, serials and callers, their bytes and the frame's bytes as
/// they were, and a reservation of this length at the frame's end, after at most two changes.
pub fn reserve(
    before: &State,
    len: u64,
    after: &State,
    got: &Reserved,
) -> Result<(), &'static str> {
    let (old, new) = (&before.record, &after.record);
    let needed = u128::from(frame(old).length) + u128::from(len);
    if got.refusal != 0 {
        return holds(&[
            (*got == Reserved { refusal: 4, ..Reserved::default() }, "a refused reserve's answer"),
            (needed > u128::from(old.overflow), "4, and the overflow is long enough"),
        ]);
    }
    let entry = |r: &Record, p: usize| (r.starts[p - 1], r.lengths[p - 1]);
    let bytes = |state: &State, (start, len): (u32, u32)| {
        state.pool.part(start.into(), len.into()).map(<[u8]>::to_vec)
    };
    holds(&[
        (sound(new), "the record does not pass any more"),
        ((new.capacity, new.overflow) == (old.capacity, old.overflow), "a length changes"),
        (new.slots == old.slots, "the slot count changes"),
        ((new.live, new.given) == (old.live, old.given), "live or serials given"),
        (
            (new.serials, new.callers) == (old.serials, old.callers),
            "a slot's serial or caller changes",
        ),
        (live(old).all(|(p, ..)| entry(old, p) == entry(new, p)), "a live slice's entry changes"),
        (
            live(old).all(|(p, ..)| bytes(before, entry(old, p)) == bytes(after, entry(old, p))),
            "a live slice's byte changes",
        ),
        (before.part(frame(old)) == after.part(frame(new)), "a byte of the frame changes"),
        (new.reserved == len && got.place == reservation(new), "the reservation"),
        (after.part(got.place).is_some(), "the reservation lies outside"),
        (got.changes <= 2, "more than two changes"),
    ])
}

/// Names the first condition that does not hold.
fn holds(conditions: &[(bool, &'static str)]) -> Result<(), &'static str> {
    conditions.iter().find(|(holds, _)| !holds).map_or(Ok(()), |(_, name)| Err(name))
}

/// Does a call on the archive.
pub fn call(state: &mut State, call: &Call, destination: &mut Memory) -> Given {
    match *call {
        Call::Reserve(len) => Given::Reserved(state.reserve(len)),
        Call::Take { caller, .. } => Given::Taken(state.take(caller, destination)),
        Call::Release(h) => Given::Released(state.release(h)),
        Call::Commit(n) => Given::Placed(state.commit(n)),
        Call::Truncate(n) => Given::Placed(state.truncate(n)),
        Call::Frame => Given::Placed(state.frame()),
        Call::Reservation => Given::Placed(state.reservation()),
        Call::Slice(h) => Given::Placed(state.slice(h)),
    }
}
