//! The wrapper, on the linked archive. Expected values are those of docs/SPECIFICATION.md.

use crate::{raw, Mode, Pool, Refusal, Slice, Taken};
use core::marker::PhantomData;
use std::string::ToString;
use std::vec::Vec;

/// Reserves, writes and commits one entry.
fn gather(pool: &mut Pool, bytes: &[u8]) {
    pool.reserve(bytes.len()).unwrap().bytes.copy_from_slice(bytes);
    pool.commit(bytes.len()).unwrap();
}

/// The same, and takes it for a caller, where it stays in the pool.
fn pooled_by<'m>(pool: &mut Pool<'m>, caller: u64, bytes: &[u8]) -> Slice<'m> {
    gather(pool, bytes);
    match pool.take(caller, &mut [0; 32]).unwrap() {
        Taken::Slice(slice) => slice,
        Taken::Copied(_) => panic!("the pool has room"),
    }
}

/// The same for caller 0.
fn pooled<'m>(pool: &mut Pool<'m>, bytes: &[u8]) -> Slice<'m> {
    pooled_by(pool, 0, bytes)
}

/// A slice with another caller in its handle, which no call gives.
fn of_caller<'m>(slice: &Slice<'m>, caller: u16) -> Slice<'m> {
    let handle = raw::Handle { caller, ..slice.handle };
    Slice { handle, home: slice.home, memories: PhantomData }
}

/// A slice with another slot in its handle, which no call gives.
fn of_slot<'m>(slice: &Slice<'m>, slot: u16) -> Slice<'m> {
    let handle = raw::Handle { slot, ..slice.handle };
    Slice { handle, home: slice.home, memories: PhantomData }
}

#[test]
fn an_entry_is_written_taken_read_and_released() {
    let (mut memory, mut overflow) = ([9; 16], [9; 20]);
    let mut pool = Pool::new(8, &mut memory, &mut overflow).unwrap();
    let reserved = pool.reserve(6).unwrap();
    assert_eq!((&reserved.bytes[..], reserved.changes), (&[0; 6][..], 0));
    reserved.bytes.copy_from_slice(b"page 7");
    assert_eq!(pool.reservation(), b"page 7");
    assert_eq!(pool.commit(7), Err(Refusal::CommitTooLong));
    assert_eq!(pool.commit(6).unwrap().length, 6);
    assert_eq!((pool.frame(), pool.reservation()), (&b"page 7"[..], &b""[..]));
    pool.frame_mut()[5] = b'8';
    let Ok(Taken::Slice(slice)) = pool.take(3, &mut []) else { panic!("the pool has room") };
    let handle = raw::Handle { start: 0, length: 6, serial: 1, slot: 1, caller: 3 };
    assert_eq!((slice.handle(), pool.record().live), (handle, 0x80));
    pool.slice_mut(&slice).unwrap()[0] = b'P';
    assert_eq!(pool.slice(&slice).unwrap(), b"Page 8");
    assert!(pool.release(slice).is_ok());
    assert_eq!(pool.record().live, 0);
}

#[test]
fn a_refused_call_leaves_every_byte_of_the_record() {
    let (mut memory, mut overflow) = ([0; 16], [0; 20]);
    let mut pool = Pool::new(8, &mut memory, &mut overflow).unwrap();
    pool.reserve(6).unwrap();
    let before = *pool.record().as_bytes();
    assert_eq!(pool.commit(7), Err(Refusal::CommitTooLong));
    assert_eq!(pool.reserve(21).unwrap_err(), Refusal::OverflowTooShort);
    assert_eq!(pool.record().as_bytes(), &before);
}

#[test]
fn truncate_spends_the_reservation() {
    let (mut memory, mut overflow) = ([0; 16], [0; 20]);
    let mut pool = Pool::new(8, &mut memory, &mut overflow).unwrap();
    pool.reserve(6).unwrap();
    pool.commit(6).unwrap();
    pool.reserve(4).unwrap();
    assert_eq!(pool.reservation_mut().len(), 4);
    assert_eq!(pool.truncate(9).unwrap().length, 6);
    assert_eq!(pool.commit(1), Err(Refusal::CommitTooLong));
}

#[test]
fn an_entry_of_the_overflow_is_copied() {
    let (mut memory, mut overflow) = ([0; 4], [0; 8]);
    let mut pool = Pool::new(8, &mut memory, &mut overflow).unwrap();
    assert_eq!(pool.reserve(9).unwrap_err(), Refusal::OverflowTooShort);
    pool.reserve(8).unwrap().bytes.copy_from_slice(b"largetxt");
    assert_eq!(pool.mode(), Mode::Overflow);
    pool.commit(8).unwrap();
    let mut destination = [b'.'; 9];
    assert_eq!(pool.take(0, &mut destination[..7]).unwrap_err(), Refusal::DestinationTooShort);
    assert!(matches!(pool.take(0, &mut destination), Ok(Taken::Copied(8))));
    assert_eq!(&destination, b"largetxt.");
}

#[test]
fn every_caller_has_serials_from_1() {
    let (mut memory, mut overflow) = ([0; 16], [0; 16]);
    let mut pool = Pool::new(8, &mut memory, &mut overflow).unwrap();
    let names = [0, 3, 3, 0, 1].map(|caller| {
        let handle = pooled_by(&mut pool, caller, b"it").handle();
        (handle.caller, handle.serial)
    });
    assert_eq!(names, [(0, 1), (3, 1), (3, 2), (0, 2), (1, 1)]);
    assert_eq!(pool.record().given, [2, 1, 0, 2]);
    assert_eq!(pool.record().callers[..8], [0, 3, 3, 0, 1, 0, 0, 0]);
}

#[test]
fn one_serial_of_two_callers_names_two_slices() {
    let (mut memory, mut overflow) = ([0; 16], [0; 16]);
    let mut pool = Pool::new(8, &mut memory, &mut overflow).unwrap();
    let turn = pooled_by(&mut pool, 0, b"turn");
    let crash = pooled_by(&mut pool, 1, b"crash");
    assert_eq!(turn.handle().serial, crash.handle().serial);
    assert_eq!((pool.slice(&turn), pool.slice(&crash)), (Ok(&b"turn"[..]), Ok(&b"crash"[..])));
    pool.slice_mut(&crash).unwrap()[0] = b'C';
    assert!(pool.release(turn).is_ok());
    assert_eq!((pool.record().live, pool.slice(&crash)), (0x40, Ok(&b"Crash"[..])));
    assert!(pool.release(crash).is_ok());
    assert_eq!(pool.record().live, 0);
}

#[test]
fn a_handle_of_another_caller_is_refused() {
    let (mut memory, mut overflow) = ([0; 16], [0; 16]);
    let mut pool = Pool::new(8, &mut memory, &mut overflow).unwrap();
    let own = pooled_by(&mut pool, 1, b"own");
    for caller in [0, 2, 3, 4, 5, 255, 256, 257, 65535] {
        let other = of_caller(&own, caller);
        assert_eq!(pool.slice(&other), Err(Refusal::NotLive));
        assert_eq!(pool.release(other).unwrap_err().1, Refusal::NotLive);
    }
    assert!(pool.release(of_caller(&own, 1)).is_ok());
}

#[test]
fn a_caller_above_3_is_refused() {
    let (mut memory, mut overflow) = ([0; 4], [0; 8]);
    let mut pool = Pool::new(8, &mut memory, &mut overflow).unwrap();
    let refused = |pool: &mut Pool| {
        let before = *pool.record().as_bytes();
        for caller in [4, 5, 256, 1 << 32, u64::MAX] {
            assert_eq!(pool.take(caller, &mut []).unwrap_err(), Refusal::UnknownCaller);
            assert_eq!(pool.record().as_bytes(), &before);
        }
    };
    // An empty frame, one in the pool, and one in the overflow that the destination is too short for.
    refused(&mut pool);
    gather(&mut pool, b"log");
    refused(&mut pool);
    gather(&mut pool, b"more");
    assert_eq!(pool.mode(), Mode::Overflow);
    refused(&mut pool);
    assert_eq!(pool.take(3, &mut []).unwrap_err(), Refusal::DestinationTooShort);
    assert!(matches!(pool.take(3, &mut [0; 7]), Ok(Taken::Copied(7))));
}

#[test]
fn eight_slices_then_the_front() {
    let (mut memory, mut overflow) = ([0; 17], [0; 20]);
    let mut pool = Pool::new(8, &mut memory, &mut overflow).unwrap();
    let mut slices: Vec<Slice> = (0..8).map(|n| pooled(&mut pool, &[n, n])).collect();
    for slice in slices.drain(..2) {
        assert!(pool.release(slice).is_ok());
    }
    let reserved = pool.reserve(4).unwrap();
    assert_eq!((reserved.place.start, reserved.changes), (0, 1));
    assert_eq!(pool.mode(), Mode::Front);
    for (n, slice) in (2..).zip(&slices) {
        assert_eq!(pool.slice(slice).unwrap(), [n, n]);
    }
}

/// Slot 1 has the highest of 16 bits. The seventeenth entry has no slot.
#[test]
fn sixteen_slices_then_the_overflow() {
    let (mut memory, mut overflow) = ([0; 40], [0; 20]);
    let mut pool = Pool::new(16, &mut memory, &mut overflow).unwrap();
    let slices: Vec<Slice> = (0..16).map(|n| pooled(&mut pool, &[n, n])).collect();
    for (n, slice) in (0..).zip(&slices) {
        let handle =
            raw::Handle { start: 2 * n, length: 2, serial: n + 1, slot: n as u16 + 1, caller: 0 };
        assert_eq!(slice.handle(), handle);
        assert_eq!(pool.slice(slice).unwrap(), [n as u8, n as u8]);
    }
    assert_eq!((pool.record().slots, pool.record().live), (16, 0xffff));
    gather(&mut pool, b"more");
    assert_eq!(pool.mode(), Mode::Overflow);
    let mut destination = [0; 4];
    assert!(matches!(pool.take(0, &mut destination), Ok(Taken::Copied(4))));
    assert_eq!(&destination, b"more");
    for (n, slice) in (1..).zip(slices) {
        assert!(pool.release(slice).is_ok());
        assert_eq!(pool.record().live, 0xffff >> n);
    }
}

/// The first ten of sixteen slots are freed: they are the front.
#[test]
fn sixteen_slices_then_the_front() {
    let (mut memory, mut overflow) = ([0; 33], [0; 40]);
    let mut pool = Pool::new(16, &mut memory, &mut overflow).unwrap();
    let mut slices: Vec<Slice> = (0..16).map(|n| pooled(&mut pool, &[n, n])).collect();
    for slice in slices.drain(..10) {
        assert!(pool.release(slice).is_ok());
    }
    let reserved = pool.reserve(20).unwrap();
    assert_eq!((reserved.place.start, reserved.changes), (0, 1));
    assert_eq!((pool.mode(), pool.record().live), (Mode::Front, 0x003f));
    for (n, slice) in (10..).zip(&slices) {
        assert_eq!(pool.slice(slice).unwrap(), [n, n]);
    }
}

/// A pool of 8 slots with all of them live has no slot 9, and one of 16 has no slot 17.
#[test]
fn a_handle_of_a_slot_above_the_count_is_refused() {
    for slots in [8, 16] {
        let (mut memory, mut overflow) = ([0; 16], [0; 4]);
        let mut pool = Pool::new(slots, &mut memory, &mut overflow).unwrap();
        let slices: Vec<Slice> = (0..slots).map(|_| pooled(&mut pool, b"1")).collect();
        let last = slices.last().unwrap();
        assert_eq!(last.handle().slot as usize, slots);
        for slot in [0, slots as u16 + 1, 2 * slots as u16, 17, 24, 255, 256, 65535] {
            let other = of_slot(last, slot);
            assert_eq!(pool.slice(&other), Err(Refusal::NotLive));
            assert_eq!(pool.release(other).unwrap_err().1, Refusal::NotLive);
        }
        assert!(pool.release(of_slot(last, slots as u16)).is_ok());
    }
}

/// 16 comes before 3, and a refused new leaves every byte.
#[test]
fn slot_counts_but_8_and_16_are_refused() {
    let (mut memory, mut overflow) = ([9; 16], [9; 20]);
    let mut long = std::vec![9; raw::BYTE_LIMIT + 1];
    let wrong = (0..64).filter(|slots| ![8, 16].contains(slots));
    for slots in wrong.chain([255, 256, 264, 1 << 32 | 8, usize::MAX]) {
        let refused = Pool::new(slots, &mut memory, &mut overflow).unwrap_err();
        assert_eq!(refused, Refusal::WrongSlotCount);
        assert_eq!(Pool::new(slots, &mut long, &mut []).unwrap_err(), Refusal::WrongSlotCount);
        assert_eq!(Pool::new(slots, &mut [], &mut long).unwrap_err(), Refusal::WrongSlotCount);
    }
    assert!(memory.iter().chain(&overflow).chain(&long).all(|&byte| byte == 9));
}

#[test]
fn a_slice_of_another_pool_is_refused() {
    let (mut memory, mut overflow) = ([0; 16], [0; 16]);
    let (mut memory_2, mut overflow_2) = ([0; 16], [0; 16]);
    let mut pool = Pool::new(8, &mut memory, &mut overflow).unwrap();
    let mut other = Pool::new(8, &mut memory_2, &mut overflow_2).unwrap();
    let (own, others) = (pooled(&mut pool, b"own"), pooled(&mut other, b"its"));
    assert_eq!(own.handle(), others.handle());
    assert_eq!(pool.slice(&others), Err(Refusal::NotLive));
    let (others, refusal) = pool.release(others).unwrap_err();
    assert_eq!((refusal, pool.record().live), (Refusal::NotLive, 0x80));
    assert!(other.release(others).is_ok() && pool.release(own).is_ok());
}

#[test]
fn memories_up_to_the_limit() {
    let mut long = std::vec![0; raw::BYTE_LIMIT + 1];
    for slots in [8, 16] {
        assert_eq!(Pool::new(slots, &mut long, &mut []).unwrap_err(), Refusal::MemoryTooLong);
        assert_eq!(Pool::new(slots, &mut [], &mut long).unwrap_err(), Refusal::MemoryTooLong);
        let (memory, _) = long.split_at_mut(raw::BYTE_LIMIT);
        assert!(Pool::new(slots, memory, &mut []).is_ok());
        assert!(Pool::new(slots, &mut [], &mut []).is_ok());
    }
}

#[test]
fn the_numbers_of_refusals() {
    for number in (1..=8).chain([12, 16]) {
        let refusal = Refusal::from_number(number).unwrap();
        assert_eq!(refusal.number(), number);
        assert!(refusal.to_string().starts_with(&std::format!("refusal {number}: ")));
    }
    let others = [0, 9, 10, 11, 13, 14, 15, 17, 255];
    assert!(others.iter().all(|&number| Refusal::from_number(number).is_none()));
}
