//! The soundness test, written from the rules' text (SPECIFICATION 4) and not from the port. Sums are
//! whole numbers. Serials and callers are not looked at.
//!
//! In the comments w is the slot count, s and n are `back_start` and `back_len`; f, c and l are the
//! front's slots, bytes and used slots.

use buffer_pool::raw::{Record, BACK, BYTE_LIMIT, FRONT, OVERFLOW};

/// Whether the record passes.
pub fn sound(r: &Record) -> bool {
    limited(r) && is_count(r.slots) && only_slots(r) && counted(r) && rising(r) && in_mode(r)
}

/// Whether a pool may have so many slots.
pub fn is_count(slots: usize) -> bool {
    slots == 8 || slots == 16
}

/// Capacity and overflow length are at most the byte limit, and kept is at most the overflow length.
fn limited(r: &Record) -> bool {
    let limit = BYTE_LIMIT as u64;
    r.capacity <= limit && r.overflow <= limit && r.kept <= r.overflow
}

/// The live word has no bit but those of the slots.
fn only_slots(r: &Record) -> bool {
    r.live >> r.slots == 0
}

/// s < w, s + n ≤ w, and n = 0 if the capacity is 0.
fn counted(r: &Record) -> bool {
    r.back_start < r.slots
        && r.back_len <= r.slots - r.back_start
        && (r.back_len == 0 || r.capacity != 0)
}

/// The bit of slot p: the p-th from the top of w.
pub fn bit(r: &Record, p: usize) -> u32 {
    1 << (r.slots - p)
}

/// Slot, start and end of each live slice, going up the slots.
pub fn live(r: &Record) -> impl Iterator<Item = (usize, u64, u64)> + '_ {
    let slots = (1..=r.slots).filter(|&p| r.live & bit(r, p) != 0);
    slots.map(|p| {
        let start = u64::from(r.starts[p - 1]);
        (p, start, start + u64::from(r.lengths[p - 1]))
    })
}

/// Each live slot p has p ≤ s + n, a length of at least 1, a start at or after the end of the live
/// slot before it, and an end within the capacity.
fn rising(r: &Record) -> bool {
    let mut before = 0;
    live(r).all(|(p, start, end)| {
        let fits = p <= r.back_start + r.back_len && start < end && start >= before;
        before = end;
        fits && end <= r.capacity
    })
}

/// What the record's mode asks. A number that is no mode fails.
fn in_mode(r: &Record) -> bool {
    match r.mode {
        BACK => in_back(r),
        FRONT => in_front(r),
        OVERFLOW => in_overflow(r),
        _ => false,
    }
}

/// Where frame and reservation end in the pool.
fn frame_end(r: &Record) -> u128 {
    u128::from(r.raw_offset) + u128::from(r.raw_len) + u128::from(r.reserved)
}

/// Whether frame and reservation are both empty.
fn nothing_open(r: &Record) -> bool {
    r.raw_len == 0 && r.reserved == 0
}

/// used = s + n, cursor = 0, the frame starts at or after the end of the last live slot, frame and
/// reservation end within the capacity, and s + n < w unless both are empty.
fn in_back(r: &Record) -> bool {
    let slots = r.back_start + r.back_len;
    r.used == slots
        && r.cursor == 0
        && live(r).all(|(_, _, end)| end <= r.raw_offset)
        && frame_end(r) <= u128::from(r.capacity)
        && (slots < r.slots || nothing_open(r))
}

/// s + n = w, 1 ≤ f ≤ s, l ≤ f, used = l, cursor = 0; live slots up to l end at or before the
/// frame's start, slots l + 1 to f are free, live slots above f start at or after c; frame and
/// reservation end within c, which is within the capacity; l < f unless both are empty.
fn in_front(r: &Record) -> bool {
    let (f, c, l) = (r.front_back_start, r.front_byte_capacity, r.front_len);
    r.back_start + r.back_len == r.slots
        && (1..=r.back_start).contains(&f)
        && l <= f
        && r.used == l
        && r.cursor == 0
        && live(r).all(|(p, start, end)| (p <= l && end <= r.raw_offset) || (p > f && start >= c))
        && frame_end(r) <= u128::from(c)
        && c <= r.capacity
        && (l < f || nothing_open(r))
}

/// Frame start and length in the pool are 0, and cursor + reserved ≤ kept.
fn in_overflow(r: &Record) -> bool {
    r.raw_offset == 0
        && r.raw_len == 0
        && u128::from(r.cursor) + u128::from(r.reserved) <= u128::from(r.kept)
}

#[cfg(test)]
mod tests {
    use super::*;
    use crate::model::new_record;
    use buffer_pool::raw::{CALLERS, MOST_SLOTS};

    /// Every slot has a slice of 2 bytes, and one byte is left. Above the slot count nothing is sound.
    fn full(slots: usize) -> Record {
        let mut r = Record {
            starts: [u32::MAX; MOST_SLOTS],
            lengths: [0; MOST_SLOTS],
            live: (1 << slots) - 1,
            back_len: slots,
            used: slots,
            raw_offset: 2 * slots as u64,
            ..new_record(slots, 2 * slots + 1, 20)
        };
        for at in 0..slots {
            (r.starts[at], r.lengths[at]) = (2 * at as u32, 2);
        }
        r
    }

    #[test]
    fn what_new_and_takes_leave_passes() {
        for slots in [8, 16] {
            assert!(sound(&new_record(slots, 0, 0)));
            assert!(sound(&full(slots)));
        }
    }

    #[test]
    fn serials_and_callers_are_not_looked_at() {
        let (serials, given) = ([7; MOST_SLOTS], [u32::MAX; CALLERS]);
        for slots in [8, 16] {
            assert!(sound(&Record { serials, given, callers: [255; MOST_SLOTS], ..full(slots) }));
        }
    }

    #[test]
    fn one_number_off_fails() {
        for slots in [8, 16] {
            let full = full(slots);
            assert!(!sound(&Record { mode: 3, ..full }));
            assert!(!sound(&Record { mode: 0x100, ..full }));
            assert!(!sound(&Record { mode: 1 << 16, ..full }));
            assert!(!sound(&Record { live: full.live | 1 << slots, ..full }));
            assert!(!sound(&Record { live: full.live | 1 << 31, ..full }));
            assert!(!sound(&Record { used: slots - 1, ..full }));
            assert!(!sound(&Record { reserved: 1, ..full }));
            assert!(!sound(&Record { raw_offset: full.raw_offset - 1, ..full }));
            assert!(!sound(&Record { raw_len: u64::MAX, reserved: 1, ..full }));
            for at in 0..slots {
                let mut other = full;
                other.lengths[at] = 0;
                assert!(!sound(&other));
                other.lengths[at] = 3;
                assert!(!sound(&other));
            }
            let long = BYTE_LIMIT as u64 + 1;
            assert!(!sound(&Record { capacity: long, ..new_record(slots, 0, 0) }));
        }
    }

    #[test]
    fn a_slot_count_but_8_and_16_fails() {
        for slots in (0..100).chain([255, 256, 264, 1 << 32 | 8, usize::MAX]) {
            let new = new_record(slots, 4, 4);
            assert_eq!(sound(&new), slots == 8 || slots == 16, "{slots}");
        }
        assert!(!sound(&Record { slots: 16, ..full(8) }));
        assert!(!sound(&Record { slots: 8, ..full(16) }));
    }

    #[test]
    fn a_front_of_two_slots() {
        for slots in [8, 16] {
            let full = full(slots);
            let front = Record {
                live: full.live >> 2,
                back_start: 2,
                back_len: slots - 2,
                mode: FRONT,
                front_back_start: 2,
                front_byte_capacity: 4,
                used: 0,
                raw_offset: 0,
                raw_len: 3,
                reserved: 1,
                ..full
            };
            assert!(sound(&front));
            assert!(!sound(&Record { reserved: 2, ..front }));
            assert!(!sound(&Record { live: full.live >> 1, ..front }));
            assert!(!sound(&Record { front_byte_capacity: 5, ..front }));
            assert!(!sound(&Record { front_back_start: 0, ..front }));
        }
    }
}
