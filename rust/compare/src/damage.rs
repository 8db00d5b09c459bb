//! Damaged input: records with fields changed, memories of other lengths, invented handles, and
//! records made by hand. The answer must be the refusal that is due, and nothing may change; on a
//! record that still passes the call must do what model.rs says.

use crate::counts::Counts;
use crate::exhaustive;
use crate::given::Given;
use crate::memory::Memory;
use crate::model::{self, Call};
use crate::port::Port;
use crate::shrink::Disagreement;
use crate::sound::{bit, is_count};
use crate::state::State;
use buffer_pool::raw::{self, Handle, Record, BYTE_LIMIT, CALLERS, MOST_SLOTS};
use oracle::random::Random;

/// The fields of a record, as `set` numbers them: 16 of their own, then what each slot has, also those
/// above the slot count, then the serials given to each caller.
const OWN: usize = 16;
const GIVEN: usize = OWN + 4 * MOST_SLOTS;
const FIELDS: usize = GIVEN + CALLERS;

/// The fields of 32 bits of which few are used: a bit above them is refused with 1.
const LIVE: usize = 2;
const MODE: usize = 3;

/// The slot count.
const SLOT_COUNT: usize = 15;

/// The longest memory that is lent to fit a damaged length.
const LENT: u64 = 4096;

/// Sets a field, in its width.
fn set(r: &mut Record, field: usize, value: u64) {
    match field {
        0 => r.capacity = value,
        1 => r.overflow = value,
        LIVE => r.live = value as u32,
        MODE => r.mode = value as u32,
        4 => r.back_start = value as usize,
        5 => r.back_len = value as usize,
        6 => r.used = value as usize,
        7 => r.raw_offset = value,
        8 => r.raw_len = value,
        9 => r.front_back_start = value as usize,
        10 => r.front_byte_capacity = value,
        11 => r.front_len = value as usize,
        12 => r.kept = value,
        13 => r.cursor = value,
        14 => r.reserved = value,
        SLOT_COUNT => r.slots = value as usize,
        GIVEN.. => r.given[field - GIVEN] = value as u32,
        _ => {
            let at = (field - OWN) % MOST_SLOTS;
            match (field - OWN) / MOST_SLOTS {
                0 => r.starts[at] = value as u32,
                1 => r.lengths[at] = value as u32,
                2 => r.serials[at] = value as u32,
                _ => r.callers[at] = value as u8,
            }
        }
    }
}

/// A field's value.
fn get(r: &Record, field: usize) -> u64 {
    match field {
        0 => r.capacity,
        1 => r.overflow,
        LIVE => r.live.into(),
        MODE => r.mode.into(),
        4 => r.back_start as u64,
        5 => r.back_len as u64,
        6 => r.used as u64,
        7 => r.raw_offset,
        8 => r.raw_len,
        9 => r.front_back_start as u64,
        10 => r.front_byte_capacity,
        11 => r.front_len as u64,
        12 => r.kept,
        13 => r.cursor,
        14 => r.reserved,
        SLOT_COUNT => r.slots as u64,
        GIVEN.. => r.given[field - GIVEN].into(),
        _ => {
            let at = (field - OWN) % MOST_SLOTS;
            match (field - OWN) / MOST_SLOTS {
                0 => r.starts[at].into(),
                1 => r.lengths[at].into(),
                2 => r.serials[at].into(),
                _ => r.callers[at].into(),
            }
        }
    }
}

/// Numbers at which something may turn, beside `value` and those of the record.
fn edges(r: &Record, value: u64) -> Vec<u64> {
    let limit = BYTE_LIMIT as u64;
    let near = |n: u64| [n.wrapping_sub(1), n, n.wrapping_add(1)];
    let mut edges: Vec<u64> =
        [value, r.capacity, r.overflow, r.kept, limit, 8, MOST_SLOTS as u64, CALLERS as u64]
            .into_iter()
            .flat_map(near)
            .collect();
    edges.extend([0, 1, 2, 0x7f, 0x80, 0xff, 0x100, 0x7fff, 0x8000, 0xffff, 0x1_0000]);
    edges.extend([1 << 31, u64::from(u32::MAX), 1 << 32, (1 << 32) + 1, (1 << 32) + 8]);
    edges.extend([1 << 63, u64::MAX - 1, u64::MAX]);
    edges
}

/// A value to set: an edge, or any number of some width.
fn value(r: &Record, field: usize, random: &mut Random) -> u64 {
    let edge = random.pick(&edges(r, get(r, field)));
    let small = random.below(20);
    let any = random.below(u64::MAX) >> random.below(64);
    random.weighed(&[(6, edge), (3, small), (1, any)])
}

/// Each kind of call once, with numbers near its edges; of takes one by a caller and one by any number.
fn calls(r: &Record, random: &mut Random) -> [Call; 9] {
    let number = |own: u64, random: &mut Random| {
        let edge = random.pick(&edges(r, own));
        let small = random.below(6);
        random.weighed(&[(2, edge), (3, small)])
    };
    let destination = random.pick(&[r.cursor, r.cursor.wrapping_sub(1), r.overflow, 0]);
    let destination = destination.min(LENT) as usize;
    let take = |caller: u64| Call::Take { caller, destination };
    [
        Call::Reserve(number(r.capacity.wrapping_sub(r.raw_offset), random)),
        Call::Commit(number(r.reserved, random)),
        Call::Truncate(number(r.raw_len, random)),
        take(random.below(CALLERS as u64)),
        take(caller(random)),
        Call::Release(handle(r, random)),
        Call::Frame,
        Call::Reservation,
        Call::Slice(handle(r, random)),
    ]
}

/// A caller, or a number beside them that is none: also one whose low bits are a caller's.
fn caller(random: &mut Random) -> u64 {
    let near = random.below(CALLERS as u64 + 2);
    let shift = random.pick(&[8, 16, 31, 32, 33, 48, 63]);
    let wide = random.below(CALLERS as u64) | 1 << shift;
    random.weighed(&[(4, near), (2, wide), (1, u64::MAX)])
}

/// The handle of a slot, seldom of one above the slot count, and mostly one number of it changed.
fn handle(r: &Record, random: &mut Random) -> Handle {
    let slots = if random.chance(90) { r.slots.clamp(1, MOST_SLOTS) } else { MOST_SLOTS };
    let at = random.below(slots as u64) as usize;
    let (start, length, serial) = (r.starts[at], r.lengths[at], r.serials[at]);
    let (slot, caller) = (at as u16 + 1, u16::from(r.callers[at]));
    let h = Handle { start, length, serial, slot, caller };
    let other = |n: u32, random: &mut Random| {
        random.pick(&[n.wrapping_add(1), n.wrapping_sub(1), n ^ 1 << 31, 0, u32::MAX])
    };
    let near = random.pick(&[0, 1, 8, 9, 16, 17, 255, 256, slot + 1, slot ^ 8, slot ^ 0x10]);
    let wide = |n: u16, random: &mut Random| {
        random.pick(&[n | 0x100, n << 8, n | 1 << 12, n | 1 << 15, !0])
    };
    match random.below(12) {
        0 => Handle { start: other(start, random), ..h },
        1 => Handle { length: other(length, random), ..h },
        2 => Handle { serial: other(serial, random), ..h },
        3 => Handle { slot: near, ..h },
        4 => Handle { slot: wide(slot, random), ..h },
        5 => Handle { caller: random.below(CALLERS as u64 + 2) as u16, ..h },
        6 => Handle { caller: caller ^ random.pick(&[1, 2, 3, 4]), ..h },
        7 => Handle { caller: wide(caller, random), ..h },
        _ => h,
    }
}

/// What a call gave and left, with its destination.
#[derive(PartialEq)]
struct Done {
    given: Given,
    after: State,
    destination: Memory,
}

/// What a call finds as its destination.
fn lent(call: &Call) -> Memory {
    let len = if let Call::Take { destination, .. } = call { *destination } else { 0 };
    Memory::marked(len, 0xd0)
}

/// Does a call on a copy of the state.
fn done(state: &State, call: &Call) -> Done {
    let (mut after, mut destination) = (state.clone(), lent(call));
    let given = model::call(&mut after, call, &mut destination);
    Done { given, after, destination }
}

/// Does a call on a copy of the state and compares what comes out with what is due.
fn check(state: &State, call: &Call, counts: &mut Counts) -> Result<(), Disagreement> {
    let done = done(state, call);
    let Done { given, after, destination } = &done;
    let due = model::refusal(state, call);
    let verdict = match (call, given) {
        (Call::Reserve(len), Given::Reserved(given)) if due == 0 => {
            let kept = given.refusal == 0 || after == state;
            let kept = if kept { Ok(()) } else { Err("a refused reserve changes something") };
            kept.and_then(|()| model::reserve(state, *len, after, given))
        }
        _ => as_due(state, call, due, &done),
    };
    let beside = after.intact() && destination.intact();
    let verdict = verdict.and(if beside { Ok(()) } else { Err("a byte beside a memory changes") });
    let (pool, overflow) = (state.pool.len(), state.overflow.len());
    verdict.map_err(|cause| {
        Disagreement::OnDamaged(format!(
            "damaged input: {cause}\n  lent: {pool} and {overflow} bytes\n  {call:?}\n  \
             {:?}\n  refusal due: {due}\n  {given:?}\n  {:?}",
            state.record, after.record
        ))
    })?;
    counts.call(call.kind(), given.refusal());
    Ok(())
}

/// Whether a call that is no accepted reserve gave and left exactly what is due.
fn as_due(state: &State, call: &Call, due: u8, done: &Done) -> Result<(), &'static str> {
    let (mut expected, mut filled) = (state.clone(), lent(call));
    let given = match due {
        0 => model::perform(&mut expected, call, &mut filled),
        refusal => call.refused(refusal),
    };
    if done.given != given {
        return Err("a byte of the answer");
    }
    if done.destination != filled {
        return Err("a byte of the destination");
    }
    if done.after != expected {
        return Err("a byte of what it leaves");
    }
    Ok(())
}

/// Lends memories of the damaged lengths, where these are not too long.
fn fit(state: &mut State) {
    let (capacity, overflow) = (state.record.capacity, state.record.overflow);
    if capacity <= LENT && capacity != state.pool.len() as u64 {
        state.pool = Memory::marked(capacity as usize, 1);
    }
    if overflow <= LENT && overflow != state.overflow.len() as u64 {
        state.overflow = Memory::marked(overflow as usize, 0x81);
    }
}

/// Lends one memory with some other length.
fn lend_other(state: &mut State, random: &mut Random) {
    let other = |len: usize, random: &mut Random| {
        random.pick(&[len + 1, len.saturating_sub(1), 0, 1, 2 * len, len + 7])
    };
    if random.chance(50) {
        state.pool = Memory::marked(other(state.pool.len(), random), 1);
    } else {
        state.overflow = Memory::marked(other(state.overflow.len(), random), 0x81);
    }
}

/// Damages copies of a state that was reached, and does every call on each.
pub fn reached(
    state: &State,
    random: &mut Random,
    counts: &mut Counts,
) -> Result<(), Disagreement> {
    for _ in 0..6 {
        let mut damaged = state.clone();
        for _ in 0..random.pick(&[0, 1, 1, 1, 1, 2, 3]) {
            let field = random.below(FIELDS as u64) as usize;
            let value = value(&damaged.record, field, random);
            set(&mut damaged.record, field, value);
        }
        if random.chance(50) {
            fit(&mut damaged);
        }
        if random.chance(20) {
            lend_other(&mut damaged, random);
        }
        for call in calls(&damaged.record, random) {
            check(&damaged, &call, counts)?;
        }
    }
    unread(state, random, counts)
}

/// Entries above the slot count do not matter: with others in their place every call gives and leaves the
/// same. They stay, but that a reset which clears the starts and lengths clears these too.
fn unread(state: &State, random: &mut Random, counts: &mut Counts) -> Result<(), Disagreement> {
    let slots = state.record.slots;
    if slots == MOST_SLOTS {
        return Ok(());
    }
    let mut other = state.clone();
    above(slots).for_each(|field| set(&mut other.record, field, random.within(1, 255)));
    for call in calls(&other.record, random) {
        let (plain, mut marked) = (done(state, &call), done(&other, &call));
        let clears = clears_entries(&other.record, &call, &marked);
        let kept = above(slots).all(|field| {
            let place = field < OWN + 2 * MOST_SLOTS;
            let due = if place && clears { 0 } else { get(&other.record, field) };
            get(&marked.after.record, field) == due
        });
        for field in above(slots) {
            set(&mut marked.after.record, field, get(&plain.after.record, field));
        }
        if !kept || plain != marked {
            return Err(Disagreement::OnDamaged(format!(
                "an entry above the slot count matters or changes\n  {call:?}\n  {:?}\n  {:?}\n  {:?}",
                other.record, plain.given, marked.given
            )));
        }
        counts.call(call.kind(), plain.given.refusal());
    }
    Ok(())
}

/// The fields that slots above the slot count have.
fn above(slots: usize) -> impl Iterator<Item = usize> {
    (OWN..GIVEN).filter(move |field| (field - OWN) % MOST_SLOTS >= slots)
}

/// Whether the call is a reserve that resets out of the overflow with an empty frame: it writes 0 to all starts and
/// lengths, also above the slot count (SPECIFICATION 5.3).
fn clears_entries(before: &Record, call: &Call, done: &Done) -> bool {
    let resets = before.mode == raw::OVERFLOW && before.live == 0 && before.cursor == 0;
    matches!(call, Call::Reserve(_)) && done.given.refusal() == 0 && resets && before.capacity != 0
}

/// Every field of some states with so many slots set to each edge, live word and mode also to others,
/// with each kind of call.
pub fn every_field(
    slots: usize,
    random: &mut Random,
    counts: &mut Counts,
) -> Result<(), Disagreement> {
    for state in ready_states(slots)? {
        unread(&state, random, counts)?;
        for field in 0..FIELDS {
            let mut values = edges(&state.record, get(&state.record, field));
            if field == LIVE || field == MODE {
                values.extend(with_bytes(get(&state.record, field)));
            }
            for value in values {
                let mut damaged = state.clone();
                set(&mut damaged.record, field, value);
                for call in calls(&damaged.record, random) {
                    check(&damaged, &call, counts)?;
                }
                fit(&mut damaged);
                for call in calls(&damaged.record, random) {
                    check(&damaged, &call, counts)?;
                }
            }
        }
    }
    Ok(())
}

/// A number of 32 bits with every value in each of its bytes.
fn with_bytes(number: u64) -> impl Iterator<Item = u64> {
    let with =
        move |shift: u32| (0..256).map(move |byte| number & !(0xff << shift) | byte << shift);
    [0, 8, 16, 24].into_iter().flat_map(with)
}

/// The pools of so many slots made ready for the exhaustive lists.
fn ready_states(slots: usize) -> Result<Vec<State>, Disagreement> {
    let state = |list: oracle::calls::List| {
        let mut port = Port::new(slots, list.capacity, list.overflow)?;
        for event in &list.events {
            port.apply(event)?;
        }
        Ok(port.state)
    };
    let states: Result<_, String> = exhaustive::ready_lists(slots).into_iter().map(state).collect();
    states.map_err(Disagreement::OnDamaged)
}

/// Records of so many slots made by hand, most of them passing, with entries of freed slots that no call
/// leaves; some with one field damaged, and some of nothing but random bits, but for the slot count of
/// half of these.
pub fn by_hand(
    slots: usize,
    calls_due: u64,
    random: &mut Random,
    counts: &mut Counts,
) -> Result<(), Disagreement> {
    let until = counts.total() + calls_due;
    while counts.total() < until {
        let mut record = made(slots, random);
        let field = random.below(FIELDS as u64) as usize;
        match random.below(10) {
            kind @ (0 | 1) => {
                let limit = if kind == 0 { u64::MAX } else { slots as u64 + 1 };
                (0..FIELDS).for_each(|field| set(&mut record, field, random.below(limit)));
                record.slots = random.pick(&[record.slots, slots]);
            }
            2 | 3 => {
                let value = value(&record, field, random);
                set(&mut record, field, value);
            }
            _ => {}
        }
        let mut state =
            State { record, pool: Memory::marked(0, 0), overflow: Memory::marked(0, 0) };
        fit(&mut state);
        for call in calls(&state.record, random) {
            check(&state, &call, counts)?;
        }
    }
    Ok(())
}

/// A record whose live slices rise, with its other numbers mostly as the mode asks. Entries above the slot
/// count are any.
fn made(slots: usize, random: &mut Random) -> Record {
    let mut r = Record { slots, mode: random.below(3) as u32, ..Record::default() };
    (r.capacity, r.overflow) = (random.within(1, 3 * slots as u64), random.below(24));
    r.back_start = random.below(slots as u64) as usize;
    r.back_len = random.below((slots - r.back_start) as u64 + 1) as usize;
    r.given = [(); CALLERS].map(|()| random.weighed(&[(4, 100), (1, u32::MAX)]));
    for at in 0..MOST_SLOTS {
        r.starts[at] = random.below(30) as u32;
        r.lengths[at] = random.below(5) as u32;
        r.serials[at] = random.below(100) as u32;
        let (known, any) = (random.below(CALLERS as u64), random.below(256));
        r.callers[at] = random.weighed(&[(6, known), (1, any)]) as u8;
    }
    r.kept = random.below(r.overflow + 1);
    match r.mode {
        0 => made_back(&mut r, random),
        1 => made_front(&mut r, random),
        _ => made_overflow(&mut r, random),
    }
    r
}

/// Live slices in some of the slots `from` to `to`, in the bytes `start` to `end`. Gives the last end.
fn fill_slots(
    r: &mut Record,
    (from, to): (usize, usize),
    (start, end): (u64, u64),
    random: &mut Random,
) -> u64 {
    let mut at = start;
    for p in from..=to {
        let length = random.within(1, 3);
        let gap = random.below(2);
        if at + gap + length <= end && random.chance(60) {
            (r.starts[p - 1], r.lengths[p - 1]) = ((at + gap) as u32, length as u32);
            r.live |= bit(r, p);
            at += gap + length;
        }
    }
    at
}

/// A frame and a reservation from `start` on, which end by `end`, if a slot is left.
fn open_frame(r: &mut Record, start: u64, end: u64, slot_left: bool, random: &mut Random) {
    r.raw_offset = start + random.below(2).min(end - start);
    if slot_left {
        r.raw_len = random.below(end - r.raw_offset + 1);
        r.reserved = random.below(end - r.raw_offset - r.raw_len + 1);
    }
}

fn made_back(r: &mut Record, random: &mut Random) {
    r.used = r.back_start + r.back_len;
    let end = fill_slots(r, (1, r.used), (0, r.capacity), random);
    open_frame(r, end, r.capacity, r.used < r.slots, random);
}

fn made_front(r: &mut Record, random: &mut Random) {
    r.back_start = random.within(1, r.slots as u64 - 1) as usize;
    r.back_len = r.slots - r.back_start;
    r.front_back_start = random.within(1, r.back_start as u64) as usize;
    r.front_byte_capacity = random.below(r.capacity + 1);
    r.front_len = random.below(r.front_back_start as u64 + 1) as usize;
    r.used = r.front_len;
    let (slots, bytes) = (r.front_back_start, r.front_byte_capacity);
    let end = fill_slots(r, (1, r.front_len), (0, bytes), random);
    fill_slots(r, (slots + 1, r.slots), (bytes, r.capacity), random);
    open_frame(r, end, bytes, r.front_len < slots, random);
}

fn made_overflow(r: &mut Record, random: &mut Random) {
    r.used = random.below(r.slots as u64 + 2) as usize;
    fill_slots(r, (1, r.back_start + r.back_len), (0, r.capacity), random);
    r.cursor = random.below(r.kept + 1);
    r.reserved = random.below(r.kept - r.cursor + 1);
}

/// New with every slot count up to 64 and some above, with memories of few lengths, and with 8 and 16 of
/// many around the byte limit: what it gives, and memories as they were or, if it is not refused, a pool
/// memory of zeros. Gives the count of calls.
pub fn new_pools() -> Result<u64, Disagreement> {
    let limit = BYTE_LIMIT;
    let lengths = [0, 1, 2, 7, 8, limit - 1, limit, limit + 1, limit + 2, 2 * limit];
    let counts = (0..=64).chain([255, 256, 264, 1 << 16, 1 << 32 | 8, 1 << 63 | 16, usize::MAX]);
    let mut calls = 0;
    for slots in counts {
        let lengths = if is_count(slots) { &lengths[..] } else { &[0, 8, limit + 1] };
        for &capacity in lengths {
            for &overflow in lengths {
                new_pool(slots, capacity, overflow)?;
                calls += 1;
            }
        }
    }
    Ok(calls)
}

fn new_pool(slots: usize, capacity: usize, overflow: usize) -> Result<(), Disagreement> {
    let (pool, other) = (Memory::marked(capacity, 1), Memory::marked(overflow, 0x81));
    let (state, created) = State::new(slots, pool.clone(), other.clone());
    let due = model::created(slots, capacity, overflow);
    let left = if due.refusal == 0 { Memory::new(&vec![0; capacity]) } else { pool };
    if created.as_bytes() == due.as_bytes() && state.pool == left && state.overflow == other {
        return Ok(());
    }
    let asked = format!("{slots} slots, {capacity} and {overflow} bytes");
    Err(Disagreement::OnDamaged(format!("new with {asked} gives {created:?}\n  due: {due:?}")))
}
