//! The Rust as judge: a real pool to which a list is done, and what it answers.

use crate::calls::{Event, Name, View, CALLERS};
use crate::changes;
use crate::moves::{self, Move};
use crate::pools::{new_pool, Pool, Slice, MOST_SLOTS};
use crate::record::{slot_of, Mode, Record};

/// The refusals of SPECIFICATION 3.3 that a call on a sound record can meet.
pub const OVERFLOW_TOO_SHORT: u8 = 4;
pub const COMMIT_TOO_LONG: u8 = 5;
pub const DESTINATION_TOO_SHORT: u8 = 6;
pub const NOT_LIVE: u8 = 7;
pub const UNKNOWN_CALLER: u8 = 12;

/// What an event gave: a refusal number or 0, a place, and at a reserve the count of mode changes and
/// the moves of the frame.
#[derive(Debug, Default, PartialEq)]
pub struct Answer {
    pub refusal: u8,
    pub start: usize,
    pub len: usize,
    pub changes: u32,
    pub moves: Vec<Move>,
    /// The frame that a take copied out of the overflow.
    pub copied: Vec<u8>,
}

impl Answer {
    fn refused(refusal: u8) -> Answer {
        Answer { refusal, ..Answer::default() }
    }

    fn place((start, len): (usize, usize)) -> Answer {
        Answer { start, len, ..Answer::default() }
    }
}

/// The numbers that stand between two events.
#[derive(Clone, Copy, Debug)]
pub struct Situation {
    pub record: Record,
    pub capacity: usize,
    pub overflow: usize,
    /// The frame's length, in whichever memory it lies.
    pub frame_len: usize,
    /// The reservation's length, 0 once it is spent.
    pub reserved: usize,
}

/// A slice that was taken out of the pool and not released.
struct Held {
    name: Name,
    slice: Box<dyn Slice>,
    start: usize,
}

/// A real pool, with what its callers hold.
pub struct Judge {
    pool: Box<dyn Pool>,
    /// Where the pool memory starts.
    base: *const u8,
    slots: usize,
    capacity: usize,
    overflow: usize,
    /// The range last offered by a reserve. It is read only while it is not spent.
    offer: *mut u8,
    reserved: usize,
    /// The held slices, by slot.
    held: [Option<Held>; MOST_SLOTS],
    /// Serials given to each caller.
    serials: [u32; CALLERS],
    /// Every call that was not refused and every write that reached its view: what a twin replays.
    accepted: Vec<Event>,
    record: Record,
}

impl Judge {
    /// A new pool of 8 or 16 slots. Its first reservation, of no bytes, shows where its memory starts.
    pub fn new(slots: usize, capacity: u32, overflow: u32) -> Judge {
        let mut pool = new_pool(slots, capacity as usize);
        let offer = pool.reserve(0).as_mut_ptr();
        let record = Record::read(slots, &*pool);
        Judge {
            pool,
            base: offer,
            slots,
            capacity: capacity as usize,
            overflow: overflow as usize,
            offer,
            reserved: 0,
            held: Default::default(),
            serials: [0; CALLERS],
            accepted: Vec::new(),
            record,
        }
    }

    /// Does one event and gives its answer. A write changes no number, so none is read after it.
    pub fn apply(&mut self, event: &Event) -> Answer {
        let answer = match *event {
            Event::Reserve(len) => self.reserve(len),
            Event::Commit(len) => self.commit(len),
            Event::Take { caller, destination } => self.take(caller, destination),
            Event::Truncate(len) => self.truncate(len),
            Event::Release(name) => self.release(name),
            Event::Write { view, index, value } => self.write(view, index, value),
        };
        if answer.refusal == 0 && !past_end(event, &answer) {
            self.accepted.push(*event);
        }
        if event.letter() != 'w' {
            self.record = Record::read(self.slots, &*self.pool);
            self.cross_check();
        }
        answer
    }

    /// 4 if the Rust would use the heap for more than the overflow has; else what it offers.
    fn reserve(&mut self, len: u64) -> Answer {
        let needed = self.pool.frame_len() as u128 + u128::from(len);
        if needed > self.overflow as u128 && self.would_use_overflow(len) {
            return Answer::refused(OVERFLOW_TOO_SHORT);
        }
        changes::take();
        moves::take();
        let offer = self.pool.reserve(len as usize);
        (self.offer, self.reserved) = (offer.as_mut_ptr(), offer.len());
        let (changes, moves) = (changes::take(), moves::take());
        let (frame, end) = (self.pool.frame(), self.frame_end());
        assert_eq!(
            self.offer as *const u8,
            frame.as_ptr_range().end,
            "the offer extends the frame"
        );
        Answer { changes, moves, ..Answer::place((end, self.reserved)) }
    }

    /// Whether a reserve would end in the overflow: a twin tries it. A length above the capacity
    /// fits nowhere in the pool, so one byte above it decides the same and allocates little.
    fn would_use_overflow(&self, len: u64) -> bool {
        let mut twin = replay(self.slots, self.capacity, &self.accepted);
        twin.pool.reserve(len.min(self.capacity as u64 + 1) as usize);
        twin.pool.is_alloc_mode()
    }

    /// 5 if the length exceeds the reservation, where the Rust panics.
    fn commit(&mut self, len: u64) -> Answer {
        if len > self.reserved as u64 {
            return Answer::refused(COMMIT_TOO_LONG);
        }
        self.pool.commit(len as usize);
        self.reserved = 0;
        Answer::place(self.frame_place())
    }

    /// 12 if there is no such caller; then 6 if the frame lies in the overflow and is longer than the
    /// destination. A pooled slice has its caller's next serial.
    fn take(&mut self, caller: u8, destination: u64) -> Answer {
        if usize::from(caller) >= CALLERS {
            return Answer::refused(UNKNOWN_CALLER);
        }
        let (start, len) = self.frame_place();
        if self.pool.is_alloc_mode() && len as u64 > destination {
            return Answer::refused(DESTINATION_TOO_SHORT);
        }
        let slice = self.pool.take();
        self.reserved = 0;
        let bytes: &[u8] = (*slice).as_ref();
        assert_eq!(bytes.len(), len, "a take gives the frame");
        match slot_of(&*slice) {
            Some(slot) => {
                assert_eq!(bytes.as_ptr(), self.base.wrapping_add(start));
                let serial = &mut self.serials[usize::from(caller)];
                *serial += 1;
                let held = Held { name: Name { caller, serial: *serial }, slice, start };
                assert!(self.held[slot - 1].replace(held).is_none(), "the slot was free");
                Answer::place((start, len))
            }
            None => Answer { copied: bytes.to_vec(), ..Answer::place((0, len)) },
        }
    }

    fn truncate(&mut self, len: u64) -> Answer {
        self.pool.truncate(usize::try_from(len).unwrap_or(usize::MAX));
        self.reserved = 0;
        Answer::place(self.frame_place())
    }

    /// 7 if no live slice has the name.
    fn release(&mut self, name: Name) -> Answer {
        match self.find(name) {
            Some(at) => {
                let held = self.held[at].take().expect("found");
                Answer::place(held.place())
            }
            None => Answer::refused(NOT_LIVE),
        }
    }

    /// Writes one byte through a view, if the view reaches that far, and gives the view's place. A
    /// name that is not live has an empty view.
    fn write(&mut self, view: View, index: u64, value: u8) -> Answer {
        let place = self.view_place(view);
        if index < place.1 as u64 {
            self.bytes_mut(view)[index as usize] = value;
        }
        Answer::place(place)
    }

    /// Start and length of a view; `0 0` for a name that is not live.
    pub fn view_place(&self, view: View) -> (usize, usize) {
        match view {
            View::Reservation => (self.frame_end(), self.reserved),
            View::Frame => self.frame_place(),
            View::Slice(name) => match self.find(name) {
                Some(at) => self.held[at].as_ref().map(Held::place).expect("found"),
                None => (0, 0),
            },
        }
    }

    fn bytes_mut(&mut self, view: View) -> &mut [u8] {
        match view {
            View::Reservation => unsafe {
                std::slice::from_raw_parts_mut(self.offer, self.reserved)
            },
            View::Frame => self.pool.frame_mut(),
            View::Slice(name) => {
                let at = self.find(name).expect("a live slice");
                (*self.held[at].as_mut().expect("found").slice).as_mut()
            }
        }
    }

    /// The index of the live slice with this name.
    fn find(&self, name: Name) -> Option<usize> {
        let has = |held: &Option<Held>| held.as_ref().is_some_and(|held| held.name == name);
        self.held.iter().position(has)
    }

    /// Start and length of the frame; in the overflow it starts at 0.
    fn frame_place(&self) -> (usize, usize) {
        let frame = self.pool.frame();
        match self.pool.is_alloc_mode() {
            true => (0, frame.len()),
            false => (frame.as_ptr() as usize - self.base as usize, frame.len()),
        }
    }

    /// Where the frame ends, which is where every reservation starts.
    fn frame_end(&self) -> usize {
        let (start, len) = self.frame_place();
        start + len
    }

    /// What can be seen in two ways is the same in both.
    fn cross_check(&self) {
        let mut live = 0;
        for (p, held) in (1..).zip(&self.held) {
            if let Some(held) = held {
                live |= self.record.mask(p);
                assert_eq!(held.place(), self.record.slots[p - 1], "slot {p}");
            }
        }
        assert_eq!(live, self.record.live, "live bits");
        if self.record.mode != Mode::Overflow {
            let place = (self.record.frame_start, self.record.frame_len);
            assert_eq!(self.frame_place(), place, "the frame");
        }
    }

    pub fn situation(&self) -> Situation {
        Situation {
            record: self.record,
            capacity: self.capacity,
            overflow: self.overflow,
            frame_len: self.pool.frame_len(),
            reserved: self.reserved,
        }
    }

    /// The names of the live slices, in slot order.
    pub fn live_names(&self) -> Vec<Name> {
        self.held.iter().flatten().map(|held| held.name).collect()
    }

    /// How many serials were given to each caller.
    pub fn serials(&self) -> [u32; CALLERS] {
        self.serials
    }

    /// Whether a slice with this name was ever given, live or not.
    pub fn was_given(&self, name: Name) -> bool {
        let given = self.serials.get(usize::from(name.caller));
        given.is_some_and(|&given| (1..=given).contains(&name.serial))
    }

    pub fn frame(&self) -> &[u8] {
        self.pool.frame()
    }

    pub fn reservation(&self) -> &[u8] {
        unsafe { std::slice::from_raw_parts(self.offer, self.reserved) }
    }

    /// The live slices with their slots, in the order of these.
    pub fn slices(&self) -> impl Iterator<Item = (usize, &[u8])> {
        let live = |(p, held)| Option::as_ref(held).map(|held: &Held| (p, held.bytes()));
        (1..).zip(&self.held).filter_map(live)
    }

    /// Name, start and length of the live slice in slot `p`, from 1 on.
    pub fn slice_place(&self, p: usize) -> Option<(Name, usize, usize)> {
        let held = self.held[p - 1].as_ref()?;
        Some((held.name, held.start, held.bytes().len()))
    }

    /// Every byte of the pool memory.
    pub fn pool_bytes(&self) -> &[u8] {
        unsafe { std::slice::from_raw_parts(self.base, self.capacity) }
    }

    /// Another pool that has had the same calls and writes.
    pub fn again(&self) -> Judge {
        let mut twin = replay(self.slots, self.capacity, &self.accepted);
        let mut held = |held: &Option<Held>| {
            let Held { name, start, .. } = *held.as_ref()?;
            let slice = twin.slice(name).take().expect("a live slice");
            Some(Held { name, slice, start })
        };
        Judge {
            held: std::array::from_fn(|at| held(&self.held[at])),
            base: twin.base,
            offer: twin.offer,
            pool: twin.pool,
            accepted: self.accepted.clone(),
            ..*self
        }
    }
}

/// Whether the event is a write that its view does not reach.
fn past_end(event: &Event, answer: &Answer) -> bool {
    matches!(event, Event::Write { index, .. } if *index >= answer.len as u64)
}

impl Held {
    fn bytes(&self) -> &[u8] {
        (*self.slice).as_ref()
    }

    fn place(&self) -> (usize, usize) {
        (self.start, self.bytes().len())
    }
}

/// A pool that has had the same calls and writes, and the slices that it gave.
struct Twin {
    pool: Box<dyn Pool>,
    /// Where the pool memory starts, and the range last offered.
    base: *const u8,
    offer: *mut u8,
    /// By caller, then by serial.
    slices: [Vec<Option<Box<dyn Slice>>>; CALLERS],
}

/// Does accepted calls and writes again on a new pool.
fn replay(slots: usize, capacity: usize, accepted: &[Event]) -> Twin {
    let mut pool = new_pool(slots, capacity);
    let offer = pool.reserve(0).as_mut_ptr();
    let mut twin = Twin { pool, base: offer, offer, slices: Default::default() };
    for event in accepted {
        match *event {
            Event::Reserve(len) => twin.offer = twin.pool.reserve(len as usize).as_mut_ptr(),
            Event::Commit(len) => twin.pool.commit(len as usize),
            Event::Take { caller, .. } => twin.take(caller),
            Event::Truncate(len) => twin.pool.truncate(usize::try_from(len).unwrap_or(usize::MAX)),
            Event::Release(name) => *twin.slice(name) = None,
            Event::Write { view, index, value } => twin.write(view, index as usize, value),
        }
    }
    twin
}

impl Twin {
    /// Takes, and keeps a pooled slice under its caller and serial.
    fn take(&mut self, caller: u8) {
        let pooled = !self.pool.is_alloc_mode() && self.pool.frame_len() > 0;
        let slice = self.pool.take();
        if pooled {
            self.slices[usize::from(caller)].push(Some(slice));
        }
    }

    /// The slice that was given with this name, if it is live.
    fn slice(&mut self, name: Name) -> &mut Option<Box<dyn Slice>> {
        &mut self.slices[usize::from(name.caller)][name.serial as usize - 1]
    }

    /// Writes a byte that lies inside the view.
    fn write(&mut self, view: View, index: usize, value: u8) {
        match view {
            View::Reservation => unsafe { *self.offer.add(index) = value },
            View::Frame => self.pool.frame_mut()[index] = value,
            View::Slice(name) => {
                let slice = self.slice(name).as_mut().expect("a live slice");
                (**slice).as_mut()[index] = value;
            }
        }
    }
}
