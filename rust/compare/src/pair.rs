//! The Rust and the port side by side: the same events, and everything compared after each.

use crate::counts::Counts;
use crate::given::Given;
use crate::port::Port;
use buffer_pool::raw::{self, Handle, Place, Placed, Record, Reserved, Taken};
use oracle::calls::{Event, List, Name, View};
use oracle::classes::classes;
use oracle::judge::{Answer, Judge};
use oracle::record::{self, Mode};
use std::fmt::Debug;

/// A pool of the Rust and one of the archive that have had the same calls and writes.
pub struct Pair {
    pub judge: Judge,
    pub port: Port,
}

impl Pair {
    /// New pools of so many slots.
    pub fn new(slots: usize, capacity: u32, overflow: u32) -> Result<Pair, String> {
        let judge = Judge::new(slots, capacity, overflow);
        let pair = Pair { judge, port: Port::new(slots, capacity, overflow)? };
        pair.compare()?;
        Ok(pair)
    }

    /// Another pair that has had the same.
    pub fn again(&self) -> Pair {
        Pair { judge: self.judge.again(), port: self.port.again() }
    }

    /// Does an event on both sides, compares them, and counts it. Gives the answer.
    pub fn apply(&mut self, event: &Event, counts: &mut Counts) -> Result<Answer, String> {
        let before = self.judge.situation();
        let rust = self.judge.apply(event);
        let (given, copied) = self.port.apply(event)?;
        same("the answer", &self.due(event, &rust), &given)?;
        same("the copied frame", &rust.copied, &copied)?;
        self.compare()?;
        counts.event(event, rust.refusal.into());
        counts.views += 2 + u64::from(self.port.state.record.live.count_ones());
        counts.tally.add(&classes(&before, event, &rust, &self.judge));
        Ok(rust)
    }

    /// Writes a byte on both sides. What it leaves is compared after the next call.
    pub fn write(&mut self, write: &Event, counts: &mut Counts) -> Result<(), String> {
        counts.event(write, 0);
        let rust = self.judge.apply(write);
        same("a write", &self.due(write, &rust), &self.port.apply(write)?.0)
    }

    /// What the archive has to give where the Rust, which has had the event, answers this.
    fn due(&self, event: &Event, rust: &Answer) -> Given {
        let refusal = rust.refusal.into();
        let place = match refusal {
            0 => self.place(View::Frame, rust.start, rust.len),
            _ => Place::default(),
        };
        match *event {
            Event::Reserve(_) => {
                Given::Reserved(Reserved { place, changes: rust.changes.into(), refusal })
            }
            Event::Commit(_) | Event::Truncate(_) => Given::Placed(Placed { place, refusal }),
            Event::Take { caller, .. } => {
                let (handle, copied) = (self.handle_due(caller, rust), rust.copied.len() as u64);
                Given::Taken(Taken { handle, copied, refusal })
            }
            Event::Release(_) => Given::Released(rust.refusal),
            Event::Write { view, .. } => Given::Placed(self.view_due(view)),
        }
    }

    /// A place in the memory where this view lies.
    fn place(&self, view: View, start: usize, length: usize) -> Place {
        let in_overflow = self.judge.situation().record.mode == Mode::Overflow;
        let memory = match view {
            View::Frame | View::Reservation if in_overflow => raw::OVERFLOW_MEMORY,
            _ => raw::POOL_MEMORY,
        };
        Place { start: start as u64, length: length as u64, memory }
    }

    /// The handle that a take has to give: that of the slice which its caller took last, or none if
    /// the take was refused, copied the frame, or found it empty.
    fn handle_due(&self, caller: u8, rust: &Answer) -> Handle {
        if rust.refusal != 0 || rust.len == 0 || !rust.copied.is_empty() {
            return Handle::default();
        }
        let name = Name { caller, serial: self.judge.serials()[usize::from(caller)] };
        let taken = |&p: &usize| self.judge.slice_place(p).is_some_and(|(of, ..)| of == name);
        let slots = self.judge.situation().record.count;
        let slot = (1..=slots).find(taken).expect("a slot of the slice");
        self.slot_handle(slot).expect("a live slot")
    }

    /// The handle of the live slice in a slot, as the Rust has it.
    fn slot_handle(&self, slot: usize) -> Option<Handle> {
        let (name, start, length) = self.judge.slice_place(slot)?;
        Some(Handle {
            start: start as u32,
            length: length as u32,
            serial: name.serial,
            slot: slot as u16,
            caller: name.caller.into(),
        })
    }

    /// What the archive has to give for a view: 7 for a slice that is not live, which is the one
    /// without a byte.
    fn view_due(&self, view: View) -> Placed {
        let (start, length) = self.judge.view_place(view);
        match view {
            View::Slice(_) if length == 0 => Placed { refusal: 7, ..Placed::default() },
            _ => Placed { place: self.place(view, start, length), refusal: 0 },
        }
    }

    /// Every number and byte that can be seen on both sides is the same.
    fn compare(&self) -> Result<(), String> {
        let at = self.judge.situation();
        let record = &self.port.state.record;
        same("the record", &at.record, &numbers(record))?;
        same("the live word", &u32::from(at.record.live), &record.live)?;
        same("the reservation's length", &(at.reserved as u64), &record.reserved)?;
        same("serials given", &self.judge.serials(), &record.given)?;
        same("the pool memory", &self.judge.pool_bytes(), &self.port.state.pool.bytes())?;
        self.compare_view("the frame", View::Frame, self.judge.frame())?;
        self.compare_view("the reservation", View::Reservation, self.judge.reservation())?;
        for (slot, bytes) in self.judge.slices() {
            let (name, ..) = self.judge.slice_place(slot).expect("a live slot");
            let entry = (record.callers[slot - 1], record.serials[slot - 1]);
            same("a slot's caller and serial", &(name.caller, name.serial), &entry)?;
            same("the handle", &self.slot_handle(slot), &Some(self.port.handle(name)))?;
            self.compare_view("a slice", View::Slice(name), bytes)?;
        }
        Ok(())
    }

    /// The archive gives a view where the Rust has it, with these bytes.
    fn compare_view(&self, what: &str, view: View, bytes: &[u8]) -> Result<(), String> {
        let viewed = self.port.view(view);
        same(what, &Given::Placed(self.view_due(view)), &Given::Placed(viewed))?;
        same(what, &Some(bytes), &self.port.state.part(viewed.place))
    }
}

/// The archive's record as the Rust's numbers, with the low half of the live word; above the slot count
/// the Rust has none, and the archive zeros. A mode that is none has no such numbers and is taken as a
/// front without slots, which the Rust never has.
fn numbers(record: &Record) -> record::Record {
    let mode = match record.mode {
        raw::BACK => Mode::Back,
        raw::OVERFLOW => Mode::Overflow,
        raw::FRONT => Mode::Front {
            slots: record.front_back_start,
            bytes: record.front_byte_capacity as usize,
            used: record.front_len,
        },
        _ => Mode::Front { slots: 0, bytes: 0, used: 0 },
    };
    let slot = |at: usize| (record.starts[at] as usize, record.lengths[at] as usize);
    record::Record {
        count: record.slots,
        mode,
        live: record.live as u16,
        back_start: record.back_start,
        back_count: record.back_len,
        frame_start: record.raw_offset as usize,
        frame_len: record.raw_len as usize,
        slots: std::array::from_fn(slot),
        used: record.used,
    }
}

/// Says what differs.
fn same<T: PartialEq + Debug>(what: &str, rust: &T, port: &T) -> Result<(), String> {
    if rust == port {
        return Ok(());
    }
    Err(format!("{what}\n  the Rust: {rust:?}\n  the port: {port:?}"))
}

/// Runs a list on pools of so many slots; gives the disagreement and how many events had been done with
/// it, if there is one.
pub fn run(slots: usize, list: &List, counts: &mut Counts) -> Result<(), (usize, String)> {
    let mut pair = Pair::new(slots, list.capacity, list.overflow).map_err(|cause| (0, cause))?;
    counts.list(list.capacity, list.overflow);
    for (at, event) in list.events.iter().enumerate() {
        pair.apply(event, counts).map_err(|cause| (at + 1, cause))?;
    }
    Ok(())
}
