//! A list's events on the archive. What a call may not touch is compared with what it held before.

use crate::given::Given;
use crate::memory::Memory;
use crate::model::new_record;
use crate::sound;
use crate::state::State;
use buffer_pool::raw::{Created, Handle, Placed, CALLERS};
use oracle::calls::{Event, Name, View};

/// What a destination holds before a take.
const DESTINATION: u8 = 0xd0;

/// A pool of the archive, with what its callers hold.
pub struct Port {
    pub state: State,
    /// The state before the last event.
    before: State,
    /// Every handle that was given, by caller and serial.
    handles: [Vec<Handle>; CALLERS],
}

impl Port {
    /// A new pool of so many slots. The overflow's bytes are not zeros, as firmware lends it as found.
    pub fn new(slots: usize, capacity: u32, overflow: u32) -> Result<Port, String> {
        let record = new_record(slots, capacity as usize, overflow as usize);
        let pool = Memory::marked(capacity as usize, 1);
        let overflow = Memory::marked(overflow as usize, 0x81);
        let (state, created) = State::new(slots, pool, overflow.clone());
        if created.as_bytes() != (Created { record, refusal: 0 }).as_bytes() {
            return Err(format!("new gives {created:?}"));
        }
        if state.pool.bytes().iter().any(|&byte| byte != 0) || state.overflow != overflow {
            return Err("new leaves other bytes than zeros and the overflow's own".into());
        }
        Ok(Port { before: state.clone(), state, handles: Default::default() })
    }

    /// A copy.
    pub fn again(&self) -> Port {
        Port {
            state: self.state.clone(),
            before: self.before.clone(),
            handles: self.handles.clone(),
        }
    }

    /// Does one event and gives what the archive gives, with the bytes that a take copied; or says
    /// what it should not have done.
    pub fn apply(&mut self, event: &Event) -> Result<(Given, Vec<u8>), String> {
        self.before.copy_from(&self.state);
        let (given, copied) = match *event {
            Event::Reserve(len) => (Given::Reserved(self.state.reserve(len)), Vec::new()),
            Event::Commit(len) => (Given::Placed(self.state.commit(len)), Vec::new()),
            Event::Take { caller, destination } => self.take(caller, destination)?,
            Event::Truncate(len) => (Given::Placed(self.state.truncate(len)), Vec::new()),
            Event::Release(name) => {
                (Given::Released(self.state.release(self.handle(name))), Vec::new())
            }
            Event::Write { view, index, value } => {
                return Ok((Given::Placed(self.write(view, index, value)?), Vec::new()))
            }
        };
        self.check_untouched(event, given.refusal())?;
        Ok((given, copied))
    }

    /// The destination has a few bytes more than the overflow if more are asked for.
    fn take(&mut self, caller: u8, destination: u64) -> Result<(Given, Vec<u8>), String> {
        let len = destination.min(self.state.overflow.len() as u64 + 3) as usize;
        let before = Memory::marked(len, DESTINATION);
        let mut destination = before.clone();
        let taken = self.state.take(caller.into(), &mut destination);
        let copied = usize::try_from(taken.copied).ok().filter(|&copied| copied <= len);
        let copied = copied.ok_or("more is copied than the destination has")?;
        if destination.bytes()[copied..] != before.bytes()[copied..] || !destination.intact() {
            return Err("a destination byte past the frame is changed".into());
        }
        if taken.handle.slot != 0 {
            let own = self.handles.get_mut(usize::from(caller));
            own.ok_or("a slice for a number that is no caller")?.push(taken.handle);
        }
        Ok((Given::Taken(taken), destination.bytes()[..copied].to_vec()))
    }

    /// The handle that was given with this name, or an invented one.
    pub fn handle(&self, name: Name) -> Handle {
        let own = self.handles.get(usize::from(name.caller));
        let at = (name.serial as usize).checked_sub(1);
        let given = own.zip(at).and_then(|(own, at)| own.get(at));
        given.copied().unwrap_or_else(|| self.invented(name))
    }

    /// A handle with a name that was not given, on a slot's entry: it differs from the entry of a live
    /// slice by the caller alone or by the serial alone, where there is such a slice.
    fn invented(&self, name: Name) -> Handle {
        let r = &self.state.record;
        let live = || sound::live(r).map(|(p, ..)| p - 1);
        let of_serial = live().find(|&at| r.serials[at] == name.serial);
        let of_caller = || live().find(|&at| r.callers[at] == name.caller);
        let at = of_serial.or_else(of_caller).unwrap_or(name.serial as usize % r.slots);
        Handle {
            start: r.starts[at],
            length: r.lengths[at],
            serial: name.serial,
            slot: at as u16 + 1,
            caller: name.caller.into(),
        }
    }

    /// Writes one byte through a view, if it reaches that far, and gives the view's place.
    fn write(&mut self, view: View, index: u64, value: u8) -> Result<Placed, String> {
        let viewed = self.view(view);
        if index < viewed.place.length {
            self.state.part(viewed.place).ok_or("the view lies outside its memory")?;
            self.state.write(viewed.place, index, value);
        }
        Ok(viewed)
    }

    /// A view's place and refusal, by the archive.
    pub fn view(&self, view: View) -> Placed {
        match view {
            View::Reservation => self.state.reservation(),
            View::Frame => self.state.frame(),
            View::Slice(name) => self.state.slice(self.handle(name)),
        }
    }

    /// A refused call changes nothing; commit, truncate and release change no byte, and a take none
    /// of the pool memory; no call touches what lies beside the memories.
    fn check_untouched(&self, event: &Event, refusal: u64) -> Result<(), String> {
        let (state, before) = (&self.state, &self.before);
        if refusal != 0 && state != before {
            return Err(format!("a call refused with {refusal} changes something"));
        }
        let same = match event {
            Event::Reserve(_) | Event::Write { .. } => true,
            Event::Take { .. } => state.pool == before.pool,
            _ => state.pool == before.pool && state.overflow == before.overflow,
        };
        if !same {
            return Err("a call changes a byte of a memory that it only reads".into());
        }
        if !state.intact() {
            return Err("a call writes beside a memory".into());
        }
        Ok(())
    }
}
