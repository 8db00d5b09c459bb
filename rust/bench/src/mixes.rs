//! The mixes of calls that are timed. Every take is by caller 0.

use crate::sides::{Kept, Side, NOT_KEPT};
use buffer_pool::raw::MOST_SLOTS;
use oracle::calls::{Event, List, Name};
use oracle::generate::{Author, Callers};
use oracle::judge::Judge;
use oracle::random::Random;
use oracle::trace;
use std::collections::VecDeque;

/// The kinds of call, in the order of the tables.
pub const KINDS: [&str; 5] = ["reserve", "commit", "truncate", "take", "release"];

/// One call that is not refused.
#[derive(Clone, Copy)]
pub enum Step {
    Reserve(usize),
    Commit(usize),
    Truncate(usize),
    Take(Kept),
    Release(Kept),
}

impl Step {
    /// The index of the step's kind.
    pub fn kind(&self) -> usize {
        match self {
            Step::Reserve(_) => 0,
            Step::Commit(_) => 1,
            Step::Truncate(_) => 2,
            Step::Take(_) => 3,
            Step::Release(_) => 4,
        }
    }

    pub fn run<S: Side>(&self, side: &mut S) {
        match *self {
            Step::Reserve(len) => side.reserve(len),
            Step::Commit(n) => side.commit(n),
            Step::Truncate(n) => side.truncate(n),
            Step::Take(kept) => side.take(kept),
            Step::Release(kept) => side.release(kept),
        }
    }
}

/// A name, the lengths of the memories, and the calls.
pub struct Mix {
    pub name: &'static str,
    pub capacity: usize,
    pub overflow: usize,
    pub steps: Vec<Step>,
    /// How many of the reserves end in B, F and A.
    pub modes: [usize; 3],
}

/// One who writes a mix while the Rust runs it.
struct Draft {
    mix: Mix,
    slots: usize,
    judge: Judge,
    /// The name of the slice kept in each place.
    kept: [Option<Name>; MOST_SLOTS],
}

impl Draft {
    /// For pools of so many slots.
    fn new(name: &'static str, slots: usize, capacity: usize, overflow: usize) -> Draft {
        Draft {
            mix: Mix { name, capacity, overflow, steps: Vec::new(), modes: [0; 3] },
            slots,
            judge: Judge::new(slots, capacity as u32, overflow as u32),
            kept: [None; MOST_SLOTS],
        }
    }

    /// Adds a take.
    fn take(&mut self, destination: usize) {
        self.add(Event::Take { caller: CALLER, destination: destination as u64 });
    }

    /// The name of the slice that was taken last.
    fn last(&self) -> Name {
        Name { caller: CALLER, serial: self.judge.serials()[usize::from(CALLER)] }
    }

    /// Adds an event, unless the Rust's judge refuses it.
    fn add(&mut self, event: Event) {
        let last = self.last();
        if self.judge.apply(&event).refusal != 0 {
            return;
        }
        let step = match event {
            Event::Reserve(len) => {
                let mode = self.judge.situation().record.mode.letter();
                self.mix.modes["BFA".find(mode).expect("a mode")] += 1;
                Step::Reserve(len as usize)
            }
            Event::Commit(n) => Step::Commit(n as usize),
            Event::Truncate(n) => Step::Truncate(n as usize),
            Event::Take { .. } if self.last() == last => Step::Take(NOT_KEPT),
            Event::Take { .. } => {
                let free =
                    self.kept.iter().position(Option::is_none).expect("a place for each slot");
                self.kept[free] = Some(self.last());
                Step::Take(free)
            }
            Event::Release(name) => {
                let at = self.kept.iter().position(|&kept| kept == Some(name));
                let at = at.expect("a live slice");
                self.kept[at] = None;
                Step::Release(at)
            }
            Event::Write { .. } => return,
        };
        self.mix.steps.push(step);
    }

    /// Reserves and commits.
    fn gather(&mut self, len: usize) {
        self.add(Event::Reserve(len as u64));
        self.add(Event::Commit(len as u64));
    }

    /// Reserves, commits and takes.
    fn entry(&mut self, len: usize) {
        self.gather(len);
        self.take(self.mix.overflow);
    }

    /// So many entries of a length.
    fn entries(&mut self, count: usize, len: usize) {
        (0..count).for_each(|_| self.entry(len));
    }

    /// Releases the live slices of some slots.
    fn release(&mut self, slots: std::ops::RangeInclusive<usize>) {
        for p in slots {
            if let Some((name, ..)) = self.judge.slice_place(p) {
                self.add(Event::Release(name));
            }
        }
    }

    /// Releases all live slices.
    fn release_all(&mut self) {
        self.release(1..=self.slots);
    }
}

/// Who takes.
const CALLER: u8 = 0;

/// The length of a small entry.
const ENTRY: usize = 32;

/// The unit of large frames.
const K: usize = 1024;

/// Reserve, commit, take, release in turn.
fn back_only(slots: usize) -> Mix {
    let mut draft = Draft::new("back only", slots, 1024, 1024);
    for _ in 0..2000 {
        draft.entry(ENTRY);
        draft.release_all();
    }
    draft.mix
}

/// The same, with a truncate of each frame.
fn back_truncated(slots: usize) -> Mix {
    let mut draft = Draft::new("back only, truncated", slots, 1024, 1024);
    for _ in 0..2000 {
        draft.gather(ENTRY);
        draft.add(Event::Truncate(ENTRY as u64 / 2));
        draft.take(0);
        draft.release_all();
    }
    draft.mix
}

/// As many entries as there are slots are kept, and the oldest goes before the next comes. Those that were
/// copied out of the overflow are kept elsewhere.
fn ring(slots: usize) -> Mix {
    let name = if slots == 8 { "ring of eight held slices" } else { "ring of sixteen held slices" };
    let mut draft = Draft::new(name, slots, 1024, 1024);
    let mut ring = VecDeque::new();
    for _ in 0..2000 {
        if ring.len() == slots {
            if let Some(oldest) = ring.pop_front().flatten() {
                draft.add(Event::Release(oldest));
            }
        }
        let before = draft.last();
        draft.entry(ENTRY);
        let last = draft.last();
        ring.push_back((last != before).then_some(last));
    }
    draft.mix
}

/// Half of the slots in the front, half in the back, by turns.
fn front_and_back(slots: usize) -> Mix {
    let half = slots / 2;
    let mut draft = Draft::new("front and back alternating", slots, 1024, 1024);
    draft.entries(slots, ENTRY);
    for _ in 0..300 {
        draft.release(1..=half);
        draft.entries(half, ENTRY);
        draft.release(half + 1..=slots);
        draft.entries(half, ENTRY);
    }
    draft.mix
}

/// All slots held, so that every entry goes to the overflow and is copied out of it.
fn overflow(slots: usize) -> Mix {
    let mut draft = Draft::new("overflow", slots, 1024, 1024);
    draft.entries(slots, ENTRY);
    draft.entries(2000, ENTRY);
    draft.mix
}

/// Frames of 12 to 24 KiB that are moved from the front to the back, by a reset, and to the overflow.
fn large_frames(slots: usize) -> Mix {
    let all = 16 * slots * K;
    let mut draft = Draft::new("large frames that move", slots, all, all);
    for _ in 0..60 {
        draft.entries(slots, 8 * K);
        draft.release(1..=2);
        draft.gather(12 * K);
        draft.release(slots - 1..=slots);
        draft.entry(8 * K);
        draft.gather(24 * K);
        draft.release_all();
        draft.entry(8 * K);
        draft.gather(24 * K);
        draft.entry(all - 28 * K);
        draft.release_all();
    }
    draft.mix
}

/// Frames of 20 KiB in the front that already lie where the next reserve sends them: at 0, by a reset,
/// and after a held slice, by the clear of the tail.
fn large_frames_in_place(slots: usize) -> Mix {
    let mut draft = Draft::new("large frames sent to their own start", slots, 64 * K, 64 * K);
    for _ in 0..60 {
        draft.entry(28 * K);
        draft.entries(slots - 1, ENTRY);
        draft.release(1..=1);
        draft.gather(20 * K);
        draft.release(2..=slots);
        draft.entry(8 * K);
        draft.entries(slots - 1, ENTRY);
        draft.release(1..=2);
        draft.entry(ENTRY);
        draft.gather(20 * K);
        draft.release(3..=slots);
        draft.entry(10 * K);
        draft.release_all();
    }
    draft.mix
}

/// A trace of the longest file, written by the oracle's author for a pool with so many slots and these
/// lengths.
fn longest_trace(slots: usize, capacity: u32, overflow: u32) -> Vec<u8> {
    let events = (trace::FILE_LIMIT - trace::HEADER) / trace::EVENT;
    let mut list = List { capacity, overflow, events: Vec::new() };
    let mut judge = Judge::new(slots, capacity, overflow);
    let mut random = Random::new(1);
    let mut author = Author::new(&mut random, slots, capacity, Callers::First);
    while list.events.len() < events {
        let event = author.choose(&judge);
        judge.apply(&event);
        if !matches!(event, Event::Write { .. }) {
            list.events.push(event);
        }
    }
    trace::encode(&list, &[])
}

/// The calls of a trace of the longest file, but for those that are refused.
fn replayed(name: &'static str, slots: usize, capacity: u32, overflow: u32) -> Mix {
    let file = longest_trace(slots, capacity, overflow);
    assert_eq!(file.len(), trace::FILE_LIMIT, "a trace of full size");
    let (list, _) = trace::decode(&file).expect("a good trace");
    let mut draft = Draft::new(name, slots, capacity as usize, overflow as usize);
    list.events.into_iter().for_each(|event| draft.add(event));
    draft.mix
}

/// All mixes, for pools of so many slots.
pub fn mixes(slots: usize) -> Vec<Mix> {
    vec![
        back_only(slots),
        back_truncated(slots),
        ring(slots),
        front_and_back(slots),
        overflow(slots),
        large_frames(slots),
        large_frames_in_place(slots),
        replayed("trace of 65,536 bytes, pool of 40", slots, 40, 60),
        replayed("trace of 65,536 bytes, pool of 16,384", slots, 16_384, 16_384),
    ]
}
