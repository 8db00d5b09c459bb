//! Every short list: at small sizes from a new pool, and from pools made ready in other modes or with
//! their slots used. The choices at each step are those of `choices`; after each reserve the whole
//! reservation is written. A refused call changes nothing on either side, so no list goes on after
//! one.

use crate::counts::Counts;
use crate::pair::Pair;
use crate::shrink::Disagreement;
use oracle::calls::{Event, List, Name, View, CALLERS};
use oracle::record::Mode;
use oracle::text;
use std::ops::RangeInclusive;

/// The longest memories of the small sizes.
const SMALL: u32 = 6;

/// The events of one slice of `len` bytes, `count` times, by callers 0 and 1 in turn.
fn slices(len: u32, count: usize) -> String {
    let slice = |at: usize| format!("r {len}; c {len}; t by {}", at % 2);
    (0..count).map(slice).collect::<Vec<_>>().join("; ")
}

/// The releases of the slices that were taken first, second and so on, by callers 0 and 1 in turn: the
/// first two have serial 1, the next two have 2.
fn releases(taken: RangeInclusive<usize>) -> String {
    let release = |nth: usize| format!("d {} by {}", nth.div_ceil(2), (nth - 1) % 2);
    taken.map(release).collect::<Vec<_>>().join("; ")
}

/// The lists that make pools of so many slots ready.
pub fn ready_lists(slots: usize) -> Vec<List> {
    let ready = |capacity: usize, overflow: usize, events: &[&str]| {
        let events = events.join("; ");
        let said = format!("pool {capacity} overflow {overflow}; {events}");
        text::parse(&said).expect("a good text").remove(0)
    };
    // A slice of 1 byte, or of 2, in each slot; and a pool that has one byte more than all of 2.
    let (ones, twos) = (&*slices(1, slots), &*slices(2, slots));
    let roomy = 2 * slots + 1;
    // Some of the slices released: the first, or all after the third or fourth.
    let (two_gone, three_gone) = (&*releases(1..=2), &*releases(1..=3));
    let (three_kept, four_kept) = (&*releases(4..=slots), &*releases(5..=slots));
    // A front that uses more than half of the slots, and all but the first of its slices released.
    let half = slots / 2;
    let many_gone = &*releases(1..=half + 2);
    let (many, many_freed) = (&*slices(1, half + 1), &*releases(slots + 2..=slots + half + 1));
    let second_freed = &*releases(slots + 2..=slots + 2);
    vec![
        // All slots used; one left.
        ready(roomy, 20, &[twos]),
        ready(slots, 3, &[ones]),
        ready(slots + 1, 4, &[ones]),
        ready(slots + 1, 4, &[&slices(1, slots - 1)]),
        // The front: empty, with a frame, with a slice of its own, with all of its slots used.
        ready(roomy, 6, &[twos, three_gone, "r 1"]),
        ready(roomy, 6, &[twos, three_gone, "r 2; c 2"]),
        ready(roomy, 6, &[twos, three_gone, "r 2; c 2; t; r 1; c 1"]),
        ready(slots + 2, 4, &[ones, two_gone, &slices(1, 2)]),
        // The front with a frame after its slices, and one slice left in the back.
        ready(roomy, roomy + 4, &[twos, two_gone, "r 3; c 3; t; r 1; c 1", three_kept]),
        ready(roomy, 8, &[twos, three_gone, &slices(1, 2), "r 1; c 1", second_freed, four_kept]),
        // The front with many slices freed.
        ready(roomy, roomy, &[twos, many_gone, many, many_freed]),
        // The overflow: an empty frame, a frame, bytes kept after a take.
        ready(slots + 1, 5, &[ones, "r 1"]),
        ready(slots + 1, 5, &[ones, "r 3; c 2"]),
        ready(slots + 1, 5, &[ones, "r 4; c 2; t"]),
        ready(4, 6, &["r 3; c 3; t; r 2; c 2"]),
        // The back after front slices: the tail was cleared, and no slot of the back is left.
        ready(roomy, roomy, &[twos, two_gone, "r 3; c 3; t", &releases(3..=slots), "r 2"]),
    ]
}

/// All lists of at most `depth` events at every small size, then the same after each pool made
/// ready, with so many slots. Gives the first list that shows a disagreement, and what it is.
pub fn run(slots: usize, depth: usize, counts: &mut Counts) -> Result<(), Disagreement> {
    for capacity in 0..=SMALL {
        for overflow in 0..=SMALL {
            explore(slots, List { capacity, overflow, events: Vec::new() }, depth, counts)?;
        }
    }
    ready_lists(slots).into_iter().try_for_each(|list| explore(slots, list, depth, counts))
}

/// Does a list, then every list of at most `depth` events after it.
fn explore(
    slots: usize,
    start: List,
    depth: usize,
    counts: &mut Counts,
) -> Result<(), Disagreement> {
    let made = Pair::new(slots, start.capacity, start.overflow);
    let pair = made.map_err(|cause| Disagreement::InList(slots, start.clone(), cause))?;
    counts.list(start.capacity, start.overflow);
    let events = start.events.clone();
    let list = List { events: Vec::new(), ..start };
    let mut search = Search { slots, list, pair, next: 0, counts };
    for event in events {
        search.step(event)?;
    }
    search.below(depth)
}

/// A list that grows and shrinks, and the pair that has had it.
struct Search<'a> {
    slots: usize,
    list: List,
    pair: Pair,
    /// The value last written.
    next: u8,
    counts: &'a mut Counts,
}

impl Search<'_> {
    /// Does an event, then writes the reservation that it makes. Gives whether it was refused.
    fn step(&mut self, event: Event) -> Result<bool, Disagreement> {
        self.list.events.push(event);
        let answer = self.pair.apply(&event, self.counts);
        let answer = answer.map_err(|cause| self.found(cause))?;
        if answer.refusal == 0 && matches!(event, Event::Reserve(_)) {
            for index in 0..answer.len as u64 {
                self.next = self.next.wrapping_add(1);
                let event = Event::Write { view: View::Reservation, index, value: self.next };
                self.list.events.push(event);
                let written = self.pair.write(&event, self.counts);
                written.map_err(|cause| self.found(cause))?;
            }
        }
        Ok(answer.refusal != 0)
    }

    /// The list as it stands shows this.
    fn found(&self, cause: String) -> Disagreement {
        Disagreement::InList(self.slots, self.list.clone(), cause)
    }

    /// Every list of at most `depth` more events.
    fn below(&mut self, depth: usize) -> Result<(), Disagreement> {
        if depth == 0 {
            return Ok(());
        }
        let (events, next) = (self.list.events.len(), self.next);
        // A refused call leaves the pair as it was: its copy serves the next choice.
        let mut spare = None;
        for event in choices(&self.pair, self.list.overflow) {
            let here = spare.take().unwrap_or_else(|| self.pair.again());
            if self.step(event)? {
                spare = Some(here);
            } else {
                self.below(depth - 1)?;
                self.pair = here;
            }
            self.list.events.truncate(events);
            self.next = next;
        }
        Ok(())
    }
}

/// What is tried where a pair stands: reserves of few bytes, of what fits and of one byte more;
/// commits of none, one, all and one more; takes with enough and too little; truncates to none, one
/// less and all; releases of live slices, of the last serial given and of one never given. Pooled
/// slices are taken by callers 0 and 1 in turn, and one take is by a number that is no caller; the last
/// serial given is also released for caller 2, which has none, and for no caller.
fn choices(pair: &Pair, overflow: u32) -> Vec<Event> {
    let at = pair.judge.situation();
    let (frame, reserved) = (at.frame_len as u64, at.reserved as u64);
    let edge = match at.record.mode {
        Mode::Front { bytes, .. } => bytes,
        _ => at.capacity,
    };
    let room = (edge - at.record.frame_start - at.record.frame_len) as u64;
    let spare = u64::from(overflow).saturating_sub(frame);
    let mut reserves = vec![0, 1, 2, 3, room, room + 1, spare, spare + 1, u64::MAX - frame];
    let mut commits = vec![0, 1, reserved, reserved + 1];
    let mut truncates = vec![0, frame.saturating_sub(1), frame];
    for numbers in [&mut reserves, &mut commits, &mut truncates] {
        numbers.sort_unstable();
        numbers.dedup();
    }
    let (caller, releases) = named(pair);
    let mut takes = vec![(caller, u64::from(overflow)), (CALLERS as u8, 0)];
    if at.record.mode == Mode::Overflow && frame > 0 {
        takes.push((caller, frame - 1));
    }
    let take = |(caller, destination)| Event::Take { caller, destination };
    let mut events: Vec<Event> = reserves.into_iter().map(Event::Reserve).collect();
    events.extend(commits.into_iter().map(Event::Commit));
    events.extend(takes.into_iter().map(take));
    events.extend(truncates.into_iter().map(Event::Truncate));
    events.extend(releases.into_iter().map(Event::Release));
    events
}

/// Of more than eight names the first three, the two in the middle and the last three.
fn few(names: Vec<Name>) -> Vec<Name> {
    match names.len() {
        0..=8 => names,
        all => {
            [0, 1, 2, all / 2 - 1, all / 2, all - 3, all - 2, all - 1].map(|at| names[at]).into()
        }
    }
}

/// The caller whose turn it is, and the names that are released.
fn named(pair: &Pair) -> (u8, Vec<Name>) {
    let serials = pair.judge.serials();
    let caller = (serials.iter().sum::<u32>() % 2) as u8;
    let before = 1 - caller;
    let serial = serials[usize::from(before)];
    let mut names = few(pair.judge.live_names());
    names.extend([before, 2, CALLERS as u8].map(|caller| Name { caller, serial }));
    names.push(Name { caller, serial: 0 });
    names.sort_unstable();
    names.dedup();
    (caller, names)
}
