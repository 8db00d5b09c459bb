//! Lists made from a seed. Each event is chosen by looking at the real pool as it stands, so that
//! all slots fill up, lengths fall on the edges of what fits, and rare turns are taken often.

use crate::calls::{Event, List, Name, View, CALLERS};
use crate::classes::Tally;
use crate::judge::{Judge, Situation};
use crate::random::Random;
use crate::record::Mode;

/// What lists to make.
pub struct Options {
    /// How many slots the pools have, 8 or 16.
    pub slots: usize,
    pub seed: u64,
    /// How many lists are made.
    pub count: u64,
    /// The longest pool memory.
    pub capacity: u32,
    /// The most events of a list.
    pub events: u64,
    pub callers: Callers,
    /// If not 0, only what is needed to reach each class this many times is kept.
    pub cover: u64,
}

/// Who takes in a list.
#[derive(Clone, Copy)]
pub enum Callers {
    /// Caller 0 alone, as where no caller is named.
    First,
    /// Each of the four, and now and then a number that is no caller.
    All,
}

/// Makes the lists.
pub fn lists(options: &Options) -> Vec<List> {
    let mut random = Random::new(options.seed);
    let all = (0..options.count).map(|_| list(&mut random, options));
    match options.cover {
        0 => all.collect(),
        times => cover(all, options.slots, times),
    }
}

/// Of many lists, enough to reach each class this many times, where the many do. Of each list only
/// the events up to the last that helps are kept; then lists that the later ones make needless go.
fn cover(all: impl Iterator<Item = List>, slots: usize, times: u64) -> Vec<List> {
    let mut reached = Tally::new(slots);
    let mut kept = Vec::new();
    for mut list in all {
        list.events.truncate(reached.gaining(&list, times));
        if !list.events.is_empty() {
            reached.add_list(&list);
            kept.push(list);
        }
    }
    kept.retain(|list| !reached.spare(list, times));
    kept
}

/// Makes one list, doing each event to a real pool as it is chosen.
fn list(random: &mut Random, options: &Options) -> List {
    let (capacity, overflow) = lengths(random, options.slots, options.capacity);
    let count = random.within(1, options.events);
    let mut judge = Judge::new(options.slots, capacity, overflow);
    let mut author = Author::new(random, options.slots, capacity, options.callers);
    let mut next = || {
        let event = author.choose(&judge);
        judge.apply(&event);
        event
    };
    let events = (0..count).map(|_| next()).collect();
    List { capacity, overflow, events }
}

/// The lengths of a pool memory of at most this many bytes, for so many slots, and of an overflow for it.
pub fn lengths(random: &mut Random, slots: usize, most: u32) -> (u32, u32) {
    let capacity = capacity(random, slots, most);
    (capacity, overflow(random, capacity))
}

/// Mostly room for a slice in each slot.
fn capacity(random: &mut Random, slots: usize, most: u32) -> u32 {
    let most = u64::from(most);
    let slots = most.min(slots as u64);
    let (few, some) = (random.within(0, slots), random.within(slots, most));
    let choices = [(1, 0), (1, 1.min(most)), (2, few), (12, some), (2, most)];
    random.weighed(&choices) as u32
}

/// An overflow near the capacity, or shorter, or up to twice as long.
fn overflow(random: &mut Random, capacity: u32) -> u32 {
    let capacity = u64::from(capacity);
    let limit = u64::from(crate::calls::BYTE_LIMIT);
    let shorter = random.within(0, capacity);
    let longer = random.within(capacity, 2 * capacity + 4);
    let near = random.within(capacity.saturating_sub(1), capacity + 1);
    let choices = [(1, 0), (1, 1), (3, shorter), (8, longer), (3, near)];
    random.weighed(&choices).min(limit) as u32
}

/// How many times in a hundred an empty pool is first filled with slices.
const FILLS: u64 = 75;

/// Which live slice is released next.
#[derive(Clone, Copy)]
enum Order {
    First,
    Last,
    Any,
}

/// What is done next.
#[derive(Clone, Copy)]
enum Act {
    Reserve,
    Commit,
    Take,
    Truncate,
    Release,
    WriteReservation,
    WriteFrame,
    WriteSlice,
}

/// One who writes a list while the pool runs it.
pub struct Author<'a> {
    random: &'a mut Random,
    callers: Callers,
    /// The order in which slices are released, chosen anew for each run of releases.
    order: Order,
    /// The longest of the small reservations: one for each slot fits in the pool.
    small: u64,
    /// Whether slices are taken until all slots are used.
    filling: bool,
    /// How many releases come next.
    run: u64,
}

impl<'a> Author<'a> {
    /// One who writes for a pool of so many slots and this capacity, on behalf of these callers.
    pub fn new(
        random: &'a mut Random,
        slots: usize,
        capacity: u32,
        callers: Callers,
    ) -> Author<'a> {
        Author {
            callers,
            order: Order::First,
            small: random.within(1, u64::from(capacity / slots as u32).max(1)),
            filling: random.chance(FILLS),
            run: 0,
            random,
        }
    }

    /// Chooses the next event for the pool as it stands.
    pub fn choose(&mut self, judge: &Judge) -> Event {
        let at = judge.situation();
        self.plan(&at);
        match self.act(&at) {
            Act::Reserve => Event::Reserve(self.reserve_len(&at)),
            Act::Commit => Event::Commit(self.commit_len(&at)),
            Act::Take => Event::Take { caller: self.caller(), destination: self.destination(&at) },
            Act::Truncate => Event::Truncate(self.truncate_len(&at)),
            Act::Release => Event::Release(self.release_name(&at, judge)),
            Act::WriteReservation => self.write(View::Reservation, at.reserved),
            Act::WriteFrame => self.write(View::Frame, at.frame_len),
            Act::WriteSlice => {
                let name = self.any_name(judge);
                self.write(View::Slice(name), at.capacity / at.record.count)
            }
        }
    }

    /// Starts to fill when the pool is empty again, and ends when all slots are used or the pool
    /// has no room.
    fn plan(&mut self, at: &Situation) {
        let record = &at.record;
        let room = at.capacity - record.frame_start - record.frame_len;
        if record.mode != Mode::Back || used_up(at) || (room as u64) < self.small {
            self.filling = false;
        } else if record.live == 0 && record.back_count == 0 && at.frame_len == 0 {
            self.filling = self.filling || self.random.chance(FILLS / 4);
        }
    }

    /// What to do: mostly the next step of reserve, write, commit, take; and releases in runs, more
    /// often once all slots are used.
    fn act(&mut self, at: &Situation) -> Act {
        let live = at.record.live;
        if self.run > 0 && live != 0 {
            return Act::Release;
        }
        let offered = at.reserved > 0;
        let framed = at.frame_len > 0;
        if self.filling && self.random.chance(90) {
            return match (offered, framed) {
                (true, _) => self.random.weighed(&[(1, Act::WriteReservation), (2, Act::Commit)]),
                (_, true) => Act::Take,
                _ => Act::Reserve,
            };
        }
        // Front slices are all that is left: with these released no reset comes.
        let back_gone = at.record.back_start > 0 && at.record.back_count == 0;
        // A frame behind front slices: it is kept, to be moved when these are released.
        let in_front = at.record.mode.letter() == 'F';
        let lingers = in_front && framed && !front_open(at);
        let take = match (framed, lingers) {
            (_, true) => 4,
            (true, _) => 20,
            _ => 2,
        };
        let reserve = if offered {
            6
        } else if framed {
            14
        } else {
            40
        };
        let release = match live.count_ones() as usize {
            0 => 1,
            _ if self.filling => 1,
            _ if lingers => 40,
            _ if front_open(at) && wide(at) => 1,
            _ if front_open(at) => 5,
            all if all == at.record.count => 80,
            _ if used_up(at) => 16,
            _ if back_gone => 12,
            _ => 3,
        };
        self.random.weighed(&[
            (reserve, Act::Reserve),
            (if offered { 34 } else { 2 }, Act::Commit),
            (take, Act::Take),
            (if framed { 3 } else { 1 }, Act::Truncate),
            (release, Act::Release),
            (if offered { 12 } else { 1 }, Act::WriteReservation),
            (if framed { 4 } else { 1 }, Act::WriteFrame),
            (if live != 0 { 3 } else { 1 }, Act::WriteSlice),
        ])
    }

    /// Small lengths while slots are to be used, edges of what fits once some are.
    fn reserve_len(&mut self, at: &Situation) -> u64 {
        let small = match at.record.mode {
            Mode::Front { bytes, .. } => {
                let few = if wide(at) { 6 } else { 3 };
                self.random.within(1, (bytes / few).max(1) as u64)
            }
            _ => self.random.within(1, self.small),
        };
        let any = self.random.below(at.capacity as u64 + 2);
        let edge = self.edge(at);
        let huge = self.huge(at);
        let (small_weight, edge_weight) = match at.record.mode {
            _ if self.filling => (2000, 30),
            Mode::Front { .. } if front_open(at) && wide(at) => (1500, 30),
            Mode::Front { .. } if front_open(at) => (90, 30),
            _ => (30, 40),
        };
        let choices = [(small_weight, small), (10, any), (edge_weight, edge), (3, 0), (2, huge)];
        self.random.weighed(&choices)
    }

    /// A length at which something just fits, or one byte beside it.
    fn edge(&mut self, at: &Situation) -> u64 {
        let frame_end = at.record.frame_start + at.record.frame_len;
        let mut edges = vec![at.capacity - frame_end, at.overflow.saturating_sub(at.frame_len)];
        if let Mode::Front { bytes, .. } = at.record.mode {
            edges.push(bytes - frame_end);
        }
        let past_frame = |edge: usize| edge.saturating_sub(at.frame_len);
        edges.push(past_frame(at.capacity));
        for (p, (start, len)) in (1..=at.record.count).zip(at.record.slots) {
            if at.record.is_live(p) {
                edges.push(past_frame(start));
                edges.push(past_frame(at.capacity - (start + len)));
            }
        }
        let edge = self.random.pick(&edges) as u64;
        let beside = [edge, edge, edge + 1, edge + 1, edge.saturating_sub(1)];
        self.random.pick(&beside)
    }

    /// A length so large that a sum with it may pass 2^64.
    fn huge(&mut self, at: &Situation) -> u64 {
        let frame_end = (at.record.frame_start + at.frame_len) as u64;
        let most = u64::MAX;
        self.random.pick(&[
            most,
            most - 1,
            most - frame_end,
            (most - frame_end).wrapping_add(1),
            1 << 63,
        ])
    }

    fn commit_len(&mut self, at: &Situation) -> u64 {
        let reserved = at.reserved as u64;
        let part = self.random.within(0, reserved);
        let part_weight = if self.filling { 0 } else { 25 };
        let choices =
            [(60, reserved), (part_weight, part), (6, reserved + 1), (3, 0), (1, u64::MAX)];
        self.random.weighed(&choices)
    }

    /// Any caller, and seldom a number that is none. For the first caller alone nothing is drawn.
    fn caller(&mut self) -> u8 {
        match self.callers {
            Callers::First => 0,
            Callers::All if self.random.chance(3) => self.random.pick(&[4, 5, 7, 0x80, 0xff]),
            Callers::All => self.random.below(CALLERS as u64) as u8,
        }
    }

    fn destination(&mut self, at: &Situation) -> u64 {
        let frame = at.frame_len as u64;
        let shorter = self.random.within(0, frame);
        let choices = [
            (50, at.overflow as u64),
            (15, frame),
            (10, frame.saturating_sub(1)),
            (5, shorter),
            (2, u64::MAX),
        ];
        self.random.weighed(&choices)
    }

    fn truncate_len(&mut self, at: &Situation) -> u64 {
        let frame = at.frame_len as u64;
        let part = self.random.within(0, frame);
        self.random.weighed(&[(5, part), (2, frame), (2, frame + 1), (1, 0), (1, u64::MAX)])
    }

    /// Mostly a live name, in the order of the run, and often the start of a run.
    /// In the front it is often the slice before the frame, or the last of the back.
    fn release_name(&mut self, at: &Situation, judge: &Judge) -> Name {
        let live = judge.live_names();
        if live.is_empty() || self.random.chance(6) {
            return self.any_name(judge);
        }
        if let (0, Mode::Front { used, .. }) = (self.run, at.record.mode) {
            let front = (1..=used).filter(|&p| at.record.is_live(p)).count();
            let before_frame = live[front.saturating_sub(1)];
            let last = live[live.len() - 1];
            if self.random.chance(75) {
                return self.random.pick(&[before_frame, last]);
            }
        }
        if self.run > 0 {
            self.run -= 1;
        } else if self.random.chance(50) {
            self.run = self.random.below(live.len() as u64 + 1);
            // Of so many, all would seldom be released.
            if live.len() > 8 && self.random.chance(30) {
                self.run = live.len() as u64;
            }
            self.order = self.random.pick(&[Order::First, Order::First, Order::Last, Order::Any]);
        }
        match self.order {
            Order::First => live[0],
            Order::Last => live[live.len() - 1],
            Order::Any => self.random.pick(&live),
        }
    }

    /// A name that may be live, released, or not given yet, or have the serial of another caller's live
    /// slice; rarely serial 0 or the last there is.
    fn any_name(&mut self, judge: &Judge) -> Name {
        let live = judge.live_names();
        if !live.is_empty() && self.random.chance(70) {
            let name = self.random.pick(&live);
            return match self.callers {
                Callers::All if self.random.chance(20) => Name { caller: self.caller(), ..name },
                _ => name,
            };
        }
        let caller = self.caller();
        let given = judge.serials().get(usize::from(caller)).copied().unwrap_or(0);
        let serial = self.random.within(0, u64::from(given) + 1) as u32;
        Name { caller, serial: self.random.weighed(&[(9, serial), (1, u32::MAX)]) }
    }

    /// A write of some byte, mostly at an index below `len`.
    fn write(&mut self, view: View, len: usize) -> Event {
        let len = len as u64;
        let inside = self.random.below(len.max(1));
        let index = self.random.weighed(&[(16, inside), (1, len), (1, len + 1), (1, u64::MAX)]);
        Event::Write { view, index, value: self.random.within(1, 255) as u8 }
    }
}

/// Whether the front has slots for more slices yet than the one before its last, all but four of the
/// pool's being enough.
fn front_open(at: &Situation) -> bool {
    let enough = at.record.count - 4;
    matches!(at.record.mode, Mode::Front { slots, used, .. } if used + 1 < slots.min(enough))
}

/// Whether the pool has more than 8 slots: a front comes to use many only if little else is done meanwhile.
fn wide(at: &Situation) -> bool {
    at.record.count > 8
}

/// Whether the back has come to the last slot.
fn used_up(at: &Situation) -> bool {
    at.record.back_start + at.record.back_count >= at.record.count
}
