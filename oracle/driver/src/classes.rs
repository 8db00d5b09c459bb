//! What kinds of event a calls file reaches, counted. A class is named by what the Rust does, told
//! from the numbers before and after; an event may be of several classes. A class of reserve has
//! the modes before and after, the reset, the mode changes and the moves (SPECIFICATION 5 and 6);
//! "frame" and "empty" say whether the frame that stands has bytes.

use crate::calls::{Event, List, Name, View, BYTE_LIMIT, CALLERS};
use crate::judge::{Answer, Judge, Situation, UNKNOWN_CALLER};
use crate::moves::Move;
use crate::record::{Mode, Record};
use std::cmp::Ordering;

/// Every class, in the order they are printed. Each must be reached, and no other may be.
const CLASSES: &[&str] = &[
    // Reserves that are done: mode before, mode after, mode changes, what moves.
    "B->B 0 none, frame",
    "B->B 0 none, empty",
    "B->B 0 tail clear, empty",
    "B reset->B 0 within, frame",
    "B reset->B 0 within, empty",
    "B->A 1 out, frame",
    "B->A 1 out, empty",
    "B reset->A 1 within out, frame",
    "B reset->A 1 within out, empty",
    "B->F 1 head clear, empty",
    "B->A 2 by way of F, empty",
    "F->F 0 none, frame",
    "F->F 0 none, empty",
    "F->F 0 within, frame",
    "F->F 0 within, empty",
    "F->B 1 within, frame",
    "F->B 1 within, empty",
    "F->B 1 within twice, frame",
    "F->B 1 within twice, empty",
    "F->A 1 out, frame",
    "F->A 1 out, empty",
    "F->A 1 within out, frame",
    "F->A 1 within out, empty",
    "F reset->B 0 within, frame",
    "F reset->B 0 within, empty",
    "F reset->A 1 within out, frame",
    "F reset->A 1 within out, empty",
    "A->A 0 none, frame",
    "A->A 0 none, empty",
    "A->A 2 by way of F, empty",
    "A->B 1 tail clear, empty",
    "A->F 1 head clear, empty",
    "A reset->B 0 in, frame",
    "A reset->B 0 in, empty",
    "A reset->A 1 in out, frame",
    "A reset->A 1 in out, empty",
    "A reset->A 0 stays, frame",
    "A reset->A 0 stays, empty",
    // Why a reserve ends in the overflow with an empty frame.
    "B->A, tail not clearable",
    "B->A, neither tail nor head cleared",
    "A->A, n is 0",
    "A->A, tail not clearable",
    "A->A, neither tail nor head cleared",
    // Where a tail clear puts the frame. Not at 0: then no slot is live, and a reset came first.
    "tail clear, after a back slot",
    "tail clear, after the last front slot",
    "tail clear, after a live front slot below a freed one",
    // What a head clear does to the boundary.
    "head clear, boundary moves",
    "head clear, boundary stays",
    "head clear, below a live front slot",
    // Where the front puts the frame when it drops its own freed slots.
    "F drops, frame to 0",
    "F drops, frame after a live slot",
    // Where the Rust copies the frame onto itself (SPECIFICATION 6.9).
    "self copy, F reset",
    "self copy, F->B",
    // No live slot, and yet no reset, as n is 0: a reset would have moved the frame.
    "B, no live slot, no reset, frame not at 0",
    "A, no live slot, no reset, frame shorter than the pool",
    // A reservation that shows earlier bytes.
    "r in the pool, not all zeros",
    "r in A, not all zeros",
    "r in A, zeros after kept bytes",
    // Exact fits, and reserves of one byte more.
    "r in B, exact fit",
    "r in F, exact fit",
    "r in A, exact fit",
    "r in B, one byte more",
    "r in F, one byte more",
    "r in A, one byte more",
    // Refused reserves: mode before, and whether a reset would have come.
    "r refused 4, B",
    "r refused 4, B reset",
    "r refused 4, F",
    "r refused 4, F reset",
    "r refused 4, A",
    "r refused 4, A reset",
    "r refused 4, 2^63 bytes or more",
    "r done, more than the overflow has",
    // Commits.
    "c all, B",
    "c all, F",
    "c all, A",
    "c part, B",
    "c part, F",
    "c part, A",
    "c none of a reservation",
    "c none of a spent reservation",
    "c refused 5, B",
    "c refused 5, F",
    "c refused 5, A",
    "c refused 5, one byte more",
    "c refused 5, spent",
    // Takes.
    "t pooled, B",
    "t pooled, F",
    "t pooled, caller 0",
    "t pooled, caller 1",
    "t pooled, caller 2",
    "t pooled, caller 3",
    "t pooled, another caller's live slice has the serial",
    "t copied",
    "t copied, destination fits exactly",
    "t empty, B",
    "t empty, F",
    "t empty, A",
    "t empty, reservation open",
    "t refused 6",
    "t refused 6, one byte too short",
    "t refused 12, frame in the pool",
    "t refused 12, frame in A",
    "t refused 12, frame in A longer than the destination",
    "t refused 12, empty",
    "t refused 12, reservation open",
    // Truncates.
    "k cuts, B",
    "k cuts, F",
    "k cuts, A",
    "k cuts nothing, B",
    "k cuts nothing, F",
    "k cuts nothing, A",
    "k cuts nothing, reservation open",
    // Releases.
    "d, B",
    "d, F",
    "d, A",
    "d, another caller's live slice has the serial",
    "d refused 7, released before",
    "d refused 7, never given",
    "d refused 7, no caller",
    "d refused 7, another caller's live slice has the serial",
    "d refused 7, no caller, a live slice has the serial",
    // Writes.
    "w reservation in the pool",
    "w reservation in A",
    "w reservation, past its end",
    "w frame in the pool",
    "w frame in A",
    "w frame, past its end",
    "w slice",
    "w slice, past its end",
    "w slice, another caller's live slice has the serial",
    "w slice, not live",
    "w slice, not live, no caller",
    "w slice, not live, another caller's live slice has the serial",
    "w slice, not live, no caller, a live slice has the serial",
    // Memories.
    "pool of 0 bytes",
    "pool of 1 byte",
    "pool of 1048576 bytes",
    "overflow of 0 bytes",
    "overflow of 1048576 bytes",
    "overflow shorter than the pool",
    "overflow longer than the pool",
];

/// The classes that a pool has besides if it has more than 8 slots.
const WIDE: &[&str] = &[
    "r in B, back of more than 8 slots",
    "r in B, boundary above 8",
    "r in F, front of more than 8 slots",
    "r in F, more than 8 slots of the front used",
    "r in A, more than 8 slots live",
    "head clear, more than 8 free slots",
    "tail clear, more than 8 slots",
    "F drops, more than 8 slots",
    // Where a word of 8 bits would have none set.
    "F drops, 8 slots above a live one",
    "t pooled, slot above 8, B",
    "t pooled, slot above 8, F",
    "d, slot above 8",
    "d, all slots live",
];

/// The count above which a pool has the wide classes.
const NARROW: usize = 8;

/// The classes of pools with so many slots, in the order they are printed.
fn table(slots: usize) -> impl Iterator<Item = &'static str> {
    let wide = if slots > NARROW { WIDE } else { &[] };
    CLASSES.iter().chain(wide).copied()
}

/// How often each class was reached by pools with so many slots.
pub struct Tally {
    slots: usize,
    counts: Vec<u64>,
    /// Names that are not in the table.
    unknown: Vec<String>,
}

impl Tally {
    pub fn new(slots: usize) -> Tally {
        Tally { slots, counts: vec![0; table(slots).count()], unknown: Vec::new() }
    }

    /// The index of a class.
    fn position(&self, name: &str) -> Option<usize> {
        table(self.slots).position(|class| class == name)
    }

    /// Runs a list and counts what it reaches.
    pub fn add_list(&mut self, list: &List) {
        self.add(&memories(list.capacity, list.overflow));
        run(self.slots, list, |_, names| self.add(names));
    }

    /// How many events of the list come before the last one, and with it, that reaches a class
    /// which was reached fewer than `times` times until then.
    pub fn gaining(&self, list: &List, times: u64) -> usize {
        let mut reached = Tally { counts: self.counts.clone(), ..Tally::new(self.slots) };
        let mut gaining = 0;
        run(self.slots, list, |at, names| {
            let few =
                |name: &String| self.position(name).is_some_and(|at| reached.counts[at] < times);
            if names.iter().any(few) {
                gaining = at + 1;
            }
            reached.add(names);
        });
        gaining
    }

    /// Takes a counted list back, if each class stays reached `times` times, or as often as it was.
    pub fn spare(&mut self, list: &List, times: u64) -> bool {
        let mut its = Tally::new(self.slots);
        its.add_list(list);
        let mut pairs = self.counts.iter().zip(&its.counts);
        let spared = pairs.all(|(&all, &less)| all - less >= all.min(times));
        if spared {
            self.counts.iter_mut().zip(&its.counts).for_each(|(all, less)| *all -= less);
        }
        spared
    }

    /// Counts classes.
    pub fn add(&mut self, names: &[String]) {
        for name in names {
            match self.position(name) {
                Some(at) => self.counts[at] += 1,
                None => self.unknown.push(name.clone()),
            }
        }
    }

    /// The counts, a line each, then the names that are not in the table.
    pub fn report(&self) -> String {
        let known = table(self.slots).zip(&self.counts);
        let mut lines: Vec<String> = known.map(|(class, n)| format!("{n:>9}  {class}\n")).collect();
        lines.extend(self.unknown.iter().map(|name| format!("  unknown  {name}\n")));
        lines.concat()
    }

    /// How many events were of a class that is not in the table.
    #[cfg(test)]
    pub fn unknown(&self) -> usize {
        self.unknown.len()
    }

    /// What is amiss: a class never reached, or an event of no known class.
    pub fn complaint(&self) -> Option<String> {
        let missed = self.counts.iter().filter(|&&count| count == 0).count();
        match (missed, self.unknown.len()) {
            (0, 0) => None,
            (missed, unknown) => {
                Some(format!("{missed} classes not reached, {unknown} events of no known class"))
            }
        }
    }
}

/// Runs a list on a pool with so many slots and gives each event's index and classes.
fn run(slots: usize, list: &List, mut each: impl FnMut(usize, &[String])) {
    let mut judge = Judge::new(slots, list.capacity, list.overflow);
    for (at, event) in list.events.iter().enumerate() {
        let before = judge.situation();
        let answer = judge.apply(event);
        each(at, &classes(&before, event, &answer, &judge));
    }
}

/// The classes of two memories of these lengths.
pub fn memories(capacity: u32, overflow: u32) -> Vec<String> {
    let all = [
        (capacity == 0, "pool of 0 bytes"),
        (capacity == 1, "pool of 1 byte"),
        (capacity == BYTE_LIMIT, "pool of 1048576 bytes"),
        (overflow == 0, "overflow of 0 bytes"),
        (overflow == BYTE_LIMIT, "overflow of 1048576 bytes"),
        (overflow < capacity, "overflow shorter than the pool"),
        (overflow > capacity, "overflow longer than the pool"),
    ];
    holding(&all)
}

/// The names whose condition holds.
fn holding(all: &[(bool, &str)]) -> Vec<String> {
    all.iter().filter(|(holds, _)| *holds).map(|(_, name)| name.to_string()).collect()
}

/// The classes of one event.
pub fn classes(before: &Situation, event: &Event, answer: &Answer, judge: &Judge) -> Vec<String> {
    let mut names = match *event {
        Event::Reserve(len) if answer.refusal == 0 => reserve(before, len, answer, judge),
        Event::Reserve(len) => refused_reserve(before, len),
        Event::Commit(len) => commit(before, len, answer),
        Event::Take { caller, destination } => take(before, caller, destination, answer, judge),
        Event::Truncate(len) => truncate(before, len),
        Event::Release(name) => release(before, name, answer, judge),
        Event::Write { view, index, .. } => write(before, view, index, answer, judge),
    };
    if before.record.count > NARROW && answer.refusal == 0 {
        names.extend(wide(before, event, answer, judge));
    }
    names
}

fn letter(situation: &Situation) -> char {
    situation.record.mode.letter()
}

/// "frame" or "empty".
fn frame(situation: &Situation) -> &'static str {
    if situation.frame_len > 0 {
        "frame"
    } else {
        "empty"
    }
}

/// Whether a reserve begins with a reset.
fn resets(at: &Situation) -> bool {
    let overflow_done = at.record.mode == Mode::Overflow && at.frame_len == 0;
    at.record.live == 0 && (at.record.back_count != 0 || overflow_done)
}

/// How many tail slots of the back are free, and whether the tail is clearable.
fn free_tail(record: &Record) -> (usize, bool) {
    let free = record.free_tail().min(record.count - record.back_start);
    (free, free <= record.back_count && record.back_start + record.back_count >= record.count)
}

/// Whether a reserve in front mode does not fit at once and finds own tail slots to drop.
fn front_drops(at: &Situation, len: u64) -> bool {
    let Mode::Front { slots, bytes, used } = at.record.mode else {
        return false;
    };
    let fits = front_end(at) as u128 + u128::from(len) <= bytes as u128;
    !(used < slots && fits) && used > 0 && !at.record.is_live(used)
}

/// Where the frame in the pool ends.
fn front_end(at: &Situation) -> usize {
    at.record.frame_start + at.record.frame_len
}

/// What a done reserve did.
fn reserve(before: &Situation, len: u64, answer: &Answer, judge: &Judge) -> Vec<String> {
    let after = judge.situation();
    let moves = moves_told(before, len, &after, answer.changes);
    let mut names = vec![move_class(before, &after, answer.changes, moves)];
    names.extend(other_moves(before, &after, moves, answer));
    names.extend(self_copy(before, &after, &answer.moves));
    names.extend(overflow_cause(before, &after, answer.changes));
    names.extend(clears(before, &after, answer.changes));
    names.extend(front_drop(before, len));
    names.extend(offers(before, &after, len, judge));
    names
}

/// The moves of a reserve, as the numbers tell them.
fn moves_told(before: &Situation, len: u64, after: &Situation, changes: u32) -> &'static str {
    match (letter(before), resets(before), letter(after), changes) {
        (_, _, _, 2) => "by way of F",
        ('A', true, 'A', 0) => "stays",
        ('A', true, 'A', _) => "in out",
        ('A', true, ..) => "in",
        (_, true, 'A', _) => "within out",
        (_, true, ..) => "within",
        ('B', _, 'B', _) if after.record.back_count < before.record.back_count => "tail clear",
        ('F', _, 'F', _) if front_drops(before, len) => "within",
        ('F', _, 'B', _) if front_drops(before, len) => "within twice",
        ('F', _, 'B', _) => "within",
        ('F', _, 'A', _) if front_drops(before, len) => "within out",
        ('F' | 'B', _, 'A', _) => "out",
        (_, _, 'F', 1) => "head clear",
        ('A', _, 'B', _) => "tail clear",
        _ => "none",
    }
}

/// The class of a reserve by its modes, reset, changes and moves.
fn move_class(before: &Situation, after: &Situation, changes: u32, moves: &str) -> String {
    let reset = if resets(before) { " reset" } else { "" };
    format!("{}{reset}->{} {changes} {moves}, {}", letter(before), letter(after), frame(before))
}

/// What the Rust moved, where it is not what the numbers tell: that is of no known class.
fn other_moves(
    before: &Situation,
    after: &Situation,
    told: &str,
    answer: &Answer,
) -> Option<String> {
    let kinds: String = answer.moves.iter().map(|a| a.kind).collect();
    let enters_overflow = letter(after) == 'A' && answer.changes > 0;
    let as_told = match (before.frame_len, told) {
        (0, _) => kinds == if enters_overflow { "o" } else { "" },
        (_, "within") => kinds == "w",
        (_, "within twice") => kinds == "ww",
        (_, "within out") => kinds == "wo",
        (_, "out") => kinds == "o",
        (_, "in") => kinds == "i",
        (_, "in out") => kinds == "io",
        _ => kinds.is_empty(),
    };
    let as_told = as_told && leads(before, after, &answer.moves);
    (!as_told).then(|| format!("{told}, but the Rust moved {:?}", answer.moves))
}

/// Whether the moves lead the frame, with its length, from where it lies before to where it lies after.
/// An empty frame also goes without a move.
fn leads(before: &Situation, after: &Situation, moves: &[Move]) -> bool {
    let len = before.frame_len;
    if len == 0 {
        return moves.iter().all(|a| a.len == 0);
    }
    let mut place = frame_place(before);
    for a in moves {
        let (from, to) = match a.kind {
            'w' => (('p', a.from), ('p', a.to)),
            'i' => (('o', a.from), ('p', a.to)),
            _ => (('p', a.from), ('o', a.to)),
        };
        if place != from || a.len != len {
            return false;
        }
        place = to;
    }
    place == frame_place(after)
}

/// The memory in which the frame lies, pool or overflow, and its start there.
fn frame_place(at: &Situation) -> (char, usize) {
    match at.record.mode {
        Mode::Overflow => ('o', 0),
        _ => ('p', at.record.frame_start),
    }
}

/// Where the Rust copied the frame onto itself. Other copies onto itself are of no known class.
fn self_copy(before: &Situation, after: &Situation, moves: &[Move]) -> Option<String> {
    let step = match (letter(before), resets(before)) {
        (mode, true) => format!("{mode} reset"),
        (mode, false) => format!("{mode}->{}", letter(after)),
    };
    moves.iter().any(Move::is_self_copy).then(|| format!("self copy, {step}"))
}

/// Why an empty frame went to the overflow or stays there, if no reset came first.
fn overflow_cause(before: &Situation, after: &Situation, changes: u32) -> Option<String> {
    if resets(before) || before.frame_len > 0 || letter(after) != 'A' || changes == 2 {
        return None;
    }
    let (_, clearable) = free_tail(&before.record);
    let cause = match (letter(before), clearable) {
        ('F', _) => return None,
        ('A', _) if before.record.back_count == 0 => "n is 0",
        (_, false) => "tail not clearable",
        (_, true) => "neither tail nor head cleared",
    };
    Some(format!("{}->A, {cause}", letter(before)))
}

/// What a tail or head clear did, where one was done in a reserve without a reset.
fn clears(before: &Situation, after: &Situation, changes: u32) -> Option<String> {
    if resets(before) {
        return None;
    }
    let boundary = match before.record.free_head().cmp(&before.record.back_start) {
        Ordering::Greater => "head clear, boundary moves",
        Ordering::Equal => "head clear, boundary stays",
        Ordering::Less => "head clear, below a live front slot",
    };
    let name = match (letter(before), letter(after), changes) {
        ('F' | 'A', 'B', _) => tail_clear(before, after),
        ('B', 'B', _) if after.record.back_count < before.record.back_count => {
            tail_clear(before, after)
        }
        ('B' | 'A', 'F', _) | (_, _, 2) => boundary,
        _ => return None,
    };
    Some(name.to_string())
}

/// How many slots a front drops of its own in a reserve without a reset, and whether a live one is left
/// before them.
fn dropped(before: &Situation, len: u64) -> Option<(usize, bool)> {
    let Mode::Front { used, .. } = before.record.mode else {
        return None;
    };
    if resets(before) || !front_drops(before, len) {
        return None;
    }
    let left = (1..used).rev().find(|&p| before.record.is_live(p)).unwrap_or(0);
    Some((used - left, left > 0))
}

/// Where a front that drops its own freed slots puts the frame.
fn front_drop(before: &Situation, len: u64) -> Option<String> {
    let (_, live_left) = dropped(before, len)?;
    let name = if live_left { "F drops, frame after a live slot" } else { "F drops, frame to 0" };
    Some(name.to_string())
}

fn tail_clear(before: &Situation, after: &Situation) -> &'static str {
    if after.record.back_count > 0 {
        return "tail clear, after a back slot";
    }
    let record = &before.record;
    match (1..=record.back_start).rev().find(|&p| record.is_live(p)) {
        None => "tail clear, at 0",
        Some(p) if p == record.back_start => "tail clear, after the last front slot",
        Some(_) => "tail clear, after a live front slot below a freed one",
    }
}

/// How a done reserve fits, and what its reservation shows.
fn offers(before: &Situation, after: &Situation, len: u64, judge: &Judge) -> Vec<String> {
    let bytes = judge.reservation();
    let earlier = bytes.iter().any(|&byte| byte != 0);
    let grown = earlier && bytes.last() == Some(&0);
    let (in_overflow, room) = match after.record.mode {
        Mode::Back => (false, after.capacity - front_end(after)),
        Mode::Front { bytes, .. } => (false, bytes - front_end(after)),
        Mode::Overflow => (true, after.overflow - after.frame_len),
    };
    let exact = match letter(after) {
        'B' => "r in B, exact fit",
        'F' => "r in F, exact fit",
        _ => "r in A, exact fit",
    };
    let idle = before.record.live == 0 && !resets(before);
    let stands = letter(before) == 'B' && before.record.frame_start > 0;
    let would_move_in = letter(before) == 'A' && before.frame_len < before.capacity;
    let mut names = holding(&[
        (earlier && !in_overflow, "r in the pool, not all zeros"),
        (earlier && in_overflow, "r in A, not all zeros"),
        (grown && in_overflow, "r in A, zeros after kept bytes"),
        (len == room as u64, exact),
        (idle && stands, "B, no live slot, no reset, frame not at 0"),
        (idle && would_move_in, "A, no live slot, no reset, frame shorter than the pool"),
        (
            !in_overflow && before.frame_len as u64 + len > before.overflow as u64,
            "r done, more than the overflow has",
        ),
    ]);
    names.extend(one_more(before, len));
    names
}

/// The class of a reserve of one byte more than fits where the frame stands.
fn one_more(before: &Situation, len: u64) -> Option<String> {
    let room = match before.record.mode {
        Mode::Back => before.capacity - front_end(before),
        Mode::Front { bytes, .. } => bytes - front_end(before),
        Mode::Overflow => before.overflow - before.frame_len,
    };
    let one_more = !resets(before) && len == room as u64 + 1;
    one_more.then(|| format!("r in {}, one byte more", letter(before)))
}

/// A refused reserve: where it stood, and how far it went beyond.
fn refused_reserve(before: &Situation, len: u64) -> Vec<String> {
    let reset = if resets(before) { " reset" } else { "" };
    let mut names = vec![format!("r refused 4, {}{reset}", letter(before))];
    names.extend(one_more(before, len));
    names.extend(holding(&[(len >= 1 << 63, "r refused 4, 2^63 bytes or more")]));
    names
}

fn commit(before: &Situation, len: u64, answer: &Answer) -> Vec<String> {
    let reserved = before.reserved as u64;
    if answer.refusal != 0 {
        let mut names = vec![format!("c refused 5, {}", letter(before))];
        names.extend(holding(&[
            (len == reserved + 1, "c refused 5, one byte more"),
            (reserved == 0, "c refused 5, spent"),
        ]));
        return names;
    }
    vec![match len {
        0 if reserved == 0 => "c none of a spent reservation".to_string(),
        0 => "c none of a reservation".to_string(),
        _ if len == reserved => format!("c all, {}", letter(before)),
        _ => format!("c part, {}", letter(before)),
    }]
}

/// Whether a live slice has this serial under another caller.
fn shared(name: Name, judge: &Judge) -> bool {
    let others = |live: &Name| live.serial == name.serial && live.caller != name.caller;
    judge.live_names().iter().any(others)
}

/// Whether the number is no caller's.
fn no_caller(caller: u8) -> bool {
    usize::from(caller) >= CALLERS
}

fn take(
    before: &Situation,
    caller: u8,
    destination: u64,
    answer: &Answer,
    judge: &Judge,
) -> Vec<String> {
    let frame_len = before.frame_len as u64;
    if answer.refusal == UNKNOWN_CALLER {
        return unknown_caller(before, destination);
    }
    if answer.refusal != 0 {
        let short = frame_len == destination + 1;
        return holding(&[(true, "t refused 6"), (short, "t refused 6, one byte too short")]);
    }
    if frame_len == 0 {
        let mut names = vec![format!("t empty, {}", letter(before))];
        names.extend(holding(&[(before.reserved > 0, "t empty, reservation open")]));
        return names;
    }
    if before.record.mode == Mode::Overflow {
        let exact = frame_len == destination;
        return holding(&[(true, "t copied"), (exact, "t copied, destination fits exactly")]);
    }
    let name = Name { caller, serial: judge.serials()[usize::from(caller)] };
    let of_two = "t pooled, another caller's live slice has the serial";
    let mut names =
        vec![format!("t pooled, {}", letter(before)), format!("t pooled, caller {caller}")];
    names.extend(holding(&[(shared(name, judge), of_two)]));
    names
}

/// A take refused with 12, by the frame that stays. 12 comes before 6.
fn unknown_caller(before: &Situation, destination: u64) -> Vec<String> {
    let in_overflow = before.record.mode == Mode::Overflow;
    let name = match (before.frame_len as u64, in_overflow) {
        (0, _) => "t refused 12, empty",
        (_, false) => "t refused 12, frame in the pool",
        (len, _) if len > destination => "t refused 12, frame in A longer than the destination",
        _ => "t refused 12, frame in A",
    };
    holding(&[(true, name), (before.reserved > 0, "t refused 12, reservation open")])
}

fn truncate(before: &Situation, len: u64) -> Vec<String> {
    if len < before.frame_len as u64 {
        return vec![format!("k cuts, {}", letter(before))];
    }
    let mut names = vec![format!("k cuts nothing, {}", letter(before))];
    names.extend(holding(&[(before.reserved > 0, "k cuts nothing, reservation open")]));
    names
}

fn release(before: &Situation, name: Name, answer: &Answer, judge: &Judge) -> Vec<String> {
    let class = match answer.refusal {
        0 => format!("d, {}", letter(before)),
        _ if no_caller(name.caller) => "d refused 7, no caller".to_string(),
        _ if judge.was_given(name) => "d refused 7, released before".to_string(),
        _ => "d refused 7, never given".to_string(),
    };
    let of_two = match answer.refusal {
        0 => "d, another caller's live slice has the serial",
        _ if no_caller(name.caller) => "d refused 7, no caller, a live slice has the serial",
        _ => "d refused 7, another caller's live slice has the serial",
    };
    let mut names = vec![class];
    names.extend(holding(&[(shared(name, judge), of_two)]));
    names
}

fn write(
    before: &Situation,
    view: View,
    index: u64,
    answer: &Answer,
    judge: &Judge,
) -> Vec<String> {
    let written = index < answer.len as u64;
    let in_overflow = before.record.mode == Mode::Overflow;
    let name = match (view, written, in_overflow) {
        (View::Reservation, true, false) => "w reservation in the pool",
        (View::Reservation, true, true) => "w reservation in A",
        (View::Reservation, false, _) => "w reservation, past its end",
        (View::Frame, true, false) => "w frame in the pool",
        (View::Frame, true, true) => "w frame in A",
        (View::Frame, false, _) => "w frame, past its end",
        // A live slice has at least one byte.
        (View::Slice(name), ..) => return slice_write(name, written, answer.len > 0, judge),
    };
    vec![name.to_string()]
}

/// A write through the slice with a name, which may be live or not.
fn slice_write(name: Name, written: bool, live: bool, judge: &Judge) -> Vec<String> {
    let class = match (written, live) {
        (true, _) => "w slice",
        (_, true) => "w slice, past its end",
        _ if no_caller(name.caller) => "w slice, not live, no caller",
        _ => "w slice, not live",
    };
    let of_two = match (written, live) {
        (true, _) => "w slice, another caller's live slice has the serial",
        (_, true) => return holding(&[(true, class)]),
        _ if no_caller(name.caller) => "w slice, not live, no caller, a live slice has the serial",
        _ => "w slice, not live, another caller's live slice has the serial",
    };
    holding(&[(true, class), (shared(name, judge), of_two)])
}

/// The wide classes of an event that was done.
fn wide(before: &Situation, event: &Event, answer: &Answer, judge: &Judge) -> Vec<String> {
    let after = judge.situation();
    let (old, new) = (&before.record, &after.record);
    let above = (NARROW + 1..=old.count).any(|p| old.is_live(p) != new.is_live(p));
    match *event {
        Event::Reserve(len) => wide_reserve(before, len, &after, answer.changes),
        Event::Take { .. } if above => vec![format!("t pooled, slot above 8, {}", letter(before))],
        Event::Release(_) => holding(&[
            (above, "d, slot above 8"),
            (old.live.count_ones() as usize == old.count, "d, all slots live"),
        ]),
        _ => Vec::new(),
    }
}

fn wide_reserve(before: &Situation, len: u64, after: &Situation, changes: u32) -> Vec<String> {
    let (old, new) = (&before.record, &after.record);
    let (in_back, in_overflow) = (new.mode == Mode::Back, new.mode == Mode::Overflow);
    let (front, front_used) = match new.mode {
        Mode::Front { slots, used, .. } => (slots, used),
        _ => (0, 0),
    };
    let cleared = clears(before, after, changes).unwrap_or_default();
    let (head, tail) = (cleared.starts_with("head clear"), cleared.starts_with("tail clear"));
    let dropped = dropped(before, len);
    holding(&[
        (in_back && new.back_count > NARROW, "r in B, back of more than 8 slots"),
        (in_back && new.back_start > NARROW, "r in B, boundary above 8"),
        (front > NARROW, "r in F, front of more than 8 slots"),
        (front_used > NARROW, "r in F, more than 8 slots of the front used"),
        (in_overflow && new.live.count_ones() as usize > NARROW, "r in A, more than 8 slots live"),
        (head && old.free_head() > NARROW, "head clear, more than 8 free slots"),
        (tail && old.back_count > new.back_count + NARROW, "tail clear, more than 8 slots"),
        (dropped.is_some_and(|(slots, _)| slots > NARROW), "F drops, more than 8 slots"),
        (dropped == Some((NARROW, true)), "F drops, 8 slots above a live one"),
    ])
}
