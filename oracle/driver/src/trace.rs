//! Traces: written from a list, run on the Rust, and made good and damaged from a seed. The listing
//! is that of docs/SPECIFICATION.md, 9 and 10.

use crate::calls::{Event, List, Name, View, CALLERS, SLOTS};
use crate::generate::{self, Callers};
use crate::judge::Judge;
use crate::random::Random;
use std::ptr;

/// The longest file, the longest memory, and the bytes of header and event.
pub const FILE_LIMIT: usize = 65_536;
const MEMORY_LIMIT: u32 = 16_384;
pub const HEADER: usize = 24;
pub const EVENT: usize = 8;

/// The trace with the list's sizes and calls, and these bytes. Writes have no place in a trace. A
/// caller stands as the list names it: one above 3 makes a file that is refused with 10.
pub fn encode(list: &List, bytes: &[u8]) -> Vec<u8> {
    let events: Vec<[u8; EVENT]> = list.events.iter().filter_map(event_bytes).collect();
    let count = events.len() as u32;
    let header =
        [list.capacity, list.overflow, count, HEADER as u32, bytes.len() as u32, 24 + 8 * count];
    let mut file: Vec<u8> = header.iter().flat_map(|number| number.to_le_bytes()).collect();
    file.extend(events.concat());
    file.extend(bytes);
    file
}

/// Kind, caller, two zeros, number. A length above 32 bits becomes the longest.
fn event_bytes(event: &Event) -> Option<[u8; EVENT]> {
    let (kind, number) = match *event {
        Event::Reserve(len) => (1, len),
        Event::Commit(len) => (2, len),
        Event::Take { .. } => (3, 0),
        Event::Truncate(len) => (4, len),
        Event::Release(name) => (5, u64::from(name.serial)),
        Event::Write { .. } => return None,
    };
    let number = (number.min(u64::from(u32::MAX)) as u32).to_le_bytes();
    Some([kind, event.caller(), 0, 0, number[0], number[1], number[2], number[3]])
}

/// Why a file is refused: 9, or 10 with the event counted from 1.
#[derive(Debug, PartialEq)]
pub enum Refusal {
    File,
    Event(usize),
}

/// The list and the bytes of a trace. 9 comes before 10.
pub fn decode(file: &[u8]) -> Result<(List, &[u8]), Refusal> {
    if file.len() < HEADER || file.len() > FILE_LIMIT {
        return Err(Refusal::File);
    }
    let number = |at: usize| u32::from_le_bytes(file[at..at + 4].try_into().expect("four bytes"));
    let (capacity, overflow, count) = (number(0), number(4), number(8));
    let events_end = HEADER as u64 + EVENT as u64 * u64::from(count);
    let sound = capacity <= MEMORY_LIMIT
        && overflow <= MEMORY_LIMIT
        && number(12) == HEADER as u32
        && u64::from(number(20)) == events_end
        && events_end + u64::from(number(16)) == file.len() as u64;
    if !sound {
        return Err(Refusal::File);
    }
    let (events, bytes) = file[HEADER..].split_at(EVENT * count as usize);
    let events = events.chunks(EVENT).enumerate();
    let events = events
        .map(|(at, event)| decode_event(event, overflow).ok_or(Refusal::Event(at + 1)))
        .collect::<Result<_, _>>()?;
    Ok((List { capacity, overflow, events }, bytes))
}

/// The event, if it is one. A take's destination is as long as the overflow. Takes and releases have
/// a caller, which is one of the four.
fn decode_event(bytes: &[u8], overflow: u32) -> Option<Event> {
    let number = u32::from_le_bytes(bytes[4..].try_into().expect("four bytes"));
    match (bytes[0], &bytes[1..4], number) {
        (1, [0, 0, 0], len) => Some(Event::Reserve(len.into())),
        (2, [0, 0, 0], len) => Some(Event::Commit(len.into())),
        (3, &[caller @ 0..=3, 0, 0], 0) => {
            Some(Event::Take { caller, destination: overflow.into() })
        }
        (4, [0, 0, 0], len) => Some(Event::Truncate(len.into())),
        (5, &[caller @ 0..=3, 0, 0], serial) => Some(Event::Release(Name { caller, serial })),
        _ => None,
    }
}

/// What `poolreplay` must print for this file, by the Rust.
pub fn listing(file: &[u8]) -> String {
    match decode(file) {
        Err(Refusal::File) => "refused 9\n".into(),
        Err(Refusal::Event(at)) => format!("refused 10 {at}\n"),
        Ok((list, bytes)) => run(&list, bytes),
    }
}

fn run(list: &List, mut bytes: &[u8]) -> String {
    let mut judge = Judge::new(SLOTS, list.capacity, list.overflow);
    let mut out = format!("pool {} overflow {}\n", list.capacity, list.overflow);
    let (mut refused, mut taken, mut copied) = (0, 0, 0);
    for (at, event) in list.events.iter().enumerate() {
        let before = judge.situation();
        if let Event::Commit(len) = *event {
            bytes = fill(&mut judge, len, bytes);
        }
        let answer = judge.apply(event);
        let record = judge.situation().record;
        let pooled = before.record.mode.letter() != 'A' && record.mode.letter() != 'A';
        let moved = match event {
            Event::Reserve(_) if pooled => {
                record.frame_start as i64 - before.record.frame_start as i64
            }
            _ => 0,
        };
        refused += usize::from(answer.refusal != 0);
        if matches!(event, Event::Take { .. }) && answer.len > 0 {
            taken += 1;
            copied += usize::from(!answer.copied.is_empty());
        }
        let (letter, refusal, mode) = (event.letter(), answer.refusal, record.mode.letter());
        let (live, start, len) = (record.live, answer.start, answer.len);
        out += &format!("{} {letter} {refusal} {mode} {live:02x} {start} {len} {moved}\n", at + 1);
    }
    let percent = percent(copied, taken);
    let held = held(&judge);
    out + &format!("T {} {refused} {percent} {held}\n", list.events.len() - refused)
}

/// The overflow percentage: of the whole numbers up to 100, each of them tried, the one nearest to
/// 100 × copied / taken, and of two the even one. Without takes all are as near, and 0 is the first.
fn percent(copied: usize, taken: usize) -> usize {
    let distance = |percent: usize| (percent * taken).abs_diff(100 * copied);
    (0..=100).min_by_key(|&percent| (distance(percent), percent % 2)).expect("there are some")
}

/// The held bytes: how far up the pool memory is occupied. Its bytes are asked one by one, from the
/// last down, whether they lie in a live slice.
fn held(judge: &Judge) -> usize {
    let live = |byte: &u8| {
        judge.slices().any(|(_, bytes)| bytes.as_ptr_range().contains(&ptr::from_ref(byte)))
    };
    judge.pool_bytes().iter().rposition(live).map_or(0, |last| last + 1)
}

/// Copies what a commit takes of the trace's bytes into the reservation; gives the rest.
fn fill<'a>(judge: &mut Judge, len: u64, bytes: &'a [u8]) -> &'a [u8] {
    if len > judge.situation().reserved as u64 {
        return bytes;
    }
    let (now, later) = bytes.split_at(bytes.len().min(len as usize));
    for (index, &value) in (0..).zip(now) {
        judge.apply(&Event::Write { view: View::Reservation, index, value });
    }
    later
}

/// The traces of a seed: two of full size, one without events, then lists of the generator, every
/// second one damaged. The first of full size and two of every four after it have caller 0 alone, as
/// traces had before callers were named.
pub fn traces(seed: u64, count: u64) -> Vec<Vec<u8>> {
    let mut random = Random::new(seed);
    let (old, new) = (lists(seed, count, Callers::First), lists(seed, count, Callers::All));
    let empty = List { capacity: 5, overflow: 3, events: Vec::new() };
    let mut files =
        vec![full(&old, 40, 1), full(&new, MEMORY_LIMIT, 400), encode(&empty, b"unused")];
    for (at, (old, new)) in old.iter().zip(&new).enumerate() {
        let bytes: Vec<u8> = (0..random.below(400)).map(|_| random.below(256) as u8).collect();
        let mut file = encode(if at % 4 < 2 { old } else { new }, &bytes);
        if at % 2 == 1 {
            damage(&mut file, at / 2, &mut random);
        }
        files.push(file);
    }
    files
}

/// Lists of the generator, less the takes and releases by numbers that are no callers: these are
/// refused, and a trace cannot have them.
fn lists(seed: u64, count: u64, callers: Callers) -> Vec<List> {
    let mut lists = generate::lists(&generate::Options {
        slots: SLOTS,
        seed,
        count,
        capacity: 40,
        events: 120,
        callers,
        cover: 0,
    });
    for list in &mut lists {
        list.events.retain(|event| usize::from(event.caller()) < CALLERS);
    }
    lists
}

/// A trace of the longest file: memories of this length, the events of the lists one after the
/// other, and their lengths `times` as long.
fn full(lists: &[List], length: u32, times: u64) -> Vec<u8> {
    let longer = |event: &Event| match *event {
        Event::Reserve(len) => Some(Event::Reserve(len.saturating_mul(times))),
        Event::Commit(len) => Some(Event::Commit(len.saturating_mul(times))),
        Event::Truncate(len) => Some(Event::Truncate(len.saturating_mul(times))),
        Event::Write { .. } => None,
        event => Some(event),
    };
    let most = (FILE_LIMIT - HEADER) / EVENT;
    let events = lists.iter().flat_map(|list| &list.events).filter_map(longer).take(most).collect();
    encode(&List { capacity: length, overflow: length, events }, &[])
}

/// Damages a file in the way of this number: header fields, its end, or one of its events. The count
/// of ways is odd, so that each meets traces of caller 0 and traces of all.
fn damage(file: &mut Vec<u8>, way: usize, random: &mut Random) {
    let events = (file[8] as usize | (file[9] as usize) << 8).max(1);
    let event = HEADER + EVENT * random.below(events as u64) as usize;
    let ways = 29;
    match way % ways {
        field @ 0..=11 => {
            let at = field / 2 * 4;
            let number = u32::from_le_bytes(file[at..at + 4].try_into().expect("four bytes"));
            let other =
                if field % 2 == 0 { number.wrapping_add(1) } else { number.wrapping_sub(1) };
            file[at..at + 4].copy_from_slice(&other.to_le_bytes());
        }
        12 => drop(file.pop()),
        13 => file.push(0),
        14 => file.truncate(random.below(30) as usize),
        15 => file[..4].copy_from_slice(&(MEMORY_LIMIT + 1).to_le_bytes()),
        16 => file[4..8].copy_from_slice(&(MEMORY_LIMIT + 1).to_le_bytes()),
        17 => file.resize(FILE_LIMIT + 1, 0),
        18 => set(file, event, &[0]),
        19 => set(file, event, &[6]),
        20 => set(file, event + random.within(2, 3) as usize, &[1]),
        21 => {
            set(file, event, &[3]);
            set(file, event + 4 + random.below(4) as usize, &[1]);
        }
        22 => {
            set(file, event, &[255]);
            file.push(0);
        }
        23 => set(file, event, &[3, none(random), 0, 0, 0, 0, 0, 0]),
        24 => set(file, event, &[5, none(random), 0, 0]),
        25 => set(file, event, &[1, any(random), 0, 0]),
        26 => set(file, event, &[2, any(random), 0, 0]),
        27 => set(file, event, &[4, any(random), 0, 0]),
        _ => file.clear(),
    }
}

/// A number that is no caller.
fn none(random: &mut Random) -> u8 {
    random.pick(&[4, 4, 5, 7, 8, 0x80, 0xff])
}

/// A caller that is not 0, or a number that is no caller.
fn any(random: &mut Random) -> u8 {
    random.pick(&[1, 2, 3, 4, 0xff])
}

/// Sets bytes, if the file reaches so far.
fn set(file: &mut [u8], at: usize, values: &[u8]) {
    if let Some(bytes) = file.get_mut(at..at + values.len()) {
        bytes.copy_from_slice(values);
    }
}

#[cfg(test)]
mod tests {
    use super::*;
    use crate::text;

    fn example() -> Vec<u8> {
        let list = text::parse(
            "pool 16 overflow 12
             r 6; c 6; t; r 13; r 8; c 9; c 4; r 7; k 3; t; d 1; r 16",
        );
        encode(&list.expect("a good text")[0], b"abcdefghij")
    }

    #[test]
    fn the_listing_of_document_01() {
        assert_eq!(listing(&example()), crate::cases::LISTING);
    }

    /// The percentages that W-204 names, and others with both neighbours below, at and above the half.
    #[test]
    fn percentages_to_the_nearest_and_halves_to_the_even() {
        let named = [(1, 8, 12), (3, 8, 38), (1, 3, 33), (1, 2, 50)];
        let halves =
            [(1, 200, 0), (3, 200, 2), (5, 8, 62), (7, 8, 88), (1, 40, 2), (199, 200, 100)];
        let below = [(1, 16, 6), (1, 7, 14), (1, 11, 9), (1, 201, 0)];
        let above = [(1, 6, 17), (1, 13, 8), (2, 3, 67), (6, 7, 86), (1, 199, 1)];
        let whole = [(0, 0, 0), (0, 5, 0), (5, 5, 100), (1, 100, 1)];
        for (copied, taken, due) in [&named[..], &halves, &below, &above, &whole].concat() {
            assert_eq!(percent(copied, taken), due, "{copied} of {taken}");
        }
    }

    /// W-206: a freed gap below a live slice counts, what is freed above all live ones does not, and
    /// neither do frame, reservation and frames that were copied; without a live slice it is 0. In B, in
    /// A and in F, where the front's slices lie below those of the back.
    #[test]
    fn held_bytes_to_the_highest_end() {
        let shown = |events: &str| {
            let list = text::parse(events).expect("a good text");
            let listing = listing(&encode(&list[0], b""));
            listing.split_whitespace().last().expect("a number").parse::<usize>().expect("a number")
        };
        let octet = format!("pool 17 overflow 20\n{}", "r 2; c 2; t\n".repeat(8));
        let named = "pool 16 overflow 0\n r 14; c 14; t; r 2; c 2; t; d 1";
        for (events, due) in [
            (named.into(), 16),
            (format!("{named}; d 2"), 0),
            ("pool 16 overflow 0".into(), 0),
            ("pool 16 overflow 0\n r 9; c 7; r 2".into(), 0),
            ("pool 16 overflow 8\n r 3; c 3; t; r 3; c 3; t; d 2; r 7; c 7".into(), 3),
            ("pool 4 overflow 8\n r 3; c 3; t; r 8; c 8; t".into(), 3),
            ("pool 4 overflow 8\n r 8; c 8; t; r 8; c 8".into(), 0),
            (octet.clone(), 16),
            (format!("{octet} d 8; d 7; d 2"), 12),
            (format!("{octet} d 1; d 2; d 3; d 4; d 5; d 6; d 7"), 16),
            (format!("{octet} d 1; d 2; r 3; c 3; t"), 16),
            (format!("{octet} d 1; d 2; r 3; c 3; t; d 8; d 7"), 12),
            (format!("{octet} d 1; d 2; r 3; c 3; t; d 3; d 4; d 5; d 6; d 7; d 8"), 3),
        ] {
            assert_eq!(shown(&events), due, "{events}");
        }
    }

    /// Each caller's serials start at 1, and a release finds the slice by caller and serial: the
    /// one that caller 3 took is released by 3 alone.
    #[test]
    fn a_trace_of_two_callers() {
        let list = text::parse(
            "pool 8 overflow 8
             r 2; c 2; t; r 3; c 3; t by 3; d 1 by 1; d 1 by 3; d 1 by 3; d 1",
        );
        let file = encode(&list.expect("a good text")[0], b"");
        let due = "\
pool 8 overflow 8
1 r 0 B 00 0 2 0
2 c 0 B 00 0 2 0
3 t 0 B 80 0 2 0
4 r 0 B 80 2 3 0
5 c 0 B 80 2 3 0
6 t 0 B c0 2 3 0
7 d 7 B c0 0 0 0
8 d 0 B 80 2 3 0
9 d 7 B 80 0 0 0
10 d 0 B 00 0 2 0
T 8 2 0 0
";
        assert_eq!(listing(&file), due);
    }

    /// Of the traces from a seed those that are not damaged are read, half of them as traces of caller
    /// 0 alone.
    #[test]
    fn traces_with_and_without_callers() {
        let of_callers = |file: &Vec<u8>| {
            let (list, _) = decode(file).expect("a good trace");
            list.events.iter().any(|event| event.caller() > 0)
        };
        let files = traces(4, 200);
        assert_eq!((files.len(), of_callers(&files[0]), of_callers(&files[1])), (203, false, true));
        let good = files[3..].iter().step_by(2);
        let named = good.enumerate().filter(|(_, file)| of_callers(file));
        let named: Vec<usize> = named.map(|(at, _)| at).collect();
        assert!(named.len() > 40 && named.iter().all(|at| at % 2 == 1));
    }

    #[test]
    fn every_damage_to_the_file_is_9_and_to_an_event_10() {
        let refused = |at: usize, byte: u8| {
            let mut file = example();
            file[at] = byte;
            listing(&file)
        };
        for at in [2, 6, 8, 12, 16, 20] {
            assert_eq!(refused(at, 1), "refused 9\n", "byte {at}");
        }
        for at in [24, 25, 26, 27] {
            assert_eq!(refused(at, 9), "refused 10 1\n", "byte {at}");
        }
        // A caller on a reserve, a commit and a truncate; none on a take and a release.
        for (event, caller) in [(1, 1), (2, 3), (9, 2), (3, 4), (11, 4), (11, 255)] {
            let due = format!("refused 10 {event}\n");
            assert_eq!(refused(24 + 8 * (event - 1) + 1, caller), due);
        }
        assert_eq!(refused(24 + 2 * 8 + 7, 1), "refused 10 3\n");
        assert_eq!(listing(&example()[..121]), "refused 9\n");
        assert_eq!(listing(&[]), "refused 9\n");
    }
}
