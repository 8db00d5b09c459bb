//! The calls file: lists of calls and view writes, in binary. README.md describes it.

/// The most bytes that either memory may have (SPECIFICATION 3.3, refusal 3).
pub const BYTE_LIMIT: u32 = 1_048_576;

/// How many callers there are: 0 to 3.
pub const CALLERS: usize = 4;

/// How many slots the pools of calls files and traces have, which name no count.
pub const SLOTS: usize = 8;

/// Bytes in a list's head and in one event.
const HEAD: usize = 12;
const EVENT: usize = 16;

/// A new pool's two lengths, and what is done to it.
#[derive(Clone, Debug, PartialEq)]
pub struct List {
    pub capacity: u32,
    pub overflow: u32,
    pub events: Vec<Event>,
}

/// One call, or one byte written through a view. Lengths are 64 bits wide, as the Rust's are.
#[derive(Clone, Copy, Debug, PartialEq)]
pub enum Event {
    Reserve(u64),
    Commit(u64),
    /// Take, by a caller who may be none, with the length of the lent destination.
    Take {
        caller: u8,
        destination: u64,
    },
    Truncate(u64),
    /// Release the slice with this name.
    Release(Name),
    /// Set the byte at an index of a view.
    Write {
        view: View,
        index: u64,
        value: u8,
    },
}

/// What a write goes through.
#[derive(Clone, Copy, Debug, PartialEq)]
pub enum View {
    Reservation,
    Frame,
    /// The slice with this name.
    Slice(Name),
}

/// What names a slice: the caller that took it, and its serial among that caller's. A serial alone
/// names none, as every caller's serials start at 1.
#[derive(Clone, Copy, Debug, PartialEq, Eq, PartialOrd, Ord)]
pub struct Name {
    pub caller: u8,
    pub serial: u32,
}

impl Event {
    /// The letter of the event's line in the answers.
    pub fn letter(&self) -> char {
        match self {
            Event::Reserve(_) => 'r',
            Event::Commit(_) => 'c',
            Event::Take { .. } => 't',
            Event::Truncate(_) => 'k',
            Event::Release(_) => 'd',
            Event::Write { .. } => 'w',
        }
    }

    /// The caller that the event names: 0 for a kind that names none.
    pub fn caller(&self) -> u8 {
        match *self {
            Event::Take { caller, .. } => caller,
            Event::Release(name) | Event::Write { view: View::Slice(name), .. } => name.caller,
            _ => 0,
        }
    }

    /// The fields of the event beside its caller: kind, value, serial, number.
    fn fields(&self) -> (u8, u8, u32, u64) {
        match *self {
            Event::Reserve(len) => (1, 0, 0, len),
            Event::Commit(len) => (2, 0, 0, len),
            Event::Take { destination, .. } => (3, 0, 0, destination),
            Event::Truncate(len) => (4, 0, 0, len),
            Event::Release(name) => (5, 0, name.serial, 0),
            Event::Write { view, index, value } => match view {
                View::Reservation => (6, value, 0, index),
                View::Frame => (7, value, 0, index),
                View::Slice(name) => (8, value, name.serial, index),
            },
        }
    }

    fn encode(&self) -> [u8; EVENT] {
        let (kind, value, serial, number) = self.fields();
        let mut bytes = [0; EVENT];
        bytes[..3].copy_from_slice(&[kind, value, self.caller()]);
        bytes[4..8].copy_from_slice(&serial.to_le_bytes());
        bytes[8..].copy_from_slice(&number.to_le_bytes());
        bytes
    }

    /// The event with these bytes, if there is one: a field that the kind does not use is 0.
    fn decode(bytes: &[u8]) -> Option<Event> {
        let (value, caller, serial) = (bytes[1], bytes[2], word(&bytes[4..8]));
        let number = u64::from(word(&bytes[8..12])) | u64::from(word(&bytes[12..16])) << 32;
        let name = Name { caller, serial };
        let write = |view| Event::Write { view, index: number, value };
        let event = match bytes[0] {
            1 => Event::Reserve(number),
            2 => Event::Commit(number),
            3 => Event::Take { caller, destination: number },
            4 => Event::Truncate(number),
            5 => Event::Release(name),
            6 => write(View::Reservation),
            7 => write(View::Frame),
            8 => write(View::Slice(name)),
            _ => return None,
        };
        (event.encode() == bytes).then_some(event)
    }
}

/// Four bytes as a number, lowest first.
fn word(bytes: &[u8]) -> u32 {
    bytes.iter().rev().fold(0, |sum, &byte| sum << 8 | u32::from(byte))
}

/// The file that holds these lists.
pub fn encode(lists: &[List]) -> Vec<u8> {
    let mut out = Vec::new();
    for list in lists {
        out.extend(list.capacity.to_le_bytes());
        out.extend(list.overflow.to_le_bytes());
        out.extend((list.events.len() as u32).to_le_bytes());
        out.extend(list.events.iter().flat_map(Event::encode));
    }
    out
}

/// The lists that a file holds, or what is wrong with it and where.
pub fn decode(mut bytes: &[u8]) -> Result<Vec<List>, String> {
    let mut lists = Vec::new();
    while !bytes.is_empty() {
        let (list, rest) =
            decode_list(bytes).map_err(|cause| format!("list {}: {cause}", lists.len() + 1))?;
        lists.push(list);
        bytes = rest;
    }
    Ok(lists)
}

/// The first list of a file, and the bytes after it.
fn decode_list(bytes: &[u8]) -> Result<(List, &[u8]), String> {
    if bytes.len() < HEAD {
        return Err("its head is cut short".into());
    }
    let (head, body) = bytes.split_at(HEAD);
    let (capacity, overflow, count) = (word(&head[..4]), word(&head[4..8]), word(&head[8..]));
    check_lengths(capacity, overflow)?;
    let size = count as usize * EVENT;
    if body.len() < size {
        return Err("its events are cut short".into());
    }
    let (body, rest) = body.split_at(size);
    let mut events = Vec::with_capacity(count as usize);
    for (at, event) in body.chunks(EVENT).enumerate() {
        events.push(Event::decode(event).ok_or(format!("event {} is none", at + 1))?);
    }
    Ok((List { capacity, overflow, events }, rest))
}

/// Refuses memories above the byte limit, which new refuses with 3.
pub fn check_lengths(capacity: u32, overflow: u32) -> Result<(), String> {
    if capacity.max(overflow) > BYTE_LIMIT {
        return Err(format!("a memory is longer than {BYTE_LIMIT} bytes"));
    }
    Ok(())
}

#[cfg(test)]
mod tests {
    use super::*;

    #[test]
    fn what_is_written_is_read_back() {
        let write = |view| Event::Write { view, index: u64::MAX, value: 255 };
        let list = List {
            capacity: 17,
            overflow: BYTE_LIMIT,
            events: vec![
                Event::Reserve(u64::MAX),
                Event::Commit(1 << 40),
                Event::Take { caller: 3, destination: 3 },
                Event::Take { caller: 255, destination: 0 },
                Event::Truncate(2),
                Event::Release(Name { caller: 4, serial: u32::MAX }),
                write(View::Reservation),
                write(View::Frame),
                write(View::Slice(Name { caller: 1, serial: 7 })),
            ],
        };
        let lists = vec![list.clone(), list];
        assert_eq!(decode(&encode(&lists)), Ok(lists));
    }

    /// The bytes with some of them changed.
    fn with(bytes: &[u8], changes: &[(usize, u8)]) -> Vec<u8> {
        let mut bytes = bytes.to_vec();
        changes.iter().for_each(|&(at, byte)| bytes[at] = byte);
        bytes
    }

    /// Byte 2 of an event is the caller of a take, a release or a write through a slice, and 0 for
    /// the other kinds; byte 3 is 0 for all.
    #[test]
    fn a_caller_stands_where_one_is_named() {
        let of = |kind: u8, at: usize| {
            let head = [1, 0, 0, 0, 1, 0, 0, 0, 1, 0, 0, 0];
            let event = with(&[0; EVENT], &[(0, kind), (at, 200)]);
            let list = decode(&[&head[..], &event].concat()).ok()?.remove(0);
            Some(list.events[0].caller())
        };
        for kind in 1..=8 {
            let named = [3, 5, 8].contains(&kind);
            assert_eq!((of(kind, 2), of(kind, 3)), (named.then_some(200), None), "kind {kind}");
        }
    }

    #[test]
    fn a_bad_file_is_named() {
        let good = encode(&[List { capacity: 1, overflow: 1, events: vec![Event::Reserve(1)] }]);
        let broken = |at: usize, byte: u8| decode(&with(&good, &[(at, byte)]));
        for at in [13, 14, 15, 16] {
            assert_eq!(broken(at, 1), Err("list 1: event 1 is none".into()));
        }
        assert_eq!(broken(12, 0), Err("list 1: event 1 is none".into()));
        assert_eq!(broken(12, 9), Err("list 1: event 1 is none".into()));
        assert_eq!(broken(8, 2), Err("list 1: its events are cut short".into()));
        assert_eq!(decode(&good[..11]), Err("list 1: its head is cut short".into()));
        assert_eq!(broken(3, 1), Err("list 1: a memory is longer than 1048576 bytes".into()));
    }
}
