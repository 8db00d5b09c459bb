//! The pool's private numbers, read from its `Debug` text.

use crate::pools::{Pool, Slice, MOST_SLOTS};
use std::fmt::{self, Write};

/// Where the pool places its frame.
#[derive(Clone, Copy, Debug, PartialEq)]
pub enum Mode {
    Back,
    /// Front: its slots and bytes, and how many of the slots are used.
    Front {
        slots: usize,
        bytes: usize,
        used: usize,
    },
    Overflow,
}

impl Mode {
    /// The letter of the mode in the answers.
    pub fn letter(&self) -> char {
        match self {
            Mode::Back => 'B',
            Mode::Front { .. } => 'F',
            Mode::Overflow => 'A',
        }
    }
}

/// The numbers of the pool that decide where it places. Of the overflow it holds nothing.
#[derive(Clone, Copy, Debug, PartialEq)]
pub struct Record {
    /// How many slots the pool has.
    pub count: usize,
    pub mode: Mode,
    pub live: u16,
    pub back_start: usize,
    pub back_count: usize,
    /// Start and length of the frame, if it lies in the pool.
    pub frame_start: usize,
    pub frame_len: usize,
    /// Start and length of each slot's slice, live or not, and zeros above the count.
    pub slots: [(usize, usize); MOST_SLOTS],
    /// Slots used.
    pub used: usize,
}

/// `Debug` text, collected until a word comes: bytes of the heap would be printed one by one.
struct Until {
    word: &'static str,
    text: String,
}

impl Write for Until {
    fn write_str(&mut self, text: &str) -> fmt::Result {
        if text.contains(self.word) {
            return Err(fmt::Error);
        }
        self.text.push_str(text);
        Ok(())
    }
}

/// The text before the word, and whether the word came.
fn text_until(word: &'static str, value: &dyn fmt::Debug) -> (String, bool) {
    let mut until = Until { word, text: String::with_capacity(512) };
    let stopped = write!(until, "{value:?}").is_err();
    (until.text, stopped)
}

impl Record {
    /// Reads the record of a pool with so many slots. Panics if the text is not what the published files
    /// print.
    pub fn read(count: usize, pool: &dyn Pool) -> Record {
        let (text, stopped) = text_until("system_memory", &pool);
        assert!(stopped, "the overflow comes after all that is read");
        Record::parse(count, &text)
    }

    /// The numbers stand in the order of the fields; only a front has numbers of its own.
    fn parse(count: usize, text: &str) -> Record {
        let mut numbers = numbers(text);
        let mut next = || numbers.next().expect("a number for each field");
        let (back_start, back_count) = (next(), next());
        let mode = if text.contains("mode: Front") {
            let (slots, bytes, used) = (next(), next(), next());
            Mode::Front { slots, bytes, used }
        } else if text.contains("mode: Back") {
            Mode::Back
        } else {
            assert!(text.contains("mode: Alloc"), "a known mode");
            Mode::Overflow
        };
        let live = next();
        assert!(live < 1 << count, "a live bit for each slot");
        let _capacity = next();
        let (frame_start, frame_len) = (next(), next());
        let mut slots = [(0, 0); MOST_SLOTS];
        slots[..count].fill_with(|| (next(), next()));
        let used = next();
        assert!(numbers.next().is_none(), "no other number");
        let live = live as u16;
        Record { count, mode, live, back_start, back_count, frame_start, frame_len, slots, used }
    }

    /// The bit of slot `p`, of 1 to the count.
    pub fn mask(&self, p: usize) -> u16 {
        1 << (self.count - p)
    }

    /// Whether slot `p`, of 1 to the count, is live.
    pub fn is_live(&self, p: usize) -> bool {
        self.live & self.mask(p) != 0
    }

    /// How many slots are free before the first live one.
    pub fn free_head(&self) -> usize {
        (1..=self.count).take_while(|&p| !self.is_live(p)).count()
    }

    /// How many slots are free after the last live one.
    pub fn free_tail(&self) -> usize {
        (1..=self.count).rev().take_while(|&p| !self.is_live(p)).count()
    }
}

/// The decimal numbers in a text, in order.
fn numbers(text: &str) -> impl Iterator<Item = usize> + '_ {
    text.split(|c: char| !c.is_ascii_digit())
        .filter(|digits| !digits.is_empty())
        .map(|digits| digits.parse().expect("a number of 64 bits"))
}

/// The slot of a slice, from 1 on, or none if it owns its bytes.
pub fn slot_of(slice: &dyn Slice) -> Option<usize> {
    let (text, owned) = text_until("Heap", &slice);
    if owned {
        return None;
    }
    let at = text.rfind(" slot: ").expect("a pooled slice has a slot");
    let slot = numbers(&text[at..]).next().expect("which is a number");
    Some(slot)
}

#[cfg(test)]
mod tests {
    use super::*;
    use crate::pools::{new_pool, SLOT_COUNTS};

    /// All slots are used by slices of 2 bytes, two of which are released, and the frame has 3.
    #[test]
    fn the_record_of_a_pool_in_front_mode() {
        for count in SLOT_COUNTS {
            let mut pool = new_pool(count, 2 * count + 1);
            let mut slices = Vec::new();
            for _ in 0..count {
                pool.reserve(2);
                pool.commit(2);
                slices.push(pool.take());
            }
            assert_eq!(slot_of(&*slices[count - 1]), Some(count));
            slices.drain(..2);
            pool.reserve(3);
            pool.commit(3);
            let record = Record::read(count, &*pool);
            assert_eq!(record.mode, Mode::Front { slots: 2, bytes: 4, used: 0 });
            assert_eq!(record.live, if count == 8 { 0x3f } else { 0x3fff });
            assert_eq!((record.back_start, record.back_count), (2, count - 2));
            assert_eq!((record.frame_start, record.frame_len), (0, 3));
            assert_eq!((record.slots[count - 1], record.used), ((2 * count - 2, 2), 0));
            assert_eq!((record.free_head(), record.free_tail()), (2, 0));
        }
    }

    #[test]
    fn a_slice_of_its_own_has_no_slot() {
        assert_eq!(slot_of(&buffer_sv2::Slice::from(vec![1, 2, 3])), None);
        assert_eq!(slot_of(&buffer_sv2_widened::Slice::from(vec![1, 2, 3])), None);
    }
}
