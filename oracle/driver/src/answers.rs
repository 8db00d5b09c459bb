//! The answers to a calls file, as text: one line for each list and for each event.

use crate::calls::{Event, List, SLOTS};
use crate::judge::{Answer, Judge};
use std::io::{self, Write};

/// How much of an answer is printed.
#[derive(Clone, Copy, PartialEq)]
pub enum Form {
    /// The numbers alone.
    Places,
    /// The numbers and all bytes shown after the event.
    Shown,
}

/// Runs the lists, each on a new pool, and prints their answers.
pub fn print(lists: &[List], form: Form, out: &mut impl Write) -> io::Result<()> {
    for list in lists {
        writeln!(out, "pool {} overflow {}", list.capacity, list.overflow)?;
        let mut judge = Judge::new(SLOTS, list.capacity, list.overflow);
        for (at, event) in list.events.iter().enumerate() {
            let answer = judge.apply(event);
            print_places(at + 1, event, &answer, &judge, out)?;
            if form == Form::Shown {
                print_shown(&answer, &judge, out)?;
            }
            writeln!(out)?;
        }
    }
    Ok(())
}

/// Number, letter, refusal, mode, live bits, start, length, changes.
fn print_places(
    at: usize,
    event: &Event,
    answer: &Answer,
    judge: &Judge,
    out: &mut impl Write,
) -> io::Result<()> {
    let record = judge.situation().record;
    write!(
        out,
        "{at} {} {} {} {:02x} {} {} {}",
        event.letter(),
        answer.refusal,
        record.mode.letter(),
        record.live,
        answer.start,
        answer.len,
        answer.changes
    )
}

/// Frame, reservation, live slices by slot, and the frame that was copied.
fn print_shown(answer: &Answer, judge: &Judge, out: &mut impl Write) -> io::Result<()> {
    write!(out, " f={} r={}", hex(judge.frame()), hex(judge.reservation()))?;
    for (slot, bytes) in judge.slices() {
        write!(out, " {slot}={}", hex(bytes))?;
    }
    if !answer.copied.is_empty() {
        write!(out, " c={}", hex(&answer.copied))?;
    }
    Ok(())
}

/// Bytes as two lower-case digits each.
fn hex(bytes: &[u8]) -> String {
    const DIGITS: &[u8; 16] = b"0123456789abcdef";
    let digit = |half: u8| char::from(DIGITS[usize::from(half)]);
    bytes.iter().flat_map(|&byte| [digit(byte >> 4), digit(byte & 15)]).collect()
}
