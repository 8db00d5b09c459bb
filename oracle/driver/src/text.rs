//! Lists written by hand: the text form of a calls file. README.md describes it.

use crate::calls::{check_lengths, Event, List, Name, View};
use std::fmt::Write as _;
use std::str::FromStr;

/// The lists that a text holds, or the number of the first bad line and what is wrong with it.
pub fn parse(text: &str) -> Result<Vec<List>, String> {
    let mut lists: Vec<List> = Vec::new();
    for (at, line) in text.lines().enumerate() {
        let said = line.split('#').next().unwrap_or("");
        for part in said.split(';') {
            let words: Vec<&str> = part.split_whitespace().collect();
            parse_part(&words, &mut lists).map_err(|cause| format!("line {}: {cause}", at + 1))?;
        }
    }
    Ok(lists)
}

/// Adds what one part of a line says: nothing, a new list, or an event of the last list.
fn parse_part(words: &[&str], lists: &mut Vec<List>) -> Result<(), String> {
    match words {
        [] => {}
        ["pool", capacity, "overflow", overflow] => {
            let (capacity, overflow) = (number(capacity)?, number(overflow)?);
            check_lengths(capacity, overflow)?;
            lists.push(List { capacity, overflow, events: Vec::new() });
        }
        _ => {
            let list = lists.last_mut().ok_or("a list starts with `pool`")?;
            list.events.push(parse_event(words, list.overflow)?);
        }
    }
    Ok(())
}

/// The event that the words say. A take without a number is lent as many bytes as the overflow has.
/// Where a caller can be named and is not, it is 0.
fn parse_event(words: &[&str], overflow: u32) -> Result<Event, String> {
    let (said, caller) = match words {
        [said @ .., "by", caller] => (said, Some(number(caller)?)),
        said => (said, None),
    };
    let by = caller.unwrap_or(0);
    Ok(match (said, caller) {
        (["r", len], None) => Event::Reserve(number(len)?),
        (["c", len], None) => Event::Commit(number(len)?),
        (["t"], _) => Event::Take { caller: by, destination: overflow.into() },
        (["t", len], _) => Event::Take { caller: by, destination: number(len)? },
        (["k", len], None) => Event::Truncate(number(len)?),
        (["d", serial], _) => Event::Release(Name { caller: by, serial: number(serial)? }),
        (["w", "r", index, byte], None) => parse_write(View::Reservation, index, byte)?,
        (["w", "f", index, byte], None) => parse_write(View::Frame, index, byte)?,
        (["w", serial, index, byte], _) => {
            let name = Name { caller: by, serial: number(serial)? };
            parse_write(View::Slice(name), index, byte)?
        }
        _ => return Err(format!("`{}` is no event", words.join(" "))),
    })
}

fn parse_write(view: View, index: &str, byte: &str) -> Result<Event, String> {
    let value = u8::from_str_radix(byte, 16).map_err(|_| format!("`{byte}` is no byte"))?;
    Ok(Event::Write { view, index: number(index)?, value })
}

fn number<T: FromStr>(word: &str) -> Result<T, String> {
    word.parse().map_err(|_| format!("`{word}` is no number here"))
}

/// The text that says these lists.
pub fn print(lists: &[List]) -> String {
    let mut out = String::new();
    for (at, list) in lists.iter().enumerate() {
        let gap = if at == 0 { "" } else { "\n" };
        let _ = writeln!(out, "{gap}pool {} overflow {}", list.capacity, list.overflow);
        for event in &list.events {
            let _ = writeln!(out, "{} {}{}", event.letter(), arguments(event), by(event));
        }
    }
    out
}

fn arguments(event: &Event) -> String {
    match event {
        Event::Reserve(number)
        | Event::Commit(number)
        | Event::Take { destination: number, .. }
        | Event::Truncate(number) => number.to_string(),
        Event::Release(name) => name.serial.to_string(),
        Event::Write { view, index, value } => match view {
            View::Reservation => format!("r {index} {value:02x}"),
            View::Frame => format!("f {index} {value:02x}"),
            View::Slice(name) => format!("{} {index} {value:02x}", name.serial),
        },
    }
}

/// The caller, where it is not 0.
fn by(event: &Event) -> String {
    match event.caller() {
        0 => String::new(),
        caller => format!(" by {caller}"),
    }
}

#[cfg(test)]
mod tests {
    use super::*;

    #[test]
    fn what_is_printed_is_parsed_back() {
        let text =
            "pool 17 overflow 20\nr 2\nw r 0 61\nc 2\nw f 1 0a\nt 20\nw 1 0 ff\nk 3\nd 1\n\n\
                    pool 0 overflow 0\nr 18446744073709551615\n\n\
                    pool 4 overflow 4\nt 3 by 2\nw 1 0 61 by 2\nd 1 by 2\nt 4 by 255\nd 1 by 4\n";
        assert_eq!(print(&parse(text).unwrap()), text);
    }

    #[test]
    fn comments_and_blank_lines_say_nothing() {
        let text = "# one\n\npool 1 overflow 7 # two\n  t; r 3; t by 2\n";
        let take = |caller| Event::Take { caller, destination: 7 };
        let events = vec![take(0), Event::Reserve(3), take(2)];
        let list = List { capacity: 1, overflow: 7, events };
        assert_eq!(parse(text), Ok(vec![list]));
    }

    #[test]
    fn a_bad_line_is_named() {
        let cause = |text: &str| parse(text).unwrap_err();
        assert_eq!(cause("r 1"), "line 1: a list starts with `pool`");
        assert_eq!(cause("pool 1 overflow 1\nr x"), "line 2: `x` is no number here");
        assert_eq!(cause("pool 1 overflow 1\nr 1 2"), "line 2: `r 1 2` is no event");
        assert_eq!(cause("pool 1 overflow 1\nw r 0 100"), "line 2: `100` is no byte");
        assert_eq!(cause("pool 1 overflow 1\nr 1 by 1"), "line 2: `r 1 by 1` is no event");
        assert_eq!(cause("pool 1 overflow 1\nt by 256"), "line 2: `256` is no number here");
        assert_eq!(
            cause("pool 1 overflow 1048577"),
            "line 1: a memory is longer than 1048576 bytes"
        );
    }
}
