//! The program `oracle`: the commands over the driver. README.md says how they are used.

use oracle::answers::{self, Form};
use oracle::{calls, classes, generate, text, trace};
use std::fs;
use std::io::{self, BufWriter, Read, Write};
use std::process::ExitCode;
use std::str::FromStr;

const USAGE: &str = "\
usage:
  oracle run [--places|--shown] < CALLS > ANSWERS
  oracle gen SEED COUNT [--capacity MOST] [--events MOST] [--cover TIMES] > CALLS
  oracle classes < CALLS
  oracle text < TEXT > CALLS
  oracle read < CALLS > TEXT
  oracle trace BYTES < TEXT > TRACE
  oracle listing < TRACE
  oracle traces SEED COUNT FOLDER";

fn main() -> ExitCode {
    let words: Vec<String> = std::env::args().skip(1).collect();
    let words: Vec<&str> = words.iter().map(String::as_str).collect();
    match command(&words) {
        Ok(()) => ExitCode::SUCCESS,
        Err(cause) => {
            eprintln!("oracle: {cause}");
            ExitCode::FAILURE
        }
    }
}

/// Does what the command line says.
fn command(words: &[&str]) -> Result<(), String> {
    match words {
        ["run"] | ["run", "--places"] => run(Form::Places),
        ["run", "--shown"] => run(Form::Shown),
        ["gen", seed, count, options @ ..] => gen(seed, count, options),
        ["classes"] => classes(),
        ["text"] => print(&calls::encode(&text::parse(&read_text()?)?)),
        ["read"] => print(text::print(&read_calls()?).as_bytes()),
        ["trace", bytes] => make_trace(bytes.as_bytes()),
        ["listing"] => print(trace::listing(&read_bytes()?).as_bytes()),
        ["traces", seed, count, folder] => make_traces(number(seed)?, number(count)?, folder),
        _ => Err(USAGE.into()),
    }
}

fn run(form: Form) -> Result<(), String> {
    let lists = read_calls()?;
    let mut out = BufWriter::new(io::stdout().lock());
    answers::print(&lists, form, &mut out).and_then(|()| out.flush()).map_err(said)
}

fn gen(seed: &str, count: &str, words: &[&str]) -> Result<(), String> {
    let mut options = generate::Options {
        slots: calls::SLOTS,
        seed: number(seed)?,
        count: number(count)?,
        capacity: 40,
        events: 120,
        callers: generate::Callers::All,
        cover: 0,
    };
    for pair in words.chunks(2) {
        match pair {
            ["--capacity", most] => options.capacity = number(most)?,
            ["--events", most] => options.events = number::<u64>(most)?.max(1),
            ["--cover", times] => options.cover = number(times)?,
            _ => return Err(USAGE.into()),
        }
    }
    calls::check_lengths(options.capacity, 0)?;
    print(&calls::encode(&generate::lists(&options)))
}

/// Prints the counts, and fails if one of them is 0.
fn classes() -> Result<(), String> {
    let mut tally = classes::Tally::new(calls::SLOTS);
    for list in &read_calls()? {
        tally.add_list(list);
    }
    print(tally.report().as_bytes())?;
    tally.complaint().map_or(Ok(()), Err)
}

/// The trace of the one list that the text has.
fn make_trace(bytes: &[u8]) -> Result<(), String> {
    match &text::parse(&read_text()?)?[..] {
        [list] => print(&trace::encode(list, bytes)),
        lists => Err(format!("a trace holds one list, not {}", lists.len())),
    }
}

/// Writes traces and what the Rust makes of them: N.trace and N.listing.
fn make_traces(seed: u64, count: u64, folder: &str) -> Result<(), String> {
    for (at, file) in trace::traces(seed, count).iter().enumerate() {
        let path = format!("{folder}/{}", at + 1);
        fs::write(format!("{path}.trace"), file).map_err(said)?;
        fs::write(format!("{path}.listing"), trace::listing(file)).map_err(said)?;
    }
    Ok(())
}

fn read_bytes() -> Result<Vec<u8>, String> {
    let mut bytes = Vec::new();
    io::stdin().lock().read_to_end(&mut bytes).map_err(said)?;
    Ok(bytes)
}

fn read_calls() -> Result<Vec<calls::List>, String> {
    calls::decode(&read_bytes()?)
}

fn read_text() -> Result<String, String> {
    io::read_to_string(io::stdin().lock()).map_err(said)
}

fn print(bytes: &[u8]) -> Result<(), String> {
    io::stdout().lock().write_all(bytes).map_err(said)
}

fn number<T: FromStr>(word: &str) -> Result<T, String> {
    word.parse().map_err(|_| format!("`{word}` is no number here"))
}

fn said(error: io::Error) -> String {
    error.to_string()
}
