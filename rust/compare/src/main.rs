//! Compares the port with the Rust at scale: `compare SEED CALLS DEPTH`. README.md says what is
//! compared. Ends with failure at the first disagreement, after printing what shows it.

mod counts;
mod damage;
mod exhaustive;
mod given;
mod lists;
mod memory;
mod model;
mod pair;
mod port;
mod shrink;
mod sound;
mod stack;
mod state;

use counts::Counts;
use oracle::pools::SLOT_COUNTS;
use oracle::random::Random;
use std::process::ExitCode;
use std::time::Instant;

fn main() -> ExitCode {
    let words: Vec<String> = std::env::args().skip(1).collect();
    let numbers: Vec<u64> = words.iter().filter_map(|word| word.parse().ok()).collect();
    let done = match numbers[..] {
        [seed, calls, depth] => compare(seed, calls, depth as usize),
        _ => Err("usage: compare SEED CALLS DEPTH".into()),
    };
    match done {
        Ok(()) => ExitCode::SUCCESS,
        Err(cause) => {
            eprintln!("compare: {cause}");
            ExitCode::FAILURE
        }
    }
}

/// The whole comparison, with pools of each slot count.
fn compare(seed: u64, calls: u64, depth: usize) -> Result<(), String> {
    let start = Instant::now();
    let mut totals = Vec::new();
    for slots in SLOT_COUNTS {
        let total = compare_pools(slots, seed, calls, depth)?;
        totals.push(format!("{total} calls with {slots} slots"));
    }
    let new_pools = damage::new_pools()?;
    println!("new with slot counts and memories: {new_pools} calls, each as due");
    println!("beside the Rust: {}", totals.join(", "));
    println!("{:.0} s", start.elapsed().as_secs_f64());
    Ok(())
}

/// With pools of so many slots: fixed lists, every short list, lists from a seed, damaged input. Gives the
/// count of calls beside the Rust.
fn compare_pools(slots: usize, seed: u64, calls: u64, depth: usize) -> Result<u64, String> {
    let (mut counts, mut damaged) = (Counts::new(slots), Counts::new(slots));
    println!("pools of {slots} slots");
    lists::fixed(slots, &mut counts)?;
    println!("fixed lists: {} calls", counts.total());
    let before = counts.total();
    exhaustive::run(slots, depth, &mut counts)?;
    println!("every list of up to {depth} events: {} calls", counts.total() - before);
    let before = counts.total();
    lists::random(slots, seed, calls, &mut counts, &mut damaged)?;
    println!("lists from seed {seed}: {} calls", counts.total() - before);
    damage::every_field(slots, &mut Random::new(seed), &mut damaged)?;
    damage::by_hand(slots, calls / 4, &mut Random::new(seed ^ 1), &mut damaged)?;
    report(slots, &counts, &damaged);
    match counts.tally.complaint() {
        Some(cause) => Err(format!("with {slots} slots, {cause}")),
        None => Ok(counts.total()),
    }
}

/// What was compared with pools of so many slots.
fn report(slots: usize, counts: &Counts, damaged: &Counts) {
    let (lists, writes, views) = (counts.lists, counts.writes, counts.views);
    print!("\nclasses reached beside the Rust, with {slots} slots:\n{}", counts.tally.report());
    println!("\nbeside the Rust: {} calls on {lists} new pools of {slots} slots,", counts.total());
    println!("{writes} writes, and {views} views after the calls; no disagreement");
    print!("{}", counts.table());
    println!("\ndamaged input of {slots} slots: {} calls, each as due", damaged.total());
    println!("{}", damaged.table());
}
