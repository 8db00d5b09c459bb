//! Times the port across the C interface and inside Rattle beside the Rust: `bench [ROUNDS]`. Prints tables for
//! docs/BENCHMARKS.md, of pools of 8 slots and then of 16, beside the Rust widened. Each figure is the least of
//! the rounds, with the median in brackets where one is given; the two sides take turns in every round.

mod allocations;
mod inside;
mod mixes;
mod sides;
mod stack;
mod timing;

use buffer_pool::raw;
use mixes::{Mix, KINDS};
use sides::{Port, Rust, Side, Widened};
use std::mem::size_of;
use timing::summary;

fn main() {
    let rounds = std::env::args().nth(1).and_then(|word| word.parse().ok()).unwrap_or(15);
    print_pools::<Rust, Port<8>>(rounds);
    print_pools::<Widened, Port<16>>(rounds);
    inside::print(rounds);
    print_sizes();
}

/// The tables of two sides with the same slots.
fn print_pools<R: Side, P: Side>(rounds: usize) {
    let slots = R::SLOTS;
    println!("\npools of {slots} slots\n");
    let mixes = mixes::mixes(slots);
    print_mixes::<R, P>(&mixes, rounds);
    print_kinds::<R, P>(&mixes, rounds);
    print_views::<R, P>(&[0, 1, slots / 2, slots - 1, slots], rounds);
    print_stack::<R, P>(&mixes);
}

/// Both sides' times, in turn: the least and the median of each.
fn in_turn(rounds: usize, rust: impl Fn() -> f64, port: impl Fn() -> f64) -> [(f64, f64); 2] {
    let (mut rusts, mut ports) = (Vec::new(), Vec::new());
    for _ in 0..rounds {
        rusts.push(rust());
        ports.push(port());
    }
    [summary(rusts), summary(ports)]
}

/// Each mix as a whole.
fn print_mixes<R: Side, P: Side>(mixes: &[Mix], rounds: usize) {
    println!("| mix | calls | reserves in B, F, A | the Rust, ns a call | the port, ns a call | ratio | allocations of the Rust | of the port |");
    println!("|---|---|---|---|---|---|---|---|");
    for mix in mixes {
        let [rust, port] = in_turn(rounds, || timing::whole::<R>(mix), || timing::whole::<P>(mix));
        let [b, f, a] = mix.modes;
        println!(
            "| {} | {} | {b}, {f}, {a} | {:.1} ({:.1}) | {:.1} ({:.1}) | {:.2} | {} | {} |",
            mix.name,
            mix.steps.len(),
            rust.0,
            rust.1,
            port.0,
            port.1,
            port.0 / rust.0,
            allocated::<R>(mix),
            allocated::<P>(mix),
        );
    }
}

/// What the calls of a mix allocate.
fn allocated<S: Side>(mix: &Mix) -> u64 {
    let mut side = S::new(mix.capacity, mix.overflow);
    allocations::during(|| mix.steps.iter().for_each(|step| step.run(&mut side)))
}

/// Each mix by kind of call.
fn print_kinds<R: Side, P: Side>(mixes: &[Mix], rounds: usize) {
    println!("\n| mix | {} |", KINDS.join(" | "));
    println!("|---|{}", "---|".repeat(KINDS.len()));
    let clock = timing::clock_cost();
    for mix in mixes {
        let (mut rusts, mut ports) = (Vec::new(), Vec::new());
        for _ in 0..rounds {
            rusts.push(timing::by_kind::<R>(mix, clock));
            ports.push(timing::by_kind::<P>(mix, clock));
        }
        let least = |times: &[[f64; KINDS.len()]], kind: usize| {
            summary(times.iter().map(|times| times[kind]).collect()).0
        };
        let cell = |kind| match (least(&rusts, kind), least(&ports, kind)) {
            (rust, port) if rust.is_nan() || port.is_nan() => String::new(),
            (rust, port) => format!("{rust:.1}, {port:.1}: {:.2}", port / rust),
        };
        let cells: Vec<String> = (0..KINDS.len()).map(cell).collect();
        println!("| {} | {} |", mix.name, cells.join(" | "));
    }
}

/// A look at the frame: for the port, the soundness test and little else.
fn print_views<R: Side, P: Side>(held: &[usize], rounds: usize) {
    println!("\n| slices held | the Rust's frame, ns | buffer_pool_frame, ns |");
    println!("|---|---|---|");
    for &held in held {
        let [rust, port] =
            in_turn(rounds, || timing::frame::<R>(held), || timing::frame::<P>(held));
        println!("| {held} | {:.1} ({:.1}) | {:.1} ({:.1}) |", rust.0, rust.1, port.0, port.1);
    }
}

/// The greatest stack of a call in all mixes.
fn print_stack<R: Side, P: Side>(mixes: &[Mix]) {
    println!("\n| greatest stack of a call, bytes | {} | frame |", KINDS.join(" | "));
    println!("|---|{}", "---|".repeat(KINDS.len() + 1));
    for (name, most) in
        [("the Rust", stack::greatest::<R>(mixes)), ("the port", stack::greatest::<P>(mixes))]
    {
        println!("| {name} | {} |", most.map(|bytes| bytes.to_string()).join(" | "));
    }
}

/// What a pool takes beside its memories.
fn print_sizes() {
    let rust = size_of::<buffer_sv2::BufferPool<buffer_sv2::BufferFromSystemMemory>>();
    let widened =
        size_of::<buffer_sv2_widened::BufferPool<buffer_sv2_widened::BufferFromSystemMemory>>();
    let (record, slice) = (size_of::<raw::Record>(), size_of::<buffer_sv2::Slice>());
    println!("\n| bytes | the Rust | the Rust widened | the port |");
    println!("|---|---|---|---|");
    println!(
        "| record, beside the Rust's shared block on the heap | {rust} | {widened} | {record} |"
    );
    println!("| slice or handle | {slice} | {slice} | {} |", size_of::<raw::Handle>());
}
