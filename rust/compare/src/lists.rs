//! Long lists: the fixed ones of oracle/lists, and lists made from a seed around every boundary.

use crate::counts::Counts;
use crate::damage;
use crate::pair::{self, Pair};
use crate::shrink::Disagreement;
use oracle::calls::{self, List};
use oracle::generate::{lengths, Author, Callers};
use oracle::random::Random;

/// The fixed lists: the cases of SPECIFICATION 11, memories at the byte limit, and every class three
/// times.
const FIXED: [&[u8]; 3] = [
    include_bytes!("../../../oracle/lists/cases.calls"),
    include_bytes!("../../../oracle/lists/limits.calls"),
    include_bytes!("../../../oracle/lists/sample.calls"),
];

/// The longest pool memory of a list, with how often it is chosen, and the most events, for pools of 8
/// slots. Pools of 16 have twice as many of both.
const CAPACITIES: [(u64, u32); 5] = [(4, 6), (6, 17), (8, 40), (2, 200), (1, 2000)];
const EVENTS: u64 = 160;

/// Of a hundred events, how many are followed by calls on damaged copies of the state.
const DAMAGED: u64 = 5;

/// Runs the fixed lists on pools of so many slots. They were written for 8; on 16 the same calls do
/// something else.
pub fn fixed(slots: usize, counts: &mut Counts) -> Result<(), Disagreement> {
    for file in FIXED {
        for list in calls::decode(file).expect("a good file") {
            let done = pair::run(slots, &list, counts);
            done.map_err(|(_, cause)| Disagreement::InList(slots, list, cause))?;
        }
    }
    Ok(())
}

/// Runs lists from a seed on pools of so many slots until so many calls were compared. The states that
/// they reach are damaged now and then.
pub fn random(
    slots: usize,
    seed: u64,
    calls: u64,
    counts: &mut Counts,
    damaged: &mut Counts,
) -> Result<(), Disagreement> {
    let mut random = Random::new(seed);
    let until = counts.total() + calls;
    while counts.total() < until {
        let most = random.weighed(&CAPACITIES) * (slots / 8) as u32;
        let (capacity, overflow) = lengths(&mut random, slots, most);
        let list = List { capacity, overflow, events: Vec::new() };
        one(slots, list, &mut random, counts, damaged)?;
    }
    Ok(())
}

/// Makes and runs one list.
fn one(
    slots: usize,
    mut list: List,
    random: &mut Random,
    counts: &mut Counts,
    damaged: &mut Counts,
) -> Result<(), Disagreement> {
    let made = Pair::new(slots, list.capacity, list.overflow);
    let mut pair = made.map_err(|cause| Disagreement::InList(slots, list.clone(), cause))?;
    counts.list(list.capacity, list.overflow);
    let events = random.within(1, EVENTS * (slots / 8) as u64);
    let mut damage_seed = Random::new(random.below(u64::MAX));
    let mut author = Author::new(random, slots, list.capacity, Callers::All);
    for _ in 0..events {
        let event = author.choose(&pair.judge);
        list.events.push(event);
        let answer = pair.apply(&event, counts);
        answer.map_err(|cause| Disagreement::InList(slots, list.clone(), cause))?;
        if damage_seed.chance(DAMAGED) {
            damage::reached(&pair.port.state, &mut damage_seed, damaged)?;
        }
    }
    Ok(())
}
