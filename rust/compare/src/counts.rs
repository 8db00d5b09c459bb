//! How much was compared.

use oracle::calls::Event;
use oracle::classes::{memories, Tally};

/// The kinds of call, as they are counted.
pub const KINDS: [&str; 8] =
    ["reserve", "commit", "truncate", "take", "release", "frame", "reservation", "slice"];

/// Numbers of refusal up to 12, with 0 for a call that was done.
const REFUSALS: usize = 13;

/// Calls by kind and refusal on pools with so many slots, writes, lists, and the classes that were
/// reached.
pub struct Counts {
    pub calls: [[u64; REFUSALS]; KINDS.len()],
    pub writes: u64,
    /// Views compared after the calls. They are not among the calls.
    pub views: u64,
    pub lists: u64,
    pub tally: Tally,
}

impl Counts {
    pub fn new(slots: usize) -> Counts {
        Counts {
            calls: [[0; REFUSALS]; KINDS.len()],
            writes: 0,
            views: 0,
            lists: 0,
            tally: Tally::new(slots),
        }
    }

    /// Counts a call of this kind.
    pub fn call(&mut self, kind: usize, refusal: u64) {
        self.calls[kind][refusal as usize] += 1;
    }

    /// Counts an event of a list.
    pub fn event(&mut self, event: &Event, refusal: u64) {
        let kind = match event {
            Event::Reserve(_) => 0,
            Event::Commit(_) => 1,
            Event::Truncate(_) => 2,
            Event::Take { .. } => 3,
            Event::Release(_) => 4,
            Event::Write { .. } => {
                self.writes += 1;
                return;
            }
        };
        self.call(kind, refusal);
    }

    /// Counts a list that starts on a new pool with these lengths.
    pub fn list(&mut self, capacity: u32, overflow: u32) {
        self.lists += 1;
        self.tally.add(&memories(capacity, overflow));
    }

    /// All calls.
    pub fn total(&self) -> u64 {
        self.calls.iter().flatten().sum()
    }

    /// A table: a row for each kind of call, a column for each refusal that some call met.
    pub fn table(&self) -> String {
        let met = |refusal: &usize| self.calls.iter().any(|row| row[*refusal] > 0);
        let columns: Vec<usize> = (0..REFUSALS).filter(met).collect();
        let head = columns.iter().map(|refusal| match refusal {
            0 => format!("{:>12}", "done"),
            _ => format!("{:>12}", format!("refused {refusal}")),
        });
        let mut table = format!("  {:<12}{}\n", "", head.collect::<String>());
        for (kind, row) in
            KINDS.iter().zip(&self.calls).filter(|(_, row)| row.iter().any(|&n| n > 0))
        {
            let cells = columns.iter().map(|&refusal| format!("{:>12}", row[refusal]));
            table += &format!("  {kind:<12}{}\n", cells.collect::<String>());
        }
        table
    }
}
