//! The driver of the Rust pool: runs lists of calls and view writes on it, makes such lists and
//! counts what they reach. The program `oracle` and the comparison in rust/compare use it.

pub mod answers;
pub mod calls;
#[cfg(test)]
mod cases;
mod changes;
pub mod classes;
pub mod generate;
pub mod judge;
mod moves;
pub mod pools;
pub mod random;
pub mod record;
pub mod text;
pub mod trace;
