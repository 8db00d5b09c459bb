//! What a call gives, as the archive gives it: a struct of numbers, compared as bytes.

use buffer_pool::raw::{Placed, Reserved, Taken};
use std::mem::discriminant;
use std::slice;

/// What a call of some kind gives.
#[derive(Clone, Copy, Debug)]
pub enum Given {
    Reserved(Reserved),
    /// By commit, truncate and the views.
    Placed(Placed),
    Taken(Taken),
    /// By a release: its refusal.
    Released(u8),
}

impl Given {
    /// Every byte of it.
    pub fn bytes(&self) -> &[u8] {
        match self {
            Given::Reserved(given) => given.as_bytes(),
            Given::Placed(given) => given.as_bytes(),
            Given::Taken(given) => given.as_bytes(),
            Given::Released(refusal) => slice::from_ref(refusal),
        }
    }

    /// The refusal's number, or 0.
    pub fn refusal(&self) -> u64 {
        match self {
            Given::Reserved(given) => given.refusal,
            Given::Placed(given) => given.refusal,
            Given::Taken(given) => given.refusal,
            Given::Released(refusal) => (*refusal).into(),
        }
    }
}

/// The same kind of result, with the same bytes.
impl PartialEq for Given {
    fn eq(&self, other: &Given) -> bool {
        discriminant(self) == discriminant(other) && self.bytes() == other.bytes()
    }
}
