//! A lent memory between two gaps, which no call may touch.

/// Bytes of each gap, and what they hold.
const GAP: usize = 16;
const GAP_BYTE: u8 = 0xa5;

/// A memory to lend, and the gaps before and after it.
#[derive(Clone, Debug, PartialEq)]
pub struct Memory {
    bytes: Vec<u8>,
}

impl Memory {
    /// A memory that holds these bytes.
    pub fn new(bytes: &[u8]) -> Memory {
        Memory { bytes: [&[GAP_BYTE; GAP], bytes, &[GAP_BYTE; GAP]].concat() }
    }

    /// A memory of this length, with bytes that tell places apart.
    pub fn marked(len: usize, first: u8) -> Memory {
        let bytes: Vec<u8> = (0..len).map(|at| first.wrapping_add(at as u8)).collect();
        Memory::new(&bytes)
    }

    pub fn len(&self) -> usize {
        self.bytes.len() - 2 * GAP
    }

    pub fn bytes(&self) -> &[u8] {
        &self.bytes[GAP..self.bytes.len() - GAP]
    }

    pub fn bytes_mut(&mut self) -> &mut [u8] {
        let end = self.bytes.len() - GAP;
        &mut self.bytes[GAP..end]
    }

    /// The bytes of a range, if it lies inside.
    pub fn part(&self, start: u64, length: u64) -> Option<&[u8]> {
        let end = start.checked_add(length)?;
        self.bytes().get(usize::try_from(start).ok()?..usize::try_from(end).ok()?)
    }

    /// Whether both gaps are as they were made.
    pub fn intact(&self) -> bool {
        let (before, after) = (&self.bytes[..GAP], &self.bytes[self.bytes.len() - GAP..]);
        before.iter().chain(after).all(|&byte| byte == GAP_BYTE)
    }

    /// Copies another memory's bytes, of any length.
    pub fn copy_from(&mut self, other: &Memory) {
        self.bytes.clone_from(&other.bytes);
    }
}
