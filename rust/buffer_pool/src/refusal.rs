//! The numbered refusals.

use core::fmt;

/// Why a call was turned away. A refused call changes nothing. The numbers are those of
/// SPECIFICATION 3.3.
#[derive(Clone, Copy, Debug, PartialEq, Eq)]
#[repr(u8)]
pub enum Refusal {
    /// The record fails the soundness test. A [`Pool`](crate::Pool) owns its record, so it does not
    /// meet this.
    Unsound = 1,
    /// A lent memory's length is not the record's. A [`Pool`](crate::Pool) keeps both memories, so
    /// it does not meet this.
    WrongLength = 2,
    /// New: a memory has more than 1,048,576 bytes.
    MemoryTooLong = 3,
    /// Reserve: the overflow would be used, and is too short for frame and reservation.
    OverflowTooShort = 4,
    /// Commit: more bytes than the reservation has.
    CommitTooLong = 5,
    /// Take: the frame lies in the overflow and is longer than the destination.
    DestinationTooShort = 6,
    /// Release or view: the handle names no live slice of this pool.
    NotLive = 7,
    /// Take: all 4,294,967,295 serials of the caller were given.
    NoSerials = 8,
    /// Take: the caller is above 3. This comes before 6 and 8, and for an empty frame too.
    UnknownCaller = 12,
    /// New: the slot count is neither 8 nor 16. This comes before 3.
    WrongSlotCount = 16,
}

impl Refusal {
    /// The number of SPECIFICATION 3.3.
    pub const fn number(self) -> u8 {
        self as u8
    }

    /// The refusal with this number, if there is one.
    pub const fn from_number(number: u8) -> Option<Refusal> {
        Some(match number {
            1 => Refusal::Unsound,
            2 => Refusal::WrongLength,
            3 => Refusal::MemoryTooLong,
            4 => Refusal::OverflowTooShort,
            5 => Refusal::CommitTooLong,
            6 => Refusal::DestinationTooShort,
            7 => Refusal::NotLive,
            8 => Refusal::NoSerials,
            12 => Refusal::UnknownCaller,
            16 => Refusal::WrongSlotCount,
            _ => return None,
        })
    }

    /// `Ok` for 0, which says that a call was done. The calls give no number but these.
    pub(crate) fn check(number: u64) -> Result<(), Refusal> {
        match u8::try_from(number).ok().and_then(Refusal::from_number) {
            Some(refusal) => Err(refusal),
            None => {
                debug_assert_eq!(number, 0);
                Ok(())
            }
        }
    }
}

impl fmt::Display for Refusal {
    fn fmt(&self, f: &mut fmt::Formatter<'_>) -> fmt::Result {
        let cause = match self {
            Refusal::Unsound => "the record fails the soundness test",
            Refusal::WrongLength => "a lent memory's length is not the record's",
            Refusal::MemoryTooLong => "a memory has more than 1,048,576 bytes",
            Refusal::OverflowTooShort => "the overflow is too short for frame and reservation",
            Refusal::CommitTooLong => "the commit exceeds the reservation",
            Refusal::DestinationTooShort => "the frame is longer than the destination",
            Refusal::NotLive => "the handle names no live slice of this pool",
            Refusal::NoSerials => "all serials of the caller were given",
            Refusal::UnknownCaller => "the caller is above 3",
            Refusal::WrongSlotCount => "the slot count is neither 8 nor 16",
        };
        write!(f, "refusal {}: {cause}", self.number())
    }
}

impl core::error::Error for Refusal {}
