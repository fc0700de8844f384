//! The reasons for which an entry, a section or a buffer is refused.

use std::fmt;

/// A refusal; its discriminant is the number that the document gives it.
#[derive(Clone, Copy, Debug, PartialEq, Eq, Hash, PartialOrd, Ord)]
#[repr(u8)]
pub enum Refusal {
    /// The bytes end inside an entry, or there are none.
    Cut = 1,
    /// The map has no kind, or the kind is none of the line's.
    NoKind = 2,
    /// The map is not one of the kind's maps.
    MapNotOfKind = 3,
    /// A field lies outside its range.
    FieldOutOfRange = 4,
    /// The section lent is not well made, or the shelf lent is none.
    IllMade = 5,
    /// BEGIN while the working is in force.
    InForce = 6,
    /// Any other kind while the working is not in force.
    NotInForce = 7,
    /// RESUME with a vehicle in the section, or on either line of a double line.
    VehicleInSection = 8,
    /// The time is before the station's clock.
    TimeBeforeClock = 9,
    /// The station's own opener is away.
    OpenerAway = 10,
    /// The station holds a line clear.
    HoldsLineClear = 11,
    /// The station owes a line clear.
    OwesLineClear = 12,
    /// The other station's opener stands here.
    GuestHere = 13,
    /// No opener of the other station stands here.
    NoGuest = 14,
    /// The station holds no line clear.
    NoLineClear = 15,
    /// More granted than was asked, or a grant on a TRAIN while its station owes.
    GrantNotDue = 16,
    /// Twelve departures are counted already; on a double line, twelve are on it.
    TwelveSent = 17,
    /// The last form number is used.
    FormsUsedUp = 18,
    /// The running interval has not passed.
    IntervalRunning = 19,
    /// The vehicle named is not the one nearest the station; on a double line, not
    /// the first still on the other's line.
    NotNearest = 20,
    /// The vehicle may not enter this station.
    MayNotEnter = 21,
    /// The vehicle named has nobody to meet, or may not meet.
    NoMeeting = 22,
    /// The buffer is too short for what is put into it: an entry, its fields, an
    /// answer, or a position.
    BufferTooShort = 23,
    /// The name is not 1 to 12 capital letters, or nothing is stored under it.
    NoSuchName = 24,
    /// The name would be the seventeenth on the shelf.
    ShelfFull = 25,
    /// The bytes are not those of a well-made section.
    NoPosition = 26,
}

impl Refusal {
    /// The number that the document gives this refusal.
    #[must_use]
    pub const fn number(self) -> u8 {
        self as u8
    }
}

impl fmt::Display for Refusal {
    fn fmt(&self, formatter: &mut fmt::Formatter<'_>) -> fmt::Result {
        write!(formatter, "refusal {} ({self:?})", self.number())
    }
}

impl std::error::Error for Refusal {}

/// What a function for hosts gives back: 0 where all is well, or the number of the
/// refusal.
pub(crate) fn number_or_0(done: Result<(), Refusal>) -> u32 {
    done.map_or_else(|refusal| refusal.number().into(), |()| 0)
}
