//! A section kept as bytes between entries, a shelf of such positions, and the
//! step in them. docs/FORMAT.md has the layouts.

use std::fmt;

use crate::exported;
use crate::refusal::done;

/// The bytes of a position.
pub const POSITION: usize = 281;

/// The bytes of a shelf.
pub const SHELF: usize = 4_688;

/// The letters of the longest name.
pub const LONGEST_NAME: usize = 12;

/// The places for vehicles in a position.
pub const VEHICLES: usize = 24;

/// The numbers of an accepted entry's answer: form number, forms, speed.
pub const ANSWER: usize = 3;

/// The names of the forms; the bit with the same place stands for each in
/// [`Order::forms`].
pub const FORMS: [&str; 9] = [
    "T/B 602",
    "T/E 602",
    "T/F 602",
    "T/G 602",
    "T/H 602",
    "T/369(3b)",
    "T/409",
    "T/A 409",
    "T/C 602",
];

/// Where each part of a position lies.
pub mod at {
    /// The places of the vehicles, in order from A to B.
    pub const VEHICLES: usize = 0;
    /// 1 in force, else 0.
    pub const IN_FORCE: usize = 240;
    /// Entries refused for A, four bytes.
    pub const REFUSED_FOR_A: usize = 241;
    /// The same of B.
    pub const REFUSED_FOR_B: usize = 245;
    /// The same of no station.
    pub const REFUSED_OF_NONE: usize = 249;
    /// The desk of A.
    pub const DESK_A: usize = 253;
    /// The desk of B.
    pub const DESK_B: usize = 267;
}

/// Where each figure lies in the place of a vehicle.
#[allow(missing_docs)]
pub mod vehicle {
    /// The bytes of a place.
    pub const LENGTH: usize = 10;
    /// As in an entry; 0 in an unused place.
    pub const KIND: usize = 0;
    pub const SENDER: usize = 1;
    /// Its form number, two bytes.
    pub const FORM: usize = 2;
    pub const HEADING: usize = 4;
    pub const MET: usize = 5;
    pub const CLASS: usize = 6;
    pub const ASKED: usize = 7;
    pub const GRANTED: usize = 8;
    pub const GIVEN_UP: usize = 9;
}

/// Where each figure lies in a desk.
#[allow(missing_docs)]
pub mod desk {
    /// The bytes of a desk.
    pub const LENGTH: usize = 14;
    /// Two bytes.
    pub const CLOCK: usize = 0;
    /// The last form number, two bytes.
    pub const LAST: usize = 2;
    pub const SENT: usize = 4;
    /// 1 where the interval runs, else 0.
    pub const RUNNING: usize = 5;
    /// The minute since which it runs, two bytes.
    pub const SINCE: usize = 6;
    pub const OUT: usize = 8;
    pub const GUEST: usize = 9;
    pub const ASKED: usize = 10;
    pub const HOLDS: usize = 11;
    pub const OWES: usize = 12;
    pub const WAITING: usize = 13;
}

/// Stores the position under the name: in the place of what was stored under it
/// before, else in the first unused place.
///
/// # Errors
///
/// In this order: 5 where the shelf is none, 24 where the name is none, 25 where
/// it would be the seventeenth, 26 where the position is none. Nothing is
/// altered then.
pub fn store(shelf: &mut [u8], name: &[u8], position: &[u8]) -> Result<(), u32> {
    // SAFETY: all three are whole slices, and a `&mut` slice overlaps no other.
    done(unsafe {
        exported::lupin_store(
            shelf.as_mut_ptr(),
            shelf.len(),
            name.as_ptr(),
            name.len(),
            position.as_ptr(),
            position.len(),
        )
    })
}

/// Puts the position that was last stored under the name at the front of the
/// buffer; bytes behind it keep their values.
///
/// # Errors
///
/// In this order: 5 where the shelf is none, 24 where the name is none or not on
/// the shelf, 23 where the buffer has fewer than [`POSITION`] bytes. Nothing is
/// altered then.
pub fn fetch(shelf: &[u8], name: &[u8], buffer: &mut [u8]) -> Result<(), u32> {
    // SAFETY: all three are whole slices, and a `&mut` slice overlaps no other.
    done(unsafe {
        exported::lupin_fetch(
            shelf.as_ptr(),
            shelf.len(),
            name.as_ptr(),
            name.len(),
            buffer.as_mut_ptr(),
            buffer.len(),
        )
    })
}

/// Steps the section of the position, where it lies, with the first entry of the
/// bytes, and puts form number, forms and speed into the first [`ANSWER`]
/// numbers; those behind them keep their values.
///
/// # Errors
///
/// In this order: 26 where the position is none, 23 where there are fewer
/// numbers; nothing is altered then. 1 to 4, no bytes being 1, and 6 to 22: the
/// refusal is counted in the position and alters nothing else.
pub fn step(position: &mut [u8], entry: &[u8], answer: &mut [u32]) -> Result<(), u32> {
    // SAFETY: all three are whole slices, and a `&mut` slice overlaps no other.
    done(unsafe {
        exported::lupin_step(
            position.as_mut_ptr(),
            position.len(),
            entry.as_ptr(),
            entry.len(),
            answer.as_mut_ptr(),
            answer.len(),
        )
    })
}

/// A section as its owner keeps it between entries.
///
/// ```
/// use lupinshift::{at, Position};
///
/// let mut section = Position::fresh();
/// assert_eq!(section.step(&[0x01, 8]), Err(7)); // RESUME, and not in force
/// assert_eq!(section.as_bytes()[at::REFUSED_OF_NONE..][..4], [0, 0, 0, 1]);
/// let mut none = Position::from_bytes([1; 281]);
/// assert_eq!(none.step(&[0x01, 1]), Err(26));
/// ```
#[derive(Clone, Debug, PartialEq, Eq, Hash)]
pub struct Position([u8; POSITION]);

impl Position {
    /// The fresh section: nothing in it, nothing owed, not in force.
    #[must_use]
    pub const fn fresh() -> Self {
        Self([0; POSITION])
    }

    /// The position in these bytes; whether they are one is seen when it is
    /// stepped or stored.
    #[must_use]
    pub const fn from_bytes(bytes: [u8; POSITION]) -> Self {
        Self(bytes)
    }

    /// The bytes, to be kept elsewhere or read.
    #[must_use]
    pub const fn as_bytes(&self) -> &[u8; POSITION] {
        &self.0
    }

    /// Steps the section with the first entry of the bytes; what to hand over.
    ///
    /// # Errors
    ///
    /// The number of the refusal, which is counted in the position; or 26, and
    /// nothing is altered.
    pub fn step(&mut self, entry: &[u8]) -> Result<Order, u32> {
        let mut answer = [0; ANSWER];
        step(&mut self.0, entry, &mut answer)?;
        let [number, forms, speed] = answer;
        Ok(Order {
            number,
            forms,
            speed: Speed::from_number(speed).expect("the number of a speed"),
        })
    }
}

/// Up to sixteen positions under names of 1 to [`LONGEST_NAME`] capital letters.
///
/// ```
/// use lupinshift::{Position, Shelf};
///
/// let mut shelf = Shelf::empty();
/// shelf.store("MONDAY", &Position::fresh())?;
/// assert_eq!(shelf.fetch("MONDAY"), Ok(Position::fresh()));
/// assert_eq!(shelf.fetch("TUESDAY"), Err(24));
/// assert_eq!(shelf.store("Monday", &Position::fresh()), Err(24));
/// # Ok::<(), u32>(())
/// ```
#[derive(Clone, Debug, PartialEq, Eq, Hash)]
pub struct Shelf([u8; SHELF]);

impl Shelf {
    /// The shelf with nothing on it.
    #[must_use]
    pub const fn empty() -> Self {
        Self([0; SHELF])
    }

    /// The shelf in these bytes; whether they are one is seen when something is
    /// stored or fetched.
    #[must_use]
    pub const fn from_bytes(bytes: [u8; SHELF]) -> Self {
        Self(bytes)
    }

    /// The bytes, to be kept elsewhere.
    #[must_use]
    pub const fn as_bytes(&self) -> &[u8; SHELF] {
        &self.0
    }

    /// Stores a position under a name, in the place of what was there before.
    ///
    /// # Errors
    ///
    /// Those of [`store`]; nothing is altered then.
    pub fn store(&mut self, name: &str, position: &Position) -> Result<(), u32> {
        store(&mut self.0, name.as_bytes(), &position.0)
    }

    /// The position that was last stored under a name.
    ///
    /// # Errors
    ///
    /// 5 where the bytes are no shelf, 24 where the name is none or not on it.
    pub fn fetch(&self, name: &str) -> Result<Position, u32> {
        let mut position = Position::fresh();
        fetch(&self.0, name.as_bytes(), &mut position.0)?;
        Ok(position)
    }
}

/// What the master hands over for an accepted entry; for BEGIN, RECEIVE, MEET
/// and RESUME 0, 0 and none.
#[derive(Clone, Copy, Debug, PartialEq, Eq, Hash)]
pub struct Order {
    /// The form number that the vehicle leaves under.
    pub number: u32,
    /// The forms, as a sum.
    pub forms: u32,
    /// The speed on the order.
    pub speed: Speed,
}

impl Order {
    /// The forms by name.
    pub fn form_names(&self) -> impl Iterator<Item = &'static str> {
        let forms = self.forms;
        let named = move |&(place, _): &(usize, &str)| forms >> place & 1 == 1;
        FORMS
            .into_iter()
            .enumerate()
            .filter(named)
            .map(|(_, name)| name)
    }
}

/// The speed on an order.
///
/// ```
/// use lupinshift::Speed;
///
/// assert_eq!(Speed::from_number(131_072 + 15), Some(Speed::Kmh(15)));
/// let both = Speed::TwoFigures { straight: 25, elsewhere: 10 };
/// assert_eq!(both.number(), 262_144 + 256 * 25 + 10);
/// assert_eq!(Speed::from_number(both.number()), Some(both));
/// assert_eq!(Speed::from_number(1), None);
/// assert_eq!(Speed::WalkingPace.to_string(), "walking pace");
/// ```
#[derive(Clone, Copy, Debug, PartialEq, Eq, Hash)]
pub enum Speed {
    /// The entry has none.
    None,
    /// Walking pace.
    WalkingPace,
    /// At most so many km/h.
    Kmh(u8),
    /// The booked speed.
    Booked,
    /// Two figures in km/h, of a train that follows another.
    TwoFigures {
        /// Where the track is straight and the view clear.
        straight: u8,
        /// Elsewhere.
        elsewhere: u8,
    },
}

impl Speed {
    /// The speed with this number, if there is one.
    #[must_use]
    pub const fn from_number(number: u32) -> Option<Self> {
        let [high, case, straight, elsewhere] = number.to_be_bytes();
        match (high, case, straight, elsewhere) {
            (0, 0, 0, 0) => Some(Self::None),
            (0, 1, 0, 0) => Some(Self::WalkingPace),
            (0, 2, 0, limit) => Some(Self::Kmh(limit)),
            (0, 3, 0, 0) => Some(Self::Booked),
            (0, 4, straight, elsewhere) => Some(Self::TwoFigures {
                straight,
                elsewhere,
            }),
            _ => None,
        }
    }

    /// The number of this speed.
    #[must_use]
    pub const fn number(self) -> u32 {
        u32::from_be_bytes(match self {
            Self::None => [0, 0, 0, 0],
            Self::WalkingPace => [0, 1, 0, 0],
            Self::Kmh(limit) => [0, 2, 0, limit],
            Self::Booked => [0, 3, 0, 0],
            Self::TwoFigures {
                straight,
                elsewhere,
            } => [0, 4, straight, elsewhere],
        })
    }
}

impl fmt::Display for Speed {
    fn fmt(&self, formatter: &mut fmt::Formatter<'_>) -> fmt::Result {
        match self {
            Self::None => formatter.write_str("no speed"),
            Self::WalkingPace => formatter.write_str("walking pace"),
            Self::Kmh(limit) => write!(formatter, "{limit} km/h"),
            Self::Booked => formatter.write_str("booked speed"),
            Self::TwoFigures {
                straight,
                elsewhere,
            } => write!(
                formatter,
                "{straight} km/h on the straight, {elsewhere} elsewhere"
            ),
        }
    }
}
