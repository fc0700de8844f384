//! An entry of a single line: its fields as numbers, and its bytes.

use crate::exported;
use crate::refusal::done;

/// How many fields an entry has as numbers.
pub const FIELDS: usize = 10;

/// The room that any entry takes that may be written, in bytes.
pub const LONGEST_ENTRY: usize = 8;

/// The bits of a map, and the bits that must stand for each kind. For a RETURN,
/// a TRAIN and a LAST TRAIN, [`HAS_ASKED`](map::HAS_ASKED) and
/// [`HAS_GRANTED`](map::HAS_GRANTED) may stand besides; no other bit may.
#[allow(missing_docs)]
pub mod map {
    pub const HAS_KIND: u16 = 0x01;
    pub const HAS_STATION: u16 = 0x02;
    pub const HAS_TIME: u16 = 0x04;
    pub const HAS_VIEW: u16 = 0x08;
    pub const HAS_CLASS: u16 = 0x10;
    pub const HAS_ASKED: u16 = 0x20;
    pub const HAS_GRANTED: u16 = 0x40;
    /// Sender and number.
    pub const HAS_FORM: u16 = 0x80;
    pub const BEGIN: u16 = 0x01;
    pub const OPEN: u16 = 0x3F;
    pub const THROUGH: u16 = 0x1F;
    pub const RETURN: u16 = 0x07;
    pub const TRAIN: u16 = 0x0F;
    pub const RECEIVE: u16 = 0x87;
    pub const MEET: u16 = 0x83;
    pub const RESUME: u16 = 0x01;
    pub const LAST_TRAIN: u16 = 0x0F;
}

/// The kinds.
#[allow(missing_docs)]
pub mod kind {
    pub const BEGIN: u16 = 1;
    pub const OPEN: u16 = 2;
    pub const THROUGH: u16 = 3;
    pub const RETURN: u16 = 4;
    pub const TRAIN: u16 = 5;
    pub const RECEIVE: u16 = 6;
    pub const MEET: u16 = 7;
    pub const RESUME: u16 = 8;
    pub const LAST_TRAIN: u16 = 9;
}

/// The names of the kinds, each at the place of its number; there is none at 0.
pub const KINDS: [&str; 10] = [
    "",
    "BEGIN",
    "OPEN",
    "THROUGH",
    "RETURN",
    "TRAIN",
    "RECEIVE",
    "MEET",
    "RESUME",
    "LAST TRAIN",
];

/// The stations.
#[allow(missing_docs)]
pub mod station {
    pub const A: u16 = 1;
    pub const B: u16 = 2;
}

/// The views.
#[allow(missing_docs)]
pub mod view {
    pub const CLEAR_DAY: u16 = 1;
    pub const NIGHT_OR_OBSTRUCTED: u16 = 2;
    pub const IMPAIRED_WEATHER: u16 = 3;
}

/// The classes of an opener or a through engine.
pub mod class {
    /// The only one of a THROUGH.
    pub const LIGHT_ENGINE: u16 = 1;
    /// The engine of a train.
    pub const TRAIN_ENGINE: u16 = 2;
    /// Or a tower wagon.
    pub const MOTOR_TROLLEY: u16 = 3;
    /// Any other trolley.
    pub const OTHER_TROLLEY: u16 = 4;
    /// Or a rail motor car, or an EMU.
    pub const DIESEL_CAR: u16 = 5;
}

/// Writes the entry that the first [`FIELDS`] numbers say, in the order of
/// [`Entry`], at the front of `entry`; bytes behind it keep their values.
///
/// # Errors
///
/// In this order: 23 where there are fewer numbers; 2, 3 and 4; 23 where
/// `entry` is too short. Nothing is altered then.
pub fn write_entry(fields: &[u16], entry: &mut [u8]) -> Result<(), u32> {
    // SAFETY: both are whole slices, and a `&mut` slice overlaps no other.
    done(unsafe {
        exported::lupin_write_entry(
            fields.as_ptr(),
            fields.len(),
            entry.as_mut_ptr(),
            entry.len(),
        )
    })
}

/// Reads the first entry of the bytes into the first [`FIELDS`] numbers, in the
/// order of [`Entry`]; numbers behind them keep their values, and bytes behind
/// the entry are not looked at.
///
/// # Errors
///
/// In this order: 23 where there are fewer numbers; 1 to 4, no bytes being 1.
/// Nothing is altered then.
pub fn read_entry(entry: &[u8], fields: &mut [u16]) -> Result<(), u32> {
    // SAFETY: both are whole slices, and a `&mut` slice overlaps no other.
    done(unsafe {
        exported::lupin_read_entry(
            entry.as_ptr(),
            entry.len(),
            fields.as_mut_ptr(),
            fields.len(),
        )
    })
}

/// How many bytes an entry has that begins with this map, for any map.
#[must_use]
pub fn entry_length(map: u8) -> usize {
    // SAFETY: it has no conditions.
    unsafe { exported::lupin_entry_length(map) }
}

/// The fields of an entry. One that the map has no bit for is 0.
///
/// ```
/// use lupinshift::{kind, map, station, Entry};
///
/// let receive = Entry {
///     map: map::RECEIVE,
///     kind: kind::RECEIVE,
///     station: station::B,
///     time: 70,
///     sender: station::A,
///     number: 1,
///     ..Entry::default()
/// };
/// let bytes = receive.write()?;
/// assert_eq!(bytes, [0x87, 6, 2, 0, 70, 1, 0, 1]);
/// assert_eq!(Entry::read(&bytes), Ok(receive));
/// assert_eq!(Entry { number: 0, ..receive }.write(), Err(4));
/// assert_eq!(Entry::read(&bytes[..7]), Err(1));
/// # Ok::<(), u32>(())
/// ```
#[derive(Clone, Copy, Debug, Default, PartialEq, Eq, Hash)]
pub struct Entry {
    /// Which fields there are: [`map`].
    pub map: u16,
    /// What the entry is about: [`kind`].
    pub kind: u16,
    /// The station that makes it: [`station`].
    pub station: u16,
    /// Minutes on that station's clock.
    pub time: u16,
    /// How far can be seen: [`view`].
    pub view: u16,
    /// What leaves: [`class`].
    pub class: u16,
    /// Trains enquired for, 1 to 8.
    pub asked: u16,
    /// Line clears given, 1 to 8.
    pub granted: u16,
    /// The station whose form is named: [`station`].
    pub sender: u16,
    /// The number of that form, 1 to 9,999.
    pub number: u16,
}

impl Entry {
    /// The entry's bytes.
    ///
    /// # Errors
    ///
    /// 2, 3 and 4: no such kind, the map is not of the kind, a field lies
    /// outside its range or is absent and not 0.
    pub fn write(&self) -> Result<Vec<u8>, u32> {
        let mut bytes = vec![0; LONGEST_ENTRY];
        write_entry(&self.in_order(), &mut bytes)?;
        bytes.truncate(entry_length(bytes[0]));
        Ok(bytes)
    }

    /// The first entry of the bytes; those behind it are not looked at.
    ///
    /// # Errors
    ///
    /// 1 to 4, no bytes being 1.
    pub fn read(bytes: &[u8]) -> Result<Self, u32> {
        let mut fields = [0; FIELDS];
        read_entry(bytes, &mut fields)?;
        let [map, kind, station, time, view, class, asked, granted, sender, number] = fields;
        Ok(Self {
            map,
            kind,
            station,
            time,
            view,
            class,
            asked,
            granted,
            sender,
            number,
        })
    }

    /// Whether one of the bits of [`map`] stands.
    #[must_use]
    pub const fn has(&self, bit: u16) -> bool {
        self.map & bit != 0
    }

    /// As [`write_entry`] takes them.
    #[must_use]
    pub const fn in_order(&self) -> [u16; FIELDS] {
        [
            self.map,
            self.kind,
            self.station,
            self.time,
            self.view,
            self.class,
            self.asked,
            self.granted,
            self.sender,
            self.number,
        ]
    }
}
