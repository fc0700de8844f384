//! The proved register desk core for hosts in Rust: safe functions over those
//! that the static library exports.
//!
//! The archive comes first: `host/archive`, in the repository's top folder,
//! proves the core and writes `target/staticlib/liblupinshift.a`. A
//! host then depends on this folder by its path,
//!
//! ```toml
//! [dependencies]
//! lupinshift = { path = "../lupinshift/host" }
//! ```
//!
//! and calls [`list`] for a log's listing, or [`Listing`] to take it in blocks.
//! [`figures`] is its last line as numbers and [`answer`] the refusal, if any,
//! of its last entry.
//!
//! ```
//! let log = [0x01, 0x01, 0x01, 0x01]; // BEGIN, and BEGIN again
//! let listing = b"1 1 - ok 0 0 -\n2 1 - no 6\nend 2 1 0 0 1 0 0 0 0 0\n";
//! assert_eq!(lupinshift::list(&log), listing);
//! assert_eq!(lupinshift::answer(&log), 6);
//! let figures = lupinshift::figures(&log).expect("a log that is not too long");
//! assert_eq!(figures.refused_for_a, 0);
//! assert_eq!(figures.refused_of_none, 1);
//! ```
//!
//! A program that keeps the section between entries has it as a [`Position`],
//! builds an [`Entry`] and steps with it. A [`Shelf`] keeps positions under
//! names, to return to.
//!
//! ```
//! use lupinshift::{kind, map, station, view, Entry, Position, Shelf, Speed};
//!
//! let begin = Entry { map: map::BEGIN, kind: kind::BEGIN, ..Entry::default() };
//! let train = Entry {
//!     map: map::TRAIN,
//!     kind: kind::TRAIN,
//!     station: station::A,
//!     time: 10,
//!     view: view::CLEAR_DAY,
//!     ..Entry::default()
//! };
//! let mut section = Position::fresh();
//! let mut shelf = Shelf::empty();
//! let order = section.step(&begin.write()?)?;
//! assert_eq!((order.number, order.forms, order.speed), (0, 0, Speed::None));
//! shelf.store("BEGUN", &section)?;
//! assert_eq!(section.step(&train.write()?), Err(15));
//! assert_eq!(lupinshift::words(15), "no line clear is held here");
//! assert_ne!(section, shelf.fetch("BEGUN")?); // the refusal is counted
//! # Ok::<(), u32>(())
//! ```
//!
//! Where a call is refused no place of a buffer lent is altered, but that an
//! entry which a step refuses is counted in the position.

#![deny(unsafe_op_in_unsafe_fn)]

mod entry;
mod position;
mod refusal;

use std::io::{self, Write};

pub use entry::{
    class, entry_length, kind, map, read_entry, station, view, write_entry, Entry, FIELDS, KINDS,
    LONGEST_ENTRY,
};
pub use position::{
    at, desk, fetch, step, store, vehicle, Order, Position, Shelf, Speed, ANSWER, FORMS,
    LONGEST_NAME, POSITION, SHELF, VEHICLES,
};
pub use refusal::words;

/// The functions as `lupinshift.h` declares them: a slice is a pointer and
/// then a length. They have no conditions but valid slices.
mod exported {
    extern "C" {
        pub fn lupin_list(log: *const u8, log_len: usize, out: *mut u8, out_len: usize) -> usize;
        pub fn lupin_begin(
            log: *const u8,
            log_len: usize,
            state: *mut u64,
            state_len: usize,
        ) -> usize;
        pub fn lupin_fill(
            state: *mut u64,
            state_len: usize,
            log: *const u8,
            log_len: usize,
            out: *mut u8,
            out_len: usize,
        ) -> usize;
        pub fn lupin_end(log: *const u8, log_len: usize, out: *mut u8, out_len: usize) -> usize;
        pub fn lupin_figures(
            log: *const u8,
            log_len: usize,
            figures: *mut u64,
            figures_len: usize,
        ) -> usize;
        pub fn lupin_answer(log: *const u8, log_len: usize) -> u32;
        pub fn lupin_taken(log: *const u8, log_len: usize) -> usize;
        pub fn lupin_store(
            shelf: *mut u8,
            shelf_len: usize,
            name: *const u8,
            name_len: usize,
            position: *const u8,
            position_len: usize,
        ) -> u32;
        pub fn lupin_fetch(
            shelf: *const u8,
            shelf_len: usize,
            name: *const u8,
            name_len: usize,
            buffer: *mut u8,
            buffer_len: usize,
        ) -> u32;
        pub fn lupin_step(
            position: *mut u8,
            position_len: usize,
            entry: *const u8,
            entry_len: usize,
            answer: *mut u32,
            answer_len: usize,
        ) -> u32;
        pub fn lupin_write_entry(
            fields: *const u16,
            fields_len: usize,
            entry: *mut u8,
            entry_len: usize,
        ) -> u32;
        pub fn lupin_read_entry(
            entry: *const u8,
            entry_len: usize,
            fields: *mut u16,
            fields_len: usize,
        ) -> u32;
        pub fn lupin_entry_length(map: u8) -> usize;
    }
}

/// The longest log that is listed, in bytes; of a longer one the listing is
/// `long`.
pub const LONGEST_LOG: usize = 65_536;

/// The room that any one line of a listing takes, in bytes.
pub const LONGEST_LINE: usize = 214;

/// How many figures the last line of a listing has.
pub const FIGURES: usize = 10;

/// Room for the numbers that say where a listing in blocks stands: more than
/// `LUPIN_STATE_WORDS` of host/lupinshift.h, which a landing may raise.
const STATE_ROOM: usize = 128;

/// The block in which this wrapper takes a listing, in bytes.
const BLOCK: usize = 16 * 1024;

/// The room, in bytes, that [`list_into`] asks for a log of `bytes` bytes: no
/// listing is longer.
#[must_use]
pub const fn listing_room(bytes: usize) -> usize {
    if bytes > LONGEST_LOG {
        2 * LONGEST_LINE
    } else {
        25 * bytes + 2 * LONGEST_LINE
    }
}

/// A count of places that were put; a call that was refused has put none.
fn some_put(count: usize) -> Option<usize> {
    (count > 0).then_some(count)
}

/// Puts the listing of the log at the front of `out`; its length, or nothing
/// where `out` has fewer bytes than [`listing_room`].
pub fn list_into(log: &[u8], out: &mut [u8]) -> Option<usize> {
    // SAFETY: both are whole slices, and a `&mut` slice overlaps no other.
    some_put(unsafe { exported::lupin_list(log.as_ptr(), log.len(), out.as_mut_ptr(), out.len()) })
}

/// A log's listing in blocks: its lines one after another, from where it
/// stands. A copy goes on from there too.
#[derive(Clone, Debug)]
pub struct Listing<'a> {
    log: &'a [u8],
    state: [u64; STATE_ROOM],
}

impl<'a> Listing<'a> {
    /// The start of the log's listing.
    #[must_use]
    pub fn new(log: &'a [u8]) -> Self {
        let mut state = [0; STATE_ROOM];
        // SAFETY: both are whole slices, and a `&mut` slice overlaps no other.
        let begun = unsafe {
            exported::lupin_begin(log.as_ptr(), log.len(), state.as_mut_ptr(), state.len())
        };
        assert!(begun > 0, "more numbers than {STATE_ROOM}");
        Self { log, state }
    }

    /// Puts the next lines, as many as there is room for, at the front of
    /// `out`; how many bytes they are. A line is put as long as
    /// [`LONGEST_LINE`] bytes are left: with an `out` of so many bytes or more
    /// the answer is 0 only where the listing has ended.
    pub fn fill(&mut self, out: &mut [u8]) -> usize {
        let (state, log) = (&mut self.state, self.log);
        // SAFETY: all three are whole slices, and a `&mut` slice overlaps no
        // other.
        unsafe {
            exported::lupin_fill(
                state.as_mut_ptr(),
                state.len(),
                log.as_ptr(),
                log.len(),
                out.as_mut_ptr(),
                out.len(),
            )
        }
    }

    /// Writes the lines that are still to come, a block at a time.
    ///
    /// # Errors
    ///
    /// Those of the writer; the block it refused is lost.
    pub fn write_to(&mut self, writer: &mut impl Write) -> io::Result<()> {
        let mut block = [0; BLOCK];
        loop {
            match self.fill(&mut block) {
                0 => return Ok(()),
                count => writer.write_all(&block[..count])?,
            }
        }
    }
}

/// The listing of a log.
#[must_use]
pub fn list(log: &[u8]) -> Vec<u8> {
    let mut listing = Listing::new(log);
    let mut text = Vec::new();
    let mut block = [0; BLOCK];
    loop {
        match listing.fill(&mut block) {
            0 => return text,
            count => text.extend_from_slice(&block[..count]),
        }
    }
}

/// Puts the last line alone of the log's listing at the front of `out`; its
/// length, or nothing where `out` has fewer than [`LONGEST_LINE`] bytes.
pub fn end_into(log: &[u8], out: &mut [u8]) -> Option<usize> {
    // SAFETY: both are whole slices, and a `&mut` slice overlaps no other.
    some_put(unsafe { exported::lupin_end(log.as_ptr(), log.len(), out.as_mut_ptr(), out.len()) })
}

/// Puts the figures of the log's last line, in its order, at the front of
/// `figures`; how many they are, or nothing where there are fewer places than
/// [`FIGURES`] or the log is longer than [`LONGEST_LOG`].
pub fn figures_into(log: &[u8], figures: &mut [u64]) -> Option<usize> {
    // SAFETY: both are whole slices, and a `&mut` slice overlaps no other.
    some_put(unsafe {
        exported::lupin_figures(log.as_ptr(), log.len(), figures.as_mut_ptr(), figures.len())
    })
}

/// The figures of a log's last line, in its order. Entries are those accepted
/// and the three counts of refused entries together.
#[derive(Clone, Copy, Debug, PartialEq, Eq, Hash)]
pub struct Figures {
    /// Entries of the log, with bytes that are no entry and a cut end among
    /// them.
    pub entries: u64,
    /// Entries accepted.
    pub accepted: u64,
    /// Entries refused that A made, also where the working is not in force.
    pub refused_for_a: u64,
    /// The same of B.
    pub refused_for_b: u64,
    /// Refused entries of no station: bytes that are no entry (refusals 1 to
    /// 4), BEGIN, RESUME, and MEET, whatever station it names.
    pub refused_of_none: u64,
    /// Vehicles in the section.
    pub present: u64,
    /// Line clears that A holds.
    pub a_holds: u64,
    /// Line clears that A owes.
    pub a_owes: u64,
    /// Line clears that B holds.
    pub b_holds: u64,
    /// Line clears that B owes.
    pub b_owes: u64,
}

impl Figures {
    fn read_off(line: [u64; FIGURES]) -> Self {
        let [entries, accepted, refused_for_a, refused_for_b, refused_of_none, section @ ..] = line;
        let [present, a_holds, a_owes, b_holds, b_owes] = section;
        Self {
            entries,
            accepted,
            refused_for_a,
            refused_for_b,
            refused_of_none,
            present,
            a_holds,
            a_owes,
            b_holds,
            b_owes,
        }
    }

    /// As the last line has them.
    #[must_use]
    pub const fn in_order(&self) -> [u64; FIGURES] {
        [
            self.entries,
            self.accepted,
            self.refused_for_a,
            self.refused_for_b,
            self.refused_of_none,
            self.present,
            self.a_holds,
            self.a_owes,
            self.b_holds,
            self.b_owes,
        ]
    }
}

/// The figures of a log's last line. The last line of a log that is longer than
/// [`LONGEST_LOG`] has none.
#[must_use]
pub fn figures(log: &[u8]) -> Option<Figures> {
    let mut figures = [0; FIGURES];
    figures_into(log, &mut figures).map(|_| Figures::read_off(figures))
}

/// The number of the refusal that answers the log's last entry; 0 where that is
/// accepted or the log has no entry.
#[must_use]
pub fn answer(log: &[u8]) -> u32 {
    // SAFETY: it is a whole slice.
    unsafe { exported::lupin_answer(log.as_ptr(), log.len()) }
}

/// How many entries of the log are taken: whole, of a known kind, with the
/// right map and the fields in range. After refusals 2, 3 and 4 reading goes
/// on behind the entry, after 1 it stops.
#[must_use]
pub fn taken(log: &[u8]) -> usize {
    // SAFETY: it is a whole slice.
    unsafe { exported::lupin_taken(log.as_ptr(), log.len()) }
}
