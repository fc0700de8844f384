//! A section kept as bytes between entries, and stepped in them.
//!
//! A position is the 281 bytes in which a host, written in C perhaps, keeps the
//! section. It holds well-made sections only, and each of them in one way.

use crate::entry::decode;
use crate::figures::{Rest, Room, PLACES_LENGTH, WORKING_LENGTH};
use crate::refusal::{number_or_0, Refusal};
use crate::section::Section;
use crate::step::Accepted;
use crate::working::{step_well_made, Working};

/// The bytes of a position: the places of the section, in force, the counts of
/// refused entries, and the desks of A and B. How many of the places are used is
/// seen from the first that is zero.
pub const POSITION_LENGTH: usize = PLACES_LENGTH + WORKING_LENGTH;

/// A section as a host keeps it; figures of more than one byte high byte first.
pub type Position = [u8; POSITION_LENGTH];

/// The numbers of an accepted entry's answer: form number, forms, speed.
pub const ANSWER_NUMBERS: usize = 3;

impl Section {
    /// The position of this section; none where it is not well made.
    #[must_use]
    pub fn position(&self) -> Option<Position> {
        if !self.is_well_made() {
            return None;
        }
        let mut position = [0; POSITION_LENGTH];
        self.put_position(&mut position);
        Some(position)
    }

    /// The well-made section with this position.
    ///
    /// # Errors
    ///
    /// 26 where the bytes, of whatever length, are the position of none.
    pub fn from_position(bytes: &[u8]) -> Result<Section, Refusal> {
        if bytes.len() != POSITION_LENGTH {
            return Err(Refusal::NoPosition);
        }
        read_section(&mut Rest::of(bytes))
            .filter(Section::is_well_made)
            .ok_or(Refusal::NoPosition)
    }

    /// Puts the position of a section that is known to be well made.
    fn put_position(&self, position: &mut [u8]) {
        let mut room = Room::of(position);
        room.put_places(self);
        room.put_working(self);
    }
}

/// Reads a section, well made or not. A place without a kind ends the vehicles;
/// whether it is zero, and those behind it, is for the section to say.
fn read_section(rest: &mut Rest<'_>) -> Option<Section> {
    let places = rest.places()?;
    let present = places
        .iter()
        .position(|place| place.left_on.is_none())
        .unwrap_or(Section::MOST_VEHICLES);
    rest.working(places, present)
}

impl Accepted {
    /// Form number, forms and speed as numbers.
    #[must_use]
    pub fn numbers(&self) -> [u32; ANSWER_NUMBERS] {
        [self.form.into(), self.forms.into(), self.speed.number()]
    }
}

/// Steps the section whose position lies in the host's own bytes, with the entry at
/// the start of `entry`. Gives 0 and puts form number, forms and speed into the
/// first three numbers of `answer`, or gives the number of the refusal.
///
/// 26 where the bytes are no position, then 23 where fewer than three numbers are
/// lent: nothing is altered then. Any other refusal is counted in the position and
/// alters nothing else.
pub fn step_position(position: &mut [u8], entry: &[u8], answer: &mut [u32]) -> u32 {
    number_or_0(try_step(position, entry, answer))
}

fn try_step(position: &mut [u8], entry: &[u8], answer: &mut [u32]) -> Result<(), Refusal> {
    let mut section = Section::from_position(position)?;
    let numbers = answer.first_chunk_mut().ok_or(Refusal::BufferTooShort)?;
    let stepped = step_well_made(&mut section, decode(entry), Section::enter);
    section.put_position(position);
    *numbers = stepped?.numbers();
    Ok(())
}
