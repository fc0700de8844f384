//! The section of a double line: two desks, and what is on the line of each.

use crate::entry::{Entry, Table};
use crate::section::{Refused, Station};
use crate::step::Answer;
use crate::working::{forms_and_interval_fit, Working};

use super::step::enter;

/// The figures that one station master keeps, and the line that leaves him.
#[derive(Clone, Copy, Debug, Default, PartialEq, Eq, Hash)]
pub struct Desk {
    /// Minute of the last accepted entry.
    pub clock: u16,
    /// Last form number given out, 0 to 9,999.
    pub last_form: u16,
    /// The minute of the last departure since BEGIN, if there was one. A receipt
    /// leaves it as it is.
    pub interval: Option<u16>,
    /// Places for the form numbers on this station's line, as sent.
    pub places: [u16; Section::MOST_ON_LINE],
    /// How many of the places are used.
    pub present: u8,
}

impl Desk {
    /// The form numbers on this station's line, the first to arrive first.
    #[must_use]
    pub fn line(&self) -> &[u16] {
        self.places
            .get(..self.present.into())
            .unwrap_or(&self.places)
    }

    fn is_well_made(&self) -> bool {
        forms_and_interval_fit(self.clock, self.last_form, self.interval)
            && self.unused_places_are_zero()
            && self.line().is_sorted_by(|one, next| one < next)
            && self
                .line()
                .iter()
                .all(|form| (1..=self.last_form).contains(form))
    }

    /// A number of trains over 12 leaves no unused places to look at and is outside
    /// its range.
    fn unused_places_are_zero(&self) -> bool {
        self.places
            .get(self.present.into()..)
            .is_some_and(|unused| unused.iter().all(|&place| place == 0))
    }

    /// Puts the train with the last form number last on the line. Twelve are the
    /// most, so a place is free.
    pub(super) fn put_last(&mut self) {
        self.places[usize::from(self.present)] = self.last_form;
        self.present += 1;
    }

    /// Takes the first train, if any, off the line.
    pub(super) fn take_first(&mut self) {
        if self.present == 0 {
            return;
        }
        self.places.copy_within(1.., 0);
        self.places[Section::MOST_ON_LINE - 1] = 0;
        self.present -= 1;
    }
}

/// The section of a double line.
///
/// Every figure is open to its owner, who may therefore also hold one that is
/// not well made; [`super::step()`] refuses such a section with 5.
#[derive(Clone, Debug, Default, PartialEq, Eq, Hash)]
pub struct Section {
    /// Whether the working is in force.
    pub in_force: bool,
    /// Refused entries, in three counts.
    pub refused: Refused,
    /// The desks of A and B.
    pub desks: [Desk; 2],
}

impl Section {
    /// Trains that one line can hold.
    pub const MOST_ON_LINE: usize = 12;

    /// The section before any failure: not in force, all else zero or none.
    #[must_use]
    pub fn fresh() -> Section {
        Section::default()
    }

    /// The desk of this station.
    #[must_use]
    pub fn desk(&self, station: Station) -> &Desk {
        &self.desks[station.place()]
    }

    /// The desk of this station, to be altered.
    pub fn desk_mut(&mut self, station: Station) -> &mut Desk {
        &mut self.desks[station.place()]
    }

    /// Whether the section is one that a step accepts.
    #[must_use]
    pub fn is_well_made(&self) -> bool {
        if self.in_force {
            self.desks.iter().all(Desk::is_well_made)
        } else {
            self.is_fresh_but_for_the_counts()
        }
    }
}

impl Working for Section {
    const TABLE: &'static Table = &Table::DOUBLE_LINE;

    fn afresh(in_force: bool, refused: Refused) -> Section {
        Section {
            in_force,
            refused,
            ..Section::fresh()
        }
    }

    fn is_well_made(&self) -> bool {
        Section::is_well_made(self)
    }

    fn in_force(&self) -> bool {
        self.in_force
    }

    fn refused(&self) -> Refused {
        self.refused
    }

    fn refused_mut(&mut self) -> &mut Refused {
        &mut self.refused
    }

    /// Those on both lines together.
    fn vehicles_present(&self) -> usize {
        self.desks
            .iter()
            .map(|desk| usize::from(desk.present))
            .sum()
    }

    /// There are none on a double line.
    fn line_clears(&self) -> [u8; 4] {
        [0; 4]
    }

    fn enter(&mut self, entry: &Entry) -> Answer {
        enter(self, entry)
    }
}

#[cfg(test)]
mod tests {
    use super::*;

    #[test]
    fn trains_leave_the_line_in_the_order_in_which_they_came_on_it() {
        let mut desk = Desk::default();
        for form in 1..=12 {
            desk.last_form = form;
            desk.put_last();
        }
        assert_eq!(desk.line(), [1, 2, 3, 4, 5, 6, 7, 8, 9, 10, 11, 12]);
        assert!(desk.is_well_made());
        for first in 1..=12 {
            assert_eq!(desk.line().first(), Some(&first));
            desk.take_first();
            assert!(desk.is_well_made(), "{desk:?}");
        }
        assert_eq!(desk.places, [0; 12]);
        desk.take_first();
        assert_eq!(desk.line(), [0; 0]);
    }
}
