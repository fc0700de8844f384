//! A section as bytes, figure by figure, as the stored cases hold it.
//!
//! This is a form in which sections are carried from one program to another.
//! It holds ill-made sections as well as well-made ones, but not every section
//! that [`Section`] can hold: see [`Section::figures`].

use crate::entry::Kind;
use crate::section::{Desk, Refused, Section, Vehicle};

/// The bytes of one place: kind, sender, form number (2), heading, met, class,
/// asked, granted, given up.
pub(crate) const PLACE_LENGTH: usize = 10;

/// The bytes of all places.
pub(crate) const PLACES_LENGTH: usize = Section::MOST_VEHICLES * PLACE_LENGTH;

/// The bytes of one desk: clock (2), last form number (2), sent, interval
/// running, its minute (2), out, guest, asked, holds, owes, waiting.
const DESK_LENGTH: usize = 14;

/// The bytes of the counts of refused entries: for A (4), for B (4), of no
/// station (4).
pub(crate) const REFUSED_LENGTH: usize = 12;

/// The bytes of what is in a section besides its vehicles: in force, the counts of
/// refused entries, and the desks of A and B.
pub(crate) const WORKING_LENGTH: usize = 1 + REFUSED_LENGTH + 2 * DESK_LENGTH;

/// The bytes of a section: its places, the vehicles present, in force, the
/// counts of refused entries, and the desks of A and B.
pub const FIGURES_LENGTH: usize = PLACES_LENGTH + 1 + WORKING_LENGTH;

/// The figures of a section; those of more than one byte high byte first.
pub type Figures = [u8; FIGURES_LENGTH];

/// One number for all the figures of a section.
#[must_use]
pub fn digest(figures: &Figures) -> u32 {
    figures.iter().fold(0_u32, |digest, &figure| {
        digest.wrapping_mul(31).wrapping_add(figure.into())
    })
}

impl Section {
    /// The figures of this section.
    ///
    /// None where they have no room for it: more than 255 vehicles; a vehicle
    /// that left on something other than a departure; line clears on an OPEN or
    /// where there is no kind, and messages on a THROUGH or where there is no
    /// kind; line clears given up on anything but a LAST TRAIN; and an OPEN with 0
    /// in every figure, which stands for no vehicle.
    #[must_use]
    pub fn figures(&self) -> Option<Figures> {
        if !self.places.iter().all(has_room) {
            return None;
        }
        let mut figures = [0; FIGURES_LENGTH];
        let mut room = Room::of(&mut figures);
        room.put_places(self);
        room.put([u8::try_from(self.present).ok()?]);
        room.put_working(self);
        Some(figures)
    }

    /// The section with these figures; none where no section has them.
    #[must_use]
    pub fn from_figures(figures: &Figures) -> Option<Section> {
        let mut rest = Rest::of(figures);
        let places = rest.places()?;
        let present = rest.byte().into();
        let section = rest.working(places, present)?;
        section.places.iter().all(has_room).then_some(section)
    }
}

/// Whether the figures of a place have room for it.
fn has_room(vehicle: &Vehicle) -> bool {
    let none_given_up = vehicle.given_up == 0;
    let no_messages = vehicle.asked == 0 && vehicle.granted == 0;
    match vehicle.left_on {
        None | Some(Kind::Through) => no_messages && none_given_up,
        Some(Kind::Open) => {
            vehicle.granted == 0 && none_given_up && !is_zero_but_for_its_kind(vehicle)
        }
        Some(Kind::Return | Kind::Train) => none_given_up,
        Some(Kind::LastTrain) => true,
        Some(Kind::Begin | Kind::Receive | Kind::Meet | Kind::Resume) => false,
    }
}

fn is_zero_but_for_its_kind(vehicle: &Vehicle) -> bool {
    *vehicle
        == Vehicle {
            left_on: vehicle.left_on,
            ..Vehicle::default()
        }
}

fn place_figures(vehicle: &Vehicle) -> [u8; PLACE_LENGTH] {
    let [form_high, form_low] = vehicle.form.to_be_bytes();
    [
        vehicle.left_on.map_or(0, Kind::number),
        vehicle.sender,
        form_high,
        form_low,
        vehicle.heading,
        vehicle.met.into(),
        vehicle.class,
        vehicle.asked,
        vehicle.granted,
        vehicle.given_up,
    ]
}

fn desk_figures(desk: &Desk) -> [u8; DESK_LENGTH] {
    let [clock_high, clock_low] = desk.clock.to_be_bytes();
    let [form_high, form_low] = desk.last_form.to_be_bytes();
    let [runs, minute_high, minute_low] = interval_figures(desk.interval);
    [
        clock_high,
        clock_low,
        form_high,
        form_low,
        desk.sent,
        runs,
        minute_high,
        minute_low,
        desk.out.into(),
        desk.guest,
        desk.asked,
        desk.holds,
        desk.owes,
        desk.waiting,
    ]
}

/// Whether it runs, and its minute; 0 where it does not run.
pub(crate) fn interval_figures(interval: Option<u16>) -> [u8; 3] {
    let [minute_high, minute_low] = interval.unwrap_or(0).to_be_bytes();
    [interval.is_some().into(), minute_high, minute_low]
}

/// The room that is left for figures still to be put.
pub(crate) struct Room<'a>(&'a mut [u8]);

impl<'a> Room<'a> {
    /// All of this.
    pub(crate) fn of(figures: &'a mut [u8]) -> Room<'a> {
        Room(figures)
    }

    pub(crate) fn put_places(&mut self, section: &Section) {
        for place in &section.places {
            self.put(place_figures(place));
        }
    }

    /// All but the places and how many of them are used.
    pub(crate) fn put_working(&mut self, section: &Section) {
        self.put([section.in_force.into()]);
        self.put_refused(&section.refused);
        for desk in &section.desks {
            self.put(desk_figures(desk));
        }
    }

    pub(crate) fn put_refused(&mut self, refused: &Refused) {
        for count in [refused.for_a, refused.for_b, refused.of_none] {
            self.put(count.to_be_bytes());
        }
    }

    /// There is as much room as the figures of a section take, so it does not end.
    pub(crate) fn put<const N: usize>(&mut self, figures: [u8; N]) {
        if let Some((next, rest)) = std::mem::take(&mut self.0).split_first_chunk_mut() {
            *next = figures;
            self.0 = rest;
        }
    }
}

/// The figures that are still to be read.
pub(crate) struct Rest<'a>(&'a [u8]);

impl<'a> Rest<'a> {
    /// All of these.
    pub(crate) fn of(figures: &'a [u8]) -> Rest<'a> {
        Rest(figures)
    }
}

/// Where no section has the figures that come next, nothing is read.
impl Rest<'_> {
    // The order of the fields is the order in which they are read, so they
    // stand here in the order of the figures.

    pub(crate) fn places(&mut self) -> Option<[Vehicle; Section::MOST_VEHICLES]> {
        let mut places = [Vehicle::default(); Section::MOST_VEHICLES];
        for place in &mut places {
            *place = self.place()?;
        }
        Some(places)
    }

    fn place(&mut self) -> Option<Vehicle> {
        Some(Vehicle {
            left_on: self.kind()?,
            sender: self.byte(),
            form: self.pair(),
            heading: self.byte(),
            met: self.flag()?,
            class: self.byte(),
            asked: self.byte(),
            granted: self.byte(),
            given_up: self.byte(),
        })
    }

    /// The section that has these vehicles, and all else as it comes next.
    pub(crate) fn working(
        &mut self,
        places: [Vehicle; Section::MOST_VEHICLES],
        present: usize,
    ) -> Option<Section> {
        Some(Section {
            places,
            present,
            in_force: self.flag()?,
            refused: self.refused(),
            desks: [self.desk()?, self.desk()?],
        })
    }

    pub(crate) fn refused(&mut self) -> Refused {
        Refused {
            for_a: self.count(),
            for_b: self.count(),
            of_none: self.count(),
        }
    }

    fn desk(&mut self) -> Option<Desk> {
        Some(Desk {
            clock: self.pair(),
            last_form: self.pair(),
            sent: self.byte(),
            interval: self.interval()?,
            out: self.flag()?,
            guest: self.byte(),
            asked: self.byte(),
            holds: self.byte(),
            owes: self.byte(),
            waiting: self.byte(),
        })
    }

    /// 0 is no kind; a number over the last kind's is of no section.
    fn kind(&mut self) -> Option<Option<Kind>> {
        match self.byte() {
            0 => Some(None),
            number => Kind::from_number(number).map(Some),
        }
    }

    /// An interval that does not run has no minute.
    pub(crate) fn interval(&mut self) -> Option<Option<u16>> {
        match (self.flag()?, self.pair()) {
            (true, minute) => Some(Some(minute)),
            (false, 0) => Some(None),
            (false, _) => None,
        }
    }

    pub(crate) fn flag(&mut self) -> Option<bool> {
        match self.byte() {
            0 => Some(false),
            1 => Some(true),
            _ => None,
        }
    }

    pub(crate) fn byte(&mut self) -> u8 {
        self.next::<1>()[0]
    }

    pub(crate) fn pair(&mut self) -> u16 {
        u16::from_be_bytes(self.next())
    }

    fn count(&mut self) -> u32 {
        u32::from_be_bytes(self.next())
    }

    /// The figures of a section are as many as are read, so they do not run out.
    fn next<const N: usize>(&mut self) -> [u8; N] {
        match self.0.split_first_chunk::<N>() {
            Some((next, rest)) => {
                self.0 = rest;
                *next
            }
            None => [0; N],
        }
    }
}

#[cfg(test)]
mod tests {
    use super::*;

    #[test]
    fn there_are_282_of_them() {
        assert_eq!(FIGURES_LENGTH, 282);
        assert_eq!(Section::fresh().figures(), Some([0; 282]));
        assert_eq!(Section::from_figures(&[0; 282]), Some(Section::fresh()));
    }

    #[test]
    fn the_digest_is_taken_figure_by_figure() {
        let mut figures = [0; FIGURES_LENGTH];
        assert_eq!(digest(&figures), 0);
        figures[281] = 5;
        assert_eq!(digest(&figures), 5);
        figures[280] = 2;
        assert_eq!(digest(&figures), 2 * 31 + 5);
        // 31 to the seventh is 27,512,614,111, which is over the largest.
        figures[274] = 1;
        let exact = 27_512_614_111_u64 + 2 * 31 + 5;
        assert_eq!(u64::from(digest(&figures)), exact % 4_294_967_296);
    }
}
