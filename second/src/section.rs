//! The section: two desks and the vehicles between them.

use crate::entry::Kind;
use crate::working::{forms_and_interval_fit, Working};

/// One of the two stations. A to B is UP.
#[derive(Clone, Copy, Debug, PartialEq, Eq, Hash)]
pub enum Station {
    /// Station 1.
    A,
    /// Station 2.
    B,
}

impl Station {
    /// Both stations, A first.
    pub const BOTH: [Station; 2] = [Station::A, Station::B];

    /// The station with this number, if there is one.
    #[must_use]
    pub const fn from_number(number: u8) -> Option<Station> {
        match number {
            1 => Some(Station::A),
            2 => Some(Station::B),
            _ => None,
        }
    }

    /// 1 for A, 2 for B.
    #[must_use]
    pub const fn number(self) -> u8 {
        match self {
            Station::A => 1,
            Station::B => 2,
        }
    }

    /// The station at the other end.
    #[must_use]
    pub const fn other(self) -> Station {
        match self {
            Station::A => Station::B,
            Station::B => Station::A,
        }
    }

    /// The letter that the lister prints.
    #[must_use]
    pub const fn letter(self) -> char {
        match self {
            Station::A => 'A',
            Station::B => 'B',
        }
    }

    pub(crate) const fn place(self) -> usize {
        match self {
            Station::A => 0,
            Station::B => 1,
        }
    }
}

/// The figures that one station master keeps.
#[derive(Clone, Copy, Debug, Default, PartialEq, Eq, Hash)]
pub struct Desk {
    /// Minute of the last accepted entry.
    pub clock: u16,
    /// Last form number given out, 0 to 9,999.
    pub last_form: u16,
    /// Departures counted, 0 to 12.
    pub sent: u8,
    /// The running interval: the minute of the last departure, if it runs.
    pub interval: Option<u16>,
    /// Whether the station's own opener is away.
    pub out: bool,
    /// 0, or the class of the other station's opener standing here.
    pub guest: u8,
    /// Trains the other station has enquired for, unanswered, 0 to 8.
    pub asked: u8,
    /// Line clears for the station's own trains, 0 to 8.
    pub holds: u8,
    /// Line clears given and not yet arrived, 0 to 8.
    pub owes: u8,
    /// Line clears for the station's own trains that came in while it still
    /// owed, 0 to 8.
    pub waiting: u8,
}

impl Desk {
    fn is_well_made(&self) -> bool {
        forms_and_interval_fit(self.clock, self.last_form, self.interval)
            && self.sent <= Section::MOST_SENT
            && self.guest <= Section::MOST_CLASSES
            && self.asked <= Section::MOST_CLEARS
            && self.holds <= Section::MOST_CLEARS
            && self.owes <= Section::MOST_CLEARS
            && self.waiting <= Section::MOST_CLEARS
    }
}

/// What is known of one vehicle in the section. An unused place holds the
/// default, in which everything is zero or none.
#[derive(Clone, Copy, Debug, Default, PartialEq, Eq, Hash)]
pub struct Vehicle {
    /// OPEN, THROUGH, RETURN, TRAIN or LAST TRAIN.
    pub left_on: Option<Kind>,
    /// The station that sent it, 1 or 2.
    pub sender: u8,
    /// The number of its form, counted by its sender.
    pub form: u16,
    /// The station it goes to, 1 or 2.
    pub heading: u8,
    /// Whether it has met another in the section.
    pub met: bool,
    /// Its class, 0 for a train.
    pub class: u8,
    /// Trains enquired for, 0 for none.
    pub asked: u8,
    /// Line clears it carries, 0 for none.
    pub granted: u8,
    /// Line clears that its sender gave up with it, 0 to 7; 0 on all but a LAST
    /// TRAIN.
    pub given_up: u8,
}

impl Vehicle {
    /// Whether this is the vehicle that `sender` sent on this form.
    #[must_use]
    pub fn is_named(&self, sender: Station, form: u16) -> bool {
        self.is_from(sender) && self.form == form
    }

    /// Whether this station sent it.
    #[must_use]
    pub fn is_from(&self, station: Station) -> bool {
        self.sender == station.number()
    }

    /// Whether it goes to this station.
    #[must_use]
    pub fn heads_to(&self, station: Station) -> bool {
        self.heading == station.number()
    }

    /// Whether it left without a line clear, as an opener or through engine.
    #[must_use]
    pub fn left_without_line_clear(&self) -> bool {
        matches!(self.left_on, Some(Kind::Open | Kind::Through))
    }

    fn is_well_made(&self) -> bool {
        let (Some(kind), Some(sender), Some(heading)) = (
            self.left_on,
            Station::from_number(self.sender),
            Station::from_number(self.heading),
        ) else {
            return false;
        };
        let may_have_met = self.left_without_line_clear();
        (may_have_met || !self.met)
            && (self.met || heading == sender.other())
            && self.class_fits(kind)
            && self.messages_fit(kind)
            && self.given_up_fits(kind)
    }

    fn class_fits(&self, kind: Kind) -> bool {
        match kind {
            Kind::Open | Kind::Return => (1..=Section::MOST_CLASSES).contains(&self.class),
            Kind::Through => self.class == 1,
            Kind::Train | Kind::LastTrain => self.class == 0,
            Kind::Begin | Kind::Receive | Kind::Meet | Kind::Resume => false,
        }
    }

    fn messages_fit(&self, kind: Kind) -> bool {
        let in_range = self.asked <= Section::MOST_CLEARS && self.granted <= Section::MOST_CLEARS;
        match kind {
            Kind::Open => in_range && self.asked >= 1 && self.granted == 0,
            Kind::Through => self.asked == 0 && self.granted == 0,
            _ => in_range,
        }
    }

    fn given_up_fits(&self, kind: Kind) -> bool {
        match kind {
            Kind::LastTrain => self.given_up <= Section::MOST_GIVEN_UP,
            _ => self.given_up == 0,
        }
    }
}

/// Entries refused, by whose they are. [`crate::refused_for`] says which count
/// a refused step belongs to.
#[derive(Clone, Copy, Debug, Default, PartialEq, Eq, Hash)]
pub struct Refused {
    /// Entries refused for A.
    pub for_a: u32,
    /// Entries refused for B.
    pub for_b: u32,
    /// Refused entries of no station.
    pub of_none: u32,
}

impl Refused {
    /// Counts one more refused entry of this station, or of none. A count at
    /// its largest value stays there, whatever the other two are.
    pub fn count(&mut self, whose: Option<Station>) {
        let count = match whose {
            Some(Station::A) => &mut self.for_a,
            Some(Station::B) => &mut self.for_b,
            None => &mut self.of_none,
        };
        *count = count.saturating_add(1);
    }

    /// The three counts together.
    #[must_use]
    pub fn total(&self) -> u64 {
        [self.for_a, self.for_b, self.of_none]
            .map(u64::from)
            .iter()
            .sum()
    }
}

/// The section between the two stations.
///
/// Every figure is open to its owner, who may therefore also hold one that is
/// not well made; [`crate::step()`] refuses such a section with 5.
#[derive(Clone, Debug, PartialEq, Eq, Hash)]
pub struct Section {
    /// Places for the vehicles, in order from A to B.
    pub places: [Vehicle; Section::MOST_VEHICLES],
    /// How many of the places are used.
    pub present: usize,
    /// Whether the working is in force.
    pub in_force: bool,
    /// Refused entries, in three counts.
    pub refused: Refused,
    /// The desks of A and B.
    pub desks: [Desk; 2],
}

impl Default for Section {
    fn default() -> Section {
        Section::fresh()
    }
}

impl Section {
    /// Vehicles that the section can hold.
    pub const MOST_VEHICLES: usize = 24;
    /// Departures that a desk can count.
    pub const MOST_SENT: u8 = 12;
    /// Minutes from one departure to the next.
    pub const INTERVAL: u16 = 30;
    /// The last form number.
    pub const LAST_FORM: u16 = 9_999;
    /// Line clears, or trains enquired for, at one time.
    pub const MOST_CLEARS: u8 = 8;
    /// Line clears given up with one train, which itself takes one of those held.
    pub const MOST_GIVEN_UP: u8 = Section::MOST_CLEARS - 1;
    /// Classes of opener.
    pub const MOST_CLASSES: u8 = 5;

    /// The section before any failure: not in force, all else zero or none.
    #[must_use]
    pub fn fresh() -> Section {
        Section {
            places: [Vehicle::default(); Section::MOST_VEHICLES],
            present: 0,
            in_force: false,
            refused: Refused::default(),
            desks: [Desk::default(); 2],
        }
    }

    /// The vehicles present, in order from A to B.
    #[must_use]
    pub fn vehicles(&self) -> &[Vehicle] {
        self.places.get(..self.present).unwrap_or(&self.places)
    }

    /// The desk of this station.
    #[must_use]
    pub fn desk(&self, station: Station) -> &Desk {
        &self.desks[station.place()]
    }

    /// The desk of this station, to be altered.
    pub fn desk_mut(&mut self, station: Station) -> &mut Desk {
        &mut self.desks[station.place()]
    }

    /// The vehicle nearest this station, if there is one.
    #[must_use]
    pub fn nearest(&self, station: Station) -> Option<&Vehicle> {
        match station {
            Station::A => self.vehicles().first(),
            Station::B => self.vehicles().last(),
        }
    }

    /// The vehicles of one sender, in order from A to B.
    pub fn sent_by(&self, sender: Station) -> impl Iterator<Item = &Vehicle> {
        self.vehicles()
            .iter()
            .filter(move |vehicle| vehicle.is_from(sender))
    }

    /// Whether the section is one that a step accepts.
    #[must_use]
    pub fn is_well_made(&self) -> bool {
        if !self.in_force {
            return self.is_fresh_but_for_the_counts();
        }
        self.unused_places_are_zero()
            && self.desks.iter().all(Desk::is_well_made)
            && self.vehicles().iter().all(Vehicle::is_well_made)
            && self.senders_stand_in_order()
            && Station::BOTH
                .iter()
                .all(|&sender| self.departures_are_counted(sender) && self.forms_fit(sender))
    }

    /// A number of vehicles over 24 leaves no unused places to look at and is
    /// outside its range.
    fn unused_places_are_zero(&self) -> bool {
        self.places
            .get(self.present..)
            .is_some_and(|unused| unused.iter().all(|place| *place == Vehicle::default()))
    }

    fn senders_stand_in_order(&self) -> bool {
        self.vehicles()
            .windows(2)
            .all(|pair| pair[0].is_from(Station::A) || pair[1].is_from(Station::B))
    }

    fn departures_are_counted(&self, sender: Station) -> bool {
        usize::from(self.desk(sender).sent) >= self.sent_by(sender).count()
    }

    fn forms_fit(&self, sender: Station) -> bool {
        let given_out = 1..=self.desk(sender).last_form;
        self.sent_by(sender).enumerate().all(|(place, vehicle)| {
            given_out.contains(&vehicle.form)
                && self
                    .sent_by(sender)
                    .take(place)
                    .all(|earlier| earlier.form != vehicle.form)
        })
    }

    /// Puts a vehicle into the section at this station's end. Twelve
    /// departures a station are the most, so a place is always free.
    pub(crate) fn put_in(&mut self, station: Station, vehicle: Vehicle) {
        match station {
            Station::A => {
                self.places.copy_within(..self.present, 1);
                self.places[0] = vehicle;
            }
            Station::B => self.places[self.present] = vehicle,
        }
        self.present += 1;
    }

    /// Takes the vehicle nearest this station, if any, out of the section.
    pub(crate) fn take_out(&mut self, station: Station) {
        if self.present == 0 {
            return;
        }
        if station == Station::A {
            self.places.copy_within(1..self.present, 0);
        }
        self.present -= 1;
        self.places[self.present] = Vehicle::default();
    }
}

#[cfg(test)]
mod tests {
    use super::*;

    fn through(sender: Station, form: u16) -> Vehicle {
        Vehicle {
            left_on: Some(Kind::Through),
            sender: sender.number(),
            form,
            heading: sender.other().number(),
            class: 1,
            ..Vehicle::default()
        }
    }

    fn two_each() -> Section {
        let mut section = Section {
            in_force: true,
            ..Section::fresh()
        };
        for station in Station::BOTH {
            let desk = section.desk_mut(station);
            desk.sent = 2;
            desk.last_form = 2;
            section.put_in(station, through(station, 1));
            section.put_in(station, through(station, 2));
        }
        section
    }

    fn names(section: &Section) -> Vec<(u8, u16)> {
        let name = |vehicle: &Vehicle| (vehicle.sender, vehicle.form);
        section.vehicles().iter().map(name).collect()
    }

    #[test]
    fn vehicles_stand_in_order_from_a_to_b() {
        let mut section = two_each();
        assert!(section.is_well_made());
        assert_eq!(names(&section), [(1, 2), (1, 1), (2, 1), (2, 2)]);
        assert_eq!(section.nearest(Station::A), Some(&through(Station::A, 2)));
        assert_eq!(section.nearest(Station::B), Some(&through(Station::B, 2)));
        section.take_out(Station::A);
        section.take_out(Station::B);
        assert_eq!(names(&section), [(1, 1), (2, 1)]);
        section.take_out(Station::A);
        section.take_out(Station::A);
        assert_eq!(section.places, Section::fresh().places);
        section.take_out(Station::B);
        assert_eq!(section.present, 0);
    }

    #[test]
    fn the_fresh_section_is_well_made_with_any_counts() {
        let mut section = Section::fresh();
        assert!(section.is_well_made());
        section.refused = Refused {
            for_a: u32::MAX,
            for_b: 1,
            of_none: 70_000,
        };
        assert!(section.is_well_made());
        section.desks[1].clock = 1;
        assert!(!section.is_well_made());
        section.in_force = true;
        assert!(section.is_well_made());
    }

    #[test]
    fn a_number_of_vehicles_over_24_is_ill_made() {
        let mut section = two_each();
        section.present = 25;
        assert!(!section.is_well_made());
        assert_eq!(section.vehicles().len(), 24);
    }
}
