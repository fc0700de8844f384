//! Random logs that a working double line could have seen.
//!
//! As on the single line, a section is kept beside the log and looked at before
//! each entry, so that most entries are accepted. Among them stand entries spoiled
//! in one figure, entries made without looking, and bytes that are no entry, those
//! of the single line among them.

use crate::entry::{bit, Entry, Kind, Table};
use crate::generator::any_counts;
use crate::making::{
    any_bytes, bytes_by, departure_time, extend_log, just_before_interval_ends, later_than,
    neighbouring_form, pick_by_weight, with_a_bad_field, with_another_map, Maker,
};
use crate::random::Random;
use crate::section::Section as SingleLine;
use crate::section::Station;
use crate::working::Working;

use super::section::{Desk, Section};
use super::step::step_in_place;

/// How a log is to be made.
#[derive(Clone, Copy, Debug, Default, PartialEq, Eq)]
pub struct Options {
    /// Only entries that the section accepts, and no cut end.
    pub accepted: bool,
    /// Keep both lines near twelve trains.
    pub full: bool,
    /// End the log at so many bytes, inside an entry if need be; where only
    /// accepted entries are wished for, before an entry that would be cut.
    pub bytes: Option<usize>,
}

/// A log of so many entries; the same for the same arguments.
#[must_use]
pub fn log(seed: u64, entries: usize, options: Options) -> Vec<u8> {
    let mut generator = Generator::new(seed, options);
    let mut log = Vec::new();
    extend_log(&mut log, &mut generator, entries, options.bytes);
    log
}

/// What the traffic tends to for a while: weights with which an acceptable entry
/// is taken.
#[derive(Clone, Copy, Debug, PartialEq, Eq)]
struct Mood {
    train: u32,
    receive: u32,
    resume: u32,
}

const EVEN: Mood = Mood {
    train: 10,
    receive: 10,
    resume: 1,
};
const FILLING: Mood = Mood {
    train: 30,
    receive: 2,
    resume: 0,
};
const DRAINING: Mood = Mood {
    train: 0,
    receive: 20,
    resume: 5,
};
const MOODS: [Mood; 5] = [EVEN, EVEN, FILLING, FILLING, DRAINING];

/// The weight of a BEGIN, which stands alone where it is accepted.
const BEGINNING: u32 = 10;

/// The weight of a receipt from a full line, which shows something only when it
/// moves.
const MAKING_ROOM: u32 = 20;

/// Makes one entry after another.
#[derive(Clone, Debug)]
pub struct Generator {
    random: Random,
    section: Section,
    options: Options,
    mood: Mood,
    mood_lasts: u32,
}

impl Generator {
    /// A generator that starts from the fresh section.
    #[must_use]
    pub fn new(seed: u64, options: Options) -> Generator {
        Generator::at(Section::fresh(), seed, options)
    }

    /// A generator that starts from a section already worked.
    #[must_use]
    pub fn at(section: Section, seed: u64, options: Options) -> Generator {
        Generator {
            random: Random::new(seed),
            section,
            options,
            mood: EVEN,
            mood_lasts: 0,
        }
    }

    /// The section after the entries made so far.
    #[must_use]
    pub fn section(&self) -> &Section {
        &self.section
    }

    /// The bytes of one more entry of a log, whole though perhaps refused.
    pub fn next_entry(&mut self) -> Vec<u8> {
        self.make_entry()
    }

    /// The bytes of one more step of a list, in which, other than in a log,
    /// cut bytes may stand anywhere.
    pub fn next_step(&mut self) -> Vec<u8> {
        self.make_step()
    }

    fn desk(&self, station: Station) -> Desk {
        *self.section.desk(station)
    }

    /// Once a clock has come to its end the lines are cleared, so that a new
    /// working can start at minute 0.
    fn change_mood(&mut self) {
        if self.section.desks.iter().any(no_more_departures) {
            self.mood = DRAINING;
            self.mood_lasts = 0;
            return;
        }
        if self.options.full {
            self.mood = FILLING;
            return;
        }
        let drained = self.mood == DRAINING && self.section.vehicles_present() == 0;
        if self.mood_lasts == 0 || (drained && self.random.chance(70)) {
            self.mood = self.random.pick(&MOODS);
            self.mood_lasts = 10 + self.random.below(60);
        }
        self.mood_lasts -= 1;
    }

    fn is_accepted(&self, entry: &Entry) -> bool {
        let mut section = self.section.clone();
        step_in_place(&mut section, &bytes_of(entry)).is_ok()
    }

    fn departure(&mut self, station: Station) -> Entry {
        let desk = self.desk(station);
        let clock = self.clock_of(&desk);
        let time = departure_time(&mut self.random, clock, desk.interval);
        Entry::double_line_train(station, time)
    }

    /// The receipt of the first train on the other's line.
    fn receipt(&mut self, station: Station) -> Option<(Entry, u32)> {
        let other = self.desk(station.other());
        let &first = other.line().first()?;
        let weight = if is_full(&other) {
            MAKING_ROOM
        } else {
            self.mood.receive
        };
        let time = self.receipt_time(station);
        Some((
            Entry::receive(station, time, station.other(), first),
            weight,
        ))
    }

    fn receipt_time(&mut self, station: Station) -> u16 {
        let desk = self.desk(station);
        let clock = self.clock_of(&desk);
        later_than(&mut self.random, clock)
    }

    /// Now and then a clock that has not moved yet starts near its end, so that
    /// short logs come by it as well.
    fn clock_of(&mut self, desk: &Desk) -> u16 {
        if desk.clock == 0 && self.random.chance(5) {
            u16::MAX - self.random.between(0, 300)
        } else {
            desk.clock
        }
    }

    /// Ways to spoil an entry of this station.
    fn spoilings(&mut self, entry: Entry, station: Station) -> Vec<Entry> {
        let desk = self.desk(station);
        let mut spoiled = vec![Entry {
            station: station.other().number(),
            ..entry
        }];
        for time in [
            desk.clock.saturating_sub(1),
            just_before_interval_ends(desk.clock, desk.interval),
        ] {
            spoiled.push(Entry { time, ..entry });
        }
        if entry.map & bit::FORM != 0 {
            let form = neighbouring_form(&mut self.random, entry.form);
            spoiled.push(Entry { form, ..entry });
            let sender = station.number();
            spoiled.push(Entry { sender, ..entry });
            let line = self.desk(station.other());
            // Received past another.
            let behind = line.line().get(1);
            spoiled.extend(behind.map(|&form| Entry { form, ..entry }));
        }
        spoiled
    }

    /// A line is not full for long, so what a master may not do while it is has to
    /// be tried at once.
    fn thirteenth_departure(&mut self) -> Option<Entry> {
        let station = Station::BOTH
            .into_iter()
            .find(|&station| is_full(self.section.desk(station)))?;
        if self.random.chance(60) {
            return None;
        }
        Some(self.departure(station))
    }

    /// Deep states would be lost too often if every blind RESUME that finds both
    /// lines empty were let through.
    fn may_end(&mut self) -> bool {
        self.section.vehicles_present() > 0 || self.random.chance(10)
    }

    /// Mostly the name of a train on one of the lines.
    fn some_name(&mut self) -> (Station, u16) {
        let sender = self.random.pick(&Station::BOTH);
        let desk = self.desk(sender);
        let form = if desk.present > 0 && self.random.chance(80) {
            self.random.pick(desk.line())
        } else {
            self.random.between(1, desk.last_form.max(1))
        };
        (sender, form)
    }

    fn with_another_kind(&mut self) -> Vec<u8> {
        let mut bytes = bytes_of(&self.blind_entry());
        let other_kind = self.random.byte();
        let kinds = [0, 2, 3, 4, 7, 9, 10, u8::MAX, other_kind];
        bytes[1] = self.random.pick(&kinds);
        bytes
    }

    fn with_another_map(&mut self) -> Vec<u8> {
        let bytes = bytes_of(&self.blind_entry());
        with_another_map(&mut self.random, bytes)
    }

    fn with_a_bad_field(&mut self) -> Vec<u8> {
        let entry = self.blind_entry();
        with_a_bad_field(&mut self.random, entry).unwrap_or_else(|| self.with_another_kind())
    }

    /// What is an entry on a single line and none here.
    fn of_the_single_line(&mut self) -> Vec<u8> {
        let station = self.random.pick(&Station::BOTH);
        let time = self.receipt_time(station);
        let view = self.random.small(1, 3);
        let asked = self.random.small(0, 2);
        let granted = self.random.small(0, 2);
        let (sender, form) = self.some_name();
        let entries = [
            Entry::train(station, time, view, asked, granted),
            Entry::train(station, time, view, 0, 0),
            Entry::open(station, time, view, 1, 2),
            Entry::through(station, time, view),
            Entry::send_back(station, time, asked, granted),
            Entry::meet(station, sender, form),
            Entry::last_train(station, time, view, asked, granted),
        ];
        bytes_by(&Table::SINGLE_LINE, &self.random.pick(&entries))
    }
}

impl Maker for Generator {
    const TABLE: &'static Table = &Table::DOUBLE_LINE;

    fn random(&mut self) -> &mut Random {
        &mut self.random
    }

    fn accepted_only(&self) -> bool {
        self.options.accepted
    }

    fn in_force(&self) -> bool {
        self.section.in_force
    }

    fn step(&mut self, bytes: &[u8]) {
        let _ = step_in_place(&mut self.section, bytes);
    }

    fn likely_entry(&mut self) -> Entry {
        self.change_mood();
        let mut candidates = vec![
            (Entry::begin(), BEGINNING),
            (Entry::resume(), self.mood.resume),
        ];
        for station in Station::BOTH {
            candidates.push((self.departure(station), self.mood.train));
            candidates.extend(self.receipt(station));
        }
        candidates.retain(|(entry, _)| self.is_accepted(entry));
        pick_by_weight(&mut self.random, &candidates).unwrap_or_else(|| self.blind_entry())
    }

    fn spoiled_entry(&mut self) -> Entry {
        let entry = self.likely_entry();
        let Some(station) = Station::from_number(entry.station) else {
            return self.blind_entry();
        };
        let spoiled = self.spoilings(entry, station);
        self.random.pick(&spoiled)
    }

    fn blind_entry(&mut self) -> Entry {
        if let Some(entry) = self.thirteenth_departure() {
            return entry;
        }
        let station = self.random.pick(&Station::BOTH);
        let kinds = [Kind::Begin, Kind::Train, Kind::Receive, Kind::Resume];
        match self.random.pick(&kinds) {
            Kind::Begin => Entry::begin(),
            Kind::Resume if self.may_end() => Entry::resume(),
            Kind::Receive => {
                let time = self.receipt_time(station);
                let (sender, form) = self.some_name();
                Entry::receive(station, time, sender, form)
            }
            _ => self.departure(station),
        }
    }

    fn no_entry(&mut self) -> Vec<u8> {
        match self.random.below(8) {
            0 => vec![0],
            1 => any_bytes(&mut self.random),
            2 => self.with_another_kind(),
            3 => self.with_another_map(),
            4 | 5 => self.with_a_bad_field(),
            _ => self.of_the_single_line(),
        }
    }
}

fn is_full(desk: &Desk) -> bool {
    desk.line().len() == Section::MOST_ON_LINE
}

/// Whether no minute is left at which a train may leave, since the interval ends
/// past the clock's end.
pub(super) fn no_more_departures(desk: &Desk) -> bool {
    desk.interval
        .is_some_and(|started| started > u16::MAX - SingleLine::INTERVAL)
}

/// The bytes of an entry; of one that may not be written, none.
pub(super) fn bytes_of(entry: &Entry) -> Vec<u8> {
    bytes_by(&Table::DOUBLE_LINE, entry)
}

/// Any well-made section, whether or not a log leads to it.
#[must_use]
pub fn any_section(random: &mut Random) -> Section {
    let mut section = Section {
        refused: any_counts(random),
        ..Section::fresh()
    };
    if random.chance(10) {
        return section;
    }
    section.in_force = true;
    section.desks = [any_desk(random), any_desk(random)];
    section
}

fn any_desk(random: &mut Random) -> Desk {
    let present = match random.below(10) {
        0..=2 => 0,
        3..=6 => random.small(1, 3),
        7 => random.small(4, 11),
        _ => 12,
    };
    let clock = random.between(0, u16::MAX);
    let clock = random.pick(&[0, 40, clock, 65_520, u16::MAX]);
    let least_forms = u16::from(present);
    let any_last = random.between(least_forms, SingleLine::LAST_FORM);
    let last_form = random.pick(&[least_forms, any_last, 9_998, 9_999]);
    Desk {
        clock,
        last_form,
        interval: random
            .chance(70)
            .then(|| clock - random.between(0, clock.min(60))),
        places: any_places(random, last_form, present),
        present,
    }
}

/// So many form numbers up to the last, rising, with gaps where there is room.
fn any_places(random: &mut Random, last_form: u16, present: u8) -> [u16; Section::MOST_ON_LINE] {
    let mut places = [0; Section::MOST_ON_LINE];
    let mut before = 0;
    for (place, left) in places.iter_mut().zip((0..present).rev()) {
        let most = last_form - u16::from(left);
        let next = random.between(before + 1, most.min(before + 3));
        *place = random.pick(&[before + 1, next, most]);
        before = *place;
    }
    places
}

#[cfg(test)]
mod tests {
    use super::super::Run;
    use super::*;
    use crate::section::Refused;

    #[test]
    fn the_same_arguments_give_the_same_log() {
        let options = Options::default();
        assert_eq!(log(3, 200, options), log(3, 200, options));
        assert_ne!(log(3, 200, options), log(4, 200, options));
    }

    #[test]
    fn a_log_has_the_entries_wished_for() {
        for seed in 0..20 {
            for entries in [0, 1, 77] {
                let log = log(seed, entries, Options::default());
                assert_eq!(Run::of(&log).count(), entries, "seed {seed}");
            }
        }
    }

    #[test]
    fn an_accepted_log_has_no_refusal() {
        let none = Refused::default();
        for seed in 0..10 {
            for full in [false, true] {
                let options = Options {
                    accepted: true,
                    full,
                    ..Options::default()
                };
                let long = log(seed, 500, options);
                assert_eq!(Run::of(&long).finish().refused, none, "seed {seed}");
                let short = Options {
                    bytes: Some(1_001),
                    ..options
                };
                let short = log(seed, 500, short);
                assert!((990..=1_001).contains(&short.len()), "{}", short.len());
                assert!(long.starts_with(&short));
                assert_eq!(Run::of(&short).finish().refused, none, "seed {seed}");
            }
        }
    }

    #[test]
    fn a_log_ends_just_at_the_bytes_wished_for() {
        for bytes in [0, 1, 100, 1_001] {
            let options = Options {
                bytes: Some(bytes),
                ..Options::default()
            };
            assert_eq!(log(5, bytes, options).len(), bytes);
        }
    }

    #[test]
    fn any_section_is_well_made() {
        let mut random = Random::new(1);
        let mut fullest = 0;
        for _ in 0..2_000 {
            let section = any_section(&mut random);
            assert!(section.is_well_made(), "{section:?}");
            let present = section.desks.map(|desk| desk.present);
            fullest = fullest.max(present.iter().sum());
        }
        assert_eq!(fullest, 24);
    }

    #[test]
    fn the_generator_keeps_the_section_of_its_own_log() {
        let mut generator = Generator::new(11, Options::default());
        let mut log = Vec::new();
        for _ in 0..300 {
            log.extend(generator.next_entry());
        }
        assert_eq!(&Run::of(&log).finish(), generator.section());
    }
}
