//! Random logs that a working section could have seen.
//!
//! The generator keeps a section of its own beside the log and looks at it
//! before each entry: which vehicle stands nearest, who holds a line clear, how
//! long the interval still runs. Most entries are therefore accepted and lead
//! into states that blind chance would not find. Among them it strews entries
//! spoiled in one figure, entries made without looking, and bytes that are no
//! entry.

use crate::edition::Edition;
use crate::entry::{bit, Entry, Kind, Table};
use crate::making::{
    any_bytes, bytes_by, departure_time, extend_log, just_before_interval_ends, later_than,
    neighbouring_form, pick_by_weight, with_a_bad_field, with_another_map, Maker,
};
use crate::random::Random;
use crate::section::{Desk, Refused, Section, Station, Vehicle};
use crate::step::step_by;

/// How a log is to be made.
#[derive(Clone, Copy, Debug, Default, PartialEq, Eq)]
pub struct Options {
    /// Only entries that the section accepts, and no cut end.
    pub accepted: bool,
    /// Keep the section as full of vehicles as it goes.
    pub full: bool,
    /// Use up nearly all form numbers of one station first. This takes some
    /// 160,000 bytes, which come on top of the entries wished for.
    pub worn: bool,
    /// Of the steps of a list, try many RETURNs from a desk that holds line clears,
    /// unless only accepted entries are wished for. A log has them now and then
    /// without this.
    pub returns_while_holding: bool,
    /// By which edition of the step entries are accepted.
    pub edition: Edition,
    /// End the log at so many bytes, inside an entry if need be; where only
    /// accepted entries are wished for, before an entry that would be cut.
    pub bytes: Option<usize>,
}

/// A log of so many entries; the same for the same arguments.
#[must_use]
pub fn log(seed: u64, entries: usize, options: Options) -> Vec<u8> {
    let mut generator = Generator::new(seed, options);
    let mut log = Vec::new();
    if options.worn {
        generator.wear_out_forms(&mut log);
    }
    extend_log(&mut log, &mut generator, entries, options.bytes);
    log
}

/// What the traffic tends to for a while. The figures are weights, by the
/// number of the kind, with which an acceptable entry of that kind is taken.
type Mood = [u32; 10];

const EVEN: Mood = [0, 10, 6, 6, 8, 10, 14, 2, 1, 4];
const FLOW: Mood = [0, 10, 8, 0, 30, 24, 30, 1, 0, 4];
const FILLING: Mood = [0, 10, 3, 30, 3, 16, 2, 1, 0, 2];
const MEETING: Mood = [0, 10, 16, 10, 2, 2, 8, 6, 0, 1];
const DRAINING: Mood = [0, 10, 0, 0, 3, 0, 20, 2, 3, 1];
const MOODS: [Mood; 6] = [EVEN, FLOW, FLOW, FILLING, MEETING, DRAINING];

/// The clock from which the traffic is brought to an end, so that a new
/// working can start at minute 0.
const LATE: u16 = 60_000;

/// Makes one entry after another.
#[derive(Clone, Debug)]
pub struct Generator {
    random: Random,
    section: Section,
    options: Options,
    mood: Mood,
    mood_lasts: u32,
}

impl Generator {
    /// A generator that starts from the fresh section.
    #[must_use]
    pub fn new(seed: u64, options: Options) -> Generator {
        Generator::at(Section::fresh(), seed, options)
    }

    /// A generator that starts from a section already worked.
    #[must_use]
    pub fn at(section: Section, seed: u64, options: Options) -> Generator {
        Generator {
            random: Random::new(seed),
            section,
            options,
            mood: EVEN,
            mood_lasts: 0,
        }
    }

    /// The section after the entries made so far.
    #[must_use]
    pub fn section(&self) -> &Section {
        &self.section
    }

    /// Goes on from this section.
    pub fn go_to(&mut self, section: Section) {
        self.section = section;
    }

    /// The bytes of one more entry of a log, whole though perhaps refused.
    pub fn next_entry(&mut self) -> Vec<u8> {
        self.make_entry()
    }

    /// The bytes of one more step of a list, in which, other than in a log,
    /// cut bytes may stand anywhere.
    pub fn next_step(&mut self) -> Vec<u8> {
        if let Some(entry) = self.return_while_holding() {
            let bytes = bytes_of(&entry);
            self.step(&bytes);
            return bytes;
        }
        self.make_step()
    }

    /// Where it is wished for, a RETURN from a desk that holds line clears, perhaps
    /// with the interval running and with more granted than was asked.
    fn return_while_holding(&mut self) -> Option<Entry> {
        if !self.options.returns_while_holding || self.options.accepted {
            return None;
        }
        let station = Station::BOTH
            .into_iter()
            .find(|&station| self.desk(station).holds > 0)?;
        if !self.random.chance(20) {
            return None;
        }
        let time = self.later_than(self.desk(station).clock);
        let asked = self.perhaps_some_trains();
        let granted = self.perhaps_some_trains();
        Some(Entry::send_back(station, time, asked, granted))
    }

    fn desk(&self, station: Station) -> Desk {
        *self.section.desk(station)
    }

    fn change_mood(&mut self) {
        if self.options.full && !self.is_late() {
            self.mood = FILLING;
            return;
        }
        let drained = self.mood == DRAINING && self.section.present == 0;
        if self.mood_lasts == 0 || (drained && self.random.chance(90)) {
            self.mood = self.random.pick(&MOODS);
            self.mood_lasts = 20 + self.random.below(100);
        }
        self.mood_lasts -= 1;
    }

    fn is_late(&self) -> bool {
        self.section.desks.iter().any(|desk| desk.clock > LATE)
    }

    fn candidate(&mut self, kind: Kind, station: Station) -> Option<(Entry, u32)> {
        let entry = match kind {
            // These belong to no station and are proposed once.
            Kind::Begin | Kind::Resume if station == Station::B => return None,
            Kind::Resume if self.options.worn => return None,
            Kind::Begin => Entry::begin(),
            Kind::Resume => Entry::resume(),
            Kind::Receive => self.receipt(station)?,
            Kind::Meet => self.meeting(station)?,
            _ => self.departure(kind, station),
        };
        Some((entry, self.weight(kind, &entry)))
    }

    fn weight(&self, kind: Kind, entry: &Entry) -> u32 {
        let late = self.is_late() && !self.options.worn;
        let mood = if late { &DRAINING } else { &self.mood };
        let weight = mood[usize::from(kind.number())];
        let full = self.section.present == Section::MOST_VEHICLES;
        match kind {
            // A full section shows something only when it moves.
            Kind::Receive if full => 20,
            Kind::Meet if full => 3,
            // Two openers at once seldom reach the other end.
            Kind::Open if self.mood == FLOW && self.opener_away() => 1,
            // An opener taken back opens nothing, and nothing stands in its way.
            Kind::Receive if entry.station == entry.sender && self.one_way() => weight.div_ceil(8),
            _ => weight,
        }
    }

    /// Whether all vehicles present come from one station.
    fn one_way(&self) -> bool {
        let ends = Station::BOTH.map(|station| self.section.nearest(station));
        ends[0].map(|vehicle| vehicle.sender) == ends[1].map(|vehicle| vehicle.sender)
    }

    fn opener_away(&self) -> bool {
        self.section.desks.iter().any(|desk| desk.out)
    }

    fn is_accepted(&self, entry: &Entry) -> bool {
        let mut section = self.section.clone();
        step_by(self.options.edition, &mut section, &bytes_of(entry)).is_ok()
    }

    /// The receipt of the vehicle nearest this station.
    fn receipt(&mut self, station: Station) -> Option<Entry> {
        let nearest = *self.section.nearest(station)?;
        let sender = Station::from_number(nearest.sender)?;
        let time = self.later_than(self.desk(station).clock);
        Some(Entry::receive(station, time, sender, nearest.form))
    }

    /// A meeting of two neighbours that head towards one another.
    fn meeting(&mut self, station: Station) -> Option<Entry> {
        let pairs = self.section.vehicles().windows(2);
        let opposed =
            |pair: &&[Vehicle]| pair[0].heads_to(Station::B) && pair[1].heads_to(Station::A);
        let nearer_a: Vec<Vehicle> = pairs.filter(opposed).map(|pair| pair[0]).collect();
        if nearer_a.is_empty() {
            return None;
        }
        let named = self.random.pick(&nearer_a);
        let sender = Station::from_number(named.sender)?;
        Some(Entry::meet(station, sender, named.form))
    }

    fn departure(&mut self, kind: Kind, station: Station) -> Entry {
        let desk = self.desk(station);
        let time = self.departure_time(&desk);
        let view = self.random.small(1, 3);
        match kind {
            Kind::Open => {
                let class = self.random.small(1, 5);
                let asked = self.some_trains();
                Entry::open(station, time, view, class, asked)
            }
            Kind::Through => Entry::through(station, time, view),
            Kind::Return => {
                let asked = self.perhaps_some_trains();
                let granted = self.reply(desk.asked);
                Entry::send_back(station, time, asked, granted)
            }
            _ => {
                let asked = self.perhaps_some_trains();
                let granted = self.reply_by_train(&desk, kind);
                train_of(kind, station, time, view, asked, granted)
            }
        }
    }

    fn departure_time(&mut self, desk: &Desk) -> u16 {
        departure_time(&mut self.random, desk.clock, desk.interval)
    }

    fn later_than(&mut self, earliest: u16) -> u16 {
        later_than(&mut self.random, earliest)
    }

    fn some_trains(&mut self) -> u8 {
        if self.random.chance(25) {
            Section::MOST_CLEARS
        } else {
            self.random.small(1, Section::MOST_CLEARS)
        }
    }

    fn perhaps_some_trains(&mut self) -> u8 {
        if self.random.chance(50) {
            self.some_trains()
        } else {
            0
        }
    }

    /// Line clears for some of those asked for, mostly for all of them.
    fn reply(&mut self, asked: u8) -> u8 {
        match self.random.below(10) {
            0..=5 => asked,
            6..=7 => self.random.small(0, asked),
            _ => 0,
        }
    }

    /// A reply as the next train of this desk may carry it. Half of the trains that
    /// leave line clears behind go without, so that the reply rides with any train
    /// of a series and not mostly with the first.
    fn reply_by_train(&mut self, desk: &Desk, kind: Kind) -> u8 {
        let ahead = kind == Kind::Train && desk.holds > 1;
        if !self.options.edition.lets_a_train_grant(desk) || (ahead && self.random.chance(50)) {
            return 0;
        }
        self.reply(desk.asked)
    }

    /// A guest is soon sent back, so what a master may not do while one stands
    /// at his station has to be tried at once.
    fn hurried_departure(&mut self) -> Option<Entry> {
        let station = Station::BOTH
            .into_iter()
            .find(|&station| self.desk(station).guest > 0)?;
        if self.random.chance(30) {
            return None;
        }
        let kinds = [Kind::Open, Kind::Through, Kind::Train, Kind::LastTrain];
        let kind = self.random.pick(&kinds);
        Some(self.departure(kind, station))
    }

    /// Deep states would be lost too often if every blind RESUME that finds
    /// the section empty were let through.
    fn may_end(&mut self) -> bool {
        self.section.present > 0 || (!self.options.worn && self.random.chance(10))
    }

    /// Mostly the name of a vehicle present.
    fn some_name(&mut self) -> (Station, u16) {
        let vehicles = self.section.vehicles();
        if !vehicles.is_empty() && self.random.chance(80) {
            let named = self.random.pick(vehicles);
            if let Some(sender) = Station::from_number(named.sender) {
                return (sender, named.form);
            }
        }
        let sender = self.random.pick(&Station::BOTH);
        let last = self.section.desk(sender).last_form;
        let form = self.random.between(1, last.max(1));
        (sender, form)
    }

    fn with_another_kind(&mut self) -> Vec<u8> {
        let mut bytes = bytes_of(&self.blind_entry());
        let other_kind = self.random.byte();
        bytes[1] = self.random.pick(&[0, 10, u8::MAX, other_kind]);
        bytes
    }

    fn with_another_map(&mut self) -> Vec<u8> {
        let bytes = bytes_of(&self.blind_entry());
        with_another_map(&mut self.random, bytes)
    }

    fn with_a_bad_field(&mut self) -> Vec<u8> {
        let entry = self.blind_entry();
        with_a_bad_field(&mut self.random, entry).unwrap_or_else(|| self.with_another_kind())
    }

    /// Sends one opener out and takes it back until few form numbers are left.
    fn wear_out_forms(&mut self, log: &mut Vec<u8>) {
        let station = self.random.pick(&Station::BOTH);
        let last = Section::LAST_FORM - self.random.between(0, 6);
        self.enter(log, &Entry::begin());
        for form in 1..=last {
            let view = self.random.small(1, 3);
            let class = self.random.small(1, 5);
            let asked = self.some_trains();
            self.enter(log, &Entry::open(station, 0, view, class, asked));
            self.enter(log, &Entry::receive(station, 0, station, form));
        }
    }

    fn enter(&mut self, log: &mut Vec<u8>, entry: &Entry) {
        let bytes = bytes_of(entry);
        let answer = step_by(self.options.edition, &mut self.section, &bytes);
        debug_assert!(answer.is_ok(), "{entry:?}: {answer:?}");
        log.extend(bytes);
    }
}

impl Maker for Generator {
    const TABLE: &'static Table = &Table::SINGLE_LINE;

    fn random(&mut self) -> &mut Random {
        &mut self.random
    }

    fn accepted_only(&self) -> bool {
        self.options.accepted
    }

    fn in_force(&self) -> bool {
        self.section.in_force
    }

    fn step(&mut self, bytes: &[u8]) {
        let _ = step_by(self.options.edition, &mut self.section, bytes);
    }

    /// An entry that the section accepts, chosen by the mood of the traffic.
    fn likely_entry(&mut self) -> Entry {
        self.change_mood();
        let mut candidates = Vec::with_capacity(2 * Kind::ALL.len());
        for kind in Kind::ALL {
            for station in Station::BOTH {
                candidates.extend(self.candidate(kind, station));
            }
        }
        candidates.retain(|(entry, _)| self.is_accepted(entry));
        pick_by_weight(&mut self.random, &candidates).unwrap_or_else(|| self.blind_entry())
    }

    fn spoiled_entry(&mut self) -> Entry {
        let entry = self.likely_entry();
        let Some(station) = Station::from_number(entry.station) else {
            return self.blind_entry();
        };
        let desk = self.desk(station);
        let mut spoiled = vec![Entry {
            station: station.other().number(),
            ..entry
        }];
        if entry.map & bit::TIME != 0 {
            for time in [
                desk.clock.saturating_sub(1),
                just_before_interval_ends(desk.clock, desk.interval),
            ] {
                spoiled.push(Entry { time, ..entry });
            }
        }
        if kind_may_grant(entry.kind) {
            // More than was asked, or a grant by a station that may owe.
            for granted in [
                (desk.asked + 1).min(Section::MOST_CLEARS),
                desk.asked.max(1),
            ] {
                spoiled.push(Entry {
                    map: entry.map | bit::GRANTED,
                    granted,
                    ..entry
                });
            }
        }
        if entry.map & bit::FORM != 0 {
            let form = neighbouring_form(&mut self.random, entry.form);
            spoiled.push(Entry { form, ..entry });
            let sender = 3 - entry.sender;
            spoiled.push(Entry { sender, ..entry });
        }
        self.random.pick(&spoiled)
    }

    /// An entry with every field in its range, at a time not long after the
    /// clock, made without regard to what the section allows.
    fn blind_entry(&mut self) -> Entry {
        if let Some(entry) = self.hurried_departure() {
            return entry;
        }
        let station = self.random.pick(&Station::BOTH);
        match self.random.pick(&Kind::ALL) {
            Kind::Begin => Entry::begin(),
            Kind::Resume if self.may_end() => Entry::resume(),
            Kind::Receive => {
                let time = self.later_than(self.desk(station).clock);
                let (sender, form) = self.some_name();
                Entry::receive(station, time, sender, form)
            }
            Kind::Meet => {
                let (sender, form) = self.some_name();
                Entry::meet(station, sender, form)
            }
            Kind::Return | Kind::Resume => {
                let time = self.departure_time(&self.desk(station));
                let asked = self.perhaps_some_trains();
                let granted = self.perhaps_some_trains();
                Entry::send_back(station, time, asked, granted)
            }
            kind @ (Kind::Train | Kind::LastTrain) => {
                let time = self.departure_time(&self.desk(station));
                let view = self.random.small(1, 3);
                let asked = self.perhaps_some_trains();
                let granted = self.perhaps_some_trains();
                train_of(kind, station, time, view, asked, granted)
            }
            kind => self.departure(kind, station),
        }
    }

    fn no_entry(&mut self) -> Vec<u8> {
        match self.random.below(6) {
            0 => vec![0],
            1 => any_bytes(&mut self.random),
            2 => self.with_another_kind(),
            3 => self.with_another_map(),
            _ => self.with_a_bad_field(),
        }
    }
}

/// A TRAIN or a LAST TRAIN, by its kind.
fn train_of(kind: Kind, station: Station, time: u16, view: u8, asked: u8, granted: u8) -> Entry {
    match kind {
        Kind::LastTrain => Entry::last_train(station, time, view, asked, granted),
        _ => Entry::train(station, time, view, asked, granted),
    }
}

/// Whether the map of the kind with this number may have granted.
fn kind_may_grant(number: u8) -> bool {
    Kind::from_number(number).is_some_and(|kind| Table::SINGLE_LINE.may(kind) & bit::GRANTED != 0)
}

/// The bytes of an entry; of one that may not be written, none.
pub(crate) fn bytes_of(entry: &Entry) -> Vec<u8> {
    bytes_by(&Table::SINGLE_LINE, entry)
}

/// Any well-made section, whether or not a log leads to it.
#[must_use]
pub fn any_section(random: &mut Random) -> Section {
    let mut section = Section {
        refused: any_counts(random),
        ..Section::fresh()
    };
    if random.chance(10) {
        return section;
    }
    section.in_force = true;
    for station in Station::BOTH {
        let present = any_number_of_vehicles(random);
        *section.desk_mut(station) = any_desk(random, present);
        for form in any_forms(random, section.desk(station).last_form, present) {
            section.put_in(station, any_vehicle(random, station, form));
        }
    }
    section
}

/// Each by itself, so that one is often at its largest value and another not.
pub(crate) fn any_counts(random: &mut Random) -> Refused {
    let mut count = || random.pick(&[0, 1, u32::MAX - 1, u32::MAX]);
    Refused {
        for_a: count(),
        for_b: count(),
        of_none: count(),
    }
}

fn any_number_of_vehicles(random: &mut Random) -> u8 {
    match random.below(10) {
        0..=2 => 0,
        3..=7 => random.small(1, 3),
        8 => random.small(1, Section::MOST_SENT),
        _ => Section::MOST_SENT,
    }
}

fn any_desk(random: &mut Random, present: u8) -> Desk {
    let least_forms = u16::from(present);
    let clock = random.between(0, u16::MAX);
    let clock = random.pick(&[0, 40, clock, u16::MAX]);
    Desk {
        clock,
        last_form: match random.below(4) {
            0 => least_forms,
            1 => Section::LAST_FORM - random.between(0, 1),
            _ => random.between(least_forms, Section::LAST_FORM),
        },
        sent: match random.below(4) {
            0 | 1 => present,
            2 => random.small(present, Section::MOST_SENT),
            _ => Section::MOST_SENT,
        },
        interval: random
            .chance(50)
            .then(|| clock - random.between(0, clock.min(60))),
        out: random.chance(30),
        guest: if random.chance(50) {
            0
        } else {
            random.small(1, Section::MOST_CLASSES)
        },
        asked: any_figure(random),
        holds: any_figure(random),
        owes: any_figure(random),
        waiting: any_figure(random),
    }
}

/// 0 half the time, so that the tests behind it are reached as well.
fn any_figure(random: &mut Random) -> u8 {
    if random.chance(50) {
        0
    } else {
        random.small(1, Section::MOST_CLEARS)
    }
}

/// Different form numbers, in no order.
fn any_forms(random: &mut Random, last: u16, wanted: u8) -> Vec<u16> {
    let mut forms = Vec::new();
    while forms.len() < usize::from(wanted) {
        let form = random.between(1, last);
        if !forms.contains(&form) {
            forms.push(form);
        }
    }
    forms
}

fn any_vehicle(random: &mut Random, sender: Station, form: u16) -> Vehicle {
    let kind = random.pick(&[
        Kind::Open,
        Kind::Open,
        Kind::Through,
        Kind::Through,
        Kind::Return,
        Kind::Train,
        Kind::LastTrain,
    ]);
    let met = matches!(kind, Kind::Open | Kind::Through) && random.chance(40);
    let (asked, granted) = match kind {
        Kind::Open => (random.small(1, Section::MOST_CLEARS), 0),
        Kind::Through => (0, 0),
        _ => (any_figure(random), any_figure(random)),
    };
    Vehicle {
        left_on: Some(kind),
        sender: sender.number(),
        form,
        heading: if met {
            random.pick(&Station::BOTH).number()
        } else {
            sender.other().number()
        },
        met,
        class: match kind {
            Kind::Open | Kind::Return => random.small(1, Section::MOST_CLASSES),
            Kind::Through => 1,
            _ => 0,
        },
        asked,
        granted,
        given_up: match kind {
            Kind::LastTrain => random.small(0, Section::MOST_GIVEN_UP),
            _ => 0,
        },
    }
}

#[cfg(test)]
mod tests {
    use super::*;
    use crate::log::Run;

    #[test]
    fn the_same_arguments_give_the_same_log() {
        let options = Options::default();
        assert_eq!(log(3, 200, options), log(3, 200, options));
        assert_ne!(log(3, 200, options), log(4, 200, options));
    }

    #[test]
    fn a_log_has_the_entries_wished_for() {
        for seed in 0..20 {
            for entries in [0, 1, 77] {
                let log = log(seed, entries, Options::default());
                assert_eq!(Run::new(&log).count(), entries, "seed {seed}");
            }
        }
    }

    #[test]
    fn an_accepted_log_has_no_refusal() {
        let none = Refused::default();
        for seed in 0..10 {
            for full in [false, true] {
                let options = Options {
                    accepted: true,
                    full,
                    ..Options::default()
                };
                let long = log(seed, 500, options);
                assert_eq!(Run::new(&long).finish().refused, none, "seed {seed}");
                let short = Options {
                    bytes: Some(1_001),
                    ..options
                };
                let short = log(seed, 500, short);
                assert!((990..=1_001).contains(&short.len()), "{}", short.len());
                assert!(long.starts_with(&short));
                assert_eq!(Run::new(&short).finish().refused, none, "seed {seed}");
            }
        }
    }

    #[test]
    fn a_log_ends_just_at_the_bytes_wished_for() {
        for bytes in [0, 1, 100, 1_001] {
            let options = Options {
                bytes: Some(bytes),
                ..Options::default()
            };
            assert_eq!(log(5, bytes, options).len(), bytes);
        }
    }

    #[test]
    fn any_section_is_well_made() {
        let mut random = Random::new(1);
        let mut fullest = 0;
        for _ in 0..2_000 {
            let section = any_section(&mut random);
            assert!(section.is_well_made(), "{section:?}");
            fullest = fullest.max(section.present);
        }
        assert_eq!(fullest, Section::MOST_VEHICLES);
    }

    #[test]
    fn the_generator_keeps_the_section_of_its_own_log() {
        let mut generator = Generator::new(11, Options::default());
        let mut log = Vec::new();
        for _ in 0..300 {
            log.extend(generator.next_entry());
        }
        assert_eq!(&Run::new(&log).finish(), generator.section());
    }
}
