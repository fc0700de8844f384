//! Long walks that hold the claims about lists of steps against themselves.
//!
//! A list starts from the fresh section, and each step gets the section that
//! the step before it left. Seven claims are tested:
//!
//! * two vehicles heading towards one another both left on T/B 602 at 15 km/h
//!   or less, at the end of every list;
//! * in force, the line clears owed by a station are those the other holds, those
//!   waiting there, the other's trains in the section, the line clears given up
//!   with these, and the line clears on the way to the other;
//! * each refused step is counted once, for its station or as of none;
//! * two neighbours that are accepted, of different stations, no MEET, the
//!   second not receiving what the first sent, may change places: every answer
//!   and every figure of the last section, the three counts among them, stay;
//! * as long as document 01's own step has refused none of a list, every answer
//!   and every section is as that step gives it, with no line clear waiting and
//!   none given up, but that an answer with a caution order has two figures where
//!   that step gives one;
//! * every answer and every section is as the step before T-08 gives it, but that a
//!   RETURN which that step answers 11 is answered 14;
//! * where it is, no guest stands at that desk, by either step; and a desk with a
//!   guest holds nothing, owes nothing and has nothing waiting, by either.
//!
//! What a vehicle left on, and so whether it is a train, is looked up in the list
//! of entries and answers and not in the vehicle's own record. Every state of a walk
//! is the end of a list, so the first three claims are tested after every step, and
//! the last three for every step once its list is made.

use std::fmt;

use crate::edition::Edition;
use crate::entry::{Entry, Kind, Table};
use crate::generator::{Generator, Options};
use crate::random::Random;
use crate::refusal::Refusal;
use crate::section::{Desk, Refused, Section, Station, Vehicle};
use crate::step::{form, refused_for, step_by, Accepted, Answer, Speed};
use crate::working::Working;

/// The longest list of a walk. Each swap reruns what is left of its list, so
/// the time for a list grows with the square of its length.
const LONGEST_LIST: u16 = 400;

/// A way to step a section in its owner's memory.
pub trait Stepper<S = Section>: Fn(&mut S, &[u8]) -> Answer {}

impl<S, T: Fn(&mut S, &[u8]) -> Answer> Stepper<S> for T {}

/// One step of a list: what it was handed and what it answered.
#[derive(Clone, Debug)]
pub struct Step {
    bytes: Vec<u8>,
    entry: Option<Entry>,
    answer: Answer,
}

impl Step {
    /// Records a step on the single line.
    #[must_use]
    pub fn new(bytes: Vec<u8>, answer: Answer) -> Step {
        Step::by(&Table::SINGLE_LINE, bytes, answer)
    }

    /// Records a step whose bytes are read by this table.
    #[must_use]
    pub fn by(table: &Table, bytes: Vec<u8>, answer: Answer) -> Step {
        let entry = table.decode(&bytes).ok();
        Step {
            bytes,
            entry,
            answer,
        }
    }

    /// The entry, its kind and its answer, where it was accepted.
    pub(crate) fn accepted(&self) -> Option<(Kind, &Entry, &Accepted)> {
        let entry = self.entry.as_ref()?;
        let kind = Kind::from_number(entry.kind)?;
        Some((kind, entry, self.answer.as_ref().ok()?))
    }

    /// Whether it was handed a RETURN, accepted or refused.
    fn is_return(&self) -> bool {
        let kind = self.entry.as_ref().map(|entry| entry.kind);
        kind == Some(Kind::Return.number())
    }

    /// The desk of its station, if it was handed an entry of one.
    fn desk_in<'a>(&self, section: &'a Section) -> Option<&'a Desk> {
        let station = Station::from_number(self.entry.as_ref()?.station)?;
        Some(section.desk(station))
    }

    /// Whether a train endorsed as the last left with it.
    fn is_last_train(&self) -> bool {
        matches!(self.accepted(), Some((Kind::LastTrain, _, _)))
    }
}

/// A claim that did not hold, in words.
#[derive(Clone, Debug, PartialEq, Eq)]
pub struct Failure(pub String);

impl fmt::Display for Failure {
    fn fmt(&self, formatter: &mut fmt::Formatter<'_>) -> fmt::Result {
        formatter.write_str(&self.0)
    }
}

impl std::error::Error for Failure {}

/// What a walk has tried.
#[derive(Clone, Debug, Default, PartialEq, Eq)]
pub struct Tally {
    /// Lists walked.
    pub lists: u64,
    /// States tested, one after each step.
    pub states: u64,
    /// Steps that were refused.
    pub refused: u64,
    /// Pairs of vehicles heading towards one another, over all states.
    pub opposed_pairs: u64,
    /// States in which a line clear was owed.
    pub owing_states: u64,
    /// States in which line clears were waiting.
    pub waiting_states: u64,
    /// States in which line clears given up stood in the sum of those owed.
    pub given_up_states: u64,
    /// Neighbours that changed places.
    pub swaps: u64,
    /// Those of them of which one was a LAST TRAIN that left.
    pub last_train_swaps: u64,
    /// Steps run again after a swap.
    pub rerun: u64,
    /// States compared with those that document 01's own step leads to.
    pub compared_states: u64,
    /// Lists so compared to their end.
    pub compared_lists: u64,
    /// States in which a guest stood at a desk.
    pub guest_states: u64,
    /// RETURNs answered 14 that the step before T-08 answers 11.
    pub returns_once_11: u64,
    /// The most vehicles in the section at one time.
    pub most_vehicles: usize,
}

impl fmt::Display for Tally {
    fn fmt(&self, formatter: &mut fmt::Formatter<'_>) -> fmt::Result {
        write!(
            formatter,
            "lists {}, states {}, refused {}, opposed pairs {}, owing states {}, \
             waiting states {}, given up states {}, swaps {}, with a last train {}, \
             steps rerun {}, states compared with document 01 {}, lists compared whole {}, \
             guest states {}, returns once 11 and now 14 {}, most vehicles {}",
            self.lists,
            self.states,
            self.refused,
            self.opposed_pairs,
            self.owing_states,
            self.waiting_states,
            self.given_up_states,
            self.swaps,
            self.last_train_swaps,
            self.rerun,
            self.compared_states,
            self.compared_lists,
            self.guest_states,
            self.returns_once_11,
            self.most_vehicles
        )
    }
}

/// Walks so many steps with this crate's own step, in both its forms.
///
/// # Errors
///
/// The first claim that does not hold.
pub fn walk(seed: u64, steps: u64) -> Result<Tally, Failure> {
    walk_with(&step_in_both_forms, seed, steps)
}

/// Walks so many steps with any step.
///
/// # Errors
///
/// The first claim of demand 3 that does not hold; where all hold to the end, the
/// first list that is not answered as before; else the first list in which a guest
/// stands where none may, or that is not answered as before T-08.
pub fn walk_with(stepper: &impl Stepper, seed: u64, steps: u64) -> Result<Tally, Failure> {
    let mut random = Random::new(seed);
    let mut tally = Tally::default();
    let mut as_before = Ok(());
    let mut as_before_t08 = Ok(());
    while tally.states < steps {
        let length = any_length(&mut random, steps - tally.states);
        let mut generator = Generator::new(random.word(), any_options(&mut random));
        let (list, sections) = walk_list(stepper, &mut generator, length, &mut tally)?;
        swap_neighbours(stepper, &list, &sections, &mut tally)?;
        let compared = compare(&list, &sections, &mut tally);
        as_before = as_before.and(compared);
        let compared = compare_with_before_t08(&list, &sections, &mut tally);
        as_before_t08 = as_before_t08.and(compared);
        tally.lists += 1;
    }
    as_before.and(as_before_t08).map(|()| tally)
}

/// How long the next list is, where so many steps are left to walk.
pub(crate) fn any_length(random: &mut Random, left: u64) -> u16 {
    let left = u16::try_from(left).unwrap_or(u16::MAX);
    random.between(1, LONGEST_LIST).min(left)
}

fn compare(list: &[Step], sections: &[Section], tally: &mut Tally) -> Result<(), Failure> {
    let compared = check_as_before(list, sections)?;
    tally.compared_states += compared as u64;
    tally.compared_lists += u64::from(compared == list.len());
    Ok(())
}

fn compare_with_before_t08(
    list: &[Step],
    sections: &[Section],
    tally: &mut Tally,
) -> Result<(), Failure> {
    tally.guest_states += check_guests(list, sections)?;
    tally.returns_once_11 += check_as_before_t08(list, sections)?;
    Ok(())
}

/// One list in four has only entries that document 01's own step accepts, so
/// that many are compared with it to their end. In every list that has refused
/// entries many are RETURNs that the step before T-08 answers 11.
fn any_options(random: &mut Random) -> Options {
    let as_before = random.chance(25);
    Options {
        accepted: as_before || random.chance(40),
        full: random.chance(20),
        returns_while_holding: true,
        edition: if as_before {
            Edition::Document01
        } else {
            Edition::Today
        },
        ..Options::default()
    }
}

/// Both forms of the step, which have to agree.
pub(crate) fn step_in_both_forms<S: Working>(section: &mut S, bytes: &[u8]) -> Answer {
    let (answer, after) = section.step(bytes);
    let in_place = section.step_in_place(bytes);
    assert_eq!(answer, in_place, "the two forms answer differently");
    assert_eq!(&after, section, "the two forms leave different sections");
    in_place
}

/// Walks one list and tests every state of it. Gives the list and, for each
/// place, the section before it; the last section stands at the end.
fn walk_list(
    stepper: &impl Stepper,
    generator: &mut Generator,
    length: u16,
    tally: &mut Tally,
) -> Result<(Vec<Step>, Vec<Section>), Failure> {
    let mut section = Section::fresh();
    let mut list = Vec::with_capacity(length.into());
    let mut sections = vec![section.clone()];
    for _ in 0..length {
        let bytes = generator.next_step();
        let answer = stepper(&mut section, &bytes);
        tally.refused += u64::from(answer.is_err());
        list.push(Step::new(bytes, answer));
        check_state(&list, &section, tally)?;
        sections.push(section.clone());
    }
    Ok((list, sections))
}

fn check_state(list: &[Step], section: &Section, tally: &mut Tally) -> Result<(), Failure> {
    if !section.is_well_made() {
        return fail(list, section, "the section is not well made");
    }
    tally.states += 1;
    tally.most_vehicles = tally.most_vehicles.max(section.present);
    tally.opposed_pairs += check_opposed(list, section)?;
    tally.given_up_states += u64::from(check_owed(list, section)? > 0);
    check_counts(list, section)?;
    let any = |figure: fn(&Desk) -> u8| section.desks.iter().any(|desk| figure(desk) > 0);
    tally.owing_states += u64::from(any(|desk| desk.owes));
    tally.waiting_states += u64::from(any(|desk| desk.waiting));
    Ok(())
}

pub(crate) fn fail<T>(list: &[Step], section: &impl Working, claim: &str) -> Result<T, Failure> {
    let mut log = String::new();
    for step in list {
        log.extend(step.bytes.iter().map(|byte| format!("{byte:02X}")));
        log.push(' ');
    }
    Err(Failure(format!(
        "{claim}\nlist: {log}\nsection: {section:?}"
    )))
}

/// The last accepted departure of the list whose station is the vehicle's
/// sender and whose answer has the vehicle's form number.
fn departure_of<'a>(
    list: &'a [Step],
    vehicle: &Vehicle,
) -> Option<(Kind, &'a Entry, &'a Accepted)> {
    list.iter()
        .rev()
        .filter_map(Step::accepted)
        .find(|(kind, entry, accepted)| {
            kind.is_departure() && entry.station == vehicle.sender && accepted.form == vehicle.form
        })
}

/// Tests all pairs of opposed vehicles, neighbours or not, and counts them.
///
/// # Errors
///
/// A pair of which one did not leave on T/B 602 at 15 km/h or less.
pub fn check_opposed(list: &[Step], section: &Section) -> Result<u64, Failure> {
    let vehicles = section.vehicles();
    let mut pairs = 0;
    for (place, nearer_a) in vehicles.iter().enumerate() {
        if !nearer_a.heads_to(Station::B) {
            continue;
        }
        for nearer_b in &vehicles[place + 1..] {
            if !nearer_b.heads_to(Station::A) {
                continue;
            }
            pairs += 1;
            if !(left_slowly(list, nearer_a) && left_slowly(list, nearer_b)) {
                let claim = format!("opposed: {nearer_a:?} and {nearer_b:?}");
                return fail(list, section, &claim);
            }
        }
    }
    Ok(pairs)
}

/// On T/B 602 at 15 km/h or less. A speed with two figures is not of that sort,
/// however low they are: T/B 602 has one.
fn left_slowly(list: &[Step], vehicle: &Vehicle) -> bool {
    departure_of(list, vehicle).is_some_and(|(_, _, accepted)| {
        let slow = matches!(
            accepted.speed,
            Speed::Walking | Speed::Limit(10) | Speed::Limit(15)
        );
        accepted.forms & form::TB_602 != 0 && slow
    })
}

/// The line clears that a station has to owe, by where they are.
#[derive(Clone, Copy, Debug, PartialEq, Eq)]
pub struct Owed {
    /// Those that the other station holds.
    pub held: usize,
    /// Those that wait there.
    pub waiting: usize,
    /// The other station's trains in the section.
    pub trains: usize,
    /// The line clears given up that these trains carry.
    pub given_up: usize,
    /// Those on the way to the other station.
    pub on_the_way: usize,
}

impl Owed {
    /// What this station has to owe at the end of this list.
    #[must_use]
    pub fn by(station: Station, list: &[Step], section: &Section) -> Owed {
        let other = section.desk(station.other());
        let trains = trains_of(list, section, station.other());
        let granted = section.sent_by(station).map(|vehicle| vehicle.granted);
        let given_up = trains.iter().map(|train| train.given_up);
        Owed {
            held: other.holds.into(),
            waiting: other.waiting.into(),
            trains: trains.len(),
            given_up: given_up.map(usize::from).sum(),
            on_the_way: granted.map(usize::from).sum(),
        }
    }

    /// All of them together.
    #[must_use]
    pub fn sum(&self) -> usize {
        self.held + self.waiting + self.trains + self.given_up + self.on_the_way
    }
}

/// Tests the line clears owed by both stations, and gives how many of them are
/// given up.
///
/// # Errors
///
/// A station that owes more or less than the sum.
pub fn check_owed(list: &[Step], section: &Section) -> Result<usize, Failure> {
    if !section.in_force {
        return Ok(0);
    }
    let mut given_up = 0;
    for station in Station::BOTH {
        let owes = section.desk(station).owes;
        let owed = Owed::by(station, list, section);
        if usize::from(owes) != owed.sum() {
            let claim = format!("{station:?} owes {owes}: {owed:?}");
            return fail(list, section, &claim);
        }
        given_up += owed.given_up;
    }
    Ok(given_up)
}

/// Tests that every refused step of the list is counted, and where it has to be.
///
/// # Errors
///
/// A count that is more or less than the refused steps that are its own.
pub fn check_counts(list: &[Step], section: &impl Working) -> Result<(), Failure> {
    let mut refused = Refused::default();
    for step in list.iter().filter(|step| step.answer.is_err()) {
        refused.count(refused_for(step.entry.as_ref()));
    }
    let counted = section.refused();
    if counted != refused {
        let claim = format!("counted {counted:?}, refused {refused:?}");
        return fail(list, section, &claim);
    }
    Ok(())
}

/// A station's vehicles that left on TRAIN or LAST TRAIN.
fn trains_of<'a>(list: &[Step], section: &'a Section, station: Station) -> Vec<&'a Vehicle> {
    section
        .sent_by(station)
        .filter(|vehicle| departure_of(list, vehicle).is_some_and(|(kind, _, _)| kind.is_train()))
        .collect()
}

/// Compares a list with what document 01's own step makes of it, up to the first
/// step that it refuses, and counts the states compared. `sections` has the
/// section before each step, and the last one at its end.
///
/// # Errors
///
/// An answer or a section that is not as document 01's own step gives it, a
/// follower's second figure aside.
pub fn check_as_before(list: &[Step], sections: &[Section]) -> Result<usize, Failure> {
    let mut before = Section::fresh();
    for (place, (step, after)) in list.iter().zip(&sections[1..]).enumerate() {
        let Ok(accepted) = step_by(Edition::Document01, &mut before, &step.bytes) else {
            return Ok(place);
        };
        // With nothing waiting or given up in document 01's section, all figures
        // have to be the same.
        let answer = Ok(with_both_figures(accepted));
        if step.answer != answer || *after != before {
            let claim = format!("not as before: {answer:?} {before:?}");
            return fail(&list[..=place], after, &claim);
        }
    }
    Ok(list.len())
}

/// Document 01's answer as today's step has to give it: where there is a caution
/// order, its one figure is for the straight, and elsewhere it is 10.
fn with_both_figures(accepted: Accepted) -> Accepted {
    match accepted.speed {
        Speed::Limit(straight) if accepted.forms & form::T_409 != 0 => Accepted {
            speed: Speed::Two {
                straight,
                elsewhere: 10,
            },
            ..accepted
        },
        _ => accepted,
    }
}

/// Compares a list with what the step before T-08 makes of it, refused steps and cut
/// bytes among it, and counts the RETURNs that this step answers 11. `sections` has
/// the section before each step, and the last one at its end.
///
/// # Errors
///
/// An answer or a section that is not as the step before T-08 gives it, but that a
/// RETURN which it answers 11 has to be answered 14.
pub fn check_as_before_t08(list: &[Step], sections: &[Section]) -> Result<u64, Failure> {
    let mut before = Section::fresh();
    let mut returns_once_11 = 0;
    for (place, (step, after)) in list.iter().zip(&sections[1..]).enumerate() {
        let mut answer = step_by(Edition::BeforeT08, &mut before, &step.bytes);
        if step.is_return() && answer == Err(Refusal::HoldsLineClear) {
            returns_once_11 += 1;
            answer = Err(Refusal::NoGuest);
        }
        if step.answer != answer || *after != before {
            let given = step.answer;
            let claim =
                format!("{given:?} is not as by the step before T-08: {answer:?} {before:?}");
            return fail(&list[..=place], after, &claim);
        }
    }
    Ok(returns_once_11)
}

/// Tests the desks with a guest, by this list's own sections and by those that the
/// step before T-08 leads to, and counts the list's states with a guest. `sections`
/// is as in [`check_as_before_t08`].
///
/// # Errors
///
/// A desk with a guest from which a RETURN is answered 11 by the step before T-08;
/// one that holds or owes a line clear, or where one waits.
pub fn check_guests(list: &[Step], sections: &[Section]) -> Result<u64, Failure> {
    let mut before = Section::fresh();
    let mut guest_states = 0;
    for (place, (step, pair)) in list.iter().zip(sections.windows(2)).enumerate() {
        let [lent, after] = [&pair[0], &pair[1]];
        let lent_before = before.clone();
        let answer = step_by(Edition::BeforeT08, &mut before, &step.bytes);
        if step.is_return() && answer == Err(Refusal::HoldsLineClear) {
            for section in [lent, &lent_before] {
                if step.desk_in(section).is_some_and(|desk| desk.guest > 0) {
                    let claim = "a RETURN was 11 where a guest stands";
                    return fail(&list[..=place], section, claim);
                }
            }
        }
        for section in [after, &before] {
            for desk in section.desks.iter().filter(|desk| desk.guest > 0) {
                if [desk.holds, desk.owes, desk.waiting] != [0; 3] {
                    let claim = format!("a guest stands where line clears are: {desk:?}");
                    return fail(&list[..=place], section, &claim);
                }
            }
        }
        guest_states += u64::from(after.desks.iter().any(|desk| desk.guest > 0));
    }
    Ok(guest_states)
}

/// Changes the places of every two neighbours that may change them, and runs
/// what is left of the list again each time.
fn swap_neighbours(
    stepper: &impl Stepper,
    list: &[Step],
    sections: &[Section],
    tally: &mut Tally,
) -> Result<(), Failure> {
    for place in 1..list.len() {
        let (first, second) = (&list[place - 1], &list[place]);
        if may_change_places(first, second) {
            tally.swaps += 1;
            let with_last_train = first.is_last_train() || second.is_last_train();
            tally.last_train_swaps += u64::from(with_last_train);
            tally.rerun += (list.len() - place + 1) as u64;
            check_swap(stepper, list, sections, place)?;
        }
    }
    Ok(())
}

/// Whether the claim covers these two neighbours.
#[must_use]
pub fn may_change_places(first: &Step, second: &Step) -> bool {
    let (Some(first), Some(second)) = (first.accepted(), second.accepted()) else {
        return false;
    };
    let stations = [first.1.station, second.1.station];
    // BEGIN and RESUME belong to neither station.
    let both_stations = stations == [1, 2] || stations == [2, 1];
    let meeting = first.0 == Kind::Meet || second.0 == Kind::Meet;
    let receives_what_was_sent = first.0.is_departure()
        && second.0 == Kind::Receive
        && second.1.sender == first.1.station
        && second.1.form == first.2.form;
    both_stations && !meeting && !receives_what_was_sent
}

/// Runs the list with `place - 1` and `place` in the other order. Up to there
/// the list is the same, so the run starts from the section before them.
fn check_swap(
    stepper: &impl Stepper,
    list: &[Step],
    sections: &[Section],
    place: usize,
) -> Result<(), Failure> {
    let mut section = sections[place - 1].clone();
    let swapped = [&list[place], &list[place - 1]];
    for step in swapped.into_iter().chain(&list[place + 1..]) {
        if stepper(&mut section, &step.bytes) != step.answer {
            let claim = format!("steps {place} and {} swapped: an answer differs", place + 1);
            return fail(list, &section, &claim);
        }
    }
    if Some(&section) != sections.last() {
        let claim = format!(
            "steps {place} and {} swapped: the section differs",
            place + 1
        );
        return fail(list, &section, &claim);
    }
    Ok(())
}

#[cfg(test)]
mod tests {
    use super::*;
    use crate::entry::{encode, LONGEST_ENTRY};
    use crate::generator::bytes_of;
    use crate::step::step_in_place;

    fn run(entries: &[Entry]) -> (Vec<Step>, Section) {
        let mut section = Section::fresh();
        let mut list = Vec::new();
        for entry in entries {
            let mut buffer = [0; LONGEST_ENTRY];
            let length = encode(entry, &mut buffer).unwrap();
            let bytes = buffer[..length].to_vec();
            let answer = step_in_place(&mut section, &bytes);
            list.push(Step::new(bytes, answer));
        }
        (list, section)
    }

    const fn two(straight: u8, elsewhere: u8) -> Speed {
        Speed::Two {
            straight,
            elsewhere,
        }
    }

    fn opened_from_both_ends() -> Vec<Entry> {
        vec![
            Entry::begin(),
            Entry::open(Station::A, 0, 1, 1, 2),
            Entry::open(Station::B, 0, 3, 2, 2),
        ]
    }

    #[test]
    fn a_departure_is_found_in_the_list_and_not_in_the_record() {
        let (list, mut section) = run(&opened_from_both_ends());
        assert_eq!(check_opposed(&list, &section), Ok(1));
        // The record tells of a train, the list does not.
        section.places[0].left_on = Some(Kind::Train);
        assert_eq!(check_opposed(&list, &section), Ok(1));
        assert!(trains_of(&list, &section, Station::A).is_empty());
        // No departure in the list has this form number.
        section.places[0].form = 2;
        assert!(check_opposed(&list, &section).is_err());
    }

    #[test]
    fn the_last_departure_with_the_number_counts() {
        let mut entries = opened_from_both_ends();
        entries.truncate(2);
        entries.push(Entry::receive(Station::A, 0, Station::A, 1));
        entries.push(Entry::resume());
        entries.push(Entry::begin());
        entries.push(Entry::through(Station::A, 5, 2));
        let (list, section) = run(&entries);
        let (kind, entry, _) = departure_of(&list, &section.places[0]).unwrap();
        assert_eq!((kind, entry.time), (Kind::Through, 5));
    }

    #[test]
    fn a_fast_vehicle_in_an_opposed_pair_fails() {
        let (mut list, section) = run(&opened_from_both_ends());
        let answer = list[2].answer.as_mut().unwrap();
        answer.speed = Speed::Limit(25);
        assert!(check_opposed(&list, &section).is_err());
        list[2].answer.as_mut().unwrap().speed = Speed::Limit(10);
        assert_eq!(check_opposed(&list, &section), Ok(1));
        list[1].answer.as_mut().unwrap().forms = 6;
        assert!(check_opposed(&list, &section).is_err());
    }

    #[test]
    fn two_figures_are_not_15_or_less() {
        let (list, section) = run(&opened_from_both_ends());
        let holds_with = |place: usize, speed: Speed| {
            let mut list = list.clone();
            list[place].answer.as_mut().unwrap().speed = speed;
            check_opposed(&list, &section).is_ok()
        };
        for place in [1, 2] {
            for speed in [Speed::Walking, Speed::Limit(10), Speed::Limit(15)] {
                assert!(holds_with(place, speed), "{speed}");
            }
            for speed in [two(10, 10), two(15, 10), two(25, 10), two(0, 0)] {
                assert!(!holds_with(place, speed), "{speed}");
            }
        }
    }

    #[test]
    fn a_wrong_sum_of_line_clears_fails() {
        let (list, mut section) = run(&opened_from_both_ends());
        assert_eq!(check_owed(&list, &section), Ok(0));
        section.desks[0].owes = 1;
        assert!(check_owed(&list, &section).is_err());
        section.desks[1].holds = 1;
        assert_eq!(check_owed(&list, &section), Ok(0));
        // One held and one waiting are two, and two waiting as well.
        section.desks[1].waiting = 1;
        assert!(check_owed(&list, &section).is_err());
        section.desks[0].owes = 2;
        assert_eq!(check_owed(&list, &section), Ok(0));
        (section.desks[1].holds, section.desks[1].waiting) = (0, 2);
        assert_eq!(check_owed(&list, &section), Ok(0));
        (section.desks[1].holds, section.desks[1].waiting) = (1, 0);
        section.in_force = false;
        section.desks[1].holds = 0;
        assert_eq!(check_owed(&list, &section), Ok(0));
    }

    /// A holds four, and its first train is its last.
    fn three_given_up() -> Vec<Entry> {
        vec![
            Entry::begin(),
            Entry::open(Station::A, 0, 1, 1, 4),
            Entry::receive(Station::B, 0, Station::A, 1),
            Entry::send_back(Station::B, 0, 0, 4),
            Entry::receive(Station::A, 0, Station::B, 1),
            Entry::last_train(Station::A, 0, 1, 0, 0),
        ]
    }

    #[test]
    fn line_clears_given_up_stand_in_the_sum_beside_the_train() {
        let (list, mut section) = run(&three_given_up());
        let owed = Owed::by(Station::B, &list, &section);
        assert_eq!((owed.trains, owed.given_up, owed.sum()), (1, 3, 4));
        assert_eq!(check_owed(&list, &section), Ok(3));
        // Without the train, or without what it gave up, the sum would not be 4.
        assert_eq!(section.desks[1].owes, 4);
        assert_ne!(owed.sum() - owed.trains, 4);
        assert_ne!(owed.sum() - owed.given_up, 4);
        for wrong in [0, 2, 4] {
            section.places[0].given_up = wrong;
            assert!(check_owed(&list, &section).is_err());
        }
        // Those of the other direction are not looked at for this sum.
        section.places[0].given_up = 3;
        section.desks[0].owes = 3;
        assert!(check_owed(&list, &section).is_err());
    }

    #[test]
    fn a_last_train_is_a_train_by_the_list_and_not_by_its_record() {
        let (mut list, mut section) = run(&three_given_up());
        for kind in [Kind::Through, Kind::Train, Kind::Open] {
            section.places[0].left_on = Some(kind);
            assert_eq!(trains_of(&list, &section, Station::A).len(), 1);
            assert_eq!(check_owed(&list, &section), Ok(3));
        }
        // A vehicle that is no train by the list has none given up in the sum,
        // whatever its record says.
        list[5].entry = list[1].entry;
        section.places[0].left_on = Some(Kind::LastTrain);
        let owed = Owed::by(Station::B, &list, &section);
        assert_eq!((owed.trains, owed.given_up), (0, 0));
        assert!(check_owed(&list, &section).is_err());
    }

    #[test]
    fn neighbours_with_a_last_train_change_places() {
        let mut entries = three_given_up();
        entries[3] = Entry::send_back(Station::B, 0, 5, 4);
        entries.truncate(5);
        entries.extend([
            Entry::train(Station::A, 0, 1, 0, 5),
            Entry::last_train(Station::A, 30, 1, 0, 0),
            Entry::receive(Station::B, 9, Station::A, 2),
            Entry::receive(Station::B, 40, Station::A, 3),
            Entry::last_train(Station::B, 40, 1, 0, 0),
            Entry::receive(Station::A, 70, Station::B, 2),
        ]);
        let (list, sections) = run_with_sections(&entries);
        assert!(list.iter().all(|step| step.answer.is_ok()));
        let covered = |first: usize| may_change_places(&list[first], &list[first + 1]);
        // The receipt of the TRAIN and the last train that left before it.
        assert!(covered(6));
        assert!(!covered(7), "one station");
        assert!(!covered(9), "the second receives what the first sent");
        let mut tally = Tally::default();
        let stepper = |section: &mut Section, bytes: &[u8]| step_in_place(section, bytes);
        swap_neighbours(&stepper, &list, &sections, &mut tally).unwrap();
        assert_eq!((tally.swaps, tally.last_train_swaps), (1, 1));
    }

    /// The opener of A comes back with a reply for two and an enquiry for one;
    /// A's two trains leave, the reply with the first or with the last of them.
    fn two_trains(granted_by_first: u8, granted_by_last: u8) -> Vec<Entry> {
        vec![
            Entry::begin(),
            Entry::open(Station::A, 0, 1, 1, 2),
            Entry::receive(Station::B, 0, Station::A, 1),
            Entry::send_back(Station::B, 0, 1, 2),
            Entry::receive(Station::A, 0, Station::B, 1),
            Entry::train(Station::A, 0, 1, 0, granted_by_first),
            Entry::train(Station::A, 30, 1, 0, granted_by_last),
            Entry::receive(Station::B, 40, Station::A, 2),
            Entry::receive(Station::B, 70, Station::A, 3),
        ]
    }

    fn run_with_sections(entries: &[Entry]) -> (Vec<Step>, Vec<Section>) {
        let sections = (0..=entries.len()).map(|length| run(&entries[..length]).1);
        (run(entries).0, sections.collect())
    }

    #[test]
    fn a_list_is_compared_up_to_what_document_01_refuses() {
        let (list, sections) = run_with_sections(&two_trains(0, 1));
        assert_eq!(check_as_before(&list, &sections), Ok(9));
        let (list, sections) = run_with_sections(&two_trains(1, 0));
        assert!(list.iter().all(|step| step.answer.is_ok()));
        assert_eq!(check_as_before(&list, &sections), Ok(5));
        // The grant waits at B until the second train is in.
        let at_b = |place: usize| {
            let desk = sections[place].desks[1];
            [desk.holds, desk.owes, desk.waiting]
        };
        assert_eq!([at_b(8), at_b(9)], [[0, 1, 1], [1, 0, 0]]);
        // What today's step refuses as well is not compared either.
        let (list, sections) = run_with_sections(&two_trains(0, 2));
        assert_eq!(list[6].answer, Err(Refusal::GrantNotDue));
        assert_eq!(check_as_before(&list, &sections), Ok(6));
        // To document 01 kind 9 is none.
        let (list, sections) = run_with_sections(&three_given_up());
        assert_eq!(check_as_before(&list, &sections), Ok(5));
    }

    #[test]
    fn another_answer_or_another_section_than_before_fails() {
        let (list, sections) = run_with_sections(&two_trains(0, 1));
        let mut other_answer = list.clone();
        other_answer[6].answer.as_mut().unwrap().speed = Speed::Booked;
        assert!(check_as_before(&other_answer, &sections).is_err());
        other_answer[6].answer = Err(Refusal::GrantNotDue);
        assert!(check_as_before(&other_answer, &sections).is_err());
        let changes: [fn(&mut Section); 3] = [
            |section| section.desks[0].waiting = 1,
            |section| section.desks[1].clock = 0,
            |section| section.refused.of_none = 1,
        ];
        for change in changes {
            for place in [1, 9] {
                let mut sections = sections.clone();
                change(&mut sections[place]);
                let differs = sections[place] != run(&two_trains(0, 1)[..place]).1;
                assert_eq!(check_as_before(&list, &sections).is_err(), differs);
            }
        }
    }

    /// Every speed that could be meant, right or wrong.
    fn all_speeds() -> Vec<Speed> {
        let figures = [10, 15, 25];
        let limits = figures.map(Speed::Limit);
        let twos = figures.map(|straight| figures.map(|elsewhere| two(straight, elsewhere)));
        let others = [Speed::None, Speed::Walking, Speed::Booked];
        [&others, &limits, &twos.concat()[..]].concat()
    }

    /// At each place of a list one speed passes, that of today's step, and no other:
    /// two figures for the follower and for nobody else.
    #[test]
    fn one_speed_passes_at_each_place() {
        let by_view = [
            (1, Speed::Limit(15), two(25, 10)),
            (2, Speed::Limit(10), two(10, 10)),
            (3, Speed::Walking, two(10, 10)),
        ];
        for (view, opener, follower) in by_view {
            let mut entries = two_trains(0, 1);
            for place in [1, 5, 6] {
                entries[place].view = view;
            }
            let (none, booked) = (Speed::None, Speed::Booked);
            // BEGIN, the opener and its receipt, the RETURN and its receipt, the two
            // trains and their receipts.
            let right = [
                none, opener, none, booked, none, booked, follower, none, none,
            ];
            let (list, sections) = run_with_sections(&entries);
            for (place, right) in right.into_iter().enumerate() {
                for speed in all_speeds() {
                    let mut list = list.clone();
                    list[place].answer.as_mut().unwrap().speed = speed;
                    let passes = check_as_before(&list, &sections) == Ok(9);
                    assert_eq!(passes, speed == right, "{speed} at {place}, view {view}");
                }
            }
        }
    }

    /// The caution order decides which answers have two figures, and stays.
    #[test]
    fn a_follower_without_its_caution_order_fails() {
        let (list, sections) = run_with_sections(&two_trains(0, 1));
        for (forms, speed) in [
            (-64, two(25, 10)),
            (-64, Speed::Limit(25)),
            (64, two(25, 10)),
        ] {
            let mut list = list.clone();
            let answer = list[6].answer.as_mut().unwrap();
            answer.forms = answer.forms.wrapping_add_signed(forms);
            answer.speed = speed;
            assert!(check_as_before(&list, &sections).is_err(), "{forms}");
        }
    }

    /// A holds two. Its master tries to send back a guest that he has not, at once and
    /// behind his first train, with the interval running; cut bytes stand between.
    fn returns_without_a_guest() -> Vec<Vec<u8>> {
        let mut entries = two_trains(0, 1);
        entries.insert(6, Entry::send_back(Station::A, 1, 0, 0));
        entries.insert(5, Entry::send_back(Station::A, 0, 8, 8));
        let mut list: Vec<Vec<u8>> = entries.iter().map(bytes_of).collect();
        list.insert(6, vec![0x07, 4, 1]);
        list
    }

    /// The list by this edition, with its sections.
    fn run_by(edition: Edition, list: &[Vec<u8>]) -> (Vec<Step>, Vec<Section>) {
        let mut section = Section::fresh();
        let mut sections = vec![section.clone()];
        let mut steps = Vec::new();
        for bytes in list {
            let answer = step_by(edition, &mut section, bytes);
            steps.push(Step::new(bytes.clone(), answer));
            sections.push(section.clone());
        }
        (steps, sections)
    }

    #[test]
    fn a_return_once_11_is_14_and_all_else_is_as_before_t_08() {
        let number = |step: &Step| step.answer.map_or_else(Refusal::number, |_| 0);
        let bytes = returns_without_a_guest();
        let (list, sections) = run_by(Edition::Today, &bytes);
        let numbers: Vec<u8> = list.iter().map(number).collect();
        assert_eq!(numbers, [0, 0, 0, 0, 0, 14, 1, 0, 14, 0, 0, 0]);
        assert_eq!(check_as_before_t08(&list, &sections), Ok(2));
        // A's opener stands at B after the third step, and no longer after the fourth.
        assert_eq!(check_guests(&list, &sections), Ok(1));
        // By the step before T-08 it reads 11, which is wrong today; the sections are
        // the same.
        let (once, once_sections) = run_by(Edition::BeforeT08, &bytes);
        let numbers: Vec<u8> = once.iter().map(number).collect();
        assert_eq!(numbers, [0, 0, 0, 0, 0, 11, 1, 0, 11, 0, 0, 0]);
        assert_eq!(once_sections, sections);
        assert!(check_as_before_t08(&once, &sections).is_err());
        assert_eq!(check_as_before_t08(&once[..5], &sections[..6]), Ok(0));
        assert_eq!(check_guests(&once, &sections), Ok(1));
    }

    #[test]
    fn another_answer_or_another_section_than_before_t_08_fails() {
        let (list, sections) = run_by(Edition::Today, &returns_without_a_guest());
        let refusals = [Refusal::HoldsLineClear, Refusal::NoGuest, Refusal::Cut];
        let answers = refusals.map(Err).into_iter().chain([Ok(Accepted::NO_FORM)]);
        let changes: [fn(&mut Section); 4] = [
            |section| section.desks[0].holds += 1,
            |section| section.desks[1].guest += 1,
            |section| section.refused.for_a += 1,
            |section| section.refused.of_none += 1,
        ];
        for place in 0..list.len() {
            for answer in answers.clone() {
                let mut altered = list.clone();
                altered[place].answer = answer;
                let fails = check_as_before_t08(&altered, &sections).is_err();
                assert_eq!(fails, answer != list[place].answer, "{answer:?} at {place}");
            }
            for change in changes {
                let mut altered = sections.clone();
                change(&mut altered[place + 1]);
                assert!(check_as_before_t08(&list, &altered).is_err(), "{place}");
            }
        }
    }

    /// The first line of what a claim about guests says of a list with other sections.
    fn of_guests(change: impl Fn(&mut [Section])) -> Result<u64, String> {
        let (list, mut sections) = run_by(Edition::Today, &returns_without_a_guest());
        change(&mut sections);
        let first_line = |failure: Failure| failure.0.lines().next().map(str::to_owned);
        check_guests(&list, &sections).map_err(|failure| first_line(failure).unwrap())
    }

    #[test]
    fn a_guest_where_a_return_was_11_fails() {
        let with_a_guest = |place: usize, station: Station| {
            of_guests(move |sections| {
                let desk = sections[place].desk_mut(station);
                // So that it is not the other claim that fails.
                (desk.guest, desk.holds, desk.owes) = (1, 0, 0);
            })
        };
        let fails = Err("a RETURN was 11 where a guest stands".to_owned());
        // The sections before the two RETURNs.
        assert_eq!(with_a_guest(5, Station::A), fails);
        assert_eq!(with_a_guest(8, Station::A), fails);
        // At the other desk, and before a step that is no RETURN, one more state has one.
        assert_eq!(with_a_guest(5, Station::B), Ok(2));
        assert_eq!(with_a_guest(7, Station::A), Ok(2));
    }

    #[test]
    fn a_guest_where_line_clears_are_fails() {
        let changes: [fn(&mut Desk); 3] = [
            |desk| desk.holds = 1,
            |desk| desk.owes = 1,
            |desk| desk.waiting = 1,
        ];
        for change in changes {
            // The guest stands at B after the third step.
            let failure = of_guests(|sections| change(&mut sections[3].desks[1]));
            let failure = failure.unwrap_err();
            assert!(failure.starts_with("a guest stands where line clears are"));
            assert_eq!(
                of_guests(|sections| change(&mut sections[3].desks[0])),
                Ok(1)
            );
            assert_eq!(
                of_guests(|sections| change(&mut sections[2].desks[1])),
                Ok(1)
            );
        }
        // B holds one and A owes it at the end.
        for station in [0, 1] {
            assert!(of_guests(|sections| sections[12].desks[station].guest = 5).is_err());
        }
    }

    #[test]
    fn a_wrong_count_fails() {
        let (list, section) = run(&[
            Entry::train(Station::B, 0, 1, 0, 0),
            Entry::begin(),
            Entry::meet(Station::A, Station::A, 1),
        ]);
        assert_eq!(check_counts(&list, &section), Ok(()));
        let wrong: [fn(&mut Refused); 3] = [
            |refused| refused.for_a = 1,
            |refused| refused.for_b = 0,
            |refused| std::mem::swap(&mut refused.for_a, &mut refused.of_none),
        ];
        for change in wrong {
            let mut section = section.clone();
            change(&mut section.refused);
            assert!(check_counts(&list, &section).is_err());
        }
    }

    #[test]
    fn the_claim_about_places_covers_the_right_neighbours() {
        let mut entries = opened_from_both_ends();
        entries.push(Entry::meet(Station::B, Station::A, 1));
        entries.push(Entry::receive(Station::B, 9, Station::B, 1));
        entries.push(Entry::receive(Station::A, 9, Station::A, 1));
        let (list, _) = run(&entries);
        let covered = |first: usize| may_change_places(&list[first], &list[first + 1]);
        assert!(!covered(0), "BEGIN belongs to neither station");
        assert!(covered(1));
        assert!(!covered(2), "a MEET");
        assert!(!covered(3), "a MEET");
        assert_eq!(list[5].answer, Err(Refusal::MayNotEnter));
        assert!(!covered(4), "the second is refused");
    }

    #[test]
    fn a_receipt_of_what_was_sent_just_before_keeps_its_place() {
        let (list, _) = run(&[
            Entry::begin(),
            Entry::through(Station::A, 0, 1),
            Entry::receive(Station::B, 9, Station::A, 1),
            Entry::through(Station::A, 30, 1),
            Entry::through(Station::A, 60, 1),
            Entry::receive(Station::B, 40, Station::A, 2),
        ]);
        assert!(list.iter().all(|step| step.answer.is_ok()));
        assert!(!may_change_places(&list[1], &list[2]));
        assert!(may_change_places(&list[2], &list[3]));
        assert!(!may_change_places(&list[3], &list[4]), "one station");
        assert!(may_change_places(&list[4], &list[5]));
    }
}
