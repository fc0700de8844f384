//! Long walks that hold the claim about lists of steps on a double line against
//! themselves.
//!
//! A list starts from the fresh section, and each step gets the section that the
//! step before it left. At the end of every list, since its last accepted BEGIN: a
//! station's accepted receipts name the other's first accepted departures, in
//! order, and the other's line holds the rest. What left and what arrived is taken
//! from the list of entries and answers and not from the section. That neighbours
//! may change places is not claimed here.
//!
//! Every state of a walk is the end of a list, so the claim is tested after every
//! step; with it, that the section is well made, that each refused step is counted
//! once and where it has to be, and alters nothing else.

use std::fmt;

use crate::entry::{Kind, Table};
use crate::random::Random;
use crate::section::Station;
use crate::walk::{any_length, check_counts, fail, step_in_both_forms, Failure, Step, Stepper};

use super::generator::{no_more_departures, Generator, Options};
use super::section::{Desk, Section};

/// What a walk has tried.
#[derive(Clone, Debug, Default, PartialEq, Eq)]
pub struct Tally {
    /// Lists walked.
    pub lists: u64,
    /// States tested, one after each step.
    pub states: u64,
    /// Steps that were refused.
    pub refused: u64,
    /// Workings begun.
    pub begun: u64,
    /// Departures accepted.
    pub departures: u64,
    /// Receipts accepted.
    pub receipts: u64,
    /// States in which both lines were occupied.
    pub both_occupied: u64,
    /// States in which a line was full.
    pub full_line: u64,
    /// States in which a station's clock left no minute for another departure.
    pub clock_at_its_end: u64,
}

impl fmt::Display for Tally {
    fn fmt(&self, formatter: &mut fmt::Formatter<'_>) -> fmt::Result {
        write!(
            formatter,
            "lists {}, states {}, refused {}, workings begun {}, departures {}, receipts {}, \
             states with both lines occupied {}, with a full line {}, with a clock at its end {}",
            self.lists,
            self.states,
            self.refused,
            self.begun,
            self.departures,
            self.receipts,
            self.both_occupied,
            self.full_line,
            self.clock_at_its_end
        )
    }
}

impl Tally {
    fn count(&mut self, step: &Step, section: &Section) {
        self.states += 1;
        match step.accepted() {
            Some((Kind::Begin, _, _)) => self.begun += 1,
            Some((Kind::Train, _, _)) => self.departures += 1,
            Some((Kind::Receive, _, _)) => self.receipts += 1,
            Some(_) => {}
            None => self.refused += 1,
        }
        let desks = &section.desks;
        let full = |desk: &Desk| desk.line().len() == Section::MOST_ON_LINE;
        self.both_occupied += u64::from(desks.iter().all(|desk| desk.present > 0));
        self.full_line += u64::from(desks.iter().any(full));
        self.clock_at_its_end += u64::from(desks.iter().any(no_more_departures));
    }
}

/// Walks so many steps with this crate's own step, in both its forms.
///
/// # Errors
///
/// The first claim that does not hold.
pub fn walk(seed: u64, steps: u64) -> Result<Tally, Failure> {
    walk_with(&step_in_both_forms, seed, steps)
}

/// Walks so many steps with any step.
///
/// # Errors
///
/// The first claim that does not hold.
pub fn walk_with(stepper: &impl Stepper<Section>, seed: u64, steps: u64) -> Result<Tally, Failure> {
    let mut random = Random::new(seed);
    let mut tally = Tally::default();
    while tally.states < steps {
        let length = any_length(&mut random, steps - tally.states);
        let options = Options {
            accepted: random.chance(30),
            full: random.chance(20),
            bytes: None,
        };
        let mut generator = Generator::new(random.word(), options);
        walk_list(stepper, &mut generator, length, &mut tally)?;
        tally.lists += 1;
    }
    Ok(tally)
}

/// Walks one list and tests every state of it.
fn walk_list(
    stepper: &impl Stepper<Section>,
    generator: &mut Generator,
    length: u16,
    tally: &mut Tally,
) -> Result<(), Failure> {
    let mut section = Section::fresh();
    let mut list = Vec::with_capacity(length.into());
    for _ in 0..length {
        let before = section.clone();
        let bytes = generator.next_step();
        let answer = stepper(&mut section, &bytes);
        let step = Step::by(&Table::DOUBLE_LINE, bytes, answer);
        tally.count(&step, &section);
        list.push(step);
        check_state(&list, &before, &section)?;
    }
    Ok(())
}

fn check_state(list: &[Step], before: &Section, section: &Section) -> Result<(), Failure> {
    if !section.is_well_made() {
        return fail(list, section, "the section is not well made");
    }
    let refused = list.last().is_some_and(|step| step.accepted().is_none());
    let altered = section.in_force != before.in_force || section.desks != before.desks;
    if refused && altered {
        return fail(
            list,
            section,
            "a refused step has altered more than a count",
        );
    }
    check_counts(list, section)?;
    check_lines(list, section)
}

/// Tests at the end of a list, for both stations, that the other's departures
/// since the last accepted BEGIN are those that the station's receipts since then
/// name, in order, and behind them those on the other's line.
///
/// # Errors
///
/// A line that is not what the list says.
pub fn check_lines(list: &[Step], section: &Section) -> Result<(), Failure> {
    let since = since_the_last_begin(list);
    for station in Station::BOTH {
        let sender = station.other();
        let on_the_line = section.desk(sender).line().iter();
        let departures = departures_from(since, sender);
        let arrivals =
            names_received(since, station).chain(on_the_line.map(|&form| (sender.number(), form)));
        if !departures.eq(arrivals) {
            let claim = format!("the line to {station:?} is not what the list says");
            return fail(list, section, &claim);
        }
    }
    Ok(())
}

/// What stands behind the last accepted BEGIN; all where there is none.
fn since_the_last_begin(list: &[Step]) -> &[Step] {
    let begun = |step: &Step| matches!(step.accepted(), Some((Kind::Begin, _, _)));
    let start = list.iter().rposition(begun).map_or(0, |place| place + 1);
    &list[start..]
}

/// Sender and form number of each departure from this station, by its answer.
fn departures_from(list: &[Step], station: Station) -> impl Iterator<Item = (u8, u16)> + '_ {
    list.iter().filter_map(move |step| match step.accepted()? {
        (Kind::Train, entry, accepted) if entry.station == station.number() => {
            Some((station.number(), accepted.form))
        }
        _ => None,
    })
}

/// Sender and form number that each receipt at this station names.
fn names_received(list: &[Step], station: Station) -> impl Iterator<Item = (u8, u16)> + '_ {
    list.iter().filter_map(move |step| match step.accepted()? {
        (Kind::Receive, entry, _) if entry.station == station.number() => {
            Some((entry.sender, entry.form))
        }
        _ => None,
    })
}
