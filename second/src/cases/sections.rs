//! Sections given figure by figure, and bytes handed to the step with them.

use std::collections::BTreeMap;

use super::counts::{self, DISTINCT};
use super::{given_up, guests, named, runs, waiting, Case, LONGEST, NO_ENTRIES};
use crate::edition::Edition;
use crate::entry::{decode, Entry, Kind};
use crate::generator::{any_section, bytes_of, Generator, Options};
use crate::random::Random;
use crate::refusal::Refusal;
use crate::section::Station::{A, B};
use crate::section::{Desk, Refused, Section, Station, Vehicle};
use crate::step::step_by;

/// A section and the bytes handed to the step with it.
pub(super) type Handed = (Section, Vec<u8>);

/// What makes a vehicle ill made.
type Alteration = fn(&mut Vehicle);

/// The kinds of departure, by which a vehicle can have left.
const DEPARTURES: [Kind; 5] = [
    Kind::Open,
    Kind::Through,
    Kind::Return,
    Kind::Train,
    Kind::LastTrain,
];

const ALL_AT_THEIR_LARGEST: Refused = Refused {
    for_a: u32::MAX,
    for_b: u32::MAX,
    of_none: u32::MAX,
};

/// Every figure of a desk at its largest.
pub(super) const LARGEST_DESK: Desk = Desk {
    clock: u16::MAX,
    last_form: Section::LAST_FORM,
    sent: Section::MOST_SENT,
    interval: Some(u16::MAX),
    out: true,
    guest: 5,
    asked: 8,
    holds: 8,
    owes: 8,
    waiting: 8,
};

pub(super) fn cases() -> Vec<Case> {
    let mut handed = ill_made();
    handed.extend(ill_made_before_all_else());
    handed.extend(crammed_cases());
    handed.extend(desks_at_their_limits());
    handed.extend(receipts());
    handed.extend(named::at_both(waiting::named_at));
    handed.extend(booked_by_night());
    handed.extend(named::at_both(given_up::named_at));
    handed.extend(meetings());
    handed.extend(counts::handed());
    handed.extend(edges());
    handed.extend(strewn());
    handed.extend(runs::handed());
    handed.extend(named::at_both(guests::named_at));
    let case = |(section, bytes)| Case::Step {
        section: Box::new(section),
        bytes,
    };
    handed.into_iter().map(case).collect()
}

pub(super) fn hand(section: Section, entry: &Entry) -> Handed {
    (section, bytes_of(entry))
}

/// An unmet vehicle on its way, with figures that fit what it left on.
pub(super) fn vehicle(kind: Kind, sender: Station, form: u16) -> Vehicle {
    Vehicle {
        left_on: Some(kind),
        sender: sender.number(),
        form,
        heading: sender.other().number(),
        met: false,
        class: match kind {
            Kind::Through => 1,
            Kind::Train | Kind::LastTrain => 0,
            _ => 3,
        },
        asked: if kind == Kind::Open { 4 } else { 0 },
        granted: 0,
        given_up: if kind == Kind::LastTrain { 2 } else { 0 },
    }
}

/// A vehicle that has met another and heads to `heading`.
fn turned(kind: Kind, sender: Station, form: u16, heading: Station) -> Vehicle {
    Vehicle {
        heading: heading.number(),
        met: true,
        ..vehicle(kind, sender, form)
    }
}

/// The section in force with nothing else in it.
pub(super) fn begun() -> Section {
    Section {
        in_force: true,
        ..Section::fresh()
    }
}

pub(super) fn put_vehicles(section: &mut Section, vehicles: &[Vehicle]) {
    section.places[..vehicles.len()].copy_from_slice(vehicles);
    section.present = vehicles.len();
}

/// A section in the middle of its work: a vehicle of each kind from either
/// station, and desks with no figure at its least or largest. It is well made
/// and accepts [`working_meeting`], [`working_receipt`] and [`working_train`].
pub(super) fn working() -> Section {
    let mut section = begun();
    let vehicles = [
        vehicle(Kind::Open, A, 7),
        vehicle(Kind::Return, A, 5),
        vehicle(Kind::Train, A, 3),
        vehicle(Kind::LastTrain, A, 2),
        vehicle(Kind::Through, A, 9),
        vehicle(Kind::Open, B, 9),
        vehicle(Kind::LastTrain, B, 2),
        vehicle(Kind::Train, B, 4),
        vehicle(Kind::Return, B, 6),
        vehicle(Kind::Through, B, 8),
    ];
    put_vehicles(&mut section, &vehicles);
    section.refused = DISTINCT;
    section.desks = [Desk {
        clock: 500,
        last_form: 40,
        sent: 6,
        interval: Some(480),
        out: true,
        guest: 3,
        asked: 4,
        holds: 5,
        owes: 2,
        waiting: 6,
    }; 2];
    section
}

pub(super) fn working_meeting() -> Entry {
    Entry::meet(A, A, 9)
}

pub(super) fn working_receipt(station: Station) -> Entry {
    let form = match station {
        A => 7,
        B => 8,
    };
    Entry::receive(station, 500, station, form)
}

pub(super) fn working_train(station: Station) -> Entry {
    Entry::train(station, 510, 1, 0, 0)
}

pub(super) fn with_desk(station: Station, change: impl Fn(&mut Desk)) -> Section {
    let mut section = working();
    change(section.desk_mut(station));
    section
}

fn with_vehicle(kind: Kind, sender: Station, change: impl Fn(&mut Vehicle)) -> Section {
    let mut section = working();
    section
        .places
        .iter_mut()
        .filter(|vehicle| vehicle.left_on == Some(kind) && vehicle.is_from(sender))
        .for_each(change);
    section
}

/// Ill-made sections, one at least for each clause and each end of each range,
/// each handed an entry that would be accepted if 5 were not tested.
fn ill_made() -> Vec<Handed> {
    let mut handed = Vec::new();
    for station in Station::BOTH {
        handed.extend(ill_made_desks(station));
        handed.extend(ill_made_vehicles(station));
        handed.extend(uncounted_vehicles(station));
    }
    handed.extend(ill_made_records());
    handed.extend(ill_made_order());
    handed.extend(ill_made_places());
    handed.extend(not_in_force());
    handed
}

fn ill_made_desks(station: Station) -> Vec<Handed> {
    let alterations: [fn(&mut Desk); 13] = [
        |desk| desk.last_form = 10_000,
        |desk| desk.sent = 13,
        |desk| desk.sent = u8::MAX,
        |desk| desk.guest = 6,
        |desk| desk.asked = 9,
        |desk| desk.holds = 9,
        |desk| desk.owes = 9,
        |desk| desk.owes = u8::MAX,
        |desk| desk.waiting = 9,
        |desk| desk.waiting = u8::MAX,
        |desk| desk.interval = Some(501),
        |desk| desk.interval = Some(u16::MAX),
        // The other desk's clock is later, which is never compared.
        |desk| (desk.clock, desk.interval) = (0, Some(1)),
    ];
    let entries = [
        working_receipt(station),
        working_meeting(),
        working_receipt(station.other()),
    ];
    alterations
        .iter()
        .zip(entries.iter().cycle())
        .map(|(alteration, entry)| hand(with_desk(station, alteration), entry))
        .collect()
}

/// Fewer departures counted than vehicles present.
fn uncounted_vehicles(station: Station) -> Vec<Handed> {
    let mut thirteen = begun();
    let vehicles: Vec<Vehicle> = (1..=13)
        .map(|form| vehicle(Kind::Through, station, form))
        .collect();
    put_vehicles(&mut thirteen, &vehicles);
    for desk in &mut thirteen.desks {
        (desk.sent, desk.last_form) = (12, 13);
    }
    let oldest = Entry::receive(
        station.other(),
        0,
        station,
        if station == A { 13 } else { 1 },
    );
    vec![
        hand(
            with_desk(station, |desk| desk.sent = 4),
            &working_receipt(station),
        ),
        hand(with_desk(station, |desk| desk.sent = 0), &working_meeting()),
        hand(thirteen, &oldest),
    ]
}

/// The clauses of a vehicle that look at its sender. A train of its sender
/// leaves, which does not look at the vehicles on the line.
fn ill_made_vehicles(sender: Station) -> Vec<Handed> {
    let mut handed = Vec::new();
    let mut alter = |kind: Kind, change: &dyn Fn(&mut Vehicle)| {
        let section = with_vehicle(kind, sender, change);
        handed.push(hand(section, &working_train(sender)));
    };
    let home = sender.number();
    // Sender and heading in their ranges.
    alter(Kind::Open, &|vehicle| vehicle.sender = 0);
    alter(Kind::Train, &|vehicle| vehicle.sender = 3);
    alter(Kind::Return, &|vehicle| vehicle.heading = 0);
    alter(Kind::Through, &|vehicle| vehicle.heading = 3);
    for heading in [0, 3] {
        alter(Kind::Open, &|vehicle| {
            (vehicle.heading, vehicle.met) = (heading, true);
        });
    }
    // Unmet vehicles head away from their sender.
    for kind in DEPARTURES {
        alter(kind, &|vehicle| vehicle.heading = home);
    }
    // Form numbers from 1 to the desk's last, which is 40.
    alter(Kind::Open, &|vehicle| vehicle.form = 0);
    alter(Kind::Through, &|vehicle| vehicle.form = 41);
    // The same number as the nearest, the farthest and a neighbour.
    let [nearest, farthest, neighbour] = match sender {
        A => [7, 9, 5],
        B => [8, 9, 6],
    };
    alter(Kind::Train, &|vehicle| vehicle.form = nearest);
    alter(Kind::Return, &|vehicle| vehicle.form = farthest);
    alter(Kind::Train, &|vehicle| vehicle.form = neighbour);
    handed
}

/// The clauses of a vehicle that look at what it left on, by turns for a vehicle
/// of A and one of B.
fn ill_made_records() -> Vec<Handed> {
    let alterations: [(Kind, Alteration); 20] = [
        (Kind::Return, |vehicle| vehicle.met = true),
        (Kind::Train, |vehicle| vehicle.met = true),
        // The same for the other sender, and with the heading turned.
        (Kind::Train, |vehicle| vehicle.met = true),
        (Kind::Return, |vehicle| vehicle.met = true),
        (Kind::Return, |vehicle| {
            (vehicle.heading, vehicle.met) = (1, true)
        }),
        (Kind::Train, |vehicle| {
            (vehicle.heading, vehicle.met) = (2, true)
        }),
        (Kind::Open, |vehicle| vehicle.class = 0),
        (Kind::Open, |vehicle| vehicle.class = 6),
        (Kind::Return, |vehicle| vehicle.class = 0),
        (Kind::Return, |vehicle| vehicle.class = 6),
        (Kind::Through, |vehicle| vehicle.class = 0),
        (Kind::Through, |vehicle| vehicle.class = 2),
        (Kind::Train, |vehicle| vehicle.class = 1),
        (Kind::Train, |vehicle| vehicle.class = u8::MAX),
        (Kind::Open, |vehicle| vehicle.asked = 0),
        (Kind::Open, |vehicle| vehicle.asked = 9),
        (Kind::Return, |vehicle| vehicle.asked = 9),
        (Kind::Return, |vehicle| vehicle.granted = 9),
        (Kind::Train, |vehicle| vehicle.asked = 9),
        (Kind::Train, |vehicle| vehicle.granted = 9),
    ];
    alterations
        .iter()
        .zip(Station::BOTH.into_iter().cycle())
        .map(|((kind, change), sender)| {
            let section = with_vehicle(*kind, sender, change);
            hand(section, &working_train(sender.other()))
        })
        .collect()
}

/// A vehicle of B stands nearer A than one of A.
fn ill_made_order() -> Vec<Handed> {
    let through = |sender, form| vehicle(Kind::Through, sender, form);
    let lines = [
        vec![through(B, 1), through(A, 1)],
        vec![through(A, 2), through(B, 1), through(A, 1)],
        vec![through(B, 1), through(A, 1), through(B, 2)],
    ];
    lines
        .map(|line| {
            let mut section = begun();
            put_vehicles(&mut section, &line);
            for desk in &mut section.desks {
                (desk.sent, desk.last_form) = (2, 2);
            }
            let nearest = line[0];
            let sender = if nearest.is_from(A) { A } else { B };
            hand(section, &Entry::receive(A, 0, sender, nearest.form))
        })
        .into()
}

/// The number of vehicles present, and unused places that are not zero.
fn ill_made_places() -> Vec<Handed> {
    let mut sections = Vec::new();
    // Too many, with every place used. The pair in the middle may meet.
    let mut handed: Vec<Handed> = [25, 255]
        .map(|present| {
            hand(
                Section {
                    present,
                    ..crammed()
                },
                &crammed_meeting(),
            )
        })
        .into();
    // Fewer than there are.
    sections.push(Section {
        present: 9,
        ..working()
    });
    sections.push(Section {
        present: 6,
        ..working()
    });
    // Behind the last vehicle, and in the last place.
    let unused = |left_on, change: fn(&mut Vehicle)| {
        let mut place = Vehicle {
            left_on: Some(left_on),
            ..Vehicle::default()
        };
        change(&mut place);
        place
    };
    let strays = [
        unused(Kind::Open, |place| place.asked = 1),
        unused(Kind::Open, |place| place.sender = 1),
        unused(Kind::Open, |place| place.form = 1),
        unused(Kind::Open, |place| place.heading = 2),
        unused(Kind::Open, |place| place.met = true),
        unused(Kind::Open, |place| place.class = 1),
        unused(Kind::Through, |_| {}),
        unused(Kind::Return, |_| {}),
        unused(Kind::Train, |_| {}),
        unused(Kind::Train, |place| place.granted = 1),
        unused(Kind::LastTrain, |_| {}),
        unused(Kind::LastTrain, |place| place.given_up = 1),
        vehicle(Kind::Through, B, 10),
    ];
    for (number, stray) in strays.into_iter().enumerate() {
        let place = if number % 2 == 0 { 10 } else { 23 };
        let mut section = working();
        section.places[place] = stray;
        sections.push(section);
    }
    let entries = [
        working_meeting(),
        working_train(A),
        working_receipt(A),
        working_train(B),
    ];
    let with_entry = sections.into_iter().zip(entries.iter().cycle());
    handed.extend(with_entry.map(|(section, entry)| hand(section, entry)));
    handed
}

/// Not in force, yet something beside the counts is not as fresh. BEGIN would
/// wipe it out.
fn not_in_force() -> Vec<Handed> {
    let mut sections = Vec::new();
    let alterations: [fn(&mut Desk); 10] = [
        |desk| desk.clock = 1,
        |desk| desk.last_form = 1,
        |desk| desk.sent = 1,
        |desk| desk.interval = Some(0),
        |desk| desk.out = true,
        |desk| desk.guest = 1,
        |desk| desk.asked = 1,
        |desk| desk.holds = 1,
        |desk| desk.owes = 1,
        |desk| desk.waiting = 1,
    ];
    for station in Station::BOTH {
        for alteration in alterations {
            let mut section = Section {
                refused: DISTINCT,
                ..Section::fresh()
            };
            alteration(section.desk_mut(station));
            sections.push(section);
        }
    }
    // A vehicle, with its desk as it has to be, and with a fresh one.
    let mut section = Section::fresh();
    put_vehicles(&mut section, &[vehicle(Kind::Through, A, 1)]);
    sections.push(section.clone());
    (section.desks[0].sent, section.desks[0].last_form) = (1, 1);
    sections.push(section);
    let mut section = Section::fresh();
    section.places[0] = vehicle(Kind::Train, B, 1);
    sections.push(section);
    let mut section = Section::fresh();
    section.places[23].left_on = Some(Kind::Through);
    sections.push(section);
    sections.push(Section {
        in_force: false,
        ..working()
    });
    sections
        .into_iter()
        .map(|section| hand(section, &Entry::begin()))
        .collect()
}

/// 5 comes before every refusal of the bytes, and before those of the section.
fn ill_made_before_all_else() -> Vec<Handed> {
    let sections = [
        with_desk(B, |desk| desk.sent = 13),
        Section {
            refused: ALL_AT_THEIR_LARGEST,
            ..with_vehicle(Kind::Train, A, |vehicle| vehicle.met = true)
        },
        Section {
            in_force: false,
            ..working()
        },
    ];
    let bytes: [&[u8]; 6] = [
        &[],
        &[0x87, 6, 1, 0],
        NO_ENTRIES[0].1,
        NO_ENTRIES[1].1,
        NO_ENTRIES[2].1,
        // RESUME: 8 with vehicles in the section, 7 not in force.
        &[0x01, 8],
    ];
    let with_each = |section: &Section| bytes.map(|bytes| (section.clone(), bytes.to_vec()));
    sections.iter().flat_map(with_each).collect()
}

/// Twenty-four vehicles and every figure at its largest.
fn crammed() -> Section {
    let mut section = begun();
    // From the station's end to the middle.
    let kinds = [
        Kind::Open,
        Kind::Train,
        Kind::Return,
        Kind::Through,
        Kind::Train,
        Kind::LastTrain,
        Kind::Return,
        Kind::Open,
        Kind::LastTrain,
        Kind::Through,
        Kind::Train,
        Kind::Open,
    ];
    let forms = [9_999, 1, 9_998, 2, 256, 255, 5_000, 40, 41, 9_000, 3, 77];
    let of = |sender| {
        kinds.into_iter().zip(forms).map(move |(kind, form)| {
            let mut vehicle = vehicle(kind, sender, form);
            match kind {
                Kind::Open => (vehicle.class, vehicle.asked) = (5, 8),
                Kind::Return => (vehicle.class, vehicle.asked, vehicle.granted) = (5, 8, 8),
                Kind::Train => (vehicle.asked, vehicle.granted) = (8, 8),
                Kind::LastTrain => {
                    (vehicle.asked, vehicle.granted, vehicle.given_up) = (8, 8, 7);
                }
                _ => {}
            }
            vehicle
        })
    };
    let vehicles: Vec<Vehicle> = of(A).chain(of(B).rev()).collect();
    put_vehicles(&mut section, &vehicles);
    section.refused = ALL_AT_THEIR_LARGEST;
    section.desks = [LARGEST_DESK; 2];
    section
}

fn crammed_meeting() -> Entry {
    Entry::meet(B, A, 77)
}

fn crammed_cases() -> Vec<Handed> {
    const LAST: u16 = u16::MAX;
    let entries = [
        Entry::begin(),
        Entry::resume(),
        Entry::open(A, LAST, 1, 1, 1),
        Entry::through(B, LAST, 1),
        Entry::send_back(A, LAST, 8, 8),
        Entry::train(A, LAST, 1, 8, 0),
        Entry::train(B, LAST, 1, 8, 1),
        Entry::train(B, LAST - 1, 1, 0, 0),
        Entry::last_train(A, LAST, 1, 8, 0),
        Entry::receive(A, LAST, A, 9_999),
        Entry::receive(B, LAST, B, 9_999),
        Entry::receive(A, LAST, B, 9_999),
        Entry::receive(A, LAST - 1, A, 9_999),
        crammed_meeting(),
        Entry::meet(A, B, 77),
        Entry::meet(A, A, 9_000),
    ];
    let mut handed: Vec<Handed> = entries.iter().map(|entry| hand(crammed(), entry)).collect();
    handed.push((crammed(), Vec::new()));
    // As many bytes as a case may hold: only the first entry is looked at.
    let mut longest = bytes_of(&crammed_meeting());
    longest.resize(LONGEST, 0xFF);
    handed.push((crammed(), longest));
    // Twenty-three vehicles, and a train takes the last place.
    for station in Station::BOTH {
        let mut section = crammed();
        section.take_out(station);
        *section.desk_mut(station) = Desk {
            sent: 11,
            last_form: 9_998,
            interval: None,
            ..*section.desk(station)
        };
        let train = Entry::train(station, LAST, 1, 8, 0);
        let last_train = Entry::last_train(station, LAST, 1, 8, 0);
        handed.extend([train, last_train].map(|entry| hand(section.clone(), &entry)));
    }
    handed
}

/// A desk in a section that is in force and empty.
pub(super) fn at_desk(station: Station, desk: Desk) -> Section {
    let mut section = begun();
    *section.desk_mut(station) = desk;
    section
}

fn desks_at_their_limits() -> Vec<Handed> {
    Station::BOTH
        .into_iter()
        .flat_map(desk_at_its_limits)
        .collect()
}

fn desk_at_its_limits(station: Station) -> Vec<Handed> {
    const LAST: u16 = u16::MAX;
    let mut handed = Vec::new();
    let mut at = |desk: Desk, entry: Entry| handed.push(hand(at_desk(station, desk), &entry));
    let through = |time| Entry::through(station, time, 1);
    let desk = Desk::default();

    // Twelve departures, though none is in the section.
    at(Desk { sent: 12, ..desk }, through(0));
    at(Desk { sent: 11, ..desk }, through(0));
    // The last form number, for every kind of departure.
    for last_form in [9_998, 9_999] {
        let desk = Desk { last_form, ..desk };
        at(desk, Entry::open(station, 0, 3, 5, 8));
        at(desk, through(0));
        at(
            Desk {
                guest: 5,
                asked: 8,
                ..desk
            },
            Entry::send_back(station, 0, 8, 8),
        );
        let holding = Desk { holds: 8, ..desk };
        at(holding, Entry::train(station, 0, 3, 8, 0));
        at(holding, Entry::last_train(station, 0, 3, 8, 0));
    }
    // 17 before 18 before 19.
    let worn = Desk {
        sent: 12,
        last_form: 9_999,
        interval: Some(0),
        ..desk
    };
    at(worn, through(0));
    at(Desk { sent: 11, ..worn }, through(0));
    at(
        Desk {
            sent: 11,
            last_form: 9_998,
            ..worn
        },
        through(0),
    );
    // A reply one above what was asked, and the grants on a train.
    at(
        Desk {
            guest: 1,
            asked: 7,
            ..desk
        },
        Entry::send_back(station, 0, 0, 8),
    );
    at(
        Desk {
            guest: 5,
            owes: 8,
            ..desk
        },
        Entry::send_back(station, 0, 0, 0),
    );
    // 14 before 16.
    at(
        Desk { asked: 7, ..desk },
        Entry::send_back(station, 0, 0, 8),
    );
    let held = Desk {
        asked: 8,
        holds: 1,
        sent: 1,
        ..desk
    };
    at(held, Entry::train(station, 0, 1, 8, 8));
    at(Desk { asked: 7, ..held }, Entry::train(station, 0, 1, 0, 8));
    at(Desk { owes: 8, ..held }, Entry::train(station, 0, 1, 0, 1));
    // 10, 11, 12 and 13, each barred by all that follow as well.
    let barred = Desk {
        out: true,
        holds: 8,
        owes: 8,
        guest: 5,
        sent: 12,
        ..desk
    };
    at(barred, through(0));
    at(
        Desk {
            out: false,
            ..barred
        },
        through(0),
    );
    at(
        Desk {
            out: false,
            holds: 0,
            ..barred
        },
        through(0),
    );
    at(
        Desk {
            out: false,
            holds: 0,
            owes: 0,
            ..barred
        },
        through(0),
    );
    // The last minute of the clock.
    at(
        Desk {
            clock: LAST,
            ..desk
        },
        through(LAST),
    );
    at(
        Desk {
            clock: LAST,
            ..desk
        },
        through(LAST - 1),
    );
    at(
        Desk {
            clock: LAST,
            interval: Some(LAST),
            ..desk
        },
        through(LAST),
    );
    at(
        Desk {
            clock: LAST,
            interval: Some(LAST - 29),
            ..desk
        },
        through(LAST),
    );
    at(
        Desk {
            clock: LAST,
            interval: Some(LAST - 30),
            ..desk
        },
        through(LAST),
    );
    // An interval from minute 0, which is not the same as none.
    at(
        Desk {
            clock: 20,
            interval: Some(0),
            ..desk
        },
        through(29),
    );
    at(
        Desk {
            clock: 20,
            interval: Some(0),
            ..desk
        },
        through(30),
    );
    handed
}

/// A section with one vehicle, at a desk of the receiving station where no
/// figure is 0 or at its largest.
pub(super) fn one_vehicle(
    vehicle: Vehicle,
    station: Station,
    change: impl Fn(&mut Desk),
) -> Section {
    let mut section = begun();
    put_vehicles(&mut section, &[vehicle]);
    for desk in &mut section.desks {
        *desk = Desk {
            clock: 50,
            last_form: 20,
            sent: 4,
            interval: Some(45),
            out: true,
            guest: 2,
            asked: 3,
            holds: 5,
            owes: 6,
            waiting: 7,
        };
    }
    change(section.desk_mut(station));
    section
}

/// A TRAIN that is no follower, in view 2. In views 1 and 3 it stands among the
/// replies by train and the desks at their limits.
fn booked_by_night() -> Vec<Handed> {
    let leave = |station| {
        let desk = Desk {
            clock: 30,
            last_form: 7,
            holds: 2,
            ..Desk::default()
        };
        let entry = Entry::train(station, 45, 2, 0, 0);
        hand(at_desk(station, desk), &entry)
    };
    Station::BOTH.map(leave).into()
}

fn receipts() -> Vec<Handed> {
    Station::BOTH.into_iter().flat_map(receipts_at).collect()
}

fn receipts_at(station: Station) -> Vec<Handed> {
    let other = station.other();
    let mut handed = Vec::new();
    let mut receive = |vehicle: Vehicle, change: fn(&mut Desk)| {
        let section = one_vehicle(vehicle, station, change);
        let sender = if vehicle.is_from(A) { A } else { B };
        handed.push(hand(
            section,
            &Entry::receive(station, 50, sender, vehicle.form),
        ));
    };
    let with_messages = |kind, asked, granted| Vehicle {
        asked,
        granted,
        ..vehicle(kind, other, 20)
    };
    // From the other station. A new guest takes the place of the one here.
    let opener = Vehicle {
        class: 5,
        ..with_messages(Kind::Open, 8, 0)
    };
    receive(opener, |_| {});
    receive(turned(Kind::Open, other, 1, station), |_| {});
    receive(vehicle(Kind::Through, other, 1), |desk| desk.sent = 12);
    for kind in [Kind::Return, Kind::Train] {
        receive(with_messages(kind, 0, 0), |_| {});
        receive(with_messages(kind, 8, 0), |desk| desk.owes = 1);
        receive(with_messages(kind, 0, 8), |desk| desk.owes = 0);
        receive(with_messages(kind, 1, 1), |desk| desk.owes = 8);
    }
    // Its own.
    receive(vehicle(Kind::Open, station, 20), |desk| desk.sent = 1);
    receive(vehicle(Kind::Open, station, 20), |desk| {
        (desk.sent, desk.out) = (12, false);
    });
    receive(vehicle(Kind::Through, station, 20), |_| {});
    receive(turned(Kind::Through, station, 3, station), |_| {});
    // 21: its own on a line clear or gone for good, the other's on its way home.
    receive(vehicle(Kind::Return, station, 20), |_| {});
    receive(vehicle(Kind::Train, station, 20), |_| {});
    receive(turned(Kind::Open, station, 20, other), |_| {});
    receive(turned(Kind::Through, other, 20, other), |_| {});
    // 20: none of this number, or the other sender's; 9 before it.
    let section = one_vehicle(vehicle(Kind::Through, other, 20), station, |_| {});
    handed.extend([
        hand(section.clone(), &Entry::receive(station, 50, other, 19)),
        hand(section.clone(), &Entry::receive(station, 50, station, 20)),
        hand(section, &Entry::receive(station, 49, station, 20)),
    ]);
    handed
}

/// A pair between two vehicles that stand by themselves.
fn a_pair(nearer_a: Vehicle, nearer_b: Vehicle) -> Section {
    let mut section = begun();
    let line = [
        vehicle(Kind::Train, A, 1),
        nearer_a,
        nearer_b,
        vehicle(Kind::Train, B, 1),
    ];
    put_vehicles(&mut section, &line);
    for desk in &mut section.desks {
        *desk = Desk {
            clock: 60,
            last_form: 9,
            sent: 3,
            interval: Some(60),
            ..Desk::default()
        };
    }
    section
}

fn meetings() -> Vec<Handed> {
    let mut handed = Vec::new();
    let mut meet = |nearer_a: Vehicle, nearer_b: Vehicle, towards: Station| {
        let sender = if nearer_a.is_from(A) { A } else { B };
        let entry = Entry::meet(towards, sender, nearer_a.form);
        handed.push(hand(a_pair(nearer_a, nearer_b), &entry));
    };
    // What they left on.
    for without in [Kind::Open, Kind::Through] {
        for other in DEPARTURES {
            meet(vehicle(without, A, 2), vehicle(other, B, 2), A);
        }
        for with in [Kind::Return, Kind::Train, Kind::LastTrain] {
            meet(vehicle(with, A, 2), vehicle(without, B, 2), B);
        }
    }
    meet(vehicle(Kind::Train, A, 2), vehicle(Kind::Return, B, 2), A);
    // Met before, and of one sender.
    meet(
        turned(Kind::Open, A, 2, B),
        turned(Kind::Through, B, 2, A),
        A,
    );
    meet(
        turned(Kind::Open, A, 3, B),
        turned(Kind::Through, A, 2, A),
        B,
    );
    meet(
        turned(Kind::Through, B, 3, B),
        turned(Kind::Open, B, 2, A),
        B,
    );
    meet(turned(Kind::Through, B, 3, B), vehicle(Kind::Open, B, 2), A);
    // Headings: away from one another, or the same way.
    meet(turned(Kind::Open, A, 2, A), turned(Kind::Open, B, 2, B), A);
    meet(turned(Kind::Open, A, 2, A), vehicle(Kind::Open, B, 2), A);
    meet(vehicle(Kind::Open, A, 2), turned(Kind::Open, B, 2, B), B);
    // The one nearer B is named, one that is absent, and the one nearest B.
    let section = a_pair(vehicle(Kind::Open, A, 2), vehicle(Kind::Open, B, 2));
    handed.extend([
        hand(section.clone(), &Entry::meet(A, B, 2)),
        hand(section.clone(), &Entry::meet(A, A, 3)),
        hand(section.clone(), &Entry::meet(A, B, 1)),
        hand(section, &Entry::meet(A, A, 1)),
    ]);
    handed
}

/// The edges of the document that no log reaches, or only a long one; (f) stands
/// with the desks at their limits, the others in the logs.
fn edges() -> Vec<Handed> {
    let mut handed = Vec::new();
    // (a)
    for section in [Section::fresh(), begun()] {
        handed.push((section.clone(), Vec::new()));
        handed.push((section, vec![0]));
    }
    // (e)
    for present in [11, 12] {
        let mut section = begun();
        let vehicles: Vec<Vehicle> = (1..=present)
            .map(|form| vehicle(Kind::Through, B, form))
            .collect();
        put_vehicles(&mut section, &vehicles);
        section.desks[1] = Desk {
            clock: 330,
            last_form: present,
            sent: present as u8,
            interval: Some(330),
            ..Desk::default()
        };
        handed.push(hand(section, &Entry::through(B, 360, 1)));
    }
    // (i), with all else that a desk may keep as well.
    let desk = Desk {
        guest: 5,
        asked: 8,
        holds: 8,
        out: true,
        owes: 2,
        waiting: 8,
        ..Desk::default()
    };
    handed.push(hand(at_desk(B, desk), &Entry::resume()));
    handed
}

/// The step by which the strewn sections are chosen. It is not today's, so that T-08
/// leaves them and their bytes as they are; what must come of them goes by today's.
const CHOSEN_BY: Edition = Edition::BeforeT08;

/// Any sections with any bytes: so many accepted and so many refused of each
/// kind, and some that are no entry.
fn strewn() -> Vec<Handed> {
    let options = Options {
        edition: CHOSEN_BY,
        ..Options::default()
    };
    let mut wanted = BTreeMap::new();
    for kind in Kind::ALL {
        let number = match kind {
            Kind::Begin | Kind::Resume => 2,
            _ => 10,
        };
        wanted.insert(Outcome::Accepted(kind.number()), number);
        wanted.insert(Outcome::Refused(kind.number()), number);
    }
    for refusal in [
        Refusal::Cut,
        Refusal::NoKind,
        Refusal::MapNotOfKind,
        Refusal::FieldOutOfRange,
    ] {
        wanted.insert(Outcome::NoEntry(refusal), 2);
    }

    let mut random = Random::new(20_261_115);
    let mut handed = Vec::new();
    while wanted.values().any(|&number| number > 0) {
        let section = any_section(&mut random);
        let seed = random.word();
        let bytes = Generator::at(section.clone(), seed, options).next_step();
        match wanted.get_mut(&outcome(&section, &bytes)) {
            Some(number) if *number > 0 => {
                *number -= 1;
                handed.push((section, bytes));
            }
            _ => {}
        }
    }
    handed
}

/// What becomes of the bytes: an entry of this kind, or none.
#[derive(Clone, Copy, Debug, PartialEq, Eq, PartialOrd, Ord)]
enum Outcome {
    Accepted(u8),
    Refused(u8),
    NoEntry(Refusal),
}

fn outcome(section: &Section, bytes: &[u8]) -> Outcome {
    match decode(bytes) {
        Err(refusal) => Outcome::NoEntry(refusal),
        Ok(entry) => match step_by(CHOSEN_BY, &mut section.clone(), bytes) {
            Ok(_) => Outcome::Accepted(entry.kind),
            Err(_) => Outcome::Refused(entry.kind),
        },
    }
}

#[cfg(test)]
mod tests {
    use super::*;
    use crate::step::{enter, step};

    #[test]
    fn ill_made_sections_are_answered_5_and_would_else_accept_their_entry() {
        for (section, bytes) in ill_made() {
            assert!(!section.is_well_made(), "{section:?}");
            let answer = step(&section, &bytes);
            assert_eq!(answer, (Err(Refusal::IllMade), section.clone()));
            let entry = decode(&bytes).unwrap();
            let answer = enter(Edition::Today, &mut section.clone(), &entry);
            assert!(answer.is_ok(), "{answer:?} {entry:?} {section:?}");
        }
    }

    #[test]
    fn no_ill_made_section_is_stored_twice() {
        let sections: Vec<Section> = ill_made().into_iter().map(|handed| handed.0).collect();
        for (place, section) in sections.iter().enumerate() {
            assert!(!sections[..place].contains(section), "{section:?}");
        }
    }

    #[test]
    fn five_comes_before_all_else() {
        let mut else_refused = Vec::new();
        for (section, bytes) in ill_made_before_all_else() {
            assert_eq!(
                step(&section, &bytes),
                (Err(Refusal::IllMade), section.clone())
            );
            let read = decode(&bytes);
            let answer = read.and_then(|entry| enter(Edition::Today, &mut section.clone(), &entry));
            else_refused.push(answer.unwrap_err().number());
        }
        let in_force = [1, 1, 2, 3, 4, 8];
        let not_in_force = [1, 1, 2, 3, 4, 7];
        assert_eq!(else_refused, [in_force, in_force, not_in_force].concat());
    }

    #[test]
    fn all_other_sections_are_well_made() {
        let others = [
            crammed_cases(),
            desks_at_their_limits(),
            booked_by_night(),
            receipts(),
            meetings(),
            edges(),
            strewn(),
        ];
        for (section, _) in others.concat() {
            assert!(section.is_well_made(), "{section:?}");
        }
    }

    fn answers(handed: &[Handed]) -> Vec<u8> {
        handed
            .iter()
            .map(|(section, bytes)| {
                let answer = step(section, bytes).0;
                answer.map_or_else(|refusal| refusal.number(), |_| 0)
            })
            .collect()
    }

    #[test]
    fn the_answers_are_those_of_the_document() {
        let crammed = [
            6, 8, 10, 10, 17, 17, 16, 9, 17, 0, 0, 20, 9, 0, 22, 22, 1, 0, 0, 0, 0, 0,
        ];
        assert_eq!(answers(&crammed_cases()), crammed);
        let desk = [
            17, 0, 0, 0, 0, 0, 0, 18, 18, 18, 18, 18, 17, 18, 19, 16, 0, 14, 0, 16, 16, 10, 11, 12,
            13, 0, 9, 19, 19, 0, 19, 0,
        ];
        assert_eq!(answers(&desks_at_their_limits()), [desk, desk].concat());
        assert_eq!(answers(&booked_by_night()), [0, 0]);
        let receipt = [
            0, 0, 0, 0, 0, 0, 0, 0, 0, 0, 0, 0, 0, 0, 0, 21, 21, 21, 21, 20, 20, 9,
        ];
        assert_eq!(answers(&receipts()), [receipt, receipt].concat());
        let meeting = [
            0, 0, 22, 22, 22, 22, 22, 22, 0, 0, 22, 22, 22, 22, 22, 22, 22, 0, 0, 0, 0, 22, 22, 22,
            22, 22, 22, 22,
        ];
        assert_eq!(answers(&meetings()), meeting);
        assert_eq!(answers(&edges()), [1, 2, 1, 2, 0, 17, 0]);
    }

    #[test]
    fn strewn_sections_have_every_kind_accepted_and_refused() {
        let handed = strewn();
        assert_eq!(handed.len(), 7 * 20 + 2 * 4 + 4 * 2);
        let accepted = answers(&handed)
            .iter()
            .filter(|&&answer| answer == 0)
            .count();
        assert_eq!(accepted, 7 * 10 + 2 * 2);
    }
}
