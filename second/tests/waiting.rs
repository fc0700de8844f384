//! Replies sent ahead of the last train, and line clears that wait (request
//! T-02); document 01's own step beside today's.

mod common;

use common::{answer, bytes_of, two, Register};
use second::{list, step_by, Edition, Entry, Kind, Refusal, Section, Speed, Station, Vehicle};
use Station::{A, B};

/// Asked, holds, owes and waiting of a desk.
fn clears(section: &Section, station: Station) -> [u8; 4] {
    let desk = section.desk(station);
    [desk.asked, desk.holds, desk.owes, desk.waiting]
}

/// B asks for two trains and answers an enquiry for three.
fn opened() -> [Entry; 5] {
    [
        Entry::begin(),
        Entry::open(A, 10, 1, 1, 3),
        Entry::receive(B, 70, A, 1),
        Entry::send_back(B, 75, 2, 3),
        Entry::receive(A, 95, B, 1),
    ]
}

/// A's first train of three carries the reply for two.
fn first_train_grants() -> Entry {
    Entry::train(A, 96, 1, 0, 2)
}

fn register_opened() -> Register {
    let mut register = Register::fresh();
    for entry in opened() {
        register.accept(entry);
    }
    register
}

#[test]
fn a_reply_rides_with_the_first_train_of_three() {
    let mut register = register_opened();
    assert_eq!(clears(&register.section, A), [2, 3, 0, 0]);
    let first = register.accept(first_train_grants());
    assert_eq!(first, answer(2, 8 + 32 + 128 + 4, Speed::Booked));
    assert_eq!(clears(&register.section, A), [0, 2, 2, 0]);
    // A has given what was asked and owes it.
    register.refuse(16, Entry::train(A, 126, 1, 0, 1));
    let second = register.accept(Entry::train(A, 126, 1, 0, 0));
    assert_eq!(second, answer(3, 8 + 32 + 64, two(25, 10)));

    register.accept(Entry::receive(B, 150, A, 2));
    assert_eq!(clears(&register.section, B), [0, 0, 2, 2]);
    // What waits is not held, and B's own engines stay while it owes.
    register.refuse(15, Entry::train(B, 150, 1, 0, 0));
    register.refuse(12, Entry::through(B, 150, 1));
    register.accept(Entry::receive(B, 180, A, 3));
    assert_eq!(clears(&register.section, B), [0, 0, 1, 2]);
    register.accept(Entry::train(A, 156, 1, 4, 0));
    register.accept(Entry::receive(B, 210, A, 4));
    assert_eq!(clears(&register.section, B), [4, 2, 0, 0]);
    assert_eq!(clears(&register.section, A), [0, 0, 2, 0]);

    // B's first train of two carries its reply in turn.
    let back = register.accept(Entry::train(B, 210, 1, 0, 4));
    assert_eq!(back, answer(2, 16 + 32 + 128 + 4, Speed::Booked));
    assert_eq!(clears(&register.section, B), [0, 1, 4, 0]);
    register.accept(Entry::receive(A, 200, B, 2));
    assert_eq!(clears(&register.section, A), [0, 0, 1, 4]);
    register.accept(Entry::train(B, 240, 1, 0, 0));
    register.accept(Entry::receive(A, 230, B, 3));
    assert_eq!(clears(&register.section, A), [0, 4, 0, 0]);
}

#[test]
fn a_reply_rides_with_the_second_train_of_three() {
    let mut register = register_opened();
    register.accept(Entry::train(A, 96, 1, 0, 0));
    register.accept(Entry::train(A, 126, 1, 0, 1));
    assert_eq!(clears(&register.section, A), [0, 1, 1, 0]);
    register.accept(Entry::receive(B, 150, A, 2));
    assert_eq!(clears(&register.section, B), [0, 0, 2, 0]);
    register.accept(Entry::receive(B, 180, A, 3));
    assert_eq!(clears(&register.section, B), [0, 0, 1, 1]);
    register.accept(Entry::train(A, 156, 1, 0, 0));
    register.accept(Entry::receive(B, 210, A, 4));
    assert_eq!(clears(&register.section, B), [0, 1, 0, 0]);
}

#[test]
fn what_waits_ends_with_the_working() {
    let mut register = register_opened();
    register.accept(first_train_grants());
    register.accept(Entry::receive(B, 150, A, 2));
    assert_eq!(clears(&register.section, B), [0, 0, 2, 2]);
    register.accept(Entry::resume());
    assert_eq!(register.section, Section::fresh());
    register.accept(Entry::begin());
    let begun = Section {
        in_force: true,
        ..Section::fresh()
    };
    assert_eq!(register.section, begun);
}

#[test]
fn the_listing_shows_what_is_held_and_owed_and_not_what_waits() {
    let mut entries = opened().to_vec();
    entries.extend([first_train_grants(), Entry::receive(B, 150, A, 2)]);
    let log: Vec<u8> = entries.iter().flat_map(bytes_of).collect();
    let listing = "\
1 1 - ok 0 0 -
2 2 A ok 1 7 15
3 6 B ok 0 0 -
4 4 B ok 1 182 B
5 6 A ok 0 0 -
6 5 A ok 2 172 B
7 6 B ok 0 0 -
end 7 7 0 0 0 0 2 2 0 2
";
    assert_eq!(list(&log), listing);
}

/// A section in force with one vehicle, and every desk figure above 0.
fn with_vehicle(vehicle: Vehicle, station: Station, clears: [u8; 3]) -> Register {
    let mut register = Register::begun();
    let section = &mut register.section;
    section.places[0] = vehicle;
    section.present = 1;
    section.desks = [common::USED_DESK; 2];
    let desk = section.desk_mut(station);
    [desk.holds, desk.owes, desk.waiting] = clears;
    register
}

fn vehicle(kind: Kind, sender: Station, granted: u8) -> Vehicle {
    Vehicle {
        left_on: Some(kind),
        sender: sender.number(),
        form: 9,
        heading: sender.other().number(),
        met: false,
        class: match kind {
            Kind::Train => 0,
            _ => 1,
        },
        asked: u8::from(kind == Kind::Open),
        granted,
        given_up: 0,
    }
}

/// Receives the vehicle and gives holds, owes and waiting after it.
fn received(register: &mut Register, station: Station) -> [u8; 3] {
    let vehicle = register.section.places[0];
    let sender = Station::from_number(vehicle.sender).unwrap();
    let before = register.section.clone();
    register.accept(Entry::receive(station, 41, sender, 9));
    // All that a receipt alters is the station's own.
    let other = station.other();
    assert_eq!(register.section.desk(other), before.desk(other));
    let [_, rest @ ..] = clears(&register.section, station);
    rest
}

/// Every receipt with every figure: first what is owed, then what waits, then
/// what is held.
#[test]
fn every_receipt_with_all_figures() {
    let figures = [0, 1, 2, 7, 8];
    for station in Station::BOTH {
        let other = station.other();
        for (kind, sender, most) in [
            (Kind::Open, station, 0),
            (Kind::Through, station, 0),
            (Kind::Open, other, 0),
            (Kind::Through, other, 0),
            (Kind::Return, other, 8),
            (Kind::Train, other, 8),
        ] {
            for granted in figures.into_iter().filter(|&granted| granted <= most) {
                for (holds, owes, waiting) in all_of(figures) {
                    let owed = match (kind, owes) {
                        (Kind::Train, 1..) => owes - 1,
                        _ => owes,
                    };
                    let expected = match (owed, granted, waiting) {
                        (0, 0, 0) => [holds, 0, 0],
                        (0, 0, 1..) => [waiting, 0, 0],
                        (0, 1.., _) => [granted, 0, 0],
                        (1.., 0, _) => [holds, owed, waiting],
                        (1.., 1.., _) => [holds, owed, granted],
                    };
                    let vehicle = vehicle(kind, sender, granted);
                    let mut register = with_vehicle(vehicle, station, [holds, owes, waiting]);
                    assert_eq!(received(&mut register, station), expected, "{vehicle:?}");
                }
            }
        }
    }
}

/// Any three of the figures.
fn all_of(figures: [u8; 5]) -> impl Iterator<Item = (u8, u8, u8)> {
    figures.into_iter().flat_map(move |first| {
        figures
            .into_iter()
            .flat_map(move |second| figures.map(|third| (first, second, third)))
    })
}

#[test]
fn departures_leave_what_waits() {
    for station in Station::BOTH {
        let open = Entry::open(station, 0, 1, 1, 8);
        let through = Entry::through(station, 0, 1);
        let back = |granted| Entry::send_back(station, 0, 0, granted);
        let train = |granted| Entry::train(station, 0, 1, 0, granted);
        for (entry, figures, after) in [
            // Guest, asked, holds, owes and waiting; the last four after it.
            (open, [0, 3, 0, 0, 5], [3, 0, 0, 5]),
            (through, [0, 3, 0, 0, 5], [3, 0, 0, 5]),
            (back(0), [2, 3, 0, 4, 5], [0, 0, 4, 5]),
            // A RETURN grants though its station owes, more or less than that.
            (back(3), [2, 3, 0, 4, 5], [0, 0, 3, 5]),
            (back(3), [2, 3, 0, 1, 5], [0, 0, 3, 5]),
            (train(0), [2, 3, 2, 4, 5], [3, 1, 4, 5]),
            (train(3), [2, 3, 8, 0, 5], [0, 7, 3, 5]),
            (train(1), [2, 3, 1, 0, 5], [0, 0, 1, 5]),
        ] {
            let mut register = Register::begun();
            let desk = register.section.desk_mut(station);
            [desk.guest, desk.asked, desk.holds, desk.owes, desk.waiting] = figures;
            register.accept(entry);
            assert_eq!(clears(&register.section, station), after, "{entry:?}");
        }
    }
}

#[test]
fn a_meeting_leaves_what_waits() {
    let mut register = Register::begun();
    register.accept(Entry::open(A, 0, 1, 1, 1));
    register.accept(Entry::open(B, 0, 1, 1, 1));
    register.section.desk_mut(A).waiting = 5;
    register.section.desk_mut(B).waiting = 6;
    register.accept(Entry::meet(A, A, 1));
    let waiting = register.section.desks.map(|desk| desk.waiting);
    assert_eq!(waiting, [5, 6]);
}

#[test]
fn document_01_refuses_a_grant_on_a_train_that_is_not_the_last() {
    let mut section = Section::fresh();
    let mut enter = |entry: Entry| step_by(Edition::Document01, &mut section, &bytes_of(&entry));
    assert!(opened().map(&mut enter).iter().all(Result::is_ok));
    assert_eq!(enter(first_train_grants()), Err(Refusal::GrantNotDue));
    assert!(enter(Entry::train(A, 96, 1, 0, 0)).is_ok());
    assert!(enter(Entry::train(A, 126, 1, 0, 0)).is_ok());
    assert!(enter(Entry::train(A, 156, 1, 0, 2)).is_ok());
    for form in 2..=4 {
        assert!(enter(Entry::receive(B, 200, A, form)).is_ok());
    }
    assert_eq!(section.refused.for_a, 1);
    assert_eq!(clears(&section, B), [0, 2, 0, 0]);
}

#[test]
fn document_01_sets_holds_to_granted_0_included() {
    for kind in [Kind::Return, Kind::Train] {
        for granted in [0, 2] {
            let mut section = with_vehicle(vehicle(kind, A, granted), B, [5, 4, 0]).section;
            let receive = bytes_of(&Entry::receive(B, 41, A, 9));
            assert!(step_by(Edition::Document01, &mut section, &receive).is_ok());
            let owes = if kind == Kind::Train { 3 } else { 4 };
            assert_eq!(clears(&section, B), [6, granted, owes, 0]);
        }
    }
}

/// The grant rides with the last train, so both editions give the same, but for a
/// second figure where a train follows another.
#[test]
fn a_list_once_accepted_is_answered_as_before() {
    let mut entries = opened().to_vec();
    entries.extend([
        Entry::train(A, 96, 1, 0, 0),
        Entry::train(A, 126, 1, 0, 0),
        Entry::receive(B, 150, A, 2),
        Entry::train(A, 156, 2, 4, 2),
        Entry::receive(B, 210, A, 3),
        Entry::receive(B, 210, A, 4),
        Entry::train(B, 210, 1, 0, 0),
        Entry::train(B, 240, 3, 0, 4),
        Entry::receive(A, 300, B, 2),
        Entry::receive(A, 300, B, 3),
        Entry::resume(),
    ]);
    let mut register = Register::fresh();
    let mut before = Section::fresh();
    let mut differing = Vec::new();
    for entry in entries {
        let once = step_by(Edition::Document01, &mut before, &bytes_of(&entry)).unwrap();
        let today = register.accept(entry);
        if today != once {
            differing.push((once, today));
        }
        assert_eq!(register.section, before, "{entry:?}");
    }
    // A's second and third train and B's second, on UP and DN tickets.
    let follower = |form, forms, straight| {
        let once = answer(form, forms, Speed::Limit(straight));
        (once, answer(form, forms, two(straight, 10)))
    };
    let followers = [
        follower(3, 8 + 32 + 64, 25),
        follower(4, 8 + 32 + 64 + 2 + 4, 10),
        follower(3, 16 + 32 + 64 + 4, 10),
    ];
    assert_eq!(differing, followers);
}
