//! Trains endorsed as the last, and the line clears given up with them (request
//! T-03): what leaves, what arrives, what is owed meanwhile, and what document
//! 01's own step makes of it.

mod common;

use common::{answer, bytes_of, step_and_test, two, Register};
use second::generator::{any_section, Generator, Options};
use second::random::Random;
use second::walk::{Owed, Step};
use second::{
    decode, list, step, step_by, step_in_place, Answer, Desk, Edition, Entry, Kind, Refusal,
    Section, Speed, Station, Vehicle,
};
use Station::{A, B};

/// Asked, holds, owes and waiting of a desk.
fn clears(section: &Section, station: Station) -> [u8; 4] {
    let desk = section.desk(station);
    [desk.asked, desk.holds, desk.owes, desk.waiting]
}

/// The line clears given up that the vehicles present carry, from A to B.
fn given_up(section: &Section) -> Vec<u8> {
    let vehicles = section.vehicles().iter();
    vehicles.map(|vehicle| vehicle.given_up).collect()
}

/// The bytes of a list of entries, as it is printed.
fn entries_of(text: &str) -> Vec<Vec<u8>> {
    let byte = |digits: &[u8]| u8::from_str_radix(std::str::from_utf8(digits).unwrap(), 16);
    text.split(' ')
        .map(|entry| {
            let bytes = entry.as_bytes().chunks(2).map(byte);
            bytes.collect::<Result<_, _>>().unwrap()
        })
        .collect()
}

/// What a step answered, as the lister prints it.
fn printed(answer: Answer) -> String {
    match answer {
        Ok(answer) => format!("ok {} {} {}", answer.form, answer.forms, answer.speed),
        Err(refusal) => format!("no {}", refusal.number()),
    }
}

/// After a step: its answer, the two desks, what is given up on the line, and the
/// sum of what A and what B owes.
type After = (&'static str, [u8; 4], [u8; 4], &'static [u8], Owed, Owed);

fn owed(figures: [usize; 5]) -> Owed {
    let [held, waiting, trains, given_up, on_the_way] = figures;
    Owed {
        held,
        waiting,
        trains,
        given_up,
        on_the_way,
    }
}

/// Runs the list in both forms of the step and looks at all that stands after
/// each of its entries.
#[track_caller]
fn expect_list(text: &str, expected: &[After]) {
    let mut section = Section::fresh();
    let mut list = Vec::new();
    let entries = entries_of(text);
    assert_eq!(entries.len(), expected.len());
    for (bytes, &(answer, at_a, at_b, carried, by_a, by_b)) in entries.into_iter().zip(expected) {
        let given = step_and_test(&mut section, &bytes);
        assert_eq!(printed(given), answer, "{bytes:02X?}");
        list.push(Step::new(bytes, given));
        assert_eq!([clears(&section, A), clears(&section, B)], [at_a, at_b]);
        assert_eq!(given_up(&section), carried);
        assert_eq!(Owed::by(A, &list, &section), by_a);
        assert_eq!(Owed::by(B, &list, &section), by_b);
        assert_eq!(usize::from(at_a[2]), by_a.sum());
        assert_eq!(usize::from(at_b[2]), by_b.sum());
    }
}

const NONE: [u8; 4] = [0; 4];

/// Line clears given up stand in the sum of what B owes.
#[test]
fn the_list_with_clears_given_up_in_the_sum() {
    let none = owed([0; 5]);
    expect_list(
        "0101 3F02010000020504 8706020001010001 470402000203 8706010001020001 2F090100010307",
        &[
            ("ok 0 0 -", NONE, NONE, &[], none, none),
            ("ok 1 7 10", NONE, NONE, &[0], none, none),
            // A's diesel car asks for four.
            ("ok 0 0 -", NONE, [4, 0, 0, 0], &[], none, none),
            // Three of them are on the way to A.
            (
                "ok 1 180 B",
                NONE,
                [0, 0, 3, 0],
                &[0],
                none,
                owed([0, 0, 0, 0, 3]),
            ),
            (
                "ok 0 0 -",
                [0, 3, 0, 0],
                [0, 0, 3, 0],
                &[],
                none,
                owed([3, 0, 0, 0, 0]),
            ),
            // The train takes one of the three and gives two up.
            (
                "ok 2 170 B",
                NONE,
                [0, 0, 3, 0],
                &[2],
                none,
                owed([0, 0, 1, 2, 0]),
            ),
        ],
    );
}

/// The last train releases what waits at the other end.
#[test]
fn the_list_in_which_the_last_train_releases_what_waits() {
    let none = owed([0; 5]);
    expect_list(
        "0101 3F02010003010207 8706020001010001 67040200010107 8706010003020001 \
         6F05010003010501 8706020003010002 0F0901002101 8706020006010003",
        &[
            ("ok 0 0 -", NONE, NONE, &[], none, none),
            ("ok 1 7 15", NONE, NONE, &[0], none, none),
            ("ok 0 0 -", NONE, [7, 0, 0, 0], &[], none, none),
            (
                "ok 1 182 B",
                NONE,
                [0, 0, 7, 0],
                &[0],
                none,
                owed([0, 0, 0, 0, 7]),
            ),
            (
                "ok 0 0 -",
                [1, 7, 0, 0],
                [0, 0, 7, 0],
                &[],
                none,
                owed([7, 0, 0, 0, 0]),
            ),
            // A TRAIN that asks for five and brings the one that B asked for.
            (
                "ok 2 174 B",
                [0, 6, 1, 0],
                [0, 0, 7, 0],
                &[0],
                owed([0, 0, 0, 0, 1]),
                owed([6, 0, 1, 0, 0]),
            ),
            // B owes six more, so the one waits.
            (
                "ok 0 0 -",
                [0, 6, 1, 0],
                [5, 0, 6, 1],
                &[],
                owed([0, 1, 0, 0, 0]),
                owed([6, 0, 0, 0, 0]),
            ),
            // Five of the six are given up.
            (
                "ok 3 104 25/10",
                [0, 0, 1, 0],
                [5, 0, 6, 1],
                &[5],
                owed([0, 1, 0, 0, 0]),
                owed([0, 0, 1, 5, 0]),
            ),
            // B owes none, and holds what waited.
            (
                "ok 0 0 -",
                [0, 0, 1, 0],
                [5, 1, 0, 0],
                &[],
                owed([1, 0, 0, 0, 0]),
                none,
            ),
        ],
    );
}

/// A has asked for four and got them, and B has asked for two.
fn a_holds_four() -> Register {
    let mut register = Register::begun();
    register.accept(Entry::open(A, 10, 1, 1, 4));
    register.accept(Entry::receive(B, 70, A, 1));
    register.accept(Entry::send_back(B, 75, 2, 4));
    register.accept(Entry::receive(A, 95, B, 1));
    register
}

#[test]
fn a_master_with_two_trains_for_four_line_clears_sends_the_second_as_the_last() {
    let mut register = a_holds_four();
    register.accept(Entry::train(A, 96, 1, 0, 0));
    assert_eq!(clears(&register.section, A), [2, 3, 0, 0]);
    register.refuse(19, Entry::last_train(A, 125, 1, 1, 2));
    let last = register.accept(Entry::last_train(A, 126, 1, 1, 2));
    assert_eq!(last, answer(3, 8 + 32 + 64 + 2 + 4, two(25, 10)));
    assert_eq!(clears(&register.section, A), [0, 0, 2, 0]);
    let record = Vehicle {
        left_on: Some(Kind::LastTrain),
        sender: 1,
        form: 3,
        heading: 2,
        met: false,
        class: 0,
        asked: 1,
        granted: 2,
        given_up: 2,
    };
    assert_eq!(register.section.vehicles()[0], record);
    // Nothing is held any more, and A owes.
    register.refuse(15, Entry::train(A, 156, 1, 0, 0));
    register.refuse(15, Entry::last_train(A, 156, 1, 0, 0));
    register.refuse(12, Entry::open(A, 156, 1, 1, 1));

    register.accept(Entry::receive(B, 130, A, 2));
    assert_eq!(clears(&register.section, B), [0, 0, 3, 0]);
    register.refuse(15, Entry::train(B, 130, 1, 0, 0));
    register.refuse(21, Entry::receive(A, 156, A, 3));
    register.refuse(8, Entry::resume());
    register.accept(Entry::receive(B, 160, A, 3));
    assert_eq!(clears(&register.section, B), [1, 2, 0, 0]);
    let back = register.accept(Entry::train(B, 160, 1, 0, 0));
    assert_eq!(back, answer(2, 16 + 32 + 128, Speed::Booked));
}

#[test]
fn the_listing_prints_kind_9_and_nothing_of_what_is_given_up() {
    let mut log: Vec<u8> = Vec::new();
    for entry in [
        Entry::last_train(A, 0, 1, 0, 0),
        Entry::begin(),
        Entry::open(B, 10, 1, 1, 4),
        Entry::receive(A, 70, B, 1),
        Entry::send_back(A, 75, 0, 4),
        Entry::receive(B, 95, A, 1),
        Entry::last_train(B, 96, 2, 8, 0),
    ] {
        log.extend(bytes_of(&entry));
    }
    let listing = "\
1 9 A no 7
2 1 - ok 0 0 -
3 2 B ok 1 7 15
4 6 A ok 0 0 -
5 4 A ok 1 172 B
6 6 B ok 0 0 -
7 9 B ok 2 178 B
end 7 6 1 0 0 1 0 4 0 0
";
    assert_eq!(list(&log), listing);
}

#[test]
fn bytes_of_kind_9_read_2_3_and_4_no_more_than_they_have_to() {
    let mut section = Section::fresh();
    for (number, bytes) in [
        (1, &[0x0F, 9, 1, 0, 0][..]),
        (2, &[0x0E, 1, 0, 9, 1]),
        (2, &[0x0F, 0, 1, 0, 0, 1]),
        (2, &[0x0F, 10, 1, 0, 0, 1]),
        (2, &[0x0F, 255, 1, 0, 0, 1]),
        (3, &[0x01, 9]),
        (3, &[0x07, 9, 1, 0, 0]),
        (3, &[0x1F, 9, 1, 0, 0, 1, 1]),
        (3, &[0x8F, 9, 1, 0, 0, 1, 1, 0, 1]),
        (4, &[0x0F, 9, 0, 0, 0, 1]),
        (4, &[0x0F, 9, 3, 0, 0, 1]),
        (4, &[0x0F, 9, 1, 0, 0, 0]),
        (4, &[0x0F, 9, 1, 0, 0, 4]),
        (4, &[0x2F, 9, 1, 0, 0, 1, 0]),
        (4, &[0x2F, 9, 1, 0, 0, 1, 9]),
        (4, &[0x4F, 9, 1, 0, 0, 1, 9]),
        (4, &[0x6F, 9, 1, 0, 0, 1, 1, 0]),
        (7, &[0x0F, 9, 1, 0, 0, 1]),
        (7, &[0x2F, 9, 1, 0, 0, 1, 8]),
        (7, &[0x4F, 9, 2, 0xFF, 0xFF, 3, 8]),
        (7, &[0x6F, 9, 1, 0, 0, 2, 1, 1]),
    ] {
        let answer = step_and_test(&mut section, bytes);
        assert_eq!(answer.map_err(Refusal::number), Err(number), "{bytes:02X?}");
    }
}

/// The section after a TRAIN as it would be after a last train that left the same
/// desk, which held so many.
fn endorsed(mut after: Section, station: Station, held: u8) -> Section {
    after.desk_mut(station).holds = 0;
    let place = match station {
        A => 0,
        B => after.present - 1,
    };
    let train = &mut after.places[place];
    (train.left_on, train.given_up) = (Some(Kind::LastTrain), held - 1);
    after
}

/// On any section the last train is answered as a TRAIN would be, and what it
/// alters differs in what is held, what it left on and what is given up alone.
#[test]
fn it_leaves_as_a_train_does_but_for_what_is_held() {
    let mut random = Random::new(9);
    let (mut accepted, mut refused) = (0, 0);
    for _ in 0..6_000 {
        let section = any_section(&mut random);
        let station = random.pick(&Station::BOTH);
        let desk = *section.desk(station);
        let time = desk.clock.saturating_add(random.between(0, 40));
        let (view, asked) = (random.small(1, 3), random.small(0, 8));
        let most = random.pick(&[0, desk.asked, 8]);
        let granted = random.small(0, most);
        let train = bytes_of(&Entry::train(station, time, view, asked, granted));
        let last = bytes_of(&Entry::last_train(station, time, view, asked, granted));
        let (as_train, after_train) = step(&section, &train);
        let (as_last, after_last) = step(&section, &last);
        assert_eq!(as_last, as_train, "{last:?} {section:?}");
        let expected = match as_train {
            Ok(_) => endorsed(after_train, station, desk.holds),
            Err(_) => after_train,
        };
        assert_eq!(after_last, expected);
        match as_last {
            Ok(_) => accepted += 1,
            Err(_) => refused += 1,
        }
    }
    assert!(accepted > 500 && refused > 500, "{accepted} {refused}");
}

/// A section in force with one last train of the other station, and every desk
/// figure above 0.
fn arriving(station: Station, train: [u8; 3], clears: [u8; 4]) -> Register {
    let [asked, granted, given_up] = train;
    let sender = station.other();
    let mut register = Register::begun();
    let section = &mut register.section;
    section.present = 1;
    section.places[0] = Vehicle {
        left_on: Some(Kind::LastTrain),
        sender: sender.number(),
        form: 9,
        heading: station.number(),
        asked,
        granted,
        given_up,
        ..Vehicle::default()
    };
    section.desks = [common::USED_DESK; 2];
    let desk = section.desk_mut(station);
    [desk.asked, desk.holds, desk.owes, desk.waiting] = clears;
    register
}

/// Whatever was owed and whatever is given up, none is owed any more; so what came
/// along, or else what waited, is held.
#[test]
fn every_receipt_with_all_figures() {
    let figures = [0, 1, 2, 7, 8];
    for station in Station::BOTH {
        for train in [[0, 0, 0], [0, 0, 7], [5, 0, 3], [0, 2, 1], [8, 8, 7]] {
            for holds in figures {
                for owes in figures {
                    for waiting in figures {
                        let [asked, granted, _] = train;
                        let before = [6, holds, owes, waiting];
                        let mut register = arriving(station, train, before);
                        let section = register.section.clone();
                        register.accept(Entry::receive(station, 41, station.other(), 9));
                        let held = match (granted, waiting) {
                            (1.., _) => granted,
                            (0, 1..) => waiting,
                            _ => holds,
                        };
                        let asked_for = if asked > 0 { asked } else { 6 };
                        let expected = Desk {
                            clock: 41,
                            sent: 0,
                            interval: None,
                            asked: asked_for,
                            holds: held,
                            owes: 0,
                            waiting: 0,
                            ..*section.desk(station)
                        };
                        assert_eq!(register.section.desk(station), &expected);
                        let other = station.other();
                        assert_eq!(register.section.desk(other), section.desk(other));
                        assert_eq!(register.section.places, Section::fresh().places);
                    }
                }
            }
        }
    }
}

#[test]
fn its_own_station_may_not_have_it_and_it_meets_nobody() {
    for station in Station::BOTH {
        let other = station.other();
        let mut register = arriving(station, [0, 0, 3], [6, 1, 2, 3]);
        register.refuse(21, Entry::receive(other, 41, other, 9));
        register.refuse(20, Entry::receive(other, 41, other, 8));
        register.refuse(20, Entry::receive(other, 41, station, 9));
        register.refuse(20, Entry::receive(station, 41, other, 8));
        register.refuse(9, Entry::receive(station, 39, other, 9));
        register.refuse(22, Entry::meet(station, other, 9));
        register.refuse(8, Entry::resume());
    }
    for (nearer_a, nearer_b) in [(A, B), (B, A)] {
        for kind in [Kind::Open, Kind::Through] {
            let mut register = Register::begun();
            register.accept(Entry::through(A, 0, 1));
            register.accept(Entry::through(B, 0, 1));
            let [first, second] = [nearer_a, nearer_b].map(|station| usize::from(station == B));
            let engine = &mut register.section.places[first];
            engine.left_on = Some(kind);
            engine.asked = u8::from(kind == Kind::Open);
            let train = &mut register.section.places[second];
            train.left_on = Some(Kind::LastTrain);
            (train.class, train.given_up) = (0, 7);
            assert!(register.section.is_well_made());
            register.refuse(22, Entry::meet(A, A, 1));
            register.refuse(22, Entry::meet(B, A, 1));
        }
    }
}

#[test]
fn document_01_refuses_it_with_2_whatever_else_is_right_or_wrong() {
    let mut working = Register::begun();
    working.section.desk_mut(A).holds = 8;
    for section in [Section::fresh(), working.section] {
        for bytes in [
            &[0x0F, 9, 1, 0, 0, 1][..],
            &[0x6F, 9, 2, 0xFF, 0xFF, 3, 8, 8],
            &[0x0F, 9, 1, 0, 0, 4],
            &[0x0F, 9, 3, 0, 0, 1],
            &[0x01, 9],
            &[0xFF, 9, 9, 9, 9, 9, 9, 9, 9, 9, 9, 9],
        ] {
            let mut after = section.clone();
            let answer = step_by(Edition::Document01, &mut after, bytes);
            assert_eq!(answer, Err(Refusal::NoKind), "{bytes:02X?}");
            let mut expected = section.clone();
            expected.refused.of_none += 1;
            assert_eq!(after, expected);
        }
        let mut cut = section.clone();
        let answer = step_by(Edition::Document01, &mut cut, &[0x0F, 9, 1, 0, 0]);
        assert_eq!(answer, Err(Refusal::Cut));
        let mut ill_made = Section {
            present: 1,
            ..section
        };
        let answer = step_by(Edition::Document01, &mut ill_made, &[0x01, 9]);
        assert_eq!(answer, Err(Refusal::IllMade));
    }
}

/// Whatever bytes both editions get, they read the same unless the kind is 9.
#[test]
fn document_01_reads_every_other_kind_as_today() {
    let mut random = Random::new(10);
    for kind in 0..=u8::MAX {
        for _ in 0..40 {
            let mut generator = Generator::new(random.word(), Options::default());
            let _ = generator.next_entry();
            let mut bytes = generator.next_entry();
            if bytes.len() > 1 {
                bytes[1] = kind;
            }
            let mut before = generator.section().clone();
            let mut today = before.clone();
            let answers = [
                step_by(Edition::Document01, &mut before, &bytes),
                step_in_place(&mut today, &bytes),
            ];
            let shows_9 = bytes.len() > 1 && bytes[0] & 1 == 1 && kind == 9;
            if shows_9 {
                assert_eq!(answers[0], Err(Refusal::NoKind));
            } else {
                assert_eq!(answers[0], answers[1], "{bytes:02X?}");
                assert_eq!(before, today, "{bytes:02X?}");
            }
        }
    }
}

/// A list without a last train in which the trains are too few for what is held. Of
/// its two trains the second is a follower.
#[test]
fn a_list_without_it_is_answered_as_before() {
    let mut today = Section::fresh();
    let mut before = Section::fresh();
    for entry in [
        Entry::begin(),
        Entry::open(A, 10, 1, 1, 4),
        Entry::receive(B, 70, A, 1),
        Entry::send_back(B, 75, 2, 4),
        Entry::receive(A, 95, B, 1),
        Entry::train(A, 96, 1, 0, 0),
        Entry::train(A, 126, 1, 0, 0),
        Entry::receive(B, 130, A, 2),
        Entry::receive(B, 160, A, 3),
    ] {
        let bytes = bytes_of(&entry);
        let mut expected = step_by(Edition::Document01, &mut before, &bytes).unwrap();
        if expected.form == 3 {
            assert_eq!(expected, answer(3, 8 + 32 + 64, Speed::Limit(25)));
            expected.speed = two(25, 10);
        }
        assert_eq!(step_in_place(&mut today, &bytes), Ok(expected));
        assert_eq!(today, before);
    }
    // The other end is kept waiting, by both.
    assert_eq!(clears(&today, B), [0, 0, 2, 0]);
    let last = bytes_of(&Entry::last_train(A, 156, 1, 0, 0));
    assert!(decode(&last).is_ok());
    assert_eq!(
        step_by(Edition::Document01, &mut before, &last),
        Err(Refusal::NoKind)
    );
    assert!(step_in_place(&mut today, &last).is_ok());
}
