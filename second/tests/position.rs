//! The 281 bytes of a position: each figure in its place, no section in two ways,
//! and the step that is taken in them.

mod common;

use common::{bytes_of, USED_DESK};
use second::generator::{any_section, Generator, Options};
use second::position::POSITION_LENGTH;
use second::random::Random;
use second::{
    step, step_position, Desk, Entry, Kind, Position, Refusal, Refused, Section, Station, Vehicle,
};

const IN_FORCE: usize = 240;
const DESK_A: usize = 253;
const DESK_B: usize = 267;

/// A vehicle of each kind, and another number in nearly every figure.
fn one_of_each() -> Section {
    let mut section = Section {
        present: 5,
        in_force: true,
        refused: Refused {
            for_a: 0x4142_4344,
            for_b: 0x4546_4748,
            of_none: 0xFFFE_FDFC,
        },
        ..Section::fresh()
    };
    let vehicles = [
        Vehicle {
            left_on: Some(Kind::Open),
            sender: 1,
            form: 0x0102,
            heading: 2,
            class: 4,
            asked: 7,
            ..Vehicle::default()
        },
        Vehicle {
            left_on: Some(Kind::Through),
            sender: 1,
            form: 0x2021,
            heading: 1,
            met: true,
            class: 1,
            ..Vehicle::default()
        },
        Vehicle {
            left_on: Some(Kind::Return),
            sender: 1,
            form: 0x0506,
            heading: 2,
            class: 5,
            asked: 1,
            granted: 2,
            ..Vehicle::default()
        },
        Vehicle {
            left_on: Some(Kind::Train),
            sender: 2,
            form: 0x0708,
            heading: 1,
            asked: 3,
            granted: 4,
            ..Vehicle::default()
        },
        Vehicle {
            left_on: Some(Kind::LastTrain),
            sender: 2,
            form: 0x090A,
            heading: 1,
            asked: 5,
            granted: 6,
            given_up: 7,
            ..Vehicle::default()
        },
    ];
    section.places[..5].copy_from_slice(&vehicles);
    section.desks = [
        Desk {
            clock: 0x5152,
            last_form: 0x2322,
            sent: 11,
            interval: Some(0x3132),
            out: true,
            guest: 2,
            asked: 3,
            holds: 4,
            owes: 5,
            waiting: 6,
        },
        Desk {
            clock: 0xFEFD,
            last_form: 0x2524,
            sent: 12,
            interval: None,
            out: false,
            guest: 1,
            asked: 8,
            holds: 7,
            owes: 6,
            waiting: 5,
        },
    ];
    section
}

/// Twelve of each station, as full as a section goes.
fn full() -> Section {
    let mut random = Random::new(5);
    loop {
        let section = any_section(&mut random);
        if section.present == Section::MOST_VEHICLES {
            return section;
        }
    }
}

#[track_caller]
fn round_trip(section: &Section) -> Position {
    let position = section.position().expect("the section is well made");
    assert_eq!(Section::from_position(&position).as_ref(), Ok(section));
    position
}

#[track_caller]
fn is_none(bytes: &[u8]) {
    assert_eq!(Section::from_position(bytes), Err(Refusal::NoPosition));
}

#[test]
fn every_figure_stands_in_its_place() {
    let mut expected = Vec::new();
    expected.extend([2, 1, 0x01, 0x02, 2, 0, 4, 7, 0, 0]);
    expected.extend([3, 1, 0x20, 0x21, 1, 1, 1, 0, 0, 0]);
    expected.extend([4, 1, 0x05, 0x06, 2, 0, 5, 1, 2, 0]);
    expected.extend([5, 2, 0x07, 0x08, 1, 0, 0, 3, 4, 0]);
    expected.extend([9, 2, 0x09, 0x0A, 1, 0, 0, 5, 6, 7]);
    expected.extend([0; 19 * 10]);
    assert_eq!(expected.len(), IN_FORCE);
    expected.extend([1, 0x41, 0x42, 0x43, 0x44, 0x45, 0x46, 0x47, 0x48]);
    expected.extend([0xFF, 0xFE, 0xFD, 0xFC]);
    assert_eq!(expected.len(), DESK_A);
    expected.extend([0x51, 0x52, 0x23, 0x22, 11, 1, 0x31, 0x32, 1, 2, 3, 4, 5, 6]);
    assert_eq!(expected.len(), DESK_B);
    expected.extend([0xFE, 0xFD, 0x25, 0x24, 12, 0, 0, 0, 0, 1, 8, 7, 6, 5]);
    assert_eq!(round_trip(&one_of_each()).to_vec(), expected);
}

#[test]
fn the_fresh_section_is_281_zeros() {
    assert_eq!(POSITION_LENGTH, 281);
    assert_eq!(round_trip(&Section::fresh()), [0; 281]);
}

#[test]
fn an_interval_from_minute_0_is_told_from_none() {
    let mut section = one_of_each();
    section.desks[1].interval = Some(0);
    let position = round_trip(&section);
    assert_eq!(position[DESK_B + 5..DESK_B + 8], [1, 0, 0]);
}

#[test]
fn all_places_may_be_used() {
    let position = round_trip(&full());
    assert_ne!(position[230], 0);
}

#[test]
fn what_is_not_well_made_has_no_position() {
    let mut section = one_of_each();
    section.places[4].given_up = 8;
    assert_eq!(section.position(), None);
    // A place behind the vehicles present would be read as one of them.
    section = one_of_each();
    section.present = 4;
    assert_eq!(section.position(), None);
}

#[test]
fn the_sections_of_many_steps_are_written_and_read_back() {
    for seed in 0..12 {
        let options = Options {
            full: seed % 4 == 0,
            ..Options::default()
        };
        let mut generator = Generator::new(seed, options);
        for _ in 0..500 {
            generator.next_step();
            round_trip(generator.section());
        }
    }
    let mut random = Random::new(1);
    for _ in 0..2_000 {
        round_trip(&any_section(&mut random));
    }
}

/// Each byte set to every value: the bytes are no position, or the section read
/// from them is written as the same bytes.
#[test]
fn no_section_is_written_in_two_ways() {
    let mut not_in_force = Section::fresh();
    not_in_force.refused.for_b = 1;
    for (start, least) in [
        (Section::fresh(), 12 * 255),
        (not_in_force, 12 * 255),
        (one_of_each(), 5_000),
        (full(), 5_000),
    ] {
        let position = round_trip(&start);
        let mut read = 0;
        for place in 0..POSITION_LENGTH {
            for value in (0..=u8::MAX).filter(|&value| value != position[place]) {
                let mut damaged = position;
                damaged[place] = value;
                let Ok(section) = Section::from_position(&damaged) else {
                    continue;
                };
                read += 1;
                assert!(section.is_well_made());
                assert_ne!(section, start);
                assert_eq!(section.position(), Some(damaged));
            }
        }
        assert!(read >= least, "{read}");
    }
}

#[test]
fn another_length_is_no_position() {
    for section in [Section::fresh(), one_of_each(), full()] {
        let position = section.position().unwrap();
        for length in [0, 1, 10, 240, 280] {
            is_none(&position[..length]);
        }
        for more in [1, 10, 281] {
            is_none(&[&position[..], &vec![0; more]].concat());
        }
    }
}

#[test]
fn bytes_that_no_figure_has() {
    let position = one_of_each().position().unwrap();
    let damaged = |place: usize, value: u8| {
        let mut damaged = position;
        assert_ne!(damaged[place], value);
        damaged[place] = value;
        is_none(&damaged);
    };
    for place in [0, 10, 20, 30, 40, 50, 230] {
        for kind in [1, 6, 7, 8, 10, 255] {
            damaged(place, kind);
        }
    }
    // What the record of a vehicle has no figure for.
    for place in [8, 9, 17, 18, 19, 29, 39] {
        damaged(place, 1);
    }
    // A TRAIN is none without a kind, nor with another.
    for kind in [0, 2, 3, 4] {
        damaged(30, kind);
    }
    // Met, in force, interval running, out: neither 0 nor 1.
    let flags = [5, 15, 25, IN_FORCE, DESK_A + 5, DESK_A + 8];
    for place in flags.into_iter().chain([DESK_B + 5, DESK_B + 8]) {
        damaged(place, 2);
        damaged(place, 255);
    }
    // A minute of an interval that does not run.
    damaged(DESK_B + 6, 1);
    damaged(DESK_B + 7, 1);
    damaged(DESK_A + 5, 0);
    // An OPEN of zeros behind the vehicles, at once or with a gap; any other figure.
    for place in 5..24 {
        for byte in 1..10 {
            damaged(10 * place + byte, 1);
        }
        damaged(10 * place, 2);
    }
    // Not in force, all but the counts is zero.
    damaged(IN_FORCE, 0);
}

#[test]
fn a_gap_between_vehicles_is_no_position() {
    for section in [one_of_each(), full()] {
        let position = section.position().unwrap();
        for gap in 0..section.present - 1 {
            let mut damaged = position;
            damaged[10 * gap..10 * gap + 10].fill(0);
            is_none(&damaged);
        }
        // Without the last the others are a section.
        let mut fewer = position;
        fewer[10 * section.present - 10..10 * section.present].fill(0);
        let read = Section::from_position(&fewer).unwrap();
        assert_eq!(read.present, section.present - 1);
    }
}

/// A step in the position is the step of its section, on any section with any bytes.
#[test]
fn the_step_in_the_position_is_the_step() {
    let mut random = Random::new(2);
    let mut accepted = 0;
    for _ in 0..3_000 {
        let section = any_section(&mut random);
        let mut generator = Generator::at(section.clone(), random.word(), Options::default());
        let entry = generator.next_step();
        let (answer, after) = step(&section, &entry);
        let mut position = section.position().unwrap();
        let mut numbers = [7, 8, 9, 10, 11];
        let number = step_position(&mut position, &entry, &mut numbers);
        assert_eq!(Some(position), after.position());
        match answer {
            Ok(answer) => {
                accepted += 1;
                let [form, forms] = [answer.form, answer.forms].map(u32::from);
                assert_eq!(number, 0);
                assert_eq!(numbers, [form, forms, answer.speed.number(), 10, 11]);
            }
            Err(refusal) => {
                assert_eq!(number, u32::from(refusal.number()));
                assert_eq!(numbers, [7, 8, 9, 10, 11]);
            }
        }
    }
    assert!(accepted > 1_000, "{accepted}");
}

#[test]
fn the_session_in_one_position() {
    let entries: [(&[u8], u32, [u32; 3]); 8] = [
        (&[0x01, 1], 0, [0, 0, 0]),
        (&[0x3F, 2, 1, 0, 0x0A, 1, 1, 2], 0, [1, 7, 131_087]),
        (&[0x87, 6, 2, 0, 0x46, 1, 0, 1], 0, [0, 0, 0]),
        (&[0x47, 4, 2, 0, 0x4B, 2], 0, [1, 180, 196_608]),
        (&[0x87, 6, 1, 0, 0x5F, 2, 0, 1], 0, [0, 0, 0]),
        (&[0x0F, 5, 1, 0, 0x60, 1], 0, [2, 168, 196_608]),
        (&[0x0F, 5, 1, 0, 0x7D, 1], 19, [2, 168, 196_608]),
        (&[0x0F, 5, 1, 0, 0x7E, 1], 0, [3, 104, 268_554]),
    ];
    let mut position = [0; 281];
    let mut numbers = [u32::MAX; 3];
    for (entry, number, answer) in entries {
        assert_eq!(step_position(&mut position, entry, &mut numbers), number);
        assert_eq!(numbers, answer);
    }
    let section = Section::from_position(&position).unwrap();
    assert_eq!(section.present, 2);
    assert_eq!(section.refused.for_a, 1);
    assert_eq!(section.desk(Station::B).owes, 2);
    // Walking pace, which the session does not have.
    let mut position = [0; 281];
    step_position(&mut position, &[0x01, 1], &mut numbers);
    let through = bytes_of(&Entry::through(Station::B, 5, 3));
    assert_eq!(step_position(&mut position, &through, &mut numbers), 0);
    assert_eq!(numbers, [1, 1, 65_536]);
}

#[test]
fn a_refused_step_is_counted_in_the_position_and_alters_nothing_else() {
    // No bytes, and bytes refused with 1 to 4, count as of no station.
    let refused: [(u32, &[u8], usize); 8] = [
        (1, &[], 12),
        (1, &[0x0F, 5, 1, 0, 0], 12),
        (2, &[0x00], 12),
        (3, &[0x01, 5], 12),
        (4, &[0x0F, 5, 1, 0, 0, 4], 12),
        (6, &[0x01, 1], 12),
        (9, &[0x0F, 5, 1, 0, 0, 1], 4),
        (9, &[0x0F, 5, 2, 0, 0, 1], 8),
    ];
    for (number, entry, low_byte) in refused {
        let before = one_of_each().position().unwrap();
        let mut position = before;
        let mut numbers = [1, 2, 3, 4];
        assert_eq!(step_position(&mut position, entry, &mut numbers), number);
        assert_eq!(numbers, [1, 2, 3, 4]);
        let mut expected = before;
        expected[IN_FORCE + low_byte] += 1;
        assert_eq!(position, expected);
    }
    // A count at its end stays there.
    let mut section = one_of_each();
    section.refused.for_a = u32::MAX;
    let before = section.position().unwrap();
    let mut position = before;
    let early = bytes_of(&Entry::train(Station::A, 0, 1, 0, 0));
    assert_eq!(step_position(&mut position, &early, &mut [0; 3]), 9);
    assert_eq!(position, before);
}

#[test]
fn the_position_speaks_before_the_numbers_and_the_numbers_before_the_entry() {
    let good = one_of_each().position().unwrap();
    let mut bad = good;
    bad[IN_FORCE] = 2;
    let train = bytes_of(&Entry::train(Station::A, u16::MAX, 1, 0, 0));
    for entry in [&train[..], &[], &[0x00], &train[..3]] {
        for lent in 0..=5 {
            let mut position = bad;
            let mut numbers = vec![9; lent];
            assert_eq!(step_position(&mut position, entry, &mut numbers), 26);
            assert_eq!((position, &numbers), (bad, &vec![9; lent]));
            let mut short = good[..280].to_vec();
            assert_eq!(step_position(&mut short, entry, &mut numbers), 26);
            assert_eq!((&short[..], &numbers), (&good[..280], &vec![9; lent]));
            assert_eq!(step_position(&mut [], entry, &mut numbers), 26);

            let mut position = good;
            let number = step_position(&mut position, entry, &mut numbers);
            if lent < 3 {
                assert_eq!(number, 23);
                assert_eq!((position, numbers), (good, vec![9; lent]));
            } else {
                assert_ne!((number, position), (23, good));
            }
        }
    }
}

#[test]
fn bytes_behind_the_entry_are_not_looked_at() {
    let mut position = [0; 281];
    let mut numbers = [9; 3];
    assert_eq!(step_position(&mut position, &[1, 1, 0xFF], &mut numbers), 0);
    assert_eq!(numbers, [0; 3]);
    let mut expected = [0; 281];
    expected[IN_FORCE] = 1;
    assert_eq!(position, expected);
}

/// A desk with every figure above 0 is read and written in every figure.
#[test]
fn a_used_desk_comes_back_at_either_station() {
    for place in 0..2 {
        let mut section = Section {
            in_force: true,
            ..Section::fresh()
        };
        section.desks[place] = USED_DESK;
        let position = round_trip(&section);
        let desk = [DESK_A, DESK_B][place];
        let figures = [0, 40, 0, 9, 3, 1, 0, 40, 1, 4, 6, 1, 2, 3];
        assert_eq!(position[desk..desk + 14], figures);
    }
}
