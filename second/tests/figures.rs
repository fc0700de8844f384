//! The 282 figures of a section: each in its place, and back again.

use second::figures::{digest, Figures, FIGURES_LENGTH};
use second::generator::{any_section, Generator, Options};
use second::random::Random;
use second::{Desk, Kind, Refused, Section, Vehicle};

// Where some figures behind the 24 places stand.
const IN_FORCE: usize = 24 * 10 + 1;
const DESK_A: usize = IN_FORCE + 1 + 3 * 4;
const DESK_B: usize = DESK_A + 14;

/// A section with another number in every figure of its first place, its last
/// place and its desks.
fn numbered() -> Section {
    let mut section = Section {
        present: 0x12,
        in_force: true,
        refused: Refused {
            for_a: 0x1314_1516,
            for_b: 0x1718_191A,
            of_none: 0x1B1C_1D1E,
        },
        ..Section::fresh()
    };
    section.places[0] = Vehicle {
        left_on: Some(Kind::LastTrain),
        sender: 0x21,
        form: 0x2223,
        heading: 0x24,
        met: true,
        class: 0x25,
        asked: 0x26,
        granted: 0x27,
        given_up: 0x28,
    };
    section.places[1] = Vehicle {
        left_on: Some(Kind::Train),
        given_up: 0,
        ..section.places[0]
    };
    section.places[23] = Vehicle {
        left_on: Some(Kind::Open),
        sender: 0x31,
        form: 0x3233,
        heading: 0x34,
        class: 0x35,
        asked: 0x36,
        ..Vehicle::default()
    };
    section.desks = [
        Desk {
            clock: 0x4142,
            last_form: 0x4344,
            sent: 0x45,
            interval: Some(0x4647),
            out: true,
            guest: 0x48,
            asked: 0x49,
            holds: 0x4A,
            owes: 0x4B,
            waiting: 0x4C,
        },
        Desk {
            clock: 0x5152,
            last_form: 0x5354,
            sent: 0x55,
            interval: None,
            out: false,
            guest: 0x56,
            asked: 0x57,
            holds: 0x58,
            owes: 0x59,
            waiting: 0x5A,
        },
    ];
    section
}

#[track_caller]
fn round_trip(section: &Section) -> Figures {
    let figures = section.figures().expect("there is room");
    assert_eq!(Section::from_figures(&figures).as_ref(), Some(section));
    figures
}

#[test]
fn every_figure_stands_in_its_place() {
    let figures = round_trip(&numbered());
    let mut expected = vec![9, 0x21, 0x22, 0x23, 0x24, 1, 0x25, 0x26, 0x27, 0x28];
    expected.extend([5, 0x21, 0x22, 0x23, 0x24, 1, 0x25, 0x26, 0x27, 0]);
    expected.extend([0; 21 * 10]);
    expected.extend([2, 0x31, 0x32, 0x33, 0x34, 0, 0x35, 0x36, 0, 0]);
    expected.extend([0x12, 1, 0x13, 0x14, 0x15, 0x16]);
    expected.extend([0x17, 0x18, 0x19, 0x1A, 0x1B, 0x1C, 0x1D, 0x1E]);
    expected.extend([0x41, 0x42, 0x43, 0x44, 0x45, 1, 0x46, 0x47, 1]);
    expected.extend([0x48, 0x49, 0x4A, 0x4B, 0x4C]);
    expected.extend([0x51, 0x52, 0x53, 0x54, 0x55, 0, 0, 0, 0]);
    expected.extend([0x56, 0x57, 0x58, 0x59, 0x5A]);
    assert_eq!(figures.to_vec(), expected);
}

#[test]
fn an_interval_from_minute_0_is_told_from_none() {
    let mut section = Section::fresh();
    section.desks[1].interval = Some(0);
    let figures = round_trip(&section);
    assert_eq!(figures[DESK_B + 5], 1);
}

#[test]
fn any_section_and_what_a_step_makes_of_it() {
    let mut random = Random::new(3);
    for _ in 0..1_000 {
        let section = any_section(&mut random);
        let before = round_trip(&section);
        let mut generator = Generator::at(section, random.word(), Options::default());
        generator.next_step();
        // A step is accepted or counted, unless its count stands at its end.
        let after = round_trip(generator.section());
        let Refused {
            for_a,
            for_b,
            of_none,
        } = generator.section().refused;
        if ![for_a, for_b, of_none].contains(&u32::MAX) {
            assert_ne!(digest(&before), digest(&after));
        }
    }
}

/// Each figure of the bytes set to every value: no section has it, or the
/// section that has it gives it back.
#[test]
fn every_value_of_every_figure_comes_back_or_is_no_section() {
    for start in [Section::fresh(), numbered()] {
        let figures = start.figures().unwrap();
        for place in 0..FIGURES_LENGTH {
            for value in 0..=u8::MAX {
                let mut altered = figures;
                altered[place] = value;
                if let Some(section) = Section::from_figures(&altered) {
                    assert_eq!(section.figures(), Some(altered));
                }
            }
        }
    }
}

#[test]
fn what_has_no_room_has_no_figures() {
    let none = |change: fn(&mut Section)| {
        let mut section = numbered();
        change(&mut section);
        assert_eq!(section.figures(), None);
    };
    none(|section| section.present = 256);
    for change in [
        (|section| section.places[0].left_on = Some(Kind::Begin)) as fn(&mut Section),
        |section| section.places[0].left_on = Some(Kind::Receive),
        |section| section.places[0].left_on = Some(Kind::Meet),
        |section| section.places[0].left_on = Some(Kind::Resume),
        // It carries messages, and line clears given up.
        |section| section.places[0].left_on = Some(Kind::Return),
        |section| section.places[0].left_on = Some(Kind::Train),
        |section| section.places[1].left_on = Some(Kind::Through),
        |section| section.places[1].left_on = None,
        |section| section.places[1].given_up = 1,
        |section| section.places[2].given_up = 1,
        |section| section.places[23].given_up = 1,
        |section| section.places[23].granted = 1,
        |section| section.places[23].left_on = Some(Kind::Through),
    ] {
        none(change);
    }
    none(|section| {
        section.places[5] = Vehicle {
            left_on: Some(Kind::Open),
            ..Vehicle::default()
        };
    });
}

#[test]
fn bytes_that_are_no_section() {
    let figures = numbered().figures().unwrap();
    let altered = |place: usize, value: u8| {
        let mut figures = figures;
        figures[place] = value;
        Section::from_figures(&figures)
    };
    // Kinds: none of the departures; THROUGH and none, which have no messages; and
    // all but LAST TRAIN, which have none given up.
    for kind in [0, 1, 2, 3, 4, 5, 6, 7, 8, 10, 255] {
        assert_eq!(altered(0, kind), None, "kind {kind}");
    }
    for kind in [0, 1, 2, 3, 6, 7, 8, 10, 255] {
        assert_eq!(altered(10, kind), None, "kind {kind}");
    }
    assert!(altered(10, 4).is_some());
    assert!(altered(10, 9).is_some());
    // Line clears given up: any number on the LAST TRAIN, none on the others.
    assert!(altered(9, 0).is_some());
    assert!(altered(9, 255).is_some());
    for place in [1, 2, 23] {
        assert_eq!(altered(place * 10 + 9, 1), None);
    }
    // Line clears on the OPEN.
    assert_eq!(altered(23 * 10 + 8, 1), None);
    // An OPEN with 0 in every other figure.
    assert_eq!(altered(20, 2), None);
    // Met, in force, interval running, out: neither 0 nor 1.
    let [a, b] = [DESK_A, DESK_B];
    for place in [5, IN_FORCE, a + 5, a + 8, b + 5, b + 8] {
        assert_eq!(altered(place, 2), None, "figure {place}");
        assert_eq!(altered(place, 255), None, "figure {place}");
    }
    // A minute of an interval that does not run.
    assert_eq!(altered(b + 7, 1), None);
    assert_eq!(altered(a + 5, 0), None);
}
