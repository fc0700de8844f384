//! A position: a section is stepped, and each figure must stand at its name.
//! And the lengths of a position, an answer, a shelf and a name.

use lupinshift::{
    at, desk, fetch, step, store, vehicle, Position, Shelf, ANSWER, LONGEST_NAME, POSITION, SHELF,
    VEHICLES,
};

use crate::scenes::{after, bytes_of, number_at, through, use_forms, BEGIN, BEGUN, RESUME};

/// A name with its place, and how many bytes the figure has.
type Place = (&'static str, usize, usize);

const PARTS: [Place; 4] = [
    ("in force", at::IN_FORCE, 1),
    ("refused for A", at::REFUSED_FOR_A, 4),
    ("refused for B", at::REFUSED_FOR_B, 4),
    ("refused of none", at::REFUSED_OF_NONE, 4),
];

const VEHICLE: [Place; 9] = [
    ("kind", vehicle::KIND, 1),
    ("sender", vehicle::SENDER, 1),
    ("form", vehicle::FORM, 2),
    ("heading", vehicle::HEADING, 1),
    ("met", vehicle::MET, 1),
    ("class", vehicle::CLASS, 1),
    ("asked", vehicle::ASKED, 1),
    ("granted", vehicle::GRANTED, 1),
    ("given up", vehicle::GIVEN_UP, 1),
];

const DESK: [Place; 11] = [
    ("clock", desk::CLOCK, 2),
    ("last", desk::LAST, 2),
    ("sent", desk::SENT, 1),
    ("running", desk::RUNNING, 1),
    ("since", desk::SINCE, 2),
    ("out", desk::OUT, 1),
    ("guest", desk::GUEST, 1),
    ("asked", desk::ASKED, 1),
    ("holds", desk::HOLDS, 1),
    ("owes", desk::OWES, 1),
    ("waiting", desk::WAITING, 1),
];

/// The figures from an offset on, each at its name.
fn figures_at(section: &Position, from: usize, places: &[Place], wanted: &[u32], scene: &str) {
    for (&(name, at, width), &figure) in places.iter().zip(wanted) {
        let found = number_at(section.as_bytes(), from + at, width);
        assert_eq!(found, figure, "{name} at {from}, {scene}");
    }
}

/// Refused before BEGIN: 259 entries of A, 515 of B, 771 of no station. Then A
/// has used 600 form numbers, and B 300.
fn start() -> Position {
    let mut section = Position::fresh();
    for (entry, count) in [
        (through(1, 0).to_vec(), 259),
        (through(2, 0).to_vec(), 515),
        (bytes_of(RESUME), 771),
    ] {
        for _ in 0..count {
            assert_eq!(section.step(&entry), Err(7));
        }
    }
    assert_eq!(section.as_bytes()[at::IN_FORCE], 0);
    let mut section = after(section, BEGUN);
    use_forms(&mut section, 1, 600);
    use_forms(&mut section, 2, 300);
    section
}

/// Entries behind that start, with form numbers from A601 and B301 on, and the
/// figures after them: of A's desk, of B's, and of the first two vehicles from
/// A on.
struct Standing {
    scene: &'static str,
    entries: &'static [&'static str],
    a: [u32; 11],
    b: [u32; 11],
    vehicles: [[u32; 9]; 2],
}

const UNUSED: [u32; 9] = [0; 9];

/// OPEN at A, minute 266, clear day, diesel car, asks for 8.
const OPENED: &str = "3F 02 01 01 0A 01 05 08";
/// RECEIVE at B, minute 582, form A601.
const ARRIVED: &str = "87 06 02 02 46 01 02 59";
/// RETURN at B, minute 587, asks for 7, grants 6.
const ANSWERED: &str = "67 04 02 02 4B 07 06";
/// RECEIVE at A, minute 352, form B301.
const BACK: &str = "87 06 01 01 60 02 01 2D";
/// TRAIN at A, minute 353, asks for 3, grants 4.
const AHEAD: &str = "6F 05 01 01 61 01 03 04";
/// RECEIVE at B, minute 608, form A602.
const AHEAD_IN: &str = "87 06 02 02 60 01 02 5A";
/// TRAIN at A, minute 353.
const SENT: &str = "0F 05 01 01 61 01";
/// LAST TRAIN at A, minute 383, asks for 8, grants 7.
const LAST: &str = "6F 09 01 01 7F 01 08 07";
/// OPEN at A, minute 266, motor trolley, asks for 6.
const FROM_A: &str = "3F 02 01 01 0A 01 03 06";
/// OPEN at B, minute 267, other trolley, asks for 5.
const FROM_B: &str = "3F 02 02 01 0B 01 04 05";
/// MEET of A601 with the next: both go on to B.
const MET: &str = "83 07 02 01 02 59";

const STANDINGS: [Standing; 9] = [
    Standing {
        scene: "begun",
        entries: &[],
        a: [0, 600, 0, 0, 0, 0, 0, 0, 0, 0, 0],
        b: [0, 300, 0, 0, 0, 0, 0, 0, 0, 0, 0],
        vehicles: [UNUSED; 2],
    },
    Standing {
        scene: "an OPEN from A",
        entries: &[OPENED],
        a: [266, 601, 1, 1, 266, 1, 0, 0, 0, 0, 0],
        b: [0, 300, 0, 0, 0, 0, 0, 0, 0, 0, 0],
        vehicles: [[2, 1, 601, 2, 0, 5, 8, 0, 0], UNUSED],
    },
    Standing {
        scene: "a guest at B",
        entries: &[OPENED, ARRIVED],
        a: [266, 601, 1, 1, 266, 1, 0, 0, 0, 0, 0],
        b: [582, 300, 0, 0, 0, 0, 5, 8, 0, 0, 0],
        vehicles: [UNUSED; 2],
    },
    Standing {
        scene: "a RETURN from B",
        entries: &[OPENED, ARRIVED, ANSWERED],
        a: [266, 601, 1, 1, 266, 1, 0, 0, 0, 0, 0],
        b: [587, 301, 1, 1, 587, 0, 0, 0, 0, 6, 0],
        vehicles: [[4, 2, 301, 1, 0, 5, 7, 6, 0], UNUSED],
    },
    Standing {
        scene: "line clears at A",
        entries: &[OPENED, ARRIVED, ANSWERED, BACK],
        a: [352, 601, 0, 0, 0, 0, 0, 7, 6, 0, 0],
        b: [587, 301, 1, 1, 587, 0, 0, 0, 0, 6, 0],
        vehicles: [UNUSED; 2],
    },
    Standing {
        scene: "a reply sent ahead",
        entries: &[OPENED, ARRIVED, ANSWERED, BACK, AHEAD],
        a: [353, 602, 1, 1, 353, 0, 0, 0, 5, 4, 0],
        b: [587, 301, 1, 1, 587, 0, 0, 0, 0, 6, 0],
        vehicles: [[5, 1, 602, 2, 0, 0, 3, 4, 0], UNUSED],
    },
    Standing {
        scene: "line clears that wait at B",
        entries: &[OPENED, ARRIVED, ANSWERED, BACK, AHEAD, AHEAD_IN],
        a: [353, 602, 1, 1, 353, 0, 0, 0, 5, 4, 0],
        b: [608, 301, 0, 0, 0, 0, 0, 3, 0, 5, 4],
        vehicles: [UNUSED; 2],
    },
    Standing {
        scene: "a LAST TRAIN behind a TRAIN",
        entries: &[OPENED, ARRIVED, ANSWERED, BACK, SENT, LAST],
        a: [383, 603, 2, 1, 383, 0, 0, 0, 0, 7, 0],
        b: [587, 301, 1, 1, 587, 0, 0, 0, 0, 6, 0],
        vehicles: [[9, 1, 603, 2, 0, 0, 8, 7, 4], [5, 1, 602, 2, 0, 0, 0, 0, 0]],
    },
    Standing {
        scene: "two openers that have met",
        entries: &[FROM_A, FROM_B, MET],
        a: [266, 601, 1, 1, 266, 1, 0, 0, 0, 0, 0],
        b: [267, 301, 1, 1, 267, 1, 0, 0, 0, 0, 0],
        vehicles: [[2, 1, 601, 2, 1, 3, 6, 0, 0], [2, 2, 301, 2, 1, 4, 5, 0, 0]],
    },
];

#[test]
fn positions_by_name() {
    let start = start();
    for Standing {
        scene,
        entries,
        a,
        b,
        vehicles,
    } in STANDINGS
    {
        let section = after(start.clone(), entries);
        figures_at(&section, 0, &PARTS, &[1, 259, 515, 771], scene);
        figures_at(&section, at::DESK_A, &DESK, &a, scene);
        figures_at(&section, at::DESK_B, &DESK, &b, scene);
        figures_at(&section, at::DESK_A + desk::LENGTH, &DESK, &b, scene);
        for (number, figures) in vehicles.iter().enumerate() {
            let from = at::VEHICLES + vehicle::LENGTH * number;
            figures_at(&section, from, &VEHICLE, figures, scene);
        }
    }
}

/// Twelve from A and twelve from B fill the places: the first has A's newest,
/// the last B's newest, and behind it the position goes on.
#[test]
fn vehicles_fill_their_places() {
    let mut section = after(Position::fresh(), BEGUN);
    for minute in (0..12).map(|count| 30 * count) {
        assert!(section.step(&through(1, minute)).is_ok());
        assert!(section.step(&through(2, minute)).is_ok());
    }
    let last = at::VEHICLES + vehicle::LENGTH * (VEHICLES - 1);
    figures_at(
        &section,
        at::VEHICLES,
        &VEHICLE,
        &[3, 1, 12, 2, 0, 1],
        "first",
    );
    figures_at(&section, last, &VEHICLE, &[3, 2, 12, 1, 0, 1], "last");
    assert_eq!(last + vehicle::LENGTH, at::IN_FORCE);
    assert_eq!(at::DESK_B + desk::LENGTH, POSITION);
}

#[test]
fn position_and_answer_lengths() {
    let begin = bytes_of(BEGIN);
    let (mut numbers, mut longer) = ([0; ANSWER], [0; POSITION + 1]);
    assert_eq!(step(&mut longer, &begin, &mut numbers), Err(26));
    assert_eq!(step(&mut longer[2..], &begin, &mut numbers), Err(26));
    assert_eq!(step(&mut longer[1..], &begin, &mut numbers[1..]), Err(23));
    assert_eq!(step(&mut longer[1..], &begin, &mut numbers), Ok(()));
    let mut shelf = Shelf::empty();
    assert_eq!(
        shelf.store("BEGUN", &after(Position::fresh(), BEGUN)),
        Ok(())
    );
    assert_eq!(fetch(shelf.as_bytes(), b"BEGUN", &mut longer[2..]), Err(23));
    assert_eq!(fetch(shelf.as_bytes(), b"BEGUN", &mut longer[1..]), Ok(()));
}

#[test]
fn shelf_and_name_lengths() {
    let fresh = Position::fresh();
    let mut longer = vec![0; SHELF + 1];
    assert_eq!(store(&mut longer, b"A", fresh.as_bytes()), Err(5));
    assert_eq!(store(&mut longer[2..], b"A", fresh.as_bytes()), Err(5));
    assert_eq!(store(&mut longer[1..], b"A", fresh.as_bytes()), Ok(()));
    let mut shelf = Shelf::empty();
    assert_eq!(shelf.store(&"N".repeat(LONGEST_NAME), &fresh), Ok(()));
    assert_eq!(shelf.store(&"N".repeat(LONGEST_NAME + 1), &fresh), Err(24));
    let kept = &shelf.as_bytes()[LONGEST_NAME..][..POSITION];
    assert_eq!(kept, fresh.as_bytes());
}
