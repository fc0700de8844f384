//! What is handed over for a departure: form number, forms and speed.

use lupinshift::{step, Order, Position, Speed, ANSWER, FORMS};

use crate::scenes::{
    after, bytes_of, order, A_HOLDS, A_SENDS, BEGIN, BEGUN, B_HAS_GUEST, FOLLOWER, GOES_BACK, OPEN,
    THROUGH, TRAIN,
};

#[test]
fn orders_by_name() {
    let order = order(A_HOLDS, TRAIN);
    assert_eq!(order.number, 2);
    let names: Vec<&str> = order.form_names().collect();
    assert_eq!(names, ["T/G 602", "T/369(3b)", "T/A 409"]);
    assert_eq!(order.speed, Speed::Booked);
}

/// Each form is what two departures have in common and a third has not: RETURN
/// is B's and booked, the first train A's and booked, the follower A's and
/// cautioned.
#[test]
fn forms_by_name() {
    let forms = |(scene, entry)| order(scene, entry).forms;
    let (open, through) = ((BEGUN, OPEN), (BEGUN, THROUGH[0]));
    let (back, first, follower) = (
        (B_HAS_GUEST, GOES_BACK),
        (A_HOLDS, TRAIN),
        (A_SENDS, FOLLOWER),
    );
    let (asks, grants) = (
        (B_HAS_GUEST, "27 04 02 00 4B 02"),
        (B_HAS_GUEST, "47 04 02 00 4B 02"),
    );
    for (name, with, and_with, without) in [
        ("T/B 602", through, open, back),
        ("T/E 602", asks, open, back),
        ("T/F 602", grants, open, back),
        ("T/G 602", first, follower, back),
        ("T/H 602", back, asks, first),
        ("T/369(3b)", back, follower, open),
        ("T/409", follower, follower, first),
        ("T/A 409", first, back, follower),
    ] {
        let form = forms(with) & forms(and_with) & !forms(without);
        assert_eq!(named(form), [name]);
        assert_eq!(FORMS[form.ilog2() as usize], name);
    }
}

/// T/C 602 is the form of every train in the listing of a double line.
#[test]
fn double_line_form_by_name() {
    let listing = include_str!("../../../examples/double.listing");
    let trains: Vec<u32> = listing.lines().filter_map(double_forms).collect();
    assert!(!trains.is_empty());
    for form in trains {
        assert_eq!(named(form), ["T/C 602"]);
        assert_eq!(FORMS[form.ilog2() as usize], "T/C 602");
    }
}

/// The forms of a sum by name.
fn named(forms: u32) -> Vec<&'static str> {
    let order = Order {
        number: 0,
        forms,
        speed: Speed::None,
    };
    order.form_names().collect()
}

/// The forms in a line of a double line's listing that has an accepted TRAIN.
fn double_forms(line: &str) -> Option<u32> {
    match line.split(' ').collect::<Vec<_>>()[..] {
        [_, "5", _, "ok", _, forms, _] => forms.parse().ok(),
        _ => None,
    }
}

/// The speed on each order, and its number as the archive puts it.
#[test]
fn speeds_by_name() {
    let two = |straight, elsewhere| Speed::TwoFigures {
        straight,
        elsewhere,
    };
    for (scene, entry, speed, in_words) in [
        (&[][..], BEGIN, Speed::None, "no speed"),
        (BEGUN, "3F 02 01 00 0A 01 01 02", Speed::Kmh(15), "15 km/h"),
        (BEGUN, "3F 02 01 00 0A 02 01 02", Speed::Kmh(10), "10 km/h"),
        (
            BEGUN,
            "3F 02 01 00 0A 03 01 02",
            Speed::WalkingPace,
            "walking pace",
        ),
        (B_HAS_GUEST, GOES_BACK, Speed::Booked, "booked speed"),
        (
            A_SENDS,
            FOLLOWER,
            two(25, 10),
            "25 km/h on the straight, 10 elsewhere",
        ),
        (
            A_SENDS,
            "0F 05 01 00 7E 02",
            two(10, 10),
            "10 km/h on the straight, 10 elsewhere",
        ),
    ] {
        assert_eq!(order(scene, entry).speed, speed, "{entry}");
        assert_eq!(speed.to_string(), in_words);
        let mut numbers = [0; ANSWER];
        let mut position = *after(Position::fresh(), scene).as_bytes();
        assert_eq!(step(&mut position, &bytes_of(entry), &mut numbers), Ok(()));
        assert_eq!(speed.number(), numbers[2], "{entry}");
        assert_eq!(Speed::from_number(numbers[2]), Some(speed), "{entry}");
    }
}
