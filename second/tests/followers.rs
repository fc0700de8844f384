//! The two figures on a follower's caution order (request T-07), and the speeds of
//! all other departures, which have none.

mod common;

use common::{answer, bytes_of, two, Register};
use second::position::ANSWER_NUMBERS;
use second::{
    list, step_by, step_position, Accepted, Desk, Edition, Entry, Section, Speed, Station,
};
use Station::{A, B};

/// A departure by station, time, view, asked and granted.
type Train = fn(Station, u16, u8, u8, u8) -> Entry;

/// Trains of both kinds.
const TRAINS: [Train; 2] = [Entry::train, Entry::last_train];

/// A section in force with nothing in it, in which so many departures of this station
/// are counted, the last at minute 40. An opener may leave at 70.
fn with_sent(station: Station, sent: u8) -> Section {
    let mut section = Register::begun().section;
    *section.desk_mut(station) = Desk {
        clock: 70,
        last_form: 41,
        sent,
        interval: (sent > 0).then_some(40),
        ..Desk::default()
    };
    section
}

/// Enters this at the station's desk as `change` alters it, in both forms.
#[track_caller]
fn entered(entry: Entry, sent: u8, change: impl Fn(&mut Desk)) -> Accepted {
    let station = Station::from_number(entry.station).unwrap();
    let mut section = with_sent(station, sent);
    change(section.desk_mut(station));
    let mut register = Register { section };
    register.accept(entry)
}

/// A train of a desk that holds two line clears and is asked for three.
#[track_caller]
fn train_leaves(entry: Entry, sent: u8) -> Accepted {
    entered(entry, sent, |desk| (desk.holds, desk.asked) = (2, 3))
}

/// The two figures in each view, as they are printed, and as a number.
const BY_VIEW: [(u8, Speed, &str, u32); 3] = [
    (1, two(25, 10), "25/10", 268_554),
    (2, two(10, 10), "10/10", 264_714),
    (3, two(10, 10), "10/10", 264_714),
];

#[test]
fn a_follower_has_two_figures_by_its_view() {
    for (station, ticket) in [(A, 8), (B, 16)] {
        for train in TRAINS {
            for (view, speed, printed, number) in BY_VIEW {
                for sent in 1..=11 {
                    let accepted = train_leaves(train(station, 70, view, 0, 0), sent);
                    // The ticket, T/369(3b) and T/409.
                    let forms = ticket + 32 + 64;
                    assert_eq!(accepted, answer(42, forms, speed));
                    assert_eq!(accepted.speed.to_string(), printed);
                    assert_eq!(accepted.numbers(), [42, forms.into(), number]);
                }
            }
        }
    }
}

#[test]
fn messages_alter_the_forms_of_a_follower_and_not_its_figures() {
    for (station, ticket) in [(A, 8), (B, 16)] {
        for train in TRAINS {
            for (view, speed, ..) in BY_VIEW {
                for (asked, granted, messages) in [(8, 0, 2), (0, 3, 4), (1, 2, 6)] {
                    let accepted = train_leaves(train(station, 70, view, asked, granted), 1);
                    let forms = ticket + 32 + 64 + messages;
                    assert_eq!(accepted, answer(42, forms, speed));
                }
            }
        }
    }
}

#[test]
fn a_train_with_none_before_it_is_booked_in_every_view() {
    for (station, ticket) in [(A, 8), (B, 16)] {
        for train in TRAINS {
            for view in 1..=3 {
                let accepted = train_leaves(train(station, 70, view, 0, 0), 0);
                assert_eq!(accepted, answer(42, ticket + 32 + 128, Speed::Booked));
                assert_eq!(accepted.speed.to_string(), "B");
                assert_eq!(accepted.numbers()[2], 196_608);
            }
        }
    }
}

/// It has no view, and how many left before it does not matter.
#[test]
fn a_return_is_booked_whoever_left_before_it() {
    for (station, ticket) in [(A, 8), (B, 16)] {
        for sent in 0..=11 {
            let entry = Entry::send_back(station, 70, 0, 0);
            let accepted = entered(entry, sent, |desk| desk.guest = 1);
            assert_eq!(accepted, answer(42, ticket + 32 + 128, Speed::Booked));
        }
    }
}

#[test]
fn openers_and_through_engines_have_one_figure_as_before() {
    let by_view = [
        (1, Speed::Limit(15), "15", 131_087),
        (2, Speed::Limit(10), "10", 131_082),
        (3, Speed::Walking, "W", 65_536),
    ];
    for station in Station::BOTH {
        for (view, speed, printed, number) in by_view {
            for sent in 0..=11 {
                for (entry, forms) in [
                    (Entry::open(station, 70, view, 3, 2), 7),
                    (Entry::through(station, 70, view), 1),
                ] {
                    let accepted = entered(entry, sent, |_| {});
                    assert_eq!(accepted, answer(42, forms, speed));
                    assert_eq!(accepted.speed.to_string(), printed);
                    assert_eq!(accepted.numbers()[2], number);
                }
            }
        }
    }
}

/// Whoever left before it, of whatever kind, makes a train a follower.
#[test]
fn any_departure_counted_makes_the_next_train_a_follower() {
    for (left, guest, holds) in [
        (Entry::open(A, 40, 1, 1, 1), 0, 0),
        (Entry::through(A, 40, 1), 0, 0),
        (Entry::send_back(A, 40, 0, 0), 1, 0),
        (Entry::train(A, 40, 1, 0, 0), 0, 1),
        (Entry::last_train(A, 40, 1, 0, 0), 0, 1),
    ] {
        let mut register = Register::begun();
        let desk = register.section.desk_mut(A);
        (desk.guest, desk.holds) = (guest, holds);
        register.accept(left);
        register.section.desk_mut(A).holds = 1;
        let follower = register.accept(Entry::train(A, 70, 1, 0, 0));
        assert_eq!(follower, answer(2, 8 + 32 + 64, two(25, 10)), "{left:?}");
    }
}

/// B opens and gets three line clears, A asks for two with them, and B's second train
/// brings these.
fn series_from_both_ends() -> Vec<Entry> {
    vec![
        Entry::begin(),
        Entry::open(B, 0, 2, 1, 3),
        Entry::receive(A, 0, B, 1),
        Entry::send_back(A, 0, 2, 3),
        Entry::receive(B, 0, A, 1),
        Entry::train(B, 0, 1, 0, 0),
        Entry::train(B, 30, 1, 0, 2),
        Entry::last_train(B, 60, 2, 0, 0),
        Entry::receive(A, 90, B, 2),
        Entry::receive(A, 90, B, 3),
        Entry::receive(A, 90, B, 4),
        Entry::train(A, 90, 3, 0, 0),
        Entry::last_train(A, 120, 3, 4, 0),
    ]
}

#[test]
fn the_listing_prints_both_figures() {
    let log: Vec<u8> = series_from_both_ends().iter().flat_map(bytes_of).collect();
    let listing = "\
1 1 - ok 0 0 -
2 2 B ok 1 7 10
3 6 A ok 0 0 -
4 4 A ok 1 174 B
5 6 B ok 0 0 -
6 5 B ok 2 176 B
7 5 B ok 3 116 25/10
8 9 B ok 4 112 10/10
9 6 A ok 0 0 -
10 6 A ok 0 0 -
11 6 A ok 0 0 -
12 5 A ok 2 168 B
13 9 A ok 3 106 10/10
end 13 13 0 0 0 2 0 0 0 2
";
    assert_eq!(list(&log), listing);
}

#[test]
fn a_host_gets_both_figures_in_one_number() {
    let mut position = [0; 281];
    let mut speeds = Vec::new();
    for entry in series_from_both_ends() {
        let mut numbers = [0; ANSWER_NUMBERS];
        assert_eq!(
            step_position(&mut position, &bytes_of(&entry), &mut numbers),
            0
        );
        speeds.push(numbers[2]);
    }
    let booked = 196_608;
    let expected = [
        0, 131_082, 0, booked, 0, booked, 268_554, 264_714, 0, 0, 0, booked, 264_714,
    ];
    assert_eq!(speeds, expected);
}

/// Document 01's own step has no second figure, in no view and at no station.
#[test]
fn document_01_has_one_figure_for_a_follower() {
    for (station, ticket) in [(A, 8), (B, 16)] {
        for (view, limit) in [(1, 25), (2, 10), (3, 10)] {
            let mut section = with_sent(station, 1);
            section.desk_mut(station).holds = 1;
            let train = bytes_of(&Entry::train(station, 70, view, 0, 0));
            let accepted = step_by(Edition::Document01, &mut section, &train);
            let expected = answer(42, ticket + 32 + 64, Speed::Limit(limit));
            assert_eq!(accepted, Ok(expected));
        }
    }
}

/// Four digits of a form number behind five of an entry number: no entry has a longer
/// line.
#[test]
fn the_longest_line_of_a_listing_has_28_bytes() {
    let mut entries = vec![Entry::begin()];
    for form in 1..=997 {
        entries.extend([Entry::open(A, 0, 1, 1, 2), Entry::receive(A, 0, A, form)]);
    }
    entries.extend([
        Entry::open(A, 0, 1, 1, 2),
        Entry::receive(B, 0, A, 998),
        Entry::send_back(B, 0, 0, 2),
        Entry::receive(A, 0, B, 1),
        Entry::train(A, 0, 1, 0, 0),
        Entry::train(A, 30, 1, 0, 0),
    ]);
    // A map of 0 is an entry of one byte, which is refused.
    let mut log = vec![0; 10_000];
    log.extend(entries.iter().flat_map(bytes_of));
    let listing = list(&log);
    let entry_lines = listing.lines().filter(|line| !line.starts_with("end "));
    let longest = entry_lines.max_by_key(|line| line.len());
    assert_eq!(longest, Some("12001 5 A ok 1000 104 25/10"));
    assert_eq!(longest.map(str::len), Some(28 - 1));
}
