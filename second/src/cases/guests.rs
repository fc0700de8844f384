//! RETURN at desks that hold line clears, and OPEN and THROUGH there, on sections
//! that no log from the fresh section has: there a desk with a guest holds nothing.
//!
//! Each case has a name, and both stations have the same names. A name says what the
//! desk has: how many line clears it holds, and what else the case turns on. Where the
//! case is refused, and only there, the name starts with the refusal's number.

use super::given_up::{self, barred};
use super::named::Named;
use super::sections::{at_desk, hand, LARGEST_DESK};
use crate::entry::Entry;
use crate::generator::bytes_of;
use crate::section::{Desk, Section, Station};

pub(super) fn named_at(station: Station) -> Vec<Named> {
    [
        guests_sent_back(station),
        without_a_guest(station),
        guest_at_the_other_desk(station),
        refusals_in_their_order(station),
        without_line_clear(station),
        trains_behind_the_guest(station),
    ]
    .concat()
}

/// A desk with a guest that may go from minute 45 on, with no figure at its least or
/// largest.
fn ready() -> Desk {
    Desk {
        holds: 5,
        owes: 2,
        waiting: 6,
        ..given_up::ready()
    }
}

/// With a guest, whatever is held. What is held stays.
fn guests_sent_back(station: Station) -> Vec<Named> {
    let back = |desk: Desk, time, asked, granted| {
        let entry = Entry::send_back(station, time, asked, granted);
        hand(at_desk(station, desk), &entry)
    };
    let one = Desk {
        holds: 1,
        ..ready()
    };
    let eight = Desk {
        holds: 8,
        ..ready()
    };
    let owes_eight = Desk {
        owes: 8,
        out: false,
        ..ready()
    };
    let owes_none = Desk {
        holds: 3,
        owes: 0,
        waiting: 8,
        ..ready()
    };
    let not_asked = Desk {
        guest: 1,
        asked: 0,
        holds: 2,
        waiting: 0,
        ..ready()
    };
    let bare = Desk {
        guest: 2,
        holds: 7,
        ..Desk::default()
    };
    let largest = Desk {
        last_form: 9_998,
        sent: 11,
        interval: Some(u16::MAX - 30),
        ..LARGEST_DESK
    };
    vec![
        ("1 held, no grant", back(one, 45, 0, 0)),
        ("1 held, all granted that was asked", back(one, 45, 0, 3)),
        ("8 held, no grant", back(eight, 45, 6, 0)),
        ("8 held, a grant of 1", back(eight, 45, 0, 1)),
        ("5 held, owing 8, a grant of 2", back(owes_eight, 45, 8, 2)),
        ("5 held, owing 8, no grant", back(owes_eight, 45, 0, 0)),
        ("3 held, owing none, 8 waiting", back(owes_none, 45, 0, 0)),
        ("2 held, none asked for", back(not_asked, 45, 1, 0)),
        ("7 held, nothing but the guest", back(bare, 0, 0, 0)),
        ("every figure at its largest", back(largest, u16::MAX, 8, 8)),
    ]
}

/// Without one it is 14, whatever is held.
fn without_a_guest(station: Station) -> Vec<Named> {
    let back = |holds, asked, granted| {
        let desk = Desk {
            guest: 0,
            holds,
            ..ready()
        };
        let entry = Entry::send_back(station, 45, asked, granted);
        hand(at_desk(station, desk), &entry)
    };
    let bare = Desk {
        holds: 1,
        ..Desk::default()
    };
    let entry = Entry::send_back(station, 0, 0, 0);
    vec![
        ("14: no guest, 1 held", back(1, 0, 0)),
        ("14: no guest, 8 held, a grant", back(8, 2, 3)),
        (
            "14: no guest, 1 held and nothing else",
            hand(at_desk(station, bare), &entry),
        ),
    ]
}

/// The guest is the other master's to send back.
fn guest_at_the_other_desk(station: Station) -> Vec<Named> {
    let back = |holds, held_there| {
        let holding = Desk {
            guest: 0,
            holds,
            ..ready()
        };
        let mut section = at_desk(station, holding);
        *section.desk_mut(station.other()) = Desk {
            guest: 2,
            asked: 8,
            holds: held_there,
            ..Desk::default()
        };
        hand(section, &Entry::send_back(station, 45, 0, 2))
    };
    vec![
        ("14: 3 held, the guest is at the other desk", back(3, 0)),
        (
            "14: 8 held, the guest is at the other desk, which holds 6",
            back(8, 6),
        ),
    ]
}

/// Not in force; then everything that bars a RETURN at once, taken away one after
/// the other, while 8 are held.
fn refusals_in_their_order(station: Station) -> Vec<Named> {
    let mut desk = barred();
    desk.holds = 8;
    let back = |desk: Desk, time, granted| {
        let entry = Entry::send_back(station, time, 0, granted);
        hand(at_desk(station, desk), &entry)
    };
    let not_in_force = hand(Section::fresh(), &Entry::send_back(station, 0, 0, 4));
    let mut named = vec![("7: not in force", not_in_force)];
    named.push(("9: before all that follow it", back(desk, 29, 4)));
    named.push(("14: before all that follow it", back(desk, 30, 4)));
    desk.guest = 4;
    named.push(("16: before all that follow it", back(desk, 30, 4)));
    named.push(("17: before all that follow it", back(desk, 30, 3)));
    desk.sent = 11;
    named.push(("18: before 19", back(desk, 30, 3)));
    desk.last_form = 9_998;
    named.push(("19: nothing else is left", back(desk, 59, 3)));
    named.push(("nothing is left against it", back(desk, 60, 3)));
    named
}

/// What is held bars OPEN and THROUGH, with a guest and without.
fn without_line_clear(station: Station) -> Vec<Named> {
    let leave = |entry: Entry, guest, holds| {
        let desk = Desk {
            out: false,
            guest,
            holds,
            owes: 0,
            ..ready()
        };
        hand(at_desk(station, desk), &entry)
    };
    let open = Entry::open(station, 45, 1, 2, 3);
    let through = Entry::through(station, 45, 1);
    vec![
        ("11: an OPEN, 1 held", leave(open, 0, 1)),
        ("11: an OPEN, 8 held, with a guest", leave(open, 4, 8)),
        ("11: a THROUGH, 8 held", leave(through, 0, 8)),
        ("11: a THROUGH, 1 held, with a guest", leave(through, 4, 1)),
    ]
}

/// Bytes of several entries: the guest goes, a second RETURN finds none, and the
/// trains that the line clears are for leave behind it.
fn trains_behind_the_guest(station: Station) -> Vec<Named> {
    let desk = Desk {
        holds: 2,
        owes: 0,
        ..ready()
    };
    let entries = [
        Entry::send_back(station, 45, 0, 3),
        Entry::send_back(station, 75, 0, 0),
        Entry::train(station, 75, 1, 0, 0),
        Entry::train(station, 105, 1, 0, 0),
        Entry::train(station, 135, 1, 0, 0),
    ];
    let bytes = entries.iter().flat_map(bytes_of).collect();
    vec![(
        "2 held, two trains behind the guest",
        (at_desk(station, desk), bytes),
    )]
}

#[cfg(test)]
mod tests {
    use super::*;
    use crate::cases::named::number;
    use crate::cases::runs;
    use crate::edition::Edition;
    use crate::entry::Kind;
    use crate::section::Vehicle;
    use crate::step::{step, step_by, Accepted, Speed};

    fn number_named(name: &str) -> u8 {
        let digits: String = name.chars().take_while(char::is_ascii_digit).collect();
        match name.strip_prefix(&digits) {
            Some(rest) if rest.starts_with(':') => digits.parse().unwrap(),
            _ => 0,
        }
    }

    #[test]
    fn a_name_starts_with_the_number_of_its_refusal() {
        for station in Station::BOTH {
            for (name, (section, bytes)) in named_at(station) {
                assert!(section.is_well_made(), "{name}");
                let answer = step(&section, &bytes).0;
                assert_eq!(number(answer), number_named(name), "{name}");
            }
        }
    }

    /// Every figure of the desk and of the vehicle after a guest was sent back, by
    /// what it was sent back with.
    #[test]
    fn what_is_held_stays_and_only_a_grant_is_owed() {
        // Holds, owes and waiting; asked and granted aboard; the guest's class.
        let expected = [
            ([1, 2, 6], [0, 0], 4),
            ([1, 3, 6], [0, 3], 4),
            ([8, 2, 6], [6, 0], 4),
            ([8, 1, 6], [0, 1], 4),
            ([5, 2, 6], [8, 2], 4),
            ([5, 8, 6], [0, 0], 4),
            ([3, 0, 8], [0, 0], 4),
            ([2, 2, 0], [1, 0], 1),
            ([7, 0, 0], [0, 0], 2),
            ([8, 8, 8], [8, 8], 5),
        ];
        for station in Station::BOTH {
            let cases = guests_sent_back(station);
            assert_eq!(cases.len(), expected.len());
            for ((name, (section, bytes)), (clears, [asked, granted], class)) in
                cases.into_iter().zip(expected)
            {
                let before = section.desk(station);
                let (answer, after) = step(&section, &bytes);
                let form = before.last_form + 1;
                let time = u16::from_be_bytes([bytes[3], bytes[4]]);
                let [holds, owes, waiting] = clears;
                let desk = Desk {
                    clock: time,
                    last_form: form,
                    sent: before.sent + 1,
                    interval: Some(time),
                    out: before.out,
                    guest: 0,
                    asked: 0,
                    holds,
                    owes,
                    waiting,
                };
                assert_eq!(*after.desk(station), desk, "{name}");
                assert_eq!(after.desk(station.other()), &Desk::default(), "{name}");
                let vehicle = Vehicle {
                    left_on: Some(Kind::Return),
                    sender: station.number(),
                    form,
                    heading: station.other().number(),
                    class,
                    asked,
                    granted,
                    ..Vehicle::default()
                };
                assert_eq!(after.vehicles(), [vehicle], "{name}");
                let ticket = if station == Station::A { 8 } else { 16 };
                let messages = 2 * u16::from(asked > 0) + 4 * u16::from(granted > 0);
                let accepted = Accepted {
                    form,
                    forms: ticket + 32 + 128 + messages,
                    speed: Speed::Booked,
                };
                assert_eq!(answer, Ok(accepted), "{name}");
            }
        }
    }

    /// The step before T-08 answers 11 wherever a RETURN is not 7 or 9.
    #[test]
    fn before_t_08_all_of_them_were_11_behind_7_and_9() {
        for (name, (mut section, bytes)) in named_at(Station::B) {
            let answer = step_by(Edition::BeforeT08, &mut section, &bytes);
            let expected = match number_named(name) {
                early @ (7 | 9) => early,
                _ => 11,
            };
            assert_eq!(number(answer), expected, "{name}");
        }
    }

    #[test]
    fn every_refusal_of_a_return_is_among_them_in_its_order() {
        let named = refusals_in_their_order(Station::A);
        let numbers: Vec<u8> = named.iter().map(|(name, _)| number_named(name)).collect();
        assert_eq!(numbers, [7, 9, 14, 16, 17, 18, 19, 0]);
        for (name, (section, _)) in &named[1..] {
            assert_eq!(section.desks[0].holds, 8, "{name}");
        }
    }

    #[test]
    fn the_trains_leave_behind_the_guest() {
        for station in Station::BOTH {
            let [(_, (section, bytes))] = &trains_behind_the_guest(station)[..] else {
                panic!("one case");
            };
            let (answers, after) = runs::run(section, bytes);
            let numbers: Vec<u8> = answers.into_iter().map(number).collect();
            assert_eq!(numbers, [0, 14, 0, 0, 15]);
            let desk = after.desk(station);
            assert_eq!([desk.holds, desk.owes, desk.waiting], [0, 3, 6]);
        }
    }
}
