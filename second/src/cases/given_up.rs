//! Trains endorsed as the last (kind 9) on sections that mostly no log from the
//! fresh section has: what leaves, what is refused, what arrives, and what a
//! record of one may hold.
//!
//! Each case has a name, and both stations have the same names. A name says what
//! the case turns on, in the words of the trade: for a departure what is held and
//! what rides along, for a receipt what the desk owes and what waits there, for a
//! record the figure that it has. Where the case is refused, and only there, the
//! name starts with the refusal's number, and says what stands in the way. What a
//! name leaves out is as in every other case of its list. "The last train" and
//! "it" are a train of kind 9; one of kind 5 is written TRAIN.

use super::named;
use super::sections::{at_desk, begun, hand, one_vehicle, put_vehicles, vehicle, Handed};
use crate::entry::{Entry, Kind};
use crate::section::{Desk, Section, Station, Vehicle};

type Named = named::Named<String>;

pub(super) fn named_at(station: Station) -> Vec<Named> {
    [
        departures(station),
        messages(station),
        limits(station),
        refusals(station),
        refusals_in_their_order(station),
        receipts(station),
        receipts_with_another_behind(station),
        refused_receipts(station),
        meetings(station),
        records(station),
    ]
    .concat()
}

fn name(name: &str, handed: Handed) -> Named {
    (name.to_owned(), handed)
}

/// A desk that may send trains from minute 45 on, with no figure at its least or
/// largest but those that a train's grant looks at.
pub(super) fn ready() -> Desk {
    Desk {
        clock: 30,
        last_form: 7,
        sent: 3,
        interval: Some(15),
        out: true,
        guest: 4,
        asked: 3,
        holds: 2,
        owes: 0,
        waiting: 5,
    }
}

/// From every number of line clears that matters, at every view, with and without
/// a departure counted before it. The desk owes, which bars no train.
fn departures(station: Station) -> Vec<Named> {
    let mut named = Vec::new();
    for holds in [1, 2, 8] {
        for sent in [0, 3] {
            for view in 1..=3 {
                let desk = Desk {
                    holds,
                    sent,
                    owes: 2,
                    ..ready()
                };
                let entry = Entry::last_train(station, 45, view, 0, 0);
                named.push((
                    format!("the last train of {holds} held, {sent} sent, in view {view}"),
                    hand(at_desk(station, desk), &entry),
                ));
            }
        }
    }
    named
}

/// Enquiries and replies that ride with it.
fn messages(station: Station) -> Vec<Named> {
    let leave = |holds, asked, granted| {
        let desk = Desk { holds, ..ready() };
        let entry = Entry::last_train(station, 45, 1, asked, granted);
        hand(at_desk(station, desk), &entry)
    };
    vec![
        name("it asks for 8", leave(2, 8, 0)),
        name("it grants all that was asked", leave(2, 0, 3)),
        name("it grants less than was asked", leave(8, 0, 1)),
        name("it asks and grants", leave(8, 1, 2)),
        name("of 1 held, it asks and grants", leave(1, 8, 3)),
    ]
}

/// The last of everything that may still be used.
fn limits(station: Station) -> Vec<Named> {
    let leave = |desk: Desk, time| {
        let entry = Entry::last_train(station, time, 1, 0, 0);
        hand(at_desk(station, desk), &entry)
    };
    let twelfth = Desk {
        sent: 11,
        ..ready()
    };
    let last_form = Desk {
        last_form: 9_998,
        ..ready()
    };
    let no_interval = Desk {
        interval: None,
        ..ready()
    };
    vec![
        name("the twelfth departure", leave(twelfth, 45)),
        name("form 9,999", leave(last_form, 45)),
        name("half an hour behind another", leave(ready(), 45)),
        name("in the minute of the clock", leave(no_interval, 30)),
        name("in the last minute", leave(ready(), u16::MAX)),
    ]
}

/// Each refusal of a train, with nothing else in the way.
fn refusals(station: Station) -> Vec<Named> {
    let leave = |name: &str, change: fn(&mut Desk), time, granted| {
        let mut desk = ready();
        change(&mut desk);
        let entry = Entry::last_train(station, time, 1, 0, granted);
        (name.to_owned(), hand(at_desk(station, desk), &entry))
    };
    let idle = hand(Section::fresh(), &Entry::last_train(station, 0, 1, 0, 0));
    let owing_8 = |desk: &mut Desk| (desk.holds, desk.owes) = (1, 8);
    vec![
        name("7: not in force", idle),
        leave("9: before the clock", |_| {}, 29, 0),
        leave(
            "15: none held, though some wait",
            |desk| desk.holds = 0,
            45,
            0,
        ),
        leave("15: none held, with a reply", |desk| desk.holds = 0, 45, 1),
        leave("16: one more granted than was asked", |_| {}, 45, 4),
        leave("16: granted, none was asked", |desk| desk.asked = 0, 45, 1),
        leave("16: granted while it owes 1", |desk| desk.owes = 1, 45, 1),
        leave("16: granted while it owes 8, of 1 held", owing_8, 45, 3),
        leave("17: twelve sent", |desk| desk.sent = 12, 45, 0),
        leave("18: form 9,999 used", |desk| desk.last_form = 9_999, 45, 0),
        leave("19: 29 minutes behind another", |_| {}, 44, 0),
    ]
}

/// A desk with 17, 18 and, before minute 60, 19 in the way, asked for 3.
pub(super) fn barred() -> Desk {
    Desk {
        clock: 30,
        last_form: 9_999,
        sent: 12,
        interval: Some(30),
        asked: 3,
        ..Desk::default()
    }
}

/// Each refusal again, with all those of higher numbers in the way as well.
fn refusals_in_their_order(station: Station) -> Vec<Named> {
    let mut desk = barred();
    desk.owes = 1;
    let mut named = Vec::new();
    let mut refused = |number: u8, desk: Desk, time, granted| {
        let entry = Entry::last_train(station, time, 1, 0, granted);
        named.push((
            format!("{number} before all that follow it"),
            hand(at_desk(station, desk), &entry),
        ));
    };
    refused(9, desk, 29, 4);
    refused(15, desk, 30, 4);
    desk.holds = 8;
    refused(16, desk, 30, 4);
    refused(17, desk, 30, 0);
    desk.sent = 11;
    refused(18, desk, 30, 0);
    desk.last_form = 9_998;
    refused(19, desk, 30, 0);
    named
}

/// The last train of the other station. It carries another number of line clears
/// given up than the desk has to spare, so that a sum in place of 0 shows.
fn arriving(station: Station, owes: u8, asked: u8, granted: u8) -> Vehicle {
    Vehicle {
        asked,
        granted,
        given_up: match owes {
            0 => 7,
            1 => 0,
            _ => 2,
        },
        ..vehicle(Kind::LastTrain, station.other(), 20)
    }
}

/// Received at a desk that holds 5 and has been asked for 3, whatever it owes,
/// whether some wait or not, and whatever rides along.
fn receipts(station: Station) -> Vec<Named> {
    let mut named = Vec::new();
    for owes in [0, 1, 8] {
        for waiting in [0, 4] {
            for (asked, granted) in [(0, 0), (6, 0), (0, 2), (6, 2)] {
                let arriving = arriving(station, owes, asked, granted);
                let section = one_vehicle(arriving, station, |desk| {
                    (desk.owes, desk.waiting) = (owes, waiting);
                });
                let entry = Entry::receive(station, 50, station.other(), 20);
                named.push((
                    format!(
                        "owing {owes}, {waiting} waiting, it asks for {asked} and grants {granted}"
                    ),
                    hand(section, &entry),
                ));
            }
        }
    }
    named
}

/// No log has another train of that station behind its last, but a section can be
/// well made with one; and a TRAIN that comes in later finds none owed.
fn receipts_with_another_behind(station: Station) -> Vec<Named> {
    let other = station.other();
    let behind = |nearest: Kind, behind: Kind, owes| {
        let mut section = one_vehicle(vehicle(nearest, other, 20), station, |desk| {
            (desk.owes, desk.waiting) = (owes, 4);
        });
        section.put_in(other, vehicle(behind, other, 19));
        hand(section, &Entry::receive(station, 50, other, 20))
    };
    let (train, last) = (Kind::Train, Kind::LastTrain);
    vec![
        name("with a TRAIN behind it", behind(last, train, 4)),
        name("with another last train behind it", behind(last, last, 6)),
        name(
            "a TRAIN with the last train behind it",
            behind(train, last, 4),
        ),
        name(
            "the last TRAIN owed with the last train behind it",
            behind(train, last, 1),
        ),
    ]
}

fn refused_receipts(station: Station) -> Vec<Named> {
    let other = station.other();
    let receive = |sender: Station, time, named: Station, form| {
        let section = one_vehicle(vehicle(Kind::LastTrain, sender, 20), station, |_| {});
        hand(section, &Entry::receive(station, time, named, form))
    };
    vec![
        name(
            "21: its own may not enter",
            receive(station, 50, station, 20),
        ),
        name(
            "20: its own, on another form",
            receive(station, 50, station, 19),
        ),
        name(
            "20: the other's, on another form",
            receive(other, 50, other, 19),
        ),
        name(
            "20: the other's, by its own name",
            receive(other, 50, station, 20),
        ),
        name("9: the other's, too early", receive(other, 49, other, 20)),
        name("9: its own, too early", receive(station, 49, station, 20)),
    ]
}

/// A last train beside a vehicle that heads towards it, the one nearer A named.
/// Both would go to this station.
fn meetings(station: Station) -> Vec<Named> {
    let meet = |nearer_a: Kind, nearer_b: Kind| {
        let mut section = begun();
        let pair = [
            vehicle(nearer_a, Station::A, 5),
            vehicle(nearer_b, Station::B, 6),
        ];
        put_vehicles(&mut section, &pair);
        for desk in &mut section.desks {
            (desk.sent, desk.last_form) = (1, 6);
        }
        hand(section, &Entry::meet(station, Station::A, 5))
    };
    let last = Kind::LastTrain;
    vec![
        name("22: it is named, an OPEN before it", meet(last, Kind::Open)),
        name(
            "22: it is named, a THROUGH before it",
            meet(last, Kind::Through),
        ),
        name(
            "22: an OPEN is named, it stands next",
            meet(Kind::Open, last),
        ),
        name(
            "22: a THROUGH is named, it stands next",
            meet(Kind::Through, last),
        ),
        name("22: two last trains", meet(last, last)),
    ]
}

/// Records of a last train that this station sent, well made and not; the other
/// station receives it.
fn records(station: Station) -> Vec<Named> {
    let other = station.other();
    let record = |change: fn(&mut Vehicle)| {
        let mut vehicle = vehicle(Kind::LastTrain, station, 20);
        change(&mut vehicle);
        let section = one_vehicle(vehicle, other, |_| {});
        hand(section, &Entry::receive(other, 50, station, 20))
    };
    let turned = |met| {
        let vehicle = Vehicle {
            met,
            heading: station.number(),
            ..vehicle(Kind::LastTrain, station, 20)
        };
        let section = one_vehicle(vehicle, other, |_| {});
        // A train of the other's, which does not look at what is on the line.
        hand(section, &Entry::train(other, 80, 1, 0, 0))
    };
    vec![
        name("given up 0", record(|train| train.given_up = 0)),
        name("given up 7", record(|train| train.given_up = 7)),
        name("5: given up 8", record(|train| train.given_up = 8)),
        name("5: given up 255", record(|train| train.given_up = 255)),
        name(
            "asked 8 and granted 8",
            record(|train| {
                (train.asked, train.granted) = (8, 8);
            }),
        ),
        name("5: asked 9", record(|train| train.asked = 9)),
        name("5: granted 9", record(|train| train.granted = 9)),
        name("5: of class 1", record(|train| train.class = 1)),
        name("5: of class 255", record(|train| train.class = 255)),
        name("5: met", record(|train| train.met = true)),
        name("5: heading to its sender", turned(false)),
        name("5: met and heading to its sender", turned(true)),
    ]
}

#[cfg(test)]
mod tests {
    use super::*;
    use crate::edition::Edition;
    use crate::entry::decode;
    use crate::step::{enter, step, Accepted, Speed};

    /// Asked, holds, owes and waiting of a desk.
    type Clears = [u8; 4];

    fn clears_at(station: Station, section: &Section) -> Clears {
        let desk = section.desk(station);
        [desk.asked, desk.holds, desk.owes, desk.waiting]
    }

    /// The number of the refusal, 0 where there is none, and the clears after it.
    fn outcome(station: Station, (section, bytes): &Handed) -> (u8, Clears) {
        let (answer, after) = step(section, bytes);
        (named::number(answer), clears_at(station, &after))
    }

    /// All of these are accepted and leave these clears at the station.
    #[track_caller]
    fn expect(named: fn(Station) -> Vec<Named>, expected: &[(&str, Clears)]) {
        for station in Station::BOTH {
            let outcomes: Vec<(String, u8, Clears)> = named(station)
                .into_iter()
                .map(|(name, handed)| {
                    let (number, clears) = outcome(station, &handed);
                    (name, number, clears)
                })
                .collect();
            let expected: Vec<(String, u8, Clears)> = expected
                .iter()
                .map(|&(name, clears)| (name.to_owned(), 0, clears))
                .collect();
            assert_eq!(outcomes, expected);
        }
    }

    /// What the station's train has left with, as it stands at its end.
    fn train_of(station: Station, (section, bytes): &Handed) -> (Accepted, Vehicle) {
        let (answer, after) = step(section, bytes);
        (answer.unwrap(), *after.nearest(station).unwrap())
    }

    #[test]
    fn a_name_starts_with_the_number_of_its_refusal() {
        for station in Station::BOTH {
            for (name, handed) in named_at(station) {
                let digits: String = name.chars().take_while(char::is_ascii_digit).collect();
                let named: u8 = digits.parse().unwrap_or(0);
                assert_eq!(outcome(station, &handed).0, named, "{name}");
            }
        }
    }

    #[test]
    fn an_ill_made_record_would_else_let_its_entry_pass() {
        for (name, (mut section, bytes)) in records(Station::A) {
            let entry = decode(&bytes).unwrap();
            let answer = enter(Edition::Today, &mut section, &entry);
            assert!(answer.is_ok(), "{name}");
        }
    }

    #[test]
    fn every_refusal_that_a_last_train_comes_by_is_among_them() {
        let mut numbers: Vec<u8> = named_at(Station::A)
            .iter()
            .map(|(_, handed)| outcome(Station::A, handed).0)
            .collect();
        numbers.sort_unstable();
        numbers.dedup();
        assert_eq!(numbers, [0, 5, 7, 9, 15, 16, 17, 18, 19, 20, 21, 22]);
    }

    #[test]
    fn it_takes_one_line_clear_and_gives_up_the_rest() {
        for station in Station::BOTH {
            let ticket = match station {
                Station::A => 8,
                Station::B => 16,
            };
            let mut cases = departures(station).into_iter();
            for given_up in [0, 1, 7] {
                let follower = [25, 10, 10].map(|straight| Speed::Two {
                    straight,
                    elsewhere: 10,
                });
                for speeds in [[Speed::Booked; 3], follower] {
                    for speed in speeds {
                        let (name, handed) = cases.next().unwrap();
                        let (answer, train) = train_of(station, &handed);
                        let order = if speed == Speed::Booked { 128 } else { 64 };
                        let forms = ticket + 32 + order;
                        let expected = Accepted {
                            form: 8,
                            forms,
                            speed,
                        };
                        assert_eq!(answer, expected, "{name}");
                        assert_eq!(train.left_on, Some(Kind::LastTrain), "{name}");
                        assert_eq!(train.given_up, given_up, "{name}");
                        assert_eq!(outcome(station, &handed).1, [3, 0, 2, 5], "{name}");
                    }
                }
            }
            assert!(cases.next().is_none());
        }
    }

    #[test]
    fn a_reply_that_rides_along_is_owed_and_answers_the_enquiry() {
        expect(
            messages,
            &[
                ("it asks for 8", [3, 0, 0, 5]),
                ("it grants all that was asked", [0, 0, 3, 5]),
                ("it grants less than was asked", [0, 0, 1, 5]),
                ("it asks and grants", [0, 0, 2, 5]),
                ("of 1 held, it asks and grants", [0, 0, 3, 5]),
            ],
        );
        let carried = messages(Station::B).into_iter().map(|(_, handed)| {
            let (answer, train) = train_of(Station::B, &handed);
            (answer.forms, train.asked, train.granted, train.given_up)
        });
        // 16, 32 and 64, with 2 where it asks and 4 where it grants.
        let expected = [
            (114, 8, 0, 1),
            (116, 0, 3, 1),
            (116, 0, 1, 7),
            (118, 1, 2, 7),
            (118, 8, 3, 0),
        ];
        assert_eq!(carried.collect::<Vec<_>>(), expected);
    }

    #[test]
    fn the_receipt_leaves_none_owed_and_moves_what_waits_or_came() {
        for station in Station::BOTH {
            let mut cases = receipts(station).into_iter();
            for _owes in [0, 1, 8] {
                for (waiting, asked, granted) in [
                    (0, 0, 0),
                    (0, 6, 0),
                    (0, 0, 2),
                    (0, 6, 2),
                    (4, 0, 0),
                    (4, 6, 0),
                    (4, 0, 2),
                    (4, 6, 2),
                ] {
                    let (name, handed) = cases.next().unwrap();
                    let asked_for = if asked > 0 { asked } else { 3 };
                    let held = match (granted, waiting) {
                        (0, 0) => 5,
                        (0, _) => waiting,
                        _ => granted,
                    };
                    let expected = (0, [asked_for, held, 0, 0]);
                    assert_eq!(outcome(station, &handed), expected, "{name}");
                }
            }
            assert!(cases.next().is_none());
        }
    }

    #[test]
    fn only_the_last_train_itself_leaves_none_owed() {
        expect(
            receipts_with_another_behind,
            &[
                ("with a TRAIN behind it", [3, 4, 0, 0]),
                ("with another last train behind it", [3, 4, 0, 0]),
                ("a TRAIN with the last train behind it", [3, 5, 3, 4]),
                (
                    "the last TRAIN owed with the last train behind it",
                    [3, 4, 0, 0],
                ),
            ],
        );
    }

    #[test]
    fn the_other_desk_is_left_alone() {
        for station in Station::BOTH {
            let named = [departures(station), messages(station), receipts(station)];
            for (name, (section, bytes)) in named.concat() {
                let (_, after) = step(&section, &bytes);
                let other = station.other();
                assert_eq!(after.desk(other), section.desk(other), "{name}");
            }
        }
    }
}
