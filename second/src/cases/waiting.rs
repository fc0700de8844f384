//! Line clears held, owed and waiting together, mostly as no log from the fresh
//! section has them: what departures, receipts and declarations do with them.

use super::named::Named;
use super::sections::{at_desk, hand, one_vehicle, vehicle, Handed};
use crate::entry::{Entry, Kind};
use crate::section::{Desk, Section, Station, Vehicle};

/// Holds, owes and waiting of a desk.
type Clears = [u8; 3];

pub(super) fn named_at(station: Station) -> Vec<Named> {
    [
        grants_received(station),
        receipts_without_a_grant(station),
        receipts_of_engines(station),
        replies_by_train(station),
        replies_by_return(station),
        while_clears_wait(station),
        declarations(station),
    ]
    .concat()
}

/// A vehicle that the other station sent with line clears for this one.
fn granting(kind: Kind, station: Station, granted: u8) -> Vehicle {
    Vehicle {
        granted,
        ..vehicle(kind, station.other(), 20)
    }
}

/// The receipt of the one vehicle in the section.
fn receipt(station: Station, clears: Clears, vehicle: Vehicle) -> Handed {
    let section = one_vehicle(vehicle, station, |desk| {
        [desk.holds, desk.owes, desk.waiting] = clears;
    });
    let own = vehicle.is_from(station);
    let sender = if own { station } else { station.other() };
    hand(section, &Entry::receive(station, 50, sender, vehicle.form))
}

fn grants_received(station: Station) -> Vec<Named> {
    let train = |clears, granted| receipt(station, clears, granting(Kind::Train, station, granted));
    let back = |clears, granted| receipt(station, clears, granting(Kind::Return, station, granted));
    vec![
        ("a grant waits while more is owed", train([0, 2, 0], 2)),
        ("a grant that waits keeps holds", train([5, 2, 0], 2)),
        ("a second grant replaces what waits", train([0, 3, 5], 2)),
        ("a second grant is not added", train([0, 8, 8], 8)),
        ("the last train owed brings a grant", train([5, 1, 0], 2)),
        (
            "the last train owed replaces what waits",
            train([0, 1, 4], 2),
        ),
        ("a grant moves where none is owed", train([5, 0, 0], 8)),
        (
            "a grant replaces what waits where none is owed",
            train([5, 0, 4], 2),
        ),
        (
            "a RETURN's grant waits while more is owed",
            back([5, 1, 0], 2),
        ),
        ("a RETURN's grant replaces what waits", back([0, 1, 4], 2)),
        (
            "a RETURN's grant moves where none is owed",
            back([5, 0, 0], 2),
        ),
        (
            "a RETURN's grant replaces what waits where none is owed",
            back([5, 0, 4], 2),
        ),
    ]
}

fn receipts_without_a_grant(station: Station) -> Vec<Named> {
    let train = |clears| receipt(station, clears, granting(Kind::Train, station, 0));
    let back = |clears| receipt(station, clears, granting(Kind::Return, station, 0));
    vec![
        ("a TRAIN keeps holds, more is owed", train([5, 2, 0])),
        ("a TRAIN keeps holds, the last owed", train([5, 1, 0])),
        ("a TRAIN keeps holds, none is owed", train([5, 0, 0])),
        ("a TRAIN leaves what waits, more is owed", train([0, 2, 4])),
        ("the last TRAIN owed moves what waits", train([0, 1, 4])),
        ("a TRAIN moves what waits, none is owed", train([5, 0, 4])),
        ("a RETURN keeps holds, more is owed", back([5, 1, 0])),
        ("a RETURN keeps holds, none is owed", back([5, 0, 0])),
        ("a RETURN leaves what waits", back([5, 1, 4])),
        ("a RETURN moves what waits", back([5, 0, 4])),
    ]
}

fn receipts_of_engines(station: Station) -> Vec<Named> {
    let other = station.other();
    let of = |kind, sender, clears| receipt(station, clears, vehicle(kind, sender, 20));
    let open = |sender, clears| of(Kind::Open, sender, clears);
    let through = |sender, clears| of(Kind::Through, sender, clears);
    vec![
        ("its own OPEN moves what waits", open(station, [5, 0, 4])),
        (
            "its own THROUGH moves what waits",
            through(station, [5, 0, 4]),
        ),
        ("an OPEN moves what waits", open(other, [5, 0, 4])),
        ("a THROUGH moves what waits", through(other, [0, 0, 8])),
        ("its own OPEN while it owes", open(station, [5, 1, 4])),
        ("its own THROUGH while it owes", through(station, [0, 8, 8])),
        ("an OPEN while it owes", open(other, [5, 1, 4])),
        ("a THROUGH while it owes", through(other, [5, 1, 4])),
        ("its own OPEN, none waiting", open(station, [5, 0, 0])),
        ("a THROUGH, none waiting", through(other, [5, 0, 0])),
        (
            "its own TRAIN may not enter",
            of(Kind::Train, station, [5, 0, 4]),
        ),
    ]
}

/// A station that is asked for three trains and has no vehicle away.
fn asked_for_three(station: Station, guest: u8, clears: Clears) -> Section {
    let [holds, owes, waiting] = clears;
    let desk = Desk {
        guest,
        asked: 3,
        holds,
        owes,
        waiting,
        ..Desk::default()
    };
    at_desk(station, desk)
}

fn replies_by_train(station: Station) -> Vec<Named> {
    let train = |clears, granted| {
        let entry = Entry::train(station, 0, 1, 0, granted);
        hand(asked_for_three(station, 0, clears), &entry)
    };
    vec![
        ("a grant ahead of the last train", train([2, 0, 0], 3)),
        ("a grant ahead of seven trains", train([8, 0, 5], 1)),
        ("a grant with the last train", train([1, 0, 5], 3)),
        (
            "more than was asked ahead of the last train",
            train([2, 0, 0], 4),
        ),
        ("a grant while the station owes", train([1, 1, 0], 1)),
        (
            "all that was asked while the station owes",
            train([2, 8, 4], 3),
        ),
        ("no grant while the station owes", train([2, 1, 4], 0)),
        (
            "the last train without a grant while the station owes",
            train([1, 8, 0], 0),
        ),
        (
            "no line clear is held though some wait",
            train([0, 0, 8], 0),
        ),
    ]
}

fn replies_by_return(station: Station) -> Vec<Named> {
    let back = |clears, granted| {
        let entry = Entry::send_back(station, 0, 0, granted);
        hand(asked_for_three(station, 2, clears), &entry)
    };
    vec![
        ("a RETURN grants while it owes more", back([0, 4, 0], 3)),
        ("a RETURN grants while it owes less", back([0, 1, 6], 3)),
        ("a RETURN grants nothing while it owes", back([0, 4, 6], 0)),
        ("a RETURN grants more than was asked", back([0, 4, 6], 4)),
    ]
}

/// No refusal reads what waits, and no departure alters it.
fn while_clears_wait(station: Station) -> Vec<Named> {
    let waits = |waiting| {
        let desk = Desk {
            waiting,
            ..Desk::default()
        };
        at_desk(station, desk)
    };
    let through = Entry::through(station, 0, 1);
    vec![
        (
            "an OPEN leaves while clears wait",
            hand(waits(8), &Entry::open(station, 0, 1, 1, 1)),
        ),
        ("a THROUGH leaves while 8 wait", hand(waits(8), &through)),
        ("9 may not wait", hand(waits(9), &through)),
    ]
}

fn declarations(station: Station) -> Vec<Named> {
    let in_force = asked_for_three(station, 2, [5, 1, 4]);
    let mut not_in_force = Section::fresh();
    not_in_force.desk_mut(station).waiting = 8;
    vec![
        (
            "RESUME leaves none waiting",
            hand(in_force.clone(), &Entry::resume()),
        ),
        (
            "BEGIN in force keeps what waits",
            hand(in_force, &Entry::begin()),
        ),
        (
            "not in force none waits",
            hand(not_in_force, &Entry::begin()),
        ),
    ]
}

#[cfg(test)]
mod tests {
    use super::*;
    use crate::cases::named::number;
    use crate::step::step;

    /// The number of the refusal, 0 where there is none, and the clears after it.
    fn outcome(station: Station, (section, bytes): &Handed) -> (u8, Clears) {
        let (answer, after) = step(section, bytes);
        let desk = after.desk(station);
        (number(answer), [desk.holds, desk.owes, desk.waiting])
    }

    #[track_caller]
    fn expect(named: fn(Station) -> Vec<Named>, expected: &[(&str, u8, Clears)]) {
        for station in Station::BOTH {
            let outcomes: Vec<(&str, u8, Clears)> = named(station)
                .iter()
                .map(|(name, handed)| {
                    let (number, clears) = outcome(station, handed);
                    (*name, number, clears)
                })
                .collect();
            assert_eq!(outcomes, expected);
        }
    }

    #[test]
    fn a_grant_received_takes_the_place_of_what_waits() {
        expect(
            grants_received,
            &[
                ("a grant waits while more is owed", 0, [0, 1, 2]),
                ("a grant that waits keeps holds", 0, [5, 1, 2]),
                ("a second grant replaces what waits", 0, [0, 2, 2]),
                ("a second grant is not added", 0, [0, 7, 8]),
                ("the last train owed brings a grant", 0, [2, 0, 0]),
                ("the last train owed replaces what waits", 0, [2, 0, 0]),
                ("a grant moves where none is owed", 0, [8, 0, 0]),
                (
                    "a grant replaces what waits where none is owed",
                    0,
                    [2, 0, 0],
                ),
                ("a RETURN's grant waits while more is owed", 0, [5, 1, 2]),
                ("a RETURN's grant replaces what waits", 0, [0, 1, 2]),
                ("a RETURN's grant moves where none is owed", 0, [2, 0, 0]),
                (
                    "a RETURN's grant replaces what waits where none is owed",
                    0,
                    [2, 0, 0],
                ),
            ],
        );
    }

    #[test]
    fn a_receipt_without_a_grant_keeps_holds_unless_something_moves() {
        expect(
            receipts_without_a_grant,
            &[
                ("a TRAIN keeps holds, more is owed", 0, [5, 1, 0]),
                ("a TRAIN keeps holds, the last owed", 0, [5, 0, 0]),
                ("a TRAIN keeps holds, none is owed", 0, [5, 0, 0]),
                ("a TRAIN leaves what waits, more is owed", 0, [0, 1, 4]),
                ("the last TRAIN owed moves what waits", 0, [4, 0, 0]),
                ("a TRAIN moves what waits, none is owed", 0, [4, 0, 0]),
                ("a RETURN keeps holds, more is owed", 0, [5, 1, 0]),
                ("a RETURN keeps holds, none is owed", 0, [5, 0, 0]),
                ("a RETURN leaves what waits", 0, [5, 1, 4]),
                ("a RETURN moves what waits", 0, [4, 0, 0]),
            ],
        );
    }

    #[test]
    fn the_receipt_of_an_engine_moves_what_waits_where_none_is_owed() {
        expect(
            receipts_of_engines,
            &[
                ("its own OPEN moves what waits", 0, [4, 0, 0]),
                ("its own THROUGH moves what waits", 0, [4, 0, 0]),
                ("an OPEN moves what waits", 0, [4, 0, 0]),
                ("a THROUGH moves what waits", 0, [8, 0, 0]),
                ("its own OPEN while it owes", 0, [5, 1, 4]),
                ("its own THROUGH while it owes", 0, [0, 8, 8]),
                ("an OPEN while it owes", 0, [5, 1, 4]),
                ("a THROUGH while it owes", 0, [5, 1, 4]),
                ("its own OPEN, none waiting", 0, [5, 0, 0]),
                ("a THROUGH, none waiting", 0, [5, 0, 0]),
                ("its own TRAIN may not enter", 21, [5, 0, 4]),
            ],
        );
    }

    #[test]
    fn a_reply_goes_with_any_train_unless_its_station_owes() {
        expect(
            replies_by_train,
            &[
                ("a grant ahead of the last train", 0, [1, 3, 0]),
                ("a grant ahead of seven trains", 0, [7, 1, 5]),
                ("a grant with the last train", 0, [0, 3, 5]),
                ("more than was asked ahead of the last train", 16, [2, 0, 0]),
                ("a grant while the station owes", 16, [1, 1, 0]),
                ("all that was asked while the station owes", 16, [2, 8, 4]),
                ("no grant while the station owes", 0, [1, 1, 4]),
                (
                    "the last train without a grant while the station owes",
                    0,
                    [0, 8, 0],
                ),
                ("no line clear is held though some wait", 15, [0, 0, 8]),
            ],
        );
        expect(
            replies_by_return,
            &[
                ("a RETURN grants while it owes more", 0, [0, 3, 0]),
                ("a RETURN grants while it owes less", 0, [0, 3, 6]),
                ("a RETURN grants nothing while it owes", 0, [0, 4, 6]),
                ("a RETURN grants more than was asked", 16, [0, 4, 6]),
            ],
        );
    }

    #[test]
    fn what_waits_bars_nothing_and_ends_with_the_working() {
        expect(
            while_clears_wait,
            &[
                ("an OPEN leaves while clears wait", 0, [0, 0, 8]),
                ("a THROUGH leaves while 8 wait", 0, [0, 0, 8]),
                ("9 may not wait", 5, [0, 0, 9]),
            ],
        );
        expect(
            declarations,
            &[
                ("RESUME leaves none waiting", 0, [0, 0, 0]),
                ("BEGIN in force keeps what waits", 6, [5, 1, 4]),
                ("not in force none waits", 5, [0, 0, 8]),
            ],
        );
    }

    /// The other desk has its own line clears, which a receipt leaves alone.
    #[test]
    fn every_figure_that_is_altered_is_the_stations() {
        for station in Station::BOTH {
            for (name, (section, bytes)) in named_at(station) {
                let (_, after) = step(&section, &bytes);
                let other = station.other();
                if after.in_force {
                    assert_eq!(after.desk(other), section.desk(other), "{name}");
                }
            }
        }
    }
}
