//! Refused entries counted for A, for B and of no station (request T-01).

mod common;

use common::{bytes_of, step_and_test, Register};
use second::generator::{log, Options};
use second::{list, refused_for, Entry, Kind, Refusal, Refused, Run, Section, Station};
use Station::{A, B};

const MOST: u32 = u32::MAX;

fn counts(for_a: u32, for_b: u32, of_none: u32) -> Refused {
    Refused {
        for_a,
        for_b,
        of_none,
    }
}

/// An entry of each kind that names this station.
fn entries_at(station: Station) -> [(Kind, Entry); 7] {
    [
        (Kind::Open, Entry::open(station, 0, 1, 1, 1)),
        (Kind::Through, Entry::through(station, 0, 1)),
        (Kind::Return, Entry::send_back(station, 0, 0, 0)),
        (Kind::Train, Entry::train(station, 0, 1, 0, 0)),
        (Kind::LastTrain, Entry::last_train(station, 0, 1, 0, 0)),
        (Kind::Receive, Entry::receive(station, 0, A, 1)),
        (Kind::Meet, Entry::meet(station, A, 1)),
    ]
}

/// Bytes refused with this number that show this station.
fn no_entries_at(station: Station) -> [(u8, Vec<u8>); 7] {
    let station = station.number();
    [
        (1, vec![0x87, 6, station, 0, 0, 1, 0]),
        (2, vec![0x03, 10, station]),
        (3, vec![0x03, 8, station]),
        (3, vec![0x03, 9, station]),
        (4, vec![0x0F, 9, station, 0, 0, 4]),
        (4, vec![0x0F, 5, station, 0, 0, 4]),
        (4, vec![0x83, 7, station, 3, 0, 1]),
    ]
}

#[test]
fn a_refused_step_is_its_stations_or_nobodys() {
    assert_eq!(refused_for(None), None);
    assert_eq!(refused_for(Some(&Entry::begin())), None);
    assert_eq!(refused_for(Some(&Entry::resume())), None);
    for station in Station::BOTH {
        for (kind, entry) in entries_at(station) {
            let whose = (kind != Kind::Meet).then_some(station);
            assert_eq!(refused_for(Some(&entry)), whose, "{entry:?}");
        }
    }
}

#[test]
fn seven_is_the_entrys_stations_but_for_meet_and_resume() {
    let mut register = Register::fresh();
    for (_, entry) in entries_at(A) {
        register.refuse(7, entry);
    }
    assert_eq!(register.section.refused, counts(6, 0, 1));
    for (_, entry) in entries_at(B) {
        register.refuse(7, entry);
    }
    assert_eq!(register.section.refused, counts(6, 6, 2));
    register.refuse(7, Entry::resume());
    assert_eq!(register.section.refused, counts(6, 6, 3));
}

#[test]
fn six_eight_and_twenty_two_are_of_no_station() {
    let mut register = Register::begun();
    register.refuse(6, Entry::begin());
    register.refuse(22, Entry::meet(A, A, 1));
    register.refuse(22, Entry::meet(B, B, 1));
    register.accept(Entry::through(A, 0, 1));
    register.refuse(8, Entry::resume());
    assert_eq!(register.section.refused, counts(0, 0, 4));
}

/// Nine to twenty-one concern the station of the entry.
#[test]
fn what_a_master_or_those_on_the_line_cause_is_the_stations() {
    let mut register = Register::begun();
    register.accept(Entry::open(A, 10, 1, 1, 2));
    register.refuse(9, Entry::through(A, 9, 1));
    register.refuse(10, Entry::through(A, 10, 1));
    register.refuse(20, Entry::receive(B, 0, B, 1));
    assert_eq!(register.section.refused, counts(2, 1, 0));
    register.accept(Entry::receive(B, 0, A, 1));
    register.refuse(13, Entry::through(B, 0, 1));
    register.refuse(16, Entry::send_back(B, 0, 0, 3));
    register.refuse(14, Entry::send_back(A, 10, 0, 0));
    register.refuse(15, Entry::train(A, 10, 1, 0, 0));
    assert_eq!(register.section.refused, counts(4, 3, 0));
    register.accept(Entry::send_back(B, 0, 0, 2));
    register.refuse(12, Entry::through(B, 30, 1));
    // The receipt is B's, though the vehicle goes to A.
    register.refuse(21, Entry::receive(B, 30, B, 1));
    register.accept(Entry::receive(A, 10, B, 1));
    register.refuse(11, Entry::through(A, 10, 1));
    register.accept(Entry::train(A, 10, 1, 0, 0));
    register.refuse(19, Entry::train(A, 39, 1, 0, 0));
    // The receipt is A's, though the vehicle goes to B.
    register.refuse(21, Entry::receive(A, 10, A, 2));
    assert_eq!(register.section.refused, counts(7, 5, 0));
}

#[test]
fn seventeen_and_eighteen_are_the_stations() {
    for station in Station::BOTH {
        let mut register = Register::begun();
        register.section.desk_mut(station).sent = 12;
        register.refuse(17, Entry::through(station, 0, 1));
        let desk = register.section.desk_mut(station);
        (desk.sent, desk.last_form) = (0, 9_999);
        register.refuse(18, Entry::through(station, 0, 1));
        let expected = match station {
            A => counts(2, 0, 0),
            B => counts(0, 2, 0),
        };
        assert_eq!(register.section.refused, expected);
    }
}

#[test]
fn bytes_refused_with_1_to_4_are_of_no_station_though_they_show_one() {
    for mut register in [Register::fresh(), Register::begun()] {
        for station in Station::BOTH {
            for (number, bytes) in no_entries_at(station) {
                let answer = step_and_test(&mut register.section, &bytes);
                assert_eq!(answer.map_err(Refusal::number), Err(number), "{bytes:?}");
            }
        }
        assert_eq!(step_and_test(&mut register.section, &[]), Err(Refusal::Cut));
        assert_eq!(register.section.refused, counts(0, 0, 15));
    }
}

#[test]
fn five_is_counted_nowhere() {
    let refused = counts(1, 2, 3);
    let mut section = Section {
        refused,
        present: 1,
        ..Section::fresh()
    };
    for station in Station::BOTH {
        for (_, entry) in entries_at(station) {
            let answer = step_and_test(&mut section, &bytes_of(&entry));
            assert_eq!(answer, Err(Refusal::IllMade));
        }
        for (_, bytes) in no_entries_at(station) {
            assert_eq!(step_and_test(&mut section, &bytes), Err(Refusal::IllMade));
        }
    }
    assert_eq!(section.refused, refused);
}

#[test]
fn each_count_stops_at_its_own_largest_value() {
    let refuse_one_of_each = |register: &mut Register| {
        register.refuse(20, Entry::receive(A, 0, A, 1));
        register.refuse(20, Entry::receive(B, 0, A, 1));
        register.refuse(22, Entry::meet(A, A, 1));
    };
    let mut register = Register::begun();
    register.section.refused = counts(MOST - 1, 4, MOST);
    refuse_one_of_each(&mut register);
    assert_eq!(register.section.refused, counts(MOST, 5, MOST));
    refuse_one_of_each(&mut register);
    assert_eq!(register.section.refused, counts(MOST, 6, MOST));
    register.section.refused = counts(4, MOST, MOST - 2);
    refuse_one_of_each(&mut register);
    assert_eq!(register.section.refused, counts(5, MOST, MOST - 1));
    register.accept(Entry::resume());
    let expected = Section {
        refused: counts(5, MOST, MOST - 1),
        ..Section::fresh()
    };
    assert_eq!(register.section, expected);
}

#[test]
fn the_three_together_may_be_more_than_one_can_hold() {
    assert_eq!(counts(MOST, MOST, MOST).total(), 3 * 4_294_967_295);
    assert_eq!(counts(1, 20, 300).total(), 321);
}

#[test]
fn the_listing_prints_a_meets_station_and_none_of_bytes_that_are_no_entry() {
    let mut log = Vec::new();
    for station in Station::BOTH {
        log.extend(bytes_of(&Entry::meet(station, A, 1)));
        log.extend(bytes_of(&Entry::train(station, 0, 1, 0, 0)));
    }
    log.extend(bytes_of(&Entry::train(B, 0, 1, 0, 0)));
    log.extend([0x0F, 5, 1, 0, 0, 4]);
    log.extend([0x0F, 5, 1]);
    let listing = "\
1 7 A no 7
2 5 A no 7
3 7 B no 7
4 5 B no 7
5 5 B no 7
6 0 - no 4
7 0 - no 1
end 7 0 1 2 4 0 0 0 0 0
";
    assert_eq!(list(&log), listing);
}

#[test]
fn entries_are_those_accepted_and_the_three_counts() {
    for seed in 0..60 {
        let options = Options {
            accepted: seed % 10 == 0,
            full: seed % 4 == 0,
            ..Options::default()
        };
        let log = log(seed, 300, options);
        let lines: Vec<_> = Run::new(&log).collect();
        let accepted = lines.iter().filter(|line| line.answer.is_ok()).count();
        let refused = Run::new(&log).finish().refused.total();
        assert_eq!(lines.len() as u64, accepted as u64 + refused, "seed {seed}");
    }
}
