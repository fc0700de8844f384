//! The double line of request T-05, rule by rule: departures, receipts, beginning
//! and ending, refusals and their counts, and what is well made.

mod common;

use common::{answer, step_and_test};
use second::double::{self, Desk, Section};
use second::{Entry, Kind, Refusal, Refused, Speed, Station};
use Station::{A, B};

type Register = common::Register<Section>;

const SPEEDS: Speed = Speed::Two {
    straight: 25,
    elsewhere: 10,
};

fn train(station: Station, time: u16) -> Entry {
    Entry::double_line_train(station, time)
}

/// The receipt of what the other station has sent.
fn receipt(station: Station, time: u16, form: u16) -> Entry {
    Entry::receive(station, time, station.other(), form)
}

/// So many departures of a station, 30 minutes apart from minute 0 on.
fn with_departures(station: Station, departures: u16) -> Register {
    let mut register = Register::double_begun();
    for sent in 0..departures {
        let form = register.accept(train(station, 30 * sent)).form;
        assert_eq!(form, sent + 1);
    }
    register
}

fn counts(for_a: u32, for_b: u32, of_none: u32) -> Refused {
    Refused {
        for_a,
        for_b,
        of_none,
    }
}

#[test]
fn a_departure_gives_the_next_form_and_both_speeds() {
    for station in Station::BOTH {
        let mut register = Register::double_begun();
        assert_eq!(register.accept(train(station, 5)), answer(1, 256, SPEEDS));
        assert_eq!(register.accept(train(station, 35)), answer(2, 256, SPEEDS));
        let expected = Desk {
            clock: 35,
            last_form: 2,
            interval: Some(35),
            places: [1, 2, 0, 0, 0, 0, 0, 0, 0, 0, 0, 0],
            present: 2,
        };
        assert_eq!(register.section.desk(station), &expected);
        // Nothing of the other station's is altered.
        assert_eq!(register.section.desk(station.other()), &Desk::default());
        assert_eq!(SPEEDS.to_string(), "25/10");
    }
}

#[test]
fn a_receipt_takes_the_first_and_leaves_every_interval() {
    for station in Station::BOTH {
        let mut register = with_departures(station.other(), 3);
        register.accept(train(station, 100));
        let own = *register.section.desk(station);
        let other = *register.section.desk(station.other());
        let accepted = register.accept(receipt(station, 110, 1));
        assert_eq!(accepted, answer(0, 0, Speed::None));
        assert_eq!(
            register.section.desk(station),
            &Desk { clock: 110, ..own },
            "its clock alone"
        );
        let mut places = [0; 12];
        places[..2].copy_from_slice(&[2, 3]);
        let left = Desk {
            places,
            present: 2,
            ..other
        };
        assert_eq!(register.section.desk(station.other()), &left);
        // On a single line the receipt would have stopped the interval.
        register.refuse(19, train(station, 129));
        register.accept(train(station, 130));
    }
}

#[test]
fn each_station_has_its_own_clock_forms_interval_and_line() {
    let mut register = with_departures(A, 4);
    assert_eq!(register.accept(train(B, 7)).form, 1);
    assert_eq!(register.accept(train(B, 37)).form, 2);
    register.accept(receipt(A, 95, 1));
    register.accept(receipt(B, 40, 1));
    assert_eq!(register.section.desk(A).line(), [2, 3, 4]);
    assert_eq!(register.section.desk(B).line(), [2]);
    assert_eq!(register.section.desks.map(|desk| desk.clock), [95, 40]);
}

#[test]
fn a_follower_at_29_and_at_30_minutes() {
    for station in Station::BOTH {
        let mut register = Register::double_begun();
        register.accept(train(station, 10));
        register.refuse(19, train(station, 10));
        register.refuse(19, train(station, 39));
        register.accept(train(station.other(), 39));
        register.accept(train(station, 40));
    }
}

#[test]
fn the_interval_at_the_clocks_end() {
    for station in Station::BOTH {
        let mut register = Register::double_begun();
        register.accept(train(station, 65_505));
        register.refuse(19, train(station, 65_534));
        // 65,505 and 30 are the last minute.
        register.accept(train(station, 65_535));
        let mut register = Register::double_begun();
        register.accept(train(station, 65_520));
        // 65,520 and 30 do not fit the clock, so no departure follows.
        register.refuse(19, train(station, 65_520));
        register.refuse(19, train(station, 65_535));
        register.accept(receipt(station.other(), 65_535, 1));
        register.refuse(19, train(station, 65_535));
    }
}

#[test]
fn time_equal_to_the_clock_and_one_less() {
    for station in Station::BOTH {
        let mut register = with_departures(station.other(), 3);
        register.accept(receipt(station, 500, 1));
        register.refuse(9, receipt(station, 499, 2));
        register.refuse(9, train(station, 499));
        register.accept(receipt(station, 500, 2));
        register.accept(train(station, 500));
        register.refuse(9, train(station, 499));
        // The other clock is never compared.
        register.accept(receipt(station.other(), 60, 1));
    }
}

#[test]
fn twelve_on_a_line_and_no_more() {
    for station in Station::BOTH {
        let mut register = with_departures(station, 12);
        register.refuse(17, train(station, 360));
        // It is about the line, not about the other's.
        for sent in 0..12 {
            register.accept(train(station.other(), 30 * sent));
        }
        register.refuse(17, train(station.other(), 360));
        register.refuse(8, Entry::resume());
        // There is no taking back, so only a receipt makes room.
        register.refuse(20, Entry::receive(station, 360, station, 1));
        register.accept(receipt(station, 360, 1));
        register.refuse(17, train(station, 360));
        register.accept(receipt(station.other(), 330, 1));
        assert_eq!(register.accept(train(station, 360)).form, 13);
        let line: Vec<u16> = (2..=13).collect();
        assert_eq!(register.section.desk(station).line(), line);
    }
}

/// Neighbours that change places are not claimed on a double line: the twelve that
/// count are those still on it.
#[test]
fn the_thirteenth_departure_and_a_receipt_before_it_do_not_change_places() {
    for station in Station::BOTH {
        let other = station.other();
        let mut register = with_departures(station, 12);
        register.accept(receipt(other, 0, 1));
        assert_eq!(register.accept(train(station, 360)).form, 13);
        let mut register = with_departures(station, 12);
        register.refuse(17, train(station, 360));
        register.accept(receipt(other, 0, 1));
    }
}

/// At most 2,185 departures fit the clock, so no log leads to form 9,999.
#[test]
fn the_last_form_off_fresh() {
    for station in Station::BOTH {
        let mut register = Register::double_begun();
        register.section.desk_mut(station).last_form = 9_998;
        assert_eq!(register.accept(train(station, 0)).form, 9_999);
        register.refuse(18, train(station, 30));
        register.accept(receipt(station.other(), 0, 9_999));
        register.refuse(18, train(station, 65_535));
        // 18 comes before 19 and behind 9 and 17.
        register.refuse(18, train(station, 0));
        let desk = register.section.desk_mut(station);
        desk.clock = 5;
        (desk.places, desk.present) = (std::array::from_fn(|place| place as u16 + 1), 12);
        register.refuse(9, train(station, 4));
        register.refuse(17, train(station, 5));
    }
}

#[test]
fn departures_that_fit_the_clock() {
    let mut register = Register::double_begun();
    for sent in 0..2_185 {
        assert_eq!(register.accept(train(A, 30 * sent)).form, sent + 1);
        register.accept(receipt(B, 0, sent + 1));
    }
    register.refuse(19, train(A, u16::MAX));
    assert_eq!(register.section.desk(A).last_form, 2_185);
}

#[test]
fn any_arrival_but_the_first_still_on_the_others_line_is_20() {
    for station in Station::BOTH {
        let other = station.other();
        let mut register = with_departures(other, 3);
        register.refuse(20, receipt(station, 0, 2));
        register.refuse(20, receipt(station, 0, 3));
        register.refuse(20, receipt(station, 0, 4));
        register.refuse(20, receipt(station, 0, 257));
        // One's own station, whether or not one's own line has the number.
        register.refuse(20, Entry::receive(station, 0, station, 1));
        register.accept(train(station, 0));
        register.refuse(20, Entry::receive(station, 0, station, 1));
        // The other does not take back what it sent.
        register.refuse(20, Entry::receive(other, 60, other, 1));
        for form in 1..=3 {
            register.accept(receipt(station, 0, form));
            register.refuse(20, receipt(station, 0, form));
        }
        register.refuse(20, receipt(station, 0, 4));
    }
}

#[test]
fn beginning_and_ending() {
    let mut register = Register::double();
    register.refuse(7, Entry::resume());
    register.refuse(7, train(A, 0));
    register.refuse(7, receipt(B, 0, 1));
    register.accept(Entry::begin());
    register.refuse(6, Entry::begin());
    register.accept(train(A, 10));
    register.refuse(8, Entry::resume());
    register.accept(receipt(B, 20, 1));
    register.accept(train(B, 20));
    register.refuse(8, Entry::resume());
    register.accept(receipt(A, 30, 1));
    let refused = counts(1, 1, 4);
    assert_eq!(register.section.refused, refused);
    register.accept(Entry::resume());
    let idle = Section {
        refused,
        ..Section::fresh()
    };
    assert_eq!(register.section, idle);
    register.accept(Entry::begin());
    let begun = Section {
        in_force: true,
        ..idle
    };
    assert_eq!(register.section, begun);
    // Clocks, form numbers and intervals are as fresh.
    assert_eq!(register.accept(train(A, 0)).form, 1);
}

#[test]
fn a_refusal_is_the_entrys_stations_or_nobodys() {
    let mut register = with_departures(A, 12);
    register.refuse(17, train(A, 400));
    register.refuse(9, train(A, 0));
    register.refuse(20, receipt(A, 400, 1));
    assert_eq!(register.section.refused, counts(3, 0, 0));
    // The receipt is the receiving station's, whomever it names.
    register.refuse(20, receipt(B, 0, 2));
    register.refuse(20, Entry::receive(B, 0, B, 1));
    assert_eq!(register.section.refused, counts(3, 2, 0));
    register.refuse(6, Entry::begin());
    register.refuse(8, Entry::resume());
    assert_eq!(register.section.refused, counts(3, 2, 2));
}

#[test]
fn bytes_that_are_no_entry_are_of_no_station() {
    let no_entries: [(u8, &[u8]); 20] = [
        (1, &[]),
        (1, &[0x07, 5, 1]),
        (1, &[0x87, 6, 1, 0, 0, 2, 0]),
        (2, &[0x00]),
        (2, &[0x01, 0]),
        (2, &[0x01, 10]),
        // The other kinds of the single line, with their own maps.
        (2, &[0x3F, 2, 1, 0, 0, 1, 1, 2]),
        (2, &[0x1F, 3, 1, 0, 0, 1, 1]),
        (2, &[0x07, 4, 1, 0, 0]),
        (2, &[0x83, 7, 1, 1, 0, 1]),
        (2, &[0x0F, 9, 1, 0, 0, 1]),
        // A kind of none comes before its map and its fields.
        (2, &[0x0B, 9, 3, 9]),
        // A TRAIN with a view or messages, and others with a bit off.
        (3, &[0x0F, 5, 1, 0, 0, 1]),
        (3, &[0x67, 5, 1, 0, 0, 1, 1]),
        (3, &[0x03, 1, 1]),
        (3, &[0x07, 6, 1, 0, 0]),
        (4, &[0x07, 5, 3, 0, 0]),
        (4, &[0x87, 6, 0, 0, 0, 2, 0, 1]),
        (4, &[0x87, 6, 1, 0, 0, 3, 0, 1]),
        (4, &[0x87, 6, 1, 0, 0, 2, 0x27, 0x10]),
    ];
    for mut register in [Register::double(), Register::double_begun()] {
        for (number, bytes) in no_entries {
            let answer = step_and_test(&mut register.section, bytes);
            assert_eq!(answer.map_err(Refusal::number), Err(number), "{bytes:?}");
        }
        assert_eq!(register.section.refused, counts(0, 0, 20));
    }
}

#[test]
fn each_count_stops_at_its_own_largest_value() {
    const MOST: u32 = u32::MAX;
    let refuse_one_of_each = |register: &mut Register| {
        register.refuse(20, receipt(A, 0, 1));
        register.refuse(20, receipt(B, 0, 1));
        register.refuse(6, Entry::begin());
    };
    let mut register = Register::double_begun();
    register.section.refused = counts(MOST - 1, 4, MOST);
    refuse_one_of_each(&mut register);
    assert_eq!(register.section.refused, counts(MOST, 5, MOST));
    refuse_one_of_each(&mut register);
    assert_eq!(register.section.refused, counts(MOST, 6, MOST));
}

#[test]
fn bytes_behind_an_entry_are_not_looked_at() {
    let mut register = Register::double_begun();
    let bytes = [0x07, 5, 1, 0, 0, 0x07, 5, 1, 0, 30, 0xFF];
    let answered = step_and_test(&mut register.section, &bytes);
    assert_eq!(answered, Ok(answer(1, 256, SPEEDS)));
    assert_eq!(register.section.desk(A).line(), [1]);
}

/// In force, with every figure at its largest and lines of twelve and of three.
fn crowded() -> Section {
    let line = |places: [u16; 12], present| Desk {
        clock: 500,
        last_form: 9_999,
        interval: Some(500),
        places,
        present,
    };
    Section {
        in_force: true,
        refused: counts(1, 2, 3),
        desks: [
            line([1, 2, 3, 4, 5, 6, 7, 8, 9, 10, 9_998, 9_999], 12),
            line([7, 9, 9_999, 0, 0, 0, 0, 0, 0, 0, 0, 0], 3),
        ],
    }
}

#[track_caller]
fn alter(kept: bool, change: impl Fn(&mut Section)) {
    let mut section = crowded();
    change(&mut section);
    assert_eq!(section.is_well_made(), kept);
    for bytes in [&[1, 1][..], &[], &[0x07, 5, 2, 2, 0x58]] {
        let (answer, after) = double::step(&section, bytes);
        assert_eq!(answer == Err(Refusal::IllMade), !kept);
        if !kept {
            assert_eq!(after, section, "5 alters and counts nothing");
        }
    }
}

#[test]
fn desks_keep_their_ranges() {
    alter(true, |_| {});
    for place in [0, 1] {
        alter(false, |section| section.desks[place].last_form = 10_000);
        alter(false, |section| section.desks[place].last_form = 9_998);
        alter(false, |section| section.desks[place].interval = Some(501));
        alter(true, |section| section.desks[place].interval = None);
        alter(true, |section| section.desks[place].clock = u16::MAX);
        alter(false, |section| section.desks[place].clock = 499);
        alter(false, |section| section.desks[place].present = 13);
        alter(false, |section| section.desks[place].present = u8::MAX);
    }
}

#[test]
fn lines_rise_from_1_to_the_last_and_unused_places_are_0() {
    for place in [0, 1] {
        alter(false, |section| section.desks[place].places[0] = 0);
        alter(false, |section| section.desks[place].places.swap(0, 1));
        alter(false, |section| section.desks[place].places.swap(1, 2));
        alter(false, |section| {
            let places = &mut section.desks[place].places;
            places[1] = places[2];
        });
        alter(false, |section| section.desks[place].present -= 1);
    }
    alter(false, |section| section.desks[0].places[11] = 9_998);
    alter(false, |section| section.desks[1].places[11] = 1);
    alter(false, |section| section.desks[1].places[3] = 9_999);
    alter(false, |section| section.desks[1].present = 4);
    // Any gap will do, and the same number may be on both lines.
    alter(true, |section| {
        section.desks[1].places[..2].copy_from_slice(&[1, 2])
    });
}

#[test]
fn not_in_force_all_but_the_counts_is_as_fresh() {
    alter(false, |section| section.in_force = false);
    alter(true, |section| {
        *section = Section {
            refused: section.refused,
            ..Section::fresh()
        };
    });
    let changes: [fn(&mut Desk); 5] = [
        |desk| desk.clock = 1,
        |desk| desk.last_form = 1,
        |desk| desk.interval = Some(0),
        |desk| desk.places[5] = 1,
        |desk| desk.present = 1,
    ];
    for change in changes {
        for place in [0, 1] {
            alter(false, |section| {
                *section = Section::fresh();
                change(&mut section.desks[place]);
            });
        }
    }
}

#[test]
fn the_table_has_four_kinds() {
    let table = &second::Table::DOUBLE_LINE;
    let kinds: Vec<Kind> = (0..=u8::MAX)
        .filter_map(|number| table.kind(number))
        .collect();
    let expected = [Kind::Begin, Kind::Train, Kind::Receive, Kind::Resume];
    assert_eq!(kinds, expected);
    let maps = expected.map(|kind| (table.must(kind), table.may(kind)));
    assert_eq!(maps, [(0x01, 0), (0x07, 0), (0x87, 0), (0x01, 0)]);
}
