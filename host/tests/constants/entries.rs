//! Entries: fields, maps, kinds, stations, views and classes, as the archive
//! writes and reads them, and what a step makes of them.

use lupinshift::{
    at, class, desk, entry_length, kind, map, read_entry, station, view, write_entry, Entry,
    Position, Speed, FIELDS, KINDS, LONGEST_ENTRY,
};

use crate::scenes::{after, bytes_of, number_at, ARRIVE, BEGIN, BEGUN};

const NOTHING: Entry = Entry {
    map: 0,
    kind: 0,
    station: 0,
    time: 0,
    view: 0,
    class: 0,
    asked: 0,
    granted: 0,
    sender: 0,
    number: 0,
};

/// Of a kind that has a map and no other field.
const fn declared(map: u16, kind: u16) -> Entry {
    Entry {
        map,
        kind,
        ..NOTHING
    }
}

/// An OPEN at A in this view, of this class, that asks for 7.
const fn open(view: u16, class: u16) -> Entry {
    Entry {
        map: map::OPEN,
        kind: kind::OPEN,
        station: station::A,
        time: 772,
        view,
        class,
        asked: 7,
        ..NOTHING
    }
}

const LEAVING: Entry = Entry {
    map: map::THROUGH,
    kind: kind::THROUGH,
    station: station::B,
    time: 772,
    view: view::IMPAIRED_WEATHER,
    class: class::LIGHT_ENGINE,
    ..NOTHING
};

const GOING_BACK: Entry = Entry {
    map: map::RETURN,
    kind: kind::RETURN,
    station: station::B,
    time: 772,
    ..NOTHING
};

/// A TRAIN or a LAST TRAIN at A by night.
const fn train(map: u16, kind: u16) -> Entry {
    Entry {
        map,
        kind,
        station: station::A,
        time: 772,
        view: view::NIGHT_OR_OBSTRUCTED,
        ..NOTHING
    }
}

/// The same departure, and it asks for 5.
const fn asks(departure: Entry) -> Entry {
    Entry {
        map: departure.map | map::HAS_ASKED,
        asked: 5,
        ..departure
    }
}

/// The same departure, and it grants 6.
const fn grants(departure: Entry) -> Entry {
    Entry {
        map: departure.map | map::HAS_GRANTED,
        granted: 6,
        ..departure
    }
}

const RECEIPT: Entry = Entry {
    map: map::RECEIVE,
    kind: kind::RECEIVE,
    station: station::A,
    time: 772,
    sender: station::B,
    number: 9_999,
    ..NOTHING
};

const MEETING: Entry = Entry {
    map: map::MEET,
    kind: kind::MEET,
    station: station::B,
    sender: station::A,
    number: 9_999,
    ..NOTHING
};

/// The entries of docs/FORMAT.md in hex, the name of the kind, and the entry by
/// names. Minute 772 is 03 04.
const ENTRIES: [(&str, &str, Entry); 18] = [
    ("01 01", "BEGIN", declared(map::BEGIN, kind::BEGIN)),
    (
        "3F 02 01 03 04 01 01 07",
        "OPEN",
        open(view::CLEAR_DAY, class::LIGHT_ENGINE),
    ),
    (
        "3F 02 01 03 04 01 02 07",
        "OPEN",
        open(view::CLEAR_DAY, class::TRAIN_ENGINE),
    ),
    (
        "3F 02 01 03 04 02 03 07",
        "OPEN",
        open(view::NIGHT_OR_OBSTRUCTED, class::MOTOR_TROLLEY),
    ),
    (
        "3F 02 01 03 04 03 04 07",
        "OPEN",
        open(view::IMPAIRED_WEATHER, class::OTHER_TROLLEY),
    ),
    (
        "3F 02 01 03 04 03 05 07",
        "OPEN",
        open(view::IMPAIRED_WEATHER, class::DIESEL_CAR),
    ),
    ("1F 03 02 03 04 03 01", "THROUGH", LEAVING),
    ("07 04 02 03 04", "RETURN", GOING_BACK),
    ("27 04 02 03 04 05", "RETURN", asks(GOING_BACK)),
    ("47 04 02 03 04 06", "RETURN", grants(GOING_BACK)),
    ("67 04 02 03 04 05 06", "RETURN", asks(grants(GOING_BACK))),
    ("0F 05 01 03 04 02", "TRAIN", train(map::TRAIN, kind::TRAIN)),
    (
        "6F 05 01 03 04 02 05 06",
        "TRAIN",
        asks(grants(train(map::TRAIN, kind::TRAIN))),
    ),
    ("87 06 01 03 04 02 27 0F", "RECEIVE", RECEIPT),
    ("83 07 02 01 27 0F", "MEET", MEETING),
    ("01 08", "RESUME", declared(map::RESUME, kind::RESUME)),
    (
        "0F 09 01 03 04 02",
        "LAST TRAIN",
        train(map::LAST_TRAIN, kind::LAST_TRAIN),
    ),
    (
        "6F 09 01 03 04 02 05 06",
        "LAST TRAIN",
        asks(grants(train(map::LAST_TRAIN, kind::LAST_TRAIN))),
    ),
];

/// Each bit of a map with the field that it stands for; of a form the sender.
fn bits(entry: &Entry) -> [(u16, u16); 8] {
    [
        (map::HAS_KIND, entry.kind),
        (map::HAS_STATION, entry.station),
        (map::HAS_TIME, entry.time),
        (map::HAS_VIEW, entry.view),
        (map::HAS_CLASS, entry.class),
        (map::HAS_ASKED, entry.asked),
        (map::HAS_GRANTED, entry.granted),
        (map::HAS_FORM, entry.sender),
    ]
}

#[test]
fn entries_by_name() {
    for (hex, name, entry) in ENTRIES {
        let bytes = bytes_of(hex);
        assert_eq!(entry.write().as_ref(), Ok(&bytes), "{hex}");
        assert_eq!(Entry::read(&bytes), Ok(entry), "{hex}");
        assert_eq!(entry_length(bytes[0]), bytes.len(), "{hex}");
        let mut fields = [0; FIELDS];
        assert_eq!(read_entry(&bytes, &mut fields), Ok(()), "{hex}");
        assert_eq!(entry.in_order(), fields, "{hex}");
        assert_eq!(KINDS[usize::from(bytes[1])], name, "{hex}");
        let there = bits(&entry).into_iter().filter(|&(_, field)| field != 0);
        assert_eq!(
            there.map(|(bit, _)| bit).sum::<u16>(),
            bytes[0].into(),
            "{hex}"
        );
        for (bit, field) in bits(&entry) {
            assert_eq!(entry.has(bit), field != 0, "{hex}, {bit}");
        }
    }
}

/// A kind has a name just where the archive knows it: any other is 2, whatever
/// the map.
#[test]
fn every_kind_has_a_name() {
    for number in 0..=255 {
        let known = declared(map::HAS_KIND, number).write() != Err(2);
        let name = KINDS.get(usize::from(number)).unwrap_or(&"");
        assert_eq!(!name.is_empty(), known, "kind {number}");
    }
}

#[test]
fn entry_lengths() {
    let longest: Vec<_> = ENTRIES
        .into_iter()
        .filter(|(hex, ..)| bytes_of(hex).len() == LONGEST_ENTRY)
        .collect();
    assert!(!longest.is_empty());
    for (hex, _, entry) in ENTRIES {
        let mut bytes = [0; LONGEST_ENTRY];
        assert_eq!(write_entry(&entry.in_order(), &mut bytes), Ok(()), "{hex}");
        assert_eq!(
            write_entry(&entry.in_order()[1..], &mut bytes),
            Err(23),
            "{hex}"
        );
        let mut fields = [0; FIELDS];
        assert_eq!(read_entry(&bytes, &mut fields[1..]), Err(23), "{hex}");
    }
    for (hex, _, entry) in longest {
        let mut bytes = [0; LONGEST_ENTRY - 1];
        assert_eq!(write_entry(&entry.in_order(), &mut bytes), Err(23), "{hex}");
    }
}

/// A class by its name is the class of the guest at B when A's opener has
/// arrived. The desk treats 2 to 5 alike: it is the entry, by hand, that has the
/// class in its seventh byte.
#[test]
fn classes_by_name() {
    for (name, open) in [
        (class::LIGHT_ENGINE, "3F 02 01 00 0A 01 01 02"),
        (class::TRAIN_ENGINE, "3F 02 01 00 0A 01 02 02"),
        (class::MOTOR_TROLLEY, "3F 02 01 00 0A 01 03 02"),
        (class::OTHER_TROLLEY, "3F 02 01 00 0A 01 04 02"),
        (class::DIESEL_CAR, "3F 02 01 00 0A 01 05 02"),
    ] {
        let section = after(Position::fresh(), &[BEGIN, open, ARRIVE]);
        let guest = section.as_bytes()[at::DESK_B + desk::GUEST];
        assert_eq!(u16::from(guest), name, "{open}");
    }
}

/// A THROUGH by names, in minute 772.
fn leaving(station: u16, view: u16) -> Vec<u8> {
    let entry = Entry {
        station,
        view,
        ..LEAVING
    };
    entry.write().expect("a THROUGH")
}

/// An entry by a station's name alters that station's desk.
#[test]
fn stations_by_name() {
    let clocks = [at::DESK_A + desk::CLOCK, at::DESK_B + desk::CLOCK];
    for (name, own, other) in [(station::A, 0, 1), (station::B, 1, 0)] {
        let mut section = after(Position::fresh(), BEGUN);
        assert!(section.step(&leaving(name, view::CLEAR_DAY)).is_ok());
        assert_eq!(number_at(section.as_bytes(), clocks[own], 2), 772);
        assert_eq!(number_at(section.as_bytes(), clocks[other], 2), 0);
    }
}

/// A departure that is written with a view by name has that view's speed.
#[test]
fn views_by_name() {
    for (name, speed) in [
        (view::CLEAR_DAY, Speed::Kmh(15)),
        (view::NIGHT_OR_OBSTRUCTED, Speed::Kmh(10)),
        (view::IMPAIRED_WEATHER, Speed::WalkingPace),
    ] {
        let mut section = after(Position::fresh(), BEGUN);
        let order = section.step(&leaving(station::A, name)).expect("a THROUGH");
        assert_eq!(order.speed, speed);
    }
}
