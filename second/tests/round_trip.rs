//! The writer and the reader against each other and against the tables of both
//! lines.

use second::entry::{bit, LONGEST_ENTRY};
use second::random::Random;
use second::{entry_length, Entry, Reader, Refusal, Table, Writer};

/// A line: the table by which its entries are read and written, and that table as
/// the document prints it, by kind: bits that must, bits that may.
struct Line {
    table: &'static Table,
    rows: &'static [(u8, &'static str, &'static str)],
}

const SINGLE: Line = Line {
    table: &Table::SINGLE_LINE,
    rows: &SINGLE_ROWS,
};

const DOUBLE: Line = Line {
    table: &Table::DOUBLE_LINE,
    rows: &DOUBLE_ROWS,
};

/// T-05: no view, asked or granted.
const DOUBLE_ROWS: [(u8, &str, &str); 4] =
    [(1, "0", ""), (5, "012", ""), (6, "0127", ""), (8, "0", "")];

const SINGLE_ROWS: [(u8, &str, &str); 9] = [
    (1, "0", ""),
    (8, "0", ""),
    (2, "012345", ""),
    (3, "01234", ""),
    (4, "012", "56"),
    (5, "0123", "56"),
    (6, "0127", ""),
    (7, "017", ""),
    // T-03: the map of TRAIN.
    (9, "0123", "56"),
];

fn row_allows((_, must, may): &(u8, &str, &str), map: u8) -> bool {
    (0..8).all(|place| {
        let digit = char::from(b'0' + place);
        let stands = map & (1 << place) != 0;
        match (must.contains(digit), may.contains(digit)) {
            (true, _) => stands,
            (false, true) => true,
            (false, false) => !stands,
        }
    })
}

/// Whether every field that the map shows keeps the document's range.
fn ranges_hold(entry: &Entry) -> bool {
    let shows = |bit: u8| entry.map & bit != 0;
    let classes = if entry.kind == 3 { 1..2 } else { 1..6 };
    (!shows(bit::STATION) || [1, 2].contains(&entry.station))
        && (!shows(bit::VIEW) || [1, 2, 3].contains(&entry.view))
        && (!shows(bit::CLASS) || classes.contains(&entry.class))
        && (!shows(bit::ASKED) || (entry.asked > 0 && entry.asked < 9))
        && (!shows(bit::GRANTED) || (entry.granted > 0 && entry.granted < 9))
        && (!shows(bit::FORM) || [1, 2].contains(&entry.sender))
        && (!shows(bit::FORM) || (entry.form > 0 && entry.form < 10_000))
}

/// What the document says about whole bytes with these fields.
fn expected(line: &Line, entry: &Entry) -> Result<(), Refusal> {
    let row = line.rows.iter().find(|row| row.0 == entry.kind);
    let Some(row) = row.filter(|_| entry.map & bit::KIND != 0) else {
        return Err(Refusal::NoKind);
    };
    if !row_allows(row, entry.map) {
        Err(Refusal::MapNotOfKind)
    } else if !ranges_hold(entry) {
        Err(Refusal::FieldOutOfRange)
    } else {
        Ok(())
    }
}

/// The bytes by the document, whether or not they may be written.
fn bytes_by_the_document(entry: &Entry) -> Vec<u8> {
    let mut bytes = vec![entry.map];
    let fields = [
        vec![entry.kind],
        vec![entry.station],
        vec![(entry.time >> 8) as u8, entry.time as u8],
        vec![entry.view],
        vec![entry.class],
        vec![entry.asked],
        vec![entry.granted],
        vec![entry.sender, (entry.form >> 8) as u8, entry.form as u8],
    ];
    for (place, field) in fields.iter().enumerate() {
        if entry.map & (1 << place) != 0 {
            bytes.extend(field);
        }
    }
    bytes
}

/// Sets every field whose bit does not stand to 0.
fn without_absent_fields(mut entry: Entry) -> Entry {
    let absent = |bit: u8| entry.map & bit == 0;
    let (no_kind, no_station, no_time) =
        (absent(bit::KIND), absent(bit::STATION), absent(bit::TIME));
    let (no_view, no_class, no_asked) = (absent(bit::VIEW), absent(bit::CLASS), absent(bit::ASKED));
    let (no_granted, no_form) = (absent(bit::GRANTED), absent(bit::FORM));
    entry.kind *= u8::from(!no_kind);
    entry.station *= u8::from(!no_station);
    entry.time *= u16::from(!no_time);
    entry.view *= u8::from(!no_view);
    entry.class *= u8::from(!no_class);
    entry.asked *= u8::from(!no_asked);
    entry.granted *= u8::from(!no_granted);
    entry.sender *= u8::from(!no_form);
    entry.form *= u16::from(!no_form);
    entry
}

fn round_trip(line: &Line, entry: &Entry) -> Result<(), Refusal> {
    let bytes = bytes_by_the_document(entry);
    assert_eq!(bytes.len(), entry_length(entry.map));
    let wished = expected(line, entry);
    let mut buffer = [0xEE; LONGEST_ENTRY];
    let written = line.table.encode(entry, &mut buffer);
    assert_eq!(written, wished.map(|()| bytes.len()), "{entry:?}");
    assert_eq!(
        line.table.decode(&bytes),
        wished.map(|()| *entry),
        "{entry:?}"
    );
    let kept = match written {
        Ok(length) => {
            assert_eq!(buffer[..length], bytes);
            length
        }
        Err(_) => 0,
    };
    assert!(buffer[kept..].iter().all(|&byte| byte == 0xEE));
    wished
}

fn any_entry(random: &mut Random, map: u8, kind: u8) -> Entry {
    let any_form = random.between(1, 9_999);
    let any_time = random.between(0, u16::MAX);
    without_absent_fields(Entry {
        map,
        kind,
        station: random.small(1, 2),
        time: random.pick(&[0, 1, 255, 256, u16::MAX, any_time]),
        view: random.small(1, 3),
        class: if kind == 3 { 1 } else { random.small(1, 5) },
        asked: random.small(1, 8),
        granted: random.small(1, 8),
        sender: random.small(1, 2),
        form: random.pick(&[1, 255, 256, 9_999, any_form]),
    })
}

/// How many of the maps with each kind are taken.
fn maps_taken(line: &Line) -> u32 {
    let mut random = Random::new(1);
    let mut accepted = 0;
    for map in 0..=u8::MAX {
        for kind in (0..=11).chain([255]) {
            for _ in 0..20 {
                let entry = any_entry(&mut random, map, kind);
                accepted += u32::from(round_trip(line, &entry).is_ok());
            }
        }
    }
    accepted / 20
}

#[test]
fn every_map_and_kind_with_fields_in_range() {
    // BEGIN, RESUME, OPEN, THROUGH, RECEIVE and MEET have one map, RETURN, TRAIN and
    // LAST TRAIN four each.
    assert_eq!(maps_taken(&SINGLE), 18);
    // BEGIN, TRAIN, RECEIVE and RESUME have one map each.
    assert_eq!(maps_taken(&DOUBLE), 4);
}

#[test]
fn every_map_and_kind_with_any_fields() {
    let mut random = Random::new(2);
    let edges = [0, 1, 2, 3, 4, 5, 6, 8, 9, 255];
    for map in 0..=u8::MAX {
        for kind in (0..=11).chain([255]) {
            for _ in 0..10 {
                let mut byte = || random.pick(&edges);
                let (station, view, class) = (byte(), byte(), byte());
                let (asked, granted, sender) = (byte(), byte(), byte());
                let entry = Entry {
                    map,
                    kind,
                    station,
                    time: random.between(0, u16::MAX),
                    view,
                    class,
                    asked,
                    granted,
                    sender,
                    form: random.pick(&[0, 1, 9_999, 10_000, u16::MAX]),
                };
                let entry = without_absent_fields(entry);
                let _ = round_trip(&SINGLE, &entry);
                let _ = round_trip(&DOUBLE, &entry);
            }
        }
    }
}

#[test]
fn one_field_at_a_time_over_all_its_values() {
    for line in [&SINGLE, &DOUBLE] {
        one_field_at_a_time(line);
    }
}

fn one_field_at_a_time(line: &Line) {
    let mut random = Random::new(3);
    for &(kind, must, may) in line.rows {
        let map: u8 = must.bytes().map(|digit| 1 << (digit - b'0')).sum();
        let maps = match may {
            "56" => vec![map, map | bit::ASKED, map | bit::GRANTED, map | 0x60],
            _ => vec![map],
        };
        for map in maps {
            let good = any_entry(&mut random, map, kind);
            for byte in 0..=u8::MAX {
                let alterations: [fn(&mut Entry, u8); 7] = [
                    |entry, byte| entry.kind = byte,
                    |entry, byte| entry.station = byte,
                    |entry, byte| entry.view = byte,
                    |entry, byte| entry.class = byte,
                    |entry, byte| entry.asked = byte,
                    |entry, byte| entry.granted = byte,
                    |entry, byte| entry.sender = byte,
                ];
                for alteration in alterations {
                    let mut entry = good;
                    alteration(&mut entry, byte);
                    let _ = round_trip(line, &without_absent_fields(entry));
                }
            }
            for pair in 0..=u16::MAX {
                let time = Entry { time: pair, ..good };
                assert_eq!(round_trip(line, &without_absent_fields(time)), Ok(()));
                let form = without_absent_fields(Entry { form: pair, ..good });
                let in_range = map & bit::FORM == 0 || (1..=9_999).contains(&pair);
                assert_eq!(round_trip(line, &form).is_ok(), in_range);
            }
        }
    }
}

#[test]
fn the_writer_refuses_absent_fields_that_are_not_0() {
    for line in [&SINGLE, &DOUBLE] {
        refuse_absent_fields(line);
    }
}

fn refuse_absent_fields(line: &Line) {
    let mut random = Random::new(4);
    for &(kind, must, _) in line.rows {
        let map: u8 = must.bytes().map(|digit| 1 << (digit - b'0')).sum();
        let good = any_entry(&mut random, map, kind);
        let stray = [
            (bit::STATION, Entry { station: 1, ..good }),
            (bit::TIME, Entry { time: 1, ..good }),
            (bit::VIEW, Entry { view: 1, ..good }),
            (bit::CLASS, Entry { class: 1, ..good }),
            (bit::ASKED, Entry { asked: 1, ..good }),
            (bit::GRANTED, Entry { granted: 1, ..good }),
            (bit::FORM, Entry { sender: 1, ..good }),
            (bit::FORM, Entry { form: 1, ..good }),
        ];
        for (bit, entry) in stray {
            let mut buffer = [0; LONGEST_ENTRY];
            let written = line.table.encode(&entry, &mut buffer);
            if map & bit == 0 {
                assert_eq!(written, Err(Refusal::FieldOutOfRange), "{entry:?}");
                assert_eq!(buffer, [0; LONGEST_ENTRY]);
            } else {
                assert!(written.is_ok(), "{entry:?}");
            }
        }
    }
}

#[test]
fn random_bytes_are_read_to_their_end() {
    for line in [&SINGLE, &DOUBLE] {
        read_random_bytes(line);
    }
}

/// What is read is written again as the same bytes.
fn read_random_bytes(line: &Line) {
    let mut random = Random::new(5);
    let mut read = 0;
    for _ in 0..20_000 {
        let length = random.below(40) as usize;
        let mut log: Vec<u8> = Vec::new();
        // Small bytes are entries more often.
        let most = random.pick(&[9, 63, u8::MAX]);
        log.resize_with(length, || random.small(0, most));
        let mut reader = Reader::by(line.table, &log, 0);
        let mut position = 0;
        while let Some(outcome) = reader.read() {
            let whole = entry_length(log[position]);
            match outcome {
                Err(Refusal::Cut) => {
                    assert!(position + whole > length);
                    assert_eq!(reader.position(), position);
                    break;
                }
                Err(refusal) => assert!((2..=4).contains(&refusal.number())),
                Ok(entry) => {
                    read += 1;
                    let mut buffer = [0; LONGEST_ENTRY];
                    assert_eq!(line.table.encode(&entry, &mut buffer), Ok(whole));
                    assert_eq!(buffer[..whole], log[position..position + whole]);
                }
            }
            position += whole;
            assert_eq!(reader.position(), position);
        }
    }
    assert!(read > 100, "{read}");
}

#[test]
fn a_log_written_is_the_log_read() {
    for line in [&SINGLE, &DOUBLE] {
        write_and_read_a_log(line);
    }
}

fn write_and_read_a_log(line: &Line) {
    let mut random = Random::new(6);
    let mut log = vec![0; 4_000];
    let mut writer = Writer::by(line.table, &mut log, 0);
    let mut entries = Vec::new();
    loop {
        let (kind, must, _) = random.pick(line.rows);
        let map: u8 = must.bytes().map(|digit| 1 << (digit - b'0')).sum();
        let entry = any_entry(&mut random, map, kind);
        if writer.append(&entry) == Err(Refusal::BufferTooShort) {
            break;
        }
        entries.push(entry);
    }
    let end = writer.position();
    let mut reader = Reader::by(line.table, &log[..end], 0);
    for entry in entries {
        assert_eq!(reader.read(), Some(Ok(entry)));
    }
    assert_eq!(reader.read(), None);
    assert!(log[end..].iter().all(|&byte| byte == 0));
}
