//! Entries written into lent buffers.

use super::Case;
use crate::entry::{bit, entry_length, Entry, Kind, Table, LONGEST_ENTRY};
use crate::section::Station::{A, B};

/// The bytes before the fill point.
const BEFORE: usize = 3;

/// The bytes behind the entry.
const BEHIND: usize = 2;

pub(super) fn cases() -> Vec<Case> {
    let mut cases = Vec::new();
    for entry in taken() {
        cases.extend(with_all_kinds_of_room(&entry));
    }
    for entry in refused() {
        cases.extend(with_and_without_room(&entry));
    }
    for entry in one_of_each_kind() {
        cases.extend(with_no_room(&entry));
    }
    cases.extend(with_several_faults().iter().flat_map(with_no_room));
    cases.extend(with_a_long_buffer());
    cases
}

fn case(entry: &Entry, fill: usize, length: usize) -> Case {
    Case::Write {
        entry: *entry,
        fill: fill as u16,
        buffer: buffer(length),
    }
}

/// A buffer in which no two neighbours are the same, so that a byte out of its
/// place shows.
pub(super) fn buffer(length: usize) -> Vec<u8> {
    (0..length).map(|place| 0xA1 ^ (place as u8)).collect()
}

/// Entries of every kind with every map of theirs, and their fields at the ends
/// of their ranges.
fn taken() -> Vec<Entry> {
    vec![
        Entry::begin(),
        Entry::open(A, 0, 1, 1, 1),
        Entry::open(B, u16::MAX, 3, 5, 8),
        Entry::through(A, 0x0102, 1),
        Entry::through(B, u16::MAX, 3),
        Entry::send_back(A, 0, 0, 0),
        Entry::send_back(B, 256, 8, 0),
        Entry::send_back(A, 255, 0, 8),
        Entry::send_back(B, u16::MAX, 1, 1),
        Entry::train(B, 0, 1, 0, 0),
        Entry::train(A, 1, 2, 1, 0),
        Entry::train(B, 0x1234, 3, 0, 1),
        Entry::train(A, u16::MAX, 3, 8, 8),
        Entry::last_train(A, 0, 1, 0, 0),
        Entry::last_train(B, 1, 2, 8, 0),
        Entry::last_train(A, 0x1234, 3, 0, 8),
        Entry::last_train(B, u16::MAX, 3, 1, 1),
        Entry::receive(A, 0, B, 1),
        Entry::receive(B, u16::MAX, A, 9_999),
        Entry::meet(A, A, 1),
        Entry::meet(B, B, 9_999),
        Entry::resume(),
    ]
}

fn with_all_kinds_of_room(entry: &Entry) -> Vec<Case> {
    let length = entry_length(entry.map);
    vec![
        // Just enough room, and one byte short of it.
        case(entry, 0, length),
        case(entry, 0, length - 1),
        case(entry, BEFORE, BEFORE + length),
        case(entry, BEFORE, BEFORE + length - 1),
        // Bytes before it and behind it.
        case(entry, BEFORE, BEFORE + length + BEHIND),
        // The fill point at the end and past it.
        case(entry, length, length),
        case(entry, length + 1, length),
    ]
}

/// What is refused with 2, 3 or 4 is so whatever the room.
fn with_and_without_room(entry: &Entry) -> [Case; 3] {
    [
        case(entry, 1, 1 + LONGEST_ENTRY),
        case(entry, 1, 2),
        case(entry, 2, 1),
    ]
}

/// No bytes at all, and a fill point far past the end.
fn with_no_room(entry: &Entry) -> [Case; 3] {
    [
        case(entry, 0, 0),
        case(entry, 1, 0),
        case(entry, u16::MAX.into(), 12),
    ]
}

/// A fill point that takes two bytes.
fn with_a_long_buffer() -> [Case; 2] {
    let entry = Entry::receive(A, 0x0304, B, 0x0506);
    let length = entry_length(entry.map);
    [
        case(&entry, 300, 300 + length),
        case(&entry, 300, 299 + length),
    ]
}

/// Entries that the writer refuses with 2, 3 and 4.
fn refused() -> Vec<Entry> {
    let mut entries = without_a_kind();
    for entry in one_of_each_kind() {
        entries.extend(with_another_map(&Table::SINGLE_LINE, &entry));
        entries.extend(with_a_field_out_of_range(&entry));
        entries.extend(with_an_absent_field(&entry));
    }
    entries.extend(with_several_faults());
    entries
}

/// An entry of each kind; RETURN, TRAIN and LAST TRAIN with all that they may carry
/// and with nothing of it.
fn one_of_each_kind() -> Vec<Entry> {
    vec![
        Entry::begin(),
        Entry::open(A, 10, 2, 3, 4),
        Entry::through(B, 10, 2),
        Entry::send_back(A, 10, 0, 0),
        Entry::send_back(A, 10, 2, 3),
        Entry::train(B, 10, 2, 0, 0),
        Entry::train(B, 10, 2, 2, 3),
        Entry::last_train(A, 10, 2, 0, 0),
        Entry::last_train(A, 10, 2, 2, 3),
        Entry::receive(A, 10, B, 4),
        Entry::meet(B, A, 4),
        Entry::resume(),
    ]
}

/// 2: the kind is none, or its bit is absent.
fn without_a_kind() -> Vec<Entry> {
    let open = Entry::open(A, 10, 2, 3, 4);
    let mut entries = vec![
        Entry::default(),
        Entry {
            kind: 0,
            ..Entry::begin()
        },
        Entry {
            kind: 10,
            ..Entry::begin()
        },
        Entry {
            kind: u8::MAX,
            ..Entry::begin()
        },
        Entry { kind: 0, ..open },
        Entry { kind: 10, ..open },
        Entry {
            map: 0xFF,
            kind: 10,
            ..open
        },
    ];
    // The kinds beside kind 9, and far from it, with all that it has.
    let last = Entry::last_train(A, 10, 2, 2, 3);
    entries.extend([0, 10, u8::MAX].map(|kind| Entry { kind, ..last }));
    for entry in one_of_each_kind() {
        let map = entry.map & !bit::KIND;
        entries.push(Entry { map, ..entry });
        entries.push(Entry {
            map,
            kind: 0,
            ..entry
        });
    }
    entries
}

/// 3: a bit that must stand is absent, or one stands that may not. Nothing else
/// is wrong.
pub(super) fn with_another_map(table: &Table, entry: &Entry) -> Vec<Entry> {
    let Some(kind) = table.kind(entry.kind) else {
        return Vec::new();
    };
    (1..8)
        .map(|place| 1 << place)
        .filter(|bit| table.may(kind) & bit == 0)
        .map(|bit| {
            let value = u8::from(entry.map & bit == 0);
            with_field(
                &Entry {
                    map: entry.map ^ bit,
                    ..*entry
                },
                bit,
                value,
            )
        })
        .collect()
}

/// The entry with the field of this bit set, both figures of a form alike.
fn with_field(entry: &Entry, bit: u8, value: u8) -> Entry {
    let mut entry = *entry;
    match bit {
        bit::KIND => entry.kind = value,
        bit::STATION => entry.station = value,
        bit::TIME => entry.time = value.into(),
        bit::VIEW => entry.view = value,
        bit::CLASS => entry.class = value,
        bit::ASKED => entry.asked = value,
        bit::GRANTED => entry.granted = value,
        _ => (entry.sender, entry.form) = (value, value.into()),
    }
    entry
}

/// 4: a present field just below or just above its range.
pub(super) fn with_a_field_out_of_range(entry: &Entry) -> Vec<Entry> {
    let classes = if entry.kind == Kind::Through.number() {
        1
    } else {
        5
    };
    let largest = [
        (bit::STATION, 2),
        (bit::VIEW, 3),
        (bit::CLASS, classes),
        (bit::ASKED, 8),
        (bit::GRANTED, 8),
    ];
    let mut entries = Vec::new();
    for (bit, largest) in largest {
        if entry.map & bit != 0 {
            entries.push(with_field(entry, bit, 0));
            entries.push(with_field(entry, bit, largest + 1));
        }
    }
    if entry.map & bit::FORM != 0 {
        entries.extend([0, 3].map(|sender| Entry { sender, ..*entry }));
        entries.extend([0, 10_000, u16::MAX].map(|form| Entry { form, ..*entry }));
    }
    entries
}

/// 4: an absent field that is not 0.
pub(super) fn with_an_absent_field(entry: &Entry) -> Vec<Entry> {
    let absent = |bit: u8| entry.map & bit == 0;
    let mut entries: Vec<Entry> = (1..7)
        .map(|place| 1 << place)
        .filter(|&bit| absent(bit))
        .map(|bit| with_field(entry, bit, 1))
        .collect();
    if absent(bit::TIME) {
        // In the high byte alone.
        entries.push(Entry {
            time: 256,
            ..*entry
        });
    }
    if absent(bit::FORM) {
        entries.push(Entry {
            sender: 1,
            ..*entry
        });
        entries.push(Entry { form: 1, ..*entry });
        entries.push(Entry {
            form: 256,
            ..*entry
        });
    }
    entries
}

/// The lowest number is given where several apply.
fn with_several_faults() -> Vec<Entry> {
    let wrong = Entry {
        map: 0x7F,
        kind: 2,
        station: 3,
        time: 1,
        view: 4,
        class: 6,
        asked: 9,
        granted: 9,
        sender: 3,
        form: 10_000,
    };
    vec![
        // 2, then 3, then 4; 3 and 4 of kind 9 as well.
        Entry { kind: 10, ..wrong },
        wrong,
        Entry { map: 0x3F, ..wrong },
        Entry { kind: 9, ..wrong },
        Entry {
            kind: 9,
            map: 0x6F,
            ..wrong
        },
    ]
}

#[cfg(test)]
mod tests {
    use super::*;

    fn refusal(entry: &Entry) -> u8 {
        entry.check().map_or_else(|refusal| refusal.number(), |_| 0)
    }

    #[test]
    fn entries_are_taken_and_refused_as_they_are_named() {
        assert!(taken().iter().all(|entry| refusal(entry) == 0));
        assert!(without_a_kind().iter().all(|entry| refusal(entry) == 2));
        for entry in one_of_each_kind() {
            assert_eq!(refusal(&entry), 0);
            for wrong in with_another_map(&Table::SINGLE_LINE, &entry) {
                assert_eq!(refusal(&wrong), 3, "{wrong:?}");
            }
            for wrong in with_a_field_out_of_range(&entry) {
                assert_eq!(refusal(&wrong), 4, "{wrong:?}");
            }
            for wrong in with_an_absent_field(&entry) {
                assert_eq!(refusal(&wrong), 4, "{wrong:?}");
            }
        }
        let several: Vec<u8> = with_several_faults().iter().map(refusal).collect();
        assert_eq!(several, [2, 3, 4, 3, 4]);
    }

    #[test]
    fn every_map_that_a_kind_may_have_is_taken() {
        let mut maps: Vec<(u8, u8)> = taken()
            .iter()
            .map(|entry| (entry.kind, entry.map))
            .collect();
        maps.sort_unstable();
        maps.dedup();
        assert_eq!(maps.len(), 6 + 3 * 4);
    }
}
