//! Entries written into lent buffers, and readers at any position of a log, by the
//! table of the double line.

use super::positions::every_position;
use super::writer::{buffer, with_a_field_out_of_range, with_an_absent_field, with_another_map};
use super::Case;
use crate::entry::{bit, entry_length, laid_out, Entry, Table, LONGEST_ENTRY};
use crate::section::Station::{A, B};

pub(super) fn cases() -> Vec<Case> {
    let mut cases = writers();
    cases.extend(readers());
    cases
}

fn write(entry: &Entry, fill: usize, length: usize) -> Case {
    Case::DoubleWrite {
        entry: *entry,
        fill: fill as u16,
        buffer: buffer(length),
    }
}

fn writers() -> Vec<Case> {
    let mut cases: Vec<Case> = taken().iter().flat_map(with_room_and_without).collect();
    cases.extend(refused().iter().map(with_much_room));
    // What is refused with 2, 3 or 4 is so also past the end.
    cases.extend(one_of_each_refusal().iter().flat_map(with_no_room));
    cases.extend(with_no_room(&Entry::begin()));
    cases
}

/// Entries of every kind, and their fields at the ends of their ranges.
fn taken() -> [Entry; 6] {
    [
        Entry::begin(),
        Entry::double_line_train(A, 0),
        Entry::double_line_train(B, u16::MAX),
        Entry::receive(A, 0x0102, B, 1),
        Entry::receive(B, u16::MAX, A, 9_999),
        Entry::resume(),
    ]
}

/// Bytes before it and behind it; one byte short of the room; past the end.
fn with_room_and_without(entry: &Entry) -> [Case; 3] {
    let length = entry_length(entry.map);
    [
        write(entry, 3, 3 + length + 2),
        write(entry, 3, 3 + length - 1),
        write(entry, length + 1, length),
    ]
}

fn with_much_room(entry: &Entry) -> Case {
    write(entry, 1, 1 + LONGEST_ENTRY)
}

/// No bytes at all, and a fill point far past the end.
fn with_no_room(entry: &Entry) -> [Case; 2] {
    [write(entry, 0, 0), write(entry, u16::MAX.into(), 12)]
}

/// An entry of each kind.
fn one_of_each_kind() -> [Entry; 4] {
    [
        Entry::begin(),
        Entry::double_line_train(B, 10),
        Entry::receive(A, 10, B, 4),
        Entry::resume(),
    ]
}

/// Entries that the writer refuses with 2, 3 and 4.
fn refused() -> Vec<Entry> {
    let [begin, train, receipt, resume] = one_of_each_kind();
    let mut entries = without_a_kind();
    for entry in [begin, train, receipt, resume] {
        entries.extend(with_another_map(&Table::DOUBLE_LINE, &entry));
    }
    entries.extend(trains_of_the_single_line());
    entries.extend(with_a_field_out_of_range(&train));
    entries.extend(with_a_field_out_of_range(&receipt));
    entries.extend(with_an_absent_field(&train));
    entries
}

/// 2: the bit of the kind is absent, or the kind is none of the double line's,
/// though it may be one of the single line's.
fn without_a_kind() -> Vec<Entry> {
    let mut entries: Vec<Entry> = one_of_each_kind()
        .map(|entry| Entry {
            map: entry.map & !bit::KIND,
            ..entry
        })
        .into();
    entries.extend([0, 10, u8::MAX].map(|kind| Entry {
        kind,
        ..Entry::double_line_train(A, 10)
    }));
    entries.extend(kinds_of_the_single_line());
    entries
}

fn kinds_of_the_single_line() -> [Entry; 5] {
    [
        Entry::open(A, 10, 2, 3, 4),
        Entry::through(B, 10, 1),
        // Its map is that of a TRAIN on the double line.
        Entry::send_back(A, 10, 0, 0),
        Entry::meet(B, A, 4),
        Entry::last_train(A, 10, 1, 0, 0),
    ]
}

/// 3: a view, or messages, on a TRAIN.
fn trains_of_the_single_line() -> [Entry; 3] {
    [
        Entry::train(A, 10, 1, 0, 0),
        Entry::train(B, 10, 3, 8, 8),
        Entry {
            map: 0x27,
            asked: 1,
            ..Entry::double_line_train(A, 10)
        },
    ]
}

fn one_of_each_refusal() -> [Entry; 3] {
    let train = Entry::double_line_train(A, 10);
    [
        Entry::last_train(A, 10, 1, 0, 0),
        Entry::train(A, 10, 1, 0, 0),
        Entry {
            station: 3,
            ..train
        },
    ]
}

fn read(log: &[u8], position: u16) -> Case {
    Case::DoubleRead {
        position,
        log: log.to_vec(),
    }
}

fn readers() -> Vec<Case> {
    let whole: Vec<u8> = one_of_each_kind().iter().flat_map(bytes).collect();
    let mut cases: Vec<Case> = every_position(&[]).map(|at| read(&[], at)).collect();
    cases.extend(every_position(&whole).map(|at| read(&whole, at)));
    cases.extend(taken().iter().map(|entry| read(&bytes(entry), 0)));
    // The reader stands behind the bytes refused, where another entry follows.
    let followed = |entry: &Entry| [&bytes(entry)[..], &[0x01, 0x08]].concat();
    cases.extend(refused().iter().map(|entry| read(&followed(entry), 0)));
    cases
}

/// Its bytes by its map, whether or not it is an entry.
fn bytes(entry: &Entry) -> Vec<u8> {
    laid_out(entry)[..entry_length(entry.map)].to_vec()
}

#[cfg(test)]
mod tests {
    use super::*;

    fn refusal(entry: &Entry) -> u8 {
        let checked = Table::DOUBLE_LINE.check(entry);
        checked.map_or_else(|refusal| refusal.number(), |_| 0)
    }

    #[test]
    fn entries_are_taken_and_refused_as_they_are_named() {
        assert!(taken().iter().all(|entry| refusal(entry) == 0));
        assert!(one_of_each_kind().iter().all(|entry| refusal(entry) == 0));
        assert!(without_a_kind().iter().all(|entry| refusal(entry) == 2));
        for entry in kinds_of_the_single_line() {
            assert!(entry.check().is_ok(), "{entry:?}");
        }
        let trains = trains_of_the_single_line();
        assert!(trains.iter().all(|entry| refusal(entry) == 3));
        for entry in one_of_each_kind() {
            let wrong = with_another_map(&Table::DOUBLE_LINE, &entry);
            assert_eq!(wrong.len(), 7);
            assert!(wrong.iter().all(|entry| refusal(entry) == 3));
            let wrong = with_a_field_out_of_range(&entry);
            assert!(wrong.iter().all(|entry| refusal(entry) == 4));
        }
        assert_eq!(
            one_of_each_refusal().map(|entry| refusal(&entry)),
            [2, 3, 4]
        );
    }

    #[test]
    fn there_are_some_of_either_type() {
        let (writers, readers) = (writers().len(), readers().len());
        assert!((60..100).contains(&writers), "{writers}");
        assert!((60..100).contains(&readers), "{readers}");
    }
}
