//! Entries as ten numbers: read from bytes, and written to bytes.

mod common;

use common::bytes_of;
use second::entry::LONGEST_ENTRY;
use second::generator::{Generator, Options};
use second::random::Random;
use second::{decode, encode, entry_length, read_entry, write_entry, Entry, Refusal, Station};

/// The number of the refusal, or 0.
fn number<T>(done: Result<T, Refusal>) -> u32 {
    done.map_or_else(|refusal| refusal.number().into(), |_| 0)
}

#[test]
fn every_field_stands_in_its_place() {
    let entry = Entry::receive(Station::B, 0x0102, Station::A, 0x0304);
    let bytes = bytes_of(&entry);
    let mut fields = [9; 12];
    assert_eq!(read_entry(&bytes, &mut fields), 0);
    let ten = [0x87, 6, 2, 0x0102, 0, 0, 0, 0, 1, 0x0304];
    assert_eq!(fields[..10], ten);
    assert_eq!(fields[10..], [9, 9]);
    let mut written = [0xA5; 9];
    assert_eq!(write_entry(&ten, &mut written), 0);
    assert_eq!(written[..8], bytes);
    assert_eq!(written[8], 0xA5);

    let entry = Entry::open(Station::A, 7, 2, 5, 8);
    let mut fields = [9; 10];
    assert_eq!(read_entry(&bytes_of(&entry), &mut fields), 0);
    assert_eq!(fields, [0x3F, 2, 1, 7, 2, 5, 8, 0, 0, 0]);
    let entry = Entry::last_train(Station::A, 7, 3, 1, 4);
    assert_eq!(read_entry(&bytes_of(&entry), &mut fields), 0);
    assert_eq!(fields, [0x6F, 9, 1, 7, 3, 0, 1, 4, 0, 0]);
}

#[test]
fn reading_is_23_before_any_byte_is_read() {
    for lent in 0..10 {
        for bytes in [&[][..], &[0x00], &[0x01, 1], &[0x0F]] {
            let mut fields = vec![9; lent];
            assert_eq!(read_entry(bytes, &mut fields), 23);
            assert_eq!(fields, vec![9; lent]);
        }
    }
}

#[test]
fn what_is_no_entry_leaves_the_fields() {
    let refused: [(u32, &[u8]); 6] = [
        (1, &[]),
        (1, &[0x0F, 10, 1]),
        (2, &[0x00]),
        (2, &[0x01, 10]),
        (3, &[0x01, 9]),
        (4, &[0x0F, 9, 1, 0, 0, 4]),
    ];
    for (number, bytes) in refused {
        let mut fields = [9; 12];
        assert_eq!(read_entry(bytes, &mut fields), number);
        assert_eq!(fields, [9; 12]);
    }
    // Bytes behind the entry are not looked at.
    let mut fields = [9; 10];
    assert_eq!(read_entry(&[0x01, 8, 0xFF, 0xFF], &mut fields), 0);
    assert_eq!(fields, [1, 8, 0, 0, 0, 0, 0, 0, 0, 0]);
}

#[test]
fn writing_is_23_with_few_numbers_then_2_3_4_then_23() {
    let train = [0x0F, 5, 1, 7, 1, 0, 0, 0, 0, 0];
    let write = |number: u32, fields: &[u16], length: usize| {
        let mut bytes = vec![0xA5; length];
        assert_eq!(write_entry(fields, &mut bytes), number, "{fields:?}");
        assert_eq!(bytes, vec![0xA5; length]);
    };
    for given in 0..10 {
        write(23, &train[..given], 12);
        write(23, &[0; 10][..given], 12);
    }
    let with = |place: usize, number: u16| {
        let mut fields = train;
        fields[place] = number;
        fields
    };
    for length in [0, 5, 12] {
        write(2, &with(0, 0x0E), length);
        write(2, &with(1, 10), length);
        write(2, &with(1, 0), length);
        write(2, &with(1, 255), length);
        write(3, &with(0, 0x1F), length);
        write(3, &with(1, 6), length);
        write(4, &with(2, 3), length);
        write(4, &with(4, 0), length);
        // Absent fields that are not 0.
        for place in [5, 6, 7, 8, 9] {
            write(4, &with(place, 1), length);
        }
    }
    for length in 0..6 {
        write(23, &train, length);
    }
    // Numbers behind the tenth are not looked at.
    let mut bytes = [0xA5; 7];
    let more = [&train[..], &[u16::MAX, 3]].concat();
    assert_eq!(write_entry(&more, &mut bytes), 0);
    assert_eq!(bytes, [0x0F, 5, 1, 0, 7, 1, 0xA5]);
}

#[test]
fn a_number_over_255_in_a_field_of_one_byte_is_255() {
    let train = [0x6F, 5, 1, 7, 1, 0, 8, 8, 0, 0];
    let receipt = [0x87, 6, 1, 7, 0, 0, 0, 0, 1, 1];
    for large in [256, 257, 261, 0x016F, 0x0500, u16::MAX] {
        let write = |mut fields: [u16; 10], place: usize| {
            fields[place] = large;
            let mut bytes = [0xA5; LONGEST_ENTRY];
            let number = write_entry(&fields, &mut bytes);
            assert_eq!(bytes, [0xA5; LONGEST_ENTRY]);
            number
        };
        // All bits of the map stand, so the kind is looked at, and no kind has them.
        assert_eq!(write(train, 0), 3);
        assert_eq!(write([0; 10], 0), 2);
        assert_eq!(write(train, 1), 2);
        for place in [2, 4, 5, 6, 7, 8, 9] {
            assert_eq!(write(train, place), 4, "{place}");
        }
        assert_eq!(write(receipt, 8), 4);
        // Without the kind's bit, whatever the kind is.
        assert_eq!(write([0; 10], 1), 2);
    }
    // Of two bytes are the time and the form number.
    let mut bytes = [0xA5; 9];
    let late = [0x87, 6, 1, u16::MAX, 0, 0, 0, 0, 1, 9_999];
    assert_eq!(write_entry(&late, &mut bytes), 0);
    assert_eq!(bytes, [0x87, 6, 1, 0xFF, 0xFF, 1, 0x27, 0x0F, 0xA5]);
    let over = [0x87, 6, 1, u16::MAX, 0, 0, 0, 0, 1, 10_000];
    assert_eq!(write_entry(&over, &mut bytes), 4);
}

#[test]
fn entries_of_logs_are_read_and_written_back() {
    let mut generator = Generator::new(8, Options::default());
    let mut read = 0;
    for _ in 0..3_000 {
        let bytes = generator.next_step();
        let mut fields = [0xA5A5; 11];
        let answer = read_entry(&bytes, &mut fields);
        assert_eq!(answer, number(decode(&bytes)));
        if answer != 0 {
            assert_eq!(fields, [0xA5A5; 11]);
            continue;
        }
        read += 1;
        let mut written = [0xA5; LONGEST_ENTRY];
        assert_eq!(write_entry(&fields, &mut written), 0);
        let length = entry_length(bytes[0]);
        assert_eq!(written[..length], bytes);
        assert!(written[length..].iter().all(|&byte| byte == 0xA5));
        assert_eq!(write_entry(&fields, &mut written[..length - 1]), 23);
    }
    assert!(read > 2_000, "{read}");
}

/// With numbers of one byte this is the crate's writer.
#[test]
fn any_fields_are_written_as_the_writer_writes_them() {
    let mut random = Random::new(6);
    let mut written = 0;
    for _ in 0..100_000 {
        let entry = Entry {
            map: random.pick(&[0x01, 0x07, 0x47, 0x0F, 0x1F, 0x3F, 0x87, 0x83, 0x6F]),
            kind: random.small(0, 10),
            station: random.small(0, 2),
            time: random.pick(&[0, 0, 600]),
            view: random.pick(&[0, 0, 1]),
            class: random.pick(&[0, 0, 1]),
            asked: random.pick(&[0, 0, 3]),
            granted: random.pick(&[0, 0, 2]),
            sender: random.pick(&[0, 0, 1]),
            form: random.pick(&[0, 0, 1]),
        };
        let length = usize::from(random.small(0, 12));
        let (mut one, mut other) = (vec![0xA5; length], vec![0xA5; length]);
        let answer = write_entry(&entry.fields(), &mut one);
        assert_eq!(answer, number(encode(&entry, &mut other)));
        assert_eq!(one, other);
        written += u32::from(answer == 0);
    }
    assert!(written > 100, "{written}");
}
