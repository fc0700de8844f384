//! The shelf: which bytes are one, what is stored and fetched, and each refusal in
//! its order.

use second::generator::{any_section, Generator, Options};
use second::position::POSITION_LENGTH;
use second::random::Random;
use second::shelf::{NAME_LENGTH, SHELF_LENGTH, SHELF_PLACES, SHELF_PLACE_LENGTH};
use second::{fetch, store, Position, Section};

const PLACE: usize = SHELF_PLACE_LENGTH;

/// Sixteen names, some of which begin others.
const NAMES: [&[u8]; 16] = [
    b"AB",
    b"ABC",
    b"A",
    b"ABCDEFGHIJKL",
    b"ABCDEFGHIJK",
    b"Z",
    b"ZZ",
    b"ZZZZZZZZZZZZ",
    b"B",
    b"BA",
    b"MONDAY",
    b"TUESDAY",
    b"OPENED",
    b"MET",
    b"FULL",
    b"EMPTY",
];

/// So many positions that differ.
fn positions(count: usize) -> Vec<Position> {
    let mut random = Random::new(9);
    let mut positions: Vec<Position> = Vec::new();
    while positions.len() < count {
        let position = any_section(&mut random).position().unwrap();
        if !positions.contains(&position) {
            positions.push(position);
        }
    }
    positions
}

/// A shelf with the first so many of the names.
fn shelf_of(count: usize) -> Vec<u8> {
    let mut shelf = vec![0; SHELF_LENGTH];
    for (name, position) in NAMES[..count].iter().zip(positions(count)) {
        assert_eq!(store(&mut shelf, name, &position), 0);
    }
    shelf
}

/// Stores what has to be refused with this number, and alters nothing.
#[track_caller]
fn refuse_store(number: u32, shelf: &[u8], name: &[u8], position: &[u8]) {
    let mut lent = shelf.to_vec();
    assert_eq!(store(&mut lent, name, position), number);
    assert_eq!(lent, shelf);
}

/// Fetches what has to be refused with this number, and alters nothing.
#[track_caller]
fn refuse_fetch(number: u32, shelf: &[u8], name: &[u8], length: usize) {
    let mut buffer = vec![0xA5; length];
    assert_eq!(fetch(shelf, name, &mut buffer), number);
    assert_eq!(buffer, vec![0xA5; length]);
}

/// Neither function takes these bytes for a shelf, whatever else is right or wrong.
#[track_caller]
fn no_shelf(shelf: &[u8]) {
    let position = [0; POSITION_LENGTH];
    for name in [&b"AB"[..], b"NEW", b"ab", b"", b"ABCDEFGHIJKLM"] {
        for position in [&position[..], &position[1..]] {
            refuse_store(5, shelf, name, position);
        }
        for length in [0, 280, 281, 282] {
            refuse_fetch(5, shelf, name, length);
        }
    }
}

#[track_caller]
fn fetched(shelf: &[u8], name: &[u8]) -> Vec<u8> {
    let mut buffer = vec![0xA5; POSITION_LENGTH];
    assert_eq!(fetch(shelf, name, &mut buffer), 0);
    buffer
}

#[test]
fn a_place_is_a_name_with_zeros_and_a_position() {
    assert_eq!((NAME_LENGTH, PLACE, SHELF_PLACES), (12, 293, 16));
    assert_eq!(SHELF_LENGTH, 4_688);
    let positions = positions(2);
    let mut shelf = vec![0; SHELF_LENGTH];
    assert_eq!(store(&mut shelf, b"MONDAY", &positions[0]), 0);
    assert_eq!(store(&mut shelf, b"ABCDEFGHIJKL", &positions[1]), 0);
    let mut expected = b"MONDAY\0\0\0\0\0\0".to_vec();
    expected.extend(positions[0]);
    expected.extend(b"ABCDEFGHIJKL");
    expected.extend(positions[1]);
    expected.resize(SHELF_LENGTH, 0);
    assert_eq!(shelf, expected);
}

#[test]
fn names_stand_in_the_order_first_stored_and_replacing_keeps_the_place() {
    let positions = positions(17);
    let mut shelf = shelf_of(16);
    for (place, name) in NAMES.iter().enumerate() {
        assert!(shelf[place * PLACE..].starts_with(name));
        assert_eq!(fetched(&shelf, name), positions[place]);
    }
    for place in [7, 0, 15] {
        let before = shelf.clone();
        assert_eq!(store(&mut shelf, NAMES[place], &positions[16]), 0);
        assert_eq!(fetched(&shelf, NAMES[place]), positions[16]);
        let start = place * PLACE + NAME_LENGTH;
        let mut expected = before;
        expected[start..start + POSITION_LENGTH].copy_from_slice(&positions[16]);
        assert_eq!(shelf, expected);
    }
}

#[test]
fn a_store_alters_one_place_alone() {
    for used in 0..16 {
        let position = positions(17)[16];
        let before = shelf_of(used);
        let mut shelf = before.clone();
        assert_eq!(store(&mut shelf, b"NEW", &position), 0);
        let mut expected = before;
        let place = &mut expected[used * PLACE..(used + 1) * PLACE];
        place[..3].copy_from_slice(b"NEW");
        place[NAME_LENGTH..].copy_from_slice(&position);
        assert_eq!(shelf, expected);
    }
}

#[test]
fn the_fresh_section_can_be_stored() {
    let mut shelf = vec![0; SHELF_LENGTH];
    let fresh = Section::fresh().position().unwrap();
    assert_eq!(store(&mut shelf, b"FRESH", &fresh), 0);
    assert_eq!(store(&mut shelf, b"A", &positions(1)[0]), 0);
    assert_eq!(fetched(&shelf, b"FRESH"), [0; 281]);
    assert!(shelf[PLACE..].starts_with(b"A\0"));
}

#[test]
fn a_name_that_begins_another_is_another_name() {
    let positions = positions(3);
    let mut shelf = vec![0; SHELF_LENGTH];
    assert_eq!(store(&mut shelf, b"AB", &positions[0]), 0);
    refuse_fetch(24, &shelf, b"ABC", 281);
    refuse_fetch(24, &shelf, b"A", 281);
    assert_eq!(store(&mut shelf, b"ABC", &positions[1]), 0);
    assert_eq!(store(&mut shelf, b"A", &positions[2]), 0);
    for (name, position) in [&b"AB"[..], b"ABC", b"A"].into_iter().zip(positions) {
        assert_eq!(fetched(&shelf, name), position);
    }
}

#[test]
fn names_of_another_form_are_24() {
    let bad: [&[u8]; 16] = [
        b"",
        b"ABCDEFGHIJKLM",
        b"ab",
        b"Ab",
        b"aB",
        b"A1",
        b"1",
        b" ",
        b"A B",
        b"AB\0",
        b"A\0B",
        b"\0",
        b"@",
        b"[",
        b"\xC4",
        b"AB\0\0\0\0\0\0\0\0\0\0",
    ];
    let good = positions(1)[0];
    for used in [0, 2, 16] {
        let shelf = shelf_of(used);
        for name in bad {
            refuse_store(24, &shelf, name, &good);
            refuse_store(24, &shelf, name, &good[1..]);
            for length in [0, 280, 281, 300] {
                refuse_fetch(24, &shelf, name, length);
            }
        }
    }
    // The first and the last letter, and twelve of them.
    let mut shelf = vec![0; SHELF_LENGTH];
    for name in [&b"A"[..], b"Z", b"ZZZZZZZZZZZZ", b"AZ"] {
        assert_eq!(store(&mut shelf, name, &good), 0);
        assert_eq!(fetched(&shelf, name), good);
    }
}

/// Every byte in every place of a name.
#[test]
fn a_name_has_capital_letters_alone() {
    let good = [0; POSITION_LENGTH];
    for byte in 0..=u8::MAX {
        for place in 0..NAME_LENGTH {
            let mut name = *b"ABCDEFGHIJKL";
            name[place] = byte;
            let number = if byte.is_ascii_uppercase() { 0 } else { 24 };
            let mut shelf = vec![0; SHELF_LENGTH];
            assert_eq!(store(&mut shelf, &name, &good), number);
        }
    }
}

#[test]
fn a_seventeenth_name_is_25_and_a_used_one_is_replaced() {
    let position = positions(17)[16];
    let mut shelf = shelf_of(16);
    refuse_store(25, &shelf, b"NEW", &position);
    refuse_store(25, &shelf, b"ZZZ", &position);
    // Before the position is looked at.
    refuse_store(25, &shelf, b"NEW", &position[1..]);
    refuse_store(25, &shelf, b"NEW", &[]);
    // A name of another form is 24 on a full shelf too.
    refuse_store(24, &shelf, b"new", &position);
    // Under a used name the position speaks.
    refuse_store(26, &shelf, b"FULL", &position[1..]);
    assert_eq!(store(&mut shelf, b"FULL", &position), 0);
    assert_eq!(fetched(&shelf, b"FULL"), position);
}

#[test]
fn what_is_no_position_is_26() {
    let position = positions(1)[0];
    let mut open_of_zeros = [0; POSITION_LENGTH];
    open_of_zeros[0] = 2;
    let mut flag = [0; POSITION_LENGTH];
    flag[240] = 2;
    for used in [0, 3, 15] {
        let shelf = shelf_of(used);
        for name in [&b"NEW"[..], b"AB"] {
            refuse_store(26, &shelf, name, &[]);
            refuse_store(26, &shelf, name, &position[..280]);
            refuse_store(26, &shelf, name, &[&position[..], &[0]].concat());
            refuse_store(26, &shelf, name, &open_of_zeros);
            refuse_store(26, &shelf, name, &flag);
        }
    }
}

#[test]
fn a_name_not_there_is_24_before_23() {
    let shelf = shelf_of(3);
    for length in [0, 280, 281, 400] {
        refuse_fetch(24, &shelf, b"NEW", length);
    }
    for length in 0..281 {
        refuse_fetch(23, &shelf, b"ABC", length);
    }
    // Nothing is on the empty shelf.
    refuse_fetch(24, &[0; SHELF_LENGTH], b"AB", 0);
}

#[test]
fn bytes_behind_the_position_keep_their_values() {
    let shelf = shelf_of(3);
    for more in [0, 1, 19, 500] {
        let mut buffer = vec![0xA5; POSITION_LENGTH + more];
        assert_eq!(fetch(&shelf, b"ABC", &mut buffer), 0);
        assert_eq!(buffer[..POSITION_LENGTH], positions(2)[1]);
        assert_eq!(buffer[POSITION_LENGTH..], vec![0xA5; more]);
    }
}

#[test]
fn another_length_is_no_shelf() {
    for used in [0, 3, 16] {
        let shelf = shelf_of(used);
        for length in [0, 1, 12, PLACE, 15 * PLACE, SHELF_LENGTH - 1] {
            no_shelf(&shelf[..length]);
        }
        no_shelf(&[&shelf[..], &[0]].concat());
        no_shelf(&[&shelf[..], &[0; PLACE]].concat());
    }
}

#[test]
fn two_names_the_same_are_no_shelf() {
    for used in [2, 5, 16] {
        let shelf = shelf_of(used);
        for second in 1..used {
            for first in [0, second - 1] {
                let mut twice = shelf.clone();
                let name = twice[first * PLACE..][..NAME_LENGTH].to_vec();
                twice[second * PLACE..][..NAME_LENGTH].copy_from_slice(&name);
                no_shelf(&twice);
            }
        }
    }
}

#[test]
fn a_gap_between_places_is_no_shelf() {
    for used in [2, 5, 16] {
        for gap in 0..used - 1 {
            let mut shelf = shelf_of(used);
            shelf[gap * PLACE..][..PLACE].fill(0);
            no_shelf(&shelf);
        }
        // Without the last the others are a shelf.
        let mut fewer = shelf_of(used);
        fewer[(used - 1) * PLACE..][..PLACE].fill(0);
        assert_eq!(fewer, shelf_of(used - 1));
    }
}

#[test]
fn a_byte_behind_the_places_in_use_is_no_shelf() {
    for used in [0, 1, 5, 15] {
        let shelf = shelf_of(used);
        for place in [used * PLACE, used * PLACE + 12, 15 * PLACE + 11, 4_687] {
            for byte in [1, 2, b'A'] {
                // A letter in front of zeros is the name of the fresh section.
                if place != used * PLACE || byte != b'A' {
                    let mut damaged = shelf.clone();
                    damaged[place] = byte;
                    no_shelf(&damaged);
                }
            }
        }
    }
    let mut fresh = shelf_of(5);
    fresh[5 * PLACE] = b'Q';
    assert_eq!(fetched(&fresh, b"Q"), [0; 281]);
}

#[test]
fn a_place_with_a_bad_name_or_no_position_is_no_shelf() {
    let shelf = shelf_of(5);
    let damaged = |place: usize, byte: u8| {
        let mut damaged = shelf.clone();
        assert_ne!(damaged[place], byte);
        damaged[place] = byte;
        no_shelf(&damaged);
    };
    for used in 0..5 {
        let start = used * PLACE;
        damaged(start, b'a');
        damaged(start, b'1');
        // A letter behind the zeros of A, AB and ABC.
        if used < 3 {
            damaged(start + 11, b'A');
            damaged(start + 5, b'A');
        }
        damaged(start + NAME_LENGTH + 240, 2);
        damaged(start + NAME_LENGTH, 10);
        damaged(start + NAME_LENGTH + 230, 2);
    }
    // No name in front of a position.
    for used in 0..5 {
        let mut nameless = shelf.clone();
        nameless[used * PLACE..][..NAME_LENGTH].fill(0);
        no_shelf(&nameless);
    }
}

/// Each byte of two places set to every value: no shelf, or one from which every name
/// is fetched just as its bytes stand.
#[test]
fn a_damaged_byte_makes_no_shelf_or_another() {
    let shelf = shelf_of(2);
    let mut read = 0;
    for place in 0..3 * PLACE {
        for value in (0..=u8::MAX).filter(|&value| value != shelf[place]) {
            let mut damaged = shelf.clone();
            damaged[place] = value;
            let mut buffer = [0xA5; POSITION_LENGTH];
            let name = &damaged[PLACE..][..NAME_LENGTH];
            let letters = name.iter().take_while(|&&letter| letter != 0).count();
            match fetch(&damaged, &name[..letters], &mut buffer) {
                0 => {
                    read += 1;
                    let position = &damaged[PLACE + NAME_LENGTH..][..POSITION_LENGTH];
                    assert_eq!(buffer, position);
                }
                number => assert_eq!((number, buffer), (5, [0xA5; POSITION_LENGTH])),
            }
        }
    }
    assert!(read > 1_000, "{read}");
}

/// What was last stored under a name is fetched, as the section went on.
#[test]
fn the_section_is_returned_to() {
    let mut generator = Generator::new(4, Options::default());
    let mut random = Random::new(4);
    let mut shelf = vec![0; SHELF_LENGTH];
    let mut kept: [Option<Section>; 16] = Default::default();
    for _ in 0..600 {
        generator.next_step();
        let place = random.below(16) as usize;
        if random.chance(40) {
            let position = generator.section().position().unwrap();
            assert_eq!(store(&mut shelf, NAMES[place], &position), 0);
            kept[place] = Some(generator.section().clone());
        }
        let place = random.below(16) as usize;
        match &kept[place] {
            None => refuse_fetch(24, &shelf, NAMES[place], POSITION_LENGTH),
            Some(section) => {
                let read = Section::from_position(&fetched(&shelf, NAMES[place]));
                assert_eq!(read.as_ref(), Ok(section));
            }
        }
    }
    assert!(kept.iter().all(Option::is_some));
}
