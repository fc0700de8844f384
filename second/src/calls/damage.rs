//! Positions, shelves and names that are spoiled in one way or another. Some are
//! still good afterwards, though not what they were.

use crate::figures::{PLACES_LENGTH, PLACE_LENGTH};
use crate::random::Random;
use crate::section::Section;
use crate::shelf::{NAME_LENGTH, SHELF_PLACES, SHELF_PLACE_LENGTH};

// Where some figures of a position stand.
const MET: usize = 5;
const IN_FORCE: usize = PLACES_LENGTH;
const DESKS: [usize; 2] = [IN_FORCE + 13, IN_FORCE + 27];
const INTERVAL: usize = 5;
const OUT: usize = 8;

/// Damages a position, which may have another length then.
pub(super) fn damage_position(random: &mut Random, position: &mut Vec<u8>) {
    if random.chance(25) {
        change_length(random, position);
    } else {
        damage_figures(random, position);
    }
}

/// Damages a shelf, which may have another length then.
pub(super) fn damage_shelf(random: &mut Random, shelf: &mut Vec<u8>) {
    let used = places_in_use(shelf);
    match random.below(10) {
        0 | 1 => change_length(random, shelf),
        2 | 3 if used > 1 => {
            let (first, second) = two_places(random, used);
            let name = first * SHELF_PLACE_LENGTH..first * SHELF_PLACE_LENGTH + NAME_LENGTH;
            shelf.copy_within(name, second * SHELF_PLACE_LENGTH);
        }
        4 if used > 1 => {
            let gap = random.below(used as u32 - 1) as usize;
            place_of_shelf(shelf, gap).fill(0);
        }
        5 if used < SHELF_PLACES => {
            let unused = &mut shelf[used * SHELF_PLACE_LENGTH..];
            *one_of(random, unused) = random.small(1, u8::MAX);
        }
        6 if used < SHELF_PLACES => {
            // A place in which nothing but the kind of a vehicle stands.
            let unused = random.between(used as u16, SHELF_PLACES as u16 - 1).into();
            place_of_shelf(shelf, unused)[NAME_LENGTH] = 2;
        }
        7 if used > 0 => {
            let place = random.below(used as u32) as usize;
            let name = &mut place_of_shelf(shelf, place)[..NAME_LENGTH];
            damage_name_in_place(random, name);
        }
        8 if used > 0 => {
            let place = random.below(used as u32) as usize;
            damage_figures(random, &mut place_of_shelf(shelf, place)[NAME_LENGTH..]);
        }
        _ => {
            let places = used.max(1) * SHELF_PLACE_LENGTH;
            alter_one(random, &mut shelf[..places]);
        }
    }
}

/// A name of another form than names have.
pub(super) fn bad_name(random: &mut Random, mut name: Vec<u8>) -> Vec<u8> {
    let strange = random.byte();
    match random.below(8) {
        0 => name.clear(),
        1 => name.resize(random.between(13, 20).into(), b'A'),
        2 => name.make_ascii_lowercase(),
        // As a place of the shelf holds it, or with one zero behind it.
        3 => name.resize(NAME_LENGTH.max(name.len() + 1), 0),
        4 => name.push(0),
        _ => {
            let bad = random.pick(&[b'a', b'z', b'0', b'9', b'@', b'[', b' ', 0, strange]);
            *one_of(random, &mut name) = bad;
        }
    }
    name
}

/// The places of a shelf that are in use, where it is one.
pub(super) fn places_in_use(shelf: &[u8]) -> usize {
    shelf
        .chunks(SHELF_PLACE_LENGTH)
        .take_while(|place| place.iter().any(|&byte| byte != 0))
        .count()
}

fn change_length(random: &mut Random, bytes: &mut Vec<u8>) {
    match random.below(6) {
        0 => bytes.clear(),
        1 | 2 => bytes.truncate(bytes.len() - 1),
        3 => bytes.truncate(random.below(bytes.len() as u32) as usize),
        4 => bytes.push(random.byte()),
        _ => bytes.push(0),
    }
}

/// Damages the bytes of a position and leaves their number.
fn damage_figures(random: &mut Random, position: &mut [u8]) {
    let present = position[..PLACES_LENGTH]
        .chunks(PLACE_LENGTH)
        .take_while(|place| place[0] != 0)
        .count();
    let desk = random.pick(&DESKS);
    match random.below(12) {
        0 => {
            let place = random.below(present.max(1) as u32) as usize;
            let flags = [
                place * PLACE_LENGTH + MET,
                IN_FORCE,
                desk + INTERVAL,
                desk + OUT,
            ];
            position[random.pick(&flags)] = random.pick(&[2, 2, 3, 128, 255]);
        }
        // An interval that is stopped, or never ran, and has a minute.
        1 => {
            position[desk + INTERVAL] = 0;
            position[desk + INTERVAL + random.pick(&[1, 2])] = random.small(1, u8::MAX);
        }
        2 if present < Section::MOST_VEHICLES => {
            let unused = &mut position[present * PLACE_LENGTH..PLACES_LENGTH];
            *one_of(random, unused) = random.small(1, u8::MAX);
        }
        // An OPEN of zeros.
        3 if present < Section::MOST_VEHICLES => {
            let last = Section::MOST_VEHICLES - 1;
            let unused = random.between(present as u16, last as u16);
            let unused = random.pick(&[present, unused.into()]);
            position[unused * PLACE_LENGTH] = 2;
        }
        4 if present > 1 => {
            let gap = random.below(present as u32 - 1) as usize * PLACE_LENGTH;
            position[gap..gap + PLACE_LENGTH].fill(0);
        }
        5 if present > 1 => {
            let (first, second) = two_places(random, present);
            for byte in 0..PLACE_LENGTH {
                position.swap(first * PLACE_LENGTH + byte, second * PLACE_LENGTH + byte);
            }
        }
        // One form number twice, perhaps of one sender.
        6 if present > 1 => {
            let (first, second) = two_places(random, present);
            let form = first * PLACE_LENGTH + 2..first * PLACE_LENGTH + 4;
            position.copy_within(form, second * PLACE_LENGTH + 2);
        }
        7..=9 if present > 0 => alter_one(random, &mut position[..present * PLACE_LENGTH]),
        10 => alter_one(random, position),
        _ => alter_one(random, &mut position[IN_FORCE..]),
    }
}

/// Damages a name with its zeros, as a place of the shelf holds it.
fn damage_name_in_place(random: &mut Random, name: &mut [u8]) {
    match random.below(4) {
        0 => name.fill(0),
        1 => name[0] = 0,
        2 => name[NAME_LENGTH - 1] = random.pick(b"AZaz09@["),
        _ => *one_of(random, name) = random.pick(b"AZaz09@[\0"),
    }
}

/// Another value in one byte: often the next or a small one.
fn alter_one(random: &mut Random, bytes: &mut [u8]) {
    let any = random.byte();
    let byte = one_of(random, bytes);
    let other = [
        byte.wrapping_add(1),
        byte.wrapping_sub(1),
        any % 16,
        any,
        *byte ^ 1 << (any % 8),
    ];
    *byte = random.pick(&other);
}

fn one_of<'a>(random: &mut Random, bytes: &'a mut [u8]) -> &'a mut u8 {
    let place = random.below(bytes.len() as u32) as usize;
    &mut bytes[place]
}

/// Two that differ of so many.
fn two_places(random: &mut Random, count: usize) -> (usize, usize) {
    let first = random.below(count as u32) as usize;
    let distance = 1 + random.below(count as u32 - 1) as usize;
    (first, (first + distance) % count)
}

fn place_of_shelf(shelf: &mut [u8], place: usize) -> &mut [u8] {
    &mut shelf[place * SHELF_PLACE_LENGTH..(place + 1) * SHELF_PLACE_LENGTH]
}

#[cfg(test)]
mod tests {
    use super::*;
    use crate::generator::any_section;
    use crate::shelf::{fetch, store, SHELF_LENGTH};

    #[test]
    fn most_damaged_positions_are_none_and_some_are_others() {
        let mut random = Random::new(1);
        let mut read = 0;
        for _ in 0..2_000 {
            let position = any_section(&mut random).position().unwrap();
            let mut damaged = position.to_vec();
            damage_position(&mut random, &mut damaged);
            let is_other = damaged != position;
            read += u32::from(is_other && Section::from_position(&damaged).is_ok());
        }
        assert!((200..1_000).contains(&read), "{read}");
    }

    #[test]
    fn most_damaged_shelves_are_none() {
        let mut random = Random::new(2);
        let mut shelf = vec![0; SHELF_LENGTH];
        let mut refused = 0;
        for turn in 0..1_600 {
            if turn % 100 == 0 {
                let name = [b'A' + (turn / 100) as u8];
                let position = any_section(&mut random).position().unwrap();
                assert_eq!(store(&mut shelf, &name, &position), 0);
            }
            let mut damaged = shelf.clone();
            damage_shelf(&mut random, &mut damaged);
            refused += u32::from(fetch(&damaged, b"NONE", &mut []) == 5);
        }
        assert!((1_000..1_600).contains(&refused), "{refused}");
    }

    #[test]
    fn a_bad_name_is_24() {
        let mut random = Random::new(3);
        let mut refused = 0;
        for length in (1..=NAME_LENGTH).cycle().take(1_200) {
            let name = bad_name(&mut random, vec![b'Q'; length]);
            // The strange byte may be a letter.
            refused += u32::from(store(&mut [0; SHELF_LENGTH], &name, &[]) == 24);
        }
        assert!(refused > 1_180, "{refused}");
    }
}
