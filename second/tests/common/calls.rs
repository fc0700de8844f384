//! What lists of calls have in common: the functions they call, claims, names, and
//! functions with a known slip.

use std::collections::BTreeMap;

use second::position::POSITION_LENGTH;
use second::shelf::{NAME_LENGTH, SHELF_PLACES, SHELF_PLACE_LENGTH};
use second::walk::Failure;
use second::{fetch, step_position, store, Section};

/// The functions that a list calls.
#[derive(Clone, Copy)]
pub struct Functions {
    pub store: fn(&mut [u8], &[u8], &[u8]) -> u32,
    pub fetch: fn(&[u8], &[u8], &mut [u8]) -> u32,
    pub step: fn(&mut [u8], &[u8], &mut [u32]) -> u32,
}

pub const OWN: Functions = Functions {
    store,
    fetch,
    step: step_position,
};

/// How many calls were answered with each number.
pub type Answers = BTreeMap<u32, u64>;

/// Fails with these words where the claim does not hold.
pub fn claim(holds: bool, words: &str) -> Result<(), Failure> {
    if holds {
        Ok(())
    } else {
        Err(Failure(words.to_string()))
    }
}

/// Names of which some begin others, more than a shelf holds, and some that are
/// none.
pub const NAMES: [&[u8]; 23] = [
    b"A",
    b"AB",
    b"ABC",
    b"ABCDEFGHIJKL",
    b"B",
    b"BA",
    b"CLASS",
    b"CLASSES",
    b"D",
    b"EVENING",
    b"F",
    b"G",
    b"H",
    b"MEET",
    b"MET",
    b"NOON",
    b"Q",
    b"QQQQQQQQQQQQ",
    b"Z",
    b"",
    b"a",
    b"A\0",
    b"ABCDEFGHIJKLM",
];

/// A name with zeros behind it, as its place on the shelf has it.
pub fn title(name: &[u8]) -> Vec<u8> {
    let mut title = name.to_vec();
    title.resize(NAME_LENGTH, 0);
    title
}

/// The place with this name.
pub fn place_of(shelf: &[u8], name: &[u8]) -> Option<usize> {
    shelf
        .chunks(SHELF_PLACE_LENGTH)
        .position(|place| place.starts_with(&title(name)))
}

/// Functions with one slip each in their store or their fetch, which lists of either
/// sort have to show.
pub const SHELF_SLIPS: [(&str, Functions); 6] = [
    (
        "a used name keeps its first position",
        Functions {
            store: |shelf, name, position| match fetch(shelf, name, &mut [0; POSITION_LENGTH]) {
                0 => 0,
                _ => store(shelf, name, position),
            },
            ..OWN
        },
    ),
    (
        "a store overwrites the next place too",
        Functions {
            store: |shelf, name, position| {
                let number = store(shelf, name, position);
                let place = place_of(shelf, name).filter(|_| number == 0);
                let mut behind = shelf
                    .chunks_mut(SHELF_PLACE_LENGTH)
                    .skip(place.map_or(SHELF_PLACES, |place| place + 1));
                if let Some(next) = behind.next().filter(|next| next[0] != 0) {
                    next[NAME_LENGTH..].copy_from_slice(position);
                }
                number
            },
            ..OWN
        },
    ),
    (
        "the seventeenth name takes the place of the first",
        Functions {
            store: |shelf, name, position| match store(shelf, name, position) {
                25 if Section::from_position(position).is_ok() => {
                    shelf[..NAME_LENGTH].copy_from_slice(&title(name));
                    shelf[NAME_LENGTH..SHELF_PLACE_LENGTH].copy_from_slice(position);
                    0
                }
                number => number,
            },
            ..OWN
        },
    ),
    (
        "a fetch gives the position that stands first",
        Functions {
            fetch: |shelf, name, buffer| {
                let number = fetch(shelf, name, buffer);
                if number == 0 {
                    let first = &shelf[NAME_LENGTH..SHELF_PLACE_LENGTH];
                    buffer[..POSITION_LENGTH].copy_from_slice(first);
                }
                number
            },
            ..OWN
        },
    ),
    (
        "a name is taken for one that it begins",
        Functions {
            fetch: |shelf, name, buffer| match shelf
                .chunks(SHELF_PLACE_LENGTH)
                .find(|place| !name.is_empty() && place.starts_with(name))
            {
                Some(place) if buffer.len() >= POSITION_LENGTH => {
                    buffer[..POSITION_LENGTH].copy_from_slice(&place[NAME_LENGTH..]);
                    0
                }
                _ => fetch(shelf, name, buffer),
            },
            ..OWN
        },
    ),
    (
        "a fetch clears the bytes behind the position",
        Functions {
            fetch: |shelf, name, buffer| {
                let number = fetch(shelf, name, buffer);
                if number == 0 {
                    buffer[POSITION_LENGTH..].fill(0);
                }
                number
            },
            ..OWN
        },
    ),
];
