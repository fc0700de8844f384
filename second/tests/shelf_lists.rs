//! Lists of stores and fetches on any well-made shelf, whether or not its positions
//! are of sections to which a list from fresh leads.
//!
//! At every point the shelf is a shelf. Each name on it stands in the place in which
//! it was first stored, and a fetch of it gives what was last stored under it, or what
//! stood there from the start. Any other name is 24. So nothing alters what is fetched
//! under a name but an accepted store under that name.

mod common;

use std::iter::repeat;

use common::calls::{claim, place_of, title, Answers, Functions, NAMES, OWN, SHELF_SLIPS};
use second::generator::{any_section, Generator, Options};
use second::position::POSITION_LENGTH;
use second::random::Random;
use second::shelf::{NAME_LENGTH, SHELF_LENGTH, SHELF_PLACES, SHELF_PLACE_LENGTH};
use second::walk::Failure;
use second::{fetch, store, Position, Section};

/// What the lists have met.
#[derive(Debug, Default)]
struct Tally {
    /// Shelves by the names that stood on them from the start.
    shelves: [u64; SHELF_PLACES + 1],
    stores: Answers,
    fetches: Answers,
    /// Names fetched at the points of the lists, to see that all is in order.
    looks: u64,
    replaced: u64,
    /// Accepted fetches of a section to which no list from fresh leads.
    unreached: u64,
    /// Accepted fetches into a longer buffer.
    with_bytes_behind: u64,
}

/// A shelf, and beside it each name with what was last stored under it, in the order
/// of the places.
struct Host<'a> {
    functions: Functions,
    shelf: Vec<u8>,
    places: Vec<(Vec<u8>, Position)>,
    tally: &'a mut Tally,
}

impl Host<'_> {
    fn store(&mut self, name: &[u8], position: &[u8]) -> Result<(), Failure> {
        let before = self.shelf.clone();
        let number = (self.functions.store)(&mut self.shelf, name, position);
        *self.tally.stores.entry(number).or_default() += 1;
        if number != 0 {
            let known = (24..=26).contains(&number);
            claim(known, "a store is refused with 24, 25 or 26")?;
            return claim(self.shelf == before, "a refused store alters nothing");
        }
        let Ok(position) = position.try_into() else {
            return claim(false, "a position of another length is not stored");
        };
        match self.places.iter_mut().find(|(used, _)| used == name) {
            Some((_, stored)) => {
                *stored = position;
                self.tally.replaced += 1;
            }
            None => self.places.push((name.to_vec(), position)),
        }
        Ok(())
    }

    fn fetch(&mut self, name: &[u8], mut buffer: Vec<u8>) -> Result<(), Failure> {
        let number = self.fetch_and_test(name, &mut buffer)?;
        *self.tally.fetches.entry(number).or_default() += 1;
        if number == 0 {
            let (position, behind) = buffer.split_at(POSITION_LENGTH);
            self.tally.unreached += u64::from(is_unreached(position));
            self.tally.with_bytes_behind += u64::from(!behind.is_empty());
        }
        Ok(())
    }

    /// Fetches, and holds the answer and the buffer against what was last stored.
    fn fetch_and_test(&self, name: &[u8], buffer: &mut [u8]) -> Result<u32, Failure> {
        let before = buffer.to_vec();
        let number = (self.functions.fetch)(&self.shelf, name, buffer);
        let place = self.places.iter().find(|(used, _)| used == name);
        let expected = match place {
            None => 24,
            Some(_) if buffer.len() < POSITION_LENGTH => 23,
            Some(_) => 0,
        };
        claim(number == expected, "another answer")?;
        if let (0, Some((_, stored))) = (number, place) {
            let (position, behind) = buffer.split_at(POSITION_LENGTH);
            claim(position == stored, "not what was last stored")?;
            claim(behind == &before[POSITION_LENGTH..], "bytes behind stay")?;
        } else {
            claim(buffer == before, "a refused fetch alters nothing")?;
        }
        Ok(number)
    }

    /// What holds at every point of a list.
    fn check(&mut self) -> Result<(), Failure> {
        claim(is_shelf(&self.shelf), "the shelf stays a shelf")?;
        let titles = self.shelf.chunks(SHELF_PLACE_LENGTH);
        let titles = titles.map(|place| place[..NAME_LENGTH].to_vec());
        let names = self.places.iter().map(|(name, _)| title(name));
        let expected = names.chain(repeat(title(b""))).take(SHELF_PLACES);
        claim(titles.eq(expected), "a name stays in its place")?;
        let used = self.places.iter().map(|(name, _)| &name[..]);
        for name in used.chain(NAMES) {
            self.fetch_and_test(name, &mut [0xA5; POSITION_LENGTH])?;
            self.tally.looks += 1;
        }
        Ok(())
    }

    /// A name that is on the shelf, or may be, or is none.
    fn some_name(&self, random: &mut Random) -> Vec<u8> {
        let place = random.below(self.places.len() as u32) as usize;
        match (self.places.get(place), random.below(10)) {
            (Some((name, _)), 0..=4) => name.clone(),
            (_, 5..=7) => any_name(random),
            _ => random.pick(&NAMES).to_vec(),
        }
    }
}

/// By the test of the functions themselves, which comes before all others.
fn is_shelf(shelf: &[u8]) -> bool {
    fetch(shelf, b"A", &mut []) != 5
}

/// Whether no list from fresh leads there: in none does a desk with a guest hold line
/// clears, owe any or have any waiting.
fn is_unreached(position: &[u8]) -> bool {
    Section::from_position(position).is_ok_and(|section| {
        let mut desks = section.desks.iter();
        desks.any(|desk| desk.guest > 0 && desk.holds + desk.owes + desk.waiting > 0)
    })
}

/// Few letters, so that names often begin others.
fn any_name(random: &mut Random) -> Vec<u8> {
    let length = random.pick(&[1, 2, 3, 11, NAME_LENGTH]);
    (0..length).map(|_| random.pick(b"ABYZ")).collect()
}

/// The position of a well-made section: a fresh one, one to which a list leads, or any.
fn any_position(random: &mut Random) -> Position {
    let section = match random.below(10) {
        0 => Section::fresh(),
        1..=3 => {
            let mut generator = Generator::new(random.word(), Options::default());
            for _ in 0..random.below(60) {
                generator.next_step();
            }
            generator.section().clone()
        }
        _ => any_section(random),
    };
    section.position().expect("the section is well made")
}

/// A position for a store, now and then with one bit altered, or of another length.
fn offered_position(random: &mut Random) -> Vec<u8> {
    let mut position = any_position(random).to_vec();
    match random.below(10) {
        0 | 1 => position[random.below(POSITION_LENGTH as u32) as usize] ^= 1 << random.below(8),
        2 => position.resize(any_length(random), 0),
        _ => {}
    }
    position
}

fn any_buffer(random: &mut Random) -> Vec<u8> {
    (0..any_length(random)).map(|_| random.byte()).collect()
}

/// The length of a position, or a lower or greater one.
fn any_length(random: &mut Random) -> usize {
    let any = random.between(0, 600).into();
    random.pick(&[
        POSITION_LENGTH - 1,
        POSITION_LENGTH,
        POSITION_LENGTH + 1,
        any,
    ])
}

/// Names that differ, none to sixteen of them, each with a position.
fn any_places(random: &mut Random) -> Vec<(Vec<u8>, Position)> {
    let any = random.below(SHELF_PLACES as u32 + 1) as usize;
    let wanted = random.pick(&[any, any, SHELF_PLACES]);
    let mut places: Vec<(Vec<u8>, Position)> = Vec::new();
    while places.len() < wanted {
        let name = any_name(random);
        if places.iter().all(|(used, _)| *used != name) {
            places.push((name, any_position(random)));
        }
    }
    places
}

/// The shelf with these names and positions, made without a store.
fn shelf_of(places: &[(Vec<u8>, Position)]) -> Vec<u8> {
    let mut shelf = Vec::with_capacity(SHELF_LENGTH);
    for (name, position) in places {
        shelf.extend(title(name));
        shelf.extend(position);
    }
    shelf.resize(SHELF_LENGTH, 0);
    shelf
}

/// Makes lists of stores and fetches and tests every point of them.
fn make_lists(functions: Functions, seeds: std::ops::Range<u64>) -> Result<Tally, Failure> {
    let mut tally = Tally::default();
    for seed in seeds {
        let mut random = Random::new(seed);
        let places = any_places(&mut random);
        tally.shelves[places.len()] += 1;
        let mut host = Host {
            functions,
            shelf: shelf_of(&places),
            places,
            tally: &mut tally,
        };
        host.check()?;
        for _ in 0..random.between(1, 60) {
            let name = host.some_name(&mut random);
            if random.chance(50) {
                host.store(&name, &offered_position(&mut random))?;
            } else {
                host.fetch(&name, any_buffer(&mut random))?;
            }
            host.check()?;
        }
    }
    Ok(tally)
}

#[test]
fn what_is_fetched_under_a_name_is_what_was_last_stored_under_it() {
    let tally = make_lists(OWN, 0..500).unwrap_or_else(|failure| panic!("{failure}"));
    assert!(tally.stores.keys().eq(&[0, 24, 25, 26]), "{tally:?}");
    assert!(tally.fetches.keys().eq(&[0, 23, 24]), "{tally:?}");
    assert!(tally.shelves.iter().all(|&made| made > 0), "{tally:?}");
    assert!(tally.replaced > 1_000, "{tally:?}");
    assert!(tally.unreached > 500, "{tally:?}");
    assert!(tally.with_bytes_behind > 500, "{tally:?}");
}

/// Moves the place of this name behind the others in use.
fn move_to_the_end(shelf: &mut [u8], name: &[u8]) {
    let used = shelf
        .chunks(SHELF_PLACE_LENGTH)
        .take_while(|place| place[0] != 0);
    let end = used.count() * SHELF_PLACE_LENGTH;
    if let Some(place) = place_of(shelf, name) {
        shelf[place * SHELF_PLACE_LENGTH..end].rotate_left(SHELF_PLACE_LENGTH);
    }
}

/// Functions with one slip each, which the lists have to show.
#[test]
fn a_slip_shows() {
    let slips: [(&str, Functions); 4] = [
        (
            "a name stored again moves behind the others",
            Functions {
                store: |shelf, name, position| {
                    let number = store(shelf, name, position);
                    if number == 0 {
                        move_to_the_end(shelf, name);
                    }
                    number
                },
                ..OWN
            },
        ),
        (
            "a new name is put in front of the others",
            Functions {
                store: |shelf, name, position| {
                    let is_new = place_of(shelf, name).is_none();
                    let number = store(shelf, name, position);
                    if let (0, true, Some(place)) = (number, is_new, place_of(shelf, name)) {
                        let end = (place + 1) * SHELF_PLACE_LENGTH;
                        shelf[..end].rotate_right(SHELF_PLACE_LENGTH);
                    }
                    number
                },
                ..OWN
            },
        ),
        (
            "bytes that are no position are stored",
            Functions {
                store: |shelf, name, position| match (
                    store(shelf, name, position),
                    place_of(shelf, name),
                ) {
                    (26, Some(place)) if position.len() == POSITION_LENGTH => {
                        let start = place * SHELF_PLACE_LENGTH + NAME_LENGTH;
                        shelf[start..start + POSITION_LENGTH].copy_from_slice(position);
                        0
                    }
                    (number, _) => number,
                },
                ..OWN
            },
        ),
        (
            "a section to which no list leads is not fetched",
            Functions {
                fetch: |shelf, name, buffer| {
                    let mut position = [0; POSITION_LENGTH];
                    match fetch(shelf, name, &mut position) {
                        0 if is_unreached(&position) => 26,
                        _ => fetch(shelf, name, buffer),
                    }
                },
                ..OWN
            },
        ),
    ];
    for (slip, functions) in slips.into_iter().chain(SHELF_SLIPS) {
        let made = make_lists(functions, 0..60);
        assert!(made.is_err(), "{slip}");
    }
}
