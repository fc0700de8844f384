//! The shelf: up to sixteen positions, each under a name.
//!
//! A shelf is lent as bytes, sixteen places one behind another. A place is a name,
//! filled up with zeros, and a position; places in use come first, in the order in
//! which their names were first stored, and all behind them is zero. The shelf of
//! nothing but zeros is empty.

use crate::position::POSITION_LENGTH;
use crate::refusal::{number_or_0, Refusal};
use crate::section::Section;
use crate::working::refuse_if;

/// The longest name.
pub const NAME_LENGTH: usize = 12;

/// The bytes of one place: a name and a position.
pub const SHELF_PLACE_LENGTH: usize = NAME_LENGTH + POSITION_LENGTH;

/// The places of a shelf.
pub const SHELF_PLACES: usize = 16;

/// The bytes of a shelf.
pub const SHELF_LENGTH: usize = SHELF_PLACES * SHELF_PLACE_LENGTH;

/// A name with the zeros behind it, as a place of the shelf holds it.
type Name = [u8; NAME_LENGTH];

/// Stores a position under a name, in the place of what was stored under it before,
/// or else behind the last place in use. Gives 0, or the number of the refusal.
///
/// 5 where the shelf is none, 24 where the name is none, 25 where it would be the
/// seventeenth, 26 where the position is none. Nothing is altered then.
pub fn store(shelf: &mut [u8], name: &[u8], position: &[u8]) -> u32 {
    number_or_0(try_store(shelf, name, position))
}

fn try_store(shelf: &mut [u8], name: &[u8], position: &[u8]) -> Result<(), Refusal> {
    let used = used_places(shelf)?;
    let name = filled_up(name)?;
    let place = place_of(used, &name).unwrap_or(used.len() / SHELF_PLACE_LENGTH);
    refuse_if(place == SHELF_PLACES, Refusal::ShelfFull)?;
    Section::from_position(position)?;

    let start = place * SHELF_PLACE_LENGTH;
    let (named, rest) = shelf[start..].split_at_mut(NAME_LENGTH);
    named.copy_from_slice(&name);
    rest[..POSITION_LENGTH].copy_from_slice(position);
    Ok(())
}

/// Puts the position stored under a name at the front of the buffer. Gives 0, or
/// the number of the refusal.
///
/// 5 where the shelf is none, 24 where the name is none or nothing is stored under
/// it, 23 where the buffer is too short for a position. Nothing is altered then.
pub fn fetch(shelf: &[u8], name: &[u8], buffer: &mut [u8]) -> u32 {
    number_or_0(try_fetch(shelf, name, buffer))
}

fn try_fetch(shelf: &[u8], name: &[u8], buffer: &mut [u8]) -> Result<(), Refusal> {
    let used = used_places(shelf)?;
    let name = filled_up(name)?;
    let place = place_of(used, &name).ok_or(Refusal::NoSuchName)?;
    let front = buffer
        .get_mut(..POSITION_LENGTH)
        .ok_or(Refusal::BufferTooShort)?;
    let start = place * SHELF_PLACE_LENGTH + NAME_LENGTH;
    front.copy_from_slice(&shelf[start..start + POSITION_LENGTH]);
    Ok(())
}

/// The places in use of what has to be a shelf.
fn used_places(shelf: &[u8]) -> Result<&[u8], Refusal> {
    refuse_if(shelf.len() != SHELF_LENGTH, Refusal::IllMade)?;
    let count = places_in(shelf).take_while(|place| !is_zero(place)).count();
    let (used, unused) = shelf.split_at(count * SHELF_PLACE_LENGTH);
    let is_shelf = is_zero(unused) && places_in(used).all(is_well_made) && names_differ(used);
    refuse_if(!is_shelf, Refusal::IllMade)?;
    Ok(used)
}

fn is_zero(bytes: &[u8]) -> bool {
    bytes.iter().all(|&byte| byte == 0)
}

/// Whether a place has a name, and behind it the position of a well-made section.
fn is_well_made(place: &[u8]) -> bool {
    let (name, position) = place.split_at(NAME_LENGTH);
    let letters = name.iter().take_while(|&&letter| letter != 0).count();
    filled_up(&name[..letters]).is_ok_and(|filled| filled == name)
        && Section::from_position(position).is_ok()
}

fn names_differ(places: &[u8]) -> bool {
    names_in(places)
        .enumerate()
        .all(|(place, name)| names_in(places).take(place).all(|earlier| earlier != name))
}

fn place_of(places: &[u8], name: &Name) -> Option<usize> {
    names_in(places).position(|used| used == name)
}

fn names_in(places: &[u8]) -> impl Iterator<Item = &[u8]> {
    places_in(places).map(|place| &place[..NAME_LENGTH])
}

fn places_in(places: &[u8]) -> impl Iterator<Item = &[u8]> {
    places.chunks_exact(SHELF_PLACE_LENGTH)
}

/// The name with zeros behind it; 24 where it is not 1 to 12 capital letters.
fn filled_up(name: &[u8]) -> Result<Name, Refusal> {
    let is_name =
        (1..=NAME_LENGTH).contains(&name.len()) && name.iter().all(u8::is_ascii_uppercase);
    refuse_if(!is_name, Refusal::NoSuchName)?;
    let mut filled = [0; NAME_LENGTH];
    filled[..name.len()].copy_from_slice(name);
    Ok(filled)
}
