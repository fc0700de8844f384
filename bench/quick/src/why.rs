//! Why an entry is refused, for the listing.

use crate::departure::Departure;
use crate::desk::{ASKED, GUEST, HOLDS, OUT, OWES, SENT_ALL};
use crate::reading::{byte, BOTH, MEET, OPEN, PLAIN, RANGES, RECEIVE, RETURN, THROUGH, TRAIN};
use crate::section::{station_of, time_of, Section};
use crate::text::letter;

/// A refusal as its line has it.
pub struct Refusal {
    pub kind: u64,
    pub letter: u64,
    pub reason: usize,
}

impl Refusal {
    /// Of bytes that are no entry.
    pub const fn unread(reason: usize) -> Refusal {
        Refusal {
            kind: 0,
            letter: b'-' as u64,
            reason,
        }
    }
}

/// The refusal of an entry that the section does not accept.
pub fn why(section: &Section, entry: u64) -> Refusal {
    if let Some(reason) = unread(entry) {
        return Refusal::unread(reason);
    }
    let kind = byte(entry, 1);
    let (letter, reason) = match kind {
        1 => (u64::from(b'-'), 6),
        8 if section.is_idle() => (u64::from(b'-'), 7),
        8 => (u64::from(b'-'), 8),
        _ => (letter(station_of(entry)), at_station(section, entry, kind)),
    };
    Refusal {
        kind: kind as u64,
        letter,
        reason,
    }
}

/// The reason where the bytes, as many as the map says, are no entry.
#[inline(always)]
fn unread(entry: u64) -> Option<usize> {
    let map = byte(entry, 0);
    let kind = byte(entry, 1);
    if map & 1 == 0 || !(1..=9).contains(&kind) {
        Some(2)
    } else if !fits(map, kind) {
        Some(3)
    } else if !RANGES[map].hold(entry) {
        Some(4)
    } else {
        None
    }
}

fn fits(map: usize, kind: usize) -> bool {
    match kind {
        2 => map == OPEN,
        3 => map == THROUGH,
        4 => map & !BOTH == RETURN,
        5 | 9 => map & !BOTH == TRAIN,
        6 => map == RECEIVE,
        7 => map == MEET,
        _ => map == PLAIN,
    }
}

fn at_station(section: &Section, entry: u64, kind: usize) -> usize {
    let station = station_of(entry);
    let desk = &section.desks[station];
    if section.is_idle() {
        7
    } else if kind == 7 {
        22
    } else if time_of(entry) < desk.clock {
        9
    } else if kind != 6 {
        departing(desk.figures, entry, kind)
    } else if section.nearest(station).form() != entry & 0xFF_FFFF {
        20
    } else {
        21
    }
}

fn departing(figures: u64, entry: u64, kind: usize) -> usize {
    let stands = |bits| figures & bits != 0;
    let engine = kind < 4;
    let train = is_train(kind);
    if engine && stands(OUT) {
        10
    } else if engine && stands(HOLDS) {
        11
    } else if engine && stands(OWES) {
        12
    } else if engine && stands(GUEST) {
        13
    } else if kind == 4 && !stands(GUEST) {
        14
    } else if train && !stands(HOLDS) {
        15
    } else if !engine && grants_too_much(figures, entry, kind) {
        16
    } else if stands(SENT_ALL) {
        17
    } else {
        // A log that is listed is too short for 18.
        19
    }
}

/// TRAIN and LAST TRAIN.
fn is_train(kind: usize) -> bool {
    matches!(kind, 5 | 9)
}

fn grants_too_much(figures: u64, entry: u64, kind: usize) -> bool {
    let granted = Departure::of(byte(entry, 0)).granted.of(entry);
    let owes = is_train(kind) && figures & OWES != 0;
    granted > figures & ASKED || granted > 0 && owes
}
