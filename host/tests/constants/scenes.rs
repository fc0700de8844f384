//! Entries in hex, and sections that are stepped with them.

use lupinshift::{Order, Position};

// What the scenes share. The opener of A goes to B and comes back with the
// answer; A then sends a train.
pub const BEGIN: &str = "01 01";
pub const RESUME: &str = "01 08";
/// OPEN at A, minute 10, clear day, light engine, asks for 2.
pub const OPEN: &str = "3F 02 01 00 0A 01 01 02";
/// RECEIVE at B, minute 70, form A1.
pub const ARRIVE: &str = "87 06 02 00 46 01 00 01";
/// RETURN at B, minute 75, asks for 2, grants 2.
pub const REPLY: &str = "67 04 02 00 4B 02 02";
/// RECEIVE at A, minute 95, form B1.
pub const COME_BACK: &str = "87 06 01 00 5F 02 00 01";
/// TRAIN at A, minute 96, clear day.
pub const TRAIN: &str = "0F 05 01 00 60 01";
/// The same, and it grants 1.
pub const TRAIN_GRANTS: &str = "4F 05 01 00 60 01 01";
/// THROUGH at A and at B, minute 105.
pub const THROUGH: [&str; 2] = ["1F 03 01 00 69 01 01", "1F 03 02 00 69 01 01"];

/// RETURN at B, minute 75.
pub const GOES_BACK: &str = "07 04 02 00 4B";
/// TRAIN at A, minute 126, clear day.
pub const FOLLOWER: &str = "0F 05 01 00 7E 01";

pub const BEGUN: &[&str] = &[BEGIN];
pub const A_OPENS: &[&str] = &[BEGIN, OPEN];
pub const B_HAS_GUEST: &[&str] = &[BEGIN, OPEN, ARRIVE];
pub const B_REPLIES: &[&str] = &[BEGIN, OPEN, ARRIVE, REPLY];
pub const A_HOLDS: &[&str] = &[BEGIN, OPEN, ARRIVE, REPLY, COME_BACK];
pub const A_SENDS: &[&str] = &[BEGIN, OPEN, ARRIVE, REPLY, COME_BACK, TRAIN];
pub const A_GRANTS: &[&str] = &[BEGIN, OPEN, ARRIVE, REPLY, COME_BACK, TRAIN_GRANTS];

/// The bytes that a text has in hex, with blanks between them.
pub fn bytes_of(hex: &str) -> Vec<u8> {
    hex.split_whitespace()
        .map(|byte| u8::from_str_radix(byte, 16).expect("two hex digits"))
        .collect()
}

/// The section after these entries, all of them accepted.
pub fn after(mut section: Position, entries: &[&str]) -> Position {
    for entry in entries {
        let answer = section.step(&bytes_of(entry));
        assert!(answer.is_ok(), "{entry}: {answer:?}");
    }
    section
}

/// What answers an entry after others, from the fresh section.
pub fn answer_to(scene: &[&str], entry: &str) -> Result<Order, u32> {
    after(Position::fresh(), scene).step(&bytes_of(entry))
}

/// The order for an entry after others that is accepted.
pub fn order(scene: &[&str], entry: &str) -> Order {
    answer_to(scene, entry).unwrap_or_else(|refusal| panic!("{entry}: {refusal}"))
}

/// A THROUGH that leaves this station, by its byte, in this minute.
pub fn through(station: u8, minute: u16) -> [u8; 7] {
    let [high, low] = minute.to_be_bytes();
    [0x1F, 3, station, high, low, 1, 1]
}

/// Uses form numbers up to this one: an engine leaves on each, in minute 0, and
/// is taken back.
pub fn use_forms(section: &mut Position, station: u8, last: u16) {
    for form in 1..=last {
        let [high, low] = form.to_be_bytes();
        let back = [0x87, 6, station, 0, 0, station, high, low];
        assert!(section.step(&through(station, 0)).is_ok(), "form {form}");
        assert!(section.step(&back).is_ok(), "form {form} taken back");
    }
}

/// A number of so many bytes, high byte first.
pub fn number_at(bytes: &[u8], at: usize, width: usize) -> u32 {
    let digits = bytes[at..at + width].iter();
    digits.fold(0, |number, &byte| number << 8 | u32::from(byte))
}
