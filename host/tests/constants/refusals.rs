//! Refusals: each is provoked, and answered by its words.

use lupinshift::{answer, words, write_entry, Position, Shelf, POSITION, SHELF};

use crate::scenes::{
    after, answer_to, bytes_of, through, use_forms, A_GRANTS, A_HOLDS, A_OPENS, A_SENDS, BEGIN,
    BEGUN, B_HAS_GUEST, B_REPLIES, GOES_BACK, RESUME, THROUGH, TRAIN,
};

/// Says a refusal's number in words, of what must be refused.
fn words_of<T>(answer: Result<T, u32>) -> &'static str {
    answer.map_or_else(words, |_| "accepted")
}

/// Entries that are accepted, one that is refused, and its words.
type Deed = (&'static [&'static str], &'static str, &'static str);

/// The deeds that a step refuses, in the order of document 01's "Reasons".
const DEEDS: [Deed; 21] = [
    (&[], "", "the bytes end inside an entry"),
    // An OPEN without what it asks for.
    (
        BEGUN,
        "3F 02 01 00 0A 01 01",
        "the bytes end inside an entry",
    ),
    // Kind 10.
    (BEGUN, "01 0A", "there is no such kind"),
    // RESUME at A.
    (BEGUN, "03 08 01", "the map is not of the kind"),
    // OPEN that asks for 9.
    (
        BEGUN,
        "3F 02 01 00 0A 01 01 09",
        "a field lies outside its range",
    ),
    (BEGUN, BEGIN, "the working is in force already"),
    (&[], RESUME, "the working is not in force"),
    (A_OPENS, RESUME, "a vehicle is in the section"),
    // THROUGH at A, minute 104 after minute 105.
    (
        &[BEGIN, THROUGH[0]],
        "1F 03 01 00 68 01 01",
        "the time is before the last accepted entry here",
    ),
    (A_OPENS, THROUGH[0], "the opener from here is away"),
    (A_HOLDS, THROUGH[0], "line clears are held here"),
    (B_REPLIES, THROUGH[1], "line clears are owed here"),
    (
        B_HAS_GUEST,
        THROUGH[1],
        "the other station's opener stands here",
    ),
    (
        BEGUN,
        GOES_BACK,
        "no opener of the other station stands here",
    ),
    (BEGUN, TRAIN, "no line clear is held here"),
    // RETURN that grants 3, where 2 were asked for.
    (
        B_HAS_GUEST,
        "47 04 02 00 4B 03",
        "more is granted than was asked, or while line clears are owed here",
    ),
    // TRAIN that grants 1, where 1 is owed.
    (
        A_GRANTS,
        "4F 05 01 00 7E 01 01",
        "more is granted than was asked, or while line clears are owed here",
    ),
    // THROUGH at A, minute 134 after minute 105.
    (
        &[BEGIN, THROUGH[0]],
        "1F 03 01 00 86 01 01",
        "the last departure was under 30 minutes ago",
    ),
    // RECEIVE at B of A2, where A1 is the nearest.
    (
        A_OPENS,
        "87 06 02 00 46 01 00 02",
        "the vehicle named is not the nearest",
    ),
    // RECEIVE at A of A's own train.
    (
        A_SENDS,
        "87 06 01 00 60 01 00 02",
        "the vehicle may not enter here",
    ),
    // MEET of A1, which is alone.
    (
        A_OPENS,
        "83 07 02 01 00 01",
        "the vehicle named has none that it may meet",
    ),
];

#[test]
fn refused_steps_in_words() {
    for (scene, entry, in_words) in DEEDS {
        assert_eq!(words_of(answer_to(scene, entry)), in_words, "{entry}");
        let entries = scene.iter().chain([&entry]);
        let log: Vec<u8> = entries.flat_map(|hex| bytes_of(hex)).collect();
        if !log.is_empty() {
            assert_eq!(words(answer(&log)), in_words, "{entry}");
        }
    }
}

#[test]
fn the_last_departures_in_words() {
    let mut section = after(Position::fresh(), BEGUN);
    for minute in (0..12).map(|count| 30 * count) {
        assert!(section.step(&through(1, minute)).is_ok());
    }
    assert_eq!(
        words_of(section.step(&through(1, 360))),
        "twelve departures are counted here"
    );
    let mut section = after(Position::fresh(), BEGUN);
    use_forms(&mut section, 1, 9_999);
    assert_eq!(
        words_of(section.step(&through(1, 0))),
        "the last form number is used"
    );
}

#[test]
fn refused_calls_in_words() {
    let fresh = Position::fresh();
    let ill_made = Position::from_bytes([2; POSITION]);
    let mut shelf = Shelf::empty();
    assert_eq!(words_of(shelf.fetch("A")), "there is no such name");
    assert_eq!(words_of(shelf.store("a", &fresh)), "there is no such name");
    assert_eq!(
        words_of(shelf.store("A", &ill_made)),
        "the bytes are no position"
    );
    assert_eq!(
        words_of(Shelf::from_bytes([1; SHELF]).fetch("A")),
        "the shelf is none"
    );
    assert_eq!(
        words_of(write_entry(&[], &mut [])),
        "too few places are lent"
    );
    for name in ('A'..).take(16) {
        assert_eq!(shelf.store(&name.to_string(), &fresh), Ok(()));
    }
    assert_eq!(
        words_of(shelf.store("SEVENTEENTH", &fresh)),
        "the shelf is full"
    );
    assert_eq!(words(0), "there is no such refusal");
    assert_eq!(words(27), "there is no such refusal");
}
