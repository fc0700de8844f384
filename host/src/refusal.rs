//! Refusals: numbers, with words at hand.

/// What a function that answers 0 or the number of a refusal has said.
pub(crate) fn done(number: u32) -> Result<(), u32> {
    match number {
        0 => Ok(()),
        refusal => Err(refusal),
    }
}

/// A refusal in words. "Here" is the station of the entry.
///
/// ```
/// assert_eq!(lupinshift::words(26), "the bytes are no position");
/// assert_eq!(lupinshift::words(27), "there is no such refusal");
/// ```
#[must_use]
pub const fn words(refusal: u32) -> &'static str {
    match refusal {
        1 => "the bytes end inside an entry",
        2 => "there is no such kind",
        3 => "the map is not of the kind",
        4 => "a field lies outside its range",
        5 => "the shelf is none",
        6 => "the working is in force already",
        7 => "the working is not in force",
        8 => "a vehicle is in the section",
        9 => "the time is before the last accepted entry here",
        10 => "the opener from here is away",
        11 => "line clears are held here",
        12 => "line clears are owed here",
        13 => "the other station's opener stands here",
        14 => "no opener of the other station stands here",
        15 => "no line clear is held here",
        16 => "more is granted than was asked, or while line clears are owed here",
        17 => "twelve departures are counted here",
        18 => "the last form number is used",
        19 => "the last departure was under 30 minutes ago",
        20 => "the vehicle named is not the nearest",
        21 => "the vehicle may not enter here",
        22 => "the vehicle named has none that it may meet",
        23 => "too few places are lent",
        24 => "there is no such name",
        25 => "the shelf is full",
        26 => "the bytes are no position",
        _ => "there is no such refusal",
    }
}
