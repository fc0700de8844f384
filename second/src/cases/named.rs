//! Cases that have a name each, the same names at both stations.

use super::sections::Handed;
use crate::section::Station;

/// A case and what it is there for.
pub(super) type Named<Name = &'static str> = (Name, Handed);

/// The cases of both stations, without their names.
pub(super) fn at_both<Name>(named_at: fn(Station) -> Vec<Named<Name>>) -> Vec<Handed> {
    let named = Station::BOTH.into_iter().flat_map(named_at);
    named.map(|(_, handed)| handed).collect()
}

/// The number of the refusal, 0 where there is none.
#[cfg(test)]
pub(super) fn number(answer: crate::step::Answer) -> u8 {
    answer.map_or_else(|refusal| refusal.number(), |_| 0)
}

#[cfg(test)]
mod tests {
    use std::fmt::Debug;

    use super::*;
    use crate::cases::{given_up, guests, waiting};

    #[track_caller]
    fn has_the_same_names_each_once<Name: Debug + Ord>(named_at: fn(Station) -> Vec<Named<Name>>) {
        let names = |station| -> Vec<Name> {
            let named = named_at(station).into_iter();
            named.map(|(name, _)| name).collect()
        };
        assert_eq!(names(Station::A), names(Station::B));
        let mut sorted = names(Station::A);
        sorted.sort_unstable();
        sorted.dedup();
        assert_eq!(sorted.len(), names(Station::A).len());
    }

    #[test]
    fn both_stations_have_the_same_names_and_each_once() {
        has_the_same_names_each_once(waiting::named_at);
        has_the_same_names_each_once(given_up::named_at);
        has_the_same_names_each_once(guests::named_at);
    }

    #[test]
    fn no_case_is_stored_twice() {
        let handed = [
            at_both(waiting::named_at),
            at_both(given_up::named_at),
            at_both(guests::named_at),
        ]
        .concat();
        for (place, case) in handed.iter().enumerate() {
            assert!(!handed[..place].contains(case), "{case:?}");
        }
    }
}
