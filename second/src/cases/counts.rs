//! Refused entries of every sort, and entries that leave the counts alone, on
//! sections whose counts are near their largest value or at it.

use super::sections::{begun, hand, with_desk, working, Handed};
use super::sections::{working_meeting, working_receipt, working_train};
use crate::entry::Entry;
use crate::generator::bytes_of;
use crate::section::Station::{A, B};
use crate::section::{Refused, Section, Station};

const MOST: u32 = u32::MAX;

/// Three counts of which no two are the same, so that one put in the place of
/// another shows.
pub(super) const DISTINCT: Refused = Refused {
    for_a: 3,
    for_b: 5,
    of_none: 7,
};

pub(super) fn handed() -> Vec<Handed> {
    let mut handed = Vec::new();
    for refused in one_at_its_largest() {
        handed.extend(of_every_sort(refused));
        handed.extend(leaving_all_alone(refused));
    }
    for refused in near_their_largest() {
        handed.extend(one_of_each(refused));
    }
    handed
}

fn one_at_its_largest() -> [Refused; 3] {
    [
        Refused {
            for_a: MOST,
            ..DISTINCT
        },
        Refused {
            for_b: MOST,
            ..DISTINCT
        },
        Refused {
            of_none: MOST,
            ..DISTINCT
        },
    ]
}

fn near_their_largest() -> Vec<Refused> {
    let all = |count| Refused {
        for_a: count,
        for_b: count,
        of_none: count,
    };
    // Two at the largest value and the third not, and the other way round.
    let mut counts: Vec<Refused> = [(MOST - 1, MOST), (MOST, MOST - 1)]
        .into_iter()
        .flat_map(|(one, others)| {
            [
                Refused {
                    for_a: one,
                    ..all(others)
                },
                Refused {
                    for_b: one,
                    ..all(others)
                },
                Refused {
                    of_none: one,
                    ..all(others)
                },
            ]
        })
        .collect();
    // The last has a carry into the highest byte.
    counts.extend([all(MOST), all(MOST - 1), all(0x00FF_FFFF)]);
    counts
}

/// Entries of this station that [`working`] refuses, one of each kind that is
/// counted for a station.
fn entries_of(station: Station) -> [Entry; 6] {
    [
        Entry::open(station, 510, 1, 1, 1),
        Entry::through(station, 510, 1),
        Entry::send_back(station, 509, 0, 0),
        Entry::last_train(station, 510, 1, 0, 1),
        Entry::train(station, 499, 1, 0, 0),
        Entry::receive(station, 510, station, 40),
    ]
}

/// Bytes that are no entry though they show this station, refused with 1 to 4.
pub(super) fn no_entries_of(station: Station) -> [Vec<u8>; 4] {
    let station = station.number();
    [
        vec![0x0F, 5, station],
        vec![0x07, 10, station, 0, 10],
        vec![0x07, 5, station, 0, 10],
        vec![0x3F, 2, station, 0, 10, 1, 1, 9],
    ]
}

fn of_every_sort(refused: Refused) -> Vec<Handed> {
    let idle = Section {
        refused,
        ..Section::fresh()
    };
    let working = Section {
        refused,
        ..working()
    };
    let mut handed = Vec::new();
    for station in Station::BOTH {
        let entries = entries_of(station);
        handed.extend(entries.map(|entry| hand(working.clone(), &entry)));
        handed.extend(entries[3..].iter().map(|entry| hand(idle.clone(), entry)));
        // A MEET is of no station, whichever it names.
        let meeting = Entry::meet(station, station, 40);
        handed.extend([
            hand(working.clone(), &meeting),
            hand(idle.clone(), &meeting),
        ]);
        handed.extend(no_entries_of(station).map(|bytes| (working.clone(), bytes)));
    }
    handed.extend([
        hand(working.clone(), &Entry::begin()),
        hand(working.clone(), &Entry::resume()),
        hand(idle, &Entry::resume()),
        (working, Vec::new()),
    ]);
    handed
}

/// Accepted entries, and one refused with 5.
fn leaving_all_alone(refused: Refused) -> Vec<Handed> {
    let counted = |section| Section { refused, ..section };
    vec![
        hand(counted(Section::fresh()), &Entry::begin()),
        hand(counted(begun()), &Entry::resume()),
        hand(counted(working()), &working_meeting()),
        hand(counted(working()), &working_train(A)),
        hand(counted(working()), &Entry::last_train(B, 510, 1, 0, 0)),
        hand(counted(working()), &working_receipt(B)),
        hand(
            counted(with_desk(A, |desk| desk.sent = 13)),
            &Entry::train(B, 499, 1, 0, 0),
        ),
    ]
}

/// An entry of A, one of B, one of no station and bytes that are no entry.
fn one_of_each(refused: Refused) -> [Handed; 4] {
    let section = Section {
        refused,
        ..working()
    };
    let [.., receipt] = entries_of(A);
    let [opener, ..] = entries_of(B);
    let [.., out_of_range] = no_entries_of(A);
    [
        bytes_of(&receipt),
        bytes_of(&opener),
        bytes_of(&Entry::meet(B, B, 40)),
        out_of_range,
    ]
    .map(|bytes| (section.clone(), bytes))
}

#[cfg(test)]
mod tests {
    use super::*;
    use crate::step::step;

    /// The number of the refusal, 0 where there is none.
    fn answer(handed: &Handed) -> u8 {
        let answer = step(&handed.0, &handed.1).0;
        answer.map_or_else(|refusal| refusal.number(), |_| 0)
    }

    /// How much the three counts have grown.
    fn growth(handed: &Handed) -> [u32; 3] {
        let before = handed.0.refused;
        let after = step(&handed.0, &handed.1).1.refused;
        [
            after.for_a - before.for_a,
            after.for_b - before.for_b,
            after.of_none - before.of_none,
        ]
    }

    fn answers(handed: &[Handed]) -> Vec<u8> {
        handed.iter().map(answer).collect()
    }

    fn growths(handed: &[Handed]) -> Vec<[u32; 3]> {
        handed.iter().map(growth).collect()
    }

    #[test]
    fn the_sorts_are_refused_and_counted_as_the_readings_say() {
        let station = [10, 10, 19, 16, 9, 20, 7, 7, 7, 22, 7, 1, 2, 3, 4];
        let none = [6, 8, 7, 1];
        let handed = of_every_sort(DISTINCT);
        assert_eq!(answers(&handed), [&station[..], &station, &none].concat());
        let expected = [
            vec![[1, 0, 0]; 9],
            vec![[0, 0, 1]; 6],
            vec![[0, 1, 0]; 9],
            vec![[0, 0, 1]; 6 + 4],
        ];
        assert_eq!(growths(&handed), expected.concat());
    }

    #[test]
    fn a_count_at_its_largest_stays_and_stops_no_other() {
        for (place, refused) in one_at_its_largest().into_iter().enumerate() {
            let mut expected = growths(&of_every_sort(DISTINCT));
            for growth in &mut expected {
                growth[place] = 0;
            }
            assert_eq!(growths(&of_every_sort(refused)), expected);
        }
    }

    #[test]
    fn accepted_entries_and_5_leave_all_three() {
        let handed = leaving_all_alone(DISTINCT);
        assert_eq!(answers(&handed), [0, 0, 0, 0, 0, 0, 5]);
        assert_eq!(growths(&handed), [[0; 3]; 7]);
    }

    #[test]
    fn one_of_each_is_counted_unless_its_count_is_at_its_largest() {
        for refused in near_their_largest() {
            let handed = one_of_each(refused);
            assert_eq!(answers(&handed), [20, 10, 22, 4]);
            let [a, b, none] = [refused.for_a, refused.for_b, refused.of_none]
                .map(|count| u32::from(count != MOST));
            let expected = [[a, 0, 0], [0, b, 0], [0, 0, none], [0, 0, none]];
            assert_eq!(growths(&handed), expected);
        }
    }
}
