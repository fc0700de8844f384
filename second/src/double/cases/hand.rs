//! Cases picked by hand: every refusal at either station, each edge, each clause of
//! well made, and all these sections with bytes that are no entry as well.

use super::super::generator::bytes_of;
use super::super::section::{Desk, Section};
use super::{Case, LONGEST};
use crate::entry::Entry;
use crate::section::Station::{A, B};
use crate::section::{Refused, Station};

const MOST: u32 = u32::MAX;

/// Three counts of which no two are the same, so that one put in the place of
/// another shows.
const DISTINCT: Refused = Refused {
    for_a: 3,
    for_b: 5,
    of_none: 7,
};

/// Bytes that are no entry, with their refusal; some show a station, for which they
/// are not counted.
const NO_ENTRIES: [(u8, &[u8]); 32] = [
    (1, &[]),
    (2, &[0x00]),
    (3, &[0x03, 1, 1]),
    (4, &[0x07, 5, 0, 0, 10]),
    (1, &[0x07]),
    (2, &[0x01, 0]),
    (3, &[0x0F, 5, 1, 2, 88, 1]),
    (4, &[0x07, 5, 3, 0x02, 0x58]),
    (1, &[0x07, 5, 1, 0x02]),
    (2, &[0x3F, 2, 1, 0x02, 0x58, 1, 1, 2]),
    (3, &[0x03, 5, 2]),
    (4, &[0x87, 6, 2, 0x02, 0x58, 0, 0, 31]),
    (1, &[0x87, 6, 2, 0x02, 0x58, 1, 0]),
    (2, &[0x1F, 3, 2, 0x02, 0x58, 1, 1]),
    (3, &[0x07, 6, 1, 0x02, 0x58]),
    (4, &[0x87, 6, 1, 0x02, 0x58, 3, 0, 31]),
    (1, &[0x01]),
    (2, &[0x07, 4, 1, 0x02, 0x58]),
    (3, &[0x8F, 6, 1, 0x02, 0x58, 1, 2, 0, 31]),
    (4, &[0x87, 6, 1, 0x02, 0x58, 2, 0, 0]),
    (1, &[0x02]),
    (2, &[0x83, 7, 2, 1, 0, 31]),
    (3, &[0x87, 5, 2, 0x02, 0x58, 1, 0, 31]),
    (4, &[0x87, 6, 2, 0x02, 0x58, 1, 0x27, 0x10]),
    (1, &[0xFF, 5, 1, 0, 0, 1, 1, 1, 1, 1, 0]),
    (2, &[0x0F, 9, 1, 0x02, 0x58, 1]),
    (3, &[0x6F, 5, 2, 0x02, 0x58, 1, 1, 1]),
    (4, &[0x87, 6, 0, 0x02, 0x58, 1, 0, 31]),
    (1, &[0x03, 10]),
    (2, &[0x07, 10, 1, 0x02, 0x58]),
    (3, &[0x81, 8, 1, 0, 1]),
    (4, &[0x87, 6, 255, 0x02, 0x58, 1, 255, 255]),
];

pub(super) fn cases() -> Vec<Case> {
    let mut picked = Vec::new();
    for station in Station::BOTH {
        picked.extend(times(station));
        picked.extend(intervals(station));
        picked.extend(at_the_clocks_end(station));
        picked.extend(lines_filling(station));
        picked.extend(forms(station));
        picked.extend(receipts(station));
        picked.extend(several_reasons(station));
    }
    picked.extend(beginning_and_ending());
    picked.extend(counts());
    picked.extend(more_bytes_than_one_entry());
    let ill_made = ill_made();
    let mut cases = picked.clone();
    cases.extend(with_no_entries(&picked, 4));
    cases.extend(ill_made.clone());
    cases.extend(with_no_entries(&ill_made, 2));
    cases
}

/// Each section once more with so many of the bytes that are no entry, by turns.
fn with_no_entries(picked: &[Case], each: usize) -> Vec<Case> {
    let mut sections: Vec<&Section> = Vec::new();
    for case in picked {
        if !sections.contains(&&case.section) {
            sections.push(&case.section);
        }
    }
    let repeated = sections
        .into_iter()
        .flat_map(|section| std::iter::repeat_n(section, each));
    repeated
        .zip(NO_ENTRIES.iter().cycle())
        .map(|(section, (_, bytes))| Case {
            section: section.clone(),
            bytes: bytes.to_vec(),
        })
        .collect()
}

fn hand(section: &Section, entry: Entry) -> Case {
    Case {
        section: section.clone(),
        bytes: bytes_of(&entry),
    }
}

fn train(station: Station, time: u16) -> Entry {
    Entry::double_line_train(station, time)
}

/// The receipt of what the other station has sent.
fn receipt(station: Station, time: u16, form: u16) -> Entry {
    Entry::receive(station, time, station.other(), form)
}

fn desk(clock: u16, last_form: u16, interval: Option<u16>, line: &[u16]) -> Desk {
    let mut places = [0; Section::MOST_ON_LINE];
    places[..line.len()].copy_from_slice(line);
    Desk {
        clock,
        last_form,
        interval,
        places,
        present: line.len() as u8,
    }
}

/// The section in force with nothing else in it but counts.
fn begun() -> Section {
    Section {
        in_force: true,
        refused: DISTINCT,
        ..Section::fresh()
    }
}

/// A section in the middle of its work, with no figure alike at the two stations
/// but one form number: 31 is on both lines. The lines have gaps.
fn working() -> Section {
    Section {
        desks: [
            desk(500, 40, Some(480), &[31, 33, 34, 38]),
            desk(580, 60, Some(555), &[29, 31, 60]),
        ],
        ..begun()
    }
}

/// The first on the line that leaves this station of [`working`].
fn first_of(station: Station) -> u16 {
    working().desk(station).line()[0]
}

fn with_desk(station: Station, change: impl FnOnce(&mut Desk)) -> Section {
    let mut section = working();
    change(section.desk_mut(station));
    section
}

fn with_line(station: Station, last_form: u16, line: &[u16]) -> Section {
    with_desk(station, |it| {
        *it = desk(it.clock, last_form, it.interval, line);
    })
}

fn full_line() -> [u16; 12] {
    std::array::from_fn(|place| 21 + place as u16)
}

/// At the clock, one less and one more; the other clock is never compared.
fn times(station: Station) -> Vec<Case> {
    let first = first_of(station.other());
    let mut cases = Vec::new();
    for clock in [0, 1, 256, 500, u16::MAX] {
        let section = with_desk(station, |desk| (desk.clock, desk.interval) = (clock, None));
        let times = [clock.saturating_sub(1), clock, clock.saturating_add(1)];
        for time in times {
            cases.push(hand(&section, train(station, time)));
            cases.push(hand(&section, receipt(station, time, first)));
        }
    }
    cases
}

/// Under 30 minutes behind the last departure, and just 30.
fn intervals(station: Station) -> Vec<Case> {
    let mut cases = Vec::new();
    for (clock, started) in [
        (500, 480),
        (500, 500),
        (500, 471),
        (500, 470),
        (29, 0),
        (30, 0),
    ] {
        let section = with_desk(station, |desk| {
            (desk.clock, desk.interval) = (clock, Some(started));
        });
        let times = [started + 29, started + 30, started + 31];
        let times = times.into_iter().filter(|&time| time >= clock);
        cases.extend(times.map(|time| hand(&section, train(station, time))));
        cases.push(hand(&section, train(station, clock)));
        // A receipt is not held back by the interval, nor does it alter it.
        let first = first_of(station.other());
        cases.push(hand(&section, receipt(station, clock, first)));
    }
    cases
}

/// Where 30 minutes more do not fit the clock, and where they just do.
fn at_the_clocks_end(station: Station) -> Vec<Case> {
    let mut cases = Vec::new();
    for started in [65_504, 65_505, 65_506, 65_520, u16::MAX] {
        let section = with_desk(station, |desk| {
            (desk.clock, desk.interval) = (started, Some(started));
        });
        for time in [started, 65_534, u16::MAX] {
            cases.push(hand(&section, train(station, time)));
        }
        let first = first_of(station.other());
        cases.push(hand(&section, receipt(station, u16::MAX, first)));
        let ended = with_desk(station, |desk| {
            (desk.clock, desk.interval) = (u16::MAX, Some(started));
        });
        cases.push(hand(&ended, train(station, u16::MAX)));
    }
    cases
}

/// A departure with each number on the line, from none to twelve, and the other's
/// line full or not; and the receipts from these lines.
fn lines_filling(station: Station) -> Vec<Case> {
    let full = full_line();
    let mut cases = Vec::new();
    for present in 0..=12 {
        let mut section = with_line(station, 40, &full[..present]);
        cases.push(hand(&section, train(station, 510)));
        cases.push(hand(&section, receipt(station.other(), 600, 21)));
        if present >= 11 {
            *section.desk_mut(station.other()) = desk(400, 32, Some(370), &full);
            cases.push(hand(&section, train(station, 510)));
            cases.push(hand(&section, train(station.other(), 510)));
            cases.push(hand(&section, receipt(station, 600, 21)));
            cases.push(hand(&section, receipt(station.other(), 600, 21)));
        }
    }
    cases
}

/// The last form number and those before it.
fn forms(station: Station) -> Vec<Case> {
    let mut cases = Vec::new();
    for last_form in [255, 9_997, 9_998, 9_999] {
        for line in [&[][..], &[1], &[254, 255]] {
            let section = with_line(station, last_form, line);
            for time in [600, 601, u16::MAX] {
                cases.push(hand(&section, train(station, time)));
            }
        }
    }
    let last = with_line(station, 9_999, &[9_998, 9_999]);
    cases.push(hand(&last, receipt(station.other(), 600, 9_998)));
    cases.push(hand(&last, receipt(station.other(), 600, 9_999)));
    cases
}

/// The first still on the other's line, and any other name.
fn receipts(station: Station) -> Vec<Case> {
    let other = station.other();
    let section = with_line(other, 40, &[31, 33, 34, 38]);
    // The first, the others on it, a gap in the numbers, those gone and those to come.
    let names = [31, 33, 38, 32, 35, 30, 1, 39, 40, 41, 287, 9_999];
    let mut cases: Vec<Case> = names
        .iter()
        .map(|&form| hand(&section, receipt(station, 600, form)))
        .collect();
    // One's own, whether it is on a line or not.
    let own = working().desk(station).line().to_vec();
    let own_names = own.into_iter().chain([31, 33, 40]);
    cases.extend(own_names.map(|form| hand(&section, Entry::receive(station, 600, station, form))));
    let with = |line: &[u16]| with_line(other, 40, line);
    let entry = receipt(station, 600, 40);
    cases.push(hand(&with(&[]), entry));
    cases.push(hand(&with(&[40]), entry));
    cases.push(hand(&with(&[39, 40]), entry));
    cases.push(hand(&with(&[1]), receipt(station, 600, 1)));
    // What is next on the other's line is not yet there.
    cases.push(hand(&with(&[]), receipt(station, 600, 41)));
    let mut empty = with(&[]);
    *empty.desk_mut(station) = desk(580, 5, None, &[5]);
    cases.push(hand(&empty, Entry::receive(station, 600, station, 5)));
    cases.push(hand(&empty, Entry::receive(station, 600, other, 5)));
    cases
}

/// The lowest number is given where several apply.
fn several_reasons(station: Station) -> Vec<Case> {
    let full = full_line();
    let last = Section {
        in_force: true,
        ..with_desk(station, |it| *it = desk(500, 9_999, Some(500), &full))
    };
    let room = with_line(station, 9_999, &full[..11]);
    let idle = Section {
        refused: DISTINCT,
        ..Section::fresh()
    };
    vec![
        // 9, 17, 18 and 19; then without 9, without 17 and without 18.
        hand(&last, train(station, 499)),
        hand(&last, train(station, 500)),
        hand(&room, train(station, working().desk(station).clock)),
        hand(&working(), train(station, working().desk(station).clock)),
        // 9 and 20.
        hand(&working(), receipt(station, 499, 33)),
        hand(&working(), Entry::receive(station, 499, station, 33)),
        // 7 and 20.
        hand(&idle, train(station, 0)),
        hand(&idle, receipt(station, 0, 1)),
        hand(&idle, Entry::receive(station, 0, station, 1)),
    ]
}

fn beginning_and_ending() -> Vec<Case> {
    let idle = Section {
        refused: DISTINCT,
        ..Section::fresh()
    };
    let mut sections = vec![Section::fresh(), idle, begun(), working()];
    let none = |section: &mut Section, station| {
        let it = section.desk_mut(station);
        *it = desk(it.clock, it.last_form, it.interval, &[]);
    };
    for occupied in Station::BOTH {
        let mut section = working();
        none(&mut section, occupied.other());
        sections.push(section.clone());
        let it = section.desk_mut(occupied);
        *it = desk(it.clock, it.last_form, it.interval, &[9]);
        sections.push(section);
    }
    let mut cleared = working();
    none(&mut cleared, A);
    none(&mut cleared, B);
    sections.push(cleared);
    sections
        .iter()
        .flat_map(|section| [Entry::begin(), Entry::resume()].map(|entry| hand(section, entry)))
        .collect()
}

/// A refused entry of A, of B and of none, bytes that are no entry, and accepted
/// ones, with counts at their largest and near it.
fn counts() -> Vec<Case> {
    let all = |count| Refused {
        for_a: count,
        for_b: count,
        of_none: count,
    };
    let largest = |others| {
        [
            Refused {
                for_a: MOST,
                ..others
            },
            Refused {
                for_b: MOST,
                ..others
            },
            Refused {
                of_none: MOST,
                ..others
            },
        ]
    };
    // The last has a carry into the highest byte.
    let mut counts = vec![all(MOST), all(MOST - 1), all(0x00FF_FFFF)];
    counts.extend(largest(DISTINCT));
    counts.extend(largest(all(MOST - 1)));
    counts.into_iter().flat_map(one_of_each).collect()
}

fn one_of_each(refused: Refused) -> Vec<Case> {
    let idle = Section {
        refused,
        ..Section::fresh()
    };
    let section = Section {
        refused,
        ..working()
    };
    vec![
        hand(&section, train(A, 499)),
        hand(&section, receipt(B, 600, 33)),
        hand(&section, Entry::begin()),
        hand(&section, Entry::resume()),
        hand(&idle, Entry::resume()),
        hand(&idle, train(B, 0)),
        hand(&idle, Entry::begin()),
        hand(&section, train(A, 510)),
        hand(&section, receipt(B, 600, 31)),
    ]
}

/// The step takes the first entry and does not look at the rest.
fn more_bytes_than_one_entry() -> Vec<Case> {
    let section = working();
    let long = |first: &[u8]| {
        let mut bytes = first.to_vec();
        bytes.resize(LONGEST, 0xFF);
        bytes
    };
    let departure = bytes_of(&train(A, 510));
    let arrival = bytes_of(&receipt(A, 510, first_of(B)));
    let handed = [
        [&departure[..], &[0]].concat(),
        [&departure[..], &arrival].concat(),
        [&arrival[..], &departure, &[0x01, 1]].concat(),
        [&[0x01, 1][..], &departure].concat(),
        [&[0x00][..], &departure].concat(),
        [&[0x0F, 5, 1, 2, 88, 1][..], &departure].concat(),
        long(&departure),
        long(&arrival),
        long(&[0x01, 8]),
        long(&[]),
    ];
    handed
        .into_iter()
        .map(|bytes| Case {
            section: section.clone(),
            bytes,
        })
        .collect()
}

/// Ill-made sections, one at least for each clause at either station, each handed
/// entries that would be answered otherwise if 5 were not tested.
fn ill_made() -> Vec<Case> {
    let mut sections = Vec::new();
    for station in Station::BOTH {
        sections.extend(in_force_and_ill_made(station));
        sections.extend(not_in_force_and_not_fresh(station));
    }
    sections
        .iter()
        .flat_map(|section| {
            let entries = [Entry::begin(), train(A, 600), receipt(B, 600, 31)];
            entries.map(|entry| hand(section, entry))
        })
        .collect()
}

fn in_force_and_ill_made(station: Station) -> Vec<Section> {
    let clock = working().desk(station).clock;
    let alterations: [&dyn Fn(&mut Desk); 19] = [
        &|desk| desk.last_form = 10_000,
        &|desk| desk.last_form = u16::MAX,
        &|desk| desk.interval = Some(clock + 1),
        &|desk| desk.interval = Some(u16::MAX),
        // The other clock is later or not, which is never compared.
        &|desk| (desk.clock, desk.interval) = (0, Some(1)),
        &|desk| (desk.places, desk.present) = (full_line(), 13),
        &|desk| (desk.places, desk.present) = (full_line(), u8::MAX),
        // One place too few or too many is counted.
        &|desk| desk.present -= 1,
        &|desk| desk.present += 1,
        &|desk| desk.places[11] = 1,
        &|desk| desk.places[usize::from(desk.present)] = 40,
        // A number below 1, or above the last.
        &|desk| desk.places[0] = 0,
        &|desk| desk.places[1] = 0,
        &|desk| desk.last_form = desk.line()[usize::from(desk.present) - 1] - 1,
        &|desk| desk.places[usize::from(desk.present) - 1] = 9_999,
        // Two alike, and two falling, at the start of the line and at its end.
        &|desk| desk.places[1] = desk.places[0],
        &|desk| desk.places.swap(0, 1),
        &|desk| {
            (desk.places, desk.present) = (full_line(), 12);
            desk.places[11] = desk.places[10];
        },
        &|desk| {
            (desk.places, desk.present) = (full_line(), 12);
            desk.places.swap(10, 11);
        },
    ];
    alterations
        .iter()
        .map(|change| with_desk(station, change))
        .collect()
}

/// Not in force, all but the counts is as fresh.
fn not_in_force_and_not_fresh(station: Station) -> Vec<Section> {
    let alterations: [fn(&mut Desk); 6] = [
        |desk| desk.clock = 1,
        |desk| desk.last_form = 1,
        |desk| desk.interval = Some(0),
        |desk| desk.present = 1,
        |desk| desk.places[11] = 1,
        |desk| (desk.last_form, desk.places[0], desk.present) = (1, 1, 1),
    ];
    let mut sections: Vec<Section> = alterations
        .iter()
        .map(|change| {
            let mut section = Section {
                refused: DISTINCT,
                ..Section::fresh()
            };
            change(section.desk_mut(station));
            section
        })
        .collect();
    sections.push(Section {
        in_force: false,
        ..working()
    });
    sections
}

#[cfg(test)]
mod tests {
    use super::super::super::step::step;
    use super::*;
    use crate::entry::Table;

    /// The number of the refusal, 0 where there is none.
    fn answer(case: &Case) -> u8 {
        let answer = step(&case.section, &case.bytes).0;
        answer.map_or_else(|refusal| refusal.number(), |_| 0)
    }

    fn answers(cases: &[Case]) -> Vec<u8> {
        cases.iter().map(answer).collect()
    }

    #[test]
    fn the_bytes_that_are_no_entry_have_their_refusal() {
        for (number, bytes) in NO_ENTRIES {
            let refusal = Table::DOUBLE_LINE.decode(bytes).unwrap_err();
            assert_eq!(refusal.number(), number, "{bytes:?}");
        }
    }

    #[test]
    fn the_sections_are_well_made_or_ill_made_as_they_are_named() {
        assert!(working().is_well_made());
        assert!(begun().is_well_made());
        assert!(ill_made().iter().all(|case| !case.section.is_well_made()));
        for station in Station::BOTH {
            let picked = [
                times(station),
                intervals(station),
                at_the_clocks_end(station),
                lines_filling(station),
                forms(station),
                receipts(station),
                several_reasons(station),
            ];
            for case in picked.concat() {
                assert!(case.section.is_well_made(), "{case:?}");
            }
        }
    }

    #[test]
    fn the_edges_are_answered_as_the_readings_say() {
        for station in Station::BOTH {
            let at_the_end = [
                [19, 0, 0, 0, 0],
                [19, 19, 0, 0, 0],
                [19, 19, 19, 0, 19],
                [19, 19, 19, 0, 19],
                [19, 9, 19, 0, 19],
            ];
            assert_eq!(answers(&at_the_clocks_end(station)), at_the_end.concat());
            let reasons = [9, 17, 18, 19, 9, 9, 7, 7, 7];
            assert_eq!(answers(&several_reasons(station)), reasons);
            let forms = answers(&forms(station));
            assert_eq!(forms[..27], [0; 27]);
            assert_eq!(forms[27..36], [18; 9]);
            assert_eq!(forms[36..], [0, 20]);
            let taken: Vec<usize> = answers(&receipts(station))
                .iter()
                .enumerate()
                .filter_map(|(place, &answer)| (answer == 0).then_some(place))
                .collect();
            let others = receipts(station).len();
            assert_eq!(taken[0], 0);
            assert_eq!(taken[1..], [others - 6, others - 4]);
        }
        let ends = answers(&beginning_and_ending());
        assert_eq!(ends, [0, 7, 0, 7, 6, 0, 6, 8, 6, 8, 6, 8, 6, 8, 6, 8, 6, 0]);
        let longer = answers(&more_bytes_than_one_entry());
        assert_eq!(longer, [0, 0, 0, 6, 2, 3, 0, 0, 8, 2]);
    }
}
