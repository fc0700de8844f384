//! RETURN while line clears are held (request T-08): the order of its refusals in
//! every edition, what it does on a section that no list from the fresh one leads to,
//! and lists from the fresh section by the step before T-08 and by today's.

mod common;

use common::{answer, bytes_of, two, Register, USED_DESK};
use second::generator::any_section;
use second::random::Random;
use second::walk::{check_as_before_t08, check_guests, Step};
use second::{
    list, step_by, step_position, Accepted, Answer, Desk, Edition, Entry, Kind, Refusal, Section,
    Speed, Station, Vehicle,
};
use Station::{A, B};

const EDITIONS: [Edition; 3] = [Edition::Document01, Edition::BeforeT08, Edition::Today];

/// The number of the refusal, 0 where there is none.
fn number(answer: Answer) -> u8 {
    answer.map_or_else(Refusal::number, |_| 0)
}

/// A desk in a section in force and empty.
fn at_desk(station: Station, desk: Desk) -> Section {
    let mut section = Register::begun().section;
    *section.desk_mut(station) = desk;
    section
}

/// By this edition; a refusal is counted for its station and alters nothing else.
#[track_caller]
fn entered(edition: Edition, section: &Section, entry: Entry) -> (Answer, Section) {
    let mut after = section.clone();
    let answer = step_by(edition, &mut after, &bytes_of(&entry));
    if answer.is_err() {
        let mut expected = section.clone();
        expected.refused.count(Station::from_number(entry.station));
        assert_eq!(after, expected, "{entry:?}");
    }
    (answer, after)
}

/// What each edition answers, document 01's own step first, today's last.
#[track_caller]
fn by_edition(section: &Section, entry: Entry) -> [u8; 3] {
    EDITIONS.map(|edition| number(entered(edition, section, entry).0))
}

/// Line clears held, no guest, more granted than was asked, twelve sent, form 9,999
/// used and the interval running, all at once.
fn barred(holds: u8) -> Desk {
    Desk {
        clock: 30,
        last_form: 9_999,
        sent: 12,
        interval: Some(30),
        asked: 3,
        holds,
        ..Desk::default()
    }
}

/// Takes away what bars a RETURN, one after the other, and gives what is answered
/// before and after each. What is held stays.
#[track_caller]
fn one_after_the_other(station: Station, holds: u8) -> Vec<[u8; 3]> {
    let mut desk = barred(holds);
    let back = |time, granted| Entry::send_back(station, time, 0, granted);
    let mut answers = Vec::new();
    let mut look = |desk: Desk, entry| {
        answers.push(by_edition(&at_desk(station, desk), entry));
    };
    look(desk, back(29, 4));
    look(desk, back(30, 4));
    desk.guest = 4;
    look(desk, back(30, 4));
    look(desk, back(30, 3));
    desk.sent = 11;
    look(desk, back(30, 3));
    desk.last_form = 9_998;
    look(desk, back(59, 3));
    look(desk, back(60, 3));
    answers
}

/// 11 stands between 9 and 14 in the two older editions, and nowhere today.
#[test]
fn the_order_of_a_returns_refusals_in_every_edition() {
    for station in Station::BOTH {
        let none_held = [9, 14, 16, 17, 18, 19, 0].map(|number| [number; 3]);
        assert_eq!(one_after_the_other(station, 0), none_held);
        let held = [
            [9, 9, 9],
            [11, 11, 14],
            [11, 11, 16],
            [11, 11, 17],
            [11, 11, 18],
            [11, 11, 19],
            [11, 11, 0],
        ];
        for holds in 1..=8 {
            assert_eq!(one_after_the_other(station, holds), held, "{holds}");
        }
    }
}

#[test]
fn before_them_stand_5_1_to_4_and_7() {
    for edition in EDITIONS {
        for station in Station::BOTH {
            let number_of = |section: &Section, bytes: &[u8]| {
                number(step_by(edition, &mut section.clone(), bytes))
            };
            let shown = station.number();
            let whole = [0x07, 4, shown, 0, 29];
            let barred = at_desk(station, barred(8));
            assert_eq!(number_of(&barred, &whole), 9);
            assert_eq!(number_of(&barred, &whole[..4]), 1);
            assert_eq!(number_of(&barred, &[0x06, shown, 0, 29]), 2);
            assert_eq!(number_of(&barred, &[0x0F, 4, shown, 0, 29, 1]), 3);
            assert_eq!(number_of(&barred, &[0x47, 4, shown, 0, 29, 9]), 4);
            // Not in force, and with 9 held, which no desk may.
            assert_eq!(number_of(&Section::fresh(), &whole), 7);
            let nine = at_desk(
                station,
                Desk {
                    holds: 9,
                    ..USED_DESK
                },
            );
            assert_eq!(number_of(&nine, &whole), 5);
            assert_eq!(number_of(&nine, &whole[..4]), 5);
        }
    }
}

/// With all of 10 to 13 against them, and then without the first, in every edition.
#[test]
fn open_and_through_keep_11_with_a_guest_and_without() {
    for station in Station::BOTH {
        for engine in [
            Entry::open(station, 0, 1, 1, 1),
            Entry::through(station, 0, 1),
        ] {
            for (out, holds, owes, guest, number) in [
                (true, 8, 8, 5, 10),
                (false, 8, 8, 5, 11),
                (false, 1, 0, 5, 11),
                (false, 1, 0, 0, 11),
                (false, 0, 8, 5, 12),
                (false, 0, 0, 5, 13),
                (false, 0, 0, 0, 0),
            ] {
                let desk = Desk {
                    out,
                    guest,
                    holds,
                    owes,
                    ..Desk::default()
                };
                let answers = by_edition(&at_desk(station, desk), engine);
                assert_eq!(answers, [number; 3], "{desk:?}");
            }
        }
    }
}

/// A guest of class 4 at a desk where no figure is 0; it may go at minute 70.
#[test]
fn a_guest_is_sent_back_while_line_clears_are_held() {
    for (station, ticket) in [(A, 8), (B, 16)] {
        for (holds, asked, granted, owes) in [
            (1, 0, 0, 2),
            (8, 0, 0, 2),
            (1, 0, 6, 6),
            (8, 5, 1, 1),
            (3, 8, 2, 2),
        ] {
            let desk = Desk { holds, ..USED_DESK };
            let mut register = Register {
                section: at_desk(station, desk),
            };
            let accepted = register.accept(Entry::send_back(station, 70, asked, granted));
            let messages = 2 * u16::from(asked > 0) + 4 * u16::from(granted > 0);
            let forms = ticket + 32 + 128 + messages;
            assert_eq!(accepted, answer(10, forms, Speed::Booked));
            // Out, holds and waiting are as they were.
            let expected = Desk {
                clock: 70,
                last_form: 10,
                sent: 4,
                interval: Some(70),
                out: true,
                guest: 0,
                asked: 0,
                holds,
                owes,
                waiting: 3,
            };
            assert_eq!(*register.section.desk(station), expected);
            assert_eq!(register.section.desk(station.other()), &Desk::default());
            let vehicle = Vehicle {
                left_on: Some(Kind::Return),
                sender: station.number(),
                form: 10,
                heading: station.other().number(),
                class: 4,
                asked,
                granted,
                ..Vehicle::default()
            };
            assert_eq!(register.section.vehicles(), [vehicle]);
            // The guest is gone, and the line clears are still there to be used.
            register.refuse(14, Entry::send_back(station, 100, 0, 0));
            register.refuse(10, Entry::through(station, 100, 1));
            register.accept(Entry::train(station, 100, 1, 0, 0));
            assert_eq!(register.section.desk(station).holds, holds - 1);
        }
    }
}

#[test]
fn without_a_guest_it_is_14_whatever_is_held_and_wherever_the_guest_is() {
    for station in Station::BOTH {
        for holds in 0..=8 {
            for guest_there in [0, 4] {
                let desk = Desk {
                    guest: 0,
                    holds,
                    ..USED_DESK
                };
                let mut section = at_desk(station, desk);
                *section.desk_mut(station.other()) = Desk {
                    guest: guest_there,
                    ..USED_DESK
                };
                for granted in [0, 6, 7] {
                    let entry = Entry::send_back(station, 70, 0, granted);
                    let once = if holds > 0 { 11 } else { 14 };
                    assert_eq!(by_edition(&section, entry), [once, once, 14]);
                }
            }
        }
    }
}

/// The host's step, on the bytes of a position: A has a guest of class 4 and holds 1.
#[test]
fn a_host_sends_the_guest_back_as_well() {
    let desk = Desk {
        guest: 4,
        asked: 2,
        holds: 1,
        ..Desk::default()
    };
    let mut position = at_desk(A, desk).position().unwrap();
    let mut numbers = [9; 3];
    let back = bytes_of(&Entry::send_back(A, 7, 0, 2));
    assert_eq!(step_position(&mut position, &back, &mut numbers), 0);
    assert_eq!(numbers, [1, 8 + 32 + 128 + 4, 196_608]);
    let after = Section::from_position(&position).unwrap();
    let desk = after.desk(A);
    assert_eq!(
        [desk.guest, desk.asked, desk.holds, desk.owes],
        [0, 0, 1, 2]
    );
    assert_eq!(step_position(&mut position, &back, &mut numbers), 14);
}

/// Any RETURN at this station.
fn any_return(random: &mut Random, station: Station, section: &Section) -> Entry {
    let clock = section.desk(station).clock;
    let time = random.pick(&[clock.saturating_sub(1), clock, clock.saturating_add(60)]);
    let asked = random.pick(&[0, 1, 8]);
    let granted = random.pick(&[0, 0, 1, 8]);
    Entry::send_back(station, time, asked, granted)
}

/// Today a RETURN does not look at what is held: it answers as if nothing were, and
/// as the step before T-08 then does, and what is held stays. With line clears held
/// that step answers 11, unless 7 or 9 comes before it.
#[test]
fn on_any_section_a_return_does_not_look_at_what_is_held() {
    let mut random = Random::new(8);
    let (mut accepted, mut refused) = (0, 0);
    for _ in 0..4_000 {
        let section = any_section(&mut random);
        let station = random.pick(&Station::BOTH);
        let holds = section.desk(station).holds;
        let entry = any_return(&mut random, station, &section);
        let mut none_held = section.clone();
        none_held.desk_mut(station).holds = 0;
        let (today, mut after) = entered(Edition::Today, &section, entry);
        for edition in [Edition::BeforeT08, Edition::Today] {
            let (answer, mut expected) = entered(edition, &none_held, entry);
            assert_eq!(today, answer);
            expected.desk_mut(station).holds = holds;
            assert_eq!(after, expected);
        }
        let once = number(entered(Edition::BeforeT08, &section, entry).0);
        match number(today) {
            early @ (7 | 9) => assert_eq!(once, early),
            late if holds == 0 => assert_eq!(once, late),
            late => {
                assert_eq!(once, 11);
                accepted += u32::from(late == 0);
                refused += u32::from(late > 0);
            }
        }
        assert_eq!(after.desk_mut(station).holds, holds);
    }
    assert!(accepted > 50 && refused > 500, "{accepted} {refused}");
}

/// A list from the fresh section: its bytes and what the step before T-08 and today's
/// answer. A is asked for three and holds two, which its trains use up; then B holds
/// three.
fn by_hand() -> Vec<(Vec<u8>, u8, u8)> {
    let mut steps = Vec::new();
    let mut add = |entry: Entry, once, today| steps.push((bytes_of(&entry), once, today));
    add(Entry::begin(), 0, 0);
    add(Entry::open(A, 10, 1, 2, 4), 0, 0);
    add(Entry::receive(B, 70, A, 1), 0, 0);
    // The guest is at B, which is asked for four.
    add(Entry::send_back(A, 70, 0, 0), 14, 14);
    add(Entry::send_back(B, 70, 0, 5), 16, 16);
    add(Entry::send_back(B, 75, 3, 2), 0, 0);
    add(Entry::receive(A, 95, B, 1), 0, 0);
    // Two are held, and no guest is here.
    add(Entry::send_back(A, 95, 0, 0), 11, 14);
    add(Entry::send_back(A, 94, 0, 0), 9, 9);
    add(Entry::send_back(A, 95, 8, 8), 11, 14);
    add(Entry::open(A, 95, 1, 1, 1), 11, 11);
    add(Entry::through(A, 95, 1), 11, 11);
    add(Entry::train(A, 96, 1, 0, 0), 0, 0);
    // One is held, and the interval runs.
    add(Entry::send_back(A, 96, 0, 0), 11, 14);
    add(Entry::train(A, 126, 1, 0, 3), 0, 0);
    add(Entry::send_back(A, 156, 0, 0), 14, 14);
    add(Entry::receive(B, 150, A, 2), 0, 0);
    add(Entry::receive(B, 180, A, 3), 0, 0);
    add(Entry::send_back(B, 180, 0, 0), 11, 14);
    add(Entry::train(B, 180, 1, 0, 0), 0, 0);
    // Bytes that end inside a RETURN of A, which holds two.
    steps.insert(8, (vec![0x07, 4, 1], 1, 1));
    steps
}

/// The same with the stations changed for one another.
fn mirrored(steps: &[(Vec<u8>, u8, u8)]) -> Vec<(Vec<u8>, u8, u8)> {
    let mirror = |bytes: &[u8]| {
        let mut bytes = bytes.to_vec();
        if let [map, _, station, rest @ ..] = &mut bytes[..] {
            *station = 3 - *station;
            if let (0x87, [_, _, sender, ..]) = (*map, rest) {
                *sender = 3 - *sender;
            }
        }
        bytes
    };
    let steps = steps.iter();
    steps
        .map(|(bytes, once, today)| (mirror(bytes), *once, *today))
        .collect()
}

/// What an edition makes of a list, with every section from the fresh one on.
fn run_by(edition: Edition, list: &[(Vec<u8>, u8, u8)]) -> (Vec<Answer>, Vec<Section>) {
    let mut section = Section::fresh();
    let mut sections = vec![section.clone()];
    let mut answers = Vec::new();
    for (bytes, _, _) in list {
        answers.push(step_by(edition, &mut section, bytes));
        sections.push(section.clone());
    }
    (answers, sections)
}

#[test]
fn a_list_from_fresh_is_as_before_t_08_but_for_14_in_place_of_11() {
    for list in [by_hand(), mirrored(&by_hand())] {
        let (once, once_sections) = run_by(Edition::BeforeT08, &list);
        let (today, sections) = run_by(Edition::Today, &list);
        assert_eq!(sections, once_sections);
        let mut altered = 0;
        for ((_, number_once, number_today), (once, today)) in
            list.iter().zip(once.iter().zip(&today))
        {
            assert_eq!(number(*once), *number_once);
            assert_eq!(number(*today), *number_today);
            // Form number, forms and speed too, where it is accepted.
            if once != today {
                assert_eq!([number(*once), number(*today)], [11, 14]);
                altered += 1;
            }
        }
        assert_eq!(altered, 4);
        let steps: Vec<Step> = list
            .iter()
            .zip(today)
            .map(|((bytes, _, _), answer)| Step::new(bytes.clone(), answer))
            .collect();
        assert_eq!(check_as_before_t08(&steps, &sections), Ok(4));
        // While the guest stands, and while two refused RETURNs are entered.
        assert_eq!(check_guests(&steps, &sections), Ok(3));
    }
}

/// Eight refused entries of A, two of B and one of no station.
#[test]
fn the_counts_are_the_same_in_every_edition() {
    for edition in EDITIONS {
        let (_, sections) = run_by(edition, &by_hand());
        let refused = sections.last().unwrap().refused;
        let counts = [refused.for_a, refused.for_b, refused.of_none];
        assert_eq!(counts, [8, 2, 1], "{edition:?}");
    }
}

/// Document 01's own step answers the list as the one before T-08 does, 11 included,
/// but for the follower's speed.
#[test]
fn document_01_keeps_11_on_a_return() {
    let list = by_hand();
    let (first, first_sections) = run_by(Edition::Document01, &list);
    let (once, once_sections) = run_by(Edition::BeforeT08, &list);
    assert_eq!(first_sections, once_sections);
    let differing: Vec<(Answer, Answer)> = first
        .into_iter()
        .zip(once)
        .filter(|(first, once)| first != once)
        .collect();
    let follower = |speed| -> Answer {
        Ok(Accepted {
            form: 3,
            forms: 8 + 32 + 64 + 4,
            speed,
        })
    };
    let expected = (follower(Speed::Limit(25)), follower(two(25, 10)));
    assert_eq!(differing, [expected]);
}

/// In every section of the list, by either step, and at either station.
#[test]
fn where_a_guest_stands_nothing_is_held_or_owed_or_waits() {
    for list in [by_hand(), mirrored(&by_hand())] {
        for edition in [Edition::BeforeT08, Edition::Today] {
            let (answers, sections) = run_by(edition, &list);
            let mut guests = 0;
            for desk in sections.iter().flat_map(|section| section.desks) {
                if desk.guest > 0 {
                    guests += 1;
                    assert_eq!([desk.holds, desk.owes, desk.waiting], [0; 3]);
                }
            }
            assert_eq!(guests, 3);
            for ((bytes, _, _), (answer, lent)) in
                list.iter().zip(answers.into_iter().zip(&sections))
            {
                if edition == Edition::BeforeT08 && number(answer) == 11 && bytes[1] == 4 {
                    let station = Station::from_number(bytes[2]).unwrap();
                    assert_eq!(lent.desk(station).guest, 0);
                    assert!(lent.desk(station).holds > 0);
                }
            }
        }
    }
}

/// A section can be well made with a guest at a desk that holds; there the step before
/// T-08 does answer 11 to a master with a guest.
#[test]
fn off_fresh_11_did_meet_a_guest() {
    let mut section = Register::begun().section;
    section.desk_mut(B).guest = 1;
    section.desk_mut(B).holds = 1;
    assert!(section.is_well_made());
    assert_eq!(
        by_edition(&section, Entry::send_back(B, 0, 0, 0)),
        [11, 11, 0]
    );
}

#[test]
fn the_listing_shows_14() {
    let log: Vec<u8> = by_hand()[..8]
        .iter()
        .flat_map(|(bytes, _, _)| bytes.clone())
        .collect();
    let listing = "\
1 1 - ok 0 0 -
2 2 A ok 1 7 15
3 6 B ok 0 0 -
4 4 A no 14
5 4 B no 16
6 4 B ok 1 182 B
7 6 A ok 0 0 -
8 4 A no 14
end 8 5 2 1 0 0 2 0 0 2
";
    assert_eq!(list(&log), listing);
}
