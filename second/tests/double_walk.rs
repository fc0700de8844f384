//! The claim about lists of steps on a double line, on a share of the walks, and
//! steps with a known slip, which a walk has to catch.

use std::process::Command;

use second::double::walk::{check_lines, walk, walk_with};
use second::double::{step_in_place, Desk, Section};
use second::walk::{Step, Stepper};
use second::{Answer, Entry, Kind, Refusal, Station, Table};
use Station::{A, B};

#[test]
fn the_claim_holds_on_a_share_of_the_walks() {
    for seed in 0..3 {
        let tally = walk(seed, 20_000).unwrap_or_else(|failure| panic!("{failure}"));
        assert_eq!(tally.states, 20_000);
        assert!(tally.refused > 1_000, "{tally}");
        assert!(tally.begun > 100, "{tally}");
        assert!(tally.departures > 5_000, "{tally}");
        assert!(tally.receipts > 4_000, "{tally}");
        assert!(tally.both_occupied > 5_000, "{tally}");
        assert!(tally.full_line > 2_000, "{tally}");
        assert!(tally.clock_at_its_end > 100, "{tally}");
    }
}

fn run(entries: &[Entry]) -> (Vec<Step>, Section) {
    let mut section = Section::fresh();
    let mut list = Vec::new();
    for entry in entries {
        let mut buffer = [0; 12];
        let length = Table::DOUBLE_LINE.encode(entry, &mut buffer).unwrap();
        let bytes = buffer[..length].to_vec();
        let answer = step_in_place(&mut section, &bytes);
        list.push(Step::by(&Table::DOUBLE_LINE, bytes, answer));
    }
    (list, section)
}

fn two_sent_and_one_received() -> Vec<Entry> {
    vec![
        Entry::begin(),
        Entry::double_line_train(A, 0),
        Entry::double_line_train(A, 30),
        Entry::receive(B, 9, A, 1),
    ]
}

#[test]
fn lines_are_what_the_list_says() {
    let (list, section) = run(&two_sent_and_one_received());
    assert_eq!(check_lines(&list, &section), Ok(()));
    for line in [&[][..], &[1], &[3], &[1, 2], &[2, 3]] {
        let mut wrong = section.clone();
        let desk = wrong.desk_mut(A);
        desk.places = [0; 12];
        desk.places[..line.len()].copy_from_slice(line);
        desk.present = line.len() as u8;
        assert!(check_lines(&list, &wrong).is_err(), "{line:?}");
    }
    // What the list does not tell of is not there.
    let mut wrong = section.clone();
    (wrong.desks[1].places[0], wrong.desks[1].present) = (1, 1);
    assert!(check_lines(&list, &wrong).is_err());
    assert!(check_lines(&list[..3], &section).is_err());
}

#[test]
fn only_what_stands_behind_the_last_begin_counts() {
    let mut entries = two_sent_and_one_received();
    entries.extend([
        Entry::receive(B, 9, A, 2),
        Entry::resume(),
        Entry::double_line_train(A, 0),
        Entry::begin(),
        Entry::double_line_train(A, 0),
        // Refused, so that nothing starts afresh.
        Entry::begin(),
    ]);
    let (list, section) = run(&entries);
    let refused = |step: usize| run(&entries[..=step]).1.refused.total();
    assert_eq!((refused(5), refused(9)), (0, 2));
    assert_eq!(section.desks[0].line(), [1]);
    assert_eq!(check_lines(&list, &section), Ok(()));
    // At the end of a list that has resumed, and before any BEGIN.
    for length in [0, 6, 7] {
        let (list, section) = run(&entries[..length]);
        assert_eq!(check_lines(&list, &section), Ok(()));
    }
}

/// A step with a slip: after it, `slip` gets the section before and after, the
/// kind of the accepted entry and its station.
fn walk_with_slip(slip: impl Fn(&Section, &mut Section, Kind, Station)) -> String {
    walk_that_fails(&|section: &mut Section, bytes: &[u8]| -> Answer {
        let before = section.clone();
        let answer = step_in_place(section, bytes);
        if let (Ok(entry), Ok(_)) = (Table::DOUBLE_LINE.decode(bytes), answer) {
            let kind = Kind::from_number(entry.kind).unwrap();
            if let Some(station) = Station::from_number(entry.station) {
                slip(&before, section, kind, station);
            }
        }
        answer
    })
}

/// What a walk says of a step with a slip.
fn walk_that_fails(stepper: &impl Stepper<Section>) -> String {
    let outcome = walk_with(stepper, 1, 20_000);
    outcome.expect_err("the slip is to be caught").0
}

#[track_caller]
fn is_caught_as(message: &str, claim: &str) {
    let first_line = message.lines().next().unwrap();
    assert!(first_line.contains(claim), "{first_line}");
}

#[test]
fn a_step_without_a_slip_passes() {
    let stepper = |section: &mut Section, bytes: &[u8]| step_in_place(section, bytes);
    assert!(walk_with(&stepper, 1, 1_000).is_ok());
}

/// The last on the line is taken off where the first was named.
#[test]
fn a_train_received_past_another_is_caught() {
    let message = walk_with_slip(|before, after, kind, station| {
        if kind == Kind::Receive {
            let line = before.desk(station.other());
            let desk = after.desk_mut(station.other());
            desk.places = line.places;
            desk.places[usize::from(desk.present)] = 0;
        }
    });
    is_caught_as(&message, "the line to");
}

#[test]
fn a_train_put_on_the_wrong_line_is_caught() {
    let message = walk_with_slip(|_, after, kind, _| {
        if kind == Kind::Train {
            after.desks.swap(0, 1);
        }
    });
    is_caught_as(&message, "the line to");
}

#[test]
fn a_receipt_of_nothing_is_caught() {
    let message = walk_with_slip(|before, after, kind, station| {
        if kind == Kind::Receive {
            *after.desk_mut(station.other()) = *before.desk(station.other());
        }
    });
    is_caught_as(&message, "the line to");
}

/// Any train on the other's line may arrive.
#[test]
fn an_arrival_out_of_its_order_is_caught() {
    let message = walk_that_fails(&|section: &mut Section, bytes: &[u8]| -> Answer {
        let before = section.clone();
        let answer = step_in_place(section, bytes);
        let (Ok(entry), Err(Refusal::NotNearest)) = (Table::DOUBLE_LINE.decode(bytes), answer)
        else {
            return answer;
        };
        let station = Station::from_number(entry.station).unwrap();
        let line = before.desk(station.other()).line();
        let place = line.iter().position(|&form| form == entry.form);
        let (Some(place), true) = (place, entry.sender != entry.station) else {
            return answer;
        };
        *section = before;
        let desk: &mut Desk = section.desk_mut(station.other());
        desk.places.copy_within(place + 1.., place);
        desk.places[11] = 0;
        desk.present -= 1;
        section.desk_mut(station).clock = entry.time;
        Ok(second::Accepted::NO_FORM)
    });
    is_caught_as(&message, "the line to");
}

#[test]
fn a_form_number_given_twice_is_caught() {
    let message = walk_with_slip(|before, after, kind, station| {
        if kind == Kind::Train && before.desk(station).last_form > 0 {
            after.desk_mut(station).last_form -= 1;
        }
    });
    is_caught_as(&message, "not well made");
}

#[test]
fn a_receipt_counted_for_the_sender_is_caught() {
    let message = walk_that_fails(&|section: &mut Section, bytes: &[u8]| -> Answer {
        let mut refused = section.refused;
        let answer = step_in_place(section, bytes);
        if let (Ok(entry), Err(_)) = (Table::DOUBLE_LINE.decode(bytes), answer) {
            let named = match entry.sender {
                0 => entry.station,
                sender => sender,
            };
            refused.count(Station::from_number(named));
            section.refused = refused;
        }
        answer
    });
    is_caught_as(&message, "counted");
}

#[test]
fn a_refused_entry_that_moves_the_clock_is_caught() {
    let message = walk_that_fails(&|section: &mut Section, bytes: &[u8]| -> Answer {
        let answer = step_in_place(section, bytes);
        if let (Ok(entry), Err(Refusal::NotNearest)) = (Table::DOUBLE_LINE.decode(bytes), answer) {
            let station = Station::from_number(entry.station).unwrap();
            section.desk_mut(station).clock = u16::MAX;
        }
        answer
    });
    is_caught_as(&message, "altered more than a count");
}

#[test]
fn the_program_prints_what_it_tried() {
    let output = Command::new(env!("CARGO_BIN_EXE_walk"))
        .args(["5", "1000", "--double"])
        .output()
        .expect("the walk runs");
    assert!(output.status.success());
    let expected = format!("{}\n", walk(5, 1_000).unwrap());
    assert_eq!(String::from_utf8(output.stdout).unwrap(), expected);
    assert!(expected.contains(" states 1000, "));
}
