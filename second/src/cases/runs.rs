//! Bytes that hold several entries. The step takes the first of them and does not
//! look at the rest; a run takes them all. The run of a case is here too.

use super::counts::DISTINCT;
use super::sections::{at_desk, with_desk, working, Handed};
use super::sections::{working_meeting, working_receipt, working_train};
use crate::entry::Entry;
use crate::generator::bytes_of;
use crate::log::Reader;
use crate::refusal::Refusal;
use crate::section::Station::{A, B};
use crate::section::{Desk, Section};
use crate::step::{step_in_place, Answer};

/// The answers to the entries of a log run from this section, well made or not, and
/// the section after them. [`crate::Run`] runs from the fresh section alone.
pub(super) fn run(section: &Section, log: &[u8]) -> (Vec<Answer>, Section) {
    let mut section = section.clone();
    let mut answers = Vec::new();
    let mut reader = Reader::new(log);
    loop {
        let rest = &log[reader.position()..];
        let Some(read) = reader.read() else {
            break;
        };
        answers.push(step_in_place(&mut section, rest));
        // The bytes alone say where reading stops, whatever the answer is.
        if read == Err(Refusal::Cut) {
            break;
        }
    }
    (answers, section)
}

pub(super) fn handed() -> Vec<Handed> {
    vec![
        with_a_cut_end(),
        among_vehicles(),
        ill_made(),
        ill_made_with_a_cut_end(),
    ]
}

fn log(entries: &[Entry]) -> Vec<u8> {
    entries.iter().flat_map(bytes_of).collect()
}

/// Two trains of A with one too early between them, a receipt at B, and a cut end.
fn with_a_cut_end() -> Handed {
    let holding = Desk {
        clock: 30,
        last_form: 7,
        holds: 3,
        ..Desk::default()
    };
    let mut section = at_desk(A, holding);
    section.refused = DISTINCT;
    (section.desks[1].clock, section.desks[1].owes) = (60, 3);
    let mut bytes = log(&[
        Entry::train(A, 40, 1, 0, 0),
        Entry::train(A, 69, 1, 0, 0),
        Entry::train(A, 70, 2, 0, 0),
        Entry::receive(B, 75, A, 8),
    ]);
    bytes.extend([0x0F, 5, 1]);
    (section, bytes)
}

/// Vehicles meet and one comes home, the section is not clear, a train leaves. The
/// log ends between two entries, with one that is accepted.
fn among_vehicles() -> Handed {
    let entries = [
        working_meeting(),
        working_receipt(A),
        Entry::resume(),
        working_train(B),
    ];
    (working(), log(&entries))
}

/// Three entries that the section would accept if 5 were not tested.
fn ill_made() -> Handed {
    let section = with_desk(B, |desk| desk.sent = 13);
    let entries = [working_meeting(), working_receipt(A), working_train(A)];
    (section, log(&entries))
}

/// Reading goes on behind bytes that are no entry, and stops at the cut end.
fn ill_made_with_a_cut_end() -> Handed {
    let section = Section {
        in_force: false,
        ..working()
    };
    // BEGIN, BEGIN with a station, map 0, and half a RECEIVE.
    (section, vec![0x01, 1, 0x03, 1, 1, 0x00, 0x87, 6, 1, 0])
}

#[cfg(test)]
mod tests {
    use super::*;
    use crate::cases::{logs, Case};
    use crate::log::Run;
    use crate::step::Accepted;

    /// The numbers of the refusals, 0 where there is none.
    fn answers((section, bytes): &Handed) -> Vec<u8> {
        let (answers, _) = run(section, bytes);
        let number = |answer: Answer| answer.map_or_else(Refusal::number, |_| 0);
        answers.into_iter().map(number).collect()
    }

    #[test]
    fn a_run_goes_on_from_the_section_it_is_given() {
        let mut section = Section::fresh();
        section.in_force = true;
        section.refused.of_none = 4;
        // BEGIN while in force, then RESUME.
        let (answers, after) = run(&section, &[0x01, 1, 0x01, 8]);
        assert_eq!(answers, [Err(Refusal::InForce), Ok(Accepted::NO_FORM)]);
        assert!(!after.in_force);
        assert_eq!(after.refused.of_none, 5);
    }

    #[test]
    fn from_an_ill_made_section_the_bytes_alone_say_where_reading_stops() {
        let mut section = Section::fresh();
        section.desks[0].clock = 1;
        // BEGIN, map 0, and a cut end of three bytes.
        let log = [0x01, 1, 0x00, 0x87, 6, 1];
        let refused = vec![Err(Refusal::IllMade); 3];
        assert_eq!(run(&section, &log), (refused, section.clone()));
        assert_eq!(run(&section, &[]), (Vec::new(), section));
    }

    /// Of the logs among the cases.
    #[test]
    fn from_the_fresh_section_it_is_the_run_of_a_log() {
        for case in logs::cases() {
            let Case::Log { log } = case else {
                panic!("{case:?}");
            };
            let mut fresh = Run::new(&log);
            let answers: Vec<Answer> = fresh.by_ref().map(|line| line.answer).collect();
            let expected = (answers, fresh.finish());
            assert_eq!(run(&Section::fresh(), &log), expected);
        }
    }

    #[test]
    fn the_answers_are_those_of_the_document() {
        let expected: [&[u8]; 4] = [&[0, 19, 0, 0, 1], &[0, 0, 8, 0], &[5; 3], &[5; 4]];
        let answers: Vec<Vec<u8>> = handed().iter().map(answers).collect();
        assert_eq!(answers, expected);
    }

    #[test]
    fn two_are_well_made_and_two_are_not() {
        let well_made = handed().into_iter().map(|handed| handed.0.is_well_made());
        assert_eq!(well_made.collect::<Vec<_>>(), [true, true, false, false]);
    }

    /// Well made, the same entries pass one behind the other.
    #[test]
    fn the_entries_of_the_ill_made_section_would_else_pass() {
        let (_, bytes) = ill_made();
        assert_eq!(answers(&(working(), bytes)), [0; 3]);
    }
}
