//! A register for the tests: it enters entries one by one in both forms of the
//! step and looks after each refusal that nothing but its count has altered. What
//! lists of calls have in common is in `calls`.

// Each test program uses its own share of these helpers.
#![allow(dead_code)]

pub mod calls;

use second::entry::LONGEST_ENTRY;
use second::{
    double, Accepted, Answer, Desk, Entry, Refusal, Refused, Section, Speed, Table, Working,
};

/// The bytes of an entry that may be written on a single line.
pub fn bytes_of(entry: &Entry) -> Vec<u8> {
    bytes_by(&Table::SINGLE_LINE, entry)
}

/// The bytes of an entry that may be written by this table.
pub fn bytes_by(table: &Table, entry: &Entry) -> Vec<u8> {
    let mut buffer = [0; LONGEST_ENTRY];
    let written = table.encode(entry, &mut buffer);
    let length = written.expect("the entry may be written");
    buffer[..length].to_vec()
}

/// Steps in both forms, which have to agree, and tests what a refusal alters.
pub fn step_and_test<S: Working>(section: &mut S, bytes: &[u8]) -> Answer {
    let mut before = section.clone();
    let (answer, after) = section.step(bytes);
    assert_eq!(section, &before, "the section lent is not to be altered");
    assert_eq!(section.step_in_place(bytes), answer);
    assert_eq!(section, &after);
    match answer {
        Ok(_) => assert_eq!(after.refused(), before.refused()),
        Err(Refusal::IllMade) => assert_eq!(after, before),
        Err(refusal) => {
            let refused = counted(before.refused(), refusal.number(), bytes);
            *before.refused_mut() = refused;
            assert_eq!(after, before);
        }
    }
    answer
}

/// The counts after a refusal, by the bytes alone: those refused with 1 to 4,
/// BEGIN (1), MEET (7) and RESUME (8) are of no station; all others show theirs
/// behind the kind.
fn counted(mut refused: Refused, refusal: u8, bytes: &[u8]) -> Refused {
    let count = match bytes {
        _ if refusal <= 4 => &mut refused.of_none,
        [_, 1 | 7 | 8, ..] => &mut refused.of_none,
        [_, _, 1, ..] => &mut refused.for_a,
        [_, _, 2, ..] => &mut refused.for_b,
        _ => panic!("refused with {refusal}: {bytes:?}"),
    };
    *count = count.saturating_add(1);
    refused
}

/// A section under entry.
pub struct Register<S = Section> {
    pub section: S,
}

impl Register {
    /// Starts from the fresh section.
    pub fn fresh() -> Register {
        Register {
            section: Section::fresh(),
        }
    }

    /// Starts with the failure declared.
    pub fn begun() -> Register {
        let mut register = Register::fresh();
        register.accept(Entry::begin());
        register
    }
}

impl Register<double::Section> {
    /// Starts from the fresh section of a double line.
    pub fn double() -> Register<double::Section> {
        Register {
            section: double::Section::fresh(),
        }
    }

    /// Starts with the failure declared on a double line.
    pub fn double_begun() -> Register<double::Section> {
        let mut register = Register::double();
        register.accept(Entry::begin());
        register
    }
}

impl<S: Working> Register<S> {
    pub fn enter(&mut self, entry: Entry) -> Answer {
        step_and_test(&mut self.section, &bytes_by(S::TABLE, &entry))
    }

    /// Enters what has to be accepted.
    #[track_caller]
    pub fn accept(&mut self, entry: Entry) -> Accepted {
        match self.enter(entry) {
            Ok(accepted) => accepted,
            Err(refusal) => panic!("{entry:?}: {refusal}"),
        }
    }

    /// Enters what has to be refused with this number.
    #[track_caller]
    pub fn refuse(&mut self, number: u8, entry: Entry) {
        let answer = self.enter(entry).map_err(Refusal::number);
        assert_eq!(answer, Err(number), "{entry:?}");
    }
}

/// An answer in one word.
pub fn answer(form: u16, forms: u16, speed: Speed) -> Accepted {
    Accepted { form, forms, speed }
}

/// A speed with two figures: on straight track with a clear view, and elsewhere.
pub const fn two(straight: u8, elsewhere: u8) -> Speed {
    Speed::Two {
        straight,
        elsewhere,
    }
}

/// A desk with every figure above 0, so that a figure altered by mistake shows.
pub const USED_DESK: Desk = Desk {
    clock: 40,
    last_form: 9,
    sent: 3,
    interval: Some(40),
    out: true,
    guest: 4,
    asked: 6,
    holds: 1,
    owes: 2,
    waiting: 3,
};
