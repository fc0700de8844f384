//! Stored cases of steps on a double line, and what must come of each.
//!
//! They run what a log from the fresh section never reaches: both forms of the step
//! on sections given figure by figure. [`all`] is the one list of them; [`input`]
//! gives it as the bytes that the other program reads, and [`expected`] as the bytes
//! that it must write, computed with the two forms of the step of this crate. Both
//! are cases one behind another, with nothing between them.

mod hand;

use crate::random::Random;
use crate::step::{Accepted, Answer, Speed};

use super::generator::{any_section, Generator, Options};
use super::section::Section;
use super::step::{step, step_in_place};

/// The most bytes handed to a step.
pub const LONGEST: usize = 64;

/// The bytes of an answer: refusal, form number (2), forms (2), sort of speed, and
/// its two figures.
pub const ANSWER_LENGTH: usize = 8;

/// Steps of walks from the fresh section.
const FROM_FRESH: usize = 720;

/// Steps of walks from any well-made section.
const OFF_FRESH: usize = 540;

/// One stored case: a section, well made or not, and the bytes handed to the step
/// with it.
#[derive(Clone, Debug, PartialEq, Eq)]
pub struct Case {
    /// The section lent.
    pub section: Section,
    /// The bytes handed.
    pub bytes: Vec<u8>,
}

impl Case {
    /// The case as the other program reads it: the section's figures, a length in
    /// two bytes, and so many bytes.
    ///
    /// # Panics
    ///
    /// If there are more bytes than a case may hold.
    #[must_use]
    pub fn input(&self) -> Vec<u8> {
        assert!(self.bytes.len() <= LONGEST, "{} bytes", self.bytes.len());
        let mut input = self.section.figures().to_vec();
        input.extend((self.bytes.len() as u16).to_be_bytes());
        input.extend(&self.bytes);
        input
    }

    /// What must come of the case: answer and section of the step by value, then of
    /// the step in place.
    #[must_use]
    pub fn expected(&self) -> Vec<u8> {
        let (by_value, after) = step(&self.section, &self.bytes);
        let mut in_memory = self.section.clone();
        let in_place = step_in_place(&mut in_memory, &self.bytes);
        // A log of no bytes has no entry, where a step handed no bytes gives 1.
        let (ran, after_run) = if self.bytes.is_empty() {
            (None, self.section.clone())
        } else {
            (Some(by_value), after.clone())
        };
        let outcomes = [
            (Some(by_value), after),
            (Some(in_place), in_memory),
            (ran, after_run),
        ];
        let mut expected = Vec::new();
        for (answer, section) in outcomes {
            expected.extend(answer.map_or([0; ANSWER_LENGTH], answer_figures));
            expected.extend(section.figures());
        }
        expected
    }
}

/// All the cases, the same each time.
#[must_use]
pub fn all() -> Vec<Case> {
    let mut cases = hand::cases();
    cases.extend(from_fresh());
    cases.extend(off_fresh());
    cases
}

/// The cases as the other program reads them.
#[must_use]
pub fn input(cases: &[Case]) -> Vec<u8> {
    cases.iter().flat_map(Case::input).collect()
}

/// What must come of the cases.
#[must_use]
pub fn expected(cases: &[Case]) -> Vec<u8> {
    cases.iter().flat_map(Case::expected).collect()
}

/// All but the refusal are 0 where there is one.
fn answer_figures(answer: Answer) -> [u8; ANSWER_LENGTH] {
    match answer {
        Ok(accepted) => accepted_figures(accepted),
        Err(refusal) => [refusal.number(), 0, 0, 0, 0, 0, 0, 0],
    }
}

fn accepted_figures(accepted: Accepted) -> [u8; ANSWER_LENGTH] {
    let [form_high, form_low] = accepted.form.to_be_bytes();
    let [forms_high, forms_low] = accepted.forms.to_be_bytes();
    let [sort, one, other] = match accepted.speed {
        Speed::None => [0, 0, 0],
        Speed::Walking => [1, 0, 0],
        Speed::Limit(limit) => [2, limit, 0],
        Speed::Booked => [3, 0, 0],
        Speed::Two {
            straight,
            elsewhere,
        } => [4, straight, elsewhere],
    };
    [
        0, form_high, form_low, forms_high, forms_low, sort, one, other,
    ]
}

/// One more step of a walk, with the section before it.
fn next_case(generator: &mut Generator) -> Case {
    let section = generator.section().clone();
    let bytes = generator.next_step();
    Case { section, bytes }
}

/// Steps of walks from the fresh section, one in five, so that they are of many
/// states.
fn from_fresh() -> Vec<Case> {
    let mut random = Random::new(5);
    let mut cases = Vec::new();
    while cases.len() < FROM_FRESH {
        let options = Options {
            full: random.chance(25),
            ..Options::default()
        };
        let mut generator = Generator::new(random.word(), options);
        let walk = (0..300).map(|_| next_case(&mut generator));
        cases.extend(walk.step_by(5));
    }
    cases
}

/// Two steps from each of many sections to which perhaps no log leads.
fn off_fresh() -> Vec<Case> {
    let mut random = Random::new(6);
    let mut cases = Vec::new();
    while cases.len() < OFF_FRESH {
        let section = any_section(&mut random);
        let mut generator = Generator::at(section, random.word(), Options::default());
        cases.extend([next_case(&mut generator), next_case(&mut generator)]);
    }
    cases
}

#[cfg(test)]
mod tests {
    use super::*;
    use crate::refusal::Refusal;

    #[test]
    fn an_answer_has_its_figures() {
        let figures = |speed| {
            answer_figures(Ok(Accepted {
                form: 0x0102,
                forms: 0x0304,
                speed,
            }))
        };
        assert_eq!(figures(Speed::None), [0, 1, 2, 3, 4, 0, 0, 0]);
        assert_eq!(figures(Speed::Walking), [0, 1, 2, 3, 4, 1, 0, 0]);
        assert_eq!(figures(Speed::Limit(15)), [0, 1, 2, 3, 4, 2, 15, 0]);
        assert_eq!(figures(Speed::Booked), [0, 1, 2, 3, 4, 3, 0, 0]);
        let two = Speed::Two {
            straight: 25,
            elsewhere: 10,
        };
        assert_eq!(figures(two), [0, 1, 2, 3, 4, 4, 25, 10]);
        let refused = answer_figures(Err(Refusal::NotNearest));
        assert_eq!(refused, [20, 0, 0, 0, 0, 0, 0, 0]);
    }
}
