//! Lists of calls: steps, stores and fetches on one section and one shelf, from the
//! fresh section and the empty shelf on.
//!
//! A history goes with the section and with each name. At every point the position
//! is that of the section to which its history leads from fresh, and the claims of
//! demand 3 about opposed vehicles and line clears owed hold for that history.

use std::collections::BTreeMap;

use second::generator::{Generator, Options};
use second::position::{ANSWER_NUMBERS, POSITION_LENGTH};
use second::random::Random;
use second::shelf::SHELF_LENGTH;
use second::walk::{check_counts, check_opposed, check_owed, Failure, Step};
use second::{fetch, step_in_place, step_position, store, Answer, Position, Section};

/// The functions that a list calls.
#[derive(Clone, Copy)]
struct Functions {
    store: fn(&mut [u8], &[u8], &[u8]) -> u32,
    fetch: fn(&[u8], &[u8], &mut [u8]) -> u32,
    step: fn(&mut [u8], &[u8], &mut [u32]) -> u32,
}

const OWN: Functions = Functions {
    store,
    fetch,
    step: step_position,
};

/// A step of a history: its bytes, the number it was answered with and, where that
/// is 0, the three numbers of the answer.
#[derive(Clone)]
struct Taken {
    bytes: Vec<u8>,
    answered: (u32, [u32; ANSWER_NUMBERS]),
}

/// What the lists have met.
#[derive(Debug, Default)]
struct Tally {
    states: u64,
    opposed_pairs: u64,
    given_up_states: u64,
    waiting_states: u64,
    /// Steps, stores and fetches by their answer.
    answers: [BTreeMap<u32, u64>; 3],
    replaced: u64,
    /// Fetches of something else than the section then was.
    went_back: u64,
    longest_history: usize,
}

const STEP: usize = 0;
const STORE: usize = 1;
const FETCH: usize = 2;

/// A host with its section and its shelf, and the histories beside them.
struct Host<'a> {
    functions: Functions,
    position: Position,
    shelf: Vec<u8>,
    history: Vec<Taken>,
    names: BTreeMap<Vec<u8>, (Position, Vec<Taken>)>,
    tally: &'a mut Tally,
}

fn claim(holds: bool, words: &str) -> Result<(), Failure> {
    if holds {
        Ok(())
    } else {
        Err(Failure(words.to_string()))
    }
}

fn answered(answer: Answer) -> (u32, [u32; ANSWER_NUMBERS]) {
    match answer {
        Ok(accepted) => (0, accepted.numbers()),
        Err(refusal) => (refusal.number().into(), [0; ANSWER_NUMBERS]),
    }
}

impl Host<'_> {
    fn step(&mut self, bytes: Vec<u8>, lent: usize) -> Result<(), Failure> {
        let before = self.position;
        let mut numbers = vec![7; lent];
        let number = (self.functions.step)(&mut self.position, &bytes, &mut numbers);
        self.count(STEP, number)?;
        if number == 23 {
            let kept = self.position == before && numbers == vec![7; lent];
            return claim(kept && lent < ANSWER_NUMBERS, "a step refused with 23");
        }
        claim(number <= 22, "a step is answered 0 to 22 or 23")?;
        let mut answer = [0; ANSWER_NUMBERS];
        if number == 0 {
            answer.copy_from_slice(&numbers[..ANSWER_NUMBERS]);
        } else {
            claim(
                numbers == vec![7; lent],
                "a refused step leaves the numbers",
            )?;
        }
        self.history.push(Taken {
            bytes,
            answered: (number, answer),
        });
        Ok(())
    }

    fn store(&mut self, name: &[u8]) -> Result<(), Failure> {
        let before = self.shelf.clone();
        let number = (self.functions.store)(&mut self.shelf, name, &self.position);
        self.count(STORE, number)?;
        if number != 0 {
            return claim(self.shelf == before, "a refused store alters nothing");
        }
        let stored = (self.position, self.history.clone());
        let earlier = self.names.insert(name.to_vec(), stored);
        self.tally.replaced += u64::from(earlier.is_some());
        claim(self.names.len() <= 16, "sixteen names are the most")
    }

    /// Fetches into so many of the section's own bytes.
    fn fetch(&mut self, name: &[u8], lent: usize) -> Result<(), Failure> {
        let before = self.position;
        let number = (self.functions.fetch)(&self.shelf, name, &mut self.position[..lent]);
        self.count(FETCH, number)?;
        if number != 0 {
            return claim(self.position == before, "a refused fetch alters nothing");
        }
        let Some((stored, history)) = self.names.get(name) else {
            return claim(false, "nothing was stored under that name");
        };
        claim(self.position == *stored, "not what was last stored")?;
        self.tally.went_back += u64::from(self.position != before);
        self.history.clone_from(history);
        Ok(())
    }

    fn count(&mut self, function: usize, number: u32) -> Result<(), Failure> {
        *self.tally.answers[function].entry(number).or_default() += 1;
        claim(number != 5 && number != 26, "no call is answered 5 or 26")
    }

    /// What holds at every point of a list.
    fn check(&mut self) -> Result<(), Failure> {
        let mut section = Section::fresh();
        let mut list = Vec::with_capacity(self.history.len());
        for taken in &self.history {
            let answer = step_in_place(&mut section, &taken.bytes);
            claim(answered(answer) == taken.answered, "another answer")?;
            list.push(Step::new(taken.bytes.clone(), answer));
        }
        let led_to = section.position() == Some(self.position);
        claim(led_to, "not the section to which its history leads")?;
        self.tally.opposed_pairs += check_opposed(&list, &section)?;
        self.tally.given_up_states += u64::from(check_owed(&list, &section)? > 0);
        check_counts(&list, &section)?;
        let waiting = section.desks.iter().any(|desk| desk.waiting > 0);
        self.tally.waiting_states += u64::from(waiting);
        self.tally.states += 1;
        self.tally.longest_history = self.tally.longest_history.max(list.len());
        Ok(())
    }
}

/// Names of which some begin others, more than a shelf holds, and some that are
/// none.
const NAMES: [&[u8]; 22] = [
    b"A",
    b"AB",
    b"ABC",
    b"ABCDEFGHIJKL",
    b"B",
    b"BA",
    b"CLASS",
    b"CLASSES",
    b"D",
    b"EVENING",
    b"F",
    b"G",
    b"H",
    b"MEET",
    b"MET",
    b"NOON",
    b"Q",
    b"QQQQQQQQQQQQ",
    b"Z",
    b"",
    b"a",
    b"ABCDEFGHIJKLM",
];

/// Makes lists of calls and tests every point of them.
fn make_lists(functions: Functions, seeds: std::ops::Range<u64>) -> Result<Tally, Failure> {
    let mut tally = Tally::default();
    for seed in seeds {
        let mut random = Random::new(seed);
        let options = Options {
            accepted: random.chance(30),
            full: random.chance(20),
            ..Options::default()
        };
        let mut generator = Generator::new(random.word(), options);
        let mut host = Host {
            functions,
            position: [0; POSITION_LENGTH],
            shelf: vec![0; SHELF_LENGTH],
            history: Vec::new(),
            names: BTreeMap::new(),
            tally: &mut tally,
        };
        let calls = random.between(20, 300);
        let others = random.pick(&[4, 10, 40]);
        host.check()?;
        for _ in 0..calls {
            let name = random.pick(&NAMES);
            match random.below(100) {
                turn if turn < others => host.store(name)?,
                turn if turn < 2 * others => {
                    let short = random.below(POSITION_LENGTH as u32) as usize;
                    let lent = random.pick(&[short, 281, 281, 281, 281, 281]);
                    host.fetch(name, lent)?;
                }
                _ => {
                    let bytes = generator.next_step();
                    let lent = random.pick(&[0, 2, 3, 3, 3, 3, 3, 3, 3, 3, 3, 3, 4, 5]);
                    host.step(bytes, lent)?;
                }
            }
            host.check()?;
            // After a fetch, or a step that was not taken, the traffic is elsewhere.
            let section = Section::from_position(&host.position);
            generator.go_to(section.map_err(|refusal| Failure(refusal.to_string()))?);
        }
    }
    Ok(tally)
}

#[test]
fn every_point_of_a_list_is_where_its_history_leads() {
    let tally = make_lists(OWN, 0..150).unwrap_or_else(|failure| panic!("{failure}"));
    let [steps, stores, fetches] = &tally.answers;
    assert!(stores.keys().eq(&[0, 24, 25]), "{tally:?}");
    assert!(fetches.keys().eq(&[0, 23, 24]), "{tally:?}");
    // All but a form number over the last.
    for number in (0..=4).chain(6..=17).chain(19..=23) {
        assert!(steps.contains_key(&number), "{number}: {tally:?}");
    }
    assert!(tally.states > 5_000, "{tally:?}");
    assert!(tally.opposed_pairs > 1_000, "{tally:?}");
    assert!(tally.waiting_states > 50, "{tally:?}");
    assert!(tally.given_up_states > 50, "{tally:?}");
    assert!(tally.replaced > 100, "{tally:?}");
    assert!(tally.went_back > 300, "{tally:?}");
    assert!(tally.longest_history > 150, "{tally:?}");
}

/// Functions with one slip each, which the lists have to show.
#[test]
fn a_slip_shows() {
    let slips: [(&str, Functions); 6] = [
        (
            "a used name keeps its first position",
            Functions {
                store: |shelf, name, position| {
                    let mut kept = [0; POSITION_LENGTH];
                    match fetch(shelf, name, &mut kept) {
                        0 => 0,
                        _ => store(shelf, name, position),
                    }
                },
                ..OWN
            },
        ),
        (
            "a name is taken for one that it begins",
            Functions {
                fetch: |shelf, name, buffer| match shelf
                    .chunks(293)
                    .find(|place| !name.is_empty() && place.starts_with(name))
                {
                    Some(place) if buffer.len() >= POSITION_LENGTH => {
                        buffer[..POSITION_LENGTH].copy_from_slice(&place[12..]);
                        0
                    }
                    _ => fetch(shelf, name, buffer),
                },
                ..OWN
            },
        ),
        (
            "a fetch keeps the counts of refused entries",
            Functions {
                fetch: |shelf, name, buffer| {
                    let counts = buffer.get(241..253).map(<[u8]>::to_vec);
                    let number = fetch(shelf, name, buffer);
                    if let (0, Some(counts)) = (number, counts) {
                        buffer[241..253].copy_from_slice(&counts);
                    }
                    number
                },
                ..OWN
            },
        ),
        (
            "a refused step is not counted",
            Functions {
                step: |position, entry, answer| {
                    let before = position.to_vec();
                    let number = step_position(position, entry, answer);
                    if number != 0 {
                        position.copy_from_slice(&before);
                    }
                    number
                },
                ..OWN
            },
        ),
        (
            "line clears that wait are lost",
            Functions {
                step: |position, entry, answer| {
                    let number = step_position(position, entry, answer);
                    position[266] = 0;
                    number
                },
                ..OWN
            },
        ),
        (
            "the seventeenth name takes the place of the first",
            Functions {
                store: |shelf, name, position| match store(shelf, name, position) {
                    25 => {
                        shelf[..12].fill(0);
                        shelf[..name.len()].copy_from_slice(name);
                        shelf[12..293].copy_from_slice(position);
                        0
                    }
                    number => number,
                },
                ..OWN
            },
        ),
    ];
    for (slip, functions) in slips {
        assert!(make_lists(functions, 0..60).is_err(), "{slip}");
    }
}
