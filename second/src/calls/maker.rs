//! Makes random calls that a host could come to make.
//!
//! A section and a shelf are kept beside the calls. The generator of entries works
//! the section, which is stored on the shelf and fetched from it, so that most calls
//! are about positions and shelves in use. Each call is handed copies of them, some
//! of them damaged, and buffers in which no element is 0.

use crate::entry::{decode, entry_length, Entry, ENTRY_FIELDS};
use crate::generator::{any_counts, any_section, bytes_of, Generator, Options};
use crate::making::{any_bytes, Maker};
use crate::position::{ANSWER_NUMBERS, POSITION_LENGTH};
use crate::random::Random;
use crate::refusal::Refusal;
use crate::section::Section;
use crate::shelf::{NAME_LENGTH, SHELF_LENGTH, SHELF_PLACE_LENGTH};

use super::damage::{bad_name, damage_position, damage_shelf, places_in_use};
use super::Call;

/// Random calls without end, the same for the same seed.
#[derive(Clone, Debug)]
pub struct Calls {
    random: Random,
    traffic: Generator,
    shelf: Vec<u8>,
    calls_left: u32,
}

impl Iterator for Calls {
    type Item = Call;

    fn next(&mut self) -> Option<Call> {
        if self.calls_left == 0 {
            self.start_over();
        }
        self.calls_left -= 1;
        Some(match self.random.below(100) {
            0..=45 => self.step(),
            46..=61 => self.store(),
            62..=73 => self.fetch(),
            74..=84 => self.write(),
            85..=95 => self.read(),
            _ => Call::Length {
                map: self.random.byte(),
            },
        })
    }
}

impl Calls {
    /// Calls from the fresh section and the empty shelf on.
    #[must_use]
    pub fn new(seed: u64) -> Calls {
        let mut calls = Calls {
            random: Random::new(seed),
            traffic: Generator::new(0, Options::default()),
            shelf: Vec::new(),
            calls_left: 0,
        };
        calls.start_over();
        calls
    }

    /// Starts from the fresh section and the empty shelf, mostly for long enough that
    /// sixteen names come on it.
    fn start_over(&mut self) {
        let options = Options {
            full: self.random.chance(30),
            ..Options::default()
        };
        self.traffic = Generator::new(self.random.word(), options);
        self.shelf = vec![0; SHELF_LENGTH];
        self.calls_left = 50 + self.random.below(600);
    }

    fn step(&mut self) -> Call {
        if self.random.chance(2) {
            let mut section = self.traffic.section().clone();
            section.refused = any_counts(&mut self.random);
            self.traffic.go_to(section);
        }
        let (mut position, entry) = if self.random.chance(65) {
            let position = position_of(self.traffic.section());
            (position, self.traffic.next_step())
        } else {
            let section = self.some_section();
            let entry = self.bytes_for(&section);
            (position_of(&section), entry)
        };
        if self.random.chance(10) {
            damage_position(&mut self.random, &mut position);
        }
        let entry = self.perhaps_more_behind(entry);
        let lent = match self.random.below(20) {
            0..=2 => self.random.below(6) as usize,
            _ => ANSWER_NUMBERS,
        };
        let answer = (0..lent).map(|_| 1 + self.random.below(u32::MAX)).collect();
        Call::Step {
            position,
            entry,
            answer,
        }
    }

    fn store(&mut self) -> Call {
        let name = match self.random.below(20) {
            0..=1 => self.bad_name(),
            2..=5 => self.neighbouring_name(),
            6..=11 => self.used_name(),
            _ => self.any_name(),
        };
        let mut position = if self.random.chance(20) {
            position_of(&any_section(&mut self.random))
        } else {
            position_of(self.traffic.section())
        };
        if self.random.chance(15) {
            damage_position(&mut self.random, &mut position);
        }
        let call = Call::Store {
            shelf: self.lent_shelf(),
            name,
            position,
        };
        let mut stored = call.clone();
        if stored.run() == 0 {
            if let Call::Store { shelf, .. } = stored {
                self.shelf = shelf;
            }
        }
        call
    }

    fn fetch(&mut self) -> Call {
        let name = match self.random.below(20) {
            0..=1 => self.bad_name(),
            2..=3 => self.neighbouring_name(),
            4..=5 => self.any_name(),
            _ => self.used_name(),
        };
        let length = match self.random.below(20) {
            0..=2 => self.random.below(POSITION_LENGTH as u32) as usize,
            3 => POSITION_LENGTH - 1,
            4..=7 => POSITION_LENGTH + self.random.below(60) as usize,
            _ => POSITION_LENGTH,
        };
        let call = Call::Fetch {
            shelf: self.lent_shelf(),
            name,
            buffer: self.bytes_without_0(length),
        };
        let mut fetched = call.clone();
        // To go back each time would keep the traffic from going on.
        if fetched.run() == 0 && self.random.chance(30) {
            if let Call::Fetch { buffer, .. } = fetched {
                if let Ok(section) = Section::from_position(&buffer[..POSITION_LENGTH]) {
                    self.traffic.go_to(section);
                }
            }
        }
        call
    }

    fn write(&mut self) -> Call {
        let mut fields = self.entry_to_write().fields().to_vec();
        match self.random.below(20) {
            0..=7 => self.spoil_field(&mut fields),
            8 => {
                for field in &mut fields {
                    *field = self.some_number();
                }
            }
            _ => {}
        }
        let length = entry_length(fields[0].min(255) as u8);
        let length = match self.random.below(20) {
            0..=2 => self.random.below(length as u32) as usize,
            3 => length - 1,
            4..=10 => length,
            _ => length + self.random.below(9) as usize,
        };
        if self.random.chance(15) {
            let given = self.random.below(13) as usize;
            fields.resize_with(given, || self.random.between(1, u16::MAX));
        }
        Call::Write {
            fields,
            bytes: self.bytes_without_0(length),
        }
    }

    fn read(&mut self) -> Call {
        let bytes = match self.random.below(20) {
            0 => Vec::new(),
            1..=2 => any_bytes(&mut self.random),
            3..=5 => {
                let mut bytes = self.some_bytes();
                let kept = self.random.below(bytes.len() as u32 + 1);
                bytes.truncate(kept as usize);
                bytes
            }
            6..=8 => self.traffic.no_entry(),
            _ => self.some_bytes(),
        };
        let bytes = self.perhaps_more_behind(bytes);
        let lent = match self.random.below(20) {
            0..=2 => self.random.below(13) as usize,
            _ => ENTRY_FIELDS + self.random.below(3) as usize,
        };
        let fields = (0..lent)
            .map(|_| self.random.between(1, u16::MAX))
            .collect();
        Call::Read { bytes, fields }
    }

    /// Often a section to which no log leads, or not soon; or the one kept.
    fn some_section(&mut self) -> Section {
        if self.random.chance(70) {
            any_section(&mut self.random)
        } else {
            self.traffic.section().clone()
        }
    }

    /// Bytes for a step of this section, refused more often than those of a log.
    fn bytes_for(&mut self, section: &Section) -> Vec<u8> {
        let seed = self.random.word();
        let mut generator = Generator::at(section.clone(), seed, Options::default());
        let entry = match self.random.below(10) {
            0..=2 => generator.spoiled_entry(),
            3..=5 => generator.blind_entry(),
            6 => return generator.no_entry(),
            _ => return generator.next_step(),
        };
        bytes_of(&entry)
    }

    fn some_bytes(&mut self) -> Vec<u8> {
        let section = self.some_section();
        self.bytes_for(&section)
    }

    fn entry_to_write(&mut self) -> Entry {
        let bytes = self.some_bytes();
        decode(&bytes).unwrap_or_else(|_| Entry::begin())
    }

    /// Another number in one field. In the map one bit is altered, since few maps
    /// are any kind's.
    fn spoil_field(&mut self, fields: &mut [u16]) {
        let place = self.random.below(ENTRY_FIELDS as u32) as usize;
        fields[place] = if place == 0 && self.random.chance(70) {
            fields[0] ^ 1 << self.random.below(9)
        } else {
            self.some_number()
        };
    }

    /// Small, at the edges of one byte and of a form number, or any.
    fn some_number(&mut self) -> u16 {
        let any = self.random.between(0, u16::MAX);
        let small = self.random.between(0, 10);
        let edge = self.random.pick(&[255, 256, 257, 9_999, 10_000, u16::MAX]);
        self.random.pick(&[any, small, small, edge])
    }

    /// Bytes behind a whole entry, which are not looked at. Behind a cut one they
    /// would make it another.
    fn perhaps_more_behind(&mut self, mut bytes: Vec<u8>) -> Vec<u8> {
        if decode(&bytes) != Err(Refusal::Cut) && self.random.chance(15) {
            let more = bytes.len() + self.random.small(1, 9) as usize;
            bytes.resize_with(more, || self.random.byte());
        }
        bytes
    }

    fn lent_shelf(&mut self) -> Vec<u8> {
        let mut shelf = self.shelf.clone();
        if self.random.chance(12) {
            damage_shelf(&mut self.random, &mut shelf);
        }
        shelf
    }

    fn bytes_without_0(&mut self, length: usize) -> Vec<u8> {
        (0..length).map(|_| self.random.small(1, u8::MAX)).collect()
    }

    /// A name on the shelf; where it is empty, any.
    fn used_name(&mut self) -> Vec<u8> {
        let used = places_in_use(&self.shelf);
        if used == 0 {
            return self.any_name();
        }
        let start = self.random.below(used as u32) as usize * SHELF_PLACE_LENGTH;
        let mut name = self.shelf[start..start + NAME_LENGTH].to_vec();
        name.retain(|&letter| letter != 0);
        name
    }

    /// A name that begins one on the shelf, or that one on the shelf begins.
    fn neighbouring_name(&mut self) -> Vec<u8> {
        let mut name = self.used_name();
        if name.len() == NAME_LENGTH || (name.len() > 1 && self.random.chance(50)) {
            name.pop();
        } else {
            name.push(self.random.small(b'A', b'Z'));
        }
        name
    }

    fn any_name(&mut self) -> Vec<u8> {
        let length = self.random.small(1, NAME_LENGTH as u8);
        let length = self.random.pick(&[length, length, 1, NAME_LENGTH as u8]);
        (0..length).map(|_| self.random.small(b'A', b'Z')).collect()
    }

    fn bad_name(&mut self) -> Vec<u8> {
        let name = self.used_name();
        bad_name(&mut self.random, name)
    }
}

/// Every section here is well made.
fn position_of(section: &Section) -> Vec<u8> {
    section
        .position()
        .map_or_else(Vec::new, |position| position.to_vec())
}
