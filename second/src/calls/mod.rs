//! Random calls of the functions for hosts, and what must come of each.
//!
//! Every call has buffers of its own, so that another program can run it without
//! keeping anything from one call to the next. [`Calls`] makes them.

mod damage;
mod maker;

pub use maker::Calls;

use crate::entry::{entry_length, read_entry, write_entry};
use crate::position::step_position;
use crate::shelf::{fetch, store};

/// One call, with the values that its buffers have.
#[derive(Clone, Debug, PartialEq, Eq)]
pub enum Call {
    /// [`store`].
    Store {
        /// The shelf lent.
        shelf: Vec<u8>,
        /// The name.
        name: Vec<u8>,
        /// The position to be stored.
        position: Vec<u8>,
    },
    /// [`fetch`].
    Fetch {
        /// The shelf.
        shelf: Vec<u8>,
        /// The name.
        name: Vec<u8>,
        /// The buffer lent.
        buffer: Vec<u8>,
    },
    /// [`step_position`].
    Step {
        /// The position lent.
        position: Vec<u8>,
        /// The entry's bytes.
        entry: Vec<u8>,
        /// The numbers lent for the answer.
        answer: Vec<u32>,
    },
    /// [`write_entry`].
    Write {
        /// The entry's fields.
        fields: Vec<u16>,
        /// The bytes lent.
        bytes: Vec<u8>,
    },
    /// [`read_entry`].
    Read {
        /// The bytes to be read.
        bytes: Vec<u8>,
        /// The numbers lent for the fields.
        fields: Vec<u16>,
    },
    /// [`entry_length`].
    Length {
        /// The map.
        map: u8,
    },
}

impl Call {
    /// Makes the call: its buffers then have the values after it. Gives the answer,
    /// which is 0, the number of a refusal, or the length.
    pub fn run(&mut self) -> u32 {
        match self {
            Call::Store {
                shelf,
                name,
                position,
            } => store(shelf, name, position),
            Call::Fetch {
                shelf,
                name,
                buffer,
            } => fetch(shelf, name, buffer),
            Call::Step {
                position,
                entry,
                answer,
            } => step_position(position, entry, answer),
            Call::Write { fields, bytes } => write_entry(fields, bytes),
            Call::Read { bytes, fields } => read_entry(bytes, fields),
            Call::Length { map } => entry_length(*map) as u32,
        }
    }

    /// The call as another program reads it: the number of its function, then its
    /// buffers, each with its length in front; of the last function, the map alone.
    #[must_use]
    pub fn input(&self) -> Vec<u8> {
        let mut input = vec![self.number()];
        if let Call::Length { map } = self {
            input.push(*map);
        }
        for buffer in self.buffers() {
            input.extend((buffer.length() as u32).to_be_bytes());
            buffer.put(&mut input);
        }
        input
    }

    /// What must come of the call: its answer, and all its buffers after it, those
    /// that are only read as well.
    #[must_use]
    pub fn expected(&self) -> Vec<u8> {
        let mut call = self.clone();
        let mut expected = call.run().to_be_bytes().to_vec();
        for buffer in call.buffers() {
            buffer.put(&mut expected);
        }
        expected
    }

    /// The number by which another program knows the function.
    #[must_use]
    pub fn number(&self) -> u8 {
        match self {
            Call::Store { .. } => 1,
            Call::Fetch { .. } => 2,
            Call::Step { .. } => 3,
            Call::Write { .. } => 4,
            Call::Read { .. } => 5,
            Call::Length { .. } => 6,
        }
    }

    /// The buffers in the order of the function.
    fn buffers(&self) -> Vec<Buffer<'_>> {
        match self {
            Call::Store {
                shelf,
                name,
                position: third,
            }
            | Call::Fetch {
                shelf,
                name,
                buffer: third,
            } => [shelf, name, third]
                .map(|bytes| Buffer::Bytes(bytes))
                .into(),
            Call::Step {
                position,
                entry,
                answer,
            } => vec![
                Buffer::Bytes(position),
                Buffer::Bytes(entry),
                Buffer::Words(answer),
            ],
            Call::Write { fields, bytes } => vec![Buffer::Pairs(fields), Buffer::Bytes(bytes)],
            Call::Read { bytes, fields } => vec![Buffer::Bytes(bytes), Buffer::Pairs(fields)],
            Call::Length { .. } => Vec::new(),
        }
    }
}

/// The elements of one buffer.
enum Buffer<'a> {
    Bytes(&'a [u8]),
    Pairs(&'a [u16]),
    Words(&'a [u32]),
}

impl Buffer<'_> {
    fn length(&self) -> usize {
        match self {
            Buffer::Bytes(bytes) => bytes.len(),
            Buffer::Pairs(pairs) => pairs.len(),
            Buffer::Words(words) => words.len(),
        }
    }

    /// The elements one behind another, each high byte first.
    fn put(&self, out: &mut Vec<u8>) {
        match self {
            Buffer::Bytes(bytes) => out.extend(*bytes),
            Buffer::Pairs(pairs) => out.extend(pairs.iter().flat_map(|pair| pair.to_be_bytes())),
            Buffer::Words(words) => out.extend(words.iter().flat_map(|word| word.to_be_bytes())),
        }
    }
}

#[cfg(test)]
mod tests {
    use super::*;

    #[test]
    fn a_call_is_its_number_and_its_buffers_with_their_lengths() {
        let fetch = Call::Fetch {
            shelf: vec![1, 2],
            name: Vec::new(),
            buffer: vec![3],
        };
        let input = [2, 0, 0, 0, 2, 1, 2, 0, 0, 0, 0, 0, 0, 0, 1, 3];
        assert_eq!(fetch.input(), input);
        assert_eq!(fetch.expected(), [0, 0, 0, 5, 1, 2, 3]);
        let length = Call::Length { map: 0xFF };
        assert_eq!(length.input(), [6, 0xFF]);
        assert_eq!(length.expected(), [0, 0, 0, 12]);
    }

    #[test]
    fn numbers_are_high_byte_first_and_lengths_count_them() {
        let step = Call::Step {
            position: Vec::new(),
            entry: vec![0x01],
            answer: vec![0x0102_0304, 5],
        };
        let answer = [1, 2, 3, 4, 0, 0, 0, 5];
        let input = [3, 0, 0, 0, 0, 0, 0, 0, 1, 0x01, 0, 0, 0, 2];
        assert_eq!(step.input(), [&input[..], &answer].concat());
        assert_eq!(
            step.expected(),
            [&[0, 0, 0, 26, 0x01][..], &answer].concat()
        );
        let read = Call::Read {
            bytes: vec![0x01, 8],
            fields: vec![0x0102; 11],
        };
        let mut input = vec![5, 0, 0, 0, 2, 0x01, 8, 0, 0, 0, 11];
        input.extend([1, 2].repeat(11));
        assert_eq!(read.input(), input);
        let mut expected = vec![0, 0, 0, 0, 0x01, 8, 0, 1, 0, 8];
        expected.extend([0; 16]);
        expected.extend([1, 2]);
        assert_eq!(read.expected(), expected);
    }

    #[test]
    fn buffers_stand_in_the_order_of_their_function() {
        let write = Call::Write {
            fields: vec![1, 8],
            bytes: vec![7],
        };
        let input = [4, 0, 0, 0, 2, 0, 1, 0, 8, 0, 0, 0, 1, 7];
        assert_eq!(write.input(), input);
        assert_eq!(write.expected(), [0, 0, 0, 23, 0, 1, 0, 8, 7]);
        let store = Call::Store {
            shelf: vec![1],
            name: vec![2],
            position: vec![3],
        };
        let input = [1, 0, 0, 0, 1, 1, 0, 0, 0, 1, 2, 0, 0, 0, 1, 3];
        assert_eq!(store.input(), input);
        assert_eq!(store.expected(), [0, 0, 0, 5, 1, 2, 3]);
    }
}
