//! Stored cases for another program, and what must come of each.
//!
//! The cases run what a log from the fresh section never reaches: both forms of
//! the step, and a run, on sections given figure by figure, the reader at any
//! position, and the writer. [`all`] is the one list of them; [`input`] gives it as
//! the bytes that the other program reads, and [`expected`] as the lines that it must
//! write, computed here with the reader, the writer and the two forms of the step of
//! this crate. The readers and writers are of both lines; the steps on a
//! double line are stored by themselves, in [`crate::double::cases`].

mod counts;
mod double;
mod given_up;
mod guests;
mod logs;
mod named;
mod positions;
mod runs;
mod sections;
mod waiting;
mod writer;

use std::fmt::{self, Write};

use crate::entry::{Entry, Table};
use crate::figures::{digest, Figures, PLACES_LENGTH, PLACE_LENGTH};
use crate::lister::Printed;
use crate::log::{Reader, Writer};
use crate::refusal::Refusal;
use crate::section::Section;
use crate::step::{step, step_in_place, Answer};

/// The most bytes of a log, of the bytes of a step or of a buffer.
pub const LONGEST: usize = 4_096;

/// The session of the document.
const SESSION: [&[u8]; 8] = [
    &[0x01, 0x01],
    &[0x3F, 0x02, 0x01, 0x00, 0x0A, 0x01, 0x01, 0x02],
    &[0x87, 0x06, 0x02, 0x00, 0x46, 0x01, 0x00, 0x01],
    &[0x47, 0x04, 0x02, 0x00, 0x4B, 0x02],
    &[0x87, 0x06, 0x01, 0x00, 0x5F, 0x02, 0x00, 0x01],
    &[0x0F, 0x05, 0x01, 0x00, 0x60, 0x01],
    &[0x0F, 0x05, 0x01, 0x00, 0x7D, 0x01],
    &[0x0F, 0x05, 0x01, 0x00, 0x7E, 0x01],
];

/// Bytes as long as their map says that are no entry, with their refusal.
const NO_ENTRIES: [(u8, &[u8]); 18] = [
    (2, &[0x00]),
    (3, &[0x01, 2]),
    (4, &[0x07, 4, 0, 0, 10]),
    (2, &[0x01, 0]),
    (3, &[0x03, 1, 1]),
    (4, &[0x07, 4, 3, 0, 10]),
    (2, &[0x01, 10]),
    (3, &[0x7F, 2, 1, 0, 10, 1, 1, 1, 1]),
    (4, &[0x3F, 2, 1, 0, 10, 1, 1, 9]),
    (2, &[0x86, 1, 0, 1, 1, 0, 1]),
    (3, &[0x07, 5, 1, 0, 10]),
    (4, &[0x1F, 3, 2, 0, 10, 1, 2]),
    (2, &[0xFF, 255, 1, 0, 1, 1, 1, 1, 1, 1, 0, 1]),
    (3, &[0xFF, 8, 9, 9, 9, 9, 9, 9, 9, 9, 9, 9]),
    (4, &[0x83, 7, 1, 1, 0x27, 0x10]),
    // The kind behind the last, and the last with another map and a field out of
    // its range.
    (2, &[0x0F, 10, 1, 0, 10, 1]),
    (3, &[0x01, 9]),
    (4, &[0x6F, 9, 1, 0, 10, 1, 8, 9]),
];

/// One stored case.
#[derive(Clone, Debug, PartialEq, Eq)]
pub enum Case {
    /// A log read from its start and stepped from the fresh section; what is
    /// read is appended to a copy.
    Log {
        /// The log.
        log: Vec<u8>,
    },
    /// Bytes handed to the step, and run as a log.
    Step {
        /// The section lent, well made or not.
        section: Box<Section>,
        /// The bytes handed, which are the log as well.
        bytes: Vec<u8>,
    },
    /// An entry appended to a buffer, and written at its front.
    Write {
        /// The entry, which may be none.
        entry: Entry,
        /// The fill point of the buffer.
        fill: u16,
        /// The buffer lent.
        buffer: Vec<u8>,
    },
    /// A reader at some position of a log.
    Read {
        /// The position.
        position: u16,
        /// The log.
        log: Vec<u8>,
    },
    /// As [`Case::Write`], by the table of the double line.
    DoubleWrite {
        /// The entry, which may be none.
        entry: Entry,
        /// The fill point of the buffer.
        fill: u16,
        /// The buffer lent.
        buffer: Vec<u8>,
    },
    /// As [`Case::Read`], by the table of the double line.
    DoubleRead {
        /// The position.
        position: u16,
        /// The log.
        log: Vec<u8>,
    },
}

/// All the cases, the same each time.
#[must_use]
pub fn all() -> Vec<Case> {
    let mut cases = logs::cases();
    cases.extend(sections::cases());
    cases.extend(writer::cases());
    cases.extend(positions::cases());
    cases.extend(double::cases());
    cases
}

/// The cases as the other program reads them.
#[must_use]
pub fn input(cases: &[Case]) -> Vec<u8> {
    cases.iter().flat_map(Case::input).collect()
}

/// What must come of the cases.
#[must_use]
pub fn expected(cases: &[Case]) -> String {
    cases.iter().map(Case::expected).collect()
}

impl Case {
    /// The case as the other program reads it.
    ///
    /// # Panics
    ///
    /// If a log, a buffer or the bytes of a step are longer than a case may
    /// hold, or a section has no figures.
    #[must_use]
    pub fn input(&self) -> Vec<u8> {
        let mut input = vec![self.number()];
        match self {
            Case::Log { log } => put_bytes(&mut input, log),
            Case::Step { section, bytes } => {
                input.extend(figures_of(section));
                put_bytes(&mut input, bytes);
            }
            Case::Write {
                entry,
                fill,
                buffer,
            }
            | Case::DoubleWrite {
                entry,
                fill,
                buffer,
            } => {
                input.extend(entry_figures(entry));
                input.extend(fill.to_be_bytes());
                put_bytes(&mut input, buffer);
            }
            Case::Read { position, log } | Case::DoubleRead { position, log } => {
                input.extend(position.to_be_bytes());
                put_bytes(&mut input, log);
            }
        }
        input
    }

    /// What must come of the case, each line ended by a line feed.
    ///
    /// # Panics
    ///
    /// If a section has no figures.
    #[must_use]
    pub fn expected(&self) -> String {
        let mut lines = String::new();
        self.write_expected(&mut lines)
            .expect("a String takes all that is written to it");
        lines
    }

    /// The first byte of the case.
    fn number(&self) -> u8 {
        match self {
            Case::Log { .. } => 1,
            Case::Step { .. } => 2,
            Case::Write { .. } => 3,
            Case::Read { .. } => 4,
            Case::DoubleWrite { .. } => 5,
            Case::DoubleRead { .. } => 6,
        }
    }

    /// The table by which entries are read and written.
    fn table(&self) -> &'static Table {
        match self {
            Case::DoubleWrite { .. } | Case::DoubleRead { .. } => &Table::DOUBLE_LINE,
            _ => &Table::SINGLE_LINE,
        }
    }

    fn write_expected(&self, out: &mut impl Write) -> fmt::Result {
        match self {
            Case::Log { log } => write_log(out, log),
            Case::Step { section, bytes } => write_step(out, section, bytes),
            Case::Write {
                entry,
                fill,
                buffer,
            }
            | Case::DoubleWrite {
                entry,
                fill,
                buffer,
            } => write_writing(out, self.table(), entry, usize::from(*fill), buffer),
            Case::Read { position, log } | Case::DoubleRead { position, log } => {
                writeln!(out, "read {position} {}", log.len())?;
                let mut reader = Reader::by(self.table(), log, usize::from(*position));
                write_next(out, &mut reader).map(drop)
            }
        }
    }
}

fn put_bytes(input: &mut Vec<u8>, bytes: &[u8]) {
    assert!(bytes.len() <= LONGEST, "{} bytes", bytes.len());
    input.extend((bytes.len() as u16).to_be_bytes());
    input.extend(bytes);
}

/// Every section of a case has figures, and a step leaves it so.
fn figures_of(section: &Section) -> Figures {
    section.figures().expect("the section has figures")
}

fn entry_figures(entry: &Entry) -> [u8; 12] {
    let [time_high, time_low] = entry.time.to_be_bytes();
    let [form_high, form_low] = entry.form.to_be_bytes();
    [
        entry.map,
        entry.kind,
        entry.station,
        time_high,
        time_low,
        entry.view,
        entry.class,
        entry.asked,
        entry.granted,
        entry.sender,
        form_high,
        form_low,
    ]
}

fn write_log(out: &mut impl Write, log: &[u8]) -> fmt::Result {
    writeln!(out, "log {}", log.len())?;
    let mut by_value = Section::fresh();
    let mut in_memory = Section::fresh();
    let mut copy = [0; LONGEST];
    let mut writer = Writer::at(&mut copy, 0);
    let mut reader = Reader::new(log);
    loop {
        let start = reader.position();
        let Some(read) = write_next(out, &mut reader)? else {
            break;
        };
        let rest = &log[start..];
        let own = match read {
            Err(Refusal::Cut) => rest,
            _ => &log[start..reader.position()],
        };
        let (answer, after) = step(&by_value, rest);
        by_value = after;
        write_answer(out, "value", Printed(answer), &by_value)?;
        let answer = step_in_place(&mut in_memory, own);
        write_answer(out, "memory", Printed(answer), &in_memory)?;
        match read {
            Ok(entry) => {
                let written = writer.append(&entry).map(|()| writer.position());
                writeln!(out, "append {}", Written(written))?;
            }
            Err(Refusal::Cut) => break,
            Err(_) => {}
        }
    }
    let filled = writer.position();
    write_section(out, "value", &by_value)?;
    write_section(out, "memory", &in_memory)?;
    writeln!(out, "copy {}", Hex(&copy[..filled]))
}

fn write_step(out: &mut impl Write, section: &Section, bytes: &[u8]) -> fmt::Result {
    writeln!(out, "step {}", bytes.len())?;
    let (answer, after) = step(section, bytes);
    writeln!(out, "value {}", Printed(answer))?;
    write_section(out, "value", &after)?;
    let mut in_memory = section.clone();
    let answer = step_in_place(&mut in_memory, bytes);
    writeln!(out, "memory {}", Printed(answer))?;
    write_section(out, "memory", &in_memory)?;
    write_run(out, section, bytes)
}

/// What a run of the log from this section comes to. The accepted are counted by
/// their answers, since the section's counts may stand at their largest value.
fn write_run(out: &mut impl Write, section: &Section, log: &[u8]) -> fmt::Result {
    let (answers, after) = runs::run(section, log);
    let entries = answers.len();
    let accepted = answers.iter().filter(|answer| answer.is_ok()).count();
    let last = LastWords(answers.last().copied());
    let digest = digest(&figures_of(&after));
    writeln!(out, "run {entries} {accepted} {last} {digest}")
}

fn write_writing(
    out: &mut impl Write,
    table: &'static Table,
    entry: &Entry,
    fill: usize,
    buffer: &[u8],
) -> fmt::Result {
    writeln!(out, "write {fill} {}", buffer.len())?;
    let mut appended = buffer.to_vec();
    let mut writer = Writer::by(table, &mut appended, fill);
    let written = writer.append(entry).map(|()| writer.position());
    writeln!(out, "append {}", Written(written))?;
    writeln!(out, "buffer {}", Hex(&appended))?;
    let mut fronted = buffer.to_vec();
    let written = table.encode(entry, &mut fronted);
    writeln!(out, "front {}", Written(written))?;
    writeln!(out, "buffer {}", Hex(&fronted))
}

/// Moves the reader on, writes what it read and where it then stands, and gives
/// what it read.
fn write_next(
    out: &mut impl Write,
    reader: &mut Reader<'_>,
) -> Result<Option<Result<Entry, Refusal>>, fmt::Error> {
    let start = reader.position();
    let read = reader.read();
    writeln!(
        out,
        "at {start} {} next {}",
        ReadWords(read),
        reader.position()
    )?;
    Ok(read)
}

fn write_answer(
    out: &mut impl Write,
    form: &str,
    answer: Printed,
    section: &Section,
) -> fmt::Result {
    writeln!(out, "{form} {answer} {}", digest(&figures_of(section)))
}

fn write_section(out: &mut impl Write, form: &str, section: &Section) -> fmt::Result {
    writeln!(out, "{form} {}", section_in_hex(section))
}

/// A section as the lines hold it: what stands behind its places, then its places
/// up to the last that is not all zero.
///
/// The other program's output has a limit of 1,048,576 bytes. Most places of most
/// sections are unused, and with them the lines would be longer than that. What may
/// be left out stands at the end, so that the rest is where it always is.
fn section_in_hex(section: &Section) -> String {
    let figures = figures_of(section);
    let (places, behind) = figures.split_at(PLACES_LENGTH);
    let last = places
        .chunks(PLACE_LENGTH)
        .rposition(|place| place.iter().any(|&figure| figure != 0));
    let written = last.map_or(0, |last| last + 1);
    format!("{}{}", Hex(behind), Hex(&places[..written * PLACE_LENGTH]))
}

/// Bytes in hex; of no bytes, nothing.
struct Hex<'a>(&'a [u8]);

impl fmt::Display for Hex<'_> {
    fn fmt(&self, formatter: &mut fmt::Formatter<'_>) -> fmt::Result {
        self.0
            .iter()
            .try_for_each(|byte| write!(formatter, "{byte:02x}"))
    }
}

/// What a reader has read.
struct ReadWords(Option<Result<Entry, Refusal>>);

impl fmt::Display for ReadWords {
    fn fmt(&self, formatter: &mut fmt::Formatter<'_>) -> fmt::Result {
        match &self.0 {
            None => formatter.write_str("end"),
            Some(Err(refusal)) => write!(formatter, "no {}", refusal.number()),
            Some(Ok(entry)) => write!(
                formatter,
                "entry {} {} {} {} {} {} {} {} {} {}",
                entry.map,
                entry.kind,
                entry.station,
                entry.time,
                entry.view,
                entry.class,
                entry.asked,
                entry.granted,
                entry.sender,
                entry.form
            ),
        }
    }
}

/// The last answer of a run, if it had an entry.
struct LastWords(Option<Answer>);

impl fmt::Display for LastWords {
    fn fmt(&self, formatter: &mut fmt::Formatter<'_>) -> fmt::Result {
        match self.0 {
            None => formatter.write_str("none"),
            Some(answer) => Printed(answer).fmt(formatter),
        }
    }
}

/// What a writer has written: the position behind it.
struct Written(Result<usize, Refusal>);

impl fmt::Display for Written {
    fn fmt(&self, formatter: &mut fmt::Formatter<'_>) -> fmt::Result {
        match self.0 {
            Ok(position) => write!(formatter, "filled {position}"),
            Err(refusal) => write!(formatter, "no {}", refusal.number()),
        }
    }
}

#[cfg(test)]
mod tests {
    use super::*;
    use crate::entry::decode;

    #[test]
    fn the_bytes_that_are_no_entry_have_their_refusal() {
        for (number, bytes) in NO_ENTRIES {
            let refusal = decode(bytes).unwrap_err();
            assert_eq!(refusal.number(), number, "{bytes:?}");
            let mut reader = Reader::new(bytes);
            assert_eq!(reader.read(), Some(Err(refusal)));
            assert_eq!(reader.position(), bytes.len(), "{bytes:?}");
        }
    }

    #[test]
    fn an_entry_has_its_figures_in_the_order_of_its_fields() {
        let entry = Entry {
            map: 1,
            kind: 2,
            station: 3,
            time: 0x0405,
            view: 6,
            class: 7,
            asked: 8,
            granted: 9,
            sender: 10,
            form: 0x0B0C,
        };
        let figures = [1, 2, 3, 4, 5, 6, 7, 8, 9, 10, 11, 12];
        assert_eq!(entry_figures(&entry), figures);
    }

    #[test]
    fn no_bytes_are_nothing_in_hex() {
        assert_eq!(Hex(&[]).to_string(), "");
        assert_eq!(Hex(&[0, 0x0A, 0xFF]).to_string(), "000aff");
    }
}
