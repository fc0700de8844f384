//! Runs the proved library and the second program on the same logs and on the
//! same calls for positions, in memory, and stops at the first difference.

mod shared;

use std::process::ExitCode;

use lupinshift::{Figures, Listing, FIGURES, LONGEST_LINE, LONGEST_LOG};
use second::calls::{Call, Calls};
use second::generator::{log, Options};
use second::random::Random;
use second::Run;
use shared::{figures_of, sorts, taken_of};

const USAGE: &str = "usage: compare LOGS";

/// What stands in a buffer before it is lent.
const BEFORE: u8 = 0xAA;

fn main() -> ExitCode {
    let mut words = std::env::args().skip(1);
    let count = words.next().and_then(|word| word.parse::<u64>().ok());
    let (Some(count), None) = (count, words.next()) else {
        eprintln!("{USAGE}");
        return ExitCode::from(2);
    };
    let mut random = Random::new(count);
    let (mut bytes, mut entries) = (0, 0);
    for seed in 0..count {
        let log = any_log(seed, &mut random);
        match compare(&log, &mut random) {
            Ok(more) => entries += more,
            Err(what) => {
                eprintln!("compare: log {seed} of {count} differs in {what}: {log:02x?}");
                return ExitCode::FAILURE;
            }
        }
        bytes += log.len();
    }
    println!("compare: {count} logs, {bytes} bytes, {entries} entries: no difference");
    let calls = Calls::new(count).take(usize::try_from(count).unwrap_or(usize::MAX));
    for (number, call) in calls.enumerate() {
        if !same_call(&call) {
            eprintln!("compare: call {number} of {count} differs: {call:?}");
            return ExitCode::FAILURE;
        }
    }
    println!("compare: {count} calls for positions: no difference");
    ExitCode::SUCCESS
}

/// The same answer, and the same in every buffer after it.
fn same_call(call: &Call) -> bool {
    let (mut proved, mut second) = (call.clone(), call.clone());
    made(&mut proved) == second.run() && proved == second
}

/// Makes a call of the proved library, in the call's own buffers.
fn made(call: &mut Call) -> u32 {
    let done = match call {
        Call::Store {
            shelf,
            name,
            position,
        } => lupinshift::store(shelf, name, position),
        Call::Fetch {
            shelf,
            name,
            buffer,
        } => lupinshift::fetch(shelf, name, buffer),
        Call::Step {
            position,
            entry,
            answer,
        } => lupinshift::step(position, entry, answer),
        Call::Write { fields, bytes } => lupinshift::write_entry(fields, bytes),
        Call::Read { bytes, fields } => lupinshift::read_entry(bytes, fields),
        Call::Length { map } => return lupinshift::entry_length(*map) as u32,
    };
    done.err().unwrap_or(0)
}

/// A log of one of ten sorts in turn: generated, damaged, random bytes, at the
/// longest length or just over it.
fn any_log(seed: u64, random: &mut Random) -> Vec<u8> {
    let entries = random.below(600) as usize;
    let [plain, accepted, full] = sorts(None);
    match seed % 10 {
        0..=2 => log(seed, entries, plain),
        3 => log(seed, entries, accepted),
        4 | 5 => log(seed, entries, full),
        6 => damaged(log(seed, entries, plain), random),
        7 => damaged(log(seed, entries, full), random),
        8 => random_bytes(random.below(2_000) as usize, random),
        _ if seed % 400 == 9 => log(
            seed,
            200,
            Options {
                worn: true,
                ..plain
            },
        ),
        _ if seed % 200 == 19 => long_log(seed, random),
        _ => random_bytes(random.below(12) as usize, random),
    }
}

fn random_bytes(len: usize, random: &mut Random) -> Vec<u8> {
    (0..len).map(|_| random.byte()).collect()
}

/// One byte in some fifty is another.
fn damaged(mut log: Vec<u8>, random: &mut Random) -> Vec<u8> {
    for byte in &mut log {
        if random.chance(2) {
            *byte = random.byte();
        }
    }
    log
}

/// A log of about the longest length: one byte less, as long, or one more.
fn long_log(seed: u64, random: &mut Random) -> Vec<u8> {
    let bytes = LONGEST_LOG - 1 + random.below(3) as usize;
    let [plain, ..] = sorts(Some(bytes));
    let made = log(seed, bytes, plain);
    if random.chance(50) {
        made
    } else {
        vec![0; bytes]
    }
}

/// The entries of the log, or what differs.
fn compare(log: &[u8], random: &mut Random) -> Result<u64, &'static str> {
    let listing = second::list(log).into_bytes();
    if lupinshift::list(log) != listing {
        return Err("the listing");
    }
    if !whole(log, &listing) {
        return Err("the whole listing in one buffer");
    }
    if !in_blocks(log, &listing, random) {
        return Err("the listing in blocks");
    }
    let last = listing.split_inclusive(|&byte| byte == b'\n').next_back();
    if !ends(log, last.unwrap_or_default(), random) {
        return Err("the last line");
    }
    let figures = figures_of(log);
    if !figured(log, figures) {
        return Err("the figures");
    }
    if lupinshift::answer(log) != answer_of(log) {
        return Err("the last answer");
    }
    if lupinshift::taken(log) != taken_of(log) {
        return Err("the entries taken");
    }
    Ok(figures.entries)
}

/// What a buffer of so many bytes holds with the text at its front.
fn before(text: &[u8], room: usize) -> Vec<u8> {
    let mut out = vec![BEFORE; room];
    out[..text.len()].copy_from_slice(text);
    out
}

/// The listing in a buffer with just the room, and nothing in one with a byte
/// less.
fn whole(log: &[u8], listing: &[u8]) -> bool {
    let room = lupinshift::listing_room(log.len());
    let mut out = vec![BEFORE; room];
    let refused = lupinshift::list_into(log, &mut out[..room - 1]).is_none();
    refused
        && out == before(&[], room)
        && lupinshift::list_into(log, &mut out) == Some(listing.len())
        && out == before(listing, room)
}

/// The listing in blocks, each of another length; those with no room for a line
/// take nothing.
fn in_blocks(log: &[u8], listing: &[u8], random: &mut Random) -> bool {
    let mut proved = Listing::new(log);
    let mut rest = listing;
    loop {
        let room = random.below(4 * LONGEST_LINE as u32) as usize;
        let text = &rest[..put_in(rest, room)];
        let mut out = vec![BEFORE; room];
        if proved.fill(&mut out) != text.len() || out != before(text, room) {
            return false;
        }
        if rest.is_empty() && room >= LONGEST_LINE {
            return true;
        }
        rest = &rest[text.len()..];
    }
}

/// How many bytes of a listing a block takes: whole lines, as long as there is
/// room for the longest.
fn put_in(rest: &[u8], room: usize) -> usize {
    let mut put = 0;
    for line in rest.split_inclusive(|&byte| byte == b'\n') {
        if room - put < LONGEST_LINE {
            break;
        }
        put += line.len();
    }
    put
}

/// The last line where the buffer has room for the longest, else nothing.
fn ends(log: &[u8], line: &[u8], random: &mut Random) -> bool {
    let room = random.below(2 * LONGEST_LINE as u32) as usize;
    let line = if room < LONGEST_LINE { &[] } else { line };
    let mut out = vec![BEFORE; room];
    let count = lupinshift::end_into(log, &mut out);
    count == (room >= LONGEST_LINE).then_some(line.len()) && out == before(line, room)
}

/// The figures by name, and in order before a place that keeps its value; or
/// none, of a log that is too long and where there are fewer places.
fn figured(log: &[u8], figures: Figures) -> bool {
    let mut few = [7; FIGURES - 1];
    let mut more = [7; FIGURES + 1];
    let refused = lupinshift::figures_into(log, &mut few).is_none() && few == [7; FIGURES - 1];
    let given = lupinshift::figures_into(log, &mut more);
    let named = lupinshift::figures(log);
    if log.len() > LONGEST_LOG {
        return refused && given.is_none() && more == [7; FIGURES + 1] && named.is_none();
    }
    let [in_order @ .., behind] = more;
    refused
        && given == Some(FIGURES)
        && in_order == figures.in_order()
        && behind == 7
        && named == Some(figures)
}

/// The number of the refusal that answers the last entry, by the second
/// program.
fn answer_of(log: &[u8]) -> u32 {
    let refusal = Run::new(log).last().and_then(|line| line.answer.err());
    refusal.map_or(0, |why| why.number().into())
}
