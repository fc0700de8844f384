//! The figures, the listing and the count of entries taken are those of the
//! second program, on thousands of logs: generated, damaged, noise.

use quick::{list, room, run, taken, LONGEST_LOG};
use second::generator::{log, Options};
use second::random::Random;
use second::{Reader, Refusal, Run};

/// What stands in a buffer before it is lent.
const BEFORE: u8 = 0xAA;

fn figures_by_second(log: &[u8]) -> [u64; 10] {
    let entries = Run::new(log).count() as u64;
    let section = Run::new(log).finish();
    let [a, b] = &section.desks;
    [
        entries,
        entries - section.refused.total(),
        section.refused.for_a.into(),
        section.refused.for_b.into(),
        section.refused.of_none.into(),
        section.present as u64,
        a.holds.into(),
        a.owes.into(),
        b.holds.into(),
        b.owes.into(),
    ]
}

fn taken_by_second(log: &[u8]) -> usize {
    let mut reader = Reader::new(log);
    std::iter::from_fn(|| reader.read())
        .take_while(|read| *read != Err(Refusal::Cut))
        .filter(Result::is_ok)
        .count()
}

/// Compares all three on one log.
fn same(log: &[u8]) {
    assert_eq!(run(log), figures_by_second(log), "figures of {log:02x?}");
    assert_eq!(taken(log), taken_by_second(log), "taken of {log:02x?}");
    let mut out = vec![BEFORE; room(log.len().min(LONGEST_LOG))];
    let len = list(log, &mut out).expect("room");
    assert_eq!(
        String::from_utf8_lossy(&out[..len]),
        second::list(log),
        "listing of {log:02x?}"
    );
}

/// The sorts of generated logs.
fn sorts() -> [Options; 4] {
    [(false, false), (true, false), (false, true), (true, true)].map(|(accepted, full)| Options {
        accepted,
        full,
        ..Options::default()
    })
}

/// One byte in some fifty is another.
fn with_other_bytes(mut log: Vec<u8>, random: &mut Random) -> Vec<u8> {
    for byte in &mut log {
        if random.chance(2) {
            *byte = random.byte();
        }
    }
    log
}

/// One bit in some hundred bytes is another, so that most fields stay near
/// their ranges.
fn with_other_bits(mut log: Vec<u8>, random: &mut Random) -> Vec<u8> {
    for byte in &mut log {
        if random.chance(1) {
            *byte ^= 1 << random.below(8);
        }
    }
    log
}

/// Some bytes are lost, so that what follows is read askew.
fn with_a_gap(mut log: Vec<u8>, random: &mut Random) -> Vec<u8> {
    let from = random.below(log.len() as u32 + 1) as usize;
    let to = log.len().min(from + random.below(10) as usize);
    log.drain(from..to);
    log
}

fn cut(mut log: Vec<u8>, random: &mut Random) -> Vec<u8> {
    log.truncate(random.below(log.len() as u32 + 1) as usize);
    log
}

/// Compares a log as it is and damaged in each way.
fn same_though_damaged(log: Vec<u8>, random: &mut Random) {
    same(&log);
    same(&with_other_bytes(log.clone(), random));
    same(&with_other_bits(log.clone(), random));
    same(&with_a_gap(log.clone(), random));
    same(&cut(log, random));
}

#[test]
fn generated_and_damaged_logs() {
    let mut random = Random::new(1);
    for seed in 0..240 {
        for options in sorts() {
            let entries = random.below(240) as usize;
            same_though_damaged(log(seed, entries, options), &mut random);
        }
    }
}

/// Whether line clears wait in some state of the log.
fn clears_wait_in(log: &[u8]) -> bool {
    let mut run = Run::new(log);
    while run.next().is_some() {
        if run.section().desks.iter().any(|desk| desk.waiting > 0) {
            return true;
        }
    }
    false
}

/// Replies are sent ahead of the last train. A section that is kept full has no
/// trains to send them with.
#[test]
fn logs_in_which_line_clears_wait() {
    let mut random = Random::new(4);
    let mut waiting = 0;
    for seed in 1_000..1_300 {
        for options in sorts().into_iter().filter(|options| !options.full) {
            let log = log(seed, 300, options);
            if clears_wait_in(&log) {
                waiting += 1;
                same_though_damaged(log, &mut random);
            }
        }
    }
    assert!(waiting > 400, "{waiting}");
}

/// Whether line clears are given up in some state of the log.
fn clears_given_up_in(log: &[u8]) -> bool {
    let mut run = Run::new(log);
    while run.next().is_some() {
        if run
            .section()
            .vehicles()
            .iter()
            .any(|train| train.given_up > 0)
        {
            return true;
        }
    }
    false
}

/// Trains are endorsed as the last while more line clears are held.
#[test]
fn logs_in_which_line_clears_are_given_up() {
    let mut random = Random::new(5);
    let mut given_up = 0;
    for seed in 2_000..2_300 {
        for options in sorts().into_iter().filter(|options| !options.full) {
            let log = log(seed, 300, options);
            if clears_given_up_in(&log) {
                given_up += 1;
                same_though_damaged(log, &mut random);
            }
        }
    }
    assert!(given_up > 400, "{given_up}");
}

/// The trains of a log as they are, and endorsed as the last and the other way
/// round at random, so that they leave with any number held and find any owed.
#[test]
fn logs_with_trains_endorsed_otherwise() {
    let mut random = Random::new(6);
    for seed in 3_000..3_300 {
        let mut log = log(seed, 300, Options::default());
        let mut start = 0;
        while start + 1 < log.len() {
            if matches!(log[start] & !0x60, 0x0F) && random.chance(20) {
                log[start + 1] = random.pick(&[5, 9, 9, 10]);
            }
            start += second::entry_length(log[start]);
        }
        same(&log);
    }
}

#[test]
fn noise() {
    let mut random = Random::new(2);
    for _ in 0..3_000 {
        let len = random.below(200) as usize;
        same(&(0..len).map(|_| random.byte()).collect::<Vec<_>>());
    }
}

/// Entries of every map that is one of some kind, their fields from just below
/// the ranges to just above, in force and not.
#[test]
fn entries_at_their_ranges() {
    const MAPS: [u8; 17] = [
        0x01, 0x3F, 0x1F, 0x07, 0x27, 0x47, 0x67, 0x0F, 0x2F, 0x4F, 0x6F, 0x0F, 0x2F, 0x4F, 0x6F,
        0x87, 0x83,
    ];
    const KINDS: [u8; 17] = [1, 2, 3, 4, 4, 4, 4, 5, 5, 5, 5, 9, 9, 9, 9, 6, 7];
    let mut random = Random::new(3);
    for _ in 0..3_000 {
        let mut log = if random.chance(80) {
            vec![1, 1]
        } else {
            Vec::new()
        };
        for _ in 0..random.below(30) {
            let which = random.below(17) as usize;
            let map = MAPS[which];
            let kind = if random.chance(90) {
                KINDS[which]
            } else {
                random.small(0, 11)
            };
            let most = random.pick(&[1, 2, 3, 9]);
            log.extend([map, kind]);
            log.extend((2..second::entry_length(map)).map(|_| random.small(0, most)));
        }
        same(&log);
    }
}

/// Every kind with every map, all its fields 1, while trains may leave and while
/// nothing is in force.
#[test]
fn every_kind_with_every_map() {
    let opened: [&[u8]; 5] = [
        &[1, 1],
        &[0x3F, 2, 1, 0, 0, 1, 1, 8],
        &[0x87, 6, 2, 0, 0, 1, 0, 1],
        &[0x67, 4, 2, 0, 0, 8, 8],
        &[0x87, 6, 1, 0, 0, 2, 0, 1],
    ];
    for map in 0..=u8::MAX {
        for kind in 0..=u8::MAX {
            let mut entry = vec![1; second::entry_length(map)];
            entry[0] = map;
            if let Some(second) = entry.get_mut(1) {
                *second = kind;
            }
            same(&[&opened.concat(), &entry[..]].concat());
            same(&entry);
        }
    }
}

/// Form numbers at the ends of their range.
#[test]
fn form_numbers() {
    for number in [0, 1, 2, 9_998, 9_999, 10_000, 32_767, 32_768, 65_535_u16] {
        let [high, low] = number.to_be_bytes();
        for sender in 0..4 {
            same(&[1, 1, 0x87, 6, 1, 0, 0, sender, high, low]);
            same(&[1, 1, 0x83, 7, 1, sender, high, low]);
        }
    }
}

#[test]
fn all_logs_of_up_to_two_bytes() {
    same(&[]);
    for first in 0..=u8::MAX {
        same(&[first]);
        for second in 0..=u8::MAX {
            same(&[first, second]);
        }
    }
}

#[test]
fn zero_bytes() {
    for len in (0..40).chain([9_999, 10_000, LONGEST_LOG - 1, LONGEST_LOG]) {
        same(&vec![0; len]);
    }
}

#[test]
fn logs_of_the_longest_length() {
    for options in sorts() {
        let options = Options {
            bytes: Some(LONGEST_LOG),
            ..options
        };
        same(&log(1, LONGEST_LOG, options));
    }
}

#[test]
fn logs_too_long() {
    same(&vec![0; LONGEST_LOG + 1]);
    let mut out = [BEFORE; 5];
    assert_eq!(list(&vec![1; LONGEST_LOG + 1], &mut out[..4]), None);
    assert_eq!(out, [BEFORE; 5]);
}

/// Nearly all forms of a station are used up, which takes a log too long to be
/// listed.
#[test]
fn worn_logs() {
    for (seed, options) in sorts().into_iter().enumerate() {
        let options = Options {
            worn: true,
            ..options
        };
        same(&log(seed as u64, 400, options));
    }
}

#[test]
fn a_buffer_too_short_is_left_alone() {
    let log = log(1, 100, Options::default());
    let mut out = vec![BEFORE; room(log.len()) - 1];
    assert_eq!(list(&log, &mut out), None);
    assert!(out.iter().all(|&byte| byte == BEFORE));
}
