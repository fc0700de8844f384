//! Readers at any position of a log.

use super::{Case, LONGEST, NO_ENTRIES, SESSION};

pub(super) fn cases() -> Vec<Case> {
    let mut cases: Vec<Case> = logs()
        .iter()
        .flat_map(|log| at_every_position(log))
        .collect();
    cases.extend(in_the_longest_log());
    cases
}

fn logs() -> Vec<Vec<u8>> {
    let session = SESSION.concat();
    let no_entries: Vec<u8> = NO_ENTRIES[..9]
        .iter()
        .flat_map(|(_, bytes)| bytes.to_vec())
        .collect();
    vec![
        Vec::new(),
        vec![0x00],
        vec![0x01],
        vec![0x01, 0x01],
        // Whole, and cut inside the last entry of three.
        session.clone(),
        session[..17].to_vec(),
        // Bytes that are no entry, whole and cut.
        [&no_entries[..], &[0x01, 0x08]].concat(),
        [&[0x01, 0x01], &no_entries[..20]].concat(),
        // The longest entries, of which none is one.
        NO_ENTRIES[12..15]
            .iter()
            .flat_map(|(_, bytes)| bytes.to_vec())
            .collect(),
        last_trains(),
    ]
}

/// Kind 9 with each of its maps, then with another map, with a field out of its
/// range, and cut; and the kinds beside it.
fn last_trains() -> Vec<u8> {
    let entries: [&[u8]; 9] = [
        &[0x0F, 9, 1, 0, 10, 1],
        &[0x2F, 9, 2, 0, 10, 2, 8],
        &[0x4F, 9, 1, 0, 10, 3, 1],
        &[0x6F, 9, 2, 0xFF, 0xFF, 1, 1, 8],
        &[0x07, 9, 1, 0, 10],
        &[0x0F, 9, 1, 0, 10, 4],
        &[0x0F, 8, 1, 0, 10, 1],
        &[0x0F, 10, 1, 0, 10, 1],
        &[0x0F, 9, 1, 0, 10],
    ];
    entries.concat()
}

fn at_every_position(log: &[u8]) -> Vec<Case> {
    every_position(log)
        .map(|position| Case::Read {
            position,
            log: log.to_vec(),
        })
        .collect()
}

/// At the start, at the start of an entry or inside it, at the end, just past
/// the end and far past it.
pub(super) fn every_position(log: &[u8]) -> impl Iterator<Item = u16> {
    let end = log.len() as u16;
    (0..=end + 2).chain([end + 256, u16::MAX])
}

fn in_the_longest_log() -> Vec<Case> {
    let log: Vec<u8> = SESSION.concat().into_iter().cycle().take(LONGEST).collect();
    let end = LONGEST as u16;
    [0, 4_050, end - 1, end, end + 1]
        .map(|position| Case::Read {
            position,
            log: log.clone(),
        })
        .into()
}
