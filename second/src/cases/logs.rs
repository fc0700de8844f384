//! Logs read and stepped from the fresh section.

use super::counts::no_entries_of;
use super::{Case, NO_ENTRIES, SESSION};
use crate::entry::{Entry, Kind};
use crate::generator::{self, bytes_of, Options};
use crate::section::Station::{A, B};
use crate::section::{Section, Station};

/// Entries of a log of the generator.
const ENTRIES: usize = 60;

/// Seeds of logs with refusals among their entries.
const SEEDS: [u64; 8] = [1, 2, 4, 7, 10, 13, 21, 34];

/// Seeds of logs that are accepted throughout.
const ACCEPTED_SEEDS: [u64; 4] = [5, 7, 9, 4];

pub(super) fn cases() -> Vec<Case> {
    let mut logs = vec![SESSION.concat(), Vec::new()];
    logs.extend(accepted().iter().map(|entries| written(entries)));
    logs.extend(GIVEN_UP.map(<[u8]>::to_vec));
    logs.extend(refused().iter().map(|entries| written(entries)));
    logs.push(edges());
    logs.extend(bytes_refused());
    logs.extend(cut());
    logs.extend(Station::BOTH.map(counted));
    logs.extend(generated());
    logs.push(written(&returns_while_holding()));
    logs.into_iter().map(|log| Case::Log { log }).collect()
}

fn written(entries: &[Entry]) -> Vec<u8> {
    entries.iter().flat_map(bytes_of).collect()
}

/// The same entries with the stations changed for one another. MEET names the
/// vehicle nearer A, so a list with one has no such mirror.
fn mirrored(entries: &[Entry]) -> Vec<Entry> {
    let other =
        |number: u8| Station::from_number(number).map_or(0, |station| station.other().number());
    let mirror = |entry: &Entry| {
        debug_assert_ne!(entry.kind, Kind::Meet.number());
        Entry {
            station: other(entry.station),
            sender: other(entry.sender),
            ..*entry
        }
    };
    entries.iter().map(mirror).collect()
}

/// Lists that are accepted throughout.
fn accepted() -> Vec<Vec<Entry>> {
    vec![
        every_kind(),
        trains_with_grants(),
        replies_ahead(),
        mirrored(&replies_ahead()),
        given_up(),
        mirrored(&given_up()),
        mirrored(&guests()),
        meetings(),
        meetings_of_one_sender(),
        taken_back(),
    ]
}

fn every_kind() -> Vec<Entry> {
    vec![
        Entry::begin(),
        Entry::open(A, 10, 1, 1, 2),
        Entry::receive(B, 70, A, 1),
        Entry::send_back(B, 75, 3, 2),
        Entry::receive(A, 95, B, 1),
        Entry::train(A, 96, 1, 0, 0),
        Entry::train(A, 126, 1, 1, 3),
        Entry::receive(B, 150, A, 2),
        Entry::receive(B, 180, A, 3),
        Entry::train(B, 181, 3, 0, 0),
        Entry::train(B, 211, 2, 0, 0),
        Entry::train(B, 241, 1, 0, 1),
        Entry::receive(A, 300, B, 2),
        Entry::receive(A, 300, B, 3),
        Entry::receive(A, 300, B, 4),
        Entry::last_train(A, 300, 1, 0, 0),
        Entry::receive(B, 300, A, 4),
        Entry::through(A, 330, 2),
        Entry::through(B, 330, 3),
        Entry::meet(B, A, 5),
        Entry::receive(B, 340, B, 5),
        Entry::receive(B, 340, A, 5),
        Entry::resume(),
        Entry::begin(),
        Entry::resume(),
    ]
}

/// Replies and enquiries ride with the last train of each series.
fn trains_with_grants() -> Vec<Entry> {
    vec![
        Entry::begin(),
        Entry::open(A, 0, 2, 2, 8),
        Entry::receive(B, 60, A, 1),
        Entry::send_back(B, 60, 8, 1),
        Entry::receive(A, 80, B, 1),
        // The only train, and it grants all that was asked.
        Entry::train(A, 80, 2, 7, 8),
        Entry::receive(B, 100, A, 2),
        Entry::train(B, 100, 3, 0, 0),
        Entry::train(B, 130, 1, 1, 0),
        Entry::train(B, 160, 2, 2, 0),
        Entry::train(B, 190, 3, 0, 0),
        Entry::train(B, 220, 1, 0, 0),
        Entry::train(B, 250, 1, 0, 0),
        Entry::train(B, 280, 1, 0, 0),
        // The last of eight grants fewer than were asked.
        Entry::train(B, 310, 1, 0, 6),
        Entry::receive(A, 200, B, 2),
        Entry::receive(A, 200, B, 3),
        Entry::receive(A, 200, B, 4),
        Entry::receive(A, 201, B, 5),
        Entry::receive(A, 202, B, 6),
        Entry::receive(A, 203, B, 7),
        Entry::receive(A, 204, B, 8),
        Entry::receive(A, 205, B, 9),
        // A holds 6 and stands asked for 2; the enquiry outlives this train.
        Entry::train(A, 205, 1, 5, 0),
        Entry::receive(B, 400, A, 3),
    ]
}

/// Replies that ride ahead of the last train of their series (T-02).
fn replies_ahead() -> Vec<Entry> {
    vec![
        Entry::begin(),
        Entry::open(A, 0, 1, 1, 3),
        Entry::receive(B, 0, A, 1),
        Entry::send_back(B, 0, 4, 3),
        Entry::receive(A, 0, B, 1),
        // The first of three grants four, and the last asks for two.
        Entry::train(A, 0, 1, 0, 4),
        Entry::train(A, 30, 1, 0, 0),
        // The four wait while B owes two and one.
        Entry::receive(B, 50, A, 2),
        Entry::receive(B, 50, A, 3),
        Entry::train(A, 60, 1, 2, 0),
        Entry::receive(B, 100, A, 4),
        // B holds four. The second of its trains grants two.
        Entry::train(B, 100, 1, 0, 0),
        Entry::train(B, 130, 1, 8, 2),
        Entry::receive(A, 90, B, 2),
        Entry::receive(A, 120, B, 3),
        // The two wait while A owes two, and end with the working.
        Entry::resume(),
        Entry::begin(),
        Entry::open(A, 0, 1, 1, 1),
        Entry::receive(B, 0, A, 1),
        Entry::send_back(B, 0, 0, 1),
        Entry::receive(A, 0, B, 1),
    ]
}

/// Line clears given up with the first train of a series, with one in its middle
/// and with its last (T-03).
fn given_up() -> Vec<Entry> {
    vec![
        Entry::begin(),
        Entry::open(A, 0, 1, 1, 8),
        Entry::receive(B, 0, A, 1),
        Entry::send_back(B, 0, 4, 8),
        Entry::receive(A, 0, B, 1),
        // All but one are given up; the reply for four is held at once.
        Entry::last_train(A, 0, 1, 5, 4),
        Entry::receive(B, 20, A, 2),
        // Of B's four the first grants three and the second is its last.
        Entry::train(B, 20, 1, 0, 3),
        Entry::last_train(B, 50, 2, 6, 0),
        // The three wait while A still owes, and no longer.
        Entry::receive(A, 40, B, 2),
        Entry::receive(A, 70, B, 3),
        Entry::train(A, 70, 1, 0, 0),
        Entry::train(A, 100, 1, 0, 0),
        // The third of three gives none up, and grants six.
        Entry::last_train(A, 130, 3, 0, 6),
        Entry::receive(B, 90, A, 3),
        Entry::receive(B, 120, A, 4),
        Entry::receive(B, 150, A, 5),
        // Five are given up, and end with the working.
        Entry::last_train(B, 150, 1, 0, 0),
        Entry::receive(A, 160, B, 4),
        Entry::open(A, 160, 1, 1, 1),
        Entry::receive(A, 160, A, 6),
        Entry::resume(),
    ]
}

/// Lists in which line clears given up stand in the sum of those owed, and in
/// which the last train releases what waits at the other end.
const GIVEN_UP: [&[u8]; 2] = [
    &[
        0x01, 0x01, //
        0x3F, 0x02, 0x01, 0x00, 0x00, 0x02, 0x05, 0x04, //
        0x87, 0x06, 0x02, 0x00, 0x01, 0x01, 0x00, 0x01, //
        0x47, 0x04, 0x02, 0x00, 0x02, 0x03, //
        0x87, 0x06, 0x01, 0x00, 0x01, 0x02, 0x00, 0x01, //
        0x2F, 0x09, 0x01, 0x00, 0x01, 0x03, 0x07,
    ],
    &[
        0x01, 0x01, //
        0x3F, 0x02, 0x01, 0x00, 0x03, 0x01, 0x02, 0x07, //
        0x87, 0x06, 0x02, 0x00, 0x01, 0x01, 0x00, 0x01, //
        0x67, 0x04, 0x02, 0x00, 0x01, 0x01, 0x07, //
        0x87, 0x06, 0x01, 0x00, 0x03, 0x02, 0x00, 0x01, //
        0x6F, 0x05, 0x01, 0x00, 0x03, 0x01, 0x05, 0x01, //
        0x87, 0x06, 0x02, 0x00, 0x03, 0x01, 0x00, 0x02, //
        0x0F, 0x09, 0x01, 0x00, 0x21, 0x01, //
        0x87, 0x06, 0x02, 0x00, 0x06, 0x01, 0x00, 0x03,
    ],
];

/// Openers of every class as guests, sent back with and without messages.
fn guests() -> Vec<Entry> {
    let mut entries = vec![Entry::begin()];
    let messages = [(0, 0), (0, 1), (3, 0), (8, 0), (2, 5)];
    let mut form = 1;
    for (class, (asked, granted)) in (1..=5).zip(messages) {
        let start = 100 * form;
        entries.extend([
            Entry::open(A, start, 1, class, class),
            Entry::receive(B, start, A, form),
            Entry::send_back(B, start + 5, asked, granted),
            Entry::receive(A, start + 50, B, form),
        ]);
        if granted == 1 {
            entries.extend([
                Entry::train(A, start + 50, 3, 0, 0),
                Entry::receive(B, start + 60, A, form + 1),
                // So that form numbers keep step at both stations.
                Entry::through(B, start + 60, 1),
                Entry::receive(A, start + 60, B, form + 1),
            ]);
            form += 1;
        }
        form += 1;
    }
    entries
}

fn meetings() -> Vec<Entry> {
    vec![
        Entry::begin(),
        Entry::open(A, 0, 1, 3, 1),
        Entry::open(B, 0, 2, 4, 8),
        Entry::meet(A, A, 1),
        Entry::receive(A, 40, A, 1),
        Entry::receive(A, 40, B, 1),
        Entry::send_back(A, 41, 0, 8),
        Entry::receive(B, 90, A, 2),
        Entry::resume(),
        Entry::begin(),
        Entry::open(A, 0, 3, 5, 2),
        Entry::through(B, 1, 1),
        Entry::meet(B, A, 1),
        Entry::receive(B, 9, B, 1),
        Entry::receive(B, 9, A, 1),
    ]
}

fn meetings_of_one_sender() -> Vec<Entry> {
    vec![
        Entry::begin(),
        Entry::through(A, 0, 1),
        Entry::through(A, 30, 1),
        Entry::through(B, 0, 1),
        Entry::meet(A, A, 1),
        // Two of A's that head towards one another.
        Entry::meet(B, A, 2),
        // Two that have met before.
        Entry::meet(B, A, 1),
        Entry::receive(B, 90, B, 1),
        Entry::receive(B, 90, A, 1),
        Entry::receive(B, 90, A, 2),
        Entry::resume(),
    ]
}

/// Openers and through engines that come back to where they left.
fn taken_back() -> Vec<Entry> {
    vec![
        Entry::begin(),
        Entry::through(A, 5, 3),
        Entry::through(A, 35, 2),
        Entry::open(A, 65, 1, 4, 3),
        Entry::receive(A, 66, A, 3),
        Entry::open(A, 66, 1, 4, 3),
        Entry::receive(A, 67, A, 4),
        Entry::receive(A, 67, A, 2),
        Entry::through(A, 67, 1),
        Entry::receive(B, 2, A, 1),
        Entry::receive(A, 68, A, 5),
        Entry::resume(),
    ]
}

/// Lists with refused entries.
fn refused() -> Vec<Vec<Entry>> {
    vec![
        refused_throughout(),
        mirrored(&refused_throughout()),
        refused_while_clears_wait(),
        refused_last_trains(),
        mirrored(&refused_last_trains()),
        refused_meetings(),
        twelve_of_each(),
    ]
}

fn refused_throughout() -> Vec<Entry> {
    let mut entries = Vec::new();
    // 7 for every kind but BEGIN.
    entries.extend([
        Entry::resume(),
        Entry::open(A, 1, 1, 1, 1),
        Entry::through(A, 1, 1),
        Entry::send_back(B, 1, 0, 0),
        Entry::train(B, 1, 1, 0, 0),
        Entry::receive(A, 1, B, 1),
        Entry::last_train(B, 1, 1, 0, 0),
    ]);
    // 6, and with an empty section 20, 14 and 15.
    entries.extend([
        Entry::begin(),
        Entry::begin(),
        Entry::receive(A, 0, A, 1),
        Entry::receive(A, 0, B, 1),
        Entry::send_back(A, 0, 0, 0),
        Entry::train(B, 0, 1, 0, 0),
    ]);
    // An opener is away: 8, 9, 10, 20.
    entries.extend([
        Entry::open(A, 10, 1, 2, 4),
        Entry::resume(),
        Entry::open(A, 9, 1, 1, 1),
        Entry::open(A, 10, 1, 1, 1),
        Entry::through(A, 50, 1),
        Entry::receive(A, 9, A, 1),
        Entry::receive(B, 0, B, 1),
        Entry::receive(B, 0, A, 2),
    ]);
    // It stands as a guest: 13, 15, 16, 9.
    entries.extend([
        Entry::receive(B, 70, A, 1),
        Entry::open(B, 70, 1, 1, 1),
        Entry::through(B, 70, 1),
        Entry::train(B, 70, 1, 0, 0),
        Entry::send_back(B, 70, 0, 5),
        Entry::send_back(B, 69, 0, 5),
    ]);
    // It is sent back: 14, 12, 21.
    entries.extend([
        Entry::send_back(B, 75, 3, 2),
        Entry::send_back(B, 105, 0, 0),
        Entry::open(B, 105, 1, 1, 1),
        Entry::through(B, 105, 1),
        Entry::receive(B, 105, B, 1),
    ]);
    // Line clears are held: 11, 14, 16, 19, 21, 15.
    entries.extend([
        Entry::receive(A, 95, B, 1),
        Entry::open(A, 95, 1, 1, 1),
        Entry::through(A, 95, 1),
        Entry::send_back(A, 95, 0, 0),
        Entry::train(A, 95, 1, 0, 4),
        // The reply goes ahead, and no other follows it while A owes.
        Entry::train(A, 95, 1, 0, 2),
        Entry::train(A, 124, 1, 0, 0),
        Entry::receive(A, 124, A, 2),
        Entry::train(A, 125, 1, 0, 1),
        Entry::train(A, 125, 1, 0, 0),
        Entry::train(A, 155, 1, 0, 0),
        Entry::resume(),
    ]);
    entries
}

/// A's first train of two carries a reply for two.
fn refused_while_clears_wait() -> Vec<Entry> {
    vec![
        Entry::begin(),
        Entry::open(A, 0, 1, 1, 2),
        Entry::receive(B, 0, A, 1),
        Entry::send_back(B, 0, 2, 2),
        Entry::receive(A, 0, B, 1),
        Entry::train(A, 0, 1, 0, 2),
        Entry::receive(B, 20, A, 2),
        // The two wait at B, which owes one more: 15 and 12.
        Entry::train(B, 20, 1, 0, 0),
        Entry::through(B, 20, 1),
        // A owes: 16.
        Entry::train(A, 30, 1, 0, 1),
        Entry::train(A, 30, 1, 0, 0),
        Entry::receive(B, 50, A, 3),
        // B holds them: 11.
        Entry::through(B, 50, 1),
        Entry::train(B, 50, 1, 0, 0),
    ]
}

/// Every refusal of a last train that a short log reaches, and what is refused
/// behind one.
fn refused_last_trains() -> Vec<Entry> {
    vec![
        // 7 and, in force, 15.
        Entry::last_train(A, 1, 1, 0, 0),
        Entry::begin(),
        Entry::last_train(A, 1, 1, 0, 0),
        Entry::open(A, 10, 1, 2, 4),
        Entry::receive(B, 70, A, 1),
        Entry::send_back(B, 75, 3, 4),
        Entry::receive(A, 95, B, 1),
        // A holds four and is asked for three: 9, 16, and 19 behind a train.
        Entry::last_train(A, 94, 1, 0, 3),
        Entry::last_train(A, 95, 1, 0, 4),
        Entry::train(A, 95, 1, 0, 2),
        Entry::last_train(A, 124, 1, 0, 0),
        // A owes two: 16. Without a reply it goes, and gives up two.
        Entry::last_train(A, 125, 1, 0, 1),
        Entry::last_train(A, 125, 1, 7, 0),
        // Nothing is held any more: 15, of either kind.
        Entry::train(A, 155, 1, 0, 0),
        Entry::last_train(A, 155, 1, 0, 0),
        // Its own may not come back: 21. B has to take the first one first: 20.
        Entry::receive(A, 155, A, 3),
        Entry::receive(B, 100, A, 3),
        Entry::receive(B, 100, A, 2),
        // Two wait at B, which still owes three: 15 and 12.
        Entry::last_train(B, 100, 1, 0, 0),
        Entry::through(B, 100, 1),
        Entry::receive(B, 150, A, 3),
        // B owes none and holds the two: 11.
        Entry::through(B, 150, 1),
        // It gives one up and brings no reply: 8, and 15 once it is in.
        Entry::last_train(B, 150, 1, 0, 0),
        Entry::resume(),
        Entry::receive(A, 200, B, 2),
        Entry::last_train(A, 200, 1, 0, 0),
    ]
}

/// Masters without a guest try to send one back, most of them while they hold line
/// clears, and then send the trains that these are for (T-08).
fn returns_while_holding() -> Vec<Entry> {
    vec![
        Entry::begin(),
        Entry::open(A, 10, 1, 2, 2),
        Entry::receive(B, 70, A, 1),
        // The guest is at B.
        Entry::send_back(A, 70, 0, 0),
        Entry::send_back(B, 75, 3, 2),
        Entry::receive(A, 95, B, 1),
        // A holds two and is asked for three: 9, and 14 with and without a reply.
        Entry::send_back(A, 94, 0, 0),
        Entry::send_back(A, 95, 0, 0),
        Entry::send_back(A, 95, 1, 3),
        Entry::send_back(A, 95, 0, 4),
        // What is held bars engines: 11.
        Entry::open(A, 95, 1, 1, 1),
        Entry::through(A, 95, 1),
        // One is left to A, and the interval runs.
        Entry::train(A, 96, 1, 0, 3),
        Entry::send_back(A, 97, 0, 0),
        Entry::train(A, 126, 1, 0, 0),
        Entry::send_back(A, 156, 0, 0),
        // At B three wait, and are held once its last train is in.
        Entry::receive(B, 150, A, 2),
        Entry::send_back(B, 150, 0, 0),
        Entry::receive(B, 180, A, 3),
        Entry::send_back(B, 180, 0, 0),
        Entry::train(B, 180, 2, 0, 0),
        Entry::last_train(B, 210, 3, 0, 0),
        Entry::receive(A, 200, B, 2),
        Entry::receive(A, 230, B, 3),
        // Nothing is held or owed any more.
        Entry::through(B, 240, 1),
    ]
}

fn refused_meetings() -> Vec<Entry> {
    vec![
        Entry::meet(A, A, 1),
        Entry::begin(),
        Entry::meet(A, A, 1),
        Entry::through(A, 0, 1),
        // No neighbour, then one that heads the same way.
        Entry::meet(A, A, 1),
        Entry::through(A, 30, 1),
        Entry::meet(A, A, 2),
        Entry::open(B, 0, 1, 1, 1),
        // Not present, and the one nearer B.
        Entry::meet(A, A, 3),
        Entry::meet(B, B, 1),
        Entry::meet(B, A, 1),
        Entry::meet(B, A, 1),
        // Both go to B now.
        Entry::receive(A, 40, A, 1),
        Entry::receive(B, 40, A, 1),
        Entry::receive(B, 40, B, 1),
        Entry::open(B, 40, 1, 1, 1),
        Entry::meet(A, A, 1),
        // Both go to A, A's second behind them still to B.
        Entry::receive(B, 40, B, 2),
        Entry::receive(A, 40, A, 1),
        Entry::meet(A, A, 2),
        Entry::receive(A, 40, A, 2),
        Entry::receive(A, 40, A, 1),
        Entry::receive(A, 40, B, 2),
        Entry::meet(A, A, 1),
    ]
}

/// Twelve through engines from each station, and a thirteenth from each.
fn twelve_of_each() -> Vec<Entry> {
    let mut entries = vec![Entry::begin()];
    for number in 0..=u16::from(Section::MOST_SENT) {
        let time = Section::INTERVAL * number;
        entries.push(Entry::through(A, time, 1));
        entries.push(Entry::through(B, time, 2));
    }
    entries.extend([
        Entry::meet(B, A, 1),
        Entry::receive(B, 400, B, 12),
        Entry::through(B, 400, 3),
        Entry::resume(),
    ]);
    entries
}

/// The edges of the document that a short log reaches.
fn edges() -> Vec<u8> {
    let mut log = bytes_of(&Entry::begin());
    // (a) and (b)
    log.push(0);
    for asked in [9, 0, 8] {
        log.extend([0x3F, 2, 2, 0, 10, 3, 4, asked]);
    }
    let entries = [
        // (j) was the last of them. (l) takes it back; (c) on the way.
        Entry::receive(B, 9, B, 1),
        Entry::receive(B, 10, B, 1),
        Entry::open(B, 10, 1, 1, 3),
        // (k), then (g) with three asked for.
        Entry::send_back(A, 0, 0, 0),
        Entry::receive(A, 0, B, 2),
        Entry::send_back(A, 0, 0, 4),
        Entry::send_back(A, 0, 0, 3),
        Entry::receive(B, 10, A, 1),
        // (i): nothing in the section, and three line clears owed.
        Entry::resume(),
        Entry::begin(),
        // (d)
        Entry::through(A, 100, 1),
        Entry::through(A, 129, 1),
        Entry::through(A, 130, 1),
        Entry::receive(B, 0, A, 1),
        Entry::receive(B, 0, A, 2),
        Entry::resume(),
        Entry::begin(),
        // (h)
        Entry::open(A, 0, 1, 1, 1),
        Entry::open(B, 0, 1, 1, 1),
        Entry::meet(B, A, 1),
        Entry::receive(A, 40, A, 1),
        Entry::receive(B, 40, A, 1),
        Entry::receive(B, 40, B, 1),
    ];
    log.extend(written(&entries));
    log
}

/// The session with bytes that are no entry between its entries, and bytes that
/// are no entry alone.
fn bytes_refused() -> Vec<Vec<u8>> {
    let strewn = NO_ENTRIES.chunks(SESSION.len()).map(|bad| {
        let pairs = bad.iter().zip(SESSION);
        pairs
            .flat_map(|((_, bad), good)| [good, bad].concat())
            .collect()
    });
    let alone = NO_ENTRIES
        .iter()
        .flat_map(|(_, bad)| bad.to_vec())
        .collect();
    strewn.chain([alone]).collect()
}

fn cut() -> Vec<Vec<u8>> {
    let session = SESSION.concat();
    let mut logs: Vec<Vec<u8>> = [1, 9, 27, 49]
        .iter()
        .map(|&length| session[..length].to_vec())
        .collect();
    // 1 comes before 2, 3 and 4; and behind bytes refused with them.
    logs.extend([
        vec![0x01, 1, 0x02],
        vec![0x01, 1, 0x03, 9],
        vec![0x01, 1, 0x07, 4, 3, 0],
        vec![0x00, 0x01, 2, 0x07, 4, 3, 0, 10, 0x80],
    ]);
    logs
}

/// Refused entries of A, of B and of no station, another number of each, and a
/// cut end that shows a station.
fn counted(cut_at: Station) -> Vec<u8> {
    let mut log = written(&[
        // 7
        Entry::meet(A, A, 1),
        Entry::meet(B, A, 1),
        Entry::train(A, 0, 1, 0, 0),
        Entry::receive(B, 0, A, 1),
        Entry::begin(),
        // 15, 14, 20 and 22
        Entry::train(B, 0, 1, 0, 0),
        Entry::send_back(B, 0, 0, 0),
        Entry::receive(A, 0, B, 1),
        Entry::receive(B, 0, B, 1),
        Entry::meet(A, A, 1),
        Entry::meet(B, B, 1),
        // Both keep the counts.
        Entry::resume(),
        Entry::begin(),
    ]);
    for station in Station::BOTH {
        let [_, whole @ ..] = no_entries_of(station);
        log.extend(whole.concat());
    }
    let [cut, ..] = no_entries_of(cut_at);
    log.extend(cut);
    log
}

fn generated() -> Vec<Vec<u8>> {
    let strewn = SEEDS.map(|seed| generator::log(seed, ENTRIES, Options::default()));
    let accepted = ACCEPTED_SEEDS.map(|seed| {
        let options = Options {
            accepted: true,
            full: seed == ACCEPTED_SEEDS[3],
            ..Options::default()
        };
        generator::log(seed, ENTRIES, options)
    });
    strewn.into_iter().chain(accepted).collect()
}

#[cfg(test)]
mod tests {
    use super::*;
    use crate::log::Run;
    use crate::section::Refused;

    fn answers(log: &[u8]) -> Vec<(u8, u8)> {
        Run::new(log)
            .map(|line| {
                (
                    line.kind(),
                    line.answer.map_or_else(|no| no.number(), |_| 0),
                )
            })
            .collect()
    }

    #[test]
    fn the_accepted_lists_are_accepted_throughout() {
        for entries in accepted() {
            let answers = answers(&written(&entries));
            assert!(answers.iter().all(|answer| answer.1 == 0), "{answers:?}");
        }
        let mut kinds: Vec<u8> = every_kind().iter().map(|entry| entry.kind).collect();
        kinds.sort_unstable();
        kinds.dedup();
        assert_eq!(kinds, [1, 2, 3, 4, 5, 6, 7, 8, 9]);
    }

    #[test]
    fn the_refused_lists_are_refused_as_their_comments_say() {
        let numbers = |entries: &[Entry]| -> Vec<u8> {
            answers(&written(entries))
                .iter()
                .map(|answer| answer.1)
                .collect()
        };
        let throughout = [
            7, 7, 7, 7, 7, 7, 7, 0, 6, 20, 20, 14, 15, 0, 8, 9, 10, 10, 9, 20, 20, 0, 13, 13, 15,
            16, 9, 0, 14, 12, 12, 21, 0, 11, 11, 14, 16, 0, 19, 21, 16, 0, 15, 8,
        ];
        assert_eq!(numbers(&refused_throughout()), throughout);
        assert_eq!(numbers(&mirrored(&refused_throughout())), throughout);
        let waiting = [0, 0, 0, 0, 0, 0, 0, 15, 12, 16, 0, 0, 11, 0];
        assert_eq!(numbers(&refused_while_clears_wait()), waiting);
        let last_trains = [
            7, 0, 15, 0, 0, 0, 0, 9, 16, 0, 19, 16, 0, 15, 15, 21, 20, 0, 15, 12, 0, 11, 0, 8, 0,
            15,
        ];
        assert_eq!(numbers(&refused_last_trains()), last_trains);
        assert_eq!(numbers(&mirrored(&refused_last_trains())), last_trains);
        let returns = [
            0, 0, 0, 14, 0, 0, 9, 14, 14, 14, 11, 11, 0, 14, 0, 14, 0, 14, 0, 14, 0, 0, 0, 0, 0,
        ];
        assert_eq!(numbers(&returns_while_holding()), returns);
        let meetings = [
            7, 0, 22, 0, 22, 0, 22, 0, 22, 22, 0, 22, 20, 20, 0, 0, 0, 21, 20, 0, 0, 0, 0, 22,
        ];
        assert_eq!(numbers(&refused_meetings()), meetings);
        let twelve = numbers(&twelve_of_each());
        assert!(twelve[..25].iter().all(|&answer| answer == 0));
        assert_eq!(twelve[25..], [17, 17, 0, 0, 0, 8]);
    }

    /// Line clears waiting at A and at B after each entry.
    fn waiting(log: &[u8]) -> Vec<(u8, u8)> {
        let mut run = Run::new(log);
        let mut waiting = Vec::new();
        while run.next().is_some() {
            let [a, b] = &run.section().desks;
            waiting.push((a.waiting, b.waiting));
        }
        waiting
    }

    #[test]
    fn clears_wait_at_the_other_end_until_its_last_train_is_in() {
        let mut expected = vec![(0, 0); 21];
        expected[7..=9].fill((0, 4));
        expected[14] = (2, 0);
        assert_eq!(waiting(&written(&replies_ahead())), expected);
        let mirror = expected.iter().map(|&(a, b)| (b, a)).collect::<Vec<_>>();
        assert_eq!(waiting(&written(&mirrored(&replies_ahead()))), mirror);
        let mut expected = vec![(0, 0); 14];
        expected[6..=10].fill((0, 2));
        let list = written(&refused_while_clears_wait());
        assert_eq!(waiting(&list), expected);
    }

    /// Line clears given up on their way to A and to B after each entry.
    fn given_up_towards(log: &[u8]) -> Vec<(u8, u8)> {
        let mut run = Run::new(log);
        let mut given_up = Vec::new();
        while run.next().is_some() {
            let section = run.section();
            let sum = |sender| section.sent_by(sender).map(|train| train.given_up).sum();
            given_up.push((sum(B), sum(A)));
        }
        given_up
    }

    #[test]
    fn clears_are_given_up_until_the_last_train_is_in() {
        let mut expected = vec![(0, 0); 22];
        expected[5] = (0, 7);
        expected[8..=9].fill((2, 0));
        expected[17] = (5, 0);
        assert_eq!(given_up_towards(&written(&given_up())), expected);
        let mut expected = vec![(0, 0); 22];
        expected[9] = (3, 0);
        assert_eq!(waiting(&written(&given_up())), expected);
        let [first, second] = GIVEN_UP.map(given_up_towards);
        assert_eq!(first, [(0, 0), (0, 0), (0, 0), (0, 0), (0, 0), (0, 2)]);
        assert_eq!(second[7..], [(0, 5), (0, 0)]);
        assert_eq!(waiting(GIVEN_UP[1])[6..], [(0, 1), (0, 1), (0, 0)]);
    }

    #[test]
    fn the_edges_are_answered_as_the_document_says() {
        let numbers: Vec<u8> = answers(&edges()).iter().map(|answer| answer.1).collect();
        let expected = [
            0, 2, 4, 4, 0, 9, 0, 0, 14, 0, 16, 0, 0, 0, 0, 0, 19, 0, 0, 0, 0, 0, 0, 0, 0, 21, 20, 0,
        ];
        assert_eq!(numbers, expected);
    }

    #[test]
    fn cut_logs_end_with_1() {
        for log in cut() {
            let last = *answers(&log).last().unwrap();
            assert_eq!(last, (0, 1), "{log:?}");
        }
    }

    #[test]
    fn counted_logs_have_refused_entries_of_each_sort() {
        let expected = [
            7, 7, 7, 7, 0, 15, 14, 20, 20, 22, 22, 0, 0, 2, 3, 4, 2, 3, 4, 1,
        ];
        for station in Station::BOTH {
            let log = counted(station);
            let numbers: Vec<u8> = answers(&log).iter().map(|answer| answer.1).collect();
            assert_eq!(numbers, expected);
            let refused = Refused {
                for_a: 2,
                for_b: 4,
                of_none: 11,
            };
            assert_eq!(Run::new(&log).finish().refused, refused);
        }
    }

    #[test]
    fn generated_logs_are_as_wished_for() {
        let logs = generated();
        let mut refusals = 0;
        for log in &logs[..SEEDS.len()] {
            let answers = answers(log);
            assert_eq!(answers.len(), ENTRIES);
            refusals += answers.iter().filter(|answer| answer.1 > 0).count();
        }
        assert!(refusals > 50, "{refusals}");
        for log in &logs[SEEDS.len()..] {
            let answers = answers(log);
            assert_eq!(answers.len(), ENTRIES);
            assert!(answers.iter().all(|answer| answer.1 == 0));
        }
        let clears_wait = |log: &&Vec<u8>| waiting(log).iter().any(|&clears| clears != (0, 0));
        let with_clears_waiting = logs.iter().filter(clears_wait).count();
        assert!(with_clears_waiting >= 5, "{with_clears_waiting}");
        let clears_given_up =
            |log: &&Vec<u8>| given_up_towards(log).iter().any(|&clears| clears != (0, 0));
        let with_clears_given_up = logs.iter().filter(clears_given_up).count();
        assert!(with_clears_given_up >= 5, "{with_clears_given_up}");
    }
}
