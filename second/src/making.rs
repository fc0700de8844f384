//! What the generators of both lines have in common: the mixture of a log, and
//! the ways in which times are found and bytes are spoiled.

use crate::entry::{entry_length, laid_out, Entry, Kind, Table, LONGEST_ENTRY};
use crate::random::Random;
use crate::section::Section;

/// Makes one entry after another, with a look at a section kept beside the log.
pub(crate) trait Maker {
    /// The table by which its entries are written.
    const TABLE: &'static Table;

    /// Its source of random numbers.
    fn random(&mut self) -> &mut Random;

    /// Whether only entries are wished for that the section accepts.
    fn accepted_only(&self) -> bool;

    /// Whether the working of the section beside the log is in force.
    fn in_force(&self) -> bool;

    /// Steps the section beside the log. Whether it is accepted is for those to
    /// see who read the log.
    fn step(&mut self, bytes: &[u8]);

    /// An entry that the section accepts.
    fn likely_entry(&mut self) -> Entry;

    /// A likely entry with one figure altered to its edge or beyond it.
    fn spoiled_entry(&mut self) -> Entry;

    /// An entry with every field in its range, made without regard to what the
    /// section allows.
    fn blind_entry(&mut self) -> Entry;

    /// Bytes as long as their map says that are no entry.
    fn no_entry(&mut self) -> Vec<u8>;

    /// The bytes of one more entry of a log, whole though perhaps refused.
    fn make_entry(&mut self) -> Vec<u8> {
        let bytes = self.whole_bytes();
        self.step(&bytes);
        bytes
    }

    /// The bytes of one more step of a list, in which, other than in a log,
    /// cut bytes may stand anywhere.
    fn make_step(&mut self) -> Vec<u8> {
        if self.accepted_only() || !self.random().chance(1) {
            return self.make_entry();
        }
        let bytes = if self.random().chance(30) {
            Vec::new()
        } else {
            self.cut_entry()
        };
        self.step(&bytes);
        bytes
    }

    fn whole_bytes(&mut self) -> Vec<u8> {
        let entry = if self.accepted_only() {
            self.likely_entry()
        } else if !self.in_force() && self.random().chance(50) {
            // Not in force only BEGIN is likely, and the next entry would nearly
            // always be one: refusal 7 would hardly be seen.
            self.blind_entry()
        } else {
            match self.random().below(100) {
                0..=4 => return self.no_entry(),
                5..=12 => self.spoiled_entry(),
                13..=19 => self.blind_entry(),
                _ => self.likely_entry(),
            }
        };
        bytes_by(Self::TABLE, &entry)
    }

    fn ends_cut(&mut self) -> bool {
        !self.accepted_only() && self.random().chance(50)
    }

    /// The first bytes of an entry, at least one of them and never all; mostly
    /// as many as show its station.
    fn cut_entry(&mut self) -> Vec<u8> {
        let mut bytes = bytes_by(Self::TABLE, &self.blind_entry());
        let most = bytes.len() as u16 - 1;
        let least = if self.random().chance(70) { 3 } else { 1 };
        let kept = self.random().between(most.min(least), most);
        bytes.truncate(kept.into());
        bytes
    }
}

/// Makes so many entries more and ends the log at the limit, if there is one:
/// inside an entry if need be, but where only accepted entries are wished for,
/// before an entry that would be cut.
pub(crate) fn extend_log(
    log: &mut Vec<u8>,
    maker: &mut impl Maker,
    entries: usize,
    limit: Option<usize>,
) {
    let limit = limit.unwrap_or(usize::MAX);
    for left in (0..entries).rev() {
        if log.len() >= limit {
            break;
        }
        let next = if left == 0 && maker.ends_cut() {
            maker.cut_entry()
        } else {
            maker.make_entry()
        };
        if maker.accepted_only() && log.len() + next.len() > limit {
            break;
        }
        log.extend(next);
    }
    log.truncate(limit);
}

/// One of the candidates, by their weights; where nothing has weight, any.
pub(crate) fn pick_by_weight(random: &mut Random, candidates: &[(Entry, u32)]) -> Option<Entry> {
    let total = candidates.iter().map(|(_, weight)| weight).sum();
    let mut drawn = random.below(total);
    for &(entry, weight) in candidates {
        if drawn < weight {
            return Some(entry);
        }
        drawn -= weight;
    }
    if candidates.is_empty() {
        return None;
    }
    Some(random.pick(candidates).0)
}

/// As soon as the clock and the interval let a vehicle go, or later.
pub(crate) fn departure_time(random: &mut Random, clock: u16, interval: Option<u16>) -> u16 {
    let interval_over = interval.map_or(0, |started| started.saturating_add(Section::INTERVAL));
    later_than(random, clock.max(interval_over))
}

pub(crate) fn later_than(random: &mut Random, earliest: u16) -> u16 {
    let delay = match random.below(3_000) {
        0..=1_799 => 0,
        1_800..=2_969 => random.between(1, 9),
        2_970..=2_997 => random.between(10, 400),
        2_998 => random.between(0, u16::MAX),
        // The clock's last minute, after which nothing follows.
        _ => u16::MAX,
    };
    earliest.saturating_add(delay)
}

pub(crate) fn just_before_interval_ends(clock: u16, interval: Option<u16>) -> u16 {
    interval.map_or(clock, |started| {
        started.saturating_add(Section::INTERVAL - 1)
    })
}

pub(crate) fn neighbouring_form(random: &mut Random, form: u16) -> u16 {
    let neighbour = if random.chance(50) {
        form + 1
    } else {
        form - 1
    };
    neighbour.clamp(1, Section::LAST_FORM)
}

pub(crate) fn any_bytes(random: &mut Random) -> Vec<u8> {
    let map = random.byte();
    let mut bytes = vec![map];
    bytes.resize_with(entry_length(map), || random.byte());
    bytes
}

/// One bit of the map too many or too few, the fields following the map.
pub(crate) fn with_another_map(random: &mut Random, mut bytes: Vec<u8>) -> Vec<u8> {
    bytes[0] ^= 1 << random.below(8);
    let length = entry_length(bytes[0]);
    bytes.resize_with(length, || random.small(0, 8));
    bytes
}

/// One field just outside its range, or far outside; none where the entry has no
/// field that can be.
pub(crate) fn with_a_bad_field(random: &mut Random, mut entry: Entry) -> Option<Vec<u8>> {
    // A kind out of its range is 2, and no time is out of its range.
    let present: Vec<u32> = [1, 3, 4, 5, 6, 7]
        .into_iter()
        .filter(|place| entry.map & (1 << place) != 0)
        .collect();
    if present.is_empty() {
        return None;
    }
    let far = random.small(10, u8::MAX);
    let mut outside = |last: u8| random.pick(&[0, 0, last + 1, last + 1, far]);
    let wrong = Entry {
        station: outside(2),
        view: outside(3),
        class: outside(if entry.kind == Kind::Through.number() {
            1
        } else {
            5
        }),
        asked: outside(Section::MOST_CLEARS),
        granted: outside(Section::MOST_CLEARS),
        sender: outside(2),
        ..entry
    };
    let form = random.between(Section::LAST_FORM + 1, u16::MAX);
    let wrong_form = random.pick(&[0, Section::LAST_FORM + 1, form]);
    match random.pick(&present) {
        1 => entry.station = wrong.station,
        3 => entry.view = wrong.view,
        4 => entry.class = wrong.class,
        5 => entry.asked = wrong.asked,
        6 => entry.granted = wrong.granted,
        _ if random.chance(50) => entry.sender = wrong.sender,
        _ => entry.form = wrong_form,
    }
    Some(laid_out(&entry)[..entry_length(entry.map)].to_vec())
}

/// The bytes of an entry by this table; of one that may not be written, none.
pub(crate) fn bytes_by(table: &Table, entry: &Entry) -> Vec<u8> {
    let mut buffer = [0; LONGEST_ENTRY];
    let length = table.encode(entry, &mut buffer).unwrap_or(0);
    debug_assert!(length > 0, "{entry:?}");
    buffer[..length].to_vec()
}
