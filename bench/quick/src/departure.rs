//! What each shape of departure asks of its desk, and what it does.

use crate::desk::{
    ASKED, ENGINE, FORMS_ALL, FORM_ONE, GUEST, HOLDS, HOLDS_ONE, IDLE, OUT, OWES, OWES_ONE, SENT,
    SENT_ALL, SENT_NONE, SENT_ONE, WAITING, WAITING_ONE,
};
use crate::reading::{self, low_bit, Ranges, BOTH, GRANTED, LAST, OPEN};
use crate::vehicle::Effect;

/// A field of an entry, shifted down.
#[derive(Clone, Copy)]
pub struct Field {
    low: u32,
    mask: u64,
}

impl Field {
    const ABSENT: Field = Field { low: 0, mask: 0 };

    const fn at(place: u32) -> Field {
        Field {
            low: low_bit(place),
            mask: 0xF,
        }
    }

    const fn at_if(there: bool, place: u32) -> Field {
        if there {
            Field::at(place)
        } else {
            Field::ABSENT
        }
    }

    #[inline(always)]
    pub const fn of(self, entry: u64) -> u64 {
        entry >> self.low & self.mask
    }
}

/// A departure by its map.
#[derive(Clone, Copy)]
pub struct Departure {
    ranges: Ranges,
    /// None of these bits of the desk may stand.
    bars: u64,
    /// One of these must, if there are any.
    needs: u64,
    /// What is kept of the desk's figures, and what is added besides granted.
    keep: u64,
    add: u64,
    asked: Field,
    pub granted: Field,
    /// Where the class of a guest stands, if the vehicle becomes one.
    class: u64,
    /// What its receipt does where it left; nothing where it may not enter.
    pub taken_back: Option<Effect>,
    /// What its receipt does at the other station, besides what it carries.
    received: Effect,
}

/// The numbers used up: 17 and 18.
const USED_UP: u64 = SENT_ALL | FORMS_ALL;

/// The bits where the test holds.
const fn only(holds: bool, bits: u64) -> u64 {
    if holds {
        bits
    } else {
        0
    }
}

impl Departure {
    pub const fn of(map: usize) -> Departure {
        match map {
            reading::OPEN | reading::THROUGH => Departure::engine(map),
            _ => Departure::train(map),
        }
    }

    /// OPEN and THROUGH.
    const fn engine(map: usize) -> Departure {
        let opens = map == OPEN;
        let guest = only(opens, GUEST | ASKED);
        Departure {
            ranges: Ranges::of(map),
            bars: IDLE | OUT | HOLDS | OWES | GUEST | USED_UP,
            needs: 0,
            keep: u64::MAX,
            add: SENT_ONE + FORM_ONE + only(opens, OUT),
            asked: if opens { Field::at(7) } else { Field::ABSENT },
            granted: Field::ABSENT,
            class: guest & GUEST,
            taken_back: Some(Effect {
                keep: !only(opens, OUT) as i32,
                add: -(SENT_ONE as i32),
            }),
            received: Effect {
                keep: !(SENT | guest) as i32,
                add: SENT_NONE as i32,
            },
        }
    }

    /// RETURN, TRAIN and LAST TRAIN.
    const fn train(map: usize) -> Departure {
        let returns = map & !BOTH == reading::RETURN;
        // All that is held goes with a LAST TRAIN, and all that is owed when it is in.
        let last = map & LAST != 0;
        let one = !returns && !last;
        let asks = map & reading::ASKED != 0;
        let grants = map & GRANTED != 0;
        let first = if returns { 5 } else { 6 };
        // A TRAIN grants only where its station owes none. Not in force there is
        // neither guest nor line clear, so one test serves for 7 too.
        Departure {
            ranges: Ranges::of(map),
            bars: only(grants && !returns, OWES) | USED_UP,
            needs: if returns { GUEST } else { HOLDS },
            keep: !(only(returns, GUEST | ASKED) | only(grants, OWES | ASKED) | only(last, HOLDS)),
            add: SENT_ONE + FORM_ONE - only(one, HOLDS_ONE),
            asked: Field::at_if(asks, first),
            granted: Field::at_if(grants, first + asks as u32),
            class: 0,
            taken_back: None,
            // A TRAIN finds one owed: a station owes at least as many as the other
            // has trains in the section, by demand 3. A grant takes the place of
            // what waits.
            received: Effect {
                keep: !(ENGINE
                    | SENT
                    | only(grants, WAITING)
                    | only(asks, ASKED)
                    | only(returns, OUT)
                    | only(last, OWES)) as i32,
                add: (SENT_NONE - only(one, OWES_ONE)) as i32,
            },
        }
    }

    /// Whether the entry may leave a desk with these figures, but for the time.
    #[inline(always)]
    pub const fn is_allowed(&self, figures: u64, entry: u64) -> bool {
        self.ranges.hold(entry)
            && figures & self.bars == 0
            && (self.needs == 0 || figures & self.needs != 0)
            && self.granted.of(entry) <= figures & ASKED
    }

    /// The desk's figures after it.
    #[inline(always)]
    pub const fn after(&self, figures: u64, entry: u64) -> u64 {
        (figures & self.keep) + self.add + self.granted.of(entry) * OWES_ONE
    }

    /// What its receipt does at the other station.
    #[inline(always)]
    pub const fn received_of(&self, entry: u64) -> Effect {
        let clears = self.asked.of(entry) + self.granted.of(entry) * WAITING_ONE;
        Effect {
            keep: self.received.keep,
            add: self.received.add + (clears | entry & self.class) as i32,
        }
    }
}
