//! A desk: one word of figures, its clock, and where its end of the line is.

/// A station as an index: the lowest bit of its number.
pub const A: usize = 1;
pub const B: usize = 0;

/// The figures of the word. Asked and guest lie where an OPEN has asked and
/// class, so that a receipt need not move them.
pub const ASKED: u64 = 0xF;
pub const HOLDS: u64 = 0xF0;
pub const GUEST: u64 = 0x700;
pub const OUT: u64 = 0x800;
pub const OWES: u64 = 0xF000;
pub const SENT: u64 = 0x1F_0000;
/// Not in force.
pub const IDLE: u64 = 0x20_0000;
/// No figure, and 0 at every desk: the other station's receipt of an OPEN or THROUGH
/// keeps it, that of a RETURN, TRAIN or LAST TRAIN does not, and so they are told
/// apart.
pub const ENGINE: u64 = 0x40_0000;
pub const WAITING: u64 = 0xF00_0000;

pub const HOLDS_ONE: u64 = 0x10;
pub const OWES_ONE: u64 = 0x1000;
pub const WAITING_ONE: u64 = 0x100_0000;
/// Sent is counted from 4, so that its highest bit stands where it is 12.
pub const SENT_ONE: u64 = 0x1_0000;
pub const SENT_NONE: u64 = 4 * SENT_ONE;
pub const SENT_ALL: u64 = 16 * SENT_ONE;
/// So is the last form number, from 2^14 less 9,999, at the top.
pub const FORM_ONE: u64 = 1 << 32;
pub const FORM_NONE: u64 = (FORMS_ALL / FORM_ONE - 9_999) * FORM_ONE;
pub const FORMS_ALL: u64 = FORM_ONE << 14;

/// The figures at the end of a receipt: line clears that wait are held, where none
/// is owed. Where some wait none is held, so that a sum will do: the other station
/// owed none when it gave them.
#[inline(always)]
pub const fn settled(figures: u64) -> u64 {
    let waiting = if figures & OWES == 0 {
        figures & WAITING
    } else {
        0
    };
    figures - waiting + waiting / (WAITING_ONE / HOLDS_ONE)
}

/// The figures after BEGIN.
pub const BEGUN: u64 = SENT_NONE | FORM_NONE;
/// The figures of the fresh section.
pub const FRESH: u64 = BEGUN | IDLE;

#[derive(Clone, Copy)]
pub struct Desk {
    pub figures: u64,
    pub clock: u32,
    /// The minute from which a departure may be: the clock, or 30 minutes on
    /// while the interval is running. It starts at every departure and stops at
    /// every receipt; nothing else with a time is accepted.
    pub ready: u32,
    /// The free place of the line at this end, and the way to the next one.
    pub end: u32,
    pub outwards: u32,
    /// The receipt by which the next vehicle to leave would be taken back.
    pub next: u64,
}

impl Desk {
    /// Empties the desk.
    pub fn clear(&mut self, figures: u64) {
        self.figures = figures;
        self.clock = 0;
        self.ready = 0;
        self.next = self.next & !0xFFFF | 1;
    }

    pub fn holds(&self) -> u64 {
        (self.figures & HOLDS) / HOLDS_ONE
    }

    pub fn owes(&self) -> u64 {
        (self.figures & OWES) / OWES_ONE
    }
}
