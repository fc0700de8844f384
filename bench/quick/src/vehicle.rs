//! A vehicle carries the receipts that take it and what they do to the desk.

use crate::departure::Departure;
use crate::desk::ENGINE;

/// A receipt is the word of the RECEIVE that takes the vehicle, with no time.
pub const TIME: u64 = 0xFFFF << 24;
/// From the receipt at one station to that at the other.
pub const OTHER: u64 = 3 << 40;

/// The receipt by which a station, given by its number, takes the first vehicle
/// that it sent.
pub const fn first_receipt(station: u64) -> u64 {
    0x8706 << 48 | station << 40 | station << 16 | 1
}

/// What becomes of the lower half of a desk's figures.
#[derive(Clone, Copy)]
pub struct Effect {
    pub keep: i32,
    pub add: i32,
}

impl Effect {
    pub const NONE: Effect = Effect { keep: 0, add: 0 };

    #[inline(always)]
    pub fn on(self, figures: u64) -> u64 {
        (figures & self.keep as u64).wrapping_add(self.add as u64)
    }
}

#[derive(Clone, Copy)]
pub struct Vehicle {
    /// By station; 0 where it may not enter. Both of a free place are 0.
    pub receipts: [u64; 2],
    /// By station. What is not asked for is what it was.
    pub effects: [Effect; 2],
}

impl Vehicle {
    pub const NONE: Vehicle = Vehicle {
        receipts: [0; 2],
        effects: [Effect::NONE; 2],
    };

    /// Leaves a station, which would take it back by that receipt.
    #[inline(always)]
    pub fn leave(&mut self, station: usize, receipt: u64, how: &Departure, entry: u64) {
        self.receipts[station] = 0;
        if let Some(effect) = how.taken_back {
            self.receipts[station] = receipt;
            self.effects[station] = effect;
        }
        self.receipts[station ^ 1] = receipt ^ OTHER;
        self.effects[station ^ 1] = how.received_of(entry);
    }

    /// Sender and form number, as a form has them.
    pub fn form(&self) -> u64 {
        (self.receipts[0] | self.receipts[1]) & 0xFF_FFFF
    }

    fn sender(&self) -> usize {
        (self.form() >> 16 & 1) as usize
    }

    /// Whether it left on OPEN or THROUGH and heads to the station. It may
    /// enter there; where it may enter at both ends it is unmet.
    pub fn is_engine_to(&self, station: usize) -> bool {
        let unmet = self.receipts[station ^ 1] != 0;
        let heads = self.receipts[station] != 0 && !(unmet && self.sender() == station);
        heads && self.effects[self.sender() ^ 1].keep & ENGINE as i32 != 0
    }

    /// Met, and heading to the station.
    pub fn turn_to(&mut self, station: usize) {
        if self.receipts[station] == 0 {
            self.receipts[station] = self.receipts[station ^ 1] ^ OTHER;
        }
        self.receipts[station ^ 1] = 0;
    }
}
