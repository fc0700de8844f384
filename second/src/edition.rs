//! The editions of the step, and the places where they differ.
//!
//! Request T-02 promises that lists once accepted throughout are answered as
//! before. T-03 leaves that promise as it is, and T-07 alters it in nothing but a
//! follower's speed. To hold the step to it, document 01's own step is kept beside
//! today's. T-08 drops a test from RETURN that no list from the fresh section needs;
//! to show that, the step as it stood before it is kept as well. Only tests, walks and
//! the choice of some stored cases use these two.

use crate::entry::Table;
use crate::section::{Desk, Vehicle};
use crate::step::Speed;

/// By which document a step answers.
#[derive(Clone, Copy, Debug, Default, PartialEq, Eq, Hash)]
pub enum Edition {
    /// Document 01 with request T-01 and without T-02, T-03, T-07 and T-08. Its section
    /// has no line clears waiting and none given up: from the fresh section on, these
    /// figures stay 0.
    Document01,
    /// Document 01 with requests T-01, T-02, T-03 and T-07: today's step, but that
    /// line clears held bar a RETURN.
    BeforeT08,
    /// Document 01 with requests T-01, T-02, T-03, T-07 and T-08.
    #[default]
    Today,
}

impl Edition {
    /// The table by which entries are read. To document 01 kind 9 is none, so a whole
    /// entry of that kind is 2, whatever else is right or wrong with it.
    pub(crate) fn table(self) -> &'static Table {
        match self {
            Edition::Document01 => &Table::DOCUMENT_01,
            Edition::BeforeT08 | Edition::Today => &Table::SINGLE_LINE,
        }
    }

    /// Whether a RETURN is held back while this desk holds line clears.
    pub(crate) fn bars_a_return_from(self, desk: &Desk) -> bool {
        match self {
            Edition::Document01 | Edition::BeforeT08 => desk.holds > 0,
            Edition::Today => false,
        }
    }

    /// Whether a TRAIN that leaves this desk may carry a grant, however small.
    pub(crate) fn lets_a_train_grant(self, desk: &Desk) -> bool {
        match self {
            // Only the last of a series, which leaves no line clear held.
            Edition::Document01 => desk.holds <= 1,
            Edition::BeforeT08 | Edition::Today => desk.owes == 0,
        }
    }

    /// The speed of a train that leaves behind another, in this view. Only a clear
    /// day lets it run faster on the straight than elsewhere.
    pub(crate) fn speed_of_a_follower(self, view: u8) -> Speed {
        let straight = match view {
            1 => 25,
            _ => 10,
        };
        match self {
            // One figure for the whole run.
            Edition::Document01 => Speed::Limit(straight),
            Edition::BeforeT08 | Edition::Today => Speed::Two {
                straight,
                elsewhere: 10,
            },
        }
    }

    /// What a receipt does with line clears, once it has altered all else at the
    /// desk: what the desk owes after it decides.
    pub(crate) fn take_line_clears(self, desk: &mut Desk, vehicle: &Vehicle) {
        match self {
            Edition::Document01 => {
                if !vehicle.left_without_line_clear() {
                    desk.holds = vehicle.granted;
                }
            }
            Edition::BeforeT08 | Edition::Today => {
                if vehicle.granted > 0 {
                    desk.waiting = vehicle.granted;
                }
                if desk.owes == 0 && desk.waiting > 0 {
                    desk.holds = desk.waiting;
                    desk.waiting = 0;
                }
            }
        }
    }
}

#[cfg(test)]
mod tests {
    use super::*;
    use crate::entry::Kind;
    use crate::refusal::Refusal;

    /// The step before T-08 and today's, which differ in one place alone.
    const BY_TODAYS_TABLE: [Edition; 2] = [Edition::BeforeT08, Edition::Today];

    /// Holds, owes and waiting after line clears were taken.
    fn taken(edition: Edition, kind: Kind, granted: u8, before: [u8; 3]) -> [u8; 3] {
        let [holds, owes, waiting] = before;
        let mut desk = Desk {
            holds,
            owes,
            waiting,
            ..Desk::default()
        };
        let vehicle = Vehicle {
            left_on: Some(kind),
            granted,
            ..Vehicle::default()
        };
        edition.take_line_clears(&mut desk, &vehicle);
        [desk.holds, desk.owes, desk.waiting]
    }

    #[test]
    fn document_01_has_no_kind_9_whatever_else_stands_in_a_whole_entry() {
        let both = |bytes: &[u8]| {
            let [before, today] = BY_TODAYS_TABLE.map(|edition| edition.table().decode(bytes));
            assert_eq!(before, today);
            [Edition::Document01.table().decode(bytes), today]
                .map(|read| read.map_or_else(Refusal::number, |_| 0))
        };
        // Right, with another map, with a field out of its range.
        assert_eq!(both(&[0x0F, 9, 1, 0, 0, 1]), [2, 0]);
        assert_eq!(both(&[0x01, 9]), [2, 3]);
        assert_eq!(both(&[0x0F, 9, 1, 0, 0, 4]), [2, 4]);
        // What is not whole is 1 before its kind is looked at.
        assert_eq!(both(&[]), [1, 1]);
        assert_eq!(both(&[0x0F]), [1, 1]);
        assert_eq!(both(&[0x0F, 9, 1, 0, 0]), [1, 1]);
        // Another kind is read alike, also where its station is 9.
        assert_eq!(both(&[0x0F, 5, 1, 0, 0, 1]), [0, 0]);
        assert_eq!(both(&[0x0F, 10, 1, 0, 0, 1]), [2, 2]);
        assert_eq!(both(&[0x02, 9]), [2, 2]);
        assert_eq!(both(&[0x83, 7, 9, 1, 0, 1]), [4, 4]);
    }

    #[test]
    fn document_01_sets_holds_to_granted_on_a_line_clear_only() {
        for kind in [Kind::Return, Kind::Train] {
            for owes in [0, 1] {
                let taken = |granted| taken(Edition::Document01, kind, granted, [5, owes, 0]);
                assert_eq!(taken(0), [0, owes, 0]);
                assert_eq!(taken(3), [3, owes, 0]);
            }
        }
        for kind in [Kind::Open, Kind::Through] {
            let taken = taken(Edition::Document01, kind, 0, [5, 0, 0]);
            assert_eq!(taken, [5, 0, 0]);
        }
    }

    #[test]
    fn today_a_grant_replaces_what_waits_and_moves_where_none_is_owed() {
        for edition in BY_TODAYS_TABLE {
            for kind in [Kind::Return, Kind::Train, Kind::LastTrain] {
                let taken = |granted, before| taken(edition, kind, granted, before);
                assert_eq!(taken(3, [5, 1, 0]), [5, 1, 3]);
                assert_eq!(taken(3, [5, 1, 4]), [5, 1, 3]);
                assert_eq!(taken(3, [5, 0, 0]), [3, 0, 0]);
                assert_eq!(taken(3, [5, 0, 4]), [3, 0, 0]);
            }
        }
    }

    #[test]
    fn today_a_receipt_without_a_grant_moves_what_waits_or_nothing() {
        for edition in BY_TODAYS_TABLE {
            for kind in Kind::ALL.into_iter().filter(|kind| kind.is_departure()) {
                let taken = |before| taken(edition, kind, 0, before);
                assert_eq!(taken([5, 0, 0]), [5, 0, 0]);
                assert_eq!(taken([5, 1, 0]), [5, 1, 0]);
                assert_eq!(taken([5, 1, 4]), [5, 1, 4]);
                assert_eq!(taken([5, 0, 4]), [4, 0, 0]);
            }
        }
    }

    #[test]
    fn a_follower_has_one_figure_in_document_01_and_two_today() {
        for (view, straight) in [(1, 25), (2, 10), (3, 10)] {
            let speeds = [Edition::Document01, Edition::BeforeT08, Edition::Today]
                .map(|edition| edition.speed_of_a_follower(view));
            let two = Speed::Two {
                straight,
                elsewhere: 10,
            };
            assert_eq!(speeds, [Speed::Limit(straight), two, two]);
        }
    }

    #[test]
    fn a_train_may_grant_by_what_is_held_or_by_what_is_owed() {
        let desk = |holds, owes| Desk {
            holds,
            owes,
            ..Desk::default()
        };
        for (holds, owes, document_01, today) in [
            (1, 0, true, true),
            (1, 1, true, false),
            (2, 0, false, true),
            (2, 1, false, false),
        ] {
            let desk = desk(holds, owes);
            assert_eq!(Edition::Document01.lets_a_train_grant(&desk), document_01);
            for edition in BY_TODAYS_TABLE {
                assert_eq!(edition.lets_a_train_grant(&desk), today);
            }
        }
    }

    #[test]
    fn line_clears_held_bar_a_return_in_all_editions_but_todays() {
        for holds in 0..=8 {
            // Nothing else of the desk is looked at.
            for (guest, owes) in [(0, 0), (0, 8), (5, 0), (5, 8)] {
                let desk = Desk {
                    guest,
                    holds,
                    owes,
                    ..Desk::default()
                };
                let bars = [Edition::Document01, Edition::BeforeT08, Edition::Today]
                    .map(|edition| edition.bars_a_return_from(&desk));
                assert_eq!(bars, [holds > 0, holds > 0, false]);
            }
        }
    }
}
