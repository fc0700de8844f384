//! The section of a double line as bytes, figure by figure, as the stored cases
//! hold it, ill made or well made.

use crate::figures::{interval_figures, Rest, Room, REFUSED_LENGTH};

use super::section::{Desk, Section};

/// The bytes of one desk: clock (2), last form number (2), interval running, its
/// minute (2), how many are on the line, and the places (2 each).
const DESK_LENGTH: usize = 2 + 2 + 3 + 1 + 2 * Section::MOST_ON_LINE;

/// The bytes of a section: in force, the counts of refused entries, and the desks
/// of A and B.
pub const FIGURES_LENGTH: usize = 1 + REFUSED_LENGTH + 2 * DESK_LENGTH;

/// The figures of a section; those of more than one byte high byte first.
pub type Figures = [u8; FIGURES_LENGTH];

impl Section {
    /// The figures of this section.
    #[must_use]
    pub fn figures(&self) -> Figures {
        let mut figures = [0; FIGURES_LENGTH];
        let mut room = Room::of(&mut figures);
        room.put([self.in_force.into()]);
        room.put_refused(&self.refused);
        for desk in &self.desks {
            put_desk(&mut room, desk);
        }
        figures
    }

    /// The section with these figures; none where no section has them: flags other
    /// than 0 and 1, and the minute of an interval that does not run.
    #[must_use]
    pub fn from_figures(figures: &Figures) -> Option<Section> {
        let mut rest = Rest::of(figures);
        Some(Section {
            in_force: rest.flag()?,
            refused: rest.refused(),
            desks: [read_desk(&mut rest)?, read_desk(&mut rest)?],
        })
    }
}

fn put_desk(room: &mut Room<'_>, desk: &Desk) {
    room.put(desk.clock.to_be_bytes());
    room.put(desk.last_form.to_be_bytes());
    room.put(interval_figures(desk.interval));
    room.put([desk.present]);
    for form in desk.places {
        room.put(form.to_be_bytes());
    }
}

fn read_desk(rest: &mut Rest<'_>) -> Option<Desk> {
    let (clock, last_form, interval) = (rest.pair(), rest.pair(), rest.interval()?);
    let present = rest.byte();
    Some(Desk {
        clock,
        last_form,
        interval,
        places: std::array::from_fn(|_| rest.pair()),
        present,
    })
}

#[cfg(test)]
mod tests {
    use super::*;
    use crate::section::Refused;

    #[test]
    fn there_are_77_of_them() {
        assert_eq!(FIGURES_LENGTH, 77);
        assert_eq!(Section::fresh().figures(), [0; 77]);
        assert_eq!(Section::from_figures(&[0; 77]), Some(Section::fresh()));
    }

    #[test]
    fn every_figure_stands_in_its_own_place() {
        let desk = |first: u16| Desk {
            clock: 0x0100 + first,
            last_form: 0x0200 + first,
            interval: Some(0x0300 + first),
            places: std::array::from_fn(|place| 0x0400 + first + place as u16),
            present: 200,
        };
        let section = Section {
            in_force: true,
            refused: Refused {
                for_a: 0x0102_0304,
                for_b: 0x0506_0708,
                of_none: 0x090A_0B0C,
            },
            desks: [desk(1), desk(21)],
        };
        let figures = section.figures();
        assert_eq!(figures[..13], [1, 1, 2, 3, 4, 5, 6, 7, 8, 9, 10, 11, 12]);
        assert_eq!(figures[13..21], [1, 1, 2, 1, 1, 3, 1, 200]);
        assert_eq!(figures[21..25], [4, 1, 4, 2]);
        assert_eq!(figures[43..45], [4, 12]);
        assert_eq!(figures[45..53], [1, 21, 2, 21, 1, 3, 21, 200]);
        assert_eq!(figures[75..], [4, 32]);
        assert_eq!(Section::from_figures(&figures), Some(section));
    }

    #[test]
    fn flags_but_0_and_1_and_a_minute_without_an_interval_are_of_no_section() {
        for (place, figure) in [(0, 2), (17, 2), (18, 1), (19, 1), (49, 255), (51, 1)] {
            let mut figures = [0; FIGURES_LENGTH];
            figures[place] = figure;
            assert_eq!(Section::from_figures(&figures), None, "{place}");
        }
    }
}
