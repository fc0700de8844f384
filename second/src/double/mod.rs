//! The double line of request T-05: two stations and two lines between them, each
//! worked one way only.
//!
//! A station's line is the one that leaves it. Trains stand on it in the order in
//! which they were sent, and arrive in it. Entries are those of the single line as
//! far as there are any, read and written by [`Table::DOUBLE_LINE`]; there are no
//! line clears, and nothing is taken back.
//!
//! [`Table::DOUBLE_LINE`]: crate::Table::DOUBLE_LINE

pub mod cases;
pub mod figures;
pub mod generator;
pub mod section;
pub mod step;
pub mod walk;

pub use section::{Desk, Section};
pub use step::{step, step_in_place};

/// A running log of a double line; [`crate::Run::of`] starts it.
pub type Run<'a> = crate::log::Run<'a, Section>;

/// The listing of a double line's log, each line ended by a line feed. Vehicles
/// present are those on both lines together.
#[must_use]
pub fn list(log: &[u8]) -> String {
    crate::lister::list_of::<Section>(log)
}
