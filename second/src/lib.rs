//! Two stations and the section between them, worked under total failure of
//! communication: a second reading of the document and of requests T-01, T-02,
//! T-03, T-05, T-06, T-07 and T-08, written from them alone, so that the first can be
//! compared with it. What stands here is the single line; [`double`] has the double
//! line, with the same names.
//!
//! * [`decode`] and [`encode`] turn bytes into an [`Entry`] and back; a [`Table`]
//!   does so for either line,
//! * [`Section`] is all that is held, and [`Section::is_well_made`] tests it,
//! * [`step()`] and [`step_in_place`] answer one entry, and [`refused_for`] says
//!   whose a refused one is,
//! * [`step_by`] answers by an [`Edition`] of choice: today's step, or one of two
//!   older ones, with which it is compared,
//! * [`Run`] runs a whole log, and [`list`] prints it,
//! * [`generator`] makes logs, and [`walk`] holds the claims about lists of
//!   steps against them,
//! * [`step_position`], [`store`], [`fetch`], [`read_entry`] and [`write_entry`] are
//!   for hosts that keep bytes and numbers,
//! * [`cases`] are stored for another program, with what must come of each, and
//!   [`calls`] are made at random for one.

pub mod calls;
pub mod cases;
pub mod double;
pub mod edition;
pub mod entry;
pub mod figures;
pub mod generator;
pub mod lister;
pub mod log;
mod making;
pub mod position;
pub mod random;
pub mod refusal;
pub mod section;
pub mod shelf;
pub mod step;
pub mod walk;
pub mod working;

pub use edition::Edition;
pub use entry::{decode, encode, entry_length, read_entry, write_entry, Entry, Kind, Table};
pub use lister::{list, LONGEST_LOG};
pub use log::{Line, Reader, Run, Writer};
pub use position::{step_position, Position};
pub use refusal::Refusal;
pub use section::{Desk, Refused, Section, Station, Vehicle};
pub use shelf::{fetch, store};
pub use step::{refused_for, step, step_by, step_in_place, Accepted, Answer, Speed};
pub use working::Working;
