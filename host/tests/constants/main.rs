//! Holds every constant, every name and every word of the wrapper to what the
//! archive does, as constants.c does for C. A length is taken, and one less is
//! refused. Entries that are written out by hand, in hex as docs/FORMAT.md has
//! them, are stepped, and at each name must stand the figure that they set; of
//! two names no two figures are always the same. A refusal is provoked, and its
//! words must be those that document 01 has for the deed.

mod entries;
mod listings;
mod orders;
mod positions;
mod refusals;
mod scenes;
