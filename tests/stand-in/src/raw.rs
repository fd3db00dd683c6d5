//! The functions of `raw` in the package `span`, by the unproved engine and checker.

pub use reference::boundary::{
    census, check, convert, hours_read, hours_write, marks_differ, merge, read, reasons, solve, write,
};
pub use reference::desk::{desk_collect, desk_open, desk_step, desk_take, DESK_MEMORY, DESK_TICKET, DESK_WORDS};
pub use reference::week::first_open;

/// Places that the reader is lent for stamps.
pub const STAMPS: usize = reference::VARIABLES;
/// Places that the reader is lent for picks.
pub const PICKS: usize = reference::ROWS;
/// Places that a census is lent for its counts.
pub const COUNTS: usize = 4;
