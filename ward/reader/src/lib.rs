//! Reads a scheduler's text into a sheet of moments, rules and spans, with every mistake and its place, and writes a sheet
//! as a record and as a text again.
//!
//! This package rests on nothing that must be built first, so that a text can be read before anything is proved. What a
//! text of hours and minutes says (`1:30`), and how early rules let a moment be, is told by the [`Clock`] that it is handed: the
//! tool hands it the archive's.
//!
//! A line is cut into `tokens`, of which `cursor` keeps count. `lines` tells its kind; `naming` reads moments, `hours` the anchor,
//! `open` the opening hours, `rows` rules with a sign and spans, `spoken` rules in words, `floor` the line `nothing before anchor`.
//! They are made of `sides`, `length`s of time and `instant`s; `expect` reads what is expected. `doubts` asks about minutes that can be a
//! time of day, `named` about times whose day another time of the line has. What is wrong is a `fault`, with lines to be written in its
//! stead; `nearby` has those of names. Lines with other words than those that are read are put in these by `plain` (with `phrases`,
//! `units`, `dates`, `stamps`), lines in other forms by `whole`, `several`, `worded`, `lists` and `offers`; `repair` shows what is read
//! without a mistake, and nothing else.

mod alike;
pub mod calendar;
pub mod clock;
mod cursor;
mod dates;
mod doubts;
mod expect;
mod fault;
mod floor;
mod hash;
pub mod hints;
mod hours;
mod instant;
mod length;
pub mod limits;
mod lines;
mod lists;
mod named;
mod naming;
mod nearby;
mod offers;
mod open;
pub mod outcome;
mod parse;
mod phrases;
mod plain;
pub mod record;
pub mod remark;
mod repair;
mod rows;
mod several;
pub mod sheet;
pub mod shown;
mod sides;
pub mod source;
mod spoken;
mod stamps;
mod tokens;
mod units;
pub mod vain;
mod whole;
mod wishes;
mod worded;

pub use clock::Clock;
pub use parse::{read, title, Read};
pub use remark::{Remark, Weight};
pub use sheet::{Lead, Sheet};
