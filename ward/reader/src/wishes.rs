//! The lines `plan: early a, b` and `plan: late a, b`: which of the plans with the least span is told.

use crate::cursor::{Cursor, Unknown};
use crate::fault::{with, Fault};
use crate::parse::Draft;

/// Which way a moment is wanted.
#[derive(Clone, Copy, Debug, PartialEq, Eq)]
pub enum Way {
    Early,
    Late,
}

impl Way {
    /// The word behind `plan:`.
    pub fn word(self) -> &'static str {
        match self {
            Way::Early => "early",
            Way::Late => "late",
        }
    }
}

/// A moment that is wanted early or late.
#[derive(Clone, Copy, Debug, PartialEq, Eq)]
pub struct Wish {
    pub moment: usize,
    pub way: Way,
}

/// Words that are nearly one of the two.
const OTHERS: [(&str, Way); 6] = [
    ("earliest", Way::Early),
    ("earlier", Way::Early),
    ("soon", Way::Early),
    ("latest", Way::Late),
    ("later", Way::Late),
    ("lately", Way::Late),
];

impl Draft<'_> {
    /// `early a, b` or `late a, b`.
    pub(crate) fn plan(&mut self, cursor: &mut Cursor) -> Result<(), Fault> {
        let way = self.way(cursor)?;
        loop {
            let Some(token) = cursor.take() else { return Err(cursor.fault("a moment's name is expected")) };
            match self.sheet.moments.iter().position(|known| known.name == token.text) {
                Some(0) => return Err(Fault::new(token.from, token.to, "the anchor stands still")),
                Some(moment) => self.wish(Wish { moment, way }, cursor, token.from, token.to)?,
                None => cursor.unknown.push(Unknown { name: token.text.into(), from: token.from, to: token.to }),
            }
            if !cursor.takes(",") {
                break;
            }
        }
        match cursor.peek(0) {
            None => Ok(()),
            Some(and) if cursor.sees("and") => {
                let line = cursor.line;
                let comma = format!("{}, {}", line[..and.from].trim_end(), line[and.to..].trim_start());
                Err(cursor.fault("a comma is expected").fix("", comma))
            }
            Some(_) => Err(cursor.fault("a comma is expected")),
        }
    }

    fn wish(&mut self, wish: Wish, cursor: &Cursor, from: usize, to: usize) -> Result<(), Fault> {
        if self.sheet.wishes.iter().any(|other| other.moment == wish.moment) {
            let name = &self.sheet.moments[wish.moment].name;
            let fault = Fault::new(from, to, format!("where {name} is wanted was said before"));
            return Err(fault.hint(format!("a moment is early or late, once: leave it out of {}", cursor.line.trim())));
        }
        self.sheet.wishes.push(wish);
        Ok(())
    }

    fn way(&self, cursor: &mut Cursor) -> Result<Way, Fault> {
        for way in [Way::Early, Way::Late] {
            if cursor.takes(way.word()) {
                return Ok(way);
            }
        }
        let fault = cursor.fault("'early' or 'late' is expected").hint("as in 'plan: early ready, leaves'");
        let word = cursor.plain(0).to_lowercase();
        let meant = OTHERS.iter().find(|(other, _)| *other == word).map(|(_, way)| way.word());
        Err(match (cursor.peek(0), meant) {
            (Some(token), Some(meant)) => fault.fix("", with(cursor.line, token.from, token.to, meant)),
            (Some(token), None) if self.known().moment(token.text).is_some() => fault
                .fix("as early as can be", with(cursor.line, token.from, token.from, "early "))
                .fix("as late as can be", with(cursor.line, token.from, token.from, "late ")),
            _ => fault,
        })
    }
}
