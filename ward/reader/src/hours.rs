//! The lines about times: when the anchor is, and at which moments the ward must be open.

use crate::calendar;
use crate::clock::{self, Anchor, DAY};
use crate::cursor::{Cursor, Unknown};
use crate::fault::{with, Fault};
use crate::instant;
use crate::length;
use crate::offers;
use crate::parse::Draft;
use crate::sides;
use crate::tokens::Token;

impl Draft<'_> {
    /// `8:00`, `Monday 8:00`, or `2026-11-17 8:00`.
    pub(crate) fn anchor(&mut self, cursor: &mut Cursor) -> Result<(), Fault> {
        let from = cursor.place();
        if let Some(fault) = anchor_otherwise(cursor) {
            return Err(fault);
        }
        let stamp = instant::stamp(cursor, self.clock)?;
        if let Some(fault) = self.small_hours_of(cursor.line, &stamp) {
            return Err(fault);
        }
        if stamp.minute >= DAY {
            return Err(Fault::new(stamp.from, stamp.to, "the anchor's day ends before 24:00")
                .hint("write 0:00, and the next day where the line has a day"));
        }
        if cursor.peek(0).is_some() {
            return Err(cursor
                .fault("nothing more is expected")
                .hint("as in 'anchor: 8:00', 'anchor: Monday 8:00' or 'anchor: 2026-11-17 8:00'"));
        }
        if self.sheet.anchor.is_some() {
            let start = cursor.line.len() - cursor.line.trim_start().len();
            return Err(Fault::new(from, cursor.place(), "the anchor has a time already")
                .hint("delete one of the two lines")
                .fix("the other line alone", with(cursor.line, start, start, "# ")));
        }
        let day = stamp.date.map(calendar::weekday).or(stamp.day);
        self.sheet.anchor = Some(Anchor { day, date: stamp.date, minute: stamp.minute });
        Ok(())
    }

    /// `anchor: Tuesday 2:30`: at night, or in the afternoon.
    fn small_hours_of(&self, line: &str, stamp: &instant::Stamp) -> Option<Fault> {
        let written = &line[stamp.from..stamp.to];
        let time = written.rsplit(' ').next().filter(|time| instant::is_small(stamp.minute, time))?;
        let from = stamp.to - time.len();
        let say = |time: &str| with(line, from, stamp.to, time);
        let fault = Fault::new(from, stamp.to, format!("'{time}' can be at night, or in the afternoon"));
        self.clock.judges().then(|| instant::halves(fault, time, stamp.minute, &say))
    }

    /// Names of moments at which the ward must be open.
    pub(crate) fn admits(&mut self, cursor: &mut Cursor) -> Result<(), Fault> {
        loop {
            sides::in_quotes(cursor, &self.known())?;
            let Some(token) = cursor.take() else { return Err(cursor.fault("a moment's name is expected")) };
            let all =
                ["all", "everything", "everyone", "everybody", "any"].contains(&token.text.to_lowercase().as_str());
            if all && self.known().moment(token.text).is_none() {
                let start = cursor.line.len() - cursor.line.trim_start().len();
                return Err(Fault::new(token.from, token.to, "without this line all moments are looked at")
                    .fix("without it", with(cursor.line, start, start, "# ")));
            }
            match self.sheet.moments.iter().position(|known| known.name == token.text) {
                Some(moment) if !self.sheet.admits.contains(&moment) => self.sheet.admits.push(moment),
                Some(_) => {}
                None => cursor.unknown.push(Unknown { name: token.text.into(), from: token.from, to: token.to }),
            }
            if !cursor.takes(",") {
                break;
            }
        }
        match cursor.peek(0) {
            None => Ok(()),
            Some(and) if cursor.sees("and") || cursor.sees("or") || cursor.sees("&") => {
                let line = cursor.line;
                let comma = format!("{}, {}", line[..and.from].trim_end(), line[and.to..].trim_start());
                Err(cursor.fault("a comma is expected").fix("", comma))
            }
            Some(token) => {
                let (line, end) = (cursor.line, cursor.end());
                let name = cursor.last().map_or("", |last| &line[last.from..last.to]);
                let rule = format!("{name} {}", &line[token.from..end]);
                let first = line[..token.from].trim_end().to_string();
                let fault = cursor.fault("a comma is expected");
                Err(fault.fixes("a rule too", vec![first, format!("{rule}{}", &line[end..])]))
            }
        }
    }
}

/// The anchor's time in another form.
fn anchor_otherwise(cursor: &Cursor) -> Option<Fault> {
    let first = cursor.peek(0)?;
    let (line, end) = (cursor.line, cursor.end());
    let whole = |text: &str| with(line, first.from, end, text);
    if instant::starts(cursor) {
        let second = cursor.peek(1).filter(|token| token.text == ",")?;
        let third = cursor.peek(2)?;
        return Some(
            cursor.fault("a time is expected").fix("", format!("{} {}", &line[..second.from], &line[third.from..])),
        );
    }
    if first.text.to_lowercase() == "today" {
        let rest = cursor.peek(1).map_or("", |token| &line[token.from..end]);
        return Some(cursor.fault("a day, a date or a time is expected").fix("", whole(rest)));
    }
    if let Some(hours) = offers::hour(cursor, 0) {
        let fault = cursor.fault("a time of day is expected");
        let says: &[&str] = if hours.len() == 1 { &[""] } else { &["in the morning", "in the afternoon or evening"] };
        return Some(says.iter().zip(&hours).fold(fault, |fault, (says, time)| fault.fix(*says, whole(time))));
    }
    Some(in_digits(cursor, first))
}

/// The anchor's time in digits, or in words.
fn in_digits(cursor: &Cursor, first: Token) -> Fault {
    let clock = &clock::Clock::unjudged();
    let known = instant::Known { moments: &[], anchor: None, doubtful: false, clock, named: &[] };
    if let Some(fault) = instant::meant(cursor, &known) {
        return fault;
    }
    let fault = cursor.fault("a time of day is expected");
    match length::is_number(first.text) && (3..5).contains(&first.text.len()) {
        true => {
            let fixes = instant::bare(cursor, first, &known).fixes.into_iter();
            let fixes = fixes.filter(|fix| fix.says.starts_with("by the clock")).collect();
            Fault { fixes, ..fault }
        }
        false => fault.hint("as in 'anchor: 8:00', 'anchor: Monday 8:00' or 'anchor: 2026-11-17 8:00'"),
    }
}
