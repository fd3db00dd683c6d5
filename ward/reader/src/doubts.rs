//! Minutes that are written like a time of day, `8:40`, or like a stopwatch, `45:00`, where they can be one: what they are is asked.

use crate::clock::{self, DAY};
use crate::cursor::Cursor;
use crate::fault::{with, Fault};
use crate::instant::{self, Known};
use crate::length::Length;
use crate::shown;
use crate::sides::Term;
use crate::tokens;

/// What minutes stand with.
#[derive(Clone, Copy, PartialEq, Eq)]
enum Base {
    Anchor,
    /// A time, with its minutes from the anchor.
    Time(i32),
    Moments,
}

fn base(cursor: &Cursor, terms: &[Term], (from, to): (usize, usize)) -> Base {
    let named = cursor.line[from..to].to_lowercase().contains("anchor");
    match terms {
        [(Some(0), 0)] if named => Base::Anchor,
        [(Some(0), offset)] if !named => Base::Time(*offset),
        _ => Base::Moments,
    }
}

/// The part of a length with a colon where it can be a time of day: at or after the anchor's, and before 24:00. Behind a time it can be
/// one from that on; behind days, and where the anchor is not before noon, from 6:00 on.
fn of_day(known: &Known, length: Length, base: Base) -> Option<(i32, usize, usize)> {
    let (anchor, colon) = (known.anchor.filter(|_| known.clock.judges())?, length.colon?);
    let days = if colon.0 < length.minutes || anchor.minute >= DAY / 2 { 6 * 60 } else { DAY };
    let time = match base {
        Base::Time(offset) => (anchor.minute + offset).rem_euclid(DAY),
        _ => DAY,
    };
    (anchor.minute.min(days).min(time)..DAY).contains(&colon.0).then_some(colon)
}

/// The minutes that a text of hours and minutes is as one of minutes and seconds, rounded up: from 10:00 on where it has no seconds, and
/// from 24:00 on.
pub fn stopwatch(colon: i32) -> Option<i32> {
    let (minutes, seconds) = (colon / 60, colon % 60);
    (minutes >= 24 || minutes >= 10 && seconds == 0).then_some(minutes + (seconds > 0) as i32)
}

/// Minutes as a length with its unit.
fn told(minutes: i32) -> String {
    match minutes {
        0..60 => format!("{minutes} min"),
        _ => shown::hours(minutes),
    }
}

/// A mistake with the lengths that a text with a colon can be.
fn so_long(fault: Fault, line: &str, (colon, from, to): (i32, usize, usize), says: &str) -> Fault {
    let fault = fault.fix(says, with(line, from, to, &told(colon)));
    match stopwatch(colon) {
        Some(minutes) => fault.fix("minutes and seconds", with(line, from, to, &format!("{minutes} min"))),
        None => fault,
    }
}

/// A length of ten hours or more with a colon and no unit: hours and minutes, or minutes and seconds.
fn long(cursor: &Cursor, known: &Known, length: Length) -> Result<(), Fault> {
    let colon = length.colon.filter(|colon| known.clock.judges() && colon.0 == length.minutes);
    let Some((colon, from, to)) = colon.filter(|colon| stopwatch(colon.0).is_some()) else { return Ok(()) };
    let message = format!("'{}' can be hours and minutes, or minutes and seconds", &cursor.line[from..to]);
    Err(so_long(Fault::new(from, to, message), cursor.line, (colon, from, to), "hours and minutes"))
}

/// The time of day that a length with a colon can be, on the day of what it stands with.
fn by_clock(known: &Known, length: Length, base: Base, written: &str) -> String {
    let (Some(anchor), Some((colon, ..))) = (known.anchor, length.colon) else { return written.into() };
    let days = length.minutes - colon;
    let start = match base {
        Base::Time(offset) => (anchor.minute + offset).div_euclid(DAY) * DAY,
        _ => 0,
    };
    match days {
        0 => written.into(),
        days => instant::point(&anchor, start + days + colon - anchor.minute, known.clock, false),
    }
}

/// Minutes behind a group and a plus; the group stands from one place to another.
pub fn behind(
    cursor: &Cursor,
    known: &Known,
    terms: &[Term],
    length: Length,
    group: (usize, usize),
) -> Result<(), Fault> {
    let base = base(cursor, terms, group);
    if let Some(fault) = days_later(cursor, known, base, length, group) {
        return Err(fault);
    }
    let Some((colon, from, to)) = of_day(known, length, base) else { return long(cursor, known, length) };
    let line = cursor.line;
    let written = &line[from..to];
    let clock = with(line, group.0, length.to, &by_clock(known, length, base, written));
    let at = (colon, from, to);
    Err(match base {
        Base::Anchor => so_long(doubt(from, to, written), line, at, "so long after the anchor"),
        Base::Time(_) => {
            let time = line[group.0..group.1].trim_end();
            let message = format!("'{time} + {written}' can be two times of day, or so much later");
            so_long(Fault::new(group.0, to, message), line, at, &format!("so long after {time}"))
        }
        Base::Moments => so_long(doubt(from, to, written), line, at, "so long"),
    }
    .fix(if base == Base::Anchor { "the time of day" } else { "by the clock" }, clock))
}

/// `14:00 +1`: a minute later, or a day later.
fn days_later(cursor: &Cursor, known: &Known, base: Base, length: Length, (from, to): (usize, usize)) -> Option<Fault> {
    let anchor = known.anchor.filter(|_| known.clock.judges() && length.bare && (1..=7).contains(&length.minutes))?;
    let Base::Time(offset) = base else { return None };
    let (line, number) = (cursor.line, length.minutes);
    let message = format!("'{} + {number}' can be minutes later, or days later", line[from..to].trim_end());
    let day = instant::point(&anchor, offset + number * DAY, known.clock, false);
    Some(
        Fault::new(from, length.to, message)
            .fix("minutes later", with(line, length.from, length.to, &format!("{number} min")))
            .fix("days later", with(line, from, length.to, &day)),
    )
}

/// Hours and minutes behind a moment and a minus: so long before it, or a time of day.
fn earlier(cursor: &Cursor, known: &Known, base: Base, length: Length, from: usize) -> Result<(), Fault> {
    let pure = of_day(known, length, base).filter(|colon| colon.0 == length.minutes);
    let Some((colon, start, to)) = pure else { return long(cursor, known, length) };
    let (line, written) = (cursor.line, &cursor.line[start..to]);
    let clock = with(line, from, length.to, &by_clock(known, length, base, written));
    Err(so_long(doubt(start, to, written), line, (colon, start, to), "so long before").fix("by the clock", clock))
}

/// Minutes before a plus and a group.
pub fn in_front(
    cursor: &Cursor,
    known: &Known,
    terms: &[Term],
    length: Length,
    group: (usize, usize),
) -> Result<(), Fault> {
    let base = base(cursor, terms, group);
    let line = cursor.line;
    if let (Base::Time(_), Some((colon, from, to)), true) = (base, length.colon, known.clock.judges()) {
        let (time, written) = (&line[group.0..group.1], &line[from..to]);
        let message = format!("'{written} + {time}' can be so much later, or another time");
        let turned = format!("{time} + {}", told(colon));
        return Err(Fault::new(from, group.1, message)
            .fix(format!("so long after {time}"), with(line, from, group.1, &turned))
            .fix("by the clock", with(line, from, group.1, written)));
    }
    let Some((colon, from, to)) = of_day(known, length, base) else { return long(cursor, known, length) };
    let clock = with(line, length.from, group.1, &by_clock(known, length, base, &line[from..to]));
    let says = if base == Base::Anchor {
        ["so long after the anchor", "the time of day"]
    } else {
        ["so long", "by the clock"]
    };
    Err(so_long(doubt(from, to, &line[from..to]), line, (colon, from, to), says[0]).fix(says[1], clock))
}

fn doubt(from: usize, to: usize, written: &str) -> Fault {
    Fault::new(from, to, format!("'{written}' can be a time of day, or a length of time"))
}

/// A time of day with a dash and another behind it, `9:00 - 9:30`: from the one to the other, or so much earlier.
pub fn window(
    cursor: &Cursor,
    known: &Known,
    terms: &[Term],
    length: Length,
    (from, to): (usize, usize),
) -> Result<(), Fault> {
    let (line, time) = (cursor.line, cursor.line[from..to].trim_end());
    let base = base(cursor, terms, (from, to));
    let (Base::Time(offset), Some(anchor), true) = (base, known.anchor, known.clock.judges()) else {
        return earlier(cursor, known, base, length, from);
    };
    // A number behind a dash may be an hour: `9:00 - 10`.
    let hour = length.bare && length.minutes <= 24 && length.minutes * 60 > (anchor.minute + offset).rem_euclid(DAY);
    let written = match length.colon {
        Some((_, from, to)) => &line[from..to],
        None if hour => &line[length.from..length.to],
        None => return Ok(()),
    };
    let message = format!("'{time} - {written}' can be two times of day, or so much earlier");
    let (fault, says) = (Fault::new(from, length.to, message), format!("so much before {time}"));
    let fault = match length.colon {
        Some(colon) => so_long(fault, line, colon, &says),
        None => fault.fix(says, with(line, length.from, length.to, &told(length.minutes))),
    };
    let last = match hour {
        true => clock::on_the_hour(length.minutes),
        false => line[length.from..length.to].into(),
    };
    Err(match subject_of(line, (from, length.to)) {
        None => fault,
        Some(subject) => {
            let lines = vec![format!("{subject} not before {time}"), format!("{subject} by {last}")];
            fault.fixes("from the one to the other", lines)
        }
    })
}

/// What a rule is about whose times stand from one place to another: it stands before them, or behind a sign. With it what stands before.
fn subject_of(line: &str, (from, to): (usize, usize)) -> Option<String> {
    let end = tokens::comment(line).unwrap_or(line.len()).max(to);
    let (front, behind) = (line[..from].trim_end(), line[to..end].trim());
    let words = ["not before", "not after", "by", "<=", ">=", "="];
    let before = words.iter().find_map(|word| front.strip_suffix(word)).map(str::trim);
    if let Some(before) = before.filter(|before| !before.is_empty()) {
        return Some(before.into());
    }
    let turned = ["<=", ">=", "="].iter().find_map(|sign| behind.strip_prefix(sign))?.trim();
    let head = front.is_empty() || front.ends_with(':');
    (head && !turned.is_empty()).then(|| format!("{front} {turned}").trim_start().into())
}

/// Minutes before `after` and `before`, one length or two, which can be something else.
pub struct Amount<'a> {
    pub line: &'a str,
    pub known: &'a Known<'a>,
    pub first: Length,
    pub last: Option<Length>,
}

impl Amount<'_> {
    /// The length of a text with a colon and nothing before it.
    fn pure(length: Length) -> Option<i32> {
        length.colon.map(|colon| colon.0).filter(|colon| *colon == length.minutes)
    }

    fn end(&self) -> Length {
        self.last.unwrap_or(self.first)
    }

    /// Both lengths in some words.
    fn both(&self, text: &dyn Fn(Length) -> String) -> String {
        match self.last {
            None => text(self.first),
            Some(last) => format!("{} to {}", text(self.first), text(last)),
        }
    }

    /// Whether they can be times of day. In a range an hour may stand without its minutes: `10 to 10:30`.
    fn is_clock(&self) -> bool {
        let of_day = |length: Length| of_day(self.known, length, Base::Moments).is_some();
        let hour = self.first.bare && self.first.minutes <= 24;
        of_day(self.end()) && (of_day(self.first) || hour && self.last.is_some())
    }

    /// Whether they can be minutes and seconds.
    fn is_watch(&self) -> bool {
        let both = [self.first, self.end()];
        let watch = |length: &Length| Amount::pure(*length).and_then(stopwatch).is_some();
        let pure = both.iter().all(|length| Amount::pure(*length).is_some());
        self.known.clock.judges() && pure && both.iter().any(watch)
    }

    /// A length as hours and minutes.
    fn long(length: Length) -> String {
        match length.minutes < DAY || Amount::pure(length).is_some() {
            true => told(length.minutes),
            false => shown::length(length.minutes),
        }
    }

    /// A length as one of minutes and seconds, rounded up.
    fn watch(length: Length) -> String {
        format!("{} min", length.minutes / 60 + (length.minutes % 60 > 0) as i32)
    }

    /// A length as a time of day.
    fn time(&self, length: Length) -> String {
        match length.colon {
            None => clock::on_the_hour(length.minutes),
            Some((_, from, to)) => by_clock(self.known, length, Base::Moments, &self.line[from..to]),
        }
    }

    /// What can be asked: times of day, `at least 9:15 after ready`, where the anchor is at 8:00; or minutes and seconds, `45:00`. `whole`
    /// gives the line with other words behind what the rule is about.
    pub fn doubt(&self, (least, most): (bool, bool), whole: &dyn Fn(String) -> String) -> Option<Fault> {
        let (is_clock, is_watch) = (self.is_clock(), self.is_watch());
        (is_clock || is_watch).then_some(())?;
        let (from, to) = (self.first.from, self.end().to);
        let (written, say) = (&self.line[from..to], |text: &str| with(self.line, from, to, text));
        let fault = match is_clock {
            true => doubt(from, to, written),
            false => Fault::new(from, to, format!("'{written}' can be hours and minutes, or minutes and seconds")),
        };
        let fault = fault.fix("so long", say(&self.both(&Amount::long)));
        let fault = match is_watch {
            true => fault.fix("minutes and seconds", say(&self.both(&Amount::watch))),
            false => fault,
        };
        let (early, late) = (self.time(self.first), self.time(self.end()));
        let at = match (self.last.is_some(), least, most) {
            (true, ..) => vec![whole(format!("not before {early}")), whole(format!("by {late}"))],
            (_, true, true) => vec![whole(format!("= {early}"))],
            (_, true, false) => vec![whole(format!("not before {early}"))],
            _ => vec![whole(format!("by {early}"))],
        };
        Some(if is_clock { fault.fixes("by the clock", at) } else { fault })
    }
}
