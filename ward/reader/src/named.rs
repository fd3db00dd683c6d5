//! Days that a line names once, and times of it that have none: which day they are of is asked.

use crate::calendar;
use crate::clock::{self, Anchor, DAY, DAYS};
use crate::fault::{with, Fault};
use crate::instant::{self, Known, Stamp};
use crate::length::is_hours;
use crate::parse::part;
use crate::tokens::{Kind, Token};

/// The most days of a line that a time without one is offered for.
const MOST: usize = 3;

/// A day that a line names.
#[derive(Clone, Debug, PartialEq, Eq)]
pub struct Named {
    /// The day as it is written: a day of the week, a date, or both.
    pub day: String,
    /// The time behind it, as it is written; empty where there is none.
    pub time: String,
    /// The line that names it.
    pub line: String,
}

fn is_day(token: &Token) -> bool {
    token.kind == Kind::Word && (clock::day(token.text).is_some() || calendar::numbers(token.text).is_some())
}

/// The days that a line names, each once.
pub fn of(line: &str) -> Vec<Named> {
    let end = crate::tokens::comment(line).unwrap_or(line.len());
    let tokens = part(line, 0, end).unwrap_or_default();
    let mut found: Vec<Named> = Vec::new();
    let mut at = 0;
    while at < tokens.len() {
        let count = tokens[at..].iter().take_while(|token| is_day(token)).count();
        if count > 0 {
            let day = line[tokens[at].from..tokens[at + count - 1].to].to_string();
            let time = tokens.get(at + count).map_or("", |token| token.text);
            let time = time.split(['-', '–']).next().filter(|time| is_hours(time)).unwrap_or("");
            found.push(Named { day, time: time.into(), line: line[..end].into() });
        }
        at += count.max(1);
    }
    found
}

/// Puts days to others, each once.
pub fn join(days: &mut Vec<Named>, more: Vec<Named>) {
    for named in more {
        if !days.iter().any(|known| known.day == named.day) {
            days.push(named);
        }
    }
}

/// A time without a day in a line that names one: it can be of that day, of the one beside it, or of the anchor's.
pub fn which_day(line: &str, known: &Known, stamp: &Stamp, anchor: Anchor, listed: bool) -> Option<Fault> {
    let (written, first) = (&line[stamp.from..stamp.to], anchor.day?);
    known.named.first()?;
    let say = |text: &str| with(line, stamp.from, stamp.to, text);
    let own = match anchor.date {
        Some(date) => format!("{} {written}", calendar::written(date)),
        None => format!("{} {written}", &DAYS[first][..3]),
    };
    let mut fault = Fault::new(stamp.from, stamp.to, format!("of which day is '{written}'? The line names one"));
    for named in known.named.iter().take(MOST) {
        fault = fault.fix(format!("on {}", named.day), say(&format!("{} {written}", named.day)));
        for offset in beside(known, named, stamp.minute, written, anchor).unwrap_or_default() {
            let text = match anchor.date {
                Some(_) => instant::point(&anchor, offset, known.clock, listed),
                None if (0..DAY).contains(&(anchor.minute + offset)) => own.clone(),
                None => instant::from_anchor(offset, listed),
            };
            fault = fault.fix(instant::told(&anchor, offset, known.clock), say(&text));
        }
    }
    Some(fault.fix("on the anchor's day", say(&own)))
}

/// The offsets of a time on the day behind a named one, where it ends what starts there and is no later by the clock; on the day before,
/// where it starts what ends there.
fn beside(known: &Known, named: &Named, minute: i32, written: &str, anchor: Anchor) -> Option<Vec<i32>> {
    let time = known.clock.hours(&named.time)?;
    let ahead = match calendar::numbers(named.day.rsplit(' ').next()?) {
        Some((year, month, date)) => vec![(calendar::day(year, month, date)? - anchor.date?) as i32 * DAY],
        None => {
            let days = instant::of_day(anchor.day?, clock::day(&named.day)?, time - anchor.minute);
            days.iter().map(|offset| offset - (time - anchor.minute)).collect()
        }
    };
    let (own, day) = (named.line.find(written)?, named.line.find(&named.day)?);
    let between = named.line[own.min(day)..own.max(day)].to_lowercase();
    let range = [" to ", "-", "–", " until ", " till ", " and ", " by "].iter().any(|word| between.contains(word));
    let beside = match own < day {
        true if minute >= time && range => -DAY,
        false if minute <= time && range => DAY,
        _ => return None,
    };
    Some(ahead.iter().map(|day| day + beside + minute - anchor.minute).collect())
}
