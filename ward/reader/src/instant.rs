//! Clock times, days and dates: `8:40`, `Thu 14:00`, `2026-11-19 14:00`.

use crate::calendar;
use crate::clock::{self, Anchor, Clock, DAY, DAYS, WEEK};
use crate::cursor::Cursor;
use crate::dates;
use crate::fault::{with, Fault};
use crate::length::{self, is_hours, is_number};
use crate::limits;
use crate::named::{self, Named};
use crate::nearby;
use crate::sheet::Moment;
use crate::shown;
use crate::tokens::{Kind, Token};

/// From when on a text starts in the evening, and goes on over midnight.
const EVENING: i32 = 20 * 60;

/// What is said of a time that no rule can name.
pub const FAR: &str = "this is more than two weeks from the anchor";

/// What a line is read with.
#[derive(Clone, Copy)]
pub struct Known<'k> {
    pub moments: &'k [Moment],
    pub anchor: Option<Anchor>,
    /// Whether the anchor's line is a mistake, so that nothing is known of its time, and nothing is told of that again.
    pub doubtful: bool,
    pub clock: &'k Clock,
    /// The days that the line names, with the times behind them.
    pub named: &'k [Named],
}

impl Known<'_> {
    /// The moment that has a name.
    pub fn moment(&self, name: &str) -> Option<usize> {
        self.moments.iter().position(|known| known.name == name)
    }
}

/// A day, a date and a time as they were written.
pub struct Stamp {
    pub day: Option<usize>,
    pub date: Option<i64>,
    /// The minute of the day, up to 24:00.
    pub minute: i32,
    pub from: usize,
    pub to: usize,
}

/// A day of the week, where a word is one.
fn day(token: Token) -> Option<usize> {
    clock::day(token.text).filter(|_| token.kind == Kind::Word)
}

/// Whether a word is a date, in the one form that there is.
fn is_date(token: Token) -> bool {
    token.kind == Kind::Word && calendar::numbers(token.text).is_some()
}

/// Whether a clock time, a day or a date starts here. A moment that is called like a day stands in quotes.
pub fn starts(cursor: &Cursor) -> bool {
    let Some(token) = cursor.peek(0).filter(|token| token.kind == Kind::Word) else { return false };
    is_hours(token.text) || is_date(token) || day(token).is_some()
}

/// Reads an optional day, an optional date, and a time.
pub fn stamp(cursor: &mut Cursor, clock: &Clock) -> Result<Stamp, Fault> {
    let from = cursor.place();
    let named = cursor.peek(0).and_then(day);
    let named_to = cursor.peek(0).map_or(from, |token| token.to);
    if named.is_some() {
        cursor.take();
    }
    let mut date = None;
    if let Some(token) = cursor.peek(0).filter(|token| is_date(*token)) {
        date = Some(number(cursor.line, token)?);
        cursor.take();
    }
    if let (Some(named), Some(date)) = (named, date) {
        let real = calendar::weekday(date);
        if real != named {
            let message = format!("{} is a {}", calendar::written(date), DAYS[real]);
            let to = cursor.last().map_or(named_to, |token| token.to);
            // The date of that day of the week that is nearest.
            let other = date + (named as i64 - real as i64 + 10).rem_euclid(7) - 3;
            let other = format!("{} {}", &DAYS[named][..3], calendar::written(other));
            return Err(Fault::new(from, to, message)
                .fix("the date", with(cursor.line, from, named_to, &DAYS[real][..3]))
                .fix("the day of the week", with(cursor.line, from, to, &other))
                .hint("the day of the week and the date are two days"));
        }
    }
    let minute = time(cursor, clock, from, named.is_some() || date.is_some())?;
    Ok(Stamp { day: named, date, minute, from, to: cursor.last().map_or(from, |token| token.to) })
}

/// The number of a date's day.
fn number(line: &str, token: Token) -> Result<i64, Fault> {
    let (year, month, date) = calendar::numbers(token.text).unwrap_or((0, 0, 0));
    calendar::day(year, month, date).ok_or_else(|| {
        let fault = Fault::new(token.from, token.to, format!("there is no date {}", token.text));
        match calendar::day(year, date, month) {
            Some(day) => fault.fix("", with(line, token.from, token.to, &calendar::written(day))),
            None => fault.hint("a date is written as year, month and day: 2026-11-17"),
        }
    })
}

/// A time of day. `named` says whether a day or a date stands before it.
fn time(cursor: &mut Cursor, clock: &Clock, from: usize, named: bool) -> Result<i32, Fault> {
    let Some(token) = cursor.peek(0).filter(|token| token.kind == Kind::Word && is_hours(token.text)) else {
        return Err(no_time(cursor, from, named));
    };
    let minute = clock.hours(token.text).ok_or_else(|| length::no_hours(cursor.line, token))?;
    if minute > DAY {
        return Err(Fault::new(token.from, token.to, format!("'{}' is no time of day", token.text))
            .hint("a day ends at 24:00; later times have their day or date before them"));
    }
    cursor.take();
    match half(cursor, token) {
        Some(fault) => Err(fault),
        None => Ok(minute),
    }
}

/// What a time has behind it that it must not have: `pm`, `Uhr`, or its day.
pub fn half(cursor: &Cursor, time: Token) -> Option<Fault> {
    let token = cursor.peek(0).filter(|token| token.kind == Kind::Word)?;
    let say = |text: &str| with(cursor.line, time.from, token.to, text);
    let fault = |message: String| Some(Fault::new(time.from, token.to, message));
    let written = &cursor.line[time.from..token.to];
    match token.text.to_lowercase().as_str() {
        "am" | "pm" | "a.m." | "p.m." => {
            let text = of_half(time.text, token.text.to_lowercase().starts_with('p'))?;
            fault(format!("'{written}': times of day go from 0:00 to 24:00")).map(|fault| fault.fix("", say(&text)))
        }
        "uhr" | "h" | "o'clock" | "hrs" | "hours" => {
            fault(format!("'{}' is too much", token.text)).map(|fault| fault.fix("", say(time.text)))
        }
        _ if day(token).is_some() => fault("the day stands before the time".into())
            .map(|fault| fault.fix("", say(&format!("{} {}", token.text, time.text)))),
        _ => None,
    }
}

/// Hours and minutes of one half of the day, as hours and minutes of the day.
pub fn of_half(text: &str, late: bool) -> Option<String> {
    let (hours, minutes) = text.split_once(':').unwrap_or((text, "00"));
    let hours: i32 = hours.parse().ok().filter(|hours| (1..=12).contains(hours))?;
    // The zero before an hour of the morning says that it is none of the evening.
    Some(match late || hours == 12 || hours > 9 {
        true => format!("{}:{minutes}", hours % 12 + if late { 12 } else { 0 }),
        false => format!("0{hours}:{minutes}"),
    })
}

/// What stands where a time belongs.
fn no_time(cursor: &Cursor, from: usize, named: bool) -> Fault {
    let next = cursor.peek(0);
    let word = next.filter(|token| token.kind == Kind::Word).map_or("", |token| token.text).to_lowercase();
    let before = &cursor.line[from..next.map_or(cursor.end(), |token| token.from)].trim_end();
    let fault = match named {
        true => Fault::new(from, from + before.len(), format!("'{before}' has no time")),
        false => cursor.fault("a time of day is expected"),
    };
    let to = next.map_or(cursor.end(), |token| token.to);
    if named && word == "week" {
        return fault.hint("write the date, or count from the anchor");
    }
    if let Some(hint) = nearby::everyday(&word).filter(|_| named && !["noon", "midnight"].contains(&word.as_str())) {
        return fault.hint(hint);
    }
    let digits = cursor.peek(1).is_some_and(|next| next.text.starts_with(|c: char| c.is_ascii_digit()));
    if named && digits && next.is_some_and(|token| token.text == ",") {
        let time = cursor.peek(1).map_or("", |token| token.text);
        let to = cursor.peek(1).map_or(to, |token| token.to);
        return fault.fix("", with(cursor.line, from, to, &format!("{before} {time}")));
    }
    if let Some(fault) = next.filter(|_| named).and_then(|next| hour_of_day(cursor, next, from)) {
        return fault;
    }
    let ends =
        next.is_none_or(|next| next.kind != Kind::Word) || ["midnight", "to", "and", "or"].contains(&word.as_str());
    let to = if word == "midnight" { to } else { from + before.len() };
    match named {
        true if !ends => fault,
        true => fault
            .fix("when the day starts", with(cursor.line, from, to, &format!("{before} 0:00")))
            .fix("when the day ends", with(cursor.line, from, to, &format!("{before} 24:00"))),
        false => fault.hint("times are written 8:40 or 14:05"),
    }
}

/// An hour, or a time in another form, behind a day: `Thu 9`, `Thu 2pm`, `Thu 14.00`.
fn hour_of_day(cursor: &Cursor, next: Token, from: usize) -> Option<Fault> {
    let none = Known { moments: &[], anchor: None, doubtful: false, clock: &Clock::unjudged(), named: &[] };
    let fault = meant(cursor, &none).unwrap_or_else(|| bare(cursor, next, &none));
    let digits = next.text.starts_with(|c: char| c.is_ascii_digit());
    let minutes = |fix: &crate::fault::Fix| !fix.says.starts_with("minutes");
    let fixes: Vec<_> = fault.fixes.into_iter().filter(minutes).collect();
    (digits && !fixes.is_empty()).then(|| {
        let message = format!("'{}' has no time as it is written here", &cursor.line[from..next.to]);
        Fault { fixes, ..Fault::new(from, next.to, message) }
    })
}

/// Reads a clock time as minutes from the anchor. `listed` says whether it stands in a list, where minutes need brackets.
pub fn read(cursor: &mut Cursor, known: &Known, listed: bool) -> Result<i32, Fault> {
    let stamp = stamp(cursor, known.clock)?;
    let line = cursor.line;
    let written = &line[stamp.from..stamp.to];
    let fault = |message: &str| Fault::new(stamp.from, stamp.to, message);
    let say = |text: String| with(line, stamp.from, stamp.to, &text);
    if known.anchor.is_none() && known.doubtful {
        return Ok(0);
    }
    let Some(anchor) = known.anchor else { return Err(no_anchor(line, &stamp)) };
    if known.moment(written).is_some() {
        let offset = stamp.minute - anchor.minute;
        return Err(fault("a moment is called so, and it is a time of day too")
            .fix("the moment", say(format!("\"{written}\"")))
            .fix("the time of day", say(from_anchor(offset, listed))));
    }
    if !known.clock.judges() {
        return Ok(0);
    }
    let found = offsets(line, known, &stamp, anchor, listed)?;
    match found[..] {
        [only] if only.abs() > limits::LEAD => {
            Err(fault(FAR).hint("is it a slip of the keyboard? Times lie within two weeks of the anchor"))
        }
        [only] => Ok(only),
        _ => {
            let count = ["two", "three"].get(found.len() - 2).copied().unwrap_or("several");
            let message = format!("'{written}' can be read in {count} ways");
            Err(found.iter().fold(fault(&message), |fault, &offset| {
                fault.fix(told(&anchor, offset, known.clock), say(point(&anchor, offset, known.clock, listed)))
            }))
        }
    }
}

/// A time of day in a text that does not say when the anchor is.
fn no_anchor(line: &str, stamp: &Stamp) -> Fault {
    let fault = Fault::new(stamp.from, stamp.to, "a time of day needs the anchor's time")
        .hint("say when the anchor is, on a line of its own, as in anchor: 8:00");
    let long = format!("anchor + {}", &line[stamp.from..stamp.to]);
    match stamp.day.is_none() && stamp.date.is_none() {
        true => fault
            .fix("where it is no time of day, but so long after the anchor", with(line, stamp.from, stamp.to, &long)),
        false => fault,
    }
}

/// The minutes from the anchor that a stamp can be.
fn offsets(line: &str, known: &Known, stamp: &Stamp, anchor: Anchor, listed: bool) -> Result<Vec<i32>, Fault> {
    let fault = |message: &str, hint: &str| Err(Fault::new(stamp.from, stamp.to, message).hint(hint));
    let offset = stamp.minute - anchor.minute;
    let asked = night(line, stamp).map_or(Ok(()), Err);
    match (stamp.date, stamp.day) {
        (Some(date), _) => {
            let Some(first) = anchor.date else {
                let hint = "write the anchor with its date, as in anchor: 2026-11-17 8:00";
                return fault("nobody knows the date of the anchor", hint);
            };
            asked?;
            let days = (date - first).clamp(-100, 100) as i32;
            Ok(vec![days * DAY + offset])
        }
        (None, Some(day)) => {
            let Some(first) = anchor.day else {
                let hint = "write the anchor with its day, as in anchor: Monday 8:00";
                return fault("nobody knows what day the anchor is", hint);
            };
            asked?;
            Ok(at_twelve(stamp.minute, anchor.minute, of_day(first, day, offset)))
        }
        (None, None) => {
            if let Some(fault) = named::which_day(line, known, stamp, anchor, listed) {
                return Err(fault);
            }
            if offset >= 0 {
                asked?;
            }
            Ok(of_no_day(stamp.minute, offset, line[stamp.from..].starts_with('0')))
        }
    }
}

/// The offsets of a time without a day: before the anchor's time it can be that day, the next, or the other half of a day; 0:00 of an
/// anchor at 0:00 is that one, or the end of its day.
fn of_no_day(minute: i32, offset: i32, zero: bool) -> Vec<i32> {
    match offset {
        0 if minute == 0 => return vec![0, DAY],
        0.. => return vec![offset],
        _ => {}
    }
    let half = (60..DAY / 2).contains(&minute) && !zero || is_twelve(minute, minute - offset);
    let late = (half && offset + DAY / 2 >= 0).then_some(offset + DAY / 2);
    [offset, offset + DAY].into_iter().chain(late).collect()
}

/// Whether a time can be one of the first hour behind midnight: from 12:00 to 12:59, in a text that starts in the evening.
fn is_twelve(minute: i32, anchor: i32) -> bool {
    (DAY / 2..DAY / 2 + 60).contains(&minute) && anchor >= EVENING
}

/// The offsets of a time behind a day of the week: 12 o'clock can be midnight where the text starts in the evening, and 0:00 of an anchor at
/// 0:00 is that one, or the end of its day.
fn at_twelve(minute: i32, anchor: i32, offsets: Vec<i32>) -> Vec<i32> {
    match offsets[..] {
        [0] if minute == 0 => vec![0, DAY],
        _ if is_twelve(minute, anchor) => offsets.iter().flat_map(|offset| [offset - DAY / 2, *offset]).collect(),
        _ => offsets,
    }
}

/// Whether a time without a zero before it is one of those of the night which may be of the afternoon.
pub fn is_small(minute: i32, time: &str) -> bool {
    clock::SMALL.contains(&minute) && !time.starts_with('0')
}

/// A time of the night, in two ways: as it is written with a zero before it, and in the afternoon.
pub fn halves(fault: Fault, time: &str, minute: i32, say: &dyn Fn(&str) -> String) -> Fault {
    let late = format!("{}:{:02}", minute / 60 + 12, minute % 60);
    fault.fix("at night", say(&format!("0{time}"))).fix("in the afternoon", say(&late))
}

/// A time of the night: it may be one of the afternoon. A zero before it says that it is none.
fn night(line: &str, stamp: &Stamp) -> Option<Fault> {
    let written = &line[stamp.from..stamp.to];
    let time = written.rsplit(' ').next().filter(|time| is_small(stamp.minute, time))?;
    let say = |text: &str| with(line, stamp.to - time.len(), stamp.to, text);
    let fault = Fault::new(stamp.from, stamp.to, format!("'{written}' can be read in two ways"));
    Some(halves(fault, time, stamp.minute, &say))
}

/// The offsets that a day of the week and a time can have: the next one, and the last one too where that is as near at hand: on the
/// anchor's own day before its time, on the day before it, and on an earlier day of its week that is nearer than the next.
pub fn of_day(anchor: usize, day: usize, offset: i32) -> Vec<i32> {
    let ahead = (day + 7 - anchor) % 7;
    let next = ahead as i32 * DAY + offset;
    if next < 0 {
        return vec![next, next + WEEK];
    }
    match ahead == 6 || ahead >= 4 && day < anchor {
        true => vec![next - WEEK, next],
        false => vec![next],
    }
}

/// A point of time in words.
pub fn told(anchor: &Anchor, offset: i32, clock: &Clock) -> String {
    let minute = anchor.minute + offset;
    let (days, of_day) = (minute.div_euclid(DAY), minute.rem_euclid(DAY));
    let time = (clock.write)(of_day);
    let side = if offset < 0 { ", before the anchor" } else { "" };
    match (anchor.date, anchor.day) {
        (Some(date), _) => format!("{} {time}{side}", calendar::named(date + i64::from(days))),
        (None, Some(day)) => {
            let name = DAYS[(day as i32 + days).rem_euclid(7) as usize];
            let week = match days {
                7.. => ", a week later",
                _ => side,
            };
            format!("{name} {time}{week}")
        }
        _ => match days {
            0 => format!("{time} on the anchor's day{side}"),
            1 => format!("{time} on the next day"),
            -1 => format!("{time} on the day before"),
            ..0 => format!("{time}, {} days before", -days),
            _ => format!("{time}, {days} days later"),
        },
    }
}

/// A point of time as it can be written without a doubt: its date, or what it is from the anchor.
pub fn point(anchor: &Anchor, offset: i32, clock: &Clock, listed: bool) -> String {
    let minute = anchor.minute + offset;
    let (days, of_day) = (minute.div_euclid(DAY), minute.rem_euclid(DAY));
    match anchor.date {
        Some(date) => format!("{} {}", calendar::written(date + i64::from(days)), clock.time(of_day)),
        None if offset >= 0 && days == 0 && of_day > 0 => clock.time(of_day),
        None => from_anchor(offset, listed),
    }
}

/// Minutes from the anchor.
pub fn from_anchor(offset: i32, listed: bool) -> String {
    let text = match offset {
        0 => return "anchor".into(),
        1.. => format!("anchor + {}", shown::length(offset)),
        _ => format!("anchor - {}", shown::length(-offset)),
    };
    if listed {
        format!("({text})")
    } else {
        text
    }
}

/// What stands where a time belongs and is none, though somebody may have meant one: `9`, `2pm`, `8.45`, `noon`, `tomorrow 10:00`.
pub fn meant(cursor: &Cursor, known: &Known) -> Option<Fault> {
    let token = cursor.peek(0).filter(|token| token.kind == Kind::Word && known.moment(token.text).is_none())?;
    let next = cursor.peek(1).filter(|next| next.kind == Kind::Word);
    let small = token.text.to_lowercase();
    let behind = next.map_or(String::new(), |next| next.text.to_lowercase());
    let fault = |to: usize, message: String| Fault::new(token.from, to, message);
    let say = |to: usize, text: &str| with(cursor.line, token.from, to, text);
    let no_time = || fault(token.to, format!("'{}' is no time of day", token.text));
    if dates::is_date(&small, &behind) {
        let fault = fault(next?.to, format!("'{} {behind}' is no date as it is written here", token.text));
        return Some(fault.hint("a date is written as year, month and day: 2026-11-17"));
    }
    if ["am", "pm", "a.m.", "p.m."].contains(&behind.as_str()) && is_number(token.text) {
        let to = next?.to;
        let written = &cursor.line[token.from..to];
        let fault = fault(to, format!("'{written}': times of day go from 0:00 to 24:00"));
        return Some(match of_half(token.text, behind.starts_with('p')) {
            Some(text) if text == "12:00" => fault.fix("noon", say(to, "12:00")).fix("midnight", say(to, "24:00")),
            Some(text) => fault.fix("", say(to, &text)),
            None => fault,
        });
    }
    if let Some(digits) = small.strip_suffix("pm").or(small.strip_suffix("am")) {
        return of_half(digits, small.ends_with("pm")).map(|text| no_time().fix("", say(token.to, &text)));
    }
    match small.as_str() {
        "noon" => Some(no_time().fix("", say(token.to, "12:00"))),
        "midnight" => {
            Some(no_time().fix("at its end", say(token.to, "24:00")).fix("at its start", say(token.to, "0:00")))
        }
        "next" | "tomorrow" | "today" | "this" => relative(cursor, known, token, &small),
        _ => in_digits(cursor, token, next).or_else(|| other_date(cursor, token)),
    }
}

/// A time of day in digits, in another form: `8.45`, `8h45`, `0845`, `9 Uhr`.
fn in_digits(cursor: &Cursor, token: Token, next: Option<Token>) -> Option<Fault> {
    let behind = next.map_or(String::new(), |next| next.text.to_lowercase());
    let fault = Fault::new(token.from, token.to, format!("'{}' is no time of day", token.text));
    let say = |to: usize, text: String| with(cursor.line, token.from, to, &text);
    let parts: Vec<&str> = token.text.split([':', '.', 'h']).collect();
    if let [hours, minutes, rest @ ..] = &parts[..] {
        let digits = is_number(hours) && is_number(minutes) && hours.len() <= 2 && minutes.len() == 2;
        let good = minutes.parse().is_ok_and(|minutes: i32| minutes < 60);
        if digits && good && (rest.is_empty() || rest == ["00"]) && hours.parse().is_ok_and(|hours: i32| hours < 25) {
            let uhr = ["uhr", "h", "o'clock"].contains(&behind.as_str());
            let to = next.filter(|_| uhr).map_or(token.to, |next| next.to);
            return Some(fault.fix("", say(to, format!("{hours}:{minutes}"))));
        }
    }
    if token.text.len() == 4 && token.text.starts_with('0') && is_number(token.text) && behind.is_empty() {
        return Some(fault.fix("", say(token.to, format!("{}:{}", &token.text[..2], &token.text[2..]))));
    }
    let clock = ["o'clock", "uhr"].contains(&behind.as_str()) && token.text.len() <= 2;
    let next = next.filter(|_| is_number(token.text) && clock)?;
    Some(fault.fix("", say(next.to, format!("{}:00", token.text))))
}

/// A bare number where a time belongs. In a line that names a day it is no minutes from the anchor.
pub fn bare(cursor: &Cursor, token: Token, known: &Known) -> Fault {
    let say = |text: String| with(cursor.line, token.from, token.to, &text);
    let late = "by the clock, in the afternoon or evening";
    let mut fault =
        Fault::new(token.from, token.to, format!("'{}' is no time of day: an hour, or minutes?", token.text));
    if let Some(hour) = token.text.parse::<i32>().ok().filter(|hour| *hour <= 24) {
        fault = fault.fix("by the clock", say(clock::on_the_hour(hour)));
        if (1..12).contains(&hour) {
            fault = fault.fix(late, say(format!("{}:00", hour + 12)));
        }
    }
    if let Some((hours, minutes)) = digits_of_day(token.text) {
        let zero = if clock::SMALL.contains(&(60 * hours)) { "0" } else { "" };
        fault = fault.fix("by the clock", say(format!("{zero}{hours}:{minutes:02}")));
        if (1..12).contains(&hours) && token.text.len() == 3 {
            fault = fault.fix(late, say(format!("{}:{minutes:02}", hours + 12)));
        }
    }
    let unit = if length::like_hours(token.text) { " min" } else { "" };
    match known.named.is_empty() {
        true => fault.fix("minutes after the anchor", say(format!("anchor + {}{unit}", token.text))),
        false => fault,
    }
}

/// Three or four digits as hours and minutes: `845`, `0845`.
fn digits_of_day(text: &str) -> Option<(i32, i32)> {
    let place = text.len().checked_sub(2).filter(|place| (1..=2).contains(place) && is_number(text))?;
    let (hours, minutes): (i32, i32) = (text[..place].parse().ok()?, text[place..].parse().ok()?);
    (hours * 60 + minutes <= DAY && minutes < 60).then_some((hours, minutes))
}

/// `next Thu 14:00`, `tomorrow 10:00`, `today 8:00`.
fn relative(cursor: &Cursor, known: &Known, token: Token, small: &str) -> Option<Fault> {
    let tokens = cursor.left();
    let (day, time) = match (small, tokens.get(1).and_then(|token| day(*token))) {
        ("next" | "this", Some(day)) => (Some(day), tokens.get(2)),
        ("tomorrow" | "today", _) => (None, tokens.get(1)),
        _ => return None,
    };
    let to = time.filter(|time| is_hours(time.text)).or(tokens.get(1)).map_or(token.to, |token| token.to);
    let fault = Fault::new(token.from, to, format!("'{}' is no day", token.text));
    let minute = time.filter(|time| is_hours(time.text)).and_then(|time| known.clock.hours(time.text));
    let (Some(anchor), Some(minute)) = (known.anchor, minute) else {
        return Some(fault.hint("days are Monday to Sunday, or Mon to Sun, or a date"));
    };
    let offset = minute - anchor.minute;
    let offsets: Vec<i32> = match (small, day) {
        ("tomorrow", _) => vec![offset + DAY],
        ("today", _) => vec![offset],
        ("this", Some(day)) => of_day(anchor.day?, day, offset).into_iter().take(1).collect(),
        (_, Some(day)) => {
            let first = ((day + 7 - anchor.day?) % 7) as i32 * DAY + offset;
            vec![first, first + WEEK]
        }
        _ => Vec::new(),
    };
    let say = |offset: i32| with(cursor.line, token.from, to, &point(&anchor, offset, known.clock, false));
    Some(offsets.iter().fold(fault, |fault, &offset| fault.fix(told(&anchor, offset, known.clock), say(offset))))
}

/// A date in another form than year, month and day with hyphens.
pub fn other_date(cursor: &Cursor, token: Token) -> Option<Fault> {
    let fault = || Fault::new(token.from, token.to, format!("'{}' is no date as it is written here", token.text));
    let say = |day: i64, behind: &str| {
        with(cursor.line, token.from, token.to, &format!("{}{behind}", calendar::written(day)))
    };
    if let Some((date, time)) = token.text.split_once('T') {
        let (year, month, of_month) = calendar::numbers(date)?;
        let day = calendar::day(year, month, of_month)?;
        return Some(fault().fix("", say(day, &format!(" {time}"))));
    }
    let parts: Vec<&str> = token.text.split(['.', '/', '-']).collect();
    let [first, _, third] = parts[..] else { return None };
    if !parts.iter().all(|part| is_number(part) && part.len() <= 4) {
        return None;
    }
    let numbers: Vec<i64> = parts.iter().filter_map(|part| part.parse().ok()).collect();
    let [a, b, c] = numbers[..] else { return None };
    let fault = fault().hint("a date is written as year, month and day: 2026-11-17");
    let mut days: Vec<i64> = match (first.len(), third.len()) {
        (4, _) => calendar::day(a, b, c).into_iter().collect(),
        (_, 4) => [calendar::day(c, b, a), calendar::day(c, a, b)].into_iter().flatten().collect(),
        (2, 2) => [(c, b, a), (c, a, b), (a, b, c)]
            .into_iter()
            .filter_map(|(year, month, date)| calendar::day(2000 + year, month, date))
            .collect(),
        _ => Vec::new(),
    };
    days.dedup();
    Some(days.iter().fold(fault, |fault, &day| fault.fix(calendar::named(day), say(day, ""))))
}
