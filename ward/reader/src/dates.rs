//! Days, dates and times of day in other forms than those that are read.

use crate::calendar;
use crate::clock::{self, DAY, DAYS};
use crate::instant;
use crate::length::{is_hours, is_number};
use crate::plain::{one, Put, Seen};
use crate::stamps;

/// Other names of the days, Monday first; a full stop behind one plays no part.
const OTHERS: [&[&str]; 7] = [
    &["mo", "montag", "mondays", "montags"],
    &["tu", "tues", "di", "dienstag", "tuesdays", "dienstags"],
    &["we", "weds", "mi", "mittwoch", "wednesdays", "mittwochs"],
    &["th", "thur", "thurs", "do", "donnerstag", "thursdays", "donnerstags"],
    &["fr", "freitag", "fridays", "freitags"],
    &["sa", "samstag", "sonnabend", "saturdays", "samstags"],
    &["su", "so", "sonntag", "sundays", "sonntags"],
];

/// The first letters of the months' names, in English and in German.
const MONTHS: [&[&str]; 12] = [
    &["jan"],
    &["feb"],
    &["mar", "mär"],
    &["apr"],
    &["may", "mai"],
    &["jun"],
    &["jul"],
    &["aug"],
    &["sep"],
    &["oct", "okt"],
    &["nov"],
    &["dec", "dez"],
];

/// A day of the week by another name.
pub fn day(seen: &Seen) -> Option<Put> {
    let word = seen.word(0);
    let short = word.strip_suffix('.').unwrap_or(&word);
    let letter = |days: &[(&'static str, &str)]| {
        let time = is_hours(seen.plain(1));
        time.then(|| (1, days.iter().map(|(says, day)| (*says, day.to_string())).collect()))
    };
    match short {
        "m" => return letter(&[("", "Mon")]),
        "t" => return letter(&[("Tuesday", "Tue"), ("Thursday", "Thu")]),
        "w" => return letter(&[("", "Wed")]),
        "f" => return letter(&[("", "Fri")]),
        "s" => return letter(&[("Saturday", "Sat"), ("Sunday", "Sun")]),
        _ => {}
    }
    let known = clock::day(short).filter(|_| short.len() < word.len());
    one(1, &DAYS[known.or(day_name(short))?][..3])
}

/// The day that another name is one of.
pub fn day_name(word: &str) -> Option<usize> {
    let short = word.strip_suffix('.').unwrap_or(word);
    OTHERS.iter().position(|names| names.contains(&short))
}

/// Whether a word names a month.
pub fn is_month(word: &str) -> bool {
    month(word).is_some()
}

/// The month that a word names.
fn month(word: &str) -> Option<i64> {
    let short = word.strip_suffix('.').unwrap_or(word);
    let letters = short.chars().count() >= 3 && short.chars().all(char::is_alphabetic);
    let names = |names: &[&str]| names.iter().any(|name| short.starts_with(name));
    MONTHS.iter().position(|month| letters && names(month)).map(|place| place as i64 + 1)
}

/// The day of a month: `19`, `19.`, `19th`.
fn of_month(word: &str) -> Option<i64> {
    let digits = word.trim_end_matches(|c: char| !c.is_ascii_digit());
    let behind = ["", ".", "st", "nd", "rd", "th"].contains(&&word[digits.len()..]);
    digits.parse().ok().filter(|day| behind && (1..=31).contains(day))
}

/// Whether two words are a day of a month and its month.
pub fn is_date(first: &str, second: &str) -> bool {
    of_month(first).is_some() && month(second).is_some() || month(first).is_some() && of_month(second).is_some()
}

/// A date with the name of its month: `19 Nov 2026`, `November 19, 2026`, `19. Nov`. Without its year it is the one that is nearest to the
/// anchor's date.
pub fn named(seen: &Seen) -> Option<Put> {
    let (first, second) = (seen.word(0), seen.word(1));
    let (date, month) = match (of_month(&first), month(&first)) {
        (Some(date), _) => (date, month(&second)?),
        (_, Some(month)) => (of_month(&second)?, month),
        _ => return None,
    };
    let comma = (seen.plain(2) == ",") as usize;
    let behind = seen.word(2 + comma);
    let year: Option<i64> = behind.parse().ok().filter(|_| behind.len() == 4 && is_number(&behind));
    if let Some(year) = year {
        let more = (seen.plain(3 + comma) == ",") as usize;
        return one(3 + comma + more, calendar::written(calendar::day(year, month, date)?));
    }
    let anchor = seen.known.anchor?.date?;
    let (this, ..) = calendar::date(anchor);
    let days = (this - 1..=this + 1).filter_map(|year| calendar::day(year, month, date));
    one(2 + comma, calendar::written(days.min_by_key(|day| (day - anchor).abs())?))
}

/// A time of day with a unit behind it, with a space within it, or with seconds: `8:45h`, `8: 45`, `8:45:30`.
pub fn clock(seen: &Seen) -> Option<Put> {
    let (word, next) = (seen.word(0), seen.word(1));
    let two = |text: &str| text.len() == 2 && is_number(text);
    if let Some(hours) = word.strip_suffix(':').filter(|hours| is_number(hours) && two(&next)) {
        return one(2, format!("{hours}:{next}"));
    }
    if let Some(minutes) = next.strip_prefix(':').filter(|minutes| is_number(&word) && two(minutes)) {
        return one(2, format!("{word}:{minutes}"));
    }
    for unit in ["h", "uhr", "hrs", "h.", "o'clock"] {
        if let Some(time) = word.strip_suffix(unit).filter(|time| is_hours(time)) {
            return one(1, time);
        }
    }
    let parts: Vec<&str> = word.split(':').collect();
    if let ([hours, minutes], Some(anchor)) = (&parts[..], seen.known.anchor) {
        return next_day(seen, hours.parse().ok()?, minutes, anchor.minute);
    }
    let [hours, minutes, seconds] = parts[..] else { return None };
    let such = is_number(hours) && two(minutes) && two(seconds) && seconds != "00";
    let (hours, minutes): (i32, i32) = (hours.parse().ok().filter(|_| such)?, minutes.parse().ok()?);
    let time = |minute: i32| format!("{}:{:02}", minute / 60, minute % 60);
    let minute = hours.checked_mul(60)? + minutes;
    Some((1, vec![("without its seconds", time(minute)), ("the next whole minute", time(minute + 1))]))
}

/// A time behind 24:00: one of the next day.
fn next_day(seen: &Seen, hours: i32, minutes: &str, start: i32) -> Option<Put> {
    let (anchor, clock) = (seen.known.anchor?, seen.known.clock);
    (!stamps::behind_day(seen)).then_some(())?;
    let such = (24..48).contains(&hours) && minutes.len() == 2 && clock.judges();
    let minute: i32 = minutes.parse().ok().filter(|minute| such && (0..60).contains(minute))?;
    (60 * hours + minute > DAY).then_some(())?;
    let text = instant::point(&anchor, 60 * hours + minute - start, clock, false);
    Some((1, vec![("on the next day", text)]))
}

/// An hour in words or digits, up to twelve.
fn hour(word: &str) -> Option<i32> {
    let words = ["one", "two", "three", "four", "five", "six", "seven", "eight", "nine", "ten", "eleven", "twelve"];
    let found = words.iter().position(|name| *name == word).map(|place| place as i32 + 1);
    found.or_else(|| word.parse().ok().filter(|hour| (1..=12).contains(hour) && is_number(word)))
}

/// `half past nine`, `quarter to 9`; `half nine` can be two times.
pub fn half_past(seen: &Seen) -> Option<Put> {
    let article = (seen.word(0) == "a") as usize;
    let (first, second) = (seen.word(article), seen.word(article + 1));
    let at = |hour: i32, minute: i32| format!("{}:{minute:02}", hour.rem_euclid(24));
    let both = |hour: i32, minute: i32, count: usize| {
        let hour = hour.rem_euclid(12);
        let says = if hour < 6 { ["at night", "in the afternoon"] } else { ["in the morning", "in the evening"] };
        let zero = if (1..6).contains(&hour) { "0" } else { "" };
        let texts = vec![(says[0], format!("{zero}{}", at(hour, minute))), (says[1], at(hour + 12, minute))];
        Some((article + count, texts))
    };
    let minute = |past: bool| match (first.as_str(), past) {
        ("half", true) => Some((30, 0)),
        ("quarter", true) => Some((15, 0)),
        ("quarter", false) => Some((45, -1)),
        _ => None,
    };
    match second.as_str() {
        "past" | "to" => {
            let (hour, (minute, less)) = (hour(&seen.word(article + 2))?, minute(second == "past")?);
            both(hour + less, minute, 3)
        }
        _ if first == "half" || first == "halb" => {
            let hour = hour(&second)?;
            let texts = vec![("half an hour past it", at(hour, 30)), ("half an hour before it", at(hour - 1, 30))];
            let german = texts[1].1.clone();
            Some((article + 2, if first == "halb" { vec![("", german)] } else { texts }))
        }
        _ => None,
    }
}

/// A part of a day, as a spreadsheet keeps a time: `0.364583`.
pub fn parts(seen: &Seen) -> Option<Put> {
    let word = seen.word(0);
    let digits = word.strip_prefix("0.").or(word.strip_prefix("0,")).filter(|digits| is_number(digits))?;
    (4..=15).contains(&digits.len()).then_some(())?;
    let (number, whole) = (digits.parse::<i64>().ok()?, 10_i64.checked_pow(digits.len() as u32)?);
    let minute = (number.checked_mul(DAY.into())? + whole / 2) / whole;
    Some((1, vec![("a part of a day, as a spreadsheet has it", format!("{}:{:02}", minute / 60, minute % 60))]))
}
