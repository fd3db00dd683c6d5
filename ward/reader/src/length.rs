//! Lengths of time: `35`, `35 min`, `1:30`, `2 h`, `1 h 30`, `3 days`, `2 days 4:00`.

use crate::clock::{Clock, DAY};
use crate::cursor::Cursor;
use crate::fault::{with, Fault};
use crate::limits;
use crate::tokens::{Kind, Token};

pub fn is_number(word: &str) -> bool {
    !word.is_empty() && word.bytes().all(|byte| byte.is_ascii_digit())
}

/// Whether a word is digits, a colon and digits.
pub fn is_hours(word: &str) -> bool {
    word.split_once(':').is_some_and(|(hours, minutes)| is_number(hours) && is_number(minutes))
}

/// A unit, in minutes.
pub fn unit(word: &str) -> Option<i32> {
    Some(match word.to_lowercase().as_str() {
        "min" | "mins" | "minute" | "minutes" => 1,
        "h" | "hr" | "hrs" | "hour" | "hours" => 60,
        "d" | "day" | "days" => DAY,
        _ => return None,
    })
}

/// A length that was read.
#[derive(Clone, Copy, Debug, PartialEq, Eq)]
pub struct Length {
    pub minutes: i32,
    /// The part that is written as hours and minutes with a colon, in minutes, and where it stands.
    pub colon: Option<(i32, usize, usize)>,
    /// Whether it is a bare number.
    pub bare: bool,
    pub from: usize,
    pub to: usize,
}

/// A number with its unit in one word, as in `2h`, `35min` and `1h30`: the numbers with their units, in order.
fn glued(word: &str) -> Option<Vec<(&str, &str)>> {
    let mut parts = Vec::new();
    let mut rest = word;
    while !rest.is_empty() {
        let digits = rest.find(|c: char| !c.is_ascii_digit()).unwrap_or(rest.len());
        let letters = rest[digits..].find(|c: char| c.is_ascii_digit()).map_or(rest.len(), |length| digits + length);
        if digits == 0 {
            return None;
        }
        parts.push((&rest[..digits], &rest[digits..letters]));
        rest = &rest[letters..];
    }
    let last = parts.len().checked_sub(1)?;
    let good = parts
        .iter()
        .enumerate()
        .all(|(place, (_, letters))| unit(letters).is_some() || letters.is_empty() && place == last && place > 0);
    good.then_some(parts)
}

/// Whether a length starts with a word.
pub fn starts(word: &str) -> bool {
    word.starts_with(|c: char| c.is_ascii_digit()) && (is_number(word) || is_hours(word) || glued(word).is_some())
}

/// Whether digits look like hours and minutes without their colon: `0130`, `1230`; or have a zero before three digits or more.
pub fn like_hours(text: &str) -> bool {
    let clock = |text: &str| {
        let (hours, minutes) = text.split_at(2);
        hours.parse().is_ok_and(|hours: i32| hours <= 24) && minutes.parse().is_ok_and(|minutes: i32| minutes < 60)
    };
    is_number(text) && (text.len() == 4 && clock(text) || text.len() > 2 && text.starts_with('0'))
}

/// `0130`, `1230`: hours and minutes, or minutes. A unit behind it says which.
fn no_colon(line: &str, (from, to): (usize, usize), digits: &str, unit: Option<i32>) -> Fault {
    let number: i64 = digits.parse().unwrap_or(i64::from(i32::MAX));
    let say = |text: String| with(line, from, to, &text);
    let fault = Fault::new(from, to, format!("'{digits}' can be hours and minutes, or minutes"));
    let clock = digits.len() == 4 && number % 100 < 60 && unit.is_none_or(|unit| unit == 60);
    let fault = match clock {
        true => fault.fix("hours and minutes", say(format!("{}:{:02}", number / 100, number % 100))),
        false => fault,
    };
    match unit {
        Some(60) => fault.fix("hours", say(format!("{number} h"))),
        Some(DAY) => fault.fix("days", say(format!("{number} days"))),
        _ => fault.fix("minutes", say(format!("{number} min"))),
    }
}

/// The parts of a length: each a number and its unit in minutes, 0 where none stands behind it.
struct Parts {
    numbers: Vec<(i64, i32)>,
    to: usize,
    /// The part that is written with a colon.
    colon: Option<(i32, usize, usize)>,
}

impl Parts {
    fn push(&mut self, digits: &str, unit: i32, to: usize) {
        self.numbers.push((digits.parse().unwrap_or(i64::from(i32::MAX)), unit));
        self.to = to;
    }

    /// The unit of the last part.
    fn last(&self) -> Option<i32> {
        self.numbers.last().map(|(_, unit)| *unit)
    }
}

/// Reads a length. The next token is where it starts.
pub fn read(cursor: &mut Cursor, clock: &Clock) -> Result<Length, Fault> {
    let Some(first) = cursor.peek(0) else { return Err(cursor.fault("minutes are expected")) };
    if first.kind != Kind::Word || !starts(first.text) {
        return Err(no_length(cursor, first));
    }
    let mut parts = Parts { numbers: Vec::new(), to: first.to, colon: None };
    while let Some(token) = cursor.peek(0).filter(|token| token.kind == Kind::Word) {
        let last = parts.last();
        let goes_on = match () {
            _ if is_hours(token.text) && last.is_some_and(|unit| unit != DAY) => break,
            _ if is_hours(token.text) => hours(cursor, clock, token, &mut parts)?,
            // Behind hours minutes may stand without their unit, as in `1 h 30`.
            _ if is_number(token.text) && last.is_some_and(|unit| unit <= 1) => break,
            _ if is_number(token.text) => number(cursor, token, &mut parts)?,
            _ => match glued(token.text).filter(|_| last.is_none_or(|last| last > 1)) {
                Some(found) => in_one(cursor, token, &found, &mut parts)?,
                None => break,
            },
        };
        if !goes_on {
            break;
        }
    }
    sum(cursor, first, &parts)
}

/// A part with a colon, which is the last. `1:30 h` is hours and minutes too, and `1:30 min` is nobody knows what.
fn hours(cursor: &mut Cursor, clock: &Clock, token: Token, parts: &mut Parts) -> Result<bool, Fault> {
    let minutes = clock.hours(token.text).ok_or_else(|| no_hours(cursor.line, token))?;
    cursor.take();
    parts.to = token.to;
    let told = unit(cursor.plain(0)) == Some(60);
    match unit(cursor.plain(0)) {
        Some(60) => parts.to = cursor.take().map_or(parts.to, |token| token.to),
        Some(_) => return Err(twice_told(cursor, token)),
        None => {}
    }
    match told {
        true => parts.numbers.push((minutes.into(), 1)),
        false => parts.colon = Some((minutes, token.from, token.to)),
    }
    Ok(false)
}

/// A number, and its unit where one stands behind it: whether more may follow.
fn number(cursor: &mut Cursor, token: Token, parts: &mut Parts) -> Result<bool, Fault> {
    let last = parts.last();
    cursor.take();
    let unit = unit(cursor.plain(0)).filter(|unit| last.is_none_or(|last| *unit < last));
    let zeros = token.text.len() > 2 && token.text.starts_with('0');
    if zeros || unit.is_none() && last.is_none() && like_hours(token.text) {
        let end = cursor.peek(0).filter(|_| unit.is_some()).map_or(token.to, |unit| unit.to);
        return Err(no_colon(cursor.line, (token.from, end), token.text, unit));
    }
    let to = unit.and_then(|_| cursor.take()).map_or(token.to, |token| token.to);
    parts.push(token.text, unit.unwrap_or(0), to);
    Ok(unit.is_some())
}

/// Numbers with their units in one word.
fn in_one(cursor: &mut Cursor, token: Token, found: &[(&str, &str)], parts: &mut Parts) -> Result<bool, Fault> {
    if let Some((digits, letters)) = found.iter().find(|(digits, _)| digits.len() > 2 && digits.starts_with('0')) {
        return Err(no_colon(cursor.line, (token.from, token.to), digits, unit(letters)));
    }
    cursor.take();
    for (digits, letters) in found {
        parts.push(digits, unit(letters).unwrap_or(0), token.to);
    }
    Ok(true)
}

/// The minutes of all parts together.
fn sum(cursor: &Cursor, first: Token, parts: &Parts) -> Result<Length, Fault> {
    let (line, colon) = (cursor.line, parts.colon);
    let written = &line[first.from..parts.to];
    let mut minutes = i64::from(colon.map_or(0, |(minutes, ..)| minutes));
    let mut before = None;
    for &(number, unit) in &parts.numbers {
        if unit == 0 && before == Some(DAY) {
            let days = line[first.from..parts.to].trim_end_matches(|c: char| c.is_ascii_digit()).trim_end();
            return Err(Fault::new(first.from, parts.to, format!("'{number}' has no unit: hours or minutes?"))
                .fix("hours", with(line, first.from, parts.to, &format!("{days} {number} h")))
                .fix("minutes", with(line, first.from, parts.to, &format!("{days} {number} min"))));
        }
        let small = before.is_some_and(|before| number >= i64::from(before / unit.max(1)));
        if small || before.is_some_and(|before| unit.max(1) >= before) {
            return Err(Fault::new(first.from, parts.to, format!("'{written}' is no length of time")).hint(
                "days, hours and minutes stand in this order, with less than 24 hours and 60 minutes behind others",
            ));
        }
        minutes = minutes.saturating_add(number.saturating_mul(i64::from(unit.max(1))));
        before = Some(unit.max(1));
    }
    if colon.is_some_and(|(minutes, ..)| minutes >= DAY) && !parts.numbers.is_empty() {
        return Err(Fault::new(first.from, parts.to, format!("'{written}' has 24 hours or more behind its days")));
    }
    if minutes > i64::from(limits::LEAD) {
        return Err(Fault::new(
            first.from,
            parts.to,
            format!("'{written}' is beyond {} minutes, two weeks", limits::LEAD),
        )
        .hint("is it a slip of the keyboard? Longer ways can go over a moment between"));
    }
    let bare = colon.is_none() && matches!(parts.numbers[..], [(_, 0)]);
    Ok(Length { minutes: minutes as i32, colon, bare, from: first.from, to: parts.to })
}

/// `1:30 min`.
fn twice_told(cursor: &Cursor, hours: Token) -> Fault {
    let to = cursor.peek(0).map_or(hours.to, |token| token.to);
    let written = &cursor.line[hours.from..to];
    Fault::new(hours.from, to, format!("'{written}' can be hours and minutes, or minutes and seconds"))
        .hint("there are whole minutes only")
        .fix("hours and minutes", with(cursor.line, hours.from, to, hours.text))
}

/// Digits, a colon and digits that are no hours and minutes.
pub fn no_hours(line: &str, token: Token) -> Fault {
    let fault = Fault::new(token.from, token.to, format!("'{}' is no text of hours and minutes", token.text));
    let (hours, minutes) = token.text.split_once(':').unwrap_or((token.text, ""));
    let hours = hours.trim_start_matches('0');
    let hours = if hours.is_empty() { "0" } else { hours };
    let say = |text: String| with(line, token.from, token.to, &text);
    match (hours.parse::<i64>(), minutes.parse::<i64>()) {
        (Ok(_), Ok(minutes @ 0..10)) if token.text.ends_with(&format!(":{minutes}")) => fault
            .hint("minutes have two digits")
            .fix("", say(format!("{hours}:0{minutes}")))
            .fix("", say(format!("{hours}:{minutes}0"))),
        (Ok(hours), Ok(minutes @ 60..1_000)) if hours < 1_000 => fault
            .hint("behind the colon there are two digits below 60")
            .fix("", say(format!("{}:{:02}", hours + minutes / 60, minutes % 60))),
        (Ok(_), Ok(minutes @ 0..60)) => fault.fix("", say(format!("{hours}:{minutes:02}"))),
        _ => fault.hint("hours, a colon, and two digits of minutes below 60"),
    }
}

/// The minutes of a decimal number of units, rounded up.
fn decimal(whole: &str, part: &str, unit: i64) -> Option<i64> {
    if whole.len() > 5 || part.len() > 6 {
        return None;
    }
    let tens = 10_i64.checked_pow(part.len() as u32)?;
    let number = whole.parse::<i64>().ok()?.checked_mul(tens)?.checked_add(part.parse::<i64>().ok()?)?;
    Some((number * unit + tens - 1) / tens)
}

/// A number with a decimal point or comma: where it ends, its parts, and the unit behind it.
fn with_point<'a>(cursor: &Cursor<'a>, first: Token<'a>) -> Option<(usize, &'a str, &'a str, Option<i32>)> {
    let digits = |text: &str| text.bytes().take_while(u8::is_ascii_digit).count();
    let rest = &cursor.line[first.from..];
    let whole = digits(rest);
    let point = rest[whole..].chars().next().filter(|c| ".,".contains(*c) && whole > 0)?;
    let behind = whole + point.len_utf8();
    let part = digits(&rest[behind..]);
    let end = behind + part;
    (part > 0).then_some(())?;
    let letters = rest[end..].trim_start();
    let word: String = letters.chars().take_while(|c| c.is_alphabetic()).collect();
    let to = match unit(&word) {
        Some(_) => first.from + rest.len() - letters.len() + word.len(),
        None => first.from + end,
    };
    // The number ends here, or its unit does.
    let clear = !cursor.line[to..].starts_with(|c: char| c.is_alphanumeric() || ".:".contains(c));
    clear.then_some((to, &rest[..whole], &rest[behind..end], unit(&word)))
}

/// A decimal point or comma, or one between thousands: a mistake with the reading in minutes.
pub fn point(cursor: &Cursor, first: Token) -> Option<Fault> {
    let (to, whole, part, unit) = with_point(cursor, first)?;
    let written = &cursor.line[first.from..to];
    let say = |text: String| with(cursor.line, first.from, to, &text);
    let fault = Fault::new(first.from, to, format!("'{written}' has a decimal point or comma, and minutes are whole"));
    let minutes = |unit: i32| decimal(whole, part, unit.into()).filter(|&minutes| minutes <= limits::LEAD.into());
    let clock = part.len() == 2 && part.parse().is_ok_and(|minutes: i32| minutes < 60);
    if let Some(unit) = unit {
        // `1.30 h` may be an hour and a half.
        let fault = match unit == 60 && clock {
            true => fault.fix("hours and minutes", say(format!("{whole}:{part}"))),
            false => fault,
        };
        return Some(match minutes(unit) {
            Some(minutes) => fault.fix("in minutes", say(format!("{minutes} min"))),
            None => fault,
        });
    }
    if part.len() == 3 {
        let unit = if like_hours(&format!("{whole}{part}")) { " min" } else { "" };
        return Some(fault.fix("a point or comma between thousands", say(format!("{whole}{part}{unit}"))));
    }
    let mut fault = fault;
    if clock {
        fault = fault.fix("hours and minutes", say(format!("{whole}:{part}")));
    }
    if let Some(minutes) = minutes(60).filter(|minutes| (1..=24 * 60).contains(minutes)) {
        fault = fault.fix(format!("{written} hours"), say(format!("{minutes} min")));
    }
    match minutes(1) {
        Some(minutes) => Some(fault.fix("minutes, rounded up", say(format!("{minutes} min")))),
        None => Some(fault),
    }
}

/// A number that is not exact, or that has letters which look like digits.
fn nearly(text: &str, fault: &Fault, say: &dyn Fn(String) -> String) -> Option<Fault> {
    if text.starts_with('~') {
        return Some(fault.clone().hint("how much? Both limits are said, as in 'leaves 35 to 40 after ready'"));
    }
    let likely = text.replace(['O', 'o'], "0").replace(['l', 'I'], "1");
    let such = likely != text && is_number(&likely) && text.contains(|c: char| c.is_ascii_digit());
    such.then(|| fault.clone().fix("with digits alone", say(likely)))
}

/// What stands where a length belongs.
fn no_length(cursor: &Cursor, token: Token) -> Fault {
    if let Some(fault) = point(cursor, token) {
        return fault;
    }
    let fault = Fault::new(token.from, token.to, format!("a length of time is expected, not '{}'", token.text))
        .hint("lengths are whole minutes, or as in 1:30, 2 h, 3 days or 2 days 4:00");
    let say = |text: String| with(cursor.line, token.from, token.to, &text);
    if token.kind != Kind::Word {
        return match token.kind {
            Kind::Sign | Kind::Relation => cursor.fault("minutes are expected"),
            _ => fault,
        };
    }
    if let Some(fault) = nearly(token.text, &fault, &say) {
        return fault;
    }
    let digits: String = token.text.chars().take_while(char::is_ascii_digit).collect();
    let rest = token.text[digits.len()..].to_lowercase();
    match rest.as_str() {
        _ if digits.is_empty() && token.text.starts_with(':') && is_number(&token.text[1..]) => {
            fault.fix("", say(format!("0{}", token.text)))
        }
        _ if digits.is_empty() => fault,
        "m" | "'" | "′" | "min." => fault.fix("minutes", say(format!("{digits} min"))),
        "h." | "std" | "std." => fault.fix("hours", say(format!("{digits} h"))),
        "½h" => fault.fix("", say(format!("{digits} h 30"))),
        _ => {
            let parts: Vec<&str> = token.text.split(':').collect();
            match parts[..] {
                [hours, minutes, "00"] if is_number(hours) && is_number(minutes) => {
                    fault.fix("hours, minutes and no seconds", say(format!("{hours}:{minutes}")))
                }
                _ => fault,
            }
        }
    }
}
