//! Units of time by other names, and lengths in other forms.

use crate::clock::DAY;
use crate::length::{is_number, starts, unit};
use crate::plain::{one, Put, Seen};

/// A unit by another name, in minutes.
fn other(word: &str) -> Option<i32> {
    let short = word.strip_suffix('.').unwrap_or(word);
    Some(match short {
        "m" | "'" | "′" | "minuten" | "minute" | "minutes" | "min" | "mins" | "mn" => 1,
        "std" | "stunde" | "stunden" | "hr" | "hrs" | "h" | "hour" | "hours" => 60,
        "tag" | "tage" | "tagen" | "d" | "day" | "days" => DAY,
        "week" | "weeks" | "wk" | "wks" | "w" | "woche" | "wochen" => 7 * DAY,
        _ => return None,
    })
}

/// Whether a word is a unit that is read, or one by another name.
fn is_unit(word: &str) -> bool {
    unit(word).is_some() || other(word).is_some()
}

/// A number of units in the words that are read.
fn written(number: &str, minutes: i32) -> String {
    match minutes {
        1 => format!("{number} min"),
        60 => format!("{number} h"),
        DAY if number == "1" => "1 day".into(),
        DAY => format!("{number} days"),
        _ => format!("{} days", number.parse::<i64>().unwrap_or(0).saturating_mul(7)),
    }
}

/// A number and a unit by another name, in two words or in one: `35 Minuten`, `3m`, `1 week`; `90 s`; `1 440`.
pub fn length(seen: &Seen) -> Option<Put> {
    let (word, next) = (seen.word(0), seen.word(1));
    let digits: String = word.chars().take_while(char::is_ascii_digit).collect();
    if digits.is_empty() {
        return None;
    }
    if let Some((hours, minutes)) = word.split_once('h').filter(|(hours, _)| is_number(hours)) {
        let minutes = minutes.strip_suffix("min").or(minutes.strip_suffix('m')).filter(|minutes| is_number(minutes));
        if let Some(minutes) = minutes {
            return one(1, format!("{hours} h {minutes}"));
        }
    }
    let (count, named) = if digits == word { (2, next) } else { (1, word[digits.len()..].to_string()) };
    if let Some(minutes) = other(&named).filter(|_| unit(&named).is_none()) {
        return one(count, written(&digits, minutes));
    }
    if ["s", "sec", "secs", "second", "seconds", "sek", "sekunden"].contains(&named.trim_end_matches('.')) {
        return seconds(count, &digits);
    }
    let thousands = count == 2 && digits.len() < 4 && named.len() == 3 && is_number(&named);
    thousands.then(|| one(2, format!("{digits}{named} min")))?
}

/// Seconds as whole minutes.
fn seconds(count: usize, digits: &str) -> Option<Put> {
    let number: i32 = digits.parse().ok()?;
    let (down, up) = (number / 60, number / 60 + (number % 60 > 0) as i32);
    let texts = vec![("in whole minutes, rounded up", format!("{up} min")), ("rounded down", format!("{down} min"))];
    Some((count, texts))
}

/// Halves and quarters: `½ h`, `1½ h`, `1/2 h`.
pub fn fraction(seen: &Seen) -> Option<Put> {
    let word = seen.word(0);
    let (whole, part) = match word.strip_suffix(['½', '¼', '¾']) {
        Some(whole) => (whole.to_string(), word[whole.len()..].to_string()),
        None => (String::new(), word.clone()),
    };
    let quarters = match part.as_str() {
        "½" | "1/2" => 2,
        "¼" | "1/4" => 1,
        "¾" | "3/4" => 3,
        _ => return None,
    };
    let minutes = other(&seen.word(1)).filter(|minutes| minutes % 4 == 0)?;
    let whole: i32 = if whole.is_empty() { 0 } else { whole.parse().ok()? };
    one(2, format!("{} min", whole.checked_mul(minutes)?.checked_add(minutes / 4 * quarters)?))
}

/// Two lengths with a dash or a comma between them: `30 - 40 after ready`.
pub fn range(seen: &Seen) -> Option<Put> {
    let word = if seen.plain(1) == "-" { "to" } else { "or" };
    let such = starts(seen.plain(0)) && ["-", ","].contains(&seen.plain(1)) && starts(seen.plain(2));
    let behind = 3 + unit(seen.plain(3)).is_some() as usize;
    (such && ["after", "before"].contains(&seen.word(behind).as_str())).then_some(())?;
    one(2, format!("{} {word}", seen.plain(0)))
}

/// A comma or `and` between two parts of a length: `1 h, 30 min`.
pub fn between(seen: &Seen) -> Option<Put> {
    let joins = seen.plain(0) == "," || ["and", "und"].contains(&seen.word(0).as_str());
    let before = seen.before().is_some_and(|token| {
        let letters = token.text.trim_start_matches(|c: char| c.is_ascii_digit()).to_lowercase();
        is_unit(&letters)
    });
    let next = seen.word(1);
    let digits = next.chars().take_while(char::is_ascii_digit).count();
    let behind = digits > 0 && (is_unit(&next[digits..]) || digits == next.len() && is_unit(&seen.word(2)));
    (joins && before && behind).then(|| one(1, ""))?
}
