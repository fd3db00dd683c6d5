//! Days, dates and times that stand in another order, or with words between them: `14:00 2026-11-19`, `Thu at 14:00`, `0:20 +1d`.

use crate::calendar;
use crate::clock::{self, DAY};
use crate::dates;
use crate::fault::{with, Fault};
use crate::instant::{self, Known};
use crate::length::{is_hours, is_number};
use crate::plain::{one, Put, Seen};
use crate::tokens::{Kind, Token};

/// Whether a token is a day of the week, by any of its names, or a date in digits.
fn is_day(seen: &Seen, ahead: usize) -> bool {
    let word = seen.word(ahead);
    clock::day(&word).is_some() || dates::day_name(&word).is_some() || in_digits(&word)
}

/// Whether a word is a date in digits, in any form.
fn in_digits(word: &str) -> bool {
    let parts: Vec<&str> = word.trim_end_matches('.').split(['.', '/', '-']).collect();
    let numbers = parts.iter().all(|part| is_number(part) && part.len() <= 4);
    numbers && (parts.len() == 3 || parts.len() == 2 && (word.ends_with('.') || word.contains('/')))
        || calendar::numbers(word).is_some()
}

/// How many tokens are a date that stands so many ahead, with or without the day of the week before it.
fn date(seen: &Seen, ahead: usize) -> Option<usize> {
    let word = |place: usize| seen.word(ahead + place);
    let named = |place: usize| dates::is_date(&word(place), &word(place + 1));
    let year = |place: usize| word(place).len() == 4 && is_number(&word(place)) && word(place).starts_with('2');
    let month = |place: usize| place + 2 + year(place + 2) as usize;
    match () {
        _ if named(0) => Some(month(0)),
        _ if is_day(seen, ahead) && !in_digits(&word(0)) && named(1) => Some(month(1)),
        _ if is_day(seen, ahead) && !in_digits(&word(0)) && in_digits(&word(1)) => Some(2),
        _ if is_day(seen, ahead) => Some(1),
        _ => None,
    }
}

/// How many tokens are a time of day that stands so many ahead.
fn time(seen: &Seen, ahead: usize) -> Option<usize> {
    let (word, next) = (seen.word(ahead), seen.word(ahead + 1));
    let half = ["am", "pm", "a.m.", "p.m.", "uhr"].contains(&next.as_str());
    let digits = word.strip_suffix("pm").or(word.strip_suffix("am")).unwrap_or(&word);
    let hours = is_hours(&word) || is_hours(digits) || is_number(digits) && (half || digits.len() < word.len());
    match word.as_str() {
        "noon" | "midnight" => Some(1),
        _ => hours.then_some(1 + half as usize),
    }
}

/// The text of some tokens.
fn text(seen: &Seen, from: usize, count: usize) -> String {
    let tokens = (from..from + count).filter_map(|ahead| seen.token(ahead));
    tokens.map(|token| token.text).collect::<Vec<_>>().join(" ")
}

/// A time before its date: `14:00 2026-11-19`, `14:00, 19 Nov`, `14:00 on Thursday`.
pub fn turned(seen: &Seen) -> Option<Put> {
    let time_tokens = time(seen, 0).filter(|_| seen.word(0) != "noon" && seen.word(0) != "midnight")?;
    let mut ahead = time_tokens;
    ahead += (seen.plain(ahead) == ",") as usize;
    let on = ["on", "am"].contains(&seen.word(ahead).as_str());
    ahead += on as usize;
    let date_tokens = date(seen, ahead)?;
    // A day that has its own time behind it, or hours from and to, are others.
    let own = time(seen, ahead + date_tokens).is_some() || ["-", "at"].contains(&seen.plain(ahead + date_tokens));
    let before = seen.before().is_some_and(|token| token.text == "-" || is_day_token(seen, token));
    (!own && !before).then_some(())?;
    // Another day behind it has the same time.
    let next = ahead + date_tokens;
    let joins = ["and", "or", "&", ","].contains(&seen.plain(next).to_lowercase().as_str());
    if let Some(more) = date(seen, next + 1).filter(|more| joins && time(seen, next + 1 + more).is_none()) {
        let (first, second) = (text(seen, ahead, date_tokens), text(seen, next + 1, more));
        let (time, word) = (text(seen, 0, time_tokens), seen.plain(next));
        return one(next + 1 + more, format!("{first} {time} {word} {second} {time}"));
    }
    one(ahead + date_tokens, format!("{} {}", text(seen, ahead, date_tokens), text(seen, 0, time_tokens)))
}

fn is_day_token(seen: &Seen, token: Token) -> bool {
    let small = token.text.to_lowercase();
    let known = seen.known.moment(token.text).is_some();
    let named = clock::day(&small).is_some() || dates::day_name(&small).is_some();
    token.kind == Kind::Word && !known && (named || in_digits(&small) || dates::is_month(&small))
}

/// Whether a day or a date stands before a token.
pub fn behind_day(seen: &Seen) -> bool {
    seen.before().is_some_and(|before| is_day_token(seen, before))
}

/// A time behind 24:00 of a day of the week: one of the next day.
pub fn beyond(seen: &Seen) -> Option<Put> {
    let (day, (hours, minutes)) = (clock::day(&seen.word(0))?, seen.plain(1).split_once(':')?);
    let hours: i32 = hours.parse().ok().filter(|hours| (24..48).contains(hours) && (*hours > 24 || minutes != "00"))?;
    let zero = if clock::SMALL.contains(&(60 * (hours - 24))) { "0" } else { "" };
    let text = format!("{} {zero}{}:{minutes}", &clock::DAYS[(day + 1) % 7][..3], hours - 24);
    Some((2, vec![("on the next day", text)]))
}

/// `end of Thu`, `start of Thu`.
pub fn ends_of(seen: &Seen) -> Option<Put> {
    let time = match seen.word(0).as_str() {
        "end" => "24:00",
        "start" | "beginning" => "0:00",
        _ => return None,
    };
    let days = date(seen, 2).filter(|_| seen.word(1) == "of")?;
    one(2 + days, format!("{} {time}", text(seen, 2, days)))
}

/// Whether words stand before a place of the line.
fn stands_before(seen: &Seen, words: &str) -> bool {
    let small: Vec<String> = seen.tokens[..seen.at].iter().map(|token| token.text.to_lowercase()).collect();
    let words: Vec<&str> = words.split(' ').collect();
    small.windows(words.len()).any(|window| window == words)
}

/// A day before the words of its rule: `ready Thu by 9:00`, `ready on Thu between 9:00 and 10:00`. It goes to the time.
pub fn day_first(seen: &Seen) -> Option<Put> {
    let on = (seen.word(0) == "on") as usize;
    let moment = seen.before().is_some_and(|before| seen.known.moment(before.text).is_some());
    let days = date(seen, on).filter(|_| moment)?;
    let words = (on + days..on + days + 3).take_while(|&ahead| time(seen, ahead).is_none()).count();
    let limit = ["by", "not", "between", "from", "until", "till", "after", "before"];
    (limit.contains(&seen.word(on + days).as_str()) && (1..3).contains(&words)).then_some(())?;
    time(seen, on + days + words)?;
    let count = on + days + words;
    one(count, format!("{} {}", text(seen, on + days, words), text(seen, on, days)))
}

/// A word between a day and its time: `Thu at 14:00`, `by Thu by 14:00`; or a comma.
pub fn between(seen: &Seen) -> Option<Put> {
    let before = seen.before()?;
    let dated = date(seen, 1).is_some() && clock::day(&seen.word(1)).is_none();
    if seen.plain(0) == "," && is_day_token(seen, before) && (time(seen, 1).is_some() || dated) {
        return one(1, "");
    }
    let year = before.text.len() == 4 && is_number(before.text) && before.text.starts_with('2');
    (is_day_token(seen, before) || year || before.text == ",").then_some(())?;
    let late = stands_before(seen, "by") || stands_before(seen, "not after") || stands_before(seen, "on");
    let count = match (seen.word(0).as_str(), seen.word(1).as_str()) {
        ("at" | "um" | "@", _) => 1,
        ("by", _) if late => 1,
        ("not", "after") if late => 2,
        ("not", "before") if stands_before(seen, "not before") || stands_before(seen, "on") => 2,
        _ => return None,
    };
    time(seen, count)?;
    one(count, "")
}

/// A day before whose time the words of the rule stand: `on Thu by 14:00`.
pub fn on(seen: &Seen) -> Option<Put> {
    (seen.word(0) == "on").then_some(())?;
    let ahead = 1 + date(seen, 1)?;
    let words = match (seen.word(ahead).as_str(), seen.word(ahead + 1).as_str()) {
        ("by", _) | ("not", "after") => "by",
        ("not", "before") => "not before",
        ("at" | "um" | "@", _) => "",
        _ if time(seen, ahead).is_some() => "",
        _ => return None,
    };
    one(1, words)
}

/// A time as a plan shows it, with the days between it and the anchor's day: `0:20 +1d`.
pub fn shown(known: &Known, line: &str, from: usize, end: usize) -> Option<Fault> {
    let anchor = known.anchor.filter(|_| known.clock.judges())?;
    let body = &line[from..end];
    let digits = |text: &str| text.bytes().take_while(u8::is_ascii_digit).count();
    let (place, sign) = body.char_indices().find(|&(place, c)| {
        let rest = body[place + c.len_utf8()..].trim_start();
        let count = digits(rest);
        let whole = rest[count..].starts_with('d') && !rest[count + 1..].starts_with(char::is_alphanumeric);
        "+-–−".contains(c)
            && (1..=2).contains(&count)
            && whole
            && body[..place].trim_end().ends_with(|c: char| c.is_ascii_digit())
    })?;
    let behind = &body[place + sign.len_utf8()..];
    let rest = behind.trim_start();
    let days: i32 = rest[..digits(rest)].parse().ok()?;
    let days = if sign == '+' { days } else { -days };
    let before = body[..place].trim_end();
    let time = before.rsplit(' ').next().filter(|time| is_hours(time))?;
    let head = before[..before.len() - time.len()].trim_end();
    let dated = head.rsplit(' ').next().is_some_and(|word| clock::day(word).is_some() || in_digits(word));
    let minute = known.clock.hours(time).filter(|minute| *minute < DAY && !dated)?;
    let offset = minute + days * DAY - anchor.minute;
    let (start, to) = (from + before.len() - time.len(), from + body.len() - rest.len() + digits(rest) + 1);
    let fault = Fault::new(start, to, format!("'{}' is how a plan shows a time", &line[start..to]));
    let point = instant::point(&anchor, offset, known.clock, false);
    Some(fault.fix(instant::told(&anchor, offset, known.clock), with(line, start, to, &point)))
}

/// Two times with a dash or a stroke between them: `9:00-9:30`, `9:00/10:00`; two hours so, where nothing stands behind them.
pub fn window(seen: &Seen) -> Option<Put> {
    let token = seen.token(0).filter(|token| token.kind == Kind::Word)?;
    let colons = |text: &str| match text.split_once('.') {
        Some((hours, minutes)) if is_number(hours) && minutes.len() == 2 => format!("{hours}:{minutes}"),
        _ => text.to_string(),
    };
    let (first, last) = token.text.split_once(['-', '–', '/']).map(|(first, last)| (colons(first), colons(last)))?;
    let hour = |text: &str| is_number(text) && text.parse().is_ok_and(|hour: i32| hour <= 24);
    let hours = hour(&first) && hour(&last) && seen.ends(1) && seen.at > 0;
    (is_hours(&first) && is_hours(&last) || hours).then_some(())?;
    one(1, format!("{first} {} {last}", if token.text.contains('/') { "or" } else { "to" }))
}

/// Two times, the first and the last, with `am` or `pm` behind the last alone: the word between them, how many tokens they are, and
/// whether it is `pm`.
fn with_half<'s>(seen: &Seen<'s>) -> Option<(&'s str, &'s str, &'s str, usize, bool)> {
    let token = seen.token(0).filter(|token| token.kind == Kind::Word)?;
    let (first, word, last, count) = match token.text.split_once(['-', '–']) {
        Some((first, last)) => (first, "-", last, 1),
        None => (token.text, seen.plain(1), seen.plain(2), 3),
    };
    let word = ["-", "to", "and"].into_iter().find(|known| word.eq_ignore_ascii_case(known))?;
    let halves = ["am", "pm", "a.m.", "p.m.", "AM", "PM"];
    if let Some(half) = halves.iter().find(|half| last.ends_with(**half)) {
        return Some((first, word, &last[..last.len() - half.len()], count, half.to_lowercase().starts_with('p')));
    }
    let half = seen.plain(count).to_lowercase();
    halves.contains(&half.as_str()).then_some((first, word, last, count + 1, half.starts_with('p')))
}

/// `2:00-4:00 pm`, `between 9 and 11 pm`: both times in that half of the day, or the last alone.
pub fn half_of_both(seen: &Seen) -> Option<Put> {
    let (first, word, last, count, late) = with_half(seen)?;
    let (first, last) = (first.replace('.', ":"), last.replace('.', ":"));
    let minute = |text: &str| {
        let (hours, minutes) = text.split_once(':').unwrap_or((text, "00"));
        let good = is_number(hours) && is_number(minutes) && minutes.len() == 2;
        let hours: i32 = hours.parse().ok().filter(|hours| good && (1..=12).contains(hours))?;
        Some(hours % 12 * 60 + minutes.parse::<i32>().ok()?)
    };
    let (start, end) = (minute(&first)?, minute(&last)?);
    let open = seen.line.trim_start().to_lowercase().starts_with("open");
    let join = |one: String, other: String| match word {
        "-" if open => format!("{one}-{other}"),
        "-" => format!("{one} to {other}"),
        _ => format!("{one} {word} {other}"),
    };
    let early = |text: &str, minute: i32| match minute >= 7 * 60 {
        true => Some(format!("{}:{:02}", minute / 60, minute % 60)),
        false => instant::of_half(text, false),
    };
    let (morning, evening) = (early(&first, start)?, instant::of_half(&first, true)?);
    let own = if late { instant::of_half(&last, true)? } else { early(&last, end)? };
    let texts = match (late, start < end) {
        (true, _) if end == 0 => {
            vec![("until noon", join(morning, own)), ("until midnight", join(evening, "24:00".into()))]
        }
        (true, true) if start >= 6 * 60 => {
            vec![("both in the evening", join(evening, own.clone())), ("the first in the morning", join(morning, own))]
        }
        (true, true) => vec![("", join(evening, own))],
        (false, false) => vec![("", join(evening, own))],
        _ => vec![("", join(morning, own))],
    };
    Some((count, texts))
}

/// Two hours of which the last is the smaller one, at the end of a line: `between 9 and 1`, `9-1`.
pub fn past_noon(seen: &Seen) -> Option<Put> {
    let token = seen.token(0).filter(|token| token.kind == Kind::Word)?;
    let (first, word, last, count) = match token.text.split_once(['-', '–']) {
        Some((first, last)) => (first, "to", last, 1),
        None => (token.text, seen.plain(1), seen.plain(2), 3),
    };
    let word = ["to", "and"].into_iter().find(|known| word.eq_ignore_ascii_case(known))?;
    let hour = |text: &str| text.parse::<i32>().ok().filter(|hour| is_number(text) && (1..=12).contains(hour));
    let (first, last) = (hour(first)?, hour(last)?);
    let named = seen.before().is_some_and(|before| {
        let words = ["between", "from"].contains(&before.text.to_lowercase().as_str());
        words || seen.known.moment(before.text).is_some()
    });
    (last < first && named && seen.ends(count)).then_some(())?;
    let mut texts = vec![("until the afternoon", format!("{} {word} {}:00", clock::on_the_hour(first), last + 12))];
    if first < 12 {
        texts.push(("over midnight", format!("{}:00 {word} {}", first + 12, clock::on_the_hour(last))));
    }
    Some((count, texts))
}

/// `day 3`: where the anchor's day is the first, or none of them.
pub fn day_number(seen: &Seen) -> Option<Put> {
    let number: i64 = seen.word(1).parse().ok().filter(|number| (1..=14).contains(number))?;
    let counted = seen.before().is_some_and(|before| is_number(before.text));
    let first = seen.known.anchor?.date.filter(|_| seen.word(0) == "day" && !counted)?;
    let comma = (seen.plain(2) == "," && time(seen, 3).is_some()) as usize;
    let texts = vec![
        ("where the anchor's day is day 1", calendar::written(first + number - 1)),
        ("where the anchor's day is day 0", calendar::written(first + number)),
    ];
    Some((2 + comma, texts))
}

/// Two hours at the end of a line, with no word before them that says what they are: `ready 9 to 10`.
pub fn hours(seen: &Seen) -> Option<Put> {
    let hour =
        |ahead: usize| is_number(seen.plain(ahead)) && seen.plain(ahead).parse().is_ok_and(|hour: i32| hour <= 24);
    let named = seen.before().is_some_and(|before| seen.known.moment(before.text).is_some());
    (hour(0) && seen.word(1) == "to" && hour(2) && seen.ends(3) && named).then_some(())?;
    one(3, format!("between {} and {}", seen.plain(0), seen.plain(2)))
}

/// Two days before one time: `Thu or Fri 9:00`, `Thu/Fri 9:00`, `Thu-Fri 9:00`. It is the time of both.
pub fn two_days(seen: &Seen) -> Option<Put> {
    let both = seen.token(0).and_then(|token| token.text.split_once(['/', '-', '–']));
    let both = both.filter(|(first, last)| clock::day(first).is_some() && clock::day(last).is_some());
    if let Some((first, last)) = both {
        let word = if seen.plain(0).contains('/') { "or" } else { "to" };
        let Some(count) = time(seen, 1) else { return one(1, format!("{first} {word} {last}")) };
        let text = text(seen, 1, count);
        return one(1 + count, format!("{first} {text} {word} {last} {text}"));
    }
    let joins = ["and", "or", "&", ","].contains(&seen.plain(1).to_lowercase().as_str());
    let second = date(seen, 2).filter(|_| joins && date(seen, 0) == Some(1))?;
    let count = time(seen, 2 + second)?;
    one(1, format!("{} {}", seen.plain(0), text(seen, 2 + second, count)))
}

/// `Thu noon`.
pub fn noon(seen: &Seen) -> Option<Put> {
    let day = seen.before().is_some_and(|before| is_day_token(seen, before));
    let word = ["noon", "mittag", "midday"].contains(&seen.word(0).as_str());
    (day && word).then(|| one(1, "12:00"))?
}

/// A date without its year, before a time: `19.11. 14:00`, `11/19 14:00`. It is the one that is nearest to the anchor's date.
pub fn short(seen: &Seen) -> Option<Put> {
    let word = seen.word(0);
    let dotted = word.strip_suffix('.').and_then(|word| word.split_once('.'));
    let (first, second) = dotted.or_else(|| word.split_once('/'))?;
    let two = |text: &str| is_number(text) && text.len() <= 2;
    (two(first) && two(second)).then_some(())?;
    time(seen, 1)?;
    let (a, b): (i64, i64) = (first.parse().ok()?, second.parse().ok()?);
    let anchor = seen.known.anchor?.date?;
    let (this, ..) = calendar::date(anchor);
    let nearest = |month: i64, date: i64| {
        let days = (this - 1..=this + 1).filter_map(|year| calendar::day(year, month, date));
        days.min_by_key(|day| (day - anchor).abs()).map(calendar::written)
    };
    let texts = match (nearest(b, a), nearest(a, b)) {
        (Some(one), Some(other)) if one != other => vec![("the day first", one), ("the month first", other)],
        (Some(only), _) | (None, Some(only)) => vec![("", only)],
        _ => return None,
    };
    Some((1, texts))
}
