//! Rules in words that nearly say something: what they can mean, as lines that are read.

use crate::clock::{self, DAY};
use crate::cursor::Cursor;
use crate::fault::{with, Fault};
use crate::instant::{self, Known};
use crate::length::{self, Length};
use crate::sides::{bracketed, Side};
use crate::tokens::{Kind, Token};

/// Words behind a time that say on which side of it something is.
const SIDES: [(&str, &str); 15] = [
    ("at the latest", "by"),
    ("the latest", "by"),
    ("the earliest", "not before"),
    ("on", "not before"),
    ("at latest", "by"),
    ("latest", "by"),
    ("or earlier", "by"),
    ("or before", "by"),
    ("or sooner", "by"),
    ("at the earliest", "not before"),
    ("at earliest", "not before"),
    ("earliest", "not before"),
    ("or later", "not before"),
    ("or after", "not before"),
    ("onwards", "not before"),
];

/// On which side of a time words say that something is, where they stand so many tokens ahead and end the line.
pub fn side_behind(cursor: &Cursor, ahead: usize) -> Option<&'static str> {
    let plain = |place: usize| cursor.plain(ahead + place).to_lowercase();
    let stands = |words: &str| words.split(' ').enumerate().all(|(place, word)| plain(place) == word);
    let ends = |words: &str| cursor.peek(ahead + words.split(' ').count()).is_none();
    SIDES.iter().find(|(words, _)| stands(words) && ends(words)).map(|(_, side)| *side)
}

/// `ready 8:40`, `ready at least 8:40`, `ready 8:40 to 8:45`: a time of day where minutes and a moment are expected.
pub fn at_time(
    cursor: &Cursor,
    subject: &Side,
    (first, last): (Length, Option<Length>),
    (least, most): (bool, bool),
) -> Option<Fault> {
    let line = cursor.line;
    let of_day = |length: Length| length.colon.is_some_and(|(_, from, _)| from == length.from);
    // `am`, `pm` and `Uhr` go with the time; what stands behind may say on which side of it.
    let half = ["am", "pm", "a.m.", "p.m.", "uhr"].contains(&cursor.plain(0).to_lowercase().as_str());
    let side = side_behind(cursor, half as usize);
    let rest = cursor.peek(half as usize).filter(|_| side.is_none());
    if !of_day(first) || !last.is_none_or(of_day) || rest.is_some() {
        return None;
    }
    let to = cursor.peek(0).filter(|_| half).map_or(first.to, |token| token.to);
    let (group, time) = (&line[subject.from..subject.to], &line[first.from..to]);
    let whole = |words: &str, time: &str| with(line, subject.from, cursor.end(), &format!("{group} {words} {time}"));
    if let Some(last) = last {
        let message = format!("'{}' are two times, and no minutes", &line[first.from..last.to]);
        let lines = vec![whole("not before", time), whole("by", &line[last.from..last.to])];
        return Some(Fault::new(first.from, last.to, message).fixes("from the one to the other", lines));
    }
    let words = match (least, most, side) {
        (true, true, _) => "=",
        (true, ..) => "not before",
        (_, true, _) => "by",
        (_, _, Some(side)) => side,
        _ => return Some(at_which(Fault::new(first.from, to, ""), time, &|words| whole(words, time))),
    };
    let message = match side {
        Some(_) => "the word stands before its time".into(),
        None => format!("'{time}' is a time of day, and no length of time"),
    };
    Some(Fault::new(first.from, to, message).fix("", whole(words, time)))
}

/// A time of day with nothing that says on which side of it something is.
pub fn at_which(fault: Fault, time: &str, whole: &dyn Fn(&str) -> String) -> Fault {
    let message = format!("is this the latest time, the earliest, or both? '{time}' alone does not say");
    let fault = Fault { message, ..fault };
    fault.fix("then", whole("=")).fix("then or earlier", whole("by")).fix("then or later", whole("not before"))
}

/// `at least 35 and at most 40 after ..`.
pub fn both_limits(
    cursor: &mut Cursor,
    known: &Known,
    first: Length,
    (least, most): (bool, bool),
    amount: usize,
) -> Option<Fault> {
    let joins = ["and", "but", ",", "&"].contains(&cursor.plain(0).to_lowercase().as_str());
    let second =
        |words: &str| words.split(' ').enumerate().all(|(place, word)| cursor.plain(place + 1).to_lowercase() == word);
    let other = least && !most && second("at most") || most && !least && second("at least");
    let token = cursor.peek(0).filter(|_| joins && other)?;
    let mark = cursor.mark();
    for _ in 0..3 {
        cursor.take();
    }
    let last = length::read(cursor, known.clock).ok();
    cursor.back(mark, cursor.unknown.len());
    let (line, last) = (cursor.line, last?);
    let (one, other) = (&line[first.from..first.to], &line[last.from..last.to]);
    let range = if least { format!("{one} to {other}") } else { format!("{other} to {one}") };
    let fault = Fault::new(token.from, token.to, "both limits stand with 'to' between them");
    Some(fault.fix("", with(line, amount, last.to, &range)))
}

/// A length of time where a time of day belongs: `by 2 days`, `by 10 after porter`.
pub fn so_long(cursor: &mut Cursor, known: &Known, word: usize, by: bool) -> Option<Fault> {
    let (mark, from) = (cursor.mark(), cursor.place());
    let length = length::read(cursor, known.clock).ok();
    let behind = cursor.plain(0).to_lowercase();
    let plus = behind == "+";
    cursor.back(mark, cursor.unknown.len());
    let (length, line) = (length?, cursor.line);
    let written = &line[length.from..length.to];
    let fault = Fault::new(
        from,
        length.to,
        format!("'{written}' is a length of time, and a time of day or a moment is expected"),
    );
    if ["after", "before"].contains(&behind.as_str()) && length.colon.is_none() {
        let words = if by == (behind == "after") { "at most" } else { "at least" };
        return Some(fault.fix("", with(line, word, length.to, &format!("{words} {written}"))));
    }
    if length.bare || length.colon.is_some() || plus {
        return None;
    }
    let fault = match by_clock(written, length) {
        Some(_) => Fault::new(from, length.to, format!("'{written}' can be a time of day, or a length of time")),
        None => fault,
    };
    Some(from_when(cursor, known, length, by, fault))
}

/// A length in hours as a time of day: `14:00 hrs`, `10 h 30`, `9h`.
fn by_clock(written: &str, length: Length) -> Option<String> {
    let small = written.to_lowercase();
    if let Some(time) = small.split(' ').next().filter(|time| length::is_hours(time)) {
        return (length.minutes <= DAY).then(|| time.into());
    }
    let (hours, minutes) = small.split_once('h')?;
    let such = length::is_number(hours.trim()) && (minutes.is_empty() || length::is_number(minutes.trim()));
    (such && length.minutes <= DAY).then(|| format!("{}:{:02}", length.minutes / 60, length.minutes % 60))
}

/// A length of time where a time of day belongs: by the clock, so long after the anchor, or until the end of a day.
fn from_when(cursor: &Cursor, known: &Known, length: Length, by: bool, fault: Fault) -> Fault {
    let written = &cursor.line[length.from..length.to];
    let say = |text: String| with(cursor.line, length.from, length.to, &text);
    let hour = by_clock(written, length).map(say);
    let times = instant::meant(cursor, known).into_iter().flat_map(|fault| fault.fixes);
    let fault = times.fold(fault, |fault, fix| fault.fixes("by the clock", fix.lines));
    let fault = hour.into_iter().fold(fault, |fault, line| fault.fix("by the clock", line));
    let long = if written.contains(':') { crate::shown::hours(length.minutes) } else { written.into() };
    let fault = fault.fix("so long after the anchor", say(format!("anchor + {long}")));
    let days = length.minutes / DAY;
    match known.anchor.filter(|_| known.clock.judges() && length.minutes % DAY == 0) {
        Some(anchor) if by => {
            let end = (days + 1) * DAY - anchor.minute;
            let text = match anchor.date {
                Some(date) => format!("{} 24:00", crate::calendar::written(date + i64::from(days))),
                None => instant::from_anchor(end, false),
            };
            fault.fix("until the end of that day", say(text))
        }
        _ => fault,
    }
}

/// An hour as a bare number at the end of a line: the times that it can be.
pub fn hour(cursor: &Cursor, ahead: usize) -> Option<Vec<String>> {
    let token = cursor.peek(ahead).filter(|token| length::is_number(token.text) && token.text.len() < 3)?;
    let hour: i32 = token.text.parse().ok().filter(|hour| *hour <= 24 && cursor.peek(ahead + 1).is_none())?;
    let late = (1..12).contains(&hour).then(|| format!("{}:00", hour + 12));
    Some([clock::on_the_hour(hour)].into_iter().chain(late).collect())
}

/// `leaves after ready and porter`, `leaves before ready, porter`: after the later of them, before each of them. With `or` it can be one.
pub fn than_several(fault: Fault, group: &str, text: &str, before: bool, whole: &dyn Fn(String) -> String) -> Fault {
    let or = text.contains(" or ");
    let names = text.replace(" and ", ",").replace(" or ", ",").replace('&', ",");
    let names: Vec<&str> = names.split(',').map(str::trim).filter(|name| !name.is_empty()).collect();
    let later = format!("later of {}", names.join(", "));
    let each = |early: &str| names.iter().map(|name| whole(format!("{early} <= {name}"))).collect::<Vec<_>>();
    let more = format!("{} + 1", bracketed(group));
    match (before, or) {
        (true, true) => fault
            .fix("before one of them; the same minute is good enough", whole(format!("{group} <= {later}")))
            .fix("before one of them; it is not", whole(format!("{more} <= {later}")))
            .fixes("before each of them; the same minute is good enough", each(group))
            .fixes("before each of them; it is not", each(&more)),
        (true, false) => fault.fixes("the same minute is good enough", each(group)).fixes("it is not", each(&more)),
        (false, or) => {
            let fault = fault
                .fix("the same minute is good enough", whole(format!("{later} <= {group}")))
                .fix("it is not", whole(format!("({later}) + 1 <= {group}")));
            match or {
                true => fault.hint("it is after all of them: after one of them cannot be said"),
                false => fault,
            }
        }
    }
}

/// Several moments before the words of a rule: a line for each.
pub fn each(cursor: &Cursor, subject: &Side) -> Option<Vec<String>> {
    let line = cursor.line;
    let mut names = vec![&line[subject.from..subject.to]];
    let mut at = 0;
    while ["and", "&", ","].contains(&cursor.plain(at).to_lowercase().as_str()) {
        at += 1;
        if cursor.plain(at).to_lowercase() == "and" {
            at += 1;
        }
        let name = cursor.peek(at).filter(|token| token.kind != Kind::Sign)?;
        names.push(&line[name.from..name.to]);
        at += 1;
    }
    let rest = &line[cursor.peek(at)?.from..cursor.end()];
    Some(names.iter().map(|name| with(line, subject.from, cursor.end(), &format!("{name} {rest}"))).collect())
}

/// Words that say nothing exact.
pub fn vague(word: &str) -> Option<&'static str> {
    let words = ["about", "around", "circa", "ca.", "ca", "approximately", "roughly", "nearly", "almost"];
    if words.contains(&word) {
        return Some("how far from it may it be? Both limits are said, as in 'leaves 35 to 40 after ready'");
    }
    if ["soon", "shortly", "immediately", "right"].contains(&word) {
        return Some("how soon? It is said in minutes, as in 'leaves 0 to 10 after ready'");
    }
    (word == "not").then_some("what is not so cannot be said; say what is, as in 'leaves at most 34 after ready'")
}

/// What stands behind a whole rule: a second limit, another time, or on which side of its time it is.
pub fn behind(cursor: &Cursor, subject: &Side, token: Token, from: usize) -> Option<Fault> {
    let line = cursor.line;
    let (before, after) = (&line[..from], &line[cursor.end()..]);
    let (group, first) = (&line[subject.from..subject.to], line[from..token.from].trim_end());
    let rule = first[group.len()..].trim_start();
    let word = ["not before", "not after", "by"].into_iter().find(|word| rule.to_lowercase().starts_with(word))?;
    let rest = |ahead: usize| cursor.peek(ahead).map_or("", |token| line[token.from..cursor.end()].trim());
    let whole = |words: &str| format!("{before}{words}{after}");
    let (early, time) = (word == "not before", rule[word.len()..].trim());
    let said = |words: &str, time: &str| whole(&format!("{group} {words} {time}"));
    if let Some(side) = side_behind(cursor, 0) {
        let fault = Fault::new(token.from, cursor.end(), format!("'{}' is too much", rest(0)));
        return Some(match (side == "by") != early {
            true => fault.fix("", whole(first)),
            false => fault.fix("the latest", said("by", time)).fix("the earliest", said("not before", time)),
        });
    }
    let fault = Fault::new(token.from, token.to, format!("'{}' is too much: a line has one limit", token.text));
    let two = |second: String| vec![format!("{before}{first}"), second];
    let named = time.starts_with(|c: char| c.is_alphabetic() || c == '"') && !time.contains(' ');
    match token.text.to_lowercase().as_str() {
        "to" | "until" | "till" | "-" if early => Some(fault.fixes("", two(said("by", rest(1))))),
        "to" | "until" | "till" if length::is_hours(time.rsplit(' ').next().unwrap_or("")) => {
            Some(fault.fixes("from the one to the other", vec![said("not before", time), said("by", rest(1))]))
        }
        "at" if named && length::is_hours(rest(1)) => Some(
            fault
                .fixes(format!("{time} is then"), two(whole(&format!("{time} = {}", rest(1)))))
                .fixes(format!("{group} is then"), two(said("=", rest(1)))),
        ),
        "by" | "not" | "at" | "no" | "from" | "earliest" | "latest" => {
            Some(fault.fixes("", two(whole(&format!("{group} {}", rest(0))))))
        }
        _ => None,
    }
}
