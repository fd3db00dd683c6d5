//! Words of a rule that are not read, with those that are.

use crate::clock::{self, Clock};
use crate::cursor::Cursor;
use crate::fault::{with, Fault};
use crate::instant::{self, Known};
use crate::length;
use crate::lists;
use crate::nearby;
use crate::offers;
use crate::rows;
use crate::sides::{bracketed, Side};
use crate::tokens::{Kind, Token};

/// Other words before a time of day or a side, and those that are read.
const POINTS: [(&str, &str); 22] = [
    ("no later than", "by"),
    ("not later than", "by"),
    ("at the latest", "by"),
    ("at latest", "by"),
    ("latest", "by"),
    ("until", "by"),
    ("till", "by"),
    ("no earlier than", "not before"),
    ("not earlier than", "not before"),
    ("at the earliest", "not before"),
    ("at earliest", "not before"),
    ("earliest", "not before"),
    ("from", "not before"),
    ("not until", "not before"),
    ("exactly at", "="),
    ("is at", "="),
    ("at", "="),
    ("together with", "="),
    ("directly after", "="),
    ("no sooner than", "not before"),
    ("not sooner than", "not before"),
    ("@", "="),
];

/// Other words before minutes, and those that are read.
const AMOUNTS: [(&str, &str); 14] = [
    ("no more than", "at most"),
    ("not more than", "at most"),
    ("up to", "at most"),
    ("maximum", "at most"),
    ("max", "at most"),
    ("max.", "at most"),
    ("no less than", "at least"),
    ("not less than", "at least"),
    ("minimum", "at least"),
    ("min", "at least"),
    ("min.", "at least"),
    ("within", "0 to"),
    ("precisely", "exactly"),
    ("just", "exactly"),
];

/// A rule behind whose first side a word stands that is not read.
struct Worded<'w> {
    cursor: &'w Cursor<'w>,
    subject: &'w Side,
    /// The first side, as it is written.
    group: &'w str,
    known: &'w Known<'w>,
    token: Token<'w>,
    /// The word in small letters.
    small: String,
    fault: Fault,
}

impl<'w> Worded<'w> {
    /// The line with another rule.
    fn whole(&self, text: String) -> String {
        with(self.cursor.line, self.subject.from, self.cursor.end(), &text)
    }

    /// What stands behind so many tokens.
    fn rest(&self, skip: usize) -> &'w str {
        self.cursor.peek(skip).map_or("", |token| self.cursor.line[token.from..self.cursor.end()].trim())
    }

    /// The line with other words for those that stand here.
    fn instead(&self, words: &str, meant: &str) -> String {
        let last = self.cursor.peek(words.split(' ').count() - 1).map_or(self.token.to, |token| token.to);
        with(self.cursor.line, self.token.from, last, meant)
    }

    /// Whether the rule says `after` or `before`.
    fn relative(&self) -> Option<String> {
        let words = self.cursor.left().iter().map(|token| token.text.to_lowercase());
        words.into_iter().find(|word| word == "after" || word == "before")
    }

    fn fault(&self) -> Fault {
        self.fault.clone()
    }
}

/// What is looked for, in this order.
const LOOKS: [fn(&Worded) -> Option<Fault>; 13] =
    [order, between, dashed, within, more_than, times, point, amount, relative, on_day, dated, in_so_long, several];

/// Words that are not read, with those that are.
pub fn other(cursor: &Cursor, known: &Known, subject: &Side) -> Fault {
    let fault = cursor.fault("'<=' is expected");
    let Some(token) = cursor.peek(0) else {
        return fault.hint("a rule is written 'ready + 10 <= leaves', or 'leaves at least 10 after ready'");
    };
    let group = &cursor.line[subject.from..subject.to];
    let worded = Worded { cursor, subject, group, known, token, small: token.text.to_lowercase(), fault };
    match (LOOKS.iter().find_map(|look| look(&worded)), offers::vague(&worded.small)) {
        (Some(fault), _) => fault,
        (None, Some(hint)) => worded.fault.hint(hint),
        (None, None) => rows::more(cursor, worded.fault),
    }
}

/// `before`, `after`, `later than`: the same minute, or one more.
fn order(worded: &Worded) -> Option<Fault> {
    let (small, group) = (worded.small.as_str(), worded.group);
    let than = worded.cursor.sees("later than") || worded.cursor.sees("earlier than");
    (["before", "after"].contains(&small) || than).then_some(())?;
    let other = worded.rest(1 + than as usize);
    let first = ["before", "earlier"].contains(&small);
    let whole = |text: String| worded.whole(text);
    if let Some(lines) = limits_behind(worded) {
        return Some(worded.fault().fixes("", lines));
    }
    if list(worded.cursor) {
        return Some(offers::than_several(worded.fault(), group, other, first, &whole));
    }
    let (early, late) = if first { (group, other) } else { (other, group) };
    let fault = match nearby::everyday(other) {
        Some(hint) => worded.fault().hint(hint),
        None => worded.fault(),
    };
    let fault = fault.fix("the same minute is good enough", whole(format!("{early} <= {late}")));
    Some(fault.fix("it is not", whole(format!("{} + 1 <= {late}", bracketed(early)))))
}

/// `leaves after ready and by 9:00`: a limit more, as a line of its own.
fn limits_behind(worded: &Worded) -> Option<Vec<String>> {
    let (tokens, line) = (worded.cursor.left(), worded.cursor.line);
    let is_limit =
        |token: &Token| token.kind == Kind::Word && lists::LIMITS.contains(&token.text.to_lowercase().as_str());
    let place = (2..tokens.len()).find(|&place| is_limit(&tokens[place]))?;
    let joins = tokens[..place].iter().rev().take_while(|token| lists::joins(token)).count();
    let last = tokens[..place - joins].last()?;
    let (first, second) = (&line[tokens[0].from..last.to], &line[tokens[place].from..worded.cursor.end()]);
    let rule = |words: &str| worded.whole(format!("{} {words}", worded.group));
    Some(vec![rule(first), rule(second)])
}

/// Whether several moments stand here without `later of`.
fn list(cursor: &Cursor) -> bool {
    let word = |words: &[&str]| cursor.left().iter().any(|token| words.contains(&token.text.to_lowercase().as_str()));
    word(&["and", "or", ",", "&"]) && !word(&["later", "latest"])
}

/// Two lines, from one time to another.
fn two(worded: &Worded, first: &str, last: &str) -> Vec<String> {
    let group = worded.group;
    vec![worded.whole(format!("{group} not before {first}")), worded.whole(format!("{group} by {last}"))]
}

/// `between 8:40 and 8:45`, `between 35 and 40 after ..`.
fn between(worded: &Worded) -> Option<Fault> {
    worded.cursor.sees("between").then_some(())?;
    let (tokens, line) = (worded.cursor.left(), worded.cursor.line);
    let and = tokens.iter().position(|token| token.text.to_lowercase() == "and").filter(|and| *and > 1)?;
    let first = &line[tokens[1].from..tokens[and - 1].to];
    tokens.get(and + 1)?;
    let rest = worded.rest(and + 1);
    let fault = worded.fault();
    Some(match worded.relative() {
        Some(_) => fault.fix("", worded.whole(format!("{} {first} to {rest}", worded.group))),
        None => fault.hint("both times stand in two lines, the earlier one first").fixes("", two(worded, first, rest)),
    })
}

/// `35-40 after ..`, `8:40-8:45`.
fn dashed(worded: &Worded) -> Option<Fault> {
    let token = worded.token;
    let (first, last) = token.text.split_once(['-', '–'])?;
    (length::starts(first) && length::starts(last)).then_some(())?;
    let range = with(worded.cursor.line, token.from, token.to, &format!("{first} to {last}"));
    let fault = worded.fault().fix("both limits", range);
    Some(match length::is_hours(first) && length::is_hours(last) {
        true => fault.fixes("both times", two(worded, first, last)),
        false => fault,
    })
}

/// `within 40 of ..`.
fn within(worded: &Worded) -> Option<Fault> {
    let (tokens, line, group) = (worded.cursor.left(), worded.cursor.line, worded.group);
    worded.cursor.sees("within").then_some(())?;
    let of = tokens.iter().position(|token| token.text.to_lowercase() == "of").filter(|of| *of > 1)?;
    let (minutes, base) = (&line[tokens[1].from..tokens[of - 1].to], worded.rest(of + 1));
    let rules = [format!("{base} - {minutes} <= {group}"), format!("{group} <= {base} + {minutes}")];
    let fault = worded.fault().fix("not before it", worded.whole(format!("{group} 0 to {minutes} after {base}")));
    Some(fault.fixes("before it or after it", rules.map(|rule| worded.whole(rule)).to_vec()))
}

/// `more than 35 after ..`, `less than ..`.
fn more_than(worded: &Worded) -> Option<Fault> {
    let words = ["more than", "longer than", "less than"].into_iter().find(|words| worded.cursor.sees(words))?;
    let last = worded.cursor.peek(2)?;
    let say = |text: String| with(worded.cursor.line, worded.token.from, last.to, &text);
    let fault = worded.fault();
    if length::is_hours(last.text) {
        let least = if words == "less than" { "at most" } else { "at least" };
        return Some(fault.fix("so long too", say(format!("{least} {}", last.text))));
    }
    let number: i32 = last.text.parse().ok()?;
    Some(match words == "less than" {
        true => fault
            .fix("so many or less", say(format!("at most {number}")))
            .fix("one less or less", say(format!("at most {}", number.saturating_sub(1)))),
        false => fault
            .fix("so many or more", say(format!("at least {number}")))
            .fix("one more or more", say(format!("at least {}", number.saturating_add(1)))),
    })
}

/// Other words before a time of day or a side.
fn point(worded: &Worded) -> Option<Fault> {
    let cursor = worded.cursor;
    let (words, meant) = POINTS.into_iter().find(|(words, _)| cursor.sees(words))?;
    let count = words.split(' ').count();
    if let Some(hours) = offers::hour(cursor, count).filter(|_| meant == "=") {
        let rule = |time: &String| worded.whole(format!("{} = {time}", worded.group));
        return Some(hours.iter().fold(worded.fault(), |fault, time| fault.fix("", rule(time))));
    }
    if let Some(side) = offers::side_behind(cursor, count + 1).filter(|_| meant == "=") {
        let time = cursor.peek(count).map_or("", |token| token.text);
        return Some(worded.fault().fix("", worded.whole(format!("{} {side} {time}", worded.group))));
    }
    let numbered = cursor.peek(count).is_some_and(|next| length::starts(next.text));
    let relative = worded.relative().filter(|_| numbered);
    let meant = match (meant, relative.as_deref()) {
        ("by", Some("after")) | ("not before", Some("before")) => "at most",
        ("by", Some(_)) | ("not before", Some(_)) => "at least",
        (meant, _) => meant,
    };
    Some(worded.fault().fix("", worded.instead(words, meant)))
}

/// Other words before minutes. Whether `up to 10 after` may be before too is asked.
fn amount(worded: &Worded) -> Option<Fault> {
    let (words, meant) = AMOUNTS.into_iter().find(|(words, _)| worded.cursor.sees(words))?;
    let (fault, said) = (worded.fault(), worded.instead(words, meant));
    let both = worded.instead(words, "0 to");
    Some(match (meant, worded.relative().as_deref()) {
        ("at most", Some("after")) => fault.fix("it may be before, too", said).fix("and not before", both),
        ("at most", Some(_)) => fault.fix("it may be after, too", said).fix("and not after", both),
        _ => fault.fix("", said),
    })
}

/// `ready tomorrow 9:00`, `ready next Thu 9:00`: the day as it is written here.
fn relative(worded: &Worded) -> Option<Fault> {
    let words = ["tomorrow", "today", "next", "this"];
    instant::meant(worded.cursor, worded.known).filter(|_| words.contains(&worded.small.as_str()))
}

/// `on Thu`: at some time of that day; `on Thu or Fri`: of one of them, or from the one to the other.
fn on_day(worded: &Worded) -> Option<Fault> {
    let left = worded.cursor.left();
    if let [first, to, last] = left {
        let days = [first, last].iter().all(|token| clock::day(token.text).is_some());
        if days && to.text.to_lowercase() == "to" {
            let lines = two(worded, &format!("{} 0:00", first.text), &format!("{} 24:00", last.text));
            return Some(worded.fault().fixes("from the start of the one to the end of the other", lines));
        }
    }
    let on = (worded.small == "on") as usize;
    let tokens = left.get(on..)?;
    let days: Vec<&str> = tokens
        .split(lists::joins)
        .filter(|part| !part.is_empty())
        .map(|part| &worded.cursor.line[part[0].from..part[part.len() - 1].to])
        .collect();
    days.iter().all(|day| day.split(' ').all(lists::is_day)).then_some(())?;
    let whole = |first: &str, last: &str| two(worded, &format!("{first} 0:00"), &format!("{last} 24:00"));
    let ([first, ..], [.., last]) = (&days[..], &days[..]) else { return None };
    let says = if days.len() == 1 { "at some time of that day" } else { "at some time of this day" };
    let fault = days.iter().fold(worded.fault(), |fault, day| fault.fixes(says, whole(day, day)));
    Some(match days.len() {
        1 => fault,
        _ => fault.fixes("from the one to the other", whole(first, last)),
    })
}

/// Whether two times of day stand here, with a word like `or` between them, and nothing behind; or where the second has its day:
/// `23:00 to Wed 6:00`.
pub fn is_times(cursor: &Cursor) -> bool {
    let [first, word, last, more @ ..] = cursor.left() else { return false };
    let day = ["to", "-"].contains(&word.text.to_lowercase().as_str()) && lists::is_day(last.text);
    length::is_hours(first.text) && (lists::joins(word) && length::is_hours(last.text) && more.is_empty() || day)
}

/// `ready at 9:00 or 10:00`, `ready Thu 9:00, 10:00`: one of these times, or from the one to the other.
fn times(worded: &Worded) -> Option<Fault> {
    let skip = ["at", "@", "exactly"].contains(&worded.small.as_str()) as usize;
    let tokens = worded.cursor.left().get(skip..)?;
    let text = |part: &[Token]| &worded.cursor.line[part[0].from..part[part.len() - 1].to];
    let items: Vec<&str> = tokens.split(lists::joins).filter(|part| !part.is_empty()).map(text).collect();
    let [first, last] = items[..] else { return None };
    let hours = |text: &str| text.split(' ').any(|word| !lists::is_day(word));
    (lists::is_time(first) && lists::is_time(last) && hours(first) && hours(last)).then_some(())?;
    let at = |time: &str| worded.whole(format!("{} = {time}", worded.group));
    let fault = Fault { message: "which of these times? A line has one".into(), ..worded.fault() };
    let or = tokens.iter().any(|token| token.text.to_lowercase() == "or");
    let fault = match or {
        true => fault,
        false => fault.fixes("from the one to the other", two(worded, first, last)),
    };
    Some(fault.fix("the first", at(first)).fix("the second", at(last)))
}

/// `ready Thu 14:00`: a day and a time with no word that says on which side of it something is.
fn dated(worded: &Worded) -> Option<Fault> {
    let (cursor, group) = (worded.cursor, worded.group);
    let mut rest = Cursor::new(cursor.line, cursor.left().to_vec(), cursor.end());
    if let [day, hour] = cursor.left() {
        if lists::is_day(day.text) && length::is_number(hour.text) {
            let time = &cursor.line[day.from..hour.to];
            let fault = Fault::new(day.from, hour.to, "");
            return Some(offers::at_which(fault, time, &|words| worded.whole(format!("{group} {words} {time}"))));
        }
    }
    let stamp = instant::starts(&rest).then(|| instant::stamp(&mut rest, &Clock::unjudged()).ok()).flatten()?;
    let time = &cursor.line[stamp.from..stamp.to];
    if let Some(fault) = windows(worded) {
        return Some(fault);
    }
    if let Some(last) = rest.peek(1).filter(|_| rest.sees("to") || rest.sees("-")) {
        let last = cursor.line[last.from..cursor.end()].trim();
        let fault = Fault::new(stamp.from, cursor.end(), format!("'{time} to {last}' are two times, and no minutes"));
        return Some(fault.fixes("from the one to the other", two(worded, time, last)));
    }
    if let Some(side) = offers::side_behind(&rest, 0) {
        let fault = Fault::new(stamp.from, cursor.end(), "the word stands before its time");
        return Some(fault.fix("", worded.whole(format!("{group} {side} {time}"))));
    }
    rest.peek(0).is_none().then_some(())?;
    let fault = Fault::new(stamp.from, stamp.to, "");
    Some(offers::at_which(fault, time, &|words| worded.whole(format!("{group} {words} {time}"))))
}

/// `home Wed 9:00 to 12:00 or Thu 9:00 to 12:00`: one of several windows.
fn windows(worded: &Worded) -> Option<Fault> {
    let line = worded.cursor.line;
    let parts: Vec<&[Token]> = worded.cursor.left().split(lists::joins).filter(|part| !part.is_empty()).collect();
    let text = |part: &[Token]| {
        line[part.first().map_or(0, |token| token.from)..part.last().map_or(0, |token| token.to)].to_string()
    };
    let window = |part: &&[Token]| {
        let to = part.iter().position(|token| ["to", "-"].contains(&token.text.to_lowercase().as_str()))?;
        let days = part.iter().take_while(|token| lists::is_day(token.text)).count();
        (days > 0 && days < to && to + 1 < part.len()).then_some(())?;
        let own = lists::is_day(part[to + 1].text);
        let (first, last) = (text(&part[..to]), text(&part[to + 1..]));
        Some(two(worded, &first, &if own { last } else { format!("{} {last}", text(&part[..days])) }))
    };
    let all: Vec<Vec<String>> = parts.iter().map(window).collect::<Option<_>>()?;
    let fault = worded.fault().hint("that one of several windows holds cannot be said");
    (all.len() > 1).then(|| all.into_iter().fold(fault, |fault, lines| fault.fixes("this one alone", lines)))
}

/// `ready in 30 min`: so long after the anchor, or before or behind that.
fn in_so_long(worded: &Worded) -> Option<Fault> {
    (worded.small == "in").then_some(())?;
    let cursor = worded.cursor;
    let mut rest = Cursor::new(cursor.line, cursor.left()[1..].to_vec(), cursor.end());
    let length = length::read(&mut rest, &Clock::unjudged()).ok().filter(|_| rest.peek(0).is_none())?;
    let long = &cursor.line[length.from..length.to];
    let fault = Fault::new(length.from, length.to, "");
    let whole = |words: &str| worded.whole(format!("{} {words} anchor + {long}", worded.group));
    Some(offers::at_which(fault, long, &whole).hint("so long after what? Here it is the anchor"))
}

/// Several moments before the words of a rule.
fn several(worded: &Worded) -> Option<Fault> {
    ["and", "&", ","].contains(&worded.small.as_str()).then_some(())?;
    let fault = worded.fault().hint("several moments stand behind 'later of', with commas between them");
    let each = offers::each(worded.cursor, worded.subject);
    Some(each.into_iter().fold(fault, |fault, lines| fault.fixes("each of them", lines)))
}
