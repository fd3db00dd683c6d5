//! Rules in words: `ready not before 8:40`, `home by Thu 14:00`, `cleaned 35 to 40 after free`, `exactly 10 after ..`.

use crate::clock::{self, Clock};
use crate::cursor::Cursor;
use crate::doubts;
use crate::fault::{with, Fault};
use crate::instant::{self, Known};
use crate::length::{self, is_number, Length};
use crate::limits;
use crate::lists;
use crate::offers;
use crate::rows::{self, Sides};
use crate::sheet::Lead;
use crate::sides::{self, Side};
use crate::tokens::{Kind, Token};
use crate::worded;

/// How two limits bound the minutes between two sides.
#[derive(Clone, Copy, Debug, PartialEq, Eq)]
struct Limits {
    least: Option<i32>,
    most: Option<i32>,
}

/// Reads a rule in words: one rule, or two.
pub fn read(cursor: &mut Cursor, known: &Known) -> Result<Vec<Sides>, Fault> {
    let from = cursor.place();
    let words = ["by", "at", "not", "exactly", "after", "before", "between", "until", "till", "within", "no"];
    let first = cursor.plain(0);
    if known.moment(first).is_none() && words.contains(&first.to_lowercase().as_str()) {
        let fault = Fault::new(from, from + first.len(), "a rule starts with its moment, and there is none here");
        return Err(fault.hint("what is it about? As in 'leaves at least 10 after ready', or 'ready by 8:45'"));
    }
    let subject = sides::read(cursor, known)?;
    let rules = behind(cursor, known, &subject)?;
    match cursor.peek(0) {
        None => Ok(rules),
        Some(token) => Err(more(cursor, &subject, token, from)),
    }
}

/// What stands behind a rule's first side.
fn behind(cursor: &mut Cursor, known: &Known, subject: &Side) -> Result<Vec<Sides>, Fault> {
    let one = |left: &[Lead], right: &[Lead]| Ok(vec![(left.to_vec(), right.to_vec())]);
    let amount = cursor.place();
    if cursor.takes("not before") {
        let point = point(cursor, known, amount, false)?;
        return one(&point.leads, &subject.leads);
    }
    if cursor.takes("by") || cursor.takes("not after") {
        let point = point(cursor, known, amount, true)?;
        return one(&subject.leads, &point.leads);
    }
    let limits = match () {
        _ if cursor.takes("at least") => (true, false),
        _ if cursor.takes("at most") => (false, true),
        _ if !cursor.sees("exactly at") && cursor.takes("exactly") => (true, true),
        _ => (false, false),
    };
    let said = limits.0 || limits.1;
    let numbered = cursor.peek(0).is_some_and(|token| token.kind == Kind::Word && length::starts(token.text));
    if !said && (!numbered || worded::is_times(cursor)) {
        return Err(worded::other(cursor, known, subject));
    }
    if let Some(fault) = cursor.peek(0).and_then(|token| length::point(cursor, token)) {
        return Err(fault);
    }
    match day_for_length(cursor, amount, limits).filter(|_| said) {
        Some(fault) => Err(fault),
        None => counted(cursor, known, subject, limits, amount),
    }
}

/// Minutes, `after` or `before`, and a side. `amount` is where the words before the minutes start.
fn counted(
    cursor: &mut Cursor,
    known: &Known,
    subject: &Side,
    (least, most): (bool, bool),
    amount: usize,
) -> Result<Vec<Sides>, Fault> {
    let (line, said) = (cursor.line, least || most);
    let first = length::read(cursor, known.clock)?;
    if let Some(fault) = offers::both_limits(cursor, known, first, (least, most), amount) {
        return Err(fault);
    }
    let last = range(cursor, known, subject, first, said.then_some(amount))?;
    if !is_counted(cursor) {
        let at_time = offers::at_time(cursor, subject, (first, last), (least, most));
        return Err(at_time.unwrap_or_else(|| no_after(cursor, subject, first, said)));
    }
    if !said && last.is_none() {
        let say = |words: &str| with(line, first.from, first.from, &format!("{words} "));
        return Err(Fault::new(amount, first.to, "at least so long, or exactly?")
            .fix("so long or longer", say("at least"))
            .fix("no longer", say("exactly")));
    }
    let whole = |words: String| with(line, subject.to, cursor.end(), &format!(" {words}"));
    if let Some(fault) = (doubts::Amount { line, known, first, last }).doubt((least, most), &whole) {
        return Err(fault);
    }
    let limits = match last {
        Some(last) => Limits { least: Some(first.minutes), most: Some(last.minutes) },
        None => Limits { least: least.then_some(first.minutes), most: most.then_some(first.minutes) },
    };
    let after = cursor.takes("after") || !cursor.takes("before");
    base(cursor, known, subject, limits, after)
}

/// Whether `after` or `before` stands here.
fn is_counted(cursor: &Cursor) -> bool {
    ["after", "before"].contains(&cursor.plain(0).to_lowercase().as_str())
}

/// `at least Thu 9:00`: a time where minutes are expected.
fn day_for_length(cursor: &Cursor, amount: usize, (least, most): (bool, bool)) -> Option<Fault> {
    let token = cursor.peek(0).filter(|token| lists::is_day(token.text))?;
    let words = match (least, most) {
        (true, true) => "=",
        (true, _) => "not before",
        _ => "by",
    };
    let fault = Fault::new(token.from, token.to, format!("'{}' is a day, and no length of time", token.text));
    Some(fault.fix("", with(cursor.line, amount, token.from, &format!("{words} "))))
}

/// The side that a rule counts from, and the rules.
fn base(cursor: &mut Cursor, known: &Known, subject: &Side, limits: Limits, after: bool) -> Result<Vec<Sides>, Fault> {
    let from = cursor.place();
    let base = sides::read(cursor, known)?;
    let (early, late) = if after { (&base, subject) } else { (subject, &base) };
    let moved = |minutes: i32| -> Result<Vec<Lead>, Fault> {
        let leads: Vec<Lead> = early.leads.iter().map(|lead| lead.map(|lead| lead + minutes)).collect();
        match leads.iter().flatten().all(|lead| lead.abs() <= limits::LEAD) {
            true => Ok(leads),
            false => {
                Err(Fault::new(from, base.to, format!("the minutes add up to more than {}, two weeks", limits::LEAD)))
            }
        }
    };
    let mut rules = Vec::new();
    if let Some(least) = limits.least {
        rules.push((moved(least)?, late.leads.clone()));
    }
    if let Some(most) = limits.most {
        rules.push((late.leads.clone(), moved(most)?));
    }
    Ok(rules)
}

/// The second number of a range, behind `to`. `said` is where words like `at least` stand before the first, if they do.
fn range(
    cursor: &mut Cursor,
    known: &Known,
    subject: &Side,
    first: Length,
    said: Option<usize>,
) -> Result<Option<Length>, Fault> {
    let Some(to) = cursor.peek(0).filter(|token| token.kind == Kind::Word && token.text.to_lowercase() == "to") else {
        return Ok(None);
    };
    if let Some(amount) = said {
        let fault = Fault::new(to.from, to.to, "a range has neither 'at least' nor 'at most' nor 'exactly' before it");
        return Err(fault.fix("both limits", with(cursor.line, amount, first.from, "")));
    }
    cursor.take();
    let last = length::read(cursor, known.clock)?;
    let line = cursor.line;
    let (a, b) = (&line[first.from..first.to], &line[last.from..last.to]);
    let unit = b.trim_start_matches(|c: char| c.is_ascii_digit()).trim();
    if first.bare && !last.bare && last.colon.is_none() && !unit.is_empty() && !unit.to_lowercase().starts_with('m') {
        let fault = Fault::new(first.from, first.to, format!("'{a}' has no unit"));
        let unit: String = unit.chars().take_while(|c| c.is_alphabetic()).collect();
        return Err(fault
            .fix("the same unit", with(line, first.from, first.to, &format!("{a} {unit}")))
            .fix("minutes", with(line, first.from, first.to, &format!("{a} min"))));
    }
    match first.minutes > last.minutes && known.clock.judges() && is_counted(cursor) {
        true => Err(turned(cursor, known, subject, first, last)),
        false => Ok(Some(last)),
    }
}

/// A range whose first number is the larger one: turned round; or two times of day, where they are written so.
fn turned(cursor: &Cursor, known: &Known, subject: &Side, first: Length, last: Length) -> Fault {
    let line = cursor.line;
    let (a, b) = (&line[first.from..first.to], &line[last.from..last.to]);
    let fault = Fault::new(first.from, last.to, "the smaller number comes first");
    let long = with(line, first.from, last.to, &format!("{b} to {a}"));
    let hour = last.bare && last.minutes <= 24;
    let times = first.colon.and(known.anchor).filter(|_| last.colon.is_some() || hour);
    let end = if hour { clock::on_the_hour(last.minutes) } else { b.into() };
    let whole = |words: String| with(line, subject.to, cursor.end(), &format!(" {words}"));
    match times {
        Some(_) => fault
            .fix("so long", long)
            .fixes("by the clock", vec![whole(format!("not before {a}")), whole(format!("by {end}"))]),
        None => fault.fix("", long),
    }
}

/// A time of day or a side, behind `by` and `not before`, which stand at a place.
fn point(cursor: &mut Cursor, known: &Known, word: usize, by: bool) -> Result<Side, Fault> {
    let first = cursor.peek(0).filter(|token| token.kind == Kind::Word && known.moment(token.text).is_none());
    if first.is_some_and(|token| length::starts(token.text)) {
        if let Some(fault) = offers::so_long(cursor, known, word, by) {
            return Err(fault);
        }
    }
    if !instant::starts(cursor) {
        if let Some(fault) = instant::meant(cursor, known) {
            return Err(fault);
        }
    }
    let plus = cursor.peek(1).is_some_and(|next| next.text == "+");
    match first.filter(|token| is_number(token.text) && !plus) {
        Some(token) => Err(instant::bare(cursor, token, known)),
        None => sides::read(cursor, known),
    }
}

/// Words behind minutes, and those that are read in their place before them.
const BEHIND: [(&str, &str); 5] = [
    ("or more", "at least"),
    ("or less", "at most"),
    ("+", "at least"),
    ("at the latest", "by"),
    ("at the earliest", "not before"),
];

/// Minutes with neither `after` nor `before` behind them.
fn no_after(cursor: &Cursor, subject: &Side, first: Length, said: bool) -> Fault {
    let fault = cursor.fault("'after' or 'before' is expected");
    let line = cursor.line;
    let (group, minutes) = (&line[subject.from..subject.to], &line[first.from..first.to]);
    if let Some(fault) = several_amounts(cursor, first, fault.clone()) {
        return fault;
    }
    if let Some(than) = cursor.peek(1).filter(|_| cursor.sees("later than")) {
        return fault.fix("", with(line, cursor.place(), than.to, "after"));
    }
    if let Some((words, meant)) = BEHIND.iter().find(|(words, _)| !said && cursor.sees(words)) {
        let to = cursor.peek(words.split(' ').count() - 1).map_or(first.to, |token| token.to);
        return fault.fix("", with(line, first.from, to, &format!("{meant} {minutes}")));
    }
    if let Some(why) = rows::no_unit(&cursor.plain(0).to_lowercase()) {
        return fault.hint(why);
    }
    if let Some(last) = cursor.peek(1).filter(|last| cursor.plain(0) == "-" && length::starts(last.text) && !said) {
        return fault.fix("both limits", with(line, first.from, last.to, &format!("{minutes} to {}", last.text)));
    }
    match cursor.peek(0) {
        None if said => fault.hint("after what? A rule names two moments, as in 'leaves at least 10 after ready'"),
        _ if said => fault,
        Some(token) if token.kind == Kind::Word => {
            let rest = line[token.from..cursor.end()].trim();
            fault
                .hint("'<=' and a sign may be missing")
                .fix("", with(line, subject.from, cursor.end(), &format!("{group} + {minutes} <= {rest}")))
        }
        _ => fault.hint("a rule is written 'ready + 10 <= leaves', or 'leaves at least 10 after ready'"),
    }
}

/// `30 or 40 after ..`, `30 + 10 after ..`: which of both, or the sum.
fn several_amounts(cursor: &Cursor, first: Length, fault: Fault) -> Option<Fault> {
    let sign = cursor.peek(0).filter(|token| lists::joins(token) || token.text == "+")?;
    let mut rest = Cursor::new(cursor.line, cursor.left()[1..].to_vec(), cursor.end());
    let last = length::read(&mut rest, &Clock::unjudged()).ok()?;
    ["after", "before"].contains(&rest.plain(0).to_lowercase().as_str()).then_some(())?;
    let (one, other) = (&cursor.line[first.from..first.to], &cursor.line[last.from..last.to]);
    let say = |text: &str| with(cursor.line, first.from, last.to, text);
    if sign.text == "+" {
        return Some(fault.fix("the sum", say(&format!("{} min", first.minutes + last.minutes))));
    }
    let fault = Fault::new(first.from, last.to, "which of both? A line has one length of time");
    Some(
        fault
            .fix("from the one to the other", say(&format!("{one} to {other}")))
            .fix("the first", say(one))
            .fix("the second", say(other)),
    )
}

/// What is too much behind a rule in words.
fn more(cursor: &Cursor, subject: &Side, token: Token, from: usize) -> Fault {
    let fault = Fault::new(token.from, token.to, format!("'{}' is too much", &cursor.line[token.from..token.to]));
    let found = match lists::joins(&token) && offers::side_behind(cursor, 0).is_none() {
        true => lists::behind(cursor, subject, token, from),
        false => offers::behind(cursor, subject, token, from).or_else(|| lists::behind(cursor, subject, token, from)),
    };
    found.unwrap_or_else(|| rows::more(cursor, fault))
}
