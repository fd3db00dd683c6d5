//! A side of a rule, or a group of a span: `nothing`, a moment or a time of day with minutes, or `later of` several.

use crate::cursor::{Cursor, Unknown};
use crate::doubts;
use crate::fault::{with, without, Fault};
use crate::instant::{self, Known};
use crate::length::{self, is_hours, is_number, Length};
use crate::limits;
use crate::nearby;
use crate::sheet::{Lead, Moment};
use crate::shown;
use crate::tokens::{is_quote, Kind, Token, DASHES};

/// Words that name no moment, but in quotes; days of the week and words for times are such too.
const WORDS: [&str; 8] = ["later", "latest", "of", "nothing", "from", "to", "and", "or"];

/// Words for times and days, each with what is read in its place.
const TIMES: [(&str, &[&str]); 4] =
    [("noon", &["12:00"]), ("midnight", &["24:00", "0:00"]), ("today", &[]), ("tomorrow", &[])];

/// The times that a word is one for, where it is such a word.
fn times_of(word: &str) -> Option<&'static [&'static str]> {
    TIMES.iter().find(|(time, _)| word.eq_ignore_ascii_case(time)).map(|(_, times)| *times)
}

/// Whether a word can name a moment without quotes, where hyphens may stand within it.
pub fn is_bare(word: &str) -> bool {
    let strange = |c: char| c.is_whitespace() || c.is_control() || is_quote(c) || "+,<>=≤≥⩽⩾:#()→⇒←⟶‘’".contains(c);
    word.starts_with(char::is_alphabetic)
        && !word.contains(strange)
        && word.chars().count() <= limits::NAME
        && !WORDS.contains(&word.to_lowercase().as_str())
        && times_of(word).is_none()
        && crate::clock::day(word).is_none()
}

/// Whether a word can name a moment without quotes, whatever stands around it.
pub fn is_name(word: &str) -> bool {
    is_bare(word) && !word.contains(|c: char| DASHES.contains(c))
}

/// Why a name between quotes cannot be taken.
pub fn quoted_fault(name: &str) -> Option<&'static str> {
    if !name.starts_with(char::is_alphanumeric) || name.ends_with(char::is_whitespace) {
        return Some("a name in quotes starts with a letter or a digit, and does not end with a space");
    }
    if name.contains(is_quote) {
        return Some("a name has no quotes within it");
    }
    (name.chars().count() > limits::NAME).then_some("a name has at most 60 characters")
}

/// A moment, if it is declared, and its minutes.
pub type Term = (Option<usize>, i32);

/// A side that was read.
#[derive(Clone, Debug)]
pub struct Side {
    pub leads: Vec<Lead>,
    /// Whether it is one moment with no minutes.
    pub bare: bool,
    pub from: usize,
    pub to: usize,
}

/// Reads a side. A moment that is named twice counts with the larger lead.
pub fn read(cursor: &mut Cursor, known: &Known) -> Result<Side, Fault> {
    let from = cursor.place();
    other_words(cursor)?;
    let mut leads = vec![None; known.moments.len()];
    if cursor.sees("nothing") && known.moment(cursor.plain(0)).is_none() {
        cursor.take();
        return Ok(Side { leads, bare: false, from, to: cursor.last().map_or(from, |token| token.to) });
    }
    let terms = sum(cursor, known)?;
    let to = cursor.last().map_or(from, |token| token.to);
    for (moment, lead) in &terms {
        if lead.abs() > limits::LEAD {
            let message = format!("the minutes here add up to {lead}, beyond {}, two weeks", limits::LEAD);
            return Err(Fault::new(from, to, message));
        }
        if let Some(moment) = *moment {
            leads[moment] = leads[moment].max(Some(*lead));
        }
    }
    Ok(Side { leads, bare: matches!(terms[..], [(_, 0)]), from, to })
}

/// Minutes in front, a group, and minutes behind it.
fn sum(cursor: &mut Cursor, known: &Known) -> Result<Vec<Term>, Fault> {
    let from = cursor.place();
    bullet(cursor, known)?;
    let front = front(cursor, known);
    let group_from = cursor.place();
    let mut terms = group(cursor, known)?;
    let group_to = cursor.last().map_or(from, |token| token.to);
    if let Some(front) = front {
        doubts::in_front(cursor, known, &terms, front, (group_from, group_to))?;
        terms.iter_mut().for_each(|(_, lead)| *lead += front.minutes);
    }
    if let Some((sign, length)) = tail(cursor, known, &terms, group_from)? {
        terms.iter_mut().for_each(|(_, lead)| *lead += sign * length.minutes);
    }
    Ok(terms)
}

/// A dash before a side: a bullet, or a minus.
fn bullet(cursor: &mut Cursor, known: &Known) -> Result<(), Fault> {
    let Some(dash) = cursor.peek(0).filter(|token| token.kind == Kind::Sign && token.text == "-") else {
        return Ok(());
    };
    let mark = cursor.mark();
    cursor.take();
    let fault = Fault::new(dash.from, dash.to, "a side does not start with a minus")
        .fix("without the dash", without(cursor.line, dash.from, dash.to));
    let mut fixed = fault.clone();
    if let Some(length) = front(cursor, known) {
        let mut rest = Cursor::new(cursor.line, cursor.left().to_vec(), cursor.end());
        let from = rest.place();
        if group(&mut rest, known).is_ok() {
            let to = rest.last().map_or(from, |token| token.to);
            let (group, minutes) = (&cursor.line[from..to], &cursor.line[length.from..length.to]);
            let text = format!("{} - {minutes}", bracketed(group));
            fixed = fault.fix("minutes earlier", with(cursor.line, dash.from, to, &text));
        }
    }
    cursor.back(mark, cursor.unknown.len());
    Err(fixed)
}

/// A group in brackets, where it is several moments.
pub fn bracketed(group: &str) -> String {
    match group.to_lowercase().starts_with("late") && group.contains(' ') {
        true => format!("({group})"),
        false => group.into(),
    }
}

/// Minutes that stand before a plus and a group: they are taken with the plus.
fn front(cursor: &mut Cursor, known: &Known) -> Option<Length> {
    let first = cursor.peek(0).filter(|token| token.kind == Kind::Word && length::starts(token.text))?;
    let (mark, unknown) = (cursor.mark(), cursor.unknown.len());
    let length = length::read(cursor, known.clock).ok();
    // Behind minutes a time of day is what they are counted from: `30 + 9:00`.
    let short = length.is_some_and(|length| length.colon.is_none_or(|colon| colon.0 < 60));
    let time = |next: Token| short && is_hours(next.text);
    let group =
        cursor.peek(1).is_some_and(|next| next.kind == Kind::Quoted || !length::starts(next.text) || time(next));
    if let Some(length) = length.filter(|_| cursor.plain(0) == "+" && group && known.moment(first.text).is_none()) {
        cursor.take();
        return Some(length);
    }
    cursor.back(mark, unknown);
    None
}

fn group(cursor: &mut Cursor, known: &Known) -> Result<Vec<Term>, Fault> {
    let from = cursor.place();
    if cursor.takes("later of") || cursor.takes("latest of") {
        return list(cursor, known, from);
    }
    if cursor.sees("later") && known.moment("later").is_none() || cursor.sees("latest of") {
        return Err(cursor
            .fault("a moment's name is expected")
            .hint("'later of' has the moments behind it, with commas"));
    }
    if cursor.sees("(") {
        return brackets(cursor, known);
    }
    single(cursor, known, false).map(|term| vec![term])
}

/// A side in brackets.
fn brackets(cursor: &mut Cursor, known: &Known) -> Result<Vec<Term>, Fault> {
    if cursor.depth == limits::BRACKETS {
        return Err(cursor.fault("a moment's name is expected").hint("there are too many brackets within each other"));
    }
    cursor.take();
    cursor.depth += 1;
    other_words(cursor)?;
    let terms = sum(cursor, known)?;
    cursor.depth -= 1;
    closed(cursor)?;
    Ok(terms)
}

fn closed(cursor: &mut Cursor) -> Result<(), Fault> {
    let place = cursor.last().map_or(cursor.place(), |last| last.to);
    let closed = with(cursor.line, place, place, ")");
    cursor.expect(")").map_err(|fault| fault.hint("a bracket is open").fix("", closed))
}

/// A time of day, or a moment.
fn single(cursor: &mut Cursor, known: &Known, listed: bool) -> Result<Term, Fault> {
    match instant::starts(cursor) {
        true => Ok((Some(0), instant::read(cursor, known, listed)?)),
        false => Ok((moment(cursor, known)?, 0)),
    }
}

/// One of the moments behind `later of`.
struct Item {
    terms: Vec<Term>,
    from: usize,
    to: usize,
    /// Minutes that stand with it and not in brackets: where the moment alone ends or starts, and the minutes behind their sign.
    loose: Option<Loose>,
}

struct Loose {
    alone: (usize, usize),
    sign: i32,
    length: Length,
    front: bool,
}

/// The moments behind `later of`. Minutes among them stand in brackets with their moment; else nobody knows whose they are.
fn list(cursor: &mut Cursor, known: &Known, start: usize) -> Result<Vec<Term>, Fault> {
    let around = cursor.plain(0) == "(" && comma_within(cursor.left());
    if around {
        cursor.take();
    }
    let mut items = items(cursor, known)?;
    if items.len() > 1 && items.iter().any(|item| item.loose.is_some()) {
        return Err(whose(cursor, &items, start, around));
    }
    if around {
        closed(cursor)?;
        if let Some(comma) = cursor.peek(0).filter(|token| token.text == ",") {
            return Err(Fault::new(comma.from, comma.to, "nothing more is expected behind the brackets of 'later of'")
                .hint("put each moment with its minutes into brackets of its own"));
        }
    }
    for item in &mut items {
        if let Some(loose) = &item.loose {
            item.terms.iter_mut().for_each(|(_, lead)| *lead += loose.sign * loose.length.minutes);
        }
    }
    Ok(items.into_iter().flat_map(|item| item.terms).collect())
}

/// The moments of a list, with commas between them.
fn items(cursor: &mut Cursor, known: &Known) -> Result<Vec<Item>, Fault> {
    let mut items = Vec::new();
    loop {
        let comma = cursor.last().filter(|last| last.text == ",");
        if let (Some(comma), None) = (comma, cursor.peek(0)) {
            let fault = cursor.fault("a moment's name is expected");
            let fault = fault.hint("a rule stands on one line, and commas stand between names");
            return Err(fault.fix("", with(cursor.line, comma.from, comma.to, "")));
        }
        let joins = ["and", "or", "&", ";"];
        let word = |token: &Token| joins.contains(&token.text.to_lowercase().as_str()) && token.kind != Kind::Quoted;
        if let Some(word) = cursor.peek(0).filter(|token| comma.is_some() && word(token)) {
            return Err(cursor.fault("a moment's name is expected").fix("", without(cursor.line, word.from, word.to)));
        }
        items.push(item(cursor, known)?);
        if cursor.takes(",") {
            continue;
        }
        let Some(word) = cursor.peek(0).filter(word) else { return Ok(items) };
        let comma = format!("{}, {}", cursor.line[..word.from].trim_end(), cursor.line[word.to..].trim_start());
        return Err(cursor.fault("a comma is expected").fix("", comma));
    }
}

/// Whether the brackets that start here hold a list: a comma stands in them, and no `later of` before it.
fn comma_within(tokens: &[Token]) -> bool {
    let mut depth = 0;
    if tokens.get(1).is_some_and(|token| ["later", "latest"].contains(&token.text.to_lowercase().as_str())) {
        return false;
    }
    for token in tokens.iter().filter(|token| token.kind == Kind::Sign) {
        match token.text {
            "(" => depth += 1,
            ")" => depth -= 1,
            "," if depth == 1 => return true,
            _ => {}
        }
        if depth == 0 {
            return false;
        }
    }
    false
}

fn item(cursor: &mut Cursor, known: &Known) -> Result<Item, Fault> {
    let from = cursor.place();
    if let Some(length) = front(cursor, known) {
        let alone_from = cursor.place();
        let terms = vec![single(cursor, known, true)?];
        let to = cursor.last().map_or(from, |token| token.to);
        doubts::in_front(cursor, known, &terms, length, (alone_from, to))?;
        let loose = Some(Loose { alone: (alone_from, to), sign: 1, length, front: true });
        return Ok(Item { terms, from, to, loose });
    }
    let terms = match cursor.sees("(") {
        true => brackets(cursor, known)?,
        false => vec![single(cursor, known, true)?],
    };
    let to = cursor.last().map_or(from, |token| token.to);
    let behind = tail(cursor, known, &terms, from)?;
    let loose = behind.map(|(sign, length)| Loose { alone: (from, to), sign, length, front: false });
    Ok(Item { terms, from, to: cursor.last().map_or(to, |token| token.to), loose })
}

/// Minutes inside `later of` that stand in no brackets: with their moment alone, or with all of them.
fn whose(cursor: &Cursor, items: &[Item], start: usize, around: bool) -> Fault {
    let line = cursor.line;
    let text = |item: &Item| line[item.from..item.to].to_string();
    let alone = |loose: &Loose| &line[loose.alone.0..loose.alone.1];
    let minutes = |loose: &Loose| {
        let sign = if loose.sign < 0 { "-" } else { "+" };
        format!("{sign} {}", &line[loose.length.from..loose.length.to])
    };
    let each = |item: &Item| match &item.loose {
        None => text(item),
        Some(loose) => format!("({} {})", alone(loose), minutes(loose)),
    };
    let (first, last) = (&items[0], &items[items.len() - 1]);
    let loose = items.iter().find(|item| item.loose.is_some()).unwrap_or(last);
    let own = items.iter().map(each).collect::<Vec<_>>().join(", ");
    let fault = Fault::new(loose.from, loose.to, "whose are these minutes? Inside 'later of' they stand in brackets")
        .fix("its own", with(line, first.from, last.to, &own));
    let Some(behind) = last.loose.as_ref().filter(|loose| !loose.front) else { return fault };
    let mut all: Vec<String> = items[..items.len() - 1].iter().map(each).collect();
    all.push(alone(behind).into());
    let all = format!("(later of {}) {}", all.join(", "), minutes(behind));
    let to = match around {
        true => line[last.to..].find(')').map_or(last.to, |length| last.to + length + 1),
        false => last.to,
    };
    fault.fix("those of all", with(line, start, to, &all))
}

/// Minutes behind a group, with their sign.
fn tail(cursor: &mut Cursor, known: &Known, terms: &[Term], from: usize) -> Result<Option<(i32, Length)>, Fault> {
    let sign = match cursor.plain(0) {
        "+" => 1,
        "-" => -1,
        _ => return Ok(None),
    };
    let Some(token) = cursor.take() else { return Ok(None) };
    let length = minutes(cursor, known, token, from)?;
    if let Some(fault) = called_so(cursor, known, (from, token.from), length).filter(|_| sign < 0) {
        return Err(fault);
    }
    match sign > 0 {
        true => doubts::behind(cursor, known, terms, length, (from, token.from))?,
        false => doubts::window(cursor, known, terms, length, (from, token.from))?,
    }
    if ["+", "-"].contains(&cursor.plain(0)) && cursor.peek(1).is_some_and(|next| length::starts(next.text)) {
        return Err(twice(cursor, known, sign, length, from));
    }
    Ok(Some((sign, length)))
}

/// `bed - 4`, where a moment is called `bed 4`: that moment, or the other one less minutes.
fn called_so(cursor: &Cursor, known: &Known, (from, to): (usize, usize), length: Length) -> Option<Fault> {
    let (line, group) = (cursor.line, cursor.line[from..to].trim_end());
    let written = &line[from..length.to];
    let name =
        nearby::numbered_name(names(known.moments), group, &line[length.from..length.to]).filter(|_| length.bare)?;
    let say = |text: &str| with(line, from, length.to, text);
    let minus = format!("{group} - {} min", &line[length.from..length.to]);
    Some(
        Fault::new(from, length.to, format!("'{written}' can be a moment, or a moment less minutes"))
            .fix("the moment", say(&shown::name(name)))
            .fix("less minutes", say(&minus)),
    )
}

/// The minutes behind a sign.
fn minutes(cursor: &mut Cursor, known: &Known, sign: Token, from: usize) -> Result<Length, Fault> {
    let Some(token) = cursor.peek(0) else {
        return Err(cursor.fault("minutes are expected").hint("how many? A number is missing behind the sign"));
    };
    if token.text == "(" {
        let (mark, unknown) = (cursor.mark(), cursor.unknown.len());
        cursor.take();
        let inner = added(cursor, known).filter(|_| cursor.plain(0) == ")");
        let to = cursor.peek(0).map_or(token.to, |token| token.to);
        cursor.back(mark, unknown);
        let fault = cursor.fault("minutes are expected");
        return Err(match inner {
            Some(inner) => fault.fix("", with(cursor.line, token.from, to, &inner)),
            None => fault,
        });
    }
    if let Some(fault) = length::point(cursor, token) {
        return Err(fault);
    }
    if token.kind == Kind::Quoted || token.kind == Kind::Word && known.moment(token.text).is_some() {
        let group = cursor.line[from..sign.from].trim_end();
        let fault = Fault::new(sign.from, token.to, "two moments cannot be added or taken from each other");
        return Err(match sign.text {
            "+" => {
                let list = format!("later of {group}, {}", &cursor.line[token.from..token.to]);
                fault.fix("the later of both", with(cursor.line, from, token.to, &list))
            }
            _ => fault,
        });
    }
    length::read(cursor, known.clock)
}

/// Minutes within brackets, and the sum of several: as they can be written without them.
fn added(cursor: &mut Cursor, known: &Known) -> Option<String> {
    let first = length::read(cursor, known.clock).ok()?;
    let mut minutes = first.minutes;
    while ["+", "-"].contains(&cursor.plain(0)) {
        let sign = if cursor.take()?.text == "-" { -1 } else { 1 };
        minutes += sign * length::read(cursor, known.clock).ok()?.minutes;
    }
    match minutes == first.minutes {
        true => Some(cursor.line[first.from..first.to].into()),
        false => (minutes > 0).then(|| shown::length(minutes)),
    }
}

/// Minutes that are given twice: their sum.
fn twice(cursor: &mut Cursor, known: &Known, sign: i32, first: Length, from: usize) -> Fault {
    let fault = cursor.fault("minutes are given once");
    let Some(next) = cursor.take() else { return fault };
    let Ok(second) = length::read(cursor, known.clock) else { return fault };
    let sum = sign * first.minutes + if next.text == "-" { -second.minutes } else { second.minutes };
    let group = cursor.line[from..first.from].trim_end().trim_end_matches(['+', '-', '–', '−', '—']).trim_end();
    let text = match sum {
        0 => group.to_string(),
        1.. => format!("{group} + {}", shown::length(sum)),
        _ => format!("{group} - {}", shown::length(-sum)),
    };
    fault.fix("the sum", with(cursor.line, from, second.to, &text))
}

/// Words for groups that this language does not have, or has otherwise.
fn other_words(cursor: &Cursor) -> Result<(), Fault> {
    let Some(token) = cursor.peek(0).filter(|token| token.kind == Kind::Word) else { return Ok(()) };
    let say = |to: usize, text: &str| with(cursor.line, token.from, to, text);
    let such = |words: [&str; 2]| cursor.sees(words[0]) && cursor.plain(1).to_lowercase() == words[1];
    if ["max", "maximum"].iter().any(|word| such([word, "("])) {
        let to = cursor.peek(1).map_or(token.to, |token| token.from);
        let text = say(to, "later of ").replace(';', ",");
        return Err(cursor.fault("a moment's name or 'later of' is expected").fix("", text));
    }
    if cursor.sees("the later of") || cursor.sees("the latest of") {
        let to = cursor.peek(1).map_or(token.to, |token| token.from);
        return Err(cursor.fault("a moment's name or 'later of' is expected").fix("", say(to, "")));
    }
    let first = ["earlier", "earliest", "first"].iter().any(|word| such([word, "of"]))
        || ["min", "minimum"].iter().any(|word| such([word, "("]));
    match first {
        true => Err(cursor.fault("a moment's name or 'later of' is expected").hint(
            "there is 'later of' alone; that something is not later than any of several is a rule with each of them",
        )),
        false => Ok(()),
    }
}

/// A moment's name. A moment that nobody declared is noted, and the rest of the line is still read.
fn moment(cursor: &mut Cursor, known: &Known) -> Result<Option<usize>, Fault> {
    let Some(token) = cursor.peek(0) else { return Err(cursor.fault("a moment's name is expected")) };
    let moment = known.moment(token.text);
    if let Some(fault) = without_quotes(cursor, token, known).or_else(|| nearby::unquoted(cursor, token, known)) {
        return Err(fault);
    }
    if let Some(fault) = hyphen(cursor, token, known, moment) {
        return Err(fault);
    }
    let times = times_of(token.text).filter(|_| token.kind == Kind::Word);
    if let Some(fault) = instant::meant(cursor, known).filter(|_| times.is_some() && moment.is_none()) {
        return Err(fault);
    }
    if let Some(times) = times.filter(|_| moment.is_some()) {
        let say = |text: &str| with(cursor.line, token.from, token.to, text);
        let fault = cursor.fault("a moment is called so, and it is a word for a time too");
        let fault = fault.fix("the moment", say(&format!("\"{}\"", token.text)));
        return Err(times.iter().fold(fault, |fault, time| fault.fix("the time of day", say(time))));
    }
    if token.kind != Kind::Quoted && moment.is_none() && !is_bare(token.text) {
        return Err(no_name(cursor, token, known));
    }
    cursor.take();
    if moment.is_none() && token.kind == Kind::Word && token.text.to_lowercase() == "anchor" {
        return Ok(Some(0));
    }
    if moment.is_none() {
        cursor.unknown.push(Unknown { name: token.text.into(), from: token.from, to: token.to });
    }
    Ok(moment)
}

/// The declared name of several words that starts where a word does, the longest of them.
pub fn without_quotes(cursor: &Cursor, token: Token, known: &Known) -> Option<Fault> {
    if token.kind != Kind::Word {
        return None;
    }
    let line = &cursor.line[..cursor.end()];
    let ends = |name: &str| !line[token.from + name.len()..].starts_with(char::is_alphanumeric);
    let names = known.moments.iter().map(|known| known.name.as_str());
    let names = names.filter(|name| name.starts_with(char::is_alphanumeric));
    let longer = |name: &&str| name.len() > token.text.len() && line[token.from..].starts_with(*name) && ends(name);
    let name = names.filter(longer).max_by_key(|name| name.len())?;
    let to = token.from + name.len();
    let say = |text: String| with(cursor.line, token.from, to, &text);
    let fault = Fault::new(token.from, to, format!("'{name}' stands without its quotes"));
    // `bed 5 after ward`: the moment "bed 5", or the moment `bed` and its minutes.
    let number = name.strip_prefix(token.text).map(str::trim).filter(|rest| is_number(rest));
    let behind = cursor.peek(2).map_or(String::new(), |token| token.text.to_lowercase());
    match number.filter(|_| known.moment(token.text).is_some()) {
        Some(_) if length::unit(&behind).is_some() || behind == "to" => None,
        Some(number) if ["after", "before"].contains(&behind.as_str()) => Some(
            fault
                .fix(format!("the moment '{name}'"), say(format!("\"{name}\"")))
                .fix("minutes", say(format!("{} at least {number}", token.text)))
                .fix("minutes", say(format!("{} exactly {number}", token.text))),
        ),
        _ => Some(fault.fix("", say(format!("\"{name}\"")))),
    }
}

/// Tells a declared name of several words that stands here without its quotes.
pub fn in_quotes(cursor: &Cursor, known: &Known) -> Result<(), Fault> {
    cursor.peek(0).and_then(|token| without_quotes(cursor, token, known)).map_or(Ok(()), Err)
}

/// A hyphen in a word that is a name's or was meant as a minus.
fn hyphen(cursor: &Cursor, token: Token, known: &Known, moment: Option<usize>) -> Option<Fault> {
    if token.kind != Kind::Word {
        return None;
    }
    let place = token.text.rfind(|c| DASHES.contains(c))?;
    let (name, rest) = (&token.text[..place], token.text[place..].trim_start_matches(|c| DASHES.contains(c)));
    if known.moment(name).is_none() || !length::starts(rest) {
        return None;
    }
    let say = |text: String| with(cursor.line, token.from, token.to, &text);
    let fault = |message: &str| Fault::new(token.from, token.to, message);
    let minus = say(format!("{name} - {rest}"));
    Some(match moment {
        Some(_) => fault("this can be a moment, or a moment less minutes")
            .fix("the moment", say(format!("\"{}\"", token.text)))
            .fix("less minutes", minus),
        None => fault("a minus has a space on both sides")
            .hint("without spaces a hyphen is a part of a name, and no moment is called so")
            .fix("a minus", minus),
    })
}

/// What stands where a moment's name belongs.
fn no_name(cursor: &Cursor, token: Token, known: &Known) -> Fault {
    let fault = cursor.fault("a moment's name is expected");
    let say = |text: String| with(cursor.line, token.from, token.to, &text);
    if let Some(fault) = instant::meant(cursor, known) {
        return fault;
    }
    if is_number(token.text) {
        return instant::bare(cursor, token, known).hint("minutes are counted from a moment");
    }
    if is_hours(token.text) {
        return fault;
    }
    if token.text.starts_with(['\'', '‘', '’']) {
        return single_quotes(cursor, token, fault);
    }
    if WORDS.contains(&token.text.to_lowercase().as_str()) && token.kind == Kind::Word {
        let quoted = format!("\"{}\"", token.text);
        return fault.hint("a moment that is called so stands in quotes").fix("", say(quoted));
    }
    let numbered = token.text.trim_end_matches(['.', ')', '*', '•']);
    let bullet = is_number(numbered) && numbered.len() < token.text.len() || numbered.is_empty();
    match bullet {
        true => fault.fix("without it", without(cursor.line, token.from, token.to)),
        false => fault,
    }
}

/// Single quotes round a name.
fn single_quotes(cursor: &Cursor, token: Token, fault: Fault) -> Fault {
    let rest = &cursor.line[token.from..cursor.end()];
    let fault = fault.hint("names with spaces stand in double quotes");
    let mut quotes = rest.char_indices().filter(|(_, c)| "'‘’".contains(*c));
    let (Some((_, open)), Some((close, end))) = (quotes.next(), quotes.next()) else { return fault };
    let name = &rest[open.len_utf8()..close];
    fault.fix("", with(cursor.line, token.from, token.from + close + end.len_utf8(), &format!("\"{name}\"")))
}

/// Two groups with a minus between them: the texts before and behind it.
pub fn difference<'a>(cursor: &Cursor<'a>) -> Option<(&'a str, &'a str)> {
    let tokens = cursor.left();
    let place = (0..tokens.len()).rev().find(|&place| {
        let next = tokens.get(place + 1);
        tokens[place].kind == Kind::Sign
            && tokens[place].text == "-"
            && next.is_some_and(|next| next.kind == Kind::Quoted || !length::starts(next.text) && next.text != "(")
    })?;
    let (first, last) = (tokens.first()?, tokens.last()?);
    (place > 0).then_some(())?;
    Some((cursor.line[first.from..tokens[place].from].trim(), cursor.line[tokens[place].to..last.to].trim()))
}

/// The names that are declared, for hints.
pub fn names(moments: &[Moment]) -> impl Iterator<Item = &str> {
    moments.iter().map(|moment| moment.name.as_str())
}
