//! Several rules in a line: each is a line of its own.

use crate::fault::Fault;
use crate::instant::Known;
use crate::length;
use crate::parse::part;
use crate::sides;
use crate::tokens::{is_quote, Kind, Token};

/// Words that stand between two rules.
const JOINS: [&str; 7] = ["and", "or", "but", "then", "while", "&", ","];

/// Words that a rule has behind what it is about.
const SAYS: [&str; 16] = [
    "by", "not", "at", "exactly", "before", "after", "between", "within", "until", "till", "must", "is", "from", "no",
    "on", "in",
];

fn joins(token: &Token) -> bool {
    token.kind != Kind::Quoted && JOINS.contains(&token.text.to_lowercase().as_str())
}

/// Whether a token says something of what stands before it: a sign between sides, a word, a time or minutes.
fn says(token: &Token) -> bool {
    let word = token.kind == Kind::Word;
    let time = word && (length::starts(token.text) || crate::clock::day(token.text).is_some());
    token.kind == Kind::Relation || time || word && SAYS.contains(&token.text.to_lowercase().as_str())
}

fn token_is_word(token: &Token) -> bool {
    token.kind == Kind::Word
}

/// A rule's tokens, and what is known.
struct Rules<'r> {
    line: &'r str,
    tokens: &'r [Token<'r>],
    known: &'r Known<'r>,
}

impl Rules<'_> {
    /// How many tokens are a moment's name that starts at a place: a declared one, with or without its quotes, or a word that can be one.
    fn name(&self, at: usize) -> Option<usize> {
        let token = self.tokens.get(at)?;
        if token.kind == Kind::Quoted || self.known.moment(token.text).is_some() {
            return Some(1);
        }
        let whole = |name: &&str| self.line[token.from..].starts_with(*name) && name.contains(' ');
        if let Some(name) = sides::names(self.known.moments).filter(whole).max_by_key(|name| name.len()) {
            return Some(self.tokens[at..].iter().take_while(|other| other.to <= token.from + name.len()).count());
        }
        let own = token.kind == Kind::Word && sides::is_bare(token.text) && !joins(token) && !says(token);
        own.then_some(1)
    }

    /// Where the names end that start at a place, with words like `and` between them.
    fn names(&self, at: usize) -> Option<usize> {
        let mut end = at + self.name(at)?;
        loop {
            let words = self.tokens[end..].iter().take_while(|token| joins(token)).count();
            match self.name(end + words).filter(|_| words > 0) {
                Some(count) => end += words + count,
                None => return Some(end),
            }
        }
    }

    /// Where a whole rule starts behind words like `and` at a place.
    fn starts(&self, at: usize) -> Option<usize> {
        let words = self.tokens[at..].iter().take_while(|token| joins(token)).count();
        let start = at + words;
        // Without such a word a declared moment starts a rule behind a time or another moment.
        let known = |at: usize| self.tokens.get(at).is_some_and(|token| self.known.moment(token.text).is_some());
        let ended = |token: &Token| length::starts(token.text) || self.known.moment(token.text).is_some();
        let bare = known(at) && at.checked_sub(1).is_some_and(|before| ended(&self.tokens[before]));
        let end = self.names(start).filter(|_| words > 0 || bare)?;
        let next = self.tokens.get(end)?;
        let lead = next.kind == Kind::Sign && ["+", "-"].contains(&next.text);
        let signed =
            self.tokens[end..].iter().take_while(|token| !joins(token)).any(|token| token.kind == Kind::Relation);
        (says(next) || lead && signed).then_some(start)
    }

    /// A rule of several as it is written; minutes that have no `after` have that of another, and its words before them.
    fn whole(&self, parts: &[(usize, usize)], (from, to): (usize, usize)) -> String {
        let text = |from: usize, to: usize| match self.tokens.get(from..to) {
            Some([first, .., last]) => &self.line[first.from..last.to],
            Some([only]) => &self.line[only.from..only.to],
            _ => "",
        };
        let after = |&(from, to): &(usize, usize)| {
            let word = |token: &Token| ["after", "before"].contains(&token.text.to_lowercase().as_str());
            (from..to).find(|&place| token_is_word(&self.tokens[place]) && word(&self.tokens[place]))
        };
        let number = |&(from, to): &(usize, usize)| (from..to).find(|&place| length::starts(self.tokens[place].text));
        let own = self.tokens[from..to].iter().skip(1).all(|token| {
            let unit = length::unit(token.text).is_some();
            unit || length::starts(token.text) || ["at", "least", "most", "exactly"].contains(&token.text)
        });
        let other = parts.iter().find(|part| after(part).is_some() && number(part).is_some());
        let (Some(other), Some(place), true) = (other, number(&(from, to)), own && to - from > 1) else {
            return text(from, to).into();
        };
        let (Some(base), Some(minutes), Some(count)) = (after(other), number(other), self.name(other.0)) else {
            return text(from, to).into();
        };
        let told = text(from + 1, place);
        let words = if told.is_empty() { text(other.0 + count, minutes) } else { told };
        let all = [text(from, from + 1), words, text(place, to), text(base, other.1)];
        all.into_iter().filter(|part| !part.is_empty()).collect::<Vec<_>>().join(" ")
    }

    /// `leaves at least 10 after ready and porter by 9:00`, as one that comes after both, and has the limit of the second.
    fn after_both(&self, parts: &[(usize, usize)]) -> Option<[String; 2]> {
        let [(from, to), (start, end)] = *parts else { return None };
        let text = |from: usize, to: usize| match self.tokens.get(from..to) {
            Some([first, .., last]) => &self.line[first.from..last.to],
            Some([only]) => &self.line[only.from..only.to],
            _ => "",
        };
        let word = |place: usize, words: &[&str]| words.contains(&text(place, place + 1).to_lowercase().as_str());
        let after = (from..to).find(|&place| word(place, &["after"]))?;
        let (count, second) = (self.name(from)?, self.name(start)?);
        let least = word(from + count, &["at"]) && word(from + count + 1, &["least"]);
        let such = least && self.name(after + 1)? == to - after - 1 && word(start + second, &["by", "not"]);
        such.then(|| {
            let names = format!("{}, {}", text(after + 1, to), text(start, start + second));
            let limit = format!("{} {}", text(from, from + count), text(start + second, end));
            [format!("{} later of {names}", text(from, after + 1)), limit]
        })
    }

    /// The rules, each with its first token and the one behind its last.
    fn parts(&self) -> Vec<(usize, usize)> {
        let (mut parts, mut from, mut at, mut depth) = (Vec::new(), 0, 1, 0);
        while at < self.tokens.len() {
            depth += (self.tokens[at].text == "(") as i32 - (self.tokens[at].text == ")") as i32;
            let whole = self.tokens[from..at].iter().skip(1).any(says);
            match self.starts(at).filter(|_| depth == 0 && whole) {
                Some(start) => {
                    parts.push((from, at));
                    (from, at) = (start, start + 1);
                }
                None => at += 1,
            }
        }
        parts.push((from, self.tokens.len()));
        parts
    }
}

/// A line that is several rules: a line for each of them.
pub fn rules(known: &Known, line: &str, from: usize, end: usize) -> Option<Fault> {
    if let Some(fault) = parted(line, from, end) {
        return Some(fault);
    }
    let tokens = part(line, from, end)?;
    let rules = Rules { line, tokens: &tokens, known };
    let parts = rules.parts();
    let (_, join) = *parts.first().filter(|_| parts.len() > 1)?;
    let head = &line[..tokens[0].from];
    let lines: Vec<String> = parts.iter().map(|part| format!("{head}{}", rules.whole(&parts, *part))).collect();
    let token = tokens[join];
    let fault = Fault::new(token.from, token.to, "a line has one rule");
    let or = parts.windows(2).any(|pair| {
        let words = &tokens[pair[0].1..pair[1].0];
        words.iter().any(|token| token.text.to_lowercase() == "or")
    });
    if !or {
        let fault = fault.fixes("", lines);
        let both = rules.after_both(&parts).into_iter();
        return Some(both.fold(fault, |fault, rules| {
            fault.fixes("after both of them", rules.map(|rule| format!("{head}{rule}")).to_vec())
        }));
    }
    let fault = fault.hint("that one of several rules holds cannot be said").fixes("all of them", lines.clone());
    Some(lines.into_iter().fold(fault, |fault, line| fault.fix("this one alone", line)))
}

/// `home by Thu 14:00; ready by 9:00`: two rules in a line.
fn parted(line: &str, from: usize, end: usize) -> Option<Fault> {
    let body = &line[from..end];
    let place =
        body.find(';').filter(|place| !body[..*place].contains(is_quote) && !body[*place..].contains(is_quote))?;
    let parts: Vec<&str> = body.split(';').map(str::trim).filter(|part| !part.is_empty()).collect();
    let head =
        if from > 0 && line[..from].ends_with(':') { format!("{} ", &line[..from]) } else { line[..from].into() };
    let lines = parts.iter().map(|part| format!("{head}{part}")).collect();
    let fault = Fault::new(from + place, from + place + 1, "a line has one rule");
    (parts.len() > 1).then(|| fault.fixes("", lines))
}
