//! Names that no line declares, and the declared ones that may have been meant. A name with another number is another name.

use crate::alike;
use crate::cursor::Cursor;
use crate::fault::{with, Fault};
use crate::hints;
use crate::instant::Known;
use crate::length::is_number;
use crate::shown;
use crate::sides;
use crate::tokens::{self, Kind, Token};

/// The most names that are offered for one.
const MOST: usize = 4;

/// The most words of a name without its quotes.
const WORDS: usize = 8;

/// Words that end a name of several words which stands without its quotes.
const ENDS: [&str; 64] = [
    "by",
    "not",
    "at",
    "exactly",
    "after",
    "before",
    "to",
    "from",
    "until",
    "till",
    "and",
    "or",
    "is",
    "must",
    "has",
    "have",
    "needs",
    "should",
    "shall",
    "will",
    "may",
    "can",
    "cannot",
    "no",
    "never",
    "between",
    "within",
    "on",
    "than",
    "later",
    "latest",
    "earlier",
    "earliest",
    "max",
    "min",
    "up",
    "more",
    "less",
    "with",
    "together",
    "directly",
    "then",
    "if",
    "when",
    "unless",
    "while",
    "about",
    "around",
    "as",
    "same",
    "plus",
    "bis",
    "ab",
    "um",
    "nicht",
    "vor",
    "nach",
    "spätestens",
    "frühestens",
    "mindestens",
    "höchstens",
    "genau",
    "und",
    "oder",
];

/// Words of every day, which nobody means as a name, and what they say.
const EVERYDAY: [(&[&str], &str); 3] = [
    (
        &[
            "lunch",
            "breakfast",
            "dinner",
            "supper",
            "tonight",
            "today",
            "tomorrow",
            "yesterday",
            "morning",
            "afternoon",
            "evening",
            "night",
            "overnight",
            "now",
            "early",
            "late",
            "soon",
            "asap",
            "weekend",
            "noon",
            "midnight",
            "lunchtime",
            "midday",
            "teatime",
            "mittagessen",
            "frühstück",
            "abend",
            "nacht",
            "morgen",
            "heute",
            "jetzt",
        ],
        "when is that? Times are written 8:40 or 14:05",
    ),
    (
        &[
            "all",
            "everyone",
            "everybody",
            "everything",
            "each",
            "both",
            "any",
            "anyone",
            "someone",
            "nobody",
            "alle",
            "jeder",
            "every",
            "anything",
            "something",
            "them",
            "they",
            "it",
        ],
        "a rule names its moments: write a line for each of them, or put them behind 'later of'",
    ),
    (&["next", "last", "first", "this", "that", "the", "a", "an", "same"], "a rule starts with a moment's name"),
];

/// What a word of every day says, where it is one.
pub fn everyday(word: &str) -> Option<&'static str> {
    let small = word.to_lowercase();
    EVERYDAY.iter().find(|(words, _)| words.contains(&small.as_str())).map(|(_, says)| *says)
}

/// Declared names that may have been meant.
#[derive(Clone, Debug, Default, PartialEq, Eq)]
pub struct Meant {
    /// Whether they are the same but for capital letters, spaces and hyphens.
    pub same: bool,
    pub names: Vec<String>,
}

/// A name without its capital letters, spaces and hyphens.
fn folded(name: &str) -> String {
    alike::look(name).chars().filter(|c| !" -_".contains(*c)).collect()
}

/// The name that is another one with a space and a number behind it: `bed 4` of `bed`.
pub fn numbered_name<'k>(mut names: impl Iterator<Item = &'k str>, name: &str, number: &str) -> Option<&'k str> {
    let look = alike::look(&format!("{} {number}", name.trim_matches(tokens::is_quote)));
    names.find(|known| alike::look(known) == look)
}

/// When a word of every day is on most wards, where one time is as good as said.
pub fn usual(word: &str) -> Option<&'static str> {
    ["lunch", "lunchtime", "midday"].contains(&word.to_lowercase().as_str()).then_some("12:00")
}

/// The numbers within a name; zeros before them play no part.
fn numbers(name: &str) -> Vec<&str> {
    let parts = name.split(|c: char| !c.is_ascii_digit()).filter(|part| !part.is_empty());
    parts.map(|part| part.trim_start_matches('0')).collect()
}

/// The declared names that a name may have been meant to be, the nearest first; those with other numbers are none of them.
pub fn meant<'k>(name: &str, known: impl Iterator<Item = &'k str>) -> Meant {
    let known: Vec<&str> = known.collect();
    let own = |names: Vec<&str>| names.into_iter().take(MOST).map(String::from).collect::<Vec<_>>();
    let look = folded(name);
    let same: Vec<&str> = known.iter().copied().filter(|known| folded(known) == look).collect();
    if !same.is_empty() {
        return Meant { same: true, names: own(same) };
    }
    let alike = known.into_iter().filter(|known| numbers(known) == numbers(name));
    Meant { same: false, names: own(hints::all_near(name, alike)) }
}

/// Whether a name is nothing but a slip of the keyboard away from another: both are one word of small letters.
pub fn slip(name: &str, known: &str) -> bool {
    let plain = |name: &str| name.chars().all(char::is_lowercase) && name.chars().count() > 3;
    plain(name) && plain(known)
}

/// Several words where one name belongs, which stand without quotes: a declared name that is written otherwise, or a moment more.
pub fn unquoted(cursor: &Cursor, token: Token, known: &Known) -> Option<Fault> {
    (token.kind == Kind::Word && token.text.starts_with(char::is_alphabetic)).then_some(())?;
    let declared = known.moment(token.text).is_some() || token.text.to_lowercase() == "anchor";
    let count = if declared { numbered(cursor) } else { words(cursor, known) }?;
    let last = cursor.peek(count - 1)?;
    let written = text(cursor, count);
    let meant = meant(&written, sides::names(known.moments));
    let (line, from, to) = (cursor.line, token.from, last.to);
    let say = |name: &str| with(line, from, to, &shown::name(name));
    let fault = Fault::new(from, to, format!("no moment is called '{written}'"));
    let mut fault = fault.hint("a name with spaces stands in quotes");
    for name in &meant.names {
        let says = if meant.same { String::new() } else { format!("the moment '{name}'") };
        fault = fault.fix(says, say(name));
    }
    if meant.same {
        return Some(fault);
    }
    if declared && !sides::names(known.moments).any(|name| stem(name) == folded(token.text) && name != token.text) {
        let sum = |sign: &str| with(line, from, to, &format!("{} {sign} {}", token.text, last.text));
        fault = fault.hint("a sign is missing, or it is another moment");
        fault = fault.fix("later", sum("+")).fix("earlier", sum("-"));
    }
    if known.moment(token.text).unwrap_or(0) == 0 && declared {
        return Some(fault);
    }
    Some(fault.fixes("a moment more", vec![format!("moments: {}", shown::name(&written)), say(&written)]))
}

/// The words of so many tokens, with a space between them.
fn text(cursor: &Cursor, count: usize) -> String {
    let words = (0..count).filter_map(|ahead| cursor.peek(ahead)).map(|token| token.text);
    words.collect::<Vec<_>>().join(" ")
}

/// A name without the number at its end, as it is compared.
fn stem(name: &str) -> String {
    folded(name).trim_end_matches(|c: char| c.is_ascii_digit()).into()
}

/// Two tokens where a declared name has a number behind it that is no part of a rule in words: `porter 2 <= leaves`.
fn numbered(cursor: &Cursor) -> Option<usize> {
    let number = cursor.peek(1).filter(|token| token.kind == Kind::Word && is_number(token.text))?;
    let ends = match cursor.peek(2) {
        None => true,
        Some(next) if next.kind == Kind::Sign => ["+", "-", ",", ")"].contains(&next.text),
        Some(next) if next.kind == Kind::Word => {
            ["by", "not", "at", "exactly"].contains(&next.text.to_lowercase().as_str()) && !told_behind(cursor)
        }
        Some(next) => next.kind == Kind::Relation,
    };
    (ends && number.text.len() < 4).then_some(2)
}

/// Whether words behind a number say on which side of a time it is: `9 at the latest`.
fn told_behind(cursor: &Cursor) -> bool {
    ["at the latest", "at the earliest", "at latest", "at earliest"]
        .iter()
        .any(|words| words.split(' ').enumerate().all(|(place, word)| cursor.plain(2 + place).to_lowercase() == word))
}

/// How many tokens are a name of several words: one that a line declares, capital letters and spaces aside; or as far as the words go
/// on, where a declared name is near, starts with the same word, or where a number ends it.
fn words(cursor: &Cursor, known: &Known) -> Option<usize> {
    let is_word = |ahead: usize| cursor.peek(ahead).is_some_and(|token| token.kind == Kind::Word);
    let most = (0..WORDS).take_while(|&ahead| is_word(ahead)).count();
    let names = || sides::names(known.moments);
    if let Some(count) = (2..=most).rev().find(|&count| meant(&text(cursor, count), names()).same) {
        return Some(count);
    }
    let goes_on = |ahead: usize| {
        let word = cursor.plain(ahead);
        let named = known.moment(word).is_some() || ENDS.contains(&word.to_lowercase().as_str());
        let number = is_number(word) && word.len() < 4 && !is_number(cursor.plain(ahead - 1));
        !named && (number || sides::is_bare(word))
    };
    let most = 1 + (1..most).take_while(|&ahead| goes_on(ahead)).count();
    let first = cursor.plain(0);
    let number = (1..most).find(|&ahead| is_number(cursor.plain(ahead)));
    let amount = number.filter(|&ahead| amount(cursor, ahead));
    if most < 2 || everyday(first).is_some() || amount.is_some() {
        return None;
    }
    let like = |name: &str| name.split_once(' ').is_some_and(|(word, _)| folded(word) == folded(first));
    let near = !meant(&text(cursor, most), names()).names.is_empty();
    match number {
        _ if near => Some(most),
        Some(1) => Some(2),
        _ => names().any(like).then_some(most),
    }
}

/// Whether a number is of a rule in words and of no name: `at least`, `after` or a unit stands behind it.
fn amount(cursor: &Cursor, ahead: usize) -> bool {
    let next = cursor.plain(ahead + 1).to_lowercase();
    ["after", "before", "to", "or"].contains(&next.as_str()) || crate::length::unit(&next).is_some()
}
