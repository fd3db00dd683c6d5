//! What kind of line a line is: the word before its colon tells.

use crate::fault::{with, Fault};
use crate::hints;
use crate::tokens::{Kind, Token};

#[derive(Clone, Copy, Debug, PartialEq, Eq)]
pub enum Key {
    Moments,
    Anchor,
    Open,
    Admits,
    Rule,
    Suspended,
    Span,
    Expect,
    Plan,
    Record,
}

/// The words that stand before a colon.
const KEYS: [(&str, Key); 9] = [
    ("moments", Key::Moments),
    ("anchor", Key::Anchor),
    ("open", Key::Open),
    ("admits", Key::Admits),
    ("suspended", Key::Suspended),
    ("span", Key::Span),
    ("expect", Key::Expect),
    ("plan", Key::Plan),
    ("record", Key::Record),
];

/// Other words for them.
const OTHERS: [(&str, &str); 13] = [
    ("moment", "moments"),
    ("names", "moments"),
    ("name", "moments"),
    ("spans", "span"),
    ("question", "span"),
    ("expects", "expect"),
    ("expected", "expect"),
    ("suspend", "suspended"),
    ("lifted", "suspended"),
    ("opening hours", "open"),
    ("opens", "open"),
    ("start", "anchor"),
    ("admit", "admits"),
];

/// A line's kind, where the rest of it starts, and what is wrong with the word.
#[derive(Debug)]
pub struct Headed {
    pub key: Option<Key>,
    pub from: usize,
    pub fault: Option<Fault>,
}

/// Looks at the word of a line whose comment starts at `end`.
pub fn headed(line: &str, end: usize) -> Headed {
    let start = end - line[..end].trim_start().len();
    let body = &line[start..end];
    if let Some(colon) = body.find(':') {
        let word = body[..colon].trim_end();
        if !word.is_empty() && word.chars().all(|c| c.is_alphabetic() || c == ' ') {
            return before_colon(line, word, start, start + colon + 1);
        }
    }
    Headed { key: Some(Key::Rule), from: start, fault: None }
}

fn key(word: &str) -> Option<Key> {
    KEYS.iter().find(|(known, _)| *known == word).map(|(_, key)| *key)
}

/// A word and a colon; capital letters play no part. A word that is nearly right is told, and the line is read as it was meant.
fn before_colon(line: &str, word: &str, start: usize, from: usize) -> Headed {
    let small = word.to_lowercase();
    if let Some(key) = key(&small) {
        return Headed { key: Some(key), from, fault: None };
    }
    let fault = Fault::new(start, start + word.len(), format!("no line starts with '{word}:'"));
    if ["rule", "rules", "later of", "latest of"].contains(&small.as_str()) {
        let text = if small.starts_with("late") { format!("{word} ") } else { String::new() };
        let rest = line[from..].trim_start();
        let fault = fault
            .hint("a rule stands on its line without a word and a colon before it")
            .fix("", format!("{}{text}{rest}", &line[..start]));
        let from = if small.starts_with("late") { line.len() } else { from };
        return Headed { key: (from < line.len()).then_some(Key::Rule), from, fault: Some(fault) };
    }
    if line[from..].starts_with('=') {
        let fault = fault.fix("", with(line, start + word.len(), from, " "));
        return Headed { key: None, from, fault: Some(fault) };
    }
    let known = KEYS.iter().map(|(known, _)| *known);
    let meant = OTHERS.iter().find(|(other, _)| *other == small).map(|(_, meant)| *meant);
    match meant.or_else(|| hints::near(&small, known)) {
        Some(meant) => {
            let fault = fault.fix("", with(line, start, start + word.len(), meant));
            Headed { key: key(meant), from, fault: Some(fault) }
        }
        None => {
            let fault = no_key(line, &small, fault);
            Headed { key: None, from, fault: Some(fault) }
        }
    }
}

/// A word and a colon that start no line: a comment, or a kind of line that there is not.
fn no_key(line: &str, small: &str, fault: Fault) -> Fault {
    if ["closed", "shut", "geschlossen"].contains(&small) {
        return fault.hint("when the ward is open stands on a line 'open: ..'; it is closed at all other times");
    }
    // The line of a record's form is for texts that the tool writes.
    let words = KEYS.iter().filter(|(_, key)| *key != Key::Record);
    let words: Vec<String> = words.map(|(known, _)| format!("{known}:")).collect();
    let start = line.len() - line.trim_start().len();
    fault
        .hint(format!("lines start with {}, or are rules; a comment starts with #", words.join(", ")))
        .fix("a comment", with(line, start, start, "# "))
}

/// Whether the tokens of what looks like a rule are another line without its colon: its kind, and the fault.
pub fn without_colon(line: &str, tokens: &[Token]) -> Option<(Key, Fault)> {
    let [first, second, ..] = tokens else { return None };
    if first.kind != Kind::Word || ![Kind::Word, Kind::Quoted].contains(&second.kind) {
        return None;
    }
    let small = first.text.to_lowercase();
    let key = key(&small).filter(|key| *key != Key::Record)?;
    let has_relation = tokens.iter().any(|token| token.kind == Kind::Relation);
    let spoken = ["not", "by", "at", "exactly", "before", "after"].contains(&second.text.to_lowercase().as_str());
    if has_relation != (key == Key::Suspended) || spoken {
        return None;
    }
    let fault = Fault::new(first.from, first.to, format!("a colon is missing behind '{}'", first.text));
    Some((key, fault.fix("", with(line, first.to, first.to, ":"))))
}
