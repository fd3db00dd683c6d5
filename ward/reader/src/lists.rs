//! Several times or moments behind the words of a rule, and limits that follow one another: `by 9:00 or 10:00`, `at least 10 after ready
//! and porter`, `at least 30 after ready but at most 60`.

use crate::calendar;
use crate::clock;
use crate::cursor::Cursor;
use crate::fault::Fault;
use crate::length;
use crate::offers;
use crate::parse::part;
use crate::sides::Side;
use crate::tokens::{Kind, Token};

/// Words between two times, moments or limits.
const JOINS: [&str; 5] = ["and", "or", "but", "&", ","];

/// Words that a limit starts with.
pub const LIMITS: [&str; 10] = ["not", "by", "at", "no", "exactly", "until", "till", "earliest", "latest", "from"];

/// Whether a token stands between two times, moments or limits.
pub fn joins(token: &Token) -> bool {
    token.kind != Kind::Quoted && JOINS.contains(&token.text.to_lowercase().as_str())
}

/// A rule whose words were read, up to the first of several.
struct Rule<'r> {
    line: &'r str,
    /// Where the rule starts and ends.
    from: usize,
    end: usize,
    /// What it is about.
    group: &'r str,
    /// Its words, up to `by`, `before` or `after`.
    head: &'r str,
    first: &'r str,
}

impl Rule<'_> {
    /// The line with another rule; what stands behind the rule stays behind the last.
    fn say(&self, rules: &[String]) -> Vec<String> {
        let (before, after) = (&self.line[..self.from], &self.line[self.end..]);
        let last = rules.len() - 1;
        let tail = |place: usize| if place == last { after } else { "" };
        rules.iter().enumerate().map(|(place, rule)| format!("{before}{rule}{}", tail(place))).collect()
    }

    /// The rule with another time or moment.
    fn with(&self, item: &str) -> String {
        format!("{} {} {item}", self.group, self.head)
    }

    /// Whether the rule has its moment behind all of several, or before one of them; nothing where it has both limits.
    fn early(&self) -> Option<bool> {
        let head = self.head.to_lowercase();
        let after = head.ends_with("after");
        match () {
            _ if head == "not before" => Some(true),
            _ if ["by", "not after"].contains(&head.as_str()) => Some(false),
            _ if head.starts_with("at least") => Some(after),
            _ if head.starts_with("at most") => Some(!after),
            _ => None,
        }
    }
}

/// Whether a text is a time: hours, a day or a date, or digits, and nothing else.
pub fn is_time(text: &str) -> bool {
    let digits = |word: &str| word.starts_with(|c: char| c.is_ascii_digit());
    let half = |word: &str| ["am", "pm", "a.m.", "p.m."].contains(&word);
    text.split_whitespace().all(|word| digits(word) || half(&word.to_lowercase()) || clock::day(word).is_some())
}

/// Whether a word is a day of the week or a date.
pub fn is_day(word: &str) -> bool {
    clock::day(word).is_some() || calendar::numbers(word).is_some()
}

/// What stands behind a whole rule and a word like `and`: more limits, or more times or moments.
pub fn behind(cursor: &Cursor, subject: &Side, token: Token, from: usize) -> Option<Fault> {
    let limit = token.kind == Kind::Word && LIMITS.contains(&token.text.to_lowercase().as_str());
    (joins(&token) || limit).then_some(())?;
    let (line, end) = (cursor.line, cursor.end());
    let words = part(line, subject.to, token.from)?;
    let word = |token: &&Token| {
        token.kind == Kind::Word && ["by", "before", "after"].contains(&token.text.to_lowercase().as_str())
    };
    let head = words.iter().find(word)?.to;
    let group = &line[subject.from..subject.to];
    let (head, first) = (line[subject.to..head].trim(), line[head..token.from].trim());
    let rule = Rule { line, from, end, group, head, first };
    let left = cursor.left();
    let count = left.iter().take_while(|token| joins(token)).count();
    let or = left[..count].iter().any(|token| token.text.to_lowercase() == "or");
    let rest = &left[count..];
    let fault = Fault::new(token.from, token.to, format!("'{}' is too much: a line has one limit", token.text));
    match limits(&rule, rest) {
        Some(second) => Some(both(fault, &rule, second, or)),
        None if count > 0 => items(fault, &rule, rest, or),
        None => None,
    }
}

/// A second limit: with its own words, with the words of the first, or with the moment of the first.
fn limits(rule: &Rule, rest: &[Token]) -> Option<String> {
    let (first, last) = (rest.first()?, rest.last()?);
    let text = &rule.line[first.from..last.to];
    let behind = Cursor::new(rule.line, rest.to_vec(), last.to);
    let told = |count: usize| offers::side_behind(&behind, count).map(|side| (count, side));
    if let Some((count, side)) = (1..rest.len().min(4)).find_map(told) {
        return Some(format!("{} {side} {}", rule.group, &rule.line[first.from..rest[count - 1].to]));
    }
    let counted = rest.iter().any(|token| ["after", "before"].contains(&token.text.to_lowercase().as_str()));
    let amount = |text: &str| rule.head.to_lowercase().starts_with(text);
    let word = ["at least", "at most", "exactly"].into_iter().find(|word| amount(word));
    if LIMITS.contains(&first.text.to_lowercase().as_str()) && first.kind == Kind::Word {
        let long = rest.get(2).is_some_and(|token| length::starts(token.text) && !length::is_hours(token.text));
        let base = word.filter(|_| long && !counted).and(rule.head.rsplit(' ').next());
        return Some(match base {
            Some(base) => format!("{} {text} {base} {}", rule.group, rule.first),
            None => format!("{} {text}", rule.group),
        });
    }
    let again = word.filter(|_| counted && length::starts(first.text))?;
    Some(format!("{} {again} {text}", rule.group))
}

/// Two limits: both, or one of them where `or` stands between them.
fn both(fault: Fault, rule: &Rule, second: String, or: bool) -> Fault {
    let first = rule.with(rule.first);
    if !or {
        return fault.fixes("", rule.say(&[first, second]));
    }
    let fault = fault.hint("that one of two rules holds cannot be said");
    fault.fixes("the first", rule.say(&[first])).fixes("the second", rule.say(&[second]))
}

/// Several times or moments.
fn items(fault: Fault, rule: &Rule, rest: &[Token], or: bool) -> Option<Fault> {
    let more = rest.split(joins).filter(|part| !part.is_empty());
    let more = more.map(|part| &rule.line[part[0].from..part[part.len() - 1].to]);
    let items: Vec<&str> = [rule.first].into_iter().chain(more).collect();
    (items.len() > 1).then_some(())?;
    let each: Vec<String> = items.iter().map(|item| rule.with(item)).collect();
    let alone = |fault: Fault| {
        let says = |place: usize| ["the first", "the second", "the third"].get(place).copied().unwrap_or("another");
        let one = |fault: Fault, (place, line): (usize, &String)| {
            fault.fixes(says(place), rule.say(std::slice::from_ref(line)))
        };
        each.iter().enumerate().fold(fault, one)
    };
    let later = rule.say(&[rule.with(&format!("later of {}", items.join(", ")))]);
    if items.iter().all(|item| is_time(item)) {
        let fault = Fault { message: "which of these times? A line has one limit".into(), ..fault };
        let [first, last] = items[..] else { return Some(alone(fault)) };
        let range = rule.say(&[format!("{} not before {first}", rule.group), format!("{} by {last}", rule.group)]);
        let point = ["by", "not before", "not after"].contains(&rule.head.to_lowercase().as_str());
        return Some(match point && !or {
            true => alone(fault.fixes("from the one to the other", range)),
            false => alone(fault),
        });
    }
    let each = rule.say(&each);
    Some(match (rule.early(), or) {
        (Some(true), true) => {
            let fault = fault.hint("that one of them is early enough cannot be said");
            alone(fault.fixes("behind all of them", later))
        }
        (Some(false), _) => fault.fixes("one of them is late enough", later).fixes("each of them is late enough", each),
        _ => fault.fixes("the later of them", later).fixes("each of them", each),
    })
}
