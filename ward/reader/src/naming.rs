//! The lines of moments: names with commas between them.

use crate::alike;
use crate::cursor::Cursor;
use crate::fault::{with, Fault, Fix};
use crate::length;
use crate::limits;
use crate::nearby::{self, Meant};
use crate::parse::{place, renamed, renamed_to, Draft};
use crate::remark::Place;
use crate::sheet::Moment;
use crate::shown;
use crate::sides;
use crate::tokens::{Kind, Token};

/// What was written as one name.
struct Written<'a> {
    tokens: Vec<Token<'a>>,
    from: usize,
    to: usize,
}

impl Written<'_> {
    /// Whether it is one word or one name in quotes.
    fn alone(&self) -> bool {
        self.tokens.len() == 1
    }
}

impl Draft<'_> {
    /// Names with commas between them. A name that cannot be one is told, and kept, so that the rules that use it are read.
    pub(crate) fn names(&mut self, number: usize, cursor: &mut Cursor) -> Result<(), Fault> {
        loop {
            let mut tokens = Vec::new();
            while let Some(token) = cursor.peek(0).filter(|token| token.kind == Kind::Quoted || token.text != ",") {
                tokens.push(token);
                cursor.take();
            }
            let (Some(first), Some(last)) = (tokens.first().copied(), tokens.last().copied()) else {
                return Err(no_name(cursor));
            };
            let written = Written { tokens, from: first.from, to: last.to };
            let text = &cursor.line[first.from..last.to];
            let name = if written.alone() { first.text } else { text };
            if self.sheet.moments.len() > limits::KEPT {
                // Far too many, as is told; what they are called does not matter any more.
                self.beyond += 1;
                self.unread = true;
                cursor.takes(",");
                if cursor.peek(0).is_none() {
                    return Ok(());
                }
                continue;
            }
            self.name(number, cursor.line, &written, name);
            if !cursor.takes(",") {
                return Ok(());
            }
        }
    }

    /// Tells what is wrong with a name, and keeps it.
    fn name(&mut self, number: usize, line: &str, written: &Written, name: &str) {
        let look = alike::look(name);
        let fault = self.name_fault(line, written, name, &look);
        self.unread |= fault.is_some() && !written.alone();
        if let Some(fault) = fault {
            self.wrong(number, line, fault);
        }
        if self.known().moment(name).is_none() {
            let place = place(number, line, written.from, written.to);
            self.looks.entry(look).or_insert(self.sheet.moments.len());
            self.sheet.moments.push(Moment { name: name.into(), place });
        }
    }

    fn name_fault(&self, line: &str, written: &Written, name: &str, look: &str) -> Option<Fault> {
        let (from, to) = (written.from, written.to);
        let cannot = || Fault::new(from, to, format!("'{}' cannot be a moment's name", &line[from..to]));
        let say = |text: &str| with(line, from, to, text);
        let quoted = written.alone() && written.tokens[0].kind == Kind::Quoted;
        if !written.alone() {
            return Some(several(line, written, cannot()));
        }
        if let Some(fault) = self.named_already(line, (from, to), name, look) {
            return Some(fault);
        }
        if quoted {
            let trimmed = format!("\"{}\"", name.trim());
            return sides::quoted_fault(name).map(|why| cannot().hint(why).fix("", say(&trimmed)));
        }
        if sides::is_bare(name) {
            return None;
        }
        let names = name.split([';', '&']).map(str::trim).filter(|name| !name.is_empty()).collect::<Vec<_>>();
        let fault = match names.len() {
            0 | 1 => cannot(),
            _ => cannot().fix("several names", say(&names.join(", "))),
        };
        Some(match sides::quoted_fault(name) {
            None => fault.fix("one name", say(&format!("\"{name}\""))),
            Some(why) => fault.hint(why),
        })
    }

    /// A name that is there already, or that looks like one.
    fn named_already(&self, line: &str, (from, to): (usize, usize), name: &str, look: &str) -> Option<Fault> {
        let fault = |message: String| Fault::new(from, to, message);
        if let Some(known) = self.sheet.moments.iter().find(|known| known.name == name) {
            let hint = match known.name.as_str() {
                "anchor" => "it is always there".into(),
                _ => format!("line {} has it", known.place.line),
            };
            let alone = without_name(line, from, to);
            return Some(fault(format!("'{name}' is named twice")).hint(hint).fix("once", alone));
        }
        let anchor = (look == "anchor").then_some(&0);
        if let Some(known) = self.looks.get(look).or(anchor).map(|&place| &self.sheet.moments[place]) {
            let hint = match known.name.as_str() {
                "anchor" => "the anchor is always there and needs no name".to_string(),
                _ => format!(
                    "line {} has '{}'; two names must differ in a letter that can be seen",
                    known.place.line, known.name
                ),
            };
            let differ = alike::difference(name, &known.name);
            let alike = format!("'{name}' and '{}' look alike: {differ}", known.name);
            return Some(fault(alike).hint(hint).fix("one moment", without_name(line, from, to)));
        }
        None
    }
}

/// Several words where one name belongs: names without commas, or one name without quotes.
fn several(line: &str, written: &Written, fault: Fault) -> Fault {
    let (from, to) = (written.from, written.to);
    let text = &line[from..to];
    let say = |text: &str| with(line, from, to, text);
    let mut names = Vec::new();
    for token in &written.tokens {
        let part = &line[token.from..token.to];
        match token.kind {
            Kind::Quoted => names.push(part.to_string()),
            _ => names.extend(part.split([';', '&']).map(|name| name.trim().to_string())),
        }
    }
    names.retain(|name| !name.is_empty() && !["and", "or", "-"].contains(&name.to_lowercase().as_str()));
    let dashed = written.tokens[0].text == "-";
    if let [name @ .., time] = &written.tokens[..] {
        if length::is_hours(time.text) && name.len() == 1 {
            let rule = format!("{} {}", &line[name[0].from..name[0].to], time.text);
            let alone = say(&line[name[0].from..name[0].to]);
            return fault.hint("a time stands in a rule, and names stand alone").fixes("", vec![alone, rule]);
        }
    }
    let quotes = ['\'', '‘', '’', '`', '´'];
    if text.starts_with(quotes) && text.ends_with(quotes) {
        let hint = "names with spaces stand in double quotes";
        return fault.hint(hint).fix("", say(&format!("\"{}\"", text.trim_matches(quotes))));
    }
    let fault = fault.hint("commas stand between names, and a name with spaces stands in quotes");
    let fault = match dashed {
        true => fault,
        false => fault.fix("one name", say(&format!("\"{text}\""))),
    };
    fault.fix("several names", say(&names.join(", ")))
}

/// A comma with no name behind it, or a line with no name at all.
fn no_name(cursor: &Cursor) -> Fault {
    let fault = cursor.fault("a moment's name is expected");
    let line = cursor.line;
    let comma = cursor.peek(0).or(cursor.last()).filter(|token| token.text == ",");
    match comma {
        Some(comma) => fault.fix("", format!("{}{}", line[..comma.from].trim_end(), &line[comma.to..])),
        None => fault.hint("the names stand on this line, with commas between them"),
    }
}

/// A list without one of its names, and one of the commas beside it.
fn without_name(line: &str, from: usize, to: usize) -> String {
    let (before, after) = (line[..from].trim_end(), line[to..].trim_start());
    match (after.strip_prefix(','), before.strip_suffix(',')) {
        (Some(after), _) => format!("{} {}", before, after.trim_start()),
        (None, Some(before)) => format!("{before}{}", &line[to..]),
        _ => line.into(),
    }
}

/// What there is to know of a name that no line declares.
pub fn unknown_hint(name: &str, first: bool) -> &'static str {
    match name.to_lowercase().as_str() {
        "if" | "when" | "unless" | "wenn" => "a rule has no 'if': it always holds, or is suspended",
        "about" | "around" | "circa" | "ca." => "times are exact here: say both limits, in two lines",
        word if nearby::everyday(word).is_some() => nearby::everyday(word).unwrap_or_default(),
        _ if first => "name it first, on a line 'moments: ..'",
        _ => "name it on the line 'moments: ..'",
    }
}

/// Words of rules, which nobody means as a name.
const WORDS: [&str; 20] = [
    "if", "then", "when", "unless", "by", "at", "not", "before", "after", "until", "till", "exactly", "about",
    "around", "is", "must", "within", "on", "than", "half",
];

impl Draft<'_> {
    /// What can be written for a name that no line declares: names that are near, those that it is a part of, or a moment more.
    pub(crate) fn names_for(&self, name: &str, meant: &Meant, line: &str, at: Place) -> Vec<Fix> {
        let fix = |says: String, lines: Vec<String>| Fix { says, lines };
        if let Some((known, minutes)) = self.slipped(name) {
            let text = format!("{} {minutes}", shown::name(known));
            return vec![fix("the moment and its minutes".into(), vec![renamed_to(line, at, &text)])];
        }
        if let Some(time) = nearby::usual(name).filter(|_| !line.trim_start().starts_with(name)) {
            return vec![fix(format!("where {name} is at {time}"), vec![renamed_to(line, at, time)])];
        }
        let longer = if meant.names.is_empty() { self.longer(name) } else { Vec::new() };
        let known = meant.names.iter().map(String::as_str).chain(longer);
        let one = |known: &str| fix(format!("the moment '{known}'"), vec![renamed(line, at, known)]);
        let mut fixes: Vec<Fix> = known.map(one).collect();
        // Where the line has another mistake, a slip of the keyboard is taken as one.
        let slip = meant.names.iter().all(|known| nearby::slip(name, known));
        let known = meant.same || slip && self.depth > 0;
        if !known && self.depth < 2 && self.names_one(name) {
            let lines = vec![format!("moments: {}", shown::name(name)), line.to_string()];
            if self.reads(&lines, line) || !fixes.is_empty() && (!slip || meant.names.is_empty()) {
                fixes.push(fix("a moment more".into(), lines));
            }
        }
        if let ([only], true) = (&mut fixes[..], meant.same) {
            only.says = String::new();
        }
        fixes
    }

    /// Whether a word can be meant as a moment's name: it is none of the words of rules or of every day.
    fn names_one(&self, name: &str) -> bool {
        let plain = |c: char| c.is_alphanumeric() || " -'’#_.".contains(c);
        let word = WORDS.contains(&name.to_lowercase().as_str()) || nearby::everyday(name).is_some();
        name.chars().all(plain) && !word && sides::quoted_fault(name).is_none()
    }

    /// A name in quotes that holds a declared name with a sign and minutes behind it.
    fn slipped<'n>(&'n self, name: &'n str) -> Option<(&'n str, &'n str)> {
        let known = sides::names(&self.sheet.moments).filter(|known| name.starts_with(known));
        let known = known.max_by_key(|known| known.len())?;
        let rest = name[known.len()..].trim_start();
        let minutes = rest.strip_prefix(['+', '-'])?.trim_start();
        length::starts(minutes.split(' ').next()?).then_some((known, rest))
    }

    /// The declared names that have a word as their first or their last, where there are few.
    fn longer(&self, word: &str) -> Vec<&str> {
        let has = |name: &&str| {
            name.strip_prefix(word).is_some_and(|rest| rest.starts_with(' '))
                || name.strip_suffix(word).is_some_and(|rest| rest.ends_with(' '))
        };
        let found: Vec<&str> = sides::names(&self.sheet.moments).filter(has).collect();
        if found.len() > 3 {
            Vec::new()
        } else {
            found
        }
    }
}
