//! The lines that become rows of a record: rules and spans.

use crate::cursor::Cursor;
use crate::fault::{with, Fault};
use crate::lists;
use crate::parse::{place, Draft};
use crate::sheet::{Lead, Origin, Question, Row};
use crate::sides::{self, bracketed, Side};
use crate::spoken;
use crate::tokens::{Kind, Token};
use crate::vain;

/// A rule's sides: the left is not later than the right.
pub type Sides = (Vec<Lead>, Vec<Lead>);

/// What a sign between two sides says.
#[derive(Clone, Copy, Debug, PartialEq, Eq)]
enum Sign {
    NotLater,
    NotEarlier,
    Same,
}

fn sign(text: &str) -> Option<Sign> {
    Some(match text {
        "<=" | "≤" | "⩽" | "=<" => Sign::NotLater,
        ">=" | "≥" | "⩾" => Sign::NotEarlier,
        "=" | "==" => Sign::Same,
        _ => return None,
    })
}

/// Words that stand between several moments or rules.
fn parts_words(token: &Token) -> bool {
    token.kind != Kind::Quoted && ["and", "or", "&", ",", ";"].contains(&token.text.to_lowercase().as_str())
}

impl Draft<'_> {
    /// A rule: a side, a sign and a side, or the same in words. Both sides are read, whatever is wrong between them.
    pub(crate) fn rule(&mut self, number: usize, cursor: &mut Cursor, in_force: bool) -> Result<(), Fault> {
        let (from, text) = (cursor.place(), cursor.rest());
        let signs = cursor.left().iter().filter(|token| token.kind == Kind::Relation).count();
        let rules = match signs {
            0 => spoken::read(cursor, &self.known())?,
            1 => match self.signed(number, cursor)? {
                Some(rules) => rules,
                None => return Ok(()),
            },
            _ => return Err(chain(cursor, from)),
        };
        // A name that is not declared leaves its side short: it is told, and nothing else of this rule.
        if !cursor.unknown.is_empty() {
            return Ok(());
        }
        let origin = if rules.len() > 1 { Origin::Half } else { Origin::Line };
        for (left, right) in rules {
            let rule = Row { left, right, origin, ..self.row(number, cursor.line, from, text, in_force) };
            self.keep(from, text, rule)?;
        }
        Ok(())
    }

    /// A rule with one sign. Faults of its parts are told here, all of them.
    fn signed(&mut self, number: usize, cursor: &mut Cursor) -> Result<Option<Vec<Sides>>, Fault> {
        let Some((mut first, relation, mut second)) = cursor.split(|token| token.kind == Kind::Relation) else {
            return Ok(None);
        };
        let found = sign(relation.text);
        if first.peek(0).is_none() || second.peek(0).is_none() {
            let side = if first.peek(0).is_none() { &first } else { &second };
            return Err(side
                .fault("a moment's name is expected")
                .hint("a rule stands on one line, with a side before its sign and one behind it"));
        }
        if let Some(fault) = found.and_then(|sign| difference(&first, &second, relation, sign)) {
            return Err(fault);
        }
        if let Some(fault) = found.and_then(|sign| each_of(&first, &second, relation, sign)) {
            return Err(fault);
        }
        let known = self.known();
        let mut left = sides::read(&mut first, &known);
        if left.is_ok() && first.peek(0).is_some() {
            left = Err(left_over(&first));
        }
        let mut right = sides::read(&mut second, &known);
        if right.is_ok() && second.peek(0).is_some() {
            right = Err(too_much(&second));
        }
        let wrong = found.is_none().then(|| no_sign(cursor, relation));
        cursor.unknown.extend(first.unknown.into_iter().chain(second.unknown));
        if let (Ok(left), Ok(right), Some(sign)) = (&left, &right, found) {
            return Ok(Some(both(left, right, sign)));
        }
        for fault in [left.err(), wrong, right.err()].into_iter().flatten() {
            self.wrong(number, cursor.line, fault);
        }
        Ok(None)
    }

    /// A row of a line's part, with no leads yet.
    fn row(&self, number: usize, line: &str, from: usize, text: &str, in_force: bool) -> Row {
        Row {
            place: place(number, line, from, from + text.len()),
            text: text.into(),
            left: Vec::new(),
            right: Vec::new(),
            in_force,
            origin: Origin::Line,
        }
    }

    fn keep(&mut self, from: usize, text: &str, rule: Row) -> Result<(), Fault> {
        if rule.left.iter().all(Option::is_none) {
            return Err(Fault::new(
                from,
                from + text.len(),
                "a rule with nothing on its early side says nothing: every plan keeps it",
            )
            .hint("was the line left half filled? Fill it in or delete it. That one is left out is said as in 'ready <= nothing'"));
        }
        if let Some(fault) = self.own_moment(from, text, &rule).filter(|_| !self.sheet.exact) {
            return Err(fault);
        }
        self.sheet.rules.push(rule);
        Ok(())
    }

    /// A rule that no plan keeps which has a moment of its late side: each of these stands on the other side with more minutes.
    fn own_moment(&self, from: usize, text: &str, rule: &Row) -> Option<Fault> {
        let first = rule.right.iter().position(Option::is_some).filter(|_| vain::forbids_own(rule))?;
        let name = &self.sheet.moments[first].name;
        let fault = |message: String| Fault::new(from, from + text.len(), message);
        Some(match first {
            0 => fault("no plan keeps this rule: the anchor is not later than itself".into())
                .hint("was another moment meant?"),
            _ => fault(format!("no plan that has {name} keeps this rule: nothing is later than itself"))
                .hint("was another moment meant? That one is left out is said as in 'ready <= nothing'"),
        })
    }

    /// A span's line. The span is its end less its start, so the end is the record's first list.
    pub(crate) fn ask(&mut self, number: usize, cursor: &mut Cursor) -> Result<(), Fault> {
        let (from, text) = (cursor.place(), cursor.rest());
        if !cursor.takes("from") {
            return Err(no_from(cursor, from, text));
        }
        let known = self.known();
        if let Some(fault) = cursor.peek(0).and_then(|token| sides::without_quotes(cursor, token, &known)) {
            return Err(fault);
        }
        let to = |token: &Token| token.kind == Kind::Word && token.text.to_lowercase() == "to";
        let Some((mut first, _, mut second)) = cursor.split(to) else {
            let read = sides::read(cursor, &known);
            return Err(read.err().unwrap_or_else(|| group_over(cursor, "'to' is expected")));
        };
        let mut start = sides::read(&mut first, &known);
        if start.is_ok() && first.peek(0).is_some() {
            start = Err(group_over(&first, "'to' is expected"));
        }
        let mut end = sides::read(&mut second, &known);
        if end.is_ok() && second.peek(0).is_some() {
            end = Err(group_over(&second, "the end of the line is expected"));
        }
        cursor.unknown.extend(first.unknown.into_iter().chain(second.unknown));
        let (Ok(start), Ok(end)) = (&start, &end) else {
            for fault in [start.err(), end.err()].into_iter().flatten() {
                self.wrong(number, cursor.line, fault);
            }
            return Ok(());
        };
        let (left, right) = (end.leads.clone(), start.leads.clone());
        let row = Row { left, right, ..self.row(number, cursor.line, from, text, true) };
        self.sheet.questions.push(Question { row, expected: None });
        Ok(())
    }
}

/// The rules of two sides and a sign. Where the sides are at the same time, the one that is counted from comes first on the left.
fn both(left: &Side, right: &Side, sign: Sign) -> Vec<Sides> {
    let (subject, base) = if left.bare || !right.bare { (left, right) } else { (right, left) };
    match sign {
        Sign::NotLater => vec![(left.leads.clone(), right.leads.clone())],
        Sign::NotEarlier => vec![(right.leads.clone(), left.leads.clone())],
        Sign::Same => vec![(base.leads.clone(), subject.leads.clone()), (subject.leads.clone(), base.leads.clone())],
    }
}

/// The part of a line before its rule and the part behind it.
fn around<'a>(cursor: &Cursor<'a>, from: usize) -> (&'a str, &'a str) {
    (&cursor.line[..from], &cursor.line[cursor.end()..])
}

/// A line that is two rules or more, each with what stood before the one.
fn lines(cursor: &Cursor, from: usize, rules: &[String]) -> Vec<String> {
    let (before, after) = around(cursor, from);
    let last = rules.len().saturating_sub(1);
    let line = |(place, rule): (usize, &String)| match place == last {
        true => format!("{before}{rule}{after}"),
        false => format!("{before}{rule}"),
    };
    rules.iter().enumerate().map(line).collect()
}

/// The parts of some tokens between words like `and` and `,`.
fn parts<'a>(cursor: &Cursor<'a>) -> Vec<&'a str> {
    let pieces = cursor.left().split(parts_words).filter(|part| !part.is_empty());
    pieces.map(|part| &cursor.line[part[0].from..part[part.len() - 1].to]).collect()
}

/// What stands between a rule's left side and its sign.
fn left_over(cursor: &Cursor) -> Fault {
    let fault = cursor.fault("'<=' is expected");
    let Some(token) = cursor.peek(0) else { return fault };
    match token.text.to_lowercase().as_str() {
        "or" => {
            fault.hint("a rule cannot say 'one of these is early enough'; 'later of' on the left means all of them")
        }
        "," => grouped(cursor, fault),
        _ => {
            let comma = format!("{}, {}", cursor.line[..token.from].trim_end(), &cursor.line[token.from..]);
            let before = cursor.line[..token.from].trim_start().to_lowercase();
            let fault = more(cursor, fault);
            let listed = before.starts_with("later of") || before.starts_with("latest of");
            if listed && token.kind != Kind::Sign {
                fault.fix("a comma more", comma)
            } else {
                fault
            }
        }
    }
}

/// `later of (ready, porter) + 15, nurse`: minutes of some and one more behind them.
fn grouped(cursor: &Cursor, fault: Fault) -> Fault {
    let Some(comma) = cursor.peek(0) else { return fault };
    let (line, before) = (cursor.line, &cursor.line[..comma.from]);
    let (Some(open), Some(close)) = (before.find('('), before.rfind(')')) else { return fault };
    let minutes = before[close + 1..].trim();
    if !minutes.starts_with(['+', '-']) || open > close {
        return fault;
    }
    let each: Vec<String> =
        before[open + 1..close].split(',').map(|name| format!("({} {minutes})", name.trim())).collect();
    fault.fix("each with its minutes", with(line, open, comma.from, &each.join(", ")))
}

/// What is too much behind a rule's right side.
fn too_much(cursor: &Cursor) -> Fault {
    let Some(token) = cursor.peek(0) else { return cursor.fault("nothing more is expected") };
    let shown = &cursor.line[token.from..token.to];
    let fault = Fault::new(token.from, token.to, format!("'{shown}' is too much"));
    let fault = match [",", ";", ".", "?"].contains(&shown) && cursor.peek(1).is_none() && shown != "?" {
        true => fault.fix("", with(cursor.line, token.from, token.to, "")),
        false => fault,
    };
    more(cursor, fault)
}

/// Hints for a word behind a side.
pub fn more(cursor: &Cursor, fault: Fault) -> Fault {
    let Some(token) = cursor.peek(0) else { return fault };
    let say = |text: &str| with(cursor.line, token.from, token.to, text);
    if token.text.starts_with(|c: char| c.is_ascii_digit()) && token.kind == Kind::Word {
        let (plus, minus) = (format!("+ {}", token.text), format!("- {}", token.text));
        return fault.hint("a sign is missing").fix("later", say(&plus)).fix("earlier", say(&minus));
    }
    if let Some(why) = no_unit(&token.text.to_lowercase()) {
        return fault.hint(why);
    }
    if token.kind == Kind::Word && token.text.starts_with(char::is_alphabetic) && fault.hint.is_none() {
        return fault.hint("a name with spaces stands in quotes; several moments stand behind 'later of', with commas");
    }
    fault
}

/// Why some words are no units.
pub fn no_unit(word: &str) -> Option<&'static str> {
    match word {
        "night" | "nights" | "nächte" => Some("a night has no length of its own: write hours or days"),
        "working" | "business" | "werktage" => Some("which days are working days is not known here: write days"),
        "month" | "months" | "monat" | "monate" => Some("months differ, and two weeks are the most: write days"),
        _ => None,
    }
}

/// A rule with a sign, as its parts are written.
struct Signed<'r> {
    first: &'r Cursor<'r>,
    second: &'r Cursor<'r>,
    sign: Sign,
    from: usize,
    left: &'r str,
    right: &'r str,
}

impl<'r> Signed<'r> {
    /// The side that is early, by the sign, and the late one, each with its text.
    fn sides(&self) -> [(&'r Cursor<'r>, &'r str); 2] {
        match self.sign {
            Sign::NotEarlier => [(self.second, self.right), (self.first, self.left)],
            _ => [(self.first, self.left), (self.second, self.right)],
        }
    }

    /// A rule between two sides that says the same as this one.
    fn rule(&self, early: &str, late: &str) -> String {
        match self.sign {
            Sign::Same => format!("{early} = {late}"),
            _ => format!("{early} <= {late}"),
        }
    }

    fn lines(&self, rules: &[String]) -> Vec<String> {
        lines(self.second, self.from, rules)
    }

    /// A mistake with each of some rules alone.
    fn alone(&self, fault: Fault, rules: &[String]) -> Fault {
        let says = |place: usize| ["the first", "the second", "the third"].get(place).copied().unwrap_or("another");
        let one = |fault: Fault, (place, rule): (usize, &String)| {
            fault.fixes(says(place), self.lines(std::slice::from_ref(rule)))
        };
        rules.iter().enumerate().fold(fault, one)
    }
}

/// Where the word stands between several on a side without `later of`.
fn listed<'a>(cursor: &Cursor<'a>) -> Option<Token<'a>> {
    let tokens = cursor.left();
    let later = tokens.iter().any(|token| ["later", "latest"].contains(&token.text.to_lowercase().as_str()));
    let bracket = tokens.iter().any(|token| token.kind == Kind::Sign && token.text == "(");
    let digits =
        |place: usize| tokens.get(place).is_some_and(|token| token.text.starts_with(|c: char| c.is_ascii_digit()));
    let hours = |place: usize| tokens.get(place).is_some_and(|token| crate::length::is_hours(token.text));
    let number = (1..tokens.len())
        .any(|place| tokens[place].text == "," && digits(place - 1) && digits(place + 1) && !hours(place + 1));
    let place = tokens.iter().position(parts_words)?;
    (!later && !bracket && !number && parts(cursor).len() > 1).then_some(tokens[place])
}

/// The several of a side, without `both` and `either` before them.
fn several<'a>(cursor: &Cursor<'a>) -> Vec<&'a str> {
    let mut names = parts(cursor);
    if let (true, Some(first)) = (cursor.sees("both") || cursor.sees("either"), names.first_mut()) {
        *first = first.split_once(' ').map_or("", |(_, name)| name.trim_start());
    }
    names
}

/// Several moments or times on a side without `later of`: what that can be.
fn each_of(first: &Cursor, second: &Cursor, relation: Token, sign: Sign) -> Option<Fault> {
    let (from, end, line) = (first.place(), second.end(), first.line);
    let (left, right) = (line[from..relation.from].trim(), line[relation.to..end].trim());
    let signed = Signed { first, second, sign, from, left, right };
    let [(early, early_text), (late, late_text)] = signed.sides();
    let is_early = |cursor: &Cursor| cursor.sees("earlier of") || cursor.sees("earliest of") || cursor.sees("min (");
    if is_early(late) && late.left().len() > 2 && sign != Sign::Same {
        let rest = Cursor::new(line, late.left()[2..].to_vec(), late.end());
        let rules: Vec<String> = parts(&rest).iter().map(|name| format!("{early_text} <= {name}")).collect();
        let fault = late.fault("a moment's name or 'later of' is expected");
        return Some(fault.fixes("not later than any of them", signed.lines(&rules)));
    }
    if let Some(token) = listed(late) {
        return Some(late_several(&signed, token, early_text, late));
    }
    let token = listed(early).filter(|_| !is_early(early))?;
    Some(early_several(&signed, token, early, late_text))
}

/// Several on the late side of a rule, or behind `=`.
fn late_several(signed: &Signed, token: Token, early_text: &str, late: &Cursor) -> Fault {
    let names = several(late);
    let rules: Vec<String> = names.iter().map(|name| signed.rule(early_text, name)).collect();
    let later = signed.lines(&[signed.rule(early_text, &format!("later of {}", names.join(", ")))]);
    let message = "several moments on the late side of a rule stand behind 'later of', or in rules of their own";
    let fault = Fault::new(token.from, token.to, message);
    let or = token.text.to_lowercase() == "or" || late.sees("either");
    if names.iter().all(|name| lists::is_time(name)) {
        return signed.alone(Fault { message: "which of these times? A rule has one".into(), ..fault }, &rules);
    }
    if signed.sign == Sign::Same {
        let fault = Fault { message: "a rule has one side behind '='".into(), ..fault };
        return match or {
            true => signed.alone(fault, &rules),
            false => fault.fixes("each of them", signed.lines(&rules)).fixes("the later of them", later),
        };
    }
    let fault = match token.text.to_lowercase().as_str() {
        "and" | "&" if !late.sees("either") => fault,
        _ => fault.fixes("one of them is late enough", later),
    };
    match token.text.to_lowercase().as_str() {
        "or" if !late.sees("either") => fault,
        _ => fault.fixes("each of them is late enough", signed.lines(&rules)),
    }
}

/// Several on the early side of a rule, or before `=`.
fn early_several(signed: &Signed, token: Token, early: &Cursor, late_text: &str) -> Fault {
    let names = several(early);
    let rules: Vec<String> = names.iter().map(|name| signed.rule(name, late_text)).collect();
    let fault = Fault::new(token.from, token.to, format!("'<=' is expected, not '{}'", token.text));
    let later = signed.lines(&[signed.rule(&format!("later of {}", names.join(", ")), late_text)]);
    let or = token.text.to_lowercase() == "or" || early.sees("either");
    if names.iter().all(|name| lists::is_time(name)) {
        return signed.alone(Fault { message: "which of these times? A rule has one".into(), ..fault }, &rules);
    }
    match (signed.sign == Sign::Same, or) {
        (true, false) => fault.fixes("each of them", signed.lines(&rules)).fixes("the later of them", later),
        (true, true) => signed.alone(fault, &rules),
        (false, false) => fault.fixes("all of them are early enough", later),
        (false, true) => {
            let hint = "a rule cannot say 'one of these is early enough'; 'later of' means all of them";
            signed.alone(fault.hint(hint).fixes("all of them are early enough", later), &rules)
        }
    }
}

/// A difference of two moments with minutes on the other side: the rule that says so.
fn difference(first: &Cursor, second: &Cursor, relation: Token, sign: Sign) -> Option<Fault> {
    let (from, end, line) = (first.place(), second.end(), first.line);
    let left_is = sides::difference(first);
    let (later, earlier) = left_is.or_else(|| sides::difference(second))?;
    let minutes = match left_is {
        Some(_) => line[relation.to..end].trim(),
        None => line[from..relation.from].trim(),
    };
    let fault = Fault::new(from, end, "a rule has moments on both sides, and no difference of two");
    if later.starts_with(|c: char| c.is_ascii_digit()) {
        return Some(fault.hint("minutes can be taken from a moment, and no moment from minutes"));
    }
    let base = bracketed(earlier);
    let sign = match (sign, left_is) {
        (Sign::NotLater, None) => Sign::NotEarlier,
        (Sign::NotEarlier, None) => Sign::NotLater,
        (sign, _) => sign,
    };
    let rule = match sign {
        Sign::NotEarlier => format!("{base} + {minutes} <= {later}"),
        Sign::NotLater => format!("{later} <= {base} + {minutes}"),
        Sign::Same => format!("{later} = {base} + {minutes}"),
    };
    Some(fault.fix("", with(line, from, end, &rule)))
}

/// A sign that cannot be read.
fn no_sign(cursor: &Cursor, relation: Token) -> Fault {
    let from = cursor.place();
    let end = cursor.end();
    let (left, right) = (cursor.line[from..relation.from].trim(), cursor.line[relation.to..end].trim());
    let whole = |text: String| with(cursor.line, from, end, &text);
    let forward = || whole(format!("{left} <= {right}"));
    let backward = || whole(format!("{right} <= {left}"));
    let one_more = |side: &str| match side.rsplit_once(" + ") {
        Some((group, minutes)) if minutes.parse::<i32>().is_ok() => {
            format!("{group} + {}", minutes.parse::<i32>().unwrap_or(0).saturating_add(1))
        }
        _ => format!("{} + 1", bracketed(side)),
    };
    let fault = Fault::new(relation.from, relation.to, format!("'<=' is expected, not '{}'", relation.text));
    match relation.text {
        "<" => fault
            .fix("the same minute is early enough", forward())
            .fix("it is not", whole(format!("{} <= {right}", one_more(left)))),
        ">" => fault
            .fix("the same minute is late enough", backward())
            .fix("it is not", whole(format!("{} <= {left}", one_more(right)))),
        "=>" | "⇒" => fault.fix("not later than", forward()).fix("not earlier than", backward()),
        "->" | "-->" | "→" | "⟶" => fault.fix("", forward()),
        "<-" | "<--" | "←" => fault.fix("", backward()),
        sign if sign.starts_with(['!', '≠']) || sign == "<>" => fault
            .hint("a rule cannot say that its sides differ: choose which is earlier")
            .fix("the left is earlier", whole(format!("{} <= {right}", one_more(left))))
            .fix("the right is earlier", whole(format!("{} <= {left}", one_more(right)))),
        _ => fault.hint("a rule has one '<=' between its sides"),
    }
}

/// A line with more than one sign, cut at them.
struct Chain<'c> {
    cursor: &'c Cursor<'c>,
    /// The places of the signs among the tokens.
    signs: Vec<usize>,
    pieces: Vec<&'c [Token<'c>]>,
}

impl Chain<'_> {
    fn text(&self, piece: &[Token]) -> String {
        match (piece.first(), piece.last()) {
            (Some(first), Some(last)) => self.cursor.line[first.from..last.to].into(),
            _ => String::new(),
        }
    }

    /// The moment of a piece, without its minutes.
    fn name(&self, piece: &[Token]) -> String {
        let sign = piece.iter().position(|token| token.kind == Kind::Sign && ["+", "-"].contains(&token.text));
        self.text(&piece[..sign.unwrap_or(piece.len())])
    }

    fn is_arrow(&self, place: usize) -> bool {
        let sign = self.cursor.left()[self.signs[place]].text;
        !sign.contains(['<', '=', '>', '≤', '≥', '⩽', '⩾']) || sign.contains("->")
    }

    fn sign(&self, place: usize) -> &str {
        match self.is_arrow(place) {
            true => "<=",
            false => self.cursor.left()[self.signs[place]].text,
        }
    }

    /// A rule for each sign; `bare` leaves out the minutes of what stands behind it.
    fn rules(&self, bare: bool) -> Vec<String> {
        let right = |place: usize| match bare {
            true => self.name(self.pieces[place + 1]),
            false => self.text(self.pieces[place + 1]),
        };
        let rule = |place: usize| format!("{} {} {}", self.text(self.pieces[place]), self.sign(place), right(place));
        (0..self.signs.len()).map(rule).collect()
    }

    /// Two rules with a word between them; without a moment behind the word the second is about that of the first.
    fn two(&self) -> Option<[String; 2]> {
        let [first, middle, last] = self.pieces[..] else { return None };
        let word = middle.iter().position(parts_words)?;
        let rule = |left: &[Token], sign: usize, right: &[Token]| {
            format!("{} {} {}", self.text(left), self.sign(sign), self.text(right))
        };
        let second = if middle[word + 1..].is_empty() { first } else { &middle[word + 1..] };
        Some([rule(first, 0, &middle[..word]), rule(second, 1, last)])
    }
}

/// More than one sign in a line: a rule for each.
fn chain(cursor: &Cursor, from: usize) -> Fault {
    let tokens = cursor.left();
    let signs: Vec<usize> = (0..tokens.len()).filter(|&place| tokens[place].kind == Kind::Relation).collect();
    let second = tokens[signs[1]];
    let fault = Fault::new(second.from, second.to, format!("'{}' is too much: a rule has one sign", second.text));
    let bounds = [0].into_iter().chain(signs.iter().map(|place| place + 1));
    let ends = signs.iter().copied().chain([tokens.len()]);
    let pieces: Vec<&[Token]> = bounds.zip(ends).map(|(from, to)| &tokens[from..to.max(from)]).collect();
    if pieces.iter().any(|piece| piece.is_empty()) {
        return fault;
    }
    let chain = Chain { cursor, signs, pieces };
    let text = |place: usize| chain.text(chain.pieces[place]);
    let count = chain.pieces.len();
    if let Some(fault) = bounds_of(cursor, from, &fault, &[&text(0), &text(1), &text(count - 1)]) {
        return if count == 3 { fault } else { fault.hint("write a rule for each sign") };
    }
    if let Some(rules) = chain.two() {
        return fault.fixes("", lines(cursor, from, &rules));
    }
    let arrows = (0..chain.signs.len()).all(|place| chain.is_arrow(place));
    let between = chain.pieces[1..count - 1].iter().any(|piece| chain.name(piece) != chain.text(piece));
    let fault = match arrows {
        true => fault,
        false => fault.fixes("the same minutes in both", lines(cursor, from, &chain.rules(false))),
    };
    match between || arrows {
        true => fault.fixes("each moment's minutes to the next", lines(cursor, from, &chain.rules(true))),
        false => fault,
    }
}

/// `35 <= cleaned - free <= 40`, and `free + 35 <= cleaned <= 40`, where 40 can be counted from both.
fn bounds_of(cursor: &Cursor, from: usize, fault: &Fault, [first, middle, last]: &[&str; 3]) -> Option<Fault> {
    let number = |text: &str| crate::length::starts(text.split(' ').next().unwrap_or(""));
    let whole = |text: String| lines(cursor, from, &[text]);
    let signs = cursor.left().iter().filter(|token| token.kind == Kind::Relation);
    if !number(last) || !signs.clone().all(|token| sign(token.text) == Some(Sign::NotLater)) {
        return None;
    }
    if let Some((late, early)) = middle.split_once(" - ").filter(|_| number(first)) {
        let rule = format!("{} {first} to {last} after {}", late.trim(), early.trim());
        return Some(fault.clone().fixes("", whole(rule)));
    }
    let (base, minutes) = first.rsplit_once(" + ")?;
    let rules = [format!("{first} <= {middle}"), format!("{middle} <= anchor + {last}")];
    let both = format!("{middle} {} to {last} after {}", minutes.trim(), base.trim());
    let after = format!("both counted from {}", base.trim());
    Some(fault.clone().fixes(after, whole(both)).fixes("the last counted from the anchor", lines(cursor, from, &rules)))
}

/// What is too much behind a group of a span.
fn group_over(cursor: &Cursor, expected: &str) -> Fault {
    let fault = cursor.fault(expected);
    match cursor.peek(0).map(|token| token.text.to_lowercase()).as_deref() {
        Some("and" | "or" | "&" | ",") => {
            let fault =
                fault.hint("a group of several moments stands behind 'later of'; for each of them a span is asked for");
            span_of_several(cursor, fault)
        }
        Some("to") => through(cursor, fault),
        Some("until" | "till") => {
            let token = cursor.peek(0).map_or((0, 0), |token| (token.from, token.to));
            fault.fix("", with(cursor.line, token.0, token.1, "to"))
        }
        Some(_) => more(cursor, fault),
        None => fault.hint("a span is written 'span: from .. to ..'"),
    }
}

/// `from ready, porter to leaves`: from the later of them, or a span for each.
fn span_of_several(cursor: &Cursor, fault: Fault) -> Fault {
    let (line, at) = (cursor.line, cursor.place());
    let small = line[..at].to_lowercase();
    let (from, to) = (small.rfind("from "), small.rfind(" to "));
    let Some(start) = to.map(|place| place + 4).or(from.map(|place| place + 5)).filter(|_| line.is_ascii()) else {
        return fault;
    };
    let rest = &line[start..];
    let end = rest.to_lowercase().find(" to ").filter(|_| to.is_none()).unwrap_or(rest.len());
    let names = rest[..end].replace(" and ", ",").replace(" or ", ",").replace('&', ",");
    let names: Vec<&str> = names.split(',').map(str::trim).filter(|name| !name.is_empty()).collect();
    let say = |text: &str| format!("{}{text}{}", &line[..start], &rest[end..]);
    fault
        .fix("the later of them", say(&format!("later of {}", names.join(", "))))
        .fixes("each of them", names.iter().map(|name| say(name)).collect())
}

/// `from ready to leaves to arrives`: one way after another.
fn through(cursor: &Cursor, fault: Fault) -> Fault {
    let line = cursor.line;
    let Some(from) = line.to_lowercase().find("from ").filter(|_| line.is_ascii()) else { return fault };
    let body = &line[from + 5..cursor.end()];
    let places: Vec<&str> = body.split(" to ").map(str::trim).collect();
    let span = |start: &str, end: &str| format!("{}from {start} to {end}{}", &line[..from], &line[cursor.end()..]);
    let (Some(first), Some(last)) = (places.first(), places.last()) else { return fault };
    fault
        .fixes("a span for each way", places.windows(2).map(|pair| span(pair[0], pair[1])).collect())
        .fix("the whole way", span(first, last))
}

/// How a span that does not begin with `from` is written.
fn no_from(cursor: &Cursor, from: usize, text: &str) -> Fault {
    let fault = |message: &str| Fault::new(from, from + text.len(), message);
    let whole = |start: &str, end: &str| with(cursor.line, from, cursor.end(), &format!("from {start} to {end}"));
    let small = text.to_lowercase();
    let word = |word: &str| small.find(word).map(|place| (text[..place].trim(), text[place + word.len()..].trim()));
    if let Some((later, earlier)) = sides::difference(cursor) {
        return fault("this can be a difference, or a way from one to the other")
            .fix("from the first to the second", whole(later, earlier))
            .fix("the first less the second", whole(earlier, later));
    }
    let fault = fault("a span is written 'span: from .. to ..'");
    if !text.is_ascii() {
        return fault;
    }
    if let Some((end, start)) = word(" from ").filter(|_| small.starts_with("to ")) {
        return fault.fix("", whole(start, end.get(3..).unwrap_or("").trim()));
    }
    if let Some((end, start)) = word(" minus ").or_else(|| word(" after ")) {
        return fault.fix("", whole(start, end));
    }
    if let Some((start, end)) = word(" and ").filter(|_| small.starts_with("between ")) {
        return fault.fix("", whole(start.get(8..).unwrap_or("").trim(), end));
    }
    match word(" to ") {
        Some((start, end)) => fault.fix("", whole(start, end)),
        None => fault,
    }
}
