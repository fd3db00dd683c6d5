//! Other words than those that are read: days and months by other names, units, words for lengths and times, German words, signs
//! that look like others, and what stands at a line's ends. Each is put in the words that are read, all of a line at once.
//!
//! A line that is read as it stands is never looked at here, and a moment that is called like such a word is none.

use crate::dates;
use crate::fault::Fault;
use crate::instant::Known;
use crate::lines::{headed, Key};
use crate::phrases;
use crate::stamps;
use crate::tokens::{self, Dashes, Kind, Token};
use crate::units;

/// What some tokens are written as: how many, and the text of each reading with what it says.
pub type Put = (usize, Vec<(&'static str, String)>);

/// The tokens of a line, and where one looks.
pub struct Seen<'s> {
    pub line: &'s str,
    pub tokens: &'s [Token<'s>],
    pub at: usize,
    pub known: &'s Known<'s>,
}

impl<'s> Seen<'s> {
    /// The token so many ahead.
    pub fn token(&self, ahead: usize) -> Option<Token<'s>> {
        self.tokens.get(self.at + ahead).copied()
    }

    /// A word ahead in small letters; a name in quotes and a declared moment are none.
    pub fn word(&self, ahead: usize) -> String {
        let token = self.token(ahead).filter(|token| token.kind == Kind::Word);
        let token = token.filter(|token| self.known.moment(token.text).is_none());
        token.map_or(String::new(), |token| token.text.to_lowercase())
    }

    /// The text of a token ahead, whatever it is; a name in quotes is none.
    pub fn plain(&self, ahead: usize) -> &'s str {
        self.token(ahead).filter(|token| token.kind != Kind::Quoted).map_or("", |token| token.text)
    }

    /// The token before.
    pub fn before(&self) -> Option<Token<'s>> {
        self.tokens.get(self.at.checked_sub(1)?).copied()
    }

    /// Whether nothing stands behind so many tokens.
    pub fn ends(&self, ahead: usize) -> bool {
        self.at + ahead >= self.tokens.len()
    }
}

/// A line, and before it what it says.
type Reading = (String, String);

/// What is looked for at a token.
type Look = fn(&Seen) -> Option<Put>;

/// What is looked for at each token, in this order; the last is for lines of names too.
const LOOKS: [Look; 30] = [
    numbered,
    stamps::half_of_both,
    stamps::past_noon,
    stamps::day_number,
    units::range,
    stamps::day_first,
    stamps::ends_of,
    stamps::two_days,
    stamps::beyond,
    stamps::window,
    stamps::hours,
    stamps::noon,
    stamps::short,
    stamps::turned,
    stamps::between,
    stamps::on,
    dates::named,
    dates::day,
    dates::clock,
    dates::half_past,
    dates::parts,
    units::length,
    units::fraction,
    units::between,
    phrases::vague,
    phrases::found,
    phrases::slip,
    sign,
    remark,
    end,
];

/// What is looked for in lines of opening hours.
const OPEN: [Look; 5] = [stamps::half_of_both, hours, dates::day, dates::clock, end];

/// Words between days or hours, and signs between windows.
fn hours(seen: &Seen) -> Option<Put> {
    let word = seen.word(0);
    if ["bis", "through", "thru", "until", "till", "und", "u."].contains(&word.as_str()) {
        return one(1, if word.starts_with('u') && word != "until" { "," } else { "to" });
    }
    if word == "24/7" {
        return one(1, "daily 0:00-24:00");
    }
    let short = seen.plain(0).strip_suffix(';').filter(|_| !seen.ends(1))?;
    one(1, format!("{short},"))
}

/// The line in the words that are read, where it has others.
pub fn otherwise(known: &Known, line: &str, end: usize) -> Option<Fault> {
    let kind = headed(&line[..end], end).key;
    // Names are nobody's words: in lines of names only commas and their ends are looked at.
    let names = [Some(Key::Moments), Some(Key::Span), Some(Key::Admits)].contains(&kind);
    let seen = signs(&line[..end], names);
    let head = headed(&seen, seen.len());
    // A word and a colon that start no line are somebody's note, whose words stay.
    if head.key.is_none() && !line[..end].contains("later") {
        return None;
    }
    let dashes = if head.key == Some(Key::Open) { Dashes::Between } else { Dashes::Within };
    let from = head.from.min(seen.len());
    let looks = match head.key {
        _ if names => &LOOKS[LOOKS.len() - 1..],
        Some(Key::Open) => &OPEN,
        _ => &LOOKS[..],
    };
    let (lines, first) = match tokens::tokens(&seen, from, seen.len(), dashes) {
        Ok(found) => all(known, &seen, from, &found, looks),
        Err(_) => (vec![(String::new(), seen.clone())], None),
    };
    // Where signs were put in, places of the line are others: the first of them is shown.
    let changed = line[..end].char_indices().zip(seen.chars()).find(|((_, was), is)| was != is);
    let (from, to) = match (changed, first) {
        (Some(((place, c), _)), _) => (place, place + c.len_utf8()),
        (None, Some(place)) => place,
        (None, None) => return None,
    };
    let message = format!("'{}' is written otherwise here", &line[from..to]);
    let fault = Fault::new(from, to, message);
    Some(lines.into_iter().fold(fault, |fault, (says, text)| fault.fix(says, format!("{text}{}", &line[end..]))))
}

/// Signs and digits as everybody's keyboard has them, outside quotes; in lines of names the commas alone.
fn signs(line: &str, names: bool) -> String {
    let mut quoted = false;
    let sign = |c: char| {
        quoted ^= tokens::is_quote(c);
        match c {
            _ if quoted => c,
            '，' | '、' | '،' => ',',
            _ if names => c,
            '\u{FF01}'..='\u{FF5E}' => char::from_u32(c as u32 - 0xFEE0).unwrap_or(c),
            '‹' | '〈' | '≺' => '<',
            '›' | '〉' | '≻' => '>',
            '≦' | '≲' => '≤',
            '≧' | '≳' => '≥',
            '∶' | '꞉' => ':',
            '[' | '{' => '(',
            ']' | '}' => ')',
            _ => c,
        }
    };
    line.chars().map(sign).collect()
}

/// All readings of a line with the words put in, and the place of the first that is another.
fn all(
    known: &Known,
    line: &str,
    from: usize,
    tokens: &[Token],
    looks: &[Look],
) -> (Vec<Reading>, Option<(usize, usize)>) {
    let mut lines = vec![(String::new(), line[..from].to_string())];
    let (mut at, mut done, mut first) = (0, from, None);
    while at < tokens.len() {
        let seen = Seen { line, tokens, at, known };
        let Some((count, texts)) = looks.iter().find_map(|look| look(&seen)) else {
            at += 1;
            continue;
        };
        let (start, end) = (tokens[at].from, tokens[at + count - 1].to);
        first.get_or_insert((start, end));
        let gap = &line[done..start];
        let put = |(says, text): &(String, String), (more, part): &(&str, String)| {
            let says = if says.is_empty() { more.to_string() } else { says.clone() };
            let gap = if part.is_empty() { gap.trim_end() } else { gap };
            (says, format!("{text}{gap}{part}"))
        };
        lines = lines.iter().flat_map(|line| texts.iter().map(move |text| put(line, text))).take(6).collect();
        (at, done) = (at + count, end);
    }
    let tail = &line[done..];
    let start = line.len() - line.trim_start().len();
    let whole = |text: &str| format!("{}{}", &line[..start], format!("{text}{tail}").trim());
    lines.iter_mut().for_each(|(_, text)| *text = whole(text));
    (lines, first)
}

/// One reading.
pub fn one(count: usize, text: impl Into<String>) -> Option<Put> {
    Some((count, vec![("", text.into())]))
}

/// A number before a rule: `1)`, `(1)`, `rule 1:`.
fn numbered(seen: &Seen) -> Option<Put> {
    let digits = |text: &str| crate::length::is_number(text) && text.len() < 4;
    (seen.at == 0).then_some(())?;
    if digits(seen.plain(0)) && seen.plain(1) == ")" {
        return one(2, "");
    }
    if seen.plain(0) == "(" && digits(seen.plain(1)) && seen.plain(2) == ")" {
        return one(3, "");
    }
    let rule = seen.word(0) == "rule" && seen.plain(1).strip_suffix([':', '.', ')']).is_some_and(digits);
    rule.then(|| one(2, ""))?
}

/// A sign in two parts: `< =`.
fn sign(seen: &Seen) -> Option<Put> {
    match (seen.plain(0), seen.plain(1)) {
        ("<", "=") => one(2, "<="),
        (">", "=") => one(2, ">="),
        _ => None,
    }
}

/// What stands at the end of a line: a comma or a full stop.
fn end(seen: &Seen) -> Option<Put> {
    let token = seen.token(0)?;
    if seen.ends(1) && [",", ";", ".", "!"].contains(&seen.plain(0)) && seen.at > 0 {
        return one(1, "");
    }
    let short = token.text.trim_end_matches(['.', ';', '!', ',']);
    if seen.ends(1) && token.kind == Kind::Word && short.len() < token.text.len() && !short.is_empty() {
        return seen.known.moment(token.text).is_none().then(|| one(1, short))?;
    }
    None
}

/// What starts a remark behind a rule: `//`, or words in brackets at its end, none of which is a moment or a number.
fn remark(seen: &Seen) -> Option<Put> {
    let token = seen.token(0)?;
    if seen.at > 0 && token.kind == Kind::Word && token.text.starts_with("//") {
        return one(1, format!("# {}", token.text.trim_start_matches('/')).trim_end());
    }
    let rest = seen.tokens.get(seen.at..)?;
    let [open, words @ .., close] = rest else { return None };
    let strange = |token: &Token| {
        let plain = token.kind == Kind::Word && token.text.starts_with(char::is_alphabetic);
        let known = seen.known.moment(token.text).is_some();
        plain && !known && !["later", "latest", "earliest", "anchor"].contains(&token.text.to_lowercase().as_str())
    };
    let such = seen.at > 1 && open.text == "(" && close.text == ")" && !words.is_empty() && words.iter().all(strange);
    such.then(|| one(rest.len(), format!("# {}", seen.line[open.to..close.from].trim())))?
}
