//! `#` where it may be no comment: within a name, or before the number of a rule.

use crate::cursor::Cursor;
use crate::fault::{with, Fault};
use crate::lines::{headed, Key};
use crate::parse::{part, Draft};
use crate::spoken;
use crate::tokens::{is_quote, Kind};

/// A `#` that stands elsewhere than a comment's, with the name in quotes as its hint.
pub fn told(draft: &Draft, line: &str, fault: Fault) -> Fault {
    if line.as_bytes().get(fault.from) != Some(&b'#') || !fault.fixes.is_empty() {
        return fault;
    }
    let at = fault.from;
    let separates = |c: char| ",:()<>=≤≥+".contains(c);
    let head = headed(line, at);
    let from =
        line[..at].rfind(separates).map_or(0, |place| place + line[place..].chars().next().map_or(1, char::len_utf8));
    let from = from.max(if head.key == Some(Key::Rule) { 0 } else { head.from.min(at) });
    let to = line[at..].find(|c: char| separates(c) || c.is_whitespace()).map_or(line.len(), |length| at + length);
    // In a list of names everything between two commas is the name; else the words before the sign and the one behind it.
    let before = line[from..at].trim_start();
    let words = ["from ", "to ", "of ", "later of ", "suspended: "];
    let before = words.iter().fold(before, |before, word| match before.to_lowercase().starts_with(word) {
        true if before.is_char_boundary(word.len()) => before[word.len()..].trim_start(),
        _ => before,
    });
    let before = match head.key {
        Some(Key::Span) => before.rsplit(" to ").next().unwrap_or(before),
        _ => before,
    };
    let from = at - before.len();
    let name = line[from..to].trim();
    let declared = draft.known().moment(name).is_some() || head.key == Some(Key::Moments);
    let fault = Fault::new(at, at + 1, format!("'#' stands within '{name}', or without a space behind it"))
        .hint(format!("a name with '#' stands in quotes, \"{name}\"; a comment has a space on both sides of its '#'"));
    let quoted = match head.key {
        Some(Key::Moments) => quoted(line, head.from.min(line.len())),
        _ => with(line, from, to, &format!("\"{name}\"")),
    };
    let comment = format!("{} # {}", line[..at].trim_end(), line[at + 1..].trim_start());
    match declared {
        true => fault.fix("the name", quoted).fix("a comment", comment),
        false => fault.fix("a comment", comment).fix("the name", quoted),
    }
}

/// A line of moments with quotes round each name that has a `#`.
fn quoted(line: &str, from: usize) -> String {
    let name = |part: &str| match part.contains('#') && !part.contains(is_quote) {
        true => format!(" \"{}\"", part.trim()),
        false => part.into(),
    };
    let names: Vec<String> = line[from..].split(',').map(name).collect();
    format!("{}{}", &line[..from], names.join(","))
}

/// A comment that may be none: a rule with a number before it, or a number behind a name.
pub fn doubtful(draft: &Draft, line: &str, end: usize) -> Option<Fault> {
    let comment = &line[end..];
    let body = comment.strip_prefix('#')?;
    let digits = body.bytes().take_while(u8::is_ascii_digit).count();
    if line[..end].trim().is_empty() {
        let rest = body[digits..].trim_start_matches(['.', ')', ':']);
        let number = digits > 0 && rest.starts_with(char::is_whitespace);
        let from = line.len() - rest.trim_start().len();
        if number && is_rule(draft, line, from) {
            return Some(
                Fault::new(end, from, "a rule with a number, or a comment?")
                    .fix("a comment", with(line, end, from, "# "))
                    .fix("a rule", with(line, end, from, "")),
            );
        }
        return None;
    }
    let number = body.trim();
    if number.is_empty()
        || !number.bytes().all(|byte| byte.is_ascii_digit())
        || line[..end].trim_end().ends_with(['"', '”', '“'])
    {
        return None;
    }
    let before = line[..end].trim_end();
    let word = before.rsplit(|c: char| c.is_whitespace() || ",:(".contains(c)).next().unwrap_or("");
    if !word.starts_with(char::is_alphabetic) {
        return None;
    }
    let from = before.len() - word.len();
    let name = format!("{word} # {number}");
    Some(
        Fault::new(end, line.len(), format!("a comment, or the name '{name}'?"))
            .fix("the name", with(line, from, line.len(), &format!("\"{name}\"")))
            .fix("a comment", format!("{before} # number {number}")),
    )
}

/// Whether a rule stands behind a place of a line.
fn is_rule(draft: &Draft, line: &str, from: usize) -> bool {
    let Some(tokens) = part(line, from, line.len()) else { return false };
    let known = draft.known();
    let mut cursor = Cursor::new(line, tokens, line.len());
    let Some((mut first, _, mut second)) = cursor.split(|token| token.kind == Kind::Relation) else {
        return spoken::read(&mut cursor, &known).is_ok() && cursor.unknown.is_empty();
    };
    let good = |cursor: &mut Cursor| {
        crate::sides::read(cursor, &known).is_ok() && cursor.peek(0).is_none() && cursor.unknown.is_empty()
    };
    good(&mut first) && good(&mut second)
}
