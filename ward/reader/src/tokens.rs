//! The words and signs of a line, each with its place.

use crate::fault::{with, Fault};

#[derive(Clone, Copy, Debug, PartialEq, Eq)]
pub enum Kind {
    Word,
    /// A name between quotes; its text is without them.
    Quoted,
    /// A sign of one character; a dash with a space on both sides is a minus, whichever dash it is.
    Sign,
    /// A run of `<`, `>` and `=`, also as one character; `!=`, `≠` and arrows too.
    Relation,
}

#[derive(Clone, Copy, Debug, PartialEq, Eq)]
pub struct Token<'a> {
    pub kind: Kind,
    pub text: &'a str,
    pub from: usize,
    pub to: usize,
}

/// Signs of one character.
const SIGNS: &str = "+,()";
const RELATIONS: &str = "<>=≤≥⩽⩾";
const ARROWS: &str = "→⇒←⟶";
/// Dashes that a word processor puts in place of a hyphen, and the hyphen.
pub const DASHES: &str = "-–—−‐‑";
/// Quotes, by families: a name ends with the next quote of the family that it starts with.
const FAMILIES: [&str; 3] = ["\"", "“”„‟", "«»"];

/// Characters that nobody sees.
fn invisible(c: char) -> bool {
    c.is_control() && c != '\t'
        || matches!(c, '\u{200B}'..='\u{200F}' | '\u{202A}'..='\u{202E}' | '\u{2060}'..='\u{2069}' | '\u{FEFF}')
}

/// The quotes that end a name which starts with this character, if it is a quote.
fn family(c: char) -> Option<&'static str> {
    FAMILIES.into_iter().find(|family| family.contains(c))
}

/// Whether a character is a quote.
pub fn is_quote(c: char) -> bool {
    family(c).is_some()
}

/// Whether a sign stands here that says "not equal". Within a name `≠` may stand.
fn unequal(rest: &str) -> bool {
    rest.starts_with("!=") || rest.starts_with('≠')
}

/// Where a word ends; a dash within a word ends none.
fn ends_word(c: char) -> bool {
    c.is_whitespace() || is_quote(c) || [SIGNS, RELATIONS, ARROWS].iter().any(|set| set.contains(c))
}

/// The length of the arrow that stands here, if one does.
fn arrow(rest: &str) -> Option<usize> {
    let found = ["<->", "-->", "<--", "->", "<-"].into_iter().find(|arrow| rest.starts_with(arrow));
    let sign = rest.chars().next().filter(|c| ARROWS.contains(*c)).map(char::len_utf8);
    found.map(str::len).or(sign)
}

/// How dashes without spaces are taken.
#[derive(Clone, Copy, Debug, PartialEq, Eq)]
pub enum Dashes {
    /// Between letters and digits they are part of a word; elsewhere they are a mistake.
    Within,
    /// They stand between two days or times.
    Between,
}

/// The length of a word.
fn word(rest: &str, dashes: Dashes) -> usize {
    let mut characters = rest.char_indices().peekable();
    while let Some((place, c)) = characters.next() {
        let next = characters.peek().map(|(_, next)| *next);
        let ends = match DASHES.contains(c) {
            true => dashes == Dashes::Between || next.is_none_or(|next| ends_word(next) || DASHES.contains(next)),
            false => ends_word(c) || rest[place..].starts_with("!="),
        };
        if ends && place > 0 {
            return place;
        }
    }
    rest.len()
}

/// The kind and the length of the token that starts at a place with a character which is no space.
fn token(
    line: &str,
    (from, at, to): (usize, usize, usize),
    first: char,
    dashes: Dashes,
) -> Result<(Kind, usize), Fault> {
    let rest = &line[at..to];
    let run = |ends: &dyn Fn(char) -> bool| rest.find(ends).unwrap_or(rest.len());
    Ok(match first {
        c if is_quote(c) => (Kind::Quoted, quoted(rest).ok_or_else(|| open_quote(line, at, to))?),
        _ if arrow(rest).is_some() => (Kind::Relation, arrow(rest).unwrap_or(1)),
        c if SIGNS.contains(c) => (Kind::Sign, 1),
        c if RELATIONS.contains(c) => (Kind::Relation, run(&|c| !RELATIONS.contains(c))),
        '!' | '≠' if unequal(rest) => (Kind::Relation, run(&|c| !RELATIONS.contains(c) && c != first)),
        c if DASHES.contains(c) => {
            if dashes == Dashes::Within {
                spaced(&line[..to], from, at, c)?;
            }
            (Kind::Sign, c.len_utf8())
        }
        c => (Kind::Word, word(rest, dashes).max(c.len_utf8())),
    })
}

/// The tokens of a part of a line.
pub fn tokens(line: &str, from: usize, to: usize, dashes: Dashes) -> Result<Vec<Token<'_>>, Fault> {
    let mut tokens = Vec::new();
    let mut at = from;
    while let Some(first) = line[at..to].chars().next() {
        if first.is_whitespace() && !invisible(first) {
            at += first.len_utf8();
            continue;
        }
        let (kind, length) = token(line, (from, at, to), first, dashes)?;
        let end = at + length;
        let inner = if kind == Kind::Quoted { at + first.len_utf8() } else { at };
        let mut text = match kind {
            Kind::Quoted => &line[inner..end - line[..end].chars().next_back().map_or(0, char::len_utf8)],
            _ => &line[at..end],
        };
        if let Some((place, c)) = text.char_indices().find(|(_, c)| invisible(*c)) {
            return Err(unseen(line, inner + place, c));
        }
        if kind == Kind::Sign && DASHES.contains(first) {
            text = "-";
        }
        tokens.push(Token { kind, text, from: at, to: end });
        at = end;
    }
    Ok(tokens)
}

fn unseen(line: &str, at: usize, c: char) -> Fault {
    let message = format!("the character U+{:04X} cannot be seen, and cannot stand here", c as u32);
    Fault::new(at, at + c.len_utf8(), message)
        .hint("delete it, and what stands around it if need be")
        .fix("without it", with(line, at, at + c.len_utf8(), ""))
}

/// A minus has a space on both sides: what else is wrong with a dash.
fn spaced(line: &str, from: usize, at: usize, c: char) -> Result<(), Fault> {
    let to = at + c.len_utf8();
    let space = |c: Option<char>| c.is_none_or(char::is_whitespace);
    if space(line[from..at].chars().next_back()) && space(line[to..].chars().next()) {
        return Ok(());
    }
    let (before, after) = (line[..at].trim_end(), line[to..].trim_start());
    let fault = Fault::new(at, to, "a minus has a space on both sides");
    let rest = line[at..].trim_start_matches(|c| DASHES.contains(c));
    let two = line.len() - at - rest.len() > c.len_utf8();
    if two && space(line[from..at].chars().next_back()) && rest.starts_with(' ') && !before.ends_with(['+', '-']) {
        return Err(fault.fix("a comment", format!("{before} # {}", rest.trim_start())));
    }
    // Two signs in a row are one.
    let sign = |sign: char| before.ends_with(sign).then(|| before[..before.len() - sign.len_utf8()].trim_end());
    Err(match (sign('+'), sign('-')) {
        (Some(group), _) => fault.fix("", format!("{group} - {after}")),
        (_, Some(group)) => fault
            .fix("less than less is more", format!("{group} + {after}"))
            .fix("a comment", format!("{group} # {after}")),
        _ => fault.hint("without spaces a hyphen is a part of a name").fix("a minus", format!("{before} - {after}")),
    })
}

/// The length of a name between quotes, with them.
fn quoted(rest: &str) -> Option<usize> {
    let mut characters = rest.char_indices();
    let ends = family(characters.next()?.1)?;
    characters.find(|(_, c)| ends.contains(*c)).map(|(place, c)| place + c.len_utf8())
}

fn open_quote(line: &str, at: usize, to: usize) -> Fault {
    let shown = line[at..to].chars().skip(1).collect::<String>();
    let fault = Fault::new(at, to, format!("the quote before '{}' is not closed", shown.trim_end()))
        .hint("a name in quotes ends with another quote of the same kind on the same line");
    // Another kind of quote behind it, or none before the next comma or sign, in the first name that is left open so.
    let start = line[..to].find(is_quote).unwrap_or(at);
    let open = line[start..].chars().next().map_or(1, char::len_utf8);
    let rest = &line[start + open..to];
    let other = rest.find(|c: char| is_quote(c) || "'’".contains(c));
    let ends = rest.find(|c: char| ",+<>=≤≥".contains(c)).unwrap_or(rest.len());
    let name = rest[..ends].trim_end();
    let closed = format!("{}\"{name}\"{}", &line[..start], &line[start + open + name.len()..]);
    match other.filter(|place| *place < ends) {
        Some(place) => {
            let quote = rest[place..].chars().next().map_or(1, char::len_utf8);
            let after = &line[start + open + place + quote..];
            fault.fix("", format!("{}\"{}\"{after}", &line[..start], &rest[..place]))
        }
        None => fault.fix("", closed),
    }
}

/// Where a line's comment starts, or its end. A comment starts at the line's start, or behind a space and before one; outside
/// quotes.
pub fn comment(line: &str) -> Result<usize, Fault> {
    let mut open: Option<&str> = None;
    let mut before = None;
    let mut characters = line.char_indices().peekable();
    while let Some((place, c)) = characters.next() {
        let after = characters.peek().map(|(_, after)| *after);
        match (c, open) {
            ('#', None) if line[..place].trim().is_empty() => return Ok(place),
            ('#', None) => {
                let space = |c: Option<char>| c.is_none_or(char::is_whitespace);
                if space(before) && space(after) {
                    return Ok(place);
                }
                return Err(Fault::new(place, place + 1, "'#' stands within a name, or without a space"));
            }
            (c, Some(ends)) if ends.contains(c) => open = None,
            (c, None) => open = family(c),
            _ => {}
        }
        before = Some(c);
    }
    Ok(line.len())
}

#[cfg(test)]
mod tests {
    use super::*;

    #[test]
    fn comments_start_at_the_line_or_between_spaces() {
        for (line, rest) in [
            ("# all", ""),
            ("#all", ""),
            ("  # all", "  "),
            ("a <= b # why", "a <= b "),
            ("a <= b\t# why#not", "a <= b\t"),
            ("a <= b\t#", "a <= b\t"),
            ("a <= b", "a <= b"),
            ("\"bed #4\" <= b # why", "\"bed #4\" <= b "),
            ("“bed #4” <= „b #2“ # why", "“bed #4” <= „b #2“ "),
        ] {
            assert_eq!(comment(line).map(|end| &line[..end]), Ok(rest));
        }
        for line in [
            "bed#4",
            "a <= bed#4 + 10",
            "a <= b# why",
            "a <= b #why",
            "moments:# none",
            "moments: bed #1, bed #2",
            "a,# b",
            "é#",
            "\u{3000}é#",
        ] {
            let fault = comment(line).expect_err(line);
            assert_eq!(&line[fault.from..fault.to], "#");
        }
    }

    fn texts(line: &str) -> Vec<&str> {
        let found = tokens(line, 0, line.len(), Dashes::Within).unwrap_or_else(|fault| panic!("{line}: {fault:?}"));
        found.iter().map(|token| token.text).collect()
    }

    #[test]
    fn tokens_have_their_place() {
        let line = "later of \"bed 4-B\", x+1:30 <=y";
        let found = tokens(line, 0, line.len(), Dashes::Within).expect("tokens");
        assert_eq!(texts(line), ["later", "of", "bed 4-B", ",", "x", "+", "1:30", "<=", "y"]);
        assert!(found.iter().all(|token| line[token.from..token.to].contains(token.text)));
        assert_eq!(found[2].kind, Kind::Quoted);
    }

    /// A dash between spaces is a minus, and within a word a part of it.
    #[test]
    fn a_minus_has_spaces() {
        assert_eq!(texts("ward-4 - 5 – 6 − 7"), ["ward-4", "-", "5", "-", "6", "-", "7"]);
        assert_eq!(texts("“bed 4” <= «x» -> „y“"), ["bed 4", "<=", "x", "->", "y"]);
        assert_eq!(texts("2026-11-17 a-b-c 35–40"), ["2026-11-17", "a-b-c", "35–40"]);
        for line in ["a -5", "a- 5", "a - -5", "–5", "a--5"] {
            assert!(tokens(line, 0, line.len(), Dashes::Within).is_err(), "{line}");
        }
        let line = "Mon-Fri 7:00–18:00";
        let found = tokens(line, 0, line.len(), Dashes::Between).expect("tokens");
        assert_eq!(found.iter().map(|token| token.text).collect::<Vec<_>>(), ["Mon", "-", "Fri", "7:00", "-", "18:00"]);
    }

    #[test]
    fn what_cannot_stand_is_told() {
        for (line, part) in [
            ("\"bed <= a", "the quote before 'bed <= a' is not closed"),
            ("“bed <= a", "the quote before 'bed <= a' is not closed"),
            ("a\u{200B} <= b", "U+200B"),
            ("a <= \u{7}b", "U+0007"),
            ("a <= b\rc", "U+000D"),
            ("a <=\u{85} b", "U+0085"),
        ] {
            let fault = tokens(line, 0, line.len(), Dashes::Within).expect_err(line);
            assert!(fault.message.contains(part), "{fault:?}");
        }
    }
}
