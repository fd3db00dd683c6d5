//! Whole lines in a form that is not read, with lines that are.

use crate::cursor::Cursor;
use crate::fault::{with, Fault};
use crate::instant::Known;
use crate::length;
use crate::lines::{headed, Key};
use crate::nearby;
use crate::offers;
use crate::parse::part;
use crate::several;
use crate::sides;
use crate::stamps;
use crate::tokens::{Kind, Token};

/// A line, its tokens, and what is known.
struct Line<'l> {
    line: &'l str,
    /// Where what is looked at starts and ends.
    from: usize,
    end: usize,
    tokens: Vec<Token<'l>>,
    known: &'l Known<'l>,
}

impl<'l> Line<'l> {
    /// The text of some tokens.
    fn text(&self, from: usize, to: usize) -> &'l str {
        match self.tokens.get(from..to) {
            Some([first, .., last]) => &self.line[first.from..last.to],
            Some([only]) => &self.line[only.from..only.to],
            _ => "",
        }
    }

    /// The line with another text in place of all tokens.
    fn say(&self, text: &str) -> String {
        with(self.line, self.from, self.end, text)
    }

    /// A word in small letters; a name in quotes is none.
    fn word(&self, place: usize) -> String {
        let token = self.tokens.get(place).filter(|token| token.kind != Kind::Quoted);
        token.map_or(String::new(), |token| token.text.to_lowercase())
    }

    fn fault(&self, message: &str) -> Fault {
        Fault::new(self.from, self.end, message)
    }

    /// Whether a token is a declared moment.
    fn names(&self, token: &Token) -> bool {
        token.kind != Kind::Sign && self.known.moment(token.text).is_some()
    }

    /// The place of the sign between two sides, where there is one alone.
    fn relation(&self) -> Option<usize> {
        let mut places = (0..self.tokens.len()).filter(|&place| self.tokens[place].kind == Kind::Relation);
        places.next().filter(|_| places.next().is_none())
    }
}

/// What is looked for, in this order.
const LOOKS: [fn(&Line) -> Option<Fault>; 15] = [
    turned, lifted, asked, bracketed, plus_minus, distance, colon, arrow, doubt, alone, hour, unsigned, range,
    anchored, then,
];

/// The line in a form that is read, where it can be told what it means.
pub fn otherwise(known: &Known, line: &str, end: usize) -> Option<Fault> {
    let head = headed(line, end);
    if let Some(Key::Moments | Key::Anchor | Key::Open | Key::Span | Key::Expect | Key::Admits | Key::Record) = head.key
    {
        return None;
    }
    let start = end - line[..end].trim_start().len();
    let from = if head.key == Some(Key::Suspended) { head.from.min(end) } else { start };
    if let Some(fault) = stamps::shown(known, line, from, end).or_else(|| negative(line, from, end)) {
        return Some(fault);
    }
    if let Some(fault) = tolerance(known, line, from, end) {
        return Some(fault);
    }
    // Both signs are as long as the one that is put in, so that places stay.
    for sign in ["+/-", "+- "] {
        let Some(place) = line[..end].find(sign) else { continue };
        if let Some(fault) = otherwise(known, &with(line, place, place + 3, "± "), end) {
            return Some(Fault { from: place, to: place + 3, ..fault });
        }
    }
    let tokens = part(line, from, end).unwrap_or_default();
    let (first, last) = (tokens.first().map_or(from, |token| token.from), tokens.last().map_or(end, |token| token.to));
    let whole = Line { line, from: first, end: last, known, tokens: tokens.clone() };
    if let Some(fault) = on_the_way(&whole).or_else(|| whichever(&whole)) {
        return Some(fault);
    }
    several::rules(known, line, from, end).or_else(|| LOOKS.iter().find_map(|look| look(&whole)))
}

/// `10 min from ready to leaves`, `at least 10 between ready and leaves`, `ready -> 10 -> leaves`: minutes between two moments.
fn on_the_way(line: &Line) -> Option<Fault> {
    let count = line.tokens.len();
    let number = |place: usize| length::starts(line.text(place, place + 1));
    let named = |from: usize, to: usize| to == from + 1 && line.tokens.get(from).is_some_and(|token| line.names(token));
    let arrow = |place: usize| ["->", "-->", "→", "⟶"].contains(&line.text(place, place + 1));
    let fault = line.fault("what comes after what is said with 'after'");
    let say = |words: &str, early: &str, late: &str| line.say(&format!("{late} {words} after {early}"));
    if count > 4 && named(0, 1) && arrow(1) && number(2) && arrow(count - 2) && named(count - 1, count) {
        let words = line.text(2, count - 2);
        return Some(fault.fix("", say(words, line.text(0, 1), line.text(count - 1, count))));
    }
    let words =
        [("at least", 2), ("at most", 2), ("exactly", 1), ("min", 1), ("minimum", 1), ("max", 1), ("maximum", 1)];
    let stands = |words: &str| words.split(' ').enumerate().all(|(place, word)| line.word(place) == word);
    let (said, skip) = words.into_iter().find(|(words, _)| stands(words)).unwrap_or(("", 0));
    let said = match said {
        "min" | "minimum" => "at least",
        "max" | "maximum" => "at most",
        said => said,
    };
    let place = (skip..count).find(|&place| ["from", "between"].contains(&line.word(place).as_str()))?;
    let between = if line.word(place) == "from" { "to" } else { "and" };
    let middle = (place..count).find(|&other| line.word(other) == between)?;
    (number(skip) && named(place + 1, middle) && named(middle + 1, count)).then_some(())?;
    let minutes = format!("{said} {}", line.text(skip, place));
    let (early, late) = (line.text(place + 1, middle), line.text(middle + 1, count));
    Some(fault.fix("", say(minutes.trim_start(), early, late)))
}

/// `leaves not before ready or 9:00, whichever is later`: both limits, or one of them.
fn whichever(line: &Line) -> Option<Fault> {
    let place = (3..line.tokens.len()).find(|&place| line.word(place) == "whichever")?;
    let last = line.word(line.tokens.len() - 1);
    let later = match last.as_str() {
        "later" | "last" | "latest" => true,
        "earlier" | "first" | "sooner" | "earliest" => false,
        _ => return None,
    };
    let end = place - (line.text(place - 1, place) == ",") as usize;
    let head = ["not before", "not after", "by"]
        .into_iter()
        .find(|words| words.split(' ').enumerate().all(|(ahead, word)| line.word(1 + ahead) == word))?;
    let start = 1 + head.split(' ').count();
    let or = (start..end).find(|&place| ["or", "and", ","].contains(&line.word(place).as_str()))?;
    let (group, items) = (line.text(0, 1), [line.text(start, or), line.text(or + 1, end)]);
    let fault =
        Fault::new(line.tokens[place].from, line.end, "which is later is said in two lines, or with 'later of'");
    let both = items.iter().map(|item| line.say(&format!("{group} {head} {item}"))).collect();
    Some(match (head == "not before", later) {
        (true, true) | (false, false) => fault.fixes("both limits", both),
        (false, true) => fault.fix("", line.say(&format!("{group} {head} later of {}", items.join(", ")))),
        (true, false) => fault.hint("that one of two is early enough cannot be said"),
    })
}

/// `cleaned 20 ± 5 after free`: both limits, so much less and so much more.
fn tolerance(known: &Known, line: &str, from: usize, end: usize) -> Option<Fault> {
    let body = &line[from..end];
    let signs = ["±", "+/-", "+-", "-+"];
    let (place, sign) = signs.iter().find_map(|sign| body.find(sign).map(|place| (place, *sign)))?;
    let (before, behind) = (&line[..from + place], &line[from + place + sign.len()..end]);
    let first = before.trim_end().rsplit(' ').take(2).find(|word| word.starts_with(|c: char| c.is_ascii_digit()))?;
    let first = before.rfind(first)?;
    let ((middle, ""), (wide, rest)) = (minutes(known, &before[first..])?, minutes(known, behind)?) else {
        return None;
    };
    let word = rest.split(' ').next().filter(|word| ["after", "before"].contains(&word.to_lowercase().as_str()))?;
    let (head, base) = (before[..first].trim_end(), rest[word.len()..].trim());
    let fault = Fault::new(first, end, "both limits stand with 'to' between them");
    let after = &line[end..];
    if wide <= middle {
        let rule = format!("{head} {} to {} {rest}{after}", middle - wide, middle + wide);
        return Some(fault.fix("so much less or more", rule));
    }
    let subject = head.get(from..)?.trim_start();
    let (low, high) = if word.eq_ignore_ascii_case("after") {
        (wide - middle, middle + wide)
    } else {
        (middle + wide, wide - middle)
    };
    let start = &line[..from + line[from..].find(subject)?];
    let lines = [format!("{base} - {low} <= {subject}"), format!("{subject} <= {base} + {high}{after}")];
    Some(fault.fixes("so much less or more", lines.map(|rule| format!("{start}{rule}")).to_vec()))
}

/// The minutes that a text starts with, and what stands behind them.
fn minutes<'t>(known: &Known, text: &'t str) -> Option<(i32, &'t str)> {
    let mut cursor = Cursor::new(text, part(text, 0, text.len())?, text.len());
    let length = length::read(&mut cursor, known.clock).ok()?;
    Some((length.minutes, cursor.rest()))
}

/// `by 8:45 ready`: the moment stands first.
fn turned(line: &Line) -> Option<Fault> {
    let words = ["by", "at", "until", "till", "from", "not", "exactly", "after", "before", "at least", "at most"];
    let first = line.tokens.first().filter(|token| !line.names(token))?;
    let count = line.tokens.len();
    let last = line.tokens.last().filter(|last| line.names(last))?;
    let such = words.contains(&line.word(0).as_str()) && count > 2 && line.relation().is_none();
    let text = format!("{} {}", &line.line[last.from..last.to], line.text(0, count - 1));
    let fault = Fault::new(first.from, first.to, "a rule starts with its moment");
    such.then(|| fault.fix("", line.say(&text)))
}

/// `ready + 20 <= leaves suspended`.
fn lifted(line: &Line) -> Option<Fault> {
    let count = line.tokens.len();
    let last = line.tokens.last().filter(|token| !line.names(token))?;
    let such = ["suspended", "lifted"].contains(&line.word(count - 1).as_str()) && count > 3;
    let text = format!("suspended: {}", line.text(0, count - 1));
    let fault = Fault::new(last.from, last.to, format!("'{}' stands before its rule, with a colon", last.text));
    such.then(|| fault.fix("", line.say(&text)))
}

/// `how long from ready to leaves?`.
fn asked(line: &Line) -> Option<Fault> {
    let from = (0..line.tokens.len()).find(|&place| line.word(place) == "from")?;
    let asks = ["how", "what", "which", "span", "time"].contains(&line.word(0).as_str());
    let text = line.text(from, line.tokens.len()).trim_end_matches('?').trim_end();
    let fault = line.fault("a question is a line 'span: from .. to ..'");
    (asks && from > 0).then(|| fault.fix("", line.say(&format!("span: {text}"))))
}

/// `(ready + 10 <= leaves)`: brackets round a whole rule; `ready (+10) <= leaves`: round minutes with their sign.
fn bracketed(line: &Line) -> Option<Fault> {
    let count = line.tokens.len();
    let sign = |place: usize| {
        line.tokens.get(place).map_or("", |token| if token.kind == Kind::Sign { token.text } else { "" })
    };
    if sign(0) == "(" && sign(count - 1) == ")" && line.relation().is_some() && count > 4 {
        let fault = line.fault("a rule stands without brackets round it");
        return Some(fault.fix("", line.say(line.text(1, count - 1))));
    }
    let open = (1..count).find(|&place| sign(place) == "(" && ["+", "-"].contains(&sign(place + 1)))?;
    let close = (open..count).find(|&place| sign(place) == ")")?;
    let (before, inner) = (line.text(0, open), line.text(open + 2, close));
    let text = format!("{before} {} {inner} {}", sign(open + 1), line.text(close + 1, count));
    let fault = Fault::new(line.tokens[open].from, line.tokens[close].to, "minutes stand without brackets");
    Some(fault.fix("", line.say(text.trim_end())))
}

/// `leaves = ready ± 15`, `leaves = ready +/- 15`: so much before or after.
fn plus_minus(line: &Line) -> Option<Fault> {
    let sign = line.relation()?;
    let signs = ["±", "+-", "+/-", "-+"];
    let place = (sign..line.tokens.len()).find(|&place| {
        let text = line.text(place, place + 1);
        signs.iter().any(|sign| text.starts_with(sign)) || text == "+" && line.word(place + 1).starts_with("/-")
    })?;
    let glued = line.text(place, line.tokens.len());
    let minutes = glued.trim_start_matches(['±', '+', '/', '-', ' ']);
    let minutes = if length::is_number(minutes) { format!("{minutes} min") } else { minutes.into() };
    let (subject, base) = (line.text(0, sign), line.text(sign + 1, place));
    let fault = Fault::new(line.tokens[place].from, line.end, "minutes have one sign");
    let fault = fault.fixes(
        "so much before or after it, at most",
        vec![
            line.say(&format!("{base} - {minutes} <= {subject}")),
            line.say(&format!("{subject} <= {base} + {minutes}")),
        ],
    );
    Some(match line.text(sign, sign + 1) {
        "=" => fault,
        relation => fault.fix("so much later, at most", line.say(&format!("{subject} {relation} {base} + {minutes}"))),
    })
}

/// `|ready - porter| <= 10`: so far apart at most.
fn distance(line: &Line) -> Option<Fault> {
    let (first, second) =
        line.line[line.from..line.end].split_once("<=").or(line.line[line.from..line.end].split_once('≤'))?;
    let inner = first.trim().strip_prefix('|')?.strip_suffix('|')?;
    let (one, other) = inner.split_once(" - ").or(inner.split_once(" – "))?;
    let (one, other, minutes) = (one.trim(), other.trim(), second.trim());
    let lines =
        vec![line.say(&format!("{one} <= {other} + {minutes}")), line.say(&format!("{other} <= {one} + {minutes}"))];
    Some(
        line.fault("a rule has moments on both sides, and no size of a difference")
            .fixes("so far apart at most", lines),
    )
}

/// `ready: 8:40`: a moment with a colon behind it.
fn colon(line: &Line) -> Option<Fault> {
    let first = line.tokens.first()?;
    let name = first.text.strip_suffix(':').filter(|_| first.kind == Kind::Word)?;
    line.known.moment(name)?;
    let text = format!("{name} {}", line.text(1, line.tokens.len()));
    let fault = Fault::new(first.from, first.to, "a moment has no colon behind it");
    Some(fault.fix("", line.say(&text)))
}

/// `free -35-> cleaned`: an arrow with the minutes in it.
fn arrow(line: &Line) -> Option<Fault> {
    if let Some(fault) = arrow_with_minutes(line) {
        return Some(fault);
    }
    let place = (1..line.tokens.len()).find(|&place| line.text(place, place + 1).contains("->"))?;
    let whole = &line.line[line.from..line.end];
    let (first, second) = whole.split_once("->")?;
    let (group, minutes) = first.split_once(" -")?;
    let minutes = minutes.trim_matches(['-', ' ']);
    length::starts(minutes).then_some(())?;
    let text = format!("{} + {minutes} <= {}", group.trim(), second.trim());
    Some(Fault::new(line.tokens[place].from, line.end, "a rule has '<=' between its sides").fix("", line.say(&text)))
}

/// `free -> cleaned 35`: an arrow with the minutes behind it.
fn arrow_with_minutes(line: &Line) -> Option<Fault> {
    let [first, arrow, second, minutes @ ..] = &line.tokens[..] else { return None };
    let arrows = ["->", "-->", "→", "⟶", "to", "bis"].contains(&arrow.text.to_lowercase().as_str());
    let colon = minutes.first().is_some_and(|token| token.text == ":") as usize;
    let length = minutes.get(colon).filter(|token| length::starts(token.text))?;
    let such = line.names(first) && line.names(second) && arrows && minutes.len() <= 3;
    let text = format!("{} {} after {}", line.text(2, 3), &line.line[length.from..line.end], line.text(0, 1));
    let fault = Fault::new(arrow.from, line.end, "what comes after what is said with 'after'");
    such.then(|| fault.fix("", line.say(&text)))
}

/// A question mark behind a rule: it holds, or it is a note.
fn doubt(line: &Line) -> Option<Fault> {
    let whole = line.line[line.from..line.end].trim_end();
    let rule = whole.strip_suffix('?')?.trim_end();
    let fault = Fault::new(line.end - 1, line.end, "does this rule hold? A rule has no question mark");
    Some(fault.fix("it holds", line.say(rule)).fix("a comment", line.say(&format!("# {whole}"))))
}

/// A name alone on its line that no line declares.
fn alone(line: &Line) -> Option<Fault> {
    let dash = (line.word(0) == "-" || line.word(0) == "*" || line.word(0) == "•") as usize;
    let [token] = line.tokens.get(dash..)? else { return None };
    let named = token.kind == Kind::Quoted || sides::is_bare(token.text);
    let plain = |c: char| c.is_alphanumeric() || " -'’_".contains(c);
    let such = named && token.text.chars().all(plain) && line.known.moment(token.text).is_none();
    let such = such && nearby::everyday(token.text).is_none();
    let fault = line.fault("a name alone is no rule");
    (such && token.text.to_lowercase() != "anchor")
        .then(|| fault.fix("a moment", line.say(&format!("moments: {}", line.text(dash, dash + 1)))))
}

/// `ready 9`: a moment and an hour, with nothing that says on which side of it something is.
fn hour(line: &Line) -> Option<Fault> {
    let [name, number] = &line.tokens[..] else { return None };
    let hour = length::is_number(number.text) && number.text.parse().is_ok_and(|hour: i32| hour <= 24);
    (line.names(name) && hour).then_some(())?;
    let whole = |words: &str| line.say(&format!("{} {words} {}", line.text(0, 1), number.text));
    Some(offers::at_which(Fault::new(number.from, number.to, ""), number.text, &whole))
}

/// `free + 35 cleaned`: the sign between the sides is missing.
fn unsigned(line: &Line) -> Option<Fault> {
    let count = line.tokens.len();
    let last = line.tokens.last().filter(|last| line.names(last))?;
    let sum = count > 3 && ["+", "-"].contains(&line.word(1).as_str()) && line.relation().is_none();
    let text = format!("{} <= {}", line.text(0, count - 1), line.text(count - 1, count));
    let fault = Fault::new(last.from, last.to, "a sign is missing between the sides");
    sum.then(|| fault.fix("", line.say(&text)))
}

/// `free + 35-40 <= cleaned`, `cleaned = free + 35-40 min`: both limits as a lead.
fn range(line: &Line) -> Option<Fault> {
    let sign = line.relation()?;
    let count = line.tokens.len();
    let is_range = |place: &usize| {
        let limits = line.text(*place, place + 1).split_once(['-', '–']);
        let such = limits.is_some_and(|(low, high)| length::starts(low) && length::starts(high));
        such && line.word(place - 1) == "+"
    };
    let place = (1..count).find(is_range)?;
    let (low, high) = line.text(place, place + 1).split_once(['-', '–'])?;
    // The side that has the minutes, and the other one.
    let (from, to, other) = match place < sign {
        true => (0, sign, line.text(sign + 1, count)),
        false => (sign + 1, count, line.text(0, sign)),
    };
    let relation = line.text(sign, sign + 1);
    (relation == "=" || relation == "<=" && place < sign).then_some(())?;
    let (base, unit) = (line.text(from, place - 1), line.text(place + 1, to));
    let high = format!("{high} {unit}");
    let token = line.tokens[place];
    let fault = Fault::new(token.from, token.to, "both limits stand with 'to' between them, in words");
    Some(fault.fix("", line.say(&format!("{other} {low} to {} after {base}", high.trim_end()))))
}

/// `free - cleaned <= -30`, `cleaned -5 to 10 after free`: minutes below 0.
fn negative(line: &str, from: usize, end: usize) -> Option<Fault> {
    let body = line[from..end].trim();
    let start = from + line[from..end].find(body)?;
    let whole = |text: String| with(line, start, start + body.len(), &text);
    let fault = |message: &str| Fault::new(start, start + body.len(), message);
    if let Some((early, late, minutes)) = below(body) {
        let message = "a rule has moments on both sides, and no difference of two";
        return Some(fault(message).fix("", whole(format!("{early} + {minutes} <= {late}"))));
    }
    let (head, rest) = body.split_once(" -")?;
    let (first, rest) = rest.split_once(" to ")?;
    let (last, base) = rest.split_once(" after ")?;
    let such = length::starts(first) && length::starts(last) && !head.contains(['<', '=', '>']);
    let lines = vec![whole(format!("{base} - {first} <= {head}")), whole(format!("{head} <= {base} + {last}"))];
    such.then(|| fault("minutes before and after a moment are two rules").fixes("", lines))
}

/// A difference that is at most a number below 0: the earlier, the later, and the minutes between them.
fn below(body: &str) -> Option<(&str, &str, &str)> {
    let (difference, minutes) = body.split_once("<=").or(body.split_once('≤'))?;
    let minutes = minutes.trim().strip_prefix(['-', '−', '–'])?.trim();
    let (early, late) = difference.split_once(" - ")?;
    length::starts(minutes.split(' ').next()?).then_some((early.trim(), late.trim(), minutes))
}

/// `anchor = 8:00`, `anchor at 8:00`: the anchor's own line.
fn anchored(line: &Line) -> Option<Fault> {
    let sign = ["=", "at", "is", ":="].contains(&line.word(1).as_str());
    let at = (line.word(2) == "at") as usize;
    let such = line.word(0) == "anchor" && sign && line.known.anchor.is_none() && !line.known.doubtful;
    let text = format!("anchor: {}", line.text(2 + at, line.tokens.len()));
    such.then(|| line.fault("when the anchor is stands on a line 'anchor: ..'").fix("", line.say(&text)))
}

/// `free, then 35, then cleaned`: one after another, with minutes between.
fn then(line: &Line) -> Option<Fault> {
    let count = line.tokens.len();
    let (first, last) = (line.tokens.first()?, line.tokens.last()?);
    let such = line.names(first) && line.names(last) && count > 2 && line.relation().is_none();
    let words = line.tokens.get(1..count.saturating_sub(1))?;
    let thens = words.iter().any(|token| token.text.to_lowercase() == "then");
    let rest: Vec<&str> = words
        .iter()
        .map(|token| token.text)
        .filter(|text| ![",", "then", "and"].contains(&text.to_lowercase().as_str()))
        .collect();
    let minutes = rest.join(" ");
    let text = format!("{} {minutes} after {}", line.text(count - 1, count), line.text(0, 1)).replace("  ", " ");
    let fault = line.fault("what comes after what is said with 'after'");
    (such && thens).then(|| fault.fix("", line.say(&text)))
}
