//! The line `expect:`, which says what is expected of the span above.

use crate::clock::DAY;
use crate::cursor::Cursor;
use crate::doubts;
use crate::fault::{with, Fault};
use crate::length::{self, is_hours, like_hours};
use crate::limits;
use crate::outcome::Expected;
use crate::parse::Draft;
use crate::shown;

/// What stands behind `expect:`, and where.
struct Said<'s> {
    line: &'s str,
    from: usize,
    text: &'s str,
    words: Vec<String>,
}

impl Said<'_> {
    fn fault(&self, message: impl Into<String>) -> Fault {
        Fault::new(self.from, self.from + self.text.len(), message)
    }

    /// The line with another answer.
    fn say(&self, answer: &str) -> String {
        with(self.line, self.from, self.from + self.text.len(), answer)
    }

    /// The words, for a match.
    fn words(&self) -> Vec<&str> {
        self.words.iter().map(String::as_str).collect()
    }
}

impl Draft<'_> {
    /// What is expected of the span above.
    pub(crate) fn expect(&mut self, number: usize, cursor: &mut Cursor) -> Result<(), Fault> {
        let (from, text, line) = (cursor.place(), cursor.rest(), cursor.line);
        let words = text.split_whitespace().map(str::to_lowercase).collect();
        let said = Said { line, from, text, words };
        let Some(span) = self.spans.checked_sub(1) else {
            return Err(said.fault("an 'expect:' stands below its span").hint("move this line below its 'span:'"));
        };
        if let Some((_, other, _)) = self.expected.iter().find(|(other, ..)| *other == span) {
            let start = line.len() - line.trim_start().len();
            return Err(said
                .fault(format!("a span has one 'expect:' only, and line {other} has it"))
                .hint("delete one of the two lines")
                .fix("the other line alone", with(line, start, start, "# ")));
        }
        let outcome = match said.words()[..] {
            ["bottomless"] => Some(Expected::Bottomless),
            ["none"] => Some(Expected::None),
            ["least", number] if self.number(number).is_some() => self.number(number).map(Expected::Least),
            ["least", ..] => {
                cursor.take();
                let mark = cursor.mark();
                let length = length::read(cursor, self.clock).ok().filter(|_| cursor.peek(0).is_none());
                cursor.back(mark, 0);
                length.filter(|length| !length.bare).map(|length| Expected::Least(length.minutes))
            }
            _ => None,
        };
        let Some(outcome) = outcome else { return Err(self.no_answer(cursor, &said)) };
        match self.clock_time(&said, span, outcome).or_else(|| self.otherwise_long(&said, outcome)) {
            Some(fault) => Err(fault),
            None => {
                self.expected.push((span, number, outcome));
                Ok(())
            }
        }
    }

    /// What is no answer, with what to write.
    fn no_answer(&self, cursor: &Cursor, said: &Said) -> Fault {
        let (limit, words) = (limits::SPAN, said.words());
        let fault = said
            .fault(format!("'{}' is no answer", said.text.split_whitespace().collect::<Vec<_>>().join(" ")))
            .hint(format!("an answer is least with minutes (within {limit} of 0), bottomless or none"));
        match words[..] {
            [number] if self.number(number).is_some() => fault.fix("", said.say(&format!("least {number}"))),
            ["no", "plan"] => fault.fix("", said.say("none")),
            ["exactly", ref rest @ ..] => fault.fix("", said.say(&format!("least {}", rest.join(" ")))),
            [number, ..] if length::starts(number) => fault.fix("", said.say(&format!("least {}", said.text))),
            ["at", limit, ..] => {
                let fault = fault.hint("what is expected is one answer, and no limit of it");
                match limit == "least" {
                    true => fault.fix("the least span", said.say(&format!("least {}", words[2..].join(" ")))),
                    false => fault,
                }
            }
            ["least", "-" | "–" | "−" | "minus", number] if self.number(number).is_some() => {
                fault.fix("below 0", said.say(&format!("least -{number}")))
            }
            ["least", ..] => self.expected_length(cursor, fault),
            _ => fault,
        }
    }

    /// What is wrong with the length of an expected span, with what to write.
    fn expected_length(&self, cursor: &Cursor, fault: Fault) -> Fault {
        let mut rest = Cursor::new(cursor.line, cursor.left().to_vec(), cursor.end());
        let wrong = length::read(&mut rest, self.clock).err();
        wrong.filter(|wrong| !wrong.fixes.is_empty()).unwrap_or(fault)
    }

    /// A span from the anchor that is expected to be as long as a time of day that it may run to.
    fn clock_time(&self, said: &Said, span: usize, outcome: Expected) -> Option<Fault> {
        let (anchor, Expected::Least(minutes)) = (self.sheet.anchor?, outcome) else { return None };
        let (word, days) = said.text.rsplit_once(' ').map(|(before, word)| (word, before.contains(' ')))?;
        let time = minutes.rem_euclid(DAY);
        let question = self.sheet.questions.get(span)?;
        let from_anchor = question.row.right.iter().enumerate().all(|(place, lead)| *lead == (place == 0).then_some(0));
        let low = if days { anchor.minute.min(6 * 60) } else { anchor.minute };
        let such = is_hours(word) && from_anchor && time >= low && (days || minutes < DAY);
        let say = |minutes: i32| said.say(&format!("least {}", shown::length(minutes)));
        (such && self.clock.judges()).then(|| {
            said.fault(format!("'{word}' can be a time of day, or a length of time"))
                .fix("so long after the anchor", say(minutes))
                .fix("until that time", say(minutes - anchor.minute))
        })
    }

    /// `least 45:00`, `least 1230`: hours and minutes, or minutes.
    fn otherwise_long(&self, said: &Said, outcome: Expected) -> Option<Fault> {
        let Expected::Least(minutes) = outcome else { return None };
        let [_, word] = said.words()[..] else { return None };
        let say = |minutes: i32| said.say(&format!("least {} min", minutes));
        let hours = |minutes: i32| said.say(&format!("least {}", shown::hours(minutes)));
        let fault = said.fault(format!("'{word}' can be hours and minutes, or minutes"));
        if like_hours(word) {
            let long = minutes / 100 * 60 + minutes % 100;
            return Some(fault.fix("hours and minutes", hours(long)).fix("minutes", say(minutes)));
        }
        let watch = doubts::stopwatch(minutes).filter(|_| is_hours(word) && self.clock.judges())?;
        Some(fault.fix("hours and minutes", hours(minutes)).fix("minutes and seconds", say(watch)))
    }

    /// A least span, in minutes or in hours and minutes, with one text each.
    fn number(&self, word: &str) -> Option<i32> {
        let value = match is_hours(word.strip_prefix('-').unwrap_or(word)) {
            true => (self.clock.read)(word)?,
            false => word.parse::<i32>().ok().filter(|value| value.to_string() == word)?,
        };
        (value.unsigned_abs() <= limits::SPAN.unsigned_abs()).then_some(value)
    }
}
