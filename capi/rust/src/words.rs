//! The words of document 01 as types.

use std::fmt;
use std::ops::Range;

/// The class of an answer.
#[derive(Clone, Copy, Debug, PartialEq, Eq)]
pub enum Class {
    /// Class 1: some plan that keeps the rules and counts has this whole span, and none has a smaller one. A plan counts if its
    /// second list is not blank (document 02, 2.4).
    Least,
    /// Class 2: for every whole number some plan that keeps the rules and counts has a span at or under it.
    Bottomless,
    /// Class 3, none: no plan that keeps the rules counts.
    NoPlan,
}

impl Class {
    /// The class's number in a record.
    pub fn number(self) -> u64 {
        match self {
            Class::Least => 1,
            Class::Bottomless => 2,
            Class::NoPlan => 3,
        }
    }

    /// The class of a number that the library returned, which is 1 to 3.
    pub(crate) fn of(number: u64) -> Class {
        match number {
            1 => Class::Least,
            2 => Class::Bottomless,
            3 => Class::NoPlan,
            other => unreachable!("the library gave class {other}"),
        }
    }
}

/// A class, with the span for least.
#[derive(Clone, Copy, Debug, PartialEq, Eq)]
pub enum Outcome {
    /// The least span, in minutes.
    Least(i32),
    /// Spans have no lower end.
    Bottomless,
    /// None: no plan that keeps the rules counts.
    NoPlan,
}

impl Outcome {
    /// The outcome's class.
    pub fn class(self) -> Class {
        match self {
            Outcome::Least(_) => Class::Least,
            Outcome::Bottomless => Class::Bottomless,
            Outcome::NoPlan => Class::NoPlan,
        }
    }
}

impl fmt::Display for Outcome {
    fn fmt(&self, out: &mut fmt::Formatter) -> fmt::Result {
        match self {
            Outcome::Least(span) => write!(out, "least {span}"),
            Outcome::Bottomless => write!(out, "bottomless"),
            Outcome::NoPlan => write!(out, "none"),
        }
    }
}

/// What the engine found.
#[derive(Clone, Copy, Debug, PartialEq, Eq)]
pub struct Solved {
    /// The class, and the span for least.
    pub outcome: Outcome,
    /// The trials as document 01 counts them: 1 for none, 2 for bottomless, else 2 plus the halvings, never above 24.
    pub trials: u32,
    /// The size of the record written, at most 208.
    pub size: usize,
}

impl fmt::Display for Solved {
    fn fmt(&self, out: &mut fmt::Formatter) -> fmt::Result {
        self.outcome.fmt(out)
    }
}

/// What the engine found for one question of several.
#[derive(Clone, Debug, PartialEq, Eq)]
pub struct AnswerAt {
    /// The class, and the span for least.
    pub outcome: Outcome,
    /// Where the answer's record stands in the buffer: it starts where the one before ended.
    pub bytes: Range<usize>,
}

impl fmt::Display for AnswerAt {
    fn fmt(&self, out: &mut fmt::Formatter) -> fmt::Result {
        self.outcome.fmt(out)
    }
}

/// What the engine found for every question of a problem.
#[derive(Clone, Debug, PartialEq, Eq)]
pub struct SolvedAll {
    /// One a question, in the problem's order.
    pub answers: Vec<AnswerAt>,
    /// The trials of all questions together, each question's as [`Solved`] counts them.
    pub trials: u32,
}

impl fmt::Display for SolvedAll {
    fn fmt(&self, out: &mut fmt::Formatter) -> fmt::Result {
        for (number, answer) in self.answers.iter().enumerate() {
            let comma = if number == 0 { "" } else { ", " };
            write!(out, "{comma}{answer}")?;
        }
        Ok(())
    }
}

/// An answer that the checker accepted.
#[derive(Clone, Copy, Debug, PartialEq, Eq)]
pub struct Certified {
    /// The class, and the span for least.
    pub outcome: Outcome,
}

impl fmt::Display for Certified {
    fn fmt(&self, out: &mut fmt::Formatter) -> fmt::Result {
        write!(out, "accepted {}", self.outcome)
    }
}

/// A refusal. `docs/RECORDS.md` has their order for each call. It is shown with its number and its reason; [`Refusal::cause`] names it.
#[derive(Clone, Copy, Debug, PartialEq, Eq, Hash)]
pub struct Refusal {
    /// Its number, 1 to 27.
    pub number: u8,
}

/// What a call refuses, by name. Later releases may have more.
#[derive(Clone, Copy, Debug, PartialEq, Eq, Hash)]
#[non_exhaustive]
pub enum Cause {
    /// 1: the problem has fewer than 10 bytes.
    ShortProblem,
    /// 2: the problem's length field is not its size - 4.
    ProblemLength,
    /// 3: the problem's kind is not one that this call takes.
    ProblemKind,
    /// 4: n is above 31 or m above 63.
    Limits,
    /// 5: the problem's size does not fit its kind, n and m, and for kind 3 the count of questions.
    ProblemSize,
    /// 6: a lead is neither blank nor within 20,160 of 0.
    Lead,
    /// 7: the buffer is too short: 208 bytes an answer, 128 a merged plan, or the converted record.
    ShortBuffer,
    /// 8: the answer has fewer than 16 bytes.
    ShortAnswer,
    /// 9: the answer's length field is not its size - 4.
    AnswerLength,
    /// 10: the answer's kind is not 4, its class not 1 to 3, or its start none of its class.
    AnswerHeader,
    /// 11: the answer's n is not the problem's, or its size does not fit its class.
    AnswerSize,
    /// 12: the span or a stamp is outside its form.
    Minutes,
    /// 13: a pick is above its highest value.
    Pick,
    /// 14: the form is right and the answer is not accepted.
    NotCertified,
    /// 15: the count of questions is 0 or above 8.
    QuestionCount,
    /// 16: the answer is bottomless.
    NoReasons,
    /// 17: a rule has an all-blank left list.
    SilentRule,
    /// 18: the text is not of its form, the value is beyond 6,000,000 of 0, or the buffer is under 10 bytes.
    HoursText,
    /// 19: the week list is not of its form, or the minute is beyond 6,000,000 of 0.
    WeekList,
    /// 20: a state is neither 0 nor 1.
    State,
    /// 21: all 16 places of the desk hold a problem, or its tickets are used up.
    DeskFull,
    /// 22: the desk holds no such ticket.
    NoSuchTicket,
    /// 23: the desk's memory is shorter than 16 problems.
    ShortDesk,
    /// 24: the shift is above 0.
    ForwardShift,
    /// 25: a plan breaks a rule.
    BrokenRule,
    /// 26: a merged stamp would be below -6,000,000.
    EarlyStamp,
    /// 27: w is 0 or above 20,160, n or m is beyond its limit, or there are more than 65,536 problems.
    CensusLimits,
    /// A number that no refusal of this release has.
    Other(u8),
}

/// The causes in the order of their numbers, from 1 on, each with its reason. `span_refusal_reason` of `capi/span.h` has the same words.
const CAUSES: [(Cause, &str); 27] = [
    (Cause::ShortProblem, "the problem has fewer than 10 bytes"),
    (Cause::ProblemLength, "the problem's length field is not its size - 4"),
    (Cause::ProblemKind, "the problem's kind is not one that this call takes"),
    (Cause::Limits, "n is above 31 or m above 63"),
    (Cause::ProblemSize, "the problem's size does not fit its kind, n and m, and for kind 3 the count of questions"),
    (Cause::Lead, "a lead is neither blank nor within 20,160 of 0"),
    (Cause::ShortBuffer, "the buffer is too short: 208 bytes an answer, 128 a merged plan, or the converted record"),
    (Cause::ShortAnswer, "the answer has fewer than 16 bytes"),
    (Cause::AnswerLength, "the answer's length field is not its size - 4"),
    (Cause::AnswerHeader, "the answer's kind is not 4, its class not 1 to 3, or its start none of its class"),
    (Cause::AnswerSize, "the answer's n is not the problem's, or its size does not fit its class"),
    (Cause::Minutes, "the span or a stamp is outside its form"),
    (Cause::Pick, "a pick is above its highest value"),
    (Cause::NotCertified, "the form is right and the answer is not accepted"),
    (Cause::QuestionCount, "the count of questions is 0 or above 8"),
    (Cause::NoReasons, "the answer is bottomless"),
    (Cause::SilentRule, "a rule has an all-blank left list"),
    (
        Cause::HoursText,
        "the text is not of its form, the value is beyond 6,000,000 of 0, or the buffer is under 10 bytes",
    ),
    (Cause::WeekList, "the week list is not of its form, or the minute is beyond 6,000,000 of 0"),
    (Cause::State, "a state is neither 0 nor 1"),
    (Cause::DeskFull, "all 16 places of the desk hold a problem, or its tickets are used up"),
    (Cause::NoSuchTicket, "the desk holds no such ticket"),
    (Cause::ShortDesk, "the desk's memory is shorter than 16 problems"),
    (Cause::ForwardShift, "the shift is above 0"),
    (Cause::BrokenRule, "a plan breaks a rule"),
    (Cause::EarlyStamp, "a merged stamp would be below -6,000,000"),
    (Cause::CensusLimits, "w is 0 or above 20,160, n or m is beyond its limit, or there are more than 65,536 problems"),
];

impl Refusal {
    /// Its cause and reason, where it is one of this release.
    fn known(self) -> Option<&'static (Cause, &'static str)> {
        usize::from(self.number).checked_sub(1).and_then(|place| CAUSES.get(place))
    }

    /// What is refused, by name.
    pub fn cause(self) -> Cause {
        self.known().map_or(Cause::Other(self.number), |(cause, _)| *cause)
    }

    /// What is wrong, in plain words without a full stop.
    pub fn reason(self) -> &'static str {
        self.known().map_or("no refusal has this number", |(_, reason)| reason)
    }

    /// The line that the programs print: `refused 3`, or `not certified` for 14.
    pub fn line(self) -> String {
        match self.number {
            14 => "not certified".into(),
            number => format!("refused {number}"),
        }
    }
}

impl fmt::Display for Refusal {
    fn fmt(&self, out: &mut fmt::Formatter) -> fmt::Result {
        write!(out, "{}: {}", self.line(), self.reason())
    }
}

impl std::error::Error for Refusal {}

/// The fields of an answer record.
#[derive(Clone, Debug, PartialEq, Eq)]
pub enum Answer {
    /// Class 1: a span, a start, a plan of n + 1 stamps (`None` is blank, the anchor's is 0), and a pick for each moment.
    Least {
        /// The span field, within ±1,290,240.
        span: i32,
        /// Where reach begins: 0 at the anchor, 1 at all moments with a non-blank lead in the second list.
        start: u16,
        /// One stamp a moment, blank or within ±6,000,000.
        stamps: Vec<Option<i32>>,
        /// One pick a moment: 0, a rule number, or m + 1 for the question.
        picks: Vec<u16>,
    },
    /// Class 2: a start, and a pick for each of the m + 1 rows.
    Bottomless {
        /// 1 + the number of a moment with a non-blank lead in the second list: reach begins there and at the anchor.
        start: u16,
        /// One pick a row: 0, or 1 + a moment's number.
        picks: Vec<u16>,
    },
    /// Class 3, none: a start, and a pick for each moment.
    NoPlan {
        /// Where reach begins: 0 at the anchor, 1 at all moments with a non-blank lead in the second list.
        start: u16,
        /// One pick a moment: 0, a rule number, or m + 1 for the question.
        picks: Vec<u16>,
    },
}

impl Answer {
    /// The answer's class.
    pub fn class(&self) -> Class {
        match self {
            Answer::Least { .. } => Class::Least,
            Answer::Bottomless { .. } => Class::Bottomless,
            Answer::NoPlan { .. } => Class::NoPlan,
        }
    }

    /// The stamps: none in classes 2 and 3.
    pub fn stamps(&self) -> &[Option<i32>] {
        match self {
            Answer::Least { stamps, .. } => stamps,
            _ => &[],
        }
    }

    /// Where reach begins (document 02, 2.4).
    pub fn start(&self) -> u16 {
        match self {
            Answer::Least { start, .. } | Answer::Bottomless { start, .. } | Answer::NoPlan { start, .. } => *start,
        }
    }

    /// The pick table.
    pub fn picks(&self) -> &[u16] {
        match self {
            Answer::Least { picks, .. } | Answer::Bottomless { picks, .. } | Answer::NoPlan { picks, .. } => picks,
        }
    }
}

impl fmt::Display for Answer {
    fn fmt(&self, out: &mut fmt::Formatter) -> fmt::Result {
        match self {
            Answer::Least { span, .. } => write!(out, "least {span}"),
            Answer::Bottomless { .. } => write!(out, "bottomless"),
            Answer::NoPlan { .. } => write!(out, "none"),
        }
    }
}
