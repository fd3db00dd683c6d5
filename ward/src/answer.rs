//! A text answered: what the engine says, what the checker says of it, and what more there is to tell.

use span::Outcome;
use ward_reader::outcome::Expected;
use ward_reader::{record, Remark, Sheet, Weight};

use crate::archive;
use crate::cases::Stopped;
use crate::choice::Chosen;
use crate::error::Error;
use crate::grounds::Grounds;
use crate::json_text;
use crate::opening::{self, Door};
use crate::reasons::Reasons;
use crate::settle;
use crate::times::{Slack, Times};
use crate::what_if::Trial;
use crate::why::{Blocked, Loose, Never};

/// A file's text, and all that is told about it.
pub struct Report {
    pub file: String,
    pub lines: Vec<String>,
    pub remarks: Vec<Remark>,
    /// Why nothing could be answered, where the text is not to blame.
    pub fault: Option<Error>,
    pub sheet: Option<Sheet>,
    pub spans: Vec<Span>,
}

/// A span, and what is known of it.
pub struct Span {
    /// Both groups as they were read.
    pub from: String,
    pub to: String,
    /// The moments that the span starts from, one of which a plan must have to count; empty where the anchor is among them.
    pub start: Vec<String>,
    /// The problem's record and the answer's; where opening hours are kept, those of the case that has the answer.
    pub problem: Vec<u8>,
    pub record: Vec<u8>,
    pub verdict: Verdict,
    /// The answer that the text expects, and whether it is this one.
    pub expected: Option<Expected>,
    pub as_expected: bool,
    /// What there is to say of the opening hours that are kept.
    pub kept: Option<Kept>,
    pub body: Body,
    /// Whether it was asked what the span would be without the rules behind it.
    pub what_if: bool,
}

/// Opening hours that were kept.
#[derive(Clone, Debug, PartialEq, Eq)]
pub struct Kept {
    /// The moments at which the ward must be open.
    pub moments: Vec<usize>,
    /// How many cases were judged.
    pub cases: usize,
    /// The answer of the rules alone, with its records.
    pub alone: Outcome,
    pub problem: Vec<u8>,
    pub answer: Vec<u8>,
}

/// What the checker says, in the verdict program's words.
#[derive(Clone, Copy)]
pub enum Verdict {
    Accepted(Outcome),
    /// The answers of several cases, so many, which together give this one.
    Cases(Outcome, usize),
    /// No answer: the rules or the cases are too many.
    Stopped,
    NotAccepted(span::Refusal),
}

/// What there is to tell beside the verdict.
pub enum Body {
    Least(Box<Least>),
    Bottomless(Loose),
    None(Blocked),
    /// Opening hours could not be kept.
    Stopped(Stopped),
    /// What a record claims that the checker does not accept: in words, and its plan.
    Claim(String, Vec<Placed>),
}

/// A least span, with its plan and what is behind it.
pub struct Least {
    pub minutes: i32,
    /// When the span starts in the plan; its end is so many minutes later.
    pub start: i32,
    pub plan: Vec<Placed>,
    pub slack: Slack,
    /// What the answer's own pick table names.
    pub reasons: Option<Reasons>,
    /// The same, narrowed.
    pub grounds: Grounds,
    /// The moments that no plan has at all.
    pub never: Vec<Never>,
    /// Where the text wants moments early or late.
    pub chosen: Option<Chosen>,
    /// What the span would be without the rules behind it, where that is asked.
    pub what_if: Vec<Trial>,
}

/// A moment in a plan.
pub struct Placed {
    pub moment: usize,
    pub name: String,
    /// The minute, or blank.
    pub stamp: Option<i32>,
    /// Whether neither the span nor a rule says anything of it.
    pub free: bool,
    pub times: Option<Times>,
    pub door: Option<Door>,
    /// Whether it is of the binding round.
    pub round: bool,
    /// Whether it is before the anchor, though the rules would let it be there or later, and no line forbids it.
    pub early: bool,
}

/// What is asked of an answer beside the verdict.
#[derive(Clone, Copy)]
pub struct Wishes {
    /// Earliest and latest times.
    pub times: bool,
    /// What the span would be without the rules behind it.
    pub what_if: bool,
    /// Opening hours are kept; records from elsewhere are judged as they are.
    pub hours: bool,
}

#[cfg(test)]
impl Wishes {
    /// An answer to a text, with times or without.
    pub fn of(times: bool) -> Wishes {
        Wishes { times, what_if: false, hours: true }
    }
}

/// How a report ends; of several the greatest counts.
#[derive(Clone, Copy, Debug, PartialEq, Eq, PartialOrd, Ord)]
pub enum Ending {
    /// All answers were accepted, and expected where a text says what it expects.
    Good,
    /// Where an option asks for it: a span is bottomless.
    Bottomless,
    /// Where an option asks for it: there is no span.
    None,
    /// Where an option asks for it: the ward is shut at a planned time, or no plan within 14 days keeps the opening hours.
    Shut,
    /// All were accepted, and a text expects another answer.
    Unexpected,
    /// A text has a mistake, or could not be read or answered.
    Fault,
    /// The checker does not accept an answer.
    NotAccepted,
}

impl Report {
    /// A file that could not be read.
    pub fn unread(file: &str, fault: Error) -> Report {
        Report {
            file: file.into(),
            lines: Vec::new(),
            remarks: Vec::new(),
            fault: Some(fault),
            sheet: None,
            spans: Vec::new(),
        }
    }

    /// Reads a text. Nothing is solved; what the archive would refuse is told all the same.
    pub fn read(file: &str, bytes: &[u8]) -> Report {
        let lines = match json_text::is(bytes).then(|| json_text::lines(bytes)) {
            Some(Err(words)) => return Report::unread(file, Error::Json(words)),
            Some(Ok(lines)) => Some(lines),
            None => None,
        };
        let bytes = lines.as_ref().map_or(bytes, |lines| lines.as_bytes());
        let read = ward_reader::read(bytes, &archive::clock());
        let mut report = Report {
            file: file.into(),
            lines: read.lines,
            remarks: read.remarks,
            fault: None,
            sheet: read.sheet,
            spans: Vec::new(),
        };
        if let Some(sheet) = &report.sheet {
            if let Some(window) = archive::wrong_window(&sheet.week) {
                let (message, hint) = opening::why_wrong(&sheet.week, window);
                report.remarks.push(Remark {
                    weight: Weight::Mistake,
                    place: window.place,
                    message: message.into(),
                    hint: Some(hint.into()),
                    fixes: Vec::new(),
                });
            }
            let refused = record::sent(sheet).iter().find_map(|problem| archive::refusal(problem));
            report.fault = refused.map(Error::Refused);
        }
        if report.mistaken() {
            report.sheet = None;
        }
        report
    }

    pub fn mistaken(&self) -> bool {
        self.remarks.iter().any(|remark| remark.weight == Weight::Mistake)
    }

    /// Has the engine answer.
    pub fn answer(&mut self, wishes: Wishes) {
        let Some(sheet) = self.sheet.as_ref().filter(|_| self.fault.is_none()) else { return };
        let mut answers = Vec::new();
        for problem in record::sent(sheet) {
            match archive::answers(&problem) {
                Ok(more) => answers.extend(more),
                Err(refusal) => {
                    self.fault = Some(Error::Refused(refusal));
                    return;
                }
            }
        }
        self.judge(&answers, wishes);
    }

    /// Has the checker judge answers from whoever wrote them, each with the problem of its span alone.
    pub fn judge(&mut self, answers: &[Vec<u8>], wishes: Wishes) {
        let Some(sheet) = self.sheet.as_ref().filter(|_| self.fault.is_none()) else { return };
        let told: Result<Vec<Span>, Error> = answers
            .iter()
            .enumerate()
            .map(|(question, answer)| settle::span(sheet, question, answer, wishes))
            .collect();
        match told {
            Ok(spans) => self.spans = spans,
            Err(fault) => self.fault = Some(fault),
        }
    }

    pub fn ending(&self) -> Ending {
        let own = if self.fault.is_some() || self.sheet.is_none() { Ending::Fault } else { Ending::Good };
        let spans = self.spans.iter().map(|span| match span.verdict {
            Verdict::NotAccepted(_) => Ending::NotAccepted,
            Verdict::Stopped => Ending::Fault,
            _ if !span.as_expected => Ending::Unexpected,
            _ => Ending::Good,
        });
        spans.fold(own, Ending::max)
    }

    /// The same with an ending of its own for what is no plan that a ward can act on.
    pub fn ending_by_class(&self) -> Ending {
        let shut = |placed: &Placed| matches!(placed.door, Some(Door::Shut { .. }));
        let spans = self.spans.iter().map(|span| match &span.body {
            Body::Bottomless(_) => Ending::Bottomless,
            Body::None(Blocked::Shut(_)) => Ending::Shut,
            Body::None(_) => Ending::None,
            Body::Least(least) if least.plan.iter().any(shut) => Ending::Shut,
            _ => Ending::Good,
        });
        spans.fold(self.ending(), Ending::max)
    }

    /// A few words on how it went.
    pub fn brief(&self) -> String {
        let mistakes = self.remarks.iter().filter(|remark| remark.weight == Weight::Mistake).count();
        match (&self.fault, mistakes) {
            (Some(_), _) => "not answered".into(),
            (_, 1) => "1 mistake".into(),
            (_, 2..) => format!("{mistakes} mistakes"),
            _ if self.spans.is_empty() => "no mistake".into(),
            _ => self.spans.iter().map(|span| span.verdict.words()).collect::<Vec<_>>().join(", "),
        }
    }
}

impl Verdict {
    /// The verdict program's line.
    pub fn words(&self) -> String {
        match self {
            Verdict::Accepted(outcome) => format!("accepted {outcome}"),
            Verdict::Cases(outcome, cases) => format!("accepted {outcome} by {cases} cases"),
            Verdict::Stopped => "no answer".into(),
            Verdict::NotAccepted(refusal) => refusal.line(),
        }
    }
}
