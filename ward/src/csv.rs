//! Reports as CSV (RFC 4180): a line a moment of each plan, and one for a span that has no plan. Behind the notes stand the answer
//! that the text expects, where it is another, and the class of the answer with its minutes.

use span::Outcome;

use crate::answer::{Body, Placed, Report, Span, Verdict};
use crate::times::Bound;
use crate::told;

const HEAD: &str = "file,span,from,to,verdict,moment,minute,time,earliest,latest,note,expected,class,least";

/// How cells are written.
#[derive(Clone, Copy, Debug, PartialEq, Eq)]
pub enum Kind {
    /// With commas.
    Plain,
    /// With semicolons, and a mark at the start by which spreadsheets know UTF-8.
    Excel,
}

/// All reports.
pub fn all(reports: &[Report], kind: Kind) -> String {
    let mut out = match kind {
        Kind::Plain => format!("{HEAD}\r\n"),
        Kind::Excel => format!("\u{feff}{}\r\n", HEAD.replace(',', ";")),
    };
    for report in reports {
        for (number, span) in report.spans.iter().enumerate() {
            match &span.body {
                Body::Least(least) => {
                    least.plan.iter().for_each(|placed| line(report, number, span, Some(placed), kind, &mut out))
                }
                _ => line(report, number, span, None, kind, &mut out),
            }
        }
    }
    out
}

/// The class of an answer, and its minutes where it is least.
fn class(span: &Span) -> [String; 2] {
    match span.verdict {
        Verdict::Accepted(Outcome::Least(minutes)) => ["least".into(), minutes.to_string()],
        Verdict::Accepted(outcome) | Verdict::Cases(outcome, _) => [outcome.to_string(), String::new()],
        _ => [String::new(), String::new()],
    }
}

fn line(report: &Report, number: usize, span: &Span, placed: Option<&Placed>, kind: Kind, out: &mut String) {
    let mut cells =
        vec![report.file.clone(), (number + 1).to_string(), span.from.clone(), span.to.clone(), span.verdict.words()];
    match (placed, &report.sheet) {
        (Some(placed), Some(sheet)) => {
            let stamp = placed.stamp.filter(|_| !placed.free);
            let bound = |bound: Bound| match bound {
                Bound::At(minute) => minute.to_string(),
                Bound::Open => "no limit".into(),
                Bound::Never => "never".into(),
            };
            cells.extend([
                placed.name.clone(),
                stamp.map_or(String::new(), |stamp| stamp.to_string()),
                stamp.map_or(String::new(), |stamp| told::time(sheet, stamp)),
                placed.times.map_or(String::new(), |times| bound(times.earliest)),
                placed.times.map_or(String::new(), |times| bound(times.latest)),
                told::note(sheet, placed),
            ]);
        }
        (_, Some(sheet)) => {
            cells.resize(10, String::new());
            let told = told::explained(sheet, span).into_iter().map(|(words, rules)| {
                let rules = told::rules(sheet, &rules);
                [words, rules.join("; ")].join(" ").trim_end().to_string()
            });
            cells.push(told.collect::<Vec<_>>().join(" "));
        }
        _ => {}
    }
    cells.resize(11, String::new());
    cells.push(span.expected.filter(|_| !span.as_expected).map_or(String::new(), |expected| expected.to_string()));
    cells.extend(class(span));
    let between = if kind == Kind::Excel { ";" } else { "," };
    out.push_str(&cells.iter().map(|cell| quoted(cell)).collect::<Vec<_>>().join(between));
    out.push_str("\r\n");
}

/// A cell, in quotes where it needs them.
fn quoted(cell: &str) -> String {
    match cell.contains(['"', ',', ';', '\n', '\r']) {
        true => format!("\"{}\"", cell.replace('"', "\"\"")),
        false => cell.into(),
    }
}
