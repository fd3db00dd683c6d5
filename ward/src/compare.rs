//! Two texts side by side: which rules differ, both answers to each span, and which moments move. Rules are compared by what they say,
//! and moments by their names; the order of lines plays no part.

use std::collections::{BTreeMap, BTreeSet};
use std::fmt::Write;

use ward_reader::sheet::Row;
use ward_reader::{shown, Sheet};

use crate::answer::{Body, Placed, Report, Span};
use crate::kept::by_cases;
use crate::laws::Source;
use crate::told;
use crate::value::{object, text, Value};

/// What differs between two texts that were answered.
pub struct Compared<'c> {
    reports: [&'c Report; 2],
    sheets: [&'c Sheet; 2],
    /// The rules that one of them has alone, by their places.
    rules: [Vec<usize>; 2],
    /// The spans of both, by their places.
    spans: Vec<[Option<usize>; 2]>,
}

/// Compares two reports; nothing where one of them is no answer.
pub fn of<'c>(first: &'c Report, second: &'c Report) -> Option<Compared<'c>> {
    let reports = [first, second];
    if reports.iter().any(|report| report.fault.is_some()) {
        return None;
    }
    let sheets = [first.sheet.as_ref()?, second.sheet.as_ref()?];
    let rules = [alone(sheets[0], sheets[1]), alone(sheets[1], sheets[0])];
    let spans = paired(first, second);
    Some(Compared { reports, sheets, rules, spans })
}

/// What a rule says, with its state, and no matter in which order its text names the moments.
fn said(sheet: &Sheet, row: &Row) -> String {
    let side = |leads: &[ward_reader::Lead]| {
        let named =
            leads.iter().enumerate().filter_map(|(moment, lead)| Some((sheet.moments[moment].name.clone(), (*lead)?)));
        named.collect::<BTreeMap<String, i32>>()
    };
    format!("{:?} {:?} {}", side(&row.left), side(&row.right), row.in_force)
}

/// The rules of a sheet that another does not have, as often as it has them.
fn alone(sheet: &Sheet, other: &Sheet) -> Vec<usize> {
    let mut others: Vec<String> = other.rules.iter().map(|row| said(other, row)).collect();
    let own = |place: &usize| {
        let rule = said(sheet, &sheet.rules[*place]);
        match others.iter().position(|other| *other == rule) {
            Some(found) => {
                others.swap_remove(found);
                false
            }
            None => true,
        }
    };
    (0..sheet.rules.len()).filter(own).collect()
}

/// The spans of both by their groups, then those that one has alone.
fn paired(first: &Report, second: &Report) -> Vec<[Option<usize>; 2]> {
    let mut left: Vec<usize> = (0..second.spans.len()).collect();
    let mut pairs = Vec::new();
    for (place, span) in first.spans.iter().enumerate() {
        let same = |other: &usize| second.spans[*other].from == span.from && second.spans[*other].to == span.to;
        let found = left.iter().position(same).map(|found| left.remove(found));
        pairs.push([Some(place), found]);
    }
    pairs.extend(left.into_iter().map(|place| [None, Some(place)]));
    pairs
}

/// A moment in two plans: its name, and its times.
struct Moved {
    name: String,
    times: [String; 2],
    minutes: [Option<i32>; 2],
}

impl Compared<'_> {
    /// The moments of two plans that are not at the same time, in the order of the first; then those that one has alone.
    fn moved(&self, spans: [&Span; 2]) -> Vec<Moved> {
        let plans = spans.map(|span| match &span.body {
            Body::Least(least) => &least.plan[..],
            _ => &[],
        });
        let find = |plan: &[Placed], name: &str| -> Option<i32> {
            plan.iter().find(|placed| placed.name == name && !placed.free)?.stamp
        };
        let named = plans.iter().flat_map(|plan| plan.iter().map(|placed| &placed.name));
        let mut names: Vec<&String> = Vec::new();
        named.for_each(|name| {
            if !names.contains(&name) {
                names.push(name);
            }
        });
        let moved = names.into_iter().map(|name| {
            let minutes = [find(plans[0], name), find(plans[1], name)];
            let time =
                |place: usize| minutes[place].map_or("--".into(), |minute| told::time(self.sheets[place], minute));
            Moved { name: name.clone(), times: [time(0), time(1)], minutes }
        });
        moved.filter(|moved| moved.times[0] != moved.times[1]).collect()
    }

    /// For the terminal.
    pub fn words(&self) -> String {
        let files = self.reports.map(|report| report.file.as_str());
        let mut text = format!("{} and {}\n\n", files[0], files[1]);
        if self.rules.iter().all(Vec::is_empty) {
            text += "The rules are the same.\n";
        }
        text += &self.hours();
        for (place, rules) in self.rules.iter().enumerate().filter(|(_, rules)| !rules.is_empty()) {
            let _ = writeln!(text, "Only {} has:", files[place]);
            for &rule in rules {
                let state = if self.sheets[place].rules[rule].in_force { "" } else { ", suspended" };
                let _ = writeln!(text, "  {}{state}", told::source(self.sheets[place], Source::Rule(rule)));
            }
        }
        for pair in &self.spans {
            text += &self.span_words(*pair, files);
        }
        text
    }

    /// That opening hours differ, and the moments that keep to them.
    fn hours(&self) -> String {
        let [first, second] = self.sheets;
        let windows = |sheet: &Sheet| -> Vec<(u32, u32)> {
            sheet.week.iter().map(|window| (window.opening, window.closing)).collect()
        };
        let admitted = |sheet: &Sheet| -> BTreeSet<String> {
            sheet.admits.iter().map(|&moment| sheet.moments[moment].name.clone()).collect()
        };
        let day = |sheet: &Sheet| sheet.anchor.map(|anchor| (anchor.day, anchor.minute));
        let mut text = String::new();
        if windows(first) != windows(second) {
            text += "The opening hours behind 'open:' differ.\n";
        }
        if admitted(first) != admitted(second) {
            text += "The moments behind 'admits:' differ.\n";
        }
        if !(first.week.is_empty() && second.week.is_empty()) && day(first) != day(second) {
            text += "The anchors differ in their day or time, and so do the opening hours from there.\n";
        }
        text
    }

    fn span_words(&self, pair: [Option<usize>; 2], files: [&str; 2]) -> String {
        let spans = [0, 1].map(|place| pair[place].map(|span| &self.reports[place].spans[span]));
        let Some(any) = spans[0].or(spans[1]) else { return String::new() };
        let mut text = format!("\nFrom  {}\nTo    {}\n", any.from, any.to);
        let width = files.iter().map(|file| file.chars().count()).max().unwrap_or(0);
        for (place, span) in spans.iter().enumerate() {
            let answer = span.map_or("not asked".into(), answer);
            let _ = writeln!(text, "  {:<width$}  {answer}", files[place]);
        }
        let [Some(first), Some(second)] = spans else { return text };
        if let (Body::Least(one), Body::Least(other)) = (&first.body, &second.body) {
            text += &match other.minutes - one.minutes {
                0 => "The span is the same.\n".to_string(),
                more @ 1.. => format!("The span is longer by {}.\n", told::minutes(more)),
                less => format!("The span is shorter by {}.\n", told::minutes(-less)),
            };
        }
        let moved = self.moved([first, second]);
        match moved.is_empty() {
            true => text += "No moment of the plan moves.\n",
            false => text += &table(&moved, files),
        }
        text
    }

    /// For programs.
    pub fn json(&self) -> String {
        let rules = [0, 1].map(|place| {
            let rules = self.rules[place].iter().map(|&rule| {
                let row = &self.sheets[place].rules[rule];
                object(vec![
                    ("number", Value::Number(rule as i64 + 1)),
                    ("rule", text(&row.text)),
                    ("says", text(shown::rule(&self.sheets[place].moments, row))),
                    ("in_force", Value::True(row.in_force)),
                ])
            });
            Value::List(rules.collect())
        });
        let [first, second] = rules;
        object(vec![
            ("ward", text(env!("CARGO_PKG_VERSION"))),
            ("files", Value::List(self.reports.iter().map(|report| text(&report.file)).collect())),
            ("rules_of_first_alone", first),
            ("rules_of_second_alone", second),
            ("spans", Value::List(self.spans.iter().map(|pair| self.span_json(*pair)).collect())),
        ])
        .lines()
            + "\n"
    }

    fn span_json(&self, pair: [Option<usize>; 2]) -> Value {
        let spans = [0, 1].map(|place| pair[place].map(|span| &self.reports[place].spans[span]));
        let group = |of: fn(&Span) -> &String| spans[0].or(spans[1]).map_or(Value::Null, |span| text(of(span)));
        let verdict = |span: Option<&Span>| span.map_or(Value::Null, |span| text(span.verdict.words()));
        let minute = |minute: Option<i32>| minute.map_or(Value::Null, |minute| Value::Number(minute.into()));
        let moved = match spans {
            [Some(first), Some(second)] => self.moved([first, second]),
            _ => Vec::new(),
        };
        let moved = moved.iter().map(|moved| {
            object(vec![
                ("moment", text(&moved.name)),
                ("first", minute(moved.minutes[0])),
                ("second", minute(moved.minutes[1])),
                ("first_time", text(&moved.times[0])),
                ("second_time", text(&moved.times[1])),
            ])
        });
        object(vec![
            ("from", group(|span| &span.from)),
            ("to", group(|span| &span.to)),
            ("first", verdict(spans[0])),
            ("second", verdict(spans[1])),
            ("moved", Value::List(moved.collect())),
        ])
    }
}

/// An answer in few words.
fn answer(span: &Span) -> String {
    let days = match (by_cases(span), &span.body) {
        (true, Body::Least(_) | Body::None(_)) => " within 14 days of the anchor, with opening hours kept",
        _ => "",
    };
    match &span.body {
        Body::Least(least) => format!("least span {}{days}", told::minutes(least.minutes)),
        _ => format!("{}{days}", span.verdict.words()),
    }
}

/// The moments that move, in columns.
fn table(moved: &[Moved], files: [&str; 2]) -> String {
    let rows: Vec<[&str; 3]> =
        moved.iter().map(|moved| [moved.name.as_str(), &moved.times[0], &moved.times[1]]).collect();
    let heads = ["moment", files[0], files[1]];
    let width = |column: usize| rows.iter().chain([&heads]).map(|row| row[column].chars().count()).max().unwrap_or(0);
    let widths = [0, 1, 2].map(width);
    let line = |row: &[&str; 3]| {
        let [name, first, second] = [0, 1, 2].map(|column| format!("{:<width$}", row[column], width = widths[column]));
        format!("  {name}  {first}  {second}").trim_end().to_string() + "\n"
    };
    let lines: String = rows.iter().map(line).collect();
    format!(
        "These moments move; each plan is one of several that may be, unless a line 'plan:' chooses it:\n{}{lines}",
        line(&heads)
    )
}
