//! Mistakes and warnings on a sheet, each with its line and the part that is meant.

use ward_reader::{Remark, Weight};

use crate::answer::Report;
use crate::html::safe;
use crate::terminal;

/// The characters of a long line that are shown on either side of the part that is meant.
const AROUND: usize = 90;

pub fn of(report: &Report) -> String {
    let mut items: Vec<String> =
        report.fault.iter().map(|fault| format!("<li>{}</li>\n", safe(&fault.to_string()))).collect();
    let (shown, more) = terminal::shown(report);
    items.extend(shown.into_iter().map(|remark| item(report, remark)));
    let beyond = terminal::beyond(more);
    if !beyond.is_empty() {
        items.push(format!("<li>{}</li>\n", safe(&beyond)));
    }
    match items.is_empty() {
        true => String::new(),
        false => format!("<ul class=\"remarks\">\n{}</ul>\n", items.concat()),
    }
}

fn item(report: &Report, remark: &Remark) -> String {
    let Remark { weight, place, message, hint, fixes } = remark;
    let word = if *weight == Weight::Mistake { "mistake" } else { "warning" };
    let mut hint = hint.as_ref().map_or(String::new(), |hint| format!("<span class=\"hint\">{}</span>", safe(hint)));
    for fix in fixes {
        let lines: String = fix.lines.iter().map(|line| format!("<code>{}</code>", safe(line))).collect();
        hint += &format!("<span class=\"hint\">{}:</span>{lines}", safe(&remark.lead(fix)));
    }
    format!(
        "<li><strong>Line {}, column {}, {word}:</strong> {}<code>{}</code>{hint}</li>\n",
        place.line,
        place.column,
        safe(message),
        line(report, remark)
    )
}

/// The line of a remark, with its part marked; of a long line what stands around it.
fn line(report: &Report, Remark { place, .. }: &Remark) -> String {
    let line: Vec<char> = report.lines.get(place.line - 1).map_or(Vec::new(), |line| line.chars().collect());
    let end = line.len();
    let part = |from: usize, to: usize| safe(&line[from.min(end)..to.min(end)].iter().collect::<String>());
    let (from, to) = (place.column - 1, place.column - 1 + place.width);
    let (first, last) = (from.saturating_sub(AROUND), (to + AROUND).min(end));
    format!(
        "{}{}<mark>{}</mark>{}{}",
        if first > 0 { "…" } else { "" },
        part(first, from),
        part(from, to),
        part(to, last),
        if last < end { "…" } else { "" }
    )
}
