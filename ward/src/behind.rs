//! What is behind an answer, on the pages behind the one for the wall: how far moments can move, the rules that hold the span up, what
//! each of them costs, and all rules.

use std::fmt::Write;

use ward_reader::Sheet;

use crate::answer::{Body, Placed, Span};
use crate::html::safe;
use crate::laws::Source;
use crate::opening::Door;
use crate::told;
use crate::what_if::Trial;

/// Rules with more characters than this stand below each other, and not in two columns.
const LONG: usize = 90;

pub fn of(sheet: &Sheet, number: usize, count: usize, span: &Span) -> String {
    let mut page = String::new();
    if let Body::Least(least) = &span.body {
        page += &moving(sheet, &least.plan, told::moving(sheet, span));
    }
    page += &explained(sheet, span);
    if let Body::Least(least) = &span.body {
        page += &what_if(sheet, span, &least.what_if);
        page.extend(told::held_twice(least).map(|words| format!("<p>{words}</p>\n")));
    }
    page.extend(told::nothing_to_ease(span).map(|words| format!("<p>{words}</p>\n")));
    let heading = if count == 1 {
        "What is behind it".to_string()
    } else {
        format!("What is behind span {} of {count}", number + 1)
    };
    match page.is_empty() {
        true => page,
        false => format!("<section class=\"behind\">\n<h2>{heading}</h2>\n{page}</section>\n"),
    }
}

/// From when to when each moment can be, and what else there is to say of it.
fn moving(sheet: &Sheet, plan: &[Placed], caption: Option<String>) -> String {
    let timed = plan.iter().any(|placed| placed.moment != 0 && placed.times.is_some());
    let noted = plan.iter().any(|placed| !told::note(sheet, placed).is_empty());
    let clocked = sheet.anchor.is_some();
    if !timed && !noted {
        return String::new();
    }
    let mut heads = vec!["Moment"];
    heads.extend(timed.then_some(["Earliest", "Latest"]).into_iter().flatten());
    heads.extend(clocked.then_some("Planned after the anchor"));
    heads.extend(noted.then_some("Note"));
    let caption = safe(&caption.unwrap_or("Nothing can move at this span.".into()));
    let title = if timed { "How far moments can move" } else { "Notes on the plan" };
    let caption =
        if timed { format!("<caption>{caption}</caption>") } else { "<caption>At the planned times</caption>".into() };
    let mut page = format!("<h3>{title}</h3>\n<table>\n{caption}\n<thead><tr>");
    heads.iter().for_each(|head| page += &format!("<th scope=\"col\">{head}</th>"));
    page += "</tr></thead>\n<tbody>\n";
    for placed in plan.iter().filter(|placed| placed.moment != 0) {
        page += &line(sheet, placed, clocked, timed, noted);
    }
    page + "</tbody>\n</table>\n"
}

fn line(sheet: &Sheet, placed: &Placed, clocked: bool, timed: bool, noted: bool) -> String {
    let shown = placed.stamp.filter(|_| !placed.free);
    let mut page = format!("<tr><th scope=\"row\" class=\"name\" lang=\"\">{}</th>", safe(&placed.name));
    let mut at = |class: &str, words: String| {
        let _ = write!(page, "<td class=\"at\" data-head=\"{class}\">{}</td>", safe(&words));
    };
    if timed {
        let times = placed.times.filter(|_| !placed.free);
        at("earliest", times.map_or(String::new(), |times| told::earliest(sheet, times.earliest)));
        at("latest", times.map_or(String::new(), |times| told::latest(sheet, times.latest)));
    }
    if clocked {
        at("after the anchor", shown.map_or(String::new(), told::days));
    }
    if noted {
        let shut = if matches!(placed.door, Some(Door::Shut { .. })) { " shut" } else { "" };
        let _ = write!(page, "<td class=\"note{shut}\">{}</td>", safe(&told::note(sheet, placed)));
    }
    page + "</tr>\n"
}

fn explained(sheet: &Sheet, span: &Span) -> String {
    let mut page = String::new();
    let steps = match &span.body {
        Body::Least(least) => least.reasons.as_ref().map_or(&[][..], |reasons| &reasons.steps),
        _ => &[],
    };
    for (words, rules) in told::explained(sheet, span) {
        let _ = writeln!(page, "<p>{}</p>", safe(&words));
        if !rules.is_empty() {
            page += "<ul class=\"rules\">\n";
            for listed in &rules {
                let of_chain = steps.contains(&Some(listed.source));
                page += &format!("<li>{}</li>\n", rule(sheet, listed, of_chain));
            }
            page += "</ul>\n";
        }
    }
    match page.is_empty() {
        true => page,
        false => format!("<h3>Why</h3>\n{page}"),
    }
}

/// A rule, its number and line, what it does, and whether the chain runs over it.
fn rule(sheet: &Sheet, told::Listed { source, role }: &told::Listed, of_chain: bool) -> String {
    let Source::Rule(place) = source else { return safe(&told::source(sheet, *source)) };
    let rule = &sheet.rules[*place];
    let chain = if of_chain { ", of the chain" } else { "" };
    let role = if role.is_empty() { String::new() } else { format!(": {}", safe(role)) };
    let words = safe(&told::words(sheet, *place));
    format!("{words} <span class=\"line\">rule {}, line {}{chain}{role}</span>", place + 1, rule.place.line)
}

/// What the span would be without the rules behind it.
fn what_if(sheet: &Sheet, span: &Span, trials: &[Trial]) -> String {
    if trials.is_empty() {
        return String::new();
    }
    let mut page =
        format!("<h3>What if</h3>\n<table class=\"trials\">\n<caption>{}</caption>\n<thead><tr>", told::what_if(span));
    for head in ["Of what", "lifted", "5 min", "10 min", "15 min"] {
        let _ = write!(page, "<th scope=\"col\">{head}</th>");
    }
    page += "</tr></thead>\n<tbody>\n";
    for trial in trials {
        let _ = write!(page, "<tr><th scope=\"row\" class=\"name\">{}</th>", safe(&told::brief(sheet, trial.source)));
        for (head, cell) in ["lifted", "5 min", "10 min", "15 min"].iter().zip(told::then_cells(trial)) {
            let _ = write!(page, "<td class=\"at\" data-head=\"{head}\">{}</td>", safe(&cell));
        }
        page += "</tr>\n";
    }
    page + "</tbody>\n</table>\n"
}

/// All rules, at the end.
pub fn rules(sheet: &Sheet) -> String {
    let mut page = String::new();
    if !sheet.rules.is_empty() {
        let long = (0..sheet.rules.len()).any(|place| told::words(sheet, place).chars().count() > LONG);
        let _ = writeln!(page, "<h3>Rules</h3>\n<ol class=\"rules{}\">", if long { " long" } else { "" });
        for (place, row) in sheet.rules.iter().enumerate() {
            let words = safe(&told::words(sheet, place));
            let words = match row.in_force {
                true => words,
                false => format!("<span class=\"suspended\">{words}</span> <span class=\"line\">suspended</span>"),
            };
            let _ = writeln!(page, "<li>{words}</li>");
        }
        page += "</ol>\n";
    }
    page.extend(told::floor(sheet).map(|floor| format!("<p>{}</p>\n", safe(&floor))));
    match page.is_empty() {
        true => page,
        false => format!("<section class=\"all\">\n{page}</section>\n"),
    }
}
