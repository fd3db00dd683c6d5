//! Reports as a sheet: one page of HTML that needs nothing beside it, for a screen or for paper. On paper each span has a first page for
//! the wall, and what is behind it follows; every page has the title, when it was made, and its number.

use std::fmt::Write;

use crate::answer::Report;
use crate::html::{quoted, safe};
use crate::{behind, made, remarked, told, wall};

const STYLE: &str = include_str!("sheet.css");

/// The characters of a title that stand at the top of every printed page.
const TITLE: usize = 120;

/// The page of all reports; for the wall alone it has the first page of each span and nothing behind it.
pub fn all(reports: &[Report], wall: bool) -> String {
    let title = match reports {
        [only] => name(only),
        several => format!("{} texts", several.len()),
    };
    let when = made::now();
    let texts: String = reports.iter().enumerate().map(|(number, report)| text(report, number, wall, &when)).collect();
    let papers: String = reports.iter().enumerate().map(|(number, report)| paper(report, number, &when)).collect();
    format!(
        "<!DOCTYPE html>\n<html lang=\"en\">\n<head>\n<meta charset=\"utf-8\">\n\
         <meta name=\"viewport\" content=\"width=device-width, initial-scale=1\">\n\
         <meta name=\"color-scheme\" content=\"light dark\">\n\
         <meta http-equiv=\"Content-Security-Policy\" content=\"default-src 'none'; style-src 'unsafe-inline'\">\n\
         <title>{}</title>\n<style>\n{STYLE}{papers}</style>\n</head>\n<body>\n<main>\n{texts}</main>\n<footer>\n\
         <p>Made by ward {}, {}. {NOT_PROVED}</p>\n</footer>\n</body>\n</html>\n",
        safe(&title),
        env!("CARGO_PKG_VERSION"),
        safe(&when)
    )
}

/// What a page says of itself.
const NOT_PROVED: &str =
    "Each answer was found by the proved engine and judged by the proved checker; that this page says what their \
                          records hold is not part of the proofs.";

/// What stands at the edges of a text's printed pages.
fn paper(report: &Report, number: usize, when: &str) -> String {
    let mut title: String = name(report).chars().take(TITLE).collect();
    if name(report).chars().count() > TITLE {
        title.push('…');
    }
    let (title, when) = (quoted(&title), quoted(&format!("made {when}")));
    let by = quoted(&format!("ward {}. {NOT_PROVED}", env!("CARGO_PKG_VERSION")));
    format!(
        "@page text{number} {{ @top-left {{ content: {title}; }} @top-right {{ content: {when}; }} @bottom-left {{ content: {by}; }} \
         @bottom-right {{ content: \"page \" counter(page) \" of \" counter(pages); }} }}\n#text{number} {{ page: text{number}; }}\n"
    )
}

/// What a text is called: its title, which a text with mistakes has too, or its file.
fn name(report: &Report) -> String {
    let title = report.lines.first().and_then(|line| ward_reader::title(line));
    title.unwrap_or_else(|| file(report).into())
}

/// A file's name, without its folders.
fn file(report: &Report) -> &str {
    report.file.rsplit('/').next().unwrap_or(&report.file)
}

fn text(report: &Report, number: usize, wall: bool, when: &str) -> String {
    let mut page =
        format!("<section class=\"text\" id=\"text{number}\">\n<header>\n<h1 lang=\"\">{}</h1>\n", safe(&name(report)));
    let anchor = report.sheet.as_ref().filter(|sheet| sheet.anchor.is_some()).map(|sheet| told::time(sheet, 0));
    let anchor = anchor.map_or(String::new(), |time| format!(" · anchor at {time}"));
    let _ = writeln!(
        page,
        "<p class=\"about\">{}{} · made {}</p>\n</header>",
        safe(file(report)),
        safe(&anchor),
        safe(when)
    );
    page += &remarked::of(report);
    if let Some(sheet) = report.sheet.as_ref().filter(|_| report.fault.is_none()) {
        for (number, span) in report.spans.iter().enumerate() {
            let count = report.spans.len();
            let behind = if wall { String::new() } else { behind::of(sheet, number, count, span) };
            page += &format!("<article>\n{}{behind}</article>\n", wall::of(sheet, number, count, span));
        }
        if !wall {
            page += &behind::rules(sheet);
        }
    }
    page + "</section>\n"
}
