//! The first page of a span, for the wall: what is asked, the answer, and the plan along a line of time, with a box to tick for each
//! moment. What is behind it stands elsewhere.

use std::fmt::Write;

use ward_reader::Sheet;

use crate::answer::{Body, Least, Placed, Span, Verdict};
use crate::chart::Chart;
use crate::html::safe;
use crate::opening::Door;
use crate::{kept, told};

pub fn of(sheet: &Sheet, number: usize, count: usize, span: &Span) -> String {
    let heading = match count {
        1 => "<h2 class=\"only\">Span</h2>".to_string(),
        _ => format!("<h2>Span {} of {count}</h2>", number + 1),
    };
    let mut page = format!("<section class=\"wall\">\n{heading}\n");
    let _ = writeln!(
        page,
        "<dl class=\"groups\"><dt>from</dt><dd lang=\"\">{}</dd><dt>to</dt><dd lang=\"\">{}</dd></dl>",
        safe(&span.from),
        safe(&span.to)
    );
    page += &result(span);
    page += &verdict(sheet, span);
    match &span.body {
        Body::Least(least) => page += &plan(sheet, least),
        Body::Claim(_, plan) if !plan.is_empty() => {
            page += "<h3>The plan that it claims</h3>\n";
            page += &bare(sheet, plan);
        }
        _ => {}
    }
    page + "</section>\n"
}

/// The main thing, large.
fn result(span: &Span) -> String {
    let (class, large, words) = match &span.body {
        Body::Least(least) => {
            let (large, other) = large(least.minutes);
            ("result", large, format!("{other}is the least span. {}", told::no_smaller(span)))
        }
        Body::Bottomless(_) => {
            ("result none", "Bottomless".into(), format!("Whatever span you name, {}", told::some_smaller(span)))
        }
        Body::None(_) => ("result none", "None".into(), capital(&told::no_span(span))),
        Body::Stopped(_) => ("result none", "No answer".into(), "The opening hours could not be kept.".into()),
        Body::Claim(words, _) => ("result none", "Not accepted".into(), words.clone()),
    };
    format!("<p class=\"{class}\"><strong>{}</strong> <span>{}</span></p>\n", safe(&large), safe(&words))
}

/// A span large, and in its other form.
fn large(minutes: i32) -> (String, String) {
    match minutes.abs() {
        0..60 => (format!("{minutes} min"), String::new()),
        60..1_440 => (format!("{minutes} min"), format!("({}) ", told::days(minutes))),
        _ => (told::days(minutes), format!("({minutes} min) ")),
    }
}

fn capital(words: &str) -> String {
    let mut letters = words.chars();
    letters.next().map_or(String::new(), |first| first.to_uppercase().collect::<String>() + letters.as_str())
}

/// What the checker says, what there is to say of opening hours and of the choice of the plan, and what the text expects where it is
/// something else. Only a plan has a tick.
fn verdict(sheet: &Sheet, span: &Span) -> String {
    let (class, sign) = match (&span.verdict, &span.body) {
        (Verdict::Accepted(_), Body::Least(_)) => ("verdict", "<span aria-hidden=\"true\">✓</span> "),
        (Verdict::NotAccepted(_), _) => ("verdict no", "<span aria-hidden=\"true\">✗</span> "),
        (Verdict::Stopped, _) => ("verdict no", ""),
        _ => ("verdict", ""),
    };
    let mut page = format!("<p class=\"{class}\">{sign}{}</p>\n", safe(&told::verdict(span)));
    let mut more = |class: &str, words: String| {
        let _ = writeln!(page, "<p class=\"{class}\">{}</p>", safe(&words));
    };
    if let Some(words) = kept::line(sheet, span) {
        more("hours", words);
    }
    if let Body::Least(least) = &span.body {
        if let Some(chosen) = &least.chosen {
            more("chosen", told::chosen(sheet, chosen));
        }
    }
    if let Some(expected) = span.expected.filter(|_| !span.as_expected) {
        more("warn", format!("The text expects another answer: {expected}"));
    }
    page
}

/// The plan along a line of time.
fn plan(sheet: &Sheet, least: &Least) -> String {
    let Least { plan, start, minutes, .. } = least;
    let chart = Chart::of(sheet, plan, *start, *minutes);
    let size = match plan.len() {
        0..15 => "",
        15..22 => " many",
        _ => " most",
    };
    let wordy = if chart.wordy() { " wordy" } else { "" };
    let mut page = format!(
        "<table class=\"plan{size}{wordy}\">\n<caption>The plan, in the order of time</caption>\n<thead><tr><td class=\"tick\"></td>\
         <th scope=\"col\" class=\"time\">{}</th><th scope=\"col\">Moment</th><th scope=\"col\" class=\"bar\">\
         <span class=\"hidden\">Timeline</span>{}</th></tr></thead>\n<tbody>\n",
        head(sheet),
        chart.axis()
    );
    for placed in plan {
        page += &row(sheet, placed, &chart.row(placed));
    }
    let _ = writeln!(
        page,
        "<tr class=\"span\"><td class=\"tick\"></td><td class=\"time\"></td><th scope=\"row\" class=\"name\">span</th>\
         <td class=\"bar\">{}</td></tr>",
        chart.span()
    );
    format!("{page}</tbody>\n</table>\n<p class=\"legend\">{}</p>\n", chart.legend(plan))
}

/// What the column of times is called.
fn head(sheet: &Sheet) -> &'static str {
    if sheet.anchor.is_some() {
        "Time"
    } else {
        "After the anchor"
    }
}

fn row(sheet: &Sheet, placed: &Placed, drawing: &str) -> String {
    let shown = placed.stamp.filter(|_| !placed.free);
    let time = shown.map_or("--".into(), |stamp| told::dated(sheet, stamp));
    let tick = if shown.is_some() && placed.moment != 0 { "<span></span>" } else { "" };
    let note = match (placed.free, placed.stamp, placed.door) {
        (true, ..) => "free",
        (_, None, _) => "left out",
        (_, _, Some(Door::Shut { .. })) => "shut",
        _ => "",
    };
    let note = if note.is_empty() { String::new() } else { format!(" <small>{note}</small>") };
    format!(
        "<tr><td class=\"tick\">{tick}</td><td class=\"time\">{}</td><th scope=\"row\" class=\"name\"><span lang=\"\">{}</span>{note}</th>\
         <td class=\"bar\">{drawing}</td></tr>\n",
        safe(&time),
        safe(&placed.name)
    )
}

/// A plan without a timeline, which a record claims.
fn bare(sheet: &Sheet, plan: &[Placed]) -> String {
    let mut page = format!(
        "<table class=\"plan\">\n<caption>In the order of time</caption>\n<thead><tr><td class=\"tick\"></td>\
         <th scope=\"col\" class=\"time\">{}</th><th scope=\"col\">Moment</th></tr></thead>\n<tbody>\n",
        head(sheet)
    );
    for placed in plan {
        page += &row(sheet, placed, "").replace("<td class=\"bar\"></td>", "");
    }
    page + "</tbody>\n</table>\n"
}
