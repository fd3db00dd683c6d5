//! A report for the terminal: verdict, plan and timeline of each span.

use std::fmt::Write;

use ward_reader::remark::clean;
use ward_reader::{limits, Remark, Sheet, Weight};

use crate::answer::{Body, Least, Placed, Report, Span};
use crate::kept;
use crate::scale::{bar, drawn, ends, End, Scale};
use crate::told;
use crate::what_if::Trial;

/// How a terminal shows things.
#[derive(Clone, Copy)]
pub struct Look {
    /// Characters in a line.
    pub width: usize,
    /// Signs beyond ASCII.
    pub signs: bool,
    /// Colours.
    pub colour: bool,
}

/// The signs of a timeline.
struct Signs {
    moment: char,
    round: char,
    slack: char,
    before: char,
    after: char,
    further: char,
    mark: char,
    ends: [char; 2],
    span: char,
    together: char,
}

const FULL: Signs = Signs {
    moment: '●',
    round: '◆',
    slack: '░',
    before: '◂',
    after: '▸',
    further: '…',
    mark: '┬',
    ends: ['├', '┤'],
    span: '─',
    together: '│',
};
const PLAIN: Signs = Signs {
    moment: 'O',
    round: '#',
    slack: '.',
    before: '<',
    after: '>',
    further: '~',
    mark: '|',
    ends: ['[', ']'],
    span: '=',
    together: '|',
};

/// The remarks that are shown, in their order, and how many mistakes and warnings more there are.
pub fn shown(report: &Report) -> (Vec<&Remark>, [usize; 2]) {
    let mut counts = [0; 2];
    let shown = report.remarks.iter().filter(|remark| {
        let count = &mut counts[(remark.weight == Weight::Warning) as usize];
        *count += 1;
        *count <= limits::SHOWN
    });
    let shown = shown.collect();
    (shown, counts.map(|count| count.saturating_sub(limits::SHOWN)))
}

/// How many mistakes and warnings are not shown, in words.
pub fn beyond([mistakes, warnings]: [usize; 2]) -> String {
    let more = |number: usize, one: &str, more: &str| (number > 0).then(|| count(number, one, more));
    let more = [more(mistakes, "mistake more", "mistakes more"), more(warnings, "warning more", "warnings more")];
    let more: Vec<String> = more.into_iter().flatten().collect();
    match more.is_empty() {
        true => String::new(),
        false => format!("and {}", more.join(" and ")),
    }
}

/// Mistakes and warnings with their places, in colour where that is asked for.
pub fn remarks(report: &Report, colour: bool) -> String {
    let (shown, more) = shown(report);
    let mut text: String = shown.iter().map(|remark| painted(remark, report, colour)).collect();
    let beyond = beyond(more);
    if !beyond.is_empty() {
        let _ = writeln!(text, "{}: {beyond}", clean(&report.file));
    }
    if let Some(fault) = &report.fault {
        let _ = writeln!(text, "{}: {}", clean(&report.file), clean(&fault.to_string()));
    }
    let mistakes = report.remarks.iter().filter(|remark| remark.weight == Weight::Mistake).count();
    if mistakes > 1 {
        let _ = writeln!(text, "{}: {mistakes} mistakes", clean(&report.file));
    }
    text
}

/// A remark; in colour its word is red or yellow, and so is what stands under its place; what can be written is green.
fn painted(remark: &Remark, report: &Report, colour: bool) -> String {
    let text = remark.in_file(&report.file, &report.lines);
    if !colour {
        return text;
    }
    let (word, paint) = match remark.weight {
        Weight::Mistake => ("mistake", "\x1b[1;31m"),
        Weight::Warning => ("warning", "\x1b[1;33m"),
    };
    let line = |(number, line): (usize, &str)| match number {
        0 => line.replacen(&format!(" {word}: "), &format!(" {paint}{word}:\x1b[0m "), 1),
        2 => match line.find('^') {
            Some(place) => format!("{}{paint}{}\x1b[0m", &line[..place], &line[place..]),
            None => line.to_string(),
        },
        3.. if !line.trim_start().starts_with('=') => format!("\x1b[32m{line}\x1b[0m"),
        _ => line.to_string(),
    };
    text.lines().enumerate().map(line).collect::<Vec<_>>().join("\n") + "\n"
}

/// A few words on a text that was only read.
pub fn checked(report: &Report) -> String {
    match &report.sheet {
        Some(sheet) if report.fault.is_none() => {
            let floor = told::floor(sheet).map_or(String::new(), |floor| floor + "\n");
            format!("{}: no mistake; {}\n{floor}", clean(&report.file), size(sheet))
        }
        _ => String::new(),
    }
}

fn count(number: usize, one: &str, more: &str) -> String {
    format!("{number} {}", if number == 1 { one } else { more })
}

fn size(sheet: &Sheet) -> String {
    if sheet.idle {
        return "an idle day".into();
    }
    let suspended = sheet.rules.iter().filter(|rule| !rule.in_force).count();
    let moments = count(sheet.moments.len() - 1, "moment beside the anchor", "moments beside the anchor");
    let rules = count(sheet.rules.len(), "rule", "rules");
    let spans = count(sheet.questions.len(), "span", "spans");
    match suspended {
        0 => format!("{moments}, {rules}, {spans}"),
        _ => format!("{moments}, {rules} ({suspended} suspended), {spans}"),
    }
}

/// The whole report.
pub fn report(report: &Report, look: Look) -> String {
    let Some(sheet) = report.sheet.as_ref().filter(|_| report.fault.is_none()) else { return String::new() };
    let mut text = match &sheet.title {
        Some(title) => format!("{title}\n{}: {}\n", report.file, size(sheet)),
        None => format!("{}: {}\n", report.file, size(sheet)),
    };
    text.extend(told::floor(sheet).map(|floor| floor + "\n"));
    for (number, span) in report.spans.iter().enumerate() {
        text.push('\n');
        if report.spans.len() > 1 {
            let _ = writeln!(text, "Span {} of {}", number + 1, report.spans.len());
        }
        text += &one(sheet, span, look);
    }
    let line = |line: &str| coloured(clean(line.trim_end()), look.colour);
    text.split('\n').map(line).collect::<Vec<_>>().join("\n")
}

/// A line of a report; in colour what the checker says is green where it accepts, and red where it does not.
fn coloured(line: String, colour: bool) -> String {
    let paint = match () {
        _ if !colour => return line,
        _ if line.starts_with("The checker, which trusts no engine, says: ") => "\x1b[32m",
        _ if line.starts_with("The checker, which trusts no engine, does not") => "\x1b[1;31m",
        _ if line.starts_with("The text expects another answer") => "\x1b[1;33m",
        _ => return line,
    };
    format!("{paint}{line}\x1b[0m")
}

fn one(sheet: &Sheet, span: &Span, look: Look) -> String {
    let mut text =
        format!("From  {}\nTo    {}\n{}\n{}\n", span.from, span.to, told::verdict(span), told::headline(span));
    text.extend(kept::line(sheet, span).map(|line| line + "\n"));
    if let Some(expected) = span.expected.filter(|_| !span.as_expected) {
        let _ = writeln!(text, "The text expects another answer: {expected}");
    }
    match &span.body {
        Body::Least(least) => {
            let Least { plan, start, minutes, chosen, .. } = &**least;
            text.extend(chosen.as_ref().map(|chosen| told::chosen(sheet, chosen) + "\n"));
            let _ = write!(text, "\n{}\n{}", table(sheet, plan), timeline(sheet, plan, Some((*start, *minutes)), look));
        }
        Body::Claim(_, plan) if !plan.is_empty() => {
            let _ = write!(text, "\n{}", table(sheet, plan));
        }
        _ => {}
    }
    for (words, rules) in told::explained(sheet, span) {
        let _ = writeln!(text, "{}{words}", if rules.is_empty() { "" } else { "\n" });
        for rule in told::rules(sheet, &rules) {
            let _ = writeln!(text, "  {rule}");
        }
    }
    text.extend(told::moving(sheet, span).map(|words| format!("{words}\n")));
    if let Body::Least(least) = &span.body {
        text += &what_if(sheet, span, &least.what_if);
        text.extend(told::held_twice(least).map(|words| format!("{words}\n")));
    }
    text.extend(told::nothing_to_ease(span).map(|words| format!("{words}\n")));
    text
}

/// What the span would be without the rules behind it, in columns.
fn what_if(sheet: &Sheet, span: &Span, trials: &[Trial]) -> String {
    if trials.is_empty() {
        return String::new();
    }
    let rows: Vec<Vec<String>> = trials.iter().map(told::then_cells).collect();
    let heads: Vec<String> = ["lifted", "5 min", "10 min", "15 min"].map(String::from).into();
    let width = |column: usize| rows.iter().chain([&heads]).map(|row| row[column].chars().count()).max().unwrap_or(0);
    let widths: Vec<usize> = (0..heads.len()).map(width).collect();
    let line = |cells: &[String], words: &str| {
        let cells = cells.iter().zip(&widths).map(|(cell, &width)| format!("{cell:>width$}"));
        format!("  {}  {words}\n", cells.collect::<Vec<_>>().join("  "))
    };
    let mut text = format!("\n{}\n{}", told::what_if(span), line(&heads, "of what"));
    for (trial, cells) in trials.iter().zip(&rows) {
        text += &line(cells, &told::source(sheet, trial.source));
    }
    text
}

/// The plan in columns.
fn table(sheet: &Sheet, plan: &[Placed]) -> String {
    let timed = plan.iter().any(|placed| placed.moment != 0 && placed.times.is_some());
    let clocked = sheet.anchor.is_some();
    let noted = plan.iter().any(|placed| !told::note(sheet, placed).is_empty());
    let mut rows = vec![heads(clocked, timed, noted)];
    rows.extend(plan.iter().map(|placed| cells(sheet, placed, clocked, timed)));
    let columns = rows[0].len();
    let width = |column: usize| rows.iter().map(|row| row[column].chars().count()).max().unwrap_or(0);
    let widths: Vec<usize> = (0..columns).map(width).collect();
    let mut text = String::new();
    for row in &rows {
        let cells = row.iter().zip(&widths).enumerate().map(|(column, (cell, &width))| match column == 0 {
            true => format!("{cell:>width$}"),
            false => format!("{cell:<width$}"),
        });
        let _ = writeln!(text, "  {}", cells.collect::<Vec<_>>().join("  "));
    }
    text
}

fn heads(clocked: bool, timed: bool, noted: bool) -> Vec<String> {
    let mut heads = vec![if clocked { "time" } else { "after anchor" }, "moment"];
    if clocked {
        heads.push("after anchor");
    }
    if timed {
        heads.extend(["earliest", "latest"]);
    }
    heads.push(if noted { "note" } else { "" });
    heads.into_iter().map(String::from).collect()
}

fn cells(sheet: &Sheet, placed: &Placed, clocked: bool, timed: bool) -> Vec<String> {
    let shown = placed.stamp.filter(|_| !placed.free);
    let blank = || "--".to_string();
    let mut cells = vec![shown.map_or_else(blank, |stamp| told::time(sheet, stamp)), placed.name.clone()];
    if clocked {
        cells.push(shown.map_or_else(blank, told::days));
    }
    if timed {
        let times = placed.times.filter(|_| placed.moment != 0 && !placed.free);
        cells.push(times.map_or(String::new(), |times| told::earliest(sheet, times.earliest)));
        cells.push(times.map_or(String::new(), |times| told::latest(sheet, times.latest)));
    }
    cells.push(told::note(sheet, placed));
    cells
}

/// The plan along a line of time. `span` is its start in the plan, and its minutes.
fn timeline(sheet: &Sheet, plan: &[Placed], span: Option<(i32, i32)>, look: Look) -> String {
    let signs = if look.signs { &FULL } else { &PLAIN };
    let label =
        drawn(plan).map(|(placed, _)| placed.name.chars().count()).max().unwrap_or(0).clamp(4, 24.min(look.width / 3));
    let width = look.width.saturating_sub(label + 6).max(20);
    let scale = Scale::of(sheet, plan, width / 10);
    let column = |minute: i64| (scale.place(minute) * (width - 1) as f64).round() as usize;
    let mut text = axis(sheet, &scale, signs, label, width);
    for (placed, stamp) in drawn(plan) {
        let mut line = vec![' '; width];
        let bar = bar(&scale, placed, stamp);
        line[column(bar.from)..=column(bar.to)].fill(signs.slack);
        for (end, place, sign) in [(bar.before, 0, signs.before), (bar.after, width - 1, signs.after)] {
            match end {
                End::Here => {}
                End::Further => line[place] = signs.further,
                End::NoLimit => line[place] = sign,
            }
        }
        line[column(stamp.into())] = if placed.round { signs.round } else { signs.moment };
        let _ = writeln!(text, "  {}  {}", padded(&placed.name, label), line.into_iter().collect::<String>());
    }
    if let Some((start, minutes)) = span {
        let (from, to) = (i64::from(start), i64::from(start) + i64::from(minutes));
        let (first, last) = (column(from.min(to)), column(from.max(to)));
        let mut line = vec![' '; width];
        line[first..=last].fill(signs.span);
        [line[first], line[last]] = signs.ends;
        if first == last {
            line[first] = signs.together;
        }
        let _ = writeln!(text, "  {}  {}", padded("span", label), line.into_iter().collect::<String>());
    }
    text + &legend(plan, signs, ends(&scale, plan), (label, look.width))
}

/// What the signs mean, on a line or on several.
fn legend(plan: &[Placed], signs: &Signs, [before, after]: [Vec<End>; 2], (label, width): (usize, usize)) -> String {
    let mut items = vec![format!("{} planned", signs.moment)];
    if plan.iter().any(|placed| placed.round) {
        items.push(format!("{} planned, and of the chain", signs.round));
    }
    if plan.iter().any(|placed| placed.times.is_some()) {
        items.push(format!("{} where it can be", signs.slack));
    }
    let open =
        [(&before, signs.before), (&after, signs.after)].map(|(ends, sign)| (ends.contains(&End::NoLimit), sign));
    let open: Vec<String> = open.iter().filter(|(open, _)| *open).map(|(_, sign)| sign.to_string()).collect();
    if !open.is_empty() {
        items.push(format!("{} no limit", open.join(" ")));
    }
    if before.iter().chain(&after).any(|end| *end == End::Further) {
        items.push(format!("{} further than is shown", signs.further));
    }
    let margin = format!("  {}  ", padded("", label));
    let mut lines: Vec<String> = Vec::new();
    for item in items {
        let room = |line: &String| line.chars().count() + 3 + item.chars().count() <= width;
        match lines.last_mut().filter(|line| room(line)) {
            Some(line) => *line += &format!("   {item}"),
            None => lines.push(format!("{margin}{item}")),
        }
    }
    lines.join("\n") + "\n"
}

/// A name in a column; a long one is cut.
fn padded(name: &str, width: usize) -> String {
    let length = name.chars().count();
    match length > width {
        true => format!("{}..", name.chars().take(width - 2).collect::<String>()),
        false => format!("{name}{}", " ".repeat(width - length)),
    }
}

/// The times above a timeline, and a line of marks.
fn axis(sheet: &Sheet, scale: &Scale, signs: &Signs, label: usize, width: usize) -> String {
    let mut times = vec![' '; width];
    let mut marks = vec![' '; width];
    let mut free = 0;
    for &mark in &scale.marks {
        let column = (scale.place(mark.into()) * (width - 1) as f64).round() as usize;
        let time: Vec<char> = told::tick(sheet, mark, scale.step).chars().collect();
        marks[column] = signs.mark;
        // A time starts at its mark, or ends there at the end of the line; one that has no room is left out.
        let start = if column + time.len() <= width { column } else { (column + 1).saturating_sub(time.len()) };
        if start >= free && start + time.len() <= width {
            times[start..start + time.len()].copy_from_slice(&time);
            free = start + time.len() + 1;
        }
    }
    let line = |part: Vec<char>| format!("  {}  {}\n", padded("", label), part.into_iter().collect::<String>());
    line(times) + &line(marks)
}

#[cfg(test)]
mod tests {
    use super::*;
    use crate::answer::Wishes;

    fn report(text: &str) -> Report {
        let mut report = Report::read("day.txt", text.as_bytes());
        report.answer(Wishes::of(false));
        report
    }

    /// Without its colours a text is the one without colours.
    #[test]
    fn colours_change_no_word() {
        let bare = |text: &str| {
            let parts = text.split('\x1b').enumerate();
            parts
                .map(|(number, part)| if number == 0 { part } else { part.split_once('m').expect("a colour").1 })
                .collect::<String>()
        };
        let wrong = report("moments: a\na < a\nb <= a\nspan: from anchor to a\n");
        let painted = remarks(&wrong, true);
        assert!(painted.contains("\x1b[1;31mmistake:\x1b[0m") && painted.contains("\x1b[32m"), "{painted}");
        assert_eq!(bare(&painted), remarks(&wrong, false));
        let good = report("moments: a\nanchor + 5 <= a\nspan: from anchor to a\nexpect: least 4\n");
        let look = |colour: bool| Look { width: 80, signs: true, colour };
        let painted = super::report(&good, look(true));
        assert_eq!(painted.matches('\x1b').count(), 4, "{painted}");
        assert_eq!(bare(&painted), super::report(&good, look(false)));
    }

    #[test]
    fn twenty_mistakes_are_shown_and_the_rest_is_counted() {
        let text = |count: usize| format!("moments: a\n{}span: from anchor to a\n", "a < a\n".repeat(count));
        for (count, shown, end) in
            [(20, 20, "day.txt: 20 mistakes\n"), (57, 20, "day.txt: and 37 mistakes more\nday.txt: 57 mistakes\n")]
        {
            let told = remarks(&report(&text(count)), false);
            assert_eq!(told.matches(": mistake: ").count(), shown);
            assert!(told.ends_with(end), "{told}");
        }
        assert!(remarks(&report(&text(21)), false).contains("day.txt: and 1 mistake more\n"));
    }
}
