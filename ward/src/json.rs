//! Reports as JSON: one object with a list of files, or a line a file. `docs/ward.schema.json` tells every field; each has one type, and
//! is null or an empty list where there is nothing to tell.

use span::Outcome;
use ward_reader::clock::{Window, DAY, DAYS};
use ward_reader::remark::Fix;
use ward_reader::sheet::{Origin, Row};
use ward_reader::{calendar, record, shown, Remark, Sheet, Weight};

use crate::answer::{Body, Kept, Least, Placed, Report, Span, Verdict};
use crate::archive::hours;
use crate::choice::{Chosen, Place};
use crate::kept::by_cases;
use crate::laws::Source;
use crate::opening::{Door, Fits};
use crate::reasons::Reasons;
use crate::times::Bound;
use crate::value::{object, text, Value};
use crate::what_if::{Then, Trial, EASED};
use crate::why::{Blocked, Never};
use crate::{rule_words, told};

use Value::{List, Null, Number, True};

/// All reports.
pub fn all(reports: &[Report]) -> String {
    let files = List(reports.iter().map(|report| object(file(report))).collect());
    object(vec![("ward", text(env!("CARGO_PKG_VERSION"))), ("files", files)]).lines() + "\n"
}

/// A report on a line of its own.
pub fn line(report: &Report) -> String {
    let mut fields = vec![("ward", text(env!("CARGO_PKG_VERSION")))];
    fields.extend(file(report));
    object(fields).line() + "\n"
}

fn or_null<T>(value: Option<T>, told: impl Fn(T) -> Value) -> Value {
    value.map_or(Null, told)
}

fn number(value: impl Into<i64>) -> Value {
    Number(value.into())
}

fn texts(words: impl IntoIterator<Item = String>) -> Value {
    List(words.into_iter().map(text).collect())
}

fn names(sheet: &Sheet, moments: &[usize]) -> Value {
    texts(moments.iter().map(|&moment| sheet.moments[moment].name.clone()))
}

fn file(report: &Report) -> Vec<(&'static str, Value)> {
    let of =
        |weight: Weight| List(report.remarks.iter().filter(|remark| remark.weight == weight).map(remark).collect());
    let empty = Sheet::new();
    let (sheet, there) = report.sheet.as_ref().map_or((&empty, false), |sheet| (sheet, true));
    let problems = if there { record::sent(sheet) } else { Vec::new() };
    let moments: Vec<usize> = (0..if there { sheet.moments.len() } else { 0 }).collect();
    let wishes = sheet
        .wishes
        .iter()
        .map(|wish| object(vec![("moment", text(&sheet.moments[wish.moment].name)), ("way", text(wish.way.word()))]));
    vec![
        ("file", text(&report.file)),
        ("fault", or_null(report.fault.as_ref(), |fault| text(fault.to_string()))),
        ("mistakes", of(Weight::Mistake)),
        ("warnings", of(Weight::Warning)),
        ("title", or_null(sheet.title.as_ref(), text)),
        ("moments", names(sheet, &moments)),
        ("anchor", anchor(sheet)),
        ("open", List(sheet.week.iter().map(window).collect())),
        ("admits", names(sheet, &sheet.admits)),
        ("plan_wishes", List(wishes.collect())),
        ("rules", List(sheet.rules.iter().enumerate().map(|(place, row)| rule(sheet, place, row)).collect())),
        ("problems", texts(problems.iter().map(|bytes| record::hex(bytes)))),
        ("spans", List(report.spans.iter().enumerate().map(|(number, span)| one(sheet, number, span)).collect())),
    ]
}

fn anchor(sheet: &Sheet) -> Value {
    or_null(sheet.anchor, |anchor| {
        object(vec![
            ("day", or_null(anchor.day, |day| text(DAYS[day]))),
            ("date", or_null(anchor.date, |date| text(calendar::written(date)))),
            ("time", text(hours(anchor.minute))),
        ])
    })
}

/// A window of the opening hours, with its minutes from Monday 0:00.
fn window(window: &Window) -> Value {
    let day = window.opening as i32 / DAY;
    let time = |minute: u32| text(hours(minute as i32 - day * DAY));
    object(vec![
        ("day", text(DAYS[day as usize])),
        ("opens", time(window.opening)),
        ("closes", time(window.closing)),
        ("opening", number(window.opening)),
        ("closing", number(window.closing)),
    ])
}

fn rule(sheet: &Sheet, place: usize, row: &Row) -> Value {
    object(vec![
        ("number", Number(place as i64 + 1)),
        ("line", Number(row.place.line as i64)),
        ("rule", text(&row.text)),
        ("says", text(shown::rule(&sheet.moments, row))),
        ("words", or_null(rule_words::words(sheet, row), text)),
        ("added", True(row.origin == Origin::Floor)),
        ("in_force", True(row.in_force)),
    ])
}

fn remark(remark: &Remark) -> Value {
    object(vec![
        ("line", Number(remark.place.line as i64)),
        ("column", Number(remark.place.column as i64)),
        ("message", text(&remark.message)),
        ("hint", or_null(remark.hint.as_ref(), text)),
        ("readings", List(remark.fixes.iter().map(reading).collect())),
    ])
}

/// Lines that can be written in place of a mistaken one.
fn reading(fix: &Fix) -> Value {
    object(vec![("says", text(&fix.says)), ("lines", texts(fix.lines.clone()))])
}

/// An answer: its class, and its minutes where it is least.
fn outcome(outcome: Option<Outcome>) -> (Value, Value) {
    match outcome {
        Some(Outcome::Least(minutes)) => (text("least"), number(minutes)),
        Some(Outcome::Bottomless) => (text("bottomless"), Null),
        Some(Outcome::NoPlan) => (text("none"), Null),
        None => (Null, Null),
    }
}

fn one(sheet: &Sheet, place: usize, span: &Span) -> Value {
    let answer = match span.verdict {
        Verdict::Accepted(answer) | Verdict::Cases(answer, _) => Some(answer),
        _ => None,
    };
    let (class, minutes) = outcome(answer);
    let least = match answer {
        Some(Outcome::Least(minutes)) => Some(minutes),
        _ => None,
    };
    let mut fields = vec![
        ("number", Number(place as i64 + 1)),
        ("from", text(&span.from)),
        ("to", text(&span.to)),
        ("verdict", text(span.verdict.words())),
        ("accepted", True(answer.is_some())),
        ("class", class),
        ("span", minutes),
        ("span_hours", or_null(least, |minutes| text(hours(minutes)))),
        ("span_words", or_null(least, |minutes| text(told::length(minutes)))),
        ("expected", or_null(span.expected, |expected| text(expected.to_string()))),
        ("as_expected", True(span.as_expected)),
        ("problem", text(record::hex(&span.problem))),
        ("answer", text(record::hex(&span.record))),
        ("opening_hours", or_null(span.kept.as_ref(), |kept| self::kept(sheet, span, kept))),
    ];
    fields.extend(body(sheet, span));
    object(fields)
}

/// Opening hours that were kept, and what the answer rests on.
fn kept(sheet: &Sheet, span: &Span, kept: &Kept) -> Value {
    let (class, minutes) = outcome(Some(kept.alone));
    object(vec![
        ("moments", names(sheet, &kept.moments)),
        ("cases", Number(kept.cases as i64)),
        ("by_cases", True(by_cases(span))),
        ("days", Number(14)),
        ("class_without", class),
        ("span_without", minutes),
        ("problem_without", text(record::hex(&kept.problem))),
        ("answer_without", text(record::hex(&kept.answer))),
    ])
}

fn numbers(places: impl IntoIterator<Item = usize>) -> Value {
    List(places.into_iter().map(|place| Number(place as i64 + 1)).collect())
}

/// The rules among some, by their numbers, and the moments among them whose hours count.
fn split(sheet: &Sheet, sources: &[Source]) -> (Value, Value) {
    let rules = sources.iter().filter_map(|source| match source {
        Source::Rule(place) => Some(*place),
        _ => None,
    });
    let hours = sources.iter().filter_map(|source| match source {
        Source::Hours(moment) => Some(*moment),
        _ => None,
    });
    (numbers(rules), names(sheet, &hours.collect::<Vec<_>>()))
}

fn body(sheet: &Sheet, span: &Span) -> Vec<(&'static str, Value)> {
    let least = match &span.body {
        Body::Least(least) => Some(&**least),
        _ => None,
    };
    let mut fields = of_least(sheet, span, least);
    let (late, early) = match &span.body {
        Body::Bottomless(loose) => (&loose.late[..], &loose.early[..]),
        _ => (&[][..], &[][..]),
    };
    fields.extend([("no_latest", names(sheet, late)), ("no_earliest", names(sheet, early))]);
    let blocked = match &span.body {
        Body::None(blocked) => Some(blocked),
        _ => None,
    };
    fields.extend(behind(sheet, span, least, blocked));
    let (claim, plan) = match &span.body {
        Body::Claim(words, plan) => (Some(words), &plan[..]),
        _ => (None, &[][..]),
    };
    let plan = List(plan.iter().map(|placed| moment(sheet, placed)).collect());
    fields.extend([("claim", or_null(claim, text)), ("claimed_plan", plan)]);
    fields
}

fn of_least(sheet: &Sheet, span: &Span, least: Option<&Least>) -> Vec<(&'static str, Value)> {
    let plan = least.map_or(&[][..], |least| &least.plan);
    let cannot = least.and_then(|least| least.slack.cannot.as_ref());
    let never = least.map_or(&[][..], |least| &least.never);
    let one = |never: &Never| {
        let rules = numbers(never.rules.iter().map(|part| part.rule));
        object(vec![("moment", text(&sheet.moments[never.moment].name)), ("rules", rules)])
    };
    let chosen = least.and_then(|least| least.chosen.as_ref());
    let judged = chosen.and_then(|chosen| chosen.judged.as_ref());
    let trials = least.map_or(&[][..], |least| &least.what_if);
    vec![
        ("plan", List(plan.iter().map(|placed| moment(sheet, placed)).collect())),
        ("notes", texts(told::notes(sheet, span))),
        (
            "no_times",
            or_null(cannot, |cannot| {
                object(vec![("moments", names(sheet, &cannot.moments)), ("why", text(cannot.why))])
            }),
        ),
        ("no_plan_has", List(never.iter().map(one).collect())),
        ("chosen", List(chosen.map_or(Vec::new(), |chosen| wishes(sheet, chosen)))),
        ("chosen_problem", or_null(judged, |judged| text(record::hex(&judged.problem)))),
        ("chosen_answer", or_null(judged, |judged| text(record::hex(&judged.answer)))),
        ("what_if", List(trials.iter().map(|trial| what_if(sheet, trial)).collect())),
    ]
}

fn wishes(sheet: &Sheet, chosen: &Chosen) -> Vec<Value> {
    let one = |(wish, place): &(ward_reader::sheet::Wish, Place)| {
        let (found, minute) = match place {
            Place::At(minute) | Place::Within(minute) => ("at", number(*minute)),
            Place::NoLimit => ("no limit", Null),
            Place::Never => ("never", Null),
            Place::NotTold(_) => ("not told", Null),
        };
        object(vec![
            ("moment", text(&sheet.moments[wish.moment].name)),
            ("way", text(wish.way.word())),
            ("found", text(found)),
            ("minute", minute),
            ("by_cases", True(matches!(place, Place::Within(_)))),
        ])
    };
    chosen.wishes.iter().map(one).collect()
}

fn what_if(sheet: &Sheet, trial: &Trial) -> Value {
    let then = |then: &Then| {
        let (class, minutes) = outcome(then.ok());
        object(vec![("class", class), ("span", minutes)])
    };
    let (rule, hours) = match trial.source {
        Source::Rule(place) => (Number(place as i64 + 1), Null),
        Source::Hours(moment) => (Null, text(&sheet.moments[moment].name)),
        Source::Added => (Null, Null),
    };
    let eased =
        trial.eased.iter().zip(EASED).map(|(eased, minutes)| {
            object(vec![("minutes", number(minutes)), ("then", or_null(eased.as_ref(), then))])
        });
    object(vec![("rule", rule), ("hours_of", hours), ("lifted", then(&trial.lifted)), ("eased", List(eased.collect()))])
}

/// What the pick table of an answer names where there is none. Where that rests on several cases, no one table does.
fn own_table(span: &Span) -> Reasons {
    let none = matches!(span.verdict, Verdict::Accepted(Outcome::NoPlan));
    let named = span::reasons(&span.problem, &span.record).ok().filter(|_| none);
    let rules = named.map_or(Vec::new(), |named| named.rules);
    Reasons { rules: rules.iter().map(|number| Source::Rule(number - 1)).collect(), ..Reasons::default() }
}

/// What is behind a least span, or behind there being none.
fn behind(sheet: &Sheet, span: &Span, least: Option<&Least>, blocked: Option<&Blocked>) -> Vec<(&'static str, Value)> {
    let own = own_table(span);
    let reasons = least.and_then(|least| least.reasons.as_ref()).unwrap_or(&own);
    let step = |step: &Option<Source>| match step {
        Some(Source::Rule(place)) => Number(*place as i64 + 1),
        _ => Null,
    };
    let (why, parts, shut) = match blocked {
        Some(Blocked::FromNothing) => (Some("from nothing"), &[][..], &[][..]),
        Some(Blocked::Contradiction(rules)) => (Some("contradiction"), &rules[..], &[][..]),
        Some(Blocked::StartLeftOut(rules)) => (Some("start left out"), &rules[..], &[][..]),
        Some(Blocked::Shut(grounds)) => (Some("shut"), &[][..], &grounds.needed[..]),
        None => (None, &[][..], &[][..]),
    };
    let mut needed = least.map_or(Vec::new(), |least| least.grounds.needed.clone());
    needed.extend(shut.iter().copied().chain(parts.iter().map(|part| Source::Rule(part.rule))));
    let (rules, hours) = split(sheet, &needed);
    let (picked, _) = split(sheet, &reasons.rules);
    vec![
        ("why", or_null(why, text)),
        ("rules_behind", picked),
        ("rules_needed", rules),
        ("hours_needed", hours),
        ("roles", texts(parts.iter().map(|part| told::role(sheet, *part)))),
        ("round", names(sheet, &reasons.round)),
        ("round_rules", List(reasons.steps.iter().map(step).collect())),
    ]
}

fn moment(sheet: &Sheet, placed: &Placed) -> Value {
    let stamp = placed.stamp.filter(|_| !placed.free);
    let bound = |bound: Option<Bound>| match bound {
        Some(Bound::At(minute)) => (number(minute), text("at")),
        Some(Bound::Open) => (Null, text("no limit")),
        Some(Bound::Never) => (Null, text("never")),
        None => (Null, Null),
    };
    let (earliest, earliest_is) = bound(placed.times.map(|times| times.earliest));
    let (latest, latest_is) = bound(placed.times.map(|times| times.latest));
    let (ward, opens, fits) = match placed.door {
        Some(Door::Open) => (text("open"), Null, Null),
        Some(Door::Shut { opens, fits }) => {
            (text("shut"), number(opens), if let Fits::Together(open) = fits { number(open) } else { Null })
        }
        Some(Door::Far) => (text("not known"), Null, Null),
        None => (Null, Null, Null),
    };
    object(vec![
        ("moment", text(&placed.name)),
        ("minute", or_null(stamp, number)),
        ("time", or_null(stamp, |stamp| text(told::time(sheet, stamp)))),
        ("earliest", earliest),
        ("earliest_is", earliest_is),
        ("latest", latest),
        ("latest_is", latest_is),
        ("free", True(placed.free)),
        ("round", True(placed.round)),
        ("ward", ward),
        ("opens", opens),
        ("open_and_fits", fits),
    ])
}
