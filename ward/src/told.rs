//! Words that the terminal, the sheet and the files share.

use span::Outcome;
use ward_reader::calendar;
use ward_reader::clock::{DAY, DAYS};
use ward_reader::sheet::{Origin, Way, Wish};
use ward_reader::{shown, Sheet};

use crate::answer::{Body, Least, Placed, Span, Verdict};
use crate::archive::hours;
use crate::choice::{Chosen, Place};
use crate::grounds::Grounds;
use crate::kept::by_cases;
use crate::laws::Source;
use crate::opening::{Door, Fits};
use crate::rule_words;
use crate::times::{Bound, Cannot};
use crate::what_if::{Then, Trial};
use crate::why::{Blocked, Loose, Never, Part};

/// Minutes, and days, hours and minutes where that helps.
pub fn minutes(value: i32) -> String {
    let plural = if value.abs() == 1 { "minute" } else { "minutes" };
    match value.abs() {
        0..60 => format!("{value} {plural}"),
        _ => format!("{value} {plural} ({})", days(value)),
    }
}

/// Hours and minutes; from a day on, days too: `13 days 3:00`.
pub fn days(value: i32) -> String {
    let sign = if value < 0 { "-" } else { "" };
    match value.unsigned_abs() as i32 {
        size @ DAY.. => {
            let days = size / DAY;
            format!("{sign}{days} {} {}", if days == 1 { "day" } else { "days" }, hours(size % DAY))
        }
        _ => hours(value),
    }
}

/// The days since the anchor's, and the minute of that day.
fn day_and_minute(minute: i32, stamp: i32) -> (i64, i32) {
    let minute = i64::from(minute) + i64::from(stamp);
    (minute.div_euclid(DAY.into()), minute.rem_euclid(DAY.into()) as i32)
}

/// When a minute is: the time of day where the text gives the anchor's, with day and date where it gives these too, else hours and
/// minutes after the anchor.
pub fn time(sheet: &Sheet, stamp: i32) -> String {
    let Some(anchor) = sheet.anchor else { return days(stamp) };
    let (day, of_day) = day_and_minute(anchor.minute, stamp);
    match anchor.date {
        Some(date) => format!("{} {}", calendar::named(date + day), hours(of_day)),
        None => short(sheet, stamp),
    }
}

/// When a minute is, for the wall: the day of the week, the day of the month, and the time.
pub fn dated(sheet: &Sheet, stamp: i32) -> String {
    let Some((anchor, date)) = sheet.anchor.and_then(|anchor| Some((anchor, anchor.date?))) else {
        return short(sheet, stamp);
    };
    let (day, of_day) = day_and_minute(anchor.minute, stamp);
    let named = calendar::named(date + day);
    format!("{} {} {}", &named[..3], &named[9..], hours(of_day))
}

/// The first letters of a day of the week, so many days after another.
fn weekday(first: usize, day: i64) -> &'static str {
    &DAYS[(first as i64 + day).rem_euclid(7) as usize][..3]
}

/// What stands above a mark of a timeline whose marks are so many minutes apart: from a day on, the day.
pub fn tick(sheet: &Sheet, stamp: i32, step: i64) -> String {
    let Some(anchor) = sheet.anchor else { return days(stamp).replace(" 0:00", "") };
    if step < DAY.into() {
        return short(sheet, stamp);
    }
    let (day, _) = day_and_minute(anchor.minute, stamp);
    match (anchor.day, anchor.date) {
        (Some(first), Some(date)) => format!("{} {}", weekday(first, day), &calendar::written(date + day)[5..]),
        (Some(first), None) if (-6..=6).contains(&day) => weekday(first, day).into(),
        (Some(first), None) => format!("day {day}, {}", weekday(first, day)),
        (None, _) => format!("day {day}"),
    }
}

/// The same where there is little room: without the date; where the day of the week would not tell, with the number of days after the
/// anchor's.
pub fn short(sheet: &Sheet, stamp: i32) -> String {
    let Some(anchor) = sheet.anchor else { return days(stamp) };
    let (day, of_day) = day_and_minute(anchor.minute, stamp);
    let time = hours(of_day);
    match (anchor.day, day) {
        (Some(first), -6..=6) => format!("{} {time}", weekday(first, day)),
        (Some(first), _) => format!("day {day}, {} {time}", weekday(first, day)),
        (_, 0) => time,
        _ => format!("{time} {day:+}d"),
    }
}

/// An earliest time.
pub fn earliest(sheet: &Sheet, bound: Bound) -> String {
    match bound {
        Bound::At(minute) => short(sheet, minute),
        Bound::Open => "no limit".into(),
        Bound::Never => "never".into(),
    }
}

/// A latest time; it is worded like an earliest one.
pub fn latest(sheet: &Sheet, bound: Bound) -> String {
    earliest(sheet, bound)
}

/// What else there is to say of a moment in a plan.
pub fn note(sheet: &Sheet, placed: &Placed) -> String {
    if placed.free {
        return "free: the span and the rules say nothing of it".into();
    }
    if placed.stamp.is_none() {
        return match sheet.admits.contains(&placed.moment) {
            true => "left out of this plan; it needs no open ward".into(),
            false => "left out of this plan".into(),
        };
    }
    match placed.door {
        None => String::new(),
        Some(Door::Open) => "open at the planned time".into(),
        Some(Door::Far) => "opening hours cannot be looked up so far away".into(),
        Some(Door::Shut { opens, fits }) => format!("shut at the planned time; {}", shut(sheet, opens, fits)),
    }
}

/// When a shut ward is open, and whether that fits the least span.
fn shut(sheet: &Sheet, opens: i32, fits: Fits) -> String {
    match fits {
        Fits::NotTried => format!("opens {}; not tried whether that fits the least span", time(sheet, opens)),
        Fits::No => format!("opens {}, which does not fit the least span", time(sheet, opens)),
        Fits::Alone(open) => {
            let words = "which fits the least span for this moment alone, not with the others";
            let hint = match sheet.admits.is_empty() {
                true => "; 'admits:' plans the moments that it names while the ward is open",
                false => "",
            };
            format!("open {}, {words}{hint}", time(sheet, open))
        }
        Fits::Together(open) => format!("open {}, which fits the least span", time(sheet, open)),
    }
}

/// A list of words: `a`, `a and b`, `a, b and c`.
pub fn list(words: &[String]) -> String {
    match words {
        [] => String::new(),
        [only] => only.clone(),
        [first @ .., last] => format!("{} and {last}", first.join(", ")),
    }
}

pub fn names(sheet: &Sheet, moments: &[usize]) -> String {
    list(&moments.iter().map(|&moment| sheet.moments[moment].name.clone()).collect::<Vec<_>>())
}

/// The main thing, in a line.
pub fn headline(span: &Span) -> String {
    match &span.body {
        Body::Least(least) => format!("The least span is {}. {}", minutes(least.minutes), no_smaller(span)),
        Body::Bottomless(_) => format!("Bottomless: whatever span you name, {}", some_smaller(span)),
        Body::None(_) => format!("None: {}", no_span(span)),
        Body::Stopped(_) => "No answer: the opening hours could not be kept.".into(),
        Body::Claim(words, _) => words.clone(),
    }
}

/// Which plans count (document 02, 2.4): those that have somebody of the group that the span starts from.
fn counting(span: &Span) -> String {
    let keeps = match by_cases(span) {
        true => "that keeps the rules and the opening hours",
        false => "that keeps the rules",
    };
    match &span.start[..] {
        [] => keeps.into(),
        [only] => format!("{keeps} and has {only} in it"),
        [first @ .., last] => format!("{keeps} and has {} or {last} in it", first.join(", ")),
    }
}

/// That a span is the least one, and what it means where it is below 0.
pub fn no_smaller(span: &Span) -> String {
    let days = if by_cases(span) { " within 14 days of the anchor" } else { "" };
    let mut words = format!("No plan{days} {} has a smaller one.", counting(span));
    if span.kept.as_ref().is_some_and(|kept| kept.alone == Outcome::Bottomless) {
        words += " It may be only the edge of these 14 days: by the rules alone spans are bottomless.";
    }
    match &span.body {
        Body::Least(least) if least.minutes < 0 => {
            let last = |group: &str| match group.strip_prefix("later of ") {
                Some(list) => format!("the last of {list}"),
                None => group.to_string(),
            };
            let apart = minutes(-least.minutes);
            format!("{words} It is below 0: {} is {apart} before {}.", last(&span.to), last(&span.from))
        }
        _ => words,
    }
}

/// That there is no least span.
pub fn some_smaller(span: &Span) -> String {
    format!("some plan {} has a smaller one.", counting(span))
}

/// That there is no span.
pub fn no_span(span: &Span) -> String {
    match by_cases(span) {
        true => "no plan within 14 days of the anchor that keeps the rules and the opening hours has a span.".into(),
        false => "no plan that keeps the rules has a span.".into(),
    }
}

/// What earliest and latest times say, and what they do not, where some moment can move.
pub fn moving(sheet: &Sheet, span: &Span) -> Option<String> {
    let Body::Least(least) = &span.body else { return None };
    let moves = |placed: &Placed| placed.times.is_some_and(|times| times.earliest != times.latest) && !placed.free;
    let hours = match &span.kept {
        Some(kept) => {
            let each = each(&names(sheet, &kept.moments));
            format!(
                " {each} stays within the opening hours in which the plan has it, and within 14 days of the anchor."
            )
        }
        None if !sheet.week.is_empty() => " Opening hours are not looked at.".into(),
        None => String::new(),
    };
    let timed = least.plan.iter().any(|placed| placed.moment != 0 && placed.times.is_some());
    if !least.plan.iter().any(moves) {
        return span.kept.as_ref().filter(|_| timed).map(|_| format!("Nothing can move at this span.{hours}"));
    }
    Some(format!(
        "Earliest and latest times are for one moment alone, at the least span. Moving one may break a rule with another: \
         write its new time as a rule, and ask again.{hours}"
    ))
}

/// Each of some names.
fn each(names: &str) -> String {
    match names.contains(" and ") {
        true => format!("Each of {names}"),
        false => names.into(),
    }
}

/// What the checker says, in a line.
pub fn verdict(span: &Span) -> String {
    let words = span.verdict.words();
    match span.verdict {
        Verdict::Accepted(_) => format!("The checker, which trusts no engine, says: {words}"),
        Verdict::Cases(_, cases) => {
            format!("The checker, which trusts no engine, accepted the answers to all {cases} cases")
        }
        Verdict::Stopped => "The checker, which trusts no engine, has no answer to judge".into(),
        Verdict::NotAccepted(_) => {
            format!("The checker, which trusts no engine, does not accept the answer: {words}")
        }
    }
}

/// A rule or opening hours in a list, and what they do there, if that is told.
#[derive(Clone, Debug, PartialEq, Eq)]
pub struct Listed {
    pub source: Source,
    pub role: String,
}

/// Rules in a list with nothing more to tell of them.
fn listed(sources: &[Source]) -> Vec<Listed> {
    sources.iter().map(|&source| Listed { source, role: String::new() }).collect()
}

/// What is said below the plan: why there is none, and what could not be found. Each with the rules that it names.
pub fn explained(sheet: &Sheet, span: &Span) -> Vec<(String, Vec<Listed>)> {
    match &span.body {
        Body::Least(least) => of_least(sheet, span, least),
        Body::Bottomless(loose) => loose_words(sheet, loose).into_iter().map(|words| (words, Vec::new())).collect(),
        Body::None(blocked) => vec![blocked_words(sheet, blocked)],
        Body::Stopped(_) | Body::Claim(..) => Vec::new(),
    }
}

fn of_least(sheet: &Sheet, span: &Span, least: &Least) -> Vec<(String, Vec<Listed>)> {
    let mut told: Vec<(String, Vec<Listed>)> = notes(sheet, span).into_iter().map(|note| (note, Vec::new())).collect();
    told.extend(least.never.iter().map(|never| never_words(sheet, never)));
    if let Some(Cannot { moments, why }) = &least.slack.cannot {
        let of = match moments.len() + 1 == sheet.moments.len() {
            true => String::new(),
            false => format!(" of {}", names(sheet, moments)),
        };
        told.push((format!("Earliest and latest times{of} cannot be told: {why}."), Vec::new()));
    }
    told.push((behind(&least.grounds), listed(&least.grounds.needed)));
    if let Some(reasons) = least.reasons.as_ref().filter(|reasons| !reasons.round.is_empty()) {
        let steps: Vec<String> = reasons.steps.iter().map(|step| self::step(sheet, *step)).collect();
        let words = format!("The chain that binds it runs over {}, by {}.", names(sheet, &reasons.round), list(&steps));
        told.push((words, Vec::new()));
    }
    told
}

/// A rule by which the chain goes on, or the span itself.
fn step(sheet: &Sheet, source: Option<Source>) -> String {
    match source {
        Some(Source::Rule(place)) => format!("rule {}", place + 1),
        Some(Source::Hours(moment)) => format!("the opening hours of {}", sheet.moments[moment].name),
        _ => "the span".into(),
    }
}

/// What the list of rules behind a least span says.
fn behind(grounds: &Grounds) -> String {
    let hours = grounds.needed.iter().any(|source| matches!(source, Source::Hours(_)));
    let what = if hours { "rules and opening hours" } else { "rules" };
    let days = if hours { " within 14 days of the anchor" } else { "" };
    match grounds.needed.len() {
        0 => "No rule is behind it: the span is what it is by itself.".into(),
        1 if hours => format!("The opening hours behind it; with these alone the least span{days} is the same:"),
        1 => "The rule behind it; with this one alone the least span is the same:".into(),
        _ if grounds.untried => {
            format!(
                "The {what} behind it; with these alone the least span{days} is the same (some of them may not be needed):"
            )
        }
        _ => format!(
            "The {what} behind it; with these alone the least span{days} is the same, and none can be left out:"
        ),
    }
}

fn loose_words(sheet: &Sheet, loose: &Loose) -> Vec<String> {
    let mut told = Vec::new();
    if !loose.late.is_empty() {
        told.push(format!("Nothing says how late {} may be.", names(sheet, &loose.late)));
    }
    if !loose.early.is_empty() {
        told.push(format!("Nothing says how early {} may be.", names(sheet, &loose.early)));
    }
    told.push(match (loose.late.is_empty(), loose.early.is_empty()) {
        (true, true) => "The span runs to nothing.".into(),
        _ => "A rule is probably missing.".into(),
    });
    told
}

/// That no plan has a moment, with the rules that make it so.
fn never_words(sheet: &Sheet, never: &Never) -> (String, Vec<Listed>) {
    let name = &sheet.moments[never.moment].name;
    (format!("No plan that keeps the rules has {name}, because of:"), with_roles(sheet, &never.rules))
}

/// The rules of a quarrel, each with what it does there.
fn with_roles(sheet: &Sheet, parts: &[Part]) -> Vec<Listed> {
    parts.iter().map(|part| Listed { source: Source::Rule(part.rule), role: role(sheet, *part) }).collect()
}

fn blocked_words(sheet: &Sheet, blocked: &Blocked) -> (String, Vec<Listed>) {
    let roles = |parts: &[Part]| with_roles(sheet, parts);
    match blocked {
        Blocked::FromNothing => {
            ("The group that the span starts from is empty: no plan counts, whatever the rules.".into(), Vec::new())
        }
        Blocked::Contradiction(rules) if rules.len() == 1 => {
            ("No plan can keep this rule:".into(), listed(&[Source::Rule(rules[0].rule)]))
        }
        Blocked::Contradiction(rules) => (
            "These rules contradict each other; without any one of them there is a plan that keeps the others of this list:"
                .into(),
            roles(rules),
        ),
        Blocked::StartLeftOut(rules) => (
            "Every plan that keeps the rules leaves out all that the span starts from, because of:".into(),
            roles(rules),
        ),
        Blocked::Shut(grounds) => (
            match grounds.untried {
                true => "Within 14 days of the anchor these rules and opening hours stand against each other (some of them may \
                         not be needed):"
                    .into(),
                false => "Within 14 days of the anchor these rules and opening hours stand against each other; without any one of \
                          them there is a plan that keeps the others of this list:"
                    .into(),
            },
            listed(&grounds.needed),
        ),
    }
}

/// What a rule does in a quarrel: its minutes count, or it only makes moments happen that others are about, or leaves some out.
pub fn role(sheet: &Sheet, part: Part) -> String {
    let rule = &sheet.rules[part.rule];
    let of = |leads: &[ward_reader::Lead]| -> Vec<String> {
        let named = (0..leads.len()).filter(|&moment| leads[moment].is_some());
        named.map(|moment| sheet.moments[moment].name.clone()).collect()
    };
    let (early, late) = (of(&rule.left), of(&rule.right));
    match part.minutes {
        true => "its minutes count".into(),
        false if late.is_empty() => format!("it leaves {} out", list(&early)),
        false if rule.left[0].is_some() => format!("it only makes {} happen", late.join(" or ")),
        false => format!("it only makes {} happen when {} does", late.join(" or "), early.join(" or ")),
    }
}

/// Rules as a text has them: number, line and words of each. Two that one line makes are told together, and one of them with what
/// it says alone.
pub fn rules(sheet: &Sheet, places: &[Listed]) -> Vec<String> {
    let mut told = Vec::new();
    let mut rest = places;
    while let [Listed { source, role }, behind @ ..] = rest {
        rest = behind;
        let words = match *source {
            Source::Rule(place) => {
                let pair = behind.first().filter(|next| next.role == *role).and_then(|next| half(sheet, place, next));
                rest = if pair.is_some() { &behind[1..] } else { behind };
                numbered(sheet, place, pair)
            }
            Source::Hours(moment) => format!("the opening hours of {}", sheet.moments[moment].name),
            Source::Added => continue,
        };
        told.push(if role.is_empty() { words } else { format!("{words} ({role})") });
    }
    told
}

/// The other rule of a line that makes two.
fn half(sheet: &Sheet, place: usize, next: &Listed) -> Option<usize> {
    let Source::Rule(other) = next.source else { return None };
    let rule = &sheet.rules[place];
    (rule.origin == Origin::Half && sheet.rules[other].place == rule.place).then_some(other)
}

/// A rule with its number and line, or the two of a line.
fn numbered(sheet: &Sheet, place: usize, pair: Option<usize>) -> String {
    let rule = &sheet.rules[place];
    let line = rule.place.line;
    match pair {
        Some(other) => format!("rules {} and {} (line {line}): {}", place + 1, other + 1, rule.text),
        None => format!("rule {} (line {line}): {}", place + 1, words(sheet, place)),
    }
}

/// A rule's words; where it is written with signs, or its line makes two, what this one says too; where its line adds rules, that it does.
pub fn words(sheet: &Sheet, place: usize) -> String {
    let rule = &sheet.rules[place];
    let written = rule.origin == Origin::Line && !rule.text.contains(['<', '>', '=', '≤', '≥', '⩽', '⩾']);
    let said = rule_words::words(sheet, rule)
        .or_else(|| (rule.origin == Origin::Half).then(|| shown::rule(&sheet.moments, rule)));
    let said = said.filter(|_| !written).map_or(String::new(), |said| format!(", that is {said}"));
    match rule.origin {
        Origin::Floor => format!("{}{said}, by 'nothing before anchor'", rule.text),
        _ => format!("{}{said}", rule.text),
    }
}

/// What the table of lifted and eased rules is.
pub fn what_if(span: &Span) -> String {
    let kept = if span.kept.is_some() { ", with opening hours kept and within 14 days of the anchor" } else { "" };
    format!(
        "What if one of these were lifted, or its early side were 5, 10 or 15 minutes earlier? The least span is then{kept}:"
    )
}

/// What is said where it is asked what rules cost, and there is no least span.
pub fn nothing_to_ease(span: &Span) -> Option<&'static str> {
    (span.what_if && matches!(span.body, Body::None(_) | Body::Bottomless(_)))
        .then_some("There is no least span, so that there is nothing to ease: no table of what if.")
}

/// What is said where none of the rules alone makes a difference.
pub fn held_twice(least: &Least) -> Option<&'static str> {
    let same = |trial: &Trial| trial.lifted == Ok(Outcome::Least(least.minutes));
    (!least.what_if.is_empty() && least.what_if.iter().all(same))
        .then_some("None of these alone makes it shorter: other rules hold the span at this length too.")
}

/// The cells of a trial: lifted, and eased by each number of minutes.
pub fn then_cells(trial: &Trial) -> Vec<String> {
    let eased = trial.eased.iter().map(|then| then.as_ref().map_or("-".into(), then_words));
    [then_words(&trial.lifted)].into_iter().chain(eased).collect()
}

fn then_words(then: &Then) -> String {
    match then {
        Ok(Outcome::Least(value)) => length(*value),
        Ok(outcome) => outcome.to_string(),
        Err(_) => "not told".into(),
    }
}

/// A span where there is little room.
pub fn length(value: i32) -> String {
    match value.abs() {
        DAY.. => days(value),
        _ => format!("{value} min"),
    }
}

/// What a rule or opening hours are called.
pub fn source(sheet: &Sheet, source: Source) -> String {
    rules(sheet, &listed(&[source])).concat()
}

/// The same where there is little room: a rule in words.
pub fn brief(sheet: &Sheet, source: Source) -> String {
    let Source::Rule(place) = source else { return self::source(sheet, source) };
    let rule = &sheet.rules[place];
    let words = rule_words::words(sheet, rule).unwrap_or_else(|| rule.text.clone());
    format!("rule {} (line {}): {words}", place + 1, rule.place.line)
}

/// Where the moments are that the text wants early or late.
pub fn chosen(sheet: &Sheet, chosen: &Chosen) -> String {
    let one = |(wish, place): &(Wish, Place)| {
        let name = &sheet.moments[wish.moment].name;
        let way = wish.way.word();
        match place {
            Place::At(minute) => format!("{name} as {way} as can be, {}", time(sheet, *minute)),
            Place::Within(minute) => {
                let time = time(sheet, *minute);
                format!("{name} as {way} as can be with the ward open within 14 days of the anchor, {time}")
            }
            // Being left out is the earliest of all, and with hours a plan that has it may have a limit all the same.
            Place::NoLimit if wish.way == Way::Early && !sheet.admits.is_empty() => {
                format!("no limit was found for {name}, which is not held")
            }
            Place::NoLimit => format!("{name} has no limit and is not held"),
            Place::Never if !sheet.admits.is_empty() => format!("no such plan within 14 days of the anchor has {name}"),
            Place::Never => format!("no such plan has {name}"),
            Place::NotTold(_) => format!("{name} could not be asked for"),
        }
    };
    let told: Vec<String> = chosen.wishes.iter().map(one).collect();
    format!("The plan is chosen in this order: {}.", told.join("; "))
}

/// What the line `nothing before anchor` adds, if the text has it.
pub fn floor(sheet: &Sheet) -> Option<String> {
    let line = sheet.floor?.line;
    let added: Vec<usize> =
        (0..sheet.rules.len()).filter(|&place| sheet.rules[place].origin == Origin::Floor).collect();
    let rule = |place: &usize| format!("rule {}, {}", place + 1, sheet.rules[*place].text);
    Some(match &added[..] {
        [] => format!("'nothing before anchor' (line {line}) adds no rule."),
        _ => {
            format!("'nothing before anchor' (line {line}) adds {}.", list(&added.iter().map(rule).collect::<Vec<_>>()))
        }
    })
}

/// What a reader of a plan may not expect: moments before the anchor, which rules hold there or nothing holds, and days on which
/// clocks change.
pub fn notes(sheet: &Sheet, span: &Span) -> Vec<String> {
    let Body::Least(least) = &span.body else { return Vec::new() };
    let stamps = || least.plan.iter().filter(|placed| !placed.free).filter_map(|placed| Some((placed, placed.stamp?)));
    let mut notes = Vec::new();
    let before = |early: bool| -> Vec<String> {
        stamps()
            .filter(|(placed, stamp)| sheet.floor.is_none() && *stamp < 0 && placed.early == early)
            .map(|(placed, stamp)| format!("{} ({})", placed.name, time(sheet, stamp)))
            .collect()
    };
    let (loose, held) = (before(true), before(false));
    let words = |names: &[String]| if names.len() == 1 { ("is", "it") } else { ("are", "them") };
    if !held.is_empty() {
        let (is, it) = words(&held);
        notes.push(format!("{} {is} before the anchor: the rules hold {it} there.", list(&held)));
    }
    if !loose.is_empty() {
        let (is, it) = words(&loose);
        let line = if held.is_empty() { " The line 'nothing before anchor' would." } else { "" };
        notes
            .push(format!("{} {is} before the anchor: nothing holds {it} at the anchor or later.{line}", list(&loose)));
    }
    let change = sheet.anchor.and_then(|anchor| {
        let day = |stamp: i32| Some(anchor.date? + day_and_minute(anchor.minute, stamp).0);
        let first = stamps().map(|(_, stamp)| stamp).min()?.min(0);
        let last = stamps().map(|(_, stamp)| stamp).max()?.max(0);
        calendar::change(day(first)?, day(last)?)
    });
    if let Some(day) = change {
        notes.push(format!(
            "Clocks may change on {}, in the days of this plan: clock changes are not looked at.",
            calendar::named(day)
        ));
    }
    notes
}

#[cfg(test)]
mod tests {
    use super::*;
    use crate::answer::Report;

    #[test]
    fn two_rules_of_a_line_are_told_in_one() {
        let text =
            "moments: free, cleaned\nanchor <= free\ncleaned 35 to 40 after free\nspan: from anchor to cleaned\n";
        let sheet = Report::read("day.txt", text.as_bytes()).sheet.expect("a good text");
        let told = |places: &[usize]| {
            let sources: Vec<Source> = places.iter().map(|&place| Source::Rule(place)).collect();
            rules(&sheet, &listed(&sources)).join("; ")
        };
        assert_eq!(
            told(&[0, 1, 2]),
            "rule 1 (line 2): anchor <= free, that is free not before the anchor; rules 2 and 3 (line 3): cleaned 35 to 40 after free"
        );
        assert_eq!(
            told(&[2]),
            "rule 3 (line 3): cleaned 35 to 40 after free, that is cleaned at most 40 min after free"
        );
        assert_eq!(told(&[]), "");
    }
}
