//! Why there is no least span: moments that nothing holds, or rules that contradict each other. Both are found by asking the
//! engine more questions, each answer judged by the checker.

use span::Outcome;
use ward_reader::limits;
use ward_reader::sheet::Row;
use ward_reader::Sheet;

use crate::archive;
use crate::error::Error;
use crate::grounds::Grounds;
use crate::times::{earliest, latest, row};

/// Why spans are bottomless. Both lists are empty where the span runs to nothing.
#[derive(Clone, Debug, PartialEq, Eq)]
pub struct Loose {
    /// Moments that the span starts from, and that can be as late as one likes.
    pub late: Vec<usize>,
    /// Moments that the span runs to, all of which can be as early as one likes, or be left out.
    pub early: Vec<usize>,
}

/// Why there is no span.
#[derive(Clone, Debug, PartialEq, Eq)]
pub enum Blocked {
    /// The span starts from nothing, so that no plan counts (document 02, 2.4).
    FromNothing,
    /// No plan keeps these rules together; without any one of them some plan keeps the others.
    Contradiction(Vec<Part>),
    /// Plans that keep the rules leave all moments blank that the span starts from, by these rules.
    StartLeftOut(Vec<Part>),
    /// Plans keep the rules, and none of them the opening hours within 14 days, by these rules and hours.
    Shut(Grounds),
}

/// A rule of a quarrel, by its place in the text, and whether its minutes count there. Where they do not, it only makes a moment
/// happen, which others are about.
#[derive(Clone, Copy, Debug, PartialEq, Eq)]
pub struct Part {
    pub rule: usize,
    pub minutes: bool,
}

/// The moments of a list, without the anchor.
fn moments(leads: &[ward_reader::Lead]) -> Vec<usize> {
    (1..leads.len()).filter(|&moment| leads[moment].is_some()).collect()
}

pub fn loose(sheet: &Sheet, question: usize) -> Result<Loose, Error> {
    let rules: Vec<&Row> = sheet.in_force().collect();
    let Row { left, right, .. } = &sheet.questions[question].row;
    if left.iter().all(Option::is_none) {
        return Ok(Loose { late: Vec::new(), early: Vec::new() });
    }
    let (ends, starts, count) = (moments(left), moments(right), sheet.moments.len());
    let mut questions: Vec<Row> = starts.iter().map(|&moment| latest(moment, count)).collect();
    questions.extend(ends.iter().map(|&moment| earliest(moment, count)));
    let outcomes = archive::ask(&rules, &questions)?;
    let open = |moments: &[usize], outcomes: &[Outcome]| -> Vec<usize> {
        let pairs = moments.iter().zip(outcomes);
        pairs.filter(|(_, outcome)| **outcome == Outcome::Bottomless).map(|(moment, _)| *moment).collect()
    };
    let late = open(&starts, &outcomes[..starts.len()]);
    let early = open(&ends, &outcomes[starts.len()..]);
    // The span's end has no earliest time only where none of its moments has one.
    let all = early.len() == ends.len() && left[0].is_none();
    Ok(Loose { late, early: if all { early } else { Vec::new() } })
}

/// The moments of a plan that are before the anchor, though the rules would let them be there or later, where no line
/// `nothing before anchor` was thought of.
pub fn early(sheet: &Sheet, stamps: &[Option<i32>]) -> Result<Vec<usize>, Error> {
    let early = |moment: &usize| sheet.floor.is_none() && stamps[*moment].is_some_and(|stamp| stamp < 0);
    let mut moments: Vec<usize> = (1..stamps.len()).filter(early).collect();
    let rules: Vec<&Row> = sheet.in_force().collect();
    let questions: Vec<Row> = moments.iter().map(|&moment| latest(moment, stamps.len())).collect();
    let mut outcomes = archive::ask(&rules, &questions)?.into_iter();
    // From the moment to the anchor: 0 minutes or less where it can be at the anchor or later.
    moments.retain(|_| !matches!(outcomes.next(), Some(Outcome::Least(1..))));
    Ok(moments)
}

pub fn blocked(sheet: &Sheet, question: usize) -> Result<Blocked, Error> {
    let question = &sheet.questions[question].row;
    if question.right.iter().all(Option::is_none) {
        return Ok(Blocked::FromNothing);
    }
    let rules: Vec<(usize, &Row)> = sheet.rules.iter().enumerate().filter(|(_, rule)| rule.in_force).collect();
    // From the anchor to itself: every plan that keeps the rules has this span.
    let any = earliest(0, sheet.moments.len());
    match is_none(&rules, &any)? {
        true => narrowed(rules, &any).map(Blocked::Contradiction),
        // The span from the start to the anchor, which is always planned, tells of the start alone.
        false => narrowed(rules, &row(any.left, question.right.clone())).map(Blocked::StartLeftOut),
    }
}

/// A moment that no plan has, and the rules that make it so.
#[derive(Clone, Debug, PartialEq, Eq)]
pub struct Never {
    pub moment: usize,
    pub rules: Vec<Part>,
}

/// The moments among those that a plan leaves out which no plan that keeps the rules has.
pub fn never(sheet: &Sheet, left_out: &[usize]) -> Result<Vec<Never>, Error> {
    let rules: Vec<(usize, &Row)> = sheet.rules.iter().enumerate().filter(|(_, rule)| rule.in_force).collect();
    let mut found = Vec::new();
    for &moment in left_out {
        let question = latest(moment, sheet.moments.len());
        if is_none(&rules, &question)? {
            found.push(Never { moment, rules: narrowed(rules.clone(), &question)? });
        }
    }
    Ok(found)
}

fn is_none(rules: &[(usize, &Row)], question: &Row) -> Result<bool, Error> {
    let rules: Vec<&Row> = rules.iter().map(|(_, rule)| *rule).collect();
    Ok(archive::ask(&rules, std::slice::from_ref(question))? == [Outcome::NoPlan])
}

/// Rules without which there is a span: one after another is left out where there is none without it too. Fewer rules leave
/// more plans, so that each rule that is left in the end is needed.
fn narrowed(mut rules: Vec<(usize, &Row)>, question: &Row) -> Result<Vec<Part>, Error> {
    let mut place = 0;
    while place < rules.len() {
        let rule = rules.remove(place);
        if !is_none(&rules, question)? {
            rules.insert(place, rule);
            place += 1;
        }
    }
    (0..rules.len()).map(|place| part(&rules, place, question)).collect()
}

/// What a rule of a quarrel does: its minutes do not count where the quarrel stays with as much room as a rule can give.
fn part(rules: &[(usize, &Row)], place: usize, question: &Row) -> Result<Part, Error> {
    let (rule, row) = rules[place];
    let all = |leads: &[ward_reader::Lead], minutes: i32| leads.iter().map(|lead| lead.map(|_| minutes)).collect();
    let loose = Row { left: all(&row.left, -limits::LEAD), right: all(&row.right, limits::LEAD), ..row.clone() };
    let mut other = rules.to_vec();
    other[place] = (rule, &loose);
    Ok(Part { rule, minutes: !is_none(&other, question)? })
}
