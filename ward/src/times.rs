//! The earliest and the latest time of each moment at the least span. The span becomes one more rule, and each moment is
//! asked for both ways: from the anchor to it, and from it to the anchor.

use std::collections::BTreeSet;

use span::Outcome;
use ward_reader::limits;
use ward_reader::remark::Place;
use ward_reader::sheet::{Lead, Origin, Row};

use crate::error::Error;
use crate::laws::{self, Law};
use crate::room;

/// How far a moment can move one way.
#[derive(Clone, Copy, Debug, PartialEq, Eq)]
pub enum Bound {
    At(i32),
    /// As far as one likes.
    Open,
    /// Nowhere: every such plan leaves it out.
    Never,
}

/// The earliest and the latest time of a moment.
#[derive(Clone, Copy, Debug, PartialEq, Eq)]
pub struct Times {
    pub earliest: Bound,
    pub latest: Bound,
}

/// The times of the moments, the anchor's first, and those that cannot be had, with the reason. Where nobody asked, all are missing.
#[derive(Clone, Debug, Default, PartialEq, Eq)]
pub struct Slack {
    pub times: Vec<Option<Times>>,
    pub cannot: Option<Cannot>,
}

/// Moments whose times cannot be told, and why.
#[derive(Clone, Debug, PartialEq, Eq)]
pub struct Cannot {
    pub moments: Vec<usize>,
    pub why: &'static str,
}

impl Slack {
    pub fn of(&self, moment: usize) -> Option<Times> {
        self.times.get(moment).copied().flatten()
    }
}

/// A row of two groups.
pub fn row(left: Vec<Lead>, right: Vec<Lead>) -> Row {
    let place = Place { line: 1, column: 1, width: 1 };
    Row { place, text: String::new(), left, right, in_force: true, origin: Origin::Line }
}

/// One moment of so many.
fn only(moment: usize, count: usize) -> Vec<Lead> {
    (0..count).map(|place| (place == moment).then_some(0)).collect()
}

/// The question for a moment's earliest time: the span from the anchor to it.
pub fn earliest(moment: usize, count: usize) -> Row {
    row(only(moment, count), only(0, count))
}

/// The question for its latest time: the span from it to the anchor.
pub fn latest(moment: usize, count: usize) -> Row {
    row(only(0, count), only(moment, count))
}

pub fn earliest_bound(outcome: Outcome) -> Bound {
    match outcome {
        Outcome::Least(minute) => Bound::At(minute),
        Outcome::Bottomless => Bound::Open,
        Outcome::NoPlan => Bound::Never,
    }
}

pub fn latest_bound(outcome: Outcome) -> Bound {
    match outcome {
        Outcome::Least(minute) => Bound::At(-minute),
        Outcome::Bottomless => Bound::Open,
        Outcome::NoPlan => Bound::Never,
    }
}

/// The times of a moment. One that every plan leaves out has neither: the span from the anchor to it is bottomless, and there is
/// none from it to the anchor.
fn times(earliest: Outcome, latest: Outcome) -> Times {
    match latest_bound(latest) {
        Bound::Never => Times { earliest: Bound::Never, latest: Bound::Never },
        latest => Times { earliest: earliest_bound(earliest), latest },
    }
}

/// The rule that a span is at most so many minutes: its end is at most its start plus the minutes. Where that is too much for
/// the leads of one side, a part is taken off the other.
pub fn at_most(question: &Row, span: i32) -> Option<Row> {
    let limit = i64::from(limits::LEAD);
    let ends = |leads: &[Lead], more: i64| {
        let leads: Vec<i64> = leads.iter().flatten().map(|&lead| i64::from(lead) + more).collect();
        (leads.iter().min().copied().unwrap_or(0), leads.iter().max().copied().unwrap_or(0))
    };
    let ((low, high), (low_right, high_right)) = (ends(&question.left, 0), ends(&question.right, span.into()));
    // Both sides less `off` lie within the limit exactly when `off` lies in both of these ranges.
    let from = (high - limit).max(high_right - limit);
    let to = (low + limit).min(low_right + limit);
    if from > to {
        return None;
    }
    let off = 0.clamp(from, to);
    let moved = |leads: &[Lead], more: i64| -> Vec<Lead> {
        leads.iter().map(|lead| lead.map(|lead| (i64::from(lead) + more) as i32)).collect()
    };
    Some(row(moved(&question.left, -off), moved(&question.right, i64::from(span) - off)))
}

/// The times of every moment in the plans that have this span. A plan with neither group of the span keeps the rule too, and does
/// not count (document 02, 2.4); merged with one that counts and lies early enough (2.13) it counts, so that no time is another.
pub fn at_span(laws: &[Law], question: &Row, span: i32) -> Result<Slack, Error> {
    let count = question.left.len();
    let all: Vec<usize> = (1..count).collect();
    let Some(rule) = at_most(question, span) else {
        let why = "the span is too long to be put as a rule: it fits no lead";
        return Ok(Slack { times: vec![None; count], cannot: Some(Cannot { moments: all, why }) });
    };
    let rule = Law::added(rule);
    let mut slack = Slack { times: vec![None; count], cannot: None };
    slack.times[0] = Some(Times { earliest: Bound::At(0), latest: Bound::At(0) });
    let with = |laws: Vec<Law>| [laws, vec![rule.clone()]].concat();
    if slack.ask(&with(laws.to_vec()), &all)? {
        return Ok(slack);
    }
    // No room for all rules and the span: moments that no chain of rules ties to the span are asked about without it, and the others
    // with the rules that speak of them alone.
    let own = |moment: &usize| question.left[*moment].is_some() || question.right[*moment].is_some();
    let tied = room::tied(laws, &all.iter().copied().filter(own).collect());
    let others: BTreeSet<usize> = all.iter().copied().filter(|moment| !tied.contains(moment)).collect();
    let mut missing = Vec::new();
    for (group, laws) in [
        (&tied, with(room::about(laws, &tied).cloned().collect())),
        (&others, room::about(laws, &others).cloned().collect()),
    ] {
        let group: Vec<usize> = group.iter().copied().collect();
        if !slack.ask(&laws, &group)? {
            missing.extend(group);
        }
    }
    let why = "the rules are too many for the span to be one more";
    slack.cannot = (!missing.is_empty()).then_some(Cannot { moments: missing, why });
    Ok(slack)
}

impl Slack {
    /// Asks for the times of some moments; whether there was room.
    fn ask(&mut self, laws: &[Law], moments: &[usize]) -> Result<bool, Error> {
        let count = self.times.len();
        let questions: Vec<Row> =
            moments.iter().flat_map(|&moment| [earliest(moment, count), latest(moment, count)]).collect();
        let Some(outcomes) = laws::outcomes(laws, &questions)? else { return Ok(false) };
        for (&moment, pair) in moments.iter().zip(outcomes.chunks(2)) {
            self.times[moment] = Some(times(pair[0], pair[1]));
        }
        Ok(true)
    }
}

#[cfg(test)]
mod tests {
    use super::*;

    #[test]
    fn a_long_span_is_shared_between_both_sides() {
        let question = row(vec![None, Some(0)], vec![Some(0), None]);
        assert_eq!(at_most(&question, 30), Some(row(vec![None, Some(0)], vec![Some(30), None])));
        assert_eq!(at_most(&question, 20_161), Some(row(vec![None, Some(-1)], vec![Some(20_160), None])));
        assert_eq!(at_most(&question, -40_320), Some(row(vec![None, Some(20_160)], vec![Some(-20_160), None])));
        assert_eq!(at_most(&question, 40_321), None);
        let wide = row(vec![Some(20_160), Some(-20_160)], vec![Some(0), None]);
        assert_eq!(at_most(&wide, 20_160), Some(row(vec![Some(20_160), Some(-20_160)], vec![Some(20_160), None])));
        assert_eq!(at_most(&wide, 20_161), None);
    }
}
