//! Rules that a question is asked over: those of a text, those that opening hours make, and those that the tool adds. Each keeps
//! where it comes from, so that an answer's rules can be told in the text's own numbers.

use span::{Answer, Outcome};
use ward_reader::sheet::Row;
use ward_reader::{limits, record, Lead, Sheet};

use crate::archive;
use crate::error::Error;
use crate::room;

/// Where a rule comes from.
#[derive(Clone, Copy, Debug, PartialEq, Eq, PartialOrd, Ord)]
pub enum Source {
    /// The text's rule at this place.
    Rule(usize),
    /// The opening hours of this moment.
    Hours(usize),
    /// The tool: the span as a rule, or a moment that is held where it was found.
    Added,
}

#[derive(Clone, Debug, PartialEq, Eq)]
pub struct Law {
    pub source: Source,
    pub left: Vec<Lead>,
    pub right: Vec<Lead>,
}

impl Law {
    /// A rule that the tool adds.
    pub fn added(row: Row) -> Law {
        Law { source: Source::Added, left: row.left, right: row.right }
    }
}

/// The rules of a text that are in force.
pub fn in_force(sheet: &Sheet) -> Vec<Law> {
    let rules = sheet.rules.iter().enumerate().filter(|(_, rule)| rule.in_force);
    rules.map(|(place, rule)| at(place, rule)).collect()
}

/// A text's rule.
pub fn at(place: usize, rule: &Row) -> Law {
    Law { source: Source::Rule(place), left: rule.left.clone(), right: rule.right.clone() }
}

/// An answer that the checker accepted, with its problem, and where the rules of the problem come from.
#[derive(Clone, Debug)]
pub struct Judged {
    pub outcome: Outcome,
    pub problem: Vec<u8>,
    pub answer: Vec<u8>,
    pub sources: Vec<Vec<Source>>,
    moments: usize,
}

impl Judged {
    /// The plan, where there is one.
    pub fn stamps(&self) -> Option<Vec<Lead>> {
        match span::read(&self.answer, self.moments - 1, self.sources.len()) {
            Ok(Answer::Least { stamps, .. }) => Some(stamps),
            _ => None,
        }
    }

    /// Where the rules come from that the archive names behind a least span, or behind there being none.
    pub fn named(&self) -> Vec<Source> {
        let rules = span::reasons(&self.problem, &self.answer).map_or(Vec::new(), |named| named.rules);
        rules.iter().flat_map(|number| self.sources[number - 1].iter().copied()).collect()
    }
}

/// Has a question over some rules answered and judged; nothing where there are too many rules, joined too.
pub fn judged(laws: &[Law], question: &Row) -> Result<Option<Judged>, Error> {
    let Some((problem, sources)) = posed(laws, question) else { return Ok(None) };
    let answer = archive::answers(&problem).map_err(Error::Refused)?.remove(0);
    let outcome = span::check(&problem, &answer).map_err(Error::NotAccepted)?.outcome;
    Ok(Some(Judged { outcome, problem, answer, sources, moments: question.left.len() }))
}

/// The same of an answer that was accepted before, whose problem was not kept.
pub fn again(laws: &[Law], question: &Row, outcome: Outcome, answer: &[u8]) -> Option<Judged> {
    let (problem, sources) = posed(laws, question)?;
    Some(Judged { outcome, problem, answer: answer.to_vec(), sources, moments: question.left.len() })
}

/// The problem of a question over some rules, and where its rules come from.
fn posed(laws: &[Law], question: &Row) -> Option<(Vec<u8>, Vec<Vec<Source>>)> {
    let rules = room::fitted(laws)?;
    let rows: Vec<Row> = rules.iter().map(|(_, law)| row(law.left.clone(), law.right.clone())).collect();
    let problem = record::one(&rows.iter().collect::<Vec<_>>(), question);
    Some((problem, rules.into_iter().map(|(sources, _)| sources).collect()))
}

/// The outcomes of several questions over some rules; nothing where there are too many rules, joined too.
pub fn outcomes(laws: &[Law], questions: &[Row]) -> Result<Option<Vec<Outcome>>, Error> {
    let Some(rules) = room::fitted(laws) else { return Ok(None) };
    let rows: Vec<Row> = rules.into_iter().map(|(_, law)| row(law.left, law.right)).collect();
    archive::ask(&rows.iter().collect::<Vec<_>>(), questions).map(Some)
}

/// A row of two groups.
pub fn row(left: Vec<Lead>, right: Vec<Lead>) -> Row {
    crate::times::row(left, right)
}

/// One moment of so many, with a lead.
pub fn only(moment: usize, count: usize, lead: i32) -> Vec<Lead> {
    (0..count).map(|place| (place == moment).then_some(lead)).collect()
}

/// Whether a lead is within the limit.
pub fn fits(lead: i32) -> bool {
    lead.unsigned_abs() <= limits::LEAD.unsigned_abs()
}
