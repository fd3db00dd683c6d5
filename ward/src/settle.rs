//! One span of a text: what the checker says of its answer, with opening hours kept, and what more there is to tell.

use std::collections::BTreeSet;

use span::{Answer, Outcome};
use ward_reader::outcome::Expected;
use ward_reader::sheet::Row;
use ward_reader::{record, shown, vain, Lead, Sheet};

use crate::answer::{Body, Kept, Least, Placed, Span, Verdict, Wishes};
use crate::cases::{Asker, Found};
use crate::choice;
use crate::error::Error;
use crate::grounds;
use crate::hours::Hours;
use crate::laws::{self, Law, Source};
use crate::opening;
use crate::order;
use crate::reasons;
use crate::times::{self, Slack};
use crate::what_if;
use crate::why;

/// A span's question, and all that it is asked with.
struct Asked<'a> {
    sheet: &'a Sheet,
    question: usize,
    asker: Asker,
    laws: Vec<Law>,
    wishes: Wishes,
}

/// An answer that was accepted: its records, where the rules of the problem come from, its plan, and what is behind it.
struct Settled {
    problem: Vec<u8>,
    answer: Vec<u8>,
    sources: Vec<Vec<Source>>,
    stamps: Vec<Lead>,
    behind: BTreeSet<Source>,
}

/// What is told of an answer: the verdict, the opening hours that were kept, and all else, with the answer itself.
type Answered = (Verdict, Option<Kept>, Body, Settled);

/// Has the checker judge an answer to a span's own problem, and tells it; where the text says at which moments the ward must be open,
/// the answer with opening hours kept is looked for.
pub fn span(sheet: &Sheet, question: usize, answer: &[u8], wishes: Wishes) -> Result<Span, Error> {
    let problem = record::alone(sheet, question);
    let verdict = match span::check(&problem, answer) {
        Ok(certified) => Verdict::Accepted(certified.outcome),
        Err(refusal) => Verdict::NotAccepted(refusal),
    };
    let hours = Hours::of(sheet, question).filter(|_| wishes.hours);
    let asked = Asked { sheet, question, asker: Asker::new(hours), laws: laws::in_force(sheet), wishes };
    let own = asked.own(problem, answer);
    let (verdict, kept, body, settled) = match (verdict, &asked.asker.hours) {
        (Verdict::Accepted(outcome), Some(hours)) if outcome != Outcome::NoPlan => asked.kept(hours, outcome, own)?,
        (Verdict::Accepted(outcome), _) => (verdict, None, asked.body(outcome, &own)?, own),
        _ => (verdict, None, claim(sheet, question, answer), own),
    };
    let expected = sheet.questions[question].expected;
    let as_expected = expected.is_none_or(|expected| same(expected, &verdict));
    let row = asked.row();
    let side = |leads: &[Lead]| shown::side(&sheet.moments, leads);
    let (from, to, start) = (side(&row.right), side(&row.left), start_of(sheet, question));
    let Settled { problem, answer: record, .. } = settled;
    Ok(Span { from, to, start, problem, record, verdict, expected, as_expected, kept, body, what_if: wishes.what_if })
}

/// Whether an answer is the expected one, in the verdict program's words.
fn same(expected: Expected, verdict: &Verdict) -> bool {
    match verdict {
        Verdict::Accepted(outcome) | Verdict::Cases(outcome, _) => expected.to_string() == outcome.to_string(),
        _ => false,
    }
}

/// The names of the moments that a span starts from, where the anchor, which every plan has, is none of them.
fn start_of(sheet: &Sheet, question: usize) -> Vec<String> {
    let leads = &sheet.questions[question].row.right;
    let named = (1..leads.len()).filter(|&moment| leads[moment].is_some() && leads[0].is_none());
    named.map(|moment| shown::name(&sheet.moments[moment].name)).collect()
}

impl Asked<'_> {
    fn row(&self) -> &Row {
        &self.sheet.questions[self.question].row
    }

    /// The answer to the span's own problem.
    fn own(&self, problem: Vec<u8>, answer: &[u8]) -> Settled {
        let sources: Vec<Vec<Source>> = (0..self.sheet.rules.len()).map(|place| vec![Source::Rule(place)]).collect();
        let named = span::reasons(&problem, answer).map_or(Vec::new(), |named| named.rules);
        let behind = named.iter().map(|number| Source::Rule(number - 1)).collect();
        let stamps = stamps(self.sheet, answer).unwrap_or_default();
        Settled { problem, answer: answer.to_vec(), sources, stamps, behind }
    }

    /// The answer with opening hours kept. Where the plan of the span's own answer is open already, that is it.
    fn kept(&self, hours: &Hours, alone: Outcome, own: Settled) -> Result<Answered, Error> {
        let (problem, answer) = (own.problem.clone(), own.answer.clone());
        let kept = |cases: usize| {
            let (problem, answer) = (problem.clone(), answer.clone());
            Some(Kept { moments: hours.moments.clone(), cases, alone, problem, answer })
        };
        let open = |&moment: &usize| own.stamps[moment].is_none_or(|stamp| hours.open(stamp));
        if !own.stamps.is_empty() && hours.moments.iter().all(open) {
            let body = self.body(alone, &own)?;
            return Ok((Verdict::Accepted(alone), kept(1), body, own));
        }
        let Found { outcome, case, cases, behind, .. } = self.asker.explained(&self.laws, self.row())?;
        let outcome = match outcome {
            Ok(outcome) => outcome,
            Err(stopped) => return Ok((Verdict::Stopped, kept(cases), Body::Stopped(stopped), own)),
        };
        // The opening hours cost nothing: what holds the span up is behind the span's own answer.
        let behind = if outcome == alone { own.behind.clone() } else { behind };
        let settled = match case {
            Some(case) => {
                let stamps = case.stamps().unwrap_or_default();
                Settled { problem: case.problem, answer: case.answer, sources: case.sources, stamps, behind }
            }
            None => Settled { behind, stamps: Vec::new(), ..own },
        };
        let verdict = match outcome {
            Outcome::NoPlan => Verdict::Cases(outcome, cases),
            _ => Verdict::Accepted(outcome),
        };
        let body = match outcome {
            Outcome::NoPlan => Body::None(self.shut(&settled.behind)?),
            _ => self.body(outcome, &settled)?,
        };
        Ok((verdict, kept(cases), body, settled))
    }

    /// Why no plan keeps the rules and the opening hours.
    fn shut(&self, behind: &BTreeSet<Source>) -> Result<why::Blocked, Error> {
        grounds::narrowed(&self.asker, &self.laws, self.row(), None, behind, &[]).map(why::Blocked::Shut)
    }

    fn body(&self, outcome: Outcome, settled: &Settled) -> Result<Body, Error> {
        Ok(match outcome {
            Outcome::Least(minutes) => Body::Least(Box::new(self.least(minutes, settled)?)),
            Outcome::Bottomless => Body::Bottomless(why::loose(self.sheet, self.question)?),
            Outcome::NoPlan => Body::None(why::blocked(self.sheet, self.question)?),
        })
    }

    fn least(&self, minutes: i32, settled: &Settled) -> Result<Least, Error> {
        let (sheet, question) = (self.sheet, self.question);
        if settled.stamps.is_empty() {
            return Err(Error::NoPlan);
        }
        let wished = match sheet.wishes.is_empty() {
            true => None,
            false => Some(choice::chosen(&self.asker, &self.laws, self.row(), minutes, &sheet.wishes)?),
        };
        let stamps = wished.as_ref().and_then(|chosen| chosen.judged.as_ref()?.stamps());
        let stamps = stamps.unwrap_or_else(|| settled.stamps.clone());
        let mut reasons = reasons::behind(sheet, &settled.problem, &settled.answer, &settled.sources);
        let chain = reasons.as_ref().map_or(&[][..], |reasons| &reasons.steps);
        let grounds = grounds::narrowed(&self.asker, &self.laws, self.row(), Some(minutes), &settled.behind, chain)?;
        // A chain by opening hours that are not needed is that of one case, and not of all.
        let other =
            |step: &Option<Source>| matches!(step, Some(source @ Source::Hours(_)) if !grounds.needed.contains(source));
        if let Some(reasons) = reasons.as_mut().filter(|reasons| reasons.steps.iter().any(other)) {
            reasons.round.clear();
            reasons.steps.clear();
        }
        let what_if = match self.wishes.what_if {
            true => what_if::tried(&self.asker, &self.laws, self.row(), &grounds.needed)?,
            false => Vec::new(),
        };
        let slack = self.slack(minutes, &stamps)?;
        let mut plan = plan(sheet, question, &stamps);
        for placed in &mut plan {
            placed.times = slack.of(placed.moment);
            placed.round = reasons.as_ref().is_some_and(|reasons| reasons.round.contains(&placed.moment));
            placed.door = placed.stamp.and_then(|stamp| opening::door(sheet, placed.moment, stamp, placed.times));
        }
        opening::together(sheet, question, minutes, &mut plan)?;
        let left_out = |placed: &&Placed| placed.stamp.is_none() && !placed.free;
        let left_out: Vec<usize> = plan.iter().filter(left_out).map(|placed| placed.moment).collect();
        let never = why::never(sheet, &left_out)?;
        let early = why::early(sheet, &stamps)?;
        plan.iter_mut().for_each(|placed| placed.early = early.contains(&placed.moment));
        let group = self.row().right.iter().zip(&stamps);
        let start = group.filter_map(|(lead, stamp)| Some((*lead)? + (*stamp)?)).max().unwrap_or(0);
        Ok(Least { minutes, start, plan, slack, reasons, grounds, never, chosen: wished, what_if })
    }

    /// Earliest and latest times, where they are asked for; with opening hours, each moment within the window in which it is planned,
    /// and without those of a moment that is left out.
    fn slack(&self, minutes: i32, stamps: &[Lead]) -> Result<Slack, Error> {
        if !self.wishes.times {
            return Ok(Slack::default());
        }
        let mut laws = self.laws.clone();
        if let Some(hours) = &self.asker.hours {
            for &moment in &hours.moments {
                let range = hours.at(stamps[moment]).unwrap_or(hours.any());
                laws.extend(hours.laws(moment, range, stamps.len()));
            }
        }
        let mut slack = times::at_span(&laws, self.row(), minutes)?;
        for &moment in self.asker.hours.iter().flat_map(|hours| &hours.moments) {
            if stamps[moment].is_none() {
                slack.times[moment] = None;
            }
        }
        Ok(slack)
    }
}

fn stamps(sheet: &Sheet, answer: &[u8]) -> Option<Vec<Lead>> {
    match span::read(answer, sheet.moments.len() - 1, sheet.rules.len()) {
        Ok(Answer::Least { stamps, .. }) => Some(stamps),
        _ => None,
    }
}

/// The moments in the order of time, those that are left out behind, and the free ones last. Equal minutes stand in the order that the
/// rules give.
fn plan(sheet: &Sheet, question: usize, stamps: &[Lead]) -> Vec<Placed> {
    let ranks = order::ranks(sheet, stamps);
    let mut plan: Vec<Placed> = stamps
        .iter()
        .enumerate()
        .map(|(moment, &stamp)| Placed {
            moment,
            name: sheet.moments[moment].name.clone(),
            stamp,
            free: vain::free(sheet, question, moment),
            times: None,
            door: None,
            round: false,
            early: false,
        })
        .collect();
    plan.sort_by_key(|placed| (placed.free, placed.stamp.is_none(), placed.stamp, ranks[placed.moment]));
    plan
}

/// What a record claims that the checker did not accept. Its picks are not told: they hold nothing up.
fn claim(sheet: &Sheet, question: usize, answer: &[u8]) -> Body {
    let words = match span::read(answer, sheet.moments.len() - 1, sheet.rules.len()) {
        Err(_) => "The record does not have the layout of an answer to this problem, so that it claims nothing.".into(),
        Ok(Answer::Least { span, .. }) => {
            format!("The record claims a least span of {span} minutes. Nothing shows that this is so.")
        }
        Ok(Answer::Bottomless { .. }) => {
            "The record claims that spans are bottomless. Nothing shows that this is so.".into()
        }
        Ok(Answer::NoPlan { .. }) => "The record claims that no plan has a span. Nothing shows that this is so.".into(),
    };
    let plan = stamps(sheet, answer).map_or(Vec::new(), |stamps| plan(sheet, question, &stamps));
    Body::Claim(words, plan)
}
