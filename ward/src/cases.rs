//! The least span of the plans that keep the rules and the opening hours.
//!
//! That a moment is in a window is two rules, and that it is in one of several is none. So the plans are cut into cases: where the
//! plan of a case has a moment at which the ward is shut, each open plan of the case has it in an earlier window, or leaves it out,
//! or has it in a later one. Each case is answered by the engine and judged by the checker. The case with the smallest span is cut
//! first; one whose plan is open throughout has the least span of all, for no other case has a smaller one. That the cases leave no
//! open plan out is argued here and tried, not proved.

use std::cell::Cell;
use std::cmp::Reverse;
use std::collections::{BTreeMap, BTreeSet};
use std::rc::Rc;

use span::Outcome;
use ward_reader::sheet::Row;
use ward_reader::Lead;

use crate::error::Error;
use crate::hours::{Hours, Range};
use crate::laws::{again, judged, Judged, Law, Source};
use crate::room;

/// The most cases of one question, and of all questions of a span together.
pub const CASES: usize = 20_000;
pub const ALL_CASES: usize = 60_000;

/// Why a question has no answer here.
#[derive(Clone, Copy, Debug, PartialEq, Eq)]
pub enum Stopped {
    /// The rules and those of the opening hours are too many for a record.
    Rules,
    /// The cases are too many.
    Cases,
}

/// What was found of a question.
#[derive(Clone, Debug)]
pub struct Found {
    /// The answer over all cases.
    pub outcome: Result<Outcome, Stopped>,
    /// The case that has it, for least and bottomless; for none, the one case where there is one only.
    pub case: Option<Judged>,
    /// How many cases were judged.
    pub cases: usize,
    /// The answer without opening hours.
    pub alone: Option<Outcome>,
    /// The rules and hours that the judged answers name which bound the cases.
    pub behind: BTreeSet<Source>,
}

/// Puts questions over rules; opening hours are kept where they are handed over.
pub struct Asker {
    pub hours: Option<Hours>,
    /// How many cases may still be judged.
    left: Rc<Cell<usize>>,
}

/// What is looked for.
#[derive(Clone, Copy, PartialEq, Eq)]
enum Wanted {
    /// The least span.
    Least,
    /// The least span, and what is behind it.
    Explained,
    /// Any span that is below a bound, if there is one.
    Below(Option<i32>),
}

/// A case that was judged: the plans that have each moment within its range. Its problem can be put again, and is not kept.
struct Case {
    ranges: Vec<Range>,
    outcome: Outcome,
    answer: Vec<u8>,
    stamps: Vec<Lead>,
}

impl Asker {
    pub fn new(hours: Option<Hours>) -> Asker {
        Asker { hours, left: Rc::new(Cell::new(ALL_CASES)) }
    }

    /// The same with the hours of a moment not kept.
    pub fn without(&self, moment: usize) -> Asker {
        let others = |hours: &Hours| {
            let others: Vec<usize> = hours.moments.iter().copied().filter(|&other| other != moment).collect();
            hours.only(&others)
        };
        Asker { hours: self.hours.as_ref().map(others), left: self.left.clone() }
    }

    /// The answer to a question.
    pub fn ask(&self, laws: &[Law], question: &Row) -> Result<Found, Error> {
        self.search(self.hours.as_ref(), laws, question, Wanted::Least)
    }

    /// The answer to a question, with what is behind it.
    pub fn explained(&self, laws: &[Law], question: &Row) -> Result<Found, Error> {
        self.search(self.hours.as_ref(), laws, question, Wanted::Explained)
    }

    /// Whether some open plan has a span below this one, or a span at all; nothing where that is not known. Opening hours are those of
    /// these moments.
    pub fn below(
        &self,
        laws: &[Law],
        admitted: &[usize],
        question: &Row,
        bound: Option<i32>,
    ) -> Result<Option<bool>, Error> {
        let hours = self.hours.as_ref().map(|hours| hours.only(admitted));
        let found = self.search(hours.as_ref(), laws, question, Wanted::Below(bound))?;
        Ok(found.outcome.ok().map(|outcome| outcome != Outcome::NoPlan))
    }

    /// Where any plan below a bound will do, an answer that is not below it counts as none.
    fn search(&self, hours: Option<&Hours>, laws: &[Law], question: &Row, wanted: Wanted) -> Result<Found, Error> {
        let sorted = hours.map(|hours| sorted(hours, laws, question));
        let hours = sorted.as_ref();
        let mut search =
            Search { asker: self, hours, laws, question, wanted, waiting: BTreeMap::new(), found: nothing() };
        let ranges = hours.map_or(Vec::new(), |hours| vec![hours.any(); hours.moments.len()]);
        search.take(ranges)?;
        while let Some((_, case)) = search.waiting.pop_first() {
            if search.found.outcome.is_err() {
                break;
            }
            match search.cut(&case) {
                None => {
                    search.close(&case);
                    break;
                }
                Some(parts) => {
                    for ranges in parts {
                        search.take(ranges)?;
                    }
                }
            }
        }
        Ok(search.found)
    }
}

/// The hours with their moments in the order in which cases are cut: first those that rules tie to the span, then those that are tied
/// to each other. A quarrel among a few moments is then found before the windows of others are gone through.
fn sorted(hours: &Hours, laws: &[Law], question: &Row) -> Hours {
    let own = |moment: &usize| question.left[*moment].is_some() || question.right[*moment].is_some();
    let mut group: BTreeSet<usize> = (1..question.left.len()).filter(own).collect();
    let mut left = hours.moments.clone();
    let mut moments = Vec::new();
    while !left.is_empty() {
        let tied = room::tied(laws, &group);
        moments.extend(left.iter().copied().filter(|moment| tied.contains(moment)));
        left.retain(|moment| !tied.contains(moment));
        group = left.first().copied().into_iter().collect();
    }
    hours.in_order(moments)
}

fn nothing() -> Found {
    Found { outcome: Ok(Outcome::NoPlan), case: None, cases: 0, alone: None, behind: BTreeSet::new() }
}

struct Search<'s> {
    asker: &'s Asker,
    hours: Option<&'s Hours>,
    laws: &'s [Law],
    question: &'s Row,
    wanted: Wanted,
    /// Cases that may be cut: the smallest span first, and of several the one that came last.
    waiting: BTreeMap<(i64, Reverse<usize>), Case>,
    found: Found,
}

impl Search<'_> {
    /// Has a case answered and judged. One that has no plan, or none below the bound, is left at once.
    fn take(&mut self, ranges: Vec<Range>) -> Result<(), Error> {
        if self.found.outcome.is_err() {
            return Ok(());
        }
        let left = self.asker.left.get();
        if self.found.cases == CASES || left == 0 {
            self.found.outcome = Err(Stopped::Cases);
            return Ok(());
        }
        let Some(judged) = judged(&self.laws_of(&ranges), self.question)? else {
            self.found.outcome = Err(Stopped::Rules);
            return Ok(());
        };
        self.asker.left.set(left - 1);
        self.found.cases += 1;
        self.found.alone.get_or_insert(judged.outcome);
        match self.over(judged.outcome) {
            true => self.leave(judged),
            false => self.keep(ranges, judged),
        }
        Ok(())
    }

    /// The rules of a case.
    fn laws_of(&self, ranges: &[Range]) -> Vec<Law> {
        let mut laws = self.laws.to_vec();
        if let Some(hours) = self.hours {
            let pairs = hours.moments.iter().zip(ranges);
            laws.extend(pairs.flat_map(|(&moment, &range)| hours.laws(moment, range, self.question.left.len())));
        }
        laws
    }

    /// Whether a case has nothing that is looked for.
    fn over(&self, outcome: Outcome) -> bool {
        match (outcome, self.wanted) {
            (Outcome::NoPlan, _) => true,
            (Outcome::Least(span), Wanted::Below(Some(bound))) => span >= bound,
            _ => false,
        }
    }

    /// A case that is over. Where it is the only one, it is told.
    fn leave(&mut self, judged: Judged) {
        if self.wanted == Wanted::Explained {
            self.found.behind.extend(judged.named());
        }
        if self.found.cases == 1 {
            self.found.case = Some(judged);
        }
    }

    /// A case that may be cut: the smallest span first, and where any will do, the one that came last.
    fn keep(&mut self, ranges: Vec<Range>, judged: Judged) {
        let span = match (judged.outcome, self.wanted) {
            (Outcome::Least(span), Wanted::Least | Wanted::Explained) => i64::from(span),
            _ => i64::MIN,
        };
        let stamps = judged.stamps().unwrap_or_default();
        let case = Case { ranges, outcome: judged.outcome, answer: judged.answer, stamps };
        self.waiting.insert((span, Reverse(self.found.cases)), case);
    }

    /// The parts of a case, or nothing where it has the answer: its plan is open at all moments, or, bottomless, each moment is in one
    /// window.
    fn cut(&self, case: &Case) -> Option<Vec<Vec<Range>>> {
        let hours = self.hours?;
        let (place, before) = match case.outcome {
            Outcome::Least(_) => {
                let shut = |&place: &usize| case.stamps[hours.moments[place]].is_some_and(|stamp| !hours.open(stamp));
                let place = (0..hours.moments.len()).find(shut)?;
                (place, hours.before(case.stamps[hours.moments[place]]?))
            }
            _ => {
                let wide = |&place: &usize| case.ranges[place].to - case.ranges[place].from;
                let place = (0..hours.moments.len()).max_by_key(wide).filter(|place| wide(place) > 0)?;
                let Range { from, to } = case.ranges[place];
                (place, from + (to.min(hours.windows.len()) - from) / 2)
            }
        };
        let Range { from, to } = case.ranges[place];
        let parts =
            [Range { from, to: before.min(to) }, Range { from: from.max(before + 1), to: to.min(hours.windows.len()) }];
        let with = |range: Range| {
            let mut ranges = case.ranges.clone();
            ranges[place] = range;
            ranges
        };
        Some(parts.into_iter().filter(|range| range.from <= range.to).map(with).collect())
    }

    /// The case that has the answer. What is behind it, and behind those that were not cut any more, bounds them all.
    fn close(&mut self, case: &Case) {
        let named = |case: &Case| {
            let judged = again(&self.laws_of(&case.ranges), self.question, case.outcome, &case.answer);
            judged.map_or(Vec::new(), |judged| judged.named())
        };
        let behind: Vec<Source> = match self.wanted {
            Wanted::Explained => self.waiting.values().chain([case]).flat_map(named).collect(),
            _ => Vec::new(),
        };
        self.found.behind.extend(behind);
        self.found.outcome = Ok(case.outcome);
        self.found.case = again(&self.laws_of(&case.ranges), self.question, case.outcome, &case.answer);
    }
}
