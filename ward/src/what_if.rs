//! What the least span would be if one of the rules behind it were lifted, or eased by some minutes: a table for the meeting at which
//! rules are made. All other rules of the text stay, and opening hours are kept; each answer is judged.

use span::Outcome;
use ward_reader::sheet::Row;

use crate::cases::{Asker, Stopped};
use crate::error::Error;
use crate::laws::{fits, Law, Source};

/// By how many minutes a rule is eased.
pub const EASED: [i32; 3] = [5, 10, 15];

/// What the answer is then, or why there is no telling.
pub type Then = Result<Outcome, Stopped>;

/// A rule, or the opening hours of a moment, and what the answer is without it and with it eased.
#[derive(Clone, Debug, PartialEq, Eq)]
pub struct Trial {
    pub source: Source,
    pub lifted: Then,
    /// For each number of minutes; nothing where a lead would pass its limit, and for opening hours.
    pub eased: [Option<Then>; EASED.len()],
}

/// Tries each of some rules and hours.
pub fn tried(asker: &Asker, laws: &[Law], question: &Row, sources: &[Source]) -> Result<Vec<Trial>, Error> {
    sources.iter().map(|&source| trial(asker, laws, question, source)).collect()
}

fn trial(asker: &Asker, laws: &[Law], question: &Row, source: Source) -> Result<Trial, Error> {
    let others: Vec<Law> = laws.iter().filter(|law| law.source != source).cloned().collect();
    let lifted = match source {
        Source::Hours(moment) => asker.without(moment).ask(laws, question)?.outcome,
        _ => asker.ask(&others, question)?.outcome,
    };
    let mut eased = [None; EASED.len()];
    for (then, minutes) in eased.iter_mut().zip(EASED) {
        let rule = laws.iter().find(|law| law.source == source).and_then(|law| less(law, minutes));
        if let Some(rule) = rule {
            *then = Some(asker.ask(&[&others[..], &[rule]].concat(), question)?.outcome);
        }
    }
    Ok(Trial { source, lifted, eased })
}

/// A rule whose left side is so many minutes earlier; nothing where a lead would pass its limit.
fn less(law: &Law, minutes: i32) -> Option<Law> {
    let left = law.left.iter().map(|lead| lead.map(|lead| lead - minutes)).collect::<Vec<_>>();
    left.iter().flatten().all(|&lead| fits(lead)).then(|| Law { left, ..law.clone() })
}
