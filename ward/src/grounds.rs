//! The rules and opening hours that hold an answer up, narrowed until none of them can be left out: one after another is left out
//! where the answer stays without it, and each time the checker judges. Fewer rules leave more plans, so that what is needed among
//! some rules is needed among fewer of them too, and one pass is enough.

use std::collections::BTreeSet;

use ward_reader::sheet::Row;

use crate::cases::Asker;
use crate::error::Error;
use crate::laws::{Law, Source};

/// What holds an answer up.
#[derive(Clone, Debug, Default, PartialEq, Eq)]
pub struct Grounds {
    /// Rules ascending, then hours.
    pub needed: Vec<Source>,
    /// Some could not be tried: the cases were too many.
    pub untried: bool,
}

/// Whether an answer stays with a part of its rules and hours: no plan has a span below the bound, or, without one, none has a span.
struct Held<'h> {
    asker: &'h Asker,
    laws: &'h [Law],
    question: &'h Row,
    bound: Option<i32>,
}

impl Held<'_> {
    fn stays(&self, part: &[Source]) -> Result<Option<bool>, Error> {
        let laws: Vec<Law> = self.laws.iter().filter(|law| part.contains(&law.source)).cloned().collect();
        let hours = part.iter().filter_map(|source| match source {
            Source::Hours(moment) => Some(*moment),
            _ => None,
        });
        let below = self.asker.below(&laws, &hours.collect::<Vec<_>>(), self.question, self.bound)?;
        Ok(below.map(|below| !below))
    }
}

impl Held<'_> {
    /// Leaves out so many at a time where the answer stays; whether some could not be tried.
    fn drop(&self, part: &mut Vec<Source>, size: usize) -> Result<bool, Error> {
        let mut untried = false;
        let mut place = 0;
        while place < part.len() {
            let end = part.len().min(place + size);
            let left: Vec<Source> = part.drain(place..end).collect();
            match self.stays(part)? {
                Some(true) => {}
                stays => {
                    untried |= stays.is_none();
                    part.splice(place..place, left);
                    place = end;
                }
            }
        }
        Ok(untried)
    }
}

/// Narrows what is behind an answer: a least span, which is the bound, or none. The answer stays with what it starts from; where that
/// should not be so, it starts from all rules and hours. Those of the chain that binds it are tried last, so that they stay.
pub fn narrowed(
    asker: &Asker,
    laws: &[Law],
    question: &Row,
    bound: Option<i32>,
    behind: &BTreeSet<Source>,
    last: &[Option<Source>],
) -> Result<Grounds, Error> {
    let held = Held { asker, laws, question, bound };
    let mut part: Vec<Source> = behind.iter().copied().collect();
    if held.stays(&part)? != Some(true) {
        let hours = asker.hours.iter().flat_map(|hours| hours.moments.iter().map(|&moment| Source::Hours(moment)));
        part = laws.iter().map(|law| law.source).chain(hours).collect();
    }
    part.sort_by_key(|source| (last.contains(&Some(*source)), *source));
    // Several at once first, since most are not needed.
    let mut size = part.len() / 2;
    while size > 1 {
        held.drop(&mut part, size)?;
        size /= 2;
    }
    let untried = held.drop(&mut part, 1)?;
    part.sort();
    Ok(Grounds { needed: part, untried })
}
