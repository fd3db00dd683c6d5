//! Room for one rule more. Rules with the same right side are one rule whose left side has the later of both for each moment: a
//! plan keeps the one exactly when it keeps the others. Minutes can be taken off both sides of a rule first, which changes nothing
//! either, so that more of them have the same right side.

use std::collections::{BTreeMap, BTreeSet};

use ward_reader::{limits, Lead};

use crate::laws::{fits, Law, Source};

/// A rule, with all that it comes from.
pub type Joined = (Vec<Source>, Law);

/// Rules that a record has room for: as they are, or joined; nothing where there are still too many.
pub fn fitted(laws: &[Law]) -> Option<Vec<Joined>> {
    if laws.len() <= limits::RULES {
        return Some(laws.iter().map(|law| (vec![law.source], law.clone())).collect());
    }
    Some(joined(laws)).filter(|joined| joined.len() <= limits::RULES)
}

/// Rules joined by their right sides, in the order in which these come.
pub fn joined(laws: &[Law]) -> Vec<Joined> {
    let mut places: BTreeMap<Vec<Lead>, usize> = BTreeMap::new();
    let mut joined: Vec<Joined> = Vec::new();
    for law in laws {
        let law = levelled(law);
        match places.get(&law.right) {
            Some(&place) => {
                let (sources, into) = &mut joined[place];
                sources.push(law.source);
                for (lead, more) in into.left.iter_mut().zip(&law.left) {
                    *lead = (*lead).max(*more);
                }
            }
            None => {
                places.insert(law.right.clone(), joined.len());
                joined.push((vec![law.source], law));
            }
        }
    }
    joined
}

/// A rule with minutes taken off both sides, so that the first lead of its right side is 0, where all leads stay within the limit.
fn levelled(law: &Law) -> Law {
    let Some(off) = law.right.iter().flatten().next().copied() else { return law.clone() };
    let less = |leads: &[Lead]| -> Option<Vec<Lead>> {
        leads
            .iter()
            .map(|lead| lead.map_or(Some(None), |lead| Some(lead - off).filter(|&lead| fits(lead)).map(Some)))
            .collect()
    };
    match (less(&law.left), less(&law.right)) {
        (Some(left), Some(right)) => Law { source: law.source, left, right },
        _ => law.clone(),
    }
}

/// The moments that hang together with some others by rules. The anchor, which stands still, ties nothing to anything.
pub fn tied(laws: &[Law], from: &BTreeSet<usize>) -> BTreeSet<usize> {
    let mut found = from.clone();
    loop {
        let before = found.len();
        for law in laws {
            let own = moments(law);
            if own.iter().any(|moment| found.contains(moment)) {
                found.extend(own);
            }
        }
        if found.len() == before {
            return found;
        }
    }
}

/// The rules that speak of some moments.
pub fn about<'l>(laws: &'l [Law], found: &'l BTreeSet<usize>) -> impl Iterator<Item = &'l Law> {
    laws.iter().filter(move |law| moments(law).iter().any(|moment| found.contains(moment)))
}

/// The moments of a rule, without the anchor.
fn moments(law: &Law) -> Vec<usize> {
    (1..law.left.len()).filter(|&moment| law.left[moment].is_some() || law.right[moment].is_some()).collect()
}
