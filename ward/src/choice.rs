//! Which plan is told: the one of the record, or, where a text says so, the one in which some moments are as early or as late as can
//! be. They are asked for one after another, and each is held where it was found before the next is asked for: no plan is the
//! earliest in all moments at once. Each answer is judged.

use span::Outcome;
use ward_reader::limits;
use ward_reader::sheet::{Row, Way, Wish};

use crate::cases::{Asker, Found, Stopped};
use crate::error::Error;
use crate::laws::{only, row, Judged, Law};
use crate::times::{at_most, earliest, latest};

/// Where a moment was found that a text wants early or late.
#[derive(Clone, Copy, Debug, PartialEq, Eq)]
pub enum Place {
    At(i32),
    /// There, by the cases of opening hours: within 14 days of the anchor.
    Within(i32),
    /// It can be as early or as late as one likes, or, wanted early, be left out: it is not held.
    NoLimit,
    /// No such plan has it.
    Never,
    /// It could not be asked for.
    NotTold(Stopped),
}

/// A plan that was chosen, and where each wish led.
#[derive(Clone, Debug)]
pub struct Chosen {
    pub wishes: Vec<(Wish, Place)>,
    /// The last answer, whose plan is told; nothing where the record's own plan stays.
    pub judged: Option<Judged>,
}

/// Chooses among the plans that have this span.
pub fn chosen(asker: &Asker, laws: &[Law], question: &Row, span: i32, wishes: &[Wish]) -> Result<Chosen, Error> {
    let Some(rule) = at_most(question, span) else {
        let told = wishes.iter().map(|&wish| (wish, Place::NotTold(Stopped::Rules)));
        return Ok(Chosen { wishes: told.collect(), judged: None });
    };
    let mut laws = laws.to_vec();
    laws.push(Law::added(rule));
    let first = tried(asker, laws.clone(), question, span, wishes)?;
    if first.judged.is_some() || asker.hours.is_none() {
        return Ok(first);
    }
    laws.extend(counting(question));
    let mut second = tried(asker, laws, question, span, wishes)?;
    for (_, place) in &mut second.wishes {
        *place = match (*place, &second.judged) {
            (_, None) => Place::NotTold(Stopped::Cases),
            (Place::At(minute), _) => Place::Within(minute),
            (place, _) => place,
        };
    }
    Ok(second)
}

/// Where the wishes lead, one after another, and the plan that keeps to all of them, if one that counts does.
fn tried(asker: &Asker, mut laws: Vec<Law>, question: &Row, span: i32, wishes: &[Wish]) -> Result<Chosen, Error> {
    let mut told = Vec::new();
    for &wish in wishes {
        let row = match wish.way {
            Way::Early => earliest(wish.moment, question.left.len()),
            Way::Late => latest(wish.moment, question.left.len()),
        };
        let place = place(asker, &mut laws, &row, wish)?;
        told.push((wish, place));
    }
    let judged = asker.ask(&laws, question)?.case.filter(|case| case.outcome == Outcome::Least(span));
    Ok(Chosen { wishes: told, judged })
}

/// Within a case of opening hours there may be plans without the span's start alone, which do not count. Where such a plan led a wish, the
/// start must be there, 14 days before the anchor or later.
fn counting(question: &Row) -> Option<Law> {
    let count = question.left.len();
    let rule = row(only(0, count, -limits::LEAD), question.right.clone());
    question.right[0].is_none().then(|| Law::added(rule))
}

/// Where a moment is, which is held there from now on. One that needs an open ward and is wanted early is looked for in the windows,
/// like one that is wanted late, where being left out would be the earliest of all.
fn place(asker: &Asker, laws: &mut Vec<Law>, row: &Row, wish: Wish) -> Result<Place, Error> {
    let mut found = asker.ask(laws, row)?;
    let way = wish.way;
    let admitted = asker.hours.as_ref().is_some_and(|hours| hours.moments.contains(&wish.moment));
    if admitted && way == Way::Early && found.outcome == Ok(Outcome::Bottomless) {
        let count = row.left.len();
        let there = Law::added(self::row(only(0, count, -limits::LEAD), only(wish.moment, count, 0)));
        let again = asker.ask(&[&laws[..], std::slice::from_ref(&there)].concat(), row)?;
        if matches!(again.outcome, Ok(Outcome::Least(_))) {
            laws.push(there);
            found = Found { alone: None, ..again };
        }
    }
    Ok(match found.outcome {
        Ok(Outcome::Least(minutes)) => match at_most(row, minutes) {
            Some(rule) => {
                laws.push(Law::added(rule));
                let minute = if way == Way::Early { minutes } else { -minutes };
                match found.alone == Some(Outcome::Least(minutes)) {
                    true => Place::At(minute),
                    false => Place::Within(minute),
                }
            }
            None => Place::NotTold(Stopped::Rules),
        },
        Ok(Outcome::Bottomless) => Place::NoLimit,
        Ok(Outcome::NoPlan) => Place::Never,
        Err(stopped) => Place::NotTold(stopped),
    })
}
