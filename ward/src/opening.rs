//! Whether the ward is open at the times of a plan (document 02, 2.8).

use span::Outcome;
use ward_reader::clock::{Window, DAY, WEEK};
use ward_reader::Sheet;

use crate::answer::Placed;
use crate::archive;
use crate::error::Error;
use crate::laws::{self, fits, only, Law};
use crate::times::{self, Bound, Times};

/// The ward at a moment. Times are minutes from the anchor.
#[derive(Clone, Copy, Debug, PartialEq, Eq)]
pub enum Door {
    Open,
    Shut {
        /// When it opens next.
        opens: i32,
        fits: Fits,
    },
    /// A time that is too far away to be looked up.
    Far,
}

/// Whether a moment that is planned while the ward is shut can be at a time at which it is open, with the same span.
#[derive(Clone, Copy, Debug, PartialEq, Eq)]
pub enum Fits {
    /// Nobody tried.
    NotTried,
    /// Not at any time.
    No,
    /// At this time alone; not with the other moments that are looked at, each at such a time or within its open hours.
    Alone(i32),
    /// At this time, with all others that are looked at.
    Together(i32),
}

/// Why the archive refuses a window, the first of a week that it does, and what to write.
pub fn why_wrong(week: &[Window], wrong: &Window) -> (&'static str, &'static str) {
    let place = week.iter().position(|window| window == wrong).unwrap_or(0);
    let before = place.checked_sub(1).and_then(|place| week.get(place));
    match before {
        _ if wrong.closing <= wrong.opening => {
            ("the ward closes before it opens", "a window ends by 24:00; what is behind is one of the next day")
        }
        Some(before) if before.closing > wrong.opening => (
            "two windows are open at the same time",
            "the hours of a day stand in one place, and have no minute in common",
        ),
        _ => ("there are more than 14 windows in a week", "write windows that meet as one, or leave some out"),
    }
}

/// Whether a text asks for a moment's door.
fn asked(sheet: &Sheet, moment: usize) -> bool {
    !sheet.week.is_empty() && (sheet.admits.is_empty() && moment != 0 || sheet.admits.contains(&moment))
}

/// The ward at a moment that is planned at this minute.
pub fn door(sheet: &Sheet, moment: usize, stamp: i32, times: Option<Times>) -> Option<Door> {
    let anchor = sheet.anchor.filter(|_| asked(sheet, moment))?;
    let monday = anchor.day? as i32 * DAY + anchor.minute;
    let week = archive::week(&sheet.week);
    let first_open = |stamp: i32| {
        let minute = stamp.checked_add(monday)?;
        span::first_open(&week, minute).ok().flatten().and_then(|minute| minute.checked_sub(monday))
    };
    Some(match first_open(stamp) {
        None => Door::Far,
        Some(opens) if opens == stamp => Door::Open,
        Some(opens) => {
            Door::Shut { opens, fits: times.map_or(Fits::NotTried, |times| fitting(times, stamp, first_open)) }
        }
    })
}

/// The first open minute between the earliest and the latest time. Where a moment has no earliest time, it is looked for from
/// the planned time on.
fn fitting(times: Times, stamp: i32, first_open: impl Fn(i32) -> Option<i32>) -> Fits {
    let from = match times.earliest {
        Bound::At(minute) => minute,
        _ => stamp,
    };
    match (first_open(from), times.latest) {
        (None, _) => Fits::NotTried,
        (Some(open), Bound::At(latest)) if open > latest => Fits::No,
        (_, Bound::Never) => Fits::No,
        (Some(open), _) => Fits::Alone(open),
    }
}

/// Tries the open times of all moments that are looked at in one plan with this span: those that are shut at the planned time at
/// their first open time, the others within the hours in which they are planned.
pub fn together(sheet: &Sheet, question: usize, span: i32, plan: &mut [Placed]) -> Result<(), Error> {
    let alone = |placed: &Placed| matches!(placed.door, Some(Door::Shut { fits: Fits::Alone(_), .. }));
    if !plan.iter().any(alone) {
        return Ok(());
    }
    let bounds: Option<Vec<(usize, i32, i32)>> =
        plan.iter().filter(|placed| placed.door.is_some()).map(|placed| bounds(sheet, placed)).collect();
    let fit = match bounds {
        Some(bounds) => tried(sheet, question, span, &bounds)?,
        None => Some(false),
    };
    for placed in plan.iter_mut() {
        if let Some(Door::Shut { fits, .. }) = &mut placed.door {
            *fits = match (*fits, fit) {
                (Fits::Alone(open), Some(true)) => Fits::Together(open),
                (Fits::Alone(_), None) => Fits::NotTried,
                (fits, _) => fits,
            };
        }
    }
    Ok(())
}

/// From when to when a moment is tried; nothing where it has no open time.
fn bounds(sheet: &Sheet, placed: &Placed) -> Option<(usize, i32, i32)> {
    let stamp = placed.stamp?;
    match placed.door? {
        Door::Shut { fits: Fits::Alone(open), .. } => Some((placed.moment, open, open)),
        Door::Open => {
            let anchor = sheet.anchor?;
            let monday = anchor.day? as i32 * DAY + anchor.minute;
            let minute = (stamp + monday).rem_euclid(WEEK);
            let window =
                sheet.week.iter().find(|window| (window.opening as i32..window.closing as i32).contains(&minute))?;
            let (before, behind) = (minute - window.opening as i32, window.closing as i32 - 1 - minute);
            Some((placed.moment, stamp - before, stamp + behind))
        }
        _ => None,
    }
}

/// Whether a plan with this span keeps the rules with moments within these bounds; nothing where that cannot be asked.
fn tried(sheet: &Sheet, question: usize, span: i32, bounds: &[(usize, i32, i32)]) -> Result<Option<bool>, Error> {
    let count = sheet.moments.len();
    let Some(most) = times::at_most(&sheet.questions[question].row, span) else { return Ok(None) };
    let mut laws = laws::in_force(sheet);
    laws.push(Law::added(most));
    for &(moment, from, to) in bounds {
        if !fits(from) || !fits(to) {
            return Ok(None);
        }
        laws.push(Law::added(laws::row(only(0, count, from), only(moment, count, 0))));
        laws.push(Law::added(laws::row(only(moment, count, 0), only(0, count, to))));
    }
    // The plan must count (document 02, 2.4): the span's own question is put.
    let judged = laws::judged(&laws, &sheet.questions[question].row)?;
    Ok(judged.map(|judged| judged.outcome == Outcome::Least(span)))
}
