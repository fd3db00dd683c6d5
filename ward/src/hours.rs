//! When the ward is open, as minutes from the anchor, and at which moments it must be.
//!
//! A window is kept by two rules with leads from the anchor, and these reach 14 days: so do the windows here, and all that is asked
//! with them. Whether the ward is open at a minute is always asked of the archive.

use ward_reader::clock::{DAY, WEEK};
use ward_reader::{limits, vain, Lead, Sheet};

use crate::archive;
use crate::laws::{fits, only, Law, Source};

/// Opening hours that a plan must keep.
#[derive(Clone, Debug)]
pub struct Hours {
    /// The moments at which the ward must be open.
    pub moments: Vec<usize>,
    /// The first and the last open minute of each window, in their order. Windows that meet are one.
    pub windows: Vec<(i32, i32)>,
    week: Vec<span::Window>,
    /// The anchor, in minutes from a Monday 0:00.
    monday: i32,
}

/// From which window to which a moment may be. Windows count from 1; 0 is to be left out, and one more than there are is any later
/// time.
#[derive(Clone, Copy, Debug, PartialEq, Eq)]
pub struct Range {
    pub from: usize,
    pub to: usize,
}

impl Hours {
    /// The hours that a span's plans must keep, where a text says at which moments. A moment that no rule speaks of needs none.
    pub fn of(sheet: &Sheet, question: usize) -> Option<Hours> {
        let moments: Vec<usize> =
            sheet.admits.iter().copied().filter(|&moment| !vain::free(sheet, question, moment)).collect();
        let anchor = sheet.anchor.filter(|_| !moments.is_empty() && !sheet.week.is_empty())?;
        let monday = anchor.day? as i32 * DAY + anchor.minute;
        let week = archive::week(&sheet.week);
        let windows = windows(&week, monday);
        Some(Hours { moments, windows, week, monday })
    }

    /// The same for some of the moments alone.
    pub fn only(&self, moments: &[usize]) -> Hours {
        self.in_order(self.moments.iter().copied().filter(|moment| moments.contains(moment)).collect())
    }

    /// The same with these moments.
    pub fn in_order(&self, moments: Vec<usize>) -> Hours {
        Hours { moments, ..self.clone() }
    }

    /// Whether a minute lies within the days that leads reach, and the ward is open then, as the archive says.
    pub fn open(&self, stamp: i32) -> bool {
        fits(stamp)
            && stamp
                .checked_add(self.monday)
                .is_some_and(|minute| span::first_open(&self.week, minute) == Ok(Some(minute)))
    }

    /// A moment that may be at any time, or be left out.
    pub fn any(&self) -> Range {
        Range { from: 0, to: self.windows.len() + 1 }
    }

    /// How many windows lie before a minute.
    pub fn before(&self, stamp: i32) -> usize {
        self.windows.iter().take_while(|(_, last)| *last < stamp).count()
    }

    /// The window of a minute, or that a moment is left out.
    pub fn at(&self, stamp: Lead) -> Option<Range> {
        let Some(stamp) = stamp else { return Some(Range { from: 0, to: 0 }) };
        let number = self.before(stamp) + 1;
        let (first, _) = self.windows.get(number - 1)?;
        (*first <= stamp).then_some(Range { from: number, to: number })
    }

    /// The rules that keep a moment within a range.
    pub fn laws(&self, moment: usize, range: Range, count: usize) -> Vec<Law> {
        let law = |left: Vec<Lead>, right: Vec<Lead>| Law { source: Source::Hours(moment), left, right };
        let mut laws = Vec::new();
        if let Some((first, _)) = range.from.checked_sub(1).and_then(|place| self.windows.get(place)) {
            laws.push(law(only(0, count, *first), only(moment, count, 0)));
        }
        match range.to.checked_sub(1) {
            None => laws.push(law(only(moment, count, 0), vec![None; count])),
            Some(place) => {
                laws.extend(self.windows.get(place).map(|(_, last)| law(only(moment, count, 0), only(0, count, *last))))
            }
        }
        laws
    }
}

/// The windows of the weeks around the anchor, as far as leads reach.
fn windows(week: &[span::Window], monday: i32) -> Vec<(i32, i32)> {
    let reach = limits::LEAD;
    let mut windows: Vec<(i32, i32)> = Vec::new();
    for number in -4..=4 {
        for window in week {
            let first = (window.opening as i32 + number * WEEK - monday).max(-reach);
            let last = (window.closing as i32 - 1 + number * WEEK - monday).min(reach);
            match windows.last_mut() {
                _ if first > last => {}
                Some(before) if before.1 + 1 >= first => before.1 = last,
                _ => windows.push((first, last)),
            }
        }
    }
    windows
}
