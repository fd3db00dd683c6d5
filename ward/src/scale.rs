//! The scale of a timeline: which minutes it shows, and where its marks stand.

use ward_reader::clock::DAY;
use ward_reader::Sheet;

use crate::answer::Placed;
use crate::times::Bound;

/// Steps between marks, in minutes.
const STEPS: [i64; 18] =
    [1, 2, 5, 10, 15, 30, 60, 120, 180, 360, 720, 1_440, 2_880, 4_320, 10_080, 20_160, 40_320, 403_200];

/// The minutes from `low` to `high`, which differ.
#[derive(Clone, Debug, PartialEq, Eq)]
pub struct Scale {
    pub low: i64,
    pub high: i64,
    /// The minutes that have a mark, and how many lie between two of them.
    pub marks: Vec<i32>,
    pub step: i64,
}

/// The moments that a timeline shows.
pub fn drawn(plan: &[Placed]) -> impl Iterator<Item = (&Placed, i32)> {
    plan.iter().filter(|placed| !placed.free).filter_map(|placed| placed.stamp.map(|stamp| (placed, stamp)))
}

impl Scale {
    /// The plan's minutes and, as far as they are near, the times that moments can have; at most so many marks.
    pub fn of(sheet: &Sheet, plan: &[Placed], marks: usize) -> Scale {
        let stamps: Vec<i64> = drawn(plan).map(|(_, stamp)| stamp.into()).collect();
        let first = stamps.iter().min().copied().unwrap_or(0);
        let last = stamps.iter().max().copied().unwrap_or(0);
        let room = ((last - first) / 3).max(15);
        let bound = |bound: Bound| match bound {
            Bound::At(minute) => Some(i64::from(minute)),
            _ => None,
        };
        let times = || drawn(plan).filter_map(|(placed, _)| placed.times);
        let earliest = times().filter_map(|times| bound(times.earliest)).min().unwrap_or(first);
        let latest = times().filter_map(|times| bound(times.latest)).max().unwrap_or(last);
        let (low, high) = (earliest.clamp(first - room, first), latest.clamp(last, last + room));
        // A bar that goes on beyond an end is seen to do so.
        let beyond = ((high - low) / 12).max(1);
        let outside = |bound: Bound| bound != Bound::Never && !within(bound, low, high);
        let (before, after) =
            (times().any(|times| outside(times.earliest)), times().any(|times| outside(times.latest)));
        let (low, high) = (low - if before { beyond } else { 0 }, high + if after { beyond } else { 0 });
        let high = high.max(low + 1);
        let origin = sheet.anchor.map_or(0, |anchor| i64::from(anchor.minute));
        let step = STEPS.into_iter().find(|step| (high - low) / step < marks as i64).unwrap_or(i64::from(DAY) * 7_000);
        let first_mark = (low + origin).div_euclid(step) * step - origin;
        let marks =
            (0..).map(|k| first_mark + k * step).skip_while(|mark| *mark < low).take_while(|mark| *mark <= high);
        Scale { low, high, marks: marks.map(|mark| mark as i32).collect(), step }
    }

    /// Where a minute stands, 0 at the start and 1 at the end; what lies outside stands at the end that is nearer.
    pub fn place(&self, minute: i64) -> f64 {
        (minute.clamp(self.low, self.high) - self.low) as f64 / (self.high - self.low) as f64
    }
}

/// Whether a time is one of the minutes shown.
fn within(bound: Bound, low: i64, high: i64) -> bool {
    matches!(bound, Bound::At(minute) if (low..=high).contains(&i64::from(minute)))
}

/// How a bar ends.
#[derive(Clone, Copy, Debug, PartialEq, Eq)]
pub enum End {
    /// Where it ends.
    Here,
    /// Further than is shown.
    Further,
    /// Nowhere: nothing holds the moment on this side.
    NoLimit,
}

/// From where to where a moment can move, and how each end is.
pub struct Bar {
    pub from: i64,
    pub to: i64,
    pub before: End,
    pub after: End,
}

/// The bar of a moment that is planned at this minute.
pub fn bar(scale: &Scale, placed: &Placed, stamp: i32) -> Bar {
    let stamp = i64::from(stamp);
    let Some(times) = placed.times else { return Bar { from: stamp, to: stamp, before: End::Here, after: End::Here } };
    let end = |bound: Bound, shown: &dyn Fn(i64) -> bool, edge: i64| match bound {
        Bound::At(minute) if shown(minute.into()) => (i64::from(minute), End::Here),
        Bound::At(_) => (edge, End::Further),
        Bound::Open => (edge, End::NoLimit),
        Bound::Never => (stamp, End::Here),
    };
    let (from, before) = end(times.earliest, &|minute| minute >= scale.low, scale.low);
    let (to, after) = end(times.latest, &|minute| minute <= scale.high, scale.high);
    Bar { from, to, before, after }
}

/// The ends that the bars of a plan have, on each side.
pub fn ends(scale: &Scale, plan: &[Placed]) -> [Vec<End>; 2] {
    let bars = || drawn(plan).map(|(placed, stamp)| bar(scale, placed, stamp));
    [bars().map(|bar| bar.before).collect(), bars().map(|bar| bar.after).collect()]
}
