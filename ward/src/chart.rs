//! The timeline of a sheet, a row at a time: each row of the plan has its own drawing behind its name, so that a name of any length
//! stands beside its bar. All places are parts of the drawing's width.

use ward_reader::Sheet;

use crate::answer::Placed;
use crate::html::safe;
use crate::scale::{bar, ends, Bar, End, Scale};
use crate::told;

/// The marks of a timeline, at most.
const MARKS: usize = 6;

/// A timeline: its scale, and the span on it.
pub struct Chart<'c> {
    sheet: &'c Sheet,
    scale: Scale,
    /// Where the span starts and ends.
    span: [f64; 2],
}

/// A place in percent; dots at the ends are not cut off.
fn percent(place: f64) -> f64 {
    4.0 + 92.0 * place
}

impl Chart<'_> {
    /// The timeline of a plan with a span from its start on.
    pub fn of<'c>(sheet: &'c Sheet, plan: &[Placed], start: i32, minutes: i32) -> Chart<'c> {
        let scale = Scale::of(sheet, plan, MARKS);
        let (from, to) = (i64::from(start), i64::from(start) + i64::from(minutes));
        let span = [from.min(to), from.max(to)].map(|minute| percent(scale.place(minute)));
        Chart { sheet, scale, span }
    }

    /// The times above. One near the right end has no room and is left out.
    pub fn axis(&self) -> String {
        let mut drawing = String::new();
        for (number, &mark) in self.scale.marks.iter().enumerate() {
            let place = percent(self.scale.place(mark.into()));
            let class = match number {
                _ if place < 10.0 => " class=\"first\"",
                _ if number % 2 == 1 => " class=\"odd\"",
                _ => "",
            };
            let time = safe(&told::tick(self.sheet, mark, self.scale.step));
            if place < 90.0 || number == 0 {
                drawing += &format!("<text{class} x=\"{place:.2}%\" y=\"13\" text-anchor=\"middle\">{time}</text>");
            }
            drawing += &format!("<line class=\"grid\" x1=\"{place:.2}%\" x2=\"{place:.2}%\" y1=\"17\" y2=\"22\"/>");
        }
        format!("<svg aria-hidden=\"true\">{drawing}</svg>")
    }

    /// Whether the times above are long words.
    pub fn wordy(&self) -> bool {
        self.scale.marks.iter().any(|&mark| told::tick(self.sheet, mark, self.scale.step).chars().count() > 6)
    }

    /// What stands behind every row: the span's part, and a line down from each mark.
    fn ground(&self) -> String {
        let [left, right] = self.span;
        let mut drawing =
            format!("<rect class=\"band\" x=\"{left:.2}%\" y=\"0\" width=\"{:.2}%\" height=\"100%\"/>", right - left);
        let places = self.scale.marks.iter().map(|&mark| percent(self.scale.place(mark.into())));
        let grid = places.map(|place| ("grid", place)).chain([("edge", left), ("edge", right)]);
        for (class, place) in grid {
            drawing += &format!("<line class=\"{class}\" x1=\"{place:.2}%\" x2=\"{place:.2}%\" y1=\"0\" y2=\"100%\"/>");
        }
        drawing
    }

    /// A moment's row: the bar of where it can be, and the mark of where it is.
    pub fn row(&self, placed: &Placed) -> String {
        let Some(stamp) = placed.stamp.filter(|_| !placed.free) else {
            return format!("<svg aria-hidden=\"true\">{}</svg>", self.ground());
        };
        let place = percent(self.scale.place(stamp.into()));
        let slack = self.slack(&bar(&self.scale, placed, stamp));
        let mark = match placed.round {
            true => format!("<circle class=\"ring\" cx=\"{place:.2}%\" cy=\"0\" r=\"5\"/>"),
            false => format!("<circle class=\"dot\" cx=\"{place:.2}%\" cy=\"0\" r=\"5.5\"/>"),
        };
        format!("<svg aria-hidden=\"true\">{}<svg y=\"50%\">{slack}{mark}</svg></svg>", self.ground())
    }

    fn slack(&self, bar: &Bar) -> String {
        let at = |minute: i64| percent(self.scale.place(minute));
        let left = if bar.before == End::Here { at(bar.from) } else { 3.5 };
        let right = if bar.after == End::Here { at(bar.to) } else { 96.5 };
        let mut drawing = String::new();
        if right > left {
            drawing += &block(left, right - left);
        }
        for (end, edge, points, dots) in
            [(bar.before, 3.5, "1,-9 -8,0 1,9", [2.2, 0.7]), (bar.after, 96.5, "-1,-9 8,0 -1,9", [97.0, 98.5])]
        {
            match end {
                End::Here => {}
                End::NoLimit => {
                    drawing += &format!("<svg x=\"{edge}%\"><polygon class=\"slack\" points=\"{points}\"/></svg>")
                }
                End::Further => drawing.extend(dots.map(|place| block(place, 0.8))),
            }
        }
        drawing
    }

    /// The span's row.
    pub fn span(&self) -> String {
        let [left, right] = self.span;
        let length = (right - left).max(0.4);
        format!(
            "<svg aria-hidden=\"true\">{}<svg y=\"50%\"><rect class=\"length\" x=\"{left:.2}%\" y=\"-2\" width=\"{length:.2}%\" height=\"4\"/></svg></svg>",
            self.ground()
        )
    }

    /// What the signs mean.
    pub fn legend(&self, plan: &[Placed]) -> String {
        let item = |drawing: &str, words: &str| {
            format!("<span><svg width=\"22\" height=\"14\" aria-hidden=\"true\">{drawing}</svg>{words}</span>")
        };
        let mut legend = item("<circle class=\"dot\" cx=\"11\" cy=\"7\" r=\"5.5\"/>", "planned");
        if plan.iter().any(|placed| placed.round) {
            let ring = "<circle class=\"ring\" cx=\"11\" cy=\"7\" r=\"5\"/>";
            legend += &item(ring, "planned, and of the chain that binds the span");
        }
        if plan.iter().any(|placed| placed.moment != 0 && placed.times.is_some()) {
            legend += &item("<rect class=\"slack\" y=\"2\" width=\"22\" height=\"10\" rx=\"2\"/>", "where it can be");
        }
        let ends = ends(&self.scale, plan).concat();
        if ends.contains(&End::NoLimit) {
            legend += &item("<polygon class=\"slack\" points=\"13,0 21,7 13,14\"/><polygon class=\"slack\" points=\"9,0 1,7 9,14\"/>", "no limit");
        }
        if ends.contains(&End::Further) {
            let dots =
                [0, 5, 10].map(|x| format!("<rect class=\"slack\" x=\"{x}\" y=\"2\" width=\"3\" height=\"10\"/>"));
            legend += &item(&dots.concat(), "further than is shown");
        }
        legend + &item("<rect class=\"length\" y=\"5\" width=\"22\" height=\"4\"/>", "the span")
    }
}

/// A part of a bar, around the middle of its row.
fn block(left: f64, width: f64) -> String {
    format!("<rect class=\"slack\" x=\"{left:.2}%\" y=\"-5\" width=\"{width:.2}%\" height=\"10\" rx=\"2\"/>")
}
