//! What a text says, with names.

use crate::clock::{Anchor, Window};
use crate::outcome::Expected;
use crate::remark::Place;

/// A lead, in minutes; `None` is blank.
pub type Lead = Option<i32>;

#[derive(Clone, Debug, PartialEq, Eq)]
pub struct Moment {
    pub name: String,
    /// Where the text names it; the anchor, which no line names, has the first place of all.
    pub place: Place,
}

/// What a rule comes from.
#[derive(Clone, Copy, Debug, Default, PartialEq, Eq)]
pub enum Origin {
    /// A line that is one rule, or a span's.
    #[default]
    Line,
    /// A line that is two rules, of which this is one.
    Half,
    /// The line `nothing before anchor`, which adds a rule a moment.
    Floor,
}

/// Which layout the record of a sheet has, where several say the same. The line `record:` tells it, and `ward text` writes it.
#[derive(Clone, Copy, Debug, Default, PartialEq, Eq)]
pub enum Form {
    /// The shortest: kind 1 for one span, kind 3 for several, kind 5 where a rule is suspended.
    #[default]
    Short,
    /// Kind 3, with a count of its spans, also where it has one.
    Counted,
    /// Kind 5, with the state of each rule, also where all are in force.
    States,
}

impl Form {
    /// The words behind `record:`.
    pub fn words(self) -> Option<&'static str> {
        match self {
            Form::Short => None,
            Form::Counted => Some("with a count of its spans"),
            Form::States => Some("with the state of each rule"),
        }
    }
}

pub use crate::wishes::{Way, Wish};

/// The words behind `record:` that let rules stand which forbid their own moments.
pub const EXACT: &str = "with rules that forbid their own moments";

/// A rule, or a span that is asked for.
#[derive(Clone, Debug, PartialEq, Eq)]
pub struct Row {
    pub place: Place,
    /// As it was written, without what stands before a colon.
    pub text: String,
    /// The leads of the left side; of a span, those of its end (document 01's first list).
    pub left: Vec<Lead>,
    /// The leads of the right side; of a span, those of its start (document 01's second list).
    pub right: Vec<Lead>,
    /// Whether the rule holds, or is suspended (document 02, 2.10). A span is never suspended.
    pub in_force: bool,
    pub origin: Origin,
}

/// A span that is asked for, and the answer that the text expects.
#[derive(Clone, Debug, PartialEq, Eq)]
pub struct Question {
    pub row: Row,
    pub expected: Option<Expected>,
}

/// A text: rules, and one question or several over them.
#[derive(Clone, Debug, PartialEq, Eq)]
pub struct Sheet {
    /// The comment on the first line, if one stands there.
    pub title: Option<String>,
    /// The anchor first.
    pub moments: Vec<Moment>,
    pub rules: Vec<Row>,
    pub questions: Vec<Question>,
    /// When the anchor is, where the text says so.
    pub anchor: Option<Anchor>,
    /// When the ward is open, in the order of the week.
    pub week: Vec<Window>,
    /// The moments at which the ward must be open.
    pub admits: Vec<usize>,
    /// The moments that the plan has as early or as late as can be, one after another.
    pub wishes: Vec<Wish>,
    /// Where the line `nothing before anchor` stands, if it does.
    pub floor: Option<Place>,
    /// Which layout its record has.
    pub form: Form,
    /// Whether rules may stand in it that forbid their own moments, as a record may have them.
    pub exact: bool,
    /// An empty text is an idle day (document 02, 2.9), and its record has no bytes.
    pub idle: bool,
}

impl Sheet {
    /// A sheet with the anchor alone.
    pub fn new() -> Sheet {
        let anchor = Moment { name: "anchor".into(), place: Place { line: 1, column: 1, width: 1 } };
        Sheet {
            title: None,
            moments: vec![anchor],
            rules: Vec::new(),
            questions: Vec::new(),
            anchor: None,
            week: Vec::new(),
            admits: Vec::new(),
            wishes: Vec::new(),
            floor: None,
            form: Form::Short,
            exact: false,
            idle: false,
        }
    }

    /// An idle day: the anchor alone, and the span from the anchor to itself.
    pub fn idle() -> Sheet {
        let place = Place { line: 1, column: 1, width: 1 };
        let text = "from anchor to anchor".into();
        let row = Row { place, text, left: vec![Some(0)], right: vec![Some(0)], in_force: true, origin: Origin::Line };
        Sheet { questions: vec![Question { row, expected: None }], idle: true, ..Sheet::new() }
    }

    /// The rules that hold.
    pub fn in_force(&self) -> impl Iterator<Item = &Row> {
        self.rules.iter().filter(|rule| rule.in_force)
    }

    /// Whether a rule is suspended.
    pub fn has_suspended(&self) -> bool {
        self.rules.iter().any(|rule| !rule.in_force)
    }
}

impl Default for Sheet {
    fn default() -> Sheet {
        Sheet::new()
    }
}
