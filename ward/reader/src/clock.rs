//! Hours and minutes, days and windows of a week.

use crate::sheet::Row;

/// What the reader asks of others, for it is proved elsewhere: who reads and writes texts of hours and minutes (document 02, 2.7),
/// and who says how early moments can be. The tool takes the archive's functions.
#[derive(Clone, Copy)]
pub struct Clock {
    /// The minutes of a text like `1:30`; `None` where it is no such text, or is blank.
    pub read: fn(&str) -> Option<i32>,
    /// The text of minutes.
    pub write: fn(i32) -> String,
    /// For each moment beside the anchor how early it can be under some rules, which are told with the count of all moments; `None`
    /// where nothing holds it. Without this function no value of hours is known, and nothing that needs one is looked at.
    pub earliest: Option<Earliest>,
}

/// See [`Clock::earliest`].
pub type Earliest = fn(&[&Row], usize) -> Vec<Option<i32>>;

impl Clock {
    /// Where nothing is built yet: each text of digits, a colon and digits is taken, and its value is left open.
    pub fn unjudged() -> Clock {
        Clock { read: |_| Some(0), write: |minutes| minutes.to_string(), earliest: None }
    }

    /// Whether the values of hours and minutes are known.
    pub fn judges(&self) -> bool {
        self.earliest.is_some()
    }

    /// A time of day as it can be written without a doubt: those of the night have a zero before them.
    pub fn time(&self, minute: i32) -> String {
        let zero = if SMALL.contains(&minute) { "0" } else { "" };
        format!("{zero}{}", (self.write)(minute))
    }

    /// The minutes of digits, a colon and digits; one leading zero, as in `08:00`, plays no part.
    pub fn hours(&self, text: &str) -> Option<i32> {
        let bare = text.strip_prefix('0').filter(|bare| !bare.starts_with(':') && bare.len() == 4);
        (self.read)(bare.unwrap_or(text))
    }
}

/// The minutes of a day.
pub const DAY: i32 = 1_440;
/// The minutes of the night that are asked about without a zero before them: they may be of the afternoon.
pub const SMALL: std::ops::Range<i32> = 60..360;
/// The minutes of a week.
pub const WEEK: i32 = 7 * DAY;

/// An hour as a time of day; those of the night have a zero before them.
pub fn on_the_hour(hour: i32) -> String {
    let zero = if SMALL.contains(&(60 * hour)) { "0" } else { "" };
    format!("{zero}{hour}:00")
}

/// The days of a week, Monday first.
pub const DAYS: [&str; 7] = ["Monday", "Tuesday", "Wednesday", "Thursday", "Friday", "Saturday", "Sunday"];

/// The number of a day from its name, or from its first three letters; capital letters play no part.
pub fn day(word: &str) -> Option<usize> {
    let word = word.to_lowercase();
    DAYS.iter().position(|day| {
        let day = day.to_lowercase();
        word == day || word == day[..3]
    })
}

/// When the anchor is.
#[derive(Clone, Copy, Debug, PartialEq, Eq)]
pub struct Anchor {
    /// The day, 0 for Monday, where the text names it or its date.
    pub day: Option<usize>,
    /// The date as a number of days, where the text names it.
    pub date: Option<i64>,
    /// The minute of that day.
    pub minute: i32,
}

/// A window of the opening hours, in minutes from Monday 0:00, and where the text has it.
#[derive(Clone, Debug, PartialEq, Eq)]
pub struct Window {
    pub opening: u32,
    pub closing: u32,
    pub place: crate::remark::Place,
}
