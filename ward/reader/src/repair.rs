//! What can be written in a mistaken line's stead: each line that is shown is read without a mistake.
//!
//! A reading that leaves another mistake of its line is followed: the readings of that one are put in, and theirs, until nothing is
//! left. One that comes to no end is not shown.

use crate::clock::DAY;
use crate::fault::{Fault, Fix};
use crate::instant::FAR;
use crate::limits;
use crate::lines::{headed, Key};
use crate::named::{self, Named};
use crate::parse::Draft;
use crate::plain;
use crate::remark::{Place, Remark, Weight};
use crate::sheet::{Lead, Row, Sheet};
use crate::sides;
use crate::whole;

/// How many mistakes are looked at for what to write in their stead.
pub const FIXED: usize = 100;

/// The longest line, in bytes, that is looked at for that, and the longest that is shown so.
const LONGEST: usize = 1_000;

/// The longest text, in lines, that is read as a whole with each of its readings.
const WHOLE: usize = 300;

/// How many mistakes of one line are followed, one behind another.
const STEPS: usize = 5;

/// How deep a trial may be in which other words are looked for.
const DEPTH: usize = 1;

/// The most readings of a mistake that are shown.
const MOST: usize = 9;

/// Readings that nothing is followed into: guesses at what is missing.
const GUESSES: [&str; 3] = ["later", "earlier", "the later of both"];

/// Readings that are not followed: what else is wrong shows that they were not meant.
const ENDS: [&str; 2] = ["several names", "a comment"];

/// What stands below a mistake whose readings are not shown, since the line has another.
const OTHER: &str = "this line has another mistake: mend that first, and what to write for this one is shown";

/// What stands below a mistake in a rule of which nothing can be told.
const WAYS: &str =
    "say it as in 'ready by 8:45', 'ready not before 8:40', 'leaves at least 10 after ready' or 'ready + 10 <= leaves'";

/// What stands below a mistake that the readings of another one of its line mend too.
const SAME: &str = "what is shown for the line's other mistake mends this too";

/// What lines say that were read on trial: nothing where they have a mistake.
struct Tried {
    mistakes: Vec<Remark>,
    said: String,
}

impl<'c> Draft<'c> {
    /// Leaves those lines alone of the mistakes that are read without a mistake, and no two that say the same.
    pub(crate) fn taken(&mut self, lines: &[String]) {
        let mut remarks = std::mem::take(&mut self.remarks);
        remarks.sort_by_key(|remark| remark.place);
        let places: Vec<usize> = remarks.iter().map(|remark| remark.place.line).collect();
        let mut before: Option<(usize, Vec<Fix>)> = None;
        for (number, remark) in remarks.iter_mut().enumerate() {
            let offered = std::mem::take(&mut remark.fixes);
            let here = remark.place.line;
            let line = lines.get(here - 1).map_or("", String::as_str);
            if number >= FIXED || line.len() > LONGEST {
                continue;
            }
            remark.fixes = self.repairs(&offered, line);
            remark.fixes.retain(|fix| number >= limits::SHOWN || lines.len() > WHOLE || self.holds(lines, here, fix));
            if let Some(far) = remark.fixes.is_empty().then(|| self.far(&offered, line)).flatten() {
                (remark.message, remark.hint) = (far.message, far.hint);
            }
            let rule = is(line, Key::Rule) || is(line, Key::Suspended);
            let alone = places.iter().filter(|place| **place == here).count() == 1;
            if remark.fixes.is_empty() && !alone && !offered.is_empty() {
                remark.hint.get_or_insert(OTHER.into());
            }
            if remark.fixes.is_empty() && rule {
                remark.hint.get_or_insert(WAYS.into());
            }
            let told = before.as_ref().is_some_and(|(place, fixes)| *place == here && same(fixes, &remark.fixes));
            match told && !remark.fixes.is_empty() {
                true => {
                    remark.fixes.clear();
                    remark.hint = Some(SAME.into());
                }
                false => before = Some((here, remark.fixes.clone())),
            }
        }
        self.remarks = remarks;
    }

    /// Whether the whole text has no mistake in the lines of a reading, in the place of a line.
    fn holds(&self, lines: &[String], place: usize, fix: &Fix) -> bool {
        let mut all = lines.to_vec();
        let own = place..place + fix.lines.len();
        all.splice(place - 1..place.min(all.len()), fix.lines.iter().cloned());
        let mut draft = Draft { depth: DEPTH + 1, ..Draft::new(self.clock) };
        draft.every(&all);
        if !draft.unread {
            draft.unknown_names(&all);
        }
        !draft.remarks.iter().any(|remark| own.contains(&remark.place.line))
    }

    /// The mistake of a reading that names a time which no rule can name.
    fn far(&self, offered: &[Fix], line: &str) -> Option<Remark> {
        let mistakes = offered.iter().take(MOST).flat_map(|fix| self.tried(&fix.lines, line, &[]).mistakes);
        mistakes.into_iter().find(|mistake| mistake.message == FAR)
    }

    /// The readings among those offered that are read without a mistake, each followed as far as it needs.
    pub(crate) fn repairs(&self, offered: &[Fix], line: &str) -> Vec<Fix> {
        let mut seen: Vec<String> = Vec::new();
        let mut good = Vec::new();
        let days = self.days_of(line);
        for fix in offered {
            for (fix, said) in self.followed(fix, line, STEPS, &days) {
                let short = fix.lines.iter().all(|line| line.len() <= LONGEST);
                if short && fix.lines != [line] && !seen.contains(&said) && good.len() < MOST {
                    seen.push(said);
                    good.push(fix);
                }
            }
        }
        good
    }

    /// The days that a line names, with those of the line in whose place it is tried.
    fn days_of(&self, line: &str) -> Vec<Named> {
        let mut days = self.days.clone();
        named::join(&mut days, named::of(line));
        days
    }

    /// A reading with what else its lines lack: itself where they lack nothing. The days are those that were named on the way.
    fn followed(&self, fix: &Fix, line: &str, steps: usize, days: &[Named]) -> Vec<(Fix, String)> {
        let Tried { mistakes, said } = self.tried(&fix.lines, line, days);
        let Some(first) = mistakes.first() else { return vec![(fix.clone(), said)] };
        let bare = mistakes.iter().any(|mistake| mistake.fixes.is_empty());
        if steps == 0 || bare || mistakes.iter().any(|mistake| mistake.place.line > fix.lines.len()) {
            return Vec::new();
        }
        // Where several lines lack the same, the same reading is taken in each; but one day may start and another end.
        let such = |mistake: &Remark| mistake.fixes.len() == first.fixes.len() && kind(mistake) == kind(first);
        let alike = mistakes.iter().all(such);
        let alike = alike && !first.fixes.iter().any(|fix| fix.says.starts_with("when the day"));
        let apart = mistakes.windows(2).all(|pair| pair[0].place.line != pair[1].place.line);
        let count = if alike && apart { mistakes.len() } else { 1 };
        let next = (0..first.fixes.len()).filter(|&reading| goes_on(fix, &first.fixes, reading)).map(|reading| {
            let mut lines = fix.lines.clone();
            for mistake in mistakes[..count].iter().rev() {
                let place = mistake.place.line - 1;
                lines.splice(place..=place, mistake.fixes[reading].lines.iter().cloned());
            }
            Fix { says: joined(&fix.says, &first.fixes[reading].says), lines }
        });
        let next = next.filter(|next| next.lines.len() < 40);
        let mut days = days.to_vec();
        fix.lines.iter().for_each(|line| named::join(&mut days, named::of(line)));
        next.flat_map(|next| self.followed(&next, line, steps - 1, &days)).take(2 * MOST).collect()
    }

    /// Reads lines in the place of one, with the moments and the anchor of the text.
    fn tried(&self, lines: &[String], line: &str, days: &[Named]) -> Tried {
        let moments = |line: &str| is(line, Key::Moments);
        let anchors = |line: &str| is(line, Key::Anchor);
        let own = |such: &dyn Fn(&str) -> bool| such(line) || lines.len() == 1 && such(&lines[0]);
        let (named, dated) = (own(&moments), own(&anchors));
        let anchor = self.sheet.anchor.filter(|_| !dated);
        let mut sheet = Sheet { anchor, exact: self.sheet.exact, ..Sheet::new() };
        if !named {
            sheet.moments = self.sheet.moments.clone();
        }
        let looks = if named { Default::default() } else { self.looks.clone() };
        let doubtful = self.doubtful && !dated;
        let mut trial = Draft { sheet, looks, doubtful, ..Draft::new(self.clock) };
        trial.spans = 1;
        trial.days = days.to_vec();
        trial.depth = self.depth + 1;
        trial.every(lines);
        if !trial.unread && !self.unread {
            trial.unknown_names(lines);
        }
        trial.remarks.sort_by_key(|remark| remark.place);
        let least = if named::of(line).len() == 1 { -6 * DAY } else { i32::MIN };
        let wrong = || contradiction(&trial.sheet, least).or_else(|| of_no_moment(&trial.sheet));
        if let Some(place) = trial.remarks.is_empty().then(wrong).flatten() {
            let message = "nobody means these lines".into();
            trial.remarks.push(Remark { weight: Weight::Mistake, place, message, hint: None, fixes: Vec::new() });
        }
        // What is not known is not told apart by what was read.
        let lines = if trial.unknown.is_empty() && !doubtful { String::new() } else { lines.join("\n") };
        Tried { said: format!("{}{lines}", trial.says()), mistakes: trial.remarks }
    }

    /// Whether lines in the place of one are read without a mistake.
    pub(crate) fn reads(&self, lines: &[String], line: &str) -> bool {
        line.len() <= LONGEST && self.tried(lines, line, &self.days_of(line)).mistakes.is_empty()
    }

    /// What was read, in a form that is the same for lines that say the same.
    fn says(&self) -> String {
        let rows = |row: &Row| (row.left.clone(), row.right.clone(), row.in_force);
        let sheet = &self.sheet;
        // A rule with several on its early side is a rule for each of them.
        let early = |row: &Row| -> Vec<_> {
            let only = |(place, lead): (usize, &Lead)| lead.map(|lead| (place, lead, row.right.clone(), row.in_force));
            row.left.iter().enumerate().filter_map(only).collect()
        };
        let mut rules: Vec<_> = sheet.rules.iter().flat_map(early).collect();
        rules.sort();
        let spans: Vec<_> = sheet.questions.iter().map(|question| rows(&question.row)).collect();
        let names: Vec<&str> = sides::names(&sheet.moments).collect();
        let week: Vec<_> = sheet.week.iter().map(|window| (window.opening, window.closing)).collect();
        let but = self.floor.as_ref().map(|floor| floor.but.clone());
        let expected: Vec<_> = self.expected.iter().map(|(span, _, outcome)| (span, outcome)).collect();
        let more = (sheet.anchor, &sheet.admits, &sheet.wishes, sheet.form);
        format!("{rules:?} {spans:?} {names:?} {week:?} {but:?} {expected:?} {more:?}")
    }

    /// Puts one mistake in the place of those of a line, where the line is read with other words for those that it has.
    pub(crate) fn other_words(&mut self, number: usize, line: &str, end: usize, before: usize) {
        let unknown = !self.unread && self.unknown.values().flatten().any(|place| place.line == number);
        let wrong = self.remarks.len() > before || unknown;
        if !wrong || self.depth > DEPTH || self.looks_left == 0 || line.len() > LONGEST {
            return;
        }
        self.looks_left -= 1;
        let Some(fault) = self.otherwise(line, end) else { return };
        self.remarks.truncate(before);
        self.unknown.values_mut().for_each(|places| places.retain(|place| place.line != number));
        self.unknown.retain(|_, places| !places.is_empty());
        self.wrong(number, line, fault);
    }

    /// A line in other words, or in another form: the readings of it that are read.
    fn otherwise(&self, line: &str, end: usize) -> Option<Fault> {
        let forms = [plain::otherwise(&self.known(), line, end), whole::otherwise(&self.known(), line, end)];
        forms.into_iter().flatten().find_map(|fault| {
            let fixes = self.repairs(&fault.fixes, line);
            if let Some(far) = fixes.is_empty().then(|| self.far(&fault.fixes, line)).flatten() {
                return Some(Fault { fixes, message: far.message, hint: far.hint, ..fault });
            }
            (!fixes.is_empty()).then_some(Fault { fixes, ..fault })
        })
    }
}

/// Whether a reading is followed into one of those of what it leaves: one that says the same comes before all others.
fn goes_on(fix: &Fix, next: &[Fix], reading: usize) -> bool {
    let says = next[reading].says.as_str();
    let day = says.starts_with("when the day");
    let same = next.iter().any(|next| !next.says.is_empty() && next.says == fix.says && !day);
    // Where a sign was put in, what stands behind it is minutes.
    if says == "by the clock" && GUESSES.contains(&fix.says.as_str()) {
        return false;
    }
    // Four digits are no stopwatch's.
    if says == "minutes and seconds" && fix.says.contains("hours and minutes") {
        return false;
    }
    match same {
        true => says == fix.says,
        false => !GUESSES.contains(&says) && !ENDS.contains(&fix.says.as_str()),
    }
}

/// What a mistake says, without what it says it of.
fn kind(mistake: &Remark) -> String {
    mistake.message.split('\'').step_by(2).collect()
}

/// Whether a line is of a kind.
fn is(line: &str, key: Key) -> bool {
    headed(line, line.len()).key == Some(key)
}

/// What two readings say, one behind the other.
fn joined(first: &str, second: &str) -> String {
    match (first.is_empty(), second.is_empty() || first == second) {
        (_, true) => first.into(),
        (true, _) => second.into(),
        _ => format!("{first}; {second}"),
    }
}

/// Whether two mistakes show the same lines.
fn same(first: &[Fix], second: &[Fix]) -> bool {
    first.len() == second.len() && first.iter().all(|fix| second.iter().any(|other| other.lines == fix.lines))
}

/// The place of a rule that is about no moment.
fn of_no_moment(sheet: &Sheet) -> Option<Place> {
    let moment = |leads: &[Lead]| leads.iter().skip(1).any(Option::is_some);
    let none = |row: &&Row| !moment(&row.left) && !moment(&row.right) && row.right.iter().any(Option::is_some);
    sheet.rules.iter().find(none).map(|row| row.place)
}

/// The place of a rule that holds a moment before a time at which another of the same lines holds it; or so much before that nobody means
/// both of one day.
fn contradiction(sheet: &Sheet, least: i32) -> Option<Place> {
    let only = |leads: &[Lead]| {
        let mut found = leads.iter().enumerate().filter_map(|(moment, lead)| Some((moment, (*lead)?)));
        found.next().filter(|_| found.next().is_none())
    };
    let from = |row: &Row| Some((only(&row.left)?, only(&row.right)?)).filter(|((left, _), _)| *left == 0);
    let to = |row: &Row| Some((only(&row.left)?, only(&row.right)?)).filter(|(_, (right, _))| *right == 0);
    let late = |(_, early): ((usize, i32), (usize, i32)), bound: i32| {
        let wrong = |most: i32| bound > most || bound.saturating_sub(most) < least;
        sheet.rules.iter().filter_map(to).any(|((moment, lead), (_, most))| moment == early.0 && wrong(most - lead))
    };
    let wrong = |row: &&Row| from(row).is_some_and(|sides| late(sides, sides.0 .1 - sides.1 .1));
    sheet.rules.iter().find(wrong).map(|row| row.place)
}
