//! Lines as people write them, each with what a person means by it (`lines.txt`, which was written from the guide alone and not by
//! whoever builds the reader): each is read so, or is a mistake; none is read otherwise. Where two people would read a line
//! differently, it is a mistake that shows both readings, and each can be copied into its place.

mod found;
mod guide;
mod hints;
mod list;
mod paste;
mod points;
mod tried;

use std::collections::BTreeSet;

use list::{cases, Case, Wanted};
use ward_reader::clock::Anchor;
use ward_reader::sheet::{Origin, Row};
use ward_reader::{record, Clock, Read, Remark, Sheet, Weight};

/// Cases of the list that are not followed, each with the reason.
const OVERRULED: [(&str, &str); 5] = [
    ("anchor + 24:00", "`45:00` is asked about as a length: 45 hours, or 45 minutes of a stopwatch; so is all from 24:00 on"),
    ("anchor + 32:40", "the same"),
    (
        "another moment + 8:40 is a length of time",
        "`at least 8:40 after ready` is asked about, and so is `ready + 8:40`, which says the same: a scheduler took it for the clock",
    ),
    (
        "anchor + 6:00 in the night",
        "point 6 of the issue asks where a lead is at or after the anchor's time and before 24:00; 6:00 is not, and is read as six hours",
    ),
    (
        "nothing before anchor twice with two exceptions",
        "a mistake that shows readings, but a line in the place of the second cannot take back the first, so that they are others",
    ),
];

/// Hours and earliest times by the archive, as the tool has them.
pub fn clock() -> Clock {
    fn write(minutes: i32) -> String {
        let mut text = [0; span::TEXT_SIZE];
        let size = span::write_hours(Some(minutes), &mut text).expect("a time");
        String::from_utf8_lossy(&text[..size]).into_owned()
    }
    fn earliest(rules: &[&Row], count: usize) -> Vec<Option<i32>> {
        let only = |moment: usize| (0..count).map(|place| (place == moment).then_some(0)).collect::<Vec<_>>();
        let place = ward_reader::remark::Place { line: 1, column: 1, width: 1 };
        let bound = |moment: usize| {
            let (left, right) = (only(moment), only(0));
            let row = Row { place, text: String::new(), left, right, in_force: true, origin: Origin::Line };
            let mut answer = [0; span::ANSWER_SIZE];
            match span::solve(&record::one(rules, &row), &mut answer).expect("an answer").outcome {
                span::Outcome::Least(minute) => Some(minute),
                span::Outcome::Bottomless => None,
                span::Outcome::NoPlan => Some(0),
            }
        };
        (1..count).map(bound).collect()
    }
    Clock { read: |text| span::read_hours(text.as_bytes()).ok().flatten(), write, earliest: Some(earliest) }
}

/// Reads a text as the tool does: opening hours that the archive refuses are a mistake too.
pub fn read(text: &str) -> Read {
    let mut read = ward_reader::read(text.as_bytes(), &clock());
    let week = |sheet: &Sheet| -> Vec<span::Window> {
        let windows = sheet.week.iter();
        windows.map(|window| span::Window { opening: window.opening, closing: window.closing }).collect()
    };
    read.sheet = read.sheet.filter(|sheet| span::first_open(&week(sheet), 0).is_ok());
    read
}

/// The mistakes of a text, in the order of their places.
pub fn mistakes(read: &Read) -> Vec<&Remark> {
    read.remarks.iter().filter(|remark| remark.weight == Weight::Mistake).collect()
}

/// A text with other lines in the place of one.
pub fn pasted(text: &str, number: usize, lines: &[String]) -> String {
    let mut all: Vec<String> = text.lines().map(String::from).collect();
    all.splice(number - 1..number, lines.iter().cloned());
    all.join("\n") + "\n"
}

/// A rule as it is compared: one moment on the left, with no minutes; those on the right with theirs; and whether it is in force.
type Plain = (String, Vec<(String, i32)>, bool);

fn plain(sheet: &Sheet, row: &Row) -> Vec<Plain> {
    let name = |place: usize| sheet.moments[place].name.clone();
    let side = |leads: &[Option<i32>]| -> Vec<(String, i32)> {
        leads.iter().enumerate().filter_map(|(place, lead)| Some((name(place), (*lead)?))).collect()
    };
    let right = side(&row.right);
    let moved = |lead: i32| {
        let mut right: Vec<(String, i32)> = right.iter().map(|(name, other)| (name.clone(), other - lead)).collect();
        right.sort();
        right
    };
    side(&row.left).into_iter().map(|(name, lead)| (name, moved(lead), row.in_force)).collect()
}

/// The rules of a sheet, as they are compared.
fn rules(sheet: &Sheet) -> Vec<Plain> {
    let mut rules: Vec<Plain> = sheet.rules.iter().flat_map(|row| plain(sheet, row)).collect();
    rules.sort();
    rules
}

/// All that a reading can differ in.
#[derive(Debug, PartialEq, Eq, PartialOrd, Ord)]
pub struct Said {
    rules: Vec<Plain>,
    spans: Vec<(String, String)>,
    expected: Vec<Option<String>>,
    anchor: Option<(Option<usize>, Option<i64>, i32)>,
}

pub fn said(sheet: &Sheet) -> Said {
    let side = |leads: &[Option<i32>]| ward_reader::shown::side(&sheet.moments, leads);
    let when = |anchor: Anchor| (anchor.day, anchor.date, anchor.minute);
    Said {
        rules: rules(sheet),
        spans: sheet.questions.iter().map(|question| (side(&question.row.right), side(&question.row.left))).collect(),
        expected: sheet
            .questions
            .iter()
            .map(|question| question.expected.map(|expected| expected.to_string()))
            .collect(),
        anchor: sheet.anchor.map(when),
    }
}

/// Whether a sheet is what a case means: its rules, and what else the case speaks of.
fn is_meant(sheet: &Sheet, meant: &list::Meant) -> Result<(), String> {
    let mut wanted = meant.rules.clone();
    wanted.sort();
    if rules(sheet) != wanted {
        return Err(format!("rules {:?}\nand not {wanted:?}", rules(sheet)));
    }
    let names: Vec<&str> = sheet.moments[1..].iter().map(|moment| moment.name.as_str()).collect();
    if meant.moments.as_ref().is_some_and(|wanted| *wanted != names) {
        return Err(format!("moments {names:?}"));
    }
    let said = said(sheet);
    if !meant.spans.is_empty() {
        let spans: Vec<(list::Side, list::Side)> = sheet
            .questions
            .iter()
            .map(|question| (list::side_of(sheet, &question.row.right), list::side_of(sheet, &question.row.left)))
            .collect();
        if spans != meant.spans {
            return Err(format!("spans {spans:?}"));
        }
    }
    let expected: Vec<String> = said.expected.into_iter().flatten().collect();
    if !meant.expected.is_empty() && expected != meant.expected {
        return Err(format!("expected {expected:?}"));
    }
    let admits: Vec<&str> = sheet.admits.iter().map(|&moment| sheet.moments[moment].name.as_str()).collect();
    if meant.admits.as_ref().is_some_and(|wanted| *wanted != admits) {
        return Err(format!("admits {admits:?}"));
    }
    let windows: Vec<(u32, u32)> = sheet.week.iter().map(|window| (window.opening, window.closing)).collect();
    match meant.open.as_ref().is_some_and(|wanted| *wanted != windows) {
        true => Err(format!("open {windows:?}")),
        false => Ok(()),
    }
}

/// Whether the tool shows readings that can be copied, all of them different, and those that the case has among them.
fn shows(case: &Case, read: &Read, readings: &[String]) -> Result<(), String> {
    let mistakes = mistakes(read);
    let [mistake] = mistakes[..] else { return Err(format!("{} mistakes: {mistakes:?}", mistakes.len())) };
    if mistake.fixes.len() < 2 {
        return Err(format!("too few readings: {mistake:?}"));
    }
    let line = mistake.place.line;
    let good = |lines: &[String]| {
        let text = pasted(&case.text, line, lines);
        let read = self::read(&text);
        read.sheet.as_ref().map(said).ok_or_else(|| format!("not taken: {lines:?}: {:?}", read.remarks))
    };
    let mut shown = BTreeSet::new();
    for fix in &mistake.fixes {
        if !shown.insert(good(&fix.lines)?) {
            return Err(format!("two readings are the same: {mistake:?}"));
        }
    }
    for reading in readings {
        let lines: Vec<String> = reading.split(" ; ").map(String::from).collect();
        let wanted = good(&lines)?;
        if !shown.contains(&wanted) && !overruled(case) {
            return Err(format!("this reading is not shown: {reading}\n{mistake:?}"));
        }
    }
    Ok(())
}

fn overruled(case: &Case) -> bool {
    OVERRULED.iter().any(|(title, _)| case.title.starts_with(title))
}

fn judge(case: &Case) -> Result<&'static str, String> {
    let read = self::read(&case.text);
    match (&case.wanted, &read.sheet) {
        (Wanted::Means(meant) | Wanted::MistakeOrMeans(meant), Some(sheet)) => is_meant(sheet, meant).map(|()| "read"),
        (Wanted::Means(_), None) if overruled(case) => Ok("overruled"),
        (Wanted::Means(_), None) => Err(format!("not read: {:?}", read.remarks)),
        (Wanted::Ambiguous(readings), None) => shows(case, &read, readings).map(|()| "asked"),
        (_, Some(_)) if overruled(case) => Ok("overruled"),
        (_, Some(sheet)) => Err(format!("read as {:?}", rules(sheet))),
        (_, None) => Ok("asked"),
    }
}

#[test]
fn every_line_is_read_as_it_is_meant_or_asked_about() {
    let cases = cases(include_str!("lines.txt"));
    assert!(cases.len() >= 660, "{}", cases.len());
    let (mut read, mut asked, mut wrong) = (0, 0, Vec::new());
    for case in &cases {
        match judge(case) {
            Ok("read") => read += 1,
            Ok(_) => asked += 1,
            Err(why) => wrong.push(format!("{} (line {}): {why}\n{}", case.title, case.line, case.text)),
        }
    }
    assert!(wrong.is_empty(), "{} of {} cases:\n\n{}", wrong.len(), cases.len(), wrong.join("\n\n"));
    assert!(read >= 150 && asked >= 200, "{read} read, {asked} asked");
}

/// Before anything is built no value of hours is known, and nothing is told as a mistake that is none.
#[test]
fn what_is_read_is_no_mistake_before_anything_is_built() {
    for case in cases(include_str!("lines.txt")) {
        if read(&case.text).sheet.is_some() {
            let unjudged = ward_reader::read(case.text.as_bytes(), &Clock::unjudged());
            assert!(unjudged.sheet.is_some(), "{}: {:?}", case.title, unjudged.remarks);
        }
    }
}

/// Lines of the list with small damages end in a mistake or are read, and nothing panics; what is read goes there and back.
#[test]
fn damaged_lines_do_no_harm() {
    let signs =
        ['a', '1', ':', '.', ',', '-', '–', '+', '#', '"', '“', '(', ')', '<', '=', ' ', '\u{A0}', '\u{AD}', 'é', '\n'];
    let mut random = random::Random::new(238);
    for case in cases(include_str!("lines.txt")) {
        for _ in 0..20 {
            let mut text: Vec<char> = case.text.chars().collect();
            for _ in 0..=random.below(2) {
                let (place, sign) = (random.below(text.len()), signs[random.below(signs.len())]);
                match random.below(4) {
                    0 => drop(text.remove(place)),
                    1 => text.insert(place, sign),
                    2 => text[place] = sign,
                    _ => {
                        let other = random.below(text.len());
                        text.swap(place, other);
                    }
                }
            }
            let text: String = text.into_iter().collect();
            let read = read(&text);
            read.remarks.iter().for_each(|remark| drop(remark.in_file("x", &read.lines)));
            let Some(sheet) = read.sheet else { continue };
            let again = ward_reader::shown::text(&sheet, &clock());
            let back = self::read(&again).sheet.unwrap_or_else(|| panic!("{text}\n{again}"));
            assert_eq!(record::sent(&back), record::sent(&sheet), "{text}\n{again}");
        }
    }
}

/// Every reason for not following the list is about a case of it.
#[test]
fn what_is_overruled_is_in_the_list() {
    let cases = cases(include_str!("lines.txt"));
    for (title, reason) in OVERRULED {
        assert_eq!(cases.iter().filter(|case| case.title.starts_with(title)).count(), 1, "{title}: {reason}");
    }
}
