//! A rule in words, as one would say it on a ward: `ambulance not before 8:50`, `cleaned at least 35 min after vacated`.
//!
//! A rule with several moments on its early side holds for each of them, and one with several on its late side where one of these is
//! late enough: so each pair of an early and a late moment is a sentence, with `and` between the early ones and `or` between the late.

use ward_reader::clock::DAY;
use ward_reader::sheet::Row;
use ward_reader::{shown, Sheet};

use crate::told;

/// A rule in words; nothing where it compares a moment with itself.
pub fn words(sheet: &Sheet, rule: &Row) -> Option<String> {
    let side = |leads: &[ward_reader::Lead]| -> Vec<(usize, i32)> {
        leads.iter().enumerate().filter_map(|(moment, lead)| Some((moment, (*lead)?))).collect()
    };
    let (early, late) = (side(&rule.left), side(&rule.right));
    if early.iter().any(|(moment, _)| late.iter().any(|(other, _)| moment == other)) {
        return None;
    }
    let name = |moment: usize| sheet.moments[moment].name.clone();
    if late.is_empty() {
        let out: Vec<String> = early.iter().map(|(moment, _)| name(*moment)).collect();
        return (!early.iter().any(|(moment, _)| *moment == 0)).then(|| format!("{} left out", told::list(&out)));
    }
    let all: Vec<Vec<Said>> = early
        .iter()
        .map(|&(moment, lead)| late.iter().map(|&(other, more)| said(sheet, moment, other, lead - more)).collect())
        .collect();
    let one = |said: &Vec<Said>| joined(said, " or ", ", or ");
    match &all[..] {
        [only] => Some(one(only)),
        _ if late.len() == 1 => {
            let flat: Vec<Said> = all.into_iter().flatten().collect();
            Some(joined(&flat, " and ", "; "))
        }
        several => Some(several.iter().map(one).collect::<Vec<_>>().join("; and ")),
    }
}

/// A sentence: who, and when.
struct Said {
    who: String,
    when: String,
}

/// Sentences in a row. Those of the same moment name it once, and those with the same time have it once.
fn joined(all: &[Said], within: &str, between: &str) -> String {
    if all.iter().all(|said| said.when == all[0].when) {
        let who: Vec<&str> = all.iter().map(|said| said.who.as_str()).collect();
        return format!("{} {}", who.join(within), all[0].when);
    }
    let runs = all.chunk_by(|one, next| one.who == next.who);
    let run = |run: &[Said]| {
        let when: Vec<&str> = run.iter().map(|said| said.when.as_str()).collect();
        format!("{} {}", run[0].who, when.join(within))
    };
    runs.map(run).collect::<Vec<_>>().join(between)
}

/// `early + minutes <= late`.
fn said(sheet: &Sheet, early: usize, late: usize, minutes: i32) -> Said {
    let name = |moment: usize| if moment == 0 { "the anchor".into() } else { sheet.moments[moment].name.clone() };
    let said = |who: usize, when: String| Said { who: name(who), when };
    let clock = sheet.anchor.is_some();
    match (early, late, minutes) {
        (0, _, _) if clock => said(late, format!("not before {}", at(sheet, minutes))),
        (_, 0, _) if clock => said(early, format!("by {}", at(sheet, -minutes))),
        // The anchor stands still: what is late or early is the other.
        (_, 0, 1..) => said(early, format!("at least {} before the anchor", length(minutes))),
        (0, _, ..0) => said(late, format!("at most {} before the anchor", length(-minutes))),
        (_, 0, 0) => said(early, "not after the anchor".into()),
        (_, _, 1..) => said(late, format!("at least {} after {}", length(minutes), name(early))),
        (_, _, 0) => said(late, format!("not before {}", name(early))),
        _ => said(early, format!("at most {} after {}", length(-minutes), name(late))),
    }
}

/// A time; on the anchor's day without the day.
fn at(sheet: &Sheet, minute: i32) -> String {
    let of_day = sheet.anchor.map_or(0, |anchor| anchor.minute) + minute;
    match (0..DAY).contains(&of_day) {
        true => crate::archive::hours(of_day),
        false => told::short(sheet, minute),
    }
}

/// A length of time that nobody takes for a time of day.
fn length(minutes: i32) -> String {
    match minutes % 60 {
        0 if minutes > 0 => shown::length(minutes),
        _ => format!("{} min", shown::length(minutes)),
    }
}

#[cfg(test)]
mod tests {
    use super::*;
    use crate::answer::Report;

    #[test]
    fn rules_are_said_by_the_clock() {
        for (anchor, rule, wanted) in [
            ("8:00", "anchor + 50 <= a", "a not before 8:50"),
            ("8:00", "a <= anchor + 62", "a by 9:02"),
            ("8:00", "a <= anchor + 2 days", "a by 8:00 +2d"),
            ("Monday 8:00", "a <= anchor + 2 days", "a by Wed 8:00"),
            ("2026-11-16 8:00", "anchor + 13 days <= a", "a not before day 13, Sun 8:00"),
            ("8:00", "b + 35 <= a", "a at least 35 min after b"),
            ("8:00", "b + 2 h <= a", "a at least 2 h after b"),
            ("8:00", "b + 1 h 30 <= a", "a at least 1 h 30 min after b"),
            ("8:00", "b <= a", "a not before b"),
            ("8:00", "b <= a + 10", "b at most 10 min after a"),
            ("8:00", "later of a, b <= c", "c not before a and not before b"),
            ("8:00", "later of a, b <= anchor + 30", "a and b by 8:30"),
            ("8:00", "later of a, (b + 5) <= c", "c not before a and at least 5 min after b"),
            ("8:00", "a <= later of b, (c + 15)", "b not before a, or a at most 15 min after c"),
            ("8:00", "anchor + 7 <= later of a, b", "a or b not before 8:07"),
            ("8:00", "a <= nothing", "a left out"),
            (
                "8:00",
                "later of a, b <= later of c, anchor",
                "a by 8:00, or c not before a; and b by 8:00, or c not before b",
            ),
        ] {
            let text = format!("moments: a, b, c\nanchor: {anchor}\n{rule}\nspan: from a to b\n");
            let sheet = Report::read("day.txt", text.as_bytes()).sheet.unwrap_or_else(|| panic!("{text}"));
            assert_eq!(words(&sheet, &sheet.rules[0]).as_deref(), Some(wanted), "{rule}");
        }
    }

    #[test]
    fn rules_are_said_from_the_anchor_on() {
        for (rule, wanted) in [
            ("anchor + 50 <= a", Some("a at least 50 min after the anchor")),
            ("anchor - 50 <= a", Some("a at most 50 min before the anchor")),
            ("anchor <= a", Some("a not before the anchor")),
            ("a <= anchor + 5", Some("a at most 5 min after the anchor")),
            ("a <= anchor", Some("a not after the anchor")),
            ("a + 5 <= anchor", Some("a at least 5 min before the anchor")),
            ("a <= later of a, b", None),
        ] {
            let text = format!("moments: a, b\n{rule}\nspan: from a to b\n");
            let sheet = Report::read("day.txt", text.as_bytes()).sheet.expect("a good text");
            assert_eq!(words(&sheet, &sheet.rules[0]).as_deref(), wanted, "{rule}");
        }
    }
}
