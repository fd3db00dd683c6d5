//! What is shown for a mistake means nothing else than its writer can have meant: each line here with all that is shown for it.

use crate::paste::paste;
use crate::{mistakes, read};

const MOMENTS: &str = "ready, porter, leaves, cleaned, free, home, arrives";
const ANCHOR: &str = "2026-11-17 8:00";

/// All lines that are shown for a line, those of one reading with `;` between them; where a line has several mistakes, those of all.
/// Each of them is taken.
pub fn shown(moments: &str, anchor: &str, line: &str) -> Vec<String> {
    let text = format!("moments: {moments}\nanchor: {anchor}\n{line}\nspan: from anchor to anchor\n");
    let read = read(&text);
    assert!(read.sheet.is_none(), "{line} is read");
    paste(&text);
    mistakes(&read).iter().flat_map(|mistake| &mistake.fixes).map(|fix| fix.lines.join(" ; ")).collect()
}

#[track_caller]
pub fn shows(moments: &str, anchor: &str, line: &str, lines: &[&str]) {
    assert_eq!(shown(moments, anchor, line), lines, "{line}");
}

/// A line that is a mistake with nothing to copy, and with these words.
#[track_caller]
fn says(line: &str, words: &str) {
    let text = format!("moments: {MOMENTS}\nanchor: {ANCHOR}\n{line}\nspan: from anchor to anchor\n");
    let read = read(&text);
    let found = mistakes(&read);
    let told = found.iter().any(|mistake| {
        let hint = mistake.hint.clone().unwrap_or_default();
        mistake.message.contains(words) || hint.contains(words)
    });
    assert!(told, "{line}: {found:?}");
    assert!(found.iter().all(|mistake| mistake.fixes.is_empty()), "{line}: {found:?}");
}

#[test]
fn a_name_with_a_number_is_no_other_name_with_minutes() {
    let theatres = "leaves, \"Theatre 1\", \"Theatre 2\"";
    for (moments, line, lines) in [
        (theatres, "leaves at least 20 after theatre 2", &["leaves at least 20 after \"Theatre 2\""][..]),
        (theatres, "leaves by Theatre  2", &["leaves by \"Theatre 2\""]),
        (theatres, "leaves <= Theatre2", &["leaves <= \"Theatre 2\""]),
        (theatres, "leaves <= Theatre 3", &["moments: \"Theatre 3\" ; leaves <= \"Theatre 3\""]),
        (
            theatres,
            "leaves <= Theater 2",
            &["leaves <= \"Theatre 2\"", "moments: \"Theater 2\" ; leaves <= \"Theater 2\""],
        ),
        (theatres, "leaves <= \"Theatre 3\"", &["moments: \"Theatre 3\" ; leaves <= \"Theatre 3\""]),
        ("leaves, \"station 3\", \"station 5\"", "Station 5 + 10 <= leaves", &["\"station 5\" + 10 <= leaves"]),
        ("leaves, \"bed 4\", \"Bed 7\"", "Bed 4 <= leaves", &["\"bed 4\" <= leaves"]),
        ("leaves, \"Bed 7\"", "Bed 4 <= leaves", &["moments: \"Bed 4\" ; \"Bed 4\" <= leaves"]),
        ("leaves, \"bed 14\"", "\"bed 4\" <= leaves", &["moments: \"bed 4\" ; \"bed 4\" <= leaves"]),
        ("leaves, porter, porter2", "porter 2 <= leaves", &["porter2 <= leaves"]),
        ("leaves, porter, porter2", "porter 3 <= leaves", &["moments: \"porter 3\" ; \"porter 3\" <= leaves"]),
        (
            "leaves, ready",
            "ready 10 <= leaves",
            &["ready + 10 <= leaves", "ready - 10 <= leaves", "moments: \"ready 10\" ; \"ready 10\" <= leaves"],
        ),
        (
            theatres,
            "Theatre 2 < leaves",
            &["\"Theatre 2\" <= leaves", "\"Theatre 2\" + 1 <= leaves", "\"Theatre 2\" <= leaves"],
        ),
    ] {
        let mut found = shown(moments, ANCHOR, line);
        found.dedup();
        let mut wanted = lines.to_vec();
        wanted.dedup();
        match line.contains(" < ") {
            true => assert!(found.iter().all(|line| wanted.contains(&line.as_str())), "{line}: {found:?}"),
            false => assert_eq!(found, wanted, "{line}"),
        }
    }
}

#[test]
fn all_names_that_are_near_are_shown_and_a_moment_more() {
    for (moments, line, lines) in [
        ("\"Mrs Amsel\", \"Mr Berg\"", "\"Mr Amsel\" by 9:00", &["\"Mrs Amsel\" by 9:00"][..]),
        ("\"Mrs Amsel\", \"Mr Berg\"", "Mr Amsel by 9:00", &["\"Mrs Amsel\" by 9:00"]),
        ("\"patient A\", \"patient B\"", "\"patient C\" by 9:00", &["\"patient A\" by 9:00", "\"patient B\" by 9:00"]),
        ("\"nurse Eva\", \"nurse Ida\"", "nurse Ira by 9:00", &["\"nurse Ida\" by 9:00", "\"nurse Eva\" by 9:00"]),
        ("\"ward 2 east\"", "\"ward 2 west\" by 9:00", &["\"ward 2 east\" by 9:00"]),
        ("Maier, Meier", "Mayer by 9:00", &["Maier by 9:00", "Meier by 9:00"]),
        ("\"Mrs Amsel\", \"Mr Amsel\"", "Amsel by 9:00", &["\"Mrs Amsel\" by 9:00", "\"Mr Amsel\" by 9:00"]),
        ("ready, leaves", "redy by 9:00", &["ready by 9:00"]),
    ] {
        let found = shown(moments, ANCHOR, line);
        let (more, near) = found.split_last().expect("lines");
        assert_eq!(near, lines, "{line}");
        assert!(more.starts_with("moments: "), "{line}: {found:?}");
    }
    // Where the line has another mistake too.
    for line in ["\"Mr Amsel\" < ready", "Mr Amsel < ready", "Amsel < ready"] {
        let found = shown("\"Mrs Amsel\", ready", ANCHOR, line);
        let [one, other] = [&found[..2], &found[2..]].map(|lines| lines.join(" "));
        assert!(one.contains("Mrs Amsel") && other.contains("moments: "), "{line}: {found:?}");
    }
    shows("anchored, ready", ANCHOR, "anchor 30 <= ready", &["anchor + 30 <= ready", "anchor - 30 <= ready"]);
    // Capital letters and spaces make no other name.
    shows("ready, leaves", ANCHOR, "Ready by 9:00", &["ready by 9:00"]);
    shows("\"bed 4\"", ANCHOR, "bed4 by 9:00", &["\"bed 4\" by 9:00"]);
}

#[test]
fn a_day_and_its_time_with_words_between_them() {
    for (line, whole) in [
        ("home by Thu at 14:00", "home by Thu 14:00"),
        ("home by 2026-11-19 at 14:00", "home by 2026-11-19 14:00"),
        ("home by Thursday at 2 pm", "home by Thursday 14:00"),
        ("home by Thu by 14:00", "home by Thu 14:00"),
        ("home by Thu not after 14:00", "home by Thu 14:00"),
        ("home on Thu by 14:00", "home by Thu 14:00"),
        ("home not before Thu at 14:00", "home not before Thu 14:00"),
        ("home = Thu at 14:00", "home = Thu 14:00"),
        ("home by 14:00 2026-11-19", "home by 2026-11-19 14:00"),
        ("home by 9:00 18.11.2026", "home by 2026-11-18 9:00"),
        ("home by 9:00 11/18/2026", "home by 2026-11-18 9:00"),
        ("home by 14:00 19 Nov", "home by 2026-11-19 14:00"),
        ("home by 14:00, 19 Nov", "home by 2026-11-19 14:00"),
        ("home by 14:00 on Thursday", "home by Thursday 14:00"),
        ("home by 2:00 PM 2026-11-19", "home by 2026-11-19 14:00"),
        ("14:00 2026-11-19 <= home", "2026-11-19 14:00 <= home"),
    ] {
        shows(MOMENTS, ANCHOR, line, &[whole]);
    }
    let three = ["home = Thu 14:00", "home by Thu 14:00", "home not before Thu 14:00"];
    shows(MOMENTS, ANCHOR, "home on Thu at 14:00", &three);
    shows(MOMENTS, ANCHOR, "home Thu 14:00", &three);
}

/// What a plan shows where the anchor has no day: the reading is the time that it shows.
#[test]
fn a_time_as_a_plan_shows_it() {
    for (line, whole) in [
        ("arrives = 0:20 +1d", "arrives = anchor + 1 h 50"),
        ("arrives by 0:20 +1d", "arrives by anchor + 1 h 50"),
        ("arrives by 0:20 + 1d", "arrives by anchor + 1 h 50"),
        ("arrives not before 23:10 -1d", "arrives not before anchor - 23 h 20"),
    ] {
        shows(MOMENTS, "22:30", line, &[whole]);
    }
    shows(MOMENTS, "2026-11-17 22:30", "arrives by 0:20 +1d", &["arrives by 2026-11-18 0:20"]);
}

#[test]
fn words_of_every_day_become_no_moments() {
    for line in ["leaves by tonight", "leaves before dinner", "lunch = 12:00"] {
        says(line, "when is that?");
    }
    shows(MOMENTS, ANCHOR, "leaves by lunch", &["leaves by 12:00"]);
    shows(MOMENTS, ANCHOR, "leaves before lunch", &["leaves <= 12:00", "leaves + 1 <= 12:00"]);
    for line in ["all by 9:00", "everyone by 9:00", "ready by all"] {
        says(line, "a rule names its moments");
    }
    says("lunch", "");
}

#[test]
fn opening_hours_that_can_be_two() {
    for (line, lines) in [
        (
            "open: Mon-Fri 8:00-12:00, 1:00-5:00",
            &["open: Mon-Fri 8:00-12:00, 13:00-17:00", "open: Mon-Fri 01:00-05:00, 8:00-12:00"][..],
        ),
        (
            "open: daily 9:00-12:00, 2:00-6:00",
            &["open: daily 9:00-12:00, 14:00-18:00", "open: daily 02:00-06:00, 9:00-12:00"],
        ),
        (
            "open: Mon-Fri 8-12, 1-5",
            &["open: Mon-Fri 8:00-12:00, 13:00-17:00", "open: Mon-Fri 01:00-05:00, 8:00-12:00"],
        ),
        (
            "open: Mon-Fri 8:00-18:00, Sat",
            &["open: Mon-Fri 8:00-18:00, Sat 8:00-18:00", "open: Mon-Fri 8:00-18:00, Sat 0:00-24:00"],
        ),
        ("open: Mon Fri 8:00-18:00", &["open: Monday to Friday 8:00-18:00", "open: Monday, Friday 8:00-18:00"]),
        ("open: Tuesday 2:00-4:00", &["open: Tuesday 14:00-16:00", "open: Tuesday 02:00-04:00"]),
        (
            "open: Tuesday 9:00-12:00, Tuesday 1:00-5:00",
            &["open: Tuesday 9:00-12:00, Tuesday 13:00-17:00", "open: Tuesday 9:00-12:00, Tuesday 01:00-05:00"],
        ),
        ("open: Mon to Mon 8:00-12:00", &["open: Monday 8:00-12:00", "open: daily 8:00-12:00"]),
        ("open: Mon-Fri 7:00-6:00 pm", &["open: Mon-Fri 7:00-18:00"]),
        ("open: daily 7:00-7:00", &["open: daily 0:00-24:00", "open: daily 7:00-19:00"]),
        // Fifteen windows are too many, and no line is shown that the archive would refuse.
        ("open: Mon-Fri 22:00-6:00, 7:00-8:00", &[]),
        (
            "open: Mon-Thu 22:00-6:00, 7:00-8:00",
            &["open: Monday 7:00-8:00, 22:00-24:00, Tuesday to Thursday 0:00-6:00, 7:00-8:00, 22:00-24:00, Friday 0:00-6:00"],
        ),
        (
            "open: Mon-Thu 22:00-6:00, 6:30-8:00",
            &[
                "open: Monday 18:30-20:00, 22:00-24:00, Tuesday to Thursday 0:00-6:00, 18:30-20:00, 22:00-24:00, Friday 0:00-6:00",
                "open: Monday 06:30-08:00, 22:00-24:00, Tuesday to Thursday 0:00-6:00, 06:30-08:00, 22:00-24:00, Friday 0:00-6:00",
            ],
        ),
        ("open: daily 6:00-8:00", &["open: daily 18:00-20:00", "open: daily 06:00-08:00"]),
        (
            "open: Mon-Sun 9:00-10:00, Mon-Sun 11:00-12:00, Sunday 14:00-15:00",
            &["open: Monday to Saturday 9:00-10:00, 11:00-12:00, Sunday 14:00-15:00"],
        ),
        ("open: Montag bis Freitag 7:00-18:00", &["open: Mon to Fri 7:00-18:00"]),
        ("open: Mon-Fri 7:00-12:00; Sat 9:00-12:00", &["open: Mon-Fri 7:00-12:00, Sat 9:00-12:00"]),
        ("open: Monday through Friday 7:00-18:00", &["open: Monday to Friday 7:00-18:00"]),
        ("open: 24/7", &["open: daily 0:00-24:00"]),
    ] {
        shows(MOMENTS, ANCHOR, line, lines);
    }
    says("open: daily 22:00-6:00, 7:00-12:00", "there are more than 14 in a week");
}

/// A line `admits:` is told of the hours that are wrong, and not that there are none.
#[test]
fn hours_that_are_wrong_are_told_once() {
    let read = read("moments: a\nanchor: Mon 8:00\nopen: Monn 8:00-12:00\nadmits: a\nspan: from anchor to a\n");
    assert_eq!(mistakes(&read).len(), 1, "{:?}", read.remarks);
}

#[test]
fn a_rule_that_forbids_its_own_moment_is_told() {
    for line in ["leaves at least 10 after leaves", "ready + 10 <= ready", "later of free, (ready + 5) <= ready"] {
        says(line, "nothing is later than itself");
    }
    says("anchor + 10 <= anchor", "the anchor is not later than itself");
    assert!(self::read("moments: a\na <= nothing\nspan: from anchor to anchor\n").sheet.is_some());
}

#[test]
fn a_time_that_is_added_to_a_time_is_asked_about() {
    for (line, lines) in [
        ("home by 14:00 + Thu 9:00", &["home by Thu 9:00 + 14 h", "home by Thu 14:00", "home by 2026-11-17 14:00"][..]),
        ("home by 9:00 + 9:30", &["home by 9:00 + 9 h 30", "home by 9:30"]),
        (
            "home by 14:00 + 2026-11-19 24:00",
            &["home by 2026-11-19 24:00 + 14 h", "home by 2026-11-19 14:00", "home by 2026-11-17 14:00"],
        ),
        ("home by Thu 2:30", &["home by Thu 02:30", "home by Thu 14:30"]),
        ("leaves >= ready + 9:15", &["leaves >= ready + 9 h 15", "leaves >= 9:15"]),
        (
            "leaves at least 1.30 h after ready",
            &["leaves at least 1:30 after ready", "leaves at least 78 min after ready"],
        ),
        ("free -> cleaned 35", &["cleaned at least 35 after free", "cleaned exactly 35 after free"]),
    ] {
        shows(MOMENTS, ANCHOR, line, lines);
    }
    shows(MOMENTS, ANCHOR, "note: porter is late", &["# note: porter is late"]);
}

#[test]
fn words_that_nearly_say_it_show_what_does() {
    for (line, lines) in [
        ("cleaned = free + 30-45 min", &["cleaned 30 to 45 min after free"][..]),
        ("leaves atleast 10 after ready", &["leaves at least 10 after ready"]),
        ("leaves at leest 10 after ready", &["leaves at least 10 after ready"]),
        ("leaves at-least 10 after ready", &["leaves at least 10 after ready"]),
        ("leaves at least 10 afer ready", &["leaves at least 10 after ready"]),
        ("home Thu 14:00", &["home = Thu 14:00", "home by Thu 14:00", "home not before Thu 14:00"]),
        ("ready by 9:00 to 9:30", &["ready not before 9:00 ; ready by 9:30"]),
        ("ready by 9:00-9:30", &["ready not before 9:00 ; ready by 9:30"]),
        ("home by Thu 9:00-14:00", &["home not before Thu 9:00 ; home by Thu 14:00"]),
        ("home Thu 9:00 to 14:00", &["home not before Thu 9:00 ; home by Thu 14:00"]),
        ("home between Thu 9:00 and 14:00", &["home not before Thu 9:00 ; home by Thu 14:00"]),
        ("home not before Thu 9:00 to 14:00", &["home not before Thu 9:00 ; home by Thu 14:00"]),
        ("ready 9:00 <= leaves", &["ready + 9 h <= leaves", "ready - 9 h <= leaves"]),
        ("ready plus 10 <= leaves", &["ready + 10 <= leaves"]),
        ("leaves same time as ready", &["leaves = ready"]),
        (
            "ready in 30 min",
            &["ready = anchor + 30 min", "ready by anchor + 30 min", "ready not before anchor + 30 min"],
        ),
        ("leaves at least 1,5 h after ready", &["leaves at least 90 min after ready"]),
        ("leaves at least 1h30m after ready", &["leaves at least 1 h 30 after ready"]),
        ("home by 19.11. 14:00", &["home by 2026-11-19 14:00"]),
        ("home by 11/19 14:00", &["home by 2026-11-19 14:00"]),
        ("home by Thu noon", &["home by Thu 12:00"]),
        (
            "home by Thu 14:00; ready by 9:00",
            &["home by Thu 14:00 ; ready by Thu 9:00", "home by Thu 14:00 ; ready by 2026-11-17 9:00"],
        ),
        ("suspended: ready by 9:00; porter by 9:15", &["suspended: ready by 9:00 ; suspended: porter by 9:15"]),
    ] {
        shows(MOMENTS, ANCHOR, line, lines);
    }
    shows(
        "\"Bed clean\", \"Bed free\"",
        ANCHOR,
        "Bed clean = Bed free + 30-45 min",
        &["\"Bed clean\" 30 to 45 min after \"Bed free\""],
    );
    for line in ["home by 2026-12-24 14:00", "home by 24 Dec 14:00", "home by 24.12.2026 14:00"] {
        says(line, "this is more than two weeks from the anchor");
    }
    for line in ["at least 10 after ready", "by 9:00", "not before 9:00"] {
        says(line, "a rule starts with its moment");
    }
    says("nothing <= ready", "says nothing: every plan keeps it");
    let text = |anchor: &str, expect: &str| format!("moments: a\n{anchor}\nspan: from anchor to a\n{expect}\n");
    for (text, line) in [
        (text("anchor: Tuesday at 8:00", ""), "anchor: Tuesday 8:00"),
        (text("", "expect: 10 minutes"), "expect: least 10 minutes"),
    ] {
        assert_eq!(mistakes(&read(&text))[0].fixes[0].lines, [line], "{text}");
    }
}

/// A day that a line names once: its other times are of that day, or of the anchor's; where one time ends what another starts, of the
/// day beside it too.
#[test]
fn a_day_that_a_line_names_is_asked_about_for_its_other_times() {
    for (line, lines) in [
        (
            "span: from Thu 9:00 to 10:00",
            &["span: from Thu 9:00 to Thu 10:00", "span: from Thu 9:00 to 2026-11-17 10:00"][..],
        ),
        (
            "span: from 9:00 to Thu 10:00",
            &["span: from Thu 9:00 to Thu 10:00", "span: from 2026-11-17 9:00 to Thu 10:00"],
        ),
        (
            "span: from Thu 22:00 to 6:00",
            &[
                "span: from Thu 22:00 to Thu 6:00",
                "span: from Thu 22:00 to 2026-11-20 6:00",
                "span: from Thu 22:00 to 2026-11-17 6:00",
            ],
        ),
        (
            "later of Thu 9:00, 10:00 <= ready",
            &["later of Thu 9:00, Thu 10:00 <= ready", "later of Thu 9:00, 2026-11-17 10:00 <= ready"],
        ),
        (
            "leaves by later of 2026-11-19 9:00, 10:00",
            &[
                "leaves by later of 2026-11-19 9:00, 2026-11-19 10:00",
                "leaves by later of 2026-11-19 9:00, 2026-11-17 10:00",
            ],
        ),
        (
            "ready by Thu 10:00 and not before 9:00",
            &[
                "ready by Thu 10:00 ; ready not before Thu 9:00",
                "ready by Thu 10:00 ; ready not before 2026-11-17 9:00",
            ],
        ),
        ("ready by Thu 9:00 + 9:30", &["ready by Thu 9:00 + 9 h 30", "ready by Thu 9:30", "ready by 2026-11-17 9:30"]),
        ("ready by Thu 9:00 or 10:00", &["ready by Thu 9:00", "ready by Thu 10:00", "ready by 2026-11-17 10:00"]),
        ("ready Thu 9:00 or 10:00", &["ready = Thu 9:00", "ready = Thu 10:00", "ready = 2026-11-17 10:00"]),
        (
            "leaves at least 9:15 after Thu 8:00",
            &[
                "leaves at least 9 h 15 after Thu 8:00",
                "leaves not before Thu 9:15",
                "leaves not before 2026-11-17 9:15",
            ],
        ),
        (
            "ready by Thu 9:00 - 10:00",
            &[
                "ready by Thu 9:00 - 10 h",
                "ready by Thu 9:00 - 10 min",
                "ready not before Thu 9:00 ; ready by Thu 10:00",
            ],
        ),
        ("ready not before Thu 22:00 and by 6:00", &["ready not before Thu 22:00 ; ready by 2026-11-20 6:00"]),
        ("home Thu 22:00-6:00", &["home not before Thu 22:00 ; home by 2026-11-20 6:00"]),
        ("home between Thu 22:00 and 6:00", &["home not before Thu 22:00 ; home by 2026-11-20 6:00"]),
        (
            "ready by tomorrow 9:00 and not before 8:30",
            &[
                "ready by 2026-11-18 9:00 ; ready not before 2026-11-18 8:30",
                "ready by 2026-11-18 9:00 ; ready not before 2026-11-17 8:30",
            ],
        ),
        (
            "ready by Thu 9:00, porter by 10:00",
            &["ready by Thu 9:00 ; porter by Thu 10:00", "ready by Thu 9:00 ; porter by 2026-11-17 10:00"],
        ),
        ("Thu 9:00 <= ready <= 10:00", &["Thu 9:00 <= ready ; ready <= Thu 10:00"]),
        ("ready by Thu or Fri 9:00", &["ready by Thu 9:00", "ready by Fri 9:00"]),
        ("ready by Thu/Fri 9:00", &["ready by Thu 9:00", "ready by Fri 9:00"]),
        ("ready Thu by 9:00", &["ready by Thu 9:00"]),
        ("ready on Thu between 9:00 and 10:00", &["ready not before Thu 9:00 ; ready by Thu 10:00"]),
        ("ready on Thursday, 9:00 to 10:00", &["ready not before Thursday 9:00 ; ready by Thursday 10:00"]),
        ("home by Thu 25:00", &["home by Fri 01:00"]),
    ] {
        shows(MOMENTS, ANCHOR, line, lines);
    }
    let days = &["span: from Tue 23:00 to Wed 6:00", "span: from Wed 23:00 to Wed 6:00"];
    let mut found = shown(MOMENTS, "Tue 22:30", "span: from 23:00 to Wed 6:00");
    found.retain(|line| days.contains(&line.as_str()));
    assert_eq!(found.len(), 2, "{found:?}");
}

/// Numbers and texts with a colon that can be several lengths, or times.
#[test]
fn every_form_of_a_number_that_can_be_two() {
    for (line, lines) in [
        (
            "cleaned at least 0130 after free",
            &["cleaned at least 1:30 after free", "cleaned at least 130 min after free"][..],
        ),
        ("anchor + 0930 <= ready", &["anchor + 9 h 30 <= ready", "9:30 <= ready", "anchor + 930 min <= ready"]),
        ("ready + 1230 <= leaves", &["ready + 12 h 30 <= leaves", "12:30 <= leaves", "ready + 1230 min <= leaves"]),
        ("free + 090 <= cleaned", &["free + 90 min <= cleaned"]),
        (
            "cleaned at least 45:00 after free",
            &["cleaned at least 45 h after free", "cleaned at least 45 min after free"],
        ),
        (
            "cleaned 20:00 to 30:00 after free",
            &["cleaned 20 h to 30 h after free", "cleaned 20 min to 30 min after free"],
        ),
        ("ready + 45:30 <= leaves", &["ready + 45 h 30 <= leaves", "ready + 46 min <= leaves"]),
        ("free + 12:00 <= cleaned", &["free + 12 h <= cleaned", "free + 12 min <= cleaned", "12:00 <= cleaned"]),
        (
            "cleaned 10 to 10:30 after free",
            &["cleaned 10 min to 10 h 30 after free", "cleaned not before 10:00 ; cleaned by 10:30"],
        ),
        ("ready + 1 day 9:30 <= home", &["ready + 1 day 9 h 30 <= home", "2026-11-18 9:30 <= home"]),
        (
            "home at least 1 day 9:30 after ready",
            &["home at least 1 day 9 h 30 after ready", "home not before 2026-11-18 9:30"],
        ),
        ("home by Thu 9:00 + 1 day 9:30", &["home by Thu 9:00 + 1 day 9 h 30", "home by 2026-11-20 9:30"]),
        ("home by 2026-11-18 2:30", &["home by 2026-11-18 02:30", "home by 2026-11-18 14:30"]),
        ("ready = 9", &["ready = 9:00", "ready = 21:00", "ready = anchor + 9"]),
        ("ready by 9:00 - 10", &["ready by 9:00 - 10 min", "ready not before 9:00 ; ready by 10:00"]),
        ("leaves 30 - 40 after ready", &["leaves 30 to 40 after ready"]),
        ("leaves at least 30 + 10 after ready", &["leaves at least 40 min after ready"]),
        ("cleaned 20 +- 5 after free", &["cleaned 15 to 25 after free"]),
        ("cleaned 20 ± 5 min before free", &["cleaned 15 to 25 before free"]),
        ("cleaned 5 ± 20 after free", &["free - 15 <= cleaned ; cleaned <= free + 25"]),
        ("ready = 9:00 +- 10", &["9:00 - 10 min <= ready ; ready <= 9:00 + 10 min"]),
        (
            "leaves 23:00 to 1:00 after ready",
            &["leaves 1 h to 23 h after ready", "leaves not before 23:00 ; leaves by 2026-11-18 01:00"],
        ),
        ("9:00 - 10 <= ready", &["9:00 - 10 min <= ready", "ready not before 9:00 ; ready by 10:00"]),
    ] {
        shows(MOMENTS, ANCHOR, line, lines);
    }
    for (line, lines) in [
        ("anchor: Tuesday 2:30", &["anchor: Tuesday 02:30", "anchor: Tuesday 14:30"][..]),
        ("anchor: 8", &["anchor: 8:00", "anchor: 20:00"]),
        ("anchor: 3", &["anchor: 03:00", "anchor: 15:00"]),
        ("anchor: 830", &["anchor: 8:30", "anchor: 20:30"]),
    ] {
        let read = read(&format!("moments: ready\n{line}\nspan: from anchor to ready\n"));
        let found: Vec<String> =
            mistakes(&read).iter().flat_map(|mistake| &mistake.fixes).map(|fix| fix.lines.concat()).collect();
        assert_eq!(found, lines, "{line}");
    }
    for (line, lines) in [
        ("expect: least 45:00", &["expect: least 45 h", "expect: least 45 min"][..]),
        ("expect: least 1230", &["expect: least 12 h 30", "expect: least 1230 min"]),
        ("expect: least 0130", &["expect: least 1:30", "expect: least 130 min"]),
        ("expect: least 1 day 9:30", &["expect: least 1 day 9 h 30", "expect: least 1 day 1 h 30"]),
    ] {
        let read = read(&format!("moments: ready\nanchor: 8:00\nspan: from anchor to ready\n{line}\n"));
        let found: Vec<String> =
            mistakes(&read).iter().flat_map(|mistake| &mistake.fixes).map(|fix| fix.lines.concat()).collect();
        assert_eq!(found, lines, "{line}");
    }
    let bed = |line: &str| shown("bed, \"bed 4\", ready", ANCHOR, line);
    assert_eq!(bed("bed - 4 <= ready"), ["\"bed 4\" <= ready", "bed - 4 min <= ready"]);
    let after =
        ["ready <= \"bed 4\"", "ready + 1 <= \"bed 4\"", "bed at least 4 after ready", "bed exactly 4 after ready"];
    assert_eq!(bed("bed 4 after ready"), after);
}

/// Rules, limits, times and moments with `and`, `or` and commas between them.
#[test]
fn lists_show_a_line_for_each_that_they_can_be() {
    for (line, lines) in [
        ("ready not before 9:00 and porter not before 10:00", &["ready not before 9:00 ; porter not before 10:00"][..]),
        ("ready not before 9:00, porter not before 10:00", &["ready not before 9:00 ; porter not before 10:00"]),
        (
            "ready not before 9:00 or porter not before 10:00",
            &["ready not before 9:00 ; porter not before 10:00", "ready not before 9:00", "porter not before 10:00"],
        ),
        (
            "ready not before 9:00 and porter not before 10:00 and leaves by 11:00",
            &["ready not before 9:00 ; porter not before 10:00 ; leaves by 11:00"],
        ),
        ("ready by 9:00 porter by 10:00", &["ready by 9:00 ; porter by 10:00"]),
        ("ready <= leaves and porter by 9:00", &["ready <= leaves ; porter by 9:00"]),
        ("ready and porter by 9:00 and leaves by 10:00", &["ready by 9:00 ; porter by 9:00 ; leaves by 10:00"]),
        ("suspended: ready by 9:00 and porter by 9:15", &["suspended: ready by 9:00 ; suspended: porter by 9:15"]),
        ("ready by 9:00 or not before 10:00", &["ready by 9:00", "ready not before 10:00"]),
        ("ready >= 9:00 and <= 10:00", &["ready >= 9:00 ; ready <= 10:00"]),
        ("ready by 9:00 and 10:00", &["ready not before 9:00 ; ready by 10:00", "ready by 9:00", "ready by 10:00"]),
        ("ready = 9:00 or 10:00", &["ready = 9:00", "ready = 10:00"]),
        ("ready, porter = 9:00", &["ready = 9:00 ; porter = 9:00", "later of ready, porter = 9:00"]),
        ("ready or porter <= leaves", &["later of ready, porter <= leaves", "ready <= leaves", "porter <= leaves"]),
        (
            "leaves at least 30 after ready or porter",
            &[
                "leaves at least 30 after later of ready, porter",
                "leaves at least 30 after ready",
                "leaves at least 30 after porter",
            ],
        ),
        (
            "leaves at most 30 after ready or porter",
            &[
                "leaves at most 30 after later of ready, porter",
                "leaves at most 30 after ready ; leaves at most 30 after porter",
            ],
        ),
        (
            "leaves at least 30 after ready and 10 before arrives",
            &["leaves at least 30 after ready ; leaves at least 10 before arrives"],
        ),
        (
            "leaves at least 30 after ready but at most 60",
            &["leaves at least 30 after ready ; leaves at most 60 after ready"],
        ),
        ("leaves at least 10 after ready by 9:00", &["leaves at least 10 after ready ; leaves by 9:00"]),
        ("home 9:00 at the earliest and 10:00 at the latest", &["home not before 9:00 ; home by 10:00"]),
        ("ready 22:00-6:00", &["ready not before 22:00 ; ready by 2026-11-18 6:00"]),
        ("ready 23:30-0:30", &["ready not before 23:30 ; ready by 2026-11-18 0:30"]),
        (
            "ready 9:00-1:00",
            &["ready not before 9:00 ; ready by 2026-11-18 01:00", "ready not before 9:00 ; ready by 2026-11-17 13:00"],
        ),
        ("home by Thu around 14:00", &["home by Thu 14:00"]),
        (
            "ready on Thu or Fri",
            &[
                "ready not before Thu 0:00 ; ready by Thu 24:00",
                "ready not before Fri 0:00 ; ready by Fri 24:00",
                "ready not before Thu 0:00 ; ready by Fri 24:00",
            ],
        ),
        ("later of ready, porter, and free <= leaves", &["later of ready, porter, free <= leaves"]),
        ("home by Thu 14:00 or later", &["home by Thu 14:00", "home not before Thu 14:00"]),
        (
            "ready 10 and porter 20 after free",
            &[
                "ready at least 10 after free ; porter at least 20 after free",
                "ready exactly 10 after free ; porter exactly 20 after free",
            ],
        ),
        (
            "nothing after 18:00 but ready, porter, free",
            &["leaves by 18:00 ; cleaned by 18:00 ; home by 18:00 ; arrives by 18:00"],
        ),
        ("span: leaves after ready", &["span: from ready to leaves"]),
    ] {
        shows(MOMENTS, ANCHOR, line, lines);
    }
}

/// A day has its hours in one place. Where it has them in two, they are asked about: the last alone, or both.
#[test]
fn a_day_with_hours_in_two_places() {
    for (line, lines) in [
        (
            "open: daily 9:00-12:00, Sunday 14:00-16:00",
            &[
                "open: Monday to Saturday 9:00-12:00, Sunday 14:00-16:00",
                "open: Monday to Saturday 9:00-12:00, Sunday 9:00-12:00, 14:00-16:00",
            ][..],
        ),
        (
            "open: daily 9:00-12:00, Sunday 10:00-16:00 # visits",
            &[
                "open: Monday to Saturday 9:00-12:00, Sunday 10:00-16:00 # visits",
                "open: Monday to Saturday 9:00-12:00, Sunday 9:00-16:00 # visits",
            ],
        ),
        (
            "open: Mon-Fri 7:00-18:00, Fri 7:00-14:00",
            &["open: Monday to Thursday 7:00-18:00, Friday 7:00-14:00", "open: Monday to Friday 7:00-18:00"],
        ),
        ("open: Mon 8:00-12:00, 10:00-14:00", &["open: Mon 8:00-14:00", "open: Mon 10:00-14:00"]),
        (
            "open: Monday 22:00-24:00, 0:00-6:00",
            &["open: Monday 22:00-24:00, Tuesday 0:00-6:00", "open: Monday 0:00-6:00, 22:00-24:00"],
        ),
        (
            "open: Mon-Fri 22:00-6:00, Sat 9:00-12:00",
            &["open: Monday 22:00-24:00, Tuesday to Friday 0:00-6:00, 22:00-24:00, Saturday 0:00-6:00, 9:00-12:00"],
        ),
        (
            "open: daily 8:00-18:00\nopen: Sunday 10:00-12:00",
            &["open: Monday to Saturday 8:00-18:00, Sunday 10:00-12:00"],
        ),
        (
            "open: daily 9:00-12:00\nopen: Sunday 14:00-16:00",
            &[
                "open: Monday to Saturday 9:00-12:00, Sunday 14:00-16:00",
                "open: Monday to Saturday 9:00-12:00, Sunday 9:00-12:00, 14:00-16:00",
            ],
        ),
    ] {
        shows(MOMENTS, ANCHOR, line, lines);
    }
    let windows = |line: &str| {
        let text = format!("moments: {MOMENTS}\nanchor: {ANCHOR}\n{line}\nspan: from anchor to anchor\n");
        let read = read(&text);
        read.sheet.unwrap_or_else(|| panic!("{line}: {:?}", read.remarks)).week.len()
    };
    assert_eq!(windows("open: Monday to Friday 7:00-18:00\nopen: Saturday 9:00-12:00"), 6);
    assert_eq!(windows("open: Mon 8:00-12:00, Mon 13:00-14:00"), 2);
    assert_eq!(windows("open: Mon-Fri 8:00-12:00\nopen: Mon 8:00-12:00"), 5);
}
