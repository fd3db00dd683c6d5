//! Each point of what is read and what is asked about, one after another.

use crate::{mistakes, read, said};

const MOMENTS: &str = "moments: ready, porter, leaves, \"ward-4\"\n";

/// A text with a line between its moments, the anchor's line and its span.
fn text(anchor: &str, line: &str) -> String {
    let anchor = if anchor.is_empty() { String::new() } else { format!("anchor: {anchor}\n") };
    format!("{MOMENTS}{anchor}{line}\nspan: from anchor to ready\n")
}

/// A line is read as other lines are.
fn same(anchor: &str, line: &str, others: &[&str]) {
    let (one, other) = (read(&text(anchor, line)), read(&text(anchor, &others.join("\n"))));
    let sheet = one.sheet.unwrap_or_else(|| panic!("{line}: {:?}", one.remarks));
    let wanted = other.sheet.unwrap_or_else(|| panic!("{others:?}: {:?}", other.remarks));
    assert_eq!(said(&sheet).rules, said(&wanted).rules, "{line}");
    assert_eq!(sheet.rules.len(), wanted.rules.len(), "{line}");
}

/// A line is a mistake that shows these lines to be written in its place, and no others.
fn asks(anchor: &str, line: &str, readings: &[&str]) {
    let read = read(&text(anchor, line));
    let found = mistakes(&read);
    let [mistake] = found[..] else { panic!("{line}: {found:?}") };
    let shown: Vec<String> = mistake.fixes.iter().map(|fix| fix.lines.join(" ; ")).collect();
    assert_eq!(shown, readings, "{line}: {mistake:?}");
}

#[test]
fn point_1_a_hash_starts_a_comment_at_the_line_or_between_spaces() {
    same("", "ready <= leaves # + 10", &["ready <= leaves"]);
    same("", "#ready <= leaves", &[]);
    asks("", "ready <= leaves #late", &["ready <= leaves # late"]);
    let read = read("moments: bed #1, bed #2\nspan: from anchor to anchor\n");
    assert_eq!(mistakes(&read)[0].fixes[0].lines, ["moments: \"bed #1\", \"bed #2\""]);
    asks("", "#1 ready <= leaves", &["# ready <= leaves", "ready <= leaves"]);
}

#[test]
fn point_2_minutes_inside_later_of_stand_in_brackets() {
    asks(
        "",
        "later of ready, porter + 15 <= leaves",
        &["later of ready, (porter + 15) <= leaves", "(later of ready, porter) + 15 <= leaves"],
    );
    for line in [
        "(later of ready, porter) + 15 <= leaves",
        "later of (ready, porter) + 15 <= leaves",
        "15 + later of ready, porter <= leaves",
    ] {
        same("", line, &["later of (ready + 15), (porter + 15) <= leaves"]);
    }
    same("", "15 + later of ready, (porter - 5) <= leaves", &["later of (ready + 15), (porter + 10) <= leaves"]);
}

#[test]
fn point_3_a_minus_has_spaces() {
    same("", "ward-4 <= leaves", &["\"ward-4\" <= leaves"]);
    same("", "ready – 5 <= leaves", &["ready - 5 <= leaves"]);
    asks("", "ready-4 <= leaves", &["ready - 4 <= leaves"]);
    asks("", "ready -4 <= leaves", &["ready - 4 <= leaves"]);
    asks("", "ward-5 <= leaves", &["moments: \"ward-5\" ; ward-5 <= leaves"]);
    let both = "moments: a, ward, ward-4\nward-4 <= a\nspan: from a to a\n";
    let read = read(both);
    let shown: Vec<_> = mistakes(&read)[0].fixes.iter().map(|fix| fix.lines.concat()).collect();
    assert_eq!(shown, ["\"ward-4\" <= a", "ward - 4 <= a"]);
}

#[test]
fn point_4_nothing_before_anchor_adds_a_rule_for_each_that_nothing_holds() {
    let ties = ["anchor + 40 <= ready", "ready - 30 <= porter", "leaves <= ready"];
    let line = format!("{}\nnothing before anchor", ties.join("\n"));
    same("", &line, &[ties[0], ties[1], ties[2], "anchor <= leaves", "anchor <= \"ward-4\""]);
    let line = format!("{}\nnothing before anchor but \"ward-4\", leaves", ties.join("\n"));
    same("", &line, &ties);
    asks(
        "",
        "anchor - 5 <= ready\nnothing before anchor",
        &["nothing before anchor but ready", "anchor <= ready ; nothing before anchor but ready"],
    );
    // The added rules count as others do.
    let many = "anchor + 1 <= ready\n".repeat(62);
    let read = read(&format!("{MOMENTS}{many}nothing before anchor\nspan: from anchor to ready\n"));
    assert!(mistakes(&read)[0].message.starts_with("there are 65 rules"), "{:?}", read.remarks);
}

#[test]
fn point_5_names_that_look_alike_are_one_mistake() {
    for (name, told) in [("Ready", "the capital letter 'R'"), ("re\u{AD}ady", "U+00AD"), ("\"le\u{430}ves\"", "U+0430")]
    {
        let read = read(&format!("{MOMENTS}moments: {name}\n{name} <= leaves\nspan: from anchor to ready\n"));
        let found = mistakes(&read);
        assert!(found.len() == 1 && found[0].message.contains(told), "{name}: {found:?}");
    }
    asks("", "Ready <= leaves", &["ready <= leaves"]);
}

#[test]
fn point_6_a_lead_that_can_be_a_time_of_day_is_asked_about() {
    asks("8:00", "anchor + 8:40 <= ready", &["anchor + 8 h 40 <= ready", "8:40 <= ready"]);
    asks("8:00", "anchor + 23:59 <= ready", &["anchor + 23 h 59 <= ready", "23:59 <= ready"]);
    same("8:00", "anchor + 7:59 <= ready", &["anchor + 479 <= ready"]);
    asks("8:00", "anchor + 24:00 <= ready", &["anchor + 24 h <= ready", "anchor + 24 min <= ready"]);
    same("", "anchor + 8:40 <= ready", &["anchor + 520 <= ready"]);
    asks("8:00", "porter + 8:40 <= ready", &["porter + 8 h 40 <= ready", "8:40 <= ready"]);
    asks("8:00", "9:15 + porter <= ready", &["9 h 15 + porter <= ready", "9:15 <= ready"]);
    asks("8:00", "leaves >= ready + 9:15", &["leaves >= ready + 9 h 15", "leaves >= 9:15"]);
    same("8:00", "porter + 7:40 <= ready", &["porter + 460 <= ready"]);
    same("", "porter + 8:40 <= ready", &["porter + 520 <= ready"]);
    asks("8:00", "leaves at least 9:00 after anchor", &["leaves at least 9 h after anchor", "leaves not before 9:00"]);
    asks("8:00", "leaves exactly 9:15 after ready", &["leaves exactly 9 h 15 after ready", "leaves = 9:15"]);
    asks(
        "8:00",
        "leaves 8:40 to 9:00 after ready",
        &["leaves 8 h 40 to 9 h after ready", "leaves not before 8:40 ; leaves by 9:00"],
    );
    same("8:00", "leaves at most 1:30 after ready", &["leaves <= ready + 90"]);
    asks("8:00", "ready by 9:00 - 9:30", &["ready by 9:00 - 9 h 30", "ready not before 9:00 ; ready by 9:30"]);
    asks("8:00", "ready = 8:40 – 8:45", &["ready = 8:40 – 8 h 45", "ready not before 8:40 ; ready by 8:45"]);
    same("8:00", "ready by 9:00 - 10 min", &["ready <= anchor + 50"]);
    same("8:00", "ready by 9:00 - 30", &["ready <= anchor + 30"]);
    asks("8:00", "ready by 9:00 - 10", &["ready by 9:00 - 10 min", "ready not before 9:00 ; ready by 10:00"]);
}

#[test]
fn point_7_clock_times_days_and_dates() {
    let named = read("moments: Thu, ready\nspan: from anchor to ready\n");
    assert_eq!(mistakes(&named)[0].fixes[0].lines, ["moments: \"Thu\", ready"]);
    same("8:00", "ready not before 8:40", &["anchor + 40 <= ready"]);
    same("Tue 8:00", "ready by Thu 14:00", &["ready <= anchor + 3240"]);
    same("2026-11-17 8:00", "ready by Thu 14:00", &["ready <= anchor + 3240"]);
    same("2026-11-30 8:00", "2026-12-02 8:00 <= ready", &["anchor + 2 days <= ready"]);
    same("2026-11-17 8:00", "ready not before 2026-11-16 8:00", &["anchor - 1 day <= ready"]);
    same("8:00", "ready by 24:00", &["ready <= anchor + 16 h"]);
    asks("9:00", "ready by 8:40", &["ready by anchor - 20", "ready by anchor + 23 h 40", "ready by 20:40"]);
    asks(
        "2026-11-30 9:00",
        "ready by 8:40",
        &["ready by 2026-11-30 8:40", "ready by 2026-12-01 8:40", "ready by 2026-11-30 20:40"],
    );
    asks("Tue 9:00", "ready by Thu", &["ready by Thu 0:00", "ready by Thu 24:00"]);
    asks("9:00", "ready by 9", &["ready by 9:00", "ready by 21:00", "ready by anchor + 9"]);
    // Days of the week are the next ones; near behind, both are shown.
    let days = ["Mon", "Tue", "Wed", "Thu", "Fri", "Sat", "Sun"];
    let asked = |anchor: &str| -> Vec<&str> {
        let asked =
            |day: &&&str| read(&text(&format!("{anchor} 8:00"), &format!("ready by {day} 9:00"))).sheet.is_none();
        days.iter().filter(asked).copied().collect()
    };
    assert_eq!(asked("Mon"), ["Sun"]);
    assert_eq!(asked("Tue"), ["Mon"]);
    assert_eq!(asked("Thu"), ["Mon", "Tue", "Wed"]);
    assert_eq!(asked("Fri"), ["Tue", "Wed", "Thu"]);
    assert_eq!(asked("Sun"), ["Thu", "Fri", "Sat"]);
}

#[test]
fn point_8_lengths_of_time() {
    for (length, minutes) in [
        ("35", 35),
        ("35 min", 35),
        ("1:30", 90),
        ("01:30", 90),
        ("2 h", 120),
        ("1 h 30", 90),
        ("1h30", 90),
        ("1 hour 5 minutes", 65),
        ("1 day", 1_440),
        ("3 days", 4_320),
        ("2 days 4:00", 3_120),
        ("2 days 4 h 10", 3_130),
        ("14 days", 20_160),
    ] {
        same("", &format!("ready + {length} <= leaves"), &[&format!("ready + {minutes} min <= leaves")]);
    }
    asks("", "ready + 1.5 h <= leaves", &["ready + 90 min <= leaves"]);
    asks("", "ready + 1,5 h <= leaves", &["ready + 90 min <= leaves"]);
    asks("", "ready + 1.440 <= leaves", &["ready + 1440 min <= leaves"]);
    asks("", "ready + 2 days 4 <= leaves", &["ready + 2 days 4 h <= leaves", "ready + 2 days 4 min <= leaves"]);
    asks("", "ready + 14 days 0:01 <= leaves", &[]);
    asks("", "ready + 1 h 60 <= leaves", &[]);
}

#[test]
fn point_9_both_limits_and_the_signs() {
    same("", "leaves 35 to 40 after ready", &["ready + 35 <= leaves", "leaves <= ready + 40"]);
    same("", "leaves at least 35 after ready", &["ready + 35 <= leaves"]);
    same("", "leaves at most 40 min after ready", &["leaves <= ready + 40"]);
    same("", "leaves exactly 10 after ready", &["ready + 10 <= leaves", "leaves <= ready + 10"]);
    same("", "leaves 10 to 1:00 before ready", &["leaves + 10 <= ready", "ready <= leaves + 60"]);
    same("", "leaves = ready + 10", &["ready + 10 <= leaves", "leaves <= ready + 10"]);
    same("", "leaves >= ready + 10", &["ready + 10 <= leaves"]);
    same("", "leaves ≥ ready + 10", &["ready + 10 <= leaves"]);
    same("", "ready + 10 ≤ leaves", &["ready + 10 <= leaves"]);
    same("", "leaves at least 5 after later of ready, porter", &["later of (ready + 5), (porter + 5) <= leaves"]);
    asks("", "leaves 35 after ready", &["leaves at least 35 after ready", "leaves exactly 35 after ready"]);
    asks("", "leaves before ready", &["leaves <= ready", "leaves + 1 <= ready"]);
    asks("", "leaves < ready", &["leaves <= ready", "leaves + 1 <= ready"]);
    asks("", "leaves != ready", &["leaves + 1 <= ready", "ready + 1 <= leaves"]);
    asks("", "leaves and porter <= ready", &["later of leaves, porter <= ready"]);
}

#[test]
fn point_10_what_is_plainly_understood_is_taken() {
    same("08:00", "Ready By 08:40".replace("Ready", "ready").as_str(), &["ready <= anchor + 40"]);
    same("", "“ward-4” <= „ward-4“ + 5", &["\"ward-4\" <= \"ward-4\" + 5"]);
    same("", "Later of ready, porter <= Anchor", &["later of ready, porter <= anchor"]);
    let read =
        read("Moments: a\nANCHOR: Tue 08:00\nOpen: Mon–Fri 07:00–18:00\nSpan: From Anchor To a\nExpect: Bottomless\n");
    assert!(read.sheet.is_some_and(|sheet| sheet.week.len() == 5), "{:?}", read.remarks);
}

/// Words by other names are shown as they are read here; what they mean is one thing.
#[test]
fn other_words_are_shown_as_they_are_read() {
    let dated = "2026-11-17 8:00";
    for (line, read) in [
        ("ready by Thur 14:00", "ready by Thu 14:00"),
        ("ready by Do 14:00", "ready by Thu 14:00"),
        ("ready by Tu 14:00", "ready by Tue 14:00"),
        ("ready by Th 14:00", "ready by Thu 14:00"),
        ("ready by Donnerstag 14:00", "ready by Thu 14:00"),
        ("by 8:45 ready", "ready by 8:45"),
        ("ready ‹＝ leaves", "ready <= leaves"),
        ("ready nicht vor 8:40", "ready not before 8:40"),
        ("ready bis 8:45", "ready by 8:45"),
        ("ready must be by 8:45", "ready by 8:45"),
        ("ready by 9:00,", "ready by 9:00"),
        ("ready by 9:00.", "ready by 9:00"),
        ("ready by 8:45h", "ready by 8:45"),
        ("ready by 8: 45", "ready by 8:45"),
        ("ready by 8:45 (latest)", "ready by 8:45"),
        ("ready 8:45 (latest)", "ready by 8:45"),
        ("ready 8:40 (earliest)", "ready not before 8:40"),
        ("leaves at least 1 h, 30 min after ready", "leaves at least 1 h 30 min after ready"),
        ("leaves at least 3 m after ready", "leaves at least 3 min after ready"),
        ("leaves at least 1 week after ready", "leaves at least 7 days after ready"),
        ("leaves at least 35 Minuten after ready", "leaves at least 35 min after ready"),
        ("ready by 19 Nov 9:00", "ready by 2026-11-19 9:00"),
        ("ready by Nov 19, 2026 9:00", "ready by 2026-11-19 9:00"),
        ("ready by 11/19/2026 9:00", "ready by 2026-11-19 9:00"),
        ("ready not before 8:40 am", "ready not before 08:40"),
    ] {
        asks(dated, line, &[read]);
    }
    // A moment that is called like such a word is a moment.
    let named = read("moments: Do, bis, ready\nDo <= bis\nbis by ready\nspan: from Do to bis\n");
    assert!(named.sheet.is_some(), "{:?}", named.remarks);
}

/// What can be several things shows them all, and nothing that nobody means.
#[test]
fn what_can_be_several_things_shows_them() {
    for (line, readings) in [
        ("ready by 845", &["ready by 8:45", "ready by 20:45", "ready by anchor + 845"][..]),
        ("ready by 1440", &["ready by 14:40", "ready by anchor + 1440 min"]),
        ("ready by 2 days", &["ready by anchor + 2 days", "ready by 2026-11-19 24:00"]),
        ("ready by 2:00 am", &["ready by 2026-11-17 02:00", "ready by 2026-11-18 02:00"]),
        ("ready 8:40", &["ready = 8:40", "ready by 8:40", "ready not before 8:40"]),
        ("ready 8:40 am", &["ready = 08:40", "ready by 08:40", "ready not before 08:40"]),
        ("ready exactly 8:40", &["ready = 8:40"]),
        ("ready at least 8:40", &["ready not before 8:40"]),
        ("ready at most 8:40", &["ready by 8:40"]),
        ("ready by 8:45 or 9:00", &["ready by 8:45", "ready by 9:00"]),
        ("leaves up to 10 after ready", &["leaves at most 10 after ready", "leaves 0 to 10 after ready"]),
        ("leaves max 10 after ready", &["leaves at most 10 after ready", "leaves 0 to 10 after ready"]),
        ("leaves not more than 10 after ready", &["leaves at most 10 after ready", "leaves 0 to 10 after ready"]),
        ("ready at 9", &["ready = 9:00", "ready = 21:00"]),
        ("ready from 8:40 to 8:45", &["ready not before 8:40 ; ready by 8:45"]),
        ("ready 8:40 to 8:45", &["ready not before 8:40 ; ready by 8:45"]),
        ("ready not before 8:40 by 8:45", &["ready not before 8:40 ; ready by 8:45"]),
        ("leaves at least 35 and at most 40 after ready", &["leaves 35 to 40 after ready"]),
        ("ready by Thu 9", &["ready by Thu 9:00", "ready by Thu 21:00"]),
        ("ready, porter by 9:00", &["ready by 9:00 ; porter by 9:00"]),
        (
            "leaves before ready, porter",
            &["leaves <= ready ; leaves <= porter", "leaves + 1 <= ready ; leaves + 1 <= porter"],
        ),
        ("ready between 9:00 and 8:40", &[]),
        ("ready by about 9:00", &["ready by 9:00"]),
        ("leaves soon after ready", &[]),
    ] {
        let read = read(&text("2026-11-17 8:00", line));
        let shown: Vec<String> =
            mistakes(&read).iter().flat_map(|mistake| &mistake.fixes).map(|fix| fix.lines.join(" ; ")).collect();
        assert_eq!(shown, readings, "{line}: {:?}", read.remarks);
    }
    let dates = read("moments: a\nanchor: 05.06.2027 9:00\nspan: from anchor to a\n");
    let shown: Vec<_> = mistakes(&dates)[0].fixes.iter().map(|fix| fix.lines.concat()).collect();
    assert_eq!(shown, ["anchor: 2027-06-05 9:00", "anchor: 2027-05-06 9:00"]);
}

/// Opening hours: what means one thing is read, and what does not shows what it can be.
#[test]
fn opening_hours_of_the_night_and_of_several_days() {
    for (line, readings) in [
        ("open: Friday 22:00-6:00", &["open: Friday 22:00-24:00, Saturday 0:00-6:00"][..]),
        ("open: Mon-Sun 22:00-6:00", &["open: daily 0:00-6:00, 22:00-24:00"]),
        (
            "open: Mon-Fri 7:00-6:00",
            &[
                "open: Monday 7:00-24:00, Tuesday to Friday 0:00-6:00, 7:00-24:00, Saturday 0:00-6:00",
                "open: Mon-Fri 7:00-18:00",
            ],
        ),
        ("open: Mon-Fri 7:00-0:00", &["open: Monday to Friday 7:00-24:00"]),
        ("open: 7:00-18:00", &["open: daily 7:00-18:00", "open: Monday to Friday 7:00-18:00"]),
        ("open: weekdays 7:00-18:00", &["open: Monday to Friday 7:00-18:00", "open: Monday to Saturday 7:00-18:00"]),
    ] {
        asks("Fri 9:00", line, readings);
    }
    let windows = |line: &str| {
        let read = read(&text("Fri 9:00", line));
        let sheet = read.sheet.unwrap_or_else(|| panic!("{line}: {:?}", read.remarks));
        sheet.week.iter().map(|window| (window.opening, window.closing)).collect::<Vec<_>>()
    };
    assert_eq!(windows("open: daily 7:00-18:00"), windows("open: Monday to Sunday 7:00-18:00"));
    assert_eq!(windows("open: Monday, Friday 9:00-12:00"), windows("open: Monday 9:00-12:00, Friday 9:00-12:00"));
    assert_eq!(
        windows("open: Mon and Tue 7:00-12:00, 13:00-18:00"),
        windows("open: Mon-Tue 7:00-12:00, Mon-Tue 13:00-18:00")
    );
}
