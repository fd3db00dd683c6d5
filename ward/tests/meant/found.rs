//! What a scheduler found who had the guide alone: each line with all that is shown for it.

use crate::hints::{shown, shows};
use crate::{mistakes, read};

const MOMENTS: &str = "ready, porter, leaves, home, \"bed 4\"";
const ANCHOR: &str = "2026-11-17 8:00";
const EVENING: &str = "2026-11-17 22:30";
const NIGHT: &str = "2026-11-17 05:30";
const MIDNIGHT: &str = "2026-11-17 0:00";

#[test]
fn times_of_the_night_are_asked_about_behind_any_anchor() {
    for (anchor, line, lines) in [
        (NIGHT, "home by Thu 2:30", &["home by Thu 02:30", "home by Thu 14:30"][..]),
        (NIGHT, "home by 2026-11-25 2:30", &["home by 2026-11-25 02:30", "home by 2026-11-25 14:30"]),
        (NIGHT, "home by Thu 3.30", &["home by Thu 03:30", "home by Thu 15:30"]),
        (EVENING, "home by Thu 2:30", &["home by Thu 02:30", "home by Thu 14:30"]),
        (MIDNIGHT, "home = 4:00", &["home = 04:00", "home = 16:00"]),
        (MIDNIGHT, "home by 0:00", &["home by 2026-11-17 0:00", "home by 2026-11-18 0:00"]),
        ("Tuesday 0:00", "home by Tue 0:00", &["home by anchor", "home by anchor + 1 day"]),
        (
            NIGHT,
            "home Thu 2:00-4:00",
            &[
                "home not before Thu 02:00 ; home by Thu 04:00",
                "home not before Thu 02:00 ; home by Thu 16:00",
                "home not before Thu 14:00 ; home by Thu 16:00",
            ],
        ),
    ] {
        shows(MOMENTS, anchor, line, lines);
    }
}

#[test]
fn twelve_o_clock_and_lengths_behind_an_anchor_of_the_evening() {
    for (anchor, line, lines) in [
        (EVENING, "home by Wed 12:15", &["home by 2026-11-18 0:15", "home by 2026-11-18 12:15"][..]),
        ("Tue 22:30", "home by Wed 12:15", &["home by anchor + 1 h 45", "home by anchor + 13 h 45"]),
        (
            EVENING,
            "home by 12:30",
            &["home by 2026-11-17 12:30", "home by 2026-11-18 12:30", "home by 2026-11-18 0:30"],
        ),
        (
            EVENING,
            "home at least 8:00 after ready",
            &["home at least 8 h after ready", "home not before 2026-11-17 8:00", "home not before 2026-11-18 8:00"],
        ),
        (ANCHOR, "ready by porter – 9:30", &["ready by porter – 9 h 30", "ready by 9:30"]),
        (ANCHOR, "home = 23:30 +1", &["home = 23:30 +1 min", "home = 2026-11-18 23:30"]),
        (ANCHOR, "home by 14:00 (+1)", &["home by 14:00 + 1 min", "home by 2026-11-18 14:00"]),
    ] {
        shows(MOMENTS, anchor, line, lines);
    }
}

#[test]
fn hours_with_their_unit_are_times_of_day_first() {
    for (line, lines) in [
        ("home by 14:00 hrs", &["home by 14:00", "home by anchor + 14 h"][..]),
        ("home by 09:00 hours", &["home by 09:00", "home by anchor + 9 h"]),
        ("ready by 10 h 30", &["ready by 10:30", "ready by anchor + 10 h 30"]),
    ] {
        shows(MOMENTS, ANCHOR, line, lines);
    }
    assert_eq!(shown(MOMENTS, ANCHOR, "home between 14:00 and 16:00 hrs")[0], "home not before 14:00 ; home by 16:00");
}

#[test]
fn a_window_of_a_day_that_was_yesterday() {
    for (line, wanted) in [
        ("home Mon 9:00-12:00", "home not before 2026-11-23 9:00 ; home by 2026-11-23 12:00"),
        ("home between Mon 9:00 and 12:00", "home not before 2026-11-23 9:00 ; home by 2026-11-23 12:00"),
        ("home Mon 22:00-6:00", "home not before 2026-11-23 22:00 ; home by 2026-11-24 6:00"),
    ] {
        let found = shown(MOMENTS, ANCHOR, line);
        assert!(found.iter().any(|line| line == wanted), "{line}: {found:?}");
        let both = |lines: &String| lines.contains("-16 ") && lines.contains("-23 ");
        assert!(!found.iter().any(both), "{line}: {found:?}");
    }
}

#[test]
fn minutes_between_two_moments_in_other_words() {
    let both = ["leaves at least 10 after ready", "leaves exactly 10 after ready"];
    let units = both.map(|line| line.replace("10", "10 min"));
    shows(MOMENTS, ANCHOR, "10 min from ready to leaves", &units.each_ref().map(String::as_str));
    shows(MOMENTS, ANCHOR, "10 between ready and leaves", &both);
    shows(MOMENTS, ANCHOR, "ready -> 10 -> leaves", &both);
    shows(MOMENTS, ANCHOR, "min 10 between ready and leaves", &both[..1]);
    shows(MOMENTS, ANCHOR, "max 10 from ready to leaves", &["leaves at most 10 after ready"]);
    shows(
        MOMENTS,
        ANCHOR,
        "leaves not before ready or 9:00 whichever is later",
        &["leaves not before ready ; leaves not before 9:00"],
    );
    shows(MOMENTS, ANCHOR, "leaves by ready or 9:00, whichever is later", &["leaves by later of ready, 9:00"]);
}

#[test]
fn names_without_their_quotes_and_days_that_are_two() {
    shows(MOMENTS, ANCHOR, "open: daily 7:00-18:00\nadmits: bed 4", &["admits: \"bed 4\""]);
    shows(MOMENTS, ANCHOR, "nothing before anchor but bed 4", &["nothing before anchor but \"bed 4\""]);
    let both = ["home by Sat 2026-11-21 9:00", "home by Fri 2026-11-20 9:00"];
    shows(MOMENTS, ANCHOR, "home by Fri 21 Nov 9:00", &both);
    shows(MOMENTS, ANCHOR, "home by Fri 2026-11-21 9:00", &both);
    shows(
        MOMENTS,
        "Wed 2026-11-17 8:00",
        "ready <= home",
        &["anchor: Tue 2026-11-17 8:00", "anchor: Wed 2026-11-18 8:00"],
    );
    shows("home, \"noon\"", ANCHOR, "home by noon", &["home by \"noon\"", "home by 12:00"]);
}

#[test]
fn a_half_of_the_day_behind_the_second_time_alone() {
    for (line, lines) in [
        ("open: daily 2:00-4:00 pm", &["open: daily 14:00-16:00"][..]),
        ("open: Mon 6-8pm", &["open: Mon 18:00-20:00", "open: Mon 06:00-20:00"]),
        ("open: Mon 10:00-12:00, 2:00-4:00 pm", &["open: Mon 10:00-12:00, 14:00-16:00"]),
        ("open: Mon-Fri 10:00-12:00 pm", &["open: Mon-Fri 10:00-12:00", "open: Mon-Fri 22:00-24:00"]),
        (
            "home between 9:00 and 11:00 pm",
            &["home not before 21:00 ; home by 23:00", "home not before 9:00 ; home by 23:00"],
        ),
        ("home 9-11pm", &["home not before 21:00 ; home by 23:00", "home not before 9:00 ; home by 23:00"]),
        (
            "home between 9 and 1",
            &["home not before 9:00 ; home by 13:00", "home not before 21:00 ; home by 2026-11-18 01:00"],
        ),
        ("home 9-1", &["home not before 9:00 ; home by 13:00", "home not before 21:00 ; home by 2026-11-18 01:00"]),
    ] {
        shows(MOMENTS, ANCHOR, line, lines);
    }
}

#[test]
fn days_in_other_places_and_by_other_names() {
    for (line, lines) in [
        ("open: 9:00-12:00 Monday, 13:00-15:00 Tuesday", &["open: Monday 9:00-12:00, Tuesday 13:00-15:00"][..]),
        (
            "home Wed or Thu",
            &[
                "home not before Wed 0:00 ; home by Wed 24:00",
                "home not before Thu 0:00 ; home by Thu 24:00",
                "home not before Wed 0:00 ; home by Thu 24:00",
            ],
        ),
        (
            "home Wed 9:00-12:00 or Thu 9:00-12:00",
            &["home not before Wed 9:00 ; home by Wed 12:00", "home not before Thu 9:00 ; home by Thu 12:00"],
        ),
        ("home by Friday, 20 November, 9:00", &["home by Friday 2026-11-20 9:00"]),
        ("home by day 2, 14:00", &["home by 2026-11-18 14:00", "home by 2026-11-19 14:00"]),
        ("ready by porter at 9:30", &["ready by porter ; porter = 9:30", "ready by porter ; ready = 9:30"]),
        (
            "leaves at least 10 after ready and porter by 9:00",
            &[
                "leaves at least 10 after ready ; porter by 9:00",
                "leaves at least 10 after later of ready, porter ; leaves by 9:00",
            ],
        ),
    ] {
        shows(MOMENTS, ANCHOR, line, lines);
    }
}

#[test]
fn words_say_what_is_so() {
    shows(MOMENTS, ANCHOR, "open: daily 7:00-18:00\nadmits: all", &["# admits: all"]);
    shows(MOMENTS, ANCHOR, "open: Mon Tue Wed 9:00-12:00", &["open: Monday to Wednesday 9:00-12:00"]);
    shows(
        MOMENTS,
        ANCHOR,
        "open: Mon Wed Fri 9:00-12:00",
        &["open: Monday to Friday 9:00-12:00", "open: Monday, Wednesday, Friday 9:00-12:00"],
    );
    shows(MOMENTS, ANCHOR, "span: from anchor to ready\nexpect: least - 10", &["expect: least -10"]);
    let half = shown(MOMENTS, ANCHOR, "home by Thu half past 2");
    assert_eq!(half, ["home by Thu 02:30", "home by Thu 14:30"]);
    let names = |names: &str| {
        let read = read(&format!("moments: {names}\nspan: from anchor to anchor\n"));
        mistakes(&read).iter().map(|mistake| mistake.message.clone()).collect::<String>()
    };
    assert!(names("\"Bed  Free\", \"Bed Free\"").contains("two spaces"));
    assert!(names("\"bed 4\", \"bed 4 \"").contains("a space at its start or end"));
}
