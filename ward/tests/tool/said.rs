//! How lines in words come back in answers: two rules of a line, rules that are added, moments before the anchor, days and dates.

use crate::{answered, ward};

#[test]
fn two_rules_of_a_line_are_told_together() {
    let text =
        "moments: free, cleaned, home\nfree not before anchor\ncleaned 35 to 40 after free\nhome = cleaned + 5\n";
    let out = answered(&format!("{text}span: from free to home\n"));
    assert!(out.contains("3 moments beside the anchor, 5 rules, 1 span"), "{out}");
    assert!(
        out.contains("  rule 2 (line 3): cleaned 35 to 40 after free, that is cleaned at least 35 min after free\n"),
        "{out}"
    );
    assert!(
        out.contains("  rule 4 (line 4): home = cleaned + 5, that is home at least 5 min after cleaned\n"),
        "{out}"
    );
    let text = format!("{text}home at least 46 after free\nspan: from free to home\n");
    let out = answered(&text);
    let role = "(its minutes count)";
    assert!(
        out.contains(&format!(
            "  rule 3 (line 3): cleaned 35 to 40 after free, that is cleaned at most 40 min after free {role}\n"
        )),
        "{out}"
    );
    let both = "moments: a, b\nb 35 to 40 after a\nanchor <= a\nspan: from a to b\n";
    let told = ward(&["--html", "-"], both);
    assert!(told.out.contains("b 35 to 40 after a, that is b at least 35 min after a"), "{told:?}");
    let json = ward(&["--json", "-"], both).out;
    assert!(json.contains("\"rule\": \"b 35 to 40 after a\",\n          \"says\": \"a + 35 <= b\""), "{json}");
}

#[test]
fn rules_that_are_added_are_told() {
    let text = "moments: Ain, ready\nanchor: 8:00\nready exactly 40 after anchor\nready <= Ain + 1:00\nspan: from Ain to ready\n";
    let out = answered(text);
    assert!(!out.contains("nothing before anchor (line") && !out.contains("adds"), "{out}");
    let out = answered(&text.replace("span: from Ain to ready", "span: from anchor to Ain"));
    assert!(
        out.contains("Ain (7:40) is before the anchor: nothing holds it at the anchor or later. The line 'nothing before anchor' would.\n"),
        "{out}"
    );
    let held = text.replace("span: from Ain to ready", "nothing before anchor\nspan: from anchor to Ain");
    let out = answered(&held);
    assert!(out.contains("'nothing before anchor' (line 5) adds rule 4, anchor <= Ain.\n"), "{out}");
    assert!(
        out.contains("rule 4 (line 5): anchor <= Ain, that is Ain not before 8:00, by 'nothing before anchor'\n"),
        "{out}"
    );
    assert!(!out.contains("is before the anchor") && out.contains("accepted least 0"), "{out}");
    let page = ward(&["--html", "-"], &held).out;
    assert!(page.contains("adds rule 4, anchor &lt;= Ain."), "{page}");
    assert!(ward(&["--json", "-"], &held).out.contains("\"added\": true"));
    assert!(ward(&["check", "-"], &held).out.contains("4 rules, 1 span\n'nothing before anchor' (line 5) adds rule 4"));
    let but = held.replace("nothing before anchor", "nothing before anchor but Ain");
    let out = answered(&but);
    assert!(
        out.contains("'nothing before anchor' (line 5) adds no rule.\n") && !out.contains("is before the anchor"),
        "{out}"
    );
}

/// Over midnight and over months, with the day of the week.
#[test]
fn moments_that_rules_hold_before_the_anchor_are_told() {
    let text = "moments: lab, result, move\nanchor: 0:30\nresult at least 45 after lab\nmove at least 20 after result\nmove by 0:50\nspan: from lab to move\n";
    let out = answered(text);
    assert!(out.contains("lab (23:25 -1d) is before the anchor: the rules hold it there.\n"), "{out}");
    assert!(out.contains("result (0:10) is before the anchor: nothing holds it at the anchor or later.\n"), "{out}");
}

#[test]
fn a_dated_anchor_gives_dates() {
    let text = "moments: arrives, home\nanchor: 2026-11-30 21:30\narrives exactly 525 after anchor\nhome exactly 9 days after anchor\nspan: from arrives to home\n";
    let out = answered(text);
    for part in ["  Mon 2026-11-30 21:30  anchor", "   Tue 2026-12-01 6:15  arrives", "  Wed 2026-12-09 21:30  home"] {
        assert!(out.contains(part), "{part}: {out}");
    }
    let csv = ward(&["--csv", "-"], text).out;
    assert!(csv.contains(",arrives,525,Tue 2026-12-01 6:15,"), "{csv}");
    assert!(ward(&["--html", "-"], text).out.contains("anchor at Mon 2026-11-30 21:30"));
    assert!(!out.contains("lock changes"), "{out}");
    let leap = answered("moments: a\nanchor: 2028-02-28 22:00\na = 2028-03-01 6:00\nspan: from anchor to a\n");
    assert!(leap.contains("accepted least 1920") && leap.contains("Wed 2028-03-01 6:00"), "{leap}");
}

/// Nothing is said of clock changes but that they are not looked at.
#[test]
fn clock_changes_are_not_looked_at() {
    let text =
        |date: &str| format!("moments: a\nanchor: {date} 22:00\na exactly 8 h after anchor\nspan: from anchor to a\n");
    for (date, day) in [
        ("2026-10-24", Some("Sun 2026-10-25")),
        ("2027-03-27", Some("Sun 2027-03-28")),
        ("2026-03-07", Some("Sun 2026-03-08")),
        ("2026-10-31", Some("Sun 2026-11-01")),
        ("2026-10-23", None),
        ("2026-11-17", None),
    ] {
        for form in [&["-"][..], &["--html", "-"], &["--json", "-"]] {
            let told = ward(form, text(date));
            let words = day.map(|day| {
                format!("Clocks may change on {day}, in the days of this plan: clock changes are not looked at.")
            });
            match &words {
                Some(words) => assert!(told.out.contains(words), "{told:?}"),
                None => assert!(!told.out.contains("Clocks may change"), "{told:?}"),
            }
        }
    }
}

#[test]
fn words_that_are_nearly_a_command_are_told() {
    for (words, line) in [
        (&["chek", "x"][..], "'ward check x'"),
        (&["help"], "'ward --help'"),
        (&["recrod", "a b"], "'ward record a b'"),
    ] {
        let told = ward(words, "");
        assert_eq!((told.status, told.out.as_str()), (Some(2), ""), "{told:?}");
        assert!(told.err.contains(&format!("write {line}")), "{told:?}");
    }
    // A file that is there is answered, whatever it is called.
    let told = ward(&["chek.txt"], "");
    assert!(told.status == Some(1) && !told.err.contains("write"), "{told:?}");
}

/// Nothing that steers a terminal goes anywhere else.
#[test]
fn colours_are_for_terminals() {
    for text in ["moments: a\nanchor + 5 <= a\nspan: from anchor to a\n", "a < b\n"] {
        let told = ward(&["-"], text);
        assert!(!told.out.contains('\x1b') && !told.err.contains('\x1b'), "{told:?}");
    }
}

/// A moment that no plan has is told with the rules that make it so, also where the answer is least.
#[test]
fn what_no_plan_has_is_told() {
    let text = "moments: a, b, c\na + 10 <= b\nb <= a\nanchor + 10 <= c\nspan: from anchor to c\n";
    let out = ward(&["-"], text).out;
    let rules = "  rule 1 (line 2): a + 10 <= b, that is b at least 10 min after a (its minutes count)\n  rule 2 (line 3): b <= a, that is a not before b (its minutes count)\n";
    for name in ["a", "b"] {
        assert!(out.contains(&format!("No plan that keeps the rules has {name}, because of:\n{rules}")), "{out}");
    }
    assert!(!out.contains("has c, because"), "{out}");
    assert!(ward(&["--html", "-"], text).out.contains("No plan that keeps the rules has a, because of:"));
    let json = ward(&["--json", "-"], text).out;
    assert!(json.contains("\"no_plan_has\": [\n"), "{json}");
    // One that a plan may have, and this one leaves out, is none.
    let out = ward(&["-"], "moments: a, c\na <= anchor + 5\nanchor + 10 <= c\nspan: from anchor to c\n").out;
    assert!(!out.contains("because of:"), "{out}");
}

/// Moving is told where something can move, with what it may break.
#[test]
fn what_moving_a_moment_may_break_is_told() {
    let text = "moments: a, b\nanchor <= a\na + 10 <= b\nb <= anchor + 30\nspan: from a to b\n";
    for words in [&["-"][..], &["--html", "-"]] {
        let out = ward(words, text).out;
        assert!(out.contains("Moving one may break a rule with another"), "{out}");
        assert!(!out.contains("pening hours"), "{out}");
        let hours = format!("anchor: Monday 8:00\nopen: daily 7:00-18:00\n{text}");
        let out = ward(words, &hours).out;
        assert!(out.contains("Opening hours are not looked at."), "{out}");
        let out = ward(words, format!("admits: b\n{hours}")).out;
        assert!(
            out.contains(
                "b stays within the opening hours in which the plan has it, and within 14 days of the anchor."
            ),
            "{out}"
        );
    }
    assert!(!ward(&["-"], crate::E).out.contains("Moving one"), "nothing can move");
}

/// That an open time fits is said where all moments that are looked at were tried at once.
#[test]
fn an_open_time_is_tried_with_all_that_are_looked_at() {
    let text = |rule: &str| {
        let open = "anchor: Mon 8:00\nopen: Mon-Fri 9:00-12:00, 13:00-17:00\n";
        format!(
            "moments: leaves, arrives\n{open}{rule}\nanchor <= leaves\nleaves by 17:00\nspan: from leaves to arrives\n"
        )
    };
    let note = |words: &[&str], rule: &str| {
        let out = ward(words, text(rule)).out;
        let line = out.lines().find(|line| line.contains("  leaves ")).expect("a line").to_string();
        line.split("shut at the planned time; ").nth(1).unwrap_or("").to_string()
    };
    let short = "arrives exactly 100 after leaves";
    assert_eq!(note(&["-"], short), "open Mon 9:00, which fits the least span");
    assert_eq!(note(&["--quick", "-"], short), "opens Mon 9:00; not tried whether that fits the least span");
    let long = "arrives exactly 200 after leaves";
    let alone = "open Mon 9:00, which fits the least span for this moment alone, not with the others; 'admits:' plans the moments that it names while the ward is open";
    assert_eq!(note(&["-"], long), alone);
    let late = "arrives exactly 100 after leaves\nleaves by 8:30";
    assert_eq!(note(&["-"], late), "opens Mon 9:00, which does not fit the least span");
}
