//! Opening hours: the archive looks them up, and refuses them.

use crate::{answered, ward};

const DAY: &str =
    "moments: admit, back\nanchor: Friday 17:00\nopen: Mon-Fri 7:00-18:00, Saturday 9:00-12:00\nadmits: admit, back\n";

fn with(rules: &str) -> String {
    answered(&format!("{DAY}{rules}span: from anchor to admit\n"))
}

/// The ward is shut at 18:40 on Friday, and both moments move to Saturday.
#[test]
fn opening_hours_are_kept() {
    let rules = "anchor + 50 <= admit\nadmit + 50 <= back\nback <= admit + 50\n";
    let out = with(rules);
    for part in [
        "says: accepted least 960\n",
        "The least span is 960 minutes (16:00). No plan within 14 days of the anchor that keeps the rules and the opening hours has a smaller one.\n",
        "Opening hours are kept: the ward is open at admit and back. This is the least span within 14 days either side of the anchor: 5 cases were judged, and each is proved; that no case is missing is tested, not proved. Without opening hours the least span is 50 minutes.\n",
        "   Sat 9:00  admit   16:00         Sat 9:00  Sat 9:00  open at the planned time\n",
        "   Sat 9:50  back    16:50         Sat 9:50  Sat 9:50  open at the planned time\n",
        "The rules and opening hours behind it; with these alone the least span within 14 days of the anchor is the same, and none can be left out:\n",
        "  the opening hours of admit\n  the opening hours of back\n",
    ] {
        assert!(out.contains(part), "{part}{out}");
    }
    // Where they cost nothing, no limit of days is told.
    let out = with("anchor + 50 <= admit\nadmit + 5 <= back\nback <= anchor + 55\n");
    assert!(out.contains("No plan that keeps the rules has a smaller one.\nOpening hours are kept: the ward is open at admit and back. They cost nothing"), "{out}");
}

/// The case's problem and answer stand in JSON, and the verdict program accepts them.
#[test]
fn the_case_can_be_judged_again() {
    let text = format!("{DAY}anchor + 50 <= admit\nback = admit + 50\nspan: from anchor to admit\nexpect: least 960\n");
    let json = ward(&["--json", "-"], &text);
    assert_eq!(json.status, Some(0), "{json:?}");
    let field = |name: &str| {
        json.out.split(&format!("\"{name}\": \"")).nth(1).and_then(|rest| rest.split('"').next()).expect(name)
    };
    let bytes = |hex: &str| -> Vec<u8> {
        (0..hex.len() / 2)
            .map(|place| u8::from_str_radix(&hex[2 * place..2 * place + 2], 16).expect("digits"))
            .collect()
    };
    let judged = span::check(&bytes(field("problem")), &bytes(field("answer"))).expect("an accepted answer");
    assert_eq!(judged.to_string(), "accepted least 960");
    assert!(json.out.contains("\"cases\": 5") && json.out.contains("\"span_without\": 50"), "{json:?}");
}

/// An admitted moment that is left out is not shut, and a plan may leave it out; the answer says so.
#[test]
fn a_moment_that_is_left_out_needs_no_open_ward() {
    let out = with("anchor + 50 <= admit\nback <= anchor + 10 h\nanchor + 9 h <= later of back, (admit + 9 h)\n");
    assert!(out.contains("accepted least 50"), "{out}");
    let text = "moments: a, b, c\nanchor: Monday 6:00\nopen: daily 9:00-10:00\nadmits: b\nanchor <= a\nb <= c\nc <= nothing\nspan: from anchor to a\n";
    let out = answered(text);
    assert!(out.contains("b is left out, and needs no open ward."), "{out}");
    assert!(out.contains("left out of this plan; it needs no open ward\n"), "{out}");
}

#[test]
fn none_by_opening_hours_is_told_with_its_limit() {
    let text = "moments: a, b\nanchor: Monday 8:00\nopen: daily 9:00-9:20\nadmits: a, b\nanchor <= a\nb = a + 30\nspan: from anchor to b\nexpect: none\n";
    let told = ward(&["-"], text);
    assert_eq!(told.status, Some(0), "{told:?}");
    for part in [
        "None: no plan within 14 days of the anchor that keeps the rules and the opening hours has a span.\n",
        "There is none within 14 days either side of the anchor: ",
        " cases were judged, and each is proved; that no case is missing is tested, not proved. Without opening hours the least span is 30 minutes. Days further away were not looked at.\n",
        "Within 14 days of the anchor these rules and opening hours stand against each other; without any one of them",
        "  rule 1 (line 5): anchor <= a, that is a not before 8:00\n",
        "  rules 2 and 3 (line 6): b = a + 30\n",
        "  the opening hours of b\n",
    ] {
        assert!(told.out.contains(part), "{part}{told:?}");
    }
    // Where the rules alone have none, opening hours play no part.
    let out = ward(&["-"], format!("b <= a\n{text}")).out;
    assert!(out.contains("None: no plan that keeps the rules has a span.\n") && !out.contains("14 days"), "{out}");
}

#[test]
fn bottomless_with_opening_hours_is_told() {
    let out = answered(
        "moments: a, b\nanchor: Monday 8:00\nopen: daily 9:00-9:20\nadmits: a\nanchor <= a\nspan: from b to a\n",
    );
    assert!(
        out.contains("some plan that keeps the rules and the opening hours and has b in it has a smaller one.\n"),
        "{out}"
    );
    assert!(out.contains("already the plans within 14 days of the anchor show it."), "{out}");
    // Late without end by the rules alone, and at the end of the 14 days here.
    let out = answered(
        "moments: a\nanchor: Monday 8:00\nopen: daily 9:00-9:20\nadmits: a\nanchor <= a\nspan: from a to anchor\n",
    );
    assert!(
        out.contains("Without opening hours spans are bottomless; later or earlier days may give a smaller one.\n"),
        "{out}"
    );
}

/// Where there is no end, there is no number.
#[test]
fn too_many_cases_or_rules_give_no_number() {
    // Two moments that no window has together: found at once beside others that no rule ties to them, and not behind others that are.
    let names: Vec<String> = (1..=9).map(|number| format!("m{number}")).collect();
    let list = names.join(", ");
    let mut text = format!(
        "moments: {list}, p, q\nanchor: Monday 8:00\nopen: daily 9:00-9:20, 10:00-10:20\nadmits: {list}, p, q\n"
    );
    text += &names.iter().map(|name| format!("anchor <= {name}\n")).collect::<String>();
    let text = format!("{text}anchor <= p\nq = p + 30\nspan: from anchor to p\n");
    assert!(answered(&text).contains("accepted the answers to all 111 cases\n"), "{}", answered(&text));
    let tied = names.iter().map(|name| format!("{name} <= p + 10 days\n")).collect::<String>();
    let told = ward(&["-"], format!("{text}{tied}"));
    assert_eq!(told.status, Some(1), "{told:?}");
    let limit = "20000 cases were judged without an end, and that is the limit, so that no number is told.";
    assert!(told.out.contains(limit) && !told.out.contains("least"), "{told:?}");
    // 63 rules with right sides of their own, and one more to have a moment before a window closes.
    let names: Vec<String> = (1..=12).map(|number| format!("m{number}")).collect();
    let mut text =
        format!("moments: {}, w, x, y, z\nanchor: Monday 6:00\nopen: daily 9:00-10:00\nadmits: w\n", names.join(", "));
    let pairs = (0..12).flat_map(|one| (one + 1..12).map(move |other| (one, other))).take(59);
    text += &pairs
        .map(|(one, other)| format!("anchor + 7 <= later of {}, {}\n", names[one], names[other]))
        .collect::<String>();
    text += &["w", "x", "y", "z"].map(|name| format!("anchor <= {name}\n")).concat();
    let told = ward(&["-"], format!("{text}span: from anchor to w\n"));
    assert_eq!(told.status, Some(1), "{told:?}");
    let why = "With the rules that keep a moment in a window there are more than 63, so that no number is told.";
    assert!(told.out.contains(why) && !told.out.contains("least"), "{told:?}");
}

/// Records from elsewhere are judged as they are: they answer the rules alone.
#[test]
fn judging_keeps_no_opening_hours() {
    let text = format!("{DAY}anchor + 50 <= admit\nback = admit + 50\nspan: from anchor to admit\n");
    let bare =
        text.lines().filter(|line| !line.starts_with("admits")).map(|line| format!("{line}\n")).collect::<String>();
    let json = ward(&["--json", "-"], &bare).out;
    let answer = json.split("\"answer\": \"").nth(1).and_then(|rest| rest.split('"').next()).expect("an answer");
    let scratch = crate::scratch::Scratch::new("judged");
    let file = scratch.file("answer", answer);
    let told = ward(&["judge", "-", file.to_str().expect("a path")], &text);
    assert_eq!(told.status, Some(0), "{told:?}");
    assert!(told.out.contains("accepted least 50") && told.out.contains("shut at the planned time"), "{told:?}");
}

#[test]
fn hours_that_the_archive_refuses_are_a_mistake_with_its_place() {
    let base = "moments: a\nanchor: Monday 8:00\nanchor <= a\nspan: from anchor to a\n";
    for (hours, column, why) in [
        ("Monday 18:00-7:00", 7, "the ward closes at 7:00 before it opens at 18:00"),
        ("Monday 7:00-7:00", 7, "the ward opens and closes at 7:00"),
        ("Monday 7:00-12:00, Monday 11:00-18:00", 26, "Monday has hours already"),
        ("Mon-Sun 7:00-8:00, Mon-Sun 9:00-10:00, Sunday 11:00-12:00", 46, "Sunday has hours already"),
        ("daily 7:00-8:00, 9:00-10:00, 11:00-12:00", 36, "there are more than 14 windows in a week"),
    ] {
        let told = ward(&["check", "-"], format!("{base}open: {hours}\n"));
        assert_eq!(told.status, Some(1), "{told:?}");
        assert!(told.err.contains(&format!(":5:{column}: mistake: {why}\n")), "{hours}: {told:?}");
    }
    for hours in [
        "Mon-Sun 7:00-8:00, Mon-Sun 9:00-10:00",
        "Monday to Sunday 0:00-24:00",
        "Sat-Mon 7:00-9:00",
        "Wednesday 9:00 to 10:00, mon 01:00-02:00",
        "daily 7:00-18:00",
        "every day 7:00-12:00, 13:00-18:00",
        "Monday, Friday 7:00-18:00",
        "Monday and Wednesday to Friday 7:00-18:00, Sunday 9:00-10:00",
    ] {
        let told = ward(&["check", "-"], format!("{base}open: {hours}\n"));
        assert_eq!((told.status, told.err.as_str()), (Some(0), ""), "{hours}");
    }
    for (hours, part) in [
        ("8:00-9:00", "a day is expected"),
        ("Monday 8-9", "'8' is no time of day"),
        ("Monday 8:00", "'to' is expected"),
        ("Monday 8:00-9:00 x", "a comma is expected"),
    ] {
        let told = ward(&["check", "-"], format!("{base}open: {hours}\n"));
        assert!(told.status == Some(1) && told.err.contains(part), "{hours}: {told:?}");
    }
}

const WEEKDAYS: &str = "anchor: 2026-11-16 8:00\nopen: Monday to Friday 9:00-17:00\n";
const NONE: &str =
    "None: no plan within 14 days of the anchor that keeps the rules and the opening hours has a span.\n";
const AGAINST: &str = "Within 14 days of the anchor these rules and opening hours stand against each other; ";

/// Windows are asked about within 14 days, and a plan beyond them is not told, whatever the rules alone have.
#[test]
fn no_plan_is_told_beyond_the_days_of_the_windows() {
    let stay =
        "admission not before 9:00\ndischarge at least 14 days after admission\nspan: from admission to discharge\n";
    let beyond = [
        format!("moments: admission, discharge\n{WEEKDAYS}admits: discharge\nplan: late admission\nadmission by 18:00\n{stay}"),
        format!("moments: admission, discharge\n{WEEKDAYS}admits: discharge\n{stay}"),
        format!("moments: admission, discharge\n{WEEKDAYS}admits: admission, discharge\n{stay}"),
        "moments: in, out\nanchor: 2026-11-20 14:00\nopen: Monday to Friday 8:00-16:00\nadmits: in, out\nin not before 2026-12-04 13:30\nout at least 2 h after in\nspan: from in to out\n".into(),
        "moments: home\nanchor: 2026-11-16 8:00\nopen: Monday 9:00-10:00\nadmits: home\nhome not before anchor + 13 days\nspan: from anchor to home\n".into(),
    ];
    for text in beyond {
        let out = answered(&text);
        assert!(out.contains(NONE) && out.contains(AGAINST), "{out}");
        assert!(out.contains(" Days further away were not looked at.\n") && !out.contains("latest"), "{out}");
    }
    let text = format!("moments: a, b\n{WEEKDAYS}admits: b\na not before 9:30\nb at least 14 days after a\nspan: from b to a\nspan: from anchor to b\n");
    let out = answered(&text);
    assert_eq!((out.matches(NONE).count(), out.matches(AGAINST).count()), (2, 2), "{out}");
}

/// Where the end of the 14 days cuts a window, the times say so, also where nothing moves.
#[test]
fn times_at_the_edge_are_told_with_their_limit() {
    let text = "moments: in, out\nanchor: Thursday 15:00\nopen: Monday to Friday 13:00-18:00\nadmits: in, out\nplan: late in\nin not before 15:30\nout at least 2 h after in\nspan: from in to out\n";
    let out = answered(text);
    let limit = "Each of in and out stays within the opening hours in which the plan has it, and within 14 days of the anchor.\n";
    assert!(
        out.contains("in as late as can be with the ward open within 14 days of the anchor, day 14, Thu 13:00."),
        "{out}"
    );
    assert!(out.contains(&format!("Nothing can move at this span. {limit}")), "{out}");
    let early = text.replace("plan: late", "plan: early").replace("in not before 15:30", "in by 17:30");
    let out = answered(&early);
    assert!(
        out.contains("in as early as can be with the ward open within 14 days of the anchor, day -14, Thu 15:00."),
        "{out}"
    );
    assert!(out.contains("  day -14, Thu 15:00  in ") && out.contains(limit), "{out}");
}

/// A chain by hours that are not in the list is left out.
#[test]
fn a_chain_names_no_hours_that_are_not_needed() {
    let text = "moments: call, ready, home\nanchor: Monday 9:00\nopen: Tuesday 8:00-9:00\nadmits: call, home\nready not before anchor + 25 h\ncall <= home\nhome by anchor + 50 h\nspan: from call to ready\n";
    let out = answered(text);
    assert!(out.contains("  the opening hours of home\n") && !out.contains("the opening hours of call"), "{out}");
    assert!(!out.contains("The chain that binds it"), "{out}");
}

#[test]
fn a_least_span_at_the_edge_is_told_as_such() {
    let text =
        "moments: a\nanchor: Monday 8:00\nopen: daily 9:00-9:20\nadmits: a\nanchor <= a\nspan: from a to anchor\n";
    let edge = "It may be only the edge of these 14 days: by the rules alone spans are bottomless.";
    assert!(answered(text).contains(edge), "{}", answered(text));
    assert!(!answered(&text.replace("from a to anchor", "from anchor to a")).contains(edge));
}
