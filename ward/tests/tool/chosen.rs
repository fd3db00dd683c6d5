//! Which plan is told: `plan: early a, b`, `plan: late a, b`, and the order of moments at the same minute.

use crate::{answered, ward};

const TEXT: &str = "moments: a, b, c\nanchor: 8:00\nanchor <= a\na + 10 <= b\nb by 9:00\nanchor + 20 <= c\n";

fn with(lines: &str) -> String {
    answered(&format!("{TEXT}{lines}span: from a to b\nexpect: least 10\n"))
}

/// The time of a moment in the plan.
fn time(out: &str, name: &str) -> String {
    let table = out.split("moment  after anchor").nth(1).expect("the plan");
    let line = table.lines().find(|line| line.split_whitespace().nth(1) == Some(name)).expect("a line");
    line.split_whitespace().next().expect("a time").into()
}

#[test]
fn moments_are_as_early_or_late_as_can_be() {
    let out = with("plan: early a, b\n");
    assert_eq!((time(&out, "a"), time(&out, "b")), ("8:00".into(), "8:10".into()), "{out}");
    let told = "The plan is chosen in this order: a as early as can be, 8:00; b as early as can be, 8:10.\n";
    assert!(out.contains(told), "{out}");
    let out = with("plan: late b\nplan: early c\n");
    assert_eq!(["a", "b", "c"].map(|name| time(&out, name)), ["8:50", "9:00", "8:20"], "{out}");
    // The first of the list comes first: b late, and a as early as that lets it be.
    let out = with("plan: late b\nplan: early a\n");
    assert!(out.contains("b as late as can be, 9:00; a as early as can be, 8:50."), "{out}");
}

#[test]
fn no_limit_is_told() {
    let out = with("plan: late c\n");
    assert!(out.contains("The plan is chosen in this order: c has no limit and is not held.\n"), "{out}");
    let out =
        answered(&format!("{TEXT}a <= nothing\nplan: late a\nspan: from anchor to c\n").replace("anchor <= a\n", ""));
    assert!(out.contains("no such plan has a."), "{out}");
}

#[test]
fn mistakes_of_the_line_are_told() {
    for (line, message) in [
        ("plan: a", "'early' or 'late' is expected, not 'a'"),
        ("plan: earliest a", "'early' or 'late' is expected, not 'earliest'"),
        ("plan: early", "a moment's name is expected"),
        ("plan: early a and b", "a comma is expected, not 'and'"),
        ("plan: early a, a", "where a is wanted was said before"),
        ("plan: late anchor", "the anchor stands still"),
        ("plan: early d", "no moment is called 'd'"),
    ] {
        let told = ward(&["check", "-"], format!("{TEXT}{line}\nspan: from a to b\n"));
        assert!(told.status == Some(1) && told.err.contains(message), "{line}: {told:?}");
    }
    let told = ward(&["check", "-"], format!("{TEXT}plan: a\nspan: from a to b\n"));
    assert!(told.err.contains("        plan: early a\n") && told.err.contains("        plan: late a\n"), "{told:?}");
}

/// With the ward open from 8:30 to 8:45, and from 9:30 on.
#[test]
fn wishes_keep_the_opening_hours() {
    let text = "moments: a, b\nanchor: Monday 8:00\nopen: daily 8:30-8:45, 9:30-12:00\nadmits: b\nanchor <= a\na + 10 <= b\nb by 11:00\n";
    let open = " with the ward open within 14 days of the anchor";
    for (line, told) in [("early b", format!("{open}, Mon 8:30")), ("late b", ", Mon 11:00".into())] {
        let out = answered(&format!("{text}plan: {line}\nspan: from a to b\nexpect: least 10\n"));
        assert!(out.contains(&format!("as can be{told}.\n")), "{out}");
    }
    // At most 40 minutes after the anchor, and with the hours not before 8:30.
    let out = answered(&format!("{text}b by 8:50\nplan: late b\nspan: from a to b\n"));
    assert!(out.contains(&format!("b as late as can be{open}, Mon 8:44.\n")), "{out}");
    // Nothing holds it by the rules: the end of the 14 days is not told as its limit.
    let out = answered(&format!("{}plan: late b\nspan: from anchor to a\n", text.replace("b by 11:00\n", "")));
    assert!(out.contains(&format!("b as late as can be{open}, ")), "{out}");
}

/// A span's start that nothing holds has no limit, opening hours or not.
#[test]
fn a_start_without_a_limit_has_none_with_hours_too() {
    let text = "moments: s, b\nanchor: Monday 8:00\nopen: daily 9:00-10:00\nadmits: b\nanchor <= b\ns + 10 <= b\nb <= s + 10\nplan: early s\n";
    let out = answered(&format!("{text}span: from s to b\n"));
    assert!(out.contains("s as early as can be with the ward open within 14 days of the anchor, Mon 8:50.\n"), "{out}");
    let loose = "moments: s, b, e\nanchor: Monday 8:00\nopen: daily 9:00-10:00\nadmits: b\nanchor <= b\ns + 10 <= e\nplan: early s\n";
    let out = answered(&format!("{loose}span: from s to e\n"));
    assert!(out.contains("no limit was found for s, which is not held.\n"), "{out}");
}

#[test]
fn equal_minutes_stand_in_the_order_of_the_rules() {
    let out = answered("moments: c, b, a\nanchor + 5 <= a\na <= b\nb <= c\nc <= anchor + 5\nspan: from anchor to c\n");
    let place = |name: &str| out.find(&format!("0:05  {name} ")).unwrap_or_else(|| panic!("{out}"));
    assert!(place("a") < place("b") && place("b") < place("c"), "{out}");
}
