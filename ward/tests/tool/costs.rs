//! What the rules behind a span cost: `--what-if`.

use crate::{answered, ward};

const TEXT: &str =
    "moments: bed, nurse\nanchor + 30 <= bed\nanchor + 22 <= nurse\nnurse <= bed\nspan: from anchor to bed\n";

#[test]
fn lifted_and_eased_rules_are_told() {
    let out = ward(&["--what-if", "-"], TEXT);
    assert_eq!(out.status, Some(0), "{out:?}");
    let table = "What if one of these were lifted, or its early side were 5, 10 or 15 minutes earlier? The least span is then:\n";
    let shown = out.out.split(table).nth(1).unwrap_or_else(|| panic!("{out:?}"));
    let lines: Vec<Vec<&str>> =
        shown.lines().map(|line| line.split("  ").map(str::trim).filter(|part| !part.is_empty()).collect()).collect();
    assert_eq!(lines[0], ["lifted", "5 min", "10 min", "15 min", "of what"], "{out:?}");
    assert_eq!(lines[1][..4], ["22 min", "25 min", "22 min", "22 min"], "{out:?}");
    assert!(!answered(TEXT).contains("What if"));
}

#[test]
fn the_class_is_told_where_it_changes_and_limits_are_kept() {
    let out = ward(&["--what-if", "-"], "moments: bed\nanchor + 30 <= bed\nspan: from anchor to bed\n").out;
    assert!(out.contains("bottomless  25 min  20 min  15 min  rule 1 (line 2)"), "{out}");
    let out = ward(&["--what-if", "-"], "moments: bed\nanchor - 20150 <= bed\nspan: from anchor to bed\n").out;
    assert!(out.contains("bottomless  -13 days 23:55  -14 days 0:00       -  rule 1 (line 2)"), "{out}");
}

/// Two chains of rules hold the same span: lifting a rule of one of them changes nothing.
#[test]
fn a_span_that_is_held_twice_is_told() {
    let twice = "moments: a, b\nanchor + 30 <= a\nanchor + 30 <= b\nspan: from anchor to later of a, b\n";
    let words = "None of these alone makes it shorter: other rules hold the span at this length too.";
    assert!(ward(&["--what-if", "-"], twice).out.ends_with(&format!("{words}\n")));
    assert!(ward(&["--html", "--what-if", "-"], twice).out.contains(words));
    assert!(!ward(&["--what-if", "-"], TEXT).out.contains(words));
}

#[test]
fn without_a_least_span_there_is_nothing_to_ease() {
    let words = "There is no least span, so that there is nothing to ease: no table of what if.";
    for text in [
        "moments: a\nspan: from anchor to a\n",
        "moments: a\nanchor + 5 <= a\na <= anchor\nspan: from anchor to a\n",
        "moments: a\nanchor: Monday 8:00\nopen: Monday 9:00-10:00\nadmits: a\na not before anchor + 13 days\nspan: from anchor to a\n",
    ] {
        assert!(ward(&["--what-if", "-"], text).out.ends_with(&format!("{words}\n")), "{text}");
        assert!(ward(&["--html", "--what-if", "-"], text).out.contains(words), "{text}");
        assert!(!answered(text).contains(words), "{text}");
    }
}
