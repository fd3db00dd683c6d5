//! Answers: the verdict first, the plan in the order of time, and why there is none.

use crate::{answered, ward, E};

/// Document 01's example E, with the anchor at 23:45.
#[test]
fn a_plan_is_told_after_the_verdict_with_clock_times() {
    let out = answered(&format!("anchor: 23:45\n{E}"));
    let place = |words: &str| out.find(words).unwrap_or_else(|| panic!("{words}: {out}"));
    assert!(place("says: accepted least 30\n") < place("The least span is 30 minutes."));
    assert!(place("23:45  anchor") < place("0:15 +1d  bed     0:30          0:15 +1d  0:15 +1d"));
    let out = answered(&format!("anchor: Sunday 23:45\n{E}"));
    assert!(out.contains("Mon 0:15  bed"), "{out}");
    let out = answered(&E.replace("30", "1:30"));
    assert!(out.contains("The least span is 90 minutes (1:30)."), "{out}");
    assert!(out.contains("        1:30  bed     1:30      1:30"), "{out}");
}

#[test]
fn moments_stand_in_the_order_of_time() {
    let out =
        answered("moments: c, b, a\nanchor - 20 <= a\na + 30 <= b\nb + 5 <= c\nc <= anchor + 15\nspan: from a to c\n");
    let table = out.split("moment  earliest  latest").nth(1).expect("the plan");
    let places: Vec<usize> = ["anchor\n", " a  ", " b  ", " c  "].map(|name| table.find(name).expect(name)).into();
    let [anchor, a, b, c] = places[..] else { panic!("{places:?}") };
    assert!(a < anchor && anchor < b && b < c, "{out}");
    assert!(out.contains("-0:20  a"), "{out}");
}

#[test]
fn names_in_quotes_hold_spaces_and_hyphens() {
    let text = "moments: \"bed 4-B #1\", \"to\", nurse\nanchor + 10 <= \"bed 4-B #1\" # why\n\"bed 4-B #1\" + 5 <= later of \"to\", nurse\nspan: from \"nurse\" to \"bed 4-B #1\"\n";
    let told = ward(&["--json", "-"], text);
    assert_eq!(told.status, Some(0), "{told:?}");
    assert!(told.out.contains("\"bed 4-B #1\"") && told.out.contains("\"to\": \"\\\"bed 4-B #1\\\"\""), "{told:?}");
    let record = ward(&["record", "-"], text).out;
    let back = ward(&["text", "-"], &record).out;
    assert_eq!(ward(&["record", "-"], &back).out, record);
}

#[test]
fn a_bottomless_span_is_told_with_the_moments_that_nothing_holds() {
    let text = "moments: bed, ambulance, nurse\nanchor + 30 <= bed\nbed <= ambulance + 60\nanchor <= nurse\nnurse <= anchor + 5\n";
    let out = answered(&format!("{text}span: from later of nurse, ambulance to bed\n"));
    assert!(out.contains("says: accepted bottomless\n"), "{out}");
    assert!(out.contains("Nothing says how late ambulance may be.\nA rule is probably missing.\n"), "{out}");
    let out = answered(&format!("{text}bed <= anchor + 40\nspan: from bed to ambulance\nspan: from anchor to bed\n"));
    assert!(!out.contains("accepted bottomless"), "{out}");
    // Nothing holds the end of this one from below.
    let out = answered("moments: a, b\na <= anchor + 5\nb <= a\nspan: from anchor to later of a, b\n");
    assert!(out.contains("Nothing says how early a and b may be.\n"), "{out}");
    let out = answered("moments: a\nanchor <= a\nspan: from a to nothing\n");
    assert!(out.contains("accepted bottomless\n") && out.contains("The span runs to nothing.\n"), "{out}");
    assert!(!out.contains("A rule is probably missing"), "{out}");
}

/// A span is about somebody (document 02, 2.4): a plan without the group that the span starts from does not count.
#[test]
fn plans_without_the_span_s_start_do_not_count() {
    let out = answered("moments: one, two\ntwo - 10 <= one\nspan: from two to one\nexpect: least -10\n");
    assert!(out.contains("says: accepted least -10\n") && out.contains("The least span is -10 minutes."), "{out}");
    let out = answered("moments: one, two\nanchor + 5 <= one\nspan: from two to one\n");
    assert!(out.contains("accepted bottomless\n") && out.contains("Nothing says how late two may be.\n"), "{out}");
    assert!(!out.contains("how early"), "{out}");
    let out = answered("moments: one, two\none <= two\nspan: from two to one\n");
    assert!(out.contains("how late two may be.\nNothing says how early one may be.\n"), "{out}");
    // Every plan leaves out both groups: there is none, where a plan without the end alone is bottomless.
    let out = answered("moments: one, two\none <= two\ntwo <= nothing\nspan: from two to one\n");
    assert!(
        out.contains("accepted none\n")
            && out.contains("starts from, because of:\n  rule 2 (line 3): two <= nothing, that is two left out (it leaves two out)\n"),
        "{out}"
    );
    let out = answered("moments: one, two\none <= nothing\nspan: from two to one\n");
    assert!(out.contains("accepted bottomless\n"), "{out}");
}

/// Nobody is in an empty group, whatever the span runs to; document 01's example D runs to nothing too.
#[test]
fn no_plan_counts_where_the_span_starts_from_nothing() {
    for end in ["one", "anchor", "nothing"] {
        let text = format!("moments: one, two\ntwo - 10 <= one\nspan: from nothing to {end}\nexpect: none\n");
        let out = answered(&text);
        assert!(out.contains("says: accepted none\n"), "{out}");
        assert!(
            out.contains("The group that the span starts from is empty: no plan counts, whatever the rules.\n"),
            "{out}"
        );
        assert!(ward(&["--json", "-"], &text).out.contains("\"why\": \"from nothing\""));
    }
}

#[test]
fn no_span_is_told_with_the_rules_that_contradict_each_other() {
    let text =
        "moments: a, b, c\nanchor + 30 <= a\na + 25 <= b\nanchor + 5 <= c\nb <= anchor + 54\nspan: from a to b\n";
    let out = answered(text);
    assert!(out.contains("says: accepted none\n"), "{out}");
    let told = out.split("These rules contradict each other").nth(1).expect("the rules");
    let rules: Vec<&str> = told.lines().skip(1).collect();
    assert_eq!(
        rules,
        [
            "  rule 1 (line 2): anchor + 30 <= a, that is a at least 30 min after the anchor (its minutes count)",
            "  rule 2 (line 3): a + 25 <= b, that is b at least 25 min after a (its minutes count)",
            "  rule 4 (line 5): b <= anchor + 54, that is b at most 54 min after the anchor (its minutes count)"
        ]
    );
    let out = answered("moments: a\nanchor <= nothing\nspan: from anchor to a\n");
    assert!(out.contains("No plan can keep this rule:\n  rule 1 (line 2): anchor <= nothing\n"), "{out}");
}

#[test]
fn no_span_is_told_where_its_start_is_always_left_out() {
    let out = answered("moments: a, b\nanchor + 5 <= b\na <= nothing\nspan: from a to b\n");
    assert!(out.contains("accepted none"), "{out}");
    assert!(
        out.contains("leaves out all that the span starts from, because of:\n  rule 2 (line 3): a <= nothing, that is a left out (it leaves a out)\n"),
        "{out}"
    );
}

#[test]
fn several_spans_are_answered_one_after_another() {
    let text = format!("{E}expect: least 30\nspan: from bed to anchor\nexpect: bottomless\n");
    let out = answered(&text);
    let place = |words: &str| out.find(words).unwrap_or_else(|| panic!("{words}: {out}"));
    assert!(place("Span 1 of 2\nFrom  anchor\nTo    bed\n") < place("accepted least 30\n"));
    assert!(place("accepted least 30\n") < place("Span 2 of 2\nFrom  bed\nTo    anchor\n"));
    assert!(place("Span 2 of 2") < place("accepted bottomless\n"));
    // Length 56, kind 3, n 1, m 1, count 2.
    assert!(ward(&["record", "-"], &text).out.starts_with("380000000300010001000200"));
}

#[test]
fn another_answer_than_expected_has_a_status_of_its_own() {
    let told = ward(&["-"], format!("{E}expect: least 29\n"));
    assert_eq!(told.status, Some(4), "{told:?}");
    assert!(told.out.contains("The text expects another answer: least 29\n"), "{told:?}");
    for expected in ["least 30", "least 0:30"] {
        assert_eq!(ward(&["-"], format!("{E}expect: {expected}\n")).status, Some(0));
    }
}

/// No bytes are an idle day (document 02, 2.9), and a line that says nothing is not.
#[test]
fn an_empty_text_is_an_idle_day() {
    let told = ward(&["-"], "");
    assert_eq!(told.status, Some(0), "{told:?}");
    assert!(told.out.contains("an idle day") && told.out.contains("accepted least 0"), "{told:?}");
    assert_eq!(ward(&["record", "--binary", "-"], "").out, "");
    assert_eq!(ward(&["-"], "\n").status, Some(1));
}

/// Suspended rules are written as kind 5 (document 02, 2.10), and answered.
#[test]
fn suspended_rules_are_sent_with_their_states() {
    let text = "moments: bed\nanchor + 30 <= bed\nsuspended: anchor + 50 <= bed\nspan: from anchor to bed\n";
    let record = ward(&["record", "-"], text);
    assert_eq!(record.status, Some(0), "{record:?}");
    // Length, kind 5, n 1, m 2, then the states 1 and 0.
    assert!(record.out.starts_with("3A000000050001000200") && record.out[20..].starts_with("01000000"), "{record:?}");
    let told = ward(&["-"], text);
    assert_eq!(told.status, Some(0), "{told:?}");
    assert!(told.out.contains("accepted least 30") && told.out.contains("2 rules (1 suspended)"), "{told:?}");
    let back = ward_reader::read(text.as_bytes(), &ward_reader::Clock::unjudged()).sheet.expect("a good text");
    let bytes = ward_reader::record::sent(&back).remove(0);
    let again = ward_reader::record::sheet(&bytes).expect("a record");
    assert_eq!(again.rules.iter().map(|rule| rule.in_force).collect::<Vec<_>>(), [true, false]);
    assert_eq!(ward_reader::record::sent(&again), [bytes]);
}

/// A rule of a quarrel says what it does there: its minutes count, or it only makes a moment happen.
#[test]
fn a_quarrel_says_what_each_rule_does() {
    let out = answered("moments: a, b, c\nanchor <= b\nb + 25 <= c\nc <= b + 20\nspan: from anchor to a\n");
    for line in [
        "  rule 1 (line 2): anchor <= b, that is b not before the anchor (it only makes b happen)\n",
        "  rule 2 (line 3): b + 25 <= c, that is c at least 25 min after b (its minutes count)\n",
        "  rule 3 (line 4): c <= b + 20, that is c at most 20 min after b (its minutes count)\n",
    ] {
        assert!(out.contains(line), "{out}");
    }
    let text = "moments: a, b, c\nanchor <= a\na <= b\nb + 25 <= c\nc <= b + 20\nspan: from anchor to a\n";
    let out = answered(text);
    assert!(
        out.contains("rule 2 (line 3): a <= b, that is b not before a (it only makes b happen when a does)\n"),
        "{out}"
    );
    let page = ward(&["--html", "-"], text).out;
    assert!(page.contains("rule 1, line 2: it only makes a happen</span>"), "{page}");
    assert!(ward(&["--json", "-"], text).out.contains("\"it only makes a happen\""));
}

/// An answer says which plans count: those that have somebody of the group that the span starts from.
#[test]
fn an_answer_says_which_plans_count() {
    let text =
        |span: &str| format!("moments: a, \"bed 4\"\nanchor <= a\na <= \"bed 4\" + 10\n\"bed 4\" <= a\n{span}\n");
    for (span, words) in [
        ("span: from anchor to a", "No plan that keeps the rules has a smaller one."),
        ("span: from later of anchor, a to a", "No plan that keeps the rules has a smaller one."),
        ("span: from a to \"bed 4\"", "No plan that keeps the rules and has a in it has a smaller one."),
        ("span: from \"bed 4\" to a", "No plan that keeps the rules and has \"bed 4\" in it has a smaller one."),
        (
            "span: from later of a, \"bed 4\" to a",
            "No plan that keeps the rules and has a or \"bed 4\" in it has a smaller one.",
        ),
        ("span: from a to anchor", "some plan that keeps the rules and has a in it has a smaller one."),
    ] {
        let out = answered(&text(span));
        assert!(out.contains(words), "{span}: {out}");
        let page = ward(&["--html", "-"], text(span)).out;
        assert!(page.contains(&words.replace('"', "&quot;")), "{span}: {page}");
    }
}

/// A span below 0 is told in words.
#[test]
fn a_span_below_0_is_explained() {
    let out = answered("moments: a, b, c\na - 70 <= b\nspan: from a to b\nspan: from later of a, c to b\n");
    assert!(out.contains("It is below 0: b is 70 minutes (1:10) before a.\n"), "{out}");
    let text = "moments: a, b, c\nc <= a - 5\na - 10 <= b\nspan: from later of a, c to b\n";
    assert!(answered(text).contains("It is below 0: b is 10 minutes before the last of a, c.\n"));
    assert!(ward(&["--html", "-"], text).out.contains("It is below 0: b is 10 minutes before the last of a, c."));
    assert!(!answered("moments: a\nanchor + 5 <= a\nspan: from anchor to a\n").contains("below 0"));
}

/// Signs at the ends of a timeline are in its legend, where they stand. An arrow means that there is no limit, and nothing else.
#[test]
fn the_legend_has_the_signs_of_the_ends() {
    let open = "moments: a, b\nanchor + 5 <= a\na <= b\nspan: from anchor to a\n";
    let out = answered(open);
    assert!(out.contains("▸ no limit\n") && !out.contains("◂ ▸") && !out.contains("further"), "{out}");
    assert!(ward(&["--html", "-"], open).out.contains("no limit"));
    assert!(ward(&["--plain", "-"], open).out.contains("> no limit"));
    let far = "moments: a, b\nanchor + 5 <= a\na <= b\nb <= anchor + 990\nspan: from anchor to a\n";
    let out = answered(far);
    assert!(out.contains("… further than is shown\n") && !out.contains('▸') && !out.contains("no limit"), "{out}");
    let page = ward(&["--html", "-"], far).out;
    assert!(
        page.contains("further than is shown") && !page.contains("no limit") && !page.contains("<polygon"),
        "{page}"
    );
    let held = "moments: a\na = anchor + 5\nspan: from anchor to a\n";
    for words in ["further", "no limit"] {
        assert!(!answered(held).contains(words) && !ward(&["--html", "-"], held).out.contains(words));
    }
}
