//! Mistakes: each with file, line, column, the line and a caret; all of a text; and what to write in its stead.

use crate::scratch::Scratch;
use crate::{told, tool, ward, Told};

/// A text with one line between its moments and its span.
fn with(line: &str) -> String {
    format!("moments: ready, cleaned, \"bed 4-B\"\n{line}\nspan: from anchor to ready\n")
}

fn check(text: impl AsRef<[u8]>) -> Told {
    ward(&["check", "-"], text)
}

/// The one mistake of the second line: its column, its message, and what is told below it.
fn mistake(line: &str) -> (usize, String, String) {
    let told = check(with(line));
    assert_eq!((told.status, told.out.as_str()), (Some(1), ""), "{told:?}");
    assert_eq!(told.err.matches(": mistake: ").count(), 1, "{told:?}");
    let lines: Vec<&str> = told.err.lines().collect();
    let mut head = lines[0].splitn(5, ':');
    assert_eq!(head.next(), Some("standard input"), "{told:?}");
    assert_eq!(head.next(), Some("2"), "{told:?}");
    let column = head.next().and_then(|column| column.parse().ok()).expect("a column");
    assert_eq!(head.next(), Some(" mistake"), "{told:?}");
    assert_eq!(lines[1], format!("  2 | {line}"), "{told:?}");
    let caret = lines[2].chars().position(|c| c == '^').expect("a caret");
    assert_eq!(caret, "  2 | ".len() + column - 1, "{told:?}");
    (column, head.next().expect("a message").trim().into(), lines[3..].join("\n") + "\n")
}

/// A line, the column of its mistake, what is told of it, and parts of what is told below: words, and lines that can be copied.
const MISTAKES: &[(&str, usize, &str, &[&str])] = &[
    ("ready < cleaned", 7, "'<=' is expected, not '<'", &["ready <= cleaned", "ready + 1 <= cleaned"]),
    ("ready != cleaned", 7, "'<=' is expected, not '!='", &["a rule cannot say that its sides differ: choose which is earlier", "ready + 1 <= cleaned", "cleaned + 1 <= ready"]),
    ("ready!=\"bed 4-B\"", 6, "'<=' is expected, not '!='", &["a rule cannot say that its sides differ: choose which is earlier", "ready + 1 <= \"bed 4-B\"", "\"bed 4-B\" + 1 <= ready"]),
    ("ready ≠ cleaned", 7, "'<=' is expected, not '≠'", &["a rule cannot say that its sides differ: choose which is earlier", "ready + 1 <= cleaned", "cleaned + 1 <= ready"]),
    ("ready <> cleaned", 7, "'<=' is expected, not '<>'", &["a rule cannot say that its sides differ: choose which is earlier", "ready + 1 <= cleaned", "cleaned + 1 <= ready"]),
    ("ready + 5 != later of cleaned, anchor", 11, "'<=' is expected, not '!='", &["a rule cannot say that its sides differ: choose which is earlier", "ready + 6 <= later of cleaned, anchor", "(later of cleaned, anchor) + 1 <= ready + 5"]),
    ("ready <= cleaned != anchor", 18, "'!=' is too much: a rule has one sign", &[]),
    ("ready and cleaned <= anchor", 7, "'<=' is expected, not 'and'", &["later of ready, cleaned <= anchor"]),
    ("anchor <= ready or cleaned", 17, "several moments on the late side of a rule stand behind 'later of', or in rules of their own", &["anchor <= later of ready, cleaned"]),
    ("anchor <= ready and cleaned", 17, "several moments on the late side of a rule stand behind 'later of', or in rules of their own", &["anchor <= ready", "anchor <= cleaned"]),
    ("anchor <= ready, cleaned", 16, "several moments on the late side of a rule stand behind 'later of', or in rules of their own", &["anchor <= later of ready, cleaned", "anchor <= ready", "anchor <= cleaned"]),
    ("moment: nurse", 1, "no line starts with 'moment:'", &["moments: nurse"]),
    ("spam: from ready to cleaned", 1, "no line starts with 'spam:'", &["span: from ready to cleaned"]),
    ("ward: nurse", 1, "no line starts with 'ward:'", &["lines start with moments:, anchor:, open:, admits:, suspended:, span:, expect:, plan:, or are rules; a comment starts with #"]),
    ("rule: ready <= cleaned", 1, "no line starts with 'rule:'", &["a rule stands on its line without a word and a colon before it", "ready <= cleaned"]),
    ("suspended ready <= cleaned", 1, "a colon is missing behind 'suspended'", &["suspended: ready <= cleaned"]),
    ("READY <= cleaned", 1, "'READY' looks like 'ready' and is another name: 'READY' has the capital letter 'R'", &["ready <= cleaned"]),
    ("claened <= ready", 1, "no moment is called 'claened'", &["cleaned <= ready"]),
    ("nurse <= ready", 1, "no moment is called 'nurse'", &["name it on the line 'moments: ..'"]),
    ("ready + 7.5 <= cleaned", 9, "'7.5' has a decimal point or comma, and minutes are whole", &["ready + 450 min <= cleaned", "ready + 8 min <= cleaned"]),
    ("ready + 7,5 <= cleaned", 9, "'7,5' has a decimal point or comma, and minutes are whole", &["ready + 450 min <= cleaned", "ready + 8 min <= cleaned"]),
    ("ready + 1.440 <= cleaned", 9, "'1.440' has a decimal point or comma, and minutes are whole", &["ready + 1440 min <= cleaned"]),
    ("ready + 1,5 h <= cleaned", 9, "'1,5 h' has a decimal point or comma, and minutes are whole", &["ready + 90 min <= cleaned"]),
    ("ready + -30 <= cleaned", 9, "a minus has a space on both sides", &["ready - 30 <= cleaned"]),
    ("ready - -30 <= cleaned", 9, "a minus has a space on both sides", &["ready + 30 <= cleaned"]),
    ("ready + 1:75 <= cleaned", 9, "'1:75' is no text of hours and minutes", &["behind the colon there are two digits below 60", "ready + 2:15 <= cleaned"]),
    ("ready + 1:5 <= cleaned", 9, "'1:5' is no text of hours and minutes", &["minutes have two digits", "ready + 1:05 <= cleaned", "ready + 1:50 <= cleaned"]),
    ("ready + 2 days 4 <= cleaned", 9, "'4' has no unit: hours or minutes?", &["ready + 2 days 4 h <= cleaned", "ready + 2 days 4 min <= cleaned"]),
    ("ready + 1:30 min <= cleaned", 9, "'1:30 min' can be hours and minutes, or minutes and seconds", &["there are whole minutes only", "ready + 1:30 <= cleaned"]),
    ("8:40 <= ready", 1, "a time of day needs the anchor's time", &["say when the anchor is, on a line of its own, as in anchor: 8:00", "anchor + 8:40 <= ready"]),
    ("ready <= 8:45", 10, "a time of day needs the anchor's time", &["say when the anchor is, on a line of its own, as in anchor: 8:00", "ready <= anchor + 8:45"]),
    ("ready by 8:45", 10, "a time of day needs the anchor's time", &["say when the anchor is, on a line of its own, as in anchor: 8:00", "ready by anchor + 8:45"]),
    ("earlier of ready, cleaned <= anchor", 1, "a moment's name or 'later of' is expected, not 'earlier'", &["there is 'later of' alone; that something is not later than any of several is a rule with each of them"]),
    ("ready <= earlier of cleaned, anchor", 10, "a moment's name or 'later of' is expected, not 'earlier'", &["ready <= cleaned", "ready <= anchor"]),
    ("ready before cleaned + 5", 7, "'<=' is expected, not 'before'", &["ready <= cleaned + 5", "ready + 1 <= cleaned + 5"]),
    ("ready + 5 after cleaned", 11, "'<=' is expected, not 'after'", &["cleaned <= ready + 5", "cleaned + 1 <= ready + 5"]),
    ("ready 5 after cleaned", 7, "at least so long, or exactly?", &["ready at least 5 after cleaned", "ready exactly 5 after cleaned"]),
    ("anchor <= bed 4-B + 10", 11, "'bed 4-B' stands without its quotes", &["anchor <= \"bed 4-B\" + 10"]),
    ("bed 4-B <= ready", 1, "'bed 4-B' stands without its quotes", &["\"bed 4-B\" <= ready"]),
    ("bed-clean <= ready", 1, "no moment is called 'bed-clean'", &["name it on the line 'moments: ..'"]),
    ("ready-5 <= cleaned", 1, "a minus has a space on both sides", &["without spaces a hyphen is a part of a name, and no moment is called so", "ready - 5 <= cleaned"]),
    ("ready -5 <= cleaned", 7, "a minus has a space on both sides", &["without spaces a hyphen is a part of a name", "ready - 5 <= cleaned"]),
    ("moments: nurse; porter", 10, "'nurse; porter' cannot be a moment's name", &["commas stand between names, and a name with spaces stands in quotes", "moments: \"nurse; porter\"", "moments: nurse, porter"]),
    ("moments: nurse, porter and sister", 17, "'porter and sister' cannot be a moment's name", &["commas stand between names, and a name with spaces stands in quotes", "moments: nurse, \"porter and sister\"", "moments: nurse, porter, sister"]),
    ("moments: nurse porter", 10, "'nurse porter' cannot be a moment's name", &["commas stand between names, and a name with spaces stands in quotes", "moments: \"nurse porter\"", "moments: nurse, porter"]),
    ("moments: nurse,, porter", 16, "a moment's name is expected, not ','", &["moments: nurse, porter"]),
    ("moments: Cleaned", 10, "'Cleaned' and 'cleaned' look alike: 'Cleaned' has the capital letter 'C'", &["line 1 has 'cleaned'; two names must differ in a letter that can be seen"]),
    ("ready + 30m <= cleaned", 9, "'30m' is written otherwise here", &["ready + 30 min <= cleaned"]),
    ("ready 30 <= cleaned", 1, "no moment is called 'ready 30'", &["a sign is missing, or it is another moment", "ready + 30 <= cleaned", "ready - 30 <= cleaned", "moments: \"ready 30\"", "\"ready 30\" <= cleaned"]),
    ("ready + 5 + 6 <= cleaned", 11, "minutes are given once, not '+'", &["ready + 11 <= cleaned"]),
    ("ready + 20161 <= cleaned", 9, "'20161' is beyond 20160 minutes, two weeks", &["is it a slip of the keyboard? Longer ways can go over a moment between"]),
    ("ready + 336:01 <= cleaned", 9, "'336:01' is beyond 20160 minutes, two weeks", &["is it a slip of the keyboard? Longer ways can go over a moment between"]),
    ("ready + 15 days <= cleaned", 9, "'15 days' is beyond 20160 minutes, two weeks", &["is it a slip of the keyboard? Longer ways can go over a moment between"]),
    ("ready <= cleaned <= anchor", 18, "'<=' is too much: a rule has one sign", &["ready <= cleaned", "cleaned <= anchor"]),
    ("ready + <= cleaned", 8, "minutes are expected before '<='", &[]),
    ("ready <=", 9, "a moment's name is expected at the end of the line", &[]),
    ("ready", 6, "'<=' is expected at the end of the line", &["a rule is written 'ready + 10 <= leaves', or 'leaves at least 10 after ready'"]),
    ("ready <= cleaned-early", 10, "no moment is called 'cleaned-early'", &["name it on the line 'moments: ..'"]),
    ("ready <= cleaned and cleaned <= ready", 18, "a line has one rule", &["ready <= cleaned", "cleaned <= ready"]),
    ("ready + (30) <= cleaned", 9, "minutes are expected, not '('", &["ready + 30 <= cleaned"]),
    ("ready - (30) <= cleaned", 9, "minutes are expected, not '('", &["ready - 30 <= cleaned"]),
    ("ready + 1.5h <= cleaned", 9, "'1.5h' has a decimal point or comma, and minutes are whole", &["ready + 90 min <= cleaned"]),
    ("\"bed 4-B <= ready", 1, "the quote before 'bed 4-B <= ready' is not closed", &["a name in quotes ends with another quote of the same kind on the same line"]),
    ("'bed 4-B' <= ready", 1, "a moment's name is expected, not ''bed'", &["names with spaces stand in double quotes", "\"bed 4-B\" <= ready"]),
    ("nothing <= ready", 1, "a rule with nothing on its early side says nothing: every plan keeps it", &["was the line left half filled? Fill it in or delete it. That one is left out is said as in 'ready <= nothing'"]),
    ("ready#1 <= cleaned", 6, "'#' stands within 'ready#1', or without a space behind it", &["a name with '#' stands in quotes, \"ready#1\"; a comment has a space on both sides of its '#'"]),
    ("ready <= cleaned #late", 18, "'#' stands within 'cleaned #late', or without a space behind it", &["a name with '#' stands in quotes, \"cleaned #late\"; a comment has a space on both sides of its '#'", "ready <= cleaned # late"]),
    ("anchor: 24:00", 9, "the anchor's day ends before 24:00", &["write 0:00, and the next day where the line has a day"]),
    ("anchor: noon", 9, "'noon' is no time of day", &["anchor: 12:00"]),
    ("anchor: 8", 9, "a time of day is expected, not '8'", &["anchor: 8:00"]),
    ("span: ready - cleaned", 7, "this can be a difference, or a way from one to the other", &["span: from ready to cleaned", "span: from cleaned to ready"]),
    ("span: from ready and cleaned to anchor", 18, "'to' is expected, not 'and'", &["a group of several moments stands behind 'later of'; for each of them a span is asked for"]),
    ("span: from ready", 17, "'to' is expected at the end of the line", &["a span is written 'span: from .. to ..'"]),
    ("span: ready to cleaned", 7, "a span is written 'span: from .. to ..'", &["span: from ready to cleaned"]),
    ("cleaned - ready >= 30", 1, "a rule has moments on both sides, and no difference of two", &["ready + 30 <= cleaned"]),
    ("ready + 30 -> cleaned", 12, "'<=' is expected, not '->'", &["ready + 30 <= cleaned"]),
    ("later of ready, cleaned + 15 <= anchor", 17, "whose are these minutes? Inside 'later of' they stand in brackets", &["later of ready, (cleaned + 15) <= anchor", "(later of ready, cleaned) + 15 <= anchor"]),
    ("later of ready + 15, cleaned <= anchor", 10, "whose are these minutes? Inside 'later of' they stand in brackets", &["later of (ready + 15), cleaned <= anchor"]),
    ("ready => cleaned", 7, "'<=' is expected, not '=>'", &["ready <= cleaned", "cleaned <= ready"]),
    ("nothing before the anchor", 1, "there is 'nothing before anchor' alone", &["nothing before anchor"]),
    ("ready not before 7", 18, "'7' is no time of day: an hour, or minutes?", &["ready not before anchor + 7"]),
    ("cleaned within 40 of ready", 9, "'<=' is expected, not 'within'", &["cleaned 0 to 40 after ready", "ready - 40 <= cleaned", "cleaned <= ready + 40"]),
    ("cleaned 40 to 35 after ready", 9, "the smaller number comes first", &["cleaned 35 to 40 after ready"]),
    ("cleaned 1 to 2 h after ready", 9, "'1' has no unit", &["cleaned 1 h to 2 h after ready", "cleaned 1 min to 2 h after ready"]),
    ("\"ready + 5\" <= cleaned", 1, "no moment is called 'ready + 5'", &["name it on the line 'moments: ..'"]),
];

#[test]
fn every_mistake_has_its_place_and_a_hint() {
    let mut wrong = Vec::new();
    for &(line, column, message, hints) in MISTAKES {
        let found = mistake(line);
        if found.0 != column || !found.1.contains(message) || !hints.iter().all(|hint| found.2.contains(hint)) {
            wrong.push(format!("{line}: {found:?}"));
        }
    }
    assert!(wrong.is_empty(), "{}", wrong.join("\n"));
}

/// A sign of "not equal" is one where no name can have it.
#[test]
fn names_may_end_with_an_exclamation_mark() {
    let told = check("moments: go!, a≠b\ngo!<=a≠b\nanchor <= go!\nspan: from go! to a≠b\n");
    assert_eq!((told.status, told.err.as_str()), (Some(0), ""), "{told:?}");
}

#[test]
fn all_mistakes_of_a_text_are_told_in_order() {
    let text = "moments: a, b, a\na > b\nb <= c + 7.5\nc <= d\na <= nothing\nspan: from a to\nexpect: no\n";
    let told = check(text);
    let places: Vec<String> = told
        .err
        .lines()
        .filter(|line| line.contains(": mistake: "))
        .map(|line| line.split(": ").next().expect("a place").into())
        .collect();
    let at = |places: &[&str]| places.iter().map(|place| format!("standard input:{place}")).collect::<Vec<_>>();
    assert_eq!(places, at(&["1:16", "2:3", "3:6", "3:10", "4:6", "6:16", "7:9"]), "{told:?}");
    assert!(told.err.contains("no moment is called 'c'; also on line 4\n"), "{told:?}");
    assert!(told.err.ends_with("standard input: 7 mistakes\n"), "{told:?}");
}

/// Names of a line that cannot be read are not told as unknown where rules use them.
#[test]
fn a_line_of_moments_that_cannot_be_read_is_the_one_mistake() {
    for moments in
        ["moments: “bed 4, ready", "moments: bed#4, ready", "moments: \"bed 4, ready", "moments: bed 4, ready"]
    {
        let told = check(format!("{moments}\nanchor + 5 <= ready\nspan: from anchor to ready\n"));
        assert_eq!(told.status, Some(1), "{told:?}");
        assert_eq!(told.err.matches(": mistake: ").count(), 1, "{told:?}");
        assert!(told.err.starts_with("standard input:1:"), "{told:?}");
    }
}

#[test]
fn too_many_are_told_with_their_count_and_line() {
    let names = |count: usize| (0..count).map(|number| format!("m{number}")).collect::<Vec<_>>().join(", ");
    let text = |moments: usize, rules: usize, spans: usize| {
        format!("moments: {}\n{}{}", names(moments), "m0 <= m1\n".repeat(rules), "span: from m0 to m1\n".repeat(spans))
    };
    assert_eq!(check(text(31, 63, 8)).status, Some(0));
    for (counts, parts) in [
        ((34, 1, 1), [":1:155:", "there are 34 moments beside the anchor, and 31 is the most; here is number 32"]),
        ((2, 66, 1), [":65:1:", "there are 66 rules, and 63 is the most; here is number 64"]),
        ((2, 1, 9), [":11:7:", "there are 9 spans, and 8 is the most; here is number 9"]),
    ] {
        let told = check(text(counts.0, counts.1, counts.2));
        assert_eq!(told.status, Some(1), "{told:?}");
        assert!(parts.iter().all(|part| told.err.contains(part)), "{told:?}");
    }
}

#[test]
fn files_in_other_forms_are_told() {
    let e = crate::E;
    let bom = check([b"\xEF\xBB\xBF", e.as_bytes()].concat());
    assert_eq!(bom.status, Some(0), "{bom:?}");
    assert!(bom.err.contains(":1:1: warning: the file starts with a byte order mark"), "{bom:?}");
    let latin = check(b"moments: K\xFCche, b\nK\xFCche <= b\nspan: from anchor to b\n");
    assert_eq!(latin.status, Some(1), "{latin:?}");
    assert!(
        latin.err.contains(":1:11: mistake: the byte FC is not UTF-8") && latin.err.contains(":2:2: mistake"),
        "{latin:?}"
    );
    assert!(latin.err.contains("in Latin-1 it is 'ü': save the file as UTF-8"), "{latin:?}");
    assert_eq!(latin.err.matches("mistake:").count(), 2, "{latin:?}");
    let wide: Vec<u8> = [0xFF, 0xFE].into_iter().chain(e.encode_utf16().flat_map(u16::to_le_bytes)).collect();
    assert!(check(wide).err.contains("the file is in UTF-16"));
    let record = check(b"\x0E\0\0\0\x01\0\0\0\0\0\x05\0\0\0\x02\0\0\0");
    assert!(record.err.contains("`ward text FILE`"), "{record:?}");
    assert_eq!(check(e.replace('\n', "\r\n")).status, Some(0));
}

/// A file's own name stands in front, and what has no line of its own still has a place.
#[test]
fn what_is_missing_has_a_place_too() {
    let scratch = Scratch::new("missing");
    let file = scratch.file("day.txt", "moments: a\na <= anchor + 5\n");
    let told = told(tool().arg("check").arg(&file));
    assert!(
        told.err.starts_with(&format!("{}:2:16: mistake: there is no line 'span: from .. to ..'\n", file.display())),
        "{told:?}"
    );
    let told = check(with("open: Monday 7:00-18:00"));
    assert!(told.err.contains(":2:7: mistake: opening hours need the day of the anchor"), "{told:?}");
    let told = check(with("admits: ready"));
    assert!(told.err.contains("there are no opening hours for 'admits:'"), "{told:?}");
}

/// What a text has in vain is warned of, and the status stays.
#[test]
fn what_is_in_vain_is_warned_of() {
    let text = "moments: bed, claened, nurse\nanchor + 30 <= bed\nnurse <= nurse + 5\nspan: from anchor to bed\n";
    let told = ward(&["-"], text);
    assert_eq!(told.status, Some(0), "{told:?}");
    for part in [
        ":1:15: warning: 'claened' is free",
        ":1:24: warning: 'nurse' is free",
        ":3:1: warning: this rule says nothing: every plan keeps it\n  3 | nurse <= nurse + 5\n    | ^^^^^^^^^^^^^^^^^^\n",
    ] {
        assert!(told.err.contains(part), "{told:?}");
    }
    assert!(
        told.out.contains("--  claened  ") && told.out.contains("free: the span and the rules say nothing of it"),
        "{told:?}"
    );
    assert_eq!(ward(&["-q", "-"], text).err, "");
}

/// Nobody's terminal is steered by a text.
#[test]
fn signs_that_steer_a_terminal_are_not_passed_on() {
    let told = ward(&["-"], "# \u{1b}[2Jtitle\nmoments: a\u{1b}[31m\nanchor <= a\nspan: from anchor to a\n");
    assert!(!told.out.contains('\u{1b}') && !told.err.contains('\u{1b}'), "{told:?}");
    assert!(told.err.contains("U+001B cannot be seen"), "{told:?}");
    let told = ward(&["-"], format!("# \u{1b}[2Jtitle\n{}", crate::E));
    assert!(told.status == Some(0) && !told.out.contains('\u{1b}'), "{told:?}");
}
