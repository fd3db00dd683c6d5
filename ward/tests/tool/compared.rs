//! Two texts side by side: `ward compare`.

use crate::scratch::Scratch;
use crate::{told, tool, Told};

const TEXT: &str = "moments: bed, nurse\nanchor: 8:00\nbed not before 8:30\nlater of bed, nurse <= anchor + 90\nanchor + 20 <= nurse\nspan: from anchor to bed\n";

fn compared(words: &[&str], first: &str, second: &str) -> Told {
    let scratch = Scratch::new("compared");
    scratch.file("a.txt", first);
    scratch.file("b.txt", second);
    told(tool().current_dir(scratch.path("")).arg("compare").args(words).args(["a.txt", "b.txt"]))
}

#[test]
fn what_differs_is_told() {
    let told = compared(&[], TEXT, &TEXT.replace("8:30", "8:40").replace("anchor + 20", "suspended: anchor + 20"));
    assert_eq!((told.status, told.err.as_str()), (Some(0), ""), "{told:?}");
    for part in [
        "Only a.txt has:\n  rule 1 (line 3): bed not before 8:30\n  rule 3 (line 5): anchor + 20 <= nurse, that is nurse not before 8:20\n",
        "Only b.txt has:\n  rule 1 (line 3): bed not before 8:40\n  rule 3 (line 5): anchor + 20 <= nurse, that is nurse not before 8:20, suspended\n",
        "  a.txt  least span 30 minutes\n  b.txt  least span 40 minutes\nThe span is longer by 10 minutes.\n",
        "  bed     8:30   8:40\n",
    ] {
        assert!(told.out.contains(part), "{part}{}", told.out);
    }
}

/// The order of lines, and of moments, plays no part.
#[test]
fn the_same_is_told_as_the_same() {
    let other = "moments: nurse, bed\nanchor: 8:00\nanchor + 20 <= nurse\nlater of nurse, bed <= anchor + 90\nbed not before 8:30\nspan: from anchor to bed\n";
    let told = compared(&[], TEXT, other);
    assert!(told.out.contains("The rules are the same.\n") && told.out.contains("The span is the same.\n"), "{told:?}");
    let json = compared(&["--json"], TEXT, other).out;
    assert!(
        json.contains("\"rules_of_first_alone\": []") && json.contains("\"first\": \"accepted least 30\""),
        "{json}"
    );
}

#[test]
fn other_spans_and_mistakes_are_told() {
    let told = compared(&[], TEXT, &TEXT.replace("to bed", "to nurse"));
    assert!(told.out.contains("To    bed\n  a.txt  least span 30 minutes\n  b.txt  not asked\n"), "{told:?}");
    assert!(told.out.contains("To    nurse\n  a.txt  not asked\n  b.txt  least span 20 minutes\n"), "{told:?}");
    let told = compared(&[], TEXT, "moments: a\na <= b\n");
    assert!(told.status == Some(1) && told.out.is_empty() && told.err.contains("no moment is called 'b'"), "{told:?}");
    let told = compared(&["--html"], TEXT, TEXT);
    assert!(told.status == Some(2), "{told:?}");
}

/// Opening hours, and the moments that keep to them, are told where they differ.
#[test]
fn other_opening_hours_are_told() {
    let text = "moments: a, b\nanchor: Monday 8:00\nopen: daily 9:00-10:00\nadmits: a\nanchor <= a\na <= b\nspan: from anchor to b\n";
    let (hours, moments) = ("The opening hours behind 'open:' differ.\n", "The moments behind 'admits:' differ.\n");
    let told = compared(&[], text, &text.replace("9:00-", "9:30-"));
    let spans = "  a.txt  least span 60 minutes (1:00) within 14 days of the anchor, with opening hours kept\n";
    assert!(told.out.contains(&format!("The rules are the same.\n{hours}")) && told.out.contains(spans), "{told:?}");
    assert!(!told.out.contains(moments), "{told:?}");
    let told = compared(&[], text, &text.replace("admits: a", "admits: a, b"));
    assert!(told.out.contains(moments) && !told.out.contains(hours), "{told:?}");
    let told = compared(&[], text, &text.replace("Monday", "Tuesday"));
    assert!(told.out.contains("The anchors differ in their day or time"), "{told:?}");
    let far = text.replace("anchor <= a\n", "anchor + 14 days <= a\n");
    let none = "accepted none by 2 cases within 14 days of the anchor, with opening hours kept\n";
    assert!(compared(&[], text, &far).out.contains(none));
    let told = compared(&[], text, text);
    assert!(!told.out.contains("differ"), "{told:?}");
}
