//! Every hint, pasted, is taken: what a mistake says can be written in its line's place is written there, and the mistake is gone.

use crate::list::cases;
use crate::{mistakes, pasted, read};

/// Lines of the issue whose hints misled, and others that the list does not have.
const MORE: &[&str] = &[
    "ready + 1 day <= cleaned and cleaned <= leaves",
    "cleaned - ready >= 30",
    "cleaned - ready <= 30",
    "cleaned - ready = 30",
    "30 <= cleaned - later of ready, leaves",
    "ready + 30 -> cleaned",
    "ready + 1.440 <= cleaned",
    "ready + 1.5 h <= cleaned",
    "ready + 0.25 days <= cleaned",
    "ready + 12.75 <= cleaned",
    "ready + 5 <= cleaned + 6 <= leaves",
    "later of ready, (cleaned), leaves - 1:30 <= anchor",
    "anchor <= later of (ready, leaves + 5)",
    "ready != later of cleaned, leaves",
    "ready > cleaned",
    "ready <= 9:5",
    "ready by 7:30",
    "ready by noon",
    "ready not before 12 pm",
    "ready by 8.45",
    "ready by Tue",
    "ready by Mon 9:00",
    "anchor + 8:40 <= ready",
    "anchor + 1 day 9:00 <= ready",
    "9:15 + anchor <= ready",
    "cleaned 2 to 3 days after ready",
    "cleaned no later than 20 before ready",
    "cleaned more than 2 after ready",
    "ready-5 <= cleaned",
    "ready+ -5 <= cleaned",
    "ready <= cleaned #late",
    "moments: porter #1, porter #2",
    "moments: porter, taxi and nurse",
    "moments: porter; taxi",
    "moments: porter,",
    "span: ready minus cleaned",
    "span: between ready and cleaned",
    "span: from ready until cleaned",
    "spann: from ready to cleaned",
    "nothing before the anchor",
    "nothing before anchor except ready",
    "nothing before anchor but ready and cleaned",
    "clened <= ready",
    "Ready <= cleaned",
    "ready\u{200B} <= cleaned",
    "#7 ready + 5 <= cleaned",
    // Words by other names.
    "ready by Thur 14:00",
    "ready by Do 14:00",
    "ready by Tu 14:00",
    "ready by Th 14:00",
    "ready by Donnerstag 14:00",
    "ready ‹＝ leaves",
    "ready nicht vor 8:40",
    "ready bis 8:45",
    "ready must be by 8:45",
    "ready must not be before 8:45",
    "ready by 8:45h",
    "ready by 8: 45",
    "ready by 8:45:30",
    "ready by half past nine",
    "ready by half 9",
    "ready by 0.364583",
    "ready by 25:30",
    "ready by T 14:00",
    "leaves at least 3 m after ready",
    "leaves at least 1 week after ready",
    "leaves at least 35 Minuten after ready",
    "leaves at least 1 h, 30 min after ready",
    "leaves at least half an hour after ready",
    "leaves at least 90 s after ready",
    "leaves at least 1½ h after ready",
    "ready + 1 440 <= leaves",
    "ready + 1O <= leaves",
    "ready <= leaves.",
    "ready by 9:00,",
    "1) ready <= leaves",
    "ready <= leaves // slow lift",
    "ready <= leaves (slow lift)",
    "ready <= leaves -- slow lift",
    // Forms that nearly say something.
    "by 8:45 ready",
    "ready by 845",
    "ready by 1440",
    "ready by 8:40 am",
    "ready by 2:00 am",
    "ready 8:40 am",
    "ready by 2 days",
    "ready by 10 after leaves",
    "ready by 9h",
    "ready 8:40",
    "ready exactly 8:40",
    "ready at least 8:40",
    "ready at most 8:40",
    "ready by 8:45 or 9:00",
    "ready at 9",
    "ready 8:45 (latest)",
    "ready by 8:45 (latest)",
    "ready by 8:45 at the earliest",
    "ready from 8:40 to 8:45",
    "ready 8:40 to 8:45",
    "ready not before 8:40 by 8:45",
    "leaves at least 35 and at most 40 after ready",
    "leaves at least 35 to 40 after ready",
    "leaves up to 10 after ready",
    "leaves max 10 after ready",
    "leaves not more than 10 before ready",
    "ready by Thu 9",
    "ready by Thu 2pm",
    "ready, cleaned by 9:00",
    "ready and cleaned not before 9:00",
    "leaves after ready and cleaned",
    "leaves before ready, cleaned",
    "leaves later than ready",
    "ready: 8:40",
    "leaves = ready ± 15",
    "leaves = ready +/- 15",
    "|ready - leaves| <= 10",
    "35 <= cleaned - ready <= 40",
    "ready + 35 <= cleaned <= 40",
    "ready - cleaned <= -30",
    "cleaned -5 to 10 after ready",
    "ready -35-> cleaned",
    "ready + 35-40 <= cleaned",
    "ready + 35 cleaned",
    "(ready + 10 <= leaves)",
    "ready (+10) <= leaves",
    "ready - (10 + 5) <= leaves",
    "later of (ready, cleaned) + 15, leaves <= anchor + 90",
    "later of ready cleaned <= leaves",
    "later of ready, (cleaned + 15 <= leaves",
    "ready <= leaves suspended",
    "ready <= leaves ?",
    "ready, then 35, then leaves",
    "nurse <= leaves",
    "\"ready + 5\" <= leaves",
    "Note: the lift is slow",
    "how long from ready to leaves?",
    "span: from ready, cleaned to leaves",
    "span: from ready to cleaned to leaves",
    "nothing before 8:30",
    "nothing after 18:00",
    "nothing before anchor but not ready",
    "suspended: nothing before anchor",
    "open: Monday 22:00-6:00",
    "open: Mon-Fri 7:00-6:00",
    "open: Mon-Fri 7-18",
    "open: 7:00-18:00",
    "open: weekdays 7:00-18:00",
    "open: Mo-Fr 7:00-18:00",
    "open: daily",
    "ready before noon",
    "ready at 8:45 or earlier",
    "ready by eight",
    "ready by end of day",
    "ready by 17:00 Uhr spätestens",
    "ready @ 8:45",
    "leaves by cleaned or ready",
    "leaves no sooner than ready + 10",
    // Two mistakes and more in a line.
    "redy < leeves",
    "ready by Thur 9",
    "ready bis 8.45 Uhr,",
    "Moments: porter, bed 4, nurse,",
    "moments: 'bed 4', bed 5",
    "the later of ready or cleaned < leaves.",
    "open: Mo-Fr 7-18, Sa 9-12",
];

/// Lines of the anchor, with other lines that need its time.
const ANCHORS: &[&str] = &[
    "Anchor 8.00",
    "anchor: Di 8:00",
    "anchor: 8 Uhr",
    "anchor = 8:00",
    "anchor: 05.06.2027 9:00",
    "anchor: 11/17/2026 8:00",
    "anchor: 17 Nov 2026 8:00",
    "anchor: Dienstag, 8.00",
];

/// Pastes every hint of a text; how many there are.
pub fn paste(text: &str) -> usize {
    let first = read(text);
    let all = mistakes(&first);
    let mut count = 0;
    for mistake in &all {
        for fix in &mistake.fixes {
            let better = pasted(text, mistake.place.line, &fix.lines);
            let again = read(&better);
            let left: Vec<_> = mistakes(&again);
            let lines = mistake.place.line..mistake.place.line + fix.lines.len();
            let here = left.iter().filter(|other| lines.contains(&other.place.line)).count();
            // Whatever else the line lacked is mended with it; names of a line that is wrong itself are not told.
            let unnamed = left.iter().all(|other| other.message.starts_with("no moment is called"));
            assert!(here == 0 || unnamed && all.len() > 1, "{fix:?}\nof {mistake:?}\n{better}\n{left:?}");
            // Other names are other lines' business, and a name that several lines have is told once.
            let names = fix.lines[0].to_lowercase().trim_start().starts_with("moments")
                || fix.lines[0].to_lowercase().starts_with("anchor:")
                || mistake.message.contains("; also on line");
            assert!(names || left.len() < all.len(), "{fix:?}\nof {mistake:?}\n{better}\n{left:?}");
            count += 1;
        }
        // Forms that a hint shows in words are taken too.
        for form in mistake.hint.iter().flat_map(|hint| forms(hint)) {
            let text = format!("moments: ready, leaves\n{form}\n");
            let span = if form.starts_with("span") { "" } else { "span: from ready to leaves\n" };
            let anchor = if form.starts_with("open") { "anchor: Monday 8:00\n" } else { "" };
            let shown = read(&format!("{text}{span}{anchor}"));
            assert!(shown.sheet.is_some(), "{form}\n{:?}", shown.remarks);
            count += 1;
        }
    }
    count
}

/// The whole lines that stand between quotes in a hint.
fn forms(hint: &str) -> Vec<&str> {
    let whole = |part: &&str| {
        let line = part.contains(" <= ") || part.contains(" after ") || part.contains(": ");
        line && !part.contains("..")
    };
    hint.split('\'').skip(1).step_by(2).filter(whole).collect()
}

#[test]
fn every_hint_pasted_is_taken() {
    let listed: usize = cases(include_str!("lines.txt")).iter().map(|case| paste(&case.text)).sum();
    assert!(listed >= 400, "{listed}");
    let mut bare = Vec::new();
    for line in MORE {
        let first = if line.contains("moments") { "" } else { "moments: ready, cleaned, leaves\n" };
        let text = format!("{first}anchor: Tue 8:00\n{line}\nspan: from anchor to anchor\n");
        if paste(&text) == 0 {
            bare.push((line, read(&text).remarks));
        }
    }
    for line in ANCHORS {
        let text = format!("moments: ready\n{line}\nspan: from anchor to ready\n");
        if paste(&text) == 0 {
            bare.push((line, read(&text).remarks));
        }
    }
    assert!(bare.is_empty(), "{bare:?}");
}

/// No mistake of the list is told without a line to write in its place, or words that say what to do or why there is none.
#[test]
fn every_mistake_says_what_to_do() {
    for case in cases(include_str!("lines.txt")) {
        let read = read(&case.text);
        for mistake in mistakes(&read) {
            assert!(!mistake.fixes.is_empty() || mistake.hint.is_some(), "{}: {mistake:?}", case.title);
        }
    }
}

/// Where a line has two mistakes, both show the same whole line, or the second says that the first does.
#[test]
fn two_mistakes_of_a_line_are_mended_together() {
    for (line, whole) in [
        ("Anchor 8.00", "Anchor: 8:00"),
        ("Moments: ready, bed 4, leaves,", "Moments: ready, \"bed 4\", leaves"),
        ("redy < leeves", "ready <= leaves"),
        ("ready bis 8.45 Uhr,", "ready by 8:45"),
    ] {
        let small = line.to_lowercase();
        let moments = if small.starts_with("moments") { "" } else { "moments: ready, leaves\n" };
        let anchor = if small.starts_with("anchor") { "" } else { "anchor: 8:00\n" };
        let read = read(&format!("{moments}{anchor}{line}\nspan: from anchor to anchor\n"));
        let found = mistakes(&read);
        assert_eq!(found[0].fixes[0].lines, [whole], "{line}: {found:?}");
        assert!(found[1..].iter().all(|mistake| mistake.hint.is_some() || !mistake.fixes.is_empty()), "{found:?}");
    }
}
