//! Lines that were tried (`tried.txt`): each is read or asked about as its mark says, and all that is shown for it can be copied.

use crate::paste::paste;
use crate::{mistakes, read};

/// The text of a line, with its moments, its anchor and a span.
fn text(moments: &str, anchor: &str, line: &str) -> String {
    let own = line.starts_with("anchor:");
    let anchor = if own { String::new() } else { format!("anchor: {anchor}\n") };
    let (span, before) = ("span: from anchor to ready\n", line.starts_with("expect:"));
    match (before, line.starts_with("span:")) {
        (true, _) => format!("moments: {moments}\n{anchor}{span}{line}\n"),
        (_, true) => format!("moments: {moments}\n{anchor}{line}\n"),
        _ => format!("moments: {moments}\n{anchor}{line}\nspan: from anchor to anchor\n"),
    }
}

#[test]
fn each_line_is_read_or_asked_about_as_it_was() {
    let (mut moments, mut anchor, mut count, mut wrong) = ("", "", 0, Vec::new());
    for line in include_str!("tried.txt").lines().filter(|line| !line.starts_with('%') && !line.is_empty()) {
        let (mark, rest) = line.split_once(' ').expect("a mark");
        match mark {
            "moments" => moments = rest,
            "anchor" => anchor = rest,
            _ => {
                let text = text(moments, anchor, rest);
                let read = read(&text);
                let shown = mistakes(&read).iter().any(|mistake| !mistake.fixes.is_empty());
                let found = if read.sheet.is_some() { "=" } else { ["!", "?"][shown as usize] };
                if found != mark {
                    wrong.push(format!("{found} {rest}"));
                }
                paste(&text);
                count += 1;
            }
        }
    }
    assert!(wrong.is_empty(), "{}", wrong.join("\n"));
    assert!(count >= 600, "{count}");
}
