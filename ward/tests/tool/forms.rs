//! What is put out for programs and for people: JSON, CSV, the timeline, and the sheet.

use crate::scratch::Scratch;
use crate::{repository, ward, E};

const STRANGE: &str = "# Bed 4 & <b>\"friends\"</b>\nmoments: \"bed, <4> & co\", \"x\\y\"\nanchor + 30 <= \"bed, <4> & co\"\n\"x\\y\" <= \"bed, <4> & co\"\nspan: from anchor to \"bed, <4> & co\"\n";

/// Reads a JSON value, and returns what is left; nothing more than RFC 8259 is taken.
fn value(text: &str) -> &str {
    let text = text.trim_start();
    match text.chars().next().expect("a value") {
        '{' => members(&text[1..], '}', |part| {
            let part = part.trim_start();
            assert!(part.starts_with('"'), "{part}");
            let rest = value(part).trim_start();
            value(rest.strip_prefix(':').expect("a colon"))
        }),
        '[' => members(&text[1..], ']', value),
        '"' => string(&text[1..]),
        _ => {
            let end = text.find(|c: char| ",]}".contains(c) || c.is_whitespace()).unwrap_or(text.len());
            let word = &text[..end];
            assert!(
                ["null", "true", "false"].contains(&word) || word.parse::<i64>().is_ok_and(|n| n.to_string() == word),
                "{word}"
            );
            &text[end..]
        }
    }
}

fn members(mut text: &str, close: char, member: impl Fn(&str) -> &str) -> &str {
    if let Some(rest) = text.trim_start().strip_prefix(close) {
        return rest;
    }
    loop {
        text = member(text).trim_start();
        match text.chars().next() {
            Some(',') => text = &text[1..],
            Some(c) if c == close => return &text[1..],
            other => panic!("{other:?} in {text}"),
        }
    }
}

fn string(text: &str) -> &str {
    let mut characters = text.char_indices();
    while let Some((place, c)) = characters.next() {
        match c {
            '"' => return &text[place + 1..],
            '\\' => assert!("\"\\/bfnrtu".contains(characters.next().expect("an escape").1), "{text}"),
            c => assert!(c >= ' ', "{text}"),
        }
    }
    panic!("a string has no end: {text}")
}

#[test]
fn json_is_json() {
    for text in [E, STRANGE, "", "moments: a\n\"\u{1}\\ <= a\n", "moments: a\nanchor <= nothing\nspan: from a to a\n"] {
        let told = ward(&["--json", "-"], text);
        assert_eq!(value(&told.out).trim(), "", "{told:?}");
        let told = ward(&["check", "--json", "-"], text);
        assert_eq!(value(&told.out).trim(), "", "{told:?}");
    }
    let problems = repository().join("examples/problems");
    let files: Vec<String> = std::fs::read_dir(problems)
        .expect("examples")
        .map(|file| file.expect("a file").path().display().to_string())
        .filter(|file| file.ends_with(".txt"))
        .collect();
    let words: Vec<&str> = ["--json"].into_iter().chain(files.iter().map(String::as_str)).collect();
    let told = ward(&words, "");
    assert_eq!((told.status, value(&told.out).trim()), (Some(0), ""), "{told:?}");
}

#[test]
fn json_has_what_the_tool_found() {
    let out = ward(&["--json", "-"], format!("anchor: 8:00\n{E}expect: least 29\n")).out;
    for part in [
        "\"verdict\": \"accepted least 30\"",
        "\"accepted\": true",
        "\"expected\": \"least 29\"",
        "\"class\": \"least\"",
        "\"span\": 30",
        "\"span_hours\": \"0:30\"",
        "\"moment\": \"bed\"",
        "\"minute\": 30",
        "\"time\": \"8:30\"",
        "\"earliest\": 30",
        "\"rule\": \"anchor + 30 <= bed\"",
        "\"line\": 3",
    ] {
        assert!(out.contains(part), "{part}: {out}");
    }
    let out = ward(&["--json", "-"], "moments: a\na <= b\n").out;
    for part in ["\"line\": 2", "\"column\": 6", "\"message\": \"no moment is called 'b'\"", "\"hint\": "] {
        assert!(out.contains(part), "{part}: {out}");
    }
}

/// The cells of a line of CSV.
fn cells(line: &str) -> Vec<String> {
    let mut cells = vec![String::new()];
    let mut quoted = false;
    let mut characters = line.chars().peekable();
    while let Some(c) = characters.next() {
        let cell = cells.last_mut().expect("a cell");
        match c {
            '"' if quoted && characters.peek() == Some(&'"') => cell.push(characters.next().expect("a quote")),
            '"' => quoted = !quoted,
            ',' if !quoted => cells.push(String::new()),
            c => cell.push(c),
        }
    }
    assert!(!quoted, "{line}");
    cells
}

#[test]
fn csv_has_a_line_a_moment() {
    let out = ward(&["--csv", "-"], STRANGE).out;
    let lines: Vec<Vec<String>> = out.lines().map(cells).collect();
    assert_eq!(lines.len(), 4, "{out}");
    assert!(lines.iter().all(|line| line.len() == 14), "{out}");
    assert_eq!(lines[0][..2], ["file", "span"]);
    assert_eq!(lines[0][10..], ["note", "expected", "class", "least"]);
    let bed = lines.iter().find(|line| line[5] == "bed, <4> & co").expect("the bed");
    assert_eq!(bed[4..10], ["accepted least 30", "bed, <4> & co", "30", "0:30", "30", "30"]);
    assert_eq!(bed[12..], ["least", "30"]);
    let out = ward(&["--csv", "-"], "moments: a\nanchor <= a\nspan: from a to anchor\n").out;
    let lines: Vec<Vec<String>> = out.lines().map(cells).collect();
    assert_eq!((lines.len(), lines[1][4].as_str(), lines[1].len()), (2, "accepted bottomless", 14), "{out}");
    let out = ward(&["--csv", "-"], "moments: a\nanchor + 5 <= a\na <= anchor + 4\nspan: from anchor to a\n").out;
    let lines: Vec<Vec<String>> = out.lines().map(cells).collect();
    let count = "(its minutes count)";
    let said = ["a at least 5 min after the anchor", "a at most 4 min after the anchor"];
    let named = format!(
        "others of this list: rule 1 (line 2): anchor + 5 <= a, that is {} {count}; rule 2 (line 3): a <= anchor + 4, that is {} {count}",
        said[0], said[1]
    );
    assert!(lines[1].len() == 14 && lines[1][10].ends_with(&named), "{out}");
}

/// The last cell of a line is the answer that the text expects, where it is another.
#[test]
fn csv_has_what_was_expected() {
    let back = "span: from bed to anchor\n";
    for (text, status, expected) in [
        (E.to_string(), 0, ["", ""].as_slice()),
        (format!("{E}expect: least 0:30\n"), 0, &["", ""]),
        (format!("{E}expect: least 29\n"), 4, &["least 29", "least 29"]),
        (format!("{E}expect: bottomless\n{back}expect: bottomless\n"), 4, &["bottomless", "bottomless", ""]),
        (format!("{E}expect: least 30\n{back}expect: none\n"), 4, &["", "", "none"]),
    ] {
        let told = ward(&["--csv", "-"], &text);
        assert_eq!((told.status, told.err.as_str()), (Some(status), ""), "{told:?}");
        let lines: Vec<Vec<String>> = told.out.lines().skip(1).map(cells).collect();
        assert!(lines.iter().all(|line| line.len() == 14), "{told:?}");
        assert_eq!(lines.iter().map(|line| line[11].as_str()).collect::<Vec<_>>(), expected, "{told:?}");
    }
}

#[test]
fn the_timeline_has_a_row_a_moment() {
    let told = ward(&["-"], format!("anchor: 8:00\n{E}"));
    let lines: Vec<&str> = told.out.lines().collect();
    let row = |name: &str| {
        lines
            .iter()
            .rev()
            .find(|line| line.starts_with(&format!("  {name}")))
            .unwrap_or_else(|| panic!("{name}: {told:?}"))
    };
    let place =
        |line: &str, signs: &[char]| line.chars().position(|c| signs.contains(&c)).unwrap_or_else(|| panic!("{line}"));
    let planned = ['●', '◆'];
    assert!(place(row("anchor"), &planned) < place(row("bed"), &planned), "{told:?}");
    assert_eq!(place(row("span"), &['├']), place(row("anchor"), &planned), "{told:?}");
    assert_eq!(place(row("span"), &['┤']), place(row("bed"), &planned), "{told:?}");
    assert!(told.out.contains("8:00 ") && told.out.contains("8:30"), "{told:?}");
    let plain = ward(&["--plain", "-"], E);
    assert!(plain.out.is_ascii() && plain.out.contains('['), "{plain:?}");
    for width in ["40", "79", "1000", "0", "x"] {
        let told = crate::told(crate::tool().arg("examples/problems/day-ward.txt").env("COLUMNS", width));
        let most = width.parse().unwrap_or(80).clamp(40, 160);
        let drawn = told.out.lines().filter(|line| line.contains(['●', '◆', '┬', '├']));
        assert!(
            told.status == Some(0) && drawn.into_iter().all(|line| line.chars().count() <= most),
            "{width}: {told:?}"
        );
    }
}

/// Every element of the page is closed in its order, and nothing is loaded from elsewhere.
fn well_formed(page: &str) {
    let mut open: Vec<&str> = Vec::new();
    let body = page.split("</style>").nth(1).expect("a page");
    for part in body.split('<').skip(1) {
        let tag = part.split('>').next().expect("a tag");
        let name = tag.trim_start_matches('/').split_whitespace().next().expect("a name").trim_end_matches('/');
        match (tag.starts_with('/'), tag.ends_with('/')) {
            (true, _) => assert_eq!(open.pop(), Some(name), "{tag}"),
            (_, true) => {}
            _ => open.push(name),
        }
    }
    assert!(open.is_empty(), "{open:?}");
    for word in ["http:", "https:", "src=", "href=", "<script", "url("] {
        assert!(!page.contains(word), "{word}");
    }
}

#[test]
fn the_sheet_is_a_page_of_its_own() {
    let told = ward(&["--html", "-"], format!("{STRANGE}expect: least 29\nspan: from \"bed, <4> & co\" to anchor\n"));
    assert_eq!(told.status, Some(4), "{told:?}");
    let page = told
        .out
        .replacen("</style>\n</head>", "</style>", 1)
        .replacen("</html>", "", 1)
        .replacen("<body>", "", 1)
        .replacen("</body>", "", 1);
    well_formed(&page);
    for part in [
        "<html lang=\"en\">",
        "<title>Bed 4 &amp; &lt;b&gt;&quot;friends&quot;&lt;/b&gt;</title>",
        "<h1 lang=\"\">",
        "<h2>Span 1 of 2</h2>",
        "<caption>The plan, in the order of time</caption>",
        "<th scope=\"row\" class=\"name\"><span lang=\"\">bed, &lt;4&gt; &amp; co</span></th>",
        "<h2>What is behind span 1 of 2</h2>",
        "<h3>How far moments can move</h3>",
        "@top-left { content: \"Bed 4 \\000026  \\00003c b\\00003e \\000022 friends",
        "counter(page)",
        "says: accepted least 30",
        "says: accepted bottomless",
        "The text expects another answer: least 29",
        "class=\"slack\"",
        "<caption>",
        "Nothing says how late bed, &lt;4&gt; &amp; co may be.",
    ] {
        assert!(told.out.contains(part), "{part}: {}", told.out);
    }
}

#[test]
fn a_sheet_of_several_texts_has_them_all() {
    let scratch = Scratch::new("sheet");
    let (good, bad) = (scratch.file("good.txt", E), scratch.file("bad.txt", "moments: a\na <= <b>\n"));
    let page = scratch.path("sheet.html");
    let told = crate::told(crate::tool().args(["--html", "-o"]).arg(&page).args([&good, &bad]).arg("nowhere.txt"));
    assert_eq!((told.status, told.out.as_str()), (Some(1), ""), "{told:?}");
    let page = std::fs::read_to_string(page).expect("the sheet");
    assert_eq!(page.matches("<section class=\"text\"").count(), 3);
    assert!(page.contains("accepted least 30") && page.contains("&lt;b&gt;") && !page.contains("<b>"), "{page}");
}

/// For the wall alone: the plan with its boxes, and nothing that is behind it. Only a plan has a tick.
#[test]
fn the_wall_has_the_plan_alone() {
    let text = format!("{E}span: from bed to anchor\n");
    let (whole, wall) = (ward(&["--html", "-"], &text).out, ward(&["--html", "--wall", "-"], &text).out);
    for part in ["What is behind", "<h3>Rules</h3>", "<h3>Why</h3>"] {
        assert!(whole.contains(part) && !wall.contains(part), "{part}: {wall}");
    }
    assert_eq!(wall.matches("<td class=\"tick\"><span></span></td>").count(), 1, "{wall}");
    assert_eq!(wall.matches('✓').count(), 1, "{wall}");
    let made = |out: &str| out.matches("made Thu 1970-01-01").count();
    let page = crate::told(
        crate::tool().args(["--html", "examples/problems/blank.txt"]).env("SOURCE_DATE_EPOCH", "60").env("TZ", "UTC"),
    )
    .out;
    assert!(made(&page) >= 2 && page.contains("1970-01-01 0:01"), "{page}");
}
