//! The examples, and the texts of the documents.

use std::fs;

use crate::scratch::Scratch;
use crate::{repository, ward};

/// Every example's bytes are those of its text, and the answers are those that it expects, without a warning.
#[test]
fn every_example_is_answered_as_it_expects() {
    let mut count = 0;
    for entry in fs::read_dir(repository().join("examples/problems")).expect("the problems' folder") {
        let path = entry.expect("a file").path();
        if path.extension().is_some_and(|extension| extension == "txt") {
            let file = path.to_str().expect("a path");
            let stored = fs::read_to_string(path.with_extension("hex")).expect("its bytes");
            let read = ward(&["record", file], "");
            assert_eq!((read.status, read.out.trim_end()), (Some(0), stored.trim_end()), "{file}");
            assert!(fs::read_to_string(&path).expect("its text").contains("\nexpect: "), "{file}");
            let run = ward(&[file], "");
            assert_eq!((run.status, run.err.as_str()), (Some(0), ""), "{run:?}");
            count += 1;
        }
    }
    assert!(count >= 7);
}

/// The parts of a document that are set in by four spaces and are whole texts: they have a line `span:`.
fn texts(document: &str) -> Vec<String> {
    let lines = document.lines().map(|line| line.strip_prefix("    ").or(line.is_empty().then_some("")));
    let mut parts = vec![String::new()];
    for line in lines {
        match line {
            Some(line) => parts.last_mut().expect("a part").push_str(&format!("{line}\n")),
            None => parts.push(String::new()),
        }
    }
    let whole = parts.into_iter().filter(|part| part.lines().any(|line| line.starts_with("span: ")));
    whole.map(|part| part.trim_start_matches('\n').to_string()).collect()
}

/// Every whole text that the documents show is answered, as it expects, and some part of what the tool says stands there.
#[test]
fn the_texts_of_the_documents_are_answered() {
    let document = fs::read_to_string(repository().join("docs/SCHEDULERS.md")).expect("the document");
    let texts = texts(&document);
    assert!(texts.len() >= 2, "{texts:?}");
    let mut outputs = String::new();
    for text in texts {
        let told = ward(&["-"], &text);
        assert_eq!((told.status, told.err.as_str()), (Some(0), ""), "{text}\n{told:?}");
        assert!(text.contains("\nexpect: "), "{text}");
        for line in
            told.out.lines().filter(|line| line.starts_with("The checker") || line.starts_with("The least span is"))
        {
            assert!(document.contains(line.trim()), "{line}\nis not what the document shows for\n{text}");
        }
        outputs += &told.out;
    }
    // What the document shows of an answer stands in it so, line by line.
    let shown = answers(&document);
    assert!(shown.len() >= 3, "{shown:?}");
    for answer in shown {
        assert!(outputs.contains(&answer), "{answer}\nis no answer to a text of the document");
    }
    what_if_and_compare(&document);
    let mistaken = "moments: ready\nanchor: 8:00\n\n\nanchor + 8:40 <= ready\nspan: from anchor to ready\n";
    let told = ward(&["check", "-"], mistaken).err.replace("standard input", "day.txt");
    let told: String = told.lines().map(|line| format!("    {line}\n")).collect();
    assert!(document.contains(&told), "{told}");
}

/// What the document shows of `--what-if` for its second text, and of `compare` for its first one with longer cleaning.
fn what_if_and_compare(document: &str) {
    let texts = texts(document);
    let set_in = |lines: &str| {
        lines.trim_end().lines().map(|line| format!("    {line}").trim_end().to_string() + "\n").collect::<String>()
    };
    let out = ward(&["--what-if", "-"], &texts[1]).out;
    let table = out.rsplit("What if ").next().expect("a table");
    assert!(document.contains(&set_in(&format!("What if {table}"))), "{table}");
    let scratch = Scratch::new("guide");
    scratch.file("day.txt", &texts[0]);
    scratch.file(
        "other.txt",
        texts[0].replace("at least 35 after", "at least 50 after").replace("expect: least 10\n", ""),
    );
    let told = crate::told(crate::tool().current_dir(scratch.path("")).args(["compare", "day.txt", "other.txt"]));
    assert!(told.status == Some(0) && document.contains(&set_in(&told.out)), "{told:?}");
}

/// The parts of a document that show an answer: they start with what the checker says.
fn answers(document: &str) -> Vec<String> {
    let mut answers = Vec::new();
    let mut lines = document.lines().peekable();
    while let Some(line) = lines.next() {
        if !line.starts_with("    The checker, ") {
            continue;
        }
        let mut answer = format!("{}\n", &line[4..]);
        while let Some(line) = lines.next_if(|line| line.is_empty() || line.starts_with("    ")) {
            answer += line.strip_prefix("    ").unwrap_or("");
            answer.push('\n');
        }
        answers.push(answer.trim_end().to_string());
    }
    answers
}

/// What README shows of its first command is what that command prints, line by line to the last, up to the times of the plan, which
/// are the engine's to choose; and every moment has its row in the plan and in the timeline.
#[test]
fn readme_shows_what_its_first_command_prints() {
    let readme = fs::read_to_string(repository().join("README.md")).expect("README");
    let told = ward(&["examples/problems/bed-transfer.txt"], "");
    let first =
        |line: &&str| line.strip_prefix("    ").is_none_or(|line| line.is_empty() || !told.out.starts_with(line));
    let block = readme.lines().skip_while(first).take_while(|line| line.is_empty() || line.starts_with("    "));
    let shown: Vec<&str> = block.map(|line| line.strip_prefix("    ").unwrap_or(line)).collect();
    assert!(shown.len() > 30, "the first line that it prints");
    let lines = |line: &&str| !line.is_empty();
    assert_eq!(shown.iter().copied().filter(lines).count(), told.out.lines().filter(lines).count(), "as many lines");
    for (line, printed) in shown.iter().copied().filter(lines).zip(told.out.lines().filter(lines)) {
        assert!(line == printed || line.starts_with("  "), "{line}\n{printed}");
    }
    let (readme, out) = (shown.join("\n"), told.out);
    for name in ["ready", "vacated", "cleaned", "ambulance", "departure", "arrival", "handover", "nurse", "escort"] {
        assert!(
            readme.matches(&format!(" {name} ")).count() >= 2 && out.matches(&format!(" {name} ")).count() >= 2,
            "{name}"
        );
    }
    for part in ["says: accepted least 13", "● planned", "├"] {
        assert!(readme.contains(part) && out.contains(part), "{part}");
    }
}
