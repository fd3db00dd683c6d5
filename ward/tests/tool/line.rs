//! The command line: words, statuses, several files, and outputs that fail.

use std::fs::{File, OpenOptions};
use std::process::Stdio;

use crate::scratch::Scratch;
use crate::{told, tool, ward, E};

#[test]
fn help_and_version_are_told() {
    let help = ward(&["--help"], "");
    assert_eq!((help.status, help.err.as_str()), (Some(0), ""), "{help:?}");
    for word in ["ward FILE..", "check", "judge", "record", "text", "--json", "--csv", "--html", "Statuses"] {
        assert!(help.out.contains(word), "{word}: {help:?}");
    }
    let version = ward(&["-V"], "");
    assert!(version.status == Some(0) && version.out.starts_with("ward 4.2.0\ncommit "), "{}", version.out);
}

#[test]
fn other_words_have_a_status_of_their_own() {
    for words in [&[][..], &["judge", "a"], &["--jsn", "a"], &["check"], &["record", "a", "b"]] {
        let told = ward(words, "");
        assert_eq!((told.status, told.out.as_str()), (Some(2), ""), "{told:?}");
        assert!(told.err.starts_with("ward: ") && told.err.contains("`ward --help`"), "{told:?}");
    }
}

#[test]
fn check_reads_and_solves_nothing() {
    let told = ward(&["check", "-"], E);
    assert_eq!(told.status, Some(0), "{told:?}");
    assert_eq!(told.out, "standard input: no mistake; 1 moment beside the anchor, 1 rule, 1 span\n");
    // What would be answered otherwise than expected is not seen.
    assert_eq!(ward(&["check", "-"], format!("{E}expect: none\n")).status, Some(0));
}

#[test]
fn several_files_are_answered_with_progress() {
    let scratch = Scratch::new("several");
    let good = scratch.file("good.txt", E);
    let bad = scratch.file("bad.txt", "moments: a\na <= b\n");
    let other = scratch.file("other.txt", format!("{E}expect: none\n"));
    let run = |files: &[&std::path::PathBuf]| told(tool().arg("--progress").args(files));
    let all = run(&[&good, &bad, &other]);
    assert_eq!(all.status, Some(1), "{all:?}");
    for part in ["[1/3] ", "good.txt: accepted least 30\n", "[2/3] ", "bad.txt: 2 mistakes\n", "[3/3] "] {
        assert!(all.err.contains(part), "{part}: {all:?}");
    }
    assert_eq!(all.out.matches("accepted least 30").count(), 2, "{all:?}");
    assert_eq!(run(&[&good, &other]).status, Some(4));
    assert_eq!(run(&[&good, &good]).status, Some(0));
    // Nobody at the terminal: no progress unless it is asked for.
    assert_eq!(told(tool().args([&good, &good])).err, "");
}

#[test]
fn files_that_cannot_be_read_are_told() {
    for path in ["nowhere.txt", "/"] {
        let told = ward(&[path], "");
        assert_eq!((told.status, told.out.as_str()), (Some(1), ""), "{told:?}");
        assert!(told.err.starts_with(path), "{told:?}");
    }
    let endless = ward(&["/dev/zero"], "");
    assert!(endless.status == Some(1) && endless.err.contains("more than 1,000,000 bytes"), "{endless:?}");
}

/// A text that is read is not written over, by whichever path.
#[test]
fn the_output_is_none_of_the_files_that_are_read() {
    let scratch = Scratch::new("over");
    let text = scratch.file("e.txt", E);
    let around = text.parent().expect("a folder").join("./e.txt");
    for output in [&text, &around] {
        let told = told(tool().arg("--html").arg(&text).arg("-o").arg(output));
        assert_eq!((told.status, told.out.as_str()), (Some(2), ""), "{told:?}");
        assert!(told.err.contains("would be written over"), "{told:?}");
        assert_eq!(std::fs::read_to_string(&text).expect("the text"), E);
    }
    let told = ward(&["-", "-o", "/dev/null"], E);
    assert_eq!(told.status, Some(0), "{told:?}");
}

/// A closed pipe and a full device end the tool without a panic.
#[test]
fn outputs_that_fail_are_no_panic() {
    for words in [&["--help"][..], &["-"], &["--json", "-"], &["--html", "-"], &["check", "-"], &["record", "-"]] {
        let scratch = Scratch::new("full");
        let text = scratch.file("e.txt", E);
        let input = || Stdio::from(File::open(&text).expect("the text"));
        let full = OpenOptions::new().write(true).open("/dev/full").expect("a full device");
        let full = told_to(tool().args(words).stdin(input()), full.into());
        assert_eq!(full.0, Some(5), "{words:?} {full:?}");
        assert!(full.1.contains("the output cannot be written") && !full.1.contains("panic"), "{words:?} {full:?}");
        let (reader, writer) = std::io::pipe().expect("a pipe");
        drop(reader);
        let closed = told_to(tool().args(words).stdin(input()), writer.into());
        assert_eq!((closed.0, closed.1.as_str()), (Some(5), ""), "{words:?}");
    }
    let told = ward(&["-", "-o", "/dev/full"], E);
    assert!(told.status == Some(5) && !told.err.contains("panic"), "{told:?}");
    let told = ward(&["-", "-o", "/nowhere/x"], E);
    assert!(told.status == Some(5) && !told.err.contains("panic"), "{told:?}");
}

/// Standard error that is full or closed keeps nothing from the status.
#[test]
fn a_failing_standard_error_is_no_panic() {
    for file in ["/dev/full", "/dev/null"] {
        let full = OpenOptions::new().write(true).open(file).expect("a device");
        let status = tool().arg("nowhere.txt").stderr(full).stdout(Stdio::null()).status().expect("the tool");
        assert_eq!(status.code(), Some(1));
    }
}

/// Status and standard error of a command with this standard output.
fn told_to(command: &mut std::process::Command, out: Stdio) -> (Option<i32>, String) {
    let output =
        command.stdout(out).stderr(Stdio::piped()).spawn().expect("the tool").wait_with_output().expect("its output");
    (output.status.code(), String::from_utf8_lossy(&output.stderr).into_owned())
}

#[test]
fn records_become_texts() {
    let told = ward(&["text", "-"], "0E000000 0100 0000 0000 05000000 02000000");
    assert_eq!((told.status, told.out.as_str()), (Some(0), "span: from anchor + 2 to anchor + 5\n"), "{told:?}");
    let told = ward(&["text", "-"], [14, 0, 0, 0, 1, 0, 0, 0, 0, 0, 5, 0, 0, 0, 2, 0, 0, 0]);
    assert_eq!(told.out, "span: from anchor + 2 to anchor + 5\n", "{told:?}");
    for (record, number) in [
        ("0E000000 0100", 1),
        ("0F000000 0100 0000 0000 05000000 02000000", 2),
        ("0E000000 0900 0000 0000 05000000 02000000", 3),
        ("16000000 0100 0000 0100 00000080 07000000 05000000 02000000", 17),
    ] {
        let told = ward(&["text", "-"], record);
        assert_eq!((told.status, told.out.as_str()), (Some(1), ""), "{told:?}");
        assert!(told.err.contains(&format!("refused {number}")) && !told.err.contains("No refusal"), "{told:?}");
    }
}
