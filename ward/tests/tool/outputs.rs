//! Where the output goes: a standard output that is closed, and the file of `-o`, which is replaced whole or stays as it was.

use std::fs;
use std::os::unix::fs::{symlink, MetadataExt, PermissionsExt};
use std::path::Path;
use std::process::Command;

use crate::scratch::Scratch;
use crate::{told, ward, Told, E};

/// The tool, called by a shell that does something before.
fn by_shell(before: &str, folder: &Path, words: &[&str]) -> Told {
    let mut shell = Command::new("sh");
    shell.args(["-c", before, "sh", env!("CARGO_BIN_EXE_ward")]).args(words);
    told(shell.current_dir(folder))
}

/// The names in a folder.
fn names(folder: &Path) -> Vec<String> {
    let files = fs::read_dir(folder).expect("a folder").map(|file| file.expect("a file").file_name());
    let mut names: Vec<String> = files.map(|name| name.to_string_lossy().into_owned()).collect();
    names.sort();
    names
}

/// What cannot be written is told as of a full device, also where standard input is closed too.
#[test]
fn a_closed_standard_output_is_told() {
    let scratch = Scratch::new("closed");
    scratch.file("e.txt", E);
    scratch.file("record", ward(&["record", "-"], E).out);
    let json = ward(&["--json", "-"], E).out;
    let answer = json.split("\"answer\": \"").nth(1).and_then(|rest| rest.split('"').next());
    scratch.file("answer", answer.expect("an answer"));
    for words in [
        &["--help"][..],
        &["--version"],
        &["e.txt"],
        &["--json", "e.txt"],
        &["--csv", "e.txt"],
        &["--html", "e.txt"],
        &["check", "e.txt"],
        &["check", "--json", "e.txt"],
        &["judge", "e.txt", "answer"],
        &["record", "e.txt"],
        &["record", "--binary", "e.txt"],
        &["text", "record"],
        &["e.txt", "e.txt"],
        &["-o", "-", "e.txt"],
        &["-o", "/dev/stdout", "e.txt"],
    ] {
        assert_eq!(by_shell("exec \"$@\"", &scratch.path(""), words).status, Some(0), "{words:?}");
        for before in ["exec \"$@\" >&-", "exec \"$@\" <&- >&-"] {
            let closed = by_shell(before, &scratch.path(""), words);
            assert_eq!((closed.status, closed.out.as_str()), (Some(5), ""), "{words:?} {closed:?}");
            assert!(closed.err.starts_with("ward: the output cannot be written: "), "{words:?} {closed:?}");
            assert_eq!(closed.err.lines().count(), 1, "{words:?} {closed:?}");
        }
    }
    // One that is open for reading alone.
    let read = by_shell("exec \"$@\" 1< e.txt", &scratch.path(""), &["e.txt"]);
    assert!(read.status == Some(5) && read.err.contains("the output cannot be written"), "{read:?}");
    // Nothing is to be written there.
    let other = by_shell("exec \"$@\" >&-", &scratch.path(""), &["e.txt", "-o", "out"]);
    assert_eq!((other.status, other.err.as_str()), (Some(0), ""), "{other:?}");
    let mistake = by_shell("exec \"$@\" >&-", &scratch.path(""), &["nowhere.txt"]);
    assert_eq!(mistake.status, Some(1), "{mistake:?}");
}

/// Only an empty file is an idle day.
#[test]
fn a_closed_standard_input_is_no_idle_day() {
    let scratch = Scratch::new("no-input");
    let closed = by_shell("exec \"$@\" <&-", &scratch.path(""), &["-"]);
    assert_eq!((closed.status, closed.out.as_str()), (Some(1), ""), "{closed:?}");
    assert!(closed.err.starts_with("standard input: it is closed, or a folder"), "{closed:?}");
    assert_eq!(by_shell("exec \"$@\" < /dev/null", &scratch.path(""), &["-"]).status, Some(0));
}

/// A write that fails part of the way leaves the old file, and nothing new.
#[test]
fn a_file_is_replaced_whole_or_stays_as_it_was() {
    let scratch = Scratch::new("whole");
    let (folder, out) = (scratch.path(""), scratch.path("day.html"));
    scratch.file("e.txt", E);
    let words = ["--html", "e.txt", "-o", "day.html"];
    // No file can have more than 512 bytes, as on a disk that is nearly full.
    let full = "trap '' XFSZ; ulimit -f 1; exec \"$@\"";
    for old in [None, Some("the sheet of yesterday")] {
        let before = names(&folder);
        if let Some(old) = old {
            scratch.file("day.html", old);
        }
        let failed = by_shell(full, &folder, &words);
        assert_eq!((failed.status, failed.out.as_str()), (Some(5), ""), "{failed:?}");
        assert!(failed.err.starts_with("ward: the output cannot be written: "), "{failed:?}");
        assert_eq!(fs::read_to_string(&out).ok().as_deref(), old);
        assert_eq!(names(&folder).len(), before.len() + old.is_some() as usize, "{:?}", names(&folder));
    }
    fs::set_permissions(&out, fs::Permissions::from_mode(0o640)).expect("permissions");
    assert_eq!(by_shell("exec \"$@\"", &folder, &words).status, Some(0));
    assert!(fs::read_to_string(&out).expect("the sheet").ends_with("</html>\n"));
    assert_eq!(fs::metadata(&out).expect("the sheet").mode() & 0o7777, 0o640);
    assert_eq!(names(&folder), ["day.html", "e.txt"]);
}

/// A link stays one, and the file that it leads to is written, also where it is not there yet.
#[test]
fn links_are_followed() {
    let scratch = Scratch::new("links");
    scratch.file("e.txt", E);
    let old = scratch.file("far/old.csv", "old");
    symlink("far/old.csv", scratch.path("link")).expect("a link");
    symlink("link", scratch.path("second")).expect("a link");
    symlink("far/new.csv", scratch.path("dangling")).expect("a link");
    symlink("round", scratch.path("round")).expect("a link");
    for (link, file) in [("second", old), ("dangling", scratch.path("far/new.csv"))] {
        let done = by_shell("exec \"$@\"", &scratch.path(""), &["--csv", "e.txt", "-o", link]);
        assert_eq!((done.status, done.err.as_str()), (Some(0), ""), "{done:?}");
        assert!(fs::read_to_string(file).expect("the output").starts_with("file,span,"));
        assert!(fs::symlink_metadata(scratch.path(link)).expect("the link").is_symlink());
    }
    assert!(fs::symlink_metadata(scratch.path("link")).expect("the link").is_symlink());
    assert_eq!(names(&scratch.path("far")), ["new.csv", "old.csv"]);
    // A text that is read is seen behind a link too.
    symlink("e.txt", scratch.path("text")).expect("a link");
    for (output, status) in [("text", 2), ("round", 5), ("far", 5), ("new/", 5), ("far/x/y", 5)] {
        let refused = by_shell("exec \"$@\"", &scratch.path(""), &["--csv", "e.txt", "-o", output]);
        assert_eq!((refused.status, refused.out.as_str()), (Some(status), ""), "{output}: {refused:?}");
    }
    assert_eq!(fs::read_to_string(scratch.path("e.txt")).expect("the text"), E);
    assert_eq!(names(&scratch.path("")), ["dangling", "e.txt", "far", "link", "round", "second", "text"]);
}

/// A pipe and a device stay what they are, and so does the file that a standard output is.
#[test]
fn what_is_no_file_is_written_as_it_stands() {
    let scratch = Scratch::new("stands");
    scratch.file("e.txt", E);
    let alone = by_shell("exec \"$@\"", &scratch.path(""), &["--csv", "e.txt"]).out;
    let piped = "mkfifo pipe && { cat pipe & \"$@\" && wait && test -p pipe; }";
    let piped = by_shell(piped, &scratch.path(""), &["--csv", "e.txt", "-o", "pipe"]);
    assert_eq!((piped.status, &piped.out), (Some(0), &alone), "{piped:?}");
    for output in ["/dev/stdout", "/dev/fd/1", "/proc/self/fd/1"] {
        let words = ["--csv", "e.txt", "-o", output];
        let done = by_shell("exec \"$@\" | cat", &scratch.path(""), &words);
        assert_eq!((done.status, &done.out), (Some(0), &alone), "{done:?}");
        let file = scratch.file("out", "old");
        let before = fs::metadata(&file).expect("the file").ino();
        let done = by_shell("exec \"$@\" > out", &scratch.path(""), &words);
        assert_eq!((done.status, done.err.as_str()), (Some(0), ""), "{done:?}");
        assert_eq!(fs::read_to_string(&file).expect("the file"), alone);
        assert_eq!(fs::metadata(&file).expect("the file").ino(), before, "{output}");
    }
    for (output, status) in [("/dev/null", 0), ("/dev/full", 5)] {
        assert_eq!(by_shell("exec \"$@\"", &scratch.path(""), &["e.txt", "-o", output]).status, Some(status));
    }
    assert_eq!(names(&scratch.path("")), ["e.txt", "out", "pipe"]);
}

/// A sheet or a table that is there stays where the text has a mistake, or is not there; what programs read is written.
#[test]
fn a_good_sheet_is_not_replaced_by_a_mistake() {
    let scratch = Scratch::new("kept");
    scratch.file("e.txt", E);
    scratch.file("wrong.txt", E.replace("<=", "<"));
    let run = |words: &[&str]| by_shell("exec \"$@\"", &scratch.path(""), words);
    for form in ["--html", "--csv"] {
        assert_eq!(run(&[form, "e.txt", "-o", "day"]).status, Some(0));
        let good = fs::read_to_string(scratch.path("day")).expect("a file");
        for text in ["wrong.txt", "gone.txt"] {
            let told = run(&[form, text, "-o", "day"]);
            assert_eq!(told.status, Some(1), "{told:?}");
            assert!(told.err.contains("ward: 'day' stays as it was"), "{told:?}");
            assert_eq!(fs::read_to_string(scratch.path("day")).expect("a file"), good);
        }
    }
    assert_eq!(run(&["--html", "wrong.txt", "-o", "new"]).status, Some(1));
    assert!(fs::read_to_string(scratch.path("new")).expect("a file").contains("mistake"));
    assert_eq!(run(&["--json", "wrong.txt", "-o", "day"]).status, Some(1));
    assert!(fs::read_to_string(scratch.path("day")).expect("a file").starts_with('{'));
}
