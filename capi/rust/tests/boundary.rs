//! What capi/span.h says of its functions beside their results: the release, NULL, a desk that moves, the stack; and that it has the archive's functions.

mod compiled;

use compiled::{archive, languages, ran, Built};
use std::collections::BTreeMap;
use std::fs;
use std::path::Path;
use std::process::Command;

fn header() -> String {
    fs::read_to_string("../span.h").expect("the header")
}

fn flags() -> Vec<String> {
    ["-I..".into(), archive().display().to_string(), "-pthread".into()].into()
}

#[test]
fn the_header_keeps_its_word() {
    for language in languages() {
        assert_eq!(Built::new(Path::new("tests/boundary.c"), language, &flags()).ran(&[]), "");
    }
}

/// The words of refusals in C are those of this package.
#[test]
fn refusals_have_one_wording() {
    let built = Built::new(Path::new("tests/boundary.c"), languages()[0], &flags());
    let shown = built.ran(&["reasons"]);
    let reasons: Vec<&str> = shown.lines().collect();
    assert_eq!(reasons.len(), 30);
    assert_eq!((reasons[0], reasons[28]), ("no refusal", "no refusal has this number"));
    for number in 1..28u8 {
        assert_eq!(reasons[usize::from(number)], span::Refusal { number }.reason());
    }
}

/// Each number of the header's table is at least what the entry takes, and each ran on a thread of SPAN_STACK bytes.
#[test]
fn the_stack_is_as_told() {
    let header = header();
    let from = header.find("No theorem is about the stack").expect("the table of stacks");
    let table = header[from..].split("A test runs").next().expect("its end");
    let words: Vec<&str> = table.split([' ', ',', '.', '\n', '*']).filter(|word| !word.is_empty()).collect();
    let told: BTreeMap<&str, usize> = words
        .windows(2)
        .filter(|pair| pair[0].starts_with("span_"))
        .filter_map(|pair| Some((pair[0], pair[1].parse().ok()?)))
        .collect();
    let built = Built::new(Path::new("../../benches/stack.c"), ["cc", "-std=gnu11", "-x", "c"], &flags());
    let shown = built.ran(&[]);
    let mut tried = 0;
    for line in shown.lines().filter(|line| line.starts_with("span_")) {
        let (name, bytes) = line.split_once(' ').expect("a name and a number");
        let bytes: usize = bytes.trim().parse().expect("a number");
        assert!(told.get(name).is_some_and(|&most| bytes <= 1024 * most), "{line}: {told:?}");
        tried += 1;
    }
    assert!(tried >= told.len() && told.len() == declared(&header).len(), "{shown}");
    assert!(shown.ends_with("each ran on a thread of 131072\n"), "{shown}");
}

/// The functions that the header declares and does not define.
fn declared(header: &str) -> Vec<String> {
    let starts = header.lines().filter_map(|line| line.strip_prefix("uint64_t span_"));
    let mut names: Vec<String> = starts.filter_map(|rest| Some(format!("span_{}", rest.split_once('(')?.0))).collect();
    names.sort();
    names
}

/// The header declares what the archive defines, and nothing else.
#[test]
fn the_archive_has_the_header_s_functions() {
    let shown = ran(Command::new("nm").args(["-g", "--defined-only"]).arg(archive()));
    let mut defined: Vec<String> =
        shown.lines().filter_map(|line| line.split_once(" T ").map(|parts| parts.1.to_string())).collect();
    defined.sort();
    assert_eq!(defined, declared(&header()));
}

/// A header of another release does not link, and the message names the release that is missing.
#[test]
fn another_release_does_not_link() {
    let folder = std::env::temp_dir().join(format!("span-release-{}", std::process::id()));
    fs::create_dir_all(&folder).expect("a folder for a test");
    fs::write(folder.join("span.h"), header().replace("span_release_4_2", "span_release_4_3")).expect("a header");
    fs::write(folder.join("day.c"), "#include \"span.h\"\nint main(void) { return 0; }\n").expect("a program");
    for compiler in ["cc", "c++"] {
        let mut build = Command::new(compiler);
        build.arg(folder.join("day.c")).arg(archive()).arg("-o").arg(folder.join("day"));
        let output = build.output().expect("a compiler");
        let errors = String::from_utf8_lossy(&output.stderr);
        assert!(!output.status.success() && errors.contains("span_release_4_3"), "{errors}");
    }
    let _ = fs::remove_dir_all(&folder);
}
