//! The examples in C and C++, built with the headers and the archive, print what their first comment says.

mod compiled;

use compiled::{archive, languages, printed, Built};
use std::fs;
use std::path::{Path, PathBuf};

fn flags() -> Vec<String> {
    ["-I..".into(), archive().display().to_string()].into()
}

fn try_example(source: &Path) {
    let expected = printed(source);
    assert!(!expected.is_empty(), "{}", source.display());
    for language in languages() {
        assert_eq!(Built::new(source, language, &flags()).ran(&[]), expected, "{}", source.display());
    }
}

#[test]
fn every_example_prints_what_it_says() {
    let files = fs::read_dir("..").expect("the folder above the package").map(|file| file.expect("a file").path());
    let sources: Vec<PathBuf> = files.filter(|path| path.extension().is_some_and(|end| end == "c")).collect();
    assert!(sources.len() >= 10, "{sources:?}");
    sources.iter().for_each(|source| try_example(source));
}

/// The day in C++ prints what the day in C does.
#[test]
fn the_day_in_c_plus_plus_is_the_same() {
    for language in languages().into_iter().filter(|language| language[3] == "c++") {
        let built = Built::new(Path::new("../ward_day.cpp"), language, &flags());
        assert_eq!(built.ran(&[]), printed(Path::new("../ward_day.c")));
    }
}

/// An example with one of its lines changed.
fn changed(name: &str, old: &str, new: &str) -> String {
    let text = fs::read_to_string(Path::new("..").join(name)).expect("the example's source");
    assert_eq!(text.matches(old).count(), 1, "{name}: {old}");
    let source = std::env::temp_dir().join(format!("span-changed-{}-{name}", std::process::id()));
    fs::write(&source, text.replace(old, new)).expect("a file for a test");
    let language = if name.ends_with("cpp") { languages()[1] } else { languages()[0] };
    let shown = Built::new(&source, language, &flags()).ran(&[]);
    let _ = fs::remove_file(&source);
    shown
}

/// No example prints a plan or a number that is not there.
#[test]
fn other_classes_are_told_as_such() {
    let (day, back) = ("&day, ARRIVAL, 0, READY, 0", "&day, READY, 0, ARRIVAL, 0");
    assert_eq!(changed("ward_day.c", day, back), "accepted bottomless\n");
    assert_eq!(changed("ward_day.cpp", day, back), "accepted bottomless\n");
    assert_eq!(
        changed("ward_day.c", "&day, READY, 0, DECISION, 50", "&day, CLEANED, 0, DECISION, 50"),
        "accepted none\n"
    );
    let question = "&problem, 1, 0, 0, 0";
    assert_eq!(
        changed("reasons.c", question, "&problem, 0, 0, 1, 0"),
        "bottomless\nno reasons: the answer is bottomless\n"
    );
    assert_eq!(changed("reasons.c", question, "&problem, 1, 0, 0, SPAN_BLANK"), "none\nrules\n");
    let least = "&problem, 0, 5, 0, 2";
    assert!(changed("example.c", least, "&problem, 0, SPAN_BLANK, 0, 2").ends_with("accepted bottomless\n"));
    assert!(changed("silent_rules.c", least, "&problem, 0, 5, 0, SPAN_BLANK").ends_with("answered: none\n"));
}
