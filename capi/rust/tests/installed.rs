//! What tools/install puts into a folder is enough for a program in C or C++, by the flags of its span.pc, also where the folder has a space or was moved.

mod compiled;

use compiled::{archive, languages, printed, ran, Built};
use std::fs;
use std::path::{Path, PathBuf};
use std::process::Command;

/// A folder with a space, for one test.
fn scratch(name: &str) -> PathBuf {
    std::env::temp_dir().join(format!("span {name} {}", std::process::id()))
}

/// The flags that pkg-config reads from a span.pc, as the shell takes them; or, where it is not there, those that it would.
fn flags(folder: &Path) -> Vec<String> {
    let there = Command::new("pkg-config").arg("--version").output().is_ok();
    if !there {
        let (include, library) = (folder.join("include"), folder.join("lib"));
        let rpath = format!("-Wl,-rpath,{}", library.display());
        return [format!("-I{}", include.display()), format!("-L{}", library.display()), "-lspan".into(), rpath].into();
    }
    let asked = r#"eval "printf '%s\n' $(pkg-config --cflags --libs span)""#;
    let mut shell = Command::new("sh");
    shell.args(["-c", asked]).env("PKG_CONFIG_PATH", folder.join("lib/pkgconfig"));
    ran(&mut shell).lines().map(str::to_string).collect()
}

fn install() -> Command {
    let mut install = Command::new("../../tools/install");
    install.arg("--library");
    install
}

/// The day, built in every language with a prefix.
fn try_prefix(prefix: &Path) {
    for (source, kind) in [("ward_day.c", "c"), ("ward_day.c", "c++"), ("ward_day.cpp", "c++")] {
        let example = prefix.join("share/doc/span/examples").join(source);
        for language in languages().into_iter().filter(|language| language[3] == kind) {
            assert_eq!(Built::new(&example, language, &flags(prefix)).ran(&[]), printed(Path::new("../ward_day.c")));
        }
    }
}

#[test]
fn an_installed_library_serves_c_and_c_plus_plus() {
    let (folder, other) = (scratch("installed"), scratch("moved"));
    let told = ran(install().arg(&folder));
    assert!(told.contains("export PKG_CONFIG_PATH="), "{told}");
    try_prefix(&folder);
    fs::rename(&folder, &other).expect("a folder that can be moved");
    try_prefix(&other);
    let installed = fs::read(other.join("lib/libspan.a")).expect("the installed archive");
    assert!(installed == fs::read(archive()).expect("the archive"));
    let _ = fs::remove_dir_all(&other);
}

/// The shared library exports the functions of the header, and nothing else.
#[test]
fn the_shared_library_exports_the_entries_alone() {
    let folder = scratch("exports");
    ran(install().arg(&folder));
    let library = folder.join("lib/libspan.so.4.2");
    let exported = ran(Command::new("nm").args(["-D", "--defined-only"]).arg(&library));
    let names = exported.lines().filter_map(|line| line.split_once(" T ")).map(|parts| parts.1);
    let names: Vec<&str> = names.map(|name| name.split('@').next().unwrap_or(name)).collect();
    let header = fs::read_to_string("../span.h").expect("the header");
    let declared =
        header.lines().filter_map(|line| line.strip_prefix("uint64_t ")?.split_once('(')).map(|parts| parts.0);
    let mut declared: Vec<&str> = declared.collect();
    declared.sort();
    assert_eq!(names, declared, "{exported}");
    let dynamic = ran(Command::new("readelf").arg("-d").arg(&library));
    assert!(dynamic.contains("Library soname: [libspan.so.4.2]"), "{dynamic}");
    let _ = fs::remove_dir_all(&folder);
}

/// An archive that lacks a function of the header is not installed, and neither is one of another release.
#[test]
fn an_archive_of_other_headers_is_refused() {
    let folder = scratch("refused");
    fs::create_dir_all(folder.join("archive")).expect("a folder for a test");
    let mut bytes = fs::read(archive()).expect("the archive");
    let name = b"span_release_4_2";
    let places: Vec<usize> = (0..bytes.len() - name.len()).filter(|&at| bytes[at..].starts_with(name)).collect();
    places.iter().for_each(|&at| bytes[at + name.len() - 1] = b'1');
    fs::write(folder.join("archive/libcapi.a"), bytes).expect("an archive for a test");
    let mut wrong = install();
    let output = wrong.arg(folder.join("prefix")).env("SPAN_ARCHIVE_FOLDER", folder.join("archive")).output();
    let output = output.expect("the script runs");
    let errors = String::from_utf8_lossy(&output.stderr);
    assert!(!output.status.success() && errors.contains("was not built from the headers beside it"), "{errors}");
    assert!(errors.contains("span_release_4_2") && !folder.join("prefix").exists(), "{errors}");
    let _ = fs::remove_dir_all(&folder);
}

#[test]
fn the_words_of_the_script_are_told() {
    let help = ran(Command::new("../../tools/install").arg("--help"));
    assert!(help.starts_with("Installs") && help.contains("--library"), "{help}");
    for words in [&[][..], &["a", "b"], &["--nothing", "a"], &["--libdir"]] {
        let output = Command::new("../../tools/install").args(words).output().expect("the script runs");
        assert!(
            !output.status.success() && String::from_utf8_lossy(&output.stderr).starts_with("install: "),
            "{words:?}"
        );
    }
}
