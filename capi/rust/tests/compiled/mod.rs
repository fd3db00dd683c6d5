//! Programs in C, built by the tests as C11 and as C++17 without a warning.

use std::path::{Path, PathBuf};
use std::process::Command;
use std::sync::atomic::{AtomicU32, Ordering};

/// A compiler with its language.
pub type Language = [&'static str; 4];

/// The warnings that C and C++ must not have; the last is one of C++ alone.
const WARNINGS: [&str; 6] = ["-Wall", "-Wextra", "-Wpedantic", "-Wconversion", "-Werror", "-Wold-style-cast"];

/// The compilers that are there, each with its language. gcc must be; clang may be missing, which the gate counts.
pub fn languages() -> Vec<Language> {
    let wanted = [
        ["cc", "-std=c11", "-x", "c"],
        ["c++", "-std=c++17", "-x", "c++"],
        ["clang", "-std=c11", "-x", "c"],
        ["clang++", "-std=c++17", "-x", "c++"],
    ];
    let there = |name: &str| !name.starts_with("clang") || Command::new(name).arg("--version").output().is_ok();
    wanted.into_iter().filter(|language| there(language[0])).collect()
}

/// The archive that the package links.
#[allow(dead_code)]
pub fn archive() -> PathBuf {
    std::env::var_os("SPAN_ARCHIVE_FOLDER").map_or("../../crates/capi/out".into(), PathBuf::from).join("libcapi.a")
}

/// What a command prints; it must end well.
pub fn ran(command: &mut Command) -> String {
    let output = command.output().unwrap_or_else(|error| panic!("{command:?}: {error}"));
    assert!(output.status.success(), "{command:?}: {}", String::from_utf8_lossy(&output.stderr));
    String::from_utf8_lossy(&output.stdout).into_owned()
}

/// A program, removed at its end.
pub struct Built(PathBuf);

impl Built {
    /// A source in one of the languages, with flags of the linker behind it.
    pub fn new(source: &Path, language: Language, flags: &[String]) -> Built {
        static NUMBER: AtomicU32 = AtomicU32::new(0);
        let number = NUMBER.fetch_add(1, Ordering::Relaxed);
        let built = std::env::temp_dir().join(format!("span-c-{}-{number}", std::process::id()));
        let mut build = Command::new(language[0]);
        let warnings = if language[3] == "c" { &WARNINGS[..5] } else { &WARNINGS[..] };
        build.args(&language[1..]).args(warnings);
        ran(build.arg(source).args(["-x", "none", "-o"]).arg(&built).args(flags));
        Built(built)
    }

    pub fn ran(&self, words: &[&str]) -> String {
        ran(Command::new(&self.0).args(words))
    }
}

impl Drop for Built {
    fn drop(&mut self) {
        let _ = std::fs::remove_file(&self.0);
    }
}

/// The lines that an example prints by its first comment: those after its line `prints`, up to its end.
#[allow(dead_code)]
pub fn printed(source: &Path) -> String {
    let text = std::fs::read_to_string(source).expect("the example's source");
    let lines = text.lines().skip_while(|line| *line != " * prints").skip(2);
    lines.map_while(|line| line.strip_prefix(" *     ")).map(|line| format!("{line}\n")).collect()
}
