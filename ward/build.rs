//! Names the commit that the tool is built from, for `ward --version`: SPAN_COMMIT, or what git says of this folder.

use std::process::Command;

fn main() {
    println!("cargo:rerun-if-env-changed=SPAN_COMMIT");
    println!("cargo:rerun-if-changed=build.rs");
    if let Some(log) = git(&["rev-parse", "--git-path", "logs/HEAD"]) {
        println!("cargo:rerun-if-changed={log}");
    }
    let named = std::env::var("SPAN_COMMIT").ok().or_else(|| git(&["rev-parse", "HEAD"]));
    println!("cargo:rustc-env=WARD_COMMIT={}", named.unwrap_or_else(|| "unknown".into()));
}

/// What git answers, where it is there and this is a repository.
fn git(words: &[&str]) -> Option<String> {
    let output = Command::new("git").args(words).output().ok().filter(|output| output.status.success())?;
    Some(String::from_utf8_lossy(&output.stdout).trim().to_string())
}
