//! `examples/run`: it reads the text before anything is built, uses what is built, and runs the tool of its own tree.

use std::path::{Path, PathBuf};
use std::process::Command;

use crate::scratch::Scratch;
use crate::{repository, told, Told, E};

/// A tree with `examples/run`, and programs `rt` and `cargo` that write down how they are called.
fn tree(name: &str) -> Scratch {
    let scratch = Scratch::new(name);
    let run = std::fs::read_to_string(repository().join("examples/run")).expect("the script");
    scratch.program("tree/examples/run", run.split_once('\n').expect("lines").1);
    let script = repository().join("examples/run");
    std::fs::copy(script, scratch.path("tree/examples/run")).expect("a copy");
    std::fs::create_dir_all(scratch.path("tree/crates/capi")).expect("the archive's crate");
    scratch.program("bin/rt", "echo \"rt $* in ${PWD##*/}\" >> \"$CALLS\"; mkdir -p out; : > out/libcapi.a");
    // The reader is the real one; the tool only says that it was called.
    let reader = reader();
    let lines = format!(
        "echo \"cargo $*\" >> \"$CALLS\"\ncase \"$*\" in *ward-reader*) for last; do :; done; exec {} \"$last\" ;; esac",
        reader.display()
    );
    scratch.program("bin/cargo", &lines);
    scratch
}

/// The program of the reader's package, which cargo does not build for the tests of this one.
fn reader() -> PathBuf {
    let folder = Path::new(env!("CARGO_BIN_EXE_ward")).parent().expect("the folder of programs");
    let mut build = Command::new(env!("CARGO"));
    build.args(["build", "--offline", "--quiet", "-p", "ward-reader", "--manifest-path", "Cargo.toml", "--target-dir"]);
    build.arg(folder.parent().expect("cargo's folder")).args(folder.ends_with("release").then_some("--release"));
    let built = told(&mut build);
    assert_eq!(built.status, Some(0), "{built:?}");
    folder.join("ward-reader")
}

fn run(scratch: &Scratch, words: &[&str]) -> (Told, Vec<String>) {
    let calls = scratch.file("calls", "");
    let path = std::env::var_os("PATH").expect("a path of programs");
    let folders = [scratch.path("bin")].into_iter().chain(std::env::split_paths(&path));
    let mut command = Command::new(scratch.path("tree/examples/run"));
    command.args(words).current_dir(scratch.path("")).env("CALLS", &calls);
    command.env("PATH", std::env::join_paths(folders).expect("a path of programs"));
    let told = told(&mut command);
    let calls = std::fs::read_to_string(calls).expect("calls").lines().map(String::from).collect();
    (told, calls)
}

#[test]
fn the_text_is_read_before_anything_is_built() {
    let scratch = tree("before");
    scratch.file("bad.txt", "moments: a\na <= b\nspan: from a to a\n");
    scratch.file("good.txt", E);
    let (told, calls) = run(&scratch, &["bad.txt"]);
    assert_eq!(told.status, Some(1), "{told:?}");
    assert!(told.err.starts_with("bad.txt:2:6: mistake: no moment is called 'b'"), "{told:?}");
    assert!(calls.iter().all(|call| !call.starts_with("rt ")) && calls.len() == 1, "{calls:?}");

    let (told, calls) = run(&scratch, &["--json", "good.txt"]);
    assert_eq!(told.status, Some(0), "{told:?}");
    let tree = scratch.path("tree").canonicalize().expect("the tree");
    assert!(calls[0].contains("-p ward-reader -- good.txt"), "{calls:?}");
    assert_eq!(calls[1], "rt lib in capi");
    assert!(
        calls[2].contains(&format!("{}/Cargo.toml", tree.display()))
            && calls[2].ends_with("-p ward -- --json good.txt"),
        "{calls:?}"
    );
}

#[test]
fn what_is_built_is_not_proved_again() {
    let scratch = tree("built");
    scratch.file("good.txt", E);
    scratch.file("tree/crates/capi/out/libcapi.a", "");
    let (told, calls) = run(&scratch, &["good.txt"]);
    assert_eq!((told.status, told.err.as_str()), (Some(0), ""), "{told:?}");
    assert!(calls.len() == 1 && calls[0].ends_with("-p ward -- good.txt"), "{calls:?}");
    let (_, calls) = run(&scratch, &[]);
    assert!(calls[0].ends_with("-- examples/problems/bed-transfer.txt"), "{calls:?}");
}
