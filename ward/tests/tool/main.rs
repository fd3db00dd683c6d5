//! The tool from outside, as a ward scheduler and a system administrator call it. Some tests run the programs of the
//! repository beside it: `tools/build span verdict` builds them.

mod answers;
mod chosen;
mod claims;
mod compared;
mod costs;
mod damaged;
mod examples;
mod forms;
mod line;
mod mistakes;
mod opening;
mod outputs;
mod programs;
mod random_texts;
mod run;
mod said;
mod schema;
mod scratch;
mod second;
mod slack;
mod stays;
mod suspended;
#[allow(dead_code)]
#[path = "../../src/value.rs"]
mod value;

use std::io::Write;
use std::path::{Path, PathBuf};
use std::process::{Command, Stdio};

/// The repository; cargo runs tests in the package's folder.
fn repository() -> PathBuf {
    Path::new("..").canonicalize().expect("the repository's folder")
}

/// What the tool said.
#[derive(Debug)]
struct Told {
    status: Option<i32>,
    out: String,
    err: String,
}

/// The tool, called in the repository.
fn tool() -> Command {
    let mut command = Command::new(env!("CARGO_BIN_EXE_ward"));
    command.current_dir(repository()).env("LC_ALL", "C.UTF-8").env_remove("COLUMNS");
    command
}

fn told(command: &mut Command) -> Told {
    let output = command.output().unwrap_or_else(|error| panic!("{command:?}: {error}"));
    let text = |bytes: &[u8]| String::from_utf8_lossy(bytes).into_owned();
    Told { status: output.status.code(), out: text(&output.stdout), err: text(&output.stderr) }
}

/// The tool with these words, and with this on its standard input.
fn ward(words: &[&str], input: impl AsRef<[u8]>) -> Told {
    let mut command = tool();
    command.args(words).stdin(Stdio::piped()).stdout(Stdio::piped()).stderr(Stdio::piped());
    let mut child = command.spawn().expect("the tool");
    let _ = child.stdin.take().expect("a pipe to the tool").write_all(input.as_ref());
    let output = child.wait_with_output().expect("the tool's output");
    let text = |bytes: &[u8]| String::from_utf8_lossy(bytes).into_owned();
    Told { status: output.status.code(), out: text(&output.stdout), err: text(&output.stderr) }
}

/// The tool on a text that it answers well; its output.
fn answered(text: &str) -> String {
    let told = ward(&["-"], text);
    assert_eq!((told.status, told.err.as_str()), (Some(0), ""), "{text}\n{told:?}");
    told.out
}

/// Document 01's example E: the bed is cleaned 30 minutes after the anchor at the earliest.
const E: &str = "moments: bed\nanchor + 30 <= bed\nspan: from anchor to bed\n";
