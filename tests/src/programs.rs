//! The programs, run on standard input, the census program with words. SPAN_PROGRAM, VERDICT_PROGRAM, CONVERT_PROGRAM, REASONS_PROGRAM and
//! CENSUS_PROGRAM name them; else they are span, verdict, convert, reasons and census below crates/ of the repository, as `tools/build` leaves them. On the stand-in the program of this
//! package acts as each. Places are looked up when it runs: a copied tree is tried with its own programs.

use std::io::{Read, Write};
use std::path::PathBuf;
use std::process::{Command, Stdio};
use std::time::Duration;

/// The repository: above the package's folder, which cargo names when it runs this program; else the current folder.
pub fn repository() -> PathBuf {
    std::env::var_os("CARGO_MANIFEST_DIR").map_or_else(|| ".".into(), |package| PathBuf::from(package).join(".."))
}

/// The program of this package. Cargo puts tests into a folder beside it.
fn own() -> PathBuf {
    let running = std::env::current_exe().expect("this program's own path");
    match running.parent() {
        Some(folder) if folder.ends_with("deps") => folder.with_file_name("outside"),
        _ => running,
    }
}

/// The command of a program: its name is `span`, `verdict`, `convert`, `reasons` or `census`.
fn command(name: &str, variable: &str) -> Command {
    if let Some(path) = std::env::var_os(variable) {
        return Command::new(path);
    }
    if cfg!(feature = "stand-in") {
        let mut command = Command::new(own());
        command.arg(format!("act-as-{name}"));
        return command;
    }
    Command::new(repository().join("crates").join(name).join("out").join(name))
}

/// What a program writes on an input; a message where it cannot be run or ends badly.
fn run(command: Command, input: &[u8]) -> Result<Vec<u8>, String> {
    run_in_pieces(command, &[input], Duration::ZERO)
}

/// The same on an input that comes in pieces, with a pause behind each but the last.
fn run_in_pieces(mut command: Command, pieces: &[&[u8]], pause: Duration) -> Result<Vec<u8>, String> {
    let started = command.stdin(Stdio::piped()).stdout(Stdio::piped()).spawn();
    let mut child = started.map_err(|error| format!("{command:?} cannot be run: {error}"))?;
    let mut pipe = child.stdin.take().expect("a pipe to the program");
    // Output is short and comes after the input was read, so one after the other is enough. A program that leaves its
    // input unread breaks the pipe; what it wrote is compared all the same.
    for (number, piece) in pieces.iter().enumerate() {
        if number > 0 {
            std::thread::sleep(pause);
        }
        let _ = pipe.write_all(piece);
    }
    drop(pipe);
    let mut output = Vec::new();
    child
        .stdout
        .take()
        .expect("a pipe from the program")
        .read_to_end(&mut output)
        .map_err(|error| error.to_string())?;
    let status = child.wait().map_err(|error| error.to_string())?;
    if status.success() {
        Ok(output)
    } else {
        Err(format!("{command:?} ended with {status}"))
    }
}

/// What a program writes on standard output and on standard error.
pub type Written = (Vec<u8>, Vec<u8>);

/// What a program writes with this standard input and these words of the shell behind its name.
fn run_with(name: &str, variable: &str, input: Stdio, redirect: &str) -> Result<Written, String> {
    let program = command(name, variable);
    let mut shell = Command::new("sh");
    shell.arg("-c").arg(format!("exec \"$0\" \"$@\" {redirect}")).arg(program.get_program()).args(program.get_args());
    let ended = shell.stdin(input).stderr(Stdio::piped()).stdout(Stdio::piped()).output();
    ended.map(|output| (output.stdout, output.stderr)).map_err(|error| format!("{name} cannot be run: {error}"))
}

/// Both programs in turn, by their names.
pub fn both_with(input: impl Fn() -> Stdio, redirect: &str) -> Result<[Written; 2], String> {
    Ok([
        run_with("span", "SPAN_PROGRAM", input(), redirect)?,
        run_with("verdict", "VERDICT_PROGRAM", input(), redirect)?,
    ])
}

/// The programs that read standard input, with the variables that name them.
pub const READERS: [(&str, &str); 4] = [
    ("span", "SPAN_PROGRAM"),
    ("verdict", "VERDICT_PROGRAM"),
    ("convert", "CONVERT_PROGRAM"),
    ("reasons", "REASONS_PROGRAM"),
];

/// What one of them writes on an input in pieces.
pub fn in_pieces((name, variable): (&str, &str), pieces: &[&[u8]], pause: Duration) -> Result<Vec<u8>, String> {
    run_in_pieces(command(name, variable), pieces, pause)
}

pub fn span(input: &[u8]) -> Result<Vec<u8>, String> {
    run(command("span", "SPAN_PROGRAM"), input)
}

pub fn verdict(input: &[u8]) -> Result<Vec<u8>, String> {
    run(command("verdict", "VERDICT_PROGRAM"), input)
}

pub fn convert(input: &[u8]) -> Result<Vec<u8>, String> {
    run(command("convert", "CONVERT_PROGRAM"), input)
}

/// What the census program writes with these words behind its name.
pub fn census(words: &[&str]) -> Result<Written, String> {
    let mut program = command("census", "CENSUS_PROGRAM");
    let ended = program.args(words).stdin(Stdio::null()).output();
    let output = ended.map_err(|error| format!("{program:?} cannot be run: {error}"))?;
    if output.status.success() {
        Ok((output.stdout, output.stderr))
    } else {
        Err(format!("{program:?} ended with {}", output.status))
    }
}

pub fn reasons(input: &[u8]) -> Result<Vec<u8>, String> {
    run(command("reasons", "REASONS_PROGRAM"), input)
}

/// Acts as one of the programs where the words say so and the stand-in is built in; true where it did.
#[cfg(feature = "stand-in")]
pub fn acted_as_a_program(words: &[String]) -> bool {
    let name = words.first().map_or("", |word| word.as_str());
    if name == "act-as-census" {
        let (output, error) = reference::programs::census(&words[1..]);
        print!("{output}");
        eprint!("{error}");
        return true;
    }
    let program: fn(&[u8]) -> Vec<u8> = match name {
        "act-as-span" => reference::programs::span,
        "act-as-verdict" => reference::programs::verdict,
        "act-as-convert" => reference::programs::convert,
        "act-as-reasons" => reference::programs::reasons,
        _ => return false,
    };
    let mut input = Vec::new();
    std::io::stdin().read_to_end(&mut input).expect("standard input");
    let output = program(&input);
    let mut pipe = std::io::stdout();
    pipe.write_all(&output).and_then(|()| pipe.flush()).expect("standard output");
    true
}

#[cfg(not(feature = "stand-in"))]
pub fn acted_as_a_program(_words: &[String]) -> bool {
    false
}
