//! The tool's answers and verdicts are those of the programs of the repository, byte for byte.

use std::io::Write;
use std::process::{Command, Stdio};

use random::Random;
use ward_reader::record;

use crate::random_texts::{clock, text};
use crate::{repository, ward};

/// What a program of the repository puts out.
fn program(name: &str, input: &[u8]) -> Vec<u8> {
    let path = repository().join("crates").join(name).join("out").join(name);
    let mut child = Command::new(&path)
        .stdin(Stdio::piped())
        .stdout(Stdio::piped())
        .spawn()
        .unwrap_or_else(|error| panic!("{}: {error}; `tools/build span verdict` builds it", path.display()));
    child.stdin.take().expect("a pipe").write_all(input).expect("input");
    child.wait_with_output().expect("output").stdout
}

/// The texts of a field, in order.
fn fields<'a>(json: &'a str, name: &str) -> Vec<&'a str> {
    let start = format!("\"{name}\": \"");
    json.split(&start).skip(1).map(|part| part.split('"').next().expect("a text")).collect()
}

fn compare(words: &[&str], text: &str) {
    let sheet = ward_reader::read(text.as_bytes(), &clock()).sheet.expect("a good text");
    let told = ward(words, text);
    assert!(matches!(told.status, Some(0 | 4)), "{told:?}\n{text}");
    let (answers, verdicts) = (fields(&told.out, "answer"), fields(&told.out, "verdict"));
    assert_eq!(answers.len(), sheet.questions.len());
    let problem: Vec<u8> = record::sent(&sheet).concat();
    assert_eq!(record::hex(&program("span", &problem)), answers.concat(), "{text}");
    for (question, (answer, verdict)) in answers.iter().zip(verdicts).enumerate() {
        let bytes: Vec<u8> = (0..answer.len() / 2)
            .map(|place| u8::from_str_radix(&answer[2 * place..2 * place + 2], 16).expect("digits"))
            .collect();
        let input = [record::alone(&sheet, question), bytes].concat();
        assert_eq!(program("verdict", &input), format!("{verdict}\n").as_bytes(), "{text}");
    }
}

#[test]
fn examples_are_answered_as_by_the_programs() {
    for entry in std::fs::read_dir(repository().join("examples/problems")).expect("the problems' folder") {
        let path = entry.expect("a file").path();
        if path.extension().is_some_and(|extension| extension == "txt") {
            compare(&["--json", "-"], &std::fs::read_to_string(path).expect("a text"));
        }
    }
}

#[test]
fn random_texts_are_answered_as_by_the_programs() {
    let mut random = Random::new(135);
    for (count, moments, rules) in [(100, 4, 5), (30, 31, 63)] {
        for _ in 0..count {
            compare(&["--json", "--quick", "-"], &text(&mut random, moments, rules).text);
        }
    }
}
