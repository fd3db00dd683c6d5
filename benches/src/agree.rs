//! Before times are compared: every engine gives the same class, span and trials, and both checkers accept its answer.

use crate::engines::{library, library_accepts, unproved_accepts, UNPROVED};
use reference::Answered;

/// The outcome that all engines agree on; ends the program where they do not.
pub fn on(problem: &[u8]) -> Answered {
    let mut buffer = [0; span::ANSWER_SIZE];
    let expected = library(problem, &mut buffer);
    accepted("the library", problem, &buffer[..expected.size]);
    for (name, solve) in UNPROVED {
        let found = solve(problem, &mut buffer);
        if found != expected {
            end(&format!("{name} found {found:?}, the library {expected:?}"), problem);
        }
        accepted(name, problem, &buffer[..found.size]);
    }
    expected
}

fn accepted(name: &str, problem: &[u8], answer: &[u8]) {
    if !library_accepts(problem, answer) || !unproved_accepts(problem, answer) {
        end(&format!("a checker turns down the answer of: {name}"), problem);
    }
}

pub fn end(message: &str, problem: &[u8]) -> ! {
    eprintln!("disagreement: {message}");
    eprintln!("problem {}", hex(problem));
    std::process::exit(1);
}

pub fn hex(bytes: &[u8]) -> String {
    bytes.iter().map(|byte| format!("{byte:02X}")).collect()
}
