//! Runs the suites in turn, and prints what each tried.
//!
//! `cargo run --release --offline -p outside` runs all of them; a word after `--` runs one suite, and `--long` has a suite that knows
//! it try more than there is time for in the gate; `census-table` prints the handbook's table by definition.
//! A disagreement prints the bytes it was found on, and the status is then not 0.

use outside::{print_table, programs, SUITES, TRIED};

fn main() {
    let mut words: Vec<String> = std::env::args().skip(1).collect();
    if programs::acted_as_a_program(&words) {
        return;
    }
    if words == ["census-table"] {
        return print_table();
    }
    let long = words.iter().any(|word| word == "--long");
    words.retain(|word| word != "--long");
    println!("tests from outside, on {TRIED}");
    let mut failures = 0;
    let mut run = 0;
    for suite in &SUITES {
        if words.is_empty() || words.iter().any(|word| word == suite.name) {
            failures += suite.run(long, || std::process::exit(1));
            run += 1;
        }
    }
    if run == 0 {
        let names: Vec<&str> = SUITES.iter().map(|suite| suite.name).collect();
        println!("no such suite; there are: {}", names.join(", "));
        std::process::exit(2);
    }
    if failures > 0 {
        println!("outside tests: {failures} disagreements");
        std::process::exit(1);
    }
    println!("outside tests: all agree");
}
