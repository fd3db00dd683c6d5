//! Times of `solve` and `check` against an engine and a checker without proofs, in one run.
//!
//!     cargo run --profile measure --offline -p measure
//!     … -- --short            a short run that judges no times
//!     … -- --worst SECONDS    looks for the problem that takes `solve` longest, by hill climbing

mod agree;
mod census;
mod desk;
mod engines;
mod families;
mod questions;
mod table;
mod timing;
mod worst;

// What is measured goes by the name `span`: the product's package, or the unproved engine in its place.
#[cfg(all(feature = "archive", feature = "stand-in"))]
compile_error!("the archive or the stand-in is measured, not both: --no-default-features --features stand-in");
#[cfg(feature = "stand-in")]
extern crate stand_in as span;

const MEASURED: &str = if cfg!(feature = "stand-in") { "the unproved stand-in" } else { "the archive" };

fn main() {
    let words: Vec<String> = std::env::args().skip(1).collect();
    let words: Vec<&str> = words.iter().map(String::as_str).collect();
    match words[..] {
        [] => table::print(timing::Effort::full()),
        ["--short"] => table::print(timing::Effort::short()),
        ["--worst", seconds] if seconds.parse::<f64>().is_ok() => worst::search(seconds.parse().unwrap_or(1.0)),
        _ => {
            eprintln!("words: none, --short, or --worst SECONDS");
            std::process::exit(2);
        }
    }
}
