//! A ward's day: built row by row, solved, judged, and printed. `capi/ward_day.c` is the same in C.
//!
//!     cargo run --release --offline -p span --example ward_day

use span::{Outcome, Problem};

/// The anchor, then moments 1 to 3.
const NAMES: [&str; 4] = ["decision", "cleaned", "ready", "arrival"];
const DECISION: usize = 0;
const CLEANED: usize = 1;
const READY: usize = 2;
const ARRIVAL: usize = 3;

fn main() -> Result<(), span::Error> {
    let mut day = Problem::new(3)?;
    day.rule(&[(DECISION, 70)], &[(CLEANED, 0)])?; // decision + 70 <= cleaned
    day.rule(&[(READY, 0)], &[(DECISION, 50)])?; // ready <= decision + 50
    day.rule(&[(CLEANED, 0), (READY, 15)], &[(ARRIVAL, 0)])?; // later of cleaned, ready + 15 <= arrival
    day.question(&[(ARRIVAL, 0)], &[(READY, 0)])?; // from ready to arrival

    let solution = day.solve_one(0)?;
    print!("{}", solution.judge()?);
    if let Outcome::Least(_) = solution.outcome {
        println!(" minutes from ready to arrival");
        for (moment, name) in NAMES.iter().enumerate().skip(1) {
            match solution.minute(moment) {
                Some(minutes) => println!("{name} after {minutes} minutes"),
                None => println!("{name} is left out"),
            }
        }
    }
    Ok(())
}
