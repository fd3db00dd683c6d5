//! Keeps a desk's sixteen places busy and prints in which order problems are answered: short ones while long ones run.
//!
//!     cargo run --release --offline -p span --example desk

use span::{check, Collected, Desk, Step, ANSWER_SIZE};

/// A problem of one moment: the span from it to the anchor, with leads of both lists.
fn problem(first: Option<i32>, second: Option<i32>) -> Vec<u8> {
    let mut bytes = vec![14, 0, 0, 0, 1, 0, 0, 0, 0, 0];
    for lead in [first, second] {
        bytes.extend(lead.unwrap_or(i32::MIN).to_le_bytes());
    }
    bytes
}

fn main() {
    let problems: Vec<Vec<u8>> = (0..40)
        .map(|number| match number % 5 {
            0 => problem(None, Some(number)),
            1 => problem(Some(number), None),
            _ => problem(Some(number * 500), Some(7)),
        })
        .collect();
    let mut desk = Desk::new();
    let mut waiting = problems.iter().enumerate();
    let mut held = std::collections::HashMap::new();
    let (mut steps, mut collected) = (0, 0);
    while collected < problems.len() {
        while held.len() < 16 {
            let Some((number, problem)) = waiting.next() else { break };
            held.insert(desk.take_in(problem).expect("a place is free"), number);
        }
        steps += 1;
        let Step::Done(ticket) = desk.step() else { continue };
        let number = held.remove(&ticket).expect("the ticket is held");
        let mut answer = [0; ANSWER_SIZE];
        let Ok(Collected::Answer { trials, size, .. }) = desk.collect(ticket, &mut answer) else { unreachable!() };
        let verdict = check(&problems[number], &answer[..size]).expect("the checker accepts it");
        println!("step {steps}: problem {number} (ticket {ticket}), {trials} trials of its own, {verdict}");
        collected += 1;
    }
}
