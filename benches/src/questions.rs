//! Several questions over the same rules (document 02, 2.1): eight in one record against eight records.

use std::hint::black_box;

use crate::agree;
use crate::families::{Draft, Family, Row, FAMILIES};
use crate::table::SEED;
use crate::timing::{microseconds, Call, Effort};
use random::Random;

const COUNT: usize = span::QUESTIONS;
const SIZE: usize = COUNT * span::ANSWER_SIZE;

/// The same questions in one record, and each in a record of its own.
struct Asked {
    together: Vec<u8>,
    alone: Vec<Vec<u8>>,
}

/// Problems of a family whose questions all have the family's class.
fn set(effort: Effort, family: Family) -> Vec<Asked> {
    let mut random = Random::new(SEED);
    let mut set = Vec::new();
    while set.len() < effort.problems {
        let draft = family.draft(&mut random, 31, 63);
        if let Some(questions) = questions(&mut random, family, &draft) {
            let alone = questions.iter().map(|question| draft.asking(question).bytes()).collect();
            let asked = Asked { together: draft.bytes_asking(&questions), alone };
            agreed(&asked);
            set.push(asked);
        }
    }
    set
}

/// Questions of the family's class; none where they are hard to find.
fn questions(random: &mut Random, family: Family, draft: &Draft) -> Option<Vec<Row>> {
    let mut questions = Vec::new();
    for _ in 0..8 * COUNT {
        let question = family.question(random, 31);
        if agree::on(&draft.asking(&question).bytes()).class == family.class() {
            questions.push(question);
            if questions.len() == COUNT {
                return Some(questions);
            }
        }
    }
    None
}

/// Answers each record alone, each answer where the one before ended; the trials of all.
fn answer_alone(asked: &Asked, buffer: &mut [u8; SIZE]) -> u64 {
    let (mut at, mut trials) = (0, 0);
    for problem in &asked.alone {
        trials += span::raw::solve(problem, &mut buffer[at..]);
        at += 4 + u32::from_le_bytes([buffer[at], buffer[at + 1], buffer[at + 2], buffer[at + 3]]) as usize;
    }
    trials
}

/// Both ways give the same bytes and trials; ends the program where they do not.
fn agreed(asked: &Asked) {
    let (mut together, mut alone) = ([0; SIZE], [0; SIZE]);
    let results = (span::raw::solve(&asked.together, &mut together), answer_alone(asked, &mut alone));
    if results.0 != results.1 || together != alone {
        agree::end(
            &format!("one record gave {}, eight records {}, or other bytes", results.0, results.1),
            &asked.together,
        );
    }
}

fn together(set: &[Asked]) -> Call<'_> {
    let mut buffer = [0; SIZE];
    Box::new(move |number| {
        black_box(span::raw::solve(&set[number].together, &mut buffer));
    })
}

fn alone(set: &[Asked]) -> Call<'_> {
    let mut buffer = [0; SIZE];
    Box::new(move |number| {
        black_box(answer_alone(&set[number], &mut buffer));
    })
}

/// A line a family.
pub fn print(effort: Effort) {
    println!("eight questions              one record  eight records  ratio  at most");
    for family in FAMILIES {
        let set = set(effort, family);
        let [one, eight] = microseconds(effort, set.len(), [together(&set), alone(&set)]);
        let goal = if family == Family::Contradiction { 0.8 } else { 1.0 };
        let (name, ratio) = (family.name(), one / eight);
        println!("{name:<28} {one:>10.1} {eight:>14.1} {ratio:>6.2} {goal:>8.1}");
    }
    println!(
        "ratio: solve of a problem of eight questions by that of eight problems with one each, the same bytes out"
    );
    println!();
}
