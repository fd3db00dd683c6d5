//! Every refusal, on damaged, cut, lengthened and random bytes, in buffers of every length, filled with noise before
//! and compared after.

use super::{checked, expected_check};
use crate::generate::any;
use crate::paper::{self, mend_length, BUFFER, LONGEST_STAMP};
use crate::tally::Tally;
use random::Random;

/// The engine on any bytes and a buffer of any length: the refusal that the papers say and nothing written, or an answer a
/// question and nothing written after the last.
pub fn engine(tally: &mut Tally, random: &mut Random, problem: &[u8], length: usize) {
    let mut buffer = vec![0; length];
    random.fill(&mut buffer);
    let noise = buffer.clone();
    let (expected, count) = match paper::read_questions(problem) {
        Err(refusal) => (refusal, 0),
        Ok(all) if length < BUFFER * all.questions.len() => (7, 0),
        Ok(all) => (0, all.questions.len()),
    };
    let result = span::raw::solve(problem, &mut buffer);
    tally.same("the engine's refusal", result & 255, expected, problem, &[]);
    if expected == 0 {
        let end = (0..count).fold(0, |at, _| next_record(&buffer, at));
        tally.same("bytes after the last record", buffer.get(end..), noise.get(end..), problem, &buffer);
    } else {
        tally.same("trials where refused", result >> 8, 0, problem, &[]);
        tally.same("the buffer where refused", &buffer, &noise, problem, &buffer);
    }
    tally.count(&format!("engine {expected}"));
}

/// Where the record after the one at a place starts, by its length field.
pub fn next_record(records: &[u8], at: usize) -> usize {
    at + 4 + paper::number(records.get(at..at + 4).unwrap_or(&[])) as usize
}

/// The checker on any bytes.
pub fn checker(tally: &mut Tally, problem: &[u8], answer: &[u8]) {
    let expected = expected_check(problem, answer);
    tally.same("the checker", checked(problem, answer), expected, problem, answer);
    match expected {
        Ok(_) => tally.count("checker accepted"),
        Err(refusal) => tally.count(&format!("checker {refusal}")),
    }
}

/// Bytes with some harm done to them.
pub fn harmed(random: &mut Random, good: &[u8]) -> Vec<u8> {
    let mut bytes = good.to_vec();
    let mend = random.chance(1, 2);
    match random.below(7) {
        0 => bytes.truncate(random.below(good.len() + 1)),
        1 => {
            let more = 1 + random.below(40);
            let from = bytes.len();
            bytes.resize(from + more, 0);
            random.fill(&mut bytes[from..]);
        }
        2 => {
            // A header field set to something near an edge.
            let place = [0, 4, 6, 8, 14][random.below(5)];
            let value = [0, 1, 2, 3, 4, 5, 31, 32, 33, 63, 64, 255, 256, 65_535][random.below(14)] as u16;
            if place + 2 <= bytes.len() {
                bytes[place..place + 2].copy_from_slice(&value.to_le_bytes());
            }
        }
        3 => {
            // Four bytes set to a number near an edge.
            let place = [10, 16][random.below(2)] + 4 * random.below((bytes.len() - 10) / 4);
            let stamp = LONGEST_STAMP as i32;
            let edges = [
                0,
                20_160,
                20_161,
                1_290_240,
                1_290_241,
                3_000_001,
                stamp,
                stamp + 1,
                i32::MAX,
                i32::MIN,
                i32::MIN + 1,
            ];
            let sign = if random.chance(1, 2) { 1 } else { -1 };
            let value = edges[random.below(edges.len())].wrapping_mul(sign);
            if place + 4 <= bytes.len() {
                bytes[place..place + 4].copy_from_slice(&value.to_le_bytes());
            }
        }
        4 => {
            let place = random.below(bytes.len());
            bytes[place] ^= 1 << random.below(8);
        }
        5 => {
            let places = 1 + random.below(4);
            for _ in 0..places {
                let place = random.below(bytes.len());
                bytes[place] = random.word() as u8;
            }
        }
        _ => {
            let length = random.below(260);
            bytes = vec![0; length];
            random.fill(&mut bytes);
        }
    }
    if mend && bytes.len() >= 4 {
        mend_length(&mut bytes);
    }
    bytes
}

pub fn run(tally: &mut Tally) {
    const SEED: u64 = 645_121;
    tally.seed(SEED);
    let mut random = Random::new(SEED);
    // Every buffer length, with a good problem of each kind and with bad ones.
    for length in 0..=BUFFER + 4 {
        for _ in 0..8 {
            let good = any(&mut random, 6, 8).bytes();
            engine(tally, &mut random, &good, length);
            let bad = harmed(&mut random, &good);
            engine(tally, &mut random, &bad, length);
        }
    }
    // Every cut of a problem and of an answer, and every byte of the headers with every value.
    let good = any(&mut random, 3, 3).bytes();
    let mut buffer = [0; BUFFER];
    let size = span::solve(&good, &mut buffer).map_or(0, |solved| solved.size);
    let answer = buffer[..size].to_vec();
    for cut in 0..good.len() {
        let mut part = good[..cut].to_vec();
        engine(tally, &mut random, &part, BUFFER);
        checker(tally, &part, &answer);
        if cut >= 4 {
            mend_length(&mut part);
            engine(tally, &mut random, &part, BUFFER);
        }
    }
    for cut in 0..answer.len() {
        let mut part = answer[..cut].to_vec();
        checker(tally, &good, &part);
        if cut >= 4 {
            mend_length(&mut part);
            checker(tally, &good, &part);
        }
    }
    for place in 0..16 {
        for value in 0..=255 {
            let mut other = good.clone();
            other[place] = value;
            engine(tally, &mut random, &other, BUFFER);
            checker(tally, &other, &answer);
            let mut other = answer.clone();
            other[place] = value;
            checker(tally, &good, &other);
        }
    }
    // Damage of all sorts, to the problem, to the answer, to both.
    for round in 0..60_000 {
        let (n, m) = if round % 100 == 0 { (31, 63) } else { (5, 6) };
        let problem = any(&mut random, n, m).bytes();
        let size = span::solve(&problem, &mut buffer).map_or(0, |solved| solved.size);
        let answer = buffer[..size].to_vec();
        let bad = harmed(&mut random, &problem);
        let length = if random.chance(1, 2) { BUFFER } else { random.below(300) };
        engine(tally, &mut random, &bad, length);
        checker(tally, &bad, &answer);
        let worse = harmed(&mut random, &answer);
        checker(tally, &problem, &worse);
        checker(tally, &bad, &worse);
    }
    for refusal in 1..=7 {
        seen(tally, &format!("engine {refusal}"));
    }
    for refusal in [1, 2, 3, 4, 5, 6, 8, 9, 10, 11, 12, 13, 14] {
        seen(tally, &format!("checker {refusal}"));
    }
}

/// A refusal that was never met says nothing.
pub fn seen(tally: &mut Tally, what: &str) {
    if tally.counted(what) == 0 {
        tally.fail(format!("never met: {what}"), &[], &[]);
    }
}
