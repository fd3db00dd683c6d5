//! Every refusal, in its order; every count, every length of a buffer, every lead at its limit; damage.

use super::good;
use crate::generate::{self, any_questions, Shape};
use crate::paper::{self, mend_length, BUFFER};
use crate::suites::bytes::{checker, engine, harmed};
use crate::tally::Tally;
use random::Random;

/// The order in which the engine looks at refusals after 1.
const ORDER: [u64; 8] = [2, 3, 4, 15, 5, 6, 17, 7];

/// A lead outside its form.
const FAR: [i32; 4] = [20_161, -20_161, i32::MAX, i32::MIN + 1];

/// A problem to which exactly these refusals apply, and the length of a buffer.
fn refused_by(random: &mut Random, applies: impl Fn(u64) -> bool) -> (Vec<u8>, usize) {
    let (mut n, mut m) = (random.below(4), 1 + random.below(4));
    if applies(4) {
        (n, m) = if random.chance(1, 2) { (32, m) } else { (n, 64) };
    }
    let count = if applies(15) { [0, 9][random.below(2)] } else { 1 + random.below(8) };
    let row = 8 * (n + 1);
    let mut bytes = vec![0, 0, 0, 0, 3, 0, n as u8, 0, m as u8, 0, count as u8, 0];
    for place in 0..row * (m + count) / 4 {
        let (of, at) = (place / (row / 4), place % (row / 4));
        // The anchor's left lead of a rule is there; where 17 applies, the first rule's left list is blank.
        let silent = applies(17) && of == 0 && at <= n;
        let blank = silent || (random.chance(1, 3) && (of >= m || at > 0));
        let lead = if blank { i32::MIN } else { random.lead(-20_160, 20_160) };
        bytes.extend(lead.to_le_bytes());
    }
    if applies(5) {
        // A byte, a lead or a row too many, or too few where a row is left.
        let off = [1, 4, row][random.below(3)];
        let less = random.chance(1, 2) && m + count > 1;
        bytes.resize(if less { bytes.len() - off } else { bytes.len() + off }, 0);
    }
    if applies(6) {
        let place = 12 + 4 * random.below(row / 4);
        bytes[place..place + 4].copy_from_slice(&FAR[random.below(FAR.len())].to_le_bytes());
    }
    mend_length(&mut bytes);
    if applies(3) {
        let kind = [0, 2, 4, 6, 0x0103, 0x0300, 0x0301, 0xFFFF][random.below(8)] as u16;
        bytes[4..6].copy_from_slice(&kind.to_le_bytes());
    }
    if applies(2) {
        bytes[random.below(4)] ^= 1 << random.below(8);
    }
    let enough = BUFFER * count;
    let length = if applies(7) { enough.saturating_sub(1 + random.below(BUFFER)) } else { enough + random.below(3) };
    (bytes, length)
}

/// Any bytes and a buffer of any length: the engine takes kinds 1 and 3, the checker and the package's `solve` kind 1 alone.
fn tried(tally: &mut Tally, random: &mut Random, problem: &[u8], length: usize) {
    engine(tally, random, problem, length);
    checker(tally, problem, &[]);
    let expected = match paper::read_problem(problem) {
        Err(refusal) => refusal,
        Ok(_) if length < BUFFER => 7,
        Ok(_) => 0,
    };
    let mut buffer = vec![0xA5; length];
    let found = span::solve(problem, &mut buffer).map_or_else(|refusal| refusal.number as u64, |_| 0);
    tally.same("solve", found, expected, problem, &[]);
    tally.same("the buffer of solve", found == 0 || buffer.iter().all(|byte| *byte == 0xA5), true, problem, &buffer);
}

/// Every set of refusals from 2 on: the first in the order is returned, and nothing is written.
fn orders(tally: &mut Tally, random: &mut Random) {
    for set in 0..1 << ORDER.len() {
        let applies =
            |refusal: u64| ORDER.iter().zip(0..).any(|(other, place)| *other == refusal && set >> place & 1 == 1);
        let first = ORDER.into_iter().find(|refusal| applies(*refusal)).unwrap_or(0);
        for _ in 0..30 {
            let (bytes, length) = refused_by(random, applies);
            let found = span::raw::solve(&bytes, &mut vec![0; length]) & 255;
            tally.same("the first refusal that applies", found, first, &bytes, &[]);
            tried(tally, random, &bytes, length);
            tally.count("sets of refusals");
        }
    }
}

/// Records of kind 3 that end at or before their count, and every count.
fn counts(tally: &mut Tally, random: &mut Random) {
    for (n, m) in [(0, 0), (31, 63), (32, 0), (0, 64)] {
        let above = n == 32 || m == 64;
        for rest in [&[][..], &[0], &[1], &[8], &[9], &[255]] {
            let mut bytes = vec![0, 0, 0, 0, 3, 0, n, 0, m, 0];
            bytes.extend(rest);
            mend_length(&mut bytes);
            let found = span::raw::solve(&bytes, &mut []);
            tally.same("a record that ends before its count", found, if above { 4 } else { 5 }, &bytes, &[]);
            tried(tally, random, &bytes, BUFFER);
            tally.count("records of 10 and 11 bytes");
        }
    }
    let eight = any_questions(random, 2, 2, 8).bytes();
    let mut twelve = vec![8, 0, 0, 0, 3, 0, 0, 0, 0, 0, 0, 0];
    for count in 0..=u16::MAX {
        for bytes in [&mut twelve, &mut eight.clone()] {
            bytes[10..12].copy_from_slice(&count.to_le_bytes());
            let expected = match count {
                8 if bytes.len() > 12 => 7,
                1..=8 => 5,
                _ => 15,
            };
            tally.same("a count", span::raw::solve(bytes, &mut []), expected, bytes, &[]);
            tally.count("counts");
        }
    }
    for bytes in [&twelve, &eight] {
        for count in [0, 1, 7, 8, 9] {
            let mut bytes = bytes.clone();
            bytes[10..12].copy_from_slice(&[count, 0]);
            tried(tally, random, &bytes, 8 * BUFFER);
        }
    }
}

/// Buffers of every length up to 208 bytes a question and two more, for every count.
fn buffers(tally: &mut Tally, random: &mut Random) {
    for count in 1..=8 {
        let all = any_questions(random, 3, 3, count);
        let bytes = all.bytes();
        for length in 0..=BUFFER * count + 2 {
            let found = span::raw::solve(&bytes, &mut vec![0; length]) & 255;
            let expected = if length < BUFFER * count { 7 } else { 0 };
            tally.same(&format!("a buffer of {length} bytes"), found, expected, &bytes, &[]);
            engine(tally, random, &bytes, length);
            tally.count("buffers");
        }
        good(tally, random, &all);
    }
}

/// Every lead, of rules and of questions, at its limit and beyond.
fn leads(tally: &mut Tally, random: &mut Random) {
    for (m, count) in [(0, 1), (0, 8), (2, 1), (2, 3), (3, 8)] {
        let problem = generate::kept(random, Shape { n: 2, m, w: 60, filled: 5 });
        let bytes = generate::questions(random, problem, count).bytes();
        for place in (12..bytes.len()).step_by(4) {
            for lead in FAR.into_iter().chain([20_160, -20_160, i32::MIN]) {
                let mut other = bytes.clone();
                other[place..place + 4].copy_from_slice(&lead.to_le_bytes());
                engine(tally, random, &other, BUFFER * count);
                match paper::read_questions(&other) {
                    Ok(all) => good(tally, random, &all),
                    Err(refusal) => {
                        let expected = if lead == i32::MIN { 17 } else { 6 };
                        tally.same(
                            "a lead beyond its limit, or a left list without one",
                            refusal,
                            expected,
                            &other,
                            &[],
                        );
                    }
                }
                tally.count("leads at their limits");
            }
        }
    }
}

/// Every cut, every byte of the header with every value, and damage of all sorts.
fn damage(tally: &mut Tally, random: &mut Random) {
    let good = any_questions(random, 3, 3, 3).bytes();
    for cut in 0..good.len() {
        let mut part = good[..cut].to_vec();
        tried(tally, random, &part, 3 * BUFFER);
        if cut >= 4 {
            mend_length(&mut part);
            tried(tally, random, &part, 3 * BUFFER);
        }
    }
    for place in 0..12 {
        for value in 0..=255 {
            let mut other = good.clone();
            other[place] = value;
            tried(tally, random, &other, 3 * BUFFER);
        }
    }
    for round in 0..if tally.long { 1_000_000 } else { 30_000 } {
        let (n, m) = if round % 100 == 0 { (31, 63) } else { (5, 6) };
        let count = 1 + random.below(8);
        let bytes = any_questions(random, n, m, count).bytes();
        let mut bad = harmed(random, &bytes);
        if random.chance(1, 5) && bad.len() > 12 {
            bad[10] = random.below(10) as u8;
        }
        let length = if random.chance(1, 2) { BUFFER * count } else { random.below(1_700) };
        tried(tally, random, &bad, length);
    }
}

pub fn run(tally: &mut Tally, random: &mut Random) {
    orders(tally, random);
    counts(tally, random);
    buffers(tally, random);
    leads(tally, random);
    damage(tally, random);
}
