//! Mark bytes compared, document 02, 2.3: yes exactly when they differ in some byte, also where n + 1 is no multiple of eight.

use super::bytes::seen;
use crate::tally::Tally;
use random::Random;

const YES: u64 = 256;
const NO: u64 = 0;
const TOO_SHORT: u64 = 255;

/// What document 02 says of the first `count` bytes, byte by byte.
fn said(before: &[u8], after: &[u8], count: usize) -> u64 {
    if before.len() < count || after.len() < count {
        return TOO_SHORT;
    }
    for place in 0..count {
        if before[place] != after[place] {
            return YES;
        }
    }
    NO
}

fn compare(tally: &mut Tally, before: &[u8], after: &[u8], count: usize) {
    let expected = said(before, after, count);
    let found = span::raw::marks_differ(before, after, count as u64);
    tally.same(&format!("the test of {count} bytes"), found, expected, before, after);
    tally.count(match expected {
        YES => "that differ",
        NO => "that do not",
        _ => "too short",
    });
}

/// All pairs of lists of 0 to 33 bytes that differ in one byte, over some others that they share: every place, every two
/// values. No try is counted by itself here, there are millions.
fn one_byte(tally: &mut Tally, shared: [u8; 33]) {
    let mut pairs = 0;
    for length in 0..=33 {
        let mut before = shared;
        let mut after = shared;
        compare(tally, &before[..length], &after[..length], length);
        for place in 0..length {
            for old in 0..=255 {
                before[place] = old;
                for new in 0..=255 {
                    after[place] = new;
                    let expected = if old == new { NO } else { YES };
                    let found = span::raw::marks_differ(&before[..length], &after[..length], length as u64);
                    if found != expected {
                        tally.fail(format!("place {place} of {length}: {found}"), &before[..length], &after[..length]);
                    }
                    pairs += (old != new) as u64;
                }
            }
            before[place] = shared[place];
            after[place] = shared[place];
        }
    }
    tally.same("pairs of one byte", pairs, 33 * 34 / 2 * 256 * 255, &[], &[]);
    println!("marks: {pairs} pairs that differ in one byte");
}

/// Lists that are longer than what is compared, and differ in one byte before or behind its end.
fn longer_lists(tally: &mut Tally, random: &mut Random) {
    for length in 0..=40 {
        for count in 0..=length {
            let mut before = vec![0; length];
            random.fill(&mut before);
            for place in 0..length {
                let mut after = before.clone();
                after[place] ^= 1 << random.below(8);
                compare(tally, &before, &after, count);
                compare(tally, &before, &after[..count.max(place)], count);
            }
        }
    }
}

/// Random bytes, of zeros and ones or of any value, which are mostly the same; lists of two lengths that start anywhere.
fn random_lists(tally: &mut Tally, random: &mut Random) {
    for _ in 0..400_000 {
        let mut bytes = [0; 200];
        random.fill(&mut bytes);
        if random.chance(1, 2) {
            bytes.iter_mut().for_each(|byte| *byte &= 1);
        }
        let length = random.below(60);
        let start = random.below(8);
        let mut other = [0; 200];
        let shift = random.below(8);
        other[shift..shift + length].copy_from_slice(&bytes[start..start + length]);
        for _ in 0..random.below(3) {
            other[shift + random.below(length + 4)] ^= random.below(256) as u8;
        }
        let before = &bytes[start..start + length];
        let after = &other[shift..shift + length + random.below(3)];
        let count = if random.chance(1, 4) { random.below(70) } else { length };
        compare(tally, before, after, count);
        let told = span::marks_differ(before, after, count);
        let expected = match said(before, after, count) {
            TOO_SHORT => None,
            answer => Some(answer == YES),
        };
        tally.same("the package's test", told, expected, before, after);
    }
}

pub fn run(tally: &mut Tally) {
    let seed = 23;
    tally.seed(seed);
    let mut random = Random::new(seed);
    let mut shared = [0; 33];
    one_byte(tally, shared);
    random.fill(&mut shared);
    one_byte(tally, shared);
    longer_lists(tally, &mut random);
    random_lists(tally, &mut random);
    for count in [34, 1 << 32, u64::MAX - 7, u64::MAX] {
        let found = span::raw::marks_differ(&shared, &shared, count);
        tally.same(&format!("a count of {count}"), found, TOO_SHORT, &shared, &shared);
    }
    for what in ["that differ", "that do not", "too short"] {
        seen(tally, what);
    }
}
