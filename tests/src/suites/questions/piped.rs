//! The two programs.

use super::{each_alone, largest, records};
use crate::generate::any_questions;
use crate::paper::mend_length;
use crate::programs;
use crate::suites::bytes::harmed;
use crate::suites::pipes::{span_program, verdict};
use crate::tally::Tally;
use random::Random;

/// The span program writes all answers, those of one call a question; the verdict program and the checker take none of it.
pub fn run(tally: &mut Tally, random: &mut Random) {
    let mut longest = Vec::new();
    for round in 0..if tally.long { 600 } else { 60 } {
        let all = match round % 4 {
            0 => largest(random),
            _ => {
                let count = 1 + random.below(8);
                any_questions(random, 6, 8, count)
            }
        };
        let bytes = all.bytes();
        let answers = each_alone(tally, &all);
        let expected = records(&answers.iter().collect::<Vec<_>>());
        tally.same("the span program", programs::span(&bytes), Ok(expected.clone()), &bytes, &expected);
        tally.count(if bytes.len() == 18_188 {
            "of 18,188 bytes through the span program"
        } else {
            "through the span program"
        });
        span_program(tally, &bytes);
        for answer in [&expected[..], &answers[0].record, &[]] {
            let input = [&bytes, answer].concat();
            tally.same("the verdict program", programs::verdict(&input), Ok(b"refused 3\n".to_vec()), &input, &[]);
            verdict(tally, &input);
        }
        span_program(tally, &harmed(random, &bytes));
        if bytes.len() == 18_188 {
            longest = bytes;
        }
    }
    // One byte more and less; then inputs longer than what is kept, with a length field that fits or does not.
    for size in [18_187, 18_189, 20_000, 20_001, 20_004, 50_000] {
        for header in
            [[31, 0, 63, 0, 8, 0], [31, 0, 63, 0, 0, 0], [31, 0, 63, 0, 9, 0], [0, 0, 0, 0, 1, 0], [32, 0, 0, 0, 1, 0]]
        {
            let mut input = longest.clone();
            input.resize(size, 0);
            input[6..12].copy_from_slice(&header);
            span_program(tally, &input);
            mend_length(&mut input);
            span_program(tally, &input);
            verdict(tally, &input);
        }
    }
    for bytes in [&[][..], &[0], &[1, 0], &[9, 0], &[0, 0]] {
        let mut input = vec![0, 0, 0, 0, 3, 0, 0, 0, 0, 0];
        input.extend(bytes);
        mend_length(&mut input);
        span_program(tally, &input);
        verdict(tally, &input);
    }
}
