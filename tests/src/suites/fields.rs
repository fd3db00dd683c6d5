//! The answer reader and the answer writer: their own refusals, and there and back again.

use super::bytes::{harmed, seen};
use crate::generate::any;
use crate::paper::{self, Answer, Minute, BUFFER};
use crate::tally::Tally;
use random::Random;

const OFFSET: i64 = 1 << 31;

fn offset(minute: Minute) -> u64 {
    minute.map_or(0, |value| (value + OFFSET) as u64)
}

/// The minute that an offset number stands for, also where no record holds it.
fn minute(offset: u64) -> Minute {
    (offset != 0).then(|| i64::try_from(offset).map_or(i64::MAX, |number| number - OFFSET))
}

/// The reader on any bytes and any n and m.
fn read(tally: &mut Tally, random: &mut Random, record: &[u8], n: u64, m: u64) {
    let mut stamps = [0; 32];
    let mut picks = [0; 64];
    for place in stamps.iter_mut().chain(&mut picks) {
        *place = random.word();
    }
    let (stamps_before, picks_before) = (stamps, picks);
    let result = span::raw::read(record, n, m, &mut stamps, &mut picks);
    let what = format!("n {n} m {m}");
    match paper::reader(record, n, m) {
        Err(refusal) => {
            tally.same(&format!("the reader's refusal, {what}"), result, refusal, &[], record);
            tally.same("stamps where refused", stamps, stamps_before, &[], record);
            tally.same("picks where refused", picks, picks_before, &[], record);
            tally.count(&format!("reader {refusal}"));
        }
        Ok(answer) => {
            let expected = 256 * answer.class + (answer.start << 16) + (offset(answer.span) << 32);
            tally.same(&format!("the reader's result, {what}"), result, expected, &[], record);
            let found: Vec<Minute> = stamps[..answer.stamps.len()].iter().map(|&stamp| minute(stamp)).collect();
            tally.same("the reader's stamps", &found, &answer.stamps, &[], record);
            tally.same("the reader's picks", &picks[..answer.picks.len()], &answer.picks[..], &[], record);
            tally.same(
                "places behind the stamps",
                stamps[answer.stamps.len()..].iter().any(|&stamp| stamp != 0),
                false,
                &[],
                record,
            );
            tally.same(
                "places behind the picks",
                picks[answer.picks.len()..].iter().any(|&pick| pick != 0),
                false,
                &[],
                record,
            );
            tally.count("reader read");
            lend(tally, random, record, n, m, result);
            // What was read is written to the same bytes.
            let mut buffer = [0xA5; BUFFER];
            let (class, start, span) = ((result >> 8) & 255, (result >> 16) & 65_535, result >> 32);
            let (stamps, picks) = (&stamps[..answer.stamps.len()], &picks[..answer.picks.len()]);
            let written = span::raw::write(class, span, start, stamps, picks, n, m, &mut buffer);
            tally.same("the size written again", written, 256 * record.len() as u64, &[], record);
            tally.same("the record written again", &buffer[..record.len()], record, &[], record);
        }
    }
}

/// The reader with other numbers of places for a record that it takes: too few are an outcome, and more stay as they are.
fn lend(tally: &mut Tally, random: &mut Random, record: &[u8], n: u64, m: u64, whole: u64) {
    let (first, second) = (random.below(40), 40 + random.below(40));
    let mut stamps = vec![0; first];
    let mut picks = vec![0; second];
    for place in stamps.iter_mut().chain(picks.iter_mut()) {
        *place = random.word();
    }
    let (stamps_before, picks_before) = (stamps.clone(), picks.clone());
    let result = span::raw::read(record, n, m, &mut stamps, &mut picks);
    if first < span::raw::STAMPS || second < span::raw::PICKS {
        tally.same("too few places", result, 255, &[], record);
        tally.same("stamps where there are too few places", stamps, stamps_before, &[], record);
        tally.same("picks where there are too few places", picks, picks_before, &[], record);
        tally.count("reader with too few places");
    } else {
        tally.same("the result with more places", result, whole, &[], record);
        tally.same("stamps behind", &stamps[span::raw::STAMPS..], &stamps_before[span::raw::STAMPS..], &[], record);
        tally.same("picks behind", &picks[span::raw::PICKS..], &picks_before[span::raw::PICKS..], &[], record);
        tally.count("reader with more places");
    }
}

/// Fields handed to the writer; span and stamps are offset numbers.
#[derive(Clone, Debug)]
struct Fields {
    class: u64,
    span: u64,
    start: u64,
    stamps: Vec<u64>,
    picks: Vec<u64>,
}

impl Fields {
    /// The same in the paper's terms.
    fn answer(&self) -> Answer {
        let stamps = self.stamps.iter().map(|&stamp| minute(stamp)).collect();
        Answer { class: self.class, span: minute(self.span), start: self.start, stamps, picks: self.picks.clone() }
    }
}

/// The writer on any fields.
fn write(tally: &mut Tally, random: &mut Random, fields: &Fields, n: u64, m: u64, length: usize) {
    let mut buffer = vec![0; length];
    random.fill(&mut buffer);
    let noise = buffer.clone();
    let Fields { class, span, start, stamps, picks } = fields;
    let result = span::raw::write(*class, *span, *start, stamps, picks, n, m, &mut buffer);
    let what = format!("{fields:?} n {n} m {m} buffer {length}");
    match paper::writer(&fields.answer(), n, m, length) {
        Err(refusal) => {
            tally.same(&format!("the writer's refusal, {what}"), result, refusal, &[], &[]);
            tally.same(&format!("the buffer where refused, {what}"), &buffer, &noise, &[], &[]);
            tally.count(&format!("writer {refusal}"));
        }
        Ok(record) => {
            tally.same(&format!("the writer's result, {what}"), result, 256 * record.len() as u64, &[], &record);
            tally.same(&format!("the record, {what}"), &buffer[..record.len()], &record[..], &[], &record);
            tally.same("bytes after the record", &buffer[record.len()..], &noise[record.len()..], &[], &record);
            tally.count("writer written");
            read(tally, random, &record, n, m);
        }
    }
}

/// Numbers at the edges of n and m.
const SIZES: [u64; 12] = [0, 1, 30, 31, 32, 62, 63, 64, 65_535, 65_536, 1 << 32, u64::MAX];

pub fn run(tally: &mut Tally) {
    const SEED: u64 = 2_000_001;
    tally.seed(SEED);
    let mut random = Random::new(SEED);
    let mut buffer = [0; BUFFER];
    for round in 0..40_000 {
        let (n, m) = if round % 20 == 0 { (31, 63) } else { (4, 4) };
        let problem = any(&mut random, n, m);
        let (n, m) = (problem.n() as u64, problem.m() as u64);
        let size = span::solve(&problem.bytes(), &mut buffer).map_or(0, |solved| solved.size);
        let record = buffer[..size].to_vec();
        read(tally, &mut random, &record, n, m);
        let bad = harmed(&mut random, &record);
        read(tally, &mut random, &bad, n, m);
        let (other_n, other_m) = (SIZES[random.below(SIZES.len())], SIZES[random.below(SIZES.len())]);
        read(tally, &mut random, &record, other_n, m);
        read(tally, &mut random, &record, n, other_m);
        read(tally, &mut random, &bad, other_n, other_m);
    }
    every_edge_of_the_writer(tally, &mut random);
    random_fields(tally, &mut random);
    for refusal in [4, 8, 9, 10, 11, 12, 13] {
        seen(tally, &format!("reader {refusal}"));
    }
    for refusal in [4, 7, 10, 11, 12, 13] {
        seen(tally, &format!("writer {refusal}"));
    }
}

/// Spans and stamps at the edges of their forms, as offset numbers, and numbers that no record holds.
fn edges() -> Vec<u64> {
    let minutes = [
        0,
        1,
        -1,
        645_121,
        1_290_239,
        1_290_240,
        1_290_241,
        -1_290_240,
        -1_290_241,
        2_000_001,
        3_000_001,
        5_999_999,
        6_000_000,
        6_000_001,
        -6_000_000,
        -6_000_001,
        OFFSET - 1,
        1 - OFFSET,
    ];
    let mut numbers: Vec<u64> = minutes.iter().map(|&value| offset(Some(value))).collect();
    numbers.extend([0, 1, 1 << 32, (1 << 32) + (1 << 31), (1 << 63) + (1 << 31), u64::MAX]);
    numbers
}

/// One field at a time over its edges, the others being right, for every class and some sizes.
fn every_edge_of_the_writer(tally: &mut Tally, random: &mut Random) {
    for (n, m) in [(0u64, 0u64), (1, 0), (0, 1), (3, 5), (31, 63)] {
        for class in 1..=3u64 {
            let (stamps, picks) = paper::counts(class, n as usize, m as usize);
            let good = Fields {
                class,
                span: if class == 1 { offset(Some(3)) } else { 0 },
                start: 1,
                stamps: vec![offset(Some(0)); stamps],
                picks: vec![0; picks],
            };
            for length in 0..=BUFFER + 1 {
                write(tally, random, &good, n, m, length);
            }
            for class in [0, 1, 2, 3, 4, 255, 256, 257, 65_535, 65_536, 65_537, (1 << 32) + 1, u64::MAX] {
                write(tally, random, &Fields { class, ..good.clone() }, n, m, BUFFER);
            }
            for start in (0..=n + 3).chain([31, 32, 33, 255, 256, 65_535, 65_536, 65_537, 1 << 32, u64::MAX]) {
                let other = Fields { start, ..good.clone() };
                write(tally, random, &other, n, m, BUFFER);
                write(tally, random, &Fields { picks: vec![0; picks + 1], ..other.clone() }, n, m, BUFFER);
                write(tally, random, &other, n, m, BUFFER - 1);
                tally.count("starts handed to the writer");
            }
            for other_n in SIZES {
                for other_m in SIZES {
                    write(tally, random, &good, other_n, other_m, BUFFER);
                    write(tally, random, &good, other_n, other_m, BUFFER - 1);
                }
            }
            for first in 0..=stamps + 2 {
                for second in [0, 1, picks.saturating_sub(1), picks, picks + 1, 32, 64, 65] {
                    let other = Fields { stamps: vec![offset(Some(0)); first], picks: vec![0; second], ..good.clone() };
                    write(tally, random, &other, n, m, BUFFER);
                }
            }
            for span in edges() {
                write(tally, random, &Fields { span, ..good.clone() }, n, m, BUFFER);
            }
            for place in 0..stamps {
                for stamp in edges() {
                    let mut other = good.clone();
                    other.stamps[place] = stamp;
                    write(tally, random, &other, n, m, BUFFER);
                }
            }
            edges_of_picks(tally, random, &good, n, m);
        }
    }
}

fn edges_of_picks(tally: &mut Tally, random: &mut Random, good: &Fields, n: u64, m: u64) {
    let highest = paper::highest_pick(good.class, n as usize, m as usize);
    for place in 0..good.picks.len() {
        for pick in [1, highest - 1, highest, highest + 1, 65_535, 65_536, 65_537, 1 << 32, u64::MAX] {
            let mut other = good.clone();
            other.picks[place] = pick;
            write(tally, random, &other, n, m, BUFFER);
        }
    }
}

/// Fields drawn at random, several of them wrong at once: the first refusal counts.
fn random_fields(tally: &mut Tally, random: &mut Random) {
    let edges = edges();
    for _ in 0..60_000 {
        let (n, m) = match random.below(10) {
            0 => (SIZES[random.below(SIZES.len())], SIZES[random.below(SIZES.len())]),
            _ => (random.below(6) as u64, random.below(6) as u64),
        };
        let class = if random.chance(1, 10) { random.below(6) as u64 } else { 1 + random.below(3) as u64 };
        let (mut stamps, mut picks) =
            if n < 32 && m < 64 { paper::counts(class, n as usize, m as usize) } else { (1, 1) };
        if random.chance(1, 10) {
            stamps = random.below(8);
        }
        if random.chance(1, 10) {
            picks = random.below(8);
        }
        let mut stamp = |place: usize| match random.below(12) {
            0 => edges[random.below(edges.len())],
            _ if place == 0 => offset(Some(0)),
            1 | 2 => 0,
            _ => offset(Some(random.within(-paper::LONGEST_STAMP, paper::LONGEST_STAMP))),
        };
        let stamps: Vec<u64> = (0..stamps).map(&mut stamp).collect();
        let mut pick = || {
            let limit = if random.chance(1, 12) { 70 } else { 2 };
            random.below(limit) as u64
        };
        let picks: Vec<u64> = (0..picks).map(|_| pick()).collect();
        let span = match (class, random.below(8)) {
            (_, 0) => edges[random.below(edges.len())],
            (1, _) => offset(Some(random.within(-paper::LONGEST_SPAN, paper::LONGEST_SPAN))),
            _ => 0,
        };
        let start = if random.chance(1, 8) { random.below(8) as u64 } else { 1 };
        let length = if random.chance(1, 10) { random.below(BUFFER) } else { BUFFER };
        write(tally, random, &Fields { class, span, start, stamps, picks }, n, m, length);
    }
}
