//! Opening hours of a ward (document 02, 2.8): the first open minute, minute by minute, and what gets 19.

use crate::tally::Tally;
use random::Random;

const WEEK: i64 = 10_080;
const LIMIT: i64 = 6_000_000;
const OFFSET: i64 = 1 << 31;

/// What is answered for a list and a minute.
#[derive(Clone, Copy, Debug, PartialEq, Eq)]
enum Answer {
    At(i64),
    Never,
    Refused(u64),
}

/// Refusal 19 for a list of openings and closings in turn, sentence by sentence.
fn bad(list: &[u64]) -> bool {
    let windows: Vec<&[u64]> = list.chunks(2).collect();
    list.len() % 2 == 1
        || windows.len() > 14
        || windows.iter().any(|window| window[1] <= window[0])
        || windows.iter().any(|window| window[0] > 10_079)
        || windows.iter().any(|window| window[1] < 1 || window[1] > 10_080)
        || windows.windows(2).any(|pair| pair[1][0] < pair[0][1])
}

/// Open at a minute of any week: in a window, its closing minute not among it.
fn open(list: &[u64], z: i64) -> bool {
    let minute = z.rem_euclid(WEEK) as u64;
    list.chunks(2).any(|window| window[0] <= minute && minute < window[1])
}

/// What document 02 says, by a plain loop from the minute on.
fn expected(list: &[u64], z: i64) -> Answer {
    if bad(list) || !(-LIMIT..=LIMIT).contains(&z) {
        return Answer::Refused(19);
    }
    if list.is_empty() {
        return Answer::Never;
    }
    let mut a = z;
    while !open(list, a) {
        a += 1;
    }
    Answer::At(a)
}

/// What the library says, its result taken apart as the header describes.
fn found(list: &[u64], z: i64) -> Answer {
    let result = span::raw::first_open(list, (z + OFFSET) as u64);
    match (result, result & 0xFFFF_FFFF) {
        (0, _) => Answer::Never,
        (_, 0) => Answer::At((result >> 32) as i64 - OFFSET),
        _ => Answer::Refused(result),
    }
}

fn compare(tally: &mut Tally, list: &[u64], z: i64, expected: Answer) {
    let found = found(list, z);
    if found != expected {
        tally.fail(format!("week list {list:?}, minute {z}: found {found:?}, expected {expected:?}"), &[], &[]);
    }
    tally.count(match expected {
        Answer::At(_) => "minutes",
        Answer::Never => "never",
        Answer::Refused(_) => "refused",
    });
}

fn one(tally: &mut Tally, list: &[u64], z: i64) {
    compare(tally, list, z, expected(list, z));
}

/// Every minute of a week of a good list, from its last minute back: a minute that is open is its own first open minute.
fn every_minute(tally: &mut Tally, list: &[u64], week: i64) {
    let monday = week * WEEK;
    let mut first = expected(list, monday + WEEK);
    for z in (monday..monday + WEEK).rev() {
        if open(list, z) {
            first = Answer::At(z);
        }
        compare(tally, list, z, first);
        if let Answer::At(a) = first {
            if a - z >= WEEK {
                tally.fail(format!("week list {list:?}, minute {z}: {a} is a week away or more"), &[], &[]);
            }
        }
    }
}

/// Every list with up to two windows whose minutes are those given, good and bad ones: a good one at every minute of a
/// week, weeks in turn; a bad one at a few minutes.
fn every_list(tally: &mut Tally, minutes: &[u64]) {
    let weeks = [0, -1, 1, -595, 594, 52, -300];
    let mut turn = 0;
    let mut try_list = |tally: &mut Tally, list: &[u64]| {
        if bad(list) {
            for z in [0, -1, 10_079, LIMIT, -LIMIT] {
                one(tally, list, z);
            }
            tally.count("bad lists");
        } else {
            every_minute(tally, list, weeks[turn % weeks.len()]);
            turn += 1;
            tally.count("good lists");
        }
    };
    try_list(tally, &[]);
    for &a in minutes {
        for &b in minutes {
            try_list(tally, &[a, b]);
            for &c in minutes {
                for &d in minutes {
                    try_list(tally, &[a, b, c, d]);
                }
            }
        }
    }
}

/// The limits of a minute to be looked up, around which the answer may lie beyond.
fn limits(tally: &mut Tally) {
    let lists: [&[u64]; 6] = [&[], &[0, 10_080], &[0, 1], &[10_079, 10_080], &[420, 1080], &[0, 10, 10_070, 10_080]];
    for list in lists {
        for z in [LIMIT, LIMIT - 1, LIMIT + 1, -LIMIT, -LIMIT + 1, -LIMIT - 1] {
            one(tally, list, z);
        }
        // Numbers that stand for minutes far away, blank among them.
        for number in [0, 1, u32::MAX as u64, 1 << 32, u64::MAX, u64::MAX - 1, 1 << 63] {
            let result = span::raw::first_open(list, number);
            tally.same("a minute far away", result, 19, &[], &[]);
            tally.count("minutes far away");
        }
    }
    // The largest wait at the highest minute: the answer lies 10,079 beyond.
    let at = LIMIT.rem_euclid(WEEK) as u64;
    let result = found(&[at - 1, at], LIMIT);
    tally.same("the answer farthest beyond", result, Answer::At(LIMIT + 10_079), &[], &[]);
}

/// What has an edge: windows that touch, the end of one week and the start of the next, 14 and 15 windows, odd lists.
fn edges(tally: &mut Tally) {
    let good: [&[u64]; 7] = [
        &[0, 10_080],
        &[0, 1],
        &[10_079, 10_080],
        &[100, 200, 200, 300],
        &[0, 5040, 5040, 10_080],
        &[0, 60, 10_020, 10_080],
        &[0, 1, 1, 2, 2, 3, 10_079, 10_080],
    ];
    for list in good {
        tally.same("a good list", bad(list), false, &[], &[]);
        for week in [-2, -1, 0, 1] {
            every_minute(tally, list, week);
        }
    }
    for windows in 1..=20u64 {
        let list: Vec<u64> = (0..windows).flat_map(|i| [500 * i, 500 * i + 250]).collect();
        for z in [-10_081, -1, 0, 249, 250, 6_749, 6_750, 10_079, LIMIT] {
            one(tally, &list, z);
        }
        tally.same("19 from 15 windows on", bad(&list), windows > 14, &[], &[]);
        one(tally, &list[..list.len() - 1], 0);
    }
    let refused: [&[u64]; 14] = [
        &[5],
        &[5, 10, 20],
        &[5, 5],
        &[6, 5],
        &[0, 0],
        &[10_080, 10_080],
        &[10_080, 10_081],
        &[0, 10_081],
        &[0, u64::MAX],
        &[u64::MAX, 5],
        &[100, 200, 199, 300],
        &[100, 200, 50, 60],
        &[100, 200, 100, 200],
        &[5000, 6000, 0, 10],
    ];
    for list in refused {
        tally.same("a bad list", bad(list), true, &[], &[]);
        for z in [0, -1, LIMIT, -LIMIT, LIMIT + 1] {
            one(tally, list, z);
        }
    }
}

/// Random lists of up to 15 windows, some damaged in one place, at random minutes.
fn random_lists(tally: &mut Tally, random: &mut Random) {
    for _ in 0..20_000 {
        let windows = random.below(16);
        let mut cuts: Vec<u64> = (0..2 * windows).map(|_| random.below(10_081) as u64).collect();
        cuts.sort_unstable();
        if random.below(4) == 0 && !cuts.is_empty() {
            let place = random.below(cuts.len());
            cuts[place] = random.below(10_090) as u64;
        }
        for _ in 0..4 {
            let z = random.below(12_000_011) as i64 - LIMIT - 5;
            one(tally, &cuts, z);
        }
    }
}

/// The package's own call gives the same.
fn package(tally: &mut Tally, random: &mut Random) {
    for _ in 0..2_000 {
        let mut cuts: Vec<u32> = (0..2 * random.below(8)).map(|_| random.below(10_081) as u32).collect();
        cuts.sort_unstable();
        let week: Vec<span::Window> =
            cuts.chunks(2).map(|pair| span::Window { opening: pair[0], closing: pair[1] }).collect();
        let list: Vec<u64> = cuts.iter().map(|&minute| minute as u64).collect();
        let z = random.below(12_000_011) as i64 - LIMIT - 5;
        let said = match span::first_open(&week, z as i32) {
            Ok(Some(a)) => Answer::At(a as i64),
            Ok(None) => Answer::Never,
            Err(refusal) => Answer::Refused(refusal.number as u64),
        };
        if said != expected(&list, z) {
            tally.fail(format!("the package on {list:?}, minute {z}: {said:?}"), &[], &[]);
        }
        tally.count("by the package");
    }
}

pub fn run(tally: &mut Tally) {
    let coarse: Vec<u64> = (0..=12).map(|step| 840 * step).collect();
    every_list(tally, &coarse);
    every_list(tally, &[0, 1, 2, 5039, 10_078, 10_079, 10_080, 10_081]);
    limits(tally);
    edges(tally);
    let seed = 28;
    tally.seed(seed);
    let mut random = Random::new(seed);
    random_lists(tally, &mut random);
    package(tally, &mut random);
}
