//! A census of small problems (document 02, 2.14): every census of at most 65,536 problems, each problem against every plan that counts,
//! and all that gets 27.

use crate::exhaustive::{every_plan, reach};
use crate::paper::{largest, Minute};
use crate::programs;
use crate::tally::Tally;

/// The most problems that are counted.
const MOST: u64 = 65_536;
/// Below every side that is not blank.
const BLANK: i64 = i64::MIN;
/// The line of words above the columns.
const WORDS: &str = "n m w least bottomless none refused\n";

/// Least, bottomless, none, and under refusal 17.
type Counts = [u64; 4];

/// (2w + 2) to the power 2 × (n + 1) × (m + 1), or the first power above 65,536.
fn total(n: u64, m: u64, w: u64) -> u64 {
    let mut total = 1;
    for _ in 0..2 * (n + 1) * (m + 1) {
        total *= 2 * w + 2;
        if total > MOST {
            break;
        }
    }
    total
}

/// Refusal 27, sentence by sentence.
fn refused(n: u64, m: u64, w: u64) -> bool {
    w == 0 || w > 20_160 || n > 31 || m > 63 || total(n, m, w) > MOST
}

/// A census that is refused or short: package and program are asked for it alone too.
fn quick(n: u64, m: u64, w: u64) -> bool {
    refused(n, m, w) || total(n, m, w) <= 4_096
}

/// Every n, m and w with a census, in this order.
fn triples() -> Vec<(u64, u64, u64)> {
    let mut triples = Vec::new();
    for (n, m) in (0..=31).flat_map(|n| (0..=63).map(move |m| (n, m))) {
        triples.extend((1..=20_160).take_while(|w| !refused(n, m, *w)).map(|w| (n, m, w)));
    }
    triples
}

/// All lists of so many leads.
fn lists(leads: &[Minute], length: usize) -> Vec<Vec<Minute>> {
    let mut lists = vec![Vec::new()];
    for _ in 0..length {
        lists = lists.iter().flat_map(|list| leads.iter().map(|lead| [&list[..], &[*lead]].concat())).collect();
    }
    lists
}

/// The problems of one n and w: the sides of all lists of n + 1 leads under all plans of the box, blank as a number below all others.
struct Sides {
    sides: Vec<Vec<i64>>,
    blank: usize,
    lowest: i64,
}

impl Sides {
    fn new(n: usize, w: i64) -> Sides {
        let leads: Vec<Minute> = std::iter::once(None).chain((-w..=w).map(Some)).collect();
        let lists = lists(&leads, n + 1);
        let mut plans = Vec::new();
        every_plan(n, reach(n, w), |plan| plans.push(plan.to_vec()));
        let side = |list: &Vec<Minute>| plans.iter().map(|plan| largest(list, plan).unwrap_or(BLANK)).collect();
        let blank = lists.iter().position(|list| list.iter().all(|lead| lead.is_none())).expect("the blank list");
        Sides { sides: lists.iter().map(side).collect(), blank, lowest: -2 * (n as i64 + 1) * w }
    }

    /// The class of a question over the plans that keep the rules: 0 least, 1 bottomless, 2 none. A plan counts only if its second
    /// list is not blank (2.4).
    fn class(&self, first: &[i64], second: &[i64], kept: &[usize]) -> usize {
        let mut best = i64::MAX;
        for &plan in kept {
            if second[plan] == BLANK {
                continue;
            }
            if first[plan] == BLANK || first[plan] - second[plan] < self.lowest {
                return 1;
            }
            best = best.min(first[plan] - second[plan]);
        }
        if best == i64::MAX {
            2
        } else {
            0
        }
    }

    /// Counts all problems with so many rules more over the plans that keep the rules so far, one of which may say nothing.
    fn count(&self, rules: usize, silent: bool, kept: &[usize], counts: &mut Counts) {
        for (number, left) in self.sides.iter().enumerate() {
            for right in &self.sides {
                if rules == 0 {
                    counts[if silent { 3 } else { self.class(left, right, kept) }] += 1;
                } else {
                    let kept: Vec<usize> = kept.iter().copied().filter(|&plan| left[plan] <= right[plan]).collect();
                    self.count(rules - 1, silent || number == self.blank, &kept, counts);
                }
            }
        }
    }
}

/// The census by definition.
fn expected(n: u64, m: u64, w: u64) -> Counts {
    let sides = Sides::new(n as usize, w as i64);
    let kept: Vec<usize> = (0..sides.sides[0].len()).collect();
    let mut counts = [0; 4];
    sides.count(m as usize, false, &kept, &mut counts);
    counts
}

/// What the library says, its result taken apart as the header describes; the places behind the four stay.
fn found(tally: &mut Tally, n: u64, m: u64, w: u64) -> Result<Counts, u64> {
    let mut places = [7; 6];
    let result = span::raw::census(n, m, w, &mut places);
    let (counts, behind) = (places[..4].try_into().expect("four places"), &places[4..]);
    tally.same("places behind the counts", behind, &[7; 2], &[], &[]);
    let raw = if result == 0 { Ok(counts) } else { Err(result) };
    if quick(n, m, w) {
        let told = span::census(n, m, w).map(|census| [census.least, census.bottomless, census.none, census.refused]);
        tally.same("the package", told.map_err(|refusal| refusal.number as u64), raw, &[], &[]);
    }
    if result != 0 {
        tally.same("places of a census that is refused", places, [7; 6], &[], &[]);
    }
    raw
}

fn line(numbers: &[u64]) -> String {
    numbers.iter().map(u64::to_string).collect::<Vec<_>>().join(" ") + "\n"
}

/// What the program prints on standard output, with words behind its name, and whether it says something on standard error.
fn printed(tally: &mut Tally, words: &[&str]) -> (String, bool) {
    match programs::census(words) {
        Ok((output, error)) => (String::from_utf8_lossy(&output).into_owned(), !error.is_empty()),
        Err(message) => {
            tally.fail(message, &[], &[]);
            (String::new(), false)
        }
    }
}

/// 27, by the library and by the program.
fn try_refused(tally: &mut Tally, n: u64, m: u64, w: u64) {
    let what = format!("census {n} {m} {w}");
    let found = found(tally, n, m, w);
    tally.same(&what, found, Err(27), &[], &[]);
    let words = [n, m, w].map(|number| number.to_string());
    let printed = printed(tally, &words.each_ref().map(String::as_str));
    tally.same(&what, printed, ("refused 27\n".into(), false), &[], &[]);
    tally.count("refused");
}

/// Every n, m, w just beyond, and numbers so large that a power overflows.
fn refusals(tally: &mut Tally) {
    for (n, m, w) in
        [(0, 0, 0), (0, 0, 20_161), (32, 0, 1), (0, 64, 1), (0, 0, 128), (0, 0, 20_160), (31, 63, 20_160), (31, 63, 1)]
    {
        try_refused(tally, n, m, w);
    }
    // The first total above 65,536 of each n and m.
    for (n, m) in (0..5).flat_map(|n| (0..5).map(move |m| (n, m))) {
        let above = (1..).find(|w| refused(n, m, *w)).expect("a total above");
        try_refused(tally, n, m, above);
    }
    let large = [1, 31, 63, 1 << 15, (1 << 31) - 1, 1 << 32, (1 << 63) - 1, 1 << 63, u64::MAX - 1, u64::MAX];
    for (n, m) in large.iter().flat_map(|n| large.iter().map(move |m| (*n, *m))) {
        for w in large.into_iter().filter(|w| refused(n, m, *w)) {
            let found = found(tally, n, m, w);
            tally.same(&format!("census {n} {m} {w}"), found, Err(27), &[], &[]);
            tally.count("refused with large numbers");
        }
    }
}

/// Fewer places than four: 255 after 27, and nothing is written.
fn short_places(tally: &mut Tally) {
    for size in 0..4 {
        let mut places = [7; 4];
        tally.same("places", span::raw::census(0, 0, 1, &mut places[..size]), 255, &[], &[]);
        tally.same("places", span::raw::census(0, 0, 0, &mut places[..size]), 27, &[], &[]);
        tally.same("places", places, [7; 4], &[], &[]);
        tally.count("with too few places");
    }
}

/// Words that the program takes and does not take.
fn words(tally: &mut Tally) {
    let small = line(&expected(0, 0, 1));
    for words in [["0", "0", "1"], ["00", "000", "0001"]] {
        let found = printed(tally, &words);
        tally.same("three numbers", found, (small.clone(), false), &[], &[]);
        tally.count("of words");
    }
    let long = "9".repeat(4_000);
    for large in ["18446744073709551615", "18446744073709551616", "99999999999999999999999999", &long] {
        for place in 0..3 {
            let mut words = ["0", "0", "1"];
            words[place] = large;
            let found = printed(tally, &words);
            tally.same("a large number", found, ("refused 27\n".into(), false), &[], &[]);
            tally.count("of words");
        }
    }
    for words in [
        &["0"][..],
        &["0", "0"],
        &["0", "0", "1", "1"],
        &["", "0", "1"],
        &["0", "-1", "1"],
        &["0", "0", "1 "],
        &["0", "0x1", "1"],
    ] {
        let found = printed(tally, words);
        tally.same("no three numbers", found, (String::new(), true), &[], &[]);
        tally.count("of words");
    }
}

/// The handbook's table.
fn table(counted: &[((u64, u64, u64), Counts)]) -> String {
    let rows = counted.iter().map(|((n, m, w), counts)| line(&[&[*n, *m, *w], &counts[..]].concat()));
    std::iter::once(WORDS.to_string()).chain(rows).collect()
}

fn counted() -> Vec<((u64, u64, u64), Counts)> {
    triples().into_iter().map(|(n, m, w)| ((n, m, w), expected(n, m, w))).collect()
}

/// Prints the handbook's table by definition.
pub fn print_table() {
    print!("{}", table(&counted()));
}

pub fn run(tally: &mut Tally) {
    let counted = counted();
    tally.same("triples", counted.len(), 148, &[], &[]);
    tally.same("n = m = 0, w = 1", counted[0], ((0, 0, 1), [9, 3, 4, 0]), &[], &[]);
    for ((n, m, w), counts) in &counted {
        let what = format!("census {n} {m} {w}");
        tally.same(&what, counts.iter().sum(), total(*n, *m, *w), &[], &[]);
        let found = found(tally, *n, *m, *w);
        tally.same(&what, found, Ok(*counts), &[], &[]);
        if quick(*n, *m, *w) {
            let words = [n, m, w].map(|number| number.to_string());
            let printed = printed(tally, &words.each_ref().map(String::as_str));
            tally.same(&what, printed, (line(counts), false), &[], &[]);
            tally.count("censuses by the program alone");
        }
        tally.count("censuses");
    }
    let table = table(&counted);
    let found = printed(tally, &[]);
    tally.same("the handbook's table", found, (table.clone(), false), &[], &[]);
    let stored = std::fs::read_to_string(programs::repository().join("crates/census/stdout")).unwrap_or_default();
    tally.same("the stored table", stored, table, &[], &[]);
    refusals(tally);
    short_places(tally);
    words(tally);
}
