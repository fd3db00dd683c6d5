//! Earliest and latest times, against every plan in a box.

use random::Random;
use ward_reader::sheet::{Row, Sheet};

use crate::{answered, ward};

/// The fields of a plan's moments in the JSON of a text with one span.
fn field(json: &str, moment: &str, name: &str) -> String {
    let part = json.split(&format!("\"moment\": \"{moment}\"")).nth(1).unwrap_or_else(|| panic!("{moment}: {json}"));
    let value = part.split(&format!("\"{name}\": ")).nth(1).unwrap_or_else(|| panic!("{name}: {json}"));
    value.split([',', '\n']).next().expect("a value").trim_matches('"').into()
}

/// A time, or why there is none.
fn bound(json: &str, moment: &str, name: &str) -> String {
    let (minute, is) = (field(json, moment, name), field(json, moment, &format!("{name}_is")));
    assert_eq!(is == "at", minute != "null", "{json}");
    if is == "at" {
        minute
    } else {
        is
    }
}

/// The larger of what a side holds.
fn side(leads: &[Option<i32>], plan: &[Option<i32>]) -> Option<i32> {
    leads.iter().zip(plan).filter_map(|(lead, stamp)| Some((*lead)? + (*stamp)?)).max()
}

fn keeps(sheet: &Sheet, plan: &[Option<i32>]) -> bool {
    sheet.rules.iter().all(|rule| side(&rule.left, plan) <= side(&rule.right, plan))
}

/// The plan's span, where both its groups are planned.
fn span(row: &Row, plan: &[Option<i32>]) -> Option<i32> {
    Some(side(&row.left, plan)? - side(&row.right, plan)?)
}

/// Every plan of two moments, blank or within so many minutes of the anchor.
fn plans(most: i32) -> Vec<[Option<i32>; 3]> {
    let stamps: Vec<Option<i32>> = [None].into_iter().chain((-most..=most).map(Some)).collect();
    stamps.iter().flat_map(|&a| stamps.iter().map(move |&b| [Some(0), a, b])).collect()
}

/// Rules of two moments with leads within ±3: a time that is attained lies within 12 minutes of the anchor, and one that has no
/// end goes beyond.
#[test]
fn times_are_those_of_every_plan_with_the_least_span() {
    let (least, _) = compared(35, 120, "anchor <= a + 3\nanchor <= b + 3\n");
    assert!(least >= 30, "{least}");
}

/// Where nothing holds the moments, plans may leave both groups out. Those do not count (document 02, 2.4), and the times are
/// those of the plans that do.
#[test]
fn times_are_those_of_plans_that_count() {
    let (least, uncounted) = compared(24, 240, "");
    assert!(least >= 30 && uncounted >= 10, "{least} {uncounted}");
}

/// Compares the times of random texts with so many plans; how many had a least span, and in how many of these a plan that
/// keeps the rules has neither group.
fn compared(seed: u64, count: usize, held: &str) -> (usize, usize) {
    let mut random = Random::new(seed);
    let plans = plans(30);
    let (mut least, mut uncounted) = (0, 0);
    for _ in 0..count {
        let text = small(&mut random, held);
        let told = ward(&["--json", "-"], &text);
        assert_eq!(told.status, Some(0), "{text}{told:?}");
        if !told.out.contains("\"class\": \"least\"") {
            continue;
        }
        least += 1;
        let sheet = ward_reader::read(text.as_bytes(), &ward_reader::Clock::unjudged()).sheet.expect("a good text");
        let minutes: i32 = told
            .out
            .split("\"span\": ")
            .nth(1)
            .and_then(|rest| rest.split(',').next())
            .and_then(|n| n.parse().ok())
            .expect("a span");
        let good: Vec<_> = plans
            .iter()
            .filter(|plan| keeps(&sheet, *plan) && span(&sheet.questions[0].row, *plan) == Some(minutes))
            .collect();
        let Row { left, right, .. } = &sheet.questions[0].row;
        let neither = |plan: &[Option<i32>]| side(left, plan).is_none() && side(right, plan).is_none();
        uncounted += plans.iter().any(|plan| keeps(&sheet, plan) && neither(plan)) as usize;
        for (moment, name) in [(1, "a"), (2, "b")] {
            let blank = good.iter().any(|plan| plan[moment].is_none());
            let stamps = || good.iter().filter_map(|plan| plan[moment]);
            let earliest = match stamps().min() {
                Some(minute) if minute > -13 && !blank => minute.to_string(),
                Some(_) => "no limit".into(),
                None => "never".into(),
            };
            let latest = match stamps().max() {
                Some(minute) if minute < 13 => minute.to_string(),
                Some(_) => "no limit".into(),
                None => "never".into(),
            };
            assert_eq!(bound(&told.out, name, "earliest"), earliest, "{name}\n{text}{}", told.out);
            assert_eq!(bound(&told.out, name, "latest"), latest, "{name}\n{text}{}", told.out);
        }
    }
    (least, uncounted)
}

/// Up to three rules over two moments beside those that hold them.
fn small(random: &mut Random, held: &str) -> String {
    let side = |random: &mut Random| {
        let mut names = vec!["anchor", "a", "b"];
        let count = 1 + random.below(2);
        let terms: Vec<String> = (0..count)
            .map(|_| {
                let name = names.remove(random.below(names.len()));
                match random.lead(-3, 3) {
                    0 => name.to_string(),
                    lead => format!("{name} {} {}", if lead < 0 { '-' } else { '+' }, lead.abs()),
                }
            })
            .collect();
        if count == 1 {
            terms.concat()
        } else {
            format!("later of ({})", terms.join("), ("))
        }
    };
    let mut text = format!("moments: a, b\nrecord: with rules that forbid their own moments\n{held}");
    for _ in 0..random.below(4) {
        text += &format!("{} <= {}\n", side(random), side(random));
    }
    text + &format!("span: from {} to {}\n", side(random), side(random))
}

#[test]
fn where_times_cannot_be_told_the_tool_says_so() {
    // Rules with the same right side are one: there is room for the span.
    for count in [62, 63] {
        let rules = "anchor + 30 <= a\n".repeat(count);
        let out = answered(&format!("moments: a\n{rules}span: from anchor to a\n"));
        assert!(out.contains("earliest  latest") && out.contains("0:30  a       0:30      0:30\n"), "{out}");
    }
    // Each of these has a right side of its own.
    let names: Vec<String> = (1..=12).map(|number| format!("m{number}")).collect();
    let pairs = (0..12).flat_map(|one| (one + 1..12).map(move |other| (one, other)));
    let rule = |(one, other): (usize, usize)| format!("anchor + 7 <= later of {}, {}\n", names[one], names[other]);
    let rules: Vec<String> = pairs.map(rule).collect();
    let text = |count: usize, more: &str| {
        let names = names.join(", ");
        format!("moments: {names}, x, y\n{}{more}span: from anchor to later of m1, m2\n", rules[..count].concat())
    };
    let told = ward(&["-q", "-"], text(63, ""));
    let words = "Earliest and latest times of m1, m2, m3, m4, m5, m6, m7, m8, m9, m10, m11 and m12 cannot be told: the rules are too \
                 many for the span to be one more.";
    assert!(told.out.contains(words), "{told:?}");
    // What no chain of rules ties to the span needs no room: 62 rules and the span, and the rule of x alone.
    let told = ward(&["-q", "-"], text(62, "anchor + 5 <= x\n"));
    assert!(!told.out.contains("cannot be told") && told.out.matches("earliest  latest").count() == 1, "{told:?}");
    let times = |out: &str, name: &str| {
        let line = out.lines().find(|line| line.contains(&format!("  {name}  "))).expect("a line");
        line.split_whitespace().skip(2).map(String::from).collect::<Vec<_>>()
    };
    let fewer = ward(&["-q", "-"], text(61, "anchor + 5 <= x\n"));
    for name in ["x", "m3", "m10"] {
        assert_eq!(times(&told.out, name), times(&fewer.out, name), "{name}: {told:?}");
    }
    // Three stretches of 20,000 minutes: the span fits no lead, and two leads would have to be beyond the limit.
    let long = "moments: a, b, c\nanchor + 20000 <= a\na + 20000 <= b\nb + 20000 <= c\nspan: from anchor to c\n";
    let out = answered(long);
    assert!(out.contains("says: accepted least 60000"), "{out}");
    assert!(out.contains("cannot be told: the span is too long"), "{out}");
    // 40,000 minutes are shared between both sides of the rule.
    let out = answered(&long.replace("b + 20000", "b + 0"));
    assert!(out.contains("accepted least 40000") && out.contains("earliest"), "{out}");
}

#[test]
fn quick_asks_for_no_times() {
    let told = ward(&["--quick", "-"], crate::E);
    assert!(told.status == Some(0) && !told.out.contains("earliest"), "{told:?}");
}
