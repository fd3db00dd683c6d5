//! Suspended rules (document 02, 2.10): a text with some is answered as the text without their lines, and rules keep their numbers.

use random::Random;

use crate::scratch::Scratch;
use crate::{ward, Told};

/// Two moments, up to five rules, some of them suspended, and one span or two. The text, the text without the lines of suspended
/// rules, and the numbers of the rules in force.
fn texts(random: &mut Random) -> (String, String, Vec<usize>) {
    let side = |random: &mut Random| {
        let name = ["anchor", "a", "b"][random.below(3)];
        match random.lead(-9, 9) {
            lead if lead < 0 => format!("{name} - {}", -lead),
            lead => format!("{name} + {lead}"),
        }
    };
    let head = "moments: a, b\nrecord: with rules that forbid their own moments\n";
    let (mut all, mut only, mut numbers) = (head.to_string(), head.to_string(), Vec::new());
    for number in 1..=random.below(6) {
        let rule = format!("{} <= {}\n", side(random), side(random));
        if random.chance(1, 2) {
            all += &rule;
            only += &rule;
            numbers.push(number);
        } else {
            all += &format!("suspended: {rule}");
        }
    }
    for span in ["span: from anchor to a\n", "span: from b to a\n"].iter().take(1 + random.below(2)) {
        all += span;
        only += span;
    }
    (all, only, numbers)
}

/// The values of a field in JSON, in order; a list as its numbers or words.
fn fields(json: &str, name: &str) -> Vec<String> {
    let start = format!("\"{name}\": ");
    let value = |part: &str| match part.strip_prefix('[') {
        Some(list) => list.split(']').next().expect("a list").split_whitespace().collect(),
        None => part.split([',', '\n']).next().expect("a value").to_string(),
    };
    json.split(&start).skip(1).map(value).collect()
}

/// Numbers of rules.
fn numbers(list: &str) -> Vec<usize> {
    list.split(',').filter(|number| !number.is_empty()).map(|number| number.parse().expect("a number")).collect()
}

/// Each moment with its earliest and latest time.
fn times(json: &str) -> Vec<(String, Vec<String>, Vec<String>)> {
    let of = |part: &str| {
        let name = part.split('"').next().expect("a name").to_string();
        (
            name,
            fields(part, "earliest").into_iter().take(1).collect(),
            fields(part, "latest").into_iter().take(1).collect(),
        )
    };
    let mut times: Vec<_> = json.split("\"moment\": \"").skip(1).map(of).collect();
    times.sort();
    times
}

#[test]
fn answers_are_those_of_the_rules_in_force() {
    let mut random = Random::new(210);
    let (mut least, mut bottomless, mut none, mut suspended) = (0, 0, 0, 0);
    for _ in 0..250 {
        let (all, only, in_force) = texts(&mut random);
        let (told, other): (Told, Told) = (ward(&["--json", "-"], &all), ward(&["--json", "-"], &only));
        assert_eq!((told.status, other.status), (Some(0), Some(0)), "{all}{told:?}");
        for name in ["class", "span", "verdict", "accepted", "why", "no_latest", "no_earliest"] {
            assert_eq!(fields(&told.out, name), fields(&other.out, name), "{name}\n{all}{}", told.out);
        }
        assert_eq!(times(&told.out), times(&other.out), "{all}{}", told.out);
        // No suspended rule is behind an answer; why there is none is told by the same rules under their own numbers.
        let (named, plain) = (fields(&told.out, "rules_needed"), fields(&other.out, "rules_needed"));
        for list in named.iter().chain(&fields(&told.out, "rules_behind")) {
            assert!(numbers(list).iter().all(|number| in_force.contains(number)), "{all}{}", told.out);
        }
        if !told.out.contains("\"class\": \"least\"") {
            let moved = |list: &String| numbers(list).iter().map(|number| in_force[number - 1]).collect::<Vec<_>>();
            let named: Vec<_> = named.iter().map(|list| numbers(list)).collect();
            assert_eq!(named, plain.iter().map(moved).collect::<Vec<_>>(), "{all}{}", told.out);
        }
        suspended += all.contains("suspended:") as usize;
        least += told.out.contains("\"class\": \"least\"") as usize;
        bottomless += told.out.contains("\"class\": \"bottomless\"") as usize;
        none += told.out.contains("\"class\": \"none\"") as usize;
    }
    let counts = [least, bottomless, none, suspended];
    assert!(counts.iter().all(|&count| count >= 20), "{counts:?}");
}

/// A rule that is lifted for the weekend: without it the bed can be had earlier. Answers are judged with the states of their problem.
#[test]
fn a_rule_is_lifted() {
    let weekday = "moments: bed\nanchor + 30 <= bed\nanchor + 50 <= bed\nspan: from anchor to bed\n";
    let weekend = weekday.replace("anchor + 50", "suspended: anchor + 50");
    let scratch = Scratch::new("suspended");
    for (text, least) in [(weekday.to_string(), "least 50"), (weekend.clone(), "least 30")] {
        let told = ward(&["-"], &text);
        assert!(told.status == Some(0) && told.out.contains(&format!("accepted {least}")), "{told:?}");
        let json = ward(&["--json", "-"], &text).out;
        let answer = fields(&json, "answer")[0].trim_matches('"').to_string();
        let bytes: Vec<u8> = (0..answer.len() / 2)
            .map(|place| u8::from_str_radix(&answer[2 * place..2 * place + 2], 16).expect("digits"))
            .collect();
        let file = scratch.path("answer");
        std::fs::write(&file, bytes).expect("a file");
        // The same answer for the weekend: accepted there only if it is the weekend's.
        let judged = ward(&["judge", "-", file.to_str().expect("a path")], &weekend);
        assert_eq!(judged.status == Some(0), least == "least 30", "{judged:?}");
    }
    let json = ward(&["--json", "-"], &weekend).out;
    assert_eq!(fields(&json, "in_force"), ["true", "false"], "{json}");
    assert_eq!(fields(&json, "rules_behind"), ["1"], "{json}");
    let page = ward(&["--html", "-"], &weekend).out;
    assert!(page.contains("<span class=\"suspended\">") && page.contains("accepted least 30"), "{page}");
}
